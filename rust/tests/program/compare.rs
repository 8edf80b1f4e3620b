//! `dolzhytik size OLD NEW`.
use crate::program::{Answer, Folder};
use crate::samples::{custom, module};
use crate::tools::{compile, link};
use std::path::Path;
use std::process::Command;

const HEAD: &str = "    before      after     change       %  name\n";

const TYPE: &str = "01 04 01 60 00 00";
const THREE: &str = "03 04 03 00 00 00";

/// Functions `a`, `b` and `c` of 3, 4 and 5 bytes.
const OLD_CODE: &str = "0a 0d 03 02000b 0300010b 040001010b";
const OLD_NAMES: &str = "01 0a 03 000161 010162 020163";

/// Functions `d`, `z` and `b` of 6, 3 and 7 bytes. The body of `z` is that of `a`.
const NEW_CODE: &str = "0a 11 03 05000101010b 02000b 0600010101010b";
const NEW_NAMES: &str = "01 0a 03 000164 01017a 020162";

/// The modules before and after, in files `a.wasm` and `b.wasm`.
fn builds(old: &[&str], new: &[&str]) -> Folder {
    let folder = Folder::new("compare");
    folder.write("a.wasm", module(old));
    folder.write("b.wasm", module(new));
    folder
}

fn functions() -> Folder {
    let (old_names, new_names) = (custom("name", OLD_NAMES), custom("name", NEW_NAMES));
    builds(
        &[TYPE, THREE, OLD_CODE, &old_names],
        &[TYPE, THREE, NEW_CODE, &new_names],
    )
}

/// Calls `size` for both files.
fn compare(folder: &Folder, words: &[&str]) -> Answer {
    folder.call(&[&["size", "a.wasm", "b.wasm"], words].concat(), b"")
}

#[track_caller]
fn check(folder: &Folder, words: &[&str], lines: &str) {
    let answer = compare(folder, words);
    let text = String::from_utf8(answer.out.clone()).unwrap();
    assert_eq!(text, format!("{HEAD}{lines}"));
    assert_eq!(answer, Answer::of(text));
}

/// A line of the table, without its column for percent.
struct Line {
    before: i64,
    after: i64,
    change: i64,
    name: String,
}

fn line(text: &str) -> Line {
    let (numbers, name) = text.split_at(41);
    let numbers: Vec<_> = numbers.split_whitespace().collect();
    let number = |at: usize| match numbers[at] {
        "-" => 0,
        number => number.parse().unwrap(),
    };
    Line {
        before: number(0),
        after: number(1),
        change: number(2),
        name: name.trim_start().into(),
    }
}

/// Checks that parts add up to the whole, in each column.
#[track_caller]
fn check_sum(parts: &[Line], whole: &Line) {
    let sum = |column: fn(&Line) -> i64| parts.iter().map(column).sum::<i64>();
    let sums = [sum(|it| it.before), sum(|it| it.after), sum(|it| it.change)];
    assert_eq!(sums, [whole.before, whole.after, whole.change]);
    assert_eq!(whole.change, whole.after - whole.before);
}

/// Checks that the sections and the header add up to the files, and functions and data segments to
/// their sections.
#[track_caller]
fn check_sums(text: &str, sizes: [u64; 2]) {
    let mut sections: Vec<_> = text.lines().skip(1).map(line).collect();
    let all = sections.iter().position(|it| it.name == "all").unwrap();
    let mut functions = sections.split_off(all + 1);
    let all = sections.pop().unwrap();
    assert_eq!([all.before, all.after], sizes.map(|size| size as i64));
    check_sum(&sections, &all);
    let rest_of_code = functions.iter().position(|it| it.name == "rest of code");
    let data = functions.split_off(rest_of_code.unwrap() + 1);
    let section = |name: &str| sections.iter().find(|it| it.name == name).unwrap();
    check_sum(&functions, section("code"));
    check_sum(&data, section("data"));
}

// ---- functions

const SECTIONS: &str = "        15         19         +4   +26.7  code
         6          6          0     0.0  type
         6          6          0     0.0  function
        19         19          0     0.0  custom \"name\"
         8          8          0     0.0  header
        54         58         +4    +7.4  all
";

#[test]
fn added_removed_grown_and_renamed_functions() {
    let folder = functions();
    let all = "         -          6         +6       -  function 0 <d>
         5          -         -5  -100.0  function 2 <c>
         4          7         +3   +75.0  function 2 <b>
         3          3          0     0.0  other functions (1)
         3          3          0     0.0  rest of code
";
    check(&folder, &[], &format!("{SECTIONS}{all}"));
    check(&folder, &["--functions=3"], &format!("{SECTIONS}{all}"));
    let one = "         -          6         +6       -  function 0 <d>
        12         10         -2   -16.7  other functions (3)
         3          3          0     0.0  rest of code
";
    check(&folder, &["--functions", "1"], &format!("{SECTIONS}{one}"));
    check(&folder, &["--functions", "0"], SECTIONS);
}

#[test]
fn functions_without_names_are_matched_by_their_bodies() {
    let folder = builds(&[TYPE, THREE, OLD_CODE], &[TYPE, THREE, NEW_CODE]);
    let lines = "        15         19         +4   +26.7  code
         6          6          0     0.0  type
         6          6          0     0.0  function
         8          8          0     0.0  header
        35         39         +4   +11.4  all
         -          7         +7       -  function 2
         -          6         +6       -  function 0
         5          -         -5  -100.0  function 2
         4          -         -4  -100.0  function 1
         3          3          0     0.0  other functions (1)
         3          3          0     0.0  rest of code
";
    check(&folder, &[], lines);
}

/// Of two functions `a` the first is removed.
#[test]
fn of_functions_with_a_name_equal_ones_are_matched() {
    let two = custom("name", "01 07 02 000161 010161");
    let one = custom("name", "01 04 01 000161");
    let folder = builds(
        &[TYPE, "03 03 02 00 00", "0a 08 02 02000b 0300010b", &two],
        &[TYPE, "03 02 01 00", "0a 05 01 0300010b", &one],
    );
    let lines = "        10          7         -3   -30.0  code
        16         13         -3   -18.8  custom \"name\"
         5          4         -1   -20.0  function
         6          6          0     0.0  type
         8          8          0     0.0  header
        45         38         -7   -15.6  all
         3          -         -3  -100.0  function 0 <a>
         4          4          0     0.0  other functions (1)
         3          3          0     0.0  rest of code
";
    check(&folder, &[], lines);
}

/// Eleven functions of 3 bytes are added, whose names are those of exports, and one of 2 bytes
/// stays.
#[test]
fn ten_functions_without_an_option() {
    let bodies = "02000b".repeat(11);
    let exports: String = (0..11)
        .map(|index| format!("01 {:x} 00 {index:02x}", 0x61 + index))
        .collect();
    let folder = builds(
        &["0a 04 01 02 00 0b"],
        &[
            &format!("07 2d 0b {exports}"),
            &format!("0a 22 0b {bodies}"),
        ],
    );
    let text = String::from_utf8(compare(&folder, &[]).out).unwrap();
    let functions: Vec<_> = text.lines().skip(5).collect();
    // The one function of the old build has no name, and the body of the first one.
    let added = |index: u8| {
        let name = char::from(b'a' + index);
        format!("         -          3         +3       -  function {index} <{name}>")
    };
    let mut expected: Vec<_> = (1..11).map(added).collect();
    expected.push("         3          3          0     0.0  other functions (1)".into());
    expected.push("         3          3          0     0.0  rest of code".into());
    assert_eq!(functions, expected, "{text}");
}

// ---- sections and data segments

#[test]
fn added_removed_and_grown_sections() {
    let [a, b, grown, c] =
        [("a", "01"), ("b", ""), ("b", "0102"), ("c", "")].map(|(name, data)| custom(name, data));
    let folder = builds(&[&b, &a], &["05 03 01 00 01", &grown, &c]);
    let lines = "         -          5         +5       -  memory
         5          -         -5  -100.0  custom \"a\"
         -          4         +4       -  custom \"c\"
         4          6         +2   +50.0  custom \"b\"
         8          8          0     0.0  header
        17         23         +6   +35.3  all
";
    check(&folder, &[], lines);
}

#[test]
fn of_sections_with_a_name_equal_ones_are_matched() {
    let (first, second) = (custom("a", "01"), custom("a", "0202"));
    let folder = builds(&[&first, &second], &[&second]);
    let lines = "         5          -         -5  -100.0  custom \"a\"
         6          6          0     0.0  custom \"a\"
         8          8          0     0.0  header
        19         14         -5   -26.3  all
";
    check(&folder, &[], lines);
}

/// An active segment of 7 bytes, and a passive one of 3 bytes.
const DATA: &str = "0b 0b 02 00 41000b 02 6161 01 01 62";

#[test]
fn data_segments_without_names() {
    let memory = "05 03 01 00 01";
    let folder = builds(
        &[memory, DATA],
        &[memory, "0b 0d 02 00 41000b 04 61616161 01 01 62"],
    );
    let lines = "        13         15         +2   +15.4  data
         5          5          0     0.0  memory
         8          8          0     0.0  header
        26         28         +2    +7.7  all
         7          9         +2   +28.6  data 0
         3          3          0     0.0  other data segments (1)
         3          3          0     0.0  rest of data
";
    check(&folder, &[], lines);
    check(&folder, &["--functions=1"], lines);
    let sections: String = lines.split_inclusive('\n').take(4).collect();
    check(&folder, &["--functions=0"], &sections);
}

/// Segment `a` is removed, `b` grows and gets another index, and `c` is added.
#[test]
fn data_segments_with_names() {
    let [old, new] = ["000161 010162", "000162 010163"];
    let names = |names: &str| custom("name", &format!("09 07 02 {names}"));
    let folder = builds(
        &[DATA, &names(old)],
        &["0b 08 02 01 03 626262 01 00", &names(new)],
    );
    let lines = "        13         10         -3   -23.1  data
        16         16          0     0.0  custom \"name\"
         8          8          0     0.0  header
        37         34         -3    -8.1  all
         7          -         -7  -100.0  data 0 <a>
         3          5         +2   +66.7  data 0 <b>
         -          2         +2       -  data 1 <c>
         3          3          0     0.0  rest of data
";
    check(&folder, &[], lines);
    let sections: String = lines.split_inclusive('\n').take(4).collect();
    let one = "         7          -         -7  -100.0  data 0 <a>
         3          7         +4  +133.3  other data segments (2)
         3          3          0     0.0  rest of data
";
    check(&folder, &["--functions=1"], &format!("{sections}{one}"));
}

#[test]
fn equal_files() {
    let folder = builds(
        &[TYPE, THREE, OLD_CODE, DATA],
        &[TYPE, THREE, OLD_CODE, DATA],
    );
    let lines = "         6          6          0     0.0  type
         6          6          0     0.0  function
        15         15          0     0.0  code
        13         13          0     0.0  data
         8          8          0     0.0  header
        48         48          0     0.0  all
        12         12          0     0.0  other functions (3)
         3          3          0     0.0  rest of code
        10         10          0     0.0  other data segments (2)
         3          3          0     0.0  rest of data
";
    check(&folder, &[], lines);
    check(&folder, &["--fail-above=0"], lines);
    check(&folder, &["--fail-above", "0%"], lines);
}

// ---- errors

const ONE: &str = "0a 04 01 02 00 0b";
/// Two functions, of which only one is there.
const ENDED: &str = "0a 04 02 02 00 0b";
const ENDED_WHY: &str = "section 1 (code) at offset 0xe: unexpected end of input";

const CODE_LINES: &str = "         6          6          0     0.0  code
         8          8          0     0.0  header
        14         14          0     0.0  all
";

/// Checks that these lines are on standard error below the table.
#[track_caller]
fn check_errors(folder: &Folder, words: &[&str], lines: &str, errors: &[&str]) {
    let expected = Answer {
        out: format!("{HEAD}{lines}").into(),
        err: errors
            .iter()
            .map(|it| format!("dolzhytik: {it}\n"))
            .collect(),
        status: 1,
    };
    assert_eq!(compare(folder, words), expected);
}

#[test]
fn code_that_does_not_decode_is_compared_as_a_section() {
    let [old, new] = ["a", "b"].map(|name| format!("{name}.wasm: {ENDED_WHY}"));
    for (sections, errors) in [
        ([ENDED, ONE], &[old.as_str()][..]),
        ([ONE, ENDED], &[&new]),
        ([ENDED, ENDED], &[&old, &new]),
    ] {
        let folder = builds(&sections[..1], &sections[1..]);
        check_errors(&folder, &[], CODE_LINES, errors);
        check(&folder, &["--functions=0"], CODE_LINES);
    }
}

#[test]
fn imports_and_data_that_do_not_decode() {
    let folder = builds(&[], &["02 07 01 01 61 01 62 09 00"]);
    let lines = "         -          9         +9       -  import
         8          8          0     0.0  header
         8         17         +9  +112.5  all
";
    let why = "b.wasm: section 1 (import) at offset 0xf: unexpected byte or value";
    check_errors(&folder, &[], lines, &[why]);
    // Two segments, of which only one is there, and a function that is compared.
    let folder = builds(&["0b 03 02 01 00"], &[ONE]);
    let sections = "         -          6         +6       -  code
         5          -         -5  -100.0  data
         8          8          0     0.0  header
        13         14         +1    +7.7  all
";
    let function = "         -          3         +3       -  function 0
         0          3         +3       -  rest of code
";
    let why = "a.wasm: section 1 (data) at offset 0xd: unexpected end of input";
    check_errors(&folder, &[], &format!("{sections}{function}"), &[why]);
    check(&folder, &["--functions=0"], sections);
}

#[test]
fn files_that_are_no_modules() {
    let folder = Folder::new("compare_files");
    folder.write("a.wasm", module(&[]));
    folder.write("b.wasm", "");
    let empty = Answer::fault("b.wasm: is empty, not a module");
    assert_eq!(compare(&folder, &["--fail-above=0"]), empty);
    // A section whose size is not there.
    folder.write("b.wasm", module(&["01"]));
    let ended = Answer::fault("b.wasm: section 1 at offset 0x9: unexpected end of input");
    assert_eq!(compare(&folder, &[]), ended);
    let answer = folder.call(&["size", "none.wasm", "b.wasm"], b"");
    assert!(
        answer.err.starts_with("dolzhytik: none.wasm: "),
        "{}",
        answer.err
    );
    assert_eq!((answer.out.len(), answer.status), (0, 1));
    // One of the files may be standard input.
    let answer = folder.call(&["size", "a.wasm", "-", "--fail-above=0"], &module(&[]));
    let lines = "         8          8          0     0.0  header
         8          8          0     0.0  all
";
    assert_eq!(answer, Answer::of(format!("{HEAD}{lines}")));
}

// ---- limits

/// Two modules of a custom section, of these sizes in bytes.
fn of_sizes(sizes: [usize; 2]) -> Folder {
    let [old, new] = sizes.map(|size| custom("a", &"00".repeat(size - 12)));
    builds(&[&old], &[&new])
}

#[track_caller]
fn check_limit(sizes: [usize; 2], limit: &str, error: Option<&str>) {
    let answer = compare(&of_sizes(sizes), &["--fail-above", limit]);
    let err = error.map_or(String::new(), |error| {
        format!("dolzhytik: b.wasm: {error}\n")
    });
    assert_eq!((answer.err, answer.status), (err, error.is_some().into()));
    assert!(answer.out.ends_with(b"  all\n"));
}

#[test]
fn limits_in_bytes() {
    check_limit([50, 55], "5", None);
    let why = "55 bytes, 5 more than a.wasm; --fail-above 4 allows 4 more";
    check_limit([50, 55], "4", Some(why));
    let why = "51 bytes, 1 more than a.wasm; --fail-above 0 allows 0 more";
    check_limit([50, 51], "0", Some(why));
    check_limit([51, 50], "0", None);
}

#[test]
fn limits_in_percent() {
    check_limit([50, 55], "10%", None);
    let why = "55 bytes, 5 more than a.wasm; --fail-above 9% allows 4 more";
    check_limit([50, 55], "9%", Some(why));
    // 11 % of 50 bytes are 5.5 bytes.
    let why = "56 bytes, 6 more than a.wasm; --fail-above 11% allows 5 more";
    check_limit([50, 56], "11%", Some(why));
    check_limit([50, 56], "12%", None);
    check_limit([60, 50], "0%", None);
    let most = format!("{}%", usize::MAX);
    check_limit([50, 60], &most, None);
}

#[test]
fn a_limit_is_checked_also_if_code_does_not_decode() {
    let folder = builds(&[ONE], &[ENDED, &custom("a", "")]);
    let lines = "         -          4         +4       -  custom \"a\"
         6          6          0     0.0  code
         8          8          0     0.0  header
        14         18         +4   +28.6  all
";
    let code = format!("b.wasm: {ENDED_WHY}");
    let more = "b.wasm: 18 bytes, 4 more than a.wasm; --fail-above 3 allows 3 more";
    check_errors(&folder, &["--fail-above=3"], lines, &[&code, more]);
    check_errors(&folder, &["--fail-above=4"], lines, &[&code]);
}

/// The status says it even if nobody reads the table.
#[test]
fn a_limit_is_checked_also_if_nobody_reads_the_table() {
    let folder = of_sizes([50, 55]);
    let status = |limit: &str| {
        let (reader, writer) = std::io::pipe().unwrap();
        drop(reader);
        let mut command = Command::new(env!("CARGO_BIN_EXE_dolzhytik"));
        command.args(["size", "a.wasm", "b.wasm", "--fail-above", limit]);
        let command = command.current_dir(folder.path("")).stdout(writer);
        command.output().unwrap().status.code()
    };
    assert_eq!(["4", "5"].map(status), [Some(1), Some(0)]);
}

// ---- JSON

#[test]
fn json() {
    let text = r#"{"before": 54, "after": 58, "change": 4, "header": {"before": 8, "after": 8, "change": 0}, "sections": [
  {"section": 3, "kind": "code", "name": null, "before": 15, "after": 19, "change": 4},
  {"section": 1, "kind": "type", "name": null, "before": 6, "after": 6, "change": 0},
  {"section": 2, "kind": "function", "name": null, "before": 6, "after": 6, "change": 0},
  {"section": 4, "kind": "custom", "name": "name", "before": 19, "after": 19, "change": 0}
], "functions": [
  {"function": 0, "name": "d", "before": null, "after": 6, "change": 6},
  {"function": 2, "name": "c", "before": 5, "after": null, "change": -5}
], "other_functions": {"count": 2, "before": 7, "after": 10, "change": 3}, "rest_of_code": {"before": 3, "after": 3, "change": 0}, "data": [], "other_data": {"count": 0, "before": 0, "after": 0, "change": 0}, "rest_of_data": {"before": 0, "after": 0, "change": 0}}
"#;
    let answer = compare(&functions(), &["--json", "--functions=2"]);
    assert_eq!(answer, Answer::of(text));
}

#[test]
fn json_of_data_and_of_code_that_does_not_decode() {
    let folder = builds(&[ENDED], &[ENDED, "0b 03 01 01 00"]);
    let text = r#"{"before": 14, "after": 19, "change": 5, "header": {"before": 8, "after": 8, "change": 0}, "sections": [
  {"section": 2, "kind": "data", "name": null, "before": null, "after": 5, "change": 5},
  {"section": 1, "kind": "code", "name": null, "before": 6, "after": 6, "change": 0}
], "functions": [], "other_functions": null, "rest_of_code": null, "data": [
  {"data": 0, "name": null, "before": null, "after": 2, "change": 2}
], "other_data": {"count": 0, "before": 0, "after": 0, "change": 0}, "rest_of_data": {"before": 0, "after": 3, "change": 3}}
"#;
    let answer = compare(&folder, &["--json"]);
    let [old, new] = ["a", "b"].map(|name| format!("dolzhytik: {name}.wasm: {ENDED_WHY}\n"));
    let expected = Answer {
        out: text.into(),
        err: old + &new,
        status: 1,
    };
    assert_eq!(answer, expected);
}

// ---- builds of clang

/// The sizes of two files.
fn sizes(files: [&Path; 2]) -> [u64; 2] {
    files.map(|file| file.metadata().unwrap().len())
}

#[track_caller]
fn check_files(folder: &Folder, files: [&Path; 2], lines: &[&str]) {
    let paths = files.map(|file| file.to_str().unwrap());
    for functions in ["0", "1", "10"] {
        let words = [&["size", "--functions", functions], &paths[..]].concat();
        let answer = folder.call(&words, b"");
        assert_eq!((answer.err.as_str(), answer.status), ("", 0));
        let text = String::from_utf8(answer.out).unwrap();
        if functions != "0" {
            check_sums(&text, sizes(files));
        }
        if functions == "10" {
            for line in lines {
                assert!(text.contains(line), "{line}: {text}");
            }
        }
    }
}

#[test]
fn numbers_of_objects_and_modules_add_up() {
    let object = |options: &[&str], name: &str| compile("program/compare.c", options, name);
    let Some(old) = object(&["-O1", "-g"], "compare_old.o") else {
        return;
    };
    let new = object(&["-O1", "-g", "-DNEW"], "compare_new.o").unwrap();
    let folder = Folder::new("compare_clang");
    let lines = ["<grows>\n", "<added>\n", "<removed>\n"];
    check_files(&folder, [&old, &new], &lines);
    let module = |object: &Path, name: &str| link(&[object], &["--export-all"], name);
    let Some(old) = module(&old, "compare_old.wasm") else {
        return;
    };
    let new = module(&new, "compare_new.wasm").unwrap();
    check_files(&folder, [&old, &new], &lines);
}
