//! `dolzhytik outline`.
use crate::program::{Answer, Folder};
use crate::samples::{PADDED, PADDED_NAME, UNREAD, custom, module};

const HEAD: &str = "section  id     offset       size      items  decodes  name\n";

/// Checks the lines, and those on standard error, which are after the name of the module.
#[track_caller]
fn check_reported(folder: &str, sections: &[&str], lines: &str, reported: &[&str]) {
    let folder = Folder::new(folder);
    folder.write("a.wasm", module(sections));
    let expected = |name: &str| Answer {
        err: reported
            .iter()
            .map(|line| format!("dolzhytik: {name}: {line}\n"))
            .collect(),
        ..Answer::of(format!("{HEAD}{lines}"))
    };
    assert_eq!(folder.call(&["outline", "a.wasm"], b""), expected("a.wasm"));
    let standard = folder.call(&["outline", "-"], &module(sections));
    assert_eq!(standard, expected("standard input"));
}

#[track_caller]
fn check(folder: &str, sections: &[&str], lines: &str) {
    check_reported(folder, sections, lines, &[]);
}

#[test]
fn tables() {
    check("header", &[], "");
    let [types, functions, exports, code] = PADDED;
    let debug = custom(".debug_info", "ff");
    let lines = "      1   1        0xe          7          1      yes  type
      2   3       0x19          3          1      yes  function
      3   7       0x1e          5          1      yes  export
      4  10       0x29         11          1      yes  code
      5   0       0x37         12          -      yes  custom \"name\"
      6   3       0x46          1          -       no  function
      7   0       0x49         13          -        -  custom \".debug_info\"
";
    check_reported(
        "table",
        &[types, functions, exports, code, PADDED_NAME, UNREAD, &debug],
        lines,
        &["section 6 (function) at offset 0x47: unexpected end of input"],
    );
}

/// The items of a data count section are the number that it holds, which is 300 here.
#[test]
fn data_counts() {
    let sections = ["0c 02 ac02", "08 01 07"];
    let lines = "      1  12        0xa          2        300      yes  data count
      2   8        0xe          1          1      yes  start
";
    check("data_count", &sections, lines);
    let damaged = "section 1 (data count) at offset 0xb: bytes remain after the value";
    let line = "      1  12        0xa          2          -       no  data count\n";
    check_reported("data_counts", &["0c 02 0300"], line, &[damaged]);
    let folder = Folder::new("data_count_json");
    let json = "[\n  {\"section\": 1, \"id\": 12, \"kind\": \"data count\", \"name\": null, \"offset\": 10, \"size\": 1, \"items\": 0, \"decodes\": true}\n]\n";
    let answer = folder.call(&["outline", "-", "--json"], &module(&["0c 01 00"]));
    assert_eq!(answer, Answer::of(json));
}

const IDS: &str = "      1   0        0xa          0          -       no  custom
      2   1        0xc          0          -       no  type
      3   2        0xe          0          -       no  import
      4   3       0x10          0          -       no  function
      5   4       0x12          0          -       no  table
      6   5       0x14          0          -       no  memory
      7   6       0x16          0          -       no  global
      8   7       0x18          0          -       no  export
      9   8       0x1a          0          -       no  start
     10   9       0x1c          0          -       no  element
     11  10       0x1e          0          -       no  code
     12  11       0x20          0          -       no  data
     13  12       0x22          0          -       no  data count
     14  13       0x24          0          -       no  tag
     15  14       0x26          0          -        -  unknown
     16 255       0x28          0          -        -  unknown
";

#[test]
fn names_of_all_ids() {
    let sections = (0..=14).chain([255]).map(|id| format!("{id:02x} 00"));
    let sections: Vec<_> = sections.collect();
    let sections: Vec<_> = sections.iter().map(String::as_str).collect();
    let ended = |number: usize, kind: &str| {
        let offset = 8 + 2 * number;
        format!("section {number} ({kind}) at offset {offset:#x}: unexpected end of input")
    };
    let kinds = [
        "type",
        "import",
        "function",
        "table",
        "memory",
        "global",
        "export",
        "start",
        "element",
        "code",
        "data",
        "data count",
        "tag",
    ];
    let reported: Vec<_> = (2..)
        .zip(kinds)
        .map(|(number, kind)| ended(number, kind))
        .collect();
    let reported: Vec<_> = reported.iter().map(String::as_str).collect();
    check_reported("ids", &sections, IDS, &reported);
}

#[test]
fn names_are_told_in_quotes() {
    let section = custom("a\n\u{1b}\"", "");
    let line =
        "      1   0        0xa          5          -        -  custom \"a\\n\\u{1b}\\\"\"\n";
    check("quotes", &[&section, "00 01 00"], &{
        format!("{line}      2   0       0x11          1          -        -  custom \"\"\n")
    });
}

#[test]
fn json() {
    let folder = Folder::new("outline_json");
    let check = |sections: &[&str], text: &str| {
        folder.write("a.wasm", module(sections));
        let answer = folder.call(&["outline", "--json", "a.wasm"], b"");
        assert_eq!(answer, Answer::of(text));
    };
    check(&[], "[]\n");
    let lines = r#"[
  {"section": 1, "id": 1, "kind": "type", "name": null, "offset": 14, "size": 7, "items": 1, "decodes": true},
  {"section": 2, "id": 0, "kind": "custom", "name": "a\"\\\u000a\u007fé", "offset": 23, "size": 8, "items": null, "decodes": null}
]
"#;
    check(&[PADDED[0], &custom("a\"\\\n\u{7f}\u{e9}", "")], lines);
}

/// Sections that decode and that do not: of a number too large, of a byte that is no kind, of an
/// unknown opcode, and custom ones.
const BROKEN: [&str; 8] = [
    "03 02 01 00",
    "03 06 01 ffffffff1f",
    "07 05 01 01 66 09 00",
    "0a 05 01 03 00 ff 0b",
    "00 08 04 6e616d65 01 05 01",
    "00 0b 09 70726f647563657273 00",
    "00 02 01 61",
    "00 02 05 61",
];

const WHY: &str = r#"section  id     offset       size      items  decodes  name
      1   3        0xa          2          1      yes  function
      2   3        0xe          6          -       no  function: integer too large at offset 0x13
      3   7       0x16          5          -       no  export: unexpected byte or value at offset 0x19
      4  10       0x1d          5          -       no  code: unknown opcode at offset 0x20
      5   0       0x24          8          -       no  custom "name": unexpected end of input at offset 0x2c
      6   0       0x2e         11          -      yes  custom "producers"
      7   0       0x3b          2          -        -  custom "a"
      8   0       0x3f          2          -       no  custom: unexpected end of input at offset 0x41
"#;

const REPORTED: [&str; 3] = [
    "section 2 (function) at offset 0x13: integer too large",
    "section 3 (export) at offset 0x19: unexpected byte or value",
    "section 4 (code) at offset 0x20: unknown opcode",
];

/// The lines on standard error.
fn told(lines: &[&str]) -> String {
    lines
        .iter()
        .map(|line| format!("dolzhytik: standard input: {line}\n"))
        .collect()
}

#[test]
fn why() {
    let folder = Folder::new("outline_why");
    let expected = Answer {
        err: told(&REPORTED),
        ..Answer::of(WHY)
    };
    assert_eq!(
        folder.call(&["outline", "--why", "-"], &module(&BROKEN)),
        expected
    );
    let text = r#"[
  {"section": 1, "id": 3, "kind": "function", "name": null, "offset": 10, "size": 3, "items": null, "decodes": false, "error": {"cause": "bytes remain after the value", "offset": 12}},
  {"section": 2, "id": 0, "kind": "custom", "name": "a", "offset": 15, "size": 2, "items": null, "decodes": null, "error": null}
]
"#;
    let answer = folder.call(
        &["outline", "--why", "--json", "-"],
        &module(&["03 03 01 00 05", BROKEN[6]]),
    );
    let mismatch = "section 1 (function) at offset 0xc: bytes remain after the value";
    let expected = Answer {
        err: told(&[mismatch]),
        ..Answer::of(text)
    };
    assert_eq!(answer, expected);
}

#[test]
fn strict() {
    let folder = Folder::new("outline_strict");
    let call =
        |sections: &[&str]| folder.call(&["outline", "-", "--why", "--strict"], &module(sections));
    let custom = [
        "section 5 (custom \"name\") at offset 0x2c: unexpected end of input",
        "section 8 (custom) at offset 0x41: unexpected end of input",
    ];
    let last = ["5 sections do not decode"];
    let expected = Answer {
        err: told(&[&REPORTED[..], &custom, &last].concat()),
        status: 1,
        ..Answer::of(WHY)
    };
    assert_eq!(call(&BROKEN), expected);
    let one = call(&[BROKEN[4], BROKEN[6]]);
    let lines = [
        "section 1 (custom \"name\") at offset 0x12: unexpected end of input",
        "1 section does not decode",
    ];
    assert_eq!((one.err, one.status), (told(&lines), 1));
    // Those of unknown kinds may hold any bytes.
    let fine = call(&[BROKEN[0], BROKEN[5], BROKEN[6], "0e 01 ff"]);
    assert_eq!((&*fine.err, fine.status), ("", 0));
}

const FIRST: &str = "section  id     offset       size      items  decodes  name\n";

/// Two modules, a file that is none, and one that is not there.
fn several() -> Folder {
    let folder = Folder::new("outline_files");
    folder.write("a.wasm", module(&["08 01 00"]));
    folder.write("b.txt", "(module)");
    folder.write("c.wasm", module(&["03 02 01 00", "03 01 01"]));
    folder
}

const A: &str = "      1   8        0xa          1          1      yes  start\n";
const C: &str = "      1   3        0xa          2          1      yes  function
      2   3        0xe          1          -       no  function
";

#[test]
fn files() {
    let folder = several();
    let ended = "dolzhytik: c.wasm: section 2 (function) at offset 0xf: unexpected end of input\n";
    let expected = Answer {
        err: ended.into(),
        ..Answer::of(format!("a.wasm:\n{FIRST}{A}\nc.wasm:\n{FIRST}{C}"))
    };
    assert_eq!(folder.call(&["outline", "a.wasm", "c.wasm"], b""), expected);
    let standard = Answer::of(format!("standard input:\n{FIRST}{A}\na.wasm:\n{FIRST}{A}"));
    let answer = folder.call(&["outline", "-", "a.wasm"], &module(&["08 01 00"]));
    assert_eq!(answer, standard);
}

/// Files with errors are reported, and those after them are printed.
#[test]
fn files_with_errors() {
    let folder = several();
    let answer = folder.call(&["outline", "b.txt", "a.wasm", "c.wasm", "--strict"], b"");
    let expected = Answer {
        out: format!("a.wasm:\n{FIRST}{A}\nc.wasm:\n{FIRST}{C}").into(),
        err: "dolzhytik: b.txt: is text, not a binary module
dolzhytik: c.wasm: section 2 (function) at offset 0xf: unexpected end of input
dolzhytik: c.wasm: 1 section does not decode
dolzhytik: errors in 2 of 3 files
"
        .into(),
        status: 1,
    };
    assert_eq!(answer, expected);
    let answer = folder.call(&["outline", "a.wasm", "d.wasm"], b"");
    assert_eq!(answer.out, format!("a.wasm:\n{FIRST}{A}").into_bytes());
    assert!(
        answer.err.starts_with("dolzhytik: d.wasm: "),
        "{}",
        answer.err
    );
    assert!(
        answer
            .err
            .ends_with("\ndolzhytik: errors in 1 of 2 files\n")
    );
    assert_eq!(answer.status, 1);
}

#[test]
fn json_of_files() {
    let folder = several();
    folder.write("d.wasm", module(&[]));
    let answer = folder.call(&["outline", "--json", "a.wasm", "b.txt", "d.wasm"], b"");
    let text = r#"[
{"file": "a.wasm", "sections": [
  {"section": 1, "id": 8, "kind": "start", "name": null, "offset": 10, "size": 1, "items": 1, "decodes": true}
]},
{"file": "b.txt", "sections": null},
{"file": "d.wasm", "sections": []}
]
"#;
    let expected = Answer {
        out: text.into(),
        err: "dolzhytik: b.txt: is text, not a binary module\ndolzhytik: errors in 1 of 3 files\n"
            .into(),
        status: 1,
    };
    assert_eq!(answer, expected);
}
