//! `dolzhytik size`.
use crate::program::{Answer, Folder};
use crate::samples::{custom, module};

const HEAD: &str = "     bytes     %  name\n";

/// A type, an import of a function, two functions, their bodies, and the name of the second.
const NAMED: [&str; 5] = [
    "01 04 01 60 00 00",
    "02 07 01 01 61 01 62 00 00",
    "03 03 02 00 00",
    "0a 08 02 02 00 0b 03 00 01 0b",
    "00 0d 04 6e616d65 01 06 01 02 03 616263",
];

#[track_caller]
fn check(sections: &[&str], words: &[&str], lines: &str) {
    let folder = Folder::new("size");
    folder.write("a.wasm", module(sections));
    let expected = Answer::of(format!("{HEAD}{lines}"));
    let words = [&["size", "a.wasm"], words].concat();
    assert_eq!(folder.call(&words, b""), expected);
}

const SECTIONS: &str = "        15  28.3  custom \"name\"
        10  18.9  code
         9  17.0  import
         6  11.3  type
         5   9.4  function
         8  15.1  header
        53 100.0  all
";

#[test]
fn sections() {
    check(
        &[],
        &[],
        "         8 100.0  header\n         8 100.0  all\n",
    );
    check(&NAMED, &["--functions", "0"], SECTIONS);
}

#[test]
fn functions() {
    let second = "         4   7.5  function 2 <abc>\n";
    let first = "         3   5.7  function 1\n";
    check(
        &NAMED,
        &["--functions", "1"],
        &format!("{SECTIONS}{second}"),
    );
    let all = format!("{SECTIONS}{second}{first}");
    check(&NAMED, &["--functions=9"], &all);
    check(&NAMED, &[], &all);
}

/// Eleven functions of three bytes each, with their sizes, and one of four bytes.
#[test]
fn ten_functions_without_an_option() {
    let bodies = format!("{} 03 00 01 0b", "02 00 0b".repeat(11));
    let sections = ["01 04 01 60 00 00", &format!("0a 26 0c {bodies}")];
    let begin = "        40  74.1  code
         6  11.1  type
         8  14.8  header
        54 100.0  all
         4   7.4  function 11
";
    let lines = |count| {
        let lines = (0..count).map(|index| format!("         3   5.6  function {index}\n"));
        lines.collect::<String>()
    };
    check(&sections, &[], &format!("{begin}{}", lines(9)));
    let all = format!("{begin}{}", lines(11));
    check(&sections, &["--functions", "12"], &all);
}

/// An active segment of two bytes, whose name is `da`, and a passive one of six.
#[test]
fn data_segments() {
    let sections = [
        "0b 10 02 00 41 00 0b 02 aabb 01 06 010203040506",
        &custom("name", "09 05 01 00 02 6461"),
    ];
    let begin = "        18  45.0  data
        14  35.0  custom \"name\"
         8  20.0  header
        40 100.0  all
";
    let larger = "         8  20.0  data 1\n";
    let smaller = "         7  17.5  data 0 <da>\n";
    check(&sections, &[], &format!("{begin}{larger}{smaller}"));
    check(&sections, &["--functions=1"], &format!("{begin}{larger}"));
    check(&sections, &["--functions=0"], begin);
    let folder = Folder::new("size_data");
    let answer = folder.call(&["size", "-", "--json"], &module(&sections));
    let data = r#""data": [
  {"data": 1, "name": null, "bytes": 8},
  {"data": 0, "name": "da", "bytes": 7}
]}
"#;
    let text = String::from_utf8(answer.out).unwrap();
    assert!(text.ends_with(data), "{text}");
}

#[test]
fn groups_of_imports() {
    // Two functions and a memory of module `a`, and then three functions of it.
    let imports = "02 20 02 01 61 00 7f 03 01 62 00 00 01 63 02 00 01 01 64 20 00 01 61 00 7e 00 00 03 01 65 01 66 01 67";
    let sections = [
        "01 04 01 60 00 00",
        imports,
        "03 02 01 00",
        "0a 04 01 02 00 0b",
    ];
    let folder = Folder::new("size_groups");
    let answer = folder.call(&["size", "-", "--functions", "1"], &module(&sections));
    let text = String::from_utf8(answer.out).unwrap();
    assert!(text.ends_with("  function 5\n"), "{text}{}", answer.err);
}

#[test]
fn faults() {
    let folder = Folder::new("size_faults");
    // The sizes of the sections are printed before the error.
    let check = |sections: &[&str], lines: &str, why: &str| {
        let expected = Answer {
            out: format!("{HEAD}{lines}").into(),
            ..Answer::fault(&format!("standard input: {why}"))
        };
        for words in [&["size", "-", "--functions", "1"][..], &["size", "-"]] {
            assert_eq!(folder.call(words, &module(sections)), expected);
        }
        let answer = folder.call(&["size", "-", "--functions=0"], &module(sections));
        assert_eq!(answer, Answer::of(expected.out));
    };
    let lines = "         6  42.9  code
         8  57.1  header
        14 100.0  all
";
    let ended = "section 1 (code) at offset 0xe: unexpected end of input";
    check(&["0a 04 02 02 00 0b"], lines, ended);
    let lines = "         9  52.9  import
         8  47.1  header
        17 100.0  all
";
    let unknown = "section 1 (import) at offset 0xf: unexpected byte or value";
    check(&["02 07 01 01 61 01 62 09 00"], lines, unknown);
    let lines = "         4  33.3  data
         8  66.7  header
        12 100.0  all
";
    let unknown = "section 1 (data) at offset 0xb: unexpected byte or value";
    check(&["0b 02 01 03"], lines, unknown);
    let names = |data: &str, line: &[u8]| {
        let sections = module(&[NAMED[3], &custom("name", data)]);
        let answer = folder.call(&["size", "-", "--functions=1"], &sections);
        assert!(answer.out.ends_with(line), "{data}");
    };
    // Names after the first wrong byte are none, and no error.
    names("01 09", b" function 1\n");
    names("01 06 01 01 03 616263 02 09", b" function 1 <abc>\n");
}

#[test]
fn json() {
    let folder = Folder::new("size_json");
    let words = ["size", "-", "--json", "--functions=1"];
    let answer = folder.call(&words, &module(&NAMED[3..]));
    let text = r#"{"bytes": 33, "sections": [
  {"section": 2, "kind": "custom", "name": "name", "bytes": 15},
  {"section": 1, "kind": "code", "name": null, "bytes": 10}
], "functions": [
  {"function": 1, "name": null, "bytes": 4}
], "groups": [
  {"prefix": null, "functions": 2, "bytes": 7}
], "other_groups": {"count": 0, "functions": 0, "bytes": 0}, "all_functions": {"functions": 2, "bytes": 7}, "data": []}
"#;
    assert_eq!(answer, Answer::of(text));
    let text = r#"{"bytes": 8, "sections": [], "functions": [], "groups": [], "other_groups": {"count": 0, "functions": 0, "bytes": 0}, "all_functions": {"functions": 0, "bytes": 0}, "data": []}
"#;
    assert_eq!(
        folder.call(&["size", "-", "--json"], &module(&[])),
        Answer::of(text)
    );
}

/// Four bodies of 3, 4, 5 and 6 bytes.
const BODIES: &str = "0a 13 04 02 00 0b 03 00 01 0b 04 00 01 01 0b 05 00 01 01 01 0b";

/// Their names: `a::f`, a mangled `a::g`, `f` and `<c::S>::f`.
const PREFIXED: &str = "01 20 04 00 04 613a3a66 01 09 5f5a4e316131674576 02 01 66 \
    03 09 3c633a3a533e3a3a66";

#[test]
fn groups() {
    let folder = Folder::new("size_prefixes");
    let sections = [
        NAMED[0],
        "03 05 04 00 00 00 00",
        BODIES,
        &custom("name", PREFIXED),
    ];
    let module = module(&sections);
    let check = |words: &[&str], lines: &str| {
        let answer = folder.call(&[&["size", "-"], words].concat(), &module);
        assert_eq!(answer.err, "");
        let out = String::from_utf8(answer.out).unwrap();
        let (_, after) = out.split_once("  all\n").unwrap();
        assert_eq!(after, lines);
    };
    let all = "         6   7.2  function 3 <<c::S>::f>
         5   6.0  function 2 <f>
         4   4.8  function 1 <_ZN1a1gEv>
         3   3.6  function 0 <a::f>
         7   8.4  functions a::* (2)
         6   7.2  functions c::* (1)
         5   6.0  functions without a prefix (1)
        18  21.7  all functions (4)
";
    check(&[], all);
    let two = "         6   7.2  function 3 <<c::S>::f>
         7   8.4  functions a::* (2)
        11  13.3  other functions (2)
        18  21.7  all functions (4)
";
    check(&["--functions=1"], two);
    check(&["--functions", "0"], "");
}

#[test]
fn json_of_groups() {
    let folder = Folder::new("size_prefixes_json");
    let words = ["size", "-", "--json", "--functions=1"];
    let answer = folder.call(&words, &module(&[BODIES, &custom("name", PREFIXED)]));
    let text = r#"{"bytes": 70, "sections": [
  {"section": 2, "kind": "custom", "name": "name", "bytes": 41},
  {"section": 1, "kind": "code", "name": null, "bytes": 21}
], "functions": [
  {"function": 3, "name": "<c::S>::f", "bytes": 6}
], "groups": [
  {"prefix": "a", "functions": 2, "bytes": 7}
], "other_groups": {"count": 2, "functions": 2, "bytes": 11}, "all_functions": {"functions": 4, "bytes": 18}, "data": []}
"#;
    assert_eq!(answer, Answer::of(text));
    // Code that does not decode has no groups.
    let text = r#"{"bytes": 14, "sections": [
  {"section": 1, "kind": "code", "name": null, "bytes": 6}
], "functions": [], "groups": [], "other_groups": null, "all_functions": null, "data": []}
"#;
    let ended = "standard input: section 1 (code) at offset 0xe: unexpected end of input";
    let expected = Answer {
        out: text.into(),
        ..Answer::fault(ended)
    };
    let damaged = module(&["0a 04 02 02 00 0b"]);
    assert_eq!(folder.call(&words, &damaged), expected);
}
