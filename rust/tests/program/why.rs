//! `dolzhytik size --why`.
use crate::program::{Answer, Folder};
use crate::samples::{custom, module};

const HEAD: &str = "     bytes     %  name\n";

/// An import, six functions, a table, a global with `ref.func 4`, the export `f` of function 1, an
/// active segment of function 2, and a declarative one of function 5. The bodies: `call 3 call 0`;
/// `return_call 3`; `ref.func 5 drop`; none; `call 5`; `call 4`.
pub const SECTIONS: [&str; 8] = [
    "01 04 01 60 00 00",
    "02 07 01 01 61 01 62 00 00",
    "03 07 06 00 00 00 00 00 00",
    "04 04 01 70 00 01",
    "06 06 01 70 00 d2 04 0b",
    "07 05 01 01 66 00 01",
    "09 0b 02 00 41 00 0b 01 02 03 00 01 05",
    "0a 20 06 06 00 10 03 10 00 0b 04 00 12 03 0b 05 00 d2 05 1a 0b \
     02 00 0b 04 00 10 05 0b 04 00 10 04 0b",
];

/// The names `run`, `two`, `mid`, `two`, `leaf` and `dead`.
const NAMES: &str = "01 21 06 01 03 72756e 02 03 74776f 03 03 6d6964 04 03 74776f \
    05 04 6c656166 06 04 64656164";

/// The module of these sections, with names: 142 bytes.
pub fn named() -> Vec<u8> {
    let names = custom("name", NAMES);
    module(&[&SECTIONS[..], &[&*names]].concat())
}

#[track_caller]
fn check(module: &[u8], words: &[&str], lines: &str) {
    let words = [&["size", "-", "--why"], words].concat();
    let expected = Answer::of(format!("{HEAD}{lines}"));
    assert_eq!(Folder::new("why").call(&words, module), expected);
}

#[test]
fn paths() {
    let module = named();
    let leaf = "         7   4.9  function 1 <run>: export \"f\"
         6   4.2  function 3 <mid>: call at offset 0x47
         5   3.5  function 5 <leaf>: ref.func at offset 0x53
         0   0.0  only through function 5 (0)
";
    check(&module, &["leaf"], leaf);
    check(&module, &["5"], leaf);
    // Two functions refer to this one, and it alone to the last one.
    let mid = "         7   4.9  function 1 <run>: export \"f\"
         6   4.2  function 3 <mid>: call at offset 0x47
         5   3.5  only through function 3 (1)
         5   3.5  function 5 <leaf>
";
    check(&module, &["mid"], mid);
    let element = "         5   3.5  function 2 <two>: element 0
         0   0.0  only through function 2 (0)
";
    check(&module, &["2"], element);
    let global = "         3   2.1  function 4 <two>: global 0
         0   0.0  only through function 4 (0)
";
    check(&module, &["4"], global);
    let import = "         7   4.9  function 1 <run>: export \"f\"
         -     -  function 0 <a.b>: call at offset 0x49
         0   0.0  only through function 0 (0)
";
    check(&module, &["a.b"], import);
    let dead = "         5   3.5  function 6 <dead>: nothing reaches it\n";
    check(&module, &["dead"], dead);
}

/// The segment has function 4. So function 3 has no other reference than that in function 1.
#[test]
fn functions_that_are_reachable_only_through_one() {
    let elements = "09 07 01 00 41 00 0b 01 04";
    let sections = [&SECTIONS[..6], &[elements, SECTIONS[7]]].concat();
    let module = module(&sections);
    let lines = "         7   7.3  function 1 <f>: export \"f\"
        11  11.5  only through function 1 (2)
         6   6.2  function 3
         5   5.2  function 5
";
    check(&module, &["f"], lines);
    let one = "         7   7.3  function 1 <f>: export \"f\"
        11  11.5  only through function 1 (2)
         6   6.2  function 3
         5   5.2  other functions (1)
";
    check(&module, &["f", "--functions=1"], one);
    let dead = "         5   5.2  function 2: nothing reaches it\n";
    check(&module, &["2"], dead);
}

/// The start function, a table with an initial value, and segments of expressions.
#[test]
fn other_roots() {
    let front = ["01 04 01 60 00 00", "03 06 05 00 00 00 00 00"];
    let bodies = "0a 10 05 02 00 0b 02 00 0b 02 00 0b 02 00 0b 02 00 0b";
    let table = "04 09 01 40 00 70 00 01 d2 02 0b";
    let elements = "09 07 01 05 70 01 d2 03 0b";
    let module = module(&[front[0], front[1], table, "08 01 01", elements, bodies]);
    for (index, by) in [(1, "start"), (2, "table 0"), (3, "element 0")] {
        let lines = format!(
            "         3   4.8  function {index}: {by}\n         0   0.0  only through function {index} (0)\n"
        );
        check(&module, &[&index.to_string()], &lines);
    }
}

#[test]
fn json() {
    let folder = Folder::new("why_json");
    let call = |function: &str| folder.call(&["size", "-", "--json", "--why", function], &named());
    let mid = r#"{"bytes": 142, "function": {"function": 3, "name": "mid", "bytes": 6}, "path": [
  {"function": 1, "name": "run", "bytes": 7, "reference": {"kind": "export", "name": "f"}},
  {"function": 3, "name": "mid", "bytes": 6, "reference": {"kind": "call", "offset": 71}}
], "dominated": {"functions": 1, "bytes": 5}, "functions": [
  {"function": 5, "name": "leaf", "bytes": 5}
], "other_functions": {"functions": 0, "bytes": 0}}
"#;
    assert_eq!(call("mid"), Answer::of(mid));
    let global = r#"{"bytes": 142, "function": {"function": 4, "name": "two", "bytes": 3}, "path": [
  {"function": 4, "name": "two", "bytes": 3, "reference": {"kind": "global", "index": 0, "name": null}}
], "dominated": {"functions": 0, "bytes": 0}, "functions": [], "other_functions": {"functions": 0, "bytes": 0}}
"#;
    assert_eq!(call("4"), Answer::of(global));
    let dead = r#"{"bytes": 142, "function": {"function": 6, "name": "dead", "bytes": 5}, "path": null, "dominated": null, "functions": [], "other_functions": null}
"#;
    assert_eq!(call("dead"), Answer::of(dead));
}

#[track_caller]
fn check_fault(module: &[u8], function: &str, why: &str) {
    let expected = Answer::fault(&format!("standard input: {why}"));
    let words = ["size", "-", "--why", function];
    assert_eq!(Folder::new("why_faults").call(&words, module), expected);
}

#[test]
fn functions_that_are_not_there() {
    let module = named();
    check_fault(&module, "7", "no function 7: the module has 7");
    check_fault(
        &module,
        "leav",
        "no function \"leav\"; did you mean \"leaf\"?",
    );
    check_fault(&module, "other", "no function \"other\"");
    check_fault(&module, "", "no function \"\"");
    let two = "2 functions are \"two\": 2, 4; give an index";
    check_fault(&module, "two", two);
}

#[test]
fn damaged_modules() {
    let with = |number: usize, section: &str| {
        let mut sections = SECTIONS;
        sections[number] = section;
        module(&sections)
    };
    let exports = "07 05 01 01 66 09 01";
    let unknown = "section 6 (export) at offset 0x33: unexpected byte or value";
    check_fault(&with(5, exports), "1", unknown);
    let start = "08 02 01 00";
    let remain = "section 6 (start) at offset 0x31: bytes remain after the value";
    check_fault(&with(5, start), "1", remain);
    // The unknown opcode is in the first body, which the export reaches.
    let code = SECTIONS[7].replace("00 10 03 10 00", "00 10 03 ff 00");
    let opcode = "section 8 (code) at offset 0x49: unknown opcode";
    check_fault(&with(7, &code), "1", opcode);
    // In a body that nothing reaches it is no error.
    let code = SECTIONS[7].replace("00 10 04 0b", "00 ff 04 0b");
    let answer = Folder::new("why_dead").call(&["size", "-", "--why=6"], &with(7, &code));
    assert!(answer.out.ends_with(b"function 6: nothing reaches it\n"));
    // An index that no function has refers to nothing.
    let code = SECTIONS[7].replace("00 10 03 10 00", "00 10 7f 10 7f");
    let answer = Folder::new("why_index").call(&["size", "-", "--why=0"], &with(7, &code));
    assert!(
        answer
            .out
            .ends_with(b"function 0 <a.b>: nothing reaches it\n")
    );
    check_fault(
        b"\0asm\x01\0\0\0\x0a",
        "0",
        "section 1 at offset 0x9: unexpected end of input",
    );
    check_fault(b"", "0", "is empty, not a module");
}
