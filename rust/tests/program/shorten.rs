//! `dolzhytik shorten`.
use crate::program::{Answer, Folder};
use crate::samples::{PADDED, SHORT, UNREAD, custom, module};

const REFUSED: &str = "holds offsets that would become wrong; \
    --drop-offsets drops such sections, --keep-code keeps code and data byte for byte, \
    and --dry-run prints what each saves";

#[test]
fn padded_numbers_get_shorter() {
    let folder = Folder::new("shorten");
    folder.write("a.wasm", module(&PADDED));
    let told = Answer::told("a.wasm: 52 bytes before, 39 after; 0 sections copied undecoded");
    assert_eq!(
        folder.call(&["shorten", "a.wasm", "-o", "b.wasm"], b""),
        told
    );
    assert_eq!(folder.read("b.wasm"), module(&SHORT));
    assert_eq!(folder.read("a.wasm"), module(&PADDED));
    assert_eq!(folder.names(), ["a.wasm", "b.wasm"]);
}

#[test]
fn sections_that_do_not_decode_are_kept_and_named() {
    let folder = Folder::new("kept");
    folder.write("a.wasm", module(&[PADDED[1], UNREAD, "08 8200 07 00"]));
    let told = Answer::told("a.wasm: 24 bytes before, 21 after; 2 sections copied undecoded");
    let told = told.keeping(
        "a.wasm",
        &[
            "2 (function) at offset 0x13: unexpected end of input",
            "3 (start) at offset 0x17: bytes remain after the value",
        ],
    );
    assert_eq!(
        folder.call(&["shorten", "a.wasm", "-o", "b.wasm"], b""),
        told
    );
    assert_eq!(
        folder.read("b.wasm"),
        module(&[SHORT[1], UNREAD, "08 8200 07 00"])
    );
}

#[test]
fn code_that_does_not_decode_is_kept_and_named() {
    let folder = Folder::new("kept_code");
    // The opcode ff is at 0x16, after the sizes of the section and the body and the locals.
    let sections = [PADDED[1], "0a 8600 01 04 00 0b ff 0b"];
    let lost = custom(".debug_info", "ff");
    let name = custom("name", "05");
    let sections = [&sections[..], &[&lost, &name]].concat();
    folder.write("a.wasm", module(&sections));
    let told =
        Answer::told("a.wasm: 47 bytes before, 29 after; 1 section dropped, 2 copied undecoded");
    let told = told.keeping(
        "a.wasm",
        &[
            "2 (code) at offset 0x16: unknown opcode",
            "4 (custom \"name\") at offset 0x2f: unexpected end of input",
        ],
    );
    let words = ["shorten", "a.wasm", "--drop-offsets", "-o", "b.wasm"];
    assert_eq!(folder.call(&words, b""), told);
}

#[test]
fn standard_streams() {
    let folder = Folder::new("streams");
    let answer = Answer {
        out: module(&SHORT),
        ..Answer::told("standard input: 52 bytes before, 39 after; 0 sections copied undecoded")
    };
    let words = ["shorten", "-", "--output", "-"];
    assert_eq!(folder.call(&words, &module(&PADDED)), answer);
    assert!(folder.names().is_empty());
}

#[test]
fn offsets() {
    let folder = Folder::new("offsets");
    let [types, functions, exports, code] = PADDED;
    let (relocations, debug) = (custom("reloc.CODE", "03 00"), custom(".debug_info", "ff"));
    let sections = [types, functions, exports, code, &relocations, &debug];
    folder.write("a.wasm", module(&sections));
    folder.write("b.wasm", "as it was");
    let refused = Answer::fault(&format!("a.wasm: section 5, \"reloc.CODE\", {REFUSED}"));
    let words = ["shorten", "a.wasm", "-o", "b.wasm"];
    assert_eq!(folder.call(&words, b""), refused);
    assert_eq!(folder.read("b.wasm"), b"as it was");
    assert_eq!(folder.names(), ["a.wasm", "b.wasm"]);

    // The first has 2 + 1 + 10 + 2 bytes, the second 2 + 1 + 11 + 1.
    let told =
        Answer::told("a.wasm: 82 bytes before, 39 after; 2 sections dropped, 0 copied undecoded");
    let words = ["shorten", "--drop-offsets", "a.wasm", "-o", "b.wasm"];
    assert_eq!(folder.call(&words, b""), told);
    assert_eq!(folder.read("b.wasm"), module(&SHORT));
}

#[test]
fn offsets_into_code_that_stays() {
    let folder = Folder::new("stays");
    let linking = custom("linking", "02");
    let sections = [PADDED[0], SHORT[1], SHORT[2], SHORT[3], &linking];
    folder.write("a.wasm", module(&sections));
    let told = Answer::told("a.wasm: 54 bytes before, 50 after; 0 sections copied undecoded");
    assert_eq!(
        folder.call(&["shorten", "a.wasm", "-o", "b.wasm"], b""),
        told
    );
    let [types, functions, exports, code] = SHORT;
    let expected = module(&[types, functions, exports, code, &linking]);
    assert_eq!(folder.read("b.wasm"), expected);
}

const SAVINGS: &str = "    before      after      saved  name
         8          8          0  header
        13          9          4  type
         7          4          3  function
         7          7          0  export
        17         11          6  code
";

#[test]
fn dry_runs_write_nothing() {
    let folder = Folder::new("dry");
    folder.write("a.wasm", module(&PADDED));
    let all = "        52         39         13  all\n";
    let sizes = "52 bytes before, 39 after; 0 sections copied undecoded (dry run)";
    let told = |name: &str| Answer {
        out: format!("{SAVINGS}{all}").into(),
        ..Answer::told(&format!("{name}: {sizes}"))
    };
    let words = ["shorten", "a.wasm", "--dry-run"];
    assert_eq!(folder.call(&words, b""), told("a.wasm"));
    let words = ["shorten", "--dry-run", "-o", "b.wasm", "-"];
    assert_eq!(
        folder.call(&words, &module(&PADDED)),
        told("standard input")
    );
    assert_eq!(folder.names(), ["a.wasm"]);
}

#[test]
fn dry_runs_as_json() {
    let folder = Folder::new("dry_json");
    let [types, functions, ..] = PADDED;
    let debug = custom(".debug_info", "ff");
    let sections = [types, functions, &debug];
    let json = r#"{"before": 43, "after": 21, "sections": [
  {"section": 1, "kind": "type", "name": null, "before": 13, "after": 9},
  {"section": 2, "kind": "function", "name": null, "before": 7, "after": 4},
  {"section": 3, "kind": "custom", "name": ".debug_info", "before": 15, "after": null}
]}
"#;
    let words = ["shorten", "-", "--dry-run", "--json", "--drop-offsets"];
    let sizes = "43 bytes before, 21 after; 1 section dropped, 0 copied undecoded (dry run)";
    let told = Answer {
        out: json.into(),
        ..Answer::told(&format!("standard input: {sizes}"))
    };
    assert_eq!(folder.call(&words, &module(&sections)), told);
}

#[test]
fn dry_runs_of_modules_with_offsets() {
    let folder = Folder::new("dry_offsets");
    let [types, functions, exports, code] = PADDED;
    let (relocations, debug) = (custom("reloc.CODE", "03 00"), custom(".debug_info", "ff"));
    // A custom section that stays between those that are dropped, and one that does not decode.
    let other = custom("other", "");
    let sections = [
        types,
        functions,
        exports,
        code,
        &relocations,
        &other,
        &debug,
        UNREAD,
    ];
    let lines = "        15          0         15  custom \"reloc.CODE\", dropped
         8          8          0  custom \"other\"
        15          0         15  custom \".debug_info\", dropped
         4          4          0  function
        94         51         43  all
";
    let words = ["shorten", "-", "--dry-run", "--drop-offsets"];
    let sizes = "94 bytes before, 51 after; 2 sections dropped, 1 copied undecoded (dry run)";
    let told = Answer {
        out: format!("{SAVINGS}{lines}").into(),
        ..Answer::told(&format!("standard input: {sizes}"))
    };
    // The section has 4 bytes, and ends the module of 94.
    let undecoded = "8 (function) at offset 0x5e: unexpected end of input";
    let told = told.keeping("standard input", &[undecoded]);
    assert_eq!(folder.call(&words, &module(&sections)), told);
    // Without the option the same is printed, and the status is that of the command.
    let refused = Answer {
        out: format!("{SAVINGS}{lines}").into(),
        ..Answer::fault(&format!(
            "standard input: section 5, \"reloc.CODE\", {REFUSED}"
        ))
    };
    assert_eq!(folder.call(&words[..3], &module(&sections)), refused);
    assert!(folder.names().is_empty());
}
