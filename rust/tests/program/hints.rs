//! `dolzhytik shorten` of modules with hints, whose offsets follow their instructions.
use crate::program::{Answer, Folder};
use crate::samples::{UNREAD, custom, module};
use crate::shortened::check_shortened;
use std::process::Command;

/// The end of the report, by the number of dropped sections.
const NONE: &str = "0 sections copied undecoded";
const ONE: &str = "1 section dropped, 0 copied undecoded";

const NAME: &str = "metadata.code.branch_hint";

/// The name with its size.
const NAMED: &str = "19 6d657461646174612e636f64652e6272616e63685f68696e74";

/// A type, an import of a function, and two functions.
const FRONT: [&str; 3] = [
    "01 04 01 60 00 00",
    "02 07 01 01 61 01 62 00 00",
    "03 03 02 00 00",
];

/// Two locals, which are one run, and then `local.get 1`, `if`, `local.get 0`, `br_if 0`, `end` and
/// `end`. The offsets of these instructions are 4, 7, 9, 11, 14 and 15.
const PADDED_BODY: &str = "9000 01 8200 7f 208100 0440 2000 0d8000 0b 0b";

/// The same, where the offsets are 3, 5, 7, 9, 11 and 12.
const SHORT_BODY: &str = "0d 01 02 7f 2001 0440 2000 0d00 0b 0b";

/// No locals, `i32.const 0`, `if` at offset 3, `end` and `end`.
const OTHER_BODY: &str = "07 00 4100 0440 0b 0b";

fn padded_code() -> String {
    format!("0a 1b 02 {PADDED_BODY} {OTHER_BODY}")
}

fn short_code() -> String {
    format!("0a 17 02 {SHORT_BODY} {OTHER_BODY}")
}

fn hints(data: &str) -> String {
    custom(NAME, data)
}

#[track_caller]
fn check_as(sections: &[&str], options: &[&str], expected: &[&str], told: &str) {
    check_shortened(sections, options, expected, told, &[]);
}

#[track_caller]
fn check(sections: &[&str], expected: &[&str]) {
    check_as(sections, &[], expected, NONE);
}

/// Checks the error, and that no file is written.
#[track_caller]
fn check_fault(sections: &[&str], why: &str) {
    let folder = Folder::new("hints_fault");
    let fault = folder.call(&["shorten", "-", "-ob.wasm"], &module(sections));
    assert_eq!(fault, Answer::fault(&format!("standard input: {why}")));
    assert!(folder.names().is_empty());
}

/// The sections with hints of these bytes before the code.
fn with<'a>(hints: &'a str, code: &'a str) -> Vec<&'a str> {
    [&FRONT[..], &[hints, code]].concat()
}

#[test]
fn compilation_hints_follow_their_instructions() {
    let (padded, short) = (padded_code(), short_code());
    for (name, before, after) in [
        (
            "metadata.code.instr_freq",
            "01 01 02 07 01 20 0b 01 00",
            "01 01 02 05 01 20 09 01 00",
        ),
        // A hint at offset 0 is of the whole function.
        (
            "metadata.code.compilation_order",
            "01 01 02 00 01 01 07 02 01 05",
            "01 01 02 00 01 01 05 02 01 05",
        ),
        (
            "metadata.code.call_targets",
            "01 01 01 0b 02 02 5a",
            "01 01 01 09 02 02 5a",
        ),
    ] {
        let (before, after) = (custom(name, before), custom(name, after));
        check(&with(&before, &padded), &with(&after, &short));
    }
    // No instruction is at offset 8.
    let hints = custom("metadata.code.call_targets", "01 01 02 07 00 08 02 02 5a");
    let why = "section 4 (custom \"metadata.code.call_targets\") at offset 0x3e: \
               function 1 has no instruction at offset 0x8 of its body";
    check_fault(&with(&hints, &padded), why);
}

#[test]
fn hints_follow_their_instructions() {
    // Of function 1, `if` is likely and `br_if` is not. The body of function 2 does not change.
    let before = hints("02 01 02 07 01 01 0b 01 00 02 01 03 01 01");
    let after = hints("02 01 02 05 01 01 09 01 00 02 01 03 01 01");
    let (padded, short) = (padded_code(), short_code());
    check(&with(&before, &padded), &with(&after, &short));
    // What is written does not change any more.
    check(&with(&after, &short), &with(&after, &short));
    // In another order, after the code, and with padded numbers.
    let padded_hints = format!("00 2c {NAMED} 8200 02 01 03 01 01 8100 02 8b00 01 00 8700 01 01");
    let after = hints("02 02 01 03 01 01 01 02 09 01 00 05 01 01");
    let sections = [&FRONT[..], &[&padded, &padded_hints]].concat();
    check(&sections, &[&FRONT[..], &[&short, &after]].concat());
    // Two sections of hints.
    let [first, second] = ["01 01 01 07 01 01", "01 01 01 0b 01 00"].map(hints);
    let sections = [&FRONT[..], &[&first, &second, &padded]].concat();
    let [first, second] = ["01 01 01 05 01 01", "01 01 01 09 01 00"].map(hints);
    check(
        &sections,
        &[&FRONT[..], &[&first, &second, &short]].concat(),
    );
}

/// What wasm2wat of wabt prints of a module: each hint before its instruction.
fn text_of(folder: &Folder, name: &str) -> Option<String> {
    let mut command = Command::new("wasm2wat");
    command.args(["--enable-annotations", "--enable-code-metadata"]);
    let Ok(done) = command.arg(folder.path(name)).output() else {
        eprintln!("there is no wasm2wat");
        return None;
    };
    assert!(
        done.status.success(),
        "{}",
        String::from_utf8_lossy(&done.stderr)
    );
    Some(String::from_utf8(done.stdout).unwrap())
}

#[test]
fn another_tool_finds_the_hints_at_the_same_instructions() {
    let folder = Folder::new("hints_text");
    let hints = hints("02 01 02 07 01 01 0b 01 00 02 01 03 01 01");
    folder.write("a.wasm", module(&with(&hints, &padded_code())));
    let answer = folder.call(&["shorten", "a.wasm", "-ob.wasm"], b"");
    assert_eq!(answer.status, 0);
    let (before, after) = (text_of(&folder, "a.wasm"), text_of(&folder, "b.wasm"));
    assert_eq!(before, after);
    if let Some(text) = after {
        let hint = "(@metadata.code.branch_hint ";
        let found: Vec<&str> = text.split(hint).skip(1).map(|it| &it[..10]).collect();
        let expected = ["\"\\01\") if", "\"\\00\") br", "\"\\01\") if"];
        let starts = |(text, start): (&&str, &str)| text.starts_with(start);
        assert!(
            found.len() == 3 && found.iter().zip(expected).all(starts),
            "{text}"
        );
    }
}

#[test]
fn offsets_that_get_fewer_bytes() {
    // `i32.const 0`, 124 times `nop`, `if`, `end`, `end`: `if` is at offset 128, and then at 127.
    let (types, functions) = (FRONT[0], "03 02 01 00");
    let nops = "01".repeat(124);
    let padded = format!("0a 8701 01 8401 00 418000 {nops} 0440 0b 0b");
    let short = format!("0a 8601 01 8301 00 4100 {nops} 0440 0b 0b");
    let (before, after) = (hints("01 00 01 8001 01 01"), hints("01 00 01 7f 01 01"));
    check(
        &[types, functions, &before, &padded],
        &[types, functions, &after, &short],
    );
}

#[test]
fn code_that_does_not_change() {
    let short = short_code();
    // A function that has no body, and an offset that is in an instruction, are as they were.
    let odd = hints("02 01 01 06 01 01 09 01 00 01 01");
    check(&with(&odd, &short), &with(&odd, &short));
    let padded = format!("00 21 {NAMED} 01 8100 01 05 01 01");
    let minimal = hints("01 01 01 05 01 01");
    check(&with(&padded, &short), &with(&minimal, &short));
    let check_copied = |sections: &[&str], undecoded| {
        check_shortened(
            sections,
            &[],
            sections,
            "1 section copied undecoded",
            &[undecoded],
        );
    };
    // Hints that do not decode are kept.
    let damaged = hints("05");
    let undecoded =
        "4 (custom \"metadata.code.branch_hint\") at offset 0x39: unexpected end of input";
    let sections = with(&damaged, &short);
    check_copied(&sections, undecoded);
    // So is code that does not decode: its payload is behind 8 + 34 + 3 bytes.
    let sections = [&minimal, "0a 8400 01 02 00 ff"];
    let undecoded = "2 (code) at offset 0x30: unknown opcode";
    check_copied(&sections, undecoded);
}

#[test]
fn with_options() {
    let before = hints("01 01 01 07 01 01");
    let after = hints("01 01 01 05 01 01");
    let (padded, short) = (padded_code(), short_code());
    let build_id = custom("build_id", "01 07");
    let sections = [&with(&before, &padded)[..], &[&build_id]].concat();
    let adjusted = with(&after, &short);
    let kept = [&adjusted[..], &[&build_id]].concat();
    check_as(&sections, &["--build-id=keep"], &kept, NONE);
    check_as(&sections, &["--build-id=drop"], &adjusted, ONE);
    check_as(&sections, &["--keep-code"], &sections, "1 section copied");
    let dropped = [&FRONT[..], &[&short]].concat();
    check_as(
        &sections,
        &["--drop-offsets"],
        &dropped,
        "2 sections dropped, 0 copied undecoded",
    );
    let kept = [&dropped[..], &[&build_id]].concat();
    let options = ["--drop-offsets", "--build-id=keep"];
    check_as(&sections, &options, &kept, ONE);
}

#[test]
fn hints_at_no_instruction() {
    let padded = padded_code();
    let name = format!("section 4 (custom {NAME:?})");
    // The section is at 0x1c, its data at 0x38, and the first hint at 0x3b.
    let check = |data: &str, offset: &str, why: &str| {
        let sections = with(data, &padded).join(" ");
        check_fault(&[&sections], &format!("{name} at offset {offset}: {why}"));
    };
    let at = |function: u32, offset: &str| {
        format!("function {function} has no instruction at offset {offset} of its body")
    };
    // In the locals, in an instruction, and at the end of the body.
    check(&hints("01 01 01 00 01 01"), "0x3b", &at(1, "0x0"));
    check(&hints("01 01 02 07 01 01 08 01 01"), "0x3e", &at(1, "0x8"));
    check(&hints("01 01 01 10 01 01"), "0x3b", &at(1, "0x10"));
    // In a body that does not change, of an import, and of no function.
    check(&hints("02 01 00 02 01 04 01 01"), "0x3d", &at(2, "0x4"));
    check(&hints("01 00 01 07 01 01"), "0x3b", &at(0, "0x7"));
    check(&hints("01 03 01 07 01 01"), "0x3b", &at(3, "0x7"));
}

#[test]
fn sections_that_do_not_decode() {
    let (padded, short) = (padded_code(), short_code());
    let ended =
        "section 4 (custom \"metadata.code.branch_hint\") at offset 0x39: unexpected end of input";
    check_fault(&with(&hints("05"), &padded), ended);
    // Indices of functions count imports.
    let imports = "02 07 01 01 61 01 62 09 00";
    let (before, after) = (hints("01 01 01 07 01 01"), hints("01 01 01 05 01 01"));
    let unknown = "section 1 (import) at offset 0xf: unexpected byte or value";
    check_fault(&[imports, &before, &padded], unknown);
    // Without hints nothing counts them.
    let none = hints("00");
    let undecoded = ["1 (import) at offset 0xf: unexpected byte or value"];
    check_shortened(
        &[imports, &none, &padded],
        &[],
        &[imports, &none, &short],
        "1 section copied undecoded",
        &undecoded,
    );
    check_shortened(
        &[imports, &padded],
        &["--build-id=keep"],
        &[imports, &short],
        "1 section copied undecoded",
        &undecoded,
    );
    // Of a second code section, which does not decode, no function has hints.
    let others = [UNREAD, "0a 04 01 02 00 ff"];
    let sections = [&with(&before, &padded)[..], &others].concat();
    let expected = [&with(&after, &short)[..], &others].concat();
    // The first is at 0x5b, and the payload of the second at 0x61.
    let undecoded = [
        "6 (function) at offset 0x5f: unexpected end of input",
        "7 (code) at offset 0x64: unknown opcode",
    ];
    check_shortened(
        &sections,
        &[],
        &expected,
        "2 sections copied undecoded",
        &undecoded,
    );
}

#[test]
fn other_offsets() {
    let before = hints("01 01 01 07 01 01");
    let padded = padded_code();
    let why = |number: usize, name: &str| {
        format!(
            "section {number}, {name:?}, holds offsets that would become wrong; \
             --drop-offsets drops such sections, --keep-code keeps code and data byte for byte, \
             and --dry-run prints what each saves"
        )
    };
    for name in [".debug_info", "metadata.code.trace_inst"] {
        let other = custom(name, "00");
        let sections = [&with(&before, &padded)[..], &[&other]].concat();
        check_fault(&sections, &why(6, name));
    }
    let build_id = custom("build_id", "01 07");
    let sections = [&[&*build_id], &with(&before, &padded)[..]].concat();
    check_fault(
        &sections,
        "section 1, \"build_id\", identifies the module, whose code would change; \
         --build-id drop drops it, --build-id keep keeps it, \
         and --dry-run prints what each saves",
    );
    // The hints get shorter, and the code is elsewhere then.
    let (map, short) = (custom("sourceMappingURL", "01 61"), short_code());
    let padded_hints = format!("00 21 {NAMED} 01 8100 01 05 01 01");
    check_fault(&[&padded_hints, &short, &map], &why(3, "sourceMappingURL"));
}

#[test]
fn dry_runs() {
    let folder = Folder::new("hints_dry");
    let before = hints("01 01 02 07 01 01 0b 01 00");
    let padded_hints = before
        .replace("01 01 02", "8100 01 02")
        .replace("00 23", "00 24");
    let answer = Answer {
        out: "    before      after      saved  name
         8          8          0  header
         6          6          0  type
         9          9          0  import
         5          5          0  function
        38         37          1  custom \"metadata.code.branch_hint\"
        29         25          4  code
        95         90          5  all
"
        .into(),
        ..Answer::told(
            "standard input: 95 bytes before, 90 after; 0 sections copied undecoded (dry run)",
        )
    };
    let words = ["shorten", "-", "--dry-run"];
    let sections = module(&with(&padded_hints, &padded_code()));
    assert_eq!(folder.call(&words, &sections), answer);
}
