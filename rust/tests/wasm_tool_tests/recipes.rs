// Written by tools/to-rust from tests/wasm_tool_tests/src/recipes.rtt: change that.
// Tests of the modules of recipes, with ample memory.

use dolzhytik::fallible::{Vec, String};
use crate::checks::{check_bytes, check_run};
use dolzhytik::fallible::Global;
use crate::host::Abort;
use dolzhytik::fallible::recipe::{RecipeCause, RecipeFault, assemble, run};

/// Checks the exit status and the output of the program for an input.
fn check_text(
    rt: &impl Abort,
    alloc: Global,
    text: &str,
    status: u8,
    out_text: &str,
    err_text: &str,
) {
    let mut out = Vec::new(alloc);
    let mut err = Vec::new(alloc);
    let answer = run(alloc, &[], &mut text.as_bytes(), &mut out, &mut err);
    let expected = (status, out_text.as_bytes(), err_text.as_bytes());
    check_run(rt, text, (answer, &out, &err), expected);
}

#[test]
fn modules() {
    let rt = crate::host::HostRuntime;
    let cases = [
        (
            "body 200020016a0b",
            "0061736d010000000a09010700200020016a0b\n",
        ),
        ("body 0b\nbody 0B", "0061736d010000000a070202000b02000b\n"),
        (
            "func 0\nmemory 1\nexport m memory 0\nstart 0",
            "0061736d01000000030201000503010001070501016d0200080100\n",
        ),
        (
            "type 60027f7f017f\nfunc 0\nexport f func 0\nbody 200020016a0b",
            "0061736d0100000001070160027f7f017f03020100070501016600000a09010700200020016a0b\n",
        ),
        ("start 1\nstart 0300", "0061736d010000000802ac02\n"),
        (
            "global 2147483647\nglobal -2147483648",
            "0061736d010000000613027f0041ffffffff070b7f004180808080780b\n",
        ),
        ("global -00", "0061736d010000000606017f0041000b\n"),
        ("", "0061736d01000000\n"),
        ("type 600000", "0061736d01000000010401600000\n"),
        (
            "data 8 6869\nglobal -1",
            "0061736d010000000606017f00417f0b0b08010041080b026869\n",
        ),
        ("name m", "0061736d010000000009046e616d650002016d\n"),
        ("name a b", "0061736d01000000000b046e616d65000403612062\n"),
        (
            "name   a b \r\nname \u{e9}\nfunc 0",
            "0061736d01000000030201000011046e616d6500050461206220000302c3a9\n",
        ),
        (
            "body 0b\r\n\n   type   600000 and more\r\n",
            "0061736d010000000104016000000a040102000b\n",
        ),
    ];
    for (text, line) in cases {
        check_text(&rt, rt.alloc(), text, 0, line, "");
    }
}

#[test]
fn faults() {
    let rt = crate::host::HostRuntime;
    let cases = [
        ("body", "line 1: missing word\n"),
        ("type ", "line 1: missing word\n"),
        ("\nbody 0", "line 2: bad hex\n"),
        ("type zz", "line 1: bad hex\n"),
        ("func +1", "line 1: bad number\n"),
        ("func 4294967296", "line 1: bad number\n"),
        ("memory 18446744073709551616", "line 1: bad number\n"),
        ("start", "line 1: missing word\n"),
        ("export f func", "line 1: missing word\n"),
        ("export f oops x", "line 1: unknown command\n"),
        ("export f tag -1", "line 1: bad number\n"),
        ("func 0\ndata 0 zz", "line 2: bad hex\n"),
        ("data 0", "line 1: missing word\n"),
        ("func 0\nname", "line 2: missing word\n"),
        ("name  \r", "line 1: missing word\n"),
        ("names m", "line 1: unknown command\n"),
        ("data x zz", "line 1: bad number\n"),
        ("global x", "line 1: bad number\n"),
        ("global 2147483648", "line 1: bad number\n"),
        ("global -2147483649", "line 1: bad number\n"),
        ("global --1", "line 1: bad number\n"),
        ("global +1", "line 1: bad number\n"),
        ("bodies 0b", "line 1: unknown command\n"),
        ("body 0b\n\n oops\nbody", "line 3: unknown command\n"),
        ("\u{e9}", "line 1: unknown command\n"),
    ];
    for (text, message) in cases {
        check_text(&rt, rt.alloc(), text, 1, "", message);
    }
}

#[test]
fn inputs_that_are_no_text() {
    let rt = crate::host::HostRuntime;
    let mut out = Vec::new(rt.alloc());
    let mut err = Vec::new(rt.alloc());
    let bytes = [0xFFu8];
    let answer = run(rt.alloc(), &[], &mut bytes.as_slice(), &mut out, &mut err);
    check_run(
        &rt,
        "FF",
        (answer, &out, &err),
        (1, b"", b"input: not text\n"),
    );
}

/// Checks that the program with an argument prints its usage.
fn check_argument(rt: &impl Abort, alloc: Global, word: &str) {
    let args = [String::from_str(alloc, word).expect("accepted")];
    let mut out = Vec::new(alloc);
    let mut err = Vec::new(alloc);
    let text: &str = "body 0b";
    let answer = run(alloc, &args, &mut text.as_bytes(), &mut out, &mut err);
    check_run(
        rt,
        word,
        (answer, &out, &err),
        (2, b"", b"usage: wasmrow [--read]\n"),
    );
}

#[test]
fn arguments() {
    let rt = crate::host::HostRuntime;
    check_argument(&rt, rt.alloc(), "-x");
    check_argument(&rt, rt.alloc(), "--read=");
}

#[test]
fn modules_as_bytes() {
    let rt = crate::host::HostRuntime;
    let bytes = assemble(rt.alloc(), "body 0b").expect("accepted");
    check_bytes(&rt, &bytes, b"\0asm\x01\0\0\0\x0A\x04\x01\x02\0\x0B");
}

/// Checks the error of the recipe.
fn check_fault(rt: &impl Abort, fault: Option<RecipeFault>, line: usize, cause: RecipeCause) {
    assert_eq!(rt; fault, Some(RecipeFault { line, cause }));
}

#[test]
fn first_faults() {
    let rt = crate::host::HostRuntime;
    let fault = assemble(rt.alloc(), "body 0b\nbody x").err();
    check_fault(&rt, fault, 2, RecipeCause::BadHex);
}

/// Checks the string.
fn check_shown(rt: &impl Abort, text: &str, expected: &str) {
    assert_eq!(rt; text, expected);
}

#[test]
fn texts_of_faults() {
    let rt = crate::host::HostRuntime;
    let cases = [
        (RecipeCause::UnknownCommand, "line 7: unknown command"),
        (RecipeCause::BadNumber, "line 7: bad number"),
        (RecipeCause::BadHex, "line 7: bad hex"),
        (RecipeCause::MissingWord, "line 7: missing word"),
        (RecipeCause::Memory, "line 7: out of memory"),
        (RecipeCause::TooLong, "line 7: too long"),
    ];
    for (cause, text) in cases {
        let fault = RecipeFault { line: 7, cause };
        let shown = format!(in rt.alloc(); "{fault}").expect("accepted");
        check_shown(&rt, shown.as_str(), text);
    }
}
