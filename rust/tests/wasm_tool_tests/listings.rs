// Written by tools/to-rust from tests/wasm_tool_tests/src/listings.rtt: change that.
// Tests of `--read`.

use dolzhytik::fallible::{Vec, String};
use crate::checks::{check_run, check_that};
use dolzhytik::fallible::Global;
use crate::host::Abort;
use crate::test_support::{FailingReader, FailingWriter, MOST, Refusing};
use dolzhytik::fallible::recipe::run;

/// A module of two sections, and its lines.
const TEXT: &str = "0061736d01000000030201000705010166000000020161";

const LINES: &str = "3 2 1\n7 5 1\n0 2 -\n";

/// The module of a recipe that has each command, and its lines.
const WHOLE: &str = "0061736d0100000001070160027f7f017f030201000503010001\
    0606017f00417f0b07050101660000080100\
    0a09010700200020016a0b0b08010041080b0268690009046e616d650002016d";

const WHOLE_LINES: &str = "1 7 -\n3 2 1\n5 3 1\n6 6 1\n7 5 1\n8 1 1\n10 9 1\n11 8 1\n0 9 -\n";

/// Checks the exit status and the output of the program for an input.
fn check_text(
    rt: &impl Abort,
    args: &[String],
    alloc: Global,
    text: &[u8],
    expected: (u8, &str, &str),
) {
    let mut out = Vec::new(alloc);
    let mut err = Vec::new(alloc);
    let mut input = text;
    let answer = run(alloc, args, &mut input, &mut out, &mut err);
    let (status, lines, message) = expected;
    check_run(
        rt,
        "--read",
        (answer, &out, &err),
        (status, lines.as_bytes(), message.as_bytes()),
    );
}

/// Returns the word `--read`.
fn word(rt: &impl Abort, alloc: Global) -> [String; 1] {
    [String::from_str(alloc, "--read").expect("accepted")]
}

#[test]
fn lines_of_modules() {
    let rt = crate::host::HostRuntime;
    let args = word(&rt, rt.alloc());
    let cases = [
        ("0061736d01000000", ""),
        ("0061736D01000000 \r\n \n", ""),
        (
            "0061736d0100000001070160027f7f017f03020100070501016600000a09010700200020016a0b",
            "1 7 -\n3 2 1\n7 5 1\n10 9 1\n",
        ),
        ("0061736d01000000038300018000\r\n", "3 3 1\n"),
        (
            "0061736d0100000000020161020100040100050100060100080107090100",
            "0 2 -\n2 1 0\n4 1 0\n5 1 0\n6 1 0\n8 1 1\n9 1 0\n",
        ),
        (
            "0061736d010000000b01000c01020d01000e00ff0101",
            "11 1 0\n12 1 1\n13 1 0\n14 0 -\n255 1 -\n",
        ),
    ];
    for (text, lines) in cases {
        check_text(&rt, &args, rt.alloc(), text.as_bytes(), (0, lines, ""));
    }
}

#[test]
fn faults() {
    let rt = crate::host::HostRuntime;
    let args = word(&rt, rt.alloc());
    let cases = [
        ("0061736d010000000a06010400281000", "section 1: Ended\n"),
        ("", "section 0: Ended\n"),
        ("0061736d0100", "section 0: Ended\n"),
        ("0061736d02000000", "section 0: UnknownTag\n"),
        ("0061736d010000000302010007", "section 2: Ended\n"),
        ("0061736d01000000030301000d030101000", "input: bad hex\n"),
        ("0061736d010000000d03010100", "section 1: UnknownTag\n"),
        ("0061736d010000000703010100", "section 1: Ended\n"),
        (" 0061736d01000000", "input: bad hex\n"),
        ("0061736d 01000000", "input: bad hex\n"),
        ("0061736d0100000g", "input: bad hex\n"),
        ("0061736d0100000", "input: bad hex\n"),
        ("\u{e9}", "input: bad hex\n"),
    ];
    for (text, message) in cases {
        check_text(&rt, &args, rt.alloc(), text.as_bytes(), (1, "", message));
    }
    check_text(
        &rt,
        &args,
        rt.alloc(),
        &[0xFF],
        (1, "", "input: not text\n"),
    );
}

/// Checks the result of the program of which a request was to fail: the lines if none failed, and a
/// failed allocation otherwise.
fn check_answer(
    rt: &impl Abort,
    granted: bool,
    (text, lines): (&str, &str),
    status: u8,
    out: &[u8],
    message: &[u8],
) {
    if granted {
        check_run(rt, text, (status, out, message), (0, lines.as_bytes(), b""));
    } else {
        check_that(rt, status == 1 && out.is_empty());
        check_that(rt, message.starts_with(b"section "));
        check_that(rt, message.ends_with(b": Memory\n"));
    }
}

/// Checks that the module has these lines, with each request failing in turn.
fn check_refusals(rt: &impl Abort, alloc: Global, text: &str, lines: &str) {
    let heap = Refusing::new(alloc);
    let args = [String::from_str(&heap, "--read").expect("accepted")];
    for nth in 1..MOST {
        let mut out = FailingWriter::new(alloc, 0);
        let mut err = FailingWriter::new(alloc, 0);
        heap.refuse(nth);
        let status = run(&heap, &args, &mut text.as_bytes(), &mut out, &mut err);
        let granted = heap.is_waiting();
        check_answer(rt, granted, (text, lines), status, out.bytes(), err.bytes());
        if granted {
            return;
        }
    }
    panic!(rt; "no call was granted")
}

#[test]
fn each_request_refused() {
    let rt = crate::host::HostRuntime;
    check_refusals(&rt, rt.alloc(), TEXT, LINES);
    check_refusals(&rt, rt.alloc(), WHOLE, WHOLE_LINES);
}

#[test]
fn a_read_fails() {
    let rt = crate::host::HostRuntime;
    let args = word(&rt, rt.alloc());
    let mut input = FailingReader::new(TEXT.as_bytes(), 2, 3);
    let mut out = FailingWriter::new(rt.alloc(), 0);
    let mut err = FailingWriter::new(rt.alloc(), 0);
    let status = run(rt.alloc(), &args, &mut input, &mut out, &mut err);
    check_run(
        &rt,
        TEXT,
        (status, out.bytes(), err.bytes()),
        (1, b"", b"input: not text\n"),
    );
}
