// Written by tools/to-rust from tests/wasm_tool_tests/src/failures.rtt: change that.
// Tests of failing requests for memory, and of reads and writes that fail in mid-stream.

use crate::checks::check_that;
use dolzhytik::fallible::Global;
use std::io::{Read, Write};
use crate::host::Abort;
use crate::test_support::{EndlessReader, FailingReader, FailingWriter, Heap, MOST, Refusing};
use dolzhytik::fallible::recipe::{RecipeCause, RecipeFault, assemble, assemble_versioned, run};

/// A recipe, and the output of the program for it.
const TEXT: &str = "body 0b";

const MODULE: &[u8] = b"0061736d010000000a040102000b\n";

/// Checks the error of a recipe, one of whose requests failed: it names the line at this position
/// of the list or the one after it. Returns the position.
fn check_fault(rt: &impl Abort, lines: &[usize], at: usize, fault: Option<RecipeFault>) -> usize {
    let Some(RecipeFault { line, cause }) = fault else {
        panic!(rt; "a refused request was not told")
    };
    assert_eq!(rt; cause, RecipeCause::Memory);
    let now = if line == lines[at] { at } else { at + 1 };
    assert_eq!(rt; lines.get(now), Some(&line), "{lines:?}");
    now
}

/// Each request of a recipe fails in turn: in these lines, and then after the last line.
fn check_recipe(rt: &impl Abort, alloc: Global, text: &str, lines: &[usize]) {
    let heap = Refusing::new(alloc);
    let mut at = 0;
    for nth in 1..MOST {
        heap.refuse(nth);
        let fault = assemble_versioned(&heap, text).err();
        if heap.is_waiting() {
            check_that(rt, fault.is_none());
            check_that(rt, at + 1 == lines.len());
            return;
        }
        at = check_fault(rt, lines, at, fault);
        heap.refuse(nth);
        let first = assemble(&heap, text).err();
        check_that(rt, lines[0] == 2 || first == fault);
    }
    panic!(rt; "no call was granted")
}

#[test]
fn each_request_refused() {
    let rt = crate::host::HostRuntime;
    let cases: [(&str, &[usize]); 6] = [
        ("type 600000\n\nbody 0b", &[1, 3, 0]),
        ("global -1\n\ndata 8 6869", &[1, 3, 0]),
        ("name a\n\nname b c", &[1, 3, 0]),
        (
            "version 2\nimport a b func 0\nmemory 1 2 # of pages\nbody 0b",
            &[2, 3, 4, 0],
        ),
        (
            "version 2\ntable 3\nelem 0 0 1 2 3 4 5 6 7 8\nfunc 0",
            &[2, 3, 4, 0],
        ),
        ("version 2\nlocals 2 i64\n\nbody 0b", &[2, 4, 0]),
    ];
    for (text, lines) in cases {
        check_recipe(&rt, rt.alloc(), text, lines);
    }
}

/// Checks the exit status and the output of the program: the module, if the status is 0.
fn check_module(rt: &impl Abort, status: u8, out: &[u8]) -> bool {
    let expected = if status == 0 { MODULE } else { &[] };
    assert_eq!(rt; out, expected);
    assert!(rt; status < 2);
    status == 0
}

/// Calls `run` without arguments.
fn run_on<I: Read, O: Write, E: Write>(
    heap: Heap<'_>,
    input: &mut I,
    out: &mut O,
    err: &mut E,
) -> u8 {
    run(heap, &[], input, out, err)
}

/// Checks that the program reports a failed allocation, and its line.
fn check_memory(rt: &impl Abort, message: &[u8]) {
    assert!(rt;
        message == b"line 0: out of memory\n".as_slice()
            || message == b"line 1: out of memory\n".as_slice()
    );
}

#[test]
fn each_request_of_the_program_refused() {
    let rt = crate::host::HostRuntime;
    let heap = Refusing::new(rt.alloc());
    for nth in 1..MOST {
        let mut out = FailingWriter::new(rt.alloc(), 0);
        let mut err = FailingWriter::new(rt.alloc(), 0);
        heap.refuse(nth);
        let status = run_on(&heap, &mut TEXT.as_bytes(), &mut out, &mut err);
        let written = check_module(&rt, status, out.bytes());
        check_that(&rt, written == heap.is_waiting());
        if written {
            return;
        }
        check_memory(&rt, err.bytes());
    }
    panic!(rt; "no call was granted")
}

/// Checks that the program reports nothing if it could read all, and otherwise that the input is
/// not text.
fn check_input(rt: &impl Abort, whole: bool, message: &[u8]) {
    let expected: &[u8] = if whole { &[] } else { b"input: not text\n" };
    assert_eq!(rt; message, expected);
}

#[test]
fn each_read_fails() {
    let rt = crate::host::HostRuntime;
    for failing in 1..MOST {
        let mut input = FailingReader::new(TEXT.as_bytes(), 2, failing);
        let mut out = FailingWriter::new(rt.alloc(), 0);
        let mut err = FailingWriter::new(rt.alloc(), 0);
        let status = run(rt.alloc(), &[], &mut input, &mut out, &mut err);
        let whole = check_module(&rt, status, out.bytes());
        check_input(&rt, whole, err.bytes());
        if whole {
            // Seven bytes, two at a time, and the end.
            check_that(&rt, failing == 6);
            return;
        }
    }
    panic!(rt; "no run read all")
}

#[test]
fn an_endless_input() {
    let rt = crate::host::HostRuntime;
    let mut input = EndlessReader::new();
    let mut out = FailingWriter::new(rt.alloc(), 0);
    let mut err = FailingWriter::new(rt.alloc(), 0);
    let status = run(rt.alloc(), &[], &mut input, &mut out, &mut err);
    check_that(&rt, !check_module(&rt, status, out.bytes()));
    check_input(&rt, false, err.bytes());
    check_that(&rt, input.reads() == 1048576);
}

/// Checks a run in which one write fails: its output is a prefix of the expected one. Returns
/// whether no write failed.
fn check_write(
    rt: &impl Abort,
    alloc: Global,
    failing: u64,
    text: &str,
    expected: &[u8],
    message: &[u8],
) -> bool {
    let mut out = FailingWriter::new(alloc, failing);
    let mut err = FailingWriter::new(alloc, failing);
    let mut input = text.as_bytes();
    let status = run(alloc, &[], &mut input, &mut out, &mut err);
    check_that(rt, status == 0 || status == 1);
    check_that(rt, expected.starts_with(out.bytes()));
    check_that(rt, message.starts_with(err.bytes()));
    let ended = out.bytes() == expected && err.bytes() == message;
    check_that(rt, status == 1 || (ended && message.is_empty()));
    ended
}

/// Each write of the run fails in turn, until none does.
fn check_writes(rt: &impl Abort, alloc: Global, text: &str, expected: &[u8], message: &[u8]) {
    for failing in 1..MOST {
        if check_write(rt, alloc, failing, text, expected, message) {
            check_that(rt, failing > 1);
            return;
        }
    }
    panic!(rt; "no run wrote all")
}

#[test]
fn each_write_fails() {
    let rt = crate::host::HostRuntime;
    check_writes(&rt, rt.alloc(), TEXT, MODULE, b"");
    check_writes(
        &rt,
        rt.alloc(),
        "nothing",
        b"",
        b"line 1: unknown command\n",
    );
}
