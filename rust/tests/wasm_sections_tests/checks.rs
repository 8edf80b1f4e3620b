// Written by tools/to-rust from tests/wasm_sections_tests/src/checks.rtt: change that.
// Assertions over plain data: one over values that own memory takes far longer to prove.

use dolzhytik::fallible::Vec;
use dolzhytik::fallible::Global;
use crate::host::Abort;
use crate::test_support::Heap;
use dolzhytik::fallible::{Encode, Refused, Result};

/// Checks the condition.
pub(crate) fn check_that(rt: &impl Abort, holds: bool) {
    assert!(rt; holds);
}

/// Checks the bytes.
pub(crate) fn check_bytes(rt: &impl Abort, bytes: &[u8], expected: &[u8]) {
    assert_eq!(rt; bytes, expected);
}

/// Checks the number.
pub(crate) fn check_number(rt: &impl Abort, number: usize, expected: usize) {
    assert_eq!(rt; number, expected);
}

/// Checks the bytes of the entry.
pub(crate) fn check_piece(rt: &impl Abort, piece: Option<&[u8]>, expected: Option<&[u8]>) {
    assert_eq!(rt; piece, expected);
}

/// Checks that the call returned `Memory`.
pub(crate) fn check_refused(rt: &impl Abort, refused: Option<Refused>) {
    assert_eq!(rt; refused, Some(Refused::Memory));
}

/// Checks the result of a call whose request numbered `nth` was to fail. It succeeds only if it
/// makes fewer requests, and it makes at least one. Returns whether all were granted.
pub(crate) fn check_answer(rt: &impl Abort, heap: Heap<'_>, nth: u64, answer: Result<()>) -> bool {
    let granted = heap.is_waiting();
    let expected: Result<()> = if granted {
        Ok(())
    } else {
        Err(Refused::Memory)
    };
    assert_eq!(rt; answer, expected);
    assert!(rt; !granted || nth > 1);
    granted
}

/// Checks a sink that held the byte 7 after such a call: it has these bytes after it, or none.
pub(crate) fn check_sink(rt: &impl Abort, granted: bool, sink: &[u8], expected: &[u8]) {
    let appended: &[u8] = if granted { expected } else { &[] };
    assert_eq!(rt; sink.split_first(), Some((&7, appended)));
}

/// Checks that the item encodes to these bytes.
pub(crate) fn check<T: Encode>(rt: &impl Abort, alloc: Global, item: &T, expected: &[u8]) {
    let mut sink = Vec::new(alloc);
    item.encode(&mut sink).expect("accepted");
    check_bytes(rt, &sink, expected);
}
