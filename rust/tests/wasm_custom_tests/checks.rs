// Written by tools/to-rust from tests/wasm_custom_tests/src/checks.rtt: change that.
// Assertions over plain data: one over values that own memory takes far longer to prove.

use dolzhytik::fallible::Vec;
use dolzhytik::fallible::Global;
use crate::host::Abort;
use crate::test_support::Heap;
use dolzhytik::fallible::{Encode, Refused, Result, Section};

/// Checks the condition.
pub(crate) fn check_that(rt: &impl Abort, holds: bool) {
    assert!(rt; holds);
}

/// Checks the bytes.
pub(crate) fn check_bytes(rt: &impl Abort, bytes: &[u8], expected: &[u8]) {
    assert_eq!(rt; bytes, expected);
}

/// Checks the number of entries.
pub(crate) fn check_len(rt: &impl Abort, len: u32, is_empty: bool, expected: u32) {
    assert_eq!(rt; (len, is_empty), (expected, expected == 0));
}

/// Checks that the call returned `Memory`.
pub(crate) fn check_refused(rt: &impl Abort, refused: Option<Refused>) {
    assert_eq!(rt; refused, Some(Refused::Memory));
}

/// Checks the result of a call whose request numbered `nth` was to fail. It succeeds only if it
/// makes fewer requests, and it makes at least one. Returns whether all were granted.
pub(crate) fn check_answer(rt: &impl Abort, heap: Heap<'_>, nth: u64, answer: Result<()>) -> bool {
    let granted = heap.is_waiting();
    let expected: Result<()> = if granted {
        Ok(())
    } else {
        Err(Refused::Memory)
    };
    assert_eq!(rt; answer, expected);
    assert!(rt; !granted || nth > 1);
    granted
}

/// Checks that the item encodes to these bytes.
pub(crate) fn check_text<T: Encode>(rt: &impl Abort, alloc: Global, item: &T, expected: &[u8]) {
    let mut sink = Vec::new(alloc);
    item.encode(&mut sink).expect("accepted");
    check_bytes(rt, &sink, expected);
}

/// Checks that the id is that of custom sections, and precedes the encoding.
fn check_id(rt: &impl Abort, id: u8, first: Option<&u8>) {
    assert_eq!(rt; (id, first), (0, Some(&0)));
}

/// Checks that the custom section encodes to these bytes.
pub(crate) fn check<S: Section>(rt: &impl Abort, alloc: Global, section: &S, expected: &[u8]) {
    check_text(rt, alloc, section, expected);
    let mut sink = Vec::new(alloc);
    section.append_to(&mut sink).expect("accepted");
    check_id(rt, section.id(), sink.first());
}
