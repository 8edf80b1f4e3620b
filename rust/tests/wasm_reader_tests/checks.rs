// Written by tools/to-rust from tests/wasm_reader_tests/src/checks.rtt: change that.
// Assertions over plain data: one over values that own memory takes far longer to prove.

use dolzhytik::fallible::Vec;
use dolzhytik::fallible::Global;
use crate::host::Abort;
use dolzhytik::fallible::Encode;
use dolzhytik::reader::{Padded, ReadFault, Readable};

/// Checks the bytes.
pub(crate) fn check_bytes(rt: &impl Abort, bytes: &[u8], expected: &[u8]) {
    assert_eq!(rt; bytes, expected);
}

/// Checks the cause.
pub(crate) fn check_cause(rt: &impl Abort, given: Option<ReadFault>, expected: ReadFault) {
    assert_eq!(rt; given, Some(expected));
}

/// Checks the numbers.
pub(crate) fn check_numbers(rt: &impl Abort, given: &[u32], expected: &[u32]) {
    assert_eq!(rt; given, expected);
}

/// Checks the number of remaining bytes.
pub(crate) fn check_left(rt: &impl Abort, given: &[u8], expected: usize) {
    assert_eq!(rt; given.len(), expected);
}

/// Returns the error of decoding a `T`.
fn fault_of<'a, T: Readable<'a, Global, Padded>>(
    alloc: Global,
    bytes: &'a [u8],
) -> Option<ReadFault> {
    match T::read(bytes, alloc) {
        Ok(_) => None,
        Err(error) => Some(error.cause()),
    }
}

/// Checks that decoding a `T` fails with this error.
pub(crate) fn check_fault<'a, T: Readable<'a, Global, Padded>>(
    rt: &impl Abort,
    alloc: Global,
    bytes: &'a [u8],
    expected: ReadFault,
) {
    check_cause(rt, fault_of::<T>(alloc, bytes), expected);
}

/// Checks the decoded `T`, and the number of remaining bytes.
pub(crate) fn check_read<'a, T: Readable<'a, Global, Padded> + Copy + PartialEq>(
    rt: &impl Abort,
    alloc: Global,
    bytes: &'a [u8],
    expected: T,
    left: usize,
) {
    let (value, rest) = T::read(bytes, alloc).expect("accepted");
    assert!(rt; value == expected);
    check_left(rt, rest, left);
}

/// Checks the minimal encoding of the decoded `T`, and the number of remaining bytes.
pub(crate) fn check_text<'a, T: Readable<'a, Global, Padded> + Encode>(
    rt: &impl Abort,
    alloc: Global,
    bytes: &'a [u8],
    text: &[u8],
    left: usize,
) {
    let (value, rest) = T::read(bytes, alloc).expect("accepted");
    let mut sink = Vec::new(alloc);
    value.encode(&mut sink).expect("accepted");
    check_bytes(rt, &sink, text);
    check_left(rt, rest, left);
}
