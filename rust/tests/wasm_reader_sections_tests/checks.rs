// Written by tools/to-rust from tests/wasm_reader_sections_tests/src/checks.rtt: change that.
// Assertions that the tests share.

use crate::host::Abort;
use dolzhytik::reader::ReadFault;
use dolzhytik::fallible::Refused;
use dolzhytik::reader::remap::RemapError;

/// Checks the bytes.
pub(crate) fn check_bytes(rt: &impl Abort, bytes: &[u8], expected: &[u8]) {
    assert_eq!(rt; bytes, expected);
}

/// Returns whether the error is that of a failed allocation.
pub(crate) fn is_want_of_memory<E>(error: &RemapError<E>) -> bool {
    match error {
        RemapError::Refused(refused) => *refused == Refused::Memory,
        RemapError::Read(error) => error.cause == ReadFault::Memory,
        _ => false,
    }
}
