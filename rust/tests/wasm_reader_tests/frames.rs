// Written by tools/to-rust from tests/wasm_reader_tests/src/frames.rtt: change that.
// Tests of pairs, vectors, size prefixes and flags, with ample memory, and of the messages of
// errors.

use dolzhytik::fallible::Vec;
use crate::checks::{check_fault, check_left, check_numbers};
use dolzhytik::fallible::Global;
use crate::host::Abort;
use dolzhytik::reader::{Padded, ReadFault, Readable, SizePrefixed, read_optional};

/// A section of indices.
type Numbers = SizePrefixed<Vec<u32>>;

/// Checks the indices of a decoded section, and the number of remaining bytes.
fn check_section(rt: &impl Abort, alloc: Global, bytes: &[u8], expected: &[u32], left: usize) {
    let (SizePrefixed(numbers), rest) = <Numbers as Readable<'_, Global, Padded>>::read(
        bytes, alloc,
    ).expect("accepted");
    check_numbers(rt, &numbers, expected);
    check_left(rt, rest, left);
}

#[test]
fn sections_of_numbers() {
    let rt = crate::host::HostRuntime;
    let alloc = rt.alloc();
    check_section(&rt, alloc, &[2, 1, 5, 0x99], &[5], 1);
    check_section(
        &rt,
        alloc,
        &[0x86, 0, 1, 0x85, 0x80, 0x80, 0x80, 0],
        &[5],
        0,
    );
    check_section(&rt, alloc, &[3, 1, 0x80, 0], &[0], 0);
    check_section(&rt, alloc, &[1, 0, 7], &[], 1);
    check_section(&rt, alloc, &[4, 3, 1, 2, 3], &[1, 2, 3], 0)
}

#[test]
fn sections_that_are_none() {
    let rt = crate::host::HostRuntime;
    let alloc = rt.alloc();
    check_fault::<Numbers>(
        &rt,
        alloc,
        &[5, 0xFF, 0xFF, 0xFF, 0xFF, 15],
        ReadFault::Ended,
    );
    check_fault::<Numbers>(
        &rt,
        alloc,
        &[6, 1, 0xFF, 0xFF, 0xFF, 0xFF, 0x1F],
        ReadFault::TooLarge,
    );
    check_fault::<Numbers>(&rt, alloc, &[3, 1, 0, 0], ReadFault::SizeMismatch);
    check_fault::<Numbers>(
        &rt,
        alloc,
        &[7, 1, 0x80, 0x80, 0x80, 0x80, 0x80, 0],
        ReadFault::TooLarge,
    );
    check_fault::<SizePrefixed<Vec<(&str, (u8, u32))>>>(
        &rt,
        alloc,
        &[5, 1, 1, 0xFF, 0, 0],
        ReadFault::NotUtf8,
    );
}

/// Checks the value that a flag selects.
fn check_optional(rt: &impl Abort, given: Option<u64>, expected: Option<u64>) {
    assert_eq!(rt; given, expected);
}

#[test]
fn optional_values() {
    let rt = crate::host::HostRuntime;
    let (some, rest) = read_optional::<u64, Global, Padded>(true, &[0x85, 0, 9], rt.alloc()).expect(
        "accepted",
    );
    check_optional(&rt, some, Some(5));
    check_left(&rt, rest, 1);
    let (none, rest) = read_optional::<u64, Global, Padded>(
        false,
        &[0x85, 0, 9],
        rt.alloc(),
    ).expect("accepted");
    check_optional(&rt, none, None);
    check_left(&rt, rest, 3);
}

/// Checks the message of the error.
fn check_said(rt: &impl Abort, alloc: Global, fault: ReadFault, expected: &str) {
    let said = format!(in alloc; "{fault}").expect("accepted");
    check_same(rt, said.as_str(), expected);
}

/// Checks that the strings are equal.
fn check_same(rt: &impl Abort, given: &str, expected: &str) {
    assert_eq!(rt; given, expected);
}

#[test]
fn texts_of_faults() {
    let rt = crate::host::HostRuntime;
    let alloc = rt.alloc();
    check_said(&rt, alloc, ReadFault::Ended, "unexpected end of input");
    check_said(&rt, alloc, ReadFault::NotShortest, "padded integer");
    check_said(&rt, alloc, ReadFault::TooLarge, "integer too large");
    check_said(
        &rt,
        alloc,
        ReadFault::UnknownTag,
        "unexpected byte or value",
    );
    check_said(&rt, alloc, ReadFault::UnknownOpcode, "unknown opcode");
    check_said(&rt, alloc, ReadFault::NotUtf8, "invalid UTF-8");
    check_said(
        &rt,
        alloc,
        ReadFault::SizeMismatch,
        "bytes remain after the value",
    );
    check_said(&rt, alloc, ReadFault::Memory, "out of memory")
}
