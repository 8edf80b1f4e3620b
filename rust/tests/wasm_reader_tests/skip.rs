// Written by tools/to-rust from tests/wasm_reader_tests/src/skip.rtt: change that.
// Tests of values that are skipped and not kept: each request for memory would fail, so that none
// is made.

use dolzhytik::fallible::Vec;
use crate::checks::{check_cause, check_left};
use crate::host::Abort;
use crate::test_support::{Heap, Refusing};
use dolzhytik::reader::{Padded, ReadFault, SizePrefixed, Walk, check_to_end, check_whole, skip_many, skip_value};
use dolzhytik::fallible::ValType;
use dolzhytik::reader::{Body, Expression};

/// Checks that a value of the kind is skipped, and the number of remaining bytes.
fn check<'a, P: Walk<Padded>>(rt: &impl Abort, heap: Heap<'a>, bytes: &'a [u8], left: usize) {
    heap.refuse_all();
    match skip_value::<P, Heap, Padded>(bytes, heap) {
        Ok(rest) => check_left(rt, rest, left),
        Err(_) => panic!(rt; "nothing stands there"),
    }
}

/// Checks that skipping fails with this cause.
fn check_none<'a, P: Walk<Padded>>(
    rt: &impl Abort,
    heap: Heap<'a>,
    bytes: &'a [u8],
    expected: ReadFault,
) {
    heap.refuse_all();
    let fault = match skip_value::<P, Heap, Padded>(bytes, heap) {
        Ok(_) => None,
        Err(error) => Some(error.cause()),
    };
    check_cause(rt, fault, expected);
}

fn check_count(rt: &impl Abort, given: u32, expected: u32) {
    assert_eq!(rt; given, expected);
}

#[test]
fn values() {
    let rt = crate::host::HostRuntime;
    let heap = Refusing::new(rt.alloc());
    check::<u32>(&rt, &heap, &[0x85, 0x00, 9], 1);
    check::<(u8, u32)>(&rt, &heap, &[0xFF, 0x85, 0x00, 9], 1);
    check_none::<u32>(&rt, &heap, &[0x85], ReadFault::Ended);
    check_none::<(u8, u32)>(&rt, &heap, &[0xFF], ReadFault::Ended);
    check_none::<(u8, u32)>(&rt, &heap, &[], ReadFault::Ended);
}

#[test]
fn many() {
    let rt = crate::host::HostRuntime;
    let heap = Refusing::new(rt.alloc());
    heap.refuse_all();
    let (count, rest) = skip_many::<ValType, Heap, Padded>(
        &[0x82, 0x00, 0x7F, 0x64, 0x05, 9],
        &heap,
    ).expect("accepted");
    check_count(&rt, count, 2);
    check_left(&rt, rest, 1);
    let (count, rest) = skip_many::<ValType, Heap, Padded>(&[0, 9], &heap).expect("accepted");
    check_count(&rt, count, 0);
    check_left(&rt, rest, 1);
    let short = match skip_many::<ValType, Heap, Padded>(&[2, 0x7F], &heap) {
        Ok(_) => None,
        Err(error) => Some(error.cause()),
    };
    check_cause(&rt, short, ReadFault::Ended);
}

#[test]
fn lists_and_payloads() {
    let rt = crate::host::HostRuntime;
    let heap = Refusing::new(rt.alloc());
    check::<Vec<u32, Heap>>(&rt, &heap, &[2, 0x85, 0x00, 6, 9], 1);
    check::<SizePrefixed<u32>>(&rt, &heap, &[0x82, 0x00, 0x85, 0x00, 9, 9], 2);
    check_none::<Vec<u32, Heap>>(&rt, &heap, &[2, 5], ReadFault::Ended);
    check_none::<SizePrefixed<u32>>(&rt, &heap, &[2, 5, 9, 9], ReadFault::SizeMismatch);
    check_none::<SizePrefixed<u32>>(&rt, &heap, &[1, 0x85, 0x00], ReadFault::Ended);
}

fn check_all(rt: &impl Abort, given: Option<ReadFault>, expected: Option<ReadFault>) {
    assert_eq!(rt; given, expected);
}

#[test]
fn values_of_all_bytes() {
    let rt = crate::host::HostRuntime;
    let heap = Refusing::new(rt.alloc());
    heap.refuse_all();
    let whole = [
        (&[0x85, 0x00][..], None),
        (&[], Some(ReadFault::Ended)),
        (&[5, 6], Some(ReadFault::SizeMismatch)),
    ];
    for (bytes, expected) in whole {
        let error = check_whole::<u32, Heap, Padded>(bytes, &heap).err();
        check_all(&rt, error.map(|error| error.cause()), expected);
    }
    let members = [
        (&[][..], None),
        (&[0x85, 0x00, 6], None),
        (&[5, 0x86], Some(ReadFault::Ended)),
    ];
    for (bytes, expected) in members {
        let error = check_to_end::<u32, Heap, Padded>(bytes, &heap).err();
        check_all(&rt, error.map(|error| error.cause()), expected);
    }
}

/// Expressions of one instruction: each immediate of a shape, and each list with two members.
static EXPRESSIONS: [&[u8]; 24] = [
    &[0x0B],
    &[0x01, 0x0B],
    &[0x20, 0x85, 0x00, 0x0B],
    &[0x11, 7, 1, 0x0B],
    &[0x41, 0xFF, 0x7F, 0x0B],
    &[0x42, 0x40, 0x0B],
    &[0x43, 11, 11, 11, 11, 0x0B],
    &[0x44, 11, 11, 11, 11, 11, 11, 11, 11, 0x0B],
    &[0x02, 0x40, 0x0B],
    &[0x02, 0x63, 0x6E, 0x0B],
    &[0xD0, 0x70, 0x0B],
    &[0x1C, 2, 0x7F, 0x64, 0x05, 0x0B],
    &[0x0E, 2, 11, 11, 11, 0x0B],
    &[0x1F, 0x40, 4, 0, 11, 11, 1, 11, 11, 2, 11, 3, 11, 0x0B],
    &[0xE3, 4, 2, 0, 11, 11, 1, 11, 0x0B],
    &[0x28, 2, 4, 0x0B],
    &[0x28, 0x42, 1, 4, 0x0B],
    &[0xFC, 0x8A, 0x00, 1, 0, 0x0B],
    &[0xFB, 24, 3, 5, 0x6E, 0x6D, 0x0B],
    &[0xFD, 21, 15, 0x0B],
    &[0xFD, 84, 0, 8, 3, 0x0B],
    &[
        0xFD, 12, 11, 11, 11, 11, 11, 11, 11, 11, 11, 11, 11, 11, 11, 11, 11, 11, 0x0B,
    ],
    &[
        0xFD, 13, 11, 11, 11, 11, 11, 11, 11, 11, 11, 11, 11, 11, 11, 11, 11, 11, 0x0B,
    ],
    &[0xFE, 0x03, 1, 0x0B],
];

#[test]
fn expressions() {
    let rt = crate::host::HostRuntime;
    let heap = Refusing::new(rt.alloc());
    for bytes in EXPRESSIONS.iter() {
        check::<Expression<Heap>>(&rt, &heap, bytes, 0);
    }
    check::<Expression<Heap>>(&rt, &heap, &[0x20, 0, 0x0E, 1, 0, 0, 0x0B, 9, 9], 2);
}

#[test]
fn expressions_that_are_none() {
    let rt = crate::host::HostRuntime;
    let heap = Refusing::new(rt.alloc());
    let none = [
        (&[][..], ReadFault::Ended),
        (&[0x20, 0], ReadFault::Ended),
        (&[0x20], ReadFault::Ended),
        (&[0x16, 0x0B], ReadFault::UnknownOpcode),
        (&[0x0E, 3, 0, 0], ReadFault::Ended),
        (&[0x1F, 0x40, 1, 4, 0, 0x0B], ReadFault::UnknownTag),
        (&[0xE3, 4, 1, 2, 0, 0x0B], ReadFault::UnknownTag),
        (&[0x1C, 1, 0x41, 0x0B], ReadFault::UnknownTag),
        (
            &[0x41, 0x80, 0x80, 0x80, 0x80, 0x70, 0x0B],
            ReadFault::TooLarge,
        ),
    ];
    for (bytes, fault) in none {
        check_none::<Expression<Heap>>(&rt, &heap, bytes, fault);
    }
}

#[test]
fn bodies() {
    let rt = crate::host::HostRuntime;
    let heap = Refusing::new(rt.alloc());
    check::<Body<Heap>>(&rt, &heap, &[3, 0x80, 0x00, 0x0B, 9], 1);
    check::<Body<Heap>>(
        &rt,
        &heap,
        &[
            18, 2, 1, 0x7F, 0x85, 0x00, 0x64, 0x05, 0x02, 0x40, 0x20, 0, 0x0E, 1, 0, 0, 0x0B, 0x0B,
            0x0B, 9,
        ],
        1,
    );
    check_none::<Body<Heap>>(&rt, &heap, &[2, 1, 0x7F], ReadFault::Ended);
    check_none::<Body<Heap>>(&rt, &heap, &[2, 0, 0x20, 0], ReadFault::Ended);
    check_none::<Body<Heap>>(&rt, &heap, &[3, 0, 0x0B], ReadFault::Ended);
    check_none::<Body<Heap>>(&rt, &heap, &[2, 0, 0x16], ReadFault::UnknownOpcode);
}
