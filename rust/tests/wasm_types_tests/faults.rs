// Written by tools/to-rust from tests/wasm_types_tests/src/faults.rtt: change that.
// Tests of bytes that are not types, and their errors.

use dolzhytik::fallible::Vec;
use dolzhytik::fallible::Global;
use crate::host::Abort;
use dolzhytik::reader::{Grammar, Padded, ReadFault, Standard};
use dolzhytik::fallible::{append_types, read_types};

type Row = (&'static [u8], ReadFault, u32);

static ROWS: [Row; 24] = [
    (&[], ReadFault::Ended, 0),
    (&[1], ReadFault::Ended, 0),
    (&[0, 0], ReadFault::SizeMismatch, 1),
    (&[1, 0x60, 1, 0x7F], ReadFault::Ended, 0),
    (&[1, 0x60, 1, 0x40, 0], ReadFault::UnknownTag, 2),
    (&[1, 0x61, 0, 0], ReadFault::UnknownTag, 3),
    (&[1, 0x5F, 1, 0x7F, 2], ReadFault::UnknownTag, 1),
    (&[1, 0xCE, 0, 0], ReadFault::UnknownTag, 3),
    (&[1, 0x5E, 0x79, 0], ReadFault::UnknownTag, 2),
    (&[1, 0x5D, 0x7F], ReadFault::UnknownTag, 1),
    (
        &[1, 0x5D, 0x80, 0x80, 0x80, 0x80, 0x10],
        ReadFault::TooLarge,
        1,
    ),
    (&[1, 0x65, 0x65, 0x5F, 0], ReadFault::UnknownTag, 3),
    (&[1, 0x4D, 1, 0x4C, 2, 0x5F, 0], ReadFault::UnknownTag, 4),
    (&[1, 0x4E, 1, 0x4E, 0], ReadFault::UnknownTag, 2),
    (&[1, 0x50, 0, 0x50, 0, 0x5F, 0], ReadFault::UnknownTag, 4),
    (&[1, 0x4F, 1, 3, 0x50, 0, 0x5F, 0], ReadFault::UnknownTag, 4),
    (&[1, 0x4F, 1, 3, 0x5F, 1, 0x78, 2], ReadFault::UnknownTag, 1),
    (&[1, 0x4F, 1, 3], ReadFault::Ended, 0),
    (&[1, 0x4F, 0x80], ReadFault::Ended, 0),
    (&[1, 0x50, 0], ReadFault::Ended, 0),
    (&[1, 0x4F], ReadFault::Ended, 0),
    (&[2, 0x5F, 0, 0x5F, 0, 9, 9, 9], ReadFault::SizeMismatch, 3),
    (&[1, 0x4C, 1, 0x4D, 2, 0x4D, 9, 9], ReadFault::UnknownTag, 3),
    (
        &[1, 0x4F, 1, 0x80, 0x80, 0x80, 0x80, 0x10, 7],
        ReadFault::TooLarge,
        2,
    ),
];

/// An empty list after 4F: where the builders' grammar fails.
static EMPTY: [(&'static [u8], u32); 4] = [
    (&[1, 0x4F, 0, 0x5F, 0], 3),
    (&[1, 0x4F, 0x80, 0x80, 0, 0x5F, 0], 3),
    (&[1, 0x4E, 1, 0x4F, 0, 0x5F, 0], 3),
    (&[1, 0x4F, 0, 0x61, 0], 3),
];

/// Checks that decoding fails with this cause, at this place.
fn check<G: Grammar>(rt: &impl Abort, alloc: Global, bytes: &[u8], cause: ReadFault, left: u32) {
    let found = match read_types::<Global, G>(bytes, alloc) {
        Ok(_) => None,
        Err(error) => Some((error.cause(), error.left())),
    };
    assert_eq!(rt; found, Some((cause, left)));
}

#[test]
fn faults() {
    let rt = crate::host::HostRuntime;
    for (bytes, fault, left) in ROWS.iter() {
        check::<Padded>(&rt, rt.alloc(), bytes, *fault, *left);
        check::<Standard>(&rt, rt.alloc(), bytes, *fault, *left);
    }
    for (bytes, left) in EMPTY.iter() {
        check::<Padded>(&rt, rt.alloc(), bytes, ReadFault::UnknownTag, *left);
    }
    check::<Standard>(
        &rt,
        rt.alloc(),
        &[1, 0x4F, 0, 0x61, 0],
        ReadFault::UnknownTag,
        2,
    );
    check::<Standard>(
        &rt,
        rt.alloc(),
        &[1, 0x4F, 0, 0x4F, 0, 0x5F, 0],
        ReadFault::UnknownTag,
        4,
    );
    check::<Standard>(&rt, rt.alloc(), &[1, 0x4F, 0], ReadFault::Ended, 0);
}

/// Checks the minimal encoding of types that are decoded in the standard's grammar.
fn again(rt: &impl Abort, alloc: Global, bytes: &[u8], expected: &[u8]) {
    let types = read_types::<Global, Standard>(bytes, alloc).expect("read");
    let mut sink = Vec::new(alloc);
    append_types(&types, &mut sink).expect("written");
    assert_eq!(rt; sink.as_slice(), expected);
}

#[test]
fn empty_one() {
    let rt = crate::host::HostRuntime;
    again(&rt, rt.alloc(), &[1, 0x4F, 0, 0x5F, 0], &[1, 0x5F, 0]);
}

#[test]
fn empty_padded() {
    let rt = crate::host::HostRuntime;
    again(
        &rt,
        rt.alloc(),
        &[0x81, 0, 0x4F, 0x80, 0x80, 0, 0x5F, 0x80, 0],
        &[1, 0x5F, 0],
    );
}

#[test]
fn empty_in_group() {
    let rt = crate::host::HostRuntime;
    again(
        &rt,
        rt.alloc(),
        &[1, 0x4E, 2, 0x4F, 0, 0x5F, 0, 0x4F, 1, 0, 0x5E, 0x6E, 1],
        &[1, 0x4E, 2, 0x5F, 0, 0x4F, 1, 0, 0x5E, 0x63, 0x6E, 1],
    );
}
