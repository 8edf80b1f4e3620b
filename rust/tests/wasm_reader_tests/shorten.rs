// Written by tools/to-rust from tests/wasm_reader_tests/src/shorten.rtt: change that.
// Tests of the minimal encodings of decoded values.

use dolzhytik::fallible::Vec;
use crate::checks::{check_bytes, check_cause};
use dolzhytik::fallible::Global;
use crate::host::Abort;
use crate::test_support::{MOST, Refusing};
use dolzhytik::reader::{Padded, ReadFault, Readable, Shorten, SizePrefixed};
use dolzhytik::fallible::{Refused, ValType};
use dolzhytik::reader::{Body, Expression, shorten_body};
use dolzhytik::reader::Plain;

/// Checks the error.
fn check_refused(rt: &impl Abort, given: Option<Refused>, expected: Option<Refused>) {
    assert_eq!(rt; given, expected);
}

/// Checks that the value encodes to these bytes, unless a request for memory fails.
fn check_value<T: Shorten>(rt: &impl Abort, alloc: Global, value: &T, text: &[u8]) {
    let heap = Refusing::new(alloc);
    for nth in 1..MOST {
        heap.refuse(nth);
        let mut out = Vec::new(&heap);
        let refused = value.append_minimal(&mut out).err();
        if heap.is_waiting() {
            check_refused(rt, refused, None);
            check_bytes(rt, &out, text);
            return;
        }
        check_refused(rt, refused, Some(Refused::Memory));
    }
    panic!(rt; "no call was granted")
}

/// Checks that the decoded `T` encodes to these bytes.
fn check<'a, T: Readable<'a, Global, Padded> + Shorten>(
    rt: &impl Abort,
    alloc: Global,
    bytes: &'a [u8],
    text: &[u8],
) {
    let (value, _rest) = T::read(bytes, alloc).expect("accepted");
    check_value(rt, alloc, &value, text);
}

#[test]
fn numbers_and_names() {
    let rt = crate::host::HostRuntime;
    let alloc = rt.alloc();
    check::<u32>(&rt, alloc, &[0x85, 0x80, 0], &[5]);
    check::<&[u8]>(&rt, alloc, &[0x82, 0, 1, 2], &[2, 1, 2]);
    check::<&str>(&rt, alloc, b"\x81\x00a", b"\x01a");
    check::<ValType>(&rt, alloc, &[0x63, 0x85, 0], &[0x63, 5])
}

#[test]
fn parts() {
    let rt = crate::host::HostRuntime;
    let alloc = rt.alloc();
    check::<(u32, u32)>(&rt, alloc, &[0x81, 0, 0x82, 0], &[1, 2]);
    check::<Vec<u32>>(&rt, alloc, &[0x82, 0, 0x85, 0, 6], &[2, 5, 6]);
    check::<SizePrefixed<Vec<u32>>>(&rt, alloc, &[0x84, 0, 1, 0x85, 0x80, 0], &[2, 1, 5]);
    check_value(&rt, alloc, &SizePrefixed(7u32), &[1, 7]);
}

/// Size prefixes of two bytes.
#[test]
fn long_frames() {
    let rt = crate::host::HostRuntime;
    let alloc = rt.alloc();
    let mut bytes = Vec::new(alloc);
    bytes
        .extend_from_slice(&[0x82, 0x01, 0x80, 0x01])
        .expect("accepted");
    bytes.extend_from_slice(&[7; 128]).expect("accepted");
    check::<SizePrefixed<&[u8]>>(&rt, alloc, &bytes, &bytes)
}

#[test]
fn code() {
    let rt = crate::host::HostRuntime;
    let alloc = rt.alloc();
    check::<Plain>(&rt, alloc, &[0x0E, 0x81, 0, 0, 1], &[0x0E, 1, 0, 1]);
    check::<Plain>(&rt, alloc, &[0x28, 2, 0x90, 0], &[0x28, 2, 0x10]);
    check::<Expression>(&rt, alloc, &[0x41, 0x80, 0, 0x0B], &[0x41, 0, 0x0B]);
    check::<Body>(&rt, alloc, &[3, 0x80, 0, 0x0B], &[2, 0, 0x0B])
}

/// Checks that the body was written.
fn check_written(rt: &impl Abort, given: Option<ReadFault>) {
    assert_eq!(rt; given, None);
}

/// Checks that the body in these bytes encodes to `text`, with its size prefix, unless a request
/// for memory fails.
fn check_body(rt: &impl Abort, alloc: Global, bytes: &[u8], text: &[u8]) {
    let heap = Refusing::new(alloc);
    for nth in 1..MOST {
        heap.refuse(nth);
        let mut out = Vec::new(&heap);
        let fault = shorten_body(bytes, &heap, &mut out)
            .err()
            .map(|error| error.cause());
        if heap.is_waiting() {
            check_written(rt, fault);
            check_bytes(rt, &out, text);
            return;
        }
        check_cause(rt, fault, ReadFault::Memory);
    }
    panic!(rt; "no call was granted")
}

#[test]
fn bodies() {
    let rt = crate::host::HostRuntime;
    let alloc = rt.alloc();
    check_body(&rt, alloc, &[0x80, 0, 0x0B], &[2, 0, 0x0B]);
    check_body(
        &rt,
        alloc,
        &[
            0x81, 0, 0x82, 0, 0x7F, 0x20, 0x81, 0, 0x0E, 0x81, 0, 0, 1, 0x0B,
        ],
        &[10, 1, 2, 0x7F, 0x20, 1, 0x0E, 1, 0, 1, 0x0B],
    );
    let mut out = Vec::new(alloc);
    let fault = shorten_body(&[0, 0x20], alloc, &mut out)
        .err()
        .map(|error| error.cause());
    check_cause(&rt, fault, ReadFault::Ended)
}
