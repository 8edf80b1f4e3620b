// Written by tools/to-rust from tests/wasm_types_tests/src/shortest.rtt: change that.
// Tests of types that are decoded and minimized, with each request for memory failing in turn.

use dolzhytik::fallible::Vec;
use crate::host::Abort;
use crate::test_support::{Heap, MOST, Refusing};
use dolzhytik::reader::{Padded, ReadFault};
use dolzhytik::fallible::Refused;
use dolzhytik::reader::TypeEntry;
use dolzhytik::fallible::{append_types, read_types};

/// Bytes, and the minimal encoding of the types in them.
type Row = (&'static [u8], &'static [u8]);

static ROWS: [Row; 7] = [
    (
        &[
            0x82, 0, 0x60, 0x81, 0, 0x7F, 0x80, 0, 0x60, 0, 0x81, 0, 0x7E,
        ],
        &[2, 0x60, 1, 0x7F, 0, 0x60, 0, 1, 0x7E],
    ),
    (&[1, 0x5E, 0x63, 0x85, 0, 1], &[1, 0x5E, 0x63, 5, 1]),
    (
        &[1, 0x5F, 0x82, 0, 0x78, 1, 0x7E, 0],
        &[1, 0x5F, 2, 0x78, 1, 0x7E, 0],
    ),
    (
        &[1, 0x50, 0x82, 0, 1, 0x87, 0, 0x5D, 0xBF, 0],
        &[1, 0x50, 2, 1, 7, 0x5D, 0x3F],
    ),
    (
        &[1, 0x4F, 0x81, 0, 9, 0x5D, 0x83, 0],
        &[1, 0x4F, 1, 9, 0x5D, 3],
    ),
    (
        &[1, 0x65, 0x4C, 0x82, 0, 0x4D, 0xAC, 0x82, 0, 0x5F, 0x80, 0],
        &[1, 0x65, 0x4C, 2, 0x4D, 0xAC, 2, 0x5F, 0],
    ),
    (
        &[1, 0x4E, 0x82, 0, 0x60, 1, 0x7F, 0, 0x50, 0x80, 0, 0x5F, 0],
        &[1, 0x4E, 2, 0x60, 1, 0x7F, 0, 0x50, 0, 0x5F, 0],
    ),
];

/// Checks that the call succeeded, or returned `Memory`.
fn check_read(rt: &impl Abort, fault: Option<ReadFault>, granted: bool) {
    let expected = if granted {
        None
    } else {
        Some(ReadFault::Memory)
    };
    assert_eq!(rt; fault, expected);
}

/// Checks that the sink has the byte 7, and these bytes after it if the call succeeded.
fn check_written(
    rt: &impl Abort,
    refused: Option<Refused>,
    granted: bool,
    sink: &[u8],
    text: &[u8],
) {
    let (expected, after) = if granted {
        (None, text)
    } else {
        (Some(Refused::Memory), &[] as &[u8])
    };
    assert_eq!(rt; refused, expected);
    assert_eq!(rt; sink.split_first(), Some((&7, after)));
}

/// Checks that the types encode to these bytes.
fn check_types(rt: &impl Abort, heap: Heap<'_>, types: &[TypeEntry<Heap<'_>>], text: &[u8]) {
    for nth in 1..MOST {
        heap.refuse(0);
        let mut sink = Vec::from_slice(heap, &[7]).expect("accepted");
        heap.refuse(nth);
        let refused = append_types(types, &mut sink).err();
        let granted = heap.is_waiting();
        check_written(rt, refused, granted, &sink, text);
        if granted {
            return;
        }
    }
    panic!(rt; "no call was granted")
}

/// Checks that the types decode, and encode to these bytes.
fn check_row(rt: &impl Abort, heap: Heap<'_>, bytes: &[u8], text: &[u8]) {
    for nth in 1..MOST {
        heap.refuse(nth);
        match read_types::<Heap<'_>, Padded>(bytes, heap) {
            Ok(types) => {
                check_read(rt, None, heap.is_waiting());
                return check_types(rt, heap, &types, text);
            }
            Err(error) => check_read(rt, Some(error.cause()), heap.is_waiting()),
        }
    }
    panic!(rt; "no call was granted")
}

#[test]
fn rows() {
    let rt = crate::host::HostRuntime;
    let heap = Refusing::new(rt.alloc());
    for (bytes, text) in ROWS.iter() {
        check_row(&rt, &heap, bytes, text);
    }
}
