// Written by tools/to-rust from tests/wasm_insn_tests/src/checks.rtt: change that.
// Assertions over plain data: one over values that own memory takes far longer to prove.

use dolzhytik::fallible::Vec;
use dolzhytik::fallible::Global;
use crate::host::Abort;
use crate::test_support::{Heap, MOST, Refusing};
use dolzhytik::fallible::{Encode, Refused, Result};

/// Checks the bytes.
pub(crate) fn check_bytes(rt: &impl Abort, bytes: &[u8], expected: &[u8]) {
    assert_eq!(rt; bytes, expected);
}

/// Checks that the call returned `Memory`.
pub(crate) fn check_refused(rt: &impl Abort, refused: Option<Refused>) {
    assert_eq!(rt; refused, Some(Refused::Memory));
}

/// Checks the result of a call on a sink that held the byte 7, of which one request was to fail: it
/// appended these bytes, or nothing. Returns whether it succeeded.
pub(crate) fn check_sink(
    rt: &impl Abort,
    granted: bool,
    answer: Result<()>,
    sink: &[u8],
    expected: &[u8],
) -> bool {
    let (wanted, appended): (Result<()>, &[u8]) = if granted {
        (Ok(()), expected)
    } else {
        (Err(Refused::Memory), &[])
    };
    assert_eq!(rt; answer, wanted);
    assert_eq!(rt; sink.split_first(), Some((&7, appended)));
    granted
}

/// Checks the numbers.
pub(crate) fn check_numbers(rt: &impl Abort, numbers: (u32, usize), expected: (u32, usize)) {
    assert_eq!(rt; numbers, expected);
}

/// Checks the bytes of the entry.
pub(crate) fn check_piece(rt: &impl Abort, piece: Option<&[u8]>, expected: Option<&[u8]>) {
    assert_eq!(rt; piece, expected);
}

/// Checks that the item encodes to these bytes.
pub(crate) fn check<T: Encode>(rt: &impl Abort, alloc: Global, item: &T, expected: &[u8]) {
    let mut sink = Vec::new(alloc);
    item.encode(&mut sink).expect("accepted");
    check_bytes(rt, &sink, expected);
}

/// Checks the string.
fn check_text(rt: &impl Abort, text: &str, expected: &str) {
    assert_eq!(rt; text, expected);
}

/// Checks the bytes, in hexadecimal.
pub(crate) fn check_hex(rt: &impl Abort, alloc: Global, bytes: &[u8], row: &str) {
    let text = dolzhytik::fallible::hex::encode(alloc, bytes).expect("accepted");
    check_text(rt, text.as_str(), row);
}

/// Checks that the item encodes to these bytes, in hexadecimal.
pub(crate) fn check_row<T: Encode>(rt: &impl Abort, alloc: Global, item: &T, row: &str) {
    let mut sink = Vec::new(alloc);
    item.encode(&mut sink).expect("accepted");
    check_hex(rt, alloc, &sink, row)
}

/// Checks that the call appends these bytes, with each request for memory failing in turn. If one
/// fails, the sink is unchanged.
pub(crate) fn check_call<'h, F: Fn(&mut Vec<u8, Heap<'h>>) -> Result<()>>(
    rt: &impl Abort,
    heap: Heap<'h>,
    expected: &[u8],
    call: F,
) {
    for nth in 1..MOST {
        heap.refuse(0);
        let mut sink = Vec::from_slice(heap, &[7]).expect("accepted");
        heap.refuse(nth);
        let answer = call(&mut sink);
        if check_sink(rt, heap.is_waiting(), answer, &sink, expected) {
            return;
        }
    }
    panic!(rt; "no call was granted")
}

/// Checks that the item encodes to these bytes, with each request for memory failing in turn.
pub(crate) fn check_refusals<T: Encode>(rt: &impl Abort, alloc: Global, item: &T, expected: &[u8]) {
    let heap = Refusing::new(alloc);
    check_call(rt, &heap, expected, |sink: &mut Vec<u8, Heap<'_>>| {
        item.encode(sink)
    })
}
