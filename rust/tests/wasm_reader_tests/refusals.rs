// Written by tools/to-rust from tests/wasm_reader_tests/src/refusals.rtt: change that.
// Tests with each request for memory failing in turn: the error is `Memory`. Visitors request none.

use dolzhytik::fallible::Vec;
use crate::checks::check_cause;
use dolzhytik::fallible::Global;
use crate::host::Abort;
use crate::test_support::{MOST, Refusing};
use dolzhytik::reader::{DecodeError, Padded, ReadFault, Readable, SizePrefixed, Standard};
use dolzhytik::fallible::ValType;
use dolzhytik::reader::{Body, Decoded, Expression, Instructions, Members};
use dolzhytik::fallible::{Catch, Handle, Op, Shape};
use dolzhytik::reader::{Operands, Plain};

/// Checks that there is no error.
fn check_read(rt: &impl Abort, given: Option<ReadFault>) {
    assert_eq!(rt; given, None);
}

/// Checks that a `T` decodes, or fails with `Memory` if a request fails; and the number of
/// requests.
fn check_refusals<'a, T: Readable<'a, &'a Refusing<Global>, Padded>>(
    rt: &impl Abort,
    heap: &'a Refusing<Global>,
    bytes: &'a [u8],
    requests: u64,
) {
    for nth in 1..MOST {
        heap.refuse(nth);
        let fault = match T::read(bytes, heap) {
            Ok(_) => None,
            Err(error) => Some(error.cause()),
        };
        if is_granted(rt, heap, fault, nth, requests) {
            return;
        }
    }
    panic!(rt; "no call was granted")
}

/// Returns whether no request of the call was refused, and checks the number of its requests then.
/// Otherwise checks that it failed with `Memory`.
fn is_granted(
    rt: &impl Abort,
    heap: &Refusing<Global>,
    fault: Option<ReadFault>,
    nth: u64,
    requests: u64,
) -> bool {
    if heap.is_waiting() {
        check_read(rt, fault);
        check_requests(rt, nth, requests);
        return true;
    }
    check_cause(rt, fault, ReadFault::Memory);
    false
}

/// Checks that the first successful call is the one after these requests.
fn check_requests(rt: &impl Abort, nth: u64, requests: u64) {
    assert_eq!(rt; nth, requests.saturating_add(1));
}

#[test]
fn vectors() {
    let rt = crate::host::HostRuntime;
    let heap = Refusing::new(rt.alloc());
    check_refusals::<Vec<u32, &Refusing<Global>>>(&rt, &heap, &[0], 0);
    check_refusals::<Vec<u32, &Refusing<Global>>>(&rt, &heap, &[5, 1, 2, 3, 4, 5], 2);
    check_refusals::<SizePrefixed<Vec<u32, &Refusing<Global>>>>(&rt, &heap, &[2, 1, 5], 1);
}

#[test]
fn instructions() {
    let rt = crate::host::HostRuntime;
    let heap = Refusing::new(rt.alloc());
    check_refusals::<Plain<&Refusing<Global>>>(&rt, &heap, &[0x0B], 0);
    check_refusals::<Plain<&Refusing<Global>>>(&rt, &heap, &[0x20, 1], 1);
    check_refusals::<Plain<&Refusing<Global>>>(&rt, &heap, &[0x0E, 1, 0, 0], 2);
    check_refusals::<Expression<&Refusing<Global>>>(&rt, &heap, &[0x41, 1, 0x0B], 2);
    check_refusals::<Body<&Refusing<Global>>>(&rt, &heap, &[6, 1, 1, 0x7F, 0x20, 0, 0x0B], 3);
}

#[test]
fn walks_of_bodies() {
    let rt = crate::host::HostRuntime;
    let heap = Refusing::new(rt.alloc());
    heap.refuse(1);
    let refused = match Instructions::of_body(&[1, 1, 0x7F, 0x0B], &heap) {
        Ok(_) => None,
        Err(error) => Some(error.cause()),
    };
    check_cause(&rt, refused, ReadFault::Memory);
}

/// Checks the offset and the opcode of an instruction, and the offset of the visitor after it.
fn check_walk(
    rt: &impl Abort,
    given: Result<Option<Decoded>, DecodeError>,
    expected: (usize, Op),
    offset: usize,
    expected_offset: usize,
) {
    let given = given.map(|decoded| decoded.map(|it| (it.offset, it.op)));
    assert_eq!(rt; given.map_err(|error| error.cause()), Ok(Some(expected)));
    assert_eq!(rt; offset, expected_offset);
}

#[test]
fn walks_take_no_memory() {
    let rt = crate::host::HostRuntime;
    let heap = Refusing::new(rt.alloc());
    let mut walk = Instructions::new(&[0x20, 1, 0x0E, 1, 0, 0, 0x41, 2, 0x0B], &heap);
    heap.refuse_all();
    let answer = walk.next();
    check_walk(&rt, answer, (0, Op::Byte(0x20)), walk.offset(), 2);
    let answer = walk.next();
    check_walk(&rt, answer, (2, Op::Byte(0x0E)), walk.offset(), 6);
    let answer = walk.next_before_end();
    check_walk(&rt, answer, (6, Op::Byte(0x41)), walk.offset(), 8);
}

/// Checks that the operands become a list, or that this fails with `Memory` if a request fails; and
/// the number of requests.
fn check_list(rt: &impl Abort, heap: &Refusing<Global>, operands: Operands, requests: u64) {
    for nth in 1..MOST {
        heap.refuse(nth);
        let fault = match operands.to_args(heap) {
            Ok(_) => None,
            Err(error) => Some(error.cause()),
        };
        if is_granted(rt, heap, fault, nth, requests) {
            return;
        }
    }
    panic!(rt; "no call was granted")
}

#[test]
fn lists_of_operands() {
    let rt = crate::host::HostRuntime;
    let heap = Refusing::new(rt.alloc());
    check_list(&rt, &heap, Operands::Nothing, 0);
    check_list(&rt, &heap, Operands::U32(7), 1);
    check_list(&rt, &heap, Operands::Encoded(Shape::F32, &[0, 0, 0, 0]), 1);
    check_list(&rt, &heap, Operands::Encoded(Shape::Bt, &[1, 5, 6]), 2);
}

/// Checks that the members of the vector are decoded without memory, and their number.
fn check_members<'a, T: Readable<'a, &'a Refusing<Global>, Standard>>(
    rt: &impl Abort,
    heap: &'a Refusing<Global>,
    bytes: &'a [u8],
    expected: usize,
) {
    heap.refuse_all();
    let Ok(mut members) = Members::<T, &Refusing<Global>>::new(bytes, heap) else {
        panic!(rt; "refused")
    };
    let mut count = 0;
    while let Some(Ok(_)) = members.next() {
        count += 1;
    }
    assert_eq!(rt; count, expected);
}

#[test]
fn members() {
    let rt = crate::host::HostRuntime;
    let heap = Refusing::new(rt.alloc());
    check_members::<u32>(&rt, &heap, &[2, 5, 6], 2);
    check_members::<Catch>(&rt, &heap, &[2, 0, 1, 2, 2, 3], 2);
    check_members::<Handle>(&rt, &heap, &[1, 0, 1, 2], 1);
    check_members::<ValType>(&rt, &heap, &[2, 0x7F, 0x63, 0x70], 2);
    // A member that is a list is allocated.
    let lists: [u8; 3] = [1, 1, 5];
    let Ok(mut members) = Members::<Vec<u32, &Refusing<Global>>, &Refusing<Global>>::new(
        &lists, &heap,
    ) else {
        panic!(rt; "refused")
    };
    let fault = match members.next() {
        Some(Err(error)) => Some(error.cause()),
        _ => None,
    };
    check_cause(&rt, fault, ReadFault::Memory);
    assert_eq!(rt; members.left(), 0);
}
