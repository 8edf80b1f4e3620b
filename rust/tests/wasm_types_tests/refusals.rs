// Written by tools/to-rust from tests/wasm_types_tests/src/refusals.rtt: change that.
// Tests with each request for memory failing in turn: the result is `Memory`, and the arguments are
// unchanged.

use dolzhytik::fallible::Vec;
use crate::checks::{check_answer, check_bytes, check_refused, check_that};
use crate::samples::{BYTE, FLOAT, continuation, described, final_function, function, sub};
use dolzhytik::fallible::Global;
use crate::host::Abort;
use crate::test_support::{Heap, MOST, Refusing};
use dolzhytik::fallible::{Counted, Encode, Result, Section, ValType};
use dolzhytik::reader::Padded;
use dolzhytik::fallible::{ContType, FuncType, StorageType, SubType, TypeSection, read_types};
use dolzhytik::reader::TypeEntry;

/// A type section with an allocator that fails requests.
type Lent<'h> = TypeSection<&'h Refusing<Global>>;

/// A type with such an allocator.
type LentSub<'h> = SubType<&'h Refusing<Global>>;

/// Checks that the item encodes to these bytes, if no request fails.
fn check_written<T: Encode>(rt: &impl Abort, heap: Heap<'_>, item: &T, expected: &[u8]) {
    heap.refuse(0);
    let mut sink = Vec::new(heap);
    item.encode(&mut sink).expect("accepted");
    check_bytes(rt, &sink, expected);
}

/// Checks the result of a call of which one request was to fail: an item of these bytes, or
/// `Memory`. Returns whether all were granted.
fn check_copy<T: Encode>(
    rt: &impl Abort,
    heap: Heap<'_>,
    nth: u64,
    copy: Result<T>,
    expected: &[u8],
) -> bool {
    match copy {
        Ok(item) => {
            let granted = check_answer(rt, heap, nth, Ok(()));
            check_written(rt, heap, &item, expected);
            granted
        }
        Err(refused) => check_answer(rt, heap, nth, Err(refused)),
    }
}

/// Checks that the section has only this entry, or none.
fn check_entry(rt: &impl Abort, granted: bool, len: u32, piece: Option<&[u8]>, entry: &[u8]) {
    let expected = if granted { (1, Some(entry)) } else { (0, None) };
    assert_eq!(rt; (len, piece), expected);
}

/// The entry that each call of `add` makes.
const ENTRIES: &[&[u8]] = &[
    &[0x60, 2, 0x7F, 0x7E, 1, 0x7D],
    &[0x60, 1, 0x7B, 1, 0x7F],
    &[0x5E, 0x77, 0],
    &[0x5F, 2, 0x78, 1, 0x7C, 0],
    &[0x5D, 7],
    &[
        0x50, 1, 1, 0x65, 0x4C, 2, 0x4D, 0xAC, 2, 0x5F, 2, 0x78, 1, 0x7C, 0,
    ],
    &[0x4E, 1, 0x4F, 1, 0, 0x5D, 0x3F],
    &[0x60, 0, 0],
    &[0x60, 1, 0x7C, 0],
];

/// Arguments of the calls.
#[derive(Clone, Copy)]
struct Given<'a> {
    func: &'a FuncType,
    ty: &'a SubType,
    decoded: &'a TypeEntry,
}

/// Makes the call of this index in `ENTRIES`.
fn add(section: &mut Lent<'_>, given: &Given<'_>, place: usize) -> Result<()> {
    match place {
        0 => section.ty().func_type(given.func),
        1 => section.ty().function([ValType::V128], [ValType::I32]),
        2 => section.ty().array(&StorageType::I16, false),
        3 => section.ty().struct_([BYTE, FLOAT]),
        4 => section.ty().cont(&ContType(7)),
        5 => section.ty().subtype(given.ty),
        6 => add_group(section),
        7 => section.raw(&[0x60, 0, 0]),
        _ => section.add(given.decoded),
    }
}

/// Adds a group of one type.
fn add_group(section: &mut Lent<'_>) -> Result<()> {
    let ty: SubType = sub(true, Some(0), continuation());
    section.ty().rec([ty])
}

#[test]
fn calls() {
    let rt = crate::host::HostRuntime;
    let heap = Refusing::new(rt.alloc());
    let func = function(rt.alloc()).expect("accepted");
    let ty = described(rt.alloc()).expect("accepted");
    let types = read_types::<Global, Padded>(&[1, 0x60, 1, 0x7C, 0], rt.alloc()).expect(
        "read",
    );
    let given = Given {
        func: &func,
        ty: &ty,
        decoded: &types[0],
    };
    for (place, entry) in ENTRIES.iter().enumerate() {
        check_call(&rt, &heap, &given, place, entry);
    }
}

/// Checks that the call of this index makes an entry of these bytes. If a request fails, the
/// section is unchanged.
fn check_call(rt: &impl Abort, heap: Heap<'_>, given: &Given<'_>, place: usize, entry: &[u8]) {
    for nth in 1..MOST {
        let mut section = TypeSection::new(heap);
        heap.refuse(nth);
        let answer = add(&mut section, given, place);
        let granted = check_answer(rt, heap, nth, answer);
        check_entry(rt, granted, section.len(), section.piece(0), entry);
        if granted {
            return check_whole(rt, heap, &section, entry);
        }
    }
    panic!(rt; "no call was granted")
}

/// Checks the calls on a section of this entry.
fn check_whole(rt: &impl Abort, heap: Heap<'_>, section: &Lent<'_>, entry: &[u8]) {
    check_clone(rt, heap, section, entry);
    check_encode(rt, heap, section);
    check_append_to(rt, heap, section)
}

/// Checks `clone`.
fn check_clone(rt: &impl Abort, heap: Heap<'_>, section: &Lent<'_>, entry: &[u8]) {
    for nth in 1..MOST {
        heap.refuse(nth);
        if check_section_copy(rt, heap, nth, section.clone(), entry) {
            return;
        }
    }
    panic!(rt; "no call was granted")
}

/// Checks the result of a copy of which one request was to fail. Returns whether all were granted.
fn check_section_copy(
    rt: &impl Abort,
    heap: Heap<'_>,
    nth: u64,
    copy: Result<Lent<'_>>,
    entry: &[u8],
) -> bool {
    match copy {
        Ok(section) => {
            check_entry(rt, true, section.len(), section.piece(0), entry);
            check_answer(rt, heap, nth, Ok(()))
        }
        Err(refused) => check_answer(rt, heap, nth, Err(refused)),
    }
}

/// Checks that `encode` makes one request, and none if the sink has spare capacity.
fn check_encode<T: Encode>(rt: &impl Abort, heap: Heap<'_>, item: &T) {
    let mut sink = Vec::new(heap);
    heap.refuse(1);
    check_refused(rt, item.encode(&mut sink).err());
    check_bytes(rt, &sink, &[]);
    heap.refuse(2);
    item.encode(&mut sink).expect("accepted");
    check_that(rt, heap.is_waiting());
    sink.clear();
    heap.refuse(1);
    item.encode(&mut sink).expect("accepted");
    check_that(rt, heap.is_waiting());
}

/// Checks that the sink held the byte 7, and has the id of type sections or nothing after it.
fn check_id(rt: &impl Abort, granted: bool, sink: &[u8]) {
    let expected = if granted { Some(&1) } else { None };
    assert_eq!(rt; sink.first(), Some(&7));
    assert_eq!(rt; sink.get(1), expected);
}

/// Checks `append_to`.
fn check_append_to(rt: &impl Abort, heap: Heap<'_>, section: &Lent<'_>) {
    for nth in 1..MOST {
        heap.refuse(0);
        let mut sink = Vec::from_slice(heap, &[7]).expect("accepted");
        heap.refuse(nth);
        let answer = section.append_to(&mut sink);
        let granted = check_answer(rt, heap, nth, answer);
        check_id(rt, granted, &sink);
        if granted {
            return;
        }
    }
    panic!(rt; "no call was granted")
}

#[test]
fn function_types() {
    let rt = crate::host::HostRuntime;
    let heap = Refusing::new(rt.alloc());
    for nth in 1..MOST {
        heap.refuse(nth);
        if check_copy(
            &rt,
            &heap,
            nth,
            function(&heap),
            &[0x60, 2, 0x7F, 0x7E, 1, 0x7D],
        ) {
            return;
        }
    }
    panic!(rt; "no call was granted")
}

/// Checks that a copy of the type encodes to these bytes, and that each of its requests can fail.
fn check_sub(rt: &impl Abort, heap: Heap<'_>, ty: &LentSub<'_>, expected: &[u8]) {
    for nth in 1..MOST {
        heap.refuse(nth);
        if check_copy(rt, heap, nth, ty.clone(), expected) {
            return;
        }
    }
    panic!(rt; "no call was granted")
}

#[test]
fn copied_subtypes() {
    let rt = crate::host::HostRuntime;
    let heap = Refusing::new(rt.alloc());
    let ty = described(&heap).expect("accepted");
    check_sub(
        &rt,
        &heap,
        &ty,
        &[
            0x50, 1, 1, 0x65, 0x4C, 2, 0x4D, 0xAC, 2, 0x5F, 2, 0x78, 1, 0x7C, 0,
        ],
    );
    let ty = final_function(&heap).expect("accepted");
    check_sub(&rt, &heap, &ty, &[0x60, 2, 0x7F, 0x7E, 1, 0x7D]);
}
