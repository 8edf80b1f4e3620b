// Written by tools/to-rust from tests/wasm_insn_tests/src/base_refusals.rtt: change that.
// Tests with each request of `wasm_base` for memory failing in turn: the result is `Memory`, and
// the arguments are unchanged.

use dolzhytik::fallible::Vec;
use crate::checks::{check_bytes, check_call, check_refusals, check_refused};
use dolzhytik::fallible::Global;
use crate::host::Abort;
use crate::test_support::{MOST, Refusing};
use dolzhytik::fallible::{Encode, Entries, Module, NewStore, Pieces, RawSection, Refused, Result, Section, Store, bytes_of, encode_section, encode_vec};

const TYPES: RawSection<'static> = RawSection {
    id: 1,
    bytes: &[96, 0, 0],
};

#[test]
fn numbers_and_names() {
    let rt = crate::host::HostRuntime;
    let alloc = rt.alloc();
    check_refusals(&rt, alloc, &8u8, &[8]);
    check_refusals(&rt, alloc, &i32::MIN, &[0x80, 0x80, 0x80, 0x80, 0x78]);
    check_refusals(&rt, alloc, &(0x11u8, 1u32, 300u32), &[0x11, 1, 0xAC, 0x02]);
    check_refusals(&rt, alloc, &"processed-by", b"\x0Cprocessed-by");
    check_refusals(
        &rt,
        alloc,
        &["a", "bcdefghijk"].as_slice(),
        b"\x02\x01a\x0Abcdefghijk",
    )
}

#[test]
fn sections() {
    let rt = crate::host::HostRuntime;
    check_refusals(&rt, rt.alloc(), &TYPES, &[3, 96, 0, 0])
}

/// A vector of 1 and two largest numbers.
const VECTOR: [u8; 12] = [
    3, 1, 0xFF, 0xFF, 0xFF, 0xFF, 0x0F, 0xFF, 0xFF, 0xFF, 0xFF, 0x0F,
];

#[test]
fn calls() {
    let rt = crate::host::HostRuntime;
    let heap = Refusing::new(rt.alloc());
    check_call(&rt, &heap, &[1, 3, 96, 0, 0], |sink: &mut Vec<u8, _>| {
        TYPES.append_to(sink)
    });
    check_call(&rt, &heap, &[4, 2, 1, 0x80, 1], |sink: &mut Vec<u8, _>| {
        encode_section(sink, 2, &[1, 0x80, 1])
    });
    check_call(&rt, &heap, &VECTOR, |sink: &mut Vec<u8, _>| {
        encode_vec([1u32, 4294967295, 4294967295], sink)
    })
}

/// Checks that the section is written without a request, if the sink's spare capacity is exactly
/// the length of its encoding.
fn check_room(rt: &impl Abort, alloc: Global, section: RawSection<'_>, text: &[u8]) {
    let heap = Refusing::new(alloc);
    let mut sink = Vec::with_capacity(&heap, text.len()).expect("accepted");
    heap.refuse_all();
    let answer = section.encode(&mut sink);
    check_taken(rt, heap.requests(), 0);
    answer.expect("accepted");
    check_bytes(rt, &sink, text);
}

#[test]
fn a_section_takes_no_request() {
    let rt = crate::host::HostRuntime;
    check_room(&rt, rt.alloc(), TYPES, &[3, 96, 0, 0]);
    let one_byte = RawSection { id: 1, bytes: &[0] };
    check_room(&rt, rt.alloc(), one_byte, &[1, 0]);
}

/// Checks the number of requests.
fn check_taken(rt: &impl Abort, requests: u64, expected: u64) {
    assert_eq!(rt; requests, expected);
}

#[test]
fn new_modules() {
    let rt = crate::host::HostRuntime;
    let heap = Refusing::new(rt.alloc());
    heap.refuse(1);
    check_refused(&rt, Module::new(&heap).err());
}

/// Checks the bytes of a module after a section was added to it, of which one request was to fail.
/// Returns whether the call succeeded.
fn check_module(rt: &impl Abort, granted: bool, answer: Result<()>, bytes: &[u8]) -> bool {
    let (wanted, expected): (Result<()>, &[u8]) = if granted {
        (Ok(()), b"\0asm\x01\0\0\0\x01\x03\x60\0\0")
    } else {
        (Err(Refused::Memory), b"\0asm\x01\0\0\0")
    };
    assert_eq!(rt; answer, wanted);
    assert_eq!(rt; bytes, expected);
    granted
}

#[test]
fn modules() {
    let rt = crate::host::HostRuntime;
    let heap = Refusing::new(rt.alloc());
    for nth in 1..MOST {
        let mut module = Module::new(&heap).expect("accepted");
        heap.refuse(nth);
        let answer = module.section(&TYPES);
        let granted = heap.is_waiting();
        heap.refuse(1);
        check_refused(&rt, module.clone().err());
        let bytes = module.finish();
        if check_module(&rt, granted, answer, &bytes) {
            return;
        }
    }
    panic!(rt; "no call was granted")
}

/// Checks pieces after an entry was added to them, of which one request was to fail. Returns
/// whether the call succeeded.
fn check_pieces(
    rt: &impl Abort,
    granted: bool,
    answer: Result<()>,
    len: u32,
    bytes: &[u8],
) -> bool {
    let (wanted, entries, expected): (Result<()>, u32, &[u8]) = if granted {
        (Ok(()), 1, &[2, b'a', b'b'])
    } else {
        (Err(Refused::Memory), 0, &[])
    };
    assert_eq!(rt; answer, wanted);
    assert_eq!(rt; len, entries);
    assert_eq!(rt; bytes, expected);
    granted
}

/// An adding call of a store.
#[derive(Clone, Copy)]
enum Adding {
    Bytes,
    Item,
    ItemOnce,
}

/// Adds an entry of three bytes.
fn add<S: Store>(rt: &impl Abort, store: &mut S, adding: Adding) -> Result<()> {
    match adding {
        Adding::Bytes => store.add_bytes(&[2, b'a', b'b']),
        Adding::Item => store.add_item(&"ab"),
        Adding::ItemOnce => {
            let bytes = bytes_of([b'a', b'b']).expect("accepted");
            store.add_item_once(bytes)
        }
    }
}

/// Checks an adding call, with each request failing in turn.
fn check_adding<'a, S: NewStore<Alloc = &'a Refusing<Global>>>(
    rt: &impl Abort,
    heap: &'a Refusing<Global>,
    adding: Adding,
) {
    for nth in 1..MOST {
        let mut store = S::new_in(heap);
        heap.refuse(nth);
        let answer = add(rt, &mut store, adding);
        let granted = heap.is_waiting();
        if check_pieces(rt, granted, answer, store.count(), store.content()) {
            return;
        }
    }
    panic!(rt; "no call was granted")
}

#[test]
fn stores() {
    let rt = crate::host::HostRuntime;
    let heap = Refusing::new(rt.alloc());
    for adding in [Adding::Bytes, Adding::Item, Adding::ItemOnce] {
        check_adding::<Pieces<&Refusing<Global>>>(&rt, &heap, adding);
        check_adding::<Entries<&Refusing<Global>>>(&rt, &heap, adding)
    }
}

/// Checks that there is a copy of one entry if all requests were granted, and `Memory` otherwise.
/// Returns whether there is one.
fn check_copy(rt: &impl Abort, granted: bool, answer: Result<u32>) -> bool {
    assert_eq!(rt; answer, if granted { Ok(1) } else { Err(Refused::Memory) });
    granted
}

/// Checks the copy of a store, with each request failing in turn.
fn check_copies<'a, S: NewStore<Alloc = &'a Refusing<Global>>>(
    rt: &impl Abort,
    heap: &'a Refusing<Global>,
) {
    let mut store = S::new_in(heap);
    store.add_bytes(&[1]).expect("accepted");
    for nth in 1..MOST {
        heap.refuse(nth);
        let answer = store.copy().map(|copy| copy.count());
        if check_copy(rt, heap.is_waiting(), answer) {
            return;
        }
    }
    panic!(rt; "no call was granted")
}

#[test]
fn copies_of_stores() {
    let rt = crate::host::HostRuntime;
    let heap = Refusing::new(rt.alloc());
    check_copies::<Pieces<&Refusing<Global>>>(&rt, &heap);
    let other = Refusing::new(rt.alloc());
    check_copies::<Entries<&Refusing<Global>>>(&rt, &other)
}
