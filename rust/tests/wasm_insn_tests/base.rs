// Written by tools/to-rust from tests/wasm_insn_tests/src/base.rtt: change that.
// Tests of each call of `wasm_base` once, with ample memory.

use dolzhytik::fallible::Vec;
use crate::checks::{check, check_bytes, check_numbers, check_piece};
use dolzhytik::fallible::Global;
use crate::host::Abort;
use dolzhytik::fallible::{CORE_FUNCTION_EXACT_SORT, CORE_FUNCTION_SORT, CORE_GLOBAL_SORT, CORE_MEMORY_SORT, CORE_TABLE_SORT, CORE_TAG_SORT, Encode, Entries, Module, NewStore, Pieces, RawSection, Refused, Section, SectionId, Store, begin_size_prefixed, bytes_of, encode_section, encode_size_prefixed, encode_vec, encoding_size};
use dolzhytik::fallible::laws::base as laws;

#[test]
fn unsigned_numbers() {
    let rt = crate::host::HostRuntime;
    check(&rt, rt.alloc(), &0xFEu8, &[0xFE]);
    check(&rt, rt.alloc(), &300usize, &[0xAC, 0x02]);
    for (n, expected) in [
        (0u32, [0x00].as_slice()),
        (127, &[0x7F]),
        (128, &[0x80, 0x01]),
        (16384, &[0x80, 0x80, 0x01]),
        (u32::MAX, &[0xFF, 0xFF, 0xFF, 0xFF, 0x0F]),
    ] {
        check(&rt, rt.alloc(), &n, expected);
        check(&rt, rt.alloc(), &u64::from(n), expected);
    }
    check(
        &rt,
        rt.alloc(),
        &u64::MAX,
        &[0xFF, 0xFF, 0xFF, 0xFF, 0xFF, 0xFF, 0xFF, 0xFF, 0xFF, 0x01],
    )
}

#[test]
fn signed_numbers() {
    let rt = crate::host::HostRuntime;
    for (n, expected) in [
        (63i32, [0x3F].as_slice()),
        (64, &[0xC0, 0x00]),
        (-1, &[0x7F]),
        (-64, &[0x40]),
        (-65, &[0xBF, 0x7F]),
        (i32::MIN, &[0x80, 0x80, 0x80, 0x80, 0x78]),
    ] {
        check(&rt, rt.alloc(), &n, expected);
        check(&rt, rt.alloc(), &i64::from(n), expected);
    }
    check(
        &rt,
        rt.alloc(),
        &i64::MIN,
        &[0x80, 0x80, 0x80, 0x80, 0x80, 0x80, 0x80, 0x80, 0x80, 0x7F],
    )
}

#[test]
fn sizes_of_numbers() {
    let rt = crate::host::HostRuntime;
    for (n, size) in [
        (0u32, 1usize),
        (127, 1),
        (128, 2),
        (16383, 2),
        (16384, 3),
        (2097152, 4),
        (268435455, 4),
        (268435456, 5),
        (u32::MAX, 5),
    ] {
        assert_eq!(rt; encoding_size(n), size, "at {n}");
    }
}

#[test]
fn lengths_past_32_bits() {
    let rt = crate::host::HostRuntime;
    let mut sink = Vec::new(rt.alloc());
    assert_eq!(rt; 4294967296usize.encode(&mut sink), Err(Refused::TooLong));
    assert_eq!(rt;
        begin_size_prefixed(&mut sink, 4294967296),
        Err(Refused::TooLong)
    );
    assert!(rt; sink.is_empty());
}

#[test]
fn names_and_tuples() {
    let rt = crate::host::HostRuntime;
    for (name, expected) in [("", [0].as_slice()), ("m", &[1, b'm'])] {
        check(&rt, rt.alloc(), &name, expected);
    }
    check(&rt, rt.alloc(), &(0x20u8, 128u32), &[0x20, 0x80, 1]);
    check(&rt, rt.alloc(), &(0x11u8, 1u32, 2u32), &[0x11, 1, 2])
}

#[test]
fn vectors() {
    let rt = crate::host::HostRuntime;
    check(&rt, rt.alloc(), &[1u32, 128].as_slice(), &[2, 1, 0x80, 1]);
    check(
        &rt,
        rt.alloc(),
        &["a", "bc"].as_slice(),
        &[2, 1, b'a', 2, b'b', b'c'],
    );
    let mut sink = Vec::new(rt.alloc());
    encode_vec([1u32, 128], &mut sink).expect("accepted");
    check_bytes(&rt, &sink, &[2, 1, 0x80, 1]);
}

#[test]
fn frames() {
    let rt = crate::host::HostRuntime;
    let mut sink = Vec::new(rt.alloc());
    begin_size_prefixed(&mut sink, 300).expect("accepted");
    encode_size_prefixed(&mut sink, &[11, 22]).expect("accepted");
    encode_section(&mut sink, 1, &[2, 0, 11]).expect("accepted");
    check_bytes(&rt, &sink, &[0xAC, 0x02, 2, 11, 22, 4, 1, 2, 0, 11]);
}

#[test]
fn sections() {
    let rt = crate::host::HostRuntime;
    let types = RawSection { id: 1, bytes: &[0] };
    assert_eq!(rt; types.id(), 1);
    check(&rt, rt.alloc(), &types, &[1, 0])
}

#[test]
fn ids_and_sorts() {
    let rt = crate::host::HostRuntime;
    let ids = [
        SectionId::Custom,
        SectionId::Types,
        SectionId::Import,
        SectionId::Function,
        SectionId::Table,
        SectionId::Memory,
        SectionId::Global,
        SectionId::Export,
        SectionId::Start,
        SectionId::Element,
        SectionId::Code,
        SectionId::Data,
        SectionId::DataCount,
        SectionId::Tag,
    ];
    for (number, id) in (0u8..14).zip(ids) {
        assert_eq!(rt; u8::from(id), number);
    }
    let sorts = [
        CORE_FUNCTION_SORT,
        CORE_TABLE_SORT,
        CORE_MEMORY_SORT,
        CORE_GLOBAL_SORT,
        CORE_TAG_SORT,
        CORE_FUNCTION_EXACT_SORT,
    ];
    assert_eq!(rt; sorts.as_slice(), [0, 1, 2, 3, 4, 0x20].as_slice());
}

/// Checks that the pieces have these two entries.
fn check_pieces(rt: &impl Abort, pieces: &Pieces) {
    check_numbers(rt, (pieces.len(), pieces.raw_len()), (2, 5));
    check_bytes(rt, pieces.bytes(), &[2, 0, 11, 0x80, 1]);
    check_piece(rt, pieces.get(0), Some(&[2, 0, 11]));
    check_piece(rt, pieces.get(1), Some(&[0x80, 1]));
    check_piece(rt, pieces.get(2), None);
}

#[test]
fn pieces() {
    let rt = crate::host::HostRuntime;
    let mut pieces = Pieces::new(rt.alloc());
    pieces.add(&[2, 0, 11]).expect("accepted");
    pieces.add_encoded(&128u32).expect("accepted");
    check_pieces(&rt, &pieces);
    let copy: Pieces = pieces.clone().expect("accepted");
    check_pieces(&rt, &copy);
    check(&rt, rt.alloc(), &pieces, &[6, 2, 2, 0, 11, 0x80, 1])
}

/// Checks that a store has these two entries.
fn check_store(rt: &impl Abort, alloc: Global, store: &impl Store) {
    assert_eq!(rt; store.count(), 2);
    check_bytes(rt, store.content(), &[2, 0, 11, 0x80, 1]);
    check(rt, alloc, store, &[6, 2, 2, 0, 11, 0x80, 1])
}

/// Checks each call of a store.
fn check_stores<S: NewStore<Alloc = Global>>(rt: &impl Abort, alloc: Global) {
    let mut store = S::new_in(alloc);
    assert_eq!(rt; store.count(), 0);
    store.add_bytes(&[2, 0, 11]).expect("accepted");
    store.add_item(&128u32).expect("accepted");
    check_store(rt, alloc, &store);
    let mut copy = store.copy().expect("accepted");
    check_store(rt, alloc, &copy);
    let bytes = bytes_of([7u8]).expect("accepted");
    copy.add_item_once(bytes).expect("accepted");
    assert_eq!(rt; copy.count(), 3);
    check_bytes(rt, copy.content(), &[2, 0, 11, 0x80, 1, 1, 7]);
    check_store(rt, alloc, &store)
}

#[test]
fn stores() {
    let rt = crate::host::HostRuntime;
    check_stores::<Pieces>(&rt, rt.alloc());
    check_stores::<Entries>(&rt, rt.alloc())
}

#[test]
fn modules() {
    let rt = crate::host::HostRuntime;
    let mut module = Module::new(rt.alloc()).expect("accepted");
    module
        .section(&RawSection { id: 1, bytes: &[0] })
        .expect("accepted");
    module
        .section(&RawSection {
            id: 10,
            bytes: &[1, 2],
        })
        .expect("accepted");
    let expected = b"\0asm\x01\0\0\0\x01\x01\0\x0A\x02\x01\x02";
    let copy: Module = module.clone().expect("accepted");
    check_bytes(&rt, &copy.finish(), expected);
    check_bytes(&rt, &module.finish(), expected);
}

#[test]
fn texts_of_refusals() {
    let rt = crate::host::HostRuntime;
    let memory = format!(in rt.alloc(); "{}", Refused::Memory).expect("accepted");
    assert_eq!(rt; memory.as_str(), "out of memory");
    let length = format!(in rt.alloc(); "{}", Refused::TooLong).expect("accepted");
    assert_eq!(rt; length.as_str(), "too long");
}

#[test]
fn laws_take_no_memory() {
    laws::numbers();
    laws::frames();
    laws::padded();
}
