// Written by tools/to-rust from tests/wasm_reader_tests/src/grammars.rtt: change that.
// Tests of the two grammars, and of the places of errors.

use dolzhytik::fallible::Vec;
use dolzhytik::fallible::Global;
use crate::host::Abort;
use dolzhytik::fallible::{AbstractHeapType, HeapType, RefType, ValType};
use dolzhytik::reader::{Grammar, Padded, ReadFault, Readable, SizePrefixed, Standard, skip_value};
use dolzhytik::reader::Body;
use dolzhytik::fallible::{BlockType, MemArg, MemArgTarget};
use dolzhytik::reader::Segment;

/// Returns the cause of the error of decoding a `T` in the grammar, and its place.
fn place_of<'a, T: Readable<'a, Global, G>, G: Grammar>(
    alloc: Global,
    bytes: &'a [u8],
) -> Option<(ReadFault, u32)> {
    match T::read(bytes, alloc) {
        Ok(_) => None,
        Err(error) => Some((error.cause(), error.left())),
    }
}

fn check_place(rt: &impl Abort, given: Option<(ReadFault, u32)>, cause: ReadFault, left: u32) {
    assert_eq!(rt; given, Some((cause, left)));
}

/// Checks the cause and the place in both grammars.
fn check_both<'a, T: Readable<'a, Global, Padded> + Readable<'a, Global, Standard>>(
    rt: &impl Abort,
    alloc: Global,
    bytes: &'a [u8],
    cause: ReadFault,
    left: u32,
) {
    check_place(rt, place_of::<T, Padded>(alloc, bytes), cause, left);
    check_place(rt, place_of::<T, Standard>(alloc, bytes), cause, left);
}

/// Checks the decoded `T` and the number of remaining bytes in the standard's grammar, and the
/// place of the error in the builders'.
fn check_standard<
    'a,
    T: Readable<'a, Global, Padded> + Readable<'a, Global, Standard> + Copy + PartialEq,
>(rt: &impl Abort, alloc: Global, bytes: &'a [u8], expected: T, left: u32) {
    let (value, rest) = <T as Readable<'a, Global, Standard>>::read(bytes, alloc).expect(
        "accepted",
    );
    assert!(rt; value == expected);
    assert_eq!(rt; rest.len(), 1);
    check_place(
        rt,
        place_of::<T, Padded>(alloc, bytes),
        ReadFault::UnknownTag,
        left,
    );
}

/// Checks the block type of one byte in the standard's grammar, and that the builders' has none.
fn check_block(rt: &impl Abort, alloc: Global, bytes: &[u8], expected: RefType) {
    let read = <BlockType as Readable<'_, Global, Standard>>::read(bytes, alloc);
    let is_expected = match read {
        Ok((BlockType::Result(ValType::Ref(ty)), [9])) => ty == expected,
        _ => false,
    };
    assert!(rt; is_expected);
    check_place(
        rt,
        place_of::<BlockType, Padded>(alloc, bytes),
        ReadFault::UnknownTag,
        2,
    );
}

/// The nullable reference to an abstract type.
fn nullable(ty: AbstractHeapType) -> RefType {
    RefType {
        nullable: true,
        heap_type: HeapType::Abstract { shared: false, ty },
    }
}

#[test]
fn places_of_numbers() {
    let rt = crate::host::HostRuntime;
    let alloc = rt.alloc();
    check_both::<u8>(&rt, alloc, &[], ReadFault::Ended, 0);
    check_both::<u32>(&rt, alloc, &[], ReadFault::Ended, 0);
    check_both::<u32>(&rt, alloc, &[0x80, 0x80], ReadFault::Ended, 0);
    check_both::<u32>(
        &rt,
        alloc,
        &[0xFF, 0xFF, 0xFF, 0xFF, 0x1F, 9],
        ReadFault::TooLarge,
        2,
    );
    check_both::<u32>(
        &rt,
        alloc,
        &[0x80, 0x80, 0x80, 0x80, 0x80, 0, 9],
        ReadFault::TooLarge,
        3,
    );
    check_both::<i32>(
        &rt,
        alloc,
        &[0x80, 0x80, 0x80, 0x80, 0x08, 9, 9],
        ReadFault::TooLarge,
        3,
    );
    check_both::<u64>(
        &rt,
        alloc,
        &[0xFF, 0xFF, 0xFF, 0xFF, 0xFF, 0xFF, 0xFF, 0xFF, 0xFF, 2, 9],
        ReadFault::TooLarge,
        2,
    );
    check_both::<[u8; 16]>(&rt, alloc, &[0; 15], ReadFault::Ended, 0);
}

#[test]
fn places_of_payloads() {
    let rt = crate::host::HostRuntime;
    let alloc = rt.alloc();
    check_both::<&str>(&rt, alloc, b"\x02m", ReadFault::Ended, 0);
    check_both::<&str>(&rt, alloc, &[1, 0xFF, 9], ReadFault::NotUtf8, 2);
    check_both::<SizePrefixed<u32>>(&rt, alloc, &[2, 5, 6, 9], ReadFault::SizeMismatch, 2);
    check_both::<SizePrefixed<u32>>(&rt, alloc, &[1, 0x80, 9], ReadFault::Ended, 1);
    check_both::<Body>(
        &rt,
        alloc,
        &[3, 0, 0x16, 0x0B, 9],
        ReadFault::UnknownOpcode,
        3,
    );
    check_both::<Vec<u8>>(&rt, alloc, &[2, 7], ReadFault::Ended, 0);
}

#[test]
fn places_of_types() {
    let rt = crate::host::HostRuntime;
    let alloc = rt.alloc();
    check_both::<HeapType>(&rt, alloc, &[0x60, 9], ReadFault::UnknownTag, 2);
    check_both::<HeapType>(&rt, alloc, &[0x65, 0x60, 9], ReadFault::UnknownTag, 2);
    check_both::<RefType>(&rt, alloc, &[0x7F, 9], ReadFault::UnknownTag, 2);
    check_both::<ValType>(&rt, alloc, &[0x60, 9], ReadFault::UnknownTag, 2);
    check_both::<ValType>(&rt, alloc, &[0x64], ReadFault::Ended, 0);
}

#[test]
fn standard_types() {
    let rt = crate::host::HostRuntime;
    let alloc = rt.alloc();
    let types = [
        (0x6E, AbstractHeapType::Any),
        (0x6D, AbstractHeapType::Eq),
        (0x6C, AbstractHeapType::I31),
        (0x6B, AbstractHeapType::Struct),
        (0x6A, AbstractHeapType::Array),
        (0x69, AbstractHeapType::Exn),
        (0x74, AbstractHeapType::NoExn),
        (0x73, AbstractHeapType::NoFunc),
        (0x72, AbstractHeapType::NoExtern),
        (0x71, AbstractHeapType::None),
    ];
    for (byte, ty) in types {
        let expected = nullable(ty);
        check_standard(&rt, alloc, &[byte, 9], expected, 2);
        check_standard(&rt, alloc, &[byte, 9], ValType::Ref(expected), 2);
        check_block(&rt, alloc, &[byte, 9], expected);
    }
    check_standard(&rt, alloc, &[0x63, 0x70, 9], RefType::FUNCREF, 2);
    check_standard(
        &rt,
        alloc,
        &[0x63, 0x6F, 9],
        ValType::Ref(RefType::EXTERNREF),
        2,
    );
}

#[test]
fn standard_bodies() {
    let rt = crate::host::HostRuntime;
    let bytes = [5, 1, 1, 0x69, 0x1A, 0x0B];
    let kept = <Body as Readable<'_, Global, Standard>>::read(&bytes, rt.alloc());
    let (body, _rest) = kept.expect("accepted");
    assert_eq!(&rt;
        body.runs[0],
        (1, ValType::Ref(nullable(AbstractHeapType::Exn)))
    );
    let rest = skip_value::<Body, Global, Standard>(&bytes, rt.alloc());
    assert_eq!(&rt; rest.map(|rest| rest.len()), Ok(0));
    let rest = skip_value::<Body, Global, Padded>(&bytes, rt.alloc());
    assert!(&rt; rest.is_err());
}

/// Memory 0 with an index: alignment 2 and bit 6, the index, and the offset.
#[test]
fn standard_memory_arguments() {
    let rt = crate::host::HostRuntime;
    let alloc = rt.alloc();
    let bytes = [0x42, 0x00, 0x05, 9];
    let read = <MemArg as Readable<'_, Global, Standard>>::read(&bytes, alloc);
    let is_expected = match read {
        Ok((memory, [9])) => {
            memory.target == MemArgTarget::Memory(0)
                && memory.align == 2
                && memory.offset == 5
                && memory.ordering.is_none()
        }
        _ => false,
    };
    assert!(&rt; is_expected);
    // A padded index, and an ordering after it.
    let padded = [0x52, 0x80, 0x00, 0x01, 0x05];
    let read = <MemArg as Readable<'_, Global, Standard>>::read(&padded, alloc);
    assert!(&rt; read.is_ok());
    check_place(
        &rt,
        place_of::<MemArg, Padded>(alloc, &bytes),
        ReadFault::UnknownTag,
        3,
    );
    check_both::<MemArg>(&rt, alloc, &[0x62, 0x00, 0x00], ReadFault::UnknownTag, 3);
    check_place(
        &rt,
        place_of::<MemArg, Standard>(alloc, &[0x42, 0x00]),
        ReadFault::Ended,
        0,
    );
}

/// An active segment of memory 0 after flag 2: the memory, the offset and one byte.
#[test]
fn standard_segments() {
    let rt = crate::host::HostRuntime;
    let alloc = rt.alloc();
    let bytes = [0x02, 0x00, 0x41, 0x07, 0x0B, 0x01, 0xAA, 9];
    let read = <Segment<'_> as Readable<'_, Global, Standard>>::read(&bytes, alloc);
    let is_expected = match read {
        Ok((Segment::Active { memory, bytes, .. }, [9])) => memory == 0
            && bytes == [0xAA].as_slice(),
        _ => false,
    };
    assert!(&rt; is_expected);
    let rest = skip_value::<Segment<'_>, Global, Standard>(&bytes, alloc);
    assert_eq!(&rt; rest.map(|rest| rest.len()), Ok(1));
    check_place(
        &rt,
        place_of::<Segment<'_>, Padded>(alloc, &bytes),
        ReadFault::UnknownTag,
        7,
    );
    let rest = skip_value::<Segment<'_>, Global, Padded>(&bytes, alloc);
    assert!(&rt; rest.is_err());
    check_place(
        &rt,
        place_of::<Segment<'_>, Standard>(alloc, &[0x02, 0x00]),
        ReadFault::Ended,
        0,
    );
}
