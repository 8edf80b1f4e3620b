// Written by tools/to-rust from tests/wasm_sections_tests/src/segments.rtt: change that.
// Tests of each call that adds a segment once, with ample memory.

use dolzhytik::fallible::Vec;
use crate::checks::check_bytes;
use crate::sections::check;
use dolzhytik::fallible::Global;
use crate::host::Abort;
use dolzhytik::fallible::{CowSlice, Encode, RefType, Result};
use dolzhytik::fallible::ConstExpr;
use dolzhytik::fallible::{DataSection, DataSegment, DataSegmentMode, ElementMode, ElementSection, ElementSegment, Elements, GlobalSection};

/// Returns a data section of one active segment.
fn active_data(alloc: Global, memory: u32, offset: i32, bytes: &[u8]) -> Result<DataSection> {
    let mut section = DataSection::new(alloc);
    let offset = ConstExpr::i32_const(alloc, offset)?;
    section.active(memory, &offset, bytes.iter().copied())?;
    Ok(section)
}

#[test]
fn active_segments() {
    let rt = crate::host::HostRuntime;
    let alloc = rt.alloc();
    let in_second = active_data(alloc, 1, 0, &[9]).expect("accepted");
    check(&rt, alloc, &in_second, 11, &[8, 1, 2, 1, 65, 0, 11, 1, 9]);
    let hello = active_data(alloc, 0, 42, b"hello").expect("accepted");
    check(&rt, alloc, &hello, 11, b"\x0B\x01\x00\x41\x2A\x0B\x05hello")
}

#[test]
fn passive_segments() {
    let rt = crate::host::HostRuntime;
    let mut section = DataSection::new(rt.alloc());
    section.passive([1u8, 2]).expect("accepted");
    section.raw(&[1, 0]).expect("accepted");
    check(&rt, rt.alloc(), &section, 11, &[7, 2, 1, 2, 1, 2, 1, 0])
}

/// Checks that a segment of the mode, and a clone of it, make one entry.
fn check_segment(rt: &impl Abort, alloc: Global, mode: DataSegmentMode<'_>, expected: &[u8]) {
    let segment = DataSegment { mode, bytes: [7u8] };
    let mut section = DataSection::new(alloc);
    section
        .segment(segment.clone().expect("accepted"))
        .expect("accepted");
    check(rt, alloc, &section, 11, expected);
    let mut section = DataSection::new(alloc);
    section.segment(segment).expect("accepted");
    check(rt, alloc, &section, 11, expected)
}

#[test]
fn segments_by_mode() {
    let rt = crate::host::HostRuntime;
    let alloc = rt.alloc();
    let offset = ConstExpr::i32_const(alloc, 1).expect("accepted");
    let first = DataSegmentMode::Active {
        memory_index: 0,
        offset: &offset,
    };
    check_segment(&rt, alloc, first, &[7, 1, 0, 65, 1, 11, 1, 7]);
    let other = DataSegmentMode::Active {
        memory_index: 128,
        offset: &offset,
    };
    let expected = [9, 1, 2, 128, 1, 65, 1, 11, 1, 7];
    check_segment(&rt, alloc, other, &expected);
    check_segment(&rt, alloc, DataSegmentMode::Passive, &[4, 1, 1, 1, 7])
}

/// A segment with the explicit memory 0 is encoded as it is passed.
#[test]
fn raw_data() {
    let rt = crate::host::HostRuntime;
    let mut section = DataSection::new(rt.alloc());
    section
        .raw(&[2, 0, 65, 0, 11, 1, 9])
        .expect("accepted");
    let expected = [8, 1, 2, 0, 65, 0, 11, 1, 9];
    check(&rt, rt.alloc(), &section, 11, &expected)
}

#[test]
fn raw_globals() {
    let rt = crate::host::HostRuntime;
    let mut section = GlobalSection::new(rt.alloc());
    section.raw(&[127, 0, 65, 42, 11]).expect("accepted");
    check(&rt, rt.alloc(), &section, 6, &[6, 1, 127, 0, 65, 42, 11])
}

/// Checks an element section of one active segment at 0, for this table.
fn check_active(
    rt: &impl Abort,
    alloc: Global,
    table: Option<u32>,
    elements: Elements<'_>,
    expected: &[u8],
) {
    let mut section = ElementSection::new(alloc);
    let offset = ConstExpr::i32_const(alloc, 0).expect("accepted");
    section
        .active(table, &offset, elements)
        .expect("accepted");
    check(rt, alloc, &section, 9, expected)
}

/// Returns no functions.
fn no_functions<'a>() -> Elements<'a> {
    Elements::Functions(CowSlice::Borrowed(&[]))
}

/// Returns no expressions of the type.
fn no_expressions<'a>(ty: RefType) -> Elements<'a> {
    Elements::Expressions(ty, CowSlice::Borrowed(&[]))
}

#[test]
fn active_functions() {
    let rt = crate::host::HostRuntime;
    let alloc = rt.alloc();
    check_active(&rt, alloc, None, no_functions(), &[6, 1, 0, 65, 0, 11, 0]);
    let named = [8, 1, 2, 0, 65, 0, 11, 0, 0];
    check_active(&rt, alloc, Some(0), no_functions(), &named);
    let seventh = [8, 1, 2, 7, 65, 0, 11, 0, 0];
    check_active(&rt, alloc, Some(7), no_functions(), &seventh)
}

/// An explicit table 0 and no table have one encoding, if the expressions have another type than
/// `FUNCREF`.
#[test]
fn active_expressions() {
    let rt = crate::host::HostRuntime;
    let alloc = rt.alloc();
    let short = [6, 1, 4, 65, 0, 11, 0];
    check_active(&rt, alloc, None, no_expressions(RefType::FUNCREF), &short);
    let named = [8, 1, 6, 0, 65, 0, 11, 112, 0];
    check_active(
        &rt,
        alloc,
        Some(0),
        no_expressions(RefType::FUNCREF),
        &named,
    );
    let external = [8, 1, 6, 0, 65, 0, 11, 111, 0];
    for table in [None, Some(0)] {
        check_active(
            &rt,
            alloc,
            table,
            no_expressions(RefType::EXTERNREF),
            &external,
        );
    }
}

/// References to functions that are never null have no short form.
#[test]
fn expressions_without_null() {
    let rt = crate::host::HostRuntime;
    let ty = RefType {
        nullable: false,
        ..RefType::FUNCREF
    };
    let expected = [9, 1, 6, 0, 65, 0, 11, 0x64, 0x70, 0];
    check_active(&rt, rt.alloc(), None, no_expressions(ty), &expected)
}

/// Returns a reference to the function 7, for a passive or declared segment.
fn seventh(alloc: Global) -> Result<Elements<'static>> {
    Ok(Elements::Functions(CowSlice::Owned(Vec::from_slice(alloc, &[7])?)))
}

#[test]
fn inactive_functions() {
    let rt = crate::host::HostRuntime;
    let alloc = rt.alloc();
    let mut section = ElementSection::new(alloc);
    section
        .declared(seventh(alloc).expect("accepted"))
        .expect("accepted");
    check(&rt, alloc, &section, 9, &[5, 1, 3, 0, 1, 7]);
    section
        .passive(seventh(alloc).expect("accepted"))
        .expect("accepted");
    section.raw(&[1, 0, 0]).expect("accepted");
    let expected = [12, 3, 3, 0, 1, 7, 1, 0, 1, 7, 1, 0, 0];
    check(&rt, alloc, &section, 9, &expected)
}

#[test]
fn raw_elements() {
    let rt = crate::host::HostRuntime;
    let mut section = ElementSection::new(rt.alloc());
    section.raw(&[1, 0, 0]).expect("accepted");
    check(&rt, rt.alloc(), &section, 9, &[4, 1, 1, 0, 0])
}

/// Checks that a segment of the mode, and a clone of it, make one entry.
fn check_mode(
    rt: &impl Abort,
    alloc: Global,
    mode: ElementMode<'_>,
    elements: Elements<'_>,
    expected: &[u8],
) {
    let segment = ElementSegment { mode, elements };
    let copy = segment.clone().expect("accepted");
    let mut sink = Vec::new(alloc);
    copy.encode(&mut sink).expect("accepted");
    check_bytes(rt, &sink, expected);
    let mut section = ElementSection::new(alloc);
    section.segment(segment).expect("accepted");
    check_bytes(rt, section.piece(0).unwrap_or(&[]), expected);
}

#[test]
fn expressions_by_mode() {
    let rt = crate::host::HostRuntime;
    let alloc = rt.alloc();
    let third = [ConstExpr::ref_func(alloc, 3).expect("accepted")];
    let borrowed = Elements::Expressions(RefType::FUNCREF, CowSlice::Borrowed(&third));
    let expected = [5, 112, 1, 210, 3, 11];
    check_mode(&rt, alloc, ElementMode::Passive, borrowed, &expected);
    let mut listed = Vec::new(alloc);
    listed
        .push(ConstExpr::ref_func(alloc, 3).expect("accepted"))
        .expect("accepted");
    let owned = Elements::Expressions(RefType::FUNCREF, CowSlice::Owned(listed));
    let expected = [7, 112, 1, 210, 3, 11];
    check_mode(&rt, alloc, ElementMode::Declared, owned, &expected)
}

#[test]
fn passive_expressions() {
    let rt = crate::host::HostRuntime;
    let alloc = rt.alloc();
    let third = [ConstExpr::ref_func(alloc, 3).expect("accepted")];
    let elements = Elements::Expressions(RefType::FUNCREF, CowSlice::Borrowed(&third));
    let mut section = ElementSection::new(alloc);
    section.passive(elements).expect("accepted");
    check(&rt, alloc, &section, 9, &[7, 1, 5, 112, 1, 210, 3, 11])
}

#[test]
fn functions_by_mode() {
    let rt = crate::host::HostRuntime;
    let alloc = rt.alloc();
    let offset = ConstExpr::i32_const(alloc, 0).expect("accepted");
    let mode = ElementMode::Active {
        table: None,
        offset: &offset,
    };
    let functions = Elements::Functions(CowSlice::Borrowed(&[1, 128]));
    let expected = [0, 65, 0, 11, 2, 1, 128, 1];
    check_mode(&rt, alloc, mode, functions, &expected)
}
