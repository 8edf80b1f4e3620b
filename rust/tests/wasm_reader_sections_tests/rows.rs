// Written by tools/to-rust from tests/wasm_reader_sections_tests/src/rows.rtt: change that.
// Tests of sections that decode to their items, with ample memory.

use dolzhytik::fallible::Vec;
use crate::seen::{Seen, read};
use dolzhytik::fallible::Global;
use crate::host::Abort;
use dolzhytik::fallible::{RefType, Result, ValType};
use dolzhytik::fallible::Op;
use dolzhytik::reader::SectionKind;
use dolzhytik::fallible::{EntityType, ExportKind, GlobalType, MemoryType, TableType, TagKind, TagType};

const TAG: TagType = TagType {
    kind: TagKind::Exception,
    func_type_idx: 3,
};

const MEMORY: MemoryType = MemoryType {
    minimum: 1,
    maximum: None,
    memory64: false,
    shared: false,
    page_size_log2: None,
};

const LIMITED_MEMORY: MemoryType = MemoryType {
    minimum: 1,
    maximum: Some(2),
    memory64: true,
    shared: true,
    page_size_log2: Some(0),
};

const TABLE: TableType = TableType {
    element_type: RefType::FUNCREF,
    table64: false,
    minimum: 128,
    maximum: None,
    shared: false,
};

const EMPTY_TABLE: TableType = TableType {
    element_type: RefType::FUNCREF,
    table64: false,
    minimum: 0,
    maximum: None,
    shared: false,
};

const NUMBER: GlobalType = GlobalType {
    val_type: ValType::I32,
    mutable: false,
    shared: false,
};

const SHARED_NUMBER: GlobalType = GlobalType {
    val_type: ValType::I32,
    mutable: true,
    shared: true,
};

/// A kind, a section of it, and the decoded items.
pub(crate) type Row = (SectionKind, &'static [u8], Seen<'static>);

/// Sections of minimal numbers.
pub(crate) static ROWS: [Row; 29] = [
    (SectionKind::DataCount, &[2, 128, 1], Seen::Number(128)),
    (SectionKind::Start, &[1, 7], Seen::Number(7)),
    (
        SectionKind::Custom,
        b"\x09\x04test\x0B\x16\x21\x2C",
        Seen::Custom("test", &[11, 22, 33, 44]),
    ),
    (SectionKind::Custom, &[1, 0], Seen::Custom("", &[])),
    (
        SectionKind::Exports,
        b"\x07\x01\x03foo\x00\x00",
        Seen::Export("foo", ExportKind::Func, 0),
    ),
    (SectionKind::Tags, &[3, 1, 0, 3], Seen::Tag(TAG)),
    (
        SectionKind::Memories,
        &[5, 1, 15, 1, 2, 0],
        Seen::Memory(LIMITED_MEMORY),
    ),
    (
        SectionKind::Tables,
        &[5, 1, 112, 0, 128, 1],
        Seen::Table(TABLE, false),
    ),
    (
        SectionKind::Tables,
        &[9, 1, 64, 0, 112, 0, 0, 208, 112, 11],
        Seen::Table(EMPTY_TABLE, true),
    ),
    (
        SectionKind::Globals,
        &[6, 1, 127, 0, 65, 42, 11],
        Seen::Global(NUMBER, Some(42)),
    ),
    (
        SectionKind::Globals,
        &[6, 1, 127, 3, 65, 42, 11],
        Seen::Global(SHARED_NUMBER, Some(42)),
    ),
    (
        SectionKind::Imports,
        &[6, 1, 1, 109, 0, 0, 5],
        Seen::Import("m", "", EntityType::Function(5)),
    ),
    (
        SectionKind::Imports,
        &[5, 1, 0, 0, 0, 0],
        Seen::Import("", "", EntityType::Function(0)),
    ),
    (
        SectionKind::Imports,
        &[10, 1, 1, 109, 0, 127, 1, 1, 97, 0, 0],
        Seen::Group("m", 1),
    ),
    (
        SectionKind::Imports,
        &[5, 1, 0, 0, 127, 0],
        Seen::Group("", 0),
    ),
    (
        SectionKind::Imports,
        &[12, 1, 1, 109, 0, 126, 0, 0, 2, 1, 97, 1, 98],
        Seen::Alike("m", EntityType::Function(0), 2),
    ),
    (
        SectionKind::Imports,
        b"\x0F\x01\x03env\x06memory\x02\x00\x01",
        Seen::Import("env", "memory", EntityType::Memory(MEMORY)),
    ),
    (
        SectionKind::Imports,
        &[7, 1, 1, 109, 1, 97, 0x20, 1],
        Seen::Import("m", "a", EntityType::FunctionExact(1)),
    ),
    (SectionKind::Bodies, &[1, 0], Seen::Nothing),
    (
        SectionKind::Bodies,
        &[4, 1, 2, 0, 11],
        Seen::Body(0, 1, Some(Op::Byte(0x0B))),
    ),
    (
        SectionKind::Bodies,
        &[6, 1, 4, 0, 65, 0, 11],
        Seen::Body(0, 2, Some(Op::Byte(0x41))),
    ),
    (
        SectionKind::Segments,
        b"\x0B\x01\x00\x41\x2A\x0B\x05hello",
        Seen::Active(0, Some(42), b"hello"),
    ),
    (
        SectionKind::Segments,
        &[7, 1, 2, 3, 65, 1, 11, 0],
        Seen::Active(3, Some(1), &[]),
    ),
    (SectionKind::Segments, &[4, 1, 1, 1, 9], Seen::Passive(&[9])),
    (
        SectionKind::Elements,
        &[6, 1, 0, 65, 0, 11, 0],
        Seen::Element(None, Some(0), false, 0),
    ),
    (
        SectionKind::Elements,
        &[8, 1, 2, 0, 65, 0, 11, 0, 0],
        Seen::Element(Some(0), Some(0), false, 0),
    ),
    (
        SectionKind::Elements,
        &[6, 1, 4, 65, 0, 11, 0],
        Seen::Element(None, Some(0), true, 0),
    ),
    (
        SectionKind::Elements,
        &[8, 1, 6, 0, 65, 0, 11, 112, 0],
        Seen::Element(Some(0), Some(0), true, 0),
    ),
    (
        SectionKind::Elements,
        &[8, 1, 6, 0, 65, 0, 11, 111, 0],
        Seen::Element(Some(0), Some(0), true, 0),
    ),
];

/// Sections of padded numbers.
pub(crate) static PADDED: [Row; 4] = [
    (
        SectionKind::Functions,
        &[0x86, 0, 1, 0x85, 0x80, 0x80, 0x80, 0],
        Seen::Number(5),
    ),
    (SectionKind::Functions, &[3, 1, 0x80, 0], Seen::Number(0)),
    (
        SectionKind::Globals,
        &[0x0A, 1, 0x7F, 0, 0x41, 0xFF, 0xFF, 0xFF, 0xFF, 0x7F, 0x0B],
        Seen::Global(NUMBER, Some(-1)),
    ),
    (
        SectionKind::Bodies,
        &[5, 1, 3, 0x80, 0, 11],
        Seen::Body(0, 1, Some(Op::Byte(0x0B))),
    ),
];

/// Checks the decoded items, and the length of the section in bytes.
fn check(
    rt: &impl Abort,
    alloc: Global,
    kind: SectionKind,
    bytes: &[u8],
    expected: Seen<'_>,
    taken: usize,
) {
    assert_eq!(rt; read(alloc, kind, bytes), Some((expected, taken)));
}

#[test]
fn rows() {
    let rt = crate::host::HostRuntime;
    for (kind, bytes, seen) in ROWS.iter() {
        check(&rt, rt.alloc(), *kind, bytes, *seen, bytes.len());
    }
    for (kind, bytes, seen) in PADDED.iter() {
        check(&rt, rt.alloc(), *kind, bytes, *seen, bytes.len());
    }
}

/// The data of segments whose length has two bytes: zeros, and other bytes.
pub(crate) static DATA: [[u8; 128]; 2] = [[0; 128], [9; 128]];

/// Returns these bytes, and the data after them.
pub(crate) fn before_data(alloc: Global, front: &[u8], data: &[u8]) -> Result<Vec<u8>> {
    let mut bytes = Vec::from_slice(alloc, front)?;
    bytes.extend_from_slice(data)?;
    Ok(bytes)
}

#[test]
fn passive_data_of_128_bytes() {
    let rt = crate::host::HostRuntime;
    for data in DATA.iter() {
        let front = [0x84, 1, 1, 1, 0x80, 1];
        let section = before_data(rt.alloc(), &front, data).expect("accepted");
        check(
            &rt,
            rt.alloc(),
            SectionKind::Segments,
            &section,
            Seen::Passive(data),
            134,
        );
    }
}

/// A function section, and a byte after it.
pub(crate) const BEFORE_BYTE: &[u8] = &[2, 1, 5, 0x99];

/// Bytes after a section are left.
#[test]
fn bytes_behind() {
    let rt = crate::host::HostRuntime;
    check(
        &rt,
        rt.alloc(),
        SectionKind::Functions,
        BEFORE_BYTE,
        Seen::Number(5),
        3,
    );
    let raw: &[u8] = &[2, 0xFF, 0xFE, 1];
    check(
        &rt,
        rt.alloc(),
        SectionKind::Raw,
        raw,
        Seen::Raw(&[0xFF, 0xFE]),
        3,
    );
}
