// Written by tools/to-rust from tests/wasm_sections_tests/src/sections.rtt: change that.
// Tests of each call of `wasm_sections` once, with ample memory.

use dolzhytik::fallible::Vec;
use crate::checks::{check_bytes, check_piece, check_that};
use crate::samples::{GLOBAL, LIMITED_MEMORY, LIMITED_TABLE, MEMORY, SET_GLOBAL, TABLE, TAG};
use crate::read_back::first_values::{encode_copied, encode_null_tables};
use dolzhytik::fallible::Global;
use crate::host::Abort;
use dolzhytik::fallible::{Counted, CowSlice, Encode, HeapType, Section, ValType, add_all};
use dolzhytik::fallible::ConstExpr;
use dolzhytik::fallible::Instruction;
use dolzhytik::fallible::{DataCountSection, EntityType, Export, ExportKind, ExportSection, FunctionSection, GlobalSection, Import, ImportCompact, ImportSection, Imports, MemorySection, StartSection, TableSection, TableType, TagSection};
use dolzhytik::fallible::laws::sections as laws;

/// Checks the id and the bytes of the section.
pub(crate) fn check<S: Section>(
    rt: &impl Abort,
    alloc: Global,
    section: &S,
    id: u8,
    expected: &[u8],
) {
    let mut sink = Vec::new(alloc);
    section.encode(&mut sink).expect("accepted");
    check_bytes(rt, &sink, expected);
    sink.clear();
    section.append_to(&mut sink).expect("accepted");
    check_id(rt, section.id(), sink.first(), id);
}

/// Checks that the section has this id, and so does its encoding with the id before it.
fn check_id(rt: &impl Abort, id: u8, first: Option<&u8>, expected: u8) {
    assert_eq!(rt; (id, first), (expected, Some(&expected)));
}

/// Checks the number of entries.
fn check_len(rt: &impl Abort, len: u32, expected: u32) {
    assert_eq!(rt; len, expected);
}

#[test]
fn functions() {
    let rt = crate::host::HostRuntime;
    let mut section = FunctionSection::new(rt.alloc());
    check_that(&rt, section.is_empty());
    check(&rt, rt.alloc(), &section, 3, &[1, 0]);
    check_that(&rt, add_all(&mut section, &[1u32, 128]).is_ok());
    check(&rt, rt.alloc(), &section, 3, &[4, 2, 1, 128, 1]);
    check_len(&rt, section.len(), 2);
    check_piece(&rt, section.piece(1), Some(&[128, 1]));
    check_piece(&rt, section.piece(2), None);
}

#[test]
fn copies() {
    let rt = crate::host::HostRuntime;
    let mut section = FunctionSection::new(rt.alloc());
    section.function(1).expect("accepted");
    section.function(128).expect("accepted");
    let mut same = section.clone().expect("accepted");
    same.function(0).expect("accepted");
    check(&rt, rt.alloc(), &same, 3, &[5, 3, 1, 128, 1, 0]);
    check(&rt, rt.alloc(), &section, 3, &[4, 2, 1, 128, 1])
}

/// Checks a section of a global with this initial value.
fn check_global(rt: &impl Abort, alloc: Global, value: i32, expected: &[u8]) {
    let mut section = GlobalSection::new(alloc);
    section
        .global(
            GLOBAL,
            &ConstExpr::i32_const(alloc, value).expect("accepted"),
        )
        .expect("accepted");
    check(rt, alloc, &section, 6, expected)
}

#[test]
fn globals() {
    let rt = crate::host::HostRuntime;
    check_global(&rt, rt.alloc(), 42, &[6, 1, 127, 0, 65, 42, 11]);
    check_global(&rt, rt.alloc(), -1, &[6, 1, 127, 0, 65, 127, 11]);
    let mut section = GlobalSection::new(rt.alloc());
    section
        .global(SET_GLOBAL, &ConstExpr::empty(rt.alloc()))
        .expect("accepted");
    check_piece(&rt, section.piece(0), Some(&[126, 3, 11]));
}

/// An `End` inside a constant expression is encoded like any other instruction.
#[test]
fn globals_that_end_early() {
    let rt = crate::host::HostRuntime;
    let instructions = [
        Instruction::I32Const(1),
        Instruction::End,
        Instruction::I32Const(2),
    ];
    let init = ConstExpr::extended(rt.alloc(), instructions).expect("accepted");
    let mut section = GlobalSection::new(rt.alloc());
    section.global(GLOBAL, &init).expect("accepted");
    let expected = [9, 1, 127, 0, 65, 1, 11, 65, 2, 11];
    check(&rt, rt.alloc(), &section, 6, &expected)
}

#[test]
fn page_sizes() {
    let rt = crate::host::HostRuntime;
    assert_eq!(rt;
        (LIMITED_MEMORY.page_size(), LIMITED_MEMORY.page_size_log2()),
        (1, 0)
    );
    assert_eq!(rt; (MEMORY.page_size(), MEMORY.page_size_log2()), (65536, 16));
}

#[test]
fn memories() {
    let rt = crate::host::HostRuntime;
    for (ty, expected) in [
        (MEMORY, [3, 1, 0, 1].as_slice()),
        (LIMITED_MEMORY, &[5, 1, 15, 1, 2, 0]),
    ] {
        let mut section = MemorySection::new(rt.alloc());
        section.memory(ty).expect("accepted");
        check(&rt, rt.alloc(), &section, 5, expected);
    }
}

#[test]
fn tables() {
    let rt = crate::host::HostRuntime;
    assert_eq!(rt; LIMITED_TABLE.index_type(), ValType::I64);
    assert_eq!(rt; TABLE.index_type(), ValType::I32);
    for (ty, expected) in [
        (TABLE, [5, 1, 112, 0, 128, 1].as_slice()),
        (LIMITED_TABLE, &[5, 1, 112, 5, 1, 2]),
    ] {
        let mut section = TableSection::new(rt.alloc());
        section.table(ty).expect("accepted");
        check(&rt, rt.alloc(), &section, 4, expected);
    }
}

#[test]
fn first_values() {
    let rt = crate::host::HostRuntime;
    let empty = TableType {
        minimum: 0,
        ..TABLE
    };
    let null = ConstExpr::ref_null(rt.alloc(), HeapType::FUNC).expect("accepted");
    let mut section = TableSection::new(rt.alloc());
    section
        .table_with_init(empty, &null)
        .expect("accepted");
    check(
        &rt,
        rt.alloc(),
        &section,
        4,
        &[9, 1, 64, 0, 112, 0, 0, 208, 112, 11],
    );
    section.table(empty).expect("accepted");
    check(
        &rt,
        rt.alloc(),
        &section,
        4,
        &[12, 2, 64, 0, 112, 0, 0, 208, 112, 11, 112, 0, 0],
    )
}

#[test]
fn tags() {
    let rt = crate::host::HostRuntime;
    let mut section = TagSection::new(rt.alloc());
    section.tag(TAG).expect("accepted");
    check(&rt, rt.alloc(), &section, 13, &[3, 1, 0, 3])
}

#[test]
fn exports() {
    let rt = crate::host::HostRuntime;
    let mut section = ExportSection::new(rt.alloc());
    section
        .export("foo", ExportKind::Func, 0)
        .expect("accepted");
    check(
        &rt,
        rt.alloc(),
        &section,
        7,
        &[7, 1, 3, b'f', b'o', b'o', 0, 0],
    );
    section
        .add(&Export {
            name: "m",
            kind: ExportKind::Memory,
            index: 1,
        })
        .expect("accepted");
    check_piece(&rt, section.piece(1), Some(&[1, b'm', 2, 1]));
}

/// Checks that the kind encodes to this byte.
fn check_kind(rt: &impl Abort, alloc: Global, kind: ExportKind, byte: u8) {
    let mut sink = Vec::new(alloc);
    kind.encode(&mut sink).expect("accepted");
    check_bytes(rt, &sink, &[byte]);
}

#[test]
fn kinds() {
    let rt = crate::host::HostRuntime;
    for (kind, byte) in [
        (ExportKind::Func, 0x00u8),
        (ExportKind::Table, 0x01),
        (ExportKind::Memory, 0x02),
        (ExportKind::Global, 0x03),
        (ExportKind::Tag, 0x04),
    ] {
        check_kind(&rt, rt.alloc(), kind, byte);
    }
}

/// Checks a section of one import.
fn check_import(rt: &impl Abort, alloc: Global, import: Imports<'_>, expected: &[u8]) {
    let mut section = ImportSection::new(alloc);
    let same = import.clone().expect("accepted");
    section.imports(import).expect("accepted");
    check(rt, alloc, &section, 2, expected);
    check_len(rt, section.len(), 1);
    section.imports(same).expect("accepted");
    check_len(rt, section.len(), 2);
    check_piece(rt, section.piece(0), section.piece(1));
}

#[test]
fn imports() {
    let rt = crate::host::HostRuntime;
    let ty = EntityType::Function(0);
    let single = Import {
        module: "m",
        name: "",
        ty: EntityType::Function(5),
    };
    check_import(
        &rt,
        rt.alloc(),
        Imports::Single(single),
        &[6, 1, 1, b'm', 0, 0, 5],
    );
    let items = [ImportCompact { name: "a", ty }];
    let named = Imports::Compact1 {
        module: "m",
        items: CowSlice::Borrowed(&items),
    };
    check_import(
        &rt,
        rt.alloc(),
        named,
        &[10, 1, 1, b'm', 0, 127, 1, 1, b'a', 0, 0],
    );
    let none = Imports::Compact1 {
        module: "m",
        items: CowSlice::Borrowed(&[]),
    };
    check_import(&rt, rt.alloc(), none, &[6, 1, 1, b'm', 0, 127, 0]);
    let unnamed = Imports::Compact1 {
        module: "",
        items: CowSlice::Borrowed(&[]),
    };
    check_import(&rt, rt.alloc(), unnamed, &[5, 1, 0, 0, 127, 0]);
    let alike = Imports::Compact2 {
        module: "m",
        ty,
        names: CowSlice::Borrowed(&["a", "b"]),
    };
    check_import(
        &rt,
        rt.alloc(),
        alike,
        &[12, 1, 1, b'm', 0, 126, 0, 0, 2, 1, b'a', 1, b'b'],
    )
}

#[test]
fn owned_groups() {
    let rt = crate::host::HostRuntime;
    let ty = EntityType::Function(0);
    let named = Imports::Compact1 {
        module: "m",
        items: CowSlice::Owned(Vec::from_slice(
            rt.alloc(),
            &[ImportCompact { name: "a", ty }],
        ).expect("accepted")),
    };
    check_import(
        &rt,
        rt.alloc(),
        named,
        &[10, 1, 1, b'm', 0, 127, 1, 1, b'a', 0, 0],
    );
    let alike = Imports::Compact2 {
        module: "m",
        ty,
        names: CowSlice::Owned(Vec::from_slice(rt.alloc(), &["a", "b"]).expect("accepted")),
    };
    check_import(
        &rt,
        rt.alloc(),
        alike,
        &[12, 1, 1, b'm', 0, 126, 0, 0, 2, 1, b'a', 1, b'b'],
    )
}

/// Checks the bytes of an import of the type after its names.
fn check_entity(rt: &impl Abort, alloc: Global, ty: EntityType, expected: &[u8]) {
    let mut section = ImportSection::new(alloc);
    section.import("m", "f", ty).expect("accepted");
    let entry = section.piece(0).unwrap_or(&[]);
    check_bytes(rt, &entry[4.min(entry.len())..], expected);
}

#[test]
fn entities() {
    let rt = crate::host::HostRuntime;
    for (ty, expected) in [
        (EntityType::Function(128), [0, 128, 1].as_slice()),
        (EntityType::from(TABLE), &[1, 112, 0, 128, 1]),
        (EntityType::from(MEMORY), &[2, 0, 1]),
        (EntityType::from(SET_GLOBAL), &[3, 126, 3]),
        (EntityType::from(TAG), &[4, 0, 3]),
        (EntityType::FunctionExact(5), &[32, 5]),
    ] {
        check_entity(&rt, rt.alloc(), ty, expected);
    }
}

#[test]
fn imported() {
    let rt = crate::host::HostRuntime;
    let mut section = ImportSection::new(rt.alloc());
    section
        .import("", "", EntityType::Function(0))
        .expect("accepted");
    check(&rt, rt.alloc(), &section, 2, &[5, 1, 0, 0, 0, 0]);
    let mut section = ImportSection::new(rt.alloc());
    section
        .import("m", "f", EntityType::FunctionExact(5))
        .expect("accepted");
    check(
        &rt,
        rt.alloc(),
        &section,
        2,
        &[7, 1, 1, b'm', 1, b'f', 32, 5],
    );
    let mut section = ImportSection::new(rt.alloc());
    section
        .import("env", "memory", EntityType::Memory(MEMORY))
        .expect("accepted");
    check(
        &rt,
        rt.alloc(),
        &section,
        2,
        b"\x0F\x01\x03env\x06memory\x02\x00\x01",
    )
}

#[test]
fn numbers() {
    let rt = crate::host::HostRuntime;
    let start = StartSection {
        function_index: 300,
    };
    check(&rt, rt.alloc(), &start, 8, &[2, 0xAC, 2]);
    check(
        &rt,
        rt.alloc(),
        &DataCountSection { count: 128 },
        12,
        &[2, 128, 1],
    )
}

#[test]
fn from_callers() {
    let rt = crate::host::HostRuntime;
    let mut sink = Vec::new(rt.alloc());
    encode_copied(&mut sink, 0).expect("accepted");
    check_bytes(&rt, &sink, &[6, 1, 127, 0, 35, 0, 11]);
    sink.clear();
    encode_null_tables(&mut sink, 0).expect("accepted");
    let expected = [12, 2, 112, 0, 0, 64, 0, 112, 0, 0, 208, 112, 11];
    check_bytes(&rt, &sink, &expected);
}

#[test]
fn laws_do_nothing() {
    laws::sections();
    laws::padded();
    laws::calls();
    laws::padded_calls();
    laws::given_elements::<Global>();
    laws::payloads();
    laws::padded_payloads();
    laws::rejections();
}

/// Neither do the laws of lower crates that callers cite.
#[test]
fn laws_for_callers_do_nothing() {
    dolzhytik::fallible::laws::base::payloads();
    dolzhytik::fallible::laws::base::padded_payloads();
    dolzhytik::fallible::laws::code::payloads();
    dolzhytik::fallible::laws::code::padded_payloads();
    dolzhytik::fallible::laws::code::calls::<Global>();
    dolzhytik::fallible::laws::code::padded_calls::<Global>();
    laws::plain_export(&Export {
        name: "f",
        kind: ExportKind::Func,
        index: 1,
    });
    laws::plain_table(TABLE);
    laws::plain_memory(MEMORY);
    laws::plain_global(GLOBAL);
    laws::plain_entity(EntityType::Function(1));
    dolzhytik::fallible::laws::insn::plain_instructions::<Global>(&[Instruction::Nop]);
}
