// Written by tools/to-rust from tests/wasm_types_tests/src/rows.rtt: change that.
// Tests of decoded type sections, without their size prefix.

use crate::seen::{Section, Seen, Shape, read};
use dolzhytik::fallible::Global;
use crate::host::Abort;
use dolzhytik::fallible::ValType;
use dolzhytik::fallible::{FieldType, StorageType};

/// A mutable byte.
const BYTE: FieldType = FieldType {
    element_type: StorageType::I8,
    mutable: true,
};

/// An immutable short.
const SHORT: FieldType = FieldType {
    element_type: StorageType::I16,
    mutable: false,
};

/// An immutable number.
const NUMBER: FieldType = FieldType {
    element_type: StorageType::Val(ValType::I64),
    mutable: false,
};

/// A type with subtypes, and without supertypes.
const OPEN: Seen = Seen {
    is_final: false,
    supertypes: (0, None),
    shared: false,
    describes: None,
    descriptor: None,
    shape: Shape::Array(BYTE),
};

/// A type with subtypes, and two supertypes.
const BELOW_TWO: Seen = Seen {
    is_final: false,
    supertypes: (2, Some(7)),
    shared: false,
    describes: None,
    descriptor: None,
    shape: Shape::Array(BYTE),
};

/// A type without subtypes, and with a supertype.
const BELOW_ONE: Seen = Seen {
    is_final: true,
    supertypes: (1, Some(9)),
    shared: false,
    describes: None,
    descriptor: None,
    shape: Shape::Array(BYTE),
};

/// The bytes, and the decoded section.
type Row = (&'static [u8], Section);

static ROWS: [Row; 19] = [
    (&[0], Section::Empty),
    (&[0x80, 0], Section::Empty),
    (
        &[1, 0x60, 2, 0x7F, 0x7E, 1, 0x7D],
        Section::Alone(Shape::Func(2, 1, Some(ValType::I32), Some(ValType::F32))),
    ),
    (
        &[1, 0x60, 0, 0],
        Section::Alone(Shape::Func(0, 0, None, None)),
    ),
    (
        &[1, 0x60, 0x81, 0, 0x7F, 0x80, 0],
        Section::Alone(Shape::Func(1, 0, Some(ValType::I32), None)),
    ),
    (&[1, 0x5E, 0x78, 1], Section::Alone(Shape::Array(BYTE))),
    (&[1, 0x5E, 0x77, 0], Section::Alone(Shape::Array(SHORT))),
    (&[1, 0x5F, 0], Section::Alone(Shape::Struct(0, None))),
    (
        &[1, 0x5F, 2, 0x78, 1, 0x7E, 0],
        Section::Alone(Shape::Struct(2, Some(NUMBER))),
    ),
    (&[1, 0x5D, 0xC0, 0], Section::Alone(Shape::Cont(64))),
    (&[1, 0x5D, 0x83, 0], Section::Alone(Shape::Cont(3))),
    (&[1, 0x50, 0, 0x5E, 0x78, 1], Section::Single(OPEN)),
    (
        &[1, 0x50, 2, 1, 0x87, 0, 0x5E, 0x78, 1],
        Section::Single(BELOW_TWO),
    ),
    (&[1, 0x4F, 1, 9, 0x5E, 0x78, 1], Section::Single(BELOW_ONE)),
    (
        &[1, 0x65, 0x4C, 2, 0x4D, 0xAC, 2, 0x5D, 1],
        Section::Single(Seen {
            is_final: true,
            supertypes: (0, None),
            shared: true,
            describes: Some(2),
            descriptor: Some(300),
            shape: Shape::Cont(1),
        }),
    ),
    (
        &[1, 0x4D, 5, 0x5D, 1],
        Section::Single(Seen {
            is_final: true,
            supertypes: (0, None),
            shared: false,
            describes: None,
            descriptor: Some(5),
            shape: Shape::Cont(1),
        }),
    ),
    (&[1, 0x4E, 0], Section::Group(0, None)),
    (
        &[1, 0x4E, 2, 0x5D, 1, 0x50, 0, 0x5E, 0x78, 1],
        Section::Group(2, Some(OPEN)),
    ),
    (&[2, 0x60, 0, 0, 0x4E, 0], Section::More(2)),
];

/// Checks the decoded section.
fn check(rt: &impl Abort, alloc: Global, bytes: &[u8], expected: Section) {
    assert_eq!(rt; read(alloc, bytes), Some(expected));
}

#[test]
fn rows() {
    let rt = crate::host::HostRuntime;
    for (bytes, section) in ROWS.iter() {
        check(&rt, rt.alloc(), bytes, *section);
    }
}
