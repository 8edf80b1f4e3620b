// Written by tools/to-rust from tests/wasm_types_tests/src/seen.rtt: change that.
// Decoded types as plain data: an assertion over values that own memory takes far longer to prove.

use dolzhytik::fallible::Global;
use dolzhytik::reader::Padded;
use dolzhytik::fallible::ValType;
use dolzhytik::fallible::{CompositeInnerType, FieldType, read_types};
use dolzhytik::reader::{SubItem, TypeEntry};

/// A composite type's inner type.
#[derive(Clone, Copy, PartialEq, Debug)]
pub(crate) enum Shape {
    /// The numbers of its parameters and results, and the first of each.
    Func(usize, usize, Option<ValType>, Option<ValType>),
    Array(FieldType),
    /// The number of its fields, and the last of them.
    Struct(usize, Option<FieldType>),
    Cont(u32),
}

/// A subtype.
#[derive(Clone, Copy, PartialEq, Debug)]
pub(crate) struct Seen {
    pub(crate) is_final: bool,
    /// The number of its supertypes, and the last of them.
    pub(crate) supertypes: (usize, Option<u32>),
    pub(crate) shared: bool,
    pub(crate) describes: Option<u32>,
    pub(crate) descriptor: Option<u32>,
    pub(crate) shape: Shape,
}

/// A type section of one item.
#[derive(Clone, Copy, PartialEq, Debug)]
pub(crate) enum Section {
    Empty,
    /// A final type of this shape, without supertypes, and not shared.
    Alone(Shape),
    Single(Seen),
    /// The number of types in the group, and the last of them.
    Group(usize, Option<Seen>),
    /// More than one item.
    More(usize),
}

fn shape_seen(inner: &CompositeInnerType) -> Shape {
    match inner {
        CompositeInnerType::Func(ty) => Shape::Func(
            ty.params().len(),
            ty.results().len(),
            ty.params().first().copied(),
            ty.results().first().copied(),
        ),
        CompositeInnerType::Array(ty) => Shape::Array(ty.0),
        CompositeInnerType::Struct(ty) => {
            Shape::Struct(ty.fields.len(), ty.fields.last().copied())
        }
        CompositeInnerType::Cont(ty) => Shape::Cont(ty.0),
    }
}

fn sub_seen(sub: &SubItem) -> Seen {
    Seen {
        is_final: sub.is_final,
        supertypes: (sub.supertypes.len(), sub.supertypes.last().copied()),
        shared: sub.composite_type.shared,
        describes: sub.composite_type.describes,
        descriptor: sub.composite_type.descriptor,
        shape: shape_seen(&sub.composite_type.inner),
    }
}

fn single_seen(seen: Seen) -> Section {
    match seen {
        Seen {
            is_final: true,
            supertypes: (0, _),
            shared: false,
            describes: None,
            descriptor: None,
            shape,
        } => Section::Alone(shape),
        _ => Section::Single(seen),
    }
}

fn entry_seen(entry: &TypeEntry) -> Section {
    match entry {
        TypeEntry::Single(sub) => single_seen(sub_seen(sub)),
        TypeEntry::Group(subs) => Section::Group(subs.len(), subs.last().map(sub_seen)),
    }
}

/// Decodes a type section.
pub(crate) fn read(alloc: Global, bytes: &[u8]) -> Option<Section> {
    match read_types::<Global, Padded>(bytes, alloc) {
        Ok(types) => Some(match types.as_slice() {
            [] => Section::Empty,
            [entry] => entry_seen(entry),
            entries => Section::More(entries.len()),
        }),
        Err(_) => None,
    }
}
