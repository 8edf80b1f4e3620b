// Written by tools/to-rust from crates/wasm_sections/src/walk.rt: change that.
// Walks over the items of sections.

use crate::vec::{Sink, Vec};
use crate::sections::data::{Segment, has_index};
use crate::sections::element_items::{ElementFlag, ElementItem};
use crate::sections::export::Export;
use crate::sections::global::{GlobalItem, GlobalType};
use crate::sections::import::{EntityType, Imports, group_kind};
use crate::sections::memory::MemoryType;
use crate::sections::table::{BEFORE_INIT, TableItem, TableType};
use crate::sections::tag::TagType;
use crate::alloc::Allocator;
use crate::base::{CORE_FUNCTION_EXACT_SORT, CORE_FUNCTION_SORT, CORE_GLOBAL_SORT, CORE_MEMORY_SORT, CORE_TABLE_SORT, CORE_TAG_SORT, Canonical, DecodeError, Effect, Encode, EncodeIn, Grammar, Optional, ReadFault, Readable, RefType, Result, SizedBytes, ValType, Walk, walk_in, walk_value};
use crate::code::Expression;

impl Canonical for MemoryType {
    fn canonical() {}
}

impl<G: Grammar> Walk<G> for MemoryType {
    fn walk<'a, A: Allocator + Copy, E: Effect>(
        bytes: &'a [u8],
        alloc: A,
        effect: &mut E,
    ) -> Result<&'a [u8], DecodeError> {
        walk_value::<MemoryType, A, G, _>(bytes, alloc, effect)
    }
}

impl Canonical for TagType {
    fn canonical() {}
}

impl<G: Grammar> Walk<G> for TagType {
    fn walk<'a, A: Allocator + Copy, E: Effect>(
        bytes: &'a [u8],
        alloc: A,
        effect: &mut E,
    ) -> Result<&'a [u8], DecodeError> {
        walk_value::<TagType, A, G, _>(bytes, alloc, effect)
    }
}

impl Canonical for Export<'_> {
    /// # Proved
    ///
    /// Whatever bytes a value decodes from, its encoding is the minimal one in the same grammar.
    ///
    /// ```text
    /// ensures { EncodesMinimally export item_of export_encoding }
    /// ```
    ///
    /// Definitions: [`EncodesMinimally`](crate::definitions::base::minimal::EncodesMinimally), [`export`](crate::definitions::sections::exports::export), [`item_of`](crate::definitions::sections::exports::item_of), [`export_encoding`](crate::definitions::sections::exports::export_encoding). [How to read clauses](crate::definitions).
    fn canonical() {}
}

impl<'s, G: Grammar> Walk<G> for Export<'s> {
    /// # Proved
    ///
    /// After `Ok`: `found`, the bytes begin with an encoding, the effect takes the minimal one, and the returned bytes follow it. After an error: `none`, the bytes do not begin with such an encoding, unless the cause is `Memory`; `no_memory`, the cause is `Memory` only with an effect whose calls may fail. In any case: `front`, the effect keeps what it took before.
    ///
    /// ```text
    /// ensures found { IfOk result
    ///     (λ rest. Walks E.seen G.grammar export bytes.now rest.now effect.old effect.new) }
    /// ensures none { IfErr result
    ///     (λ e. e.cause ≢ Memory → Rejects export (padded_of G.grammar) bytes.now) }
    /// ensures no_memory { IfErr result (λ e. e.cause ≡ Memory → E.may_fail) }
    /// ensures front { Keeps E.seen effect.old effect.new }
    /// ```
    ///
    /// Definitions: [`Walks`](crate::definitions::base::walks::Walks), [`export`](crate::definitions::sections::exports::export), [`Rejects`](crate::definitions::base::decoding::Rejects), [`padded_of`](crate::definitions::base::numbers::padded_of), [`Keeps`](crate::definitions::base::walks::Keeps). [How to read clauses](crate::definitions).
    fn walk<'a, A: Allocator + Copy, E: Effect>(
        bytes: &'a [u8],
        alloc: A,
        effect: &mut E,
    ) -> Result<&'a [u8], DecodeError> {
        walk_value::<Export<'a>, A, G, _>(bytes, alloc, effect)
    }
}

/// # Defined
///
/// ```text
/// encoding_in = { global_encoding_in G.grammar }
/// ```
///
/// Definitions: [`global_encoding_in`](crate::definitions::sections::globals::global_encoding_in). [How to read clauses](crate::definitions).
impl<G: Grammar> EncodeIn<G> for GlobalType {
    fn encode_in<A: Sink>(&self, sink: &mut A) -> Result<()> {
        <ValType as EncodeIn<G>>::encode_in(&self.val_type, sink)?;
        self.flags().encode(sink)
    }

    fn minimal_in() {}
}

impl<G: Grammar> Walk<G> for GlobalType {
    fn walk<'a, A: Allocator + Copy, E: Effect>(
        bytes: &'a [u8],
        alloc: A,
        effect: &mut E,
    ) -> Result<&'a [u8], DecodeError> {
        walk_in::<GlobalType, A, G, _>(bytes, alloc, effect)
    }
}

impl<G: Grammar, C: Allocator> Walk<G> for GlobalItem<C> {
    fn walk<'a, A: Allocator + Copy, E: Effect>(
        bytes: &'a [u8],
        alloc: A,
        effect: &mut E,
    ) -> Result<&'a [u8], DecodeError> {
        let rest = <(GlobalType, Expression<C>) as Walk<G>>::walk(bytes, alloc, effect)?;
        Ok(rest)
    }
}

/// # Defined
///
/// ```text
/// encoding_in = { table_encoding_in G.grammar }
/// ```
///
/// Definitions: [`table_encoding_in`](crate::definitions::sections::tables::table_encoding_in). [How to read clauses](crate::definitions).
impl<G: Grammar> EncodeIn<G> for TableType {
    fn encode_in<A: Sink>(&self, sink: &mut A) -> Result<()> {
        <RefType as EncodeIn<G>>::encode_in(&self.element_type, sink)?;
        (self.flags(), self.minimum, Optional(self.maximum)).encode(sink)
    }

    fn minimal_in() {}
}

impl<G: Grammar> Walk<G> for TableType {
    fn walk<'a, A: Allocator + Copy, E: Effect>(
        bytes: &'a [u8],
        alloc: A,
        effect: &mut E,
    ) -> Result<&'a [u8], DecodeError> {
        walk_in::<TableType, A, G, _>(bytes, alloc, effect)
    }
}

impl<G: Grammar, C: Allocator> Walk<G> for TableItem<C> {
    fn walk<'a, A: Allocator + Copy, E: Effect>(
        bytes: &'a [u8],
        alloc: A,
        effect: &mut E,
    ) -> Result<&'a [u8], DecodeError> {
        let (first, rest) = <u8 as Readable<'a, A, G>>::read(bytes, alloc)?;
        if first != 0x40 {
            let rest = <TableType as Walk<G>>::walk(bytes, alloc, effect)?;
            return Ok(rest);
        }
        let (second, rest) = <u8 as Readable<'a, A, G>>::read(rest, alloc)?;
        if second != 0x00 {
            return Err(ReadFault::UnknownTag.just_before(rest));
        }
        effect.put(&BEFORE_INIT)?;
        let rest = <(TableType, Expression<C>) as Walk<G>>::walk(rest, alloc, effect)?;
        Ok(rest)
    }
}

/// Walks over the bytes of a data segment, with their size prefix.
fn walk_bytes<'a, A: Allocator + Copy, G: Grammar, E: Effect>(
    bytes: &'a [u8],
    alloc: A,
    effect: &mut E,
) -> Result<&'a [u8], DecodeError> {
    let (content, rest) = <&'a [u8] as Readable<'a, A, G>>::read(bytes, alloc)?;
    effect.put(&SizedBytes(content))?;
    Ok(rest)
}

/// Walks over the offset of a data segment, and then its bytes.
fn walk_placed<'a, A: Allocator + Copy, G: Grammar, E: Effect>(
    bytes: &'a [u8],
    alloc: A,
    effect: &mut E,
) -> Result<&'a [u8], DecodeError> {
    let after = <Expression<A> as Walk<G>>::walk(bytes, alloc, effect)?;
    let rest = walk_bytes::<A, G, _>(after, alloc, effect)?;
    Ok(rest)
}

/// The effect takes flag 0 for an active segment of memory 0, whatever flag it was decoded from.
impl<'s, G: Grammar, C: Allocator> Walk<G> for Segment<'s, C> {
    /// # Proved
    ///
    /// After `Ok`: `found`, the bytes begin with an encoding, the effect takes the minimal one, and the returned bytes follow it. After an error: `none`, the bytes do not begin with such an encoding, unless the cause is `Memory`; `no_memory`, the cause is `Memory` only with an effect whose calls may fail. In any case: `front`, the effect keeps what it took before.
    ///
    /// ```text
    /// ensures found { IfOk result
    ///     (λ rest. Walks E.seen G.grammar data_item bytes.now rest.now effect.old effect.new)
    ///     }
    /// ensures none { IfErr result
    ///     (λ e. e.cause ≢ Memory → Rejects data_item (padded_of G.grammar) bytes.now) }
    /// ensures no_memory { IfErr result (λ e. e.cause ≡ Memory → E.may_fail) }
    /// ensures front { Keeps E.seen effect.old effect.new }
    /// ```
    ///
    /// Definitions: [`Walks`](crate::definitions::base::walks::Walks), [`data_item`](crate::definitions::sections::data_segments::data_item), [`Rejects`](crate::definitions::base::decoding::Rejects), [`padded_of`](crate::definitions::base::numbers::padded_of), [`Keeps`](crate::definitions::base::walks::Keeps). [How to read clauses](crate::definitions).
    fn walk<'a, A: Allocator + Copy, E: Effect>(
        bytes: &'a [u8],
        alloc: A,
        effect: &mut E,
    ) -> Result<&'a [u8], DecodeError> {
        let (flag, rest) = <u32 as Readable<'a, A, G>>::read(bytes, alloc)?;
        match flag {
            0 => {
                effect.put(&0u32)?;
                let rest = walk_placed::<A, G, _>(rest, alloc, effect)?;
                Ok(rest)
            }
            1 => {
                effect.put(&1u32)?;
                let rest = walk_bytes::<A, G, _>(rest, alloc, effect)?;
                Ok(rest)
            }
            2 => {
                let (memory, rest) = <u32 as Readable<'a, A, G>>::read(rest, alloc)?;
                if !has_index::<G>(memory) {
                    return Err(ReadFault::UnknownTag.just_before(rest));
                }
                put_memory(memory, effect)?;
                let rest = walk_placed::<A, G, _>(rest, alloc, effect)?;
                Ok(rest)
            }
            _ => Err(ReadFault::UnknownTag.just_before(rest)),
        }
    }
}

/// Gives the effect the flag of an active segment, and the memory's index unless it is 0.
fn put_memory<E: Effect>(memory: u32, effect: &mut E) -> Result<()> {
    if memory == 0 {
        effect.put(&0u32)
    } else {
        effect.put(&(2u32, memory))
    }
}

/// Walks over the mode of an element segment.
fn walk_segment_mode<'a, A: Allocator + Copy, G: Grammar, E: Effect>(
    flag: ElementFlag,
    bytes: &'a [u8],
    alloc: A,
    effect: &mut E,
) -> Result<&'a [u8], DecodeError> {
    match (flag.not_active, flag.second) {
        (true, true) => Ok(bytes),
        (true, false) => Ok(bytes),
        (false, true) => {
            let rest = <(u32, Expression<A>) as Walk<G>>::walk(bytes, alloc, effect)?;
            Ok(rest)
        }
        (false, false) => {
            let rest = <Expression<A> as Walk<G>>::walk(bytes, alloc, effect)?;
            Ok(rest)
        }
    }
}

/// Walks over elements that are functions.
fn walk_functions<'a, A: Allocator + Copy, G: Grammar, E: Effect>(
    explicit: bool,
    bytes: &'a [u8],
    alloc: A,
    effect: &mut E,
) -> Result<&'a [u8], DecodeError> {
    if explicit {
        let (kind, rest) = <u8 as Readable<'a, A, G>>::read(bytes, alloc)?;
        if kind != 0x00 {
            return Err(ReadFault::UnknownTag.just_before(rest));
        }
        effect.put(&0x00u8)?;
        let rest = <Vec<u32, A> as Walk<G>>::walk(rest, alloc, effect)?;
        return Ok(rest);
    }
    let rest = <Vec<u32, A> as Walk<G>>::walk(bytes, alloc, effect)?;
    Ok(rest)
}

/// Walks over elements that are expressions.
fn walk_expressions<'a, A: Allocator + Copy, G: Grammar, E: Effect>(
    explicit: bool,
    bytes: &'a [u8],
    alloc: A,
    effect: &mut E,
) -> Result<&'a [u8], DecodeError> {
    if explicit {
        let after = <RefType as Walk<G>>::walk(bytes, alloc, effect)?;
        let rest = <Vec<Expression<A>, A> as Walk<G>>::walk(after, alloc, effect)?;
        return Ok(rest);
    }
    let rest = <Vec<Expression<A>, A> as Walk<G>>::walk(bytes, alloc, effect)?;
    Ok(rest)
}

/// Walks over the elements of a segment.
fn walk_elements<'a, A: Allocator + Copy, G: Grammar, E: Effect>(
    explicit: bool,
    of_expressions: bool,
    bytes: &'a [u8],
    alloc: A,
    effect: &mut E,
) -> Result<&'a [u8], DecodeError> {
    if of_expressions {
        walk_expressions::<A, G, _>(explicit, bytes, alloc, effect)
    } else {
        walk_functions::<A, G, _>(explicit, bytes, alloc, effect)
    }
}

impl<G: Grammar, C: Allocator> Walk<G> for ElementItem<C> {
    fn walk<'a, A: Allocator + Copy, E: Effect>(
        bytes: &'a [u8],
        alloc: A,
        effect: &mut E,
    ) -> Result<&'a [u8], DecodeError> {
        let (flag, rest) = <ElementFlag as Readable<'a, A, G>>::read(bytes, alloc)?;
        effect.put(&flag.code())?;
        let rest = walk_segment_mode::<A, G, _>(flag, rest, alloc, effect)?;
        let rest = walk_elements::<A, G, _>(
            flag.has_kind(),
            flag.expressions,
            rest,
            alloc,
            effect,
        )?;
        Ok(rest)
    }
}

/// # Defined
///
/// ```text
/// encoding_in = { entity_encoding_in G.grammar }
/// ```
///
/// Definitions: [`entity_encoding_in`](crate::definitions::sections::imports::entity_encoding_in). [How to read clauses](crate::definitions).
impl<G: Grammar> EncodeIn<G> for EntityType {
    fn encode_in<A: Sink>(&self, sink: &mut A) -> Result<()> {
        match *self {
            EntityType::Function(index) => (CORE_FUNCTION_SORT, index).encode(sink),
            EntityType::Table(ty) => {
                CORE_TABLE_SORT.encode(sink)?;
                <TableType as EncodeIn<G>>::encode_in(&ty, sink)
            }
            EntityType::Memory(ty) => (CORE_MEMORY_SORT, ty).encode(sink),
            EntityType::Global(ty) => {
                CORE_GLOBAL_SORT.encode(sink)?;
                <GlobalType as EncodeIn<G>>::encode_in(&ty, sink)
            }
            EntityType::Tag(ty) => (CORE_TAG_SORT, ty).encode(sink),
            EntityType::FunctionExact(index) => (CORE_FUNCTION_EXACT_SORT, index).encode(sink),
        }
    }

    fn minimal_in() {}
}

impl<G: Grammar> Walk<G> for EntityType {
    fn walk<'a, A: Allocator + Copy, E: Effect>(
        bytes: &'a [u8],
        alloc: A,
        effect: &mut E,
    ) -> Result<&'a [u8], DecodeError> {
        walk_in::<EntityType, A, G, _>(bytes, alloc, effect)
    }
}

impl<'s, G: Grammar, C: Allocator> Walk<G> for Imports<'s, C> {
    /// # Proved
    ///
    /// After `Ok`: `found`, the bytes begin with an encoding, the effect takes the minimal one, and the returned bytes follow it. After an error: `none`, the bytes do not begin with such an encoding, unless the cause is `Memory`; `no_memory`, the cause is `Memory` only with an effect whose calls may fail. In any case: `front`, the effect keeps what it took before.
    ///
    /// ```text
    /// ensures found { IfOk result
    ///     (λ rest. Walks E.seen G.grammar import_format bytes.now rest.now effect.old
    ///         effect.new) }
    /// ensures none { IfErr result
    ///     (λ e. e.cause ≢ Memory → Rejects import_format (padded_of G.grammar) bytes.now) }
    /// ensures no_memory { IfErr result (λ e. e.cause ≡ Memory → E.may_fail) }
    /// ensures front { Keeps E.seen effect.old effect.new }
    /// ```
    ///
    /// Definitions: [`Walks`](crate::definitions::base::walks::Walks), [`import_format`](crate::definitions::sections::imports::import_format), [`Rejects`](crate::definitions::base::decoding::Rejects), [`padded_of`](crate::definitions::base::numbers::padded_of), [`Keeps`](crate::definitions::base::walks::Keeps). [How to read clauses](crate::definitions).
    fn walk<'a, A: Allocator + Copy, E: Effect>(
        bytes: &'a [u8],
        alloc: A,
        effect: &mut E,
    ) -> Result<&'a [u8], DecodeError> {
        let rest = <&'a str as Walk<G>>::walk(bytes, alloc, effect)?;
        let Some((kind, group)) = group_kind::<G>(rest) else {
            let after = <&'a str as Walk<G>>::walk(rest, alloc, effect)?;
            let rest = <EntityType as Walk<G>>::walk(after, alloc, effect)?;
            return Ok(rest);
        };
        effect.put(&[0x00u8, kind])?;
        match kind {
            0x7F => {
                let rest = <Vec<(&'a str, EntityType), A> as Walk<G>>::walk(group, alloc, effect)?;
                Ok(rest)
            }
            0x7E => {
                let after = <EntityType as Walk<G>>::walk(group, alloc, effect)?;
                let rest = <Vec<&'a str, A> as Walk<G>>::walk(after, alloc, effect)?;
                Ok(rest)
            }
            _ => Err(ReadFault::UnknownTag.just_before(group)),
        }
    }
}
