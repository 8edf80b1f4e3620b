//! Entries of sections as the proved calls take them.
use super::{DataSegmentMode, ElementMode, Elements, NONE};
use crate::base::{CowSlice, Encode, EncodeOnce, Lent, Result, encode_vec, vec_of};
use crate::sections::data::{ACTIVE, ACTIVE_IN_MEMORY, PASSIVE};
use crate::sections::{self, CountedSection};
use crate::vec::Sink;
use core::marker::PhantomData;

builders! {
    sections, (const fn) = CountedSection { entries: NONE, kind: PhantomData };
    ImportSection { Clone } { Default } { Section Import } { Debug bytes num_added }
    FunctionSection { Clone } { Default } { Section Function } { Debug bytes num_added }
    TableSection { Clone } { Default } { Section Table } { Debug bytes num_added }
    MemorySection { Clone } { Default } { Section Memory } { Debug bytes num_added }
    TagSection { Clone } { Default } { Section Tag } { Debug bytes num_added }
    GlobalSection { Clone } { Default } { Section Global } { Debug bytes num_added }
    ExportSection { Clone } { Default } { Section Export } { Debug bytes num_added }
    ElementSection { Clone } { Default } { Section Element } { Debug bytes num_added }
    DataSection { Clone } { Default } { Section Data } { Debug bytes num_added }
}

/// A vector of the items of an iterator, which is made and measured when the vector is encoded, and
/// not before: an iterator may share its state with one that is finished first.
pub struct Later<V>(pub V);

impl<V> EncodeOnce for Later<V>
where
    V: IntoIterator<Item: Encode, IntoIter: ExactSizeIterator>,
{
    #[inline(always)]
    fn encode_once<A: Sink>(self, sink: &mut A) -> Result<()> {
        vec_of(self.0)?.encode_once(sink)
    }
}

/// The mode and the elements of a segment, as the proved call encodes them. Expressions are encoded
/// behind a segment without any: its encoding ends with their number, which is one byte.
pub struct Given<'a>(pub ElementMode<'a>, pub Elements<'a>);

impl Encode for Given<'_> {
    #[inline(always)]
    fn encode<A: Sink>(&self, sink: &mut A) -> Result<()> {
        let offset;
        let mode = match &self.0 {
            ElementMode::Passive => sections::ElementMode::Passive,
            ElementMode::Declared => sections::ElementMode::Declared,
            ElementMode::Active { table, offset: at } => {
                let table = *table;
                offset = at.proved();
                let offset = &offset;
                sections::ElementMode::Active { table, offset }
            }
        };
        let (elements, expressions) = match &self.1 {
            Elements::Functions(functions) => {
                let functions = CowSlice::Borrowed(&functions[..]);
                (sections::Elements::Functions(functions), None)
            }
            Elements::Expressions(ty, expressions) => {
                let none = sections::Elements::Expressions(*ty, CowSlice::Borrowed(&[]));
                (none, Some(expressions.iter().map(Lent)))
            }
        };
        sections::ElementSegment { mode, elements }.encode(sink)?;
        if let Some(expressions) = expressions {
            sink.truncate(sink.len() - 1);
            encode_vec(expressions, sink)?;
        }
        Ok(())
    }
}

/// The fields of a segment before its bytes.
pub struct Front<'a>(pub DataSegmentMode<'a>);

impl Encode for Front<'_> {
    #[inline]
    fn encode<A: Sink>(&self, sink: &mut A) -> Result<()> {
        match self.0 {
            DataSegmentMode::Passive => PASSIVE.encode(sink),
            DataSegmentMode::Active {
                memory_index: 0,
                offset,
            } => (ACTIVE, Lent(offset)).encode(sink),
            DataSegmentMode::Active {
                memory_index,
                offset,
            } => (ACTIVE_IN_MEMORY, memory_index, Lent(offset)).encode(sink),
        }
    }
}
