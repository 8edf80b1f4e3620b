// Written by tools/to-rust from crates/wasm_sections/src/data.rt: change that.
// The data section: its builder and its reader.

use crate::vec::{Sink, Vec};
use crate::sections::counted_section::{CountedSection, ItemKind};
use crate::alloc::{Allocator, Global};
use crate::base::{DecodeError, Encode, Grammar, Kind, Layout, Lent, Pieces, ReadFault, Readable, Result, SectionId, Shorten, Store, bytes_of, encode_size_prefixed, read_whole};
use crate::code::{ConstExpr, Expression};

/// The data section: segments of bytes that a module copies to memories.
///
/// ```
/// # fn example() -> Result<(), Box<dyn std::error::Error>> {
/// # use dolzhytik::{fallible::*, reader::*};
/// use dolzhytik::fallible::{ConstExpr, DataSection, Global, Module};
///
/// let mut module = Module::new(Global)?;
/// let bytes = *b"\0\x01";
/// let mut data = DataSection::new(Global);
/// data.active(0, &ConstExpr::i32_const(Global, 42)?, b"hello".iter().copied())?;
/// data.passive(bytes)?;
/// module.section(&data)?;
/// # Ok(())
/// # }
/// # example().unwrap();
/// ```
pub type DataSection<A = Global> = CountedSection<DataItems, Pieces<A>>;

/// The kind of a data section's items: segments of bytes.
///
/// # Examples
///
/// ```
/// use dolzhytik::fallible::{DataItems, DataSection, Global, ItemKind};
///
/// let section = DataSection::new(Global);
/// assert_eq!((section.len(), DataItems::id()), (0, 11));
/// ```
#[derive(Clone, Copy, Debug)]
pub struct DataItems;

/// The mode of a data segment: when its bytes are copied to a memory.
///
/// It is a field of [`DataSegment`](crate::fallible::DataSegment).
///
/// # Examples
///
/// ```
/// use dolzhytik::fallible::{
///     ConstExpr, DataSection, DataSegment, DataSegmentMode, Global,
/// };
///
/// let offset = ConstExpr::i32_const(Global, 8)?;
/// let mode = DataSegmentMode::Active { memory_index: 0, offset: &offset };
/// let mut section = DataSection::new(Global);
/// section.segment(DataSegment { mode, bytes: *b"hi" })?;
/// // Active in memory 0: 0. i32.const 8 and end: 41 08 0B. Two bytes.
/// assert_eq!(section.piece(0), Some(&[0, 0x41, 8, 0x0B, 2, b'h', b'i'][..]));
/// # Ok::<(), dolzhytik::fallible::Refused>(())
/// ```
#[derive(Debug)]
pub enum DataSegmentMode<'a, A: Allocator = Global> {
    /// The bytes are copied when the module is instantiated.
    Active {
        /// The index of the memory.
        memory_index: u32,
        /// Computes the offset of the first byte in the memory.
        offset: &'a ConstExpr<A>,
    },
    /// The bytes are copied by an instruction `MemoryInit`.
    Passive,
}

/// A data segment, whose bytes an iterator yields.
///
/// [`DataSection`](crate::fallible::DataSection) takes it in `segment`.
///
/// # Examples
///
/// ```
/// use dolzhytik::fallible::{DataSection, DataSegment, DataSegmentMode, Global};
///
/// let mut section = DataSection::new(Global);
/// let mode: DataSegmentMode<'_> = DataSegmentMode::Passive;
/// section.segment(DataSegment { mode, bytes: *b"hi" })?;
/// // Passive: 1. Two bytes.
/// assert_eq!(section.piece(0), Some(&[1, 2, b'h', b'i'][..]));
/// # Ok::<(), dolzhytik::fallible::Refused>(())
/// ```
#[derive(Debug)]
pub struct DataSegment<'a, D, A: Allocator = Global> {
    /// Whether instantiation copies the bytes into a memory.
    pub mode: DataSegmentMode<'a, A>,
    /// The bytes.
    pub bytes: D,
}

impl<'a, A: Allocator> DataSegmentMode<'a, A> {
    /// Returns the same mode.
    ///
    /// # Errors
    ///
    /// Returns [`Memory`](crate::fallible::Refused::Memory) if an allocation fails.
    ///
    /// # Proved
    ///
    /// After `Ok`: `same`, the result equals the value. In any case: `memory`, no error is `TooLong`.
    ///
    /// ```text
    /// ensures same { IfOk result (λ mode. mode ≡ self.now) }
    /// ensures memory { result ≢ Err TooLong }
    /// ```
    ///
    /// [How to read clauses](crate::definitions).
    pub fn clone(&self) -> Result<Self> {
        Ok(match self {
            DataSegmentMode::Active {
                memory_index,
                offset,
            } => DataSegmentMode::Active {
                memory_index: *memory_index,
                offset,
            },
            DataSegmentMode::Passive => DataSegmentMode::Passive,
        })
    }
}

impl<'a, D: Clone, A: Allocator> DataSegment<'a, D, A> {
    /// Returns the same segment: its mode, and a clone of its bytes.
    ///
    /// # Errors
    ///
    /// Returns [`Memory`](crate::fallible::Refused::Memory) if an allocation fails.
    ///
    /// # Proved
    ///
    /// After `Ok`: `mode`, the result has the same mode; `bytes`, its bytes are a clone, as the type of the bytes defines it. In any case: `memory`, no error is `TooLong`.
    ///
    /// ```text
    /// ensures mode { IfOk result (λ segment. segment.mode ≡ self.now.mode) }
    /// ensures bytes { IfOk result (λ segment. D.is_clone self.now.bytes segment.bytes) }
    /// ensures memory { result ≢ Err TooLong }
    /// ```
    ///
    /// [How to read clauses](crate::definitions).
    pub fn clone(&self) -> Result<Self> {
        Ok(DataSegment {
            mode: self.mode.clone()?,
            bytes: self.bytes.clone(),
        })
    }
}

/// # Defined
///
/// ```text
/// Record = { GivenData }
/// Item = { DataItem }
/// kind = { data_items }
/// ```
///
/// Definitions: [`GivenData`](crate::definitions::sections::data_segments::GivenData), [`DataItem`](crate::definitions::sections::data_segments::DataItem), [`data_items`](crate::definitions::sections::data_segments::data_items). [How to read clauses](crate::definitions).
impl Kind for DataItems {
    fn laws() {}
}

/// # Defined
///
/// ```text
/// section_id = { number_of ids.Data }
/// ```
///
/// Definitions: [`number_of`](crate::definitions::base::section_id::number_of). [How to read clauses](crate::definitions).
impl ItemKind for DataItems {
    fn id() -> u8 {
        SectionId::Data.into()
    }
}

/// Adding calls. A segment is a flag, the memory if it is not 0, the offset of an active segment,
/// and the bytes. Core specification, Binary Format, Modules, Data Section.
impl<S: Store> CountedSection<DataItems, S> {
    /// Adds a segment.
    ///
    /// If there are more than 4294967295 bytes, the call returns `TooLong` and requests none of
    /// them, as tests show.
    ///
    /// # Errors
    ///
    /// Returns [`TooLong`](crate::fallible::Refused::TooLong) if the builder has 4294967295
    /// entries, or if a count or length would pass 4294967295, and
    /// [`Memory`](crate::fallible::Refused::Memory) if an allocation fails. The builder is then
    /// unchanged.
    ///
    /// # Asks
    ///
    /// The iterator ends, and yields as many items as it reports. [What happens otherwise](crate::fallible#what-is-asked).
    ///
    /// ```text
    /// requires { HasKnownLength D.into_iter_gives D.IntoIter.can_next D.IntoIter.next_gives
    ///     D.IntoIter.remaining segment.bytes }
    /// ```
    ///
    /// Definitions: [`HasKnownLength`](crate::definitions::base::iterators::HasKnownLength). [How to read clauses](crate::definitions).
    ///
    /// # Proved
    ///
    /// The section gains one entry with the bytes that the iterator yields, or the call returns an error and changes nothing. It returns `TooLong` if the section is full or the iterator reports more than 2^32 - 1 remaining bytes, and otherwise not.
    ///
    /// ```text
    /// ensures { AddsBytes S.model D.into_iter_gives D.IntoIter.next_gives D.IntoIter.remaining
    ///     segment.entry.bytes (segment_encoding segment.entry.mode) self.old self.new result }
    /// ```
    ///
    /// Definitions: [`AddsBytes`](crate::definitions::sections::data_segments::AddsBytes), [`segment_encoding`](crate::definitions::sections::data_segments::segment_encoding). [How to read clauses](crate::definitions).
    pub fn segment<D: IntoIterator<Item = u8>, B: Allocator>(
        &mut self,
        segment: DataSegment<'_, D, B>,
    ) -> Result<()>
    where
        D::IntoIter: ExactSizeIterator,
    {
        let DataSegment { mode, bytes } = segment;
        match mode {
            DataSegmentMode::Active {
                memory_index,
                offset,
            } => self.active(memory_index, offset, bytes),
            DataSegmentMode::Passive => self.passive(bytes),
        }
    }

    /// Adds a segment whose bytes are copied to this memory when the module is instantiated.
    ///
    /// If there are more than 4294967295 bytes, the call returns `TooLong`.
    ///
    /// # Errors
    ///
    /// Returns [`TooLong`](crate::fallible::Refused::TooLong) if the builder has 4294967295
    /// entries, or if a count or length would pass 4294967295, and
    /// [`Memory`](crate::fallible::Refused::Memory) if an allocation fails. The builder is then
    /// unchanged.
    ///
    /// # Examples
    ///
    /// ```
    /// use dolzhytik::fallible::{ConstExpr, DataSection, Global};
    ///
    /// let offset = ConstExpr::i32_const(Global, 8)?;
    /// let mut section = DataSection::new(Global);
    /// section.active(0, &offset, *b"hi")?;
    /// section.active(1, &offset, *b"hi")?;
    /// // In memory 0: 0. In another memory: 2, and its index. i32.const 8 and end. Two bytes.
    /// assert_eq!(section.piece(0), Some(&[0, 0x41, 8, 0x0B, 2, b'h', b'i'][..]));
    /// assert_eq!(section.piece(1), Some(&[2, 1, 0x41, 8, 0x0B, 2, b'h', b'i'][..]));
    /// # Ok::<(), dolzhytik::fallible::Refused>(())
    /// ```
    ///
    /// # Asks
    ///
    /// The iterator ends, and yields as many items as it reports. [What happens otherwise](crate::fallible#what-is-asked).
    ///
    /// ```text
    /// requires { HasKnownLength D.into_iter_gives D.IntoIter.can_next D.IntoIter.next_gives
    ///     D.IntoIter.remaining bytes }
    /// ```
    ///
    /// Definitions: [`HasKnownLength`](crate::definitions::base::iterators::HasKnownLength). [How to read clauses](crate::definitions).
    ///
    /// # Proved
    ///
    /// The section gains one entry with the bytes that the iterator yields, or the call returns an error and changes nothing. It returns `TooLong` if the section is full or the iterator reports more than 2^32 - 1 remaining bytes, and otherwise not.
    ///
    /// ```text
    /// ensures { AddsBytes S.model D.into_iter_gives D.IntoIter.next_gives D.IntoIter.remaining
    ///     bytes (active_encoding memory_index offset.now) self.old self.new result }
    /// ```
    ///
    /// Definitions: [`AddsBytes`](crate::definitions::sections::data_segments::AddsBytes), [`active_encoding`](crate::definitions::sections::data_segments::active_encoding). [How to read clauses](crate::definitions).
    pub fn active<D: IntoIterator<Item = u8>, B: Allocator>(
        &mut self,
        memory_index: u32,
        offset: &ConstExpr<B>,
        bytes: D,
    ) -> Result<()>
    where
        D::IntoIter: ExactSizeIterator,
    {
        if memory_index == 0 {
            self.add_bytes((ACTIVE, Lent(offset)), bytes)
        } else {
            self.add_bytes((ACTIVE_IN_MEMORY, memory_index, Lent(offset)), bytes)
        }
    }

    /// Adds a segment whose bytes are copied to a memory by an instruction.
    ///
    /// If there are more than 4294967295 bytes, the call returns `TooLong`.
    ///
    /// # Errors
    ///
    /// Returns [`TooLong`](crate::fallible::Refused::TooLong) if the builder has 4294967295
    /// entries, or if a count or length would pass 4294967295, and
    /// [`Memory`](crate::fallible::Refused::Memory) if an allocation fails. The builder is then
    /// unchanged.
    ///
    /// # Examples
    ///
    /// ```
    /// use dolzhytik::fallible::{DataSection, Global};
    ///
    /// let mut section = DataSection::new(Global);
    /// section.passive(*b"hi")?;
    /// // Passive: 1. Two bytes.
    /// assert_eq!(section.piece(0), Some(&[1, 2, b'h', b'i'][..]));
    /// # Ok::<(), dolzhytik::fallible::Refused>(())
    /// ```
    ///
    /// # Asks
    ///
    /// The iterator ends, and yields as many items as it reports. [What happens otherwise](crate::fallible#what-is-asked).
    ///
    /// ```text
    /// requires { HasKnownLength D.into_iter_gives D.IntoIter.can_next D.IntoIter.next_gives
    ///     D.IntoIter.remaining bytes }
    /// ```
    ///
    /// Definitions: [`HasKnownLength`](crate::definitions::base::iterators::HasKnownLength). [How to read clauses](crate::definitions).
    ///
    /// # Proved
    ///
    /// The section gains one entry with the bytes that the iterator yields, or the call returns an error and changes nothing. It returns `TooLong` if the section is full or the iterator reports more than 2^32 - 1 remaining bytes, and otherwise not.
    ///
    /// ```text
    /// ensures { AddsBytes S.model D.into_iter_gives D.IntoIter.next_gives D.IntoIter.remaining
    ///     bytes passive_encoding self.old self.new result }
    /// ```
    ///
    /// Definitions: [`AddsBytes`](crate::definitions::sections::data_segments::AddsBytes), [`passive_encoding`](crate::definitions::sections::data_segments::passive_encoding). [How to read clauses](crate::definitions).
    pub fn passive<D: IntoIterator<Item = u8>>(&mut self, bytes: D) -> Result<()>
    where
        D::IntoIter: ExactSizeIterator,
    {
        self.add_bytes(PASSIVE, bytes)
    }

    /// Adds a segment that is already encoded. The call does not check that it is one.
    ///
    /// # Errors
    ///
    /// Returns [`TooLong`](crate::fallible::Refused::TooLong) if the builder has 4294967295
    /// entries, and [`Memory`](crate::fallible::Refused::Memory) if an allocation fails. The
    /// builder is then unchanged.
    ///
    /// # Proved
    ///
    /// The builder gains one entry with this encoding, or the call returns an error and changes nothing. A full builder, with 2^32 - 1 entries, returns `TooLong`.
    ///
    /// ```text
    /// ensures { AddsTo S.model segment.now ⊤ self.old self.new result }
    /// ```
    ///
    /// Definitions: [`AddsTo`](crate::definitions::base::calls::AddsTo). [How to read clauses](crate::definitions).
    pub fn raw(&mut self, segment: &[u8]) -> Result<()> {
        self.add_piece(segment)
    }

    /// Adds a segment that is encoded as `front` and the size-prefixed bytes.
    #[inline]
    fn add_bytes<F: Encode, D: IntoIterator<Item = u8>>(
        &mut self,
        front: F,
        bytes: D,
    ) -> Result<()>
    where
        D::IntoIter: ExactSizeIterator,
    {
        let bytes = bytes_of(bytes)?;
        self.add_once((front, bytes))
    }
}

// The flags of segments. Core specification, Binary Format, Modules, Data Section.
pub(crate) const ACTIVE: u8 = 0x00;

pub(crate) const PASSIVE: u8 = 0x01;

pub(crate) const ACTIVE_IN_MEMORY: u8 = 0x02;

/// Size-prefixed bytes, as a vector of bytes.
#[derive(Clone, Copy, Debug)]
struct Bytes<'a>(&'a [u8]);

/// # Defined
///
/// ```text
/// Value = { List ℕ }
/// format = { vec byte }
/// view = { λ b. b.0.now }
/// ```
///
/// Definitions: [`vec`](crate::definitions::base::formats::vec), [`byte`](crate::definitions::base::formats::byte). [How to read clauses](crate::definitions).
impl<'a> Layout for Bytes<'a> {
    /// # Proved
    ///
    /// A format whose encodings determine their own end is unambiguous in every mode, with encodings as `HasEncodings` states.
    ///
    /// ```text
    /// ensures { Unambiguous (vec byte) }
    /// ```
    ///
    /// Definitions: [`Unambiguous`](crate::definitions::base::decoding::Unambiguous), [`vec`](crate::definitions::base::formats::vec), [`byte`](crate::definitions::base::formats::byte). [How to read clauses](crate::definitions).
    fn laws() {}
}

/// # Defined
///
/// ```text
/// may_allocate = { ⊥ }
/// ```
///
/// [How to read clauses](crate::definitions).
impl<'a, A: Allocator + Copy, G: Grammar> Readable<'a, A, G> for Bytes<'a> {
    fn read(bytes: &'a [u8], alloc: A) -> Result<(Bytes<'a>, &'a [u8]), DecodeError> {
        let (bytes, rest) = <&'a [u8] as Readable<'a, A, G>>::read(bytes, alloc)?;
        Ok((Bytes(bytes), rest))
    }
}

/// A decoded data segment, whose bytes are a slice of the input.
///
/// [`Items::Segments`](crate::reader::Items::Segments) has them.
///
/// # Examples
///
/// ```
/// use dolzhytik::fallible::Global;
/// use dolzhytik::reader::{Padded, Readable, Segment};
///
/// // Active in memory 0: 0. i32.const 8 and end. Two bytes.
/// let bytes = [0, 0x41, 8, 0x0B, 2, b'h', b'i'];
/// let (segment, _) = <Segment as Readable<Global, Padded>>::read(&bytes, Global)?;
/// assert!(matches!(segment, Segment::Active { memory: 0, bytes: b"hi", .. }));
/// # Ok::<(), dolzhytik::reader::DecodeError>(())
/// ```
#[derive(Debug)]
#[non_exhaustive]
pub enum Segment<'a, A: Allocator = Global> {
    /// The bytes are copied to the memory when the module is instantiated.
    Active {
        /// The index of the memory.
        memory: u32,
        /// Computes the offset of the first byte in the memory.
        offset: Expression<A>,
        /// The bytes.
        bytes: &'a [u8],
    },
    /// The bytes are copied to a memory by an instruction.
    Passive {
        /// The bytes.
        bytes: &'a [u8],
    },
}

/// # Defined
///
/// ```text
/// Value = { DataItem }
/// format = { data_item }
/// view = { segment_view }
/// ```
///
/// Definitions: [`DataItem`](crate::definitions::sections::data_segments::DataItem), [`data_item`](crate::definitions::sections::data_segments::data_item), [`segment_view`](crate::definitions::sections::data_segments::segment_view). [How to read clauses](crate::definitions).
impl<'a, A: Allocator> Layout for Segment<'a, A> {
    /// # Proved
    ///
    /// A format whose encodings determine their own end is unambiguous in every mode, with encodings as `HasEncodings` states.
    ///
    /// ```text
    /// ensures { Unambiguous data_item }
    /// ```
    ///
    /// Definitions: [`Unambiguous`](crate::definitions::base::decoding::Unambiguous), [`data_item`](crate::definitions::sections::data_segments::data_item). [How to read clauses](crate::definitions).
    fn laws() {}
}

/// Returns `true` if the grammar admits this memory after flag 2, where it is explicit. Only the
/// standard's grammar admits memory 0 there.
#[inline]
pub(crate) fn has_index<G: Grammar>(memory: u32) -> bool {
    memory != 0 || G::is_standard()
}

impl<'a, A: Allocator + Copy, G: Grammar> Readable<'a, A, G> for Segment<'a, A> {
    fn read(bytes: &'a [u8], alloc: A) -> Result<(Segment<'a, A>, &'a [u8]), DecodeError> {
        let (flag, rest) = <u32 as Readable<'a, A, G>>::read(bytes, alloc)?;
        match flag {
            0 => {
                let ((offset, Bytes(bytes)), rest) = <(Expression<A>, Bytes<'a>) as Readable<
                    'a,
                    A,
                    G,
                >>::read(rest, alloc)?;
                let memory = 0;
                Ok((
                    Segment::Active {
                        memory,
                        offset,
                        bytes,
                    },
                    rest,
                ))
            }
            1 => {
                let (Bytes(bytes), rest) = <Bytes<'a> as Readable<'a, A, G>>::read(rest, alloc)?;
                Ok((Segment::Passive { bytes }, rest))
            }
            2 => {
                let (memory, rest) = <u32 as Readable<'a, A, G>>::read(rest, alloc)?;
                if !has_index::<G>(memory) {
                    return Err(ReadFault::UnknownTag.just_before(rest));
                }
                let ((offset, Bytes(bytes)), rest) = <(Expression<A>, Bytes<'a>) as Readable<
                    'a,
                    A,
                    G,
                >>::read(rest, alloc)?;
                Ok((
                    Segment::Active {
                        memory,
                        offset,
                        bytes,
                    },
                    rest,
                ))
            }
            _ => Err(ReadFault::UnknownTag.just_before(rest)),
        }
    }
}

/// Decodes the payload of a data section: a count and that many segments, which occupy all of the
/// bytes. Memory grows with the segments that decode, and is not allocated by the count.
///
/// # Errors
///
/// Every error except `Memory` means that the bytes are not such a payload.
///
/// # Examples
///
/// ```
/// use dolzhytik::fallible::{Global, read_segments};
/// use dolzhytik::reader::{Padded, Segment};
///
/// // One segment: passive (1), two bytes.
/// let segments = read_segments::<Global, Padded>(b"\x01\x01\x02hi", Global)?;
/// assert!(matches!(segments[..], [Segment::Passive { bytes: b"hi" }]));
/// # Ok::<(), dolzhytik::reader::DecodeError>(())
/// ```
///
/// # Proved
///
/// After `Ok`: `found`, the bytes as a whole encode the value. After an error: `none`, the bytes as a whole are no such encoding, unless the cause is `Memory`.
///
/// ```text
/// ensures found { IfOk result
///     (λ x. vec data_item (padded_of G.grammar) bytes.now (map segment_view x.items)) }
/// ensures none { IfErr result
///     (λ e. e.cause ≢ Memory → RejectsWhole (vec data_item)
///         (padded_of G.grammar) bytes.now) }
/// ```
///
/// Definitions: [`vec`](crate::definitions::base::formats::vec), [`data_item`](crate::definitions::sections::data_segments::data_item), [`padded_of`](crate::definitions::base::numbers::padded_of), [`segment_view`](crate::definitions::sections::data_segments::segment_view), [`RejectsWhole`](crate::definitions::base::continuing::RejectsWhole). [How to read clauses](crate::definitions).
pub fn read_segments<'a, A: Allocator + Copy + 'a, G: Grammar>(
    bytes: &'a [u8],
    alloc: A,
) -> Result<Vec<Segment<'a, A>, A>, DecodeError> {
    read_whole::<'a, Vec<Segment<'a, A>, A>, A, G>(bytes, alloc)
}

/// Appends the offset and the bytes of a segment.
fn append_placed<A: Allocator, B: Sink>(
    offset: &Expression<A>,
    bytes: &[u8],
    sink: &mut B,
) -> Result<()> {
    offset.write_minimal(sink)?;
    encode_size_prefixed(sink, bytes)
}

/// Appends an active segment. Memory 0 is implied by flag 0, and others are explicit after flag 2.
fn append_active<A: Allocator, B: Sink>(
    memory: u32,
    offset: &Expression<A>,
    bytes: &[u8],
    sink: &mut B,
) -> Result<()> {
    if memory == 0 {
        0u32.encode(sink)?;
        return append_placed(offset, bytes, sink);
    }
    (2u32, memory).encode(sink)?;
    append_placed(offset, bytes, sink)
}

/// # Defined
///
/// ```text
/// grammars = { builders_alone }
/// ```
///
/// Definitions: [`builders_alone`](crate::definitions::base::minimal::Grammars). [How to read clauses](crate::definitions).
impl<'a, A: Allocator> Shorten for Segment<'a, A> {
    fn write_minimal<B: Sink>(&self, sink: &mut B) -> Result<()> {
        match self {
            Segment::Active {
                memory,
                offset,
                bytes,
            } => append_active(*memory, offset, bytes, sink),
            Segment::Passive { bytes } => {
                1u32.encode(sink)?;
                encode_size_prefixed(sink, bytes)
            }
        }
    }
}
