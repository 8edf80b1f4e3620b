// Written by tools/to-rust from crates/wasm_custom/src/segments.rt: change that.
// The segment information of a linking section: its builder, its reader and its minimizer.

use crate::vec::Sink;
use crate::custom::lists::{CountedList, ListKind};
use crate::alloc::{Allocator, Global};
use crate::base::{DecodeError, Grammar, Layout, Pieces, Readable, Result, Shorten, Store};

/// The segments of a module, in the order in which they are added, which is that of the data
/// section. They are encoded as subsection 5 of a linking section.
///
/// ```
/// # fn example() -> Result<(), Box<dyn std::error::Error>> {
/// # use dolzhytik::{fallible::*, reader::*};
/// use dolzhytik::fallible::{Global, SegmentInfos};
///
/// let mut segments = SegmentInfos::new(Global);
/// segments.segment(".rodata.greeting", 0, 0)?;
/// # Ok(())
/// # }
/// # example().unwrap();
/// ```
pub type SegmentInfos<A = Global> = CountedList<SegmentMembers, Pieces<A>>;

/// The kind of the members of a list of segments.
///
/// # Examples
///
/// ```
/// use dolzhytik::fallible::{Global, ListKind, SegmentInfos, SegmentMembers};
///
/// let list = SegmentInfos::new(Global);
/// assert_eq!((list.len(), SegmentMembers::subsection()), (0, Some(5)));
/// ```
#[derive(Clone, Copy, Debug)]
pub struct SegmentMembers;

/// # Defined
///
/// ```text
/// Member = { SegmentModel }
/// member_encoding = { segment_encoding }
/// is_member = { IsSegment }
/// subsection = { Some 5 }
/// ```
///
/// Definitions: [`SegmentModel`](crate::definitions::custom::segments::SegmentInfo), [`segment_encoding`](crate::definitions::custom::segments::segment_encoding), [`IsSegment`](crate::definitions::custom::segments::IsSegment). [How to read clauses](crate::definitions).
impl ListKind for SegmentMembers {
    fn subsection() -> Option<u8> {
        Some(5)
    }
}

impl<S: Store> CountedList<SegmentMembers, S> {
    /// Adds a segment. Its alignment is 2 to the power `alignment`, in bytes.
    ///
    /// # Errors
    ///
    /// Returns [`TooLong`](crate::fallible::Refused::TooLong) if the builder has 4294967295
    /// entries, or if a count or length would pass 4294967295, and
    /// [`Memory`](crate::fallible::Refused::Memory) if an allocation fails. The builder is then
    /// unchanged.
    ///
    /// # Proved
    ///
    /// The builder gains one entry with this encoding, or the call returns an error and changes nothing. A full builder, with 2^32 - 1 entries, returns `TooLong`.
    ///
    /// ```text
    /// ensures { AddsTo S.model
    ///     (size_prefixed_encoding name.now
    ///         ++ (unsigned_encoding alignment ++ unsigned_encoding flags))
    ///     (HasEncodableSize name.now) self.old self.new result }
    /// ```
    ///
    /// Definitions: [`AddsTo`](crate::definitions::base::calls::AddsTo), [`size_prefixed_encoding`](crate::definitions::base::encodings::size_prefixed_encoding), [`unsigned_encoding`](crate::definitions::base::numbers::unsigned_encoding), [`HasEncodableSize`](crate::definitions::base::encodings::HasEncodableSize). [How to read clauses](crate::definitions).
    pub fn segment(&mut self, name: &str, alignment: u32, flags: u32) -> Result<()> {
        self.add_record(&(name, alignment, flags))
    }
}

/// The name, the alignment and the flags of a data segment, for a linker. The segments of a module
/// are listed in the order of its data section.
///
/// It is an item of [`LinkItem::Segments`](crate::reader::LinkItem::Segments).
///
/// # Examples
///
/// ```
/// use dolzhytik::fallible::{Global, SegmentInfo};
/// use dolzhytik::reader::{Readable, Standard};
///
/// // ".data", the alignment 2 (4 bytes), no flags.
/// let bytes = b"\x05.data\x02\0";
/// let (info, _) = <SegmentInfo as Readable<Global, Standard>>::read(bytes, Global)?;
/// assert_eq!((info.name, info.alignment), (".data", 2));
/// # Ok::<(), dolzhytik::reader::DecodeError>(())
/// ```
#[derive(Clone, Copy, Debug)]
pub struct SegmentInfo<'a> {
    /// The name of the segment.
    pub name: &'a str,
    /// The exponent of the alignment: 2 to this power is the alignment in bytes.
    pub alignment: u32,
    /// The flags.
    pub flags: u32,
}

/// # Defined
///
/// ```text
/// Value = { SegmentModel }
/// format = { segment }
/// view = { segment_view }
/// ```
///
/// Definitions: [`SegmentModel`](crate::definitions::custom::segments::SegmentInfo), [`segment`](crate::definitions::custom::segments::segment), [`segment_view`](crate::definitions::custom::segments::segment_view). [How to read clauses](crate::definitions).
impl<'a> Layout for SegmentInfo<'a> {
    /// # Proved
    ///
    /// A format whose encodings determine their own end is unambiguous in every mode, with encodings as `HasEncodings` states.
    ///
    /// ```text
    /// ensures { Unambiguous segment }
    /// ```
    ///
    /// Definitions: [`Unambiguous`](crate::definitions::base::decoding::Unambiguous), [`segment`](crate::definitions::custom::segments::segment). [How to read clauses](crate::definitions).
    fn laws() {}
}

/// # Defined
///
/// ```text
/// may_allocate = { ⊥ }
/// ```
///
/// [How to read clauses](crate::definitions).
impl<'a, A: Allocator + Copy, G: Grammar> Readable<'a, A, G> for SegmentInfo<'a> {
    fn read(bytes: &'a [u8], alloc: A) -> Result<(SegmentInfo<'a>, &'a [u8]), DecodeError> {
        let ((name, (alignment, flags)), rest) = <(&'a str, (u32, u32)) as Readable<
            'a,
            A,
            G,
        >>::read(bytes, alloc)?;
        let segment = SegmentInfo {
            name,
            alignment,
            flags,
        };
        Ok((segment, rest))
    }
}

/// # Defined
///
/// ```text
/// grammars = { both_grammars }
/// ```
///
/// Definitions: [`both_grammars`](crate::definitions::base::minimal::Grammars). [How to read clauses](crate::definitions).
impl<'a> Shorten for SegmentInfo<'a> {
    fn write_minimal<B: Sink>(&self, sink: &mut B) -> Result<()> {
        self.name.write_minimal(sink)?;
        self.alignment.write_minimal(sink)?;
        self.flags.write_minimal(sink)
    }
}
