// Written by tools/to-rust from crates/wasm_custom/src/core_stack.rt: change that.
// The stack section of a core dump: its builder, its reader and its minimizer.

use crate::vec::{Sink, Vec};
use crate::custom::core_dumps::append_marked;
use crate::custom::core_values::CoreDumpValue;
use crate::custom::custom_section::CustomSection;
use crate::custom::entries::{data_of, encode_entries};
use crate::custom::marked::read_marked;
use crate::custom::named::after_name;
use crate::alloc::{Allocator, Global};
use crate::base::{CowSlice, CowStr, DecodeError, Encode, Grammar, ItemsOf, Kind, Layout, NewStore, Pieces, Readable, Result, Section, SectionId, Shorten, Store, read_whole, vec_of};

/// The `corestack` section of a thread: the frames of its stack.
///
/// ```
/// # fn example() -> Result<(), Box<dyn std::error::Error>> {
/// # use dolzhytik::{fallible::*, reader::*};
/// use dolzhytik::fallible::{CoreDumpStackSection, CoreDumpValue, Global};
///
/// let mut stack = CoreDumpStackSection::new(Global, "main")?;
/// stack.frame(0, 42, 51, [CoreDumpValue::I32(1)], [CoreDumpValue::Missing])?;
/// # Ok(())
/// # }
/// # example().unwrap();
/// ```
pub type CoreDumpStackSection<A = Global> = CoreDumpStackIn<Pieces<A>>;

/// The kind of a stack's items: frames.
#[derive(Clone, Copy, Debug)]
pub struct FrameItems;

/// # Defined
///
/// ```text
/// Record = { StackFrame }
/// Item = { StackFrame }
/// kind = { frame_items }
/// ```
///
/// Definitions: [`StackFrame`](crate::definitions::custom::core_stacks::StackFrame), [`frame_items`](crate::definitions::custom::core_stacks::frame_items). [How to read clauses](crate::definitions).
impl Kind for FrameItems {
    fn laws() {}
}

/// The `corestack` section of a thread.
///
/// [`CoreDumpStackSection`](crate::fallible::CoreDumpStackSection) is the one that also keeps
/// where its frames end.
///
/// # Errors
///
/// An adding call that returns an error leaves the section unchanged. The error is `TooLong` only
/// if the section is full or an item does not fit, and `Memory` only if an allocation fails.
///
/// # Examples
///
/// ```
/// use dolzhytik::fallible::{CoreDumpStackIn, CoreDumpValue, Encode, Entries, Global};
///
/// let mut stack = CoreDumpStackIn::<Entries>::new(Global, "t")?;
/// stack.frame(0, 42, 51, [CoreDumpValue::I32(1)], [])?;
/// let mut bytes = Vec::new();
/// stack.encode(&mut bytes)?;
/// // Size 22, "corestack"; 00, "t"; one frame: 00, instance 0, function 42, offset 51, one local,
/// // 1 of type i32 (7F), and no values.
/// assert_eq!(bytes, *b"\x16\x09corestack\0\x01t\x01\0\0\x2A\x33\x01\x7F\x01\0");
/// # Ok::<(), dolzhytik::fallible::Refused>(())
/// ```
///
/// # Model
///
/// Contracts model it as the bytes before its stack frames and the store of the frames. The
/// former are the byte 00 and the name of the thread.
#[derive(Debug)]
pub struct CoreDumpStackIn<E: Store = Pieces> {
    pub(crate) front: Vec<u8, E::Alloc>, pub(crate) frames: E,
}

impl<A: Allocator + Copy, E: NewStore<Alloc = A>> CoreDumpStackIn<E> {
    /// Returns the stack of the thread of this name, without frames.
    ///
    /// # Errors
    ///
    /// Returns [`TooLong`](crate::fallible::Refused::TooLong) if a count or length would pass
    /// 4294967295, and [`Memory`](crate::fallible::Refused::Memory) if an allocation fails.
    ///
    /// # Proved
    ///
    /// - After `Ok`, `is`: the section has this name of a thread, and no frames.
    /// - After `Ok`, `was_encodable`: The size of the bytes is at most 2^32 - 1.
    /// - `too_long`: a name of at most 4294967295 bytes never gives `TooLong`.
    ///
    /// ```text
    /// ensures is { IfOk result (λ s. s ≡ (marked_encoding thread_name.now, E.none)) }
    /// ensures was_encodable { IfOk result (λ _. HasEncodableSize thread_name.now) }
    /// ensures too_long { HasEncodableSize thread_name.now → result ≢ Err TooLong }
    /// ```
    ///
    /// Definitions: [`marked_encoding`](crate::definitions::custom::core_dumps::marked_encoding), [`HasEncodableSize`](crate::definitions::base::encodings::HasEncodableSize). [How to read clauses](crate::definitions).
    pub fn new(alloc: A, thread_name: &str) -> Result<Self> {
        let mut front = Vec::new(alloc);
        (0x00u8, thread_name).encode(&mut front)?;
        Ok(CoreDumpStackIn {
            front,
            frames: E::new_in(alloc),
        })
    }

    /// Returns the same stack, in memory of its own.
    ///
    /// # Errors
    ///
    /// Returns [`Memory`](crate::fallible::Refused::Memory) if an allocation fails.
    ///
    /// # Proved
    ///
    /// After `Ok`: `same`, the result equals the value. In any case: `memory`, no error is `TooLong`.
    ///
    /// ```text
    /// ensures same { IfOk result (λ s. s ≡ self.now) }
    /// ensures memory { result ≢ Err TooLong }
    /// ```
    ///
    /// [How to read clauses](crate::definitions).
    pub fn clone(&self) -> Result<Self> {
        Ok(CoreDumpStackIn {
            front: Vec::from_slice(*self.front.allocator(), &self.front)?,
            frames: self.frames.copy()?,
        })
    }
}

impl<E: Store> CoreDumpStackIn<E> {
    /// Adds a stack frame: its instance and function, the offset in the function, its locals, and
    /// its operand stack.
    ///
    /// If there are more than 4294967295 values in either list, the call returns `TooLong` and
    /// requests none of either, as tests show.
    ///
    /// # Errors
    ///
    /// Returns [`TooLong`](crate::fallible::Refused::TooLong) if the builder has 4294967295
    /// entries, or if a count or length would pass 4294967295, and
    /// [`Memory`](crate::fallible::Refused::Memory) if an allocation fails. The builder is then
    /// unchanged.
    ///
    /// # Asks
    ///
    /// The iterator ends, and yields as many items as it reports. [What happens otherwise](crate::fallible#what-is-asked).
    ///
    /// ```text
    /// requires locals { HasKnownLength L.into_iter_gives L.IntoIter.can_next
    ///     L.IntoIter.next_gives L.IntoIter.remaining locals }
    /// requires stack { HasKnownLength S.into_iter_gives S.IntoIter.can_next
    ///     S.IntoIter.next_gives S.IntoIter.remaining stack }
    /// ```
    ///
    /// Definitions: [`HasKnownLength`](crate::definitions::base::iterators::HasKnownLength). [How to read clauses](crate::definitions).
    ///
    /// # Proved
    ///
    /// - `adds`: The builder gains one entry of the items that both iterators yield, or the call returns an error and changes nothing. It returns `TooLong` if either has too many items, and never if all items fit and items and entries are few enough.
    /// - `same_thread`: the part before the entries is unchanged.
    ///
    /// ```text
    /// ensures adds { AddsTwoLists E.model L.into_iter_gives L.IntoIter.next_gives
    ///     L.IntoIter.remaining locals S.into_iter_gives S.IntoIter.next_gives
    ///     S.IntoIter.remaining stack (λ _. ⊤) (λ _. ⊤)
    ///     (λ xs ys. (0x00 ∷ (unsigned_encoding instanceidx
    ///                 ++ (unsigned_encoding funcidx ++ unsigned_encoding codeoffset)))
    ///         ++ (vec_encoding value_encoding xs ++ vec_encoding value_encoding ys))
    ///         self.old.1 self.new.1 result }
    /// ensures same_thread { self.new.0 ≡ self.old.0 }
    /// ```
    ///
    /// Definitions: [`AddsTwoLists`](crate::definitions::custom::adding::AddsTwoLists), [`unsigned_encoding`](crate::definitions::base::numbers::unsigned_encoding), [`vec_encoding`](crate::definitions::base::encodings::vec_encoding), [`value_encoding`](crate::definitions::custom::core_values::value_encoding). [How to read clauses](crate::definitions).
    pub fn frame<
        L: IntoIterator<Item = CoreDumpValue>,
        S: IntoIterator<Item = CoreDumpValue>,
    >(&mut self, instanceidx: u32, funcidx: u32, codeoffset: u32, locals: L, stack: S) -> Result<()>
    where
        L::IntoIter: ExactSizeIterator,
        S::IntoIter: ExactSizeIterator,
    {
        let locals = vec_of(locals)?;
        let stack = vec_of(stack)?;
        let place = (instanceidx, funcidx, codeoffset);
        self.frames.add_item_once(((0x00u8, place), locals, stack))
    }

    /// Returns the section as a custom section, which owns a copy of the data.
    ///
    /// # Errors
    ///
    /// Returns [`Memory`](crate::fallible::Refused::Memory) if an allocation fails.
    ///
    /// # Proved
    ///
    /// In any case: `memory`, no error is `TooLong`.
    ///
    /// ```text
    /// ensures same { IfOk result
    ///     (λ s. (utf8_of s.name ≡ stack_name)
    ///         × (items_of s.bytes ≡ joined_data self.now.0 true (E.model.joins self.now.1))) }
    /// ensures memory { result ≢ Err TooLong }
    /// ```
    ///
    /// Definitions: [`utf8_of`](crate::definitions::base::cow::utf8_of), [`stack_name`](crate::definitions::custom::core_stacks::stack_name), [`items_of`](crate::definitions::base::cow::items_of), [`joined_data`](crate::definitions::custom::entries::joined_data). [How to read clauses](crate::definitions).
    pub fn as_custom<B: Allocator>(&self, alloc: B) -> Result<CustomSection<'_, B>> {
        let data = data_of(alloc, &self.front, true, &self.frames)?;
        Ok(CustomSection {
            name: CowStr::Borrowed("corestack"),
            bytes: CowSlice::Owned(data),
        })
    }
}

/// Encodes the size prefix, the name of the section, and the data: the name of the thread, the
/// number of frames, and the frames.
///
/// # Defined
///
/// ```text
/// encoding = { λ s. named_encoding stack_name (joined_data s.0 true (E.model.joins s.1)) }
/// encodable = { λ s. IsEncodableNamed stack_name
///     (joined_data s.0 true (E.model.joins s.1)) }
/// decoding = { λ s. DecodesBack stack_section (SaysStackIn E.model s.0 s.1)
///     (named_encoding stack_name (joined_data s.0 true (E.model.joins s.1))) }
/// ```
///
/// Definitions: [`named_encoding`](crate::definitions::custom::customs::named_encoding), [`stack_name`](crate::definitions::custom::core_stacks::stack_name), [`joined_data`](crate::definitions::custom::entries::joined_data), [`IsEncodableNamed`](crate::definitions::custom::customs::IsEncodableNamed), [`DecodesBack`](crate::definitions::base::calls::DecodesBack), [`stack_section`](crate::definitions::custom::core_stacks::stack_section), [`SaysStackIn`](crate::definitions::custom::core_stacks::SaysStackIn). [How to read clauses](crate::definitions).
impl<E: Store> Encode for CoreDumpStackIn<E> {
    fn encode<B: Sink>(&self, sink: &mut B) -> Result<()> {
        self.frames.cut::<ItemsOf<FrameItems>>();
        encode_entries(sink, "corestack", &self.front, true, &self.frames)
    }
}

/// # Defined
///
/// ```text
/// id_of = { λ _. number_of ids.Custom }
/// Items = { List ℕ × List StackFrame }
/// format = { stack_section }
/// says = { λ s. SaysStackIn E.model s.0 s.1 }
/// payload = { λ s. NamedPayload stack_name (joined_data s.0 true (E.model.joins s.1)) }
/// sized = { λ s bytes encodable pays. named_sized stack_name
///     (joined_data s.0 true (E.model.joins s.1)) bytes encodable pays }
/// decodes_back = { λ s promised. promised }
/// ```
///
/// Definitions: [`number_of`](crate::definitions::base::section_id::number_of), [`StackFrame`](crate::definitions::custom::core_stacks::StackFrame), [`stack_section`](crate::definitions::custom::core_stacks::stack_section), [`SaysStackIn`](crate::definitions::custom::core_stacks::SaysStackIn), [`NamedPayload`](crate::definitions::custom::customs::NamedPayload), [`stack_name`](crate::definitions::custom::core_stacks::stack_name), [`joined_data`](crate::definitions::custom::entries::joined_data), [`named_sized`](crate::definitions::custom::customs::named_sized). [How to read clauses](crate::definitions).
impl<E: Store> Section for CoreDumpStackIn<E> {
    fn id(&self) -> u8 {
        SectionId::Custom.into()
    }
}

/// A decoded stack frame.
///
/// [`Items::CoreStack`](crate::reader::Items::CoreStack) has them.
///
/// # Examples
///
/// ```
/// use dolzhytik::fallible::{CoreDumpValue, Global};
/// use dolzhytik::reader::{CoreFrame, Padded, Readable};
///
/// // 00, instance 0, function 42, offset 51, one local of type i32 (7F), no values.
/// let bytes = [0, 0, 42, 51, 1, 0x7F, 1, 0];
/// let (frame, _) = <CoreFrame as Readable<Global, Padded>>::read(&bytes, Global)?;
/// assert_eq!((frame.funcidx, frame.codeoffset), (42, 51));
/// assert!(matches!(frame.locals[..], [CoreDumpValue::I32(1)]));
/// # Ok::<(), dolzhytik::reader::DecodeError>(())
/// ```
#[derive(Debug)]
pub struct CoreFrame<A: Allocator = Global> {
    /// The index of the instance.
    pub instanceidx: u32,
    /// The index of the function.
    pub funcidx: u32,
    /// The offset in the function.
    pub codeoffset: u32,
    /// The values of the locals.
    pub locals: Vec<CoreDumpValue, A>,
    /// The values of the operand stack.
    pub stack: Vec<CoreDumpValue, A>,
}

/// # Defined
///
/// ```text
/// Value = { StackFrame }
/// format = { stack_frame }
/// view = { stack_frame_view }
/// ```
///
/// Definitions: [`StackFrame`](crate::definitions::custom::core_stacks::StackFrame), [`stack_frame`](crate::definitions::custom::core_stacks::stack_frame), [`stack_frame_view`](crate::definitions::custom::core_stacks::stack_frame_view). [How to read clauses](crate::definitions).
impl<A: Allocator> Layout for CoreFrame<A> {
    fn laws() {}
}

impl<'a, A: Allocator + Copy, G: Grammar> Readable<'a, A, G> for CoreFrame<A> {
    fn read(bytes: &'a [u8], alloc: A) -> Result<(CoreFrame<A>, &'a [u8]), DecodeError> {
        let ((instanceidx, (funcidx, codeoffset)), rest) = read_marked::<
            'a,
            (u32, (u32, u32)),
            A,
            G,
        >(0x00, bytes, alloc)?;
        let (locals, rest) = <Vec<CoreDumpValue, A> as Readable<'a, A, G>>::read(rest, alloc)?;
        let (stack, rest) = <Vec<CoreDumpValue, A> as Readable<'a, A, G>>::read(rest, alloc)?;
        let frame = CoreFrame {
            instanceidx,
            funcidx,
            codeoffset,
            locals,
            stack,
        };
        Ok((frame, rest))
    }
}

/// Decodes the payload of a stack section, in the grammar `G`: the name of the thread, and the
/// frames of its stack.
///
/// # Errors
///
/// Every error except `Memory` means that the bytes are not such a payload.
///
/// # Examples
///
/// ```
/// use dolzhytik::fallible::{Global, read_stack};
/// use dolzhytik::reader::Padded;
///
/// // "corestack", 00, "t"; no frames.
/// let (thread, frames) =
///     read_stack::<Global, Padded>(b"\x09corestack\0\x01t\0", Global)?;
/// assert_eq!((thread, frames.len()), ("t", 0));
/// # Ok::<(), dolzhytik::reader::DecodeError>(())
/// ```
///
/// # Proved
///
/// After `Ok`: `found`, the bytes as a whole encode the value. After an error: `none`, the bytes as a whole are no such encoding, unless the cause is `Memory`.
///
/// ```text
/// ensures found { IfOk result
///     (λ x. stack_payload (padded_of G.grammar) bytes.now
///         (x.0.now, map stack_frame_view x.1.items)) }
/// ensures none { IfErr result
///     (λ e. e.cause ≢ Memory → RejectsWhole stack_payload (padded_of G.grammar) bytes.now)
///     }
/// ```
///
/// Definitions: [`stack_payload`](crate::definitions::custom::core_stacks::stack_payload), [`padded_of`](crate::definitions::base::numbers::padded_of), [`stack_frame_view`](crate::definitions::custom::core_stacks::stack_frame_view), [`RejectsWhole`](crate::definitions::base::continuing::RejectsWhole). [How to read clauses](crate::definitions).
pub fn read_stack<'a, A: Allocator + Copy, G: Grammar>(
    bytes: &'a [u8],
    alloc: A,
) -> Result<(&'a str, Vec<CoreFrame<A>, A>), DecodeError> {
    let rest = after_name::<A, G>("corestack", bytes, alloc)?;
    let (thread, rest) = read_marked::<'a, &'a str, A, G>(0x00, rest, alloc)?;
    let frames = read_whole::<'a, Vec<CoreFrame<A>, A>, A, G>(rest, alloc)?;
    Ok((thread, frames))
}

/// # Defined
///
/// ```text
/// grammars = { both_grammars }
/// ```
///
/// Definitions: [`both_grammars`](crate::definitions::base::minimal::Grammars). [How to read clauses](crate::definitions).
impl<A: Allocator> Shorten for CoreFrame<A> {
    fn write_minimal<B: Sink>(&self, sink: &mut B) -> Result<()> {
        0x00u8.encode(sink)?;
        self.instanceidx.write_minimal(sink)?;
        self.funcidx.write_minimal(sink)?;
        self.codeoffset.write_minimal(sink)?;
        self.locals.as_slice().encode(sink)?;
        self.stack.as_slice().encode(sink)
    }
}

/// Writes the bytes that [`append_stack`] appends. After an error, part of them may follow the old
/// bytes.
fn write_stack<A: Allocator, B: Sink>(
    thread: &str,
    frames: &Vec<CoreFrame<A>, A>,
    sink: &mut B,
) -> Result<()> {
    "corestack".encode(sink)?;
    append_marked(thread, sink)?;
    frames.write_minimal(sink)
}

/// Appends the minimal encoding of the payload of the section of this stack. On an error, the sink
/// is unchanged.
///
/// # Errors
///
/// Returns [`TooLong`](crate::fallible::Refused::TooLong) if a count or length would pass
/// 4294967295, and [`Memory`](crate::fallible::Refused::Memory) if an allocation fails. The
/// bytes of the sink are then unchanged.
///
/// # Examples
///
/// ```
/// use dolzhytik::fallible::{Global, Vec, append_stack};
///
/// let mut payload = vec![];
/// append_stack("t", &Vec::new(Global), &mut payload)?;
/// assert_eq!(payload, *b"\x09corestack\0\x01t\0");
/// # Ok::<(), dolzhytik::fallible::Refused>(())
/// ```
///
/// # Proved
///
/// After `Ok`: `ok`, the sink gains the encoding that is minimal in both grammars. After an error: `err`, the bytes of the sink are unchanged. In any case: `too_long`, a value that has an encoding never gives `TooLong`.
///
/// ```text
/// ensures ok { OnOk result
///     (AppendsMinimal both_grammars stack_payload
///         (thread.now, map stack_frame_view frames.now.items) sink.old.items
///         sink.new.items) }
/// ensures err { OnErr result (sink.new.items ≡ sink.old.items) }
/// ensures too_long { HasEncoding both_grammars stack_payload
///     (thread.now, map stack_frame_view frames.now.items) → result ≢ Err TooLong }
/// ```
///
/// Definitions: [`AppendsMinimal`](crate::definitions::base::minimal::AppendsMinimal), [`both_grammars`](crate::definitions::base::minimal::Grammars), [`stack_payload`](crate::definitions::custom::core_stacks::stack_payload), [`stack_frame_view`](crate::definitions::custom::core_stacks::stack_frame_view), [`HasEncoding`](crate::definitions::base::minimal::HasEncoding). [How to read clauses](crate::definitions).
pub fn append_stack<A: Allocator, B: Sink>(
    thread: &str,
    frames: &Vec<CoreFrame<A>, A>,
    sink: &mut B,
) -> Result<()> {
    let start = sink.len();
    let written = write_stack(thread, frames, sink);
    if written.is_err() {
        sink.truncate(start);
    }
    written
}
