// Written by tools/to-rust from crates/wasm_custom/src/code_metadata.rt: change that.
// Code metadata: the hints of functions, each an offset and a size-prefixed value.

use crate::vec::{Sink, Vec};
use crate::custom::counted::{DecodesItems, ItemsAs};
use crate::custom::entries::{CustomEntries, CustomKind};
use crate::alloc::Allocator;
use core::marker::PhantomData;
use crate::base::{DecodeError, Effect, Encode, Grammar, Kind, Layout, Readable, Result, Shorten, Store, Walk, vec_of};

/// The value of a hint, which occupies all of the hint's payload.
///
/// # Defined
///
/// ```text
/// Value: { Type 0 }
/// name: { List ℕ }
/// format: { Mode → List ℕ → Value → Type 0 }
/// is_value: { Value → Type 0 }
/// encoding: { Value → List ℕ }
/// view: { Self → Value }
/// ```
///
/// Definitions: [`Mode`](crate::definitions::base::numbers::Mode). [How to read clauses](crate::definitions).
pub trait HintPayload: Sized {
    // The value, without its location in memory.

    // The name of the section of such hints.

    // The format of the payload as a whole, and what well-formed values are.

    // The minimal encoding.

    /// Returns the name of the section.
    ///
    /// # Proved
    ///
    /// ```text
    /// ensures { result.now ≡ name }
    /// ```
    ///
    /// [How to read clauses](crate::definitions).
    fn section_name() -> &'static str;

    /// Proves that the format is unambiguous, and the encoding minimal. The function does nothing.
    ///
    /// # Proved
    ///
    /// The laws of a value of hints in the sections of this name. The name is UTF-8, and the format is unambiguous as a whole. The encoding of a value is minimal, and a well-formed value has it.
    ///
    /// ```text
    /// ensures { PayloadLaws name format is_value encoding }
    /// ```
    ///
    /// Definitions: [`PayloadLaws`](crate::definitions::custom::code_metadata::PayloadLaws). [How to read clauses](crate::definitions).
    fn payload_laws();

    /// Appends the payload, without its size prefix.
    ///
    /// # Errors
    ///
    /// Returns [`TooLong`](crate::fallible::Refused::TooLong) if a count or length would pass
    /// 4294967295, and [`Memory`](crate::fallible::Refused::Memory) if an allocation fails. The
    /// bytes of the sink are then unchanged.
    ///
    /// # Proved
    ///
    /// The call appends the encoding, or returns an error and leaves the bytes as they were. If the value fits, the call never returns `TooLong`, and it succeeds within the spare capacity.
    ///
    /// ```text
    /// ensures { Appends (encoding (view self.now)) ⊤ sink.old sink.new result }
    /// ```
    ///
    /// Definitions: [`Appends`](crate::definitions::base::calls::Appends). [How to read clauses](crate::definitions).
    fn append_payload<B: Sink>(&self, sink: &mut B) -> Result<()>;
}

/// The value of a hint that can be decoded from its payload.
pub trait ReadPayload<'a, A: Allocator + Copy, G: Grammar>: HintPayload {
    /// Decodes the value that occupies all of the bytes, in the grammar `G`.
    ///
    /// # Proved
    ///
    /// After an error: `none`, the bytes as a whole are no such encoding, unless the cause is `Memory`.
    ///
    /// ```text
    /// ensures found { IfOk result
    ///     (λ x. Self.format (padded_of G.grammar) bytes.now (Self.view x)) }
    /// ensures none { IfErr result
    ///     (λ e. e.cause ≢ Memory → RejectsWhole Self.format (padded_of G.grammar) bytes.now) }
    /// ```
    ///
    /// Definitions: [`padded_of`](crate::definitions::base::numbers::padded_of), [`RejectsWhole`](crate::definitions::base::continuing::RejectsWhole). [How to read clauses](crate::definitions).
    fn read_payload(bytes: &'a [u8], alloc: A) -> Result<Self, DecodeError>;
}

/// The value of a hint that can be walked over.
pub trait WalkPayload<G: Grammar>: HintPayload {
    /// Walks over the value that occupies all of the bytes, in the grammar `G`.
    ///
    /// # Proved
    ///
    /// After `Ok`: `found`, the bytes as a whole are an encoding, and the effect takes the minimal one. After an error: `none`, the bytes as a whole are no such encoding, unless the cause is `Memory`; `no_memory`, the cause is `Memory` only with an effect whose calls may fail. In any case: `front`, the effect keeps what it took before.
    ///
    /// ```text
    /// ensures found { OnOk result
    ///     (WalksWhole E.seen G.grammar Self.format bytes.now effect.old effect.new) }
    /// ensures none { IfErr result
    ///     (λ e. e.cause ≢ Memory → RejectsWhole Self.format (padded_of G.grammar) bytes.now) }
    /// ensures no_memory { IfErr result (λ e. e.cause ≡ Memory → E.may_fail) }
    /// ensures front { Keeps E.seen effect.old effect.new }
    /// ```
    ///
    /// Definitions: [`WalksWhole`](crate::definitions::base::walks::WalksWhole), [`RejectsWhole`](crate::definitions::base::continuing::RejectsWhole), [`padded_of`](crate::definitions::base::numbers::padded_of), [`Keeps`](crate::definitions::base::walks::Keeps). [How to read clauses](crate::definitions).
    fn walk_payload<'a, A: Allocator + Copy, E: Effect>(
        bytes: &'a [u8],
        alloc: A,
        effect: &mut E,
    ) -> Result<(), DecodeError>;
}

/// A hint: an offset in a function, and a value.
///
/// # Examples
///
/// ```
/// use dolzhytik::fallible::{CodeHint, Encode, InstructionFrequency};
///
/// let hint = CodeHint { offset: 3, value: InstructionFrequency(32) };
/// let mut bytes = vec![];
/// hint.encode(&mut bytes)?;
/// // The offset, the size of the value, and the value.
/// assert_eq!(bytes, [3, 1, 32]);
/// # Ok::<(), dolzhytik::fallible::Refused>(())
/// ```
#[derive(Debug)]
pub struct CodeHint<T> {
    /// The offset in the raw body of the function, in bytes.
    pub offset: u32,
    /// The value, such as an [`InstructionFrequency`](crate::custom::InstructionFrequency).
    pub value: T,
}

/// Inserts the size of the bytes from `start` on before them.
fn prefix_size<B: Sink>(sink: &mut B, start: usize) -> Result<()> {
    let size = sink.len() - start;
    size.encode(sink)?;
    sink[start..].rotate_left(size);
    Ok(())
}

/// A borrowed value that is encoded with its size prefix.
struct SizedValue<'a, T>(&'a T);

/// # Defined
///
/// ```text
/// encoding = { λ s. size_prefixed_encoding (T.encoding (T.view s.0.now)) }
/// encodable = { λ s. HasEncodableSize (T.encoding (T.view s.0.now)) }
/// ```
///
/// Definitions: [`size_prefixed_encoding`](crate::definitions::base::encodings::size_prefixed_encoding), [`HasEncodableSize`](crate::definitions::base::encodings::HasEncodableSize). [How to read clauses](crate::definitions).
impl<T: HintPayload> Encode for SizedValue<'_, T> {
    fn encode<A: Sink>(&self, sink: &mut A) -> Result<()> {
        let start = sink.len();
        self.0.append_payload(sink)?;
        if let Err(refused) = prefix_size(sink, start) {
            sink.truncate(start);
            return Err(refused);
        }
        Ok(())
    }
}

/// Encodes the offset, and the value with its size prefix.
///
/// # Defined
///
/// ```text
/// encoding = { λ h. hinted_encoding T.encoding (h.offset, T.view h.value) }
/// encodable = { λ h. HasEncodableSize (T.encoding (T.view h.value)) }
/// ```
///
/// Definitions: [`hinted_encoding`](crate::definitions::custom::code_metadata::hinted_encoding), [`HasEncodableSize`](crate::definitions::base::encodings::HasEncodableSize). [How to read clauses](crate::definitions).
impl<T: HintPayload> Encode for CodeHint<T> {
    fn encode<A: Sink>(&self, sink: &mut A) -> Result<()> {
        (self.offset, SizedValue(&self.value)).encode(sink)
    }
}

/// A decoded value with its size prefix.
#[derive(Debug)]
pub(crate) struct Payload<T>(pub T);

/// # Defined
///
/// ```text
/// Value = { T.Value }
/// format = { size_prefixed T.format }
/// view = { λ p. T.view p.0 }
/// ```
///
/// Definitions: [`size_prefixed`](crate::definitions::base::formats::size_prefixed). [How to read clauses](crate::definitions).
impl<T: HintPayload> Layout for Payload<T> {
    fn laws() {
        T::payload_laws();
    }
}

impl<'a, A: Allocator + Copy, G: Grammar, T: ReadPayload<'a, A, G>> Readable<'a, A, G>
    for Payload<T> {
    fn read(bytes: &'a [u8], alloc: A) -> Result<(Payload<T>, &'a [u8]), DecodeError> {
        let (content, rest) = <&'a [u8] as Readable<'a, A, G>>::read(bytes, alloc)?;
        match T::read_payload(content, alloc) {
            Ok(value) => Ok((Payload(value), rest)),
            Err(error) => Err(error.before(rest)),
        }
    }
}

/// Walks over the payload, and then inserts its size.
impl<G: Grammar, T: WalkPayload<G>> Walk<G> for Payload<T> {
    fn walk<'a, A: Allocator + Copy, E: Effect>(
        bytes: &'a [u8],
        alloc: A,
        effect: &mut E,
    ) -> Result<&'a [u8], DecodeError> {
        let (content, rest) = <&'a [u8] as Readable<'a, A, G>>::read(bytes, alloc)?;
        T::payload_laws();
        let start = effect.position();
        match T::walk_payload(content, alloc, effect) {
            Ok(()) => {}
            Err(error) => return Err(error.before(rest)),
        }
        effect.prefix_size(start)?;
        Ok(rest)
    }
}

/// # Defined
///
/// ```text
/// Value = { ℕ × T.Value }
/// format = { hinted T.format }
/// view = { hint_as T.view }
/// ```
///
/// Definitions: [`hinted`](crate::definitions::custom::code_metadata::hinted), [`hint_as`](crate::definitions::custom::code_metadata::hint_as). [How to read clauses](crate::definitions).
impl<T: HintPayload> Layout for CodeHint<T> {
    fn laws() {
        T::payload_laws();
    }
}

impl<'a, A: Allocator + Copy, G: Grammar, T: ReadPayload<'a, A, G>> Readable<'a, A, G>
    for CodeHint<T> {
    fn read(bytes: &'a [u8], alloc: A) -> Result<(CodeHint<T>, &'a [u8]), DecodeError> {
        let ((offset, Payload(value)), rest) = <(u32, Payload<T>) as Readable<'a, A, G>>::read(
            bytes, alloc,
        )?;
        Ok((CodeHint { offset, value }, rest))
    }
}

impl<G: Grammar, T: WalkPayload<G>> Walk<G> for CodeHint<T> {
    fn walk<'a, A: Allocator + Copy, E: Effect>(
        bytes: &'a [u8],
        alloc: A,
        effect: &mut E,
    ) -> Result<&'a [u8], DecodeError> {
        <(u32, Payload<T>) as Walk<G>>::walk(bytes, alloc, effect)
    }
}

/// # Defined
///
/// ```text
/// grammars = { both_grammars }
/// ```
///
/// Definitions: [`both_grammars`](crate::definitions::base::minimal::Grammars). [How to read clauses](crate::definitions).
impl<T: HintPayload> Shorten for CodeHint<T> {
    fn write_minimal<B: Sink>(&self, sink: &mut B) -> Result<()> {
        T::payload_laws();
        self.encode(sink)
    }
}

/// The kind of the items of a code metadata section: the hints of one function each, of values `T`.
///
/// It is the kind of [`InstructionFrequencies`](crate::fallible::InstructionFrequencies),
/// [`CompilationOrders`](crate::fallible::CompilationOrders) and
/// [`CallTargets`](crate::fallible::CallTargets), by the type of their values.
///
/// # Examples
///
/// ```
/// use dolzhytik::fallible::{CompilationOrder, CustomKind, HintsOf, InstructionFrequency};
///
/// assert_eq!(
///     [HintsOf::<InstructionFrequency>::name(), HintsOf::<CompilationOrder>::name()],
///     ["metadata.code.instr_freq", "metadata.code.compilation_order"]
/// );
/// ```
#[derive(Debug)]
pub struct HintsOf<T>(PhantomData<T>);

/// # Defined
///
/// ```text
/// Record = { HintsIn (ℕ × T.Value) }
/// Item = { HintsIn (ℕ × T.Value) }
/// kind = { hinted_items T.format T.is_value T.encoding }
/// ```
///
/// Definitions: [`HintsIn`](crate::definitions::custom::code_metadata::HintsIn), [`hinted_items`](crate::definitions::custom::code_metadata::hinted_items). [How to read clauses](crate::definitions).
impl<T: HintPayload> Kind for HintsOf<T> {
    fn laws() {
        T::payload_laws();
    }
}

/// # Defined
///
/// ```text
/// name = { T.name }
/// front = { [] }
/// front_format = { fixed [] (tt {0}) }
/// counted = { true }
/// ```
///
/// Definitions: [`fixed`](crate::definitions::base::formats::fixed). [How to read clauses](crate::definitions).
impl<T: HintPayload> CustomKind for HintsOf<T> {
    fn name() -> &'static str {
        T::section_name()
    }

    fn front() -> &'static [u8] {
        &[]
    }

    fn counted() -> bool {
        true
    }

    fn layout_laws() {
        T::payload_laws();
    }
}

impl<T: HintPayload, S: Store> CustomEntries<HintsOf<T>, S> {
    /// Adds the hints of a function.
    ///
    /// If there are more than 4294967295 hints, the call returns `TooLong` and requests none of
    /// them, as tests show.
    ///
    /// # Errors
    ///
    /// Returns [`TooLong`](crate::fallible::Refused::TooLong) if the builder has 4294967295
    /// entries, or if a count or length would pass 4294967295, and
    /// [`Memory`](crate::fallible::Refused::Memory) if an allocation fails. The builder is then
    /// unchanged.
    ///
    /// # Asks
    ///
    /// The iterator ends, and yields as many items as it reports. [What happens otherwise](crate::fallible#what-is-asked).
    ///
    /// ```text
    /// requires { HasKnownLength H.into_iter_gives H.IntoIter.can_next H.IntoIter.next_gives
    ///     H.IntoIter.remaining hints }
    /// ```
    ///
    /// Definitions: [`HasKnownLength`](crate::definitions::base::iterators::HasKnownLength). [How to read clauses](crate::definitions).
    ///
    /// # Proved
    ///
    /// The builder gains one entry of the items that the iterator yields, or the call returns an error and changes nothing. It returns `TooLong` if there are too many items, and never if all items fit and items and entries are few enough.
    ///
    /// ```text
    /// ensures { AddsList S.model H.into_iter_gives H.IntoIter.next_gives H.IntoIter.remaining
    ///     hints (λ h. HasEncodableSize (T.encoding (T.view h.value)))
    ///     (λ items. unsigned_encoding func
    ///         ++ vec_encoding (λ h. hinted_encoding T.encoding (h.offset, T.view h.value))
    ///         items) self.old self.new result }
    /// ```
    ///
    /// Definitions: [`AddsList`](crate::definitions::custom::adding::AddsList), [`HasEncodableSize`](crate::definitions::base::encodings::HasEncodableSize), [`unsigned_encoding`](crate::definitions::base::numbers::unsigned_encoding), [`vec_encoding`](crate::definitions::base::encodings::vec_encoding), [`hinted_encoding`](crate::definitions::custom::code_metadata::hinted_encoding). [How to read clauses](crate::definitions).
    pub fn function_hints<H: IntoIterator<Item = CodeHint<T>>>(
        &mut self,
        func: u32,
        hints: H,
    ) -> Result<()>
    where
        H::IntoIter: ExactSizeIterator,
    {
        let hints = vec_of(hints)?;
        self.add_once((func, hints))
    }
}

/// # Defined
///
/// ```text
/// Said = { HintsIn (ℕ × T.Value) }
/// format = { hints_in (hinted T.format) }
/// view = { hints_as T.view }
/// ```
///
/// Definitions: [`HintsIn`](crate::definitions::custom::code_metadata::HintsIn), [`hints_in`](crate::definitions::custom::code_metadata::hints_in), [`hinted`](crate::definitions::custom::code_metadata::hinted), [`hints_as`](crate::definitions::custom::code_metadata::hints_as). [How to read clauses](crate::definitions).
impl<T: HintPayload, A: Allocator> ItemsAs<(u32, Vec<CodeHint<T>, A>)> for HintsOf<T> {
    fn unique() {
        T::payload_laws();
    }

    fn append_item<B: Sink>(
        item: &(u32, Vec<CodeHint<T>, A>),
        sink: &mut B,
    ) -> Result<()> {
        item.write_minimal(sink)
    }
}

impl<'a, A: Allocator + Copy, G: Grammar, T: ReadPayload<'a, A, G>> DecodesItems<
    'a,
    (u32, Vec<CodeHint<T>, A>),
    A,
    G,
> for HintsOf<T> {
    fn read_item(
        bytes: &'a [u8],
        alloc: A,
    ) -> Result<((u32, Vec<CodeHint<T>, A>), &'a [u8]), DecodeError> {
        <(u32, Vec<CodeHint<T>, A>) as Readable<'a, A, G>>::read(bytes, alloc)
    }
}
