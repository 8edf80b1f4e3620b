// Written by tools/to-rust from crates/wasm_custom/src/instruction_frequencies.rt: change that.
// The instruction frequency section: its builder, its reader and its walk.

use crate::vec::{Sink, Vec};
use crate::custom::code_metadata::{CodeHint, HintPayload, HintsOf, ReadPayload, WalkPayload};
use crate::custom::counted::{append_counted, read_counted};
use crate::custom::entries::CustomEntries;
use crate::custom::item_walks::walk_counted;
use crate::alloc::{Allocator, Global};
use crate::base::{DecodeError, Effect, Encode, Grammar, Pieces, Result, read_whole, walk_whole};

/// The instruction frequency section: how often instructions are executed, as a list of hints for
/// each function. It belongs before the code section.
///
/// ```
/// # fn example() -> Result<(), Box<dyn std::error::Error>> {
/// # use dolzhytik::{fallible::*, reader::*};
/// use dolzhytik::fallible::{
///     CodeHint, Global, InstructionFrequencies, InstructionFrequency,
/// };
///
/// let mut frequencies = InstructionFrequencies::new(Global);
/// frequencies.function_hints(0, [CodeHint { offset: 3, value: InstructionFrequency(32) }])?;
/// # Ok(())
/// # }
/// # example().unwrap();
/// ```
///
/// # Examples
///
/// ```
/// use dolzhytik::fallible::{CodeHint, Encode, Global, InstructionFrequencies, InstructionFrequency};
///
/// let hint = CodeHint { offset: 3, value: InstructionFrequency(32) };
/// let mut frequencies = InstructionFrequencies::new(Global);
/// frequencies.function_hints(7, [hint])?;
/// let mut bytes = vec![];
/// frequencies.encode(&mut bytes)?;
/// // Size 31, the name; one function, 7, with one hint: offset 3, one byte, frequency 32.
/// assert_eq!(bytes, *b"\x1f\x18metadata.code.instr_freq\x01\x07\x01\x03\x01\x20");
/// # Ok::<(), dolzhytik::fallible::Refused>(())
/// ```
pub type InstructionFrequencies<A = Global> = CustomEntries<
    HintsOf<InstructionFrequency>,
    Pieces<A>,
>;

/// An estimate of how often an instruction is executed, on a scale of binary logarithms that the
/// compilation hints proposal defines.
///
/// The compilation hints proposal defines it. Its example is that of
/// [`InstructionFrequencies`](crate::fallible::InstructionFrequencies).
#[derive(Clone, Copy, Debug)]
pub struct InstructionFrequency(pub u8);

/// # Defined
///
/// ```text
/// Value = { ℕ }
/// name = { frequencies_name }
/// format = { byte }
/// is_value = { IsFrequency }
/// encoding = { frequency_encoding }
/// view = { frequency_view }
/// ```
///
/// Definitions: [`frequencies_name`](crate::definitions::custom::code_metadata::frequencies_name), [`byte`](crate::definitions::base::formats::byte), [`IsFrequency`](crate::definitions::custom::code_metadata::IsFrequency), [`frequency_encoding`](crate::definitions::custom::code_metadata::frequency_encoding), [`frequency_view`](crate::definitions::custom::code_metadata::frequency_view). [How to read clauses](crate::definitions).
impl HintPayload for InstructionFrequency {
    fn section_name() -> &'static str {
        "metadata.code.instr_freq"
    }

    fn payload_laws() {}

    fn append_payload<B: Sink>(&self, sink: &mut B) -> Result<()> {
        self.0.encode(sink)
    }
}

impl<'a, A: Allocator + Copy, G: Grammar> ReadPayload<'a, A, G> for InstructionFrequency {
    fn read_payload(bytes: &'a [u8], alloc: A) -> Result<InstructionFrequency, DecodeError> {
        let frequency = read_whole::<'a, u8, A, G>(bytes, alloc)?;
        Ok(InstructionFrequency(frequency))
    }
}

impl<G: Grammar> WalkPayload<G> for InstructionFrequency {
    fn walk_payload<'a, A: Allocator + Copy, E: Effect>(
        bytes: &'a [u8],
        alloc: A,
        effect: &mut E,
    ) -> Result<(), DecodeError> {
        walk_whole::<u8, A, G, _>(bytes, alloc, effect)
    }
}

/// Decodes the payload of an instruction frequency section, in the grammar `G`: for each function
/// its index, and the frequencies of instructions.
///
/// # Errors
///
/// Every error except `Memory` means that the bytes are not such a payload.
///
/// # Examples
///
/// ```
/// use dolzhytik::fallible::{Global, read_frequencies};
/// use dolzhytik::reader::Padded;
///
/// // The name; one function, 7, of one hint: offset 3, one byte, frequency 32.
/// let payload = b"\x18metadata.code.instr_freq\x01\x07\x01\x03\x01\x20";
/// let functions = read_frequencies::<Global, Padded>(payload, Global)?;
/// let (function, hints) = &functions[0];
/// assert_eq!(
///     (*function, hints[0].offset, hints[0].value.0),
///     (7, 3, 32)
/// );
/// # Ok::<(), dolzhytik::reader::DecodeError>(())
/// ```
///
/// # Proved
///
/// After `Ok`: `found`, the bytes as a whole encode the value. After an error: `none`, the bytes as a whole are no such encoding, unless the cause is `Memory`.
///
/// ```text
/// ensures found { IfOk result
///     (λ x. frequencies_payload (padded_of G.grammar) bytes.now
///         (map frequencies_view x.items)) }
/// ensures none { IfErr result
///     (λ e. e.cause ≢ Memory → RejectsWhole frequencies_payload
///         (padded_of G.grammar) bytes.now) }
/// ```
///
/// Definitions: [`frequencies_payload`](crate::definitions::custom::code_metadata::frequencies_payload), [`padded_of`](crate::definitions::base::numbers::padded_of), [`frequencies_view`](crate::definitions::custom::code_metadata::frequencies_view), [`RejectsWhole`](crate::definitions::base::continuing::RejectsWhole). [How to read clauses](crate::definitions).
pub fn read_frequencies<'a, A: Allocator + Copy, G: Grammar>(
    bytes: &'a [u8],
    alloc: A,
) -> Result<Vec<(u32, Vec<CodeHint<InstructionFrequency>, A>), A>, DecodeError> {
    read_counted::<
        'a,
        HintsOf<InstructionFrequency>,
        (u32, Vec<CodeHint<InstructionFrequency>, A>),
        A,
        G,
    >(bytes, alloc)
}

/// Walks over the payload of an instruction frequency section, in the grammar `G`.
///
/// # Errors
///
/// Every error except `Memory` means that the bytes are not such a payload.
///
/// # Proved
///
/// After `Ok`: `found`, the bytes as a whole are an encoding, and the effect takes the minimal one. After an error: `none`, the bytes as a whole are no such encoding, unless the cause is `Memory`; `no_memory`, the cause is `Memory` only with an effect whose calls may fail. In any case: `front`, the effect keeps what it took before.
///
/// ```text
/// ensures found { OnOk result
///     (WalksWhole E.seen G.grammar frequencies_payload bytes.now effect.old effect.new) }
/// ensures none { IfErr result
///     (λ e. e.cause ≢ Memory → RejectsWhole frequencies_payload
///         (padded_of G.grammar) bytes.now) }
/// ensures no_memory { IfErr result (λ e. e.cause ≡ Memory → E.may_fail) }
/// ensures front { Keeps E.seen effect.old effect.new }
/// ```
///
/// Definitions: [`WalksWhole`](crate::definitions::base::walks::WalksWhole), [`frequencies_payload`](crate::definitions::custom::code_metadata::frequencies_payload), [`RejectsWhole`](crate::definitions::base::continuing::RejectsWhole), [`padded_of`](crate::definitions::base::numbers::padded_of), [`Keeps`](crate::definitions::base::walks::Keeps). [How to read clauses](crate::definitions).
pub fn walk_frequencies<'a, A: Allocator + Copy, G: Grammar, E: Effect>(
    bytes: &'a [u8],
    alloc: A,
    effect: &mut E,
) -> Result<(), DecodeError> {
    walk_counted::<(u32, Vec<CodeHint<InstructionFrequency>, A>), A, G, _>(
        "metadata.code.instr_freq",
        bytes,
        alloc,
        effect,
    )
}

/// Appends the minimal encoding of the payload of a section of these frequencies. On an error, the
/// sink is unchanged.
///
/// # Errors
///
/// Returns [`TooLong`](crate::fallible::Refused::TooLong) if a count or length would pass
/// 4294967295, and [`Memory`](crate::fallible::Refused::Memory) if an allocation fails. The
/// bytes of the sink are then unchanged.
///
/// # Examples
///
/// ```
/// use dolzhytik::fallible::{Global, append_frequencies};
///
/// let mut payload = vec![];
/// append_frequencies::<Global, _>(&[], &mut payload)?;
/// // The name, no functions.
/// assert_eq!(payload, *b"\x18metadata.code.instr_freq\0");
/// # Ok::<(), dolzhytik::fallible::Refused>(())
/// ```
///
/// # Proved
///
/// After `Ok`: `ok`, the sink gains the encoding that is minimal in both grammars. After an error: `err`, the bytes of the sink are unchanged. In any case: `too_long`, a value that has an encoding never gives `TooLong`.
///
/// ```text
/// ensures ok { OnOk result
///     (AppendsMinimal both_grammars frequencies_payload
///         (map frequencies_view functions.now) sink.old.items sink.new.items) }
/// ensures err { OnErr result (sink.new.items ≡ sink.old.items) }
/// ensures too_long { HasEncoding both_grammars frequencies_payload
///     (map frequencies_view functions.now) → result ≢ Err TooLong }
/// ```
///
/// Definitions: [`AppendsMinimal`](crate::definitions::base::minimal::AppendsMinimal), [`both_grammars`](crate::definitions::base::minimal::Grammars), [`frequencies_payload`](crate::definitions::custom::code_metadata::frequencies_payload), [`frequencies_view`](crate::definitions::custom::code_metadata::frequencies_view), [`HasEncoding`](crate::definitions::base::minimal::HasEncoding). [How to read clauses](crate::definitions).
pub fn append_frequencies<A: Allocator, B: Sink>(
    functions: &[(u32, Vec<CodeHint<InstructionFrequency>, A>)],
    sink: &mut B,
) -> Result<()> {
    append_counted::<
        HintsOf<InstructionFrequency>,
        (u32, Vec<CodeHint<InstructionFrequency>, A>),
        _,
    >(functions, sink)
}
