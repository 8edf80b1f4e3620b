// Written by tools/to-rust from crates/wasm_custom/src/call_targets.rt: change that.
// The call target section: its builder, its reader and its walk.

use crate::vec::{Sink, Vec};
use crate::custom::code_metadata::{CodeHint, HintPayload, HintsOf, ReadPayload, WalkPayload};
use crate::custom::counted::{append_counted, read_counted};
use crate::custom::entries::CustomEntries;
use crate::custom::item_walks::walk_counted;
use crate::alloc::{Allocator, Global};
use crate::base::{DecodeError, Effect, Encode, Grammar, Layout, Pieces, Readable, Result, Walk, read_to_end, walk_to_end};

/// The call target section: which functions indirect calls are likely to call, as a list of hints
/// for each function. It belongs before the code section.
///
/// ```
/// # fn example() -> Result<(), Box<dyn std::error::Error>> {
/// # use dolzhytik::{fallible::*, reader::*};
/// use dolzhytik::fallible::{CallTarget, CallTargets, CodeHint, Global, Vec};
///
/// let value = Vec::from_slice(Global, &[CallTarget { function_index: 7, percent: 90 }])?;
/// let mut targets = CallTargets::new(Global);
/// targets.function_hints(0, [CodeHint { offset: 5, value }])?;
/// # Ok(())
/// # }
/// # example().unwrap();
/// ```
///
/// # Examples
///
/// ```
/// use dolzhytik::fallible::{CallTarget, CallTargets, CodeHint, Encode, Global, Vec};
///
/// let target = CallTarget { function_index: 9, percent: 90 };
/// let value = Vec::from_slice(Global, &[target])?;
/// let mut targets = CallTargets::new(Global);
/// targets.function_hints(7, [CodeHint { offset: 3, value }])?;
/// let mut bytes = vec![];
/// targets.encode(&mut bytes)?;
/// // Size 34, the name; one function, 7, with one hint: offset 3, two bytes, function 9, 90 percent.
/// assert_eq!(bytes, *b"\x22\x1ametadata.code.call_targets\x01\x07\x01\x03\x02\x09\x5a");
/// # Ok::<(), dolzhytik::fallible::Refused>(())
/// ```
pub type CallTargets<A = Global> = CustomEntries<HintsOf<Vec<CallTarget, A>>, Pieces<A>>;

/// A function that a call is likely to call.
///
/// The compilation hints proposal defines it. Its example is that of
/// [`CallTargets`](crate::fallible::CallTargets).
#[derive(Clone, Copy, Debug)]
pub struct CallTarget {
    /// The index of the called function.
    pub function_index: u32,
    /// How many of all calls at the offset are calls of this function, in percent.
    pub percent: u32,
}

/// Encodes the function index, and the share in percent.
///
/// # Defined
///
/// ```text
/// encoding = { λ t. target_encoding (target_view t) }
/// encodable = { λ _. ⊤ }
/// ```
///
/// Definitions: [`target_encoding`](crate::definitions::custom::code_metadata::target_encoding), [`target_view`](crate::definitions::custom::code_metadata::target_view). [How to read clauses](crate::definitions).
impl Encode for CallTarget {
    fn encode<A: Sink>(&self, sink: &mut A) -> Result<()> {
        (self.function_index, self.percent).encode(sink)
    }
}

/// # Defined
///
/// ```text
/// Value = { TargetItem }
/// format = { pair u32 u32 }
/// view = { target_view }
/// ```
///
/// Definitions: [`TargetItem`](crate::definitions::custom::code_metadata::TargetItem), [`pair`](crate::definitions::base::formats::pair), [`u32`](crate::definitions::base::formats::u32), [`target_view`](crate::definitions::custom::code_metadata::target_view). [How to read clauses](crate::definitions).
impl Layout for CallTarget {
    fn laws() {}
}

impl<'a, A: Allocator + Copy, G: Grammar> Readable<'a, A, G> for CallTarget {
    fn read(bytes: &'a [u8], alloc: A) -> Result<(CallTarget, &'a [u8]), DecodeError> {
        let ((function_index, percent), rest) = <(u32, u32) as Readable<'a, A, G>>::read(
            bytes, alloc,
        )?;
        let target = CallTarget {
            function_index,
            percent,
        };
        Ok((target, rest))
    }
}

impl<G: Grammar> Walk<G> for CallTarget {
    fn walk<'a, A: Allocator + Copy, E: Effect>(
        bytes: &'a [u8],
        alloc: A,
        effect: &mut E,
    ) -> Result<&'a [u8], DecodeError> {
        <(u32, u32) as Walk<G>>::walk(bytes, alloc, effect)
    }
}

/// Appends call targets, one after another.
fn append_targets<B: Sink>(targets: &[CallTarget], sink: &mut B) -> Result<()> {
    let start = sink.len();
    for target in targets {
        if let Err(refused) = target.encode(sink) {
            sink.truncate(start);
            return Err(refused);
        }
    }
    Ok(())
}

/// # Defined
///
/// ```text
/// Value = { List TargetItem }
/// name = { call_targets_name }
/// format = { targets }
/// is_value = { All IsTarget }
/// encoding = { targets_encoding }
/// view = { targets_view }
/// ```
///
/// Definitions: [`TargetItem`](crate::definitions::custom::code_metadata::TargetItem), [`call_targets_name`](crate::definitions::custom::code_metadata::call_targets_name), [`targets`](crate::definitions::custom::code_metadata::targets), [`IsTarget`](crate::definitions::custom::code_metadata::IsTarget), [`targets_encoding`](crate::definitions::custom::code_metadata::targets_encoding), [`targets_view`](crate::definitions::custom::code_metadata::targets_view). [How to read clauses](crate::definitions).
impl<C: Allocator> HintPayload for Vec<CallTarget, C> {
    fn section_name() -> &'static str {
        "metadata.code.call_targets"
    }

    fn payload_laws() {}

    fn append_payload<B: Sink>(&self, sink: &mut B) -> Result<()> {
        append_targets(self.as_slice(), sink)
    }
}

impl<'a, A: Allocator + Copy, G: Grammar> ReadPayload<'a, A, G> for Vec<CallTarget, A> {
    fn read_payload(bytes: &'a [u8], alloc: A) -> Result<Vec<CallTarget, A>, DecodeError> {
        read_to_end::<'a, CallTarget, A, G>(bytes, alloc)
    }
}

impl<G: Grammar, C: Allocator> WalkPayload<G> for Vec<CallTarget, C> {
    fn walk_payload<'a, A: Allocator + Copy, E: Effect>(
        bytes: &'a [u8],
        alloc: A,
        effect: &mut E,
    ) -> Result<(), DecodeError> {
        walk_to_end::<CallTarget, A, G, _>(bytes, alloc, effect)
    }
}

/// Decodes the payload of a call target section, in the grammar `G`: for each function
/// its index, and the targets of its calls.
///
/// # Errors
///
/// Every error except `Memory` means that the bytes are not such a payload.
///
/// # Examples
///
/// ```
/// use dolzhytik::fallible::{Global, read_call_targets};
/// use dolzhytik::reader::Padded;
///
/// // The name; one function, 7, of one hint: offset 3, two bytes, function 9, 90 percent.
/// let payload = b"\x1ametadata.code.call_targets\x01\x07\x01\x03\x02\x09\x5a";
/// let functions = read_call_targets::<Global, Padded>(payload, Global)?;
/// let (function, hints) = &functions[0];
/// assert_eq!(
///     (*function, hints[0].value[0].function_index, hints[0].value[0].percent),
///     (7, 9, 90)
/// );
/// # Ok::<(), dolzhytik::reader::DecodeError>(())
/// ```
///
/// # Proved
///
/// After `Ok`: `found`, the bytes as a whole encode the value. After an error: `none`, the bytes as a whole are no such encoding, unless the cause is `Memory`.
///
/// ```text
/// ensures found { IfOk result
///     (λ x. call_targets_payload (padded_of G.grammar) bytes.now
///         (map call_targets_view x.items)) }
/// ensures none { IfErr result
///     (λ e. e.cause ≢ Memory → RejectsWhole call_targets_payload
///         (padded_of G.grammar) bytes.now) }
/// ```
///
/// Definitions: [`call_targets_payload`](crate::definitions::custom::code_metadata::call_targets_payload), [`padded_of`](crate::definitions::base::numbers::padded_of), [`call_targets_view`](crate::definitions::custom::code_metadata::call_targets_view), [`RejectsWhole`](crate::definitions::base::continuing::RejectsWhole). [How to read clauses](crate::definitions).
pub fn read_call_targets<'a, A: Allocator + Copy, G: Grammar>(
    bytes: &'a [u8],
    alloc: A,
) -> Result<Vec<(u32, Vec<CodeHint<Vec<CallTarget, A>>, A>), A>, DecodeError> {
    read_counted::<
        'a,
        HintsOf<Vec<CallTarget, A>>,
        (u32, Vec<CodeHint<Vec<CallTarget, A>>, A>),
        A,
        G,
    >(bytes, alloc)
}

/// Walks over the payload of a call target section, in the grammar `G`.
///
/// # Errors
///
/// Every error except `Memory` means that the bytes are not such a payload.
///
/// # Proved
///
/// After `Ok`: `found`, the bytes as a whole are an encoding, and the effect takes the minimal one. After an error: `none`, the bytes as a whole are no such encoding, unless the cause is `Memory`; `no_memory`, the cause is `Memory` only with an effect whose calls may fail. In any case: `front`, the effect keeps what it took before.
///
/// ```text
/// ensures found { OnOk result
///     (WalksWhole E.seen G.grammar call_targets_payload bytes.now effect.old effect.new) }
/// ensures none { IfErr result
///     (λ e. e.cause ≢ Memory → RejectsWhole call_targets_payload
///         (padded_of G.grammar) bytes.now) }
/// ensures no_memory { IfErr result (λ e. e.cause ≡ Memory → E.may_fail) }
/// ensures front { Keeps E.seen effect.old effect.new }
/// ```
///
/// Definitions: [`WalksWhole`](crate::definitions::base::walks::WalksWhole), [`call_targets_payload`](crate::definitions::custom::code_metadata::call_targets_payload), [`RejectsWhole`](crate::definitions::base::continuing::RejectsWhole), [`padded_of`](crate::definitions::base::numbers::padded_of), [`Keeps`](crate::definitions::base::walks::Keeps). [How to read clauses](crate::definitions).
pub fn walk_call_targets<'a, A: Allocator + Copy, G: Grammar, E: Effect>(
    bytes: &'a [u8],
    alloc: A,
    effect: &mut E,
) -> Result<(), DecodeError> {
    walk_counted::<(u32, Vec<CodeHint<Vec<CallTarget, A>>, A>), A, G, _>(
        "metadata.code.call_targets",
        bytes,
        alloc,
        effect,
    )
}

/// Appends the minimal encoding of the payload of a section of these call targets. On an error, the
/// sink is unchanged.
///
/// # Errors
///
/// Returns [`TooLong`](crate::fallible::Refused::TooLong) if a count or length would pass
/// 4294967295, and [`Memory`](crate::fallible::Refused::Memory) if an allocation fails. The
/// bytes of the sink are then unchanged.
///
/// # Examples
///
/// ```
/// use dolzhytik::fallible::{Global, append_call_targets};
///
/// let mut payload = vec![];
/// append_call_targets::<Global, _>(&[], &mut payload)?;
/// // The name, no functions.
/// assert_eq!(payload, *b"\x1ametadata.code.call_targets\0");
/// # Ok::<(), dolzhytik::fallible::Refused>(())
/// ```
///
/// # Proved
///
/// After `Ok`: `ok`, the sink gains the encoding that is minimal in both grammars. After an error: `err`, the bytes of the sink are unchanged. In any case: `too_long`, a value that has an encoding never gives `TooLong`.
///
/// ```text
/// ensures ok { OnOk result
///     (AppendsMinimal both_grammars call_targets_payload
///         (map call_targets_view functions.now) sink.old.items sink.new.items) }
/// ensures err { OnErr result (sink.new.items ≡ sink.old.items) }
/// ensures too_long { HasEncoding both_grammars call_targets_payload
///     (map call_targets_view functions.now) → result ≢ Err TooLong }
/// ```
///
/// Definitions: [`AppendsMinimal`](crate::definitions::base::minimal::AppendsMinimal), [`both_grammars`](crate::definitions::base::minimal::Grammars), [`call_targets_payload`](crate::definitions::custom::code_metadata::call_targets_payload), [`call_targets_view`](crate::definitions::custom::code_metadata::call_targets_view), [`HasEncoding`](crate::definitions::base::minimal::HasEncoding). [How to read clauses](crate::definitions).
pub fn append_call_targets<A: Allocator, B: Sink>(
    functions: &[(u32, Vec<CodeHint<Vec<CallTarget, A>>, A>)],
    sink: &mut B,
) -> Result<()> {
    append_counted::<HintsOf<Vec<CallTarget, A>>, (u32, Vec<CodeHint<Vec<CallTarget, A>>, A>), _>(
        functions, sink,
    )
}
