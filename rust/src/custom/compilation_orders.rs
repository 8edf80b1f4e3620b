// Written by tools/to-rust from crates/wasm_custom/src/compilation_orders.rt: change that.
// The compilation order section: its builder, its reader and its walk.

use crate::vec::{Sink, Vec};
use crate::custom::code_metadata::{CodeHint, HintPayload, HintsOf, ReadPayload, WalkPayload};
use crate::custom::counted::{append_counted, read_counted};
use crate::custom::entries::CustomEntries;
use crate::custom::item_walks::walk_counted;
use crate::alloc::{Allocator, Global};
use crate::base::{DecodeError, Effect, Encode, Grammar, Optional, Pieces, Readable, Result, Walk, read_whole, walk_whole};

/// The compilation order section: which functions are worth compiling first, as a list of hints for
/// each function. It belongs before the code section.
///
/// ```
/// # fn example() -> Result<(), Box<dyn std::error::Error>> {
/// # use dolzhytik::{fallible::*, reader::*};
/// use dolzhytik::fallible::{CodeHint, CompilationOrder, CompilationOrders, Global};
///
/// let mut orders = CompilationOrders::new(Global);
/// let value = CompilationOrder { order: 1, hotness: Some(100) };
/// orders.function_hints(0, [CodeHint { offset: 0, value }])?;
/// # Ok(())
/// # }
/// # example().unwrap();
/// ```
///
/// # Examples
///
/// ```
/// use dolzhytik::fallible::{CodeHint, CompilationOrder, CompilationOrders, Encode, Global};
///
/// let value = CompilationOrder { order: 1, hotness: Some(5) };
/// let mut orders = CompilationOrders::new(Global);
/// orders.function_hints(7, [CodeHint { offset: 0, value }])?;
/// let mut bytes = vec![];
/// orders.encode(&mut bytes)?;
/// // Size 39, the name; one function, 7, with one hint: offset 0, two bytes, order 1, hotness 5.
/// assert_eq!(bytes, *b"\x27\x1fmetadata.code.compilation_order\x01\x07\x01\0\x02\x01\x05");
/// # Ok::<(), dolzhytik::fallible::Refused>(())
/// ```
pub type CompilationOrders<A = Global> = CustomEntries<HintsOf<CompilationOrder>, Pieces<A>>;

/// When a function is to be compiled. The compilation hints proposal has such hints at offset 0, for
/// the whole function.
///
/// The compilation hints proposal defines it. Its example is that of
/// [`CompilationOrders`](crate::fallible::CompilationOrders).
#[derive(Clone, Copy, Debug)]
pub struct CompilationOrder {
    /// The position of the function in the order.
    pub order: u32,
    /// How hot the function is, if that is known.
    pub hotness: Option<u32>,
}

/// # Defined
///
/// ```text
/// Value = { OrderModel }
/// name = { orders_name }
/// format = { order }
/// is_value = { IsOrder }
/// encoding = { order_encoding }
/// view = { λ o. o }
/// ```
///
/// Definitions: [`orders_name`](crate::definitions::custom::code_metadata::orders_name), [`order`](crate::definitions::custom::code_metadata::order), [`IsOrder`](crate::definitions::custom::code_metadata::IsOrder), [`order_encoding`](crate::definitions::custom::code_metadata::order_encoding). [How to read clauses](crate::definitions).
impl HintPayload for CompilationOrder {
    fn section_name() -> &'static str {
        "metadata.code.compilation_order"
    }

    fn payload_laws() {}

    fn append_payload<B: Sink>(&self, sink: &mut B) -> Result<()> {
        (self.order, Optional(self.hotness)).encode(sink)
    }
}

impl<'a, A: Allocator + Copy, G: Grammar> ReadPayload<'a, A, G> for CompilationOrder {
    fn read_payload(bytes: &'a [u8], alloc: A) -> Result<CompilationOrder, DecodeError> {
        let (order, rest) = <u32 as Readable<'a, A, G>>::read(bytes, alloc)?;
        if rest.is_empty() {
            return Ok(CompilationOrder {
                order,
                hotness: None,
            });
        }
        let hotness = Some(read_whole::<'a, u32, A, G>(rest, alloc)?);
        Ok(CompilationOrder { order, hotness })
    }
}

impl<G: Grammar> WalkPayload<G> for CompilationOrder {
    fn walk_payload<'a, A: Allocator + Copy, E: Effect>(
        bytes: &'a [u8],
        alloc: A,
        effect: &mut E,
    ) -> Result<(), DecodeError> {
        let rest = <u32 as Walk<G>>::walk(bytes, alloc, effect)?;
        if rest.is_empty() {
            return Ok(());
        }
        walk_whole::<u32, A, G, _>(rest, alloc, effect)
    }
}

/// Decodes the payload of a compilation order section, in the grammar `G`: for each function
/// its index, and its compilation orders.
///
/// # Errors
///
/// Every error except `Memory` means that the bytes are not such a payload.
///
/// # Examples
///
/// ```
/// use dolzhytik::fallible::{Global, read_orders};
/// use dolzhytik::reader::Padded;
///
/// // The name; one function, 7, of one hint: offset 0, two bytes, order 1, hotness 5.
/// let payload = b"\x1fmetadata.code.compilation_order\x01\x07\x01\x00\x02\x01\x05";
/// let functions = read_orders::<Global, Padded>(payload, Global)?;
/// let (function, hints) = &functions[0];
/// assert_eq!(
///     (*function, hints[0].value.order, hints[0].value.hotness),
///     (7, 1, Some(5))
/// );
/// # Ok::<(), dolzhytik::reader::DecodeError>(())
/// ```
///
/// # Proved
///
/// After `Ok`: `found`, the bytes as a whole encode the value. After an error: `none`, the bytes as a whole are no such encoding, unless the cause is `Memory`.
///
/// ```text
/// ensures found { IfOk result
///     (λ x. orders_payload (padded_of G.grammar) bytes.now (map orders_view x.items)) }
/// ensures none { IfErr result
///     (λ e. e.cause ≢ Memory → RejectsWhole orders_payload
///         (padded_of G.grammar) bytes.now) }
/// ```
///
/// Definitions: [`orders_payload`](crate::definitions::custom::code_metadata::orders_payload), [`padded_of`](crate::definitions::base::numbers::padded_of), [`orders_view`](crate::definitions::custom::code_metadata::orders_view), [`RejectsWhole`](crate::definitions::base::continuing::RejectsWhole). [How to read clauses](crate::definitions).
pub fn read_orders<'a, A: Allocator + Copy, G: Grammar>(
    bytes: &'a [u8],
    alloc: A,
) -> Result<Vec<(u32, Vec<CodeHint<CompilationOrder>, A>), A>, DecodeError> {
    read_counted::<'a, HintsOf<CompilationOrder>, (u32, Vec<CodeHint<CompilationOrder>, A>), A, G>(
        bytes, alloc,
    )
}

/// Walks over the payload of a compilation order section, in the grammar `G`.
///
/// # Errors
///
/// Every error except `Memory` means that the bytes are not such a payload.
///
/// # Proved
///
/// After `Ok`: `found`, the bytes as a whole are an encoding, and the effect takes the minimal one. After an error: `none`, the bytes as a whole are no such encoding, unless the cause is `Memory`; `no_memory`, the cause is `Memory` only with an effect whose calls may fail. In any case: `front`, the effect keeps what it took before.
///
/// ```text
/// ensures found { OnOk result
///     (WalksWhole E.seen G.grammar orders_payload bytes.now effect.old effect.new) }
/// ensures none { IfErr result
///     (λ e. e.cause ≢ Memory → RejectsWhole orders_payload
///         (padded_of G.grammar) bytes.now) }
/// ensures no_memory { IfErr result (λ e. e.cause ≡ Memory → E.may_fail) }
/// ensures front { Keeps E.seen effect.old effect.new }
/// ```
///
/// Definitions: [`WalksWhole`](crate::definitions::base::walks::WalksWhole), [`orders_payload`](crate::definitions::custom::code_metadata::orders_payload), [`RejectsWhole`](crate::definitions::base::continuing::RejectsWhole), [`padded_of`](crate::definitions::base::numbers::padded_of), [`Keeps`](crate::definitions::base::walks::Keeps). [How to read clauses](crate::definitions).
pub fn walk_orders<'a, A: Allocator + Copy, G: Grammar, E: Effect>(
    bytes: &'a [u8],
    alloc: A,
    effect: &mut E,
) -> Result<(), DecodeError> {
    walk_counted::<(u32, Vec<CodeHint<CompilationOrder>, A>), A, G, _>(
        "metadata.code.compilation_order",
        bytes,
        alloc,
        effect,
    )
}

/// Appends the minimal encoding of the payload of a section of these orders. On an error, the
/// sink is unchanged.
///
/// # Errors
///
/// Returns [`TooLong`](crate::fallible::Refused::TooLong) if a count or length would pass
/// 4294967295, and [`Memory`](crate::fallible::Refused::Memory) if an allocation fails. The
/// bytes of the sink are then unchanged.
///
/// # Examples
///
/// ```
/// use dolzhytik::fallible::{Global, append_orders};
///
/// let mut payload = vec![];
/// append_orders::<Global, _>(&[], &mut payload)?;
/// // The name, no functions.
/// assert_eq!(payload, *b"\x1fmetadata.code.compilation_order\0");
/// # Ok::<(), dolzhytik::fallible::Refused>(())
/// ```
///
/// # Proved
///
/// After `Ok`: `ok`, the sink gains the encoding that is minimal in both grammars. After an error: `err`, the bytes of the sink are unchanged. In any case: `too_long`, a value that has an encoding never gives `TooLong`.
///
/// ```text
/// ensures ok { OnOk result
///     (AppendsMinimal both_grammars orders_payload
///         (map orders_view functions.now) sink.old.items sink.new.items) }
/// ensures err { OnErr result (sink.new.items ≡ sink.old.items) }
/// ensures too_long { HasEncoding both_grammars orders_payload
///     (map orders_view functions.now) → result ≢ Err TooLong }
/// ```
///
/// Definitions: [`AppendsMinimal`](crate::definitions::base::minimal::AppendsMinimal), [`both_grammars`](crate::definitions::base::minimal::Grammars), [`orders_payload`](crate::definitions::custom::code_metadata::orders_payload), [`orders_view`](crate::definitions::custom::code_metadata::orders_view), [`HasEncoding`](crate::definitions::base::minimal::HasEncoding). [How to read clauses](crate::definitions).
pub fn append_orders<A: Allocator, B: Sink>(
    functions: &[(u32, Vec<CodeHint<CompilationOrder>, A>)],
    sink: &mut B,
) -> Result<()> {
    append_counted::<HintsOf<CompilationOrder>, (u32, Vec<CodeHint<CompilationOrder>, A>), _>(
        functions, sink,
    )
}
