// Written by tools/to-rust from crates/wasm_custom/src/link_walks.rt: change that.
// Linking sections that are walked over: an effect takes their minimal encoding.

use crate::vec::Vec;
use crate::custom::comdats::{Comdat, ComdatSymbol};
use crate::custom::init_functions::InitFunction;
use crate::custom::linking::{LinkItem, VERSION, after_version};
use crate::custom::named::after_name;
use crate::custom::segments::SegmentInfo;
use crate::custom::standard::require_standard;
use crate::custom::symbols::Symbol;
use crate::alloc::Allocator;
use crate::base::{DecodeError, Effect, Grammar, Readable, Shared, SizePrefixed, Walk, walk_shared, walk_to_end};

impl<'s, G: Grammar> Walk<G> for SegmentInfo<'s> {
    /// # Proved
    ///
    /// After `Ok`: `found`, the bytes begin with an encoding, the effect takes the minimal one, and the returned bytes follow it. After an error: `none`, the bytes do not begin with such an encoding, unless the cause is `Memory`; `no_memory`, the cause is `Memory` only with an effect whose calls may fail. In any case: `front`, the effect keeps what it took before.
    ///
    /// ```text
    /// ensures found { IfOk result
    ///     (λ rest. Walks E.seen G.grammar segment bytes.now rest.now effect.old effect.new) }
    /// ensures none { IfErr result
    ///     (λ e. e.cause ≢ Memory → Rejects segment (padded_of G.grammar) bytes.now) }
    /// ensures no_memory { IfErr result (λ e. e.cause ≡ Memory → E.may_fail) }
    /// ensures front { Keeps E.seen effect.old effect.new }
    /// ```
    ///
    /// Definitions: [`Walks`](crate::definitions::base::walks::Walks), [`segment`](crate::definitions::custom::segments::segment), [`Rejects`](crate::definitions::base::decoding::Rejects), [`padded_of`](crate::definitions::base::numbers::padded_of), [`Keeps`](crate::definitions::base::walks::Keeps). [How to read clauses](crate::definitions).
    fn walk<'a, A: Allocator + Copy, E: Effect>(
        bytes: &'a [u8],
        alloc: A,
        effect: &mut E,
    ) -> Result<&'a [u8], DecodeError> {
        <(&'a str, (u32, u32)) as Walk<G>>::walk(bytes, alloc, effect)
    }
}

impl<G: Grammar> Walk<G> for InitFunction {
    fn walk<'a, A: Allocator + Copy, E: Effect>(
        bytes: &'a [u8],
        alloc: A,
        effect: &mut E,
    ) -> Result<&'a [u8], DecodeError> {
        <(u32, u32) as Walk<G>>::walk(bytes, alloc, effect)
    }
}

impl Shared for ComdatSymbol {
    fn shared() {}
}

impl<G: Grammar> Walk<G> for ComdatSymbol {
    fn walk<'a, A: Allocator + Copy, E: Effect>(
        bytes: &'a [u8],
        alloc: A,
        effect: &mut E,
    ) -> Result<&'a [u8], DecodeError> {
        walk_shared::<ComdatSymbol, A, G, _>(bytes, alloc, effect)
    }
}

impl<'s, G: Grammar, C: Allocator> Walk<G> for Comdat<'s, C> {
    /// # Proved
    ///
    /// After `Ok`: `found`, the bytes begin with an encoding, the effect takes the minimal one, and the returned bytes follow it. After an error: `none`, the bytes do not begin with such an encoding, unless the cause is `Memory`; `no_memory`, the cause is `Memory` only with an effect whose calls may fail. In any case: `front`, the effect keeps what it took before.
    ///
    /// ```text
    /// ensures found { IfOk result
    ///     (λ rest. Walks E.seen G.grammar comdat bytes.now rest.now effect.old effect.new) }
    /// ensures none { IfErr result
    ///     (λ e. e.cause ≢ Memory → Rejects comdat (padded_of G.grammar) bytes.now) }
    /// ensures no_memory { IfErr result (λ e. e.cause ≡ Memory → E.may_fail) }
    /// ensures front { Keeps E.seen effect.old effect.new }
    /// ```
    ///
    /// Definitions: [`Walks`](crate::definitions::base::walks::Walks), [`comdat`](crate::definitions::custom::comdats::comdat), [`Rejects`](crate::definitions::base::decoding::Rejects), [`padded_of`](crate::definitions::base::numbers::padded_of), [`Keeps`](crate::definitions::base::walks::Keeps). [How to read clauses](crate::definitions).
    fn walk<'a, A: Allocator + Copy, E: Effect>(
        bytes: &'a [u8],
        alloc: A,
        effect: &mut E,
    ) -> Result<&'a [u8], DecodeError> {
        <(&'a str, (u32, Vec<ComdatSymbol, C>)) as Walk<G>>::walk(bytes, alloc, effect)
    }
}

impl<'s> Shared for Symbol<'s> {
    /// # Proved
    ///
    /// ```text
    /// ensures { both_grammars ≡ both_grammars }
    /// ```
    ///
    /// Definitions: [`both_grammars`](crate::definitions::base::minimal::Grammars). [How to read clauses](crate::definitions).
    fn shared() {}
}

impl<'s, G: Grammar> Walk<G> for Symbol<'s> {
    /// # Proved
    ///
    /// After `Ok`: `found`, the bytes begin with an encoding, the effect takes the minimal one, and the returned bytes follow it. After an error: `none`, the bytes do not begin with such an encoding, unless the cause is `Memory`; `no_memory`, the cause is `Memory` only with an effect whose calls may fail. In any case: `front`, the effect keeps what it took before.
    ///
    /// ```text
    /// ensures found { IfOk result
    ///     (λ rest. Walks E.seen G.grammar symbol bytes.now rest.now effect.old effect.new) }
    /// ensures none { IfErr result
    ///     (λ e. e.cause ≢ Memory → Rejects symbol (padded_of G.grammar) bytes.now) }
    /// ensures no_memory { IfErr result (λ e. e.cause ≡ Memory → E.may_fail) }
    /// ensures front { Keeps E.seen effect.old effect.new }
    /// ```
    ///
    /// Definitions: [`Walks`](crate::definitions::base::walks::Walks), [`symbol`](crate::definitions::custom::symbols::symbol), [`Rejects`](crate::definitions::base::decoding::Rejects), [`padded_of`](crate::definitions::base::numbers::padded_of), [`Keeps`](crate::definitions::base::walks::Keeps). [How to read clauses](crate::definitions).
    fn walk<'a, A: Allocator + Copy, E: Effect>(
        bytes: &'a [u8],
        alloc: A,
        effect: &mut E,
    ) -> Result<&'a [u8], DecodeError> {
        walk_shared::<Symbol<'a>, A, G, _>(bytes, alloc, effect)
    }
}

impl<'s, G: Grammar, C: Allocator> Walk<G> for LinkItem<'s, C> {
    /// # Proved
    ///
    /// After `Ok`: `found`, the bytes begin with an encoding, the effect takes the minimal one, and the returned bytes follow it. After an error: `none`, the bytes do not begin with such an encoding, unless the cause is `Memory`; `no_memory`, the cause is `Memory` only with an effect whose calls may fail. In any case: `front`, the effect keeps what it took before.
    ///
    /// ```text
    /// ensures found { IfOk result
    ///     (λ rest. Walks E.seen G.grammar link bytes.now rest.now effect.old effect.new) }
    /// ensures none { IfErr result
    ///     (λ e. e.cause ≢ Memory → Rejects link (padded_of G.grammar) bytes.now) }
    /// ensures no_memory { IfErr result (λ e. e.cause ≡ Memory → E.may_fail) }
    /// ensures front { Keeps E.seen effect.old effect.new }
    /// ```
    ///
    /// Definitions: [`Walks`](crate::definitions::base::walks::Walks), [`link`](crate::definitions::custom::linking::link), [`Rejects`](crate::definitions::base::decoding::Rejects), [`padded_of`](crate::definitions::base::numbers::padded_of), [`Keeps`](crate::definitions::base::walks::Keeps). [How to read clauses](crate::definitions).
    fn walk<'a, A: Allocator + Copy, E: Effect>(
        bytes: &'a [u8],
        alloc: A,
        effect: &mut E,
    ) -> Result<&'a [u8], DecodeError> {
        let (id, rest) = <u8 as Readable<'a, A, G>>::read(bytes, alloc)?;
        effect.put(&id)?;
        match id {
            5 => {
                require_standard::<G>(rest)?;
                <SizePrefixed<Vec<SegmentInfo<'a>, C>> as Walk<G>>::walk(rest, alloc, effect)
            }
            6 => {
                require_standard::<G>(rest)?;
                <SizePrefixed<Vec<InitFunction, C>> as Walk<G>>::walk(rest, alloc, effect)
            }
            7 => {
                require_standard::<G>(rest)?;
                <SizePrefixed<Vec<Comdat<'a, C>, C>> as Walk<G>>::walk(rest, alloc, effect)
            }
            8 => <SizePrefixed<Vec<Symbol<'a>, C>> as Walk<G>>::walk(rest, alloc, effect),
            9 => <SizePrefixed<&'a str> as Walk<G>>::walk(rest, alloc, effect),
            _ => {
                require_standard::<G>(rest)?;
                <&'a [u8] as Walk<G>>::walk(rest, alloc, effect)
            }
        }
    }
}

/// Walks over the payload of a linking section, in the grammar `G`.
///
/// # Errors
///
/// Every error except `Memory` means that the bytes are not such a payload.
///
/// # Proved
///
/// After `Ok`: `found`, the bytes as a whole are an encoding, and the effect takes the minimal one. After an error: `none`, the bytes as a whole are no such encoding, unless the cause is `Memory`; `no_memory`, the cause is `Memory` only with an effect whose calls may fail. In any case: `front`, the effect keeps what it took before.
///
/// ```text
/// ensures found { OnOk result
///     (WalksWhole E.seen G.grammar linking_payload bytes.now effect.old effect.new) }
/// ensures none { IfErr result
///     (λ e. e.cause ≢ Memory → RejectsWhole linking_payload
///         (padded_of G.grammar) bytes.now) }
/// ensures no_memory { IfErr result (λ e. e.cause ≡ Memory → E.may_fail) }
/// ensures front { Keeps E.seen effect.old effect.new }
/// ```
///
/// Definitions: [`WalksWhole`](crate::definitions::base::walks::WalksWhole), [`linking_payload`](crate::definitions::custom::linking::linking_payload), [`RejectsWhole`](crate::definitions::base::continuing::RejectsWhole), [`padded_of`](crate::definitions::base::numbers::padded_of), [`Keeps`](crate::definitions::base::walks::Keeps). [How to read clauses](crate::definitions).
pub fn walk_links<'a, A: Allocator + Copy, G: Grammar, E: Effect>(
    bytes: &'a [u8],
    alloc: A,
    effect: &mut E,
) -> Result<(), DecodeError> {
    let rest = after_name::<A, G>("linking", bytes, alloc)?;
    let rest = after_version::<A, G>(rest, alloc)?;
    effect.put(&"linking")?;
    effect.put(&VERSION)?;
    walk_to_end::<LinkItem<'a, A>, A, G, _>(rest, alloc, effect)
}
