// Written by tools/to-rust from crates/wasm_custom/src/core_walks.rt: change that.
// Sections of core dumps that are walked over: an effect takes their minimal encoding.

use crate::vec::Vec;
use crate::custom::core_dumps::CoreInstance;
use crate::custom::core_stack::CoreFrame;
use crate::custom::core_values::CoreDumpValue;
use crate::custom::item_walks::walk_counted;
use crate::custom::marked::{MarkedName, walk_marked};
use crate::custom::single::walk_single;
use crate::alloc::Allocator;
use crate::base::{Canonical, DecodeError, Effect, Grammar, Walk, walk_value};

impl<'s, G: Grammar> Walk<G> for MarkedName<'s> {
    /// # Proved
    ///
    /// After `Ok`: `found`, the bytes begin with an encoding, the effect takes the minimal one, and the returned bytes follow it. After an error: `none`, the bytes do not begin with such an encoding, unless the cause is `Memory`; `no_memory`, the cause is `Memory` only with an effect whose calls may fail. In any case: `front`, the effect keeps what it took before.
    ///
    /// ```text
    /// ensures found { IfOk result
    ///     (λ rest. Walks E.seen G.grammar marked_name bytes.now rest.now effect.old
    ///         effect.new) }
    /// ensures none { IfErr result
    ///     (λ e. e.cause ≢ Memory → Rejects marked_name (padded_of G.grammar) bytes.now) }
    /// ensures no_memory { IfErr result (λ e. e.cause ≡ Memory → E.may_fail) }
    /// ensures front { Keeps E.seen effect.old effect.new }
    /// ```
    ///
    /// Definitions: [`Walks`](crate::definitions::base::walks::Walks), [`marked_name`](crate::definitions::custom::core_dumps::marked_name), [`Rejects`](crate::definitions::base::decoding::Rejects), [`padded_of`](crate::definitions::base::numbers::padded_of), [`Keeps`](crate::definitions::base::walks::Keeps). [How to read clauses](crate::definitions).
    fn walk<'a, A: Allocator + Copy, E: Effect>(
        bytes: &'a [u8],
        alloc: A,
        effect: &mut E,
    ) -> Result<&'a [u8], DecodeError> {
        walk_marked::<&'a str, A, G, _>(0x00, bytes, alloc, effect)
    }
}

/// Walks over the payload of a core dump's process section, in the grammar `G`.
///
/// # Errors
///
/// Every error except `Memory` means that the bytes are not such a payload.
///
/// # Proved
///
/// After `Ok`: `found`, the bytes as a whole are an encoding, and the effect takes the minimal one. After an error: `none`, the bytes as a whole are no such encoding, unless the cause is `Memory`; `no_memory`, the cause is `Memory` only with an effect whose calls may fail. In any case: `front`, the effect keeps what it took before.
///
/// ```text
/// ensures found { OnOk result
///     (WalksWhole E.seen G.grammar core_payload bytes.now effect.old effect.new) }
/// ensures none { IfErr result
///     (λ e. e.cause ≢ Memory → RejectsWhole core_payload (padded_of G.grammar) bytes.now)
///     }
/// ensures no_memory { IfErr result (λ e. e.cause ≡ Memory → E.may_fail) }
/// ensures front { Keeps E.seen effect.old effect.new }
/// ```
///
/// Definitions: [`WalksWhole`](crate::definitions::base::walks::WalksWhole), [`core_payload`](crate::definitions::custom::core_dumps::core_payload), [`RejectsWhole`](crate::definitions::base::continuing::RejectsWhole), [`padded_of`](crate::definitions::base::numbers::padded_of), [`Keeps`](crate::definitions::base::walks::Keeps). [How to read clauses](crate::definitions).
pub fn walk_process<'a, A: Allocator + Copy, G: Grammar, E: Effect>(
    bytes: &'a [u8],
    alloc: A,
    effect: &mut E,
) -> Result<(), DecodeError> {
    walk_single::<MarkedName<'a>, A, G, _>("core", bytes, alloc, effect)
}

/// Walks over the payload of a core dump's modules section, in the grammar `G`.
///
/// # Errors
///
/// Every error except `Memory` means that the bytes are not such a payload.
///
/// # Proved
///
/// After `Ok`: `found`, the bytes as a whole are an encoding, and the effect takes the minimal one. After an error: `none`, the bytes as a whole are no such encoding, unless the cause is `Memory`; `no_memory`, the cause is `Memory` only with an effect whose calls may fail. In any case: `front`, the effect keeps what it took before.
///
/// ```text
/// ensures found { OnOk result
///     (WalksWhole E.seen G.grammar modules_payload bytes.now effect.old effect.new) }
/// ensures none { IfErr result
///     (λ e. e.cause ≢ Memory → RejectsWhole modules_payload
///         (padded_of G.grammar) bytes.now) }
/// ensures no_memory { IfErr result (λ e. e.cause ≡ Memory → E.may_fail) }
/// ensures front { Keeps E.seen effect.old effect.new }
/// ```
///
/// Definitions: [`WalksWhole`](crate::definitions::base::walks::WalksWhole), [`modules_payload`](crate::definitions::custom::core_dumps::modules_payload), [`RejectsWhole`](crate::definitions::base::continuing::RejectsWhole), [`padded_of`](crate::definitions::base::numbers::padded_of), [`Keeps`](crate::definitions::base::walks::Keeps). [How to read clauses](crate::definitions).
pub fn walk_modules<'a, A: Allocator + Copy, G: Grammar, E: Effect>(
    bytes: &'a [u8],
    alloc: A,
    effect: &mut E,
) -> Result<(), DecodeError> {
    walk_counted::<MarkedName<'a>, A, G, _>("coremodules", bytes, alloc, effect)
}

impl<G: Grammar, C: Allocator> Walk<G> for CoreInstance<C> {
    fn walk<'a, A: Allocator + Copy, E: Effect>(
        bytes: &'a [u8],
        alloc: A,
        effect: &mut E,
    ) -> Result<&'a [u8], DecodeError> {
        walk_marked::<(u32, (Vec<u32, C>, Vec<u32, C>)), A, G, _>(0x00, bytes, alloc, effect)
    }
}

/// Walks over the payload of a core dump's instances section, in the grammar `G`.
///
/// # Errors
///
/// Every error except `Memory` means that the bytes are not such a payload.
///
/// # Proved
///
/// After `Ok`: `found`, the bytes as a whole are an encoding, and the effect takes the minimal one. After an error: `none`, the bytes as a whole are no such encoding, unless the cause is `Memory`; `no_memory`, the cause is `Memory` only with an effect whose calls may fail. In any case: `front`, the effect keeps what it took before.
///
/// ```text
/// ensures found { OnOk result
///     (WalksWhole E.seen G.grammar instances_payload bytes.now effect.old effect.new) }
/// ensures none { IfErr result
///     (λ e. e.cause ≢ Memory → RejectsWhole instances_payload
///         (padded_of G.grammar) bytes.now) }
/// ensures no_memory { IfErr result (λ e. e.cause ≡ Memory → E.may_fail) }
/// ensures front { Keeps E.seen effect.old effect.new }
/// ```
///
/// Definitions: [`WalksWhole`](crate::definitions::base::walks::WalksWhole), [`instances_payload`](crate::definitions::custom::core_dumps::instances_payload), [`RejectsWhole`](crate::definitions::base::continuing::RejectsWhole), [`padded_of`](crate::definitions::base::numbers::padded_of), [`Keeps`](crate::definitions::base::walks::Keeps). [How to read clauses](crate::definitions).
pub fn walk_instances<'a, A: Allocator + Copy, G: Grammar, E: Effect>(
    bytes: &'a [u8],
    alloc: A,
    effect: &mut E,
) -> Result<(), DecodeError> {
    walk_counted::<CoreInstance<A>, A, G, _>("coreinstances", bytes, alloc, effect)
}

impl Canonical for CoreDumpValue {
    fn canonical() {}
}

impl<G: Grammar> Walk<G> for CoreDumpValue {
    fn walk<'a, A: Allocator + Copy, E: Effect>(
        bytes: &'a [u8],
        alloc: A,
        effect: &mut E,
    ) -> Result<&'a [u8], DecodeError> {
        walk_value::<CoreDumpValue, A, G, _>(bytes, alloc, effect)
    }
}

impl<G: Grammar, C: Allocator> Walk<G> for CoreFrame<C> {
    fn walk<'a, A: Allocator + Copy, E: Effect>(
        bytes: &'a [u8],
        alloc: A,
        effect: &mut E,
    ) -> Result<&'a [u8], DecodeError> {
        let after = walk_marked::<(u32, (u32, u32)), A, G, _>(0x00, bytes, alloc, effect)?;
        <(Vec<CoreDumpValue, C>, Vec<CoreDumpValue, C>) as Walk<G>>::walk(after, alloc, effect)
    }
}

/// Walks over the payload of a core dump's stack section, in the grammar `G`.
///
/// # Errors
///
/// Every error except `Memory` means that the bytes are not such a payload.
///
/// # Proved
///
/// After `Ok`: `found`, the bytes as a whole are an encoding, and the effect takes the minimal one. After an error: `none`, the bytes as a whole are no such encoding, unless the cause is `Memory`; `no_memory`, the cause is `Memory` only with an effect whose calls may fail. In any case: `front`, the effect keeps what it took before.
///
/// ```text
/// ensures found { OnOk result
///     (WalksWhole E.seen G.grammar stack_payload bytes.now effect.old effect.new) }
/// ensures none { IfErr result
///     (λ e. e.cause ≢ Memory → RejectsWhole stack_payload (padded_of G.grammar) bytes.now)
///     }
/// ensures no_memory { IfErr result (λ e. e.cause ≡ Memory → E.may_fail) }
/// ensures front { Keeps E.seen effect.old effect.new }
/// ```
///
/// Definitions: [`WalksWhole`](crate::definitions::base::walks::WalksWhole), [`stack_payload`](crate::definitions::custom::core_stacks::stack_payload), [`RejectsWhole`](crate::definitions::base::continuing::RejectsWhole), [`padded_of`](crate::definitions::base::numbers::padded_of), [`Keeps`](crate::definitions::base::walks::Keeps). [How to read clauses](crate::definitions).
pub fn walk_stack<'a, A: Allocator + Copy, G: Grammar, E: Effect>(
    bytes: &'a [u8],
    alloc: A,
    effect: &mut E,
) -> Result<(), DecodeError> {
    walk_single::<(MarkedName<'a>, Vec<CoreFrame<A>, A>), A, G, _>(
        "corestack",
        bytes,
        alloc,
        effect,
    )
}
