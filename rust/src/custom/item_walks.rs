// Written by tools/to-rust from crates/wasm_custom/src/item_walks.rt: change that.
// Custom sections of counted items that are walked over: an effect takes their minimal encoding.

use crate::vec::Vec;
use crate::custom::hints::{BranchHint, HintValue};
use crate::custom::marked::walk_marked;
use crate::custom::named::after_name;
use crate::custom::relocations::Relocation;
use crate::custom::target_features::FeaturePrefix;
use crate::alloc::Allocator;
use crate::base::{DecodeError, Effect, Grammar, ReadFault, Readable, Shared, Walk, walk_shared, walk_whole};

/// Walks over the payload of a section of this name with a vector of items. No item is kept.
pub(crate) fn walk_counted<'a, T: Walk<G>, A: Allocator + Copy, G: Grammar, E: Effect>(
    name: &str,
    bytes: &'a [u8],
    alloc: A,
    effect: &mut E,
) -> Result<(), DecodeError> {
    let rest = after_name::<A, G>(name, bytes, alloc)?;
    effect.put(&name)?;
    walk_whole::<Vec<T, A>, A, G, _>(rest, alloc, effect)
}

/// Walks over the payload of a producers section, in the grammar `G`.
///
/// # Errors
///
/// Every error except `Memory` means that the bytes are not such a payload.
///
/// # Proved
///
/// After `Ok`: `found`, the bytes as a whole are an encoding, and the effect takes the minimal one. After an error: `none`, the bytes as a whole are no such encoding, unless the cause is `Memory`; `no_memory`, the cause is `Memory` only with an effect whose calls may fail. In any case: `front`, the effect keeps what it took before.
///
/// ```text
/// ensures found { OnOk result
///     (WalksWhole E.seen G.grammar producers_payload bytes.now effect.old effect.new) }
/// ensures none { IfErr result
///     (λ e. e.cause ≢ Memory → RejectsWhole producers_payload
///         (padded_of G.grammar) bytes.now) }
/// ensures no_memory { IfErr result (λ e. e.cause ≡ Memory → E.may_fail) }
/// ensures front { Keeps E.seen effect.old effect.new }
/// ```
///
/// Definitions: [`WalksWhole`](crate::definitions::base::walks::WalksWhole), [`producers_payload`](crate::definitions::custom::producers::producers_payload), [`RejectsWhole`](crate::definitions::base::continuing::RejectsWhole), [`padded_of`](crate::definitions::base::numbers::padded_of), [`Keeps`](crate::definitions::base::walks::Keeps). [How to read clauses](crate::definitions).
pub fn walk_producers<'a, A: Allocator + Copy, G: Grammar, E: Effect>(
    bytes: &'a [u8],
    alloc: A,
    effect: &mut E,
) -> Result<(), DecodeError> {
    walk_counted::<(&'a str, Vec<(&'a str, &'a str), A>), A, G, _>(
        "producers",
        bytes,
        alloc,
        effect,
    )
}

impl Shared for FeaturePrefix {
    fn shared() {}
}

impl<G: Grammar> Walk<G> for FeaturePrefix {
    fn walk<'a, A: Allocator + Copy, E: Effect>(
        bytes: &'a [u8],
        alloc: A,
        effect: &mut E,
    ) -> Result<&'a [u8], DecodeError> {
        walk_shared::<FeaturePrefix, A, G, _>(bytes, alloc, effect)
    }
}

/// Walks over the payload of a target features section, in the grammar `G`.
///
/// # Errors
///
/// Every error except `Memory` means that the bytes are not such a payload.
///
/// # Proved
///
/// After `Ok`: `found`, the bytes as a whole are an encoding, and the effect takes the minimal one. After an error: `none`, the bytes as a whole are no such encoding, unless the cause is `Memory`; `no_memory`, the cause is `Memory` only with an effect whose calls may fail. In any case: `front`, the effect keeps what it took before.
///
/// ```text
/// ensures found { OnOk result
///     (WalksWhole E.seen G.grammar features_payload bytes.now effect.old effect.new) }
/// ensures none { IfErr result
///     (λ e. e.cause ≢ Memory → RejectsWhole features_payload
///         (padded_of G.grammar) bytes.now) }
/// ensures no_memory { IfErr result (λ e. e.cause ≡ Memory → E.may_fail) }
/// ensures front { Keeps E.seen effect.old effect.new }
/// ```
///
/// Definitions: [`WalksWhole`](crate::definitions::base::walks::WalksWhole), [`features_payload`](crate::definitions::custom::target_features::features_payload), [`RejectsWhole`](crate::definitions::base::continuing::RejectsWhole), [`padded_of`](crate::definitions::base::numbers::padded_of), [`Keeps`](crate::definitions::base::walks::Keeps). [How to read clauses](crate::definitions).
pub fn walk_features<'a, A: Allocator + Copy, G: Grammar, E: Effect>(
    bytes: &'a [u8],
    alloc: A,
    effect: &mut E,
) -> Result<(), DecodeError> {
    walk_counted::<(FeaturePrefix, &'a str), A, G, _>("target_features", bytes, alloc, effect)
}

impl<G: Grammar> Walk<G> for HintValue {
    fn walk<'a, A: Allocator + Copy, E: Effect>(
        bytes: &'a [u8],
        alloc: A,
        effect: &mut E,
    ) -> Result<&'a [u8], DecodeError> {
        let (HintValue(value), rest) = <HintValue as Readable<'a, A, G>>::read(bytes, alloc)?;
        effect.put(&value)?;
        Ok(rest)
    }
}

impl<G: Grammar> Walk<G> for BranchHint {
    fn walk<'a, A: Allocator + Copy, E: Effect>(
        bytes: &'a [u8],
        alloc: A,
        effect: &mut E,
    ) -> Result<&'a [u8], DecodeError> {
        let after = <u32 as Walk<G>>::walk(bytes, alloc, effect)?;
        walk_marked::<HintValue, A, G, _>(0x01, after, alloc, effect)
    }
}

/// Walks over the payload of a branch hint section, in the grammar `G`.
///
/// # Errors
///
/// Every error except `Memory` means that the bytes are not such a payload.
///
/// # Proved
///
/// After `Ok`: `found`, the bytes as a whole are an encoding, and the effect takes the minimal one. After an error: `none`, the bytes as a whole are no such encoding, unless the cause is `Memory`; `no_memory`, the cause is `Memory` only with an effect whose calls may fail. In any case: `front`, the effect keeps what it took before.
///
/// ```text
/// ensures found { OnOk result
///     (WalksWhole E.seen G.grammar hints_payload bytes.now effect.old effect.new) }
/// ensures none { IfErr result
///     (λ e. e.cause ≢ Memory → RejectsWhole hints_payload (padded_of G.grammar) bytes.now)
///     }
/// ensures no_memory { IfErr result (λ e. e.cause ≡ Memory → E.may_fail) }
/// ensures front { Keeps E.seen effect.old effect.new }
/// ```
///
/// Definitions: [`WalksWhole`](crate::definitions::base::walks::WalksWhole), [`hints_payload`](crate::definitions::custom::hints::hints_payload), [`RejectsWhole`](crate::definitions::base::continuing::RejectsWhole), [`padded_of`](crate::definitions::base::numbers::padded_of), [`Keeps`](crate::definitions::base::walks::Keeps). [How to read clauses](crate::definitions).
pub fn walk_hints<'a, A: Allocator + Copy, G: Grammar, E: Effect>(
    bytes: &'a [u8],
    alloc: A,
    effect: &mut E,
) -> Result<(), DecodeError> {
    walk_counted::<(u32, Vec<BranchHint, A>), A, G, _>(
        "metadata.code.branch_hint",
        bytes,
        alloc,
        effect,
    )
}

impl Shared for Relocation {
    fn shared() {}
}

impl<G: Grammar> Walk<G> for Relocation {
    fn walk<'a, A: Allocator + Copy, E: Effect>(
        bytes: &'a [u8],
        alloc: A,
        effect: &mut E,
    ) -> Result<&'a [u8], DecodeError> {
        walk_shared::<Relocation, A, G, _>(bytes, alloc, effect)
    }
}

/// Walks over the payload of a relocation section, in the grammar `G`. The offsets of the
/// relocations stay as they are, even if the section that they refer to is minimized too.
///
/// # Errors
///
/// Every error except `Memory` means that the bytes are not such a payload.
///
/// # Proved
///
/// After `Ok`: `found`, the bytes as a whole are an encoding, and the effect takes the minimal one. After an error: `none`, the bytes as a whole are no such encoding, unless the cause is `Memory`; `no_memory`, the cause is `Memory` only with an effect whose calls may fail. In any case: `front`, the effect keeps what it took before.
///
/// ```text
/// ensures found { OnOk result
///     (WalksWhole E.seen G.grammar relocations_payload bytes.now effect.old effect.new) }
/// ensures none { IfErr result
///     (λ e. e.cause ≢ Memory → RejectsWhole relocations_payload
///         (padded_of G.grammar) bytes.now) }
/// ensures no_memory { IfErr result (λ e. e.cause ≡ Memory → E.may_fail) }
/// ensures front { Keeps E.seen effect.old effect.new }
/// ```
///
/// Definitions: [`WalksWhole`](crate::definitions::base::walks::WalksWhole), [`relocations_payload`](crate::definitions::custom::relocations::relocations_payload), [`RejectsWhole`](crate::definitions::base::continuing::RejectsWhole), [`padded_of`](crate::definitions::base::numbers::padded_of), [`Keeps`](crate::definitions::base::walks::Keeps). [How to read clauses](crate::definitions).
pub fn walk_relocations<'a, A: Allocator + Copy, G: Grammar, E: Effect>(
    bytes: &'a [u8],
    alloc: A,
    effect: &mut E,
) -> Result<(), DecodeError> {
    let (name, rest) = <&'a str as Readable<'a, A, G>>::read(bytes, alloc)?;
    if !name.as_bytes().starts_with(b"reloc.") {
        return Err(ReadFault::UnknownTag.at(name.as_bytes()).before(rest));
    }
    effect.put(&name)?;
    walk_whole::<(u32, Vec<Relocation, A>), A, G, _>(rest, alloc, effect)
}
