// Written by tools/to-rust from crates/wasm_custom/src/name_walks.rt: change that.
// Name sections that are walked over: an effect takes their minimal encoding.

use crate::vec::Vec;
use crate::custom::named::after_name;
use crate::custom::names::{NameItem, NameKind, name_kind_of};
use crate::alloc::Allocator;
use crate::base::{DecodeError, Effect, Grammar, Readable, SizePrefixed, Walk, walk_to_end};

/// Walks over the size-prefixed content of a subsection of this kind.
fn walk_after_id<'a, A: Allocator + Copy, G: Grammar, E: Effect>(
    kind: NameKind,
    id: u8,
    bytes: &'a [u8],
    alloc: A,
    effect: &mut E,
) -> Result<&'a [u8], DecodeError> {
    match kind {
        NameKind::Module => <SizePrefixed<&'a str> as Walk<G>>::walk(bytes, alloc, effect),
        NameKind::Map => <SizePrefixed<Vec<(u32, &'a str), A>> as Walk<G>>::walk(
            bytes, alloc, effect,
        ),
        NameKind::Indirect => <SizePrefixed<Vec<(u32, Vec<(u32, &'a str), A>), A>> as Walk<
            G,
        >>::walk(bytes, alloc, effect),
        NameKind::Other => <&'a [u8] as Walk<G>>::walk(bytes, alloc, effect),
    }
}

impl<'s, G: Grammar, C: Allocator> Walk<G> for NameItem<'s, C> {
    /// # Proved
    ///
    /// After `Ok`: `found`, the bytes begin with an encoding, the effect takes the minimal one, and the returned bytes follow it. After an error: `none`, the bytes do not begin with such an encoding, unless the cause is `Memory`; `no_memory`, the cause is `Memory` only with an effect whose calls may fail. In any case: `front`, the effect keeps what it took before.
    ///
    /// ```text
    /// ensures found { IfOk result
    ///     (λ rest. Walks E.seen G.grammar subsection bytes.now rest.now effect.old effect.new)
    ///     }
    /// ensures none { IfErr result
    ///     (λ e. e.cause ≢ Memory → Rejects subsection (padded_of G.grammar) bytes.now) }
    /// ensures no_memory { IfErr result (λ e. e.cause ≡ Memory → E.may_fail) }
    /// ensures front { Keeps E.seen effect.old effect.new }
    /// ```
    ///
    /// Definitions: [`Walks`](crate::definitions::base::walks::Walks), [`subsection`](crate::definitions::custom::names::subsection), [`Rejects`](crate::definitions::base::decoding::Rejects), [`padded_of`](crate::definitions::base::numbers::padded_of), [`Keeps`](crate::definitions::base::walks::Keeps). [How to read clauses](crate::definitions).
    fn walk<'a, A: Allocator + Copy, E: Effect>(
        bytes: &'a [u8],
        alloc: A,
        effect: &mut E,
    ) -> Result<&'a [u8], DecodeError> {
        let (id, after) = <u8 as Readable<'a, A, G>>::read(bytes, alloc)?;
        effect.put(&id)?;
        walk_after_id::<A, G, _>(name_kind_of(id), id, after, alloc, effect)
    }
}

/// Walks over the payload of a name section, in the grammar `G`.
///
/// # Errors
///
/// Every error except `Memory` means that the bytes are not such a payload.
///
/// # Proved
///
/// After `Ok`: `found`, the bytes as a whole are an encoding, and the effect takes the minimal one. After an error: `none`, the bytes as a whole are no such encoding, unless the cause is `Memory`; `no_memory`, the cause is `Memory` only with an effect whose calls may fail. In any case: `front`, the effect keeps what it took before.
///
/// ```text
/// ensures found { OnOk result
///     (WalksWhole E.seen G.grammar name_payload bytes.now effect.old effect.new) }
/// ensures none { IfErr result
///     (λ e. e.cause ≢ Memory → RejectsWhole name_payload (padded_of G.grammar) bytes.now)
///     }
/// ensures no_memory { IfErr result (λ e. e.cause ≡ Memory → E.may_fail) }
/// ensures front { Keeps E.seen effect.old effect.new }
/// ```
///
/// Definitions: [`WalksWhole`](crate::definitions::base::walks::WalksWhole), [`name_payload`](crate::definitions::custom::names::name_payload), [`RejectsWhole`](crate::definitions::base::continuing::RejectsWhole), [`padded_of`](crate::definitions::base::numbers::padded_of), [`Keeps`](crate::definitions::base::walks::Keeps). [How to read clauses](crate::definitions).
pub fn walk_names<'a, A: Allocator + Copy, G: Grammar, E: Effect>(
    bytes: &'a [u8],
    alloc: A,
    effect: &mut E,
) -> Result<(), DecodeError> {
    let rest = after_name::<A, G>("name", bytes, alloc)?;
    effect.put(&"name")?;
    walk_to_end::<NameItem<'a, A>, A, G, _>(rest, alloc, effect)
}
