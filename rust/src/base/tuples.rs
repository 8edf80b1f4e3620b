// Written by tools/to-rust from crates/wasm_base/src/tuples.rt: change that.
// Several values one after another.

use crate::vec::Sink;
use crate::base::effect::Effect;
use crate::base::encode::Encode;
use crate::base::fault::DecodeError;
use crate::base::grammar::Grammar;
use crate::base::readable::{Layout, Readable};
use crate::base::refused::Result;
use crate::base::shorten::Shorten;
use crate::base::walk::Walk;
use crate::alloc::Allocator;

/// Appends the encodings of both values, or of neither.
#[inline(always)]
fn encode_both<S: Encode, T: Encode, A: Sink>(
    first: &S,
    second: &T,
    sink: &mut A,
) -> Result<()> {
    let start = sink.len();
    first.encode(sink)?;
    if let Err(refused) = second.encode(sink) {
        sink.truncate(start);
        return Err(refused);
    }
    Ok(())
}

/// Encodes one value, and then the other.
///
/// # Defined
///
/// ```text
/// encoding = { λ p. S.encoding p.0 ++ T.encoding p.1 }
/// encodable = { λ p. S.encodable p.0 × T.encodable p.1 }
/// ```
///
/// [How to read clauses](crate::definitions).
impl<S: Encode, T: Encode> Encode for (S, T) {
    #[inline]
    fn encode<A: Sink>(&self, sink: &mut A) -> Result<()> {
        encode_both(&self.0, &self.1, sink)
    }
}

/// Encodes three values in order.
///
/// # Defined
///
/// ```text
/// encoding = { λ p. S.encoding p.0 ++ (T.encoding p.1 ++ U.encoding p.2) }
/// encodable = { λ p. S.encodable p.0 × T.encodable p.1 × U.encodable p.2 }
/// ```
///
/// [How to read clauses](crate::definitions).
impl<S: Encode, T: Encode, U: Encode> Encode for (S, T, U) {
    #[inline]
    fn encode<A: Sink>(&self, sink: &mut A) -> Result<()> {
        let start = sink.len();
        encode_both(&self.0, &self.1, sink)?;
        if let Err(refused) = self.2.encode(sink) {
            sink.truncate(start);
            return Err(refused);
        }
        Ok(())
    }
}

/// One value, and then another.
///
/// # Defined
///
/// ```text
/// Value = { T.Value × U.Value }
/// format = { pair T.format U.format }
/// view = { λ p. (T.view p.0, U.view p.1) }
/// ```
///
/// Definitions: [`pair`](crate::definitions::base::formats::pair). [How to read clauses](crate::definitions).
impl<T: Layout, U: Layout> Layout for (T, U) {
    fn laws() {
        T::laws();
        U::laws();
    }
}

/// # Defined
///
/// ```text
/// may_allocate = { T.may_allocate ⊎ U.may_allocate }
/// ```
///
/// [How to read clauses](crate::definitions).
impl<'a, A: Allocator + Copy, G: Grammar, T: Readable<'a, A, G>, U: Readable<'a, A, G>> Readable<
    'a,
    A,
    G,
> for (T, U) {
    #[inline]
    fn read(bytes: &'a [u8], alloc: A) -> Result<((T, U), &'a [u8]), DecodeError> {
        let (first, rest) = T::read(bytes, alloc)?;
        T::laws();
        let (second, rest) = U::read(rest, alloc)?;
        Ok(((first, second), rest))
    }
}

/// # Defined
///
/// ```text
/// grammars = { common_grammars T.grammars U.grammars }
/// ```
///
/// Definitions: [`common_grammars`](crate::definitions::base::minimal::common_grammars). [How to read clauses](crate::definitions).
impl<T: Shorten, U: Shorten> Shorten for (T, U) {
    fn write_minimal<B: Sink>(&self, sink: &mut B) -> Result<()> {
        self.0.write_minimal(sink)?;
        self.1.write_minimal(sink)
    }
}

impl<G: Grammar, T: Walk<G>, U: Walk<G>> Walk<G> for (T, U) {
    #[inline]
    fn walk<'a, A: Allocator + Copy, E: Effect>(
        bytes: &'a [u8],
        alloc: A,
        effect: &mut E,
    ) -> Result<&'a [u8], DecodeError> {
        let after = T::walk(bytes, alloc, effect)?;
        T::laws();
        let rest = U::walk(after, alloc, effect)?;
        Ok(rest)
    }
}
