// Written by tools/to-rust from crates/wasm_base/src/effect.rt: change that.
// The trait `Effect`: what a walk over a value does with the minimal encoding.

use crate::vec::Sink;
use crate::base::encode::Encode;
use crate::base::frames::prefix_size_since;
use crate::base::grammar::Grammar;
use crate::base::readable::Layout;
use crate::base::refused::Result;
use crate::base::shorten::Shorten;

/// A value whose minimal encoding depends on the grammar.
///
/// # Examples
///
/// ```
/// use dolzhytik::fallible::{AbstractHeapType, HeapType, RefType};
/// use dolzhytik::reader::{EncodeIn, Padded, Standard};
///
/// // `anyref` has one byte in the standard's grammar, and builders write two.
/// let heap_type = HeapType::Abstract { shared: false, ty: AbstractHeapType::Any };
/// let any = RefType { nullable: true, heap_type };
/// let mut bytes = Vec::new();
/// <RefType as EncodeIn<Standard>>::encode_in(&any, &mut bytes)?;
/// <RefType as EncodeIn<Padded>>::encode_in(&any, &mut bytes)?;
/// assert_eq!(bytes, [0x6E, 0x63, 0x6E]);
/// # Ok::<(), dolzhytik::fallible::Refused>(())
/// ```
///
/// # Defined
///
/// ```text
/// encoding_in: { Self → List ℕ }
/// ```
///
/// [How to read clauses](crate::definitions).
pub trait EncodeIn<G: Grammar>: Layout {
    // The minimal encoding in the grammar `G`.

    /// Writes the minimal encoding in the grammar `G`. After an error, part of it may follow the
    /// old bytes of the sink.
    ///
    /// # Errors
    ///
    /// Returns [`TooLong`](crate::fallible::Refused::TooLong) if a count or length would pass
    /// 4294967295, and [`Memory`](crate::fallible::Refused::Memory) if an allocation fails.
    ///
    /// # Proved
    ///
    /// - After `Ok`, `ok`: the sink gains the minimal encoding in the grammar.
    /// - `front`: The new bytes begin with the old ones.
    ///
    /// ```text
    /// ensures ok { OnOk result (sink.new.items ≡ sink.old.items ++ encoding_in self.now) }
    /// ensures front { IsFrontOf sink.old.items sink.new.items }
    /// ```
    ///
    /// Definitions: [`IsFrontOf`](crate::definitions::base::minimal::IsFrontOf). [How to read clauses](crate::definitions).
    fn encode_in<A: Sink>(&self, sink: &mut A) -> Result<()>;

    /// Proves that the encoding is minimal. The function does nothing.
    ///
    /// # Proved
    ///
    /// Whatever bytes a value decodes from in this grammar, its encoding is the minimal one there.
    ///
    /// ```text
    /// ensures { EncodesIn G.grammar Self.format Self.view encoding_in }
    /// ```
    ///
    /// Definitions: [`EncodesIn`](crate::definitions::base::walks::EncodesIn). [How to read clauses](crate::definitions).
    fn minimal_in();
}

/// What a walk does with the minimal encoding of the value: [`Discard`] drops it, and a vector
/// appends it.
///
/// # Examples
///
/// ```
/// use dolzhytik::reader::{Discard, Effect};
///
/// let mut bytes = Vec::new();
/// let start = bytes.position();
/// bytes.put(&"ab")?;
/// bytes.prefix_size(start)?;
/// assert_eq!(bytes, *b"\x03\x02ab");
/// Discard.put(&"ab")?;
/// # Ok::<(), dolzhytik::fallible::Refused>(())
/// ```
///
/// # Defined
///
/// ```text
/// seen: { Self → List ℕ → Type 0 }
/// mark: { ℕ → List ℕ → Type 0 }
/// may_fail: { Type 0 }
/// some: { (e : Self) → (l : List ℕ) × seen e l }
/// ```
///
/// [How to read clauses](crate::definitions).
pub trait Effect {
    // `seen e l`: `l` may be all the bytes that the effect has taken.

    // `mark n l`: the number `n` marks the end of the bytes `l`.

    // Whether a call may return an error.

    // The effect has taken some bytes.

    /// TakesBytes the encoding of the value.
    ///
    /// # Errors
    ///
    /// Returns [`TooLong`](crate::fallible::Refused::TooLong) if a count or length would pass
    /// 4294967295, and [`Memory`](crate::fallible::Refused::Memory) if an allocation fails.
    ///
    /// # Proved
    ///
    /// After `Ok`: `ok`, the effect takes the encoding. After an error: `err`, the effect is one whose calls may fail. In any case: `front`, the effect keeps what it took before.
    ///
    /// ```text
    /// ensures ok { OnOk result (TakesBytes seen (T.encoding value.now) self.old self.new) }
    /// ensures err { OnErr result may_fail }
    /// ensures front { Keeps seen self.old self.new }
    /// ```
    ///
    /// Definitions: [`TakesBytes`](crate::definitions::base::walks::TakesBytes), [`Keeps`](crate::definitions::base::walks::Keeps). [How to read clauses](crate::definitions).
    fn put<T: Encode>(&mut self, value: &T) -> Result<()>;

    /// TakesBytes the minimal encoding of the value in the grammar `G`.
    ///
    /// # Errors
    ///
    /// Returns [`TooLong`](crate::fallible::Refused::TooLong) if a count or length would pass
    /// 4294967295, and [`Memory`](crate::fallible::Refused::Memory) if an allocation fails.
    ///
    /// # Proved
    ///
    /// After `Ok`: `ok`, the effect takes the encoding. After an error: `err`, the effect is one whose calls may fail. In any case: `front`, the effect keeps what it took before.
    ///
    /// ```text
    /// ensures ok { OnOk result (TakesBytes seen (T.encoding_in value.now) self.old self.new) }
    /// ensures err { OnErr result may_fail }
    /// ensures front { Keeps seen self.old self.new }
    /// ```
    ///
    /// Definitions: [`TakesBytes`](crate::definitions::base::walks::TakesBytes), [`Keeps`](crate::definitions::base::walks::Keeps). [How to read clauses](crate::definitions).
    fn put_in<G: Grammar, T: EncodeIn<G>>(&mut self, value: &T) -> Result<()>;

    /// TakesBytes the minimal encoding of the decoded value.
    ///
    /// # Errors
    ///
    /// Returns [`TooLong`](crate::fallible::Refused::TooLong) if a count or length would pass
    /// 4294967295, and [`Memory`](crate::fallible::Refused::Memory) if an allocation fails.
    ///
    /// # Proved
    ///
    /// - After `Ok`, `ok`: In each of these grammars in which some bytes decode to `x`, the state takes the minimal encoding of `x`.
    /// - After an error, `err`: the effect is one whose calls may fail.
    /// - `front`: the effect keeps what it took before.
    ///
    /// ```text
    /// ensures ok { OnOk result
    ///     (TakesMinimal seen T.grammars T.format (T.view value.now) self.old self.new) }
    /// ensures err { OnErr result may_fail }
    /// ensures front { Keeps seen self.old self.new }
    /// ```
    ///
    /// Definitions: [`TakesMinimal`](crate::definitions::base::walks::TakesMinimal), [`Keeps`](crate::definitions::base::walks::Keeps). [How to read clauses](crate::definitions).
    fn put_minimal<T: Shorten>(&mut self, value: &T) -> Result<()>;

    /// Returns a mark for [`prefix_size`](Effect::prefix_size).
    ///
    /// # Proved
    ///
    /// The number marks the end of all bytes that the state has taken.
    ///
    /// ```text
    /// ensures { Marks seen mark self.now result }
    /// ```
    ///
    /// Definitions: [`Marks`](crate::definitions::base::walks::Marks). [How to read clauses](crate::definitions).
    fn position(&self) -> usize;

    /// Makes the bytes after the mark a payload with its size prefix.
    ///
    /// # Errors
    ///
    /// Returns [`TooLong`](crate::fallible::Refused::TooLong) if a count or length would pass
    /// 4294967295, and [`Memory`](crate::fallible::Refused::Memory) if an allocation fails.
    ///
    /// # Asks
    ///
    /// [What happens otherwise](crate::fallible#what-is-asked).
    ///
    /// ```text
    /// requires { IsMarked seen mark self.old start }
    /// ```
    ///
    /// Definitions: [`IsMarked`](crate::definitions::base::walks::IsMarked). [How to read clauses](crate::definitions).
    ///
    /// # Proved
    ///
    /// - After `Ok`, `ok`: The bytes after the mark become `f` of them.
    /// - After an error, `err`: the effect is one whose calls may fail.
    /// - `front`: The bytes up to the mark stay.
    ///
    /// ```text
    /// ensures ok { OnOk result
    ///     (Replaces seen mark size_prefixed_encoding start self.old self.new) }
    /// ensures err { OnErr result may_fail }
    /// ensures front { KeepsMarked seen mark start self.old self.new }
    /// ```
    ///
    /// Definitions: [`Replaces`](crate::definitions::base::walks::Replaces), [`size_prefixed_encoding`](crate::definitions::base::encodings::size_prefixed_encoding), [`KeepsMarked`](crate::definitions::base::walks::KeepsMarked). [How to read clauses](crate::definitions).
    fn prefix_size(&mut self, start: usize) -> Result<()>;

    /// Returns `true` only if all calls do nothing, so that a value may be skipped in any way.
    ///
    /// # Proved
    ///
    /// ```text
    /// ensures { result ≡ true → IsIdle seen }
    /// ```
    ///
    /// Definitions: [`IsIdle`](crate::definitions::base::walks::IsIdle). [How to read clauses](crate::definitions).
    fn is_idle() -> bool;
}

/// An effect that drops what it takes.
///
/// [`Effect`](crate::reader::Effect) has an example.
#[derive(Clone, Copy, Debug)]
pub struct Discard;

/// # Defined
///
/// ```text
/// seen = { λ e l. Unit {0} }
/// mark = { λ n l. Unit {0} }
/// may_fail = { ⊥ }
/// some = { λ e. ([], tt) }
/// ```
///
/// [How to read clauses](crate::definitions).
impl Effect for Discard {
    #[inline(always)]
    fn put<T: Encode>(&mut self, _value: &T) -> Result<()> {
        Ok(())
    }

    #[inline(always)]
    fn put_in<G: Grammar, T: EncodeIn<G>>(&mut self, _value: &T) -> Result<()> {
        Ok(())
    }

    #[inline(always)]
    fn put_minimal<T: Shorten>(&mut self, _value: &T) -> Result<()> {
        T::laws();
        Ok(())
    }

    #[inline(always)]
    fn position(&self) -> usize {
        0
    }

    #[inline(always)]
    fn prefix_size(&mut self, _start: usize) -> Result<()> {
        Ok(())
    }

    #[inline(always)]
    fn is_idle() -> bool {
        true
    }
}

/// Appends what it takes.
///
/// # Defined
///
/// ```text
/// seen = { λ e l. e.items ≡ l }
/// mark = { λ n l. n ≡ length l }
/// may_fail = { ⊤ }
/// some = { λ e. (e.items, refl) }
/// ```
///
/// [How to read clauses](crate::definitions).
impl<A: Sink> Effect for A {
    #[inline(always)]
    fn put<T: Encode>(&mut self, value: &T) -> Result<()> {
        value.encode(self)
    }

    #[inline(always)]
    fn put_in<G: Grammar, T: EncodeIn<G>>(&mut self, value: &T) -> Result<()> {
        value.encode_in(self)
    }

    #[inline(always)]
    fn put_minimal<T: Shorten>(&mut self, value: &T) -> Result<()> {
        value.write_minimal(self)
    }

    #[inline(always)]
    fn position(&self) -> usize {
        self.len()
    }

    #[inline(always)]
    fn prefix_size(&mut self, start: usize) -> Result<()> {
        prefix_size_since(self, start)
    }

    #[inline(always)]
    fn is_idle() -> bool {
        false
    }
}
