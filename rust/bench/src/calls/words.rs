// Written by tools/to-rust from crates/wasm_bench/src/words.rt: change that.
// The words of a code workload.

use crate::calls::answers::Fault;

/// Words that are read one after another.
pub(crate) struct Words<'a> {
    rest: &'a [u32],
}

impl<'a> Words<'a> {
    /// # Proved
    ///
    /// ```text
    /// ensures { result.rest.now ≡ words.now }
    /// ```
    pub(crate) fn new(words: &'a [u32]) -> Self {
        Words { rest: words }
    }

    /// Returns `true` if no words remain.
    ///
    /// # Proved
    ///
    /// ```text
    /// ensures { IsTrue result ↔ (self.now.rest.now ≡ []) }
    /// ```
    pub(crate) fn is_empty(&self) -> bool {
        self.rest.is_empty()
    }

    /// Returns the next word.
    ///
    /// # Proved
    ///
    /// ```text
    /// ensures ok { IfOk result (λ word. self.old.rest.now ≡ word ∷ self.new.rest.now) }
    /// ensures err { OnErr result (self.old.rest.now ≡ []) }
    /// ```
    pub(crate) fn next(&mut self) -> Result<u32, Fault> {
        match self.rest {
            [] => Err(Fault::WrongInput),
            [word, rest @ ..] => {
                self.rest = rest;
                Ok(*word)
            }
        }
    }

    /// Returns a number of 64 bits: the low word, and the high one.
    ///
    /// # Proved
    ///
    /// ```text
    /// ensures ok { IfOk result (λ n. (low : ℕ) × (high : ℕ) × (self.old.rest.now ≡ low ∷ high ∷ self.new.rest.now) × (n ≡ low + 2 ^ 32 * high)) }
    /// ensures err { OnErr result (length self.old.rest.now < 2) }
    /// ```
    pub(crate) fn padded(&mut self) -> Result<u64, Fault> {
        let low = self.next()?;
        let high = self.next()?;
        Ok(u64::from(low) | (u64::from(high) << 32))
    }

    /// Returns the next `count` words.
    ///
    /// # Proved
    ///
    /// ```text
    /// ensures ok { IfOk result (λ words. (length words.now ≡ count) × (self.old.rest.now ≡ words.now ++ self.new.rest.now)) }
    /// ensures err { OnErr result (length self.old.rest.now < count) }
    /// ```
    pub(crate) fn take(&mut self, count: u32) -> Result<&'a [u32], Fault> {
        let Some((words, rest)) = self.rest.split_at_checked(count as usize) else {
            return Err(Fault::WrongInput);
        };
        self.rest = rest;
        Ok(words)
    }
}
