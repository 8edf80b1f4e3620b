// Written by tools/to-rust from crates/wasm_bench/src/names.rt: change that.
// Names that lie one after another.

use crate::calls::answers::Fault;

/// Splits a string into names, one after another.
pub(crate) struct Names<'a> {
    rest: &'a str,
}

impl<'a> Names<'a> {
    /// Returns the names in these bytes, or an error if they are not UTF-8.
    ///
    /// # Proved
    ///
    /// ```text
    /// ensures ok { IfOk result (λ names. names.rest.now ≡ bytes.now) }
    /// ensures err { OnErr result (IsUtf8 bytes.now → ⊥) }
    /// ```
    pub(crate) fn new(bytes: &'a [u8]) -> Result<Self, Fault> {
        match str::from_utf8(bytes) {
            Ok(encoding) => Ok(Names { rest: encoding }),
            Err(_) => Err(Fault::WrongInput),
        }
    }

    /// Returns `true` if no byte remains.
    ///
    /// # Proved
    ///
    /// ```text
    /// ensures { IsTrue result ↔ (self.now.rest.now ≡ []) }
    /// ```
    pub(crate) fn is_empty(&self) -> bool {
        self.rest.is_empty()
    }

    /// Returns the name of the next `count` bytes.
    ///
    /// # Proved
    ///
    /// ```text
    /// ensures cut { IfOk result (λ name. (length name.now ≡ count) × (self.old.rest.now ≡ name.now ++ self.new.rest.now)) }
    /// ensures utf8 { IfOk result (λ name. IsUtf8 name.now) }
    /// ```
    pub(crate) fn next(&mut self, count: u32) -> Result<&'a str, Fault> {
        let Some((name, rest)) = self.rest.split_at_checked(count as usize) else {
            return Err(Fault::WrongInput);
        };
        self.rest = rest;
        Ok(name)
    }
}
