// Written by tools/to-rust from crates/wasm_base/src/modules.rt: change that.
// Modules: the header, and sections one after another.

use crate::vec::Vec;
use crate::base::refused::Result;
use crate::base::sections::Section;
use crate::alloc::{Allocator, Global};

/// A module: its header and the sections that were appended, as bytes.
///
/// ```
/// # fn example() -> Result<(), Box<dyn std::error::Error>> {
/// # use dolzhytik::{fallible::*, reader::*};
/// use dolzhytik::fallible::{Global, Module, RawSection};
///
/// let mut module = Module::new(Global)?;
/// module.section(&RawSection { id: 1, bytes: &[0] })?;
/// let bytes = module.finish();
/// # Ok(())
/// # }
/// # example().unwrap();
/// ```
///
/// Where its calls return an error, those of the root's [`Module`](crate::Module) panic or
/// abort.
#[derive(Debug)]
pub struct Module<A: Allocator = Global> {
    pub(crate) bytes: Vec<u8, A>,
}

impl<A: Allocator> Module<A> {
    /// Returns a module without sections.
    ///
    /// # Errors
    ///
    /// Returns [`Memory`](crate::base::Refused::Memory) if the allocation of the header fails.
    ///
    /// # Proved
    ///
    /// - After `Ok`, `bytes`: the module is the header.
    /// - After `Ok`, `read`: The result is the only minimal encoding of these sections. In every mode, all of its bytes decode to them alone.
    /// - `memory`: no error is `TooLong`.
    ///
    /// ```text
    /// ensures bytes { IfOk result (λ m. m ≡ header) }
    /// ensures read { IfOk result (λ m. DecodesWhole wasm_module m []) }
    /// ensures memory { result ≢ Err Refused.TooLong }
    /// ```
    ///
    /// Definitions: [`header`](crate::definitions::base::formats::header), [`DecodesWhole`](crate::definitions::base::decoding::DecodesWhole), [`wasm_module`](crate::definitions::base::formats::wasm_module). [How to read clauses](crate::definitions).
    pub fn new(alloc: A) -> Result<Module<A>> {
        Ok(Module {
            bytes: Vec::from_slice(alloc, b"\0asm\x01\0\0\0")?,
        })
    }

    /// Appends a section.
    ///
    /// # Errors
    ///
    /// Returns [`Refused`](crate::base::Refused), and leaves the module unchanged, if the section is too
    /// long or an allocation fails.
    ///
    /// # Proved
    ///
    /// - After `Ok`, `ok`: the module gains the id and the encoding of the section.
    /// - After `Ok`, `read`: Composition of modules: if the old bytes decode to some sections alone, the new bytes decode to these and one more. That section has this id, and any payload with the property.
    /// - After `Ok`, `section`: the encoding decodes as the impl defines by `decoding`.
    /// - After `Ok`, `was_encodable`: each count and length fits 32 bits.
    /// - After an error, `err`: the value is unchanged.
    /// - `too_long`: a section whose counts and lengths fit never gives `TooLong`.
    /// - `too_many`: an `overlong` section gives `TooLong`.
    ///
    /// ```text
    /// ensures ok { OnOk result
    ///     (self.new ≡ self.old ++ (S.id_of section.now ∷ S.encoding section.now)) }
    /// ensures read { OnOk result
    ///     (DecodesOneMore (S.payload section.now) (S.id_of section.now) self.old self.new) }
    /// ensures section { OnOk result (S.decoding section.now) }
    /// ensures err { OnErr result (self.new ≡ self.old) }
    /// ensures was_encodable { OnOk result (S.encodable section.now) }
    /// ensures too_long { S.encodable section.now → result ≢ Err Refused.TooLong }
    /// ensures too_many { S.overlong section.now → result ≡ Err Refused.TooLong }
    /// ```
    ///
    /// Definitions: [`DecodesOneMore`](crate::definitions::base::calls::DecodesOneMore). [How to read clauses](crate::definitions).
    pub fn section<S: Section>(&mut self, section: &S) -> Result<()> {
        section.append_to(&mut self.bytes)
    }

    /// Returns a copy of the module in newly allocated memory.
    ///
    /// # Errors
    ///
    /// Returns [`Memory`](crate::base::Refused::Memory) if an allocation fails.
    ///
    /// # Proved
    ///
    /// After `Ok`: `same`, the result equals the value. In any case: `memory`, no error is `TooLong`.
    ///
    /// ```text
    /// ensures same { IfOk result (λ m. m ≡ self.now) }
    /// ensures memory { result ≢ Err Refused.TooLong }
    /// ```
    ///
    /// [How to read clauses](crate::definitions).
    pub fn clone(&self) -> Result<Module<A>>
    where
        A: Clone,
    {
        let alloc = self.bytes.allocator().clone();
        Ok(Module {
            bytes: Vec::from_slice(alloc, self.bytes.as_slice())?,
        })
    }

    /// Returns the bytes of the module.
    ///
    /// # Proved
    ///
    /// ```text
    /// ensures { result.items ≡ self }
    /// ```
    ///
    /// [How to read clauses](crate::definitions).
    #[doc(alias = "bytes")]
    pub fn finish(self) -> Vec<u8, A> {
        self.bytes
    }
}
