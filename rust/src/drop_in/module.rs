//! Modules.
use crate::base;
use crate::ending::Root;

#[doc = text!(Module)]
pub struct Module(pub(super) base::Module<Root>);

implement!(Module Clone);
implement!(Module Default);
implement!(Module From base |built| base::Module { bytes: built.bytes.into_ending() });

#[allow(clippy::len_without_is_empty, reason = "a module has a header")]
impl Module {
    /// The first eight bytes of a module: the magic number and version 1.
    #[doc(alias = "magic")]
    #[doc(alias = "version")]
    #[doc(alias = "preamble")]
    pub const HEADER: [u8; 8] = *b"\0asm\x01\0\0\0";

    /// Returns the bytes of the header and the sections so far.
    pub fn as_slice(&self) -> &[u8] {
        &self.0.bytes
    }

    /// Returns the length of the module so far in bytes, header included.
    pub fn len(&self) -> usize {
        self.0.bytes.len()
    }
}
