// Written by tools/to-rust from crates/wasm_custom/src/standard.rt: change that.
// Cases that only the standard's grammar has.

use crate::base::{DecodeError, Grammar, ReadFault};

/// Returns an error unless the grammar is the standard's. The error's offset is that of the byte
/// just before `rest`, which selects the case.
pub(crate) fn require_standard<G: Grammar>(rest: &[u8]) -> Result<(), DecodeError> {
    if G::is_standard() {
        Ok(())
    } else {
        Err(ReadFault::UnknownTag.just_before(rest))
    }
}
