// Written by tools/to-rust from crates/calls/src/decodings.rt: change that.
//! Bodies whose decoded instructions are not those of the pieces that were appended: each function
//! does nothing, and its clause states the decoded body.

/// After a load of alignment 16 and offset 0, the byte of `End` is an offset: the bytes decode to a
/// load with an ordering, and to nothing else.
///
/// # Proved
///
/// ```text
/// ensures { DecodesWhole body (0x00 ∷ 0x28 ∷ 0x10 ∷ 0x00 ∷ 0x0B ∷ []) (without_locals (ordered_load ∷ [])) }
/// ```
pub fn load_of_alignment_16() {}

/// The byte sequences 41 and 01 0B, one after the other: they decode to a constant and `End`, and
/// to nothing else.
///
/// # Proved
///
/// ```text
/// ensures { DecodesWhole body (0x00 ∷ 0x41 ∷ 0x01 ∷ 0x0B ∷ []) (without_locals constant_and_end) }
/// ```
pub fn pieces_of_a_constant() {}
