// Written by tools/to-rust from crates/wasm_reader/src/laws.rt: change that.
//! Laws about sections and modules, for all byte sequences: each function does nothing, and its
//! clause is the law.

/// Two minimized sections of a kind have the same bytes exactly if the originals decode to the same
/// items.
///
/// # Proved
///
/// Two sections of a kind have the same minimal encoding in a grammar exactly if they decode to the same items.
///
/// ```text
/// ensures { HaveOneEncoding }
/// ```
///
/// Definitions: [`HaveOneEncoding`](crate::definitions::reader::sections::HaveOneEncoding). [How to read clauses](crate::definitions).
pub fn encodings() {}

/// Bytes are a module with exactly one listing, or stop being a module at exactly one section.
///
/// # Proved
///
/// A list of a module is unambiguous: the bytes have one list of lines, or stop at one section, and never both.
///
/// ```text
/// ensures { HaveOneListing }
/// ```
///
/// Definitions: [`HaveOneListing`](crate::definitions::reader::modules::HaveOneListing). [How to read clauses](crate::definitions).
pub fn modules() {}

/// Minimizing is idempotent: a minimized module can be minimized again, to the same bytes, unless
/// an allocation fails.
///
/// # Proved
///
/// A minimized module can be minimized again, to the same bytes, unless an allocation fails.
///
/// ```text
/// ensures { IsIdempotent }
/// ```
///
/// Definitions: [`IsIdempotent`](crate::definitions::reader::shortening::IsIdempotent). [How to read clauses](crate::definitions).
pub fn shortened() {}
