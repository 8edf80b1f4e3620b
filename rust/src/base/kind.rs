// Written by tools/to-rust from crates/wasm_base/src/kind.rt: change that.
// The trait `Kind`: how the items of a section are encoded, and to which values they decode.

/// A kind of items, such as those of a counted section.
///
/// [`ItemKind`](crate::fallible::ItemKind) is a kind of core sections, and
/// [`CustomKind`](crate::fallible::CustomKind) one of custom sections.
///
/// # Examples
///
/// ```
/// use dolzhytik::fallible::{CountedSection, FunctionItems, FunctionSection, Global};
///
/// let functions: FunctionSection =
///     CountedSection::<FunctionItems>::new(Global);
/// assert!(functions.is_empty());
/// ```
///
/// # Defined
///
/// ```text
/// // The argument of an adding call.
/// Record: { Type 0 }
/// // The value to which an entry decodes.
/// Item: { Type 0 }
/// // The encoding of a record, when the record is well-formed, the item that it then
/// // encodes, and the format of items.
/// kind: { KindOf Record Item }
/// ```
///
/// Definitions: [`KindOf`](crate::definitions::base::entries::Kind). [How to read clauses](crate::definitions).
pub trait Kind {
    /// Proves that the format of items is unambiguous, and that a well-formed record encodes its
    /// item. The function does nothing.
    ///
    /// # Proved
    ///
    /// The laws of a kind of items: the format is unambiguous, and a well-formed record whose size fits encodes its normal form.
    ///
    /// ```text
    /// ensures { ItemLaws kind }
    /// ```
    ///
    /// Definitions: [`ItemLaws`](crate::definitions::base::entries::ItemLaws). [How to read clauses](crate::definitions).
    fn laws();
}
