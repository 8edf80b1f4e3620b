// Written by tools/to-rust from crates/wasm_base/src/counted.rt: change that.
// Builders whose section is a count and that many entries.

use crate::base::refused::{Refused, Result};
use crate::base::sections::Section;

/// A builder of a counted section, to which items of type `T` are added one by one.
///
/// [`add_all`](crate::fallible::add_all) takes such a builder.
///
/// # Examples
///
/// ```
/// use dolzhytik::fallible::{Counted, FunctionSection, Global, Refused};
///
/// fn twice<B: Counted<u32>>(builder: &mut B, index: u32) -> Result<(), Refused> {
///     builder.add(&index)?;
///     builder.add(&index)
/// }
///
/// let mut functions = FunctionSection::new(Global);
/// twice(&mut functions, 7)?;
/// assert_eq!(functions.len(), 2);
/// # Ok::<(), Refused>(())
/// ```
///
/// # Defined
///
/// ```text
/// // The encodings of its entries.
/// pieces: { Self → List (List ℕ) }
/// // `item_encoding`: the encoding of an item, which becomes one entry.
/// item_encoding: { T → List ℕ }
/// // `item_encodable`: every count and length in that encoding is representable.
/// item_encodable: { T → Type 0 }
/// // Its encoding is the size prefix, the number of entries, and the entries.
/// counted: { (builder : Self)
///     → Self.encoding builder ≡ section_encoding (pieces builder) }
/// ```
///
/// Definitions: [`section_encoding`](crate::definitions::base::pieces::section_encoding). [How to read clauses](crate::definitions).
pub trait Counted<T>: Section {
    /// Adds an item as the last entry.
    ///
    /// # Errors
    ///
    /// Returns [`Refused`], and leaves the builder unchanged, if the item does not fit, the builder
    /// is full, or an allocation fails.
    ///
    /// # Proved
    ///
    /// `AddsTo` of a builder whose entries are a list of pieces.
    ///
    /// ```text
    /// ensures { Adds (item_encoding item.now) (item_encodable item.now) (pieces self.old)
    ///     (pieces self.new) result }
    /// ```
    ///
    /// Definitions: [`Adds`](crate::definitions::base::calls::Adds). [How to read clauses](crate::definitions).
    fn add(&mut self, item: &T) -> Result<()>;
}

/// Adds all items in order.
///
/// An error is the pair `(number, cause)`: the number of items that were added, and why the
/// next one was not.
///
/// # Errors
///
/// Returns the cause and the number of items that were added before the first failing one. These
/// items stay in the builder.
///
/// # Examples
///
/// ```
/// use dolzhytik::fallible::{FunctionSection, Global, add_all};
///
/// let mut functions = FunctionSection::new(Global);
/// add_all(&mut functions, &[0, 1, 300])?;
/// assert_eq!(functions.len(), 3);
/// # Ok::<(), (usize, dolzhytik::fallible::Refused)>(())
/// ```
///
/// # Proved
///
/// The builder gains all items; or it gains as many as the error reports, and the next item fails. If the builder is full, the error is `TooLong`; if it is not and that item fits, it is another.
///
/// ```text
/// ensures { AddsAll B.item_encoding B.item_encodable items.now (B.pieces builder.old)
///     (B.pieces builder.new) result }
/// ```
///
/// Definitions: [`AddsAll`](crate::definitions::base::calls::AddsAll). [How to read clauses](crate::definitions).
pub fn add_all<T, B: Counted<T>>(builder: &mut B, items: &[T]) -> Result<(), (usize, Refused)> {
    for (added, item) in items.iter().enumerate() {
        if let Err(refused) = builder.add(item) {
            return Err((added, refused));
        }
    }
    Ok(())
}
