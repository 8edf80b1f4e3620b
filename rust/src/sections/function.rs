// Written by tools/to-rust from crates/wasm_sections/src/function.rt: change that.
// The function section.

use crate::vec::Sink;
use crate::sections::counted_section::{CountedSection, ItemKind, RecordOf};
use crate::alloc::Global;
use crate::base::{Encode, Kind, Pieces, Result, SectionId, Store};

/// The function section: the types of the functions that a module defines, in the order of their
/// bodies.
///
/// ```
/// # fn example() -> Result<(), Box<dyn std::error::Error>> {
/// # use dolzhytik::{fallible::*, reader::*};
/// use dolzhytik::fallible::{FunctionSection, Global, Module};
///
/// let mut module = Module::new(Global)?;
/// let mut functions = FunctionSection::new(Global);
/// functions.function(0)?;
/// module.section(&functions)?;
/// # Ok(())
/// # }
/// # example().unwrap();
/// ```
pub type FunctionSection<A = Global> = CountedSection<FunctionItems, Pieces<A>>;

/// The kind of a function section's items: the index of a type for each function.
///
/// # Examples
///
/// ```
/// use dolzhytik::fallible::{FunctionItems, FunctionSection, Global, ItemKind};
///
/// let section = FunctionSection::new(Global);
/// assert_eq!((section.len(), FunctionItems::id()), (0, 3));
/// ```
#[derive(Clone, Copy, Debug)]
pub struct FunctionItems;

/// # Defined
///
/// ```text
/// Record = { ℕ }
/// Item = { ℕ }
/// kind = { function_items }
/// ```
///
/// Definitions: [`function_items`](crate::definitions::sections::functions::function_items). [How to read clauses](crate::definitions).
impl Kind for FunctionItems {
    fn laws() {}
}

/// # Defined
///
/// ```text
/// section_id = { number_of ids.Function }
/// ```
///
/// Definitions: [`number_of`](crate::definitions::base::section_id::number_of). [How to read clauses](crate::definitions).
impl ItemKind for FunctionItems {
    fn id() -> u8 {
        SectionId::Function.into()
    }
}

impl RecordOf<FunctionItems> for u32 {}

/// The index of a type. Many have two bytes, which are also written inline.
#[derive(Clone, Copy)]
struct TypeIndex {
    index: u32,
}

/// # Defined
///
/// ```text
/// encoding = { λ given. unsigned_encoding given.index }
/// encodable = { λ _. ⊤ }
/// ```
///
/// Definitions: [`unsigned_encoding`](crate::definitions::base::numbers::unsigned_encoding). [How to read clauses](crate::definitions).
impl Encode for TypeIndex {
    #[inline]
    fn encode<A: Sink>(&self, sink: &mut A) -> Result<()> {
        let index = self.index;
        if index < 0x80 {
            return index.encode(sink);
        }
        if index < 0x4000 && sink.capacity() - sink.len() >= 2 {
            sink.push_both_reserved([(index % 0x80) as u8 + 0x80, (index / 0x80) as u8]);
            return Ok(());
        }
        index.encode(sink)
    }
}

impl<S: Store> CountedSection<FunctionItems, S> {
    /// Adds a function of the type of this index.
    ///
    /// # Errors
    ///
    /// Returns [`TooLong`](crate::fallible::Refused::TooLong) if the builder has 4294967295
    /// entries, and [`Memory`](crate::fallible::Refused::Memory) if an allocation fails. The
    /// builder is then unchanged.
    ///
    /// # Proved
    ///
    /// The builder gains one entry with this encoding, or the call returns an error and changes nothing. A full builder, with 2^32 - 1 entries, returns `TooLong`.
    ///
    /// ```text
    /// ensures { AddsTo S.model (unsigned_encoding type_index) ⊤ self.old self.new result }
    /// ```
    ///
    /// Definitions: [`AddsTo`](crate::definitions::base::calls::AddsTo), [`unsigned_encoding`](crate::definitions::base::numbers::unsigned_encoding). [How to read clauses](crate::definitions).
    pub fn function(&mut self, type_index: u32) -> Result<()> {
        self.add_record(&TypeIndex { index: type_index })
    }
}
