// Written by tools/to-rust from crates/read_back/src/first_values.rt: change that.
//! Callers that add items with initializer expressions, and prove to which items the sections
//! decode.

use dolzhytik::fallible::Vec;
use dolzhytik::fallible::Allocator;
use dolzhytik::fallible::{Encode, HeapType, RefType, Result, ValType};
use dolzhytik::fallible::ConstExpr;
use dolzhytik::fallible::{GlobalSection, GlobalType, TableSection, TableType};

/// Appends a global section of one immutable global, which has the value of the global at the
/// index.
///
/// # Proved
///
/// ```text
/// ensures { OnOk result (GainsDecoding (counted_format global_item) (copied index ∷ []) sink.old.items sink.new.items) }
/// ```
pub fn encode_copied<A: Allocator + Copy>(sink: &mut Vec<u8, A>, index: u32) -> Result<()> {
    let alloc = *sink.allocator();
    let constant = GlobalType {
        val_type: ValType::I32,
        mutable: false,
        shared: false,
    };
    let mut section = GlobalSection::new(alloc);
    section.global(constant, &ConstExpr::global_get(alloc, index)?)?;
    section.encode(sink)
}

/// Appends a table section of two tables of functions, all initially null.
///
/// # Proved
///
/// ```text
/// ensures { OnOk result (GainsDecoding (counted_format table_item) (null_table minimum ∷ nulled_table minimum ∷ []) sink.old.items sink.new.items) }
/// ```
pub fn encode_null_tables<A: Allocator + Copy>(sink: &mut Vec<u8, A>, minimum: u64) -> Result<()> {
    let alloc = *sink.allocator();
    let functions = TableType {
        element_type: RefType::FUNCREF,
        table64: false,
        minimum,
        maximum: None,
        shared: false,
    };
    let mut section = TableSection::new(alloc);
    section.table(functions)?;
    section.table_with_init(functions, &ConstExpr::ref_null(alloc, HeapType::FUNC)?)?;
    section.encode(sink)
}
