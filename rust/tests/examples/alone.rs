// Written by tools/to-rust from crates/examples/src/alone.rt: change that.
// Sections without a module.

use dolzhytik::fallible::Vec;
use crate::examples::bodies::local_function;
use dolzhytik::fallible::Allocator;
use dolzhytik::fallible::laws::base::plain_names;
use dolzhytik::fallible::{CowSlice, Encode, RefType, Result, add_all};
use dolzhytik::fallible::{CodeSection, ConstExpr};
use dolzhytik::fallible::laws::sections::plain_exports;
use dolzhytik::fallible::{ElementSection, Elements, EntityType, Export, ExportSection, ImportSection, Imports};

/// Appends a code section of one function, which returns the local of this index.
///
/// # Proved
///
/// ```text
/// ensures { OnOk result (GainsDecoding code_section (local_body index ∷ []) sink.old.items sink.new.items) }
/// ```
pub fn encode_local<A: Allocator + Copy>(sink: &mut Vec<u8, A>, index: u32) -> Result<()> {
    let alloc = *sink.allocator();
    let mut code = CodeSection::new(alloc);
    code.function(&local_function(alloc, index)?)?;
    code.encode(sink)
}

/// Appends an import section of one function.
///
/// # Proved
///
/// ```text
/// ensures { OnOk result (GainsDecoding (counted_format import_format) (import_of_function from.now name.now index ∷ []) sink.old.items sink.new.items) }
/// ```
pub fn encode_import<A: Allocator + Copy>(
    sink: &mut Vec<u8, A>,
    from: &str,
    name: &str,
    index: u32,
) -> Result<()> {
    let mut section = ImportSection::new(*sink.allocator());
    section.import(from, name, EntityType::Function(index))?;
    section.encode(sink)
}

/// Appends an export section of the exports of a list. The first call proves that they are
/// well-formed.
///
/// # Proved
///
/// ```text
/// ensures { OnOk result (GainsDecoding (counted_format export) (map item_of exports.now) sink.old.items sink.new.items) }
/// ```
pub fn encode_exports<A: Allocator + Copy>(
    sink: &mut Vec<u8, A>,
    exports: &[Export<'_>],
) -> Result<()> {
    plain_exports(exports);
    let mut section = ExportSection::new(*sink.allocator());
    match add_all(&mut section, exports) {
        Ok(()) => section.encode(sink),
        Err((_, refused)) => Err(refused),
    }
}

/// Appends an import section of functions of one type, in one group. The first call proves that
/// their names are UTF-8.
///
/// # Proved
///
/// ```text
/// ensures { OnOk result (GainsDecoding (counted_format import_format) (import_of_functions from.now (map (λ name. name.now) names.now) index ∷ []) sink.old.items sink.new.items) }
/// ```
pub fn encode_group<A: Allocator + Copy>(
    sink: &mut Vec<u8, A>,
    from: &str,
    names: &[&str],
    index: u32,
) -> Result<()> {
    plain_names(names);
    let mut section = ImportSection::new(*sink.allocator());
    section.imports(Imports::Compact2 {
        module: from,
        ty: EntityType::Function(index),
        names: CowSlice::Borrowed(names),
    })?;
    section.encode(sink)
}

/// Appends an element section of one reference, which code copies to a table.
///
/// # Proved
///
/// ```text
/// ensures { OnOk result (GainsDecoding (counted_format element) (later index ∷ []) sink.old.items sink.new.items) }
/// ```
pub fn encode_reference(sink: &mut Vec<u8>, index: u32) -> Result<()> {
    let alloc = *sink.allocator();
    let references = [ConstExpr::ref_func(alloc, index)?];
    let mut section = ElementSection::new(alloc);
    section.passive(Elements::Expressions(RefType::FUNCREF, CowSlice::Borrowed(&references)))?;
    section.encode(sink)
}
