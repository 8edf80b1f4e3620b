// Written by tools/to-rust from crates/wasm_bench/src/imports.rt: change that.
// The workload of the import section.

use crate::calls::answers::{Fault, answer, number};
use crate::calls::kinds::export_kind_of;
use crate::calls::names::Names;
use dolzhytik::fallible::Global;
use dolzhytik::fallible::{RefType, ValType};
use dolzhytik::fallible::{EntityType, ExportKind, GlobalType, ImportSection, MemoryType, TableType, TagKind, TagType};

/// Returns a table of functions.
fn table(minimum: u32) -> EntityType {
    EntityType::Table(TableType {
        element_type: RefType::FUNCREF,
        table64: false,
        minimum: u64::from(minimum),
        maximum: None,
        shared: false,
    })
}

/// Returns a memory of 32-bit addresses.
fn memory(minimum: u32) -> EntityType {
    EntityType::Memory(MemoryType {
        minimum: u64::from(minimum),
        maximum: None,
        memory64: false,
        shared: false,
        page_size_log2: None,
    })
}

/// Returns a number of 64 bits, which is mutable if the index is odd.
fn global(index: u32) -> EntityType {
    EntityType::Global(GlobalType {
        val_type: ValType::I64,
        mutable: index % 2 == 1,
        shared: false,
    })
}

/// Returns the type of an import of this kind. The index is that of a type, or a minimum.
fn entity(kind: ExportKind, index: u32) -> EntityType {
    match kind {
        ExportKind::Func => EntityType::Function(index),
        ExportKind::Table => table(index),
        ExportKind::Memory => memory(index),
        ExportKind::Global => global(index),
        ExportKind::Tag => EntityType::Tag(TagType {
            kind: TagKind::Exception,
            func_type_idx: index,
        }),
    }
}

/// Returns a section of imports, from the lengths of the module and the name, the kind and the
/// index of each.
///
/// # Proved
///
/// ```text
/// ensures { IfOk result (λ section. length section ≡ length kinds.now) }
/// ```
fn build(
    alloc: Global,
    names: &[u8],
    lens: &[u32],
    kinds: &[u8],
    indices: &[u32],
) -> Result<ImportSection, Fault> {
    let (pairs, others) = lens.as_chunks::<2>();
    if !others.is_empty() || kinds.len() != pairs.len() || indices.len() != pairs.len() {
        return Err(Fault::WrongInput);
    }
    let mut rest = Names::new(names)?;
    let mut section = ImportSection::new(alloc);
    for i in 0..pairs.len() {
        let [module_len, name_len] = pairs[i];
        let module = rest.next(module_len)?;
        let name = rest.next(name_len)?;
        let kind = export_kind_of(kinds[i])?;
        section.import(module, name, entity(kind, indices[i]))?;
    }
    if rest.is_empty() {
        Ok(section)
    } else {
        Err(Fault::WrongInput)
    }
}

/// # Proved
///
/// ```text
/// ensures ok { IfOk result (λ n. CountedAnswer 2 (length kinds.now) phase out.old out.new n) }
/// ensures err { OnErr result (out.new ≡ out.old) }
/// ```
fn import_section(
    alloc: Global,
    names: &[u8],
    lens: &[u32],
    kinds: &[u8],
    indices: &[u32],
    phase: u32,
    out: &mut [u8],
) -> Result<u64, Fault> {
    let section = build(alloc, names, lens, kinds, indices)?;
    answer(alloc, &section, phase, out)
}

/// Builds a section of imports. The modules and names alternate, lie one after another, and have
/// these lengths.
///
/// # Proved
///
/// ```text
/// ensures { Outcome out.old out.new result (CountedAnswer 2 (length kinds.now) phase out.old out.new result) }
/// ```
pub fn wb_imports(
    alloc: Global,
    names: &[u8],
    lens: &[u32],
    kinds: &[u8],
    indices: &[u32],
    phase: u32,
    out: &mut [u8],
) -> u64 {
    number(import_section(alloc, names, lens, kinds, indices, phase, out))
}
