// Written by tools/to-rust from crates/examples/src/object.rt: change that.
// A module for a linker: code, hints, symbols and producers.

use dolzhytik::fallible::Vec;
use crate::examples::whole::memories;
use dolzhytik::fallible::Allocator;
use dolzhytik::fallible::{Module, Result, ValType};
use dolzhytik::fallible::{CodeSection, Function};
use dolzhytik::fallible::{BranchHint, BranchHints, LinkingSection, ProducersField, ProducersSection, SymbolTable};
use dolzhytik::fallible::{BlockType, MemArg, MemArgTarget};
use dolzhytik::fallible::FunctionSection;
use dolzhytik::fallible::TypeSection;

/// The number of 32 bits that is 8 bytes after an address.
const NUMBER: MemArg = MemArg {
    offset: 8,
    align: 2,
    target: MemArgTarget::Memory(0),
    ordering: None,
};

/// Returns a module for a linker: a function that counts down a number in memory, a hint of its
/// branch, its symbol, and its producer.
///
/// # Proved
///
/// ```text
/// ensures { IfOk result (λ bytes. DecodesSections object_sections bytes.items) }
/// ```
pub fn object_module<A: Allocator + Copy>(alloc: A) -> Result<Vec<u8, A>> {
    let mut module = Module::new(alloc)?;
    add_types(&mut module, alloc)?;
    module.section(&hints(alloc)?)?;
    module.section(&code(alloc)?)?;
    module.section(&linking(alloc)?)?;
    module.section(&producers(alloc)?)?;
    Ok(module.finish())
}

/// Adds the types, the functions and the memory.
///
/// # Proved
///
/// ```text
/// ensures { DecodesSections [] module.old → OnOk result (DecodesSections object_types module.new) }
/// ```
fn add_types<A: Allocator + Copy>(module: &mut Module<A>, alloc: A) -> Result<()> {
    module.section(&types(alloc)?)?;
    module.section(&functions(alloc)?)?;
    module.section(&memories(alloc)?)?;
    Ok(())
}

/// Returns the type of the function.
///
/// # Proved
///
/// ```text
/// ensures { IfOk result (λ section. ContainsTypes section (address_type ∷ [])) }
/// ```
fn types<A: Allocator + Copy>(alloc: A) -> Result<TypeSection<A>> {
    let mut section = TypeSection::new(alloc);
    section.ty().function([ValType::I32], [])?;
    Ok(section)
}

/// The function is of the type 0.
///
/// # Proved
///
/// ```text
/// ensures { IfOk result (λ section. ContainsFunctions section (0 ∷ [])) }
/// ```
fn functions<A: Allocator + Copy>(alloc: A) -> Result<FunctionSection<A>> {
    let mut section = FunctionSection::new(alloc);
    section.function(0)?;
    Ok(section)
}

/// The branch of the function 0, at the offset 9 of its raw body, is not likely to be taken. Before
/// it are the count of locals (1 byte), `block` (2), `local.get` (2), `i32.load` (3) and `i32.eqz`
/// (1).
///
/// # Proved
///
/// ```text
/// ensures { IfOk result (λ section. ContainsHints section unlikely_hints) }
/// ```
fn hints<A: Allocator + Copy>(alloc: A) -> Result<BranchHints<A>> {
    let hint = BranchHint {
        branch_func_offset: 9,
        branch_hint_value: 0,
    };
    let mut section = BranchHints::new(alloc);
    section.function_hints(0, [hint])?;
    Ok(section)
}

/// Returns the body of the function.
///
/// # Proved
///
/// ```text
/// ensures { IfOk result (λ section. EncodesBodies section (count_down_body ∷ [])) }
/// ```
fn code<A: Allocator + Copy>(alloc: A) -> Result<CodeSection<A>> {
    let mut section = CodeSection::new(alloc);
    section.function(&count_down(alloc)?)?;
    Ok(section)
}

/// Decrements the number if it is not 0.
///
/// # Proved
///
/// ```text
/// ensures { IfOk result (λ function. IsWellFormedBody function count_down_body) }
/// ```
fn count_down<A: Allocator>(alloc: A) -> Result<Function<A>> {
    let mut function = Function::new(alloc, [])?;
    let mut sink = function.instructions();
    sink.block(BlockType::Empty)?;
    sink.local_get(0)?;
    sink.i32_load(NUMBER)?;
    sink.i32_eqz()?;
    sink.br_if(0)?;
    sink.local_get(0)?;
    sink.local_get(0)?;
    sink.i32_load(NUMBER)?;
    sink.i32_const(1)?;
    sink.i32_sub()?;
    sink.i32_store(NUMBER)?;
    sink.end()?;
    sink.end()?;
    Ok(function)
}

/// Returns the symbol of the function 0, which is exported from the linked module.
///
/// # Proved
///
/// ```text
/// ensures { IfOk result (λ table. AreSymbols table (count_down_symbol ∷ [])) }
/// ```
fn symbols<A: Allocator + Copy>(alloc: A) -> Result<SymbolTable<A>> {
    let mut table = SymbolTable::new(alloc);
    table.function(SymbolTable::WASM_SYM_EXPORTED, 0, Some("count_down"))?;
    Ok(table)
}

/// Returns the linking section: the symbols.
///
/// # Proved
///
/// ```text
/// ensures { IfOk result (λ section. ContainsLinks section links) }
/// ```
fn linking<A: Allocator + Copy>(alloc: A) -> Result<LinkingSection<A>> {
    let mut section = LinkingSection::new(alloc);
    section.symbol_table(&symbols(alloc)?)?;
    Ok(section)
}

/// Returns the producers of the module.
///
/// # Proved
///
/// ```text
/// ensures { IfOk result (λ section. ContainsFields section producers_fields) }
/// ```
fn producers<A: Allocator + Copy>(alloc: A) -> Result<ProducersSection<A>> {
    let mut values = ProducersField::new(alloc);
    values.value("dolzhytik", "0.1.0")?;
    let mut section = ProducersSection::new(alloc);
    section.field("processed-by", &values)?;
    Ok(section)
}
