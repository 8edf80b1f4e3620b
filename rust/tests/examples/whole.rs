// Written by tools/to-rust from crates/examples/src/whole.rt: change that.
// A module of eight sections.

use dolzhytik::fallible::Vec;
use crate::examples::recursion::factorial;
use dolzhytik::fallible::Allocator;
use dolzhytik::fallible::{Module, RawSection, Result, ValType};
use dolzhytik::fallible::{CodeSection, ConstExpr, Function};
use dolzhytik::fallible::{EntityType, ExportKind, ExportSection, FunctionSection, GlobalSection, GlobalType, ImportSection, MemorySection, MemoryType, StartSection};

/// Returns a module that imports a function, has a global and a memory, and replaces the global by
/// its factorial when it starts.
///
/// # Proved
///
/// ```text
/// ensures { IfOk result (λ bytes. DecodesSections whole_sections bytes.items) }
/// ```
pub fn whole_module<A: Allocator + Copy>(alloc: A) -> Result<Vec<u8, A>> {
    let mut module = Module::new(alloc)?;
    add_declared(&mut module, alloc)?;
    add_stored(&mut module, alloc)?;
    module.section(&StartSection { function_index: 2 })?;
    module.section(&code(alloc)?)?;
    Ok(module.finish())
}

/// Adds the types, the imported function, and the types of the others.
///
/// # Proved
///
/// ```text
/// ensures { DecodesSections [] built.old → OnOk result (DecodesSections declared_sections built.new) }
/// ```
fn add_declared<A: Allocator + Copy>(built: &mut Module<A>, alloc: A) -> Result<()> {
    built.section(&RawSection {
        id: 1,
        bytes: &[0x02, 0x60, 0x00, 0x00, 0x60, 0x01, 0x7F, 0x01, 0x7F],
    })?;
    built.section(&imports(alloc)?)?;
    built.section(&functions(alloc)?)?;
    Ok(())
}

/// Adds the memory, the global, and the exports.
///
/// # Proved
///
/// ```text
/// ensures { DecodesSections declared_sections built.old → OnOk result (DecodesSections stored_sections built.new) }
/// ```
fn add_stored<A: Allocator + Copy>(built: &mut Module<A>, alloc: A) -> Result<()> {
    built.section(&memories(alloc)?)?;
    built.section(&globals(alloc)?)?;
    built.section(&exports(alloc)?)?;
    Ok(())
}

/// Imports the function 0 from the host.
///
/// # Proved
///
/// ```text
/// ensures { IfOk result (λ section. ContainsImports section (ready ∷ [])) }
/// ```
pub(crate) fn imports<A: Allocator + Copy>(alloc: A) -> Result<ImportSection<A>> {
    let mut section = ImportSection::new(alloc);
    section.import("host", "ready", EntityType::Function(0))?;
    Ok(section)
}

/// Returns the types of the functions 1 and 2.
///
/// # Proved
///
/// ```text
/// ensures { IfOk result (λ section. ContainsFunctions section (1 ∷ 0 ∷ [])) }
/// ```
fn functions<A: Allocator + Copy>(alloc: A) -> Result<FunctionSection<A>> {
    let mut section = FunctionSection::new(alloc);
    section.function(1)?;
    section.function(0)?;
    Ok(section)
}

/// Returns a memory of one page.
///
/// # Proved
///
/// ```text
/// ensures { IfOk result (λ section. ContainsMemories section (one_page ∷ [])) }
/// ```
pub(crate) fn memories<A: Allocator + Copy>(alloc: A) -> Result<MemorySection<A>> {
    let mut section = MemorySection::new(alloc);
    section.memory(MemoryType {
        minimum: 1,
        maximum: None,
        memory64: false,
        shared: false,
        page_size_log2: None,
    })?;
    Ok(section)
}

/// Returns a mutable number, initially 5.
///
/// # Proved
///
/// ```text
/// ensures { IfOk result (λ section. ContainsGlobals section (five ∷ [])) }
/// ```
fn globals<A: Allocator + Copy>(alloc: A) -> Result<GlobalSection<A>> {
    let global_type = GlobalType {
        val_type: ValType::I32,
        mutable: true,
        shared: false,
    };
    let mut section = GlobalSection::new(alloc);
    section.global(global_type, &ConstExpr::i32_const(alloc, 5)?)?;
    Ok(section)
}

/// Exports the factorial and the memory.
///
/// # Proved
///
/// ```text
/// ensures { IfOk result (λ section. ContainsExports section (factorial_export ∷ memory_export ∷ [])) }
/// ```
fn exports<A: Allocator + Copy>(alloc: A) -> Result<ExportSection<A>> {
    let mut section = ExportSection::new(alloc);
    section.export("factorial", ExportKind::Func, 1)?;
    section.export("memory", ExportKind::Memory, 0)?;
    Ok(section)
}

/// Returns the bodies of the functions 1 and 2.
///
/// # Proved
///
/// ```text
/// ensures { IfOk result (λ section. EncodesBodies section (factorial_body 1 ∷ start_body ∷ [])) }
/// ```
fn code<A: Allocator + Copy>(alloc: A) -> Result<CodeSection<A>> {
    let mut section = CodeSection::new(alloc);
    section.function(&factorial(alloc, 1)?)?;
    section.function(&start(alloc)?)?;
    Ok(section)
}

/// Returns the start function: it replaces the global by its factorial, and calls the host.
///
/// # Proved
///
/// ```text
/// ensures { IfOk result (λ function. IsWellFormedBody function start_body) }
/// ```
fn start<A: Allocator>(alloc: A) -> Result<Function<A>> {
    let mut function = Function::new(alloc, [])?;
    let mut sink = function.instructions();
    sink.global_get(0)?;
    sink.call(1)?;
    sink.global_set(0)?;
    sink.call(0)?;
    sink.end()?;
    Ok(function)
}
