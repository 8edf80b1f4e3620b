// Written by tools/to-rust from crates/examples/src/adding.rt: change that.
// A whole module by builders alone: a function that adds two numbers.

use dolzhytik::fallible::Vec;
use dolzhytik::fallible::Allocator;
use dolzhytik::fallible::{Module, Result, ValType};
use dolzhytik::fallible::{CodeSection, Function};
use dolzhytik::fallible::{ExportKind, ExportSection, FunctionSection};
use dolzhytik::fallible::TypeSection;

/// Returns a module that exports, as `add`, the sum of two numbers.
///
/// # Proved
///
/// ```text
/// ensures { IfOk result (λ bytes. DecodesSections adding_sections bytes.items) }
/// ```
pub fn adding_module<A: Allocator + Copy>(alloc: A) -> Result<Vec<u8, A>> {
    let mut module = Module::new(alloc)?;
    module.section(&types(alloc)?)?;
    module.section(&functions(alloc)?)?;
    module.section(&exports(alloc)?)?;
    module.section(&code(alloc)?)?;
    Ok(module.finish())
}

/// Returns the type of the function.
///
/// # Proved
///
/// ```text
/// ensures { IfOk result (λ section. ContainsTypes section (adding_type ∷ [])) }
/// ```
fn types<A: Allocator + Copy>(alloc: A) -> Result<TypeSection<A>> {
    let mut section = TypeSection::new(alloc);
    section
        .ty()
        .function([ValType::I32, ValType::I32], [ValType::I32])?;
    Ok(section)
}

/// The function is of the type 0.
///
/// # Proved
///
/// ```text
/// ensures { IfOk result (λ section. ContainsFunctions section (0 ∷ [])) }
/// ```
fn functions<A: Allocator + Copy>(alloc: A) -> Result<FunctionSection<A>> {
    let mut section = FunctionSection::new(alloc);
    section.function(0)?;
    Ok(section)
}

/// Exports the function 0 as `add`.
///
/// # Proved
///
/// ```text
/// ensures { IfOk result (λ section. ContainsExports section (add_export ∷ [])) }
/// ```
fn exports<A: Allocator + Copy>(alloc: A) -> Result<ExportSection<A>> {
    let mut section = ExportSection::new(alloc);
    section.export("add", ExportKind::Func, 0)?;
    Ok(section)
}

/// Returns the body of the function.
///
/// # Proved
///
/// ```text
/// ensures { IfOk result (λ section. EncodesBodies section (adding_body ∷ [])) }
/// ```
fn code<A: Allocator + Copy>(alloc: A) -> Result<CodeSection<A>> {
    let mut section = CodeSection::new(alloc);
    section.function(&sum(alloc)?)?;
    Ok(section)
}

/// Returns the sum of the two parameters.
///
/// # Proved
///
/// ```text
/// ensures { IfOk result (λ function. IsWellFormedBody function adding_body) }
/// ```
pub(crate) fn sum<A: Allocator>(alloc: A) -> Result<Function<A>> {
    let mut function = Function::new(alloc, [])?;
    let mut sink = function.instructions();
    sink.local_get(0)?;
    sink.local_get(1)?;
    sink.i32_add()?;
    sink.end()?;
    Ok(function)
}
