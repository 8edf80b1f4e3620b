// Written by tools/to-rust from crates/examples/src/compiled.rt: change that.
// A module of compiled functions.

use dolzhytik::fallible::Vec;
use crate::examples::lowering::{Operation, Operator, compile};
use crate::examples::trees::{Expr, Statement, compile_tree};
use dolzhytik::fallible::Allocator;
use dolzhytik::fallible::{Module, Result, ValType};
use dolzhytik::fallible::{CodeSection, Function};
use dolzhytik::fallible::{ExportKind, ExportSection, FunctionSection};
use dolzhytik::fallible::TypeSection;

/// Computes the product of its two parameters.
const PRODUCT: [Operation; 3] = [
    Operation::Get(0),
    Operation::Get(1),
    Operation::Binary(Operator::Multiply),
];

/// Computes the factorial of its parameter, by products: the local 1 is multiplied by each number
/// from the parameter down to 1.
const FACTORIAL: [Statement<'static>; 3] = [
    Statement::Set(1, Expr::Constant(1)),
    Statement::While(
        Expr::Local(0),
        &[
            Statement::Set(1, Expr::Call(0, &[Expr::Local(1), Expr::Local(0)])),
            Statement::Set(
                0,
                Expr::Binary(Operator::Subtract, &Expr::Local(0), &Expr::Constant(1)),
            ),
        ],
    ),
    Statement::Return(Expr::Local(1)),
];

/// Computes the sum of the squares from 1 to its parameter, by products: the square of each number
/// is added to the local 1.
const SQUARES: [Operation; 19] = [
    Operation::Block,
    Operation::Loop,
    Operation::Get(0),
    Operation::IsZero,
    Operation::BranchIf(1),
    Operation::Get(1),
    Operation::Get(0),
    Operation::Get(0),
    Operation::Call(0),
    Operation::Binary(Operator::Add),
    Operation::Set(1),
    Operation::Get(0),
    Operation::Constant(1),
    Operation::Binary(Operator::Subtract),
    Operation::Set(0),
    Operation::Branch(0),
    Operation::End,
    Operation::End,
    Operation::Get(1),
];

/// Returns a module that exports a factorial, compiled from a tree, and a sum of squares, compiled
/// from operations. Both have a loop, and call a third function.
///
/// # Proved
///
/// ```text
/// ensures { IfOk result (λ bytes. DecodesSections compiled_sections bytes.items) }
/// ```
pub fn compiled_module<A: Allocator + Copy>(alloc: A) -> Result<Vec<u8, A>> {
    let mut module = Module::new(alloc)?;
    module.section(&types(alloc)?)?;
    module.section(&functions(alloc)?)?;
    module.section(&exports(alloc)?)?;
    module.section(&code(alloc)?)?;
    Ok(module.finish())
}

/// Returns the types of the functions: of two numbers, and of one.
///
/// # Proved
///
/// ```text
/// ensures { IfOk result (λ section. ContainsTypes section (adding_type ∷ one_number ∷ [])) }
/// ```
fn types<A: Allocator + Copy>(alloc: A) -> Result<TypeSection<A>> {
    let mut section = TypeSection::new(alloc);
    section
        .ty()
        .function([ValType::I32, ValType::I32], [ValType::I32])?;
    section.ty().function([ValType::I32], [ValType::I32])?;
    Ok(section)
}

/// The product is of the type 0, and the others are of the type 1.
///
/// # Proved
///
/// ```text
/// ensures { IfOk result (λ section. ContainsFunctions section (0 ∷ 1 ∷ 1 ∷ [])) }
/// ```
fn functions<A: Allocator + Copy>(alloc: A) -> Result<FunctionSection<A>> {
    let mut section = FunctionSection::new(alloc);
    section.function(0)?;
    section.function(1)?;
    section.function(1)?;
    Ok(section)
}

/// Exports the functions 1 and 2.
///
/// # Proved
///
/// ```text
/// ensures { IfOk result (λ section. ContainsExports section (factorial_of ∷ squares_of ∷ [])) }
/// ```
fn exports<A: Allocator + Copy>(alloc: A) -> Result<ExportSection<A>> {
    let mut section = ExportSection::new(alloc);
    section.export("factorial", ExportKind::Func, 1)?;
    section.export("squares", ExportKind::Func, 2)?;
    Ok(section)
}

/// Returns the bodies of the three functions.
///
/// # Proved
///
/// ```text
/// ensures { IfOk result (λ section. EncodesBodies section compiled_bodies) }
/// ```
fn code<A: Allocator + Copy>(alloc: A) -> Result<CodeSection<A>> {
    let mut section = CodeSection::new(alloc);
    section.function(&compile(alloc, 0, &PRODUCT)?)?;
    section.function(&compiled_factorial(alloc)?)?;
    section.function(&compile(alloc, 1, &SQUARES)?)?;
    Ok(section)
}

/// Returns the compiled factorial.
///
/// # Proved
///
/// ```text
/// ensures { IfOk result (λ function. IsWellFormedBody function (body_of 1 factorial_operations)) }
/// ```
fn compiled_factorial<A: Allocator>(alloc: A) -> Result<Function<A>> {
    compile_tree(alloc, 1, &FACTORIAL)
}
