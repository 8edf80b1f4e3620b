// Written by tools/to-rust from crates/examples/src/trees.rt: change that.
// A compiler from trees.

use crate::examples::lowering::{Operation, Operator, emit};
use dolzhytik::fallible::Allocator;
use dolzhytik::fallible::{Result, ValType};
use dolzhytik::fallible::Function;

/// An expression, whose value is a number of 32 bits.
#[derive(Clone, Copy)]
pub enum Expr<'a> {
    Constant(i32),
    Local(u32),
    Binary(Operator, &'a Expr<'a>, &'a Expr<'a>),
    /// A call of the function of this index, with these arguments.
    Call(u32, &'a [Expr<'a>]),
}

/// A statement.
#[derive(Clone, Copy)]
pub enum Statement<'a> {
    /// Sets the local of this index to the value.
    Set(u32, Expr<'a>),
    /// Repeats the statements as long as the value is not 0.
    While(Expr<'a>, &'a [Statement<'a>]),
    Return(Expr<'a>),
}

/// Adds the instructions of an expression.
///
/// # Proved
///
/// ```text
/// ensures { OnOk result (GainsOperations (expr_operations expr.now) function.old function.new) }
/// ```
fn emit_expr<A: Allocator>(function: &mut Function<A>, expr: &Expr<'_>) -> Result<()> {
    match expr {
        Expr::Constant(value) => emit(function, Operation::Constant(*value)),
        Expr::Local(index) => emit(function, Operation::Get(*index)),
        Expr::Binary(operator, left, right) => {
            emit_expr(function, left)?;
            emit_expr(function, right)?;
            emit(function, Operation::Binary(*operator))
        }
        Expr::Call(index, arguments) => {
            emit_arguments(function, arguments)?;
            emit(function, Operation::Call(*index))
        }
    }
}

/// Adds the instructions of arguments, one after another.
///
/// # Proved
///
/// ```text
/// ensures { OnOk result (GainsOperations (flat_map expr_operations arguments.now) function.old function.new) }
/// ```
fn emit_arguments<A: Allocator>(function: &mut Function<A>, arguments: &[Expr<'_>]) -> Result<()> {
    for argument in arguments {
        emit_expr(function, argument)?;
    }
    Ok(())
}

/// Adds the instructions of a statement.
///
/// # Proved
///
/// ```text
/// ensures { OnOk result (GainsOperations (statement_operations statement.now) function.old function.new) }
/// ```
fn emit_statement<A: Allocator>(function: &mut Function<A>, statement: &Statement<'_>) -> Result<()> {
    match statement {
        Statement::Set(index, value) => {
            emit_expr(function, value)?;
            emit(function, Operation::Set(*index))
        }
        Statement::While(test, body) => {
            emit(function, Operation::Block)?;
            emit(function, Operation::Loop)?;
            emit_expr(function, test)?;
            emit(function, Operation::IsZero)?;
            emit(function, Operation::BranchIf(1))?;
            emit_statements(function, body)?;
            emit(function, Operation::Branch(0))?;
            emit(function, Operation::End)?;
            emit(function, Operation::End)
        }
        Statement::Return(value) => {
            emit_expr(function, value)?;
            emit(function, Operation::Return)
        }
    }
}

/// Adds the instructions of statements, one after another.
///
/// # Proved
///
/// ```text
/// ensures { OnOk result (GainsOperations (flat_map statement_operations statements.now) function.old function.new) }
/// ```
fn emit_statements<A: Allocator>(
    function: &mut Function<A>,
    statements: &[Statement<'_>],
) -> Result<()> {
    for statement in statements {
        emit_statement(function, statement)?;
    }
    Ok(())
}

/// Returns a function of these statements, with `locals` locals of 32 bits after its parameters.
/// The last executed statement returns the function's value.
///
/// # Proved
///
/// ```text
/// ensures { IfOk result (λ function. IsWellFormedBody function (body_of locals (flat_map statement_operations statements.now))) }
/// ```
pub fn compile_tree<A: Allocator>(
    alloc: A,
    locals: u32,
    statements: &[Statement<'_>],
) -> Result<Function<A>> {
    let mut function = Function::new(alloc, [(locals, ValType::I32)])?;
    emit_statements(&mut function, statements)?;
    emit(&mut function, Operation::End)?;
    Ok(function)
}
