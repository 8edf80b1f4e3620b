// Written by tools/to-rust from crates/examples/src/lowering.rt: change that.
// A compiler from the operations of a stack machine.

use dolzhytik::fallible::Allocator;
use dolzhytik::fallible::{Result, ValType};
use dolzhytik::fallible::Function;
use dolzhytik::fallible::BlockType;
use dolzhytik::fallible::{Instruction, Numeric};

/// A binary operator on numbers of 32 bits.
#[derive(Clone, Copy, Debug)]
pub enum Operator {
    Add,
    Subtract,
    Multiply,
    /// 1 if both are equal, and 0 otherwise.
    Equal,
    /// 1 if the first is less, both signed, and 0 otherwise.
    Less,
}

/// An operation of a stack machine, whose numbers have 32 bits.
#[derive(Clone, Copy, Debug)]
pub enum Operation {
    Constant(i32),
    Get(u32),
    Set(u32),
    Binary(Operator),
    /// 1 if the number is 0, and 0 otherwise.
    IsZero,
    Block,
    Loop,
    /// Branches to the end of a block or the start of a loop, 0 for the innermost.
    Branch(u32),
    /// Branches likewise if the number is not 0.
    BranchIf(u32),
    Call(u32),
    Return,
    /// Ends a block or a loop.
    End,
}

/// Returns the numeric instruction of an operator.
///
/// # Proved
///
/// ```text
/// ensures { result ≡ numeric_of operator }
/// ```
fn numeric(operator: Operator) -> Numeric {
    match operator {
        Operator::Add => Numeric::I32Add,
        Operator::Subtract => Numeric::I32Sub,
        Operator::Multiply => Numeric::I32Mul,
        Operator::Equal => Numeric::I32Eq,
        Operator::Less => Numeric::I32LtS,
    }
}

/// Returns the instruction of an operation.
///
/// # Proved
///
/// ```text
/// ensures same { result ≡ instruction_of operation }
/// ensures plain { IsWellFormedInstruction result }
/// ```
pub fn lower(operation: Operation) -> Instruction<'static> {
    match operation {
        Operation::Constant(value) => Instruction::I32Const(value),
        Operation::Get(index) => Instruction::LocalGet(index),
        Operation::Set(index) => Instruction::LocalSet(index),
        Operation::Binary(operator) => Instruction::Numeric(numeric(operator)),
        Operation::IsZero => Instruction::I32Eqz,
        Operation::Block => Instruction::Block(BlockType::Empty),
        Operation::Loop => Instruction::Loop(BlockType::Empty),
        Operation::Branch(label) => Instruction::Br(label),
        Operation::BranchIf(label) => Instruction::BrIf(label),
        Operation::Call(index) => Instruction::Call(index),
        Operation::Return => Instruction::Return,
        Operation::End => Instruction::End,
    }
}

/// Adds the instruction of an operation.
///
/// # Proved
///
/// ```text
/// ensures { OnOk result (GainsOperations (operation ∷ []) function.old function.new) }
/// ```
pub(crate) fn emit<A: Allocator>(function: &mut Function<A>, operation: Operation) -> Result<()> {
    function.instruction(&lower(operation))
}

/// Adds the instructions of operations.
///
/// # Proved
///
/// ```text
/// ensures { OnOk result (GainsOperations operations.now function.old function.new) }
/// ```
fn emit_all<A: Allocator>(function: &mut Function<A>, operations: &[Operation]) -> Result<()> {
    for operation in operations {
        emit(function, *operation)?;
    }
    Ok(())
}

/// Returns a function of these operations, with `locals` locals of 32 bits after its parameters.
///
/// # Proved
///
/// ```text
/// ensures { IfOk result (λ function. IsWellFormedBody function (body_of locals operations.now)) }
/// ```
pub fn compile<A: Allocator>(alloc: A, locals: u32, operations: &[Operation]) -> Result<Function<A>> {
    let mut function = Function::new(alloc, [(locals, ValType::I32)])?;
    emit_all(&mut function, operations)?;
    emit(&mut function, Operation::End)?;
    Ok(function)
}
