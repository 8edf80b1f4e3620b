// Written by tools/to-rust from crates/calls/src/once/code.rt: change that.
//! Constant expressions and functions.

use dolzhytik::fallible::Allocator;
use dolzhytik::fallible::{HeapType, Result, ValType};
use dolzhytik::fallible::{ConstExpr, Function};
use dolzhytik::fallible::{Ieee32, Ieee64};
use dolzhytik::fallible::Instruction;

pub fn integers<A: Allocator + Copy>(alloc: A) -> Result<()> {
    ConstExpr::empty(alloc)
        .with_i64_const(1)?
        .with_i64_const(2)?
        .with_i64_add()?
        .with_i64_sub()?
        .with_i64_mul()?
        .with_i32_sub()?
        .with_i32_mul()?;
    Ok(())
}

pub fn other_constants<A: Allocator + Copy>(alloc: A) -> Result<()> {
    ConstExpr::empty(alloc)
        .with_global_get(1)?
        .with_ref_null(HeapType::FUNC)?
        .with_f32_const(Ieee32::new(1))?
        .with_f64_const(Ieee64::new(1))?
        .with_v128_const(1)?;
    Ok(())
}

pub fn references<A: Allocator + Copy>(alloc: A) -> Result<()> {
    let reference = ConstExpr::empty(alloc).with_ref_func(7)?;
    let _ = reference.get_ref_func();
    let zero: Instruction = Instruction::I32Const(0);
    let _ = ConstExpr::extended(alloc, [zero])?;
    Ok(())
}

pub fn functions<A: Allocator + Copy>(alloc: A) -> Result<()> {
    let mut function = Function::new_with_locals_types(alloc, [ValType::I32])?;
    function.raw([0x0B])?;
    let _ = function.into_raw_body();
    Ok(())
}
