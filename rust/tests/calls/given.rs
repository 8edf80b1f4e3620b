// Written by tools/to-rust from crates/calls/src/given.rt: change that.
//! Values that are made from their fields, and sections of core dumps and of relocations as custom
//! sections.

use dolzhytik::fallible::Vec;
use dolzhytik::fallible::Allocator;
use dolzhytik::fallible::{Result, ValType};
use dolzhytik::fallible::ConstExpr;
use dolzhytik::fallible::{CoreDumpInstancesSection, CoreDumpModulesSection, CoreDumpStackSection, CustomSection, RelocationSection};
use dolzhytik::fallible::{Ieee32, Ieee64};
use dolzhytik::fallible::FuncType;

/// Returns a constant of 32 bits.
///
/// # Proved
///
/// ```text
/// ensures { IfOk result (Stores (Instruction.F32Const float) []) }
/// ```
pub fn single_constant<A: Allocator>(alloc: A, float: Ieee32) -> Result<ConstExpr<A>> {
    ConstExpr::f32_const(alloc, float)
}

/// Returns a constant of 64 bits.
///
/// # Proved
///
/// ```text
/// ensures { IfOk result (Stores (Instruction.F64Const float) []) }
/// ```
pub fn double_constant<A: Allocator>(alloc: A, float: Ieee64) -> Result<ConstExpr<A>> {
    ConstExpr::f64_const(alloc, float)
}

/// Returns a constant of 128 bits.
///
/// # Proved
///
/// ```text
/// ensures { IfOk result (Stores (Instruction.VectorImmediate (VectorImmediate.V128Const vector)) []) }
/// ```
pub fn vector_constant<A: Allocator>(alloc: A, vector: i128) -> Result<ConstExpr<A>> {
    ConstExpr::v128_const(alloc, vector)
}

/// Returns the type of a function with these parameters and results.
///
/// # Proved
///
/// ```text
/// ensures params { result.params.items ≡ params.items }
/// ensures results { result.results.items ≡ results.items }
/// ```
pub fn function_type<A: Allocator>(params: Vec<ValType, A>, results: Vec<ValType, A>) -> FuncType<A> {
    FuncType::of(params, results)
}

/// Returns the modules of a process as a custom section.
///
/// # Proved
///
/// ```text
/// ensures { IfOk result (λ s. (utf8_of s.name ≡ modules_name) × (items_of s.bytes ≡ entries_encoding [] true modules.now)) }
/// ```
pub fn custom_modules<'a, A: Allocator, B: Allocator>(
    modules: &'a CoreDumpModulesSection<A>,
    alloc: B,
) -> Result<CustomSection<'a, B>> {
    modules.as_custom(alloc)
}

/// Returns the instances of a process as a custom section.
///
/// # Proved
///
/// ```text
/// ensures { IfOk result (λ s. (utf8_of s.name ≡ instances_name) × (items_of s.bytes ≡ entries_encoding [] true instances.now)) }
/// ```
pub fn custom_instances<'a, A: Allocator, B: Allocator>(
    instances: &'a CoreDumpInstancesSection<A>,
    alloc: B,
) -> Result<CustomSection<'a, B>> {
    instances.as_custom(alloc)
}

/// Returns the stack of a thread as a custom section.
///
/// # Proved
///
/// ```text
/// ensures { IfOk result (λ s. (utf8_of s.name ≡ stack_name) × (items_of s.bytes ≡ entries_encoding stack.now.0 true stack.now.1)) }
/// ```
pub fn custom_stack<'a, A: Allocator, B: Allocator>(
    stack: &'a CoreDumpStackSection<A>,
    alloc: B,
) -> Result<CustomSection<'a, B>> {
    stack.as_custom(alloc)
}

/// Returns relocations as a custom section.
///
/// # Proved
///
/// ```text
/// ensures { IfOk result (λ s. (utf8_of s.name ≡ relocations.now.0.0) × (items_of s.bytes ≡ entries_encoding relocations.now.0.1 true relocations.now.1)) }
/// ```
pub fn custom_relocations<'a, A: Allocator, B: Allocator>(
    relocations: &'a RelocationSection<A>,
    alloc: B,
) -> Result<CustomSection<'a, B>> {
    relocations.as_custom(alloc)
}
