// Written by tools/to-rust from tests/wasm_insn_tests/src/table.rtt: change that.
//! Tests that each instruction of the opcode table has the bytes of its row.

use dolzhytik::fallible::Vec;
use crate::checks::{check_hex, check_refusals, check_row};
use crate::{cases, rows};
use dolzhytik::fallible::Global;
use crate::host::Abort;
use dolzhytik::fallible::Encode;
use dolzhytik::fallible::{Aggregate, Atomic, Instruction, Numeric, PrefixedNumeric, Vector, VectorImmediate};

/// Checks that the opcode is in the table.
fn check_op(rt: &impl Abort, instruction: &Instruction<'_>, row: &str) {
    assert!(rt; instruction.op().shape().is_some(), "{row}");
}

/// Checks that the instruction and its clone have these bytes, and that the opcode is in the table.
/// If a request for memory fails, each in turn, the sink is unchanged.
fn check(rt: &impl Abort, alloc: Global, instruction: &Instruction<'_>, row: &str) {
    check_op(rt, instruction, row);
    check_row(rt, alloc, &instruction.clone().expect("accepted"), row);
    let mut bytes = Vec::new(alloc);
    instruction.encode(&mut bytes).expect("accepted");
    check_hex(rt, alloc, &bytes, row);
    check_refusals(rt, alloc, instruction, &bytes)
}

#[test]
fn instructions() {
    let rt = crate::host::HostRuntime;
    for (place, row) in rows::INSTRUCTIONS.iter().enumerate() {
        check(&rt, rt.alloc(), &cases::instruction(place), row);
    }
}

#[test]
fn names() {
    let rt = crate::host::HostRuntime;
    for (place, row) in rows::NAMES.iter().enumerate() {
        check(&rt, rt.alloc(), &cases::name(place), row);
    }
}

/// A case of an enum whose cases are instructions.
trait Case: Copy {
    fn instruction(self) -> Instruction<'static>;
}

impl Case for Numeric {
    fn instruction(self) -> Instruction<'static> {
        Instruction::Numeric(self)
    }
}

impl Case for Aggregate {
    fn instruction(self) -> Instruction<'static> {
        Instruction::Aggregate(self)
    }
}

impl Case for PrefixedNumeric {
    fn instruction(self) -> Instruction<'static> {
        Instruction::PrefixedNumeric(self)
    }
}

impl Case for Vector {
    fn instruction(self) -> Instruction<'static> {
        Instruction::Vector(self)
    }
}

impl Case for VectorImmediate {
    fn instruction(self) -> Instruction<'static> {
        Instruction::VectorImmediate(self)
    }
}

impl Case for Atomic {
    fn instruction(self) -> Instruction<'static> {
        Instruction::Atomic(self)
    }
}

/// Checks that there are as many cases as rows.
fn check_len(rt: &impl Abort, cases: usize, rows: usize) {
    assert_eq!(rt; cases, rows);
}

/// Checks that each case is the instruction of its row.
fn check_cases<C: Case>(rt: &impl Abort, alloc: Global, cases: &[C], rows: &[&str]) {
    check_len(rt, cases.len(), rows.len());
    for (case, row) in cases.iter().zip(rows.iter()) {
        check(rt, alloc, &case.instruction(), row);
    }
}

#[test]
fn numerics() {
    let rt = crate::host::HostRuntime;
    check_cases(&rt, rt.alloc(), &cases::NUMERICS, &rows::NUMERICS)
}

#[test]
fn aggregates() {
    let rt = crate::host::HostRuntime;
    check_cases(&rt, rt.alloc(), &cases::AGGREGATES, &rows::AGGREGATES)
}

#[test]
fn prefixed_numerics() {
    let rt = crate::host::HostRuntime;
    check_cases(
        &rt,
        rt.alloc(),
        &cases::PREFIXED_NUMERICS,
        &rows::PREFIXED_NUMERICS,
    )
}

#[test]
fn vectors() {
    let rt = crate::host::HostRuntime;
    check_cases(&rt, rt.alloc(), &cases::VECTORS, &rows::VECTORS)
}

#[test]
fn vector_immediates() {
    let rt = crate::host::HostRuntime;
    check_cases(
        &rt,
        rt.alloc(),
        &cases::VECTOR_IMMEDIATES,
        &rows::VECTOR_IMMEDIATES,
    )
}

#[test]
fn atomics() {
    let rt = crate::host::HostRuntime;
    check_cases(&rt, rt.alloc(), &cases::ATOMICS, &rows::ATOMICS)
}
