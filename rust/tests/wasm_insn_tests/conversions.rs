// Written by tools/to-rust from tests/wasm_insn_tests/src/conversions.rtt: change that.
//! Tests that each instruction of the opcode table is decoded to arguments, and converted to the
//! value that encodes to the bytes of its row again.

use dolzhytik::fallible::Vec;
use crate::checks::check_hex;
use crate::rows;
use dolzhytik::fallible::Global;
use crate::host::Abort;
use dolzhytik::fallible::Encode;
use dolzhytik::reader::{Padded, Readable};
use dolzhytik::reader::{Arg, Plain};
use dolzhytik::fallible::Op;
use dolzhytik::reader::instruction_of;

/// Checks that the instruction of these bytes, in hexadecimal, is converted to one that encodes to
/// them.
fn check(rt: &impl Abort, alloc: Global, row: &str) {
    let bytes = dolzhytik::fallible::hex::decode(alloc, row.as_bytes()).expect("hexadecimal");
    let (plain, _rest) = <Plain as Readable<'_, Global, Padded>>::read(&bytes, alloc).expect(
        "accepted",
    );
    let instruction = instruction_of(plain.op, &plain.args).expect("an instruction");
    let mut again = Vec::new(alloc);
    instruction.encode(&mut again).expect("accepted");
    check_hex(rt, alloc, &again, row)
}

fn check_all(rt: &impl Abort, alloc: Global, rows: &[&str]) {
    for row in rows {
        check(rt, alloc, row);
    }
}

#[test]
fn instructions() {
    let rt = crate::host::HostRuntime;
    check_all(&rt, rt.alloc(), &rows::INSTRUCTIONS)
}

#[test]
fn numerics() {
    let rt = crate::host::HostRuntime;
    check_all(&rt, rt.alloc(), &rows::NUMERICS)
}

#[test]
fn aggregates() {
    let rt = crate::host::HostRuntime;
    check_all(&rt, rt.alloc(), &rows::AGGREGATES)
}

#[test]
fn prefixed_numerics() {
    let rt = crate::host::HostRuntime;
    check_all(&rt, rt.alloc(), &rows::PREFIXED_NUMERICS)
}

#[test]
fn vectors() {
    let rt = crate::host::HostRuntime;
    check_all(&rt, rt.alloc(), &rows::VECTORS)
}

#[test]
fn vector_immediates() {
    let rt = crate::host::HostRuntime;
    check_all(&rt, rt.alloc(), &rows::VECTOR_IMMEDIATES)
}

#[test]
fn atomics() {
    let rt = crate::host::HostRuntime;
    check_all(&rt, rt.alloc(), &rows::ATOMICS)
}

/// Checks that the opcode with these arguments is no instruction.
fn check_none(rt: &impl Abort, op: Op, args: &[Arg]) {
    assert!(rt; instruction_of(op, args).is_none(), "{op:?}");
}

#[test]
fn no_instructions() {
    let rt = crate::host::HostRuntime;
    // No row: 16, FB 31. Too few, too many, and others: call, i32.add, i32.const.
    check_none(&rt, Op::Byte(0x16), &[]);
    check_none(&rt, Op::Prefixed(0xFB, 31), &[]);
    check_none(&rt, Op::Byte(0x10), &[]);
    check_none(&rt, Op::Byte(0x6A), &[Arg::U32(1)]);
    check_none(&rt, Op::Byte(0x41), &[Arg::U32(1)]);
    check_none(&rt, Op::Byte(0x41), &[Arg::S32(1), Arg::S32(1)]);
    // br_on_cast with flags of which bit 2 is set.
    let heap = dolzhytik::fallible::HeapType::Concrete(0);
    let args = [Arg::Flag(4), Arg::U32(0), Arg::Heap(heap), Arg::Heap(heap)];
    check_none(&rt, Op::Prefixed(0xFB, 24), &args);
}
