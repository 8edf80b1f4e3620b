// Written by tools/to-rust from tests/wasm_reader_tests/src/instructions.rtt: change that.
// Tests of instructions, expressions and bodies, with ample memory.

use dolzhytik::fallible::Vec;
use crate::checks::{check_fault, check_left};
use dolzhytik::fallible::Global;
use crate::host::Abort;
use dolzhytik::reader::{Padded, ReadFault, Readable, SizePrefixed};
use dolzhytik::fallible::ValType;
use dolzhytik::reader::{Body, Expression, read_body, read_code};
use dolzhytik::reader::{Arg, Plain};
use dolzhytik::fallible::{Op, Part, Shape};

/// Returns the case of an argument, and a number of it: its own, its offset, or the number of its
/// members.
fn said(arg: &Arg) -> (&'static str, i128) {
    match arg {
        Arg::U32(n) => ("u32", i128::from(*n)),
        Arg::S32(n) => ("s32", i128::from(*n)),
        Arg::S64(n) => ("s64", i128::from(*n)),
        Arg::F32(float) => ("f32", i128::from(float.bits())),
        Arg::F64(float) => ("f64", i128::from(float.bits())),
        Arg::V128(n) => ("v128", *n),
        Arg::Mem(memory) => ("mem", i128::from(memory.offset)),
        Arg::Lane(lane) => ("lane", i128::from(*lane)),
        Arg::Lanes(lanes) => ("lanes", i128::from(lanes[15])),
        Arg::Block(_) => ("block", 0),
        Arg::Heap(_) => ("heap", 0),
        Arg::Order(ordering) => ("order", *ordering as i128),
        Arg::Labels(labels) => ("labels", labels.len() as i128),
        Arg::Catches(clauses) => ("catches", clauses.len() as i128),
        Arg::Types(types) => ("types", types.len() as i128),
        Arg::Handles(clauses) => ("handles", clauses.len() as i128),
        Arg::Flag(flags) => ("flag", i128::from(*flags)),
        _ => unreachable!("the library has no other case"),
    }
}

/// Checks the argument at this index.
fn check_arg(rt: &impl Abort, args: &[Arg], at: usize, expected: (&str, i128)) {
    match args.get(at) {
        Some(arg) => check_said(rt, said(arg), expected),
        None => panic!(rt; "no argument"),
    }
}

fn check_said(rt: &impl Abort, given: (&str, i128), expected: (&str, i128)) {
    assert_eq!(rt; given, expected);
}

fn check_op(rt: &impl Abort, given: Op, expected: Op) {
    assert_eq!(rt; given, expected);
}

fn check_len(rt: &impl Abort, given: usize, expected: usize) {
    assert_eq!(rt; given, expected);
}

/// Checks that all of the bytes are an instruction of this opcode and these arguments.
fn check(rt: &impl Abort, alloc: Global, bytes: &[u8], op: Op, expected: &[(&str, i128)]) {
    let (plain, rest) = <Plain as Readable<'_, Global, Padded>>::read(bytes, alloc).expect(
        "accepted",
    );
    check_left(rt, rest, 0);
    check_op(rt, plain.op, op);
    check_len(rt, plain.args.len(), expected.len());
    for (at, wanted) in expected.iter().enumerate() {
        check_arg(rt, &plain.args, at, *wanted);
    }
}

#[test]
fn parts_of_shapes() {
    let rt = crate::host::HostRuntime;
    let cast = [Part::Flag, Part::Unsigned, Part::Heap, Part::Heap];
    assert_eq!(rt; Shape::K.parts(), cast.as_slice());
    assert_eq!(rt;
        Shape::Bt.parts(),
        [Part::Labels, Part::Unsigned].as_slice()
    );
    assert_eq!(rt; Shape::Nothing.parts(), [].as_slice());
}

#[test]
fn numbers_and_types() {
    let rt = crate::host::HostRuntime;
    let alloc = rt.alloc();
    check(&rt, alloc, &[0x0B], Op::Byte(0x0B), &[]);
    check(
        &rt,
        alloc,
        &[0x20, 0x85, 0x00],
        Op::Byte(0x20),
        &[("u32", 5)],
    );
    check(
        &rt,
        alloc,
        &[0x11, 7, 1],
        Op::Byte(0x11),
        &[("u32", 7), ("u32", 1)],
    );
    check(
        &rt,
        alloc,
        &[0x41, 0xFF, 0x7F],
        Op::Byte(0x41),
        &[("s32", -1)],
    );
    check(&rt, alloc, &[0x42, 0x40], Op::Byte(0x42), &[("s64", -64)]);
    check(
        &rt,
        alloc,
        &[0x43, 1, 1, 0, 0],
        Op::Byte(0x43),
        &[("f32", 257)],
    );
    check(
        &rt,
        alloc,
        &[0x44, 1, 1, 0, 0, 0, 0, 0, 0],
        Op::Byte(0x44),
        &[("f64", 257)],
    );
    check(&rt, alloc, &[0x02, 0x40], Op::Byte(0x02), &[("block", 0)]);
    check(&rt, alloc, &[0xD0, 0x70], Op::Byte(0xD0), &[("heap", 0)]);
    check(
        &rt,
        alloc,
        &[0x1C, 1, 0x7F],
        Op::Byte(0x1C),
        &[("types", 1)],
    );
    check(
        &rt,
        alloc,
        &[0x0E, 2, 0, 1, 3],
        Op::Byte(0x0E),
        &[("labels", 2), ("u32", 3)],
    );
    check(
        &rt,
        alloc,
        &[0x1F, 0x40, 1, 0, 1, 2],
        Op::Byte(0x1F),
        &[("block", 0), ("catches", 1)],
    );
    check(
        &rt,
        alloc,
        &[0xE3, 4, 1, 1, 2],
        Op::Byte(0xE3),
        &[("u32", 4), ("handles", 1)],
    )
}

#[test]
fn prefixed() {
    let rt = crate::host::HostRuntime;
    let alloc = rt.alloc();
    check(&rt, alloc, &[0x28, 2, 4], Op::Byte(0x28), &[("mem", 4)]);
    check(
        &rt,
        alloc,
        &[0xFC, 0x8A, 0x00, 1, 0],
        Op::Prefixed(0xFC, 10),
        &[("u32", 1), ("u32", 0)],
    );
    check(
        &rt,
        alloc,
        &[0xFB, 24, 3, 5, 0x6E, 0x6D],
        Op::Prefixed(0xFB, 24),
        &[("flag", 3), ("u32", 5), ("heap", 0), ("heap", 0)],
    );
    check(
        &rt,
        alloc,
        &[0xFD, 21, 15],
        Op::Prefixed(0xFD, 21),
        &[("lane", 15)],
    );
    check(
        &rt,
        alloc,
        &[0xFD, 84, 0, 8, 3],
        Op::Prefixed(0xFD, 84),
        &[("mem", 8), ("lane", 3)],
    );
    check(
        &rt,
        alloc,
        &[
            0xFD, 12, 0xFE, 0xFF, 0xFF, 0xFF, 0xFF, 0xFF, 0xFF, 0xFF, 0xFF, 0xFF, 0xFF, 0xFF, 0xFF,
            0xFF, 0xFF, 0xFF,
        ],
        Op::Prefixed(0xFD, 12),
        &[("v128", -2)],
    );
    check(
        &rt,
        alloc,
        &[
            0xFD, 13, 0, 1, 2, 3, 4, 5, 6, 7, 8, 9, 10, 11, 12, 13, 14, 31,
        ],
        Op::Prefixed(0xFD, 13),
        &[("lanes", 31)],
    );
    check(
        &rt,
        alloc,
        &[0xFE, 0x03, 1],
        Op::Prefixed(0xFE, 3),
        &[("order", 1)],
    )
}

#[test]
fn instructions_that_are_none() {
    let rt = crate::host::HostRuntime;
    let alloc = rt.alloc();
    check_fault::<Plain>(&rt, alloc, &[], ReadFault::Ended);
    check_fault::<Plain>(&rt, alloc, &[0x16], ReadFault::UnknownOpcode);
    check_fault::<Plain>(&rt, alloc, &[0xFF], ReadFault::UnknownOpcode);
    check_fault::<Plain>(&rt, alloc, &[0xFD, 0x9A, 0x01], ReadFault::UnknownOpcode);
    check_fault::<Plain>(
        &rt,
        alloc,
        &[0xFB, 24, 4, 5, 0x6E, 0x6D],
        ReadFault::UnknownTag,
    );
    check_fault::<Plain>(&rt, alloc, &[0x28, 16, 0], ReadFault::Ended);
    check_fault::<Expression>(&rt, alloc, &[0x41, 0x00], ReadFault::Ended);
    check_fault::<SizePrefixed<Vec<Body>>>(
        &rt,
        alloc,
        &[4, 1, 2, 0, 0x16],
        ReadFault::UnknownOpcode,
    );
    check_fault::<SizePrefixed<Vec<Body>>>(&rt, alloc, &[6, 1, 4, 0, 40, 16, 0], ReadFault::Ended);
    check_fault::<SizePrefixed<Vec<((ValType, u8), Expression)>>>(
        &rt,
        alloc,
        &[10, 1, 0x7F, 0, 0x41, 0x80, 0x80, 0x80, 0x80, 0x70, 0x0B],
        ReadFault::TooLarge,
    );
}

/// Checks the opcode and the argument of the first instruction.
fn check_first(rt: &impl Abort, code: &[Plain], op: Op, expected: (&str, i128)) {
    match code.first() {
        Some(plain) => {
            check_op(rt, plain.op, op);
            check_arg(rt, &plain.args, 0, expected);
        }
        None => panic!(rt; "no instruction"),
    }
}

#[test]
fn expressions() {
    let rt = crate::host::HostRuntime;
    let bytes = [0x41, 0xFF, 0xFF, 0xFF, 0xFF, 0x7F, 0x0B, 9];
    let (Expression(code), rest) = <Expression as Readable<'_, Global, Padded>>::read(
        &bytes,
        rt.alloc(),
    ).expect("accepted");
    check_left(&rt, rest, 1);
    check_len(&rt, code.len(), 1);
    check_first(&rt, &code, Op::Byte(0x41), ("s32", -1));
}

#[test]
fn codes() {
    let rt = crate::host::HostRuntime;
    let code = read_code::<Global, Padded>(&[0x20, 3, 0x1A, 0x0B], rt.alloc()).expect(
        "accepted",
    );
    check_len(&rt, code.len(), 3);
    check_first(&rt, &code, Op::Byte(0x20), ("u32", 3));
}

#[test]
fn bodies_without_their_sizes() {
    let rt = crate::host::HostRuntime;
    let body = read_body::<Global, Padded>(
        &[1, 2, 0x7F, 0x20, 0x81, 0x00, 0x1A, 0x0B],
        rt.alloc(),
    ).expect("accepted");
    check_len(&rt, body.runs.len(), 1);
    check_len(&rt, body.code.len(), 3);
    check_first(&rt, &body.code, Op::Byte(0x20), ("u32", 1));
}

#[test]
fn bodies() {
    let rt = crate::host::HostRuntime;
    let (body, rest) = <Body as Readable<'_, Global, Padded>>::read(
        &[8, 1, 2, 0x7F, 0x20, 0x81, 0x00, 0x1A, 0x0B, 9],
        rt.alloc(),
    )
    .expect("accepted");
    check_left(&rt, rest, 1);
    check_len(&rt, body.runs.len(), 1);
    check_len(&rt, body.code.len(), 3);
    check_first(&rt, &body.code, Op::Byte(0x20), ("u32", 1));
}

#[test]
fn padded_bodies() {
    let rt = crate::host::HostRuntime;
    let (SizePrefixed(bodies), rest) = <SizePrefixed<Vec<Body>> as Readable<
        '_,
        Global,
        Padded,
    >>::read(&[5, 1, 3, 0x80, 0, 11], rt.alloc()).expect("accepted");
    check_left(&rt, rest, 0);
    check_len(&rt, bodies.len(), 1);
}
