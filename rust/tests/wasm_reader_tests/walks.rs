// Written by tools/to-rust from tests/wasm_reader_tests/src/walks.rtt: change that.
// Tests of the instruction visitor, with ample memory.

use dolzhytik::fallible::Vec;
use crate::calls::operands::{count_calls, labels_of};
use crate::calls::walks::{count_instructions, offset_after};
use dolzhytik::fallible::Global;
use crate::host::Abort;
use dolzhytik::reader::{DecodeError, ReadFault};
use dolzhytik::fallible::{Result, ValType};
use dolzhytik::reader::{Decoded, Instructions, Members};
use dolzhytik::fallible::Function;
use dolzhytik::fallible::laws::code as laws;
use dolzhytik::reader::{Arg, Operands};
use dolzhytik::fallible::{BlockType, MemArg, MemArgTarget, Op, Shape};

/// Returns the offset and the opcode.
fn step_of(decoded: Decoded) -> (usize, Op) {
    (decoded.offset, decoded.op)
}

/// Checks the offset and the opcode of an instruction.
fn check_step(rt: &impl Abort, given: Option<Decoded>, offset: usize, op: Op) {
    assert_eq!(rt; given.map(step_of), Some((offset, op)));
}

/// Checks that no instruction remains, and the offset of the end.
fn check_end(rt: &impl Abort, given: Option<Decoded>, offset: usize, expected: usize) {
    assert_eq!(rt; given.map(step_of), None);
    assert_eq!(rt; offset, expected);
}

fn check_count(rt: &impl Abort, given: usize, expected: usize) {
    assert_eq!(rt; given, expected);
}

/// Checks the error of the visitor.
fn check_stop(rt: &impl Abort, given: Result<Option<Decoded>, DecodeError>, expected: ReadFault) {
    let given = given.map(|decoded| decoded.map(step_of));
    assert_eq!(rt; given.map_err(|error| error.cause()), Err(expected));
}

#[test]
fn bodies() {
    let rt = crate::host::HostRuntime;
    let bytes = [1, 2, 0x7F, 0x20, 0x81, 0x00, 0x0E, 1, 0, 0, 0x0B];
    let (runs, mut walk) = Instructions::of_body(&bytes, rt.alloc()).expect("accepted");
    check_count(&rt, runs.len(), 1);
    check_step(&rt, walk.next().expect("accepted"), 3, Op::Byte(0x20));
    check_step(&rt, walk.next().expect("accepted"), 6, Op::Byte(0x0E));
    check_step(&rt, walk.next().expect("accepted"), 10, Op::Byte(0x0B));
    check_end(&rt, walk.next().expect("accepted"), walk.offset(), 11);
    check_count(&rt, walk.rest().len(), 0);
}

/// Checks that the operands are one number, and that their list is this one argument.
fn check_operand(rt: &impl Abort, alloc: Global, given: Operands, expected: i64) {
    assert_eq!(rt; operand_of(given), Some(expected));
    let args = given.to_args(alloc).expect("accepted");
    assert_eq!(rt; argument_of(&args), Some(expected));
}

/// Returns the operand as a number: of a memory argument, its offset and 100 times its memory; of a
/// block type, the index of a function type.
fn operand_of(operands: Operands) -> Option<i64> {
    match operands {
        Operands::U32(number) => Some(i64::from(number)),
        Operands::S32(number) => Some(i64::from(number)),
        Operands::S64(number) => Some(number),
        Operands::Mem(memory) => Some(place_of(memory)),
        Operands::Block(BlockType::FunctionType(index)) => Some(i64::from(index)),
        Operands::Block(_) => Some(-1),
        Operands::Nothing | Operands::Encoded(_, _) => None,
        _ => unreachable!("the library has no other case"),
    }
}

/// Returns the one argument as a number, as `operand_of` does.
fn argument_of(args: &[Arg]) -> Option<i64> {
    match args {
        [Arg::U32(number)] => Some(i64::from(*number)),
        [Arg::S32(number)] => Some(i64::from(*number)),
        [Arg::S64(number)] => Some(*number),
        [Arg::Mem(memory)] => Some(place_of(*memory)),
        [Arg::Block(BlockType::FunctionType(index))] => Some(i64::from(*index)),
        [Arg::Block(_)] => Some(-1),
        _ => None,
    }
}

/// Returns the offset of a memory argument, and 100 times its memory.
fn place_of(memory: MemArg) -> i64 {
    let of = match memory.target {
        MemArgTarget::Memory(index) => i64::from(index),
        MemArgTarget::Array(_) => -1,
    };
    (memory.offset % 100) as i64 + of.wrapping_mul(100)
}

#[test]
fn operands() {
    let rt = crate::host::HostRuntime;
    let bytes = [
        0x20, 0x81, 0x00, 0x20, 5, 0x41, 0x7F, 0x41, 0xFF, 0x00, 0x42, 0x40, 0x42, 0x80, 0x01,
        0x28, 2, 8, 0x28, 0x42, 1, 8, 0x28, 2, 0x88, 0, 0x02, 0x05, 0x02, 0x40, 0x02, 0x7F,
    ];
    let expected = [1, 5, -1, 127, -64, 128, 8, 108, 8, 5, -1, -1];
    let mut walk = Instructions::new(&bytes, rt.alloc());
    for number in expected {
        let decoded = walk.next().expect("accepted").expect("more");
        check_operand(&rt, rt.alloc(), decoded.operands, number);
    }
    check_end(&rt, walk.next().expect("accepted"), walk.offset(), 32);
}

/// Checks the operands that are kept as bytes, and the length of their list.
fn check_encoded(
    rt: &impl Abort,
    alloc: Global,
    given: Operands,
    expected: (Shape, &[u8]),
    count: usize,
) {
    let Operands::Encoded(shape, bytes) = given else {
        panic!(rt; "another case")
    };
    assert_eq!(rt; shape, expected.0);
    assert_eq!(rt; bytes, expected.1);
    check_count(rt, given.to_args(alloc).expect("accepted").len(), count);
}

#[test]
fn operands_of_rare_shapes() {
    let rt = crate::host::HostRuntime;
    let bytes = [
        0x01, 0x43, 0, 0, 0x80, 0x3F, 0x0E, 1, 0x85, 0, 6, 0x11, 3, 0,
    ];
    let mut walk = Instructions::new(&bytes, rt.alloc());
    let nop = walk.next().expect("accepted").expect("more");
    check_count(
        &rt,
        nop.operands
            .to_args(rt.alloc())
            .expect("accepted")
            .len(),
        0,
    );
    let float = walk.next().expect("accepted").expect("more");
    check_encoded(
        &rt,
        rt.alloc(),
        float.operands,
        (Shape::F32, &bytes[2..6]),
        1,
    );
    let table = walk.next().expect("accepted").expect("more");
    check_encoded(
        &rt,
        rt.alloc(),
        table.operands,
        (Shape::Bt, &bytes[7..11]),
        2,
    );
    let call = walk.next().expect("accepted").expect("more");
    check_encoded(&rt, rt.alloc(), call.operands, (Shape::Uu, &bytes[12..]), 2);
}

#[test]
fn operands_that_no_instruction_has() {
    let rt = crate::host::HostRuntime;
    let rows: [(Operands, ReadFault); 4] = [
        (Operands::Encoded(Shape::F32, &[0, 0, 0]), ReadFault::Ended),
        (
            Operands::Encoded(Shape::L, &[0, 9]),
            ReadFault::SizeMismatch,
        ),
        (Operands::Encoded(Shape::U, &[5]), ReadFault::UnknownTag),
        (
            Operands::Encoded(Shape::Nothing, &[]),
            ReadFault::UnknownTag,
        ),
    ];
    for (given, expected) in rows {
        let cause = match given.to_args(rt.alloc()) {
            Ok(_) => None,
            Err(error) => Some(error.cause()),
        };
        assert_eq!(rt; cause, Some(expected));
    }
}

#[test]
fn expressions() {
    let rt = crate::host::HostRuntime;
    let bytes = [
        0x41, 0xFF, 0x7F, 0xFD, 12, 0, 1, 2, 3, 4, 5, 6, 7, 8, 9, 10, 11, 12, 13, 14, 15, 0x0B, 9,
    ];
    let mut walk = Instructions::new(&bytes, rt.alloc());
    check_step(
        &rt,
        walk.next_before_end().expect("accepted"),
        0,
        Op::Byte(0x41),
    );
    check_step(
        &rt,
        walk.next_before_end().expect("accepted"),
        3,
        Op::Prefixed(0xFD, 12),
    );
    check_end(
        &rt,
        walk.next_before_end().expect("accepted"),
        walk.offset(),
        21,
    );
    check_end(
        &rt,
        walk.next_before_end().expect("accepted"),
        walk.offset(),
        21,
    );
    check_count(&rt, walk.rest().len(), 2);
}

/// Returns a function of a constant, a call and the end, and its length before each of the three.
fn function(alloc: Global) -> Result<(Vec<u8>, [usize; 3])> {
    let mut function = Function::new(alloc, [(300, ValType::I32)])?;
    let begun = function.byte_len();
    function.instructions().i32_const(-65)?;
    let after_constant = function.byte_len();
    function.instructions().call(128)?;
    let after_call = function.byte_len();
    function.instructions().end()?;
    Ok((
        function.into_raw_body(),
        [begun, after_constant, after_call],
    ))
}

#[test]
fn offsets_of_instructions() {
    let rt = crate::host::HostRuntime;
    let (body, offsets) = function(rt.alloc()).expect("accepted");
    check_count(
        &rt,
        count_instructions(&body, rt.alloc()).expect("accepted"),
        3,
    );
    for (count, offset) in offsets.iter().enumerate() {
        check_count(
            &rt,
            offset_after(&body, count, rt.alloc()).expect("accepted"),
            *offset,
        );
    }
    check_count(
        &rt,
        offset_after(&body, 3, rt.alloc()).expect("accepted"),
        body.len(),
    );
}

#[test]
fn calls_of_a_function() {
    let rt = crate::host::HostRuntime;
    // call 5, with a padded number too; call 6; local.get 5; return_call 5.
    let body = [
        0, 0x10, 5, 0x10, 0x85, 0x80, 0, 0x10, 6, 0x20, 5, 0x12, 5, 0x0B,
    ];
    let calls = count_calls(&body, 5, rt.alloc()).expect("accepted");
    check_count(&rt, calls, 2);
    let calls = count_calls(&body, 7, rt.alloc()).expect("accepted");
    check_count(&rt, calls, 0);
}

/// Checks a label, the number of labels that are left, and the bytes that are.
fn check_label(
    rt: &impl Abort,
    members: &mut Members<u32>,
    expected: Option<u32>,
    left: u32,
    rest: &[u8],
) {
    let label = match members.next() {
        None => None,
        Some(Ok(label)) => Some(label),
        Some(Err(_)) => panic!(rt; "an error"),
    };
    assert_eq!(rt; label, expected);
    assert_eq!(rt; members.left(), left);
    assert_eq!(rt; members.rest(), rest);
}

#[test]
fn labels() {
    let rt = crate::host::HostRuntime;
    let bytes = [3, 5, 0x80, 1, 0, 6];
    let mut members = Members::new(&bytes, rt.alloc()).expect("accepted");
    assert_eq!(rt; members.left(), 3);
    assert_eq!(rt; members.rest(), &bytes[1..]);
    check_label(&rt, &mut members, Some(5), 2, &bytes[2..]);
    check_label(&rt, &mut members, Some(128), 1, &bytes[4..]);
    check_label(&rt, &mut members, Some(0), 0, &bytes[5..]);
    check_label(&rt, &mut members, None, 0, &bytes[5..]);
    let (labels, rest) = labels_of(&bytes, rt.alloc()).expect("accepted");
    assert_eq!(rt; &labels[..], [5, 128, 0].as_slice());
    assert_eq!(rt; rest, [6].as_slice());
}

#[test]
fn labels_that_end_early() {
    let rt = crate::host::HostRuntime;
    let mut members: Members<u32> = Members::new(&[2, 5], rt.alloc()).expect("accepted");
    check_label(&rt, &mut members, Some(5), 1, &[]);
    let cause = match members.next() {
        Some(Err(error)) => Some(error.cause()),
        _ => None,
    };
    assert_eq!(rt; cause, Some(ReadFault::Ended));
    check_label(&rt, &mut members, None, 0, &[]);
    let cause = match Members::<u32>::new(&[], rt.alloc()) {
        Err(error) => Some(error.cause()),
        Ok(_) => None,
    };
    assert_eq!(rt; cause, Some(ReadFault::Ended));
}

#[test]
fn laws_take_no_memory() {
    laws::offsets();
}

#[test]
fn walks_that_stop() {
    let rt = crate::host::HostRuntime;
    let mut walk = Instructions::new(&[0x01, 0x16, 0x0B], rt.alloc());
    check_step(&rt, walk.next().expect("accepted"), 0, Op::Byte(0x01));
    check_stop(&rt, walk.next(), ReadFault::UnknownOpcode);
    check_stop(&rt, walk.next_before_end(), ReadFault::UnknownOpcode);
    check_count(&rt, walk.offset(), 1);
    let mut walk = Instructions::new(&[], rt.alloc());
    check_stop(&rt, walk.next_before_end(), ReadFault::Ended);
}
