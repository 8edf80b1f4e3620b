// Written by tools/to-rust from tests/wasm_insn_tests/src/sink.rtt: change that.
//! Tests of the sink: each named call writes the bytes of its instruction, and leaves the buffer
//! unchanged if an allocation fails.

use dolzhytik::fallible::Vec;
use crate::checks::check_call;
use crate::test_support::Refusing;
use dolzhytik::fallible::{HeapType, Result, ValType};
use dolzhytik::fallible::{BlockType, Buffer, Ieee32, Ieee64, InstructionSink, MemArg, MemArgTarget, Op};

const MEMARG: MemArg = MemArg {
    offset: 4,
    align: 2,
    target: MemArgTarget::Memory(0),
    ordering: None,
};

/// The bytes that each call appends.
static ROWS: [&[u8]; 42] = [
    &[0xFD, 0x80, 0x01],
    &[0x00],
    &[0x01],
    &[0x02, 0x40],
    &[0x03, 0x3F],
    &[0x04, 0xC0, 0x00],
    &[0x05],
    &[0x0B],
    &[0x0C, 0x01],
    &[0x0D, 0xAC, 0x02],
    &[0x0E, 0x02, 0x00, 0x01, 0x02],
    &[0x0F],
    &[0x10, 0x05],
    &[0x11, 0x01, 0x02],
    &[0x1A],
    &[0x1B],
    &[0x1C, 0x01, 0x7F],
    &[0x1C, 0x02, 0x7F, 0x7E],
    &[0x20, 0x01],
    &[0x21, 0x02],
    &[0x22, 0x03],
    &[0x23, 0x04],
    &[0x24, 0x05],
    &[0x28, 0x02, 0x04],
    &[0x36, 0x02, 0x04],
    &[0x3F, 0x00],
    &[0x40, 0x01],
    &[0x41, 0x40],
    &[0x42, 0xC0, 0x00],
    &[0x43, 0x00, 0x00, 0x80, 0x3F],
    &[0x44, 0x00, 0x00, 0x00, 0x00, 0x00, 0x00, 0xF0, 0x3F],
    &[
        0xFD, 0x0C, 0xFF, 0xFF, 0xFF, 0xFF, 0xFF, 0xFF, 0xFF, 0xFF, 0xFF, 0xFF, 0xFF, 0xFF, 0xFF,
        0xFF, 0xFF, 0xFF,
    ],
    &[0x45],
    &[0x6A],
    &[0x6B],
    &[0x6C],
    &[0x7C],
    &[0x7D],
    &[0x7E],
    &[0xD0, 0x70],
    &[0xD1],
    &[0xD2, 0x07],
];

/// Makes the call of this index in `ROWS`; those from 16 on are in `later_call`.
fn call<B: Buffer>(sink: &mut InstructionSink<'_, B>, place: usize) -> Result<()> {
    match place {
        0 => sink.op(Op::Prefixed(0xFD, 128)),
        1 => sink.unreachable(),
        2 => sink.nop(),
        3 => sink.block(BlockType::Empty),
        4 => sink.loop_(BlockType::FunctionType(63)),
        5 => sink.if_(BlockType::FunctionType(64)),
        6 => sink.else_(),
        7 => sink.end(),
        8 => sink.br(1),
        9 => sink.br_if(300),
        10 => call_br_table(sink),
        11 => sink.return_(),
        12 => sink.call(5),
        13 => sink.call_indirect(2, 1),
        14 => sink.drop_(),
        15 => sink.select(),
        _ => later_call(sink, place),
    }
}

fn call_br_table<B: Buffer>(sink: &mut InstructionSink<'_, B>) -> Result<()> {
    sink.br_table([0, 1], 2)
}

fn later_call<B: Buffer>(sink: &mut InstructionSink<'_, B>, place: usize) -> Result<()> {
    match place {
        16 => sink.typed_select(ValType::I32),
        17 => sink.typed_select_multi(&[ValType::I32, ValType::I64]),
        18 => sink.local_get(1),
        19 => sink.local_set(2),
        20 => sink.local_tee(3),
        21 => sink.global_get(4),
        22 => sink.global_set(5),
        23 => sink.i32_load(MEMARG),
        24 => sink.i32_store(MEMARG),
        25 => sink.memory_size(0),
        26 => sink.memory_grow(1),
        27 => sink.i32_const(-64),
        28 => sink.i64_const(64),
        29 => sink.f32_const(Ieee32::new(1065353216)),
        30 => sink.f64_const(Ieee64::new(4607182418800017408)),
        31 => sink.v128_const(-1),
        32 => sink.i32_eqz(),
        33 => sink.i32_add(),
        34 => sink.i32_sub(),
        35 => sink.i32_mul(),
        36 => sink.i64_add(),
        37 => sink.i64_sub(),
        38 => sink.i64_mul(),
        39 => sink.ref_null(HeapType::FUNC),
        40 => sink.ref_is_null(),
        _ => sink.ref_func(7),
    }
}

#[test]
fn named_calls() {
    let rt = crate::host::HostRuntime;
    let heap = Refusing::new(rt.alloc());
    for (place, row) in ROWS.iter().enumerate() {
        check_call(&rt, &heap, row, |bytes: &mut Vec<u8, _>| {
            call(&mut InstructionSink::new(bytes), place)
        });
    }
}
