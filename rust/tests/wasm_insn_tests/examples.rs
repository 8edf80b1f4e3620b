// Written by tools/to-rust from tests/wasm_insn_tests/src/examples.rtt: change that.
//! Tests of instructions whose bytes are known from the format's documents.

use crate::checks::check;
use dolzhytik::fallible::Global;
use dolzhytik::fallible::{AbstractHeapType, CowSlice, HeapType, RefType, ValType};
use dolzhytik::fallible::{Atomic, BlockType, Catch, Handle, Ieee32, Instruction, MemArg, MemArgOrdering, MemArgTarget, Ordering, Vector, VectorImmediate};

const ANY: HeapType = HeapType::Abstract {
    shared: false,
    ty: AbstractHeapType::Any,
};

const EQ: HeapType = HeapType::Abstract {
    shared: false,
    ty: AbstractHeapType::Eq,
};

const SHARED_ANY: HeapType = HeapType::Abstract {
    shared: true,
    ty: AbstractHeapType::Any,
};

/// Alignment 2, memory 0, offset 4.
const FIRST: MemArg = MemArg {
    offset: 4,
    align: 2,
    target: MemArgTarget::Memory(0),
    ordering: None,
};

/// The bytes of the instructions below.
static ROWS: [&[u8]; 42] = [
    &[0x0E, 2, 0, 1, 2],
    &[0x11, 1, 2],
    &[0x1F, 0x40, 2, 0, 0, 1, 3, 2],
    &[0x02, 0x63, 0x6E],
    &[0x02, 0x40],
    &[0x02, 0x3F],
    &[0x02, 0xC0, 0x00],
    &[0xE4, 0, 2, 1, 0, 3, 4],
    &[0xD0, 0x70],
    &[0xD0, 0xC0, 0x00],
    &[0xD0, 0x62, 5],
    &[0xD0, 0x65, 0x6E],
    &[0x1C, 1, 0x7F],
    &[0x1C, 1, 0x7F],
    &[0x1C, 0],
    &[0xFB, 0x18, 0x01, 0, 0x6E, 0x6D],
    &[0x28, 0x02, 4],
    &[0x28, 0x42, 1, 4],
    &[0x28, 0x22, 0, 4],
    &[0x28, 0x10, 0],
    &[0xFC, 0x0A, 2, 1],
    &[0xFC, 0x08, 2, 1],
    &[0xFB, 0x08, 1, 3],
    &[0xFE, 0x1E, 0x12, 0x00, 0],
    &[0xFE, 0x1E, 0x12, 0x00, 0],
    &[0xFE, 0x1E, 0x12, 0x11, 0],
    &[0xFE, 0x10, 0x52, 3, 0x01, 8],
    &[0xFE, 0x03, 0x00],
    &[0xFE, 0x5C, 0x01, 1, 2],
    &[0xFD, 0x80, 0x01],
    &[0xFD, 0x80, 0x02],
    &[0xFD, 0x93, 0x02],
    &[0xFD, 0x54, 0x00, 1, 3],
    &[0x6A],
    &[0xFB, 0x0F],
    &[0xFC, 0x16],
    &[0xFD, 0x80, 0x01],
    &[0x43, 0x00, 0x00, 0x80, 0x3F],
    &[
        0xFD, 0x0C, 0xFF, 0xFF, 0xFF, 0xFF, 0xFF, 0xFF, 0xFF, 0xFF, 0xFF, 0xFF, 0xFF, 0xFF, 0xFF,
        0xFF, 0xFF, 0xFF,
    ],
    &[0x02, 0xFF, 0xFF, 0xFF, 0xFF, 0x0F],
    &[0x28, 0x2F, 0, 0],
    &[0x28, 0x80, 0x01, 0],
];

/// Returns the instruction of this index in `ROWS`.
fn instruction(place: usize) -> Instruction<'static> {
    match place {
        0..=7 => control(place),
        8..=15 => types(place),
        16..=22 => memories(place),
        23..=28 => atomics(place),
        29..=32 => vectors(place),
        33..=38 => constants(place),
        _ => limits(place),
    }
}

/// Returns a control instruction.
fn control(place: usize) -> Instruction<'static> {
    match place {
        0 => Instruction::BrTable(CowSlice::Borrowed(&[0, 1]), 2),
        1 => Instruction::CallIndirect {
            type_index: 1,
            table_index: 2,
        },
        2 => Instruction::TryTable(
            BlockType::Empty,
            CowSlice::Borrowed(&[Catch::One { tag: 0, label: 1 }, Catch::AllRef { label: 2 }]),
        ),
        3 => Instruction::Block(BlockType::Result(ValType::Ref(RefType {
            nullable: true,
            heap_type: ANY,
        }))),
        4 => Instruction::Block(BlockType::Empty),
        5 => Instruction::Block(BlockType::FunctionType(63)),
        6 => Instruction::Block(BlockType::FunctionType(64)),
        _ => Instruction::ResumeThrow {
            cont_type_index: 0,
            tag_index: 2,
            resume_table: CowSlice::Borrowed(&[Handle::OnLabel { tag: 3, label: 4 }]),
        },
    }
}

/// Returns an instruction of types.
fn types(place: usize) -> Instruction<'static> {
    match place {
        8 => Instruction::RefNull(HeapType::FUNC),
        9 => Instruction::RefNull(HeapType::Concrete(64)),
        10 => Instruction::RefNull(HeapType::Exact(5)),
        11 => Instruction::RefNull(SHARED_ANY),
        12 => Instruction::TypedSelect(ValType::I32),
        13 => Instruction::TypedSelectMulti(CowSlice::Borrowed(&[ValType::I32])),
        14 => Instruction::TypedSelectMulti(CowSlice::Borrowed(&[])),
        _ => Instruction::BrOnCast {
            relative_depth: 0,
            from_ref_type: RefType {
                nullable: true,
                heap_type: ANY,
            },
            to_ref_type: RefType {
                nullable: false,
                heap_type: EQ,
            },
        },
    }
}

/// Returns an instruction of memories and arrays.
fn memories(place: usize) -> Instruction<'static> {
    match place {
        16 => Instruction::I32Load(FIRST),
        17 => Instruction::I32Load(MemArg {
            target: MemArgTarget::Memory(1),
            ..FIRST
        }),
        18 => Instruction::I32Load(MemArg {
            target: MemArgTarget::Array(0),
            ..FIRST
        }),
        19 => Instruction::I32Load(MemArg {
            align: 16,
            offset: 0,
            ..FIRST
        }),
        20 => Instruction::MemoryCopy {
            src_mem: 1,
            dst_mem: 2,
        },
        21 => Instruction::MemoryInit {
            mem: 1,
            data_index: 2,
        },
        _ => Instruction::ArrayNewFixed {
            array_type_index: 1,
            array_size: 3,
        },
    }
}

/// Returns an atomic instruction.
fn atomics(place: usize) -> Instruction<'static> {
    match place {
        23 => Instruction::Atomic(Atomic::I32AtomicRmwAdd(MemArg {
            offset: 0,
            ordering: Some(MemArgOrdering::Rmw(Ordering::SeqCst)),
            ..FIRST
        })),
        24 => Instruction::Atomic(Atomic::I32AtomicRmwAdd(MemArg {
            offset: 0,
            ordering: Some(MemArgOrdering::Op(Ordering::SeqCst)),
            ..FIRST
        })),
        25 => Instruction::Atomic(Atomic::I32AtomicRmwAdd(MemArg {
            offset: 0,
            ordering: Some(MemArgOrdering::Rmw(Ordering::AcqRel)),
            ..FIRST
        })),
        26 => Instruction::Atomic(Atomic::I32AtomicLoad(MemArg {
            offset: 8,
            align: 2,
            target: MemArgTarget::Memory(3),
            ordering: Some(MemArgOrdering::Op(Ordering::AcqRel)),
        })),
        27 => Instruction::Atomic(Atomic::AtomicFence(Ordering::SeqCst)),
        _ => Instruction::Atomic(Atomic::StructAtomicGet {
            ordering: Ordering::AcqRel,
            struct_type_index: 1,
            field_index: 2,
        }),
    }
}

/// Returns a vector instruction.
fn vectors(place: usize) -> Instruction<'static> {
    match place {
        29 => Instruction::Vector(Vector::I16x8Abs),
        30 => Instruction::Vector(Vector::I8x16RelaxedSwizzle),
        31 => Instruction::Vector(Vector::I32x4RelaxedDotI8x16I7x16AddS),
        _ => Instruction::VectorImmediate(VectorImmediate::V128Load8Lane {
            memarg: MemArg {
                offset: 1,
                align: 0,
                ..FIRST
            },
            lane: 3,
        }),
    }
}

/// Returns an instruction without fields, by its name on `Instruction`, or a constant.
fn constants(place: usize) -> Instruction<'static> {
    match place {
        33 => Instruction::<Global>::I32Add,
        34 => Instruction::<Global>::ArrayLen,
        35 => Instruction::<Global>::I64MulWideU,
        36 => Instruction::<Global>::I16x8Abs,
        37 => Instruction::F32Const(Ieee32::new(1065353216)),
        _ => Instruction::VectorImmediate(VectorImmediate::V128Const(-1)),
    }
}

/// Returns an instruction with the largest index, the largest alignment that fits the flags with
/// other bits, or an alignment of two bytes.
fn limits(place: usize) -> Instruction<'static> {
    match place {
        39 => Instruction::Block(BlockType::FunctionType(4294967295)),
        40 => Instruction::I32Load(MemArg {
            align: 15,
            offset: 0,
            target: MemArgTarget::Array(0),
            ..FIRST
        }),
        _ => Instruction::I32Load(MemArg {
            align: 128,
            offset: 0,
            ..FIRST
        }),
    }
}

#[test]
fn examples() {
    let rt = crate::host::HostRuntime;
    for (place, row) in ROWS.iter().enumerate() {
        check(&rt, rt.alloc(), &instruction(place), row);
    }
}
