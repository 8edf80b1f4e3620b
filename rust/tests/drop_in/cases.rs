// Written by tools/drop-in from tools/instructions.tsv: change that.
//! Each instruction as a value, by its call, and as a proved value, and the bytes that it must have.
use crate::checks::check;
use dolzhytik::fallible::CowSlice;
use dolzhytik::{
    AbstractHeapType, BlockType, Catch, Handle, HeapType, Ieee32, Ieee64, Instruction, MemArg,
    MemArgTarget, Ordering, RefType, ValType, fallible,
};
use std::borrow::Cow;

const MEMARG: MemArg = MemArg {
    offset: 300,
    align: 2,
    target: MemArgTarget::Memory(1),
    ordering: None,
};

/// Returns the first byte of an instruction. All cases have an arm, and the wildcard is not
/// unreachable: the enum may grow.
#[deny(unreachable_patterns)]
pub fn first_byte(instruction: &Instruction<'_>) -> Option<u8> {
    Some(match instruction {
        Instruction::Unreachable => 0x00,
        Instruction::Nop => 0x01,
        Instruction::Block(..) => 0x02,
        Instruction::Loop(..) => 0x03,
        Instruction::If(..) => 0x04,
        Instruction::Else => 0x05,
        Instruction::Try(..) => 0x06,
        Instruction::Catch(..) => 0x07,
        Instruction::Throw(..) => 0x08,
        Instruction::Rethrow(..) => 0x09,
        Instruction::ThrowRef => 0x0A,
        Instruction::End => 0x0B,
        Instruction::Br(..) => 0x0C,
        Instruction::BrIf(..) => 0x0D,
        Instruction::BrTable(..) => 0x0E,
        Instruction::Return => 0x0F,
        Instruction::Call(..) => 0x10,
        Instruction::CallIndirect { .. } => 0x11,
        Instruction::ReturnCall(..) => 0x12,
        Instruction::ReturnCallIndirect { .. } => 0x13,
        Instruction::CallRef(..) => 0x14,
        Instruction::ReturnCallRef(..) => 0x15,
        Instruction::Delegate(..) => 0x18,
        Instruction::CatchAll => 0x19,
        Instruction::Drop => 0x1A,
        Instruction::Select => 0x1B,
        Instruction::TypedSelect(..)
        | Instruction::TypedSelectMulti(..) => 0x1C,
        Instruction::TryTable(..) => 0x1F,
        Instruction::LocalGet(..) => 0x20,
        Instruction::LocalSet(..) => 0x21,
        Instruction::LocalTee(..) => 0x22,
        Instruction::GlobalGet(..) => 0x23,
        Instruction::GlobalSet(..) => 0x24,
        Instruction::TableGet(..) => 0x25,
        Instruction::TableSet(..) => 0x26,
        Instruction::I32Load(..) => 0x28,
        Instruction::I64Load(..) => 0x29,
        Instruction::F32Load(..) => 0x2A,
        Instruction::F64Load(..) => 0x2B,
        Instruction::I32Load8S(..) => 0x2C,
        Instruction::I32Load8U(..) => 0x2D,
        Instruction::I32Load16S(..) => 0x2E,
        Instruction::I32Load16U(..) => 0x2F,
        Instruction::I64Load8S(..) => 0x30,
        Instruction::I64Load8U(..) => 0x31,
        Instruction::I64Load16S(..) => 0x32,
        Instruction::I64Load16U(..) => 0x33,
        Instruction::I64Load32S(..) => 0x34,
        Instruction::I64Load32U(..) => 0x35,
        Instruction::I32Store(..) => 0x36,
        Instruction::I64Store(..) => 0x37,
        Instruction::F32Store(..) => 0x38,
        Instruction::F64Store(..) => 0x39,
        Instruction::I32Store8(..) => 0x3A,
        Instruction::I32Store16(..) => 0x3B,
        Instruction::I64Store8(..) => 0x3C,
        Instruction::I64Store16(..) => 0x3D,
        Instruction::I64Store32(..) => 0x3E,
        Instruction::MemorySize(..) => 0x3F,
        Instruction::MemoryGrow(..) => 0x40,
        Instruction::I32Const(..) => 0x41,
        Instruction::I64Const(..) => 0x42,
        Instruction::F32Const(..) => 0x43,
        Instruction::F64Const(..) => 0x44,
        Instruction::I32Eqz => 0x45,
        Instruction::I32Eq => 0x46,
        Instruction::I32Ne => 0x47,
        Instruction::I32LtS => 0x48,
        Instruction::I32LtU => 0x49,
        Instruction::I32GtS => 0x4A,
        Instruction::I32GtU => 0x4B,
        Instruction::I32LeS => 0x4C,
        Instruction::I32LeU => 0x4D,
        Instruction::I32GeS => 0x4E,
        Instruction::I32GeU => 0x4F,
        Instruction::I64Eqz => 0x50,
        Instruction::I64Eq => 0x51,
        Instruction::I64Ne => 0x52,
        Instruction::I64LtS => 0x53,
        Instruction::I64LtU => 0x54,
        Instruction::I64GtS => 0x55,
        Instruction::I64GtU => 0x56,
        Instruction::I64LeS => 0x57,
        Instruction::I64LeU => 0x58,
        Instruction::I64GeS => 0x59,
        Instruction::I64GeU => 0x5A,
        Instruction::F32Eq => 0x5B,
        Instruction::F32Ne => 0x5C,
        Instruction::F32Lt => 0x5D,
        Instruction::F32Gt => 0x5E,
        Instruction::F32Le => 0x5F,
        Instruction::F32Ge => 0x60,
        Instruction::F64Eq => 0x61,
        Instruction::F64Ne => 0x62,
        Instruction::F64Lt => 0x63,
        Instruction::F64Gt => 0x64,
        Instruction::F64Le => 0x65,
        Instruction::F64Ge => 0x66,
        Instruction::I32Clz => 0x67,
        Instruction::I32Ctz => 0x68,
        Instruction::I32Popcnt => 0x69,
        Instruction::I32Add => 0x6A,
        Instruction::I32Sub => 0x6B,
        Instruction::I32Mul => 0x6C,
        Instruction::I32DivS => 0x6D,
        Instruction::I32DivU => 0x6E,
        Instruction::I32RemS => 0x6F,
        Instruction::I32RemU => 0x70,
        Instruction::I32And => 0x71,
        Instruction::I32Or => 0x72,
        Instruction::I32Xor => 0x73,
        Instruction::I32Shl => 0x74,
        Instruction::I32ShrS => 0x75,
        Instruction::I32ShrU => 0x76,
        Instruction::I32Rotl => 0x77,
        Instruction::I32Rotr => 0x78,
        Instruction::I64Clz => 0x79,
        Instruction::I64Ctz => 0x7A,
        Instruction::I64Popcnt => 0x7B,
        Instruction::I64Add => 0x7C,
        Instruction::I64Sub => 0x7D,
        Instruction::I64Mul => 0x7E,
        Instruction::I64DivS => 0x7F,
        Instruction::I64DivU => 0x80,
        Instruction::I64RemS => 0x81,
        Instruction::I64RemU => 0x82,
        Instruction::I64And => 0x83,
        Instruction::I64Or => 0x84,
        Instruction::I64Xor => 0x85,
        Instruction::I64Shl => 0x86,
        Instruction::I64ShrS => 0x87,
        Instruction::I64ShrU => 0x88,
        Instruction::I64Rotl => 0x89,
        Instruction::I64Rotr => 0x8A,
        Instruction::F32Abs => 0x8B,
        Instruction::F32Neg => 0x8C,
        Instruction::F32Ceil => 0x8D,
        Instruction::F32Floor => 0x8E,
        Instruction::F32Trunc => 0x8F,
        Instruction::F32Nearest => 0x90,
        Instruction::F32Sqrt => 0x91,
        Instruction::F32Add => 0x92,
        Instruction::F32Sub => 0x93,
        Instruction::F32Mul => 0x94,
        Instruction::F32Div => 0x95,
        Instruction::F32Min => 0x96,
        Instruction::F32Max => 0x97,
        Instruction::F32Copysign => 0x98,
        Instruction::F64Abs => 0x99,
        Instruction::F64Neg => 0x9A,
        Instruction::F64Ceil => 0x9B,
        Instruction::F64Floor => 0x9C,
        Instruction::F64Trunc => 0x9D,
        Instruction::F64Nearest => 0x9E,
        Instruction::F64Sqrt => 0x9F,
        Instruction::F64Add => 0xA0,
        Instruction::F64Sub => 0xA1,
        Instruction::F64Mul => 0xA2,
        Instruction::F64Div => 0xA3,
        Instruction::F64Min => 0xA4,
        Instruction::F64Max => 0xA5,
        Instruction::F64Copysign => 0xA6,
        Instruction::I32WrapI64 => 0xA7,
        Instruction::I32TruncF32S => 0xA8,
        Instruction::I32TruncF32U => 0xA9,
        Instruction::I32TruncF64S => 0xAA,
        Instruction::I32TruncF64U => 0xAB,
        Instruction::I64ExtendI32S => 0xAC,
        Instruction::I64ExtendI32U => 0xAD,
        Instruction::I64TruncF32S => 0xAE,
        Instruction::I64TruncF32U => 0xAF,
        Instruction::I64TruncF64S => 0xB0,
        Instruction::I64TruncF64U => 0xB1,
        Instruction::F32ConvertI32S => 0xB2,
        Instruction::F32ConvertI32U => 0xB3,
        Instruction::F32ConvertI64S => 0xB4,
        Instruction::F32ConvertI64U => 0xB5,
        Instruction::F32DemoteF64 => 0xB6,
        Instruction::F64ConvertI32S => 0xB7,
        Instruction::F64ConvertI32U => 0xB8,
        Instruction::F64ConvertI64S => 0xB9,
        Instruction::F64ConvertI64U => 0xBA,
        Instruction::F64PromoteF32 => 0xBB,
        Instruction::I32ReinterpretF32 => 0xBC,
        Instruction::I64ReinterpretF64 => 0xBD,
        Instruction::F32ReinterpretI32 => 0xBE,
        Instruction::F64ReinterpretI64 => 0xBF,
        Instruction::I32Extend8S => 0xC0,
        Instruction::I32Extend16S => 0xC1,
        Instruction::I64Extend8S => 0xC2,
        Instruction::I64Extend16S => 0xC3,
        Instruction::I64Extend32S => 0xC4,
        Instruction::RefNull(..) => 0xD0,
        Instruction::RefIsNull => 0xD1,
        Instruction::RefFunc(..) => 0xD2,
        Instruction::RefEq => 0xD3,
        Instruction::RefAsNonNull => 0xD4,
        Instruction::BrOnNull(..) => 0xD5,
        Instruction::BrOnNonNull(..) => 0xD6,
        Instruction::ContNew(..) => 0xE0,
        Instruction::ContBind { .. } => 0xE1,
        Instruction::Suspend(..) => 0xE2,
        Instruction::Resume { .. } => 0xE3,
        Instruction::ResumeThrow { .. } => 0xE4,
        Instruction::ResumeThrowRef { .. } => 0xE5,
        Instruction::Switch { .. } => 0xE6,
        Instruction::StructNew(..)
        | Instruction::StructNewDefault(..)
        | Instruction::StructGet { .. }
        | Instruction::StructGetS { .. }
        | Instruction::StructGetU { .. }
        | Instruction::StructSet { .. }
        | Instruction::ArrayNew(..)
        | Instruction::ArrayNewDefault(..)
        | Instruction::ArrayNewFixed { .. }
        | Instruction::ArrayNewData { .. }
        | Instruction::ArrayNewElem { .. }
        | Instruction::ArrayGet(..)
        | Instruction::ArrayGetS(..)
        | Instruction::ArrayGetU(..)
        | Instruction::ArraySet(..)
        | Instruction::ArrayLen
        | Instruction::ArrayFill(..)
        | Instruction::ArrayCopy { .. }
        | Instruction::ArrayInitData { .. }
        | Instruction::ArrayInitElem { .. }
        | Instruction::RefTestNonNull(..)
        | Instruction::RefTestNullable(..)
        | Instruction::RefCastNonNull(..)
        | Instruction::RefCastNullable(..)
        | Instruction::BrOnCast { .. }
        | Instruction::BrOnCastFail { .. }
        | Instruction::AnyConvertExtern
        | Instruction::ExternConvertAny
        | Instruction::RefI31
        | Instruction::I31GetS
        | Instruction::I31GetU
        | Instruction::StructNewDesc(..)
        | Instruction::StructNewDefaultDesc(..)
        | Instruction::RefGetDesc(..)
        | Instruction::RefCastDescEqNonNull(..)
        | Instruction::RefCastDescEqNullable(..)
        | Instruction::BrOnCastDescEq { .. }
        | Instruction::BrOnCastDescEqFail { .. } => 0xFB,
        Instruction::I32TruncSatF32S
        | Instruction::I32TruncSatF32U
        | Instruction::I32TruncSatF64S
        | Instruction::I32TruncSatF64U
        | Instruction::I64TruncSatF32S
        | Instruction::I64TruncSatF32U
        | Instruction::I64TruncSatF64S
        | Instruction::I64TruncSatF64U
        | Instruction::MemoryInit { .. }
        | Instruction::DataDrop(..)
        | Instruction::MemoryCopy { .. }
        | Instruction::MemoryFill(..)
        | Instruction::TableInit { .. }
        | Instruction::ElemDrop(..)
        | Instruction::TableCopy { .. }
        | Instruction::TableGrow(..)
        | Instruction::TableSize(..)
        | Instruction::TableFill(..)
        | Instruction::MemoryDiscard(..)
        | Instruction::I64Add128
        | Instruction::I64Sub128
        | Instruction::I64MulWideS
        | Instruction::I64MulWideU => 0xFC,
        Instruction::V128Load(..)
        | Instruction::V128Load8x8S(..)
        | Instruction::V128Load8x8U(..)
        | Instruction::V128Load16x4S(..)
        | Instruction::V128Load16x4U(..)
        | Instruction::V128Load32x2S(..)
        | Instruction::V128Load32x2U(..)
        | Instruction::V128Load8Splat(..)
        | Instruction::V128Load16Splat(..)
        | Instruction::V128Load32Splat(..)
        | Instruction::V128Load64Splat(..)
        | Instruction::V128Store(..)
        | Instruction::V128Const(..)
        | Instruction::I8x16Shuffle(..)
        | Instruction::I8x16Swizzle
        | Instruction::I8x16Splat
        | Instruction::I16x8Splat
        | Instruction::I32x4Splat
        | Instruction::I64x2Splat
        | Instruction::F32x4Splat
        | Instruction::F64x2Splat
        | Instruction::I8x16ExtractLaneS(..)
        | Instruction::I8x16ExtractLaneU(..)
        | Instruction::I8x16ReplaceLane(..)
        | Instruction::I16x8ExtractLaneS(..)
        | Instruction::I16x8ExtractLaneU(..)
        | Instruction::I16x8ReplaceLane(..)
        | Instruction::I32x4ExtractLane(..)
        | Instruction::I32x4ReplaceLane(..)
        | Instruction::I64x2ExtractLane(..)
        | Instruction::I64x2ReplaceLane(..)
        | Instruction::F32x4ExtractLane(..)
        | Instruction::F32x4ReplaceLane(..)
        | Instruction::F64x2ExtractLane(..)
        | Instruction::F64x2ReplaceLane(..)
        | Instruction::I8x16Eq
        | Instruction::I8x16Ne
        | Instruction::I8x16LtS
        | Instruction::I8x16LtU
        | Instruction::I8x16GtS
        | Instruction::I8x16GtU
        | Instruction::I8x16LeS
        | Instruction::I8x16LeU
        | Instruction::I8x16GeS
        | Instruction::I8x16GeU
        | Instruction::I16x8Eq
        | Instruction::I16x8Ne
        | Instruction::I16x8LtS
        | Instruction::I16x8LtU
        | Instruction::I16x8GtS
        | Instruction::I16x8GtU
        | Instruction::I16x8LeS
        | Instruction::I16x8LeU
        | Instruction::I16x8GeS
        | Instruction::I16x8GeU
        | Instruction::I32x4Eq
        | Instruction::I32x4Ne
        | Instruction::I32x4LtS
        | Instruction::I32x4LtU
        | Instruction::I32x4GtS
        | Instruction::I32x4GtU
        | Instruction::I32x4LeS
        | Instruction::I32x4LeU
        | Instruction::I32x4GeS
        | Instruction::I32x4GeU
        | Instruction::F32x4Eq
        | Instruction::F32x4Ne
        | Instruction::F32x4Lt
        | Instruction::F32x4Gt
        | Instruction::F32x4Le
        | Instruction::F32x4Ge
        | Instruction::F64x2Eq
        | Instruction::F64x2Ne
        | Instruction::F64x2Lt
        | Instruction::F64x2Gt
        | Instruction::F64x2Le
        | Instruction::F64x2Ge
        | Instruction::V128Not
        | Instruction::V128And
        | Instruction::V128AndNot
        | Instruction::V128Or
        | Instruction::V128Xor
        | Instruction::V128Bitselect
        | Instruction::V128AnyTrue
        | Instruction::V128Load8Lane { .. }
        | Instruction::V128Load16Lane { .. }
        | Instruction::V128Load32Lane { .. }
        | Instruction::V128Load64Lane { .. }
        | Instruction::V128Store8Lane { .. }
        | Instruction::V128Store16Lane { .. }
        | Instruction::V128Store32Lane { .. }
        | Instruction::V128Store64Lane { .. }
        | Instruction::V128Load32Zero(..)
        | Instruction::V128Load64Zero(..)
        | Instruction::F32x4DemoteF64x2Zero
        | Instruction::F64x2PromoteLowF32x4
        | Instruction::I8x16Abs
        | Instruction::I8x16Neg
        | Instruction::I8x16Popcnt
        | Instruction::I8x16AllTrue
        | Instruction::I8x16Bitmask
        | Instruction::I8x16NarrowI16x8S
        | Instruction::I8x16NarrowI16x8U
        | Instruction::F32x4Ceil
        | Instruction::F32x4Floor
        | Instruction::F32x4Trunc
        | Instruction::F32x4Nearest
        | Instruction::I8x16Shl
        | Instruction::I8x16ShrS
        | Instruction::I8x16ShrU
        | Instruction::I8x16Add
        | Instruction::I8x16AddSatS
        | Instruction::I8x16AddSatU
        | Instruction::I8x16Sub
        | Instruction::I8x16SubSatS
        | Instruction::I8x16SubSatU
        | Instruction::F64x2Ceil
        | Instruction::F64x2Floor
        | Instruction::I8x16MinS
        | Instruction::I8x16MinU
        | Instruction::I8x16MaxS
        | Instruction::I8x16MaxU
        | Instruction::F64x2Trunc
        | Instruction::I8x16AvgrU
        | Instruction::I16x8ExtAddPairwiseI8x16S
        | Instruction::I16x8ExtAddPairwiseI8x16U
        | Instruction::I32x4ExtAddPairwiseI16x8S
        | Instruction::I32x4ExtAddPairwiseI16x8U
        | Instruction::I16x8Abs
        | Instruction::I16x8Neg
        | Instruction::I16x8Q15MulrSatS
        | Instruction::I16x8AllTrue
        | Instruction::I16x8Bitmask
        | Instruction::I16x8NarrowI32x4S
        | Instruction::I16x8NarrowI32x4U
        | Instruction::I16x8ExtendLowI8x16S
        | Instruction::I16x8ExtendHighI8x16S
        | Instruction::I16x8ExtendLowI8x16U
        | Instruction::I16x8ExtendHighI8x16U
        | Instruction::I16x8Shl
        | Instruction::I16x8ShrS
        | Instruction::I16x8ShrU
        | Instruction::I16x8Add
        | Instruction::I16x8AddSatS
        | Instruction::I16x8AddSatU
        | Instruction::I16x8Sub
        | Instruction::I16x8SubSatS
        | Instruction::I16x8SubSatU
        | Instruction::F64x2Nearest
        | Instruction::I16x8Mul
        | Instruction::I16x8MinS
        | Instruction::I16x8MinU
        | Instruction::I16x8MaxS
        | Instruction::I16x8MaxU
        | Instruction::I16x8AvgrU
        | Instruction::I16x8ExtMulLowI8x16S
        | Instruction::I16x8ExtMulHighI8x16S
        | Instruction::I16x8ExtMulLowI8x16U
        | Instruction::I16x8ExtMulHighI8x16U
        | Instruction::I32x4Abs
        | Instruction::I32x4Neg
        | Instruction::I32x4AllTrue
        | Instruction::I32x4Bitmask
        | Instruction::I32x4ExtendLowI16x8S
        | Instruction::I32x4ExtendHighI16x8S
        | Instruction::I32x4ExtendLowI16x8U
        | Instruction::I32x4ExtendHighI16x8U
        | Instruction::I32x4Shl
        | Instruction::I32x4ShrS
        | Instruction::I32x4ShrU
        | Instruction::I32x4Add
        | Instruction::I32x4Sub
        | Instruction::I32x4Mul
        | Instruction::I32x4MinS
        | Instruction::I32x4MinU
        | Instruction::I32x4MaxS
        | Instruction::I32x4MaxU
        | Instruction::I32x4DotI16x8S
        | Instruction::I32x4ExtMulLowI16x8S
        | Instruction::I32x4ExtMulHighI16x8S
        | Instruction::I32x4ExtMulLowI16x8U
        | Instruction::I32x4ExtMulHighI16x8U
        | Instruction::I64x2Abs
        | Instruction::I64x2Neg
        | Instruction::I64x2AllTrue
        | Instruction::I64x2Bitmask
        | Instruction::I64x2ExtendLowI32x4S
        | Instruction::I64x2ExtendHighI32x4S
        | Instruction::I64x2ExtendLowI32x4U
        | Instruction::I64x2ExtendHighI32x4U
        | Instruction::I64x2Shl
        | Instruction::I64x2ShrS
        | Instruction::I64x2ShrU
        | Instruction::I64x2Add
        | Instruction::I64x2Sub
        | Instruction::I64x2Mul
        | Instruction::I64x2Eq
        | Instruction::I64x2Ne
        | Instruction::I64x2LtS
        | Instruction::I64x2GtS
        | Instruction::I64x2LeS
        | Instruction::I64x2GeS
        | Instruction::I64x2ExtMulLowI32x4S
        | Instruction::I64x2ExtMulHighI32x4S
        | Instruction::I64x2ExtMulLowI32x4U
        | Instruction::I64x2ExtMulHighI32x4U
        | Instruction::F32x4Abs
        | Instruction::F32x4Neg
        | Instruction::F32x4Sqrt
        | Instruction::F32x4Add
        | Instruction::F32x4Sub
        | Instruction::F32x4Mul
        | Instruction::F32x4Div
        | Instruction::F32x4Min
        | Instruction::F32x4Max
        | Instruction::F32x4PMin
        | Instruction::F32x4PMax
        | Instruction::F64x2Abs
        | Instruction::F64x2Neg
        | Instruction::F64x2Sqrt
        | Instruction::F64x2Add
        | Instruction::F64x2Sub
        | Instruction::F64x2Mul
        | Instruction::F64x2Div
        | Instruction::F64x2Min
        | Instruction::F64x2Max
        | Instruction::F64x2PMin
        | Instruction::F64x2PMax
        | Instruction::I32x4TruncSatF32x4S
        | Instruction::I32x4TruncSatF32x4U
        | Instruction::F32x4ConvertI32x4S
        | Instruction::F32x4ConvertI32x4U
        | Instruction::I32x4TruncSatF64x2SZero
        | Instruction::I32x4TruncSatF64x2UZero
        | Instruction::F64x2ConvertLowI32x4S
        | Instruction::F64x2ConvertLowI32x4U
        | Instruction::I8x16RelaxedSwizzle
        | Instruction::I32x4RelaxedTruncF32x4S
        | Instruction::I32x4RelaxedTruncF32x4U
        | Instruction::I32x4RelaxedTruncF64x2SZero
        | Instruction::I32x4RelaxedTruncF64x2UZero
        | Instruction::F32x4RelaxedMadd
        | Instruction::F32x4RelaxedNmadd
        | Instruction::F64x2RelaxedMadd
        | Instruction::F64x2RelaxedNmadd
        | Instruction::I8x16RelaxedLaneselect
        | Instruction::I16x8RelaxedLaneselect
        | Instruction::I32x4RelaxedLaneselect
        | Instruction::I64x2RelaxedLaneselect
        | Instruction::F32x4RelaxedMin
        | Instruction::F32x4RelaxedMax
        | Instruction::F64x2RelaxedMin
        | Instruction::F64x2RelaxedMax
        | Instruction::I16x8RelaxedQ15mulrS
        | Instruction::I16x8RelaxedDotI8x16I7x16S
        | Instruction::I32x4RelaxedDotI8x16I7x16AddS => 0xFD,
        Instruction::MemoryAtomicNotify(..)
        | Instruction::MemoryAtomicWait32(..)
        | Instruction::MemoryAtomicWait64(..)
        | Instruction::AtomicFence(..)
        | Instruction::Pause
        | Instruction::I32AtomicLoad(..)
        | Instruction::I64AtomicLoad(..)
        | Instruction::I32AtomicLoad8U(..)
        | Instruction::I32AtomicLoad16U(..)
        | Instruction::I64AtomicLoad8U(..)
        | Instruction::I64AtomicLoad16U(..)
        | Instruction::I64AtomicLoad32U(..)
        | Instruction::I32AtomicStore(..)
        | Instruction::I64AtomicStore(..)
        | Instruction::I32AtomicStore8(..)
        | Instruction::I32AtomicStore16(..)
        | Instruction::I64AtomicStore8(..)
        | Instruction::I64AtomicStore16(..)
        | Instruction::I64AtomicStore32(..)
        | Instruction::I32AtomicRmwAdd(..)
        | Instruction::I64AtomicRmwAdd(..)
        | Instruction::I32AtomicRmw8AddU(..)
        | Instruction::I32AtomicRmw16AddU(..)
        | Instruction::I64AtomicRmw8AddU(..)
        | Instruction::I64AtomicRmw16AddU(..)
        | Instruction::I64AtomicRmw32AddU(..)
        | Instruction::I32AtomicRmwSub(..)
        | Instruction::I64AtomicRmwSub(..)
        | Instruction::I32AtomicRmw8SubU(..)
        | Instruction::I32AtomicRmw16SubU(..)
        | Instruction::I64AtomicRmw8SubU(..)
        | Instruction::I64AtomicRmw16SubU(..)
        | Instruction::I64AtomicRmw32SubU(..)
        | Instruction::I32AtomicRmwAnd(..)
        | Instruction::I64AtomicRmwAnd(..)
        | Instruction::I32AtomicRmw8AndU(..)
        | Instruction::I32AtomicRmw16AndU(..)
        | Instruction::I64AtomicRmw8AndU(..)
        | Instruction::I64AtomicRmw16AndU(..)
        | Instruction::I64AtomicRmw32AndU(..)
        | Instruction::I32AtomicRmwOr(..)
        | Instruction::I64AtomicRmwOr(..)
        | Instruction::I32AtomicRmw8OrU(..)
        | Instruction::I32AtomicRmw16OrU(..)
        | Instruction::I64AtomicRmw8OrU(..)
        | Instruction::I64AtomicRmw16OrU(..)
        | Instruction::I64AtomicRmw32OrU(..)
        | Instruction::I32AtomicRmwXor(..)
        | Instruction::I64AtomicRmwXor(..)
        | Instruction::I32AtomicRmw8XorU(..)
        | Instruction::I32AtomicRmw16XorU(..)
        | Instruction::I64AtomicRmw8XorU(..)
        | Instruction::I64AtomicRmw16XorU(..)
        | Instruction::I64AtomicRmw32XorU(..)
        | Instruction::I32AtomicRmwXchg(..)
        | Instruction::I64AtomicRmwXchg(..)
        | Instruction::I32AtomicRmw8XchgU(..)
        | Instruction::I32AtomicRmw16XchgU(..)
        | Instruction::I64AtomicRmw8XchgU(..)
        | Instruction::I64AtomicRmw16XchgU(..)
        | Instruction::I64AtomicRmw32XchgU(..)
        | Instruction::I32AtomicRmwCmpxchg(..)
        | Instruction::I64AtomicRmwCmpxchg(..)
        | Instruction::I32AtomicRmw8CmpxchgU(..)
        | Instruction::I32AtomicRmw16CmpxchgU(..)
        | Instruction::I64AtomicRmw8CmpxchgU(..)
        | Instruction::I64AtomicRmw16CmpxchgU(..)
        | Instruction::I64AtomicRmw32CmpxchgU(..)
        | Instruction::GlobalAtomicGet { .. }
        | Instruction::GlobalAtomicSet { .. }
        | Instruction::GlobalAtomicRmwAdd { .. }
        | Instruction::GlobalAtomicRmwSub { .. }
        | Instruction::GlobalAtomicRmwAnd { .. }
        | Instruction::GlobalAtomicRmwOr { .. }
        | Instruction::GlobalAtomicRmwXor { .. }
        | Instruction::GlobalAtomicRmwXchg { .. }
        | Instruction::GlobalAtomicRmwCmpxchg { .. }
        | Instruction::TableAtomicGet { .. }
        | Instruction::TableAtomicSet { .. }
        | Instruction::TableAtomicRmwXchg { .. }
        | Instruction::TableAtomicRmwCmpxchg { .. }
        | Instruction::StructAtomicGet { .. }
        | Instruction::StructAtomicGetS { .. }
        | Instruction::StructAtomicGetU { .. }
        | Instruction::StructAtomicSet { .. }
        | Instruction::StructAtomicRmwAdd { .. }
        | Instruction::StructAtomicRmwSub { .. }
        | Instruction::StructAtomicRmwAnd { .. }
        | Instruction::StructAtomicRmwOr { .. }
        | Instruction::StructAtomicRmwXor { .. }
        | Instruction::StructAtomicRmwXchg { .. }
        | Instruction::StructAtomicRmwCmpxchg { .. }
        | Instruction::ArrayAtomicGet { .. }
        | Instruction::ArrayAtomicGetS { .. }
        | Instruction::ArrayAtomicGetU { .. }
        | Instruction::ArrayAtomicSet { .. }
        | Instruction::ArrayAtomicRmwAdd { .. }
        | Instruction::ArrayAtomicRmwSub { .. }
        | Instruction::ArrayAtomicRmwAnd { .. }
        | Instruction::ArrayAtomicRmwOr { .. }
        | Instruction::ArrayAtomicRmwXor { .. }
        | Instruction::ArrayAtomicRmwXchg { .. }
        | Instruction::ArrayAtomicRmwCmpxchg { .. }
        | Instruction::RefI31Shared => 0xFE,
        _ => return None,
    })
}

/// Checks all 628 cases.
pub fn check_all() {
    from_0();
    from_50();
    from_100();
    from_150();
    from_200();
    from_250();
    from_300();
    from_350();
    from_400();
    from_450();
    from_500();
    from_550();
    from_600();
}

/// The cases from the line 1 of the table on.
fn from_0() {
    check(
        "00",
        Instruction::Unreachable,
        |sink| {
            sink.unreachable();
        },
        fallible::Instruction::Unreachable,
    );
    check(
        "01",
        Instruction::Nop,
        |sink| {
            sink.nop();
        },
        fallible::Instruction::Nop,
    );
    check(
        "02c000",
        Instruction::Block(BlockType::FunctionType(64)),
        |sink| {
            sink.block(BlockType::FunctionType(64));
        },
        fallible::Instruction::Block(BlockType::FunctionType(64)),
    );
    check(
        "03c000",
        Instruction::Loop(BlockType::FunctionType(64)),
        |sink| {
            sink.loop_(BlockType::FunctionType(64));
        },
        fallible::Instruction::Loop(BlockType::FunctionType(64)),
    );
    check(
        "04c000",
        Instruction::If(BlockType::FunctionType(64)),
        |sink| {
            sink.if_(BlockType::FunctionType(64));
        },
        fallible::Instruction::If(BlockType::FunctionType(64)),
    );
    check(
        "05",
        Instruction::Else,
        |sink| {
            sink.else_();
        },
        fallible::Instruction::Else,
    );
    check(
        "06c000",
        Instruction::Try(BlockType::FunctionType(64)),
        |sink| {
            sink.try_(BlockType::FunctionType(64));
        },
        fallible::Instruction::Try(BlockType::FunctionType(64)),
    );
    check(
        "07ac02",
        Instruction::Catch(300),
        |sink| {
            sink.catch(300);
        },
        fallible::Instruction::Catch(300),
    );
    check(
        "08ac02",
        Instruction::Throw(300),
        |sink| {
            sink.throw(300);
        },
        fallible::Instruction::Throw(300),
    );
    check(
        "09ac02",
        Instruction::Rethrow(300),
        |sink| {
            sink.rethrow(300);
        },
        fallible::Instruction::Rethrow(300),
    );
    check(
        "0a",
        Instruction::ThrowRef,
        |sink| {
            sink.throw_ref();
        },
        fallible::Instruction::ThrowRef,
    );
    check(
        "0b",
        Instruction::End,
        |sink| {
            sink.end();
        },
        fallible::Instruction::End,
    );
    check(
        "0cac02",
        Instruction::Br(300),
        |sink| {
            sink.br(300);
        },
        fallible::Instruction::Br(300),
    );
    check(
        "0dac02",
        Instruction::BrIf(300),
        |sink| {
            sink.br_if(300);
        },
        fallible::Instruction::BrIf(300),
    );
    check(
        "0e0200ac0205",
        Instruction::BrTable(Cow::Borrowed(&[0, 300]), 5),
        |sink| {
            sink.br_table([0, 300], 5);
        },
        fallible::Instruction::BrTable(CowSlice::Borrowed(&[0, 300]), 5),
    );
    check(
        "0f",
        Instruction::Return,
        |sink| {
            sink.return_();
        },
        fallible::Instruction::Return,
    );
    check(
        "10ac02",
        Instruction::Call(300),
        |sink| {
            sink.call(300);
        },
        fallible::Instruction::Call(300),
    );
    check(
        "1101ac02",
        Instruction::CallIndirect { type_index: 1, table_index: 300 },
        |sink| {
            sink.call_indirect(300, 1);
        },
        fallible::Instruction::CallIndirect { type_index: 1, table_index: 300 },
    );
    check(
        "12ac02",
        Instruction::ReturnCall(300),
        |sink| {
            sink.return_call(300);
        },
        fallible::Instruction::ReturnCall(300),
    );
    check(
        "1301ac02",
        Instruction::ReturnCallIndirect { type_index: 1, table_index: 300 },
        |sink| {
            sink.return_call_indirect(300, 1);
        },
        fallible::Instruction::ReturnCallIndirect { type_index: 1, table_index: 300 },
    );
    check(
        "14ac02",
        Instruction::CallRef(300),
        |sink| {
            sink.call_ref(300);
        },
        fallible::Instruction::CallRef(300),
    );
    check(
        "15ac02",
        Instruction::ReturnCallRef(300),
        |sink| {
            sink.return_call_ref(300);
        },
        fallible::Instruction::ReturnCallRef(300),
    );
    check(
        "18ac02",
        Instruction::Delegate(300),
        |sink| {
            sink.delegate(300);
        },
        fallible::Instruction::Delegate(300),
    );
    check(
        "19",
        Instruction::CatchAll,
        |sink| {
            sink.catch_all();
        },
        fallible::Instruction::CatchAll,
    );
    check(
        "1a",
        Instruction::Drop,
        |sink| {
            sink.drop();
        },
        fallible::Instruction::Drop,
    );
    check(
        "1b",
        Instruction::Select,
        |sink| {
            sink.select();
        },
        fallible::Instruction::Select,
    );
    check(
        "1c017f",
        Instruction::TypedSelect(ValType::I32),
        |sink| {
            sink.typed_select(ValType::I32);
        },
        fallible::Instruction::TypedSelect(ValType::I32),
    );
    check(
        "1c027f7e",
        Instruction::TypedSelectMulti(Cow::Borrowed(&[ValType::I32, ValType::I64])),
        |sink| {
            sink.typed_select_multi(&[ValType::I32, ValType::I64]);
        },
        fallible::Instruction::TypedSelectMulti(CowSlice::Borrowed(&[ValType::I32, ValType::I64])),
    );
    check(
        "1f40020000010302",
        Instruction::TryTable(BlockType::Empty, Cow::Borrowed(&[Catch::One { tag: 0, label: 1 }, Catch::AllRef { label: 2 }])),
        |sink| {
            sink.try_table(BlockType::Empty, [Catch::One { tag: 0, label: 1 }, Catch::AllRef { label: 2 }]);
        },
        fallible::Instruction::TryTable(BlockType::Empty, CowSlice::Borrowed(&[Catch::One { tag: 0, label: 1 }, Catch::AllRef { label: 2 }])),
    );
    check(
        "20ac02",
        Instruction::LocalGet(300),
        |sink| {
            sink.local_get(300);
        },
        fallible::Instruction::LocalGet(300),
    );
    check(
        "21ac02",
        Instruction::LocalSet(300),
        |sink| {
            sink.local_set(300);
        },
        fallible::Instruction::LocalSet(300),
    );
    check(
        "22ac02",
        Instruction::LocalTee(300),
        |sink| {
            sink.local_tee(300);
        },
        fallible::Instruction::LocalTee(300),
    );
    check(
        "23ac02",
        Instruction::GlobalGet(300),
        |sink| {
            sink.global_get(300);
        },
        fallible::Instruction::GlobalGet(300),
    );
    check(
        "24ac02",
        Instruction::GlobalSet(300),
        |sink| {
            sink.global_set(300);
        },
        fallible::Instruction::GlobalSet(300),
    );
    check(
        "25ac02",
        Instruction::TableGet(300),
        |sink| {
            sink.table_get(300);
        },
        fallible::Instruction::TableGet(300),
    );
    check(
        "26ac02",
        Instruction::TableSet(300),
        |sink| {
            sink.table_set(300);
        },
        fallible::Instruction::TableSet(300),
    );
    check(
        "284201ac02",
        Instruction::I32Load(MEMARG),
        |sink| {
            sink.i32_load(MEMARG);
        },
        fallible::Instruction::I32Load(MEMARG),
    );
    check(
        "294201ac02",
        Instruction::I64Load(MEMARG),
        |sink| {
            sink.i64_load(MEMARG);
        },
        fallible::Instruction::I64Load(MEMARG),
    );
    check(
        "2a4201ac02",
        Instruction::F32Load(MEMARG),
        |sink| {
            sink.f32_load(MEMARG);
        },
        fallible::Instruction::F32Load(MEMARG),
    );
    check(
        "2b4201ac02",
        Instruction::F64Load(MEMARG),
        |sink| {
            sink.f64_load(MEMARG);
        },
        fallible::Instruction::F64Load(MEMARG),
    );
    check(
        "2c4201ac02",
        Instruction::I32Load8S(MEMARG),
        |sink| {
            sink.i32_load8_s(MEMARG);
        },
        fallible::Instruction::I32Load8S(MEMARG),
    );
    check(
        "2d4201ac02",
        Instruction::I32Load8U(MEMARG),
        |sink| {
            sink.i32_load8_u(MEMARG);
        },
        fallible::Instruction::I32Load8U(MEMARG),
    );
    check(
        "2e4201ac02",
        Instruction::I32Load16S(MEMARG),
        |sink| {
            sink.i32_load16_s(MEMARG);
        },
        fallible::Instruction::I32Load16S(MEMARG),
    );
    check(
        "2f4201ac02",
        Instruction::I32Load16U(MEMARG),
        |sink| {
            sink.i32_load16_u(MEMARG);
        },
        fallible::Instruction::I32Load16U(MEMARG),
    );
    check(
        "304201ac02",
        Instruction::I64Load8S(MEMARG),
        |sink| {
            sink.i64_load8_s(MEMARG);
        },
        fallible::Instruction::I64Load8S(MEMARG),
    );
    check(
        "314201ac02",
        Instruction::I64Load8U(MEMARG),
        |sink| {
            sink.i64_load8_u(MEMARG);
        },
        fallible::Instruction::I64Load8U(MEMARG),
    );
    check(
        "324201ac02",
        Instruction::I64Load16S(MEMARG),
        |sink| {
            sink.i64_load16_s(MEMARG);
        },
        fallible::Instruction::I64Load16S(MEMARG),
    );
    check(
        "334201ac02",
        Instruction::I64Load16U(MEMARG),
        |sink| {
            sink.i64_load16_u(MEMARG);
        },
        fallible::Instruction::I64Load16U(MEMARG),
    );
    check(
        "344201ac02",
        Instruction::I64Load32S(MEMARG),
        |sink| {
            sink.i64_load32_s(MEMARG);
        },
        fallible::Instruction::I64Load32S(MEMARG),
    );
    check(
        "354201ac02",
        Instruction::I64Load32U(MEMARG),
        |sink| {
            sink.i64_load32_u(MEMARG);
        },
        fallible::Instruction::I64Load32U(MEMARG),
    );
}

/// The cases from the line 51 of the table on.
fn from_50() {
    check(
        "364201ac02",
        Instruction::I32Store(MEMARG),
        |sink| {
            sink.i32_store(MEMARG);
        },
        fallible::Instruction::I32Store(MEMARG),
    );
    check(
        "374201ac02",
        Instruction::I64Store(MEMARG),
        |sink| {
            sink.i64_store(MEMARG);
        },
        fallible::Instruction::I64Store(MEMARG),
    );
    check(
        "384201ac02",
        Instruction::F32Store(MEMARG),
        |sink| {
            sink.f32_store(MEMARG);
        },
        fallible::Instruction::F32Store(MEMARG),
    );
    check(
        "394201ac02",
        Instruction::F64Store(MEMARG),
        |sink| {
            sink.f64_store(MEMARG);
        },
        fallible::Instruction::F64Store(MEMARG),
    );
    check(
        "3a4201ac02",
        Instruction::I32Store8(MEMARG),
        |sink| {
            sink.i32_store8(MEMARG);
        },
        fallible::Instruction::I32Store8(MEMARG),
    );
    check(
        "3b4201ac02",
        Instruction::I32Store16(MEMARG),
        |sink| {
            sink.i32_store16(MEMARG);
        },
        fallible::Instruction::I32Store16(MEMARG),
    );
    check(
        "3c4201ac02",
        Instruction::I64Store8(MEMARG),
        |sink| {
            sink.i64_store8(MEMARG);
        },
        fallible::Instruction::I64Store8(MEMARG),
    );
    check(
        "3d4201ac02",
        Instruction::I64Store16(MEMARG),
        |sink| {
            sink.i64_store16(MEMARG);
        },
        fallible::Instruction::I64Store16(MEMARG),
    );
    check(
        "3e4201ac02",
        Instruction::I64Store32(MEMARG),
        |sink| {
            sink.i64_store32(MEMARG);
        },
        fallible::Instruction::I64Store32(MEMARG),
    );
    check(
        "3fac02",
        Instruction::MemorySize(300),
        |sink| {
            sink.memory_size(300);
        },
        fallible::Instruction::MemorySize(300),
    );
    check(
        "40ac02",
        Instruction::MemoryGrow(300),
        |sink| {
            sink.memory_grow(300);
        },
        fallible::Instruction::MemoryGrow(300),
    );
    check(
        "41c0bb78",
        Instruction::I32Const(-123456),
        |sink| {
            sink.i32_const(-123456);
        },
        fallible::Instruction::I32Const(-123456),
    );
    check(
        "42b5b8f0fe2d",
        Instruction::I64Const(12345678901),
        |sink| {
            sink.i64_const(12345678901);
        },
        fallible::Instruction::I64Const(12345678901),
    );
    check(
        "430000803f",
        Instruction::F32Const(Ieee32::new(1065353216)),
        |sink| {
            sink.f32_const(Ieee32::new(1065353216));
        },
        fallible::Instruction::F32Const(Ieee32::new(1065353216)),
    );
    check(
        "44000000000000f03f",
        Instruction::F64Const(Ieee64::new(4607182418800017408)),
        |sink| {
            sink.f64_const(Ieee64::new(4607182418800017408));
        },
        fallible::Instruction::F64Const(Ieee64::new(4607182418800017408)),
    );
    check(
        "45",
        Instruction::I32Eqz,
        |sink| {
            sink.i32_eqz();
        },
        fallible::Instruction::Numeric(fallible::Numeric::I32Eqz),
    );
    check(
        "46",
        Instruction::I32Eq,
        |sink| {
            sink.i32_eq();
        },
        fallible::Instruction::Numeric(fallible::Numeric::I32Eq),
    );
    check(
        "47",
        Instruction::I32Ne,
        |sink| {
            sink.i32_ne();
        },
        fallible::Instruction::Numeric(fallible::Numeric::I32Ne),
    );
    check(
        "48",
        Instruction::I32LtS,
        |sink| {
            sink.i32_lt_s();
        },
        fallible::Instruction::Numeric(fallible::Numeric::I32LtS),
    );
    check(
        "49",
        Instruction::I32LtU,
        |sink| {
            sink.i32_lt_u();
        },
        fallible::Instruction::Numeric(fallible::Numeric::I32LtU),
    );
    check(
        "4a",
        Instruction::I32GtS,
        |sink| {
            sink.i32_gt_s();
        },
        fallible::Instruction::Numeric(fallible::Numeric::I32GtS),
    );
    check(
        "4b",
        Instruction::I32GtU,
        |sink| {
            sink.i32_gt_u();
        },
        fallible::Instruction::Numeric(fallible::Numeric::I32GtU),
    );
    check(
        "4c",
        Instruction::I32LeS,
        |sink| {
            sink.i32_le_s();
        },
        fallible::Instruction::Numeric(fallible::Numeric::I32LeS),
    );
    check(
        "4d",
        Instruction::I32LeU,
        |sink| {
            sink.i32_le_u();
        },
        fallible::Instruction::Numeric(fallible::Numeric::I32LeU),
    );
    check(
        "4e",
        Instruction::I32GeS,
        |sink| {
            sink.i32_ge_s();
        },
        fallible::Instruction::Numeric(fallible::Numeric::I32GeS),
    );
    check(
        "4f",
        Instruction::I32GeU,
        |sink| {
            sink.i32_ge_u();
        },
        fallible::Instruction::Numeric(fallible::Numeric::I32GeU),
    );
    check(
        "50",
        Instruction::I64Eqz,
        |sink| {
            sink.i64_eqz();
        },
        fallible::Instruction::Numeric(fallible::Numeric::I64Eqz),
    );
    check(
        "51",
        Instruction::I64Eq,
        |sink| {
            sink.i64_eq();
        },
        fallible::Instruction::Numeric(fallible::Numeric::I64Eq),
    );
    check(
        "52",
        Instruction::I64Ne,
        |sink| {
            sink.i64_ne();
        },
        fallible::Instruction::Numeric(fallible::Numeric::I64Ne),
    );
    check(
        "53",
        Instruction::I64LtS,
        |sink| {
            sink.i64_lt_s();
        },
        fallible::Instruction::Numeric(fallible::Numeric::I64LtS),
    );
    check(
        "54",
        Instruction::I64LtU,
        |sink| {
            sink.i64_lt_u();
        },
        fallible::Instruction::Numeric(fallible::Numeric::I64LtU),
    );
    check(
        "55",
        Instruction::I64GtS,
        |sink| {
            sink.i64_gt_s();
        },
        fallible::Instruction::Numeric(fallible::Numeric::I64GtS),
    );
    check(
        "56",
        Instruction::I64GtU,
        |sink| {
            sink.i64_gt_u();
        },
        fallible::Instruction::Numeric(fallible::Numeric::I64GtU),
    );
    check(
        "57",
        Instruction::I64LeS,
        |sink| {
            sink.i64_le_s();
        },
        fallible::Instruction::Numeric(fallible::Numeric::I64LeS),
    );
    check(
        "58",
        Instruction::I64LeU,
        |sink| {
            sink.i64_le_u();
        },
        fallible::Instruction::Numeric(fallible::Numeric::I64LeU),
    );
    check(
        "59",
        Instruction::I64GeS,
        |sink| {
            sink.i64_ge_s();
        },
        fallible::Instruction::Numeric(fallible::Numeric::I64GeS),
    );
    check(
        "5a",
        Instruction::I64GeU,
        |sink| {
            sink.i64_ge_u();
        },
        fallible::Instruction::Numeric(fallible::Numeric::I64GeU),
    );
    check(
        "5b",
        Instruction::F32Eq,
        |sink| {
            sink.f32_eq();
        },
        fallible::Instruction::Numeric(fallible::Numeric::F32Eq),
    );
    check(
        "5c",
        Instruction::F32Ne,
        |sink| {
            sink.f32_ne();
        },
        fallible::Instruction::Numeric(fallible::Numeric::F32Ne),
    );
    check(
        "5d",
        Instruction::F32Lt,
        |sink| {
            sink.f32_lt();
        },
        fallible::Instruction::Numeric(fallible::Numeric::F32Lt),
    );
    check(
        "5e",
        Instruction::F32Gt,
        |sink| {
            sink.f32_gt();
        },
        fallible::Instruction::Numeric(fallible::Numeric::F32Gt),
    );
    check(
        "5f",
        Instruction::F32Le,
        |sink| {
            sink.f32_le();
        },
        fallible::Instruction::Numeric(fallible::Numeric::F32Le),
    );
    check(
        "60",
        Instruction::F32Ge,
        |sink| {
            sink.f32_ge();
        },
        fallible::Instruction::Numeric(fallible::Numeric::F32Ge),
    );
    check(
        "61",
        Instruction::F64Eq,
        |sink| {
            sink.f64_eq();
        },
        fallible::Instruction::Numeric(fallible::Numeric::F64Eq),
    );
    check(
        "62",
        Instruction::F64Ne,
        |sink| {
            sink.f64_ne();
        },
        fallible::Instruction::Numeric(fallible::Numeric::F64Ne),
    );
    check(
        "63",
        Instruction::F64Lt,
        |sink| {
            sink.f64_lt();
        },
        fallible::Instruction::Numeric(fallible::Numeric::F64Lt),
    );
    check(
        "64",
        Instruction::F64Gt,
        |sink| {
            sink.f64_gt();
        },
        fallible::Instruction::Numeric(fallible::Numeric::F64Gt),
    );
    check(
        "65",
        Instruction::F64Le,
        |sink| {
            sink.f64_le();
        },
        fallible::Instruction::Numeric(fallible::Numeric::F64Le),
    );
    check(
        "66",
        Instruction::F64Ge,
        |sink| {
            sink.f64_ge();
        },
        fallible::Instruction::Numeric(fallible::Numeric::F64Ge),
    );
    check(
        "67",
        Instruction::I32Clz,
        |sink| {
            sink.i32_clz();
        },
        fallible::Instruction::Numeric(fallible::Numeric::I32Clz),
    );
}

/// The cases from the line 101 of the table on.
fn from_100() {
    check(
        "68",
        Instruction::I32Ctz,
        |sink| {
            sink.i32_ctz();
        },
        fallible::Instruction::Numeric(fallible::Numeric::I32Ctz),
    );
    check(
        "69",
        Instruction::I32Popcnt,
        |sink| {
            sink.i32_popcnt();
        },
        fallible::Instruction::Numeric(fallible::Numeric::I32Popcnt),
    );
    check(
        "6a",
        Instruction::I32Add,
        |sink| {
            sink.i32_add();
        },
        fallible::Instruction::Numeric(fallible::Numeric::I32Add),
    );
    check(
        "6b",
        Instruction::I32Sub,
        |sink| {
            sink.i32_sub();
        },
        fallible::Instruction::Numeric(fallible::Numeric::I32Sub),
    );
    check(
        "6c",
        Instruction::I32Mul,
        |sink| {
            sink.i32_mul();
        },
        fallible::Instruction::Numeric(fallible::Numeric::I32Mul),
    );
    check(
        "6d",
        Instruction::I32DivS,
        |sink| {
            sink.i32_div_s();
        },
        fallible::Instruction::Numeric(fallible::Numeric::I32DivS),
    );
    check(
        "6e",
        Instruction::I32DivU,
        |sink| {
            sink.i32_div_u();
        },
        fallible::Instruction::Numeric(fallible::Numeric::I32DivU),
    );
    check(
        "6f",
        Instruction::I32RemS,
        |sink| {
            sink.i32_rem_s();
        },
        fallible::Instruction::Numeric(fallible::Numeric::I32RemS),
    );
    check(
        "70",
        Instruction::I32RemU,
        |sink| {
            sink.i32_rem_u();
        },
        fallible::Instruction::Numeric(fallible::Numeric::I32RemU),
    );
    check(
        "71",
        Instruction::I32And,
        |sink| {
            sink.i32_and();
        },
        fallible::Instruction::Numeric(fallible::Numeric::I32And),
    );
    check(
        "72",
        Instruction::I32Or,
        |sink| {
            sink.i32_or();
        },
        fallible::Instruction::Numeric(fallible::Numeric::I32Or),
    );
    check(
        "73",
        Instruction::I32Xor,
        |sink| {
            sink.i32_xor();
        },
        fallible::Instruction::Numeric(fallible::Numeric::I32Xor),
    );
    check(
        "74",
        Instruction::I32Shl,
        |sink| {
            sink.i32_shl();
        },
        fallible::Instruction::Numeric(fallible::Numeric::I32Shl),
    );
    check(
        "75",
        Instruction::I32ShrS,
        |sink| {
            sink.i32_shr_s();
        },
        fallible::Instruction::Numeric(fallible::Numeric::I32ShrS),
    );
    check(
        "76",
        Instruction::I32ShrU,
        |sink| {
            sink.i32_shr_u();
        },
        fallible::Instruction::Numeric(fallible::Numeric::I32ShrU),
    );
    check(
        "77",
        Instruction::I32Rotl,
        |sink| {
            sink.i32_rotl();
        },
        fallible::Instruction::Numeric(fallible::Numeric::I32Rotl),
    );
    check(
        "78",
        Instruction::I32Rotr,
        |sink| {
            sink.i32_rotr();
        },
        fallible::Instruction::Numeric(fallible::Numeric::I32Rotr),
    );
    check(
        "79",
        Instruction::I64Clz,
        |sink| {
            sink.i64_clz();
        },
        fallible::Instruction::Numeric(fallible::Numeric::I64Clz),
    );
    check(
        "7a",
        Instruction::I64Ctz,
        |sink| {
            sink.i64_ctz();
        },
        fallible::Instruction::Numeric(fallible::Numeric::I64Ctz),
    );
    check(
        "7b",
        Instruction::I64Popcnt,
        |sink| {
            sink.i64_popcnt();
        },
        fallible::Instruction::Numeric(fallible::Numeric::I64Popcnt),
    );
    check(
        "7c",
        Instruction::I64Add,
        |sink| {
            sink.i64_add();
        },
        fallible::Instruction::Numeric(fallible::Numeric::I64Add),
    );
    check(
        "7d",
        Instruction::I64Sub,
        |sink| {
            sink.i64_sub();
        },
        fallible::Instruction::Numeric(fallible::Numeric::I64Sub),
    );
    check(
        "7e",
        Instruction::I64Mul,
        |sink| {
            sink.i64_mul();
        },
        fallible::Instruction::Numeric(fallible::Numeric::I64Mul),
    );
    check(
        "7f",
        Instruction::I64DivS,
        |sink| {
            sink.i64_div_s();
        },
        fallible::Instruction::Numeric(fallible::Numeric::I64DivS),
    );
    check(
        "80",
        Instruction::I64DivU,
        |sink| {
            sink.i64_div_u();
        },
        fallible::Instruction::Numeric(fallible::Numeric::I64DivU),
    );
    check(
        "81",
        Instruction::I64RemS,
        |sink| {
            sink.i64_rem_s();
        },
        fallible::Instruction::Numeric(fallible::Numeric::I64RemS),
    );
    check(
        "82",
        Instruction::I64RemU,
        |sink| {
            sink.i64_rem_u();
        },
        fallible::Instruction::Numeric(fallible::Numeric::I64RemU),
    );
    check(
        "83",
        Instruction::I64And,
        |sink| {
            sink.i64_and();
        },
        fallible::Instruction::Numeric(fallible::Numeric::I64And),
    );
    check(
        "84",
        Instruction::I64Or,
        |sink| {
            sink.i64_or();
        },
        fallible::Instruction::Numeric(fallible::Numeric::I64Or),
    );
    check(
        "85",
        Instruction::I64Xor,
        |sink| {
            sink.i64_xor();
        },
        fallible::Instruction::Numeric(fallible::Numeric::I64Xor),
    );
    check(
        "86",
        Instruction::I64Shl,
        |sink| {
            sink.i64_shl();
        },
        fallible::Instruction::Numeric(fallible::Numeric::I64Shl),
    );
    check(
        "87",
        Instruction::I64ShrS,
        |sink| {
            sink.i64_shr_s();
        },
        fallible::Instruction::Numeric(fallible::Numeric::I64ShrS),
    );
    check(
        "88",
        Instruction::I64ShrU,
        |sink| {
            sink.i64_shr_u();
        },
        fallible::Instruction::Numeric(fallible::Numeric::I64ShrU),
    );
    check(
        "89",
        Instruction::I64Rotl,
        |sink| {
            sink.i64_rotl();
        },
        fallible::Instruction::Numeric(fallible::Numeric::I64Rotl),
    );
    check(
        "8a",
        Instruction::I64Rotr,
        |sink| {
            sink.i64_rotr();
        },
        fallible::Instruction::Numeric(fallible::Numeric::I64Rotr),
    );
    check(
        "8b",
        Instruction::F32Abs,
        |sink| {
            sink.f32_abs();
        },
        fallible::Instruction::Numeric(fallible::Numeric::F32Abs),
    );
    check(
        "8c",
        Instruction::F32Neg,
        |sink| {
            sink.f32_neg();
        },
        fallible::Instruction::Numeric(fallible::Numeric::F32Neg),
    );
    check(
        "8d",
        Instruction::F32Ceil,
        |sink| {
            sink.f32_ceil();
        },
        fallible::Instruction::Numeric(fallible::Numeric::F32Ceil),
    );
    check(
        "8e",
        Instruction::F32Floor,
        |sink| {
            sink.f32_floor();
        },
        fallible::Instruction::Numeric(fallible::Numeric::F32Floor),
    );
    check(
        "8f",
        Instruction::F32Trunc,
        |sink| {
            sink.f32_trunc();
        },
        fallible::Instruction::Numeric(fallible::Numeric::F32Trunc),
    );
    check(
        "90",
        Instruction::F32Nearest,
        |sink| {
            sink.f32_nearest();
        },
        fallible::Instruction::Numeric(fallible::Numeric::F32Nearest),
    );
    check(
        "91",
        Instruction::F32Sqrt,
        |sink| {
            sink.f32_sqrt();
        },
        fallible::Instruction::Numeric(fallible::Numeric::F32Sqrt),
    );
    check(
        "92",
        Instruction::F32Add,
        |sink| {
            sink.f32_add();
        },
        fallible::Instruction::Numeric(fallible::Numeric::F32Add),
    );
    check(
        "93",
        Instruction::F32Sub,
        |sink| {
            sink.f32_sub();
        },
        fallible::Instruction::Numeric(fallible::Numeric::F32Sub),
    );
    check(
        "94",
        Instruction::F32Mul,
        |sink| {
            sink.f32_mul();
        },
        fallible::Instruction::Numeric(fallible::Numeric::F32Mul),
    );
    check(
        "95",
        Instruction::F32Div,
        |sink| {
            sink.f32_div();
        },
        fallible::Instruction::Numeric(fallible::Numeric::F32Div),
    );
    check(
        "96",
        Instruction::F32Min,
        |sink| {
            sink.f32_min();
        },
        fallible::Instruction::Numeric(fallible::Numeric::F32Min),
    );
    check(
        "97",
        Instruction::F32Max,
        |sink| {
            sink.f32_max();
        },
        fallible::Instruction::Numeric(fallible::Numeric::F32Max),
    );
    check(
        "98",
        Instruction::F32Copysign,
        |sink| {
            sink.f32_copysign();
        },
        fallible::Instruction::Numeric(fallible::Numeric::F32Copysign),
    );
    check(
        "99",
        Instruction::F64Abs,
        |sink| {
            sink.f64_abs();
        },
        fallible::Instruction::Numeric(fallible::Numeric::F64Abs),
    );
}

/// The cases from the line 151 of the table on.
fn from_150() {
    check(
        "9a",
        Instruction::F64Neg,
        |sink| {
            sink.f64_neg();
        },
        fallible::Instruction::Numeric(fallible::Numeric::F64Neg),
    );
    check(
        "9b",
        Instruction::F64Ceil,
        |sink| {
            sink.f64_ceil();
        },
        fallible::Instruction::Numeric(fallible::Numeric::F64Ceil),
    );
    check(
        "9c",
        Instruction::F64Floor,
        |sink| {
            sink.f64_floor();
        },
        fallible::Instruction::Numeric(fallible::Numeric::F64Floor),
    );
    check(
        "9d",
        Instruction::F64Trunc,
        |sink| {
            sink.f64_trunc();
        },
        fallible::Instruction::Numeric(fallible::Numeric::F64Trunc),
    );
    check(
        "9e",
        Instruction::F64Nearest,
        |sink| {
            sink.f64_nearest();
        },
        fallible::Instruction::Numeric(fallible::Numeric::F64Nearest),
    );
    check(
        "9f",
        Instruction::F64Sqrt,
        |sink| {
            sink.f64_sqrt();
        },
        fallible::Instruction::Numeric(fallible::Numeric::F64Sqrt),
    );
    check(
        "a0",
        Instruction::F64Add,
        |sink| {
            sink.f64_add();
        },
        fallible::Instruction::Numeric(fallible::Numeric::F64Add),
    );
    check(
        "a1",
        Instruction::F64Sub,
        |sink| {
            sink.f64_sub();
        },
        fallible::Instruction::Numeric(fallible::Numeric::F64Sub),
    );
    check(
        "a2",
        Instruction::F64Mul,
        |sink| {
            sink.f64_mul();
        },
        fallible::Instruction::Numeric(fallible::Numeric::F64Mul),
    );
    check(
        "a3",
        Instruction::F64Div,
        |sink| {
            sink.f64_div();
        },
        fallible::Instruction::Numeric(fallible::Numeric::F64Div),
    );
    check(
        "a4",
        Instruction::F64Min,
        |sink| {
            sink.f64_min();
        },
        fallible::Instruction::Numeric(fallible::Numeric::F64Min),
    );
    check(
        "a5",
        Instruction::F64Max,
        |sink| {
            sink.f64_max();
        },
        fallible::Instruction::Numeric(fallible::Numeric::F64Max),
    );
    check(
        "a6",
        Instruction::F64Copysign,
        |sink| {
            sink.f64_copysign();
        },
        fallible::Instruction::Numeric(fallible::Numeric::F64Copysign),
    );
    check(
        "a7",
        Instruction::I32WrapI64,
        |sink| {
            sink.i32_wrap_i64();
        },
        fallible::Instruction::Numeric(fallible::Numeric::I32WrapI64),
    );
    check(
        "a8",
        Instruction::I32TruncF32S,
        |sink| {
            sink.i32_trunc_f32_s();
        },
        fallible::Instruction::Numeric(fallible::Numeric::I32TruncF32S),
    );
    check(
        "a9",
        Instruction::I32TruncF32U,
        |sink| {
            sink.i32_trunc_f32_u();
        },
        fallible::Instruction::Numeric(fallible::Numeric::I32TruncF32U),
    );
    check(
        "aa",
        Instruction::I32TruncF64S,
        |sink| {
            sink.i32_trunc_f64_s();
        },
        fallible::Instruction::Numeric(fallible::Numeric::I32TruncF64S),
    );
    check(
        "ab",
        Instruction::I32TruncF64U,
        |sink| {
            sink.i32_trunc_f64_u();
        },
        fallible::Instruction::Numeric(fallible::Numeric::I32TruncF64U),
    );
    check(
        "ac",
        Instruction::I64ExtendI32S,
        |sink| {
            sink.i64_extend_i32_s();
        },
        fallible::Instruction::Numeric(fallible::Numeric::I64ExtendI32S),
    );
    check(
        "ad",
        Instruction::I64ExtendI32U,
        |sink| {
            sink.i64_extend_i32_u();
        },
        fallible::Instruction::Numeric(fallible::Numeric::I64ExtendI32U),
    );
    check(
        "ae",
        Instruction::I64TruncF32S,
        |sink| {
            sink.i64_trunc_f32_s();
        },
        fallible::Instruction::Numeric(fallible::Numeric::I64TruncF32S),
    );
    check(
        "af",
        Instruction::I64TruncF32U,
        |sink| {
            sink.i64_trunc_f32_u();
        },
        fallible::Instruction::Numeric(fallible::Numeric::I64TruncF32U),
    );
    check(
        "b0",
        Instruction::I64TruncF64S,
        |sink| {
            sink.i64_trunc_f64_s();
        },
        fallible::Instruction::Numeric(fallible::Numeric::I64TruncF64S),
    );
    check(
        "b1",
        Instruction::I64TruncF64U,
        |sink| {
            sink.i64_trunc_f64_u();
        },
        fallible::Instruction::Numeric(fallible::Numeric::I64TruncF64U),
    );
    check(
        "b2",
        Instruction::F32ConvertI32S,
        |sink| {
            sink.f32_convert_i32_s();
        },
        fallible::Instruction::Numeric(fallible::Numeric::F32ConvertI32S),
    );
    check(
        "b3",
        Instruction::F32ConvertI32U,
        |sink| {
            sink.f32_convert_i32_u();
        },
        fallible::Instruction::Numeric(fallible::Numeric::F32ConvertI32U),
    );
    check(
        "b4",
        Instruction::F32ConvertI64S,
        |sink| {
            sink.f32_convert_i64_s();
        },
        fallible::Instruction::Numeric(fallible::Numeric::F32ConvertI64S),
    );
    check(
        "b5",
        Instruction::F32ConvertI64U,
        |sink| {
            sink.f32_convert_i64_u();
        },
        fallible::Instruction::Numeric(fallible::Numeric::F32ConvertI64U),
    );
    check(
        "b6",
        Instruction::F32DemoteF64,
        |sink| {
            sink.f32_demote_f64();
        },
        fallible::Instruction::Numeric(fallible::Numeric::F32DemoteF64),
    );
    check(
        "b7",
        Instruction::F64ConvertI32S,
        |sink| {
            sink.f64_convert_i32_s();
        },
        fallible::Instruction::Numeric(fallible::Numeric::F64ConvertI32S),
    );
    check(
        "b8",
        Instruction::F64ConvertI32U,
        |sink| {
            sink.f64_convert_i32_u();
        },
        fallible::Instruction::Numeric(fallible::Numeric::F64ConvertI32U),
    );
    check(
        "b9",
        Instruction::F64ConvertI64S,
        |sink| {
            sink.f64_convert_i64_s();
        },
        fallible::Instruction::Numeric(fallible::Numeric::F64ConvertI64S),
    );
    check(
        "ba",
        Instruction::F64ConvertI64U,
        |sink| {
            sink.f64_convert_i64_u();
        },
        fallible::Instruction::Numeric(fallible::Numeric::F64ConvertI64U),
    );
    check(
        "bb",
        Instruction::F64PromoteF32,
        |sink| {
            sink.f64_promote_f32();
        },
        fallible::Instruction::Numeric(fallible::Numeric::F64PromoteF32),
    );
    check(
        "bc",
        Instruction::I32ReinterpretF32,
        |sink| {
            sink.i32_reinterpret_f32();
        },
        fallible::Instruction::Numeric(fallible::Numeric::I32ReinterpretF32),
    );
    check(
        "bd",
        Instruction::I64ReinterpretF64,
        |sink| {
            sink.i64_reinterpret_f64();
        },
        fallible::Instruction::Numeric(fallible::Numeric::I64ReinterpretF64),
    );
    check(
        "be",
        Instruction::F32ReinterpretI32,
        |sink| {
            sink.f32_reinterpret_i32();
        },
        fallible::Instruction::Numeric(fallible::Numeric::F32ReinterpretI32),
    );
    check(
        "bf",
        Instruction::F64ReinterpretI64,
        |sink| {
            sink.f64_reinterpret_i64();
        },
        fallible::Instruction::Numeric(fallible::Numeric::F64ReinterpretI64),
    );
    check(
        "c0",
        Instruction::I32Extend8S,
        |sink| {
            sink.i32_extend8_s();
        },
        fallible::Instruction::Numeric(fallible::Numeric::I32Extend8S),
    );
    check(
        "c1",
        Instruction::I32Extend16S,
        |sink| {
            sink.i32_extend16_s();
        },
        fallible::Instruction::Numeric(fallible::Numeric::I32Extend16S),
    );
    check(
        "c2",
        Instruction::I64Extend8S,
        |sink| {
            sink.i64_extend8_s();
        },
        fallible::Instruction::Numeric(fallible::Numeric::I64Extend8S),
    );
    check(
        "c3",
        Instruction::I64Extend16S,
        |sink| {
            sink.i64_extend16_s();
        },
        fallible::Instruction::Numeric(fallible::Numeric::I64Extend16S),
    );
    check(
        "c4",
        Instruction::I64Extend32S,
        |sink| {
            sink.i64_extend32_s();
        },
        fallible::Instruction::Numeric(fallible::Numeric::I64Extend32S),
    );
    check(
        "d0c000",
        Instruction::RefNull(HeapType::Concrete(64)),
        |sink| {
            sink.ref_null(HeapType::Concrete(64));
        },
        fallible::Instruction::RefNull(HeapType::Concrete(64)),
    );
    check(
        "d1",
        Instruction::RefIsNull,
        |sink| {
            sink.ref_is_null();
        },
        fallible::Instruction::RefIsNull,
    );
    check(
        "d2ac02",
        Instruction::RefFunc(300),
        |sink| {
            sink.ref_func(300);
        },
        fallible::Instruction::RefFunc(300),
    );
    check(
        "d3",
        Instruction::RefEq,
        |sink| {
            sink.ref_eq();
        },
        fallible::Instruction::RefEq,
    );
    check(
        "d4",
        Instruction::RefAsNonNull,
        |sink| {
            sink.ref_as_non_null();
        },
        fallible::Instruction::RefAsNonNull,
    );
    check(
        "d5ac02",
        Instruction::BrOnNull(300),
        |sink| {
            sink.br_on_null(300);
        },
        fallible::Instruction::BrOnNull(300),
    );
    check(
        "d6ac02",
        Instruction::BrOnNonNull(300),
        |sink| {
            sink.br_on_non_null(300);
        },
        fallible::Instruction::BrOnNonNull(300),
    );
}

/// The cases from the line 201 of the table on.
fn from_200() {
    check(
        "e0ac02",
        Instruction::ContNew(300),
        |sink| {
            sink.cont_new(300);
        },
        fallible::Instruction::ContNew(300),
    );
    check(
        "e101ac02",
        Instruction::ContBind { argument_index: 1, result_index: 300 },
        |sink| {
            sink.cont_bind(1, 300);
        },
        fallible::Instruction::ContBind { argument_index: 1, result_index: 300 },
    );
    check(
        "e2ac02",
        Instruction::Suspend(300),
        |sink| {
            sink.suspend(300);
        },
        fallible::Instruction::Suspend(300),
    );
    check(
        "e301020003040105",
        Instruction::Resume { cont_type_index: 1, resume_table: Cow::Borrowed(&[Handle::OnLabel { tag: 3, label: 4 }, Handle::OnSwitch { tag: 5 }]) },
        |sink| {
            sink.resume(1, [Handle::OnLabel { tag: 3, label: 4 }, Handle::OnSwitch { tag: 5 }]);
        },
        fallible::Instruction::Resume { cont_type_index: 1, resume_table: CowSlice::Borrowed(&[Handle::OnLabel { tag: 3, label: 4 }, Handle::OnSwitch { tag: 5 }]) },
    );
    check(
        "e401ac02020003040105",
        Instruction::ResumeThrow { cont_type_index: 1, tag_index: 300, resume_table: Cow::Borrowed(&[Handle::OnLabel { tag: 3, label: 4 }, Handle::OnSwitch { tag: 5 }]) },
        |sink| {
            sink.resume_throw(1, 300, [Handle::OnLabel { tag: 3, label: 4 }, Handle::OnSwitch { tag: 5 }]);
        },
        fallible::Instruction::ResumeThrow { cont_type_index: 1, tag_index: 300, resume_table: CowSlice::Borrowed(&[Handle::OnLabel { tag: 3, label: 4 }, Handle::OnSwitch { tag: 5 }]) },
    );
    check(
        "e501020003040105",
        Instruction::ResumeThrowRef { cont_type_index: 1, resume_table: Cow::Borrowed(&[Handle::OnLabel { tag: 3, label: 4 }, Handle::OnSwitch { tag: 5 }]) },
        |sink| {
            sink.resume_throw_ref(1, [Handle::OnLabel { tag: 3, label: 4 }, Handle::OnSwitch { tag: 5 }]);
        },
        fallible::Instruction::ResumeThrowRef { cont_type_index: 1, resume_table: CowSlice::Borrowed(&[Handle::OnLabel { tag: 3, label: 4 }, Handle::OnSwitch { tag: 5 }]) },
    );
    check(
        "e601ac02",
        Instruction::Switch { cont_type_index: 1, tag_index: 300 },
        |sink| {
            sink.switch(1, 300);
        },
        fallible::Instruction::Switch { cont_type_index: 1, tag_index: 300 },
    );
    check(
        "fb00ac02",
        Instruction::StructNew(300),
        |sink| {
            sink.struct_new(300);
        },
        fallible::Instruction::StructNew(300),
    );
    check(
        "fb01ac02",
        Instruction::StructNewDefault(300),
        |sink| {
            sink.struct_new_default(300);
        },
        fallible::Instruction::StructNewDefault(300),
    );
    check(
        "fb0201ac02",
        Instruction::StructGet { struct_type_index: 1, field_index: 300 },
        |sink| {
            sink.struct_get(1, 300);
        },
        fallible::Instruction::StructGet { struct_type_index: 1, field_index: 300 },
    );
    check(
        "fb0301ac02",
        Instruction::StructGetS { struct_type_index: 1, field_index: 300 },
        |sink| {
            sink.struct_get_s(1, 300);
        },
        fallible::Instruction::StructGetS { struct_type_index: 1, field_index: 300 },
    );
    check(
        "fb0401ac02",
        Instruction::StructGetU { struct_type_index: 1, field_index: 300 },
        |sink| {
            sink.struct_get_u(1, 300);
        },
        fallible::Instruction::StructGetU { struct_type_index: 1, field_index: 300 },
    );
    check(
        "fb0501ac02",
        Instruction::StructSet { struct_type_index: 1, field_index: 300 },
        |sink| {
            sink.struct_set(1, 300);
        },
        fallible::Instruction::StructSet { struct_type_index: 1, field_index: 300 },
    );
    check(
        "fb06ac02",
        Instruction::ArrayNew(300),
        |sink| {
            sink.array_new(300);
        },
        fallible::Instruction::ArrayNew(300),
    );
    check(
        "fb07ac02",
        Instruction::ArrayNewDefault(300),
        |sink| {
            sink.array_new_default(300);
        },
        fallible::Instruction::ArrayNewDefault(300),
    );
    check(
        "fb0801ac02",
        Instruction::ArrayNewFixed { array_type_index: 1, array_size: 300 },
        |sink| {
            sink.array_new_fixed(1, 300);
        },
        fallible::Instruction::ArrayNewFixed { array_type_index: 1, array_size: 300 },
    );
    check(
        "fb0901ac02",
        Instruction::ArrayNewData { array_type_index: 1, array_data_index: 300 },
        |sink| {
            sink.array_new_data(1, 300);
        },
        fallible::Instruction::ArrayNewData { array_type_index: 1, array_data_index: 300 },
    );
    check(
        "fb0a01ac02",
        Instruction::ArrayNewElem { array_type_index: 1, array_elem_index: 300 },
        |sink| {
            sink.array_new_elem(1, 300);
        },
        fallible::Instruction::ArrayNewElem { array_type_index: 1, array_elem_index: 300 },
    );
    check(
        "fb0bac02",
        Instruction::ArrayGet(300),
        |sink| {
            sink.array_get(300);
        },
        fallible::Instruction::ArrayGet(300),
    );
    check(
        "fb0cac02",
        Instruction::ArrayGetS(300),
        |sink| {
            sink.array_get_s(300);
        },
        fallible::Instruction::ArrayGetS(300),
    );
    check(
        "fb0dac02",
        Instruction::ArrayGetU(300),
        |sink| {
            sink.array_get_u(300);
        },
        fallible::Instruction::ArrayGetU(300),
    );
    check(
        "fb0eac02",
        Instruction::ArraySet(300),
        |sink| {
            sink.array_set(300);
        },
        fallible::Instruction::ArraySet(300),
    );
    check(
        "fb0f",
        Instruction::ArrayLen,
        |sink| {
            sink.array_len();
        },
        fallible::Instruction::Aggregate(fallible::Aggregate::ArrayLen),
    );
    check(
        "fb10ac02",
        Instruction::ArrayFill(300),
        |sink| {
            sink.array_fill(300);
        },
        fallible::Instruction::ArrayFill(300),
    );
    check(
        "fb1101ac02",
        Instruction::ArrayCopy { array_type_index_dst: 1, array_type_index_src: 300 },
        |sink| {
            sink.array_copy(1, 300);
        },
        fallible::Instruction::ArrayCopy { array_type_index_dst: 1, array_type_index_src: 300 },
    );
    check(
        "fb1201ac02",
        Instruction::ArrayInitData { array_type_index: 1, array_data_index: 300 },
        |sink| {
            sink.array_init_data(1, 300);
        },
        fallible::Instruction::ArrayInitData { array_type_index: 1, array_data_index: 300 },
    );
    check(
        "fb1301ac02",
        Instruction::ArrayInitElem { array_type_index: 1, array_elem_index: 300 },
        |sink| {
            sink.array_init_elem(1, 300);
        },
        fallible::Instruction::ArrayInitElem { array_type_index: 1, array_elem_index: 300 },
    );
    check(
        "fb14c000",
        Instruction::RefTestNonNull(HeapType::Concrete(64)),
        |sink| {
            sink.ref_test_non_null(HeapType::Concrete(64));
        },
        fallible::Instruction::RefTestNonNull(HeapType::Concrete(64)),
    );
    check(
        "fb15c000",
        Instruction::RefTestNullable(HeapType::Concrete(64)),
        |sink| {
            sink.ref_test_nullable(HeapType::Concrete(64));
        },
        fallible::Instruction::RefTestNullable(HeapType::Concrete(64)),
    );
    check(
        "fb16c000",
        Instruction::RefCastNonNull(HeapType::Concrete(64)),
        |sink| {
            sink.ref_cast_non_null(HeapType::Concrete(64));
        },
        fallible::Instruction::RefCastNonNull(HeapType::Concrete(64)),
    );
    check(
        "fb17c000",
        Instruction::RefCastNullable(HeapType::Concrete(64)),
        |sink| {
            sink.ref_cast_nullable(HeapType::Concrete(64));
        },
        fallible::Instruction::RefCastNullable(HeapType::Concrete(64)),
    );
    check(
        "fb1801016e6d",
        Instruction::BrOnCast { relative_depth: 1, from_ref_type: RefType { nullable: true, heap_type: HeapType::Abstract { shared: false, ty: AbstractHeapType::Any } }, to_ref_type: RefType { nullable: false, heap_type: HeapType::Abstract { shared: false, ty: AbstractHeapType::Eq } } },
        |sink| {
            sink.br_on_cast(1, RefType { nullable: true, heap_type: HeapType::Abstract { shared: false, ty: AbstractHeapType::Any } }, RefType { nullable: false, heap_type: HeapType::Abstract { shared: false, ty: AbstractHeapType::Eq } });
        },
        fallible::Instruction::BrOnCast { relative_depth: 1, from_ref_type: RefType { nullable: true, heap_type: HeapType::Abstract { shared: false, ty: AbstractHeapType::Any } }, to_ref_type: RefType { nullable: false, heap_type: HeapType::Abstract { shared: false, ty: AbstractHeapType::Eq } } },
    );
    check(
        "fb1901016e6d",
        Instruction::BrOnCastFail { relative_depth: 1, from_ref_type: RefType { nullable: true, heap_type: HeapType::Abstract { shared: false, ty: AbstractHeapType::Any } }, to_ref_type: RefType { nullable: false, heap_type: HeapType::Abstract { shared: false, ty: AbstractHeapType::Eq } } },
        |sink| {
            sink.br_on_cast_fail(1, RefType { nullable: true, heap_type: HeapType::Abstract { shared: false, ty: AbstractHeapType::Any } }, RefType { nullable: false, heap_type: HeapType::Abstract { shared: false, ty: AbstractHeapType::Eq } });
        },
        fallible::Instruction::BrOnCastFail { relative_depth: 1, from_ref_type: RefType { nullable: true, heap_type: HeapType::Abstract { shared: false, ty: AbstractHeapType::Any } }, to_ref_type: RefType { nullable: false, heap_type: HeapType::Abstract { shared: false, ty: AbstractHeapType::Eq } } },
    );
    check(
        "fb1a",
        Instruction::AnyConvertExtern,
        |sink| {
            sink.any_convert_extern();
        },
        fallible::Instruction::Aggregate(fallible::Aggregate::AnyConvertExtern),
    );
    check(
        "fb1b",
        Instruction::ExternConvertAny,
        |sink| {
            sink.extern_convert_any();
        },
        fallible::Instruction::Aggregate(fallible::Aggregate::ExternConvertAny),
    );
    check(
        "fb1c",
        Instruction::RefI31,
        |sink| {
            sink.ref_i31();
        },
        fallible::Instruction::Aggregate(fallible::Aggregate::RefI31),
    );
    check(
        "fb1d",
        Instruction::I31GetS,
        |sink| {
            sink.i31_get_s();
        },
        fallible::Instruction::Aggregate(fallible::Aggregate::I31GetS),
    );
    check(
        "fb1e",
        Instruction::I31GetU,
        |sink| {
            sink.i31_get_u();
        },
        fallible::Instruction::Aggregate(fallible::Aggregate::I31GetU),
    );
    check(
        "fb20ac02",
        Instruction::StructNewDesc(300),
        |sink| {
            sink.struct_new_desc(300);
        },
        fallible::Instruction::StructNewDesc(300),
    );
    check(
        "fb21ac02",
        Instruction::StructNewDefaultDesc(300),
        |sink| {
            sink.struct_new_default_desc(300);
        },
        fallible::Instruction::StructNewDefaultDesc(300),
    );
    check(
        "fb22ac02",
        Instruction::RefGetDesc(300),
        |sink| {
            sink.ref_get_desc(300);
        },
        fallible::Instruction::RefGetDesc(300),
    );
    check(
        "fb23c000",
        Instruction::RefCastDescEqNonNull(HeapType::Concrete(64)),
        |sink| {
            sink.ref_cast_desc_eq_non_null(HeapType::Concrete(64));
        },
        fallible::Instruction::RefCastDescEqNonNull(HeapType::Concrete(64)),
    );
    check(
        "fb24c000",
        Instruction::RefCastDescEqNullable(HeapType::Concrete(64)),
        |sink| {
            sink.ref_cast_desc_eq_nullable(HeapType::Concrete(64));
        },
        fallible::Instruction::RefCastDescEqNullable(HeapType::Concrete(64)),
    );
    check(
        "fb2501016e6d",
        Instruction::BrOnCastDescEq { relative_depth: 1, from_ref_type: RefType { nullable: true, heap_type: HeapType::Abstract { shared: false, ty: AbstractHeapType::Any } }, to_ref_type: RefType { nullable: false, heap_type: HeapType::Abstract { shared: false, ty: AbstractHeapType::Eq } } },
        |sink| {
            sink.br_on_cast_desc_eq(1, RefType { nullable: true, heap_type: HeapType::Abstract { shared: false, ty: AbstractHeapType::Any } }, RefType { nullable: false, heap_type: HeapType::Abstract { shared: false, ty: AbstractHeapType::Eq } });
        },
        fallible::Instruction::BrOnCastDescEq { relative_depth: 1, from_ref_type: RefType { nullable: true, heap_type: HeapType::Abstract { shared: false, ty: AbstractHeapType::Any } }, to_ref_type: RefType { nullable: false, heap_type: HeapType::Abstract { shared: false, ty: AbstractHeapType::Eq } } },
    );
    check(
        "fb2601016e6d",
        Instruction::BrOnCastDescEqFail { relative_depth: 1, from_ref_type: RefType { nullable: true, heap_type: HeapType::Abstract { shared: false, ty: AbstractHeapType::Any } }, to_ref_type: RefType { nullable: false, heap_type: HeapType::Abstract { shared: false, ty: AbstractHeapType::Eq } } },
        |sink| {
            sink.br_on_cast_desc_eq_fail(1, RefType { nullable: true, heap_type: HeapType::Abstract { shared: false, ty: AbstractHeapType::Any } }, RefType { nullable: false, heap_type: HeapType::Abstract { shared: false, ty: AbstractHeapType::Eq } });
        },
        fallible::Instruction::BrOnCastDescEqFail { relative_depth: 1, from_ref_type: RefType { nullable: true, heap_type: HeapType::Abstract { shared: false, ty: AbstractHeapType::Any } }, to_ref_type: RefType { nullable: false, heap_type: HeapType::Abstract { shared: false, ty: AbstractHeapType::Eq } } },
    );
    check(
        "fc00",
        Instruction::I32TruncSatF32S,
        |sink| {
            sink.i32_trunc_sat_f32_s();
        },
        fallible::Instruction::PrefixedNumeric(fallible::PrefixedNumeric::I32TruncSatF32S),
    );
    check(
        "fc01",
        Instruction::I32TruncSatF32U,
        |sink| {
            sink.i32_trunc_sat_f32_u();
        },
        fallible::Instruction::PrefixedNumeric(fallible::PrefixedNumeric::I32TruncSatF32U),
    );
    check(
        "fc02",
        Instruction::I32TruncSatF64S,
        |sink| {
            sink.i32_trunc_sat_f64_s();
        },
        fallible::Instruction::PrefixedNumeric(fallible::PrefixedNumeric::I32TruncSatF64S),
    );
    check(
        "fc03",
        Instruction::I32TruncSatF64U,
        |sink| {
            sink.i32_trunc_sat_f64_u();
        },
        fallible::Instruction::PrefixedNumeric(fallible::PrefixedNumeric::I32TruncSatF64U),
    );
    check(
        "fc04",
        Instruction::I64TruncSatF32S,
        |sink| {
            sink.i64_trunc_sat_f32_s();
        },
        fallible::Instruction::PrefixedNumeric(fallible::PrefixedNumeric::I64TruncSatF32S),
    );
}

/// The cases from the line 251 of the table on.
fn from_250() {
    check(
        "fc05",
        Instruction::I64TruncSatF32U,
        |sink| {
            sink.i64_trunc_sat_f32_u();
        },
        fallible::Instruction::PrefixedNumeric(fallible::PrefixedNumeric::I64TruncSatF32U),
    );
    check(
        "fc06",
        Instruction::I64TruncSatF64S,
        |sink| {
            sink.i64_trunc_sat_f64_s();
        },
        fallible::Instruction::PrefixedNumeric(fallible::PrefixedNumeric::I64TruncSatF64S),
    );
    check(
        "fc07",
        Instruction::I64TruncSatF64U,
        |sink| {
            sink.i64_trunc_sat_f64_u();
        },
        fallible::Instruction::PrefixedNumeric(fallible::PrefixedNumeric::I64TruncSatF64U),
    );
    check(
        "fc0801ac02",
        Instruction::MemoryInit { data_index: 1, mem: 300 },
        |sink| {
            sink.memory_init(300, 1);
        },
        fallible::Instruction::MemoryInit { data_index: 1, mem: 300 },
    );
    check(
        "fc09ac02",
        Instruction::DataDrop(300),
        |sink| {
            sink.data_drop(300);
        },
        fallible::Instruction::DataDrop(300),
    );
    check(
        "fc0a01ac02",
        Instruction::MemoryCopy { dst_mem: 1, src_mem: 300 },
        |sink| {
            sink.memory_copy(1, 300);
        },
        fallible::Instruction::MemoryCopy { dst_mem: 1, src_mem: 300 },
    );
    check(
        "fc0bac02",
        Instruction::MemoryFill(300),
        |sink| {
            sink.memory_fill(300);
        },
        fallible::Instruction::MemoryFill(300),
    );
    check(
        "fc0c01ac02",
        Instruction::TableInit { elem_index: 1, table: 300 },
        |sink| {
            sink.table_init(300, 1);
        },
        fallible::Instruction::TableInit { elem_index: 1, table: 300 },
    );
    check(
        "fc0dac02",
        Instruction::ElemDrop(300),
        |sink| {
            sink.elem_drop(300);
        },
        fallible::Instruction::ElemDrop(300),
    );
    check(
        "fc0e01ac02",
        Instruction::TableCopy { dst_table: 1, src_table: 300 },
        |sink| {
            sink.table_copy(1, 300);
        },
        fallible::Instruction::TableCopy { dst_table: 1, src_table: 300 },
    );
    check(
        "fc0fac02",
        Instruction::TableGrow(300),
        |sink| {
            sink.table_grow(300);
        },
        fallible::Instruction::TableGrow(300),
    );
    check(
        "fc10ac02",
        Instruction::TableSize(300),
        |sink| {
            sink.table_size(300);
        },
        fallible::Instruction::TableSize(300),
    );
    check(
        "fc11ac02",
        Instruction::TableFill(300),
        |sink| {
            sink.table_fill(300);
        },
        fallible::Instruction::TableFill(300),
    );
    check(
        "fc12ac02",
        Instruction::MemoryDiscard(300),
        |sink| {
            sink.memory_discard(300);
        },
        fallible::Instruction::MemoryDiscard(300),
    );
    check(
        "fc13",
        Instruction::I64Add128,
        |sink| {
            sink.i64_add128();
        },
        fallible::Instruction::PrefixedNumeric(fallible::PrefixedNumeric::I64Add128),
    );
    check(
        "fc14",
        Instruction::I64Sub128,
        |sink| {
            sink.i64_sub128();
        },
        fallible::Instruction::PrefixedNumeric(fallible::PrefixedNumeric::I64Sub128),
    );
    check(
        "fc15",
        Instruction::I64MulWideS,
        |sink| {
            sink.i64_mul_wide_s();
        },
        fallible::Instruction::PrefixedNumeric(fallible::PrefixedNumeric::I64MulWideS),
    );
    check(
        "fc16",
        Instruction::I64MulWideU,
        |sink| {
            sink.i64_mul_wide_u();
        },
        fallible::Instruction::PrefixedNumeric(fallible::PrefixedNumeric::I64MulWideU),
    );
    check(
        "fd004201ac02",
        Instruction::V128Load(MEMARG),
        |sink| {
            sink.v128_load(MEMARG);
        },
        fallible::Instruction::VectorImmediate(fallible::VectorImmediate::V128Load(MEMARG)),
    );
    check(
        "fd014201ac02",
        Instruction::V128Load8x8S(MEMARG),
        |sink| {
            sink.v128_load8x8_s(MEMARG);
        },
        fallible::Instruction::VectorImmediate(fallible::VectorImmediate::V128Load8x8S(MEMARG)),
    );
    check(
        "fd024201ac02",
        Instruction::V128Load8x8U(MEMARG),
        |sink| {
            sink.v128_load8x8_u(MEMARG);
        },
        fallible::Instruction::VectorImmediate(fallible::VectorImmediate::V128Load8x8U(MEMARG)),
    );
    check(
        "fd034201ac02",
        Instruction::V128Load16x4S(MEMARG),
        |sink| {
            sink.v128_load16x4_s(MEMARG);
        },
        fallible::Instruction::VectorImmediate(fallible::VectorImmediate::V128Load16x4S(MEMARG)),
    );
    check(
        "fd044201ac02",
        Instruction::V128Load16x4U(MEMARG),
        |sink| {
            sink.v128_load16x4_u(MEMARG);
        },
        fallible::Instruction::VectorImmediate(fallible::VectorImmediate::V128Load16x4U(MEMARG)),
    );
    check(
        "fd054201ac02",
        Instruction::V128Load32x2S(MEMARG),
        |sink| {
            sink.v128_load32x2_s(MEMARG);
        },
        fallible::Instruction::VectorImmediate(fallible::VectorImmediate::V128Load32x2S(MEMARG)),
    );
    check(
        "fd064201ac02",
        Instruction::V128Load32x2U(MEMARG),
        |sink| {
            sink.v128_load32x2_u(MEMARG);
        },
        fallible::Instruction::VectorImmediate(fallible::VectorImmediate::V128Load32x2U(MEMARG)),
    );
    check(
        "fd074201ac02",
        Instruction::V128Load8Splat(MEMARG),
        |sink| {
            sink.v128_load8_splat(MEMARG);
        },
        fallible::Instruction::VectorImmediate(fallible::VectorImmediate::V128Load8Splat(MEMARG)),
    );
    check(
        "fd084201ac02",
        Instruction::V128Load16Splat(MEMARG),
        |sink| {
            sink.v128_load16_splat(MEMARG);
        },
        fallible::Instruction::VectorImmediate(fallible::VectorImmediate::V128Load16Splat(MEMARG)),
    );
    check(
        "fd094201ac02",
        Instruction::V128Load32Splat(MEMARG),
        |sink| {
            sink.v128_load32_splat(MEMARG);
        },
        fallible::Instruction::VectorImmediate(fallible::VectorImmediate::V128Load32Splat(MEMARG)),
    );
    check(
        "fd0a4201ac02",
        Instruction::V128Load64Splat(MEMARG),
        |sink| {
            sink.v128_load64_splat(MEMARG);
        },
        fallible::Instruction::VectorImmediate(fallible::VectorImmediate::V128Load64Splat(MEMARG)),
    );
    check(
        "fd0b4201ac02",
        Instruction::V128Store(MEMARG),
        |sink| {
            sink.v128_store(MEMARG);
        },
        fallible::Instruction::VectorImmediate(fallible::VectorImmediate::V128Store(MEMARG)),
    );
    check(
        "fd0cfeffffffffffffffffffffffffffffff",
        Instruction::V128Const(-2),
        |sink| {
            sink.v128_const(-2);
        },
        fallible::Instruction::VectorImmediate(fallible::VectorImmediate::V128Const(-2)),
    );
    check(
        "fd0d000102030405060708090a0b0c0d0e0f",
        Instruction::I8x16Shuffle([0, 1, 2, 3, 4, 5, 6, 7, 8, 9, 10, 11, 12, 13, 14, 15]),
        |sink| {
            sink.i8x16_shuffle([0, 1, 2, 3, 4, 5, 6, 7, 8, 9, 10, 11, 12, 13, 14, 15]);
        },
        fallible::Instruction::VectorImmediate(fallible::VectorImmediate::I8x16Shuffle([0, 1, 2, 3, 4, 5, 6, 7, 8, 9, 10, 11, 12, 13, 14, 15])),
    );
    check(
        "fd0e",
        Instruction::I8x16Swizzle,
        |sink| {
            sink.i8x16_swizzle();
        },
        fallible::Instruction::Vector(fallible::Vector::I8x16Swizzle),
    );
    check(
        "fd0f",
        Instruction::I8x16Splat,
        |sink| {
            sink.i8x16_splat();
        },
        fallible::Instruction::Vector(fallible::Vector::I8x16Splat),
    );
    check(
        "fd10",
        Instruction::I16x8Splat,
        |sink| {
            sink.i16x8_splat();
        },
        fallible::Instruction::Vector(fallible::Vector::I16x8Splat),
    );
    check(
        "fd11",
        Instruction::I32x4Splat,
        |sink| {
            sink.i32x4_splat();
        },
        fallible::Instruction::Vector(fallible::Vector::I32x4Splat),
    );
    check(
        "fd12",
        Instruction::I64x2Splat,
        |sink| {
            sink.i64x2_splat();
        },
        fallible::Instruction::Vector(fallible::Vector::I64x2Splat),
    );
    check(
        "fd13",
        Instruction::F32x4Splat,
        |sink| {
            sink.f32x4_splat();
        },
        fallible::Instruction::Vector(fallible::Vector::F32x4Splat),
    );
    check(
        "fd14",
        Instruction::F64x2Splat,
        |sink| {
            sink.f64x2_splat();
        },
        fallible::Instruction::Vector(fallible::Vector::F64x2Splat),
    );
    check(
        "fd1503",
        Instruction::I8x16ExtractLaneS(3),
        |sink| {
            sink.i8x16_extract_lane_s(3);
        },
        fallible::Instruction::VectorImmediate(fallible::VectorImmediate::I8x16ExtractLaneS(3)),
    );
    check(
        "fd1603",
        Instruction::I8x16ExtractLaneU(3),
        |sink| {
            sink.i8x16_extract_lane_u(3);
        },
        fallible::Instruction::VectorImmediate(fallible::VectorImmediate::I8x16ExtractLaneU(3)),
    );
    check(
        "fd1703",
        Instruction::I8x16ReplaceLane(3),
        |sink| {
            sink.i8x16_replace_lane(3);
        },
        fallible::Instruction::VectorImmediate(fallible::VectorImmediate::I8x16ReplaceLane(3)),
    );
    check(
        "fd1803",
        Instruction::I16x8ExtractLaneS(3),
        |sink| {
            sink.i16x8_extract_lane_s(3);
        },
        fallible::Instruction::VectorImmediate(fallible::VectorImmediate::I16x8ExtractLaneS(3)),
    );
    check(
        "fd1903",
        Instruction::I16x8ExtractLaneU(3),
        |sink| {
            sink.i16x8_extract_lane_u(3);
        },
        fallible::Instruction::VectorImmediate(fallible::VectorImmediate::I16x8ExtractLaneU(3)),
    );
    check(
        "fd1a03",
        Instruction::I16x8ReplaceLane(3),
        |sink| {
            sink.i16x8_replace_lane(3);
        },
        fallible::Instruction::VectorImmediate(fallible::VectorImmediate::I16x8ReplaceLane(3)),
    );
    check(
        "fd1b03",
        Instruction::I32x4ExtractLane(3),
        |sink| {
            sink.i32x4_extract_lane(3);
        },
        fallible::Instruction::VectorImmediate(fallible::VectorImmediate::I32x4ExtractLane(3)),
    );
    check(
        "fd1c03",
        Instruction::I32x4ReplaceLane(3),
        |sink| {
            sink.i32x4_replace_lane(3);
        },
        fallible::Instruction::VectorImmediate(fallible::VectorImmediate::I32x4ReplaceLane(3)),
    );
    check(
        "fd1d03",
        Instruction::I64x2ExtractLane(3),
        |sink| {
            sink.i64x2_extract_lane(3);
        },
        fallible::Instruction::VectorImmediate(fallible::VectorImmediate::I64x2ExtractLane(3)),
    );
    check(
        "fd1e03",
        Instruction::I64x2ReplaceLane(3),
        |sink| {
            sink.i64x2_replace_lane(3);
        },
        fallible::Instruction::VectorImmediate(fallible::VectorImmediate::I64x2ReplaceLane(3)),
    );
    check(
        "fd1f03",
        Instruction::F32x4ExtractLane(3),
        |sink| {
            sink.f32x4_extract_lane(3);
        },
        fallible::Instruction::VectorImmediate(fallible::VectorImmediate::F32x4ExtractLane(3)),
    );
}

/// The cases from the line 301 of the table on.
fn from_300() {
    check(
        "fd2003",
        Instruction::F32x4ReplaceLane(3),
        |sink| {
            sink.f32x4_replace_lane(3);
        },
        fallible::Instruction::VectorImmediate(fallible::VectorImmediate::F32x4ReplaceLane(3)),
    );
    check(
        "fd2103",
        Instruction::F64x2ExtractLane(3),
        |sink| {
            sink.f64x2_extract_lane(3);
        },
        fallible::Instruction::VectorImmediate(fallible::VectorImmediate::F64x2ExtractLane(3)),
    );
    check(
        "fd2203",
        Instruction::F64x2ReplaceLane(3),
        |sink| {
            sink.f64x2_replace_lane(3);
        },
        fallible::Instruction::VectorImmediate(fallible::VectorImmediate::F64x2ReplaceLane(3)),
    );
    check(
        "fd23",
        Instruction::I8x16Eq,
        |sink| {
            sink.i8x16_eq();
        },
        fallible::Instruction::Vector(fallible::Vector::I8x16Eq),
    );
    check(
        "fd24",
        Instruction::I8x16Ne,
        |sink| {
            sink.i8x16_ne();
        },
        fallible::Instruction::Vector(fallible::Vector::I8x16Ne),
    );
    check(
        "fd25",
        Instruction::I8x16LtS,
        |sink| {
            sink.i8x16_lt_s();
        },
        fallible::Instruction::Vector(fallible::Vector::I8x16LtS),
    );
    check(
        "fd26",
        Instruction::I8x16LtU,
        |sink| {
            sink.i8x16_lt_u();
        },
        fallible::Instruction::Vector(fallible::Vector::I8x16LtU),
    );
    check(
        "fd27",
        Instruction::I8x16GtS,
        |sink| {
            sink.i8x16_gt_s();
        },
        fallible::Instruction::Vector(fallible::Vector::I8x16GtS),
    );
    check(
        "fd28",
        Instruction::I8x16GtU,
        |sink| {
            sink.i8x16_gt_u();
        },
        fallible::Instruction::Vector(fallible::Vector::I8x16GtU),
    );
    check(
        "fd29",
        Instruction::I8x16LeS,
        |sink| {
            sink.i8x16_le_s();
        },
        fallible::Instruction::Vector(fallible::Vector::I8x16LeS),
    );
    check(
        "fd2a",
        Instruction::I8x16LeU,
        |sink| {
            sink.i8x16_le_u();
        },
        fallible::Instruction::Vector(fallible::Vector::I8x16LeU),
    );
    check(
        "fd2b",
        Instruction::I8x16GeS,
        |sink| {
            sink.i8x16_ge_s();
        },
        fallible::Instruction::Vector(fallible::Vector::I8x16GeS),
    );
    check(
        "fd2c",
        Instruction::I8x16GeU,
        |sink| {
            sink.i8x16_ge_u();
        },
        fallible::Instruction::Vector(fallible::Vector::I8x16GeU),
    );
    check(
        "fd2d",
        Instruction::I16x8Eq,
        |sink| {
            sink.i16x8_eq();
        },
        fallible::Instruction::Vector(fallible::Vector::I16x8Eq),
    );
    check(
        "fd2e",
        Instruction::I16x8Ne,
        |sink| {
            sink.i16x8_ne();
        },
        fallible::Instruction::Vector(fallible::Vector::I16x8Ne),
    );
    check(
        "fd2f",
        Instruction::I16x8LtS,
        |sink| {
            sink.i16x8_lt_s();
        },
        fallible::Instruction::Vector(fallible::Vector::I16x8LtS),
    );
    check(
        "fd30",
        Instruction::I16x8LtU,
        |sink| {
            sink.i16x8_lt_u();
        },
        fallible::Instruction::Vector(fallible::Vector::I16x8LtU),
    );
    check(
        "fd31",
        Instruction::I16x8GtS,
        |sink| {
            sink.i16x8_gt_s();
        },
        fallible::Instruction::Vector(fallible::Vector::I16x8GtS),
    );
    check(
        "fd32",
        Instruction::I16x8GtU,
        |sink| {
            sink.i16x8_gt_u();
        },
        fallible::Instruction::Vector(fallible::Vector::I16x8GtU),
    );
    check(
        "fd33",
        Instruction::I16x8LeS,
        |sink| {
            sink.i16x8_le_s();
        },
        fallible::Instruction::Vector(fallible::Vector::I16x8LeS),
    );
    check(
        "fd34",
        Instruction::I16x8LeU,
        |sink| {
            sink.i16x8_le_u();
        },
        fallible::Instruction::Vector(fallible::Vector::I16x8LeU),
    );
    check(
        "fd35",
        Instruction::I16x8GeS,
        |sink| {
            sink.i16x8_ge_s();
        },
        fallible::Instruction::Vector(fallible::Vector::I16x8GeS),
    );
    check(
        "fd36",
        Instruction::I16x8GeU,
        |sink| {
            sink.i16x8_ge_u();
        },
        fallible::Instruction::Vector(fallible::Vector::I16x8GeU),
    );
    check(
        "fd37",
        Instruction::I32x4Eq,
        |sink| {
            sink.i32x4_eq();
        },
        fallible::Instruction::Vector(fallible::Vector::I32x4Eq),
    );
    check(
        "fd38",
        Instruction::I32x4Ne,
        |sink| {
            sink.i32x4_ne();
        },
        fallible::Instruction::Vector(fallible::Vector::I32x4Ne),
    );
    check(
        "fd39",
        Instruction::I32x4LtS,
        |sink| {
            sink.i32x4_lt_s();
        },
        fallible::Instruction::Vector(fallible::Vector::I32x4LtS),
    );
    check(
        "fd3a",
        Instruction::I32x4LtU,
        |sink| {
            sink.i32x4_lt_u();
        },
        fallible::Instruction::Vector(fallible::Vector::I32x4LtU),
    );
    check(
        "fd3b",
        Instruction::I32x4GtS,
        |sink| {
            sink.i32x4_gt_s();
        },
        fallible::Instruction::Vector(fallible::Vector::I32x4GtS),
    );
    check(
        "fd3c",
        Instruction::I32x4GtU,
        |sink| {
            sink.i32x4_gt_u();
        },
        fallible::Instruction::Vector(fallible::Vector::I32x4GtU),
    );
    check(
        "fd3d",
        Instruction::I32x4LeS,
        |sink| {
            sink.i32x4_le_s();
        },
        fallible::Instruction::Vector(fallible::Vector::I32x4LeS),
    );
    check(
        "fd3e",
        Instruction::I32x4LeU,
        |sink| {
            sink.i32x4_le_u();
        },
        fallible::Instruction::Vector(fallible::Vector::I32x4LeU),
    );
    check(
        "fd3f",
        Instruction::I32x4GeS,
        |sink| {
            sink.i32x4_ge_s();
        },
        fallible::Instruction::Vector(fallible::Vector::I32x4GeS),
    );
    check(
        "fd40",
        Instruction::I32x4GeU,
        |sink| {
            sink.i32x4_ge_u();
        },
        fallible::Instruction::Vector(fallible::Vector::I32x4GeU),
    );
    check(
        "fd41",
        Instruction::F32x4Eq,
        |sink| {
            sink.f32x4_eq();
        },
        fallible::Instruction::Vector(fallible::Vector::F32x4Eq),
    );
    check(
        "fd42",
        Instruction::F32x4Ne,
        |sink| {
            sink.f32x4_ne();
        },
        fallible::Instruction::Vector(fallible::Vector::F32x4Ne),
    );
    check(
        "fd43",
        Instruction::F32x4Lt,
        |sink| {
            sink.f32x4_lt();
        },
        fallible::Instruction::Vector(fallible::Vector::F32x4Lt),
    );
    check(
        "fd44",
        Instruction::F32x4Gt,
        |sink| {
            sink.f32x4_gt();
        },
        fallible::Instruction::Vector(fallible::Vector::F32x4Gt),
    );
    check(
        "fd45",
        Instruction::F32x4Le,
        |sink| {
            sink.f32x4_le();
        },
        fallible::Instruction::Vector(fallible::Vector::F32x4Le),
    );
    check(
        "fd46",
        Instruction::F32x4Ge,
        |sink| {
            sink.f32x4_ge();
        },
        fallible::Instruction::Vector(fallible::Vector::F32x4Ge),
    );
    check(
        "fd47",
        Instruction::F64x2Eq,
        |sink| {
            sink.f64x2_eq();
        },
        fallible::Instruction::Vector(fallible::Vector::F64x2Eq),
    );
    check(
        "fd48",
        Instruction::F64x2Ne,
        |sink| {
            sink.f64x2_ne();
        },
        fallible::Instruction::Vector(fallible::Vector::F64x2Ne),
    );
    check(
        "fd49",
        Instruction::F64x2Lt,
        |sink| {
            sink.f64x2_lt();
        },
        fallible::Instruction::Vector(fallible::Vector::F64x2Lt),
    );
    check(
        "fd4a",
        Instruction::F64x2Gt,
        |sink| {
            sink.f64x2_gt();
        },
        fallible::Instruction::Vector(fallible::Vector::F64x2Gt),
    );
    check(
        "fd4b",
        Instruction::F64x2Le,
        |sink| {
            sink.f64x2_le();
        },
        fallible::Instruction::Vector(fallible::Vector::F64x2Le),
    );
    check(
        "fd4c",
        Instruction::F64x2Ge,
        |sink| {
            sink.f64x2_ge();
        },
        fallible::Instruction::Vector(fallible::Vector::F64x2Ge),
    );
    check(
        "fd4d",
        Instruction::V128Not,
        |sink| {
            sink.v128_not();
        },
        fallible::Instruction::Vector(fallible::Vector::V128Not),
    );
    check(
        "fd4e",
        Instruction::V128And,
        |sink| {
            sink.v128_and();
        },
        fallible::Instruction::Vector(fallible::Vector::V128And),
    );
    check(
        "fd4f",
        Instruction::V128AndNot,
        |sink| {
            sink.v128_andnot();
        },
        fallible::Instruction::Vector(fallible::Vector::V128AndNot),
    );
    check(
        "fd50",
        Instruction::V128Or,
        |sink| {
            sink.v128_or();
        },
        fallible::Instruction::Vector(fallible::Vector::V128Or),
    );
    check(
        "fd51",
        Instruction::V128Xor,
        |sink| {
            sink.v128_xor();
        },
        fallible::Instruction::Vector(fallible::Vector::V128Xor),
    );
}

/// The cases from the line 351 of the table on.
fn from_350() {
    check(
        "fd52",
        Instruction::V128Bitselect,
        |sink| {
            sink.v128_bitselect();
        },
        fallible::Instruction::Vector(fallible::Vector::V128Bitselect),
    );
    check(
        "fd53",
        Instruction::V128AnyTrue,
        |sink| {
            sink.v128_any_true();
        },
        fallible::Instruction::Vector(fallible::Vector::V128AnyTrue),
    );
    check(
        "fd544201ac0203",
        Instruction::V128Load8Lane { memarg: MEMARG, lane: 3 },
        |sink| {
            sink.v128_load8_lane(MEMARG, 3);
        },
        fallible::Instruction::VectorImmediate(fallible::VectorImmediate::V128Load8Lane { memarg: MEMARG, lane: 3 }),
    );
    check(
        "fd554201ac0203",
        Instruction::V128Load16Lane { memarg: MEMARG, lane: 3 },
        |sink| {
            sink.v128_load16_lane(MEMARG, 3);
        },
        fallible::Instruction::VectorImmediate(fallible::VectorImmediate::V128Load16Lane { memarg: MEMARG, lane: 3 }),
    );
    check(
        "fd564201ac0203",
        Instruction::V128Load32Lane { memarg: MEMARG, lane: 3 },
        |sink| {
            sink.v128_load32_lane(MEMARG, 3);
        },
        fallible::Instruction::VectorImmediate(fallible::VectorImmediate::V128Load32Lane { memarg: MEMARG, lane: 3 }),
    );
    check(
        "fd574201ac0203",
        Instruction::V128Load64Lane { memarg: MEMARG, lane: 3 },
        |sink| {
            sink.v128_load64_lane(MEMARG, 3);
        },
        fallible::Instruction::VectorImmediate(fallible::VectorImmediate::V128Load64Lane { memarg: MEMARG, lane: 3 }),
    );
    check(
        "fd584201ac0203",
        Instruction::V128Store8Lane { memarg: MEMARG, lane: 3 },
        |sink| {
            sink.v128_store8_lane(MEMARG, 3);
        },
        fallible::Instruction::VectorImmediate(fallible::VectorImmediate::V128Store8Lane { memarg: MEMARG, lane: 3 }),
    );
    check(
        "fd594201ac0203",
        Instruction::V128Store16Lane { memarg: MEMARG, lane: 3 },
        |sink| {
            sink.v128_store16_lane(MEMARG, 3);
        },
        fallible::Instruction::VectorImmediate(fallible::VectorImmediate::V128Store16Lane { memarg: MEMARG, lane: 3 }),
    );
    check(
        "fd5a4201ac0203",
        Instruction::V128Store32Lane { memarg: MEMARG, lane: 3 },
        |sink| {
            sink.v128_store32_lane(MEMARG, 3);
        },
        fallible::Instruction::VectorImmediate(fallible::VectorImmediate::V128Store32Lane { memarg: MEMARG, lane: 3 }),
    );
    check(
        "fd5b4201ac0203",
        Instruction::V128Store64Lane { memarg: MEMARG, lane: 3 },
        |sink| {
            sink.v128_store64_lane(MEMARG, 3);
        },
        fallible::Instruction::VectorImmediate(fallible::VectorImmediate::V128Store64Lane { memarg: MEMARG, lane: 3 }),
    );
    check(
        "fd5c4201ac02",
        Instruction::V128Load32Zero(MEMARG),
        |sink| {
            sink.v128_load32_zero(MEMARG);
        },
        fallible::Instruction::VectorImmediate(fallible::VectorImmediate::V128Load32Zero(MEMARG)),
    );
    check(
        "fd5d4201ac02",
        Instruction::V128Load64Zero(MEMARG),
        |sink| {
            sink.v128_load64_zero(MEMARG);
        },
        fallible::Instruction::VectorImmediate(fallible::VectorImmediate::V128Load64Zero(MEMARG)),
    );
    check(
        "fd5e",
        Instruction::F32x4DemoteF64x2Zero,
        |sink| {
            sink.f32x4_demote_f64x2_zero();
        },
        fallible::Instruction::Vector(fallible::Vector::F32x4DemoteF64x2Zero),
    );
    check(
        "fd5f",
        Instruction::F64x2PromoteLowF32x4,
        |sink| {
            sink.f64x2_promote_low_f32x4();
        },
        fallible::Instruction::Vector(fallible::Vector::F64x2PromoteLowF32x4),
    );
    check(
        "fd60",
        Instruction::I8x16Abs,
        |sink| {
            sink.i8x16_abs();
        },
        fallible::Instruction::Vector(fallible::Vector::I8x16Abs),
    );
    check(
        "fd61",
        Instruction::I8x16Neg,
        |sink| {
            sink.i8x16_neg();
        },
        fallible::Instruction::Vector(fallible::Vector::I8x16Neg),
    );
    check(
        "fd62",
        Instruction::I8x16Popcnt,
        |sink| {
            sink.i8x16_popcnt();
        },
        fallible::Instruction::Vector(fallible::Vector::I8x16Popcnt),
    );
    check(
        "fd63",
        Instruction::I8x16AllTrue,
        |sink| {
            sink.i8x16_all_true();
        },
        fallible::Instruction::Vector(fallible::Vector::I8x16AllTrue),
    );
    check(
        "fd64",
        Instruction::I8x16Bitmask,
        |sink| {
            sink.i8x16_bitmask();
        },
        fallible::Instruction::Vector(fallible::Vector::I8x16Bitmask),
    );
    check(
        "fd65",
        Instruction::I8x16NarrowI16x8S,
        |sink| {
            sink.i8x16_narrow_i16x8_s();
        },
        fallible::Instruction::Vector(fallible::Vector::I8x16NarrowI16x8S),
    );
    check(
        "fd66",
        Instruction::I8x16NarrowI16x8U,
        |sink| {
            sink.i8x16_narrow_i16x8_u();
        },
        fallible::Instruction::Vector(fallible::Vector::I8x16NarrowI16x8U),
    );
    check(
        "fd67",
        Instruction::F32x4Ceil,
        |sink| {
            sink.f32x4_ceil();
        },
        fallible::Instruction::Vector(fallible::Vector::F32x4Ceil),
    );
    check(
        "fd68",
        Instruction::F32x4Floor,
        |sink| {
            sink.f32x4_floor();
        },
        fallible::Instruction::Vector(fallible::Vector::F32x4Floor),
    );
    check(
        "fd69",
        Instruction::F32x4Trunc,
        |sink| {
            sink.f32x4_trunc();
        },
        fallible::Instruction::Vector(fallible::Vector::F32x4Trunc),
    );
    check(
        "fd6a",
        Instruction::F32x4Nearest,
        |sink| {
            sink.f32x4_nearest();
        },
        fallible::Instruction::Vector(fallible::Vector::F32x4Nearest),
    );
    check(
        "fd6b",
        Instruction::I8x16Shl,
        |sink| {
            sink.i8x16_shl();
        },
        fallible::Instruction::Vector(fallible::Vector::I8x16Shl),
    );
    check(
        "fd6c",
        Instruction::I8x16ShrS,
        |sink| {
            sink.i8x16_shr_s();
        },
        fallible::Instruction::Vector(fallible::Vector::I8x16ShrS),
    );
    check(
        "fd6d",
        Instruction::I8x16ShrU,
        |sink| {
            sink.i8x16_shr_u();
        },
        fallible::Instruction::Vector(fallible::Vector::I8x16ShrU),
    );
    check(
        "fd6e",
        Instruction::I8x16Add,
        |sink| {
            sink.i8x16_add();
        },
        fallible::Instruction::Vector(fallible::Vector::I8x16Add),
    );
    check(
        "fd6f",
        Instruction::I8x16AddSatS,
        |sink| {
            sink.i8x16_add_sat_s();
        },
        fallible::Instruction::Vector(fallible::Vector::I8x16AddSatS),
    );
    check(
        "fd70",
        Instruction::I8x16AddSatU,
        |sink| {
            sink.i8x16_add_sat_u();
        },
        fallible::Instruction::Vector(fallible::Vector::I8x16AddSatU),
    );
    check(
        "fd71",
        Instruction::I8x16Sub,
        |sink| {
            sink.i8x16_sub();
        },
        fallible::Instruction::Vector(fallible::Vector::I8x16Sub),
    );
    check(
        "fd72",
        Instruction::I8x16SubSatS,
        |sink| {
            sink.i8x16_sub_sat_s();
        },
        fallible::Instruction::Vector(fallible::Vector::I8x16SubSatS),
    );
    check(
        "fd73",
        Instruction::I8x16SubSatU,
        |sink| {
            sink.i8x16_sub_sat_u();
        },
        fallible::Instruction::Vector(fallible::Vector::I8x16SubSatU),
    );
    check(
        "fd74",
        Instruction::F64x2Ceil,
        |sink| {
            sink.f64x2_ceil();
        },
        fallible::Instruction::Vector(fallible::Vector::F64x2Ceil),
    );
    check(
        "fd75",
        Instruction::F64x2Floor,
        |sink| {
            sink.f64x2_floor();
        },
        fallible::Instruction::Vector(fallible::Vector::F64x2Floor),
    );
    check(
        "fd76",
        Instruction::I8x16MinS,
        |sink| {
            sink.i8x16_min_s();
        },
        fallible::Instruction::Vector(fallible::Vector::I8x16MinS),
    );
    check(
        "fd77",
        Instruction::I8x16MinU,
        |sink| {
            sink.i8x16_min_u();
        },
        fallible::Instruction::Vector(fallible::Vector::I8x16MinU),
    );
    check(
        "fd78",
        Instruction::I8x16MaxS,
        |sink| {
            sink.i8x16_max_s();
        },
        fallible::Instruction::Vector(fallible::Vector::I8x16MaxS),
    );
    check(
        "fd79",
        Instruction::I8x16MaxU,
        |sink| {
            sink.i8x16_max_u();
        },
        fallible::Instruction::Vector(fallible::Vector::I8x16MaxU),
    );
    check(
        "fd7a",
        Instruction::F64x2Trunc,
        |sink| {
            sink.f64x2_trunc();
        },
        fallible::Instruction::Vector(fallible::Vector::F64x2Trunc),
    );
    check(
        "fd7b",
        Instruction::I8x16AvgrU,
        |sink| {
            sink.i8x16_avgr_u();
        },
        fallible::Instruction::Vector(fallible::Vector::I8x16AvgrU),
    );
    check(
        "fd7c",
        Instruction::I16x8ExtAddPairwiseI8x16S,
        |sink| {
            sink.i16x8_extadd_pairwise_i8x16_s();
        },
        fallible::Instruction::Vector(fallible::Vector::I16x8ExtAddPairwiseI8x16S),
    );
    check(
        "fd7d",
        Instruction::I16x8ExtAddPairwiseI8x16U,
        |sink| {
            sink.i16x8_extadd_pairwise_i8x16_u();
        },
        fallible::Instruction::Vector(fallible::Vector::I16x8ExtAddPairwiseI8x16U),
    );
    check(
        "fd7e",
        Instruction::I32x4ExtAddPairwiseI16x8S,
        |sink| {
            sink.i32x4_extadd_pairwise_i16x8_s();
        },
        fallible::Instruction::Vector(fallible::Vector::I32x4ExtAddPairwiseI16x8S),
    );
    check(
        "fd7f",
        Instruction::I32x4ExtAddPairwiseI16x8U,
        |sink| {
            sink.i32x4_extadd_pairwise_i16x8_u();
        },
        fallible::Instruction::Vector(fallible::Vector::I32x4ExtAddPairwiseI16x8U),
    );
    check(
        "fd8001",
        Instruction::I16x8Abs,
        |sink| {
            sink.i16x8_abs();
        },
        fallible::Instruction::Vector(fallible::Vector::I16x8Abs),
    );
    check(
        "fd8101",
        Instruction::I16x8Neg,
        |sink| {
            sink.i16x8_neg();
        },
        fallible::Instruction::Vector(fallible::Vector::I16x8Neg),
    );
    check(
        "fd8201",
        Instruction::I16x8Q15MulrSatS,
        |sink| {
            sink.i16x8_q15mulr_sat_s();
        },
        fallible::Instruction::Vector(fallible::Vector::I16x8Q15MulrSatS),
    );
    check(
        "fd8301",
        Instruction::I16x8AllTrue,
        |sink| {
            sink.i16x8_all_true();
        },
        fallible::Instruction::Vector(fallible::Vector::I16x8AllTrue),
    );
}

/// The cases from the line 401 of the table on.
fn from_400() {
    check(
        "fd8401",
        Instruction::I16x8Bitmask,
        |sink| {
            sink.i16x8_bitmask();
        },
        fallible::Instruction::Vector(fallible::Vector::I16x8Bitmask),
    );
    check(
        "fd8501",
        Instruction::I16x8NarrowI32x4S,
        |sink| {
            sink.i16x8_narrow_i32x4_s();
        },
        fallible::Instruction::Vector(fallible::Vector::I16x8NarrowI32x4S),
    );
    check(
        "fd8601",
        Instruction::I16x8NarrowI32x4U,
        |sink| {
            sink.i16x8_narrow_i32x4_u();
        },
        fallible::Instruction::Vector(fallible::Vector::I16x8NarrowI32x4U),
    );
    check(
        "fd8701",
        Instruction::I16x8ExtendLowI8x16S,
        |sink| {
            sink.i16x8_extend_low_i8x16_s();
        },
        fallible::Instruction::Vector(fallible::Vector::I16x8ExtendLowI8x16S),
    );
    check(
        "fd8801",
        Instruction::I16x8ExtendHighI8x16S,
        |sink| {
            sink.i16x8_extend_high_i8x16_s();
        },
        fallible::Instruction::Vector(fallible::Vector::I16x8ExtendHighI8x16S),
    );
    check(
        "fd8901",
        Instruction::I16x8ExtendLowI8x16U,
        |sink| {
            sink.i16x8_extend_low_i8x16_u();
        },
        fallible::Instruction::Vector(fallible::Vector::I16x8ExtendLowI8x16U),
    );
    check(
        "fd8a01",
        Instruction::I16x8ExtendHighI8x16U,
        |sink| {
            sink.i16x8_extend_high_i8x16_u();
        },
        fallible::Instruction::Vector(fallible::Vector::I16x8ExtendHighI8x16U),
    );
    check(
        "fd8b01",
        Instruction::I16x8Shl,
        |sink| {
            sink.i16x8_shl();
        },
        fallible::Instruction::Vector(fallible::Vector::I16x8Shl),
    );
    check(
        "fd8c01",
        Instruction::I16x8ShrS,
        |sink| {
            sink.i16x8_shr_s();
        },
        fallible::Instruction::Vector(fallible::Vector::I16x8ShrS),
    );
    check(
        "fd8d01",
        Instruction::I16x8ShrU,
        |sink| {
            sink.i16x8_shr_u();
        },
        fallible::Instruction::Vector(fallible::Vector::I16x8ShrU),
    );
    check(
        "fd8e01",
        Instruction::I16x8Add,
        |sink| {
            sink.i16x8_add();
        },
        fallible::Instruction::Vector(fallible::Vector::I16x8Add),
    );
    check(
        "fd8f01",
        Instruction::I16x8AddSatS,
        |sink| {
            sink.i16x8_add_sat_s();
        },
        fallible::Instruction::Vector(fallible::Vector::I16x8AddSatS),
    );
    check(
        "fd9001",
        Instruction::I16x8AddSatU,
        |sink| {
            sink.i16x8_add_sat_u();
        },
        fallible::Instruction::Vector(fallible::Vector::I16x8AddSatU),
    );
    check(
        "fd9101",
        Instruction::I16x8Sub,
        |sink| {
            sink.i16x8_sub();
        },
        fallible::Instruction::Vector(fallible::Vector::I16x8Sub),
    );
    check(
        "fd9201",
        Instruction::I16x8SubSatS,
        |sink| {
            sink.i16x8_sub_sat_s();
        },
        fallible::Instruction::Vector(fallible::Vector::I16x8SubSatS),
    );
    check(
        "fd9301",
        Instruction::I16x8SubSatU,
        |sink| {
            sink.i16x8_sub_sat_u();
        },
        fallible::Instruction::Vector(fallible::Vector::I16x8SubSatU),
    );
    check(
        "fd9401",
        Instruction::F64x2Nearest,
        |sink| {
            sink.f64x2_nearest();
        },
        fallible::Instruction::Vector(fallible::Vector::F64x2Nearest),
    );
    check(
        "fd9501",
        Instruction::I16x8Mul,
        |sink| {
            sink.i16x8_mul();
        },
        fallible::Instruction::Vector(fallible::Vector::I16x8Mul),
    );
    check(
        "fd9601",
        Instruction::I16x8MinS,
        |sink| {
            sink.i16x8_min_s();
        },
        fallible::Instruction::Vector(fallible::Vector::I16x8MinS),
    );
    check(
        "fd9701",
        Instruction::I16x8MinU,
        |sink| {
            sink.i16x8_min_u();
        },
        fallible::Instruction::Vector(fallible::Vector::I16x8MinU),
    );
    check(
        "fd9801",
        Instruction::I16x8MaxS,
        |sink| {
            sink.i16x8_max_s();
        },
        fallible::Instruction::Vector(fallible::Vector::I16x8MaxS),
    );
    check(
        "fd9901",
        Instruction::I16x8MaxU,
        |sink| {
            sink.i16x8_max_u();
        },
        fallible::Instruction::Vector(fallible::Vector::I16x8MaxU),
    );
    check(
        "fd9b01",
        Instruction::I16x8AvgrU,
        |sink| {
            sink.i16x8_avgr_u();
        },
        fallible::Instruction::Vector(fallible::Vector::I16x8AvgrU),
    );
    check(
        "fd9c01",
        Instruction::I16x8ExtMulLowI8x16S,
        |sink| {
            sink.i16x8_extmul_low_i8x16_s();
        },
        fallible::Instruction::Vector(fallible::Vector::I16x8ExtMulLowI8x16S),
    );
    check(
        "fd9d01",
        Instruction::I16x8ExtMulHighI8x16S,
        |sink| {
            sink.i16x8_extmul_high_i8x16_s();
        },
        fallible::Instruction::Vector(fallible::Vector::I16x8ExtMulHighI8x16S),
    );
    check(
        "fd9e01",
        Instruction::I16x8ExtMulLowI8x16U,
        |sink| {
            sink.i16x8_extmul_low_i8x16_u();
        },
        fallible::Instruction::Vector(fallible::Vector::I16x8ExtMulLowI8x16U),
    );
    check(
        "fd9f01",
        Instruction::I16x8ExtMulHighI8x16U,
        |sink| {
            sink.i16x8_extmul_high_i8x16_u();
        },
        fallible::Instruction::Vector(fallible::Vector::I16x8ExtMulHighI8x16U),
    );
    check(
        "fda001",
        Instruction::I32x4Abs,
        |sink| {
            sink.i32x4_abs();
        },
        fallible::Instruction::Vector(fallible::Vector::I32x4Abs),
    );
    check(
        "fda101",
        Instruction::I32x4Neg,
        |sink| {
            sink.i32x4_neg();
        },
        fallible::Instruction::Vector(fallible::Vector::I32x4Neg),
    );
    check(
        "fda301",
        Instruction::I32x4AllTrue,
        |sink| {
            sink.i32x4_all_true();
        },
        fallible::Instruction::Vector(fallible::Vector::I32x4AllTrue),
    );
    check(
        "fda401",
        Instruction::I32x4Bitmask,
        |sink| {
            sink.i32x4_bitmask();
        },
        fallible::Instruction::Vector(fallible::Vector::I32x4Bitmask),
    );
    check(
        "fda701",
        Instruction::I32x4ExtendLowI16x8S,
        |sink| {
            sink.i32x4_extend_low_i16x8_s();
        },
        fallible::Instruction::Vector(fallible::Vector::I32x4ExtendLowI16x8S),
    );
    check(
        "fda801",
        Instruction::I32x4ExtendHighI16x8S,
        |sink| {
            sink.i32x4_extend_high_i16x8_s();
        },
        fallible::Instruction::Vector(fallible::Vector::I32x4ExtendHighI16x8S),
    );
    check(
        "fda901",
        Instruction::I32x4ExtendLowI16x8U,
        |sink| {
            sink.i32x4_extend_low_i16x8_u();
        },
        fallible::Instruction::Vector(fallible::Vector::I32x4ExtendLowI16x8U),
    );
    check(
        "fdaa01",
        Instruction::I32x4ExtendHighI16x8U,
        |sink| {
            sink.i32x4_extend_high_i16x8_u();
        },
        fallible::Instruction::Vector(fallible::Vector::I32x4ExtendHighI16x8U),
    );
    check(
        "fdab01",
        Instruction::I32x4Shl,
        |sink| {
            sink.i32x4_shl();
        },
        fallible::Instruction::Vector(fallible::Vector::I32x4Shl),
    );
    check(
        "fdac01",
        Instruction::I32x4ShrS,
        |sink| {
            sink.i32x4_shr_s();
        },
        fallible::Instruction::Vector(fallible::Vector::I32x4ShrS),
    );
    check(
        "fdad01",
        Instruction::I32x4ShrU,
        |sink| {
            sink.i32x4_shr_u();
        },
        fallible::Instruction::Vector(fallible::Vector::I32x4ShrU),
    );
    check(
        "fdae01",
        Instruction::I32x4Add,
        |sink| {
            sink.i32x4_add();
        },
        fallible::Instruction::Vector(fallible::Vector::I32x4Add),
    );
    check(
        "fdb101",
        Instruction::I32x4Sub,
        |sink| {
            sink.i32x4_sub();
        },
        fallible::Instruction::Vector(fallible::Vector::I32x4Sub),
    );
    check(
        "fdb501",
        Instruction::I32x4Mul,
        |sink| {
            sink.i32x4_mul();
        },
        fallible::Instruction::Vector(fallible::Vector::I32x4Mul),
    );
    check(
        "fdb601",
        Instruction::I32x4MinS,
        |sink| {
            sink.i32x4_min_s();
        },
        fallible::Instruction::Vector(fallible::Vector::I32x4MinS),
    );
    check(
        "fdb701",
        Instruction::I32x4MinU,
        |sink| {
            sink.i32x4_min_u();
        },
        fallible::Instruction::Vector(fallible::Vector::I32x4MinU),
    );
    check(
        "fdb801",
        Instruction::I32x4MaxS,
        |sink| {
            sink.i32x4_max_s();
        },
        fallible::Instruction::Vector(fallible::Vector::I32x4MaxS),
    );
    check(
        "fdb901",
        Instruction::I32x4MaxU,
        |sink| {
            sink.i32x4_max_u();
        },
        fallible::Instruction::Vector(fallible::Vector::I32x4MaxU),
    );
    check(
        "fdba01",
        Instruction::I32x4DotI16x8S,
        |sink| {
            sink.i32x4_dot_i16x8_s();
        },
        fallible::Instruction::Vector(fallible::Vector::I32x4DotI16x8S),
    );
    check(
        "fdbc01",
        Instruction::I32x4ExtMulLowI16x8S,
        |sink| {
            sink.i32x4_extmul_low_i16x8_s();
        },
        fallible::Instruction::Vector(fallible::Vector::I32x4ExtMulLowI16x8S),
    );
    check(
        "fdbd01",
        Instruction::I32x4ExtMulHighI16x8S,
        |sink| {
            sink.i32x4_extmul_high_i16x8_s();
        },
        fallible::Instruction::Vector(fallible::Vector::I32x4ExtMulHighI16x8S),
    );
    check(
        "fdbe01",
        Instruction::I32x4ExtMulLowI16x8U,
        |sink| {
            sink.i32x4_extmul_low_i16x8_u();
        },
        fallible::Instruction::Vector(fallible::Vector::I32x4ExtMulLowI16x8U),
    );
    check(
        "fdbf01",
        Instruction::I32x4ExtMulHighI16x8U,
        |sink| {
            sink.i32x4_extmul_high_i16x8_u();
        },
        fallible::Instruction::Vector(fallible::Vector::I32x4ExtMulHighI16x8U),
    );
}

/// The cases from the line 451 of the table on.
fn from_450() {
    check(
        "fdc001",
        Instruction::I64x2Abs,
        |sink| {
            sink.i64x2_abs();
        },
        fallible::Instruction::Vector(fallible::Vector::I64x2Abs),
    );
    check(
        "fdc101",
        Instruction::I64x2Neg,
        |sink| {
            sink.i64x2_neg();
        },
        fallible::Instruction::Vector(fallible::Vector::I64x2Neg),
    );
    check(
        "fdc301",
        Instruction::I64x2AllTrue,
        |sink| {
            sink.i64x2_all_true();
        },
        fallible::Instruction::Vector(fallible::Vector::I64x2AllTrue),
    );
    check(
        "fdc401",
        Instruction::I64x2Bitmask,
        |sink| {
            sink.i64x2_bitmask();
        },
        fallible::Instruction::Vector(fallible::Vector::I64x2Bitmask),
    );
    check(
        "fdc701",
        Instruction::I64x2ExtendLowI32x4S,
        |sink| {
            sink.i64x2_extend_low_i32x4_s();
        },
        fallible::Instruction::Vector(fallible::Vector::I64x2ExtendLowI32x4S),
    );
    check(
        "fdc801",
        Instruction::I64x2ExtendHighI32x4S,
        |sink| {
            sink.i64x2_extend_high_i32x4_s();
        },
        fallible::Instruction::Vector(fallible::Vector::I64x2ExtendHighI32x4S),
    );
    check(
        "fdc901",
        Instruction::I64x2ExtendLowI32x4U,
        |sink| {
            sink.i64x2_extend_low_i32x4_u();
        },
        fallible::Instruction::Vector(fallible::Vector::I64x2ExtendLowI32x4U),
    );
    check(
        "fdca01",
        Instruction::I64x2ExtendHighI32x4U,
        |sink| {
            sink.i64x2_extend_high_i32x4_u();
        },
        fallible::Instruction::Vector(fallible::Vector::I64x2ExtendHighI32x4U),
    );
    check(
        "fdcb01",
        Instruction::I64x2Shl,
        |sink| {
            sink.i64x2_shl();
        },
        fallible::Instruction::Vector(fallible::Vector::I64x2Shl),
    );
    check(
        "fdcc01",
        Instruction::I64x2ShrS,
        |sink| {
            sink.i64x2_shr_s();
        },
        fallible::Instruction::Vector(fallible::Vector::I64x2ShrS),
    );
    check(
        "fdcd01",
        Instruction::I64x2ShrU,
        |sink| {
            sink.i64x2_shr_u();
        },
        fallible::Instruction::Vector(fallible::Vector::I64x2ShrU),
    );
    check(
        "fdce01",
        Instruction::I64x2Add,
        |sink| {
            sink.i64x2_add();
        },
        fallible::Instruction::Vector(fallible::Vector::I64x2Add),
    );
    check(
        "fdd101",
        Instruction::I64x2Sub,
        |sink| {
            sink.i64x2_sub();
        },
        fallible::Instruction::Vector(fallible::Vector::I64x2Sub),
    );
    check(
        "fdd501",
        Instruction::I64x2Mul,
        |sink| {
            sink.i64x2_mul();
        },
        fallible::Instruction::Vector(fallible::Vector::I64x2Mul),
    );
    check(
        "fdd601",
        Instruction::I64x2Eq,
        |sink| {
            sink.i64x2_eq();
        },
        fallible::Instruction::Vector(fallible::Vector::I64x2Eq),
    );
    check(
        "fdd701",
        Instruction::I64x2Ne,
        |sink| {
            sink.i64x2_ne();
        },
        fallible::Instruction::Vector(fallible::Vector::I64x2Ne),
    );
    check(
        "fdd801",
        Instruction::I64x2LtS,
        |sink| {
            sink.i64x2_lt_s();
        },
        fallible::Instruction::Vector(fallible::Vector::I64x2LtS),
    );
    check(
        "fdd901",
        Instruction::I64x2GtS,
        |sink| {
            sink.i64x2_gt_s();
        },
        fallible::Instruction::Vector(fallible::Vector::I64x2GtS),
    );
    check(
        "fdda01",
        Instruction::I64x2LeS,
        |sink| {
            sink.i64x2_le_s();
        },
        fallible::Instruction::Vector(fallible::Vector::I64x2LeS),
    );
    check(
        "fddb01",
        Instruction::I64x2GeS,
        |sink| {
            sink.i64x2_ge_s();
        },
        fallible::Instruction::Vector(fallible::Vector::I64x2GeS),
    );
    check(
        "fddc01",
        Instruction::I64x2ExtMulLowI32x4S,
        |sink| {
            sink.i64x2_extmul_low_i32x4_s();
        },
        fallible::Instruction::Vector(fallible::Vector::I64x2ExtMulLowI32x4S),
    );
    check(
        "fddd01",
        Instruction::I64x2ExtMulHighI32x4S,
        |sink| {
            sink.i64x2_extmul_high_i32x4_s();
        },
        fallible::Instruction::Vector(fallible::Vector::I64x2ExtMulHighI32x4S),
    );
    check(
        "fdde01",
        Instruction::I64x2ExtMulLowI32x4U,
        |sink| {
            sink.i64x2_extmul_low_i32x4_u();
        },
        fallible::Instruction::Vector(fallible::Vector::I64x2ExtMulLowI32x4U),
    );
    check(
        "fddf01",
        Instruction::I64x2ExtMulHighI32x4U,
        |sink| {
            sink.i64x2_extmul_high_i32x4_u();
        },
        fallible::Instruction::Vector(fallible::Vector::I64x2ExtMulHighI32x4U),
    );
    check(
        "fde001",
        Instruction::F32x4Abs,
        |sink| {
            sink.f32x4_abs();
        },
        fallible::Instruction::Vector(fallible::Vector::F32x4Abs),
    );
    check(
        "fde101",
        Instruction::F32x4Neg,
        |sink| {
            sink.f32x4_neg();
        },
        fallible::Instruction::Vector(fallible::Vector::F32x4Neg),
    );
    check(
        "fde301",
        Instruction::F32x4Sqrt,
        |sink| {
            sink.f32x4_sqrt();
        },
        fallible::Instruction::Vector(fallible::Vector::F32x4Sqrt),
    );
    check(
        "fde401",
        Instruction::F32x4Add,
        |sink| {
            sink.f32x4_add();
        },
        fallible::Instruction::Vector(fallible::Vector::F32x4Add),
    );
    check(
        "fde501",
        Instruction::F32x4Sub,
        |sink| {
            sink.f32x4_sub();
        },
        fallible::Instruction::Vector(fallible::Vector::F32x4Sub),
    );
    check(
        "fde601",
        Instruction::F32x4Mul,
        |sink| {
            sink.f32x4_mul();
        },
        fallible::Instruction::Vector(fallible::Vector::F32x4Mul),
    );
    check(
        "fde701",
        Instruction::F32x4Div,
        |sink| {
            sink.f32x4_div();
        },
        fallible::Instruction::Vector(fallible::Vector::F32x4Div),
    );
    check(
        "fde801",
        Instruction::F32x4Min,
        |sink| {
            sink.f32x4_min();
        },
        fallible::Instruction::Vector(fallible::Vector::F32x4Min),
    );
    check(
        "fde901",
        Instruction::F32x4Max,
        |sink| {
            sink.f32x4_max();
        },
        fallible::Instruction::Vector(fallible::Vector::F32x4Max),
    );
    check(
        "fdea01",
        Instruction::F32x4PMin,
        |sink| {
            sink.f32x4_pmin();
        },
        fallible::Instruction::Vector(fallible::Vector::F32x4PMin),
    );
    check(
        "fdeb01",
        Instruction::F32x4PMax,
        |sink| {
            sink.f32x4_pmax();
        },
        fallible::Instruction::Vector(fallible::Vector::F32x4PMax),
    );
    check(
        "fdec01",
        Instruction::F64x2Abs,
        |sink| {
            sink.f64x2_abs();
        },
        fallible::Instruction::Vector(fallible::Vector::F64x2Abs),
    );
    check(
        "fded01",
        Instruction::F64x2Neg,
        |sink| {
            sink.f64x2_neg();
        },
        fallible::Instruction::Vector(fallible::Vector::F64x2Neg),
    );
    check(
        "fdef01",
        Instruction::F64x2Sqrt,
        |sink| {
            sink.f64x2_sqrt();
        },
        fallible::Instruction::Vector(fallible::Vector::F64x2Sqrt),
    );
    check(
        "fdf001",
        Instruction::F64x2Add,
        |sink| {
            sink.f64x2_add();
        },
        fallible::Instruction::Vector(fallible::Vector::F64x2Add),
    );
    check(
        "fdf101",
        Instruction::F64x2Sub,
        |sink| {
            sink.f64x2_sub();
        },
        fallible::Instruction::Vector(fallible::Vector::F64x2Sub),
    );
    check(
        "fdf201",
        Instruction::F64x2Mul,
        |sink| {
            sink.f64x2_mul();
        },
        fallible::Instruction::Vector(fallible::Vector::F64x2Mul),
    );
    check(
        "fdf301",
        Instruction::F64x2Div,
        |sink| {
            sink.f64x2_div();
        },
        fallible::Instruction::Vector(fallible::Vector::F64x2Div),
    );
    check(
        "fdf401",
        Instruction::F64x2Min,
        |sink| {
            sink.f64x2_min();
        },
        fallible::Instruction::Vector(fallible::Vector::F64x2Min),
    );
    check(
        "fdf501",
        Instruction::F64x2Max,
        |sink| {
            sink.f64x2_max();
        },
        fallible::Instruction::Vector(fallible::Vector::F64x2Max),
    );
    check(
        "fdf601",
        Instruction::F64x2PMin,
        |sink| {
            sink.f64x2_pmin();
        },
        fallible::Instruction::Vector(fallible::Vector::F64x2PMin),
    );
    check(
        "fdf701",
        Instruction::F64x2PMax,
        |sink| {
            sink.f64x2_pmax();
        },
        fallible::Instruction::Vector(fallible::Vector::F64x2PMax),
    );
    check(
        "fdf801",
        Instruction::I32x4TruncSatF32x4S,
        |sink| {
            sink.i32x4_trunc_sat_f32x4_s();
        },
        fallible::Instruction::Vector(fallible::Vector::I32x4TruncSatF32x4S),
    );
    check(
        "fdf901",
        Instruction::I32x4TruncSatF32x4U,
        |sink| {
            sink.i32x4_trunc_sat_f32x4_u();
        },
        fallible::Instruction::Vector(fallible::Vector::I32x4TruncSatF32x4U),
    );
    check(
        "fdfa01",
        Instruction::F32x4ConvertI32x4S,
        |sink| {
            sink.f32x4_convert_i32x4_s();
        },
        fallible::Instruction::Vector(fallible::Vector::F32x4ConvertI32x4S),
    );
    check(
        "fdfb01",
        Instruction::F32x4ConvertI32x4U,
        |sink| {
            sink.f32x4_convert_i32x4_u();
        },
        fallible::Instruction::Vector(fallible::Vector::F32x4ConvertI32x4U),
    );
}

/// The cases from the line 501 of the table on.
fn from_500() {
    check(
        "fdfc01",
        Instruction::I32x4TruncSatF64x2SZero,
        |sink| {
            sink.i32x4_trunc_sat_f64x2_s_zero();
        },
        fallible::Instruction::Vector(fallible::Vector::I32x4TruncSatF64x2SZero),
    );
    check(
        "fdfd01",
        Instruction::I32x4TruncSatF64x2UZero,
        |sink| {
            sink.i32x4_trunc_sat_f64x2_u_zero();
        },
        fallible::Instruction::Vector(fallible::Vector::I32x4TruncSatF64x2UZero),
    );
    check(
        "fdfe01",
        Instruction::F64x2ConvertLowI32x4S,
        |sink| {
            sink.f64x2_convert_low_i32x4_s();
        },
        fallible::Instruction::Vector(fallible::Vector::F64x2ConvertLowI32x4S),
    );
    check(
        "fdff01",
        Instruction::F64x2ConvertLowI32x4U,
        |sink| {
            sink.f64x2_convert_low_i32x4_u();
        },
        fallible::Instruction::Vector(fallible::Vector::F64x2ConvertLowI32x4U),
    );
    check(
        "fd8002",
        Instruction::I8x16RelaxedSwizzle,
        |sink| {
            sink.i8x16_relaxed_swizzle();
        },
        fallible::Instruction::Vector(fallible::Vector::I8x16RelaxedSwizzle),
    );
    check(
        "fd8102",
        Instruction::I32x4RelaxedTruncF32x4S,
        |sink| {
            sink.i32x4_relaxed_trunc_f32x4_s();
        },
        fallible::Instruction::Vector(fallible::Vector::I32x4RelaxedTruncF32x4S),
    );
    check(
        "fd8202",
        Instruction::I32x4RelaxedTruncF32x4U,
        |sink| {
            sink.i32x4_relaxed_trunc_f32x4_u();
        },
        fallible::Instruction::Vector(fallible::Vector::I32x4RelaxedTruncF32x4U),
    );
    check(
        "fd8302",
        Instruction::I32x4RelaxedTruncF64x2SZero,
        |sink| {
            sink.i32x4_relaxed_trunc_f64x2_s_zero();
        },
        fallible::Instruction::Vector(fallible::Vector::I32x4RelaxedTruncF64x2SZero),
    );
    check(
        "fd8402",
        Instruction::I32x4RelaxedTruncF64x2UZero,
        |sink| {
            sink.i32x4_relaxed_trunc_f64x2_u_zero();
        },
        fallible::Instruction::Vector(fallible::Vector::I32x4RelaxedTruncF64x2UZero),
    );
    check(
        "fd8502",
        Instruction::F32x4RelaxedMadd,
        |sink| {
            sink.f32x4_relaxed_madd();
        },
        fallible::Instruction::Vector(fallible::Vector::F32x4RelaxedMadd),
    );
    check(
        "fd8602",
        Instruction::F32x4RelaxedNmadd,
        |sink| {
            sink.f32x4_relaxed_nmadd();
        },
        fallible::Instruction::Vector(fallible::Vector::F32x4RelaxedNmadd),
    );
    check(
        "fd8702",
        Instruction::F64x2RelaxedMadd,
        |sink| {
            sink.f64x2_relaxed_madd();
        },
        fallible::Instruction::Vector(fallible::Vector::F64x2RelaxedMadd),
    );
    check(
        "fd8802",
        Instruction::F64x2RelaxedNmadd,
        |sink| {
            sink.f64x2_relaxed_nmadd();
        },
        fallible::Instruction::Vector(fallible::Vector::F64x2RelaxedNmadd),
    );
    check(
        "fd8902",
        Instruction::I8x16RelaxedLaneselect,
        |sink| {
            sink.i8x16_relaxed_laneselect();
        },
        fallible::Instruction::Vector(fallible::Vector::I8x16RelaxedLaneselect),
    );
    check(
        "fd8a02",
        Instruction::I16x8RelaxedLaneselect,
        |sink| {
            sink.i16x8_relaxed_laneselect();
        },
        fallible::Instruction::Vector(fallible::Vector::I16x8RelaxedLaneselect),
    );
    check(
        "fd8b02",
        Instruction::I32x4RelaxedLaneselect,
        |sink| {
            sink.i32x4_relaxed_laneselect();
        },
        fallible::Instruction::Vector(fallible::Vector::I32x4RelaxedLaneselect),
    );
    check(
        "fd8c02",
        Instruction::I64x2RelaxedLaneselect,
        |sink| {
            sink.i64x2_relaxed_laneselect();
        },
        fallible::Instruction::Vector(fallible::Vector::I64x2RelaxedLaneselect),
    );
    check(
        "fd8d02",
        Instruction::F32x4RelaxedMin,
        |sink| {
            sink.f32x4_relaxed_min();
        },
        fallible::Instruction::Vector(fallible::Vector::F32x4RelaxedMin),
    );
    check(
        "fd8e02",
        Instruction::F32x4RelaxedMax,
        |sink| {
            sink.f32x4_relaxed_max();
        },
        fallible::Instruction::Vector(fallible::Vector::F32x4RelaxedMax),
    );
    check(
        "fd8f02",
        Instruction::F64x2RelaxedMin,
        |sink| {
            sink.f64x2_relaxed_min();
        },
        fallible::Instruction::Vector(fallible::Vector::F64x2RelaxedMin),
    );
    check(
        "fd9002",
        Instruction::F64x2RelaxedMax,
        |sink| {
            sink.f64x2_relaxed_max();
        },
        fallible::Instruction::Vector(fallible::Vector::F64x2RelaxedMax),
    );
    check(
        "fd9102",
        Instruction::I16x8RelaxedQ15mulrS,
        |sink| {
            sink.i16x8_relaxed_q15mulr_s();
        },
        fallible::Instruction::Vector(fallible::Vector::I16x8RelaxedQ15mulrS),
    );
    check(
        "fd9202",
        Instruction::I16x8RelaxedDotI8x16I7x16S,
        |sink| {
            sink.i16x8_relaxed_dot_i8x16_i7x16_s();
        },
        fallible::Instruction::Vector(fallible::Vector::I16x8RelaxedDotI8x16I7x16S),
    );
    check(
        "fd9302",
        Instruction::I32x4RelaxedDotI8x16I7x16AddS,
        |sink| {
            sink.i32x4_relaxed_dot_i8x16_i7x16_add_s();
        },
        fallible::Instruction::Vector(fallible::Vector::I32x4RelaxedDotI8x16I7x16AddS),
    );
    check(
        "fe004201ac02",
        Instruction::MemoryAtomicNotify(MEMARG),
        |sink| {
            sink.memory_atomic_notify(MEMARG);
        },
        fallible::Instruction::Atomic(fallible::Atomic::MemoryAtomicNotify(MEMARG)),
    );
    check(
        "fe014201ac02",
        Instruction::MemoryAtomicWait32(MEMARG),
        |sink| {
            sink.memory_atomic_wait32(MEMARG);
        },
        fallible::Instruction::Atomic(fallible::Atomic::MemoryAtomicWait32(MEMARG)),
    );
    check(
        "fe024201ac02",
        Instruction::MemoryAtomicWait64(MEMARG),
        |sink| {
            sink.memory_atomic_wait64(MEMARG);
        },
        fallible::Instruction::Atomic(fallible::Atomic::MemoryAtomicWait64(MEMARG)),
    );
    check(
        "fe0301",
        Instruction::AtomicFence(Ordering::AcqRel),
        |sink| {
            sink.atomic_fence(Ordering::AcqRel);
        },
        fallible::Instruction::Atomic(fallible::Atomic::AtomicFence(Ordering::AcqRel)),
    );
    check(
        "fe04",
        Instruction::Pause,
        |sink| {
            sink.pause();
        },
        fallible::Instruction::Atomic(fallible::Atomic::Pause),
    );
    check(
        "fe104201ac02",
        Instruction::I32AtomicLoad(MEMARG),
        |sink| {
            sink.i32_atomic_load(MEMARG);
        },
        fallible::Instruction::Atomic(fallible::Atomic::I32AtomicLoad(MEMARG)),
    );
    check(
        "fe114201ac02",
        Instruction::I64AtomicLoad(MEMARG),
        |sink| {
            sink.i64_atomic_load(MEMARG);
        },
        fallible::Instruction::Atomic(fallible::Atomic::I64AtomicLoad(MEMARG)),
    );
    check(
        "fe124201ac02",
        Instruction::I32AtomicLoad8U(MEMARG),
        |sink| {
            sink.i32_atomic_load8_u(MEMARG);
        },
        fallible::Instruction::Atomic(fallible::Atomic::I32AtomicLoad8U(MEMARG)),
    );
    check(
        "fe134201ac02",
        Instruction::I32AtomicLoad16U(MEMARG),
        |sink| {
            sink.i32_atomic_load16_u(MEMARG);
        },
        fallible::Instruction::Atomic(fallible::Atomic::I32AtomicLoad16U(MEMARG)),
    );
    check(
        "fe144201ac02",
        Instruction::I64AtomicLoad8U(MEMARG),
        |sink| {
            sink.i64_atomic_load8_u(MEMARG);
        },
        fallible::Instruction::Atomic(fallible::Atomic::I64AtomicLoad8U(MEMARG)),
    );
    check(
        "fe154201ac02",
        Instruction::I64AtomicLoad16U(MEMARG),
        |sink| {
            sink.i64_atomic_load16_u(MEMARG);
        },
        fallible::Instruction::Atomic(fallible::Atomic::I64AtomicLoad16U(MEMARG)),
    );
    check(
        "fe164201ac02",
        Instruction::I64AtomicLoad32U(MEMARG),
        |sink| {
            sink.i64_atomic_load32_u(MEMARG);
        },
        fallible::Instruction::Atomic(fallible::Atomic::I64AtomicLoad32U(MEMARG)),
    );
    check(
        "fe174201ac02",
        Instruction::I32AtomicStore(MEMARG),
        |sink| {
            sink.i32_atomic_store(MEMARG);
        },
        fallible::Instruction::Atomic(fallible::Atomic::I32AtomicStore(MEMARG)),
    );
    check(
        "fe184201ac02",
        Instruction::I64AtomicStore(MEMARG),
        |sink| {
            sink.i64_atomic_store(MEMARG);
        },
        fallible::Instruction::Atomic(fallible::Atomic::I64AtomicStore(MEMARG)),
    );
    check(
        "fe194201ac02",
        Instruction::I32AtomicStore8(MEMARG),
        |sink| {
            sink.i32_atomic_store8(MEMARG);
        },
        fallible::Instruction::Atomic(fallible::Atomic::I32AtomicStore8(MEMARG)),
    );
    check(
        "fe1a4201ac02",
        Instruction::I32AtomicStore16(MEMARG),
        |sink| {
            sink.i32_atomic_store16(MEMARG);
        },
        fallible::Instruction::Atomic(fallible::Atomic::I32AtomicStore16(MEMARG)),
    );
    check(
        "fe1b4201ac02",
        Instruction::I64AtomicStore8(MEMARG),
        |sink| {
            sink.i64_atomic_store8(MEMARG);
        },
        fallible::Instruction::Atomic(fallible::Atomic::I64AtomicStore8(MEMARG)),
    );
    check(
        "fe1c4201ac02",
        Instruction::I64AtomicStore16(MEMARG),
        |sink| {
            sink.i64_atomic_store16(MEMARG);
        },
        fallible::Instruction::Atomic(fallible::Atomic::I64AtomicStore16(MEMARG)),
    );
    check(
        "fe1d4201ac02",
        Instruction::I64AtomicStore32(MEMARG),
        |sink| {
            sink.i64_atomic_store32(MEMARG);
        },
        fallible::Instruction::Atomic(fallible::Atomic::I64AtomicStore32(MEMARG)),
    );
    check(
        "fe1e4201ac02",
        Instruction::I32AtomicRmwAdd(MEMARG),
        |sink| {
            sink.i32_atomic_rmw_add(MEMARG);
        },
        fallible::Instruction::Atomic(fallible::Atomic::I32AtomicRmwAdd(MEMARG)),
    );
    check(
        "fe1f4201ac02",
        Instruction::I64AtomicRmwAdd(MEMARG),
        |sink| {
            sink.i64_atomic_rmw_add(MEMARG);
        },
        fallible::Instruction::Atomic(fallible::Atomic::I64AtomicRmwAdd(MEMARG)),
    );
    check(
        "fe204201ac02",
        Instruction::I32AtomicRmw8AddU(MEMARG),
        |sink| {
            sink.i32_atomic_rmw8_add_u(MEMARG);
        },
        fallible::Instruction::Atomic(fallible::Atomic::I32AtomicRmw8AddU(MEMARG)),
    );
    check(
        "fe214201ac02",
        Instruction::I32AtomicRmw16AddU(MEMARG),
        |sink| {
            sink.i32_atomic_rmw16_add_u(MEMARG);
        },
        fallible::Instruction::Atomic(fallible::Atomic::I32AtomicRmw16AddU(MEMARG)),
    );
    check(
        "fe224201ac02",
        Instruction::I64AtomicRmw8AddU(MEMARG),
        |sink| {
            sink.i64_atomic_rmw8_add_u(MEMARG);
        },
        fallible::Instruction::Atomic(fallible::Atomic::I64AtomicRmw8AddU(MEMARG)),
    );
    check(
        "fe234201ac02",
        Instruction::I64AtomicRmw16AddU(MEMARG),
        |sink| {
            sink.i64_atomic_rmw16_add_u(MEMARG);
        },
        fallible::Instruction::Atomic(fallible::Atomic::I64AtomicRmw16AddU(MEMARG)),
    );
    check(
        "fe244201ac02",
        Instruction::I64AtomicRmw32AddU(MEMARG),
        |sink| {
            sink.i64_atomic_rmw32_add_u(MEMARG);
        },
        fallible::Instruction::Atomic(fallible::Atomic::I64AtomicRmw32AddU(MEMARG)),
    );
}

/// The cases from the line 551 of the table on.
fn from_550() {
    check(
        "fe254201ac02",
        Instruction::I32AtomicRmwSub(MEMARG),
        |sink| {
            sink.i32_atomic_rmw_sub(MEMARG);
        },
        fallible::Instruction::Atomic(fallible::Atomic::I32AtomicRmwSub(MEMARG)),
    );
    check(
        "fe264201ac02",
        Instruction::I64AtomicRmwSub(MEMARG),
        |sink| {
            sink.i64_atomic_rmw_sub(MEMARG);
        },
        fallible::Instruction::Atomic(fallible::Atomic::I64AtomicRmwSub(MEMARG)),
    );
    check(
        "fe274201ac02",
        Instruction::I32AtomicRmw8SubU(MEMARG),
        |sink| {
            sink.i32_atomic_rmw8_sub_u(MEMARG);
        },
        fallible::Instruction::Atomic(fallible::Atomic::I32AtomicRmw8SubU(MEMARG)),
    );
    check(
        "fe284201ac02",
        Instruction::I32AtomicRmw16SubU(MEMARG),
        |sink| {
            sink.i32_atomic_rmw16_sub_u(MEMARG);
        },
        fallible::Instruction::Atomic(fallible::Atomic::I32AtomicRmw16SubU(MEMARG)),
    );
    check(
        "fe294201ac02",
        Instruction::I64AtomicRmw8SubU(MEMARG),
        |sink| {
            sink.i64_atomic_rmw8_sub_u(MEMARG);
        },
        fallible::Instruction::Atomic(fallible::Atomic::I64AtomicRmw8SubU(MEMARG)),
    );
    check(
        "fe2a4201ac02",
        Instruction::I64AtomicRmw16SubU(MEMARG),
        |sink| {
            sink.i64_atomic_rmw16_sub_u(MEMARG);
        },
        fallible::Instruction::Atomic(fallible::Atomic::I64AtomicRmw16SubU(MEMARG)),
    );
    check(
        "fe2b4201ac02",
        Instruction::I64AtomicRmw32SubU(MEMARG),
        |sink| {
            sink.i64_atomic_rmw32_sub_u(MEMARG);
        },
        fallible::Instruction::Atomic(fallible::Atomic::I64AtomicRmw32SubU(MEMARG)),
    );
    check(
        "fe2c4201ac02",
        Instruction::I32AtomicRmwAnd(MEMARG),
        |sink| {
            sink.i32_atomic_rmw_and(MEMARG);
        },
        fallible::Instruction::Atomic(fallible::Atomic::I32AtomicRmwAnd(MEMARG)),
    );
    check(
        "fe2d4201ac02",
        Instruction::I64AtomicRmwAnd(MEMARG),
        |sink| {
            sink.i64_atomic_rmw_and(MEMARG);
        },
        fallible::Instruction::Atomic(fallible::Atomic::I64AtomicRmwAnd(MEMARG)),
    );
    check(
        "fe2e4201ac02",
        Instruction::I32AtomicRmw8AndU(MEMARG),
        |sink| {
            sink.i32_atomic_rmw8_and_u(MEMARG);
        },
        fallible::Instruction::Atomic(fallible::Atomic::I32AtomicRmw8AndU(MEMARG)),
    );
    check(
        "fe2f4201ac02",
        Instruction::I32AtomicRmw16AndU(MEMARG),
        |sink| {
            sink.i32_atomic_rmw16_and_u(MEMARG);
        },
        fallible::Instruction::Atomic(fallible::Atomic::I32AtomicRmw16AndU(MEMARG)),
    );
    check(
        "fe304201ac02",
        Instruction::I64AtomicRmw8AndU(MEMARG),
        |sink| {
            sink.i64_atomic_rmw8_and_u(MEMARG);
        },
        fallible::Instruction::Atomic(fallible::Atomic::I64AtomicRmw8AndU(MEMARG)),
    );
    check(
        "fe314201ac02",
        Instruction::I64AtomicRmw16AndU(MEMARG),
        |sink| {
            sink.i64_atomic_rmw16_and_u(MEMARG);
        },
        fallible::Instruction::Atomic(fallible::Atomic::I64AtomicRmw16AndU(MEMARG)),
    );
    check(
        "fe324201ac02",
        Instruction::I64AtomicRmw32AndU(MEMARG),
        |sink| {
            sink.i64_atomic_rmw32_and_u(MEMARG);
        },
        fallible::Instruction::Atomic(fallible::Atomic::I64AtomicRmw32AndU(MEMARG)),
    );
    check(
        "fe334201ac02",
        Instruction::I32AtomicRmwOr(MEMARG),
        |sink| {
            sink.i32_atomic_rmw_or(MEMARG);
        },
        fallible::Instruction::Atomic(fallible::Atomic::I32AtomicRmwOr(MEMARG)),
    );
    check(
        "fe344201ac02",
        Instruction::I64AtomicRmwOr(MEMARG),
        |sink| {
            sink.i64_atomic_rmw_or(MEMARG);
        },
        fallible::Instruction::Atomic(fallible::Atomic::I64AtomicRmwOr(MEMARG)),
    );
    check(
        "fe354201ac02",
        Instruction::I32AtomicRmw8OrU(MEMARG),
        |sink| {
            sink.i32_atomic_rmw8_or_u(MEMARG);
        },
        fallible::Instruction::Atomic(fallible::Atomic::I32AtomicRmw8OrU(MEMARG)),
    );
    check(
        "fe364201ac02",
        Instruction::I32AtomicRmw16OrU(MEMARG),
        |sink| {
            sink.i32_atomic_rmw16_or_u(MEMARG);
        },
        fallible::Instruction::Atomic(fallible::Atomic::I32AtomicRmw16OrU(MEMARG)),
    );
    check(
        "fe374201ac02",
        Instruction::I64AtomicRmw8OrU(MEMARG),
        |sink| {
            sink.i64_atomic_rmw8_or_u(MEMARG);
        },
        fallible::Instruction::Atomic(fallible::Atomic::I64AtomicRmw8OrU(MEMARG)),
    );
    check(
        "fe384201ac02",
        Instruction::I64AtomicRmw16OrU(MEMARG),
        |sink| {
            sink.i64_atomic_rmw16_or_u(MEMARG);
        },
        fallible::Instruction::Atomic(fallible::Atomic::I64AtomicRmw16OrU(MEMARG)),
    );
    check(
        "fe394201ac02",
        Instruction::I64AtomicRmw32OrU(MEMARG),
        |sink| {
            sink.i64_atomic_rmw32_or_u(MEMARG);
        },
        fallible::Instruction::Atomic(fallible::Atomic::I64AtomicRmw32OrU(MEMARG)),
    );
    check(
        "fe3a4201ac02",
        Instruction::I32AtomicRmwXor(MEMARG),
        |sink| {
            sink.i32_atomic_rmw_xor(MEMARG);
        },
        fallible::Instruction::Atomic(fallible::Atomic::I32AtomicRmwXor(MEMARG)),
    );
    check(
        "fe3b4201ac02",
        Instruction::I64AtomicRmwXor(MEMARG),
        |sink| {
            sink.i64_atomic_rmw_xor(MEMARG);
        },
        fallible::Instruction::Atomic(fallible::Atomic::I64AtomicRmwXor(MEMARG)),
    );
    check(
        "fe3c4201ac02",
        Instruction::I32AtomicRmw8XorU(MEMARG),
        |sink| {
            sink.i32_atomic_rmw8_xor_u(MEMARG);
        },
        fallible::Instruction::Atomic(fallible::Atomic::I32AtomicRmw8XorU(MEMARG)),
    );
    check(
        "fe3d4201ac02",
        Instruction::I32AtomicRmw16XorU(MEMARG),
        |sink| {
            sink.i32_atomic_rmw16_xor_u(MEMARG);
        },
        fallible::Instruction::Atomic(fallible::Atomic::I32AtomicRmw16XorU(MEMARG)),
    );
    check(
        "fe3e4201ac02",
        Instruction::I64AtomicRmw8XorU(MEMARG),
        |sink| {
            sink.i64_atomic_rmw8_xor_u(MEMARG);
        },
        fallible::Instruction::Atomic(fallible::Atomic::I64AtomicRmw8XorU(MEMARG)),
    );
    check(
        "fe3f4201ac02",
        Instruction::I64AtomicRmw16XorU(MEMARG),
        |sink| {
            sink.i64_atomic_rmw16_xor_u(MEMARG);
        },
        fallible::Instruction::Atomic(fallible::Atomic::I64AtomicRmw16XorU(MEMARG)),
    );
    check(
        "fe404201ac02",
        Instruction::I64AtomicRmw32XorU(MEMARG),
        |sink| {
            sink.i64_atomic_rmw32_xor_u(MEMARG);
        },
        fallible::Instruction::Atomic(fallible::Atomic::I64AtomicRmw32XorU(MEMARG)),
    );
    check(
        "fe414201ac02",
        Instruction::I32AtomicRmwXchg(MEMARG),
        |sink| {
            sink.i32_atomic_rmw_xchg(MEMARG);
        },
        fallible::Instruction::Atomic(fallible::Atomic::I32AtomicRmwXchg(MEMARG)),
    );
    check(
        "fe424201ac02",
        Instruction::I64AtomicRmwXchg(MEMARG),
        |sink| {
            sink.i64_atomic_rmw_xchg(MEMARG);
        },
        fallible::Instruction::Atomic(fallible::Atomic::I64AtomicRmwXchg(MEMARG)),
    );
    check(
        "fe434201ac02",
        Instruction::I32AtomicRmw8XchgU(MEMARG),
        |sink| {
            sink.i32_atomic_rmw8_xchg_u(MEMARG);
        },
        fallible::Instruction::Atomic(fallible::Atomic::I32AtomicRmw8XchgU(MEMARG)),
    );
    check(
        "fe444201ac02",
        Instruction::I32AtomicRmw16XchgU(MEMARG),
        |sink| {
            sink.i32_atomic_rmw16_xchg_u(MEMARG);
        },
        fallible::Instruction::Atomic(fallible::Atomic::I32AtomicRmw16XchgU(MEMARG)),
    );
    check(
        "fe454201ac02",
        Instruction::I64AtomicRmw8XchgU(MEMARG),
        |sink| {
            sink.i64_atomic_rmw8_xchg_u(MEMARG);
        },
        fallible::Instruction::Atomic(fallible::Atomic::I64AtomicRmw8XchgU(MEMARG)),
    );
    check(
        "fe464201ac02",
        Instruction::I64AtomicRmw16XchgU(MEMARG),
        |sink| {
            sink.i64_atomic_rmw16_xchg_u(MEMARG);
        },
        fallible::Instruction::Atomic(fallible::Atomic::I64AtomicRmw16XchgU(MEMARG)),
    );
    check(
        "fe474201ac02",
        Instruction::I64AtomicRmw32XchgU(MEMARG),
        |sink| {
            sink.i64_atomic_rmw32_xchg_u(MEMARG);
        },
        fallible::Instruction::Atomic(fallible::Atomic::I64AtomicRmw32XchgU(MEMARG)),
    );
    check(
        "fe484201ac02",
        Instruction::I32AtomicRmwCmpxchg(MEMARG),
        |sink| {
            sink.i32_atomic_rmw_cmpxchg(MEMARG);
        },
        fallible::Instruction::Atomic(fallible::Atomic::I32AtomicRmwCmpxchg(MEMARG)),
    );
    check(
        "fe494201ac02",
        Instruction::I64AtomicRmwCmpxchg(MEMARG),
        |sink| {
            sink.i64_atomic_rmw_cmpxchg(MEMARG);
        },
        fallible::Instruction::Atomic(fallible::Atomic::I64AtomicRmwCmpxchg(MEMARG)),
    );
    check(
        "fe4a4201ac02",
        Instruction::I32AtomicRmw8CmpxchgU(MEMARG),
        |sink| {
            sink.i32_atomic_rmw8_cmpxchg_u(MEMARG);
        },
        fallible::Instruction::Atomic(fallible::Atomic::I32AtomicRmw8CmpxchgU(MEMARG)),
    );
    check(
        "fe4b4201ac02",
        Instruction::I32AtomicRmw16CmpxchgU(MEMARG),
        |sink| {
            sink.i32_atomic_rmw16_cmpxchg_u(MEMARG);
        },
        fallible::Instruction::Atomic(fallible::Atomic::I32AtomicRmw16CmpxchgU(MEMARG)),
    );
    check(
        "fe4c4201ac02",
        Instruction::I64AtomicRmw8CmpxchgU(MEMARG),
        |sink| {
            sink.i64_atomic_rmw8_cmpxchg_u(MEMARG);
        },
        fallible::Instruction::Atomic(fallible::Atomic::I64AtomicRmw8CmpxchgU(MEMARG)),
    );
    check(
        "fe4d4201ac02",
        Instruction::I64AtomicRmw16CmpxchgU(MEMARG),
        |sink| {
            sink.i64_atomic_rmw16_cmpxchg_u(MEMARG);
        },
        fallible::Instruction::Atomic(fallible::Atomic::I64AtomicRmw16CmpxchgU(MEMARG)),
    );
    check(
        "fe4e4201ac02",
        Instruction::I64AtomicRmw32CmpxchgU(MEMARG),
        |sink| {
            sink.i64_atomic_rmw32_cmpxchg_u(MEMARG);
        },
        fallible::Instruction::Atomic(fallible::Atomic::I64AtomicRmw32CmpxchgU(MEMARG)),
    );
    check(
        "fe4f01ac02",
        Instruction::GlobalAtomicGet { ordering: Ordering::AcqRel, global_index: 300 },
        |sink| {
            sink.global_atomic_get(Ordering::AcqRel, 300);
        },
        fallible::Instruction::Atomic(fallible::Atomic::GlobalAtomicGet { ordering: Ordering::AcqRel, global_index: 300 }),
    );
    check(
        "fe5001ac02",
        Instruction::GlobalAtomicSet { ordering: Ordering::AcqRel, global_index: 300 },
        |sink| {
            sink.global_atomic_set(Ordering::AcqRel, 300);
        },
        fallible::Instruction::Atomic(fallible::Atomic::GlobalAtomicSet { ordering: Ordering::AcqRel, global_index: 300 }),
    );
    check(
        "fe5101ac02",
        Instruction::GlobalAtomicRmwAdd { ordering: Ordering::AcqRel, global_index: 300 },
        |sink| {
            sink.global_atomic_rmw_add(Ordering::AcqRel, 300);
        },
        fallible::Instruction::Atomic(fallible::Atomic::GlobalAtomicRmwAdd { ordering: Ordering::AcqRel, global_index: 300 }),
    );
    check(
        "fe5201ac02",
        Instruction::GlobalAtomicRmwSub { ordering: Ordering::AcqRel, global_index: 300 },
        |sink| {
            sink.global_atomic_rmw_sub(Ordering::AcqRel, 300);
        },
        fallible::Instruction::Atomic(fallible::Atomic::GlobalAtomicRmwSub { ordering: Ordering::AcqRel, global_index: 300 }),
    );
    check(
        "fe5301ac02",
        Instruction::GlobalAtomicRmwAnd { ordering: Ordering::AcqRel, global_index: 300 },
        |sink| {
            sink.global_atomic_rmw_and(Ordering::AcqRel, 300);
        },
        fallible::Instruction::Atomic(fallible::Atomic::GlobalAtomicRmwAnd { ordering: Ordering::AcqRel, global_index: 300 }),
    );
    check(
        "fe5401ac02",
        Instruction::GlobalAtomicRmwOr { ordering: Ordering::AcqRel, global_index: 300 },
        |sink| {
            sink.global_atomic_rmw_or(Ordering::AcqRel, 300);
        },
        fallible::Instruction::Atomic(fallible::Atomic::GlobalAtomicRmwOr { ordering: Ordering::AcqRel, global_index: 300 }),
    );
    check(
        "fe5501ac02",
        Instruction::GlobalAtomicRmwXor { ordering: Ordering::AcqRel, global_index: 300 },
        |sink| {
            sink.global_atomic_rmw_xor(Ordering::AcqRel, 300);
        },
        fallible::Instruction::Atomic(fallible::Atomic::GlobalAtomicRmwXor { ordering: Ordering::AcqRel, global_index: 300 }),
    );
    check(
        "fe5601ac02",
        Instruction::GlobalAtomicRmwXchg { ordering: Ordering::AcqRel, global_index: 300 },
        |sink| {
            sink.global_atomic_rmw_xchg(Ordering::AcqRel, 300);
        },
        fallible::Instruction::Atomic(fallible::Atomic::GlobalAtomicRmwXchg { ordering: Ordering::AcqRel, global_index: 300 }),
    );
}

/// The cases from the line 601 of the table on.
fn from_600() {
    check(
        "fe5701ac02",
        Instruction::GlobalAtomicRmwCmpxchg { ordering: Ordering::AcqRel, global_index: 300 },
        |sink| {
            sink.global_atomic_rmw_cmpxchg(Ordering::AcqRel, 300);
        },
        fallible::Instruction::Atomic(fallible::Atomic::GlobalAtomicRmwCmpxchg { ordering: Ordering::AcqRel, global_index: 300 }),
    );
    check(
        "fe5801ac02",
        Instruction::TableAtomicGet { ordering: Ordering::AcqRel, table_index: 300 },
        |sink| {
            sink.table_atomic_get(Ordering::AcqRel, 300);
        },
        fallible::Instruction::Atomic(fallible::Atomic::TableAtomicGet { ordering: Ordering::AcqRel, table_index: 300 }),
    );
    check(
        "fe5901ac02",
        Instruction::TableAtomicSet { ordering: Ordering::AcqRel, table_index: 300 },
        |sink| {
            sink.table_atomic_set(Ordering::AcqRel, 300);
        },
        fallible::Instruction::Atomic(fallible::Atomic::TableAtomicSet { ordering: Ordering::AcqRel, table_index: 300 }),
    );
    check(
        "fe5a01ac02",
        Instruction::TableAtomicRmwXchg { ordering: Ordering::AcqRel, table_index: 300 },
        |sink| {
            sink.table_atomic_rmw_xchg(Ordering::AcqRel, 300);
        },
        fallible::Instruction::Atomic(fallible::Atomic::TableAtomicRmwXchg { ordering: Ordering::AcqRel, table_index: 300 }),
    );
    check(
        "fe5b01ac02",
        Instruction::TableAtomicRmwCmpxchg { ordering: Ordering::AcqRel, table_index: 300 },
        |sink| {
            sink.table_atomic_rmw_cmpxchg(Ordering::AcqRel, 300);
        },
        fallible::Instruction::Atomic(fallible::Atomic::TableAtomicRmwCmpxchg { ordering: Ordering::AcqRel, table_index: 300 }),
    );
    check(
        "fe5c0101ac02",
        Instruction::StructAtomicGet { ordering: Ordering::AcqRel, struct_type_index: 1, field_index: 300 },
        |sink| {
            sink.struct_atomic_get(Ordering::AcqRel, 1, 300);
        },
        fallible::Instruction::Atomic(fallible::Atomic::StructAtomicGet { ordering: Ordering::AcqRel, struct_type_index: 1, field_index: 300 }),
    );
    check(
        "fe5d0101ac02",
        Instruction::StructAtomicGetS { ordering: Ordering::AcqRel, struct_type_index: 1, field_index: 300 },
        |sink| {
            sink.struct_atomic_get_s(Ordering::AcqRel, 1, 300);
        },
        fallible::Instruction::Atomic(fallible::Atomic::StructAtomicGetS { ordering: Ordering::AcqRel, struct_type_index: 1, field_index: 300 }),
    );
    check(
        "fe5e0101ac02",
        Instruction::StructAtomicGetU { ordering: Ordering::AcqRel, struct_type_index: 1, field_index: 300 },
        |sink| {
            sink.struct_atomic_get_u(Ordering::AcqRel, 1, 300);
        },
        fallible::Instruction::Atomic(fallible::Atomic::StructAtomicGetU { ordering: Ordering::AcqRel, struct_type_index: 1, field_index: 300 }),
    );
    check(
        "fe5f0101ac02",
        Instruction::StructAtomicSet { ordering: Ordering::AcqRel, struct_type_index: 1, field_index: 300 },
        |sink| {
            sink.struct_atomic_set(Ordering::AcqRel, 1, 300);
        },
        fallible::Instruction::Atomic(fallible::Atomic::StructAtomicSet { ordering: Ordering::AcqRel, struct_type_index: 1, field_index: 300 }),
    );
    check(
        "fe600101ac02",
        Instruction::StructAtomicRmwAdd { ordering: Ordering::AcqRel, struct_type_index: 1, field_index: 300 },
        |sink| {
            sink.struct_atomic_rmw_add(Ordering::AcqRel, 1, 300);
        },
        fallible::Instruction::Atomic(fallible::Atomic::StructAtomicRmwAdd { ordering: Ordering::AcqRel, struct_type_index: 1, field_index: 300 }),
    );
    check(
        "fe610101ac02",
        Instruction::StructAtomicRmwSub { ordering: Ordering::AcqRel, struct_type_index: 1, field_index: 300 },
        |sink| {
            sink.struct_atomic_rmw_sub(Ordering::AcqRel, 1, 300);
        },
        fallible::Instruction::Atomic(fallible::Atomic::StructAtomicRmwSub { ordering: Ordering::AcqRel, struct_type_index: 1, field_index: 300 }),
    );
    check(
        "fe620101ac02",
        Instruction::StructAtomicRmwAnd { ordering: Ordering::AcqRel, struct_type_index: 1, field_index: 300 },
        |sink| {
            sink.struct_atomic_rmw_and(Ordering::AcqRel, 1, 300);
        },
        fallible::Instruction::Atomic(fallible::Atomic::StructAtomicRmwAnd { ordering: Ordering::AcqRel, struct_type_index: 1, field_index: 300 }),
    );
    check(
        "fe630101ac02",
        Instruction::StructAtomicRmwOr { ordering: Ordering::AcqRel, struct_type_index: 1, field_index: 300 },
        |sink| {
            sink.struct_atomic_rmw_or(Ordering::AcqRel, 1, 300);
        },
        fallible::Instruction::Atomic(fallible::Atomic::StructAtomicRmwOr { ordering: Ordering::AcqRel, struct_type_index: 1, field_index: 300 }),
    );
    check(
        "fe640101ac02",
        Instruction::StructAtomicRmwXor { ordering: Ordering::AcqRel, struct_type_index: 1, field_index: 300 },
        |sink| {
            sink.struct_atomic_rmw_xor(Ordering::AcqRel, 1, 300);
        },
        fallible::Instruction::Atomic(fallible::Atomic::StructAtomicRmwXor { ordering: Ordering::AcqRel, struct_type_index: 1, field_index: 300 }),
    );
    check(
        "fe650101ac02",
        Instruction::StructAtomicRmwXchg { ordering: Ordering::AcqRel, struct_type_index: 1, field_index: 300 },
        |sink| {
            sink.struct_atomic_rmw_xchg(Ordering::AcqRel, 1, 300);
        },
        fallible::Instruction::Atomic(fallible::Atomic::StructAtomicRmwXchg { ordering: Ordering::AcqRel, struct_type_index: 1, field_index: 300 }),
    );
    check(
        "fe660101ac02",
        Instruction::StructAtomicRmwCmpxchg { ordering: Ordering::AcqRel, struct_type_index: 1, field_index: 300 },
        |sink| {
            sink.struct_atomic_rmw_cmpxchg(Ordering::AcqRel, 1, 300);
        },
        fallible::Instruction::Atomic(fallible::Atomic::StructAtomicRmwCmpxchg { ordering: Ordering::AcqRel, struct_type_index: 1, field_index: 300 }),
    );
    check(
        "fe6701ac02",
        Instruction::ArrayAtomicGet { ordering: Ordering::AcqRel, array_type_index: 300 },
        |sink| {
            sink.array_atomic_get(Ordering::AcqRel, 300);
        },
        fallible::Instruction::Atomic(fallible::Atomic::ArrayAtomicGet { ordering: Ordering::AcqRel, array_type_index: 300 }),
    );
    check(
        "fe6801ac02",
        Instruction::ArrayAtomicGetS { ordering: Ordering::AcqRel, array_type_index: 300 },
        |sink| {
            sink.array_atomic_get_s(Ordering::AcqRel, 300);
        },
        fallible::Instruction::Atomic(fallible::Atomic::ArrayAtomicGetS { ordering: Ordering::AcqRel, array_type_index: 300 }),
    );
    check(
        "fe6901ac02",
        Instruction::ArrayAtomicGetU { ordering: Ordering::AcqRel, array_type_index: 300 },
        |sink| {
            sink.array_atomic_get_u(Ordering::AcqRel, 300);
        },
        fallible::Instruction::Atomic(fallible::Atomic::ArrayAtomicGetU { ordering: Ordering::AcqRel, array_type_index: 300 }),
    );
    check(
        "fe6a01ac02",
        Instruction::ArrayAtomicSet { ordering: Ordering::AcqRel, array_type_index: 300 },
        |sink| {
            sink.array_atomic_set(Ordering::AcqRel, 300);
        },
        fallible::Instruction::Atomic(fallible::Atomic::ArrayAtomicSet { ordering: Ordering::AcqRel, array_type_index: 300 }),
    );
    check(
        "fe6b01ac02",
        Instruction::ArrayAtomicRmwAdd { ordering: Ordering::AcqRel, array_type_index: 300 },
        |sink| {
            sink.array_atomic_rmw_add(Ordering::AcqRel, 300);
        },
        fallible::Instruction::Atomic(fallible::Atomic::ArrayAtomicRmwAdd { ordering: Ordering::AcqRel, array_type_index: 300 }),
    );
    check(
        "fe6c01ac02",
        Instruction::ArrayAtomicRmwSub { ordering: Ordering::AcqRel, array_type_index: 300 },
        |sink| {
            sink.array_atomic_rmw_sub(Ordering::AcqRel, 300);
        },
        fallible::Instruction::Atomic(fallible::Atomic::ArrayAtomicRmwSub { ordering: Ordering::AcqRel, array_type_index: 300 }),
    );
    check(
        "fe6d01ac02",
        Instruction::ArrayAtomicRmwAnd { ordering: Ordering::AcqRel, array_type_index: 300 },
        |sink| {
            sink.array_atomic_rmw_and(Ordering::AcqRel, 300);
        },
        fallible::Instruction::Atomic(fallible::Atomic::ArrayAtomicRmwAnd { ordering: Ordering::AcqRel, array_type_index: 300 }),
    );
    check(
        "fe6e01ac02",
        Instruction::ArrayAtomicRmwOr { ordering: Ordering::AcqRel, array_type_index: 300 },
        |sink| {
            sink.array_atomic_rmw_or(Ordering::AcqRel, 300);
        },
        fallible::Instruction::Atomic(fallible::Atomic::ArrayAtomicRmwOr { ordering: Ordering::AcqRel, array_type_index: 300 }),
    );
    check(
        "fe6f01ac02",
        Instruction::ArrayAtomicRmwXor { ordering: Ordering::AcqRel, array_type_index: 300 },
        |sink| {
            sink.array_atomic_rmw_xor(Ordering::AcqRel, 300);
        },
        fallible::Instruction::Atomic(fallible::Atomic::ArrayAtomicRmwXor { ordering: Ordering::AcqRel, array_type_index: 300 }),
    );
    check(
        "fe7001ac02",
        Instruction::ArrayAtomicRmwXchg { ordering: Ordering::AcqRel, array_type_index: 300 },
        |sink| {
            sink.array_atomic_rmw_xchg(Ordering::AcqRel, 300);
        },
        fallible::Instruction::Atomic(fallible::Atomic::ArrayAtomicRmwXchg { ordering: Ordering::AcqRel, array_type_index: 300 }),
    );
    check(
        "fe7101ac02",
        Instruction::ArrayAtomicRmwCmpxchg { ordering: Ordering::AcqRel, array_type_index: 300 },
        |sink| {
            sink.array_atomic_rmw_cmpxchg(Ordering::AcqRel, 300);
        },
        fallible::Instruction::Atomic(fallible::Atomic::ArrayAtomicRmwCmpxchg { ordering: Ordering::AcqRel, array_type_index: 300 }),
    );
    check(
        "fe72",
        Instruction::RefI31Shared,
        |sink| {
            sink.ref_i31_shared();
        },
        fallible::Instruction::Atomic(fallible::Atomic::RefI31Shared),
    );
}
