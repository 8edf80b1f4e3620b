//! Instructions of each shape, with immediates at the borders of the lengths of their encodings, and
//! with each spare capacity. As named calls and as values they have the bytes of an encoder here.
//! Numbers, types and memory arguments alone have those of the proved `encode`.
use dolzhytik::fallible;
use dolzhytik::{
    AbstractHeapType, BlockType, DataCountSection, Encode, HeapType, Ieee32, Ieee64, Instruction,
    InstructionSink, MemArg, MemArgOrdering, MemArgTarget, Ordering, RefType, StartSection,
    ValType,
};

/// Numbers around those from which on an unsigned number has one more byte, and a signed one.
const BORDERS: [i64; 16] = [
    0,
    1,
    0x3F,
    0x40,
    0x7F,
    0x80,
    0x1FFF,
    0x2000,
    0x3FFF,
    0x4000,
    0xF_FFFF,
    0x10_0000,
    0x1F_FFFF,
    0x20_0000,
    0x7FFF_FFFF,
    0xFFFF_FFFF,
];

/// The largest spare capacity: more than the longest instruction.
const SPARE: usize = 48;

/// Encodes unsigned LEB128, as the core specification defines it in Binary Format, Integers.
fn unsigned(number: u64) -> Vec<u8> {
    let mut rest = number;
    let mut bytes = vec![];
    while rest >= 0x80 {
        bytes.push(rest as u8 | 0x80);
        rest >>= 7;
    }
    bytes.push(rest as u8);
    bytes
}

/// Encodes signed LEB128.
fn signed(number: i64) -> Vec<u8> {
    let mut rest = number;
    let mut bytes = vec![];
    while !(-0x40..0x40).contains(&rest) {
        bytes.push(rest as u8 | 0x80);
        rest >>= 7;
    }
    bytes.push(rest as u8 & 0x7F);
    bytes
}

/// Checks a call and a value, with each spare capacity. An empty list of a small capacity is filled
/// by bytes before the instruction.
fn check(
    op: &[u8],
    immediates: Vec<u8>,
    call: impl Fn(&mut InstructionSink),
    value: Instruction<'_>,
) {
    let expected = [op, &immediates].concat();
    for spare in 0..SPARE {
        let mut bytes = Vec::with_capacity(SPARE);
        bytes.resize(bytes.capacity() - spare, 0xAA);
        let before = bytes.len();
        let mut by_value = bytes.clone();
        by_value.reserve_exact(spare);
        call(&mut InstructionSink::new(&mut bytes));
        value.encode(&mut by_value);
        assert_eq!(bytes[before..], expected, "{value:?}, spare {spare}");
        assert_eq!(by_value[before..], expected, "{value:?}, spare {spare}");
        assert!(bytes[..before].iter().all(|byte| *byte == 0xAA));
    }
}

#[test]
fn of_one_number() {
    for number in BORDERS {
        let index = number as u32;
        let value = Instruction::LocalGet(index);
        check(
            &[0x20],
            unsigned(index.into()),
            |sink| _ = sink.local_get(index),
            value,
        );
        let value = Instruction::StructNew(index);
        let call = |sink: &mut InstructionSink| _ = sink.struct_new(index);
        check(&[0xFB, 0], unsigned(index.into()), call, value);
        for number in [number, -number, !number] {
            let value = Instruction::I64Const(number);
            let call = |sink: &mut InstructionSink| _ = sink.i64_const(number);
            check(&[0x42], signed(number), call, value);
            let value = Instruction::I32Const(number as i32);
            let call = |sink: &mut InstructionSink| _ = sink.i32_const(number as i32);
            check(&[0x41], signed((number as i32).into()), call, value);
        }
    }
    for number in [i64::MIN, i64::MAX, 1 << 62, -(1 << 62) - 1] {
        let call = |sink: &mut InstructionSink| _ = sink.i64_const(number);
        check(&[0x42], signed(number), call, Instruction::I64Const(number));
    }
}

#[test]
fn of_two_numbers() {
    for (a, b) in BORDERS.into_iter().flat_map(|a| BORDERS.map(|b| (a, b))) {
        let (a, b) = (a as u32, b as u32);
        let both = [unsigned(a.into()), unsigned(b.into())].concat();
        let value = Instruction::CallIndirect {
            type_index: a,
            table_index: b,
        };
        let call = |sink: &mut InstructionSink| _ = sink.call_indirect(b, a);
        check(&[0x11], both.clone(), call, value);
        let value = Instruction::StructGet {
            struct_type_index: a,
            field_index: b,
        };
        let call = |sink: &mut InstructionSink| _ = sink.struct_get(a, b);
        check(&[0xFB, 2], both.clone(), call, value);
        let ordering = Ordering::AcqRel;
        let value = Instruction::StructAtomicGet {
            ordering,
            struct_type_index: a,
            field_index: b,
        };
        let call = |sink: &mut InstructionSink| _ = sink.struct_atomic_get(ordering, a, b);
        check(&[0xFE, 92], [vec![1], both].concat(), call, value);
        let value = Instruction::GlobalAtomicGet {
            ordering,
            global_index: a,
        };
        let call = |sink: &mut InstructionSink| _ = sink.global_atomic_get(ordering, a);
        let immediates = [vec![1], unsigned(a.into())].concat();
        check(&[0xFE, 79], immediates, call, value);
    }
}

/// The encoding of a memory argument without an ordering: the flags, the index of a memory but 0,
/// and the offset.
fn encoded(memarg: MemArg) -> Vec<u8> {
    let offset = unsigned(memarg.offset);
    match memarg.target {
        MemArgTarget::Memory(0) => [unsigned(memarg.align.into()), offset].concat(),
        MemArgTarget::Memory(index) => {
            let flags = unsigned(u64::from(memarg.align) | 0x40);
            [flags, unsigned(index.into()), offset].concat()
        }
        MemArgTarget::Array(_) => unreachable!("no case has one"),
    }
}

#[test]
fn of_memory_arguments() {
    let offsets = BORDERS.map(|offset| offset as u64);
    let offsets = offsets.into_iter().chain([1 << 32, u64::MAX]);
    for (offset, memory) in offsets.flat_map(|offset| [0, 1, 128].map(|memory| (offset, memory))) {
        for align in [0, 3, 0x3F] {
            let memarg = MemArg {
                offset,
                align,
                target: MemArgTarget::Memory(memory),
                ordering: None,
            };
            let call = |sink: &mut InstructionSink| _ = sink.i32_load(memarg);
            check(&[0x28], encoded(memarg), call, Instruction::I32Load(memarg));
            let call = |sink: &mut InstructionSink| _ = sink.v128_load(memarg);
            let value = Instruction::V128Load(memarg);
            check(&[0xFD, 0], encoded(memarg), call, value);
            let call = |sink: &mut InstructionSink| _ = sink.v128_load8_lane(memarg, 0xFF);
            let value = Instruction::V128Load8Lane { memarg, lane: 0xFF };
            let immediates = [encoded(memarg), vec![0xFF]].concat();
            check(&[0xFD, 84], immediates, call, value);
        }
    }
}

#[test]
fn of_one_size() {
    check(
        &[0x6A],
        vec![],
        |sink| _ = sink.i32_add(),
        Instruction::I32Add,
    );
    let call = |sink: &mut InstructionSink| _ = sink.i16x8_abs();
    check(&[0xFD, 0x80, 0x01], vec![], call, Instruction::I16x8Abs);
    let float = Ieee32::new(0x0403_0201);
    let call = |sink: &mut InstructionSink| _ = sink.f32_const(float);
    check(
        &[0x43],
        vec![1, 2, 3, 4],
        call,
        Instruction::F32Const(float),
    );
    let float = Ieee64::new(0x0807_0605_0403_0201);
    let call = |sink: &mut InstructionSink| _ = sink.f64_const(float);
    let value = Instruction::F64Const(float);
    check(&[0x44], (1..=8).collect(), call, value);
    let call = |sink: &mut InstructionSink| _ = sink.v128_const(-2);
    let bytes = [vec![0xFE], vec![0xFF; 15]].concat();
    check(&[0xFD, 12], bytes, call, Instruction::V128Const(-2));
    let lanes = [0x80; 16];
    let call = |sink: &mut InstructionSink| _ = sink.i8x16_shuffle(lanes);
    let value = Instruction::I8x16Shuffle(lanes);
    check(&[0xFD, 13], lanes.to_vec(), call, value);
    let call = |sink: &mut InstructionSink| _ = sink.i8x16_extract_lane_s(0x80);
    let value = Instruction::I8x16ExtractLaneS(0x80);
    check(&[0xFD, 21], vec![0x80], call, value);
    let call = |sink: &mut InstructionSink| _ = sink.atomic_fence(Ordering::SeqCst);
    let value = Instruction::AtomicFence(Ordering::SeqCst);
    check(&[0xFE, 3], vec![0], call, value);
}

#[test]
fn of_types() {
    let reference = ValType::Ref(RefType {
        nullable: true,
        heap_type: HeapType::Concrete(64),
    });
    for (ty, bytes) in [(ValType::I32, vec![0x7F]), (reference, vec![0x63, 0xC0, 0])] {
        let call = |sink: &mut InstructionSink| _ = sink.typed_select(ty);
        let value = Instruction::TypedSelect(ty);
        check(&[0x1C, 1], bytes.clone(), call, value);
        let value = Instruction::Block(BlockType::Result(ty));
        let call = |sink: &mut InstructionSink| _ = sink.block(BlockType::Result(ty));
        check(&[0x02], bytes, call, value);
    }
    let call = |sink: &mut InstructionSink| _ = sink.loop_(BlockType::Empty);
    let value = Instruction::Loop(BlockType::Empty);
    check(&[0x03], vec![0x40], call, value);
    for index in BORDERS.map(|index| index as u32) {
        let ty = BlockType::FunctionType(index);
        let call = |sink: &mut InstructionSink| _ = sink.if_(ty);
        check(&[0x04], signed(index.into()), call, Instruction::If(ty));
        let ty = HeapType::Concrete(index);
        let call = |sink: &mut InstructionSink| _ = sink.ref_test_non_null(ty);
        let value = Instruction::RefTestNonNull(ty);
        check(&[0xFB, 20], signed(index.into()), call, value);
    }
    let call = |sink: &mut InstructionSink| _ = sink.ref_null(HeapType::FUNC);
    let value = Instruction::RefNull(HeapType::FUNC);
    check(&[0xD0], vec![0x70], call, value);
}

/// Checks that a call appends the proved encoding, after these bytes, to each spare capacity.
fn check_proved(
    front: &[u8],
    value: &impl fallible::Encode,
    call: impl Fn(&mut Vec<u8>),
) -> fallible::Result<()> {
    let mut expected = front.to_vec();
    value.encode(&mut expected)?;
    for spare in 0..SPARE {
        let mut bytes = Vec::with_capacity(spare);
        call(&mut bytes);
        assert_eq!(bytes, expected, "spare {spare}");
        call(&mut bytes);
        assert_eq!(bytes, [&expected[..]; 2].concat(), "spare {spare}");
    }
    Ok(())
}

/// Numbers of all lengths: around each power of two, and their complements.
fn numbers() -> impl Iterator<Item = i64> {
    let powers = (0..64).flat_map(|bits| [1_u64 << bits, (1 << bits) - 1]);
    powers.flat_map(|it| [it, !it]).map(u64::cast_signed)
}

#[test]
fn numbers_alone() -> fallible::Result<()> {
    for number in numbers() {
        let (short, index) = (number as i32, number as u32);
        check_proved(&[], &number, |bytes| number.encode(bytes))?;
        check_proved(&[], &short, |bytes| short.encode(bytes))?;
        check_proved(&[], &index, |bytes| index.encode(bytes))?;
        let function_index = index;
        let section = StartSection { function_index };
        check_proved(&[], &section, |bytes| section.encode(bytes))?;
        let section = DataCountSection { count: index };
        check_proved(&[], &section, |bytes| section.encode(bytes))?;
    }
    Ok(())
}

/// Checks a heap type, and references to it.
fn check_heap_type(heap_type: HeapType) -> fallible::Result<()> {
    check_proved(&[0xD0], &heap_type, |bytes| {
        InstructionSink::new(bytes).ref_null(heap_type);
    })?;
    [false, true].into_iter().try_for_each(|nullable| {
        let reference = RefType {
            nullable,
            heap_type,
        };
        check_val_type(ValType::Ref(reference))
    })
}

fn check_val_type(ty: ValType) -> fallible::Result<()> {
    check_proved(&[0x1C, 1], &ty, |bytes| {
        InstructionSink::new(bytes).typed_select(ty);
    })
}

#[test]
fn types_alone() -> fallible::Result<()> {
    for ty in [ValType::I32, ValType::I64, ValType::F32, ValType::F64] {
        check_val_type(ty)?;
    }
    check_val_type(ValType::V128)?;
    for index in numbers().map(|it| it as u32) {
        check_heap_type(HeapType::Concrete(index))?;
        check_heap_type(HeapType::Exact(index))?;
    }
    for ty in [AbstractHeapType::Func, AbstractHeapType::NoExn] {
        check_heap_type(HeapType::Abstract { shared: true, ty })?;
        check_heap_type(HeapType::Abstract { shared: false, ty })?;
    }
    Ok(())
}

#[test]
fn memory_arguments_alone() -> fallible::Result<()> {
    let orderings = [None, Some(MemArgOrdering::Rmw(Ordering::SeqCst))];
    let targets = [0, 1, u32::MAX].map(MemArgTarget::Memory);
    for target in targets.into_iter().chain([MemArgTarget::Array(0)]) {
        for (offset, align) in numbers().flat_map(|it| [(it, 0x7F), (it, 0x80), (0x7F, it)]) {
            for ordering in orderings {
                let memarg = MemArg {
                    offset: offset as u64,
                    align: align as u32,
                    target,
                    ordering,
                };
                check_proved(&[0x28], &memarg, |bytes| {
                    InstructionSink::new(bytes).i32_load(memarg);
                })?;
            }
        }
    }
    Ok(())
}
