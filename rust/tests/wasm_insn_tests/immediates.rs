// Written by tools/to-rust from tests/wasm_insn_tests/src/immediates.rtt: change that.
//! Tests of values whose bytes are known from the format's documents.

use crate::checks::check;
use dolzhytik::fallible::{AbstractHeapType, HeapType, RefType, ValType};
use dolzhytik::fallible::{BlockType, Catch, Handle, Ieee32, Ieee64, MemArg, MemArgOrdering, MemArgTarget, Op, Ordering};

const ANY: HeapType = HeapType::Abstract {
    shared: false,
    ty: AbstractHeapType::Any,
};

#[test]
fn types() {
    let rt = crate::host::HostRuntime;
    let shared_any = HeapType::Abstract {
        shared: true,
        ty: AbstractHeapType::Any,
    };
    check(&rt, rt.alloc(), &HeapType::FUNC, &[0x70]);
    check(&rt, rt.alloc(), &HeapType::EXTERN, &[0x6F]);
    check(&rt, rt.alloc(), &HeapType::Concrete(64), &[0xC0, 0x00]);
    check(&rt, rt.alloc(), &HeapType::Exact(5), &[0x62, 0x05]);
    check(&rt, rt.alloc(), &shared_any, &[0x65, 0x6E]);

    check(&rt, rt.alloc(), &RefType::FUNCREF, &[0x70]);
    check(&rt, rt.alloc(), &RefType::EXTERNREF, &[0x6F]);
    let func = RefType {
        nullable: false,
        heap_type: HeapType::FUNC,
    };
    check(&rt, rt.alloc(), &ValType::Ref(func), &[0x64, 0x70]);
    check(&rt, rt.alloc(), &ValType::I32, &[0x7F]);
    check(&rt, rt.alloc(), &ValType::V128, &[0x7B]);
}

#[test]
fn blocks() {
    let rt = crate::host::HostRuntime;
    let any = ValType::Ref(RefType {
        nullable: true,
        heap_type: ANY,
    });
    check(&rt, rt.alloc(), &BlockType::Empty, &[0x40]);
    check(&rt, rt.alloc(), &BlockType::Result(any), &[0x63, 0x6E]);
    check(&rt, rt.alloc(), &BlockType::FunctionType(63), &[0x3F]);
    check(&rt, rt.alloc(), &BlockType::FunctionType(64), &[0xC0, 0x00]);
    let last = BlockType::FunctionType(4294967295);
    check(&rt, rt.alloc(), &last, &[0xFF, 0xFF, 0xFF, 0xFF, 0x0F]);
}

#[test]
fn memory_arguments() {
    let rt = crate::host::HostRuntime;
    let memory = MemArg {
        offset: 4,
        align: 2,
        target: MemArgTarget::default(),
        ordering: None,
    };
    let other = MemArg {
        target: MemArgTarget::Memory(1),
        ..memory
    };
    let array = MemArg {
        target: MemArgTarget::Array(0),
        ..memory
    };
    check(&rt, rt.alloc(), &memory, &[0x02, 0x04]);
    check(&rt, rt.alloc(), &other, &[0x42, 0x01, 0x04]);
    check(&rt, rt.alloc(), &array, &[0x22, 0x00, 0x04]);

    for (align, bytes) in [(16, &[0x10u8, 0x04] as &[u8]), (128, &[0x80, 0x01, 0x04])] {
        let wide = MemArg { align, ..memory };
        check(&rt, rt.alloc(), &wide, bytes);
    }
}

#[test]
fn ordered_memory_arguments() {
    let rt = crate::host::HostRuntime;
    let ordered = |ordering: MemArgOrdering| MemArg {
        offset: 0,
        align: 2,
        target: MemArgTarget::Memory(0),
        ordering: Some(ordering),
    };
    let op = ordered(MemArgOrdering::Op(Ordering::SeqCst));
    let rmw = ordered(MemArgOrdering::Rmw(Ordering::SeqCst));
    let weak = ordered(MemArgOrdering::Rmw(Ordering::AcqRel));
    check(&rt, rt.alloc(), &op, &[0x12, 0x00, 0x00]);
    check(&rt, rt.alloc(), &rmw, &[0x12, 0x00, 0x00]);
    check(&rt, rt.alloc(), &weak, &[0x12, 0x11, 0x00]);

    let third = MemArg {
        offset: 8,
        target: MemArgTarget::Memory(3),
        ..ordered(MemArgOrdering::Op(Ordering::AcqRel))
    };
    check(&rt, rt.alloc(), &third, &[0x52, 0x03, 0x01, 0x08]);
    check(&rt, rt.alloc(), &Ordering::AcqRel, &[0x01]);
}

#[test]
fn clauses_floats_and_opcodes() {
    let rt = crate::host::HostRuntime;
    let one = Catch::One { tag: 0, label: 1 };
    check(&rt, rt.alloc(), &one, &[0x00, 0x00, 0x01]);
    check(&rt, rt.alloc(), &Catch::AllRef { label: 2 }, &[0x03, 0x02]);
    let on_label = Handle::OnLabel { tag: 3, label: 4 };
    check(&rt, rt.alloc(), &on_label, &[0x00, 0x03, 0x04]);

    let float = Ieee32::new(1065353216);
    assert_eq!(rt; float.bits(), 0x3F80_0000);
    check(&rt, rt.alloc(), &float, &[0x00, 0x00, 0x80, 0x3F]);
    let float = Ieee64::new(0x3FF0_0000_0000_0000);
    assert_eq!(rt; float.bits(), 0x3FF0_0000_0000_0000);
    check(&rt, rt.alloc(), &float, &[0, 0, 0, 0, 0, 0, 0xF0, 0x3F]);

    check(&rt, rt.alloc(), &Op::Byte(0x6A), &[0x6A]);
    check(
        &rt,
        rt.alloc(),
        &Op::Prefixed(0xFD, 128),
        &[0xFD, 0x80, 0x01],
    );
}
