// Written by tools/to-rust from tests/wasm_insn_tests/src/encode_refusals.rtt: change that.
// Tests of `encode` of numbers, types and immediates, with each request for memory failing in turn:
// the result is `Memory`, and the sink is unchanged.

use dolzhytik::fallible::{Vec, String};
use crate::checks::check_refusals;
use dolzhytik::fallible::{AbstractHeapType, CowSlice, CowStr, HeapType, RefType, ValType};
use dolzhytik::fallible::{BlockType, Catch, Handle, Ieee32, Ieee64, MemArg, MemArgOrdering, MemArgTarget, Op, Ordering};

#[test]
fn numbers() {
    let rt = crate::host::HostRuntime;
    let alloc = rt.alloc();
    check_refusals(&rt, alloc, &7u32, &[7]);
    check_refusals(&rt, alloc, &u32::MAX, &[0xFF, 0xFF, 0xFF, 0xFF, 0x0F]);
    let longest = [0xFF, 0xFF, 0xFF, 0xFF, 0xFF, 0xFF, 0xFF, 0xFF, 0xFF, 0x01];
    check_refusals(&rt, alloc, &u64::MAX, &longest);
    check_refusals(&rt, alloc, &300u64, &[0xAC, 0x02]);
    check_refusals(&rt, alloc, &300usize, &[0xAC, 0x02]);
    check_refusals(
        &rt,
        alloc,
        &4294967295usize,
        &[0xFF, 0xFF, 0xFF, 0xFF, 0x0F],
    );
    let least = [0x80, 0x80, 0x80, 0x80, 0x80, 0x80, 0x80, 0x80, 0x80, 0x7F];
    check_refusals(&rt, alloc, &i64::MIN, &least);
    check_refusals(&rt, alloc, &-65i64, &[0xBF, 0x7F])
}

#[test]
fn heap_types() {
    let rt = crate::host::HostRuntime;
    let alloc = rt.alloc();
    check_refusals(&rt, alloc, &AbstractHeapType::Any, &[0x6E]);
    check_refusals(&rt, alloc, &HeapType::FUNC, &[0x70]);
    let shared_any = HeapType::Abstract {
        shared: true,
        ty: AbstractHeapType::Any,
    };
    check_refusals(&rt, alloc, &shared_any, &[0x65, 0x6E]);
    let last = [0xFF, 0xFF, 0xFF, 0xFF, 0x0F];
    check_refusals(&rt, alloc, &HeapType::Concrete(4294967295), &last);
    let exact = [0x62, 0xFF, 0xFF, 0xFF, 0xFF, 0x0F];
    check_refusals(&rt, alloc, &HeapType::Exact(4294967295), &exact)
}

/// A reference to the exact type of the last index, which is never null.
const EXACT: RefType = RefType {
    nullable: false,
    heap_type: HeapType::Exact(4294967295),
};

#[test]
fn reference_and_value_types() {
    let rt = crate::host::HostRuntime;
    let alloc = rt.alloc();
    let exact = [0x64, 0x62, 0xFF, 0xFF, 0xFF, 0xFF, 0x0F];
    check_refusals(&rt, alloc, &RefType::EXTERNREF, &[0x6F]);
    check_refusals(&rt, alloc, &EXACT, &exact);
    check_refusals(&rt, alloc, &ValType::V128, &[0x7B]);
    check_refusals(&rt, alloc, &ValType::Ref(EXACT), &exact)
}

/// A list of 1 and two largest numbers.
const LIST: [u32; 3] = [1, 4294967295, 4294967295];

/// Its bytes.
const LIST_BYTES: [u8; 12] = [
    3, 1, 0xFF, 0xFF, 0xFF, 0xFF, 0x0F, 0xFF, 0xFF, 0xFF, 0xFF, 0x0F,
];

#[test]
fn slices() {
    let rt = crate::host::HostRuntime;
    let alloc = rt.alloc();
    let borrowed: CowSlice<'_, u32> = CowSlice::Borrowed(&LIST);
    check_refusals(&rt, alloc, &borrowed, &LIST_BYTES);
    let owned = Vec::from_slice(alloc, &LIST).expect("accepted");
    let owned: CowSlice<'_, u32> = CowSlice::Owned(owned);
    check_refusals(&rt, alloc, &owned, &LIST_BYTES)
}

#[test]
fn texts() {
    let rt = crate::host::HostRuntime;
    let alloc = rt.alloc();
    let borrowed: CowStr<'_> = CowStr::Borrowed("processed-by");
    check_refusals(&rt, alloc, &borrowed, b"\x0Cprocessed-by");
    let owned = String::from_str(alloc, "processed-by").expect("accepted");
    let owned: CowStr<'_> = CowStr::Owned(owned);
    check_refusals(&rt, alloc, &owned, b"\x0Cprocessed-by")
}

#[test]
fn memory_arguments() {
    let rt = crate::host::HostRuntime;
    let alloc = rt.alloc();
    let short = MemArg {
        offset: 4,
        align: 2,
        target: MemArgTarget::Memory(0),
        ordering: None,
    };
    check_refusals(&rt, alloc, &short, &[0x02, 0x04]);
    let long = MemArg {
        offset: 18446744073709551615,
        align: 3,
        target: MemArgTarget::Memory(4294967295),
        ordering: Some(MemArgOrdering::Rmw(Ordering::AcqRel)),
    };
    let expected = [
        0x53, 0xFF, 0xFF, 0xFF, 0xFF, 0x0F, 0x11, 0xFF, 0xFF, 0xFF, 0xFF, 0xFF, 0xFF, 0xFF, 0xFF,
        0xFF, 0x01,
    ];
    check_refusals(&rt, alloc, &long, &expected);
    let array = MemArg {
        target: MemArgTarget::Array(1),
        ..short
    };
    check_refusals(&rt, alloc, &array, &[0x22, 0x01, 0x04])
}

#[test]
fn orderings() {
    let rt = crate::host::HostRuntime;
    let alloc = rt.alloc();
    check_refusals(&rt, alloc, &Ordering::SeqCst, &[0x00]);
    check_refusals(&rt, alloc, &Ordering::AcqRel, &[0x01]);
    check_refusals(&rt, alloc, &MemArgOrdering::Op(Ordering::SeqCst), &[0x00]);
    check_refusals(&rt, alloc, &MemArgOrdering::Op(Ordering::AcqRel), &[0x01]);
    check_refusals(&rt, alloc, &MemArgOrdering::Rmw(Ordering::SeqCst), &[0x00]);
    check_refusals(&rt, alloc, &MemArgOrdering::Rmw(Ordering::AcqRel), &[0x11])
}

#[test]
fn blocks() {
    let rt = crate::host::HostRuntime;
    let alloc = rt.alloc();
    check_refusals(&rt, alloc, &BlockType::Empty, &[0x40]);
    let exact = [0x64, 0x62, 0xFF, 0xFF, 0xFF, 0xFF, 0x0F];
    check_refusals(&rt, alloc, &BlockType::Result(ValType::Ref(EXACT)), &exact);
    let last = [0xFF, 0xFF, 0xFF, 0xFF, 0x0F];
    check_refusals(&rt, alloc, &BlockType::FunctionType(4294967295), &last)
}

#[test]
fn clauses() {
    let rt = crate::host::HostRuntime;
    let alloc = rt.alloc();
    let (tag, label) = (4294967295, 300);
    let one = [0x00, 0xFF, 0xFF, 0xFF, 0xFF, 0x0F, 0xAC, 0x02];
    check_refusals(&rt, alloc, &Catch::One { tag, label }, &one);
    let one_ref = [0x01, 0xFF, 0xFF, 0xFF, 0xFF, 0x0F, 0xAC, 0x02];
    check_refusals(&rt, alloc, &Catch::OneRef { tag, label }, &one_ref);
    check_refusals(&rt, alloc, &Catch::All { label }, &[0x02, 0xAC, 0x02]);
    check_refusals(&rt, alloc, &Catch::AllRef { label }, &[0x03, 0xAC, 0x02]);
    check_refusals(&rt, alloc, &Handle::OnLabel { tag, label }, &one);
    let switch = [0x01, 0xFF, 0xFF, 0xFF, 0xFF, 0x0F];
    check_refusals(&rt, alloc, &Handle::OnSwitch { tag }, &switch)
}

#[test]
fn floats_and_opcodes() {
    let rt = crate::host::HostRuntime;
    let alloc = rt.alloc();
    check_refusals(&rt, alloc, &Ieee32::new(0x3F80_0000), &[0, 0, 0x80, 0x3F]);
    let one = [0, 0, 0, 0, 0, 0, 0xF0, 0x3F];
    check_refusals(&rt, alloc, &Ieee64::new(0x3FF0_0000_0000_0000), &one);
    check_refusals(&rt, alloc, &Op::Byte(0x6A), &[0x6A]);
    check_refusals(&rt, alloc, &Op::Prefixed(0xFD, 275), &[0xFD, 0x93, 0x02])
}
