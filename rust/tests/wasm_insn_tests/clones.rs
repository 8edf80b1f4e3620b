// Written by tools/to-rust from tests/wasm_insn_tests/src/clones.rtt: change that.
//! Tests of clones: a clone allocates for the lists that an instruction owns, and returns `Memory`
//! if that fails.

use dolzhytik::fallible::Vec;
use crate::checks::{check_refused, check_row};
use dolzhytik::fallible::Global;
use crate::host::Abort;
use crate::test_support::{Heap, Refusing};
use dolzhytik::fallible::{CowSlice, Result, ValType};
use dolzhytik::fallible::{BlockType, Catch, Handle, Instruction};

/// Checks that the clone makes one request, which fails and is then granted. The instruction is
/// unchanged.
fn check_clone(
    rt: &impl Abort,
    alloc: Global,
    heap: Heap<'_>,
    instruction: &Instruction<'_, Heap<'_>>,
    row: &str,
) {
    heap.refuse(1);
    check_refused(rt, instruction.clone().err());
    check_row(rt, alloc, &instruction.clone().expect("accepted"), row);
    check_row(rt, alloc, instruction, row)
}

/// The bytes of the instructions below.
static ROWS: [&str; 6] = [
    "0e02010203",
    "1c027f7e",
    "1f40010205",
    "e301010102",
    "e40103010102",
    "e501010102",
];

/// Returns the instruction of this index in `ROWS`, which owns its list.
fn owned<'h>(heap: Heap<'h>, place: usize) -> Result<Instruction<'static, Heap<'h>>> {
    Ok(match place {
        0 => Instruction::BrTable(CowSlice::Owned(Vec::from_slice(heap, &[1, 2])?), 3),
        1 => {
            let types = Vec::from_slice(heap, &[ValType::I32, ValType::I64])?;
            Instruction::TypedSelectMulti(CowSlice::Owned(types))
        }
        2 => {
            let catches = Vec::from_slice(heap, &[Catch::All { label: 5 }])?;
            Instruction::TryTable(BlockType::Empty, CowSlice::Owned(catches))
        }
        3 => Instruction::Resume {
            cont_type_index: 1,
            resume_table: handles(heap)?,
        },
        4 => Instruction::ResumeThrow {
            cont_type_index: 1,
            tag_index: 3,
            resume_table: handles(heap)?,
        },
        _ => Instruction::ResumeThrowRef {
            cont_type_index: 1,
            resume_table: handles(heap)?,
        },
    })
}

/// Returns one handle, owned.
fn handles<'h>(heap: Heap<'h>) -> Result<CowSlice<'static, Handle, Heap<'h>>> {
    let handles = Vec::from_slice(heap, &[Handle::OnSwitch { tag: 2 }])?;
    Ok(CowSlice::Owned(handles))
}

#[test]
fn owned_lists() {
    let rt = crate::host::HostRuntime;
    let heap = Refusing::new(rt.alloc());
    for (place, row) in ROWS.iter().enumerate() {
        check_clone(
            &rt,
            rt.alloc(),
            &heap,
            &owned(&heap, place).expect("accepted"),
            row,
        );
    }
}

/// An instruction that borrows its labels is cloned without an allocation.
#[test]
fn borrowed_labels() {
    let rt = crate::host::HostRuntime;
    let heap = Refusing::new(rt.alloc());
    let labels: CowSlice<'_, u32, Heap<'_>> = CowSlice::Borrowed(&[1, 2]);
    let instruction = Instruction::BrTable(labels, 3);
    heap.refuse_all();
    check_row(
        &rt,
        rt.alloc(),
        &instruction.clone().expect("accepted"),
        "0e02010203",
    )
}
