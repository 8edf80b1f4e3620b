// Written by tools/to-rust from tests/wasm_sections_tests/src/code.rtt: change that.
// Tests of code: bytes that the format defines.

use dolzhytik::fallible::Vec;
use crate::checks::{check, check_bytes, check_number, check_piece, check_that};
use crate::functions::without_locals;
use crate::calls::bodies::branch_on_one;
use dolzhytik::fallible::Global;
use crate::host::Abort;
use dolzhytik::fallible::{HeapType, Result, Section, ValType, add_all};
use dolzhytik::fallible::{CodeSection, ConstExpr, Function};
use dolzhytik::fallible::{Instruction, MemArg, MemArgTarget};

/// Returns a load of memory 0 at offset 0, of this alignment.
const fn load(align: u32) -> Instruction<'static> {
    Instruction::I32Load(MemArg {
        offset: 0,
        align,
        target: MemArgTarget::Memory(0),
        ordering: None,
    })
}

/// Returns a function without locals that ends at once.
fn empty_function(alloc: Global) -> Result<Function> {
    let mut function = without_locals(alloc)?;
    function.instructions().end()?;
    Ok(function)
}

#[test]
fn expressions() {
    let rt = crate::host::HostRuntime;
    let sum = ConstExpr::i32_const(rt.alloc(), 42)
        .expect("accepted")
        .with_i32_const(1)
        .expect("accepted")
        .with_i32_add()
        .expect("accepted");
    check(&rt, rt.alloc(), &sum, &[0x41, 0x2A, 0x41, 0x01, 0x6A, 0x0B]);
    check(&rt, rt.alloc(), &ConstExpr::empty(rt.alloc()), &[0x0B]);
    let null = ConstExpr::ref_null(rt.alloc(), HeapType::FUNC).expect("accepted");
    check(&rt, rt.alloc(), &null, &[0xD0, 0x70, 0x0B])
}

/// Checks the index.
fn check_index(rt: &impl Abort, index: Option<u32>, expected: Option<u32>) {
    assert_eq!(rt; index, expected);
}

/// Checks the index of a function at the front of the bytes.
fn check_raw(rt: &impl Abort, alloc: Global, bytes: &[u8], expected: Option<u32>) {
    let raw = ConstExpr::raw(alloc, bytes.iter().copied()).expect("accepted");
    check_index(rt, raw.get_ref_func(), expected);
}

#[test]
fn indices_of_functions() {
    let rt = crate::host::HostRuntime;
    let plain = ConstExpr::ref_func(rt.alloc(), 3)
        .expect("accepted")
        .with_i32_add()
        .expect("accepted");
    check_index(&rt, plain.get_ref_func(), Some(3));
    check_index(&rt, ConstExpr::empty(rt.alloc()).get_ref_func(), None);
}

#[test]
fn indices_of_given_bytes() {
    let rt = crate::host::HostRuntime;
    let rows: [(&[u8], Option<u32>); 5] = [
        (&[0xD2], None),
        (&[0xD2, 0x83, 0x00], Some(3)),
        (&[0xD2, 0x80, 0x80, 0x80, 0x80, 0x10], None),
        (&[0xD2, 0xFF, 0xFF, 0xFF, 0xFF, 0x0F], Some(4294967295)),
        (&[0x41, 0xD2, 0x03], None),
    ];
    for (bytes, expected) in rows {
        check_raw(&rt, rt.alloc(), bytes, expected);
    }
}

/// Checks a code section of one function or raw body.
fn check_body(rt: &impl Abort, alloc: Global, body: &[u8], expected: &[u8]) {
    let mut code = CodeSection::new(alloc);
    code.raw(body).expect("accepted");
    check(rt, alloc, &code, expected)
}

/// Checks a code section of the function, and one of its raw body.
fn check_function(rt: &impl Abort, alloc: Global, function: Function, expected: &[u8]) {
    let mut code = CodeSection::new(alloc);
    code.function(&function).expect("accepted");
    check(rt, alloc, &code, expected);
    check_body(rt, alloc, &function.into_raw_body(), expected)
}

#[test]
fn locals() {
    let rt = crate::host::HostRuntime;
    let mut function = Function::new(rt.alloc(), [(1, ValType::I32), (1, ValType::F32)]).expect(
        "accepted",
    );
    function
        .instruction(&Instruction::End)
        .expect("accepted");
    check_function(&rt, rt.alloc(), function, &[8, 1, 6, 2, 1, 127, 1, 125, 11])
}

#[test]
fn locals_by_their_types() {
    let rt = crate::host::HostRuntime;
    let types = [
        ValType::I32,
        ValType::I32,
        ValType::I64,
        ValType::F32,
        ValType::F32,
        ValType::F32,
        ValType::I32,
        ValType::I64,
        ValType::I64,
    ];
    let function = Function::new_with_locals_types(rt.alloc(), types).expect("accepted");
    let runs = [
        (2, ValType::I32),
        (1, ValType::I64),
        (3, ValType::F32),
        (1, ValType::I32),
        (2, ValType::I64),
    ];
    check_that(
        &rt,
        function == Function::new(rt.alloc(), runs).expect("accepted"),
    );
    check_bytes(
        &rt,
        &function.into_raw_body(),
        &[5, 2, 0x7F, 1, 0x7E, 3, 0x7D, 1, 0x7F, 2, 0x7E],
    );
}

#[test]
fn no_locals() {
    let rt = crate::host::HostRuntime;
    let without = Function::new_with_locals_types(rt.alloc(), []).expect("accepted");
    check_bytes(&rt, &without.into_raw_body(), &[0]);
}

/// A function to which instructions are added, and which is encoded alone.
#[test]
fn functions() {
    let rt = crate::host::HostRuntime;
    let mut function = without_locals(rt.alloc()).expect("accepted");
    check_number(&rt, function.byte_len(), 1);
    function.raw([0x0B]).expect("accepted");
    check_number(&rt, function.byte_len(), 2);
    check(&rt, rt.alloc(), &function, &[2, 0, 11]);
    check_bytes(&rt, &function.into_raw_body(), &[0, 11]);
}

#[test]
fn offsets() {
    let rt = crate::host::HostRuntime;
    let mut function = without_locals(rt.alloc()).expect("accepted");
    check_number(&rt, branch_on_one(&mut function).expect("accepted"), 3);
    let expected = [0x00, 0x41, 0x01, 0x04, 0x40, 0x0B, 0x0B];
    check_bytes(&rt, &function.into_raw_body(), &expected);
}

/// The next instruction is at the offset that was the length of the body.
#[test]
fn the_next_place() {
    let rt = crate::host::HostRuntime;
    let mut function = without_locals(rt.alloc()).expect("accepted");
    function.instructions().i32_const(1).expect("accepted");
    let place = function.byte_len();
    check_number(&rt, place, 3);
    function
        .instruction(&Instruction::Nop)
        .expect("accepted");
    check_place(&rt, &function.into_raw_body(), place);
}

/// Checks that the body is a constant, and a `Nop` at this offset.
fn check_place(rt: &impl Abort, body: &[u8], place: usize) {
    assert_eq!(rt; body.get(place), Some(&0x01));
    assert_eq!(rt; body, [0x00, 0x41, 0x01, 0x01].as_slice());
}

#[test]
fn empty_code_sections() {
    let rt = crate::host::HostRuntime;
    let code: CodeSection = CodeSection::new(rt.alloc());
    check_that(&rt, code.is_empty());
    check_number(&rt, usize::from(code.id()), 10);
    check(&rt, rt.alloc(), &code, &[1, 0])
}

/// Checks the entries, each an empty body.
fn check_entries(rt: &impl Abort, code: &CodeSection, len: u32, byte_len: usize) {
    assert_eq!(rt;
        (code.len(), code.byte_len(), code.is_empty()),
        (len, byte_len, false)
    );
    for place in 0..len {
        assert_eq!(rt; code.piece(place), Some([2, 0, 11].as_slice()));
    }
    check_piece(rt, code.piece(len), None);
}

#[test]
fn code_sections() {
    let rt = crate::host::HostRuntime;
    let mut code = CodeSection::new(rt.alloc());
    code.raw(&[0, 11]).expect("accepted");
    check_entries(&rt, &code, 1, 3);
    code.function(&empty_function(rt.alloc()).expect("accepted"))
        .expect("accepted");
    check_entries(&rt, &code, 2, 6);
    check(&rt, rt.alloc(), &code, &[7, 2, 2, 0, 11, 2, 0, 11])
}

#[test]
fn all_functions() {
    let rt = crate::host::HostRuntime;
    let mut functions = Vec::new(rt.alloc());
    functions
        .push(empty_function(rt.alloc()).expect("accepted"))
        .expect("accepted");
    functions
        .push(Function::new_with_locals_types(rt.alloc(), [ValType::I32]).expect("accepted"))
        .expect("accepted");
    let mut code = CodeSection::new(rt.alloc());
    check_that(&rt, add_all(&mut code, &functions).is_ok());
    check(&rt, rt.alloc(), &code, &[8, 2, 2, 0, 11, 3, 1, 1, 127])
}

/// The sum of two arguments.
#[test]
fn a_sum() {
    let rt = crate::host::HostRuntime;
    let mut function = without_locals(rt.alloc()).expect("accepted");
    let mut instructions = function.instructions();
    instructions.local_get(0).expect("accepted");
    instructions.local_get(1).expect("accepted");
    instructions.i32_add().expect("accepted");
    instructions.end().expect("accepted");
    let mut code = CodeSection::new(rt.alloc());
    code.function(&function).expect("accepted");
    let mut sink = Vec::new(rt.alloc());
    code.append_to(&mut sink).expect("accepted");
    check_bytes(&rt, &sink, &[10, 9, 1, 7, 0, 0x20, 0, 0x20, 1, 0x6A, 0x0B]);
}

/// Bodies are encoded as they are passed, whether they decode or not.
#[test]
fn given_bodies() {
    let rt = crate::host::HostRuntime;
    let rows: [(&[u8], &[u8]); 3] = [
        (&[0, 11], &[4, 1, 2, 0, 11]),
        (&[0, 65, 0, 11], &[6, 1, 4, 0, 65, 0, 11]),
        (&[128, 0, 11], &[5, 1, 3, 128, 0, 11]),
    ];
    for (body, expected) in rows {
        check_body(&rt, rt.alloc(), body, expected);
    }
}

#[test]
fn alignments_of_16() {
    let rt = crate::host::HostRuntime;
    let mut function = without_locals(rt.alloc()).expect("accepted");
    function.instruction(&load(16)).expect("accepted");
    check_function(&rt, rt.alloc(), function, &[6, 1, 4, 0, 40, 16, 0])
}

#[test]
fn alignments_of_16_before_the_end() {
    let rt = crate::host::HostRuntime;
    let mut function = without_locals(rt.alloc()).expect("accepted");
    function.instruction(&load(16)).expect("accepted");
    function.instructions().end().expect("accepted");
    check_bytes(
        &rt,
        &function.into_raw_body(),
        &[0x00, 0x28, 0x10, 0x00, 0x0B],
    );
}

/// Neither piece encodes instructions, and both together do.
#[test]
fn pieces_of_an_instruction() {
    let rt = crate::host::HostRuntime;
    let mut function = without_locals(rt.alloc()).expect("accepted");
    function.raw([65]).expect("accepted");
    function.raw([1, 11]).expect("accepted");
    check_bytes(&rt, &function.into_raw_body(), &[0x00, 0x41, 0x01, 0x0B]);
}
