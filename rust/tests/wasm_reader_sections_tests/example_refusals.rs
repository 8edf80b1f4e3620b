// Written by tools/to-rust from tests/wasm_reader_sections_tests/src/example_refusals.rtt: change that.
// Tests of examples, once with ample memory, and with each request failing.

use dolzhytik::fallible::Vec;
use crate::checks::check_bytes;
use crate::examples::{Expr, Operation, Operator, Statement, compile, compile_tree, compiled_module, large_module, lower, object_module};
use dolzhytik::fallible::Global;
use crate::host::Abort;
use crate::test_support::{MOST, Refusing};
use dolzhytik::fallible::{Encode, Refused, Result};

/// Each operation and each operator once.
const OPERATIONS: [Operation; 16] = [
    Operation::Constant(-1),
    Operation::Get(300),
    Operation::Set(1),
    Operation::Binary(Operator::Add),
    Operation::Binary(Operator::Subtract),
    Operation::Binary(Operator::Multiply),
    Operation::Binary(Operator::Equal),
    Operation::Binary(Operator::Less),
    Operation::IsZero,
    Operation::Block,
    Operation::Loop,
    Operation::Branch(1),
    Operation::BranchIf(0),
    Operation::Call(300),
    Operation::Return,
    Operation::End,
];

/// Each expression and each statement.
const TREE: [Statement<'static>; 2] = [
    Statement::Set(0, Expr::Call(300, &[Expr::Constant(-1), Expr::Local(1)])),
    Statement::While(
        Expr::Binary(Operator::Less, &Expr::Local(0), &Expr::Constant(64)),
        &[Statement::Return(Expr::Binary(
            Operator::Add,
            &Expr::Local(0),
            &Expr::Binary(Operator::Equal, &Expr::Local(1), &Expr::Constant(2)),
        ))],
    ),
];

/// The module of three functions: types, functions, exports and code.
const MODULE: &[u8] = b"\0asm\x01\0\0\0\
    \x01\x0C\x02\x60\x02\x7F\x7F\x01\x7F\x60\x01\x7F\x01\x7F\
    \x03\x04\x03\0\x01\x01\
    \x07\x17\x02\x09factorial\0\x01\x07squares\0\x02\
    \x0A\x59\x03\
    \x09\x01\0\x7F\x20\0\x20\x01\x6C\x0B\
    \x27\x01\x01\x7F\x41\x01\x21\x01\x02\x40\x03\x40\x20\0\x45\x0D\x01\x20\x01\x20\0\x10\0\x21\x01\x20\0\x41\x01\x6B\x21\0\x0C\0\x0B\x0B\x20\x01\x0F\x0B\
    \x25\x01\x01\x7F\x02\x40\x03\x40\x20\0\x45\x0D\x01\x20\x01\x20\0\x20\0\x10\0\x6A\x21\x01\x20\0\x41\x01\x6B\x21\0\x0C\0\x0B\x0B\x20\x01\x0B";

/// The module for a linker: types, functions, memories, hints, code, linking and producers.
const OBJECT: &[u8] = b"\0asm\x01\0\0\0\
    \x01\x05\x01\x60\x01\x7F\0\
    \x03\x02\x01\0\
    \x05\x03\x01\0\x01\
    \0\x20\x19metadata.code.branch_hint\x01\0\x01\x09\x01\0\
    \x0A\x1C\x01\x1A\0\x02\x40\x20\0\x28\x02\x08\x45\x0D\0\x20\0\x20\0\x28\x02\x08\x41\x01\x6B\x36\x02\x08\x0B\x0B\
    \0\x1A\x07linking\x02\x08\x0F\x01\0\x20\0\x0Acount_down\
    \0\x29\x09producers\x01\x0Cprocessed-by\x01\x09dolzhytik\x050.1.0";

/// Checks that a function returns these bytes, and `Memory` if a request fails.
///
/// # Asks
///
/// ```text
/// requires { F.IsAlwaysCallable make }
/// ```
fn check_made<'h, F: Fn(&'h Refusing<Global>) -> Result<Vec<u8, &'h Refusing<Global>>>>(
    rt: &impl Abort,
    heap: &'h Refusing<Global>,
    expected: &[u8],
    make: F,
) {
    for nth in 1..MOST {
        heap.refuse(nth);
        let made = make(heap);
        if heap.is_waiting() {
            check_bytes(rt, &made.expect("accepted"), expected);
            assert!(rt; nth > 1);
            return;
        }
        assert_eq!(rt; made.err(), Some(Refused::Memory));
    }
    panic!(rt; "no call was granted")
}

#[test]
fn instruction_of_an_operation() {
    let rt = crate::host::HostRuntime;
    let mut sink = Vec::new(rt.alloc());
    lower(Operation::BranchIf(300))
        .encode(&mut sink)
        .expect("accepted");
    check_bytes(&rt, &sink, b"\x0D\xAC\x02");
}

#[test]
fn function_of_operations() {
    let rt = crate::host::HostRuntime;
    let heap = Refusing::new(rt.alloc());
    let body =
        b"\x01\x02\x7F\x41\x7F\x20\xAC\x02\x21\x01\x6A\x6B\x6C\x46\x48\x45\x02\x40\x03\x40\x0C\x01\x0D\0\x10\xAC\x02\x0F\x0B\x0B";
    check_made(&rt, &heap, body, |heap| {
        Ok(compile(heap, 2, &OPERATIONS)?.into_raw_body())
    })
}

#[test]
fn function_of_a_tree() {
    let rt = crate::host::HostRuntime;
    let heap = Refusing::new(rt.alloc());
    let body =
        b"\x01\x01\x7F\x41\x7F\x20\x01\x10\xAC\x02\x21\0\x02\x40\x03\x40\x20\0\x41\xC0\0\x48\x45\x0D\x01\x20\0\x20\x01\x41\x02\x46\x6A\x0F\x0C\0\x0B\x0B\x0B";
    check_made(&rt, &heap, body, |heap| {
        Ok(compile_tree(heap, 1, &TREE)?.into_raw_body())
    })
}

#[test]
fn module_of_compiled_functions() {
    let rt = crate::host::HostRuntime;
    let heap = Refusing::new(rt.alloc());
    check_made(&rt, &heap, MODULE, |heap| compiled_module(heap))
}

#[test]
fn module_for_a_linker() {
    let rt = crate::host::HostRuntime;
    let heap = Refusing::new(rt.alloc());
    check_made(&rt, &heap, OBJECT, |heap| object_module(heap))
}

#[test]
fn module_of_large_numbers() {
    let rt = crate::host::HostRuntime;
    let heap = Refusing::new(rt.alloc());
    let expected =
        b"\0asm\x01\0\0\0\x05\x08\x01\x05\x01\x80\x80\x80\x80\x20\x06\x0B\x01\x7E\0\x42\x80\x80\x80\x80\x80\x60\x0B";
    check_made(&rt, &heap, expected, |heap| large_module(heap))
}
