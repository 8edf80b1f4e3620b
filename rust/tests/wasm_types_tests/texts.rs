// Written by tools/to-rust from tests/wasm_types_tests/src/texts.rtt: change that.
// Tests of the encoding of each type, with ample memory.

use dolzhytik::fallible::Vec;
use crate::checks::check_text;
use crate::samples::{
    BYTE, FLOAT, bytes, continuation, described, final_function, function, plain, structure, sub,
};
use dolzhytik::fallible::Global;
use crate::host::Abort;
use dolzhytik::fallible::{RefType, ValType};
use dolzhytik::fallible::{ArrayType, CompositeInnerType, CompositeType, ContType, FuncType, StorageType, SubType};

#[test]
fn storage_types() {
    let rt = crate::host::HostRuntime;
    check_text(&rt, rt.alloc(), &StorageType::I8, &[0x78]);
    check_text(&rt, rt.alloc(), &StorageType::I16, &[0x77]);
    check_text(&rt, rt.alloc(), &StorageType::Val(ValType::I32), &[0x7F]);
    check_text(&rt, rt.alloc(), &StorageType::Val(ValType::V128), &[0x7B]);
    check_text(
        &rt,
        rt.alloc(),
        &StorageType::Val(ValType::Ref(RefType::EXTERNREF)),
        &[0x6F],
    );
}

#[test]
fn fields() {
    let rt = crate::host::HostRuntime;
    check_text(&rt, rt.alloc(), &BYTE, &[0x78, 1]);
    check_text(&rt, rt.alloc(), &FLOAT, &[0x7C, 0]);
    check_text(&rt, rt.alloc(), &ArrayType(FLOAT), &[0x5E, 0x7C, 0]);
}

#[test]
fn continuations() {
    let rt = crate::host::HostRuntime;
    check_text(&rt, rt.alloc(), &ContType(63), &[0x5D, 0x3F]);
    check_text(&rt, rt.alloc(), &ContType(64), &[0x5D, 0xC0, 0]);
    check_text(
        &rt,
        rt.alloc(),
        &ContType(4294967295),
        &[0x5D, 0xFF, 0xFF, 0xFF, 0xFF, 0x0F],
    );
}

/// Checks the parameters and results.
fn check_lists(rt: &impl Abort, ty: &FuncType, params: &[ValType], results: &[ValType]) {
    assert_eq!(rt; ty.params(), params);
    assert_eq!(rt; ty.results(), results);
}

#[test]
fn functions() {
    let rt = crate::host::HostRuntime;
    let ty: FuncType = function(rt.alloc()).expect("accepted");
    check_text(&rt, rt.alloc(), &ty, &[0x60, 2, 0x7F, 0x7E, 1, 0x7D]);
    check_lists(&rt, &ty, &[ValType::I32, ValType::I64], &[ValType::F32]);
    let same = ty.clone().expect("accepted");
    check_text(&rt, rt.alloc(), &same, &[0x60, 2, 0x7F, 0x7E, 1, 0x7D]);
    let params = Vec::new(rt.alloc());
    let results = Vec::from_slice(rt.alloc(), &[ValType::V128]).expect("accepted");
    let ty: FuncType = FuncType::of(params, results);
    check_text(&rt, rt.alloc(), &ty, &[0x60, 0, 1, 0x7B])
}

#[test]
fn structures() {
    let rt = crate::host::HostRuntime;
    let ty = structure(rt.alloc()).expect("accepted");
    check_text(&rt, rt.alloc(), &ty, &[0x5F, 2, 0x78, 1, 0x7C, 0]);
    let same = ty.clone().expect("accepted");
    check_text(&rt, rt.alloc(), &same, &[0x5F, 2, 0x78, 1, 0x7C, 0])
}

/// Checks that the inner type and a copy of it encode to these bytes.
fn check_inner(rt: &impl Abort, alloc: Global, inner: CompositeInnerType, expected: &[u8]) {
    check_text(rt, alloc, &inner, expected);
    let same = inner.clone().expect("accepted");
    check_text(rt, alloc, &same, expected)
}

#[test]
fn inner_types() {
    let rt = crate::host::HostRuntime;
    let ty = function(rt.alloc()).expect("accepted");
    check_inner(
        &rt,
        rt.alloc(),
        CompositeInnerType::Func(ty),
        &[0x60, 2, 0x7F, 0x7E, 1, 0x7D],
    );
    check_inner(
        &rt,
        rt.alloc(),
        CompositeInnerType::Array(ArrayType(BYTE)),
        &[0x5E, 0x78, 1],
    );
    let ty = structure(rt.alloc()).expect("accepted");
    check_inner(
        &rt,
        rt.alloc(),
        CompositeInnerType::Struct(ty),
        &[0x5F, 2, 0x78, 1, 0x7C, 0],
    );
    check_inner(
        &rt,
        rt.alloc(),
        CompositeInnerType::Cont(ContType(1)),
        &[0x5D, 1],
    )
}

/// Checks that the composite type and a copy of it encode to these bytes.
fn check_composite(rt: &impl Abort, alloc: Global, ty: CompositeType, expected: &[u8]) {
    check_text(rt, alloc, &ty, expected);
    let same = ty.clone().expect("accepted");
    check_text(rt, alloc, &same, expected)
}

#[test]
fn composite_types() {
    let rt = crate::host::HostRuntime;
    check_composite(&rt, rt.alloc(), bytes(), &[0x5E, 0x78, 1]);
    let mut shared = bytes();
    shared.shared = true;
    check_composite(&rt, rt.alloc(), shared, &[0x65, 0x5E, 0x78, 1]);
    let mut describing = bytes();
    describing.describes = Some(128);
    check_composite(&rt, rt.alloc(), describing, &[0x4C, 0x80, 1, 0x5E, 0x78, 1]);
    let mut described = bytes();
    described.descriptor = Some(3);
    check_composite(&rt, rt.alloc(), described, &[0x4D, 3, 0x5E, 0x78, 1]);
    check_composite(
        &rt,
        rt.alloc(),
        plain(CompositeInnerType::Cont(ContType(0))),
        &[0x5D, 0],
    )
}

/// Checks that the subtype and a copy of it encode to these bytes.
fn check_sub(rt: &impl Abort, alloc: Global, ty: SubType, expected: &[u8]) {
    check_text(rt, alloc, &ty, expected);
    let same = ty.clone().expect("accepted");
    check_text(rt, alloc, &same, expected)
}

#[test]
fn final_subtypes() {
    let rt = crate::host::HostRuntime;
    check_sub(&rt, rt.alloc(), sub(true, None, bytes()), &[0x5E, 0x78, 1]);
    check_sub(
        &rt,
        rt.alloc(),
        sub(true, Some(200), continuation()),
        &[0x4F, 1, 0xC8, 1, 0x5D, 0x3F],
    );
    let ty = final_function(rt.alloc()).expect("accepted");
    check_sub(&rt, rt.alloc(), ty, &[0x60, 2, 0x7F, 0x7E, 1, 0x7D])
}

#[test]
fn open_subtypes() {
    let rt = crate::host::HostRuntime;
    check_sub(
        &rt,
        rt.alloc(),
        sub(false, None, bytes()),
        &[0x50, 0, 0x5E, 0x78, 1],
    );
    check_sub(
        &rt,
        rt.alloc(),
        sub(false, Some(1), bytes()),
        &[0x50, 1, 1, 0x5E, 0x78, 1],
    );
    let ty = described(rt.alloc()).expect("accepted");
    check_sub(
        &rt,
        rt.alloc(),
        ty,
        &[
            0x50, 1, 1, 0x65, 0x4C, 2, 0x4D, 0xAC, 2, 0x5F, 2, 0x78, 1, 0x7C, 0,
        ],
    )
}
