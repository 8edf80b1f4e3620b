// Written by tools/to-rust from tests/wasm_types_tests/src/calls.rtt: change that.
// Tests of each call of a type section once, with ample memory.

use crate::checks::{check, check_bytes, check_len, check_piece, check_that};
use crate::samples::{BYTE, FLOAT, bytes, continuation, described, function, sub};
use dolzhytik::fallible::Global;
use dolzhytik::fallible::{Encode, HeapType, Module, RefType, ValType, add_all};
use dolzhytik::reader::Padded;
use dolzhytik::fallible::{ContType, FuncType, StorageType, SubType, TypeSection, read_types};
use dolzhytik::fallible::laws::types as laws;

/// A nullable reference to the type 5.
const REFERENCE: RefType = RefType {
    nullable: true,
    heap_type: HeapType::Concrete(5),
};

#[test]
fn functions() {
    let rt = crate::host::HostRuntime;
    let mut section = TypeSection::new(rt.alloc());
    check_len(&rt, section.len(), section.is_empty(), 0);
    check(&rt, rt.alloc(), &section, &[1, 0]);
    section
        .ty()
        .function([ValType::I32, ValType::I32], [ValType::I32])
        .expect("accepted");
    section.ty().function([], []).expect("accepted");
    check_len(&rt, section.len(), section.is_empty(), 2);
    check(
        &rt,
        rt.alloc(),
        &section,
        &[10, 2, 0x60, 2, 0x7F, 0x7F, 1, 0x7F, 0x60, 0, 0],
    );
    check_piece(&rt, section.piece(1), Some(&[0x60, 0, 0]));
    check_piece(&rt, section.piece(2), None);
}

/// Entries that are already encoded, and decoded ones: a function type, and a group of an array
/// type whose count is padded.
#[test]
fn raw_and_decoded() {
    let rt = crate::host::HostRuntime;
    let mut section = TypeSection::new(rt.alloc());
    section.raw(&[0x60, 0, 0]).expect("accepted");
    let types = read_types::<Global, Padded>(
        &[2, 0x60, 0, 1, 0x7F, 0x4E, 0x81, 0, 0x5E, 0x78, 1],
        rt.alloc(),
    )
    .expect("read");
    let added = add_all(&mut section, &types);
    check_that(&rt, added.is_ok());
    check_len(&rt, section.len(), section.is_empty(), 3);
    check(
        &rt,
        rt.alloc(),
        &section,
        &[13, 3, 0x60, 0, 0, 0x60, 0, 1, 0x7F, 0x4E, 1, 0x5E, 0x78, 1],
    );
}

/// A derived `Debug` string.
#[test]
fn debug_of_an_encoder() {
    let rt = crate::host::HostRuntime;
    let mut section = TypeSection::new(rt.alloc());
    let encoder = section.ty();
    let text = format!(in rt.alloc(); "{encoder:?}").expect("accepted");
    let begins = "CoreTypeEncoderIn { section: TypeSectionIn { ";
    check_that(&rt, text.as_str().starts_with(begins));
}

#[test]
fn references() {
    let rt = crate::host::HostRuntime;
    let params = [ValType::Ref(RefType::FUNCREF)];
    let mut section = TypeSection::new(rt.alloc());
    section
        .ty()
        .function(params, [ValType::Ref(REFERENCE)])
        .expect("accepted");
    check(
        &rt,
        rt.alloc(),
        &section,
        &[7, 1, 0x60, 1, 0x70, 1, 0x63, 5],
    )
}

#[test]
fn function_type() {
    let rt = crate::host::HostRuntime;
    laws::types();
    laws::padded();
    laws::calls();
    laws::padded_calls();
    laws::payloads();
    laws::padded_payloads();
    laws::rejections();
    let ty: FuncType = function(rt.alloc()).expect("accepted");
    let mut section = TypeSection::new(rt.alloc());
    section.ty().func_type(&ty).expect("accepted");
    check(
        &rt,
        rt.alloc(),
        &section,
        &[7, 1, 0x60, 2, 0x7F, 0x7E, 1, 0x7D],
    )
}

#[test]
fn arrays() {
    let rt = crate::host::HostRuntime;
    let mut section = TypeSection::new(rt.alloc());
    section
        .ty()
        .array(&StorageType::I8, true)
        .expect("accepted");
    section
        .ty()
        .array(&StorageType::I16, false)
        .expect("accepted");
    section
        .ty()
        .array(&StorageType::Val(ValType::I64), true)
        .expect("accepted");
    check(
        &rt,
        rt.alloc(),
        &section,
        &[10, 3, 0x5E, 0x78, 1, 0x5E, 0x77, 0, 0x5E, 0x7E, 1],
    )
}

#[test]
fn structures() {
    let rt = crate::host::HostRuntime;
    let mut section = TypeSection::new(rt.alloc());
    section.ty().struct_([BYTE, FLOAT]).expect("accepted");
    section.ty().struct_([]).expect("accepted");
    check(
        &rt,
        rt.alloc(),
        &section,
        &[9, 2, 0x5F, 2, 0x78, 1, 0x7C, 0, 0x5F, 0],
    )
}

#[test]
fn continuations() {
    let rt = crate::host::HostRuntime;
    let mut section = TypeSection::new(rt.alloc());
    section.ty().cont(&ContType(63)).expect("accepted");
    section.ty().cont(&ContType(64)).expect("accepted");
    check(
        &rt,
        rt.alloc(),
        &section,
        &[6, 2, 0x5D, 0x3F, 0x5D, 0xC0, 0],
    )
}

#[test]
fn subtypes() {
    let rt = crate::host::HostRuntime;
    let ty: SubType = described(rt.alloc()).expect("accepted");
    let mut section = TypeSection::new(rt.alloc());
    section.ty().subtype(&ty).expect("accepted");
    check(
        &rt,
        rt.alloc(),
        &section,
        &[
            16, 1, 0x50, 1, 1, 0x65, 0x4C, 2, 0x4D, 0xAC, 2, 0x5F, 2, 0x78, 1, 0x7C, 0,
        ],
    )
}

#[test]
fn groups() {
    let rt = crate::host::HostRuntime;
    let open: SubType = sub(false, None, bytes());
    let closed: SubType = sub(true, Some(0), continuation());
    let alone: SubType = sub(true, None, bytes());
    let mut section = TypeSection::new(rt.alloc());
    section.ty().rec([open, closed]).expect("accepted");
    section.ty().rec([alone]).expect("accepted");
    check_len(&rt, section.len(), section.is_empty(), 2);
    check(
        &rt,
        rt.alloc(),
        &section,
        &[
            18, 2, 0x4E, 2, 0x50, 0, 0x5E, 0x78, 1, 0x4F, 1, 0, 0x5D, 0x3F, 0x4E, 1, 0x5E, 0x78, 1,
        ],
    )
}

#[test]
fn no_call_and_copies() {
    let rt = crate::host::HostRuntime;
    let mut section = TypeSection::new(rt.alloc());
    drop(section.ty());
    check_len(&rt, section.len(), section.is_empty(), 0);
    section.ty().cont(&ContType(1)).expect("accepted");
    let mut same = section.clone().expect("accepted");
    same.ty().cont(&ContType(2)).expect("accepted");
    check(&rt, rt.alloc(), &same, &[5, 2, 0x5D, 1, 0x5D, 2]);
    check(&rt, rt.alloc(), &section, &[3, 1, 0x5D, 1])
}

#[test]
fn module() {
    let rt = crate::host::HostRuntime;
    let mut section = TypeSection::new(rt.alloc());
    section
        .ty()
        .function([ValType::I32], [])
        .expect("accepted");
    let mut module = Module::new(rt.alloc()).expect("accepted");
    module.section(&section).expect("accepted");
    check_bytes(
        &rt,
        &module.finish(),
        &[0, 0x61, 0x73, 0x6D, 1, 0, 0, 0, 1, 5, 1, 0x60, 1, 0x7F, 0],
    )
}
