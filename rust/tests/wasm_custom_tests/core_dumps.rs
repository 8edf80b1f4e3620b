// Written by tools/to-rust from tests/wasm_custom_tests/src/core_dumps.rtt: change that.
// Tests of core dumps: each call once, with ample memory.

use crate::checks::{check, check_bytes, check_len, check_text};
use dolzhytik::fallible::Global;
use crate::host::Abort;
use dolzhytik::fallible::{CoreDumpInstancesSection, CoreDumpModulesSection, CoreDumpSection, CoreDumpStackSection, CoreDumpValue, CustomSection};
use dolzhytik::fallible::{Ieee32, Ieee64};

#[test]
fn process() {
    let rt = crate::host::HostRuntime;
    let section = CoreDumpSection::new(rt.alloc(), "test").expect("accepted");
    check(&rt, rt.alloc(), &section, b"\x0B\x04core\x00\x04test");
    check(
        &rt,
        rt.alloc(),
        &section.clone().expect("accepted"),
        b"\x0B\x04core\x00\x04test",
    )
}

/// Checks the name and the data of the custom section.
fn check_custom(rt: &impl Abort, section: &CustomSection<'_>, name: &[u8], bytes: &[u8]) {
    check_bytes(rt, section.name.as_str().as_bytes(), name);
    check_bytes(rt, section.bytes.as_slice(), bytes);
}

#[test]
fn modules() {
    let rt = crate::host::HostRuntime;
    let mut section = CoreDumpModulesSection::new(rt.alloc());
    check_len(&rt, section.len(), section.is_empty(), 0);
    section.module("mod1").expect("accepted");
    section.module("mod2").expect("accepted");
    check_len(&rt, section.len(), section.is_empty(), 2);
    check(
        &rt,
        rt.alloc(),
        &section,
        b"\x19\x0Bcoremodules\x02\x00\x04mod1\x00\x04mod2",
    );
    check_custom(
        &rt,
        &section.as_custom(rt.alloc()).expect("accepted"),
        b"coremodules",
        b"\x02\x00\x04mod1\x00\x04mod2",
    );
}

#[test]
fn instances() {
    let rt = crate::host::HostRuntime;
    let mut section = CoreDumpInstancesSection::new(rt.alloc());
    check_len(&rt, section.len(), section.is_empty(), 0);
    section.instance(0, [42], [17]).expect("accepted");
    check_len(&rt, section.len(), section.is_empty(), 1);
    check(
        &rt,
        rt.alloc(),
        &section,
        b"\x15\x0Dcoreinstances\x01\x00\x00\x01\x2A\x01\x11",
    );
    check_custom(
        &rt,
        &section.as_custom(rt.alloc()).expect("accepted"),
        b"coreinstances",
        &[1, 0, 0, 1, 42, 1, 17],
    );
}

#[test]
fn stack() {
    let rt = crate::host::HostRuntime;
    let mut section = CoreDumpStackSection::new(rt.alloc(), "main").expect("accepted");
    section
        .frame(0, 42, 51, [CoreDumpValue::I32(1)], [CoreDumpValue::I32(2)])
        .expect("accepted");
    check(
        &rt,
        rt.alloc(),
        &section,
        b"\x1B\x09corestack\x00\x04main\x01\x00\x00\x2A\x33\x01\x7F\x01\x01\x7F\x02",
    );
    check_custom(
        &rt,
        &section.as_custom(rt.alloc()).expect("accepted"),
        b"corestack",
        b"\x00\x04main\x01\x00\x00\x2A\x33\x01\x7F\x01\x01\x7F\x02",
    );
}

#[test]
fn copied_stack() {
    let rt = crate::host::HostRuntime;
    let section = CoreDumpStackSection::new(rt.alloc(), "main").expect("accepted");
    check(
        &rt,
        rt.alloc(),
        &section.clone().expect("accepted"),
        b"\x11\x09corestack\x00\x04main\x00",
    )
}

/// Checks that the value encodes to these bytes.
fn check_value(rt: &impl Abort, alloc: Global, value: CoreDumpValue, expected: &[u8]) {
    check_text(rt, alloc, &value, expected)
}

#[test]
fn values() {
    let rt = crate::host::HostRuntime;
    check_value(&rt, rt.alloc(), CoreDumpValue::Missing, &[0x01]);
    check_value(&rt, rt.alloc(), CoreDumpValue::I32(-64), &[0x7F, 0x40]);
    check_value(&rt, rt.alloc(), CoreDumpValue::I64(64), &[0x7E, 0xC0, 0x00]);
    check_value(
        &rt,
        rt.alloc(),
        CoreDumpValue::F32(Ieee32::new(1)),
        &[0x7D, 1, 0, 0, 0],
    );
    check_value(
        &rt,
        rt.alloc(),
        CoreDumpValue::F64(Ieee64::new(258)),
        &[0x7C, 2, 1, 0, 0, 0, 0, 0, 0],
    )
}
