// Written by tools/to-rust from tests/wasm_custom_tests/src/names.rtt: change that.
// Tests of the name section and its maps: each call once, with ample memory. Calls with a map as
// argument are in `refusals.rt`, where each succeeds in the end.

use crate::checks::{check, check_bytes, check_len, check_text, check_that};
use dolzhytik::fallible::{IndirectNameMap, NameMap, NameSection};

#[test]
fn module() {
    let rt = crate::host::HostRuntime;
    let mut section = NameSection::new(rt.alloc());
    check_len(&rt, section.len(), section.is_empty(), 0);
    check(&rt, rt.alloc(), &section, b"\x05\x04name");
    section.module("m").expect("accepted");
    check_len(&rt, section.len(), section.is_empty(), 1);
    check(&rt, rt.alloc(), &section, b"\x09\x04name\x00\x02\x01m");
    section.raw(20, &[9]).expect("accepted");
    check(
        &rt,
        rt.alloc(),
        &section.clone().expect("accepted"),
        b"\x0C\x04name\x00\x02\x01m\x14\x01\x09",
    )
}

#[test]
fn raw() {
    let rt = crate::host::HostRuntime;
    let mut section = NameSection::new(rt.alloc());
    section.raw(20, &[9]).expect("accepted");
    check(&rt, rt.alloc(), &section, b"\x08\x04name\x14\x01\x09")
}

#[test]
fn as_custom() {
    let rt = crate::host::HostRuntime;
    let mut section = NameSection::new(rt.alloc());
    section.module("m").expect("accepted");
    let custom = section.as_custom();
    check_bytes(&rt, custom.name.as_str().as_bytes(), b"name");
    check_bytes(&rt, custom.bytes.as_slice(), b"\x00\x02\x01m");
    check(&rt, rt.alloc(), &custom, b"\x09\x04name\x00\x02\x01m")
}

#[test]
fn entries_of_maps() {
    let rt = crate::host::HostRuntime;
    let mut map = NameMap::new(rt.alloc());
    check_that(&rt, map.is_empty());
    check_text(&rt, rt.alloc(), &map, &[0]);
    map.append(300, "b").expect("accepted");
    map.append(2, "").expect("accepted");
    map.members_law();
    check_len(&rt, map.len(), map.is_empty(), 2);
    check_text(
        &rt,
        rt.alloc(),
        &map.clone().expect("accepted"),
        b"\x02\xAC\x02\x01b\x02\x00",
    )
}

#[test]
fn entries_of_indirect_maps() {
    let rt = crate::host::HostRuntime;
    let mut map = IndirectNameMap::new(rt.alloc());
    check_len(&rt, map.len(), map.is_empty(), 0);
    let inner: NameMap = NameMap::new(rt.alloc());
    map.append(300, &inner).expect("accepted");
    check_len(&rt, map.len(), map.is_empty(), 1);
    check_text(
        &rt,
        rt.alloc(),
        &map.clone().expect("accepted"),
        &[1, 0xAC, 0x02, 0],
    )
}
