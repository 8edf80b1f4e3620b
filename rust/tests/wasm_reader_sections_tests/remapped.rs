// Written by tools/to-rust from tests/wasm_reader_sections_tests/src/remapped.rtt: change that.
// Tests of maps of indices, with each request for memory refused in turn.

use crate::checks::{check_bytes, is_want_of_memory};
use crate::read_back::remapped::{Last, NextFunction, loses_offsets, next_start, payload_with_room, spaces_of_table_copy, with_exchanged, with_room};
use crate::test_support::{MOST, Refusing};
use dolzhytik::reader::{Items, Offsets, Sections};
use dolzhytik::reader::remap::{IndexSpace, RemapError, remap_module};

/// A module whose only function calls itself, is exported and is the start function, and a custom
/// section that holds offsets.
const CALLS: &[u8] = &[
    0, b'a', b's', b'm', 1, 0, 0, 0, // header
    1, 4, 1, 0x60, 0, 0, // a type without parameters and results
    3, 2, 1, 0, // a function of type 0
    7, 5, 1, 1, b'f', 0, 0, // its export
    8, 1, 0, // the start function
    10, 6, 1, 4, 0, 0x10, 0, 0x0B, // call 0, end
    0, 10, 8, b'.', b'd', b'e', b'b', b'u', b'g', b'_', b'x', 42,
];

/// The same with the next function.
const NEXT: &[u8] = &[
    0, b'a', b's', b'm', 1, 0, 0, 0, // header
    1, 4, 1, 0x60, 0, 0, // the type
    3, 2, 1, 0, // of type 0
    7, 5, 1, 1, b'f', 0, 1, // the export
    8, 1, 1, // the start function
    10, 6, 1, 4, 0, 0x10, 1, 0x0B, // call 1, end
];

/// A module with a start section of the last function.
const LAST: &[u8] = &[
    0, b'a', b's', b'm', 1, 0, 0, 0, 8, 5, 0xFF, 0xFF, 0xFF, 0xFF, 0x0F,
];

/// A module whose body calls the last function, before a byte that is no opcode.
const WRONG: &[u8] = &[
    0, b'a', b's', b'm', 1, 0, 0, 0, // header
    10, 10, 1, 8, 0, 0x10, 0xFF, 0xFF, 0xFF, 0xFF, 0x0F, 0xFF,
];

#[test]
fn modules() {
    let rt = crate::host::HostRuntime;
    let heap = Refusing::new(rt.alloc());
    for nth in 1..MOST {
        heap.refuse(nth);
        match with_room(CALLS, &heap) {
            Ok(module) => {
                check_bytes(&rt, &module, NEXT);
                assert!(rt; heap.is_waiting(), "no request was refused");
                return;
            }
            Err(error) => assert!(rt; is_want_of_memory(&error), "another error"),
        }
    }
    panic!(rt; "no call was granted")
}

#[test]
fn exchanged() {
    let rt = crate::host::HostRuntime;
    let heap = Refusing::new(rt.alloc());
    for nth in 1..MOST {
        heap.refuse(nth);
        match with_exchanged(CALLS, 0, 1, &heap) {
            Ok(module) => {
                check_bytes(&rt, &module, NEXT);
                assert!(rt; heap.is_waiting(), "no request was refused");
                return;
            }
            Err(error) => assert!(rt; is_want_of_memory(&error), "another error"),
        }
    }
    panic!(rt; "no call was granted")
}

#[test]
fn sections() {
    let rt = crate::host::HostRuntime;
    let mut sections = Sections::new(rt.alloc(), CALLS).expect("a module");
    while let Some(section) = sections.next() {
        let section = section.expect("a section");
        let payload = payload_with_room(&section, rt.alloc()).expect("items");
        match section.id() {
            8 => check_bytes(&rt, &payload, &[1]),
            10 => check_bytes(&rt, &payload, &[1, 4, 0, 0x10, 1, 0x0B]),
            _ => {}
        }
        assert_eq!(rt; loses_offsets(&section), section.name().is_some());
    }
}

#[test]
fn items() {
    let rt = crate::host::HostRuntime;
    match next_start(6, rt.alloc()).expect("an index") {
        Items::Start(index) => assert_eq!(rt; index, 7),
        _ => assert!(rt; false, "a start section"),
    }
    let tables = Some(IndexSpace::Tables);
    assert_eq!(rt; spaces_of_table_copy(), (tables, tables))
}

#[test]
fn errors() {
    let rt = crate::host::HostRuntime;
    let rejected = with_room(LAST, rt.alloc()).err();
    assert_eq!(rt; rejected, Some(RemapError::Index(Last)));
    let offsets = remap_module(CALLS, rt.alloc(), &NextFunction, Offsets::Refuse).err();
    assert_eq!(rt; offsets, Some(RemapError::Offsets(36)));
    let cut = with_room(&CALLS[..9], rt.alloc()).err();
    assert!(rt; matches!(cut, Some(RemapError::Read(_))), "not a module");
    let wrong = with_room(WRONG, rt.alloc()).err();
    assert!(rt; matches!(wrong, Some(RemapError::Read(_))), "not a body")
}
