// Written by tools/to-rust from tests/wasm_reader_sections_tests/src/inserted.rtt: change that.
// Tests of sections and imports that are inserted, with each request for memory refused in turn.

use crate::checks::{check_bytes, is_want_of_memory};
use crate::read_back::inserted::{with_calls, with_counter, with_hit, with_start, with_traces};
use crate::test_support::{MOST, Refusing};
use dolzhytik::fallible::{RawSection, Refused};
use dolzhytik::reader::remap::{IndexSpace, IndexTooLarge, Position, RemapError, insert_section};

/// A module whose only function calls itself, is exported and is the start function.
const CALLS: &[u8] = &[
    0, b'a', b's', b'm', 1, 0, 0, 0, // header
    1, 4, 1, 0x60, 0, 0, // a type without parameters and results
    3, 2, 1, 0, // a function of type 0
    7, 5, 1, 1, b'f', 0, 0, // its export
    8, 1, 0, // the start function
    10, 6, 1, 4, 0, 0x10, 0, 0x0B, // call 0, end
];

/// The same with an import before it.
const HIT: &[u8] = &[
    0, b'a', b's', b'm', 1, 0, 0, 0, // header
    1, 4, 1, 0x60, 0, 0, // the type
    2, 12, 1, 4, b'h', b'o', b's', b't', 3, b'h', b'i', b't', 0, 0, // the import
    3, 2, 1, 0, // of type 0
    7, 5, 1, 1, b'f', 0, 1, // the export
    8, 1, 1, // the start function
    10, 6, 1, 4, 0, 0x10, 1, 0x0B, // call 1, end
];

/// The same with two imports.
const TWICE: &[u8] = &[
    0, b'a', b's', b'm', 1, 0, 0, 0, // header
    1, 4, 1, 0x60, 0, 0, // the type
    2, 23, 2, 4, b'h', b'o', b's', b't', 3, b'h', b'i', b't', 0, 0, // an import
    4, b'h', b'o', b's', b't', 3, b'h', b'i', b't', 0, 0, // and the one before
    3, 2, 1, 0, // of type 0
    7, 5, 1, 1, b'f', 0, 2, // the export
    8, 1, 2, // the start function
    10, 6, 1, 4, 0, 0x10, 2, 0x0B, // call 2, end
];

/// A module of the last function as the start function.
const LAST: &[u8] = &[
    0, b'a', b's', b'm', 1, 0, 0, 0, 8, 5, 0xFF, 0xFF, 0xFF, 0xFF, 0x0F,
];

#[test]
fn imports() {
    let rt = crate::host::HostRuntime;
    let heap = Refusing::new(rt.alloc());
    for nth in 1..MOST {
        heap.refuse(nth);
        match with_hit(CALLS, &heap) {
            Ok(module) => {
                check_bytes(&rt, &module, HIT);
                assert!(rt; heap.is_waiting(), "no request was refused");
                return;
            }
            Err(error) => assert!(rt; is_want_of_memory(&error), "another error"),
        }
    }
    panic!(rt; "no call was granted")
}

#[test]
fn imports_before_others() {
    let rt = crate::host::HostRuntime;
    let module = with_hit(HIT, rt.alloc()).expect("an import");
    check_bytes(&rt, &module, TWICE);
    let error = with_hit(LAST, rt.alloc()).err();
    let last = IndexTooLarge {
        space: IndexSpace::Functions,
        index: u32::MAX,
    };
    assert_eq!(rt; error, Some(RemapError::Index(last)));
}

/// A module without sections.
const EMPTY: &[u8] = &[0, b'a', b's', b'm', 1, 0, 0, 0];

/// A module of a counter.
const COUNTER: &[u8] = &[
    0, b'a', b's', b'm', 1, 0, 0, 0, // header
    6, 6, 1, 0x7F, 1, 0x41, 0, 0x0B, // a mutable global: i32.const 0, end
];

/// A module of an `i64` of 1, whose count is padded, and of code.
const GLOBAL: &[u8] = &[
    0, b'a', b's', b'm', 1, 0, 0, 0, // header
    6, 7, 0x81, 0, 0x7E, 0, 0x42, 1, 0x0B, // i64.const 1, end
    10, 4, 1, 2, 0, 0x0B, // end
];

/// The same with a counter behind the global.
const BOTH: &[u8] = &[
    0, b'a', b's', b'm', 1, 0, 0, 0, // header
    6, 11, 2, 0x7E, 0, 0x42, 1, 0x0B, 0x7F, 1, 0x41, 0, 0x0B, // both
    10, 4, 1, 2, 0, 0x0B, // end
];

#[test]
fn members_behind_others() {
    let rt = crate::host::HostRuntime;
    let heap = Refusing::new(rt.alloc());
    for nth in 1..MOST {
        heap.refuse(nth);
        match with_counter(GLOBAL, &heap) {
            Ok(module) => {
                check_bytes(&rt, &module, BOTH);
                assert!(rt; heap.is_waiting(), "no request was refused");
                let module = with_counter(EMPTY, rt.alloc()).expect("a global");
                check_bytes(&rt, &module, COUNTER);
                return;
            }
            Err(error) => assert!(rt; is_want_of_memory(&error), "another error"),
        }
    }
    panic!(rt; "no call was granted")
}

#[test]
fn start_functions() {
    let rt = crate::host::HostRuntime;
    let module = with_start(CALLS, 5, rt.alloc()).expect("a start section");
    assert_eq!(rt; module.len(), CALLS.len());
    check_bytes(&rt, &module[25..30], &[8, 1, 5, 10, 6]);
    let module = with_start(GLOBAL, 0, rt.alloc()).expect("a start section");
    check_bytes(&rt, &module[17..22], &[8, 1, 0, 10, 4]);
}

/// A module of two bodies, of which the first has locals.
const BODIES: &[u8] = &[
    0, b'a', b's', b'm', 1, 0, 0, 0, // header
    3, 3, 2, 0, 0, // two functions
    10, 10, 2, 4, 1, 1, 0x7F, 0x0B, // a local, end
    3, 0, 1, 0x0B, // nop, end
    0, 2, 1, b'c', // a custom section
];

/// The same where each body first calls function 0.
const CALLING: &[u8] = &[
    0, b'a', b's', b'm', 1, 0, 0, 0, // header
    3, 3, 2, 0, 0, // two functions
    10, 14, 2, 6, 1, 1, 0x7F, 0x10, 0, 0x0B, // a local, call 0, end
    5, 0, 0x10, 0, 1, 0x0B, // call 0, nop, end
    0, 2, 1, b'c', // a custom section
];

#[test]
fn code() {
    let rt = crate::host::HostRuntime;
    let heap = Refusing::new(rt.alloc());
    for nth in 1..MOST {
        heap.refuse(nth);
        match with_calls(BODIES, &heap) {
            Ok(module) => {
                check_bytes(&rt, &module, CALLING);
                assert!(rt; heap.is_waiting(), "no request was refused");
                let module = with_calls(COUNTER, rt.alloc()).expect("no code");
                check_bytes(&rt, &module, COUNTER);
                return;
            }
            Err(error) => assert!(rt; is_want_of_memory(&error), "another error"),
        }
    }
    panic!(rt; "no call was granted")
}

/// Sections that have a place in the order of the standard, and others.
#[test]
fn places() {
    let rt = crate::host::HostRuntime;
    let types = RawSection { id: 1, bytes: &[0] };
    let custom = RawSection {
        id: 0,
        bytes: &[1, b'c'],
    };
    let tags = RawSection {
        id: 13,
        bytes: &[0],
    };
    let insert = |bytes: &[u8], section: &RawSection<'_>| {
        insert_section(bytes, rt.alloc(), section, Position::First).expect("a section")
    };
    // A custom section stays in front of the first other one, and a new one is the last.
    let first = insert(EMPTY, &custom);
    let second = insert(&first, &types);
    let third = insert(&second, &custom);
    check_bytes(&rt, &third[8..], &[0, 2, 1, b'c', 1, 1, 0, 0, 2, 1, b'c']);
    // Tags are between types and globals.
    let fourth = insert(&GLOBAL[..17], &tags);
    check_bytes(&rt, &fourth[8..12], &[13, 1, 0, 6]);
    let fifth = insert(&third, &tags);
    check_bytes(&rt, &fifth[12..], &[1, 1, 0, 13, 1, 0, 0, 2, 1, b'c']);
}

/// The first of two sections of an id, and ids that are not lists of the standard.
#[test]
fn sections_of_one_id() {
    let rt = crate::host::HostRuntime;
    let insert = |bytes: &[u8], section: &RawSection<'_>, position| {
        insert_section(bytes, rt.alloc(), section, position).expect("a section")
    };
    let members = RawSection {
        id: 1,
        bytes: &[1, 7],
    };
    // Two type sections, the first with a padded size.
    let two = [
        0, b'a', b's', b'm', 1, 0, 0, 0, 1, 0x82, 0, 1, 8, 1, 2, 1, 9,
    ];
    let last = insert(&two, &members, Position::Last);
    check_bytes(&rt, &last[8..], &[1, 3, 2, 8, 7, 1, 2, 1, 9]);
    let instead = insert(&two, &members, Position::Instead);
    check_bytes(&rt, &instead[8..], &[1, 2, 1, 7, 1, 2, 1, 9]);
    let alone = insert(EMPTY, &members, Position::Instead);
    check_bytes(&rt, &alone[8..], &[1, 2, 1, 7]);
    // An id that the standard lacks, and a custom section: they have no members.
    for id in [0, 14] {
        let section = RawSection {
            id,
            bytes: &[1, b'c'],
        };
        let once = insert(&two[..13], &section, Position::Instead);
        let twice = insert(&once, &section, Position::Instead);
        check_bytes(&rt, &twice[12..], &[id, 2, 1, b'c', id, 2, 1, b'c']);
    }
    // The data count is a number, and other sections do not change it.
    let count = RawSection {
        id: 12,
        bytes: &[5],
    };
    let counted = insert(EMPTY, &count, Position::First);
    let counted = insert(&counted, &count, Position::Last);
    check_bytes(&rt, &counted[8..], &[12, 1, 5]);
}

#[test]
fn errors() {
    let rt = crate::host::HostRuntime;
    let cut = with_hit(&CALLS[..9], rt.alloc()).err();
    assert!(rt; matches!(cut, Some(RemapError::Read(_))), "not a module");
    // Neither the old section nor the new one has a count.
    let globals = [0, b'a', b's', b'm', 1, 0, 0, 0, 6, 0];
    let error = with_counter(&globals, rt.alloc()).err();
    match error {
        Some(RemapError::Read(error)) => assert_eq!(rt; error.offset, 8),
        _ => assert!(rt; false, "another error"),
    }
    let empty = RawSection { id: 6, bytes: &[] };
    match insert_section(GLOBAL, rt.alloc(), &empty, Position::Last) {
        Err(RemapError::Read(error)) => assert_eq!(rt; error.offset, GLOBAL.len()),
        _ => assert!(rt; false, "another error"),
    }
    // The sum of both counts is 2^32.
    let full = [
        0, b'a', b's', b'm', 1, 0, 0, 0, 6, 5, 0xFF, 0xFF, 0xFF, 0xFF, 0x0F,
    ];
    let error = with_counter(&full, rt.alloc()).err();
    assert_eq!(rt; error, Some(RemapError::Refused(Refused::TooLong)));
}

/// A module of two bodies: one calls function 1 in a block, and the other calls nothing.
const CALLERS: &[u8] = &[
    0, b'a', b's', b'm', 1, 0, 0, 0, // header
    3, 3, 2, 0, 0, // two functions
    10, 13, 2, 8, 0, 0x02, 0x40, 0x10, 0x81, 0, 0x0B, 0x0B, // block, call 1, end, end
    2, 0, 0x0B, // end
    0, 2, 1, b'c', // a custom section
];

/// The same where function 0 is called before that call, which keeps its padded number.
const TRACED: &[u8] = &[
    0, b'a', b's', b'm', 1, 0, 0, 0, // header
    3, 3, 2, 0, 0, // two functions
    10, 15, 2, 10, 0, 0x02, 0x40, 0x10, 0, 0x10, 0x81, 0, 0x0B, 0x0B, // call 0, call 1
    2, 0, 0x0B, // end
    0, 2, 1, b'c', // a custom section
];

#[test]
fn code_before_calls() {
    let rt = crate::host::HostRuntime;
    let heap = Refusing::new(rt.alloc());
    for nth in 1..MOST {
        heap.refuse(nth);
        match with_traces(CALLERS, &heap) {
            Ok(module) => {
                check_bytes(&rt, &module, TRACED);
                assert!(rt; heap.is_waiting(), "no request was refused");
                let module = with_traces(COUNTER, rt.alloc()).expect("no code");
                check_bytes(&rt, &module, COUNTER);
                return;
            }
            Err(error) => assert!(rt; is_want_of_memory(&error), "another error"),
        }
    }
    panic!(rt; "no call was granted")
}
