// Written by tools/to-rust from tests/wasm_reader_sections_tests/src/removed.rtt: change that.
// Tests of functions that are removed, with each request for memory refused in turn.

use crate::checks::{check_bytes, is_want_of_memory};
use crate::read_back::removed::without_unused;
use dolzhytik::fallible::Allocator;
use crate::test_support::{MOST, Refusing};
use dolzhytik::reader::Offsets;
use dolzhytik::reader::remap::{RemapError, RemoveError, remove_functions};

/// A module that imports function 0, and defines functions 1 to 4. Function 4 is exported and calls
/// function 2, which calls function 0. Functions 1 and 3 call each other.
const FIVE: &[u8] = &[
    0, b'a', b's', b'm', 1, 0, 0, 0, // header
    1, 4, 1, 0x60, 0, 0, // a type without parameters and results
    2, 7, 1, 1, b'm', 1, b'f', 0, 0, // function 0
    3, 5, 4, 0, 0, 0, 0, // functions 1 to 4, of type 0
    7, 5, 1, 1, b'e', 0, 4, // the export of function 4
    10, 21, 4, // four bodies
    4, 0, 0x10, 3, 0x0B, // call 3, end
    4, 0, 0x10, 0, 0x0B, // call 0, end
    4, 0, 0x10, 1, 0x0B, // call 1, end
    4, 0, 0x10, 2, 0x0B, // call 2, end
    0, 30, 4, b'n', b'a', b'm', b'e', // names
    1, 10, 3, 0, 1, b'a', 1, 1, b'b', 4, 1, b'c', // of functions 0, 1 and 4
    2, 11, 2, 3, 1, 0, 1, b'x', 2, 1, 0, 1, b'y', // of locals of functions 3 and 2
];

/// The same without functions 1 and 3: functions 2 and 4 become 1 and 2.
const THREE: &[u8] = &[
    0, b'a', b's', b'm', 1, 0, 0, 0, // header
    1, 4, 1, 0x60, 0, 0, // the type
    2, 7, 1, 1, b'm', 1, b'f', 0, 0, // function 0
    3, 3, 2, 0, 0, // functions 1 and 2
    7, 5, 1, 1, b'e', 0, 2, // the export of function 2
    10, 11, 2, // two bodies
    4, 0, 0x10, 0, 0x0B, // call 0, end
    4, 0, 0x10, 1, 0x0B, // call 1, end
    0, 22, 4, b'n', b'a', b'm', b'e', // names
    1, 7, 2, 0, 1, b'a', 2, 1, b'c', // of functions 0 and 2
    2, 6, 1, 1, 1, 0, 1, b'y', // of a local of function 1
];

/// A module of two functions, the last of which is exported.
const TWO: &[u8] = &[
    0, b'a', b's', b'm', 1, 0, 0, 0, // header
    1, 4, 1, 0x60, 0, 0, // a type without parameters and results
    3, 3, 2, 0, 0, // functions 0 and 1
    7, 5, 1, 1, b'e', 0, 1, // the export of function 1
    10, 9, 2, 4, 0, 0x10, 1, 0x0B, 2, 0, 0x0B, // call 1, end; end
];

/// The same without function 0.
const ONE: &[u8] = &[
    0, b'a', b's', b'm', 1, 0, 0, 0, // header
    1, 4, 1, 0x60, 0, 0, // the type
    3, 2, 1, 0, // function 0
    7, 5, 1, 1, b'e', 0, 0, // its export
    10, 4, 1, 2, 0, 0x0B, // end
];

#[test]
fn unused() {
    let rt = crate::host::HostRuntime;
    let module = without_unused(FIVE, rt.alloc()).expect("a module");
    check_bytes(&rt, &module, THREE);
}

#[test]
fn unused_refusals() {
    let rt = crate::host::HostRuntime;
    let heap = Refusing::new(rt.alloc());
    for nth in 1..MOST {
        heap.refuse(nth);
        match without_unused(TWO, &heap) {
            Ok(module) => {
                check_bytes(&rt, &module, ONE);
                assert!(rt; heap.is_waiting(), "no request was refused");
                return;
            }
            Err(error) => assert!(rt; is_want_of_memory(&error), "another error"),
        }
    }
    panic!(rt; "no call was granted")
}

#[test]
fn functions() {
    let rt = crate::host::HostRuntime;
    let heap = Refusing::new(rt.alloc());
    for nth in 1..MOST {
        heap.refuse(nth);
        let removed = [false, true, false, true, false];
        match remove_functions(FIVE, &heap, &removed, Offsets::Refuse) {
            Ok(module) => {
                check_bytes(&rt, &module, THREE);
                assert!(rt; heap.is_waiting(), "no request was refused");
                return;
            }
            Err(error) => assert!(rt; is_want_of_memory(&error), "another error"),
        }
    }
    panic!(rt; "no call was granted")
}

/// Returns the error of the removal of these functions.
fn error_of<A: Allocator + Copy>(alloc: A, removed: &[bool]) -> Option<RemoveError> {
    match remove_functions(FIVE, alloc, removed, Offsets::Refuse) {
        Err(RemapError::Index(error)) => Some(error),
        _ => None,
    }
}

#[test]
fn errors() {
    let rt = crate::host::HostRuntime;
    let used = error_of(rt.alloc(), &[false, false, false, false, true]);
    assert!(rt; used == Some(RemoveError::InUse(4)), "the export");
    let called = error_of(rt.alloc(), &[false, true, false, false, false]);
    assert!(rt; called == Some(RemoveError::InUse(1)), "a call");
    let imported = error_of(rt.alloc(), &[true, false, false, false, false]);
    assert!(rt; imported == Some(RemoveError::Imported(0)), "the import");
    let few = error_of(rt.alloc(), &[false, false]);
    assert!(rt; few == Some(RemoveError::Unlisted(4)), "past the list");
}

/// A removed function is at the end of its list, and flags past the functions of the module change
/// nothing.
#[test]
fn borders() {
    let rt = crate::host::HostRuntime;
    let none = remove_functions(FIVE, rt.alloc(), &[false; 9], Offsets::Refuse);
    check_bytes(&rt, &none.expect("a module"), FIVE);
    let past = [false, false, false, false, false, true, true];
    let same = remove_functions(FIVE, rt.alloc(), &past, Offsets::Refuse);
    check_bytes(&rt, &same.expect("a module"), FIVE);
    let empty = [0, b'a', b's', b'm', 1, 0, 0, 0];
    let same = remove_functions(&empty, rt.alloc(), &[true], Offsets::Refuse);
    check_bytes(&rt, &same.expect("a module"), &empty);
}
