//! The function `covered` of the proved examples: a module worked out by hand, the modules of the
//! example by hand, and each error.
use crate::examples::{CoverageError, MAX_LENGTH, covered};
use crate::test_support::{Heap, MOST, Refusing};
use crate::{BUILT, COUNTS, calls, compiled, example, samples::module_of_builders, tools};
use dolzhytik::fallible::Global;
use dolzhytik::reader::{ReadError, ReadFault};

const HEADER: &[u8] = b"\0asm\x01\0\0\0";

/// A type, and imports of a function and of a global.
const BEFORE: &[u8] = &[
    0x01, 0x04, 0x01, 0x60, 0x00, 0x00, // types
    0x02, 0x0E, 0x02, // imports
    0x01, b'a', 0x01, b'f', 0x00, 0x00, // a function of type 0
    0x01, b'a', 0x01, b'g', 0x03, 0x7F, 0x00, // an i32
    0x03, 0x02, 0x01, 0x00, // a function of type 0
];

/// An `i32`, initially 5.
const GLOBALS: &[u8] = &[0x06, 0x06, 0x01, 0x7F, 0x00, 0x41, 0x05, 0x0B];

/// The function 1 as `m`.
const EXPORTS: &[u8] = &[0x07, 0x05, 0x01, 0x01, b'm', 0x00, 0x01];

/// A body without locals, which does nothing. Its size is padded.
const CODE: &[u8] = &[0x0A, 0x06, 0x81, 0x00, 0x82, 0x00, 0x00, 0x0B];

/// A custom section `x`.
const AFTER: &[u8] = &[0x00, 0x02, 0x01, b'x'];

/// The same global, and a counter.
const MORE_GLOBALS: &[u8] = &[
    0x06, 0x0B, 0x02, 0x7F, 0x00, 0x41, 0x05, 0x0B, 0x7F, 0x01, 0x41, 0x00, 0x0B,
];

/// The same export, and the global 2: there are an imported one and another one before it.
const MORE_EXPORTS: &[u8] = &[
    0x07, 0x12, 0x02, 0x01, b'm', 0x00, 0x01, // the same
    0x0A, b'c', b'o', b'v', b'e', b'r', b'a', b'g', b'e', b'.', b'1', 0x03, 0x02,
];

/// The same body, which adds 1 to the global 2.
const MORE_CODE: &[u8] = &[
    0x0A, 0x0B, 0x01, 0x09, 0x00, 0x23, 0x02, 0x41, 0x01, 0x6A, 0x24, 0x02, 0x0B,
];

#[test]
fn a_module_by_hand() {
    let module = [HEADER, BEFORE, GLOBALS, EXPORTS, CODE, AFTER].concat();
    let expected = [HEADER, BEFORE, MORE_GLOBALS, MORE_EXPORTS, MORE_CODE, AFTER];
    let new = covered(&module, Global).expect("a module");
    assert_eq!(&new[..], expected.concat());
}

#[test]
fn each_request_is_refused() {
    let module = [HEADER, BEFORE, GLOBALS, EXPORTS, CODE, AFTER].concat();
    let expected = covered(&module, Global).expect("a module");
    let memory = Refusing::new(Global);
    let heap: Heap<'_> = &memory;
    for nth in 1..MOST {
        memory.refuse(nth);
        let new = covered(&module, heap);
        if memory.is_waiting() {
            assert_eq!(&new.expect("a module")[..], &expected[..]);
            return;
        }
        let error = new.expect_err("a refused request");
        let CoverageError::Read(error) = error else {
            panic!("{error:?}");
        };
        assert_eq!(error.cause, ReadFault::Memory);
    }
    panic!("more requests than {MOST}");
}

/// Returns the error for a module of these sections.
fn error_of(sections: &[&[u8]]) -> CoverageError {
    let module = [HEADER, &sections.concat()].concat();
    covered(&module, Global).expect_err("an error")
}

/// Checks that the module of these sections becomes that of the example by hand.
#[track_caller]
fn check_example(sections: &[&[u8]]) {
    let module = [HEADER, &sections.concat()].concat();
    let by_hand = example::covered(&module, false).expect("a module");
    let new = covered(&module, Global).expect("a module");
    assert_eq!(&new[..], by_hand);
}

#[test]
fn missing_sections_are_inserted() {
    check_example(&[BEFORE, EXPORTS, CODE]);
    check_example(&[BEFORE, GLOBALS, CODE]);
    check_example(&[BEFORE, CODE, AFTER]);
    check_example(&[AFTER, BEFORE]);
    check_example(&[]);
}

#[test]
fn import_sections_are_counted_together() {
    check_example(&[BEFORE, BEFORE, GLOBALS, EXPORTS, CODE]);
}

#[test]
fn a_section_holds_offsets() {
    let names: [&[u8]; 7] = [
        b"linking",
        b"reloc.CODE",
        b".debug_info",
        b"metadata.code.branch_hint",
        b"sourceMappingURL",
        b"external_debug_info",
        b"build_id",
    ];
    for name in names {
        let (size, length) = (name.len() as u8 + 1, name.len() as u8);
        let custom = [&[0x00, size, length], name].concat();
        let error = error_of(&[GLOBALS, EXPORTS, CODE, &custom]);
        let offset = HEADER.len() + GLOBALS.len() + EXPORTS.len() + CODE.len();
        assert_eq!(error, CoverageError::Offsets { offset });
    }
}

#[test]
fn an_export_is_named_as_a_counter() {
    let exports = [&[0x07, 0x0E, 0x01, 0x0A], &b"coverage.x"[..], &[0x00, 0x00]].concat();
    let offset = HEADER.len() + GLOBALS.len();
    let error = error_of(&[GLOBALS, &exports, CODE]);
    assert_eq!(error, CoverageError::Taken { offset });
}

#[test]
fn a_module_is_too_long() {
    let mut bytes = vec![0; MAX_LENGTH];
    let error = covered(&bytes, Global).expect_err("256 MiB");
    assert_eq!(error, CoverageError::TooLong);
    bytes.pop();
    let (cause, offset) = (ReadFault::UnknownTag, 1);
    let error = covered(&bytes, Global).expect_err("no module");
    assert_eq!(error, CoverageError::Read(ReadError { cause, offset }));
}

#[test]
fn a_section_does_not_decode() {
    let cause = ReadFault::UnknownOpcode;
    let body = &[0x0A, 0x04, 0x01, 0x02, 0x00, 0xFF];
    let offset = HEADER.len() + GLOBALS.len() + EXPORTS.len() + 5;
    let error = error_of(&[GLOBALS, EXPORTS, body]);
    assert_eq!(error, CoverageError::Read(ReadError { cause, offset }));
}

#[test]
fn the_bytes_are_those_of_the_example() {
    let module = module_of_builders();
    let by_hand = example::covered(&module, false).expect("a module");
    let new = covered(&module, Global).expect("a module");
    assert_eq!(&new[..], by_hand);
    if let Some(counts) = tools::run(&new, BUILT) {
        assert!(counts.starts_with("30 101n 2 15 0 1\n"));
    }
}

#[test]
fn a_compiled_module_counts() {
    let Some(module) = compiled(&["-O0"], "calls-proved") else {
        return;
    };
    let new = covered(&module, Global).expect("a module");
    if let Some(counts) = tools::run(&new, &calls(&module)) {
        assert_eq!(counts, COUNTS);
    }
}
