// Written by tools/to-rust from tests/wasm_tool_tests/src/checks.rtt: change that.
// Assertions over plain data: one over values that own memory takes far longer to prove.

use dolzhytik::fallible::Vec;
use dolzhytik::fallible::Global;
use crate::host::Abort;
use dolzhytik::fallible::recipe::{RecipeCause, RecipeFault, assemble_versioned};

/// Checks the condition.
pub(crate) fn check_that(rt: &impl Abort, holds: bool) {
    assert!(rt; holds);
}

/// Checks the bytes.
pub(crate) fn check_bytes(rt: &impl Abort, bytes: &[u8], expected: &[u8]) {
    assert_eq!(rt; bytes, expected);
}

/// Checks the exit status and the output of the program.
pub(crate) fn check_run(
    rt: &impl Abort,
    text: &str,
    answer: (u8, &[u8], &[u8]),
    expected: (u8, &[u8], &[u8]),
) {
    assert_eq!(rt; answer, expected, "{text}");
}

/// Checks the sections of a recipe's module, in hexadecimal with spaces.
pub(crate) fn check_sections(rt: &impl Abort, alloc: Global, recipe: &str, sections: &str) {
    let module = assemble_versioned(alloc, recipe).expect("accepted");
    let mut expected = Vec::new(alloc);
    for word in sections.split(' ') {
        let bytes = dolzhytik::fallible::hex::decode(alloc, word).expect("accepted");
        expected.extend_from_slice(&bytes).expect("accepted");
    }
    assert_eq!(rt; module.split_at(8).1, expected.as_slice(), "{recipe}");
}

/// Checks the line and the cause of a recipe's error.
pub(crate) fn check_versioned_fault(
    rt: &impl Abort,
    alloc: Global,
    recipe: &str,
    expected: (usize, RecipeCause),
) {
    let (line, cause) = expected;
    let fault = assemble_versioned(alloc, recipe).err();
    assert_eq!(rt; fault, Some(RecipeFault { line, cause }), "{recipe}");
}
