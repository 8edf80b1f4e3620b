// Written by tools/to-rust from tests/wasm_insn_tests/src/debug.rtt: change that.
// Tests of derived `Debug` strings of components of encodings.

use crate::host::Abort;
use dolzhytik::fallible::{Lent, Optional, bytes_of, vec_of};
use dolzhytik::fallible::Ieee32;

/// Checks the string.
fn check_text(rt: &impl Abort, text: &str, expected: &str) {
    assert_eq!(rt; text, expected);
}

/// An iterator that reports two items and yields none.
#[derive(Debug)]
struct Two;

impl Iterator for Two {
    type Item = u8;

    fn next(&mut self) -> Option<u8> {
        None
    }
}

impl ExactSizeIterator for Two {
    fn len(&self) -> usize {
        2
    }
}

#[test]
fn parts_of_layouts() {
    let rt = crate::host::HostRuntime;
    let alloc = rt.alloc();
    let text = format!(in alloc; "{:?}", Lent(&Ieee32::new(7))).expect("accepted");
    check_text(&rt, text.as_str(), "Lent(Ieee32(7))");
    let text = format!(in alloc; "{:?} {:?}", Optional(Some(7u32)), Optional::<u32>(None)).expect(
        "accepted",
    );
    check_text(&rt, text.as_str(), "Optional(Some(7)) Optional(None)");
    let listed = vec_of(Two).expect("accepted");
    let text = format!(in alloc; "{listed:?}").expect("accepted");
    check_text(&rt, text.as_str(), "VecOf { items: Two, count: 2 }");
    let bytes = bytes_of(Two).expect("accepted");
    let text = format!(in alloc; "{bytes:?}").expect("accepted");
    check_text(&rt, text.as_str(), "BytesOf { items: Two, count: 2 }");
}
