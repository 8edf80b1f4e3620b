// Written by tools/to-rust from tests/wasm_insn_tests/src/lengths.rtt: change that.
// Tests that a length which is too long is an error before any item is requested.

use dolzhytik::fallible::Vec;
use core::cell::Cell;
use crate::host::Abort;
use dolzhytik::fallible::{Refused, Result, encode_vec};
use dolzhytik::fallible::InstructionSink;

/// An iterator of labels, which counts the requests for one.
struct CountedLabels<'a> {
    left: usize,
    asked: &'a Cell<u64>,
}

impl Iterator for CountedLabels<'_> {
    type Item = u32;

    fn next(&mut self) -> Option<u32> {
        self.asked.set(self.asked.get().saturating_add(1));
        if self.left == 0 {
            return None;
        }
        self.left -= 1;
        Some(7)
    }
}

impl ExactSizeIterator for CountedLabels<'_> {
    fn len(&self) -> usize {
        self.left
    }
}

/// Checks that the length was too long, that no label was requested, and that nothing was written.
fn check_too_long(rt: &impl Abort, answer: Result<()>, asked: u64, written: usize) {
    assert_eq!(rt; answer, Err(Refused::TooLong));
    assert_eq!(rt; asked, 0);
    assert_eq!(rt; written, 0);
}

#[test]
fn long_vector() {
    let rt = crate::host::HostRuntime;
    let asked = Cell::new(0);
    let labels = CountedLabels {
        left: 4294967296,
        asked: &asked,
    };
    let mut sink = Vec::new(rt.alloc());
    let answer = encode_vec(labels, &mut sink);
    check_too_long(&rt, answer, asked.get(), sink.len());
}

#[test]
fn long_br_table() {
    let rt = crate::host::HostRuntime;
    let asked = Cell::new(0);
    let labels = CountedLabels {
        left: 4294967296,
        asked: &asked,
    };
    let mut bytes = Vec::new(rt.alloc());
    let answer = InstructionSink::new(&mut bytes).br_table(labels, 2);
    check_too_long(&rt, answer, asked.get(), bytes.len());
}
