// Written by tools/to-rust from tests/wasm_sections_tests/src/lengths.rtt: change that.
// Tests that a length which is too long is an error before any item is requested.

use crate::checks::check_bytes;
use dolzhytik::fallible::Global;
use core::cell::Cell;
use crate::host::Abort;
use dolzhytik::fallible::{Refused, ValType};
use dolzhytik::fallible::Function;

/// An iterator of runs of one local each, which counts the requests for one.
struct CountedRuns<'a> {
    left: usize,
    asked: &'a Cell<u64>,
}

impl Iterator for CountedRuns<'_> {
    type Item = (u32, ValType);

    fn next(&mut self) -> Option<(u32, ValType)> {
        self.asked.set(self.asked.get().saturating_add(1));
        if self.left == 0 {
            return None;
        }
        self.left -= 1;
        Some((1, ValType::I32))
    }
}

impl ExactSizeIterator for CountedRuns<'_> {
    fn len(&self) -> usize {
        self.left
    }
}

/// Checks that the length was too long.
fn check_too_long(rt: &impl Abort, refused: Option<Refused>) {
    assert_eq!(rt; refused, Some(Refused::TooLong));
}

/// Checks the number of requests for a run.
fn check_asked(rt: &impl Abort, asked: &Cell<u64>, expected: u64) {
    assert_eq!(rt; asked.get(), expected);
}

#[test]
fn runs_of_locals() {
    let rt = crate::host::HostRuntime;
    let asked = Cell::new(0);
    let long = CountedRuns {
        left: 4294967296,
        asked: &asked,
    };
    let function: Result<Function, Refused> = Function::new(rt.alloc(), long);
    check_too_long(&rt, function.err());
    check_asked(&rt, &asked, 0);
    let short = CountedRuns {
        left: 2,
        asked: &asked,
    };
    let function: Function<Global> = Function::new(rt.alloc(), short).expect("accepted");
    check_bytes(&rt, &function.into_raw_body(), &[2, 1, 127, 1, 127]);
    check_asked(&rt, &asked, 3);
}
