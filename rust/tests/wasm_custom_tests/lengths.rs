// Written by tools/to-rust from tests/wasm_custom_tests/src/lengths.rtt: change that.
// Tests that a length which is too long is an error before any item is requested.

use crate::checks::check_text;
use core::cell::Cell;
use crate::host::Abort;
use dolzhytik::fallible::{Refused, Result};
use dolzhytik::fallible::{BranchHint, BranchHints, CodeHint, CompilationOrder, CompilationOrders, CoreDumpInstancesSection, CoreDumpStackSection, CoreDumpValue};

/// One more than a vector can count.
const TOO_MANY: usize = 4294967296;

/// An iterator of copies of an item, which counts the requests for one.
struct Copies<'a, T> {
    item: T,
    left: usize,
    asked: &'a Cell<u64>,
}

impl<T: Clone> Iterator for Copies<'_, T> {
    type Item = T;

    fn next(&mut self) -> Option<T> {
        self.asked.set(self.asked.get().saturating_add(1));
        if self.left == 0 {
            return None;
        }
        self.left -= 1;
        Some(self.item.clone())
    }
}

impl<T: Clone> ExactSizeIterator for Copies<'_, T> {
    fn len(&self) -> usize {
        self.left
    }
}

/// Returns an iterator of `left` copies of the item.
fn copies_of<T: Clone>(item: T, left: usize, asked: &Cell<u64>) -> Copies<'_, T> {
    Copies { item, left, asked }
}

/// Checks that the length was too long, and that no item was requested.
fn check_too_long(rt: &impl Abort, answer: Result<()>, asked: &Cell<u64>) {
    assert_eq!(rt; answer, Err(Refused::TooLong));
    assert_eq!(rt; asked.get(), 0);
}

const HINT: BranchHint = BranchHint {
    branch_func_offset: 3,
    branch_hint_value: 1,
};

#[test]
fn hints() {
    let rt = crate::host::HostRuntime;
    let asked = Cell::new(0);
    let mut section = BranchHints::new(rt.alloc());
    let answer = section.function_hints(0, copies_of(HINT, TOO_MANY, &asked));
    check_too_long(&rt, answer, &asked);
    check_text(
        &rt,
        rt.alloc(),
        &section,
        b"\x1B\x19metadata.code.branch_hint\x00",
    )
}

const ORDER: CompilationOrder = CompilationOrder {
    order: 1,
    hotness: None,
};

#[test]
fn orders() {
    let rt = crate::host::HostRuntime;
    let asked = Cell::new(0);
    let mut section = CompilationOrders::new(rt.alloc());
    let hints = copies_of(ORDER, TOO_MANY, &asked);
    let hints = hints.map(|value| CodeHint { offset: 0, value });
    check_too_long(&rt, section.function_hints(0, hints), &asked);
    check_text(
        &rt,
        rt.alloc(),
        &section,
        b"\x21\x1Fmetadata.code.compilation_order\x00",
    )
}

#[test]
fn memories() {
    let rt = crate::host::HostRuntime;
    let asked = Cell::new(0);
    let mut section = CoreDumpInstancesSection::new(rt.alloc());
    let answer = section.instance(0, copies_of(1, TOO_MANY, &asked), copies_of(2, 1, &asked));
    check_too_long(&rt, answer, &asked);
    check_text(&rt, rt.alloc(), &section, b"\x0F\x0Dcoreinstances\x00")
}

#[test]
fn globals() {
    let rt = crate::host::HostRuntime;
    let asked = Cell::new(0);
    let mut section = CoreDumpInstancesSection::new(rt.alloc());
    let answer = section.instance(0, copies_of(1, 1, &asked), copies_of(2, TOO_MANY, &asked));
    check_too_long(&rt, answer, &asked);
    check_text(&rt, rt.alloc(), &section, b"\x0F\x0Dcoreinstances\x00")
}

#[test]
fn locals() {
    let rt = crate::host::HostRuntime;
    let asked = Cell::new(0);
    let mut section = CoreDumpStackSection::new(rt.alloc(), "main").expect("accepted");
    let missing = CoreDumpValue::Missing;
    let locals = copies_of(missing.clone(), TOO_MANY, &asked);
    let answer = section.frame(0, 42, 51, locals, copies_of(missing, 1, &asked));
    check_too_long(&rt, answer, &asked);
    check_text(
        &rt,
        rt.alloc(),
        &section,
        b"\x11\x09corestack\x00\x04main\x00",
    )
}

#[test]
fn stack() {
    let rt = crate::host::HostRuntime;
    let asked = Cell::new(0);
    let mut section = CoreDumpStackSection::new(rt.alloc(), "main").expect("accepted");
    let missing = CoreDumpValue::Missing;
    let locals = copies_of(missing.clone(), 1, &asked);
    let answer = section.frame(0, 42, 51, locals, copies_of(missing, TOO_MANY, &asked));
    check_too_long(&rt, answer, &asked);
    check_text(
        &rt,
        rt.alloc(),
        &section,
        b"\x11\x09corestack\x00\x04main\x00",
    )
}
