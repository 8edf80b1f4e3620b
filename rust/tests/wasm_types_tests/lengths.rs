// Written by tools/to-rust from tests/wasm_types_tests/src/lengths.rtt: change that.
// Tests that a length which is too long is an error before any item is requested.

use crate::checks::check_text;
use crate::samples::{BYTE, bytes, sub};
use dolzhytik::fallible::Global;
use core::cell::Cell;
use crate::host::Abort;
use dolzhytik::fallible::{Refused, Result, ValType};
use dolzhytik::fallible::{SubType, TypeSection};

/// One more than a vector can count.
const TOO_MANY: usize = 4294967296;

/// An iterator of copies of an item, which counts the requests for one.
struct Copies<'a, T> {
    item: T,
    left: usize,
    asked: &'a Cell<u64>,
}

impl<T: Copy> Iterator for Copies<'_, T> {
    type Item = T;

    fn next(&mut self) -> Option<T> {
        self.asked.set(self.asked.get().saturating_add(1));
        if self.left == 0 {
            return None;
        }
        self.left -= 1;
        Some(self.item)
    }
}

impl<T: Copy> ExactSizeIterator for Copies<'_, T> {
    fn len(&self) -> usize {
        self.left
    }
}

/// Returns an iterator of `left` copies of the item.
fn copies_of<T: Copy>(item: T, left: usize, asked: &Cell<u64>) -> Copies<'_, T> {
    Copies { item, left, asked }
}

/// An iterator of arrays of bytes, which counts the requests for one.
struct Arrays<'a> {
    left: usize,
    asked: &'a Cell<u64>,
}

impl Iterator for Arrays<'_> {
    type Item = SubType;

    fn next(&mut self) -> Option<SubType> {
        self.asked.set(self.asked.get().saturating_add(1));
        if self.left == 0 {
            return None;
        }
        self.left -= 1;
        Some(sub(true, None, bytes()))
    }
}

impl ExactSizeIterator for Arrays<'_> {
    fn len(&self) -> usize {
        self.left
    }
}

/// Checks that the length was too long, and that no item was requested.
fn check_too_long(rt: &impl Abort, answer: Result<()>, asked: &Cell<u64>) {
    assert_eq!(rt; answer, Err(Refused::TooLong));
    assert_eq!(rt; asked.get(), 0);
}

/// Checks that nothing was added.
fn check_unchanged(rt: &impl Abort, alloc: Global, section: &TypeSection) {
    check_text(rt, alloc, section, &[1, 0])
}

#[test]
fn params() {
    let rt = crate::host::HostRuntime;
    let asked = Cell::new(0);
    let mut section = TypeSection::new(rt.alloc());
    let many = copies_of(ValType::I32, TOO_MANY, &asked);
    let answer = section
        .ty()
        .function(many, copies_of(ValType::I32, 1, &asked));
    check_too_long(&rt, answer, &asked);
    check_unchanged(&rt, rt.alloc(), &section)
}

#[test]
fn results() {
    let rt = crate::host::HostRuntime;
    let asked = Cell::new(0);
    let mut section = TypeSection::new(rt.alloc());
    let many = copies_of(ValType::I32, TOO_MANY, &asked);
    let answer = section
        .ty()
        .function(copies_of(ValType::I32, 1, &asked), many);
    check_too_long(&rt, answer, &asked);
    check_unchanged(&rt, rt.alloc(), &section)
}

#[test]
fn fields() {
    let rt = crate::host::HostRuntime;
    let asked = Cell::new(0);
    let mut section = TypeSection::new(rt.alloc());
    let answer = section.ty().struct_(copies_of(BYTE, TOO_MANY, &asked));
    check_too_long(&rt, answer, &asked);
    check_unchanged(&rt, rt.alloc(), &section)
}

#[test]
fn groups() {
    let rt = crate::host::HostRuntime;
    let asked = Cell::new(0);
    let mut section = TypeSection::new(rt.alloc());
    let arrays = Arrays {
        left: TOO_MANY,
        asked: &asked,
    };
    let answer = section.ty().rec(arrays);
    check_too_long(&rt, answer, &asked);
    check_unchanged(&rt, rt.alloc(), &section)
}
