// Written by tools/to-rust from tests/wasm_custom_tests/src/further_entries.rtt: change that.
// Tests of adding to sections and lists that have entries, with each request for memory failing in
// turn.

use dolzhytik::fallible::Vec;
use crate::checks::check_that;
use crate::refusals::{LentEntries, LentList, ListCalls, SectionCalls, check_written};
use crate::host::Abort;
use crate::test_support::{Heap, MOST};
use dolzhytik::fallible::{Encode, Refused, Result};

/// A builder to which entries are added.
pub(crate) trait Growing: Encode {
    /// The arguments of the calls.
    type Given;

    /// Makes the call of this index.
    fn grow(&mut self, given: &Self::Given, place: usize) -> Result<()>;

    /// Returns the number of entries, if a call reports it.
    fn number(&self) -> Option<u32>;
}

impl<K: SectionCalls> Growing for LentEntries<'_, K> {
    type Given = K::Given;

    fn grow(&mut self, given: &K::Given, place: usize) -> Result<()> {
        K::add(self, given, place)
    }

    fn number(&self) -> Option<u32> {
        Some(self.len())
    }
}

impl<K: ListCalls> Growing for LentList<'_, K> {
    type Given = K::Given;

    fn grow(&mut self, given: &K::Given, place: usize) -> Result<()> {
        K::add(self, given, place)
    }

    fn number(&self) -> Option<u32> {
        Some(self.len())
    }
}

/// Checks the result of a call, and the number of entries after it.
fn check_entries(
    rt: &impl Abort,
    granted: bool,
    answer: Result<()>,
    number: Option<u32>,
    before: Option<u32>,
) {
    let expected: (Result<()>, Option<u32>) = if granted {
        (Ok(()), before.map(|entries| entries.saturating_add(1)))
    } else {
        (Err(Refused::Memory), before)
    };
    assert_eq!(rt; (answer, number), expected);
}

/// Adds one more entry. If a request fails, the item is unchanged. Returns whether one failed.
fn check_next<T: Growing>(
    rt: &impl Abort,
    heap: Heap<'_>,
    item: &mut T,
    given: &T::Given,
    place: usize,
) -> bool {
    let mut before = Vec::new(heap);
    heap.refuse(0);
    item.encode(&mut before).expect("accepted");
    let number = item.number();
    for nth in 1..MOST {
        heap.refuse(nth);
        let answer = item.grow(given, place);
        let granted = heap.is_waiting();
        check_entries(rt, granted, answer, item.number(), number);
        if granted {
            return nth > 1;
        }
        check_written(rt, heap, item, &before);
    }
    panic!(rt; "no call was granted")
}

/// The number of entries added; at least one of them makes an item grow.
const FURTHER: usize = 8;

/// Checks the call of this index, on an item that holds an entry.
pub(crate) fn check_further<T: Growing>(
    rt: &impl Abort,
    heap: Heap<'_>,
    item: &mut T,
    given: &T::Given,
    place: usize,
) {
    let mut refused = false;
    for _ in 0..FURTHER {
        let here = check_next(rt, heap, item, given, place);
        refused = refused || here;
    }
    check_that(rt, refused);
}
