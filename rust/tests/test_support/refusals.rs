// Written by tools/to-rust from crates/test_support/src/refusals.rt: change that.
// The allocator with which all tests fail requests.

use crate::test_support::memory::Refusing;
use dolzhytik::fallible::Global;

/// More requests than any call in a test makes, and more reads and writes.
pub const MOST: u64 = 100;

/// A borrowed allocator that fails requests.
pub type Heap<'a> = &'a Refusing<Global>;
