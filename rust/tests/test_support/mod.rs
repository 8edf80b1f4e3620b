//! What the tests share: an allocator that refuses requests, and readers and writers that fail.
#![allow(dead_code, unused_imports, reason = "no test program uses all of it")]

mod memory;
#[rustfmt::skip]
mod refusals;
#[rustfmt::skip]
mod streams;

pub use memory::Refusing;
pub use refusals::{Heap, MOST};
pub use streams::{EndlessReader, FailingReader, FailingWriter};
