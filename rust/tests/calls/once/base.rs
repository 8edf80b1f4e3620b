// Written by tools/to-rust from crates/calls/src/once/base.rt: change that.
//! A section of a count and bytes, and an entry that is a list.

use dolzhytik::fallible::Vec;
use dolzhytik::fallible::Allocator;
use dolzhytik::fallible::{Pieces, Result, encode_section, vec_of};

pub fn section<A: Allocator + Copy>(alloc: A) -> Result<()> {
    let mut sink = Vec::new(alloc);
    encode_section(&mut sink, 1, &[7])?;
    Ok(())
}

pub fn piece<A: Allocator + Copy>(alloc: A) -> Result<()> {
    let mut pieces = Pieces::new(alloc);
    pieces.add_once(vec_of([1u32])?)?;
    Ok(())
}
