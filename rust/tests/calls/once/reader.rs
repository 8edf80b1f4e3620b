// Written by tools/to-rust from crates/calls/src/once/reader.rt: change that.
//! Calls of readers.

use dolzhytik::fallible::Allocator;
use dolzhytik::reader::ReadFault;
use dolzhytik::reader::{Instructions, Members};

pub fn walk<A: Allocator + Copy>(alloc: A) -> Result<(), ReadFault> {
    let (_runs, mut instructions) = Instructions::of_body(&[0, 1, 0x0B], alloc)?;
    let decoded = instructions.next_before_end()?;
    let _ = instructions.offset();
    if let Some(decoded) = decoded {
        let _ = decoded.operands.to_args(alloc)?;
    }
    Ok(())
}

pub fn labels_left<A: Allocator + Copy>(alloc: A) -> Result<(), ReadFault> {
    let labels = Members::<u32, A>::new(&[1, 5], alloc)?;
    let _ = labels.left();
    Ok(())
}
