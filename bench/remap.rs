//! Calls that write a module anew, for a profiler. See README.md.
//!
//!     remap shorten|remap FILE    makes one call with the module in the file

use dolzhytik::fallible::{Global, Vec};
use dolzhytik::reader::remap::{IndexSpace, Remap, remap_module};
use dolzhytik::reader::{Offsets, shorten_module};
use std::process::ExitCode;

/// Makes room for an imported function at index 0.
struct OneMore;

impl Remap for OneMore {
    type Error = u32;

    fn index(&self, space: IndexSpace, index: u32) -> Result<u32, u32> {
        match space {
            IndexSpace::Functions => index.checked_add(1).ok_or(index),
            _ => Ok(index),
        }
    }
}

/// Returns the number of bytes of the minimized module.
#[unsafe(no_mangle)]
#[inline(never)]
fn bench_shorten(module: &[u8]) -> usize {
    let mut sink = Vec::new(Global);
    shorten_module(Global, module, Offsets::LeaveOut, &mut sink).expect("the module is minimized");
    sink.len()
}

/// Returns the number of bytes of the module with its indices mapped.
#[unsafe(no_mangle)]
#[inline(never)]
fn bench_remap(module: &[u8]) -> usize {
    let module = remap_module(module, Global, &OneMore, Offsets::LeaveOut);
    module.expect("the indices are mapped").len()
}

fn main() -> ExitCode {
    let args: std::vec::Vec<String> = std::env::args().collect();
    let [_, call, file] = &args[..] else {
        return ExitCode::from(2);
    };
    let module = std::fs::read(file).expect("the file is read");
    let bytes = match call.as_str() {
        "shorten" => bench_shorten(&module),
        "remap" => bench_remap(&module),
        _ => return ExitCode::from(2),
    };
    eprintln!("{bytes} bytes");
    ExitCode::SUCCESS
}
