// Written by tools/to-rust from crates/wasm_tool/src/listing.rt: change that.
// The listing of a module's sections, for `--read`.

use crate::vec::Vec;
use crate::string::String;
use crate::recipe::program::{Trouble, unlisted};
use crate::hex::FromHexError;
use crate::alloc::{AllocError, Allocator};
use crate::reader::{Listed, list_module};

/// Appends the line of a section: its id, its size and its number of items.
fn push_line<A: Allocator>(text: &mut String<A>, section: &Listed) -> Result<(), AllocError> {
    let id = section.id;
    let size = section.size;
    match section.items {
        Some(items) => writeln!(text, "{id} {size} {items}"),
        None => writeln!(text, "{id} {size} -"),
    }
}

/// Returns the lines of the sections.
fn lines<A: Allocator>(alloc: A, sections: &[Listed]) -> Result<String<A>, AllocError> {
    let mut text = String::new(alloc);
    for section in sections {
        push_line(&mut text, section)?;
    }
    Ok(text)
}

/// Returns the input without spaces and line ends at its end.
fn without_end(text: &[u8]) -> &[u8] {
    let mut text = text;
    while let [front @ .., b' ' | b'\r' | b'\n'] = text {
        text = front;
    }
    text
}

/// Returns the bytes that the hexadecimal digits encode.
fn hex_bytes<A: Allocator>(alloc: A, text: &[u8]) -> Result<Vec<u8, A>, Trouble> {
    if str::from_utf8(text).is_err() {
        return Err(Trouble::NotText);
    }
    crate::hex::decode(alloc, without_end(text)).map_err(|e| match e {
        FromHexError::OutOfMemory => unlisted(),
        _ => Trouble::BadHex,
    })
}

/// Returns the output for a module in hexadecimal.
pub(crate) fn listing<A: Allocator + Copy>(alloc: A, text: &[u8]) -> Result<String<A>, Trouble> {
    let bytes = hex_bytes(alloc, text)?;
    let sections = list_module(alloc, &bytes).map_err(|(number, fault)| Trouble::Section {
        number,
        fault,
    })?;
    lines(alloc, &sections).map_err(|_| unlisted())
}
