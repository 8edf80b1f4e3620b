//! The functions of `dolzhytik.h` on any platform.
//!
//! They turn pointers and lengths into slices, and call [`calls`], which `tools/to-rust` writes
//! from the proved source.
use calls::{
    DzOutlined, DzSection, causes, indices as edits, listing, minimal, outlining, recipes, whole,
};
use dolzhytik::fallible::Global;
use std::slice;

#[cfg(test)]
#[macro_use]
#[path = "../../tests/support/host.rs"]
mod host;

#[allow(unused_imports, clippy::all, reason = "written by tools/to-rust")]
#[rustfmt::skip]
mod calls;

/// Returns the slice of `len` items from `first` on.
///
/// # Safety
///
/// The pointer is valid for `len` items, or `len` is 0.
unsafe fn list<'a, T>(first: *const T, len: usize) -> &'a [T] {
    if len == 0 {
        return &[];
    }
    unsafe { slice::from_raw_parts(first, len) }
}

/// Returns the slice of `len` items from `first` on, to write to.
///
/// # Safety
///
/// The pointer is valid for `len` items, which nobody else reads or writes, or `len` is 0.
unsafe fn output<'a, T>(first: *mut T, len: usize) -> &'a mut [T] {
    if len == 0 {
        return &mut [];
    }
    unsafe { slice::from_raw_parts_mut(first, len) }
}

/// Assembles a recipe of version 1.
///
/// # Safety
///
/// As the header says: pointers are valid for their lengths, and the memory that is written
/// overlaps nothing else.
#[unsafe(no_mangle)]
pub unsafe extern "C" fn dz_assemble(
    recipe: *const u8,
    recipe_len: usize,
    out: *mut u8,
    out_len: usize,
    line: &mut u64,
    cause: &mut u32,
) -> u64 {
    let recipe = unsafe { list(recipe, recipe_len) };
    let out = unsafe { output(out, out_len) };
    recipes::dz_assemble(Global, recipe, out, line, cause)
}

/// Assembles a recipe of version 1 or 2.
///
/// # Safety
///
/// As the header says: pointers are valid for their lengths, and the memory that is written
/// overlaps nothing else.
#[unsafe(no_mangle)]
pub unsafe extern "C" fn dz_assemble_versioned(
    recipe: *const u8,
    recipe_len: usize,
    out: *mut u8,
    out_len: usize,
    line: &mut u64,
    cause: &mut u32,
) -> u64 {
    let recipe = unsafe { list(recipe, recipe_len) };
    let out = unsafe { output(out, out_len) };
    recipes::dz_assemble_versioned(Global, recipe, out, line, cause)
}

/// Lists the sections of a module.
///
/// # Safety
///
/// As the header says: pointers are valid for their lengths, and the memory that is written
/// overlaps nothing else.
#[unsafe(no_mangle)]
pub unsafe extern "C" fn dz_list(
    module: *const u8,
    module_len: usize,
    out: *mut DzSection,
    out_len: usize,
    place: &mut u64,
    cause: &mut u32,
) -> u64 {
    let module = unsafe { list(module, module_len) };
    let out = unsafe { output(out, out_len) };
    listing::dz_list(Global, module, out, place, cause)
}

/// Writes the minimal encoding of a section.
///
/// # Safety
///
/// As the header says: pointers are valid for their lengths, and the memory that is written
/// overlaps nothing else.
#[unsafe(no_mangle)]
pub unsafe extern "C" fn dz_shorten(
    kind: u32,
    bytes: *const u8,
    bytes_len: usize,
    out: *mut u8,
    out_len: usize,
    taken: &mut u64,
    cause: &mut u32,
) -> u64 {
    let bytes = unsafe { list(bytes, bytes_len) };
    let out = unsafe { output(out, out_len) };
    minimal::dz_shorten(Global, kind, bytes, out, taken, cause)
}

/// Outlines a module.
///
/// # Safety
///
/// As the header says: pointers are valid for their lengths, and the memory that is written
/// overlaps nothing else.
#[unsafe(no_mangle)]
pub unsafe extern "C" fn dz_outline(
    module: *const u8,
    module_len: usize,
    out: *mut DzOutlined,
    out_len: usize,
    place: &mut u64,
    cause: &mut u32,
) -> u64 {
    let module = unsafe { list(module, module_len) };
    let out = unsafe { output(out, out_len) };
    outlining::dz_outline(Global, module, out, place, cause)
}

/// Writes a module with each section in its minimal encoding.
///
/// # Safety
///
/// As the header says: pointers are valid for their lengths, and the memory that is written
/// overlaps nothing else.
#[unsafe(no_mangle)]
#[allow(clippy::too_many_arguments, reason = "a slice is two of them")]
pub unsafe extern "C" fn dz_shorten_module(
    module: *const u8,
    module_len: usize,
    drop_offsets: u32,
    out: *mut u8,
    out_len: usize,
    kept: &mut u64,
    place: &mut u64,
    cause: &mut u32,
) -> u64 {
    let module = unsafe { list(module, module_len) };
    let out = unsafe { output(out, out_len) };
    whole::dz_shorten_module(Global, module, drop_offsets, out, kept, place, cause)
}

/// Writes a module in which each index of one space is replaced.
///
/// # Safety
///
/// As the header says: pointers are valid for their lengths, and the memory that is written
/// overlaps nothing else.
#[unsafe(no_mangle)]
#[allow(clippy::too_many_arguments, reason = "a slice is two of them")]
pub unsafe extern "C" fn dz_remap_module(
    module: *const u8,
    module_len: usize,
    space: u32,
    indices: *const u32,
    indices_len: usize,
    drop_offsets: u32,
    out: *mut u8,
    out_len: usize,
    offset: &mut u64,
    cause: &mut u32,
) -> u64 {
    let module = unsafe { list(module, module_len) };
    let indices = unsafe { list(indices, indices_len) };
    let out = unsafe { output(out, out_len) };
    edits::dz_remap_module(
        Global,
        module,
        space,
        indices,
        drop_offsets,
        out,
        offset,
        cause,
    )
}

/// Writes a module with one more import, of a function.
///
/// # Safety
///
/// As the header says: pointers are valid for their lengths, and the memory that is written
/// overlaps nothing else.
#[unsafe(no_mangle)]
#[allow(clippy::too_many_arguments, reason = "a slice is two of them")]
pub unsafe extern "C" fn dz_insert_import(
    module: *const u8,
    module_len: usize,
    module_name: *const u8,
    module_name_len: usize,
    name: *const u8,
    name_len: usize,
    type_index: u32,
    drop_offsets: u32,
    out: *mut u8,
    out_len: usize,
    offset: &mut u64,
    cause: &mut u32,
) -> u64 {
    let module = unsafe { list(module, module_len) };
    let module_name = unsafe { list(module_name, module_name_len) };
    let name = unsafe { list(name, name_len) };
    let out = unsafe { output(out, out_len) };
    edits::dz_insert_import(
        Global,
        module,
        module_name,
        name,
        type_index,
        drop_offsets,
        out,
        offset,
        cause,
    )
}

/// Writes the message of a cause of the calls for sections and modules.
///
/// # Safety
///
/// As the header says: the pointer is valid for its length, and nobody else reads or writes the
/// memory that is written.
#[unsafe(no_mangle)]
pub unsafe extern "C" fn dz_cause(cause: u32, out: *mut u8, out_len: usize) -> u64 {
    causes::dz_cause(cause, unsafe { output(out, out_len) })
}

/// Writes the message of a cause of the calls for recipes.
///
/// # Safety
///
/// As the header says: the pointer is valid for its length, and nobody else reads or writes the
/// memory that is written.
#[unsafe(no_mangle)]
pub unsafe extern "C" fn dz_recipe_cause(cause: u32, out: *mut u8, out_len: usize) -> u64 {
    causes::dz_recipe_cause(cause, unsafe { output(out, out_len) })
}
