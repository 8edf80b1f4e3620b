// Written by tools/to-rust from crates/wasm_c/src/causes.rt: change that.
// Messages of causes, for C.

use crate::calls::NO_ANSWER;
use crate::calls::recipes::copied;

/// Returns the message of an error of a section or a module, if one has this number.
///
/// # Proved
///
/// ```text
/// ensures { option_map (λ t. t.now) result ≡ text_numbered fault_texts cause }
/// ```
fn fault_text(cause: u32) -> Option<&'static str> {
    match cause {
        1 => Some("Ended"),
        2 => Some("NotShortest"),
        3 => Some("TooLarge"),
        4 => Some("UnknownTag"),
        5 => Some("UnknownOpcode"),
        6 => Some("NotUtf8"),
        7 => Some("SizeMismatch"),
        8 => Some("Memory"),
        9 => Some("NoKind"),
        10 => Some("Offsets"),
        11 => Some("NoIndex"),
        12 => Some("Overlong"),
        _ => None,
    }
}

/// Returns the message of an error of a recipe, if one has this number.
///
/// # Proved
///
/// ```text
/// ensures { option_map (λ t. t.now) result ≡ text_numbered recipe_texts cause }
/// ```
fn recipe_text(cause: u32) -> Option<&'static str> {
    match cause {
        1 => Some("unknown command"),
        2 => Some("bad number"),
        3 => Some("bad hex"),
        4 => Some("missing word"),
        5 => Some("out of memory"),
        6 => Some("too long"),
        7 => Some("not text"),
        8 => Some("surplus word"),
        9 => Some("unknown type"),
        10 => Some("locals without a body"),
        _ => None,
    }
}

/// Writes the message of a cause of [`dz_list`](crate::calls::listing::dz_list),
/// [`dz_outline`](crate::calls::outlining::dz_outline), [`dz_shorten`](crate::calls::minimal::dz_shorten),
/// [`dz_shorten_module`](crate::calls::whole::dz_shorten_module),
/// [`dz_remap_module`](crate::calls::indices::dz_remap_module) or
/// [`dz_insert_import`](crate::calls::indices::dz_insert_import), in ASCII and without a terminating NUL.
/// Returns its length in bytes, or [`NO_ANSWER`] for any other number.
///
/// # Proved
///
/// ```text
/// ensures { Determines (text_numbered fault_texts cause) out.old out.new result }
/// ```
pub fn dz_cause(cause: u32, out: &mut [u8]) -> u64 {
    match fault_text(cause) {
        Some(text) => copied(text.as_bytes(), out),
        None => NO_ANSWER,
    }
}

/// Writes the message of a cause of [`dz_assemble`](crate::calls::recipes::dz_assemble) or
/// [`dz_assemble_versioned`](crate::calls::recipes::dz_assemble_versioned), in ASCII and without a
/// terminating NUL. Returns its length in bytes, or [`NO_ANSWER`] for any other number.
///
/// # Proved
///
/// ```text
/// ensures { Determines (text_numbered recipe_texts cause) out.old out.new result }
/// ```
pub fn dz_recipe_cause(cause: u32, out: &mut [u8]) -> u64 {
    match recipe_text(cause) {
        Some(text) => copied(text.as_bytes(), out),
        None => NO_ANSWER,
    }
}
