// Written by tools/to-rust from crates/examples/src/coverage/numbers.rt: change that.
// The numbers of a module that its counters depend on.

use super::{CoverageError, MAX_LENGTH};
use crate::examples::stripped::refused_at;
use dolzhytik::fallible::Allocator;
use dolzhytik::reader::{Items, ReadError, Section, Sections};
use dolzhytik::reader::remap::{IndexSpace, imported};
use dolzhytik::fallible::Export;

/// The numbers of a module that its counters depend on.
#[derive(Clone, Copy)]
pub(super) struct Numbers {
    /// The number of imported functions: the index of the first function that the module defines.
    pub(super) function: u32,
    /// The number of globals: the index of the first counter.
    pub(super) counter: u32,
    /// The number of functions that the module defines.
    pub(super) bodies: u32,
}

/// The numbers of an empty module.
const NONE: Numbers = Numbers {
    function: 0,
    counter: 0,
    bodies: 0,
};

/// Returns the sums of the numbers, or `None` above 4294967295.
///
/// # Proved
///
/// ```text
/// ensures { IfSome result (λ c. IsSum a b c) }
/// ```
fn sum(a: Numbers, b: Numbers) -> Option<Numbers> {
    Some(Numbers {
        function: a.function.checked_add(b.function)?,
        counter: a.counter.checked_add(b.counter)?,
        bodies: a.bodies.checked_add(b.bodies)?,
    })
}

/// Returns the numbers of a module that can be covered.
///
/// # Proved
///
/// ```text
/// ensures found { IfOk result (λ n. HasNumbers bytes.now n) }
/// ensures why { IfErr result (λ e. Explains bytes.now e) }
/// ```
pub(super) fn numbers_of<A: Allocator + Copy>(
    bytes: &[u8],
    alloc: A,
) -> Result<Numbers, CoverageError> {
    if bytes.len() >= MAX_LENGTH {
        return Err(CoverageError::TooLong);
    }
    let mut sections = Sections::new(alloc, bytes)?;
    let mut numbers = NONE;
    loop {
        let section = match sections.next() {
            None => return Ok(numbers),
            Some(section) => section?,
        };
        let more = numbers_in(&section)?;
        numbers = match sum(numbers, more) {
            Some(sum) => sum,
            None => return Err(CoverageError::Read(refused_at(section.offset()))),
        };
    }
}

/// Returns the numbers of a module of this section alone.
///
/// # Proved
///
/// ```text
/// ensures found { IsSection section.now.section → IfOk result (λ n. AreNumbers (copied section.now.section ∷ []) n) }
/// ensures why { IsSection section.now.section → IfErr result (λ e. ExplainsSection section.now e) }
/// ```
fn numbers_in<A: Allocator + Copy>(section: &Section<'_, A>) -> Result<Numbers, CoverageError> {
    let offset = section.offset();
    if section.has_offsets() {
        return Err(CoverageError::Offsets { offset });
    }
    match section.id() {
        2 => Ok(imported_in(section)?),
        6 => Ok(Numbers {
            counter: count_of(section)?,
            ..NONE
        }),
        7 => {
            if names_counters(section)? {
                return Err(CoverageError::Taken { offset });
            }
            Ok(NONE)
        }
        10 => Ok(Numbers {
            bodies: count_of(section)?,
            ..NONE
        }),
        _ => Ok(NONE),
    }
}

/// Returns the numbers of a module of these imports alone. The section must be one of imports.
///
/// # Proved
///
/// ```text
/// ensures found { IsSection section.now.section → section.now.section.id ≡ 2 → IfOk result (λ n. ImportsNumbers section.now.section.payload n) }
/// ensures none { IfErr result (λ e. e.cause ≢ Memory → RejectsWhole (content (section_kind_of section.now.section)) standard section.now.section.payload) }
/// ```
fn imported_in<A: Allocator + Copy>(section: &Section<'_, A>) -> Result<Numbers, ReadError> {
    let offset = section.offset();
    let Items::Imports(entries) = section.items()? else {
        return Err(refused_at(offset));
    };
    let (Some(function), Some(counter)) = (
        imported(&entries, IndexSpace::Functions),
        imported(&entries, IndexSpace::Globals),
    ) else {
        return Err(refused_at(offset));
    };
    Ok(Numbers {
        function,
        counter,
        bodies: 0,
    })
}

/// Returns the number of items of a section, which must be of a kind that is counted.
///
/// # Proved
///
/// ```text
/// ensures found { IfOk result (λ n. (x : Contents) × content (section_kind_of section.now.section) standard section.now.section.payload x × (number_in x ≡ Some n)) }
/// ensures none { IfErr result (λ e. e.cause ≢ Memory → RejectsWhole (content (section_kind_of section.now.section)) standard section.now.section.payload) }
/// ```
fn count_of<A: Allocator + Copy>(section: &Section<'_, A>) -> Result<u32, ReadError> {
    match section.count()? {
        Some(number) => Ok(number),
        None => Err(refused_at(section.offset())),
    }
}

/// Returns `true` if an export has a name that begins as the names of counters.
///
/// # Proved
///
/// ```text
/// ensures { result ≡ has_counter (map item_of exports.now) }
/// ```
fn has_counter(exports: &[Export<'_>]) -> bool {
    for export in exports {
        if export.name.as_bytes().starts_with(b"coverage.") {
            return true;
        }
    }
    false
}

/// Returns `true` if the section has such an export. It must be one of exports.
///
/// # Proved
///
/// ```text
/// ensures found { IsSection section.now.section → section.now.section.id ≡ 7 → IfOk result (λ taken. (exports : List ExportItem) × vec export standard section.now.section.payload exports × (taken ≡ has_counter exports)) }
/// ensures none { IfErr result (λ e. e.cause ≢ Memory → RejectsWhole (content (section_kind_of section.now.section)) standard section.now.section.payload) }
/// ```
fn names_counters<A: Allocator + Copy>(section: &Section<'_, A>) -> Result<bool, ReadError> {
    match section.items()? {
        Items::Exports(exports) => Ok(has_counter(&exports)),
        _ => Err(refused_at(section.offset())),
    }
}
