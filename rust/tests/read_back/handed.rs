// Written by tools/to-rust from crates/read_back/src/handed.rt: change that.
//! Sections that are built from arguments: a raw body of any bytes, a custom section, built and
//! already encoded, and functions and exports of a list.

use dolzhytik::fallible::Vec;
use crate::read_back::declared::tags;
use dolzhytik::fallible::Allocator;
use dolzhytik::fallible::{CowSlice, CowStr, Encode, Module, Result, add_all};
use dolzhytik::fallible::{CodeSection, Function};
use dolzhytik::fallible::{CustomSection, RawCustomSection};
use dolzhytik::fallible::laws::sections::plain_exports;
use dolzhytik::fallible::{Export, ExportSection};

/// Returns a code section of a raw body.
///
/// # Proved
///
/// ```text
/// ensures { IfOk result (λ section. ContainsBodies section (body.now ∷ [])) }
/// ```
fn code<A: Allocator + Copy>(alloc: A, body: &[u8]) -> Result<CodeSection<A>> {
    let mut section = CodeSection::new(alloc);
    section.raw(body)?;
    Ok(section)
}

/// Returns a module of tags, a raw body, a custom section, and the bytes of that section again.
///
/// # Proved
///
/// ```text
/// ensures { IfOk result (λ made. DecodesSections (handed_sections index body.now name.now bytes.now) made.items) }
/// ```
pub fn handed_module<A: Allocator + Copy>(
    alloc: A,
    index: u32,
    body: &[u8],
    name: &str,
    bytes: &[u8],
) -> Result<Vec<u8, A>> {
    let given: CustomSection<'_> = CustomSection {
        name: CowStr::Borrowed(name),
        bytes: CowSlice::Borrowed(bytes),
    };
    let mut encoding = Vec::new(alloc);
    given.encode(&mut encoding)?;
    let mut built = Module::new(alloc)?;
    built.section(&tags(alloc, index)?)?;
    built.section(&code(alloc, body)?)?;
    built.section(&given)?;
    built.section(&RawCustomSection(encoding.as_slice()))?;
    Ok(built.finish())
}

/// Returns a code section of functions: it holds, in order, the bodies that they encode, minimal
/// and padded.
///
/// # Proved
///
/// ```text
/// ensures plain { IfOk result (λ section. (bodies : List Body) → AllZip IsWellFormedBody functions.now bodies → EncodesBodies section bodies) }
/// ensures padded { IfOk result (λ section. (bodies : List Body) → AllZip IsPaddedBody functions.now bodies → EncodesBodiesPadded section bodies) }
/// ```
pub fn code_of<A: Allocator + Copy>(alloc: A, functions: &[Function<A>]) -> Result<CodeSection<A>> {
    let mut section = CodeSection::new(alloc);
    match add_all(&mut section, functions) {
        Ok(()) => Ok(section),
        Err((_, refused)) => Err(refused),
    }
}

/// Appends an export section of the exports of a list, which decodes to them with padded LEB128
/// too.
///
/// # Proved
///
/// ```text
/// ensures { OnOk result (GainsDecodingPadded (counted_format export_format) (map item_of exports.now) sink.old.items sink.new.items) }
/// ```
pub fn encode_listed_exports<A: Allocator + Copy>(
    sink: &mut Vec<u8, A>,
    exports: &[Export<'_>],
) -> Result<()> {
    plain_exports(exports);
    let mut section = ExportSection::new(*sink.allocator());
    match add_all(&mut section, exports) {
        Ok(()) => section.encode(sink),
        Err((_, refused)) => Err(refused),
    }
}
