// Written by tools/to-rust from crates/wasm_bench/src/data.rt: change that.
// The workload of the data section.

use crate::calls::answers::{Fault, answer, number};
use dolzhytik::fallible::Global;
use dolzhytik::fallible::Result;
use dolzhytik::fallible::ConstExpr;
use dolzhytik::fallible::DataSection;

/// Adds an active segment of these bytes, which begins at the offset `start`.
///
/// # Proved
///
/// ```text
/// ensures { OnOk result (length section.new ≡ length section.old + 1) }
/// ```
fn add(alloc: Global, section: &mut DataSection, start: i32, bytes: &[u8]) -> Result<()> {
    let offset = ConstExpr::i32_const(alloc, start)?;
    section.active(0, &offset, bytes.iter().copied())
}

/// Returns a section of segments of `segment` bytes each. The last one may be shorter. All of them
/// begin below 2 GiB.
///
/// # Asks
///
/// ```text
/// requires { 0 < segment }
/// ```
///
/// # Proved
///
/// ```text
/// ensures { IfOk result (λ section. IsSplit (length bytes.now) segment (length section)) }
/// ```
fn build(alloc: Global, bytes: &[u8], segment: usize) -> Result<DataSection, Fault> {
    let mut section = DataSection::new(alloc);
    let mut start = 0;
    while start < bytes.len() {
        let Ok(place) = i32::try_from(start) else {
            return Err(Fault::WrongInput);
        };
        let end = start.saturating_add(segment).min(bytes.len());
        add(alloc, &mut section, place, &bytes[start..end])?;
        start = end;
    }
    Ok(section)
}

/// # Proved
///
/// ```text
/// ensures ok { IfOk result (λ n. DataAnswer (length bytes.now) segment phase out.old out.new n) }
/// ensures err { OnErr result (out.new ≡ out.old) }
/// ```
fn data_section(
    alloc: Global,
    bytes: &[u8],
    segment: u32,
    phase: u32,
    out: &mut [u8],
) -> Result<u64, Fault> {
    if segment == 0 {
        return Err(Fault::WrongInput);
    }
    let section = build(alloc, bytes, segment as usize)?;
    answer(alloc, &section, phase, out)
}

/// Builds a section of active segments of memory 0, one for each `segment` bytes.
///
/// # Proved
///
/// ```text
/// ensures { Outcome out.old out.new result (DataAnswer (length bytes.now) segment phase out.old out.new result) }
/// ```
pub fn wb_data(
    alloc: Global,
    bytes: &[u8],
    segment: u32,
    phase: u32,
    out: &mut [u8],
) -> u64 {
    number(data_section(alloc, bytes, segment, phase, out))
}
