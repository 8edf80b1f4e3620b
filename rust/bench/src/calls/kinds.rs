// Written by tools/to-rust from crates/wasm_bench/src/kinds.rt: change that.
// The kinds of exports and imports.

use crate::calls::answers::Fault;
use dolzhytik::fallible::ExportKind;

/// Returns the kind of this number.
///
/// # Proved
///
/// ```text
/// ensures { MatchResult result (λ kind. kind_code kind ≡ number) (λ _. 4 < number) }
/// ```
pub(crate) fn export_kind_of(number: u8) -> Result<ExportKind, Fault> {
    match number {
        0 => Ok(ExportKind::Func),
        1 => Ok(ExportKind::Table),
        2 => Ok(ExportKind::Memory),
        3 => Ok(ExportKind::Global),
        4 => Ok(ExportKind::Tag),
        _ => Err(Fault::WrongInput),
    }
}
