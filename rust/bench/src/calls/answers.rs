// Written by tools/to-rust from crates/wasm_bench/src/answers.rt: change that.
// The results of workloads.

use dolzhytik::fallible::Vec;
use dolzhytik::fallible::Global;
use dolzhytik::fallible::{Module, Refused, Section};
use dolzhytik::fallible::CodeSection;
use dolzhytik::fallible::NameSection;
use dolzhytik::fallible::{CountedSection, ItemKind};
use dolzhytik::fallible::TypeSection;

/// The result of a workload whose input is wrong, or in which a call of the library failed.
pub const NO_ANSWER: u64 = 18446744073709551615;

/// The error of a workload.
#[derive(Clone, Copy)]
pub(crate) enum Fault {
    /// The input is not one of the workload.
    WrongInput,
    /// A call of the library failed.
    Refused,
}

/// # Defined
///
/// ```text
/// from_gives = { λ _ fault. fault ≡ faults.Refused }
/// ```
impl From<Refused> for Fault {
    fn from(_refused: Refused) -> Fault {
        Fault::Refused
    }
}

/// Copies the bytes to the front of `out`, if `out` holds all of them, and returns their number.
///
/// # Proved
///
/// ```text
/// ensures { Gives bytes.now out.old out.new result }
/// ```
fn copied(bytes: &[u8], out: &mut [u8]) -> u64 {
    let count = bytes.len();
    if count <= out.len() {
        let (spare, _) = out.split_at_mut(count);
        spare.copy_from_slice(bytes);
    }
    count as u64
}

/// A section of entries, whose total length a workload returns.
///
/// # Defined
///
/// ```text
/// // The bytes of the entries.
/// content: { Self → List ℕ }
/// ```
pub(crate) trait Entries: Section {
    /// Returns the length of all entries together in bytes, without their number, or `None` if it
    /// does not fit 64 bits.
    ///
    /// # Proved
    ///
    /// ```text
    /// ensures { MatchOption result (2 ^ 64 ≤ length (content self.now)) (λ n. n ≡ length (content self.now)) }
    /// ```
    fn entries_len(&self) -> Option<u64>;
}

/// # Defined
///
/// ```text
/// content = { λ section. joined section }
/// ```
impl Entries for CodeSection {
    fn entries_len(&self) -> Option<u64> {
        Some(self.byte_len() as u64)
    }
}

/// # Defined
///
/// ```text
/// content = { λ section. joined section }
/// ```
impl Entries for NameSection {
    fn entries_len(&self) -> Option<u64> {
        Some(self.as_custom().bytes.as_slice().len() as u64)
    }
}

/// Adds the lengths of the entries one by one, since the section does not report the total.
///
/// # Defined
///
/// ```text
/// content = { λ section. joined section }
/// ```
impl<K: ItemKind> Entries for CountedSection<K> {
    fn entries_len(&self) -> Option<u64> {
        let mut bytes: u64 = 0;
        for index in 0..self.len() {
            let piece = self.piece(index)?;
            bytes = bytes.checked_add(piece.len() as u64)?;
        }
        Some(bytes)
    }
}

/// Adds the lengths of the entries, as for a counted section.
///
/// # Defined
///
/// ```text
/// content = { λ section. joined section }
/// ```
impl Entries for TypeSection {
    fn entries_len(&self) -> Option<u64> {
        let mut bytes: u64 = 0;
        for index in 0..self.len() {
            let piece = self.piece(index)?;
            bytes = bytes.checked_add(piece.len() as u64)?;
        }
        Some(bytes)
    }
}

/// Returns the result of a workload that built this section: in phase 0 the length of its entries
/// in bytes, in phase 1 the section, and in phase 2 a module of this section alone.
///
/// # Proved
///
/// ```text
/// ensures answers { Answers (S.id_of section.now) (S.content section.now) (S.encoding section.now) phase out.old out.new result }
/// ensures wrong { IfErr result (λ fault. fault ≡ faults.WrongInput → 2 < phase) }
/// ```
pub(crate) fn answer<S: Entries>(
    alloc: Global,
    section: &S,
    phase: u32,
    out: &mut [u8],
) -> Result<u64, Fault> {
    match phase {
        0 => section.entries_len().ok_or(Fault::Refused),
        1 => {
            let mut bytes = Vec::new(alloc);
            section.append_to(&mut bytes)?;
            Ok(copied(&bytes, out))
        }
        2 => {
            let mut module = Module::new(alloc)?;
            module.section(section)?;
            Ok(copied(&module.finish(), out))
        }
        _ => Err(Fault::WrongInput),
    }
}

/// Returns the result as a number.
///
/// # Proved
///
/// ```text
/// ensures { MatchResult outcome (λ n. result ≡ n) (λ _. result ≡ NO_ANSWER) }
/// ```
pub(crate) fn number(outcome: Result<u64, Fault>) -> u64 {
    match outcome {
        Ok(n) => n,
        Err(_) => NO_ANSWER,
    }
}
