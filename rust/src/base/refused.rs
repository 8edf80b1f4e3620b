// Written by tools/to-rust from crates/wasm_base/src/refused.rt: change that.
// The error of calls that append or add.

use crate::alloc::{AllocError, AllocFailed};
use core::result;

/// The error of a call that appends to a sink or adds to a builder. A call that returns it changes
/// nothing, unless its documentation says otherwise.
///
/// # Examples
///
/// ```
/// use dolzhytik::fallible::{
///     AllocError, Allocator, ExportKind, ExportSection, Refused,
/// };
///
/// /// Refuses each request for memory.
/// #[derive(Clone, Copy)]
/// struct Nothing;
///
/// impl Allocator for Nothing {
///     fn grant(&self, _bytes: usize) -> Result<(), AllocError> {
///         Err(AllocError)
///     }
/// }
///
/// let mut exports = ExportSection::new(Nothing);
/// assert_eq!(exports.export("f", ExportKind::Func, 0), Err(Refused::Memory));
/// assert!(exports.is_empty());
/// ```
#[derive(Clone, Copy, PartialEq, Eq, Debug)]
pub enum Refused {
    /// An allocation failed. Tests show that calls return it in no other case; no contract says
    /// that.
    Memory,
    /// A count or length would exceed 4294967295.
    TooLong,
}

/// The result of a call that can fail with [`Refused`].
///
/// # Examples
///
/// ```
/// use dolzhytik::fallible::{Encode, Result};
///
/// fn encoded(n: u32) -> Result<Vec<u8>> {
///     let mut bytes = Vec::new();
///     n.encode(&mut bytes)?;
///     Ok(bytes)
/// }
///
/// // 128 has two groups of seven bits.
/// assert_eq!(encoded(128)?, [0x80, 0x01]);
/// # Ok::<(), dolzhytik::fallible::Refused>(())
/// ```
pub type Result<T, E = Refused> = result::Result<T, E>;

/// # Defined
///
/// ```text
/// from_gives = { λ _ refused. refused ≡ Memory }
/// ```
///
/// [How to read clauses](crate::definitions).
impl From<AllocError> for Refused {
    fn from(_error: AllocError) -> Refused {
        Refused::Memory
    }
}

/// # Defined
///
/// ```text
/// from_gives = { λ _ refused. refused ≡ Memory }
/// ```
///
/// [How to read clauses](crate::definitions).
impl<T> From<AllocFailed<T>> for Refused {
    fn from(_failed: AllocFailed<T>) -> Refused {
        Refused::Memory
    }
}

impl ::core::fmt::Display for Refused {
    fn fmt(&self, f: &mut ::core::fmt::Formatter<'_>) -> ::core::fmt::Result {
        match self {
            Self::Memory => f.write_str("out of memory"),
            Self::TooLong => f.write_str("too long"),
        }
    }
}

impl ::core::error::Error for Refused {}
