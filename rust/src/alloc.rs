//! Allocators, which grant or refuse requests for memory.
//!
//! Every list of the package takes its memory from the global allocator of the program, and returns
//! an error if that fails. Before each request it calls [`Allocator::grant`]: [`Global`] grants
//! all, and one of your own can hold a builder to a budget, or refuse each request in turn in a
//! test.
use alloc_crate::collections::TryReserveError;
use core::fmt;

/// The error of a request for memory that was refused.
///
/// It converts to [`Refused::Memory`](crate::fallible::Refused::Memory), so that `?` passes it on.
///
/// ```
/// use dolzhytik::fallible::{AllocError, Refused};
///
/// assert_eq!(Refused::from(AllocError), Refused::Memory);
/// assert_eq!(AllocError.to_string(), "out of memory");
/// ```
#[doc(alias = "out of memory")]
#[derive(Clone, Copy, PartialEq, Eq, Debug)]
pub struct AllocError;

impl fmt::Display for AllocError {
    fn fmt(&self, f: &mut fmt::Formatter<'_>) -> fmt::Result {
        f.write_str("out of memory")
    }
}

impl core::error::Error for AllocError {}

impl From<TryReserveError> for AllocError {
    fn from(_: TryReserveError) -> Self {
        AllocError
    }
}

/// With the feature `std`.
#[cfg(feature = "std")]
impl From<AllocError> for std::io::Error {
    fn from(_: AllocError) -> Self {
        std::io::ErrorKind::OutOfMemory.into()
    }
}

/// The error of a refused request for memory, with the item that was to be stored: see
/// [`Vec::push`](crate::fallible::Vec::push).
///
/// ```
/// use dolzhytik::fallible::{AllocError, AllocFailed, Allocator, Vec};
///
/// struct Nothing;
///
/// impl Allocator for Nothing {
///     fn grant(&self, _bytes: usize) -> Result<(), AllocError> {
///         Err(AllocError)
///     }
/// }
///
/// let AllocFailed(item) = Vec::new(Nothing).push("item").unwrap_err();
/// assert_eq!(item, "item");
/// assert_eq!(AllocFailed(item).to_string(), "out of memory");
/// ```
#[derive(Clone, Copy, PartialEq, Eq, Debug)]
pub struct AllocFailed<T>(pub T);

impl<T> fmt::Display for AllocFailed<T> {
    fn fmt(&self, f: &mut fmt::Formatter<'_>) -> fmt::Result {
        AllocError.fmt(f)
    }
}

impl<T: fmt::Debug> core::error::Error for AllocFailed<T> {}

/// An allocator, which grants or refuses requests for memory.
///
/// Calls that make a list or a builder take one first. The memory itself is the program's.
///
/// ```
/// use dolzhytik::fallible::{AllocError, Allocator, FunctionSection, Refused};
///
/// /// Refuses requests of more than this number of bytes.
/// #[derive(Clone, Copy)]
/// struct AtMost(usize);
///
/// impl Allocator for AtMost {
///     fn grant(&self, bytes: usize) -> Result<(), AllocError> {
///         if bytes <= self.0 { Ok(()) } else { Err(AllocError) }
///     }
/// }
///
/// let mut functions = FunctionSection::new(AtMost(64));
/// while functions.function(7).is_ok() {}
/// assert_eq!(functions.function(7), Err(Refused::Memory));
/// assert!(functions.len() > 0);
/// ```
///
/// A reference to an allocator is an allocator too, so that builders can share a budget:
///
/// ```
/// use dolzhytik::fallible::{AllocError, Allocator, Refused};
/// use dolzhytik::fallible::{FunctionSection, Module};
/// use std::cell::Cell;
///
/// /// The number of bytes that are left. A list that grows requests its whole new buffer.
/// struct Budget(Cell<usize>);
///
/// impl Allocator for Budget {
///     fn grant(&self, bytes: usize) -> Result<(), AllocError> {
///         self.0.set(self.0.get().checked_sub(bytes).ok_or(AllocError)?);
///         Ok(())
///     }
/// }
///
/// let budget = Budget(Cell::new(1000));
/// let mut functions = FunctionSection::new(&budget);
/// functions.function(7)?;
/// let mut module = Module::new(&budget)?;
/// module.section(&functions)?;
/// assert!(budget.0.get() < 1000);
///
/// budget.0.set(0);
/// assert_eq!(Module::new(&budget).err(), Some(Refused::Memory));
/// # Ok::<(), Refused>(())
/// ```
#[doc(alias = "budget")]
#[doc(alias = "memory limit")]
pub trait Allocator {
    /// Grants or refuses a buffer of this number of bytes. A list calls it once for each buffer,
    /// and does not report when it frees one.
    ///
    /// # Errors
    ///
    /// An error refuses the request: the call that made it fails.
    fn grant(&self, bytes: usize) -> Result<(), AllocError>;

    /// Returns whether a failed allocation ends the program, as for the names at the root.
    #[doc(hidden)]
    #[inline(always)]
    fn ends() -> bool
    where
        Self: Sized,
    {
        false
    }
}

/// The allocator that grants all requests: they fail only if the program's allocator fails.
///
/// ```
/// use dolzhytik::fallible::{Global, Vec};
///
/// let mut numbers = Vec::with_capacity(Global, 2)?;
/// numbers.extend_from_slice(&[1, 2])?;
/// assert_eq!(numbers[..], [1, 2]);
/// # Ok::<(), dolzhytik::fallible::AllocError>(())
/// ```
#[derive(Clone, Copy, PartialEq, Eq, Debug, Default)]
pub struct Global;

impl Allocator for Global {
    #[inline]
    fn grant(&self, _bytes: usize) -> Result<(), AllocError> {
        Ok(())
    }
}

impl<A: Allocator> Allocator for &A {
    #[inline]
    fn grant(&self, bytes: usize) -> Result<(), AllocError> {
        (**self).grant(bytes)
    }

    #[inline(always)]
    fn ends() -> bool {
        A::ends()
    }
}
