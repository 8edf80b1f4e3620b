//! Strings whose calls return an error if an allocation fails.
use crate::alloc::{AllocError, Allocator, Global};
use crate::vec::Vec;
use core::fmt;
use core::ops::Deref;

/// A string whose calls return an error if an allocation fails.
///
/// ```
/// use dolzhytik::fallible::{Global, String};
///
/// let mut text = String::from_str(Global, "a")?;
/// text.push_str("bc")?;
/// assert_eq!(text.as_str(), "abc");
/// # Ok::<(), dolzhytik::fallible::AllocError>(())
/// ```
pub struct String<A: Allocator = Global> {
    bytes: Vec<u8, A>,
}

impl<A: Allocator> String<A> {
    /// Creates an empty string, without an allocation.
    pub const fn new(alloc: A) -> Self {
        let bytes = Vec::new(alloc);
        String { bytes }
    }

    /// Creates a copy of this text.
    ///
    /// # Errors
    ///
    /// Returns [`AllocError`] if the allocation fails.
    pub fn from_str(alloc: A, text: &str) -> Result<Self, AllocError> {
        let bytes = Vec::from_slice(alloc, text.as_bytes())?;
        Ok(String { bytes })
    }

    /// Returns the text.
    pub fn as_str(&self) -> &str {
        // What is appended is text, so this is the text.
        str::from_utf8(&self.bytes).unwrap_or_default()
    }

    /// Returns the allocator.
    pub fn allocator(&self) -> &A {
        self.bytes.allocator()
    }

    /// Reserves spare capacity for `more` bytes.
    ///
    /// # Errors
    ///
    /// Returns [`AllocError`] if the allocation fails. The string is unchanged.
    pub fn reserve_exact(&mut self, more: usize) -> Result<(), AllocError> {
        self.bytes.reserve_exact(more)
    }

    /// Appends text.
    ///
    /// # Errors
    ///
    /// Returns [`AllocError`] if an allocation fails. The string is unchanged.
    pub fn push_str(&mut self, text: &str) -> Result<(), AllocError> {
        self.bytes.extend_from_slice(text.as_bytes())
    }

    /// Appends a character.
    ///
    /// # Errors
    ///
    /// Returns [`AllocError`] if an allocation fails. The string is unchanged.
    pub fn push(&mut self, character: char) -> Result<(), AllocError> {
        self.push_str(character.encode_utf8(&mut [0; 4]))
    }

    /// Appends formatted text: [`write!`] and [`writeln!`] call this.
    ///
    /// # Errors
    ///
    /// Returns [`AllocError`] if an allocation fails. The string keeps the text that was appended
    /// before.
    pub fn write_fmt(&mut self, text: fmt::Arguments<'_>) -> Result<(), AllocError> {
        fmt::Write::write_fmt(self, text).map_err(|_| AllocError)
    }
}

impl<A: Allocator> fmt::Write for String<A> {
    fn write_str(&mut self, text: &str) -> fmt::Result {
        self.push_str(text).map_err(|_| fmt::Error)
    }
}

impl<A: Allocator> Deref for String<A> {
    type Target = str;

    fn deref(&self) -> &str {
        self.as_str()
    }
}

impl<A: Allocator> fmt::Debug for String<A> {
    fn fmt(&self, f: &mut fmt::Formatter<'_>) -> fmt::Result {
        self.as_str().fmt(f)
    }
}

impl<A: Allocator, B: Allocator> PartialEq<String<B>> for String<A> {
    fn eq(&self, other: &String<B>) -> bool {
        self.as_str() == other.as_str()
    }
}

impl<A: Allocator> Eq for String<A> {}
