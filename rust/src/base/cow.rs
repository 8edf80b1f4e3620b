// Written by tools/to-rust from crates/wasm_base/src/cow.rt: change that.
// Slices and strings that are borrowed or owned.

use crate::vec::{Sink, Vec};
use crate::string::String;
use crate::base::encode::Encode;
use crate::base::refused::Result;
use crate::alloc::{Allocator, Global};

/// A slice of items that is borrowed, or owned as a `Vec`.
///
/// Values with lists take it: [`Elements`](crate::fallible::Elements),
/// [`Instruction`](crate::fallible::Instruction) and
/// [`CustomSection`](crate::fallible::CustomSection).
///
/// # Examples
///
/// ```
/// use dolzhytik::fallible::{CowSlice, Global, Vec};
///
/// let borrowed: CowSlice<'_, u32> = CowSlice::Borrowed(&[1, 2]);
/// let owned = CowSlice::Owned(Vec::from_slice(Global, &[1, 2])?);
/// assert_eq!(borrowed.as_slice(), owned.as_slice());
/// # Ok::<(), dolzhytik::fallible::AllocError>(())
/// ```
#[derive(Debug)]
pub enum CowSlice<'a, T, A: Allocator = Global> {
    /// A slice of the caller's.
    Borrowed(&'a [T]),
    /// A vector of its own.
    Owned(Vec<T, A>),
}

impl<'a, T, A: Allocator> CowSlice<'a, T, A> {
    /// Returns the items.
    ///
    /// # Proved
    ///
    /// ```text
    /// ensures { result.now ≡ items_of self.now }
    /// ```
    ///
    /// Definitions: [`items_of`](crate::definitions::base::cow::items_of). [How to read clauses](crate::definitions).
    pub fn as_slice(&self) -> &[T] {
        match self {
            CowSlice::Borrowed(items) => items,
            CowSlice::Owned(items) => items.as_slice(),
        }
    }
}

impl<'a, T: Clone, A: Allocator + Copy> CowSlice<'a, T, A> {
    /// Returns a copy: borrowed items stay borrowed, and owned ones are copied to a new `Vec`.
    ///
    /// # Errors
    ///
    /// Returns [`Memory`](crate::base::Refused::Memory) if an allocation fails.
    ///
    /// # Proved
    ///
    /// After `Ok`: `same`, the result has the same content. In any case: `memory`, no error is `TooLong`.
    ///
    /// ```text
    /// ensures same { IfOk result (λ cow. items_of cow ≡ items_of self.now) }
    /// ensures memory { result ≢ Err Refused.TooLong }
    /// ```
    ///
    /// Definitions: [`items_of`](crate::definitions::base::cow::items_of). [How to read clauses](crate::definitions).
    pub fn clone(&self) -> Result<Self> {
        match self {
            CowSlice::Borrowed(items) => Ok(CowSlice::Borrowed(items)),
            CowSlice::Owned(items) => Ok(CowSlice::Owned(Vec::from_slice(
                *items.allocator(),
                items.as_slice(),
            )?)),
        }
    }
}

/// Encodes the items as a vector.
///
/// # Defined
///
/// ```text
/// encoding = { λ cow. vec_encoding T.encoding (items_of cow) }
/// encodable = { λ cow. IsEncodableVec T.encodable (items_of cow) }
/// ```
///
/// Definitions: [`vec_encoding`](crate::definitions::base::encodings::vec_encoding), [`items_of`](crate::definitions::base::cow::items_of), [`IsEncodableVec`](crate::definitions::base::encodings::IsEncodableVec). [How to read clauses](crate::definitions).
impl<T: Encode, A: Allocator> Encode for CowSlice<'_, T, A> {
    fn encode<B: Sink>(&self, sink: &mut B) -> Result<()> {
        self.as_slice().encode(sink)
    }
}

/// A string that is borrowed, or owned as a `String`.
///
/// [`CustomSection`](crate::fallible::CustomSection) takes it.
///
/// # Examples
///
/// ```
/// use dolzhytik::fallible::{CowStr, Global, String};
///
/// let borrowed: CowStr<'_> = CowStr::Borrowed("name");
/// let owned = CowStr::Owned(String::from_str(Global, "name")?);
/// assert_eq!(borrowed.as_str(), owned.as_str());
/// # Ok::<(), dolzhytik::fallible::AllocError>(())
/// ```
#[derive(Debug)]
pub enum CowStr<'a, A: Allocator = Global> {
    /// A string of the caller's.
    Borrowed(&'a str),
    /// A string of its own.
    Owned(String<A>),
}

impl<'a, A: Allocator> CowStr<'a, A> {
    /// Returns the string.
    ///
    /// # Proved
    ///
    /// ```text
    /// ensures { result.now ≡ utf8_of self.now }
    /// ```
    ///
    /// Definitions: [`utf8_of`](crate::definitions::base::cow::utf8_of). [How to read clauses](crate::definitions).
    pub fn as_str(&self) -> &str {
        match self {
            CowStr::Borrowed(encoding) => encoding,
            CowStr::Owned(encoding) => encoding.as_str(),
        }
    }
}

impl<'a, A: Allocator + Copy> CowStr<'a, A> {
    /// Returns a copy: a borrowed string stays borrowed, and an owned one is copied to a new
    /// `String`.
    ///
    /// # Errors
    ///
    /// Returns [`Memory`](crate::base::Refused::Memory) if an allocation fails.
    ///
    /// # Proved
    ///
    /// After `Ok`: `same`, the result has the same content. In any case: `memory`, no error is `TooLong`.
    ///
    /// ```text
    /// ensures same { IfOk result (λ cow. utf8_of cow ≡ utf8_of self.now) }
    /// ensures memory { result ≢ Err Refused.TooLong }
    /// ```
    ///
    /// Definitions: [`utf8_of`](crate::definitions::base::cow::utf8_of). [How to read clauses](crate::definitions).
    pub fn clone(&self) -> Result<Self> {
        match self {
            CowStr::Borrowed(encoding) => Ok(CowStr::Borrowed(encoding)),
            CowStr::Owned(encoding) => Ok(CowStr::Owned(String::from_str(
                *encoding.allocator(),
                encoding.as_str(),
            )?)),
        }
    }
}

/// Encodes the string as a name.
///
/// # Defined
///
/// ```text
/// encoding = { λ cow. size_prefixed_encoding (utf8_of cow) }
/// encodable = { λ cow. HasEncodableSize (utf8_of cow) }
/// ```
///
/// Definitions: [`size_prefixed_encoding`](crate::definitions::base::encodings::size_prefixed_encoding), [`utf8_of`](crate::definitions::base::cow::utf8_of), [`HasEncodableSize`](crate::definitions::base::encodings::HasEncodableSize). [How to read clauses](crate::definitions).
impl<A: Allocator> Encode for CowStr<'_, A> {
    fn encode<B: Sink>(&self, sink: &mut B) -> Result<()> {
        self.as_str().encode(sink)
    }
}
