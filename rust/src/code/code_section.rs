// Written by tools/to-rust from crates/wasm_code/src/code_section.rt: change that.
// The code section, to which function bodies are added.

use crate::vec::Sink;
use crate::code::function::Function;
use crate::alloc::{Allocator, Global};
use crate::base::{Counted, Encode, NewStore, Pieces, Property, Result, Section, SectionId, Store, encode_size_prefixed};

/// The code section: the bodies of a module's functions.
///
/// ```
/// # fn example() -> Result<(), Box<dyn std::error::Error>> {
/// # use dolzhytik::{fallible::*, reader::*};
/// use dolzhytik::fallible::{CodeSection, Global, Module};
///
/// let mut module = Module::new(Global)?;
/// let mut code = CodeSection::new(Global);
/// code.raw(&[0x00, 0x0B])?;
/// module.section(&code)?;
/// # Ok(())
/// # }
/// # example().unwrap();
/// ```
///
/// Add one body for each entry of the [`FunctionSection`](crate::fallible::FunctionSection), in
/// the same order. Where its calls return an error, those of the root's
/// [`CodeSection`](crate::CodeSection) panic or abort.
///
/// # Model
///
/// Contracts model it as the bytes of each entry. An entry is a raw body with its size prefix.
pub type CodeSection<A = Global> = CodeSectionIn<Pieces<A>>;

/// A code section, whose entries a store of the type `S` keeps.
///
/// [`CodeSection`](crate::fallible::CodeSection) is the one that also keeps where its entries
/// end.
///
/// # Errors
///
/// An adding call that returns an error leaves the section unchanged. The error is `TooLong` only
/// if the section is full or the body is longer than 4294967295 bytes, and `Memory` only if an
/// allocation fails.
///
/// # Examples
///
/// ```
/// use dolzhytik::fallible::{CodeSectionIn, Encode, Entries, Global};
///
/// let mut code = CodeSectionIn::<Entries>::new(Global);
/// code.raw(&[0x00, 0x0B])?; // No locals; end.
/// let mut bytes = Vec::new();
/// code.encode(&mut bytes)?;
/// // Size 4, one body, of size 2.
/// assert_eq!(bytes, [4, 1, 2, 0x00, 0x0B]);
/// # Ok::<(), dolzhytik::fallible::Refused>(())
/// ```
#[derive(Debug)]
pub struct CodeSectionIn<S: Store = Pieces> {
    pub(crate) entries: S,
}

/// A raw body that the caller passes as bytes.
#[derive(Clone, Copy)]
pub(crate) struct RawBody<'a> {
    pub(crate) bytes: &'a [u8],
}

/// # Defined
///
/// ```text
/// encoding = { λ body. size_prefixed_encoding body.bytes.now }
/// encodable = { λ body. HasEncodableSize body.bytes.now }
/// ```
///
/// Definitions: [`size_prefixed_encoding`](crate::definitions::base::encodings::size_prefixed_encoding), [`HasEncodableSize`](crate::definitions::base::encodings::HasEncodableSize). [How to read clauses](crate::definitions).
impl Encode for RawBody<'_> {
    #[inline]
    fn encode<A: Sink>(&self, sink: &mut A) -> Result<()> {
        encode_size_prefixed(sink, self.bytes)
    }
}

/// The entries are raw bodies with their size prefixes.
#[derive(Clone, Copy, Debug)]
struct RawBodies;

/// # Defined
///
/// ```text
/// Items = { List (List ℕ) }
/// says = { ContainsBodies }
/// ```
///
/// Definitions: [`ContainsBodies`](crate::definitions::code::code::ContainsBodies). [How to read clauses](crate::definitions).
impl Property for RawBodies {}

/// The entries minimally encode bodies.
#[derive(Clone, Copy, Debug)]
struct Bodies;

/// # Defined
///
/// ```text
/// Items = { List Body }
/// says = { EncodesBodies }
/// ```
///
/// Definitions: [`Body`](crate::definitions::code::bodies::Body), [`EncodesBodies`](crate::definitions::code::code::EncodesBodies). [How to read clauses](crate::definitions).
impl Property for Bodies {}

/// The entries encode bodies, possibly padded.
#[derive(Clone, Copy, Debug)]
struct PaddedBodies;

/// # Defined
///
/// ```text
/// Items = { List Body }
/// says = { EncodesBodiesPadded }
/// ```
///
/// Definitions: [`Body`](crate::definitions::code::bodies::Body), [`EncodesBodiesPadded`](crate::definitions::code::code::EncodesBodiesPadded). [How to read clauses](crate::definitions).
impl Property for PaddedBodies {}

impl<S: Store> CodeSectionIn<S> {
    /// Returns the number of bodies.
    ///
    /// # Proved
    ///
    /// ```text
    /// ensures { result ≡ (S.model.joins self.now).number }
    /// ```
    ///
    /// [How to read clauses](crate::definitions).
    pub fn len(&self) -> u32 {
        self.entries.count()
    }

    /// Returns the length of all entries together, in bytes, without their count.
    ///
    /// # Proved
    ///
    /// ```text
    /// ensures { result ≡ length (S.model.joins self.now).content }
    /// ```
    ///
    /// [How to read clauses](crate::definitions).
    pub fn byte_len(&self) -> usize {
        self.entries.content().len()
    }

    /// Returns `true` if there are no bodies.
    ///
    /// # Proved
    ///
    /// ```text
    /// ensures { IsTrue result ↔ ((S.model.joins self.now).number ≡ 0) }
    /// ```
    ///
    /// [How to read clauses](crate::definitions).
    pub fn is_empty(&self) -> bool {
        self.entries.count() == 0
    }

    /// Adds a function body.
    ///
    /// # Errors
    ///
    /// Returns [`TooLong`](crate::fallible::Refused::TooLong) if the builder has 4294967295
    /// entries, or if a count or length would pass 4294967295, and
    /// [`Memory`](crate::fallible::Refused::Memory) if an allocation fails. The builder is then
    /// unchanged.
    ///
    /// # Proved
    ///
    /// The builder gains one entry with this encoding, or the call returns an error and changes nothing. A full builder, with 2^32 - 1 entries, returns `TooLong`.
    ///
    /// ```text
    /// ensures { AddsTo S.model (size_prefixed_encoding function.now)
    ///     (HasEncodableSize function.now) self.old self.new result }
    /// ```
    ///
    /// Definitions: [`AddsTo`](crate::definitions::base::calls::AddsTo), [`size_prefixed_encoding`](crate::definitions::base::encodings::size_prefixed_encoding), [`HasEncodableSize`](crate::definitions::base::encodings::HasEncodableSize). [How to read clauses](crate::definitions).
    pub fn function<B: Allocator>(&mut self, function: &Function<B>) -> Result<()> {
        self.entries.add_item(function)
    }

    /// Adds a raw body, as [`Function::into_raw_body`](crate::code::Function::into_raw_body) returns it.
    ///
    /// # Errors
    ///
    /// Returns [`TooLong`](crate::fallible::Refused::TooLong) if the builder has 4294967295
    /// entries, or if a count or length would pass 4294967295, and
    /// [`Memory`](crate::fallible::Refused::Memory) if an allocation fails. The builder is then
    /// unchanged.
    ///
    /// # Proved
    ///
    /// The builder gains one entry with this encoding, or the call returns an error and changes nothing. A full builder, with 2^32 - 1 entries, returns `TooLong`.
    ///
    /// ```text
    /// ensures { AddsTo S.model (size_prefixed_encoding body.now)
    ///     (HasEncodableSize body.now) self.old self.new result }
    /// ```
    ///
    /// Definitions: [`AddsTo`](crate::definitions::base::calls::AddsTo), [`size_prefixed_encoding`](crate::definitions::base::encodings::size_prefixed_encoding), [`HasEncodableSize`](crate::definitions::base::encodings::HasEncodableSize). [How to read clauses](crate::definitions).
    pub fn raw(&mut self, body: &[u8]) -> Result<()> {
        self.entries.add_item(&RawBody { bytes: body })
    }
}

impl<A: Allocator> CodeSection<A> {
    /// Returns the bytes of the entry at `index`, a raw body with its size prefix, or `None` if
    /// there is no such entry.
    ///
    /// # Proved
    ///
    /// The result is the entry at `index`, if there is one.
    ///
    /// ```text
    /// ensures { option_copied result ≡ slice_get self.now index }
    /// ```
    ///
    /// [How to read clauses](crate::definitions).
    pub fn piece(&self, index: u32) -> Option<&[u8]> {
        self.entries.get(index)
    }
}

impl<S: NewStore> CodeSectionIn<S> {
    /// Returns a section without bodies, and allocates nothing.
    ///
    /// # Proved
    ///
    /// ```text
    /// ensures { result ≡ S.none }
    /// ```
    ///
    /// [How to read clauses](crate::definitions).
    pub fn new(alloc: S::Alloc) -> Self {
        CodeSectionIn {
            entries: S::new_in(alloc),
        }
    }

    /// Returns a copy of the section in newly allocated memory.
    ///
    /// # Errors
    ///
    /// Returns [`Memory`](crate::fallible::Refused::Memory) if an allocation fails.
    ///
    /// # Proved
    ///
    /// After `Ok`: `same`, the result equals the value. In any case: `memory`, no error is `TooLong`.
    ///
    /// ```text
    /// ensures same { IfOk result (λ section. section ≡ self.now) }
    /// ensures memory { result ≢ Err TooLong }
    /// ```
    ///
    /// [How to read clauses](crate::definitions).
    pub fn clone(&self) -> Result<Self> {
        Ok(CodeSectionIn {
            entries: self.entries.copy()?,
        })
    }
}

/// Encodes the size prefix, the number of bodies, and the bodies, each with its size prefix.
///
/// # Defined
///
/// ```text
/// encoding = { S.encoding }
/// encodable = { S.encodable }
/// overlong = { S.overlong }
/// decoding = { λ section. DecodesCode S.model.holds section (S.encoding section) }
/// ```
///
/// Definitions: [`DecodesCode`](crate::definitions::code::code::DecodesCode). [How to read clauses](crate::definitions).
impl<S: Store> Encode for CodeSectionIn<S> {
    fn encode<B: Sink>(&self, sink: &mut B) -> Result<()> {
        self.entries.cut::<RawBodies>();
        self.entries.cut::<Bodies>();
        self.entries.cut::<PaddedBodies>();
        self.entries.encode(sink)
    }
}

/// # Defined
///
/// ```text
/// id_of = { λ _. number_of ids.Code }
/// Items = { List Body }
/// format = { code_section }
/// says = { λ section bodies. S.model.holds
///     (λ pieces. EncodesBodies pieces bodies) section }
/// payload = { λ section bytes. bytes ≡ joined_payload (S.model.joins section) }
/// sized = { λ section bytes encodable e. joined_sized (S.model.joins section)
///     (S.encoding section) bytes (S.encodes section) (S.fits section encodable) e }
/// decodes_back = { λ section promised. promised.bodies }
/// ```
///
/// Definitions: [`number_of`](crate::definitions::base::section_id::number_of), [`Body`](crate::definitions::code::bodies::Body), [`code_section`](crate::definitions::code::code::code_section), [`EncodesBodies`](crate::definitions::code::code::EncodesBodies), [`joined_payload`](crate::definitions::base::stores::joined_payload), [`joined_sized`](crate::definitions::base::stores::joined_sized). [How to read clauses](crate::definitions).
impl<S: Store> Section for CodeSectionIn<S> {
    fn id(&self) -> u8 {
        SectionId::Code.into()
    }
}

/// # Defined
///
/// ```text
/// pieces = { λ section. section }
/// item_encoding = { size_prefixed_encoding }
/// item_encodable = { HasEncodableSize }
/// counted = { λ section. refl }
/// ```
///
/// Definitions: [`size_prefixed_encoding`](crate::definitions::base::encodings::size_prefixed_encoding), [`HasEncodableSize`](crate::definitions::base::encodings::HasEncodableSize). [How to read clauses](crate::definitions).
impl<A: Allocator, B: Allocator> Counted<Function<B>> for CodeSection<A> {
    fn add(&mut self, item: &Function<B>) -> Result<()> {
        self.function(item)
    }
}
