// Written by tools/to-rust from crates/wasm_reader/src/sections.rt: change that.
// Iterates over the sections of a module.

use crate::vec::Sink;
use crate::reader::kinds::{Items, SectionKind, read_content};
use crate::reader::minimal::minimize_content;
use crate::reader::modules::{HEADER, read_header};
use crate::reader::read_error::ReadError;
use crate::reader::standing::{Standing, read_standing};
use crate::reader::walk::count_content;
use crate::alloc::{Allocator, Global};
use core::iter::FusedIterator;
use core::ops::Range;
use crate::base::Standard;

/// Returns the length of the longest common prefix of two slices.
fn common_length(bytes: &[u8], other: &[u8]) -> usize {
    let mut count = 0;
    while count < bytes.len() && count < other.len() && bytes[count] == other[count] {
        count += 1;
    }
    count
}

/// Returns the offset of the error of bytes that do not begin with the header: that of the first
/// wrong byte, or the end of too few.
fn wrong_at(bytes: &[u8]) -> usize {
    if bytes.len() < HEADER.len() {
        return bytes.len();
    }
    common_length(bytes, &HEADER)
}

/// The sections of a module, one after another. It allocates nothing.
///
/// The iterator does not validate the module: sections may have any ids, in any order and number.
/// Decoded items are in memory of the allocator.
///
/// # Errors
///
/// Every error except `Memory` means that the bytes at the offset of the next section are not an id
/// and a size-prefixed payload. It is the last item.
///
/// # Examples
///
/// ```
/// use dolzhytik::fallible::Global;
/// use dolzhytik::reader::Sections;
///
/// // The header; a function section, id 3, of one function; a custom section, id 0, of
/// // the name "a".
/// let module = b"\0asm\x01\0\0\0\x03\x02\x01\x05\0\x02\x01a";
/// let mut found = vec![];
/// for section in Sections::new(Global, module)? {
///     let section = section?;
///     found.push((section.id(), section.name(), section.range()));
/// }
/// assert_eq!(found, [(3, None, 10..12), (0, Some("a"), 14..16)]);
/// # Ok::<(), dolzhytik::reader::ReadError>(())
/// ```
#[derive(Clone, Debug)]
pub struct Sections<'a, A: Allocator = Global> {
    alloc: A,
    module: &'a [u8],
    offset: usize,
}

impl<'a, A: Allocator + Copy> Sections<'a, A> {
    /// Checks the header of a module, and returns an iterator over its sections.
    ///
    /// # Errors
    ///
    /// An error means that the bytes do not begin with the header of a module: `Ended` if there
    /// are fewer than 8, and otherwise `UnknownTag` at the first byte that differs. A component
    /// differs in the version, at offset 4.
    ///
    /// # Examples
    ///
    /// ```
    /// use dolzhytik::fallible::Global;
    /// use dolzhytik::reader::{ReadFault, Sections};
    ///
    /// assert!(Sections::new(Global, b"\0asm\x01\0\0\0").is_ok());
    /// // A component has another version.
    /// let error = Sections::new(Global, b"\0asm\x0D\0\x01\0").unwrap_err();
    /// assert_eq!((error.cause, error.offset), (ReadFault::UnknownTag, 4));
    /// ```
    ///
    /// # Proved
    ///
    /// - After `Ok`, `found`: the module is the header, and then the bytes ahead of the iterator.
    /// - After `Ok`, `offset`: the offset is that after the header.
    /// - After `Ok`, `same`: the iterator is over these bytes.
    /// - After an error, `none`: the bytes do not begin with such an encoding.
    /// - After an error, `why`: The error of bytes that do not begin with the header: at their end if they end before it does, and otherwise at the first byte that differs.
    /// - After an error, `within`: the offset of the error is in the module, or at its end.
    ///
    /// ```text
    /// ensures found { IfOk result (λ it. module.now ≡ header ++ ahead it) }
    /// ensures offset { IfOk result (λ it. it.offset ≡ length header) }
    /// ensures same { IfOk result (λ it. it.bytes ≡ module.now) }
    /// ensures none { IfErr result (λ _. Rejects (fixed header (tt {0})) padded module.now) }
    /// ensures why { IfErr result (λ e. IsHeaderError module.now e) }
    /// ensures within { IfErr result (λ e. e.offset ≤ length module.now) }
    /// ```
    ///
    /// Definitions: [`header`](crate::definitions::base::formats::header), [`ahead`](crate::definitions::reader::iterating::ahead), [`Rejects`](crate::definitions::base::decoding::Rejects), [`fixed`](crate::definitions::base::formats::fixed), [`padded`](crate::definitions::base::numbers::Mode), [`IsHeaderError`](crate::definitions::reader::iterating::IsHeaderError). [How to read clauses](crate::definitions).
    pub fn new(alloc: A, module: &'a [u8]) -> Result<Self, ReadError> {
        match read_header(module) {
            Ok(rest) => Ok(Sections {
                alloc,
                module,
                offset: module.len() - rest.len(),
            }),
            Err(cause) => Err(ReadError {
                cause,
                offset: wrong_at(module),
            }),
        }
    }

    /// Returns the offset of the next section in the module, in bytes. After an error, it is that
    /// of the section that failed.
    ///
    /// # Proved
    ///
    /// ```text
    /// ensures { result ≡ self.now.offset }
    /// ```
    ///
    /// [How to read clauses](crate::definitions).
    pub fn offset(&self) -> usize {
        self.offset
    }
}

/// # Defined
///
/// ```text
/// next_gives = { NextSection }
/// remaining = { λ it. at_most (length (ahead it)) }
/// ```
///
/// Definitions: [`NextSection`](crate::definitions::reader::iterating::NextSection), [`ahead`](crate::definitions::reader::iterating::ahead). [How to read clauses](crate::definitions).
impl<'a, A: Allocator + Copy> Iterator for Sections<'a, A> {
    type Item = Result<Section<'a, A>, ReadError>;

    fn next(&mut self) -> Option<Result<Section<'a, A>, ReadError>> {
        let offset = self.offset;
        let bytes = &self.module[offset..];
        if bytes.is_empty() {
            return None;
        }
        match read_standing(bytes, self.alloc) {
            Ok((standing, rest)) => {
                let size = bytes.len() - rest.len();
                self.offset = offset + size;
                Some(Ok(Section {
                    alloc: self.alloc,
                    offset,
                    bytes: &bytes[..size],
                    standing,
                }))
            }
            Err(error) => {
                let end = self.module.len();
                self.module = &self.module[..offset];
                Some(Err(ReadError::located(error, bytes.len(), end)))
            }
        }
    }
}

impl<'a, A: Allocator + Copy> FusedIterator for Sections<'a, A> {}

/// A section of a module, whose payload is not yet decoded.
///
/// Calls that decode accept all encodings that the standard admits.
///
/// [`Sections`](crate::reader::Sections) yields it, and
/// [`Module::section`](crate::Module::section) copies it.
///
/// # Examples
///
/// ```
/// use dolzhytik::fallible::Global;
/// use dolzhytik::reader::{Items, SectionKind, Sections};
///
/// // A function section: id 3, size 2, one function, of type 5.
/// let module = b"\0asm\x01\0\0\0\x03\x02\x01\x05";
/// let section = Sections::new(Global, module)?.next().unwrap()?;
/// assert_eq!((section.id(), section.kind()), (3, Some(SectionKind::Functions)));
/// assert_eq!((section.offset(), section.payload()), (8, &[1, 5][..]));
/// assert_eq!(section.count()?, Some(1));
/// let Items::Functions(types) = section.items()? else { panic!("another kind") };
/// assert_eq!(types[..], [5]);
/// # Ok::<(), dolzhytik::reader::ReadError>(())
/// ```
#[derive(Clone, Copy, Debug)]
pub struct Section<'a, A: Allocator = Global> {
    alloc: A,
    offset: usize,
    bytes: &'a [u8],
    standing: Standing<'a>,
}

impl<'a, A: Allocator + Copy> Section<'a, A> {
    /// Returns the allocator of decoded items.
    pub(crate) fn allocator(&self) -> A {
        self.alloc
    }

    /// Returns the section without its offset.
    pub(crate) fn standing(&self) -> &Standing<'a> {
        &self.standing
    }

    /// Returns the section's id.
    ///
    /// # Proved
    ///
    /// ```text
    /// ensures { result ≡ self.now.section.id }
    /// ```
    ///
    /// [How to read clauses](crate::definitions).
    pub fn id(&self) -> u8 {
        self.standing.id
    }

    /// Returns the kind that the payload is decoded as. The id selects it, and for a custom section
    /// the name. It is `None` if the id is above 13, and the items are then `Items::Raw`.
    ///
    /// # Proved
    ///
    /// ```text
    /// ensures { result ≡ known_kind_of self.now.section }
    /// ```
    ///
    /// Definitions: [`known_kind_of`](crate::definitions::reader::iterating::known_kind_of). [How to read clauses](crate::definitions).
    pub fn kind(&self) -> Option<SectionKind> {
        if self.standing.id < 14 {
            Some(self.standing.kind())
        } else {
            None
        }
    }

    /// Returns the name of a custom section, if its payload begins with one.
    ///
    /// # Proved
    ///
    /// ```text
    /// ensures { option_map (λ n. n.now) result ≡ self.now.section.name }
    /// ```
    ///
    /// [How to read clauses](crate::definitions).
    pub fn name(&self) -> Option<&'a str> {
        self.standing.name
    }

    /// Returns the offset of the section's id in the module, in bytes.
    ///
    /// # Proved
    ///
    /// ```text
    /// ensures { result ≡ self.now.offset }
    /// ```
    ///
    /// [How to read clauses](crate::definitions).
    pub fn offset(&self) -> usize {
        self.offset
    }

    /// Returns all bytes of the section: its id, its size prefix and its payload.
    ///
    /// # Proved
    ///
    /// ```text
    /// ensures { result.now ≡ bytes_of self.now.section }
    /// ```
    ///
    /// Definitions: [`bytes_of`](crate::definitions::reader::outlines::bytes_of). [How to read clauses](crate::definitions).
    pub fn bytes(&self) -> &'a [u8] {
        self.bytes
    }

    /// Returns the offsets of the payload in the module, in bytes.
    ///
    /// # Proved
    ///
    /// In any case: `start`, the range is as long as the payload; `end`, it ends with the section; `after`, it begins after the id.
    ///
    /// ```text
    /// ensures start { result.start + length self.now.section.payload ≡ end_of self.now }
    /// ensures end { result.end ≡ end_of self.now }
    /// ensures after { self.now.offset < result.start }
    /// ```
    ///
    /// Definitions: [`end_of`](crate::definitions::reader::iterating::end_of). [How to read clauses](crate::definitions).
    pub fn range(&self) -> Range<usize> {
        let end = self.offset + self.bytes.len();
        end - self.standing.payload.len()..end
    }

    /// Returns the payload: the bytes after the size prefix.
    ///
    /// # Proved
    ///
    /// ```text
    /// ensures value { result.now ≡ self.now.section.payload }
    /// ensures size { length result.now < 2 ^ 32 }
    /// ```
    ///
    /// [How to read clauses](crate::definitions).
    pub fn payload(&self) -> &'a [u8] {
        self.standing.payload
    }

    /// Returns the data of a custom section: the bytes of the payload after the name. Of other
    /// sections, and if the payload begins with no name, it returns the payload.
    ///
    /// # Examples
    ///
    /// ```
    /// use dolzhytik::fallible::Global;
    /// use dolzhytik::reader::Sections;
    ///
    /// // A custom section: id 0, size 4, a name of one byte, "n", and two bytes of data.
    /// let module = b"\0asm\x01\0\0\0\0\x04\x01n\x08\x09";
    /// let section = Sections::new(Global, module)?.next().unwrap()?;
    /// assert_eq!((section.name(), section.data()), (Some("n"), &[8, 9][..]));
    /// # Ok::<(), dolzhytik::reader::ReadError>(())
    /// ```
    ///
    /// # Proved
    ///
    /// The data of a section of this name: the bytes of the payload after the name, or all of them if there is no name.
    ///
    /// ```text
    /// ensures { IsDataOf self.now.section.name self.now.section.payload result.now }
    /// ```
    ///
    /// Definitions: [`IsDataOf`](crate::definitions::reader::outlines::IsDataOf). [How to read clauses](crate::definitions).
    pub fn data(&self) -> &'a [u8] {
        self.standing.data
    }

    /// Returns the number of items, or `None` if they are not counted: those of custom sections,
    /// and of sections of ids above 13. The items of a type section are its entries, and a
    /// recursion group is one entry. The call decodes the payload, keeps no list of items, and requests
    /// no memory.
    ///
    /// # Errors
    ///
    /// An error means that the payload does not decode as the section's kind. It is never `Memory`.
    ///
    /// # Examples
    ///
    /// ```
    /// use dolzhytik::fallible::Global;
    /// use dolzhytik::reader::Sections;
    ///
    /// // A function section of two functions; a custom section.
    /// let module = b"\0asm\x01\0\0\0\x03\x03\x02\x05\x06\0\x02\x01a";
    /// let counts: Result<Vec<_>, _> =
    ///     Sections::new(Global, module)?.map(|section| section?.count()).collect();
    /// assert_eq!(counts?, [Some(2), None]);
    /// # Ok::<(), dolzhytik::reader::ReadError>(())
    /// ```
    ///
    /// # Proved
    ///
    /// After `Ok`: `found`, the payload encodes items, and the result is their number if they are counted. After an error: `none`, the bytes as a whole are no such encoding, unless the cause is `Memory`; `within`, the offset of the error is in the payload.
    ///
    /// ```text
    /// ensures found { IfOk result
    ///     (λ number. (x : Contents)
    ///         × content (section_kind_of self.now.section) standard self.now.section.payload x
    ///         × (number ≡ number_in x)) }
    /// ensures none { IfErr result
    ///     (λ e. e.cause ≢ Memory → RejectsWhole
    ///         (content (section_kind_of self.now.section)) standard self.now.section.payload)
    ///     }
    /// ensures no_memory { IfErr result (λ e. e.cause ≢ Memory) }
    /// ensures within { IfErr result (λ e. IsInPayload self.now e.offset) }
    /// ```
    ///
    /// Definitions: [`Contents`](crate::definitions::reader::kinds::Contents), [`content`](crate::definitions::reader::kinds::content), [`section_kind_of`](crate::definitions::reader::outlines::section_kind_of), [`standard`](crate::definitions::base::numbers::Mode), [`number_in`](crate::definitions::reader::kinds::number_in), [`RejectsWhole`](crate::definitions::base::continuing::RejectsWhole), [`IsInPayload`](crate::definitions::reader::iterating::IsInPayload). [How to read clauses](crate::definitions).
    pub fn count(&self) -> Result<Option<u32>, ReadError> {
        let payload = self.standing.payload;
        match count_content::<A, Standard>(self.standing.kind(), payload, self.alloc) {
            Ok(number) => Ok(number),
            Err(error) => Err(ReadError::located(error, payload.len(), self.range().end)),
        }
    }

    /// Decodes the payload, and returns its items. Names, data and raw bytes are slices of the
    /// module; lists are in memory of the allocator. The payload of a custom section of a known
    /// name must be of that kind.
    ///
    /// # Errors
    ///
    /// Every error except `Memory` means that the payload does not decode as the section's kind.
    ///
    /// # Proved
    ///
    /// After `Ok`: `found`, the payload encodes the items. After an error: `none`, the bytes as a whole are no such encoding, unless the cause is `Memory`; `within`, the offset of the error is in the payload.
    ///
    /// ```text
    /// ensures found { IfOk result
    ///     (λ x. content (section_kind_of self.now.section) standard self.now.section.payload
    ///         (contents_of x)) }
    /// ensures none { IfErr result
    ///     (λ e. e.cause ≢ Memory → RejectsWhole
    ///         (content (section_kind_of self.now.section)) standard self.now.section.payload)
    ///     }
    /// ensures within { IfErr result (λ e. IsInPayload self.now e.offset) }
    /// ```
    ///
    /// Definitions: [`content`](crate::definitions::reader::kinds::content), [`section_kind_of`](crate::definitions::reader::outlines::section_kind_of), [`standard`](crate::definitions::base::numbers::Mode), [`contents_of`](crate::definitions::reader::kinds::contents_of), [`RejectsWhole`](crate::definitions::base::continuing::RejectsWhole), [`IsInPayload`](crate::definitions::reader::iterating::IsInPayload). [How to read clauses](crate::definitions).
    pub fn items(&self) -> Result<Items<'a, A>, ReadError>
    where
        A: 'a,
    {
        match read_content::<A, Standard>(self.standing.kind(), self.standing.payload, self.alloc) {
            Ok(items) => Ok(items),
            Err(error) => Err(ReadError::located(
                error,
                self.standing.payload.len(),
                self.range().end,
            )),
        }
    }

    /// Appends the payload in its minimal encoding. In the standard's grammar a nullable reference
    /// to an abstract type has one byte, for example. On an error, the bytes of the sink are
    /// unchanged.
    ///
    /// Items are decoded one by one and, as measured, not kept.
    ///
    /// # Errors
    ///
    /// Every error except `Memory` means that the payload does not decode as the section's kind.
    ///
    /// # Examples
    ///
    /// ```
    /// use dolzhytik::fallible::Global;
    /// use dolzhytik::reader::Sections;
    ///
    /// // The type of a function that takes an `anyref`, in two bytes.
    /// let module = b"\0asm\x01\0\0\0\x01\x06\x01\x60\x01\x63\x6E\x00";
    /// let section = Sections::new(Global, module)?.next().expect("a section")?;
    /// let mut payload = vec![];
    /// section.minimize(&mut payload)?;
    /// assert_eq!(payload, [0x01, 0x60, 0x01, 0x6E, 0x00]);
    /// # Ok::<(), dolzhytik::reader::ReadError>(())
    /// ```
    ///
    /// # Proved
    ///
    /// - After `Ok`, `found`: The bytes as a whole decode to a value in this grammar, and the call appends the minimal encoding of the value in this grammar.
    /// - After an error, `err`: the bytes of the sink are unchanged.
    /// - After an error, `none`: the bytes as a whole are no such encoding, unless the cause is `Memory`.
    /// - After an error, `within`: the offset of the error is in the payload.
    ///
    /// ```text
    /// ensures found { OnOk result
    ///     (MinimizesWhole admitted
    ///         (content (section_kind_of self.now.section)) self.now.section.payload
    ///         sink.old.items sink.new.items) }
    /// ensures err { OnErr result (sink.new.items ≡ sink.old.items) }
    /// ensures none { IfErr result
    ///     (λ e. e.cause ≢ Memory → RejectsWhole
    ///         (content (section_kind_of self.now.section)) standard self.now.section.payload)
    ///     }
    /// ensures within { IfErr result (λ e. IsInPayload self.now e.offset) }
    /// ```
    ///
    /// Definitions: [`MinimizesWhole`](crate::definitions::base::minimal::MinimizesWhole), [`admitted`](crate::definitions::base::numbers::Grammar), [`content`](crate::definitions::reader::kinds::content), [`section_kind_of`](crate::definitions::reader::outlines::section_kind_of), [`RejectsWhole`](crate::definitions::base::continuing::RejectsWhole), [`standard`](crate::definitions::base::numbers::Mode), [`IsInPayload`](crate::definitions::reader::iterating::IsInPayload). [How to read clauses](crate::definitions).
    pub fn minimize<B: Sink>(&self, sink: &mut B) -> Result<(), ReadError> {
        let start = sink.len();
        let payload = self.standing.payload;
        match minimize_content::<A, Standard, _>(self.standing.kind(), payload, self.alloc, sink) {
            Ok(()) => Ok(()),
            Err(error) => {
                sink.truncate(start);
                Err(ReadError::located(error, payload.len(), self.range().end))
            }
        }
    }
}
