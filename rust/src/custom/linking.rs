// Written by tools/to-rust from crates/wasm_custom/src/linking.rt: change that.
// The linking section: its builder, its reader and its minimizer.

use crate::vec::{Sink, Vec};
use crate::custom::comdats::Comdat;
use crate::custom::entries::{CustomEntries, CustomKind};
use crate::custom::init_functions::InitFunction;
use crate::custom::lists::CountedList;
use crate::custom::named::after_name;
use crate::custom::segments::SegmentInfo;
use crate::custom::standard::require_standard;
use crate::custom::subsections::Subsection;
use crate::custom::symbols::{Symbol, SymbolMembers};
use crate::alloc::{Allocator, Global};
use crate::base::{DecodeError, Encode, Grammar, Kind, Layout, Pieces, ReadFault, Readable, Result, Shorten, SizePrefixed, Store, append_all, prefix_size_since, read_to_end};

/// The linking section: the symbols and target of a module for a linker, in version 2 of the
/// format. Each call adds a subsection, and `new` allocates nothing.
///
/// ```
/// # fn example() -> Result<(), Box<dyn std::error::Error>> {
/// # use dolzhytik::{fallible::*, reader::*};
/// use dolzhytik::fallible::{Global, LinkingSection, Module, SymbolTable};
///
/// let mut module = Module::new(Global)?;
/// let mut symbols = SymbolTable::new(Global);
/// symbols.function(SymbolTable::WASM_SYM_EXPORTED, 0, Some("f"))?;
/// let mut linking = LinkingSection::new(Global);
/// linking.symbol_table(&symbols)?;
/// module.section(&linking)?;
/// # Ok(())
/// # }
/// # example().unwrap();
/// ```
pub type LinkingSection<A = Global> = CustomEntries<LinkingItems, Pieces<A>>;

/// The kind of a linking section's items: subsections.
///
/// # Examples
///
/// ```
/// use dolzhytik::fallible::{CustomKind, Global, LinkingItems, LinkingSection};
///
/// let section = LinkingSection::new(Global);
/// assert_eq!((section.len(), LinkingItems::name()), (0, "linking"));
/// ```
#[derive(Clone, Copy, Debug)]
pub struct LinkingItems;

/// # Defined
///
/// ```text
/// Record = { LinkModel }
/// Item = { LinkModel }
/// kind = { link_items }
/// ```
///
/// Definitions: [`LinkModel`](crate::definitions::custom::linking::LinkItem), [`link_items`](crate::definitions::custom::linking::link_items). [How to read clauses](crate::definitions).
impl Kind for LinkingItems {
    fn laws() {}
}

/// # Defined
///
/// ```text
/// name = { linking_name }
/// front = { version ∷ [] }
/// front_format = { just version u32_format }
/// counted = { false }
/// ```
///
/// Definitions: [`linking_name`](crate::definitions::custom::linking::linking_name), [`version`](crate::definitions::custom::linking::version), [`just`](crate::definitions::base::formats::just), [`u32_format`](crate::definitions::base::formats::u32). [How to read clauses](crate::definitions).
impl CustomKind for LinkingItems {
    fn name() -> &'static str {
        "linking"
    }

    fn front() -> &'static [u8] {
        &[2]
    }

    fn counted() -> bool {
        false
    }

    fn layout_laws() {}
}

impl<S: Store> CustomEntries<LinkingItems, S> {
    /// Adds the symbols.
    ///
    /// # Errors
    ///
    /// Returns [`TooLong`](crate::fallible::Refused::TooLong) if the builder has 4294967295
    /// entries, or if a count or length would pass 4294967295, and
    /// [`Memory`](crate::fallible::Refused::Memory) if an allocation fails. The builder is then
    /// unchanged.
    ///
    /// # Proved
    ///
    /// The builder gains one entry with this encoding, or the call returns an error and changes nothing. A full builder, with 2^32 - 1 entries, returns `TooLong`.
    ///
    /// ```text
    /// ensures { AddsTo S.model
    ///     (subsection_encoding 8 (list_encoding (T.model.joins symbols.now)))
    ///     (HasEncodableSize (list_encoding (T.model.joins symbols.now)) × ⊤) self.old self.new
    ///     result }
    /// ```
    ///
    /// Definitions: [`AddsTo`](crate::definitions::base::calls::AddsTo), [`subsection_encoding`](crate::definitions::custom::customs::subsection_encoding), [`list_encoding`](crate::definitions::custom::lists::list_encoding), [`HasEncodableSize`](crate::definitions::base::encodings::HasEncodableSize). [How to read clauses](crate::definitions).
    pub fn symbol_table<T: Store>(&mut self, symbols: &CountedList<SymbolMembers, T>) -> Result<()> {
        self.add_record(symbols)
    }

    /// Adds the architecture of the target.
    ///
    /// # Errors
    ///
    /// Returns [`TooLong`](crate::fallible::Refused::TooLong) if the builder has 4294967295
    /// entries, or if a count or length would pass 4294967295, and
    /// [`Memory`](crate::fallible::Refused::Memory) if an allocation fails. The builder is then
    /// unchanged.
    ///
    /// # Proved
    ///
    /// The builder gains one entry with this encoding, or the call returns an error and changes nothing. A full builder, with 2^32 - 1 entries, returns `TooLong`.
    ///
    /// ```text
    /// ensures { AddsTo S.model (subsection_encoding 9 (size_prefixed_encoding name.now))
    ///     (HasEncodableSize (size_prefixed_encoding name.now) × HasEncodableSize name.now)
    ///     self.old self.new result }
    /// ```
    ///
    /// Definitions: [`AddsTo`](crate::definitions::base::calls::AddsTo), [`subsection_encoding`](crate::definitions::custom::customs::subsection_encoding), [`size_prefixed_encoding`](crate::definitions::base::encodings::size_prefixed_encoding), [`HasEncodableSize`](crate::definitions::base::encodings::HasEncodableSize). [How to read clauses](crate::definitions).
    pub fn target_arch(&mut self, name: &str) -> Result<()> {
        self.add_record(&Subsection {
            id: 9,
            content: &name,
        })
    }
}

/// The version of linking sections.
pub(crate) const VERSION: u32 = 2;

/// A decoded subsection of a linking section. The builders' grammar has symbol tables and
/// architectures alone. In the standard's grammar, a subsection of an unknown id is kept as bytes.
///
/// [`Items::Linking`](crate::reader::Items::Linking) has them.
///
/// # Examples
///
/// ```
/// use dolzhytik::fallible::{Global, read_links};
/// use dolzhytik::reader::{LinkItem, Padded, Symbol};
///
/// // "linking", version 2; a symbol table: 8, size 6, one symbol: a function (0), no
/// // flags, the index 5, "f".
/// let payload = b"\x07linking\x02\x08\x06\x01\0\0\x05\x01f";
/// let items = read_links::<Global, Padded>(payload, Global)?;
/// let LinkItem::Symbols(symbols) = &items[0] else { panic!("another subsection") };
/// assert!(matches!(
///     symbols[..],
///     [Symbol::Function { index: 5, name: Some("f"), .. }]
/// ));
/// # Ok::<(), dolzhytik::reader::DecodeError>(())
/// ```
#[derive(Debug)]
#[non_exhaustive]
pub enum LinkItem<'a, A: Allocator = Global> {
    /// The data segments, in the order of the data section.
    Segments(Vec<SegmentInfo<'a>, A>),
    /// The functions that the linked module calls when it starts.
    InitFunctions(Vec<InitFunction, A>),
    /// The COMDAT groups.
    Comdats(Vec<Comdat<'a, A>, A>),
    /// The symbol table.
    Symbols(Vec<Symbol<'a>, A>),
    /// The architecture of the target.
    Arch(&'a str),
    /// A subsection of another id, whose content is not decoded.
    Other {
        /// The id of the subsection.
        id: u8,
        /// The content, without its size prefix.
        bytes: &'a [u8] },
}

/// Decodes a size-prefixed vector, which is the content of most subsections.
pub(crate) fn read_vector<'a, T: Readable<'a, A, G>, A: Allocator + Copy, G: Grammar>(
    bytes: &'a [u8],
    alloc: A,
) -> Result<(Vec<T, A>, &'a [u8]), DecodeError> {
    let (SizePrefixed(items), rest) = <SizePrefixed<Vec<T, A>> as Readable<'a, A, G>>::read(
        bytes, alloc,
    )?;
    Ok((items, rest))
}

/// # Defined
///
/// ```text
/// Value = { LinkModel }
/// format = { link }
/// view = { link_view }
/// ```
///
/// Definitions: [`LinkModel`](crate::definitions::custom::linking::LinkItem), [`link`](crate::definitions::custom::linking::link), [`link_view`](crate::definitions::custom::linking::link_view). [How to read clauses](crate::definitions).
impl<'a, A: Allocator> Layout for LinkItem<'a, A> {
    /// # Proved
    ///
    /// A format whose encodings determine their own end is unambiguous in every mode, with encodings as `HasEncodings` states.
    ///
    /// ```text
    /// ensures { Unambiguous link }
    /// ```
    ///
    /// Definitions: [`Unambiguous`](crate::definitions::base::decoding::Unambiguous), [`link`](crate::definitions::custom::linking::link). [How to read clauses](crate::definitions).
    fn laws() {}
}

impl<'a, A: Allocator + Copy + 'a, G: Grammar> Readable<'a, A, G> for LinkItem<'a, A> {
    fn read(bytes: &'a [u8], alloc: A) -> Result<(LinkItem<'a, A>, &'a [u8]), DecodeError> {
        let (id, rest) = <u8 as Readable<'a, A, G>>::read(bytes, alloc)?;
        match id {
            5 => {
                require_standard::<G>(rest)?;
                let (segments, rest) = read_vector::<'a, SegmentInfo<'a>, A, G>(rest, alloc)?;
                Ok((LinkItem::Segments(segments), rest))
            }
            6 => {
                require_standard::<G>(rest)?;
                let (functions, rest) = read_vector::<'a, InitFunction, A, G>(rest, alloc)?;
                Ok((LinkItem::InitFunctions(functions), rest))
            }
            7 => {
                require_standard::<G>(rest)?;
                let (comdats, rest) = read_vector::<'a, Comdat<'a, A>, A, G>(rest, alloc)?;
                Ok((LinkItem::Comdats(comdats), rest))
            }
            8 => {
                let (symbols, rest) = read_vector::<'a, Symbol<'a>, A, G>(rest, alloc)?;
                Ok((LinkItem::Symbols(symbols), rest))
            }
            9 => {
                let (SizePrefixed(name), rest) = <SizePrefixed<&'a str> as Readable<
                    'a,
                    A,
                    G,
                >>::read(rest, alloc)?;
                Ok((LinkItem::Arch(name), rest))
            }
            _ => {
                require_standard::<G>(rest)?;
                let (bytes, rest) = <&'a [u8] as Readable<'a, A, G>>::read(rest, alloc)?;
                Ok((LinkItem::Other { id, bytes }, rest))
            }
        }
    }
}

/// Skips the version, and returns the remaining bytes.
pub(crate) fn after_version<'a, A: Allocator + Copy, G: Grammar>(
    bytes: &'a [u8],
    alloc: A,
) -> Result<&'a [u8], DecodeError> {
    let (known, rest) = <u32 as Readable<'a, A, G>>::read(bytes, alloc)?;
    if known == VERSION {
        Ok(rest)
    } else {
        Err(ReadFault::UnknownTag.just_before(rest))
    }
}

/// Decodes the payload of a linking section, in the grammar `G`: its subsections.
///
/// # Errors
///
/// Every error except `Memory` means that the bytes are not such a payload.
///
/// # Examples
///
/// ```
/// use dolzhytik::fallible::{Global, read_links};
/// use dolzhytik::reader::Padded;
///
/// // "linking", version 2, no subsections.
/// let items = read_links::<Global, Padded>(b"\x07linking\x02", Global)?;
/// assert!(items.is_empty());
/// # Ok::<(), dolzhytik::reader::DecodeError>(())
/// ```
///
/// # Proved
///
/// After `Ok`: `found`, the bytes as a whole encode the value. After an error: `none`, the bytes as a whole are no such encoding, unless the cause is `Memory`.
///
/// ```text
/// ensures found { IfOk result
///     (λ x. linking_payload (padded_of G.grammar) bytes.now (map link_view x.items)) }
/// ensures none { IfErr result
///     (λ e. e.cause ≢ Memory → RejectsWhole linking_payload
///         (padded_of G.grammar) bytes.now) }
/// ```
///
/// Definitions: [`linking_payload`](crate::definitions::custom::linking::linking_payload), [`padded_of`](crate::definitions::base::numbers::padded_of), [`link_view`](crate::definitions::custom::linking::link_view), [`RejectsWhole`](crate::definitions::base::continuing::RejectsWhole). [How to read clauses](crate::definitions).
pub fn read_links<'a, A: Allocator + Copy + 'a, G: Grammar>(
    bytes: &'a [u8],
    alloc: A,
) -> Result<Vec<LinkItem<'a, A>, A>, DecodeError> {
    let rest = after_name::<A, G>("linking", bytes, alloc)?;
    let rest = after_version::<A, G>(rest, alloc)?;
    let items = read_to_end::<'a, LinkItem<'a, A>, A, G>(rest, alloc)?;
    Ok(items)
}

/// Appends the subsection of this id, whose content is the vector of the items.
pub(crate) fn append_vector<T: Shorten, A: Allocator, B: Sink>(
    id: u8,
    items: &Vec<T, A>,
    sink: &mut B,
) -> Result<()> {
    T::laws();
    id.encode(sink)?;
    let start = sink.len();
    items.write_minimal(sink)?;
    prefix_size_since(sink, start)
}

/// Appends the subsection of this id and this content.
pub(crate) fn append_other<B: Sink>(
    id: u8,
    content: &[u8],
    sink: &mut B,
) -> Result<()> {
    id.encode(sink)?;
    content.write_minimal(sink)
}

/// Appends the subsection of an architecture.
fn append_target<B: Sink>(name: &str, sink: &mut B) -> Result<()> {
    9u8.encode(sink)?;
    SizePrefixed(name).write_minimal(sink)
}

/// # Defined
///
/// ```text
/// grammars = { both_grammars }
/// ```
///
/// Definitions: [`both_grammars`](crate::definitions::base::minimal::Grammars). [How to read clauses](crate::definitions).
impl<'a, A: Allocator> Shorten for LinkItem<'a, A> {
    fn write_minimal<B: Sink>(&self, sink: &mut B) -> Result<()> {
        match self {
            LinkItem::Segments(segments) => append_vector(5, segments, sink),
            LinkItem::InitFunctions(functions) => append_vector(6, functions, sink),
            LinkItem::Comdats(comdats) => append_vector(7, comdats, sink),
            LinkItem::Symbols(symbols) => append_vector(8, symbols, sink),
            LinkItem::Arch(name) => append_target(name, sink),
            LinkItem::Other { id, bytes } => append_other(*id, bytes, sink),
        }
    }
}

/// Writes the bytes that [`append_links`] appends. After an error, part of them may follow the old
/// bytes.
fn write_links<A: Allocator, B: Sink>(
    items: &[LinkItem<'_, A>],
    sink: &mut B,
) -> Result<()> {
    "linking".encode(sink)?;
    VERSION.encode(sink)?;
    append_all(items, sink)
}

/// Appends the minimal encoding of the payload of a linking section of these subsections. On an
/// error, the sink is unchanged.
///
/// # Errors
///
/// Returns [`TooLong`](crate::fallible::Refused::TooLong) if a count or length would pass
/// 4294967295, and [`Memory`](crate::fallible::Refused::Memory) if an allocation fails. The
/// bytes of the sink are then unchanged.
///
/// # Examples
///
/// ```
/// use dolzhytik::fallible::{Global, append_links};
///
/// let mut payload = vec![];
/// append_links::<Global, _>(&[], &mut payload)?;
/// assert_eq!(payload, *b"\x07linking\x02");
/// # Ok::<(), dolzhytik::fallible::Refused>(())
/// ```
///
/// # Proved
///
/// After `Ok`: `ok`, the sink gains the encoding that is minimal in both grammars. After an error: `err`, the bytes of the sink are unchanged. In any case: `too_long`, a value that has an encoding never gives `TooLong`.
///
/// ```text
/// ensures ok { OnOk result
///     (AppendsMinimal both_grammars linking_payload
///         (map link_view items.now) sink.old.items sink.new.items) }
/// ensures err { OnErr result (sink.new.items ≡ sink.old.items) }
/// ensures too_long { HasEncoding both_grammars linking_payload (map link_view items.now)
///     → result ≢ Err TooLong }
/// ```
///
/// Definitions: [`AppendsMinimal`](crate::definitions::base::minimal::AppendsMinimal), [`both_grammars`](crate::definitions::base::minimal::Grammars), [`linking_payload`](crate::definitions::custom::linking::linking_payload), [`link_view`](crate::definitions::custom::linking::link_view), [`HasEncoding`](crate::definitions::base::minimal::HasEncoding). [How to read clauses](crate::definitions).
pub fn append_links<A: Allocator, B: Sink>(
    items: &[LinkItem<'_, A>],
    sink: &mut B,
) -> Result<()> {
    let start = sink.len();
    let written = write_links(items, sink);
    if written.is_err() {
        sink.truncate(start);
    }
    written
}
