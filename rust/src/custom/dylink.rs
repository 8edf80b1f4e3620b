// Written by tools/to-rust from crates/wasm_custom/src/dylink.rt: change that.
// The section of a dynamic library: its builder, its reader and its minimizer.

use crate::vec::{Sink, Vec};
use crate::custom::dylink_symbols::{DylinkExport, DylinkImport, DylinkMemory, ExportFlagMembers, ImportFlagMembers, NeededMembers, PathMembers};
use crate::custom::entries::{CustomEntries, CustomKind};
use crate::custom::linking::{append_other, append_vector, read_vector};
use crate::custom::lists::CountedList;
use crate::custom::named::after_name;
use crate::custom::standard::require_standard;
use crate::custom::subsections::Subsection;
use crate::alloc::{Allocator, Global};
use crate::base::{DecodeError, Encode, Grammar, Kind, Layout, Pieces, Readable, Result, Shorten, SizePrefixed, Store, append_all, read_to_end};

/// The `dylink.0` section: the requirements of a dynamic library at load time. It is the first
/// section of a module. Each call adds a subsection, and `new` allocates nothing.
///
/// ```
/// # fn example() -> Result<(), Box<dyn std::error::Error>> {
/// # use dolzhytik::{fallible::*, reader::*};
/// use dolzhytik::fallible::{
///     DylinkMemory, DylinkNeeded, DylinkSection, Global, Module,
/// };
///
/// let mut module = Module::new(Global)?;
/// let mut needed = DylinkNeeded::new(Global);
/// needed.library("libc.so")?;
/// let mut dylink = DylinkSection::new(Global);
/// dylink.memory(DylinkMemory {
///     memory_size: 16,
///     memory_alignment: 2,
///     table_size: 0,
///     table_alignment: 0,
/// })?;
/// dylink.needed(&needed)?;
/// module.section(&dylink)?;
/// # Ok(())
/// # }
/// # example().unwrap();
/// ```
///
/// The tool conventions define it in [Dynamic
/// linking](https://github.com/WebAssembly/tool-conventions/blob/main/DynamicLinking.md).
/// [`Items::Dylink`](crate::reader::Items::Dylink) has the subsections of a decoded section.
pub type DylinkSection<A = Global> = CustomEntries<DylinkItems, Pieces<A>>;

/// The kind of the items of a dynamic library's section: subsections.
///
/// # Examples
///
/// ```
/// use dolzhytik::fallible::{CustomKind, DylinkItems, DylinkSection, Global};
///
/// let section = DylinkSection::new(Global);
/// assert_eq!((section.len(), DylinkItems::name()), (0, "dylink.0"));
/// ```
#[derive(Clone, Copy, Debug)]
pub struct DylinkItems;

/// # Defined
///
/// ```text
/// Record = { ItemModel }
/// Item = { ItemModel }
/// kind = { dylink_items }
/// ```
///
/// Definitions: [`ItemModel`](crate::definitions::custom::dylink::DylinkItem), [`dylink_items`](crate::definitions::custom::dylink::dylink_items). [How to read clauses](crate::definitions).
impl Kind for DylinkItems {
    fn laws() {}
}

/// # Defined
///
/// ```text
/// name = { dylink_name }
/// front = { [] }
/// front_format = { fixed [] (tt {0}) }
/// counted = { false }
/// ```
///
/// Definitions: [`dylink_name`](crate::definitions::custom::dylink::dylink_name), [`fixed`](crate::definitions::base::formats::fixed). [How to read clauses](crate::definitions).
impl CustomKind for DylinkItems {
    fn name() -> &'static str {
        "dylink.0"
    }

    fn front() -> &'static [u8] {
        &[]
    }

    fn counted() -> bool {
        false
    }

    fn layout_laws() {}
}

impl<S: Store> CustomEntries<DylinkItems, S> {
    /// Adds the memory and the table that the library needs.
    ///
    /// # Errors
    ///
    /// Returns [`TooLong`](crate::fallible::Refused::TooLong) if the builder has 4294967295
    /// entries, or if a count or length would pass 4294967295, and
    /// [`Memory`](crate::fallible::Refused::Memory) if an allocation fails. The builder is then
    /// unchanged.
    ///
    /// # Examples
    ///
    /// ```
    /// use dolzhytik::fallible::{DylinkMemory, DylinkSection, Encode, Global};
    ///
    /// let mut section = DylinkSection::new(Global);
    /// section.memory(DylinkMemory {
    ///     memory_size: 300,
    ///     memory_alignment: 4,
    ///     table_size: 5,
    ///     table_alignment: 0,
    /// })?;
    /// let mut bytes = vec![];
    /// section.encode(&mut bytes)?;
    /// // Size 16: a name of 8 bytes; the subsection 1, of size 5: 300 = 2 * 128 + 44 bytes,
    /// // aligned to 2 to the power of 4, and 5 elements, to 2 to the power of 0.
    /// assert_eq!(bytes, *b"\x10\x08dylink.0\x01\x05\xAC\x02\x04\x05\0");
    /// # Ok::<(), dolzhytik::fallible::Refused>(())
    /// ```
    ///
    /// # Proved
    ///
    /// The builder gains one entry with this encoding, or the call returns an error and changes nothing. A full builder, with 2^32 - 1 entries, returns `TooLong`.
    ///
    /// ```text
    /// ensures { AddsTo S.model (subsection_encoding 1 (needs_encoding memory))
    ///     (HasEncodableSize (needs_encoding memory) × ⊤) self.old self.new result }
    /// ```
    ///
    /// Definitions: [`AddsTo`](crate::definitions::base::calls::AddsTo), [`subsection_encoding`](crate::definitions::custom::customs::subsection_encoding), [`needs_encoding`](crate::definitions::custom::dylink::needs_encoding), [`HasEncodableSize`](crate::definitions::base::encodings::HasEncodableSize). [How to read clauses](crate::definitions).
    pub fn memory(&mut self, memory: DylinkMemory) -> Result<()> {
        self.add_record(&Subsection {
            id: 1,
            content: &memory,
        })
    }

    /// Adds the libraries that the library needs.
    ///
    /// # Errors
    ///
    /// Returns [`TooLong`](crate::fallible::Refused::TooLong) if the builder has 4294967295
    /// entries, or if a count or length would pass 4294967295, and
    /// [`Memory`](crate::fallible::Refused::Memory) if an allocation fails. The builder is then
    /// unchanged.
    ///
    /// # Examples
    ///
    /// ```
    /// use dolzhytik::fallible::{DylinkNeeded, DylinkSection, Encode, Global};
    ///
    /// let mut libraries = DylinkNeeded::new(Global);
    /// libraries.library("a.so")?;
    /// let mut section = DylinkSection::new(Global);
    /// section.needed(&libraries)?;
    /// let mut bytes = vec![];
    /// section.encode(&mut bytes)?;
    /// // Size 17: a name of 8 bytes; the subsection 2, of size 6: one name, of 4 bytes.
    /// assert_eq!(bytes, *b"\x11\x08dylink.0\x02\x06\x01\x04a.so");
    /// # Ok::<(), dolzhytik::fallible::Refused>(())
    /// ```
    ///
    /// # Proved
    ///
    /// The builder gains one entry with this encoding, or the call returns an error and changes nothing. A full builder, with 2^32 - 1 entries, returns `TooLong`.
    ///
    /// ```text
    /// ensures { AddsTo S.model
    ///     (subsection_encoding 2 (list_encoding (T.model.joins libraries.now)))
    ///     (HasEncodableSize (list_encoding (T.model.joins libraries.now)) × ⊤) self.old
    ///     self.new result }
    /// ```
    ///
    /// Definitions: [`AddsTo`](crate::definitions::base::calls::AddsTo), [`subsection_encoding`](crate::definitions::custom::customs::subsection_encoding), [`list_encoding`](crate::definitions::custom::lists::list_encoding), [`HasEncodableSize`](crate::definitions::base::encodings::HasEncodableSize). [How to read clauses](crate::definitions).
    pub fn needed<T: Store>(&mut self, libraries: &CountedList<NeededMembers, T>) -> Result<()> {
        self.add_record(libraries)
    }

    /// Adds flags of exported symbols.
    ///
    /// # Errors
    ///
    /// Returns [`TooLong`](crate::fallible::Refused::TooLong) if the builder has 4294967295
    /// entries, or if a count or length would pass 4294967295, and
    /// [`Memory`](crate::fallible::Refused::Memory) if an allocation fails. The builder is then
    /// unchanged.
    ///
    /// # Proved
    ///
    /// The builder gains one entry with this encoding, or the call returns an error and changes nothing. A full builder, with 2^32 - 1 entries, returns `TooLong`.
    ///
    /// ```text
    /// ensures { AddsTo S.model
    ///     (subsection_encoding 3 (list_encoding (T.model.joins exports.now)))
    ///     (HasEncodableSize (list_encoding (T.model.joins exports.now)) × ⊤) self.old self.new
    ///     result }
    /// ```
    ///
    /// Definitions: [`AddsTo`](crate::definitions::base::calls::AddsTo), [`subsection_encoding`](crate::definitions::custom::customs::subsection_encoding), [`list_encoding`](crate::definitions::custom::lists::list_encoding), [`HasEncodableSize`](crate::definitions::base::encodings::HasEncodableSize). [How to read clauses](crate::definitions).
    pub fn exports<T: Store>(&mut self, exports: &CountedList<ExportFlagMembers, T>) -> Result<()> {
        self.add_record(exports)
    }

    /// Adds flags of imported symbols.
    ///
    /// # Errors
    ///
    /// Returns [`TooLong`](crate::fallible::Refused::TooLong) if the builder has 4294967295
    /// entries, or if a count or length would pass 4294967295, and
    /// [`Memory`](crate::fallible::Refused::Memory) if an allocation fails. The builder is then
    /// unchanged.
    ///
    /// # Proved
    ///
    /// The builder gains one entry with this encoding, or the call returns an error and changes nothing. A full builder, with 2^32 - 1 entries, returns `TooLong`.
    ///
    /// ```text
    /// ensures { AddsTo S.model
    ///     (subsection_encoding 4 (list_encoding (T.model.joins imports.now)))
    ///     (HasEncodableSize (list_encoding (T.model.joins imports.now)) × ⊤) self.old self.new
    ///     result }
    /// ```
    ///
    /// Definitions: [`AddsTo`](crate::definitions::base::calls::AddsTo), [`subsection_encoding`](crate::definitions::custom::customs::subsection_encoding), [`list_encoding`](crate::definitions::custom::lists::list_encoding), [`HasEncodableSize`](crate::definitions::base::encodings::HasEncodableSize). [How to read clauses](crate::definitions).
    pub fn imports<T: Store>(&mut self, imports: &CountedList<ImportFlagMembers, T>) -> Result<()> {
        self.add_record(imports)
    }

    /// Adds the folders in which the loader searches for libraries.
    ///
    /// # Errors
    ///
    /// Returns [`TooLong`](crate::fallible::Refused::TooLong) if the builder has 4294967295
    /// entries, or if a count or length would pass 4294967295, and
    /// [`Memory`](crate::fallible::Refused::Memory) if an allocation fails. The builder is then
    /// unchanged.
    ///
    /// # Examples
    ///
    /// ```
    /// use dolzhytik::fallible::{DylinkPath, DylinkSection, Encode, Global};
    ///
    /// let mut folders = DylinkPath::new(Global);
    /// folders.folder("/l")?;
    /// let mut section = DylinkSection::new(Global);
    /// section.runtime_path(&folders)?;
    /// let mut bytes = vec![];
    /// section.encode(&mut bytes)?;
    /// // Size 15: a name of 8 bytes; the subsection 5, of size 4: one path, of 2 bytes.
    /// assert_eq!(bytes, *b"\x0F\x08dylink.0\x05\x04\x01\x02/l");
    /// # Ok::<(), dolzhytik::fallible::Refused>(())
    /// ```
    ///
    /// # Proved
    ///
    /// The builder gains one entry with this encoding, or the call returns an error and changes nothing. A full builder, with 2^32 - 1 entries, returns `TooLong`.
    ///
    /// ```text
    /// ensures { AddsTo S.model
    ///     (subsection_encoding 5 (list_encoding (T.model.joins folders.now)))
    ///     (HasEncodableSize (list_encoding (T.model.joins folders.now)) × ⊤) self.old self.new
    ///     result }
    /// ```
    ///
    /// Definitions: [`AddsTo`](crate::definitions::base::calls::AddsTo), [`subsection_encoding`](crate::definitions::custom::customs::subsection_encoding), [`list_encoding`](crate::definitions::custom::lists::list_encoding), [`HasEncodableSize`](crate::definitions::base::encodings::HasEncodableSize). [How to read clauses](crate::definitions).
    #[doc(alias = "rpath")]
    pub fn runtime_path<T: Store>(&mut self, folders: &CountedList<PathMembers, T>) -> Result<()> {
        self.add_record(folders)
    }
}

/// A decoded subsection of a dynamic library's section.
///
/// [`Items::Dylink`](crate::reader::Items::Dylink) has them.
///
/// # Examples
///
/// ```
/// use dolzhytik::fallible::{Global, read_dylink};
/// use dolzhytik::reader::{DylinkItem, Padded};
///
/// // "dylink.0"; the subsection 2: size 6, one library, of a name of four bytes.
/// let payload = b"\x08dylink.0\x02\x06\x01\x04a.so";
/// let items = read_dylink::<Global, Padded>(payload, Global)?;
/// let DylinkItem::Needed(libraries) = &items[0] else {
///     panic!("another subsection")
/// };
/// assert_eq!(libraries[..], ["a.so"]);
/// # Ok::<(), dolzhytik::reader::DecodeError>(())
/// ```
#[derive(Debug)]
#[non_exhaustive]
pub enum DylinkItem<'a, A: Allocator = Global> {
    /// The memory and the table that the library needs.
    Memory(DylinkMemory),
    /// The names of the libraries that the library needs.
    Needed(Vec<&'a str, A>),
    /// Flags of exported symbols.
    ExportFlags(Vec<DylinkExport<'a>, A>),
    /// Flags of imported symbols.
    ImportFlags(Vec<DylinkImport<'a>, A>),
    /// The folders in which the loader searches for libraries.
    RuntimePath(Vec<&'a str, A>),
    /// A subsection of another id, whose content is not decoded. The builders' grammar has none.
    Other {
        /// The id of the subsection.
        id: u8,
        /// The content, without its size prefix.
        bytes: &'a [u8] },
}

/// # Defined
///
/// ```text
/// Value = { ItemModel }
/// format = { dylink_item }
/// view = { dylink_view }
/// ```
///
/// Definitions: [`ItemModel`](crate::definitions::custom::dylink::DylinkItem), [`dylink_item`](crate::definitions::custom::dylink::dylink_item), [`dylink_view`](crate::definitions::custom::dylink::dylink_view). [How to read clauses](crate::definitions).
impl<'a, A: Allocator> Layout for DylinkItem<'a, A> {
    /// # Proved
    ///
    /// A format whose encodings determine their own end is unambiguous in every mode, with encodings as `HasEncodings` states.
    ///
    /// ```text
    /// ensures { Unambiguous dylink_item }
    /// ```
    ///
    /// Definitions: [`Unambiguous`](crate::definitions::base::decoding::Unambiguous), [`dylink_item`](crate::definitions::custom::dylink::dylink_item). [How to read clauses](crate::definitions).
    fn laws() {}
}

impl<'a, A: Allocator + Copy + 'a, G: Grammar> Readable<'a, A, G> for DylinkItem<'a, A> {
    fn read(bytes: &'a [u8], alloc: A) -> Result<(DylinkItem<'a, A>, &'a [u8]), DecodeError> {
        let (id, rest) = <u8 as Readable<'a, A, G>>::read(bytes, alloc)?;
        match id {
            1 => {
                let (SizePrefixed(memory), rest) = <SizePrefixed<DylinkMemory> as Readable<
                    'a,
                    A,
                    G,
                >>::read(rest, alloc)?;
                Ok((DylinkItem::Memory(memory), rest))
            }
            2 => {
                let (names, rest) = read_vector::<'a, &'a str, A, G>(rest, alloc)?;
                Ok((DylinkItem::Needed(names), rest))
            }
            3 => {
                let (exports, rest) = read_vector::<'a, DylinkExport<'a>, A, G>(rest, alloc)?;
                Ok((DylinkItem::ExportFlags(exports), rest))
            }
            4 => {
                let (imports, rest) = read_vector::<'a, DylinkImport<'a>, A, G>(rest, alloc)?;
                Ok((DylinkItem::ImportFlags(imports), rest))
            }
            5 => {
                let (paths, rest) = read_vector::<'a, &'a str, A, G>(rest, alloc)?;
                Ok((DylinkItem::RuntimePath(paths), rest))
            }
            _ => {
                require_standard::<G>(rest)?;
                let (bytes, rest) = <&'a [u8] as Readable<'a, A, G>>::read(rest, alloc)?;
                Ok((DylinkItem::Other { id, bytes }, rest))
            }
        }
    }
}

/// Decodes the payload of a dynamic library's section, in the grammar `G`: its subsections.
///
/// # Errors
///
/// Every error except `Memory` means that the bytes are not such a payload.
///
/// # Examples
///
/// ```
/// use dolzhytik::fallible::{DylinkMemory, Global, read_dylink};
/// use dolzhytik::reader::{DylinkItem, Padded};
///
/// // "dylink.0"; the subsection 1: size 4, 16 bytes of memory, aligned to 4 (2 to the
/// // power of 2), no table.
/// let payload = b"\x08dylink.0\x01\x04\x10\x02\0\0";
/// let items = read_dylink::<Global, Padded>(payload, Global)?;
/// assert!(matches!(
///     items[..],
///     [DylinkItem::Memory(DylinkMemory {
///         memory_size: 16,
///         memory_alignment: 2,
///         table_size: 0,
///         table_alignment: 0,
///     })]
/// ));
/// # Ok::<(), dolzhytik::reader::DecodeError>(())
/// ```
///
/// # Proved
///
/// After `Ok`: `found`, the bytes as a whole encode the value. After an error: `none`, the bytes as a whole are no such encoding, unless the cause is `Memory`.
///
/// ```text
/// ensures found { IfOk result
///     (λ x. dylink_payload (padded_of G.grammar) bytes.now (map dylink_view x.items)) }
/// ensures none { IfErr result
///     (λ e. e.cause ≢ Memory → RejectsWhole dylink_payload
///         (padded_of G.grammar) bytes.now) }
/// ```
///
/// Definitions: [`dylink_payload`](crate::definitions::custom::dylink::dylink_payload), [`padded_of`](crate::definitions::base::numbers::padded_of), [`dylink_view`](crate::definitions::custom::dylink::dylink_view), [`RejectsWhole`](crate::definitions::base::continuing::RejectsWhole). [How to read clauses](crate::definitions).
pub fn read_dylink<'a, A: Allocator + Copy + 'a, G: Grammar>(
    bytes: &'a [u8],
    alloc: A,
) -> Result<Vec<DylinkItem<'a, A>, A>, DecodeError> {
    let rest = after_name::<A, G>("dylink.0", bytes, alloc)?;
    let items = read_to_end::<'a, DylinkItem<'a, A>, A, G>(rest, alloc)?;
    Ok(items)
}

/// Appends the subsection of the memory and the table.
fn append_memory<B: Sink>(memory: DylinkMemory, sink: &mut B) -> Result<()> {
    1u8.encode(sink)?;
    SizePrefixed(memory).write_minimal(sink)
}

/// # Defined
///
/// ```text
/// grammars = { both_grammars }
/// ```
///
/// Definitions: [`both_grammars`](crate::definitions::base::minimal::Grammars). [How to read clauses](crate::definitions).
impl<'a, A: Allocator> Shorten for DylinkItem<'a, A> {
    fn write_minimal<B: Sink>(&self, sink: &mut B) -> Result<()> {
        match self {
            DylinkItem::Memory(memory) => append_memory(*memory, sink),
            DylinkItem::Needed(names) => append_vector(2, names, sink),
            DylinkItem::ExportFlags(exports) => append_vector(3, exports, sink),
            DylinkItem::ImportFlags(imports) => append_vector(4, imports, sink),
            DylinkItem::RuntimePath(paths) => append_vector(5, paths, sink),
            DylinkItem::Other { id, bytes } => append_other(*id, bytes, sink),
        }
    }
}

/// Writes the bytes that [`append_dylink`] appends. After an error, part of them may follow the old
/// bytes.
fn write_dylink<A: Allocator, B: Sink>(
    items: &[DylinkItem<'_, A>],
    sink: &mut B,
) -> Result<()> {
    "dylink.0".encode(sink)?;
    append_all(items, sink)
}

/// Appends the minimal encoding of the payload of a dynamic library's section of these subsections.
/// On an error, the sink is unchanged.
///
/// # Errors
///
/// Returns [`TooLong`](crate::fallible::Refused::TooLong) if a count or length would pass
/// 4294967295, and [`Memory`](crate::fallible::Refused::Memory) if an allocation fails. The
/// bytes of the sink are then unchanged.
///
/// # Examples
///
/// ```
/// use dolzhytik::fallible::{Global, append_dylink};
///
/// let mut payload = vec![];
/// append_dylink::<Global, _>(&[], &mut payload)?;
/// // "dylink.0", no subsections.
/// assert_eq!(payload, *b"\x08dylink.0");
/// # Ok::<(), dolzhytik::fallible::Refused>(())
/// ```
///
/// # Proved
///
/// After `Ok`: `ok`, the sink gains the encoding that is minimal in both grammars. After an error: `err`, the bytes of the sink are unchanged. In any case: `too_long`, a value that has an encoding never gives `TooLong`.
///
/// ```text
/// ensures ok { OnOk result
///     (AppendsMinimal both_grammars dylink_payload
///         (map dylink_view items.now) sink.old.items sink.new.items) }
/// ensures err { OnErr result (sink.new.items ≡ sink.old.items) }
/// ensures too_long { HasEncoding both_grammars dylink_payload (map dylink_view items.now)
///     → result ≢ Err TooLong }
/// ```
///
/// Definitions: [`AppendsMinimal`](crate::definitions::base::minimal::AppendsMinimal), [`both_grammars`](crate::definitions::base::minimal::Grammars), [`dylink_payload`](crate::definitions::custom::dylink::dylink_payload), [`dylink_view`](crate::definitions::custom::dylink::dylink_view), [`HasEncoding`](crate::definitions::base::minimal::HasEncoding). [How to read clauses](crate::definitions).
pub fn append_dylink<A: Allocator, B: Sink>(
    items: &[DylinkItem<'_, A>],
    sink: &mut B,
) -> Result<()> {
    let start = sink.len();
    let written = write_dylink(items, sink);
    if written.is_err() {
        sink.truncate(start);
    }
    written
}
