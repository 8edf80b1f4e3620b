// Written by tools/to-rust from crates/wasm_custom/src/core_dumps.rt: change that.
// Core dump sections: the process, its modules and its instances.

use crate::vec::{Sink, Vec};
use crate::custom::counted::{DecodesItems, ItemsAs, append_counted, read_counted};
use crate::custom::custom_section::{CustomSection, begin_custom};
use crate::custom::entries::{CustomEntries, CustomKind};
use crate::custom::marked::{MarkedName, read_marked};
use crate::custom::named::after_name;
use crate::alloc::{Allocator, Global};
use crate::base::{DecodeError, Encode, Grammar, Kind, Layout, Pieces, Readable, Result, Section, SectionId, Shorten, Store, read_whole, vec_of};

/// The `core` section of a dumped process.
///
/// ```
/// # fn example() -> Result<(), Box<dyn std::error::Error>> {
/// # use dolzhytik::{fallible::*, reader::*};
/// use dolzhytik::fallible::{CoreDumpSection, Global, Module};
///
/// let mut module = Module::new(Global)?;
/// module.section(&CoreDumpSection::new(Global, "a.wasm")?)?;
/// # Ok(())
/// # }
/// # example().unwrap();
/// ```
///
/// # Errors
///
/// The error of `new` is `TooLong` only if the name is too long, and `Memory` only if an allocation
/// fails.
///
/// # Model
///
/// Contracts model it as its data: the byte 00, and the name of the process.
#[derive(Debug)]
pub struct CoreDumpSection<A: Allocator = Global> {
    pub(crate) data: Vec<u8, A>,
}

impl<A: Allocator> CoreDumpSection<A> {
    /// Returns the section of the process of this name.
    ///
    /// # Errors
    ///
    /// Returns [`TooLong`](crate::fallible::Refused::TooLong) if a count or length would pass
    /// 4294967295, and [`Memory`](crate::fallible::Refused::Memory) if an allocation fails.
    ///
    /// # Proved
    ///
    /// - After `Ok`, `is`: the section is that of a process of this name.
    /// - After `Ok`, `was_encodable`: The size of the bytes is at most 2^32 - 1.
    /// - `too_long`: a name of at most 4294967295 bytes never gives `TooLong`.
    ///
    /// ```text
    /// ensures is { IfOk result (λ s. s ≡ marked_encoding name.now) }
    /// ensures was_encodable { IfOk result (λ _. HasEncodableSize name.now) }
    /// ensures too_long { HasEncodableSize name.now → result ≢ Err TooLong }
    /// ```
    ///
    /// Definitions: [`marked_encoding`](crate::definitions::custom::core_dumps::marked_encoding), [`HasEncodableSize`](crate::definitions::base::encodings::HasEncodableSize). [How to read clauses](crate::definitions).
    pub fn new(alloc: A, name: &str) -> Result<Self> {
        let mut data = Vec::new(alloc);
        (0x00u8, name).encode(&mut data)?;
        Ok(CoreDumpSection { data })
    }

    /// Returns the same section, in memory of its own.
    ///
    /// # Errors
    ///
    /// Returns [`Memory`](crate::fallible::Refused::Memory) if an allocation fails.
    ///
    /// # Proved
    ///
    /// After `Ok`: `same`, the result equals the value. In any case: `memory`, no error is `TooLong`.
    ///
    /// ```text
    /// ensures same { IfOk result (λ s. s ≡ self.now) }
    /// ensures memory { result ≢ Err TooLong }
    /// ```
    ///
    /// [How to read clauses](crate::definitions).
    pub fn clone(&self) -> Result<Self>
    where
        A: Copy,
    {
        Ok(CoreDumpSection {
            data: Vec::from_slice(*self.data.allocator(), &self.data)?,
        })
    }
}

/// Encodes the size prefix, the name of the section, and the data.
///
/// # Defined
///
/// ```text
/// encoding = { λ s. named_encoding core_name s }
/// encodable = { λ s. IsEncodableNamed core_name s }
/// decoding = { λ s. DecodesBack core_section (SaysProcess s)
///     (named_encoding core_name s) }
/// ```
///
/// Definitions: [`named_encoding`](crate::definitions::custom::customs::named_encoding), [`core_name`](crate::definitions::custom::core_dumps::core_name), [`IsEncodableNamed`](crate::definitions::custom::customs::IsEncodableNamed), [`DecodesBack`](crate::definitions::base::calls::DecodesBack), [`core_section`](crate::definitions::custom::core_dumps::core_section), [`SaysProcess`](crate::definitions::custom::core_dumps::SaysProcess). [How to read clauses](crate::definitions).
impl<A: Allocator> Encode for CoreDumpSection<A> {
    fn encode<B: Sink>(&self, sink: &mut B) -> Result<()> {
        let data = self.data.as_slice();
        begin_custom(sink, "core", data.len())?;
        sink.extend_from_slice(data).unwrap();
        Ok(())
    }
}

/// # Defined
///
/// ```text
/// id_of = { λ _. number_of ids.Custom }
/// Items = { List ℕ }
/// format = { core_section }
/// says = { SaysProcess }
/// payload = { NamedPayload core_name }
/// sized = { λ s bytes encodable pays. named_sized core_name s bytes encodable pays }
/// decodes_back = { λ s promised. promised }
/// ```
///
/// Definitions: [`number_of`](crate::definitions::base::section_id::number_of), [`core_section`](crate::definitions::custom::core_dumps::core_section), [`SaysProcess`](crate::definitions::custom::core_dumps::SaysProcess), [`NamedPayload`](crate::definitions::custom::customs::NamedPayload), [`core_name`](crate::definitions::custom::core_dumps::core_name), [`named_sized`](crate::definitions::custom::customs::named_sized). [How to read clauses](crate::definitions).
impl<A: Allocator> Section for CoreDumpSection<A> {
    fn id(&self) -> u8 {
        SectionId::Custom.into()
    }
}

/// The `coremodules` section: the modules of the process, by their names.
///
/// ```
/// # fn example() -> Result<(), Box<dyn std::error::Error>> {
/// # use dolzhytik::{fallible::*, reader::*};
/// use dolzhytik::fallible::{CoreDumpModulesSection, Global, Module};
///
/// let mut module = Module::new(Global)?;
/// let mut modules = CoreDumpModulesSection::new(Global);
/// modules.module("a.wasm")?;
/// module.section(&modules)?;
/// # Ok(())
/// # }
/// # example().unwrap();
/// ```
pub type CoreDumpModulesSection<A = Global> = CustomEntries<ModuleItems, Pieces<A>>;

/// The kind of the items of a modules section: their names.
///
/// # Examples
///
/// ```
/// use dolzhytik::fallible::{CoreDumpModulesSection, CustomKind, Global, ModuleItems};
///
/// let section = CoreDumpModulesSection::new(Global);
/// assert_eq!((section.len(), ModuleItems::name()), (0, "coremodules"));
/// ```
#[derive(Clone, Copy, Debug)]
pub struct ModuleItems;

/// # Defined
///
/// ```text
/// Record = { List ℕ }
/// Item = { List ℕ }
/// kind = { module_items }
/// ```
///
/// Definitions: [`module_items`](crate::definitions::custom::core_dumps::module_items). [How to read clauses](crate::definitions).
impl Kind for ModuleItems {
    fn laws() {}
}

/// # Defined
///
/// ```text
/// name = { modules_name }
/// front = { [] }
/// front_format = { fixed [] (tt {0}) }
/// counted = { true }
/// ```
///
/// Definitions: [`modules_name`](crate::definitions::custom::core_dumps::modules_name), [`fixed`](crate::definitions::base::formats::fixed). [How to read clauses](crate::definitions).
impl CustomKind for ModuleItems {
    fn name() -> &'static str {
        "coremodules"
    }

    fn front() -> &'static [u8] {
        &[]
    }

    fn counted() -> bool {
        true
    }

    fn layout_laws() {}
}

impl<S: Store> CustomEntries<ModuleItems, S> {
    /// Adds a module.
    ///
    /// # Errors
    ///
    /// Returns [`TooLong`](crate::fallible::Refused::TooLong) if the builder has 4294967295
    /// entries, or if a count or length would pass 4294967295, and
    /// [`Memory`](crate::fallible::Refused::Memory) if an allocation fails. The builder is then
    /// unchanged.
    ///
    /// # Proved
    ///
    /// The builder gains one entry with this encoding, or the call returns an error and changes nothing. A full builder, with 2^32 - 1 entries, returns `TooLong`.
    ///
    /// ```text
    /// ensures { AddsTo S.model (marked_encoding name.now)
    ///     (⊤ × HasEncodableSize name.now) self.old self.new result }
    /// ```
    ///
    /// Definitions: [`AddsTo`](crate::definitions::base::calls::AddsTo), [`marked_encoding`](crate::definitions::custom::core_dumps::marked_encoding), [`HasEncodableSize`](crate::definitions::base::encodings::HasEncodableSize). [How to read clauses](crate::definitions).
    pub fn module(&mut self, name: &str) -> Result<()> {
        self.add_record(&(0x00u8, name))
    }

    /// Returns the section as a custom section, which owns a copy of the data.
    ///
    /// # Errors
    ///
    /// Returns [`Memory`](crate::fallible::Refused::Memory) if an allocation fails.
    ///
    /// # Proved
    ///
    /// In any case: `memory`, no error is `TooLong`.
    ///
    /// ```text
    /// ensures same { IfOk result
    ///     (λ s. (utf8_of s.name ≡ modules_name)
    ///         × (items_of s.bytes ≡ joined_data [] true (S.model.joins self.now))) }
    /// ensures memory { result ≢ Err TooLong }
    /// ```
    ///
    /// Definitions: [`utf8_of`](crate::definitions::base::cow::utf8_of), [`modules_name`](crate::definitions::custom::core_dumps::modules_name), [`items_of`](crate::definitions::base::cow::items_of), [`joined_data`](crate::definitions::custom::entries::joined_data). [How to read clauses](crate::definitions).
    pub fn as_custom<B: Allocator>(&self, alloc: B) -> Result<CustomSection<'_, B>> {
        self.owned(alloc)
    }
}

/// The `coreinstances` section: the instances of the process. `len` is their number.
///
/// ```
/// # fn example() -> Result<(), Box<dyn std::error::Error>> {
/// # use dolzhytik::{fallible::*, reader::*};
/// use dolzhytik::fallible::{CoreDumpInstancesSection, Global, Module};
///
/// let mut module = Module::new(Global)?;
/// let mut instances = CoreDumpInstancesSection::new(Global);
/// instances.instance(0, [0], [0, 1])?;
/// module.section(&instances)?;
/// # Ok(())
/// # }
/// # example().unwrap();
/// ```
pub type CoreDumpInstancesSection<A = Global> = CustomEntries<InstanceItems, Pieces<A>>;

/// The kind of the items of an instances section.
///
/// # Examples
///
/// ```
/// use dolzhytik::fallible::{
///     CoreDumpInstancesSection, CustomKind, Global, InstanceItems,
/// };
///
/// let section = CoreDumpInstancesSection::new(Global);
/// assert_eq!((section.len(), InstanceItems::name()), (0, "coreinstances"));
/// ```
#[derive(Clone, Copy, Debug)]
pub struct InstanceItems;

/// # Defined
///
/// ```text
/// Record = { Instance }
/// Item = { Instance }
/// kind = { instance_items }
/// ```
///
/// Definitions: [`Instance`](crate::definitions::custom::core_dumps::Instance), [`instance_items`](crate::definitions::custom::core_dumps::instance_items). [How to read clauses](crate::definitions).
impl Kind for InstanceItems {
    fn laws() {}
}

/// # Defined
///
/// ```text
/// name = { instances_name }
/// front = { [] }
/// front_format = { fixed [] (tt {0}) }
/// counted = { true }
/// ```
///
/// Definitions: [`instances_name`](crate::definitions::custom::core_dumps::instances_name), [`fixed`](crate::definitions::base::formats::fixed). [How to read clauses](crate::definitions).
impl CustomKind for InstanceItems {
    fn name() -> &'static str {
        "coreinstances"
    }

    fn front() -> &'static [u8] {
        &[]
    }

    fn counted() -> bool {
        true
    }

    fn layout_laws() {}
}

impl<S: Store> CustomEntries<InstanceItems, S> {
    /// Adds an instance of the module, with these memories and globals.
    ///
    /// If there are more than 4294967295 memories or globals, the call returns `TooLong` and
    /// requests none of either, as tests show.
    ///
    /// # Errors
    ///
    /// Returns [`TooLong`](crate::fallible::Refused::TooLong) if the builder has 4294967295
    /// entries, or if a count or length would pass 4294967295, and
    /// [`Memory`](crate::fallible::Refused::Memory) if an allocation fails. The builder is then
    /// unchanged.
    ///
    /// # Asks
    ///
    /// The iterator ends, and yields as many items as it reports. [What happens otherwise](crate::fallible#what-is-asked).
    ///
    /// ```text
    /// requires memories { HasKnownLength M.into_iter_gives M.IntoIter.can_next
    ///     M.IntoIter.next_gives M.IntoIter.remaining memories }
    /// requires globals { HasKnownLength G.into_iter_gives G.IntoIter.can_next
    ///     G.IntoIter.next_gives G.IntoIter.remaining globals }
    /// ```
    ///
    /// Definitions: [`HasKnownLength`](crate::definitions::base::iterators::HasKnownLength). [How to read clauses](crate::definitions).
    ///
    /// # Proved
    ///
    /// The builder gains one entry of the items that both iterators yield, or the call returns an error and changes nothing. It returns `TooLong` if either has too many items, and never if all items fit and items and entries are few enough.
    ///
    /// ```text
    /// ensures { AddsTwoLists S.model M.into_iter_gives M.IntoIter.next_gives
    ///     M.IntoIter.remaining memories G.into_iter_gives G.IntoIter.next_gives
    ///     G.IntoIter.remaining globals (λ _. ⊤) (λ _. ⊤)
    ///     (λ xs ys. (0x00 ∷ unsigned_encoding module_index)
    ///         ++ (vec_encoding unsigned_encoding xs ++ vec_encoding unsigned_encoding ys))
    ///         self.old self.new result }
    /// ```
    ///
    /// Definitions: [`AddsTwoLists`](crate::definitions::custom::adding::AddsTwoLists), [`unsigned_encoding`](crate::definitions::base::numbers::unsigned_encoding), [`vec_encoding`](crate::definitions::base::encodings::vec_encoding). [How to read clauses](crate::definitions).
    pub fn instance<M: IntoIterator<Item = u32>, G: IntoIterator<Item = u32>>(
        &mut self,
        module_index: u32,
        memories: M,
        globals: G,
    ) -> Result<()>
    where
        M::IntoIter: ExactSizeIterator,
        G::IntoIter: ExactSizeIterator,
    {
        let memories = vec_of(memories)?;
        let globals = vec_of(globals)?;
        self.add_once(((0x00u8, module_index), memories, globals))
    }

    /// Returns the section as a custom section, which owns a copy of the data.
    ///
    /// # Errors
    ///
    /// Returns [`Memory`](crate::fallible::Refused::Memory) if an allocation fails.
    ///
    /// # Proved
    ///
    /// In any case: `memory`, no error is `TooLong`.
    ///
    /// ```text
    /// ensures same { IfOk result
    ///     (λ s. (utf8_of s.name ≡ instances_name)
    ///         × (items_of s.bytes ≡ joined_data [] true (S.model.joins self.now))) }
    /// ensures memory { result ≢ Err TooLong }
    /// ```
    ///
    /// Definitions: [`utf8_of`](crate::definitions::base::cow::utf8_of), [`instances_name`](crate::definitions::custom::core_dumps::instances_name), [`items_of`](crate::definitions::base::cow::items_of), [`joined_data`](crate::definitions::custom::entries::joined_data). [How to read clauses](crate::definitions).
    pub fn as_custom<B: Allocator>(&self, alloc: B) -> Result<CustomSection<'_, B>> {
        self.owned(alloc)
    }
}

/// Decodes the payload of a process section, in the grammar `G`: the name of the process.
///
/// # Errors
///
/// An error means that the bytes are not such a payload.
///
/// # Examples
///
/// ```
/// use dolzhytik::fallible::{Global, read_process};
/// use dolzhytik::reader::Padded;
///
/// // "core", 00, "test".
/// let name = read_process::<Global, Padded>(b"\x04core\0\x04test", Global)?;
/// assert_eq!(name, "test");
/// # Ok::<(), dolzhytik::reader::DecodeError>(())
/// ```
///
/// # Proved
///
/// After `Ok`: `found`, the bytes as a whole encode the value. After an error: `none`, the bytes as a whole are no such encoding, unless the cause is `Memory`.
///
/// ```text
/// ensures found { IfOk result (λ x. core_payload (padded_of G.grammar) bytes.now x.now) }
/// ensures none { IfErr result
///     (λ e. e.cause ≢ Memory → RejectsWhole core_payload (padded_of G.grammar) bytes.now)
///     }
/// ensures no_memory { IfErr result (λ e. e.cause ≢ Memory) }
/// ```
///
/// Definitions: [`core_payload`](crate::definitions::custom::core_dumps::core_payload), [`padded_of`](crate::definitions::base::numbers::padded_of), [`RejectsWhole`](crate::definitions::base::continuing::RejectsWhole). [How to read clauses](crate::definitions).
pub fn read_process<'a, A: Allocator + Copy, G: Grammar>(
    bytes: &'a [u8],
    alloc: A,
) -> Result<&'a str, DecodeError> {
    let rest = after_name::<A, G>("core", bytes, alloc)?;
    let MarkedName(name) = read_whole::<'a, MarkedName<'a>, A, G>(rest, alloc)?;
    Ok(name)
}

/// # Defined
///
/// ```text
/// Said = { List ℕ }
/// format = { marked_name }
/// view = { λ name. name.now }
/// ```
///
/// Definitions: [`marked_name`](crate::definitions::custom::core_dumps::marked_name). [How to read clauses](crate::definitions).
impl<'a> ItemsAs<&'a str> for ModuleItems {
    /// # Proved
    ///
    /// A format whose encodings determine their own end is unambiguous in every mode, with encodings as `HasEncodings` states.
    ///
    /// ```text
    /// ensures { Unambiguous marked_name }
    /// ```
    ///
    /// Definitions: [`Unambiguous`](crate::definitions::base::decoding::Unambiguous), [`marked_name`](crate::definitions::custom::core_dumps::marked_name). [How to read clauses](crate::definitions).
    fn unique() {}

    fn append_item<B: Sink>(item: &&'a str, sink: &mut B) -> Result<()> {
        append_marked(item, sink)
    }
}

impl<'a, A: Allocator + Copy, G: Grammar> DecodesItems<'a, &'a str, A, G> for ModuleItems {
    fn read_item(bytes: &'a [u8], alloc: A) -> Result<(&'a str, &'a [u8]), DecodeError> {
        let (MarkedName(name), rest) = <MarkedName<'a> as Readable<'a, A, G>>::read(bytes, alloc)?;
        Ok((name, rest))
    }
}

/// Decodes the payload of a modules section, in the grammar `G`: the names of the modules.
///
/// # Errors
///
/// Every error except `Memory` means that the bytes are not such a payload.
///
/// # Examples
///
/// ```
/// use dolzhytik::fallible::{Global, read_modules};
/// use dolzhytik::reader::Padded;
///
/// // "coremodules"; one module: 00, "m".
/// let names = read_modules::<Global, Padded>(b"\x0Bcoremodules\x01\0\x01m", Global)?;
/// assert_eq!(names[..], ["m"]);
/// # Ok::<(), dolzhytik::reader::DecodeError>(())
/// ```
///
/// # Proved
///
/// After `Ok`: `found`, the bytes as a whole encode the value. After an error: `none`, the bytes as a whole are no such encoding, unless the cause is `Memory`.
///
/// ```text
/// ensures found { IfOk result
///     (λ x. modules_payload (padded_of G.grammar) bytes.now
///         (map (λ name. name.now) x.items)) }
/// ensures none { IfErr result
///     (λ e. e.cause ≢ Memory → RejectsWhole modules_payload
///         (padded_of G.grammar) bytes.now) }
/// ```
///
/// Definitions: [`modules_payload`](crate::definitions::custom::core_dumps::modules_payload), [`padded_of`](crate::definitions::base::numbers::padded_of), [`RejectsWhole`](crate::definitions::base::continuing::RejectsWhole). [How to read clauses](crate::definitions).
pub fn read_modules<'a, A: Allocator + Copy, G: Grammar>(
    bytes: &'a [u8],
    alloc: A,
) -> Result<Vec<&'a str, A>, DecodeError> {
    read_counted::<'a, ModuleItems, &'a str, A, G>(bytes, alloc)
}

/// A decoded instance: the index of its module, its memories and its globals.
#[derive(Debug)]
pub(crate) struct CoreInstance<A: Allocator>(pub (u32, Vec<u32, A>, Vec<u32, A>));

/// # Defined
///
/// ```text
/// Value = { Instance }
/// format = { instance }
/// view = { λ i. instance_view i.0 }
/// ```
///
/// Definitions: [`Instance`](crate::definitions::custom::core_dumps::Instance), [`instance`](crate::definitions::custom::core_dumps::instance), [`instance_view`](crate::definitions::custom::core_dumps::instance_view). [How to read clauses](crate::definitions).
impl<A: Allocator> Layout for CoreInstance<A> {
    fn laws() {}
}

impl<'a, A: Allocator + Copy, G: Grammar> Readable<'a, A, G> for CoreInstance<A> {
    fn read(bytes: &'a [u8], alloc: A) -> Result<(CoreInstance<A>, &'a [u8]), DecodeError> {
        let ((module_index, (memories, globals)), rest) = read_marked::<
            'a,
            (u32, (Vec<u32, A>, Vec<u32, A>)),
            A,
            G,
        >(0x00, bytes, alloc)?;
        Ok((CoreInstance((module_index, memories, globals)), rest))
    }
}

/// # Defined
///
/// ```text
/// Said = { Instance }
/// format = { instance }
/// view = { instance_view }
/// ```
///
/// Definitions: [`Instance`](crate::definitions::custom::core_dumps::Instance), [`instance`](crate::definitions::custom::core_dumps::instance), [`instance_view`](crate::definitions::custom::core_dumps::instance_view). [How to read clauses](crate::definitions).
impl<A: Allocator> ItemsAs<(u32, Vec<u32, A>, Vec<u32, A>)> for InstanceItems {
    fn unique() {}

    fn append_item<B: Sink>(
        item: &(u32, Vec<u32, A>, Vec<u32, A>),
        sink: &mut B,
    ) -> Result<()> {
        let (index, memories, globals) = item;
        0x00u8.encode(sink)?;
        index.write_minimal(sink)?;
        memories.write_minimal(sink)?;
        globals.write_minimal(sink)
    }
}

impl<'a, A: Allocator + Copy, G: Grammar> DecodesItems<'a, (u32, Vec<u32, A>, Vec<u32, A>), A, G>
    for InstanceItems {
    fn read_item(
        bytes: &'a [u8],
        alloc: A,
    ) -> Result<((u32, Vec<u32, A>, Vec<u32, A>), &'a [u8]), DecodeError> {
        let (CoreInstance(instance), rest) = <CoreInstance<A> as Readable<'a, A, G>>::read(
            bytes, alloc,
        )?;
        Ok((instance, rest))
    }
}

/// Decodes the payload of an instances section, in the grammar `G`: for each instance the index of
/// its module, its memories and its globals.
///
/// # Errors
///
/// Every error except `Memory` means that the bytes are not such a payload.
///
/// # Examples
///
/// ```
/// use dolzhytik::fallible::{Global, read_instances};
/// use dolzhytik::reader::Padded;
///
/// // "coreinstances"; one instance: 00, module 0, one memory, 42, one global, 17.
/// let payload = b"\x0Dcoreinstances\x01\0\0\x01\x2A\x01\x11";
/// let instances = read_instances::<Global, Padded>(payload, Global)?;
/// let (module, memories, globals) = &instances[0];
/// assert_eq!((*module, &memories[..], &globals[..]), (0, &[42][..], &[17][..]));
/// # Ok::<(), dolzhytik::reader::DecodeError>(())
/// ```
///
/// # Proved
///
/// After `Ok`: `found`, the bytes as a whole encode the value. After an error: `none`, the bytes as a whole are no such encoding, unless the cause is `Memory`.
///
/// ```text
/// ensures found { IfOk result
///     (λ x. instances_payload (padded_of G.grammar) bytes.now (map instance_view x.items))
///     }
/// ensures none { IfErr result
///     (λ e. e.cause ≢ Memory → RejectsWhole instances_payload
///         (padded_of G.grammar) bytes.now) }
/// ```
///
/// Definitions: [`instances_payload`](crate::definitions::custom::core_dumps::instances_payload), [`padded_of`](crate::definitions::base::numbers::padded_of), [`instance_view`](crate::definitions::custom::core_dumps::instance_view), [`RejectsWhole`](crate::definitions::base::continuing::RejectsWhole). [How to read clauses](crate::definitions).
pub fn read_instances<'a, A: Allocator + Copy, G: Grammar>(
    bytes: &'a [u8],
    alloc: A,
) -> Result<Vec<(u32, Vec<u32, A>, Vec<u32, A>), A>, DecodeError> {
    read_counted::<'a, InstanceItems, (u32, Vec<u32, A>, Vec<u32, A>), A, G>(bytes, alloc)
}

/// Appends the byte 00 and a name.
pub(crate) fn append_marked<B: Sink>(name: &str, sink: &mut B) -> Result<()> {
    0x00u8.encode(sink)?;
    name.write_minimal(sink)
}

/// Writes the bytes that [`append_process`] appends. After an error, part of them may follow the
/// old bytes.
fn write_process<B: Sink>(name: &str, sink: &mut B) -> Result<()> {
    "core".encode(sink)?;
    append_marked(name, sink)
}

/// Appends the minimal encoding of the payload of the section of this process. On an error, the
/// sink is unchanged.
///
/// # Errors
///
/// Returns [`TooLong`](crate::fallible::Refused::TooLong) if a count or length would pass
/// 4294967295, and [`Memory`](crate::fallible::Refused::Memory) if an allocation fails. The
/// bytes of the sink are then unchanged.
///
/// # Examples
///
/// ```
/// use dolzhytik::fallible::append_process;
///
/// let mut payload = vec![];
/// append_process("test", &mut payload)?;
/// assert_eq!(payload, *b"\x04core\0\x04test");
/// # Ok::<(), dolzhytik::fallible::Refused>(())
/// ```
///
/// # Proved
///
/// After `Ok`: `ok`, the sink gains the encoding that is minimal in both grammars. After an error: `err`, the bytes of the sink are unchanged. In any case: `too_long`, a value that has an encoding never gives `TooLong`.
///
/// ```text
/// ensures ok { OnOk result
///     (AppendsMinimal both_grammars core_payload name.now sink.old.items sink.new.items) }
/// ensures err { OnErr result (sink.new.items ≡ sink.old.items) }
/// ensures too_long { HasEncoding both_grammars core_payload name.now
///     → result ≢ Err TooLong }
/// ```
///
/// Definitions: [`AppendsMinimal`](crate::definitions::base::minimal::AppendsMinimal), [`both_grammars`](crate::definitions::base::minimal::Grammars), [`core_payload`](crate::definitions::custom::core_dumps::core_payload), [`HasEncoding`](crate::definitions::base::minimal::HasEncoding). [How to read clauses](crate::definitions).
pub fn append_process<B: Sink>(name: &str, sink: &mut B) -> Result<()> {
    let start = sink.len();
    let written = write_process(name, sink);
    if written.is_err() {
        sink.truncate(start);
    }
    written
}

/// Appends the minimal encoding of the payload of a section of these modules. On an error, the sink
/// is unchanged.
///
/// # Errors
///
/// Returns [`TooLong`](crate::fallible::Refused::TooLong) if a count or length would pass
/// 4294967295, and [`Memory`](crate::fallible::Refused::Memory) if an allocation fails. The
/// bytes of the sink are then unchanged.
///
/// # Examples
///
/// ```
/// use dolzhytik::fallible::append_modules;
///
/// let mut payload = vec![];
/// append_modules(&["m"], &mut payload)?;
/// assert_eq!(payload, *b"\x0Bcoremodules\x01\0\x01m");
/// # Ok::<(), dolzhytik::fallible::Refused>(())
/// ```
///
/// # Proved
///
/// After `Ok`: `ok`, the sink gains the encoding that is minimal in both grammars. After an error: `err`, the bytes of the sink are unchanged. In any case: `too_long`, a value that has an encoding never gives `TooLong`.
///
/// ```text
/// ensures ok { OnOk result
///     (AppendsMinimal both_grammars modules_payload
///         (map (λ n. n.now) names.now) sink.old.items sink.new.items) }
/// ensures err { OnErr result (sink.new.items ≡ sink.old.items) }
/// ensures too_long { HasEncoding both_grammars modules_payload
///     (map (λ n. n.now) names.now) → result ≢ Err TooLong }
/// ```
///
/// Definitions: [`AppendsMinimal`](crate::definitions::base::minimal::AppendsMinimal), [`both_grammars`](crate::definitions::base::minimal::Grammars), [`modules_payload`](crate::definitions::custom::core_dumps::modules_payload), [`HasEncoding`](crate::definitions::base::minimal::HasEncoding). [How to read clauses](crate::definitions).
pub fn append_modules<B: Sink>(names: &[&str], sink: &mut B) -> Result<()> {
    append_counted::<ModuleItems, &str, _>(names, sink)
}

/// Appends the minimal encoding of the payload of a section of these instances. On an error, the
/// sink is unchanged.
///
/// # Errors
///
/// Returns [`TooLong`](crate::fallible::Refused::TooLong) if a count or length would pass
/// 4294967295, and [`Memory`](crate::fallible::Refused::Memory) if an allocation fails. The
/// bytes of the sink are then unchanged.
///
/// # Examples
///
/// ```
/// use dolzhytik::fallible::{Global, append_instances};
///
/// let mut payload = vec![];
/// append_instances::<Global, _>(&[], &mut payload)?;
/// assert_eq!(payload, *b"\x0Dcoreinstances\0");
/// # Ok::<(), dolzhytik::fallible::Refused>(())
/// ```
///
/// # Proved
///
/// After `Ok`: `ok`, the sink gains the encoding that is minimal in both grammars. After an error: `err`, the bytes of the sink are unchanged. In any case: `too_long`, a value that has an encoding never gives `TooLong`.
///
/// ```text
/// ensures ok { OnOk result
///     (AppendsMinimal both_grammars instances_payload
///         (map instance_view instances.now) sink.old.items sink.new.items) }
/// ensures err { OnErr result (sink.new.items ≡ sink.old.items) }
/// ensures too_long { HasEncoding both_grammars instances_payload
///     (map instance_view instances.now) → result ≢ Err TooLong }
/// ```
///
/// Definitions: [`AppendsMinimal`](crate::definitions::base::minimal::AppendsMinimal), [`both_grammars`](crate::definitions::base::minimal::Grammars), [`instances_payload`](crate::definitions::custom::core_dumps::instances_payload), [`instance_view`](crate::definitions::custom::core_dumps::instance_view), [`HasEncoding`](crate::definitions::base::minimal::HasEncoding). [How to read clauses](crate::definitions).
pub fn append_instances<A: Allocator, B: Sink>(
    instances: &[(u32, Vec<u32, A>, Vec<u32, A>)],
    sink: &mut B,
) -> Result<()> {
    append_counted::<InstanceItems, (u32, Vec<u32, A>, Vec<u32, A>), _>(instances, sink)
}
