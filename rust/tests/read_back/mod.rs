// Written by tools/to-rust from crates/read_back/src/lib.rt: change that.
//! Callers of the reader, which prove its result: for each kind of section that a builder writes,
//! for sections with padded LEB128, for sections that are built from arguments, and for the
//! sections of a module one by one.

use dolzhytik::fallible::{Sink, Vec};
pub mod compilation_hints;
pub mod custom;
pub mod debug_files;
pub mod declared;
pub mod dumps;
pub mod dylink;
pub mod first_values;
pub mod handed;
pub mod inserted;
pub mod instructions;
pub mod objects;
pub mod once;
pub mod padded;
pub mod relocations;
pub mod remapped;
pub mod removed;
pub mod sections;
pub mod stored;

use dolzhytik::fallible::Allocator;
use dolzhytik::fallible::{Encode, Result};
use dolzhytik::reader::{ReadFault, Shorten};
use dolzhytik::fallible::{NameMap, NameSection};
use dolzhytik::reader::{Items, ModuleFault, Offsets, SectionKind, laws, read_section, shorten, shorten_module};
use dolzhytik::fallible::FunctionSection;

/// Decodes the section of this kind in a buffer, and appends its minimal encoding to the sink.
///
/// # Proved
///
/// ```text
/// ensures found { IfOk result (λ items. (n : ℕ) × Takes kind encoding.now.items (contents_of items) n) }
/// ensures shortened { OnOk result ((n : ℕ) × Shortens kind encoding.now.items n sink.old.items sink.new.items) }
/// ensures err { OnErr result (sink.new.items ≡ sink.old.items) }
/// ensures none { IfErr result (λ e. e ≢ Memory → Rejects (section kind) padded encoding.now.items) }
/// ```
pub(crate) fn read_and_shorten<'a, A: Allocator + Copy + 'a>(
    kind: SectionKind,
    encoding: &'a Vec<u8, A>,
    sink: &mut Vec<u8, A>,
) -> Result<Items<'a, A>, ReadFault> {
    let (items, _taken) = read_section(*encoding.allocator(), kind, encoding.as_slice())?;
    shorten(kind, encoding.as_slice(), sink)?;
    Ok(items)
}

/// Appends a function section of one function.
///
/// # Proved
///
/// ```text
/// ensures { OnOk result (GainsDecoding (counted_format u32_format) (index ∷ []) sink.old.items sink.new.items) }
/// ```
pub fn write_function<A: Allocator + Copy>(sink: &mut Vec<u8, A>, index: u32) -> Result<()> {
    let mut section = FunctionSection::new(*sink.allocator());
    section.function(index)?;
    section.encode(sink)
}

/// Writes a function section and decodes it: `Ok` holds the index that was added, and the only
/// error is `Memory`.
///
/// # Asks
///
/// ```text
/// requires { encoding.old.items ≡ [] }
/// ```
///
/// # Proved
///
/// ```text
/// ensures read { IfOk result (λ items. contents_of items ≡ Functions (index ∷ [])) }
/// ensures memory { IfErr result (λ e. e ≢ Memory → ⊥) }
/// ```
pub fn written_function<'a, A: Allocator + Copy + 'a>(
    encoding: &'a mut Vec<u8, A>,
    index: u32,
) -> Result<Items<'a, A>, ReadFault> {
    let alloc = *encoding.allocator();
    match write_function(encoding, index) {
        Ok(()) => {}
        Err(_) => return Err(ReadFault::Memory),
    }
    let (items, _taken) = read_section(alloc, SectionKind::Functions, encoding.as_slice())?;
    Ok(items)
}

/// Writes a function section and minimizes it: the output is that section again.
///
/// # Asks
///
/// ```text
/// requires { encoding.old.items ≡ [] }
/// ```
///
/// # Proved
///
/// ```text
/// ensures same { OnOk result (sink.new.items ≡ sink.old.items ++ encoding.new.items) }
/// ensures err { OnErr result (sink.new.items ≡ sink.old.items) }
/// ensures memory { IfErr result (λ e. e ≢ Memory → ⊥) }
/// ```
pub fn shortened_function<A: Allocator + Copy>(
    encoding: &mut Vec<u8, A>,
    index: u32,
    sink: &mut Vec<u8, A>,
) -> Result<usize, ReadFault> {
    match write_function(encoding, index) {
        Ok(()) => {}
        Err(_) => return Err(ReadFault::Memory),
    }
    let taken = shorten(SectionKind::Functions, encoding.as_slice(), sink)?;
    Ok(taken)
}

/// Decodes and minimizes a padded encoding of a function section. The items are those that were
/// added, and the output is the section as it was written.
///
/// # Asks
///
/// ```text
/// requires { encoding.old.items ≡ [] }
/// ```
///
/// # Proved
///
/// ```text
/// ensures read { IfOk result (λ items. (rest : List ℕ) → Decodes (section kinds.Functions) padded input.now (Functions (index ∷ [])) rest → contents_of items ≡ Functions (index ∷ [])) }
/// ensures same { OnOk result ((rest : List ℕ) → Decodes (section kinds.Functions) padded input.now (Functions (index ∷ [])) rest → sink.new.items ≡ sink.old.items ++ encoding.new.items) }
/// ensures memory { IfErr result (λ e. e ≢ Memory → (rest : List ℕ) → Decodes (section kinds.Functions) padded input.now (Functions (index ∷ [])) rest → ⊥) }
/// ```
pub fn padded_function<'a, A: Allocator + Copy + 'a>(
    encoding: &mut Vec<u8, A>,
    index: u32,
    input: &'a [u8],
    sink: &mut Vec<u8, A>,
) -> Result<Items<'a, A>, ReadFault> {
    let alloc = *encoding.allocator();
    match write_function(encoding, index) {
        Ok(()) => {}
        Err(_) => return Err(ReadFault::Memory),
    }
    let (items, _taken) = read_section(alloc, SectionKind::Functions, input)?;
    let _taken = shorten(SectionKind::Functions, input, sink)?;
    Ok(items)
}

/// Appends two decoded values. After an error, the bytes of the sink are unchanged.
///
/// # Proved
///
/// ```text
/// ensures { OnErr result (sink.new.items ≡ sink.old.items) }
/// ```
pub fn both_or_neither<T: Shorten, U: Shorten, A: Sink>(
    first: &T,
    second: &U,
    sink: &mut A,
) -> Result<()> {
    let start = sink.len();
    first.append_minimal(sink)?;
    let appended = second.append_minimal(sink);
    if appended.is_err() {
        sink.truncate(start);
    }
    appended
}

/// Appends a name section: the names of the module and of its first function.
///
/// # Proved
///
/// ```text
/// ensures { OnOk result (GainsDecoding (size_prefixed name_payload) (Module name.now ∷ Map 1 ((0, function.now) ∷ []) ∷ []) sink.old.items sink.new.items) }
/// ```
pub fn write_names<A: Allocator + Copy>(
    sink: &mut Vec<u8, A>,
    name: &str,
    function: &str,
) -> Result<()> {
    let mut functions = NameMap::new(*sink.allocator());
    functions.append(0, function)?;
    let mut section = NameSection::new(*sink.allocator());
    section.module(name)?;
    section.functions(&functions)?;
    section.encode(sink)
}

/// Writes a name section and decodes it: `Ok` holds the names that were added, and the only error
/// is `Memory`.
///
/// # Asks
///
/// ```text
/// requires { encoding.old.items ≡ [] }
/// ```
///
/// # Proved
///
/// ```text
/// ensures read { IfOk result (λ items. contents_of items ≡ Names (Module name.now ∷ Map 1 ((0, function.now) ∷ []) ∷ [])) }
/// ensures memory { IfErr result (λ e. e ≢ Memory → ⊥) }
/// ```
pub fn written_names<'a, A: Allocator + Copy + 'a>(
    encoding: &'a mut Vec<u8, A>,
    name: &str,
    function: &str,
) -> Result<Items<'a, A>, ReadFault> {
    let alloc = *encoding.allocator();
    match write_names(encoding, name, function) {
        Ok(()) => {}
        Err(_) => return Err(ReadFault::Memory),
    }
    let (items, _taken) = read_section(alloc, SectionKind::Names, encoding.as_slice())?;
    Ok(items)
}

/// Minimizes a module into an empty buffer, which then holds the minimized module, no longer than
/// the input. After an error the buffer is empty.
///
/// # Asks
///
/// ```text
/// requires { sink.old.items ≡ [] }
/// ```
///
/// # Proved
///
/// ```text
/// ensures is_module { OnOk result ((sections : List (ℕ × List ℕ)) × wasm_module padded sink.new.items sections) }
/// ensures no_longer { OnOk result (length sink.new.items ≤ length bytes.now) }
/// ensures shortened { IfOk result (λ kept. ShortensModule Refuse bytes.now kept sink.old.items sink.new.items) }
/// ensures err { OnErr result (sink.new.items ≡ []) }
/// ```
pub fn smaller_module<A: Allocator + Copy, B: Sink>(
    alloc: A,
    bytes: &[u8],
    sink: &mut B,
) -> Result<usize, ModuleFault> {
    shorten_module(alloc, bytes, Offsets::Refuse, sink)
}

/// Minimizes a module, and then the output: both outputs are equal, and the second call fails only
/// if an allocation fails.
///
/// # Asks
///
/// ```text
/// requires { once.old.items ≡ [] × twice.old.items ≡ [] }
/// ```
///
/// # Proved
///
/// ```text
/// ensures same { OnOk result (twice.new.items ≡ once.new.items) }
/// ensures accepted { IfErr result (λ fault. IsMemory fault ⊎ Explains LeaveOut bytes.now fault) }
/// ```
pub fn shortened_twice<A: Allocator + Copy>(
    alloc: A,
    bytes: &[u8],
    once: &mut Vec<u8, A>,
    twice: &mut Vec<u8, A>,
) -> Result<usize, ModuleFault> {
    laws::shortened();
    shorten_module(alloc, bytes, Offsets::LeaveOut, once)?;
    shorten_module(alloc, once, Offsets::LeaveOut, twice)
}
