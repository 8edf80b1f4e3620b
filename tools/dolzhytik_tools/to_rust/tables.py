"""The lists of the generator of Rust: crates, and what it erases or changes, each with its
reason."""
from __future__ import annotations

from dataclasses import dataclass

from ..kinds.table import kinds_of_sections


@dataclass(frozen=True)
class Place:
    """Tokens that are in a file exactly once, before the tokens `behind`, and the tokens in their
    place."""

    path: str
    old: str
    new: str
    behind: str = ''


@dataclass(frozen=True)
class Feature:
    """An item that is in a file exactly once, and the feature that it needs."""

    path: str
    item: str
    feature: str

# The libraries, and the module of the package that each becomes. A module within another is
# declared there. All except `reader` are private in the package.
LIBRARIES = {
    'wasm_base': 'base',
    'wasm_immediates': 'immediates',
    'wasm_types': 'types',
    'wasm_insn': 'insn',
    'wasm_code': 'code',
    'wasm_sections': 'sections',
    'wasm_custom': 'custom',
    'wasm_reader': 'reader',
    'wasm_remap': 'remap',
    'wasm_tool': 'recipe',
}
# The public modules of a library, where that is not `fallible`, and of its laws, where that is not
# a module of `fallible::laws`.
PUBLIC = {
    'wasm_reader': 'reader',
    'wasm_remap': 'reader::remap',
    'wasm_tool': 'fallible::recipe',
}
# The libraries that are public as a module of `reader`, and what each is.
INNER = {'wasm_remap': 'Indices, mapped: each place of a module that refers to a function, a type, a table and so on.'}
PUBLIC_LAWS = {'wasm_reader': 'reader::laws'}
# The hand-written modules whose names `reader` exports.
READING_BY_HAND = ['reencode']
# The names of a library that decode: users find them in `reader`, and not in `fallible`. The
# library's module has them in a module of its own, which `reader` exports.
READERS = {
    'wasm_base': {
        'Canonical', 'DecodeError', 'Discard', 'Effect', 'EncodeIn', 'Grammar', 'Layout', 'Padded', 'ReadFault',
        'Readable', 'Shared', 'Shorten', 'SizePrefixed', 'Standard', 'Walk', 'append_all', 'check_to_end',
        'check_whole', 'minimize_many', 'minimize_to_end', 'minimize_whole', 'read_optional', 'read_to_end',
        'read_whole', 'skip_many', 'skip_value', 'walk_many',
    },
    'wasm_types': {'SubItem', 'TypeEntry'},
    'wasm_insn': {'Arg', 'Operands', 'Plain'},
    'wasm_code': {'Body', 'Decoded', 'Expression', 'Instructions', 'Members', 'read_body', 'read_code', 'shorten_body'},
    'wasm_sections': {'ElementItem', 'ElementItemMode', 'ElementList', 'GlobalItem', 'Segment', 'TableItem'},
    'wasm_custom': {'CoreFrame', 'DylinkItem', 'LinkItem', 'NameItem', 'Symbol'},
}
READING = 'reading'
# The names that only libraries above use: private in the package.
BETWEEN = {
    'wasm_base': {
        'prefix_size_since', 'read_before', 'read_index', 'read_val_after', 'walk_in', 'walk_shared', 'walk_to_end',
        'walk_value', 'walk_whole', 'ItemsOf', 'PaddedOf', 'RawBytes', 'SizedBytes',
    },
    'wasm_insn': {'read_instruction'},
    'wasm_custom': {'FrameItems', 'MembersOf', *(f'walk_{it.stem}' for it in kinds_of_sections() if it.is_custom)},
}
# Hand-written pages below rust/src: each is in place of the documentation of a library's module.
PAGES = {'wasm_reader': 'reader.md'}
# The libraries whose private items the root of the package uses, such as the first bytes of
# segments.
BELOW_ROOT = {'wasm_types', 'wasm_code', 'wasm_sections'}
# Crates of tests, under tests/: each becomes a test program of its own, under rust/tests.
TESTS = [
    'wasm_insn_tests',
    'wasm_types_tests',
    'wasm_sections_tests',
    'wasm_custom_tests',
    'wasm_reader_tests',
    'wasm_reader_sections_tests',
    'wasm_tool_tests',
]
# Crates whose functions C calls, and the package of each. Its border is written by hand, and its
# functions are in a module `calls`.
BORDERS = {'wasm_c': 'c', 'wasm_bench': 'bench'}
# The crates that tests share, and the worked callers.
BESIDE_TESTS = ['test_support', 'examples', 'calls', 'read_back']
# Sources whose Rust is written by hand: an allocator of Rattle has more methods than one of the
# package.
BY_HAND = {'test_support/lib.rt', 'test_support/memory.rt', 'test_support/tests.rt'}
# Attributes that stay, and those of the prover and the formatter.
KEPT_ATTRIBUTES = {'test', 'cfg', 'inline', 'cold', 'repr'}
ERASED_ATTRIBUTES = {'tactic', 'rattlefmt', 'cycle'}
# Derived traits of Rattle: every value can be dropped in Rust, and `errors` implements errors.
ERASED_DERIVES = {'Drop', 'Error'}
KEPT_DERIVES = {'Clone', 'Copy', 'PartialEq', 'Eq', 'Hash', 'Debug'}
# Structs that are `Copy` too: Rattle has no `Copy` for a struct with a model and a lifetime.
COPIED = {'CodeBody', 'Section'}
# Structs and enums that are not `Copy`: the root of the package exports them, and those of the Rust
# crate are `Clone` alone. A symbol has one of them.
CLONED = {'Catch', 'CoreDumpValue', 'DataSymbolDefinition', 'Handle', 'RawCustomSection', 'Symbol'}
# Enums of instructions, for which rustc derives `Debug`: a proof of it takes minutes, and says nothing
# of what is printed.
SHOWN = {'Aggregate', 'Atomic', 'Instruction', 'Numeric', 'PrefixedNumeric', 'Vector', 'VectorImmediate'}
# Types that have an order at the root of the package: that of their numbers, fields and cases.
ORDERED = {'AbstractHeapType', 'RefType', 'ValType'}
# Structs whose `Debug` is in rust/src/drop_in/debug.rs: those of the Rust crate have an unnamed field.
SHOWN_BY_HAND = {'Ieee32', 'Ieee64'}
# Public enums of the libraries that a `match` may list in full, and why. All others may get variants
# as the standard or the libraries grow: they are `#[non_exhaustive]`.
AT_THE_ROOT = 'the enum of the name at the root of the package is that of the Rust crate, which is exhaustive'
CLOSED = 'it has no other cases'
EXHAUSTIVE = {
    'AbstractHeapType': AT_THE_ROOT,
    'BlockType': AT_THE_ROOT,
    'Catch': AT_THE_ROOT,
    'CompositeInnerType': AT_THE_ROOT,
    'CoreDumpValue': AT_THE_ROOT,
    'DataSegmentMode': AT_THE_ROOT,
    'ElementMode': AT_THE_ROOT,
    'Elements': AT_THE_ROOT,
    'EntityType': AT_THE_ROOT,
    'ExportKind': AT_THE_ROOT,
    'Handle': AT_THE_ROOT,
    'HeapType': AT_THE_ROOT,
    'Imports': AT_THE_ROOT,
    'MemArgOrdering': AT_THE_ROOT,
    'MemArgTarget': AT_THE_ROOT,
    'Ordering': AT_THE_ROOT,
    'SectionId': AT_THE_ROOT,
    'StorageType': AT_THE_ROOT,
    'TagKind': AT_THE_ROOT,
    'ValType': AT_THE_ROOT,
    'CowSlice': CLOSED,
    'CowStr': CLOSED,
    'Op': CLOSED,
    'Refused': CLOSED,
    'TypeEntry': CLOSED,
}
# Paths of std: of Rust's std, of its core, of the package, of the host of tests, and erased ones.
KEPT_STD = {
    'std::io::Error',
    'std::io::ErrorKind',
    'std::io::Result',
    'std::io::Read',
    'std::io::Write',
}
CORE_STD = {
    'std::cell::Cell',
    'std::convert::Infallible',
    'std::default::Default',
    'std::fmt',
    'std::iter::FusedIterator',
    'std::marker::PhantomData',
    'std::ops::Range',
    'std::result',
    'std::slice',
}
TURNED_STD = {
    'std::alloc::AllocError': 'alloc::AllocError',
    'std::alloc::AllocFailed': 'alloc::AllocFailed',
    'std::alloc::Allocator': 'alloc::Allocator',
    'std::alloc::Global': 'alloc::Global',
    'hex::FromHexError': 'hex::FromHexError',
}
HOST_STD = {'std::process::Abort': 'crate::host::Abort'}
ERASED_STD = {'std::marker::Model', 'thiserror::Error'}
# The head of an `encode`, before the first words of its body.
ENCODE = 'fn encode<A: Allocator>(&self, sink: &mut Vec<u8, A>) -> Result<()> {'
# Single replacements, mostly of calls that fail in Rattle's std and cannot in Rust's.
PLACES = [
    # These can be called in a constant.
    Place('wasm_immediates/src/floats.rt', 'fn new(bits: u32)', 'const fn new(bits: u32)'),
    Place('wasm_immediates/src/floats.rt', 'fn bits(self) -> u32', 'const fn bits(self) -> u32'),
    Place('wasm_immediates/src/floats.rt', 'fn new(bits: u64)', 'const fn new(bits: u64)'),
    Place('wasm_immediates/src/floats.rt', 'fn bits(self) -> u64', 'const fn bits(self) -> u64'),
    Place('wasm_sections/src/memory.rt', 'fn page_size_log2(&self)', 'const fn page_size_log2(&self)'),
    Place('wasm_sections/src/memory.rt', 'fn page_size(&self)', 'const fn page_size(&self)'),
    # An enum of one case has the size of a byte.
    Place('wasm_sections/src/tag.rt', 'pub enum TagKind {', '#[repr(u8)]\npub enum TagKind {'),
    # Rattle's formatter has the type of its writer.
    Place('wasm_base/src/fault.rt', 'fmt<W: fmt::Write>(&self, f: &mut fmt::Formatter<W>)', "fmt(&self, f: &mut fmt::Formatter<'_>)"),
    # A clone of an allocator cannot fail.
    Place('wasm_base/src/modules.rt', 'self.bytes.allocator().clone()?', 'self.bytes.allocator().clone()'),
    # A vector with `Clone` is std's.
    Place('calls/src/segments.rt', "segment: &DataSegment<'a, Vec<u8>>", "segment: &DataSegment<'a, std::vec::Vec<u8>>"),
    Place('calls/src/segments.rt', "-> Result<DataSegment<'a, Vec<u8>>>", "-> Result<DataSegment<'a, std::vec::Vec<u8>>>"),
    # The caller's bytes have their own `Clone`.
    Place('wasm_sections/src/data.rt', 'self.bytes.clone()?', 'self.bytes.clone()'),
    # The proof saves the bounds check of bytes that are copied 16 at a time. Rust copies a run of
    # any length as a whole.
    Place('wasm_base/src/once.rt', 'append_blocks(sink, &mut items, len);', ''),
    # At the root of the package the float has an unnamed field.
    Place('wasm_insn_tests/src/debug.rtt', '"Lent(Ieee32 { bits: 7 })"', '"Lent(Ieee32(7))"'),
    # At the root of the package these items are not `Copy`.
    Place('wasm_base/src/cow.rt', "T: Copy", "T: Clone"),
    Place('wasm_insn/src/ranged.rt', 'trait Ranged: Copy', 'trait Ranged: Clone'),
    Place('wasm_insn/src/ranged.rt', 'item.ranged();', 'item.clone().ranged();'),
    Place('read_back/src/dumps.rt', 'locals.iter().copied()', 'locals.iter().cloned()'),
    Place('calls/src/once/custom.rt', '[missing], [missing]', '[missing.clone()], [missing]'),
    Place('wasm_reader_sections_tests/src/custom_seen.rtt', 'symbol_told(*symbol)', 'symbol_told(symbol.clone())'),
    Place('wasm_reader_sections_tests/src/custom_seen.rtt', 'value_told(*local)', 'value_told(local.clone())'),
    Place('wasm_reader_sections_tests/src/custom_seen.rtt', 'value_told(*top)', 'value_told(top.clone())'),
    Place('wasm_custom_tests/src/lengths.rtt', 'impl<T: Copy> Iterator', 'impl<T: Clone> Iterator'),
    Place('wasm_custom_tests/src/lengths.rtt', 'impl<T: Copy> ExactSizeIterator', 'impl<T: Clone> ExactSizeIterator'),
    Place('wasm_custom_tests/src/lengths.rtt', 'fn copies_of<T: Copy>', 'fn copies_of<T: Clone>'),
    Place('wasm_custom_tests/src/lengths.rtt', 'Some(self.item)', 'Some(self.item.clone())'),
    Place('wasm_custom_tests/src/lengths.rtt', 'let locals = copies_of(missing', 'let locals = copies_of(missing.clone()', ', TOO_MANY'),
    Place('wasm_custom_tests/src/lengths.rtt', 'let locals = copies_of(missing', 'let locals = copies_of(missing.clone()', ', 1'),
    Place('wasm_custom/src/symbols.rt', 'given_definition(definition);', 'given_definition(definition.clone());'),
    Place('wasm_custom/src/object_symbols.rt', 'given_definition(definition);', 'given_definition(definition.clone());'),
    Place('wasm_custom/src/symbols.rt', 'match *self {', 'match self.clone() {', 'Symbol::Function'),
    # The root of the package measures the second list of a frame behind the first.
    Place('wasm_custom/src/core_stack.rt', "front: Vec<u8, E::Alloc>, frames: E,", "pub(crate) front: Vec<u8, E::Alloc>, pub(crate) frames: E,"),
    # Inline, rustc splits no value type into its fields; Rattle's compiler does.
    Place('wasm_base/src/types.rt', '#[inline(never)]', '#[inline(always)]', 'fn encode<'),
    # Numbers and memory arguments are inline: over a sink of the root most have one byte, and on the
    # stack the compiler drops the other cases.
    Place('wasm_base/src/leb128.rt', '#[inline]', '#[inline(always)]', 'fn append_unsigned<'),
    Place('wasm_base/src/leb128.rt', '#[inline]', '#[inline(always)]', 'fn append_signed<'),
    Place('wasm_base/src/leb128.rt', '#[inline(never)]', '#[inline]', 'fn append_long_unsigned<'),
    Place('wasm_base/src/leb128.rt', '#[inline(never)]', '#[inline]', 'fn append_long_signed<'),
    Place('wasm_base/src/leb128.rt', '#[inline]', '#[inline(always)]', f'{ENCODE} append_unsigned(sink, u64::from(*self))'),
    Place('wasm_base/src/leb128.rt', '#[inline]', '#[inline(always)]', f'{ENCODE} append_unsigned(sink, *self)'),
    Place('wasm_base/src/leb128.rt', '#[inline]', '#[inline(always)]', f'{ENCODE} append_signed(sink, i64::from(*self))'),
    Place('wasm_base/src/leb128.rt', '#[inline]', '#[inline(always)]', f'{ENCODE} append_signed(sink, *self)'),
    Place('wasm_immediates/src/memory.rt', '#[inline]', '#[inline(always)]', f'{ENCODE} match (self.target, self.ordering)'),
    Place('wasm_immediates/src/memory.rt', '#[inline]', '#[inline(always)]', 'fn encode_plain<'),
    Place('wasm_sections/src/start.rt', '', '#[inline(always)]\n', 'fn encode_number'),
    Place('wasm_sections/src/start.rt', '', '#[inline(always)]\n    ', f'{ENCODE} encode_number(sink, self.function_index)'),
    Place('wasm_sections/src/start.rt', '', '#[inline(always)]\n    ', f'{ENCODE} encode_number(sink, self.count)'),
    # A size prefix is inline in each encoder: as a function it is a third of a short custom section.
    Place('wasm_base/src/frames.rt', '', '#[inline(always)]\n', 'pub fn begin_size_prefixed'),
    Place('wasm_custom/src/custom_section.rt', '', '#[inline]\n', 'pub(crate) fn begin_custom'),
    # A raw section is inline in the call of the root that appends its id.
    Place('wasm_base/src/sections.rt', '', '#[inline(always)]\n    ', f'{ENCODE} encode_size_prefixed(sink, self.bytes)'),
    # A call of the root is then one function.
    Place('wasm_sections/src/data.rt', '', '#[inline]\n    ', 'fn add_bytes'),
    # The root of the package makes empty builders by a constant, prints their bytes, and takes those
    # of other builders.
    Place('wasm_base/src/modules.rt', 'bytes: Vec<u8, A>,', 'pub(crate) bytes: Vec<u8, A>,'),
    Place('wasm_base/src/pieces.rt', 'bytes: Vec<u8, A>, ends: Vec<usize, A>,', 'pub(crate) bytes: Vec<u8, A>, pub(crate) ends: Vec<usize, A>,'),
    Place('wasm_custom/src/entries.rt', 'entries: S, kind: PhantomData<K>,', 'pub(crate) entries: S, pub(crate) kind: PhantomData<K>,'),
    Place('wasm_custom/src/lists.rt', 'entries: S, kind: PhantomData<K>,', 'pub(crate) entries: S, pub(crate) kind: PhantomData<K>,'),
    Place('wasm_custom/src/lib.rt', 'mod linking;', 'pub(crate) mod linking;'),
    Place('wasm_custom/src/core_dumps.rt', 'data: Vec<u8, A>,', 'pub(crate) data: Vec<u8, A>,'),
    Place('wasm_base/src/store.rt', 'bytes: Vec<u8, A>, count: u32,', 'pub(crate) bytes: Vec<u8, A>, pub(crate) count: u32,'),
    Place('wasm_code/src/function.rt', 'bytes: Vec<u8, A>,', 'pub(crate) bytes: Vec<u8, A>,'),
    # A list of bytes of the root begins with less.
    Place('wasm_code/src/function.rt', 'FIRST_CAPACITY)', 'if A::ends() { crate::ending::FEW } else { FIRST_CAPACITY })'),
    Place('wasm_sections/src/counted_section.rt', 'entries: S, kind: PhantomData<K>,', 'pub(crate) entries: S, pub(crate) kind: PhantomData<K>,'),
    Place('wasm_types/src/type_section.rt', 'entries: S,', 'pub(crate) entries: S,'),
    Place('wasm_types/src/type_section.rt', "section: &'a mut TypeSectionIn<S>,", "pub(crate) section: &'a mut TypeSectionIn<S>,"),
    Place('wasm_code/src/code_section.rt', 'entries: S,', 'pub(crate) entries: S,'),
    # A type argument of a trait has a size.
    Place('wasm_base/src/store.rt', 'pub trait NewStore: Store {', 'pub trait NewStore: Store + Sized {'),
    Place('wasm_sections_tests/src/section_refusals.rtt', 'trait SectionCalls: ItemKind {', 'trait SectionCalls: ItemKind + Sized {'),
    Place('wasm_custom_tests/src/refusals.rtt', 'trait SectionCalls: CustomKind {', 'trait SectionCalls: CustomKind + Sized {'),
    Place('wasm_custom_tests/src/refusals.rtt', 'trait ListCalls: ListKind {', 'trait ListCalls: ListKind + Sized {'),
]

# The last arms of `match`es in other packages on enums that are `#[non_exhaustive]` there: a file,
# and the tokens of the arm, which are in it exactly once. A wildcard is added behind each.
LAST_ARMS = [
    ('wasm_c/src/listing.rt', 'ReadFault::Memory => 8,'),
    ('wasm_c/src/recipes.rt', 'RecipeCause::UnusedLocals => 10,'),
    ('wasm_c/src/whole.rt', 'Err(ModuleFault::Offsets { number }) => { *place = number as u64; *cause = OFFSETS; NO_ANSWER }'),
    ('wasm_reader_tests/src/instructions.rtt', 'Arg::Flag(flags) => ("flag", i128::from(*flags)),'),
    ('wasm_reader_tests/src/walks.rtt', 'Operands::Nothing | Operands::Encoded(_, _) => None,'),
    ('wasm_reader_sections_tests/src/custom_seen.rtt', 'NameItem::Other { id, bytes } => Told::Other(*id, bytes),'),
    ('wasm_reader_sections_tests/src/custom_seen.rtt', 'DylinkItem::Other { .. } => Told::Others,'),
    ('wasm_reader_sections_tests/src/seen.rtt', 'Segment::Passive { bytes } => Seen::Passive(bytes),'),
    ('wasm_reader_sections_tests/src/seen.rtt', 'ElementList::Expressions(_, expressions) => (true, expressions.len()),'),
]
# Items that need a feature of the package.
FEATURES = [
    # The program uses std::io, and its listing returns the program's errors.
    Feature('wasm_tool/src/lib.rt', 'mod program;', 'programs'),
    Feature('wasm_tool/src/lib.rt', 'pub use program::run;', 'programs'),
    Feature('wasm_tool/src/lib.rt', 'mod listing;', 'programs'),
]
# The first words of items, besides modules.
ITEMS = {'const', 'enum', 'fn', 'impl', 'macro_rules', 'static', 'struct', 'trait', 'type', 'use'}
# Words that must not be left in Rust.
PROVERS_WORDS = {'ghost', 'requires', 'ensures', 'invariant', 'decreases', 'measure', 'tactic', 'prove', 'Model', 'HostRuntime', 'ghost_name', 'unsafe', 'extern'}
