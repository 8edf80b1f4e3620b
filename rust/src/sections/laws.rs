// Written by tools/to-rust from crates/wasm_sections/src/laws.rt: change that.
//! Laws about sections and their items, for all byte sequences: each function does nothing, and its
//! clauses are the law.
//!
//! `ItemLaws` says of a kind of items that its format is unambiguous, and that a well-formed record
//! encodes its item.

pub use self::{padded as wide, rejections as nothing_stands};
use crate::sections::export::Export;
use crate::sections::global::GlobalType;
use crate::sections::import::EntityType;
use crate::sections::memory::MemoryType;
use crate::sections::table::TableType;
use crate::alloc::Allocator;

/// The formats of sections and of their items are unambiguous. A well-formed record encodes its
/// item.
///
/// # Proved
///
/// - `functions`, `tables`, `memories`, `globals`, `exports`, `elements`, `segments`, `tags`, `imports`, `entities`, `table_types`, `global_types`, `numbers`: A format whose encodings determine their own end is unambiguous in every mode, with encodings as `HasEncodings` states.
/// - `function_items`, `table_items`, `memory_items`, `global_items`, `export_items`, `element_items`, `data_items`, `import_items`, `tag_items`: The laws of a kind of items: the format is unambiguous, and a well-formed record whose size fits encodes its normal form.
///
/// ```text
/// ensures functions { Unambiguous (counted_format u32_format) }
/// ensures tables { Unambiguous (counted_format table_item) }
/// ensures memories { Unambiguous (counted_format memory_type) }
/// ensures globals { Unambiguous (counted_format global_item) }
/// ensures exports { Unambiguous (counted_format export) }
/// ensures elements { Unambiguous (counted_format element) }
/// ensures segments { Unambiguous (counted_format data_item) }
/// ensures tags { Unambiguous (counted_format tag_type) }
/// ensures imports { Unambiguous (counted_format import_format) }
/// ensures entities { Unambiguous entity }
/// ensures table_types { Unambiguous table_type }
/// ensures global_types { Unambiguous global_type }
/// ensures numbers { Unambiguous (size_prefixed u32_format) }
/// ensures function_items { ItemLaws function_items }
/// ensures table_items { ItemLaws table_items }
/// ensures memory_items { ItemLaws memory_items }
/// ensures global_items { ItemLaws global_items }
/// ensures export_items { ItemLaws export_items }
/// ensures element_items { ItemLaws element_items }
/// ensures data_items { ItemLaws data_items }
/// ensures import_items { ItemLaws import_items }
/// ensures tag_items { ItemLaws tag_items }
/// ```
///
/// Definitions: [`Unambiguous`](crate::definitions::base::decoding::Unambiguous), [`counted_format`](crate::definitions::base::entries::counted_format), [`u32_format`](crate::definitions::base::formats::u32), [`table_item`](crate::definitions::sections::tables::table_item), [`memory_type`](crate::definitions::sections::memories::memory_type), [`global_item`](crate::definitions::sections::globals::global_item), [`export`](crate::definitions::sections::exports::export), [`element`](crate::definitions::sections::elements::element), [`data_item`](crate::definitions::sections::data_segments::data_item), [`tag_type`](crate::definitions::sections::tags::tag_type), [`import_format`](crate::definitions::sections::imports::import_format), [`entity`](crate::definitions::sections::imports::entity), [`table_type`](crate::definitions::sections::tables::table_type), [`global_type`](crate::definitions::sections::globals::global_type), [`size_prefixed`](crate::definitions::base::formats::size_prefixed), [`function_items`](crate::definitions::sections::functions::function_items), [`ItemLaws`](crate::definitions::base::entries::ItemLaws), [`table_items`](crate::definitions::sections::tables::table_items), [`memory_items`](crate::definitions::sections::memories::memory_items), [`global_items`](crate::definitions::sections::globals::global_items), [`export_items`](crate::definitions::sections::exports::export_items), [`element_items`](crate::definitions::sections::elements::element_items), [`data_items`](crate::definitions::sections::data_segments::data_items), [`import_items`](crate::definitions::sections::imports::import_items), [`tag_items`](crate::definitions::sections::tags::tag_items). [How to read clauses](crate::definitions).
pub fn sections() {}

/// The standard's grammar also has an active data segment of memory 0 after flag 2. It is the same
/// segment as the one after flag 0.
///
/// # Proved
///
/// ```text
/// ensures { (bytes : List ℕ) (offset : List Plain) (content : List ℕ)
///     → pair expression (vec byte) standard bytes (offset, content)
///     → data_item standard (0x02 ∷ 0x00 ∷ bytes) (active 0 offset content) }
/// ```
///
/// Definitions: [`Plain`](crate::definitions::insn::plain::Plain), [`pair`](crate::definitions::base::formats::pair), [`expression`](crate::definitions::code::expressions::expression), [`vec`](crate::definitions::base::formats::vec), [`byte`](crate::definitions::base::formats::byte), [`standard`](crate::definitions::base::numbers::Mode), [`data_item`](crate::definitions::sections::data_segments::data_item), [`active`](crate::definitions::sections::data_segments::DataItem). [How to read clauses](crate::definitions).
pub fn standard() {}

/// The formats of sections are also unambiguous if padded LEB128 is admitted. A minimal encoding is
/// an encoding in that mode too.
///
/// # Proved
///
/// `functions`, `tables`, `memories`, `globals`, `exports`, `elements`, `segments`, `tags`, `imports`, `entities`, `table_types`, `global_types`, `numbers`: With padding allowed a format is unambiguous, and it keeps every minimal encoding.
///
/// ```text
/// ensures functions { UnambiguousPadded (counted_format u32_format) }
/// ensures tables { UnambiguousPadded (counted_format table_item) }
/// ensures memories { UnambiguousPadded (counted_format memory_type) }
/// ensures globals { UnambiguousPadded (counted_format global_item) }
/// ensures exports { UnambiguousPadded (counted_format export) }
/// ensures elements { UnambiguousPadded (counted_format element) }
/// ensures segments { UnambiguousPadded (counted_format data_item) }
/// ensures tags { UnambiguousPadded (counted_format tag_type) }
/// ensures imports { UnambiguousPadded (counted_format import_format) }
/// ensures entities { UnambiguousPadded entity }
/// ensures table_types { UnambiguousPadded table_type }
/// ensures global_types { UnambiguousPadded global_type }
/// ensures numbers { UnambiguousPadded (size_prefixed u32_format) }
/// ```
///
/// Definitions: [`UnambiguousPadded`](crate::definitions::base::decoding::UnambiguousPadded), [`counted_format`](crate::definitions::base::entries::counted_format), [`u32_format`](crate::definitions::base::formats::u32), [`table_item`](crate::definitions::sections::tables::table_item), [`memory_type`](crate::definitions::sections::memories::memory_type), [`global_item`](crate::definitions::sections::globals::global_item), [`export`](crate::definitions::sections::exports::export), [`element`](crate::definitions::sections::elements::element), [`data_item`](crate::definitions::sections::data_segments::data_item), [`tag_type`](crate::definitions::sections::tags::tag_type), [`import_format`](crate::definitions::sections::imports::import_format), [`entity`](crate::definitions::sections::imports::entity), [`table_type`](crate::definitions::sections::tables::table_type), [`global_type`](crate::definitions::sections::globals::global_type), [`size_prefixed`](crate::definitions::base::formats::size_prefixed). [How to read clauses](crate::definitions).
pub fn padded() {}

/// The items that sections hold, call by call: none at first, and one more after each call that
/// adds a well-formed record.
///
/// # Proved
///
/// `functions`, `tables`, `memories`, `globals`, `exports`, `elements`, `segments`, `imports`, `tags`: A section without entries holds no items. The entry of a well-formed record adds its normal form, and an entry of raw bytes adds the item that they minimally encode. `add_all` adds its records as if one by one.
///
/// ```text
/// ensures functions { ContainsMore function_items }
/// ensures tables { ContainsMore table_items }
/// ensures memories { ContainsMore memory_items }
/// ensures globals { ContainsMore global_items }
/// ensures exports { ContainsMore export_items }
/// ensures elements { ContainsMore element_items }
/// ensures segments { ContainsMore data_items }
/// ensures imports { ContainsMore import_items }
/// ensures tags { ContainsMore tag_items }
/// ```
///
/// Definitions: [`ContainsMore`](crate::definitions::base::laws::ContainsMore), [`function_items`](crate::definitions::sections::functions::function_items), [`table_items`](crate::definitions::sections::tables::table_items), [`memory_items`](crate::definitions::sections::memories::memory_items), [`global_items`](crate::definitions::sections::globals::global_items), [`export_items`](crate::definitions::sections::exports::export_items), [`element_items`](crate::definitions::sections::elements::element_items), [`data_items`](crate::definitions::sections::data_segments::data_items), [`import_items`](crate::definitions::sections::imports::import_items), [`tag_items`](crate::definitions::sections::tags::tag_items). [How to read clauses](crate::definitions).
pub fn calls() {}

/// The same with padded LEB128: the expressions of a well-formed record may be padded, and an entry
/// may be a padded encoding of its item.
///
/// # Proved
///
/// `functions`, `tables`, `memories`, `globals`, `exports`, `elements`, `segments`, `imports`, `tags`: As `ContainsMore`, for padded LEB128. A section holds all that it holds in minimal encodings. A record that is well-formed, with possibly padded expressions, adds its normal form. Raw bytes add the item that they encode, possibly padded.
///
/// ```text
/// ensures functions { ContainsMorePadded function_items }
/// ensures tables { ContainsMorePadded table_items }
/// ensures memories { ContainsMorePadded memory_items }
/// ensures globals { ContainsMorePadded global_items }
/// ensures exports { ContainsMorePadded export_items }
/// ensures elements { ContainsMorePadded element_items }
/// ensures segments { ContainsMorePadded data_items }
/// ensures imports { ContainsMorePadded import_items }
/// ensures tags { ContainsMorePadded tag_items }
/// ```
///
/// Definitions: [`ContainsMorePadded`](crate::definitions::base::laws::ContainsMorePadded), [`function_items`](crate::definitions::sections::functions::function_items), [`table_items`](crate::definitions::sections::tables::table_items), [`memory_items`](crate::definitions::sections::memories::memory_items), [`global_items`](crate::definitions::sections::globals::global_items), [`export_items`](crate::definitions::sections::exports::export_items), [`element_items`](crate::definitions::sections::elements::element_items), [`data_items`](crate::definitions::sections::data_segments::data_items), [`import_items`](crate::definitions::sections::imports::import_items), [`tag_items`](crate::definitions::sections::tags::tag_items). [How to read clauses](crate::definitions).
pub fn padded_calls() {}

/// A call of an element section appends `given_encoding`. It equals the `element_encoding` of each
/// record that has the segment's mode and elements, with the same bytes of expressions.
///
/// # Proved
///
/// ```text
/// ensures { (segment : ElementSegment A) (given : ElementItem Stored)
///     → HaveOneEncoding segment given }
/// ```
///
/// Definitions: [`ElementItem`](crate::definitions::sections::elements::ElementItem), [`Stored`](crate::definitions::sections::constants::Stored), [`HaveOneEncoding`](crate::definitions::sections::given_elements::HaveOneEncoding). [How to read clauses](crate::definitions).
pub fn given_elements<A: Allocator>() {}

/// If a module decodes to ids and payloads, and a section decodes to its items alone, then its
/// payload decodes to these alone.
///
/// # Proved
///
/// `functions`, `tables`, `memories`, `globals`, `exports`, `elements`, `segments`, `imports`, `tags`, `numbers`: If size-prefixed bytes decode to one value alone, their payload decodes to it alone.
///
/// ```text
/// ensures functions { DecodesPayloads (vec u32_format) }
/// ensures tables { DecodesPayloads (vec table_item) }
/// ensures memories { DecodesPayloads (vec memory_type) }
/// ensures globals { DecodesPayloads (vec global_item) }
/// ensures exports { DecodesPayloads (vec export) }
/// ensures elements { DecodesPayloads (vec element) }
/// ensures segments { DecodesPayloads (vec data_item) }
/// ensures imports { DecodesPayloads (vec import_format) }
/// ensures tags { DecodesPayloads (vec tag_type) }
/// ensures numbers { DecodesPayloads u32_format }
/// ```
///
/// Definitions: [`DecodesPayloads`](crate::definitions::base::modules::DecodesPayloads), [`vec`](crate::definitions::base::formats::vec), [`u32_format`](crate::definitions::base::formats::u32), [`table_item`](crate::definitions::sections::tables::table_item), [`memory_type`](crate::definitions::sections::memories::memory_type), [`global_item`](crate::definitions::sections::globals::global_item), [`export`](crate::definitions::sections::exports::export), [`element`](crate::definitions::sections::elements::element), [`data_item`](crate::definitions::sections::data_segments::data_item), [`import_format`](crate::definitions::sections::imports::import_format), [`tag_type`](crate::definitions::sections::tags::tag_type). [How to read clauses](crate::definitions).
pub fn payloads() {}

/// The same with padded LEB128.
///
/// # Proved
///
/// `functions`, `tables`, `memories`, `globals`, `exports`, `elements`, `segments`, `imports`, `tags`, `numbers`: If size-prefixed bytes decode to one value alone, with padding allowed, so does their payload.
///
/// ```text
/// ensures functions { DecodesPayloadsPadded (vec u32_format) }
/// ensures tables { DecodesPayloadsPadded (vec table_item) }
/// ensures memories { DecodesPayloadsPadded (vec memory_type) }
/// ensures globals { DecodesPayloadsPadded (vec global_item) }
/// ensures exports { DecodesPayloadsPadded (vec export) }
/// ensures elements { DecodesPayloadsPadded (vec element) }
/// ensures segments { DecodesPayloadsPadded (vec data_item) }
/// ensures imports { DecodesPayloadsPadded (vec import_format) }
/// ensures tags { DecodesPayloadsPadded (vec tag_type) }
/// ensures numbers { DecodesPayloadsPadded u32_format }
/// ```
///
/// Definitions: [`DecodesPayloadsPadded`](crate::definitions::base::modules::DecodesPayloadsPadded), [`vec`](crate::definitions::base::formats::vec), [`u32_format`](crate::definitions::base::formats::u32), [`table_item`](crate::definitions::sections::tables::table_item), [`memory_type`](crate::definitions::sections::memories::memory_type), [`global_item`](crate::definitions::sections::globals::global_item), [`export`](crate::definitions::sections::exports::export), [`element`](crate::definitions::sections::elements::element), [`data_item`](crate::definitions::sections::data_segments::data_item), [`import_format`](crate::definitions::sections::imports::import_format), [`tag_type`](crate::definitions::sections::tags::tag_type). [How to read clauses](crate::definitions).
pub fn padded_payloads() {}

/// Three byte sequences that encode no section of their kind in the builders' grammar, even if
/// padded LEB128 is admitted. In the globals, bytes follow the first `End` of a constant
/// expression. In the data, the explicit memory of a segment is memory 0, which the standard
/// admits. In the imports, the byte 00 before a group is padded.
///
/// # Proved
///
/// `inner_end`, `named_first_memory`, `padded_group`: In neither mode of the builders' grammar does a value decode from the front of the bytes, whatever follows them.
///
/// ```text
/// ensures inner_end { RejectsAllAfterPadded (counted_format global_item)
///     (9 ∷ 1 ∷ 127 ∷ 0 ∷ 65 ∷ 1 ∷ 11 ∷ 65 ∷ 2 ∷ 11 ∷ []) }
/// ensures named_first_memory
///     { RejectsAllAfterPadded (counted_format data_item)
///     (8 ∷ 1 ∷ 2 ∷ 0 ∷ 65 ∷ 0 ∷ 11 ∷ 1 ∷ 9 ∷ []) }
/// ensures padded_group { RejectsAllAfterPadded (counted_format import_format)
///     (6 ∷ 1 ∷ 0 ∷ 128 ∷ 0 ∷ 127 ∷ 0 ∷ []) }
/// ```
///
/// Definitions: [`RejectsAllAfterPadded`](crate::definitions::base::laws::RejectsAllAfterPadded), [`counted_format`](crate::definitions::base::entries::counted_format), [`global_item`](crate::definitions::sections::globals::global_item), [`data_item`](crate::definitions::sections::data_segments::data_item), [`import_format`](crate::definitions::sections::imports::import_format). [How to read clauses](crate::definitions).
pub fn rejections() {}

/// Proves that an export is well-formed: its name is UTF-8, and its index is in range. Returns the
/// index.
///
/// # Proved
///
/// - `plain`: The export is well-formed: its name is UTF-8, and its index is below 2^32.
/// - `index`: the result is the index of the export.
///
/// ```text
/// ensures plain { IsExport export.now }
/// ensures index { result ≡ export.now.index }
/// ```
///
/// Definitions: [`IsExport`](crate::definitions::sections::exports::IsExport). [How to read clauses](crate::definitions).
pub fn plain_export(export: &Export<'_>) -> u32 {
    export.index
}

/// Proves that each export of a list is well-formed.
///
/// # Proved
///
/// ```text
/// ensures { All IsExport exports.now }
/// ```
///
/// Definitions: [`IsExport`](crate::definitions::sections::exports::IsExport). [How to read clauses](crate::definitions).
pub fn plain_exports(exports: &[Export<'_>]) {
    for export in exports {
        plain_export(export);
    }
}

/// Proves that the numbers of a table type are in range. A caller needs this for a type behind a
/// reference, as in a list, whose range no clause states.
///
/// # Proved
///
/// The table type is well-formed: its numbers are in range.
///
/// ```text
/// ensures { IsTable table }
/// ```
///
/// Definitions: [`IsTable`](crate::definitions::sections::tables::IsTable). [How to read clauses](crate::definitions).
pub fn plain_table(table: TableType) {}

/// Proves that the numbers of a memory type are in range.
///
/// # Proved
///
/// The memory type is well-formed: its numbers are in range.
///
/// ```text
/// ensures { IsMemory memory }
/// ```
///
/// Definitions: [`IsMemory`](crate::definitions::sections::memories::IsMemory). [How to read clauses](crate::definitions).
pub fn plain_memory(memory: MemoryType) {}

/// Proves that the numbers of a global type are in range.
///
/// # Proved
///
/// The global type is well-formed: an index in its value type is below 2^32.
///
/// ```text
/// ensures { IsGlobal global }
/// ```
///
/// Definitions: [`IsGlobal`](crate::definitions::sections::globals::IsGlobal). [How to read clauses](crate::definitions).
pub fn plain_global(global: GlobalType) {}

/// Proves that the numbers of an import's type are in range, whatever its kind.
///
/// # Proved
///
/// The numbers of the entity are in range.
///
/// ```text
/// ensures { IsEntity entity }
/// ```
///
/// Definitions: [`IsEntity`](crate::definitions::sections::imports::IsEntity). [How to read clauses](crate::definitions).
pub fn plain_entity(entity: EntityType) {}
