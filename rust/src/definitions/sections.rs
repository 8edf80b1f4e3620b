// Written by tools/to-rust from crates/wasm_sections/specs: change that.
//! The core sections except types and code.
//!
//! The contracts of [`wasm_sections`](https://github.com/dolzhytik/dolzhytik/blob/main/crates/wasm_sections/README.md) name these definitions.

/// The constant expressions that are arguments of calls.
///
/// [How to read definitions](super). The file is [`Constants.antt`](https://github.com/dolzhytik/dolzhytik/blob/main/crates/wasm_sections/specs/Constants.antt).
pub trait constants {
    /// An expression as an argument: its stored bytes, and the instructions that they should encode.
    ///
    /// ```text
    /// pub record Stored : Type 0 where
    ///   pub bytes : List ℕ
    ///   pub instructions : List Plain
    /// ```
    ///
    /// Definitions: [`Plain`](super::insn::plain::Plain).
    type Stored;
    /// The stored bytes encode the instructions in this mode, and none of them is `end`.
    ///
    /// ```text
    /// abbrev pub IsStoredIn : Mode → Stored → Type 0
    /// IsStoredIn mode e = StoresIn mode e.bytes e.instructions
    /// ```
    ///
    /// Definitions: [`Mode`](super::base::numbers::Mode), [`Stored`](constants::Stored), [`StoresIn`](super::code::expressions::StoresIn).
    type IsStoredIn;
    /// The stored bytes minimally encode the instructions, and none of them is `end`.
    ///
    /// ```text
    /// abbrev pub IsStored : Stored → Type 0
    /// IsStored e = IsStoredIn minimal e
    /// ```
    ///
    /// Definitions: [`Stored`](constants::Stored), [`IsStoredIn`](constants::IsStoredIn), [`minimal`](super::base::numbers::Mode).
    type IsStored;
    /// The stored bytes encode the instructions, possibly padded, and none of them is `end`.
    ///
    /// ```text
    /// abbrev pub IsStoredPadded : Stored → Type 0
    /// IsStoredPadded e = IsStoredIn padded e
    /// ```
    ///
    /// Definitions: [`Stored`](constants::Stored), [`IsStoredIn`](constants::IsStoredIn), [`padded`](super::base::numbers::Mode).
    type IsStoredPadded;
    /// The instructions of a decoded expression.
    ///
    /// ```text
    /// abbrev pub instructions_view : {A : Type 0} → Expression A → List Plain
    /// instructions_view e = map plain_view e.0.items
    /// ```
    ///
    /// Definitions: [`Plain`](super::insn::plain::Plain), [`plain_view`](super::insn::views::plain_view).
    type instructions_view;
}

/// Data segments, their encodings and their format. Core specification, Binary Format, Modules, Data Section.
///
/// - Data segments: [`active_encoding`](data_segments::active_encoding), [`active_front`](data_segments::active_front), [`passive_encoding`](data_segments::passive_encoding), [`segment_encoding`](data_segments::segment_encoding), [`GivenData`](data_segments::GivenData), [`DataItem`](data_segments::DataItem), [`data_encoding`](data_segments::data_encoding), [`IsGivenDataIn`](data_segments::IsGivenDataIn), [`IsGivenData`](data_segments::IsGivenData), [`IsGivenDataPadded`](data_segments::IsGivenDataPadded), [`data_of`](data_segments::data_of), [`in_first`](data_segments::in_first), [`in_memory`](data_segments::in_memory), [`data_tags`](data_segments::data_tags), [`data_in`](data_segments::data_in), [`data_item`](data_segments::data_item), [`data_items`](data_segments::data_items).
/// - Calls: [`AddsBytes`](data_segments::AddsBytes).
/// - Decoded segments: [`segment_view`](data_segments::segment_view), [`ContainsSegments`](data_segments::ContainsSegments), [`data_decoding`](data_segments::data_decoding), [`data_count_decoding`](data_segments::data_count_decoding).
///
/// [How to read definitions](super). The file is [`DataSegments.antt`](https://github.com/dolzhytik/dolzhytik/blob/main/crates/wasm_sections/specs/DataSegments.antt).
pub trait data_segments {
    /// The encoding of an active segment of this memory, at the offset that the stored bytes compute. Memory 0 has a flag of its own.
    ///
    /// ```text
    /// abbrev pub active_encoding : ℕ → List ℕ → List ℕ → List ℕ
    /// active_encoding zero offset bytes = 0x00
    ///     ∷ (expression_encoding offset ++ size_prefixed_encoding bytes)
    /// active_encoding (suc n) offset bytes = 0x02
    ///     ∷ (unsigned_encoding (suc n)
    ///     ++ (expression_encoding offset ++ size_prefixed_encoding bytes))
    /// ```
    ///
    /// Definitions: [`expression_encoding`](super::code::expressions::expression_encoding), [`size_prefixed_encoding`](super::base::encodings::size_prefixed_encoding), [`unsigned_encoding`](super::base::numbers::unsigned_encoding).
    type active_encoding;
    /// The bytes before the offset of an active segment of this memory: a flag, and the memory's index unless it is 0.
    ///
    /// ```text
    /// abbrev pub active_front : ℕ → List ℕ
    /// active_front zero = unsigned_encoding 0
    /// active_front (suc n) = unsigned_encoding 2 ++ unsigned_encoding (suc n)
    /// ```
    ///
    /// Definitions: [`unsigned_encoding`](super::base::numbers::unsigned_encoding).
    type active_front;
    /// The encoding of a passive segment: a flag, then the size-prefixed bytes.
    ///
    /// ```text
    /// abbrev pub passive_encoding : List ℕ → List ℕ
    /// passive_encoding bytes = 0x01 ∷ size_prefixed_encoding bytes
    /// ```
    ///
    /// Definitions: [`size_prefixed_encoding`](super::base::encodings::size_prefixed_encoding).
    type passive_encoding;
    /// The encoding of a segment of this mode with these bytes.
    ///
    /// ```text
    /// abbrev pub segment_encoding : {A : Type 0} → DataSegmentMode A → List ℕ → List ℕ
    /// segment_encoding (Active memory offset) bytes = active_encoding memory offset.now bytes
    /// segment_encoding Passive bytes = passive_encoding bytes
    /// ```
    ///
    /// Definitions: [`active_encoding`](data_segments::active_encoding), [`passive_encoding`](data_segments::passive_encoding).
    type segment_encoding;
    /// A data segment as an argument: if active, its memory, the expression of its offset and its bytes; if passive, its bytes.
    ///
    /// ```text
    /// pub data GivenData : Type 0 where
    ///   given_active : ℕ → Stored → List ℕ → GivenData
    ///   given_passive : List ℕ → GivenData
    /// ```
    ///
    /// Definitions: [`Stored`](constants::Stored).
    type GivenData;
    /// A data segment: if active, its memory, the instructions of its offset and its bytes; if passive, its bytes.
    ///
    /// ```text
    /// pub data DataItem : Type 0 where
    ///   active : ℕ → List Plain → List ℕ → DataItem
    ///   passive : List ℕ → DataItem
    /// ```
    ///
    /// Definitions: [`Plain`](super::insn::plain::Plain).
    type DataItem;
    /// The encoding of a data segment that is an argument.
    ///
    /// ```text
    /// abbrev pub data_encoding : GivenData → List ℕ
    /// data_encoding (given_active memory offset bytes) = active_encoding memory offset.bytes
    ///     bytes
    /// data_encoding (given_passive bytes) = passive_encoding bytes
    /// ```
    ///
    /// Definitions: [`GivenData`](data_segments::GivenData), [`given_active`](data_segments::GivenData), [`active_encoding`](data_segments::active_encoding), [`given_passive`](data_segments::GivenData), [`passive_encoding`](data_segments::passive_encoding).
    type data_encoding;
    /// The memory is below 2^32, and the bytes of the expression encode its instructions in this mode.
    ///
    /// ```text
    /// abbrev pub IsGivenDataIn : Mode → GivenData → Type 0
    /// IsGivenDataIn mode (given_active memory offset bytes) = (memory < 2 ^ 32)
    ///     × IsStoredIn mode offset
    /// IsGivenDataIn mode (given_passive bytes) = Unit {0}
    /// ```
    ///
    /// Definitions: [`Mode`](super::base::numbers::Mode), [`GivenData`](data_segments::GivenData), [`given_active`](data_segments::GivenData), [`IsStoredIn`](constants::IsStoredIn), [`given_passive`](data_segments::GivenData).
    type IsGivenDataIn;
    /// The segment is well-formed: its memory is below 2^32, and its expression is minimally encoded.
    ///
    /// ```text
    /// abbrev pub IsGivenData : GivenData → Type 0
    /// IsGivenData g = IsGivenDataIn minimal g
    /// ```
    ///
    /// Definitions: [`GivenData`](data_segments::GivenData), [`IsGivenDataIn`](data_segments::IsGivenDataIn), [`minimal`](super::base::numbers::Mode).
    type IsGivenData;
    /// The segment is well-formed, and its expression may be padded.
    ///
    /// ```text
    /// abbrev pub IsGivenDataPadded : GivenData → Type 0
    /// IsGivenDataPadded g = IsGivenDataIn padded g
    /// ```
    ///
    /// Definitions: [`GivenData`](data_segments::GivenData), [`IsGivenDataIn`](data_segments::IsGivenDataIn), [`padded`](super::base::numbers::Mode).
    type IsGivenDataPadded;
    /// The normal form: the same data segment, with the instructions of the expression.
    ///
    /// ```text
    /// abbrev pub data_of : GivenData → DataItem
    /// data_of (given_active memory offset bytes) = active memory offset.instructions bytes
    /// data_of (given_passive bytes) = passive bytes
    /// ```
    ///
    /// Definitions: [`GivenData`](data_segments::GivenData), [`DataItem`](data_segments::DataItem), [`given_active`](data_segments::GivenData), [`active`](data_segments::DataItem), [`given_passive`](data_segments::GivenData), [`passive`](data_segments::DataItem).
    type data_of;
    /// The active segment of memory 0 with this offset expression and these bytes.
    ///
    /// ```text
    /// abbrev pub in_first : List Plain × List ℕ → DataItem
    /// in_first parts = active 0 parts.0 parts.1
    /// ```
    ///
    /// Definitions: [`Plain`](super::insn::plain::Plain), [`DataItem`](data_segments::DataItem), [`active`](data_segments::DataItem).
    type in_first;
    /// The active segment of this memory with this offset expression and these bytes.
    ///
    /// ```text
    /// abbrev pub in_memory : ℕ × (List Plain × List ℕ) → DataItem
    /// in_memory parts = active parts.0 parts.1.0 parts.1.1
    /// ```
    ///
    /// Definitions: [`Plain`](super::insn::plain::Plain), [`DataItem`](data_segments::DataItem), [`active`](data_segments::DataItem).
    type in_memory;
    /// The formats of a data segment by its flag, in a grammar.
    ///
    /// ```text
    /// abbrev pub data_tags : Grammar → List (ℕ × Format DataItem)
    /// data_tags w = (0, mapped in_first (pair expression (vec byte)))
    ///     ∷ (1, mapped passive (vec byte))
    ///     ∷ (2, mapped in_memory (pair (such (HasIndex w) u32) (pair expression (vec byte))))
    ///     ∷ []
    /// ```
    ///
    /// Definitions: [`Grammar`](super::base::numbers::Grammar), [`Format`](super::base::formats::Format), [`DataItem`](data_segments::DataItem), [`mapped`](super::base::formats::mapped), [`in_first`](data_segments::in_first), [`pair`](super::base::formats::pair), [`expression`](super::code::expressions::expression), [`vec`](super::base::formats::vec), [`byte`](super::base::formats::byte), [`passive`](data_segments::DataItem), [`in_memory`](data_segments::in_memory), [`such`](super::base::formats::such), [`HasIndex`](super::immediates::immediate_formats::HasIndex), [`u32`](super::base::formats::u32).
    type data_tags;
    /// A data segment of a grammar: a flag, the memory for flag 2, the offset expression if active, and a vector of bytes.
    ///
    /// ```text
    /// abbrev pub data_in : Grammar → Format DataItem
    /// data_in w = tagged u32 (choice (data_tags w) (λ flag. impossible))
    /// ```
    ///
    /// Definitions: [`Grammar`](super::base::numbers::Grammar), [`Format`](super::base::formats::Format), [`DataItem`](data_segments::DataItem), [`tagged`](super::base::formats::tagged), [`u32`](super::base::formats::u32), [`choice`](super::base::formats::choice), [`data_tags`](data_segments::data_tags), [`impossible`](super::base::formats::impossible).
    type data_in;
    /// A data segment. In the standard's grammar flag 2 admits memory 0; the minimal encoding has flag 0.
    ///
    /// ```text
    /// abbrev pub data_item : Format DataItem
    /// data_item = by_mode (data_in builders) (data_in builders) (data_in admitted)
    /// ```
    ///
    /// Definitions: [`Format`](super::base::formats::Format), [`DataItem`](data_segments::DataItem), [`by_mode`](super::base::formats::by_mode), [`data_in`](data_segments::data_in), [`builders`](super::base::numbers::Grammar), [`admitted`](super::base::numbers::Grammar).
    type data_item;
    /// The kind of data segments.
    ///
    /// ```text
    /// abbrev pub data_items : Kind GivenData DataItem
    /// data_items = record { encoding = data_encoding; IsWellFormed = IsGivenData;
    ///     IsWellFormedPadded = IsGivenDataPadded; normal_form = data_of; format = data_item }
    /// ```
    ///
    /// Definitions: [`Kind`](super::base::entries::Kind), [`GivenData`](data_segments::GivenData), [`DataItem`](data_segments::DataItem), [`data_encoding`](data_segments::data_encoding), [`IsGivenData`](data_segments::IsGivenData), [`IsGivenDataPadded`](data_segments::IsGivenDataPadded), [`data_of`](data_segments::data_of), [`data_item`](data_segments::data_item).
    type data_items;
    /// The section gains one entry with the bytes that the iterator yields, or the call returns an error and changes nothing. It returns `TooLong` if the section is full or the iterator reports more than 2^32 - 1 remaining bytes, and otherwise not.
    ///
    /// ```text
    /// pub record AddsBytes {M U S : Type 0} (model : StoreModel M) (becomes : U → S → Type 0)
    ///     (gives : S → Option ℕ → S → Type 0) (remaining : S → Count) (elements : U)
    ///     (encoding : List ℕ → List ℕ)
    ///     (old new : M) (result : Result (Unit {0}) Refused) : Type 0 where
    ///   pub ok : OnOk result ((it : S) × (bytes : List ℕ) × becomes elements it
    ///       × Drains gives it bytes × HasEncodableSize bytes
    ///       × model.gains (encoding bytes) old new)
    ///   pub err : OnErr result (new ≡ old)
    ///   pub counted : OnOk result ((model.joins old).number < longest)
    ///   pub too_long : ((it : S) → becomes elements it → size (remaining it) ≤ longest)
    ///       → (model.joins old).number < longest → result ≢ Err TooLong
    ///   pub too_many : ((it : S) → becomes elements it → longest < size (remaining it))
    ///       → result ≡ Err TooLong
    ///   pub full : (model.joins old).number ≡ longest → result ≡ Err TooLong
    /// ```
    ///
    /// Definitions: [`StoreModel`](super::base::stores::StoreModel), [`HasEncodableSize`](super::base::encodings::HasEncodableSize), [`longest`](super::base::encodings::longest).
    type AddsBytes;
    /// The view of a decoded data segment.
    ///
    /// ```text
    /// abbrev pub segment_view : {A : Type 0} → Segment A → DataItem
    /// segment_view (segments.Active memory offset bytes) = active memory
    ///     (instructions_view offset) bytes.now
    /// segment_view (segments.Passive bytes) = passive bytes.now
    /// ```
    ///
    /// Definitions: [`DataItem`](data_segments::DataItem), [`active`](data_segments::DataItem), [`instructions_view`](constants::instructions_view), [`passive`](data_segments::DataItem).
    type segment_view;
    /// The pieces encode these data segments.
    ///
    /// ```text
    /// abbrev pub ContainsSegments : List (List ℕ) → List DataItem → Type 0
    /// ContainsSegments = ContainsItems data_items
    /// ```
    ///
    /// Definitions: [`DataItem`](data_segments::DataItem), [`ContainsItems`](super::base::entries::ContainsItems), [`data_items`](data_segments::data_items).
    type ContainsSegments;
    /// The data section that decodes to these segments.
    ///
    /// ```text
    /// abbrev pub data_decoding : List DataItem → SectionDecoding
    /// data_decoding segments = decoding_of (number_of ids.Data) (vec data_item) segments
    /// ```
    ///
    /// Definitions: [`DataItem`](data_segments::DataItem), [`SectionDecoding`](super::base::modules::SectionDecoding), [`decoding_of`](super::base::modules::decoding_of), [`number_of`](super::base::section_id::number_of), [`vec`](super::base::formats::vec), [`data_item`](data_segments::data_item).
    type data_decoding;
    /// The data count section that decodes to this number. Core specification, Binary Format, Modules, Data Count Section.
    ///
    /// ```text
    /// abbrev pub data_count_decoding : ℕ → SectionDecoding
    /// data_count_decoding count = decoding_of (number_of ids.DataCount) u32 count
    /// ```
    ///
    /// Definitions: [`SectionDecoding`](super::base::modules::SectionDecoding), [`decoding_of`](super::base::modules::decoding_of), [`number_of`](super::base::section_id::number_of), [`u32`](super::base::formats::u32).
    type data_count_decoding;
}

/// Element segments, their encodings and their format. Core specification, Binary Format, Modules, Element Section.
///
/// - Tables: [`is_nullable_func`](elements::is_nullable_func), [`is_funcref`](elements::is_funcref), [`settled_table`](elements::settled_table).
/// - Segments, for any representation of expressions: [`SegmentMode`](elements::SegmentMode), [`ElementList`](elements::ElementList), [`ElementItem`](elements::ElementItem).
/// - Normal form: [`needs_table`](elements::needs_table), [`settled_segment_mode`](elements::settled_segment_mode), [`settled`](elements::settled).
/// - Flags: [`ElementFlag`](elements::ElementFlag), [`flag_code`](elements::flag_code), [`has_kind`](elements::has_kind), [`is_inactive`](elements::is_inactive), [`is_second`](elements::is_second), [`are_expressions`](elements::are_expressions), [`flag_of`](elements::flag_of).
/// - Encoding: [`segment_mode_encoding`](elements::segment_mode_encoding), [`elements_encoding`](elements::elements_encoding), [`settled_encoding`](elements::settled_encoding), [`AreEncodableElements`](elements::AreEncodableElements).
/// - Arguments of calls, and items of a section: [`stored_encoding`](elements::stored_encoding), [`element_encoding`](elements::element_encoding), [`IsSegmentModeIn`](elements::IsSegmentModeIn), [`AreElementsIn`](elements::AreElementsIn), [`IsSegmentIn`](elements::IsSegmentIn), [`IsSegmentMode`](elements::IsSegmentMode), [`IsSegment`](elements::IsSegment), [`IsSegmentPadded`](elements::IsSegmentPadded), [`segment_mode_by`](elements::segment_mode_by), [`elements_by`](elements::elements_by), [`stored_by`](elements::stored_by), [`segment_mode_of`](elements::segment_mode_of), [`elements_of`](elements::elements_of), [`said_by`](elements::said_by), [`element_of`](elements::element_of).
/// - Format: [`in_no_table`](elements::in_no_table), [`in_table`](elements::in_table), [`segment_mode`](elements::segment_mode), [`list_of`](elements::list_of), [`elements_as`](elements::elements_as), [`segment_of`](elements::segment_of), [`element`](elements::element), [`element_items`](elements::element_items).
/// - Decoded segments: [`element_flag_view`](elements::element_flag_view), [`segment_mode_view`](elements::segment_mode_view), [`list_view`](elements::list_view), [`element_view`](elements::element_view), [`ContainsElements`](elements::ContainsElements), [`element_decoding`](elements::element_decoding).
///
/// [How to read definitions](super). The file is [`Elements.antt`](https://github.com/dolzhytik/dolzhytik/blob/main/crates/wasm_sections/specs/Elements.antt).
pub trait elements {
    /// Whether it is the type of nullable references to unshared functions, which encodings without a type imply.
    ///
    /// ```text
    /// abbrev pub is_nullable_func : Bool → HeapType → Bool
    /// is_nullable_func true (Abstract false kinds.Func) = true
    /// is_nullable_func _ _ = false
    /// ```
    type is_nullable_func;
    /// Whether it is `funcref`, the type of nullable references to unshared functions.
    ///
    /// ```text
    /// abbrev pub is_funcref : RefType → Bool
    /// is_funcref r = is_nullable_func r.nullable r.heap_type
    /// ```
    ///
    /// Definitions: [`is_nullable_func`](elements::is_nullable_func).
    type is_funcref;
    /// The table that is encoded: table 0 if one is needed and none is given.
    ///
    /// ```text
    /// abbrev pub settled_table : Bool → Option ℕ → Option ℕ
    /// settled_table needed (Some table) = Some table
    /// settled_table true None = Some 0
    /// settled_table false None = None
    /// ```
    type settled_table;
    /// The mode of a segment: passive, declared, or active with an optional table and an offset expression.
    ///
    /// ```text
    /// pub data SegmentMode (E : Type 0) : Type 0 where
    ///   passive : SegmentMode E
    ///   declared : SegmentMode E
    ///   active : Option ℕ → E → SegmentMode E
    /// ```
    type SegmentMode;
    /// The elements of a segment: function indices, or expressions and their reference type.
    ///
    /// ```text
    /// pub data ElementList (E : Type 0) : Type 0 where
    ///   functions : List ℕ → ElementList E
    ///   expressions : RefType → List E → ElementList E
    /// ```
    type ElementList;
    /// An element segment: its mode and its elements.
    ///
    /// ```text
    /// pub record ElementItem (E : Type 0) : Type 0 where
    ///   pub segment_mode : SegmentMode E
    ///   pub elements : ElementList E
    /// ```
    ///
    /// Definitions: [`SegmentMode`](elements::SegmentMode), [`ElementList`](elements::ElementList).
    type ElementItem;
    /// An active segment of these elements needs an explicit table: no flag without a table encodes them.
    ///
    /// ```text
    /// abbrev pub needs_table : {E : Type 0} → ElementList E → Bool
    /// needs_table (functions fs) = false
    /// needs_table (expressions r es) = cond (is_funcref r) false true
    /// ```
    ///
    /// Definitions: [`ElementList`](elements::ElementList), [`functions`](elements::ElementList), [`expressions`](elements::ElementList), [`is_funcref`](elements::is_funcref).
    type needs_table;
    /// The mode, with table 0 if it is active, a table is needed and none is given.
    ///
    /// ```text
    /// abbrev pub settled_segment_mode : {E : Type 0} → Bool → SegmentMode E → SegmentMode E
    /// settled_segment_mode needed passive = passive
    /// settled_segment_mode needed declared = declared
    /// settled_segment_mode needed (active table offset) = active
    ///     (settled_table needed table) offset
    /// ```
    ///
    /// Definitions: [`SegmentMode`](elements::SegmentMode), [`passive`](elements::SegmentMode), [`declared`](elements::SegmentMode), [`active`](elements::SegmentMode), [`settled_table`](elements::settled_table).
    type settled_segment_mode;
    /// The segment, with table 0 if it is active, needs a table and has none.
    ///
    /// ```text
    /// abbrev pub settled : {E : Type 0} → ElementItem E → ElementItem E
    /// settled s = record { segment_mode = settled_segment_mode
    ///     (needs_table s.elements) s.segment_mode; elements = s.elements }
    /// ```
    ///
    /// Definitions: [`ElementItem`](elements::ElementItem), [`settled_segment_mode`](elements::settled_segment_mode), [`needs_table`](elements::needs_table).
    type settled;
    /// The three bits of a segment's flag: it is not active, a second bit whose meaning depends on the first, and its elements are expressions.
    ///
    /// ```text
    /// pub record ElementFlag : Type 0 where
    ///   pub not_active : Bool
    ///   pub second : Bool
    ///   pub expressions : Bool
    /// ```
    type ElementFlag;
    /// The number of the flag: its bits have the weights 1, 2 and 4.
    ///
    /// ```text
    /// abbrev pub flag_code : ElementFlag → ℕ
    /// flag_code f = where_set f.not_active 1 + where_set f.second 2
    ///     + where_set f.expressions 4
    /// ```
    ///
    /// Definitions: [`ElementFlag`](elements::ElementFlag), [`where_set`](super::immediates::immediates::where_set).
    type flag_code;
    /// Whether the kind of the elements is encoded: for every flag but 0 and 4.
    ///
    /// ```text
    /// abbrev pub has_kind : ElementFlag → Bool
    /// has_kind f = cond f.not_active true f.second
    /// ```
    ///
    /// Definitions: [`ElementFlag`](elements::ElementFlag).
    type has_kind;
    /// Whether the segment is passive or declared.
    ///
    /// ```text
    /// abbrev pub is_inactive : {E : Type 0} → SegmentMode E → Bool
    /// is_inactive passive = true
    /// is_inactive declared = true
    /// is_inactive (active table offset) = false
    /// ```
    ///
    /// Definitions: [`SegmentMode`](elements::SegmentMode), [`passive`](elements::SegmentMode), [`declared`](elements::SegmentMode), [`active`](elements::SegmentMode).
    type is_inactive;
    /// The second bit of the flag: the segment is declared, or is active with an explicit table.
    ///
    /// ```text
    /// abbrev pub is_second : {E : Type 0} → SegmentMode E → Bool
    /// is_second passive = false
    /// is_second declared = true
    /// is_second (active table offset) = is_given table
    /// ```
    ///
    /// Definitions: [`SegmentMode`](elements::SegmentMode), [`passive`](elements::SegmentMode), [`declared`](elements::SegmentMode), [`active`](elements::SegmentMode), [`is_given`](super::base::formats::is_given).
    type is_second;
    /// Whether the elements are expressions, not function indices.
    ///
    /// ```text
    /// abbrev pub are_expressions : {E : Type 0} → ElementList E → Bool
    /// are_expressions (functions fs) = false
    /// are_expressions (expressions r es) = true
    /// ```
    ///
    /// Definitions: [`ElementList`](elements::ElementList), [`functions`](elements::ElementList), [`expressions`](elements::ElementList).
    type are_expressions;
    /// The flag of an element segment.
    ///
    /// ```text
    /// abbrev pub flag_of : {E : Type 0} → ElementItem E → ElementFlag
    /// flag_of s = record { not_active = is_inactive s.segment_mode;
    ///     second = is_second s.segment_mode; expressions = are_expressions s.elements }
    /// ```
    ///
    /// Definitions: [`ElementItem`](elements::ElementItem), [`ElementFlag`](elements::ElementFlag), [`is_inactive`](elements::is_inactive), [`is_second`](elements::is_second), [`are_expressions`](elements::are_expressions).
    type flag_of;
    /// The encoding of a mode: no bytes unless it is active, else the explicit table, if any, and the offset expression.
    ///
    /// ```text
    /// module _ {E : Type 0} (encoding : E → List ℕ) where
    ///   abbrev pub segment_mode_encoding : SegmentMode E → List ℕ
    ///   segment_mode_encoding passive = []
    ///   segment_mode_encoding declared = []
    ///   segment_mode_encoding (active table offset) = optional_encoding unsigned_encoding
    ///       table ++ encoding offset
    /// ```
    ///
    /// Definitions: [`SegmentMode`](elements::SegmentMode), [`passive`](elements::SegmentMode), [`declared`](elements::SegmentMode), [`active`](elements::SegmentMode), [`optional_encoding`](super::base::encodings::optional_encoding), [`unsigned_encoding`](super::base::numbers::unsigned_encoding).
    type segment_mode_encoding;
    /// The encoding of elements: their kind if it is encoded, then a vector.
    ///
    /// ```text
    /// module _ {E : Type 0} (encoding : E → List ℕ) where
    ///   abbrev pub elements_encoding : Bool → ElementList E → List ℕ
    ///   elements_encoding explicit (functions fs) = cond explicit (0x00 ∷ []) []
    ///       ++ vec_encoding unsigned_encoding fs
    ///   elements_encoding explicit (expressions r es) = cond explicit (ref_encoding r) []
    ///       ++ vec_encoding encoding es
    /// ```
    ///
    /// Definitions: [`ElementList`](elements::ElementList), [`functions`](elements::ElementList), [`vec_encoding`](super::base::encodings::vec_encoding), [`unsigned_encoding`](super::base::numbers::unsigned_encoding), [`expressions`](elements::ElementList), [`ref_encoding`](super::base::types::ref_encoding).
    type elements_encoding;
    /// The encoding of a settled segment: the flag, the mode and the elements.
    ///
    /// ```text
    /// module _ {E : Type 0} (encoding : E → List ℕ) where
    ///   abbrev pub settled_encoding : ElementItem E → List ℕ
    ///   settled_encoding s = flag_code (flag_of s)
    ///       ∷ (segment_mode_encoding s.segment_mode
    ///       ++ elements_encoding (has_kind (flag_of s)) s.elements)
    /// ```
    ///
    /// Definitions: [`ElementItem`](elements::ElementItem), [`flag_code`](elements::flag_code), [`flag_of`](elements::flag_of), [`segment_mode_encoding`](elements::segment_mode_encoding), [`elements_encoding`](elements::elements_encoding), [`has_kind`](elements::has_kind).
    type settled_encoding;
    /// The number of elements is at most 2^32 - 1.
    ///
    /// ```text
    /// abbrev pub AreEncodableElements : {E : Type 0} → ElementList E → Type 0
    /// AreEncodableElements (functions fs) = IsEncodableVec (λ f. Unit {0}) fs
    /// AreEncodableElements (expressions r es) = IsEncodableVec (λ e. Unit {0}) es
    /// ```
    ///
    /// Definitions: [`ElementList`](elements::ElementList), [`functions`](elements::ElementList), [`IsEncodableVec`](super::base::encodings::IsEncodableVec), [`expressions`](elements::ElementList).
    type AreEncodableElements;
    /// The encoding of an expression that is an argument.
    ///
    /// ```text
    /// abbrev pub stored_encoding : Stored → List ℕ
    /// stored_encoding e = expression_encoding e.bytes
    /// ```
    ///
    /// Definitions: [`Stored`](constants::Stored), [`expression_encoding`](super::code::expressions::expression_encoding).
    type stored_encoding;
    /// The encoding of an element segment that is an argument: that of the settled segment.
    ///
    /// ```text
    /// abbrev pub element_encoding : ElementItem Stored → List ℕ
    /// element_encoding s = settled_encoding stored_encoding (settled s)
    /// ```
    ///
    /// Definitions: [`ElementItem`](elements::ElementItem), [`Stored`](constants::Stored), [`settled_encoding`](elements::settled_encoding), [`stored_encoding`](elements::stored_encoding), [`settled`](elements::settled).
    type element_encoding;
    /// If the segment is active, its explicit table is below 2^32 and the bytes of its expression encode its instructions in this mode.
    ///
    /// ```text
    /// abbrev pub IsSegmentModeIn : Mode → SegmentMode Stored → Type 0
    /// IsSegmentModeIn mode passive = Unit {0}
    /// IsSegmentModeIn mode declared = Unit {0}
    /// IsSegmentModeIn mode (active table offset) = IfSome table (λ t. t < 2 ^ 32)
    ///     × IsStoredIn mode offset
    /// ```
    ///
    /// Definitions: [`Mode`](super::base::numbers::Mode), [`SegmentMode`](elements::SegmentMode), [`Stored`](constants::Stored), [`passive`](elements::SegmentMode), [`declared`](elements::SegmentMode), [`active`](elements::SegmentMode), [`IsStoredIn`](constants::IsStoredIn).
    type IsSegmentModeIn;
    /// Indices are below 2^32, the bytes of expressions encode their instructions in this mode, and there are at most 2^32 - 1 elements.
    ///
    /// ```text
    /// abbrev pub AreElementsIn : Mode → ElementList Stored → Type 0
    /// AreElementsIn mode (functions fs) = IsEncodableVec (IsUnsignedInRange 32) fs
    /// AreElementsIn mode (expressions r es) = IsRef r × IsEncodableVec (IsStoredIn mode) es
    /// ```
    ///
    /// Definitions: [`Mode`](super::base::numbers::Mode), [`ElementList`](elements::ElementList), [`Stored`](constants::Stored), [`functions`](elements::ElementList), [`IsEncodableVec`](super::base::encodings::IsEncodableVec), [`IsUnsignedInRange`](super::base::laws::IsUnsignedInRange), [`expressions`](elements::ElementList), [`IsRef`](super::base::types::IsRef), [`IsStoredIn`](constants::IsStoredIn).
    type AreElementsIn;
    /// The numbers of the segment are in range, and the bytes of its expressions encode their instructions in this mode.
    ///
    /// ```text
    /// pub record IsSegmentIn (mode : Mode) (s : ElementItem Stored) : Type 0 where
    ///   pub segment_mode : IsSegmentModeIn mode s.segment_mode
    ///   pub elements : AreElementsIn mode s.elements
    /// ```
    ///
    /// Definitions: [`Mode`](super::base::numbers::Mode), [`ElementItem`](elements::ElementItem), [`Stored`](constants::Stored), [`IsSegmentModeIn`](elements::IsSegmentModeIn), [`AreElementsIn`](elements::AreElementsIn).
    type IsSegmentIn;
    /// If the segment is active, its explicit table is below 2^32 and its expression is minimally encoded.
    ///
    /// ```text
    /// abbrev pub IsSegmentMode : SegmentMode Stored → Type 0
    /// IsSegmentMode p = IsSegmentModeIn minimal p
    /// ```
    ///
    /// Definitions: [`SegmentMode`](elements::SegmentMode), [`Stored`](constants::Stored), [`IsSegmentModeIn`](elements::IsSegmentModeIn), [`minimal`](super::base::numbers::Mode).
    type IsSegmentMode;
    /// The segment is well-formed: its numbers are in range, and its expressions are minimally encoded.
    ///
    /// ```text
    /// abbrev pub IsSegment : ElementItem Stored → Type 0
    /// IsSegment s = IsSegmentIn minimal s
    /// ```
    ///
    /// Definitions: [`ElementItem`](elements::ElementItem), [`Stored`](constants::Stored), [`IsSegmentIn`](elements::IsSegmentIn), [`minimal`](super::base::numbers::Mode).
    type IsSegment;
    /// The segment is well-formed, and its expressions may be padded.
    ///
    /// ```text
    /// abbrev pub IsSegmentPadded : ElementItem Stored → Type 0
    /// IsSegmentPadded s = IsSegmentIn padded s
    /// ```
    ///
    /// Definitions: [`ElementItem`](elements::ElementItem), [`Stored`](constants::Stored), [`IsSegmentIn`](elements::IsSegmentIn), [`padded`](super::base::numbers::Mode).
    type IsSegmentPadded;
    /// The same mode, with the bytes of its expression.
    ///
    /// ```text
    /// abbrev pub segment_mode_by : SegmentMode Stored → SegmentMode (List ℕ)
    /// segment_mode_by passive = passive
    /// segment_mode_by declared = declared
    /// segment_mode_by (active table offset) = active table offset.bytes
    /// ```
    ///
    /// Definitions: [`SegmentMode`](elements::SegmentMode), [`Stored`](constants::Stored), [`passive`](elements::SegmentMode), [`declared`](elements::SegmentMode), [`active`](elements::SegmentMode).
    type segment_mode_by;
    /// The same elements, with the bytes of their expressions.
    ///
    /// ```text
    /// abbrev pub elements_by : ElementList Stored → ElementList (List ℕ)
    /// elements_by (functions fs) = functions fs
    /// elements_by (expressions r es) = expressions r (map (λ e. e.bytes) es)
    /// ```
    ///
    /// Definitions: [`ElementList`](elements::ElementList), [`Stored`](constants::Stored), [`functions`](elements::ElementList), [`expressions`](elements::ElementList).
    type elements_by;
    /// The same segment, with the bytes of its expressions.
    ///
    /// ```text
    /// abbrev pub stored_by : ElementItem Stored → ElementItem (List ℕ)
    /// stored_by s = record { segment_mode = segment_mode_by s.segment_mode;
    ///     elements = elements_by s.elements }
    /// ```
    ///
    /// Definitions: [`ElementItem`](elements::ElementItem), [`Stored`](constants::Stored), [`segment_mode_by`](elements::segment_mode_by), [`elements_by`](elements::elements_by).
    type stored_by;
    /// The same mode, with the instructions of its expression.
    ///
    /// ```text
    /// abbrev pub segment_mode_of : SegmentMode Stored → SegmentMode (List Plain)
    /// segment_mode_of passive = passive
    /// segment_mode_of declared = declared
    /// segment_mode_of (active table offset) = active table offset.instructions
    /// ```
    ///
    /// Definitions: [`SegmentMode`](elements::SegmentMode), [`Stored`](constants::Stored), [`Plain`](super::insn::plain::Plain), [`passive`](elements::SegmentMode), [`declared`](elements::SegmentMode), [`active`](elements::SegmentMode).
    type segment_mode_of;
    /// The same elements, with the instructions of their expressions.
    ///
    /// ```text
    /// abbrev pub elements_of : ElementList Stored → ElementList (List Plain)
    /// elements_of (functions fs) = functions fs
    /// elements_of (expressions r es) = expressions r (map (λ e. e.instructions) es)
    /// ```
    ///
    /// Definitions: [`ElementList`](elements::ElementList), [`Stored`](constants::Stored), [`Plain`](super::insn::plain::Plain), [`functions`](elements::ElementList), [`expressions`](elements::ElementList).
    type elements_of;
    /// The same segment, with the instructions of its expressions.
    ///
    /// ```text
    /// abbrev pub said_by : ElementItem Stored → ElementItem (List Plain)
    /// said_by s = record { segment_mode = segment_mode_of s.segment_mode;
    ///     elements = elements_of s.elements }
    /// ```
    ///
    /// Definitions: [`ElementItem`](elements::ElementItem), [`Stored`](constants::Stored), [`Plain`](super::insn::plain::Plain), [`segment_mode_of`](elements::segment_mode_of), [`elements_of`](elements::elements_of).
    type said_by;
    /// The normal form: the settled segment, with the instructions of its expressions.
    ///
    /// ```text
    /// abbrev pub element_of : ElementItem Stored → ElementItem (List Plain)
    /// element_of s = said_by (settled s)
    /// ```
    ///
    /// Definitions: [`ElementItem`](elements::ElementItem), [`Stored`](constants::Stored), [`Plain`](super::insn::plain::Plain), [`said_by`](elements::said_by), [`settled`](elements::settled).
    type element_of;
    /// The active mode without an explicit table, with this offset expression.
    ///
    /// ```text
    /// abbrev pub in_no_table : List Plain → SegmentMode (List Plain)
    /// in_no_table offset = active None offset
    /// ```
    ///
    /// Definitions: [`Plain`](super::insn::plain::Plain), [`SegmentMode`](elements::SegmentMode), [`active`](elements::SegmentMode).
    type in_no_table;
    /// The active mode with this explicit table and this offset expression.
    ///
    /// ```text
    /// abbrev pub in_table : ℕ × List Plain → SegmentMode (List Plain)
    /// in_table parts = active (Some parts.0) parts.1
    /// ```
    ///
    /// Definitions: [`Plain`](super::insn::plain::Plain), [`SegmentMode`](elements::SegmentMode), [`active`](elements::SegmentMode).
    type in_table;
    /// A mode by its flag: no bytes if passive or declared; if active, a table if the second bit is set, then an expression.
    ///
    /// ```text
    /// abbrev pub segment_mode : ElementFlag → Format (SegmentMode (List Plain))
    /// segment_mode f = when f.not_active
    ///     (when f.second (fixed [] declared) (fixed [] passive))
    ///     (when f.second (mapped in_table (pair u32 expression))
    ///     (mapped in_no_table expression))
    /// ```
    ///
    /// Definitions: [`ElementFlag`](elements::ElementFlag), [`Format`](super::base::formats::Format), [`SegmentMode`](elements::SegmentMode), [`Plain`](super::insn::plain::Plain), [`when`](super::base::formats::when), [`fixed`](super::base::formats::fixed), [`declared`](elements::SegmentMode), [`passive`](elements::SegmentMode), [`mapped`](super::base::formats::mapped), [`in_table`](elements::in_table), [`pair`](super::base::formats::pair), [`u32`](super::base::formats::u32), [`expression`](super::code::expressions::expression), [`in_no_table`](elements::in_no_table).
    type segment_mode;
    /// The elements that are these expressions of this reference type.
    ///
    /// ```text
    /// abbrev pub list_of : RefType × List (List Plain) → ElementList (List Plain)
    /// list_of parts = expressions parts.0 parts.1
    /// ```
    ///
    /// Definitions: [`Plain`](super::insn::plain::Plain), [`ElementList`](elements::ElementList), [`expressions`](elements::ElementList).
    type list_of;
    /// Elements: expressions or function indices. Before expressions comes their reference type if it is encoded, and `funcref` is implied otherwise. Before indices comes the byte 00 of their kind if it is encoded.
    ///
    /// ```text
    /// abbrev pub elements_as : (explicit of_expressions : Bool)
    ///     → Format (ElementList (List Plain))
    /// elements_as explicit of_expressions =
    ///     when of_expressions (mapped list_of
    ///         (pair (when explicit ref_type (fixed [] FUNCREF)) (vec expression)))
    ///     (mapped functions (prefixed (cond explicit (0x00 ∷ []) []) (vec u32)))
    /// ```
    ///
    /// Definitions: [`Format`](super::base::formats::Format), [`ElementList`](elements::ElementList), [`Plain`](super::insn::plain::Plain), [`when`](super::base::formats::when), [`mapped`](super::base::formats::mapped), [`list_of`](elements::list_of), [`pair`](super::base::formats::pair), [`ref_type`](super::base::types::ref_type), [`fixed`](super::base::formats::fixed), [`FUNCREF`](super::base::types::FUNCREF), [`vec`](super::base::formats::vec), [`expression`](super::code::expressions::expression), [`functions`](elements::ElementList), [`prefixed`](super::base::formats::prefixed), [`u32`](super::base::formats::u32).
    type elements_as;
    /// The element segment of this mode and these elements.
    ///
    /// ```text
    /// abbrev pub segment_of : SegmentMode (List Plain) × ElementList (List Plain)
    ///     → ElementItem (List Plain)
    /// segment_of parts = record { segment_mode = parts.0; elements = parts.1 }
    /// ```
    ///
    /// Definitions: [`SegmentMode`](elements::SegmentMode), [`Plain`](super::insn::plain::Plain), [`ElementList`](elements::ElementList), [`ElementItem`](elements::ElementItem).
    type segment_of;
    /// An element segment: a flag, then the mode and the elements that it selects.
    ///
    /// ```text
    /// abbrev pub element : Format (ElementItem (List Plain))
    /// element = tagged (numbered flag_code)
    ///     (λ f. mapped segment_of (pair (segment_mode f)
    ///         (elements_as (has_kind f) f.expressions)))
    /// ```
    ///
    /// Definitions: [`Format`](super::base::formats::Format), [`ElementItem`](elements::ElementItem), [`Plain`](super::insn::plain::Plain), [`tagged`](super::base::formats::tagged), [`numbered`](super::base::formats::numbered), [`flag_code`](elements::flag_code), [`mapped`](super::base::formats::mapped), [`segment_of`](elements::segment_of), [`pair`](super::base::formats::pair), [`segment_mode`](elements::segment_mode), [`elements_as`](elements::elements_as), [`has_kind`](elements::has_kind).
    type element;
    /// The kind of element segments.
    ///
    /// ```text
    /// abbrev pub element_items : Kind (ElementItem Stored) (ElementItem (List Plain))
    /// element_items = record { encoding = element_encoding; IsWellFormed = IsSegment;
    ///     IsWellFormedPadded = IsSegmentPadded; normal_form = element_of; format = element }
    /// ```
    ///
    /// Definitions: [`Kind`](super::base::entries::Kind), [`ElementItem`](elements::ElementItem), [`Stored`](constants::Stored), [`Plain`](super::insn::plain::Plain), [`element_encoding`](elements::element_encoding), [`IsSegment`](elements::IsSegment), [`IsSegmentPadded`](elements::IsSegmentPadded), [`element_of`](elements::element_of), [`element`](elements::element).
    type element_items;
    /// The view of a decoded flag.
    ///
    /// ```text
    /// abbrev pub element_flag_view : ReadFlag → ElementFlag
    /// element_flag_view f = record
    ///     { not_active = f.not_active; second = f.second; expressions = f.expressions }
    /// ```
    ///
    /// Definitions: [`ElementFlag`](elements::ElementFlag).
    type element_flag_view;
    /// The view of a decoded mode.
    ///
    /// ```text
    /// abbrev pub segment_mode_view
    ///     : {A : Type 0} → ElementItemMode A → SegmentMode (List Plain)
    /// segment_mode_view modes.Passive = passive
    /// segment_mode_view modes.Declared = declared
    /// segment_mode_view (modes.Active table offset) = active table (instructions_view offset)
    /// ```
    ///
    /// Definitions: [`SegmentMode`](elements::SegmentMode), [`Plain`](super::insn::plain::Plain), [`passive`](elements::SegmentMode), [`declared`](elements::SegmentMode), [`active`](elements::SegmentMode), [`instructions_view`](constants::instructions_view).
    type segment_mode_view;
    /// The view of decoded elements.
    ///
    /// ```text
    /// abbrev pub list_view : {A : Type 0} → ReadList A → ElementList (List Plain)
    /// list_view (lists.Functions fs) = functions fs.items
    /// list_view (lists.Expressions r es) = expressions r (map instructions_view es.items)
    /// ```
    ///
    /// Definitions: [`ElementList`](elements::ElementList), [`Plain`](super::insn::plain::Plain), [`functions`](elements::ElementList), [`expressions`](elements::ElementList), [`instructions_view`](constants::instructions_view).
    type list_view;
    /// The view of a decoded element segment.
    ///
    /// ```text
    /// abbrev pub element_view : {A : Type 0} → ReadElement A → ElementItem (List Plain)
    /// element_view e = record { segment_mode = segment_mode_view e.mode;
    ///     elements = list_view e.elements }
    /// ```
    ///
    /// Definitions: [`ElementItem`](elements::ElementItem), [`Plain`](super::insn::plain::Plain), [`segment_mode_view`](elements::segment_mode_view), [`list_view`](elements::list_view).
    type element_view;
    /// The pieces encode these element segments.
    ///
    /// ```text
    /// abbrev pub ContainsElements : List (List ℕ) → List (ElementItem (List Plain)) → Type 0
    /// ContainsElements = ContainsItems element_items
    /// ```
    ///
    /// Definitions: [`ElementItem`](elements::ElementItem), [`Plain`](super::insn::plain::Plain), [`ContainsItems`](super::base::entries::ContainsItems), [`element_items`](elements::element_items).
    type ContainsElements;
    /// The element section that decodes to these segments.
    ///
    /// ```text
    /// abbrev pub element_decoding : List (ElementItem (List Plain)) → SectionDecoding
    /// element_decoding segments = decoding_of (number_of ids.Element) (vec element) segments
    /// ```
    ///
    /// Definitions: [`ElementItem`](elements::ElementItem), [`Plain`](super::insn::plain::Plain), [`SectionDecoding`](super::base::modules::SectionDecoding), [`decoding_of`](super::base::modules::decoding_of), [`number_of`](super::base::section_id::number_of), [`vec`](super::base::formats::vec), [`element`](elements::element).
    type element_decoding;
}

/// Exports, their encoding and their format. Core specification, Binary Format, Modules, Export Section.
///
/// [How to read definitions](super). The file is [`Exports.antt`](https://github.com/dolzhytik/dolzhytik/blob/main/crates/wasm_sections/specs/Exports.antt).
pub trait exports {
    /// The byte for the kind of an export.
    ///
    /// ```text
    /// abbrev pub kind_code : ExportKind → ℕ
    /// kind_code Func = 0x00
    /// kind_code Table = 0x01
    /// kind_code Memory = 0x02
    /// kind_code Global = 0x03
    /// kind_code Tag = 0x04
    /// ```
    type kind_code;
    /// The encoding of an export: its name, the byte of its kind and its index.
    ///
    /// ```text
    /// abbrev pub export_encoding : Export → List ℕ
    /// export_encoding e = size_prefixed_encoding e.name.now
    ///     ++ (kind_code e.kind ∷ [] ++ unsigned_encoding e.index)
    /// ```
    ///
    /// Definitions: [`size_prefixed_encoding`](super::base::encodings::size_prefixed_encoding), [`kind_code`](exports::kind_code), [`unsigned_encoding`](super::base::numbers::unsigned_encoding).
    type export_encoding;
    /// The length of the name is at most 2^32 - 1.
    ///
    /// ```text
    /// abbrev pub IsEncodableExport : Export → Type 0
    /// IsEncodableExport e = HasEncodableSize e.name.now
    /// ```
    ///
    /// Definitions: [`HasEncodableSize`](super::base::encodings::HasEncodableSize).
    type IsEncodableExport;
    /// The export is well-formed: its name is UTF-8, and its index is below 2^32.
    ///
    /// ```text
    /// pub record IsExport (e : Export) : Type 0 where
    ///   pub name : IsUtf8 e.name.now
    ///   pub index : e.index < 2 ^ 32
    /// ```
    type IsExport;
    /// An export: its name, the kind of the exported entity and its index.
    ///
    /// ```text
    /// pub record ExportItem : Type 0 where
    ///   pub name : List ℕ
    ///   pub kind : ExportKind
    ///   pub index : ℕ
    /// ```
    type ExportItem;
    /// The item that an export encodes.
    ///
    /// ```text
    /// abbrev pub item_of : Export → ExportItem
    /// item_of e = record { name = e.name.now; kind = e.kind; index = e.index }
    /// ```
    ///
    /// Definitions: [`ExportItem`](exports::ExportItem).
    type item_of;
    /// The export of this name, kind and index.
    ///
    /// ```text
    /// abbrev pub export_of : List ℕ × (ExportKind × ℕ) → ExportItem
    /// export_of parts = record { name = parts.0; kind = parts.1.0; index = parts.1.1 }
    /// ```
    ///
    /// Definitions: [`ExportItem`](exports::ExportItem).
    type export_of;
    /// An export: a name, a kind and an index.
    ///
    /// ```text
    /// abbrev pub export : Format ExportItem
    /// export = mapped export_of (pair name (pair (coded kind_code) u32))
    /// ```
    ///
    /// Definitions: [`Format`](super::base::formats::Format), [`ExportItem`](exports::ExportItem), [`mapped`](super::base::formats::mapped), [`export_of`](exports::export_of), [`pair`](super::base::formats::pair), [`name`](super::base::formats::name), [`coded`](super::base::formats::coded), [`kind_code`](exports::kind_code), [`u32`](super::base::formats::u32).
    type export;
    /// The kind of exports.
    ///
    /// ```text
    /// abbrev pub export_items : Kind Export ExportItem
    /// export_items = record { encoding = export_encoding; IsWellFormed = IsExport;
    ///     IsWellFormedPadded = IsExport; normal_form = item_of; format = export }
    /// ```
    ///
    /// Definitions: [`Kind`](super::base::entries::Kind), [`ExportItem`](exports::ExportItem), [`export_encoding`](exports::export_encoding), [`IsExport`](exports::IsExport), [`item_of`](exports::item_of), [`export`](exports::export).
    type export_items;
    /// The pieces encode these exports.
    ///
    /// ```text
    /// abbrev pub ContainsExports : List (List ℕ) → List ExportItem → Type 0
    /// ContainsExports = ContainsItems export_items
    /// ```
    ///
    /// Definitions: [`ExportItem`](exports::ExportItem), [`ContainsItems`](super::base::entries::ContainsItems), [`export_items`](exports::export_items).
    type ContainsExports;
    /// The export section that decodes to these exports.
    ///
    /// ```text
    /// abbrev pub export_decoding : List ExportItem → SectionDecoding
    /// export_decoding exports = decoding_of (number_of ids.Export) (vec export) exports
    /// ```
    ///
    /// Definitions: [`ExportItem`](exports::ExportItem), [`SectionDecoding`](super::base::modules::SectionDecoding), [`decoding_of`](super::base::modules::decoding_of), [`number_of`](super::base::section_id::number_of), [`vec`](super::base::formats::vec), [`export`](exports::export).
    type export_decoding;
}

/// The flags of limits: one byte with four named bits. Core specification, Binary Format, Types, Limits.
///
/// [How to read definitions](super). The file is [`Flags.antt`](https://github.com/dolzhytik/dolzhytik/blob/main/crates/wasm_sections/specs/Flags.antt).
pub trait flags {
    /// The flags of limits: a maximum is encoded, the table or memory is shared, its indices have 64 bits, a page size is encoded. The core specification lacks the second and the fourth, which are those of the proposals for threads and for custom page sizes.
    ///
    /// ```text
    /// pub record Flags : Type 0 where
    ///   pub has_maximum : Bool
    ///   pub shared : Bool
    ///   pub is_64 : Bool
    ///   pub has_page_size : Bool
    /// ```
    type Flags;
    /// The byte of the flags.
    ///
    /// ```text
    /// abbrev pub flags_code : Flags → ℕ
    /// flags_code f = where_set f.has_maximum 0x01 + where_set f.shared 0x02
    ///     + where_set f.is_64 0x04 + where_set f.has_page_size 0x08
    /// ```
    ///
    /// Definitions: [`Flags`](flags::Flags), [`where_set`](super::immediates::immediates::where_set).
    type flags_code;
    /// The flags of limits: one byte.
    ///
    /// ```text
    /// abbrev pub flags : Format Flags
    /// flags = coded flags_code
    /// ```
    ///
    /// Definitions: [`Format`](super::base::formats::Format), [`Flags`](flags::Flags), [`coded`](super::base::formats::coded), [`flags_code`](flags::flags_code).
    type flags;
    /// The view of decoded flags.
    ///
    /// ```text
    /// abbrev pub flags_view : ReadFlags → Flags
    /// flags_view f = record { has_maximum = f.has_maximum; shared = f.shared; is_64 = f.is_64;
    ///     has_page_size = f.has_page_size }
    /// ```
    ///
    /// Definitions: [`Flags`](flags::Flags).
    type flags_view;
}

/// The function section and the start section. Core specification, Binary Format, Modules, Function Section and Start Section.
///
/// [How to read definitions](super). The file is [`Functions.antt`](https://github.com/dolzhytik/dolzhytik/blob/main/crates/wasm_sections/specs/Functions.antt).
pub trait functions {
    /// The kind of type indices, one for each function.
    ///
    /// ```text
    /// abbrev pub function_items : Kind ℕ ℕ
    /// function_items = record { encoding = unsigned_encoding;
    ///     IsWellFormed = IsUnsignedInRange 32; IsWellFormedPadded = IsUnsignedInRange 32;
    ///     normal_form = λ index. index; format = u32 }
    /// ```
    ///
    /// Definitions: [`Kind`](super::base::entries::Kind), [`unsigned_encoding`](super::base::numbers::unsigned_encoding), [`IsUnsignedInRange`](super::base::laws::IsUnsignedInRange), [`u32`](super::base::formats::u32).
    type function_items;
    /// The pieces encode these type indices, one for each function.
    ///
    /// ```text
    /// abbrev pub ContainsFunctions : List (List ℕ) → List ℕ → Type 0
    /// ContainsFunctions = ContainsItems function_items
    /// ```
    ///
    /// Definitions: [`ContainsItems`](super::base::entries::ContainsItems), [`function_items`](functions::function_items).
    type ContainsFunctions;
    /// The function section that decodes to these type indices.
    ///
    /// ```text
    /// abbrev pub function_decoding : List ℕ → SectionDecoding
    /// function_decoding types = decoding_of (number_of ids.Function) (vec u32) types
    /// ```
    ///
    /// Definitions: [`SectionDecoding`](super::base::modules::SectionDecoding), [`decoding_of`](super::base::modules::decoding_of), [`number_of`](super::base::section_id::number_of), [`vec`](super::base::formats::vec), [`u32`](super::base::formats::u32).
    type function_decoding;
    /// The start section that decodes to this function index.
    ///
    /// ```text
    /// abbrev pub start_decoding : ℕ → SectionDecoding
    /// start_decoding index = decoding_of (number_of ids.Start) u32 index
    /// ```
    ///
    /// Definitions: [`SectionDecoding`](super::base::modules::SectionDecoding), [`decoding_of`](super::base::modules::decoding_of), [`number_of`](super::base::section_id::number_of), [`u32`](super::base::formats::u32).
    type start_decoding;
}

/// Element segments as arguments of calls, whose expressions are stored bytes.
///
/// [How to read definitions](super). The file is [`GivenElements.antt`](https://github.com/dolzhytik/dolzhytik/blob/main/crates/wasm_sections/specs/GivenElements.antt).
pub trait given_elements {
    /// The mode of an argument, with the stored bytes of its expression.
    ///
    /// ```text
    /// abbrev pub mode_of : {A : Type 0} → ElementMode A → SegmentMode (List ℕ)
    /// mode_of modes.Passive = passive
    /// mode_of modes.Declared = declared
    /// mode_of (modes.Active table offset) = active table offset.now
    /// ```
    ///
    /// Definitions: [`SegmentMode`](elements::SegmentMode), [`passive`](elements::SegmentMode), [`declared`](elements::SegmentMode), [`active`](elements::SegmentMode).
    type mode_of;
    /// The elements of an argument, borrowed or owned, with the stored bytes of their expressions.
    ///
    /// ```text
    /// abbrev pub list_in : {A : Type 0} → Elements A → ElementList (List ℕ)
    /// list_in (lists.Functions fs) = functions (items_of fs)
    /// list_in (lists.Expressions r es) = expressions r (items_of es)
    /// ```
    ///
    /// Definitions: [`ElementList`](elements::ElementList), [`functions`](elements::ElementList), [`items_of`](super::base::cow::items_of), [`expressions`](elements::ElementList).
    type list_in;
    /// The element segment of an argument, with the stored bytes of its expressions.
    ///
    /// ```text
    /// abbrev pub segment_in : {A : Type 0} → ElementSegment A → ElementItem (List ℕ)
    /// segment_in s = record { segment_mode = mode_of s.mode; elements = list_in s.elements }
    /// ```
    ///
    /// Definitions: [`ElementItem`](elements::ElementItem), [`mode_of`](given_elements::mode_of), [`list_in`](given_elements::list_in).
    type segment_in;
    /// The encoding of an element segment that is an argument: that of the settled segment.
    ///
    /// ```text
    /// abbrev pub given_encoding : {A : Type 0} → ElementSegment A → List ℕ
    /// given_encoding s = settled_encoding expression_encoding (settled (segment_in s))
    /// ```
    ///
    /// Definitions: [`settled_encoding`](elements::settled_encoding), [`expression_encoding`](super::code::expressions::expression_encoding), [`settled`](elements::settled), [`segment_in`](given_elements::segment_in).
    type given_encoding;
    /// If the record has the mode and the elements of the segment, with the same bytes of expressions, both have one encoding.
    ///
    /// ```text
    /// pub record HaveOneEncoding {A : Type 0} (s : ElementSegment A)
    ///     (given : ElementItem Stored) : Type 0 where
    ///   pub same : segment_in s ≡ stored_by given → given_encoding s ≡ element_encoding given
    /// ```
    ///
    /// Definitions: [`ElementItem`](elements::ElementItem), [`Stored`](constants::Stored), [`segment_in`](given_elements::segment_in), [`stored_by`](elements::stored_by), [`given_encoding`](given_elements::given_encoding), [`element_encoding`](elements::element_encoding).
    type HaveOneEncoding;
}

/// Global types and globals, their encodings and their formats. Core specification, Binary Format, Types, Global Types, and Modules, Global Section.
///
/// - Globals: [`GivenGlobal`](globals::GivenGlobal), [`GlobalItem`](globals::GlobalItem), [`global_item_encoding`](globals::global_item_encoding), [`IsGivenGlobalIn`](globals::IsGivenGlobalIn), [`IsGivenGlobal`](globals::IsGivenGlobal), [`IsGivenGlobalPadded`](globals::IsGivenGlobalPadded), [`global_item_of`](globals::global_item_of), [`global_from`](globals::global_from), [`global_item`](globals::global_item), [`global_items`](globals::global_items).
/// - Decoded globals: [`global_flags_view`](globals::global_flags_view), [`global_view`](globals::global_view), [`ContainsGlobals`](globals::ContainsGlobals), [`global_decoding`](globals::global_decoding).
///
/// [How to read definitions](super). The file is [`Globals.antt`](https://github.com/dolzhytik/dolzhytik/blob/main/crates/wasm_sections/specs/Globals.antt).
pub trait globals {
    /// The flags of a global type: mutable and shared. The core specification lacks the second, which the shared-everything threads proposal adds.
    ///
    /// ```text
    /// pub record GlobalFlags : Type 0 where
    ///   pub mutable : Bool
    ///   pub shared : Bool
    /// ```
    type GlobalFlags;
    /// The byte of the flags.
    ///
    /// ```text
    /// abbrev pub global_code : GlobalFlags → ℕ
    /// global_code f = where_set f.mutable 0x01 + where_set f.shared 0x02
    /// ```
    ///
    /// Definitions: [`GlobalFlags`](globals::GlobalFlags), [`where_set`](super::immediates::immediates::where_set).
    type global_code;
    /// The flags of a global type: mutable, shared.
    ///
    /// ```text
    /// abbrev pub global_flags : GlobalType → GlobalFlags
    /// global_flags g = record { mutable = g.mutable; shared = g.shared }
    /// ```
    ///
    /// Definitions: [`GlobalFlags`](globals::GlobalFlags).
    type global_flags;
    /// The encoding of a global type: its value type, and the byte of its flags.
    ///
    /// ```text
    /// abbrev pub global_encoding : GlobalType → List ℕ
    /// global_encoding g = val_encoding g.val_type ++ global_code (global_flags g) ∷ []
    /// ```
    ///
    /// Definitions: [`val_encoding`](super::base::types::val_encoding), [`global_code`](globals::global_code), [`global_flags`](globals::global_flags).
    type global_encoding;
    /// The minimal encoding of a global type in each grammar.
    ///
    /// ```text
    /// abbrev pub global_encoding_in : Grammar → GlobalType → List ℕ
    /// global_encoding_in w g = val_encoding_in w g.val_type
    ///     ++ global_code (global_flags g) ∷ []
    /// ```
    ///
    /// Definitions: [`Grammar`](super::base::numbers::Grammar), [`val_encoding_in`](super::base::types::val_encoding_in), [`global_code`](globals::global_code), [`global_flags`](globals::global_flags).
    type global_encoding_in;
    /// The global type is well-formed: an index in its value type is below 2^32.
    ///
    /// ```text
    /// abbrev pub IsGlobal : GlobalType → Type 0
    /// IsGlobal g = IsVal g.val_type
    /// ```
    ///
    /// Definitions: [`IsVal`](super::base::types::IsVal).
    type IsGlobal;
    /// The global type of this value type and these flags.
    ///
    /// ```text
    /// abbrev pub global_of : ValType × GlobalFlags → GlobalType
    /// global_of parts = record
    ///     { val_type = parts.0; mutable = parts.1.mutable; shared = parts.1.shared }
    /// ```
    ///
    /// Definitions: [`GlobalFlags`](globals::GlobalFlags).
    type global_of;
    /// A global type: a value type, and a byte of flags.
    ///
    /// ```text
    /// abbrev pub global_type : Format GlobalType
    /// global_type = mapped global_of (pair val_type (coded global_code))
    /// ```
    ///
    /// Definitions: [`Format`](super::base::formats::Format), [`mapped`](super::base::formats::mapped), [`global_of`](globals::global_of), [`pair`](super::base::formats::pair), [`val_type`](super::base::types::val_type), [`coded`](super::base::formats::coded), [`global_code`](globals::global_code).
    type global_type;
    /// A global as an argument: its type, and the expression of its initial value.
    ///
    /// ```text
    /// pub record GivenGlobal : Type 0 where
    ///   pub global_type : GlobalType
    ///   pub init : Stored
    /// ```
    ///
    /// Definitions: [`Stored`](constants::Stored).
    type GivenGlobal;
    /// A global: its type, and the instructions of its initial value.
    ///
    /// ```text
    /// pub record GlobalItem : Type 0 where
    ///   pub global_type : GlobalType
    ///   pub init : List Plain
    /// ```
    ///
    /// Definitions: [`Plain`](super::insn::plain::Plain).
    type GlobalItem;
    /// The encoding of a global that is an argument: its type, and the expression of its initial value.
    ///
    /// ```text
    /// abbrev pub global_item_encoding : GivenGlobal → List ℕ
    /// global_item_encoding g = global_encoding g.global_type
    ///     ++ expression_encoding g.init.bytes
    /// ```
    ///
    /// Definitions: [`GivenGlobal`](globals::GivenGlobal), [`global_encoding`](globals::global_encoding), [`expression_encoding`](super::code::expressions::expression_encoding).
    type global_item_encoding;
    /// The global type is well-formed, and the bytes of the expression encode its instructions in this mode.
    ///
    /// ```text
    /// pub record IsGivenGlobalIn (mode : Mode) (g : GivenGlobal) : Type 0 where
    ///   pub global_type : IsGlobal g.global_type
    ///   pub init : IsStoredIn mode g.init
    /// ```
    ///
    /// Definitions: [`Mode`](super::base::numbers::Mode), [`GivenGlobal`](globals::GivenGlobal), [`IsGlobal`](globals::IsGlobal), [`IsStoredIn`](constants::IsStoredIn).
    type IsGivenGlobalIn;
    /// The global is well-formed: its numbers are in range, and its expression is minimally encoded.
    ///
    /// ```text
    /// abbrev pub IsGivenGlobal : GivenGlobal → Type 0
    /// IsGivenGlobal g = IsGivenGlobalIn minimal g
    /// ```
    ///
    /// Definitions: [`GivenGlobal`](globals::GivenGlobal), [`IsGivenGlobalIn`](globals::IsGivenGlobalIn), [`minimal`](super::base::numbers::Mode).
    type IsGivenGlobal;
    /// The global is well-formed, and its expression may be padded.
    ///
    /// ```text
    /// abbrev pub IsGivenGlobalPadded : GivenGlobal → Type 0
    /// IsGivenGlobalPadded g = IsGivenGlobalIn padded g
    /// ```
    ///
    /// Definitions: [`GivenGlobal`](globals::GivenGlobal), [`IsGivenGlobalIn`](globals::IsGivenGlobalIn), [`padded`](super::base::numbers::Mode).
    type IsGivenGlobalPadded;
    /// The normal form: the same global, with the instructions of its expression.
    ///
    /// ```text
    /// abbrev pub global_item_of : GivenGlobal → GlobalItem
    /// global_item_of g = record { global_type = g.global_type; init = g.init.instructions }
    /// ```
    ///
    /// Definitions: [`GivenGlobal`](globals::GivenGlobal), [`GlobalItem`](globals::GlobalItem).
    type global_item_of;
    /// The global of this type and this initial value.
    ///
    /// ```text
    /// abbrev pub global_from : GlobalType × List Plain → GlobalItem
    /// global_from parts = record { global_type = parts.0; init = parts.1 }
    /// ```
    ///
    /// Definitions: [`Plain`](super::insn::plain::Plain), [`GlobalItem`](globals::GlobalItem).
    type global_from;
    /// A global: a global type and an expression.
    ///
    /// ```text
    /// abbrev pub global_item : Format GlobalItem
    /// global_item = mapped global_from (pair global_type expression)
    /// ```
    ///
    /// Definitions: [`Format`](super::base::formats::Format), [`GlobalItem`](globals::GlobalItem), [`mapped`](super::base::formats::mapped), [`global_from`](globals::global_from), [`pair`](super::base::formats::pair), [`global_type`](globals::global_type), [`expression`](super::code::expressions::expression).
    type global_item;
    /// The kind of globals.
    ///
    /// ```text
    /// abbrev pub global_items : Kind GivenGlobal GlobalItem
    /// global_items = record { encoding = global_item_encoding; IsWellFormed = IsGivenGlobal;
    ///     IsWellFormedPadded = IsGivenGlobalPadded; normal_form = global_item_of;
    ///     format = global_item }
    /// ```
    ///
    /// Definitions: [`Kind`](super::base::entries::Kind), [`GivenGlobal`](globals::GivenGlobal), [`GlobalItem`](globals::GlobalItem), [`global_item_encoding`](globals::global_item_encoding), [`IsGivenGlobal`](globals::IsGivenGlobal), [`IsGivenGlobalPadded`](globals::IsGivenGlobalPadded), [`global_item_of`](globals::global_item_of), [`global_item`](globals::global_item).
    type global_items;
    /// The view of decoded flags.
    ///
    /// ```text
    /// abbrev pub global_flags_view : ReadFlags → GlobalFlags
    /// global_flags_view f = record { mutable = f.mutable; shared = f.shared }
    /// ```
    ///
    /// Definitions: [`GlobalFlags`](globals::GlobalFlags).
    type global_flags_view;
    /// The view of a decoded global.
    ///
    /// ```text
    /// abbrev pub global_view : {A : Type 0} → ReadGlobal A → GlobalItem
    /// global_view g = record { global_type = g.global_type; init = instructions_view g.init }
    /// ```
    ///
    /// Definitions: [`GlobalItem`](globals::GlobalItem), [`instructions_view`](constants::instructions_view).
    type global_view;
    /// The pieces encode these globals.
    ///
    /// ```text
    /// abbrev pub ContainsGlobals : List (List ℕ) → List GlobalItem → Type 0
    /// ContainsGlobals = ContainsItems global_items
    /// ```
    ///
    /// Definitions: [`GlobalItem`](globals::GlobalItem), [`ContainsItems`](super::base::entries::ContainsItems), [`global_items`](globals::global_items).
    type ContainsGlobals;
    /// The global section that decodes to these globals.
    ///
    /// ```text
    /// abbrev pub global_decoding : List GlobalItem → SectionDecoding
    /// global_decoding globals = decoding_of (number_of ids.Global) (vec global_item) globals
    /// ```
    ///
    /// Definitions: [`GlobalItem`](globals::GlobalItem), [`SectionDecoding`](super::base::modules::SectionDecoding), [`decoding_of`](super::base::modules::decoding_of), [`number_of`](super::base::section_id::number_of), [`vec`](super::base::formats::vec), [`global_item`](globals::global_item).
    type global_decoding;
}

/// Imports and groups of imports, their encodings and their format. Core specification, Binary Format, Modules, Import Section.
///
/// - Imported entities: [`entity_encoding`](imports::entity_encoding), [`entity_encoding_in`](imports::entity_encoding_in), [`IsEntity`](imports::IsEntity), [`entity_tags`](imports::entity_tags), [`entity`](imports::entity).
/// - Imports: [`Imported`](imports::Imported), [`ImportItem`](imports::ImportItem), [`named_encoding`](imports::named_encoding), [`imported_encoding`](imports::imported_encoding), [`import_encoding`](imports::import_encoding), [`IsEncodableImported`](imports::IsEncodableImported), [`IsEncodableImport`](imports::IsEncodableImport), [`IsNamed`](imports::IsNamed), [`IsImported`](imports::IsImported), [`IsImport`](imports::IsImport).
/// - Arguments of calls: [`import_item`](imports::import_item), [`compact_item`](imports::compact_item), [`imports_item`](imports::imports_item).
/// - Format: [`alike_of`](imports::alike_of), [`group_tags`](imports::group_tags), [`group`](imports::group), [`named_entity`](imports::named_entity), [`after_module`](imports::after_module), [`import_of`](imports::import_of), [`import_format`](imports::import_format), [`import_items`](imports::import_items), [`ContainsImports`](imports::ContainsImports), [`import_decoding`](imports::import_decoding).
///
/// [How to read definitions](super). The file is [`Imports.antt`](https://github.com/dolzhytik/dolzhytik/blob/main/crates/wasm_sections/specs/Imports.antt).
pub trait imports {
    /// The encoding of an entity: a byte for its kind, and its type. The core specification lacks `FunctionExact`, which the custom descriptors proposal adds.
    ///
    /// ```text
    /// abbrev pub entity_encoding : EntityType → List ℕ
    /// entity_encoding (Function index) = 0x00 ∷ unsigned_encoding index
    /// entity_encoding (Table ty) = 0x01 ∷ table_encoding ty
    /// entity_encoding (Memory ty) = 0x02 ∷ memory_encoding ty
    /// entity_encoding (Global ty) = 0x03 ∷ global_encoding ty
    /// entity_encoding (Tag ty) = 0x04 ∷ tag_encoding ty
    /// entity_encoding (FunctionExact index) = 0x20 ∷ unsigned_encoding index
    /// ```
    ///
    /// Definitions: [`unsigned_encoding`](super::base::numbers::unsigned_encoding), [`table_encoding`](tables::table_encoding), [`memory_encoding`](memories::memory_encoding), [`global_encoding`](globals::global_encoding), [`tag_encoding`](tags::tag_encoding).
    type entity_encoding;
    /// The minimal encoding of an entity in each grammar.
    ///
    /// ```text
    /// abbrev pub entity_encoding_in : Grammar → EntityType → List ℕ
    /// entity_encoding_in w (Function index) = 0x00 ∷ unsigned_encoding index
    /// entity_encoding_in w (Table ty) = 0x01 ∷ table_encoding_in w ty
    /// entity_encoding_in w (Memory ty) = 0x02 ∷ memory_encoding ty
    /// entity_encoding_in w (Global ty) = 0x03 ∷ global_encoding_in w ty
    /// entity_encoding_in w (Tag ty) = 0x04 ∷ tag_encoding ty
    /// entity_encoding_in w (FunctionExact index) = 0x20 ∷ unsigned_encoding index
    /// ```
    ///
    /// Definitions: [`Grammar`](super::base::numbers::Grammar), [`unsigned_encoding`](super::base::numbers::unsigned_encoding), [`table_encoding_in`](tables::table_encoding_in), [`memory_encoding`](memories::memory_encoding), [`global_encoding_in`](globals::global_encoding_in), [`tag_encoding`](tags::tag_encoding).
    type entity_encoding_in;
    /// The numbers of the entity are in range.
    ///
    /// ```text
    /// abbrev pub IsEntity : EntityType → Type 0
    /// IsEntity (Function index) = index < 2 ^ 32
    /// IsEntity (Table ty) = IsTable ty
    /// IsEntity (Memory ty) = IsMemory ty
    /// IsEntity (Global ty) = IsGlobal ty
    /// IsEntity (Tag ty) = IsTag ty
    /// IsEntity (FunctionExact index) = index < 2 ^ 32
    /// ```
    ///
    /// Definitions: [`IsTable`](tables::IsTable), [`IsMemory`](memories::IsMemory), [`IsGlobal`](globals::IsGlobal), [`IsTag`](tags::IsTag).
    type IsEntity;
    /// The formats of an entity by the byte of its kind.
    ///
    /// ```text
    /// abbrev pub entity_tags : List (ℕ × Format EntityType)
    /// entity_tags =
    ///     (0x00, mapped Function u32) ∷ (0x01, mapped Table table_type)
    ///         ∷ (0x02, mapped Memory memory_type) ∷ (0x03, mapped Global global_type)
    ///         ∷ (0x04, mapped Tag tag_type)
    ///     ∷ (0x20, mapped FunctionExact u32)
    ///     ∷ []
    /// ```
    ///
    /// Definitions: [`Format`](super::base::formats::Format), [`mapped`](super::base::formats::mapped), [`u32`](super::base::formats::u32), [`table_type`](tables::table_type), [`memory_type`](memories::memory_type), [`global_type`](globals::global_type), [`tag_type`](tags::tag_type).
    type entity_tags;
    /// An imported entity: a byte for its kind, and its type.
    ///
    /// ```text
    /// abbrev pub entity : Format EntityType
    /// entity = tagged byte (choice entity_tags (λ b. impossible))
    /// ```
    ///
    /// Definitions: [`Format`](super::base::formats::Format), [`tagged`](super::base::formats::tagged), [`byte`](super::base::formats::byte), [`choice`](super::base::formats::choice), [`entity_tags`](imports::entity_tags), [`impossible`](super::base::formats::impossible).
    type entity;
    /// The imports from a module: one entity, a group of names with an entity each, or a group of names of one entity. The core specification lacks groups, which the compact import section proposal adds.
    ///
    /// ```text
    /// pub data Imported : Type 0 where
    ///   single : List ℕ → EntityType → Imported
    ///   named : List (List ℕ × EntityType) → Imported
    ///   alike : EntityType → List (List ℕ) → Imported
    /// ```
    type Imported;
    /// An entry of the import section: the module name, and the imports from that module.
    ///
    /// ```text
    /// pub record ImportItem : Type 0 where
    ///   pub module_name : List ℕ
    ///   pub imported : Imported
    /// ```
    ///
    /// Definitions: [`Imported`](imports::Imported).
    type ImportItem;
    /// The encoding of a group's item: its name and its entity.
    ///
    /// ```text
    /// abbrev pub named_encoding : List ℕ × EntityType → List ℕ
    /// named_encoding i = size_prefixed_encoding i.0 ++ entity_encoding i.1
    /// ```
    ///
    /// Definitions: [`size_prefixed_encoding`](super::base::encodings::size_prefixed_encoding), [`entity_encoding`](imports::entity_encoding).
    type named_encoding;
    /// The encoding of the imports from a module. A group begins with 00, and with a byte for its kind that no entity has.
    ///
    /// ```text
    /// abbrev pub imported_encoding : Imported → List ℕ
    /// imported_encoding (single n ty) = size_prefixed_encoding n ++ entity_encoding ty
    /// imported_encoding (named items) = 0x00 ∷ 0x7F ∷ vec_encoding named_encoding items
    /// imported_encoding (alike ty names) = 0x00 ∷ 0x7E
    ///     ∷ (entity_encoding ty ++ vec_encoding size_prefixed_encoding names)
    /// ```
    ///
    /// Definitions: [`Imported`](imports::Imported), [`single`](imports::Imported), [`size_prefixed_encoding`](super::base::encodings::size_prefixed_encoding), [`entity_encoding`](imports::entity_encoding), [`named`](imports::Imported), [`vec_encoding`](super::base::encodings::vec_encoding), [`named_encoding`](imports::named_encoding), [`alike`](imports::Imported).
    type imported_encoding;
    /// The encoding of an entry: the module name, and the imports from that module.
    ///
    /// ```text
    /// abbrev pub import_encoding : ImportItem → List ℕ
    /// import_encoding i = size_prefixed_encoding i.module_name ++ imported_encoding i.imported
    /// ```
    ///
    /// Definitions: [`ImportItem`](imports::ImportItem), [`size_prefixed_encoding`](super::base::encodings::size_prefixed_encoding), [`imported_encoding`](imports::imported_encoding).
    type import_encoding;
    /// The lengths of item names are at most 2^32 - 1, and so is the number of items in a group.
    ///
    /// ```text
    /// abbrev pub IsEncodableImported : Imported → Type 0
    /// IsEncodableImported (single n ty) = HasEncodableSize n
    /// IsEncodableImported (named items) = IsEncodableVec (λ i. HasEncodableSize i.0) items
    /// IsEncodableImported (alike ty names) = IsEncodableVec HasEncodableSize names
    /// ```
    ///
    /// Definitions: [`Imported`](imports::Imported), [`single`](imports::Imported), [`HasEncodableSize`](super::base::encodings::HasEncodableSize), [`named`](imports::Imported), [`IsEncodableVec`](super::base::encodings::IsEncodableVec), [`alike`](imports::Imported).
    type IsEncodableImported;
    /// The lengths of all names of the entry are at most 2^32 - 1, and so is the number of items in a group.
    ///
    /// ```text
    /// abbrev pub IsEncodableImport : ImportItem → Type 0
    /// IsEncodableImport i = HasEncodableSize i.module_name × IsEncodableImported i.imported
    /// ```
    ///
    /// Definitions: [`ImportItem`](imports::ImportItem), [`HasEncodableSize`](super::base::encodings::HasEncodableSize), [`IsEncodableImported`](imports::IsEncodableImported).
    type IsEncodableImport;
    /// The name is UTF-8 of at most 2^32 - 1 bytes, and the numbers of the entity are in range.
    ///
    /// ```text
    /// abbrev pub IsNamed : List ℕ × EntityType → Type 0
    /// IsNamed i = IsEncodableName i.0 × IsEntity i.1
    /// ```
    ///
    /// Definitions: [`IsEncodableName`](super::base::laws::IsEncodableName), [`IsEntity`](imports::IsEntity).
    type IsNamed;
    /// Item names are UTF-8, numbers are in range, and the list of a group fits.
    ///
    /// ```text
    /// abbrev pub IsImported : Imported → Type 0
    /// IsImported (single n ty) = IsUtf8 n × IsEntity ty
    /// IsImported (named items) = IsEncodableVec IsNamed items
    /// IsImported (alike ty names) = IsEntity ty × IsEncodableVec IsEncodableName names
    /// ```
    ///
    /// Definitions: [`Imported`](imports::Imported), [`single`](imports::Imported), [`IsEntity`](imports::IsEntity), [`named`](imports::Imported), [`IsEncodableVec`](super::base::encodings::IsEncodableVec), [`IsNamed`](imports::IsNamed), [`alike`](imports::Imported), [`IsEncodableName`](super::base::laws::IsEncodableName).
    type IsImported;
    /// The entry is well-formed: names are UTF-8, numbers are in range, and the list of a group fits.
    ///
    /// ```text
    /// abbrev pub IsImport : ImportItem → Type 0
    /// IsImport i = IsUtf8 i.module_name × IsImported i.imported
    /// ```
    ///
    /// Definitions: [`ImportItem`](imports::ImportItem), [`IsImported`](imports::IsImported).
    type IsImport;
    /// The entry of an import of one entity.
    ///
    /// ```text
    /// abbrev pub import_item : Import → ImportItem
    /// import_item i = record { module_name = i.«module».now;
    ///     imported = single i.name.now i.ty }
    /// ```
    ///
    /// Definitions: [`ImportItem`](imports::ImportItem), [`single`](imports::Imported).
    type import_item;
    /// The name and the entity of a group's item.
    ///
    /// ```text
    /// abbrev pub compact_item : ImportCompact → List ℕ × EntityType
    /// compact_item i = (i.name.now, i.ty)
    /// ```
    type compact_item;
    /// The entry of an argument, whose lists are borrowed or owned.
    ///
    /// ```text
    /// abbrev pub imports_item : {A : Type 0} → Imports A → ImportItem
    /// imports_item (groups.Single i) = import_item i
    /// imports_item (groups.Compact1 m items) = record
    ///     { module_name = m.now; imported = named (map compact_item (items_of items)) }
    /// imports_item (groups.Compact2 m ty names) = record
    ///     { module_name = m.now; imported = alike ty (map (λ n. n.now) (items_of names)) }
    /// ```
    ///
    /// Definitions: [`ImportItem`](imports::ImportItem), [`import_item`](imports::import_item), [`named`](imports::Imported), [`compact_item`](imports::compact_item), [`items_of`](super::base::cow::items_of), [`alike`](imports::Imported).
    type imports_item;
    /// The group of these names, which all import this entity.
    ///
    /// ```text
    /// abbrev pub alike_of : EntityType × List (List ℕ) → Imported
    /// alike_of parts = alike parts.0 parts.1
    /// ```
    ///
    /// Definitions: [`Imported`](imports::Imported), [`alike`](imports::Imported).
    type alike_of;
    /// The formats of a group by the byte of its kind: names with an entity each, or one entity and its names.
    ///
    /// ```text
    /// abbrev pub group_tags : List (ℕ × Format Imported)
    /// group_tags = (0x7F, mapped named (vec (pair name entity)))
    ///     ∷ (0x7E, mapped alike_of (pair entity (vec name))) ∷ []
    /// ```
    ///
    /// Definitions: [`Format`](super::base::formats::Format), [`Imported`](imports::Imported), [`mapped`](super::base::formats::mapped), [`named`](imports::Imported), [`vec`](super::base::formats::vec), [`pair`](super::base::formats::pair), [`name`](super::base::formats::name), [`entity`](imports::entity), [`alike_of`](imports::alike_of).
    type group_tags;
    /// A group: a byte for its kind, then its names and entities.
    ///
    /// ```text
    /// abbrev pub group : Format Imported
    /// group = tagged byte (choice group_tags (λ b. impossible))
    /// ```
    ///
    /// Definitions: [`Format`](super::base::formats::Format), [`Imported`](imports::Imported), [`tagged`](super::base::formats::tagged), [`byte`](super::base::formats::byte), [`choice`](super::base::formats::choice), [`group_tags`](imports::group_tags), [`impossible`](super::base::formats::impossible).
    type group;
    /// The name of an item, and its entity.
    ///
    /// ```text
    /// abbrev pub named_entity : Format Imported
    /// named_entity = tagged name (λ item. mapped (single item) entity)
    /// ```
    ///
    /// Definitions: [`Format`](super::base::formats::Format), [`Imported`](imports::Imported), [`tagged`](super::base::formats::tagged), [`name`](super::base::formats::name), [`mapped`](super::base::formats::mapped), [`single`](imports::Imported), [`entity`](imports::entity).
    type named_entity;
    /// The bytes after the module name: an item, or the byte 00 and a group.
    ///
    /// ```text
    /// abbrev pub after_module : Format Imported
    /// after_module = one_of named_entity (prefixed (0x00 ∷ []) group)
    /// ```
    ///
    /// Definitions: [`Format`](super::base::formats::Format), [`Imported`](imports::Imported), [`one_of`](super::base::formats::one_of), [`named_entity`](imports::named_entity), [`prefixed`](super::base::formats::prefixed), [`group`](imports::group).
    type after_module;
    /// The entry of this module name and these imports.
    ///
    /// ```text
    /// abbrev pub import_of : List ℕ × Imported → ImportItem
    /// import_of parts = record { module_name = parts.0; imported = parts.1 }
    /// ```
    ///
    /// Definitions: [`Imported`](imports::Imported), [`ImportItem`](imports::ImportItem).
    type import_of;
    /// An entry of the import section: the module name, then an item name and its entity, or a group.
    ///
    /// ```text
    /// abbrev pub import_format : Format ImportItem
    /// import_format = mapped import_of (pair name after_module)
    /// ```
    ///
    /// Definitions: [`Format`](super::base::formats::Format), [`ImportItem`](imports::ImportItem), [`mapped`](super::base::formats::mapped), [`import_of`](imports::import_of), [`pair`](super::base::formats::pair), [`name`](super::base::formats::name), [`after_module`](imports::after_module).
    type import_format;
    /// The kind of the entries of an import section.
    ///
    /// ```text
    /// abbrev pub import_items : Kind ImportItem ImportItem
    /// import_items = record { encoding = import_encoding; IsWellFormed = IsImport;
    ///     IsWellFormedPadded = IsImport; normal_form = λ import. import;
    ///     format = import_format }
    /// ```
    ///
    /// Definitions: [`Kind`](super::base::entries::Kind), [`ImportItem`](imports::ImportItem), [`import_encoding`](imports::import_encoding), [`IsImport`](imports::IsImport), [`import_format`](imports::import_format).
    type import_items;
    /// The pieces encode these entries.
    ///
    /// ```text
    /// abbrev pub ContainsImports : List (List ℕ) → List ImportItem → Type 0
    /// ContainsImports = ContainsItems import_items
    /// ```
    ///
    /// Definitions: [`ImportItem`](imports::ImportItem), [`ContainsItems`](super::base::entries::ContainsItems), [`import_items`](imports::import_items).
    type ContainsImports;
    /// The import section that decodes to these entries.
    ///
    /// ```text
    /// abbrev pub import_decoding : List ImportItem → SectionDecoding
    /// import_decoding imports = decoding_of (number_of ids.Import) (vec import_format) imports
    /// ```
    ///
    /// Definitions: [`ImportItem`](imports::ImportItem), [`SectionDecoding`](super::base::modules::SectionDecoding), [`decoding_of`](super::base::modules::decoding_of), [`number_of`](super::base::section_id::number_of), [`vec`](super::base::formats::vec), [`import_format`](imports::import_format).
    type import_decoding;
}

/// Memory types, their encoding and their format. Core specification, Binary Format, Types, Memory Types, and Modules, Memory Section.
///
/// [How to read definitions](super). The file is [`Memories.antt`](https://github.com/dolzhytik/dolzhytik/blob/main/crates/wasm_sections/specs/Memories.antt).
pub trait memories {
    /// The flags of a memory type.
    ///
    /// ```text
    /// abbrev pub memory_flags : MemoryType → Flags
    /// memory_flags m = record { has_maximum = is_given m.maximum; shared = m.shared;
    ///     is_64 = m.memory64; has_page_size = is_given m.page_size_log2 }
    /// ```
    ///
    /// Definitions: [`Flags`](flags::Flags), [`is_given`](super::base::formats::is_given).
    type memory_flags;
    /// The encoding of a memory type: flags, the minimum, and the maximum and the exponent of the page size if they are given.
    ///
    /// ```text
    /// abbrev pub memory_encoding : MemoryType → List ℕ
    /// memory_encoding m = flags_code (memory_flags m)
    ///     ∷ (unsigned_encoding m.minimum
    ///     ++ (optional_encoding unsigned_encoding m.maximum
    ///         ++ optional_encoding unsigned_encoding m.page_size_log2))
    /// ```
    ///
    /// Definitions: [`flags_code`](flags::flags_code), [`memory_flags`](memories::memory_flags), [`unsigned_encoding`](super::base::numbers::unsigned_encoding), [`optional_encoding`](super::base::encodings::optional_encoding).
    type memory_encoding;
    /// The memory type is well-formed: its numbers are in range.
    ///
    /// ```text
    /// pub record IsMemory (m : MemoryType) : Type 0 where
    ///   pub minimum : m.minimum < 2 ^ 64
    ///   pub maximum : IfSome m.maximum (λ n. n < 2 ^ 64)
    ///   pub page_size : IfSome m.page_size_log2 (λ n. n < 2 ^ 32)
    /// ```
    type IsMemory;
    /// The memory type of these flags, a minimum, an optional maximum and an optional exponent of the page size.
    ///
    /// ```text
    /// abbrev pub memory_of : Flags → ℕ × (Option ℕ × Option ℕ) → MemoryType
    /// memory_of f parts = record
    ///     { minimum = parts.0; maximum = parts.1.0; memory64 = f.is_64; shared = f.shared;
    ///     page_size_log2 = parts.1.1 }
    /// ```
    ///
    /// Definitions: [`Flags`](flags::Flags).
    type memory_of;
    /// The bytes after these flags: the minimum, and the maximum and the exponent of the page size if the flags say so.
    ///
    /// ```text
    /// abbrev pub after_memory_flags : Flags → Format MemoryType
    /// after_memory_flags f = mapped (memory_of f)
    ///     (pair u64 (pair (optional f.has_maximum u64) (optional f.has_page_size u32)))
    /// ```
    ///
    /// Definitions: [`Flags`](flags::Flags), [`Format`](super::base::formats::Format), [`mapped`](super::base::formats::mapped), [`memory_of`](memories::memory_of), [`pair`](super::base::formats::pair), [`u64`](super::base::formats::u64), [`optional`](super::base::formats::optional), [`u32`](super::base::formats::u32).
    type after_memory_flags;
    /// A memory type: flags, the minimum, and the maximum and the exponent of the page size if the flags say so.
    ///
    /// ```text
    /// abbrev pub memory_type : Format MemoryType
    /// memory_type = tagged flags after_memory_flags
    /// ```
    ///
    /// Definitions: [`Format`](super::base::formats::Format), [`tagged`](super::base::formats::tagged), [`flags`](flags::flags), [`after_memory_flags`](memories::after_memory_flags).
    type memory_type;
    /// The kind of memory types.
    ///
    /// ```text
    /// abbrev pub memory_items : Kind MemoryType MemoryType
    /// memory_items = record { encoding = memory_encoding; IsWellFormed = IsMemory;
    ///     IsWellFormedPadded = IsMemory; normal_form = λ memory. memory;
    ///     format = memory_type }
    /// ```
    ///
    /// Definitions: [`Kind`](super::base::entries::Kind), [`memory_encoding`](memories::memory_encoding), [`IsMemory`](memories::IsMemory), [`memory_type`](memories::memory_type).
    type memory_items;
    /// The exponent of 2 of the page size: 16 by default.
    ///
    /// ```text
    /// abbrev pub page_exponent : Option ℕ → ℕ
    /// page_exponent None = 16
    /// page_exponent (Some n) = n
    /// ```
    type page_exponent;
    /// The pieces encode these memory types.
    ///
    /// ```text
    /// abbrev pub ContainsMemories : List (List ℕ) → List MemoryType → Type 0
    /// ContainsMemories = ContainsItems memory_items
    /// ```
    ///
    /// Definitions: [`ContainsItems`](super::base::entries::ContainsItems), [`memory_items`](memories::memory_items).
    type ContainsMemories;
    /// The memory section that decodes to these memory types.
    ///
    /// ```text
    /// abbrev pub memory_decoding : List MemoryType → SectionDecoding
    /// memory_decoding memories = decoding_of (number_of ids.Memory) (vec memory_type) memories
    /// ```
    ///
    /// Definitions: [`SectionDecoding`](super::base::modules::SectionDecoding), [`decoding_of`](super::base::modules::decoding_of), [`number_of`](super::base::section_id::number_of), [`vec`](super::base::formats::vec), [`memory_type`](memories::memory_type).
    type memory_decoding;
}

/// Table types and tables, their encodings and their formats. Core specification, Binary Format, Types, Table Types, and Modules, Table Section.
///
/// - Tables: [`GivenTable`](tables::GivenTable), [`TableItem`](tables::TableItem), [`before_init`](tables::before_init), [`table_init_encoding`](tables::table_init_encoding), [`table_item_encoding`](tables::table_item_encoding), [`IsGivenTableIn`](tables::IsGivenTableIn), [`IsGivenTable`](tables::IsGivenTable), [`IsGivenTablePadded`](tables::IsGivenTablePadded), [`init_of`](tables::init_of), [`table_item_of`](tables::table_item_of), [`without_init`](tables::without_init), [`with_init`](tables::with_init), [`table_item`](tables::table_item), [`table_items`](tables::table_items).
/// - Decoded tables: [`limits_view`](tables::limits_view), [`table_view`](tables::table_view), [`ContainsTables`](tables::ContainsTables), [`table_decoding`](tables::table_decoding).
///
/// [How to read definitions](super). The file is [`Tables.antt`](https://github.com/dolzhytik/dolzhytik/blob/main/crates/wasm_sections/specs/Tables.antt).
pub trait tables {
    /// The flags of a table type, which has no page size.
    ///
    /// ```text
    /// abbrev pub table_flags : TableType → Flags
    /// table_flags t = record { has_maximum = is_given t.maximum; shared = t.shared;
    ///     is_64 = t.table64; has_page_size = false }
    /// ```
    ///
    /// Definitions: [`Flags`](flags::Flags), [`is_given`](super::base::formats::is_given).
    type table_flags;
    /// The encoding of a table type: the type of its elements, flags, the minimum, and the maximum if it is given.
    ///
    /// ```text
    /// abbrev pub table_encoding : TableType → List ℕ
    /// table_encoding t = ref_encoding t.element_type
    ///     ++ (flags_code (table_flags t)
    ///     ∷ (unsigned_encoding t.minimum ++ optional_encoding unsigned_encoding t.maximum))
    /// ```
    ///
    /// Definitions: [`ref_encoding`](super::base::types::ref_encoding), [`flags_code`](flags::flags_code), [`table_flags`](tables::table_flags), [`unsigned_encoding`](super::base::numbers::unsigned_encoding), [`optional_encoding`](super::base::encodings::optional_encoding).
    type table_encoding;
    /// The minimal encoding of a table type in each grammar.
    ///
    /// ```text
    /// abbrev pub table_encoding_in : Grammar → TableType → List ℕ
    /// table_encoding_in w t = ref_encoding_in w t.element_type
    ///     ++ (flags_code (table_flags t)
    ///     ∷ (unsigned_encoding t.minimum ++ optional_encoding unsigned_encoding t.maximum))
    /// ```
    ///
    /// Definitions: [`Grammar`](super::base::numbers::Grammar), [`ref_encoding_in`](super::base::types::ref_encoding_in), [`flags_code`](flags::flags_code), [`table_flags`](tables::table_flags), [`unsigned_encoding`](super::base::numbers::unsigned_encoding), [`optional_encoding`](super::base::encodings::optional_encoding).
    type table_encoding_in;
    /// The table type is well-formed: its numbers are in range.
    ///
    /// ```text
    /// pub record IsTable (t : TableType) : Type 0 where
    ///   pub element_type : IsRef t.element_type
    ///   pub minimum : t.minimum < 2 ^ 64
    ///   pub maximum : IfSome t.maximum (λ n. n < 2 ^ 64)
    /// ```
    ///
    /// Definitions: [`IsRef`](super::base::types::IsRef).
    type IsTable;
    /// The limits of a table: its type without the type of its elements.
    ///
    /// ```text
    /// pub record Limits : Type 0 where
    ///   pub table64 : Bool
    ///   pub shared : Bool
    ///   pub minimum : ℕ
    ///   pub maximum : Option ℕ
    /// ```
    type Limits;
    /// The limits of these flags, a minimum and an optional maximum.
    ///
    /// ```text
    /// abbrev pub limits_of : Flags → ℕ × Option ℕ → Limits
    /// limits_of f parts = record
    ///     { table64 = f.is_64; shared = f.shared; minimum = parts.0; maximum = parts.1 }
    /// ```
    ///
    /// Definitions: [`Flags`](flags::Flags), [`Limits`](tables::Limits).
    type limits_of;
    /// The bytes after these flags: the minimum, and the maximum if the flags say so. A flag for the page size does not decode.
    ///
    /// ```text
    /// abbrev pub after_limits_flags : Flags → Format Limits
    /// after_limits_flags f = when f.has_page_size impossible
    ///     (mapped (limits_of f) (pair u64 (optional f.has_maximum u64)))
    /// ```
    ///
    /// Definitions: [`Flags`](flags::Flags), [`Format`](super::base::formats::Format), [`Limits`](tables::Limits), [`when`](super::base::formats::when), [`impossible`](super::base::formats::impossible), [`mapped`](super::base::formats::mapped), [`limits_of`](tables::limits_of), [`pair`](super::base::formats::pair), [`u64`](super::base::formats::u64), [`optional`](super::base::formats::optional).
    type after_limits_flags;
    /// Limits: flags, the minimum, and the maximum if the flags say so.
    ///
    /// ```text
    /// abbrev pub limits : Format Limits
    /// limits = tagged flags after_limits_flags
    /// ```
    ///
    /// Definitions: [`Format`](super::base::formats::Format), [`Limits`](tables::Limits), [`tagged`](super::base::formats::tagged), [`flags`](flags::flags), [`after_limits_flags`](tables::after_limits_flags).
    type limits;
    /// The table type of this element type and these limits.
    ///
    /// ```text
    /// abbrev pub table_of : RefType × Limits → TableType
    /// table_of parts = record { element_type = parts.0; table64 = parts.1.table64;
    ///     minimum = parts.1.minimum; maximum = parts.1.maximum; shared = parts.1.shared }
    /// ```
    ///
    /// Definitions: [`Limits`](tables::Limits).
    type table_of;
    /// A table type: the type of its elements, and limits.
    ///
    /// ```text
    /// abbrev pub table_type : Format TableType
    /// table_type = mapped table_of (pair ref_type limits)
    /// ```
    ///
    /// Definitions: [`Format`](super::base::formats::Format), [`mapped`](super::base::formats::mapped), [`table_of`](tables::table_of), [`pair`](super::base::formats::pair), [`ref_type`](super::base::types::ref_type), [`limits`](tables::limits).
    type table_type;
    /// The type of a table index.
    ///
    /// ```text
    /// abbrev pub index_type_of : (table64 : Bool) → ValType
    /// index_type_of true = I64
    /// index_type_of false = I32
    /// ```
    type index_type_of;
    /// A table as an argument: its type, and the expression of its elements' initial value, if any.
    ///
    /// ```text
    /// pub record GivenTable : Type 0 where
    ///   pub table_type : TableType
    ///   pub init : Option Stored
    /// ```
    ///
    /// Definitions: [`Stored`](constants::Stored).
    type GivenTable;
    /// A table: its type, and the instructions of its elements' initial value, if any.
    ///
    /// ```text
    /// pub record TableItem : Type 0 where
    ///   pub table_type : TableType
    ///   pub init : Option (List Plain)
    /// ```
    ///
    /// Definitions: [`Plain`](super::insn::plain::Plain).
    type TableItem;
    /// The bytes before a table with an initial value. No table type begins with them.
    ///
    /// ```text
    /// abbrev pub before_init : List ℕ
    /// before_init = 0x40 ∷ 0x00 ∷ []
    /// ```
    type before_init;
    /// The encoding of a table: its type; or with an initial value, 40 00, its type and the expression.
    ///
    /// ```text
    /// abbrev pub table_init_encoding : TableType → Option Stored → List ℕ
    /// table_init_encoding t None = table_encoding t
    /// table_init_encoding t (Some e) = before_init
    ///     ++ (table_encoding t ++ expression_encoding e.bytes)
    /// ```
    ///
    /// Definitions: [`Stored`](constants::Stored), [`table_encoding`](tables::table_encoding), [`before_init`](tables::before_init), [`expression_encoding`](super::code::expressions::expression_encoding).
    type table_init_encoding;
    /// The encoding of a table that is an argument.
    ///
    /// ```text
    /// abbrev pub table_item_encoding : GivenTable → List ℕ
    /// table_item_encoding t = table_init_encoding t.table_type t.init
    /// ```
    ///
    /// Definitions: [`GivenTable`](tables::GivenTable), [`table_init_encoding`](tables::table_init_encoding).
    type table_item_encoding;
    /// The table type is well-formed, and the bytes of the expression, if any, encode its instructions in this mode.
    ///
    /// ```text
    /// pub record IsGivenTableIn (mode : Mode) (t : GivenTable) : Type 0 where
    ///   pub table_type : IsTable t.table_type
    ///   pub init : IfSome t.init (IsStoredIn mode)
    /// ```
    ///
    /// Definitions: [`Mode`](super::base::numbers::Mode), [`GivenTable`](tables::GivenTable), [`IsTable`](tables::IsTable), [`IsStoredIn`](constants::IsStoredIn).
    type IsGivenTableIn;
    /// The table is well-formed: its numbers are in range, and its expression is minimally encoded.
    ///
    /// ```text
    /// abbrev pub IsGivenTable : GivenTable → Type 0
    /// IsGivenTable t = IsGivenTableIn minimal t
    /// ```
    ///
    /// Definitions: [`GivenTable`](tables::GivenTable), [`IsGivenTableIn`](tables::IsGivenTableIn), [`minimal`](super::base::numbers::Mode).
    type IsGivenTable;
    /// The table is well-formed, and its expression may be padded.
    ///
    /// ```text
    /// abbrev pub IsGivenTablePadded : GivenTable → Type 0
    /// IsGivenTablePadded t = IsGivenTableIn padded t
    /// ```
    ///
    /// Definitions: [`GivenTable`](tables::GivenTable), [`IsGivenTableIn`](tables::IsGivenTableIn), [`padded`](super::base::numbers::Mode).
    type IsGivenTablePadded;
    /// The instructions of an optional initial value.
    ///
    /// ```text
    /// abbrev pub init_of : Option Stored → Option (List Plain)
    /// init_of None = None
    /// init_of (Some e) = Some e.instructions
    /// ```
    ///
    /// Definitions: [`Stored`](constants::Stored), [`Plain`](super::insn::plain::Plain).
    type init_of;
    /// The normal form: the same table, with the instructions of its expression, if any.
    ///
    /// ```text
    /// abbrev pub table_item_of : GivenTable → TableItem
    /// table_item_of t = record { table_type = t.table_type; init = init_of t.init }
    /// ```
    ///
    /// Definitions: [`GivenTable`](tables::GivenTable), [`TableItem`](tables::TableItem), [`init_of`](tables::init_of).
    type table_item_of;
    /// The table of this type without an initial value.
    ///
    /// ```text
    /// abbrev pub without_init : TableType → TableItem
    /// without_init t = record { table_type = t; init = None }
    /// ```
    ///
    /// Definitions: [`TableItem`](tables::TableItem).
    type without_init;
    /// The table of this type with this initial value.
    ///
    /// ```text
    /// abbrev pub with_init : TableType × List Plain → TableItem
    /// with_init parts = record { table_type = parts.0; init = Some parts.1 }
    /// ```
    ///
    /// Definitions: [`Plain`](super::insn::plain::Plain), [`TableItem`](tables::TableItem).
    type with_init;
    /// A table: its type; or 40 00, its type and an expression.
    ///
    /// ```text
    /// abbrev pub table_item : Format TableItem
    /// table_item = one_of (mapped without_init table_type)
    ///     (mapped with_init (prefixed before_init (pair table_type expression)))
    /// ```
    ///
    /// Definitions: [`Format`](super::base::formats::Format), [`TableItem`](tables::TableItem), [`one_of`](super::base::formats::one_of), [`mapped`](super::base::formats::mapped), [`without_init`](tables::without_init), [`table_type`](tables::table_type), [`with_init`](tables::with_init), [`prefixed`](super::base::formats::prefixed), [`before_init`](tables::before_init), [`pair`](super::base::formats::pair), [`expression`](super::code::expressions::expression).
    type table_item;
    /// The kind of tables.
    ///
    /// ```text
    /// abbrev pub table_items : Kind GivenTable TableItem
    /// table_items = record { encoding = table_item_encoding; IsWellFormed = IsGivenTable;
    ///     IsWellFormedPadded = IsGivenTablePadded; normal_form = table_item_of;
    ///     format = table_item }
    /// ```
    ///
    /// Definitions: [`Kind`](super::base::entries::Kind), [`GivenTable`](tables::GivenTable), [`TableItem`](tables::TableItem), [`table_item_encoding`](tables::table_item_encoding), [`IsGivenTable`](tables::IsGivenTable), [`IsGivenTablePadded`](tables::IsGivenTablePadded), [`table_item_of`](tables::table_item_of), [`table_item`](tables::table_item).
    type table_items;
    /// The view of decoded limits.
    ///
    /// ```text
    /// abbrev pub limits_view : DecodeLimits → Limits
    /// limits_view l = record { table64 = l.table64; shared = l.shared; minimum = l.minimum;
    ///     maximum = l.maximum }
    /// ```
    ///
    /// Definitions: [`Limits`](tables::Limits).
    type limits_view;
    /// The view of a decoded table.
    ///
    /// ```text
    /// abbrev pub table_view : {A : Type 0} → ReadTable A → TableItem
    /// table_view t = record { table_type = t.table_type;
    ///     init = option_map instructions_view t.init }
    /// ```
    ///
    /// Definitions: [`TableItem`](tables::TableItem), [`instructions_view`](constants::instructions_view).
    type table_view;
    /// The pieces encode these tables.
    ///
    /// ```text
    /// abbrev pub ContainsTables : List (List ℕ) → List TableItem → Type 0
    /// ContainsTables = ContainsItems table_items
    /// ```
    ///
    /// Definitions: [`TableItem`](tables::TableItem), [`ContainsItems`](super::base::entries::ContainsItems), [`table_items`](tables::table_items).
    type ContainsTables;
    /// The table section that decodes to these tables.
    ///
    /// ```text
    /// abbrev pub table_decoding : List TableItem → SectionDecoding
    /// table_decoding tables = decoding_of (number_of ids.Table) (vec table_item) tables
    /// ```
    ///
    /// Definitions: [`TableItem`](tables::TableItem), [`SectionDecoding`](super::base::modules::SectionDecoding), [`decoding_of`](super::base::modules::decoding_of), [`number_of`](super::base::section_id::number_of), [`vec`](super::base::formats::vec), [`table_item`](tables::table_item).
    type table_decoding;
}

/// Tag types, their encoding and their format. Core specification, Binary Format, Modules, Tag Section.
///
/// [How to read definitions](super). The file is [`Tags.antt`](https://github.com/dolzhytik/dolzhytik/blob/main/crates/wasm_sections/specs/Tags.antt).
pub trait tags {
    /// The byte for the kind of a tag.
    ///
    /// ```text
    /// abbrev pub tag_code : TagKind → ℕ
    /// tag_code Exception = 0x00
    /// ```
    type tag_code;
    /// The encoding of a tag type: the byte of its kind, and the index of a function type.
    ///
    /// ```text
    /// abbrev pub tag_encoding : TagType → List ℕ
    /// tag_encoding t = tag_code t.kind ∷ unsigned_encoding t.func_type_idx
    /// ```
    ///
    /// Definitions: [`tag_code`](tags::tag_code), [`unsigned_encoding`](super::base::numbers::unsigned_encoding).
    type tag_encoding;
    /// The tag type is well-formed: its index is below 2^32.
    ///
    /// ```text
    /// abbrev pub IsTag : TagType → Type 0
    /// IsTag t = t.func_type_idx < 2 ^ 32
    /// ```
    type IsTag;
    /// The tag type of this kind and this index of a function type.
    ///
    /// ```text
    /// abbrev pub tag_of : TagKind × ℕ → TagType
    /// tag_of parts = record { kind = parts.0; func_type_idx = parts.1 }
    /// ```
    type tag_of;
    /// A tag type: a byte for its kind, and the index of a function type.
    ///
    /// ```text
    /// abbrev pub tag_type : Format TagType
    /// tag_type = mapped tag_of (pair (coded tag_code) u32)
    /// ```
    ///
    /// Definitions: [`Format`](super::base::formats::Format), [`mapped`](super::base::formats::mapped), [`tag_of`](tags::tag_of), [`pair`](super::base::formats::pair), [`coded`](super::base::formats::coded), [`tag_code`](tags::tag_code), [`u32`](super::base::formats::u32).
    type tag_type;
    /// The kind of tag types.
    ///
    /// ```text
    /// abbrev pub tag_items : Kind TagType TagType
    /// tag_items = record { encoding = tag_encoding; IsWellFormed = IsTag;
    ///     IsWellFormedPadded = IsTag; normal_form = λ tag. tag; format = tag_type }
    /// ```
    ///
    /// Definitions: [`Kind`](super::base::entries::Kind), [`tag_encoding`](tags::tag_encoding), [`IsTag`](tags::IsTag), [`tag_type`](tags::tag_type).
    type tag_items;
    /// The pieces encode these tag types.
    ///
    /// ```text
    /// abbrev pub ContainsTags : List (List ℕ) → List TagType → Type 0
    /// ContainsTags = ContainsItems tag_items
    /// ```
    ///
    /// Definitions: [`ContainsItems`](super::base::entries::ContainsItems), [`tag_items`](tags::tag_items).
    type ContainsTags;
    /// The tag section that decodes to these tag types.
    ///
    /// ```text
    /// abbrev pub tag_decoding : List TagType → SectionDecoding
    /// tag_decoding tags = decoding_of (number_of ids.Tag) (vec tag_type) tags
    /// ```
    ///
    /// Definitions: [`SectionDecoding`](super::base::modules::SectionDecoding), [`decoding_of`](super::base::modules::decoding_of), [`number_of`](super::base::section_id::number_of), [`vec`](super::base::formats::vec), [`tag_type`](tags::tag_type).
    type tag_decoding;
}
