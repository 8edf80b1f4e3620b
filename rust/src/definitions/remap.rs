// Written by tools/to-rust from crates/wasm_remap/specs: change that.
//! Maps of indices.
//!
//! The contracts of [`wasm_remap`](https://github.com/dolzhytik/dolzhytik/blob/main/crates/wasm_remap/README.md) name these definitions.

/// Modules whose bodies begin with inserted instructions.
///
/// - Closed instructions: [`is_among`](begun::is_among), [`open_after`](begun::open_after), [`IsClosedBehind`](begun::IsClosedBehind), [`IsClosed`](begun::IsClosed).
/// - Bodies: [`begun_body`](begun::begun_body), [`each_from`](begun::each_from), [`GainsCode`](begun::GainsCode), [`IsBegun`](begun::IsBegun), [`EncodeBodies`](begun::EncodeBodies), [`AddsBodies`](begun::AddsBodies).
/// - Modules: [`EditsBodies`](begun::EditsBodies), [`EditsCode`](begun::EditsCode), [`InsertsCode`](begun::InsertsCode).
///
/// [How to read definitions](super). The file is [`Begun.antt`](https://github.com/dolzhytik/dolzhytik/blob/main/crates/wasm_remap/specs/Begun.antt).
pub trait begun {
    /// Whether the opcode is one of these bytes.
    ///
    /// ```text
    /// abbrev pub is_among : List ℕ → Op → Bool
    /// is_among [] op = false
    /// is_among (b ∷ bytes) op = same_op op (Byte b) || is_among bytes op
    /// ```
    ///
    /// Definitions: [`same_op`](super::insn::plain::same_op).
    type is_among;
    /// How many blocks are open behind an instruction, and nothing if none is open in front of one that ends or divides a block. `block`, `loop`, `if`, `try` and `try_table` open one. `end` and `delegate` end one. `else`, `catch` and `catch_all` divide one.
    ///
    /// ```text
    /// abbrev pub open_after : Op → ℕ → Option ℕ
    /// open_after op zero = cond (is_among (0x02 ∷ 0x03 ∷ 0x04 ∷ 0x06 ∷ 0x1F ∷ []) op) (Some 1)
    ///     (cond (is_among (0x0B ∷ 0x18 ∷ 0x05 ∷ 0x07 ∷ 0x19 ∷ []) op) None (Some 0))
    /// open_after op (suc n) = cond (is_among (0x02 ∷ 0x03 ∷ 0x04 ∷ 0x06 ∷ 0x1F ∷ []) op)
    ///     (Some (suc (suc n))) (cond (is_among (0x0B ∷ 0x18 ∷ []) op) (Some n) (Some (suc n)))
    /// ```
    ///
    /// Definitions: [`is_among`](begun::is_among).
    type open_after;
    /// Each block that the instructions open is ended by them, in order, if this many are open before.
    ///
    /// ```text
    /// abbrev pub IsClosedBehind : Option ℕ → List Plain → Type 0
    /// IsClosedBehind None is = ⊥
    /// IsClosedBehind (Some n) [] = n ≡ 0
    /// IsClosedBehind (Some n) (i ∷ is) = IsClosedBehind (open_after i.op n) is
    /// ```
    ///
    /// Definitions: [`Plain`](super::insn::plain::Plain), [`open_after`](begun::open_after).
    type IsClosedBehind;
    /// Each block that the instructions open is ended by them, and no other.
    ///
    /// ```text
    /// abbrev pub IsClosed : List Plain → Type 0
    /// IsClosed = IsClosedBehind (Some 0)
    /// ```
    ///
    /// Definitions: [`Plain`](super::insn::plain::Plain), [`IsClosedBehind`](begun::IsClosedBehind).
    type IsClosed;
    /// The body with these instructions before its own.
    ///
    /// ```text
    /// abbrev pub begun_body : List Plain → Body → Body
    /// begun_body code x = record { runs = x.runs; code = code ++ x.code }
    /// ```
    ///
    /// Definitions: [`Plain`](super::insn::plain::Plain), [`Body`](super::code::bodies::Body).
    type begun_body;
    /// What a function makes of each item, one after the other. It depends on the number of the item, which is counted from `n`.
    ///
    /// ```text
    /// abbrev pub each_from : {X : Type 0} → (ℕ → X → List X) → ℕ → List X → List X
    /// each_from f n [] = []
    /// each_from f n (x ∷ xs) = f n x ++ each_from f (suc n) xs
    /// ```
    type each_from;
    /// The bytes gain an encoding of these instructions.
    ///
    /// ```text
    /// pub record GainsCode (code : List Plain) (old new : List ℕ) : Type 0 where
    ///   pub encoding : List ℕ
    ///   pub added : new ≡ old ++ encoding
    ///   pub encodes : members (instruction table) standard encoding code
    /// ```
    ///
    /// Definitions: [`Plain`](super::insn::plain::Plain), [`members`](super::base::formats::members), [`instruction`](super::insn::plain::instruction), [`table`](super::insn::table::table), [`standard`](super::base::numbers::Mode).
    type GainsCode;
    /// The new bytes are the locals, an encoding of these instructions, and the old ones.
    ///
    /// ```text
    /// pub record IsBegun (locals : List ℕ) (code : List Plain) (old new : List ℕ)
    ///     : Type 0 where
    ///   pub added : List ℕ
    ///   pub is : new ≡ locals ++ (added ++ old)
    ///   pub encodes : members (instruction table) standard added code
    /// ```
    ///
    /// Definitions: [`Plain`](super::insn::plain::Plain), [`members`](super::base::formats::members), [`instruction`](super::insn::plain::instruction), [`table`](super::insn::table::table), [`standard`](super::base::numbers::Mode).
    type IsBegun;
    /// The entries of a code section encode these bodies, one each.
    ///
    /// ```text
    /// abbrev pub EncodeBodies : List (List ℕ) → List Body → Type 0
    /// EncodeBodies entries bodies = AllZip (size_prefixed body standard) entries bodies
    /// ```
    ///
    /// Definitions: [`Body`](super::code::bodies::Body), [`size_prefixed`](super::base::formats::size_prefixed), [`body`](super::code::bodies::body), [`standard`](super::base::numbers::Mode).
    type EncodeBodies;
    /// The code section gains these bodies.
    ///
    /// ```text
    /// pub record AddsBodies (bodies : List Body) (old new : List (List ℕ)) : Type 0 where
    ///   pub entries : List (List ℕ)
    ///   pub is : new ≡ old ++ entries
    ///   pub encodes : EncodeBodies entries bodies
    /// ```
    ///
    /// Definitions: [`Body`](super::code::bodies::Body), [`EncodeBodies`](begun::EncodeBodies).
    type AddsBodies;
    /// The payload of the first code section has what a change makes of each body.
    ///
    /// ```text
    /// pub record EditsBodies (f : ℕ → Body → List Body) (olds : List Section)
    ///     (edited : List ℕ) : Type 0 where
    ///   pub before : List Section
    ///   pub section : Section
    ///   pub after : List Section
    ///   pub found : IsFound (number_of ids.Code) before section after olds
    ///   pub payload : List ℕ
    ///   pub bodies : (xs : List Body) → vec (size_prefixed body) standard section.payload xs
    ///       → vec (size_prefixed body) standard payload (each_from f 0 xs)
    ///   pub decodes : DecodesWhole wasm_module edited
    ///       (between before (number_of ids.Code) payload after)
    /// ```
    ///
    /// Definitions: [`Body`](super::code::bodies::Body), [`Section`](super::reader::outlines::Section), [`IsFound`](places::IsFound), [`number_of`](super::base::section_id::number_of), [`vec`](super::base::formats::vec), [`size_prefixed`](super::base::formats::size_prefixed), [`body`](super::code::bodies::body), [`standard`](super::base::numbers::Mode), [`each_from`](begun::each_from), [`DecodesWhole`](super::base::decoding::DecodesWhole), [`wasm_module`](super::base::formats::wasm_module), [`between`](inserted::between).
    type EditsBodies;
    /// The bytes are a module, and the edited bytes are a module that has what a change makes of each body. A module without code stays.
    ///
    /// ```text
    /// pub record EditsCode (f : ℕ → Body → List Body) (bytes edited : List ℕ) : Type 0 where
    ///   pub olds : List Section
    ///   pub has : HasSections bytes olds
    ///   pub are : EditsBodies f olds edited
    ///       ⊎ (lacks (number_of ids.Code) olds × (edited ≡ bytes))
    /// ```
    ///
    /// Definitions: [`Body`](super::code::bodies::Body), [`Section`](super::reader::outlines::Section), [`HasSections`](super::reader::outlines::HasSections), [`EditsBodies`](begun::EditsBodies), [`lacks`](places::lacks), [`number_of`](super::base::section_id::number_of).
    type EditsCode;
    /// Each body begins with these instructions.
    ///
    /// ```text
    /// abbrev pub InsertsCode : (ℕ → List Plain) → List ℕ → List ℕ → Type 0
    /// InsertsCode code = EditsCode (λ n x. begun_body (code n) x ∷ [])
    /// ```
    ///
    /// Definitions: [`Plain`](super::insn::plain::Plain), [`EditsCode`](begun::EditsCode), [`begun_body`](begun::begun_body).
    type InsertsCode;
}

/// What a map of indices makes of the items of custom sections.
///
/// - Names: [`name_spaces`](customs::name_spaces), [`remapped_name`](customs::remapped_name).
/// - Hints: [`remapped_hints_in`](customs::remapped_hints_in), [`remapped_hints`](customs::remapped_hints), [`remapped_target`](customs::remapped_target), [`remapped_target_hint`](customs::remapped_target_hint), [`remapped_targets`](customs::remapped_targets).
/// - Core dumps: [`remapped_instance`](customs::remapped_instance).
/// - Linking: [`space_of_symbol`](customs::space_of_symbol), [`remapped_definition`](customs::remapped_definition), [`remapped_symbol`](customs::remapped_symbol), [`comdat_spaces`](customs::comdat_spaces), [`remapped_member`](customs::remapped_member), [`remapped_comdat`](customs::remapped_comdat), [`remapped_link`](customs::remapped_link).
/// - Relocations: [`space_of_relocation`](customs::space_of_relocation), [`remapped_relocation`](customs::remapped_relocation).
///
/// [How to read definitions](super). The file is [`Customs.antt`](https://github.com/dolzhytik/dolzhytik/blob/main/crates/wasm_remap/specs/Customs.antt).
pub trait customs {
    /// The index space that the list has for the number, if it has one.
    ///
    /// ```text
    /// abbrev pub space_among : List (ℕ × IndexSpace) → ℕ → Option IndexSpace
    /// space_among [] n = None
    /// space_among (row ∷ rows) n = cond (n == row.0) (Some row.1) (space_among rows n)
    /// ```
    type space_among;
    /// The index spaces of the subsections that have one, by their ids. Of an indirect name map it is that of the outer indices: the functions of locals (2) and of labels (3), the types of fields (10) and of parameters (12), and the tags of parameters (13).
    ///
    /// ```text
    /// abbrev pub name_spaces : List (ℕ × IndexSpace)
    /// name_spaces =
    ///     (1, spaces.Functions) ∷ (2, spaces.Functions) ∷ (3, spaces.Functions)
    ///         ∷ (4, spaces.Types) ∷ (5, spaces.Tables) ∷ (6, spaces.Memories)
    ///         ∷ (7, spaces.Globals)
    ///     ∷ (8, spaces.Elements)
    ///     ∷ (9, spaces.Data)
    ///     ∷ (10, spaces.Types)
    ///     ∷ (11, spaces.Tags)
    ///     ∷ (12, spaces.Types)
    ///     ∷ (13, spaces.Tags)
    ///     ∷ []
    /// ```
    type name_spaces;
    /// A subsection of a name section.
    ///
    /// ```text
    /// abbrev pub remapped_name : Mapping → NameItem → NameItem
    /// remapped_name m (Module n) = Module n
    /// remapped_name m (Map id ns) = Map id
    ///     (map (mapped_first m (space_among name_spaces id)) ns)
    /// remapped_name m (Indirect id ms) = Indirect id
    ///     (map (mapped_first m (space_among name_spaces id)) ms)
    /// remapped_name m (Other id bytes) = Other id bytes
    /// ```
    ///
    /// Definitions: [`Mapping`](mapping::Mapping), [`NameItem`](super::custom::names::NameItem), [`Module`](super::custom::names::NameItem), [`Map`](super::custom::names::NameItem), [`mapped_first`](mapping::mapped_first), [`space_among`](customs::space_among), [`name_spaces`](customs::name_spaces), [`Indirect`](super::custom::names::NameItem), [`Other`](super::custom::names::NameItem).
    type remapped_name;
    /// The hints of a function, which have no index.
    ///
    /// ```text
    /// abbrev pub remapped_hints_in : {Hint : Type 0} → Mapping → HintsIn Hint → HintsIn Hint
    /// remapped_hints_in m h = mapped_first m (Some spaces.Functions) h
    /// ```
    ///
    /// Definitions: [`Mapping`](mapping::Mapping), [`HintsIn`](super::custom::code_metadata::HintsIn), [`mapped_first`](mapping::mapped_first).
    type remapped_hints_in;
    /// The branch hints of a function.
    ///
    /// ```text
    /// abbrev pub remapped_hints : Mapping → Hints → Hints
    /// remapped_hints m h = remapped_hints_in m h
    /// ```
    ///
    /// Definitions: [`Mapping`](mapping::Mapping), [`Hints`](super::custom::hints::Hints), [`remapped_hints_in`](customs::remapped_hints_in).
    type remapped_hints;
    /// A call target.
    ///
    /// ```text
    /// abbrev pub remapped_target : Mapping → TargetItem → TargetItem
    /// remapped_target m t = mapped_first m (Some spaces.Functions) t
    /// ```
    ///
    /// Definitions: [`Mapping`](mapping::Mapping), [`TargetItem`](super::custom::code_metadata::TargetItem), [`mapped_first`](mapping::mapped_first).
    type remapped_target;
    /// The targets of the call at an offset.
    ///
    /// ```text
    /// abbrev pub remapped_target_hint : Mapping → ℕ × List TargetItem → ℕ × List TargetItem
    /// remapped_target_hint m h = (h.0, map (remapped_target m) h.1)
    /// ```
    ///
    /// Definitions: [`Mapping`](mapping::Mapping), [`TargetItem`](super::custom::code_metadata::TargetItem), [`remapped_target`](customs::remapped_target).
    type remapped_target_hint;
    /// The targets of the calls of a function.
    ///
    /// ```text
    /// abbrev pub remapped_targets : Mapping → HintedTargets → HintedTargets
    /// remapped_targets m h = (m spaces.Functions h.0, map (remapped_target_hint m) h.1)
    /// ```
    ///
    /// Definitions: [`Mapping`](mapping::Mapping), [`HintedTargets`](super::custom::code_metadata::HintedTargets), [`remapped_target_hint`](customs::remapped_target_hint).
    type remapped_targets;
    /// An instance of a core dump: its memories and globals are those of the file. The index of its module stays.
    ///
    /// ```text
    /// abbrev pub remapped_instance : Mapping → Instance → Instance
    /// remapped_instance m i = record
    ///     { module_index = i.module_index; memories = map (m spaces.Memories) i.memories;
    ///     globals = map (m spaces.Globals) i.globals }
    /// ```
    ///
    /// Definitions: [`Mapping`](mapping::Mapping), [`Instance`](super::custom::core_dumps::Instance).
    type remapped_instance;
    /// The index space of a symbol with an index.
    ///
    /// ```text
    /// abbrev pub space_of_symbol : SymbolKind → IndexSpace
    /// space_of_symbol symbols.Function = spaces.Functions
    /// space_of_symbol symbols.Global = spaces.Globals
    /// space_of_symbol symbols.Table = spaces.Tables
    /// space_of_symbol symbols.Tag = spaces.Tags
    /// ```
    type space_of_symbol;
    /// The definition of a data symbol: the index of its data segment is mapped.
    ///
    /// ```text
    /// abbrev pub remapped_definition : Mapping → DataSymbolDefinition → DataSymbolDefinition
    /// remapped_definition m d = record
    ///     { index = m spaces.Data d.index; offset = d.offset; size = d.size }
    /// ```
    ///
    /// Definitions: [`Mapping`](mapping::Mapping).
    type remapped_definition;
    /// A symbol. Indices of sections stay.
    ///
    /// ```text
    /// abbrev pub remapped_symbol : Mapping → Symbol → Symbol
    /// remapped_symbol m (indexed kind flags index name) = indexed kind flags
    ///     (m (space_of_symbol kind) index) name
    /// remapped_symbol m (of_data flags name definition) = of_data flags name
    ///     (option_map (remapped_definition m) definition)
    /// remapped_symbol m (of_section flags section) = of_section flags section
    /// ```
    ///
    /// Definitions: [`Mapping`](mapping::Mapping), [`Symbol`](super::custom::symbols::Symbol), [`indexed`](super::custom::symbols::Symbol), [`space_of_symbol`](customs::space_of_symbol), [`of_data`](super::custom::symbols::Symbol), [`remapped_definition`](customs::remapped_definition), [`of_section`](super::custom::symbols::Symbol).
    type remapped_symbol;
    /// The index spaces of the members of a COMDAT group, by their kinds. A member of kind 5 is a section.
    ///
    /// ```text
    /// abbrev pub comdat_spaces : List (ℕ × IndexSpace)
    /// comdat_spaces = (0, spaces.Data) ∷ (1, spaces.Functions) ∷ (2, spaces.Globals)
    ///     ∷ (3, spaces.Tags) ∷ (4, spaces.Tables) ∷ []
    /// ```
    type comdat_spaces;
    /// A member of a COMDAT group.
    ///
    /// ```text
    /// abbrev pub remapped_member : Mapping → ComdatSymbol → ComdatSymbol
    /// remapped_member m s = record
    ///     { kind = s.kind; index = mapped_in m (space_among comdat_spaces s.kind) s.index }
    /// ```
    ///
    /// Definitions: [`Mapping`](mapping::Mapping), [`mapped_in`](mapping::mapped_in), [`space_among`](customs::space_among), [`comdat_spaces`](customs::comdat_spaces).
    type remapped_member;
    /// A COMDAT group.
    ///
    /// ```text
    /// abbrev pub remapped_comdat : Mapping → Comdat → Comdat
    /// remapped_comdat m c = record
    ///     { name = c.name; flags = c.flags; symbols = map (remapped_member m) c.symbols }
    /// ```
    ///
    /// Definitions: [`Mapping`](mapping::Mapping), [`Comdat`](super::custom::comdats::Comdat), [`remapped_member`](customs::remapped_member).
    type remapped_comdat;
    /// A subsection of a linking section. Init functions have indices of symbols, which stay.
    ///
    /// ```text
    /// abbrev pub remapped_link : Mapping → LinkItem → LinkItem
    /// remapped_link m (Segments xs) = Segments xs
    /// remapped_link m (InitFunctions xs) = InitFunctions xs
    /// remapped_link m (Comdats xs) = Comdats (map (remapped_comdat m) xs)
    /// remapped_link m (Symbols xs) = Symbols (map (remapped_symbol m) xs)
    /// remapped_link m (Target n) = Target n
    /// remapped_link m (OtherLink id bytes) = OtherLink id bytes
    /// ```
    ///
    /// Definitions: [`Mapping`](mapping::Mapping), [`LinkItem`](super::custom::linking::LinkItem), [`Segments`](super::custom::linking::LinkItem), [`InitFunctions`](super::custom::linking::LinkItem), [`Comdats`](super::custom::linking::LinkItem), [`remapped_comdat`](customs::remapped_comdat), [`Symbols`](super::custom::linking::LinkItem), [`remapped_symbol`](customs::remapped_symbol), [`Target`](super::custom::linking::LinkItem), [`OtherLink`](super::custom::linking::LinkItem).
    type remapped_link;
    /// The index space of the index of a relocation. All but one have the index of a symbol.
    ///
    /// ```text
    /// abbrev pub space_of_relocation : PlainRelocation → Option IndexSpace
    /// space_of_relocation relocations.TypeIndexLeb = Some spaces.Types
    /// space_of_relocation kind = None
    /// ```
    type space_of_relocation;
    /// A relocation.
    ///
    /// ```text
    /// abbrev pub remapped_relocation : Mapping → Relocation → Relocation
    /// remapped_relocation m (Plain kind offset index) = Plain kind offset
    ///     (mapped_in m (space_of_relocation kind) index)
    /// remapped_relocation m (Addend32 kind offset index addend) = Addend32 kind offset index
    ///     addend
    /// remapped_relocation m (Addend64 kind offset index addend) = Addend64 kind offset index
    ///     addend
    /// ```
    ///
    /// Definitions: [`Mapping`](mapping::Mapping), [`mapped_in`](mapping::mapped_in), [`space_of_relocation`](customs::space_of_relocation).
    type remapped_relocation;
}

/// Why calls that edit a module fail.
///
/// - The errors of the reader: [`is_memory`](errors::is_memory), [`error_of`](errors::error_of).
/// - Sections: [`ExplainsItems`](errors::ExplainsItems), [`ExplainsContent`](errors::ExplainsContent), [`ExplainsSection`](errors::ExplainsSection).
/// - Modules: [`HasSection`](errors::HasSection), [`FailsIn`](errors::FailsIn), [`ExplainsModule`](errors::ExplainsModule), [`ExplainsChange`](errors::ExplainsChange), [`ExplainsRemap`](errors::ExplainsRemap), [`IsReadable`](errors::IsReadable), [`IsMappable`](errors::IsMappable).
/// - Inserted sections: [`ExplainsSections`](errors::ExplainsSections), [`AreTooMany`](errors::AreTooMany), [`ExplainsJoin`](errors::ExplainsJoin), [`IsTooLong`](errors::IsTooLong), [`HasFirst`](errors::HasFirst), [`ExplainsInsert`](errors::ExplainsInsert).
/// - Changed code: [`ExplainsBody`](errors::ExplainsBody), [`ExplainsBodies`](errors::ExplainsBodies), [`ExplainsCode`](errors::ExplainsCode).
/// - Inserted imports: [`ExplainsEntry`](errors::ExplainsEntry), [`import_payload`](errors::import_payload), [`ExplainsImport`](errors::ExplainsImport).
///
/// [How to read definitions](super). The file is [`Errors.antt`](https://github.com/dolzhytik/dolzhytik/blob/main/crates/wasm_remap/specs/Errors.antt).
pub trait errors {
    /// Whether an allocation failed.
    ///
    /// ```text
    /// abbrev pub is_memory : ReadFault → Bool
    /// is_memory faults.Memory = true
    /// is_memory fault = false
    /// ```
    type is_memory;
    /// The error for one of the reader. A failed allocation is no error of the bytes.
    ///
    /// ```text
    /// abbrev pub error_of : {E : Type 0} → ReadError → RemapError E
    /// error_of fault = cond (is_memory fault.cause) (errors.Refused refusals.Memory)
    ///     (errors.Read fault)
    /// ```
    ///
    /// Definitions: [`is_memory`](errors::is_memory).
    type error_of;
    /// Why the changed items are not appended: the map rejects an index, or the changed items have no encoding. `Memory` says nothing of the items.
    ///
    /// ```text
    /// abbrev pub ExplainsItems
    ///     : {E : Type 0} → (Contents → Contents) → (IndexSpace → ℕ → E → Type 0) → Contents
    ///     → RemapError E → Type 0
    /// ExplainsItems f rejects x (errors.Read fault) = ⊥
    /// ExplainsItems f rejects x (errors.Refused refused) = refused ≢ refusals.Memory
    ///     → HasContentIn admitted (f x) → ⊥
    /// ExplainsItems f rejects x (errors.Index e) = IsRejected rejects e
    /// ExplainsItems f rejects x (errors.Offsets offset) = ⊥
    /// ```
    ///
    /// Definitions: [`Contents`](super::reader::kinds::Contents), [`HasContentIn`](super::reader::sections::HasContentIn), [`admitted`](super::base::numbers::Grammar), [`IsRejected`](mapping::IsRejected).
    type ExplainsItems;
    /// Why the items of a section are not changed: the section does not decode, the map rejects an index, or the changed items have no encoding.
    ///
    /// ```text
    /// abbrev pub ExplainsContent
    ///     : {E : Type 0} → (Contents → Contents) → (IndexSpace → ℕ → E → Type 0) → Section
    ///     → RemapError E → Type 0
    /// ExplainsContent f rejects s (errors.Read fault) = RejectsWhole
    ///     (content (section_kind_of s)) standard s.payload
    /// ExplainsContent f rejects s (errors.Refused refused) = refused ≢ refusals.Memory
    ///     → (x : Contents) × content (section_kind_of s) standard s.payload x
    ///     × (HasContentIn admitted (f x) → ⊥)
    /// ExplainsContent f rejects s (errors.Index e) = IsRejected rejects e
    /// ExplainsContent f rejects s (errors.Offsets offset) = ⊥
    /// ```
    ///
    /// Definitions: [`Contents`](super::reader::kinds::Contents), [`Section`](super::reader::outlines::Section), [`RejectsWhole`](super::base::continuing::RejectsWhole), [`content`](super::reader::kinds::content), [`section_kind_of`](super::reader::outlines::section_kind_of), [`standard`](super::base::numbers::Mode), [`HasContentIn`](super::reader::sections::HasContentIn), [`admitted`](super::base::numbers::Grammar), [`IsRejected`](mapping::IsRejected).
    type ExplainsContent;
    /// Why the indices of a section are not mapped.
    ///
    /// ```text
    /// abbrev pub ExplainsSection
    ///     : {E : Type 0} → Mapping → (IndexSpace → ℕ → E → Type 0) → Section → RemapError E
    ///     → Type 0
    /// ExplainsSection m rejects = ExplainsContent (remapped m) rejects
    /// ```
    ///
    /// Definitions: [`Mapping`](mapping::Mapping), [`Section`](super::reader::outlines::Section), [`ExplainsContent`](errors::ExplainsContent), [`remapped`](sections::remapped).
    type ExplainsSection;
    /// The bytes begin with the header and sections, the last of which is this one.
    ///
    /// ```text
    /// pub record HasSection (bytes : List ℕ) (s : Section) : Type 0 where
    ///   pub before : List Section
    ///   pub after : List ℕ
    ///   pub joined : bytes ≡ header ++ (flat_map bytes_of before ++ (bytes_of s ++ after))
    ///   pub each : AllByRecursion IsSection before
    ///   pub is_section : IsSection s
    /// ```
    ///
    /// Definitions: [`Section`](super::reader::outlines::Section), [`header`](super::base::formats::header), [`bytes_of`](super::reader::outlines::bytes_of), [`IsSection`](super::reader::outlines::IsSection).
    type HasSection;
    /// The change of a section of the module fails with this error. The section holds no offsets.
    ///
    /// ```text
    /// abbrev pub FailsIn : {E : Type 0} → (Section → RemapError E → Type 0) → List ℕ
    ///     → RemapError E → Type 0
    /// FailsIn Why bytes e = (s : Section) × HasSection bytes s
    ///     × (contains_offsets s.name ≡ false) × Why s e
    /// ```
    ///
    /// Definitions: [`Section`](super::reader::outlines::Section), [`HasSection`](errors::HasSection), [`contains_offsets`](super::reader::shortening::contains_offsets).
    type FailsIn;
    /// Why the sections of a module are not changed: the bytes are no module, the change of a section fails, or a section holds offsets.
    ///
    /// ```text
    /// abbrev pub ExplainsModule
    ///     : {E : Type 0} → (Section → RemapError E → Type 0) → Offsets → List ℕ → RemapError E
    ///     → Type 0
    /// ExplainsModule Why offsets bytes
    ///     (errors.Read fault) = RejectsWhole wasm_module padded bytes
    ///     ⊎ FailsIn Why bytes (errors.Read fault)
    /// ExplainsModule Why offsets bytes (errors.Refused refused) = refused ≢ refusals.Memory
    ///     → FailsIn Why bytes (errors.Refused refused)
    /// ExplainsModule Why offsets bytes (errors.Index e) = FailsIn Why bytes (errors.Index e)
    /// ExplainsModule Why offsets bytes (errors.Offsets offset) = (offsets ≡ Refuse)
    ///     × ((s : Section) × HasSection bytes s × (contains_offsets s.name ≡ true))
    /// ```
    ///
    /// Definitions: [`Section`](super::reader::outlines::Section), [`RejectsWhole`](super::base::continuing::RejectsWhole), [`wasm_module`](super::base::formats::wasm_module), [`padded`](super::base::numbers::Mode), [`FailsIn`](errors::FailsIn), [`HasSection`](errors::HasSection), [`contains_offsets`](super::reader::shortening::contains_offsets).
    type ExplainsModule;
    /// Why a changed section is not appended: the change fails, or the new payload has 2^32 bytes or more.
    ///
    /// ```text
    /// abbrev pub ExplainsChange
    ///     : {E : Type 0} → (Section → List ℕ → Type 0) → (Section → RemapError E → Type 0)
    ///     → Section → RemapError E → Type 0
    /// ExplainsChange R Why s (errors.Refused refused) = refused ≢ refusals.Memory
    ///     → Why s (errors.Refused refused)
    ///     ⊎ ((payload : List ℕ) × R s payload × (length payload < 2 ^ 32 → ⊥))
    /// ExplainsChange R Why s e = Why s e
    /// ```
    ///
    /// Definitions: [`Section`](super::reader::outlines::Section).
    type ExplainsChange;
    /// Why the indices of a module are not mapped.
    ///
    /// ```text
    /// abbrev pub ExplainsRemap
    ///     : {E : Type 0} → Mapping → (IndexSpace → ℕ → E → Type 0) → Offsets → List ℕ
    ///     → RemapError E → Type 0
    /// ExplainsRemap m rejects = ExplainsModule
    ///     (ExplainsChange (IsRemapped m) (ExplainsSection m rejects))
    /// ```
    ///
    /// Definitions: [`Mapping`](mapping::Mapping), [`ExplainsModule`](errors::ExplainsModule), [`ExplainsChange`](errors::ExplainsChange), [`IsRemapped`](sections::IsRemapped), [`ExplainsSection`](errors::ExplainsSection).
    type ExplainsRemap;
    /// The section decodes, and has fewer than 2^26 bytes.
    ///
    /// ```text
    /// pub record IsReadable (s : Section) : Type 0 where
    ///   pub items : Contents
    ///   pub decoded : content (section_kind_of s) standard s.payload items
    ///   pub short : length s.payload < 2 ^ 26
    /// ```
    ///
    /// Definitions: [`Section`](super::reader::outlines::Section), [`Contents`](super::reader::kinds::Contents), [`content`](super::reader::kinds::content), [`section_kind_of`](super::reader::outlines::section_kind_of), [`standard`](super::base::numbers::Mode).
    type IsReadable;
    /// The bytes are a module. Each section that holds no offsets decodes, and has fewer than 2^26 bytes. With `Refuse`, no section holds offsets. A map whose new indices are below 2^32, and that rejects none, then maps the module, if there is memory.
    ///
    /// ```text
    /// pub record IsMappable (offsets : Offsets) (bytes : List ℕ) : Type 0 where
    ///   pub sections : List Section
    ///   pub has : HasSections bytes sections
    ///   pub readable : AllByRecursion
    ///       (λ s. contains_offsets s.name ≡ false → IsReadable s) sections
    ///   pub no_offsets : offsets ≡ Refuse
    ///       → AllByRecursion (λ s. contains_offsets s.name ≡ false) sections
    /// ```
    ///
    /// Definitions: [`Section`](super::reader::outlines::Section), [`HasSections`](super::reader::outlines::HasSections), [`contains_offsets`](super::reader::shortening::contains_offsets), [`IsReadable`](errors::IsReadable).
    type IsMappable;
    /// Why the sections of a module are not listed: the bytes are no module.
    ///
    /// ```text
    /// abbrev pub ExplainsSections : {E : Type 0} → List ℕ → RemapError E → Type 0
    /// ExplainsSections bytes (errors.Read fault) = RejectsWhole wasm_module padded bytes
    /// ExplainsSections bytes (errors.Refused refused) = refused ≡ refusals.Memory
    /// ExplainsSections bytes (errors.Index e) = ⊥
    /// ExplainsSections bytes (errors.Offsets offset) = ⊥
    /// ```
    ///
    /// Definitions: [`RejectsWhole`](super::base::continuing::RejectsWhole), [`wasm_module`](super::base::formats::wasm_module), [`padded`](super::base::numbers::Mode).
    type ExplainsSections;
    /// Both payloads begin with a count, and their sum is 2^32 or more.
    ///
    /// ```text
    /// pub record AreTooMany (new old : List ℕ) : Type 0 where
    ///   pub new_count : ℕ
    ///   pub new_members : List ℕ
    ///   pub new_read : Decodes u32 standard new new_count new_members
    ///   pub old_count : ℕ
    ///   pub old_members : List ℕ
    ///   pub old_read : Decodes u32 standard old old_count old_members
    ///   pub unfit : new_count + old_count < 2 ^ 32 → ⊥
    /// ```
    ///
    /// Definitions: [`Decodes`](super::base::decoding::Decodes), [`u32`](super::base::formats::u32), [`standard`](super::base::numbers::Mode).
    type AreTooMany;
    /// Why the members of a new list and an old one are not joined: one of them does not begin with a count, the new section is not encodable, or there are too many members.
    ///
    /// ```text
    /// abbrev pub ExplainsJoin : {E : Type 0} → (Encodable : Type 0) → (new old : List ℕ)
    ///     → RemapError E → Type 0
    /// ExplainsJoin Encodable new old (errors.Read fault) = Rejects u32 standard new
    ///     ⊎ Rejects u32 standard old
    /// ExplainsJoin Encodable new old (errors.Refused refused) = refused ≢ refusals.Memory
    ///     → (Encodable → ⊥) ⊎ AreTooMany new old
    /// ExplainsJoin Encodable new old (errors.Index e) = ⊥
    /// ExplainsJoin Encodable new old (errors.Offsets offset) = ⊥
    /// ```
    ///
    /// Definitions: [`Rejects`](super::base::decoding::Rejects), [`u32`](super::base::formats::u32), [`standard`](super::base::numbers::Mode), [`AreTooMany`](errors::AreTooMany).
    type ExplainsJoin;
    /// The joined payload has 2^32 bytes or more.
    ///
    /// ```text
    /// abbrev pub IsTooLong : Position → (new old : List ℕ) → Type 0
    /// IsTooLong p new old = (payload : List ℕ) × IsJoined p new old payload
    ///     × (length payload < 2 ^ 32 → ⊥)
    /// ```
    ///
    /// Definitions: [`IsJoined`](inserted::IsJoined).
    type IsTooLong;
    /// The first section of this id in the module has this property.
    ///
    /// ```text
    /// pub record HasFirst (id : ℕ) (bytes : List ℕ) (P : Section → Type 0) : Type 0 where
    ///   pub olds : List Section
    ///   pub has : HasSections bytes olds
    ///   pub before : List Section
    ///   pub section : Section
    ///   pub after : List Section
    ///   pub found : IsFound id before section after olds
    ///   pub property : P section
    /// ```
    ///
    /// Definitions: [`Section`](super::reader::outlines::Section), [`HasSections`](super::reader::outlines::HasSections), [`IsFound`](places::IsFound).
    type HasFirst;
    /// Why a section is not inserted into a module: the bytes are no module, the new section is not encodable, or its members are not joined with those of the old section.
    ///
    /// ```text
    /// abbrev pub ExplainsInsert
    ///     : {E : Type 0} → Position → (id : ℕ) → (Encodable : Type 0) → (new bytes : List ℕ)
    ///     → RemapError E → Type 0
    /// ExplainsInsert p id Encodable new bytes
    ///     (errors.Read fault) = RejectsWhole wasm_module padded bytes
    ///     ⊎ HasFirst id bytes (λ s. Rejects u32 standard new ⊎ Rejects u32 standard s.payload)
    /// ExplainsInsert p id Encodable new bytes (errors.Refused refused) = refused
    ///     ≢ refusals.Memory → (Encodable → ⊥)
    ///     ⊎ HasFirst id bytes (λ s. AreTooMany new s.payload ⊎ IsTooLong p new s.payload)
    /// ExplainsInsert p id Encodable new bytes (errors.Index e) = ⊥
    /// ExplainsInsert p id Encodable new bytes (errors.Offsets offset) = ⊥
    /// ```
    ///
    /// Definitions: [`RejectsWhole`](super::base::continuing::RejectsWhole), [`wasm_module`](super::base::formats::wasm_module), [`padded`](super::base::numbers::Mode), [`HasFirst`](errors::HasFirst), [`Rejects`](super::base::decoding::Rejects), [`u32`](super::base::formats::u32), [`standard`](super::base::numbers::Mode), [`AreTooMany`](errors::AreTooMany), [`IsTooLong`](errors::IsTooLong).
    type ExplainsInsert;
    /// Why a body is not changed: it does not decode.
    ///
    /// ```text
    /// abbrev pub ExplainsBody : {E : Type 0} → List ℕ → RemapError E → Type 0
    /// ExplainsBody bytes (errors.Read fault) = RejectsWhole body standard bytes
    /// ExplainsBody bytes (errors.Refused refused) = Unit {0}
    /// ExplainsBody bytes (errors.Index e) = ⊥
    /// ExplainsBody bytes (errors.Offsets offset) = ⊥
    /// ```
    ///
    /// Definitions: [`RejectsWhole`](super::base::continuing::RejectsWhole), [`body`](super::code::bodies::body), [`standard`](super::base::numbers::Mode).
    type ExplainsBody;
    /// Why the bodies of a code section are not changed: its payload does not decode.
    ///
    /// ```text
    /// abbrev pub ExplainsBodies : {E : Type 0} → List ℕ → RemapError E → Type 0
    /// ExplainsBodies payload (errors.Read fault) = RejectsWhole
    ///     (vec (size_prefixed body)) standard payload
    /// ExplainsBodies payload (errors.Refused refused) = Unit {0}
    /// ExplainsBodies payload (errors.Index e) = ⊥
    /// ExplainsBodies payload (errors.Offsets offset) = ⊥
    /// ```
    ///
    /// Definitions: [`RejectsWhole`](super::base::continuing::RejectsWhole), [`vec`](super::base::formats::vec), [`size_prefixed`](super::base::formats::size_prefixed), [`body`](super::code::bodies::body), [`standard`](super::base::numbers::Mode).
    type ExplainsBodies;
    /// Why the code of a module is not changed: the bytes are no module, or the payload of the first code section does not decode.
    ///
    /// ```text
    /// abbrev pub ExplainsCode : {E : Type 0} → List ℕ → RemapError E → Type 0
    /// ExplainsCode bytes (errors.Read fault) = RejectsWhole wasm_module padded bytes
    ///     ⊎ HasFirst (number_of ids.Code) bytes
    ///     (λ s. RejectsWhole (vec (size_prefixed body)) standard s.payload)
    /// ExplainsCode bytes (errors.Refused refused) = Unit {0}
    /// ExplainsCode bytes (errors.Index e) = ⊥
    /// ExplainsCode bytes (errors.Offsets offset) = ⊥
    /// ```
    ///
    /// Definitions: [`RejectsWhole`](super::base::continuing::RejectsWhole), [`wasm_module`](super::base::formats::wasm_module), [`padded`](super::base::numbers::Mode), [`HasFirst`](errors::HasFirst), [`number_of`](super::base::section_id::number_of), [`vec`](super::base::formats::vec), [`size_prefixed`](super::base::formats::size_prefixed), [`body`](super::code::bodies::body), [`standard`](super::base::numbers::Mode).
    type ExplainsCode;
    /// Why an import is not added to a section: it is not encodable.
    ///
    /// ```text
    /// abbrev pub ExplainsEntry : {E : Type 0} → (Encodable : Type 0) → RemapError E → Type 0
    /// ExplainsEntry Encodable (errors.Refused refused) = refused ≢ refusals.Memory → Encodable
    ///     → ⊥
    /// ExplainsEntry Encodable e = ⊥
    /// ```
    type ExplainsEntry;
    /// The payload of an import section of one import.
    ///
    /// ```text
    /// abbrev pub import_payload : Import → List ℕ
    /// import_payload x = unsigned_encoding 1 ++ joined (import_encoding (import_item x) ∷ [])
    /// ```
    ///
    /// Definitions: [`unsigned_encoding`](super::base::numbers::unsigned_encoding), [`joined`](super::base::pieces::joined), [`import_encoding`](super::sections::imports::import_encoding), [`import_item`](super::sections::imports::import_item).
    type import_payload;
    /// Why an import is not inserted: the indices of the module are not moved, the import is not encodable, or its section is not inserted into the module whose indices are moved.
    ///
    /// ```text
    /// abbrev pub ExplainsImport
    ///     : Import → Offsets → List ℕ → RemapError IndexTooLarge → Type 0
    /// ExplainsImport x offsets bytes e =
    ///     ExplainsRemap (shifted (room_in (space_of x.ty)))
    ///         (IsTooLarge (room_in (space_of x.ty))) offsets bytes e
    ///     ⊎ (ExplainsEntry (IsEncodableImport (import_item x)) e
    ///     ⊎ ((shifted_bytes : List ℕ)
    ///         × RemapsModule (shifted (room_in (space_of x.ty))) offsets bytes shifted_bytes
    ///         × ExplainsInsert First (number_of ids.Import)
    ///         (IsEncodableSection (import_encoding (import_item x) ∷ []))
    ///         (import_payload x) shifted_bytes e))
    /// ```
    ///
    /// Definitions: [`ExplainsRemap`](errors::ExplainsRemap), [`shifted`](shifted::shifted), [`room_in`](imported::room_in), [`space_of`](imported::space_of), [`IsTooLarge`](shifted::IsTooLarge), [`ExplainsEntry`](errors::ExplainsEntry), [`IsEncodableImport`](super::sections::imports::IsEncodableImport), [`import_item`](super::sections::imports::import_item), [`RemapsModule`](sections::RemapsModule), [`ExplainsInsert`](errors::ExplainsInsert), [`number_of`](super::base::section_id::number_of), [`IsEncodableSection`](super::base::pieces::IsEncodableSection), [`import_encoding`](super::sections::imports::import_encoding), [`import_payload`](errors::import_payload).
    type ExplainsImport;
}

/// Modules into which an import is inserted.
///
/// [How to read definitions](super). The file is [`Imported.antt`](https://github.com/dolzhytik/dolzhytik/blob/main/crates/wasm_remap/specs/Imported.antt).
pub trait imported {
    /// The index space of an imported entity.
    ///
    /// ```text
    /// abbrev pub space_of : EntityType → IndexSpace
    /// space_of (entities.Function index) = spaces.Functions
    /// space_of (entities.FunctionExact index) = spaces.Functions
    /// space_of (entities.Table ty) = spaces.Tables
    /// space_of (entities.Memory ty) = spaces.Memories
    /// space_of (entities.Global ty) = spaces.Globals
    /// space_of (entities.Tag ty) = spaces.Tags
    /// ```
    type space_of;
    /// Whether the entity has an index in the space.
    ///
    /// ```text
    /// abbrev pub is_in : IndexSpace → EntityType → Bool
    /// is_in space ty = is_same (space_of ty) space
    /// ```
    ///
    /// Definitions: [`is_same`](shifted::is_same), [`space_of`](imported::space_of).
    type is_in;
    /// How many such entities are imported from a module.
    ///
    /// ```text
    /// abbrev pub imported_from : IndexSpace → Imported → ℕ
    /// imported_from space (single n ty) = if is_in space ty then 1 else 0
    /// imported_from space (named items) = count_by (λ i. is_in space i.1) items
    /// imported_from space (alike ty names) = if is_in space ty then length names else 0
    /// ```
    ///
    /// Definitions: [`Imported`](super::sections::imports::Imported), [`single`](super::sections::imports::Imported), [`is_in`](imported::is_in), [`named`](super::sections::imports::Imported), [`alike`](super::sections::imports::Imported).
    type imported_from;
    /// How many such entities are imported.
    ///
    /// ```text
    /// abbrev pub imported : IndexSpace → List ImportItem → ℕ
    /// imported space [] = 0
    /// imported space (i ∷ imports) = imported_from space i.imported + imported space imports
    /// ```
    ///
    /// Definitions: [`ImportItem`](super::sections::imports::ImportItem), [`imported_from`](imported::imported_from).
    type imported;
    /// The map that makes room for one entity before all others of its space.
    ///
    /// ```text
    /// abbrev pub room_in : IndexSpace → Shift
    /// room_in space = record { space = space; from = 0; by = 1 }
    /// ```
    type room_in;
    /// The indices of the entity's space are one higher, and the first member of the imports is this one. Its payload as a section alone decodes to it, if its names are UTF-8 and its numbers are in range.
    ///
    /// ```text
    /// pub record InsertsImport (x : Import) (offsets : Offsets) (bytes edited : List ℕ)
    ///     : Type 0 where
    ///   pub shifted_bytes : List ℕ
    ///   pub shifts : RemapsModule
    ///       (shifted (room_in (space_of x.ty))) offsets bytes shifted_bytes
    ///   pub payload : List ℕ
    ///   pub decodes : IsImport (import_item x)
    ///       → vec import_format standard payload (import_item x ∷ [])
    ///   pub inserts : InsertsSection First (number_of ids.Import) payload shifted_bytes edited
    /// ```
    ///
    /// Definitions: [`RemapsModule`](sections::RemapsModule), [`shifted`](shifted::shifted), [`room_in`](imported::room_in), [`space_of`](imported::space_of), [`IsImport`](super::sections::imports::IsImport), [`import_item`](super::sections::imports::import_item), [`vec`](super::base::formats::vec), [`import_format`](super::sections::imports::import_format), [`standard`](super::base::numbers::Mode), [`InsertsSection`](inserted::InsertsSection), [`number_of`](super::base::section_id::number_of).
    type InsertsImport;
}

/// Modules into which a section is inserted.
///
/// [How to read definitions](super). The file is [`Inserted.antt`](https://github.com/dolzhytik/dolzhytik/blob/main/crates/wasm_remap/specs/Inserted.antt).
pub trait inserted {
    /// Whether the payload of a section of this id is no list: it is one number.
    ///
    /// ```text
    /// abbrev pub is_number : ℕ → Bool
    /// is_number id = (id == number_of ids.Start) || (id == number_of ids.DataCount)
    /// ```
    ///
    /// Definitions: [`number_of`](super::base::section_id::number_of).
    type is_number;
    /// A list of new members and old ones.
    ///
    /// ```text
    /// abbrev pub joined_lists : {X : Type 0} → Position → List X → List X → List X
    /// joined_lists First new old = new ++ old
    /// joined_lists Last new old = old ++ new
    /// joined_lists Instead new old = new
    /// ```
    type joined_lists;
    /// The payload of a list has the members of a new list and of an old one: the sum of their counts, and the bytes of their members.
    ///
    /// ```text
    /// pub record IsJoined (p : Position) (new old joined : List ℕ) : Type 0 where
    ///   pub new_count : ℕ
    ///   pub new_members : List ℕ
    ///   pub new_read : Decodes u32 standard new new_count new_members
    ///   pub old_count : ℕ
    ///   pub old_members : List ℕ
    ///   pub old_read : Decodes u32 standard old old_count old_members
    ///   pub fits : new_count + old_count < 2 ^ 32
    ///   pub is : joined ≡ unsigned_encoding (new_count + old_count)
    ///       ++ joined_lists p new_members old_members
    /// ```
    ///
    /// Definitions: [`Decodes`](super::base::decoding::Decodes), [`u32`](super::base::formats::u32), [`standard`](super::base::numbers::Mode), [`unsigned_encoding`](super::base::numbers::unsigned_encoding), [`joined_lists`](inserted::joined_lists).
    type IsJoined;
    /// The payload of the section of this id, for a new payload and the old one.
    ///
    /// ```text
    /// abbrev pub IsPayload : Position → ℕ → (new old payload : List ℕ) → Type 0
    /// IsPayload p id new old payload =
    ///     ((p ≢ Instead) × (is_number id ≡ false) × IsJoined p new old payload)
    ///     ⊎ (((p ≡ Instead) ⊎ (is_number id ≡ true)) × (payload ≡ new))
    /// ```
    ///
    /// Definitions: [`is_number`](inserted::is_number), [`IsJoined`](inserted::IsJoined).
    type IsPayload;
    /// These sections with one of this id and payload between them.
    ///
    /// ```text
    /// abbrev pub between : List Section → ℕ → List ℕ → List Section → List (ℕ × List ℕ)
    /// between before id payload after = map copied before ++ (id, payload) ∷ map copied after
    /// ```
    ///
    /// Definitions: [`Section`](super::reader::outlines::Section), [`copied`](places::copied).
    type between;
    /// The first section of the id has the new members too.
    ///
    /// ```text
    /// pub record IsExtended (p : Position) (id : ℕ) (new : List ℕ) (olds : List Section)
    ///     (news : List (ℕ × List ℕ)) : Type 0 where
    ///   pub before : List Section
    ///   pub section : Section
    ///   pub after : List Section
    ///   pub found : IsFound id before section after olds
    ///   pub payload : List ℕ
    ///   pub has : IsPayload p id new section.payload payload
    ///   pub are : news ≡ between before id payload after
    /// ```
    ///
    /// Definitions: [`Section`](super::reader::outlines::Section), [`IsFound`](places::IsFound), [`IsPayload`](inserted::IsPayload), [`between`](inserted::between).
    type IsExtended;
    /// There is a new section of the id. A section without a place in the standard's order is the last one.
    ///
    /// ```text
    /// pub record IsAdded (id : ℕ) (new : List ℕ) (olds : List Section)
    ///     (news : List (ℕ × List ℕ)) : Type 0 where
    ///   pub before : List Section
    ///   pub after : List Section
    ///   pub split : olds ≡ before ++ after
    ///   pub ordered : rank_of id ≢ 0 → lacks id olds × IsPlace id before after
    ///   pub last : rank_of id ≡ 0 → after ≡ []
    ///   pub are : news ≡ between before id new after
    /// ```
    ///
    /// Definitions: [`Section`](super::reader::outlines::Section), [`rank_of`](places::rank_of), [`lacks`](places::lacks), [`IsPlace`](places::IsPlace), [`between`](inserted::between).
    type IsAdded;
    /// The bytes are a module, and the new bytes are a module that has the new section too: in the first one of its id, or as one more.
    ///
    /// ```text
    /// pub record InsertsSection (p : Position) (id : ℕ) (new bytes edited : List ℕ)
    ///     : Type 0 where
    ///   pub olds : List Section
    ///   pub has : HasSections bytes olds
    ///   pub news : List (ℕ × List ℕ)
    ///   pub are : ((rank_of id ≢ 0) × IsExtended p id new olds news)
    ///       ⊎ IsAdded id new olds news
    ///   pub decodes : DecodesWhole wasm_module edited news
    /// ```
    ///
    /// Definitions: [`Section`](super::reader::outlines::Section), [`HasSections`](super::reader::outlines::HasSections), [`rank_of`](places::rank_of), [`IsExtended`](inserted::IsExtended), [`IsAdded`](inserted::IsAdded), [`DecodesWhole`](super::base::decoding::DecodesWhole), [`wasm_module`](super::base::formats::wasm_module).
    type InsertsSection;
    /// The bytes are a module, and the edited bytes are a module that has these members too, in the standard's grammar: joined with those that the first section of the id decodes to, or in a new section at its place if there is none.
    ///
    /// ```text
    /// pub record GainsMembers {X : Type 0} (p : Position) (id : ℕ) (F : Format X)
    ///     (xs : List X) (bytes edited : List ℕ) : Type 0 where
    ///   pub olds : List Section
    ///   pub has : HasSections bytes olds
    ///   pub before : List Section
    ///   pub after : List Section
    ///   pub payload : List ℕ
    ///   pub members :
    ///       ((section : Section) × IsFound id before section after olds
    ///           × ((ys : List X) → vec F standard section.payload ys
    ///               → vec F standard payload (joined_lists p xs ys)))
    ///       ⊎ ((olds ≡ before ++ after)
    ///           × (rank_of id ≢ 0 → lacks id olds × IsPlace id before after)
    ///           × vec F standard payload xs)
    ///   pub decodes : DecodesWhole wasm_module edited (between before id payload after)
    /// ```
    ///
    /// Definitions: [`Format`](super::base::formats::Format), [`Section`](super::reader::outlines::Section), [`HasSections`](super::reader::outlines::HasSections), [`IsFound`](places::IsFound), [`vec`](super::base::formats::vec), [`standard`](super::base::numbers::Mode), [`joined_lists`](inserted::joined_lists), [`rank_of`](places::rank_of), [`lacks`](places::lacks), [`IsPlace`](places::IsPlace), [`DecodesWhole`](super::base::decoding::DecodesWhole), [`wasm_module`](super::base::formats::wasm_module), [`between`](inserted::between).
    type GainsMembers;
}

/// What a map of indices makes of types, instructions and bodies.
///
/// - Types: [`remapped_heap`](instructions::remapped_heap), [`remapped_ref`](instructions::remapped_ref), [`remapped_val`](instructions::remapped_val).
/// - Immediates: [`remapped_block`](instructions::remapped_block), [`remapped_target`](instructions::remapped_target), [`remapped_memory`](instructions::remapped_memory), [`remapped_catch`](instructions::remapped_catch), [`remapped_handle`](instructions::remapped_handle), [`remapped_argument`](instructions::remapped_argument), [`spaces_after`](instructions::spaces_after), [`remapped_arguments`](instructions::remapped_arguments).
/// - Instructions: [`remapped_instruction`](instructions::remapped_instruction), [`remapped_body`](instructions::remapped_body).
///
/// [How to read definitions](super). The file is [`Instructions.antt`](https://github.com/dolzhytik/dolzhytik/blob/main/crates/wasm_remap/specs/Instructions.antt).
pub trait instructions {
    /// A heap type: the index of a type is mapped.
    ///
    /// ```text
    /// abbrev pub remapped_heap : Mapping → HeapType → HeapType
    /// remapped_heap m (Abstract shared ty) = Abstract shared ty
    /// remapped_heap m (Concrete n) = Concrete (m spaces.Types n)
    /// remapped_heap m (Exact n) = Exact (m spaces.Types n)
    /// ```
    ///
    /// Definitions: [`Mapping`](mapping::Mapping).
    type remapped_heap;
    /// A reference type.
    ///
    /// ```text
    /// abbrev pub remapped_ref : Mapping → RefType → RefType
    /// remapped_ref m r = record
    ///     { nullable = r.nullable; heap_type = remapped_heap m r.heap_type }
    /// ```
    ///
    /// Definitions: [`Mapping`](mapping::Mapping), [`remapped_heap`](instructions::remapped_heap).
    type remapped_ref;
    /// A value type.
    ///
    /// ```text
    /// abbrev pub remapped_val : Mapping → ValType → ValType
    /// remapped_val m I32 = I32
    /// remapped_val m I64 = I64
    /// remapped_val m F32 = F32
    /// remapped_val m F64 = F64
    /// remapped_val m V128 = V128
    /// remapped_val m (Ref r) = Ref (remapped_ref m r)
    /// ```
    ///
    /// Definitions: [`Mapping`](mapping::Mapping), [`remapped_ref`](instructions::remapped_ref).
    type remapped_val;
    /// A block type.
    ///
    /// ```text
    /// abbrev pub remapped_block : Mapping → BlockType → BlockType
    /// remapped_block m blocks.Empty = blocks.Empty
    /// remapped_block m (blocks.Result ty) = blocks.Result (remapped_val m ty)
    /// remapped_block m (blocks.FunctionType n) = blocks.FunctionType (m spaces.Types n)
    /// ```
    ///
    /// Definitions: [`Mapping`](mapping::Mapping), [`remapped_val`](instructions::remapped_val).
    type remapped_block;
    /// The memory or the array type that is accessed.
    ///
    /// ```text
    /// abbrev pub remapped_target : Mapping → MemArgTarget → MemArgTarget
    /// remapped_target m (targets.Memory n) = targets.Memory (m spaces.Memories n)
    /// remapped_target m (targets.Array n) = targets.Array (m spaces.Types n)
    /// ```
    ///
    /// Definitions: [`Mapping`](mapping::Mapping).
    type remapped_target;
    /// A memory argument.
    ///
    /// ```text
    /// abbrev pub remapped_memory : Mapping → MemArg → MemArg
    /// remapped_memory m a = record
    ///     { offset = a.offset; align = a.align; target = remapped_target m a.target;
    ///     ordering = a.ordering }
    /// ```
    ///
    /// Definitions: [`Mapping`](mapping::Mapping), [`remapped_target`](instructions::remapped_target).
    type remapped_memory;
    /// A catch clause: its tag is mapped, and its label stays.
    ///
    /// ```text
    /// abbrev pub remapped_catch : Mapping → Catch → Catch
    /// remapped_catch m (One tag label) = One (m spaces.Tags tag) label
    /// remapped_catch m (OneRef tag label) = OneRef (m spaces.Tags tag) label
    /// remapped_catch m (All label) = All label
    /// remapped_catch m (AllRef label) = AllRef label
    /// ```
    ///
    /// Definitions: [`Mapping`](mapping::Mapping).
    type remapped_catch;
    /// A handle clause: its tag is mapped, and its label stays.
    ///
    /// ```text
    /// abbrev pub remapped_handle : Mapping → Handle → Handle
    /// remapped_handle m (OnLabel tag label) = OnLabel (m spaces.Tags tag) label
    /// remapped_handle m (OnSwitch tag) = OnSwitch (m spaces.Tags tag)
    /// ```
    ///
    /// Definitions: [`Mapping`](mapping::Mapping).
    type remapped_handle;
    /// An immediate, and the index space of the next number.
    ///
    /// ```text
    /// abbrev pub remapped_argument : Mapping → Spaces → Argument → Argument
    /// remapped_argument m s (unsigned n) = unsigned (mapped_in m s.0 n)
    /// remapped_argument m s (signed32 v) = signed32 v
    /// remapped_argument m s (signed64 v) = signed64 v
    /// remapped_argument m s (float32 v) = float32 v
    /// remapped_argument m s (float64 v) = float64 v
    /// remapped_argument m s (vector v) = vector v
    /// remapped_argument m s (memory a) = memory (remapped_memory m a)
    /// remapped_argument m s (lane n) = lane n
    /// remapped_argument m s (lanes ns) = lanes ns
    /// remapped_argument m s (block ty) = block (remapped_block m ty)
    /// remapped_argument m s (heap ty) = heap (remapped_heap m ty)
    /// remapped_argument m s (ordering o) = ordering o
    /// remapped_argument m s (labels ns) = labels ns
    /// remapped_argument m s (catches cs) = catches (map (remapped_catch m) cs)
    /// remapped_argument m s (types ts) = types (map (remapped_val m) ts)
    /// remapped_argument m s (handles hs) = handles (map (remapped_handle m) hs)
    /// remapped_argument m s (flag n) = flag n
    /// ```
    ///
    /// Definitions: [`Mapping`](mapping::Mapping), [`Spaces`](spaces::Spaces), [`Argument`](super::insn::arguments::Argument), [`unsigned`](super::insn::arguments::Argument), [`mapped_in`](mapping::mapped_in), [`signed32`](super::insn::arguments::Argument), [`signed64`](super::insn::arguments::Argument), [`float32`](super::insn::arguments::Argument), [`float64`](super::insn::arguments::Argument), [`vector`](super::insn::arguments::Argument), [`memory`](super::insn::arguments::Argument), [`remapped_memory`](instructions::remapped_memory), [`lane`](super::insn::arguments::Argument), [`lanes`](super::insn::arguments::Argument), [`block`](super::insn::arguments::Argument), [`remapped_block`](instructions::remapped_block), [`heap`](super::insn::arguments::Argument), [`remapped_heap`](instructions::remapped_heap), [`ordering`](super::insn::arguments::Argument), [`labels`](super::insn::arguments::Argument), [`catches`](super::insn::arguments::Argument), [`remapped_catch`](instructions::remapped_catch), [`types`](super::insn::arguments::Argument), [`remapped_val`](instructions::remapped_val), [`handles`](super::insn::arguments::Argument), [`remapped_handle`](instructions::remapped_handle), [`flag`](super::insn::arguments::Argument).
    type remapped_argument;
    /// The index spaces of the numbers after an immediate.
    ///
    /// ```text
    /// abbrev pub spaces_after : Argument → Spaces → Spaces
    /// spaces_after (unsigned n) s = (s.1, None)
    /// spaces_after (signed32 v) s = s
    /// spaces_after (signed64 v) s = s
    /// spaces_after (float32 v) s = s
    /// spaces_after (float64 v) s = s
    /// spaces_after (vector v) s = s
    /// spaces_after (memory a) s = s
    /// spaces_after (lane n) s = s
    /// spaces_after (lanes ns) s = s
    /// spaces_after (block ty) s = s
    /// spaces_after (heap ty) s = s
    /// spaces_after (ordering o) s = s
    /// spaces_after (labels ns) s = s
    /// spaces_after (catches cs) s = s
    /// spaces_after (types ts) s = s
    /// spaces_after (handles hs) s = s
    /// spaces_after (flag n) s = s
    /// ```
    ///
    /// Definitions: [`Argument`](super::insn::arguments::Argument), [`Spaces`](spaces::Spaces), [`unsigned`](super::insn::arguments::Argument), [`signed32`](super::insn::arguments::Argument), [`signed64`](super::insn::arguments::Argument), [`float32`](super::insn::arguments::Argument), [`float64`](super::insn::arguments::Argument), [`vector`](super::insn::arguments::Argument), [`memory`](super::insn::arguments::Argument), [`lane`](super::insn::arguments::Argument), [`lanes`](super::insn::arguments::Argument), [`block`](super::insn::arguments::Argument), [`heap`](super::insn::arguments::Argument), [`ordering`](super::insn::arguments::Argument), [`labels`](super::insn::arguments::Argument), [`catches`](super::insn::arguments::Argument), [`types`](super::insn::arguments::Argument), [`handles`](super::insn::arguments::Argument), [`flag`](super::insn::arguments::Argument).
    type spaces_after;
    /// The immediates of an opcode whose numbers are in these index spaces.
    ///
    /// ```text
    /// abbrev pub remapped_arguments : Mapping → Spaces → List Argument → List Argument
    /// remapped_arguments m s [] = []
    /// remapped_arguments m s (x ∷ xs) = remapped_argument m s x
    ///     ∷ remapped_arguments m (spaces_after x s) xs
    /// ```
    ///
    /// Definitions: [`Mapping`](mapping::Mapping), [`Spaces`](spaces::Spaces), [`Argument`](super::insn::arguments::Argument), [`remapped_argument`](instructions::remapped_argument), [`spaces_after`](instructions::spaces_after).
    type remapped_arguments;
    /// An instruction.
    ///
    /// ```text
    /// abbrev pub remapped_instruction : Mapping → Plain → Plain
    /// remapped_instruction m i = record
    ///     { op = i.op; arguments = remapped_arguments m (spaces_of i.op) i.arguments }
    /// ```
    ///
    /// Definitions: [`Mapping`](mapping::Mapping), [`Plain`](super::insn::plain::Plain), [`remapped_arguments`](instructions::remapped_arguments), [`spaces_of`](spaces::spaces_of).
    type remapped_instruction;
    /// A body: the types of its locals, and its instructions.
    ///
    /// ```text
    /// abbrev pub remapped_body : Mapping → Body → Body
    /// remapped_body m b = record
    ///     { runs = map (λ run. (run.0, remapped_val m run.1)) b.runs;
    ///     code = map (remapped_instruction m) b.code }
    /// ```
    ///
    /// Definitions: [`Mapping`](mapping::Mapping), [`Body`](super::code::bodies::Body), [`remapped_val`](instructions::remapped_val), [`remapped_instruction`](instructions::remapped_instruction).
    type remapped_body;
}

/// Bodies with instructions before and after their own.
///
/// [How to read definitions](super). The file is [`Instrumented.antt`](https://github.com/dolzhytik/dolzhytik/blob/main/crates/wasm_remap/specs/Instrumented.antt).
pub trait instrumented {
    /// The instructions to insert around the instruction of each number.
    ///
    /// ```text
    /// abbrev pub Around : Type 0
    /// Around = ℕ → Plain → List Plain
    /// ```
    ///
    /// Definitions: [`Plain`](super::insn::plain::Plain).
    type Around;
    /// Nothing in front of the end of a list, and otherwise these instructions.
    ///
    /// ```text
    /// abbrev pub unless_last : List Plain → List Plain → List Plain
    /// unless_last [] code = []
    /// unless_last (i ∷ others) code = code
    /// ```
    ///
    /// Definitions: [`Plain`](super::insn::plain::Plain).
    type unless_last;
    /// The instructions from number `n` on, with those that belong before and after each. Others follow them. Behind the last one of all is none.
    ///
    /// ```text
    /// abbrev pub woven_before : Around → Around → ℕ → (is others : List Plain) → List Plain
    /// woven_before before after n [] others = []
    /// woven_before before after n (i ∷ is) others = before n i
    ///     ++ (i ∷ (unless_last (is ++ others) (after n i)
    ///         ++ woven_before before after (suc n) is others))
    /// ```
    ///
    /// Definitions: [`Around`](instrumented::Around), [`Plain`](super::insn::plain::Plain), [`unless_last`](instrumented::unless_last).
    type woven_before;
    /// The instructions of a body, with those that belong before and after each. Behind the last one, which ends the body, is none.
    ///
    /// ```text
    /// abbrev pub woven : Around → Around → List Plain → List Plain
    /// woven before after is = woven_before before after 0 is []
    /// ```
    ///
    /// Definitions: [`Around`](instrumented::Around), [`Plain`](super::insn::plain::Plain), [`woven_before`](instrumented::woven_before).
    type woven;
    /// The body with instructions before and after its own.
    ///
    /// ```text
    /// abbrev pub instrumented_body : Around → Around → Body → Body
    /// instrumented_body before after x = record
    ///     { runs = x.runs; code = woven before after x.code }
    /// ```
    ///
    /// Definitions: [`Around`](instrumented::Around), [`Body`](super::code::bodies::Body), [`woven`](instrumented::woven).
    type instrumented_body;
    /// The bytes are a module, and the edited bytes are a module whose bodies have these instructions before and after their own. A module without code stays.
    ///
    /// ```text
    /// abbrev pub InstrumentsCode
    ///     : (before after : ℕ → Around) → (bytes edited : List ℕ) → Type 0
    /// InstrumentsCode before after = EditsCode
    ///     (λ n x. instrumented_body (before n) (after n) x ∷ [])
    /// ```
    ///
    /// Definitions: [`Around`](instrumented::Around), [`EditsCode`](begun::EditsCode), [`instrumented_body`](instrumented::instrumented_body).
    type InstrumentsCode;
}

/// What a map of indices makes of the items of the standard's sections.
///
/// - Types of entities: [`remapped_table_type`](items::remapped_table_type), [`remapped_global_type`](items::remapped_global_type), [`remapped_tag`](items::remapped_tag), [`remapped_entity`](items::remapped_entity).
/// - Items: [`remapped_imported`](items::remapped_imported), [`remapped_import`](items::remapped_import), [`space_of_export`](items::space_of_export), [`remapped_export`](items::remapped_export), [`remapped_table`](items::remapped_table), [`remapped_global`](items::remapped_global), [`remapped_table_index`](items::remapped_table_index), [`remapped_mode`](items::remapped_mode), [`remapped_elements`](items::remapped_elements), [`remapped_element`](items::remapped_element), [`remapped_data`](items::remapped_data).
///
/// [How to read definitions](super). The file is [`Items.antt`](https://github.com/dolzhytik/dolzhytik/blob/main/crates/wasm_remap/specs/Items.antt).
pub trait items {
    /// A constant expression.
    ///
    /// ```text
    /// abbrev pub remapped_expression : Mapping → List Plain → List Plain
    /// remapped_expression m = map (remapped_instruction m)
    /// ```
    ///
    /// Definitions: [`Mapping`](mapping::Mapping), [`Plain`](super::insn::plain::Plain), [`remapped_instruction`](instructions::remapped_instruction).
    type remapped_expression;
    /// A table type.
    ///
    /// ```text
    /// abbrev pub remapped_table_type : Mapping → TableType → TableType
    /// remapped_table_type m t = record
    ///     { element_type = remapped_ref m t.element_type; table64 = t.table64;
    ///     minimum = t.minimum; maximum = t.maximum; shared = t.shared }
    /// ```
    ///
    /// Definitions: [`Mapping`](mapping::Mapping), [`remapped_ref`](instructions::remapped_ref).
    type remapped_table_type;
    /// A global type.
    ///
    /// ```text
    /// abbrev pub remapped_global_type : Mapping → GlobalType → GlobalType
    /// remapped_global_type m g = record
    ///     { val_type = remapped_val m g.val_type; mutable = g.mutable; shared = g.shared }
    /// ```
    ///
    /// Definitions: [`Mapping`](mapping::Mapping), [`remapped_val`](instructions::remapped_val).
    type remapped_global_type;
    /// A tag type.
    ///
    /// ```text
    /// abbrev pub remapped_tag : Mapping → TagType → TagType
    /// remapped_tag m t = record
    ///     { kind = t.kind; func_type_idx = m spaces.Types t.func_type_idx }
    /// ```
    ///
    /// Definitions: [`Mapping`](mapping::Mapping).
    type remapped_tag;
    /// The type of an imported entity.
    ///
    /// ```text
    /// abbrev pub remapped_entity : Mapping → EntityType → EntityType
    /// remapped_entity m (Function n) = Function (m spaces.Types n)
    /// remapped_entity m (Table t) = Table (remapped_table_type m t)
    /// remapped_entity m (Memory t) = Memory t
    /// remapped_entity m (Global g) = Global (remapped_global_type m g)
    /// remapped_entity m (Tag t) = Tag (remapped_tag m t)
    /// remapped_entity m (FunctionExact n) = FunctionExact (m spaces.Types n)
    /// ```
    ///
    /// Definitions: [`Mapping`](mapping::Mapping), [`remapped_table_type`](items::remapped_table_type), [`remapped_global_type`](items::remapped_global_type), [`remapped_tag`](items::remapped_tag).
    type remapped_entity;
    /// What a module imports from another.
    ///
    /// ```text
    /// abbrev pub remapped_imported : Mapping → Imported → Imported
    /// remapped_imported m (single name entity) = single name (remapped_entity m entity)
    /// remapped_imported m (named items) = named
    ///     (map (λ item. (item.0, remapped_entity m item.1)) items)
    /// remapped_imported m (alike entity names) = alike (remapped_entity m entity) names
    /// ```
    ///
    /// Definitions: [`Mapping`](mapping::Mapping), [`Imported`](super::sections::imports::Imported), [`single`](super::sections::imports::Imported), [`remapped_entity`](items::remapped_entity), [`named`](super::sections::imports::Imported), [`alike`](super::sections::imports::Imported).
    type remapped_imported;
    /// An entry of an import section.
    ///
    /// ```text
    /// abbrev pub remapped_import : Mapping → ImportItem → ImportItem
    /// remapped_import m i = record
    ///     { module_name = i.module_name; imported = remapped_imported m i.imported }
    /// ```
    ///
    /// Definitions: [`Mapping`](mapping::Mapping), [`ImportItem`](super::sections::imports::ImportItem), [`remapped_imported`](items::remapped_imported).
    type remapped_import;
    /// The index space of an export.
    ///
    /// ```text
    /// abbrev pub space_of_export : ExportKind → IndexSpace
    /// space_of_export exports.Func = spaces.Functions
    /// space_of_export exports.Table = spaces.Tables
    /// space_of_export exports.Memory = spaces.Memories
    /// space_of_export exports.Global = spaces.Globals
    /// space_of_export exports.Tag = spaces.Tags
    /// ```
    type space_of_export;
    /// An export.
    ///
    /// ```text
    /// abbrev pub remapped_export : Mapping → ExportItem → ExportItem
    /// remapped_export m e = record
    ///     { name = e.name; kind = e.kind; index = m (space_of_export e.kind) e.index }
    /// ```
    ///
    /// Definitions: [`Mapping`](mapping::Mapping), [`ExportItem`](super::sections::exports::ExportItem), [`space_of_export`](items::space_of_export).
    type remapped_export;
    /// A table, with the expression of its initial value.
    ///
    /// ```text
    /// abbrev pub remapped_table : Mapping → TableItem → TableItem
    /// remapped_table m t = record
    ///     { table_type = remapped_table_type m t.table_type;
    ///     init = option_map (remapped_expression m) t.init }
    /// ```
    ///
    /// Definitions: [`Mapping`](mapping::Mapping), [`TableItem`](super::sections::tables::TableItem), [`remapped_table_type`](items::remapped_table_type), [`remapped_expression`](items::remapped_expression).
    type remapped_table;
    /// A global.
    ///
    /// ```text
    /// abbrev pub remapped_global : Mapping → GlobalItem → GlobalItem
    /// remapped_global m g = record
    ///     { global_type = remapped_global_type m g.global_type;
    ///     init = remapped_expression m g.init }
    /// ```
    ///
    /// Definitions: [`Mapping`](mapping::Mapping), [`GlobalItem`](super::sections::globals::GlobalItem), [`remapped_global_type`](items::remapped_global_type), [`remapped_expression`](items::remapped_expression).
    type remapped_global;
    /// The table of an active element segment. If none is given, it is table 0.
    ///
    /// ```text
    /// abbrev pub remapped_table_index : Mapping → Option ℕ → Option ℕ
    /// remapped_table_index m (Some n) = Some (m spaces.Tables n)
    /// remapped_table_index m None = cond (m spaces.Tables 0 == 0) None
    ///     (Some (m spaces.Tables 0))
    /// ```
    ///
    /// Definitions: [`Mapping`](mapping::Mapping).
    type remapped_table_index;
    /// The mode of an element segment.
    ///
    /// ```text
    /// abbrev pub remapped_mode : Mapping → SegmentMode (List Plain) → SegmentMode (List Plain)
    /// remapped_mode m passive = passive
    /// remapped_mode m declared = declared
    /// remapped_mode m (active table offset) = active (remapped_table_index m table)
    ///     (remapped_expression m offset)
    /// ```
    ///
    /// Definitions: [`Mapping`](mapping::Mapping), [`SegmentMode`](super::sections::elements::SegmentMode), [`Plain`](super::insn::plain::Plain), [`passive`](super::sections::elements::SegmentMode), [`declared`](super::sections::elements::SegmentMode), [`active`](super::sections::elements::SegmentMode), [`remapped_table_index`](items::remapped_table_index), [`remapped_expression`](items::remapped_expression).
    type remapped_mode;
    /// The elements of a segment.
    ///
    /// ```text
    /// abbrev pub remapped_elements
    ///     : Mapping → ElementList (List Plain) → ElementList (List Plain)
    /// remapped_elements m (functions fs) = functions (map (m spaces.Functions) fs)
    /// remapped_elements m (expressions ty es) = expressions (remapped_ref m ty)
    ///     (map (remapped_expression m) es)
    /// ```
    ///
    /// Definitions: [`Mapping`](mapping::Mapping), [`ElementList`](super::sections::elements::ElementList), [`Plain`](super::insn::plain::Plain), [`functions`](super::sections::elements::ElementList), [`expressions`](super::sections::elements::ElementList), [`remapped_ref`](instructions::remapped_ref), [`remapped_expression`](items::remapped_expression).
    type remapped_elements;
    /// An element segment.
    ///
    /// ```text
    /// abbrev pub remapped_element
    ///     : Mapping → ElementItem (List Plain) → ElementItem (List Plain)
    /// remapped_element m e = record
    ///     { segment_mode = remapped_mode m e.segment_mode;
    ///     elements = remapped_elements m e.elements }
    /// ```
    ///
    /// Definitions: [`Mapping`](mapping::Mapping), [`ElementItem`](super::sections::elements::ElementItem), [`Plain`](super::insn::plain::Plain), [`remapped_mode`](items::remapped_mode), [`remapped_elements`](items::remapped_elements).
    type remapped_element;
    /// A data segment.
    ///
    /// ```text
    /// abbrev pub remapped_data : Mapping → DataItem → DataItem
    /// remapped_data m (active_data memory offset bytes) = active_data
    ///     (m spaces.Memories memory) (remapped_expression m offset) bytes
    /// remapped_data m (passive_data bytes) = passive_data bytes
    /// ```
    ///
    /// Definitions: [`Mapping`](mapping::Mapping), [`DataItem`](super::sections::data_segments::DataItem), [`active_data`](super::sections::data_segments::DataItem), [`remapped_expression`](items::remapped_expression), [`passive_data`](super::sections::data_segments::DataItem).
    type remapped_data;
}

/// Maps of indices, and where the errors of a map come from.
///
/// [How to read definitions](super). The file is [`Mapping.antt`](https://github.com/dolzhytik/dolzhytik/blob/main/crates/wasm_remap/specs/Mapping.antt).
pub trait mapping {
    /// For each index space, the new index of each old one.
    ///
    /// ```text
    /// abbrev pub Mapping : Type 0
    /// Mapping = IndexSpace → ℕ → ℕ
    /// ```
    type Mapping;
    /// The new indices are below 2^32.
    ///
    /// ```text
    /// abbrev pub IsSmall : Mapping → Type 0
    /// IsSmall m = (space : IndexSpace) (n : ℕ) → n < 2 ^ 32 → m space n < 2 ^ 32
    /// ```
    ///
    /// Definitions: [`Mapping`](mapping::Mapping).
    type IsSmall;
    /// The mapping has the new index of each index that the map accepts. What it has for rejected indices is free, so a result that is the same by each such mapping does not depend on them.
    ///
    /// ```text
    /// abbrev pub Follows : {E : Type 0} → Mapping → (IndexSpace → ℕ → E → Type 0) → Mapping
    ///     → Type 0
    /// Follows {E = E} mapped rejects m = (space : IndexSpace) (n : ℕ)
    ///     → ((e : E) → rejects space n e → ⊥) → m space n ≡ mapped space n
    /// ```
    ///
    /// Definitions: [`Mapping`](mapping::Mapping).
    type Follows;
    /// A number, which is an index if it has an index space.
    ///
    /// ```text
    /// abbrev pub mapped_in : Mapping → Option IndexSpace → ℕ → ℕ
    /// mapped_in m None n = n
    /// mapped_in m (Some space) n = m space n
    /// ```
    ///
    /// Definitions: [`Mapping`](mapping::Mapping).
    type mapped_in;
    /// A pair whose first number is mapped.
    ///
    /// ```text
    /// abbrev pub mapped_first : {X : Type 0} → Mapping → Option IndexSpace → ℕ × X → ℕ × X
    /// mapped_first m space p = (mapped_in m space p.0, p.1)
    /// ```
    ///
    /// Definitions: [`Mapping`](mapping::Mapping), [`mapped_in`](mapping::mapped_in).
    type mapped_first;
    /// The map rejects some index with this error.
    ///
    /// ```text
    /// abbrev pub IsRejected : {E : Type 0} → (IndexSpace → ℕ → E → Type 0) → E → Type 0
    /// IsRejected rejects e = (space : IndexSpace) × (n : ℕ) × rejects space n e
    /// ```
    type IsRejected;
    /// The map rejected an index with this error, or there was no memory.
    ///
    /// ```text
    /// abbrev pub ComesFrom : {E : Type 0} → (IndexSpace → ℕ → E → Type 0) → RemapError E
    ///     → Type 0
    /// ComesFrom rejects (Read fault) = ⊥
    /// ComesFrom rejects (Refused refused) = refused ≡ refusals.Memory
    /// ComesFrom rejects (Offsets offset) = ⊥
    /// ComesFrom rejects (Index e) = IsRejected rejects e
    /// ```
    ///
    /// Definitions: [`IsRejected`](mapping::IsRejected).
    type ComesFrom;
}

/// The places of sections in a module.
///
/// - The standard's order: [`order`](places::order), [`rank_among`](places::rank_among), [`rank_of`](places::rank_of).
/// - Places: [`lacks`](places::lacks), [`IsFound`](places::IsFound), [`IsFree`](places::IsFree), [`ComesBefore`](places::ComesBefore), [`EndsBefore`](places::EndsBefore), [`BeginsPlaced`](places::BeginsPlaced), [`IsPlace`](places::IsPlace).
///
/// [How to read definitions](super). The file is [`Places.antt`](https://github.com/dolzhytik/dolzhytik/blob/main/crates/wasm_remap/specs/Places.antt).
pub trait places {
    /// The sections of a list, without their offsets.
    ///
    /// ```text
    /// abbrev pub sections_in : List Located → List Section
    /// sections_in = map (λ s. s.section)
    /// ```
    ///
    /// Definitions: [`Located`](super::reader::iterating::Located), [`Section`](super::reader::outlines::Section).
    type sections_in;
    /// The id and the payload of a section.
    ///
    /// ```text
    /// abbrev pub copied : Section → ℕ × List ℕ
    /// copied s = (s.id, s.payload)
    /// ```
    ///
    /// Definitions: [`Section`](super::reader::outlines::Section).
    type copied;
    /// The module gains these sections.
    ///
    /// ```text
    /// abbrev pub AppendsSections : List (ℕ × List ℕ) → List ℕ → List ℕ → Type 0
    /// AppendsSections news old new = (before : List (ℕ × List ℕ))
    ///     → DecodesWhole wasm_module old before
    ///     → DecodesWhole wasm_module new (before ++ news)
    /// ```
    ///
    /// Definitions: [`DecodesWhole`](super::base::decoding::DecodesWhole), [`wasm_module`](super::base::formats::wasm_module).
    type AppendsSections;
    /// The ids of sections, in the order of the standard.
    ///
    /// ```text
    /// abbrev pub order : List ℕ
    /// order = number_of ids.Types ∷ number_of ids.Import ∷ number_of ids.Function
    ///     ∷ number_of ids.Table ∷ number_of ids.Memory ∷ number_of ids.Tag
    ///     ∷ number_of ids.Global ∷ number_of ids.Export ∷ number_of ids.Start
    ///     ∷ number_of ids.Element ∷ number_of ids.DataCount ∷ number_of ids.Code
    ///     ∷ number_of ids.Data ∷ []
    /// ```
    ///
    /// Definitions: [`number_of`](super::base::section_id::number_of).
    type order;
    /// The place of an id in the list, counted from `n`, and 0 if the list lacks it.
    ///
    /// ```text
    /// abbrev pub rank_among : ℕ → List ℕ → ℕ → ℕ
    /// rank_among n [] id = 0
    /// rank_among n (k ∷ ks) id = cond (id == k) n (rank_among (suc n) ks id)
    /// ```
    type rank_among;
    /// The place of an id in the order, counted from 1. Custom sections and other ids have 0.
    ///
    /// ```text
    /// abbrev pub rank_of : ℕ → ℕ
    /// rank_of = rank_among 1 order
    /// ```
    ///
    /// Definitions: [`rank_among`](places::rank_among), [`order`](places::order).
    type rank_of;
    /// No section has this id.
    ///
    /// ```text
    /// abbrev pub lacks : ℕ → List Section → Type 0
    /// lacks id = AllByRecursion (λ s. s.id ≢ id)
    /// ```
    ///
    /// Definitions: [`Section`](super::reader::outlines::Section).
    type lacks;
    /// The first section of this id, and those before and after it.
    ///
    /// ```text
    /// pub record IsFound (id : ℕ) (before : List Section) (s : Section)
    ///     (after all : List Section) : Type 0 where
    ///   pub split : all ≡ before ++ s ∷ after
    ///   pub is : s.id ≡ id
    ///   pub first : lacks id before
    /// ```
    ///
    /// Definitions: [`Section`](super::reader::outlines::Section), [`lacks`](places::lacks).
    type IsFound;
    /// The section has no place in the standard's order.
    ///
    /// ```text
    /// abbrev pub IsFree : Section → Type 0
    /// IsFree s = rank_of s.id ≡ 0
    /// ```
    ///
    /// Definitions: [`Section`](super::reader::outlines::Section), [`rank_of`](places::rank_of).
    type IsFree;
    /// The section comes before one of this id in the standard's order.
    ///
    /// ```text
    /// abbrev pub ComesBefore : ℕ → Section → Type 0
    /// ComesBefore id s = (rank_of s.id ≢ 0) × (rank_of s.id < rank_of id)
    /// ```
    ///
    /// Definitions: [`Section`](super::reader::outlines::Section), [`rank_of`](places::rank_of).
    type ComesBefore;
    /// The last of the sections comes before one of this id.
    ///
    /// ```text
    /// abbrev pub EndsBefore : ℕ → List Section → Type 0
    /// EndsBefore id ss = (front : List Section) × (s : Section) × (ss ≡ front ++ s ∷ [])
    ///     × ComesBefore id s
    /// ```
    ///
    /// Definitions: [`Section`](super::reader::outlines::Section), [`ComesBefore`](places::ComesBefore).
    type EndsBefore;
    /// The first of the sections has a place in the order, if there is one.
    ///
    /// ```text
    /// abbrev pub BeginsPlaced : List Section → Type 0
    /// BeginsPlaced [] = Unit {0}
    /// BeginsPlaced (s ∷ ss) = rank_of s.id ≢ 0
    /// ```
    ///
    /// Definitions: [`Section`](super::reader::outlines::Section), [`rank_of`](places::rank_of).
    type BeginsPlaced;
    /// The place of a new section of this id between others: behind the last one that comes before it in the order. If none does, it is in front of the first one that has a place in it.
    ///
    /// ```text
    /// pub record IsPlace (id : ℕ) (before after : List Section) : Type 0 where
    ///   pub none_after : AllByRecursion (λ s. ComesBefore id s → ⊥) after
    ///   pub behind : EndsBefore id before
    ///       ⊎ (AllByRecursion IsFree before × BeginsPlaced after)
    /// ```
    ///
    /// Definitions: [`Section`](super::reader::outlines::Section), [`ComesBefore`](places::ComesBefore), [`EndsBefore`](places::EndsBefore), [`IsFree`](places::IsFree), [`BeginsPlaced`](places::BeginsPlaced).
    type IsPlace;
}

/// Modules without some of their functions.
///
/// - New indices: [`is_removed`](removed::is_removed), [`numbered`](removed::numbered), [`HasNone`](removed::HasNone), [`IsUse`](removed::IsUse), [`or_zero`](removed::or_zero), [`by_table`](removed::by_table), [`Renumbers`](removed::Renumbers).
/// - Items: [`unflagged`](removed::unflagged), [`stays`](removed::stays), [`staying`](removed::staying), [`trimmed_name`](removed::trimmed_name), [`trimmed`](removed::trimmed), [`IsTrimmed`](removed::IsTrimmed).
/// - Modules: [`ImportsFunctions`](removed::ImportsFunctions), [`RemovesFunctions`](removed::RemovesFunctions).
/// - Errors: [`ExplainsTrimmed`](removed::ExplainsTrimmed), [`IsTrimmedBy`](removed::IsTrimmedBy), [`HasImported`](removed::HasImported), [`ExplainsCount`](removed::ExplainsCount), [`ExplainsFlags`](removed::ExplainsFlags), [`ExplainsRemoval`](removed::ExplainsRemoval).
///
/// [How to read definitions](super). The file is [`Removed.antt`](https://github.com/dolzhytik/dolzhytik/blob/main/crates/wasm_remap/specs/Removed.antt).
pub trait removed {
    /// Whether the function of this index is removed. One past the flags is not.
    ///
    /// ```text
    /// abbrev pub is_removed : List Bool → ℕ → Bool
    /// is_removed removed n = get_or removed n false
    /// ```
    type is_removed;
    /// The new indices of functions, the first one `next`. A removed function has none.
    ///
    /// ```text
    /// abbrev pub numbered : ℕ → List Bool → List (Option ℕ)
    /// numbered next [] = []
    /// numbered next (true ∷ flags) = None ∷ numbered next flags
    /// numbered next (false ∷ flags) = Some next ∷ numbered (next + 1) flags
    /// ```
    type numbered;
    /// The table has no index for this function.
    ///
    /// ```text
    /// abbrev pub HasNone : List (Option ℕ) → IndexSpace → ℕ → Type 0
    /// HasNone table space n = (is_same space spaces.Functions ≡ true)
    ///     × (get_or table n None ≡ None)
    /// ```
    ///
    /// Definitions: [`is_same`](shifted::is_same).
    type HasNone;
    /// The error of a use of this function, for which the table has no index. It is removed, or past the end of the table.
    ///
    /// ```text
    /// pub record IsUse (table : List (Option ℕ)) (space : IndexSpace) (n : ℕ)
    ///     (e : RemoveError) : Type 0 where
    ///   pub none : HasNone table space n
    ///   pub is : e ≡ cond (nat_lt n (length table)) (InUse n) (Unlisted n)
    /// ```
    ///
    /// Definitions: [`HasNone`](removed::HasNone).
    type IsUse;
    /// The index that is there, or else 0.
    ///
    /// ```text
    /// abbrev pub or_zero : Option ℕ → ℕ
    /// or_zero None = 0
    /// or_zero (Some n) = n
    /// ```
    type or_zero;
    /// The map of functions by a table. Other indices stay.
    ///
    /// ```text
    /// abbrev pub by_table : List (Option ℕ) → Mapping
    /// by_table table space n = cond (is_same space spaces.Functions)
    ///     (or_zero (get_or table n None)) n
    /// ```
    ///
    /// Definitions: [`Mapping`](mapping::Mapping), [`is_same`](shifted::is_same), [`or_zero`](removed::or_zero).
    type by_table;
    /// The mapping numbers the functions that stay, from 0 on. Other indices stay. What it has for removed functions is free.
    ///
    /// ```text
    /// abbrev pub Renumbers : List Bool → Mapping → Type 0
    /// Renumbers removed m = (space : IndexSpace) (n : ℕ)
    ///     → (HasNone (numbered 0 removed) space n → ⊥)
    ///     → m space n ≡ by_table (numbered 0 removed) space n
    /// ```
    ///
    /// Definitions: [`Mapping`](mapping::Mapping), [`HasNone`](removed::HasNone), [`numbered`](removed::numbered), [`by_table`](removed::by_table).
    type Renumbers;
    /// The items whose flag is not set. Items past the flags stay.
    ///
    /// ```text
    /// abbrev pub unflagged : {X : Type 0} → List Bool → List X → List X
    /// unflagged flags [] = []
    /// unflagged [] (x ∷ xs) = x ∷ xs
    /// unflagged (true ∷ flags) (x ∷ xs) = unflagged flags xs
    /// unflagged (false ∷ flags) (x ∷ xs) = x ∷ unflagged flags xs
    /// ```
    type unflagged;
    /// Whether a pair is of a function that stays.
    ///
    /// ```text
    /// abbrev pub stays : {X : Type 0} → List Bool → ℕ × X → Bool
    /// stays removed p = not (is_removed removed p.0)
    /// ```
    ///
    /// Definitions: [`is_removed`](removed::is_removed).
    type stays;
    /// The pairs without those of removed functions, if the first numbers are functions.
    ///
    /// ```text
    /// abbrev pub staying : {X : Type 0} → List Bool → Option IndexSpace → List (ℕ × X)
    ///     → List (ℕ × X)
    /// staying removed None ps = ps
    /// staying removed (Some space) ps = cond (is_same space spaces.Functions)
    ///     (filter (stays removed) ps) ps
    /// ```
    ///
    /// Definitions: [`is_same`](shifted::is_same), [`stays`](removed::stays).
    type staying;
    /// A subsection of a name section, without the names of removed functions, of their locals and of their labels.
    ///
    /// ```text
    /// abbrev pub trimmed_name : List Bool → NameItem → NameItem
    /// trimmed_name removed (Module n) = Module n
    /// trimmed_name removed (Map id ns) = Map id
    ///     (staying removed (space_among name_spaces id) ns)
    /// trimmed_name removed (Indirect id ms) = Indirect id
    ///     (staying removed (space_among name_spaces id) ms)
    /// trimmed_name removed (Other id bytes) = Other id bytes
    /// ```
    ///
    /// Definitions: [`NameItem`](super::custom::names::NameItem), [`Module`](super::custom::names::NameItem), [`Map`](super::custom::names::NameItem), [`staying`](removed::staying), [`space_among`](customs::space_among), [`name_spaces`](customs::name_spaces), [`Indirect`](super::custom::names::NameItem), [`Other`](super::custom::names::NameItem).
    type trimmed_name;
    /// The content without the removed functions. `defined` has the flags of those that the module defines.
    ///
    /// ```text
    /// abbrev pub trimmed : List Bool → List Bool → Contents → Contents
    /// trimmed removed defined (Functions xs) = Functions (unflagged defined xs)
    /// trimmed removed defined (Bodies xs) = Bodies (unflagged defined xs)
    /// trimmed removed defined (Names xs) = Names (map (trimmed_name removed) xs)
    /// trimmed removed defined x = x
    /// ```
    ///
    /// Definitions: [`Contents`](super::reader::kinds::Contents), [`Functions`](super::reader::kinds::Contents), [`unflagged`](removed::unflagged), [`Bodies`](super::reader::kinds::Contents), [`Names`](super::reader::kinds::Contents), [`trimmed_name`](removed::trimmed_name).
    type trimmed;
    /// The section decodes to items, and the payload is the minimal encoding of those without the removed functions, with each index mapped, if they have one. They have if the new indices are below 2^32, and the section has fewer than 2^26 bytes.
    ///
    /// ```text
    /// pub record IsTrimmed (removed defined : List Bool) (m : Mapping) (s : Section)
    ///     (payload : List ℕ) : Type 0 where
    ///   pub items : Contents
    ///   pub decoded : content (section_kind_of s) standard s.payload items
    ///   pub appended : AppendsContentIn admitted (remapped m (trimmed removed defined items))
    ///       [] payload
    ///   pub has : IsSmall m → length s.payload < 2 ^ 26
    ///       → HasContentIn admitted (remapped m (trimmed removed defined items))
    /// ```
    ///
    /// Definitions: [`Mapping`](mapping::Mapping), [`Section`](super::reader::outlines::Section), [`Contents`](super::reader::kinds::Contents), [`content`](super::reader::kinds::content), [`section_kind_of`](super::reader::outlines::section_kind_of), [`standard`](super::base::numbers::Mode), [`AppendsContentIn`](super::reader::sections::AppendsContentIn), [`admitted`](super::base::numbers::Grammar), [`remapped`](sections::remapped), [`trimmed`](removed::trimmed), [`IsSmall`](mapping::IsSmall), [`HasContentIn`](super::reader::sections::HasContentIn).
    type IsTrimmed;
    /// The number of functions that the sections import.
    ///
    /// ```text
    /// abbrev pub ImportsFunctions : List Section → ℕ → Type 0
    /// ImportsFunctions all n =
    ///     (lacks (number_of ids.Import) all × (n ≡ 0))
    ///     ⊎ ((before after : List Section) × (s : Section)
    ///         × IsFound (number_of ids.Import) before s after all
    ///         × ((xs : List _) × content (section_kind_of s) standard s.payload (Imports xs)
    ///             × (n ≡ imported spaces.Functions xs)))
    /// ```
    ///
    /// Definitions: [`Section`](super::reader::outlines::Section), [`lacks`](places::lacks), [`number_of`](super::base::section_id::number_of), [`IsFound`](places::IsFound), [`content`](super::reader::kinds::content), [`section_kind_of`](super::reader::outlines::section_kind_of), [`standard`](super::base::numbers::Mode), [`Imports`](super::reader::kinds::Contents), [`imported`](imported::imported).
    type ImportsFunctions;
    /// The new module has the sections of the old one without the removed functions, for each mapping that numbers those that stay: so no index that is mapped is that of a removed function. No removed function is imported.
    ///
    /// ```text
    /// pub record RemovesFunctions (removed : List Bool) (offsets : Offsets)
    ///     (bytes new : List ℕ) : Type 0 where
    ///   pub sections : List Section
    ///   pub has : HasSections bytes sections
    ///   pub imported : ℕ
    ///   pub imports : ImportsFunctions sections imported
    ///   pub stay : (n : ℕ) → n < imported → is_removed removed n ≡ false
    ///   pub changes : (m : Mapping) → Renumbers removed m
    ///       → ChangesModule (IsTrimmed removed (drop imported removed) m) offsets bytes new
    /// ```
    ///
    /// Definitions: [`Section`](super::reader::outlines::Section), [`HasSections`](super::reader::outlines::HasSections), [`ImportsFunctions`](removed::ImportsFunctions), [`is_removed`](removed::is_removed), [`Mapping`](mapping::Mapping), [`Renumbers`](removed::Renumbers), [`ChangesModule`](sections::ChangesModule), [`IsTrimmed`](removed::IsTrimmed).
    type RemovesFunctions;
    /// Why the items of a section are not changed.
    ///
    /// ```text
    /// abbrev pub ExplainsTrimmed
    ///     : (removed defined : List Bool) → Section → RemapError RemoveError → Type 0
    /// ExplainsTrimmed removed defined = ExplainsContent
    ///     (λ x. remapped (by_table (numbered 0 removed)) (trimmed removed defined x))
    ///     (IsUse (numbered 0 removed))
    /// ```
    ///
    /// Definitions: [`Section`](super::reader::outlines::Section), [`ExplainsContent`](errors::ExplainsContent), [`remapped`](sections::remapped), [`by_table`](removed::by_table), [`numbered`](removed::numbered), [`trimmed`](removed::trimmed), [`IsUse`](removed::IsUse).
    type ExplainsTrimmed;
    /// The change of a section for a removal.
    ///
    /// ```text
    /// abbrev pub IsTrimmedBy : (removed defined : List Bool) → Section → List ℕ → Type 0
    /// IsTrimmedBy removed defined s payload = (m : Mapping) → Renumbers removed m
    ///     → IsTrimmed removed defined m s payload
    /// ```
    ///
    /// Definitions: [`Section`](super::reader::outlines::Section), [`Mapping`](mapping::Mapping), [`Renumbers`](removed::Renumbers), [`IsTrimmed`](removed::IsTrimmed).
    type IsTrimmedBy;
    /// The bytes are a module that imports this number of functions.
    ///
    /// ```text
    /// pub record HasImported (bytes : List ℕ) (imported : ℕ) : Type 0 where
    ///   pub sections : List Section
    ///   pub has : HasSections bytes sections
    ///   pub imports : ImportsFunctions sections imported
    /// ```
    ///
    /// Definitions: [`Section`](super::reader::outlines::Section), [`HasSections`](super::reader::outlines::HasSections), [`ImportsFunctions`](removed::ImportsFunctions).
    type HasImported;
    /// Why the imported functions are not counted: the bytes are no module, the imports do not decode, or there are 2^32 or more.
    ///
    /// ```text
    /// abbrev pub ExplainsCount : {E : Type 0} → List ℕ → RemapError E → Type 0
    /// ExplainsCount bytes (errors.Read fault) = RejectsWhole wasm_module padded bytes
    ///     ⊎ HasFirst (number_of ids.Import) bytes
    ///     (λ s. RejectsWhole (content (section_kind_of s)) standard s.payload)
    /// ExplainsCount bytes (errors.Refused refused) = refused ≢ refusals.Memory
    ///     → HasFirst (number_of ids.Import) bytes
    ///     (λ s. (xs : List ImportItem)
    ///     × content (section_kind_of s) standard s.payload (Imports xs)
    ///     × (imported spaces.Functions xs < 2 ^ 32 → ⊥))
    /// ExplainsCount bytes (errors.Index e) = ⊥
    /// ExplainsCount bytes (errors.Offsets offset) = ⊥
    /// ```
    ///
    /// Definitions: [`RejectsWhole`](super::base::continuing::RejectsWhole), [`wasm_module`](super::base::formats::wasm_module), [`padded`](super::base::numbers::Mode), [`HasFirst`](errors::HasFirst), [`number_of`](super::base::section_id::number_of), [`content`](super::reader::kinds::content), [`section_kind_of`](super::reader::outlines::section_kind_of), [`standard`](super::base::numbers::Mode), [`ImportItem`](super::sections::imports::ImportItem), [`Imports`](super::reader::kinds::Contents), [`imported`](imported::imported).
    type ExplainsCount;
    /// Why the flags do not fit the module: an imported function is to be removed, or there are 2^32 flags or more.
    ///
    /// ```text
    /// abbrev pub ExplainsFlags : List Bool → (imported : ℕ) → RemapError RemoveError → Type 0
    /// ExplainsFlags removed imported (errors.Index (Imported n)) = (n < imported)
    ///     × (is_removed removed n ≡ true)
    /// ExplainsFlags removed imported (errors.Refused refused) = refused ≢ refusals.Memory
    ///     → length removed < 2 ^ 32 → ⊥
    /// ExplainsFlags removed imported e = ⊥
    /// ```
    ///
    /// Definitions: [`is_removed`](removed::is_removed).
    type ExplainsFlags;
    /// Why functions are not removed from a module.
    ///
    /// ```text
    /// abbrev pub ExplainsRemoval
    ///     : List Bool → Offsets → List ℕ → RemapError RemoveError → Type 0
    /// ExplainsRemoval removed offsets bytes e =
    ///     ExplainsCount bytes e
    ///     ⊎ ((imported : ℕ) × HasImported bytes imported
    ///         × (ExplainsFlags removed imported e
    ///             ⊎ ExplainsModule (ExplainsChange
    ///                 (IsTrimmedBy removed (drop imported removed))
    ///                 (ExplainsTrimmed removed (drop imported removed))) offsets bytes e))
    /// ```
    ///
    /// Definitions: [`ExplainsCount`](removed::ExplainsCount), [`HasImported`](removed::HasImported), [`ExplainsFlags`](removed::ExplainsFlags), [`ExplainsModule`](errors::ExplainsModule), [`ExplainsChange`](errors::ExplainsChange), [`IsTrimmedBy`](removed::IsTrimmedBy), [`ExplainsTrimmed`](removed::ExplainsTrimmed).
    type ExplainsRemoval;
}

/// What a map of indices makes of the content of a section, and the promises of the calls that map.
///
/// - Modules: [`AreChanged`](sections::AreChanged), [`ChangesModule`](sections::ChangesModule), [`IsRemapped`](sections::IsRemapped), [`AreRemapped`](sections::AreRemapped), [`RemapsModule`](sections::RemapsModule).
///
/// [How to read definitions](super). The file is [`Sections.antt`](https://github.com/dolzhytik/dolzhytik/blob/main/crates/wasm_remap/specs/Sections.antt).
pub trait sections {
    /// The content with each index mapped. The frames of a core dump have functions of the dumped modules, which stay.
    ///
    /// ```text
    /// abbrev pub remapped : Mapping → Contents → Contents
    /// remapped m (Bodies xs) = Bodies (map (remapped_body m) xs)
    /// remapped m (Segments xs) = Segments (map (remapped_data m) xs)
    /// remapped m (DataCount n) = DataCount n
    /// remapped m (Elements xs) = Elements (map (remapped_element m) xs)
    /// remapped m (Exports xs) = Exports (map (remapped_export m) xs)
    /// remapped m (Functions xs) = Functions (map (m spaces.Types) xs)
    /// remapped m (Globals xs) = Globals (map (remapped_global m) xs)
    /// remapped m (Imports xs) = Imports (map (remapped_import m) xs)
    /// remapped m (Memories xs) = Memories xs
    /// remapped m (Start n) = Start (m spaces.Functions n)
    /// remapped m (Tables xs) = Tables (map (remapped_table m) xs)
    /// remapped m (Tags xs) = Tags (map (remapped_tag m) xs)
    /// remapped m (Names xs) = Names (map (remapped_name m) xs)
    /// remapped m (Linking xs) = Linking (map (remapped_link m) xs)
    /// remapped m (Producers xs) = Producers xs
    /// remapped m (Hints xs) = Hints (map (remapped_hints m) xs)
    /// remapped m (Core n) = Core n
    /// remapped m (CoreModules xs) = CoreModules xs
    /// remapped m (CoreInstances xs) = CoreInstances (map (remapped_instance m) xs)
    /// remapped m (CoreStack x) = CoreStack x
    /// remapped m (Custom x) = Custom x
    /// remapped m (Raw x) = Raw x
    /// remapped m (Types xs) = Types (map (remapped_type m) xs)
    /// remapped m (TargetFeatures xs) = TargetFeatures xs
    /// remapped m (SourceMappingUrl x) = SourceMappingUrl x
    /// remapped m (ExternalDebugInfo x) = ExternalDebugInfo x
    /// remapped m (BuildId x) = BuildId x
    /// remapped m (Dylink xs) = Dylink xs
    /// remapped m (Relocations x) = Relocations
    ///     (x.0, (x.1.0, map (remapped_relocation m) x.1.1))
    /// remapped m (InstructionFrequencies xs) = InstructionFrequencies
    ///     (map (remapped_hints_in m) xs)
    /// remapped m (CompilationOrders xs) = CompilationOrders (map (remapped_hints_in m) xs)
    /// remapped m (CallTargets xs) = CallTargets (map (remapped_targets m) xs)
    /// ```
    ///
    /// Definitions: [`Mapping`](mapping::Mapping), [`Contents`](super::reader::kinds::Contents), [`Bodies`](super::reader::kinds::Contents), [`remapped_body`](instructions::remapped_body), [`Segments`](super::reader::kinds::Contents), [`remapped_data`](items::remapped_data), [`DataCount`](super::reader::kinds::Contents), [`Elements`](super::reader::kinds::Contents), [`remapped_element`](items::remapped_element), [`Exports`](super::reader::kinds::Contents), [`remapped_export`](items::remapped_export), [`Functions`](super::reader::kinds::Contents), [`Globals`](super::reader::kinds::Contents), [`remapped_global`](items::remapped_global), [`Imports`](super::reader::kinds::Contents), [`remapped_import`](items::remapped_import), [`Memories`](super::reader::kinds::Contents), [`Start`](super::reader::kinds::Contents), [`Tables`](super::reader::kinds::Contents), [`remapped_table`](items::remapped_table), [`Tags`](super::reader::kinds::Contents), [`remapped_tag`](items::remapped_tag), [`Names`](super::reader::kinds::Contents), [`remapped_name`](customs::remapped_name), [`Linking`](super::reader::kinds::Contents), [`remapped_link`](customs::remapped_link), [`Producers`](super::reader::kinds::Contents), [`Hints`](super::reader::kinds::Contents), [`remapped_hints`](customs::remapped_hints), [`Core`](super::reader::kinds::Contents), [`CoreModules`](super::reader::kinds::Contents), [`CoreInstances`](super::reader::kinds::Contents), [`remapped_instance`](customs::remapped_instance), [`CoreStack`](super::reader::kinds::Contents), [`Custom`](super::reader::kinds::Contents), [`Raw`](super::reader::kinds::Contents), [`Types`](super::reader::kinds::Contents), [`remapped_type`](types::remapped_type), [`TargetFeatures`](super::reader::kinds::Contents), [`SourceMappingUrl`](super::reader::kinds::Contents), [`ExternalDebugInfo`](super::reader::kinds::Contents), [`BuildId`](super::reader::kinds::Contents), [`Dylink`](super::reader::kinds::Contents), [`Relocations`](super::reader::kinds::Contents), [`remapped_relocation`](customs::remapped_relocation), [`InstructionFrequencies`](super::reader::kinds::Contents), [`remapped_hints_in`](customs::remapped_hints_in), [`CompilationOrders`](super::reader::kinds::Contents), [`CallTargets`](super::reader::kinds::Contents), [`remapped_targets`](customs::remapped_targets).
    type remapped;
    /// The section decodes to items, and the buffer gains the minimal encoding of these items with each index mapped, if they have one. They have if the new indices are below 2^32, and the section has fewer than 2^26 bytes, so that no size prefix is too long.
    ///
    /// ```text
    /// pub record RemapsSection (m : Mapping) (s : Section) (old new : List ℕ) : Type 0 where
    ///   pub items : Contents
    ///   pub decoded : content (section_kind_of s) standard s.payload items
    ///   pub appended : AppendsContentIn admitted (remapped m items) old new
    ///   pub has : IsSmall m → length s.payload < 2 ^ 26
    ///       → HasContentIn admitted (remapped m items)
    /// ```
    ///
    /// Definitions: [`Mapping`](mapping::Mapping), [`Section`](super::reader::outlines::Section), [`Contents`](super::reader::kinds::Contents), [`content`](super::reader::kinds::content), [`section_kind_of`](super::reader::outlines::section_kind_of), [`standard`](super::base::numbers::Mode), [`AppendsContentIn`](super::reader::sections::AppendsContentIn), [`admitted`](super::base::numbers::Grammar), [`remapped`](sections::remapped), [`IsSmall`](mapping::IsSmall), [`HasContentIn`](super::reader::sections::HasContentIn).
    type RemapsSection;
    /// The sections of the new module for those of the old one, each an id and a payload, which is related to the old section. Sections that hold offsets are left out.
    ///
    /// ```text
    /// abbrev pub AreChanged : (Section → List ℕ → Type 0) → List Section → List (ℕ × List ℕ)
    ///     → Type 0
    /// AreChanged R [] news = news ≡ []
    /// AreChanged R (s ∷ olds) news =
    ///     ((contains_offsets s.name ≡ true) × AreChanged R olds news)
    ///     ⊎ ((payload : List ℕ) × (others : List (ℕ × List ℕ))
    ///         × (contains_offsets s.name ≡ false) × (news ≡ (s.id, payload) ∷ others)
    ///         × R s payload × AreChanged R olds others)
    /// ```
    ///
    /// Definitions: [`Section`](super::reader::outlines::Section), [`contains_offsets`](super::reader::shortening::contains_offsets).
    type AreChanged;
    /// The bytes are a module, and the new bytes are a module of its changed sections. With `Refuse`, no section holds offsets.
    ///
    /// ```text
    /// pub record ChangesModule (R : Section → List ℕ → Type 0) (offsets : Offsets)
    ///     (bytes new : List ℕ) : Type 0 where
    ///   pub olds : List Section
    ///   pub has : HasSections bytes olds
    ///   pub news : List (ℕ × List ℕ)
    ///   pub are : AreChanged R olds news
    ///   pub refused : offsets ≡ Refuse
    ///       → AllByRecursion (λ s. contains_offsets s.name ≡ false) olds
    ///   pub decodes : DecodesWhole wasm_module new news
    /// ```
    ///
    /// Definitions: [`Section`](super::reader::outlines::Section), [`HasSections`](super::reader::outlines::HasSections), [`AreChanged`](sections::AreChanged), [`contains_offsets`](super::reader::shortening::contains_offsets), [`DecodesWhole`](super::base::decoding::DecodesWhole), [`wasm_module`](super::base::formats::wasm_module).
    type ChangesModule;
    /// The payload is that of the section with each index mapped.
    ///
    /// ```text
    /// abbrev pub IsRemapped : Mapping → Section → List ℕ → Type 0
    /// IsRemapped m s payload = RemapsSection m s [] payload
    /// ```
    ///
    /// Definitions: [`Mapping`](mapping::Mapping), [`Section`](super::reader::outlines::Section), [`RemapsSection`](sections::RemapsSection).
    type IsRemapped;
    /// The sections of the new module have the items of the old ones, with each index mapped.
    ///
    /// ```text
    /// abbrev pub AreRemapped : Mapping → List Section → List (ℕ × List ℕ) → Type 0
    /// AreRemapped m olds news = AreChanged (IsRemapped m) olds news
    /// ```
    ///
    /// Definitions: [`Mapping`](mapping::Mapping), [`Section`](super::reader::outlines::Section), [`AreChanged`](sections::AreChanged), [`IsRemapped`](sections::IsRemapped).
    type AreRemapped;
    /// The bytes are a module, and the new bytes are a module of its sections with each index mapped. With `Refuse`, no section holds offsets.
    ///
    /// ```text
    /// abbrev pub RemapsModule : Mapping → Offsets → List ℕ → List ℕ → Type 0
    /// RemapsModule m offsets bytes new = ChangesModule (IsRemapped m) offsets bytes new
    /// ```
    ///
    /// Definitions: [`Mapping`](mapping::Mapping), [`ChangesModule`](sections::ChangesModule), [`IsRemapped`](sections::IsRemapped).
    type RemapsModule;
}

/// The map that moves the indices of one space.
///
/// [How to read definitions](super). The file is [`Shifted.antt`](https://github.com/dolzhytik/dolzhytik/blob/main/crates/wasm_remap/specs/Shifted.antt).
pub trait shifted {
    /// Whether both are the same index space.
    ///
    /// ```text
    /// abbrev pub is_same : IndexSpace → IndexSpace → Bool
    /// is_same Functions Functions = true
    /// is_same Types Types = true
    /// is_same Tables Tables = true
    /// is_same Memories Memories = true
    /// is_same Globals Globals = true
    /// is_same Tags Tags = true
    /// is_same Elements Elements = true
    /// is_same Data Data = true
    /// is_same a b = false
    /// ```
    type is_same;
    /// Whether the index moves.
    ///
    /// ```text
    /// abbrev pub moves : Shift → IndexSpace → ℕ → Bool
    /// moves s space n = is_same space s.space && nat_le s.from n
    /// ```
    ///
    /// Definitions: [`is_same`](shifted::is_same).
    type moves;
    /// The new index: the number is added to an index that moves, unless the sum has more than 32 bits.
    ///
    /// ```text
    /// abbrev pub shifted : Shift → IndexSpace → ℕ → ℕ
    /// shifted s space n = cond (moves s space n && nat_lt (n + s.by) (2 ^ 32)) (n + s.by) n
    /// ```
    ///
    /// Definitions: [`moves`](shifted::moves).
    type shifted;
    /// The index moves, and the sum has more than 32 bits. The error has the index.
    ///
    /// ```text
    /// abbrev pub IsTooLarge : Shift → IndexSpace → ℕ → IndexTooLarge → Type 0
    /// IsTooLarge s space n e = (moves s space n ≡ true) × (2 ^ 32 ≤ n + s.by)
    ///     × (e.space ≡ space) × (e.index ≡ n)
    /// ```
    ///
    /// Definitions: [`moves`](shifted::moves).
    type IsTooLarge;
}

/// The index spaces of the numbers among the immediates of each opcode.
///
/// [How to read definitions](super). The file is [`Spaces.antt`](https://github.com/dolzhytik/dolzhytik/blob/main/crates/wasm_remap/specs/Spaces.antt).
pub trait spaces {
    /// The index spaces of the first and the second number of an opcode. A number that is a label, a local, a field or a length has none.
    ///
    /// ```text
    /// abbrev pub Spaces : Type 0
    /// Spaces = Option IndexSpace × Option IndexSpace
    /// ```
    type Spaces;
    /// The opcodes with the numbers `from` to `to`, whose numbers are in the same index spaces.
    ///
    /// ```text
    /// abbrev pub run : ℕ → ℕ → Option IndexSpace → Option IndexSpace → Run
    /// run from to first second = record { 0 = from; 1 = to; 2 = first; 3 = second }
    /// ```
    type run;
    /// One-byte opcodes.
    ///
    /// ```text
    /// abbrev pub one_byte : List Run
    /// one_byte =
    ///     run 0x07 0x08 (Some Tags) None ∷
    ///     run 0x10 0x10 (Some Functions) None ∷
    ///     run 0x11 0x11 (Some Types) (Some Tables) ∷
    ///     run 0x12 0x12 (Some Functions) None ∷
    ///     run 0x13 0x13 (Some Types) (Some Tables) ∷
    ///     run 0x14 0x15 (Some Types) None ∷
    ///     run 0x23 0x24 (Some Globals) None ∷
    ///     run 0x25 0x26 (Some Tables) None ∷
    ///     run 0x3F 0x40 (Some Memories) None ∷
    ///     run 0xD2 0xD2 (Some Functions) None ∷
    ///     run 0xE0 0xE0 (Some Types) None ∷
    ///     run 0xE1 0xE1 (Some Types) (Some Types) ∷
    ///     run 0xE2 0xE2 (Some Tags) None ∷
    ///     run 0xE3 0xE3 (Some Types) None ∷
    ///     run 0xE4 0xE4 (Some Types) (Some Tags) ∷
    ///     run 0xE5 0xE5 (Some Types) None ∷
    ///     run 0xE6 0xE6 (Some Types) (Some Tags) ∷
    ///     []
    /// ```
    ///
    /// Definitions: [`run`](spaces::run).
    type one_byte;
    /// Opcodes after the prefix FB.
    ///
    /// ```text
    /// abbrev pub after_fb : List Run
    /// after_fb =
    ///     run 0 8 (Some Types) None ∷
    ///     run 9 9 (Some Types) (Some Data) ∷
    ///     run 10 10 (Some Types) (Some Elements) ∷
    ///     run 11 14 (Some Types) None ∷
    ///     run 16 16 (Some Types) None ∷
    ///     run 17 17 (Some Types) (Some Types) ∷
    ///     run 18 18 (Some Types) (Some Data) ∷
    ///     run 19 19 (Some Types) (Some Elements) ∷
    ///     run 32 34 (Some Types) None ∷
    ///     []
    /// ```
    ///
    /// Definitions: [`run`](spaces::run).
    type after_fb;
    /// Opcodes after the prefix FC.
    ///
    /// ```text
    /// abbrev pub after_fc : List Run
    /// after_fc =
    ///     run 8 8 (Some Data) (Some Memories) ∷
    ///     run 9 9 (Some Data) None ∷
    ///     run 10 10 (Some Memories) (Some Memories) ∷
    ///     run 11 11 (Some Memories) None ∷
    ///     run 12 12 (Some Elements) (Some Tables) ∷
    ///     run 13 13 (Some Elements) None ∷
    ///     run 14 14 (Some Tables) (Some Tables) ∷
    ///     run 15 17 (Some Tables) None ∷
    ///     run 18 18 (Some Memories) None ∷
    ///     []
    /// ```
    ///
    /// Definitions: [`run`](spaces::run).
    type after_fc;
    /// Opcodes after the prefix FE.
    ///
    /// ```text
    /// abbrev pub after_fe : List Run
    /// after_fe =
    ///     run 0x4F 0x57 (Some Globals) None ∷
    ///     run 0x58 0x5B (Some Tables) None ∷
    ///     run 0x5C 0x71 (Some Types) None ∷
    ///     []
    /// ```
    ///
    /// Definitions: [`run`](spaces::run).
    type after_fe;
    /// Whether the run has this number.
    ///
    /// ```text
    /// abbrev pub has_number : ℕ → Run → Bool
    /// has_number n r = nat_le r.0 n && nat_le n r.1
    /// ```
    type has_number;
    /// The index spaces of the opcode with this number, among the runs of its prefix.
    ///
    /// ```text
    /// abbrev pub found_in : List Run → ℕ → Option Spaces
    /// found_in runs n = option_map (λ r. (r.2, r.3)) (find (has_number n) runs)
    /// ```
    ///
    /// Definitions: [`Spaces`](spaces::Spaces), [`has_number`](spaces::has_number).
    type found_in;
    /// The same by the prefix.
    ///
    /// ```text
    /// abbrev pub found_of : Op → Option Spaces
    /// found_of (Byte b) = found_in one_byte b
    /// found_of (Prefixed p n) = cond (p == 0xFB) (found_in after_fb n)
    ///     (cond (p == 0xFC) (found_in after_fc n)
    ///     (cond (p == 0xFE) (found_in after_fe n) None))
    /// ```
    ///
    /// Definitions: [`Spaces`](spaces::Spaces), [`found_in`](spaces::found_in), [`one_byte`](spaces::one_byte), [`after_fb`](spaces::after_fb), [`after_fc`](spaces::after_fc), [`after_fe`](spaces::after_fe).
    type found_of;
    /// The index spaces that were found, and none if the opcode has no run.
    ///
    /// ```text
    /// abbrev pub or_none : Option Spaces → Spaces
    /// or_none None = (None, None)
    /// or_none (Some spaces) = spaces
    /// ```
    ///
    /// Definitions: [`Spaces`](spaces::Spaces).
    type or_none;
    /// The index spaces of the first and the second number among the immediates of an opcode.
    ///
    /// ```text
    /// abbrev pub spaces_of : Op → Spaces
    /// spaces_of op = or_none (found_of op)
    /// ```
    ///
    /// Definitions: [`Spaces`](spaces::Spaces), [`or_none`](spaces::or_none), [`found_of`](spaces::found_of).
    type spaces_of;
}

/// The promises of calls that decode a value, map its indices and append it, in one pass over the bytes.
///
/// - Instructions without an index: [`is_within`](streamed::is_within), [`bytes_without_index`](streamed::bytes_without_index), [`HaveNoIndex`](streamed::HaveNoIndex).
///
/// [How to read definitions](super). The file is [`Streamed.antt`](https://github.com/dolzhytik/dolzhytik/blob/main/crates/wasm_remap/specs/Streamed.antt).
pub trait streamed {
    /// Some bytes decode to the value in the standard's grammar.
    ///
    /// ```text
    /// abbrev pub HasForm : {X : Type 0} → Format X → X → Type 0
    /// HasForm F x = (s : List ℕ) × F standard s x
    /// ```
    ///
    /// Definitions: [`Format`](super::base::formats::Format), [`standard`](super::base::numbers::Mode).
    type HasForm;
    /// The buffer gains the minimal encoding of the value in the standard's grammar, if some bytes decode to the value there.
    ///
    /// ```text
    /// pub record AppendsForm {X : Type 0} (F : Format X) (x : X) (old new : List ℕ)
    ///     : Type 0 where
    ///   pub encoding : List ℕ
    ///   pub appended : new ≡ old ++ encoding
    ///   pub encodes : HasForm F x → F standard_minimal encoding x
    /// ```
    ///
    /// Definitions: [`Format`](super::base::formats::Format), [`HasForm`](streamed::HasForm), [`standard_minimal`](super::base::numbers::Mode).
    type AppendsForm;
    /// A value decodes from the front of the bytes, and `rest` follows it. The buffer gains `f` of the value.
    ///
    /// ```text
    /// pub record Remaps {X : Type 0} (f : X → X) (F : Format X) (bytes rest old new : List ℕ)
    ///     : Type 0 where
    ///   pub value : X
    ///   pub decoded : Decodes F standard bytes value rest
    ///   pub appends : AppendsForm F (f value) old new
    /// ```
    ///
    /// Definitions: [`Format`](super::base::formats::Format), [`Decodes`](super::base::decoding::Decodes), [`standard`](super::base::numbers::Mode), [`AppendsForm`](streamed::AppendsForm).
    type Remaps;
    /// As [`Remaps`](streamed::Remaps), for a value that occupies all of the bytes.
    ///
    /// ```text
    /// pub record RemapsWhole {X : Type 0} (f : X → X) (F : Format X) (bytes old new : List ℕ)
    ///     : Type 0 where
    ///   pub value : X
    ///   pub decoded : F standard bytes value
    ///   pub appends : AppendsForm F (f value) old new
    /// ```
    ///
    /// Definitions: [`Format`](super::base::formats::Format), [`standard`](super::base::numbers::Mode), [`AppendsForm`](streamed::AppendsForm).
    type RemapsWhole;
    /// Whether the number is in one of the ranges.
    ///
    /// ```text
    /// abbrev pub is_within : List (ℕ × ℕ) → ℕ → Bool
    /// is_within [] n = false
    /// is_within (r ∷ rs) n = (nat_le r.0 n && nat_le n r.1) || is_within rs n
    /// ```
    type is_within;
    /// One-byte opcodes without an index: of control and parametric instructions, of locals, and the numeric ones.
    ///
    /// ```text
    /// abbrev pub bytes_without_index : List (ℕ × ℕ)
    /// bytes_without_index = (0x00, 0x01) ∷ (0x05, 0x05) ∷ (0x0B, 0x0F) ∷ (0x1A, 0x1B)
    ///     ∷ (0x20, 0x22) ∷ (0x41, 0xC4) ∷ []
    /// ```
    type bytes_without_index;
    /// No map changes these operands, whatever opcode they follow.
    ///
    /// ```text
    /// pub record HaveNoIndex (given : Operands) : Type 0 where
    ///   pub stay : (m : Mapping) (s : Spaces) (xs : List Argument) → AreOperands given xs
    ///       → remapped_arguments m s xs ≡ xs
    /// ```
    ///
    /// Definitions: [`Mapping`](mapping::Mapping), [`Spaces`](spaces::Spaces), [`Argument`](super::insn::arguments::Argument), [`AreOperands`](super::insn::operands::AreOperands), [`remapped_arguments`](instructions::remapped_arguments).
    type HaveNoIndex;
}

/// What a map of indices makes of the entries of a type section.
///
/// [How to read definitions](super). The file is [`Types.antt`](https://github.com/dolzhytik/dolzhytik/blob/main/crates/wasm_remap/specs/Types.antt).
pub trait types {
    /// A storage type.
    ///
    /// ```text
    /// abbrev pub remapped_storage : Mapping → StorageType → StorageType
    /// remapped_storage m I8 = I8
    /// remapped_storage m I16 = I16
    /// remapped_storage m (Val ty) = Val (remapped_val m ty)
    /// ```
    ///
    /// Definitions: [`Mapping`](mapping::Mapping), [`remapped_val`](instructions::remapped_val).
    type remapped_storage;
    /// A field type.
    ///
    /// ```text
    /// abbrev pub remapped_field : Mapping → FieldType → FieldType
    /// remapped_field m f = record
    ///     { element_type = remapped_storage m f.element_type; mutable = f.mutable }
    /// ```
    ///
    /// Definitions: [`Mapping`](mapping::Mapping), [`remapped_storage`](types::remapped_storage).
    type remapped_field;
    /// The shape of a composite type.
    ///
    /// ```text
    /// abbrev pub remapped_shape : Mapping → Shape → Shape
    /// remapped_shape m (func params results) = func (map (remapped_val m) params)
    ///     (map (remapped_val m) results)
    /// remapped_shape m (array field) = array (remapped_field m field)
    /// remapped_shape m (structure fields) = structure (map (remapped_field m) fields)
    /// remapped_shape m (cont n) = cont (m spaces.Types n)
    /// ```
    ///
    /// Definitions: [`Mapping`](mapping::Mapping), [`Shape`](super::types::rec_types::Shape), [`func`](super::types::rec_types::Shape), [`remapped_val`](instructions::remapped_val), [`array`](super::types::rec_types::Shape), [`remapped_field`](types::remapped_field), [`structure`](super::types::rec_types::Shape), [`cont`](super::types::rec_types::Shape).
    type remapped_shape;
    /// A composite type.
    ///
    /// ```text
    /// abbrev pub remapped_composite : Mapping → Composite → Composite
    /// remapped_composite m c = record
    ///     { shared = c.shared; describes = option_map (m spaces.Types) c.describes;
    ///     descriptor = option_map (m spaces.Types) c.descriptor;
    ///     shape = remapped_shape m c.shape }
    /// ```
    ///
    /// Definitions: [`Mapping`](mapping::Mapping), [`Composite`](super::types::rec_types::Composite), [`remapped_shape`](types::remapped_shape).
    type remapped_composite;
    /// A subtype.
    ///
    /// ```text
    /// abbrev pub remapped_sub : Mapping → Sub → Sub
    /// remapped_sub m s = record
    ///     { is_final = s.is_final; supertypes = map (m spaces.Types) s.supertypes;
    ///     composite = remapped_composite m s.composite }
    /// ```
    ///
    /// Definitions: [`Mapping`](mapping::Mapping), [`Sub`](super::types::rec_types::Sub), [`remapped_composite`](types::remapped_composite).
    type remapped_sub;
    /// An entry: a type alone, or a recursion group.
    ///
    /// ```text
    /// abbrev pub remapped_type : Mapping → TypeItem → TypeItem
    /// remapped_type m (single s) = single (remapped_sub m s)
    /// remapped_type m (group ss) = group (map (remapped_sub m) ss)
    /// ```
    ///
    /// Definitions: [`Mapping`](mapping::Mapping), [`TypeItem`](super::types::rec_types::TypeItem), [`single`](super::types::rec_types::TypeItem), [`remapped_sub`](types::remapped_sub), [`group`](super::types::rec_types::TypeItem).
    type remapped_type;
}
