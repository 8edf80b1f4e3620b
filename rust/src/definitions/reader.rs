// Written by tools/to-rust from crates/wasm_reader/specs: change that.
//! Modules and their sections, decoded and minimized.
//!
//! The contracts of [`wasm_reader`](https://github.com/dolzhytik/dolzhytik/blob/main/crates/wasm_reader/README.md) name these definitions.

/// When an opcode and immediates are no instruction.
///
/// [How to read definitions](super). The file is [`Conversions.antt`](https://github.com/dolzhytik/dolzhytik/blob/main/crates/wasm_reader/specs/Conversions.antt).
pub trait conversions {
    /// The flags of a cast are below 4.
    ///
    /// ```text
    /// abbrev pub HasSmallFlags : Argument → Type 0
    /// HasSmallFlags (flag n) = n < 4
    /// HasSmallFlags _ = ⊤
    /// ```
    ///
    /// Definitions: [`Argument`](super::insn::arguments::Argument), [`flag`](super::insn::arguments::Argument).
    type HasSmallFlags;
    /// The opcode and the immediates are no instruction: the table has no row for the opcode, or the immediates are not of the types of its shape, or flags of a cast are above 3.
    ///
    /// ```text
    /// pub record IsNoInstruction (op : Op) (xs : List Argument) : Type 0 where
    ///   pub none : (shape : Shape) → shape_of table op ≡ Some shape
    ///       → map part_of xs ≡ parts_of shape → AllByRecursion HasSmallFlags xs → ⊥
    /// ```
    ///
    /// Definitions: [`Argument`](super::insn::arguments::Argument), [`shape_of`](super::insn::plain::shape_of), [`table`](super::insn::table::table), [`part_of`](super::insn::arguments::part_of), [`parts_of`](super::insn::parts::parts_of), [`HasSmallFlags`](conversions::HasSmallFlags).
    type IsNoInstruction;
}

/// The iterators over the sections of a module, and over the bodies of a code section.
///
/// - Sections: [`Iterating`](iterating::Iterating), [`ahead`](iterating::ahead), [`IsFirstWrong`](iterating::IsFirstWrong), [`IsHeaderError`](iterating::IsHeaderError), [`Located`](iterating::Located), [`end_of`](iterating::end_of), [`known_kind_of`](iterating::known_kind_of), [`IsInPayload`](iterating::IsInPayload), [`GivesSection`](iterating::GivesSection), [`GivesError`](iterating::GivesError), [`NextSection`](iterating::NextSection).
/// - Bodies: [`Visiting`](iterating::Visiting), [`LocatedBody`](iterating::LocatedBody), [`GivesBody`](iterating::GivesBody), [`EndsBodies`](iterating::EndsBodies), [`NextBody`](iterating::NextBody).
///
/// [How to read definitions](super). The file is [`Iterating.antt`](https://github.com/dolzhytik/dolzhytik/blob/main/crates/wasm_reader/specs/Iterating.antt).
pub trait iterating {
    /// The state of the iterator over sections: the bytes of the module, and the offset of the next section in them.
    ///
    /// ```text
    /// pub record Iterating : Type 0 where
    ///   pub bytes : List ℕ
    ///   pub offset : ℕ
    /// ```
    type Iterating;
    /// The bytes from the next section on.
    ///
    /// ```text
    /// abbrev pub ahead : Iterating → List ℕ
    /// ahead it = drop it.offset it.bytes
    /// ```
    ///
    /// Definitions: [`Iterating`](iterating::Iterating).
    type ahead;
    /// This is the offset of the first byte that differs from the header's.
    ///
    /// ```text
    /// pub record IsFirstWrong (bytes : List ℕ) (offset : ℕ) : Type 0 where
    ///   pub inside : offset < length header
    ///   pub same : take offset bytes ≡ take offset header
    ///   pub wrong : take (suc offset) bytes ≢ take (suc offset) header
    /// ```
    ///
    /// Definitions: [`header`](super::base::formats::header).
    type IsFirstWrong;
    /// The error of bytes that do not begin with the header: at their end if they end before it does, and otherwise at the first byte that differs.
    ///
    /// ```text
    /// pub record IsHeaderError (bytes : List ℕ) (e : ReadError) : Type 0 where
    ///   pub cause : IsHeaderCause bytes e.cause
    ///   pub ended : e.cause ≡ Ended → e.offset ≡ length bytes
    ///   pub wrong : e.cause ≡ UnknownTag → IsFirstWrong bytes e.offset
    /// ```
    ///
    /// Definitions: [`IsHeaderCause`](outlines::IsHeaderCause), [`IsFirstWrong`](iterating::IsFirstWrong).
    type IsHeaderError;
    /// A section, and the offset of its id in the module.
    ///
    /// ```text
    /// pub record Located : Type 0 where
    ///   pub offset : ℕ
    ///   pub section : Section
    /// ```
    ///
    /// Definitions: [`Section`](outlines::Section).
    type Located;
    /// The offset of the first byte after the section.
    ///
    /// ```text
    /// abbrev pub end_of : Located → ℕ
    /// end_of s = s.offset + length (bytes_of s.section)
    /// ```
    ///
    /// Definitions: [`Located`](iterating::Located), [`bytes_of`](outlines::bytes_of).
    type end_of;
    /// The kind of a section whose id the standard has, and none of other ids.
    ///
    /// ```text
    /// abbrev pub known_kind_of : Section → Option SectionKind
    /// known_kind_of s = if nat_lt s.id 14 then Some (section_kind_of s) else None
    /// ```
    ///
    /// Definitions: [`Section`](outlines::Section), [`section_kind_of`](outlines::section_kind_of).
    type known_kind_of;
    /// The offset is that of a byte of the section's payload, or of its end.
    ///
    /// ```text
    /// abbrev pub IsInPayload : Located → ℕ → Type 0
    /// IsInPayload s offset = (end_of s ≤ offset + length s.section.payload)
    ///     × (offset ≤ end_of s)
    /// ```
    ///
    /// Definitions: [`Located`](iterating::Located), [`end_of`](iterating::end_of).
    type IsInPayload;
    /// The iterator returned this section: the next bytes are the section's, and the iterator's offset moves to their end.
    ///
    /// ```text
    /// pub record GivesSection (old : Iterating) (s : Located) (new : Iterating) : Type 0 where
    ///   pub is_section : IsSection s.section
    ///   pub offset : s.offset ≡ old.offset
    ///   pub split : ahead old ≡ bytes_of s.section ++ ahead new
    ///   pub after : new.offset ≡ end_of s
    ///   pub bytes : new.bytes ≡ old.bytes
    /// ```
    ///
    /// Definitions: [`Iterating`](iterating::Iterating), [`Located`](iterating::Located), [`IsSection`](outlines::IsSection), [`ahead`](iterating::ahead), [`bytes_of`](outlines::bytes_of), [`end_of`](iterating::end_of).
    type GivesSection;
    /// The iterator returned this error, and has ended. No section decodes from the next bytes. The cause is not `Memory`.
    ///
    /// ```text
    /// pub record GivesError (old : Iterating) (e : ReadError) (new : Iterating) : Type 0 where
    ///   pub none : e.cause ≢ Memory → Rejects any_section padded (ahead old)
    ///   pub no_memory : e.cause ≢ Memory
    ///   pub more : ahead old ≢ []
    ///   pub from : old.offset ≤ e.offset
    ///   pub within : e.offset ≤ length old.bytes
    ///   pub ended : ahead new ≡ []
    ///   pub stays : new.offset ≡ old.offset
    /// ```
    ///
    /// Definitions: [`Iterating`](iterating::Iterating), [`Rejects`](super::base::decoding::Rejects), [`any_section`](super::base::formats::any_section), [`padded`](super::base::numbers::Mode), [`ahead`](iterating::ahead).
    type GivesError;
    /// The result of `next`: `None` at the end of the module, a section, or an error.
    ///
    /// ```text
    /// abbrev pub NextSection : Iterating → Option (Result Located ReadError) → Iterating
    ///     → Type 0
    /// NextSection old None new = (ahead old ≡ []) × (new ≡ old)
    /// NextSection old (Some (Ok s)) new = GivesSection old s new
    /// NextSection old (Some (Err e)) new = GivesError old e new
    /// ```
    ///
    /// Definitions: [`Iterating`](iterating::Iterating), [`Located`](iterating::Located), [`ahead`](iterating::ahead), [`GivesSection`](iterating::GivesSection), [`GivesError`](iterating::GivesError).
    type NextSection;
    /// The state of the iterator over bodies: how many bodies are left, the bytes from the next one on, and the offset of their end in the module.
    ///
    /// ```text
    /// pub record Visiting : Type 0 where
    ///   pub left : ℕ
    ///   pub rest : List ℕ
    ///   pub end : ℕ
    /// ```
    type Visiting;
    /// A body, and the offset of its first byte in the module. It begins with its locals, after its size prefix.
    ///
    /// ```text
    /// pub record LocatedBody : Type 0 where
    ///   pub offset : ℕ
    ///   pub bytes : List ℕ
    /// ```
    type LocatedBody;
    /// The iterator returned this body, which was the next size-prefixed one.
    ///
    /// ```text
    /// pub record GivesBody (old : Visiting) (b : LocatedBody) (new : Visiting) : Type 0 where
    ///   pub left : old.left ≡ suc new.left
    ///   pub decodes : Decodes (size_prefixed any_bytes) padded old.rest b.bytes new.rest
    ///   pub offset : b.offset + (length b.bytes + length new.rest) ≡ old.end
    ///   pub end : new.end ≡ old.end
    /// ```
    ///
    /// Definitions: [`Visiting`](iterating::Visiting), [`LocatedBody`](iterating::LocatedBody), [`Decodes`](super::base::decoding::Decodes), [`size_prefixed`](super::base::formats::size_prefixed), [`any_bytes`](super::base::formats::any_bytes), [`padded`](super::base::numbers::Mode).
    type GivesBody;
    /// The iterator returned this error, and has ended. If bodies are left, no size-prefixed body decodes from the next bytes. If none is left, bytes remain. The cause is not `Memory`.
    ///
    /// ```text
    /// pub record EndsBodies (old : Visiting) (e : ReadError) (new : Visiting) : Type 0 where
    ///   pub none : e.cause ≢ Memory → old.left ≢ 0
    ///       → Rejects (size_prefixed any_bytes) padded old.rest
    ///   pub no_memory : e.cause ≢ Memory
    ///   pub more : old.left ≡ 0 → old.rest ≢ []
    ///   pub from : old.end ≤ e.offset + length old.rest
    ///   pub within : e.offset ≤ old.end
    ///   pub ended : (new.left ≡ 0) × (new.rest ≡ [])
    /// ```
    ///
    /// Definitions: [`Visiting`](iterating::Visiting), [`Rejects`](super::base::decoding::Rejects), [`size_prefixed`](super::base::formats::size_prefixed), [`any_bytes`](super::base::formats::any_bytes), [`padded`](super::base::numbers::Mode).
    type EndsBodies;
    /// The result of `next`: `None` at the end of the section, a body, or an error.
    ///
    /// ```text
    /// abbrev pub NextBody : Visiting → Option (Result LocatedBody ReadError) → Visiting
    ///     → Type 0
    /// NextBody old None new = (old.left ≡ 0) × (old.rest ≡ []) × (new ≡ old)
    /// NextBody old (Some (Ok b)) new = GivesBody old b new
    /// NextBody old (Some (Err e)) new = EndsBodies old e new
    /// ```
    ///
    /// Definitions: [`Visiting`](iterating::Visiting), [`LocatedBody`](iterating::LocatedBody), [`GivesBody`](iterating::GivesBody), [`EndsBodies`](iterating::EndsBodies).
    type NextBody;
}

/// The kinds of sections, the content of each kind, and the view of decoded items.
///
/// [How to read definitions](super). The file is [`Kinds.antt`](https://github.com/dolzhytik/dolzhytik/blob/main/crates/wasm_reader/specs/Kinds.antt).
pub trait kinds {
    /// The content of a section.
    ///
    /// ```text
    /// pub data Contents : Type 0 where
    ///   Bodies : List Body → Contents
    ///   Segments : List DataItem → Contents
    ///   DataCount : ℕ → Contents
    ///   Elements : List (ElementItem (List Plain)) → Contents
    ///   Exports : List ExportItem → Contents
    ///   Functions : List ℕ → Contents
    ///   Globals : List GlobalItem → Contents
    ///   Imports : List ImportItem → Contents
    ///   Memories : List MemoryType → Contents
    ///   Start : ℕ → Contents
    ///   Tables : List TableItem → Contents
    ///   Tags : List TagType → Contents
    ///   Names : List NameItem → Contents
    ///   Linking : List LinkItem → Contents
    ///   Producers : List Field → Contents
    ///   Hints : List FunctionHints → Contents
    ///   Core : List ℕ → Contents
    ///   CoreModules : List (List ℕ) → Contents
    ///   CoreInstances : List Instance → Contents
    ///   CoreStack : List ℕ × List StackFrame → Contents
    ///   Custom : List ℕ × List ℕ → Contents
    ///   Raw : List ℕ → Contents
    ///   Types : List TypeItem → Contents
    ///   TargetFeatures : List Feature → Contents
    ///   SourceMappingUrl : List ℕ → Contents
    ///   ExternalDebugInfo : List ℕ → Contents
    ///   BuildId : List ℕ → Contents
    ///   Dylink : List DylinkItem → Contents
    ///   Relocations : RelocationsModel → Contents
    ///   InstructionFrequencies : List Frequencies → Contents
    ///   CompilationOrders : List Orders → Contents
    ///   CallTargets : List HintedTargets → Contents
    /// ```
    ///
    /// Definitions: [`Body`](super::code::bodies::Body), [`DataItem`](super::sections::data_segments::DataItem), [`ElementItem`](super::sections::elements::ElementItem), [`Plain`](super::insn::plain::Plain), [`ExportItem`](super::sections::exports::ExportItem), [`GlobalItem`](super::sections::globals::GlobalItem), [`ImportItem`](super::sections::imports::ImportItem), [`TableItem`](super::sections::tables::TableItem), [`NameItem`](super::custom::names::NameItem), [`LinkItem`](super::custom::linking::LinkItem), [`Field`](super::custom::producers::Field), [`FunctionHints`](super::custom::hints::Hints), [`Instance`](super::custom::core_dumps::Instance), [`StackFrame`](super::custom::core_stacks::StackFrame), [`TypeItem`](super::types::rec_types::TypeItem), [`Feature`](super::custom::target_features::Feature), [`DylinkItem`](super::custom::dylink::DylinkItem), [`RelocationsModel`](super::custom::relocations::Relocations), [`Frequencies`](super::custom::code_metadata::Frequencies), [`Orders`](super::custom::code_metadata::Orders), [`HintedTargets`](super::custom::code_metadata::HintedTargets).
    type Contents;
    /// The format of the payload of a section of this kind.
    ///
    /// ```text
    /// abbrev pub content : SectionKind → Format Contents
    /// content kinds.Bodies = mapped Bodies (vec (size_prefixed body))
    /// content kinds.Segments = mapped Segments (vec data_item)
    /// content kinds.DataCount = mapped DataCount u32
    /// content kinds.Elements = mapped Elements (vec element)
    /// content kinds.Exports = mapped Exports (vec export)
    /// content kinds.Functions = mapped Functions (vec u32)
    /// content kinds.Globals = mapped Globals (vec global_item)
    /// content kinds.Imports = mapped Imports (vec import_format)
    /// content kinds.Memories = mapped Memories (vec memory_type)
    /// content kinds.Start = mapped Start u32
    /// content kinds.Tables = mapped Tables (vec table_item)
    /// content kinds.Tags = mapped Tags (vec tag_type)
    /// content kinds.Names = mapped Names name_payload
    /// content kinds.Linking = mapped Linking linking_payload
    /// content kinds.Producers = mapped Producers producers_payload
    /// content kinds.Hints = mapped Hints hints_payload
    /// content kinds.Core = mapped Core core_payload
    /// content kinds.CoreModules = mapped CoreModules modules_payload
    /// content kinds.CoreInstances = mapped CoreInstances instances_payload
    /// content kinds.CoreStack = mapped CoreStack stack_payload
    /// content kinds.Custom = mapped Custom (pair name any_bytes)
    /// content kinds.Raw = mapped Raw any_bytes
    /// content kinds.Types = mapped Types (vec type_item)
    /// content kinds.TargetFeatures = mapped TargetFeatures features_payload
    /// content kinds.SourceMappingUrl = mapped SourceMappingUrl source_map_payload
    /// content kinds.ExternalDebugInfo = mapped ExternalDebugInfo debug_file_payload
    /// content kinds.BuildId = mapped BuildId build_id_payload
    /// content kinds.Dylink = mapped Dylink dylink_payload
    /// content kinds.Relocations = mapped Relocations relocations_payload
    /// content kinds.InstructionFrequencies = mapped InstructionFrequencies frequencies_payload
    /// content kinds.CompilationOrders = mapped CompilationOrders orders_payload
    /// content kinds.CallTargets = mapped CallTargets call_targets_payload
    /// ```
    ///
    /// Definitions: [`Format`](super::base::formats::Format), [`Contents`](kinds::Contents), [`mapped`](super::base::formats::mapped), [`Bodies`](kinds::Contents), [`vec`](super::base::formats::vec), [`size_prefixed`](super::base::formats::size_prefixed), [`body`](super::code::bodies::body), [`Segments`](kinds::Contents), [`data_item`](super::sections::data_segments::data_item), [`DataCount`](kinds::Contents), [`u32`](super::base::formats::u32), [`Elements`](kinds::Contents), [`element`](super::sections::elements::element), [`Exports`](kinds::Contents), [`export`](super::sections::exports::export), [`Functions`](kinds::Contents), [`Globals`](kinds::Contents), [`global_item`](super::sections::globals::global_item), [`Imports`](kinds::Contents), [`import_format`](super::sections::imports::import_format), [`Memories`](kinds::Contents), [`memory_type`](super::sections::memories::memory_type), [`Start`](kinds::Contents), [`Tables`](kinds::Contents), [`table_item`](super::sections::tables::table_item), [`Tags`](kinds::Contents), [`tag_type`](super::sections::tags::tag_type), [`Names`](kinds::Contents), [`name_payload`](super::custom::names::name_payload), [`Linking`](kinds::Contents), [`linking_payload`](super::custom::linking::linking_payload), [`Producers`](kinds::Contents), [`producers_payload`](super::custom::producers::producers_payload), [`Hints`](kinds::Contents), [`hints_payload`](super::custom::hints::hints_payload), [`Core`](kinds::Contents), [`core_payload`](super::custom::core_dumps::core_payload), [`CoreModules`](kinds::Contents), [`modules_payload`](super::custom::core_dumps::modules_payload), [`CoreInstances`](kinds::Contents), [`instances_payload`](super::custom::core_dumps::instances_payload), [`CoreStack`](kinds::Contents), [`stack_payload`](super::custom::core_stacks::stack_payload), [`Custom`](kinds::Contents), [`pair`](super::base::formats::pair), [`name`](super::base::formats::name), [`any_bytes`](super::base::formats::any_bytes), [`Raw`](kinds::Contents), [`Types`](kinds::Contents), [`type_item`](super::types::rec_types::type_item), [`TargetFeatures`](kinds::Contents), [`features_payload`](super::custom::target_features::features_payload), [`SourceMappingUrl`](kinds::Contents), [`source_map_payload`](super::custom::debug_files::source_map_payload), [`ExternalDebugInfo`](kinds::Contents), [`debug_file_payload`](super::custom::debug_files::debug_file_payload), [`BuildId`](kinds::Contents), [`build_id_payload`](super::custom::debug_files::build_id_payload), [`Dylink`](kinds::Contents), [`dylink_payload`](super::custom::dylink::dylink_payload), [`Relocations`](kinds::Contents), [`relocations_payload`](super::custom::relocations::relocations_payload), [`InstructionFrequencies`](kinds::Contents), [`frequencies_payload`](super::custom::code_metadata::frequencies_payload), [`CompilationOrders`](kinds::Contents), [`orders_payload`](super::custom::code_metadata::orders_payload), [`CallTargets`](kinds::Contents), [`call_targets_payload`](super::custom::code_metadata::call_targets_payload).
    type content;
    /// The grammars whose minimal encoding is written for the items of a section of this kind. In the standard's grammar, types, instructions and flags may have a shorter encoding than in the builders', which is the one that is written.
    ///
    /// ```text
    /// abbrev pub grammars_of : SectionKind → Grammars
    /// grammars_of kinds.Bodies = builders_alone
    /// grammars_of kinds.Segments = builders_alone
    /// grammars_of kinds.Elements = builders_alone
    /// grammars_of kinds.Globals = builders_alone
    /// grammars_of kinds.Imports = builders_alone
    /// grammars_of kinds.Tables = builders_alone
    /// grammars_of kinds.Types = builders_alone
    /// grammars_of kind = both_grammars
    /// ```
    ///
    /// Definitions: [`Grammars`](super::base::minimal::Grammars), [`builders_alone`](super::base::minimal::Grammars), [`both_grammars`](super::base::minimal::Grammars).
    type grammars_of;
    /// The kind of section that has this content.
    ///
    /// ```text
    /// abbrev pub kind_in : Contents → SectionKind
    /// kind_in (Bodies xs) = kinds.Bodies
    /// kind_in (Segments xs) = kinds.Segments
    /// kind_in (DataCount n) = kinds.DataCount
    /// kind_in (Elements xs) = kinds.Elements
    /// kind_in (Exports xs) = kinds.Exports
    /// kind_in (Functions xs) = kinds.Functions
    /// kind_in (Globals xs) = kinds.Globals
    /// kind_in (Imports xs) = kinds.Imports
    /// kind_in (Memories xs) = kinds.Memories
    /// kind_in (Start n) = kinds.Start
    /// kind_in (Tables xs) = kinds.Tables
    /// kind_in (Tags xs) = kinds.Tags
    /// kind_in (Names x) = kinds.Names
    /// kind_in (Linking x) = kinds.Linking
    /// kind_in (Producers x) = kinds.Producers
    /// kind_in (Hints x) = kinds.Hints
    /// kind_in (Core x) = kinds.Core
    /// kind_in (CoreModules x) = kinds.CoreModules
    /// kind_in (CoreInstances x) = kinds.CoreInstances
    /// kind_in (CoreStack x) = kinds.CoreStack
    /// kind_in (Custom x) = kinds.Custom
    /// kind_in (Raw x) = kinds.Raw
    /// kind_in (Types xs) = kinds.Types
    /// kind_in (TargetFeatures x) = kinds.TargetFeatures
    /// kind_in (SourceMappingUrl x) = kinds.SourceMappingUrl
    /// kind_in (ExternalDebugInfo x) = kinds.ExternalDebugInfo
    /// kind_in (BuildId x) = kinds.BuildId
    /// kind_in (Dylink x) = kinds.Dylink
    /// kind_in (Relocations x) = kinds.Relocations
    /// kind_in (InstructionFrequencies x) = kinds.InstructionFrequencies
    /// kind_in (CompilationOrders x) = kinds.CompilationOrders
    /// kind_in (CallTargets x) = kinds.CallTargets
    /// ```
    ///
    /// Definitions: [`Contents`](kinds::Contents), [`Bodies`](kinds::Contents), [`Segments`](kinds::Contents), [`DataCount`](kinds::Contents), [`Elements`](kinds::Contents), [`Exports`](kinds::Contents), [`Functions`](kinds::Contents), [`Globals`](kinds::Contents), [`Imports`](kinds::Contents), [`Memories`](kinds::Contents), [`Start`](kinds::Contents), [`Tables`](kinds::Contents), [`Tags`](kinds::Contents), [`Names`](kinds::Contents), [`Linking`](kinds::Contents), [`Producers`](kinds::Contents), [`Hints`](kinds::Contents), [`Core`](kinds::Contents), [`CoreModules`](kinds::Contents), [`CoreInstances`](kinds::Contents), [`CoreStack`](kinds::Contents), [`Custom`](kinds::Contents), [`Raw`](kinds::Contents), [`Types`](kinds::Contents), [`TargetFeatures`](kinds::Contents), [`SourceMappingUrl`](kinds::Contents), [`ExternalDebugInfo`](kinds::Contents), [`BuildId`](kinds::Contents), [`Dylink`](kinds::Contents), [`Relocations`](kinds::Contents), [`InstructionFrequencies`](kinds::Contents), [`CompilationOrders`](kinds::Contents), [`CallTargets`](kinds::Contents).
    type kind_in;
    /// The view of decoded items.
    ///
    /// ```text
    /// abbrev pub contents_of : {A : Type 0} → Items A → Contents
    /// contents_of (items.Bodies v) = Bodies (map body_view v.items)
    /// contents_of (items.Segments v) = Segments (map segment_view v.items)
    /// contents_of (items.DataCount n) = DataCount n
    /// contents_of (items.Elements v) = Elements (map element_view v.items)
    /// contents_of (items.Exports v) = Exports (map item_of v.items)
    /// contents_of (items.Functions v) = Functions v.items
    /// contents_of (items.Globals v) = Globals (map global_view v.items)
    /// contents_of (items.Imports v) = Imports (map imports_item v.items)
    /// contents_of (items.Memories v) = Memories v.items
    /// contents_of (items.Start n) = Start n
    /// contents_of (items.Tables v) = Tables (map table_view v.items)
    /// contents_of (items.Tags v) = Tags v.items
    /// contents_of (items.Names v) = Names (map name_item_view v.items)
    /// contents_of (items.Linking v) = Linking (map link_view v.items)
    /// contents_of (items.Producers v) = Producers (map field_view v.items)
    /// contents_of (items.Hints v) = Hints (map hints_view v.items)
    /// contents_of (items.Core n) = Core n.now
    /// contents_of (items.CoreModules v) = CoreModules (map (λ n. n.now) v.items)
    /// contents_of (items.CoreInstances v) = CoreInstances (map instance_view v.items)
    /// contents_of (items.CoreStack n v) = CoreStack (n.now, map stack_frame_view v.items)
    /// contents_of (items.Custom n b) = Custom (n.now, b.now)
    /// contents_of (items.Raw b) = Raw b.now
    /// contents_of (items.Types v) = Types (map entry_view v.items)
    /// contents_of (items.TargetFeatures v) = TargetFeatures (map feature_view v.items)
    /// contents_of (items.SourceMappingUrl x) = SourceMappingUrl x.now
    /// contents_of (items.ExternalDebugInfo x) = ExternalDebugInfo x.now
    /// contents_of (items.BuildId x) = BuildId x.now
    /// contents_of (items.Dylink v) = Dylink (map dylink_view v.items)
    /// contents_of (items.Relocations n section v) = Relocations (n.now, (section, v.items))
    /// contents_of (items.InstructionFrequencies v) = InstructionFrequencies
    ///     (map frequencies_view v.items)
    /// contents_of (items.CompilationOrders v) = CompilationOrders (map orders_view v.items)
    /// contents_of (items.CallTargets v) = CallTargets (map call_targets_view v.items)
    /// ```
    ///
    /// Definitions: [`Contents`](kinds::Contents), [`Bodies`](kinds::Contents), [`body_view`](super::code::body_views::body_view), [`Segments`](kinds::Contents), [`segment_view`](super::sections::data_segments::segment_view), [`DataCount`](kinds::Contents), [`Elements`](kinds::Contents), [`element_view`](super::sections::elements::element_view), [`Exports`](kinds::Contents), [`item_of`](super::sections::exports::item_of), [`Functions`](kinds::Contents), [`Globals`](kinds::Contents), [`global_view`](super::sections::globals::global_view), [`Imports`](kinds::Contents), [`imports_item`](super::sections::imports::imports_item), [`Memories`](kinds::Contents), [`Start`](kinds::Contents), [`Tables`](kinds::Contents), [`table_view`](super::sections::tables::table_view), [`Tags`](kinds::Contents), [`Names`](kinds::Contents), [`name_item_view`](super::custom::names::name_item_view), [`Linking`](kinds::Contents), [`link_view`](super::custom::linking::link_view), [`Producers`](kinds::Contents), [`field_view`](super::custom::producers::field_view), [`Hints`](kinds::Contents), [`hints_view`](super::custom::hints::hints_view), [`Core`](kinds::Contents), [`CoreModules`](kinds::Contents), [`CoreInstances`](kinds::Contents), [`instance_view`](super::custom::core_dumps::instance_view), [`CoreStack`](kinds::Contents), [`stack_frame_view`](super::custom::core_stacks::stack_frame_view), [`Custom`](kinds::Contents), [`Raw`](kinds::Contents), [`Types`](kinds::Contents), [`entry_view`](super::types::items::entry_view), [`TargetFeatures`](kinds::Contents), [`feature_view`](super::custom::target_features::feature_view), [`SourceMappingUrl`](kinds::Contents), [`ExternalDebugInfo`](kinds::Contents), [`BuildId`](kinds::Contents), [`Dylink`](kinds::Contents), [`dylink_view`](super::custom::dylink::dylink_view), [`Relocations`](kinds::Contents), [`InstructionFrequencies`](kinds::Contents), [`frequencies_view`](super::custom::code_metadata::frequencies_view), [`CompilationOrders`](kinds::Contents), [`orders_view`](super::custom::code_metadata::orders_view), [`CallTargets`](kinds::Contents), [`call_targets_view`](super::custom::code_metadata::call_targets_view).
    type contents_of;
    /// The kinds, in the order of their numbers.
    ///
    /// ```text
    /// abbrev pub kinds_in_order : List SectionKind
    /// kinds_in_order =
    ///     kinds.Bodies ∷ kinds.Segments ∷ kinds.DataCount ∷ kinds.Elements ∷ kinds.Exports
    ///         ∷ kinds.Functions ∷ kinds.Globals ∷ kinds.Imports ∷ kinds.Memories ∷ kinds.Start
    ///         ∷ kinds.Tables ∷ kinds.Tags
    ///     ∷ kinds.Names ∷ kinds.Linking ∷ kinds.Producers ∷ kinds.Hints ∷ kinds.Core
    ///         ∷ kinds.CoreModules ∷ kinds.CoreInstances ∷ kinds.CoreStack ∷ kinds.Custom
    ///         ∷ kinds.Raw ∷ kinds.Types ∷ kinds.TargetFeatures ∷ kinds.SourceMappingUrl
    ///         ∷ kinds.ExternalDebugInfo ∷ kinds.BuildId ∷ kinds.Dylink ∷ kinds.Relocations
    ///         ∷ kinds.InstructionFrequencies ∷ kinds.CompilationOrders ∷ kinds.CallTargets
    ///         ∷ []
    /// ```
    type kinds_in_order;
    /// The kind of a number, counted from 0.
    ///
    /// ```text
    /// abbrev pub kind_numbered : ℕ → Option SectionKind
    /// kind_numbered n = slice_get kinds_in_order n
    /// ```
    ///
    /// Definitions: [`kinds_in_order`](kinds::kinds_in_order).
    type kind_numbered;
    /// The kind that the list has for the id, and [`Raw`](kinds::Contents) if it has none.
    ///
    /// ```text
    /// abbrev pub kind_among : List (ℕ × SectionKind) → ℕ → SectionKind
    /// kind_among [] id = kinds.Raw
    /// kind_among (k ∷ ks) id = cond (id == k.0) k.1 (kind_among ks id)
    /// ```
    type kind_among;
    /// The kinds of sections by their ids. A custom section has the kind [`Custom`](kinds::Contents), whatever its name.
    ///
    /// ```text
    /// abbrev pub known_kinds : List (ℕ × SectionKind)
    /// known_kinds =
    ///     (number_of ids.Custom, kinds.Custom) ∷ (number_of ids.Import, kinds.Imports)
    ///         ∷ (number_of ids.Function, kinds.Functions)
    ///         ∷ (number_of ids.Table, kinds.Tables) ∷ (number_of ids.Memory, kinds.Memories)
    ///         ∷ (number_of ids.Global, kinds.Globals)
    ///     ∷ (number_of ids.Export, kinds.Exports)
    ///     ∷ (number_of ids.Start, kinds.Start)
    ///     ∷ (number_of ids.Element, kinds.Elements)
    ///     ∷ (number_of ids.Code, kinds.Bodies)
    ///     ∷ (number_of ids.Data, kinds.Segments)
    ///     ∷ (number_of ids.DataCount, kinds.DataCount)
    ///     ∷ (number_of ids.Tag, kinds.Tags)
    ///     ∷ []
    /// ```
    ///
    /// Definitions: [`number_of`](super::base::section_id::number_of).
    type known_kinds;
    /// The kind of a section of this id. Type sections and ids above 13 are [`Raw`](kinds::Contents).
    ///
    /// ```text
    /// abbrev pub kind_of_id : ℕ → SectionKind
    /// kind_of_id id = kind_among known_kinds id
    /// ```
    ///
    /// Definitions: [`kind_among`](kinds::kind_among), [`known_kinds`](kinds::known_kinds).
    type kind_of_id;
    /// The kind that the list has for the name, and [`Custom`](kinds::Contents) if it has none.
    ///
    /// ```text
    /// abbrev pub kind_among_names : List (List ℕ × SectionKind) → List ℕ → SectionKind
    /// kind_among_names [] n = kinds.Custom
    /// kind_among_names (k ∷ ks) n = if bytes_eq n k.0 then k.1 else kind_among_names ks n
    /// ```
    type kind_among_names;
    /// The kinds of custom sections by their names.
    ///
    /// ```text
    /// abbrev pub known_names : List (List ℕ × SectionKind)
    /// known_names =
    ///     (name_name, kinds.Names) ∷ (linking_name, kinds.Linking)
    ///         ∷ (producers_name, kinds.Producers) ∷ (features_name, kinds.TargetFeatures)
    ///     ∷ (hints_name, kinds.Hints)
    ///     ∷ (core_name, kinds.Core)
    ///     ∷ (modules_name, kinds.CoreModules)
    ///     ∷ (instances_name, kinds.CoreInstances)
    ///     ∷ (stack_name, kinds.CoreStack)
    ///     ∷ (source_map_name, kinds.SourceMappingUrl)
    ///     ∷ (debug_file_name, kinds.ExternalDebugInfo)
    ///     ∷ (build_id_name, kinds.BuildId)
    ///     ∷ (dylink_name, kinds.Dylink)
    ///     ∷ (frequencies_name, kinds.InstructionFrequencies)
    ///     ∷ (orders_name, kinds.CompilationOrders)
    ///     ∷ (call_targets_name, kinds.CallTargets)
    ///     ∷ []
    /// ```
    ///
    /// Definitions: [`name_name`](super::custom::names::name_name), [`linking_name`](super::custom::linking::linking_name), [`producers_name`](super::custom::producers::producers_name), [`features_name`](super::custom::target_features::features_name), [`hints_name`](super::custom::hints::hints_name), [`core_name`](super::custom::core_dumps::core_name), [`modules_name`](super::custom::core_dumps::modules_name), [`instances_name`](super::custom::core_dumps::instances_name), [`stack_name`](super::custom::core_stacks::stack_name), [`source_map_name`](super::custom::debug_files::source_map_name), [`debug_file_name`](super::custom::debug_files::debug_file_name), [`build_id_name`](super::custom::debug_files::build_id_name), [`dylink_name`](super::custom::dylink::dylink_name), [`frequencies_name`](super::custom::code_metadata::frequencies_name), [`orders_name`](super::custom::code_metadata::orders_name), [`call_targets_name`](super::custom::code_metadata::call_targets_name).
    type known_names;
    /// The kind of a custom section of this name: [`Relocations`](kinds::Contents) if the name begins with `reloc.`, and otherwise that of the list.
    ///
    /// ```text
    /// abbrev pub kind_named : List ℕ → SectionKind
    /// kind_named n = if begins_with relocations_prefix n then kinds.Relocations else
    ///     kind_among_names known_names n
    /// ```
    ///
    /// Definitions: [`begins_with`](super::custom::customs::begins_with), [`relocations_prefix`](super::custom::relocations::relocations_prefix), [`kind_among_names`](kinds::kind_among_names), [`known_names`](kinds::known_names).
    type kind_named;
    /// The number of items, if they are counted. The items of a type section are its entries, and a recursion group is one entry.
    ///
    /// ```text
    /// abbrev pub number_in : Contents → Option ℕ
    /// number_in (Bodies xs) = Some (length xs)
    /// number_in (Segments xs) = Some (length xs)
    /// number_in (DataCount n) = Some 1
    /// number_in (Elements xs) = Some (length xs)
    /// number_in (Exports xs) = Some (length xs)
    /// number_in (Functions xs) = Some (length xs)
    /// number_in (Globals xs) = Some (length xs)
    /// number_in (Imports xs) = Some (length xs)
    /// number_in (Memories xs) = Some (length xs)
    /// number_in (Start n) = Some 1
    /// number_in (Tables xs) = Some (length xs)
    /// number_in (Tags xs) = Some (length xs)
    /// number_in (Types xs) = Some (length xs)
    /// number_in x = None
    /// ```
    ///
    /// Definitions: [`Contents`](kinds::Contents), [`Bodies`](kinds::Contents), [`Segments`](kinds::Contents), [`DataCount`](kinds::Contents), [`Elements`](kinds::Contents), [`Exports`](kinds::Contents), [`Functions`](kinds::Contents), [`Globals`](kinds::Contents), [`Imports`](kinds::Contents), [`Memories`](kinds::Contents), [`Start`](kinds::Contents), [`Tables`](kinds::Contents), [`Tags`](kinds::Contents), [`Types`](kinds::Contents).
    type number_in;
}

/// Modules as `list_module` decodes them: each section by the kind of its id.
///
/// - Sections: [`Sized`](modules::Sized), [`sized_section`](modules::sized_section), [`sized_module`](modules::sized_module), [`line_of`](modules::line_of).
/// - Lists: [`HasLines`](modules::HasLines), [`StopsBehind`](modules::StopsBehind), [`StopsAt`](modules::StopsAt), [`HaveOneListing`](modules::HaveOneListing).
///
/// [How to read definitions](super). The file is [`Modules.antt`](https://github.com/dolzhytik/dolzhytik/blob/main/crates/wasm_reader/specs/Modules.antt).
pub trait modules {
    /// Size-prefixed bytes of this size, which encode the content of a section of this kind.
    ///
    /// ```text
    /// pub record Sized (kind : SectionKind) (mode : Mode) (s : List ℕ) (p : ℕ × Contents)
    ///     : Type 0 where
    ///   pub payload : List ℕ
    ///   pub sized : size_prefixed any_bytes mode s payload
    ///   pub size : length payload ≡ p.0
    ///   pub contains : content kind mode payload p.1
    /// ```
    ///
    /// Definitions: [`Mode`](super::base::numbers::Mode), [`Contents`](kinds::Contents), [`size_prefixed`](super::base::formats::size_prefixed), [`any_bytes`](super::base::formats::any_bytes), [`content`](kinds::content).
    type Sized;
    /// A section: its id, and the size and content of its payload, by the kind of the id.
    ///
    /// ```text
    /// abbrev pub sized_section : Format (ℕ × (ℕ × Contents))
    /// sized_section = Then byte (λ id. Sized (kind_of_id id))
    /// ```
    ///
    /// Definitions: [`Format`](super::base::formats::Format), [`Contents`](kinds::Contents), [`Then`](super::base::formats::Then), [`byte`](super::base::formats::byte), [`Sized`](modules::Sized), [`kind_of_id`](kinds::kind_of_id).
    type sized_section;
    /// A module: the header, then sections up to the last byte.
    ///
    /// ```text
    /// abbrev pub sized_module : Format (List (ℕ × (ℕ × Contents)))
    /// sized_module = prefixed header (members sized_section)
    /// ```
    ///
    /// Definitions: [`Format`](super::base::formats::Format), [`Contents`](kinds::Contents), [`prefixed`](super::base::formats::prefixed), [`header`](super::base::formats::header), [`members`](super::base::formats::members), [`sized_section`](modules::sized_section).
    type sized_module;
    /// The line of a section in a list.
    ///
    /// ```text
    /// abbrev pub line_of : ℕ × (ℕ × Contents) → Listed
    /// line_of s = record { id = s.0; size = s.1.0; items = number_in s.1.1 }
    /// ```
    ///
    /// Definitions: [`Contents`](kinds::Contents), [`number_in`](kinds::number_in).
    type line_of;
    /// The bytes are a module whose sections have these lines.
    ///
    /// ```text
    /// pub record HasLines (bytes : List ℕ) (lines : List Listed) : Type 0 where
    ///   pub sections : List (ℕ × (ℕ × Contents))
    ///   pub read : sized_module padded bytes sections
    ///   pub same : lines ≡ map line_of sections
    /// ```
    ///
    /// Definitions: [`Contents`](kinds::Contents), [`sized_module`](modules::sized_module), [`padded`](super::base::numbers::Mode), [`line_of`](modules::line_of).
    type HasLines;
    /// The bytes begin with the header and this many sections. Bytes remain, and no section decodes from their front.
    ///
    /// ```text
    /// pub record StopsBehind (bytes : List ℕ) (number : ℕ) : Type 0 where
    ///   pub sections : List (ℕ × (ℕ × Contents))
    ///   pub rest : List ℕ
    ///   pub read : Decodes sized_module padded bytes sections rest
    ///   pub counted : length sections ≡ number
    ///   pub more : rest ≢ []
    ///   pub none : Rejects sized_section padded rest
    /// ```
    ///
    /// Definitions: [`Contents`](kinds::Contents), [`Decodes`](super::base::decoding::Decodes), [`sized_module`](modules::sized_module), [`padded`](super::base::numbers::Mode), [`Rejects`](super::base::decoding::Rejects), [`sized_section`](modules::sized_section).
    type StopsBehind;
    /// Number 0: the bytes do not begin with the header. Other numbers, counted from 1: the section of this number is the first that does not decode.
    ///
    /// ```text
    /// abbrev pub StopsAt : List ℕ → ℕ → Type 0
    /// StopsAt bytes zero = Rejects (fixed header (tt {0})) padded bytes
    /// StopsAt bytes (suc number) = StopsBehind bytes number
    /// ```
    ///
    /// Definitions: [`Rejects`](super::base::decoding::Rejects), [`fixed`](super::base::formats::fixed), [`header`](super::base::formats::header), [`padded`](super::base::numbers::Mode), [`StopsBehind`](modules::StopsBehind).
    type StopsAt;
    /// A list of a module is unambiguous: the bytes have one list of lines, or stop at one section, and never both.
    ///
    /// ```text
    /// pub record HaveOneListing : Type 0 where
    ///   pub lines : (bytes : List ℕ) (a b : List Listed) → HasLines bytes a → HasLines bytes b
    ///       → a ≡ b
    ///   pub either : (bytes : List ℕ) (a : List Listed) (position : ℕ) → HasLines bytes a
    ///       → StopsAt bytes position → ⊥
    ///   pub position : (bytes : List ℕ) (p q : ℕ) → StopsAt bytes p → StopsAt bytes q → p ≡ q
    /// ```
    ///
    /// Definitions: [`HasLines`](modules::HasLines), [`StopsAt`](modules::StopsAt).
    type HaveOneListing;
}

/// Modules as `outline` visits them: each section with any payload, whether that decodes by its kind or not.
///
/// - Sections with any payload: [`Section`](outlines::Section), [`section_of`](outlines::section_of), [`bytes_of`](outlines::bytes_of), [`IsNameOf`](outlines::IsNameOf), [`IsDataOf`](outlines::IsDataOf), [`IsSection`](outlines::IsSection), [`HasSections`](outlines::HasSections).
/// - Kinds: [`kind_at`](outlines::kind_at), [`section_kind_of`](outlines::section_kind_of).
/// - Outlines: [`IsCount`](outlines::IsCount), [`IsOutline`](outlines::IsOutline), [`AreOutlines`](outlines::AreOutlines), [`HasOutline`](outlines::HasOutline).
/// - Bytes that are not a module: [`EndsBehind`](outlines::EndsBehind), [`EndsAt`](outlines::EndsAt), [`IsHeaderCause`](outlines::IsHeaderCause), [`ExplainsHeader`](outlines::ExplainsHeader).
///
/// [How to read definitions](super). The file is [`Outlines.antt`](https://github.com/dolzhytik/dolzhytik/blob/main/crates/wasm_reader/specs/Outlines.antt).
pub trait outlines {
    /// A section of a module: its id, its size-prefixed payload, the payload, and its name if it is a custom section that has one.
    ///
    /// ```text
    /// pub record Section : Type 0 where
    ///   pub id : ℕ
    ///   pub sized : List ℕ
    ///   pub payload : List ℕ
    ///   pub name : Option (List ℕ)
    /// ```
    type Section;
    /// The view of a section, without its location in memory.
    ///
    /// ```text
    /// abbrev pub section_of : Standing → Section
    /// section_of s = record { id = s.id; sized = s.sized.now; payload = s.payload.now;
    ///     name = option_map (λ n. n.now) s.name }
    /// ```
    ///
    /// Definitions: [`Section`](outlines::Section).
    type section_of;
    /// The bytes of a section.
    ///
    /// ```text
    /// abbrev pub bytes_of : Section → List ℕ
    /// bytes_of s = s.id ∷ s.sized
    /// ```
    ///
    /// Definitions: [`Section`](outlines::Section).
    type bytes_of;
    /// The name of a section: that at the front of a custom section's payload. There is none if no name decodes there, or if the id is not 0.
    ///
    /// ```text
    /// abbrev pub IsNameOf : ℕ → List ℕ → Option (List ℕ) → Type 0
    /// IsNameOf id payload (Some n) = (id ≡ number_of ids.Custom) × (rest : List ℕ)
    ///     × Decodes name padded payload n rest
    /// IsNameOf id payload None = id ≡ number_of ids.Custom → Rejects name padded payload
    /// ```
    ///
    /// Definitions: [`number_of`](super::base::section_id::number_of), [`Decodes`](super::base::decoding::Decodes), [`name`](super::base::formats::name), [`padded`](super::base::numbers::Mode), [`Rejects`](super::base::decoding::Rejects).
    type IsNameOf;
    /// The data of a section of this name: the bytes of the payload after the name, or all of them if there is no name.
    ///
    /// ```text
    /// abbrev pub IsDataOf : Option (List ℕ) → List ℕ → List ℕ → Type 0
    /// IsDataOf (Some n) payload content = Decodes name padded payload n content
    /// IsDataOf None payload content = content ≡ payload
    /// ```
    ///
    /// Definitions: [`Decodes`](super::base::decoding::Decodes), [`name`](super::base::formats::name), [`padded`](super::base::numbers::Mode).
    type IsDataOf;
    /// The bytes after the id are this payload with its size prefix, and the payload has this name.
    ///
    /// ```text
    /// pub record IsSection (s : Section) : Type 0 where
    ///   pub contains : size_prefixed any_bytes padded s.sized s.payload
    ///   pub named : IsNameOf s.id s.payload s.name
    /// ```
    ///
    /// Definitions: [`Section`](outlines::Section), [`size_prefixed`](super::base::formats::size_prefixed), [`any_bytes`](super::base::formats::any_bytes), [`padded`](super::base::numbers::Mode), [`IsNameOf`](outlines::IsNameOf).
    type IsSection;
    /// The bytes are the header and these sections.
    ///
    /// ```text
    /// pub record HasSections (bytes : List ℕ) (sections : List Section) : Type 0 where
    ///   pub joined : bytes ≡ header ++ flat_map bytes_of sections
    ///   pub each : AllByRecursion IsSection sections
    /// ```
    ///
    /// Definitions: [`Section`](outlines::Section), [`header`](super::base::formats::header), [`bytes_of`](outlines::bytes_of), [`IsSection`](outlines::IsSection).
    type HasSections;
    /// The kind of a section of this id and this name. A type section is of the kind `Types` here.
    ///
    /// ```text
    /// abbrev pub kind_at : ℕ → Option (List ℕ) → SectionKind
    /// kind_at id (Some n) = kind_named n
    /// kind_at id None = kind_among ((number_of ids.Types, kinds.Types) ∷ known_kinds) id
    /// ```
    ///
    /// Definitions: [`kind_named`](kinds::kind_named), [`kind_among`](kinds::kind_among), [`number_of`](super::base::section_id::number_of), [`known_kinds`](kinds::known_kinds).
    type kind_at;
    /// The kind of a section.
    ///
    /// ```text
    /// abbrev pub section_kind_of : Section → SectionKind
    /// section_kind_of s = kind_at s.id s.name
    /// ```
    ///
    /// Definitions: [`Section`](outlines::Section), [`kind_at`](outlines::kind_at).
    type section_kind_of;
    /// The payload decodes to this number of items of the kind. There is no number if it does not decode, or if its items are not counted.
    ///
    /// ```text
    /// abbrev pub IsCount : SectionKind → List ℕ → Option ℕ → Type 0
    /// IsCount kind payload (Some n) = (x : Contents) × content kind standard payload x
    ///     × (number_in x ≡ Some n)
    /// IsCount kind payload None = (x : Contents) → content kind standard payload x
    ///     → number_in x ≡ None
    /// ```
    ///
    /// Definitions: [`Contents`](kinds::Contents), [`content`](kinds::content), [`standard`](super::base::numbers::Mode), [`number_in`](kinds::number_in).
    type IsCount;
    /// The line describes a section whose id is at this offset.
    ///
    /// ```text
    /// pub record IsOutline (section_start : ℕ) (s : Section) (line : Outlined) : Type 0 where
    ///   pub id : line.id ≡ s.id
    ///   pub offset : line.offset + length s.payload ≡ section_start + length (bytes_of s)
    ///   pub size : line.size ≡ length s.payload
    ///   pub items : IsCount (section_kind_of s) s.payload line.items
    ///   pub name : option_map (λ n. n.now) line.name ≡ s.name
    /// ```
    ///
    /// Definitions: [`Section`](outlines::Section), [`bytes_of`](outlines::bytes_of), [`IsCount`](outlines::IsCount), [`section_kind_of`](outlines::section_kind_of).
    type IsOutline;
    /// The lines describe the sections, the first of which begins at this offset.
    ///
    /// ```text
    /// abbrev pub AreOutlines : ℕ → List Section → List Outlined → Type 0
    /// AreOutlines section_start [] [] = Unit {0}
    /// AreOutlines section_start (s ∷ ss) (l ∷ ls) = IsOutline section_start s l
    ///     × AreOutlines (section_start + length (bytes_of s)) ss ls
    /// AreOutlines section_start [] (l ∷ ls) = ⊥
    /// AreOutlines section_start (s ∷ ss) [] = ⊥
    /// ```
    ///
    /// Definitions: [`Section`](outlines::Section), [`IsOutline`](outlines::IsOutline), [`bytes_of`](outlines::bytes_of).
    type AreOutlines;
    /// The bytes are a module of sections that the lines describe.
    ///
    /// ```text
    /// pub record HasOutline (bytes : List ℕ) (lines : List Outlined) : Type 0 where
    ///   pub sections : List Section
    ///   pub has : HasSections bytes sections
    ///   pub are_outlines : AreOutlines (length header) sections lines
    /// ```
    ///
    /// Definitions: [`Section`](outlines::Section), [`HasSections`](outlines::HasSections), [`AreOutlines`](outlines::AreOutlines), [`header`](super::base::formats::header).
    type HasOutline;
    /// The bytes begin with the header and this many sections with any payload. Bytes remain, and no such section decodes from their front.
    ///
    /// ```text
    /// pub record EndsBehind (bytes : List ℕ) (number : ℕ) : Type 0 where
    ///   pub sections : List (ℕ × List ℕ)
    ///   pub rest : List ℕ
    ///   pub read : Decodes wasm_module padded bytes sections rest
    ///   pub counted : length sections ≡ number
    ///   pub more : rest ≢ []
    ///   pub none : Rejects any_section padded rest
    /// ```
    ///
    /// Definitions: [`Decodes`](super::base::decoding::Decodes), [`wasm_module`](super::base::formats::wasm_module), [`padded`](super::base::numbers::Mode), [`Rejects`](super::base::decoding::Rejects), [`any_section`](super::base::formats::any_section).
    type EndsBehind;
    /// Number 0: the bytes do not begin with the header. Other numbers, counted from 1: the section of this number is the first that is malformed, whatever its payload.
    ///
    /// ```text
    /// abbrev pub EndsAt : List ℕ → ℕ → Type 0
    /// EndsAt bytes zero = Rejects (fixed header (tt {0})) padded bytes
    /// EndsAt bytes (suc number) = EndsBehind bytes number
    /// ```
    ///
    /// Definitions: [`Rejects`](super::base::decoding::Rejects), [`fixed`](super::base::formats::fixed), [`header`](super::base::formats::header), [`padded`](super::base::numbers::Mode), [`EndsBehind`](outlines::EndsBehind).
    type EndsAt;
    /// The cause of the error of bytes that do not begin with the header: they end before it does, or one of its bytes differs.
    ///
    /// ```text
    /// abbrev pub IsHeaderCause : List ℕ → ReadFault → Type 0
    /// IsHeaderCause bytes fault = ((fault ≡ Ended) × (length bytes < length header))
    ///     ⊎ ((fault ≡ UnknownTag) × (length header ≤ length bytes))
    /// ```
    ///
    /// Definitions: [`header`](super::base::formats::header).
    type IsHeaderCause;
    /// An error at section number 0 has the cause of bytes that do not begin with the header, unless an allocation failed.
    ///
    /// ```text
    /// abbrev pub ExplainsHeader : List ℕ → ℕ → ReadFault → Type 0
    /// ExplainsHeader bytes number fault = number ≡ 0 → fault ≢ Memory
    ///     → IsHeaderCause bytes fault
    /// ```
    ///
    /// Definitions: [`IsHeaderCause`](outlines::IsHeaderCause).
    type ExplainsHeader;
}

/// Sections of each kind, and the promises of their reader and their minimizer.
///
/// [How to read definitions](super). The file is [`Sections.antt`](https://github.com/dolzhytik/dolzhytik/blob/main/crates/wasm_reader/specs/Sections.antt).
pub trait sections {
    /// A section of this kind without its id: its size-prefixed content.
    ///
    /// ```text
    /// abbrev pub section : SectionKind → Format Contents
    /// section kind = size_prefixed (content kind)
    /// ```
    ///
    /// Definitions: [`Format`](super::base::formats::Format), [`Contents`](kinds::Contents), [`size_prefixed`](super::base::formats::size_prefixed), [`content`](kinds::content).
    type section;
    /// The first `n` bytes are a section of this kind in this grammar, possibly padded, with this content.
    ///
    /// ```text
    /// pub record TakesIn (w : Grammar) (kind : SectionKind) (bytes : List ℕ) (x : Contents)
    ///     (n : ℕ) : Type 0 where
    ///   pub within : n ≤ length bytes
    ///   pub decodes : Decodes (section kind) (padded_of w) bytes x (drop n bytes)
    /// ```
    ///
    /// Definitions: [`Grammar`](super::base::numbers::Grammar), [`Contents`](kinds::Contents), [`Decodes`](super::base::decoding::Decodes), [`section`](sections::section), [`padded_of`](super::base::numbers::padded_of).
    type TakesIn;
    /// The same in the builders' grammar.
    ///
    /// ```text
    /// abbrev pub Takes : SectionKind → List ℕ → Contents → ℕ → Type 0
    /// Takes kind bytes x n = TakesIn builders kind bytes x n
    /// ```
    ///
    /// Definitions: [`Contents`](kinds::Contents), [`TakesIn`](sections::TakesIn), [`builders`](super::base::numbers::Grammar).
    type Takes;
    /// The first `n` bytes are a section of this kind in this grammar. The buffer gains its minimal encoding in the grammar, which has at most `n` bytes.
    ///
    /// ```text
    /// pub record ShortensIn (w : Grammar) (kind : SectionKind) (bytes : List ℕ) (n : ℕ)
    ///     (old new : List ℕ) : Type 0 where
    ///   pub value : Contents
    ///   pub takes : TakesIn w kind bytes value n
    ///   pub encoding : List ℕ
    ///   pub encodes : section kind (minimal_of w) encoding value
    ///   pub shorter : length encoding ≤ n
    ///   pub appended : new ≡ old ++ encoding
    /// ```
    ///
    /// Definitions: [`Grammar`](super::base::numbers::Grammar), [`Contents`](kinds::Contents), [`TakesIn`](sections::TakesIn), [`section`](sections::section), [`minimal_of`](super::base::numbers::minimal_of).
    type ShortensIn;
    /// The same in the builders' grammar.
    ///
    /// ```text
    /// abbrev pub Shortens : SectionKind → List ℕ → ℕ → List ℕ → List ℕ → Type 0
    /// Shortens kind bytes n old new = ShortensIn builders kind bytes n old new
    /// ```
    ///
    /// Definitions: [`ShortensIn`](sections::ShortensIn), [`builders`](super::base::numbers::Grammar).
    type Shortens;
    /// The first grammar has all encodings of the second.
    ///
    /// ```text
    /// abbrev pub Extends : Grammar → Grammar → Type 0
    /// Extends admitted v = Unit {0}
    /// Extends builders builders = Unit {0}
    /// Extends builders admitted = ⊥
    /// ```
    ///
    /// Definitions: [`Grammar`](super::base::numbers::Grammar), [`admitted`](super::base::numbers::Grammar), [`builders`](super::base::numbers::Grammar).
    type Extends;
    /// A code section in the standard's grammar has fewer than 2^31 bytes. Builders may need twice as many for it, and they write no body of 2^32 bytes or more.
    ///
    /// ```text
    /// abbrev pub HasShortBodies : Grammar → SectionKind → List ℕ → Type 0
    /// HasShortBodies admitted kinds.Bodies bytes = length bytes < 2 ^ 31
    /// HasShortBodies w kind bytes = Unit {0}
    /// ```
    ///
    /// Definitions: [`Grammar`](super::base::numbers::Grammar), [`admitted`](super::base::numbers::Grammar).
    type HasShortBodies;
    /// Some bytes decode to this content in a grammar that the grammar `w` extends.
    ///
    /// ```text
    /// pub record HasContentIn (w : Grammar) (x : Contents) : Type 0 where
    ///   pub grammar : Grammar
    ///   pub extended : Extends w grammar
    ///   pub bytes : List ℕ
    ///   pub decoded : content (kind_in x) (padded_of grammar) bytes x
    ///   pub short : HasShortBodies grammar (kind_in x) bytes
    /// ```
    ///
    /// Definitions: [`Grammar`](super::base::numbers::Grammar), [`Contents`](kinds::Contents), [`Extends`](sections::Extends), [`content`](kinds::content), [`kind_in`](kinds::kind_in), [`padded_of`](super::base::numbers::padded_of), [`HasShortBodies`](sections::HasShortBodies).
    type HasContentIn;
    /// The buffer gains the minimal encoding of this content in the grammar `w`, if some bytes decode to it.
    ///
    /// ```text
    /// pub record AppendsContentIn (w : Grammar) (x : Contents) (old new : List ℕ)
    ///     : Type 0 where
    ///   pub encoding : List ℕ
    ///   pub appended : new ≡ old ++ encoding
    ///   pub encodes : HasContentIn w x → content (kind_in x) (minimal_of w) encoding x
    /// ```
    ///
    /// Definitions: [`Grammar`](super::base::numbers::Grammar), [`Contents`](kinds::Contents), [`HasContentIn`](sections::HasContentIn), [`content`](kinds::content), [`kind_in`](kinds::kind_in), [`minimal_of`](super::base::numbers::minimal_of).
    type AppendsContentIn;
    /// Two sections of a kind have the same minimal encoding in a grammar exactly if they decode to the same items.
    ///
    /// ```text
    /// pub record HaveOneEncoding : Type 0 where
    ///   pub same : (kind : SectionKind) (a b old other s t : List ℕ) (n m : ℕ)
    ///       (x y : Contents) → Shortens kind a n old (old ++ s)
    ///       → Shortens kind b m other (other ++ t) → Takes kind a x n → Takes kind b y m
    ///       → (s ≡ t) ↔ (x ≡ y)
    ///   pub same_in : (w : Grammar) (kind : SectionKind) (a b old other s t : List ℕ)
    ///       (n m : ℕ) (x y : Contents) → ShortensIn w kind a n old (old ++ s)
    ///       → ShortensIn w kind b m other (other ++ t) → TakesIn w kind a x n
    ///       → TakesIn w kind b y m → (s ≡ t) ↔ (x ≡ y)
    /// ```
    ///
    /// Definitions: [`Contents`](kinds::Contents), [`Shortens`](sections::Shortens), [`Takes`](sections::Takes), [`Grammar`](super::base::numbers::Grammar), [`ShortensIn`](sections::ShortensIn), [`TakesIn`](sections::TakesIn).
    type HaveOneEncoding;
}

/// The minimal form of a module, and the custom sections whose offsets it must preserve.
///
/// - Custom sections that hold offsets: [`names_code_offsets`](shortening::names_code_offsets), [`target_named`](shortening::target_named), [`target_of`](shortening::target_of), [`contains_offsets`](shortening::contains_offsets), [`IsLedInto`](shortening::IsLedInto), [`IsPlaced`](shortening::IsPlaced).
/// - The output for a section: [`Rewrite`](shortening::Rewrite), [`IsEncodingFor`](shortening::IsEncodingFor), [`IsWritten`](shortening::IsWritten), [`IsRewrite`](shortening::IsRewrite), [`written_as`](shortening::written_as), [`written`](shortening::written), [`keeps`](shortening::keeps), [`count_kept`](shortening::count_kept), [`id_written`](shortening::id_written), [`Stays`](shortening::Stays), [`AllStay`](shortening::AllStay), [`KeepsOffsets`](shortening::KeepsOffsets), [`HasLostOffsets`](shortening::HasLostOffsets).
/// - Modules: [`ShortensModule`](shortening::ShortensModule), [`LosesOffsets`](shortening::LosesOffsets), [`Explains`](shortening::Explains), [`ExplainsNoHeader`](shortening::ExplainsNoHeader).
/// - Intermediate steps: [`IsChange`](shortening::IsChange), [`GainsSection`](shortening::GainsSection), [`AreMoved`](shortening::AreMoved), [`size_before`](shortening::size_before), [`size_after`](shortening::size_after), [`IsInto`](shortening::IsInto), [`IsFirst`](shortening::IsFirst), [`HasFound`](shortening::HasFound), [`leaves_out`](shortening::leaves_out), [`first_of`](shortening::first_of), [`earlier`](shortening::earlier), [`lost`](shortening::lost), [`found_of`](shortening::found_of), [`lost_at`](shortening::lost_at), [`HasTally`](shortening::HasTally), [`Rewrites`](shortening::Rewrites), [`StopsAfter`](shortening::StopsAfter).
/// - Laws: [`IsMemory`](shortening::IsMemory), [`IsIdempotent`](shortening::IsIdempotent).
///
/// [How to read definitions](super). The file is [`Shortening.antt`](https://github.com/dolzhytik/dolzhytik/blob/main/crates/wasm_reader/specs/Shortening.antt).
pub trait shortening {
    /// Whether a custom section of this name holds offsets into code and data. These are symbols, debugging information and indexes of it, a reference to a file with it, the identity that ties such a file to the module, and code metadata.
    ///
    /// ```text
    /// abbrev pub names_code_offsets : List ℕ → Bool
    /// names_code_offsets n =
    ///     bytes_eq n linking_name || bytes_eq n (codes "external_debug_info") || bytes_eq n
    ///         (codes "build_id") || begins_with (codes ".debug_") n
    ///     || bytes_eq n (codes ".gdb_index") || begins_with (codes ".apple_") n || begins_with
    ///         (codes "metadata.code.") n
    /// ```
    ///
    /// Definitions: [`linking_name`](super::custom::linking::linking_name), [`begins_with`](super::custom::customs::begins_with).
    type names_code_offsets;
    /// The sections that the offsets in a custom section of this name point into. Relocations name any section, and a source map counts from the first byte of the module.
    ///
    /// ```text
    /// abbrev pub target_named : List ℕ → Option Target
    /// target_named n =
    ///     if begins_with relocations_prefix n then Some Relocated else
    ///     (if bytes_eq n (codes "sourceMappingURL") then Some Module else
    ///     (if names_code_offsets n then Some CodeAndData else None))
    /// ```
    ///
    /// Definitions: [`begins_with`](super::custom::customs::begins_with), [`relocations_prefix`](super::custom::relocations::relocations_prefix), [`names_code_offsets`](shortening::names_code_offsets).
    type target_named;
    /// The sections that the offsets in a section point into, by its name.
    ///
    /// ```text
    /// abbrev pub target_of : Option (List ℕ) → Option Target
    /// target_of (Some n) = target_named n
    /// target_of None = None
    /// ```
    ///
    /// Definitions: [`target_named`](shortening::target_named).
    type target_of;
    /// Whether a section holds offsets, by its name.
    ///
    /// ```text
    /// abbrev pub contains_offsets : Option (List ℕ) → Bool
    /// contains_offsets n = is_some (target_of n)
    /// ```
    ///
    /// Definitions: [`target_of`](shortening::target_of).
    type contains_offsets;
    /// Such offsets count from the front of a section of this id.
    ///
    /// ```text
    /// abbrev pub IsLedInto : Target → ℕ → Type 0
    /// IsLedInto CodeAndData id = (id ≡ number_of ids.Code) ⊎ (id ≡ number_of ids.Data)
    /// IsLedInto Relocated id = (id ≡ number_of ids.Code)
    ///     ⊎ ((id ≡ number_of ids.Data) ⊎ (id ≡ number_of ids.Custom))
    /// IsLedInto Module id = (id ≡ number_of ids.Code) ⊎ (id ≡ number_of ids.Data)
    /// ```
    ///
    /// Definitions: [`number_of`](super::base::section_id::number_of).
    type IsLedInto;
    /// Such offsets count from the first byte of the module, and point into a section of this id.
    ///
    /// ```text
    /// abbrev pub IsPlaced : Target → ℕ → Type 0
    /// IsPlaced CodeAndData id = ⊥
    /// IsPlaced Relocated id = ⊥
    /// IsPlaced Module id = id ≡ number_of ids.Code
    /// ```
    ///
    /// Definitions: [`number_of`](super::base::section_id::number_of).
    type IsPlaced;
    /// A section, and the bytes that replace its size-prefixed payload.
    ///
    /// ```text
    /// pub record Rewrite : Type 0 where
    ///   pub section : Section
    ///   pub how : How
    ///   pub encoding : List ℕ
    /// ```
    ///
    /// Definitions: [`Section`](outlines::Section).
    type Rewrite;
    /// The bytes are the minimal encoding of the section in the standard's grammar; or its bytes unchanged, since they do not decode by its kind in this grammar. A section that is left out has none.
    ///
    /// ```text
    /// abbrev pub IsEncodingFor : How → Section → List ℕ → Type 0
    /// IsEncodingFor Minimal s encoding = ShortensIn admitted (section_kind_of s) s.sized
    ///     (length s.sized) [] encoding
    /// IsEncodingFor Kept s encoding = (encoding ≡ s.sized)
    ///     × Rejects (section (section_kind_of s)) standard s.sized
    /// IsEncodingFor LeftOut s encoding = ⊥
    /// ```
    ///
    /// Definitions: [`Section`](outlines::Section), [`ShortensIn`](sections::ShortensIn), [`admitted`](super::base::numbers::Grammar), [`section_kind_of`](outlines::section_kind_of), [`Rejects`](super::base::decoding::Rejects), [`section`](sections::section), [`standard`](super::base::numbers::Mode).
    type IsEncodingFor;
    /// The section is encoded in this way. It is left out exactly if it holds offsets and such sections are to be left out.
    ///
    /// ```text
    /// abbrev pub IsWritten : Offsets → How → Section → List ℕ → Type 0
    /// IsWritten offsets Minimal s encoding = IsEncodingFor Minimal s encoding
    ///     × (offsets ≡ LeaveOut → contains_offsets s.name ≡ false)
    /// IsWritten offsets Kept s encoding = IsEncodingFor Kept s encoding
    ///     × (offsets ≡ LeaveOut → contains_offsets s.name ≡ false)
    /// IsWritten offsets LeftOut s encoding = (encoding ≡ []) × (offsets ≡ LeaveOut)
    ///     × (contains_offsets s.name ≡ true)
    /// ```
    ///
    /// Definitions: [`Section`](outlines::Section), [`IsEncodingFor`](shortening::IsEncodingFor), [`contains_offsets`](shortening::contains_offsets).
    type IsWritten;
    /// The rewrite of a section is as [`IsWritten`](shortening::IsWritten) says.
    ///
    /// ```text
    /// abbrev pub IsRewrite : Offsets → Rewrite → Type 0
    /// IsRewrite offsets w = IsWritten offsets w.how w.section w.encoding
    /// ```
    ///
    /// Definitions: [`Rewrite`](shortening::Rewrite), [`IsWritten`](shortening::IsWritten).
    type IsRewrite;
    /// An id and bytes, unless the section is left out.
    ///
    /// ```text
    /// abbrev pub written_as : How → ℕ → List ℕ → List ℕ
    /// written_as LeftOut id encoding = []
    /// written_as Minimal id encoding = id ∷ encoding
    /// written_as Kept id encoding = id ∷ encoding
    /// ```
    type written_as;
    /// The bytes that the output has for a section.
    ///
    /// ```text
    /// abbrev pub written : Rewrite → List ℕ
    /// written w = written_as w.how w.section.id w.encoding
    /// ```
    ///
    /// Definitions: [`Rewrite`](shortening::Rewrite), [`written_as`](shortening::written_as).
    type written;
    /// 1 if the section is kept unchanged, and 0 otherwise.
    ///
    /// ```text
    /// abbrev pub keeps : How → ℕ
    /// keeps Kept = 1
    /// keeps Minimal = 0
    /// keeps LeftOut = 0
    /// ```
    type keeps;
    /// The number of sections that are kept unchanged.
    ///
    /// ```text
    /// abbrev pub count_kept : List Rewrite → ℕ
    /// count_kept [] = 0
    /// count_kept (w ∷ ws) = keeps w.how + count_kept ws
    /// ```
    ///
    /// Definitions: [`Rewrite`](shortening::Rewrite), [`keeps`](shortening::keeps).
    type count_kept;
    /// The id of a section in the output, unless it is left out.
    ///
    /// ```text
    /// abbrev pub id_written : Rewrite → List ℕ
    /// id_written w = written_as w.how w.section.id []
    /// ```
    ///
    /// Definitions: [`Rewrite`](shortening::Rewrite), [`written_as`](shortening::written_as).
    type id_written;
    /// The section, which begins at `from` in the input and at `to` in the output, stays where such offsets expect it. It is unchanged if they count from its front, and keeps its offset if they count from the front of the module.
    ///
    /// ```text
    /// abbrev pub Stays : Target → ℕ → ℕ → Rewrite → Type 0
    /// Stays target from to w = (IsLedInto target w.section.id → w.encoding ≡ w.section.sized)
    ///     × (IsPlaced target w.section.id → from ≡ to)
    /// ```
    ///
    /// Definitions: [`Rewrite`](shortening::Rewrite), [`IsLedInto`](shortening::IsLedInto), [`IsPlaced`](shortening::IsPlaced).
    type Stays;
    /// All of these sections stay, one after another, from these offsets on.
    ///
    /// ```text
    /// abbrev pub AllStay : Target → ℕ → ℕ → List Rewrite → Type 0
    /// AllStay target from to [] = Unit {0}
    /// AllStay target from to (w ∷ ws) = Stays target from to w
    ///     × AllStay target (from + length (bytes_of w.section)) (to + length (written w)) ws
    /// ```
    ///
    /// Definitions: [`Rewrite`](shortening::Rewrite), [`Stays`](shortening::Stays), [`bytes_of`](outlines::bytes_of), [`written`](shortening::written).
    type AllStay;
    /// The offsets of a section remain correct: it holds none, or all sections of the module stay.
    ///
    /// ```text
    /// abbrev pub KeepsOffsets : List Rewrite → Rewrite → Type 0
    /// KeepsOffsets all w = (target : Target) → target_of w.section.name ≡ Some target
    ///     → AllStay target (length header) (length header) all
    /// ```
    ///
    /// Definitions: [`Rewrite`](shortening::Rewrite), [`target_of`](shortening::target_of), [`AllStay`](shortening::AllStay), [`header`](super::base::formats::header).
    type KeepsOffsets;
    /// The section holds offsets, and not all sections of the module stay.
    ///
    /// ```text
    /// abbrev pub HasLostOffsets : List Rewrite → Rewrite → Type 0
    /// HasLostOffsets all w = (target : Target) × (target_of w.section.name ≡ Some target)
    ///     × (AllStay target (length header) (length header) all → ⊥)
    /// ```
    ///
    /// Definitions: [`Rewrite`](shortening::Rewrite), [`target_of`](shortening::target_of), [`AllStay`](shortening::AllStay), [`header`](super::base::formats::header).
    type HasLostOffsets;
    /// The buffer gains the header and the output for each section: its minimal encoding, or its bytes unchanged if they do not decode by its kind. `kept` counts the unchanged ones. With `Refuse` every section keeps its offsets, and with `LeaveOut` exactly the sections that hold offsets are left out. The output is a module with the ids of the sections that are not left out, and is at most as long as the input.
    ///
    /// ```text
    /// pub record ShortensModule (offsets : Offsets) (bytes : List ℕ) (kept : ℕ)
    ///     (old new : List ℕ) : Type 0 where
    ///   pub rewrites : List Rewrite
    ///   pub has : HasSections bytes (map (λ w. w.section) rewrites)
    ///   pub each : AllByRecursion (IsRewrite offsets) rewrites
    ///   pub counted : kept ≡ count_kept rewrites
    ///   pub fitting : offsets ≡ Refuse → AllByRecursion (KeepsOffsets rewrites) rewrites
    ///   pub encoding : List ℕ
    ///   pub is : encoding ≡ header ++ flat_map written rewrites
    ///   pub appended : new ≡ old ++ encoding
    ///   pub shorter : length encoding ≤ length bytes
    ///   pub sections : List (ℕ × List ℕ)
    ///   pub read : wasm_module padded encoding sections
    ///   pub same_ids : map (λ s. s.0) sections ≡ flat_map id_written rewrites
    /// ```
    ///
    /// Definitions: [`Rewrite`](shortening::Rewrite), [`HasSections`](outlines::HasSections), [`IsRewrite`](shortening::IsRewrite), [`count_kept`](shortening::count_kept), [`KeepsOffsets`](shortening::KeepsOffsets), [`header`](super::base::formats::header), [`written`](shortening::written), [`wasm_module`](super::base::formats::wasm_module), [`padded`](super::base::numbers::Mode), [`id_written`](shortening::id_written).
    type ShortensModule;
    /// The section of this number, counted from 1, is the first whose offsets are lost if each section is minimized.
    ///
    /// ```text
    /// pub record LosesOffsets (bytes : List ℕ) (number : ℕ) : Type 0 where
    ///   pub before : List Rewrite
    ///   pub holder : Rewrite
    ///   pub after : List Rewrite
    ///   pub has : HasSections bytes (map (λ w. w.section) (before ++ holder ∷ after))
    ///   pub each : AllByRecursion (IsRewrite Refuse) (before ++ holder ∷ after)
    ///   pub counted : length before + 1 ≡ number
    ///   pub first : AllByRecursion (KeepsOffsets (before ++ holder ∷ after)) before
    ///   pub lost : HasLostOffsets (before ++ holder ∷ after) holder
    /// ```
    ///
    /// Definitions: [`Rewrite`](shortening::Rewrite), [`HasSections`](outlines::HasSections), [`IsRewrite`](shortening::IsRewrite), [`KeepsOffsets`](shortening::KeepsOffsets), [`HasLostOffsets`](shortening::HasLostOffsets).
    type LosesOffsets;
    /// The meaning of an error. Either the section of this number is the first that is malformed, whatever its payload, and the bytes are not a module. Or the section of this number loses its offsets. `Memory` implies nothing about the bytes.
    ///
    /// ```text
    /// abbrev pub Explains : Offsets → List ℕ → ModuleFault → Type 0
    /// Explains offsets bytes (faults.Section number fault) = fault ≢ Memory
    ///     → EndsAt bytes number × RejectsWhole wasm_module padded bytes
    /// Explains offsets bytes (faults.Offsets number) = (offsets ≡ Refuse)
    ///     × LosesOffsets bytes number
    /// ```
    ///
    /// Definitions: [`EndsAt`](outlines::EndsAt), [`RejectsWhole`](super::base::continuing::RejectsWhole), [`wasm_module`](super::base::formats::wasm_module), [`padded`](super::base::numbers::Mode), [`LosesOffsets`](shortening::LosesOffsets).
    type Explains;
    /// An error at section number 0 has the cause of bytes that do not begin with the header, unless an allocation failed.
    ///
    /// ```text
    /// abbrev pub ExplainsNoHeader : List ℕ → ModuleFault → Type 0
    /// ExplainsNoHeader bytes (faults.Section number fault) = ExplainsHeader bytes number fault
    /// ExplainsNoHeader bytes (faults.Offsets number) = Unit {0}
    /// ```
    ///
    /// Definitions: [`ExplainsHeader`](outlines::ExplainsHeader).
    type ExplainsNoHeader;
    /// Whether the bytes differ from the section's size-prefixed payload.
    ///
    /// ```text
    /// abbrev pub IsChange : Bool → Section → List ℕ → Type 0
    /// IsChange is_changed s encoding = MatchBool is_changed (encoding ≢ s.sized)
    ///     (encoding ≡ s.sized)
    /// ```
    ///
    /// Definitions: [`Section`](outlines::Section).
    type IsChange;
    /// The buffer gains the output for the section, encoded in this way.
    ///
    /// ```text
    /// pub record GainsSection (offsets : Offsets) (s : Section) (how : How)
    ///     (is_changed : Bool) (old new : List ℕ) : Type 0 where
    ///   pub encoding : List ℕ
    ///   pub written : IsWritten offsets how s encoding
    ///   pub changed : IsChange is_changed s encoding
    ///   pub appended : new ≡ old ++ written_as how s.id encoding
    /// ```
    ///
    /// Definitions: [`Section`](outlines::Section), [`IsWritten`](shortening::IsWritten), [`IsChange`](shortening::IsChange), [`written_as`](shortening::written_as).
    type GainsSection;
    /// Whether a section of this id does not stay for such offsets, given whether it changes and whether its offset stays the same.
    ///
    /// ```text
    /// abbrev pub AreMoved : Bool → Target → ℕ → Bool → Bool → Type 0
    /// AreMoved is_moved target id is_changed is_level =
    ///     (w : Rewrite) (from to : ℕ) → id ≡ w.section.id
    ///         → IsChange is_changed w.section w.encoding → Decides is_level (from ≡ to)
    ///         → MatchBool is_moved (Stays target from to w → ⊥) (Stays target from to w)
    /// ```
    ///
    /// Definitions: [`Rewrite`](shortening::Rewrite), [`IsChange`](shortening::IsChange), [`Stays`](shortening::Stays).
    type AreMoved;
    /// The number of bytes of the sections in the input.
    ///
    /// ```text
    /// abbrev pub size_before : List Rewrite → ℕ
    /// size_before ws = length (flat_map (λ w. bytes_of w.section) ws)
    /// ```
    ///
    /// Definitions: [`Rewrite`](shortening::Rewrite), [`bytes_of`](outlines::bytes_of).
    type size_before;
    /// The number of bytes of the sections in the output.
    ///
    /// ```text
    /// abbrev pub size_after : List Rewrite → ℕ
    /// size_after ws = length (flat_map written ws)
    /// ```
    ///
    /// Definitions: [`Rewrite`](shortening::Rewrite), [`written`](shortening::written).
    type size_after;
    /// The section holds offsets of this class.
    ///
    /// ```text
    /// abbrev pub IsInto : Target → Rewrite → Type 0
    /// IsInto target w = target_of w.section.name ≡ Some target
    /// ```
    ///
    /// Definitions: [`Rewrite`](shortening::Rewrite), [`target_of`](shortening::target_of).
    type IsInto;
    /// No section has the property, or the section of this number, counted from 1, is the first that has it.
    ///
    /// ```text
    /// abbrev pub IsFirst : (Rewrite → Type 0) → List Rewrite → Option ℕ → Type 0
    /// IsFirst P rewrites None = AllByRecursion (λ w. P w → ⊥) rewrites
    /// IsFirst P rewrites (Some number) = (before after : List Rewrite) × (w : Rewrite)
    ///     × (rewrites ≡ before ++ w ∷ after) × (length before + 1 ≡ number)
    ///     × AllByRecursion (λ v. P v → ⊥) before × P w
    /// ```
    ///
    /// Definitions: [`Rewrite`](shortening::Rewrite).
    type IsFirst;
    /// The result for offsets of one class: the first section that holds such offsets, and whether a section that they point into does not stay.
    ///
    /// ```text
    /// pub record HasFound (target : Target) (rewrites : List Rewrite) (found : Found)
    ///     : Type 0 where
    ///   pub holder : IsFirst (IsInto target) rewrites found.holder
    ///   pub moved : MatchBool found.is_moved
    ///       (AllStay target (length header) (length header) rewrites → ⊥)
    ///       (AllStay target (length header) (length header) rewrites)
    /// ```
    ///
    /// Definitions: [`Rewrite`](shortening::Rewrite), [`IsFirst`](shortening::IsFirst), [`IsInto`](shortening::IsInto), [`AllStay`](shortening::AllStay), [`header`](super::base::formats::header).
    type HasFound;
    /// Whether a section is left out.
    ///
    /// ```text
    /// abbrev pub leaves_out : Offsets → Bool → Bool
    /// leaves_out Refuse contains = false
    /// leaves_out LeaveOut contains = contains
    /// ```
    type leaves_out;
    /// The number that was found before, or else this number if the section has the property.
    ///
    /// ```text
    /// abbrev pub first_of : Option ℕ → Bool → ℕ → Option ℕ
    /// first_of (Some found) is_such number = Some found
    /// first_of None true number = Some number
    /// first_of None false number = None
    /// ```
    type first_of;
    /// The smaller number.
    ///
    /// ```text
    /// abbrev pub earlier : Option ℕ → Option ℕ → Option ℕ
    /// earlier None b = b
    /// earlier (Some a) None = Some a
    /// earlier (Some a) (Some b) = Some (min a b)
    /// ```
    type earlier;
    /// The number of the first section whose offsets of one class are lost.
    ///
    /// ```text
    /// abbrev pub lost : Found → Option ℕ
    /// lost found = if found.is_moved then found.holder else None
    /// ```
    type lost;
    /// The result for offsets of this class.
    ///
    /// ```text
    /// abbrev pub found_of : Target → Tally → Found
    /// found_of CodeAndData tally = tally.code_and_data
    /// found_of Relocated tally = tally.relocated
    /// found_of Module tally = tally.in_module
    /// ```
    type found_of;
    /// The number of the section for which a module is rejected: the first whose offsets are lost.
    ///
    /// ```text
    /// abbrev pub lost_at : Offsets → Tally → Option ℕ
    /// lost_at Refuse tally = earlier (lost tally.code_and_data)
    ///     (earlier (lost tally.relocated) (lost tally.in_module))
    /// lost_at LeaveOut tally = None
    /// ```
    ///
    /// Definitions: [`earlier`](shortening::earlier), [`lost`](shortening::lost).
    type lost_at;
    /// The tally of sections that are encoded: how many they are, how many are kept, and the results for offsets.
    ///
    /// ```text
    /// pub record HasTally (rewrites : List Rewrite) (tally : Tally) : Type 0 where
    ///   pub sections : tally.sections ≡ length rewrites
    ///   pub kept : tally.kept ≡ count_kept rewrites
    ///   pub found : (target : Target) → HasFound target rewrites (found_of target tally)
    /// ```
    ///
    /// Definitions: [`Rewrite`](shortening::Rewrite), [`count_kept`](shortening::count_kept), [`HasFound`](shortening::HasFound), [`found_of`](shortening::found_of).
    type HasTally;
    /// The bytes begin with sections, followed by `rest`, and the output for these sections is appended.
    ///
    /// ```text
    /// pub record Rewrites (offsets : Offsets) (bytes rest old new : List ℕ) (tally : Tally)
    ///     : Type 0 where
    ///   pub rewrites : List Rewrite
    ///   pub joined : bytes ≡ flat_map (λ w. bytes_of w.section) rewrites ++ rest
    ///   pub sections : AllByRecursion (λ w. IsSection w.section) rewrites
    ///   pub each : AllByRecursion (IsRewrite offsets) rewrites
    ///   pub tallied : HasTally rewrites tally
    ///   pub appended : new ≡ old ++ flat_map written rewrites
    /// ```
    ///
    /// Definitions: [`Rewrite`](shortening::Rewrite), [`bytes_of`](outlines::bytes_of), [`IsSection`](outlines::IsSection), [`IsRewrite`](shortening::IsRewrite), [`HasTally`](shortening::HasTally), [`written`](shortening::written).
    type Rewrites;
    /// The bytes begin with sections with any payload, one less than this number. Bytes remain, and no such section decodes from their front.
    ///
    /// ```text
    /// pub record StopsAfter (bytes : List ℕ) (number : ℕ) : Type 0 where
    ///   pub sections : List (ℕ × List ℕ)
    ///   pub rest : List ℕ
    ///   pub read : Decodes (members any_section) padded bytes sections rest
    ///   pub counted : length sections + 1 ≡ number
    ///   pub more : rest ≢ []
    ///   pub none : Rejects any_section padded rest
    /// ```
    ///
    /// Definitions: [`Decodes`](super::base::decoding::Decodes), [`members`](super::base::formats::members), [`any_section`](super::base::formats::any_section), [`padded`](super::base::numbers::Mode), [`Rejects`](super::base::decoding::Rejects).
    type StopsAfter;
    /// The cause of the error is a failed allocation.
    ///
    /// ```text
    /// abbrev pub IsMemory : ModuleFault → Type 0
    /// IsMemory (faults.Section number fault) = fault ≡ Memory
    /// IsMemory (faults.Offsets number) = ⊥
    /// ```
    type IsMemory;
    /// A minimized module can be minimized again, to the same bytes, unless an allocation fails.
    ///
    /// ```text
    /// pub record IsIdempotent : Type 0 where
    ///   pub again : (offsets : Offsets) (bytes old other encoding next : List ℕ)
    ///       (kept more : ℕ) → ShortensModule offsets bytes kept old (old ++ encoding)
    ///       → ShortensModule offsets encoding more other (other ++ next) → next ≡ encoding
    ///   pub accepted : (offsets : Offsets) (bytes old encoding : List ℕ) (kept : ℕ)
    ///       (fault : ModuleFault) → ShortensModule offsets bytes kept old (old ++ encoding)
    ///       → Explains offsets encoding fault → IsMemory fault
    /// ```
    ///
    /// Definitions: [`ShortensModule`](shortening::ShortensModule), [`Explains`](shortening::Explains), [`IsMemory`](shortening::IsMemory).
    type IsIdempotent;
}
