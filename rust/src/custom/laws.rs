// Written by tools/to-rust from crates/wasm_custom/src/laws.rt: change that.
//! Laws about custom sections and their items, for all byte sequences: each function does nothing,
//! and its clauses are the law.
//!
//! `ItemLaws` says of a kind of items that its format is unambiguous, and that a well-formed record
//! encodes its item.

pub use self::{padded as wide, rejections as nothing_stands};

/// The formats of sections and of their items are unambiguous. A well-formed record encodes its
/// item.
///
/// # Proved
///
/// - `names`, `linking`, `objects`, `producers`, `dylink`, `target_features`, `hints`, `frequencies`, `orders`, `call_targets`, `modules`, `instances`, `core`, `stack`, `source_maps`, `debug_files`, `build_ids`, `relocation_sections`, `customs`, `subsections`, `links`, `symbols`, `object_links`, `object_symbols`, `segments`, `init_functions`, `comdat_symbols`, `comdats`, `fields`, `dylink_items`, `dylink_needs`, `export_flags`, `import_flags`, `prefixes`, `features`, `functions_hints`, `marked_names`, `single_instances`, `frames`, `values`, `relocation_kinds`, `relocations`: A format whose encodings determine their own end is unambiguous in every mode, with encodings as `HasEncodings` states.
/// - `name_laws`, `linking_items`, `object_laws`, `producer_laws`, `dylink_laws`, `feature_laws`, `hint_laws`, `frequency_laws`, `order_laws`, `call_target_laws`, `module_laws`, `instance_laws`, `frame_laws`, `relocation_laws`: The laws of a kind of items: the format is unambiguous, and a well-formed record whose size fits encodes its normal form.
///
/// ```text
/// ensures names { Unambiguous (size_prefixed name_payload) }
/// ensures linking { Unambiguous (size_prefixed linking_payload) }
/// ensures objects { Unambiguous (size_prefixed object_payload) }
/// ensures producers { Unambiguous (size_prefixed producers_payload) }
/// ensures dylink { Unambiguous (size_prefixed dylink_payload) }
/// ensures target_features { Unambiguous (size_prefixed features_payload) }
/// ensures hints { Unambiguous (size_prefixed hints_payload) }
/// ensures frequencies { Unambiguous (size_prefixed frequencies_payload) }
/// ensures orders { Unambiguous (size_prefixed orders_payload) }
/// ensures call_targets { Unambiguous (size_prefixed call_targets_payload) }
/// ensures modules { Unambiguous (size_prefixed modules_payload) }
/// ensures instances { Unambiguous (size_prefixed instances_payload) }
/// ensures core { Unambiguous (size_prefixed core_payload) }
/// ensures stack { Unambiguous (size_prefixed stack_payload) }
/// ensures source_maps { Unambiguous (size_prefixed source_map_payload) }
/// ensures debug_files { Unambiguous (size_prefixed debug_file_payload) }
/// ensures build_ids { Unambiguous (size_prefixed build_id_payload) }
/// ensures relocation_sections { Unambiguous (size_prefixed relocations_payload) }
/// ensures customs { Unambiguous custom }
/// ensures subsections { Unambiguous subsection }
/// ensures links { Unambiguous link }
/// ensures symbols { Unambiguous symbol }
/// ensures object_links { Unambiguous full_link }
/// ensures object_symbols { Unambiguous full_symbol }
/// ensures segments { Unambiguous segment }
/// ensures init_functions { Unambiguous init_function }
/// ensures comdat_symbols { Unambiguous comdat_symbol }
/// ensures comdats { Unambiguous comdat }
/// ensures fields { Unambiguous field }
/// ensures dylink_items { Unambiguous dylink_item }
/// ensures dylink_needs { Unambiguous needs }
/// ensures export_flags { Unambiguous export_flags }
/// ensures import_flags { Unambiguous import_flags }
/// ensures prefixes { Unambiguous (coded prefix_code) }
/// ensures features { Unambiguous feature }
/// ensures functions_hints { Unambiguous hints }
/// ensures marked_names { Unambiguous marked_name }
/// ensures single_instances { Unambiguous instance }
/// ensures frames { Unambiguous stack_frame }
/// ensures values { Unambiguous value }
/// ensures relocation_kinds { Unambiguous (coded relocation_code) }
/// ensures relocations { Unambiguous relocation }
/// ensures name_laws { ItemLaws name_items }
/// ensures linking_items { ItemLaws link_items }
/// ensures object_laws { ItemLaws object_items }
/// ensures producer_laws { ItemLaws field_items }
/// ensures dylink_laws { ItemLaws dylink_items }
/// ensures feature_laws { ItemLaws feature_items }
/// ensures hint_laws { ItemLaws hint_items }
/// ensures frequency_laws { ItemLaws frequency_items }
/// ensures order_laws { ItemLaws order_items }
/// ensures call_target_laws { ItemLaws call_target_items }
/// ensures module_laws { ItemLaws module_items }
/// ensures instance_laws { ItemLaws instance_items }
/// ensures frame_laws { ItemLaws frame_items }
/// ensures relocation_laws { ItemLaws relocation_items }
/// ```
///
/// Definitions: [`Unambiguous`](crate::definitions::base::decoding::Unambiguous), [`size_prefixed`](crate::definitions::base::formats::size_prefixed), [`name_payload`](crate::definitions::custom::names::name_payload), [`linking_payload`](crate::definitions::custom::linking::linking_payload), [`object_payload`](crate::definitions::custom::linking::object_payload), [`producers_payload`](crate::definitions::custom::producers::producers_payload), [`dylink_payload`](crate::definitions::custom::dylink::dylink_payload), [`features_payload`](crate::definitions::custom::target_features::features_payload), [`hints`](crate::definitions::custom::hints::hints), [`hints_payload`](crate::definitions::custom::hints::hints_payload), [`frequencies_payload`](crate::definitions::custom::code_metadata::frequencies_payload), [`orders_payload`](crate::definitions::custom::code_metadata::orders_payload), [`call_targets_payload`](crate::definitions::custom::code_metadata::call_targets_payload), [`modules_payload`](crate::definitions::custom::core_dumps::modules_payload), [`instances_payload`](crate::definitions::custom::core_dumps::instances_payload), [`core_payload`](crate::definitions::custom::core_dumps::core_payload), [`stack_payload`](crate::definitions::custom::core_stacks::stack_payload), [`source_map_payload`](crate::definitions::custom::debug_files::source_map_payload), [`debug_file_payload`](crate::definitions::custom::debug_files::debug_file_payload), [`build_id_payload`](crate::definitions::custom::debug_files::build_id_payload), [`relocations_payload`](crate::definitions::custom::relocations::relocations_payload), [`custom`](crate::definitions::base::formats::custom), [`subsection`](crate::definitions::custom::names::subsection), [`link`](crate::definitions::custom::linking::link), [`symbol`](crate::definitions::custom::symbols::symbol), [`full_link`](crate::definitions::custom::linking::full_link), [`full_symbol`](crate::definitions::custom::symbols::full_symbol), [`segment`](crate::definitions::custom::segments::segment), [`init_function`](crate::definitions::custom::init_functions::init_function), [`comdat_symbol`](crate::definitions::custom::comdats::comdat_symbol), [`comdat`](crate::definitions::custom::comdats::comdat), [`field`](crate::definitions::custom::producers::field), [`dylink_items`](crate::definitions::custom::dylink::dylink_items), [`dylink_item`](crate::definitions::custom::dylink::dylink_item), [`needs`](crate::definitions::custom::dylink::needs), [`export_flags`](crate::definitions::custom::dylink::export_flags), [`import_flags`](crate::definitions::custom::dylink::import_flags), [`coded`](crate::definitions::base::formats::coded), [`prefix_code`](crate::definitions::custom::target_features::prefix_code), [`feature`](crate::definitions::custom::target_features::feature), [`marked_name`](crate::definitions::custom::core_dumps::marked_name), [`instance`](crate::definitions::custom::core_dumps::instance), [`stack_frame`](crate::definitions::custom::core_stacks::stack_frame), [`value`](crate::definitions::custom::core_values::value), [`relocation_code`](crate::definitions::custom::relocations::relocation_code), [`relocation`](crate::definitions::custom::relocations::relocation), [`ItemLaws`](crate::definitions::base::entries::ItemLaws), [`name_items`](crate::definitions::custom::names::name_items), [`link_items`](crate::definitions::custom::linking::link_items), [`object_items`](crate::definitions::custom::linking::object_items), [`field_items`](crate::definitions::custom::producers::field_items), [`feature_items`](crate::definitions::custom::target_features::feature_items), [`hint_items`](crate::definitions::custom::hints::hint_items), [`frequency_items`](crate::definitions::custom::code_metadata::frequency_items), [`order_items`](crate::definitions::custom::code_metadata::order_items), [`call_target_items`](crate::definitions::custom::code_metadata::call_target_items), [`module_items`](crate::definitions::custom::core_dumps::module_items), [`instance_items`](crate::definitions::custom::core_dumps::instance_items), [`frame_items`](crate::definitions::custom::core_stacks::frame_items), [`relocation_items`](crate::definitions::custom::relocations::relocation_items). [How to read clauses](crate::definitions).
pub fn sections() {}

/// The formats of sections are also unambiguous if padded LEB128 is admitted. A minimal encoding is
/// an encoding in that mode too.
///
/// # Proved
///
/// `names`, `linking`, `objects`, `producers`, `dylink`, `target_features`, `hints`, `frequencies`, `orders`, `call_targets`, `modules`, `instances`, `core`, `stack`, `source_maps`, `debug_files`, `build_ids`, `relocations`, `customs`: With padding allowed a format is unambiguous, and it keeps every minimal encoding.
///
/// ```text
/// ensures names { UnambiguousPadded (size_prefixed name_payload) }
/// ensures linking { UnambiguousPadded (size_prefixed linking_payload) }
/// ensures objects { UnambiguousPadded (size_prefixed object_payload) }
/// ensures producers { UnambiguousPadded (size_prefixed producers_payload) }
/// ensures dylink { UnambiguousPadded (size_prefixed dylink_payload) }
/// ensures target_features { UnambiguousPadded (size_prefixed features_payload) }
/// ensures hints { UnambiguousPadded (size_prefixed hints_payload) }
/// ensures frequencies { UnambiguousPadded (size_prefixed frequencies_payload) }
/// ensures orders { UnambiguousPadded (size_prefixed orders_payload) }
/// ensures call_targets { UnambiguousPadded (size_prefixed call_targets_payload) }
/// ensures modules { UnambiguousPadded (size_prefixed modules_payload) }
/// ensures instances { UnambiguousPadded (size_prefixed instances_payload) }
/// ensures core { UnambiguousPadded (size_prefixed core_payload) }
/// ensures stack { UnambiguousPadded (size_prefixed stack_payload) }
/// ensures source_maps { UnambiguousPadded (size_prefixed source_map_payload) }
/// ensures debug_files { UnambiguousPadded (size_prefixed debug_file_payload) }
/// ensures build_ids { UnambiguousPadded (size_prefixed build_id_payload) }
/// ensures relocations { UnambiguousPadded (size_prefixed relocations_payload) }
/// ensures customs { UnambiguousPadded custom }
/// ```
///
/// Definitions: [`UnambiguousPadded`](crate::definitions::base::decoding::UnambiguousPadded), [`size_prefixed`](crate::definitions::base::formats::size_prefixed), [`name_payload`](crate::definitions::custom::names::name_payload), [`linking_payload`](crate::definitions::custom::linking::linking_payload), [`object_payload`](crate::definitions::custom::linking::object_payload), [`producers_payload`](crate::definitions::custom::producers::producers_payload), [`dylink_payload`](crate::definitions::custom::dylink::dylink_payload), [`features_payload`](crate::definitions::custom::target_features::features_payload), [`hints`](crate::definitions::custom::hints::hints), [`hints_payload`](crate::definitions::custom::hints::hints_payload), [`frequencies_payload`](crate::definitions::custom::code_metadata::frequencies_payload), [`orders_payload`](crate::definitions::custom::code_metadata::orders_payload), [`call_targets_payload`](crate::definitions::custom::code_metadata::call_targets_payload), [`modules_payload`](crate::definitions::custom::core_dumps::modules_payload), [`instances_payload`](crate::definitions::custom::core_dumps::instances_payload), [`core_payload`](crate::definitions::custom::core_dumps::core_payload), [`stack_payload`](crate::definitions::custom::core_stacks::stack_payload), [`source_map_payload`](crate::definitions::custom::debug_files::source_map_payload), [`debug_file_payload`](crate::definitions::custom::debug_files::debug_file_payload), [`build_id_payload`](crate::definitions::custom::debug_files::build_id_payload), [`relocations_payload`](crate::definitions::custom::relocations::relocations_payload), [`custom`](crate::definitions::base::formats::custom). [How to read clauses](crate::definitions).
pub fn padded() {}

/// The items that sections and lists hold, call by call: none at first, and one more after each
/// call that adds a well-formed record. A list encodes the vector of its members.
///
/// # Proved
///
/// - `names`, `linking`, `objects`, `producers`, `dylink`, `features`, `hints`, `frequencies`, `orders`, `call_targets`, `modules`, `instances`, `frames`, `relocations`: A section without entries holds no items. The entry of a well-formed record adds its normal form, and an entry of raw bytes adds the item that they minimally encode. `add_all` adds its records as if one by one.
/// - `name_maps`, `indirect_maps`, `symbol_tables`, `object_symbols`, `segments`, `init_functions`, `comdat_symbols`, `comdats`, `dylink_names`, `dylink_exports`, `dylink_imports`, `producer_fields`: A list without entries holds no members. An entry that is the encoding of a member adds this member, if the list is not full.
/// - `name_maps_encoding`, `indirect_maps_encoding`, `symbol_tables_encoding`, `object_symbols_encoding`, `segments_encoding`, `init_functions_encoding`, `comdat_symbols_encoding`, `comdats_encoding`, `dylink_names_encoding`, `dylink_exports_encoding`, `dylink_imports_encoding`, `producer_fields_encoding`: The encoding of a list that holds members is the vector of these members.
///
/// ```text
/// ensures names { ContainsMore name_items }
/// ensures linking { ContainsMore link_items }
/// ensures objects { ContainsMore object_items }
/// ensures producers { ContainsMore field_items }
/// ensures dylink { ContainsMore dylink_items }
/// ensures features { ContainsMore feature_items }
/// ensures hints { ContainsMore hint_items }
/// ensures frequencies { ContainsMore frequency_items }
/// ensures orders { ContainsMore order_items }
/// ensures call_targets { ContainsMore call_target_items }
/// ensures modules { ContainsMore module_items }
/// ensures instances { ContainsMore instance_items }
/// ensures frames { ContainsMore frame_items }
/// ensures relocations { ContainsMore relocation_items }
/// ensures name_maps { ListMore naming_encoding IsNaming }
/// ensures indirect_maps { ListMore inside_encoding IsInside }
/// ensures symbol_tables { ListMore symbol_encoding IsGivenSymbol }
/// ensures object_symbols { ListMore symbol_encoding IsFullSymbol }
/// ensures segments { ListMore segment_encoding IsSegment }
/// ensures init_functions { ListMore init_encoding IsInit }
/// ensures comdat_symbols { ListMore comdat_symbol_encoding IsComdatSymbol }
/// ensures comdats { ListMore comdat_encoding IsComdat }
/// ensures dylink_names { ListMore size_prefixed_encoding IsEncodableName }
/// ensures dylink_exports { ListMore export_flags_encoding IsDylinkExport }
/// ensures dylink_imports { ListMore import_flags_encoding IsDylinkImport }
/// ensures producer_fields { ListMore producer_encoding IsProducer }
/// ensures name_maps_encoding { IsVectorOf naming_encoding IsNaming }
/// ensures indirect_maps_encoding { IsVectorOf inside_encoding IsInside }
/// ensures symbol_tables_encoding { IsVectorOf symbol_encoding IsGivenSymbol }
/// ensures object_symbols_encoding { IsVectorOf symbol_encoding IsFullSymbol }
/// ensures segments_encoding { IsVectorOf segment_encoding IsSegment }
/// ensures init_functions_encoding { IsVectorOf init_encoding IsInit }
/// ensures comdat_symbols_encoding { IsVectorOf comdat_symbol_encoding IsComdatSymbol }
/// ensures comdats_encoding { IsVectorOf comdat_encoding IsComdat }
/// ensures dylink_names_encoding { IsVectorOf size_prefixed_encoding IsEncodableName }
/// ensures dylink_exports_encoding { IsVectorOf export_flags_encoding IsDylinkExport }
/// ensures dylink_imports_encoding { IsVectorOf import_flags_encoding IsDylinkImport }
/// ensures producer_fields_encoding { IsVectorOf producer_encoding IsProducer }
/// ```
///
/// Definitions: [`ContainsMore`](crate::definitions::base::laws::ContainsMore), [`name_items`](crate::definitions::custom::names::name_items), [`link_items`](crate::definitions::custom::linking::link_items), [`object_items`](crate::definitions::custom::linking::object_items), [`field_items`](crate::definitions::custom::producers::field_items), [`dylink_items`](crate::definitions::custom::dylink::dylink_items), [`feature_items`](crate::definitions::custom::target_features::feature_items), [`hints`](crate::definitions::custom::hints::hints), [`hint_items`](crate::definitions::custom::hints::hint_items), [`frequency_items`](crate::definitions::custom::code_metadata::frequency_items), [`order_items`](crate::definitions::custom::code_metadata::order_items), [`call_target_items`](crate::definitions::custom::code_metadata::call_target_items), [`module_items`](crate::definitions::custom::core_dumps::module_items), [`instance_items`](crate::definitions::custom::core_dumps::instance_items), [`frame_items`](crate::definitions::custom::core_stacks::frame_items), [`relocation_items`](crate::definitions::custom::relocations::relocation_items), [`ListMore`](crate::definitions::custom::lists::ListMore), [`naming_encoding`](crate::definitions::custom::names::naming_encoding), [`IsNaming`](crate::definitions::custom::names::IsNaming), [`inside_encoding`](crate::definitions::custom::names::inside_encoding), [`IsInside`](crate::definitions::custom::names::IsInside), [`symbol_encoding`](crate::definitions::custom::symbols::symbol_encoding), [`IsGivenSymbol`](crate::definitions::custom::symbols::IsGivenSymbol), [`IsFullSymbol`](crate::definitions::custom::symbols::IsFullSymbol), [`segment_encoding`](crate::definitions::custom::segments::segment_encoding), [`IsSegment`](crate::definitions::custom::segments::IsSegment), [`init_encoding`](crate::definitions::custom::init_functions::init_encoding), [`IsInit`](crate::definitions::custom::init_functions::IsInit), [`comdat_symbol_encoding`](crate::definitions::custom::comdats::comdat_symbol_encoding), [`IsComdatSymbol`](crate::definitions::custom::comdats::IsComdatSymbol), [`comdat_encoding`](crate::definitions::custom::comdats::comdat_encoding), [`IsComdat`](crate::definitions::custom::comdats::IsComdat), [`size_prefixed_encoding`](crate::definitions::base::encodings::size_prefixed_encoding), [`IsEncodableName`](crate::definitions::base::laws::IsEncodableName), [`export_flags_encoding`](crate::definitions::custom::dylink::export_flags_encoding), [`IsDylinkExport`](crate::definitions::custom::dylink::IsDylinkExport), [`import_flags_encoding`](crate::definitions::custom::dylink::import_flags_encoding), [`IsDylinkImport`](crate::definitions::custom::dylink::IsDylinkImport), [`producer_encoding`](crate::definitions::custom::producers::producer_encoding), [`IsProducer`](crate::definitions::custom::producers::IsProducer), [`IsVectorOf`](crate::definitions::custom::lists::IsVectorOf). [How to read clauses](crate::definitions).
pub fn calls() {}

/// The same with padded LEB128, for the sections of entries: an entry may be a padded encoding of
/// its item.
///
/// # Proved
///
/// `names`, `linking`, `objects`, `producers`, `dylink`, `features`, `hints`, `frequencies`, `orders`, `call_targets`, `modules`, `instances`: As `ContainsMore`, for padded LEB128. A section holds all that it holds in minimal encodings. A record that is well-formed, with possibly padded expressions, adds its normal form. Raw bytes add the item that they encode, possibly padded.
///
/// ```text
/// ensures names { ContainsMorePadded name_items }
/// ensures linking { ContainsMorePadded link_items }
/// ensures objects { ContainsMorePadded object_items }
/// ensures producers { ContainsMorePadded field_items }
/// ensures dylink { ContainsMorePadded dylink_items }
/// ensures features { ContainsMorePadded feature_items }
/// ensures hints { ContainsMorePadded hint_items }
/// ensures frequencies { ContainsMorePadded frequency_items }
/// ensures orders { ContainsMorePadded order_items }
/// ensures call_targets { ContainsMorePadded call_target_items }
/// ensures modules { ContainsMorePadded module_items }
/// ensures instances { ContainsMorePadded instance_items }
/// ```
///
/// Definitions: [`ContainsMorePadded`](crate::definitions::base::laws::ContainsMorePadded), [`name_items`](crate::definitions::custom::names::name_items), [`link_items`](crate::definitions::custom::linking::link_items), [`object_items`](crate::definitions::custom::linking::object_items), [`field_items`](crate::definitions::custom::producers::field_items), [`dylink_items`](crate::definitions::custom::dylink::dylink_items), [`feature_items`](crate::definitions::custom::target_features::feature_items), [`hints`](crate::definitions::custom::hints::hints), [`hint_items`](crate::definitions::custom::hints::hint_items), [`frequency_items`](crate::definitions::custom::code_metadata::frequency_items), [`order_items`](crate::definitions::custom::code_metadata::order_items), [`call_target_items`](crate::definitions::custom::code_metadata::call_target_items), [`module_items`](crate::definitions::custom::core_dumps::module_items), [`instance_items`](crate::definitions::custom::core_dumps::instance_items). [How to read clauses](crate::definitions).
pub fn padded_calls() {}

/// If a module decodes to ids and payloads, and a section decodes to its items alone, then its
/// payload decodes to these alone.
///
/// # Proved
///
/// `names`, `linking`, `objects`, `producers`, `dylink`, `features`, `hints`, `frequencies`, `orders`, `call_targets`, `modules`, `instances`, `core`, `stack`, `source_maps`, `debug_files`, `build_ids`, `relocations`, `customs`: If size-prefixed bytes decode to one value alone, their payload decodes to it alone.
///
/// ```text
/// ensures names { DecodesPayloads name_payload }
/// ensures linking { DecodesPayloads linking_payload }
/// ensures objects { DecodesPayloads object_payload }
/// ensures producers { DecodesPayloads producers_payload }
/// ensures dylink { DecodesPayloads dylink_payload }
/// ensures features { DecodesPayloads features_payload }
/// ensures hints { DecodesPayloads hints_payload }
/// ensures frequencies { DecodesPayloads frequencies_payload }
/// ensures orders { DecodesPayloads orders_payload }
/// ensures call_targets { DecodesPayloads call_targets_payload }
/// ensures modules { DecodesPayloads modules_payload }
/// ensures instances { DecodesPayloads instances_payload }
/// ensures core { DecodesPayloads core_payload }
/// ensures stack { DecodesPayloads stack_payload }
/// ensures source_maps { DecodesPayloads source_map_payload }
/// ensures debug_files { DecodesPayloads debug_file_payload }
/// ensures build_ids { DecodesPayloads build_id_payload }
/// ensures relocations { DecodesPayloads relocations_payload }
/// ensures customs { DecodesPayloads (pair name any_bytes) }
/// ```
///
/// Definitions: [`DecodesPayloads`](crate::definitions::base::modules::DecodesPayloads), [`name_payload`](crate::definitions::custom::names::name_payload), [`linking_payload`](crate::definitions::custom::linking::linking_payload), [`object_payload`](crate::definitions::custom::linking::object_payload), [`producers_payload`](crate::definitions::custom::producers::producers_payload), [`dylink_payload`](crate::definitions::custom::dylink::dylink_payload), [`features_payload`](crate::definitions::custom::target_features::features_payload), [`hints`](crate::definitions::custom::hints::hints), [`hints_payload`](crate::definitions::custom::hints::hints_payload), [`frequencies_payload`](crate::definitions::custom::code_metadata::frequencies_payload), [`orders_payload`](crate::definitions::custom::code_metadata::orders_payload), [`call_targets_payload`](crate::definitions::custom::code_metadata::call_targets_payload), [`modules_payload`](crate::definitions::custom::core_dumps::modules_payload), [`instances_payload`](crate::definitions::custom::core_dumps::instances_payload), [`core_payload`](crate::definitions::custom::core_dumps::core_payload), [`stack_payload`](crate::definitions::custom::core_stacks::stack_payload), [`source_map_payload`](crate::definitions::custom::debug_files::source_map_payload), [`debug_file_payload`](crate::definitions::custom::debug_files::debug_file_payload), [`build_id_payload`](crate::definitions::custom::debug_files::build_id_payload), [`relocations_payload`](crate::definitions::custom::relocations::relocations_payload), [`pair`](crate::definitions::base::formats::pair), [`name`](crate::definitions::base::formats::name), [`any_bytes`](crate::definitions::base::formats::any_bytes). [How to read clauses](crate::definitions).
pub fn payloads() {}

/// The same with padded LEB128.
///
/// # Proved
///
/// `names`, `linking`, `objects`, `producers`, `dylink`, `features`, `hints`, `frequencies`, `orders`, `call_targets`, `modules`, `instances`, `core`, `stack`, `source_maps`, `debug_files`, `build_ids`, `relocations`, `customs`: If size-prefixed bytes decode to one value alone, with padding allowed, so does their payload.
///
/// ```text
/// ensures names { DecodesPayloadsPadded name_payload }
/// ensures linking { DecodesPayloadsPadded linking_payload }
/// ensures objects { DecodesPayloadsPadded object_payload }
/// ensures producers { DecodesPayloadsPadded producers_payload }
/// ensures dylink { DecodesPayloadsPadded dylink_payload }
/// ensures features { DecodesPayloadsPadded features_payload }
/// ensures hints { DecodesPayloadsPadded hints_payload }
/// ensures frequencies { DecodesPayloadsPadded frequencies_payload }
/// ensures orders { DecodesPayloadsPadded orders_payload }
/// ensures call_targets { DecodesPayloadsPadded call_targets_payload }
/// ensures modules { DecodesPayloadsPadded modules_payload }
/// ensures instances { DecodesPayloadsPadded instances_payload }
/// ensures core { DecodesPayloadsPadded core_payload }
/// ensures stack { DecodesPayloadsPadded stack_payload }
/// ensures source_maps { DecodesPayloadsPadded source_map_payload }
/// ensures debug_files { DecodesPayloadsPadded debug_file_payload }
/// ensures build_ids { DecodesPayloadsPadded build_id_payload }
/// ensures relocations { DecodesPayloadsPadded relocations_payload }
/// ensures customs { DecodesPayloadsPadded (pair name any_bytes) }
/// ```
///
/// Definitions: [`DecodesPayloadsPadded`](crate::definitions::base::modules::DecodesPayloadsPadded), [`name_payload`](crate::definitions::custom::names::name_payload), [`linking_payload`](crate::definitions::custom::linking::linking_payload), [`object_payload`](crate::definitions::custom::linking::object_payload), [`producers_payload`](crate::definitions::custom::producers::producers_payload), [`dylink_payload`](crate::definitions::custom::dylink::dylink_payload), [`features_payload`](crate::definitions::custom::target_features::features_payload), [`hints`](crate::definitions::custom::hints::hints), [`hints_payload`](crate::definitions::custom::hints::hints_payload), [`frequencies_payload`](crate::definitions::custom::code_metadata::frequencies_payload), [`orders_payload`](crate::definitions::custom::code_metadata::orders_payload), [`call_targets_payload`](crate::definitions::custom::code_metadata::call_targets_payload), [`modules_payload`](crate::definitions::custom::core_dumps::modules_payload), [`instances_payload`](crate::definitions::custom::core_dumps::instances_payload), [`core_payload`](crate::definitions::custom::core_dumps::core_payload), [`stack_payload`](crate::definitions::custom::core_stacks::stack_payload), [`source_map_payload`](crate::definitions::custom::debug_files::source_map_payload), [`debug_file_payload`](crate::definitions::custom::debug_files::debug_file_payload), [`build_id_payload`](crate::definitions::custom::debug_files::build_id_payload), [`relocations_payload`](crate::definitions::custom::relocations::relocations_payload), [`pair`](crate::definitions::base::formats::pair), [`name`](crate::definitions::base::formats::name), [`any_bytes`](crate::definitions::base::formats::any_bytes). [How to read clauses](crate::definitions).
pub fn padded_payloads() {}

/// In the standard's grammar, a payload encodes the items of a linking section if and only if it
/// encodes them as that of an object file, which is the format that `ObjectLinking` promises. In
/// the builders' grammar, the payload of a linking section is one of an object file too.
///
/// # Proved
///
/// `decoded`, `encoded`, `minimal_decoded`, `minimal_encoded`, `built`: Every encoding by the first format is an encoding of the same value by the second.
///
/// ```text
/// ensures decoded { IsIncludedIn (linking_payload standard) (object_payload standard) }
/// ensures encoded { IsIncludedIn (object_payload standard) (linking_payload standard) }
/// ensures minimal_decoded { IsIncludedIn (linking_payload standard_minimal)
///     (object_payload standard_minimal) }
/// ensures minimal_encoded { IsIncludedIn (object_payload standard_minimal)
///     (linking_payload standard_minimal) }
/// ensures built { IsIncludedIn (linking_payload padded_mode)
///     (object_payload padded_mode) }
/// ```
///
/// Definitions: [`IsIncludedIn`](crate::definitions::base::decoding::IsIncludedIn), [`linking_payload`](crate::definitions::custom::linking::linking_payload), [`standard`](crate::definitions::base::numbers::Mode), [`object_payload`](crate::definitions::custom::linking::object_payload), [`standard_minimal`](crate::definitions::base::numbers::Mode), [`padded_mode`](crate::definitions::base::numbers::Mode). [How to read clauses](crate::definitions).
pub fn object_linking() {}

/// Two byte sequences that encode, in the builders' grammar, no section of branch hints and no
/// linking section, even if padded LEB128 is admitted. In the first a value has two bytes. In the
/// second a defined function has no name.
///
/// # Proved
///
/// `long_value`, `no_name`: In neither mode of the builders' grammar does a value decode from the front of the bytes, whatever follows them.
///
/// ```text
/// ensures long_value { RejectsAllAfterPadded (size_prefixed hints_payload)
///     (33 ∷ 25 ∷ (hints_name ++ (1 ∷ 0 ∷ 1 ∷ 3 ∷ 1 ∷ 128 ∷ 1 ∷ []))) }
/// ensures no_name { RejectsAllAfterPadded (size_prefixed linking_payload)
///     (15 ∷ 7 ∷ (linking_name ++ (2 ∷ 8 ∷ 4 ∷ 1 ∷ 0 ∷ 0 ∷ 1 ∷ []))) }
/// ```
///
/// Definitions: [`RejectsAllAfterPadded`](crate::definitions::base::laws::RejectsAllAfterPadded), [`size_prefixed`](crate::definitions::base::formats::size_prefixed), [`hints_payload`](crate::definitions::custom::hints::hints_payload), [`hints_name`](crate::definitions::custom::hints::hints_name), [`linking_payload`](crate::definitions::custom::linking::linking_payload), [`linking_name`](crate::definitions::custom::linking::linking_name). [How to read clauses](crate::definitions).
pub fn rejections() {}
