"""The lemmas of builders, and the modules of names, which docs/PROOFS.md describes."""
from __future__ import annotations

import re
from dataclasses import dataclass

from ..repository import TOP, text_of


@dataclass(frozen=True)
class BuilderLaws:
    """A builder: the lemma of its `new`, the crate of its lemmas, and the predicate of its
    content."""

    new: str
    crate: str
    holds: str


@dataclass(frozen=True)
class Gain:
    """The lemmas of a filled builder: of a module that gains it, and of a buffer it is encoded
    to."""

    of_module: str
    of_buffer: str


BUILDERS = {
    "CodeSection": BuilderLaws("new_code", "wasm_code", "EncodesBodies"),
    "TypeSection": BuilderLaws("new_types", "wasm_types", "ContainsTypes"),
    "FunctionSection": BuilderLaws("new_functions", "wasm_sections", "ContainsFunctions"),
    "TableSection": BuilderLaws("new_tables", "wasm_sections", "ContainsTables"),
    "MemorySection": BuilderLaws("new_memories", "wasm_sections", "ContainsMemories"),
    "GlobalSection": BuilderLaws("new_globals", "wasm_sections", "ContainsGlobals"),
    "ExportSection": BuilderLaws("new_exports", "wasm_sections", "ContainsExports"),
    "ElementSection": BuilderLaws("new_elements", "wasm_sections", "ContainsElements"),
    "DataSection": BuilderLaws("new_segments", "wasm_sections", "ContainsSegments"),
    "ImportSection": BuilderLaws("new_imports", "wasm_sections", "ContainsImports"),
    "TagSection": BuilderLaws("new_tags", "wasm_sections", "ContainsTags"),
    "NameSection": BuilderLaws("new_names", "wasm_custom", "ContainsNames"),
    "NameMap": BuilderLaws("new_map", "wasm_custom", "AreNamings"),
    "IndirectNameMap": BuilderLaws("new_indirect_map", "wasm_custom", "AreInsides"),
    "SymbolTable": BuilderLaws("new_symbols", "wasm_custom", "AreSymbols"),
    "LinkingSection": BuilderLaws("new_linking", "wasm_custom", "ContainsLinks"),
    "ProducersField": BuilderLaws("new_field", "wasm_custom", "AreProducers"),
    "ProducersSection": BuilderLaws("new_producers", "wasm_custom", "ContainsFields"),
    "TargetFeaturesSection": BuilderLaws("new_features", "wasm_custom", "ContainsFeatures"),
    "BranchHints": BuilderLaws("new_hints", "wasm_custom", "ContainsHints"),
    "CoreDumpModulesSection": BuilderLaws("new_modules", "wasm_custom", "ContainsModules"),
    "CoreDumpInstancesSection": BuilderLaws("new_instances", "wasm_custom", "ContainsInstances"),
    "CoreDumpStackSection": BuilderLaws("new_stack", "wasm_custom", "SaysStack"),
}
KIND_OF = {laws.holds: kind for kind, laws in BUILDERS.items()}

# By the predicate of a builder's content.
GAINS = {
    "EncodesBodies": Gain("gains_code", "encodes_code"),
    "ContainsTypes": Gain("gains_types", "encodes_types"),
    "ContainsFunctions": Gain("gains_functions", "encodes_items"),
    "ContainsTables": Gain("gains_tables", "encodes_items"),
    "ContainsMemories": Gain("gains_memories", "encodes_items"),
    "ContainsGlobals": Gain("gains_globals", "encodes_items"),
    "ContainsExports": Gain("gains_exports", "encodes_items"),
    "ContainsElements": Gain("gains_elements", "encodes_items"),
    "ContainsSegments": Gain("gains_segments", "encodes_items"),
    "ContainsImports": Gain("gains_imports", "encodes_items"),
    "ContainsTags": Gain("gains_tags", "encodes_items"),
    "ContainsNames": Gain("gains_names", "encodes_entries (size_prefixed name_payload) _ _"),
    "ContainsLinks": Gain("gains_linking", "encodes_entries (size_prefixed linking_payload) _ _"),
    "ContainsFields": Gain("gains_producers", "encodes_entries (size_prefixed producers_payload) _ _"),
    "ContainsFeatures": Gain("gains_features", "encodes_entries (size_prefixed features_payload) _ _"),
    "ContainsHints": Gain("gains_hints", "encodes_entries (size_prefixed hints_payload) _ _"),
    "ContainsModules": Gain("gains_modules", "encodes_entries (size_prefixed modules_payload) _ _"),
    "ContainsInstances": Gain("gains_instances", "encodes_entries (size_prefixed instances_payload) _ _"),
    "SaysStack": Gain("gains_stack", "encodes_custom (size_prefixed stack_payload) _"),
}
# Lemmas of wasm_base, on sections of items of any kind.
OF_ANY_KIND = {"adds_item", "adds_items", "encodes_items", "encodes_items_padded"}

# The file of `wasm_custom/specs` that defines each format.
PAYLOADS = {
    payload: file.stem
    for file in sorted((TOP / "crates/wasm_custom/specs").glob("*.antt"))
    for payload in re.findall(r"^abbrev pub (\w+_payload) : Format ", text_of(file), re.M)
}

# Sections of one number.
NUMBERS = {"StartSection", "DataCountSection"}

# The ids of the subsections of a name section: of names, and of names within what has an index.
NAMES = {"functions": 1, "types": 4, "tables": 5, "memories": 6, "globals": 7, "elements": 8, "data": 9, "tag": 11, "tags": 11}
INSIDES = {"locals": 2, "labels": 3, "fields": 10, "parameters": 12, "tag_parameters": 13}

# Words that proofs import from std's `Common`; other words of std are imported from its prelude.
COMMON = {"[]", "◌∷◌", "◌++◌", "◌≡◌", "arith", "rules", "refl", "pos", "neg_ℤ", "None", "Some", "ap", "◌∙◌", "true", "false"}
ARITH, INTS = "Rattle.std.proofs.Common", "Rattle.std.proofs.lemmas.Int"
PRELUDE = "Rattle.std.specs.Prelude"
GLOBAL = "Rattle.std.specs.declared.alloc.Global"
VARIANTS = {
    "FeaturePrefix": "Rattle.wasm_custom.specs.declared.target_features.FeaturePrefix.TheVariants",
    "BlockType": "Rattle.wasm_immediates.specs.declared.block_type.BlockType.TheVariants",
    "ValType": "Rattle.wasm_base.specs.declared.types.ValType.TheVariants",
    "MemArgTarget": "Rattle.wasm_immediates.specs.declared.memory.MemArgTarget.TheVariants",
    "ExportKind": "Rattle.wasm_sections.specs.declared.export.ExportKind.TheVariants",
    "TagKind": "Rattle.wasm_sections.specs.declared.tag.TagKind.TheVariants",
    "AbstractHeapType": "Rattle.wasm_base.specs.declared.types.AbstractHeapType.TheVariants",
    "EntityType": "Rattle.wasm_sections.specs.declared.import.EntityType.TheVariants",
    "Instruction": "Rattle.wasm_insn.specs.declared.instruction.Instruction.TheVariants",
}
# The types whose values have no index.
BARE_TYPES = {"I32", "I64", "F32", "F64", "V128"}
BARE_REFS = {"FUNCREF", "EXTERNREF"}
# The prefixes of target features.
PREFIXES = {"Used", "Disallowed", "Required"}
# Heap types by their constants, and the abstract type of each, which is not shared.
BARE_HEAPS = {"FUNC": "Func", "EXTERN": "Extern"}

# The named calls of the proved sink, in the order of its source. docs/PROOFS.md and docs/TUTORIAL.md
# list them (a test compares all).
SINK_CALLS = (
    "unreachable", "nop", "block", "loop_", "if_", "else_", "end", "br", "br_if", "br_table", "return_", "call",
    "call_indirect", "drop_", "select", "typed_select", "typed_select_multi", "local_get", "local_set", "local_tee",
    "global_get", "global_set", "i32_load", "i32_store", "memory_size", "memory_grow", "i32_const", "i64_const",
    "f32_const", "f64_const", "v128_const", "i32_eqz", "i32_add", "i32_sub", "i32_mul", "i64_add", "i64_sub",
    "i64_mul", "ref_null", "ref_is_null", "ref_func",
)

# Decoded sections, with the builders that they are of.
SECTIONS = {
    "ContainsTypes": "type_decoding",
    "ContainsImports": "import_decoding",
    "ContainsFunctions": "function_decoding",
    "ContainsTables": "table_decoding",
    "ContainsMemories": "memory_decoding",
    "ContainsTags": "tag_decoding",
    "ContainsGlobals": "global_decoding",
    "ContainsExports": "export_decoding",
    "ContainsElements": "element_decoding",
    "EncodesBodies": "code_decoding",
    "ContainsSegments": "data_decoding",
}
SECTION_WORDS = {
    "type_decoding": "a type section",
    "import_decoding": "an import section",
    "function_decoding": "a function section",
    "table_decoding": "a table section",
    "memory_decoding": "a memory section",
    "tag_decoding": "a tag section",
    "global_decoding": "a global section",
    "export_decoding": "an export section",
    "start_decoding": "a start section",
    "element_decoding": "an element section",
    "data_count_decoding": "a data count section",
    "code_decoding": "a code section",
    "data_decoding": "a data section",
}
NUMBER_SECTIONS = {"StartSection": "start_decoding", "DataCountSection": "data_count_decoding"}
# Two of these words, or of instructions, are never equal.
WORDS_THAT_DIFFER = {
    *SECTION_WORDS, *BARE_TYPES, *BARE_REFS, "normal_row", "br_table_row", "None", "Some", "true", "false", "Func", "Table",
    "Memory", "Global", "Tag", "Function", "FunctionExact", "Empty", "Result", "FunctionType", "active", "passive", "declared",
    "functions", "expressions", "func", "array", "structure", "cont",
}

# Forms that the tool does not follow, and the example of each.
EXAMPLES = {
    "`for`": "crates/examples/src/lowering.rt (`emit_all`)",
    "`while`": "crates/examples/src/stripped.rt (`without_custom`)",
    "`loop`": "crates/examples/src/stripped.rt (`without_custom`)",
    "`match`": "crates/examples/src/trees.rt (`emit_expr`)",
    "`if`": "crates/examples/src/trees.rt (`emit_expr`)",
}

# For drafts of definitions: the type of an item by the predicate of a clause, and its module.
ITEM_TYPES = {
    "IsWellFormedBody": ("Body", "Rattle.wasm_code.specs.Words"),
    "StoresInstructions": ("List Plain", "Rattle.wasm_insn.specs.Words"),
    "EncodesBodies": ("Body", "Rattle.wasm_code.specs.Words"),
    "ContainsTypes": ("TypeItem", "Rattle.wasm_types.specs.Words"),
    "ContainsImports": ("ImportItem", "Rattle.wasm_sections.specs.Words"),
    "ContainsFunctions": ("ℕ", PRELUDE),
    "ContainsTables": ("TableItem", "Rattle.wasm_sections.specs.Words"),
    "ContainsMemories": ("MemoryType", "Rattle.wasm_sections.specs.declared.memory.MemoryType"),
    "ContainsTags": ("TagType", "Rattle.wasm_sections.specs.declared.tag.TagType"),
    "ContainsGlobals": ("GlobalItem", "Rattle.wasm_sections.specs.Words"),
    "ContainsExports": ("ExportItem", "Rattle.wasm_sections.specs.Words"),
    "ContainsElements": ("elements.ElementItem (List Plain)", "Rattle.wasm_sections.specs.Elements"),
    "ContainsSegments": ("segments.DataItem", "Rattle.wasm_sections.specs.DataSegments"),
}
# The modules of words.
HOMES = {
    **{it: PRELUDE for it in ("None", "Some", "true", "false")},
    **{it: "Rattle.wasm_base.specs.Words" for it in ("FUNCREF", "EXTERNREF")},
    **{it: "Rattle.wasm_types.specs.Words" for it in ("func", "plain_type", "type_decoding")},
    **{it: "Rattle.wasm_code.specs.Words" for it in ("code_decoding", "br_table_row")},
    **{it: "Rattle.wasm_sections.specs.Words" for it in ("single", *SECTION_WORDS) if it not in ("type_decoding", "code_decoding")},
    "unshared": "Rattle.wasm_base.specs.Types",
}
# What is added to the name of a variant that has the name of another word.
ALIASES = {"ExportKind": "Export", "EntityType": "Import", "MemArgTarget": "Target", "Instruction": "Instruction"}
