"""Callers, and the proof files that tools/answers writes for them."""

HEAD = """// Callers.
ghost use Rattle.std.specs.Prelude.{[], ◌∷◌, IfOk, OnOk};
ghost use Rattle.wasm_base.specs.Modules.{DecodesSections, GainsDecoding, GainsDecodingPadded};
ghost use Rattle.mine.specs.Said.{body, sections, item};

use std::alloc::Allocator;
"""

# The definitions that their clauses name.
SAID = """-- What the callers encode.
use Rattle.std.specs.Prelude.{[], ◌∷◌, neg_ℤ, pos}
use Rattle.std.specs.declared.alloc.Global.{Global}
use Rattle.wasm_base.specs.declared.types.ValType.TheVariants.{I32}
use Rattle.wasm_code.specs.Words.{Body, normal_row}
use Rattle.wasm_insn.specs.declared.instruction.Instruction.TheVariants.{LocalGet, I32Const, Numeric, End}
use Rattle.wasm_insn.specs.declared.numeric.Numeric.TheVariants.{I32Add}

-- A body of four instructions.
abbrev pub body : (index : ℕ) → Body
body index = record {
  runs = (1, I32) ∷ [];
  code = normal_row {A = Global} (LocalGet index) ∷ normal_row (I32Const (neg_ℤ (pos 1))) ∷ normal_row (Numeric I32Add) ∷ normal_row End ∷ [];
}

-- Words of which the tool knows nothing.
opaque pub item : List ℕ → ℕ → Item
opaque pub sections : List SectionDecoding
"""

# Callers: the signature from the name on, the clause, and the body.
SUM = (
    "sum<A: Allocator>(alloc: A, index: u32) -> R<Function<A>>",
    "IfOk result (λ function. IsWellFormedBody function (body index))",
    """
    let mut function = Function::new(alloc, [(1, ValType::I32)])?;
    let mut sink = function.instructions();
    sink.local_get(index)?;
    sink.i32_const(-1)?;
    sink.i32_add()?;
    sink.end()?;
    Ok(function)
""",
)
CODE = (
    "code<A: Allocator + Copy>(alloc: A) -> R<CodeSection<A>>",
    "IfOk result (λ section. EncodesBodies section (body 0 ∷ body 0 ∷ []))",
    """
    let mut section = CodeSection::new(alloc);
    section.function(&sum(alloc, 0)?)?;
    section.function(&sum(alloc, 0)?)?;
    Ok(section)
""",
)
EXPORTS = (
    "exports(sink: &mut Vec<u8>, name: &str) -> R<()>",
    "OnOk result (GainsDecoding (counted_format export) (item name.now 7 ∷ []) sink.old.items sink.new.items)",
    """
    let mut section = ExportSection::new(*sink.allocator());
    section.export(name, ExportKind::Func, 7)?;
    section.encode(sink)
""",
)
MODULE = (
    "add<A: Allocator + Copy>(built: &mut Module<A>, alloc: A) -> R<()>",
    "DecodesSections [] built.old → OnOk result (DecodesSections sections built.new)",
    """
    built.section(&code(alloc)?)?;
    built.section(&StartSection { function_index: 0 })?;
    Ok(())
""",
)

SYMBOLS = (
    "symbols<A: Allocator + Copy>(alloc: A, name: &str) -> R<SymbolTable<A>>",
    "IfOk result (λ table. AreSymbols table (item name.now 1 ∷ item name.now 2 ∷ []))",
    """
    let mut table = SymbolTable::new(alloc);
    table.function(SymbolTable::WASM_SYM_EXPORTED, 3, Some(name))?;
    table.data(0, "d", None)?;
    Ok(table)
""",
)
LINKING = (
    "linking<A: Allocator + Copy>(sink: &mut Vec<u8, A>, name: &str) -> R<()>",
    "OnOk result (GainsDecoding (size_prefixed linking_payload) (item name.now 7) sink.old.items sink.new.items)",
    """
    let alloc = *sink.allocator();
    let mut section = LinkingSection::new(alloc);
    section.symbol_table(&symbols(alloc, name)?)?;
    section.target_arch("wasm32")?;
    section.encode(sink)
""",
)
PRODUCERS = (
    "producers<A: Allocator + Copy>(alloc: A, version: &str) -> R<ProducersSection<A>>",
    "IfOk result (λ section. ContainsFields section (item version.now 0))",
    """
    let mut values = ProducersField::new(alloc);
    values.value("mine", version)?;
    let mut section = ProducersSection::new(alloc);
    section.field("language", &values)?;
    Ok(section)
""",
)
HINTS = (
    "hints<A: Allocator + Copy>(alloc: A, index: u32) -> R<BranchHints<A>>",
    "IfOk result (λ section. ContainsHints section (item index 0))",
    """
    let hint = BranchHint { branch_func_offset: 3, branch_hint_value: 1 };
    let mut section = BranchHints::new(alloc);
    section.function_hints(index, [hint])?;
    Ok(section)
""",
)
FEATURES = (
    "features<A: Allocator + Copy>(alloc: A, name: &str) -> R<TargetFeaturesSection<A>>",
    "IfOk result (λ section. ContainsFeatures section (item name.now ∷ []))",
    """
    let mut section = TargetFeaturesSection::new(alloc);
    section.feature(FeaturePrefix::Used, name)?;
    Ok(section)
""",
)
STACK = (
    "stack<A: Allocator + Copy>(alloc: A, name: &str) -> R<CoreDumpStackSection<A>>",
    "IfOk result (λ section. SaysStack section.0 section.1 (name.now, item 0 0 ∷ []))",
    """
    let mut section = CoreDumpStackSection::new(alloc, name)?;
    section.frame(0, 1, 2, [CoreDumpValue::Missing], [CoreDumpValue::I32(5)])?;
    Ok(section)
""",
)
# A section that is encoded into an empty buffer, and read back.
READ = """
pub fn read<'a, A: Allocator + Copy + 'a>(text: &'a mut Vec<u8, A>, name: &str, sink: &mut Vec<u8, A>) -> Result<Items<'a, A>, ReadFault>
    requires { text.old.items ≡ [] }
    ensures read { IfOk result (λ items. contents_of items ≡ Linking (item name.now 7)) }
    ensures same { OnOk result (GainsDecoding (size_prefixed linking_payload) (item name.now 7) sink.old.items sink.new.items) }
    ensures memory { IfErr result (λ e. e ≢ Memory → ⊥) }
{
    linking(text, name)?;
    let items = read_and_shorten(SectionKind::Linking, text, sink)?;
    Ok(items)
}
"""

# The proof files, by the name of the function.
WRITTEN = {
    "sum": """-- Written by tools/answers.
use Rattle.std.proofs.Common.{arith, pos, neg_ℤ, rules}
use Rattle.std.proofs.lemmas.Int.{ints}
use Rattle.wasm_base.proofs.KnownLengths.{drained_array}
use Rattle.wasm_code.proofs.Calls.{new_function, lent, writes_instruction}
use Rattle.wasm_insn.specs.declared.instruction.Instruction.TheVariants.{LocalGet, I32Const, Numeric, End}
use Rattle.wasm_insn.specs.declared.numeric.Numeric.TheVariants.{I32Add}
use Rattle.mine.proofs.adding.sum.Goals as goal

pub returns : goal.returns
returns g c =
    let b1 = lent (new_function c.in_ok-function.ensures ((omega arith, tt), tt)) c.instructions-sink.ensures.same in
    let b2 = writes_instruction b1 (LocalGet c.args.index) c.in_ok-local_get.ensures.writes.bytes (omega (arith, c.ranges.index.fits), tt) in
    let b3 = writes_instruction b2 (I32Const (neg_ℤ (pos 1))) c.in_ok-i32_const.ensures.writes.bytes ((omega (arith, ints), omega (arith, ints)), tt) in
    let b4 = writes_instruction b3 (Numeric I32Add) c.in_ok-i32_add.ensures.writes.bytes tt in
    let b5 = writes_instruction b4 End c.in_ok-end.ensures.writes.bytes tt in
    lent b5 (search rules)

pub new-requires : goal.new-requires
new-requires g c = record { can = λ it b. tt; reported = λ it xs b d. drained_array it xs d }
""",
    "code": """-- Written by tools/answers.
use Rattle.wasm_code.proofs.Calls.{new_code, adds_body}
use Rattle.mine.proofs.adding.code.Goals as goal

pub returns : goal.returns
returns g c =
    let s1 = adds_body (new_code c.new-section.ensures) c.in_ok-function.ensures.ok c.in_ok-sum.ensures in
    adds_body s1 c.in_ok-function-2.ensures.ok c.in_ok-sum-2.ensures
""",
    "exports": """-- Written by tools/answers.
use Rattle.std.proofs.Common.{arith}
use Rattle.wasm_base.proofs.Calls.{encodes_items}
use Rattle.wasm_sections.proofs.Calls.{new_exports, adds_export}
use Rattle.mine.specs.Said.{item}
use Rattle.mine.proofs.adding.exports.Goals as goal

pub returns : goal.returns
returns c =
    let s1 = adds_export (new_exports c.new-section.ensures) (item c.args.name.now 7) c.in_ok-export.ensures.ok c.in_ok-export.ensures.was_encodable c.utf8.name (omega arith) in
    encodes_items c.encode.ensures.appends c.encode.ensures.read s1
""",
    "add": """-- Written by tools/answers.
use Rattle.wasm_code.proofs.Calls.{gains_code}
use Rattle.wasm_sections.proofs.Calls.{gains_number}
use Rattle.mine.proofs.adding.add.Goals as goal

pub returns : goal.returns
returns g c before =
    let m1 = gains_code before c.in_ok-section.ensures.read c.in_ok-section.ensures.was_encodable c.in_ok-section.ensures.section c.in_ok-code.ensures in
    gains_number m1 c.in_ok-section-2.ensures.read c.in_ok-section-2.ensures.was_encodable c.in_ok-section-2.ensures.section
""",
}

WRITTEN_OF_CUSTOM = {
    "symbols": """-- Written by tools/answers.
use Rattle.std.proofs.Common.{arith, refl}
use Rattle.wasm_base.proofs.Calls.{ascii}
use Rattle.wasm_custom.proofs.Calls.{new_symbols, adds_symbol}
use Rattle.mine.specs.Said.{item}
use Rattle.mine.proofs.adding.symbols.Goals as goal

pub returns : goal.returns
returns g c =
    let s1 = adds_symbol (new_symbols c.new-table.ensures) (item c.args.name.now 1) c.in_ok-function.ensures.ok c.in_ok-function.ensures.counted (omega arith, omega arith, (c.utf8.name, c.in_ok-function.ensures.was_encodable)) in
    adds_symbol s1 (item c.args.name.now 2) c.in_ok-data.ensures.ok c.in_ok-data.ensures.counted (omega arith, (ascii refl, c.in_ok-data.ensures.was_encodable), tt)
""",
    "linking": """-- Written by tools/answers.
use Rattle.std.proofs.Common.{refl}
use Rattle.std.specs.Prelude.{codes}
use Rattle.wasm_base.proofs.Calls.{ascii}
use Rattle.wasm_base.specs.Formats.{size_prefixed}
use Rattle.wasm_custom.proofs.Calls.{new_linking, adds_symbols, adds_target, encodes_entries}
use Rattle.wasm_custom.specs.Linking.{linking_payload}
use Rattle.mine.proofs.adding.linking.Goals as goal

pub returns : goal.returns
returns g c =
    let s1 = adds_symbols (new_linking c.new-section.ensures) c.in_ok-symbols.ensures c.in_ok-symbol_table.ensures.ok (refl, (refl, tt)) in
    let s2 = adds_target s1 (codes "wasm32") c.in_ok-target_arch.ensures.ok (ascii refl) in
    encodes_entries (size_prefixed linking_payload) _ _ c.encode.ensures.appends c.encode.ensures.read s2
""",
    "producers": """-- Written by tools/answers.
use Rattle.std.proofs.Common.{refl}
use Rattle.std.specs.Prelude.{codes}
use Rattle.wasm_base.proofs.Calls.{ascii}
use Rattle.wasm_custom.proofs.Calls.{new_field, adds_value, new_producers, adds_field}
use Rattle.mine.proofs.adding.producers.Goals as goal

pub returns : goal.returns
returns g c =
    let s1 = adds_value (new_field c.new-values.ensures) (codes "mine", c.args.version.now) c.in_ok-value.ensures.ok c.in_ok-value.ensures.counted c.in_ok-value.ensures.was_encodable (ascii refl) c.utf8.version in
    adds_field (new_producers c.new-section.ensures) (codes "language") s1 c.in_ok-field.ensures.ok c.in_ok-field.ensures.was_encodable (ascii refl)
""",
    "features": """-- Written by tools/answers.
use Rattle.wasm_custom.proofs.Calls.{new_features, adds_feature}
use Rattle.wasm_custom.specs.declared.target_features.FeaturePrefix.TheVariants.{Used}
use Rattle.mine.proofs.adding.features.Goals as goal

pub returns : goal.returns
returns g c = adds_feature (new_features c.new-section.ensures) (Used, c.args.name.now) c.in_ok-feature.ensures.ok c.in_ok-feature.ensures.was_encodable c.utf8.name
""",
    "hints": """-- Written by tools/answers.
use Rattle.std.proofs.Common.{arith}
use Rattle.wasm_base.proofs.KnownLengths.{drained_array}
use Rattle.wasm_custom.proofs.Calls.{new_hints, adds_hints}
use Rattle.mine.proofs.adding.hints.Goals as goal

pub returns : goal.returns
returns g c = adds_hints (new_hints c.new-section.ensures) c.args.index c.in_ok-function_hints.ensures (omega (arith, c.ranges.index.fits)) (record { offset = omega arith; value = omega arith }, tt)

pub function_hints-requires : goal.function_hints-requires
function_hints-requires g c = record { can = λ it b. tt; reported = λ it xs b d. drained_array it xs d }
""",
    "stack": """-- Written by tools/answers.
use Rattle.std.proofs.Common.{arith}
use Rattle.std.proofs.lemmas.Int.{ints}
use Rattle.wasm_base.proofs.KnownLengths.{drained_array}
use Rattle.wasm_custom.proofs.Calls.{new_stack, adds_frame}
use Rattle.mine.specs.Said.{item}
use Rattle.mine.proofs.adding.stack.Goals as goal

pub returns : goal.returns
returns g c = adds_frame (new_stack c.in_ok-section.ensures.is c.utf8.name) (item 0 0) c.in_ok-frame.ensures.adds c.frame.ensures.same_thread (omega arith) (omega arith) (omega arith) (tt, tt) ((omega (arith, ints), omega (arith, ints)), tt)

pub frame-requires-clause-locals : goal.frame-requires-clause-locals
frame-requires-clause-locals g c = record { can = λ it b. tt; reported = λ it xs b d. drained_array it xs d }

pub frame-requires-clause-stack : goal.frame-requires-clause-stack
frame-requires-clause-stack g c = record { can = λ it b. tt; reported = λ it xs b d. drained_array it xs d }
""",
    "read": """-- Written by tools/answers.
use Rattle.std.proofs.Common.{◌++◌, ap, ◌∙◌}
use Rattle.wasm_reader.proofs.Causes.{cause_stays}
use Rattle.wasm_reader.specs.Kinds.{Linking}
use Rattle.wasm_reader.proofs.Calls.{written, decodes_written, written_not_rejected, shortens_written}
use Rattle.wasm_reader.specs.declared.kinds.SectionKind.TheVariants as kinds
use Rattle.mine.proofs.adding.read.Goals as goal

pub returns-in_err-items-clause-memory : goal.returns-in_err-items-clause-memory
returns-in_err-items-clause-memory g c = cause_stays c.from_residual-in_err-items.result _ c.from_residual-in_err-items.ensures.1 λ n. written_not_rejected kinds.Linking (c.in_err-items.ensures.none n) (written Linking c.requires c.in_ok-linking.ensures)

pub returns-clause-read : goal.returns-clause-read
returns-clause-read g c = decodes_written c.in_ok-items.ensures.found.1 (written Linking c.requires c.in_ok-linking.ensures)

pub returns-clause-same : goal.returns-clause-same
returns-clause-same g c =
    let gained = c.in_ok-linking.ensures in
    let same = shortens_written c.in_ok-items.ensures.shortened.1 (written Linking c.requires gained) in
    record { encoding = gained.encoding; added = same ∙ ap (λ t. c.args.sink.now.items ++ t) (gained.added ∙ ap (λ t. t ++ gained.encoding) c.requires); unique = gained.unique }
""",
}
