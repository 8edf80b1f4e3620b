// Written by tools/to-rust from crates/wasm_code/specs: change that.
//! Constant expressions, function bodies and the code section.
//!
//! The contracts of [`wasm_code`](https://github.com/dolzhytik/dolzhytik/blob/main/crates/wasm_code/README.md) name these definitions.

/// Function bodies, their locals, and the calls that build them. Core specification, Binary Format, Modules, Code Section.
///
/// - Locals: [`Run`](bodies::Run), [`run_encoding`](bodies::run_encoding), [`locals_encoding`](bodies::locals_encoding), [`IsRun`](bodies::IsRun), [`expand`](bodies::expand), [`IsRuns`](bodies::IsRuns), [`IsCounted`](bodies::IsCounted), [`AreEncodableRuns`](bodies::AreEncodableRuns), [`AreRunsOf`](bodies::AreRunsOf), [`MoreRuns`](bodies::MoreRuns), [`IsFull`](bodies::IsFull).
/// - Bodies: [`Body`](bodies::Body), [`body_of`](bodies::body_of), [`body`](bodies::body), [`IsWellFormedBody`](bodies::IsWellFormedBody), [`IsPaddedBody`](bodies::IsPaddedBody), [`and_then`](bodies::and_then), [`Grows`](bodies::Grows), [`GrowsBy`](bodies::GrowsBy).
/// - Calls: [`AddsInstruction`](bodies::AddsInstruction), [`HasLocals`](bodies::HasLocals), [`BeginsWithRuns`](bodies::BeginsWithRuns), [`GathersRuns`](bodies::GathersRuns), [`BeginsWithTypes`](bodies::BeginsWithTypes).
///
/// [How to read definitions](super). The file is [`Bodies.antt`](https://github.com/dolzhytik/dolzhytik/blob/main/crates/wasm_code/specs/Bodies.antt).
pub trait bodies {
    /// A run: a count of locals of one type.
    ///
    /// ```text
    /// abbrev pub Run : Type 0
    /// Run = ℕ × ValType
    /// ```
    type Run;
    /// The encoding of a run: its count and its type.
    ///
    /// ```text
    /// abbrev pub run_encoding : Run → List ℕ
    /// run_encoding run = unsigned_encoding run.0 ++ val_encoding run.1
    /// ```
    ///
    /// Definitions: [`Run`](bodies::Run), [`unsigned_encoding`](super::base::numbers::unsigned_encoding), [`val_encoding`](super::base::types::val_encoding).
    type run_encoding;
    /// The encoding of the locals of a body: the vector of its runs.
    ///
    /// ```text
    /// abbrev pub locals_encoding : List Run → List ℕ
    /// locals_encoding runs = vec_encoding run_encoding runs
    /// ```
    ///
    /// Definitions: [`Run`](bodies::Run), [`vec_encoding`](super::base::encodings::vec_encoding), [`run_encoding`](bodies::run_encoding).
    type locals_encoding;
    /// The numbers of the run are below 2^32, as in every run that code builds.
    ///
    /// ```text
    /// abbrev pub IsRun : Run → Type 0
    /// IsRun run = (run.0 < 2 ^ 32) × IsVal run.1
    /// ```
    ///
    /// Definitions: [`Run`](bodies::Run), [`IsVal`](super::base::types::IsVal).
    type IsRun;
    /// The types of the locals, one by one.
    ///
    /// ```text
    /// abbrev pub expand : List Run → List ValType
    /// expand [] = []
    /// expand (run ∷ runs) = replicate run.0 run.1 ++ expand runs
    /// ```
    ///
    /// Definitions: [`Run`](bodies::Run).
    type expand;
    /// The runs are canonical: each count is at least 1, and no two neighbours have the same type.
    ///
    /// ```text
    /// abbrev pub IsRuns : List Run → Type 0
    /// IsRuns [] = ⊤
    /// IsRuns (run ∷ []) = 1 ≤ run.0
    /// IsRuns (run ∷ next ∷ runs) = (1 ≤ run.0) × (run.1 ≢ next.1) × IsRuns (next ∷ runs)
    /// ```
    ///
    /// Definitions: [`Run`](bodies::Run).
    type IsRuns;
    /// The count of the run is at most 2^32 - 1.
    ///
    /// ```text
    /// abbrev pub IsCounted : Run → Type 0
    /// IsCounted run = run.0 ≤ longest
    /// ```
    ///
    /// Definitions: [`Run`](bodies::Run), [`longest`](super::base::encodings::longest).
    type IsCounted;
    /// The number of runs, and the count of each, are at most 2^32 - 1.
    ///
    /// ```text
    /// pub record AreEncodableRuns (runs : List Run) : Type 0 where
    ///   pub count : length runs ≤ longest
    ///   pub counts : All IsCounted runs
    /// ```
    ///
    /// Definitions: [`Run`](bodies::Run), [`longest`](super::base::encodings::longest), [`IsCounted`](bodies::IsCounted).
    type AreEncodableRuns;
    /// These are the canonical runs of the types, and the only ones.
    ///
    /// ```text
    /// pub record AreRunsOf (types : List ValType) (runs : List Run) : Type 0 where
    ///   pub are_runs : IsRuns runs
    ///   pub expanded : expand runs ≡ types
    ///   pub only : (others : List Run) → IsRuns others → expand others ≡ types → others ≡ runs
    /// ```
    ///
    /// Definitions: [`Run`](bodies::Run), [`IsRuns`](bodies::IsRuns), [`expand`](bodies::expand).
    type AreRunsOf;
    /// The new runs have one more local of this type, and are canonical if the old ones are.
    ///
    /// ```text
    /// pub record MoreRuns (type : ValType) (old new : List Run) : Type 0 where
    ///   pub runs : IsRuns old → IsRuns new
    ///   pub expanded : expand new ≡ expand old ++ type ∷ []
    /// ```
    ///
    /// Definitions: [`Run`](bodies::Run), [`IsRuns`](bodies::IsRuns), [`expand`](bodies::expand).
    type MoreRuns;
    /// The last run has this type, and its count is at least 2^32 - 1.
    ///
    /// ```text
    /// pub record IsFull (type : ValType) (runs : List Run) : Type 0 where
    ///   pub others : List Run
    ///   pub count : ℕ
    ///   pub last : runs ≡ others ++ (count, type) ∷ []
    ///   pub full : longest ≤ count
    /// ```
    ///
    /// Definitions: [`Run`](bodies::Run), [`longest`](super::base::encodings::longest).
    type IsFull;
    /// A function body: the runs of its locals, and its instructions.
    ///
    /// ```text
    /// pub record Body : Type 0 where
    ///   pub runs : List Run
    ///   pub code : List Plain
    /// ```
    ///
    /// Definitions: [`Run`](bodies::Run), [`Plain`](super::insn::plain::Plain).
    type Body;
    /// The body of these runs and instructions.
    ///
    /// ```text
    /// abbrev pub body_of : List Run × List Plain → Body
    /// body_of p = record { runs = p.0; code = p.1 }
    /// ```
    ///
    /// Definitions: [`Run`](bodies::Run), [`Plain`](super::insn::plain::Plain), [`Body`](bodies::Body).
    type body_of;
    /// A function body without its size: the vector of runs, then instructions up to the last byte. The last instruction may be any, not only `end`.
    ///
    /// ```text
    /// abbrev pub body : Format Body
    /// body = mapped body_of (pair (vec (pair u32 val_type)) (members (instruction table)))
    /// ```
    ///
    /// Definitions: [`Format`](super::base::formats::Format), [`Body`](bodies::Body), [`mapped`](super::base::formats::mapped), [`body_of`](bodies::body_of), [`pair`](super::base::formats::pair), [`vec`](super::base::formats::vec), [`u32`](super::base::formats::u32), [`val_type`](super::base::types::val_type), [`members`](super::base::formats::members), [`instruction`](super::insn::plain::instruction), [`table`](super::insn::table::table).
    type body;
    /// The raw body is the minimal encoding of this body.
    ///
    /// ```text
    /// pub record IsWellFormedBody (bytes : List ℕ) (x : Body) : Type 0 where
    ///   pub encodes : body minimal bytes x
    /// ```
    ///
    /// Definitions: [`Body`](bodies::Body), [`body`](bodies::body), [`minimal`](super::base::numbers::Mode).
    type IsWellFormedBody;
    /// The raw body is a possibly padded encoding of this body.
    ///
    /// ```text
    /// pub record IsPaddedBody (bytes : List ℕ) (x : Body) : Type 0 where
    ///   pub encodes : body padded bytes x
    /// ```
    ///
    /// Definitions: [`Body`](bodies::Body), [`body`](bodies::body), [`padded`](super::base::numbers::Mode).
    type IsPaddedBody;
    /// A body with more instructions after its own.
    ///
    /// ```text
    /// abbrev pub and_then : Body → List Plain → Body
    /// and_then x more = record { runs = x.runs; code = x.code ++ more }
    /// ```
    ///
    /// Definitions: [`Body`](bodies::Body), [`Plain`](super::insn::plain::Plain).
    type and_then;
    /// The bytes gain the encoding of `i`. If `i` is well-formed and the old bytes minimally encode a body, the new bytes encode it with the normal form of `i` appended.
    ///
    /// ```text
    /// pub record Grows {A : Type 0} (i : Instruction A) (old new : List ℕ) : Type 0 where
    ///   pub encoding : new ≡ old ++ instruction_encoding i
    ///   pub plain : IsWellFormedInstruction i → (x : Body) → IsWellFormedBody old x
    ///       → IsWellFormedBody new (and_then x (normal_row i ∷ []))
    /// ```
    ///
    /// Definitions: [`instruction_encoding`](super::insn::instructions::instruction_encoding), [`IsWellFormedInstruction`](super::insn::instructions::IsWellFormedInstruction), [`Body`](bodies::Body), [`IsWellFormedBody`](bodies::IsWellFormedBody), [`and_then`](bodies::and_then), [`normal_row`](expressions::normal_row).
    type Grows;
    /// The bytes gain `more`. If the old bytes minimally encode a body and `more` minimally encodes instructions, the new bytes encode the body with these appended.
    ///
    /// ```text
    /// pub record GrowsBy (more old new : List ℕ) : Type 0 where
    ///   pub bytes : new ≡ old ++ more
    ///   pub plain : (x : Body) (is : List Plain) → IsWellFormedBody old x
    ///       → members (instruction table) minimal more is
    ///       → IsWellFormedBody new (and_then x is)
    /// ```
    ///
    /// Definitions: [`Body`](bodies::Body), [`Plain`](super::insn::plain::Plain), [`IsWellFormedBody`](bodies::IsWellFormedBody), [`members`](super::base::formats::members), [`instruction`](super::insn::plain::instruction), [`table`](super::insn::table::table), [`minimal`](super::base::numbers::Mode), [`and_then`](bodies::and_then).
    type GrowsBy;
    /// The body gains the encoding of the instruction, or the call returns an error and changes nothing.
    ///
    /// ```text
    /// pub record AddsInstruction {A : Type 0} (i : Instruction A) (old new : List ℕ)
    ///     (result : Result (Unit {0}) Refused) : Type 0 where
    ///   pub ok : OnOk result (Grows i old new)
    ///   pub err : OnErr result (new ≡ old)
    ///   pub was_encodable : OnOk result (IsEncodableInstruction i)
    ///   pub too_long : IsEncodableInstruction i → result ≢ Err TooLong
    /// ```
    ///
    /// Definitions: [`Grows`](bodies::Grows), [`IsEncodableInstruction`](super::insn::instructions::IsEncodableInstruction).
    type AddsInstruction;
    /// The raw body has these runs and no instructions. If the runs are in range and at most 2^32 - 1, it is the minimal encoding of that body.
    ///
    /// ```text
    /// pub record HasLocals (runs : List Run) (bytes : List ℕ) : Type 0 where
    ///   pub encoding : bytes ≡ locals_encoding runs
    ///   pub plain : length runs ≤ longest → All IsRun runs
    ///       → IsWellFormedBody bytes (record { runs = runs; code = [] })
    /// ```
    ///
    /// Definitions: [`Run`](bodies::Run), [`locals_encoding`](bodies::locals_encoding), [`longest`](super::base::encodings::longest), [`IsRun`](bodies::IsRun), [`IsWellFormedBody`](bodies::IsWellFormedBody).
    type HasLocals;
    /// The new function has the runs that the iterator yields. If the iterator reports more than 2^32 - 1 runs, the call returns `TooLong`.
    ///
    /// ```text
    /// pub record BeginsWithRuns {U S : Type 0} (becomes : U → S → Type 0)
    ///     (gives : S → Option Run → S → Type 0) (remaining : S → Count) (elements : U)
    ///     (result : Result (List ℕ) Refused) : Type 0 where
    ///   pub ok : IfOk result (λ bytes. (it : S) × (runs : List Run) × becomes elements it
    ///       × Drains gives it runs × (length runs ≤ longest) × HasLocals runs bytes)
    ///   pub too_long : ((it : S) → becomes elements it → size (remaining it) ≤ longest)
    ///       → result ≢ Err TooLong
    ///   pub too_many : ((it : S) → becomes elements it → longest < size (remaining it))
    ///       → result ≡ Err TooLong
    /// ```
    ///
    /// Definitions: [`Run`](bodies::Run), [`longest`](super::base::encodings::longest), [`HasLocals`](bodies::HasLocals).
    type BeginsWithRuns;
    /// The vector has the canonical runs of the types that the iterator yields. If the runs of the types fit, the call never returns `TooLong`.
    ///
    /// ```text
    /// pub record GathersRuns {U S A : Type 0} (becomes : U → S → Type 0)
    ///     (gives : S → Option ValType → S → Type 0) (elements : U)
    ///     (result : Result (Vec Run A) Refused) : Type 0 where
    ///   pub ok : IfOk result (λ runs. (it : S) × (types : List ValType) × becomes elements it
    ///       × Drains gives it types × AreRunsOf types runs.items × All IsCounted runs.items)
    ///   pub too_long : ((it left : S) (types : List ValType) (runs : List Run)
    ///       → becomes elements it → Yields gives it types left → AreRunsOf types runs
    ///       → AreEncodableRuns runs) → result ≢ Err TooLong
    /// ```
    ///
    /// Definitions: [`Run`](bodies::Run), [`AreRunsOf`](bodies::AreRunsOf), [`IsCounted`](bodies::IsCounted), [`AreEncodableRuns`](bodies::AreEncodableRuns).
    type GathersRuns;
    /// The new function has the canonical runs of the types that the iterator yields. If the runs of the types fit, the call never returns `TooLong`.
    ///
    /// ```text
    /// pub record BeginsWithTypes {U S : Type 0} (becomes : U → S → Type 0)
    ///     (gives : S → Option ValType → S → Type 0) (elements : U)
    ///     (result : Result (List ℕ) Refused) : Type 0 where
    ///   pub ok : IfOk result (λ bytes. (it : S) × (types : List ValType) × becomes elements it
    ///       × Drains gives it types × (runs : List Run) × AreRunsOf types runs
    ///       × AreEncodableRuns runs × HasLocals runs bytes)
    ///   pub too_long : ((it left : S) (types : List ValType) (runs : List Run)
    ///       → becomes elements it → Yields gives it types left → AreRunsOf types runs
    ///       → AreEncodableRuns runs) → result ≢ Err TooLong
    /// ```
    ///
    /// Definitions: [`Run`](bodies::Run), [`AreRunsOf`](bodies::AreRunsOf), [`AreEncodableRuns`](bodies::AreEncodableRuns), [`HasLocals`](bodies::HasLocals).
    type BeginsWithTypes;
}

/// The view of a decoded body: its value without its location in memory.
///
/// [How to read definitions](super). The file is [`BodyViews.antt`](https://github.com/dolzhytik/dolzhytik/blob/main/crates/wasm_code/specs/BodyViews.antt).
pub trait body_views {
    /// The view of a body.
    ///
    /// ```text
    /// abbrev pub body_view : {A : Type 0} → Body A → BodyModel
    /// body_view b = record { runs = b.runs.items; code = map plain_view b.code.items }
    /// ```
    ///
    /// Definitions: [`BodyModel`](bodies::Body), [`plain_view`](super::insn::views::plain_view).
    type body_view;
}

/// The code section. Core specification, Binary Format, Modules, Code Section.
///
/// [How to read definitions](super). The file is [`Code.antt`](https://github.com/dolzhytik/dolzhytik/blob/main/crates/wasm_code/specs/Code.antt).
pub trait code {
    /// The code section with opaque bodies: a size-prefixed vector of size-prefixed bytes.
    ///
    /// ```text
    /// abbrev pub raw_code : Format (List (List ℕ))
    /// raw_code = size_prefixed (vec (size_prefixed any_bytes))
    /// ```
    ///
    /// Definitions: [`Format`](super::base::formats::Format), [`size_prefixed`](super::base::formats::size_prefixed), [`vec`](super::base::formats::vec), [`any_bytes`](super::base::formats::any_bytes).
    type raw_code;
    /// The code section: a size-prefixed vector of size-prefixed bodies.
    ///
    /// ```text
    /// abbrev pub code_section : Format (List Body)
    /// code_section = size_prefixed (vec (size_prefixed body))
    /// ```
    ///
    /// Definitions: [`Format`](super::base::formats::Format), [`Body`](bodies::Body), [`size_prefixed`](super::base::formats::size_prefixed), [`vec`](super::base::formats::vec), [`body`](bodies::body).
    type code_section;
    /// The entries are these raw bodies, each with its size prefix.
    ///
    /// ```text
    /// abbrev pub ContainsBodies : List (List ℕ) → List (List ℕ) → Type 0
    /// ContainsBodies entries bodies = entries ≡ map size_prefixed_encoding bodies
    /// ```
    ///
    /// Definitions: [`size_prefixed_encoding`](super::base::encodings::size_prefixed_encoding).
    type ContainsBodies;
    /// The entries are raw bodies with their size prefixes, and the raw bodies encode these bodies in this mode.
    ///
    /// ```text
    /// pub record EncodesBodiesIn (mode : Mode) (entries : List (List ℕ)) (bodies : List Body)
    ///     : Type 0 where
    ///   pub raw : List (List ℕ)
    ///   pub held : ContainsBodies entries raw
    ///   pub encodes : AllZip (body mode) raw bodies
    /// ```
    ///
    /// Definitions: [`Mode`](super::base::numbers::Mode), [`Body`](bodies::Body), [`ContainsBodies`](code::ContainsBodies), [`body`](bodies::body).
    type EncodesBodiesIn;
    /// The entries minimally encode these bodies.
    ///
    /// ```text
    /// abbrev pub EncodesBodies : List (List ℕ) → List Body → Type 0
    /// EncodesBodies entries bodies = EncodesBodiesIn minimal entries bodies
    /// ```
    ///
    /// Definitions: [`Body`](bodies::Body), [`EncodesBodiesIn`](code::EncodesBodiesIn), [`minimal`](super::base::numbers::Mode).
    type EncodesBodies;
    /// The entries encode these bodies, possibly padded.
    ///
    /// ```text
    /// abbrev pub EncodesBodiesPadded : List (List ℕ) → List Body → Type 0
    /// EncodesBodiesPadded entries bodies = EncodesBodiesIn padded entries bodies
    /// ```
    ///
    /// Definitions: [`Body`](bodies::Body), [`EncodesBodiesIn`](code::EncodesBodiesIn), [`padded`](super::base::numbers::Mode).
    type EncodesBodiesPadded;
    /// The headline: the bytes decode to the raw bodies that the section holds alone. If these encode some bodies, minimally or padded, the bytes decode to those bodies alone.
    ///
    /// ```text
    /// pub record DecodesCode {M : Type 0} (holds : (List (List ℕ) → Type 0) → M → Type 0)
    ///     (section : M) (encoding : List ℕ) : Type 0 where
    ///   pub raw : DecodesBack raw_code
    ///       (λ raw. holds (λ entries. ContainsBodies entries raw) section) encoding
    ///   pub bodies : DecodesBack code_section
    ///       (λ bodies. holds (λ entries. EncodesBodies entries bodies) section) encoding
    ///   pub padded : DecodesBackPadded code_section
    ///       (λ bodies. holds (λ entries. EncodesBodiesPadded entries bodies) section) encoding
    /// ```
    ///
    /// Definitions: [`DecodesBack`](super::base::calls::DecodesBack), [`raw_code`](code::raw_code), [`ContainsBodies`](code::ContainsBodies), [`code_section`](code::code_section), [`EncodesBodies`](code::EncodesBodies), [`DecodesBackPadded`](super::base::calls::DecodesBackPadded), [`EncodesBodiesPadded`](code::EncodesBodiesPadded).
    type DecodesCode;
    /// The code section that decodes to these raw bodies.
    ///
    /// ```text
    /// abbrev pub raw_code_decoding : List (List ℕ) → SectionDecoding
    /// raw_code_decoding bodies = decoding_of (number_of ids.Code)
    ///     (vec (size_prefixed any_bytes)) bodies
    /// ```
    ///
    /// Definitions: [`SectionDecoding`](super::base::modules::SectionDecoding), [`decoding_of`](super::base::modules::decoding_of), [`number_of`](super::base::section_id::number_of), [`vec`](super::base::formats::vec), [`size_prefixed`](super::base::formats::size_prefixed), [`any_bytes`](super::base::formats::any_bytes).
    type raw_code_decoding;
    /// The code section that minimally encodes these bodies.
    ///
    /// ```text
    /// abbrev pub code_decoding : List Body → SectionDecoding
    /// code_decoding bodies = decoding_of (number_of ids.Code)
    ///     (vec (size_prefixed body)) bodies
    /// ```
    ///
    /// Definitions: [`Body`](bodies::Body), [`SectionDecoding`](super::base::modules::SectionDecoding), [`decoding_of`](super::base::modules::decoding_of), [`number_of`](super::base::section_id::number_of), [`vec`](super::base::formats::vec), [`size_prefixed`](super::base::formats::size_prefixed), [`body`](bodies::body).
    type code_decoding;
    /// The code section that encodes these bodies, possibly padded.
    ///
    /// ```text
    /// abbrev pub padded_code_decoding : List Body → SectionDecoding
    /// padded_code_decoding bodies = padded_decoding_of (number_of ids.Code)
    ///     (vec (size_prefixed body)) bodies
    /// ```
    ///
    /// Definitions: [`Body`](bodies::Body), [`SectionDecoding`](super::base::modules::SectionDecoding), [`padded_decoding_of`](super::base::modules::padded_decoding_of), [`number_of`](super::base::section_id::number_of), [`vec`](super::base::formats::vec), [`size_prefixed`](super::base::formats::size_prefixed), [`body`](bodies::body).
    type padded_code_decoding;
}

/// Constant expressions and the calls that build them. Core specification, Binary Format, Instructions, Expressions.
///
/// - Format and encoding: [`IsNoEnd`](expressions::IsNoEnd), [`expression`](expressions::expression), [`expression_encoding`](expressions::expression_encoding).
/// - Well-formed expressions: [`StoresIn`](expressions::StoresIn), [`StoresInstructions`](expressions::StoresInstructions), [`StoresPadded`](expressions::StoresPadded), [`normal_row`](expressions::normal_row), [`IsWellFormedInside`](expressions::IsWellFormedInside), [`Stores`](expressions::Stores), [`StoresAll`](expressions::StoresAll).
/// - An expression of one instruction, which is kept as a value: [`instruction_of`](expressions::instruction_of), [`first_encoding`](expressions::first_encoding), [`index_of`](expressions::index_of).
/// - Calls: [`AppendsEach`](expressions::AppendsEach), [`StoresGiven`](expressions::StoresGiven).
/// - The index of `ref.func`: [`ref_func`](expressions::ref_func), [`BeginsWithRefFunc`](expressions::BeginsWithRefFunc), [`IsRefFunc`](expressions::IsRefFunc).
///
/// [How to read definitions](super). The file is [`Expressions.antt`](https://github.com/dolzhytik/dolzhytik/blob/main/crates/wasm_code/specs/Expressions.antt).
pub trait expressions {
    /// The instruction is not `end`.
    ///
    /// ```text
    /// abbrev pub IsNoEnd : Plain → Type 0
    /// IsNoEnd i = same_op i.op (Byte 0x0B) ≡ false
    /// ```
    ///
    /// Definitions: [`Plain`](super::insn::plain::Plain), [`same_op`](super::insn::plain::same_op).
    type IsNoEnd;
    /// An expression: instructions other than `end`, then `end`. The first `end` ends it, even that of a nested block.
    ///
    /// ```text
    /// abbrev pub expression : Format (List Plain)
    /// expression = ended 0x0B (such IsNoEnd (instruction table))
    /// ```
    ///
    /// Definitions: [`Format`](super::base::formats::Format), [`Plain`](super::insn::plain::Plain), [`ended`](super::base::formats::ended), [`such`](super::base::formats::such), [`IsNoEnd`](expressions::IsNoEnd), [`instruction`](super::insn::plain::instruction), [`table`](super::insn::table::table).
    type expression;
    /// The encoding of an expression: the stored bytes, then `end`.
    ///
    /// ```text
    /// abbrev pub expression_encoding : List ℕ → List ℕ
    /// expression_encoding bytes = bytes ++ 0x0B ∷ []
    /// ```
    type expression_encoding;
    /// The stored bytes encode these instructions in this mode, and none of them is `end`.
    ///
    /// ```text
    /// abbrev pub StoresIn : Mode → List ℕ → List Plain → Type 0
    /// StoresIn mode bytes is = members (such IsNoEnd (instruction table)) mode bytes is
    /// ```
    ///
    /// Definitions: [`Mode`](super::base::numbers::Mode), [`Plain`](super::insn::plain::Plain), [`members`](super::base::formats::members), [`such`](super::base::formats::such), [`IsNoEnd`](expressions::IsNoEnd), [`instruction`](super::insn::plain::instruction), [`table`](super::insn::table::table).
    type StoresIn;
    /// The stored bytes minimally encode these instructions, and none of them is `end`.
    ///
    /// ```text
    /// abbrev pub StoresInstructions : List ℕ → List Plain → Type 0
    /// StoresInstructions bytes is = StoresIn minimal bytes is
    /// ```
    ///
    /// Definitions: [`Plain`](super::insn::plain::Plain), [`StoresIn`](expressions::StoresIn), [`minimal`](super::base::numbers::Mode).
    type StoresInstructions;
    /// The stored bytes encode these instructions, possibly padded, and none of them is `end`.
    ///
    /// ```text
    /// abbrev pub StoresPadded : List ℕ → List Plain → Type 0
    /// StoresPadded bytes is = StoresIn padded bytes is
    /// ```
    ///
    /// Definitions: [`Plain`](super::insn::plain::Plain), [`StoresIn`](expressions::StoresIn), [`padded`](super::base::numbers::Mode).
    type StoresPadded;
    /// The normal form of an instruction.
    ///
    /// ```text
    /// abbrev pub normal_row : {A : Type 0} → Instruction A → Plain
    /// normal_row i = normal (row_of i)
    /// ```
    ///
    /// Definitions: [`Plain`](super::insn::plain::Plain), [`normal`](super::insn::plain::normal), [`row_of`](super::insn::instructions::row_of).
    type normal_row;
    /// A well-formed instruction other than `end`, which a constant expression can store.
    ///
    /// ```text
    /// pub record IsWellFormedInside {A : Type 0} (i : Instruction A) : Type 0 where
    ///   pub plain : IsWellFormedInstruction i
    ///   pub no_end : IsNoEnd (row_of i)
    /// ```
    ///
    /// Definitions: [`IsWellFormedInstruction`](super::insn::instructions::IsWellFormedInstruction), [`IsNoEnd`](expressions::IsNoEnd), [`row_of`](super::insn::instructions::row_of).
    type IsWellFormedInside;
    /// The bytes gain the encoding of `i`. If `i` is well-formed and the old bytes minimally encode instructions, the new bytes encode these and the normal form of `i`.
    ///
    /// ```text
    /// pub record Stores (i : Instruction Global) (old new : List ℕ) : Type 0 where
    ///   pub encoding : new ≡ old ++ instruction_encoding i
    ///   pub plain : IsWellFormedInstruction i → (is : List Plain) → StoresInstructions old is
    ///       → StoresInstructions new (is ++ normal_row i ∷ [])
    /// ```
    ///
    /// Definitions: [`instruction_encoding`](super::insn::instructions::instruction_encoding), [`IsWellFormedInstruction`](super::insn::instructions::IsWellFormedInstruction), [`Plain`](super::insn::plain::Plain), [`StoresInstructions`](expressions::StoresInstructions), [`normal_row`](expressions::normal_row).
    type Stores;
    /// If the instructions are well-formed and none is `end`, the bytes minimally encode their normal forms.
    ///
    /// ```text
    /// pub record StoresAll {A : Type 0} (is : List (Instruction A)) (bytes : List ℕ)
    ///     : Type 0 where
    ///   pub plain : All IsWellFormedInside is → StoresInstructions bytes (map normal_row is)
    /// ```
    ///
    /// Definitions: [`IsWellFormedInside`](expressions::IsWellFormedInside), [`StoresInstructions`](expressions::StoresInstructions), [`normal_row`](expressions::normal_row).
    type StoresAll;
    /// The instruction that is kept as a value.
    ///
    /// ```text
    /// abbrev pub instruction_of : First → Instruction Global
    /// instruction_of (firsts.GlobalGet index) = instructions.GlobalGet index
    /// instruction_of (firsts.RefNull ty) = instructions.RefNull ty
    /// instruction_of (firsts.RefFunc index) = instructions.RefFunc index
    /// instruction_of (firsts.I32Const value) = instructions.I32Const value
    /// instruction_of (firsts.I64Const value) = instructions.I64Const value
    /// instruction_of (firsts.F32Const value) = instructions.F32Const value
    /// instruction_of (firsts.F64Const value) = instructions.F64Const value
    /// ```
    type instruction_of;
    /// The encoding of that instruction.
    ///
    /// ```text
    /// abbrev pub first_encoding : First → List ℕ
    /// first_encoding first = instruction_encoding (instruction_of first)
    /// ```
    ///
    /// Definitions: [`instruction_encoding`](super::insn::instructions::instruction_encoding), [`instruction_of`](expressions::instruction_of).
    type first_encoding;
    /// The function index of `ref.func`, and nothing for other instructions.
    ///
    /// ```text
    /// abbrev pub index_of : First → Option ℕ
    /// index_of (firsts.RefFunc index) = Some index
    /// index_of first = None
    /// ```
    type index_of;
    /// If the call succeeds, the buffer gains the encodings of the items that the iterator yields. If all items fit, the call never returns `TooLong`.
    ///
    /// ```text
    /// pub record AppendsEach {U S T : Type 0} (becomes : U → S → Type 0)
    ///     (gives : S → Option T → S → Type 0) (Encodable : T → Type 0) (encoding : T → List ℕ)
    ///     (elements : U) (old new : List ℕ) (result : Result (Unit {0}) Refused)
    ///         : Type 0 where
    ///   pub ok : OnOk result ((it : S) × (xs : List T) × becomes elements it
    ///       × Drains gives it xs × All Encodable xs × (new ≡ old ++ flat_map encoding xs))
    ///   pub too_long : ((it left : S) (xs : List T) → becomes elements it
    ///       → Yields gives it xs left → All Encodable xs) → result ≢ Err TooLong
    /// ```
    type AppendsEach;
    /// The expression stores the encodings of the instructions that the iterator yields. If all of them fit, the call never returns `TooLong`.
    ///
    /// ```text
    /// pub record StoresGiven {U S : Type 0} (becomes : U → S → Type 0)
    ///     (gives : S → Option (Instruction Global) → S → Type 0) (elements : U)
    ///     (result : Result (List ℕ) Refused) : Type 0 where
    ///   pub ok : IfOk result (λ bytes. (it : S) × (is : List (Instruction Global))
    ///       × becomes elements it × Drains gives it is × All IsEncodableInstruction is
    ///       × (bytes ≡ flat_map instruction_encoding is) × StoresAll is bytes)
    ///   pub too_long : ((it left : S) (is : List (Instruction Global)) → becomes elements it
    ///       → Yields gives it is left → All IsEncodableInstruction is) → result ≢ Err TooLong
    /// ```
    ///
    /// Definitions: [`IsEncodableInstruction`](super::insn::instructions::IsEncodableInstruction), [`instruction_encoding`](super::insn::instructions::instruction_encoding), [`StoresAll`](expressions::StoresAll).
    type StoresGiven;
    /// The instruction `ref.func` with its index.
    ///
    /// ```text
    /// abbrev pub ref_func : Format ℕ
    /// ref_func = prefixed (0xD2 ∷ []) u32
    /// ```
    ///
    /// Definitions: [`Format`](super::base::formats::Format), [`prefixed`](super::base::formats::prefixed), [`u32`](super::base::formats::u32).
    type ref_func;
    /// The bytes begin with `ref.func f`, possibly padded.
    ///
    /// ```text
    /// pub record BeginsWithRefFunc (bytes : List ℕ) (f : ℕ) : Type 0 where
    ///   pub rest : List ℕ
    ///   pub read : Decodes ref_func padded bytes f rest
    /// ```
    ///
    /// Definitions: [`Decodes`](super::base::decoding::Decodes), [`ref_func`](expressions::ref_func), [`padded`](super::base::numbers::Mode).
    type BeginsWithRefFunc;
    /// `answer` is `Some f` exactly if the bytes begin with `ref.func f`.
    ///
    /// ```text
    /// pub record IsRefFunc (bytes : List ℕ) (answer : Option ℕ) : Type 0 where
    ///   pub exactly : (f : ℕ) → (answer ≡ Some f) ↔ BeginsWithRefFunc bytes f
    /// ```
    ///
    /// Definitions: [`BeginsWithRefFunc`](expressions::BeginsWithRefFunc).
    type IsRefFunc;
}

/// The laws of bodies, expressions and code sections: offsets, encodings that fit, and the bodies of a code section call by call.
///
/// - Encodings: [`IsNormal`](laws::IsNormal), [`IsNormalInside`](laws::IsNormalInside), [`code_encoding`](laws::code_encoding), [`plain_expression_encoding`](laws::plain_expression_encoding), [`IsEncodablePlainExpression`](laws::IsEncodablePlainExpression), [`body_encoding`](laws::body_encoding), [`IsEncodableBody`](laws::IsEncodableBody), [`body_size_prefixed_encoding`](laws::body_size_prefixed_encoding), [`IsEncodableSizedBody`](laws::IsEncodableSizedBody), [`raw_code_encoding`](laws::raw_code_encoding), [`IsEncodableRawCode`](laws::IsEncodableRawCode), [`code_section_encoding`](laws::code_section_encoding), [`IsEncodableCodeSection`](laws::IsEncodableCodeSection).
/// - Calls: [`ContainsMoreBodies`](laws::ContainsMoreBodies), [`GrowsByEncoding`](laws::GrowsByEncoding), [`br_table_row`](laws::br_table_row), [`GrowsByLabels`](laws::GrowsByLabels).
/// - Calls, for padded LEB128: [`ContainsMoreBodiesPadded`](laws::ContainsMoreBodiesPadded), [`GrowsPadded`](laws::GrowsPadded), [`GrowsByEncodingPadded`](laws::GrowsByEncodingPadded), [`StoresMorePadded`](laws::StoresMorePadded).
///
/// [How to read definitions](super). The file is [`Laws.antt`](https://github.com/dolzhytik/dolzhytik/blob/main/crates/wasm_code/specs/Laws.antt).
pub trait laws {
    /// With minimal LEB128 no value decodes from the front of the bytes, whatever follows them.
    ///
    /// ```text
    /// pub record RejectsAllAfter {X : Type 0} (F : Format X) (encoding : List ℕ)
    ///     : Type 0 where
    ///   pub none : (after : List ℕ) → Rejects F minimal (encoding ++ after)
    /// ```
    ///
    /// Definitions: [`Format`](super::base::formats::Format), [`Rejects`](super::base::decoding::Rejects), [`minimal`](super::base::numbers::Mode).
    type RejectsAllAfter;
    /// The body `y` has the runs and instructions of `x`, then `next` and other instructions, which `more` minimally encodes.
    ///
    /// ```text
    /// pub record ContinuesWith (more : List ℕ) (x y : Body) (next : Plain) : Type 0 where
    ///   pub others : List Plain
    ///   pub same : y ≡ and_then x (next ∷ others)
    ///   pub encodes : members (instruction table) minimal more (next ∷ others)
    /// ```
    ///
    /// Definitions: [`Body`](bodies::Body), [`Plain`](super::insn::plain::Plain), [`and_then`](bodies::and_then), [`members`](super::base::formats::members), [`instruction`](super::insn::plain::instruction), [`table`](super::insn::table::table), [`minimal`](super::base::numbers::Mode).
    type ContinuesWith;
    /// The length of a raw body is the offset of the next instruction. If more bytes follow and the whole encodes a body, an instruction begins at that offset.
    ///
    /// ```text
    /// pub record HasOffsets : Type 0 where
    ///   pub begins : (front more : List ℕ) (x y : Body) → body minimal front x
    ///       → body minimal (front ++ more) y → more ≢ []
    ///       → (next : Plain) × ContinuesWith more x y next
    /// ```
    ///
    /// Definitions: [`Body`](bodies::Body), [`body`](bodies::body), [`minimal`](super::base::numbers::Mode), [`Plain`](super::insn::plain::Plain), [`ContinuesWith`](laws::ContinuesWith).
    type HasOffsets;
    /// If a well-formed instruction is appended to a raw body, it is the instruction that begins at the raw body's length.
    ///
    /// ```text
    /// pub record FindsAdded {A : Type 0} (i : Instruction A) : Type 0 where
    ///   pub begins : (front rest : List ℕ) (x y : Body) → IsWellFormedInstruction i
    ///       → body minimal front x → body minimal
    ///       (front ++ (instruction_encoding i ++ rest)) y
    ///       → ContinuesWith (instruction_encoding i ++ rest) x y (normal_row i)
    /// ```
    ///
    /// Definitions: [`Body`](bodies::Body), [`IsWellFormedInstruction`](super::insn::instructions::IsWellFormedInstruction), [`body`](bodies::body), [`minimal`](super::base::numbers::Mode), [`instruction_encoding`](super::insn::instructions::instruction_encoding), [`ContinuesWith`](laws::ContinuesWith), [`normal_row`](expressions::normal_row).
    type FindsAdded;
    /// Two canonical lists of runs with the same types are the same.
    ///
    /// ```text
    /// pub record HaveOneExpansion (xs ys : List Run) : Type 0 where
    ///   pub same : IsRuns xs → IsRuns ys → expand xs ≡ expand ys → xs ≡ ys
    /// ```
    ///
    /// Definitions: [`Run`](bodies::Run), [`IsRuns`](bodies::IsRuns), [`expand`](bodies::expand).
    type HaveOneExpansion;
    /// The instruction is well-formed and in normal form.
    ///
    /// ```text
    /// pub record IsNormal (i : Plain) : Type 0 where
    ///   pub plain : IsWellFormed table i
    ///   pub same : normal i ≡ i
    /// ```
    ///
    /// Definitions: [`Plain`](super::insn::plain::Plain), [`IsWellFormed`](super::insn::plain::IsWellFormed), [`table`](super::insn::table::table), [`normal`](super::insn::plain::normal).
    type IsNormal;
    /// A normal instruction that a constant expression can hold: one other than `end`.
    ///
    /// ```text
    /// abbrev pub IsNormalInside : Plain → Type 0
    /// IsNormalInside i = IsNormal i × IsNoEnd i
    /// ```
    ///
    /// Definitions: [`Plain`](super::insn::plain::Plain), [`IsNormal`](laws::IsNormal), [`IsNoEnd`](expressions::IsNoEnd).
    type IsNormalInside;
    /// The encodings of the instructions, one after another.
    ///
    /// ```text
    /// abbrev pub code_encoding : List Plain → List ℕ
    /// code_encoding is = flat_map plain_encoding is
    /// ```
    ///
    /// Definitions: [`Plain`](super::insn::plain::Plain), [`plain_encoding`](super::insn::plain::plain_encoding).
    type code_encoding;
    /// The encoding of an expression: its instructions, then `end`.
    ///
    /// ```text
    /// abbrev pub plain_expression_encoding : List Plain → List ℕ
    /// plain_expression_encoding is = expression_encoding (code_encoding is)
    /// ```
    ///
    /// Definitions: [`Plain`](super::insn::plain::Plain), [`expression_encoding`](expressions::expression_encoding), [`code_encoding`](laws::code_encoding).
    type plain_expression_encoding;
    /// Each instruction is well-formed, in normal form, and not `end`.
    ///
    /// ```text
    /// abbrev pub IsEncodablePlainExpression : List Plain → Type 0
    /// IsEncodablePlainExpression = All IsNormalInside
    /// ```
    ///
    /// Definitions: [`Plain`](super::insn::plain::Plain), [`IsNormalInside`](laws::IsNormalInside).
    type IsEncodablePlainExpression;
    /// The encoding of a body: the vector of its runs, then its instructions.
    ///
    /// ```text
    /// abbrev pub body_encoding : Body → List ℕ
    /// body_encoding x = locals_encoding x.runs ++ code_encoding x.code
    /// ```
    ///
    /// Definitions: [`Body`](bodies::Body), [`locals_encoding`](bodies::locals_encoding), [`code_encoding`](laws::code_encoding).
    type body_encoding;
    /// The runs are in range and fit their count, and the instructions are well-formed and in normal form.
    ///
    /// ```text
    /// pub record IsEncodableBody (x : Body) : Type 0 where
    ///   pub runs : IsEncodableVec IsRun x.runs
    ///   pub code : All IsNormal x.code
    /// ```
    ///
    /// Definitions: [`Body`](bodies::Body), [`IsEncodableVec`](super::base::encodings::IsEncodableVec), [`IsRun`](bodies::IsRun), [`IsNormal`](laws::IsNormal).
    type IsEncodableBody;
    /// The encoding of an entry of the code section: a body with its size prefix.
    ///
    /// ```text
    /// abbrev pub body_size_prefixed_encoding : Body → List ℕ
    /// body_size_prefixed_encoding x = size_prefixed_encoding (body_encoding x)
    /// ```
    ///
    /// Definitions: [`Body`](bodies::Body), [`size_prefixed_encoding`](super::base::encodings::size_prefixed_encoding), [`body_encoding`](laws::body_encoding).
    type body_size_prefixed_encoding;
    /// The body fits, and so does its size.
    ///
    /// ```text
    /// pub record IsEncodableSizedBody (x : Body) : Type 0 where
    ///   pub body : IsEncodableBody x
    ///   pub size : HasEncodableSize (body_encoding x)
    /// ```
    ///
    /// Definitions: [`Body`](bodies::Body), [`IsEncodableBody`](laws::IsEncodableBody), [`HasEncodableSize`](super::base::encodings::HasEncodableSize), [`body_encoding`](laws::body_encoding).
    type IsEncodableSizedBody;
    /// The encoding of a code section with raw bodies.
    ///
    /// ```text
    /// abbrev pub raw_code_encoding : List (List ℕ) → List ℕ
    /// raw_code_encoding raw = size_prefixed_encoding (vec_encoding size_prefixed_encoding raw)
    /// ```
    ///
    /// Definitions: [`size_prefixed_encoding`](super::base::encodings::size_prefixed_encoding), [`vec_encoding`](super::base::encodings::vec_encoding).
    type raw_code_encoding;
    /// The sizes and the count of the raw bodies, and the size of the section, are at most 2^32 - 1.
    ///
    /// ```text
    /// pub record IsEncodableRawCode (raw : List (List ℕ)) : Type 0 where
    ///   pub members : IsEncodableVec HasEncodableSize raw
    ///   pub size : HasEncodableSize (vec_encoding size_prefixed_encoding raw)
    /// ```
    ///
    /// Definitions: [`IsEncodableVec`](super::base::encodings::IsEncodableVec), [`HasEncodableSize`](super::base::encodings::HasEncodableSize), [`vec_encoding`](super::base::encodings::vec_encoding), [`size_prefixed_encoding`](super::base::encodings::size_prefixed_encoding).
    type IsEncodableRawCode;
    /// The encoding of a code section with bodies.
    ///
    /// ```text
    /// abbrev pub code_section_encoding : List Body → List ℕ
    /// code_section_encoding bodies = size_prefixed_encoding
    ///     (vec_encoding body_size_prefixed_encoding bodies)
    /// ```
    ///
    /// Definitions: [`Body`](bodies::Body), [`size_prefixed_encoding`](super::base::encodings::size_prefixed_encoding), [`vec_encoding`](super::base::encodings::vec_encoding), [`body_size_prefixed_encoding`](laws::body_size_prefixed_encoding).
    type code_section_encoding;
    /// The bodies fit, and their count and the size of the section are at most 2^32 - 1.
    ///
    /// ```text
    /// pub record IsEncodableCodeSection (bodies : List Body) : Type 0 where
    ///   pub members : IsEncodableVec IsEncodableSizedBody bodies
    ///   pub size : HasEncodableSize (vec_encoding body_size_prefixed_encoding bodies)
    /// ```
    ///
    /// Definitions: [`Body`](bodies::Body), [`IsEncodableVec`](super::base::encodings::IsEncodableVec), [`IsEncodableSizedBody`](laws::IsEncodableSizedBody), [`HasEncodableSize`](super::base::encodings::HasEncodableSize), [`vec_encoding`](super::base::encodings::vec_encoding), [`body_size_prefixed_encoding`](laws::body_size_prefixed_encoding).
    type IsEncodableCodeSection;
    /// A code section without entries holds no bodies. An entry with a raw body adds the body that it minimally encodes. `add_all` adds its entries as if one by one.
    ///
    /// ```text
    /// pub record ContainsMoreBodies : Type 0 where
    ///   pub none : EncodesBodies [] []
    ///   pub given : (entries : List (List ℕ)) (bodies : List Body) (raw : List ℕ) (x : Body)
    ///       → EncodesBodies entries bodies → IsWellFormedBody raw x
    ///       → EncodesBodies (entries ++ size_prefixed_encoding raw ∷ []) (bodies ++ x ∷ [])
    ///   pub all : (entries : List (List ℕ)) (bodies : List Body) (raw : List (List ℕ))
    ///       (xs : List Body) → EncodesBodies entries bodies → AllZip IsWellFormedBody raw xs
    ///       → EncodesBodies (entries ++ map size_prefixed_encoding raw) (bodies ++ xs)
    /// ```
    ///
    /// Definitions: [`EncodesBodies`](code::EncodesBodies), [`Body`](bodies::Body), [`IsWellFormedBody`](bodies::IsWellFormedBody), [`size_prefixed_encoding`](super::base::encodings::size_prefixed_encoding).
    type ContainsMoreBodies;
    /// A body that gains the encoding of a well-formed instruction gains the instruction.
    ///
    /// ```text
    /// pub record GrowsByEncoding {A : Type 0} (i : Instruction A) : Type 0 where
    ///   pub grows : (old : List ℕ) → Grows i old (old ++ instruction_encoding i)
    /// ```
    ///
    /// Definitions: [`Grows`](bodies::Grows), [`instruction_encoding`](super::insn::instructions::instruction_encoding).
    type GrowsByEncoding;
    /// The instruction `br_table` as opcode and immediates.
    ///
    /// ```text
    /// abbrev pub br_table_row : List ℕ → ℕ → Plain
    /// br_table_row ls default = record
    ///     { op = Byte 0x0E; arguments = labels ls ∷ unsigned default ∷ [] }
    /// ```
    ///
    /// Definitions: [`Plain`](super::insn::plain::Plain), [`labels`](super::insn::arguments::Argument), [`unsigned`](super::insn::arguments::Argument).
    type br_table_row;
    /// A body that gains the encoding of `br_table`, with labels in range that fit their count and a default label in range, gains the instruction.
    ///
    /// ```text
    /// pub record GrowsByLabels : Type 0 where
    ///   pub grows : (ls : List ℕ) (default : ℕ) (old : List ℕ) (x : Body)
    ///       → IsEncodableVec (λ n. n < 2 ^ 32) ls → default < 2 ^ 32 → IsWellFormedBody old x
    ///       → IsWellFormedBody (old ++ br_table_encoding ls default)
    ///           (and_then x (br_table_row ls default ∷ []))
    /// ```
    ///
    /// Definitions: [`Body`](bodies::Body), [`IsEncodableVec`](super::base::encodings::IsEncodableVec), [`IsWellFormedBody`](bodies::IsWellFormedBody), [`br_table_encoding`](super::insn::sink::br_table_encoding), [`and_then`](bodies::and_then), [`br_table_row`](laws::br_table_row).
    type GrowsByLabels;
    /// A code section holds, padded, all that it holds in minimal encodings. An entry with a raw body adds the body that it encodes, possibly padded. `add_all` adds its entries as if one by one.
    ///
    /// ```text
    /// pub record ContainsMoreBodiesPadded : Type 0 where
    ///   pub none : EncodesBodiesPadded [] []
    ///   pub held : (entries : List (List ℕ)) (bodies : List Body)
    ///       → EncodesBodies entries bodies → EncodesBodiesPadded entries bodies
    ///   pub given : (entries : List (List ℕ)) (bodies : List Body) (raw : List ℕ) (x : Body)
    ///       → EncodesBodiesPadded entries bodies → IsPaddedBody raw x
    ///       → EncodesBodiesPadded (entries ++ size_prefixed_encoding raw ∷ [])
    ///           (bodies ++ x ∷ [])
    ///   pub all : (entries : List (List ℕ)) (bodies : List Body) (raw : List (List ℕ))
    ///       (xs : List Body) → EncodesBodiesPadded entries bodies → AllZip IsPaddedBody raw xs
    ///       → EncodesBodiesPadded (entries ++ map size_prefixed_encoding raw) (bodies ++ xs)
    /// ```
    ///
    /// Definitions: [`EncodesBodiesPadded`](code::EncodesBodiesPadded), [`Body`](bodies::Body), [`EncodesBodies`](code::EncodesBodies), [`IsPaddedBody`](bodies::IsPaddedBody), [`size_prefixed_encoding`](super::base::encodings::size_prefixed_encoding).
    type ContainsMoreBodiesPadded;
    /// A minimal encoding of a body is a possibly padded one, and gains the instructions that raw bytes encode, possibly padded.
    ///
    /// ```text
    /// pub record GrowsPadded : Type 0 where
    ///   pub plain : (bytes : List ℕ) (x : Body) → IsWellFormedBody bytes x
    ///       → IsPaddedBody bytes x
    ///   pub raw : (old more : List ℕ) (x : Body) (is : List Plain) → IsPaddedBody old x
    ///       → members (instruction table) padded more is
    ///       → IsPaddedBody (old ++ more) (and_then x is)
    /// ```
    ///
    /// Definitions: [`Body`](bodies::Body), [`IsWellFormedBody`](bodies::IsWellFormedBody), [`IsPaddedBody`](bodies::IsPaddedBody), [`Plain`](super::insn::plain::Plain), [`members`](super::base::formats::members), [`instruction`](super::insn::plain::instruction), [`table`](super::insn::table::table), [`padded`](super::base::numbers::Mode), [`and_then`](bodies::and_then).
    type GrowsPadded;
    /// A possibly padded body that gains the encoding of a well-formed instruction gains the instruction.
    ///
    /// ```text
    /// pub record GrowsByEncodingPadded {A : Type 0} (i : Instruction A) : Type 0 where
    ///   pub grows : (old : List ℕ) (x : Body) → IsWellFormedInstruction i → IsPaddedBody old x
    ///       → IsPaddedBody (old ++ instruction_encoding i) (and_then x (normal_row i ∷ []))
    /// ```
    ///
    /// Definitions: [`Body`](bodies::Body), [`IsWellFormedInstruction`](super::insn::instructions::IsWellFormedInstruction), [`IsPaddedBody`](bodies::IsPaddedBody), [`instruction_encoding`](super::insn::instructions::instruction_encoding), [`and_then`](bodies::and_then), [`normal_row`](expressions::normal_row).
    type GrowsByEncodingPadded;
    /// A minimal expression is a possibly padded one. Two stored expressions, one after another, store the instructions of both. With `end` they are an expression.
    ///
    /// ```text
    /// pub record StoresMorePadded : Type 0 where
    ///   pub plain : (bytes : List ℕ) (is : List Plain) → StoresInstructions bytes is
    ///       → StoresPadded bytes is
    ///   pub more : (old more : List ℕ) (is others : List Plain) → StoresPadded old is
    ///       → StoresPadded more others → StoresPadded (old ++ more) (is ++ others)
    ///   pub encodes : (bytes : List ℕ) (is : List Plain) → StoresPadded bytes is
    ///       → expression padded (expression_encoding bytes) is
    /// ```
    ///
    /// Definitions: [`Plain`](super::insn::plain::Plain), [`StoresInstructions`](expressions::StoresInstructions), [`StoresPadded`](expressions::StoresPadded), [`expression`](expressions::expression), [`padded`](super::base::numbers::Mode), [`expression_encoding`](expressions::expression_encoding).
    type StoresMorePadded;
}

/// The iterator over the members of a vector.
///
/// [How to read definitions](super). The file is [`Members.antt`](https://github.com/dolzhytik/dolzhytik/blob/main/crates/wasm_code/specs/Members.antt).
pub trait members {
    /// The state of the iterator: the number of members that are left, and the bytes from the next on.
    ///
    /// ```text
    /// pub record VisitingMembers : Type 0 where
    ///   pub left : ℕ
    ///   pub rest : List ℕ
    /// ```
    type VisitingMembers;
    /// The iterator returned this member: it is at the front of the old bytes, and the new ones follow it.
    ///
    /// ```text
    /// pub record GivesMember {T X : Type 0} (F : Format X) (view : T → X) (mode : Mode)
    ///     (old : VisitingMembers) (member : T) (new : VisitingMembers) : Type 0 where
    ///   pub decodes : Decodes F mode old.rest (view member) new.rest
    ///   pub left : old.left ≡ new.left + 1
    /// ```
    ///
    /// Definitions: [`Format`](super::base::formats::Format), [`Mode`](super::base::numbers::Mode), [`VisitingMembers`](members::VisitingMembers), [`Decodes`](super::base::decoding::Decodes).
    type GivesMember;
    /// The iterator returned this error, and has ended. For every cause except `Memory`, no member is at the front. For `Memory`, decoding a member may request memory.
    ///
    /// ```text
    /// pub record EndsMembers {X : Type 0} (MayAllocate : Type 0) (F : Format X) (mode : Mode)
    ///     (old : VisitingMembers) (e : Failure) (new : VisitingMembers) : Type 0 where
    ///   pub some : old.left ≢ 0
    ///   pub none : e.cause ≢ Memory → Rejects F mode old.rest
    ///   pub no_memory : e.cause ≡ Memory → MayAllocate
    ///   pub ended : (new.left ≡ 0) × (new.rest ≡ old.rest)
    /// ```
    ///
    /// Definitions: [`Format`](super::base::formats::Format), [`Mode`](super::base::numbers::Mode), [`VisitingMembers`](members::VisitingMembers), [`Failure`](super::base::faults::Failure), [`Rejects`](super::base::decoding::Rejects).
    type EndsMembers;
    /// The result of `next`: `None` if no member is left, a member, or an error.
    ///
    /// ```text
    /// abbrev pub NextMember : {T X : Type 0} → Type 0 → Format X → (T → X) → Mode
    ///     → VisitingMembers → Option (Result T Failure) → VisitingMembers → Type 0
    /// NextMember MayAllocate F view mode old None new = (old.left ≡ 0) × (new ≡ old)
    /// NextMember MayAllocate F view mode old
    ///     (Some (Ok member)) new = GivesMember F view mode old member new
    /// NextMember MayAllocate F view mode old
    ///     (Some (Err e)) new = EndsMembers MayAllocate F mode old e new
    /// ```
    ///
    /// Definitions: [`Format`](super::base::formats::Format), [`Mode`](super::base::numbers::Mode), [`VisitingMembers`](members::VisitingMembers), [`Failure`](super::base::faults::Failure), [`GivesMember`](members::GivesMember), [`EndsMembers`](members::EndsMembers).
    type NextMember;
}

/// The laws of the offsets at which the visitor of instructions visits a body.
///
/// [How to read definitions](super). The file is [`Offsets.antt`](https://github.com/dolzhytik/dolzhytik/blob/main/crates/wasm_code/specs/Offsets.antt).
pub trait offsets {
    /// The visitor has visited `x`: the bytes before this offset encode these runs and instructions.
    ///
    /// ```text
    /// abbrev pub HasVisited : Mode → List ℕ → ℕ → Body → Type 0
    /// HasVisited mode bytes offset x = body mode (take offset bytes) x
    /// ```
    ///
    /// Definitions: [`Mode`](super::base::numbers::Mode), [`Body`](bodies::Body), [`body`](bodies::body).
    type HasVisited;
    /// The visitor of a body starts after its runs and advances by an instruction. After as many instructions as a raw body has, it is at that body's length and has visited that body.
    ///
    /// ```text
    /// pub record OffsetLaws (mode : Mode) : Type 0 where
    ///   pub begun : (bytes : List ℕ) (offset : ℕ) (runs : List Run)
    ///       → Decodes (vec (pair u32 val_type)) mode bytes runs (drop offset bytes)
    ///       → offset ≤ length bytes → HasVisited mode bytes offset
    ///       (record { runs = runs; code = [] })
    ///   pub continues : (bytes : List ℕ) (offset after : ℕ) (x : Body) (i : Plain)
    ///       → HasVisited mode bytes offset x
    ///       → Decodes (instruction table) mode (drop offset bytes) i (drop after bytes)
    ///       → offset < after → after ≤ length bytes
    ///       → HasVisited mode bytes after (and_then x (i ∷ []))
    ///   pub same : (front more : List ℕ) (offset : ℕ) (x y : Body) → body mode front x
    ///       → HasVisited mode (front ++ more) offset y → offset ≤ length (front ++ more)
    ///       → length y.code ≡ length x.code → (y ≡ x) × (offset ≡ length front)
    /// ```
    ///
    /// Definitions: [`Mode`](super::base::numbers::Mode), [`Run`](bodies::Run), [`Decodes`](super::base::decoding::Decodes), [`vec`](super::base::formats::vec), [`pair`](super::base::formats::pair), [`u32`](super::base::formats::u32), [`val_type`](super::base::types::val_type), [`HasVisited`](offsets::HasVisited), [`Body`](bodies::Body), [`Plain`](super::insn::plain::Plain), [`instruction`](super::insn::plain::instruction), [`table`](super::insn::table::table), [`and_then`](bodies::and_then), [`body`](bodies::body).
    type OffsetLaws;
}

/// The visitor of instructions: its state, and what each step returns.
///
/// [How to read definitions](super). The file is [`Walks.antt`](https://github.com/dolzhytik/dolzhytik/blob/main/crates/wasm_code/specs/Walks.antt).
pub trait walks {
    /// The state of the visitor: all bytes, and the offset of the next instruction in them.
    ///
    /// ```text
    /// pub record Walking : Type 0 where
    ///   pub bytes : List ℕ
    ///   pub offset : ℕ
    /// ```
    type Walking;
    /// The bytes from the visitor's offset on.
    ///
    /// ```text
    /// abbrev pub ahead : Walking → List ℕ
    /// ahead w = drop w.offset w.bytes
    /// ```
    ///
    /// Definitions: [`Walking`](walks::Walking).
    type ahead;
    /// The visitor returned this instruction of the format, which lies between the offsets before and after.
    ///
    /// ```text
    /// pub record GivesInstruction (F : Format Plain) (mode : Mode) (before : Walking)
    ///     (it : Decoded) (after : Walking) : Type 0 where
    ///   pub found : DecodesOperation F mode (ahead before) it.op it.operands (ahead after)
    ///   pub offset : it.offset ≡ before.offset
    ///   pub further : before.offset < after.offset
    ///   pub within : after.offset ≤ length after.bytes
    ///   pub same : after.bytes ≡ before.bytes
    /// ```
    ///
    /// Definitions: [`Format`](super::base::formats::Format), [`Plain`](super::insn::plain::Plain), [`Mode`](super::base::numbers::Mode), [`Walking`](walks::Walking), [`DecodesOperation`](super::insn::operands::DecodesOperation), [`ahead`](walks::ahead).
    type GivesInstruction;
    /// The visitor returned this error, and did not move. No value of the format decodes from the next bytes. The cause is not `Memory`.
    ///
    /// ```text
    /// pub record GivesFailure {X : Type 0} (F : Format X) (mode : Mode) (before : Walking)
    ///     (e : Failure) (after : Walking) : Type 0 where
    ///   pub none : e.cause ≢ Memory → Rejects F mode (ahead before)
    ///   pub no_memory : e.cause ≢ Memory
    ///   pub stays : after ≡ before
    /// ```
    ///
    /// Definitions: [`Format`](super::base::formats::Format), [`Mode`](super::base::numbers::Mode), [`Walking`](walks::Walking), [`Failure`](super::base::faults::Failure), [`Rejects`](super::base::decoding::Rejects), [`ahead`](walks::ahead).
    type GivesFailure;
    /// The result of `next`: `None` at the end of the bytes, an instruction, or an error.
    ///
    /// ```text
    /// abbrev pub NextInstruction
    ///     : Mode → Walking → Result (Option Decoded) Failure → Walking → Type 0
    /// NextInstruction mode before (Ok None) after = (ahead before ≡ []) × (after ≡ before)
    /// NextInstruction mode before (Ok (Some it)) after = GivesInstruction
    ///     (instruction table) mode before it after
    /// NextInstruction mode before (Err e) after = GivesFailure
    ///     (instruction table) mode before e after × (ahead before ≢ [])
    /// ```
    ///
    /// Definitions: [`Mode`](super::base::numbers::Mode), [`Walking`](walks::Walking), [`Failure`](super::base::faults::Failure), [`ahead`](walks::ahead), [`GivesInstruction`](walks::GivesInstruction), [`instruction`](super::insn::plain::instruction), [`table`](super::insn::table::table), [`GivesFailure`](walks::GivesFailure).
    type NextInstruction;
    /// The result of `next_before_end`: `None` at the final `end` of an expression, an instruction other than `end`, or an error.
    ///
    /// ```text
    /// abbrev pub NextBeforeEnd
    ///     : Mode → Walking → Result (Option Decoded) Failure → Walking → Type 0
    /// NextBeforeEnd mode before (Ok None) after =
    ///     (ahead before ≡ 0x0B ∷ drop (before.offset + 1) before.bytes) × (after ≡ before)
    /// NextBeforeEnd mode before (Ok (Some it)) after = GivesInstruction
    ///     (such IsNoEnd (instruction table)) mode before it after
    /// NextBeforeEnd mode before (Err e) after = GivesFailure expression mode before e after
    /// ```
    ///
    /// Definitions: [`Mode`](super::base::numbers::Mode), [`Walking`](walks::Walking), [`Failure`](super::base::faults::Failure), [`ahead`](walks::ahead), [`GivesInstruction`](walks::GivesInstruction), [`such`](super::base::formats::such), [`IsNoEnd`](expressions::IsNoEnd), [`instruction`](super::insn::plain::instruction), [`table`](super::insn::table::table), [`GivesFailure`](walks::GivesFailure), [`expression`](expressions::expression).
    type NextBeforeEnd;
}
