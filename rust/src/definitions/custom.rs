// Written by tools/to-rust from crates/wasm_custom/specs: change that.
//! Custom sections.
//!
//! The contracts of [`wasm_custom`](https://github.com/dolzhytik/dolzhytik/blob/main/crates/wasm_custom/README.md) name these definitions.

/// Calls that add an entry whose items iterators yield.
///
/// [How to read definitions](super). The file is [`Adding.antt`](https://github.com/dolzhytik/dolzhytik/blob/main/crates/wasm_custom/specs/Adding.antt).
pub trait adding {
    /// The builder gains one entry of the items that the iterator yields, or the call returns an error and changes nothing. It returns `TooLong` if there are too many items, and never if all items fit and items and entries are few enough.
    ///
    /// ```text
    /// pub record AddsList {M U S T : Type 0} (model : StoreModel M) (becomes : U → S → Type 0)
    ///     (gives : S → Option T → S → Type 0) (remaining : S → Count) (elements : U)
    ///     (Encodable : T → Type 0) (encoding : List T → List ℕ)
    ///     (old new : M) (result : Result (Unit {0}) Refused) : Type 0 where
    ///   pub ok : OnOk result ((it : S) × (items : List T) × becomes elements it
    ///       × Drains gives it items × IsEncodableVec Encodable items
    ///       × model.gains (encoding items) old new)
    ///   pub err : OnErr result (new ≡ old)
    ///   pub counted : OnOk result ((model.joins old).number < longest)
    ///   pub too_long : ((it : S) → becomes elements it → size (remaining it) ≤ longest)
    ///       → ((it left : S) (xs : List T) → becomes elements it → Yields gives it xs left
    ///       → All Encodable xs) → (model.joins old).number < longest → result ≢ Err TooLong
    ///   pub too_many : ((it : S) → becomes elements it → longest < size (remaining it))
    ///       → result ≡ Err TooLong
    /// ```
    ///
    /// Definitions: [`StoreModel`](super::base::stores::StoreModel), [`IsEncodableVec`](super::base::encodings::IsEncodableVec), [`longest`](super::base::encodings::longest).
    type AddsList;
    /// As [`AddsList`](adding::AddsList), for an entry of two lists.
    ///
    /// ```text
    /// pub record AddsTwoLists {M U S V R T W : Type 0} (model : StoreModel M)
    ///     (becomes : U → S → Type 0) (gives : S → Option T → S → Type 0)
    ///     (remaining : S → Count) (first : U)
    ///     (turns : V → R → Type 0) (hands : R → Option W → R → Type 0) (left : R → Count)
    ///         (second : V) (Encodable : T → Type 0) (Suits : W → Type 0)
    ///         (encoding : List T → List W → List ℕ)
    ///     (old new : M) (result : Result (Unit {0}) Refused) : Type 0 where
    ///   pub ok : OnOk result ((it : S) × (xs : List T) × (jt : R) × (ys : List W)
    ///       × becomes first it × Drains gives it xs × IsEncodableVec Encodable xs
    ///       × turns second jt × Drains hands jt ys × IsEncodableVec Suits ys
    ///       × model.gains (encoding xs ys) old new)
    ///   pub err : OnErr result (new ≡ old)
    ///   pub counted : OnOk result ((model.joins old).number < longest)
    ///   pub too_long : ((it : S) → becomes first it → size (remaining it) ≤ longest)
    ///       → ((jt : R) → turns second jt → size (left jt) ≤ longest)
    ///       → ((it end : S) (xs : List T) → becomes first it → Yields gives it xs end
    ///           → All Encodable xs) → ((jt end : R) (ys : List W) → turns second jt
    ///           → Yields hands jt ys end → All Suits ys)
    ///       → (model.joins old).number < longest → result ≢ Err TooLong
    ///   pub too_many : ((it : S) → becomes first it → longest < size (remaining it))
    ///       → result ≡ Err TooLong
    ///   pub too_many_then : ((jt : R) → turns second jt → longest < size (left jt))
    ///       → result ≡ Err TooLong
    /// ```
    ///
    /// Definitions: [`StoreModel`](super::base::stores::StoreModel), [`IsEncodableVec`](super::base::encodings::IsEncodableVec), [`longest`](super::base::encodings::longest).
    type AddsTwoLists;
}

/// Code metadata: for each function, hints at offsets in its body. Branch hinting and compilation hints, sections `metadata.code.*`.
///
/// - The hints of a function: [`HintsIn`](code_metadata::HintsIn), [`hints_in_encoding`](code_metadata::hints_in_encoding), [`AreHintsIn`](code_metadata::AreHintsIn), [`hints_in`](code_metadata::hints_in), [`hints_in_items`](code_metadata::hints_in_items).
/// - Hints with a size-prefixed value: [`hinted_encoding`](code_metadata::hinted_encoding), [`IsHinted`](code_metadata::IsHinted), [`hinted`](code_metadata::hinted), [`hinted_items`](code_metadata::hinted_items), [`PayloadLaws`](code_metadata::PayloadLaws), [`hint_as`](code_metadata::hint_as), [`hints_as`](code_metadata::hints_as).
/// - Instruction frequencies: [`frequencies_name`](code_metadata::frequencies_name), [`Frequencies`](code_metadata::Frequencies), [`frequency_encoding`](code_metadata::frequency_encoding), [`IsFrequency`](code_metadata::IsFrequency), [`frequency_items`](code_metadata::frequency_items), [`ContainsFrequencies`](code_metadata::ContainsFrequencies), [`frequencies_payload`](code_metadata::frequencies_payload), [`frequencies_decoding`](code_metadata::frequencies_decoding), [`frequency_view`](code_metadata::frequency_view), [`frequencies_view`](code_metadata::frequencies_view).
/// - Compilation orders: [`orders_name`](code_metadata::orders_name), [`Orders`](code_metadata::Orders), [`hotness_numbers`](code_metadata::hotness_numbers), [`order_numbers`](code_metadata::order_numbers), [`order_encoding`](code_metadata::order_encoding), [`IsOrder`](code_metadata::IsOrder), [`order`](code_metadata::order), [`order_items`](code_metadata::order_items), [`ContainsOrders`](code_metadata::ContainsOrders), [`orders_payload`](code_metadata::orders_payload), [`orders_decoding`](code_metadata::orders_decoding), [`orders_view`](code_metadata::orders_view).
/// - Call targets: [`call_targets_name`](code_metadata::call_targets_name), [`TargetItem`](code_metadata::TargetItem), [`HintedTargets`](code_metadata::HintedTargets), [`target_encoding`](code_metadata::target_encoding), [`targets_encoding`](code_metadata::targets_encoding), [`IsTarget`](code_metadata::IsTarget), [`targets`](code_metadata::targets), [`call_target_items`](code_metadata::call_target_items), [`ContainsCallTargets`](code_metadata::ContainsCallTargets), [`call_targets_payload`](code_metadata::call_targets_payload), [`call_targets_decoding`](code_metadata::call_targets_decoding), [`target_view`](code_metadata::target_view), [`targets_view`](code_metadata::targets_view), [`call_targets_view`](code_metadata::call_targets_view).
///
/// [How to read definitions](super). The file is [`CodeMetadata.antt`](https://github.com/dolzhytik/dolzhytik/blob/main/crates/wasm_custom/specs/CodeMetadata.antt).
pub trait code_metadata {
    /// A function index, and the hints of the function.
    ///
    /// ```text
    /// abbrev pub HintsIn : Type 0 → Type 0
    /// HintsIn Hint = ℕ × List Hint
    /// ```
    type HintsIn;
    /// The encoding of a function's hints: its index, and their vector.
    ///
    /// ```text
    /// abbrev pub hints_in_encoding : {Hint : Type 0} → (Hint → List ℕ) → HintsIn Hint → List ℕ
    /// hints_in_encoding encoding h = unsigned_encoding h.0 ++ vec_encoding encoding h.1
    /// ```
    ///
    /// Definitions: [`HintsIn`](code_metadata::HintsIn), [`unsigned_encoding`](super::base::numbers::unsigned_encoding), [`vec_encoding`](super::base::encodings::vec_encoding).
    type hints_in_encoding;
    /// The function's hints are well-formed: its index is below 2^32, and its hints are well-formed and their number is at most 2^32 - 1.
    ///
    /// ```text
    /// abbrev pub AreHintsIn : {Hint : Type 0} → (Hint → Type 0) → HintsIn Hint → Type 0
    /// AreHintsIn Is h = (h.0 < 2 ^ 32) × IsEncodableVec Is h.1
    /// ```
    ///
    /// Definitions: [`HintsIn`](code_metadata::HintsIn), [`IsEncodableVec`](super::base::encodings::IsEncodableVec).
    type AreHintsIn;
    /// A function's hints: its index, and a vector of hints of the format.
    ///
    /// ```text
    /// abbrev pub hints_in : {Hint : Type 0} → Format Hint → Format (HintsIn Hint)
    /// hints_in F = pair u32 (vec F)
    /// ```
    ///
    /// Definitions: [`Format`](super::base::formats::Format), [`HintsIn`](code_metadata::HintsIn), [`pair`](super::base::formats::pair), [`u32`](super::base::formats::u32), [`vec`](super::base::formats::vec).
    type hints_in;
    /// The kind of functions with their hints.
    ///
    /// ```text
    /// abbrev pub hints_in_items
    ///     : {Hint : Type 0} → Format Hint → (Hint → Type 0) → (Hint → List ℕ)
    ///     → Kind (HintsIn Hint) (HintsIn Hint)
    /// hints_in_items F Is encoding = record
    ///     { encoding = hints_in_encoding encoding; IsWellFormed = AreHintsIn Is;
    ///     IsWellFormedPadded = AreHintsIn Is; normal_form = λ hints. hints;
    ///     format = hints_in F }
    /// ```
    ///
    /// Definitions: [`Format`](super::base::formats::Format), [`Kind`](super::base::entries::Kind), [`HintsIn`](code_metadata::HintsIn), [`hints_in_encoding`](code_metadata::hints_in_encoding), [`AreHintsIn`](code_metadata::AreHintsIn), [`hints_in`](code_metadata::hints_in).
    type hints_in_items;
    /// The encoding of a hint: the offset, and the size-prefixed encoding of the value.
    ///
    /// ```text
    /// abbrev pub hinted_encoding : {X : Type 0} → (X → List ℕ) → ℕ × X → List ℕ
    /// hinted_encoding encoding h = unsigned_encoding h.0
    ///     ++ size_prefixed_encoding (encoding h.1)
    /// ```
    ///
    /// Definitions: [`unsigned_encoding`](super::base::numbers::unsigned_encoding), [`size_prefixed_encoding`](super::base::encodings::size_prefixed_encoding).
    type hinted_encoding;
    /// The hint is well-formed: its offset is below 2^32, and its value is well-formed and has at most 2^32 - 1 bytes.
    ///
    /// ```text
    /// pub record IsHinted {X : Type 0} (Is : X → Type 0) (encoding : X → List ℕ) (h : ℕ × X)
    ///     : Type 0 where
    ///   pub offset : h.0 < 2 ^ 32
    ///   pub value : Is h.1
    ///   pub fits : HasEncodableSize (encoding h.1)
    /// ```
    ///
    /// Definitions: [`HasEncodableSize`](super::base::encodings::HasEncodableSize).
    type IsHinted;
    /// A hint: an offset in the raw body of the function, and a value that occupies its size-prefixed payload.
    ///
    /// ```text
    /// abbrev pub hinted : {X : Type 0} → Format X → Format (ℕ × X)
    /// hinted F = pair u32 (size_prefixed F)
    /// ```
    ///
    /// Definitions: [`Format`](super::base::formats::Format), [`pair`](super::base::formats::pair), [`u32`](super::base::formats::u32), [`size_prefixed`](super::base::formats::size_prefixed).
    type hinted;
    /// The kind of functions with hints of such a value.
    ///
    /// ```text
    /// abbrev pub hinted_items : {X : Type 0} → Format X → (X → Type 0) → (X → List ℕ)
    ///     → Kind (HintsIn (ℕ × X)) (HintsIn (ℕ × X))
    /// hinted_items F Is encoding = hints_in_items (hinted F) (IsHinted Is encoding)
    ///     (hinted_encoding encoding)
    /// ```
    ///
    /// Definitions: [`Format`](super::base::formats::Format), [`Kind`](super::base::entries::Kind), [`HintsIn`](code_metadata::HintsIn), [`hints_in_items`](code_metadata::hints_in_items), [`hinted`](code_metadata::hinted), [`IsHinted`](code_metadata::IsHinted), [`hinted_encoding`](code_metadata::hinted_encoding).
    type hinted_items;
    /// The laws of a value of hints in the sections of this name. The name is UTF-8, and the format is unambiguous as a whole. The encoding of a value is minimal, and a well-formed value has it.
    ///
    /// ```text
    /// pub record PayloadLaws {X : Type 0} (n : List ℕ) (F : Format X) (Is : X → Type 0)
    ///     (encoding : X → List ℕ) : Type 0 where
    ///   pub name_utf8 : IsUtf8 n
    ///   pub unique : UnambiguousWhole F
    ///   pub encodes : (x : X) → Is x → F minimal (encoding x) x
    ///   pub shortest : EncodesMinimally F (λ x. x) encoding
    /// ```
    ///
    /// Definitions: [`Format`](super::base::formats::Format), [`UnambiguousWhole`](super::base::decoding::UnambiguousWhole), [`minimal`](super::base::numbers::Mode), [`EncodesMinimally`](super::base::minimal::EncodesMinimally).
    type PayloadLaws;
    /// The view of a hint, by that of its value.
    ///
    /// ```text
    /// abbrev pub hint_as : {T X : Type 0} → (T → X) → CodeHint T → ℕ × X
    /// hint_as view h = (h.offset, view h.value)
    /// ```
    type hint_as;
    /// The view of a function's decoded hints, by that of their values.
    ///
    /// ```text
    /// abbrev pub hints_as : {T X A : Type 0} → (T → X) → ℕ × Vec (CodeHint T) A
    ///     → HintsIn (ℕ × X)
    /// hints_as view h = (h.0, map (hint_as view) h.1.items)
    /// ```
    ///
    /// Definitions: [`HintsIn`](code_metadata::HintsIn), [`hint_as`](code_metadata::hint_as).
    type hints_as;
    /// The section name `metadata.code.instr_freq`.
    ///
    /// ```text
    /// abbrev pub frequencies_name : List ℕ
    /// frequencies_name = codes "metadata.code.instr_freq"
    /// ```
    type frequencies_name;
    /// A function index, and the frequencies of instructions at these offsets.
    ///
    /// ```text
    /// abbrev pub Frequencies : Type 0
    /// Frequencies = HintsIn (ℕ × ℕ)
    /// ```
    ///
    /// Definitions: [`HintsIn`](code_metadata::HintsIn).
    type Frequencies;
    /// The encoding of a frequency: one byte.
    ///
    /// ```text
    /// abbrev pub frequency_encoding : ℕ → List ℕ
    /// frequency_encoding b = b ∷ []
    /// ```
    type frequency_encoding;
    /// Any byte is a frequency.
    ///
    /// ```text
    /// abbrev pub IsFrequency : ℕ → Type 0
    /// IsFrequency b = Unit {0}
    /// ```
    type IsFrequency;
    /// The kind of functions with the frequencies of their instructions.
    ///
    /// ```text
    /// abbrev pub frequency_items : Kind Frequencies Frequencies
    /// frequency_items = hinted_items byte IsFrequency frequency_encoding
    /// ```
    ///
    /// Definitions: [`Kind`](super::base::entries::Kind), [`Frequencies`](code_metadata::Frequencies), [`hinted_items`](code_metadata::hinted_items), [`byte`](super::base::formats::byte), [`IsFrequency`](code_metadata::IsFrequency), [`frequency_encoding`](code_metadata::frequency_encoding).
    type frequency_items;
    /// The pieces encode these functions with the frequencies of their instructions.
    ///
    /// ```text
    /// abbrev pub ContainsFrequencies : List (List ℕ) → List Frequencies → Type 0
    /// ContainsFrequencies = ContainsItems frequency_items
    /// ```
    ///
    /// Definitions: [`Frequencies`](code_metadata::Frequencies), [`ContainsItems`](super::base::entries::ContainsItems), [`frequency_items`](code_metadata::frequency_items).
    type ContainsFrequencies;
    /// The payload of the section: its name, and a vector of functions with frequencies.
    ///
    /// ```text
    /// abbrev pub frequencies_payload : Format (List Frequencies)
    /// frequencies_payload = counted_payload frequencies_name (hints_in (hinted byte))
    /// ```
    ///
    /// Definitions: [`Format`](super::base::formats::Format), [`Frequencies`](code_metadata::Frequencies), [`counted_payload`](entries::counted_payload), [`frequencies_name`](code_metadata::frequencies_name), [`hints_in`](code_metadata::hints_in), [`hinted`](code_metadata::hinted), [`byte`](super::base::formats::byte).
    type frequencies_payload;
    /// The section that decodes to the frequencies of these functions.
    ///
    /// ```text
    /// abbrev pub frequencies_decoding : List Frequencies → SectionDecoding
    /// frequencies_decoding functions = decoding_as frequencies_payload functions
    /// ```
    ///
    /// Definitions: [`Frequencies`](code_metadata::Frequencies), [`SectionDecoding`](super::base::modules::SectionDecoding), [`decoding_as`](customs::decoding_as), [`frequencies_payload`](code_metadata::frequencies_payload).
    type frequencies_decoding;
    /// The view of a decoded frequency.
    ///
    /// ```text
    /// abbrev pub frequency_view : InstructionFrequency → ℕ
    /// frequency_view f = f.0
    /// ```
    type frequency_view;
    /// The view of a function's decoded frequencies.
    ///
    /// ```text
    /// abbrev pub frequencies_view
    ///     : {A : Type 0} → ℕ × Vec (CodeHint InstructionFrequency) A → Frequencies
    /// frequencies_view h = hints_as frequency_view h
    /// ```
    ///
    /// Definitions: [`Frequencies`](code_metadata::Frequencies), [`hints_as`](code_metadata::hints_as), [`frequency_view`](code_metadata::frequency_view).
    type frequencies_view;
    /// The section name `metadata.code.compilation_order`.
    ///
    /// ```text
    /// abbrev pub orders_name : List ℕ
    /// orders_name = codes "metadata.code.compilation_order"
    /// ```
    type orders_name;
    /// A function index, and the compilation orders at these offsets.
    ///
    /// ```text
    /// abbrev pub Orders : Type 0
    /// Orders = HintsIn (ℕ × CompilationOrder)
    /// ```
    ///
    /// Definitions: [`HintsIn`](code_metadata::HintsIn).
    type Orders;
    /// The hotness as a list of at most one number.
    ///
    /// ```text
    /// abbrev pub hotness_numbers : Option ℕ → List ℕ
    /// hotness_numbers None = []
    /// hotness_numbers (Some n) = n ∷ []
    /// ```
    type hotness_numbers;
    /// The numbers of a compilation order: the order, and the hotness if there is one.
    ///
    /// ```text
    /// abbrev pub order_numbers : CompilationOrder → List ℕ
    /// order_numbers o = o.order ∷ hotness_numbers o.hotness
    /// ```
    ///
    /// Definitions: [`hotness_numbers`](code_metadata::hotness_numbers).
    type order_numbers;
    /// The encoding of a compilation order: the order, and the hotness if there is one.
    ///
    /// ```text
    /// abbrev pub order_encoding : CompilationOrder → List ℕ
    /// order_encoding o = unsigned_encoding o.order
    ///     ++ optional_encoding unsigned_encoding o.hotness
    /// ```
    ///
    /// Definitions: [`unsigned_encoding`](super::base::numbers::unsigned_encoding), [`optional_encoding`](super::base::encodings::optional_encoding).
    type order_encoding;
    /// The compilation order is well-formed: its numbers are below 2^32.
    ///
    /// ```text
    /// abbrev pub IsOrder : CompilationOrder → Type 0
    /// IsOrder o = All (λ n. n < 2 ^ 32) (order_numbers o)
    /// ```
    ///
    /// Definitions: [`order_numbers`](code_metadata::order_numbers).
    type IsOrder;
    /// A compilation order: its numbers, one or two, up to the last byte.
    ///
    /// ```text
    /// abbrev pub order : Format CompilationOrder
    /// order mode s o = members u32 mode s (order_numbers o)
    /// ```
    ///
    /// Definitions: [`Format`](super::base::formats::Format), [`members`](super::base::formats::members), [`u32`](super::base::formats::u32), [`order_numbers`](code_metadata::order_numbers).
    type order;
    /// The kind of functions with their compilation orders.
    ///
    /// ```text
    /// abbrev pub order_items : Kind Orders Orders
    /// order_items = hinted_items order IsOrder order_encoding
    /// ```
    ///
    /// Definitions: [`Kind`](super::base::entries::Kind), [`Orders`](code_metadata::Orders), [`hinted_items`](code_metadata::hinted_items), [`order`](code_metadata::order), [`IsOrder`](code_metadata::IsOrder), [`order_encoding`](code_metadata::order_encoding).
    type order_items;
    /// The pieces encode these functions with their compilation orders.
    ///
    /// ```text
    /// abbrev pub ContainsOrders : List (List ℕ) → List Orders → Type 0
    /// ContainsOrders = ContainsItems order_items
    /// ```
    ///
    /// Definitions: [`Orders`](code_metadata::Orders), [`ContainsItems`](super::base::entries::ContainsItems), [`order_items`](code_metadata::order_items).
    type ContainsOrders;
    /// The payload of the section: its name, and a vector of functions with compilation orders.
    ///
    /// ```text
    /// abbrev pub orders_payload : Format (List Orders)
    /// orders_payload = counted_payload orders_name (hints_in (hinted order))
    /// ```
    ///
    /// Definitions: [`Format`](super::base::formats::Format), [`Orders`](code_metadata::Orders), [`counted_payload`](entries::counted_payload), [`orders_name`](code_metadata::orders_name), [`hints_in`](code_metadata::hints_in), [`hinted`](code_metadata::hinted), [`order`](code_metadata::order).
    type orders_payload;
    /// The section that decodes to the compilation orders of these functions.
    ///
    /// ```text
    /// abbrev pub orders_decoding : List Orders → SectionDecoding
    /// orders_decoding functions = decoding_as orders_payload functions
    /// ```
    ///
    /// Definitions: [`Orders`](code_metadata::Orders), [`SectionDecoding`](super::base::modules::SectionDecoding), [`decoding_as`](customs::decoding_as), [`orders_payload`](code_metadata::orders_payload).
    type orders_decoding;
    /// The view of a function's decoded compilation orders.
    ///
    /// ```text
    /// abbrev pub orders_view : {A : Type 0} → ℕ × Vec (CodeHint CompilationOrder) A → Orders
    /// orders_view h = hints_as (λ o. o) h
    /// ```
    ///
    /// Definitions: [`Orders`](code_metadata::Orders), [`hints_as`](code_metadata::hints_as).
    type orders_view;
    /// The section name `metadata.code.call_targets`.
    ///
    /// ```text
    /// abbrev pub call_targets_name : List ℕ
    /// call_targets_name = codes "metadata.code.call_targets"
    /// ```
    type call_targets_name;
    /// A call target: a function index, and the share of calls in percent.
    ///
    /// ```text
    /// abbrev pub TargetItem : Type 0
    /// TargetItem = ℕ × ℕ
    /// ```
    type TargetItem;
    /// A function index, and the targets of the calls at these offsets.
    ///
    /// ```text
    /// abbrev pub HintedTargets : Type 0
    /// HintedTargets = HintsIn (ℕ × List TargetItem)
    /// ```
    ///
    /// Definitions: [`HintsIn`](code_metadata::HintsIn), [`TargetItem`](code_metadata::TargetItem).
    type HintedTargets;
    /// The encoding of a call target: the function index, and the share.
    ///
    /// ```text
    /// abbrev pub target_encoding : TargetItem → List ℕ
    /// target_encoding t = unsigned_encoding t.0 ++ unsigned_encoding t.1
    /// ```
    ///
    /// Definitions: [`TargetItem`](code_metadata::TargetItem), [`unsigned_encoding`](super::base::numbers::unsigned_encoding).
    type target_encoding;
    /// The encoding of call targets, one after another.
    ///
    /// ```text
    /// abbrev pub targets_encoding : List TargetItem → List ℕ
    /// targets_encoding ts = flat_map target_encoding ts
    /// ```
    ///
    /// Definitions: [`TargetItem`](code_metadata::TargetItem), [`target_encoding`](code_metadata::target_encoding).
    type targets_encoding;
    /// The call target is well-formed: its numbers are below 2^32.
    ///
    /// ```text
    /// abbrev pub IsTarget : TargetItem → Type 0
    /// IsTarget t = (t.0 < 2 ^ 32) × (t.1 < 2 ^ 32)
    /// ```
    ///
    /// Definitions: [`TargetItem`](code_metadata::TargetItem).
    type IsTarget;
    /// Call targets, one after another up to the last byte.
    ///
    /// ```text
    /// abbrev pub targets : Format (List TargetItem)
    /// targets = members (pair u32 u32)
    /// ```
    ///
    /// Definitions: [`Format`](super::base::formats::Format), [`TargetItem`](code_metadata::TargetItem), [`members`](super::base::formats::members), [`pair`](super::base::formats::pair), [`u32`](super::base::formats::u32).
    type targets;
    /// The kind of functions with the targets of their calls.
    ///
    /// ```text
    /// abbrev pub call_target_items : Kind HintedTargets HintedTargets
    /// call_target_items = hinted_items targets (All IsTarget) targets_encoding
    /// ```
    ///
    /// Definitions: [`Kind`](super::base::entries::Kind), [`HintedTargets`](code_metadata::HintedTargets), [`hinted_items`](code_metadata::hinted_items), [`targets`](code_metadata::targets), [`IsTarget`](code_metadata::IsTarget), [`targets_encoding`](code_metadata::targets_encoding).
    type call_target_items;
    /// The pieces encode these functions with the targets of their calls.
    ///
    /// ```text
    /// abbrev pub ContainsCallTargets : List (List ℕ) → List HintedTargets → Type 0
    /// ContainsCallTargets = ContainsItems call_target_items
    /// ```
    ///
    /// Definitions: [`HintedTargets`](code_metadata::HintedTargets), [`ContainsItems`](super::base::entries::ContainsItems), [`call_target_items`](code_metadata::call_target_items).
    type ContainsCallTargets;
    /// The payload of the section: its name, and a vector of functions with call targets.
    ///
    /// ```text
    /// abbrev pub call_targets_payload : Format (List HintedTargets)
    /// call_targets_payload = counted_payload call_targets_name (hints_in (hinted targets))
    /// ```
    ///
    /// Definitions: [`Format`](super::base::formats::Format), [`HintedTargets`](code_metadata::HintedTargets), [`counted_payload`](entries::counted_payload), [`call_targets_name`](code_metadata::call_targets_name), [`hints_in`](code_metadata::hints_in), [`hinted`](code_metadata::hinted), [`targets`](code_metadata::targets).
    type call_targets_payload;
    /// The section that decodes to the call targets of these functions.
    ///
    /// ```text
    /// abbrev pub call_targets_decoding : List HintedTargets → SectionDecoding
    /// call_targets_decoding functions = decoding_as call_targets_payload functions
    /// ```
    ///
    /// Definitions: [`HintedTargets`](code_metadata::HintedTargets), [`SectionDecoding`](super::base::modules::SectionDecoding), [`decoding_as`](customs::decoding_as), [`call_targets_payload`](code_metadata::call_targets_payload).
    type call_targets_decoding;
    /// The view of a decoded call target.
    ///
    /// ```text
    /// abbrev pub target_view : CallTarget → TargetItem
    /// target_view t = (t.function_index, t.percent)
    /// ```
    ///
    /// Definitions: [`TargetItem`](code_metadata::TargetItem).
    type target_view;
    /// The view of decoded call targets.
    ///
    /// ```text
    /// abbrev pub targets_view : {A : Type 0} → Vec CallTarget A → List TargetItem
    /// targets_view ts = map target_view ts.items
    /// ```
    ///
    /// Definitions: [`TargetItem`](code_metadata::TargetItem), [`target_view`](code_metadata::target_view).
    type targets_view;
    /// The view of the decoded call targets of a function.
    ///
    /// ```text
    /// abbrev pub call_targets_view
    ///     : {A B : Type 0} → ℕ × Vec (CodeHint (Vec CallTarget A)) B → HintedTargets
    /// call_targets_view h = hints_as targets_view h
    /// ```
    ///
    /// Definitions: [`HintedTargets`](code_metadata::HintedTargets), [`hints_as`](code_metadata::hints_as), [`targets_view`](code_metadata::targets_view).
    type call_targets_view;
}

/// The COMDAT groups of a linking section, their encoding and their format. Tool conventions, Linking, Linking Metadata Section, `WASM_COMDAT_INFO`.
///
/// [How to read definitions](super). The file is [`Comdats.antt`](https://github.com/dolzhytik/dolzhytik/blob/main/crates/wasm_custom/specs/Comdats.antt).
pub trait comdats {
    /// The encoding of a member of a group: the byte of its kind, and its index.
    ///
    /// ```text
    /// abbrev pub comdat_symbol_encoding : ComdatSymbol → List ℕ
    /// comdat_symbol_encoding s = s.kind ∷ unsigned_encoding s.index
    /// ```
    ///
    /// Definitions: [`unsigned_encoding`](super::base::numbers::unsigned_encoding).
    type comdat_symbol_encoding;
    /// The index of the member is in range.
    ///
    /// ```text
    /// abbrev pub IsComdatSymbol : ComdatSymbol → Type 0
    /// IsComdatSymbol s = s.index < 2 ^ 32
    /// ```
    type IsComdatSymbol;
    /// The member of this kind and this index.
    ///
    /// ```text
    /// abbrev pub comdat_symbol_of : ℕ × ℕ → ComdatSymbol
    /// comdat_symbol_of parts = record { kind = parts.0; index = parts.1 }
    /// ```
    type comdat_symbol_of;
    /// A member of a group: a byte for its kind, and an index.
    ///
    /// ```text
    /// abbrev pub comdat_symbol : Format ComdatSymbol
    /// comdat_symbol = mapped comdat_symbol_of (pair byte u32)
    /// ```
    ///
    /// Definitions: [`Format`](super::base::formats::Format), [`mapped`](super::base::formats::mapped), [`comdat_symbol_of`](comdats::comdat_symbol_of), [`pair`](super::base::formats::pair), [`byte`](super::base::formats::byte), [`u32`](super::base::formats::u32).
    type comdat_symbol;
    /// The pieces are the encodings of these members.
    ///
    /// ```text
    /// abbrev pub AreComdatSymbols : List (List ℕ) → List ComdatSymbol → Type 0
    /// AreComdatSymbols = IsListOf comdat_symbol_encoding IsComdatSymbol
    /// ```
    ///
    /// Definitions: [`IsListOf`](lists::IsListOf), [`comdat_symbol_encoding`](comdats::comdat_symbol_encoding), [`IsComdatSymbol`](comdats::IsComdatSymbol).
    type AreComdatSymbols;
    /// A group: its name, its flags, and its members.
    ///
    /// ```text
    /// pub record Comdat : Type 0 where
    ///   pub name : List ℕ
    ///   pub flags : ℕ
    ///   pub symbols : List ComdatSymbol
    /// ```
    type Comdat;
    /// The encoding of a group: its name, its flags, and the vector of its members.
    ///
    /// ```text
    /// abbrev pub comdat_encoding : Comdat → List ℕ
    /// comdat_encoding c = size_prefixed_encoding c.name
    ///     ++ (unsigned_encoding c.flags ++ vec_encoding comdat_symbol_encoding c.symbols)
    /// ```
    ///
    /// Definitions: [`Comdat`](comdats::Comdat), [`size_prefixed_encoding`](super::base::encodings::size_prefixed_encoding), [`unsigned_encoding`](super::base::numbers::unsigned_encoding), [`vec_encoding`](super::base::encodings::vec_encoding), [`comdat_symbol_encoding`](comdats::comdat_symbol_encoding).
    type comdat_encoding;
    /// The group is well-formed: its name is UTF-8 of at most 2^32 - 1 bytes, its flags are in range, and its members are well-formed and their number is at most 2^32 - 1.
    ///
    /// ```text
    /// pub record IsComdat (c : Comdat) : Type 0 where
    ///   pub name : IsEncodableName c.name
    ///   pub flags : c.flags < 2 ^ 32
    ///   pub symbols : IsEncodableVec IsComdatSymbol c.symbols
    /// ```
    ///
    /// Definitions: [`Comdat`](comdats::Comdat), [`IsEncodableName`](super::base::laws::IsEncodableName), [`IsEncodableVec`](super::base::encodings::IsEncodableVec), [`IsComdatSymbol`](comdats::IsComdatSymbol).
    type IsComdat;
    /// The group of this name, these flags and these members.
    ///
    /// ```text
    /// abbrev pub comdat_of : List ℕ × (ℕ × List ComdatSymbol) → Comdat
    /// comdat_of parts = record { name = parts.0; flags = parts.1.0; symbols = parts.1.1 }
    /// ```
    ///
    /// Definitions: [`Comdat`](comdats::Comdat).
    type comdat_of;
    /// A group: a name, flags, and a vector of members.
    ///
    /// ```text
    /// abbrev pub comdat : Format Comdat
    /// comdat = mapped comdat_of (pair name (pair u32 (vec comdat_symbol)))
    /// ```
    ///
    /// Definitions: [`Format`](super::base::formats::Format), [`Comdat`](comdats::Comdat), [`mapped`](super::base::formats::mapped), [`comdat_of`](comdats::comdat_of), [`pair`](super::base::formats::pair), [`name`](super::base::formats::name), [`u32`](super::base::formats::u32), [`vec`](super::base::formats::vec), [`comdat_symbol`](comdats::comdat_symbol).
    type comdat;
    /// The pieces are the encodings of these groups.
    ///
    /// ```text
    /// abbrev pub AreComdats : List (List ℕ) → List Comdat → Type 0
    /// AreComdats = IsListOf comdat_encoding IsComdat
    /// ```
    ///
    /// Definitions: [`Comdat`](comdats::Comdat), [`IsListOf`](lists::IsListOf), [`comdat_encoding`](comdats::comdat_encoding), [`IsComdat`](comdats::IsComdat).
    type AreComdats;
    /// The view of a decoded group.
    ///
    /// ```text
    /// abbrev pub comdat_view : {A : Type 0} → read.Comdat A → Comdat
    /// comdat_view c = record { name = c.name.now; flags = c.flags; symbols = c.symbols.items }
    /// ```
    ///
    /// Definitions: [`Comdat`](comdats::Comdat).
    type comdat_view;
}

/// The process, modules and instances of a core dump, their encodings and their formats. Tool conventions, Coredump.
///
/// - Names of processes, modules and threads: [`marked_encoding`](core_dumps::marked_encoding), [`marked_name`](core_dumps::marked_name), [`core_name`](core_dumps::core_name), [`core_section`](core_dumps::core_section), [`SaysProcess`](core_dumps::SaysProcess), [`IsModule`](core_dumps::IsModule), [`module_items`](core_dumps::module_items), [`modules_name`](core_dumps::modules_name).
/// - Instances: [`Instance`](core_dumps::Instance), [`instance_encoding`](core_dumps::instance_encoding), [`IsInstance`](core_dumps::IsInstance), [`instance_of`](core_dumps::instance_of), [`instance`](core_dumps::instance), [`instance_items`](core_dumps::instance_items), [`instances_name`](core_dumps::instances_name).
/// - Sections of a core dump: [`ContainsModules`](core_dumps::ContainsModules), [`ContainsInstances`](core_dumps::ContainsInstances), [`core_payload`](core_dumps::core_payload), [`modules_payload`](core_dumps::modules_payload), [`instances_payload`](core_dumps::instances_payload), [`core_decoding`](core_dumps::core_decoding), [`modules_decoding`](core_dumps::modules_decoding), [`instances_decoding`](core_dumps::instances_decoding).
/// - Decoded instances: [`instance_view`](core_dumps::instance_view).
///
/// [How to read definitions](super). The file is [`CoreDumps.antt`](https://github.com/dolzhytik/dolzhytik/blob/main/crates/wasm_custom/specs/CoreDumps.antt).
pub trait core_dumps {
    /// The encoding of such a name: the byte 00, then the name.
    ///
    /// ```text
    /// abbrev pub marked_encoding : List ℕ → List ℕ
    /// marked_encoding n = 0x00 ∷ size_prefixed_encoding n
    /// ```
    ///
    /// Definitions: [`size_prefixed_encoding`](super::base::encodings::size_prefixed_encoding).
    type marked_encoding;
    /// The name of a process, a module or a thread: the byte 00, then a name.
    ///
    /// ```text
    /// abbrev pub marked_name : Format (List ℕ)
    /// marked_name = prefixed (0x00 ∷ []) name
    /// ```
    ///
    /// Definitions: [`Format`](super::base::formats::Format), [`prefixed`](super::base::formats::prefixed), [`name`](super::base::formats::name).
    type marked_name;
    /// The section name `core`.
    ///
    /// ```text
    /// abbrev pub core_name : List ℕ
    /// core_name = codes "core"
    /// ```
    type core_name;
    /// The section of the process, which is its name.
    ///
    /// ```text
    /// abbrev pub core_section : Format (List ℕ)
    /// core_section = named_section core_name marked_name
    /// ```
    ///
    /// Definitions: [`Format`](super::base::formats::Format), [`named_section`](customs::named_section), [`core_name`](core_dumps::core_name), [`marked_name`](core_dumps::marked_name).
    type core_section;
    /// The payload is the byte 00 and this name of the process, which is UTF-8.
    ///
    /// ```text
    /// abbrev pub SaysProcess : List ℕ → List ℕ → Type 0
    /// SaysProcess content n = IsUtf8 n × (content ≡ marked_encoding n)
    /// ```
    ///
    /// Definitions: [`marked_encoding`](core_dumps::marked_encoding).
    type SaysProcess;
    /// The name is well-formed: UTF-8 of at most 2^32 - 1 bytes.
    ///
    /// ```text
    /// abbrev pub IsModule : List ℕ → Type 0
    /// IsModule = IsEncodableName
    /// ```
    ///
    /// Definitions: [`IsEncodableName`](super::base::laws::IsEncodableName).
    type IsModule;
    /// The kind of modules of a core dump.
    ///
    /// ```text
    /// abbrev pub module_items : Kind (List ℕ) (List ℕ)
    /// module_items = record { encoding = marked_encoding; IsWellFormed = IsModule;
    ///     IsWellFormedPadded = IsModule; normal_form = λ n. n; format = marked_name }
    /// ```
    ///
    /// Definitions: [`Kind`](super::base::entries::Kind), [`marked_encoding`](core_dumps::marked_encoding), [`IsModule`](core_dumps::IsModule), [`marked_name`](core_dumps::marked_name).
    type module_items;
    /// The section name `coremodules`.
    ///
    /// ```text
    /// abbrev pub modules_name : List ℕ
    /// modules_name = codes "coremodules"
    /// ```
    type modules_name;
    /// An instance: the index of its module, its memories and its globals.
    ///
    /// ```text
    /// pub record Instance : Type 0 where
    ///   pub module_index : ℕ
    ///   pub memories : List ℕ
    ///   pub globals : List ℕ
    /// ```
    type Instance;
    /// The encoding of an instance: the byte 00, the index of its module, and the vectors of its memories and globals.
    ///
    /// ```text
    /// abbrev pub instance_encoding : Instance → List ℕ
    /// instance_encoding i = (0x00 ∷ unsigned_encoding i.module_index)
    ///     ++ (vec_encoding unsigned_encoding i.memories
    ///     ++ vec_encoding unsigned_encoding i.globals)
    /// ```
    ///
    /// Definitions: [`Instance`](core_dumps::Instance), [`unsigned_encoding`](super::base::numbers::unsigned_encoding), [`vec_encoding`](super::base::encodings::vec_encoding).
    type instance_encoding;
    /// The instance is well-formed: its numbers are in range, and its lists have at most 2^32 - 1 members.
    ///
    /// ```text
    /// pub record IsInstance (i : Instance) : Type 0 where
    ///   pub module_index : i.module_index < 2 ^ 32
    ///   pub memories : IsEncodableVec (IsUnsignedInRange 32) i.memories
    ///   pub globals : IsEncodableVec (IsUnsignedInRange 32) i.globals
    /// ```
    ///
    /// Definitions: [`Instance`](core_dumps::Instance), [`IsEncodableVec`](super::base::encodings::IsEncodableVec), [`IsUnsignedInRange`](super::base::laws::IsUnsignedInRange).
    type IsInstance;
    /// The instance of this module, these memories and these globals.
    ///
    /// ```text
    /// abbrev pub instance_of : ℕ × (List ℕ × List ℕ) → Instance
    /// instance_of parts = record
    ///     { module_index = parts.0; memories = parts.1.0; globals = parts.1.1 }
    /// ```
    ///
    /// Definitions: [`Instance`](core_dumps::Instance).
    type instance_of;
    /// An instance: the byte 00, the index of its module, a vector of memories, and a vector of globals.
    ///
    /// ```text
    /// abbrev pub instance : Format Instance
    /// instance = mapped instance_of
    ///     (prefixed (0x00 ∷ []) (pair u32 (pair (vec u32) (vec u32))))
    /// ```
    ///
    /// Definitions: [`Format`](super::base::formats::Format), [`Instance`](core_dumps::Instance), [`mapped`](super::base::formats::mapped), [`instance_of`](core_dumps::instance_of), [`prefixed`](super::base::formats::prefixed), [`pair`](super::base::formats::pair), [`u32`](super::base::formats::u32), [`vec`](super::base::formats::vec).
    type instance;
    /// The kind of instances of a core dump.
    ///
    /// ```text
    /// abbrev pub instance_items : Kind Instance Instance
    /// instance_items = record { encoding = instance_encoding; IsWellFormed = IsInstance;
    ///     IsWellFormedPadded = IsInstance; normal_form = λ instance. instance;
    ///     format = instance }
    /// ```
    ///
    /// Definitions: [`Kind`](super::base::entries::Kind), [`Instance`](core_dumps::Instance), [`instance_encoding`](core_dumps::instance_encoding), [`IsInstance`](core_dumps::IsInstance).
    type instance_items;
    /// The section name `coreinstances`.
    ///
    /// ```text
    /// abbrev pub instances_name : List ℕ
    /// instances_name = codes "coreinstances"
    /// ```
    type instances_name;
    /// The pieces encode these module names.
    ///
    /// ```text
    /// abbrev pub ContainsModules : List (List ℕ) → List (List ℕ) → Type 0
    /// ContainsModules = ContainsItems module_items
    /// ```
    ///
    /// Definitions: [`ContainsItems`](super::base::entries::ContainsItems), [`module_items`](core_dumps::module_items).
    type ContainsModules;
    /// The pieces encode these instances.
    ///
    /// ```text
    /// abbrev pub ContainsInstances : List (List ℕ) → List Instance → Type 0
    /// ContainsInstances = ContainsItems instance_items
    /// ```
    ///
    /// Definitions: [`Instance`](core_dumps::Instance), [`ContainsItems`](super::base::entries::ContainsItems), [`instance_items`](core_dumps::instance_items).
    type ContainsInstances;
    /// The payload of the section of the process: the section name, the byte 00 and the name of the process.
    ///
    /// ```text
    /// abbrev pub core_payload : Format (List ℕ)
    /// core_payload = named_payload core_name marked_name
    /// ```
    ///
    /// Definitions: [`Format`](super::base::formats::Format), [`named_payload`](customs::named_payload), [`core_name`](core_dumps::core_name), [`marked_name`](core_dumps::marked_name).
    type core_payload;
    /// The payload of the section of modules: the section name, and a vector of names, each after the byte 00.
    ///
    /// ```text
    /// abbrev pub modules_payload : Format (List (List ℕ))
    /// modules_payload = counted_payload modules_name marked_name
    /// ```
    ///
    /// Definitions: [`Format`](super::base::formats::Format), [`counted_payload`](entries::counted_payload), [`modules_name`](core_dumps::modules_name), [`marked_name`](core_dumps::marked_name).
    type modules_payload;
    /// The payload of the section of instances: the section name, and a vector of instances.
    ///
    /// ```text
    /// abbrev pub instances_payload : Format (List Instance)
    /// instances_payload = counted_payload instances_name instance
    /// ```
    ///
    /// Definitions: [`Format`](super::base::formats::Format), [`Instance`](core_dumps::Instance), [`counted_payload`](entries::counted_payload), [`instances_name`](core_dumps::instances_name), [`instance`](core_dumps::instance).
    type instances_payload;
    /// The section that decodes to the process of this name.
    ///
    /// ```text
    /// abbrev pub core_decoding : List ℕ → SectionDecoding
    /// core_decoding n = decoding_as core_payload n
    /// ```
    ///
    /// Definitions: [`SectionDecoding`](super::base::modules::SectionDecoding), [`decoding_as`](customs::decoding_as), [`core_payload`](core_dumps::core_payload).
    type core_decoding;
    /// The section that decodes to the modules of these names.
    ///
    /// ```text
    /// abbrev pub modules_decoding : List (List ℕ) → SectionDecoding
    /// modules_decoding names = decoding_as modules_payload names
    /// ```
    ///
    /// Definitions: [`SectionDecoding`](super::base::modules::SectionDecoding), [`decoding_as`](customs::decoding_as), [`modules_payload`](core_dumps::modules_payload).
    type modules_decoding;
    /// The section that decodes to these instances.
    ///
    /// ```text
    /// abbrev pub instances_decoding : List Instance → SectionDecoding
    /// instances_decoding instances = decoding_as instances_payload instances
    /// ```
    ///
    /// Definitions: [`Instance`](core_dumps::Instance), [`SectionDecoding`](super::base::modules::SectionDecoding), [`decoding_as`](customs::decoding_as), [`instances_payload`](core_dumps::instances_payload).
    type instances_decoding;
    /// The view of a decoded instance.
    ///
    /// ```text
    /// abbrev pub instance_view : {A : Type 0} → ℕ × Vec ℕ A × Vec ℕ A → Instance
    /// instance_view i = record
    ///     { module_index = i.0; memories = i.1.items; globals = i.2.items }
    /// ```
    ///
    /// Definitions: [`Instance`](core_dumps::Instance).
    type instance_view;
}

/// The stacks of a core dump, their encoding and their format. Tool conventions, Coredump.
///
/// - The section of a stack: [`stack_payload`](core_stacks::stack_payload), [`stack_decoding`](core_stacks::stack_decoding).
/// - Decoded frames: [`stack_frame_view`](core_stacks::stack_frame_view).
///
/// [How to read definitions](super). The file is [`CoreStacks.antt`](https://github.com/dolzhytik/dolzhytik/blob/main/crates/wasm_custom/specs/CoreStacks.antt).
pub trait core_stacks {
    /// A stack frame: its code location, its locals, and its operand stack.
    ///
    /// ```text
    /// pub record StackFrame : Type 0 where
    ///   pub instance : ℕ
    ///   pub function : ℕ
    ///   pub offset : ℕ
    ///   pub locals : List CoreDumpValue
    ///   pub stack : List CoreDumpValue
    /// ```
    type StackFrame;
    /// The encoding of a stack frame: the byte 00, its code location, and the vectors of its locals and its operand stack.
    ///
    /// ```text
    /// abbrev pub frame_entry : StackFrame → List ℕ
    /// frame_entry f = (0x00 ∷ (unsigned_encoding f.instance
    ///         ++ (unsigned_encoding f.function ++ unsigned_encoding f.offset)))
    ///     ++ (vec_encoding value_encoding f.locals ++ vec_encoding value_encoding f.stack)
    /// ```
    ///
    /// Definitions: [`StackFrame`](core_stacks::StackFrame), [`unsigned_encoding`](super::base::numbers::unsigned_encoding), [`vec_encoding`](super::base::encodings::vec_encoding), [`value_encoding`](core_values::value_encoding).
    type frame_entry;
    /// The stack frame is well-formed: its numbers and values are in range, and its lists have at most 2^32 - 1 members.
    ///
    /// ```text
    /// pub record IsFrame (f : StackFrame) : Type 0 where
    ///   pub instance : f.instance < 2 ^ 32
    ///   pub function : f.function < 2 ^ 32
    ///   pub offset : f.offset < 2 ^ 32
    ///   pub locals : IsEncodableVec IsValue f.locals
    ///   pub stack : IsEncodableVec IsValue f.stack
    /// ```
    ///
    /// Definitions: [`StackFrame`](core_stacks::StackFrame), [`IsEncodableVec`](super::base::encodings::IsEncodableVec), [`IsValue`](core_values::IsValue).
    type IsFrame;
    /// A code location: the instance, the function, and the offset in the function.
    ///
    /// ```text
    /// abbrev pub CodeLocation : Type 0
    /// CodeLocation = ℕ × (ℕ × ℕ)
    /// ```
    type CodeLocation;
    /// The stack frame at this location, with these locals and this operand stack.
    ///
    /// ```text
    /// abbrev pub stack_frame_of
    ///     : CodeLocation × (List CoreDumpValue × List CoreDumpValue) → StackFrame
    /// stack_frame_of p = record
    ///     { instance = p.0.0; function = p.0.1.0; offset = p.0.1.1; locals = p.1.0;
    ///     stack = p.1.1 }
    /// ```
    ///
    /// Definitions: [`CodeLocation`](core_stacks::CodeLocation), [`StackFrame`](core_stacks::StackFrame).
    type stack_frame_of;
    /// A stack frame: the byte 00, its code location, and the vectors of its locals and its operand stack.
    ///
    /// ```text
    /// abbrev pub stack_frame : Format StackFrame
    /// stack_frame = mapped stack_frame_of
    ///     (pair (prefixed (0x00 ∷ []) (pair u32 (pair u32 u32)))
    ///     (pair (vec value) (vec value)))
    /// ```
    ///
    /// Definitions: [`Format`](super::base::formats::Format), [`StackFrame`](core_stacks::StackFrame), [`mapped`](super::base::formats::mapped), [`stack_frame_of`](core_stacks::stack_frame_of), [`pair`](super::base::formats::pair), [`prefixed`](super::base::formats::prefixed), [`u32`](super::base::formats::u32), [`vec`](super::base::formats::vec), [`value`](core_values::value).
    type stack_frame;
    /// The kind of stack frames.
    ///
    /// ```text
    /// abbrev pub frame_items : Kind StackFrame StackFrame
    /// frame_items = record { encoding = frame_entry; IsWellFormed = IsFrame;
    ///     IsWellFormedPadded = IsFrame; normal_form = λ frame. frame; format = stack_frame }
    /// ```
    ///
    /// Definitions: [`Kind`](super::base::entries::Kind), [`StackFrame`](core_stacks::StackFrame), [`frame_entry`](core_stacks::frame_entry), [`IsFrame`](core_stacks::IsFrame), [`stack_frame`](core_stacks::stack_frame).
    type frame_items;
    /// The section name `corestack`.
    ///
    /// ```text
    /// abbrev pub stack_name : List ℕ
    /// stack_name = codes "corestack"
    /// ```
    type stack_name;
    /// The section of a stack: the name of its thread, and its frames.
    ///
    /// ```text
    /// abbrev pub stack_section : Format (List ℕ × List StackFrame)
    /// stack_section = named_section stack_name (pair marked_name (vec stack_frame))
    /// ```
    ///
    /// Definitions: [`Format`](super::base::formats::Format), [`StackFrame`](core_stacks::StackFrame), [`named_section`](customs::named_section), [`stack_name`](core_stacks::stack_name), [`pair`](super::base::formats::pair), [`marked_name`](core_dumps::marked_name), [`vec`](super::base::formats::vec), [`stack_frame`](core_stacks::stack_frame).
    type stack_section;
    /// The front is the byte 00 and this name of the thread, which is UTF-8, and the entries of the store encode these frames.
    ///
    /// ```text
    /// abbrev pub SaysStackIn : {M : Type 0} → StoreModel M → List ℕ → M
    ///     → List ℕ × List StackFrame → Type 0
    /// SaysStackIn model front frames said = IsUtf8 said.0 × (front ≡ marked_encoding said.0)
    ///     × model.holds (λ pieces. ContainsItems frame_items pieces said.1) frames
    /// ```
    ///
    /// Definitions: [`StoreModel`](super::base::stores::StoreModel), [`StackFrame`](core_stacks::StackFrame), [`marked_encoding`](core_dumps::marked_encoding), [`ContainsItems`](super::base::entries::ContainsItems), [`frame_items`](core_stacks::frame_items).
    type SaysStackIn;
    /// [`SaysStackIn`](core_stacks::SaysStackIn) of frames that are a list of pieces.
    ///
    /// ```text
    /// abbrev pub SaysStack : List ℕ → List (List ℕ) → List ℕ × List StackFrame → Type 0
    /// SaysStack front frames said = SaysStackIn pieces_model front frames said
    /// ```
    ///
    /// Definitions: [`StackFrame`](core_stacks::StackFrame), [`SaysStackIn`](core_stacks::SaysStackIn), [`pieces_model`](super::base::stores::pieces_model).
    type SaysStack;
    /// The payload of the section: the section name, the name of the thread after the byte 00, and a vector of frames.
    ///
    /// ```text
    /// abbrev pub stack_payload : Format (List ℕ × List StackFrame)
    /// stack_payload = named_payload stack_name (pair marked_name (vec stack_frame))
    /// ```
    ///
    /// Definitions: [`Format`](super::base::formats::Format), [`StackFrame`](core_stacks::StackFrame), [`named_payload`](customs::named_payload), [`stack_name`](core_stacks::stack_name), [`pair`](super::base::formats::pair), [`marked_name`](core_dumps::marked_name), [`vec`](super::base::formats::vec), [`stack_frame`](core_stacks::stack_frame).
    type stack_payload;
    /// The section that decodes to the stack of the thread of this name, with these frames.
    ///
    /// ```text
    /// abbrev pub stack_decoding : List ℕ → List StackFrame → SectionDecoding
    /// stack_decoding n frames = decoding_as stack_payload (n, frames)
    /// ```
    ///
    /// Definitions: [`StackFrame`](core_stacks::StackFrame), [`SectionDecoding`](super::base::modules::SectionDecoding), [`decoding_as`](customs::decoding_as), [`stack_payload`](core_stacks::stack_payload).
    type stack_decoding;
    /// The view of a decoded stack frame.
    ///
    /// ```text
    /// abbrev pub stack_frame_view : {A : Type 0} → CoreFrame A → StackFrame
    /// stack_frame_view f = record
    ///     { instance = f.instanceidx; function = f.funcidx; offset = f.codeoffset;
    ///     locals = f.locals.items; stack = f.stack.items }
    /// ```
    ///
    /// Definitions: [`StackFrame`](core_stacks::StackFrame).
    type stack_frame_view;
}

/// The values of a core dump, their encoding and their format. Tool conventions, Coredump.
///
/// [How to read definitions](super). The file is [`CoreValues.antt`](https://github.com/dolzhytik/dolzhytik/blob/main/crates/wasm_custom/specs/CoreValues.antt).
pub trait core_values {
    /// The encoding of a value: 01 if it is missing, else the byte of its type and its number. Floats have a fixed length.
    ///
    /// ```text
    /// abbrev pub value_encoding : CoreDumpValue → List ℕ
    /// value_encoding Missing = 0x01 ∷ []
    /// value_encoding (I32 v) = 0x7F ∷ signed_encoding v
    /// value_encoding (I64 v) = 0x7E ∷ signed_encoding v
    /// value_encoding (F32 v) = 0x7D ∷ little_endian_encoding 4 v.bits
    /// value_encoding (F64 v) = 0x7C ∷ little_endian_encoding 8 v.bits
    /// ```
    ///
    /// Definitions: [`signed_encoding`](super::base::numbers::signed_encoding), [`little_endian_encoding`](super::base::encodings::little_endian_encoding).
    type value_encoding;
    /// The value is well-formed: its number is in range.
    ///
    /// ```text
    /// abbrev pub IsValue : CoreDumpValue → Type 0
    /// IsValue Missing = Unit {0}
    /// IsValue (I32 v) = IsSigned32InRange v
    /// IsValue (I64 v) = IsSigned64InRange v
    /// IsValue (F32 v) = v.bits < 256 ^ 4
    /// IsValue (F64 v) = v.bits < 256 ^ 8
    /// ```
    ///
    /// Definitions: [`IsSigned32InRange`](super::base::laws::IsSigned32InRange), [`IsSigned64InRange`](super::base::laws::IsSigned64InRange).
    type IsValue;
    /// The `f32` value with these bits.
    ///
    /// ```text
    /// abbrev pub f32_of : ℕ → CoreDumpValue
    /// f32_of bits = F32 (record { bits = bits })
    /// ```
    type f32_of;
    /// The `f64` value with these bits.
    ///
    /// ```text
    /// abbrev pub f64_of : ℕ → CoreDumpValue
    /// f64_of bits = F64 (record { bits = bits })
    /// ```
    type f64_of;
    /// The formats of a value by its first byte: no bytes after 01, a number after the byte of a type.
    ///
    /// ```text
    /// abbrev pub value_tags : List (ℕ × Format CoreDumpValue)
    /// value_tags = (0x01, fixed [] Missing) ∷ (0x7F, mapped I32 s32) ∷ (0x7E, mapped I64 s64)
    ///     ∷ (0x7D, mapped f32_of (little_endian 4)) ∷ (0x7C, mapped f64_of (little_endian 8))
    ///     ∷ []
    /// ```
    ///
    /// Definitions: [`Format`](super::base::formats::Format), [`fixed`](super::base::formats::fixed), [`mapped`](super::base::formats::mapped), [`s32`](super::base::formats::s32), [`s64`](super::base::formats::s64), [`f32_of`](core_values::f32_of), [`little_endian`](super::base::formats::little_endian), [`f64_of`](core_values::f64_of).
    type value_tags;
    /// A value: 01 if it is missing, or the byte of its type and its number.
    ///
    /// ```text
    /// abbrev pub value : Format CoreDumpValue
    /// value = tagged byte (choice value_tags (λ b. impossible))
    /// ```
    ///
    /// Definitions: [`Format`](super::base::formats::Format), [`tagged`](super::base::formats::tagged), [`byte`](super::base::formats::byte), [`choice`](super::base::formats::choice), [`value_tags`](core_values::value_tags), [`impossible`](super::base::formats::impossible).
    type value;
}

/// Custom sections: a size-prefixed name and data. Core specification, Binary Format, Modules, Custom Section.
///
/// [How to read definitions](super). The file is [`Customs.antt`](https://github.com/dolzhytik/dolzhytik/blob/main/crates/wasm_custom/specs/Customs.antt).
pub trait customs {
    /// The payload of a custom section of this name, whose data encode a value of `F`.
    ///
    /// ```text
    /// abbrev pub named_payload : {X : Type 0} → List ℕ → Format X → Format X
    /// named_payload n F = after n name F
    /// ```
    ///
    /// Definitions: [`Format`](super::base::formats::Format), [`after`](super::base::formats::after), [`name`](super::base::formats::name).
    type named_payload;
    /// The custom section of this name, without its id, whose data encode a value of `F`.
    ///
    /// ```text
    /// abbrev pub named_section : {X : Type 0} → List ℕ → Format X → Format X
    /// named_section n F = size_prefixed (named_payload n F)
    /// ```
    ///
    /// Definitions: [`Format`](super::base::formats::Format), [`size_prefixed`](super::base::formats::size_prefixed), [`named_payload`](customs::named_payload).
    type named_section;
    /// The encoding of the custom section of this name and these data, without its id.
    ///
    /// ```text
    /// unfoldable pub named_encoding : List ℕ → List ℕ → List ℕ
    /// named_encoding n content = size_prefixed_encoding (size_prefixed_encoding n ++ content)
    /// ```
    ///
    /// Definitions: [`size_prefixed_encoding`](super::base::encodings::size_prefixed_encoding).
    type named_encoding;
    /// The size of the custom section is at most 2^32 - 1.
    ///
    /// ```text
    /// abbrev pub IsEncodableNamed : List ℕ → List ℕ → Type 0
    /// IsEncodableNamed n content = HasEncodableSize (size_prefixed_encoding n ++ content)
    /// ```
    ///
    /// Definitions: [`HasEncodableSize`](super::base::encodings::HasEncodableSize), [`size_prefixed_encoding`](super::base::encodings::size_prefixed_encoding).
    type IsEncodableNamed;
    /// The payload of a custom section: its name and its data.
    ///
    /// ```text
    /// abbrev pub NamedPayload : List ℕ → List ℕ → List ℕ → Type 0
    /// NamedPayload n content bytes = bytes ≡ size_prefixed_encoding n ++ content
    /// ```
    ///
    /// Definitions: [`size_prefixed_encoding`](super::base::encodings::size_prefixed_encoding).
    type NamedPayload;
    /// The encoding of a custom section that fits is its size-prefixed payload.
    ///
    /// ```text
    /// pub named_sized : (n content bytes : List ℕ) → IsEncodableNamed n content
    ///     → NamedPayload n content bytes → IsSizePrefixed (named_encoding n content) bytes
    /// unfolding named_encoding
    /// named_sized n content bytes encodable e = record
    ///     { is = ap size_prefixed_encoding (sym e);
    ///     encodable = subst HasEncodableSize (sym e) encodable }
    /// ```
    ///
    /// Definitions: [`IsEncodableNamed`](customs::IsEncodableNamed), [`NamedPayload`](customs::NamedPayload), [`IsSizePrefixed`](super::base::encodings::IsSizePrefixed), [`named_encoding`](customs::named_encoding), [`size_prefixed_encoding`](super::base::encodings::size_prefixed_encoding), [`HasEncodableSize`](super::base::encodings::HasEncodableSize).
    type named_sized;
    /// Whether two sections have the same name and the same data.
    ///
    /// ```text
    /// abbrev pub same_section : {A : Type 0} → CustomSection A → CustomSection A → Bool
    /// same_section s t = bytes_eq (utf8_of s.name) (utf8_of t.name) && bytes_eq
    ///     (items_of s.bytes) (items_of t.bytes)
    /// ```
    ///
    /// Definitions: [`utf8_of`](super::base::cow::utf8_of), [`items_of`](super::base::cow::items_of).
    type same_section;
    /// The encoding of a subsection: an id, then the size-prefixed content.
    ///
    /// ```text
    /// abbrev pub subsection_encoding : ℕ → List ℕ → List ℕ
    /// subsection_encoding id content = id ∷ size_prefixed_encoding content
    /// ```
    ///
    /// Definitions: [`size_prefixed_encoding`](super::base::encodings::size_prefixed_encoding).
    type subsection_encoding;
    /// Whether the name begins with these bytes.
    ///
    /// ```text
    /// abbrev pub begins_with : List ℕ → List ℕ → Bool
    /// begins_with front n = starts_with nat_eq n front
    /// ```
    type begins_with;
    /// The custom section whose payload decodes to `x`.
    ///
    /// ```text
    /// abbrev pub decoding_as : {X : Type 0} → Format X → X → SectionDecoding
    /// decoding_as F x = decoding_of (number_of ids.Custom) F x
    /// ```
    ///
    /// Definitions: [`Format`](super::base::formats::Format), [`SectionDecoding`](super::base::modules::SectionDecoding), [`decoding_of`](super::base::modules::decoding_of), [`number_of`](super::base::section_id::number_of).
    type decoding_as;
    /// The custom section that decodes to this name and these data.
    ///
    /// ```text
    /// abbrev pub custom_decoding : List ℕ → List ℕ → SectionDecoding
    /// custom_decoding n content = decoding_as (pair name any_bytes) (n, content)
    /// ```
    ///
    /// Definitions: [`SectionDecoding`](super::base::modules::SectionDecoding), [`decoding_as`](customs::decoding_as), [`pair`](super::base::formats::pair), [`name`](super::base::formats::name), [`any_bytes`](super::base::formats::any_bytes).
    type custom_decoding;
}

/// The custom sections that refer to debug information elsewhere: a source map, a file of DWARF, and the identity of the build. Tool conventions, Debugging; source maps are those of the specification "Source map format".
///
/// [How to read definitions](super). The file is [`DebugFiles.antt`](https://github.com/dolzhytik/dolzhytik/blob/main/crates/wasm_custom/specs/DebugFiles.antt).
pub trait debug_files {
    /// The section name `sourceMappingURL`.
    ///
    /// ```text
    /// abbrev pub source_map_name : List ℕ
    /// source_map_name = codes "sourceMappingURL"
    /// ```
    type source_map_name;
    /// The section name `external_debug_info`.
    ///
    /// ```text
    /// abbrev pub debug_file_name : List ℕ
    /// debug_file_name = codes "external_debug_info"
    /// ```
    type debug_file_name;
    /// The section name `build_id`.
    ///
    /// ```text
    /// abbrev pub build_id_name : List ℕ
    /// build_id_name = codes "build_id"
    /// ```
    type build_id_name;
    /// The payload of the section of a source map: its name, and the URL as a name.
    ///
    /// ```text
    /// abbrev pub source_map_payload : Format (List ℕ)
    /// source_map_payload = named_payload source_map_name name
    /// ```
    ///
    /// Definitions: [`Format`](super::base::formats::Format), [`named_payload`](customs::named_payload), [`source_map_name`](debug_files::source_map_name), [`name`](super::base::formats::name).
    type source_map_payload;
    /// The payload of the section of a file of debug information: its name, and the path as a name.
    ///
    /// ```text
    /// abbrev pub debug_file_payload : Format (List ℕ)
    /// debug_file_payload = named_payload debug_file_name name
    /// ```
    ///
    /// Definitions: [`Format`](super::base::formats::Format), [`named_payload`](customs::named_payload), [`debug_file_name`](debug_files::debug_file_name), [`name`](super::base::formats::name).
    type debug_file_payload;
    /// The payload of the section of a build's identity: its name, and size-prefixed bytes.
    ///
    /// ```text
    /// abbrev pub build_id_payload : Format (List ℕ)
    /// build_id_payload = named_payload build_id_name (size_prefixed any_bytes)
    /// ```
    ///
    /// Definitions: [`Format`](super::base::formats::Format), [`named_payload`](customs::named_payload), [`build_id_name`](debug_files::build_id_name), [`size_prefixed`](super::base::formats::size_prefixed), [`any_bytes`](super::base::formats::any_bytes).
    type build_id_payload;
    /// The section of a source map, without its id.
    ///
    /// ```text
    /// abbrev pub source_map_section : Format (List ℕ)
    /// source_map_section = named_section source_map_name name
    /// ```
    ///
    /// Definitions: [`Format`](super::base::formats::Format), [`named_section`](customs::named_section), [`source_map_name`](debug_files::source_map_name), [`name`](super::base::formats::name).
    type source_map_section;
    /// The section of a file of debug information, without its id.
    ///
    /// ```text
    /// abbrev pub debug_file_section : Format (List ℕ)
    /// debug_file_section = named_section debug_file_name name
    /// ```
    ///
    /// Definitions: [`Format`](super::base::formats::Format), [`named_section`](customs::named_section), [`debug_file_name`](debug_files::debug_file_name), [`name`](super::base::formats::name).
    type debug_file_section;
    /// The section of a build's identity, without its id.
    ///
    /// ```text
    /// abbrev pub build_id_section : Format (List ℕ)
    /// build_id_section = named_section build_id_name (size_prefixed any_bytes)
    /// ```
    ///
    /// Definitions: [`Format`](super::base::formats::Format), [`named_section`](customs::named_section), [`build_id_name`](debug_files::build_id_name), [`size_prefixed`](super::base::formats::size_prefixed), [`any_bytes`](super::base::formats::any_bytes).
    type build_id_section;
    /// The string in the section is the given one, and is UTF-8.
    ///
    /// ```text
    /// abbrev pub SaysText : List ℕ → List ℕ → Type 0
    /// SaysText given said = IsUtf8 said × (said ≡ given)
    /// ```
    type SaysText;
    /// The section that decodes to the source map at this URL.
    ///
    /// ```text
    /// abbrev pub source_map_decoding : List ℕ → SectionDecoding
    /// source_map_decoding url = decoding_as source_map_payload url
    /// ```
    ///
    /// Definitions: [`SectionDecoding`](super::base::modules::SectionDecoding), [`decoding_as`](customs::decoding_as), [`source_map_payload`](debug_files::source_map_payload).
    type source_map_decoding;
    /// The section that decodes to the file of debug information at this path.
    ///
    /// ```text
    /// abbrev pub debug_file_decoding : List ℕ → SectionDecoding
    /// debug_file_decoding path = decoding_as debug_file_payload path
    /// ```
    ///
    /// Definitions: [`SectionDecoding`](super::base::modules::SectionDecoding), [`decoding_as`](customs::decoding_as), [`debug_file_payload`](debug_files::debug_file_payload).
    type debug_file_decoding;
    /// The section that decodes to the build of this identity.
    ///
    /// ```text
    /// abbrev pub build_id_decoding : List ℕ → SectionDecoding
    /// build_id_decoding id = decoding_as build_id_payload id
    /// ```
    ///
    /// Definitions: [`SectionDecoding`](super::base::modules::SectionDecoding), [`decoding_as`](customs::decoding_as), [`build_id_payload`](debug_files::build_id_payload).
    type build_id_decoding;
}

/// The section of a dynamic library, its encoding and its format. Tool conventions, WebAssembly Dynamic Linking, The "dylink.0" Section.
///
/// - Memory and table: [`needs_encoding`](dylink::needs_encoding), [`AreNeeds`](dylink::AreNeeds), [`needs_of`](dylink::needs_of), [`needs`](dylink::needs).
/// - Names: [`AreNames`](dylink::AreNames).
/// - Exports: [`DylinkExport`](dylink::DylinkExport), [`export_flags_encoding`](dylink::export_flags_encoding), [`IsDylinkExport`](dylink::IsDylinkExport), [`export_flags_of`](dylink::export_flags_of), [`export_flags`](dylink::export_flags), [`AreDylinkExports`](dylink::AreDylinkExports).
/// - Imports: [`DylinkImport`](dylink::DylinkImport), [`import_flags_encoding`](dylink::import_flags_encoding), [`IsDylinkImport`](dylink::IsDylinkImport), [`import_flags_of`](dylink::import_flags_of), [`import_flags`](dylink::import_flags), [`AreDylinkImports`](dylink::AreDylinkImports).
/// - Subsections: [`DylinkItem`](dylink::DylinkItem), [`dylink_encoding`](dylink::dylink_encoding), [`IsDylink`](dylink::IsDylink), [`dylink_tags`](dylink::dylink_tags), [`built_dylink`](dylink::built_dylink), [`other_dylink`](dylink::other_dylink), [`full_dylink`](dylink::full_dylink), [`dylink_item`](dylink::dylink_item), [`dylink_items`](dylink::dylink_items), [`dylink_name`](dylink::dylink_name).
/// - The section of a dynamic library: [`ContainsDylink`](dylink::ContainsDylink), [`dylink_payload`](dylink::dylink_payload), [`dylink_decoding`](dylink::dylink_decoding).
/// - Decoded subsections: [`export_flags_view`](dylink::export_flags_view), [`import_flags_view`](dylink::import_flags_view), [`dylink_view`](dylink::dylink_view).
///
/// [How to read definitions](super). The file is [`Dylink.antt`](https://github.com/dolzhytik/dolzhytik/blob/main/crates/wasm_custom/specs/Dylink.antt).
pub trait dylink {
    /// The encoding of a library's requirements: the size of its memory and the exponent of the memory's alignment, then those of its table.
    ///
    /// ```text
    /// abbrev pub needs_encoding : DylinkMemory → List ℕ
    /// needs_encoding m = (unsigned_encoding m.memory_size
    ///     ++ unsigned_encoding m.memory_alignment)
    ///     ++ (unsigned_encoding m.table_size ++ unsigned_encoding m.table_alignment)
    /// ```
    ///
    /// Definitions: [`unsigned_encoding`](super::base::numbers::unsigned_encoding).
    type needs_encoding;
    /// The sizes and the exponents of the alignments are in range.
    ///
    /// ```text
    /// pub record AreNeeds (m : DylinkMemory) : Type 0 where
    ///   pub memory_size : m.memory_size < 2 ^ 32
    ///   pub memory_alignment : m.memory_alignment < 2 ^ 32
    ///   pub table_size : m.table_size < 2 ^ 32
    ///   pub table_alignment : m.table_alignment < 2 ^ 32
    /// ```
    type AreNeeds;
    /// The memory and the table of these sizes and exponents of alignments.
    ///
    /// ```text
    /// abbrev pub needs_of : (ℕ × ℕ) × (ℕ × ℕ) → DylinkMemory
    /// needs_of p = record { memory_size = p.0.0; memory_alignment = p.0.1; table_size = p.1.0;
    ///     table_alignment = p.1.1 }
    /// ```
    type needs_of;
    /// Sizes and exponents of alignments: of the memory, then of the table.
    ///
    /// ```text
    /// abbrev pub needs : Format DylinkMemory
    /// needs = mapped needs_of (pair (pair u32 u32) (pair u32 u32))
    /// ```
    ///
    /// Definitions: [`Format`](super::base::formats::Format), [`mapped`](super::base::formats::mapped), [`needs_of`](dylink::needs_of), [`pair`](super::base::formats::pair), [`u32`](super::base::formats::u32).
    type needs;
    /// The pieces are the encodings of these names.
    ///
    /// ```text
    /// abbrev pub AreNames : List (List ℕ) → List (List ℕ) → Type 0
    /// AreNames = IsListOf size_prefixed_encoding IsEncodableName
    /// ```
    ///
    /// Definitions: [`IsListOf`](lists::IsListOf), [`size_prefixed_encoding`](super::base::encodings::size_prefixed_encoding), [`IsEncodableName`](super::base::laws::IsEncodableName).
    type AreNames;
    /// Flags of an exported symbol: its name and its flags.
    ///
    /// ```text
    /// pub record DylinkExport : Type 0 where
    ///   pub name : List ℕ
    ///   pub flags : ℕ
    /// ```
    type DylinkExport;
    /// The encoding of the flags of an exported symbol: its name and its flags.
    ///
    /// ```text
    /// abbrev pub export_flags_encoding : DylinkExport → List ℕ
    /// export_flags_encoding e = size_prefixed_encoding e.name ++ unsigned_encoding e.flags
    /// ```
    ///
    /// Definitions: [`DylinkExport`](dylink::DylinkExport), [`size_prefixed_encoding`](super::base::encodings::size_prefixed_encoding), [`unsigned_encoding`](super::base::numbers::unsigned_encoding).
    type export_flags_encoding;
    /// The name is UTF-8 of at most 2^32 - 1 bytes, and the flags are in range.
    ///
    /// ```text
    /// pub record IsDylinkExport (e : DylinkExport) : Type 0 where
    ///   pub name : IsEncodableName e.name
    ///   pub flags : e.flags < 2 ^ 32
    /// ```
    ///
    /// Definitions: [`DylinkExport`](dylink::DylinkExport), [`IsEncodableName`](super::base::laws::IsEncodableName).
    type IsDylinkExport;
    /// The exported symbol of this name and these flags.
    ///
    /// ```text
    /// abbrev pub export_flags_of : List ℕ × ℕ → DylinkExport
    /// export_flags_of p = record { name = p.0; flags = p.1 }
    /// ```
    ///
    /// Definitions: [`DylinkExport`](dylink::DylinkExport).
    type export_flags_of;
    /// Flags of an exported symbol: a name and flags.
    ///
    /// ```text
    /// abbrev pub export_flags : Format DylinkExport
    /// export_flags = mapped export_flags_of (pair name u32)
    /// ```
    ///
    /// Definitions: [`Format`](super::base::formats::Format), [`DylinkExport`](dylink::DylinkExport), [`mapped`](super::base::formats::mapped), [`export_flags_of`](dylink::export_flags_of), [`pair`](super::base::formats::pair), [`name`](super::base::formats::name), [`u32`](super::base::formats::u32).
    type export_flags;
    /// The pieces are the encodings of these exported symbols.
    ///
    /// ```text
    /// abbrev pub AreDylinkExports : List (List ℕ) → List DylinkExport → Type 0
    /// AreDylinkExports = IsListOf export_flags_encoding IsDylinkExport
    /// ```
    ///
    /// Definitions: [`DylinkExport`](dylink::DylinkExport), [`IsListOf`](lists::IsListOf), [`export_flags_encoding`](dylink::export_flags_encoding), [`IsDylinkExport`](dylink::IsDylinkExport).
    type AreDylinkExports;
    /// Flags of an imported symbol: the name of its module, its name and its flags.
    ///
    /// ```text
    /// pub record DylinkImport : Type 0 where
    ///   pub module_name : List ℕ
    ///   pub name : List ℕ
    ///   pub flags : ℕ
    /// ```
    type DylinkImport;
    /// The encoding of the flags of an imported symbol: the name of its module, its name and its flags.
    ///
    /// ```text
    /// abbrev pub import_flags_encoding : DylinkImport → List ℕ
    /// import_flags_encoding i = size_prefixed_encoding i.module_name
    ///     ++ (size_prefixed_encoding i.name ++ unsigned_encoding i.flags)
    /// ```
    ///
    /// Definitions: [`DylinkImport`](dylink::DylinkImport), [`size_prefixed_encoding`](super::base::encodings::size_prefixed_encoding), [`unsigned_encoding`](super::base::numbers::unsigned_encoding).
    type import_flags_encoding;
    /// The names are UTF-8 of at most 2^32 - 1 bytes, and the flags are in range.
    ///
    /// ```text
    /// pub record IsDylinkImport (i : DylinkImport) : Type 0 where
    ///   pub module_name : IsEncodableName i.module_name
    ///   pub name : IsEncodableName i.name
    ///   pub flags : i.flags < 2 ^ 32
    /// ```
    ///
    /// Definitions: [`DylinkImport`](dylink::DylinkImport), [`IsEncodableName`](super::base::laws::IsEncodableName).
    type IsDylinkImport;
    /// The imported symbol of this module, this name and these flags.
    ///
    /// ```text
    /// abbrev pub import_flags_of : List ℕ × (List ℕ × ℕ) → DylinkImport
    /// import_flags_of p = record { module_name = p.0; name = p.1.0; flags = p.1.1 }
    /// ```
    ///
    /// Definitions: [`DylinkImport`](dylink::DylinkImport).
    type import_flags_of;
    /// Flags of an imported symbol: the name of its module, a name and flags.
    ///
    /// ```text
    /// abbrev pub import_flags : Format DylinkImport
    /// import_flags = mapped import_flags_of (pair name (pair name u32))
    /// ```
    ///
    /// Definitions: [`Format`](super::base::formats::Format), [`DylinkImport`](dylink::DylinkImport), [`mapped`](super::base::formats::mapped), [`import_flags_of`](dylink::import_flags_of), [`pair`](super::base::formats::pair), [`name`](super::base::formats::name), [`u32`](super::base::formats::u32).
    type import_flags;
    /// The pieces are the encodings of these imported symbols.
    ///
    /// ```text
    /// abbrev pub AreDylinkImports : List (List ℕ) → List DylinkImport → Type 0
    /// AreDylinkImports = IsListOf import_flags_encoding IsDylinkImport
    /// ```
    ///
    /// Definitions: [`DylinkImport`](dylink::DylinkImport), [`IsListOf`](lists::IsListOf), [`import_flags_encoding`](dylink::import_flags_encoding), [`IsDylinkImport`](dylink::IsDylinkImport).
    type AreDylinkImports;
    /// A subsection: the memory and the table, the libraries that are needed, flags of exports and of imports, the folders in which the loader searches for libraries, or the id and the content of any other subsection.
    ///
    /// ```text
    /// pub data DylinkItem : Type 0 where
    ///   Memory : DylinkMemory → DylinkItem
    ///   Needed : List (List ℕ) → DylinkItem
    ///   ExportFlags : List DylinkExport → DylinkItem
    ///   ImportFlags : List DylinkImport → DylinkItem
    ///   RuntimePath : List (List ℕ) → DylinkItem
    ///   OtherDylink : ℕ → List ℕ → DylinkItem
    /// ```
    ///
    /// Definitions: [`DylinkExport`](dylink::DylinkExport), [`DylinkImport`](dylink::DylinkImport).
    type DylinkItem;
    /// The encoding of a subsection: its id, from 1 for the memory and the table to 5 for folders, and its size-prefixed content.
    ///
    /// ```text
    /// abbrev pub dylink_encoding : DylinkItem → List ℕ
    /// dylink_encoding (Memory m) = subsection_encoding 1 (needs_encoding m)
    /// dylink_encoding (Needed names) = subsection_encoding 2
    ///     (vec_encoding size_prefixed_encoding names)
    /// dylink_encoding (ExportFlags exports) = subsection_encoding 3
    ///     (vec_encoding export_flags_encoding exports)
    /// dylink_encoding (ImportFlags imports) = subsection_encoding 4
    ///     (vec_encoding import_flags_encoding imports)
    /// dylink_encoding (RuntimePath paths) = subsection_encoding 5
    ///     (vec_encoding size_prefixed_encoding paths)
    /// dylink_encoding (OtherDylink id content) = subsection_encoding id content
    /// ```
    ///
    /// Definitions: [`DylinkItem`](dylink::DylinkItem), [`Memory`](dylink::DylinkItem), [`subsection_encoding`](customs::subsection_encoding), [`needs_encoding`](dylink::needs_encoding), [`Needed`](dylink::DylinkItem), [`vec_encoding`](super::base::encodings::vec_encoding), [`size_prefixed_encoding`](super::base::encodings::size_prefixed_encoding), [`ExportFlags`](dylink::DylinkItem), [`export_flags_encoding`](dylink::export_flags_encoding), [`ImportFlags`](dylink::DylinkItem), [`import_flags_encoding`](dylink::import_flags_encoding), [`RuntimePath`](dylink::DylinkItem), [`OtherDylink`](dylink::DylinkItem).
    type dylink_encoding;
    /// The subsection of a `DylinkSection` is well-formed: its items are well-formed, and their number is at most 2^32 - 1. No other subsection is one of a `DylinkSection`.
    ///
    /// ```text
    /// abbrev pub IsDylink : DylinkItem → Type 0
    /// IsDylink (Memory m) = AreNeeds m
    /// IsDylink (Needed names) = IsEncodableVec IsEncodableName names
    /// IsDylink (ExportFlags exports) = IsEncodableVec IsDylinkExport exports
    /// IsDylink (ImportFlags imports) = IsEncodableVec IsDylinkImport imports
    /// IsDylink (RuntimePath paths) = IsEncodableVec IsEncodableName paths
    /// IsDylink (OtherDylink id content) = ⊥
    /// ```
    ///
    /// Definitions: [`DylinkItem`](dylink::DylinkItem), [`Memory`](dylink::DylinkItem), [`AreNeeds`](dylink::AreNeeds), [`Needed`](dylink::DylinkItem), [`IsEncodableVec`](super::base::encodings::IsEncodableVec), [`IsEncodableName`](super::base::laws::IsEncodableName), [`ExportFlags`](dylink::DylinkItem), [`IsDylinkExport`](dylink::IsDylinkExport), [`ImportFlags`](dylink::DylinkItem), [`IsDylinkImport`](dylink::IsDylinkImport), [`RuntimePath`](dylink::DylinkItem), [`OtherDylink`](dylink::DylinkItem).
    type IsDylink;
    /// The formats of a subsection by its id: memory and table after 1, names of libraries after 2, flags of exports after 3, flags of imports after 4, and folders after 5.
    ///
    /// ```text
    /// abbrev pub dylink_tags : List (ℕ × Format DylinkItem)
    /// dylink_tags =
    ///     (1, mapped Memory (size_prefixed needs)) ∷
    ///     (2, mapped Needed (size_prefixed (vec name))) ∷
    ///     (3, mapped ExportFlags (size_prefixed (vec export_flags))) ∷
    ///     (4, mapped ImportFlags (size_prefixed (vec import_flags))) ∷
    ///     (5, mapped RuntimePath (size_prefixed (vec name))) ∷
    ///     []
    /// ```
    ///
    /// Definitions: [`Format`](super::base::formats::Format), [`DylinkItem`](dylink::DylinkItem), [`mapped`](super::base::formats::mapped), [`Memory`](dylink::DylinkItem), [`size_prefixed`](super::base::formats::size_prefixed), [`needs`](dylink::needs), [`Needed`](dylink::DylinkItem), [`vec`](super::base::formats::vec), [`name`](super::base::formats::name), [`ExportFlags`](dylink::DylinkItem), [`export_flags`](dylink::export_flags), [`ImportFlags`](dylink::DylinkItem), [`import_flags`](dylink::import_flags), [`RuntimePath`](dylink::DylinkItem).
    type dylink_tags;
    /// A subsection of the builders' grammar: an id, then its size-prefixed content.
    ///
    /// ```text
    /// abbrev pub built_dylink : Format DylinkItem
    /// built_dylink = tagged byte (choice dylink_tags (λ b. impossible))
    /// ```
    ///
    /// Definitions: [`Format`](super::base::formats::Format), [`DylinkItem`](dylink::DylinkItem), [`tagged`](super::base::formats::tagged), [`byte`](super::base::formats::byte), [`choice`](super::base::formats::choice), [`dylink_tags`](dylink::dylink_tags), [`impossible`](super::base::formats::impossible).
    type built_dylink;
    /// The format of a subsection of any other id: its content is not decoded.
    ///
    /// ```text
    /// abbrev pub other_dylink : ℕ → Format DylinkItem
    /// other_dylink id = mapped (OtherDylink id) (size_prefixed any_bytes)
    /// ```
    ///
    /// Definitions: [`Format`](super::base::formats::Format), [`DylinkItem`](dylink::DylinkItem), [`mapped`](super::base::formats::mapped), [`OtherDylink`](dylink::DylinkItem), [`size_prefixed`](super::base::formats::size_prefixed), [`any_bytes`](super::base::formats::any_bytes).
    type other_dylink;
    /// A subsection of any id: the id, then its size-prefixed content.
    ///
    /// ```text
    /// abbrev pub full_dylink : Format DylinkItem
    /// full_dylink = tagged byte (choice dylink_tags other_dylink)
    /// ```
    ///
    /// Definitions: [`Format`](super::base::formats::Format), [`DylinkItem`](dylink::DylinkItem), [`tagged`](super::base::formats::tagged), [`byte`](super::base::formats::byte), [`choice`](super::base::formats::choice), [`dylink_tags`](dylink::dylink_tags), [`other_dylink`](dylink::other_dylink).
    type full_dylink;
    /// A subsection: in the standard's grammar of any id, and in the builders' of five.
    ///
    /// ```text
    /// abbrev pub dylink_item : Format DylinkItem
    /// dylink_item = by_mode built_dylink full_dylink full_dylink
    /// ```
    ///
    /// Definitions: [`Format`](super::base::formats::Format), [`DylinkItem`](dylink::DylinkItem), [`by_mode`](super::base::formats::by_mode), [`built_dylink`](dylink::built_dylink), [`full_dylink`](dylink::full_dylink).
    type dylink_item;
    /// The kind of subsections.
    ///
    /// ```text
    /// abbrev pub dylink_items : Kind DylinkItem DylinkItem
    /// dylink_items = record { encoding = dylink_encoding; IsWellFormed = IsDylink;
    ///     IsWellFormedPadded = IsDylink; normal_form = λ item. item; format = dylink_item }
    /// ```
    ///
    /// Definitions: [`Kind`](super::base::entries::Kind), [`DylinkItem`](dylink::DylinkItem), [`dylink_encoding`](dylink::dylink_encoding), [`IsDylink`](dylink::IsDylink), [`dylink_item`](dylink::dylink_item).
    type dylink_items;
    /// The section name `dylink.0`.
    ///
    /// ```text
    /// abbrev pub dylink_name : List ℕ
    /// dylink_name = codes "dylink.0"
    /// ```
    type dylink_name;
    /// The pieces encode these subsections.
    ///
    /// ```text
    /// abbrev pub ContainsDylink : List (List ℕ) → List DylinkItem → Type 0
    /// ContainsDylink = ContainsItems dylink_items
    /// ```
    ///
    /// Definitions: [`DylinkItem`](dylink::DylinkItem), [`ContainsItems`](super::base::entries::ContainsItems), [`dylink_items`](dylink::dylink_items).
    type ContainsDylink;
    /// The payload of the section of a dynamic library: its name and its subsections.
    ///
    /// ```text
    /// abbrev pub dylink_payload : Format (List DylinkItem)
    /// dylink_payload = named_payload dylink_name
    ///     (entries (fixed [] (tt {0})) false dylink_item)
    /// ```
    ///
    /// Definitions: [`Format`](super::base::formats::Format), [`DylinkItem`](dylink::DylinkItem), [`named_payload`](customs::named_payload), [`dylink_name`](dylink::dylink_name), [`entries`](entries::entries), [`fixed`](super::base::formats::fixed), [`dylink_item`](dylink::dylink_item).
    type dylink_payload;
    /// The section of a dynamic library that decodes to these subsections.
    ///
    /// ```text
    /// abbrev pub dylink_decoding : List DylinkItem → SectionDecoding
    /// dylink_decoding subsections = decoding_as dylink_payload subsections
    /// ```
    ///
    /// Definitions: [`DylinkItem`](dylink::DylinkItem), [`SectionDecoding`](super::base::modules::SectionDecoding), [`decoding_as`](customs::decoding_as), [`dylink_payload`](dylink::dylink_payload).
    type dylink_decoding;
    /// The view of decoded flags of an exported symbol.
    ///
    /// ```text
    /// abbrev pub export_flags_view : read_export.DylinkExport → DylinkExport
    /// export_flags_view e = record { name = e.name.now; flags = e.flags }
    /// ```
    ///
    /// Definitions: [`DylinkExport`](dylink::DylinkExport).
    type export_flags_view;
    /// The view of decoded flags of an imported symbol.
    ///
    /// ```text
    /// abbrev pub import_flags_view : read_import.DylinkImport → DylinkImport
    /// import_flags_view i = record
    ///     { module_name = i.module_name.now; name = i.name.now; flags = i.flags }
    /// ```
    ///
    /// Definitions: [`DylinkImport`](dylink::DylinkImport).
    type import_flags_view;
    /// The view of a decoded subsection.
    ///
    /// ```text
    /// abbrev pub dylink_view : {A : Type 0} → read.DylinkItem A → DylinkItem
    /// dylink_view (items.Memory m) = Memory m
    /// dylink_view (items.Needed names) = Needed (map (λ n. n.now) names.items)
    /// dylink_view (items.ExportFlags exports) = ExportFlags
    ///     (map export_flags_view exports.items)
    /// dylink_view (items.ImportFlags imports) = ImportFlags
    ///     (map import_flags_view imports.items)
    /// dylink_view (items.RuntimePath paths) = RuntimePath (map (λ n. n.now) paths.items)
    /// dylink_view (items.Other id bytes) = OtherDylink id bytes.now
    /// ```
    ///
    /// Definitions: [`DylinkItem`](dylink::DylinkItem), [`Memory`](dylink::DylinkItem), [`Needed`](dylink::DylinkItem), [`ExportFlags`](dylink::DylinkItem), [`export_flags_view`](dylink::export_flags_view), [`ImportFlags`](dylink::DylinkItem), [`import_flags_view`](dylink::import_flags_view), [`RuntimePath`](dylink::DylinkItem), [`OtherDylink`](dylink::DylinkItem).
    type dylink_view;
}

/// Custom sections whose data are a front and a list of entries.
///
/// [How to read definitions](super). The file is [`Entries.antt`](https://github.com/dolzhytik/dolzhytik/blob/main/crates/wasm_custom/specs/Entries.antt).
pub trait entries {
    /// The encoding of the count, or no bytes if the entries are not counted.
    ///
    /// ```text
    /// abbrev pub count_encoding : Bool → ℕ → List ℕ
    /// count_encoding counted n = cond counted (unsigned_encoding n) []
    /// ```
    ///
    /// Definitions: [`unsigned_encoding`](super::base::numbers::unsigned_encoding).
    type count_encoding;
    /// The data of a section: a front, the number of entries if they are counted, and the entries.
    ///
    /// ```text
    /// abbrev pub joined_data : List ℕ → Bool → Joined → List ℕ
    /// joined_data front counted j = front ++ (count_encoding counted j.number ++ j.content)
    /// ```
    ///
    /// Definitions: [`Joined`](super::base::stores::Joined), [`count_encoding`](entries::count_encoding).
    type joined_data;
    /// [`joined_data`](entries::joined_data) of entries that are a list of pieces.
    ///
    /// ```text
    /// abbrev pub entries_encoding : List ℕ → Bool → List (List ℕ) → List ℕ
    /// entries_encoding front counted pieces = joined_data front counted
    ///     (pieces_model.joins pieces)
    /// ```
    ///
    /// Definitions: [`joined_data`](entries::joined_data), [`pieces_model`](super::base::stores::pieces_model).
    type entries_encoding;
    /// A list of items: a vector if they are counted, or one after another up to the last byte.
    ///
    /// ```text
    /// abbrev pub listing : {Item : Type 0} → Bool → Format Item → Format (List Item)
    /// listing counted F = when counted (vec F) (members F)
    /// ```
    ///
    /// Definitions: [`Format`](super::base::formats::Format), [`when`](super::base::formats::when), [`vec`](super::base::formats::vec), [`members`](super::base::formats::members).
    type listing;
    /// The data of a section of items, after a front that carries no value.
    ///
    /// ```text
    /// abbrev pub entries : {Item : Type 0} → Format (Unit {0}) → Bool → Format Item
    ///     → Format (List Item)
    /// entries front counted F = tagged front (λ u. listing counted F)
    /// ```
    ///
    /// Definitions: [`Format`](super::base::formats::Format), [`tagged`](super::base::formats::tagged), [`listing`](entries::listing).
    type entries;
    /// The payload of a section: this name, and a vector of items.
    ///
    /// ```text
    /// abbrev pub counted_payload : {Item : Type 0} → List ℕ → Format Item → Format (List Item)
    /// counted_payload n F = named_payload n (entries (fixed [] (tt {0})) true F)
    /// ```
    ///
    /// Definitions: [`Format`](super::base::formats::Format), [`named_payload`](customs::named_payload), [`entries`](entries::entries), [`fixed`](super::base::formats::fixed).
    type counted_payload;
    /// The laws of a kind of custom section, in addition to those of its items. Its name is UTF-8, and its front is encoded in an unambiguous format. If items are not counted, none of them is empty.
    ///
    /// ```text
    /// pub record CustomLayoutLaws {Item : Type 0} (F : Format Item) (name front : List ℕ)
    ///     (front_format : Format (Unit {0})) (counted : Bool) : Type 0 where
    ///   pub name_utf8 : IsUtf8 name
    ///   pub front_unique : Unambiguous front_format
    ///   pub front_encodes : front_format minimal front (tt {0})
    ///   pub begins : counted ≡ false → BeginsWith (λ b. Unit {0}) F
    /// ```
    ///
    /// Definitions: [`Format`](super::base::formats::Format), [`Unambiguous`](super::base::decoding::Unambiguous), [`minimal`](super::base::numbers::Mode), [`BeginsWith`](super::base::decoding::BeginsWith).
    type CustomLayoutLaws;
}

/// Branch hints, their encoding and their format. Branch hinting, section `metadata.code.branch_hint`.
///
/// - The section of branch hints: [`ContainsHints`](hints::ContainsHints), [`hints_payload`](hints::hints_payload), [`hints_decoding`](hints::hints_decoding).
/// - Decoded hints: [`hints_view`](hints::hints_view).
///
/// [How to read definitions](super). The file is [`Hints.antt`](https://github.com/dolzhytik/dolzhytik/blob/main/crates/wasm_custom/specs/Hints.antt).
pub trait hints {
    /// The encoding of a branch hint: the offset of the branch, the size 01 of the value, and the value.
    ///
    /// ```text
    /// abbrev pub hint_encoding : BranchHint → List ℕ
    /// hint_encoding h = unsigned_encoding h.branch_func_offset
    ///     ++ (0x01 ∷ unsigned_encoding h.branch_hint_value)
    /// ```
    ///
    /// Definitions: [`unsigned_encoding`](super::base::numbers::unsigned_encoding).
    type hint_encoding;
    /// The branch hint is well-formed: its offset is below 2^32, and its value is below 128, so that it has one byte.
    ///
    /// ```text
    /// pub record IsHint (h : BranchHint) : Type 0 where
    ///   pub offset : h.branch_func_offset < 2 ^ 32
    ///   pub value : h.branch_hint_value < 128
    /// ```
    type IsHint;
    /// A function index, and the hints of the function's branches.
    ///
    /// ```text
    /// abbrev pub Hints : Type 0
    /// Hints = HintsIn BranchHint
    /// ```
    ///
    /// Definitions: [`HintsIn`](code_metadata::HintsIn).
    type Hints;
    /// The branch hint of this offset and this value.
    ///
    /// ```text
    /// abbrev pub hint_of : ℕ × ℕ → BranchHint
    /// hint_of parts = record { branch_func_offset = parts.0; branch_hint_value = parts.1 }
    /// ```
    type hint_of;
    /// A branch hint: an offset, the fixed byte 01, and a byte below 128, the value.
    ///
    /// ```text
    /// abbrev pub hint : Format BranchHint
    /// hint = mapped hint_of (pair u32 (prefixed (0x01 ∷ []) (such (λ b. b < 128) byte)))
    /// ```
    ///
    /// Definitions: [`Format`](super::base::formats::Format), [`mapped`](super::base::formats::mapped), [`hint_of`](hints::hint_of), [`pair`](super::base::formats::pair), [`u32`](super::base::formats::u32), [`prefixed`](super::base::formats::prefixed), [`such`](super::base::formats::such), [`byte`](super::base::formats::byte).
    type hint;
    /// A function's hints: its index, and a vector of branch hints.
    ///
    /// ```text
    /// abbrev pub hints : Format Hints
    /// hints = hints_in hint
    /// ```
    ///
    /// Definitions: [`Format`](super::base::formats::Format), [`Hints`](hints::Hints), [`hints_in`](code_metadata::hints_in), [`hint`](hints::hint).
    type hints;
    /// The kind of functions with their branch hints.
    ///
    /// ```text
    /// abbrev pub hint_items : Kind Hints Hints
    /// hint_items = hints_in_items hint IsHint hint_encoding
    /// ```
    ///
    /// Definitions: [`Kind`](super::base::entries::Kind), [`Hints`](hints::Hints), [`hints_in_items`](code_metadata::hints_in_items), [`hint`](hints::hint), [`IsHint`](hints::IsHint), [`hint_encoding`](hints::hint_encoding).
    type hint_items;
    /// The section name `metadata.code.branch_hint`.
    ///
    /// ```text
    /// abbrev pub hints_name : List ℕ
    /// hints_name = codes "metadata.code.branch_hint"
    /// ```
    type hints_name;
    /// The pieces encode these functions with their hints.
    ///
    /// ```text
    /// abbrev pub ContainsHints : List (List ℕ) → List Hints → Type 0
    /// ContainsHints = ContainsItems hint_items
    /// ```
    ///
    /// Definitions: [`Hints`](hints::Hints), [`ContainsItems`](super::base::entries::ContainsItems), [`hint_items`](hints::hint_items).
    type ContainsHints;
    /// The payload of the section: its name, and a vector of functions with their hints.
    ///
    /// ```text
    /// abbrev pub hints_payload : Format (List Hints)
    /// hints_payload = counted_payload hints_name hints
    /// ```
    ///
    /// Definitions: [`Format`](super::base::formats::Format), [`Hints`](hints::Hints), [`counted_payload`](entries::counted_payload), [`hints_name`](hints::hints_name), [`hints`](hints::hints).
    type hints_payload;
    /// The section that decodes to the branch hints of these functions.
    ///
    /// ```text
    /// abbrev pub hints_decoding : List Hints → SectionDecoding
    /// hints_decoding functions = decoding_as hints_payload functions
    /// ```
    ///
    /// Definitions: [`Hints`](hints::Hints), [`SectionDecoding`](super::base::modules::SectionDecoding), [`decoding_as`](customs::decoding_as), [`hints_payload`](hints::hints_payload).
    type hints_decoding;
    /// The view of a function's decoded hints.
    ///
    /// ```text
    /// abbrev pub hints_view : {A : Type 0} → ℕ × Vec BranchHint A → Hints
    /// hints_view h = (h.0, h.1.items)
    /// ```
    ///
    /// Definitions: [`Hints`](hints::Hints).
    type hints_view;
}

/// The init functions of a linking section, their encoding and their format. Tool conventions, Linking, Linking Metadata Section, `WASM_INIT_FUNCS`.
///
/// [How to read definitions](super). The file is [`InitFunctions.antt`](https://github.com/dolzhytik/dolzhytik/blob/main/crates/wasm_custom/specs/InitFunctions.antt).
pub trait init_functions {
    /// The encoding of an init function: its priority, and the index of its symbol.
    ///
    /// ```text
    /// abbrev pub init_encoding : InitFunction → List ℕ
    /// init_encoding f = unsigned_encoding f.priority ++ unsigned_encoding f.symbol
    /// ```
    ///
    /// Definitions: [`unsigned_encoding`](super::base::numbers::unsigned_encoding).
    type init_encoding;
    /// The numbers of the init function are in range.
    ///
    /// ```text
    /// pub record IsInit (f : InitFunction) : Type 0 where
    ///   pub priority : f.priority < 2 ^ 32
    ///   pub symbol : f.symbol < 2 ^ 32
    /// ```
    type IsInit;
    /// The init function of this priority and this symbol.
    ///
    /// ```text
    /// abbrev pub init_of : ℕ × ℕ → InitFunction
    /// init_of parts = record { priority = parts.0; symbol = parts.1 }
    /// ```
    type init_of;
    /// An init function: a priority, and the index of a symbol.
    ///
    /// ```text
    /// abbrev pub init_function : Format InitFunction
    /// init_function = mapped init_of (pair u32 u32)
    /// ```
    ///
    /// Definitions: [`Format`](super::base::formats::Format), [`mapped`](super::base::formats::mapped), [`init_of`](init_functions::init_of), [`pair`](super::base::formats::pair), [`u32`](super::base::formats::u32).
    type init_function;
    /// The pieces are the encodings of these init functions.
    ///
    /// ```text
    /// abbrev pub AreInits : List (List ℕ) → List InitFunction → Type 0
    /// AreInits = IsListOf init_encoding IsInit
    /// ```
    ///
    /// Definitions: [`IsListOf`](lists::IsListOf), [`init_encoding`](init_functions::init_encoding), [`IsInit`](init_functions::IsInit).
    type AreInits;
}

/// The linking section, its encoding and its format. Tool conventions, Linking, Linking Metadata Section.
///
/// - The linking section: [`ContainsLinks`](linking::ContainsLinks), [`linking_payload`](linking::linking_payload), [`linking_decoding`](linking::linking_decoding).
/// - The linking section of an object file: [`ContainsObjectLinks`](linking::ContainsObjectLinks), [`object_payload`](linking::object_payload), [`object_decoding`](linking::object_decoding).
/// - Decoded subsections: [`link_view`](linking::link_view).
///
/// [How to read definitions](super). The file is [`Linking.antt`](https://github.com/dolzhytik/dolzhytik/blob/main/crates/wasm_custom/specs/Linking.antt).
pub trait linking {
    /// A subsection: segments, init functions, COMDAT groups, a symbol table, the architecture of the target, which is not in the tool conventions, or the id and the content of any other subsection.
    ///
    /// ```text
    /// pub data LinkItem : Type 0 where
    ///   Segments : List SegmentInfo → LinkItem
    ///   InitFunctions : List InitFunction → LinkItem
    ///   Comdats : List Comdat → LinkItem
    ///   Symbols : List Symbol → LinkItem
    ///   Target : List ℕ → LinkItem
    ///   OtherLink : ℕ → List ℕ → LinkItem
    /// ```
    ///
    /// Definitions: [`SegmentInfo`](segments::SegmentInfo), [`Comdat`](comdats::Comdat), [`Symbol`](symbols::Symbol).
    type LinkItem;
    /// The encoding of a subsection: its id, from 5 for segments to 9 for the architecture, and its size-prefixed content.
    ///
    /// ```text
    /// abbrev pub link_encoding : LinkItem → List ℕ
    /// link_encoding (Segments segments) = subsection_encoding 5
    ///     (vec_encoding segment_encoding segments)
    /// link_encoding (InitFunctions functions) = subsection_encoding 6
    ///     (vec_encoding init_encoding functions)
    /// link_encoding (Comdats comdats) = subsection_encoding 7
    ///     (vec_encoding comdat_encoding comdats)
    /// link_encoding (Symbols symbols) = subsection_encoding 8
    ///     (vec_encoding symbol_encoding symbols)
    /// link_encoding (Target n) = subsection_encoding 9 (size_prefixed_encoding n)
    /// link_encoding (OtherLink id content) = subsection_encoding id content
    /// ```
    ///
    /// Definitions: [`LinkItem`](linking::LinkItem), [`Segments`](linking::LinkItem), [`subsection_encoding`](customs::subsection_encoding), [`vec_encoding`](super::base::encodings::vec_encoding), [`segment_encoding`](segments::segment_encoding), [`InitFunctions`](linking::LinkItem), [`init_encoding`](init_functions::init_encoding), [`Comdats`](linking::LinkItem), [`comdat_encoding`](comdats::comdat_encoding), [`Symbols`](linking::LinkItem), [`symbol_encoding`](symbols::symbol_encoding), [`Target`](linking::LinkItem), [`size_prefixed_encoding`](super::base::encodings::size_prefixed_encoding), [`OtherLink`](linking::LinkItem).
    type link_encoding;
    /// The subsection of a `LinkingSection` is well-formed: its symbols are well-formed and their number is at most 2^32 - 1, or its name is UTF-8. No other subsection is one of a `LinkingSection`.
    ///
    /// ```text
    /// abbrev pub IsLink : LinkItem → Type 0
    /// IsLink (Symbols symbols) = IsEncodableVec IsSymbol symbols
    /// IsLink (Target n) = IsUtf8 n
    /// IsLink _ = ⊥
    /// ```
    ///
    /// Definitions: [`LinkItem`](linking::LinkItem), [`Symbols`](linking::LinkItem), [`IsEncodableVec`](super::base::encodings::IsEncodableVec), [`IsSymbol`](symbols::IsSymbol), [`Target`](linking::LinkItem).
    type IsLink;
    /// The subsection of an `ObjectLinking` is well-formed: its items are well-formed and their number is at most 2^32 - 1, or its name is UTF-8. No other subsection is one of an `ObjectLinking`.
    ///
    /// ```text
    /// abbrev pub IsObjectLink : LinkItem → Type 0
    /// IsObjectLink (Segments segments) = IsEncodableVec IsSegment segments
    /// IsObjectLink (InitFunctions functions) = IsEncodableVec IsInit functions
    /// IsObjectLink (Comdats comdats) = IsEncodableVec IsComdat comdats
    /// IsObjectLink (Symbols symbols) = IsEncodableVec IsObjectSymbol symbols
    /// IsObjectLink (Target n) = IsUtf8 n
    /// IsObjectLink (OtherLink id content) = ⊥
    /// ```
    ///
    /// Definitions: [`LinkItem`](linking::LinkItem), [`Segments`](linking::LinkItem), [`IsEncodableVec`](super::base::encodings::IsEncodableVec), [`IsSegment`](segments::IsSegment), [`InitFunctions`](linking::LinkItem), [`IsInit`](init_functions::IsInit), [`Comdats`](linking::LinkItem), [`IsComdat`](comdats::IsComdat), [`Symbols`](linking::LinkItem), [`IsObjectSymbol`](symbols::IsObjectSymbol), [`Target`](linking::LinkItem), [`OtherLink`](linking::LinkItem).
    type IsObjectLink;
    /// The formats of a subsection by its id, as the builders' grammar has them: a symbol table after 8, the name of an architecture after 9.
    ///
    /// ```text
    /// abbrev pub link_tags : List (ℕ × Format LinkItem)
    /// link_tags = (8, mapped Symbols (size_prefixed (vec built_symbol)))
    ///     ∷ (9, mapped Target (size_prefixed name)) ∷ []
    /// ```
    ///
    /// Definitions: [`Format`](super::base::formats::Format), [`LinkItem`](linking::LinkItem), [`mapped`](super::base::formats::mapped), [`Symbols`](linking::LinkItem), [`size_prefixed`](super::base::formats::size_prefixed), [`vec`](super::base::formats::vec), [`built_symbol`](symbols::built_symbol), [`Target`](linking::LinkItem), [`name`](super::base::formats::name).
    type link_tags;
    /// A subsection of the builders' grammar: an id, then its size-prefixed content.
    ///
    /// ```text
    /// abbrev pub built_link : Format LinkItem
    /// built_link = tagged byte (choice link_tags (λ b. impossible))
    /// ```
    ///
    /// Definitions: [`Format`](super::base::formats::Format), [`LinkItem`](linking::LinkItem), [`tagged`](super::base::formats::tagged), [`byte`](super::base::formats::byte), [`choice`](super::base::formats::choice), [`link_tags`](linking::link_tags), [`impossible`](super::base::formats::impossible).
    type built_link;
    /// The formats of a subsection by its id, as the tool conventions have them: segments after 5, init functions after 6, COMDAT groups after 7, a table of symbols of all kinds after 8, and the name of an architecture after 9.
    ///
    /// ```text
    /// abbrev pub full_link_tags : List (ℕ × Format LinkItem)
    /// full_link_tags =
    ///     (5, mapped Segments (size_prefixed (vec segment))) ∷
    ///     (6, mapped InitFunctions (size_prefixed (vec init_function))) ∷
    ///     (7, mapped Comdats (size_prefixed (vec comdat))) ∷
    ///     (8, mapped Symbols (size_prefixed (vec full_symbol))) ∷
    ///     (9, mapped Target (size_prefixed name)) ∷
    ///     []
    /// ```
    ///
    /// Definitions: [`Format`](super::base::formats::Format), [`LinkItem`](linking::LinkItem), [`mapped`](super::base::formats::mapped), [`Segments`](linking::LinkItem), [`size_prefixed`](super::base::formats::size_prefixed), [`vec`](super::base::formats::vec), [`segment`](segments::segment), [`InitFunctions`](linking::LinkItem), [`init_function`](init_functions::init_function), [`Comdats`](linking::LinkItem), [`comdat`](comdats::comdat), [`Symbols`](linking::LinkItem), [`full_symbol`](symbols::full_symbol), [`Target`](linking::LinkItem), [`name`](super::base::formats::name).
    type full_link_tags;
    /// The format of a subsection of any other id: its content is not decoded.
    ///
    /// ```text
    /// abbrev pub other_link : ℕ → Format LinkItem
    /// other_link id = mapped (OtherLink id) (size_prefixed any_bytes)
    /// ```
    ///
    /// Definitions: [`Format`](super::base::formats::Format), [`LinkItem`](linking::LinkItem), [`mapped`](super::base::formats::mapped), [`OtherLink`](linking::LinkItem), [`size_prefixed`](super::base::formats::size_prefixed), [`any_bytes`](super::base::formats::any_bytes).
    type other_link;
    /// A subsection of any kind: an id, then its size-prefixed content.
    ///
    /// ```text
    /// abbrev pub full_link : Format LinkItem
    /// full_link = tagged byte (choice full_link_tags other_link)
    /// ```
    ///
    /// Definitions: [`Format`](super::base::formats::Format), [`LinkItem`](linking::LinkItem), [`tagged`](super::base::formats::tagged), [`byte`](super::base::formats::byte), [`choice`](super::base::formats::choice), [`full_link_tags`](linking::full_link_tags), [`other_link`](linking::other_link).
    type full_link;
    /// A subsection: in the standard's grammar of any kind, and in the builders' of two kinds.
    ///
    /// ```text
    /// abbrev pub link : Format LinkItem
    /// link = by_mode built_link full_link full_link
    /// ```
    ///
    /// Definitions: [`Format`](super::base::formats::Format), [`LinkItem`](linking::LinkItem), [`by_mode`](super::base::formats::by_mode), [`built_link`](linking::built_link), [`full_link`](linking::full_link).
    type link;
    /// The kind of subsections of a linking section.
    ///
    /// ```text
    /// abbrev pub link_items : Kind LinkItem LinkItem
    /// link_items = record { encoding = link_encoding; IsWellFormed = IsLink;
    ///     IsWellFormedPadded = IsLink; normal_form = λ item. item; format = link }
    /// ```
    ///
    /// Definitions: [`Kind`](super::base::entries::Kind), [`LinkItem`](linking::LinkItem), [`link_encoding`](linking::link_encoding), [`IsLink`](linking::IsLink), [`link`](linking::link).
    type link_items;
    /// The kind of subsections of the linking section of an object file: all those of the tool conventions.
    ///
    /// ```text
    /// abbrev pub object_items : Kind LinkItem LinkItem
    /// object_items = record { encoding = link_encoding; IsWellFormed = IsObjectLink;
    ///     IsWellFormedPadded = IsObjectLink; normal_form = λ item. item; format = full_link }
    /// ```
    ///
    /// Definitions: [`Kind`](super::base::entries::Kind), [`LinkItem`](linking::LinkItem), [`link_encoding`](linking::link_encoding), [`IsObjectLink`](linking::IsObjectLink), [`full_link`](linking::full_link).
    type object_items;
    /// The section name `linking`.
    ///
    /// ```text
    /// abbrev pub linking_name : List ℕ
    /// linking_name = codes "linking"
    /// ```
    type linking_name;
    /// The version before the subsections of a linking section.
    ///
    /// ```text
    /// abbrev pub version : ℕ
    /// version = 2
    /// ```
    type version;
    /// The pieces encode these subsections.
    ///
    /// ```text
    /// abbrev pub ContainsLinks : List (List ℕ) → List LinkItem → Type 0
    /// ContainsLinks = ContainsItems link_items
    /// ```
    ///
    /// Definitions: [`LinkItem`](linking::LinkItem), [`ContainsItems`](super::base::entries::ContainsItems), [`link_items`](linking::link_items).
    type ContainsLinks;
    /// The payload of a linking section: its name, the version and its subsections.
    ///
    /// ```text
    /// abbrev pub linking_payload : Format (List LinkItem)
    /// linking_payload = named_payload linking_name (entries (just version u32) false link)
    /// ```
    ///
    /// Definitions: [`Format`](super::base::formats::Format), [`LinkItem`](linking::LinkItem), [`named_payload`](customs::named_payload), [`linking_name`](linking::linking_name), [`entries`](entries::entries), [`just`](super::base::formats::just), [`version`](linking::version), [`u32`](super::base::formats::u32), [`link`](linking::link).
    type linking_payload;
    /// The linking section that decodes to these subsections.
    ///
    /// ```text
    /// abbrev pub linking_decoding : List LinkItem → SectionDecoding
    /// linking_decoding subsections = decoding_as linking_payload subsections
    /// ```
    ///
    /// Definitions: [`LinkItem`](linking::LinkItem), [`SectionDecoding`](super::base::modules::SectionDecoding), [`decoding_as`](customs::decoding_as), [`linking_payload`](linking::linking_payload).
    type linking_decoding;
    /// The pieces encode these subsections, of any kinds.
    ///
    /// ```text
    /// abbrev pub ContainsObjectLinks : List (List ℕ) → List LinkItem → Type 0
    /// ContainsObjectLinks = ContainsItems object_items
    /// ```
    ///
    /// Definitions: [`LinkItem`](linking::LinkItem), [`ContainsItems`](super::base::entries::ContainsItems), [`object_items`](linking::object_items).
    type ContainsObjectLinks;
    /// The payload of a linking section of an object file: its name, the version and subsections of any kinds. In the standard's grammar it is that of every linking section.
    ///
    /// ```text
    /// abbrev pub object_payload : Format (List LinkItem)
    /// object_payload = named_payload linking_name (entries (just version u32) false full_link)
    /// ```
    ///
    /// Definitions: [`Format`](super::base::formats::Format), [`LinkItem`](linking::LinkItem), [`named_payload`](customs::named_payload), [`linking_name`](linking::linking_name), [`entries`](entries::entries), [`just`](super::base::formats::just), [`version`](linking::version), [`u32`](super::base::formats::u32), [`full_link`](linking::full_link).
    type object_payload;
    /// The linking section of an object file that decodes to these subsections.
    ///
    /// ```text
    /// abbrev pub object_decoding : List LinkItem → SectionDecoding
    /// object_decoding subsections = decoding_as object_payload subsections
    /// ```
    ///
    /// Definitions: [`LinkItem`](linking::LinkItem), [`SectionDecoding`](super::base::modules::SectionDecoding), [`decoding_as`](customs::decoding_as), [`object_payload`](linking::object_payload).
    type object_decoding;
    /// The view of a decoded subsection.
    ///
    /// ```text
    /// abbrev pub link_view : {A : Type 0} → read.LinkItem A → LinkItem
    /// link_view (items.Segments segments) = Segments (map segment_view segments.items)
    /// link_view (items.InitFunctions functions) = InitFunctions functions.items
    /// link_view (items.Comdats comdats) = Comdats (map comdat_view comdats.items)
    /// link_view (items.Symbols symbols) = Symbols (map symbol_view symbols.items)
    /// link_view (items.Arch n) = Target n.now
    /// link_view (items.Other id bytes) = OtherLink id bytes.now
    /// ```
    ///
    /// Definitions: [`LinkItem`](linking::LinkItem), [`Segments`](linking::LinkItem), [`segment_view`](segments::segment_view), [`InitFunctions`](linking::LinkItem), [`Comdats`](linking::LinkItem), [`comdat_view`](comdats::comdat_view), [`Symbols`](linking::LinkItem), [`symbol_view`](symbols::symbol_view), [`Target`](linking::LinkItem), [`OtherLink`](linking::LinkItem).
    type link_view;
}

/// Lists that a caller passes as one argument: name maps and symbol tables, say.
///
/// [How to read definitions](super). The file is [`Lists.antt`](https://github.com/dolzhytik/dolzhytik/blob/main/crates/wasm_custom/specs/Lists.antt).
pub trait lists {
    /// The encoding of a list's entries as a vector: their count, then the entries.
    ///
    /// ```text
    /// unfoldable pub list_encoding : Joined → List ℕ
    /// list_encoding j = joined_payload j
    /// ```
    ///
    /// Definitions: [`Joined`](super::base::stores::Joined), [`joined_payload`](super::base::stores::joined_payload).
    type list_encoding;
    /// The encoding of a list: the vector of its entries, by itself or as a subsection of this id.
    ///
    /// ```text
    /// abbrev pub listed_encoding : Option ℕ → Joined → List ℕ
    /// listed_encoding None j = list_encoding j
    /// listed_encoding (Some id) j = subsection_encoding id (list_encoding j)
    /// ```
    ///
    /// Definitions: [`Joined`](super::base::stores::Joined), [`list_encoding`](lists::list_encoding), [`subsection_encoding`](customs::subsection_encoding).
    type listed_encoding;
    /// The size of a subsection is at most 2^32 - 1. A list by itself always fits.
    ///
    /// ```text
    /// abbrev pub IsEncodableList : Option ℕ → Joined → Type 0
    /// IsEncodableList None j = ⊤
    /// IsEncodableList (Some id) j = HasEncodableSize (list_encoding j) × ⊤
    /// ```
    ///
    /// Definitions: [`Joined`](super::base::stores::Joined), [`HasEncodableSize`](super::base::encodings::HasEncodableSize), [`list_encoding`](lists::list_encoding).
    type IsEncodableList;
    /// The pieces are the encodings of these members, one each. There are at most 2^32 - 1 members, and each has the property.
    ///
    /// ```text
    /// pub record IsListOf {X : Type 0} (encoding : X → List ℕ) (Is : X → Type 0)
    ///     (pieces : List (List ℕ)) (xs : List X) : Type 0 where
    ///   pub held : pieces ≡ map encoding xs
    ///   pub encodable : IsEncodableVec Is xs
    /// ```
    ///
    /// Definitions: [`IsEncodableVec`](super::base::encodings::IsEncodableVec).
    type IsListOf;
    /// The pieces are the encodings of some members with the property.
    ///
    /// ```text
    /// pub record ContainsList {X : Type 0} (encoding : X → List ℕ) (Is : X → Type 0)
    ///     (pieces : List (List ℕ)) : Type 0 where
    ///   pub list : List X
    ///   pub is : IsListOf encoding Is pieces list
    /// ```
    ///
    /// Definitions: [`IsListOf`](lists::IsListOf).
    type ContainsList;
    /// The bytes are the encoding of some member with the property.
    ///
    /// ```text
    /// pub record IsEncodingOf {X : Type 0} (encoding : X → List ℕ) (Is : X → Type 0)
    ///     (piece : List ℕ) : Type 0 where
    ///   pub member : X
    ///   pub is : piece ≡ encoding member
    ///   pub encodable : Is member
    /// ```
    type IsEncodingOf;
    /// The encoding of a list that holds members is the vector of these members.
    ///
    /// ```text
    /// pub record IsVectorOf {X : Type 0} (encoding : X → List ℕ) (Is : X → Type 0)
    ///     : Type 0 where
    ///   pub is : (j : Joined) (xs : List X) → Cut (λ pieces. IsListOf encoding Is pieces xs) j
    ///       → list_encoding j ≡ vec_encoding encoding xs
    /// ```
    ///
    /// Definitions: [`Joined`](super::base::stores::Joined), [`Cut`](super::base::stores::Cut), [`IsListOf`](lists::IsListOf), [`list_encoding`](lists::list_encoding), [`vec_encoding`](super::base::encodings::vec_encoding).
    type IsVectorOf;
    /// A list without entries holds no members. An entry that is the encoding of a member adds this member, if the list is not full.
    ///
    /// ```text
    /// pub record ListMore {X : Type 0} (encoding : X → List ℕ) (Is : X → Type 0)
    ///     : Type 0 where
    ///   pub none : IsListOf encoding Is [] []
    ///   pub given : (pieces : List (List ℕ)) (xs : List X) (x : X)
    ///       → IsListOf encoding Is pieces xs → length pieces < longest → Is x
    ///       → IsListOf encoding Is (pieces ++ encoding x ∷ []) (xs ++ x ∷ [])
    /// ```
    ///
    /// Definitions: [`IsListOf`](lists::IsListOf), [`longest`](super::base::encodings::longest).
    type ListMore;
    /// The bytes of an optional name that is borrowed.
    ///
    /// ```text
    /// abbrev pub given_name : Option (Bor (List ℕ)) → Option (List ℕ)
    /// given_name None = None
    /// given_name (Some n) = Some n.now
    /// ```
    type given_name;
}

/// The name section, its encoding and its format. Core specification, Appendix, Custom Sections, Name Section.
///
/// - Subsections: [`NameItem`](names::NameItem), [`NameKind`](names::NameKind), [`is_one_of`](names::is_one_of), [`map_ids`](names::map_ids), [`indirect_ids`](names::indirect_ids), [`name_kind_of`](names::name_kind_of), [`after_id`](names::after_id), [`subsection`](names::subsection).
/// - Encodings: [`name_encoding`](names::name_encoding), [`IsName`](names::IsName), [`name_items`](names::name_items), [`name_name`](names::name_name).
/// - The name section: [`AreNamings`](names::AreNamings), [`AreInsides`](names::AreInsides), [`ContainsNames`](names::ContainsNames), [`name_payload`](names::name_payload), [`name_decoding`](names::name_decoding).
/// - Decoded subsections: [`kind_as`](names::kind_as), [`inside`](names::inside), [`names_view`](names::names_view), [`inside_view`](names::inside_view), [`name_item_view`](names::name_item_view), [`id_of`](names::id_of), [`held_by`](names::held_by).
///
/// [How to read definitions](super). The file is [`Names.antt`](https://github.com/dolzhytik/dolzhytik/blob/main/crates/wasm_custom/specs/Names.antt).
pub trait names {
    /// A name association: an index and its name.
    ///
    /// ```text
    /// abbrev pub Naming : Type 0
    /// Naming = ℕ × List ℕ
    /// ```
    type Naming;
    /// An indirect name association: an index, and the name associations of the items in it.
    ///
    /// ```text
    /// abbrev pub Inside : Type 0
    /// Inside = ℕ × List Naming
    /// ```
    ///
    /// Definitions: [`Naming`](names::Naming).
    type Inside;
    /// The encoding of a name association: the index, and the name.
    ///
    /// ```text
    /// abbrev pub naming_encoding : Naming → List ℕ
    /// naming_encoding n = unsigned_encoding n.0 ++ size_prefixed_encoding n.1
    /// ```
    ///
    /// Definitions: [`Naming`](names::Naming), [`unsigned_encoding`](super::base::numbers::unsigned_encoding), [`size_prefixed_encoding`](super::base::encodings::size_prefixed_encoding).
    type naming_encoding;
    /// The encoding of an indirect name association: the index, and a name map.
    ///
    /// ```text
    /// abbrev pub inside_encoding : Inside → List ℕ
    /// inside_encoding i = unsigned_encoding i.0 ++ vec_encoding naming_encoding i.1
    /// ```
    ///
    /// Definitions: [`Inside`](names::Inside), [`unsigned_encoding`](super::base::numbers::unsigned_encoding), [`vec_encoding`](super::base::encodings::vec_encoding), [`naming_encoding`](names::naming_encoding).
    type inside_encoding;
    /// The name association is well-formed: its index is below 2^32, and its name is UTF-8 of at most 2^32 - 1 bytes.
    ///
    /// ```text
    /// abbrev pub IsNaming : Naming → Type 0
    /// IsNaming n = (n.0 < 2 ^ 32) × IsEncodableName n.1
    /// ```
    ///
    /// Definitions: [`Naming`](names::Naming), [`IsEncodableName`](super::base::laws::IsEncodableName).
    type IsNaming;
    /// The indirect name association is well-formed: its index is below 2^32, and its names are well-formed and their number is at most 2^32 - 1.
    ///
    /// ```text
    /// abbrev pub IsInside : Inside → Type 0
    /// IsInside i = (i.0 < 2 ^ 32) × IsEncodableVec IsNaming i.1
    /// ```
    ///
    /// Definitions: [`Inside`](names::Inside), [`IsEncodableVec`](super::base::encodings::IsEncodableVec), [`IsNaming`](names::IsNaming).
    type IsInside;
    /// A name association: an index and a name.
    ///
    /// ```text
    /// abbrev pub naming : Format Naming
    /// naming = pair u32 name
    /// ```
    ///
    /// Definitions: [`Format`](super::base::formats::Format), [`Naming`](names::Naming), [`pair`](super::base::formats::pair), [`u32`](super::base::formats::u32), [`name`](super::base::formats::name).
    type naming;
    /// A name map: a vector of name associations.
    ///
    /// ```text
    /// abbrev pub name_map : Format (List Naming)
    /// name_map = vec naming
    /// ```
    ///
    /// Definitions: [`Format`](super::base::formats::Format), [`Naming`](names::Naming), [`vec`](super::base::formats::vec), [`naming`](names::naming).
    type name_map;
    /// An indirect name map: a vector of indices with a name map each.
    ///
    /// ```text
    /// abbrev pub indirect_map : Format (List Inside)
    /// indirect_map = vec (pair u32 name_map)
    /// ```
    ///
    /// Definitions: [`Format`](super::base::formats::Format), [`Inside`](names::Inside), [`vec`](super::base::formats::vec), [`pair`](super::base::formats::pair), [`u32`](super::base::formats::u32), [`name_map`](names::name_map).
    type indirect_map;
    /// A subsection: the name of the module, a name map or an indirect name map with its id, or the bytes of another id.
    ///
    /// ```text
    /// pub data NameItem : Type 0 where
    ///   Module : List ℕ → NameItem
    ///   Map : ℕ → List Naming → NameItem
    ///   Indirect : ℕ → List Inside → NameItem
    ///   Other : ℕ → List ℕ → NameItem
    /// ```
    ///
    /// Definitions: [`Naming`](names::Naming), [`Inside`](names::Inside).
    type NameItem;
    /// The kind of a subsection's content.
    ///
    /// ```text
    /// pub data NameKind : Type 0 where
    ///   of_module : NameKind
    ///   of_map : NameKind
    ///   of_indirect : NameKind
    ///   of_other : NameKind
    /// ```
    type NameKind;
    /// Whether the id is in the list.
    ///
    /// ```text
    /// abbrev pub is_one_of : List ℕ → ℕ → Bool
    /// is_one_of [] id = false
    /// is_one_of (i ∷ is) id = cond (id == i) true (is_one_of is id)
    /// ```
    type is_one_of;
    /// The ids of name maps: functions, types, tables, memories, globals, elements, data, tags. The core specification has 1, 4 and 11.
    ///
    /// ```text
    /// abbrev pub map_ids : List ℕ
    /// map_ids = 1 ∷ 4 ∷ 5 ∷ 6 ∷ 7 ∷ 8 ∷ 9 ∷ 11 ∷ []
    /// ```
    type map_ids;
    /// The ids of indirect name maps: locals, labels, fields, parameters, parameters of tags. The core specification has 2 and 10.
    ///
    /// ```text
    /// abbrev pub indirect_ids : List ℕ
    /// indirect_ids = 2 ∷ 3 ∷ 10 ∷ 12 ∷ 13 ∷ []
    /// ```
    type indirect_ids;
    /// The kind of the content of a subsection, by its id.
    ///
    /// ```text
    /// abbrev pub name_kind_of : ℕ → NameKind
    /// name_kind_of id = cond (id == 0) of_module
    ///     (cond (is_one_of map_ids id) of_map
    ///     (cond (is_one_of indirect_ids id) of_indirect of_other))
    /// ```
    ///
    /// Definitions: [`NameKind`](names::NameKind), [`of_module`](names::NameKind), [`is_one_of`](names::is_one_of), [`map_ids`](names::map_ids), [`of_map`](names::NameKind), [`indirect_ids`](names::indirect_ids), [`of_indirect`](names::NameKind), [`of_other`](names::NameKind).
    type name_kind_of;
    /// The format of the bytes after the id of a subsection with this kind of content.
    ///
    /// ```text
    /// abbrev pub after_id : NameKind → ℕ → Format NameItem
    /// after_id of_module id = mapped Module (size_prefixed name)
    /// after_id of_map id = mapped (Map id) (size_prefixed name_map)
    /// after_id of_indirect id = mapped (Indirect id) (size_prefixed indirect_map)
    /// after_id of_other id = mapped (Other id) (size_prefixed any_bytes)
    /// ```
    ///
    /// Definitions: [`NameKind`](names::NameKind), [`Format`](super::base::formats::Format), [`NameItem`](names::NameItem), [`of_module`](names::NameKind), [`mapped`](super::base::formats::mapped), [`Module`](names::NameItem), [`size_prefixed`](super::base::formats::size_prefixed), [`name`](super::base::formats::name), [`of_map`](names::NameKind), [`Map`](names::NameItem), [`name_map`](names::name_map), [`of_indirect`](names::NameKind), [`Indirect`](names::NameItem), [`indirect_map`](names::indirect_map), [`of_other`](names::NameKind), [`Other`](names::NameItem), [`any_bytes`](super::base::formats::any_bytes).
    type after_id;
    /// A subsection: an id, then its size-prefixed content.
    ///
    /// ```text
    /// abbrev pub subsection : Format NameItem
    /// subsection = tagged byte (λ id. after_id (name_kind_of id) id)
    /// ```
    ///
    /// Definitions: [`Format`](super::base::formats::Format), [`NameItem`](names::NameItem), [`tagged`](super::base::formats::tagged), [`byte`](super::base::formats::byte), [`after_id`](names::after_id), [`name_kind_of`](names::name_kind_of).
    type subsection;
    /// The encoding of a subsection: its id, then its size-prefixed content.
    ///
    /// ```text
    /// abbrev pub name_encoding : NameItem → List ℕ
    /// name_encoding (Module n) = subsection_encoding 0 (size_prefixed_encoding n)
    /// name_encoding (Map id names) = subsection_encoding id
    ///     (vec_encoding naming_encoding names)
    /// name_encoding (Indirect id names) = subsection_encoding id
    ///     (vec_encoding inside_encoding names)
    /// name_encoding (Other id content) = subsection_encoding id content
    /// ```
    ///
    /// Definitions: [`NameItem`](names::NameItem), [`Module`](names::NameItem), [`subsection_encoding`](customs::subsection_encoding), [`size_prefixed_encoding`](super::base::encodings::size_prefixed_encoding), [`Map`](names::NameItem), [`vec_encoding`](super::base::encodings::vec_encoding), [`naming_encoding`](names::naming_encoding), [`Indirect`](names::NameItem), [`inside_encoding`](names::inside_encoding), [`Other`](names::NameItem).
    type name_encoding;
    /// The subsection is well-formed: its id is one of its kind of content, names are UTF-8, indices are below 2^32, and name maps fit.
    ///
    /// ```text
    /// abbrev pub IsName : NameItem → Type 0
    /// IsName (Module n) = IsUtf8 n
    /// IsName (Map id names) = (name_kind_of id ≡ of_map) × IsEncodableVec IsNaming names
    /// IsName (Indirect id names) = (name_kind_of id ≡ of_indirect)
    ///     × IsEncodableVec IsInside names
    /// IsName (Other id content) = name_kind_of id ≡ of_other
    /// ```
    ///
    /// Definitions: [`NameItem`](names::NameItem), [`Module`](names::NameItem), [`Map`](names::NameItem), [`name_kind_of`](names::name_kind_of), [`of_map`](names::NameKind), [`IsEncodableVec`](super::base::encodings::IsEncodableVec), [`IsNaming`](names::IsNaming), [`Indirect`](names::NameItem), [`of_indirect`](names::NameKind), [`IsInside`](names::IsInside), [`Other`](names::NameItem), [`of_other`](names::NameKind).
    type IsName;
    /// The kind of subsections of a name section.
    ///
    /// ```text
    /// abbrev pub name_items : Kind NameItem NameItem
    /// name_items = record { encoding = name_encoding; IsWellFormed = IsName;
    ///     IsWellFormedPadded = IsName; normal_form = λ item. item; format = subsection }
    /// ```
    ///
    /// Definitions: [`Kind`](super::base::entries::Kind), [`NameItem`](names::NameItem), [`name_encoding`](names::name_encoding), [`IsName`](names::IsName), [`subsection`](names::subsection).
    type name_items;
    /// The section name [`name`](super::base::formats::name).
    ///
    /// ```text
    /// abbrev pub name_name : List ℕ
    /// name_name = codes "name"
    /// ```
    type name_name;
    /// The pieces are the encodings of these name associations.
    ///
    /// ```text
    /// abbrev pub AreNamings : List (List ℕ) → List Naming → Type 0
    /// AreNamings = IsListOf naming_encoding IsNaming
    /// ```
    ///
    /// Definitions: [`Naming`](names::Naming), [`IsListOf`](lists::IsListOf), [`naming_encoding`](names::naming_encoding), [`IsNaming`](names::IsNaming).
    type AreNamings;
    /// The pieces are the encodings of these indices with their name maps.
    ///
    /// ```text
    /// abbrev pub AreInsides : List (List ℕ) → List Inside → Type 0
    /// AreInsides = IsListOf inside_encoding IsInside
    /// ```
    ///
    /// Definitions: [`Inside`](names::Inside), [`IsListOf`](lists::IsListOf), [`inside_encoding`](names::inside_encoding), [`IsInside`](names::IsInside).
    type AreInsides;
    /// The pieces encode these subsections.
    ///
    /// ```text
    /// abbrev pub ContainsNames : List (List ℕ) → List NameItem → Type 0
    /// ContainsNames = ContainsItems name_items
    /// ```
    ///
    /// Definitions: [`NameItem`](names::NameItem), [`ContainsItems`](super::base::entries::ContainsItems), [`name_items`](names::name_items).
    type ContainsNames;
    /// The payload of a name section: its name, and its subsections.
    ///
    /// ```text
    /// abbrev pub name_payload : Format (List NameItem)
    /// name_payload = named_payload name_name (entries (fixed [] (tt {0})) false subsection)
    /// ```
    ///
    /// Definitions: [`Format`](super::base::formats::Format), [`NameItem`](names::NameItem), [`named_payload`](customs::named_payload), [`name_name`](names::name_name), [`entries`](entries::entries), [`fixed`](super::base::formats::fixed), [`subsection`](names::subsection).
    type name_payload;
    /// The name section that decodes to these subsections.
    ///
    /// ```text
    /// abbrev pub name_decoding : List NameItem → SectionDecoding
    /// name_decoding subsections = decoding_as name_payload subsections
    /// ```
    ///
    /// Definitions: [`NameItem`](names::NameItem), [`SectionDecoding`](super::base::modules::SectionDecoding), [`decoding_as`](customs::decoding_as), [`name_payload`](names::name_payload).
    type name_decoding;
    /// The kind of a subsection's content, as the code has it.
    ///
    /// ```text
    /// abbrev pub kind_as : read_kind.NameKind → NameKind
    /// kind_as kinds.Module = of_module
    /// kind_as kinds.Map = of_map
    /// kind_as kinds.Indirect = of_indirect
    /// kind_as kinds.Other = of_other
    /// ```
    ///
    /// Definitions: [`NameKind`](names::NameKind), [`of_module`](names::NameKind), [`of_map`](names::NameKind), [`of_indirect`](names::NameKind), [`of_other`](names::NameKind).
    type kind_as;
    /// The format of a subsection's content of this kind.
    ///
    /// ```text
    /// abbrev pub inside : NameKind → ℕ → Format NameItem
    /// inside of_module id = mapped Module name
    /// inside of_map id = mapped (Map id) name_map
    /// inside of_indirect id = mapped (Indirect id) indirect_map
    /// inside of_other id = mapped (Other id) any_bytes
    /// ```
    ///
    /// Definitions: [`NameKind`](names::NameKind), [`Format`](super::base::formats::Format), [`NameItem`](names::NameItem), [`of_module`](names::NameKind), [`mapped`](super::base::formats::mapped), [`Module`](names::NameItem), [`name`](super::base::formats::name), [`of_map`](names::NameKind), [`Map`](names::NameItem), [`name_map`](names::name_map), [`of_indirect`](names::NameKind), [`Indirect`](names::NameItem), [`indirect_map`](names::indirect_map), [`of_other`](names::NameKind), [`Other`](names::NameItem), [`any_bytes`](super::base::formats::any_bytes).
    type inside;
    /// The view of a decoded name map.
    ///
    /// ```text
    /// abbrev pub names_view : List (ℕ × Bor (List ℕ)) → List Naming
    /// names_view = map (λ n. (n.0, n.1.now))
    /// ```
    ///
    /// Definitions: [`Naming`](names::Naming).
    type names_view;
    /// The view of a decoded indirect name association.
    ///
    /// ```text
    /// abbrev pub inside_view : {A : Type 0} → ℕ × Vec (ℕ × Bor (List ℕ)) A → Inside
    /// inside_view i = (i.0, names_view i.1.items)
    /// ```
    ///
    /// Definitions: [`Inside`](names::Inside), [`names_view`](names::names_view).
    type inside_view;
    /// The view of a decoded subsection.
    ///
    /// ```text
    /// abbrev pub name_item_view : {A : Type 0} → read.NameItem A → NameItem
    /// name_item_view (items.Module n) = Module n.now
    /// name_item_view (items.Map id ns) = Map id (names_view ns.items)
    /// name_item_view (items.Indirect id ms) = Indirect id (map inside_view ms.items)
    /// name_item_view (items.Other id bytes) = Other id bytes.now
    /// ```
    ///
    /// Definitions: [`NameItem`](names::NameItem), [`Module`](names::NameItem), [`Map`](names::NameItem), [`names_view`](names::names_view), [`Indirect`](names::NameItem), [`inside_view`](names::inside_view), [`Other`](names::NameItem).
    type name_item_view;
    /// The id of a subsection.
    ///
    /// ```text
    /// abbrev pub id_of : NameItem → ℕ
    /// id_of (Module n) = 0
    /// id_of (Map id ns) = id
    /// id_of (Indirect id ms) = id
    /// id_of (Other id bytes) = id
    /// ```
    ///
    /// Definitions: [`NameItem`](names::NameItem), [`Module`](names::NameItem), [`Map`](names::NameItem), [`Indirect`](names::NameItem), [`Other`](names::NameItem).
    type id_of;
    /// The kind of a subsection's content.
    ///
    /// ```text
    /// abbrev pub held_by : NameItem → NameKind
    /// held_by (Module n) = of_module
    /// held_by (Map id ns) = of_map
    /// held_by (Indirect id ms) = of_indirect
    /// held_by (Other id bytes) = of_other
    /// ```
    ///
    /// Definitions: [`NameItem`](names::NameItem), [`NameKind`](names::NameKind), [`Module`](names::NameItem), [`of_module`](names::NameKind), [`Map`](names::NameItem), [`of_map`](names::NameKind), [`Indirect`](names::NameItem), [`of_indirect`](names::NameKind), [`Other`](names::NameItem), [`of_other`](names::NameKind).
    type held_by;
}

/// The producers section, its encoding and its format. Tool conventions, Producers Section.
///
/// - The producers section: [`AreProducers`](producers::AreProducers), [`ContainsFields`](producers::ContainsFields), [`producers_payload`](producers::producers_payload), [`producers_decoding`](producers::producers_decoding).
/// - Decoded fields: [`field_view`](producers::field_view).
///
/// [How to read definitions](super). The file is [`Producers.antt`](https://github.com/dolzhytik/dolzhytik/blob/main/crates/wasm_custom/specs/Producers.antt).
pub trait producers {
    /// A versioned name: a name and its version.
    ///
    /// ```text
    /// abbrev pub Producer : Type 0
    /// Producer = List ℕ × List ℕ
    /// ```
    type Producer;
    /// The encoding of a versioned name: the name and the version.
    ///
    /// ```text
    /// abbrev pub producer_encoding : Producer → List ℕ
    /// producer_encoding v = size_prefixed_encoding v.0 ++ size_prefixed_encoding v.1
    /// ```
    ///
    /// Definitions: [`Producer`](producers::Producer), [`size_prefixed_encoding`](super::base::encodings::size_prefixed_encoding).
    type producer_encoding;
    /// The name and the version are UTF-8 of at most 2^32 - 1 bytes.
    ///
    /// ```text
    /// abbrev pub IsProducer : Producer → Type 0
    /// IsProducer v = IsEncodableName v.0 × IsEncodableName v.1
    /// ```
    ///
    /// Definitions: [`Producer`](producers::Producer), [`IsEncodableName`](super::base::laws::IsEncodableName).
    type IsProducer;
    /// A field: its name and its values.
    ///
    /// ```text
    /// abbrev pub Field : Type 0
    /// Field = List ℕ × List Producer
    /// ```
    ///
    /// Definitions: [`Producer`](producers::Producer).
    type Field;
    /// The encoding of a field: its name, and the vector of its values.
    ///
    /// ```text
    /// abbrev pub field_encoding : Field → List ℕ
    /// field_encoding f = size_prefixed_encoding f.0 ++ vec_encoding producer_encoding f.1
    /// ```
    ///
    /// Definitions: [`Field`](producers::Field), [`size_prefixed_encoding`](super::base::encodings::size_prefixed_encoding), [`vec_encoding`](super::base::encodings::vec_encoding), [`producer_encoding`](producers::producer_encoding).
    type field_encoding;
    /// The field is well-formed: names and versions are UTF-8 of at most 2^32 - 1 bytes, and there are at most 2^32 - 1 values.
    ///
    /// ```text
    /// abbrev pub IsField : Field → Type 0
    /// IsField f = IsEncodableName f.0 × IsEncodableVec IsProducer f.1
    /// ```
    ///
    /// Definitions: [`Field`](producers::Field), [`IsEncodableName`](super::base::laws::IsEncodableName), [`IsEncodableVec`](super::base::encodings::IsEncodableVec), [`IsProducer`](producers::IsProducer).
    type IsField;
    /// A versioned name: a name and a version, which is encoded as a name too.
    ///
    /// ```text
    /// abbrev pub producer : Format Producer
    /// producer = pair name name
    /// ```
    ///
    /// Definitions: [`Format`](super::base::formats::Format), [`Producer`](producers::Producer), [`pair`](super::base::formats::pair), [`name`](super::base::formats::name).
    type producer;
    /// A field: a name, and a vector of versioned names.
    ///
    /// ```text
    /// abbrev pub field : Format Field
    /// field = pair name (vec producer)
    /// ```
    ///
    /// Definitions: [`Format`](super::base::formats::Format), [`Field`](producers::Field), [`pair`](super::base::formats::pair), [`name`](super::base::formats::name), [`vec`](super::base::formats::vec), [`producer`](producers::producer).
    type field;
    /// The kind of fields of a producers section.
    ///
    /// ```text
    /// abbrev pub field_items : Kind Field Field
    /// field_items = record { encoding = field_encoding; IsWellFormed = IsField;
    ///     IsWellFormedPadded = IsField; normal_form = λ field. field; format = field }
    /// ```
    ///
    /// Definitions: [`Kind`](super::base::entries::Kind), [`Field`](producers::Field), [`field_encoding`](producers::field_encoding), [`IsField`](producers::IsField).
    type field_items;
    /// The section name `producers`.
    ///
    /// ```text
    /// abbrev pub producers_name : List ℕ
    /// producers_name = codes "producers"
    /// ```
    type producers_name;
    /// The pieces are the encodings of these versioned names.
    ///
    /// ```text
    /// abbrev pub AreProducers : List (List ℕ) → List Producer → Type 0
    /// AreProducers = IsListOf producer_encoding IsProducer
    /// ```
    ///
    /// Definitions: [`Producer`](producers::Producer), [`IsListOf`](lists::IsListOf), [`producer_encoding`](producers::producer_encoding), [`IsProducer`](producers::IsProducer).
    type AreProducers;
    /// The pieces encode these fields.
    ///
    /// ```text
    /// abbrev pub ContainsFields : List (List ℕ) → List Field → Type 0
    /// ContainsFields = ContainsItems field_items
    /// ```
    ///
    /// Definitions: [`Field`](producers::Field), [`ContainsItems`](super::base::entries::ContainsItems), [`field_items`](producers::field_items).
    type ContainsFields;
    /// The payload of a producers section: its name, and a vector of fields.
    ///
    /// ```text
    /// abbrev pub producers_payload : Format (List Field)
    /// producers_payload = counted_payload producers_name field
    /// ```
    ///
    /// Definitions: [`Format`](super::base::formats::Format), [`Field`](producers::Field), [`counted_payload`](entries::counted_payload), [`producers_name`](producers::producers_name), [`field`](producers::field).
    type producers_payload;
    /// The producers section that decodes to these fields.
    ///
    /// ```text
    /// abbrev pub producers_decoding : List Field → SectionDecoding
    /// producers_decoding fields = decoding_as producers_payload fields
    /// ```
    ///
    /// Definitions: [`Field`](producers::Field), [`SectionDecoding`](super::base::modules::SectionDecoding), [`decoding_as`](customs::decoding_as), [`producers_payload`](producers::producers_payload).
    type producers_decoding;
    /// The view of a decoded field.
    ///
    /// ```text
    /// abbrev pub field_view : {A : Type 0}
    ///     → Bor (List ℕ) × Vec (Bor (List ℕ) × Bor (List ℕ)) A → Field
    /// field_view f = (f.0.now, map (λ v. (v.0.now, v.1.now)) f.1.items)
    /// ```
    ///
    /// Definitions: [`Field`](producers::Field).
    type field_view;
}

/// Relocations, their encoding and their format. Tool conventions, Linking, Relocation Sections.
///
/// - Kinds: [`plain_code`](relocations::plain_code), [`addend32_code`](relocations::addend32_code), [`addend64_code`](relocations::addend64_code), [`relocation_code`](relocations::relocation_code), [`kind_of_relocation`](relocations::kind_of_relocation).
/// - Relocations: [`relocation_encoding`](relocations::relocation_encoding), [`IsRelocation`](relocations::IsRelocation), [`plain_of`](relocations::plain_of), [`addend32_of`](relocations::addend32_of), [`addend64_of`](relocations::addend64_of), [`after_kind`](relocations::after_kind), [`relocation`](relocations::relocation), [`relocation_items`](relocations::relocation_items).
/// - The section: [`relocations_prefix`](relocations::relocations_prefix), [`relocations_name`](relocations::relocations_name), [`IsRelocationsName`](relocations::IsRelocationsName), [`Relocations`](relocations::Relocations), [`relocations_payload`](relocations::relocations_payload), [`relocations_decoding`](relocations::relocations_decoding), [`ContainsRelocations`](relocations::ContainsRelocations), [`SaysRelocations`](relocations::SaysRelocations).
///
/// [How to read definitions](super). The file is [`Relocations.antt`](https://github.com/dolzhytik/dolzhytik/blob/main/crates/wasm_custom/specs/Relocations.antt).
pub trait relocations {
    /// The byte of a kind without an addend.
    ///
    /// ```text
    /// abbrev pub plain_code : PlainRelocation → ℕ
    /// plain_code FunctionIndexLeb = 0
    /// plain_code TableIndexSleb = 1
    /// plain_code TableIndexI32 = 2
    /// plain_code TypeIndexLeb = 6
    /// plain_code GlobalIndexLeb = 7
    /// plain_code TagIndexLeb = 10
    /// plain_code TableIndexRelSleb = 12
    /// plain_code GlobalIndexI32 = 13
    /// plain_code TableIndexSleb64 = 18
    /// plain_code TableIndexI64 = 19
    /// plain_code TableNumberLeb = 20
    /// plain_code TableIndexRelSleb64 = 24
    /// plain_code FunctionIndexI32 = 26
    /// ```
    type plain_code;
    /// The byte of a kind with an addend of 32 bits.
    ///
    /// ```text
    /// abbrev pub addend32_code : Addend32Relocation → ℕ
    /// addend32_code MemoryAddrLeb = 3
    /// addend32_code MemoryAddrSleb = 4
    /// addend32_code MemoryAddrI32 = 5
    /// addend32_code FunctionOffsetI32 = 8
    /// addend32_code SectionOffsetI32 = 9
    /// addend32_code MemoryAddrRelSleb = 11
    /// addend32_code MemoryAddrTlsSleb = 21
    /// addend32_code MemoryAddrLocrelI32 = 23
    /// ```
    type addend32_code;
    /// The byte of a kind with an addend of 64 bits.
    ///
    /// ```text
    /// abbrev pub addend64_code : Addend64Relocation → ℕ
    /// addend64_code MemoryAddrLeb64 = 14
    /// addend64_code MemoryAddrSleb64 = 15
    /// addend64_code MemoryAddrI64 = 16
    /// addend64_code MemoryAddrRelSleb64 = 17
    /// addend64_code FunctionOffsetI64 = 22
    /// addend64_code MemoryAddrTlsSleb64 = 25
    /// ```
    type addend64_code;
    /// The byte of a kind.
    ///
    /// ```text
    /// abbrev pub relocation_code : RelocationKind → ℕ
    /// relocation_code (kinds.Plain k) = plain_code k
    /// relocation_code (kinds.Addend32 k) = addend32_code k
    /// relocation_code (kinds.Addend64 k) = addend64_code k
    /// ```
    ///
    /// Definitions: [`plain_code`](relocations::plain_code), [`addend32_code`](relocations::addend32_code), [`addend64_code`](relocations::addend64_code).
    type relocation_code;
    /// The kind of a relocation.
    ///
    /// ```text
    /// abbrev pub kind_of_relocation : Relocation → RelocationKind
    /// kind_of_relocation (Plain k offset index) = kinds.Plain k
    /// kind_of_relocation (Addend32 k offset index addend) = kinds.Addend32 k
    /// kind_of_relocation (Addend64 k offset index addend) = kinds.Addend64 k
    /// ```
    type kind_of_relocation;
    /// The encoding of a relocation: the byte of its kind, its offset, its index, and its addend if the kind has one.
    ///
    /// ```text
    /// abbrev pub relocation_encoding : Relocation → List ℕ
    /// relocation_encoding (Plain k offset index) = plain_code k
    ///     ∷ (unsigned_encoding offset ++ unsigned_encoding index)
    /// relocation_encoding (Addend32 k offset index addend) = addend32_code k
    ///     ∷ ((unsigned_encoding offset ++ unsigned_encoding index) ++ signed_encoding addend)
    /// relocation_encoding (Addend64 k offset index addend) = addend64_code k
    ///     ∷ ((unsigned_encoding offset ++ unsigned_encoding index) ++ signed_encoding addend)
    /// ```
    ///
    /// Definitions: [`plain_code`](relocations::plain_code), [`unsigned_encoding`](super::base::numbers::unsigned_encoding), [`addend32_code`](relocations::addend32_code), [`signed_encoding`](super::base::numbers::signed_encoding), [`addend64_code`](relocations::addend64_code).
    type relocation_encoding;
    /// The relocation is well-formed: its numbers are in range.
    ///
    /// ```text
    /// abbrev pub IsRelocation : Relocation → Type 0
    /// IsRelocation (Plain k offset index) = (offset < 2 ^ 32) × (index < 2 ^ 32)
    /// IsRelocation (Addend32 k offset index addend) = (offset < 2 ^ 32) × (index < 2 ^ 32)
    ///     × IsSigned32InRange addend
    /// IsRelocation (Addend64 k offset index addend) = (offset < 2 ^ 32) × (index < 2 ^ 32)
    ///     × IsSigned64InRange addend
    /// ```
    ///
    /// Definitions: [`IsSigned32InRange`](super::base::laws::IsSigned32InRange), [`IsSigned64InRange`](super::base::laws::IsSigned64InRange).
    type IsRelocation;
    /// The relocation of this kind, with this offset and index.
    ///
    /// ```text
    /// abbrev pub plain_of : PlainRelocation → ℕ × ℕ → Relocation
    /// plain_of k p = Plain k p.0 p.1
    /// ```
    type plain_of;
    /// The relocation of this kind, with this offset, index and addend of 32 bits.
    ///
    /// ```text
    /// abbrev pub addend32_of : Addend32Relocation → (ℕ × ℕ) × ℤ → Relocation
    /// addend32_of k p = Addend32 k p.0.0 p.0.1 p.1
    /// ```
    type addend32_of;
    /// The relocation of this kind, with this offset, index and addend of 64 bits.
    ///
    /// ```text
    /// abbrev pub addend64_of : Addend64Relocation → (ℕ × ℕ) × ℤ → Relocation
    /// addend64_of k p = Addend64 k p.0.0 p.0.1 p.1
    /// ```
    type addend64_of;
    /// The format of a relocation after the byte of its kind: an offset, an index, and an addend if the kind has one.
    ///
    /// ```text
    /// abbrev pub after_kind : RelocationKind → Format Relocation
    /// after_kind (kinds.Plain k) = mapped (plain_of k) (pair u32 u32)
    /// after_kind (kinds.Addend32 k) = mapped (addend32_of k) (pair (pair u32 u32) s32)
    /// after_kind (kinds.Addend64 k) = mapped (addend64_of k) (pair (pair u32 u32) s64)
    /// ```
    ///
    /// Definitions: [`Format`](super::base::formats::Format), [`mapped`](super::base::formats::mapped), [`plain_of`](relocations::plain_of), [`pair`](super::base::formats::pair), [`u32`](super::base::formats::u32), [`addend32_of`](relocations::addend32_of), [`s32`](super::base::formats::s32), [`addend64_of`](relocations::addend64_of), [`s64`](super::base::formats::s64).
    type after_kind;
    /// A relocation: the byte of its kind, then its fields.
    ///
    /// ```text
    /// abbrev pub relocation : Format Relocation
    /// relocation = tagged (coded relocation_code) after_kind
    /// ```
    ///
    /// Definitions: [`Format`](super::base::formats::Format), [`tagged`](super::base::formats::tagged), [`coded`](super::base::formats::coded), [`relocation_code`](relocations::relocation_code), [`after_kind`](relocations::after_kind).
    type relocation;
    /// The kind of relocations.
    ///
    /// ```text
    /// abbrev pub relocation_items : Kind Relocation Relocation
    /// relocation_items = record
    ///     { encoding = relocation_encoding; IsWellFormed = IsRelocation;
    ///     IsWellFormedPadded = IsRelocation; normal_form = λ relocation. relocation;
    ///     format = relocation }
    /// ```
    ///
    /// Definitions: [`Kind`](super::base::entries::Kind), [`relocation_encoding`](relocations::relocation_encoding), [`IsRelocation`](relocations::IsRelocation).
    type relocation_items;
    /// The bytes that each name of a relocation section begins with.
    ///
    /// ```text
    /// abbrev pub relocations_prefix : List ℕ
    /// relocations_prefix = codes "reloc."
    /// ```
    type relocations_prefix;
    /// The name of the relocation section for a section of this name.
    ///
    /// ```text
    /// abbrev pub relocations_name : List ℕ → List ℕ
    /// relocations_name section_name = relocations_prefix ++ section_name
    /// ```
    ///
    /// Definitions: [`relocations_prefix`](relocations::relocations_prefix).
    type relocations_name;
    /// The name begins with `reloc.`.
    ///
    /// ```text
    /// abbrev pub IsRelocationsName : List ℕ → Type 0
    /// IsRelocationsName n = begins_with relocations_prefix n ≡ true
    /// ```
    ///
    /// Definitions: [`begins_with`](customs::begins_with), [`relocations_prefix`](relocations::relocations_prefix).
    type IsRelocationsName;
    /// The name of the section, the index of the section that is relocated, and the relocations.
    ///
    /// ```text
    /// abbrev pub Relocations : Type 0
    /// Relocations = List ℕ × (ℕ × List Relocation)
    /// ```
    type Relocations;
    /// The payload of a relocation section: a name that begins with `reloc.`, the index of the section that is relocated, and a vector of relocations.
    ///
    /// ```text
    /// abbrev pub relocations_payload : Format Relocations
    /// relocations_payload = pair (such IsRelocationsName name) (pair u32 (vec relocation))
    /// ```
    ///
    /// Definitions: [`Format`](super::base::formats::Format), [`Relocations`](relocations::Relocations), [`pair`](super::base::formats::pair), [`such`](super::base::formats::such), [`IsRelocationsName`](relocations::IsRelocationsName), [`name`](super::base::formats::name), [`u32`](super::base::formats::u32), [`vec`](super::base::formats::vec), [`relocation`](relocations::relocation).
    type relocations_payload;
    /// The section that decodes to these relocations.
    ///
    /// ```text
    /// abbrev pub relocations_decoding : Relocations → SectionDecoding
    /// relocations_decoding said = decoding_as relocations_payload said
    /// ```
    ///
    /// Definitions: [`Relocations`](relocations::Relocations), [`SectionDecoding`](super::base::modules::SectionDecoding), [`decoding_as`](customs::decoding_as), [`relocations_payload`](relocations::relocations_payload).
    type relocations_decoding;
    /// The pieces encode these relocations.
    ///
    /// ```text
    /// abbrev pub ContainsRelocations : List (List ℕ) → List Relocation → Type 0
    /// ContainsRelocations = ContainsItems relocation_items
    /// ```
    ///
    /// Definitions: [`ContainsItems`](super::base::entries::ContainsItems), [`relocation_items`](relocations::relocation_items).
    type ContainsRelocations;
    /// The name is that of the section, which is UTF-8 and begins with `reloc.`; the front is the encoding of the section index, which is below 2^32; and the pieces encode the relocations.
    ///
    /// ```text
    /// pub record SaysRelocations (n front : List ℕ) (pieces : List (List ℕ))
    ///     (said : Relocations) : Type 0 where
    ///   pub named : n ≡ said.0
    ///   pub utf8 : IsUtf8 said.0
    ///   pub begins : IsRelocationsName said.0
    ///   pub section : front ≡ unsigned_encoding said.1.0
    ///   pub range : said.1.0 < 2 ^ 32
    ///   pub contains : ContainsRelocations pieces said.1.1
    /// ```
    ///
    /// Definitions: [`Relocations`](relocations::Relocations), [`IsRelocationsName`](relocations::IsRelocationsName), [`unsigned_encoding`](super::base::numbers::unsigned_encoding), [`ContainsRelocations`](relocations::ContainsRelocations).
    type SaysRelocations;
}

/// The segment information of a linking section, its encoding and its format. Tool conventions, Linking, Linking Metadata Section, `WASM_SEGMENT_INFO`.
///
/// [How to read definitions](super). The file is [`Segments.antt`](https://github.com/dolzhytik/dolzhytik/blob/main/crates/wasm_custom/specs/Segments.antt).
pub trait segments {
    /// A data segment: its name, the exponent of its alignment, and its flags.
    ///
    /// ```text
    /// pub record SegmentInfo : Type 0 where
    ///   pub name : List ℕ
    ///   pub alignment : ℕ
    ///   pub flags : ℕ
    /// ```
    type SegmentInfo;
    /// The encoding of a segment: its name, the exponent of its alignment, and its flags.
    ///
    /// ```text
    /// abbrev pub segment_encoding : SegmentInfo → List ℕ
    /// segment_encoding s = size_prefixed_encoding s.name
    ///     ++ (unsigned_encoding s.alignment ++ unsigned_encoding s.flags)
    /// ```
    ///
    /// Definitions: [`SegmentInfo`](segments::SegmentInfo), [`size_prefixed_encoding`](super::base::encodings::size_prefixed_encoding), [`unsigned_encoding`](super::base::numbers::unsigned_encoding).
    type segment_encoding;
    /// The segment is well-formed: its name is UTF-8 of at most 2^32 - 1 bytes, and its numbers are in range.
    ///
    /// ```text
    /// pub record IsSegment (s : SegmentInfo) : Type 0 where
    ///   pub name : IsEncodableName s.name
    ///   pub alignment : s.alignment < 2 ^ 32
    ///   pub flags : s.flags < 2 ^ 32
    /// ```
    ///
    /// Definitions: [`SegmentInfo`](segments::SegmentInfo), [`IsEncodableName`](super::base::laws::IsEncodableName).
    type IsSegment;
    /// The segment of this name, this exponent of its alignment, and these flags.
    ///
    /// ```text
    /// abbrev pub segment_of : List ℕ × (ℕ × ℕ) → SegmentInfo
    /// segment_of parts = record { name = parts.0; alignment = parts.1.0; flags = parts.1.1 }
    /// ```
    ///
    /// Definitions: [`SegmentInfo`](segments::SegmentInfo).
    type segment_of;
    /// A segment: a name, the exponent of its alignment, and flags.
    ///
    /// ```text
    /// abbrev pub segment : Format SegmentInfo
    /// segment = mapped segment_of (pair name (pair u32 u32))
    /// ```
    ///
    /// Definitions: [`Format`](super::base::formats::Format), [`SegmentInfo`](segments::SegmentInfo), [`mapped`](super::base::formats::mapped), [`segment_of`](segments::segment_of), [`pair`](super::base::formats::pair), [`name`](super::base::formats::name), [`u32`](super::base::formats::u32).
    type segment;
    /// The pieces are the encodings of these segments.
    ///
    /// ```text
    /// abbrev pub AreSegments : List (List ℕ) → List SegmentInfo → Type 0
    /// AreSegments = IsListOf segment_encoding IsSegment
    /// ```
    ///
    /// Definitions: [`SegmentInfo`](segments::SegmentInfo), [`IsListOf`](lists::IsListOf), [`segment_encoding`](segments::segment_encoding), [`IsSegment`](segments::IsSegment).
    type AreSegments;
    /// The view of a decoded segment.
    ///
    /// ```text
    /// abbrev pub segment_view : read.SegmentInfo → SegmentInfo
    /// segment_view s = record { name = s.name.now; alignment = s.alignment; flags = s.flags }
    /// ```
    ///
    /// Definitions: [`SegmentInfo`](segments::SegmentInfo).
    type segment_view;
}

/// The symbols of a linking section, their encoding and their format. Tool conventions, Linking, Linking Metadata Section.
///
/// - Decoded symbols: [`symbol_view`](symbols::symbol_view).
///
/// [How to read definitions](super). The file is [`Symbols.antt`](https://github.com/dolzhytik/dolzhytik/blob/main/crates/wasm_custom/specs/Symbols.antt).
pub trait symbols {
    /// The byte for the kind of a symbol with an index.
    ///
    /// ```text
    /// abbrev pub kind_code : SymbolKind → ℕ
    /// kind_code Function = 0x00
    /// kind_code Global = 0x02
    /// kind_code Tag = 0x04
    /// kind_code Table = 0x05
    /// ```
    type kind_code;
    /// A symbol: a kind, flags, an index and an optional name; for data, flags, a name and an optional definition; for a section, flags and its index.
    ///
    /// ```text
    /// pub data Symbol : Type 0 where
    ///   indexed : SymbolKind → ℕ → ℕ → Option (List ℕ) → Symbol
    ///   of_data : ℕ → List ℕ → Option DataSymbolDefinition → Symbol
    ///   of_section : ℕ → ℕ → Symbol
    /// ```
    type Symbol;
    /// Whether a symbol with an index has a name: bit 4 (undefined) of its flags is clear, or bit 6 (explicit name) is set.
    ///
    /// ```text
    /// abbrev pub has_name : ℕ → Bool
    /// has_name flags = not (cond (bit 4 flags) (not (bit 6 flags)) false)
    /// ```
    ///
    /// Definitions: [`bit`](super::immediates::immediate_formats::bit).
    type has_name;
    /// Whether a data symbol has a definition: bit 4 (undefined) of its flags is clear.
    ///
    /// ```text
    /// abbrev pub has_definition : ℕ → Bool
    /// has_definition flags = not (bit 4 flags)
    /// ```
    ///
    /// Definitions: [`bit`](super::immediates::immediate_formats::bit).
    type has_definition;
    /// The encoding of a data definition: the index of a data segment, an offset in it, and a size.
    ///
    /// ```text
    /// abbrev pub definition_encoding : DataSymbolDefinition → List ℕ
    /// definition_encoding d = unsigned_encoding d.index
    ///     ++ (unsigned_encoding d.offset ++ unsigned_encoding d.size)
    /// ```
    ///
    /// Definitions: [`unsigned_encoding`](super::base::numbers::unsigned_encoding).
    type definition_encoding;
    /// The encoding of a symbol with an index: its kind, flags and index, and the bytes of its name, if any.
    ///
    /// ```text
    /// abbrev pub indexed_encoding : SymbolKind → ℕ → ℕ → List ℕ → List ℕ
    /// indexed_encoding kind flags index named = kind_code kind
    ///     ∷ (unsigned_encoding flags ++ (unsigned_encoding index ++ named))
    /// ```
    ///
    /// Definitions: [`kind_code`](symbols::kind_code), [`unsigned_encoding`](super::base::numbers::unsigned_encoding).
    type indexed_encoding;
    /// The encoding of a data symbol: 01, its flags, its name, and the bytes of its definition, if any.
    ///
    /// ```text
    /// abbrev pub of_data_encoding : ℕ → List ℕ → List ℕ → List ℕ
    /// of_data_encoding flags n defined = 0x01
    ///     ∷ (unsigned_encoding flags ++ (size_prefixed_encoding n ++ defined))
    /// ```
    ///
    /// Definitions: [`unsigned_encoding`](super::base::numbers::unsigned_encoding), [`size_prefixed_encoding`](super::base::encodings::size_prefixed_encoding).
    type of_data_encoding;
    /// The encoding of a section symbol: 03, its flags, and the index of the section.
    ///
    /// ```text
    /// abbrev pub of_section_encoding : ℕ → ℕ → List ℕ
    /// of_section_encoding flags index = 0x03
    ///     ∷ (unsigned_encoding flags ++ unsigned_encoding index)
    /// ```
    ///
    /// Definitions: [`unsigned_encoding`](super::base::numbers::unsigned_encoding).
    type of_section_encoding;
    /// The encoding of a symbol, with its name or definition if it has one.
    ///
    /// ```text
    /// abbrev pub symbol_encoding : Symbol → List ℕ
    /// symbol_encoding (indexed kind flags index n) = indexed_encoding kind flags index
    ///     (optional_encoding size_prefixed_encoding n)
    /// symbol_encoding (of_data flags n d) = of_data_encoding flags n
    ///     (optional_encoding definition_encoding d)
    /// symbol_encoding (of_section flags index) = of_section_encoding flags index
    /// ```
    ///
    /// Definitions: [`Symbol`](symbols::Symbol), [`indexed`](symbols::Symbol), [`indexed_encoding`](symbols::indexed_encoding), [`optional_encoding`](super::base::encodings::optional_encoding), [`size_prefixed_encoding`](super::base::encodings::size_prefixed_encoding), [`of_data`](symbols::Symbol), [`of_data_encoding`](symbols::of_data_encoding), [`definition_encoding`](symbols::definition_encoding), [`of_section`](symbols::Symbol), [`of_section_encoding`](symbols::of_section_encoding).
    type symbol_encoding;
    /// The numbers of the definition are below 2^32.
    ///
    /// ```text
    /// pub record IsDefinition (d : DataSymbolDefinition) : Type 0 where
    ///   pub index : d.index < 2 ^ 32
    ///   pub offset : d.offset < 2 ^ 32
    ///   pub size : d.size < 2 ^ 32
    /// ```
    type IsDefinition;
    /// The numbers are in range, and a name is UTF-8 of at most 2^32 - 1 bytes.
    ///
    /// ```text
    /// abbrev pub IsFullSymbol : Symbol → Type 0
    /// IsFullSymbol (indexed kind flags index n) = (flags < 2 ^ 32) × (index < 2 ^ 32)
    ///     × IfSome n IsEncodableName
    /// IsFullSymbol (of_data flags n d) = (flags < 2 ^ 32) × IsEncodableName n
    ///     × IfSome d IsDefinition
    /// IsFullSymbol (of_section flags index) = (flags < 2 ^ 32) × (index < 2 ^ 32)
    /// ```
    ///
    /// Definitions: [`Symbol`](symbols::Symbol), [`indexed`](symbols::Symbol), [`IsEncodableName`](super::base::laws::IsEncodableName), [`of_data`](symbols::Symbol), [`IsDefinition`](symbols::IsDefinition), [`of_section`](symbols::Symbol).
    type IsFullSymbol;
    /// The kind is one of the builders' grammar: any but a tag.
    ///
    /// ```text
    /// abbrev pub IsBuiltKind : SymbolKind → Type 0
    /// IsBuiltKind Tag = ⊥
    /// IsBuiltKind _ = Unit {0}
    /// ```
    type IsBuiltKind;
    /// As [`IsFullSymbol`](symbols::IsFullSymbol), for a symbol of a `SymbolTable`, which is neither a tag nor a section.
    ///
    /// ```text
    /// abbrev pub IsGivenSymbol : Symbol → Type 0
    /// IsGivenSymbol (indexed Tag flags index n) = ⊥
    /// IsGivenSymbol (of_section flags index) = ⊥
    /// IsGivenSymbol symbol = IsFullSymbol symbol
    /// ```
    ///
    /// Definitions: [`Symbol`](symbols::Symbol), [`indexed`](symbols::Symbol), [`of_section`](symbols::Symbol), [`IsFullSymbol`](symbols::IsFullSymbol).
    type IsGivenSymbol;
    /// The name, or for data the definition, is there exactly if the flags say so.
    ///
    /// ```text
    /// abbrev pub IsAsFlagged : Symbol → Type 0
    /// IsAsFlagged (indexed kind flags index n) = is_given n ≡ has_name flags
    /// IsAsFlagged (of_data flags n d) = is_given d ≡ has_definition flags
    /// IsAsFlagged (of_section flags index) = Unit {0}
    /// ```
    ///
    /// Definitions: [`Symbol`](symbols::Symbol), [`indexed`](symbols::Symbol), [`is_given`](super::base::formats::is_given), [`has_name`](symbols::has_name), [`of_data`](symbols::Symbol), [`has_definition`](symbols::has_definition), [`of_section`](symbols::Symbol).
    type IsAsFlagged;
    /// The symbol of a `SymbolTable` is well-formed: its numbers and names are valid, and it is as its flags say.
    ///
    /// ```text
    /// abbrev pub IsSymbol : Symbol → Type 0
    /// IsSymbol symbol = IsGivenSymbol symbol × IsAsFlagged symbol
    /// ```
    ///
    /// Definitions: [`Symbol`](symbols::Symbol), [`IsGivenSymbol`](symbols::IsGivenSymbol), [`IsAsFlagged`](symbols::IsAsFlagged).
    type IsSymbol;
    /// The symbol of any kind is well-formed: its numbers and names are valid, and it is as its flags say.
    ///
    /// ```text
    /// abbrev pub IsObjectSymbol : Symbol → Type 0
    /// IsObjectSymbol symbol = IsFullSymbol symbol × IsAsFlagged symbol
    /// ```
    ///
    /// Definitions: [`Symbol`](symbols::Symbol), [`IsFullSymbol`](symbols::IsFullSymbol), [`IsAsFlagged`](symbols::IsAsFlagged).
    type IsObjectSymbol;
    /// The definition in this data segment, at this offset and of this size.
    ///
    /// ```text
    /// abbrev pub definition_of : ℕ × (ℕ × ℕ) → DataSymbolDefinition
    /// definition_of parts = record { index = parts.0; offset = parts.1.0; size = parts.1.1 }
    /// ```
    type definition_of;
    /// A data definition: the index of a data segment, an offset in it, and a size.
    ///
    /// ```text
    /// abbrev pub definition : Format DataSymbolDefinition
    /// definition = mapped definition_of (pair u32 (pair u32 u32))
    /// ```
    ///
    /// Definitions: [`Format`](super::base::formats::Format), [`mapped`](super::base::formats::mapped), [`definition_of`](symbols::definition_of), [`pair`](super::base::formats::pair), [`u32`](super::base::formats::u32).
    type definition;
    /// The symbol of this kind and these flags, an index and an optional name.
    ///
    /// ```text
    /// abbrev pub indexed_of : SymbolKind → ℕ → ℕ × Option (List ℕ) → Symbol
    /// indexed_of kind flags parts = indexed kind flags parts.0 parts.1
    /// ```
    ///
    /// Definitions: [`Symbol`](symbols::Symbol), [`indexed`](symbols::Symbol).
    type indexed_of;
    /// The data symbol of these flags, a name and an optional definition.
    ///
    /// ```text
    /// abbrev pub data_of : ℕ → List ℕ × Option DataSymbolDefinition → Symbol
    /// data_of flags parts = of_data flags parts.0 parts.1
    /// ```
    ///
    /// Definitions: [`Symbol`](symbols::Symbol), [`of_data`](symbols::Symbol).
    type data_of;
    /// The bytes after the kind of a symbol with an index: flags, the index, and a name if the flags say so.
    ///
    /// ```text
    /// abbrev pub indexed_symbol : SymbolKind → Format Symbol
    /// indexed_symbol kind = tagged u32
    ///     (λ flags. mapped (indexed_of kind flags)
    ///     (pair u32 (optional (has_name flags) name)))
    /// ```
    ///
    /// Definitions: [`Format`](super::base::formats::Format), [`Symbol`](symbols::Symbol), [`tagged`](super::base::formats::tagged), [`u32`](super::base::formats::u32), [`mapped`](super::base::formats::mapped), [`indexed_of`](symbols::indexed_of), [`pair`](super::base::formats::pair), [`optional`](super::base::formats::optional), [`has_name`](symbols::has_name), [`name`](super::base::formats::name).
    type indexed_symbol;
    /// The bytes after the kind of a data symbol: flags, a name, and a definition if the flags say so.
    ///
    /// ```text
    /// abbrev pub data_symbol : Format Symbol
    /// data_symbol = tagged u32
    ///     (λ flags. mapped (data_of flags)
    ///     (pair name (optional (has_definition flags) definition)))
    /// ```
    ///
    /// Definitions: [`Format`](super::base::formats::Format), [`Symbol`](symbols::Symbol), [`tagged`](super::base::formats::tagged), [`u32`](super::base::formats::u32), [`mapped`](super::base::formats::mapped), [`data_of`](symbols::data_of), [`pair`](super::base::formats::pair), [`name`](super::base::formats::name), [`optional`](super::base::formats::optional), [`has_definition`](symbols::has_definition), [`definition`](symbols::definition).
    type data_symbol;
    /// The bytes after the kind of a section symbol: flags, and the index of the section.
    ///
    /// ```text
    /// abbrev pub section_symbol : Format Symbol
    /// section_symbol = tagged u32 (λ flags. mapped (of_section flags) u32)
    /// ```
    ///
    /// Definitions: [`Format`](super::base::formats::Format), [`Symbol`](symbols::Symbol), [`tagged`](super::base::formats::tagged), [`u32`](super::base::formats::u32), [`mapped`](super::base::formats::mapped), [`of_section`](symbols::Symbol).
    type section_symbol;
    /// The formats of a symbol by the byte of its kind, as the builders' grammar has them: 00 is a function, 01 data, 02 a global, 05 a table.
    ///
    /// ```text
    /// abbrev pub symbol_tags : List (ℕ × Format Symbol)
    /// symbol_tags = (0x00, indexed_symbol Function) ∷ (0x01, data_symbol)
    ///     ∷ (0x02, indexed_symbol Global) ∷ (0x05, indexed_symbol Table) ∷ []
    /// ```
    ///
    /// Definitions: [`Format`](super::base::formats::Format), [`Symbol`](symbols::Symbol), [`indexed_symbol`](symbols::indexed_symbol), [`data_symbol`](symbols::data_symbol).
    type symbol_tags;
    /// A symbol of the builders' grammar: a kind, flags, and the fields that these select.
    ///
    /// ```text
    /// abbrev pub built_symbol : Format Symbol
    /// built_symbol = tagged byte (choice symbol_tags (λ b. impossible))
    /// ```
    ///
    /// Definitions: [`Format`](super::base::formats::Format), [`Symbol`](symbols::Symbol), [`tagged`](super::base::formats::tagged), [`byte`](super::base::formats::byte), [`choice`](super::base::formats::choice), [`symbol_tags`](symbols::symbol_tags), [`impossible`](super::base::formats::impossible).
    type built_symbol;
    /// The formats of a symbol by the byte of its kind, as the tool conventions have them: 03 is a section, 04 a tag, and the others are those of the builders' grammar.
    ///
    /// ```text
    /// abbrev pub full_symbol_tags : List (ℕ × Format Symbol)
    /// full_symbol_tags = (0x00, indexed_symbol Function) ∷ (0x01, data_symbol)
    ///     ∷ (0x02, indexed_symbol Global) ∷ (0x03, section_symbol)
    ///     ∷ (0x04, indexed_symbol Tag) ∷ (0x05, indexed_symbol Table) ∷ []
    /// ```
    ///
    /// Definitions: [`Format`](super::base::formats::Format), [`Symbol`](symbols::Symbol), [`indexed_symbol`](symbols::indexed_symbol), [`data_symbol`](symbols::data_symbol), [`section_symbol`](symbols::section_symbol).
    type full_symbol_tags;
    /// A symbol of any kind.
    ///
    /// ```text
    /// abbrev pub full_symbol : Format Symbol
    /// full_symbol = tagged byte (choice full_symbol_tags (λ b. impossible))
    /// ```
    ///
    /// Definitions: [`Format`](super::base::formats::Format), [`Symbol`](symbols::Symbol), [`tagged`](super::base::formats::tagged), [`byte`](super::base::formats::byte), [`choice`](super::base::formats::choice), [`full_symbol_tags`](symbols::full_symbol_tags), [`impossible`](super::base::formats::impossible).
    type full_symbol;
    /// A symbol: in the standard's grammar of any kind, and in the builders' of four kinds.
    ///
    /// ```text
    /// abbrev pub symbol : Format Symbol
    /// symbol = by_mode built_symbol full_symbol full_symbol
    /// ```
    ///
    /// Definitions: [`Format`](super::base::formats::Format), [`Symbol`](symbols::Symbol), [`by_mode`](super::base::formats::by_mode), [`built_symbol`](symbols::built_symbol), [`full_symbol`](symbols::full_symbol).
    type symbol;
    /// The pieces are the encodings of these symbols.
    ///
    /// ```text
    /// abbrev pub AreSymbols : List (List ℕ) → List Symbol → Type 0
    /// AreSymbols = IsListOf symbol_encoding IsGivenSymbol
    /// ```
    ///
    /// Definitions: [`Symbol`](symbols::Symbol), [`IsListOf`](lists::IsListOf), [`symbol_encoding`](symbols::symbol_encoding), [`IsGivenSymbol`](symbols::IsGivenSymbol).
    type AreSymbols;
    /// The pieces are the encodings of these symbols, of any kinds.
    ///
    /// ```text
    /// abbrev pub AreObjectSymbols : List (List ℕ) → List Symbol → Type 0
    /// AreObjectSymbols = IsListOf symbol_encoding IsFullSymbol
    /// ```
    ///
    /// Definitions: [`Symbol`](symbols::Symbol), [`IsListOf`](lists::IsListOf), [`symbol_encoding`](symbols::symbol_encoding), [`IsFullSymbol`](symbols::IsFullSymbol).
    type AreObjectSymbols;
    /// The view of a decoded symbol.
    ///
    /// ```text
    /// abbrev pub symbol_view : read.Symbol → Symbol
    /// symbol_view (items.Function flags index n) = indexed Function flags index
    ///     (option_map (λ n. n.now) n)
    /// symbol_view (items.Global flags index n) = indexed Global flags index
    ///     (option_map (λ n. n.now) n)
    /// symbol_view (items.Table flags index n) = indexed Table flags index
    ///     (option_map (λ n. n.now) n)
    /// symbol_view (items.DataSymbol flags n d) = of_data flags n.now d
    /// symbol_view (items.Section flags index) = of_section flags index
    /// symbol_view (items.Tag flags index n) = indexed Tag flags index
    ///     (option_map (λ n. n.now) n)
    /// ```
    ///
    /// Definitions: [`Symbol`](symbols::Symbol), [`indexed`](symbols::Symbol), [`of_data`](symbols::Symbol), [`of_section`](symbols::Symbol).
    type symbol_view;
}

/// The target features section, its encoding and its format. Tool conventions, Linking, Target Features Section.
///
/// - The target features section: [`ContainsFeatures`](target_features::ContainsFeatures), [`features_payload`](target_features::features_payload), [`features_decoding`](target_features::features_decoding).
/// - Decoded features: [`feature_view`](target_features::feature_view).
///
/// [How to read definitions](super). The file is [`TargetFeatures.antt`](https://github.com/dolzhytik/dolzhytik/blob/main/crates/wasm_custom/specs/TargetFeatures.antt).
pub trait target_features {
    /// The byte of a prefix: the character `+`, `-` or `=`.
    ///
    /// ```text
    /// abbrev pub prefix_code : FeaturePrefix → ℕ
    /// prefix_code Used = 0x2B
    /// prefix_code Disallowed = 0x2D
    /// prefix_code Required = 0x3D
    /// ```
    type prefix_code;
    /// A feature: its prefix and its name.
    ///
    /// ```text
    /// abbrev pub Feature : Type 0
    /// Feature = FeaturePrefix × List ℕ
    /// ```
    type Feature;
    /// The encoding of a feature: the byte of its prefix, then its name.
    ///
    /// ```text
    /// abbrev pub feature_encoding : Feature → List ℕ
    /// feature_encoding f = prefix_code f.0 ∷ [] ++ size_prefixed_encoding f.1
    /// ```
    ///
    /// Definitions: [`Feature`](target_features::Feature), [`prefix_code`](target_features::prefix_code), [`size_prefixed_encoding`](super::base::encodings::size_prefixed_encoding).
    type feature_encoding;
    /// The name of the feature is UTF-8 of at most 2^32 - 1 bytes.
    ///
    /// ```text
    /// abbrev pub IsFeature : Feature → Type 0
    /// IsFeature f = IsEncodableName f.1
    /// ```
    ///
    /// Definitions: [`Feature`](target_features::Feature), [`IsEncodableName`](super::base::laws::IsEncodableName).
    type IsFeature;
    /// A feature: the byte of a prefix, and a name.
    ///
    /// ```text
    /// abbrev pub feature : Format Feature
    /// feature = pair (coded prefix_code) name
    /// ```
    ///
    /// Definitions: [`Format`](super::base::formats::Format), [`Feature`](target_features::Feature), [`pair`](super::base::formats::pair), [`coded`](super::base::formats::coded), [`prefix_code`](target_features::prefix_code), [`name`](super::base::formats::name).
    type feature;
    /// The kind of features.
    ///
    /// ```text
    /// abbrev pub feature_items : Kind Feature Feature
    /// feature_items = record { encoding = feature_encoding; IsWellFormed = IsFeature;
    ///     IsWellFormedPadded = IsFeature; normal_form = λ feature. feature; format = feature }
    /// ```
    ///
    /// Definitions: [`Kind`](super::base::entries::Kind), [`Feature`](target_features::Feature), [`feature_encoding`](target_features::feature_encoding), [`IsFeature`](target_features::IsFeature).
    type feature_items;
    /// The section name `target_features`.
    ///
    /// ```text
    /// abbrev pub features_name : List ℕ
    /// features_name = codes "target_features"
    /// ```
    type features_name;
    /// The pieces encode these features.
    ///
    /// ```text
    /// abbrev pub ContainsFeatures : List (List ℕ) → List Feature → Type 0
    /// ContainsFeatures = ContainsItems feature_items
    /// ```
    ///
    /// Definitions: [`Feature`](target_features::Feature), [`ContainsItems`](super::base::entries::ContainsItems), [`feature_items`](target_features::feature_items).
    type ContainsFeatures;
    /// The payload of a target features section: its name, and a vector of features.
    ///
    /// ```text
    /// abbrev pub features_payload : Format (List Feature)
    /// features_payload = counted_payload features_name feature
    /// ```
    ///
    /// Definitions: [`Format`](super::base::formats::Format), [`Feature`](target_features::Feature), [`counted_payload`](entries::counted_payload), [`features_name`](target_features::features_name), [`feature`](target_features::feature).
    type features_payload;
    /// The target features section that decodes to these features.
    ///
    /// ```text
    /// abbrev pub features_decoding : List Feature → SectionDecoding
    /// features_decoding features = decoding_as features_payload features
    /// ```
    ///
    /// Definitions: [`Feature`](target_features::Feature), [`SectionDecoding`](super::base::modules::SectionDecoding), [`decoding_as`](customs::decoding_as), [`features_payload`](target_features::features_payload).
    type features_decoding;
    /// The view of a decoded feature.
    ///
    /// ```text
    /// abbrev pub feature_view : FeaturePrefix × Bor (List ℕ) → Feature
    /// feature_view f = (f.0, f.1.now)
    /// ```
    ///
    /// Definitions: [`Feature`](target_features::Feature).
    type feature_view;
}
