// Written by tools/to-rust from crates/wasm_immediates/specs: change that.
//! Floats, memory arguments, block types, catches and handles.
//!
//! The contracts of [`wasm_immediates`](https://github.com/dolzhytik/dolzhytik/blob/main/crates/wasm_immediates/README.md) name these definitions.

/// Well-formed immediates, their normal forms and their formats.
///
/// - Normal form: [`normal_ordering`](immediate_formats::normal_ordering), [`normal_order`](immediate_formats::normal_order), [`normal_memory`](immediate_formats::normal_memory).
/// - Well-formed immediates: [`IsWellFormedTarget`](immediate_formats::IsWellFormedTarget), [`IsWellFormedMemory`](immediate_formats::IsWellFormedMemory), [`IsWellFormedBlock`](immediate_formats::IsWellFormedBlock), [`IsWellFormedCatch`](immediate_formats::IsWellFormedCatch), [`IsWellFormedHandle`](immediate_formats::IsWellFormedHandle), [`IsNormalMemory`](immediate_formats::IsNormalMemory), [`ordering_encoding`](immediate_formats::ordering_encoding).
/// - Formats: [`block_type`](immediate_formats::block_type), [`ordering_format`](immediate_formats::ordering_format), [`mem_orderings`](immediate_formats::mem_orderings), [`mem_ordering`](immediate_formats::mem_ordering), [`bit`](immediate_formats::bit), [`HasIndex`](immediate_formats::HasIndex), [`target_of`](immediate_formats::target_of), [`mem_arg_of`](immediate_formats::mem_arg_of), [`mem_arg_with`](immediate_formats::mem_arg_with), [`after_flags`](immediate_formats::after_flags), [`mem_arg_in`](immediate_formats::mem_arg_in), [`mem_arg`](immediate_formats::mem_arg), [`memory_0`](immediate_formats::memory_0), [`one_of_pair`](immediate_formats::one_of_pair), [`one_ref_of_pair`](immediate_formats::one_ref_of_pair), [`catch_tags`](immediate_formats::catch_tags), [`catch`](immediate_formats::catch), [`on_label_of_pair`](immediate_formats::on_label_of_pair), [`handle_tags`](immediate_formats::handle_tags), [`handle`](immediate_formats::handle).
/// - Laws: [`DecodesMemoryArgument`](immediate_formats::DecodesMemoryArgument).
///
/// [How to read definitions](super). The file is [`ImmediateFormats.antt`](https://github.com/dolzhytik/dolzhytik/blob/main/crates/wasm_immediates/specs/ImmediateFormats.antt).
pub trait immediate_formats {
    /// The normal form of an ordering: `SeqCst` becomes that of an operation, since both have the byte 0x00.
    ///
    /// ```text
    /// abbrev pub normal_ordering : MemArgOrdering → MemArgOrdering
    /// normal_ordering (orders.Op o) = orders.Op o
    /// normal_ordering (orders.Rmw SeqCst) = orders.Op SeqCst
    /// normal_ordering (orders.Rmw AcqRel) = orders.Rmw AcqRel
    /// ```
    type normal_ordering;
    /// The normal form of an optional ordering.
    ///
    /// ```text
    /// abbrev pub normal_order : Option MemArgOrdering → Option MemArgOrdering
    /// normal_order None = None
    /// normal_order (Some o) = Some (normal_ordering o)
    /// ```
    ///
    /// Definitions: [`normal_ordering`](immediate_formats::normal_ordering).
    type normal_order;
    /// The normal form of a memory argument: its ordering in normal form.
    ///
    /// ```text
    /// abbrev pub normal_memory : MemArg → MemArg
    /// normal_memory m = record
    ///     { offset = m.offset; align = m.align; target = m.target;
    ///     ordering = normal_order m.ordering }
    /// ```
    ///
    /// Definitions: [`normal_order`](immediate_formats::normal_order).
    type normal_memory;
    /// The index of the memory or array type is below 2^32.
    ///
    /// ```text
    /// abbrev pub IsWellFormedTarget : MemArgTarget → Type 0
    /// IsWellFormedTarget (Memory n) = n < 2 ^ 32
    /// IsWellFormedTarget (Array n) = n < 2 ^ 32
    /// ```
    type IsWellFormedTarget;
    /// The memory argument is well-formed: its alignment is below 16, its index below 2^32 and its offset below 2^64.
    ///
    /// ```text
    /// pub record IsWellFormedMemory (m : MemArg) : Type 0 where
    ///   pub align : m.align < 16
    ///   pub target : IsWellFormedTarget m.target
    ///   pub offset : m.offset < 2 ^ 64
    /// ```
    ///
    /// Definitions: [`IsWellFormedTarget`](immediate_formats::IsWellFormedTarget).
    type IsWellFormedMemory;
    /// The block type is well-formed: the index of its function type, or in the type of its result, is below 2^32.
    ///
    /// ```text
    /// abbrev pub IsWellFormedBlock : BlockType → Type 0
    /// IsWellFormedBlock blocks.Empty = ⊤
    /// IsWellFormedBlock (blocks.Result type) = IsVal type
    /// IsWellFormedBlock (blocks.FunctionType index) = index < 2 ^ 32
    /// ```
    ///
    /// Definitions: [`IsVal`](super::base::types::IsVal).
    type IsWellFormedBlock;
    /// The catch clause is well-formed: its tag, if it has one, and its label are below 2^32.
    ///
    /// ```text
    /// abbrev pub IsWellFormedCatch : Catch → Type 0
    /// IsWellFormedCatch (One tag label) = (tag < 2 ^ 32) × (label < 2 ^ 32)
    /// IsWellFormedCatch (OneRef tag label) = (tag < 2 ^ 32) × (label < 2 ^ 32)
    /// IsWellFormedCatch (All label) = label < 2 ^ 32
    /// IsWellFormedCatch (AllRef label) = label < 2 ^ 32
    /// ```
    type IsWellFormedCatch;
    /// The handle clause is well-formed: its tag, and its label if it has one, are below 2^32.
    ///
    /// ```text
    /// abbrev pub IsWellFormedHandle : Handle → Type 0
    /// IsWellFormedHandle (OnLabel tag label) = (tag < 2 ^ 32) × (label < 2 ^ 32)
    /// IsWellFormedHandle (OnSwitch tag) = tag < 2 ^ 32
    /// ```
    type IsWellFormedHandle;
    /// The memory argument is well-formed and in normal form.
    ///
    /// ```text
    /// pub record IsNormalMemory (m : MemArg) : Type 0 where
    ///   pub plain : IsWellFormedMemory m
    ///   pub normal : normal_memory m ≡ m
    /// ```
    ///
    /// Definitions: [`IsWellFormedMemory`](immediate_formats::IsWellFormedMemory), [`normal_memory`](immediate_formats::normal_memory).
    type IsNormalMemory;
    /// The encoding of an ordering: its byte.
    ///
    /// ```text
    /// abbrev pub ordering_encoding : Ordering → List ℕ
    /// ordering_encoding o = ordering_code o ∷ []
    /// ```
    ///
    /// Definitions: [`ordering_code`](immediates::ordering_code).
    type ordering_encoding;
    /// A block type: 0x40, a value type, or an index, whose first byte is neither 0x40 nor that of a value type. Core specification, Binary Format, Instructions, Control Instructions.
    ///
    /// ```text
    /// abbrev pub block_type : Format BlockType
    /// block_type = one_of (fixed (0x40 ∷ []) blocks.Empty)
    ///     (one_of (mapped blocks.Result val_type) (mapped blocks.FunctionType s33))
    /// ```
    ///
    /// Definitions: [`Format`](super::base::formats::Format), [`one_of`](super::base::formats::one_of), [`fixed`](super::base::formats::fixed), [`mapped`](super::base::formats::mapped), [`val_type`](super::base::types::val_type), [`s33`](super::base::formats::s33).
    type block_type;
    /// An ordering: one byte.
    ///
    /// ```text
    /// abbrev pub ordering_format : Format Ordering
    /// ordering_format = coded ordering_code
    /// ```
    ///
    /// Definitions: [`Format`](super::base::formats::Format), [`coded`](super::base::formats::coded), [`ordering_code`](immediates::ordering_code).
    type ordering_format;
    /// The formats of orderings in normal form by their bytes: 0x00 is that of an operation.
    ///
    /// ```text
    /// abbrev pub mem_orderings : List (ℕ × Format MemArgOrdering)
    /// mem_orderings = (0x00, fixed [] (orders.Op SeqCst))
    ///     ∷ (0x01, fixed [] (orders.Op AcqRel)) ∷ (0x11, fixed [] (orders.Rmw AcqRel)) ∷ []
    /// ```
    ///
    /// Definitions: [`Format`](super::base::formats::Format), [`fixed`](super::base::formats::fixed).
    type mem_orderings;
    /// The ordering of a memory argument, in normal form: one byte.
    ///
    /// ```text
    /// abbrev pub mem_ordering : Format MemArgOrdering
    /// mem_ordering = tagged byte (choice mem_orderings (λ b. impossible))
    /// ```
    ///
    /// Definitions: [`Format`](super::base::formats::Format), [`tagged`](super::base::formats::tagged), [`byte`](super::base::formats::byte), [`choice`](super::base::formats::choice), [`mem_orderings`](immediate_formats::mem_orderings), [`impossible`](super::base::formats::impossible).
    type mem_ordering;
    /// Whether the bit at this position is set in the flags.
    ///
    /// ```text
    /// abbrev pub bit : ℕ → ℕ → Bool
    /// bit index flags = flags / 2 ^ index % 2 == 1
    /// ```
    type bit;
    /// The memories whose index is encoded. Builders encode none for memory 0; the standard admits it.
    ///
    /// ```text
    /// abbrev pub HasIndex : Grammar → ℕ → Type 0
    /// HasIndex builders n = 0 < n
    /// HasIndex admitted n = ⊤
    /// ```
    ///
    /// Definitions: [`Grammar`](super::base::numbers::Grammar), [`builders`](super::base::numbers::Grammar), [`admitted`](super::base::numbers::Grammar).
    type HasIndex;
    /// The target of a memory argument, by bits 5 and 6 of its flags. With neither bit it is memory 0, and with both nothing decodes.
    ///
    /// ```text
    /// abbrev pub target_of : Grammar → (array other_memory : Bool) → Format MemArgTarget
    /// target_of w false false = fixed [] (Memory 0)
    /// target_of w true false = mapped Array u32
    /// target_of w false true = mapped Memory (such (HasIndex w) u32)
    /// target_of w true true = impossible
    /// ```
    ///
    /// Definitions: [`Grammar`](super::base::numbers::Grammar), [`Format`](super::base::formats::Format), [`fixed`](super::base::formats::fixed), [`mapped`](super::base::formats::mapped), [`u32`](super::base::formats::u32), [`such`](super::base::formats::such), [`HasIndex`](immediate_formats::HasIndex), [`impossible`](super::base::formats::impossible).
    type target_of;
    /// The memory argument of this alignment, with a target, an optional ordering and an offset.
    ///
    /// ```text
    /// abbrev pub mem_arg_of : ℕ → MemArgTarget × (Option MemArgOrdering × ℕ) → MemArg
    /// mem_arg_of align p = record
    ///     { offset = p.1.1; align = align; target = p.0; ordering = p.1.0 }
    /// ```
    type mem_arg_of;
    /// The bytes after flags with this alignment and these bits 4, 5 and 6: target, ordering and offset.
    ///
    /// ```text
    /// abbrev pub mem_arg_with : Grammar → ℕ → (ordered array other_memory : Bool)
    ///     → Format MemArg
    /// mem_arg_with w align ordered array other_memory = mapped (mem_arg_of align)
    ///     (pair (target_of w array other_memory) (pair (optional ordered mem_ordering) u64))
    /// ```
    ///
    /// Definitions: [`Grammar`](super::base::numbers::Grammar), [`Format`](super::base::formats::Format), [`mapped`](super::base::formats::mapped), [`mem_arg_of`](immediate_formats::mem_arg_of), [`pair`](super::base::formats::pair), [`target_of`](immediate_formats::target_of), [`optional`](super::base::formats::optional), [`mem_ordering`](immediate_formats::mem_ordering), [`u64`](super::base::formats::u64).
    type mem_arg_with;
    /// The bytes after flags below 128: bits 0 to 3 are the alignment, and bits 4, 5 and 6 select the fields that follow. Higher flags do not decode.
    ///
    /// ```text
    /// abbrev pub after_flags : Grammar → ℕ → Format MemArg
    /// after_flags w flags = when (nat_lt flags 0x80)
    ///     (mem_arg_with w (flags % 16) (bit 4 flags) (bit 5 flags) (bit 6 flags)) impossible
    /// ```
    ///
    /// Definitions: [`Grammar`](super::base::numbers::Grammar), [`Format`](super::base::formats::Format), [`when`](super::base::formats::when), [`mem_arg_with`](immediate_formats::mem_arg_with), [`bit`](immediate_formats::bit), [`impossible`](super::base::formats::impossible).
    type after_flags;
    /// A memory argument of a grammar: flags, the index and the ordering that the flags select, and the offset.
    ///
    /// ```text
    /// abbrev pub mem_arg_in : Grammar → Format MemArg
    /// mem_arg_in w = tagged u32 (after_flags w)
    /// ```
    ///
    /// Definitions: [`Grammar`](super::base::numbers::Grammar), [`Format`](super::base::formats::Format), [`tagged`](super::base::formats::tagged), [`u32`](super::base::formats::u32), [`after_flags`](immediate_formats::after_flags).
    type mem_arg_in;
    /// A memory argument. In the standard's grammar memory 0 may have an index; the minimal encoding is that without. Core specification, Binary Format, Instructions, Memory Instructions; bits 4 and 5 are this repository's own.
    ///
    /// ```text
    /// abbrev pub mem_arg : Format MemArg
    /// mem_arg = by_mode (mem_arg_in builders) (mem_arg_in builders) (mem_arg_in admitted)
    /// ```
    ///
    /// Definitions: [`Format`](super::base::formats::Format), [`by_mode`](super::base::formats::by_mode), [`mem_arg_in`](immediate_formats::mem_arg_in), [`builders`](super::base::numbers::Grammar), [`admitted`](super::base::numbers::Grammar).
    type mem_arg;
    /// The argument of memory 0 with this alignment and offset, without an ordering.
    ///
    /// ```text
    /// abbrev pub memory_0 : (align offset : ℕ) → MemArg
    /// memory_0 align offset = record
    ///     { offset = offset; align = align; target = Memory 0; ordering = None }
    /// ```
    type memory_0;
    /// The clause [`catch`](immediate_formats::catch) of this tag and label.
    ///
    /// ```text
    /// abbrev pub one_of_pair : ℕ × ℕ → Catch
    /// one_of_pair p = One p.0 p.1
    /// ```
    type one_of_pair;
    /// The clause `catch_ref` of this tag and label.
    ///
    /// ```text
    /// abbrev pub one_ref_of_pair : ℕ × ℕ → Catch
    /// one_ref_of_pair p = OneRef p.0 p.1
    /// ```
    type one_ref_of_pair;
    /// The formats by the byte of a catch clause: a tag and a label after 00 and 01, a label after 02 and 03.
    ///
    /// ```text
    /// abbrev pub catch_tags : List (ℕ × Format Catch)
    /// catch_tags =
    ///     (0x00, mapped one_of_pair (pair u32 u32))
    ///         ∷ (0x01, mapped one_ref_of_pair (pair u32 u32)) ∷ (0x02, mapped All u32)
    ///         ∷ (0x03, mapped AllRef u32) ∷ []
    /// ```
    ///
    /// Definitions: [`Format`](super::base::formats::Format), [`mapped`](super::base::formats::mapped), [`one_of_pair`](immediate_formats::one_of_pair), [`pair`](super::base::formats::pair), [`u32`](super::base::formats::u32), [`one_ref_of_pair`](immediate_formats::one_ref_of_pair).
    type catch_tags;
    /// A catch clause: a byte for its kind, a tag for 00 and 01, and a label. Core specification, Binary Format, Instructions, Control Instructions.
    ///
    /// ```text
    /// abbrev pub catch : Format Catch
    /// catch = tagged byte (choice catch_tags (λ b. impossible))
    /// ```
    ///
    /// Definitions: [`Format`](super::base::formats::Format), [`tagged`](super::base::formats::tagged), [`byte`](super::base::formats::byte), [`choice`](super::base::formats::choice), [`catch_tags`](immediate_formats::catch_tags), [`impossible`](super::base::formats::impossible).
    type catch;
    /// The clause `on` that branches to this label for this tag.
    ///
    /// ```text
    /// abbrev pub on_label_of_pair : ℕ × ℕ → Handle
    /// on_label_of_pair p = OnLabel p.0 p.1
    /// ```
    type on_label_of_pair;
    /// The formats by the byte of a handle clause: a tag and a label after 00, a tag after 01.
    ///
    /// ```text
    /// abbrev pub handle_tags : List (ℕ × Format Handle)
    /// handle_tags = (0x00, mapped on_label_of_pair (pair u32 u32))
    ///     ∷ (0x01, mapped OnSwitch u32) ∷ []
    /// ```
    ///
    /// Definitions: [`Format`](super::base::formats::Format), [`mapped`](super::base::formats::mapped), [`on_label_of_pair`](immediate_formats::on_label_of_pair), [`pair`](super::base::formats::pair), [`u32`](super::base::formats::u32).
    type handle_tags;
    /// A handle clause: a byte for its kind, a tag, and a label for 00.
    ///
    /// ```text
    /// abbrev pub handle : Format Handle
    /// handle = tagged byte (choice handle_tags (λ b. impossible))
    /// ```
    ///
    /// Definitions: [`Format`](super::base::formats::Format), [`tagged`](super::base::formats::tagged), [`byte`](super::base::formats::byte), [`choice`](super::base::formats::choice), [`handle_tags`](immediate_formats::handle_tags), [`impossible`](super::base::formats::impossible).
    type handle;
    /// The encoding of a well-formed memory argument decodes to its normal form alone.
    ///
    /// ```text
    /// pub record DecodesMemoryArgument (m : MemArg) : Type 0 where
    ///   pub unique : IsWellFormedMemory m
    ///       → DecodesUniquely mem_arg (mem_arg_encoding m) (normal_memory m)
    /// ```
    ///
    /// Definitions: [`IsWellFormedMemory`](immediate_formats::IsWellFormedMemory), [`DecodesUniquely`](super::base::decoding::DecodesUniquely), [`mem_arg`](immediate_formats::mem_arg), [`mem_arg_encoding`](immediates::mem_arg_encoding), [`normal_memory`](immediate_formats::normal_memory).
    type DecodesMemoryArgument;
}

/// The encodings of immediates: memory arguments, block types, catches, handles and vectors.
///
/// - Memory arguments: [`ordering_code`](immediates::ordering_code), [`mem_ordering_code`](immediates::mem_ordering_code), [`index_of`](immediates::index_of), [`has_ordering`](immediates::has_ordering), [`is_array`](immediates::is_array), [`has_memory`](immediates::has_memory), [`where_set`](immediates::where_set), [`mem_flags`](immediates::mem_flags), [`mem_arg_encoding`](immediates::mem_arg_encoding).
/// - Blocks, catches and handles: [`block_encoding`](immediates::block_encoding), [`block_encoding_in`](immediates::block_encoding_in), [`catch_encoding`](immediates::catch_encoding), [`handle_encoding`](immediates::handle_encoding).
/// - Vectors of 128 bits: [`vector_encoding`](immediates::vector_encoding).
///
/// [How to read definitions](super). The file is [`Immediates.antt`](https://github.com/dolzhytik/dolzhytik/blob/main/crates/wasm_immediates/specs/Immediates.antt).
pub trait immediates {
    /// The byte of an ordering, which is not in the core specification.
    ///
    /// ```text
    /// abbrev pub ordering_code : Ordering → ℕ
    /// ordering_code SeqCst = 0x00
    /// ordering_code AcqRel = 0x01
    /// ```
    type ordering_code;
    /// The byte of a memory argument's ordering. `SeqCst` has the byte 0x00 for an operation and for a read-modify-write operation.
    ///
    /// ```text
    /// abbrev pub mem_ordering_code : MemArgOrdering → ℕ
    /// mem_ordering_code (orders.Op SeqCst) = 0x00
    /// mem_ordering_code (orders.Op AcqRel) = 0x01
    /// mem_ordering_code (orders.Rmw SeqCst) = 0x00
    /// mem_ordering_code (orders.Rmw AcqRel) = 0x11
    /// ```
    type mem_ordering_code;
    /// The index that is encoded. Memory 0 has none.
    ///
    /// ```text
    /// abbrev pub index_of : MemArgTarget → Option ℕ
    /// index_of (Memory zero) = None
    /// index_of (Memory (suc n)) = Some (suc n)
    /// index_of (Array n) = Some n
    /// ```
    type index_of;
    /// Bit 4 of the flags: the ordering is explicit.
    ///
    /// ```text
    /// abbrev pub has_ordering : Option MemArgOrdering → Bool
    /// has_ordering None = false
    /// has_ordering (Some ordering) = true
    /// ```
    type has_ordering;
    /// Bit 5 of the flags: the target is an array.
    ///
    /// ```text
    /// abbrev pub is_array : MemArgTarget → Bool
    /// is_array (Memory n) = false
    /// is_array (Array n) = true
    /// ```
    type is_array;
    /// Bit 6 of the flags: the target is a memory other than memory 0.
    ///
    /// ```text
    /// abbrev pub has_memory : MemArgTarget → Bool
    /// has_memory (Memory zero) = false
    /// has_memory (Memory (suc n)) = true
    /// has_memory (Array n) = false
    /// ```
    type has_memory;
    /// The weight if the bit is set, and 0 otherwise.
    ///
    /// ```text
    /// abbrev pub where_set : Bool → ℕ → ℕ
    /// where_set true weight = weight
    /// where_set false weight = 0
    /// ```
    type where_set;
    /// The flags of a memory argument: its alignment with bits 4, 5 and 6.
    ///
    /// ```text
    /// abbrev pub mem_flags : MemArg → ℕ
    /// mem_flags m = bit_or (bit_or m.align (where_set (has_ordering m.ordering) 0x10))
    ///     (bit_or (where_set (is_array m.target) 0x20) (where_set (has_memory m.target) 0x40))
    /// ```
    ///
    /// Definitions: [`where_set`](immediates::where_set), [`has_ordering`](immediates::has_ordering), [`is_array`](immediates::is_array), [`has_memory`](immediates::has_memory).
    type mem_flags;
    /// The encoding of a memory argument: flags, the index if it is encoded, the byte of the ordering if it is explicit, and the offset. Core specification, Binary Format, Instructions, Memory Instructions; it lacks the ordering and the index of an array type.
    ///
    /// ```text
    /// abbrev pub mem_arg_encoding : MemArg → List ℕ
    /// mem_arg_encoding m =
    ///     unsigned_encoding (mem_flags m)
    ///         ++ (optional_encoding unsigned_encoding (index_of m.target)
    ///         ++ (optional_encoding (λ o. mem_ordering_code o ∷ []) m.ordering
    ///             ++ unsigned_encoding m.offset))
    /// ```
    ///
    /// Definitions: [`unsigned_encoding`](super::base::numbers::unsigned_encoding), [`mem_flags`](immediates::mem_flags), [`optional_encoding`](super::base::encodings::optional_encoding), [`index_of`](immediates::index_of), [`mem_ordering_code`](immediates::mem_ordering_code).
    type mem_arg_encoding;
    /// The encoding of a block type: 0x40 without a result, a value type, or a type index as a signed number. Core specification, Binary Format, Instructions, Control Instructions.
    ///
    /// ```text
    /// abbrev pub block_encoding : BlockType → List ℕ
    /// block_encoding blocks.Empty = 0x40 ∷ []
    /// block_encoding (blocks.Result ty) = val_encoding ty
    /// block_encoding (blocks.FunctionType index) = signed_encoding (pos index)
    /// ```
    ///
    /// Definitions: [`val_encoding`](super::base::types::val_encoding), [`signed_encoding`](super::base::numbers::signed_encoding).
    type block_encoding;
    /// The minimal encoding of a block type in each grammar: they differ in the type of a result.
    ///
    /// ```text
    /// abbrev pub block_encoding_in : Grammar → BlockType → List ℕ
    /// block_encoding_in w (blocks.Result ty) = val_encoding_in w ty
    /// block_encoding_in w block = block_encoding block
    /// ```
    ///
    /// Definitions: [`Grammar`](super::base::numbers::Grammar), [`val_encoding_in`](super::base::types::val_encoding_in), [`block_encoding`](immediates::block_encoding).
    type block_encoding_in;
    /// The encoding of a catch clause: a byte for its kind, its tag if it has one, and its label. Core specification, Binary Format, Instructions, Control Instructions.
    ///
    /// ```text
    /// abbrev pub catch_encoding : Catch → List ℕ
    /// catch_encoding (One tag label) = 0x00
    ///     ∷ (unsigned_encoding tag ++ unsigned_encoding label)
    /// catch_encoding (OneRef tag label) = 0x01
    ///     ∷ (unsigned_encoding tag ++ unsigned_encoding label)
    /// catch_encoding (All label) = 0x02 ∷ unsigned_encoding label
    /// catch_encoding (AllRef label) = 0x03 ∷ unsigned_encoding label
    /// ```
    ///
    /// Definitions: [`unsigned_encoding`](super::base::numbers::unsigned_encoding).
    type catch_encoding;
    /// The encoding of a handle clause: a byte for its kind, its tag, and its label if it has one. It is not in the core specification.
    ///
    /// ```text
    /// abbrev pub handle_encoding : Handle → List ℕ
    /// handle_encoding (OnLabel tag label) = 0x00
    ///     ∷ (unsigned_encoding tag ++ unsigned_encoding label)
    /// handle_encoding (OnSwitch tag) = 0x01 ∷ unsigned_encoding tag
    /// ```
    ///
    /// Definitions: [`unsigned_encoding`](super::base::numbers::unsigned_encoding).
    type handle_encoding;
    /// The encoding of a vector: 16 little-endian bytes in two's complement. Core specification, Binary Format, Instructions, Vector Instructions.
    ///
    /// ```text
    /// unfoldable pub vector_encoding : ℤ → List ℕ
    /// vector_encoding v = little_endian_encoding 16 (twos_complement 128 v)
    /// ```
    ///
    /// Definitions: [`little_endian_encoding`](super::base::encodings::little_endian_encoding), [`twos_complement`](super::base::formats::twos_complement).
    type vector_encoding;
}
