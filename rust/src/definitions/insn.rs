// Written by tools/to-rust from crates/wasm_insn/specs: change that.
//! Instructions, their opcodes and immediates.
//!
//! The contracts of [`wasm_insn`](https://github.com/dolzhytik/dolzhytik/blob/main/crates/wasm_insn/README.md) name these definitions.

/// The opcodes of the instructions of `Aggregate`.
///
/// [How to read definitions](super). The file is [`Aggregate.antt`](https://github.com/dolzhytik/dolzhytik/blob/main/crates/wasm_insn/specs/Aggregate.antt).
pub trait aggregate {
    /// The number of each instruction after the prefix FB.
    ///
    /// ```text
    /// abbrev pub aggregate_number : Aggregate → ℕ
    /// aggregate_number cases.ArrayLen = 15
    /// aggregate_number cases.AnyConvertExtern = 26
    /// aggregate_number cases.ExternConvertAny = 27
    /// aggregate_number cases.RefI31 = 28
    /// aggregate_number cases.I31GetS = 29
    /// aggregate_number cases.I31GetU = 30
    /// ```
    type aggregate_number;
}

/// The immediates of an instruction and their encodings.
///
/// [How to read definitions](super). The file is [`Arguments.antt`](https://github.com/dolzhytik/dolzhytik/blob/main/crates/wasm_insn/specs/Arguments.antt).
pub trait arguments {
    /// An immediate of an instruction. A vector of labels, clauses or types is one immediate.
    ///
    /// ```text
    /// pub data Argument : Type 0 where
    ///   unsigned : ℕ → Argument
    ///   signed32 : ℤ → Argument
    ///   signed64 : ℤ → Argument
    ///   float32 : Ieee32 → Argument
    ///   float64 : Ieee64 → Argument
    ///   vector : ℤ → Argument
    ///   memory : MemArg → Argument
    ///   lane : ℕ → Argument
    ///   lanes : List ℕ → Argument
    ///   block : BlockType → Argument
    ///   heap : HeapType → Argument
    ///   ordering : Ordering → Argument
    ///   labels : List ℕ → Argument
    ///   catches : List Catch → Argument
    ///   types : List ValType → Argument
    ///   handles : List Handle → Argument
    ///   flag : ℕ → Argument
    /// ```
    type Argument;
    /// The type of an immediate.
    ///
    /// ```text
    /// abbrev pub part_of : Argument → Part
    /// part_of (unsigned n) = parts.Unsigned
    /// part_of (signed32 v) = parts.Signed32
    /// part_of (signed64 v) = parts.Signed64
    /// part_of (float32 float) = parts.Float32
    /// part_of (float64 float) = parts.Float64
    /// part_of (vector v) = parts.Vector
    /// part_of (memory m) = parts.Memory
    /// part_of (lane n) = parts.Lane
    /// part_of (lanes ns) = parts.Lanes
    /// part_of (block type) = parts.Block
    /// part_of (heap type) = parts.Heap
    /// part_of (ordering o) = parts.Ordering
    /// part_of (labels ns) = parts.Labels
    /// part_of (catches cs) = parts.Catches
    /// part_of (types ts) = parts.Types
    /// part_of (handles hs) = parts.Handles
    /// part_of (flag n) = parts.Flag
    /// ```
    ///
    /// Definitions: [`Argument`](arguments::Argument), [`unsigned`](arguments::Argument), [`signed32`](arguments::Argument), [`signed64`](arguments::Argument), [`float32`](arguments::Argument), [`float64`](arguments::Argument), [`vector`](arguments::Argument), [`memory`](arguments::Argument), [`lane`](arguments::Argument), [`lanes`](arguments::Argument), [`block`](arguments::Argument), [`heap`](arguments::Argument), [`ordering`](arguments::Argument), [`labels`](arguments::Argument), [`catches`](arguments::Argument), [`types`](arguments::Argument), [`handles`](arguments::Argument), [`flag`](arguments::Argument).
    type part_of;
    /// The encoding of an immediate.
    ///
    /// ```text
    /// abbrev pub argument_encoding : Argument → List ℕ
    /// argument_encoding (unsigned n) = unsigned_encoding n
    /// argument_encoding (signed32 v) = signed_encoding v
    /// argument_encoding (signed64 v) = signed_encoding v
    /// argument_encoding (float32 float) = little_endian_encoding 4 float.bits
    /// argument_encoding (float64 float) = little_endian_encoding 8 float.bits
    /// argument_encoding (vector v) = vector_encoding v
    /// argument_encoding (memory m) = mem_arg_encoding m
    /// argument_encoding (lane n) = n ∷ []
    /// argument_encoding (lanes ns) = ns
    /// argument_encoding (block type) = block_encoding type
    /// argument_encoding (heap type) = heap_encoding type
    /// argument_encoding (ordering o) = ordering_code o ∷ []
    /// argument_encoding (labels ns) = vec_encoding unsigned_encoding ns
    /// argument_encoding (catches cs) = vec_encoding catch_encoding cs
    /// argument_encoding (types ts) = vec_encoding val_encoding ts
    /// argument_encoding (handles hs) = vec_encoding handle_encoding hs
    /// argument_encoding (flag n) = n ∷ []
    /// ```
    ///
    /// Definitions: [`Argument`](arguments::Argument), [`unsigned`](arguments::Argument), [`unsigned_encoding`](super::base::numbers::unsigned_encoding), [`signed32`](arguments::Argument), [`signed_encoding`](super::base::numbers::signed_encoding), [`signed64`](arguments::Argument), [`float32`](arguments::Argument), [`little_endian_encoding`](super::base::encodings::little_endian_encoding), [`float64`](arguments::Argument), [`vector`](arguments::Argument), [`vector_encoding`](super::immediates::immediates::vector_encoding), [`memory`](arguments::Argument), [`mem_arg_encoding`](super::immediates::immediates::mem_arg_encoding), [`lane`](arguments::Argument), [`lanes`](arguments::Argument), [`block`](arguments::Argument), [`block_encoding`](super::immediates::immediates::block_encoding), [`heap`](arguments::Argument), [`heap_encoding`](super::base::types::heap_encoding), [`ordering`](arguments::Argument), [`ordering_code`](super::immediates::immediates::ordering_code), [`labels`](arguments::Argument), [`vec_encoding`](super::base::encodings::vec_encoding), [`catches`](arguments::Argument), [`catch_encoding`](super::immediates::immediates::catch_encoding), [`types`](arguments::Argument), [`val_encoding`](super::base::types::val_encoding), [`handles`](arguments::Argument), [`handle_encoding`](super::immediates::immediates::handle_encoding), [`flag`](arguments::Argument).
    type argument_encoding;
    /// The encodings of the immediates, one after another.
    ///
    /// ```text
    /// abbrev pub arguments_encoding : List Argument → List ℕ
    /// arguments_encoding [] = []
    /// arguments_encoding (x ∷ xs) = argument_encoding x ++ arguments_encoding xs
    /// ```
    ///
    /// Definitions: [`Argument`](arguments::Argument), [`argument_encoding`](arguments::argument_encoding).
    type arguments_encoding;
    /// If the immediate is a list, it has at most 2^32 - 1 members.
    ///
    /// ```text
    /// abbrev pub argument_encodable : Argument → Type 0
    /// argument_encodable (labels ns) = IsEncodableVec (λ n. ⊤) ns
    /// argument_encodable (catches cs) = IsEncodableVec (λ c. ⊤) cs
    /// argument_encodable (types ts) = IsEncodableVec (λ t. ⊤) ts
    /// argument_encodable (handles hs) = IsEncodableVec (λ h. ⊤) hs
    /// argument_encodable _ = ⊤
    /// ```
    ///
    /// Definitions: [`Argument`](arguments::Argument), [`labels`](arguments::Argument), [`IsEncodableVec`](super::base::encodings::IsEncodableVec), [`catches`](arguments::Argument), [`types`](arguments::Argument), [`handles`](arguments::Argument).
    type argument_encodable;
    /// Each list among the immediates has at most 2^32 - 1 members.
    ///
    /// ```text
    /// abbrev pub arguments_encodable : List Argument → Type 0
    /// arguments_encodable [] = ⊤
    /// arguments_encodable (x ∷ xs) = argument_encodable x × arguments_encodable xs
    /// ```
    ///
    /// Definitions: [`Argument`](arguments::Argument), [`argument_encodable`](arguments::argument_encodable).
    type arguments_encodable;
}

/// The opcodes and immediates of the instructions of `Atomic`.
///
/// [How to read definitions](super). The file is [`Atomic.antt`](https://github.com/dolzhytik/dolzhytik/blob/main/crates/wasm_insn/specs/Atomic.antt).
pub trait atomic {
    /// The opcode and the immediates of each instruction.
    ///
    /// ```text
    /// abbrev pub atomic_row : Atomic → Plain
    /// atomic_row (cases.MemoryAtomicNotify a) = record
    ///     { op = Prefixed 0xFE 0x00; arguments = memory a ∷ [] }
    /// atomic_row (cases.MemoryAtomicWait32 a) = record
    ///     { op = Prefixed 0xFE 0x01; arguments = memory a ∷ [] }
    /// atomic_row (cases.MemoryAtomicWait64 a) = record
    ///     { op = Prefixed 0xFE 0x02; arguments = memory a ∷ [] }
    /// atomic_row (cases.AtomicFence a) = record
    ///     { op = Prefixed 0xFE 0x03; arguments = ordering a ∷ [] }
    /// atomic_row cases.Pause = record { op = Prefixed 0xFE 0x04; arguments = [] }
    /// atomic_row (cases.I32AtomicLoad a) = record
    ///     { op = Prefixed 0xFE 0x10; arguments = memory a ∷ [] }
    /// atomic_row (cases.I64AtomicLoad a) = record
    ///     { op = Prefixed 0xFE 0x11; arguments = memory a ∷ [] }
    /// atomic_row (cases.I32AtomicLoad8U a) = record
    ///     { op = Prefixed 0xFE 0x12; arguments = memory a ∷ [] }
    /// atomic_row (cases.I32AtomicLoad16U a) = record
    ///     { op = Prefixed 0xFE 0x13; arguments = memory a ∷ [] }
    /// atomic_row (cases.I64AtomicLoad8U a) = record
    ///     { op = Prefixed 0xFE 0x14; arguments = memory a ∷ [] }
    /// atomic_row (cases.I64AtomicLoad16U a) = record
    ///     { op = Prefixed 0xFE 0x15; arguments = memory a ∷ [] }
    /// atomic_row (cases.I64AtomicLoad32U a) = record
    ///     { op = Prefixed 0xFE 0x16; arguments = memory a ∷ [] }
    /// atomic_row (cases.I32AtomicStore a) = record
    ///     { op = Prefixed 0xFE 0x17; arguments = memory a ∷ [] }
    /// atomic_row (cases.I64AtomicStore a) = record
    ///     { op = Prefixed 0xFE 0x18; arguments = memory a ∷ [] }
    /// atomic_row (cases.I32AtomicStore8 a) = record
    ///     { op = Prefixed 0xFE 0x19; arguments = memory a ∷ [] }
    /// atomic_row (cases.I32AtomicStore16 a) = record
    ///     { op = Prefixed 0xFE 0x1A; arguments = memory a ∷ [] }
    /// atomic_row (cases.I64AtomicStore8 a) = record
    ///     { op = Prefixed 0xFE 0x1B; arguments = memory a ∷ [] }
    /// atomic_row (cases.I64AtomicStore16 a) = record
    ///     { op = Prefixed 0xFE 0x1C; arguments = memory a ∷ [] }
    /// atomic_row (cases.I64AtomicStore32 a) = record
    ///     { op = Prefixed 0xFE 0x1D; arguments = memory a ∷ [] }
    /// atomic_row (cases.I32AtomicRmwAdd a) = record
    ///     { op = Prefixed 0xFE 0x1E; arguments = memory a ∷ [] }
    /// atomic_row (cases.I64AtomicRmwAdd a) = record
    ///     { op = Prefixed 0xFE 0x1F; arguments = memory a ∷ [] }
    /// atomic_row (cases.I32AtomicRmw8AddU a) = record
    ///     { op = Prefixed 0xFE 0x20; arguments = memory a ∷ [] }
    /// atomic_row (cases.I32AtomicRmw16AddU a) = record
    ///     { op = Prefixed 0xFE 0x21; arguments = memory a ∷ [] }
    /// atomic_row (cases.I64AtomicRmw8AddU a) = record
    ///     { op = Prefixed 0xFE 0x22; arguments = memory a ∷ [] }
    /// atomic_row (cases.I64AtomicRmw16AddU a) = record
    ///     { op = Prefixed 0xFE 0x23; arguments = memory a ∷ [] }
    /// atomic_row (cases.I64AtomicRmw32AddU a) = record
    ///     { op = Prefixed 0xFE 0x24; arguments = memory a ∷ [] }
    /// atomic_row (cases.I32AtomicRmwSub a) = record
    ///     { op = Prefixed 0xFE 0x25; arguments = memory a ∷ [] }
    /// atomic_row (cases.I64AtomicRmwSub a) = record
    ///     { op = Prefixed 0xFE 0x26; arguments = memory a ∷ [] }
    /// atomic_row (cases.I32AtomicRmw8SubU a) = record
    ///     { op = Prefixed 0xFE 0x27; arguments = memory a ∷ [] }
    /// atomic_row (cases.I32AtomicRmw16SubU a) = record
    ///     { op = Prefixed 0xFE 0x28; arguments = memory a ∷ [] }
    /// atomic_row (cases.I64AtomicRmw8SubU a) = record
    ///     { op = Prefixed 0xFE 0x29; arguments = memory a ∷ [] }
    /// atomic_row (cases.I64AtomicRmw16SubU a) = record
    ///     { op = Prefixed 0xFE 0x2A; arguments = memory a ∷ [] }
    /// atomic_row (cases.I64AtomicRmw32SubU a) = record
    ///     { op = Prefixed 0xFE 0x2B; arguments = memory a ∷ [] }
    /// atomic_row (cases.I32AtomicRmwAnd a) = record
    ///     { op = Prefixed 0xFE 0x2C; arguments = memory a ∷ [] }
    /// atomic_row (cases.I64AtomicRmwAnd a) = record
    ///     { op = Prefixed 0xFE 0x2D; arguments = memory a ∷ [] }
    /// atomic_row (cases.I32AtomicRmw8AndU a) = record
    ///     { op = Prefixed 0xFE 0x2E; arguments = memory a ∷ [] }
    /// atomic_row (cases.I32AtomicRmw16AndU a) = record
    ///     { op = Prefixed 0xFE 0x2F; arguments = memory a ∷ [] }
    /// atomic_row (cases.I64AtomicRmw8AndU a) = record
    ///     { op = Prefixed 0xFE 0x30; arguments = memory a ∷ [] }
    /// atomic_row (cases.I64AtomicRmw16AndU a) = record
    ///     { op = Prefixed 0xFE 0x31; arguments = memory a ∷ [] }
    /// atomic_row (cases.I64AtomicRmw32AndU a) = record
    ///     { op = Prefixed 0xFE 0x32; arguments = memory a ∷ [] }
    /// atomic_row (cases.I32AtomicRmwOr a) = record
    ///     { op = Prefixed 0xFE 0x33; arguments = memory a ∷ [] }
    /// atomic_row (cases.I64AtomicRmwOr a) = record
    ///     { op = Prefixed 0xFE 0x34; arguments = memory a ∷ [] }
    /// atomic_row (cases.I32AtomicRmw8OrU a) = record
    ///     { op = Prefixed 0xFE 0x35; arguments = memory a ∷ [] }
    /// atomic_row (cases.I32AtomicRmw16OrU a) = record
    ///     { op = Prefixed 0xFE 0x36; arguments = memory a ∷ [] }
    /// atomic_row (cases.I64AtomicRmw8OrU a) = record
    ///     { op = Prefixed 0xFE 0x37; arguments = memory a ∷ [] }
    /// atomic_row (cases.I64AtomicRmw16OrU a) = record
    ///     { op = Prefixed 0xFE 0x38; arguments = memory a ∷ [] }
    /// atomic_row (cases.I64AtomicRmw32OrU a) = record
    ///     { op = Prefixed 0xFE 0x39; arguments = memory a ∷ [] }
    /// atomic_row (cases.I32AtomicRmwXor a) = record
    ///     { op = Prefixed 0xFE 0x3A; arguments = memory a ∷ [] }
    /// atomic_row (cases.I64AtomicRmwXor a) = record
    ///     { op = Prefixed 0xFE 0x3B; arguments = memory a ∷ [] }
    /// atomic_row (cases.I32AtomicRmw8XorU a) = record
    ///     { op = Prefixed 0xFE 0x3C; arguments = memory a ∷ [] }
    /// atomic_row (cases.I32AtomicRmw16XorU a) = record
    ///     { op = Prefixed 0xFE 0x3D; arguments = memory a ∷ [] }
    /// atomic_row (cases.I64AtomicRmw8XorU a) = record
    ///     { op = Prefixed 0xFE 0x3E; arguments = memory a ∷ [] }
    /// atomic_row (cases.I64AtomicRmw16XorU a) = record
    ///     { op = Prefixed 0xFE 0x3F; arguments = memory a ∷ [] }
    /// atomic_row (cases.I64AtomicRmw32XorU a) = record
    ///     { op = Prefixed 0xFE 0x40; arguments = memory a ∷ [] }
    /// atomic_row (cases.I32AtomicRmwXchg a) = record
    ///     { op = Prefixed 0xFE 0x41; arguments = memory a ∷ [] }
    /// atomic_row (cases.I64AtomicRmwXchg a) = record
    ///     { op = Prefixed 0xFE 0x42; arguments = memory a ∷ [] }
    /// atomic_row (cases.I32AtomicRmw8XchgU a) = record
    ///     { op = Prefixed 0xFE 0x43; arguments = memory a ∷ [] }
    /// atomic_row (cases.I32AtomicRmw16XchgU a) = record
    ///     { op = Prefixed 0xFE 0x44; arguments = memory a ∷ [] }
    /// atomic_row (cases.I64AtomicRmw8XchgU a) = record
    ///     { op = Prefixed 0xFE 0x45; arguments = memory a ∷ [] }
    /// atomic_row (cases.I64AtomicRmw16XchgU a) = record
    ///     { op = Prefixed 0xFE 0x46; arguments = memory a ∷ [] }
    /// atomic_row (cases.I64AtomicRmw32XchgU a) = record
    ///     { op = Prefixed 0xFE 0x47; arguments = memory a ∷ [] }
    /// atomic_row (cases.I32AtomicRmwCmpxchg a) = record
    ///     { op = Prefixed 0xFE 0x48; arguments = memory a ∷ [] }
    /// atomic_row (cases.I64AtomicRmwCmpxchg a) = record
    ///     { op = Prefixed 0xFE 0x49; arguments = memory a ∷ [] }
    /// atomic_row (cases.I32AtomicRmw8CmpxchgU a) = record
    ///     { op = Prefixed 0xFE 0x4A; arguments = memory a ∷ [] }
    /// atomic_row (cases.I32AtomicRmw16CmpxchgU a) = record
    ///     { op = Prefixed 0xFE 0x4B; arguments = memory a ∷ [] }
    /// atomic_row (cases.I64AtomicRmw8CmpxchgU a) = record
    ///     { op = Prefixed 0xFE 0x4C; arguments = memory a ∷ [] }
    /// atomic_row (cases.I64AtomicRmw16CmpxchgU a) = record
    ///     { op = Prefixed 0xFE 0x4D; arguments = memory a ∷ [] }
    /// atomic_row (cases.I64AtomicRmw32CmpxchgU a) = record
    ///     { op = Prefixed 0xFE 0x4E; arguments = memory a ∷ [] }
    /// atomic_row (cases.GlobalAtomicGet a b) = record
    ///     { op = Prefixed 0xFE 0x4F; arguments = ordering a ∷ unsigned b ∷ [] }
    /// atomic_row (cases.GlobalAtomicSet a b) = record
    ///     { op = Prefixed 0xFE 0x50; arguments = ordering a ∷ unsigned b ∷ [] }
    /// atomic_row (cases.GlobalAtomicRmwAdd a b) = record
    ///     { op = Prefixed 0xFE 0x51; arguments = ordering a ∷ unsigned b ∷ [] }
    /// atomic_row (cases.GlobalAtomicRmwSub a b) = record
    ///     { op = Prefixed 0xFE 0x52; arguments = ordering a ∷ unsigned b ∷ [] }
    /// atomic_row (cases.GlobalAtomicRmwAnd a b) = record
    ///     { op = Prefixed 0xFE 0x53; arguments = ordering a ∷ unsigned b ∷ [] }
    /// atomic_row (cases.GlobalAtomicRmwOr a b) = record
    ///     { op = Prefixed 0xFE 0x54; arguments = ordering a ∷ unsigned b ∷ [] }
    /// atomic_row (cases.GlobalAtomicRmwXor a b) = record
    ///     { op = Prefixed 0xFE 0x55; arguments = ordering a ∷ unsigned b ∷ [] }
    /// atomic_row (cases.GlobalAtomicRmwXchg a b) = record
    ///     { op = Prefixed 0xFE 0x56; arguments = ordering a ∷ unsigned b ∷ [] }
    /// atomic_row (cases.GlobalAtomicRmwCmpxchg a b) = record
    ///     { op = Prefixed 0xFE 0x57; arguments = ordering a ∷ unsigned b ∷ [] }
    /// atomic_row (cases.TableAtomicGet a b) = record
    ///     { op = Prefixed 0xFE 0x58; arguments = ordering a ∷ unsigned b ∷ [] }
    /// atomic_row (cases.TableAtomicSet a b) = record
    ///     { op = Prefixed 0xFE 0x59; arguments = ordering a ∷ unsigned b ∷ [] }
    /// atomic_row (cases.TableAtomicRmwXchg a b) = record
    ///     { op = Prefixed 0xFE 0x5A; arguments = ordering a ∷ unsigned b ∷ [] }
    /// atomic_row (cases.TableAtomicRmwCmpxchg a b) = record
    ///     { op = Prefixed 0xFE 0x5B; arguments = ordering a ∷ unsigned b ∷ [] }
    /// atomic_row (cases.StructAtomicGet a b c) = record
    ///     { op = Prefixed 0xFE 0x5C; arguments = ordering a ∷ unsigned b ∷ unsigned c ∷ [] }
    /// atomic_row (cases.StructAtomicGetS a b c) = record
    ///     { op = Prefixed 0xFE 0x5D; arguments = ordering a ∷ unsigned b ∷ unsigned c ∷ [] }
    /// atomic_row (cases.StructAtomicGetU a b c) = record
    ///     { op = Prefixed 0xFE 0x5E; arguments = ordering a ∷ unsigned b ∷ unsigned c ∷ [] }
    /// atomic_row (cases.StructAtomicSet a b c) = record
    ///     { op = Prefixed 0xFE 0x5F; arguments = ordering a ∷ unsigned b ∷ unsigned c ∷ [] }
    /// atomic_row (cases.StructAtomicRmwAdd a b c) = record
    ///     { op = Prefixed 0xFE 0x60; arguments = ordering a ∷ unsigned b ∷ unsigned c ∷ [] }
    /// atomic_row (cases.StructAtomicRmwSub a b c) = record
    ///     { op = Prefixed 0xFE 0x61; arguments = ordering a ∷ unsigned b ∷ unsigned c ∷ [] }
    /// atomic_row (cases.StructAtomicRmwAnd a b c) = record
    ///     { op = Prefixed 0xFE 0x62; arguments = ordering a ∷ unsigned b ∷ unsigned c ∷ [] }
    /// atomic_row (cases.StructAtomicRmwOr a b c) = record
    ///     { op = Prefixed 0xFE 0x63; arguments = ordering a ∷ unsigned b ∷ unsigned c ∷ [] }
    /// atomic_row (cases.StructAtomicRmwXor a b c) = record
    ///     { op = Prefixed 0xFE 0x64; arguments = ordering a ∷ unsigned b ∷ unsigned c ∷ [] }
    /// atomic_row (cases.StructAtomicRmwXchg a b c) = record
    ///     { op = Prefixed 0xFE 0x65; arguments = ordering a ∷ unsigned b ∷ unsigned c ∷ [] }
    /// atomic_row (cases.StructAtomicRmwCmpxchg a b c) = record
    ///     { op = Prefixed 0xFE 0x66; arguments = ordering a ∷ unsigned b ∷ unsigned c ∷ [] }
    /// atomic_row (cases.ArrayAtomicGet a b) = record
    ///     { op = Prefixed 0xFE 0x67; arguments = ordering a ∷ unsigned b ∷ [] }
    /// atomic_row (cases.ArrayAtomicGetS a b) = record
    ///     { op = Prefixed 0xFE 0x68; arguments = ordering a ∷ unsigned b ∷ [] }
    /// atomic_row (cases.ArrayAtomicGetU a b) = record
    ///     { op = Prefixed 0xFE 0x69; arguments = ordering a ∷ unsigned b ∷ [] }
    /// atomic_row (cases.ArrayAtomicSet a b) = record
    ///     { op = Prefixed 0xFE 0x6A; arguments = ordering a ∷ unsigned b ∷ [] }
    /// atomic_row (cases.ArrayAtomicRmwAdd a b) = record
    ///     { op = Prefixed 0xFE 0x6B; arguments = ordering a ∷ unsigned b ∷ [] }
    /// atomic_row (cases.ArrayAtomicRmwSub a b) = record
    ///     { op = Prefixed 0xFE 0x6C; arguments = ordering a ∷ unsigned b ∷ [] }
    /// atomic_row (cases.ArrayAtomicRmwAnd a b) = record
    ///     { op = Prefixed 0xFE 0x6D; arguments = ordering a ∷ unsigned b ∷ [] }
    /// atomic_row (cases.ArrayAtomicRmwOr a b) = record
    ///     { op = Prefixed 0xFE 0x6E; arguments = ordering a ∷ unsigned b ∷ [] }
    /// atomic_row (cases.ArrayAtomicRmwXor a b) = record
    ///     { op = Prefixed 0xFE 0x6F; arguments = ordering a ∷ unsigned b ∷ [] }
    /// atomic_row (cases.ArrayAtomicRmwXchg a b) = record
    ///     { op = Prefixed 0xFE 0x70; arguments = ordering a ∷ unsigned b ∷ [] }
    /// atomic_row (cases.ArrayAtomicRmwCmpxchg a b) = record
    ///     { op = Prefixed 0xFE 0x71; arguments = ordering a ∷ unsigned b ∷ [] }
    /// atomic_row cases.RefI31Shared = record { op = Prefixed 0xFE 0x72; arguments = [] }
    /// ```
    ///
    /// Definitions: [`Plain`](plain::Plain), [`memory`](arguments::Argument), [`ordering`](arguments::Argument), [`unsigned`](arguments::Argument).
    type atomic_row;
}

/// A value of each case of an instruction, in the order of the opcode table.
///
/// [How to read definitions](super). The file is [`Cases.antt`](https://github.com/dolzhytik/dolzhytik/blob/main/crates/wasm_insn/specs/Cases.antt).
pub trait cases {
    /// The fields of the cases in [`all_cases`](cases::all_cases).
    ///
    /// ```text
    /// pub record Given (A : Type 0) : Type 0 where
    ///   pub index : ℕ
    ///   pub second_index : ℕ
    ///   pub lane : ℕ
    ///   pub lanes : List ℕ
    ///   pub signed : ℤ
    ///   pub float32 : Ieee32
    ///   pub float64 : Ieee64
    ///   pub memory : MemArg
    ///   pub ordering : Ordering
    ///   pub block : BlockType
    ///   pub heap : HeapType
    ///   pub from : RefType
    ///   pub to : RefType
    ///   pub value : ValType
    ///   pub labels : CowSlice ℕ A
    ///   pub catches : CowSlice Catch A
    ///   pub types : CowSlice ValType A
    ///   pub handles : CowSlice Handle A
    /// ```
    type Given;
    /// Each case of the enums once, with these fields.
    ///
    /// ```text
    /// abbrev pub all_cases : {A : Type 0} → Given A → List (Instruction A)
    /// all_cases given =
    ///     cases.Unreachable ∷
    ///     cases.Nop ∷
    ///     cases.Block given.block ∷
    ///     cases.Loop given.block ∷
    ///     cases.If given.block ∷
    ///     cases.Else ∷
    ///     cases.Try given.block ∷
    ///     cases.Catch given.index ∷
    ///     cases.Throw given.index ∷
    ///     cases.Rethrow given.index ∷
    ///     cases.ThrowRef ∷
    ///     cases.End ∷
    ///     cases.Br given.index ∷
    ///     cases.BrIf given.index ∷
    ///     cases.BrTable given.labels given.index ∷
    ///     cases.Return ∷
    ///     cases.Call given.index ∷
    ///     cases.CallIndirect given.index given.second_index ∷
    ///     cases.ReturnCall given.index ∷
    ///     cases.ReturnCallIndirect given.index given.second_index ∷
    ///     cases.CallRef given.index ∷
    ///     cases.ReturnCallRef given.index ∷
    ///     cases.Delegate given.index ∷
    ///     cases.CatchAll ∷
    ///     cases.Drop ∷
    ///     cases.Select ∷
    ///     cases.TypedSelect given.value ∷
    ///     cases.TypedSelectMulti given.types ∷
    ///     cases.TryTable given.block given.catches ∷
    ///     cases.LocalGet given.index ∷
    ///     cases.LocalSet given.index ∷
    ///     cases.LocalTee given.index ∷
    ///     cases.GlobalGet given.index ∷
    ///     cases.GlobalSet given.index ∷
    ///     cases.TableGet given.index ∷
    ///     cases.TableSet given.index ∷
    ///     cases.I32Load given.memory ∷
    ///     cases.I64Load given.memory ∷
    ///     cases.F32Load given.memory ∷
    ///     cases.F64Load given.memory ∷
    ///     cases.I32Load8S given.memory ∷
    ///     cases.I32Load8U given.memory ∷
    ///     cases.I32Load16S given.memory ∷
    ///     cases.I32Load16U given.memory ∷
    ///     cases.I64Load8S given.memory ∷
    ///     cases.I64Load8U given.memory ∷
    ///     cases.I64Load16S given.memory ∷
    ///     cases.I64Load16U given.memory ∷
    ///     cases.I64Load32S given.memory ∷
    ///     cases.I64Load32U given.memory ∷
    ///     cases.I32Store given.memory ∷
    ///     cases.I64Store given.memory ∷
    ///     cases.F32Store given.memory ∷
    ///     cases.F64Store given.memory ∷
    ///     cases.I32Store8 given.memory ∷
    ///     cases.I32Store16 given.memory ∷
    ///     cases.I64Store8 given.memory ∷
    ///     cases.I64Store16 given.memory ∷
    ///     cases.I64Store32 given.memory ∷
    ///     cases.MemorySize given.index ∷
    ///     cases.MemoryGrow given.index ∷
    ///     cases.I32Const given.signed ∷
    ///     cases.I64Const given.signed ∷
    ///     cases.F32Const given.float32 ∷
    ///     cases.F64Const given.float64 ∷
    ///     cases.Numeric numeric.I32Eqz ∷
    ///     cases.Numeric numeric.I32Eq ∷
    ///     cases.Numeric numeric.I32Ne ∷
    ///     cases.Numeric numeric.I32LtS ∷
    ///     cases.Numeric numeric.I32LtU ∷
    ///     cases.Numeric numeric.I32GtS ∷
    ///     cases.Numeric numeric.I32GtU ∷
    ///     cases.Numeric numeric.I32LeS ∷
    ///     cases.Numeric numeric.I32LeU ∷
    ///     cases.Numeric numeric.I32GeS ∷
    ///     cases.Numeric numeric.I32GeU ∷
    ///     cases.Numeric numeric.I64Eqz ∷
    ///     cases.Numeric numeric.I64Eq ∷
    ///     cases.Numeric numeric.I64Ne ∷
    ///     cases.Numeric numeric.I64LtS ∷
    ///     cases.Numeric numeric.I64LtU ∷
    ///     cases.Numeric numeric.I64GtS ∷
    ///     cases.Numeric numeric.I64GtU ∷
    ///     cases.Numeric numeric.I64LeS ∷
    ///     cases.Numeric numeric.I64LeU ∷
    ///     cases.Numeric numeric.I64GeS ∷
    ///     cases.Numeric numeric.I64GeU ∷
    ///     cases.Numeric numeric.F32Eq ∷
    ///     cases.Numeric numeric.F32Ne ∷
    ///     cases.Numeric numeric.F32Lt ∷
    ///     cases.Numeric numeric.F32Gt ∷
    ///     cases.Numeric numeric.F32Le ∷
    ///     cases.Numeric numeric.F32Ge ∷
    ///     cases.Numeric numeric.F64Eq ∷
    ///     cases.Numeric numeric.F64Ne ∷
    ///     cases.Numeric numeric.F64Lt ∷
    ///     cases.Numeric numeric.F64Gt ∷
    ///     cases.Numeric numeric.F64Le ∷
    ///     cases.Numeric numeric.F64Ge ∷
    ///     cases.Numeric numeric.I32Clz ∷
    ///     cases.Numeric numeric.I32Ctz ∷
    ///     cases.Numeric numeric.I32Popcnt ∷
    ///     cases.Numeric numeric.I32Add ∷
    ///     cases.Numeric numeric.I32Sub ∷
    ///     cases.Numeric numeric.I32Mul ∷
    ///     cases.Numeric numeric.I32DivS ∷
    ///     cases.Numeric numeric.I32DivU ∷
    ///     cases.Numeric numeric.I32RemS ∷
    ///     cases.Numeric numeric.I32RemU ∷
    ///     cases.Numeric numeric.I32And ∷
    ///     cases.Numeric numeric.I32Or ∷
    ///     cases.Numeric numeric.I32Xor ∷
    ///     cases.Numeric numeric.I32Shl ∷
    ///     cases.Numeric numeric.I32ShrS ∷
    ///     cases.Numeric numeric.I32ShrU ∷
    ///     cases.Numeric numeric.I32Rotl ∷
    ///     cases.Numeric numeric.I32Rotr ∷
    ///     cases.Numeric numeric.I64Clz ∷
    ///     cases.Numeric numeric.I64Ctz ∷
    ///     cases.Numeric numeric.I64Popcnt ∷
    ///     cases.Numeric numeric.I64Add ∷
    ///     cases.Numeric numeric.I64Sub ∷
    ///     cases.Numeric numeric.I64Mul ∷
    ///     cases.Numeric numeric.I64DivS ∷
    ///     cases.Numeric numeric.I64DivU ∷
    ///     cases.Numeric numeric.I64RemS ∷
    ///     cases.Numeric numeric.I64RemU ∷
    ///     cases.Numeric numeric.I64And ∷
    ///     cases.Numeric numeric.I64Or ∷
    ///     cases.Numeric numeric.I64Xor ∷
    ///     cases.Numeric numeric.I64Shl ∷
    ///     cases.Numeric numeric.I64ShrS ∷
    ///     cases.Numeric numeric.I64ShrU ∷
    ///     cases.Numeric numeric.I64Rotl ∷
    ///     cases.Numeric numeric.I64Rotr ∷
    ///     cases.Numeric numeric.F32Abs ∷
    ///     cases.Numeric numeric.F32Neg ∷
    ///     cases.Numeric numeric.F32Ceil ∷
    ///     cases.Numeric numeric.F32Floor ∷
    ///     cases.Numeric numeric.F32Trunc ∷
    ///     cases.Numeric numeric.F32Nearest ∷
    ///     cases.Numeric numeric.F32Sqrt ∷
    ///     cases.Numeric numeric.F32Add ∷
    ///     cases.Numeric numeric.F32Sub ∷
    ///     cases.Numeric numeric.F32Mul ∷
    ///     cases.Numeric numeric.F32Div ∷
    ///     cases.Numeric numeric.F32Min ∷
    ///     cases.Numeric numeric.F32Max ∷
    ///     cases.Numeric numeric.F32Copysign ∷
    ///     cases.Numeric numeric.F64Abs ∷
    ///     cases.Numeric numeric.F64Neg ∷
    ///     cases.Numeric numeric.F64Ceil ∷
    ///     cases.Numeric numeric.F64Floor ∷
    ///     cases.Numeric numeric.F64Trunc ∷
    ///     cases.Numeric numeric.F64Nearest ∷
    ///     cases.Numeric numeric.F64Sqrt ∷
    ///     cases.Numeric numeric.F64Add ∷
    ///     cases.Numeric numeric.F64Sub ∷
    ///     cases.Numeric numeric.F64Mul ∷
    ///     cases.Numeric numeric.F64Div ∷
    ///     cases.Numeric numeric.F64Min ∷
    ///     cases.Numeric numeric.F64Max ∷
    ///     cases.Numeric numeric.F64Copysign ∷
    ///     cases.Numeric numeric.I32WrapI64 ∷
    ///     cases.Numeric numeric.I32TruncF32S ∷
    ///     cases.Numeric numeric.I32TruncF32U ∷
    ///     cases.Numeric numeric.I32TruncF64S ∷
    ///     cases.Numeric numeric.I32TruncF64U ∷
    ///     cases.Numeric numeric.I64ExtendI32S ∷
    ///     cases.Numeric numeric.I64ExtendI32U ∷
    ///     cases.Numeric numeric.I64TruncF32S ∷
    ///     cases.Numeric numeric.I64TruncF32U ∷
    ///     cases.Numeric numeric.I64TruncF64S ∷
    ///     cases.Numeric numeric.I64TruncF64U ∷
    ///     cases.Numeric numeric.F32ConvertI32S ∷
    ///     cases.Numeric numeric.F32ConvertI32U ∷
    ///     cases.Numeric numeric.F32ConvertI64S ∷
    ///     cases.Numeric numeric.F32ConvertI64U ∷
    ///     cases.Numeric numeric.F32DemoteF64 ∷
    ///     cases.Numeric numeric.F64ConvertI32S ∷
    ///     cases.Numeric numeric.F64ConvertI32U ∷
    ///     cases.Numeric numeric.F64ConvertI64S ∷
    ///     cases.Numeric numeric.F64ConvertI64U ∷
    ///     cases.Numeric numeric.F64PromoteF32 ∷
    ///     cases.Numeric numeric.I32ReinterpretF32 ∷
    ///     cases.Numeric numeric.I64ReinterpretF64 ∷
    ///     cases.Numeric numeric.F32ReinterpretI32 ∷
    ///     cases.Numeric numeric.F64ReinterpretI64 ∷
    ///     cases.Numeric numeric.I32Extend8S ∷
    ///     cases.Numeric numeric.I32Extend16S ∷
    ///     cases.Numeric numeric.I64Extend8S ∷
    ///     cases.Numeric numeric.I64Extend16S ∷
    ///     cases.Numeric numeric.I64Extend32S ∷
    ///     cases.RefNull given.heap ∷
    ///     cases.RefIsNull ∷
    ///     cases.RefFunc given.index ∷
    ///     cases.RefEq ∷
    ///     cases.RefAsNonNull ∷
    ///     cases.BrOnNull given.index ∷
    ///     cases.BrOnNonNull given.index ∷
    ///     cases.ContNew given.index ∷
    ///     cases.ContBind given.index given.second_index ∷
    ///     cases.Suspend given.index ∷
    ///     cases.Resume given.index given.handles ∷
    ///     cases.ResumeThrow given.index given.second_index given.handles ∷
    ///     cases.ResumeThrowRef given.index given.handles ∷
    ///     cases.Switch given.index given.second_index ∷
    ///     cases.StructNew given.index ∷
    ///     cases.StructNewDefault given.index ∷
    ///     cases.StructGet given.index given.second_index ∷
    ///     cases.StructGetS given.index given.second_index ∷
    ///     cases.StructGetU given.index given.second_index ∷
    ///     cases.StructSet given.index given.second_index ∷
    ///     cases.ArrayNew given.index ∷
    ///     cases.ArrayNewDefault given.index ∷
    ///     cases.ArrayNewFixed given.index given.second_index ∷
    ///     cases.ArrayNewData given.index given.second_index ∷
    ///     cases.ArrayNewElem given.index given.second_index ∷
    ///     cases.ArrayGet given.index ∷
    ///     cases.ArrayGetS given.index ∷
    ///     cases.ArrayGetU given.index ∷
    ///     cases.ArraySet given.index ∷
    ///     cases.Aggregate aggregate.ArrayLen ∷
    ///     cases.ArrayFill given.index ∷
    ///     cases.ArrayCopy given.index given.second_index ∷
    ///     cases.ArrayInitData given.index given.second_index ∷
    ///     cases.ArrayInitElem given.index given.second_index ∷
    ///     cases.RefTestNonNull given.heap ∷
    ///     cases.RefTestNullable given.heap ∷
    ///     cases.RefCastNonNull given.heap ∷
    ///     cases.RefCastNullable given.heap ∷
    ///     cases.BrOnCast given.index given.from given.to ∷
    ///     cases.BrOnCastFail given.index given.from given.to ∷
    ///     cases.Aggregate aggregate.AnyConvertExtern ∷
    ///     cases.Aggregate aggregate.ExternConvertAny ∷
    ///     cases.Aggregate aggregate.RefI31 ∷
    ///     cases.Aggregate aggregate.I31GetS ∷
    ///     cases.Aggregate aggregate.I31GetU ∷
    ///     cases.StructNewDesc given.index ∷
    ///     cases.StructNewDefaultDesc given.index ∷
    ///     cases.RefGetDesc given.index ∷
    ///     cases.RefCastDescEqNonNull given.heap ∷
    ///     cases.RefCastDescEqNullable given.heap ∷
    ///     cases.BrOnCastDescEq given.index given.from given.to ∷
    ///     cases.BrOnCastDescEqFail given.index given.from given.to ∷
    ///     cases.PrefixedNumeric prefixed_numeric.I32TruncSatF32S ∷
    ///     cases.PrefixedNumeric prefixed_numeric.I32TruncSatF32U ∷
    ///     cases.PrefixedNumeric prefixed_numeric.I32TruncSatF64S ∷
    ///     cases.PrefixedNumeric prefixed_numeric.I32TruncSatF64U ∷
    ///     cases.PrefixedNumeric prefixed_numeric.I64TruncSatF32S ∷
    ///     cases.PrefixedNumeric prefixed_numeric.I64TruncSatF32U ∷
    ///     cases.PrefixedNumeric prefixed_numeric.I64TruncSatF64S ∷
    ///     cases.PrefixedNumeric prefixed_numeric.I64TruncSatF64U ∷
    ///     cases.MemoryInit given.index given.second_index ∷
    ///     cases.DataDrop given.index ∷
    ///     cases.MemoryCopy given.index given.second_index ∷
    ///     cases.MemoryFill given.index ∷
    ///     cases.TableInit given.index given.second_index ∷
    ///     cases.ElemDrop given.index ∷
    ///     cases.TableCopy given.index given.second_index ∷
    ///     cases.TableGrow given.index ∷
    ///     cases.TableSize given.index ∷
    ///     cases.TableFill given.index ∷
    ///     cases.MemoryDiscard given.index ∷
    ///     cases.PrefixedNumeric prefixed_numeric.I64Add128 ∷
    ///     cases.PrefixedNumeric prefixed_numeric.I64Sub128 ∷
    ///     cases.PrefixedNumeric prefixed_numeric.I64MulWideS ∷
    ///     cases.PrefixedNumeric prefixed_numeric.I64MulWideU ∷
    ///     cases.VectorImmediate (vector_immediate.V128Load given.memory) ∷
    ///     cases.VectorImmediate (vector_immediate.V128Load8x8S given.memory) ∷
    ///     cases.VectorImmediate (vector_immediate.V128Load8x8U given.memory) ∷
    ///     cases.VectorImmediate (vector_immediate.V128Load16x4S given.memory) ∷
    ///     cases.VectorImmediate (vector_immediate.V128Load16x4U given.memory) ∷
    ///     cases.VectorImmediate (vector_immediate.V128Load32x2S given.memory) ∷
    ///     cases.VectorImmediate (vector_immediate.V128Load32x2U given.memory) ∷
    ///     cases.VectorImmediate (vector_immediate.V128Load8Splat given.memory) ∷
    ///     cases.VectorImmediate (vector_immediate.V128Load16Splat given.memory) ∷
    ///     cases.VectorImmediate (vector_immediate.V128Load32Splat given.memory) ∷
    ///     cases.VectorImmediate (vector_immediate.V128Load64Splat given.memory) ∷
    ///     cases.VectorImmediate (vector_immediate.V128Store given.memory) ∷
    ///     cases.VectorImmediate (vector_immediate.V128Const given.signed) ∷
    ///     cases.VectorImmediate (vector_immediate.I8x16Shuffle given.lanes) ∷
    ///     cases.Vector vector.I8x16Swizzle ∷
    ///     cases.Vector vector.I8x16Splat ∷
    ///     cases.Vector vector.I16x8Splat ∷
    ///     cases.Vector vector.I32x4Splat ∷
    ///     cases.Vector vector.I64x2Splat ∷
    ///     cases.Vector vector.F32x4Splat ∷
    ///     cases.Vector vector.F64x2Splat ∷
    ///     cases.VectorImmediate (vector_immediate.I8x16ExtractLaneS given.lane) ∷
    ///     cases.VectorImmediate (vector_immediate.I8x16ExtractLaneU given.lane) ∷
    ///     cases.VectorImmediate (vector_immediate.I8x16ReplaceLane given.lane) ∷
    ///     cases.VectorImmediate (vector_immediate.I16x8ExtractLaneS given.lane) ∷
    ///     cases.VectorImmediate (vector_immediate.I16x8ExtractLaneU given.lane) ∷
    ///     cases.VectorImmediate (vector_immediate.I16x8ReplaceLane given.lane) ∷
    ///     cases.VectorImmediate (vector_immediate.I32x4ExtractLane given.lane) ∷
    ///     cases.VectorImmediate (vector_immediate.I32x4ReplaceLane given.lane) ∷
    ///     cases.VectorImmediate (vector_immediate.I64x2ExtractLane given.lane) ∷
    ///     cases.VectorImmediate (vector_immediate.I64x2ReplaceLane given.lane) ∷
    ///     cases.VectorImmediate (vector_immediate.F32x4ExtractLane given.lane) ∷
    ///     cases.VectorImmediate (vector_immediate.F32x4ReplaceLane given.lane) ∷
    ///     cases.VectorImmediate (vector_immediate.F64x2ExtractLane given.lane) ∷
    ///     cases.VectorImmediate (vector_immediate.F64x2ReplaceLane given.lane) ∷
    ///     cases.Vector vector.I8x16Eq ∷
    ///     cases.Vector vector.I8x16Ne ∷
    ///     cases.Vector vector.I8x16LtS ∷
    ///     cases.Vector vector.I8x16LtU ∷
    ///     cases.Vector vector.I8x16GtS ∷
    ///     cases.Vector vector.I8x16GtU ∷
    ///     cases.Vector vector.I8x16LeS ∷
    ///     cases.Vector vector.I8x16LeU ∷
    ///     cases.Vector vector.I8x16GeS ∷
    ///     cases.Vector vector.I8x16GeU ∷
    ///     cases.Vector vector.I16x8Eq ∷
    ///     cases.Vector vector.I16x8Ne ∷
    ///     cases.Vector vector.I16x8LtS ∷
    ///     cases.Vector vector.I16x8LtU ∷
    ///     cases.Vector vector.I16x8GtS ∷
    ///     cases.Vector vector.I16x8GtU ∷
    ///     cases.Vector vector.I16x8LeS ∷
    ///     cases.Vector vector.I16x8LeU ∷
    ///     cases.Vector vector.I16x8GeS ∷
    ///     cases.Vector vector.I16x8GeU ∷
    ///     cases.Vector vector.I32x4Eq ∷
    ///     cases.Vector vector.I32x4Ne ∷
    ///     cases.Vector vector.I32x4LtS ∷
    ///     cases.Vector vector.I32x4LtU ∷
    ///     cases.Vector vector.I32x4GtS ∷
    ///     cases.Vector vector.I32x4GtU ∷
    ///     cases.Vector vector.I32x4LeS ∷
    ///     cases.Vector vector.I32x4LeU ∷
    ///     cases.Vector vector.I32x4GeS ∷
    ///     cases.Vector vector.I32x4GeU ∷
    ///     cases.Vector vector.F32x4Eq ∷
    ///     cases.Vector vector.F32x4Ne ∷
    ///     cases.Vector vector.F32x4Lt ∷
    ///     cases.Vector vector.F32x4Gt ∷
    ///     cases.Vector vector.F32x4Le ∷
    ///     cases.Vector vector.F32x4Ge ∷
    ///     cases.Vector vector.F64x2Eq ∷
    ///     cases.Vector vector.F64x2Ne ∷
    ///     cases.Vector vector.F64x2Lt ∷
    ///     cases.Vector vector.F64x2Gt ∷
    ///     cases.Vector vector.F64x2Le ∷
    ///     cases.Vector vector.F64x2Ge ∷
    ///     cases.Vector vector.V128Not ∷
    ///     cases.Vector vector.V128And ∷
    ///     cases.Vector vector.V128AndNot ∷
    ///     cases.Vector vector.V128Or ∷
    ///     cases.Vector vector.V128Xor ∷
    ///     cases.Vector vector.V128Bitselect ∷
    ///     cases.Vector vector.V128AnyTrue ∷
    ///     cases.VectorImmediate (vector_immediate.V128Load8Lane given.memory given.lane) ∷
    ///     cases.VectorImmediate (vector_immediate.V128Load16Lane given.memory given.lane) ∷
    ///     cases.VectorImmediate (vector_immediate.V128Load32Lane given.memory given.lane) ∷
    ///     cases.VectorImmediate (vector_immediate.V128Load64Lane given.memory given.lane) ∷
    ///     cases.VectorImmediate (vector_immediate.V128Store8Lane given.memory given.lane) ∷
    ///     cases.VectorImmediate (vector_immediate.V128Store16Lane given.memory given.lane) ∷
    ///     cases.VectorImmediate (vector_immediate.V128Store32Lane given.memory given.lane) ∷
    ///     cases.VectorImmediate (vector_immediate.V128Store64Lane given.memory given.lane) ∷
    ///     cases.VectorImmediate (vector_immediate.V128Load32Zero given.memory) ∷
    ///     cases.VectorImmediate (vector_immediate.V128Load64Zero given.memory) ∷
    ///     cases.Vector vector.F32x4DemoteF64x2Zero ∷
    ///     cases.Vector vector.F64x2PromoteLowF32x4 ∷
    ///     cases.Vector vector.I8x16Abs ∷
    ///     cases.Vector vector.I8x16Neg ∷
    ///     cases.Vector vector.I8x16Popcnt ∷
    ///     cases.Vector vector.I8x16AllTrue ∷
    ///     cases.Vector vector.I8x16Bitmask ∷
    ///     cases.Vector vector.I8x16NarrowI16x8S ∷
    ///     cases.Vector vector.I8x16NarrowI16x8U ∷
    ///     cases.Vector vector.F32x4Ceil ∷
    ///     cases.Vector vector.F32x4Floor ∷
    ///     cases.Vector vector.F32x4Trunc ∷
    ///     cases.Vector vector.F32x4Nearest ∷
    ///     cases.Vector vector.I8x16Shl ∷
    ///     cases.Vector vector.I8x16ShrS ∷
    ///     cases.Vector vector.I8x16ShrU ∷
    ///     cases.Vector vector.I8x16Add ∷
    ///     cases.Vector vector.I8x16AddSatS ∷
    ///     cases.Vector vector.I8x16AddSatU ∷
    ///     cases.Vector vector.I8x16Sub ∷
    ///     cases.Vector vector.I8x16SubSatS ∷
    ///     cases.Vector vector.I8x16SubSatU ∷
    ///     cases.Vector vector.F64x2Ceil ∷
    ///     cases.Vector vector.F64x2Floor ∷
    ///     cases.Vector vector.I8x16MinS ∷
    ///     cases.Vector vector.I8x16MinU ∷
    ///     cases.Vector vector.I8x16MaxS ∷
    ///     cases.Vector vector.I8x16MaxU ∷
    ///     cases.Vector vector.F64x2Trunc ∷
    ///     cases.Vector vector.I8x16AvgrU ∷
    ///     cases.Vector vector.I16x8ExtAddPairwiseI8x16S ∷
    ///     cases.Vector vector.I16x8ExtAddPairwiseI8x16U ∷
    ///     cases.Vector vector.I32x4ExtAddPairwiseI16x8S ∷
    ///     cases.Vector vector.I32x4ExtAddPairwiseI16x8U ∷
    ///     cases.Vector vector.I16x8Abs ∷
    ///     cases.Vector vector.I16x8Neg ∷
    ///     cases.Vector vector.I16x8Q15MulrSatS ∷
    ///     cases.Vector vector.I16x8AllTrue ∷
    ///     cases.Vector vector.I16x8Bitmask ∷
    ///     cases.Vector vector.I16x8NarrowI32x4S ∷
    ///     cases.Vector vector.I16x8NarrowI32x4U ∷
    ///     cases.Vector vector.I16x8ExtendLowI8x16S ∷
    ///     cases.Vector vector.I16x8ExtendHighI8x16S ∷
    ///     cases.Vector vector.I16x8ExtendLowI8x16U ∷
    ///     cases.Vector vector.I16x8ExtendHighI8x16U ∷
    ///     cases.Vector vector.I16x8Shl ∷
    ///     cases.Vector vector.I16x8ShrS ∷
    ///     cases.Vector vector.I16x8ShrU ∷
    ///     cases.Vector vector.I16x8Add ∷
    ///     cases.Vector vector.I16x8AddSatS ∷
    ///     cases.Vector vector.I16x8AddSatU ∷
    ///     cases.Vector vector.I16x8Sub ∷
    ///     cases.Vector vector.I16x8SubSatS ∷
    ///     cases.Vector vector.I16x8SubSatU ∷
    ///     cases.Vector vector.F64x2Nearest ∷
    ///     cases.Vector vector.I16x8Mul ∷
    ///     cases.Vector vector.I16x8MinS ∷
    ///     cases.Vector vector.I16x8MinU ∷
    ///     cases.Vector vector.I16x8MaxS ∷
    ///     cases.Vector vector.I16x8MaxU ∷
    ///     cases.Vector vector.I16x8AvgrU ∷
    ///     cases.Vector vector.I16x8ExtMulLowI8x16S ∷
    ///     cases.Vector vector.I16x8ExtMulHighI8x16S ∷
    ///     cases.Vector vector.I16x8ExtMulLowI8x16U ∷
    ///     cases.Vector vector.I16x8ExtMulHighI8x16U ∷
    ///     cases.Vector vector.I32x4Abs ∷
    ///     cases.Vector vector.I32x4Neg ∷
    ///     cases.Vector vector.I32x4AllTrue ∷
    ///     cases.Vector vector.I32x4Bitmask ∷
    ///     cases.Vector vector.I32x4ExtendLowI16x8S ∷
    ///     cases.Vector vector.I32x4ExtendHighI16x8S ∷
    ///     cases.Vector vector.I32x4ExtendLowI16x8U ∷
    ///     cases.Vector vector.I32x4ExtendHighI16x8U ∷
    ///     cases.Vector vector.I32x4Shl ∷
    ///     cases.Vector vector.I32x4ShrS ∷
    ///     cases.Vector vector.I32x4ShrU ∷
    ///     cases.Vector vector.I32x4Add ∷
    ///     cases.Vector vector.I32x4Sub ∷
    ///     cases.Vector vector.I32x4Mul ∷
    ///     cases.Vector vector.I32x4MinS ∷
    ///     cases.Vector vector.I32x4MinU ∷
    ///     cases.Vector vector.I32x4MaxS ∷
    ///     cases.Vector vector.I32x4MaxU ∷
    ///     cases.Vector vector.I32x4DotI16x8S ∷
    ///     cases.Vector vector.I32x4ExtMulLowI16x8S ∷
    ///     cases.Vector vector.I32x4ExtMulHighI16x8S ∷
    ///     cases.Vector vector.I32x4ExtMulLowI16x8U ∷
    ///     cases.Vector vector.I32x4ExtMulHighI16x8U ∷
    ///     cases.Vector vector.I64x2Abs ∷
    ///     cases.Vector vector.I64x2Neg ∷
    ///     cases.Vector vector.I64x2AllTrue ∷
    ///     cases.Vector vector.I64x2Bitmask ∷
    ///     cases.Vector vector.I64x2ExtendLowI32x4S ∷
    ///     cases.Vector vector.I64x2ExtendHighI32x4S ∷
    ///     cases.Vector vector.I64x2ExtendLowI32x4U ∷
    ///     cases.Vector vector.I64x2ExtendHighI32x4U ∷
    ///     cases.Vector vector.I64x2Shl ∷
    ///     cases.Vector vector.I64x2ShrS ∷
    ///     cases.Vector vector.I64x2ShrU ∷
    ///     cases.Vector vector.I64x2Add ∷
    ///     cases.Vector vector.I64x2Sub ∷
    ///     cases.Vector vector.I64x2Mul ∷
    ///     cases.Vector vector.I64x2Eq ∷
    ///     cases.Vector vector.I64x2Ne ∷
    ///     cases.Vector vector.I64x2LtS ∷
    ///     cases.Vector vector.I64x2GtS ∷
    ///     cases.Vector vector.I64x2LeS ∷
    ///     cases.Vector vector.I64x2GeS ∷
    ///     cases.Vector vector.I64x2ExtMulLowI32x4S ∷
    ///     cases.Vector vector.I64x2ExtMulHighI32x4S ∷
    ///     cases.Vector vector.I64x2ExtMulLowI32x4U ∷
    ///     cases.Vector vector.I64x2ExtMulHighI32x4U ∷
    ///     cases.Vector vector.F32x4Abs ∷
    ///     cases.Vector vector.F32x4Neg ∷
    ///     cases.Vector vector.F32x4Sqrt ∷
    ///     cases.Vector vector.F32x4Add ∷
    ///     cases.Vector vector.F32x4Sub ∷
    ///     cases.Vector vector.F32x4Mul ∷
    ///     cases.Vector vector.F32x4Div ∷
    ///     cases.Vector vector.F32x4Min ∷
    ///     cases.Vector vector.F32x4Max ∷
    ///     cases.Vector vector.F32x4PMin ∷
    ///     cases.Vector vector.F32x4PMax ∷
    ///     cases.Vector vector.F64x2Abs ∷
    ///     cases.Vector vector.F64x2Neg ∷
    ///     cases.Vector vector.F64x2Sqrt ∷
    ///     cases.Vector vector.F64x2Add ∷
    ///     cases.Vector vector.F64x2Sub ∷
    ///     cases.Vector vector.F64x2Mul ∷
    ///     cases.Vector vector.F64x2Div ∷
    ///     cases.Vector vector.F64x2Min ∷
    ///     cases.Vector vector.F64x2Max ∷
    ///     cases.Vector vector.F64x2PMin ∷
    ///     cases.Vector vector.F64x2PMax ∷
    ///     cases.Vector vector.I32x4TruncSatF32x4S ∷
    ///     cases.Vector vector.I32x4TruncSatF32x4U ∷
    ///     cases.Vector vector.F32x4ConvertI32x4S ∷
    ///     cases.Vector vector.F32x4ConvertI32x4U ∷
    ///     cases.Vector vector.I32x4TruncSatF64x2SZero ∷
    ///     cases.Vector vector.I32x4TruncSatF64x2UZero ∷
    ///     cases.Vector vector.F64x2ConvertLowI32x4S ∷
    ///     cases.Vector vector.F64x2ConvertLowI32x4U ∷
    ///     cases.Vector vector.I8x16RelaxedSwizzle ∷
    ///     cases.Vector vector.I32x4RelaxedTruncF32x4S ∷
    ///     cases.Vector vector.I32x4RelaxedTruncF32x4U ∷
    ///     cases.Vector vector.I32x4RelaxedTruncF64x2SZero ∷
    ///     cases.Vector vector.I32x4RelaxedTruncF64x2UZero ∷
    ///     cases.Vector vector.F32x4RelaxedMadd ∷
    ///     cases.Vector vector.F32x4RelaxedNmadd ∷
    ///     cases.Vector vector.F64x2RelaxedMadd ∷
    ///     cases.Vector vector.F64x2RelaxedNmadd ∷
    ///     cases.Vector vector.I8x16RelaxedLaneselect ∷
    ///     cases.Vector vector.I16x8RelaxedLaneselect ∷
    ///     cases.Vector vector.I32x4RelaxedLaneselect ∷
    ///     cases.Vector vector.I64x2RelaxedLaneselect ∷
    ///     cases.Vector vector.F32x4RelaxedMin ∷
    ///     cases.Vector vector.F32x4RelaxedMax ∷
    ///     cases.Vector vector.F64x2RelaxedMin ∷
    ///     cases.Vector vector.F64x2RelaxedMax ∷
    ///     cases.Vector vector.I16x8RelaxedQ15mulrS ∷
    ///     cases.Vector vector.I16x8RelaxedDotI8x16I7x16S ∷
    ///     cases.Vector vector.I32x4RelaxedDotI8x16I7x16AddS ∷
    ///     cases.Atomic (atomic.MemoryAtomicNotify given.memory) ∷
    ///     cases.Atomic (atomic.MemoryAtomicWait32 given.memory) ∷
    ///     cases.Atomic (atomic.MemoryAtomicWait64 given.memory) ∷
    ///     cases.Atomic (atomic.AtomicFence given.ordering) ∷
    ///     cases.Atomic atomic.Pause ∷
    ///     cases.Atomic (atomic.I32AtomicLoad given.memory) ∷
    ///     cases.Atomic (atomic.I64AtomicLoad given.memory) ∷
    ///     cases.Atomic (atomic.I32AtomicLoad8U given.memory) ∷
    ///     cases.Atomic (atomic.I32AtomicLoad16U given.memory) ∷
    ///     cases.Atomic (atomic.I64AtomicLoad8U given.memory) ∷
    ///     cases.Atomic (atomic.I64AtomicLoad16U given.memory) ∷
    ///     cases.Atomic (atomic.I64AtomicLoad32U given.memory) ∷
    ///     cases.Atomic (atomic.I32AtomicStore given.memory) ∷
    ///     cases.Atomic (atomic.I64AtomicStore given.memory) ∷
    ///     cases.Atomic (atomic.I32AtomicStore8 given.memory) ∷
    ///     cases.Atomic (atomic.I32AtomicStore16 given.memory) ∷
    ///     cases.Atomic (atomic.I64AtomicStore8 given.memory) ∷
    ///     cases.Atomic (atomic.I64AtomicStore16 given.memory) ∷
    ///     cases.Atomic (atomic.I64AtomicStore32 given.memory) ∷
    ///     cases.Atomic (atomic.I32AtomicRmwAdd given.memory) ∷
    ///     cases.Atomic (atomic.I64AtomicRmwAdd given.memory) ∷
    ///     cases.Atomic (atomic.I32AtomicRmw8AddU given.memory) ∷
    ///     cases.Atomic (atomic.I32AtomicRmw16AddU given.memory) ∷
    ///     cases.Atomic (atomic.I64AtomicRmw8AddU given.memory) ∷
    ///     cases.Atomic (atomic.I64AtomicRmw16AddU given.memory) ∷
    ///     cases.Atomic (atomic.I64AtomicRmw32AddU given.memory) ∷
    ///     cases.Atomic (atomic.I32AtomicRmwSub given.memory) ∷
    ///     cases.Atomic (atomic.I64AtomicRmwSub given.memory) ∷
    ///     cases.Atomic (atomic.I32AtomicRmw8SubU given.memory) ∷
    ///     cases.Atomic (atomic.I32AtomicRmw16SubU given.memory) ∷
    ///     cases.Atomic (atomic.I64AtomicRmw8SubU given.memory) ∷
    ///     cases.Atomic (atomic.I64AtomicRmw16SubU given.memory) ∷
    ///     cases.Atomic (atomic.I64AtomicRmw32SubU given.memory) ∷
    ///     cases.Atomic (atomic.I32AtomicRmwAnd given.memory) ∷
    ///     cases.Atomic (atomic.I64AtomicRmwAnd given.memory) ∷
    ///     cases.Atomic (atomic.I32AtomicRmw8AndU given.memory) ∷
    ///     cases.Atomic (atomic.I32AtomicRmw16AndU given.memory) ∷
    ///     cases.Atomic (atomic.I64AtomicRmw8AndU given.memory) ∷
    ///     cases.Atomic (atomic.I64AtomicRmw16AndU given.memory) ∷
    ///     cases.Atomic (atomic.I64AtomicRmw32AndU given.memory) ∷
    ///     cases.Atomic (atomic.I32AtomicRmwOr given.memory) ∷
    ///     cases.Atomic (atomic.I64AtomicRmwOr given.memory) ∷
    ///     cases.Atomic (atomic.I32AtomicRmw8OrU given.memory) ∷
    ///     cases.Atomic (atomic.I32AtomicRmw16OrU given.memory) ∷
    ///     cases.Atomic (atomic.I64AtomicRmw8OrU given.memory) ∷
    ///     cases.Atomic (atomic.I64AtomicRmw16OrU given.memory) ∷
    ///     cases.Atomic (atomic.I64AtomicRmw32OrU given.memory) ∷
    ///     cases.Atomic (atomic.I32AtomicRmwXor given.memory) ∷
    ///     cases.Atomic (atomic.I64AtomicRmwXor given.memory) ∷
    ///     cases.Atomic (atomic.I32AtomicRmw8XorU given.memory) ∷
    ///     cases.Atomic (atomic.I32AtomicRmw16XorU given.memory) ∷
    ///     cases.Atomic (atomic.I64AtomicRmw8XorU given.memory) ∷
    ///     cases.Atomic (atomic.I64AtomicRmw16XorU given.memory) ∷
    ///     cases.Atomic (atomic.I64AtomicRmw32XorU given.memory) ∷
    ///     cases.Atomic (atomic.I32AtomicRmwXchg given.memory) ∷
    ///     cases.Atomic (atomic.I64AtomicRmwXchg given.memory) ∷
    ///     cases.Atomic (atomic.I32AtomicRmw8XchgU given.memory) ∷
    ///     cases.Atomic (atomic.I32AtomicRmw16XchgU given.memory) ∷
    ///     cases.Atomic (atomic.I64AtomicRmw8XchgU given.memory) ∷
    ///     cases.Atomic (atomic.I64AtomicRmw16XchgU given.memory) ∷
    ///     cases.Atomic (atomic.I64AtomicRmw32XchgU given.memory) ∷
    ///     cases.Atomic (atomic.I32AtomicRmwCmpxchg given.memory) ∷
    ///     cases.Atomic (atomic.I64AtomicRmwCmpxchg given.memory) ∷
    ///     cases.Atomic (atomic.I32AtomicRmw8CmpxchgU given.memory) ∷
    ///     cases.Atomic (atomic.I32AtomicRmw16CmpxchgU given.memory) ∷
    ///     cases.Atomic (atomic.I64AtomicRmw8CmpxchgU given.memory) ∷
    ///     cases.Atomic (atomic.I64AtomicRmw16CmpxchgU given.memory) ∷
    ///     cases.Atomic (atomic.I64AtomicRmw32CmpxchgU given.memory) ∷
    ///     cases.Atomic (atomic.GlobalAtomicGet given.ordering given.index) ∷
    ///     cases.Atomic (atomic.GlobalAtomicSet given.ordering given.index) ∷
    ///     cases.Atomic (atomic.GlobalAtomicRmwAdd given.ordering given.index) ∷
    ///     cases.Atomic (atomic.GlobalAtomicRmwSub given.ordering given.index) ∷
    ///     cases.Atomic (atomic.GlobalAtomicRmwAnd given.ordering given.index) ∷
    ///     cases.Atomic (atomic.GlobalAtomicRmwOr given.ordering given.index) ∷
    ///     cases.Atomic (atomic.GlobalAtomicRmwXor given.ordering given.index) ∷
    ///     cases.Atomic (atomic.GlobalAtomicRmwXchg given.ordering given.index) ∷
    ///     cases.Atomic (atomic.GlobalAtomicRmwCmpxchg given.ordering given.index) ∷
    ///     cases.Atomic (atomic.TableAtomicGet given.ordering given.index) ∷
    ///     cases.Atomic (atomic.TableAtomicSet given.ordering given.index) ∷
    ///     cases.Atomic (atomic.TableAtomicRmwXchg given.ordering given.index) ∷
    ///     cases.Atomic (atomic.TableAtomicRmwCmpxchg given.ordering given.index) ∷
    ///     cases.Atomic (atomic.StructAtomicGet given.ordering given.index given.second_index)
    ///         ∷
    ///     cases.Atomic (atomic.StructAtomicGetS given.ordering given.index given.second_index)
    ///         ∷
    ///     cases.Atomic (atomic.StructAtomicGetU given.ordering given.index given.second_index)
    ///         ∷
    ///     cases.Atomic (atomic.StructAtomicSet given.ordering given.index given.second_index)
    ///         ∷
    ///     cases.Atomic (atomic.StructAtomicRmwAdd given.ordering given.index
    ///         given.second_index) ∷
    ///     cases.Atomic (atomic.StructAtomicRmwSub given.ordering given.index
    ///         given.second_index) ∷
    ///     cases.Atomic (atomic.StructAtomicRmwAnd given.ordering given.index
    ///         given.second_index) ∷
    ///     cases.Atomic (atomic.StructAtomicRmwOr given.ordering given.index
    ///         given.second_index) ∷
    ///     cases.Atomic (atomic.StructAtomicRmwXor given.ordering given.index
    ///         given.second_index) ∷
    ///     cases.Atomic (atomic.StructAtomicRmwXchg given.ordering given.index
    ///         given.second_index) ∷
    ///     cases.Atomic (atomic.StructAtomicRmwCmpxchg given.ordering given.index
    ///         given.second_index) ∷
    ///     cases.Atomic (atomic.ArrayAtomicGet given.ordering given.index) ∷
    ///     cases.Atomic (atomic.ArrayAtomicGetS given.ordering given.index) ∷
    ///     cases.Atomic (atomic.ArrayAtomicGetU given.ordering given.index) ∷
    ///     cases.Atomic (atomic.ArrayAtomicSet given.ordering given.index) ∷
    ///     cases.Atomic (atomic.ArrayAtomicRmwAdd given.ordering given.index) ∷
    ///     cases.Atomic (atomic.ArrayAtomicRmwSub given.ordering given.index) ∷
    ///     cases.Atomic (atomic.ArrayAtomicRmwAnd given.ordering given.index) ∷
    ///     cases.Atomic (atomic.ArrayAtomicRmwOr given.ordering given.index) ∷
    ///     cases.Atomic (atomic.ArrayAtomicRmwXor given.ordering given.index) ∷
    ///     cases.Atomic (atomic.ArrayAtomicRmwXchg given.ordering given.index) ∷
    ///     cases.Atomic (atomic.ArrayAtomicRmwCmpxchg given.ordering given.index) ∷
    ///     cases.Atomic atomic.RefI31Shared ∷
    ///     []
    /// ```
    ///
    /// Definitions: [`Given`](cases::Given).
    type all_cases;
    /// The cases are the rows of the table in order: each has the opcode of its row, and the immediates of its shape.
    ///
    /// ```text
    /// pub record AreRows {A : Type 0} (is : List (Instruction A)) (rows : Table)
    ///     : Type 0 where
    ///   pub ops : map (λ i. (row_of i).op) is ≡ map (λ row. row.0) rows
    ///   pub parts : map (λ i. map part_of (row_of i).arguments) is
    ///       ≡ map (λ row. parts_of row.1) rows
    /// ```
    ///
    /// Definitions: [`Table`](plain::Table), [`row_of`](instructions::row_of), [`part_of`](arguments::part_of), [`parts_of`](parts::parts_of).
    type AreRows;
    /// The instruction is one of the cases, with some fields.
    ///
    /// ```text
    /// pub record IsCase {A : Type 0} (i : Instruction A) : Type 0 where
    ///   pub fields : Given A
    ///   pub contained : Contains (all_cases fields) i
    /// ```
    ///
    /// Definitions: [`Given`](cases::Given), [`all_cases`](cases::all_cases).
    type IsCase;
}

/// The opcode and immediates of every instruction, and the encoding of instructions. Core specification, Binary Format, Instructions.
///
/// [How to read definitions](super). The file is [`Instructions.antt`](https://github.com/dolzhytik/dolzhytik/blob/main/crates/wasm_insn/specs/Instructions.antt).
pub trait instructions {
    /// 1 if the flag is set, and 0 otherwise.
    ///
    /// ```text
    /// abbrev pub bit_of : Bool → ℕ
    /// bit_of true = 1
    /// bit_of false = 0
    /// ```
    type bit_of;
    /// The flags of a cast: bit 0 is set if the first type is nullable, and bit 1 if the second is.
    ///
    /// ```text
    /// abbrev pub cast_flag_of : RefType → RefType → ℕ
    /// cast_flag_of from to = bit_of from.nullable + 2 * bit_of to.nullable
    /// ```
    ///
    /// Definitions: [`bit_of`](instructions::bit_of).
    type cast_flag_of;
    /// The opcode and the immediates of an instruction.
    ///
    /// ```text
    /// abbrev pub row_of : {A : Type 0} → Instruction A → Plain
    /// row_of cases.Unreachable = record { op = Byte 0x00; arguments = [] }
    /// row_of cases.Nop = record { op = Byte 0x01; arguments = [] }
    /// row_of (cases.Block a) = record { op = Byte 0x02; arguments = block a ∷ [] }
    /// row_of (cases.Loop a) = record { op = Byte 0x03; arguments = block a ∷ [] }
    /// row_of (cases.If a) = record { op = Byte 0x04; arguments = block a ∷ [] }
    /// row_of cases.Else = record { op = Byte 0x05; arguments = [] }
    /// row_of (cases.Try a) = record { op = Byte 0x06; arguments = block a ∷ [] }
    /// row_of (cases.Catch a) = record { op = Byte 0x07; arguments = unsigned a ∷ [] }
    /// row_of (cases.Throw a) = record { op = Byte 0x08; arguments = unsigned a ∷ [] }
    /// row_of (cases.Rethrow a) = record { op = Byte 0x09; arguments = unsigned a ∷ [] }
    /// row_of cases.ThrowRef = record { op = Byte 0x0A; arguments = [] }
    /// row_of cases.End = record { op = Byte 0x0B; arguments = [] }
    /// row_of (cases.Br a) = record { op = Byte 0x0C; arguments = unsigned a ∷ [] }
    /// row_of (cases.BrIf a) = record { op = Byte 0x0D; arguments = unsigned a ∷ [] }
    /// row_of (cases.BrTable a b) = record
    ///     { op = Byte 0x0E; arguments = labels (items_of a) ∷ unsigned b ∷ [] }
    /// row_of cases.Return = record { op = Byte 0x0F; arguments = [] }
    /// row_of (cases.Call a) = record { op = Byte 0x10; arguments = unsigned a ∷ [] }
    /// row_of (cases.CallIndirect a b) = record
    ///     { op = Byte 0x11; arguments = unsigned a ∷ unsigned b ∷ [] }
    /// row_of (cases.ReturnCall a) = record { op = Byte 0x12; arguments = unsigned a ∷ [] }
    /// row_of (cases.ReturnCallIndirect a b) = record
    ///     { op = Byte 0x13; arguments = unsigned a ∷ unsigned b ∷ [] }
    /// row_of (cases.CallRef a) = record { op = Byte 0x14; arguments = unsigned a ∷ [] }
    /// row_of (cases.ReturnCallRef a) = record { op = Byte 0x15; arguments = unsigned a ∷ [] }
    /// row_of (cases.Delegate a) = record { op = Byte 0x18; arguments = unsigned a ∷ [] }
    /// row_of cases.CatchAll = record { op = Byte 0x19; arguments = [] }
    /// row_of cases.Drop = record { op = Byte 0x1A; arguments = [] }
    /// row_of cases.Select = record { op = Byte 0x1B; arguments = [] }
    /// row_of (cases.TypedSelect a) = record
    ///     { op = Byte 0x1C; arguments = types (a ∷ []) ∷ [] }
    /// row_of (cases.TypedSelectMulti a) = record
    ///     { op = Byte 0x1C; arguments = types (items_of a) ∷ [] }
    /// row_of (cases.TryTable a b) = record
    ///     { op = Byte 0x1F; arguments = block a ∷ catches (items_of b) ∷ [] }
    /// row_of (cases.LocalGet a) = record { op = Byte 0x20; arguments = unsigned a ∷ [] }
    /// row_of (cases.LocalSet a) = record { op = Byte 0x21; arguments = unsigned a ∷ [] }
    /// row_of (cases.LocalTee a) = record { op = Byte 0x22; arguments = unsigned a ∷ [] }
    /// row_of (cases.GlobalGet a) = record { op = Byte 0x23; arguments = unsigned a ∷ [] }
    /// row_of (cases.GlobalSet a) = record { op = Byte 0x24; arguments = unsigned a ∷ [] }
    /// row_of (cases.TableGet a) = record { op = Byte 0x25; arguments = unsigned a ∷ [] }
    /// row_of (cases.TableSet a) = record { op = Byte 0x26; arguments = unsigned a ∷ [] }
    /// row_of (cases.I32Load a) = record { op = Byte 0x28; arguments = memory a ∷ [] }
    /// row_of (cases.I64Load a) = record { op = Byte 0x29; arguments = memory a ∷ [] }
    /// row_of (cases.F32Load a) = record { op = Byte 0x2A; arguments = memory a ∷ [] }
    /// row_of (cases.F64Load a) = record { op = Byte 0x2B; arguments = memory a ∷ [] }
    /// row_of (cases.I32Load8S a) = record { op = Byte 0x2C; arguments = memory a ∷ [] }
    /// row_of (cases.I32Load8U a) = record { op = Byte 0x2D; arguments = memory a ∷ [] }
    /// row_of (cases.I32Load16S a) = record { op = Byte 0x2E; arguments = memory a ∷ [] }
    /// row_of (cases.I32Load16U a) = record { op = Byte 0x2F; arguments = memory a ∷ [] }
    /// row_of (cases.I64Load8S a) = record { op = Byte 0x30; arguments = memory a ∷ [] }
    /// row_of (cases.I64Load8U a) = record { op = Byte 0x31; arguments = memory a ∷ [] }
    /// row_of (cases.I64Load16S a) = record { op = Byte 0x32; arguments = memory a ∷ [] }
    /// row_of (cases.I64Load16U a) = record { op = Byte 0x33; arguments = memory a ∷ [] }
    /// row_of (cases.I64Load32S a) = record { op = Byte 0x34; arguments = memory a ∷ [] }
    /// row_of (cases.I64Load32U a) = record { op = Byte 0x35; arguments = memory a ∷ [] }
    /// row_of (cases.I32Store a) = record { op = Byte 0x36; arguments = memory a ∷ [] }
    /// row_of (cases.I64Store a) = record { op = Byte 0x37; arguments = memory a ∷ [] }
    /// row_of (cases.F32Store a) = record { op = Byte 0x38; arguments = memory a ∷ [] }
    /// row_of (cases.F64Store a) = record { op = Byte 0x39; arguments = memory a ∷ [] }
    /// row_of (cases.I32Store8 a) = record { op = Byte 0x3A; arguments = memory a ∷ [] }
    /// row_of (cases.I32Store16 a) = record { op = Byte 0x3B; arguments = memory a ∷ [] }
    /// row_of (cases.I64Store8 a) = record { op = Byte 0x3C; arguments = memory a ∷ [] }
    /// row_of (cases.I64Store16 a) = record { op = Byte 0x3D; arguments = memory a ∷ [] }
    /// row_of (cases.I64Store32 a) = record { op = Byte 0x3E; arguments = memory a ∷ [] }
    /// row_of (cases.MemorySize a) = record { op = Byte 0x3F; arguments = unsigned a ∷ [] }
    /// row_of (cases.MemoryGrow a) = record { op = Byte 0x40; arguments = unsigned a ∷ [] }
    /// row_of (cases.I32Const a) = record { op = Byte 0x41; arguments = signed32 a ∷ [] }
    /// row_of (cases.I64Const a) = record { op = Byte 0x42; arguments = signed64 a ∷ [] }
    /// row_of (cases.F32Const a) = record { op = Byte 0x43; arguments = float32 a ∷ [] }
    /// row_of (cases.F64Const a) = record { op = Byte 0x44; arguments = float64 a ∷ [] }
    /// row_of (cases.RefNull a) = record { op = Byte 0xD0; arguments = heap a ∷ [] }
    /// row_of cases.RefIsNull = record { op = Byte 0xD1; arguments = [] }
    /// row_of (cases.RefFunc a) = record { op = Byte 0xD2; arguments = unsigned a ∷ [] }
    /// row_of cases.RefEq = record { op = Byte 0xD3; arguments = [] }
    /// row_of cases.RefAsNonNull = record { op = Byte 0xD4; arguments = [] }
    /// row_of (cases.BrOnNull a) = record { op = Byte 0xD5; arguments = unsigned a ∷ [] }
    /// row_of (cases.BrOnNonNull a) = record { op = Byte 0xD6; arguments = unsigned a ∷ [] }
    /// row_of (cases.ContNew a) = record { op = Byte 0xE0; arguments = unsigned a ∷ [] }
    /// row_of (cases.ContBind a b) = record
    ///     { op = Byte 0xE1; arguments = unsigned a ∷ unsigned b ∷ [] }
    /// row_of (cases.Suspend a) = record { op = Byte 0xE2; arguments = unsigned a ∷ [] }
    /// row_of (cases.Resume a b) = record
    ///     { op = Byte 0xE3; arguments = unsigned a ∷ handles (items_of b) ∷ [] }
    /// row_of (cases.ResumeThrow a b c) = record
    ///     { op = Byte 0xE4; arguments = unsigned a ∷ unsigned b ∷ handles (items_of c) ∷ [] }
    /// row_of (cases.ResumeThrowRef a b) = record
    ///     { op = Byte 0xE5; arguments = unsigned a ∷ handles (items_of b) ∷ [] }
    /// row_of (cases.Switch a b) = record
    ///     { op = Byte 0xE6; arguments = unsigned a ∷ unsigned b ∷ [] }
    /// row_of (cases.StructNew a) = record
    ///     { op = Prefixed 0xFB 0; arguments = unsigned a ∷ [] }
    /// row_of (cases.StructNewDefault a) = record
    ///     { op = Prefixed 0xFB 1; arguments = unsigned a ∷ [] }
    /// row_of (cases.StructGet a b) = record
    ///     { op = Prefixed 0xFB 2; arguments = unsigned a ∷ unsigned b ∷ [] }
    /// row_of (cases.StructGetS a b) = record
    ///     { op = Prefixed 0xFB 3; arguments = unsigned a ∷ unsigned b ∷ [] }
    /// row_of (cases.StructGetU a b) = record
    ///     { op = Prefixed 0xFB 4; arguments = unsigned a ∷ unsigned b ∷ [] }
    /// row_of (cases.StructSet a b) = record
    ///     { op = Prefixed 0xFB 5; arguments = unsigned a ∷ unsigned b ∷ [] }
    /// row_of (cases.ArrayNew a) = record { op = Prefixed 0xFB 6; arguments = unsigned a ∷ [] }
    /// row_of (cases.ArrayNewDefault a) = record
    ///     { op = Prefixed 0xFB 7; arguments = unsigned a ∷ [] }
    /// row_of (cases.ArrayNewFixed a b) = record
    ///     { op = Prefixed 0xFB 8; arguments = unsigned a ∷ unsigned b ∷ [] }
    /// row_of (cases.ArrayNewData a b) = record
    ///     { op = Prefixed 0xFB 9; arguments = unsigned a ∷ unsigned b ∷ [] }
    /// row_of (cases.ArrayNewElem a b) = record
    ///     { op = Prefixed 0xFB 10; arguments = unsigned a ∷ unsigned b ∷ [] }
    /// row_of (cases.ArrayGet a) = record
    ///     { op = Prefixed 0xFB 11; arguments = unsigned a ∷ [] }
    /// row_of (cases.ArrayGetS a) = record
    ///     { op = Prefixed 0xFB 12; arguments = unsigned a ∷ [] }
    /// row_of (cases.ArrayGetU a) = record
    ///     { op = Prefixed 0xFB 13; arguments = unsigned a ∷ [] }
    /// row_of (cases.ArraySet a) = record
    ///     { op = Prefixed 0xFB 14; arguments = unsigned a ∷ [] }
    /// row_of (cases.ArrayFill a) = record
    ///     { op = Prefixed 0xFB 16; arguments = unsigned a ∷ [] }
    /// row_of (cases.ArrayCopy a b) = record
    ///     { op = Prefixed 0xFB 17; arguments = unsigned a ∷ unsigned b ∷ [] }
    /// row_of (cases.ArrayInitData a b) = record
    ///     { op = Prefixed 0xFB 18; arguments = unsigned a ∷ unsigned b ∷ [] }
    /// row_of (cases.ArrayInitElem a b) = record
    ///     { op = Prefixed 0xFB 19; arguments = unsigned a ∷ unsigned b ∷ [] }
    /// row_of (cases.RefTestNonNull a) = record
    ///     { op = Prefixed 0xFB 20; arguments = heap a ∷ [] }
    /// row_of (cases.RefTestNullable a) = record
    ///     { op = Prefixed 0xFB 21; arguments = heap a ∷ [] }
    /// row_of (cases.RefCastNonNull a) = record
    ///     { op = Prefixed 0xFB 22; arguments = heap a ∷ [] }
    /// row_of (cases.RefCastNullable a) = record
    ///     { op = Prefixed 0xFB 23; arguments = heap a ∷ [] }
    /// row_of (cases.BrOnCast a b c) = record
    ///     { op = Prefixed 0xFB 24;
    ///     arguments = flag (cast_flag_of b c) ∷ unsigned a ∷ heap b.heap_type
    ///     ∷ heap c.heap_type ∷ [] }
    /// row_of (cases.BrOnCastFail a b c) = record
    ///     { op = Prefixed 0xFB 25;
    ///     arguments = flag (cast_flag_of b c) ∷ unsigned a ∷ heap b.heap_type
    ///     ∷ heap c.heap_type ∷ [] }
    /// row_of (cases.StructNewDesc a) = record
    ///     { op = Prefixed 0xFB 32; arguments = unsigned a ∷ [] }
    /// row_of (cases.StructNewDefaultDesc a) = record
    ///     { op = Prefixed 0xFB 33; arguments = unsigned a ∷ [] }
    /// row_of (cases.RefGetDesc a) = record
    ///     { op = Prefixed 0xFB 34; arguments = unsigned a ∷ [] }
    /// row_of (cases.RefCastDescEqNonNull a) = record
    ///     { op = Prefixed 0xFB 35; arguments = heap a ∷ [] }
    /// row_of (cases.RefCastDescEqNullable a) = record
    ///     { op = Prefixed 0xFB 36; arguments = heap a ∷ [] }
    /// row_of (cases.BrOnCastDescEq a b c) = record
    ///     { op = Prefixed 0xFB 37;
    ///     arguments = flag (cast_flag_of b c) ∷ unsigned a ∷ heap b.heap_type
    ///     ∷ heap c.heap_type ∷ [] }
    /// row_of (cases.BrOnCastDescEqFail a b c) = record
    ///     { op = Prefixed 0xFB 38;
    ///     arguments = flag (cast_flag_of b c) ∷ unsigned a ∷ heap b.heap_type
    ///     ∷ heap c.heap_type ∷ [] }
    /// row_of (cases.MemoryInit a b) = record
    ///     { op = Prefixed 0xFC 8; arguments = unsigned a ∷ unsigned b ∷ [] }
    /// row_of (cases.DataDrop a) = record { op = Prefixed 0xFC 9; arguments = unsigned a ∷ [] }
    /// row_of (cases.MemoryCopy a b) = record
    ///     { op = Prefixed 0xFC 10; arguments = unsigned a ∷ unsigned b ∷ [] }
    /// row_of (cases.MemoryFill a) = record
    ///     { op = Prefixed 0xFC 11; arguments = unsigned a ∷ [] }
    /// row_of (cases.TableInit a b) = record
    ///     { op = Prefixed 0xFC 12; arguments = unsigned a ∷ unsigned b ∷ [] }
    /// row_of (cases.ElemDrop a) = record
    ///     { op = Prefixed 0xFC 13; arguments = unsigned a ∷ [] }
    /// row_of (cases.TableCopy a b) = record
    ///     { op = Prefixed 0xFC 14; arguments = unsigned a ∷ unsigned b ∷ [] }
    /// row_of (cases.TableGrow a) = record
    ///     { op = Prefixed 0xFC 15; arguments = unsigned a ∷ [] }
    /// row_of (cases.TableSize a) = record
    ///     { op = Prefixed 0xFC 16; arguments = unsigned a ∷ [] }
    /// row_of (cases.TableFill a) = record
    ///     { op = Prefixed 0xFC 17; arguments = unsigned a ∷ [] }
    /// row_of (cases.MemoryDiscard a) = record
    ///     { op = Prefixed 0xFC 18; arguments = unsigned a ∷ [] }
    /// row_of (cases.Numeric i) = record { op = Byte (numeric_number i); arguments = [] }
    /// row_of (cases.Aggregate i) = record
    ///     { op = Prefixed 0xFB (aggregate_number i); arguments = [] }
    /// row_of (cases.PrefixedNumeric i) = record
    ///     { op = Prefixed 0xFC (prefixed_numeric_number i); arguments = [] }
    /// row_of (cases.Vector i) = record
    ///     { op = Prefixed 0xFD (vector_number i); arguments = [] }
    /// row_of (cases.VectorImmediate i) = vector_immediate_row i
    /// row_of (cases.Atomic i) = atomic_row i
    /// ```
    ///
    /// Definitions: [`Plain`](plain::Plain), [`block`](arguments::Argument), [`unsigned`](arguments::Argument), [`labels`](arguments::Argument), [`items_of`](super::base::cow::items_of), [`types`](arguments::Argument), [`catches`](arguments::Argument), [`memory`](arguments::Argument), [`signed32`](arguments::Argument), [`signed64`](arguments::Argument), [`float32`](arguments::Argument), [`float64`](arguments::Argument), [`heap`](arguments::Argument), [`handles`](arguments::Argument), [`flag`](arguments::Argument), [`cast_flag_of`](instructions::cast_flag_of), [`numeric_number`](numeric::numeric_number), [`aggregate_number`](aggregate::aggregate_number), [`prefixed_numeric_number`](prefixed_numeric::prefixed_numeric_number), [`vector_number`](vector::vector_number), [`vector_immediate_row`](vector_immediate::vector_immediate_row), [`atomic_row`](atomic::atomic_row).
    type row_of;
    /// The encoding of an instruction: its opcode, then its immediates.
    ///
    /// ```text
    /// abbrev pub instruction_encoding : {A : Type 0} → Instruction A → List ℕ
    /// instruction_encoding i = plain_encoding (row_of i)
    /// ```
    ///
    /// Definitions: [`plain_encoding`](plain::plain_encoding), [`row_of`](instructions::row_of).
    type instruction_encoding;
    /// Each list in the instruction has at most 2^32 - 1 members.
    ///
    /// ```text
    /// abbrev pub IsEncodableInstruction : {A : Type 0} → Instruction A → Type 0
    /// IsEncodableInstruction i = arguments_encodable (row_of i).arguments
    /// ```
    ///
    /// Definitions: [`arguments_encodable`](arguments::arguments_encodable), [`row_of`](instructions::row_of).
    type IsEncodableInstruction;
    /// The instruction is well-formed: alignments are below 16, lists fit, and numbers are in range. The types of its fields ensure the ranges.
    ///
    /// ```text
    /// abbrev pub IsWellFormedInstruction : {A : Type 0} → Instruction A → Type 0
    /// IsWellFormedInstruction i = AreWellFormed (row_of i).arguments
    /// ```
    ///
    /// Definitions: [`AreWellFormed`](plain::AreWellFormed), [`row_of`](instructions::row_of).
    type IsWellFormedInstruction;
    /// The alignments of the instruction's memory arguments are below 16.
    ///
    /// ```text
    /// abbrev pub HasSmallAlignments : {A : Type 0} → Instruction A → Type 0
    /// HasSmallAlignments i = HaveSmallAlignments (row_of i).arguments
    /// ```
    ///
    /// Definitions: [`HaveSmallAlignments`](plain::HaveSmallAlignments), [`row_of`](instructions::row_of).
    type HasSmallAlignments;
    /// If its alignments are below 16 and its lists fit, the instruction is well-formed.
    ///
    /// ```text
    /// pub record IsWellFormedWhereAligned {A : Type 0} (i : Instruction A) : Type 0 where
    ///   pub plain : HasSmallAlignments i → IsEncodableInstruction i
    ///       → IsWellFormedInstruction i
    /// ```
    ///
    /// Definitions: [`HasSmallAlignments`](instructions::HasSmallAlignments), [`IsEncodableInstruction`](instructions::IsEncodableInstruction), [`IsWellFormedInstruction`](instructions::IsWellFormedInstruction).
    type IsWellFormedWhereAligned;
    /// The encoding of a well-formed instruction decodes to its normal form alone.
    ///
    /// ```text
    /// pub record DecodesInstruction {A : Type 0} (i : Instruction A) : Type 0 where
    ///   pub unique : IsWellFormedInstruction i
    ///       → DecodesUniquely (instruction table) (instruction_encoding i) (normal (row_of i))
    /// ```
    ///
    /// Definitions: [`IsWellFormedInstruction`](instructions::IsWellFormedInstruction), [`DecodesUniquely`](super::base::decoding::DecodesUniquely), [`instruction`](plain::instruction), [`table`](table::table), [`instruction_encoding`](instructions::instruction_encoding), [`normal`](plain::normal), [`row_of`](instructions::row_of).
    type DecodesInstruction;
    /// Two well-formed instructions have the same encoding exactly if they have the same normal form.
    ///
    /// ```text
    /// pub record HaveOneEncoding {A : Type 0} (i j : Instruction A) : Type 0 where
    ///   pub exactly : IsWellFormedInstruction i → IsWellFormedInstruction j
    ///       → (instruction_encoding i ≡ instruction_encoding j) ↔
    ///       (normal (row_of i) ≡ normal (row_of j))
    /// ```
    ///
    /// Definitions: [`IsWellFormedInstruction`](instructions::IsWellFormedInstruction), [`instruction_encoding`](instructions::instruction_encoding), [`normal`](plain::normal), [`row_of`](instructions::row_of).
    type HaveOneEncoding;
}

/// The opcodes of the instructions of `Numeric`.
///
/// [How to read definitions](super). The file is [`Numeric.antt`](https://github.com/dolzhytik/dolzhytik/blob/main/crates/wasm_insn/specs/Numeric.antt).
pub trait numeric {
    /// The opcode of each instruction, a byte.
    ///
    /// ```text
    /// abbrev pub numeric_number : Numeric → ℕ
    /// numeric_number cases.I32Eqz = 0x45
    /// numeric_number cases.I32Eq = 0x46
    /// numeric_number cases.I32Ne = 0x47
    /// numeric_number cases.I32LtS = 0x48
    /// numeric_number cases.I32LtU = 0x49
    /// numeric_number cases.I32GtS = 0x4A
    /// numeric_number cases.I32GtU = 0x4B
    /// numeric_number cases.I32LeS = 0x4C
    /// numeric_number cases.I32LeU = 0x4D
    /// numeric_number cases.I32GeS = 0x4E
    /// numeric_number cases.I32GeU = 0x4F
    /// numeric_number cases.I64Eqz = 0x50
    /// numeric_number cases.I64Eq = 0x51
    /// numeric_number cases.I64Ne = 0x52
    /// numeric_number cases.I64LtS = 0x53
    /// numeric_number cases.I64LtU = 0x54
    /// numeric_number cases.I64GtS = 0x55
    /// numeric_number cases.I64GtU = 0x56
    /// numeric_number cases.I64LeS = 0x57
    /// numeric_number cases.I64LeU = 0x58
    /// numeric_number cases.I64GeS = 0x59
    /// numeric_number cases.I64GeU = 0x5A
    /// numeric_number cases.F32Eq = 0x5B
    /// numeric_number cases.F32Ne = 0x5C
    /// numeric_number cases.F32Lt = 0x5D
    /// numeric_number cases.F32Gt = 0x5E
    /// numeric_number cases.F32Le = 0x5F
    /// numeric_number cases.F32Ge = 0x60
    /// numeric_number cases.F64Eq = 0x61
    /// numeric_number cases.F64Ne = 0x62
    /// numeric_number cases.F64Lt = 0x63
    /// numeric_number cases.F64Gt = 0x64
    /// numeric_number cases.F64Le = 0x65
    /// numeric_number cases.F64Ge = 0x66
    /// numeric_number cases.I32Clz = 0x67
    /// numeric_number cases.I32Ctz = 0x68
    /// numeric_number cases.I32Popcnt = 0x69
    /// numeric_number cases.I32Add = 0x6A
    /// numeric_number cases.I32Sub = 0x6B
    /// numeric_number cases.I32Mul = 0x6C
    /// numeric_number cases.I32DivS = 0x6D
    /// numeric_number cases.I32DivU = 0x6E
    /// numeric_number cases.I32RemS = 0x6F
    /// numeric_number cases.I32RemU = 0x70
    /// numeric_number cases.I32And = 0x71
    /// numeric_number cases.I32Or = 0x72
    /// numeric_number cases.I32Xor = 0x73
    /// numeric_number cases.I32Shl = 0x74
    /// numeric_number cases.I32ShrS = 0x75
    /// numeric_number cases.I32ShrU = 0x76
    /// numeric_number cases.I32Rotl = 0x77
    /// numeric_number cases.I32Rotr = 0x78
    /// numeric_number cases.I64Clz = 0x79
    /// numeric_number cases.I64Ctz = 0x7A
    /// numeric_number cases.I64Popcnt = 0x7B
    /// numeric_number cases.I64Add = 0x7C
    /// numeric_number cases.I64Sub = 0x7D
    /// numeric_number cases.I64Mul = 0x7E
    /// numeric_number cases.I64DivS = 0x7F
    /// numeric_number cases.I64DivU = 0x80
    /// numeric_number cases.I64RemS = 0x81
    /// numeric_number cases.I64RemU = 0x82
    /// numeric_number cases.I64And = 0x83
    /// numeric_number cases.I64Or = 0x84
    /// numeric_number cases.I64Xor = 0x85
    /// numeric_number cases.I64Shl = 0x86
    /// numeric_number cases.I64ShrS = 0x87
    /// numeric_number cases.I64ShrU = 0x88
    /// numeric_number cases.I64Rotl = 0x89
    /// numeric_number cases.I64Rotr = 0x8A
    /// numeric_number cases.F32Abs = 0x8B
    /// numeric_number cases.F32Neg = 0x8C
    /// numeric_number cases.F32Ceil = 0x8D
    /// numeric_number cases.F32Floor = 0x8E
    /// numeric_number cases.F32Trunc = 0x8F
    /// numeric_number cases.F32Nearest = 0x90
    /// numeric_number cases.F32Sqrt = 0x91
    /// numeric_number cases.F32Add = 0x92
    /// numeric_number cases.F32Sub = 0x93
    /// numeric_number cases.F32Mul = 0x94
    /// numeric_number cases.F32Div = 0x95
    /// numeric_number cases.F32Min = 0x96
    /// numeric_number cases.F32Max = 0x97
    /// numeric_number cases.F32Copysign = 0x98
    /// numeric_number cases.F64Abs = 0x99
    /// numeric_number cases.F64Neg = 0x9A
    /// numeric_number cases.F64Ceil = 0x9B
    /// numeric_number cases.F64Floor = 0x9C
    /// numeric_number cases.F64Trunc = 0x9D
    /// numeric_number cases.F64Nearest = 0x9E
    /// numeric_number cases.F64Sqrt = 0x9F
    /// numeric_number cases.F64Add = 0xA0
    /// numeric_number cases.F64Sub = 0xA1
    /// numeric_number cases.F64Mul = 0xA2
    /// numeric_number cases.F64Div = 0xA3
    /// numeric_number cases.F64Min = 0xA4
    /// numeric_number cases.F64Max = 0xA5
    /// numeric_number cases.F64Copysign = 0xA6
    /// numeric_number cases.I32WrapI64 = 0xA7
    /// numeric_number cases.I32TruncF32S = 0xA8
    /// numeric_number cases.I32TruncF32U = 0xA9
    /// numeric_number cases.I32TruncF64S = 0xAA
    /// numeric_number cases.I32TruncF64U = 0xAB
    /// numeric_number cases.I64ExtendI32S = 0xAC
    /// numeric_number cases.I64ExtendI32U = 0xAD
    /// numeric_number cases.I64TruncF32S = 0xAE
    /// numeric_number cases.I64TruncF32U = 0xAF
    /// numeric_number cases.I64TruncF64S = 0xB0
    /// numeric_number cases.I64TruncF64U = 0xB1
    /// numeric_number cases.F32ConvertI32S = 0xB2
    /// numeric_number cases.F32ConvertI32U = 0xB3
    /// numeric_number cases.F32ConvertI64S = 0xB4
    /// numeric_number cases.F32ConvertI64U = 0xB5
    /// numeric_number cases.F32DemoteF64 = 0xB6
    /// numeric_number cases.F64ConvertI32S = 0xB7
    /// numeric_number cases.F64ConvertI32U = 0xB8
    /// numeric_number cases.F64ConvertI64S = 0xB9
    /// numeric_number cases.F64ConvertI64U = 0xBA
    /// numeric_number cases.F64PromoteF32 = 0xBB
    /// numeric_number cases.I32ReinterpretF32 = 0xBC
    /// numeric_number cases.I64ReinterpretF64 = 0xBD
    /// numeric_number cases.F32ReinterpretI32 = 0xBE
    /// numeric_number cases.F64ReinterpretI64 = 0xBF
    /// numeric_number cases.I32Extend8S = 0xC0
    /// numeric_number cases.I32Extend16S = 0xC1
    /// numeric_number cases.I64Extend8S = 0xC2
    /// numeric_number cases.I64Extend16S = 0xC3
    /// numeric_number cases.I64Extend32S = 0xC4
    /// ```
    type numeric_number;
}

/// The encoding of opcodes.
///
/// [How to read definitions](super). The file is [`Opcodes.antt`](https://github.com/dolzhytik/dolzhytik/blob/main/crates/wasm_insn/specs/Opcodes.antt).
pub trait opcodes {
    /// The encoding of an opcode: its byte, or its prefix and an unsigned number. Core specification, Binary Format, Instructions.
    ///
    /// ```text
    /// abbrev pub op_encoding : Op → List ℕ
    /// op_encoding (Byte b) = b ∷ []
    /// op_encoding (Prefixed prefix number) = prefix ∷ unsigned_encoding number
    /// ```
    ///
    /// Definitions: [`unsigned_encoding`](super::base::numbers::unsigned_encoding).
    type op_encoding;
}

/// The operands of a decoded instruction: which immediates they are, and what decoding to them means.
///
/// [How to read definitions](super). The file is [`Operands.antt`](https://github.com/dolzhytik/dolzhytik/blob/main/crates/wasm_insn/specs/Operands.antt).
pub trait operands {
    /// Whether operands of this shape have a case of their own.
    ///
    /// ```text
    /// abbrev pub has_case : Shape → Bool
    /// has_case shapes.Nothing = true
    /// has_case shapes.U = true
    /// has_case shapes.C32 = true
    /// has_case shapes.C64 = true
    /// has_case shapes.M = true
    /// has_case shapes.B = true
    /// has_case _ = false
    /// ```
    type has_case;
    /// The operands are these immediates. Encoded operands have a shape without a case of its own, and are those that the bytes as a whole encode in the standard's grammar, which admits what the builders' does.
    ///
    /// ```text
    /// abbrev pub AreOperands : Operands → List Argument → Type 0
    /// AreOperands operands.Nothing xs = xs ≡ []
    /// AreOperands (operands.U32 n) xs = xs ≡ unsigned n ∷ []
    /// AreOperands (operands.S32 v) xs = xs ≡ signed32 v ∷ []
    /// AreOperands (operands.S64 v) xs = xs ≡ signed64 v ∷ []
    /// AreOperands (operands.Mem m) xs = xs ≡ memory m ∷ []
    /// AreOperands (operands.Block type) xs = xs ≡ block type ∷ []
    /// AreOperands (operands.Encoded shape bytes) xs = (has_case shape ≡ false)
    ///     × arguments (parts_of shape) standard bytes.now xs
    /// ```
    ///
    /// Definitions: [`Argument`](arguments::Argument), [`unsigned`](arguments::Argument), [`signed32`](arguments::Argument), [`signed64`](arguments::Argument), [`memory`](arguments::Argument), [`block`](arguments::Argument), [`has_case`](operands::has_case), [`arguments`](plain::arguments), [`parts_of`](parts::parts_of), [`standard`](super::base::numbers::Mode).
    type AreOperands;
    /// The operands are no immediates: their shape has a case of its own, or their bytes do not encode immediates of their shape.
    ///
    /// ```text
    /// pub record AreNoOperands (given : Operands) : Type 0 where
    ///   pub none : (xs : List Argument) → AreOperands given xs → ⊥
    /// ```
    ///
    /// Definitions: [`Argument`](arguments::Argument), [`AreOperands`](operands::AreOperands).
    type AreNoOperands;
    /// Encoded operands are the bytes of the input up to the remaining ones.
    ///
    /// ```text
    /// abbrev pub AreBytesBefore : Operands → List ℕ → List ℕ → Type 0
    /// AreBytesBefore operands.Nothing bytes rest = Unit {0}
    /// AreBytesBefore (operands.U32 n) bytes rest = Unit {0}
    /// AreBytesBefore (operands.S32 v) bytes rest = Unit {0}
    /// AreBytesBefore (operands.S64 v) bytes rest = Unit {0}
    /// AreBytesBefore (operands.Mem m) bytes rest = Unit {0}
    /// AreBytesBefore (operands.Block type) bytes rest = Unit {0}
    /// AreBytesBefore (operands.Encoded shape own) bytes rest = bytes ≡ own.now ++ rest
    /// ```
    type AreBytesBefore;
    /// Immediates of these types decode from the front of the bytes, and the operands are these.
    ///
    /// ```text
    /// pub record DecodesOperands (ps : List Part) (mode : Mode) (bytes : List ℕ)
    ///     (given : Operands) (rest : List ℕ) : Type 0 where
    ///   pub immediates : List Argument
    ///   pub decodes : Decodes (arguments ps) mode bytes immediates rest
    ///   pub operands : AreOperands given immediates
    ///   pub own : AreBytesBefore given bytes rest
    /// ```
    ///
    /// Definitions: [`Mode`](super::base::numbers::Mode), [`Argument`](arguments::Argument), [`Decodes`](super::base::decoding::Decodes), [`arguments`](plain::arguments), [`AreOperands`](operands::AreOperands), [`AreBytesBefore`](operands::AreBytesBefore).
    type DecodesOperands;
    /// The opcode decodes from the front of the bytes. If the operands are kept encoded, they are the bytes between it and the remaining ones.
    ///
    /// ```text
    /// pub record FollowOpcode (mode : Mode) (bytes : List ℕ) (op : Op) (given : Operands)
    ///     (rest : List ℕ) : Type 0 where
    ///   pub after : List ℕ
    ///   pub decodes : Decodes opcode mode bytes op after
    ///   pub own : AreBytesBefore given after rest
    /// ```
    ///
    /// Definitions: [`Mode`](super::base::numbers::Mode), [`Decodes`](super::base::decoding::Decodes), [`opcode`](plain::opcode), [`AreBytesBefore`](operands::AreBytesBefore).
    type FollowOpcode;
    /// An instruction with this opcode and these operands decodes from the front of the bytes.
    ///
    /// ```text
    /// pub record DecodesOperation (F : Format Plain) (mode : Mode) (bytes : List ℕ) (op : Op)
    ///     (given : Operands) (rest : List ℕ) : Type 0 where
    ///   pub immediates : List Argument
    ///   pub decodes : Decodes F mode bytes (record { op = op; arguments = immediates }) rest
    ///   pub operands : AreOperands given immediates
    ///   pub follow : FollowOpcode mode bytes op given rest
    /// ```
    ///
    /// Definitions: [`Format`](super::base::formats::Format), [`Plain`](plain::Plain), [`Mode`](super::base::numbers::Mode), [`Argument`](arguments::Argument), [`Decodes`](super::base::decoding::Decodes), [`AreOperands`](operands::AreOperands), [`FollowOpcode`](operands::FollowOpcode).
    type DecodesOperation;
}

/// Which immediates follow an opcode, by the shape of the instruction.
///
/// [How to read definitions](super). The file is [`Parts.antt`](https://github.com/dolzhytik/dolzhytik/blob/main/crates/wasm_insn/specs/Parts.antt).
pub trait parts {
    /// The immediates of this type are a list. Decoding one requests memory.
    ///
    /// ```text
    /// abbrev pub IsList : Part → Type 0
    /// IsList p = (p ≡ parts.Labels)
    ///     ⊎ ((p ≡ parts.Catches) ⊎ ((p ≡ parts.Types) ⊎ (p ≡ parts.Handles)))
    /// ```
    type IsList;
    /// The types of the immediates of a shape, in order.
    ///
    /// ```text
    /// abbrev pub parts_of : Shape → List Part
    /// parts_of Nothing = []
    /// parts_of U = parts.Unsigned ∷ []
    /// parts_of Uu = parts.Unsigned ∷ parts.Unsigned ∷ []
    /// parts_of M = parts.Memory ∷ []
    /// parts_of Ml = parts.Memory ∷ parts.Lane ∷ []
    /// parts_of L = parts.Lane ∷ []
    /// parts_of B = parts.Block ∷ []
    /// parts_of H = parts.Heap ∷ []
    /// parts_of O = parts.Ordering ∷ []
    /// parts_of Ou = parts.Ordering ∷ parts.Unsigned ∷ []
    /// parts_of Ouu = parts.Ordering ∷ parts.Unsigned ∷ parts.Unsigned ∷ []
    /// parts_of C32 = parts.Signed32 ∷ []
    /// parts_of C64 = parts.Signed64 ∷ []
    /// parts_of F32 = parts.Float32 ∷ []
    /// parts_of F64 = parts.Float64 ∷ []
    /// parts_of V = parts.Vector ∷ []
    /// parts_of Ls = parts.Lanes ∷ []
    /// parts_of Bt = parts.Labels ∷ parts.Unsigned ∷ []
    /// parts_of Tt = parts.Block ∷ parts.Catches ∷ []
    /// parts_of Ts = parts.Types ∷ []
    /// parts_of K = parts.Flag ∷ parts.Unsigned ∷ parts.Heap ∷ parts.Heap ∷ []
    /// parts_of Uh = parts.Unsigned ∷ parts.Handles ∷ []
    /// parts_of Uuh = parts.Unsigned ∷ parts.Unsigned ∷ parts.Handles ∷ []
    /// ```
    type parts_of;
}

/// Instructions as opcode and immediates: when they are well-formed, their normal form and their format.
///
/// - Normal form: [`normal_argument`](plain::normal_argument), [`Plain`](plain::Plain), [`normal_arguments`](plain::normal_arguments), [`normal`](plain::normal).
/// - Well-formed immediates: [`IsWellFormedArgument`](plain::IsWellFormedArgument), [`AreWellFormed`](plain::AreWellFormed), [`HasSmallAlignment`](plain::HasSmallAlignment), [`HaveSmallAlignments`](plain::HaveSmallAlignments).
/// - Formats of immediates, opcodes and instructions: [`float32_of`](plain::float32_of), [`float64_of`](plain::float64_of), [`part`](plain::part), [`cons`](plain::cons), [`arguments`](plain::arguments), [`is_prefix`](plain::is_prefix), [`IsOpcode`](plain::IsOpcode), [`op_after`](plain::op_after), [`opcode`](plain::opcode), [`same_op`](plain::same_op), [`Table`](plain::Table), [`shape_of`](plain::shape_of), [`arguments_after`](plain::arguments_after), [`plain_of`](plain::plain_of), [`instruction`](plain::instruction).
/// - Well-formed instructions: [`IsWellFormed`](plain::IsWellFormed), [`plain_encoding`](plain::plain_encoding).
///
/// [How to read definitions](super). The file is [`Plain.antt`](https://github.com/dolzhytik/dolzhytik/blob/main/crates/wasm_insn/specs/Plain.antt).
pub trait plain {
    /// The normal form of an immediate: a memory argument in normal form, and any other as it is.
    ///
    /// ```text
    /// abbrev pub normal_argument : Argument → Argument
    /// normal_argument (memory m) = memory (normal_memory m)
    /// normal_argument x = x
    /// ```
    ///
    /// Definitions: [`Argument`](arguments::Argument), [`memory`](arguments::Argument), [`normal_memory`](super::immediates::immediate_formats::normal_memory).
    type normal_argument;
    /// An instruction: an opcode and immediates.
    ///
    /// ```text
    /// pub record Plain : Type 0 where
    ///   pub op : Op
    ///   pub arguments : List Argument
    /// ```
    ///
    /// Definitions: [`Argument`](arguments::Argument).
    type Plain;
    /// The immediates, each in normal form.
    ///
    /// ```text
    /// abbrev pub normal_arguments : List Argument → List Argument
    /// normal_arguments [] = []
    /// normal_arguments (x ∷ xs) = normal_argument x ∷ normal_arguments xs
    /// ```
    ///
    /// Definitions: [`Argument`](arguments::Argument), [`normal_argument`](plain::normal_argument).
    type normal_arguments;
    /// The normal form of an instruction: its immediates in normal form.
    ///
    /// ```text
    /// abbrev pub normal : Plain → Plain
    /// normal i = record { op = i.op; arguments = normal_arguments i.arguments }
    /// ```
    ///
    /// Definitions: [`Plain`](plain::Plain), [`normal_arguments`](plain::normal_arguments).
    type normal;
    /// The immediate is well-formed: numbers are in the range of their type, alignments below 16 and flags of a cast below 4. Lists have at most 2^32 - 1 members, and there are 16 lanes.
    ///
    /// ```text
    /// abbrev pub IsWellFormedArgument : Argument → Type 0
    /// IsWellFormedArgument (unsigned n) = n < 2 ^ 32
    /// IsWellFormedArgument (signed32 v) = IsSigned32InRange v
    /// IsWellFormedArgument (signed64 v) = IsSigned64InRange v
    /// IsWellFormedArgument (float32 float) = float.bits < 2 ^ 32
    /// IsWellFormedArgument (float64 float) = float.bits < 2 ^ 64
    /// IsWellFormedArgument (vector v) = IsVector v
    /// IsWellFormedArgument (memory m) = IsWellFormedMemory m
    /// IsWellFormedArgument (lane n) = ⊤
    /// IsWellFormedArgument (lanes ns) = length ns ≡ 16
    /// IsWellFormedArgument (block type) = IsWellFormedBlock type
    /// IsWellFormedArgument (heap type) = IsHeap type
    /// IsWellFormedArgument (ordering o) = ⊤
    /// IsWellFormedArgument (labels ns) = IsEncodableVec (λ n. n < 2 ^ 32) ns
    /// IsWellFormedArgument (catches cs) = IsEncodableVec IsWellFormedCatch cs
    /// IsWellFormedArgument (types ts) = IsEncodableVec IsVal ts
    /// IsWellFormedArgument (handles hs) = IsEncodableVec IsWellFormedHandle hs
    /// IsWellFormedArgument (flag n) = n < 4
    /// ```
    ///
    /// Definitions: [`Argument`](arguments::Argument), [`unsigned`](arguments::Argument), [`signed32`](arguments::Argument), [`IsSigned32InRange`](super::base::laws::IsSigned32InRange), [`signed64`](arguments::Argument), [`IsSigned64InRange`](super::base::laws::IsSigned64InRange), [`float32`](arguments::Argument), [`float64`](arguments::Argument), [`vector`](arguments::Argument), [`IsVector`](super::base::formats::IsVector), [`memory`](arguments::Argument), [`IsWellFormedMemory`](super::immediates::immediate_formats::IsWellFormedMemory), [`lane`](arguments::Argument), [`lanes`](arguments::Argument), [`block`](arguments::Argument), [`IsWellFormedBlock`](super::immediates::immediate_formats::IsWellFormedBlock), [`heap`](arguments::Argument), [`IsHeap`](super::base::types::IsHeap), [`ordering`](arguments::Argument), [`labels`](arguments::Argument), [`IsEncodableVec`](super::base::encodings::IsEncodableVec), [`catches`](arguments::Argument), [`IsWellFormedCatch`](super::immediates::immediate_formats::IsWellFormedCatch), [`types`](arguments::Argument), [`IsVal`](super::base::types::IsVal), [`handles`](arguments::Argument), [`IsWellFormedHandle`](super::immediates::immediate_formats::IsWellFormedHandle), [`flag`](arguments::Argument).
    type IsWellFormedArgument;
    /// Each immediate is well-formed.
    ///
    /// ```text
    /// abbrev pub AreWellFormed : List Argument → Type 0
    /// AreWellFormed = AllByRecursion IsWellFormedArgument
    /// ```
    ///
    /// Definitions: [`Argument`](arguments::Argument), [`IsWellFormedArgument`](plain::IsWellFormedArgument).
    type AreWellFormed;
    /// The alignment of a memory argument is below 16.
    ///
    /// ```text
    /// abbrev pub HasSmallAlignment : Argument → Type 0
    /// HasSmallAlignment (memory m) = m.align < 16
    /// HasSmallAlignment _ = ⊤
    /// ```
    ///
    /// Definitions: [`Argument`](arguments::Argument), [`memory`](arguments::Argument).
    type HasSmallAlignment;
    /// The alignment of each memory argument is below 16.
    ///
    /// ```text
    /// abbrev pub HaveSmallAlignments : List Argument → Type 0
    /// HaveSmallAlignments = AllByRecursion HasSmallAlignment
    /// ```
    ///
    /// Definitions: [`Argument`](arguments::Argument), [`HasSmallAlignment`](plain::HasSmallAlignment).
    type HaveSmallAlignments;
    /// The immediate of a 32-bit float with these bits.
    ///
    /// ```text
    /// abbrev pub float32_of : ℕ → Argument
    /// float32_of bits = float32 (record { bits = bits })
    /// ```
    ///
    /// Definitions: [`Argument`](arguments::Argument), [`float32`](arguments::Argument).
    type float32_of;
    /// The immediate of a 64-bit float with these bits.
    ///
    /// ```text
    /// abbrev pub float64_of : ℕ → Argument
    /// float64_of bits = float64 (record { bits = bits })
    /// ```
    ///
    /// Definitions: [`Argument`](arguments::Argument), [`float64`](arguments::Argument).
    type float64_of;
    /// The format of an immediate, by its type.
    ///
    /// ```text
    /// abbrev pub part : Part → Format Argument
    /// part parts.Unsigned = mapped unsigned u32
    /// part parts.Signed32 = mapped signed32 s32
    /// part parts.Signed64 = mapped signed64 s64
    /// part parts.Float32 = mapped float32_of (little_endian 4)
    /// part parts.Float64 = mapped float64_of (little_endian 8)
    /// part parts.Vector = mapped vector vector_format
    /// part parts.Memory = mapped memory mem_arg
    /// part parts.Lane = mapped lane byte
    /// part parts.Lanes = mapped lanes (raw_bytes 16)
    /// part parts.Block = mapped block block_type
    /// part parts.Heap = mapped heap heap_type
    /// part parts.Ordering = mapped ordering ordering_format
    /// part parts.Labels = mapped labels (vec u32)
    /// part parts.Catches = mapped catches (vec catch)
    /// part parts.Types = mapped types (vec val_type)
    /// part parts.Handles = mapped handles (vec handle)
    /// part parts.Flag = mapped flag (such (λ b. b < 4) byte)
    /// ```
    ///
    /// Definitions: [`Format`](super::base::formats::Format), [`Argument`](arguments::Argument), [`mapped`](super::base::formats::mapped), [`unsigned`](arguments::Argument), [`u32`](super::base::formats::u32), [`signed32`](arguments::Argument), [`s32`](super::base::formats::s32), [`signed64`](arguments::Argument), [`s64`](super::base::formats::s64), [`float32_of`](plain::float32_of), [`little_endian`](super::base::formats::little_endian), [`float64_of`](plain::float64_of), [`vector`](arguments::Argument), [`vector_format`](super::base::formats::vector_format), [`memory`](arguments::Argument), [`mem_arg`](super::immediates::immediate_formats::mem_arg), [`lane`](arguments::Argument), [`byte`](super::base::formats::byte), [`lanes`](arguments::Argument), [`raw_bytes`](super::base::formats::raw_bytes), [`block`](arguments::Argument), [`block_type`](super::immediates::immediate_formats::block_type), [`heap`](arguments::Argument), [`heap_type`](super::base::types::heap_type), [`ordering`](arguments::Argument), [`ordering_format`](super::immediates::immediate_formats::ordering_format), [`labels`](arguments::Argument), [`vec`](super::base::formats::vec), [`catches`](arguments::Argument), [`catch`](super::immediates::immediate_formats::catch), [`types`](arguments::Argument), [`val_type`](super::base::types::val_type), [`handles`](arguments::Argument), [`handle`](super::immediates::immediate_formats::handle), [`flag`](arguments::Argument), [`such`](super::base::formats::such).
    type part;
    /// The list of a first member and the other members.
    ///
    /// ```text
    /// abbrev pub cons : {X : Type 0} → X × List X → List X
    /// cons p = p.0 ∷ p.1
    /// ```
    type cons;
    /// One immediate of each type, in order.
    ///
    /// ```text
    /// abbrev pub arguments : List Part → Format (List Argument)
    /// arguments [] = fixed [] []
    /// arguments (p ∷ ps) = mapped cons (pair (part p) (arguments ps))
    /// ```
    ///
    /// Definitions: [`Format`](super::base::formats::Format), [`Argument`](arguments::Argument), [`fixed`](super::base::formats::fixed), [`mapped`](super::base::formats::mapped), [`cons`](plain::cons), [`pair`](super::base::formats::pair), [`part`](plain::part).
    type arguments;
    /// Whether the byte is a prefix of opcodes: FB, FC, FD or FE.
    ///
    /// ```text
    /// abbrev pub is_prefix : ℕ → Bool
    /// is_prefix b = nat_le 0xFB b && nat_le b 0xFE
    /// ```
    type is_prefix;
    /// A prefix has a number below 2^32, and no other byte has one.
    ///
    /// ```text
    /// abbrev pub IsOpcode : Op → Type 0
    /// IsOpcode (Byte b) = is_prefix b ≡ false
    /// IsOpcode (Prefixed prefix number) = (is_prefix prefix ≡ true) × (number < 2 ^ 32)
    /// ```
    ///
    /// Definitions: [`is_prefix`](plain::is_prefix).
    type IsOpcode;
    /// The bytes after the first byte of an opcode: a number after a prefix, nothing after any other byte.
    ///
    /// ```text
    /// abbrev pub op_after : ℕ → Format Op
    /// op_after b = when (is_prefix b) (mapped (Prefixed b) u32) (fixed [] (Byte b))
    /// ```
    ///
    /// Definitions: [`Format`](super::base::formats::Format), [`when`](super::base::formats::when), [`is_prefix`](plain::is_prefix), [`mapped`](super::base::formats::mapped), [`u32`](super::base::formats::u32), [`fixed`](super::base::formats::fixed).
    type op_after;
    /// An opcode: a byte, or a prefix and a number. Core specification, Binary Format, Instructions.
    ///
    /// ```text
    /// abbrev pub opcode : Format Op
    /// opcode = tagged byte op_after
    /// ```
    ///
    /// Definitions: [`Format`](super::base::formats::Format), [`tagged`](super::base::formats::tagged), [`byte`](super::base::formats::byte), [`op_after`](plain::op_after).
    type opcode;
    /// Whether two opcodes are the same.
    ///
    /// ```text
    /// abbrev pub same_op : Op → Op → Bool
    /// same_op (Byte a) (Byte b) = a == b
    /// same_op (Byte a) (Prefixed p n) = false
    /// same_op (Prefixed p n) (Byte b) = false
    /// same_op (Prefixed p n) (Prefixed q m) = (p == q) && (n == m)
    /// ```
    type same_op;
    /// An opcode table: opcodes with their shapes.
    ///
    /// ```text
    /// abbrev pub Table : Type 0
    /// Table = List (Op × Shape)
    /// ```
    type Table;
    /// The shape of an opcode: that of its first row in the table.
    ///
    /// ```text
    /// abbrev pub shape_of : Table → Op → Option Shape
    /// shape_of [] op = None
    /// shape_of (row ∷ rows) op = cond (same_op row.0 op) (Some row.1) (shape_of rows op)
    /// ```
    ///
    /// Definitions: [`Table`](plain::Table), [`same_op`](plain::same_op).
    type shape_of;
    /// The immediates after an opcode of this shape. Nothing decodes after an opcode that is not in the table.
    ///
    /// ```text
    /// abbrev pub arguments_after : Option Shape → Format (List Argument)
    /// arguments_after None = impossible
    /// arguments_after (Some shape) = arguments (parts_of shape)
    /// ```
    ///
    /// Definitions: [`Format`](super::base::formats::Format), [`Argument`](arguments::Argument), [`impossible`](super::base::formats::impossible), [`arguments`](plain::arguments), [`parts_of`](parts::parts_of).
    type arguments_after;
    /// The instruction of an opcode and immediates.
    ///
    /// ```text
    /// abbrev pub plain_of : Op × List Argument → Plain
    /// plain_of p = record { op = p.0; arguments = p.1 }
    /// ```
    ///
    /// Definitions: [`Argument`](arguments::Argument), [`Plain`](plain::Plain).
    type plain_of;
    /// An instruction in normal form: an opcode, and the immediates that its shape in the table has.
    ///
    /// ```text
    /// abbrev pub instruction : Table → Format Plain
    /// instruction table = mapped plain_of
    ///     (Then opcode (λ op. arguments_after (shape_of table op)))
    /// ```
    ///
    /// Definitions: [`Table`](plain::Table), [`Format`](super::base::formats::Format), [`Plain`](plain::Plain), [`mapped`](super::base::formats::mapped), [`plain_of`](plain::plain_of), [`Then`](super::base::formats::Then), [`opcode`](plain::opcode), [`arguments_after`](plain::arguments_after), [`shape_of`](plain::shape_of).
    type instruction;
    /// The instruction is well-formed: its opcode is in the table, and it has a well-formed immediate for each of its shape.
    ///
    /// ```text
    /// pub record IsWellFormed (table : Table) (i : Plain) : Type 0 where
    ///   pub shape : Shape
    ///   pub opcode : IsOpcode i.op
    ///   pub row : shape_of table i.op ≡ Some shape
    ///   pub parts : map part_of i.arguments ≡ parts_of shape
    ///   pub arguments : AreWellFormed i.arguments
    /// ```
    ///
    /// Definitions: [`Table`](plain::Table), [`Plain`](plain::Plain), [`IsOpcode`](plain::IsOpcode), [`shape_of`](plain::shape_of), [`part_of`](arguments::part_of), [`parts_of`](parts::parts_of), [`AreWellFormed`](plain::AreWellFormed).
    type IsWellFormed;
    /// The encoding of an instruction: its opcode, then its immediates.
    ///
    /// ```text
    /// abbrev pub plain_encoding : Plain → List ℕ
    /// plain_encoding i = op_encoding i.op ++ arguments_encoding i.arguments
    /// ```
    ///
    /// Definitions: [`Plain`](plain::Plain), [`op_encoding`](opcodes::op_encoding), [`arguments_encoding`](arguments::arguments_encoding).
    type plain_encoding;
}

/// The opcodes of the instructions of `PrefixedNumeric`.
///
/// [How to read definitions](super). The file is [`PrefixedNumeric.antt`](https://github.com/dolzhytik/dolzhytik/blob/main/crates/wasm_insn/specs/PrefixedNumeric.antt).
pub trait prefixed_numeric {
    /// The number of each instruction after the prefix FC.
    ///
    /// ```text
    /// abbrev pub prefixed_numeric_number : PrefixedNumeric → ℕ
    /// prefixed_numeric_number cases.I32TruncSatF32S = 0
    /// prefixed_numeric_number cases.I32TruncSatF32U = 1
    /// prefixed_numeric_number cases.I32TruncSatF64S = 2
    /// prefixed_numeric_number cases.I32TruncSatF64U = 3
    /// prefixed_numeric_number cases.I64TruncSatF32S = 4
    /// prefixed_numeric_number cases.I64TruncSatF32U = 5
    /// prefixed_numeric_number cases.I64TruncSatF64S = 6
    /// prefixed_numeric_number cases.I64TruncSatF64U = 7
    /// prefixed_numeric_number cases.I64Add128 = 19
    /// prefixed_numeric_number cases.I64Sub128 = 20
    /// prefixed_numeric_number cases.I64MulWideS = 21
    /// prefixed_numeric_number cases.I64MulWideU = 22
    /// ```
    type prefixed_numeric_number;
}

/// The promises of calls on an instruction sink.
///
/// [How to read definitions](super). The file is [`Sink.antt`](https://github.com/dolzhytik/dolzhytik/blob/main/crates/wasm_insn/specs/Sink.antt).
pub trait sink {
    /// The old bytes, followed by the encoding if the call succeeds.
    ///
    /// ```text
    /// abbrev pub appended : Result (Unit {0}) Refused → List ℕ → List ℕ → List ℕ
    /// appended result old encoding = if is_ok result then old ++ encoding else old
    /// ```
    type appended;
    /// The sink gains the encoding, or the call returns an error and leaves the bytes as they were. If the value fits, the call never returns `TooLong`, and it succeeds within the spare capacity.
    ///
    /// ```text
    /// pub record Writes (encoding : List ℕ) (encodable has_spare_capacity : Type 0)
    ///     (old new : List ℕ) (result : Result (Unit {0}) Refused) : Type 0 where
    ///   pub bytes : new ≡ appended result old encoding
    ///   pub was_encodable : OnOk result encodable
    ///   pub too_long : encodable → result ≢ Err TooLong
    ///   pub spare : encodable → has_spare_capacity → IsOk result
    /// ```
    ///
    /// Definitions: [`appended`](sink::appended).
    type Writes;
    /// The sink gains the encoding of the instruction, or the call returns an error and leaves the bytes as they were.
    ///
    /// ```text
    /// abbrev pub WritesInstruction
    ///     : {B : Type 0} → (B → List ℕ) → (B → ℕ → Type 0) → Instruction Global → B → B
    ///     → Result (Unit {0}) Refused → Type 0
    /// WritesInstruction written has_spare_capacity i old new result =
    ///     Writes (instruction_encoding i) (IsEncodableInstruction i)
    ///         (has_spare_capacity old (length (instruction_encoding i))) (written old)
    ///         (written new) result
    /// ```
    ///
    /// Definitions: [`Writes`](sink::Writes), [`instruction_encoding`](instructions::instruction_encoding), [`IsEncodableInstruction`](instructions::IsEncodableInstruction).
    type WritesInstruction;
    /// The sink gains `before`, the vector of the items that the iterator yields, and `after`; or the call returns an error and changes nothing. If the iterator reports more than 2^32 - 1 items, the error is `TooLong`.
    ///
    /// ```text
    /// pub record WritesVec {E I T : Type 0} (becomes : E → I → Type 0)
    ///     (gives : I → Option T → I → Type 0) (remaining : I → Count) (Encodable : T → Type 0)
    ///     (encoding : T → List ℕ)
    ///     (elements : E) (others_encodable : Type 0) (before after old new : List ℕ)
    ///         (result : Result (Unit {0}) Refused) : Type 0 where
    ///   pub ok : OnOk result ((it : I) × (xs : List T) × becomes elements it
    ///       × Drains gives it xs × IsEncodableVec Encodable xs × others_encodable
    ///       × (new ≡ old ++ (before ++ (vec_encoding encoding xs ++ after))))
    ///   pub err : OnErr result (new ≡ old)
    ///   pub too_long : ((it : I) → becomes elements it → size (remaining it) ≤ longest)
    ///       → ((it left : I) (xs : List T) → becomes elements it → Yields gives it xs left
    ///           → All Encodable xs)
    ///       → others_encodable
    ///       → result ≢ Err TooLong
    ///   pub too_many : ((it : I) → becomes elements it → longest < size (remaining it))
    ///       → result ≡ Err TooLong
    /// ```
    ///
    /// Definitions: [`IsEncodableVec`](super::base::encodings::IsEncodableVec), [`vec_encoding`](super::base::encodings::vec_encoding), [`longest`](super::base::encodings::longest).
    type WritesVec;
    /// The encoding of `br_table` with these labels and this default label.
    ///
    /// ```text
    /// abbrev pub br_table_encoding : List ℕ → ℕ → List ℕ
    /// br_table_encoding ls default = plain_encoding
    ///     (record { op = Byte 0x0E; arguments = labels ls ∷ unsigned default ∷ [] })
    /// ```
    ///
    /// Definitions: [`plain_encoding`](plain::plain_encoding), [`labels`](arguments::Argument), [`unsigned`](arguments::Argument).
    type br_table_encoding;
    /// The sink gains `br_table` with the labels that the iterator yields, or the call returns an error and changes nothing. If the iterator reports more than 2^32 - 1 labels, the error is `TooLong`.
    ///
    /// ```text
    /// pub record WritesLabels {E I : Type 0} (becomes : E → I → Type 0)
    ///     (gives : I → Option ℕ → I → Type 0) (remaining : I → Count)
    ///     (given : E) (default : ℕ) (old new : List ℕ) (result : Result (Unit {0}) Refused)
    ///         : Type 0 where
    ///   pub ok : OnOk result ((it : I) × (ls : List ℕ) × becomes given it × Drains gives it ls
    ///       × (length ls ≤ longest) × (new ≡ old ++ br_table_encoding ls default))
    ///   pub err : OnErr result (new ≡ old)
    ///   pub too_long : ((it : I) → becomes given it → size (remaining it) ≤ longest)
    ///       → result ≢ Err TooLong
    ///   pub too_many : ((it : I) → becomes given it → longest < size (remaining it))
    ///       → result ≡ Err TooLong
    /// ```
    ///
    /// Definitions: [`longest`](super::base::encodings::longest), [`br_table_encoding`](sink::br_table_encoding).
    type WritesLabels;
}

/// The opcode table: a row for each instruction, one-byte opcodes first, then by prefix and number. Core specification, Binary Format, Instructions; docs/FORMAT.md lists the rows that are not in it.
///
/// - Lookup by runs: [`has_number`](table::has_number), [`shape_in`](table::shape_in).
/// - Properties of the table: [`rank`](table::rank), [`IsTableOp`](table::IsTableOp), [`ascends`](table::ascends), [`shared_ops`](table::shared_ops), [`ops_of`](table::ops_of), [`IsOpcodeTable`](table::IsOpcodeTable), [`BeginsNoOther`](table::BeginsNoOther), [`IsRow`](table::IsRow).
///
/// [How to read definitions](super). The file is [`Table.antt`](https://github.com/dolzhytik/dolzhytik/blob/main/crates/wasm_insn/specs/Table.antt).
pub trait table {
    /// The opcodes with the numbers `first` to `last`, which have the same shape.
    ///
    /// ```text
    /// abbrev pub run : ℕ → ℕ → Shape → Run
    /// run first last shape = record { 0 = first; 1 = last; 2 = shape }
    /// ```
    type run;
    /// One-byte opcodes. 1C has two rows, for `TypedSelect` and `TypedSelectMulti`.
    ///
    /// ```text
    /// abbrev pub one_byte : List Run
    /// one_byte =
    ///     run 0x00 0x01 Nothing ∷
    ///     run 0x02 0x04 B ∷
    ///     run 0x05 0x05 Nothing ∷
    ///     run 0x06 0x06 B ∷
    ///     run 0x07 0x09 U ∷
    ///     run 0x0A 0x0B Nothing ∷
    ///     run 0x0C 0x0D U ∷
    ///     run 0x0E 0x0E Bt ∷
    ///     run 0x0F 0x0F Nothing ∷
    ///     run 0x10 0x10 U ∷
    ///     run 0x11 0x11 Uu ∷
    ///     run 0x12 0x12 U ∷
    ///     run 0x13 0x13 Uu ∷
    ///     run 0x14 0x15 U ∷
    ///     run 0x18 0x18 U ∷
    ///     run 0x19 0x1B Nothing ∷
    ///     run 0x1C 0x1C Ts ∷
    ///     run 0x1C 0x1C Ts ∷
    ///     run 0x1F 0x1F Tt ∷
    ///     run 0x20 0x26 U ∷
    ///     run 0x28 0x3E M ∷
    ///     run 0x3F 0x40 U ∷
    ///     run 0x41 0x41 C32 ∷
    ///     run 0x42 0x42 C64 ∷
    ///     run 0x43 0x43 F32 ∷
    ///     run 0x44 0x44 F64 ∷
    ///     run 0x45 0xC4 Nothing ∷
    ///     run 0xD0 0xD0 H ∷
    ///     run 0xD1 0xD1 Nothing ∷
    ///     run 0xD2 0xD2 U ∷
    ///     run 0xD3 0xD4 Nothing ∷
    ///     run 0xD5 0xD6 U ∷
    ///     run 0xE0 0xE0 U ∷
    ///     run 0xE1 0xE1 Uu ∷
    ///     run 0xE2 0xE2 U ∷
    ///     run 0xE3 0xE3 Uh ∷
    ///     run 0xE4 0xE4 Uuh ∷
    ///     run 0xE5 0xE5 Uh ∷
    ///     run 0xE6 0xE6 Uu ∷
    ///     []
    /// ```
    ///
    /// Definitions: [`run`](table::run).
    type one_byte;
    /// Opcodes after the prefix FB.
    ///
    /// ```text
    /// abbrev pub after_fb : List Run
    /// after_fb =
    ///     run 0 1 U ∷
    ///     run 2 5 Uu ∷
    ///     run 6 7 U ∷
    ///     run 8 10 Uu ∷
    ///     run 11 14 U ∷
    ///     run 15 15 Nothing ∷
    ///     run 16 16 U ∷
    ///     run 17 19 Uu ∷
    ///     run 20 23 H ∷
    ///     run 24 25 K ∷
    ///     run 26 30 Nothing ∷
    ///     run 32 34 U ∷
    ///     run 35 36 H ∷
    ///     run 37 38 K ∷
    ///     []
    /// ```
    ///
    /// Definitions: [`run`](table::run).
    type after_fb;
    /// Opcodes after the prefix FC.
    ///
    /// ```text
    /// abbrev pub after_fc : List Run
    /// after_fc =
    ///     run 0 7 Nothing ∷
    ///     run 8 8 Uu ∷
    ///     run 9 9 U ∷
    ///     run 10 10 Uu ∷
    ///     run 11 11 U ∷
    ///     run 12 12 Uu ∷
    ///     run 13 13 U ∷
    ///     run 14 14 Uu ∷
    ///     run 15 18 U ∷
    ///     run 19 22 Nothing ∷
    ///     []
    /// ```
    ///
    /// Definitions: [`run`](table::run).
    type after_fc;
    /// Opcodes after the prefix FD.
    ///
    /// ```text
    /// abbrev pub after_fd : List Run
    /// after_fd =
    ///     run 0 11 M ∷
    ///     run 12 12 V ∷
    ///     run 13 13 Ls ∷
    ///     run 14 20 Nothing ∷
    ///     run 21 34 L ∷
    ///     run 35 83 Nothing ∷
    ///     run 84 91 Ml ∷
    ///     run 92 93 M ∷
    ///     run 94 153 Nothing ∷
    ///     run 155 161 Nothing ∷
    ///     run 163 164 Nothing ∷
    ///     run 167 174 Nothing ∷
    ///     run 177 177 Nothing ∷
    ///     run 181 186 Nothing ∷
    ///     run 188 193 Nothing ∷
    ///     run 195 196 Nothing ∷
    ///     run 199 206 Nothing ∷
    ///     run 209 209 Nothing ∷
    ///     run 213 225 Nothing ∷
    ///     run 227 237 Nothing ∷
    ///     run 239 275 Nothing ∷
    ///     []
    /// ```
    ///
    /// Definitions: [`run`](table::run).
    type after_fd;
    /// Opcodes after the prefix FE.
    ///
    /// ```text
    /// abbrev pub after_fe : List Run
    /// after_fe =
    ///     run 0x00 0x02 M ∷
    ///     run 0x03 0x03 O ∷
    ///     run 0x04 0x04 Nothing ∷
    ///     run 0x10 0x4E M ∷
    ///     run 0x4F 0x5B Ou ∷
    ///     run 0x5C 0x66 Ouu ∷
    ///     run 0x67 0x71 Ou ∷
    ///     run 0x72 0x72 Nothing ∷
    ///     []
    /// ```
    ///
    /// Definitions: [`run`](table::run).
    type after_fe;
    /// The first `k` numbers from `n` on.
    ///
    /// ```text
    /// abbrev pub count_up : ℕ → ℕ → List ℕ
    /// count_up zero n = []
    /// count_up (suc k) n = n ∷ count_up k (n + 1)
    /// ```
    type count_up;
    /// The rows of a run: its opcodes, each with the shape.
    ///
    /// ```text
    /// abbrev pub rows_of : (ℕ → Op) → Run → Table
    /// rows_of op r = map (λ n. (op n, r.2)) (count_up (r.1 + 1 - r.0) r.0)
    /// ```
    ///
    /// Definitions: [`Table`](plain::Table), [`count_up`](table::count_up).
    type rows_of;
    /// The rows of the one-byte opcodes, then of the opcodes after each prefix.
    ///
    /// ```text
    /// abbrev pub table_of : (bytes fb fc fd fe : List Run) → Table
    /// table_of bytes fb fc fd fe =
    ///     flat_map (rows_of Byte) bytes
    ///     ++ (flat_map (rows_of (Prefixed 0xFB)) fb
    ///     ++ (flat_map (rows_of (Prefixed 0xFC)) fc
    ///     ++ (flat_map (rows_of (Prefixed 0xFD)) fd
    ///     ++ (flat_map (rows_of (Prefixed 0xFE)) fe ++ []))))
    /// ```
    ///
    /// Definitions: [`Table`](plain::Table), [`rows_of`](table::rows_of).
    type table_of;
    /// The opcode table of 628 rows.
    ///
    /// ```text
    /// unfoldable pub table : Table
    /// table = table_of one_byte after_fb after_fc after_fd after_fe
    /// ```
    ///
    /// Definitions: [`Table`](plain::Table), [`table_of`](table::table_of), [`one_byte`](table::one_byte), [`after_fb`](table::after_fb), [`after_fc`](table::after_fc), [`after_fd`](table::after_fd), [`after_fe`](table::after_fe).
    type table;
    /// Whether the run has this number.
    ///
    /// ```text
    /// abbrev pub has_number : ℕ → Run → Bool
    /// has_number n r = nat_le r.0 n && nat_le n r.1
    /// ```
    type has_number;
    /// The shape of the run that has the number.
    ///
    /// ```text
    /// abbrev pub shape_in : List Run → ℕ → Option Shape
    /// shape_in runs n = option_map (λ r. r.2) (find (has_number n) runs)
    /// ```
    ///
    /// Definitions: [`has_number`](table::has_number).
    type shape_in;
    /// The rank of an opcode in the order of the table.
    ///
    /// ```text
    /// abbrev pub rank : Op → ℕ
    /// rank (Byte b) = b
    /// rank (Prefixed p n) = p * 2 ^ 32 + n
    /// ```
    type rank;
    /// A byte that is not a prefix, or a prefix with a number below 2^32.
    ///
    /// ```text
    /// abbrev pub IsTableOp : Op → Type 0
    /// IsTableOp (Byte b) = (b < 0x100) × (is_prefix b ≡ false)
    /// IsTableOp (Prefixed p n) = (is_prefix p ≡ true) × (n < 2 ^ 32)
    /// ```
    ///
    /// Definitions: [`is_prefix`](plain::is_prefix).
    type IsTableOp;
    /// No row's opcode comes before that of the row above it.
    ///
    /// ```text
    /// abbrev pub ascends : Table → Bool
    /// ascends [] = true
    /// ascends (row ∷ []) = true
    /// ascends (row ∷ next ∷ rows) = nat_le (rank row.0) (rank next.0) && ascends (next ∷ rows)
    /// ```
    ///
    /// Definitions: [`Table`](plain::Table), [`rank`](table::rank).
    type ascends;
    /// The opcodes that a row shares with the row above it.
    ///
    /// ```text
    /// abbrev pub shared_ops : Table → List Op
    /// shared_ops [] = []
    /// shared_ops (row ∷ []) = []
    /// shared_ops (row ∷ next ∷ rows) = cond (same_op row.0 next.0)
    ///     (row.0 ∷ shared_ops (next ∷ rows)) (shared_ops (next ∷ rows))
    /// ```
    ///
    /// Definitions: [`Table`](plain::Table), [`same_op`](plain::same_op).
    type shared_ops;
    /// The opcodes of the rows, without repeating one that neighbours share.
    ///
    /// ```text
    /// abbrev pub ops_of : Table → List Op
    /// ops_of [] = []
    /// ops_of (row ∷ []) = row.0 ∷ []
    /// ops_of (row ∷ next ∷ rows) = cond (same_op row.0 next.0) (ops_of (next ∷ rows))
    ///     (row.0 ∷ ops_of (next ∷ rows))
    /// ```
    ///
    /// Definitions: [`Table`](plain::Table), [`same_op`](plain::same_op).
    type ops_of;
    /// The table has 628 rows on 627 opcodes, in ascending order. Two neighbours share the opcode 1C, and no others share one.
    ///
    /// ```text
    /// pub record IsOpcodeTable (rows : Table) : Type 0 where
    ///   pub row_count : length rows ≡ 628
    ///   pub op_count : length (ops_of rows) ≡ 627
    ///   pub ops : AllByRecursion (λ row. IsTableOp row.0) rows
    ///   pub ascending : IsTrue (ascends rows)
    ///   pub shared : shared_ops rows ≡ Byte 0x1C ∷ []
    /// ```
    ///
    /// Definitions: [`Table`](plain::Table), [`ops_of`](table::ops_of), [`IsTableOp`](table::IsTableOp), [`ascends`](table::ascends), [`shared_ops`](table::shared_ops).
    type IsOpcodeTable;
    /// The opcodes are prefix-free: if two encodings begin the same bytes, they are of the same opcode.
    ///
    /// ```text
    /// pub record BeginsNoOther : Type 0 where
    ///   pub for_each : (a b : Op) (x y : List ℕ) → IsTableOp a → IsTableOp b
    ///       → op_encoding a ++ x ≡ op_encoding b ++ y → a ≡ b
    /// ```
    ///
    /// Definitions: [`IsTableOp`](table::IsTableOp), [`op_encoding`](opcodes::op_encoding).
    type BeginsNoOther;
    /// The opcode is in the table, and the instruction has an immediate for each of its shape.
    ///
    /// ```text
    /// pub record IsRow (rows : Table) (i : Plain) : Type 0 where
    ///   pub op : IsTableOp i.op
    ///   pub shape : Shape
    ///   pub row : shape_of rows i.op ≡ Some shape
    ///   pub parts : map part_of i.arguments ≡ parts_of shape
    /// ```
    ///
    /// Definitions: [`Table`](plain::Table), [`Plain`](plain::Plain), [`IsTableOp`](table::IsTableOp), [`shape_of`](plain::shape_of), [`part_of`](arguments::part_of), [`parts_of`](parts::parts_of).
    type IsRow;
}

/// The opcodes of the instructions of `Vector`.
///
/// [How to read definitions](super). The file is [`Vector.antt`](https://github.com/dolzhytik/dolzhytik/blob/main/crates/wasm_insn/specs/Vector.antt).
pub trait vector {
    /// The number of each instruction after the prefix FD.
    ///
    /// ```text
    /// abbrev pub vector_number : Vector → ℕ
    /// vector_number cases.I8x16Swizzle = 14
    /// vector_number cases.I8x16Splat = 15
    /// vector_number cases.I16x8Splat = 16
    /// vector_number cases.I32x4Splat = 17
    /// vector_number cases.I64x2Splat = 18
    /// vector_number cases.F32x4Splat = 19
    /// vector_number cases.F64x2Splat = 20
    /// vector_number cases.I8x16Eq = 35
    /// vector_number cases.I8x16Ne = 36
    /// vector_number cases.I8x16LtS = 37
    /// vector_number cases.I8x16LtU = 38
    /// vector_number cases.I8x16GtS = 39
    /// vector_number cases.I8x16GtU = 40
    /// vector_number cases.I8x16LeS = 41
    /// vector_number cases.I8x16LeU = 42
    /// vector_number cases.I8x16GeS = 43
    /// vector_number cases.I8x16GeU = 44
    /// vector_number cases.I16x8Eq = 45
    /// vector_number cases.I16x8Ne = 46
    /// vector_number cases.I16x8LtS = 47
    /// vector_number cases.I16x8LtU = 48
    /// vector_number cases.I16x8GtS = 49
    /// vector_number cases.I16x8GtU = 50
    /// vector_number cases.I16x8LeS = 51
    /// vector_number cases.I16x8LeU = 52
    /// vector_number cases.I16x8GeS = 53
    /// vector_number cases.I16x8GeU = 54
    /// vector_number cases.I32x4Eq = 55
    /// vector_number cases.I32x4Ne = 56
    /// vector_number cases.I32x4LtS = 57
    /// vector_number cases.I32x4LtU = 58
    /// vector_number cases.I32x4GtS = 59
    /// vector_number cases.I32x4GtU = 60
    /// vector_number cases.I32x4LeS = 61
    /// vector_number cases.I32x4LeU = 62
    /// vector_number cases.I32x4GeS = 63
    /// vector_number cases.I32x4GeU = 64
    /// vector_number cases.F32x4Eq = 65
    /// vector_number cases.F32x4Ne = 66
    /// vector_number cases.F32x4Lt = 67
    /// vector_number cases.F32x4Gt = 68
    /// vector_number cases.F32x4Le = 69
    /// vector_number cases.F32x4Ge = 70
    /// vector_number cases.F64x2Eq = 71
    /// vector_number cases.F64x2Ne = 72
    /// vector_number cases.F64x2Lt = 73
    /// vector_number cases.F64x2Gt = 74
    /// vector_number cases.F64x2Le = 75
    /// vector_number cases.F64x2Ge = 76
    /// vector_number cases.V128Not = 77
    /// vector_number cases.V128And = 78
    /// vector_number cases.V128AndNot = 79
    /// vector_number cases.V128Or = 80
    /// vector_number cases.V128Xor = 81
    /// vector_number cases.V128Bitselect = 82
    /// vector_number cases.V128AnyTrue = 83
    /// vector_number cases.F32x4DemoteF64x2Zero = 94
    /// vector_number cases.F64x2PromoteLowF32x4 = 95
    /// vector_number cases.I8x16Abs = 96
    /// vector_number cases.I8x16Neg = 97
    /// vector_number cases.I8x16Popcnt = 98
    /// vector_number cases.I8x16AllTrue = 99
    /// vector_number cases.I8x16Bitmask = 100
    /// vector_number cases.I8x16NarrowI16x8S = 101
    /// vector_number cases.I8x16NarrowI16x8U = 102
    /// vector_number cases.F32x4Ceil = 103
    /// vector_number cases.F32x4Floor = 104
    /// vector_number cases.F32x4Trunc = 105
    /// vector_number cases.F32x4Nearest = 106
    /// vector_number cases.I8x16Shl = 107
    /// vector_number cases.I8x16ShrS = 108
    /// vector_number cases.I8x16ShrU = 109
    /// vector_number cases.I8x16Add = 110
    /// vector_number cases.I8x16AddSatS = 111
    /// vector_number cases.I8x16AddSatU = 112
    /// vector_number cases.I8x16Sub = 113
    /// vector_number cases.I8x16SubSatS = 114
    /// vector_number cases.I8x16SubSatU = 115
    /// vector_number cases.F64x2Ceil = 116
    /// vector_number cases.F64x2Floor = 117
    /// vector_number cases.I8x16MinS = 118
    /// vector_number cases.I8x16MinU = 119
    /// vector_number cases.I8x16MaxS = 120
    /// vector_number cases.I8x16MaxU = 121
    /// vector_number cases.F64x2Trunc = 122
    /// vector_number cases.I8x16AvgrU = 123
    /// vector_number cases.I16x8ExtAddPairwiseI8x16S = 124
    /// vector_number cases.I16x8ExtAddPairwiseI8x16U = 125
    /// vector_number cases.I32x4ExtAddPairwiseI16x8S = 126
    /// vector_number cases.I32x4ExtAddPairwiseI16x8U = 127
    /// vector_number cases.I16x8Abs = 128
    /// vector_number cases.I16x8Neg = 129
    /// vector_number cases.I16x8Q15MulrSatS = 130
    /// vector_number cases.I16x8AllTrue = 131
    /// vector_number cases.I16x8Bitmask = 132
    /// vector_number cases.I16x8NarrowI32x4S = 133
    /// vector_number cases.I16x8NarrowI32x4U = 134
    /// vector_number cases.I16x8ExtendLowI8x16S = 135
    /// vector_number cases.I16x8ExtendHighI8x16S = 136
    /// vector_number cases.I16x8ExtendLowI8x16U = 137
    /// vector_number cases.I16x8ExtendHighI8x16U = 138
    /// vector_number cases.I16x8Shl = 139
    /// vector_number cases.I16x8ShrS = 140
    /// vector_number cases.I16x8ShrU = 141
    /// vector_number cases.I16x8Add = 142
    /// vector_number cases.I16x8AddSatS = 143
    /// vector_number cases.I16x8AddSatU = 144
    /// vector_number cases.I16x8Sub = 145
    /// vector_number cases.I16x8SubSatS = 146
    /// vector_number cases.I16x8SubSatU = 147
    /// vector_number cases.F64x2Nearest = 148
    /// vector_number cases.I16x8Mul = 149
    /// vector_number cases.I16x8MinS = 150
    /// vector_number cases.I16x8MinU = 151
    /// vector_number cases.I16x8MaxS = 152
    /// vector_number cases.I16x8MaxU = 153
    /// vector_number cases.I16x8AvgrU = 155
    /// vector_number cases.I16x8ExtMulLowI8x16S = 156
    /// vector_number cases.I16x8ExtMulHighI8x16S = 157
    /// vector_number cases.I16x8ExtMulLowI8x16U = 158
    /// vector_number cases.I16x8ExtMulHighI8x16U = 159
    /// vector_number cases.I32x4Abs = 160
    /// vector_number cases.I32x4Neg = 161
    /// vector_number cases.I32x4AllTrue = 163
    /// vector_number cases.I32x4Bitmask = 164
    /// vector_number cases.I32x4ExtendLowI16x8S = 167
    /// vector_number cases.I32x4ExtendHighI16x8S = 168
    /// vector_number cases.I32x4ExtendLowI16x8U = 169
    /// vector_number cases.I32x4ExtendHighI16x8U = 170
    /// vector_number cases.I32x4Shl = 171
    /// vector_number cases.I32x4ShrS = 172
    /// vector_number cases.I32x4ShrU = 173
    /// vector_number cases.I32x4Add = 174
    /// vector_number cases.I32x4Sub = 177
    /// vector_number cases.I32x4Mul = 181
    /// vector_number cases.I32x4MinS = 182
    /// vector_number cases.I32x4MinU = 183
    /// vector_number cases.I32x4MaxS = 184
    /// vector_number cases.I32x4MaxU = 185
    /// vector_number cases.I32x4DotI16x8S = 186
    /// vector_number cases.I32x4ExtMulLowI16x8S = 188
    /// vector_number cases.I32x4ExtMulHighI16x8S = 189
    /// vector_number cases.I32x4ExtMulLowI16x8U = 190
    /// vector_number cases.I32x4ExtMulHighI16x8U = 191
    /// vector_number cases.I64x2Abs = 192
    /// vector_number cases.I64x2Neg = 193
    /// vector_number cases.I64x2AllTrue = 195
    /// vector_number cases.I64x2Bitmask = 196
    /// vector_number cases.I64x2ExtendLowI32x4S = 199
    /// vector_number cases.I64x2ExtendHighI32x4S = 200
    /// vector_number cases.I64x2ExtendLowI32x4U = 201
    /// vector_number cases.I64x2ExtendHighI32x4U = 202
    /// vector_number cases.I64x2Shl = 203
    /// vector_number cases.I64x2ShrS = 204
    /// vector_number cases.I64x2ShrU = 205
    /// vector_number cases.I64x2Add = 206
    /// vector_number cases.I64x2Sub = 209
    /// vector_number cases.I64x2Mul = 213
    /// vector_number cases.I64x2Eq = 214
    /// vector_number cases.I64x2Ne = 215
    /// vector_number cases.I64x2LtS = 216
    /// vector_number cases.I64x2GtS = 217
    /// vector_number cases.I64x2LeS = 218
    /// vector_number cases.I64x2GeS = 219
    /// vector_number cases.I64x2ExtMulLowI32x4S = 220
    /// vector_number cases.I64x2ExtMulHighI32x4S = 221
    /// vector_number cases.I64x2ExtMulLowI32x4U = 222
    /// vector_number cases.I64x2ExtMulHighI32x4U = 223
    /// vector_number cases.F32x4Abs = 224
    /// vector_number cases.F32x4Neg = 225
    /// vector_number cases.F32x4Sqrt = 227
    /// vector_number cases.F32x4Add = 228
    /// vector_number cases.F32x4Sub = 229
    /// vector_number cases.F32x4Mul = 230
    /// vector_number cases.F32x4Div = 231
    /// vector_number cases.F32x4Min = 232
    /// vector_number cases.F32x4Max = 233
    /// vector_number cases.F32x4PMin = 234
    /// vector_number cases.F32x4PMax = 235
    /// vector_number cases.F64x2Abs = 236
    /// vector_number cases.F64x2Neg = 237
    /// vector_number cases.F64x2Sqrt = 239
    /// vector_number cases.F64x2Add = 240
    /// vector_number cases.F64x2Sub = 241
    /// vector_number cases.F64x2Mul = 242
    /// vector_number cases.F64x2Div = 243
    /// vector_number cases.F64x2Min = 244
    /// vector_number cases.F64x2Max = 245
    /// vector_number cases.F64x2PMin = 246
    /// vector_number cases.F64x2PMax = 247
    /// vector_number cases.I32x4TruncSatF32x4S = 248
    /// vector_number cases.I32x4TruncSatF32x4U = 249
    /// vector_number cases.F32x4ConvertI32x4S = 250
    /// vector_number cases.F32x4ConvertI32x4U = 251
    /// vector_number cases.I32x4TruncSatF64x2SZero = 252
    /// vector_number cases.I32x4TruncSatF64x2UZero = 253
    /// vector_number cases.F64x2ConvertLowI32x4S = 254
    /// vector_number cases.F64x2ConvertLowI32x4U = 255
    /// vector_number cases.I8x16RelaxedSwizzle = 256
    /// vector_number cases.I32x4RelaxedTruncF32x4S = 257
    /// vector_number cases.I32x4RelaxedTruncF32x4U = 258
    /// vector_number cases.I32x4RelaxedTruncF64x2SZero = 259
    /// vector_number cases.I32x4RelaxedTruncF64x2UZero = 260
    /// vector_number cases.F32x4RelaxedMadd = 261
    /// vector_number cases.F32x4RelaxedNmadd = 262
    /// vector_number cases.F64x2RelaxedMadd = 263
    /// vector_number cases.F64x2RelaxedNmadd = 264
    /// vector_number cases.I8x16RelaxedLaneselect = 265
    /// vector_number cases.I16x8RelaxedLaneselect = 266
    /// vector_number cases.I32x4RelaxedLaneselect = 267
    /// vector_number cases.I64x2RelaxedLaneselect = 268
    /// vector_number cases.F32x4RelaxedMin = 269
    /// vector_number cases.F32x4RelaxedMax = 270
    /// vector_number cases.F64x2RelaxedMin = 271
    /// vector_number cases.F64x2RelaxedMax = 272
    /// vector_number cases.I16x8RelaxedQ15mulrS = 273
    /// vector_number cases.I16x8RelaxedDotI8x16I7x16S = 274
    /// vector_number cases.I32x4RelaxedDotI8x16I7x16AddS = 275
    /// ```
    type vector_number;
}

/// The opcodes and immediates of the instructions of `VectorImmediate`.
///
/// [How to read definitions](super). The file is [`VectorImmediate.antt`](https://github.com/dolzhytik/dolzhytik/blob/main/crates/wasm_insn/specs/VectorImmediate.antt).
pub trait vector_immediate {
    /// The opcode and the immediates of each instruction.
    ///
    /// ```text
    /// abbrev pub vector_immediate_row : VectorImmediate → Plain
    /// vector_immediate_row (cases.V128Load a) = record
    ///     { op = Prefixed 0xFD 0; arguments = memory a ∷ [] }
    /// vector_immediate_row (cases.V128Load8x8S a) = record
    ///     { op = Prefixed 0xFD 1; arguments = memory a ∷ [] }
    /// vector_immediate_row (cases.V128Load8x8U a) = record
    ///     { op = Prefixed 0xFD 2; arguments = memory a ∷ [] }
    /// vector_immediate_row (cases.V128Load16x4S a) = record
    ///     { op = Prefixed 0xFD 3; arguments = memory a ∷ [] }
    /// vector_immediate_row (cases.V128Load16x4U a) = record
    ///     { op = Prefixed 0xFD 4; arguments = memory a ∷ [] }
    /// vector_immediate_row (cases.V128Load32x2S a) = record
    ///     { op = Prefixed 0xFD 5; arguments = memory a ∷ [] }
    /// vector_immediate_row (cases.V128Load32x2U a) = record
    ///     { op = Prefixed 0xFD 6; arguments = memory a ∷ [] }
    /// vector_immediate_row (cases.V128Load8Splat a) = record
    ///     { op = Prefixed 0xFD 7; arguments = memory a ∷ [] }
    /// vector_immediate_row (cases.V128Load16Splat a) = record
    ///     { op = Prefixed 0xFD 8; arguments = memory a ∷ [] }
    /// vector_immediate_row (cases.V128Load32Splat a) = record
    ///     { op = Prefixed 0xFD 9; arguments = memory a ∷ [] }
    /// vector_immediate_row (cases.V128Load64Splat a) = record
    ///     { op = Prefixed 0xFD 10; arguments = memory a ∷ [] }
    /// vector_immediate_row (cases.V128Store a) = record
    ///     { op = Prefixed 0xFD 11; arguments = memory a ∷ [] }
    /// vector_immediate_row (cases.V128Const a) = record
    ///     { op = Prefixed 0xFD 12; arguments = vector a ∷ [] }
    /// vector_immediate_row (cases.I8x16Shuffle a) = record
    ///     { op = Prefixed 0xFD 13; arguments = lanes a ∷ [] }
    /// vector_immediate_row (cases.I8x16ExtractLaneS a) = record
    ///     { op = Prefixed 0xFD 21; arguments = lane a ∷ [] }
    /// vector_immediate_row (cases.I8x16ExtractLaneU a) = record
    ///     { op = Prefixed 0xFD 22; arguments = lane a ∷ [] }
    /// vector_immediate_row (cases.I8x16ReplaceLane a) = record
    ///     { op = Prefixed 0xFD 23; arguments = lane a ∷ [] }
    /// vector_immediate_row (cases.I16x8ExtractLaneS a) = record
    ///     { op = Prefixed 0xFD 24; arguments = lane a ∷ [] }
    /// vector_immediate_row (cases.I16x8ExtractLaneU a) = record
    ///     { op = Prefixed 0xFD 25; arguments = lane a ∷ [] }
    /// vector_immediate_row (cases.I16x8ReplaceLane a) = record
    ///     { op = Prefixed 0xFD 26; arguments = lane a ∷ [] }
    /// vector_immediate_row (cases.I32x4ExtractLane a) = record
    ///     { op = Prefixed 0xFD 27; arguments = lane a ∷ [] }
    /// vector_immediate_row (cases.I32x4ReplaceLane a) = record
    ///     { op = Prefixed 0xFD 28; arguments = lane a ∷ [] }
    /// vector_immediate_row (cases.I64x2ExtractLane a) = record
    ///     { op = Prefixed 0xFD 29; arguments = lane a ∷ [] }
    /// vector_immediate_row (cases.I64x2ReplaceLane a) = record
    ///     { op = Prefixed 0xFD 30; arguments = lane a ∷ [] }
    /// vector_immediate_row (cases.F32x4ExtractLane a) = record
    ///     { op = Prefixed 0xFD 31; arguments = lane a ∷ [] }
    /// vector_immediate_row (cases.F32x4ReplaceLane a) = record
    ///     { op = Prefixed 0xFD 32; arguments = lane a ∷ [] }
    /// vector_immediate_row (cases.F64x2ExtractLane a) = record
    ///     { op = Prefixed 0xFD 33; arguments = lane a ∷ [] }
    /// vector_immediate_row (cases.F64x2ReplaceLane a) = record
    ///     { op = Prefixed 0xFD 34; arguments = lane a ∷ [] }
    /// vector_immediate_row (cases.V128Load8Lane a b) = record
    ///     { op = Prefixed 0xFD 84; arguments = memory a ∷ lane b ∷ [] }
    /// vector_immediate_row (cases.V128Load16Lane a b) = record
    ///     { op = Prefixed 0xFD 85; arguments = memory a ∷ lane b ∷ [] }
    /// vector_immediate_row (cases.V128Load32Lane a b) = record
    ///     { op = Prefixed 0xFD 86; arguments = memory a ∷ lane b ∷ [] }
    /// vector_immediate_row (cases.V128Load64Lane a b) = record
    ///     { op = Prefixed 0xFD 87; arguments = memory a ∷ lane b ∷ [] }
    /// vector_immediate_row (cases.V128Store8Lane a b) = record
    ///     { op = Prefixed 0xFD 88; arguments = memory a ∷ lane b ∷ [] }
    /// vector_immediate_row (cases.V128Store16Lane a b) = record
    ///     { op = Prefixed 0xFD 89; arguments = memory a ∷ lane b ∷ [] }
    /// vector_immediate_row (cases.V128Store32Lane a b) = record
    ///     { op = Prefixed 0xFD 90; arguments = memory a ∷ lane b ∷ [] }
    /// vector_immediate_row (cases.V128Store64Lane a b) = record
    ///     { op = Prefixed 0xFD 91; arguments = memory a ∷ lane b ∷ [] }
    /// vector_immediate_row (cases.V128Load32Zero a) = record
    ///     { op = Prefixed 0xFD 92; arguments = memory a ∷ [] }
    /// vector_immediate_row (cases.V128Load64Zero a) = record
    ///     { op = Prefixed 0xFD 93; arguments = memory a ∷ [] }
    /// ```
    ///
    /// Definitions: [`Plain`](plain::Plain), [`memory`](arguments::Argument), [`vector`](arguments::Argument), [`lanes`](arguments::Argument), [`lane`](arguments::Argument).
    type vector_immediate_row;
}

/// The views of decoded instructions: their values without locations in memory.
///
/// [How to read definitions](super). The file is [`Views.antt`](https://github.com/dolzhytik/dolzhytik/blob/main/crates/wasm_insn/specs/Views.antt).
pub trait views {
    /// The view of an immediate.
    ///
    /// ```text
    /// abbrev pub argument_view : {A : Type 0} → Arg A → Argument
    /// argument_view (args.U32 n) = unsigned n
    /// argument_view (args.S32 v) = signed32 v
    /// argument_view (args.S64 v) = signed64 v
    /// argument_view (args.F32 float) = float32 float
    /// argument_view (args.F64 float) = float64 float
    /// argument_view (args.V128 v) = vector v
    /// argument_view (args.Mem m) = memory m
    /// argument_view (args.Lane n) = lane n
    /// argument_view (args.Lanes ns) = lanes ns
    /// argument_view (args.Block type) = block type
    /// argument_view (args.Heap type) = heap type
    /// argument_view (args.Order o) = ordering o
    /// argument_view (args.Labels ns) = labels ns.items
    /// argument_view (args.Catches cs) = catches cs.items
    /// argument_view (args.Types ts) = types ts.items
    /// argument_view (args.Handles hs) = handles hs.items
    /// argument_view (args.Flag n) = flag n
    /// ```
    ///
    /// Definitions: [`Argument`](arguments::Argument), [`unsigned`](arguments::Argument), [`signed32`](arguments::Argument), [`signed64`](arguments::Argument), [`float32`](arguments::Argument), [`float64`](arguments::Argument), [`vector`](arguments::Argument), [`memory`](arguments::Argument), [`lane`](arguments::Argument), [`lanes`](arguments::Argument), [`block`](arguments::Argument), [`heap`](arguments::Argument), [`ordering`](arguments::Argument), [`labels`](arguments::Argument), [`catches`](arguments::Argument), [`types`](arguments::Argument), [`handles`](arguments::Argument), [`flag`](arguments::Argument).
    type argument_view;
    /// The view of an instruction.
    ///
    /// ```text
    /// abbrev pub plain_view : {A : Type 0} → Plain A → PlainInstruction
    /// plain_view i = record { op = i.op; arguments = map argument_view i.args.items }
    /// ```
    ///
    /// Definitions: [`PlainInstruction`](plain::Plain), [`argument_view`](views::argument_view).
    type plain_view;
}
