// Written by tools/to-rust from crates/wasm_base/src/laws.rt: change that.
//! Laws about the formats of this crate, for all byte sequences: each function does nothing, and
//! its clauses are the law.
//!
//! `Unambiguous F` says that the format `F` is unambiguous: at most one value decodes from the
//! front of any bytes, with minimal and with padded numbers. A value has at most one minimal
//! encoding. `HasMinimalEncodings F encodable encoding` says that `encoding` is the minimal
//! encoding of each value that fits. No clause ranges over all formats, so each vector and each
//! size-prefixed format has a clause of its own.

pub use self::padded as wide;

/// The formats of numbers are unambiguous. `s33` is an index, encoded as a signed number.
///
/// # Proved
///
/// - `u32`, `u64`, `s32`, `s64`, `s33`: A format whose encodings determine their own end is unambiguous in every mode, with encodings as `HasEncodings` states.
/// - `u32_encodings`, `u64_encodings`, `s32_encodings`, `s64_encodings`, `s33_encodings`: Each value that fits has a minimal encoding, which the last function in the clause returns.
///
/// ```text
/// ensures u32 { Unambiguous u32_format }
/// ensures u64 { Unambiguous u64_format }
/// ensures s32 { Unambiguous s32 }
/// ensures s64 { Unambiguous s64 }
/// ensures s33 { Unambiguous s33 }
/// ensures u32_encodings { HasMinimalEncodings u32_format
///     (IsUnsignedInRange 32) unsigned_encoding }
/// ensures u64_encodings { HasMinimalEncodings u64_format
///     (IsUnsignedInRange 64) unsigned_encoding }
/// ensures s32_encodings { HasMinimalEncodings s32 IsSigned32InRange signed_encoding }
/// ensures s64_encodings { HasMinimalEncodings s64 IsSigned64InRange signed_encoding }
/// ensures s33_encodings { HasMinimalEncodings s33 (IsUnsignedInRange 32)
///     (λ n. signed_encoding (pos n)) }
/// ```
///
/// Definitions: [`Unambiguous`](crate::definitions::base::decoding::Unambiguous), [`u32_format`](crate::definitions::base::formats::u32), [`u64_format`](crate::definitions::base::formats::u64), [`s32`](crate::definitions::base::formats::s32), [`s64`](crate::definitions::base::formats::s64), [`s33`](crate::definitions::base::formats::s33), [`HasMinimalEncodings`](crate::definitions::base::decoding::HasMinimalEncodings), [`IsUnsignedInRange`](crate::definitions::base::laws::IsUnsignedInRange), [`unsigned_encoding`](crate::definitions::base::numbers::unsigned_encoding), [`IsSigned32InRange`](crate::definitions::base::laws::IsSigned32InRange), [`signed_encoding`](crate::definitions::base::numbers::signed_encoding), [`IsSigned64InRange`](crate::definitions::base::laws::IsSigned64InRange). [How to read clauses](crate::definitions).
pub fn numbers() {}

/// Fixed-width bytes, names, vectors and size-prefixed payloads are unambiguous, and so is a module
/// of section ids and payloads.
///
/// # Proved
///
/// - `fixed_4`, `fixed_8`, `fixed_16`, `vec_bytes`, `vec_u32`, `vec_names`, `size_prefixed`, `name`, `custom`: A format whose encodings determine their own end is unambiguous in every mode, with encodings as `HasEncodings` states.
/// - `wasm_module`: A format that takes all of the bytes is unambiguous in every mode, with encodings as `HasEncodings` states.
/// - `fixed_4_encodings`, `fixed_8_encodings`, `fixed_16_encodings`, `vec_bytes_encodings`, `vec_u32_encodings`, `vec_names_encodings`, `size_prefixed_encodings`, `name_encodings`, `custom_encodings`, `module_encodings`: Each value that fits has a minimal encoding, which the last function in the clause returns.
///
/// ```text
/// ensures fixed_4 { Unambiguous (little_endian 4) }
/// ensures fixed_8 { Unambiguous (little_endian 8) }
/// ensures fixed_16 { Unambiguous (little_endian 16) }
/// ensures vec_bytes { Unambiguous (vec byte) }
/// ensures vec_u32 { Unambiguous (vec u32_format) }
/// ensures vec_names { Unambiguous (vec name) }
/// ensures size_prefixed { Unambiguous (size_prefixed any_bytes) }
/// ensures name { Unambiguous name }
/// ensures custom { Unambiguous custom }
/// ensures wasm_module { UnambiguousWhole wasm_module }
/// ensures fixed_4_encodings
///     { HasMinimalEncodings (little_endian 4) (IsByteNumberInRange 4)
///     (little_endian_encoding 4) }
/// ensures fixed_8_encodings
///     { HasMinimalEncodings (little_endian 8) (IsByteNumberInRange 8)
///     (little_endian_encoding 8) }
/// ensures fixed_16_encodings
///     { HasMinimalEncodings (little_endian 16) (IsByteNumberInRange 16)
///     (little_endian_encoding 16) }
/// ensures vec_bytes_encodings
///     { HasMinimalEncodings (vec byte) HasEncodableSize size_prefixed_encoding }
/// ensures vec_u32_encodings
///     { HasMinimalEncodings (vec u32_format) (IsEncodableVec (IsUnsignedInRange 32))
///     (vec_encoding unsigned_encoding) }
/// ensures vec_names_encodings
///     { HasMinimalEncodings (vec name) (IsEncodableVec IsEncodableName)
///     (vec_encoding size_prefixed_encoding) }
/// ensures size_prefixed_encodings
///     { HasMinimalEncodings (size_prefixed any_bytes) HasEncodableSize
///     size_prefixed_encoding }
/// ensures name_encodings { HasMinimalEncodings name IsEncodableName size_prefixed_encoding
///     }
/// ensures custom_encodings
///     { HasMinimalEncodings custom IsEncodableCustom custom_encoding }
/// ensures module_encodings
///     { HasMinimalEncodings wasm_module IsEncodableModule module_encoding }
/// ```
///
/// Definitions: [`Unambiguous`](crate::definitions::base::decoding::Unambiguous), [`little_endian`](crate::definitions::base::formats::little_endian), [`vec`](crate::definitions::base::formats::vec), [`byte`](crate::definitions::base::formats::byte), [`u32_format`](crate::definitions::base::formats::u32), [`name`](crate::definitions::base::formats::name), [`size_prefixed`](crate::definitions::base::formats::size_prefixed), [`any_bytes`](crate::definitions::base::formats::any_bytes), [`custom`](crate::definitions::base::formats::custom), [`wasm_module`](crate::definitions::base::formats::wasm_module), [`UnambiguousWhole`](crate::definitions::base::decoding::UnambiguousWhole), [`HasMinimalEncodings`](crate::definitions::base::decoding::HasMinimalEncodings), [`IsByteNumberInRange`](crate::definitions::base::laws::IsByteNumberInRange), [`little_endian_encoding`](crate::definitions::base::encodings::little_endian_encoding), [`HasEncodableSize`](crate::definitions::base::encodings::HasEncodableSize), [`size_prefixed_encoding`](crate::definitions::base::encodings::size_prefixed_encoding), [`IsEncodableVec`](crate::definitions::base::encodings::IsEncodableVec), [`IsUnsignedInRange`](crate::definitions::base::laws::IsUnsignedInRange), [`vec_encoding`](crate::definitions::base::encodings::vec_encoding), [`unsigned_encoding`](crate::definitions::base::numbers::unsigned_encoding), [`IsEncodableName`](crate::definitions::base::laws::IsEncodableName), [`IsEncodableCustom`](crate::definitions::base::laws::IsEncodableCustom), [`custom_encoding`](crate::definitions::base::laws::custom_encoding), [`IsEncodableModule`](crate::definitions::base::encodings::IsEncodableModule), [`module_encoding`](crate::definitions::base::encodings::module_encoding). [How to read clauses](crate::definitions).
pub fn frames() {}

/// Suppose that a module decodes to ids and payloads, and that a payload with its size prefix
/// decodes to one value alone. Then the payload decodes to this value alone.
///
/// # Proved
///
/// `bytes`, `u32`, `custom`: If size-prefixed bytes decode to one value alone, their payload decodes to it alone.
///
/// ```text
/// ensures bytes { DecodesPayloads any_bytes }
/// ensures u32 { DecodesPayloads u32_format }
/// ensures custom { DecodesPayloads (pair name any_bytes) }
/// ```
///
/// Definitions: [`DecodesPayloads`](crate::definitions::base::modules::DecodesPayloads), [`any_bytes`](crate::definitions::base::formats::any_bytes), [`u32_format`](crate::definitions::base::formats::u32), [`custom`](crate::definitions::base::formats::custom), [`pair`](crate::definitions::base::formats::pair), [`name`](crate::definitions::base::formats::name). [How to read clauses](crate::definitions).
pub fn payloads() {}

/// The same with padded numbers.
///
/// # Proved
///
/// `bytes`, `u32`, `custom`: If size-prefixed bytes decode to one value alone, with padding allowed, so does their payload.
///
/// ```text
/// ensures bytes { DecodesPayloadsPadded any_bytes }
/// ensures u32 { DecodesPayloadsPadded u32_format }
/// ensures custom { DecodesPayloadsPadded (pair name any_bytes) }
/// ```
///
/// Definitions: [`DecodesPayloadsPadded`](crate::definitions::base::modules::DecodesPayloadsPadded), [`any_bytes`](crate::definitions::base::formats::any_bytes), [`u32_format`](crate::definitions::base::formats::u32), [`custom`](crate::definitions::base::formats::custom), [`pair`](crate::definitions::base::formats::pair), [`name`](crate::definitions::base::formats::name). [How to read clauses](crate::definitions).
pub fn padded_payloads() {}

/// The formats of types are unambiguous. No index begins with a byte that encodes a type, nor with
/// 0x40, the empty block type.
///
/// # Proved
///
/// - `heap`, `reference`, `value`: A format whose encodings determine their own end is unambiguous in every mode, with encodings as `HasEncodings` states.
/// - `index`: Each encoding, in any mode, has a first byte with the property.
/// - `heap_encodings`, `reference_encodings`, `value_encodings`: Each value that fits has a minimal encoding, which the last function in the clause returns.
///
/// ```text
/// ensures heap { Unambiguous heap_type }
/// ensures reference { Unambiguous ref_type }
/// ensures value { Unambiguous val_type }
/// ensures index { BeginsWith IsIndexByte s33 }
/// ensures heap_encodings { HasMinimalEncodings heap_type IsHeap heap_encoding }
/// ensures reference_encodings { HasMinimalEncodings ref_type IsRef ref_encoding }
/// ensures value_encodings { HasMinimalEncodings val_type IsVal val_encoding }
/// ```
///
/// Definitions: [`Unambiguous`](crate::definitions::base::decoding::Unambiguous), [`heap_type`](crate::definitions::base::types::heap_type), [`ref_type`](crate::definitions::base::types::ref_type), [`val_type`](crate::definitions::base::types::val_type), [`BeginsWith`](crate::definitions::base::decoding::BeginsWith), [`IsIndexByte`](crate::definitions::base::types::IsIndexByte), [`s33`](crate::definitions::base::formats::s33), [`HasMinimalEncodings`](crate::definitions::base::decoding::HasMinimalEncodings), [`IsHeap`](crate::definitions::base::types::IsHeap), [`heap_encoding`](crate::definitions::base::types::heap_encoding), [`IsRef`](crate::definitions::base::types::IsRef), [`ref_encoding`](crate::definitions::base::types::ref_encoding), [`IsVal`](crate::definitions::base::types::IsVal), [`val_encoding`](crate::definitions::base::types::val_encoding). [How to read clauses](crate::definitions).
pub fn types() {}

/// In the standard's grammar, the byte of an abstract heap type is the minimal encoding of the
/// nullable reference type to it. In the builders' grammar only 0x70 and 0x6F are.
///
/// # Proved
///
/// ```text
/// ensures reference { (ty : AbstractHeapType)
///     → ref_type standard_minimal (abstract_code ty ∷ []) (nullable_abstract ty) }
/// ensures long { (heap : HeapType) (s : List ℕ) → heap_type standard s heap
///     → ref_type standard (0x63 ∷ s) (nullable_to heap) }
/// ensures builders { (ty : AbstractHeapType) (rest : List ℕ) → ty ≢ Func → ty ≢ Extern
///     → Rejects ref_type padded (abstract_code ty ∷ rest) }
/// ```
///
/// Definitions: [`ref_type`](crate::definitions::base::types::ref_type), [`standard_minimal`](crate::definitions::base::numbers::Mode), [`abstract_code`](crate::definitions::base::types::abstract_code), [`nullable_abstract`](crate::definitions::base::types::nullable_abstract), [`heap_type`](crate::definitions::base::types::heap_type), [`standard`](crate::definitions::base::numbers::Mode), [`nullable_to`](crate::definitions::base::types::nullable_to), [`Rejects`](crate::definitions::base::decoding::Rejects), [`padded`](crate::definitions::base::numbers::Mode). [How to read clauses](crate::definitions).
pub fn standard_types() {}

/// The values of the constants of types.
///
/// # Proved
///
/// ```text
/// ensures function { FUNC ≡ Abstract false Func }
/// ensures host { EXTERN ≡ Abstract false Extern }
/// ensures function_reference
///     { FUNCREF ≡ record { nullable = true; heap_type = Abstract false Func } }
/// ensures host_reference { EXTERNREF
///     ≡ record { nullable = true; heap_type = Abstract false Extern } }
/// ```
///
/// [How to read clauses](crate::definitions).
pub fn constants() {}

/// With padded numbers, as the standard allows them, the formats are unambiguous too. A minimal
/// encoding is also an encoding in this mode.
///
/// # Proved
///
/// - `u32`, `u64`, `s32`, `s64`, `s33`, `fixed_4`, `fixed_8`, `fixed_16`, `vec_bytes`, `vec_u32`, `vec_names`, `size_prefixed`, `name`, `custom`, `heap_type`, `ref_type`, `val_type`: With padding allowed a format is unambiguous, and it keeps every minimal encoding.
/// - `wasm_module`: As `UnambiguousPadded`, for a format that takes all of the bytes.
///
/// ```text
/// ensures u32 { UnambiguousPadded u32_format }
/// ensures u64 { UnambiguousPadded u64_format }
/// ensures s32 { UnambiguousPadded s32 }
/// ensures s64 { UnambiguousPadded s64 }
/// ensures s33 { UnambiguousPadded s33 }
/// ensures fixed_4 { UnambiguousPadded (little_endian 4) }
/// ensures fixed_8 { UnambiguousPadded (little_endian 8) }
/// ensures fixed_16 { UnambiguousPadded (little_endian 16) }
/// ensures vec_bytes { UnambiguousPadded (vec byte) }
/// ensures vec_u32 { UnambiguousPadded (vec u32_format) }
/// ensures vec_names { UnambiguousPadded (vec name) }
/// ensures size_prefixed { UnambiguousPadded (size_prefixed any_bytes) }
/// ensures name { UnambiguousPadded name }
/// ensures custom { UnambiguousPadded custom }
/// ensures wasm_module { UnambiguousWholePadded wasm_module }
/// ensures heap_type { UnambiguousPadded heap_type }
/// ensures ref_type { UnambiguousPadded ref_type }
/// ensures val_type { UnambiguousPadded val_type }
/// ```
///
/// Definitions: [`UnambiguousPadded`](crate::definitions::base::decoding::UnambiguousPadded), [`u32_format`](crate::definitions::base::formats::u32), [`u64_format`](crate::definitions::base::formats::u64), [`s32`](crate::definitions::base::formats::s32), [`s64`](crate::definitions::base::formats::s64), [`s33`](crate::definitions::base::formats::s33), [`little_endian`](crate::definitions::base::formats::little_endian), [`vec`](crate::definitions::base::formats::vec), [`byte`](crate::definitions::base::formats::byte), [`name`](crate::definitions::base::formats::name), [`size_prefixed`](crate::definitions::base::formats::size_prefixed), [`any_bytes`](crate::definitions::base::formats::any_bytes), [`custom`](crate::definitions::base::formats::custom), [`wasm_module`](crate::definitions::base::formats::wasm_module), [`UnambiguousWholePadded`](crate::definitions::base::decoding::UnambiguousWholePadded), [`heap_type`](crate::definitions::base::types::heap_type), [`ref_type`](crate::definitions::base::types::ref_type), [`val_type`](crate::definitions::base::types::val_type). [How to read clauses](crate::definitions).
pub fn padded() {}

/// A name is UTF-8. For a name behind a reference, as in a record, no clause shows that; this call
/// does.
///
/// # Proved
///
/// ```text
/// ensures { IsUtf8 name.now }
/// ```
///
/// [How to read clauses](crate::definitions).
pub fn plain_name(name: &str) {}

/// Each name of a list is UTF-8.
///
/// # Proved
///
/// ```text
/// ensures { All (λ name. IsUtf8 name.now) names.now }
/// ```
///
/// [How to read clauses](crate::definitions).
pub fn plain_names(names: &[&str]) {
    for name in names {
        plain_name(name);
    }
}
