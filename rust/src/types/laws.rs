// Written by tools/to-rust from crates/wasm_types/src/laws.rt: change that.
//! Laws about type sections, for all byte sequences: each function does nothing, and its clauses
//! are the law.

/// The formats of type sections, of types and of their components are unambiguous. A well-formed
/// record encodes its item.
///
/// # Proved
///
/// - `section`, `item`, `sub`, `composite`, `field`, `storage`: A format whose encodings determine their own end is unambiguous in every mode, with encodings as `HasEncodings` states.
/// - `items`: The laws of a kind of items: the format is unambiguous, and a well-formed record whose size fits encodes its normal form.
///
/// ```text
/// ensures section { Unambiguous (counted_format type_item) }
/// ensures item { Unambiguous type_item }
/// ensures sub { Unambiguous sub_type }
/// ensures composite { Unambiguous composite_type }
/// ensures field { Unambiguous field_type }
/// ensures storage { Unambiguous storage_type }
/// ensures items { ItemLaws type_items }
/// ```
///
/// Definitions: [`Unambiguous`](crate::definitions::base::decoding::Unambiguous), [`counted_format`](crate::definitions::base::entries::counted_format), [`type_item`](crate::definitions::types::rec_types::type_item), [`sub_type`](crate::definitions::types::rec_types::sub_type), [`composite_type`](crate::definitions::types::rec_types::composite_type), [`field_type`](crate::definitions::types::rec_types::field_type), [`storage_type`](crate::definitions::types::rec_types::storage_type), [`ItemLaws`](crate::definitions::base::entries::ItemLaws), [`type_items`](crate::definitions::types::rec_types::type_items). [How to read clauses](crate::definitions).
pub fn types() {}

/// The standard's grammar also has a final type with an empty list of supertypes before its
/// composite type. It is the same subtype as the composite type alone.
///
/// # Proved
///
/// ```text
/// ensures { (bytes : List ℕ) (composite : Composite)
///     → composite_type standard bytes composite
///     → sub_type standard (0x4F ∷ 0x00 ∷ bytes) (alone_of composite) }
/// ```
///
/// Definitions: [`Composite`](crate::definitions::types::rec_types::Composite), [`composite_type`](crate::definitions::types::rec_types::composite_type), [`standard`](crate::definitions::base::numbers::Mode), [`sub_type`](crate::definitions::types::rec_types::sub_type), [`alone_of`](crate::definitions::types::rec_types::alone_of). [How to read clauses](crate::definitions).
pub fn standard() {}

/// With padded numbers the formats of type sections and types are unambiguous too. A minimal
/// encoding is also an encoding in this mode.
///
/// # Proved
///
/// `section`, `item`: With padding allowed a format is unambiguous, and it keeps every minimal encoding.
///
/// ```text
/// ensures section { UnambiguousPadded (counted_format type_item) }
/// ensures item { UnambiguousPadded type_item }
/// ```
///
/// Definitions: [`UnambiguousPadded`](crate::definitions::base::decoding::UnambiguousPadded), [`counted_format`](crate::definitions::base::entries::counted_format), [`type_item`](crate::definitions::types::rec_types::type_item). [How to read clauses](crate::definitions).
pub fn padded() {}

/// The types that a type section holds, call by call: none at first, and one more after each call
/// that adds a well-formed record.
///
/// # Proved
///
/// A section without entries holds no items. The entry of a well-formed record adds its normal form, and an entry of raw bytes adds the item that they minimally encode. `add_all` adds its records as if one by one.
///
/// ```text
/// ensures { ContainsMore type_items }
/// ```
///
/// Definitions: [`ContainsMore`](crate::definitions::base::laws::ContainsMore), [`type_items`](crate::definitions::types::rec_types::type_items). [How to read clauses](crate::definitions).
pub fn calls() {}

/// The types that the entries of a type section encode with padded numbers, call by call.
///
/// # Proved
///
/// As `ContainsMore`, for padded LEB128. A section holds all that it holds in minimal encodings. A record that is well-formed, with possibly padded expressions, adds its normal form. Raw bytes add the item that they encode, possibly padded.
///
/// ```text
/// ensures { ContainsMorePadded type_items }
/// ```
///
/// Definitions: [`ContainsMorePadded`](crate::definitions::base::laws::ContainsMorePadded), [`type_items`](crate::definitions::types::rec_types::type_items). [How to read clauses](crate::definitions).
pub fn padded_calls() {}

/// If a module decodes to ids and payloads, and a type section decodes to its items alone, then its
/// payload decodes to these alone.
///
/// # Proved
///
/// If size-prefixed bytes decode to one value alone, their payload decodes to it alone.
///
/// ```text
/// ensures { DecodesPayloads (vec type_item) }
/// ```
///
/// Definitions: [`DecodesPayloads`](crate::definitions::base::modules::DecodesPayloads), [`vec`](crate::definitions::base::formats::vec), [`type_item`](crate::definitions::types::rec_types::type_item). [How to read clauses](crate::definitions).
pub fn payloads() {}

/// The same with padded numbers.
///
/// # Proved
///
/// If size-prefixed bytes decode to one value alone, with padding allowed, so does their payload.
///
/// ```text
/// ensures { DecodesPayloadsPadded (vec type_item) }
/// ```
///
/// Definitions: [`DecodesPayloadsPadded`](crate::definitions::base::modules::DecodesPayloadsPadded), [`vec`](crate::definitions::base::formats::vec), [`type_item`](crate::definitions::types::rec_types::type_item). [How to read clauses](crate::definitions).
pub fn padded_payloads() {}

/// These three byte sequences encode no type section in the builders' grammar, not even with padded
/// numbers. In the first a structure has a field of mutability 2. In the second the byte of a group
/// is padded. In the third a final type has an empty list of supertypes, which the standard admits.
///
/// # Proved
///
/// `mutability_of_2`, `padded_group`, `no_supertypes`: In neither mode of the builders' grammar does a value decode from the front of the bytes, whatever follows them.
///
/// ```text
/// ensures mutability_of_2 { RejectsAllAfterPadded (counted_format type_item)
///     (5 ∷ 1 ∷ 95 ∷ 1 ∷ 127 ∷ 2 ∷ []) }
/// ensures padded_group { RejectsAllAfterPadded (counted_format type_item)
///     (4 ∷ 1 ∷ 206 ∷ 0 ∷ 0 ∷ []) }
/// ensures no_supertypes { RejectsAllAfterPadded (counted_format type_item)
///     (5 ∷ 1 ∷ 79 ∷ 0 ∷ 95 ∷ 0 ∷ []) }
/// ```
///
/// Definitions: [`RejectsAllAfterPadded`](crate::definitions::base::laws::RejectsAllAfterPadded), [`counted_format`](crate::definitions::base::entries::counted_format), [`type_item`](crate::definitions::types::rec_types::type_item). [How to read clauses](crate::definitions).
pub fn rejections() {}
