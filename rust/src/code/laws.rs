// Written by tools/to-rust from crates/wasm_code/src/laws.rt: change that.
//! Laws about expressions, bodies and code sections, for all byte sequences: each function does
//! nothing, and its clauses are the law.
//!
//! `Unambiguous F` says that the format `F` is unambiguous: at most one value decodes from the
//! front of any bytes, with minimal and with padded numbers. A value has at most one minimal
//! encoding. `UnambiguousWhole F` says the same of a format that occupies all of the bytes.
//! `HasMinimalEncodings F encodable encoding` says that `encoding` is the minimal encoding of each
//! value that fits.

pub use self::{padded as wide, rejections as nothing_stands};
use crate::alloc::Allocator;

/// The format of expressions is unambiguous: an expression ends at the first `End` at which an
/// instruction begins.
///
/// # Proved
///
/// - `unambiguous`: A format whose encodings determine their own end is unambiguous in every mode, with encodings as `HasEncodings` states.
/// - `encodings`: Each value that fits has a minimal encoding, which the last function in the clause returns.
///
/// ```text
/// ensures unambiguous { Unambiguous expression }
/// ensures encodings { HasMinimalEncodings expression IsEncodablePlainExpression
///     plain_expression_encoding }
/// ```
///
/// Definitions: [`Unambiguous`](crate::definitions::base::decoding::Unambiguous), [`expression`](crate::definitions::code::expressions::expression), [`HasMinimalEncodings`](crate::definitions::base::decoding::HasMinimalEncodings), [`IsEncodablePlainExpression`](crate::definitions::code::laws::IsEncodablePlainExpression), [`plain_expression_encoding`](crate::definitions::code::laws::plain_expression_encoding). [How to read clauses](crate::definitions).
pub fn expressions() {}

/// The formats of bodies and of code sections, of raw bodies and of decoded ones, are unambiguous.
///
/// # Proved
///
/// - `body`: A format that takes all of the bytes is unambiguous in every mode, with encodings as `HasEncodings` states.
/// - `size_prefixed`, `raw_code`, `code_section`: A format whose encodings determine their own end is unambiguous in every mode, with encodings as `HasEncodings` states.
/// - `body_encodings`, `size_prefixed_encodings`, `raw_code_encodings`, `code_section_encodings`: Each value that fits has a minimal encoding, which the last function in the clause returns.
///
/// ```text
/// ensures body { UnambiguousWhole body }
/// ensures size_prefixed { Unambiguous (size_prefixed body) }
/// ensures raw_code { Unambiguous raw_code }
/// ensures code_section { Unambiguous code_section }
/// ensures body_encodings { HasMinimalEncodings body IsEncodableBody body_encoding }
/// ensures size_prefixed_encodings
///     { HasMinimalEncodings (size_prefixed body) IsEncodableSizedBody
///     body_size_prefixed_encoding }
/// ensures raw_code_encodings
///     { HasMinimalEncodings raw_code IsEncodableRawCode raw_code_encoding }
/// ensures code_section_encodings
///     { HasMinimalEncodings code_section IsEncodableCodeSection code_section_encoding }
/// ```
///
/// Definitions: [`body`](crate::definitions::code::bodies::body), [`UnambiguousWhole`](crate::definitions::base::decoding::UnambiguousWhole), [`size_prefixed`](crate::definitions::base::formats::size_prefixed), [`Unambiguous`](crate::definitions::base::decoding::Unambiguous), [`raw_code`](crate::definitions::code::code::raw_code), [`code_section`](crate::definitions::code::code::code_section), [`HasMinimalEncodings`](crate::definitions::base::decoding::HasMinimalEncodings), [`IsEncodableBody`](crate::definitions::code::laws::IsEncodableBody), [`body_encoding`](crate::definitions::code::laws::body_encoding), [`IsEncodableSizedBody`](crate::definitions::code::laws::IsEncodableSizedBody), [`body_size_prefixed_encoding`](crate::definitions::code::laws::body_size_prefixed_encoding), [`IsEncodableRawCode`](crate::definitions::code::laws::IsEncodableRawCode), [`raw_code_encoding`](crate::definitions::code::laws::raw_code_encoding), [`IsEncodableCodeSection`](crate::definitions::code::laws::IsEncodableCodeSection), [`code_section_encoding`](crate::definitions::code::laws::code_section_encoding). [How to read clauses](crate::definitions).
pub fn bodies() {}

/// Suppose that a raw body decodes, and a longer one that begins with it decodes too. Then an
/// instruction begins at the shorter one's length, in the only decoding of the longer one. If a
/// well-formed instruction was appended next, it is that one.
///
/// # Proved
///
/// - `begins`: The length of a raw body is the offset of the next instruction. If more bytes follow and the whole encodes a body, an instruction begins at that offset.
/// - `added`: If a well-formed instruction is appended to a raw body, it is the instruction that begins at the raw body's length.
///
/// ```text
/// ensures begins { HasOffsets }
/// ensures added { (i : Instruction A) → FindsAdded i }
/// ```
///
/// Definitions: [`HasOffsets`](crate::definitions::code::laws::HasOffsets), [`FindsAdded`](crate::definitions::code::laws::FindsAdded). [How to read clauses](crate::definitions).
pub fn offset<A: Allocator>() {}

/// If a module decodes to ids and payloads, and a code section decodes to bodies alone, then the
/// section's payload decodes to these alone.
///
/// # Proved
///
/// `raw_code`, `code_section`: If size-prefixed bytes decode to one value alone, their payload decodes to it alone.
///
/// ```text
/// ensures raw_code { DecodesPayloads (vec (size_prefixed any_bytes)) }
/// ensures code_section { DecodesPayloads (vec (size_prefixed body)) }
/// ```
///
/// Definitions: [`raw_code`](crate::definitions::code::code::raw_code), [`DecodesPayloads`](crate::definitions::base::modules::DecodesPayloads), [`vec`](crate::definitions::base::formats::vec), [`size_prefixed`](crate::definitions::base::formats::size_prefixed), [`any_bytes`](crate::definitions::base::formats::any_bytes), [`code_section`](crate::definitions::code::code::code_section), [`body`](crate::definitions::code::bodies::body). [How to read clauses](crate::definitions).
pub fn payloads() {}

/// The same with padded numbers.
///
/// # Proved
///
/// `raw_code`, `code_section`: If size-prefixed bytes decode to one value alone, with padding allowed, so does their payload.
///
/// ```text
/// ensures raw_code { DecodesPayloadsPadded (vec (size_prefixed any_bytes)) }
/// ensures code_section { DecodesPayloadsPadded (vec (size_prefixed body)) }
/// ```
///
/// Definitions: [`raw_code`](crate::definitions::code::code::raw_code), [`DecodesPayloadsPadded`](crate::definitions::base::modules::DecodesPayloadsPadded), [`vec`](crate::definitions::base::formats::vec), [`size_prefixed`](crate::definitions::base::formats::size_prefixed), [`any_bytes`](crate::definitions::base::formats::any_bytes), [`code_section`](crate::definitions::code::code::code_section), [`body`](crate::definitions::code::bodies::body). [How to read clauses](crate::definitions).
pub fn padded_payloads() {}

/// The bodies that a code section holds, call by call; and the instruction that a body gains when a
/// named call of a sink appends to it.
///
/// # Proved
///
/// - `code`: A code section without entries holds no bodies. An entry with a raw body adds the body that it minimally encodes. `add_all` adds its entries as if one by one.
/// - `instruction`: A body that gains the encoding of a well-formed instruction gains the instruction.
/// - `labels`: A body that gains the encoding of `br_table`, with labels in range that fit their count and a default label in range, gains the instruction.
///
/// ```text
/// ensures code { ContainsMoreBodies }
/// ensures instruction { (i : Instruction A) → GrowsByEncoding i }
/// ensures labels { GrowsByLabels }
/// ```
///
/// Definitions: [`ContainsMoreBodies`](crate::definitions::code::laws::ContainsMoreBodies), [`GrowsByEncoding`](crate::definitions::code::laws::GrowsByEncoding), [`GrowsByLabels`](crate::definitions::code::laws::GrowsByLabels). [How to read clauses](crate::definitions).
pub fn calls<A: Allocator>() {}

/// The same with padded numbers: the content of a code section, a body and a constant expression,
/// call by call.
///
/// # Proved
///
/// - `code`: A code section holds, padded, all that it holds in minimal encodings. An entry with a raw body adds the body that it encodes, possibly padded. `add_all` adds its entries as if one by one.
/// - `body`: A minimal encoding of a body is a possibly padded one, and gains the instructions that raw bytes encode, possibly padded.
/// - `instruction`: A possibly padded body that gains the encoding of a well-formed instruction gains the instruction.
/// - `expression`: A minimal expression is a possibly padded one. Two stored expressions, one after another, store the instructions of both. With `end` they are an expression.
///
/// ```text
/// ensures code { ContainsMoreBodiesPadded }
/// ensures body { GrowsPadded }
/// ensures instruction { (i : Instruction A) → GrowsByEncodingPadded i }
/// ensures expression { StoresMorePadded }
/// ```
///
/// Definitions: [`ContainsMoreBodiesPadded`](crate::definitions::code::laws::ContainsMoreBodiesPadded), [`body`](crate::definitions::code::bodies::body), [`GrowsPadded`](crate::definitions::code::laws::GrowsPadded), [`GrowsByEncodingPadded`](crate::definitions::code::laws::GrowsByEncodingPadded), [`expression`](crate::definitions::code::expressions::expression), [`StoresMorePadded`](crate::definitions::code::laws::StoresMorePadded). [How to read clauses](crate::definitions).
pub fn padded_calls<A: Allocator>() {}

/// With padded numbers the formats are unambiguous too.
///
/// # Proved
///
/// - `expression`, `size_prefixed`, `raw_code`, `code_section`: With padding allowed a format is unambiguous, and it keeps every minimal encoding.
/// - `body`: As `UnambiguousPadded`, for a format that takes all of the bytes.
///
/// ```text
/// ensures expression { UnambiguousPadded expression }
/// ensures body { UnambiguousWholePadded body }
/// ensures size_prefixed { UnambiguousPadded (size_prefixed body) }
/// ensures raw_code { UnambiguousPadded raw_code }
/// ensures code_section { UnambiguousPadded code_section }
/// ```
///
/// Definitions: [`expression`](crate::definitions::code::expressions::expression), [`UnambiguousPadded`](crate::definitions::base::decoding::UnambiguousPadded), [`body`](crate::definitions::code::bodies::body), [`UnambiguousWholePadded`](crate::definitions::base::decoding::UnambiguousWholePadded), [`size_prefixed`](crate::definitions::base::formats::size_prefixed), [`raw_code`](crate::definitions::code::code::raw_code), [`code_section`](crate::definitions::code::code::code_section). [How to read clauses](crate::definitions).
pub fn padded() {}

/// A list of types has at most one list of runs with counts of at least 1 and no two neighbours of
/// one type.
///
/// # Proved
///
/// Two canonical lists of runs with the same types are the same.
///
/// ```text
/// ensures { (xs ys : List Run) → HaveOneExpansion xs ys }
/// ```
///
/// Definitions: [`Run`](crate::definitions::code::bodies::Run), [`HaveOneExpansion`](crate::definitions::code::laws::HaveOneExpansion). [How to read clauses](crate::definitions).
pub fn locals() {}

/// With minimal numbers, these two byte sequences encode no code section: in one a memory argument
/// is truncated, in the other a count of runs is padded. With padded numbers the second is a code
/// section.
///
/// # Proved
///
/// `cut`, `padded_of`: With minimal LEB128 no value decodes from the front of the bytes, whatever follows them.
///
/// ```text
/// ensures cut { RejectsAllAfter code_section (6 ∷ 1 ∷ 4 ∷ 0 ∷ 40 ∷ 16 ∷ 0 ∷ []) }
/// ensures padded_of { RejectsAllAfter code_section (5 ∷ 1 ∷ 3 ∷ 128 ∷ 0 ∷ 11 ∷ []) }
/// ```
///
/// Definitions: [`RejectsAllAfter`](crate::definitions::code::laws::RejectsAllAfter), [`code_section`](crate::definitions::code::code::code_section). [How to read clauses](crate::definitions).
pub fn rejections() {}

/// The visitor of a body is at the offsets that `Function::byte_len` returned when the body was
/// built. After as many instructions as a raw body has, a visitor of a longer body that begins with
/// it is at that raw body's length. It has then visited exactly that body.
///
/// # Proved
///
/// `padded`, `standard`: The visitor of a body starts after its runs and advances by an instruction. After as many instructions as a raw body has, it is at that body's length and has visited that body.
///
/// ```text
/// ensures padded { OffsetLaws padded }
/// ensures standard { OffsetLaws standard }
/// ```
///
/// Definitions: [`padded`](crate::definitions::base::numbers::Mode), [`OffsetLaws`](crate::definitions::code::offsets::OffsetLaws), [`standard`](crate::definitions::base::numbers::Mode). [How to read clauses](crate::definitions).
pub fn offsets() {}
