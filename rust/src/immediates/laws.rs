// Written by tools/to-rust from crates/wasm_immediates/src/laws.rt: change that.
//! Laws about the formats of immediates, for all byte sequences: each function does nothing, and
//! its clauses are the law.
//!
//! `Unambiguous F` says that the format `F` is unambiguous: at most one value decodes from the
//! front of any bytes, with minimal and with padded numbers. A value has at most one minimal
//! encoding. `HasMinimalEncodings F encodable encoding` says that `encoding` is the minimal
//! encoding of each value that fits.

/// The formats of immediates are unambiguous.
///
/// # Proved
///
/// - `memory`, `block`, `catch`, `handle`, `ordering`, `vector`: A format whose encodings determine their own end is unambiguous in every mode, with encodings as `HasEncodings` states.
/// - `memory_encodings`, `block_encodings`, `catch_encodings`, `handle_encodings`, `ordering_encodings`, `vector_encodings`: Each value that fits has a minimal encoding, which the last function in the clause returns.
///
/// ```text
/// ensures memory { Unambiguous mem_arg }
/// ensures block { Unambiguous block_type }
/// ensures catch { Unambiguous catch }
/// ensures handle { Unambiguous handle }
/// ensures ordering { Unambiguous ordering_format }
/// ensures vector { Unambiguous vector_format }
/// ensures memory_encodings { HasMinimalEncodings mem_arg IsNormalMemory mem_arg_encoding }
/// ensures block_encodings { HasMinimalEncodings block_type IsWellFormedBlock
///     block_encoding }
/// ensures catch_encodings { HasMinimalEncodings catch IsWellFormedCatch catch_encoding }
/// ensures handle_encodings
///     { HasMinimalEncodings handle IsWellFormedHandle handle_encoding }
/// ensures ordering_encodings
///     { HasMinimalEncodings ordering_format (λ o. ⊤) ordering_encoding }
/// ensures vector_encodings { HasMinimalEncodings vector_format IsVector vector_encoding }
/// ```
///
/// Definitions: [`Unambiguous`](crate::definitions::base::decoding::Unambiguous), [`mem_arg`](crate::definitions::immediates::immediate_formats::mem_arg), [`block_type`](crate::definitions::immediates::immediate_formats::block_type), [`catch`](crate::definitions::immediates::immediate_formats::catch), [`handle`](crate::definitions::immediates::immediate_formats::handle), [`ordering_format`](crate::definitions::immediates::immediate_formats::ordering_format), [`vector_format`](crate::definitions::base::formats::vector_format), [`HasMinimalEncodings`](crate::definitions::base::decoding::HasMinimalEncodings), [`IsNormalMemory`](crate::definitions::immediates::immediate_formats::IsNormalMemory), [`mem_arg_encoding`](crate::definitions::immediates::immediates::mem_arg_encoding), [`IsWellFormedBlock`](crate::definitions::immediates::immediate_formats::IsWellFormedBlock), [`block_encoding`](crate::definitions::immediates::immediates::block_encoding), [`IsWellFormedCatch`](crate::definitions::immediates::immediate_formats::IsWellFormedCatch), [`catch_encoding`](crate::definitions::immediates::immediates::catch_encoding), [`IsWellFormedHandle`](crate::definitions::immediates::immediate_formats::IsWellFormedHandle), [`handle_encoding`](crate::definitions::immediates::immediates::handle_encoding), [`ordering_encoding`](crate::definitions::immediates::immediate_formats::ordering_encoding), [`IsVector`](crate::definitions::base::formats::IsVector), [`vector_encoding`](crate::definitions::immediates::immediates::vector_encoding). [How to read clauses](crate::definitions).
pub fn immediates() {}

/// The encoding of a well-formed memory argument decodes to its normal form alone.
///
/// # Proved
///
/// The encoding of a well-formed memory argument decodes to its normal form alone.
///
/// ```text
/// ensures { (m : MemArg) → DecodesMemoryArgument m }
/// ```
///
/// Definitions: [`DecodesMemoryArgument`](crate::definitions::immediates::immediate_formats::DecodesMemoryArgument). [How to read clauses](crate::definitions).
pub fn memory_arguments() {}

/// The standard's grammar also has an index for memory 0, after flags with bit 6. It is the same
/// memory argument as the one without an index.
///
/// # Proved
///
/// ```text
/// ensures { (align : ℕ) (bytes : List ℕ) (offset : ℕ) → align < 16
///     → u64 standard bytes offset
///     → mem_arg standard ((0x40 + align) ∷ 0x00 ∷ bytes) (memory_0 align offset) }
/// ```
///
/// Definitions: [`u64`](crate::definitions::base::formats::u64), [`standard`](crate::definitions::base::numbers::Mode), [`mem_arg`](crate::definitions::immediates::immediate_formats::mem_arg), [`memory_0`](crate::definitions::immediates::immediate_formats::memory_0). [How to read clauses](crate::definitions).
pub fn standard() {}

/// With padded numbers the formats are unambiguous too.
///
/// # Proved
///
/// `memory`, `block`, `catch`, `handle`, `ordering`, `vector`: With padding allowed a format is unambiguous, and it keeps every minimal encoding.
///
/// ```text
/// ensures memory { UnambiguousPadded mem_arg }
/// ensures block { UnambiguousPadded block_type }
/// ensures catch { UnambiguousPadded catch }
/// ensures handle { UnambiguousPadded handle }
/// ensures ordering { UnambiguousPadded ordering_format }
/// ensures vector { UnambiguousPadded vector_format }
/// ```
///
/// Definitions: [`UnambiguousPadded`](crate::definitions::base::decoding::UnambiguousPadded), [`mem_arg`](crate::definitions::immediates::immediate_formats::mem_arg), [`block_type`](crate::definitions::immediates::immediate_formats::block_type), [`catch`](crate::definitions::immediates::immediate_formats::catch), [`handle`](crate::definitions::immediates::immediate_formats::handle), [`ordering_format`](crate::definitions::immediates::immediate_formats::ordering_format), [`vector_format`](crate::definitions::base::formats::vector_format). [How to read clauses](crate::definitions).
pub fn padded() {}
