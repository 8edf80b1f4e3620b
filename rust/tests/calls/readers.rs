// Written by tools/to-rust from crates/calls/src/readers.rt: change that.
//! Readers of instructions: where a visitor begins, the bytes before it, and a body as a whole.

use dolzhytik::fallible::Allocator;
use dolzhytik::reader::{DecodeError, Grammar, Standard};
use dolzhytik::reader::{Body, Instructions, read_body};

/// Returns a visitor that begins at the first byte.
///
/// # Proved
///
/// ```text
/// ensures { result ≡ record { bytes = bytes.now; offset = 0 } }
/// ```
pub fn walk_over<'a, A: Allocator + Copy>(bytes: &'a [u8], alloc: A) -> Instructions<'a, A> {
    Instructions::new(bytes, alloc)
}

/// Returns a visitor in the standard's grammar that begins at the first byte.
///
/// # Proved
///
/// ```text
/// ensures { result ≡ record { bytes = bytes.now; offset = 0 } }
/// ```
pub fn standard_walk_over<'a, A: Allocator + Copy>(
    bytes: &'a [u8],
    alloc: A,
) -> Instructions<'a, A, Standard> {
    Instructions::<A, Standard>::standard(bytes, alloc)
}

/// Returns the bytes that a visitor has not visited.
///
/// # Proved
///
/// ```text
/// ensures { result.now ≡ ahead walk.now }
/// ```
pub fn bytes_ahead<'a, A: Allocator + Copy>(walk: &Instructions<'a, A>) -> &'a [u8] {
    walk.rest()
}

/// Decodes a body from these bytes, which are without its size prefix, in the grammar `G`.
///
/// # Proved
///
/// ```text
/// ensures found { IfOk result (λ x. body (padded_of G.grammar) bytes.now (body_view x)) }
/// ensures none { IfErr result (λ e. e.cause ≢ Memory → RejectsWhole body (padded_of G.grammar) bytes.now) }
/// ```
pub fn body_of<A: Allocator + Copy, G: Grammar>(
    bytes: &[u8],
    alloc: A,
) -> Result<Body<A>, DecodeError> {
    read_body::<A, G>(bytes, alloc)
}
