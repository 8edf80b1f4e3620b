// Written by tools/to-rust from crates/wasm_reader/src/section.rt: change that.
// Decodes whole sections.

use crate::reader::kinds::{Items, SectionKind, read_content};
use crate::alloc::Allocator;
use crate::base::{Padded, ReadFault, Readable};

/// Decodes the section at the front, and returns its items and its length in bytes. The bytes begin
/// with the section's size prefix, after its id.
///
/// # Errors
///
/// Every error except `Memory` means that the bytes do not begin with such a section.
///
/// # Examples
///
/// ```
/// use dolzhytik::fallible::Global;
/// use dolzhytik::reader::{Items, SectionKind, read_section};
///
/// // A function section without its id: size 2, one function, of type 5. Another byte
/// // follows.
/// let (items, taken) =
///     read_section(Global, SectionKind::Functions, &[2, 1, 5, 0xFF])?;
/// let Items::Functions(types) = items else { panic!("another kind") };
/// assert_eq!((&types[..], taken), (&[5][..], 3));
/// # Ok::<(), dolzhytik::reader::ReadFault>(())
/// ```
///
/// # Proved
///
/// - After `Ok`, `found`: As many bytes as the result says are a section of this kind, from the first one on, possibly padded, with this content.
/// - After an error, `none`: the bytes do not begin with such an encoding, unless the cause is `Memory`.
///
/// ```text
/// ensures found { IfOk result (λ x. Takes kind bytes.now (contents_of x.0) x.1) }
/// ensures none { IfErr result
///     (λ e. e ≢ Memory → Rejects (section kind) padded bytes.now) }
/// ```
///
/// Definitions: [`Takes`](crate::definitions::reader::sections::Takes), [`contents_of`](crate::definitions::reader::kinds::contents_of), [`Rejects`](crate::definitions::base::decoding::Rejects), [`section`](crate::definitions::reader::sections::section), [`padded`](crate::definitions::base::numbers::Mode). [How to read clauses](crate::definitions).
pub fn read_section<'a, A: Allocator + Copy + 'a>(
    alloc: A,
    kind: SectionKind,
    bytes: &'a [u8],
) -> Result<(Items<'a, A>, usize), ReadFault> {
    let (sized, rest) = <&'a [u8] as Readable<'a, A, Padded>>::read(bytes, alloc)?;
    let items = read_content::<A, Padded>(kind, sized, alloc)?;
    Ok((items, bytes.len() - rest.len()))
}
