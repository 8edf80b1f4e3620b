// Written by tools/to-rust from crates/wasm_immediates/src/floats.rt: change that.
// Floats, as their bits.

use crate::vec::Sink;
use crate::alloc::Allocator;
use crate::base::{DecodeError, Encode, Grammar, Layout, ReadFault, Readable, Result};

/// A float of 32 bits, by its bits, which
/// [`InstructionSink::f32_const`](crate::InstructionSink::f32_const) takes. A NaN keeps its
/// payload.
///
/// An `f32` converts to it: `1.5_f32.into()`. Core specification, Binary Format, Values,
/// Floating-Point.
///
/// # Examples
///
/// ```
/// use dolzhytik::{Encode, Ieee32};
///
/// let mut bytes = Vec::new();
/// Ieee32::from(1.0).encode(&mut bytes);
/// Ieee32::new(0x7FA0_0000).encode(&mut bytes);
/// // 1.0: the bits 3F800000, the lowest byte first. A signaling NaN, by its bits.
/// assert_eq!(bytes, [0, 0, 0x80, 0x3F, 0, 0, 0xA0, 0x7F]);
/// ```
#[derive(Clone, Copy, PartialEq, Eq, Hash)]
pub struct Ieee32 {
    bits: u32,
}

impl Ieee32 {
    /// Returns the float of these bits.
    ///
    /// # Proved
    ///
    /// ```text
    /// ensures { result.bits ≡ bits }
    /// ```
    ///
    /// [How to read clauses](crate::definitions).
    pub const fn new(bits: u32) -> Self {
        Ieee32 { bits }
    }

    /// Returns the bits.
    ///
    /// # Proved
    ///
    /// ```text
    /// ensures { result ≡ self.bits }
    /// ```
    ///
    /// [How to read clauses](crate::definitions).
    pub const fn bits(self) -> u32 {
        self.bits
    }
}

/// Encodes the bits in four bytes, little-endian.
///
/// # Defined
///
/// ```text
/// encoding = { λ float. little_endian_encoding 4 float.bits }
/// encodable = { λ _. ⊤ }
/// ```
///
/// Definitions: [`little_endian_encoding`](crate::definitions::base::encodings::little_endian_encoding). [How to read clauses](crate::definitions).
impl Encode for Ieee32 {
    fn encode<A: Sink>(&self, sink: &mut A) -> Result<()> {
        let bytes: [u8; 4] = self.bits.to_le_bytes();
        bytes.encode(sink)
    }
}

/// A float of 64 bits, by its bits, which
/// [`InstructionSink::f64_const`](crate::InstructionSink::f64_const) takes. A NaN keeps its
/// payload.
///
/// An `f64` converts to it: `1.5_f64.into()`. Core specification, Binary Format, Values,
/// Floating-Point.
///
/// # Examples
///
/// ```
/// use dolzhytik::{Encode, Ieee64};
///
/// let mut bytes = Vec::new();
/// Ieee64::from(1.0).encode(&mut bytes);
/// // The bits 3FF0000000000000, the lowest byte first.
/// assert_eq!(bytes, [0, 0, 0, 0, 0, 0, 0xF0, 0x3F]);
/// ```
#[derive(Clone, Copy, PartialEq, Eq, Hash)]
pub struct Ieee64 {
    bits: u64,
}

impl Ieee64 {
    /// Returns the float of these bits.
    ///
    /// # Proved
    ///
    /// ```text
    /// ensures { result.bits ≡ bits }
    /// ```
    ///
    /// [How to read clauses](crate::definitions).
    pub const fn new(bits: u64) -> Self {
        Ieee64 { bits }
    }

    /// Returns the bits.
    ///
    /// # Proved
    ///
    /// ```text
    /// ensures { result ≡ self.bits }
    /// ```
    ///
    /// [How to read clauses](crate::definitions).
    pub const fn bits(self) -> u64 {
        self.bits
    }
}

/// Encodes the bits in eight bytes, little-endian.
///
/// # Defined
///
/// ```text
/// encoding = { λ float. little_endian_encoding 8 float.bits }
/// encodable = { λ _. ⊤ }
/// ```
///
/// Definitions: [`little_endian_encoding`](crate::definitions::base::encodings::little_endian_encoding). [How to read clauses](crate::definitions).
impl Encode for Ieee64 {
    fn encode<A: Sink>(&self, sink: &mut A) -> Result<()> {
        let bytes: [u8; 8] = self.bits.to_le_bytes();
        bytes.encode(sink)
    }
}

/// A float's four bytes, little-endian.
///
/// # Defined
///
/// ```text
/// Value = { ℕ }
/// format = { little_endian 4 }
/// view = { λ float. float.bits }
/// ```
///
/// Definitions: [`little_endian`](crate::definitions::base::formats::little_endian). [How to read clauses](crate::definitions).
impl Layout for Ieee32 {
    fn laws() {}
}

/// # Defined
///
/// ```text
/// may_allocate = { ⊥ }
/// ```
///
/// [How to read clauses](crate::definitions).
impl<'a, A: Allocator + Copy, G: Grammar> Readable<'a, A, G> for Ieee32 {
    fn read(bytes: &'a [u8], _alloc: A) -> Result<(Ieee32, &'a [u8]), DecodeError> {
        match bytes.split_first_chunk::<4>() {
            Some((front, rest)) => Ok((Ieee32::new(u32::from_le_bytes(*front)), rest)),
            None => Err(ReadFault::Ended.at(b"")),
        }
    }
}

/// A float's eight bytes, little-endian.
///
/// # Defined
///
/// ```text
/// Value = { ℕ }
/// format = { little_endian 8 }
/// view = { λ float. float.bits }
/// ```
///
/// Definitions: [`little_endian`](crate::definitions::base::formats::little_endian). [How to read clauses](crate::definitions).
impl Layout for Ieee64 {
    fn laws() {}
}

/// # Defined
///
/// ```text
/// may_allocate = { ⊥ }
/// ```
///
/// [How to read clauses](crate::definitions).
impl<'a, A: Allocator + Copy, G: Grammar> Readable<'a, A, G> for Ieee64 {
    fn read(bytes: &'a [u8], _alloc: A) -> Result<(Ieee64, &'a [u8]), DecodeError> {
        match bytes.split_first_chunk::<8>() {
            Some((front, rest)) => Ok((Ieee64::new(u64::from_le_bytes(*front)), rest)),
            None => Err(ReadFault::Ended.at(b"")),
        }
    }
}
