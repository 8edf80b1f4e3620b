// Written by tools/to-rust from crates/wasm_custom/src/core_values.rt: change that.
// The values of locals and stacks in a core dump.

use crate::vec::Sink;
use crate::alloc::Allocator;
use crate::base::{DecodeError, Encode, Grammar, Layout, ReadFault, Readable, Result};
use crate::immediates::{Ieee32, Ieee64};

/// A value in a core dump, which
/// [`CoreDumpStackSection::frame`](crate::CoreDumpStackSection::frame) takes.
///
/// The tool conventions define it in
/// [Coredump](https://github.com/WebAssembly/tool-conventions/blob/main/Coredump.md).
///
/// # Examples
///
/// ```
/// use dolzhytik::{CoreDumpValue, Encode};
///
/// let mut bytes = Vec::new();
/// CoreDumpValue::Missing.encode(&mut bytes);
/// CoreDumpValue::I32(-1).encode(&mut bytes);
/// // A missing value: 01. An i32, 7F, of value -1 as signed LEB128, 7F.
/// assert_eq!(bytes, [0x01, 0x7F, 0x7F]);
/// ```
#[derive(Clone, Debug)]
pub enum CoreDumpValue {
    /// A value that is not known: 01.
    Missing,
    /// An integer of 32 bits: 7F.
    I32(i32),
    /// An integer of 64 bits: 7E.
    I64(i64),
    /// A float of 32 bits: 7D.
    F32(Ieee32),
    /// A float of 64 bits: 7C.
    F64(Ieee64),
}

/// Encodes a byte for the type, and the value.
///
/// # Defined
///
/// ```text
/// encoding = { value_encoding }
/// encodable = { λ _. ⊤ }
/// ```
///
/// Definitions: [`value_encoding`](crate::definitions::custom::core_values::value_encoding). [How to read clauses](crate::definitions).
impl Encode for CoreDumpValue {
    fn encode<A: Sink>(&self, sink: &mut A) -> Result<()> {
        match *self {
            CoreDumpValue::Missing => 0x01u8.encode(sink),
            CoreDumpValue::I32(value) => (0x7Fu8, value).encode(sink),
            CoreDumpValue::I64(value) => (0x7Eu8, value).encode(sink),
            CoreDumpValue::F32(value) => (0x7Du8, value).encode(sink),
            CoreDumpValue::F64(value) => (0x7Cu8, value).encode(sink),
        }
    }
}

/// # Defined
///
/// ```text
/// Value = { ValueModel }
/// format = { value_format }
/// view = { λ value. value }
/// ```
///
/// Definitions: [`value_format`](crate::definitions::custom::core_values::value). [How to read clauses](crate::definitions).
impl Layout for CoreDumpValue {
    fn laws() {}
}

/// # Defined
///
/// ```text
/// may_allocate = { ⊥ }
/// ```
///
/// [How to read clauses](crate::definitions).
impl<'a, A: Allocator + Copy, G: Grammar> Readable<'a, A, G> for CoreDumpValue {
    fn read(bytes: &'a [u8], alloc: A) -> Result<(CoreDumpValue, &'a [u8]), DecodeError> {
        let (tag, rest) = <u8 as Readable<'a, A, G>>::read(bytes, alloc)?;
        match tag {
            0x01 => Ok((CoreDumpValue::Missing, rest)),
            0x7F => {
                let (value, rest) = <i32 as Readable<'a, A, G>>::read(rest, alloc)?;
                Ok((CoreDumpValue::I32(value), rest))
            }
            0x7E => {
                let (value, rest) = <i64 as Readable<'a, A, G>>::read(rest, alloc)?;
                Ok((CoreDumpValue::I64(value), rest))
            }
            0x7D => {
                let (value, rest) = <Ieee32 as Readable<'a, A, G>>::read(rest, alloc)?;
                Ok((CoreDumpValue::F32(value), rest))
            }
            0x7C => {
                let (value, rest) = <Ieee64 as Readable<'a, A, G>>::read(rest, alloc)?;
                Ok((CoreDumpValue::F64(value), rest))
            }
            _ => Err(ReadFault::UnknownTag.just_before(rest)),
        }
    }
}
