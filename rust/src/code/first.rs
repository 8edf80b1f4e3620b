// Written by tools/to-rust from crates/wasm_code/src/first.rt: change that.
// The first instruction of a constant expression, kept as a value.

use crate::vec::Sink;
use crate::base::{Encode, HeapType, Result};
use crate::insn::{Ieee32, Ieee64};

/// An instruction that is usually a whole expression. It is kept as a value and not as bytes: it
/// needs no allocation, and is encoded once, with the expression.
#[derive(Clone, Copy, Debug)]
#[non_exhaustive]
pub enum First {
    GlobalGet(u32),
    RefNull(HeapType),
    RefFunc(u32),
    I32Const(i32),
    I64Const(i64),
    F32Const(Ieee32),
    F64Const(Ieee64),
}

impl First {
    /// Returns the index of `RefFunc`, or `None` for other instructions.
    ///
    /// # Proved
    ///
    /// ```text
    /// ensures index { result ≡ index_of self }
    /// ensures range { IfSome result (λ index. index < 2 ^ 32) }
    /// ```
    ///
    /// Definitions: [`index_of`](crate::definitions::code::expressions::index_of). [How to read clauses](crate::definitions).
    pub fn function_index(self) -> Option<u32> {
        match self {
            First::RefFunc(index) => Some(index),
            _ => None,
        }
    }
}

/// Encodes the instruction.
///
/// # Defined
///
/// ```text
/// encoding = { first_encoding }
/// encodable = { λ _. ⊤ }
/// ```
///
/// Definitions: [`first_encoding`](crate::definitions::code::expressions::first_encoding). [How to read clauses](crate::definitions).
impl Encode for First {
    #[inline]
    fn encode<A: Sink>(&self, sink: &mut A) -> Result<()> {
        match *self {
            First::GlobalGet(index) => (0x23u8, index).encode(sink),
            First::RefNull(ty) => (0xD0u8, ty).encode(sink),
            First::RefFunc(index) => (0xD2u8, index).encode(sink),
            First::I32Const(value) => (0x41u8, value).encode(sink),
            First::I64Const(value) => (0x42u8, value).encode(sink),
            First::F32Const(value) => (0x43u8, value).encode(sink),
            First::F64Const(value) => (0x44u8, value).encode(sink),
        }
    }
}
