//! Constant expressions.
use super::bytes::Bytes;
use super::{Encode, Instruction, done};
use crate::base::{self, Result};
use crate::code;
use crate::code::const_expr::{Stored, function_at_front};
use crate::code::expression::END;
use crate::code::first::First;
use crate::ending::FEW;
use crate::insn::InstructionSink;
use crate::vec::Sink;
use alloc_crate::vec::Vec;

#[doc = text!(ConstExpr)]
#[derive(Clone)]
pub struct ConstExpr(Instructions);

/// The instructions of an expression.
#[derive(Clone)]
enum Instructions {
    One(First),
    Encoded(Bytes),
}

/// Converts an expression built by the calls of
/// [`fallible::ConstExpr`](crate::fallible::ConstExpr). The bytes are copied.
impl From<code::ConstExpr> for ConstExpr {
    fn from(built: code::ConstExpr) -> Self {
        let mut bytes = Bytes::new();
        done(base::Encode::encode(&built, &mut bytes));
        bytes.truncate(bytes.len() - 1);
        ConstExpr(Instructions::Encoded(bytes))
    }
}

/// Encodes the instructions and `end`, by their proved `encode`.
impl base::Encode for ConstExpr {
    #[inline]
    fn encode<A: Sink>(&self, sink: &mut A) -> Result<()> {
        match &self.0 {
            Instructions::One(first) => (*first, END).encode(sink),
            Instructions::Encoded(bytes) => (Stored(bytes), END).encode(sink),
        }
    }
}

/// Returns the encodings of instructions.
#[inline]
pub fn encodings<'a>(instructions: impl IntoIterator<Item = Instruction<'a>>) -> Bytes {
    let mut bytes = Vec::with_capacity(FEW);
    for instruction in instructions {
        instruction.encode(&mut bytes);
    }
    bytes.into()
}

impl ConstExpr {
    /// Returns the expression of these encoded instructions.
    #[inline]
    pub(super) const fn stored(bytes: Bytes) -> Self {
        ConstExpr(Instructions::Encoded(bytes))
    }

    /// Returns the expression of an instruction of a number or a type.
    #[inline]
    pub(super) const fn one(instruction: First) -> Self {
        ConstExpr(Instructions::One(instruction))
    }

    /// Appends by a proved call.
    pub(super) fn with(
        self,
        call: impl FnOnce(&mut InstructionSink<'_, Bytes>) -> Result<()>,
    ) -> Self {
        let mut bytes = self.into_bytes();
        done(call(&mut InstructionSink::new(&mut bytes)));
        ConstExpr(Instructions::Encoded(bytes))
    }

    /// Returns the encoding of the instructions.
    #[inline]
    pub(super) fn into_bytes(self) -> Bytes {
        match self.0 {
            Instructions::One(first) => {
                let mut bytes = Bytes::new();
                done(base::Encode::encode(&first, &mut bytes));
                bytes
            }
            Instructions::Encoded(bytes) => bytes,
        }
    }

    /// Returns the index of the function if the expression begins with `ref.func`.
    pub(super) fn function_index(&self) -> Option<u32> {
        match &self.0 {
            Instructions::One(first) => first.function_index(),
            Instructions::Encoded(bytes) => function_at_front(bytes),
        }
    }

    /// Converts the expression for the proved calls.
    #[inline]
    pub(super) fn proved(&self) -> code::ConstExpr {
        match &self.0 {
            Instructions::One(first) => code::ConstExpr::of(crate::alloc::Global, *first),
            Instructions::Encoded(bytes) => code::ConstExpr::stored(bytes.to_vec().into()),
        }
    }
}
