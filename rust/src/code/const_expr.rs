// Written by tools/to-rust from crates/wasm_code/src/const_expr.rt: change that.
// Constant expressions: the initializers of globals, tables and segments.

use crate::vec::{Sink, Vec};
use crate::code::expression::END;
use crate::code::first::First;
use crate::code::function::append_all;
use crate::alloc::{Allocator, Global};
use crate::base::{Encode, HeapType, Optional, Result, read_groups};
use crate::insn::{Ieee32, Ieee64, Instruction, InstructionSink};

/// A constant expression.
///
/// A single instruction of `global_get`, `ref_null`, `ref_func`, `i32_const`, `i64_const`,
/// `f32_const` or `f64_const` is kept as a value, without an allocation, as tests show. All others
/// are kept as bytes.
///
/// Globals, tables, and offsets of segments have such an expression. Its `end` is not part of
/// it: the encoding adds it.
///
/// # Errors
///
/// Calls return `Memory` if an allocation fails. Only `extended` can return `TooLong`: if a list in
/// an instruction is too long. A call that consumes an expression drops it on an error.
///
/// # Examples
///
/// ```
/// use dolzhytik::fallible::{ConstExpr, Encode, Global};
///
/// let sum = ConstExpr::i32_const(Global, 64)?.with_i32_const(1)?.with_i32_add()?;
/// let mut bytes = Vec::new();
/// sum.encode(&mut bytes)?;
/// // i32.const 64: 41, and 64 as signed LEB128, C0 00. i32.const 1: 41 01. i32.add:
/// // 6A. end: 0B.
/// assert_eq!(bytes, [0x41, 0xC0, 0x00, 0x41, 0x01, 0x6A, 0x0B]);
/// # Ok::<(), dolzhytik::fallible::Refused>(())
/// ```
///
/// # Model
///
/// Contracts model it as its stored bytes: the instructions without the `End` that follows them
/// in the encoding.
#[derive(Debug)]
pub struct ConstExpr<A: Allocator = Global> {
    first: Option<First>,
    bytes: Vec<u8, A>,
}

/// The length of `V128Const` in bytes.
const VECTOR_BYTES: usize = 18;

impl<A: Allocator> ConstExpr<A> {
    /// Returns an expression without instructions, and allocates nothing.
    ///
    /// # Proved
    ///
    /// The result has no entries.
    ///
    /// ```text
    /// ensures { result ≡ [] }
    /// ```
    ///
    /// [How to read clauses](crate::definitions).
    pub fn empty(alloc: A) -> Self {
        ConstExpr {
            first: None,
            bytes: Vec::new(alloc),
        }
    }

    /// Returns the expression of these bytes, which should encode instructions. The call does not
    /// check that.
    ///
    /// # Errors
    ///
    /// Returns [`Memory`](crate::fallible::Refused::Memory) if an allocation fails.
    ///
    /// # Examples
    ///
    /// ```
    /// use dolzhytik::fallible::{ConstExpr, Encode, Global};
    ///
    /// let mut bytes = Vec::new();
    /// ConstExpr::raw(Global, [0x41, 0x2A])?.encode(&mut bytes)?; // i32.const 42
    /// assert_eq!(bytes, [0x41, 0x2A, 0x0B]);
    /// # Ok::<(), dolzhytik::fallible::Refused>(())
    /// ```
    ///
    /// # Asks
    ///
    /// The iterator ends. [What happens otherwise](crate::fallible#what-is-asked).
    ///
    /// ```text
    /// requires { (it : I.IntoIter) → I.into_iter_gives bytes it
    ///     → I.IntoIter.can_next it × IsFinite (I.IntoIter.remaining it) }
    /// ```
    ///
    /// [How to read clauses](crate::definitions).
    ///
    /// # Proved
    ///
    /// After `Ok`: `ok`, the expression is the bytes that the iterator yields. In any case: `memory`, no error is `TooLong`.
    ///
    /// ```text
    /// ensures ok { IfOk result (λ e. (it : I.IntoIter) × (xs : List ℕ)
    ///     × I.into_iter_gives bytes it
    ///     × Drains I.IntoIter.next_gives it xs
    ///     × (e ≡ xs)) }
    /// ensures memory { result ≢ Err TooLong }
    /// ```
    ///
    /// [How to read clauses](crate::definitions).
    pub fn raw<I: IntoIterator<Item = u8>>(alloc: A, bytes: I) -> Result<Self> {
        let mut stored = Vec::new(alloc);
        append_all(&mut stored, bytes)?;
        Ok(ConstExpr::stored(stored))
    }

    /// Returns the expression of the instructions, one after another.
    ///
    /// # Errors
    ///
    /// Returns [`TooLong`](crate::fallible::Refused::TooLong) if a count or length would pass
    /// 4294967295, and [`Memory`](crate::fallible::Refused::Memory) if an allocation fails.
    ///
    /// # Examples
    ///
    /// ```
    /// use dolzhytik::fallible::{ConstExpr, Encode, Global, Instruction};
    ///
    /// let made =
    ///     ConstExpr::extended(Global, [Instruction::I32Const(1), Instruction::RefI31])?;
    /// let mut bytes = Vec::new();
    /// made.encode(&mut bytes)?;
    /// // i32.const 1: 41 01. ref.i31: FB 1C. end: 0B.
    /// assert_eq!(bytes, [0x41, 0x01, 0xFB, 0x1C, 0x0B]);
    /// # Ok::<(), dolzhytik::fallible::Refused>(())
    /// ```
    ///
    /// # Asks
    ///
    /// The iterator ends. [What happens otherwise](crate::fallible#what-is-asked).
    ///
    /// ```text
    /// requires { (it : I.IntoIter) → I.into_iter_gives instructions it
    ///     → I.IntoIter.can_next it × IsFinite (I.IntoIter.remaining it) }
    /// ```
    ///
    /// [How to read clauses](crate::definitions).
    ///
    /// # Proved
    ///
    /// The expression stores the encodings of the instructions that the iterator yields. If all of them fit, the call never returns `TooLong`.
    ///
    /// ```text
    /// ensures { StoresGiven I.into_iter_gives I.IntoIter.next_gives instructions result }
    /// ```
    ///
    /// Definitions: [`StoresGiven`](crate::definitions::code::expressions::StoresGiven). [How to read clauses](crate::definitions).
    pub fn extended<'i, I: IntoIterator<Item = Instruction<'i>>>(
        alloc: A,
        instructions: I,
    ) -> Result<Self> {
        let mut bytes = Vec::new(alloc);
        encode_each(instructions, &mut bytes)?;
        Ok(ConstExpr { first: None, bytes })
    }

    /// Returns the expression whose stored bytes these are, and allocates nothing.
    pub(crate) fn stored(bytes: Vec<u8, A>) -> Self {
        ConstExpr { first: None, bytes }
    }

    /// Returns the expression of the instruction alone, and allocates nothing.
    #[inline]
    pub(crate) fn of(alloc: A, first: First) -> Self {
        let bytes = Vec::new(alloc);
        ConstExpr {
            first: Some(first),
            bytes,
        }
    }

    /// Returns the expression of `GlobalGet` alone.
    ///
    /// # Errors
    ///
    /// Returns [`Memory`](crate::fallible::Refused::Memory) if an allocation fails.
    ///
    /// # Proved
    ///
    /// - After `Ok`, `stores`: The bytes gain the encoding of the instruction. If it is well-formed and the old bytes minimally encode instructions, the new bytes encode these and its normal form.
    /// - `memory`: no error is `TooLong`.
    ///
    /// ```text
    /// ensures stores { IfOk result (Stores (Instruction.GlobalGet index) []) }
    /// ensures memory { result ≢ Err TooLong }
    /// ```
    ///
    /// Definitions: [`Stores`](crate::definitions::code::expressions::Stores). [How to read clauses](crate::definitions).
    #[inline]
    pub fn global_get(alloc: A, index: u32) -> Result<Self> {
        Ok(ConstExpr::of(alloc, First::GlobalGet(index)))
    }

    /// Returns the expression of `RefNull` alone.
    ///
    /// # Errors
    ///
    /// Returns [`Memory`](crate::fallible::Refused::Memory) if an allocation fails.
    ///
    /// # Proved
    ///
    /// - After `Ok`, `stores`: The bytes gain the encoding of the instruction. If it is well-formed and the old bytes minimally encode instructions, the new bytes encode these and its normal form.
    /// - `memory`: no error is `TooLong`.
    ///
    /// ```text
    /// ensures stores { IfOk result (Stores (Instruction.RefNull ty) []) }
    /// ensures memory { result ≢ Err TooLong }
    /// ```
    ///
    /// Definitions: [`Stores`](crate::definitions::code::expressions::Stores). [How to read clauses](crate::definitions).
    #[inline]
    pub fn ref_null(alloc: A, ty: HeapType) -> Result<Self> {
        Ok(ConstExpr::of(alloc, First::RefNull(ty)))
    }

    /// Returns the expression of `RefFunc` alone.
    ///
    /// # Errors
    ///
    /// Returns [`Memory`](crate::fallible::Refused::Memory) if an allocation fails.
    ///
    /// # Proved
    ///
    /// - After `Ok`, `stores`: The bytes gain the encoding of the instruction. If it is well-formed and the old bytes minimally encode instructions, the new bytes encode these and its normal form.
    /// - `memory`: no error is `TooLong`.
    ///
    /// ```text
    /// ensures stores { IfOk result (Stores (Instruction.RefFunc function_index) []) }
    /// ensures memory { result ≢ Err TooLong }
    /// ```
    ///
    /// Definitions: [`Stores`](crate::definitions::code::expressions::Stores). [How to read clauses](crate::definitions).
    #[inline]
    pub fn ref_func(alloc: A, function_index: u32) -> Result<Self> {
        Ok(ConstExpr::of(alloc, First::RefFunc(function_index)))
    }

    /// Returns the expression of `I32Const` alone.
    ///
    /// # Errors
    ///
    /// Returns [`Memory`](crate::fallible::Refused::Memory) if an allocation fails.
    ///
    /// # Proved
    ///
    /// - After `Ok`, `stores`: The bytes gain the encoding of the instruction. If it is well-formed and the old bytes minimally encode instructions, the new bytes encode these and its normal form.
    /// - `memory`: no error is `TooLong`.
    ///
    /// ```text
    /// ensures stores { IfOk result (Stores (Instruction.I32Const value) []) }
    /// ensures memory { result ≢ Err TooLong }
    /// ```
    ///
    /// Definitions: [`Stores`](crate::definitions::code::expressions::Stores). [How to read clauses](crate::definitions).
    #[inline]
    pub fn i32_const(alloc: A, value: i32) -> Result<Self> {
        Ok(ConstExpr::of(alloc, First::I32Const(value)))
    }

    /// Returns the expression of `I64Const` alone.
    ///
    /// # Errors
    ///
    /// Returns [`Memory`](crate::fallible::Refused::Memory) if an allocation fails.
    ///
    /// # Proved
    ///
    /// - After `Ok`, `stores`: The bytes gain the encoding of the instruction. If it is well-formed and the old bytes minimally encode instructions, the new bytes encode these and its normal form.
    /// - `memory`: no error is `TooLong`.
    ///
    /// ```text
    /// ensures stores { IfOk result (Stores (Instruction.I64Const value) []) }
    /// ensures memory { result ≢ Err TooLong }
    /// ```
    ///
    /// Definitions: [`Stores`](crate::definitions::code::expressions::Stores). [How to read clauses](crate::definitions).
    #[inline]
    pub fn i64_const(alloc: A, value: i64) -> Result<Self> {
        Ok(ConstExpr::of(alloc, First::I64Const(value)))
    }

    /// Returns the expression of `F32Const` alone.
    ///
    /// # Errors
    ///
    /// Returns [`Memory`](crate::fallible::Refused::Memory) if an allocation fails.
    ///
    /// # Proved
    ///
    /// - After `Ok`, `stores`: The bytes gain the encoding of the instruction. If it is well-formed and the old bytes minimally encode instructions, the new bytes encode these and its normal form.
    /// - `memory`: no error is `TooLong`.
    ///
    /// ```text
    /// ensures stores { IfOk result (Stores (Instruction.F32Const value) []) }
    /// ensures memory { result ≢ Err TooLong }
    /// ```
    ///
    /// Definitions: [`Stores`](crate::definitions::code::expressions::Stores). [How to read clauses](crate::definitions).
    #[inline]
    pub fn f32_const(alloc: A, value: Ieee32) -> Result<Self> {
        Ok(ConstExpr::of(alloc, First::F32Const(value)))
    }

    /// Returns the expression of `F64Const` alone.
    ///
    /// # Errors
    ///
    /// Returns [`Memory`](crate::fallible::Refused::Memory) if an allocation fails.
    ///
    /// # Proved
    ///
    /// - After `Ok`, `stores`: The bytes gain the encoding of the instruction. If it is well-formed and the old bytes minimally encode instructions, the new bytes encode these and its normal form.
    /// - `memory`: no error is `TooLong`.
    ///
    /// ```text
    /// ensures stores { IfOk result (Stores (Instruction.F64Const value) []) }
    /// ensures memory { result ≢ Err TooLong }
    /// ```
    ///
    /// Definitions: [`Stores`](crate::definitions::code::expressions::Stores). [How to read clauses](crate::definitions).
    #[inline]
    pub fn f64_const(alloc: A, value: Ieee64) -> Result<Self> {
        Ok(ConstExpr::of(alloc, First::F64Const(value)))
    }

    /// Returns the expression of `V128Const` alone.
    ///
    /// # Errors
    ///
    /// Returns [`Memory`](crate::fallible::Refused::Memory) if an allocation fails.
    ///
    /// # Proved
    ///
    /// - After `Ok`, `stores`: The bytes gain the encoding of the instruction. If it is well-formed and the old bytes minimally encode instructions, the new bytes encode these and its normal form.
    /// - `memory`: no error is `TooLong`.
    ///
    /// ```text
    /// ensures stores { IfOk result
    ///     (Stores (Instruction.VectorImmediate (VectorImmediate.V128Const value)) []) }
    /// ensures memory { result ≢ Err TooLong }
    /// ```
    ///
    /// Definitions: [`Stores`](crate::definitions::code::expressions::Stores). [How to read clauses](crate::definitions).
    pub fn v128_const(alloc: A, value: i128) -> Result<Self> {
        let bytes = Vec::with_capacity(alloc, VECTOR_BYTES)?;
        ConstExpr::stored(bytes).with_v128_const(value)
    }

    /// Appends `GlobalGet` to the expression.
    ///
    /// # Errors
    ///
    /// Returns [`Memory`](crate::fallible::Refused::Memory) if an allocation fails.
    ///
    /// # Proved
    ///
    /// - After `Ok`, `stores`: The bytes gain the encoding of the instruction. If it is well-formed and the old bytes minimally encode instructions, the new bytes encode these and its normal form.
    /// - `memory`: no error is `TooLong`.
    ///
    /// ```text
    /// ensures stores { IfOk result (Stores (Instruction.GlobalGet index) self) }
    /// ensures memory { result ≢ Err TooLong }
    /// ```
    ///
    /// Definitions: [`Stores`](crate::definitions::code::expressions::Stores). [How to read clauses](crate::definitions).
    #[inline]
    pub fn with_global_get(mut self, index: u32) -> Result<Self> {
        InstructionSink::new(&mut self.bytes).global_get(index)?;
        Ok(self)
    }

    /// Appends `RefNull` to the expression.
    ///
    /// # Errors
    ///
    /// Returns [`Memory`](crate::fallible::Refused::Memory) if an allocation fails.
    ///
    /// # Proved
    ///
    /// - After `Ok`, `stores`: The bytes gain the encoding of the instruction. If it is well-formed and the old bytes minimally encode instructions, the new bytes encode these and its normal form.
    /// - `memory`: no error is `TooLong`.
    ///
    /// ```text
    /// ensures stores { IfOk result (Stores (Instruction.RefNull ty) self) }
    /// ensures memory { result ≢ Err TooLong }
    /// ```
    ///
    /// Definitions: [`Stores`](crate::definitions::code::expressions::Stores). [How to read clauses](crate::definitions).
    #[inline]
    pub fn with_ref_null(mut self, ty: HeapType) -> Result<Self> {
        InstructionSink::new(&mut self.bytes).ref_null(ty)?;
        Ok(self)
    }

    /// Appends `RefFunc` to the expression.
    ///
    /// # Errors
    ///
    /// Returns [`Memory`](crate::fallible::Refused::Memory) if an allocation fails.
    ///
    /// # Proved
    ///
    /// - After `Ok`, `stores`: The bytes gain the encoding of the instruction. If it is well-formed and the old bytes minimally encode instructions, the new bytes encode these and its normal form.
    /// - `memory`: no error is `TooLong`.
    ///
    /// ```text
    /// ensures stores { IfOk result (Stores (Instruction.RefFunc function_index) self) }
    /// ensures memory { result ≢ Err TooLong }
    /// ```
    ///
    /// Definitions: [`Stores`](crate::definitions::code::expressions::Stores). [How to read clauses](crate::definitions).
    #[inline]
    pub fn with_ref_func(mut self, function_index: u32) -> Result<Self> {
        InstructionSink::new(&mut self.bytes).ref_func(function_index)?;
        Ok(self)
    }

    /// Appends `I32Const` to the expression.
    ///
    /// # Errors
    ///
    /// Returns [`Memory`](crate::fallible::Refused::Memory) if an allocation fails.
    ///
    /// # Proved
    ///
    /// - After `Ok`, `stores`: The bytes gain the encoding of the instruction. If it is well-formed and the old bytes minimally encode instructions, the new bytes encode these and its normal form.
    /// - `memory`: no error is `TooLong`.
    ///
    /// ```text
    /// ensures stores { IfOk result (Stores (Instruction.I32Const value) self) }
    /// ensures memory { result ≢ Err TooLong }
    /// ```
    ///
    /// Definitions: [`Stores`](crate::definitions::code::expressions::Stores). [How to read clauses](crate::definitions).
    #[inline]
    pub fn with_i32_const(mut self, value: i32) -> Result<Self> {
        InstructionSink::new(&mut self.bytes).i32_const(value)?;
        Ok(self)
    }

    /// Appends `I64Const` to the expression.
    ///
    /// # Errors
    ///
    /// Returns [`Memory`](crate::fallible::Refused::Memory) if an allocation fails.
    ///
    /// # Proved
    ///
    /// - After `Ok`, `stores`: The bytes gain the encoding of the instruction. If it is well-formed and the old bytes minimally encode instructions, the new bytes encode these and its normal form.
    /// - `memory`: no error is `TooLong`.
    ///
    /// ```text
    /// ensures stores { IfOk result (Stores (Instruction.I64Const value) self) }
    /// ensures memory { result ≢ Err TooLong }
    /// ```
    ///
    /// Definitions: [`Stores`](crate::definitions::code::expressions::Stores). [How to read clauses](crate::definitions).
    #[inline]
    pub fn with_i64_const(mut self, value: i64) -> Result<Self> {
        InstructionSink::new(&mut self.bytes).i64_const(value)?;
        Ok(self)
    }

    /// Appends `F32Const` to the expression.
    ///
    /// # Errors
    ///
    /// Returns [`Memory`](crate::fallible::Refused::Memory) if an allocation fails.
    ///
    /// # Proved
    ///
    /// - After `Ok`, `stores`: The bytes gain the encoding of the instruction. If it is well-formed and the old bytes minimally encode instructions, the new bytes encode these and its normal form.
    /// - `memory`: no error is `TooLong`.
    ///
    /// ```text
    /// ensures stores { IfOk result (Stores (Instruction.F32Const value) self) }
    /// ensures memory { result ≢ Err TooLong }
    /// ```
    ///
    /// Definitions: [`Stores`](crate::definitions::code::expressions::Stores). [How to read clauses](crate::definitions).
    #[inline]
    pub fn with_f32_const(mut self, value: Ieee32) -> Result<Self> {
        InstructionSink::new(&mut self.bytes).f32_const(value)?;
        Ok(self)
    }

    /// Appends `F64Const` to the expression.
    ///
    /// # Errors
    ///
    /// Returns [`Memory`](crate::fallible::Refused::Memory) if an allocation fails.
    ///
    /// # Proved
    ///
    /// - After `Ok`, `stores`: The bytes gain the encoding of the instruction. If it is well-formed and the old bytes minimally encode instructions, the new bytes encode these and its normal form.
    /// - `memory`: no error is `TooLong`.
    ///
    /// ```text
    /// ensures stores { IfOk result (Stores (Instruction.F64Const value) self) }
    /// ensures memory { result ≢ Err TooLong }
    /// ```
    ///
    /// Definitions: [`Stores`](crate::definitions::code::expressions::Stores). [How to read clauses](crate::definitions).
    #[inline]
    pub fn with_f64_const(mut self, value: Ieee64) -> Result<Self> {
        InstructionSink::new(&mut self.bytes).f64_const(value)?;
        Ok(self)
    }

    /// Appends `V128Const` to the expression.
    ///
    /// # Errors
    ///
    /// Returns [`Memory`](crate::fallible::Refused::Memory) if an allocation fails.
    ///
    /// # Proved
    ///
    /// - After `Ok`, `stores`: The bytes gain the encoding of the instruction. If it is well-formed and the old bytes minimally encode instructions, the new bytes encode these and its normal form.
    /// - `memory`: no error is `TooLong`.
    ///
    /// ```text
    /// ensures stores { IfOk result
    ///     (Stores (Instruction.VectorImmediate (VectorImmediate.V128Const value)) self) }
    /// ensures memory { result ≢ Err TooLong }
    /// ```
    ///
    /// Definitions: [`Stores`](crate::definitions::code::expressions::Stores). [How to read clauses](crate::definitions).
    #[inline]
    pub fn with_v128_const(mut self, value: i128) -> Result<Self> {
        InstructionSink::new(&mut self.bytes).v128_const(value)?;
        Ok(self)
    }

    /// Appends `I32Add` to the expression.
    ///
    /// # Errors
    ///
    /// Returns [`Memory`](crate::fallible::Refused::Memory) if an allocation fails.
    ///
    /// # Proved
    ///
    /// - After `Ok`, `stores`: The bytes gain the encoding of the instruction. If it is well-formed and the old bytes minimally encode instructions, the new bytes encode these and its normal form.
    /// - `memory`: no error is `TooLong`.
    ///
    /// ```text
    /// ensures stores { IfOk result (Stores (Instruction.Numeric Numeric.I32Add) self) }
    /// ensures memory { result ≢ Err TooLong }
    /// ```
    ///
    /// Definitions: [`Stores`](crate::definitions::code::expressions::Stores). [How to read clauses](crate::definitions).
    #[inline]
    pub fn with_i32_add(mut self) -> Result<Self> {
        InstructionSink::new(&mut self.bytes).i32_add()?;
        Ok(self)
    }

    /// Appends `I32Sub` to the expression.
    ///
    /// # Errors
    ///
    /// Returns [`Memory`](crate::fallible::Refused::Memory) if an allocation fails.
    ///
    /// # Proved
    ///
    /// - After `Ok`, `stores`: The bytes gain the encoding of the instruction. If it is well-formed and the old bytes minimally encode instructions, the new bytes encode these and its normal form.
    /// - `memory`: no error is `TooLong`.
    ///
    /// ```text
    /// ensures stores { IfOk result (Stores (Instruction.Numeric Numeric.I32Sub) self) }
    /// ensures memory { result ≢ Err TooLong }
    /// ```
    ///
    /// Definitions: [`Stores`](crate::definitions::code::expressions::Stores). [How to read clauses](crate::definitions).
    #[inline]
    pub fn with_i32_sub(mut self) -> Result<Self> {
        InstructionSink::new(&mut self.bytes).i32_sub()?;
        Ok(self)
    }

    /// Appends `I32Mul` to the expression.
    ///
    /// # Errors
    ///
    /// Returns [`Memory`](crate::fallible::Refused::Memory) if an allocation fails.
    ///
    /// # Proved
    ///
    /// - After `Ok`, `stores`: The bytes gain the encoding of the instruction. If it is well-formed and the old bytes minimally encode instructions, the new bytes encode these and its normal form.
    /// - `memory`: no error is `TooLong`.
    ///
    /// ```text
    /// ensures stores { IfOk result (Stores (Instruction.Numeric Numeric.I32Mul) self) }
    /// ensures memory { result ≢ Err TooLong }
    /// ```
    ///
    /// Definitions: [`Stores`](crate::definitions::code::expressions::Stores). [How to read clauses](crate::definitions).
    #[inline]
    pub fn with_i32_mul(mut self) -> Result<Self> {
        InstructionSink::new(&mut self.bytes).i32_mul()?;
        Ok(self)
    }

    /// Appends `I64Add` to the expression.
    ///
    /// # Errors
    ///
    /// Returns [`Memory`](crate::fallible::Refused::Memory) if an allocation fails.
    ///
    /// # Proved
    ///
    /// - After `Ok`, `stores`: The bytes gain the encoding of the instruction. If it is well-formed and the old bytes minimally encode instructions, the new bytes encode these and its normal form.
    /// - `memory`: no error is `TooLong`.
    ///
    /// ```text
    /// ensures stores { IfOk result (Stores (Instruction.Numeric Numeric.I64Add) self) }
    /// ensures memory { result ≢ Err TooLong }
    /// ```
    ///
    /// Definitions: [`Stores`](crate::definitions::code::expressions::Stores). [How to read clauses](crate::definitions).
    #[inline]
    pub fn with_i64_add(mut self) -> Result<Self> {
        InstructionSink::new(&mut self.bytes).i64_add()?;
        Ok(self)
    }

    /// Appends `I64Sub` to the expression.
    ///
    /// # Errors
    ///
    /// Returns [`Memory`](crate::fallible::Refused::Memory) if an allocation fails.
    ///
    /// # Proved
    ///
    /// - After `Ok`, `stores`: The bytes gain the encoding of the instruction. If it is well-formed and the old bytes minimally encode instructions, the new bytes encode these and its normal form.
    /// - `memory`: no error is `TooLong`.
    ///
    /// ```text
    /// ensures stores { IfOk result (Stores (Instruction.Numeric Numeric.I64Sub) self) }
    /// ensures memory { result ≢ Err TooLong }
    /// ```
    ///
    /// Definitions: [`Stores`](crate::definitions::code::expressions::Stores). [How to read clauses](crate::definitions).
    #[inline]
    pub fn with_i64_sub(mut self) -> Result<Self> {
        InstructionSink::new(&mut self.bytes).i64_sub()?;
        Ok(self)
    }

    /// Appends `I64Mul` to the expression.
    ///
    /// # Errors
    ///
    /// Returns [`Memory`](crate::fallible::Refused::Memory) if an allocation fails.
    ///
    /// # Proved
    ///
    /// - After `Ok`, `stores`: The bytes gain the encoding of the instruction. If it is well-formed and the old bytes minimally encode instructions, the new bytes encode these and its normal form.
    /// - `memory`: no error is `TooLong`.
    ///
    /// ```text
    /// ensures stores { IfOk result (Stores (Instruction.Numeric Numeric.I64Mul) self) }
    /// ensures memory { result ≢ Err TooLong }
    /// ```
    ///
    /// Definitions: [`Stores`](crate::definitions::code::expressions::Stores). [How to read clauses](crate::definitions).
    #[inline]
    pub fn with_i64_mul(mut self) -> Result<Self> {
        InstructionSink::new(&mut self.bytes).i64_mul()?;
        Ok(self)
    }

    /// Returns the index of `RefFunc` if the expression begins with it, and `None` otherwise.
    ///
    /// # Examples
    ///
    /// ```
    /// use dolzhytik::fallible::{ConstExpr, Global};
    ///
    /// assert_eq!(ConstExpr::ref_func(Global, 7)?.get_ref_func(), Some(7));
    /// assert_eq!(ConstExpr::i32_const(Global, 7)?.get_ref_func(), None);
    /// # Ok::<(), dolzhytik::fallible::Refused>(())
    /// ```
    ///
    /// # Proved
    ///
    /// The result is `Some(f)` exactly if the bytes begin with `ref.func f`.
    ///
    /// ```text
    /// ensures { IsRefFunc self.now result }
    /// ```
    ///
    /// Definitions: [`IsRefFunc`](crate::definitions::code::expressions::IsRefFunc). [How to read clauses](crate::definitions).
    pub fn get_ref_func(&self) -> Option<u32> {
        match self.first {
            Some(first) => first.function_index(),
            None => function_at_front(&self.bytes),
        }
    }
}

/// Returns the index of `RefFunc` if the bytes begin with it, and `None` otherwise.
pub(crate) fn function_at_front(bytes: &[u8]) -> Option<u32> {
    let [op, rest @ ..] = bytes else {
        return None;
    };
    if *op != 0xD2 {
        return None;
    }
    let Ok((index, _)) = read_groups(rest, 5) else {
        return None;
    };
    if index.sum < 1 << 32 {
        Some(index.sum as u32)
    } else {
        None
    }
}

/// Appends the encodings of the elements. After an error, some of them may be in the sink.
fn encode_each<T: Encode, I: IntoIterator<Item = T>, A: Sink>(
    elements: I,
    sink: &mut A,
) -> Result<()> {
    for element in elements {
        element.encode(sink)?;
    }
    Ok(())
}

impl<A: Allocator + Copy> ConstExpr<A> {
    /// Returns a copy of the expression in newly allocated memory.
    ///
    /// # Errors
    ///
    /// Returns [`Memory`](crate::fallible::Refused::Memory) if an allocation fails.
    ///
    /// # Proved
    ///
    /// After `Ok`: `same`, the result equals the value. In any case: `memory`, no error is `TooLong`.
    ///
    /// ```text
    /// ensures same { IfOk result (λ e. e ≡ self.now) }
    /// ensures memory { result ≢ Err TooLong }
    /// ```
    ///
    /// [How to read clauses](crate::definitions).
    pub fn clone(&self) -> Result<Self> {
        let alloc = *self.bytes.allocator();
        Ok(ConstExpr {
            first: self.first,
            bytes: Vec::from_slice(alloc, &self.bytes)?,
        })
    }
}

/// Stored bytes as a component of an encoding.
pub(crate) struct Stored<'a>(pub(crate) &'a [u8]);

/// Encodes the bytes as they are.
///
/// # Defined
///
/// ```text
/// encoding = { λ stored. stored.0.now }
/// encodable = { λ _. ⊤ }
/// ```
///
/// [How to read clauses](crate::definitions).
impl Encode for Stored<'_> {
    #[inline]
    fn encode<A: Sink>(&self, sink: &mut A) -> Result<()> {
        sink.extend_from_slice(self.0)?;
        Ok(())
    }
}

/// Encodes the stored bytes, and `End`.
///
/// # Defined
///
/// ```text
/// encoding = { expression_encoding }
/// encodable = { λ _. ⊤ }
/// decoding = { λ e. DecodesBack expression (StoresInstructions e)
///     (expression_encoding e) }
/// ```
///
/// Definitions: [`expression_encoding`](crate::definitions::code::expressions::expression_encoding), [`DecodesBack`](crate::definitions::base::calls::DecodesBack), [`expression`](crate::definitions::code::expressions::expression), [`StoresInstructions`](crate::definitions::code::expressions::StoresInstructions). [How to read clauses](crate::definitions).
impl<A: Allocator> Encode for ConstExpr<A> {
    #[inline]
    fn encode<B: Sink>(&self, sink: &mut B) -> Result<()> {
        (Optional(self.first), Stored(&self.bytes), END).encode(sink)
    }
}
