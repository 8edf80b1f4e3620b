// Written by tools/to-rust from crates/wasm_code/src/function.rt: change that.
// Function bodies: locals and instructions.

use crate::vec::{Sink, Vec};
use crate::code::locals::runs_of;
use crate::alloc::{Allocator, Global};
use crate::base::{Encode, EncodeOnce, Refused, Result, ValType, encode_size_prefixed, vec_of};
use crate::insn::{Buffer, Instruction, InstructionSink};

/// A function.
///
/// ```
/// # fn example() -> Result<(), Box<dyn std::error::Error>> {
/// # use dolzhytik::{fallible::*, reader::*};
/// use dolzhytik::fallible::{CodeSection, Function, Global, ValType};
///
/// let mut code = CodeSection::new(Global);
/// let mut function = Function::new(Global, [(1, ValType::I32)])?;
/// let mut instructions = function.instructions();
/// instructions.local_get(0)?;
/// instructions.end()?;
/// code.function(&function)?;
/// # Ok(())
/// # }
/// # example().unwrap();
/// ```
///
/// Make it with the runs of its locals, append the instructions with their last `end`, and add
/// it to a [`CodeSection`](crate::fallible::CodeSection). Where its calls return an error,
/// those of the root's [`Function`](crate::Function) panic or abort.
///
/// # Errors
///
/// A call that returns an error leaves the body unchanged. The error is `TooLong` only if a count
/// or length is not representable, and `Memory` only if an allocation fails.
///
/// # Model
///
/// Contracts model it as its raw body: the runs of its locals, and its instructions.
#[derive(Debug)]
pub struct Function<A: Allocator = Global> {
    pub(crate) bytes: Vec<u8, A>,
}

/// The initial capacity in bytes, so that a short function allocates once.
const FIRST_CAPACITY: usize = 128;

impl<A: Allocator> Function<A> {
    /// Returns a function with these runs of locals, to which instructions are then appended.
    ///
    /// # Errors
    ///
    /// Returns `Memory` if an allocation fails. If the length that the locals report exceeds
    /// 4294967295, the call returns `TooLong`, and requests none of them, as tests show.
    ///
    /// # Asks
    ///
    /// The iterator ends, and yields as many items as it reports. [What happens otherwise](crate::fallible#what-is-asked).
    ///
    /// ```text
    /// requires { HasKnownLength V.into_iter_gives V.IntoIter.can_next V.IntoIter.next_gives
    ///     V.IntoIter.remaining locals }
    /// ```
    ///
    /// Definitions: [`HasKnownLength`](crate::definitions::base::iterators::HasKnownLength). [How to read clauses](crate::definitions).
    ///
    /// # Proved
    ///
    /// The new function has the runs that the iterator yields. If the iterator reports more than 2^32 - 1 runs, the call returns `TooLong`.
    ///
    /// ```text
    /// ensures { BeginsWithRuns V.into_iter_gives V.IntoIter.next_gives V.IntoIter.remaining
    ///     locals result }
    /// ```
    ///
    /// Definitions: [`BeginsWithRuns`](crate::definitions::code::bodies::BeginsWithRuns). [How to read clauses](crate::definitions).
    pub fn new<V: IntoIterator<Item = (u32, ValType)>>(alloc: A, locals: V) -> Result<Self>
    where
        V::IntoIter: ExactSizeIterator,
    {
        let runs = vec_of(locals)?;
        let mut bytes = Vec::with_capacity(alloc, if A::ends() { crate::ending::FEW } else { FIRST_CAPACITY })?;
        runs.encode_once(&mut bytes)?;
        Ok(Function { bytes })
    }

    /// Returns a sink that appends instructions to the raw body.
    ///
    /// # Proved
    ///
    /// ```text
    /// ensures same_reference { result.sink.ghost_name ≡ self.entry.ghost_name }
    /// ensures same { result.sink.now ≡ self.old }
    /// ```
    ///
    /// [How to read clauses](crate::definitions).
    pub fn instructions(&mut self) -> InstructionSink<'_, Function<A>> {
        InstructionSink::new(self)
    }

    /// Appends an instruction.
    ///
    /// # Errors
    ///
    /// Returns [`TooLong`](crate::fallible::Refused::TooLong) if a count or length would pass
    /// 4294967295, and [`Memory`](crate::fallible::Refused::Memory) if an allocation fails. The
    /// builder is then unchanged.
    ///
    /// # Proved
    ///
    /// The body gains the encoding of the instruction, or the call returns an error and changes nothing.
    ///
    /// ```text
    /// ensures { AddsInstruction instruction.now self.old self.new result }
    /// ```
    ///
    /// Definitions: [`AddsInstruction`](crate::definitions::code::bodies::AddsInstruction). [How to read clauses](crate::definitions).
    pub fn instruction(&mut self, instruction: &Instruction<'_>) -> Result<()> {
        instruction.encode(&mut self.bytes)
    }

    /// Appends bytes, which should encode instructions. The call does not check that.
    ///
    /// # Errors
    ///
    /// Returns [`Memory`](crate::fallible::Refused::Memory) if an allocation fails. The builder is
    /// then unchanged.
    ///
    /// # Examples
    ///
    /// ```
    /// use dolzhytik::fallible::{Function, Global};
    ///
    /// let mut body = Function::new(Global, [])?;
    /// body.raw([0x41, 7, 0x0B])?; // i32.const 7, end
    /// assert_eq!(body.into_raw_body()[..], [0, 0x41, 7, 0x0B]);
    /// # Ok::<(), dolzhytik::fallible::Refused>(())
    /// ```
    ///
    /// # Asks
    ///
    /// The iterator ends. [What happens otherwise](crate::fallible#what-is-asked).
    ///
    /// ```text
    /// requires { (it : I.IntoIter) → I.into_iter_gives bytes it
    ///     → I.IntoIter.can_next it × IsFinite (I.IntoIter.remaining it) }
    /// ```
    ///
    /// [How to read clauses](crate::definitions).
    ///
    /// # Proved
    ///
    /// After `Ok`: `ok`, the body gains the bytes that the iterator yields. After an error: `err`, the value is unchanged. In any case: `memory`, no error is `TooLong`.
    ///
    /// ```text
    /// ensures ok { OnOk result ((it : I.IntoIter) × (xs : List ℕ)
    ///     × I.into_iter_gives bytes it
    ///     × Drains I.IntoIter.next_gives it xs
    ///     × GrowsBy xs self.old self.new) }
    /// ensures err { OnErr result (self.new ≡ self.old) }
    /// ensures memory { result ≢ Err TooLong }
    /// ```
    ///
    /// Definitions: [`GrowsBy`](crate::definitions::code::bodies::GrowsBy). [How to read clauses](crate::definitions).
    pub fn raw<I: IntoIterator<Item = u8>>(&mut self, bytes: I) -> Result<()> {
        append_all(&mut self.bytes, bytes)
    }

    /// Returns the length of the raw body so far, in bytes. If the raw body decodes, this is the
    /// offset of the next instruction ([`offset`](crate::code::laws::offset)).
    ///
    /// # Examples
    ///
    /// ```
    /// use dolzhytik::fallible::{Function, Global};
    ///
    /// let mut body = Function::new(Global, [])?;
    /// // No runs of locals: the count 0 is one byte.
    /// assert_eq!(body.byte_len(), 1);
    /// body.instructions().i32_const(7)?;
    /// // i32.const 7: 41 07.
    /// assert_eq!(body.byte_len(), 3);
    /// # Ok::<(), dolzhytik::fallible::Refused>(())
    /// ```
    ///
    /// # Proved
    ///
    /// ```text
    /// ensures { result ≡ length self.now }
    /// ```
    ///
    /// [How to read clauses](crate::definitions).
    #[doc(alias = "offset")]
    #[doc(alias = "byte offset")]
    #[doc(alias = "instruction offset")]
    #[doc(alias = "position")]
    pub fn byte_len(&self) -> usize {
        self.bytes.len()
    }

    /// Returns the raw body, which `CodeSection::raw` accepts.
    ///
    /// # Proved
    ///
    /// ```text
    /// ensures { result.items ≡ self }
    /// ```
    ///
    /// [How to read clauses](crate::definitions).
    pub fn into_raw_body(self) -> Vec<u8, A> {
        let Function { bytes } = self;
        bytes
    }
}

impl<A: Allocator + Copy> Function<A> {
    /// Returns a function with locals of these types. Neighbours of one type form one run.
    ///
    /// # Errors
    ///
    /// Returns [`TooLong`](crate::fallible::Refused::TooLong) if a count or length would pass
    /// 4294967295, and [`Memory`](crate::fallible::Refused::Memory) if an allocation fails.
    ///
    /// # Examples
    ///
    /// ```
    /// use dolzhytik::fallible::{Function, Global, ValType};
    ///
    /// let types = [ValType::I32, ValType::I32, ValType::F32];
    /// let body = Function::new_with_locals_types(Global, types)?;
    /// // Two runs: 2 of i32 (7F), and 1 of f32 (7D).
    /// assert_eq!(body.into_raw_body()[..], [2, 2, 0x7F, 1, 0x7D]);
    /// # Ok::<(), dolzhytik::fallible::Refused>(())
    /// ```
    ///
    /// # Asks
    ///
    /// The iterator ends. [What happens otherwise](crate::fallible#what-is-asked).
    ///
    /// ```text
    /// requires { (it : I.IntoIter) → I.into_iter_gives locals it
    ///     → I.IntoIter.can_next it × IsFinite (I.IntoIter.remaining it) }
    /// ```
    ///
    /// [How to read clauses](crate::definitions).
    ///
    /// # Proved
    ///
    /// The new function has the canonical runs of the types that the iterator yields. If the runs of the types fit, the call never returns `TooLong`.
    ///
    /// ```text
    /// ensures { BeginsWithTypes I.into_iter_gives I.IntoIter.next_gives locals result }
    /// ```
    ///
    /// Definitions: [`BeginsWithTypes`](crate::definitions::code::bodies::BeginsWithTypes). [How to read clauses](crate::definitions).
    pub fn new_with_locals_types<I: IntoIterator<Item = ValType>>(
        alloc: A,
        locals: I,
    ) -> Result<Self> {
        let runs = runs_of(alloc, locals)?;
        Function::new(alloc, runs)
    }

    /// Returns a copy of the function in newly allocated memory.
    ///
    /// # Errors
    ///
    /// Returns [`Memory`](crate::fallible::Refused::Memory) if an allocation fails.
    ///
    /// # Proved
    ///
    /// After `Ok`: `same`, the result equals the value. In any case: `memory`, no error is `TooLong`.
    ///
    /// ```text
    /// ensures same { IfOk result (λ f. f ≡ self.now) }
    /// ensures memory { result ≢ Err TooLong }
    /// ```
    ///
    /// [How to read clauses](crate::definitions).
    pub fn clone(&self) -> Result<Self> {
        let alloc = *self.bytes.allocator();
        Ok(Function {
            bytes: Vec::from_slice(alloc, &self.bytes)?,
        })
    }
}

/// Functions are equal if their raw bodies are equal.
///
/// # Defined
///
/// ```text
/// eq = { bytes_eq }
/// laws = { Prim.search (comparing, rules) }
/// ```
///
/// [How to read clauses](crate::definitions).
impl<A: Allocator> PartialEq for Function<A> {
    fn eq(&self, other: &Self) -> bool {
        self.bytes.as_slice() == other.bytes.as_slice()
    }
}

/// # Defined
///
/// ```text
/// laws = { Prim.search (comparing, rules) }
/// ```
///
/// [How to read clauses](crate::definitions).
impl<A: Allocator> Eq for Function<A> {}

/// Instructions are appended to the raw body.
///
/// # Defined
///
/// ```text
/// written = { λ f. f }
/// ```
///
/// [How to read clauses](crate::definitions).
impl<A: Allocator> Buffer for Function<A> {
    fn append<E: Encode>(&mut self, value: &E) -> Result<()> {
        value.encode(&mut self.bytes)
    }

    fn append_vec<S: Encode, T: Encode, V: IntoIterator<Item = T>, U: Encode>(
        &mut self,
        before: &S,
        elements: V,
        after: &U,
    ) -> Result<()>
    where
        V::IntoIter: ExactSizeIterator,
    {
        self.bytes.append_vec(before, elements, after)
    }
}

/// Appends every byte, or none of them.
pub(crate) fn append_all<I: IntoIterator<Item = u8>, A: Sink>(
    sink: &mut A,
    bytes: I,
) -> Result<()> {
    let start = sink.len();
    for byte in bytes {
        if sink.push(byte).is_err() {
            sink.truncate(start);
            return Err(Refused::Memory);
        }
    }
    Ok(())
}

/// Encodes the raw body with its size prefix.
///
/// # Defined
///
/// ```text
/// encoding = { size_prefixed_encoding }
/// encodable = { HasEncodableSize }
/// decoding = { λ f. DecodesBack (size_prefixed body) (IsWellFormedBody f)
///     (size_prefixed_encoding f) }
/// ```
///
/// Definitions: [`size_prefixed_encoding`](crate::definitions::base::encodings::size_prefixed_encoding), [`HasEncodableSize`](crate::definitions::base::encodings::HasEncodableSize), [`DecodesBack`](crate::definitions::base::calls::DecodesBack), [`size_prefixed`](crate::definitions::base::formats::size_prefixed), [`body`](crate::definitions::code::bodies::body), [`IsWellFormedBody`](crate::definitions::code::bodies::IsWellFormedBody). [How to read clauses](crate::definitions).
impl<A: Allocator> Encode for Function<A> {
    fn encode<B: Sink>(&self, sink: &mut B) -> Result<()> {
        encode_size_prefixed(sink, &self.bytes)
    }
}
