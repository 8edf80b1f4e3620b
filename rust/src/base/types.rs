// Written by tools/to-rust from crates/wasm_base/src/types.rt: change that.
// Heap types, reference types and value types.

use crate::vec::Sink;
use crate::base::effect::{Effect, EncodeIn};
use crate::base::encode::Encode;
use crate::base::fault::{DecodeError, ReadFault};
use crate::base::grammar::Grammar;
use crate::base::leb128::read_index;
use crate::base::readable::{Layout, Readable};
use crate::base::refused::Result;
use crate::base::shorten::Shorten;
use crate::base::walk::{Walk, walk_in};
use crate::alloc::Allocator;

/// An abstract heap type, such as `func` or `any`, which a [`HeapType`](crate::HeapType) holds.
///
/// Core specification, Types, Heap Types.
///
/// The byte of the encoding is the number of the case. `Cont` and `NoCont` are of the stack
/// switching proposal.
///
/// # Examples
///
/// ```
/// use dolzhytik::{AbstractHeapType, Encode};
///
/// let mut bytes = Vec::new();
/// AbstractHeapType::Any.encode(&mut bytes);
/// // any: 6E.
/// assert_eq!(bytes, [0x6E]);
/// ```
#[derive(Clone, Copy, PartialEq, Eq, Hash, Debug, PartialOrd, Ord)]
pub enum AbstractHeapType {
    /// `func` (70): functions.
    Func = 0x70,
    /// `extern` (6F): references of the host.
    Extern = 0x6F,
    /// `any` (6E): all internal references.
    Any = 0x6E,
    /// `eq` (6D): references that can be compared.
    Eq = 0x6D,
    /// `i31` (6C): integers of 31 bits.
    I31 = 0x6C,
    /// `struct` (6B): structures.
    Struct = 0x6B,
    /// `array` (6A): arrays.
    Array = 0x6A,
    /// `exn` (69): exceptions.
    Exn = 0x69,
    /// `noexn` (74): no exception.
    NoExn = 0x74,
    /// `nofunc` (73): no function.
    NoFunc = 0x73,
    /// `noextern` (72): no reference of the host.
    NoExtern = 0x72,
    /// `none` (71): no internal reference.
    None = 0x71,
    /// `cont` (68): continuations.
    Cont = 0x68,
    /// `nocont` (75): no continuation.
    NoCont = 0x75,
}

/// A heap type: the type of the values that a [`RefType`](crate::RefType) refers to, and an
/// operand of `ref.null`, `ref.test` and `ref.cast`.
///
/// Core specification, Types, Heap Types.
///
/// `shared` is of the shared-everything threads proposal, and `Exact` of the custom descriptors
/// proposal.
///
/// # Examples
///
/// ```
/// use dolzhytik::{Encode, HeapType, Instruction};
///
/// let mut bytes = Vec::new();
/// Instruction::RefNull(HeapType::FUNC).encode(&mut bytes);
/// Instruction::RefNull(HeapType::Concrete(64)).encode(&mut bytes);
/// // ref.null func: D0 70. ref.null of type 64: D0, and 64 as signed LEB128, C0 00.
/// assert_eq!(bytes, [0xD0, 0x70, 0xD0, 0xC0, 0x00]);
/// ```
#[derive(Clone, Copy, PartialEq, Eq, Hash, Debug)]
pub enum HeapType {
    /// A type with a name.
    Abstract {
        /// Whether threads share its values.
        shared: bool,
        /// The type.
        ty: AbstractHeapType },
    /// The type of this index, and its subtypes.
    Concrete(u32),
    /// Exactly the type of this index.
    Exact(u32),
}

impl HeapType {
    /// Any function.
    pub const FUNC: HeapType = HeapType::Abstract {
        shared: false,
        ty: AbstractHeapType::Func,
    };

    /// Any value of the host.
    pub const EXTERN: HeapType = HeapType::Abstract {
        shared: false,
        ty: AbstractHeapType::Extern,
    };
}

/// A reference type: the element type of a [`TableType`](crate::TableType) and of
/// [`Elements::Expressions`](crate::Elements::Expressions), and a case of
/// [`ValType`](crate::ValType).
///
/// Core specification, Types, Reference Types.
///
/// # Examples
///
/// ```
/// use dolzhytik::{AbstractHeapType, Encode, RefType};
///
/// let mut bytes = Vec::new();
/// RefType::FUNCREF.encode(&mut bytes);
/// RefType::new_abstract(AbstractHeapType::Eq, false, false).encode(&mut bytes);
/// // funcref: 70. A reference to eq (6D) that is not null: 64 6D.
/// assert_eq!(bytes, [0x70, 0x64, 0x6D]);
/// ```
#[derive(Clone, Copy, PartialEq, Eq, Hash, Debug, PartialOrd, Ord)]
pub struct RefType {
    /// Whether null is a value of the type.
    pub nullable: bool,
    /// The type of the values that references refer to.
    pub heap_type: HeapType,
}

impl RefType {
    /// A function or null.
    pub const FUNCREF: RefType = RefType {
        nullable: true,
        heap_type: HeapType::FUNC,
    };

    /// A value of the host or null.
    pub const EXTERNREF: RefType = RefType {
        nullable: true,
        heap_type: HeapType::EXTERN,
    };
}

/// A value type: the type of parameters, results, locals and globals.
///
/// [`Function::new`](crate::Function::new),
/// [`CoreTypeEncoder::function`](crate::CoreTypeEncoder::function) and
/// [`GlobalType`](crate::GlobalType) take it. Core specification, Types, Value Types.
///
/// # Examples
///
/// ```
/// use dolzhytik::{Encode, ValType};
///
/// let mut bytes = Vec::new();
/// [ValType::I32, ValType::F64, ValType::FUNCREF][..].encode(&mut bytes);
/// // Three types: 7F, 7C, 70.
/// assert_eq!(bytes, [3, 0x7F, 0x7C, 0x70]);
/// ```
#[derive(Clone, Copy, PartialEq, Eq, Hash, Debug, PartialOrd, Ord)]
pub enum ValType {
    /// An integer of 32 bits: 7F.
    I32,
    /// An integer of 64 bits: 7E.
    I64,
    /// A float of 32 bits: 7D.
    F32,
    /// A float of 64 bits: 7C.
    F64,
    /// A vector of 128 bits: 7B.
    V128,
    /// A reference: the encoding of its [`RefType`](crate::RefType).
    Ref(RefType),
}

impl AbstractHeapType {
    /// Returns the byte that encodes the type.
    #[inline]
    fn byte(self) -> u8 {
        self as u8
    }
}

/// Encodes the type as one byte.
///
/// # Defined
///
/// ```text
/// encoding = { λ ty. abstract_code ty ∷ [] }
/// encodable = { λ _. ⊤ }
/// ```
///
/// Definitions: [`abstract_code`](crate::definitions::base::types::abstract_code). [How to read clauses](crate::definitions).
impl Encode for AbstractHeapType {
    #[inline]
    fn encode<A: Sink>(&self, sink: &mut A) -> Result<()> {
        self.byte().encode(sink)
    }
}

/// Encodes an abstract type as its byte, after a prefix byte if it is shared. An index is encoded
/// as a signed number, and an exact type as a prefix byte and its index.
///
/// # Defined
///
/// ```text
/// encoding = { heap_encoding }
/// encodable = { λ _. ⊤ }
/// ```
///
/// Definitions: [`heap_encoding`](crate::definitions::base::types::heap_encoding). [How to read clauses](crate::definitions).
impl Encode for HeapType {
    #[inline]
    fn encode<A: Sink>(&self, sink: &mut A) -> Result<()> {
        match *self {
            HeapType::Abstract { shared: false, ty } => ty.encode(sink),
            HeapType::Abstract { shared: true, ty } => (0x65u8, ty).encode(sink),
            HeapType::Concrete(index) => i64::from(index).encode(sink),
            HeapType::Exact(index) => (0x62u8, index).encode(sink),
        }
    }
}

impl RefType {
    /// Appends the byte for the nullability, and the heap type. Out of line, since most reference
    /// types have a byte of their own.
    #[inline(never)]
    fn encode_heap_type<A: Sink>(self, sink: &mut A) -> Result<()> {
        let byte: u8 = if self.nullable { 0x63 } else { 0x64 };
        (byte, self.heap_type).encode(sink)
    }
}

/// Encodes `FUNCREF` and `EXTERNREF` as one byte, and all others as a byte and the heap type.
///
/// # Defined
///
/// ```text
/// encoding = { ref_encoding }
/// encodable = { λ _. ⊤ }
/// ```
///
/// Definitions: [`ref_encoding`](crate::definitions::base::types::ref_encoding). [How to read clauses](crate::definitions).
impl Encode for RefType {
    #[inline(always)]
    fn encode<A: Sink>(&self, sink: &mut A) -> Result<()> {
        let byte: u8 = match (self.nullable, self.heap_type) {
            (
                true,
                HeapType::Abstract {
                    shared: false,
                    ty: AbstractHeapType::Func,
                },
            ) => 0x70,
            (
                true,
                HeapType::Abstract {
                    shared: false,
                    ty: AbstractHeapType::Extern,
                },
            ) => 0x6F,
            _ => return self.encode_heap_type(sink),
        };
        byte.encode(sink)
    }
}

impl RefType {
    /// Appends the minimal encoding by the standard.
    fn encode_tight<A: Sink>(self, sink: &mut A) -> Result<()> {
        match self {
            RefType {
                nullable: true,
                heap_type: HeapType::Abstract { shared: false, ty },
            } => ty.encode(sink),
            _ => self.encode_heap_type(sink),
        }
    }
}

/// In the standard's grammar, a nullable reference to an abstract type has one byte.
///
/// # Defined
///
/// ```text
/// encoding_in = { ref_encoding_in G.grammar }
/// ```
///
/// Definitions: [`ref_encoding_in`](crate::definitions::base::types::ref_encoding_in). [How to read clauses](crate::definitions).
impl<G: Grammar> EncodeIn<G> for RefType {
    fn encode_in<A: Sink>(&self, sink: &mut A) -> Result<()> {
        if G::is_standard() {
            self.encode_tight(sink)
        } else {
            self.encode(sink)
        }
    }

    fn minimal_in() {}
}

/// In the standard's grammar, a nullable reference to an abstract type has one byte.
///
/// # Defined
///
/// ```text
/// encoding_in = { val_encoding_in G.grammar }
/// ```
///
/// Definitions: [`val_encoding_in`](crate::definitions::base::types::val_encoding_in). [How to read clauses](crate::definitions).
impl<G: Grammar> EncodeIn<G> for ValType {
    #[inline]
    fn encode_in<A: Sink>(&self, sink: &mut A) -> Result<()> {
        match *self {
            ValType::Ref(ty) if G::is_standard() => ty.encode_tight(sink),
            _ => self.encode(sink),
        }
    }

    fn minimal_in() {}
}

/// Encodes a number or vector type as one byte, and a reference as its reference type.
///
/// # Defined
///
/// ```text
/// encoding = { val_encoding }
/// encodable = { λ _. ⊤ }
/// ```
///
/// Definitions: [`val_encoding`](crate::definitions::base::types::val_encoding). [How to read clauses](crate::definitions).
impl Encode for ValType {
    #[inline(always)]
    fn encode<A: Sink>(&self, sink: &mut A) -> Result<()> {
        let byte: u8 = match *self {
            ValType::I32 => 0x7F,
            ValType::I64 => 0x7E,
            ValType::F32 => 0x7D,
            ValType::F64 => 0x7C,
            ValType::V128 => 0x7B,
            ValType::Ref(ty) => return ty.encode(sink),
        };
        byte.encode(sink)
    }
}

/// Returns the abstract heap type that the byte encodes, or `None` if it encodes none.
fn abstract_of(byte: u8) -> Option<AbstractHeapType> {
    match byte {
        0x70 => Some(AbstractHeapType::Func),
        0x6F => Some(AbstractHeapType::Extern),
        0x6E => Some(AbstractHeapType::Any),
        0x6D => Some(AbstractHeapType::Eq),
        0x6C => Some(AbstractHeapType::I31),
        0x6B => Some(AbstractHeapType::Struct),
        0x6A => Some(AbstractHeapType::Array),
        0x69 => Some(AbstractHeapType::Exn),
        0x74 => Some(AbstractHeapType::NoExn),
        0x73 => Some(AbstractHeapType::NoFunc),
        0x72 => Some(AbstractHeapType::NoExtern),
        0x71 => Some(AbstractHeapType::None),
        0x68 => Some(AbstractHeapType::Cont),
        0x75 => Some(AbstractHeapType::NoCont),
        _ => None,
    }
}

/// # Defined
///
/// ```text
/// Value = { Abstract }
/// format = { abstract_type }
/// view = { λ ty. ty }
/// ```
///
/// Definitions: [`abstract_type`](crate::definitions::base::types::abstract_type). [How to read clauses](crate::definitions).
impl Layout for AbstractHeapType {
    fn laws() {}
}

/// # Defined
///
/// ```text
/// may_allocate = { ⊥ }
/// ```
///
/// [How to read clauses](crate::definitions).
impl<'a, A: Allocator + Copy, G: Grammar> Readable<'a, A, G> for AbstractHeapType {
    fn read(bytes: &'a [u8], alloc: A) -> Result<(AbstractHeapType, &'a [u8]), DecodeError> {
        let (byte, rest) = <u8 as Readable<'a, A, G>>::read(bytes, alloc)?;
        match abstract_of(byte) {
            Some(ty) => Ok((ty, rest)),
            None => Err(ReadFault::UnknownTag.at(bytes)),
        }
    }
}

/// # Defined
///
/// ```text
/// Value = { Heap }
/// format = { heap_type }
/// view = { λ heap. heap }
/// ```
///
/// Definitions: [`heap_type`](crate::definitions::base::types::heap_type). [How to read clauses](crate::definitions).
impl Layout for HeapType {
    fn laws() {}
}

/// # Defined
///
/// ```text
/// may_allocate = { ⊥ }
/// ```
///
/// [How to read clauses](crate::definitions).
impl<'a, A: Allocator + Copy, G: Grammar> Readable<'a, A, G> for HeapType {
    fn read(bytes: &'a [u8], alloc: A) -> Result<(HeapType, &'a [u8]), DecodeError> {
        let (tag, rest) = <u8 as Readable<'a, A, G>>::read(bytes, alloc)?;
        match tag {
            0x62 => {
                let (index, rest) = <u32 as Readable<'a, A, G>>::read(rest, alloc)?;
                Ok((HeapType::Exact(index), rest))
            }
            0x65 => {
                let (ty, rest) = <AbstractHeapType as Readable<'a, A, G>>::read(rest, alloc)?;
                Ok((HeapType::Abstract { shared: true, ty }, rest))
            }
            _ => match abstract_of(tag) {
                Some(ty) => Ok((HeapType::Abstract { shared: false, ty }, rest)),
                None => {
                    let (index, rest) = read_index::<G>(bytes)?;
                    Ok((HeapType::Concrete(index), rest))
                }
            },
        }
    }
}

/// Returns `true` if the nullable reference to the heap type has a one-byte encoding by builders.
fn has_own_byte(heap: HeapType) -> bool {
    match heap {
        HeapType::Abstract {
            shared: false,
            ty: AbstractHeapType::Func | AbstractHeapType::Extern,
        } => true,
        _ => false,
    }
}

/// Returns `true` if the byte 0x63 may precede the heap type of a nullable reference type.
fn has_long_form<G: Grammar>(heap: HeapType) -> bool {
    if G::is_standard() {
        return true;
    }
    !has_own_byte(heap)
}

/// Returns the nullable reference type that the byte alone encodes in the standard's grammar.
/// Returns `None` for any other byte, and in the builders' grammar.
fn short_ref<G: Grammar>(byte: u8) -> Option<RefType> {
    if !G::is_standard() {
        return None;
    }
    match abstract_of(byte) {
        Some(ty) => Some(RefType {
            nullable: true,
            heap_type: HeapType::Abstract { shared: false, ty },
        }),
        None => None,
    }
}

/// Decodes a reference type after its first byte, `tag`.
fn read_ref_after<'a, A: Allocator + Copy, G: Grammar>(
    tag: u8,
    bytes: &'a [u8],
    alloc: A,
) -> Result<(RefType, &'a [u8]), DecodeError> {
    match tag {
        0x70 => Ok((RefType::FUNCREF, bytes)),
        0x6F => Ok((RefType::EXTERNREF, bytes)),
        0x64 => {
            let (heap_type, rest) = <HeapType as Readable<'a, A, G>>::read(bytes, alloc)?;
            Ok((
                RefType {
                    nullable: false,
                    heap_type,
                },
                rest,
            ))
        }
        0x63 => {
            let (heap_type, rest) = <HeapType as Readable<'a, A, G>>::read(bytes, alloc)?;
            if has_long_form::<G>(heap_type) {
                Ok((
                    RefType {
                        nullable: true,
                        heap_type,
                    },
                    rest,
                ))
            } else {
                Err(ReadFault::UnknownTag.just_before(rest))
            }
        }
        _ => match short_ref::<G>(tag) {
            Some(ty) => Ok((ty, bytes)),
            None => Err(ReadFault::UnknownTag.just_before(bytes)),
        },
    }
}

/// # Defined
///
/// ```text
/// Value = { Ref }
/// format = { ref_type }
/// view = { λ r. r }
/// ```
///
/// Definitions: [`ref_type`](crate::definitions::base::types::ref_type). [How to read clauses](crate::definitions).
impl Layout for RefType {
    fn laws() {}
}

/// # Defined
///
/// ```text
/// may_allocate = { ⊥ }
/// ```
///
/// [How to read clauses](crate::definitions).
impl<'a, A: Allocator + Copy, G: Grammar> Readable<'a, A, G> for RefType {
    fn read(bytes: &'a [u8], alloc: A) -> Result<(RefType, &'a [u8]), DecodeError> {
        let (tag, rest) = <u8 as Readable<'a, A, G>>::read(bytes, alloc)?;
        read_ref_after::<A, G>(tag, rest, alloc)
    }
}

impl<G: Grammar> Walk<G> for RefType {
    #[inline]
    fn walk<'a, A: Allocator + Copy, E: Effect>(
        bytes: &'a [u8],
        alloc: A,
        effect: &mut E,
    ) -> Result<&'a [u8], DecodeError> {
        walk_in::<RefType, A, G, _>(bytes, alloc, effect)
    }
}

/// Decodes a value type after its first byte, `tag`.
///
/// # Errors
///
/// An error means that no value type is at the front of `tag` and the bytes.
///
/// # Proved
///
/// After `Ok`: `found`, the bytes begin with an encoding of the value, and the returned bytes follow it. After an error: `none`, the bytes do not begin with such an encoding, unless the cause is `Memory`.
///
/// ```text
/// ensures found { IfOk result
///     (λ x. Decodes (after_byte val_type tag) (padded_of G.grammar) bytes.now x.0 x.1.now)
///     }
/// ensures none { IfErr result
///     (λ e. e.cause ≢ Memory → Rejects (after_byte val_type tag)
///         (padded_of G.grammar) bytes.now) }
/// ensures no_memory { IfErr result (λ e. e.cause ≢ Memory) }
/// ```
///
/// Definitions: [`Decodes`](crate::definitions::base::decoding::Decodes), [`after_byte`](crate::definitions::base::formats::after_byte), [`val_type`](crate::definitions::base::types::val_type), [`padded_of`](crate::definitions::base::numbers::padded_of), [`Rejects`](crate::definitions::base::decoding::Rejects). [How to read clauses](crate::definitions).
pub fn read_val_after<'a, A: Allocator + Copy, G: Grammar>(
    tag: u8,
    bytes: &'a [u8],
    alloc: A,
) -> Result<(ValType, &'a [u8]), DecodeError> {
    match tag {
        0x7F => Ok((ValType::I32, bytes)),
        0x7E => Ok((ValType::I64, bytes)),
        0x7D => Ok((ValType::F32, bytes)),
        0x7C => Ok((ValType::F64, bytes)),
        0x7B => Ok((ValType::V128, bytes)),
        _ => {
            let (ty, rest) = read_ref_after::<A, G>(tag, bytes, alloc)?;
            Ok((ValType::Ref(ty), rest))
        }
    }
}

/// # Defined
///
/// ```text
/// Value = { Val }
/// format = { val_type }
/// view = { λ ty. ty }
/// ```
///
/// Definitions: [`val_type`](crate::definitions::base::types::val_type). [How to read clauses](crate::definitions).
impl Layout for ValType {
    fn laws() {}
}

/// # Defined
///
/// ```text
/// may_allocate = { ⊥ }
/// ```
///
/// [How to read clauses](crate::definitions).
impl<'a, A: Allocator + Copy, G: Grammar> Readable<'a, A, G> for ValType {
    fn read(bytes: &'a [u8], alloc: A) -> Result<(ValType, &'a [u8]), DecodeError> {
        let (tag, rest) = <u8 as Readable<'a, A, G>>::read(bytes, alloc)?;
        read_val_after::<A, G>(tag, rest, alloc)
    }
}

/// # Defined
///
/// ```text
/// grammars = { builders_alone }
/// ```
///
/// Definitions: [`builders_alone`](crate::definitions::base::minimal::Grammars). [How to read clauses](crate::definitions).
impl Shorten for ValType {
    fn write_minimal<B: Sink>(&self, sink: &mut B) -> Result<()> {
        self.encode(sink)
    }
}

impl<G: Grammar> Walk<G> for ValType {
    #[inline]
    fn walk<'a, A: Allocator + Copy, E: Effect>(
        bytes: &'a [u8],
        alloc: A,
        effect: &mut E,
    ) -> Result<&'a [u8], DecodeError> {
        walk_in::<ValType, A, G, _>(bytes, alloc, effect)
    }
}
