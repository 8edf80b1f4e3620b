// Written by tools/to-rust from crates/wasm_types/src/types.rt: change that.
// The types that a module can define: functions, structures, arrays and continuations.

use crate::vec::{Sink, Vec};
use crate::alloc::{Allocator, Global};
use core::slice;
use crate::base::{Encode, Lent, Result, ValType};

/// A storage type, which [`CoreTypeEncoder::array`](crate::CoreTypeEncoder::array) and
/// [`FieldType`](crate::FieldType) take.
///
/// Core specification, Types, Composite Types.
///
/// A [`ValType`](crate::ValType) converts to it.
///
/// # Examples
///
/// ```
/// use dolzhytik::{Encode, StorageType, ValType};
///
/// let mut bytes = Vec::new();
/// StorageType::I8.encode(&mut bytes);
/// StorageType::from(ValType::I32).encode(&mut bytes);
/// // i8: 78. i32: 7F.
/// assert_eq!(bytes, [0x78, 0x7F]);
/// ```
#[derive(Clone, Copy, PartialEq, Eq, Hash, Debug)]
pub enum StorageType {
    /// A packed integer of 8 bits: 78.
    I8,
    /// A packed integer of 16 bits: 77.
    I16,
    /// A value type.
    Val(ValType),
}

/// A field of a structure, which [`CoreTypeEncoder::struct_`](crate::CoreTypeEncoder::struct_)
/// takes.
///
/// Core specification, Types, Composite Types.
///
/// # Examples
///
/// ```
/// use dolzhytik::{Encode, FieldType, StorageType};
///
/// let mut bytes = Vec::new();
/// FieldType { element_type: StorageType::I16, mutable: false }.encode(&mut bytes);
/// // i16: 77. Immutable: 00.
/// assert_eq!(bytes, [0x77, 0x00]);
/// ```
#[derive(Clone, Copy, PartialEq, Eq, Hash, Debug)]
pub struct FieldType {
    /// The type of the content.
    pub element_type: StorageType,
    /// Whether the field can be set.
    pub mutable: bool,
}

/// An array type: a case of [`CompositeInnerType`](crate::CompositeInnerType). To add one
/// without a value, see [`CoreTypeEncoder::array`](crate::CoreTypeEncoder::array).
///
/// Core specification, Types, Composite Types.
///
/// # Examples
///
/// ```
/// use dolzhytik::{ArrayType, Encode, FieldType, StorageType};
///
/// let mut bytes = Vec::new();
/// ArrayType(FieldType { element_type: StorageType::I8, mutable: true }).encode(&mut bytes);
/// // An array: 5E. i8: 78. Mutable: 01.
/// assert_eq!(bytes, [0x5E, 0x78, 0x01]);
/// ```
#[derive(Clone, Copy, PartialEq, Eq, Hash, Debug)]
pub struct ArrayType(pub FieldType);

/// A continuation type, which [`CoreTypeEncoder::cont`](crate::CoreTypeEncoder::cont) takes.
///
/// The stack switching proposal defines it.
///
/// # Examples
///
/// ```
/// use dolzhytik::{ContType, Encode};
///
/// let mut bytes = Vec::new();
/// ContType(64).encode(&mut bytes);
/// // A continuation: 5D. The index is signed LEB128: 64 is C0 00.
/// assert_eq!(bytes, [0x5D, 0xC0, 0x00]);
/// ```
#[derive(Clone, Copy, PartialEq, Eq, Hash, Debug)]
pub struct ContType(pub u32);

/// The type of a function.
///
/// [`CoreTypeEncoder::func_type`](crate::fallible::CoreTypeEncoder::func_type) takes it.
///
/// # Examples
///
/// ```
/// use dolzhytik::fallible::{FuncType, Global, TypeSection, ValType};
///
/// let ty = FuncType::new(Global, [ValType::I32, ValType::I64], [ValType::F32])?;
/// assert_eq!((ty.params().len(), ty.results()), (2, &[ValType::F32][..]));
///
/// let mut types = TypeSection::new(Global);
/// types.ty().func_type(&ty)?;
/// // A function: 60. Parameters i32 (7F) and i64 (7E), the result f32 (7D).
/// assert_eq!(types.piece(0), Some(&[0x60, 2, 0x7F, 0x7E, 1, 0x7D][..]));
/// # Ok::<(), dolzhytik::fallible::Refused>(())
/// ```
#[derive(Debug)]
pub struct FuncType<A: Allocator = Global> {
    params: Vec<ValType, A>,
    results: Vec<ValType, A>,
}

/// The type of a structure.
///
/// It is a case of [`CompositeInnerType`](crate::fallible::CompositeInnerType).
///
/// # Examples
///
/// ```
/// use dolzhytik::fallible::{
///     Encode, FieldType, Global, StorageType, StructType, Vec,
/// };
///
/// let field = FieldType { element_type: StorageType::I16, mutable: false };
/// let ty = StructType { fields: Vec::from_slice(Global, &[field])? };
/// let mut bytes = vec![];
/// ty.encode(&mut bytes)?;
/// // A structure: 5F. One field, i16 (77), immutable (00).
/// assert_eq!(bytes, [0x5F, 1, 0x77, 0x00]);
/// # Ok::<(), dolzhytik::fallible::Refused>(())
/// ```
#[derive(Debug)]
pub struct StructType<A: Allocator = Global> {
    /// The fields.
    pub fields: Vec<FieldType, A>,
}

/// A composite type without its sharing and descriptor prefixes.
///
/// It is a field of [`CompositeType`](crate::fallible::CompositeType).
///
/// # Examples
///
/// ```
/// use dolzhytik::fallible::{
///     ArrayType, CompositeInnerType, Encode, FieldType, StorageType,
/// };
///
/// let field = FieldType { element_type: StorageType::I8, mutable: true };
/// let ty: CompositeInnerType = CompositeInnerType::Array(ArrayType(field));
/// let mut bytes = vec![];
/// ty.encode(&mut bytes)?;
/// // An array: 5E. i8 (78), mutable (01).
/// assert_eq!(bytes, [0x5E, 0x78, 0x01]);
/// # Ok::<(), dolzhytik::fallible::Refused>(())
/// ```
#[derive(Debug)]
pub enum CompositeInnerType<A: Allocator = Global> {
    /// A function type.
    Func(FuncType<A>),
    /// An array type.
    Array(ArrayType),
    /// A structure type.
    Struct(StructType<A>),
    /// A continuation type.
    Cont(ContType),
}

/// A composite type, with its prefixes.
///
/// It is a field of [`SubType`](crate::fallible::SubType).
///
/// # Examples
///
/// ```
/// use dolzhytik::fallible::{
///     CompositeInnerType, CompositeType, Encode, FuncType, Global,
/// };
///
/// let inner = CompositeInnerType::Func(FuncType::new(Global, [], [])?);
/// let ty = CompositeType { inner, shared: false, descriptor: None, describes: None };
/// let mut bytes = vec![];
/// ty.encode(&mut bytes)?;
/// // A function without parameters and results.
/// assert_eq!(bytes, [0x60, 0, 0]);
/// # Ok::<(), dolzhytik::fallible::Refused>(())
/// ```
#[derive(Debug)]
pub struct CompositeType<A: Allocator = Global> {
    /// The function, array, structure or continuation type.
    pub inner: CompositeInnerType<A>,
    /// Whether threads share its values.
    pub shared: bool,
    /// The index of the type that describes it.
    pub descriptor: Option<u32>,
    /// The index of the type that it describes.
    pub describes: Option<u32>,
}

/// A subtype: a composite type, an optional supertype, and whether it is final, so that it can have
/// no subtypes.
///
/// [`CoreTypeEncoder::subtype`](crate::fallible::CoreTypeEncoder::subtype) and
/// [`rec`](crate::fallible::CoreTypeEncoder::rec) take it.
///
/// # Examples
///
/// ```
/// use dolzhytik::fallible::{
///     CompositeInnerType, CompositeType, FuncType, Global, SubType, TypeSection,
/// };
///
/// let inner = CompositeInnerType::Func(FuncType::new(Global, [], [])?);
/// let composite_type =
///     CompositeType { inner, shared: false, descriptor: None, describes: None };
/// let ty = SubType { is_final: false, supertype_idx: Some(5), composite_type };
/// let mut types = TypeSection::new(Global);
/// types.ty().subtype(&ty)?;
/// // Not final: 50. One supertype, 5. A function without parameters and results.
/// assert_eq!(types.piece(0), Some(&[0x50, 1, 5, 0x60, 0, 0][..]));
/// # Ok::<(), dolzhytik::fallible::Refused>(())
/// ```
#[derive(Debug)]
pub struct SubType<A: Allocator = Global> {
    /// Whether the type has no subtypes.
    pub is_final: bool,
    /// The index of its supertype.
    pub supertype_idx: Option<u32>,
    /// The type itself.
    pub composite_type: CompositeType<A>,
}

impl<A: Allocator + Copy> FuncType<A> {
    /// Returns a function type of the parameters and results that these iterators yield.
    ///
    /// # Errors
    ///
    /// Returns [`Memory`](crate::base::Refused::Memory) if an allocation fails.
    ///
    /// # Asks
    ///
    /// The iterator ends. [What happens otherwise](crate::fallible#what-is-asked).
    ///
    /// ```text
    /// requires params { (it : P.IntoIter) → P.into_iter_gives params it
    ///     → P.IntoIter.can_next it × IsFinite (P.IntoIter.remaining it) }
    /// requires results { (it : Q.IntoIter) → Q.into_iter_gives results it
    ///     → Q.IntoIter.can_next it × IsFinite (Q.IntoIter.remaining it) }
    /// ```
    ///
    /// [How to read clauses](crate::definitions).
    ///
    /// # Proved
    ///
    /// After `Ok`: `params`, they are the types that the iterator yields; `results`, they are the types that the iterator yields. In any case: `memory`, no error is `TooLong`.
    ///
    /// ```text
    /// ensures params { IfOk result
    ///     (λ f. (it : P.IntoIter) × P.into_iter_gives params it
    ///         × Drains P.IntoIter.next_gives it f.params.items) }
    /// ensures results { IfOk result
    ///     (λ f. (it : Q.IntoIter) × Q.into_iter_gives results it
    ///         × Drains Q.IntoIter.next_gives it f.results.items) }
    /// ensures memory { result ≢ Err TooLong }
    /// ```
    ///
    /// [How to read clauses](crate::definitions).
    pub fn new<P: IntoIterator<Item = ValType>, Q: IntoIterator<Item = ValType>>(
        alloc: A,
        params: P,
        results: Q,
    ) -> Result<Self>
    where
    {
        let params = collected(alloc, params)?;
        let results = collected(alloc, results)?;
        Ok(FuncType { params, results })
    }
}

/// Returns the types that an iterator yields.
fn collected<A: Allocator, P: IntoIterator<Item = ValType>>(
    alloc: A,
    types: P,
) -> Result<Vec<ValType, A>> {
    let mut collected = Vec::new(alloc);
    for ty in types {
        collected.push(ty)?;
    }
    Ok(collected)
}

impl<A: Allocator> FuncType<A> {
    /// Returns a function type of these parameters and results.
    ///
    /// # Proved
    ///
    /// ```text
    /// ensures params { result.params.items ≡ params.items }
    /// ensures results { result.results.items ≡ results.items }
    /// ```
    ///
    /// [How to read clauses](crate::definitions).
    pub fn of(params: Vec<ValType, A>, results: Vec<ValType, A>) -> Self {
        FuncType { params, results }
    }

    /// Returns the types of the parameters.
    ///
    /// # Proved
    ///
    /// ```text
    /// ensures { result.now ≡ self.now.params.items }
    /// ```
    ///
    /// [How to read clauses](crate::definitions).
    pub fn params(&self) -> &[ValType] {
        self.params.as_slice()
    }

    /// Returns the types of the results.
    ///
    /// # Proved
    ///
    /// ```text
    /// ensures { result.now ≡ self.now.results.items }
    /// ```
    ///
    /// [How to read clauses](crate::definitions).
    pub fn results(&self) -> &[ValType] {
        self.results.as_slice()
    }
}

/// Returns a copy of the items in newly allocated memory.
fn copied<T: Copy, A: Allocator + Copy>(items: &Vec<T, A>) -> Result<Vec<T, A>> {
    Ok(Vec::from_slice(*items.allocator(), items.as_slice())?)
}

impl<A: Allocator + Copy> FuncType<A> {
    /// Returns a copy of the type in newly allocated memory.
    ///
    /// # Errors
    ///
    /// Returns [`Memory`](crate::base::Refused::Memory) if an allocation fails.
    ///
    /// # Proved
    ///
    /// After `Ok`: `same`, the result has the same content. In any case: `memory`, no error is `TooLong`.
    ///
    /// ```text
    /// ensures same { IfOk result (λ f. func_in f ≡ func_in self.now) }
    /// ensures memory { result ≢ Err TooLong }
    /// ```
    ///
    /// Definitions: [`func_in`](crate::definitions::types::given::func_in). [How to read clauses](crate::definitions).
    pub fn clone(&self) -> Result<Self> {
        Ok(FuncType {
            params: copied(&self.params)?,
            results: copied(&self.results)?,
        })
    }
}

impl<A: Allocator + Copy> StructType<A> {
    /// Returns a copy of the type in newly allocated memory.
    ///
    /// # Errors
    ///
    /// Returns [`Memory`](crate::base::Refused::Memory) if an allocation fails.
    ///
    /// # Proved
    ///
    /// After `Ok`: `same`, the result has the same fields. In any case: `memory`, no error is `TooLong`.
    ///
    /// ```text
    /// ensures same { IfOk result (λ s. s.fields.items ≡ self.now.fields.items) }
    /// ensures memory { result ≢ Err TooLong }
    /// ```
    ///
    /// [How to read clauses](crate::definitions).
    pub fn clone(&self) -> Result<Self> {
        Ok(StructType {
            fields: copied(&self.fields)?,
        })
    }
}

impl<A: Allocator + Copy> CompositeInnerType<A> {
    /// Returns a copy of the type in newly allocated memory.
    ///
    /// # Errors
    ///
    /// Returns [`Memory`](crate::base::Refused::Memory) if an allocation fails.
    ///
    /// # Proved
    ///
    /// After `Ok`: `same`, the result has the same content. In any case: `memory`, no error is `TooLong`.
    ///
    /// ```text
    /// ensures same { IfOk result (λ inner. shape_in inner ≡ shape_in self.now) }
    /// ensures memory { result ≢ Err TooLong }
    /// ```
    ///
    /// Definitions: [`shape_in`](crate::definitions::types::given::shape_in). [How to read clauses](crate::definitions).
    pub fn clone(&self) -> Result<Self> {
        Ok(match self {
            CompositeInnerType::Func(func) => CompositeInnerType::Func(func.clone()?),
            CompositeInnerType::Array(array) => CompositeInnerType::Array(*array),
            CompositeInnerType::Struct(fields) => CompositeInnerType::Struct(fields.clone()?),
            CompositeInnerType::Cont(cont) => CompositeInnerType::Cont(*cont),
        })
    }
}

impl<A: Allocator + Copy> CompositeType<A> {
    /// Returns a copy of the type in newly allocated memory.
    ///
    /// # Errors
    ///
    /// Returns [`Memory`](crate::base::Refused::Memory) if an allocation fails.
    ///
    /// # Proved
    ///
    /// After `Ok`: `same`, the result has the same content. In any case: `memory`, no error is `TooLong`.
    ///
    /// ```text
    /// ensures same { IfOk result (λ c. composite_in c ≡ composite_in self.now) }
    /// ensures memory { result ≢ Err TooLong }
    /// ```
    ///
    /// Definitions: [`composite_in`](crate::definitions::types::given::composite_in). [How to read clauses](crate::definitions).
    pub fn clone(&self) -> Result<Self> {
        Ok(CompositeType {
            inner: self.inner.clone()?,
            shared: self.shared,
            descriptor: self.descriptor,
            describes: self.describes,
        })
    }
}

impl<A: Allocator + Copy> SubType<A> {
    /// Returns a copy of the type in newly allocated memory.
    ///
    /// # Errors
    ///
    /// Returns [`Memory`](crate::base::Refused::Memory) if an allocation fails.
    ///
    /// # Proved
    ///
    /// After `Ok`: `same`, the result has the same content. In any case: `memory`, no error is `TooLong`.
    ///
    /// ```text
    /// ensures same { IfOk result (λ s. sub_in s ≡ sub_in self.now) }
    /// ensures memory { result ≢ Err TooLong }
    /// ```
    ///
    /// Definitions: [`sub_in`](crate::definitions::types::given::sub_in). [How to read clauses](crate::definitions).
    pub fn clone(&self) -> Result<Self> {
        Ok(SubType {
            is_final: self.is_final,
            supertype_idx: self.supertype_idx,
            composite_type: self.composite_type.clone()?,
        })
    }
}

/// Encodes a packed type as its byte, and a value type as such.
///
/// # Defined
///
/// ```text
/// encoding = { storage_encoding }
/// encodable = { λ _. ⊤ }
/// ```
///
/// Definitions: [`storage_encoding`](crate::definitions::types::rec_types::storage_encoding). [How to read clauses](crate::definitions).
impl Encode for StorageType {
    fn encode<A: Sink>(&self, sink: &mut A) -> Result<()> {
        match *self {
            StorageType::I8 => 0x78u8.encode(sink),
            StorageType::I16 => 0x77u8.encode(sink),
            StorageType::Val(ty) => ty.encode(sink),
        }
    }
}

/// Returns the byte that encodes the mutability of a field.
#[inline]
pub(crate) fn mutability(mutable: bool) -> u8 {
    if mutable { 0x01 } else { 0x00 }
}

/// Encodes the storage type, and the mutability of the field.
///
/// # Defined
///
/// ```text
/// encoding = { field_encoding }
/// encodable = { λ _. ⊤ }
/// ```
///
/// Definitions: [`field_encoding`](crate::definitions::types::rec_types::field_encoding). [How to read clauses](crate::definitions).
impl Encode for FieldType {
    fn encode<A: Sink>(&self, sink: &mut A) -> Result<()> {
        (self.element_type, mutability(self.mutable)).encode(sink)
    }
}

// The first bytes of composite types.
pub(crate) const CONT: u8 = 0x5D;

pub(crate) const ARRAY: u8 = 0x5E;

pub(crate) const STRUCT: u8 = 0x5F;

pub(crate) const FUNC: u8 = 0x60;

/// Encodes a byte, and the element type.
///
/// # Defined
///
/// ```text
/// encoding = { λ a. 0x5E ∷ field_encoding a.0 }
/// encodable = { λ _. ⊤ }
/// ```
///
/// Definitions: [`field_encoding`](crate::definitions::types::rec_types::field_encoding). [How to read clauses](crate::definitions).
impl Encode for ArrayType {
    fn encode<A: Sink>(&self, sink: &mut A) -> Result<()> {
        (ARRAY, self.0).encode(sink)
    }
}

/// Encodes a byte, and the index as a signed number.
///
/// # Defined
///
/// ```text
/// encoding = { λ c. 0x5D ∷ signed_encoding (pos c.0) }
/// encodable = { λ _. ⊤ }
/// ```
///
/// Definitions: [`signed_encoding`](crate::definitions::base::numbers::signed_encoding). [How to read clauses](crate::definitions).
impl Encode for ContType {
    fn encode<A: Sink>(&self, sink: &mut A) -> Result<()> {
        (CONT, i64::from(self.0)).encode(sink)
    }
}

/// Encodes a byte, the vector of the parameters and the vector of the results.
///
/// # Defined
///
/// ```text
/// encoding = { λ f. func_encoding f.params.items f.results.items }
/// encodable = { λ f. IsEncodableVec (λ _. ⊤) f.params.items
///     × IsEncodableVec (λ _. ⊤) f.results.items }
/// ```
///
/// Definitions: [`func_encoding`](crate::definitions::types::rec_types::func_encoding), [`IsEncodableVec`](crate::definitions::base::encodings::IsEncodableVec). [How to read clauses](crate::definitions).
impl<A: Allocator> Encode for FuncType<A> {
    fn encode<B: Sink>(&self, sink: &mut B) -> Result<()> {
        (FUNC, self.params.as_slice(), self.results.as_slice()).encode(sink)
    }
}

/// Encodes a byte, and the vector of the fields.
///
/// # Defined
///
/// ```text
/// encoding = { λ s. 0x5F ∷ vec_encoding field_encoding s.fields.items }
/// encodable = { λ s. IsEncodableVec (λ _. ⊤) s.fields.items }
/// ```
///
/// Definitions: [`vec_encoding`](crate::definitions::base::encodings::vec_encoding), [`field_encoding`](crate::definitions::types::rec_types::field_encoding), [`IsEncodableVec`](crate::definitions::base::encodings::IsEncodableVec). [How to read clauses](crate::definitions).
impl<A: Allocator> Encode for StructType<A> {
    fn encode<B: Sink>(&self, sink: &mut B) -> Result<()> {
        (STRUCT, self.fields.as_slice()).encode(sink)
    }
}

/// Encodes a byte that selects the case, and its fields.
///
/// # Defined
///
/// ```text
/// encoding = { λ c. shape_encoding (shape_in c) }
/// encodable = { λ c. IsEncodableShape (shape_in c) }
/// ```
///
/// Definitions: [`shape_encoding`](crate::definitions::types::rec_types::shape_encoding), [`shape_in`](crate::definitions::types::given::shape_in), [`IsEncodableShape`](crate::definitions::types::given::IsEncodableShape). [How to read clauses](crate::definitions).
impl<A: Allocator> Encode for CompositeInnerType<A> {
    fn encode<B: Sink>(&self, sink: &mut B) -> Result<()> {
        match self {
            CompositeInnerType::Func(func) => func.encode(sink),
            CompositeInnerType::Array(array) => array.encode(sink),
            CompositeInnerType::Struct(fields) => fields.encode(sink),
            CompositeInnerType::Cont(cont) => cont.encode(sink),
        }
    }
}

/// The byte of a shared type, or nothing for others.
#[derive(Clone, Copy)]
struct Shared(bool);

/// # Defined
///
/// ```text
/// encoding = { λ s. shared_encoding s.0 }
/// encodable = { λ _. ⊤ }
/// ```
///
/// Definitions: [`shared_encoding`](crate::definitions::types::rec_types::shared_encoding). [How to read clauses](crate::definitions).
impl Encode for Shared {
    fn encode<A: Sink>(&self, sink: &mut A) -> Result<()> {
        if self.0 { 0x65u8.encode(sink) } else { Ok(()) }
    }
}

/// A byte and an index, or nothing if there is no index.
#[derive(Clone, Copy)]
struct Marked {
    byte: u8,
    index: Option<u32>,
}

/// # Defined
///
/// ```text
/// encoding = { λ m. index_encoding m.byte m.index }
/// encodable = { λ _. ⊤ }
/// ```
///
/// Definitions: [`index_encoding`](crate::definitions::types::rec_types::index_encoding). [How to read clauses](crate::definitions).
impl Encode for Marked {
    fn encode<A: Sink>(&self, sink: &mut A) -> Result<()> {
        match self.index {
            Some(index) => (self.byte, index).encode(sink),
            None => Ok(()),
        }
    }
}

/// Encodes the prefixes, and the inner type.
///
/// # Defined
///
/// ```text
/// encoding = { λ c. composite_encoding (composite_in c) }
/// encodable = { λ c. IsEncodableShape (shape_in c.inner) }
/// ```
///
/// Definitions: [`composite_encoding`](crate::definitions::types::rec_types::composite_encoding), [`composite_in`](crate::definitions::types::given::composite_in), [`IsEncodableShape`](crate::definitions::types::given::IsEncodableShape), [`shape_in`](crate::definitions::types::given::shape_in). [How to read clauses](crate::definitions).
impl<A: Allocator> Encode for CompositeType<A> {
    fn encode<B: Sink>(&self, sink: &mut B) -> Result<()> {
        let describes = Marked {
            byte: 0x4C,
            index: self.describes,
        };
        let descriptor = Marked {
            byte: 0x4D,
            index: self.descriptor,
        };
        (
            Shared(self.shared),
            describes,
            (descriptor, Lent(&self.inner)),
        )
            .encode(sink)
    }
}

/// The prefix of a subtype before its composite type.
#[derive(Clone, Copy)]
struct Before {
    is_final: bool,
    supertype_idx: Option<u32>,
}

/// Encodes nothing for a final type without a supertype, and otherwise a byte and the vector of its
/// supertypes.
///
/// # Defined
///
/// ```text
/// encoding = { λ b. before_encoding b.is_final (listed b.supertype_idx) }
/// encodable = { λ _. ⊤ }
/// ```
///
/// Definitions: [`before_encoding`](crate::definitions::types::rec_types::before_encoding), [`listed`](crate::definitions::types::given::listed). [How to read clauses](crate::definitions).
impl Encode for Before {
    fn encode<A: Sink>(&self, sink: &mut A) -> Result<()> {
        let byte: u8 = if self.is_final { 0x4F } else { 0x50 };
        match &self.supertype_idx {
            Some(index) => (byte, slice::from_ref(index)).encode(sink),
            None if self.is_final => Ok(()),
            None => {
                let none: &[u32] = &[];
                (byte, none).encode(sink)
            }
        }
    }
}

/// Encodes the subtype's prefix, unless it is final without a supertype, and the composite type.
///
/// # Defined
///
/// ```text
/// encoding = { λ s. sub_encoding (sub_in s) }
/// encodable = { λ s. IsEncodableShape (shape_in s.composite_type.inner) }
/// ```
///
/// Definitions: [`sub_encoding`](crate::definitions::types::rec_types::sub_encoding), [`sub_in`](crate::definitions::types::given::sub_in), [`IsEncodableShape`](crate::definitions::types::given::IsEncodableShape), [`shape_in`](crate::definitions::types::given::shape_in). [How to read clauses](crate::definitions).
impl<A: Allocator> Encode for SubType<A> {
    fn encode<B: Sink>(&self, sink: &mut B) -> Result<()> {
        let before = Before {
            is_final: self.is_final,
            supertype_idx: self.supertype_idx,
        };
        (before, Lent(&self.composite_type)).encode(sink)
    }
}
