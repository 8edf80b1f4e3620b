// Written by tools/to-rust from crates/wasm_types/specs: change that.
//! The type section.
//!
//! The contracts of [`wasm_types`](https://github.com/dolzhytik/dolzhytik/blob/main/crates/wasm_types/README.md) name these definitions.

/// Calls that add types whose fields, parameters or results an iterator yields.
///
/// [How to read definitions](super). The file is [`Calls.antt`](https://github.com/dolzhytik/dolzhytik/blob/main/crates/wasm_types/specs/Calls.antt).
pub trait calls {
    /// The section gains one entry of the items that the iterator yields, or the call returns an error and changes nothing. If the iterator reports more than 2^32 - 1 items, the error is `TooLong`.
    ///
    /// ```text
    /// pub record AddsListed {M U S T : Type 0} (model : StoreModel M)
    ///     (becomes : U → S → Type 0) (gives : S → Option T → S → Type 0)
    ///     (remaining : S → Count) (Encodable : T → Type 0) (elements : U)
    ///     (encoding : List T → List ℕ)
    ///     (old new : M) (result : Result (Unit {0}) Refused) : Type 0 where
    ///   pub ok : OnOk result ((it : S) × (xs : List T) × becomes elements it
    ///       × Drains gives it xs × IsEncodableVec Encodable xs
    ///       × model.gains (encoding xs) old new)
    ///   pub err : OnErr result (new ≡ old)
    ///   pub counted : OnOk result ((model.joins old).number < longest)
    ///   pub too_long : ((it : S) → becomes elements it → size (remaining it) ≤ longest)
    ///       → ((it left : S) (xs : List T) → becomes elements it → Yields gives it xs left
    ///           → All Encodable xs)
    ///       → (model.joins old).number < longest
    ///       → result ≢ Err TooLong
    ///   pub too_many : ((it : S) → becomes elements it → longest < size (remaining it))
    ///       → result ≡ Err TooLong
    /// ```
    ///
    /// Definitions: [`StoreModel`](super::base::stores::StoreModel), [`IsEncodableVec`](super::base::encodings::IsEncodableVec), [`longest`](super::base::encodings::longest).
    type AddsListed;
    /// The section gains one entry of the items that both iterators yield, or the call returns an error and changes nothing. If either reports more than 2^32 - 1 items, the error is `TooLong`.
    ///
    /// ```text
    /// pub record AddsTwoListed {M U S V W T : Type 0} (model : StoreModel M)
    ///     (becomes : U → S → Type 0) (gives : S → Option T → S → Type 0)
    ///     (remaining : S → Count) (becomes₂ : V → W → Type 0)
    ///     (gives₂ : W → Option T → W → Type 0) (remaining₂ : W → Count)
    ///     (first : U) (second : V) (encoding : List T → List T → List ℕ) (old new : M)
    ///         (result : Result (Unit {0}) Refused) : Type 0 where
    ///   pub ok : OnOk result ((it : S) × (other : W) × (xs ys : List T) × becomes first it
    ///       × becomes₂ second other × Drains gives it xs × Drains gives₂ other ys
    ///       × IsEncodableVec (λ t. Unit {0}) xs × IsEncodableVec (λ t. Unit {0}) ys
    ///           × model.gains (encoding xs ys) old new)
    ///   pub err : OnErr result (new ≡ old)
    ///   pub counted : OnOk result ((model.joins old).number < longest)
    ///   pub too_long : ((it : S) → becomes first it → size (remaining it) ≤ longest)
    ///       → ((it : W) → becomes₂ second it → size (remaining₂ it) ≤ longest)
    ///       → (model.joins old).number < longest → result ≢ Err TooLong
    ///   pub too_many : ((it : S) → becomes first it → longest < size (remaining it))
    ///       → result ≡ Err TooLong
    ///   pub too_many_results : ((it : W) → becomes₂ second it
    ///       → longest < size (remaining₂ it)) → result ≡ Err TooLong
    /// ```
    ///
    /// Definitions: [`StoreModel`](super::base::stores::StoreModel), [`IsEncodableVec`](super::base::encodings::IsEncodableVec), [`longest`](super::base::encodings::longest).
    type AddsTwoListed;
}

/// The types that the arguments of calls encode.
///
/// [How to read definitions](super). The file is [`Given.antt`](https://github.com/dolzhytik/dolzhytik/blob/main/crates/wasm_types/specs/Given.antt).
pub trait given {
    /// An optional index as a list.
    ///
    /// ```text
    /// abbrev pub listed : Option ℕ → List ℕ
    /// listed None = []
    /// listed (Some index) = index ∷ []
    /// ```
    type listed;
    /// The shape of a function type.
    ///
    /// ```text
    /// abbrev pub func_in : {A : Type 0} → FuncType A → Shape
    /// func_in f = func f.params.items f.results.items
    /// ```
    ///
    /// Definitions: [`Shape`](rec_types::Shape), [`func`](rec_types::Shape).
    type func_in;
    /// The shape of a composite type.
    ///
    /// ```text
    /// abbrev pub shape_in : {A : Type 0} → CompositeInnerType A → Shape
    /// shape_in (inner.Func f) = func_in f
    /// shape_in (inner.Array a) = array a.0
    /// shape_in (inner.Struct s) = structure s.fields.items
    /// shape_in (inner.Cont c) = cont c.0
    /// ```
    ///
    /// Definitions: [`Shape`](rec_types::Shape), [`func_in`](given::func_in), [`array`](rec_types::Shape), [`structure`](rec_types::Shape), [`cont`](rec_types::Shape).
    type shape_in;
    /// The composite type that an argument encodes.
    ///
    /// ```text
    /// abbrev pub composite_in : {A : Type 0} → CompositeType A → Composite
    /// composite_in c = record { shared = c.shared; describes = c.describes;
    ///     descriptor = c.descriptor; shape = shape_in c.inner }
    /// ```
    ///
    /// Definitions: [`Composite`](rec_types::Composite), [`shape_in`](given::shape_in).
    type composite_in;
    /// The subtype that an argument encodes: it has at most one supertype.
    ///
    /// ```text
    /// abbrev pub sub_in : {A : Type 0} → SubType A → Sub
    /// sub_in s = record { is_final = s.is_final; supertypes = listed s.supertype_idx;
    ///     composite = composite_in s.composite_type }
    /// ```
    ///
    /// Definitions: [`Sub`](rec_types::Sub), [`listed`](given::listed), [`composite_in`](given::composite_in).
    type sub_in;
    /// The numbers of parameters, results and fields are at most 2^32 - 1.
    ///
    /// ```text
    /// abbrev pub IsEncodableShape : Shape → Type 0
    /// IsEncodableShape (func params results) = IsEncodableVec (λ t. Unit {0}) params
    ///     × IsEncodableVec (λ t. Unit {0}) results
    /// IsEncodableShape (array field) = Unit {0}
    /// IsEncodableShape (structure fields) = IsEncodableVec (λ f. Unit {0}) fields
    /// IsEncodableShape (cont index) = Unit {0}
    /// ```
    ///
    /// Definitions: [`Shape`](rec_types::Shape), [`func`](rec_types::Shape), [`IsEncodableVec`](super::base::encodings::IsEncodableVec), [`array`](rec_types::Shape), [`structure`](rec_types::Shape), [`cont`](rec_types::Shape).
    type IsEncodableShape;
    /// The encoding of a recursion group of subtypes.
    ///
    /// ```text
    /// abbrev pub group_encoding : {A : Type 0} → List (SubType A) → List ℕ
    /// group_encoding subs = 0x4E ∷ vec_encoding (λ s. sub_encoding (sub_in s)) subs
    /// ```
    ///
    /// Definitions: [`vec_encoding`](super::base::encodings::vec_encoding), [`sub_encoding`](rec_types::sub_encoding), [`sub_in`](given::sub_in).
    type group_encoding;
}

/// The views of decoded types, their values without locations in memory, and the encodings of decoded types.
///
/// [How to read definitions](super). The file is [`Items.antt`](https://github.com/dolzhytik/dolzhytik/blob/main/crates/wasm_types/specs/Items.antt).
pub trait items {
    /// The view of a shape, with the type that describes it.
    ///
    /// ```text
    /// abbrev pub described_view
    ///     : {A : Type 0} → Option ℕ × CompositeInnerType A → Option ℕ × Shape
    /// described_view p = (p.0, shape_in p.1)
    /// ```
    ///
    /// Definitions: [`Shape`](rec_types::Shape), [`shape_in`](given::shape_in).
    type described_view;
    /// The view of a shape, with the type that it describes and the type that describes it.
    ///
    /// ```text
    /// abbrev pub describing_view
    ///     : {A : Type 0} → Option ℕ × (Option ℕ × CompositeInnerType A)
    ///     → Option ℕ × (Option ℕ × Shape)
    /// describing_view p = (p.0, described_view p.1)
    /// ```
    ///
    /// Definitions: [`Shape`](rec_types::Shape), [`described_view`](items::described_view).
    type describing_view;
    /// The view of a subtype.
    ///
    /// ```text
    /// abbrev pub sub_view : {A : Type 0} → SubItem A → Sub
    /// sub_view s = record { is_final = s.is_final; supertypes = s.supertypes.items;
    ///     composite = composite_in s.composite_type }
    /// ```
    ///
    /// Definitions: [`Sub`](rec_types::Sub), [`composite_in`](given::composite_in).
    type sub_view;
    /// The view of an entry.
    ///
    /// ```text
    /// abbrev pub entry_view : {A : Type 0} → TypeEntry A → TypeItem
    /// entry_view (entries.Single s) = single (sub_view s)
    /// entry_view (entries.Group v) = group (map sub_view v.items)
    /// ```
    ///
    /// Definitions: [`TypeItem`](rec_types::TypeItem), [`single`](rec_types::TypeItem), [`sub_view`](items::sub_view), [`group`](rec_types::TypeItem).
    type entry_view;
    /// Every count in the encoding of the subtype is at most 2^32 - 1.
    ///
    /// ```text
    /// abbrev pub IsEncodableSubItem : {A : Type 0} → SubItem A → Type 0
    /// IsEncodableSubItem s = IsEncodableVec (λ i. Unit {0}) s.supertypes.items
    ///     × IsEncodableShape (shape_in s.composite_type.inner)
    /// ```
    ///
    /// Definitions: [`IsEncodableVec`](super::base::encodings::IsEncodableVec), [`IsEncodableShape`](given::IsEncodableShape), [`shape_in`](given::shape_in).
    type IsEncodableSubItem;
    /// The encoding of a decoded entry: a subtype, or 0x4E and the vector of its subtypes.
    ///
    /// ```text
    /// abbrev pub entry_encoding : {A : Type 0} → TypeEntry A → List ℕ
    /// entry_encoding (entries.Single s) = sub_encoding (sub_view s)
    /// entry_encoding (entries.Group v) = 0x4E
    ///     ∷ vec_encoding (λ s. sub_encoding (sub_view s)) v.items
    /// ```
    ///
    /// Definitions: [`sub_encoding`](rec_types::sub_encoding), [`sub_view`](items::sub_view), [`vec_encoding`](super::base::encodings::vec_encoding).
    type entry_encoding;
    /// Every count in the encoding of the entry is at most 2^32 - 1.
    ///
    /// ```text
    /// abbrev pub IsEncodableEntry : {A : Type 0} → TypeEntry A → Type 0
    /// IsEncodableEntry (entries.Single s) = IsEncodableSubItem s
    /// IsEncodableEntry (entries.Group v) = IsEncodableVec IsEncodableSubItem v.items
    /// ```
    ///
    /// Definitions: [`IsEncodableSubItem`](items::IsEncodableSubItem), [`IsEncodableVec`](super::base::encodings::IsEncodableVec).
    type IsEncodableEntry;
}

/// The types of a type section, their encodings and their formats. Core specification, Binary Format, Types, and Modules, Type Section.
///
/// - Types: [`Shape`](rec_types::Shape), [`Composite`](rec_types::Composite), [`Sub`](rec_types::Sub), [`TypeItem`](rec_types::TypeItem).
/// - Encodings: [`storage_encoding`](rec_types::storage_encoding), [`storage_encoding_in`](rec_types::storage_encoding_in), [`mutable_code`](rec_types::mutable_code), [`field_encoding`](rec_types::field_encoding), [`func_encoding`](rec_types::func_encoding), [`struct_encoding`](rec_types::struct_encoding), [`cont_encoding`](rec_types::cont_encoding), [`shape_encoding`](rec_types::shape_encoding), [`index_encoding`](rec_types::index_encoding), [`shared_encoding`](rec_types::shared_encoding), [`composite_encoding`](rec_types::composite_encoding), [`before_encoding`](rec_types::before_encoding), [`sub_encoding`](rec_types::sub_encoding), [`type_encoding`](rec_types::type_encoding).
/// - Well-formed types: numbers in range, and counts of at most 2^32 - 1: [`IsStorage`](rec_types::IsStorage), [`IsField`](rec_types::IsField), [`IsShape`](rec_types::IsShape), [`IsGivenIndex`](rec_types::IsGivenIndex), [`IsComposite`](rec_types::IsComposite), [`IsSub`](rec_types::IsSub), [`IsType`](rec_types::IsType).
/// - Formats: [`storage_tags`](rec_types::storage_tags), [`packed_type`](rec_types::packed_type), [`storage_type`](rec_types::storage_type), [`field_of`](rec_types::field_of), [`field_type`](rec_types::field_type), [`func_of`](rec_types::func_of), [`shape_tags`](rec_types::shape_tags), [`after_shape`](rec_types::after_shape), [`given_index`](rec_types::given_index), [`no_index`](rec_types::no_index), [`with_index`](rec_types::with_index), [`after_descriptor`](rec_types::after_descriptor), [`after_describes`](rec_types::after_describes), [`composite_of`](rec_types::composite_of), [`after_composite`](rec_types::after_composite), [`composite_type`](rec_types::composite_type), [`sub_of`](rec_types::sub_of), [`alone_of`](rec_types::alone_of), [`supertypes_and`](rec_types::supertypes_and), [`HasFinalPrefix`](rec_types::HasFinalPrefix), [`sub_tags`](rec_types::sub_tags), [`after_alone`](rec_types::after_alone), [`prefixed_sub`](rec_types::prefixed_sub), [`sub_type`](rec_types::sub_type), [`after_sub`](rec_types::after_sub), [`group_tags`](rec_types::group_tags), [`group_type`](rec_types::group_type), [`type_item`](rec_types::type_item), [`type_items`](rec_types::type_items).
/// - The type section: [`ContainsTypes`](rec_types::ContainsTypes), [`type_decoding`](rec_types::type_decoding), [`plain_type`](rec_types::plain_type).
///
/// [How to read definitions](super). The file is [`RecTypes.antt`](https://github.com/dolzhytik/dolzhytik/blob/main/crates/wasm_types/specs/RecTypes.antt).
pub trait rec_types {
    /// The shape of a composite type: a function with parameters and results, an array, a structure, or a continuation of a function type. Continuations are not in the core specification.
    ///
    /// ```text
    /// pub data Shape : Type 0 where
    ///   func : List ValType → List ValType → Shape
    ///   array : FieldType → Shape
    ///   structure : List FieldType → Shape
    ///   cont : ℕ → Shape
    /// ```
    type Shape;
    /// A composite type: whether it is shared, the type that it describes and the type that describes it, if any, and its shape. The core specification has only the shape.
    ///
    /// ```text
    /// pub record Composite : Type 0 where
    ///   pub shared : Bool
    ///   pub describes : Option ℕ
    ///   pub descriptor : Option ℕ
    ///   pub shape : Shape
    /// ```
    ///
    /// Definitions: [`Shape`](rec_types::Shape).
    type Composite;
    /// A subtype: whether it is final, its supertypes and its composite type.
    ///
    /// ```text
    /// pub record Sub : Type 0 where
    ///   pub is_final : Bool
    ///   pub supertypes : List ℕ
    ///   pub composite : Composite
    /// ```
    ///
    /// Definitions: [`Composite`](rec_types::Composite).
    type Sub;
    /// An entry of a type section: a subtype alone, or a recursion group of subtypes.
    ///
    /// ```text
    /// pub data TypeItem : Type 0 where
    ///   single : Sub → TypeItem
    ///   group : List Sub → TypeItem
    /// ```
    ///
    /// Definitions: [`Sub`](rec_types::Sub).
    type TypeItem;
    /// The encoding of a storage type: the byte of a packed type, or a value type.
    ///
    /// ```text
    /// abbrev pub storage_encoding : StorageType → List ℕ
    /// storage_encoding I8 = 0x78 ∷ []
    /// storage_encoding I16 = 0x77 ∷ []
    /// storage_encoding (Val ty) = val_encoding ty
    /// ```
    ///
    /// Definitions: [`val_encoding`](super::base::types::val_encoding).
    type storage_encoding;
    /// The minimal encoding of a storage type in each grammar.
    ///
    /// ```text
    /// abbrev pub storage_encoding_in : Grammar → StorageType → List ℕ
    /// storage_encoding_in w (Val ty) = val_encoding_in w ty
    /// storage_encoding_in w packed = storage_encoding packed
    /// ```
    ///
    /// Definitions: [`Grammar`](super::base::numbers::Grammar), [`val_encoding_in`](super::base::types::val_encoding_in), [`storage_encoding`](rec_types::storage_encoding).
    type storage_encoding_in;
    /// The byte for the mutability of a field.
    ///
    /// ```text
    /// abbrev pub mutable_code : Bool → ℕ
    /// mutable_code false = 0x00
    /// mutable_code true = 0x01
    /// ```
    type mutable_code;
    /// The encoding of a field type: its storage type, then the byte for its mutability.
    ///
    /// ```text
    /// abbrev pub field_encoding : FieldType → List ℕ
    /// field_encoding f = storage_encoding f.element_type ++ mutable_code f.mutable ∷ []
    /// ```
    ///
    /// Definitions: [`storage_encoding`](rec_types::storage_encoding), [`mutable_code`](rec_types::mutable_code).
    type field_encoding;
    /// The encoding of a function type: 0x60, then the vectors of its parameters and of its results.
    ///
    /// ```text
    /// abbrev pub func_encoding : List ValType → List ValType → List ℕ
    /// func_encoding params results = 0x60
    ///     ∷ (vec_encoding val_encoding params ++ vec_encoding val_encoding results)
    /// ```
    ///
    /// Definitions: [`vec_encoding`](super::base::encodings::vec_encoding), [`val_encoding`](super::base::types::val_encoding).
    type func_encoding;
    /// The encoding of a structure type: 0x5F, then the vector of its fields.
    ///
    /// ```text
    /// abbrev pub struct_encoding : List FieldType → List ℕ
    /// struct_encoding fields = 0x5F ∷ vec_encoding field_encoding fields
    /// ```
    ///
    /// Definitions: [`vec_encoding`](super::base::encodings::vec_encoding), [`field_encoding`](rec_types::field_encoding).
    type struct_encoding;
    /// The encoding of a continuation type: 0x5D, then the index as a signed number.
    ///
    /// ```text
    /// abbrev pub cont_encoding : ℕ → List ℕ
    /// cont_encoding index = 0x5D ∷ signed_encoding (pos index)
    /// ```
    ///
    /// Definitions: [`signed_encoding`](super::base::numbers::signed_encoding).
    type cont_encoding;
    /// The encoding of a shape, which begins with a byte for its kind.
    ///
    /// ```text
    /// abbrev pub shape_encoding : Shape → List ℕ
    /// shape_encoding (func params results) = func_encoding params results
    /// shape_encoding (array field) = 0x5E ∷ field_encoding field
    /// shape_encoding (structure fields) = struct_encoding fields
    /// shape_encoding (cont index) = cont_encoding index
    /// ```
    ///
    /// Definitions: [`Shape`](rec_types::Shape), [`func`](rec_types::Shape), [`func_encoding`](rec_types::func_encoding), [`array`](rec_types::Shape), [`field_encoding`](rec_types::field_encoding), [`structure`](rec_types::Shape), [`struct_encoding`](rec_types::struct_encoding), [`cont`](rec_types::Shape), [`cont_encoding`](rec_types::cont_encoding).
    type shape_encoding;
    /// The encoding of an optional index: the byte `b` and the index, or no bytes.
    ///
    /// ```text
    /// abbrev pub index_encoding : ℕ → Option ℕ → List ℕ
    /// index_encoding b None = []
    /// index_encoding b (Some index) = b ∷ unsigned_encoding index
    /// ```
    ///
    /// Definitions: [`unsigned_encoding`](super::base::numbers::unsigned_encoding).
    type index_encoding;
    /// The encoding of sharedness: 0x65 for a shared type, no bytes otherwise.
    ///
    /// ```text
    /// abbrev pub shared_encoding : Bool → List ℕ
    /// shared_encoding false = []
    /// shared_encoding true = 0x65 ∷ []
    /// ```
    type shared_encoding;
    /// The encoding of a composite type: its optional prefixes, then its shape.
    ///
    /// ```text
    /// abbrev pub composite_encoding : Composite → List ℕ
    /// composite_encoding c = shared_encoding c.shared
    ///     ++ (index_encoding 0x4C c.describes
    ///     ++ (index_encoding 0x4D c.descriptor ++ shape_encoding c.shape))
    /// ```
    ///
    /// Definitions: [`Composite`](rec_types::Composite), [`shared_encoding`](rec_types::shared_encoding), [`index_encoding`](rec_types::index_encoding), [`shape_encoding`](rec_types::shape_encoding).
    type composite_encoding;
    /// The bytes before the composite type of a subtype. There are none for a final type without supertypes.
    ///
    /// ```text
    /// abbrev pub before_encoding : (is_final : Bool) → List ℕ → List ℕ
    /// before_encoding true [] = []
    /// before_encoding true (x ∷ xs) = 0x4F ∷ vec_encoding unsigned_encoding (x ∷ xs)
    /// before_encoding false xs = 0x50 ∷ vec_encoding unsigned_encoding xs
    /// ```
    ///
    /// Definitions: [`vec_encoding`](super::base::encodings::vec_encoding), [`unsigned_encoding`](super::base::numbers::unsigned_encoding).
    type before_encoding;
    /// The encoding of a subtype: the bytes before its composite type, then that type.
    ///
    /// ```text
    /// abbrev pub sub_encoding : Sub → List ℕ
    /// sub_encoding s = before_encoding s.is_final s.supertypes
    ///     ++ composite_encoding s.composite
    /// ```
    ///
    /// Definitions: [`Sub`](rec_types::Sub), [`before_encoding`](rec_types::before_encoding), [`composite_encoding`](rec_types::composite_encoding).
    type sub_encoding;
    /// The encoding of an entry: a subtype, or 0x4E and the vector of the group's subtypes.
    ///
    /// ```text
    /// abbrev pub type_encoding : TypeItem → List ℕ
    /// type_encoding (single s) = sub_encoding s
    /// type_encoding (group subs) = 0x4E ∷ vec_encoding sub_encoding subs
    /// ```
    ///
    /// Definitions: [`TypeItem`](rec_types::TypeItem), [`single`](rec_types::TypeItem), [`sub_encoding`](rec_types::sub_encoding), [`group`](rec_types::TypeItem), [`vec_encoding`](super::base::encodings::vec_encoding).
    type type_encoding;
    /// An index in the storage type is below 2^32.
    ///
    /// ```text
    /// abbrev pub IsStorage : StorageType → Type 0
    /// IsStorage (Val ty) = IsVal ty
    /// IsStorage _ = Unit {0}
    /// ```
    ///
    /// Definitions: [`IsVal`](super::base::types::IsVal).
    type IsStorage;
    /// An index in the field type is below 2^32.
    ///
    /// ```text
    /// abbrev pub IsField : FieldType → Type 0
    /// IsField f = IsStorage f.element_type
    /// ```
    ///
    /// Definitions: [`IsStorage`](rec_types::IsStorage).
    type IsField;
    /// Indices in the shape, and the numbers of parameters, results and fields, are below 2^32.
    ///
    /// ```text
    /// abbrev pub IsShape : Shape → Type 0
    /// IsShape (func params results) = IsEncodableVec IsVal params
    ///     × IsEncodableVec IsVal results
    /// IsShape (array field) = IsField field
    /// IsShape (structure fields) = IsEncodableVec IsField fields
    /// IsShape (cont index) = index < 2 ^ 32
    /// ```
    ///
    /// Definitions: [`Shape`](rec_types::Shape), [`func`](rec_types::Shape), [`IsEncodableVec`](super::base::encodings::IsEncodableVec), [`IsVal`](super::base::types::IsVal), [`array`](rec_types::Shape), [`IsField`](rec_types::IsField), [`structure`](rec_types::Shape), [`cont`](rec_types::Shape).
    type IsShape;
    /// An optional index is below 2^32.
    ///
    /// ```text
    /// abbrev pub IsGivenIndex : Option ℕ → Type 0
    /// IsGivenIndex index = IfSome index (IsUnsignedInRange 32)
    /// ```
    ///
    /// Definitions: [`IsUnsignedInRange`](super::base::laws::IsUnsignedInRange).
    type IsGivenIndex;
    /// The composite type is well-formed: its indices are below 2^32, and its shape is well-formed.
    ///
    /// ```text
    /// pub record IsComposite (c : Composite) : Type 0 where
    ///   pub describes : IsGivenIndex c.describes
    ///   pub descriptor : IsGivenIndex c.descriptor
    ///   pub shape : IsShape c.shape
    /// ```
    ///
    /// Definitions: [`Composite`](rec_types::Composite), [`IsGivenIndex`](rec_types::IsGivenIndex), [`IsShape`](rec_types::IsShape).
    type IsComposite;
    /// The subtype is well-formed: its supertypes are indices below 2^32 and fit their count, and its composite type is well-formed.
    ///
    /// ```text
    /// pub record IsSub (s : Sub) : Type 0 where
    ///   pub supertypes : IsEncodableVec (IsUnsignedInRange 32) s.supertypes
    ///   pub composite : IsComposite s.composite
    /// ```
    ///
    /// Definitions: [`Sub`](rec_types::Sub), [`IsEncodableVec`](super::base::encodings::IsEncodableVec), [`IsUnsignedInRange`](super::base::laws::IsUnsignedInRange), [`IsComposite`](rec_types::IsComposite).
    type IsSub;
    /// The entry is well-formed: each of its subtypes is, and they fit their count.
    ///
    /// ```text
    /// abbrev pub IsType : TypeItem → Type 0
    /// IsType (single s) = IsSub s
    /// IsType (group subs) = IsEncodableVec IsSub subs
    /// ```
    ///
    /// Definitions: [`TypeItem`](rec_types::TypeItem), [`single`](rec_types::TypeItem), [`IsSub`](rec_types::IsSub), [`group`](rec_types::TypeItem), [`IsEncodableVec`](super::base::encodings::IsEncodableVec).
    type IsType;
    /// The formats of packed types by their bytes.
    ///
    /// ```text
    /// abbrev pub storage_tags : List (ℕ × Format StorageType)
    /// storage_tags = (0x78, fixed [] I8) ∷ (0x77, fixed [] I16) ∷ []
    /// ```
    ///
    /// Definitions: [`Format`](super::base::formats::Format), [`fixed`](super::base::formats::fixed).
    type storage_tags;
    /// A packed type: one byte, which begins no value type.
    ///
    /// ```text
    /// abbrev pub packed_type : Format StorageType
    /// packed_type = tagged byte (choice storage_tags (λ b. impossible))
    /// ```
    ///
    /// Definitions: [`Format`](super::base::formats::Format), [`tagged`](super::base::formats::tagged), [`byte`](super::base::formats::byte), [`choice`](super::base::formats::choice), [`storage_tags`](rec_types::storage_tags), [`impossible`](super::base::formats::impossible).
    type packed_type;
    /// A storage type: a packed type or a value type.
    ///
    /// ```text
    /// abbrev pub storage_type : Format StorageType
    /// storage_type = one_of packed_type (mapped Val val_type)
    /// ```
    ///
    /// Definitions: [`Format`](super::base::formats::Format), [`one_of`](super::base::formats::one_of), [`packed_type`](rec_types::packed_type), [`mapped`](super::base::formats::mapped), [`val_type`](super::base::types::val_type).
    type storage_type;
    /// The field type of this storage type and mutability.
    ///
    /// ```text
    /// abbrev pub field_of : StorageType × Bool → FieldType
    /// field_of parts = record { element_type = parts.0; mutable = parts.1 }
    /// ```
    type field_of;
    /// A field type: a storage type and a byte for its mutability.
    ///
    /// ```text
    /// abbrev pub field_type : Format FieldType
    /// field_type = mapped field_of (pair storage_type (coded mutable_code))
    /// ```
    ///
    /// Definitions: [`Format`](super::base::formats::Format), [`mapped`](super::base::formats::mapped), [`field_of`](rec_types::field_of), [`pair`](super::base::formats::pair), [`storage_type`](rec_types::storage_type), [`coded`](super::base::formats::coded), [`mutable_code`](rec_types::mutable_code).
    type field_type;
    /// The function shape of these parameters and results.
    ///
    /// ```text
    /// abbrev pub func_of : List ValType × List ValType → Shape
    /// func_of parts = func parts.0 parts.1
    /// ```
    ///
    /// Definitions: [`Shape`](rec_types::Shape), [`func`](rec_types::Shape).
    type func_of;
    /// The formats after each first byte of a shape.
    ///
    /// ```text
    /// abbrev pub shape_tags : List (ℕ × Format Shape)
    /// shape_tags = (0x60, mapped func_of (pair (vec val_type) (vec val_type)))
    ///     ∷ (0x5E, mapped array field_type) ∷ (0x5F, mapped structure (vec field_type))
    ///     ∷ (0x5D, mapped cont s33) ∷ []
    /// ```
    ///
    /// Definitions: [`Format`](super::base::formats::Format), [`Shape`](rec_types::Shape), [`mapped`](super::base::formats::mapped), [`func_of`](rec_types::func_of), [`pair`](super::base::formats::pair), [`vec`](super::base::formats::vec), [`val_type`](super::base::types::val_type), [`array`](rec_types::Shape), [`field_type`](rec_types::field_type), [`structure`](rec_types::Shape), [`cont`](rec_types::Shape), [`s33`](super::base::formats::s33).
    type shape_tags;
    /// A shape after its first byte `b`.
    ///
    /// ```text
    /// abbrev pub after_shape : ℕ → Format Shape
    /// after_shape b = choice shape_tags (λ c. impossible) b
    /// ```
    ///
    /// Definitions: [`Format`](super::base::formats::Format), [`Shape`](rec_types::Shape), [`choice`](super::base::formats::choice), [`shape_tags`](rec_types::shape_tags), [`impossible`](super::base::formats::impossible).
    type after_shape;
    /// A value that an index precedes.
    ///
    /// ```text
    /// abbrev pub given_index : {X : Type 0} → ℕ × X → Option ℕ × X
    /// given_index parts = (Some parts.0, parts.1)
    /// ```
    type given_index;
    /// A value that no index precedes.
    ///
    /// ```text
    /// abbrev pub no_index : {X : Type 0} → X → Option ℕ × X
    /// no_index x = (None, x)
    /// ```
    type no_index;
    /// A value after its first byte `b`: if `b` is the tag, an index and then the value, and the value alone otherwise.
    ///
    /// ```text
    /// abbrev pub with_index : {X : Type 0} → ℕ → (ℕ → Format X) → ℕ → Format (Option ℕ × X)
    /// with_index tag F b = choice ((tag, mapped given_index (pair u32 (tagged byte F))) ∷ [])
    ///     (λ c. mapped no_index (F c)) b
    /// ```
    ///
    /// Definitions: [`Format`](super::base::formats::Format), [`choice`](super::base::formats::choice), [`mapped`](super::base::formats::mapped), [`given_index`](rec_types::given_index), [`pair`](super::base::formats::pair), [`u32`](super::base::formats::u32), [`tagged`](super::base::formats::tagged), [`byte`](super::base::formats::byte), [`no_index`](rec_types::no_index).
    type with_index;
    /// An optional index of the type that describes it, then a shape, after the first byte `b`.
    ///
    /// ```text
    /// abbrev pub after_descriptor : ℕ → Format (Option ℕ × Shape)
    /// after_descriptor b = with_index 0x4D after_shape b
    /// ```
    ///
    /// Definitions: [`Format`](super::base::formats::Format), [`Shape`](rec_types::Shape), [`with_index`](rec_types::with_index), [`after_shape`](rec_types::after_shape).
    type after_descriptor;
    /// An optional index of the type that it describes, then the remaining composite type, after the first byte `b`.
    ///
    /// ```text
    /// abbrev pub after_describes : ℕ → Format (Option ℕ × (Option ℕ × Shape))
    /// after_describes b = with_index 0x4C after_descriptor b
    /// ```
    ///
    /// Definitions: [`Format`](super::base::formats::Format), [`Shape`](rec_types::Shape), [`with_index`](rec_types::with_index), [`after_descriptor`](rec_types::after_descriptor).
    type after_describes;
    /// The composite type of these contents, shared or not.
    ///
    /// ```text
    /// abbrev pub composite_of : Bool → Option ℕ × (Option ℕ × Shape) → Composite
    /// composite_of is_shared parts = record
    ///     { shared = is_shared; describes = parts.0; descriptor = parts.1.0;
    ///     shape = parts.1.1 }
    /// ```
    ///
    /// Definitions: [`Shape`](rec_types::Shape), [`Composite`](rec_types::Composite).
    type composite_of;
    /// A composite type after its first byte `b`.
    ///
    /// ```text
    /// abbrev pub after_composite : ℕ → Format Composite
    /// after_composite b = choice
    ///     ((0x65, mapped (composite_of true) (tagged byte after_describes)) ∷ [])
    ///     (λ c. mapped (composite_of false) (after_describes c)) b
    /// ```
    ///
    /// Definitions: [`Format`](super::base::formats::Format), [`Composite`](rec_types::Composite), [`choice`](super::base::formats::choice), [`mapped`](super::base::formats::mapped), [`composite_of`](rec_types::composite_of), [`tagged`](super::base::formats::tagged), [`byte`](super::base::formats::byte), [`after_describes`](rec_types::after_describes).
    type after_composite;
    /// A composite type: 0x65 if it is shared, 0x4C and an index, 0x4D and an index, each optional, and a shape. Core specification, Binary Format, Types, Composite Types; it has only the shape.
    ///
    /// ```text
    /// abbrev pub composite_type : Format Composite
    /// composite_type = tagged byte after_composite
    /// ```
    ///
    /// Definitions: [`Format`](super::base::formats::Format), [`Composite`](rec_types::Composite), [`tagged`](super::base::formats::tagged), [`byte`](super::base::formats::byte), [`after_composite`](rec_types::after_composite).
    type composite_type;
    /// The subtype of these supertypes, final or not.
    ///
    /// ```text
    /// abbrev pub sub_of : Bool → List ℕ × Composite → Sub
    /// sub_of is_final parts = record
    ///     { is_final = is_final; supertypes = parts.0; composite = parts.1 }
    /// ```
    ///
    /// Definitions: [`Composite`](rec_types::Composite), [`Sub`](rec_types::Sub).
    type sub_of;
    /// The final subtype without supertypes.
    ///
    /// ```text
    /// abbrev pub alone_of : Composite → Sub
    /// alone_of composite = record { is_final = true; supertypes = []; composite = composite }
    /// ```
    ///
    /// Definitions: [`Composite`](rec_types::Composite), [`Sub`](rec_types::Sub).
    type alone_of;
    /// The vector of supertypes, then a composite type.
    ///
    /// ```text
    /// abbrev pub supertypes_and : Format (List ℕ × Composite)
    /// supertypes_and = pair (vec u32) composite_type
    /// ```
    ///
    /// Definitions: [`Format`](super::base::formats::Format), [`Composite`](rec_types::Composite), [`pair`](super::base::formats::pair), [`vec`](super::base::formats::vec), [`u32`](super::base::formats::u32), [`composite_type`](rec_types::composite_type).
    type supertypes_and;
    /// The byte 0x4F may precede this vector of supertypes and this composite type. In the builders' grammar it does if there is a supertype; in the standard's, also before an empty vector.
    ///
    /// ```text
    /// abbrev pub HasFinalPrefix : Grammar → List ℕ × Composite → Type 0
    /// HasFinalPrefix builders parts = 0 < length parts.0
    /// HasFinalPrefix admitted parts = Unit {0}
    /// ```
    ///
    /// Definitions: [`Grammar`](super::base::numbers::Grammar), [`Composite`](rec_types::Composite), [`builders`](super::base::numbers::Grammar), [`admitted`](super::base::numbers::Grammar).
    type HasFinalPrefix;
    /// The formats after 0x50 and 0x4F. Any other first byte of a subtype begins its composite type.
    ///
    /// ```text
    /// abbrev pub sub_tags : Grammar → List (ℕ × Format Sub)
    /// sub_tags w = (0x50, mapped (sub_of false) supertypes_and)
    ///     ∷ (0x4F, mapped (sub_of true) (such (HasFinalPrefix w) supertypes_and)) ∷ []
    /// ```
    ///
    /// Definitions: [`Grammar`](super::base::numbers::Grammar), [`Format`](super::base::formats::Format), [`Sub`](rec_types::Sub), [`mapped`](super::base::formats::mapped), [`sub_of`](rec_types::sub_of), [`supertypes_and`](rec_types::supertypes_and), [`such`](super::base::formats::such), [`HasFinalPrefix`](rec_types::HasFinalPrefix).
    type sub_tags;
    /// A composite type alone after its first byte `b`: a final subtype without supertypes.
    ///
    /// ```text
    /// abbrev pub after_alone : ℕ → Format Sub
    /// after_alone b = mapped alone_of (after_composite b)
    /// ```
    ///
    /// Definitions: [`Format`](super::base::formats::Format), [`Sub`](rec_types::Sub), [`mapped`](super::base::formats::mapped), [`alone_of`](rec_types::alone_of), [`after_composite`](rec_types::after_composite).
    type after_alone;
    /// A subtype with the prefixes of this grammar: 0x50, or 0x4F if it is final, supertypes and a composite type; or a composite type alone.
    ///
    /// ```text
    /// abbrev pub prefixed_sub : Grammar → Format Sub
    /// prefixed_sub w = tagged byte (choice (sub_tags w) after_alone)
    /// ```
    ///
    /// Definitions: [`Grammar`](super::base::numbers::Grammar), [`Format`](super::base::formats::Format), [`Sub`](rec_types::Sub), [`tagged`](super::base::formats::tagged), [`byte`](super::base::formats::byte), [`choice`](super::base::formats::choice), [`sub_tags`](rec_types::sub_tags), [`after_alone`](rec_types::after_alone).
    type prefixed_sub;
    /// A subtype. The minimal encoding of a final type without supertypes is its composite type alone. Core specification, Binary Format, Types, Recursive Types.
    ///
    /// ```text
    /// abbrev pub sub_type : Format Sub
    /// sub_type = by_mode (prefixed_sub builders) (prefixed_sub builders)
    ///     (prefixed_sub admitted)
    /// ```
    ///
    /// Definitions: [`Format`](super::base::formats::Format), [`Sub`](rec_types::Sub), [`by_mode`](super::base::formats::by_mode), [`prefixed_sub`](rec_types::prefixed_sub), [`builders`](super::base::numbers::Grammar), [`admitted`](super::base::numbers::Grammar).
    type sub_type;
    /// A subtype after its first byte `b`.
    ///
    /// ```text
    /// abbrev pub after_sub : ℕ → Format Sub
    /// after_sub b = after_byte sub_type b
    /// ```
    ///
    /// Definitions: [`Format`](super::base::formats::Format), [`Sub`](rec_types::Sub), [`after_byte`](super::base::formats::after_byte), [`sub_type`](rec_types::sub_type).
    type after_sub;
    /// The format after the byte 0x4E of a recursion group.
    ///
    /// ```text
    /// abbrev pub group_tags : List (ℕ × Format TypeItem)
    /// group_tags = (0x4E, mapped group (vec sub_type)) ∷ []
    /// ```
    ///
    /// Definitions: [`Format`](super::base::formats::Format), [`TypeItem`](rec_types::TypeItem), [`mapped`](super::base::formats::mapped), [`group`](rec_types::TypeItem), [`vec`](super::base::formats::vec), [`sub_type`](rec_types::sub_type).
    type group_tags;
    /// A recursion group: 0x4E, which begins no subtype, and a vector of subtypes. Core specification, Binary Format, Types, Recursive Types.
    ///
    /// ```text
    /// abbrev pub group_type : Format TypeItem
    /// group_type = tagged byte (choice group_tags (λ b. impossible))
    /// ```
    ///
    /// Definitions: [`Format`](super::base::formats::Format), [`TypeItem`](rec_types::TypeItem), [`tagged`](super::base::formats::tagged), [`byte`](super::base::formats::byte), [`choice`](super::base::formats::choice), [`group_tags`](rec_types::group_tags), [`impossible`](super::base::formats::impossible).
    type group_type;
    /// An entry: a recursion group or a subtype alone.
    ///
    /// ```text
    /// abbrev pub type_item : Format TypeItem
    /// type_item = one_of group_type (mapped single sub_type)
    /// ```
    ///
    /// Definitions: [`Format`](super::base::formats::Format), [`TypeItem`](rec_types::TypeItem), [`one_of`](super::base::formats::one_of), [`group_type`](rec_types::group_type), [`mapped`](super::base::formats::mapped), [`single`](rec_types::TypeItem), [`sub_type`](rec_types::sub_type).
    type type_item;
    /// The kind of the entries of a type section.
    ///
    /// ```text
    /// abbrev pub type_items : Kind TypeItem TypeItem
    /// type_items = record { encoding = type_encoding; IsWellFormed = IsType;
    ///     IsWellFormedPadded = IsType; normal_form = λ ty. ty; format = type_item }
    /// ```
    ///
    /// Definitions: [`Kind`](super::base::entries::Kind), [`TypeItem`](rec_types::TypeItem), [`type_encoding`](rec_types::type_encoding), [`IsType`](rec_types::IsType), [`type_item`](rec_types::type_item).
    type type_items;
    /// The pieces encode these entries.
    ///
    /// ```text
    /// abbrev pub ContainsTypes : List (List ℕ) → List TypeItem → Type 0
    /// ContainsTypes = ContainsItems type_items
    /// ```
    ///
    /// Definitions: [`TypeItem`](rec_types::TypeItem), [`ContainsItems`](super::base::entries::ContainsItems), [`type_items`](rec_types::type_items).
    type ContainsTypes;
    /// The type section that decodes to these entries.
    ///
    /// ```text
    /// abbrev pub type_decoding : List TypeItem → SectionDecoding
    /// type_decoding types = decoding_of (number_of ids.Types) (vec type_item) types
    /// ```
    ///
    /// Definitions: [`TypeItem`](rec_types::TypeItem), [`SectionDecoding`](super::base::modules::SectionDecoding), [`decoding_of`](super::base::modules::decoding_of), [`number_of`](super::base::section_id::number_of), [`vec`](super::base::formats::vec), [`type_item`](rec_types::type_item).
    type type_decoding;
    /// The entry of this shape alone: final, without supertypes, and not shared.
    ///
    /// ```text
    /// abbrev pub plain_type : Shape → TypeItem
    /// plain_type shape = single
    ///     (record { is_final = true; supertypes = [];
    ///         composite = record { shared = false; describes = None; descriptor = None;
    ///             shape = shape } })
    /// ```
    ///
    /// Definitions: [`Shape`](rec_types::Shape), [`TypeItem`](rec_types::TypeItem), [`single`](rec_types::TypeItem).
    type plain_type;
}
