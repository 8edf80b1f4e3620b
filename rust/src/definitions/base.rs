// Written by tools/to-rust from crates/wasm_base/specs: change that.
//! Numbers, names, vectors, types, sections and modules; the promises of calls that append and decode.
//!
//! The contracts of [`wasm_base`](https://github.com/dolzhytik/dolzhytik/blob/main/crates/wasm_base/README.md) name these definitions.

/// The promises of calls that append to a buffer or add to a builder.
///
/// [How to read definitions](super). The file is [`Calls.antt`](https://github.com/dolzhytik/dolzhytik/blob/main/crates/wasm_base/specs/Calls.antt).
pub trait calls {
    /// The call appends the encoding, or returns an error and leaves the bytes as they were. If the value fits, the call never returns `TooLong`, and it succeeds within the spare capacity.
    ///
    /// ```text
    /// pub record Appends {A : Type 0} (encoding : List ℕ) (encodable : Type 0)
    ///     (old new : Vec ℕ A) (result : Result (Unit {0}) Refused) : Type 0 where
    ///   pub ok : OnOk result (new.items ≡ old.items ++ encoding)
    ///   pub err : OnErr result (new.items ≡ old.items)
    ///   pub was_encodable : OnOk result encodable
    ///   pub too_long : encodable → result ≢ Err TooLong
    ///   pub spare : encodable → vec_len old + length encoding ≤ vec_capacity old → IsOk result
    ///   pub capacity : vec_capacity old ≤ vec_capacity new
    /// ```
    type Appends;
    /// The builder gains one entry with this encoding, or the call returns an error and changes nothing. A full builder, with 2^32 - 1 entries, returns `TooLong`.
    ///
    /// ```text
    /// pub record AddsTo {M : Type 0} (model : StoreModel M) (encoding : List ℕ)
    ///     (encodable : Type 0) (old new : M) (result : Result (Unit {0}) Refused)
    ///     : Type 0 where
    ///   pub ok : OnOk result (model.gains encoding old new)
    ///   pub err : OnErr result (new ≡ old)
    ///   pub was_encodable : OnOk result encodable
    ///   pub counted : OnOk result ((model.joins old).number < longest)
    ///   pub too_long : encodable → (model.joins old).number < longest → result ≢ Err TooLong
    ///   pub full : (model.joins old).number ≡ longest → result ≡ Err TooLong
    /// ```
    ///
    /// Definitions: [`StoreModel`](stores::StoreModel), [`longest`](encodings::longest).
    type AddsTo;
    /// [`AddsTo`](calls::AddsTo) of a builder whose entries are a list of pieces.
    ///
    /// ```text
    /// abbrev pub Adds : List ℕ → Type 0 → List (List ℕ) → List (List ℕ)
    ///     → Result (Unit {0}) Refused → Type 0
    /// Adds encoding encodable old new result = AddsTo pieces_model encoding encodable old new
    ///     result
    /// ```
    ///
    /// Definitions: [`AddsTo`](calls::AddsTo), [`pieces_model`](stores::pieces_model).
    type Adds;
    /// The builder gains one entry for each of these items, in order.
    ///
    /// ```text
    /// pub record AddsEach {T : Type 0} (encoding : T → List ℕ) (Encodable : T → Type 0)
    ///     (items : List T) (old new : List (List ℕ)) : Type 0 where
    ///   pub is : new ≡ old ++ map encoding items
    ///   pub was_encodable : All Encodable items
    ///   pub counted : 0 < length items → length new ≤ longest
    /// ```
    ///
    /// Definitions: [`longest`](encodings::longest).
    type AddsEach;
    /// The builder gains all items; or it gains as many as the error reports, and the next item fails. If the builder is full, the error is `TooLong`; if it is not and that item fits, it is another.
    ///
    /// ```text
    /// pub record AddsAll {T : Type 0} (encoding : T → List ℕ) (Encodable : T → Type 0)
    ///     (items : List T) (old new : List (List ℕ))
    ///     (result : Result (Unit {0}) (ℕ × Refused)) : Type 0 where
    ///   pub ok : OnOk result (AddsEach encoding Encodable items old new)
    ///   pub err : IfErr result (λ stopped. (stopped.0 < length items)
    ///       × AddsEach encoding Encodable (take stopped.0 items) old new)
    ///   pub too_long : IfErr result
    ///       (λ stopped. stopped.1 ≡ TooLong
    ///       → IfSome (slice_get items stopped.0)
    ///       (λ item. Encodable item → longest ≤ length new))
    ///   pub full : IfErr result (λ stopped. length new ≡ longest → stopped.1 ≡ TooLong)
    /// ```
    ///
    /// Definitions: [`AddsEach`](calls::AddsEach), [`longest`](encodings::longest).
    type AddsAll;
    /// The headline of a section: `encoding` is the one minimal encoding of any items that satisfy `Says`, and decodes to them alone.
    ///
    /// ```text
    /// pub record DecodesBack {Items : Type 0} (F : Format Items) (Says : Items → Type 0)
    ///     (encoding : List ℕ) : Type 0 where
    ///   pub for_each : (items : Items) → Says items → DecodesUniquely F encoding items
    /// ```
    ///
    /// Definitions: [`Format`](formats::Format), [`DecodesUniquely`](decoding::DecodesUniquely).
    type DecodesBack;
    /// The headline for padded LEB128: `encoding` is a possibly padded encoding of any items that satisfy `Says`, and decodes to them alone.
    ///
    /// ```text
    /// pub record DecodesBackPadded {Items : Type 0} (F : Format Items) (Says : Items → Type 0)
    ///     (encoding : List ℕ) : Type 0 where
    ///   pub for_each : (items : Items) → Says items → DecodesUniquelyPadded F encoding items
    /// ```
    ///
    /// Definitions: [`Format`](formats::Format), [`DecodesUniquelyPadded`](decoding::DecodesUniquelyPadded).
    type DecodesBackPadded;
    /// Both headlines, for minimal encodings and for padded ones.
    ///
    /// ```text
    /// pub record DecodesBackBoth {Items : Type 0} (F : Format Items)
    ///     (Says SaysPadded : Items → Type 0) (encoding : List ℕ) : Type 0 where
    ///   pub plain : DecodesBack F Says encoding
    ///   pub padded : DecodesBackPadded F SaysPadded encoding
    /// ```
    ///
    /// Definitions: [`Format`](formats::Format), [`DecodesBack`](calls::DecodesBack), [`DecodesBackPadded`](calls::DecodesBackPadded).
    type DecodesBackBoth;
    /// Composition of modules: if the old bytes decode to some sections alone, the new bytes decode to these and one more. That section has this id, and any payload with the property.
    ///
    /// ```text
    /// pub record DecodesOneMore (Payload : List ℕ → Type 0) (id : ℕ) (old new : List ℕ)
    ///     : Type 0 where
    ///   pub for_each : (sections : List (ℕ × List ℕ)) (payload : List ℕ)
    ///       → DecodesWhole wasm_module old sections → Payload payload
    ///       → DecodesWhole wasm_module new (sections ++ (id, payload) ∷ [])
    /// ```
    ///
    /// Definitions: [`DecodesWhole`](decoding::DecodesWhole), [`wasm_module`](formats::wasm_module).
    type DecodesOneMore;
}

/// How the decoding of a suffix determines the decoding of the whole.
///
/// [How to read definitions](super). The file is [`Continuing.antt`](https://github.com/dolzhytik/dolzhytik/blob/main/crates/wasm_base/specs/Continuing.antt).
pub trait continuing {
    /// Decoding continues: if `F` decodes `x` from `rest`, `G` decodes `f x` from `bytes` with the same suffix. If `F` decodes nothing, neither does `G`. Both are in this mode.
    ///
    /// ```text
    /// pub record Continues {X Y : Type 0} (mode : Mode) (G : Format Y) (bytes : List ℕ)
    ///     (F : Format X) (rest : List ℕ) (f : X → Y) : Type 0 where
    ///   pub found : (x : X) (last : List ℕ) → Decodes F mode rest x last
    ///       → Decodes G mode bytes (f x) last
    ///   pub none : Rejects F mode rest → Rejects G mode bytes
    /// ```
    ///
    /// Definitions: [`Mode`](numbers::Mode), [`Format`](formats::Format), [`Decodes`](decoding::Decodes), [`Rejects`](decoding::Rejects).
    type Continues;
    /// All of the bytes together encode no value of `F` in this mode.
    ///
    /// ```text
    /// pub record RejectsWhole {X : Type 0} (F : Format X) (mode : Mode) (bytes : List ℕ)
    ///     : Type 0 where
    ///   pub none : (x : X) → F mode bytes x → ⊥
    /// ```
    ///
    /// Definitions: [`Format`](formats::Format), [`Mode`](numbers::Mode).
    type RejectsWhole;
}

/// The contents of slices and strings that are borrowed or owned.
///
/// [How to read definitions](super). The file is [`Cow.antt`](https://github.com/dolzhytik/dolzhytik/blob/main/crates/wasm_base/specs/Cow.antt).
pub trait cow {
    /// The items of a slice, borrowed or owned.
    ///
    /// ```text
    /// abbrev pub items_of : {T A : Type 0} → CowSlice T A → List T
    /// items_of (slices.Borrowed items) = items.now
    /// items_of (slices.Owned items) = items.items
    /// ```
    type items_of;
    /// The UTF-8 bytes of a string, borrowed or owned.
    ///
    /// ```text
    /// abbrev pub utf8_of : {A : Type 0} → CowStr A → List ℕ
    /// utf8_of (strings.Borrowed text) = text.now
    /// utf8_of (strings.Owned text) = string_bytes text
    /// ```
    type utf8_of;
}

/// Decoding: when bytes decode to one value alone, and when a format is unambiguous.
///
/// - One encoding: [`Decodes`](decoding::Decodes), [`Rejects`](decoding::Rejects), [`DecodesUniquely`](decoding::DecodesUniquely), [`DecodesWhole`](decoding::DecodesWhole), [`DecodesUniquelyPadded`](decoding::DecodesUniquelyPadded), [`DecodesWholePadded`](decoding::DecodesWholePadded).
/// - All encodings of a format: [`DeterminesPrefix`](decoding::DeterminesPrefix), [`DeterminesWhole`](decoding::DeterminesWhole), [`HasOneEncoding`](decoding::HasOneEncoding), [`IsIncludedIn`](decoding::IsIncludedIn), [`ShrinksTo`](decoding::ShrinksTo), [`HasEncodings`](decoding::HasEncodings), [`Unambiguous`](decoding::Unambiguous), [`UnambiguousWhole`](decoding::UnambiguousWhole), [`HasMinimalEncodings`](decoding::HasMinimalEncodings), [`UnambiguousPadded`](decoding::UnambiguousPadded), [`UnambiguousWholePadded`](decoding::UnambiguousWholePadded), [`BeginsWith`](decoding::BeginsWith).
///
/// [How to read definitions](super). The file is [`Decoding.antt`](https://github.com/dolzhytik/dolzhytik/blob/main/crates/wasm_base/specs/Decoding.antt).
pub trait decoding {
    /// `bytes` is an encoding of `x` in this mode, followed by `rest`.
    ///
    /// ```text
    /// pub record Decodes {X : Type 0} (F : Format X) (mode : Mode) (bytes : List ℕ) (x : X)
    ///     (rest : List ℕ) : Type 0 where
    ///   pub front : List ℕ
    ///   pub split : bytes ≡ front ++ rest
    ///   pub encodes : F mode front x
    /// ```
    ///
    /// Definitions: [`Format`](formats::Format), [`Mode`](numbers::Mode).
    type Decodes;
    /// No value decodes from the front of the bytes in this mode.
    ///
    /// ```text
    /// pub record Rejects {X : Type 0} (F : Format X) (mode : Mode) (bytes : List ℕ)
    ///     : Type 0 where
    ///   pub none : (x : X) (rest : List ℕ) → Decodes F mode bytes x rest → ⊥
    /// ```
    ///
    /// Definitions: [`Format`](formats::Format), [`Mode`](numbers::Mode), [`Decodes`](decoding::Decodes).
    type Rejects;
    /// `encoding` is the one minimal encoding of `x`. In every mode, and whatever bytes follow, it decodes to `x` alone, and decoding ends exactly after it.
    ///
    /// ```text
    /// pub record DecodesUniquely {X : Type 0} (F : Format X) (encoding : List ℕ) (x : X)
    ///     : Type 0 where
    ///   pub encodes : F minimal encoding x
    ///   pub unique : (mode : Mode) (after : List ℕ) (y : X) (rest : List ℕ)
    ///       → Decodes F mode (encoding ++ after) y rest → (y ≡ x) × (rest ≡ after)
    ///   pub one : (other : List ℕ) → F minimal other x → other ≡ encoding
    /// ```
    ///
    /// Definitions: [`Format`](formats::Format), [`minimal`](numbers::Mode), [`Mode`](numbers::Mode), [`Decodes`](decoding::Decodes).
    type DecodesUniquely;
    /// As [`DecodesUniquely`](decoding::DecodesUniquely), for a format that takes all of the bytes: `encoding` as a whole decodes to `x` alone.
    ///
    /// ```text
    /// pub record DecodesWhole {X : Type 0} (F : Format X) (encoding : List ℕ) (x : X)
    ///     : Type 0 where
    ///   pub encodes : F minimal encoding x
    ///   pub unique : (mode : Mode) (y : X) → F mode encoding y → y ≡ x
    ///   pub one : (other : List ℕ) → F minimal other x → other ≡ encoding
    /// ```
    ///
    /// Definitions: [`Format`](formats::Format), [`minimal`](numbers::Mode), [`Mode`](numbers::Mode).
    type DecodesWhole;
    /// `encoding` is a possibly padded encoding of `x`. With padding allowed, and whatever bytes follow, it decodes to `x` alone, and decoding ends exactly after it.
    ///
    /// ```text
    /// pub record DecodesUniquelyPadded {X : Type 0} (F : Format X) (encoding : List ℕ) (x : X)
    ///     : Type 0 where
    ///   pub encodes : F padded encoding x
    ///   pub unique : (after : List ℕ) (y : X) (rest : List ℕ)
    ///       → Decodes F padded (encoding ++ after) y rest → (y ≡ x) × (rest ≡ after)
    /// ```
    ///
    /// Definitions: [`Format`](formats::Format), [`padded`](numbers::Mode), [`Decodes`](decoding::Decodes).
    type DecodesUniquelyPadded;
    /// As [`DecodesUniquelyPadded`](decoding::DecodesUniquelyPadded), for a format that takes all of the bytes: `encoding` is a possibly padded encoding of `x`, and as a whole decodes to `x` alone.
    ///
    /// ```text
    /// pub record DecodesWholePadded {X : Type 0} (F : Format X) (encoding : List ℕ) (x : X)
    ///     : Type 0 where
    ///   pub encodes : F padded encoding x
    ///   pub unique : (y : X) → F padded encoding y → y ≡ x
    /// ```
    ///
    /// Definitions: [`Format`](formats::Format), [`padded`](numbers::Mode).
    type DecodesWholePadded;
    /// Unambiguous: no two values, and no two lengths, decode from the front of the same bytes.
    ///
    /// ```text
    /// abbrev pub DeterminesPrefix : {X : Type 0} → Encoding X → Type 0
    /// DeterminesPrefix {X} S = (s t r q : List ℕ) (x y : X) → S s x → S t y → s ++ r ≡ t ++ q
    ///     → (x ≡ y) × (s ≡ t) × (r ≡ q)
    /// ```
    ///
    /// Definitions: [`Encoding`](formats::Encoding).
    type DeterminesPrefix;
    /// Unambiguous as a whole: no two values have the same encoding.
    ///
    /// ```text
    /// abbrev pub DeterminesWhole : {X : Type 0} → Encoding X → Type 0
    /// DeterminesWhole {X} S = (s : List ℕ) (x y : X) → S s x → S s y → x ≡ y
    /// ```
    ///
    /// Definitions: [`Encoding`](formats::Encoding).
    type DeterminesWhole;
    /// A value has at most one encoding.
    ///
    /// ```text
    /// abbrev pub HasOneEncoding : {X : Type 0} → Encoding X → Type 0
    /// HasOneEncoding {X} S = (s t : List ℕ) (x : X) → S s x → S t x → s ≡ t
    /// ```
    ///
    /// Definitions: [`Encoding`](formats::Encoding).
    type HasOneEncoding;
    /// Every encoding by `S` is an encoding of the same value by `T`.
    ///
    /// ```text
    /// abbrev pub IsIncludedIn : {X : Type 0} → Encoding X → Encoding X → Type 0
    /// IsIncludedIn {X} S T = (s : List ℕ) (x : X) → S s x → T s x
    /// ```
    ///
    /// Definitions: [`Encoding`](formats::Encoding).
    type IsIncludedIn;
    /// Every value that `S` encodes has an encoding by `T` that is at most as long.
    ///
    /// ```text
    /// abbrev pub ShrinksTo : {X : Type 0} → Encoding X → Encoding X → Type 0
    /// ShrinksTo {X} S T = (s : List ℕ) (x : X) → S s x
    ///     → (t : List ℕ) × T t x × (length t ≤ length s)
    /// ```
    ///
    /// Definitions: [`Encoding`](formats::Encoding).
    type ShrinksTo;
    /// In each grammar a value that has a padded encoding has exactly one minimal encoding, which is at most as long. A mode has all encodings of each mode that is [`Below`](numbers::Below) it.
    ///
    /// ```text
    /// pub record HasEncodings {X : Type 0} (F : Format X) : Type 0 where
    ///   pub one : (w : Grammar) → HasOneEncoding (F (minimal_of w))
    ///   pub included : (m n : Mode) → Below m n → IsIncludedIn (F m) (F n)
    ///   pub shorter : (w : Grammar) → ShrinksTo (F (padded_of w)) (F (minimal_of w))
    /// ```
    ///
    /// Definitions: [`Format`](formats::Format), [`Grammar`](numbers::Grammar), [`HasOneEncoding`](decoding::HasOneEncoding), [`minimal_of`](numbers::minimal_of), [`Mode`](numbers::Mode), [`Below`](numbers::Below), [`IsIncludedIn`](decoding::IsIncludedIn), [`ShrinksTo`](decoding::ShrinksTo), [`padded_of`](numbers::padded_of).
    type HasEncodings;
    /// A format whose encodings determine their own end is unambiguous in every mode, with encodings as [`HasEncodings`](decoding::HasEncodings) states.
    ///
    /// ```text
    /// pub record Unambiguous {X : Type 0} (F : Format X) : Type 0 where
    ///   pub unique : (mode : Mode) → DeterminesPrefix (F mode)
    ///   pub encodings : HasEncodings F
    /// ```
    ///
    /// Definitions: [`Format`](formats::Format), [`Mode`](numbers::Mode), [`DeterminesPrefix`](decoding::DeterminesPrefix), [`HasEncodings`](decoding::HasEncodings).
    type Unambiguous;
    /// A format that takes all of the bytes is unambiguous in every mode, with encodings as [`HasEncodings`](decoding::HasEncodings) states.
    ///
    /// ```text
    /// pub record UnambiguousWhole {X : Type 0} (F : Format X) : Type 0 where
    ///   pub whole : (mode : Mode) → DeterminesWhole (F mode)
    ///   pub encodings : HasEncodings F
    /// ```
    ///
    /// Definitions: [`Format`](formats::Format), [`Mode`](numbers::Mode), [`DeterminesWhole`](decoding::DeterminesWhole), [`HasEncodings`](decoding::HasEncodings).
    type UnambiguousWhole;
    /// Each value that fits has the minimal encoding `encoding x`.
    ///
    /// ```text
    /// pub record HasMinimalEncodings {X : Type 0} (F : Format X) (Encodable : X → Type 0)
    ///     (encoding : X → List ℕ) : Type 0 where
    ///   pub encodes : (x : X) → Encodable x → F minimal (encoding x) x
    /// ```
    ///
    /// Definitions: [`Format`](formats::Format), [`minimal`](numbers::Mode).
    type HasMinimalEncodings;
    /// With padding allowed a format is unambiguous, and it keeps every minimal encoding.
    ///
    /// ```text
    /// pub record UnambiguousPadded {X : Type 0} (F : Format X) : Type 0 where
    ///   pub unique : DeterminesPrefix (F padded)
    ///   pub included : IsIncludedIn (F minimal) (F padded)
    /// ```
    ///
    /// Definitions: [`Format`](formats::Format), [`DeterminesPrefix`](decoding::DeterminesPrefix), [`padded`](numbers::Mode), [`IsIncludedIn`](decoding::IsIncludedIn), [`minimal`](numbers::Mode).
    type UnambiguousPadded;
    /// As [`UnambiguousPadded`](decoding::UnambiguousPadded), for a format that takes all of the bytes.
    ///
    /// ```text
    /// pub record UnambiguousWholePadded {X : Type 0} (F : Format X) : Type 0 where
    ///   pub whole : DeterminesWhole (F padded)
    ///   pub included : IsIncludedIn (F minimal) (F padded)
    /// ```
    ///
    /// Definitions: [`Format`](formats::Format), [`DeterminesWhole`](decoding::DeterminesWhole), [`padded`](numbers::Mode), [`IsIncludedIn`](decoding::IsIncludedIn), [`minimal`](numbers::Mode).
    type UnambiguousWholePadded;
    /// Each encoding, in any mode, has a first byte with the property.
    ///
    /// ```text
    /// abbrev pub BeginsWith : {X : Type 0} → (ℕ → Type 0) → Format X → Type 0
    /// BeginsWith {X} P F = (mode : Mode) (s : List ℕ) (x : X) → F mode s x
    ///     → (b : ℕ) × (rest : List ℕ) × (s ≡ b ∷ rest) × P b
    /// ```
    ///
    /// Definitions: [`Format`](formats::Format), [`Mode`](numbers::Mode).
    type BeginsWith;
}

/// The encodings of vectors, size-prefixed bytes, sections and modules, and when their counts and sizes fit.
///
/// [How to read definitions](super). The file is [`Encodings.antt`](https://github.com/dolzhytik/dolzhytik/blob/main/crates/wasm_base/specs/Encodings.antt).
pub trait encodings {
    /// The largest count, length or size that an encoding can have: 2^32 - 1.
    ///
    /// ```text
    /// abbrev pub longest : ℕ
    /// longest = 4294967295
    /// ```
    type longest;
    /// The encoding of a vector: a count, then the members.
    ///
    /// ```text
    /// abbrev pub vec_encoding : {T : Type 0} → (T → List ℕ) → List T → List ℕ
    /// vec_encoding encoding xs = unsigned_encoding (length xs) ++ flat_map encoding xs
    /// ```
    ///
    /// Definitions: [`unsigned_encoding`](numbers::unsigned_encoding).
    type vec_encoding;
    /// A vector of at most 2^32 - 1 members, each of which fits.
    ///
    /// ```text
    /// pub record IsEncodableVec {T : Type 0} (Encodable : T → Type 0) (xs : List T)
    ///     : Type 0 where
    ///   pub count : length xs ≤ longest
    ///   pub members : All Encodable xs
    /// ```
    ///
    /// Definitions: [`longest`](encodings::longest).
    type IsEncodableVec;
    /// The encoding of an optional value: no bytes if there is none.
    ///
    /// ```text
    /// abbrev pub optional_encoding : {X : Type 0} → (X → List ℕ) → Option X → List ℕ
    /// optional_encoding encoding None = []
    /// optional_encoding encoding (Some x) = encoding x
    /// ```
    type optional_encoding;
    /// The encoding of size-prefixed bytes: a size, then that many bytes.
    ///
    /// ```text
    /// abbrev pub size_prefixed_encoding : List ℕ → List ℕ
    /// size_prefixed_encoding bytes = unsigned_encoding (length bytes) ++ bytes
    /// ```
    ///
    /// Definitions: [`unsigned_encoding`](numbers::unsigned_encoding).
    type size_prefixed_encoding;
    /// The size of the bytes is at most 2^32 - 1.
    ///
    /// ```text
    /// abbrev pub HasEncodableSize : List ℕ → Type 0
    /// HasEncodableSize bytes = length bytes ≤ longest
    /// ```
    ///
    /// Definitions: [`longest`](encodings::longest).
    type HasEncodableSize;
    /// A number in `n` little-endian bytes.
    ///
    /// ```text
    /// abbrev pub little_endian_encoding : ℕ → ℕ → List ℕ
    /// little_endian_encoding zero v = []
    /// little_endian_encoding (suc n) v = v % 256 ∷ little_endian_encoding n (v / 256)
    /// ```
    type little_endian_encoding;
    /// The encoding of a section with an opaque payload: its id, then the size-prefixed payload.
    ///
    /// ```text
    /// abbrev pub any_section_encoding : ℕ × List ℕ → List ℕ
    /// any_section_encoding section = section.0 ∷ size_prefixed_encoding section.1
    /// ```
    ///
    /// Definitions: [`size_prefixed_encoding`](encodings::size_prefixed_encoding).
    type any_section_encoding;
    /// The size of the payload is at most 2^32 - 1.
    ///
    /// ```text
    /// abbrev pub IsEncodableAnySection : ℕ × List ℕ → Type 0
    /// IsEncodableAnySection section = HasEncodableSize section.1
    /// ```
    ///
    /// Definitions: [`HasEncodableSize`](encodings::HasEncodableSize).
    type IsEncodableAnySection;
    /// The encoding of a module: the header, then the sections one after another.
    ///
    /// ```text
    /// unfoldable pub module_encoding : List (ℕ × List ℕ) → List ℕ
    /// module_encoding sections = header ++ flat_map any_section_encoding sections
    /// ```
    ///
    /// Definitions: [`header`](formats::header), [`any_section_encoding`](encodings::any_section_encoding).
    type module_encoding;
    /// Each section of the module fits.
    ///
    /// ```text
    /// abbrev pub IsEncodableModule : List (ℕ × List ℕ) → Type 0
    /// IsEncodableModule sections = All IsEncodableAnySection sections
    /// ```
    ///
    /// Definitions: [`IsEncodableAnySection`](encodings::IsEncodableAnySection).
    type IsEncodableModule;
    /// `encoding` is exactly these bytes after their size prefix, and their size fits.
    ///
    /// ```text
    /// pub record IsSizePrefixed (encoding bytes : List ℕ) : Type 0 where
    ///   pub is : encoding ≡ size_prefixed_encoding bytes
    ///   pub encodable : HasEncodableSize bytes
    /// ```
    ///
    /// Definitions: [`size_prefixed_encoding`](encodings::size_prefixed_encoding), [`HasEncodableSize`](encodings::HasEncodableSize).
    type IsSizePrefixed;
    /// Size-prefixed bytes of a fitting size satisfy [`IsSizePrefixed`](encodings::IsSizePrefixed).
    ///
    /// ```text
    /// pub raw_sized : (given bytes : List ℕ) → HasEncodableSize given → bytes ≡ given
    ///     → IsSizePrefixed (size_prefixed_encoding given) bytes
    /// raw_sized given bytes encodable e = record
    ///     { is = sym (ap size_prefixed_encoding e);
    ///     encodable = subst HasEncodableSize (sym e) encodable }
    /// ```
    ///
    /// Definitions: [`HasEncodableSize`](encodings::HasEncodableSize), [`IsSizePrefixed`](encodings::IsSizePrefixed), [`size_prefixed_encoding`](encodings::size_prefixed_encoding).
    type raw_sized;
}

/// The entries of a builder: the arguments of adding calls, and the items that a section of them encodes.
///
/// [How to read definitions](super). The file is [`Entries.antt`](https://github.com/dolzhytik/dolzhytik/blob/main/crates/wasm_base/specs/Entries.antt).
pub trait entries {
    /// A kind of items. It has the encoding of a record, its well-formedness without and with padding in expressions, the item that it encodes, and the format of items.
    ///
    /// ```text
    /// pub record Kind (Record Item : Type 0) : Type 1 where
    ///   pub encoding : Record → List ℕ
    ///   pub IsWellFormed : Record → Type 0
    ///   pub IsWellFormedPadded : Record → Type 0
    ///   pub normal_form : Record → Item
    ///   pub format : Format Item
    /// ```
    ///
    /// Definitions: [`Format`](formats::Format).
    type Kind;
    /// An argument of an adding call: a record, or a piece of bytes that is encoded already.
    ///
    /// ```text
    /// pub data Entry (Record : Type 0) : Type 0 where
    ///   Given : Record → Entry Record
    ///   Raw : List ℕ → Entry Record
    /// ```
    type Entry;
    /// The bytes that an entry adds to the section.
    ///
    /// ```text
    /// abbrev pub entry_encoding
    ///     : {Record : Type 0} → (Record → List ℕ) → Entry Record → List ℕ
    /// entry_encoding encoding (Given given) = encoding given
    /// entry_encoding encoding (Raw piece) = piece
    /// ```
    ///
    /// Definitions: [`Entry`](entries::Entry), [`Given`](entries::Entry), [`Raw`](entries::Entry).
    type entry_encoding;
    /// The entry encodes this item: the normal form of a well-formed record, or an item that a raw piece minimally encodes.
    ///
    /// ```text
    /// abbrev pub Means : {Record Item : Type 0} → Kind Record Item → Entry Record → Item
    ///     → Type 0
    /// Means kind (Given given) item = kind.IsWellFormed given
    ///     × (item ≡ kind.normal_form given)
    /// Means kind (Raw piece) item = kind.format minimal piece item
    /// ```
    ///
    /// Definitions: [`Kind`](entries::Kind), [`Entry`](entries::Entry), [`Given`](entries::Entry), [`Raw`](entries::Entry), [`minimal`](numbers::Mode).
    type Means;
    /// The pieces encode these entries, one each, and the entries encode these items.
    ///
    /// ```text
    /// pub record ContainsItems {Record Item : Type 0} (kind : Kind Record Item)
    ///     (pieces : List (List ℕ)) (items : List Item) : Type 0 where
    ///   pub entries : List (Entry Record)
    ///   pub held : pieces ≡ map (entry_encoding kind.encoding) entries
    ///   pub meant : AllZip (Means kind) entries items
    /// ```
    ///
    /// Definitions: [`Kind`](entries::Kind), [`Entry`](entries::Entry), [`entry_encoding`](entries::entry_encoding), [`Means`](entries::Means).
    type ContainsItems;
    /// The piece is a possibly padded encoding of the item. A piece longer than 2^32 - 1 bytes is not constrained, since no section that encodes has one.
    ///
    /// ```text
    /// abbrev pub EncodesPadded : {Item : Type 0} → Format Item → List ℕ → Item → Type 0
    /// EncodesPadded F piece item = HasEncodableSize piece → F padded piece item
    /// ```
    ///
    /// Definitions: [`Format`](formats::Format), [`HasEncodableSize`](encodings::HasEncodableSize), [`padded`](numbers::Mode).
    type EncodesPadded;
    /// There is one piece for each item, a possibly padded encoding of it as [`EncodesPadded`](entries::EncodesPadded) states.
    ///
    /// ```text
    /// pub record ContainsPadded {Item : Type 0} (F : Format Item) (pieces : List (List ℕ))
    ///     (items : List Item) : Type 0 where
    ///   pub encodes : AllZip (EncodesPadded F) pieces items
    /// ```
    ///
    /// Definitions: [`Format`](formats::Format), [`EncodesPadded`](entries::EncodesPadded).
    type ContainsPadded;
    /// A section of counted items: a size-prefixed vector. Core specification, Binary Format, Modules, Sections.
    ///
    /// ```text
    /// abbrev pub counted_format : {Item : Type 0} → Format Item → Format (List Item)
    /// counted_format F = size_prefixed (vec F)
    /// ```
    ///
    /// Definitions: [`Format`](formats::Format), [`size_prefixed`](formats::size_prefixed), [`vec`](formats::vec).
    type counted_format;
    /// The laws of a kind of items: the format is unambiguous, and a well-formed record whose size fits encodes its normal form.
    ///
    /// ```text
    /// pub record ItemLaws {Record Item : Type 0} (kind : Kind Record Item) : Type 0 where
    ///   pub unique : Unambiguous kind.format
    ///   pub encodes : (given : Record) → kind.IsWellFormed given
    ///       → HasEncodableSize (kind.encoding given)
    ///       → kind.format minimal (kind.encoding given) (kind.normal_form given)
    /// ```
    ///
    /// Definitions: [`Kind`](entries::Kind), [`Unambiguous`](decoding::Unambiguous), [`HasEncodableSize`](encodings::HasEncodableSize), [`minimal`](numbers::Mode).
    type ItemLaws;
}

/// The errors of calls that decode: a cause, and the number of bytes left.
///
/// [How to read definitions](super). The file is [`Faults.antt`](https://github.com/dolzhytik/dolzhytik/blob/main/crates/wasm_base/specs/Faults.antt).
pub trait faults {
    /// A failed decoding: its cause, and how many bytes of the input are left.
    ///
    /// ```text
    /// pub record Failure : Type 0 where
    ///   pub cause : ReadFault
    ///   pub left : ℕ
    /// ```
    type Failure;
    /// The number of a cause.
    ///
    /// ```text
    /// abbrev pub cause_number : ReadFault → ℕ
    /// cause_number Ended = 0
    /// cause_number NotShortest = 1
    /// cause_number TooLarge = 2
    /// cause_number UnknownTag = 3
    /// cause_number UnknownOpcode = 4
    /// cause_number NotUtf8 = 5
    /// cause_number SizeMismatch = 6
    /// cause_number Memory = 7
    /// ```
    type cause_number;
    /// The cause of a number. It is `Memory` for numbers of no other cause.
    ///
    /// ```text
    /// abbrev pub cause_numbered : ℕ → ReadFault
    /// cause_numbered n =
    ///     if n == 0 then Ended
    ///     else if n == 1 then NotShortest
    ///     else if n == 2 then TooLarge
    ///     else if n == 3 then UnknownTag
    ///     else if n == 4 then UnknownOpcode
    ///     else if n == 5 then NotUtf8
    ///     else if n == 6 then SizeMismatch
    ///     else Memory
    /// ```
    type cause_numbered;
    /// A failure as one number: the number of bytes left times 256, plus the number of the cause.
    ///
    /// ```text
    /// abbrev pub word_of : Failure → ℕ
    /// word_of f = f.left * 256 + cause_number f.cause
    /// ```
    ///
    /// Definitions: [`Failure`](faults::Failure), [`cause_number`](faults::cause_number).
    type word_of;
    /// The failure of such a number.
    ///
    /// ```text
    /// abbrev pub failure_of : ℕ → Failure
    /// failure_of word = record { cause = cause_numbered (word % 256); left = word / 256 }
    /// ```
    ///
    /// Definitions: [`Failure`](faults::Failure), [`cause_numbered`](faults::cause_numbered).
    type failure_of;
    /// The number is that of a failure, whose number of bytes left is below 2^32.
    ///
    /// ```text
    /// pub record IsWord (word : ℕ) : Type 0 where
    ///   pub is_number : word_of (failure_of word) ≡ word
    ///   pub left : word / 256 < 2 ^ 32
    /// ```
    ///
    /// Definitions: [`word_of`](faults::word_of), [`failure_of`](faults::failure_of).
    type IsWord;
}

/// Formats, which relate bytes to the values that they encode, and the combinators that build formats.
///
/// - Numbers and bytes: [`u32`](formats::u32), [`u64`](formats::u64), [`s32`](formats::s32), [`s64`](formats::s64), [`s33`](formats::s33), [`byte`](formats::byte), [`raw_bytes`](formats::raw_bytes), [`any_bytes`](formats::any_bytes), [`AreBytes`](formats::AreBytes), [`bytes_sum`](formats::bytes_sum), [`little_endian`](formats::little_endian).
/// - Combinators: [`fixed`](formats::fixed), [`impossible`](formats::impossible), [`such`](formats::such), [`when`](formats::when), [`mapped`](formats::mapped), [`Then`](formats::Then), [`pair`](formats::pair), [`tagged`](formats::tagged), [`choice`](formats::choice), [`prefixed`](formats::prefixed), [`members`](formats::members), [`vec`](formats::vec), [`SizePrefixed`](formats::SizePrefixed), [`size_prefixed`](formats::size_prefixed), [`ended`](formats::ended), [`optional`](formats::optional), [`is_given`](formats::is_given), [`one_of`](formats::one_of), [`coded`](formats::coded), [`numbered`](formats::numbered), [`just`](formats::just), [`after`](formats::after), [`by_mode`](formats::by_mode), [`after_byte`](formats::after_byte).
/// - Names and modules: [`name`](formats::name), [`custom`](formats::custom), [`header`](formats::header), [`any_section`](formats::any_section), [`wasm_module`](formats::wasm_module).
/// - Vectors of 128 bits: [`twos_complement`](formats::twos_complement), [`IsVector`](formats::IsVector), [`vector_format`](formats::vector_format).
///
/// [How to read definitions](super). The file is [`Formats.antt`](https://github.com/dolzhytik/dolzhytik/blob/main/crates/wasm_base/specs/Formats.antt).
pub trait formats {
    /// A relation of bytes to the values that they encode.
    ///
    /// ```text
    /// abbrev pub Encoding : Type 0 → Type 1
    /// Encoding X = List ℕ → X → Type 0
    /// ```
    type Encoding;
    /// A format: the encodings of values, for each mode.
    ///
    /// ```text
    /// abbrev pub Format : Type 0 → Type 1
    /// Format X = Mode → Encoding X
    /// ```
    ///
    /// Definitions: [`Mode`](numbers::Mode), [`Encoding`](formats::Encoding).
    type Format;
    /// An unsigned number of 32 bits: an index, a count or a size. Core specification, Binary Format, Values, Integers.
    ///
    /// ```text
    /// abbrev pub u32 : Format ℕ
    /// u32 mode = Unsigned mode 32
    /// ```
    ///
    /// Definitions: [`Format`](formats::Format), [`Unsigned`](numbers::Unsigned).
    type u32;
    /// An unsigned number of 64 bits.
    ///
    /// ```text
    /// abbrev pub u64 : Format ℕ
    /// u64 mode = Unsigned mode 64
    /// ```
    ///
    /// Definitions: [`Format`](formats::Format), [`Unsigned`](numbers::Unsigned).
    type u64;
    /// A signed number of 32 bits.
    ///
    /// ```text
    /// abbrev pub s32 : Format ℤ
    /// s32 mode = Signed mode 32
    /// ```
    ///
    /// Definitions: [`Format`](formats::Format), [`Signed`](numbers::Signed).
    type s32;
    /// A signed number of 64 bits.
    ///
    /// ```text
    /// abbrev pub s64 : Format ℤ
    /// s64 mode = Signed mode 64
    /// ```
    ///
    /// Definitions: [`Format`](formats::Format), [`Signed`](numbers::Signed).
    type s64;
    /// A number below 2^32, encoded as a signed number of 33 bits. Core specification, Binary Format, Types, Heap Types.
    ///
    /// ```text
    /// abbrev pub s33 : Format ℕ
    /// s33 mode s n = Signed mode 33 s (pos n)
    /// ```
    ///
    /// Definitions: [`Format`](formats::Format), [`Signed`](numbers::Signed).
    type s33;
    /// One byte. The format does not say that it is below 256.
    ///
    /// ```text
    /// abbrev pub byte : Format ℕ
    /// byte mode s b = s ≡ b ∷ []
    /// ```
    ///
    /// Definitions: [`Format`](formats::Format).
    type byte;
    /// A sequence of `n` bytes.
    ///
    /// ```text
    /// abbrev pub raw_bytes : ℕ → Format (List ℕ)
    /// raw_bytes n mode s x = (s ≡ x) × (length x ≡ n)
    /// ```
    ///
    /// Definitions: [`Format`](formats::Format).
    type raw_bytes;
    /// All of the bytes.
    ///
    /// ```text
    /// abbrev pub any_bytes : Format (List ℕ)
    /// any_bytes mode s x = s ≡ x
    /// ```
    ///
    /// Definitions: [`Format`](formats::Format).
    type any_bytes;
    /// Each number is below 256.
    ///
    /// ```text
    /// abbrev pub AreBytes : List ℕ → Type 0
    /// AreBytes = AllByRecursion (λ b. b < 0x100)
    /// ```
    type AreBytes;
    /// The little-endian sum of the bytes: the byte at offset i has weight 256^i.
    ///
    /// ```text
    /// abbrev pub bytes_sum : List ℕ → ℕ
    /// bytes_sum [] = 0
    /// bytes_sum (b ∷ bs) = b + 256 * bytes_sum bs
    /// ```
    type bytes_sum;
    /// A number in `n` little-endian bytes. Core specification, Binary Format, Values, Floating-Point.
    ///
    /// ```text
    /// abbrev pub little_endian : ℕ → Format ℕ
    /// little_endian n mode s v = (bytes_sum s ≡ v) × AreBytes s × (length s ≡ n)
    /// ```
    ///
    /// Definitions: [`Format`](formats::Format), [`bytes_sum`](formats::bytes_sum), [`AreBytes`](formats::AreBytes).
    type little_endian;
    /// Exactly these bytes, which encode exactly this value.
    ///
    /// ```text
    /// abbrev pub fixed : {X : Type 0} → List ℕ → X → Format X
    /// fixed bytes v mode s x = (s ≡ bytes) × (x ≡ v)
    /// ```
    ///
    /// Definitions: [`Format`](formats::Format).
    type fixed;
    /// No bytes encode any value.
    ///
    /// ```text
    /// abbrev pub impossible : {X : Type 0} → Format X
    /// impossible mode s x = ⊥
    /// ```
    ///
    /// Definitions: [`Format`](formats::Format).
    type impossible;
    /// The values of `F` with the property.
    ///
    /// ```text
    /// abbrev pub such : {X : Type 0} → (X → Type 0) → Format X → Format X
    /// such P F mode s x = F mode s x × P x
    /// ```
    ///
    /// Definitions: [`Format`](formats::Format).
    type such;
    /// `F` if the test holds, and `G` otherwise.
    ///
    /// ```text
    /// abbrev pub when : {X : Type 0} → Bool → Format X → Format X → Format X
    /// when test F G = cond test F G
    /// ```
    ///
    /// Definitions: [`Format`](formats::Format).
    type when;
    /// The images by `f` of the values of `F`.
    ///
    /// ```text
    /// abbrev pub mapped : {X Y : Type 0} → (X → Y) → Format X → Format Y
    /// mapped {X} f F mode s y = (x : X) × (f x ≡ y) × F mode s x
    /// ```
    ///
    /// Definitions: [`Format`](formats::Format).
    type mapped;
    /// A value of `F`, then a value of `G`, whose format may depend on the first value.
    ///
    /// ```text
    /// pub record Then {X Y : Type 0} (F : Format X) (G : X → Format Y) (mode : Mode)
    ///     (s : List ℕ) (p : X × Y) : Type 0 where
    ///   pub front : List ℕ
    ///   pub back : List ℕ
    ///   pub joined : s ≡ front ++ back
    ///   pub first : F mode front p.0
    ///   pub second : G p.0 mode back p.1
    /// ```
    ///
    /// Definitions: [`Format`](formats::Format), [`Mode`](numbers::Mode).
    type Then;
    /// A value of `F`, then a value of `G`.
    ///
    /// ```text
    /// abbrev pub pair : {X Y : Type 0} → Format X → Format Y → Format (X × Y)
    /// pair F G = Then F (λ x. G)
    /// ```
    ///
    /// Definitions: [`Format`](formats::Format), [`Then`](formats::Then).
    type pair;
    /// A tag, then the value whose format the tag selects.
    ///
    /// ```text
    /// abbrev pub tagged : {X Y : Type 0} → Format X → (X → Format Y) → Format Y
    /// tagged F G = mapped (λ p. p.1) (Then F G)
    /// ```
    ///
    /// Definitions: [`Format`](formats::Format), [`mapped`](formats::mapped), [`Then`](formats::Then).
    type tagged;
    /// The format that the list has for the tag `b`, or `other b` if the list has none.
    ///
    /// ```text
    /// abbrev pub choice : {X : Type 0} → List (ℕ × Format X) → (ℕ → Format X) → ℕ → Format X
    /// choice [] other b = other b
    /// choice (c ∷ cs) other b = when (b == c.0) c.1 (choice cs other b)
    /// ```
    ///
    /// Definitions: [`Format`](formats::Format), [`when`](formats::when).
    type choice;
    /// These bytes, then a value of `F`.
    ///
    /// ```text
    /// abbrev pub prefixed : {X : Type 0} → List ℕ → Format X → Format X
    /// prefixed bytes F = tagged (fixed bytes (tt {0})) (λ u. F)
    /// ```
    ///
    /// Definitions: [`Format`](formats::Format), [`tagged`](formats::tagged), [`fixed`](formats::fixed).
    type prefixed;
    /// Values of `F` one after another, without a count.
    ///
    /// ```text
    /// abbrev pub members : {X : Type 0} → Format X → Format (List X)
    /// members F mode s [] = s ≡ []
    /// members F mode s (x ∷ xs) = (front back : List ℕ) × (s ≡ front ++ back) × F mode front x
    ///     × members F mode back xs
    /// ```
    ///
    /// Definitions: [`Format`](formats::Format).
    type members;
    /// A vector (the standard's "list"): the count of its members, then the members. Core specification, Binary Format, Conventions.
    ///
    /// ```text
    /// abbrev pub vec : {X : Type 0} → Format X → Format (List X)
    /// vec F mode s xs = Then u32 (λ n. members F) mode s (length xs, xs)
    /// ```
    ///
    /// Definitions: [`Format`](formats::Format), [`Then`](formats::Then), [`u32`](formats::u32), [`members`](formats::members).
    type vec;
    /// A size prefix, then a payload of exactly that many bytes, which as a whole encode one value.
    ///
    /// ```text
    /// pub record SizePrefixed {X : Type 0} (F : Format X) (mode : Mode) (s : List ℕ) (x : X)
    ///     : Type 0 where
    ///   pub front : List ℕ
    ///   pub content : List ℕ
    ///   pub joined : s ≡ front ++ content
    ///   pub size : u32 mode front (length content)
    ///   pub encodes : F mode content x
    /// ```
    ///
    /// Definitions: [`Format`](formats::Format), [`Mode`](numbers::Mode), [`u32`](formats::u32).
    type SizePrefixed;
    /// Size-prefixed values of `F`, as a format.
    ///
    /// ```text
    /// abbrev pub size_prefixed : {X : Type 0} → Format X → Format X
    /// size_prefixed F = SizePrefixed F
    /// ```
    ///
    /// Definitions: [`Format`](formats::Format), [`SizePrefixed`](formats::SizePrefixed).
    type size_prefixed;
    /// Values of `F` one after another, then the byte `stop`.
    ///
    /// ```text
    /// abbrev pub ended : {X : Type 0} → ℕ → Format X → Format (List X)
    /// ended stop F mode s [] = s ≡ stop ∷ []
    /// ended stop F mode s (x ∷ xs) = (front back : List ℕ) × (s ≡ front ++ back)
    ///     × F mode front x × ended stop F mode back xs
    /// ```
    ///
    /// Definitions: [`Format`](formats::Format).
    type ended;
    /// A value of `F` if the flag is set, and no bytes otherwise.
    ///
    /// ```text
    /// abbrev pub optional : {X : Type 0} → Bool → Format X → Format (Option X)
    /// optional flag F = when flag (mapped Some F) (fixed [] None)
    /// ```
    ///
    /// Definitions: [`Format`](formats::Format), [`when`](formats::when), [`mapped`](formats::mapped), [`fixed`](formats::fixed).
    type optional;
    /// Whether an optional value is present.
    ///
    /// ```text
    /// abbrev pub is_given : {X : Type 0} → Option X → Bool
    /// is_given None = false
    /// is_given (Some x) = true
    /// ```
    type is_given;
    /// The encodings of `F` and those of `G`.
    ///
    /// ```text
    /// abbrev pub one_of : {X : Type 0} → Format X → Format X → Format X
    /// one_of F G mode s x = F mode s x ⊎ G mode s x
    /// ```
    ///
    /// Definitions: [`Format`](formats::Format).
    type one_of;
    /// One byte, the code of the value.
    ///
    /// ```text
    /// abbrev pub coded : {X : Type 0} → (X → ℕ) → Format X
    /// coded code mode s x = s ≡ code x ∷ []
    /// ```
    ///
    /// Definitions: [`Format`](formats::Format).
    type coded;
    /// An unsigned number of 32 bits, the code of the value.
    ///
    /// ```text
    /// abbrev pub numbered : {X : Type 0} → (X → ℕ) → Format X
    /// numbered code mode s x = u32 mode s (code x)
    /// ```
    ///
    /// Definitions: [`Format`](formats::Format), [`u32`](formats::u32).
    type numbered;
    /// The encodings of `x`, as a format without a value.
    ///
    /// ```text
    /// abbrev pub just : {X : Type 0} → X → Format X → Format (Unit {0})
    /// just x F mode s u = F mode s x
    /// ```
    ///
    /// Definitions: [`Format`](formats::Format).
    type just;
    /// An encoding of `x`, then a value of `G`.
    ///
    /// ```text
    /// abbrev pub after : {X Y : Type 0} → X → Format X → Format Y → Format Y
    /// after x F G = tagged (just x F) (λ u. G)
    /// ```
    ///
    /// Definitions: [`Format`](formats::Format), [`tagged`](formats::tagged), [`just`](formats::just).
    type after;
    /// `F` in the two modes of the builders' grammar; in the standard's grammar, `G` for minimal encodings and `H` for padded ones.
    ///
    /// ```text
    /// abbrev pub by_mode : {X : Type 0} → Format X → Format X → Format X → Format X
    /// by_mode F G H minimal = F minimal
    /// by_mode F G H padded = F padded
    /// by_mode F G H standard_minimal = G standard_minimal
    /// by_mode F G H standard = H standard
    /// ```
    ///
    /// Definitions: [`Format`](formats::Format), [`minimal`](numbers::Mode), [`padded`](numbers::Mode), [`standard_minimal`](numbers::Mode), [`standard`](numbers::Mode).
    type by_mode;
    /// The bytes that follow the byte `b` in an encoding of `F`.
    ///
    /// ```text
    /// abbrev pub after_byte : {X : Type 0} → Format X → ℕ → Format X
    /// after_byte F b mode s x = F mode (b ∷ s) x
    /// ```
    ///
    /// Definitions: [`Format`](formats::Format).
    type after_byte;
    /// A name: a length, then that many bytes of UTF-8. Core specification, Binary Format, Values, Names.
    ///
    /// ```text
    /// abbrev pub name : Format (List ℕ)
    /// name = such IsUtf8 (size_prefixed any_bytes)
    /// ```
    ///
    /// Definitions: [`Format`](formats::Format), [`such`](formats::such), [`size_prefixed`](formats::size_prefixed), [`any_bytes`](formats::any_bytes).
    type name;
    /// A custom section without its id: a size prefix, then a name and data up to the last byte. Core specification, Binary Format, Modules, Custom Section.
    ///
    /// ```text
    /// abbrev pub custom : Format (List ℕ × List ℕ)
    /// custom = size_prefixed (pair name any_bytes)
    /// ```
    ///
    /// Definitions: [`Format`](formats::Format), [`size_prefixed`](formats::size_prefixed), [`pair`](formats::pair), [`name`](formats::name), [`any_bytes`](formats::any_bytes).
    type custom;
    /// The magic and the version of a module. Core specification, Binary Format, Modules.
    ///
    /// ```text
    /// abbrev pub header : List ℕ
    /// header = 0x00 ∷ 0x61 ∷ 0x73 ∷ 0x6D ∷ 0x01 ∷ 0x00 ∷ 0x00 ∷ 0x00 ∷ []
    /// ```
    type header;
    /// A section with an opaque payload: an id byte, then size-prefixed bytes. Core specification, Binary Format, Modules, Sections.
    ///
    /// ```text
    /// abbrev pub any_section : Format (ℕ × List ℕ)
    /// any_section = pair byte (size_prefixed any_bytes)
    /// ```
    ///
    /// Definitions: [`Format`](formats::Format), [`pair`](formats::pair), [`byte`](formats::byte), [`size_prefixed`](formats::size_prefixed), [`any_bytes`](formats::any_bytes).
    type any_section;
    /// A module of opaque sections: the header, then sections up to the last byte.
    ///
    /// ```text
    /// abbrev pub wasm_module : Format (List (ℕ × List ℕ))
    /// wasm_module = prefixed header (members any_section)
    /// ```
    ///
    /// Definitions: [`Format`](formats::Format), [`prefixed`](formats::prefixed), [`header`](formats::header), [`members`](formats::members), [`any_section`](formats::any_section).
    type wasm_module;
    /// The two's complement of an integer, of this many bits.
    ///
    /// ```text
    /// abbrev pub twos_complement : ℕ → ℤ → ℕ
    /// twos_complement bits (pos n) = n
    /// twos_complement bits (negsuc n) = 2 ^ bits - suc n
    /// ```
    type twos_complement;
    /// A signed number of 128 bits.
    ///
    /// ```text
    /// abbrev pub IsVector : ℤ → Type 0
    /// IsVector (pos n) = n < 2 ^ 127
    /// IsVector (negsuc n) = n < 2 ^ 127
    /// ```
    type IsVector;
    /// A vector of 128 bits: 16 little-endian bytes in two's complement.
    ///
    /// ```text
    /// abbrev pub vector_format : Format ℤ
    /// vector_format mode s v = little_endian 16 mode s (twos_complement 128 v) × IsVector v
    /// ```
    ///
    /// Definitions: [`Format`](formats::Format), [`little_endian`](formats::little_endian), [`twos_complement`](formats::twos_complement), [`IsVector`](formats::IsVector).
    type vector_format;
}

/// The groups of seven bits at the front of bytes that unsigned and signed LEB128 have in common.
///
/// [How to read definitions](super). The file is [`Groups.antt`](https://github.com/dolzhytik/dolzhytik/blob/main/crates/wasm_base/specs/Groups.antt).
pub trait groups {
    /// Groups of seven bits, at most `limit` of them.
    ///
    /// ```text
    /// abbrev pub groups : ℕ → Format (List ℕ)
    /// groups limit mode s x = (s ≡ x) × AreGroups s × (length s ≤ limit)
    /// ```
    ///
    /// Definitions: [`Format`](formats::Format), [`AreGroups`](numbers::AreGroups).
    type groups;
    /// The bytes begin with LEB128 groups, followed by `rest`: their sum, 128 to the power of their number, and the last group.
    ///
    /// ```text
    /// pub record HasGroups (limit : ℕ) (bytes : List ℕ) (sum power last : ℕ) (rest : List ℕ)
    ///     : Type 0 where
    ///   pub front : List ℕ
    ///   pub read : Decodes (groups limit) padded bytes front rest
    ///   pub total : groups_sum front ≡ sum
    ///   pub count : 128 ^ length front ≡ power
    ///   pub end : last_byte front ≡ last
    /// ```
    ///
    /// Definitions: [`Decodes`](decoding::Decodes), [`groups`](groups::groups), [`padded`](numbers::Mode), [`groups_sum`](numbers::groups_sum), [`last_byte`](numbers::last_byte).
    type HasGroups;
    /// The signed number that groups encode in two's complement: bit 6 of the last group is the sign.
    ///
    /// ```text
    /// abbrev pub signed_of : ℕ → ℕ → ℕ → ℤ
    /// signed_of sum power last = if nat_lt last 0x40 then pos sum else (pos sum -ℤ pos power)
    /// ```
    type signed_of;
}

/// Iterators whose length is known before any item is taken.
///
/// [How to read definitions](super). The file is [`Iterators.antt`](https://github.com/dolzhytik/dolzhytik/blob/main/crates/wasm_base/specs/Iterators.antt).
pub trait iterators {
    /// Each iterator of the elements may be called, and yields as many items as it reports.
    ///
    /// ```text
    /// pub record HasKnownLength {U S T : Type 0} (becomes : U → S → Type 0)
    ///     (can_next : S → Type 0) (gives : S → Option T → S → Type 0) (remaining : S → Count)
    ///     (elements : U) : Type 0 where
    ///   pub can : (it : S) → becomes elements it → can_next it
    ///   pub reported : (it : S) (xs : List T) → becomes elements it → Drains gives it xs
    ///       → length xs ≡ size (remaining it)
    /// ```
    type HasKnownLength;
    /// The call appends the vector of the items that the iterator yields, or returns an error and leaves the bytes as they were. It returns `TooLong` if the iterator reports more than 2^32 - 1 items.
    ///
    /// ```text
    /// pub record AppendsVec {U S T A : Type 0} (becomes : U → S → Type 0)
    ///     (gives : S → Option T → S → Type 0) (remaining : S → Count) (Encodable : T → Type 0)
    ///     (encoding : T → List ℕ)
    ///     (elements : U) (old new : Vec ℕ A) (result : Result (Unit {0}) Refused)
    ///         : Type 0 where
    ///   pub ok : OnOk result ((it : S) × (xs : List T) × becomes elements it
    ///       × Drains gives it xs × IsEncodableVec Encodable xs
    ///       × (new.items ≡ old.items ++ vec_encoding encoding xs))
    ///   pub err : OnErr result (new.items ≡ old.items)
    ///   pub too_long : ((it : S) → becomes elements it → size (remaining it) ≤ longest)
    ///       → ((it left : S) (xs : List T) → becomes elements it → Yields gives it xs left
    ///           → All Encodable xs)
    ///       → result ≢ Err TooLong
    ///   pub too_many : ((it : S) → becomes elements it → longest < size (remaining it))
    ///       → result ≡ Err TooLong
    ///   pub capacity : vec_capacity old ≤ vec_capacity new
    /// ```
    ///
    /// Definitions: [`IsEncodableVec`](encodings::IsEncodableVec), [`vec_encoding`](encodings::vec_encoding), [`longest`](encodings::longest).
    type AppendsVec;
}

/// Which values fit their encodings, and how the items of a section grow call by call, for the laws.
///
/// - The items of a section, call by call: [`ContainsMore`](laws::ContainsMore), [`ContainsMorePadded`](laws::ContainsMorePadded), [`RejectsAllAfterPadded`](laws::RejectsAllAfterPadded).
///
/// [How to read definitions](super). The file is [`Laws.antt`](https://github.com/dolzhytik/dolzhytik/blob/main/crates/wasm_base/specs/Laws.antt).
pub trait laws {
    /// A number of at most this many bits.
    ///
    /// ```text
    /// abbrev pub IsUnsignedInRange : ℕ → ℕ → Type 0
    /// IsUnsignedInRange bits n = n < 2 ^ bits
    /// ```
    type IsUnsignedInRange;
    /// A number of at most `n` bytes.
    ///
    /// ```text
    /// abbrev pub IsByteNumberInRange : ℕ → ℕ → Type 0
    /// IsByteNumberInRange n v = v < 256 ^ n
    /// ```
    type IsByteNumberInRange;
    /// A signed number of 32 bits.
    ///
    /// ```text
    /// abbrev pub IsSigned32InRange : ℤ → Type 0
    /// IsSigned32InRange v = (neg_ℤ (pos (2 ^ 31)) ≤ℤ v) × (v <ℤ pos (2 ^ 31))
    /// ```
    type IsSigned32InRange;
    /// A signed number of 64 bits.
    ///
    /// ```text
    /// abbrev pub IsSigned64InRange : ℤ → Type 0
    /// IsSigned64InRange v = (neg_ℤ (pos (2 ^ 63)) ≤ℤ v) × (v <ℤ pos (2 ^ 63))
    /// ```
    type IsSigned64InRange;
    /// UTF-8 whose length is at most 2^32 - 1.
    ///
    /// ```text
    /// abbrev pub IsEncodableName : List ℕ → Type 0
    /// IsEncodableName bytes = IsUtf8 bytes × HasEncodableSize bytes
    /// ```
    ///
    /// Definitions: [`HasEncodableSize`](encodings::HasEncodableSize).
    type IsEncodableName;
    /// The encoding of a custom section without its id: a size prefix, a name and data.
    ///
    /// ```text
    /// abbrev pub custom_encoding : List ℕ × List ℕ → List ℕ
    /// custom_encoding c = size_prefixed_encoding (size_prefixed_encoding c.0 ++ c.1)
    /// ```
    ///
    /// Definitions: [`size_prefixed_encoding`](encodings::size_prefixed_encoding).
    type custom_encoding;
    /// A name and data whose sizes are at most 2^32 - 1.
    ///
    /// ```text
    /// pub record IsEncodableCustom (c : List ℕ × List ℕ) : Type 0 where
    ///   pub name : IsEncodableName c.0
    ///   pub size : HasEncodableSize (size_prefixed_encoding c.0 ++ c.1)
    /// ```
    ///
    /// Definitions: [`IsEncodableName`](laws::IsEncodableName), [`HasEncodableSize`](encodings::HasEncodableSize), [`size_prefixed_encoding`](encodings::size_prefixed_encoding).
    type IsEncodableCustom;
    /// A section without entries holds no items. The entry of a well-formed record adds its normal form, and an entry of raw bytes adds the item that they minimally encode. `add_all` adds its records as if one by one.
    ///
    /// ```text
    /// pub record ContainsMore {Record Item : Type 0} (kind : Kind Record Item) : Type 0 where
    ///   pub none : ContainsItems kind [] []
    ///   pub given : (pieces : List (List ℕ)) (items : List Item) (given : Record)
    ///       → ContainsItems kind pieces items → kind.IsWellFormed given
    ///       → ContainsItems kind (pieces ++ kind.encoding given ∷ [])
    ///       (items ++ kind.normal_form given ∷ [])
    ///   pub raw : (pieces : List (List ℕ)) (items : List Item) (piece : List ℕ) (item : Item)
    ///       → ContainsItems kind pieces items → kind.format minimal piece item
    ///       → ContainsItems kind (pieces ++ piece ∷ []) (items ++ item ∷ [])
    ///   pub all : (pieces : List (List ℕ)) (items : List Item) (given : List Record)
    ///       → ContainsItems kind pieces items → AllByRecursion kind.IsWellFormed given
    ///       → ContainsItems kind (pieces ++ map kind.encoding given)
    ///       (items ++ map kind.normal_form given)
    /// ```
    ///
    /// Definitions: [`Kind`](entries::Kind), [`ContainsItems`](entries::ContainsItems), [`minimal`](numbers::Mode).
    type ContainsMore;
    /// As [`ContainsMore`](laws::ContainsMore), for padded LEB128. A section holds all that it holds in minimal encodings. A record that is well-formed, with possibly padded expressions, adds its normal form. Raw bytes add the item that they encode, possibly padded.
    ///
    /// ```text
    /// pub record ContainsMorePadded {Record Item : Type 0} (kind : Kind Record Item)
    ///     : Type 0 where
    ///   pub none : ContainsPadded kind.format [] []
    ///   pub held : (pieces : List (List ℕ)) (items : List Item)
    ///       → ContainsItems kind pieces items → ContainsPadded kind.format pieces items
    ///   pub included : (given : Record) → kind.IsWellFormed given
    ///       → kind.IsWellFormedPadded given
    ///   pub given : (pieces : List (List ℕ)) (items : List Item) (given : Record)
    ///       → ContainsPadded kind.format pieces items → kind.IsWellFormedPadded given
    ///       → ContainsPadded kind.format (pieces ++ kind.encoding given ∷ [])
    ///       (items ++ kind.normal_form given ∷ [])
    ///   pub raw : (pieces : List (List ℕ)) (items : List Item) (piece : List ℕ) (item : Item)
    ///       → ContainsPadded kind.format pieces items → kind.format padded piece item
    ///       → ContainsPadded kind.format (pieces ++ piece ∷ []) (items ++ item ∷ [])
    ///   pub all : (pieces : List (List ℕ)) (items : List Item) (given : List Record)
    ///       → ContainsPadded kind.format pieces items
    ///       → AllByRecursion kind.IsWellFormedPadded given
    ///       → ContainsPadded kind.format (pieces ++ map kind.encoding given)
    ///       (items ++ map kind.normal_form given)
    /// ```
    ///
    /// Definitions: [`Kind`](entries::Kind), [`ContainsPadded`](entries::ContainsPadded), [`ContainsItems`](entries::ContainsItems), [`padded`](numbers::Mode).
    type ContainsMorePadded;
    /// In neither mode of the builders' grammar does a value decode from the front of the bytes, whatever follows them.
    ///
    /// ```text
    /// pub record RejectsAllAfterPadded {X : Type 0} (F : Format X) (encoding : List ℕ)
    ///     : Type 0 where
    ///   pub none : (mode : Mode) → IsOfBuilders mode → (after : List ℕ)
    ///       → Rejects F mode (encoding ++ after)
    /// ```
    ///
    /// Definitions: [`Format`](formats::Format), [`Mode`](numbers::Mode), [`IsOfBuilders`](numbers::IsOfBuilders), [`Rejects`](decoding::Rejects).
    type RejectsAllAfterPadded;
}

/// Calls that append the minimal encoding of a value, which was decoded before or is decoded by the call.
///
/// [How to read definitions](super). The file is [`Minimal.antt`](https://github.com/dolzhytik/dolzhytik/blob/main/crates/wasm_base/specs/Minimal.antt).
pub trait minimal {
    /// The grammars whose minimal encodings a call writes.
    ///
    /// ```text
    /// pub data Grammars : Type 0 where
    ///   builders_alone : Grammars
    ///   both_grammars : Grammars
    /// ```
    type Grammars;
    /// The grammar is one of them.
    ///
    /// ```text
    /// abbrev pub Includes : Grammars → Grammar → Type 0
    /// Includes builders_alone builders = Unit {0}
    /// Includes builders_alone admitted = ⊥
    /// Includes both_grammars w = Unit {0}
    /// ```
    ///
    /// Definitions: [`Grammars`](minimal::Grammars), [`Grammar`](numbers::Grammar), [`builders_alone`](minimal::Grammars), [`builders`](numbers::Grammar), [`admitted`](numbers::Grammar), [`both_grammars`](minimal::Grammars).
    type Includes;
    /// What both of them include.
    ///
    /// ```text
    /// abbrev pub common_grammars : Grammars → Grammars → Grammars
    /// common_grammars builders_alone k = builders_alone
    /// common_grammars both_grammars k = k
    /// ```
    ///
    /// Definitions: [`Grammars`](minimal::Grammars), [`builders_alone`](minimal::Grammars), [`both_grammars`](minimal::Grammars).
    type common_grammars;
    /// In each of these grammars in which some bytes decode to `x`, `encoding` is the minimal encoding of `x`.
    ///
    /// ```text
    /// abbrev pub IsMinimalEncoding
    ///     : {X : Type 0} (k : Grammars) (F : Format X) (x : X) (encoding : List ℕ) → Type 0
    /// IsMinimalEncoding k F x encoding = (w : Grammar) → Includes k w → (s : List ℕ)
    ///     → F (padded_of w) s x → F (minimal_of w) encoding x
    /// ```
    ///
    /// Definitions: [`Grammars`](minimal::Grammars), [`Format`](formats::Format), [`Grammar`](numbers::Grammar), [`Includes`](minimal::Includes), [`padded_of`](numbers::padded_of), [`minimal_of`](numbers::minimal_of).
    type IsMinimalEncoding;
    /// The call appends the minimal encoding of `x` in each of these grammars.
    ///
    /// ```text
    /// pub record AppendsMinimal {X : Type 0} (k : Grammars) (F : Format X) (x : X)
    ///     (old new : List ℕ) : Type 0 where
    ///   pub encoding : List ℕ
    ///   pub appended : new ≡ old ++ encoding
    ///   pub encodes : IsMinimalEncoding k F x encoding
    /// ```
    ///
    /// Definitions: [`Grammars`](minimal::Grammars), [`Format`](formats::Format), [`IsMinimalEncoding`](minimal::IsMinimalEncoding).
    type AppendsMinimal;
    /// Some bytes decode to the value in one of these grammars.
    ///
    /// ```text
    /// pub record HasEncoding {X : Type 0} (k : Grammars) (F : Format X) (x : X) : Type 0 where
    ///   pub grammar : Grammar
    ///   pub included : Includes k grammar
    ///   pub bytes : List ℕ
    ///   pub decoded : F (padded_of grammar) bytes x
    /// ```
    ///
    /// Definitions: [`Grammars`](minimal::Grammars), [`Format`](formats::Format), [`Grammar`](numbers::Grammar), [`Includes`](minimal::Includes), [`padded_of`](numbers::padded_of).
    type HasEncoding;
    /// The new bytes begin with the old ones.
    ///
    /// ```text
    /// abbrev pub IsFrontOf : List ℕ → List ℕ → Type 0
    /// IsFrontOf old new = (more : List ℕ) × (new ≡ old ++ more)
    /// ```
    type IsFrontOf;
    /// A value decodes from the front of the bytes in this grammar, and `rest` follows it. The call appends the minimal encoding of the value in this grammar.
    ///
    /// ```text
    /// pub record Minimizes {X : Type 0} (w : Grammar) (F : Format X)
    ///     (bytes rest old new : List ℕ) : Type 0 where
    ///   pub value : X
    ///   pub decoded : Decodes F (padded_of w) bytes value rest
    ///   pub encoding : List ℕ
    ///   pub encodes : F (minimal_of w) encoding value
    ///   pub appended : new ≡ old ++ encoding
    /// ```
    ///
    /// Definitions: [`Grammar`](numbers::Grammar), [`Format`](formats::Format), [`Decodes`](decoding::Decodes), [`padded_of`](numbers::padded_of), [`minimal_of`](numbers::minimal_of).
    type Minimizes;
    /// The bytes as a whole decode to a value in this grammar, and the call appends the minimal encoding of the value in this grammar.
    ///
    /// ```text
    /// pub record MinimizesWhole {X : Type 0} (w : Grammar) (F : Format X)
    ///     (bytes old new : List ℕ) : Type 0 where
    ///   pub value : X
    ///   pub decoded : F (padded_of w) bytes value
    ///   pub encoding : List ℕ
    ///   pub encodes : F (minimal_of w) encoding value
    ///   pub appended : new ≡ old ++ encoding
    /// ```
    ///
    /// Definitions: [`Grammar`](numbers::Grammar), [`Format`](formats::Format), [`padded_of`](numbers::padded_of), [`minimal_of`](numbers::minimal_of).
    type MinimizesWhole;
    /// Whatever bytes a value decodes from, its encoding is the minimal one in the same grammar.
    ///
    /// ```text
    /// pub record EncodesMinimally {T X : Type 0} (F : Format X) (view : T → X)
    ///     (encoding : T → List ℕ) : Type 0 where
    ///   pub minimal_in : (w : Grammar) (s : List ℕ) (x : T) → F (padded_of w) s (view x)
    ///       → F (minimal_of w) (encoding x) (view x)
    /// ```
    ///
    /// Definitions: [`Format`](formats::Format), [`Grammar`](numbers::Grammar), [`padded_of`](numbers::padded_of), [`minimal_of`](numbers::minimal_of).
    type EncodesMinimally;
}

/// The sections that a module decodes to.
///
/// [How to read definitions](super). The file is [`Modules.antt`](https://github.com/dolzhytik/dolzhytik/blob/main/crates/wasm_base/specs/Modules.antt).
pub trait modules {
    /// A section as it decodes: its id, and a property of its payload.
    ///
    /// ```text
    /// abbrev pub SectionDecoding : Type 1
    /// SectionDecoding = ℕ × (List ℕ → Type 0)
    /// ```
    type SectionDecoding;
    /// The section of this id whose payload decodes to `x` alone, and is its one minimal encoding.
    ///
    /// ```text
    /// abbrev pub decoding_of : {X : Type 0} → ℕ → Format X → X → SectionDecoding
    /// decoding_of id F x = (id, λ payload. DecodesWhole F payload x)
    /// ```
    ///
    /// Definitions: [`Format`](formats::Format), [`SectionDecoding`](modules::SectionDecoding), [`DecodesWhole`](decoding::DecodesWhole).
    type decoding_of;
    /// The section of this id whose payload is a possibly padded encoding of `x`, and decodes to `x` alone.
    ///
    /// ```text
    /// abbrev pub padded_decoding_of : {X : Type 0} → ℕ → Format X → X → SectionDecoding
    /// padded_decoding_of id F x = (id, λ payload. DecodesWholePadded F payload x)
    /// ```
    ///
    /// Definitions: [`Format`](formats::Format), [`SectionDecoding`](modules::SectionDecoding), [`DecodesWholePadded`](decoding::DecodesWholePadded).
    type padded_decoding_of;
    /// The section of this id whose payload is these bytes.
    ///
    /// ```text
    /// abbrev pub raw_decoding : ℕ → List ℕ → SectionDecoding
    /// raw_decoding id bytes = decoding_of id any_bytes bytes
    /// ```
    ///
    /// Definitions: [`SectionDecoding`](modules::SectionDecoding), [`decoding_of`](modules::decoding_of), [`any_bytes`](formats::any_bytes).
    type raw_decoding;
    /// The sections have these ids and properties, one by one and in order.
    ///
    /// ```text
    /// abbrev pub AreDecoded : List SectionDecoding → List (ℕ × List ℕ) → Type 0
    /// AreDecoded [] [] = ⊤
    /// AreDecoded [] (s ∷ sections) = ⊥
    /// AreDecoded (r ∷ decodings) [] = ⊥
    /// AreDecoded (r ∷ decodings) (s ∷ sections) = (s.0 ≡ r.0) × r.1 s.1
    ///     × AreDecoded decodings sections
    /// ```
    ///
    /// Definitions: [`SectionDecoding`](modules::SectionDecoding).
    type AreDecoded;
    /// The bytes decode to a module of exactly these sections: each has the id, and its payload the property.
    ///
    /// ```text
    /// pub record DecodesSections (decodings : List SectionDecoding) (bytes : List ℕ)
    ///     : Type 0 where
    ///   pub sections : List (ℕ × List ℕ)
    ///   pub read : DecodesWhole wasm_module bytes sections
    ///   pub payloads : AreDecoded decodings sections
    /// ```
    ///
    /// Definitions: [`SectionDecoding`](modules::SectionDecoding), [`DecodesWhole`](decoding::DecodesWhole), [`wasm_module`](formats::wasm_module), [`AreDecoded`](modules::AreDecoded).
    type DecodesSections;
    /// The bytes gain an encoding that decodes to `x` alone.
    ///
    /// ```text
    /// pub record GainsDecoding {X : Type 0} (F : Format X) (x : X) (old new : List ℕ)
    ///     : Type 0 where
    ///   pub encoding : List ℕ
    ///   pub added : new ≡ old ++ encoding
    ///   pub unique : DecodesUniquely F encoding x
    /// ```
    ///
    /// Definitions: [`Format`](formats::Format), [`DecodesUniquely`](decoding::DecodesUniquely).
    type GainsDecoding;
    /// The bytes gain a possibly padded encoding that decodes to `x` alone.
    ///
    /// ```text
    /// pub record GainsDecodingPadded {X : Type 0} (F : Format X) (x : X) (old new : List ℕ)
    ///     : Type 0 where
    ///   pub encoding : List ℕ
    ///   pub added : new ≡ old ++ encoding
    ///   pub unique : DecodesUniquelyPadded F encoding x
    /// ```
    ///
    /// Definitions: [`Format`](formats::Format), [`DecodesUniquelyPadded`](decoding::DecodesUniquelyPadded).
    type GainsDecodingPadded;
    /// If size-prefixed bytes decode to `x` alone, their payload decodes to `x` alone.
    ///
    /// ```text
    /// pub record DecodesPayloads {X : Type 0} (F : Format X) : Type 0 where
    ///   pub unique : (encoding payload : List ℕ) (x : X) → IsSizePrefixed encoding payload
    ///       → DecodesUniquely (size_prefixed F) encoding x → DecodesWhole F payload x
    /// ```
    ///
    /// Definitions: [`Format`](formats::Format), [`IsSizePrefixed`](encodings::IsSizePrefixed), [`DecodesUniquely`](decoding::DecodesUniquely), [`size_prefixed`](formats::size_prefixed), [`DecodesWhole`](decoding::DecodesWhole).
    type DecodesPayloads;
    /// As [`DecodesPayloads`](modules::DecodesPayloads), for padded LEB128.
    ///
    /// ```text
    /// pub record DecodesPayloadsPadded {X : Type 0} (F : Format X) : Type 0 where
    ///   pub unique : (encoding payload : List ℕ) (x : X) → IsSizePrefixed encoding payload
    ///       → DecodesUniquelyPadded (size_prefixed F) encoding x
    ///       → DecodesWholePadded F payload x
    /// ```
    ///
    /// Definitions: [`Format`](formats::Format), [`IsSizePrefixed`](encodings::IsSizePrefixed), [`DecodesUniquelyPadded`](decoding::DecodesUniquelyPadded), [`size_prefixed`](formats::size_prefixed), [`DecodesWholePadded`](decoding::DecodesWholePadded).
    type DecodesPayloadsPadded;
}

/// LEB128, the encoding of numbers: groups of seven bits, one in each byte, the least significant group first. Core specification, Binary Format, Values, Integers.
///
/// - The bytes that are encoded: [`next_group`](numbers::next_group), [`last_group`](numbers::last_group), [`groups_of`](numbers::groups_of), [`groups_encoding`](numbers::groups_encoding), [`unsigned_encoding`](numbers::unsigned_encoding), [`signed_encoding`](numbers::signed_encoding). Groups encode a natural number `n`, which means itself, or `-n - 1` if `negative`.
///
/// [How to read definitions](super). The file is [`Numbers.antt`](https://github.com/dolzhytik/dolzhytik/blob/main/crates/wasm_base/specs/Numbers.antt).
pub trait numbers {
    /// The mode of an encoding. In the builders' grammar [`minimal`](numbers::Mode) is minimal LEB128 and [`padded`](numbers::Mode) may be padded; in the standard's grammar [`standard_minimal`](numbers::Mode) and [`standard`](numbers::Mode) are these two.
    ///
    /// ```text
    /// pub data Mode : Type 0 where
    ///   minimal : Mode
    ///   padded : Mode
    ///   standard_minimal : Mode
    ///   standard : Mode
    /// ```
    type Mode;
    /// The two grammars: the encodings that builders write, and all that the standard admits.
    ///
    /// ```text
    /// pub data Grammar : Type 0 where
    ///   builders : Grammar
    ///   admitted : Grammar
    /// ```
    type Grammar;
    /// The mode of minimal LEB128 in each grammar.
    ///
    /// ```text
    /// abbrev pub minimal_of : Grammar → Mode
    /// minimal_of builders = minimal
    /// minimal_of admitted = standard_minimal
    /// ```
    ///
    /// Definitions: [`Grammar`](numbers::Grammar), [`Mode`](numbers::Mode), [`builders`](numbers::Grammar), [`minimal`](numbers::Mode), [`admitted`](numbers::Grammar), [`standard_minimal`](numbers::Mode).
    type minimal_of;
    /// The mode of possibly padded LEB128 in each grammar.
    ///
    /// ```text
    /// abbrev pub padded_of : Grammar → Mode
    /// padded_of builders = padded
    /// padded_of admitted = standard
    /// ```
    ///
    /// Definitions: [`Grammar`](numbers::Grammar), [`Mode`](numbers::Mode), [`builders`](numbers::Grammar), [`padded`](numbers::Mode), [`admitted`](numbers::Grammar), [`standard`](numbers::Mode).
    type padded_of;
    /// Whether a grammar has all that the standard admits.
    ///
    /// ```text
    /// abbrev pub is_admitted : Grammar → Bool
    /// is_admitted builders = false
    /// is_admitted admitted = true
    /// ```
    ///
    /// Definitions: [`Grammar`](numbers::Grammar), [`builders`](numbers::Grammar), [`admitted`](numbers::Grammar).
    type is_admitted;
    /// The pairs of modes for which a format promises that the second admits every encoding of the first.
    ///
    /// ```text
    /// abbrev pub Below : Mode → Mode → Type 0
    /// Below minimal padded = Unit {0}
    /// Below standard_minimal standard = Unit {0}
    /// Below padded standard = Unit {0}
    /// Below _ _ = ⊥
    /// ```
    ///
    /// Definitions: [`Mode`](numbers::Mode), [`minimal`](numbers::Mode), [`padded`](numbers::Mode), [`standard_minimal`](numbers::Mode), [`standard`](numbers::Mode).
    type Below;
    /// A mode of the builders' grammar.
    ///
    /// ```text
    /// abbrev pub IsOfBuilders : Mode → Type 0
    /// IsOfBuilders minimal = Unit {0}
    /// IsOfBuilders padded = Unit {0}
    /// IsOfBuilders _ = ⊥
    /// ```
    ///
    /// Definitions: [`Mode`](numbers::Mode), [`minimal`](numbers::Mode), [`padded`](numbers::Mode).
    type IsOfBuilders;
    /// The bytes are LEB128 groups: bit 7 is set in every byte except the last.
    ///
    /// ```text
    /// abbrev pub AreGroups : List ℕ → Type 0
    /// AreGroups [] = ⊥
    /// AreGroups (b ∷ []) = b < 0x80
    /// AreGroups (b ∷ c ∷ bs) = (0x80 ≤ b) × (b < 0x100) × AreGroups (c ∷ bs)
    /// ```
    type AreGroups;
    /// The sum of the low seven bits of each byte: those at offset i have weight 128^i.
    ///
    /// ```text
    /// abbrev pub groups_sum : List ℕ → ℕ
    /// groups_sum [] = 0
    /// groups_sum (b ∷ bs) = b % 128 + 128 * groups_sum bs
    /// ```
    type groups_sum;
    /// The last of the bytes, and 0 if there is none.
    ///
    /// ```text
    /// abbrev pub last_byte : List ℕ → ℕ
    /// last_byte [] = 0
    /// last_byte (b ∷ []) = b
    /// last_byte (b ∷ c ∷ bs) = last_byte (c ∷ bs)
    /// ```
    type last_byte;
    /// The most bytes that an encoding of this many bits has: 5 for 32 and 33 bits, 10 for 64.
    ///
    /// ```text
    /// abbrev pub byte_limit : ℕ → ℕ
    /// byte_limit bits = (bits + 6) / 7
    /// ```
    type byte_limit;
    /// The length of an unsigned encoding. Minimal: one byte, or a last byte that is not 00. Padded: at most [`byte_limit`](numbers::byte_limit) bytes.
    ///
    /// ```text
    /// abbrev pub IsUnsignedSize : Mode → ℕ → List ℕ → Type 0
    /// IsUnsignedSize minimal bits s = (length s ≡ 1) ⊎ (0 < last_byte s)
    /// IsUnsignedSize padded bits s = length s ≤ byte_limit bits
    /// IsUnsignedSize standard_minimal bits s = (length s ≡ 1) ⊎ (0 < last_byte s)
    /// IsUnsignedSize standard bits s = length s ≤ byte_limit bits
    /// ```
    ///
    /// Definitions: [`Mode`](numbers::Mode), [`minimal`](numbers::Mode), [`last_byte`](numbers::last_byte), [`padded`](numbers::Mode), [`byte_limit`](numbers::byte_limit), [`standard_minimal`](numbers::Mode), [`standard`](numbers::Mode).
    type IsUnsignedSize;
    /// Unsigned LEB128: the bytes `s` encode the number `v` of at most this many bits.
    ///
    /// ```text
    /// pub record Unsigned (mode : Mode) (bits : ℕ) (s : List ℕ) (v : ℕ) : Type 0 where
    ///   pub groups : AreGroups s
    ///   pub total : groups_sum s ≡ v
    ///   pub range : v < 2 ^ bits
    ///   pub size : IsUnsignedSize mode bits s
    /// ```
    ///
    /// Definitions: [`Mode`](numbers::Mode), [`AreGroups`](numbers::AreGroups), [`groups_sum`](numbers::groups_sum), [`IsUnsignedSize`](numbers::IsUnsignedSize).
    type Unsigned;
    /// The signed sum in two's complement: bit 6 of the last byte is the sign.
    ///
    /// ```text
    /// abbrev pub signed_sum : List ℕ → ℤ
    /// signed_sum s = if nat_lt (last_byte s) 0x40 then pos (groups_sum s) else
    ///     (pos (groups_sum s) -ℤ pos (128 ^ length s))
    /// ```
    ///
    /// Definitions: [`last_byte`](numbers::last_byte), [`groups_sum`](numbers::groups_sum).
    type signed_sum;
    /// The last byte is needed: it is 00 only after a byte with bit 6 set, and 7F only after one with bit 6 clear.
    ///
    /// ```text
    /// abbrev pub IsMinimalSigned : List ℕ → Type 0
    /// IsMinimalSigned (b ∷ c ∷ []) = (c ≡ 0x00 → 0x40 ≤ b % 128) × (c ≡ 0x7F → b % 128 < 0x40)
    /// IsMinimalSigned (b ∷ c ∷ d ∷ bs) = IsMinimalSigned (c ∷ d ∷ bs)
    /// IsMinimalSigned _ = Unit {0}
    /// ```
    type IsMinimalSigned;
    /// The length of a signed encoding. Minimal: the last byte is needed. Padded: at most [`byte_limit`](numbers::byte_limit) bytes.
    ///
    /// ```text
    /// abbrev pub IsSignedSize : Mode → ℕ → List ℕ → Type 0
    /// IsSignedSize minimal bits s = IsMinimalSigned s
    /// IsSignedSize padded bits s = length s ≤ byte_limit bits
    /// IsSignedSize standard_minimal bits s = IsMinimalSigned s
    /// IsSignedSize standard bits s = length s ≤ byte_limit bits
    /// ```
    ///
    /// Definitions: [`Mode`](numbers::Mode), [`minimal`](numbers::Mode), [`IsMinimalSigned`](numbers::IsMinimalSigned), [`padded`](numbers::Mode), [`byte_limit`](numbers::byte_limit), [`standard_minimal`](numbers::Mode), [`standard`](numbers::Mode).
    type IsSignedSize;
    /// Signed LEB128: the bytes `s` encode the number `v` of this many bits, in two's complement.
    ///
    /// ```text
    /// pub record Signed (mode : Mode) (bits : ℕ) (s : List ℕ) (v : ℤ) : Type 0 where
    ///   pub groups : AreGroups s
    ///   pub total : signed_sum s ≡ v
    ///   pub above : neg_ℤ (pos (2 ^ (bits - 1))) ≤ℤ v
    ///   pub below : v <ℤ pos (2 ^ (bits - 1))
    ///   pub size : IsSignedSize mode bits s
    /// ```
    ///
    /// Definitions: [`Mode`](numbers::Mode), [`AreGroups`](numbers::AreGroups), [`signed_sum`](numbers::signed_sum), [`IsSignedSize`](numbers::IsSignedSize).
    type Signed;
    /// A group that is not the last: the low seven bits, with bit 7 set.
    ///
    /// ```text
    /// abbrev pub next_group : Bool → ℕ → ℕ
    /// next_group false n = n % 128 + 0x80
    /// next_group true n = 0xFF - n % 128
    /// ```
    type next_group;
    /// The last group.
    ///
    /// ```text
    /// abbrev pub last_group : Bool → ℕ → ℕ
    /// last_group false n = n
    /// last_group true n = 0x7F - n
    /// ```
    type last_group;
    /// The groups of `n`, at most `more` of them after the first. A number below `limit` is the last group.
    ///
    /// ```text
    /// unfoldable pub groups_of : Bool → ℕ → ℕ → ℕ → List ℕ
    /// groups_of negative limit zero n = last_group negative n ∷ []
    /// groups_of negative limit (suc more) n =
    ///     elim (nat_lt n limit) [
    ///       | true ↦ last_group negative n ∷ []
    ///       | false ↦ next_group negative n ∷ groups_of negative limit more (n / 128)
    ///     ]
    /// ```
    ///
    /// Definitions: [`last_group`](numbers::last_group), [`next_group`](numbers::next_group).
    type groups_of;
    /// The groups of `n`. The second `n` only bounds the number of groups.
    ///
    /// ```text
    /// unfoldable pub groups_encoding : Bool → ℕ → ℕ → List ℕ
    /// groups_encoding negative limit n = groups_of negative limit n n
    /// ```
    ///
    /// Definitions: [`groups_of`](numbers::groups_of).
    type groups_encoding;
    /// The encoding of an unsigned number.
    ///
    /// ```text
    /// abbrev pub unsigned_encoding : ℕ → List ℕ
    /// unsigned_encoding n = groups_encoding false 0x80 n
    /// ```
    ///
    /// Definitions: [`groups_encoding`](numbers::groups_encoding).
    type unsigned_encoding;
    /// The encoding of a signed number, which has the sign in bit 6 of its last group.
    ///
    /// ```text
    /// abbrev pub signed_encoding : ℤ → List ℕ
    /// signed_encoding (pos n) = groups_encoding false 0x40 n
    /// signed_encoding (negsuc n) = groups_encoding true 0x40 n
    /// ```
    ///
    /// Definitions: [`groups_encoding`](numbers::groups_encoding).
    type signed_encoding;
}

/// Values that are encoded once, since the iterator in them is consumed, and the calls that encode them.
///
/// [How to read definitions](super). The file is [`Once.antt`](https://github.com/dolzhytik/dolzhytik/blob/main/crates/wasm_base/specs/Once.antt).
pub trait once {
    /// The call appends one of the encodings that the value may have, or returns an error and leaves the bytes as they were.
    ///
    /// ```text
    /// pub record AppendsOnce {A : Type 0} (Gives : List ℕ → Type 0) (encodable : Type 0)
    ///     (old new : Vec ℕ A) (result : Result (Unit {0}) Refused) : Type 0 where
    ///   pub ok : OnOk result ((encoding : List ℕ) × Gives encoding
    ///       × (new.items ≡ old.items ++ encoding))
    ///   pub err : OnErr result (new.items ≡ old.items)
    ///   pub too_long : encodable → result ≢ Err TooLong
    ///   pub capacity : vec_capacity old ≤ vec_capacity new
    /// ```
    type AppendsOnce;
    /// The builder gains one entry with one of these encodings, or the call returns an error and changes nothing. A full builder, with 2^32 - 1 entries, returns `TooLong`.
    ///
    /// ```text
    /// pub record AddsOnceTo {M : Type 0} (model : StoreModel M) (Gives : List ℕ → Type 0)
    ///     (encodable : Type 0) (old new : M) (result : Result (Unit {0}) Refused)
    ///     : Type 0 where
    ///   pub ok : OnOk result ((encoding : List ℕ) × Gives encoding
    ///       × model.gains encoding old new)
    ///   pub err : OnErr result (new ≡ old)
    ///   pub counted : OnOk result ((model.joins old).number < longest)
    ///   pub too_long : encodable → (model.joins old).number < longest → result ≢ Err TooLong
    ///   pub full : (model.joins old).number ≡ longest → result ≡ Err TooLong
    /// ```
    ///
    /// Definitions: [`StoreModel`](stores::StoreModel), [`longest`](encodings::longest).
    type AddsOnceTo;
    /// [`AddsOnceTo`](once::AddsOnceTo) of a builder whose entries are a list of pieces.
    ///
    /// ```text
    /// abbrev pub AddsOnce : (List ℕ → Type 0) → Type 0 → List (List ℕ) → List (List ℕ)
    ///     → Result (Unit {0}) Refused → Type 0
    /// AddsOnce Gives encodable old new result = AddsOnceTo pieces_model Gives encodable old
    ///     new result
    /// ```
    ///
    /// Definitions: [`AddsOnceTo`](once::AddsOnceTo), [`pieces_model`](stores::pieces_model).
    type AddsOnce;
    /// The iterator may be called, ends, and yields exactly `count` items. The count is at most 2^32 - 1.
    ///
    /// ```text
    /// pub record ReportsCount {S T : Type 0} (can_next : S → Type 0)
    ///     (gives : S → Option T → S → Type 0) (remaining : S → Count) (it : S) (count : ℕ)
    ///     : Type 0 where
    ///   pub can : can_next it
    ///   pub finite : IsFinite (remaining it)
    ///   pub reported : (xs : List T) → Drains gives it xs → length xs ≡ count
    ///   pub counted : count ≤ longest
    /// ```
    ///
    /// Definitions: [`longest`](encodings::longest).
    type ReportsCount;
    /// The bytes are the encoding of the vector of the items that the iterator yields.
    ///
    /// ```text
    /// pub record GivesVec {S T : Type 0} (gives : S → Option T → S → Type 0)
    ///     (Encodable : T → Type 0) (encoding : T → List ℕ) (it : S) (s : List ℕ)
    ///     : Type 0 where
    ///   pub items : List T
    ///   pub drained : Drains gives it items
    ///   pub encodable : IsEncodableVec Encodable items
    ///   pub is : s ≡ vec_encoding encoding items
    /// ```
    ///
    /// Definitions: [`IsEncodableVec`](encodings::IsEncodableVec), [`vec_encoding`](encodings::vec_encoding).
    type GivesVec;
    /// The bytes are size-prefixed bytes, those that the iterator yields.
    ///
    /// ```text
    /// pub record GivesBytes {S : Type 0} (gives : S → Option ℕ → S → Type 0) (it : S)
    ///     (s : List ℕ) : Type 0 where
    ///   pub bytes : List ℕ
    ///   pub drained : Drains gives it bytes
    ///   pub encodable : HasEncodableSize bytes
    ///   pub is : s ≡ size_prefixed_encoding bytes
    /// ```
    ///
    /// Definitions: [`HasEncodableSize`](encodings::HasEncodableSize), [`size_prefixed_encoding`](encodings::size_prefixed_encoding).
    type GivesBytes;
    /// The bytes are `front` and then one of the possible encodings of a second value.
    ///
    /// ```text
    /// pub record GivesPair (front : List ℕ) (encodable : Type 0) (Gives : List ℕ → Type 0)
    ///     (s : List ℕ) : Type 0 where
    ///   pub back : List ℕ
    ///   pub was_encodable : encodable
    ///   pub given : Gives back
    ///   pub is : s ≡ front ++ back
    /// ```
    type GivesPair;
    /// The bytes are `front` and then one of the possible encodings of each of two values.
    ///
    /// ```text
    /// pub record GivesTriple (front : List ℕ) (encodable : Type 0)
    ///     (First Second : List ℕ → Type 0) (s : List ℕ) : Type 0 where
    ///   pub middle : List ℕ
    ///   pub back : List ℕ
    ///   pub was_encodable : encodable
    ///   pub first : First middle
    ///   pub second : Second back
    ///   pub is : s ≡ front ++ (middle ++ back)
    /// ```
    type GivesTriple;
    /// All items that the iterator ever yields fit.
    ///
    /// ```text
    /// abbrev pub YieldsEncodable
    ///     : {S T : Type 0} → (S → Option T → S → Type 0) → (T → Type 0) → S → Type 0
    /// YieldsEncodable {S} {T} gives Encodable it = (left : S) (xs : List T)
    ///     → Yields gives it xs left → All Encodable xs
    /// ```
    type YieldsEncodable;
}

/// The entries of a builder: pieces of bytes that are stored one after another.
///
/// [How to read definitions](super). The file is [`Pieces.antt`](https://github.com/dolzhytik/dolzhytik/blob/main/crates/wasm_base/specs/Pieces.antt).
pub trait pieces {
    /// The pieces, one after another.
    ///
    /// ```text
    /// abbrev pub joined : List (List ℕ) → List ℕ
    /// joined [] = []
    /// joined (p ∷ ps) = p ++ joined ps
    /// ```
    type joined;
    /// The offset of each piece's end, if the first piece begins at `from`.
    ///
    /// ```text
    /// abbrev pub ends_from : ℕ → List (List ℕ) → List ℕ
    /// ends_from from [] = []
    /// ends_from from (p ∷ ps) = (from + length p) ∷ ends_from (from + length p) ps
    /// ```
    type ends_from;
    /// The bytes cut at the ends, if the first byte is at offset `from`.
    ///
    /// ```text
    /// abbrev pub cut_from : ℕ → List ℕ → List ℕ → List (List ℕ)
    /// cut_from from [] bytes = []
    /// cut_from from (e ∷ es) bytes = take (e - from) bytes
    ///     ∷ cut_from e es (drop (e - from) bytes)
    /// ```
    type cut_from;
    /// The ends cut all of the bytes into pieces, and are the ends of these pieces.
    ///
    /// ```text
    /// pub record IsCut (bytes ends : List ℕ) : Type 0 where
    ///   pub bytes_joined : bytes ≡ joined (cut_from 0 ends bytes)
    ///   pub ends_placed : ends ≡ ends_from 0 (cut_from 0 ends bytes)
    /// ```
    ///
    /// Definitions: [`joined`](pieces::joined), [`cut_from`](pieces::cut_from), [`ends_from`](pieces::ends_from).
    type IsCut;
    /// The encoding of a counted section without its id: a size prefix, the count of entries and the entries.
    ///
    /// ```text
    /// unfoldable pub section_encoding : List (List ℕ) → List ℕ
    /// section_encoding pieces = size_prefixed_encoding
    ///     (unsigned_encoding (length pieces) ++ joined pieces)
    /// ```
    ///
    /// Definitions: [`size_prefixed_encoding`](encodings::size_prefixed_encoding), [`unsigned_encoding`](numbers::unsigned_encoding), [`joined`](pieces::joined).
    type section_encoding;
    /// The count and the size of the section are at most 2^32 - 1.
    ///
    /// ```text
    /// pub record IsEncodableSection (pieces : List (List ℕ)) : Type 0 where
    ///   pub count : length pieces ≤ longest
    ///   pub size : HasEncodableSize (unsigned_encoding (length pieces) ++ joined pieces)
    /// ```
    ///
    /// Definitions: [`longest`](encodings::longest), [`HasEncodableSize`](encodings::HasEncodableSize), [`unsigned_encoding`](numbers::unsigned_encoding), [`joined`](pieces::joined).
    type IsEncodableSection;
    /// The size of the section is more than 2^32 - 1.
    ///
    /// ```text
    /// abbrev pub IsOverlong : List (List ℕ) → Type 0
    /// IsOverlong pieces = longest
    ///     < length (unsigned_encoding (length pieces) ++ joined pieces)
    /// ```
    ///
    /// Definitions: [`longest`](encodings::longest), [`unsigned_encoding`](numbers::unsigned_encoding), [`joined`](pieces::joined).
    type IsOverlong;
    /// The payload of a counted section: the count of its entries, and the entries.
    ///
    /// ```text
    /// abbrev pub SectionPayload : List (List ℕ) → List ℕ → Type 0
    /// SectionPayload pieces bytes = bytes ≡ unsigned_encoding (length pieces) ++ joined pieces
    /// ```
    ///
    /// Definitions: [`unsigned_encoding`](numbers::unsigned_encoding), [`joined`](pieces::joined).
    type SectionPayload;
    /// The encoding of a counted section that fits is its size-prefixed payload.
    ///
    /// ```text
    /// pub section_sized : (pieces : List (List ℕ)) (bytes : List ℕ)
    ///     → IsEncodableSection pieces → SectionPayload pieces bytes
    ///     → IsSizePrefixed (section_encoding pieces) bytes
    /// unfolding section_encoding
    /// section_sized pieces bytes encodable e = record
    ///     { is = ap size_prefixed_encoding (sym e);
    ///     encodable = subst HasEncodableSize (sym e) encodable.size }
    /// ```
    ///
    /// Definitions: [`IsEncodableSection`](pieces::IsEncodableSection), [`SectionPayload`](pieces::SectionPayload), [`IsSizePrefixed`](encodings::IsSizePrefixed), [`section_encoding`](pieces::section_encoding), [`size_prefixed_encoding`](encodings::size_prefixed_encoding), [`HasEncodableSize`](encodings::HasEncodableSize).
    type section_sized;
}

/// The ids of sections. Core specification, Binary Format, Modules, Sections.
///
/// [How to read definitions](super). The file is [`SectionId.antt`](https://github.com/dolzhytik/dolzhytik/blob/main/crates/wasm_base/specs/SectionId.antt).
pub trait section_id {
    /// The byte of a section id.
    ///
    /// ```text
    /// abbrev pub number_of : SectionId → ℕ
    /// number_of Custom = 0
    /// number_of Types = 1
    /// number_of Import = 2
    /// number_of Function = 3
    /// number_of Table = 4
    /// number_of Memory = 5
    /// number_of Global = 6
    /// number_of Export = 7
    /// number_of Start = 8
    /// number_of Element = 9
    /// number_of Code = 10
    /// number_of Data = 11
    /// number_of DataCount = 12
    /// number_of Tag = 13
    /// ```
    type number_of;
}

/// Stores of entries: lists of pieces, and states that keep the bytes of all entries and their number, but not where each entry ends.
///
/// [How to read definitions](super). The file is [`Stores.antt`](https://github.com/dolzhytik/dolzhytik/blob/main/crates/wasm_base/specs/Stores.antt).
pub trait stores {
    /// The number of entries, and their encodings one after another.
    ///
    /// ```text
    /// pub record Joined : Type 0 where
    ///   pub number : ℕ
    ///   pub content : List ℕ
    /// ```
    type Joined;
    /// Some pieces, as many as there are entries, join to the content and have the property.
    ///
    /// ```text
    /// pub record Cut (P : List (List ℕ) → Type 0) (j : Joined) : Type 0 where
    ///   pub pieces : List (List ℕ)
    ///   pub number : length pieces ≡ j.number
    ///   pub content : joined pieces ≡ j.content
    ///   pub are : P pieces
    /// ```
    ///
    /// Definitions: [`Joined`](stores::Joined), [`joined`](pieces::joined).
    type Cut;
    /// One more piece of this encoding turns the property `P` of as many pieces as `number` into `Q`.
    ///
    /// ```text
    /// abbrev pub Extends : ℕ → List ℕ → (List (List ℕ) → Type 0) → (List (List ℕ) → Type 0)
    ///     → Type 0
    /// Extends number encoding P Q = (pieces : List (List ℕ)) → length pieces ≡ number
    ///     → P pieces → Q (pieces ++ encoding ∷ [])
    /// ```
    type Extends;
    /// How a state holds entries: their number and bytes, whether `new` has the entries of `old` and then one of this encoding, and whether the entries have a property of pieces.
    ///
    /// ```text
    /// pub record StoreModel (M : Type 0) : Type 1 where
    ///   pub joins : M → Joined
    ///   pub gains : List ℕ → M → M → Type 0
    ///   pub holds : (List (List ℕ) → Type 0) → M → Type 0
    /// ```
    ///
    /// Definitions: [`Joined`](stores::Joined).
    type StoreModel;
    /// A list of pieces, each of which is an entry.
    ///
    /// ```text
    /// abbrev pub pieces_model : StoreModel (List (List ℕ))
    /// pieces_model = record {
    ///   joins = λ pieces. record { number = length pieces; content = joined pieces };
    ///   gains = λ encoding old new. new ≡ old ++ encoding ∷ [];
    ///   holds = λ P pieces. P pieces;
    /// }
    /// ```
    ///
    /// Definitions: [`StoreModel`](stores::StoreModel), [`joined`](pieces::joined).
    type pieces_model;
    /// The content grows by one encoding, and the number by one.
    ///
    /// ```text
    /// pub record Gains (encoding : List ℕ) (old new : Joined) : Type 0 where
    ///   pub content : new.content ≡ old.content ++ encoding
    ///   pub number : new.number ≡ old.number + 1
    /// ```
    ///
    /// Definitions: [`Joined`](stores::Joined).
    type Gains;
    /// A number of entries and their bytes. They have a property if they can be cut into pieces that have it.
    ///
    /// ```text
    /// abbrev pub joined_model : StoreModel Joined
    /// joined_model = record { joins = λ j. j; gains = Gains; holds = Cut }
    /// ```
    ///
    /// Definitions: [`StoreModel`](stores::StoreModel), [`Joined`](stores::Joined), [`Gains`](stores::Gains), [`Cut`](stores::Cut).
    type joined_model;
    /// The payload of a counted section: the number of entries, and the entries.
    ///
    /// ```text
    /// abbrev pub joined_payload : Joined → List ℕ
    /// joined_payload j = unsigned_encoding j.number ++ j.content
    /// ```
    ///
    /// Definitions: [`Joined`](stores::Joined), [`unsigned_encoding`](numbers::unsigned_encoding).
    type joined_payload;
    /// The encoding of a counted section without its id: a size prefix and the payload.
    ///
    /// ```text
    /// unfoldable pub joined_encoding : Joined → List ℕ
    /// joined_encoding j = size_prefixed_encoding (joined_payload j)
    /// ```
    ///
    /// Definitions: [`Joined`](stores::Joined), [`size_prefixed_encoding`](encodings::size_prefixed_encoding), [`joined_payload`](stores::joined_payload).
    type joined_encoding;
    /// The count and the size of the section are at most 2^32 - 1.
    ///
    /// ```text
    /// pub record IsEncodableJoined (j : Joined) : Type 0 where
    ///   pub count : j.number ≤ longest
    ///   pub size : HasEncodableSize (joined_payload j)
    /// ```
    ///
    /// Definitions: [`Joined`](stores::Joined), [`longest`](encodings::longest), [`HasEncodableSize`](encodings::HasEncodableSize), [`joined_payload`](stores::joined_payload).
    type IsEncodableJoined;
    /// The size of the section is more than 2^32 - 1.
    ///
    /// ```text
    /// abbrev pub IsOverlongJoined : Joined → Type 0
    /// IsOverlongJoined j = longest < length (joined_payload j)
    /// ```
    ///
    /// Definitions: [`Joined`](stores::Joined), [`longest`](encodings::longest), [`joined_payload`](stores::joined_payload).
    type IsOverlongJoined;
    /// The encoding of a list of pieces is that of their number and their bytes.
    ///
    /// ```text
    /// pub pieces_encode : (pieces : List (List ℕ))
    ///     → section_encoding pieces ≡ joined_encoding (pieces_model.joins pieces)
    /// unfolding section_encoding joined_encoding
    /// pieces_encode pieces = refl
    /// ```
    ///
    /// Definitions: [`section_encoding`](pieces::section_encoding), [`joined_encoding`](stores::joined_encoding), [`pieces_model`](stores::pieces_model).
    type pieces_encode;
    /// Pieces that fit in a section have a number and a size that fit.
    ///
    /// ```text
    /// pub pieces_fit : (pieces : List (List ℕ)) → IsEncodableSection pieces
    ///     → IsEncodableJoined (pieces_model.joins pieces)
    /// pieces_fit pieces fits = record { count = fits.count; size = fits.size }
    /// ```
    ///
    /// Definitions: [`IsEncodableSection`](pieces::IsEncodableSection), [`IsEncodableJoined`](stores::IsEncodableJoined), [`pieces_model`](stores::pieces_model).
    type pieces_fit;
    /// The encoding of entries that fit is their size-prefixed payload.
    ///
    /// ```text
    /// pub joined_sized : (j : Joined) (encoding bytes : List ℕ) → encoding ≡ joined_encoding j
    ///     → IsEncodableJoined j → bytes ≡ joined_payload j → IsSizePrefixed encoding bytes
    /// unfolding joined_encoding
    /// joined_sized j encoding bytes is fits e = record
    ///     { is = is ∙ ap size_prefixed_encoding (sym e);
    ///     encodable = subst HasEncodableSize (sym e) fits.size }
    /// ```
    ///
    /// Definitions: [`Joined`](stores::Joined), [`joined_encoding`](stores::joined_encoding), [`IsEncodableJoined`](stores::IsEncodableJoined), [`joined_payload`](stores::joined_payload), [`IsSizePrefixed`](encodings::IsSizePrefixed), [`size_prefixed_encoding`](encodings::size_prefixed_encoding), [`HasEncodableSize`](encodings::HasEncodableSize).
    type joined_sized;
}

/// The encodings and the formats of heap types, reference types and value types. Core specification, Binary Format, Types.
///
/// - Encodings: [`abstract_code`](types::abstract_code), [`heap_encoding`](types::heap_encoding), [`nullable_encoding`](types::nullable_encoding), [`ref_bytes`](types::ref_bytes), [`ref_encoding`](types::ref_encoding), [`val_encoding`](types::val_encoding), [`tight_nullable`](types::tight_nullable), [`tight_bytes`](types::tight_bytes), [`tight_encoding`](types::tight_encoding), [`ref_encoding_in`](types::ref_encoding_in), [`val_encoding_in`](types::val_encoding_in).
/// - Indices of 32 bits: [`IsHeap`](types::IsHeap), [`IsRef`](types::IsRef), [`IsVal`](types::IsVal).
/// - Formats: [`abstract_type`](types::abstract_type), [`unshared`](types::unshared), [`shared`](types::shared), [`heap_tags`](types::heap_tags), [`heap_type`](types::heap_type), [`FUNCREF`](types::FUNCREF), [`EXTERNREF`](types::EXTERNREF), [`nullable_to`](types::nullable_to), [`to`](types::to), [`HasNoByte`](types::HasNoByte), [`ref_tags`](types::ref_tags), [`built_ref`](types::built_ref), [`nullable_abstract`](types::nullable_abstract), [`HasNoCode`](types::HasNoCode), [`tight_tags`](types::tight_tags), [`admitted_tags`](types::admitted_tags), [`tight_ref`](types::tight_ref), [`admitted_ref`](types::admitted_ref), [`HasLongForm`](types::HasLongForm), [`ref_type`](types::ref_type), [`val_tags`](types::val_tags), [`number_type`](types::number_type), [`val_type`](types::val_type), [`IsIndexByte`](types::IsIndexByte).
///
/// [How to read definitions](super). The file is [`Types.antt`](https://github.com/dolzhytik/dolzhytik/blob/main/crates/wasm_base/specs/Types.antt).
pub trait types {
    /// The byte of an abstract heap type. The bytes of `Cont` and `NoCont` are not in the core specification.
    ///
    /// ```text
    /// abbrev pub abstract_code : AbstractHeapType → ℕ
    /// abstract_code kinds.Func = 0x70
    /// abstract_code kinds.Extern = 0x6F
    /// abstract_code kinds.Any = 0x6E
    /// abstract_code kinds.Eq = 0x6D
    /// abstract_code kinds.I31 = 0x6C
    /// abstract_code kinds.Struct = 0x6B
    /// abstract_code kinds.Array = 0x6A
    /// abstract_code kinds.Exn = 0x69
    /// abstract_code kinds.NoExn = 0x74
    /// abstract_code kinds.NoFunc = 0x73
    /// abstract_code kinds.NoExtern = 0x72
    /// abstract_code kinds.None = 0x71
    /// abstract_code kinds.Cont = 0x68
    /// abstract_code kinds.NoCont = 0x75
    /// ```
    type abstract_code;
    /// The encoding of a heap type. A shared abstract type has the byte 0x65 before its own, and an exact type the byte 0x62 before its index. Neither is in the core specification.
    ///
    /// ```text
    /// abbrev pub heap_encoding : HeapType → List ℕ
    /// heap_encoding (Abstract false ty) = abstract_code ty ∷ []
    /// heap_encoding (Abstract true ty) = 0x65 ∷ abstract_code ty ∷ []
    /// heap_encoding (Concrete index) = signed_encoding (pos index)
    /// heap_encoding (Exact index) = 0x62 ∷ unsigned_encoding index
    /// ```
    ///
    /// Definitions: [`abstract_code`](types::abstract_code), [`signed_encoding`](numbers::signed_encoding), [`unsigned_encoding`](numbers::unsigned_encoding).
    type heap_encoding;
    /// The encoding of a nullable reference type. Those to unshared functions and external values have a byte of their own.
    ///
    /// ```text
    /// abbrev pub nullable_encoding : HeapType → List ℕ
    /// nullable_encoding (Abstract false kinds.Func) = 0x70 ∷ []
    /// nullable_encoding (Abstract false kinds.Extern) = 0x6F ∷ []
    /// nullable_encoding heap = 0x63 ∷ heap_encoding heap
    /// ```
    ///
    /// Definitions: [`heap_encoding`](types::heap_encoding).
    type nullable_encoding;
    /// The encoding of a reference type, by whether it is nullable.
    ///
    /// ```text
    /// abbrev pub ref_bytes : (nullable : Bool) → HeapType → List ℕ
    /// ref_bytes true heap = nullable_encoding heap
    /// ref_bytes false heap = 0x64 ∷ heap_encoding heap
    /// ```
    ///
    /// Definitions: [`nullable_encoding`](types::nullable_encoding), [`heap_encoding`](types::heap_encoding).
    type ref_bytes;
    /// The encoding of a reference type.
    ///
    /// ```text
    /// abbrev pub ref_encoding : RefType → List ℕ
    /// ref_encoding r = ref_bytes r.nullable r.heap_type
    /// ```
    ///
    /// Definitions: [`ref_bytes`](types::ref_bytes).
    type ref_encoding;
    /// The encoding of a value type.
    ///
    /// ```text
    /// abbrev pub val_encoding : ValType → List ℕ
    /// val_encoding I32 = 0x7F ∷ []
    /// val_encoding I64 = 0x7E ∷ []
    /// val_encoding F32 = 0x7D ∷ []
    /// val_encoding F64 = 0x7C ∷ []
    /// val_encoding V128 = 0x7B ∷ []
    /// val_encoding (Ref r) = ref_encoding r
    /// ```
    ///
    /// Definitions: [`ref_encoding`](types::ref_encoding).
    type val_encoding;
    /// The minimal encoding of a nullable reference type by the standard: each unshared abstract heap type has a byte of its own.
    ///
    /// ```text
    /// abbrev pub tight_nullable : HeapType → List ℕ
    /// tight_nullable (Abstract false ty) = abstract_code ty ∷ []
    /// tight_nullable heap = 0x63 ∷ heap_encoding heap
    /// ```
    ///
    /// Definitions: [`abstract_code`](types::abstract_code), [`heap_encoding`](types::heap_encoding).
    type tight_nullable;
    /// The minimal encoding of a reference type by the standard, by whether it is nullable.
    ///
    /// ```text
    /// abbrev pub tight_bytes : (nullable : Bool) → HeapType → List ℕ
    /// tight_bytes true heap = tight_nullable heap
    /// tight_bytes false heap = 0x64 ∷ heap_encoding heap
    /// ```
    ///
    /// Definitions: [`tight_nullable`](types::tight_nullable), [`heap_encoding`](types::heap_encoding).
    type tight_bytes;
    /// The minimal encoding of a value type by the standard.
    ///
    /// ```text
    /// abbrev pub tight_encoding : ValType → List ℕ
    /// tight_encoding (Ref r) = tight_bytes r.nullable r.heap_type
    /// tight_encoding ty = val_encoding ty
    /// ```
    ///
    /// Definitions: [`tight_bytes`](types::tight_bytes), [`val_encoding`](types::val_encoding).
    type tight_encoding;
    /// The minimal encoding of a reference type in each grammar.
    ///
    /// ```text
    /// abbrev pub ref_encoding_in : Grammar → RefType → List ℕ
    /// ref_encoding_in builders r = ref_encoding r
    /// ref_encoding_in admitted r = tight_bytes r.nullable r.heap_type
    /// ```
    ///
    /// Definitions: [`Grammar`](numbers::Grammar), [`builders`](numbers::Grammar), [`ref_encoding`](types::ref_encoding), [`admitted`](numbers::Grammar), [`tight_bytes`](types::tight_bytes).
    type ref_encoding_in;
    /// The minimal encoding of a value type in each grammar.
    ///
    /// ```text
    /// abbrev pub val_encoding_in : Grammar → ValType → List ℕ
    /// val_encoding_in builders ty = val_encoding ty
    /// val_encoding_in admitted ty = tight_encoding ty
    /// ```
    ///
    /// Definitions: [`Grammar`](numbers::Grammar), [`builders`](numbers::Grammar), [`val_encoding`](types::val_encoding), [`admitted`](numbers::Grammar), [`tight_encoding`](types::tight_encoding).
    type val_encoding_in;
    /// The index of a heap type, if it has one, is below 2^32.
    ///
    /// ```text
    /// abbrev pub IsHeap : HeapType → Type 0
    /// IsHeap (Abstract shared ty) = Unit {0}
    /// IsHeap (Concrete index) = index < 2 ^ 32
    /// IsHeap (Exact index) = index < 2 ^ 32
    /// ```
    type IsHeap;
    /// The index in a reference type, if it has one, is below 2^32.
    ///
    /// ```text
    /// abbrev pub IsRef : RefType → Type 0
    /// IsRef r = IsHeap r.heap_type
    /// ```
    ///
    /// Definitions: [`IsHeap`](types::IsHeap).
    type IsRef;
    /// The index in a value type, if it has one, is below 2^32.
    ///
    /// ```text
    /// abbrev pub IsVal : ValType → Type 0
    /// IsVal (Ref r) = IsRef r
    /// IsVal _ = Unit {0}
    /// ```
    ///
    /// Definitions: [`IsRef`](types::IsRef).
    type IsVal;
    /// An abstract heap type: one byte.
    ///
    /// ```text
    /// abbrev pub abstract_type : Format AbstractHeapType
    /// abstract_type = coded abstract_code
    /// ```
    ///
    /// Definitions: [`Format`](formats::Format), [`coded`](formats::coded), [`abstract_code`](types::abstract_code).
    type abstract_type;
    /// The unshared heap type of an abstract type.
    ///
    /// ```text
    /// abbrev pub unshared : AbstractHeapType → HeapType
    /// unshared ty = Abstract false ty
    /// ```
    type unshared;
    /// The shared heap type of an abstract type.
    ///
    /// ```text
    /// abbrev pub shared : AbstractHeapType → HeapType
    /// shared ty = Abstract true ty
    /// ```
    type shared;
    /// The formats after the tag bytes 0x65 (shared) and 0x62 (exact) of a heap type.
    ///
    /// ```text
    /// abbrev pub heap_tags : List (ℕ × Format HeapType)
    /// heap_tags = (0x65, mapped shared abstract_type) ∷ (0x62, mapped Exact u32) ∷ []
    /// ```
    ///
    /// Definitions: [`Format`](formats::Format), [`mapped`](formats::mapped), [`shared`](types::shared), [`abstract_type`](types::abstract_type), [`u32`](formats::u32).
    type heap_tags;
    /// A heap type. Its first byte determines its case: no index begins with a byte of another case. Core specification, Binary Format, Types, Heap Types.
    ///
    /// ```text
    /// abbrev pub heap_type : Format HeapType
    /// heap_type = one_of (mapped unshared abstract_type)
    ///     (one_of (tagged byte (choice heap_tags (λ b. impossible))) (mapped Concrete s33))
    /// ```
    ///
    /// Definitions: [`Format`](formats::Format), [`one_of`](formats::one_of), [`mapped`](formats::mapped), [`unshared`](types::unshared), [`abstract_type`](types::abstract_type), [`tagged`](formats::tagged), [`byte`](formats::byte), [`choice`](formats::choice), [`heap_tags`](types::heap_tags), [`impossible`](formats::impossible), [`s33`](formats::s33).
    type heap_type;
    /// The type `funcref`: nullable references to unshared functions.
    ///
    /// ```text
    /// abbrev pub FUNCREF : RefType
    /// FUNCREF = record { nullable = true; heap_type = unshared kinds.Func }
    /// ```
    ///
    /// Definitions: [`unshared`](types::unshared).
    type FUNCREF;
    /// The type `externref`: nullable references to unshared external values.
    ///
    /// ```text
    /// abbrev pub EXTERNREF : RefType
    /// EXTERNREF = record { nullable = true; heap_type = unshared kinds.Extern }
    /// ```
    ///
    /// Definitions: [`unshared`](types::unshared).
    type EXTERNREF;
    /// The nullable reference type to a heap type.
    ///
    /// ```text
    /// abbrev pub nullable_to : HeapType → RefType
    /// nullable_to heap = record { nullable = true; heap_type = heap }
    /// ```
    type nullable_to;
    /// The reference type to a heap type that is not nullable.
    ///
    /// ```text
    /// abbrev pub to : HeapType → RefType
    /// to heap = record { nullable = false; heap_type = heap }
    /// ```
    type to;
    /// The heap type is not that of [`FUNCREF`](types::FUNCREF) or [`EXTERNREF`](types::EXTERNREF), whose nullable references have a byte of their own.
    ///
    /// ```text
    /// abbrev pub HasNoByte : HeapType → Type 0
    /// HasNoByte heap = (heap ≢ unshared kinds.Func) × (heap ≢ unshared kinds.Extern)
    /// ```
    ///
    /// Definitions: [`unshared`](types::unshared).
    type HasNoByte;
    /// The formats after each first byte of a reference type, as builders write it.
    ///
    /// ```text
    /// abbrev pub ref_tags : List (ℕ × Format RefType)
    /// ref_tags = (0x70, fixed [] FUNCREF) ∷ (0x6F, fixed [] EXTERNREF)
    ///     ∷ (0x63, mapped nullable_to (such HasNoByte heap_type))
    ///     ∷ (0x64, mapped to heap_type) ∷ []
    /// ```
    ///
    /// Definitions: [`Format`](formats::Format), [`fixed`](formats::fixed), [`FUNCREF`](types::FUNCREF), [`EXTERNREF`](types::EXTERNREF), [`mapped`](formats::mapped), [`nullable_to`](types::nullable_to), [`such`](formats::such), [`HasNoByte`](types::HasNoByte), [`heap_type`](types::heap_type), [`to`](types::to).
    type ref_tags;
    /// A reference type as builders write it.
    ///
    /// ```text
    /// abbrev pub built_ref : Format RefType
    /// built_ref = tagged byte (choice ref_tags (λ b. impossible))
    /// ```
    ///
    /// Definitions: [`Format`](formats::Format), [`tagged`](formats::tagged), [`byte`](formats::byte), [`choice`](formats::choice), [`ref_tags`](types::ref_tags), [`impossible`](formats::impossible).
    type built_ref;
    /// The nullable reference type to an unshared abstract type. The standard has one byte for it.
    ///
    /// ```text
    /// abbrev pub nullable_abstract : AbstractHeapType → RefType
    /// nullable_abstract ty = nullable_to (unshared ty)
    /// ```
    ///
    /// Definitions: [`nullable_to`](types::nullable_to), [`unshared`](types::unshared).
    type nullable_abstract;
    /// The heap type is not an unshared abstract type.
    ///
    /// ```text
    /// abbrev pub HasNoCode : HeapType → Type 0
    /// HasNoCode (Abstract false ty) = ⊥
    /// HasNoCode (Abstract true ty) = Unit {0}
    /// HasNoCode (Concrete index) = Unit {0}
    /// HasNoCode (Exact index) = Unit {0}
    /// ```
    type HasNoCode;
    /// The formats after the bytes 0x63 and 0x64 if every reference type has one encoding.
    ///
    /// ```text
    /// abbrev pub tight_tags : List (ℕ × Format RefType)
    /// tight_tags = (0x63, mapped nullable_to (such HasNoCode heap_type))
    ///     ∷ (0x64, mapped to heap_type) ∷ []
    /// ```
    ///
    /// Definitions: [`Format`](formats::Format), [`mapped`](formats::mapped), [`nullable_to`](types::nullable_to), [`such`](formats::such), [`HasNoCode`](types::HasNoCode), [`heap_type`](types::heap_type), [`to`](types::to).
    type tight_tags;
    /// The formats after the bytes 0x63 and 0x64 that the standard admits.
    ///
    /// ```text
    /// abbrev pub admitted_tags : List (ℕ × Format RefType)
    /// admitted_tags = (0x63, mapped nullable_to heap_type) ∷ (0x64, mapped to heap_type) ∷ []
    /// ```
    ///
    /// Definitions: [`Format`](formats::Format), [`mapped`](formats::mapped), [`nullable_to`](types::nullable_to), [`heap_type`](types::heap_type), [`to`](types::to).
    type admitted_tags;
    /// A reference type in its minimal encoding by the standard.
    ///
    /// ```text
    /// abbrev pub tight_ref : Format RefType
    /// tight_ref = one_of (mapped nullable_abstract abstract_type)
    ///     (tagged byte (choice tight_tags (λ b. impossible)))
    /// ```
    ///
    /// Definitions: [`Format`](formats::Format), [`one_of`](formats::one_of), [`mapped`](formats::mapped), [`nullable_abstract`](types::nullable_abstract), [`abstract_type`](types::abstract_type), [`tagged`](formats::tagged), [`byte`](formats::byte), [`choice`](formats::choice), [`tight_tags`](types::tight_tags), [`impossible`](formats::impossible).
    type tight_ref;
    /// A reference type in any encoding that the standard admits.
    ///
    /// ```text
    /// abbrev pub admitted_ref : Format RefType
    /// admitted_ref = one_of (mapped nullable_abstract abstract_type)
    ///     (tagged byte (choice admitted_tags (λ b. impossible)))
    /// ```
    ///
    /// Definitions: [`Format`](formats::Format), [`one_of`](formats::one_of), [`mapped`](formats::mapped), [`nullable_abstract`](types::nullable_abstract), [`abstract_type`](types::abstract_type), [`tagged`](formats::tagged), [`byte`](formats::byte), [`choice`](formats::choice), [`admitted_tags`](types::admitted_tags), [`impossible`](formats::impossible).
    type admitted_ref;
    /// In this grammar, the byte 0x63 may precede the heap type of a nullable reference type.
    ///
    /// ```text
    /// abbrev pub HasLongForm : Grammar → HeapType → Type 0
    /// HasLongForm builders heap = HasNoByte heap
    /// HasLongForm admitted heap = Unit {0}
    /// ```
    ///
    /// Definitions: [`Grammar`](numbers::Grammar), [`builders`](numbers::Grammar), [`HasNoByte`](types::HasNoByte), [`admitted`](numbers::Grammar).
    type HasLongForm;
    /// A reference type: as builders write it, or in the standard's grammar minimal or as admitted. Core specification, Binary Format, Types, Reference Types.
    ///
    /// ```text
    /// abbrev pub ref_type : Format RefType
    /// ref_type = by_mode built_ref tight_ref admitted_ref
    /// ```
    ///
    /// Definitions: [`Format`](formats::Format), [`by_mode`](formats::by_mode), [`built_ref`](types::built_ref), [`tight_ref`](types::tight_ref), [`admitted_ref`](types::admitted_ref).
    type ref_type;
    /// The formats after each first byte of a number type or vector type.
    ///
    /// ```text
    /// abbrev pub val_tags : List (ℕ × Format ValType)
    /// val_tags = (0x7F, fixed [] I32) ∷ (0x7E, fixed [] I64) ∷ (0x7D, fixed [] F32)
    ///     ∷ (0x7C, fixed [] F64) ∷ (0x7B, fixed [] V128) ∷ []
    /// ```
    ///
    /// Definitions: [`Format`](formats::Format), [`fixed`](formats::fixed).
    type val_tags;
    /// A number type or vector type: one byte.
    ///
    /// ```text
    /// abbrev pub number_type : Format ValType
    /// number_type = tagged byte (choice val_tags (λ b. impossible))
    /// ```
    ///
    /// Definitions: [`Format`](formats::Format), [`tagged`](formats::tagged), [`byte`](formats::byte), [`choice`](formats::choice), [`val_tags`](types::val_tags), [`impossible`](formats::impossible).
    type number_type;
    /// A value type: a number type, a vector type or a reference type.
    ///
    /// ```text
    /// abbrev pub val_type : Format ValType
    /// val_type = one_of number_type (mapped Ref ref_type)
    /// ```
    ///
    /// Definitions: [`Format`](formats::Format), [`one_of`](formats::one_of), [`number_type`](types::number_type), [`mapped`](formats::mapped), [`ref_type`](types::ref_type).
    type val_type;
    /// The byte can begin an index that is encoded as a signed number, and begins no type.
    ///
    /// ```text
    /// abbrev pub IsIndexByte : ℕ → Type 0
    /// IsIndexByte b = (b < 0x40) ⊎ (0x80 ≤ b)
    /// ```
    type IsIndexByte;
}

/// A walk: a value is decoded, and an effect takes its minimal encoding. An effect appends the bytes that it takes, or drops them. The states of an effect are a type `E`, and `seen e l` says that `l` may be all the bytes that the state `e` has taken.
///
/// [How to read definitions](super). The file is [`Walks.antt`](https://github.com/dolzhytik/dolzhytik/blob/main/crates/wasm_base/specs/Walks.antt).
pub trait walks {
    /// The state takes these bytes.
    ///
    /// ```text
    /// pub record TakesBytes {E : Type 0} (seen : E → List ℕ → Type 0) (bytes : List ℕ)
    ///     (old new : E) : Type 0 where
    ///   pub after : (l : List ℕ) → seen old l → seen new (l ++ bytes)
    /// ```
    type TakesBytes;
    /// The state takes some bytes, so all earlier ones stay.
    ///
    /// ```text
    /// pub record Keeps {E : Type 0} (seen : E → List ℕ → Type 0) (old new : E) : Type 0 where
    ///   pub after : (l : List ℕ) → seen old l → (more : List ℕ) × seen new (l ++ more)
    /// ```
    type Keeps;
    /// A state that does not change has taken any bytes.
    ///
    /// ```text
    /// pub record IsIdle {E : Type 0} (seen : E → List ℕ → Type 0) : Type 0 where
    ///   pub stays : (bytes : List ℕ) (e : E) → TakesBytes seen bytes e e
    /// ```
    ///
    /// Definitions: [`TakesBytes`](walks::TakesBytes).
    type IsIdle;
    /// In each of these grammars in which some bytes decode to `x`, the state takes the minimal encoding of `x`.
    ///
    /// ```text
    /// pub record TakesMinimal {E X : Type 0} (seen : E → List ℕ → Type 0) (k : Grammars)
    ///     (F : Format X) (x : X) (old new : E) : Type 0 where
    ///   pub encoded : (w : Grammar) → Includes k w → (s : List ℕ) → F (padded_of w) s x
    ///       → (encoding : List ℕ) × F (minimal_of w) encoding x
    ///       × TakesBytes seen encoding old new
    /// ```
    ///
    /// Definitions: [`Grammars`](minimal::Grammars), [`Format`](formats::Format), [`Grammar`](numbers::Grammar), [`Includes`](minimal::Includes), [`padded_of`](numbers::padded_of), [`minimal_of`](numbers::minimal_of), [`TakesBytes`](walks::TakesBytes).
    type TakesMinimal;
    /// The number marks the end of all bytes that the state has taken.
    ///
    /// ```text
    /// pub record Marks {E : Type 0} (seen : E → List ℕ → Type 0) (mark : ℕ → List ℕ → Type 0)
    ///     (e : E) (n : ℕ) : Type 0 where
    ///   pub at : (l : List ℕ) → seen e l → mark n l
    /// ```
    type Marks;
    /// The state has taken bytes up to the mark, and more.
    ///
    /// ```text
    /// pub record IsMarked {E : Type 0} (seen : E → List ℕ → Type 0)
    ///     (mark : ℕ → List ℕ → Type 0) (e : E) (n : ℕ) : Type 0 where
    ///   pub front : List ℕ
    ///   pub content : List ℕ
    ///   pub marked : mark n front
    ///   pub taken : seen e (front ++ content)
    /// ```
    type IsMarked;
    /// The bytes after the mark become `f` of them.
    ///
    /// ```text
    /// pub record Replaces {E : Type 0} (seen : E → List ℕ → Type 0)
    ///     (mark : ℕ → List ℕ → Type 0) (f : List ℕ → List ℕ) (n : ℕ) (old new : E)
    ///     : Type 0 where
    ///   pub after : (l s : List ℕ) → mark n l → seen old (l ++ s) → seen new (l ++ f s)
    /// ```
    type Replaces;
    /// The bytes up to the mark stay.
    ///
    /// ```text
    /// pub record KeepsMarked {E : Type 0} (seen : E → List ℕ → Type 0)
    ///     (mark : ℕ → List ℕ → Type 0) (n : ℕ) (old new : E) : Type 0 where
    ///   pub after : (l s : List ℕ) → mark n l → seen old (l ++ s)
    ///       → (more : List ℕ) × seen new (l ++ more)
    /// ```
    type KeepsMarked;
    /// A value decodes from the front of the bytes in this grammar, and `rest` follows it. The state takes the minimal encoding of the value in this grammar.
    ///
    /// ```text
    /// pub record Walks {E X : Type 0} (seen : E → List ℕ → Type 0) (w : Grammar)
    ///     (F : Format X) (bytes rest : List ℕ) (old new : E) : Type 0 where
    ///   pub value : X
    ///   pub decoded : Decodes F (padded_of w) bytes value rest
    ///   pub encoding : List ℕ
    ///   pub encodes : F (minimal_of w) encoding value
    ///   pub taken : TakesBytes seen encoding old new
    /// ```
    ///
    /// Definitions: [`Grammar`](numbers::Grammar), [`Format`](formats::Format), [`Decodes`](decoding::Decodes), [`padded_of`](numbers::padded_of), [`minimal_of`](numbers::minimal_of), [`TakesBytes`](walks::TakesBytes).
    type Walks;
    /// As [`Walks`](walks::Walks), for a vector of this many members.
    ///
    /// ```text
    /// pub record WalksMany {E X : Type 0} (seen : E → List ℕ → Type 0) (w : Grammar)
    ///     (F : Format X) (bytes : List ℕ) (count : ℕ) (rest : List ℕ) (old new : E)
    ///     : Type 0 where
    ///   pub value : List X
    ///   pub decoded : Decodes (vec F) (padded_of w) bytes value rest
    ///   pub counted : count ≡ length value
    ///   pub encoding : List ℕ
    ///   pub encodes : vec F (minimal_of w) encoding value
    ///   pub taken : TakesBytes seen encoding old new
    /// ```
    ///
    /// Definitions: [`Grammar`](numbers::Grammar), [`Format`](formats::Format), [`Decodes`](decoding::Decodes), [`vec`](formats::vec), [`padded_of`](numbers::padded_of), [`minimal_of`](numbers::minimal_of), [`TakesBytes`](walks::TakesBytes).
    type WalksMany;
    /// As [`WalksMany`](walks::WalksMany), for a value that occupies all of the bytes.
    ///
    /// ```text
    /// pub record WalksWhole {E X : Type 0} (seen : E → List ℕ → Type 0) (w : Grammar)
    ///     (F : Format X) (bytes : List ℕ) (old new : E) : Type 0 where
    ///   pub value : X
    ///   pub decoded : F (padded_of w) bytes value
    ///   pub encoding : List ℕ
    ///   pub encodes : F (minimal_of w) encoding value
    ///   pub taken : TakesBytes seen encoding old new
    /// ```
    ///
    /// Definitions: [`Grammar`](numbers::Grammar), [`Format`](formats::Format), [`padded_of`](numbers::padded_of), [`minimal_of`](numbers::minimal_of), [`TakesBytes`](walks::TakesBytes).
    type WalksWhole;
    /// Whatever bytes a value decodes from in this grammar, its encoding is the minimal one there.
    ///
    /// ```text
    /// pub record EncodesIn {T X : Type 0} (w : Grammar) (F : Format X) (view : T → X)
    ///     (encoding : T → List ℕ) : Type 0 where
    ///   pub minimal_in : (s : List ℕ) (x : T) → F (padded_of w) s (view x)
    ///       → F (minimal_of w) (encoding x) (view x)
    /// ```
    ///
    /// Definitions: [`Grammar`](numbers::Grammar), [`Format`](formats::Format), [`padded_of`](numbers::padded_of), [`minimal_of`](numbers::minimal_of).
    type EncodesIn;
}
