// Written by tools/to-rust from crates/wasm_tool/specs: change that.
//! Recipes of modules.
//!
//! The contracts of [`wasm_tool`](https://github.com/dolzhytik/dolzhytik/blob/main/crates/wasm_tool/README.md) name these definitions.

/// The lines of a text, the words of a line, and the version of a recipe.
///
/// - Comments: [`begins_comment`](lines::begins_comment), [`before_comment`](lines::before_comment), [`counted_words`](lines::counted_words).
/// - The version of a recipe: [`is_version_2`](lines::is_version_2), [`header_from`](lines::header_from), [`header_of`](lines::header_of), [`version_with`](lines::version_with), [`lines_with`](lines::lines_with), [`line_with`](lines::line_with), [`version_of`](lines::version_of), [`versioned_lines`](lines::versioned_lines), [`Script`](lines::Script), [`first_script`](lines::first_script), [`versioned_script`](lines::versioned_script).
///
/// [How to read definitions](super). The file is [`Lines.antt`](https://github.com/dolzhytik/dolzhytik/blob/main/crates/wasm_tool/specs/Lines.antt).
pub trait lines {
    /// The lines of a text. Each ends at a line feed or at the end of the text, and loses a carriage return at its end.
    ///
    /// ```text
    /// abbrev pub lines_of : List ℕ → List (List ℕ)
    /// lines_of text = map strip_carriage_return (slice_split (λ b. b == 0x0A) text)
    /// ```
    type lines_of;
    /// Whether there is a word between two spaces.
    ///
    /// ```text
    /// abbrev pub is_word : List ℕ → Bool
    /// is_word [] = false
    /// is_word (b ∷ bs) = true
    /// ```
    type is_word;
    /// The words of a line, which spaces separate.
    ///
    /// ```text
    /// abbrev pub words_of : List ℕ → List (List ℕ)
    /// words_of line = filter is_word (slice_split (λ b. b == 0x20) line)
    /// ```
    ///
    /// Definitions: [`is_word`](lines::is_word).
    type words_of;
    /// The text without the spaces before it.
    ///
    /// ```text
    /// abbrev pub without_spaces : List ℕ → List ℕ
    /// without_spaces [] = []
    /// without_spaces (b ∷ bs) = if b == 0x20 then without_spaces bs else b ∷ bs
    /// ```
    type without_spaces;
    /// The text after the first word of a line, without the spaces before it.
    ///
    /// ```text
    /// abbrev pub rest_of : List ℕ → List ℕ
    /// rest_of line = without_spaces (after_first (λ b. b == 0x20) (without_spaces line))
    /// ```
    ///
    /// Definitions: [`without_spaces`](lines::without_spaces).
    type rest_of;
    /// Whether a comment begins with this word: it begins with '#'.
    ///
    /// ```text
    /// abbrev pub begins_comment : List ℕ → Bool
    /// begins_comment [] = false
    /// begins_comment (b ∷ bs) = b == 0x23
    /// ```
    type begins_comment;
    /// The words before a comment.
    ///
    /// ```text
    /// abbrev pub before_comment : List (List ℕ) → List (List ℕ)
    /// before_comment [] = []
    /// before_comment (word ∷ words) = if begins_comment word then [] else word
    ///     ∷ before_comment words
    /// ```
    ///
    /// Definitions: [`begins_comment`](lines::begins_comment).
    type before_comment;
    /// The words of a line that count: in version 2, those before a comment.
    ///
    /// ```text
    /// abbrev pub counted_words : Version → List ℕ → List (List ℕ)
    /// counted_words First line = words_of line
    /// counted_words Second line = before_comment (words_of line)
    /// ```
    ///
    /// Definitions: [`words_of`](lines::words_of), [`before_comment`](lines::before_comment).
    type counted_words;
    /// Whether these words of a line are `version 2`; `None` if there are no words.
    ///
    /// ```text
    /// abbrev pub is_version_2 : List (List ℕ) → Option Bool
    /// is_version_2 [] = None
    /// is_version_2 (command ∷ []) = Some false
    /// is_version_2 (command ∷ number ∷ []) = Some
    ///     (bytes_eq command (codes "version") && bytes_eq number (codes "2"))
    /// is_version_2 (command ∷ number ∷ word ∷ words) = Some false
    /// ```
    type is_version_2;
    /// The index of the line `version 2`, by whether the first line is it, and by the index of that line among the later ones.
    ///
    /// ```text
    /// abbrev pub header_from : Option Bool → Option ℕ → Option ℕ
    /// header_from None later = option_map suc later
    /// header_from (Some true) later = Some 0
    /// header_from (Some false) later = None
    /// ```
    type header_from;
    /// The index of the line `version 2`, if it is the first line that has a word before a comment.
    ///
    /// ```text
    /// abbrev pub header_of : List (List ℕ) → Option ℕ
    /// header_of [] = None
    /// header_of (line ∷ lines) = header_from (is_version_2 (counted_words Second line))
    ///     (header_of lines)
    /// ```
    ///
    /// Definitions: [`header_from`](lines::header_from), [`is_version_2`](lines::is_version_2), [`counted_words`](lines::counted_words).
    type header_of;
    /// The version of a recipe: the second one if it has a line `version 2`.
    ///
    /// ```text
    /// abbrev pub version_with : Option ℕ → Version
    /// version_with None = First
    /// version_with (Some index) = Second
    /// ```
    type version_with;
    /// The lines of a recipe. The line `version 2` adds no item: it is replaced by an empty line.
    ///
    /// ```text
    /// abbrev pub lines_with : Option ℕ → List (List ℕ) → List (List ℕ)
    /// lines_with None lines = lines
    /// lines_with (Some index) lines = set lines index []
    /// ```
    type lines_with;
    /// A line of a text as the line of a recipe at this index.
    ///
    /// ```text
    /// abbrev pub line_with : Option ℕ → ℕ → List ℕ → List ℕ
    /// line_with None index line = line
    /// line_with (Some header) index line = if header == index then [] else line
    /// ```
    type line_with;
    /// The version of a text that may begin with `version 2`.
    ///
    /// ```text
    /// abbrev pub version_of : List ℕ → Version
    /// version_of text = version_with (header_of (lines_of text))
    /// ```
    ///
    /// Definitions: [`version_with`](lines::version_with), [`header_of`](lines::header_of), [`lines_of`](lines::lines_of).
    type version_of;
    /// The lines of a text that may begin with `version 2`.
    ///
    /// ```text
    /// abbrev pub versioned_lines : List ℕ → List (List ℕ)
    /// versioned_lines text = lines_with (header_of (lines_of text)) (lines_of text)
    /// ```
    ///
    /// Definitions: [`lines_with`](lines::lines_with), [`header_of`](lines::header_of), [`lines_of`](lines::lines_of).
    type versioned_lines;
    /// The version and the lines of a recipe.
    ///
    /// ```text
    /// pub record Script : Type 0 where
    ///   pub version : Version
    ///   pub lines : List (List ℕ)
    /// ```
    type Script;
    /// A text as a recipe of version 1.
    ///
    /// ```text
    /// abbrev pub first_script : List ℕ → Script
    /// first_script text = record { version = First; lines = lines_of text }
    /// ```
    ///
    /// Definitions: [`Script`](lines::Script), [`lines_of`](lines::lines_of).
    type first_script;
    /// A text as a recipe of version 1 or 2.
    ///
    /// ```text
    /// abbrev pub versioned_script : List ℕ → Script
    /// versioned_script text = record
    ///     { version = version_of text; lines = versioned_lines text }
    /// ```
    ///
    /// Definitions: [`Script`](lines::Script), [`version_of`](lines::version_of), [`versioned_lines`](lines::versioned_lines).
    type versioned_script;
}

/// The input and the output of `--read`.
///
/// - The argument: [`read_word`](listings::read_word), [`AsksToRead`](listings::AsksToRead).
/// - Hexadecimal text: [`IsBlank`](listings::IsBlank), [`DropsBlanks`](listings::DropsBlanks), [`IsHexText`](listings::IsHexText).
/// - Lines: [`items_text`](listings::items_text), [`line_of`](listings::line_of), [`listing_of`](listings::listing_of), [`Lists`](listings::Lists).
///
/// [How to read definitions](super). The file is [`Listings.antt`](https://github.com/dolzhytik/dolzhytik/blob/main/crates/wasm_tool/specs/Listings.antt).
pub trait listings {
    /// The word `--read`.
    ///
    /// ```text
    /// abbrev pub read_word : List ℕ
    /// read_word = 0x2D ∷ 0x2D ∷ 0x72 ∷ 0x65 ∷ 0x61 ∷ 0x64 ∷ []
    /// ```
    type read_word;
    /// The one argument of the program is `--read`.
    ///
    /// ```text
    /// pub record AsksToRead {A : Type 0} (args : List (String A)) : Type 0 where
    ///   pub word : String A
    ///   pub one : args ≡ word ∷ []
    ///   pub is : string_bytes word ≡ read_word
    /// ```
    ///
    /// Definitions: [`read_word`](listings::read_word).
    type AsksToRead;
    /// A space, a carriage return or a line feed.
    ///
    /// ```text
    /// abbrev pub IsBlank : ℕ → Type 0
    /// IsBlank b = (b ≡ 0x20) ⊎ (b ≡ 0x0D) ⊎ (b ≡ 0x0A)
    /// ```
    type IsBlank;
    /// The kept text is the text without the blanks at its end.
    ///
    /// ```text
    /// pub record DropsBlanks (text kept : List ℕ) : Type 0 where
    ///   pub blanks : List ℕ
    ///   pub split : text ≡ kept ++ blanks
    ///   pub blank : All IsBlank blanks
    ///   pub last : (front : List ℕ) (b : ℕ) → kept ≡ front ++ b ∷ [] → IsBlank b → ⊥
    /// ```
    ///
    /// Definitions: [`IsBlank`](listings::IsBlank).
    type DropsBlanks;
    /// The text is the hexadecimal digits of the bytes, and blanks may follow.
    ///
    /// ```text
    /// pub record IsHexText (text bytes : List ℕ) : Type 0 where
    ///   pub digits : List ℕ
    ///   pub ends : DropsBlanks text digits
    ///   pub decoded : decode_of digits ≡ Ok bytes
    /// ```
    ///
    /// Definitions: [`DropsBlanks`](listings::DropsBlanks).
    type IsHexText;
    /// A number of items, or `-` if they are not counted.
    ///
    /// ```text
    /// abbrev pub items_text : Option ℕ → List ℕ
    /// items_text (Some n) = decimal n
    /// items_text None = 0x2D ∷ []
    /// ```
    type items_text;
    /// The line of a section: its id, its size and its number of items, separated by spaces, and a line feed.
    ///
    /// ```text
    /// abbrev pub line_of : Listed → List ℕ
    /// line_of s = decimal s.id ++ 0x20 ∷ decimal s.size ++ 0x20 ∷ items_text s.items
    ///     ++ 0x0A ∷ []
    /// ```
    ///
    /// Definitions: [`items_text`](listings::items_text).
    type line_of;
    /// One line for each section.
    ///
    /// ```text
    /// abbrev pub listing_of : List Listed → List ℕ
    /// listing_of sections = flat_map line_of sections
    /// ```
    ///
    /// Definitions: [`line_of`](listings::line_of).
    type listing_of;
    /// The text is the hexadecimal text of a module, and these are the lines of its sections.
    ///
    /// ```text
    /// pub record Lists (text lines : List ℕ) : Type 0 where
    ///   pub bytes : List ℕ
    ///   pub sections : List Listed
    ///   pub hex : IsHexText text bytes
    ///   pub read : HasLines bytes sections
    ///   pub written : lines ≡ listing_of sections
    /// ```
    ///
    /// Definitions: [`IsHexText`](listings::IsHexText), [`HasLines`](super::reader::modules::HasLines), [`listing_of`](listings::listing_of).
    type Lists;
}

/// The output of the program.
///
/// [How to read definitions](super). The file is [`Program.antt`](https://github.com/dolzhytik/dolzhytik/blob/main/crates/wasm_tool/specs/Program.antt).
pub trait program {
    /// The module of a recipe in lower-case hexadecimal, and a line feed.
    ///
    /// ```text
    /// abbrev pub hex_line_of : List ℕ → List ℕ
    /// hex_line_of text = encode_lower (recipe_module (entries_of First (lines_of text)))
    ///     ++ 0x0A ∷ []
    /// ```
    ///
    /// Definitions: [`recipe_module`](recipe::recipe_module), [`entries_of`](recipe::entries_of), [`lines_of`](lines::lines_of).
    type hex_line_of;
    /// An allocation failed, but not at a line of a recipe.
    ///
    /// ```text
    /// abbrev pub IsLateRefusal : Trouble → Type 0
    /// IsLateRefusal (Recipe fault) = (fault.line ≡ 0) × (fault.cause ≡ Memory)
    /// IsLateRefusal _ = ⊥
    /// ```
    type IsLateRefusal;
    /// The writer gains a front of these bytes: none of them, some or all.
    ///
    /// ```text
    /// pub record GainsFront (old new : Option (List ℕ)) (bytes : List ℕ) : Type 0 where
    ///   pub count : ℕ
    ///   pub gained : Appends old new (take count bytes)
    /// ```
    type GainsFront;
    /// The writer gains nothing, or a front of the list of the sections of the module in this text.
    ///
    /// ```text
    /// abbrev pub GainsFrontOfListing : List ℕ → Option (List ℕ) → Option (List ℕ) → Type 0
    /// GainsFrontOfListing text old new = Keeps old new
    ///     ⊎ ((lines : List ℕ) × Lists text lines × GainsFront old new lines)
    /// ```
    ///
    /// Definitions: [`Lists`](listings::Lists), [`GainsFront`](program::GainsFront).
    type GainsFrontOfListing;
}

/// Recipes: each line adds an entry to a section, and the sections make a module. Definitions take the version of the recipe, 1 or 2.
///
/// - Words: [`is_surplus`](recipe::is_surplus), [`alone`](recipe::alone), [`optional_word`](recipe::optional_word), [`after_optional`](recipe::after_optional), [`from_hex`](recipe::from_hex), [`from_number`](recipe::from_number), [`from_type`](recipe::from_type), [`from_words`](recipe::from_words), [`value_of`](recipe::value_of), [`below`](recipe::below), [`decimal_of`](recipe::decimal_of), [`at_most`](recipe::at_most), [`signed_of`](recipe::signed_of), [`one_more`](recipe::one_more), [`indices_of`](recipe::indices_of).
/// - Types: [`val_type_of`](recipe::val_type_of), [`optional_decimal`](recipe::optional_decimal), [`limits_from`](recipe::limits_from), [`limits_of`](recipe::limits_of), [`memory_with`](recipe::memory_with), [`table_with`](recipe::table_with).
/// - Lines: [`adds`](recipe::adds), [`type_entry`](recipe::type_entry), [`function_entry`](recipe::function_entry), [`memory_entry`](recipe::memory_entry), [`constant_bytes`](recipe::constant_bytes), [`constant_type`](recipe::constant_type), [`global_entry`](recipe::global_entry), [`export_kind_of`](recipe::export_kind_of), [`from_kind`](recipe::from_kind), [`export_entry`](recipe::export_entry), [`start_entry`](recipe::start_entry), [`body_entry`](recipe::body_entry), [`data_entry`](recipe::data_entry), [`name_entry`](recipe::name_entry).
/// - Lines of version 2 alone: [`imported_function`](recipe::imported_function), [`global_of_type`](recipe::global_of_type), [`mutable_global`](recipe::mutable_global), [`imported_global`](recipe::imported_global), [`entity_of`](recipe::entity_of), [`import_entry`](recipe::import_entry), [`table_entry`](recipe::table_entry), [`functions_encoding`](recipe::functions_encoding), [`elem_entry`](recipe::elem_entry), [`locals_entry`](recipe::locals_entry), [`second_entry`](recipe::second_entry), [`entry_of_words`](recipe::entry_of_words), [`entry_of`](recipe::entry_of), [`IsGood`](recipe::IsGood), [`entries_of`](recipe::entries_of).
/// - Sections: [`added_to`](recipe::added_to), [`body_encoding`](recipe::body_encoding), [`bodies_of`](recipe::bodies_of), [`left_locals`](recipe::left_locals), [`section_of`](recipe::section_of), [`last_of`](recipe::last_of), [`start_of`](recipe::start_of), [`names_of`](recipe::names_of), [`AreEncodableNames`](recipe::AreEncodableNames), [`in_order`](recipe::in_order), [`sections_of`](recipe::sections_of), [`recipe_module`](recipe::recipe_module), [`IsEncodableRecipe`](recipe::IsEncodableRecipe).
/// - The lines of an error, which names a line counted from 1, or 0 for all lines: [`lines_through`](recipe::lines_through), [`lines_before`](recipe::lines_before).
///
/// [How to read definitions](super). The file is [`Recipe.antt`](https://github.com/dolzhytik/dolzhytik/blob/main/crates/wasm_tool/specs/Recipe.antt).
pub trait recipe {
    /// An encoded item, and the id of the section that it is added to.
    ///
    /// ```text
    /// pub record Addition : Type 0 where
    ///   pub section : ℕ
    ///   pub item : List ℕ
    /// ```
    type Addition;
    /// No section has this id. An item with it is a run of locals of the next body.
    ///
    /// ```text
    /// abbrev pub locals_id : ℕ
    /// locals_id = 0x100
    /// ```
    type locals_id;
    /// Whether words are left over, which version 1 ignores.
    ///
    /// ```text
    /// abbrev pub is_surplus : Version → List (List ℕ) → Bool
    /// is_surplus First more = false
    /// is_surplus Second [] = false
    /// is_surplus Second (word ∷ more) = true
    /// ```
    type is_surplus;
    /// The result of a command that has these words after the needed ones: `made`, or the error `SurplusWord` if words are left over.
    ///
    /// ```text
    /// abbrev pub alone : {T : Type 0} → Version → List (List ℕ) → Result T RecipeCause
    ///     → Result T RecipeCause
    /// alone version more made = if is_surplus version more then Err SurplusWord else made
    /// ```
    ///
    /// Definitions: [`is_surplus`](recipe::is_surplus).
    type alone;
    /// An optional word, which version 1 does not have.
    ///
    /// ```text
    /// abbrev pub optional_word : Version → List (List ℕ) → Option (List ℕ)
    /// optional_word First words = None
    /// optional_word Second [] = None
    /// optional_word Second (word ∷ words) = Some word
    /// ```
    type optional_word;
    /// The words after an optional word.
    ///
    /// ```text
    /// abbrev pub after_optional : Version → List (List ℕ) → List (List ℕ)
    /// after_optional First words = words
    /// after_optional Second [] = []
    /// after_optional Second (word ∷ words) = words
    /// ```
    type after_optional;
    /// The entry that the bytes of a hexadecimal word make, or the error `BadHex`.
    ///
    /// ```text
    /// abbrev pub from_hex : {E : Type 0} → Result (List ℕ) E
    ///     → (List ℕ → Result (List Addition) RecipeCause) → Result (List Addition) RecipeCause
    /// from_hex (Ok bytes) make = make bytes
    /// from_hex (Err e) make = Err BadHex
    /// ```
    ///
    /// Definitions: [`Addition`](recipe::Addition).
    type from_hex;
    /// The value that a number makes, or the error `BadNumber`.
    ///
    /// ```text
    /// abbrev pub from_number : {T S : Type 0} → Option T → (T → Result S RecipeCause)
    ///     → Result S RecipeCause
    /// from_number (Some n) make = make n
    /// from_number None make = Err BadNumber
    /// ```
    type from_number;
    /// The value that a type makes, or the error `UnknownType`.
    ///
    /// ```text
    /// abbrev pub from_type : {S : Type 0} → Option ValType → (ValType → Result S RecipeCause)
    ///     → Result S RecipeCause
    /// from_type (Some ty) make = make ty
    /// from_type None make = Err UnknownType
    /// ```
    type from_type;
    /// The value that parsed words make, or their error.
    ///
    /// ```text
    /// abbrev pub from_words : {T S : Type 0} → Result T RecipeCause
    ///     → (T → Result S RecipeCause) → Result S RecipeCause
    /// from_words (Ok value) make = make value
    /// from_words (Err cause) make = Err cause
    /// ```
    type from_words;
    /// The value of a word of decimal digits.
    ///
    /// ```text
    /// abbrev pub value_of : List ℕ → Option ℕ
    /// value_of word = if is_word word && all_ascii_digits word then Some
    ///     (digits_value 10 word) else None
    /// ```
    ///
    /// Definitions: [`is_word`](lines::is_word).
    type value_of;
    /// A value of at most this many bits.
    ///
    /// ```text
    /// abbrev pub below : ℕ → Option ℕ → Option ℕ
    /// below bits None = None
    /// below bits (Some n) = if nat_lt n (2 ^ bits) then Some n else None
    /// ```
    type below;
    /// The number of at most this many bits that a decimal word denotes.
    ///
    /// ```text
    /// abbrev pub decimal_of : ℕ → List ℕ → Option ℕ
    /// decimal_of bits word = below bits (value_of word)
    /// ```
    ///
    /// Definitions: [`below`](recipe::below), [`value_of`](recipe::value_of).
    type decimal_of;
    /// A value up to this bound.
    ///
    /// ```text
    /// abbrev pub at_most : ℕ → Option ℕ → Option ℕ
    /// at_most most None = None
    /// at_most most (Some n) = if nat_lt n (suc most) then Some n else None
    /// ```
    type at_most;
    /// The signed number of 32 bits that a decimal word denotes, which is negative after '-'.
    ///
    /// ```text
    /// abbrev pub signed_of : List ℕ → Option ℤ
    /// signed_of [] = None
    /// signed_of (c ∷ cs) = if c == 0x2D then option_map (λ n. neg_ℤ (pos n))
    ///     (at_most (2 ^ 31) (value_of cs)) else option_map pos
    ///     (at_most (2 ^ 31 - 1) (value_of (c ∷ cs)))
    /// ```
    ///
    /// Definitions: [`at_most`](recipe::at_most), [`value_of`](recipe::value_of).
    type signed_of;
    /// A number before others, or none if one of them is missing.
    ///
    /// ```text
    /// abbrev pub one_more : Option ℕ → Option (List ℕ) → Option (List ℕ)
    /// one_more (Some n) (Some ns) = Some (n ∷ ns)
    /// one_more (Some n) None = None
    /// one_more None ns = None
    /// ```
    type one_more;
    /// The numbers of 32 bits of these words, or none if a word is no such number.
    ///
    /// ```text
    /// abbrev pub indices_of : List (List ℕ) → Option (List ℕ)
    /// indices_of [] = Some []
    /// indices_of (word ∷ words) = one_more (decimal_of 32 word) (indices_of words)
    /// ```
    ///
    /// Definitions: [`one_more`](recipe::one_more), [`decimal_of`](recipe::decimal_of).
    type indices_of;
    /// A value type, by its word.
    ///
    /// ```text
    /// abbrev pub val_type_of : List ℕ → Option ValType
    /// val_type_of word =
    ///     if bytes_eq word (codes "i32") then Some I32
    ///     else if bytes_eq word (codes "i64") then Some I64
    ///     else if bytes_eq word (codes "f32") then Some F32
    ///     else if bytes_eq word (codes "f64") then Some F64
    ///     else if bytes_eq word (codes "v128") then Some V128
    ///     else if bytes_eq word (codes "funcref") then Some (Ref FUNCREF)
    ///     else if bytes_eq word (codes "externref") then Some (Ref EXTERNREF)
    ///     else None
    /// ```
    ///
    /// Definitions: [`FUNCREF`](super::base::types::FUNCREF), [`EXTERNREF`](super::base::types::EXTERNREF).
    type val_type_of;
    /// The number of 64 bits of an optional word.
    ///
    /// ```text
    /// abbrev pub optional_decimal : Option (List ℕ) → Option (Option ℕ)
    /// optional_decimal None = Some None
    /// optional_decimal (Some word) = option_map Some (decimal_of 64 word)
    /// ```
    ///
    /// Definitions: [`decimal_of`](recipe::decimal_of).
    type optional_decimal;
    /// The limits of a minimum and an optional maximum.
    ///
    /// ```text
    /// abbrev pub limits_from : Option ℕ → Option (Option ℕ) → Result Limits RecipeCause
    /// limits_from minimum maximum = from_number minimum
    ///     (λ least. from_number maximum
    ///     (λ most. Ok (record { minimum = least; maximum = most })))
    /// ```
    ///
    /// Definitions: [`from_number`](recipe::from_number).
    type limits_from;
    /// `MIN`, or `MIN [MAX]` in version 2.
    ///
    /// ```text
    /// abbrev pub limits_of : Version → List (List ℕ) → Result Limits RecipeCause
    /// limits_of version [] = Err MissingWord
    /// limits_of version (minimum ∷ more) =
    ///     alone version (after_optional version more)
    ///         (limits_from (decimal_of 64 minimum)
    ///         (optional_decimal (optional_word version more)))
    /// ```
    ///
    /// Definitions: [`alone`](recipe::alone), [`after_optional`](recipe::after_optional), [`limits_from`](recipe::limits_from), [`decimal_of`](recipe::decimal_of), [`optional_decimal`](recipe::optional_decimal), [`optional_word`](recipe::optional_word).
    type limits_of;
    /// The memory type with these limits, of 32-bit addresses, unshared, with pages of the usual size.
    ///
    /// ```text
    /// abbrev pub memory_with : Limits → MemoryType
    /// memory_with limits = record
    ///     { minimum = limits.minimum; maximum = limits.maximum; memory64 = false;
    ///     shared = false; page_size_log2 = None }
    /// ```
    type memory_with;
    /// The type of a table of function references with these limits, of 32-bit indices, unshared.
    ///
    /// ```text
    /// abbrev pub table_with : Limits → TableType
    /// table_with limits = record
    ///     { element_type = FUNCREF; table64 = false; minimum = limits.minimum;
    ///     maximum = limits.maximum; shared = false }
    /// ```
    ///
    /// Definitions: [`FUNCREF`](super::base::types::FUNCREF).
    type table_with;
    /// The one entry of a line.
    ///
    /// ```text
    /// abbrev pub adds : ℕ → List ℕ → Result (List Addition) RecipeCause
    /// adds section item = Ok (record { section = section; item = item } ∷ [])
    /// ```
    ///
    /// Definitions: [`Addition`](recipe::Addition).
    type adds;
    /// `type HEX`: an entry of the type section.
    ///
    /// ```text
    /// abbrev pub type_entry : Version → List (List ℕ) → Result (List Addition) RecipeCause
    /// type_entry version [] = Err MissingWord
    /// type_entry version (hex ∷ more) = alone version more
    ///     (from_hex (decode_of hex) (λ bytes. adds 1 bytes))
    /// ```
    ///
    /// Definitions: [`Addition`](recipe::Addition), [`alone`](recipe::alone), [`from_hex`](recipe::from_hex), [`adds`](recipe::adds).
    type type_entry;
    /// `func N`: a function of this type index.
    ///
    /// ```text
    /// abbrev pub function_entry : Version → List (List ℕ) → Result (List Addition) RecipeCause
    /// function_entry version [] = Err MissingWord
    /// function_entry version (index ∷ more) = alone version more
    ///     (from_number (decimal_of 32 index) (λ n. adds 3 (unsigned_encoding n)))
    /// ```
    ///
    /// Definitions: [`Addition`](recipe::Addition), [`alone`](recipe::alone), [`from_number`](recipe::from_number), [`decimal_of`](recipe::decimal_of), [`adds`](recipe::adds), [`unsigned_encoding`](super::base::numbers::unsigned_encoding).
    type function_entry;
    /// `memory MIN`: a memory with this minimum of pages. In version 2 a maximum may follow.
    ///
    /// ```text
    /// abbrev pub memory_entry : Version → List (List ℕ) → Result (List Addition) RecipeCause
    /// memory_entry version words = from_words (limits_of version words)
    ///     (λ limits. adds 5 (memory_encoding (memory_with limits)))
    /// ```
    ///
    /// Definitions: [`Addition`](recipe::Addition), [`from_words`](recipe::from_words), [`limits_of`](recipe::limits_of), [`adds`](recipe::adds), [`memory_encoding`](super::sections::memories::memory_encoding), [`memory_with`](recipe::memory_with).
    type memory_entry;
    /// The stored bytes of an expression that computes this number.
    ///
    /// ```text
    /// abbrev pub constant_bytes : ℤ → List ℕ
    /// constant_bytes z = instruction_encoding {A = Global} (I32Const z)
    /// ```
    ///
    /// Definitions: [`instruction_encoding`](super::insn::instructions::instruction_encoding).
    type constant_bytes;
    /// The type of an `i32` global that is not mutable.
    ///
    /// ```text
    /// abbrev pub constant_type : GlobalType
    /// constant_type = record { val_type = I32; mutable = false; shared = false }
    /// ```
    type constant_type;
    /// `global I`: a global with this value.
    ///
    /// ```text
    /// abbrev pub global_entry : Version → List (List ℕ) → Result (List Addition) RecipeCause
    /// global_entry version [] = Err MissingWord
    /// global_entry version (value ∷ more) =
    ///     alone version more (from_number (signed_of value)
    ///         (λ z. adds 6 (global_encoding constant_type
    ///                 ++ expression_encoding (constant_bytes z))))
    /// ```
    ///
    /// Definitions: [`Addition`](recipe::Addition), [`alone`](recipe::alone), [`from_number`](recipe::from_number), [`signed_of`](recipe::signed_of), [`adds`](recipe::adds), [`global_encoding`](super::sections::globals::global_encoding), [`constant_type`](recipe::constant_type), [`expression_encoding`](super::code::expressions::expression_encoding), [`constant_bytes`](recipe::constant_bytes).
    type global_entry;
    /// The kind of an export, by its word.
    ///
    /// ```text
    /// abbrev pub export_kind_of : List ℕ → Option ExportKind
    /// export_kind_of word =
    ///     if bytes_eq word (codes "func") then Some kinds.Func
    ///     else if bytes_eq word (codes "table") then Some kinds.Table
    ///     else if bytes_eq word (codes "memory") then Some kinds.Memory
    ///     else if bytes_eq word (codes "global") then Some kinds.Global
    ///     else if bytes_eq word (codes "tag") then Some kinds.Tag
    ///     else None
    /// ```
    type export_kind_of;
    /// The entry that a kind makes, or the error `UnknownCommand`.
    ///
    /// ```text
    /// abbrev pub from_kind : Option ExportKind
    ///     → (ExportKind → Result (List Addition) RecipeCause)
    ///     → Result (List Addition) RecipeCause
    /// from_kind (Some kind) make = make kind
    /// from_kind None make = Err UnknownCommand
    /// ```
    ///
    /// Definitions: [`Addition`](recipe::Addition).
    type from_kind;
    /// `export NAME KIND N`: an export.
    ///
    /// ```text
    /// abbrev pub export_entry : Version → List (List ℕ) → Result (List Addition) RecipeCause
    /// export_entry version (name ∷ kind ∷ index ∷ more) =
    ///     alone version more
    ///     (from_kind (export_kind_of kind)
    ///         (λ k. from_number (decimal_of 32 index)
    ///             (λ n. adds 7 (size_prefixed_encoding name
    ///                     ++ (kind_code k ∷ [] ++ unsigned_encoding n)))))
    /// export_entry version words = Err MissingWord
    /// ```
    ///
    /// Definitions: [`Addition`](recipe::Addition), [`alone`](recipe::alone), [`from_kind`](recipe::from_kind), [`export_kind_of`](recipe::export_kind_of), [`from_number`](recipe::from_number), [`decimal_of`](recipe::decimal_of), [`adds`](recipe::adds), [`size_prefixed_encoding`](super::base::encodings::size_prefixed_encoding), [`kind_code`](super::sections::exports::kind_code), [`unsigned_encoding`](super::base::numbers::unsigned_encoding).
    type export_entry;
    /// `start N`: the function that runs when the module is instantiated.
    ///
    /// ```text
    /// abbrev pub start_entry : Version → List (List ℕ) → Result (List Addition) RecipeCause
    /// start_entry version [] = Err MissingWord
    /// start_entry version (index ∷ more) = alone version more
    ///     (from_number (decimal_of 32 index) (λ n. adds 8 (unsigned_encoding n)))
    /// ```
    ///
    /// Definitions: [`Addition`](recipe::Addition), [`alone`](recipe::alone), [`from_number`](recipe::from_number), [`decimal_of`](recipe::decimal_of), [`adds`](recipe::adds), [`unsigned_encoding`](super::base::numbers::unsigned_encoding).
    type start_entry;
    /// `body HEX`: the instructions of a function, in the code section.
    ///
    /// ```text
    /// abbrev pub body_entry : Version → List (List ℕ) → Result (List Addition) RecipeCause
    /// body_entry version [] = Err MissingWord
    /// body_entry version (hex ∷ more) = alone version more
    ///     (from_hex (decode_of hex) (λ bytes. adds 10 bytes))
    /// ```
    ///
    /// Definitions: [`Addition`](recipe::Addition), [`alone`](recipe::alone), [`from_hex`](recipe::from_hex), [`adds`](recipe::adds).
    type body_entry;
    /// `data I HEX`: bytes at this offset of memory 0.
    ///
    /// ```text
    /// abbrev pub data_entry : Version → List (List ℕ) → Result (List Addition) RecipeCause
    /// data_entry version (place ∷ hex ∷ more) =
    ///     alone version more (from_number (signed_of place)
    ///         (λ z. from_hex (decode_of hex)
    ///             (λ bytes. adds 11 (active_encoding 0 (constant_bytes z) bytes))))
    /// data_entry version words = Err MissingWord
    /// ```
    ///
    /// Definitions: [`Addition`](recipe::Addition), [`alone`](recipe::alone), [`from_number`](recipe::from_number), [`signed_of`](recipe::signed_of), [`from_hex`](recipe::from_hex), [`adds`](recipe::adds), [`active_encoding`](super::sections::data_segments::active_encoding), [`constant_bytes`](recipe::constant_bytes).
    type data_entry;
    /// `name TEXT`: the name of the module, which is the remainder of the line, in the name section.
    ///
    /// ```text
    /// abbrev pub name_entry : List ℕ → Result (List Addition) RecipeCause
    /// name_entry [] = Err MissingWord
    /// name_entry (b ∷ bs) = adds 0 (subsection_encoding 0 (size_prefixed_encoding (b ∷ bs)))
    /// ```
    ///
    /// Definitions: [`Addition`](recipe::Addition), [`adds`](recipe::adds), [`subsection_encoding`](super::custom::customs::subsection_encoding), [`size_prefixed_encoding`](super::base::encodings::size_prefixed_encoding).
    type name_entry;
    /// `func N` of an import: a function of this type index.
    ///
    /// ```text
    /// abbrev pub imported_function : Version → List (List ℕ) → Result EntityType RecipeCause
    /// imported_function version [] = Err MissingWord
    /// imported_function version (index ∷ more) = alone version more
    ///     (from_number (decimal_of 32 index) (λ n. Ok (entities.Function n)))
    /// ```
    ///
    /// Definitions: [`alone`](recipe::alone), [`from_number`](recipe::from_number), [`decimal_of`](recipe::decimal_of).
    type imported_function;
    /// `TYPE` of an import of a global, after which these words are left.
    ///
    /// ```text
    /// abbrev pub global_of_type
    ///     : Version → Bool → List ℕ → List (List ℕ) → Result EntityType RecipeCause
    /// global_of_type version mutable word more =
    ///     alone version more (from_type (val_type_of word)
    ///         (λ ty. Ok (entities.Global
    ///                 (record { val_type = ty; mutable = mutable; shared = false }))))
    /// ```
    ///
    /// Definitions: [`alone`](recipe::alone), [`from_type`](recipe::from_type), [`val_type_of`](recipe::val_type_of).
    type global_of_type;
    /// `TYPE` after `mut`.
    ///
    /// ```text
    /// abbrev pub mutable_global : Version → List (List ℕ) → Result EntityType RecipeCause
    /// mutable_global version [] = Err MissingWord
    /// mutable_global version (word ∷ more) = global_of_type version true word more
    /// ```
    ///
    /// Definitions: [`global_of_type`](recipe::global_of_type).
    type mutable_global;
    /// `global TYPE` of an import, or `global mut TYPE`.
    ///
    /// ```text
    /// abbrev pub imported_global : Version → List (List ℕ) → Result EntityType RecipeCause
    /// imported_global version [] = Err MissingWord
    /// imported_global version (word ∷ more) = if bytes_eq word
    ///     (codes "mut") then mutable_global version more else global_of_type version false
    ///     word more
    /// ```
    ///
    /// Definitions: [`mutable_global`](recipe::mutable_global), [`global_of_type`](recipe::global_of_type).
    type imported_global;
    /// The entity of an import, by the word of its kind and the words after it.
    ///
    /// ```text
    /// abbrev pub entity_of : Version → List ℕ → List (List ℕ) → Result EntityType RecipeCause
    /// entity_of version kind words =
    ///     if bytes_eq kind (codes "func") then imported_function version words
    ///     else if bytes_eq kind (codes "table") then from_words (limits_of version words)
    ///         (λ limits. Ok (entities.Table (table_with limits)))
    ///     else if bytes_eq kind (codes "memory") then from_words (limits_of version words)
    ///         (λ limits. Ok (entities.Memory (memory_with limits)))
    ///     else if bytes_eq kind (codes "global") then imported_global version words
    ///     else Err UnknownCommand
    /// ```
    ///
    /// Definitions: [`imported_function`](recipe::imported_function), [`from_words`](recipe::from_words), [`limits_of`](recipe::limits_of), [`table_with`](recipe::table_with), [`memory_with`](recipe::memory_with), [`imported_global`](recipe::imported_global).
    type entity_of;
    /// `import MODULE NAME KIND ..`: an import.
    ///
    /// ```text
    /// abbrev pub import_entry : Version → List (List ℕ) → Result (List Addition) RecipeCause
    /// import_entry version (from ∷ name ∷ kind ∷ words) =
    ///     from_words (entity_of version kind words)
    ///         (λ entity. adds 2 (size_prefixed_encoding from
    ///             ++ (size_prefixed_encoding name ++ entity_encoding entity)))
    /// import_entry version words = Err MissingWord
    /// ```
    ///
    /// Definitions: [`Addition`](recipe::Addition), [`from_words`](recipe::from_words), [`entity_of`](recipe::entity_of), [`adds`](recipe::adds), [`size_prefixed_encoding`](super::base::encodings::size_prefixed_encoding), [`entity_encoding`](super::sections::imports::entity_encoding).
    type import_entry;
    /// `table MIN [MAX]`: a table of function references.
    ///
    /// ```text
    /// abbrev pub table_entry : Version → List (List ℕ) → Result (List Addition) RecipeCause
    /// table_entry version words = from_words (limits_of version words)
    ///     (λ limits. adds 4 (table_encoding (table_with limits)))
    /// ```
    ///
    /// Definitions: [`Addition`](recipe::Addition), [`from_words`](recipe::from_words), [`limits_of`](recipe::limits_of), [`adds`](recipe::adds), [`table_encoding`](super::sections::tables::table_encoding), [`table_with`](recipe::table_with).
    type table_entry;
    /// The element segment of table 0 at this offset, of the functions of these indices: the flag 0, the offset and the indices.
    ///
    /// ```text
    /// abbrev pub functions_encoding : ℤ → List ℕ → List ℕ
    /// functions_encoding offset functions = 0x00
    ///     ∷ (expression_encoding (constant_bytes offset)
    ///     ++ vec_encoding unsigned_encoding functions)
    /// ```
    ///
    /// Definitions: [`expression_encoding`](super::code::expressions::expression_encoding), [`constant_bytes`](recipe::constant_bytes), [`vec_encoding`](super::base::encodings::vec_encoding), [`unsigned_encoding`](super::base::numbers::unsigned_encoding).
    type functions_encoding;
    /// `elem I N..`: references to functions at this offset of table 0.
    ///
    /// ```text
    /// abbrev pub elem_entry : List (List ℕ) → Result (List Addition) RecipeCause
    /// elem_entry (place ∷ first ∷ more) = from_number (signed_of place)
    ///     (λ z. from_number (indices_of (first ∷ more))
    ///     (λ functions. adds 9 (functions_encoding z functions)))
    /// elem_entry words = Err MissingWord
    /// ```
    ///
    /// Definitions: [`Addition`](recipe::Addition), [`from_number`](recipe::from_number), [`signed_of`](recipe::signed_of), [`indices_of`](recipe::indices_of), [`adds`](recipe::adds), [`functions_encoding`](recipe::functions_encoding).
    type elem_entry;
    /// `locals N TYPE`: a run of locals of the next body.
    ///
    /// ```text
    /// abbrev pub locals_entry : Version → List (List ℕ) → Result (List Addition) RecipeCause
    /// locals_entry version (count ∷ word ∷ more) =
    ///     alone version more (from_number (decimal_of 32 count)
    ///         (λ n. from_type (val_type_of word)
    ///             (λ ty. adds locals_id (unsigned_encoding n ++ val_encoding ty))))
    /// locals_entry version words = Err MissingWord
    /// ```
    ///
    /// Definitions: [`Addition`](recipe::Addition), [`alone`](recipe::alone), [`from_number`](recipe::from_number), [`decimal_of`](recipe::decimal_of), [`from_type`](recipe::from_type), [`val_type_of`](recipe::val_type_of), [`adds`](recipe::adds), [`locals_id`](recipe::locals_id), [`unsigned_encoding`](super::base::numbers::unsigned_encoding), [`val_encoding`](super::base::types::val_encoding).
    type locals_entry;
    /// The commands that version 1 does not have.
    ///
    /// ```text
    /// abbrev pub second_entry : Version → List ℕ → List (List ℕ)
    ///     → Result (List Addition) RecipeCause
    /// second_entry First command words = Err UnknownCommand
    /// second_entry Second command words =
    ///     if bytes_eq command (codes "import") then import_entry Second words
    ///     else if bytes_eq command (codes "table") then table_entry Second words
    ///     else if bytes_eq command (codes "elem") then elem_entry words
    ///     else if bytes_eq command (codes "locals") then locals_entry Second words
    ///     else Err UnknownCommand
    /// ```
    ///
    /// Definitions: [`Addition`](recipe::Addition), [`import_entry`](recipe::import_entry), [`table_entry`](recipe::table_entry), [`elem_entry`](recipe::elem_entry), [`locals_entry`](recipe::locals_entry).
    type second_entry;
    /// The entry of a line of these words, if it has any, or its error. The remainder of the line after its first word is also an argument.
    ///
    /// ```text
    /// abbrev pub entry_of_words
    ///     : Version → List (List ℕ) → List ℕ → Result (List Addition) RecipeCause
    /// entry_of_words version [] rest = Ok []
    /// entry_of_words version (command ∷ words) rest =
    ///     if bytes_eq command (codes "type") then type_entry version words
    ///     else if bytes_eq command (codes "func") then function_entry version words
    ///     else if bytes_eq command (codes "memory") then memory_entry version words
    ///     else if bytes_eq command (codes "global") then global_entry version words
    ///     else if bytes_eq command (codes "export") then export_entry version words
    ///     else if bytes_eq command (codes "start") then start_entry version words
    ///     else if bytes_eq command (codes "body") then body_entry version words
    ///     else if bytes_eq command (codes "data") then data_entry version words
    ///     else if bytes_eq command (codes "name") then name_entry rest
    ///     else second_entry version command words
    /// ```
    ///
    /// Definitions: [`Addition`](recipe::Addition), [`type_entry`](recipe::type_entry), [`function_entry`](recipe::function_entry), [`memory_entry`](recipe::memory_entry), [`global_entry`](recipe::global_entry), [`export_entry`](recipe::export_entry), [`start_entry`](recipe::start_entry), [`body_entry`](recipe::body_entry), [`data_entry`](recipe::data_entry), [`name_entry`](recipe::name_entry), [`second_entry`](recipe::second_entry).
    type entry_of_words;
    /// The entry of a line, if it has any, or its error.
    ///
    /// ```text
    /// abbrev pub entry_of : Version → List ℕ → Result (List Addition) RecipeCause
    /// entry_of version line = entry_of_words version (counted_words version line)
    ///     (rest_of line)
    /// ```
    ///
    /// Definitions: [`Addition`](recipe::Addition), [`entry_of_words`](recipe::entry_of_words), [`counted_words`](lines::counted_words), [`rest_of`](lines::rest_of).
    type entry_of;
    /// The line has no error.
    ///
    /// ```text
    /// unfoldable pub IsGood : Version → List ℕ → Type 0
    /// IsGood version line = IsOk (entry_of version line)
    /// ```
    ///
    /// Definitions: [`entry_of`](recipe::entry_of).
    type IsGood;
    /// The entries of these lines.
    ///
    /// ```text
    /// abbrev pub entries_of : Version → List (List ℕ) → List Addition
    /// entries_of version lines = flat_map
    ///     (λ line. result_unwrap_or (entry_of version line) []) lines
    /// ```
    ///
    /// Definitions: [`Addition`](recipe::Addition), [`entry_of`](recipe::entry_of).
    type entries_of;
    /// The items that the entries add to a section.
    ///
    /// ```text
    /// abbrev pub added_to : ℕ → List Addition → List (List ℕ)
    /// added_to id entries = map (λ entry. entry.item)
    ///     (filter (λ entry. entry.section == id) entries)
    /// ```
    ///
    /// Definitions: [`Addition`](recipe::Addition).
    type added_to;
    /// A function's body of these runs of locals and instructions: its size, the runs and the instructions.
    ///
    /// ```text
    /// abbrev pub body_encoding : List (List ℕ) → List ℕ → List ℕ
    /// body_encoding runs instructions = size_prefixed_encoding
    ///     ((unsigned_encoding (length runs) ++ joined runs) ++ instructions)
    /// ```
    ///
    /// Definitions: [`size_prefixed_encoding`](super::base::encodings::size_prefixed_encoding), [`unsigned_encoding`](super::base::numbers::unsigned_encoding), [`joined`](super::base::pieces::joined).
    type body_encoding;
    /// The bodies of these entries: each has the runs of locals since the body before it. The first body also has these runs.
    ///
    /// ```text
    /// abbrev pub bodies_of : List (List ℕ) → List Addition → List (List ℕ)
    /// bodies_of runs [] = []
    /// bodies_of runs (entry ∷ entries) =
    ///     if entry.section == 10 then body_encoding runs entry.item ∷ bodies_of [] entries
    ///     else if entry.section == locals_id then bodies_of (runs ++ entry.item ∷ []) entries
    ///     else bodies_of runs entries
    /// ```
    ///
    /// Definitions: [`Addition`](recipe::Addition), [`body_encoding`](recipe::body_encoding), [`locals_id`](recipe::locals_id).
    type bodies_of;
    /// The runs of locals after the last body.
    ///
    /// ```text
    /// abbrev pub left_locals : List (List ℕ) → List Addition → List (List ℕ)
    /// left_locals runs [] = runs
    /// left_locals runs (entry ∷ entries) =
    ///     if entry.section == 10 then left_locals [] entries
    ///     else if entry.section == locals_id then left_locals
    ///         (runs ++ entry.item ∷ []) entries
    ///     else left_locals runs entries
    /// ```
    ///
    /// Definitions: [`Addition`](recipe::Addition), [`locals_id`](recipe::locals_id).
    type left_locals;
    /// A section of these items, as id and payload, unless there are no items.
    ///
    /// ```text
    /// abbrev pub section_of : ℕ → List (List ℕ) → List (ℕ × List ℕ)
    /// section_of id [] = []
    /// section_of id (item ∷ items) =
    ///     (id, unsigned_encoding (length (item ∷ items)) ++ joined (item ∷ items)) ∷ []
    /// ```
    ///
    /// Definitions: [`unsigned_encoding`](super::base::numbers::unsigned_encoding), [`joined`](super::base::pieces::joined).
    type section_of;
    /// The last of these items alone: a later `start` replaces an earlier one.
    ///
    /// ```text
    /// abbrev pub last_of : List (List ℕ) → List (List ℕ)
    /// last_of [] = []
    /// last_of (item ∷ []) = item ∷ []
    /// last_of (item ∷ next ∷ items) = last_of (next ∷ items)
    /// ```
    type last_of;
    /// The start section, whose payload is the last item.
    ///
    /// ```text
    /// abbrev pub start_of : List (List ℕ) → List (ℕ × List ℕ)
    /// start_of items = map (λ item. (8, item)) (last_of items)
    /// ```
    ///
    /// Definitions: [`last_of`](recipe::last_of).
    type start_of;
    /// The name section of these subsections, as id and payload, unless there are none.
    ///
    /// ```text
    /// abbrev pub names_of : List (List ℕ) → List (ℕ × List ℕ)
    /// names_of [] = []
    /// names_of (item ∷ items) = (0, size_prefixed_encoding name_name ++ joined (item ∷ items))
    ///     ∷ []
    /// ```
    ///
    /// Definitions: [`size_prefixed_encoding`](super::base::encodings::size_prefixed_encoding), [`name_name`](super::custom::names::name_name), [`joined`](super::base::pieces::joined).
    type names_of;
    /// The subsections and the size of a name section are at most 2^32 - 1.
    ///
    /// ```text
    /// pub record AreEncodableNames (items : List (List ℕ)) : Type 0 where
    ///   pub count : length items ≤ longest
    ///   pub size : IsEncodableNamed name_name (joined items)
    /// ```
    ///
    /// Definitions: [`longest`](super::base::encodings::longest), [`IsEncodableNamed`](super::custom::customs::IsEncodableNamed), [`name_name`](super::custom::names::name_name), [`joined`](super::base::pieces::joined).
    type AreEncodableNames;
    /// The sections of these items, in the order of the standard, then the name section.
    ///
    /// ```text
    /// abbrev pub in_order : (types imports functions tables memories globals exports start
    ///     elements code segments names : List (List ℕ)) → List (ℕ × List ℕ)
    /// in_order types imports functions tables memories globals exports start elements code
    ///     segments names =
    ///     ((((((((((section_of 1 types ++ section_of 2 imports) ++ section_of 3 functions)
    ///                                     ++ section_of 4 tables) ++ section_of 5 memories)
    ///                             ++ section_of 6 globals) ++ section_of 7 exports)
    ///                     ++ start_of start)
    ///     ++ section_of 9 elements) ++ section_of 10 code) ++ section_of 11 segments)
    ///         ++ names_of names
    /// ```
    ///
    /// Definitions: [`section_of`](recipe::section_of), [`start_of`](recipe::start_of), [`names_of`](recipe::names_of).
    type in_order;
    /// The sections of these entries.
    ///
    /// ```text
    /// abbrev pub sections_of : List Addition → List (ℕ × List ℕ)
    /// sections_of entries =
    ///     in_order (added_to 1 entries) (added_to 2 entries) (added_to 3 entries)
    ///         (added_to 4 entries) (added_to 5 entries) (added_to 6 entries)
    ///         (added_to 7 entries) (added_to 8 entries) (added_to 9 entries)
    ///         (bodies_of [] entries) (added_to 11 entries) (added_to 0 entries)
    /// ```
    ///
    /// Definitions: [`Addition`](recipe::Addition), [`in_order`](recipe::in_order), [`added_to`](recipe::added_to), [`bodies_of`](recipe::bodies_of).
    type sections_of;
    /// The module of these entries.
    ///
    /// ```text
    /// unfoldable pub recipe_module : List Addition → List ℕ
    /// recipe_module entries = module_encoding (sections_of entries)
    /// ```
    ///
    /// Definitions: [`Addition`](recipe::Addition), [`module_encoding`](super::base::encodings::module_encoding), [`sections_of`](recipe::sections_of).
    type recipe_module;
    /// Every count and size that the module needs is at most 2^32 - 1.
    ///
    /// ```text
    /// pub record IsEncodableRecipe (entries : List Addition) : Type 0 where
    ///   pub types : IsEncodableSection (added_to 1 entries)
    ///   pub imports : IsEncodableSection (added_to 2 entries)
    ///   pub functions : IsEncodableSection (added_to 3 entries)
    ///   pub tables : IsEncodableSection (added_to 4 entries)
    ///   pub memories : IsEncodableSection (added_to 5 entries)
    ///   pub globals : IsEncodableSection (added_to 6 entries)
    ///   pub exports : IsEncodableSection (added_to 7 entries)
    ///   pub start : All HasEncodableSize (last_of (added_to 8 entries))
    ///   pub elements : IsEncodableSection (added_to 9 entries)
    ///   pub locals : length (left_locals [] entries) ≤ longest
    ///   pub code : IsEncodableSection (bodies_of [] entries)
    ///   pub segments : IsEncodableSection (added_to 11 entries)
    ///   pub names : AreEncodableNames (added_to 0 entries)
    /// ```
    ///
    /// Definitions: [`Addition`](recipe::Addition), [`IsEncodableSection`](super::base::pieces::IsEncodableSection), [`added_to`](recipe::added_to), [`HasEncodableSize`](super::base::encodings::HasEncodableSize), [`last_of`](recipe::last_of), [`left_locals`](recipe::left_locals), [`longest`](super::base::encodings::longest), [`bodies_of`](recipe::bodies_of), [`AreEncodableNames`](recipe::AreEncodableNames).
    type IsEncodableRecipe;
    /// The lines up to that line.
    ///
    /// ```text
    /// abbrev pub lines_through : ℕ → List (List ℕ) → List (List ℕ)
    /// lines_through line lines = if line == 0 then lines else take line lines
    /// ```
    type lines_through;
    /// The lines before that line.
    ///
    /// ```text
    /// abbrev pub lines_before : ℕ → List (List ℕ) → List (List ℕ)
    /// lines_before line lines = if line == 0 then lines else take (line - 1) lines
    /// ```
    type lines_before;
}

/// The effect of a line on a recipe, the effect of a section on a module, and the meaning of errors.
///
/// - Lines: [`start_items`](steps::start_items), [`replaced`](steps::replaced), [`AddsEntries`](steps::AddsEntries), [`IsEncodableWith`](steps::IsEncodableWith), [`IsEmpty`](steps::IsEmpty), [`AreEncodableSections`](steps::AreEncodableSections), [`listed`](steps::listed), [`ContainsLines`](steps::ContainsLines), [`IsModule`](steps::IsModule), [`Follows`](steps::Follows), [`IsOfWords`](steps::IsOfWords), [`Parses`](steps::Parses).
/// - Sections: [`Puts`](steps::Puts).
/// - Errors: [`SaysCause`](steps::SaysCause), [`Explains`](steps::Explains), [`cause_of`](steps::cause_of).
///
/// [How to read definitions](super). The file is [`Steps.antt`](https://github.com/dolzhytik/dolzhytik/blob/main/crates/wasm_tool/specs/Steps.antt).
pub trait steps {
    /// The item of a start section.
    ///
    /// ```text
    /// abbrev pub start_items : Option ℕ → List (List ℕ)
    /// start_items None = []
    /// start_items (Some index) = unsigned_encoding index ∷ []
    /// ```
    ///
    /// Definitions: [`unsigned_encoding`](super::base::numbers::unsigned_encoding).
    type start_items;
    /// The items that remain when later ones replace earlier ones.
    ///
    /// ```text
    /// abbrev pub replaced : List (List ℕ) → List (List ℕ) → List (List ℕ)
    /// replaced old [] = old
    /// replaced old (item ∷ items) = last_of (item ∷ items)
    /// ```
    ///
    /// Definitions: [`last_of`](recipe::last_of).
    type replaced;
    /// The recipe has the old items, then those of the entries.
    ///
    /// ```text
    /// pub record AddsEntries {A : Type 0} (old new : Recipe A) (entries : List Addition)
    ///     : Type 0 where
    ///   pub types : new.types ≡ old.types ++ added_to 1 entries
    ///   pub imports : new.imports ≡ old.imports ++ added_to 2 entries
    ///   pub functions : new.functions ≡ old.functions ++ added_to 3 entries
    ///   pub tables : new.tables ≡ old.tables ++ added_to 4 entries
    ///   pub memories : new.memories ≡ old.memories ++ added_to 5 entries
    ///   pub globals : new.globals ≡ old.globals ++ added_to 6 entries
    ///   pub exports : new.exports ≡ old.exports ++ added_to 7 entries
    ///   pub start : start_items new.start
    ///       ≡ replaced (start_items old.start) (added_to 8 entries)
    ///   pub elements : new.elements ≡ old.elements ++ added_to 9 entries
    ///   pub locals : new.locals ≡ left_locals old.locals entries
    ///   pub code : new.code ≡ old.code ++ bodies_of old.locals entries
    ///   pub segments : new.segments ≡ old.segments ++ added_to 11 entries
    ///   pub names : new.names ≡ old.names ++ added_to 0 entries
    /// ```
    ///
    /// Definitions: [`Addition`](recipe::Addition), [`added_to`](recipe::added_to), [`start_items`](steps::start_items), [`replaced`](steps::replaced), [`left_locals`](recipe::left_locals), [`bodies_of`](recipe::bodies_of).
    type AddsEntries;
    /// The old items and those of the entries fit their sections.
    ///
    /// ```text
    /// pub record IsEncodableWith {A : Type 0} (old : Recipe A) (entries : List Addition)
    ///     : Type 0 where
    ///   pub types : IsEncodableSection (old.types ++ added_to 1 entries)
    ///   pub imports : IsEncodableSection (old.imports ++ added_to 2 entries)
    ///   pub functions : IsEncodableSection (old.functions ++ added_to 3 entries)
    ///   pub tables : IsEncodableSection (old.tables ++ added_to 4 entries)
    ///   pub memories : IsEncodableSection (old.memories ++ added_to 5 entries)
    ///   pub globals : IsEncodableSection (old.globals ++ added_to 6 entries)
    ///   pub exports : IsEncodableSection (old.exports ++ added_to 7 entries)
    ///   pub elements : IsEncodableSection (old.elements ++ added_to 9 entries)
    ///   pub locals : length (left_locals old.locals entries) ≤ longest
    ///   pub code : IsEncodableSection (old.code ++ bodies_of old.locals entries)
    ///   pub segments : IsEncodableSection (old.segments ++ added_to 11 entries)
    ///   pub names : AreEncodableNames (old.names ++ added_to 0 entries)
    /// ```
    ///
    /// Definitions: [`Addition`](recipe::Addition), [`IsEncodableSection`](super::base::pieces::IsEncodableSection), [`added_to`](recipe::added_to), [`left_locals`](recipe::left_locals), [`longest`](super::base::encodings::longest), [`bodies_of`](recipe::bodies_of), [`AreEncodableNames`](recipe::AreEncodableNames).
    type IsEncodableWith;
    /// No section has an item.
    ///
    /// ```text
    /// pub record IsEmpty {A : Type 0} (recipe : Recipe A) : Type 0 where
    ///   pub types : recipe.types ≡ []
    ///   pub imports : recipe.imports ≡ []
    ///   pub functions : recipe.functions ≡ []
    ///   pub tables : recipe.tables ≡ []
    ///   pub memories : recipe.memories ≡ []
    ///   pub globals : recipe.globals ≡ []
    ///   pub exports : recipe.exports ≡ []
    ///   pub start : start_items recipe.start ≡ []
    ///   pub elements : recipe.elements ≡ []
    ///   pub locals : recipe.locals ≡ []
    ///   pub code : recipe.code ≡ []
    ///   pub segments : recipe.segments ≡ []
    ///   pub names : recipe.names ≡ []
    /// ```
    ///
    /// Definitions: [`start_items`](steps::start_items).
    type IsEmpty;
    /// The items fit their sections.
    ///
    /// ```text
    /// pub record AreEncodableSections {A : Type 0} (recipe : Recipe A) : Type 0 where
    ///   pub types : IsEncodableSection recipe.types
    ///   pub imports : IsEncodableSection recipe.imports
    ///   pub functions : IsEncodableSection recipe.functions
    ///   pub tables : IsEncodableSection recipe.tables
    ///   pub memories : IsEncodableSection recipe.memories
    ///   pub globals : IsEncodableSection recipe.globals
    ///   pub exports : IsEncodableSection recipe.exports
    ///   pub start : All HasEncodableSize (start_items recipe.start)
    ///   pub elements : IsEncodableSection recipe.elements
    ///   pub code : IsEncodableSection recipe.code
    ///   pub segments : IsEncodableSection recipe.segments
    ///   pub names : AreEncodableNames recipe.names
    /// ```
    ///
    /// Definitions: [`IsEncodableSection`](super::base::pieces::IsEncodableSection), [`HasEncodableSize`](super::base::encodings::HasEncodableSize), [`start_items`](steps::start_items), [`AreEncodableNames`](recipe::AreEncodableNames).
    type AreEncodableSections;
    /// The sections of the recipe, in order.
    ///
    /// ```text
    /// abbrev pub listed : {A : Type 0} → Recipe A → List (ℕ × List ℕ)
    /// listed recipe =
    ///     in_order recipe.types recipe.imports recipe.functions recipe.tables recipe.memories
    ///         recipe.globals recipe.exports
    ///         (start_items recipe.start) recipe.elements recipe.code recipe.segments
    ///         recipe.names
    /// ```
    ///
    /// Definitions: [`in_order`](recipe::in_order), [`start_items`](steps::start_items).
    type listed;
    /// None of the lines has an error, and the sections have their items.
    ///
    /// ```text
    /// pub record ContainsLines {A : Type 0} (version : Version) (lines : List (List ℕ))
    ///     (recipe : Recipe A) : Type 0 where
    ///   pub good : All (IsGood version) lines
    ///   pub types : recipe.types ≡ added_to 1 (entries_of version lines)
    ///   pub imports : recipe.imports ≡ added_to 2 (entries_of version lines)
    ///   pub functions : recipe.functions ≡ added_to 3 (entries_of version lines)
    ///   pub tables : recipe.tables ≡ added_to 4 (entries_of version lines)
    ///   pub memories : recipe.memories ≡ added_to 5 (entries_of version lines)
    ///   pub globals : recipe.globals ≡ added_to 6 (entries_of version lines)
    ///   pub exports : recipe.exports ≡ added_to 7 (entries_of version lines)
    ///   pub start : start_items recipe.start ≡ last_of (added_to 8 (entries_of version lines))
    ///   pub elements : recipe.elements ≡ added_to 9 (entries_of version lines)
    ///   pub locals : recipe.locals ≡ left_locals [] (entries_of version lines)
    ///   pub code : recipe.code ≡ bodies_of [] (entries_of version lines)
    ///   pub segments : recipe.segments ≡ added_to 11 (entries_of version lines)
    ///   pub names : recipe.names ≡ added_to 0 (entries_of version lines)
    /// ```
    ///
    /// Definitions: [`IsGood`](recipe::IsGood), [`added_to`](recipe::added_to), [`entries_of`](recipe::entries_of), [`start_items`](steps::start_items), [`last_of`](recipe::last_of), [`left_locals`](recipe::left_locals), [`bodies_of`](recipe::bodies_of).
    type ContainsLines;
    /// The sections hold these lines, no locals are without a body, and the bytes are the module of the sections.
    ///
    /// ```text
    /// pub record IsModule {A : Type 0} (version : Version) (lines : List (List ℕ))
    ///     (recipe : Recipe A) (bytes : List ℕ) : Type 0 where
    ///   pub contains : ContainsLines version lines recipe
    ///   pub used : recipe.locals ≡ []
    ///   pub encodable : AreEncodableSections recipe
    ///   pub text : bytes ≡ module_encoding (listed recipe)
    /// ```
    ///
    /// Definitions: [`ContainsLines`](steps::ContainsLines), [`AreEncodableSections`](steps::AreEncodableSections), [`module_encoding`](super::base::encodings::module_encoding), [`listed`](steps::listed).
    type IsModule;
    /// The result and the effect of a call that decodes a line, given the entries or the error of the line.
    ///
    /// ```text
    /// abbrev pub Follows : {A : Type 0} → Result (List Addition) RecipeCause → Recipe A
    ///     → Recipe A → Result (Unit {0}) RecipeCause → Type 0
    /// Follows said old new (Ok done) = IsOkAnd said (AddsEntries old new)
    /// Follows said old new (Err Memory) = ⊤
    /// Follows said old new (Err TooLong) = IsOkAnd said
    ///     (λ entries. ¬ (IsEncodableWith old entries))
    /// Follows said old new (Err UnusedLocals) = ⊥
    /// Follows said old new (Err cause) = said ≡ Err cause
    /// ```
    ///
    /// Definitions: [`Addition`](recipe::Addition), [`AddsEntries`](steps::AddsEntries), [`IsEncodableWith`](steps::IsEncodableWith).
    type Follows;
    /// The cause is an error of the words of a line.
    ///
    /// ```text
    /// abbrev pub IsOfWords : RecipeCause → Type 0
    /// IsOfWords Memory = ⊥
    /// IsOfWords TooLong = ⊥
    /// IsOfWords UnusedLocals = ⊥
    /// IsOfWords cause = ⊤
    /// ```
    type IsOfWords;
    /// The result of a call that decodes some words, given their value or their error.
    ///
    /// ```text
    /// abbrev pub Parses : {T : Type 0} → Result T RecipeCause → Result T RecipeCause → Type 0
    /// Parses said (Ok value) = said ≡ Ok value
    /// Parses said (Err cause) = (said ≡ Err cause) × IsOfWords cause
    /// ```
    ///
    /// Definitions: [`IsOfWords`](steps::IsOfWords).
    type Parses;
    /// The module gains these sections if they fit.
    ///
    /// ```text
    /// pub record Puts (sections : List (ℕ × List ℕ)) (Encodable : Type 0) (old new : List ℕ)
    ///     (result : Result (Unit {0}) Refused) : Type 0 where
    ///   pub ok : OnOk result (new ≡ old ++ flat_map any_section_encoding sections)
    ///   pub was_encodable : OnOk result Encodable
    ///   pub too_long : Encodable → result ≢ Err refusals.TooLong
    /// ```
    ///
    /// Definitions: [`any_section_encoding`](super::base::encodings::any_section_encoding).
    type Puts;
    /// The meaning of a cause for the line that it names, counted from 1, or for all lines if it names 0.
    ///
    /// ```text
    /// abbrev pub SaysCause : Version → List (List ℕ) → ℕ → RecipeCause → Type 0
    /// SaysCause version lines line Memory = ⊤
    /// SaysCause version lines line TooLong = All (IsGood version) (lines_through line lines)
    ///     × (¬ (IsEncodableRecipe (entries_of version (lines_through line lines))))
    /// SaysCause version lines line UnusedLocals = (line ≡ 0)
    ///     × (left_locals [] (entries_of version lines) ≢ [])
    /// SaysCause version lines line cause = (1 ≤ line)
    ///     × (option_map (λ l. entry_of version l) (slice_get lines (line - 1))
    ///     ≡ Some (Err cause))
    /// ```
    ///
    /// Definitions: [`IsGood`](recipe::IsGood), [`lines_through`](recipe::lines_through), [`IsEncodableRecipe`](recipe::IsEncodableRecipe), [`entries_of`](recipe::entries_of), [`left_locals`](recipe::left_locals), [`entry_of`](recipe::entry_of).
    type SaysCause;
    /// The error names a line, or 0 after the last one, and the cause. No line before it has an error.
    ///
    /// ```text
    /// pub record Explains (version : Version) (lines : List (List ℕ)) (line : ℕ)
    ///     (cause : RecipeCause) : Type 0 where
    ///   pub within : line ≤ length lines
    ///   pub before : All (IsGood version) (lines_before line lines)
    ///   pub says : SaysCause version lines line cause
    /// ```
    ///
    /// Definitions: [`IsGood`](recipe::IsGood), [`lines_before`](recipe::lines_before), [`SaysCause`](steps::SaysCause).
    type Explains;
    /// The cause of a refused call.
    ///
    /// ```text
    /// abbrev pub cause_of : Refused → RecipeCause
    /// cause_of refusals.Memory = Memory
    /// cause_of refusals.TooLong = TooLong
    /// ```
    type cause_of;
}
