// Written by tools/drop-in from tools/root-calls.tsv and the proved calls: change these.
//! The calls of the root's types, each over a proved call.

use super::{
    BranchHint, BranchHints, CodeSection, ConstExpr, ContType, CoreDumpInstancesSection,
    CoreDumpModulesSection, CoreDumpSection, CoreDumpStackSection, CoreDumpValue, CoreTypeEncoder,
    CustomSection, DataSection, DataSegment, DataSegmentMode, DataSymbolDefinition, ElementMode,
    ElementSection, ElementSegment, Elements, Encode, EntityType, ExportKind, ExportSection,
    FieldType, FuncType, Function, FunctionSection, GlobalSection, GlobalType, HeapType, Ieee32,
    Ieee64, ImportSection, Imports, IndirectNameMap, Instruction, InstructionSink, LinkingSection,
    MemorySection, MemoryType, Module, NameMap, NameSection, ProducersField, ProducersSection,
    Section, StorageType, SubType, SymbolTable, TableSection, TableType, TagSection, TagType,
    TypeSection, ValType, done,
};
use super::bytes::Bytes;
use super::const_expr::encodings;
use super::custom::MARK;
use super::sections::{Front, Given, Later};
use super::short::Tested;
use crate::{base, code, custom, types};
use crate::alloc::Global;
use crate::base::{Lent, Store, bytes_of};
use crate::code::first::First;
use crate::ending::Root;
use crate::sections::table::BEFORE_INIT;
use crate::types::types::FUNC;
use alloc_crate::string::String;
use alloc_crate::vec::Vec;

impl FunctionSection {
    /// Returns the number of entries.
    ///
    /// # Proved
    ///
    /// The contract of
    /// [`fallible::FunctionSection::len`](crate::fallible::FunctionSection#method.len), which this
    /// call makes. In the clauses, `S` is [`Entries`](crate::fallible::Entries).
    ///
    /// ```text
    /// ensures { result ≡ (S.model.joins self.now).number }
    /// ```
    ///
    /// [How to read clauses](crate::definitions).
    #[inline]
    pub fn len(&self) -> u32 {
        self.0.len()
    }

    /// Returns `true` if there are no entries.
    ///
    /// # Proved
    ///
    /// The contract of
    /// [`fallible::FunctionSection::is_empty`](crate::fallible::FunctionSection#method.is_empty),
    /// which this call makes. In the clauses, `S` is [`Entries`](crate::fallible::Entries).
    ///
    /// ```text
    /// ensures { IsTrue result ↔ ((S.model.joins self.now).number ≡ 0) }
    /// ```
    ///
    /// [How to read clauses](crate::definitions).
    #[inline]
    pub fn is_empty(&self) -> bool {
        self.0.is_empty()
    }

    /// Adds a function of the type of this index.
    ///
    /// # Panics
    ///
    /// Panics if the builder has 4294967295 entries. A failed allocation ends the program.
    ///
    /// # Proved
    ///
    /// The contract of
    /// [`fallible::FunctionSection::function`](crate::fallible::FunctionSection#method.function),
    /// which this call makes. Where that returns an error, this call panics. In the clauses, `S` is
    /// [`Entries`](crate::fallible::Entries).
    ///
    /// The builder gains one entry with this encoding, or the call returns an error and changes nothing. A full builder, with 2^32 - 1 entries, returns `TooLong`.
    ///
    /// ```text
    /// ensures { AddsTo S.model (unsigned_encoding type_index) ⊤ self.old self.new result }
    /// ```
    ///
    /// Definitions: [`AddsTo`](crate::definitions::base::calls::AddsTo), [`unsigned_encoding`](crate::definitions::base::numbers::unsigned_encoding). [How to read clauses](crate::definitions).
    pub fn function(&mut self, type_index: u32) -> &mut Self {
        done(self.0.function(type_index));
        self
    }
}

impl TableSection {
    /// Returns the number of entries.
    ///
    /// # Proved
    ///
    /// The contract of [`fallible::TableSection::len`](crate::fallible::TableSection#method.len),
    /// which this call makes. In the clauses, `S` is [`Entries`](crate::fallible::Entries).
    ///
    /// ```text
    /// ensures { result ≡ (S.model.joins self.now).number }
    /// ```
    ///
    /// [How to read clauses](crate::definitions).
    #[inline]
    pub fn len(&self) -> u32 {
        self.0.len()
    }

    /// Returns `true` if there are no entries.
    ///
    /// # Proved
    ///
    /// The contract of
    /// [`fallible::TableSection::is_empty`](crate::fallible::TableSection#method.is_empty), which
    /// this call makes. In the clauses, `S` is [`Entries`](crate::fallible::Entries).
    ///
    /// ```text
    /// ensures { IsTrue result ↔ ((S.model.joins self.now).number ≡ 0) }
    /// ```
    ///
    /// [How to read clauses](crate::definitions).
    #[inline]
    pub fn is_empty(&self) -> bool {
        self.0.is_empty()
    }

    /// Adds a table of this type, whose elements are initially null.
    ///
    /// # Panics
    ///
    /// Panics if the builder has 4294967295 entries. A failed allocation ends the program.
    ///
    /// # Proved
    ///
    /// The contract of
    /// [`fallible::TableSection::table`](crate::fallible::TableSection#method.table), which this
    /// call makes. Where that returns an error, this call panics. In the clauses, `S` is
    /// [`Entries`](crate::fallible::Entries).
    ///
    /// The builder gains one entry with this encoding, or the call returns an error and changes nothing. A full builder, with 2^32 - 1 entries, returns `TooLong`.
    ///
    /// ```text
    /// ensures { AddsTo S.model (table_encoding table_type) ⊤ self.old self.new result }
    /// ```
    ///
    /// Definitions: [`AddsTo`](crate::definitions::base::calls::AddsTo), [`table_encoding`](crate::definitions::sections::tables::table_encoding). [How to read clauses](crate::definitions).
    pub fn table(&mut self, table_type: TableType) -> &mut Self {
        done(self.0.table(table_type));
        self
    }

    /// Adds a table of this type, whose elements are initialized by the expression.
    ///
    /// # Panics
    ///
    /// Panics if the builder has 4294967295 entries. A failed allocation ends the program.
    ///
    /// # Examples
    ///
    /// ```
    /// use dolzhytik::{ConstExpr, Encode, HeapType, RefType, TableSection, TableType};
    ///
    /// let ty = TableType {
    ///     element_type: RefType::FUNCREF,
    ///     table64: false,
    ///     minimum: 4,
    ///     maximum: None,
    ///     shared: false,
    /// };
    /// let mut tables = TableSection::new();
    /// tables.table_with_init(ty, &ConstExpr::ref_null(HeapType::FUNC));
    /// let mut bytes = Vec::new();
    /// tables.encode(&mut bytes);
    /// // Size 9, one table: 40 00; funcref (70), no flags, 4 elements; ref.null func (D0 70), end.
    /// assert_eq!(bytes, [9, 1, 0x40, 0x00, 0x70, 0, 4, 0xD0, 0x70, 0x0B]);
    /// ```
    ///
    /// # Proved
    ///
    /// The contract of
    /// [`fallible::TableSection::table_with_init`](crate::fallible::TableSection#method.table_with_init).
    /// This call does the same, as tests show. Where that returns an error, this call panics. In
    /// the clauses, `S` is [`Entries`](crate::fallible::Entries).
    ///
    /// The builder gains one entry with this encoding, or the call returns an error and changes nothing. A full builder, with 2^32 - 1 entries, returns `TooLong`.
    ///
    /// ```text
    /// ensures { AddsTo S.model
    ///     (before_init ++ (table_encoding table_type ++ expression_encoding init.now)) ⊤
    ///     self.old self.new result }
    /// ```
    ///
    /// Definitions: [`AddsTo`](crate::definitions::base::calls::AddsTo), [`before_init`](crate::definitions::sections::tables::before_init), [`table_encoding`](crate::definitions::sections::tables::table_encoding), [`expression_encoding`](crate::definitions::code::expressions::expression_encoding). [How to read clauses](crate::definitions).
    pub fn table_with_init(&mut self, table_type: TableType, init: &ConstExpr) -> &mut Self {
        done(self.0.add_record(&(BEFORE_INIT, table_type, Lent(init))));
        self
    }
}

impl MemorySection {
    /// Returns the number of entries.
    ///
    /// # Proved
    ///
    /// The contract of [`fallible::MemorySection::len`](crate::fallible::MemorySection#method.len),
    /// which this call makes. In the clauses, `S` is [`Entries`](crate::fallible::Entries).
    ///
    /// ```text
    /// ensures { result ≡ (S.model.joins self.now).number }
    /// ```
    ///
    /// [How to read clauses](crate::definitions).
    #[inline]
    pub fn len(&self) -> u32 {
        self.0.len()
    }

    /// Returns `true` if there are no entries.
    ///
    /// # Proved
    ///
    /// The contract of
    /// [`fallible::MemorySection::is_empty`](crate::fallible::MemorySection#method.is_empty), which
    /// this call makes. In the clauses, `S` is [`Entries`](crate::fallible::Entries).
    ///
    /// ```text
    /// ensures { IsTrue result ↔ ((S.model.joins self.now).number ≡ 0) }
    /// ```
    ///
    /// [How to read clauses](crate::definitions).
    #[inline]
    pub fn is_empty(&self) -> bool {
        self.0.is_empty()
    }

    /// Adds a memory of this type.
    ///
    /// # Panics
    ///
    /// Panics if the builder has 4294967295 entries. A failed allocation ends the program.
    ///
    /// # Proved
    ///
    /// The contract of
    /// [`fallible::MemorySection::memory`](crate::fallible::MemorySection#method.memory), which
    /// this call makes. Where that returns an error, this call panics. In the clauses, `S` is
    /// [`Entries`](crate::fallible::Entries).
    ///
    /// The builder gains one entry with this encoding, or the call returns an error and changes nothing. A full builder, with 2^32 - 1 entries, returns `TooLong`.
    ///
    /// ```text
    /// ensures { AddsTo S.model (memory_encoding memory_type) ⊤ self.old self.new result }
    /// ```
    ///
    /// Definitions: [`AddsTo`](crate::definitions::base::calls::AddsTo), [`memory_encoding`](crate::definitions::sections::memories::memory_encoding). [How to read clauses](crate::definitions).
    pub fn memory(&mut self, memory_type: MemoryType) -> &mut Self {
        done(self.0.memory(memory_type));
        self
    }
}

impl TagSection {
    /// Returns the number of entries.
    ///
    /// # Proved
    ///
    /// The contract of [`fallible::TagSection::len`](crate::fallible::TagSection#method.len), which
    /// this call makes. In the clauses, `S` is [`Entries`](crate::fallible::Entries).
    ///
    /// ```text
    /// ensures { result ≡ (S.model.joins self.now).number }
    /// ```
    ///
    /// [How to read clauses](crate::definitions).
    #[inline]
    pub fn len(&self) -> u32 {
        self.0.len()
    }

    /// Returns `true` if there are no entries.
    ///
    /// # Proved
    ///
    /// The contract of
    /// [`fallible::TagSection::is_empty`](crate::fallible::TagSection#method.is_empty), which this
    /// call makes. In the clauses, `S` is [`Entries`](crate::fallible::Entries).
    ///
    /// ```text
    /// ensures { IsTrue result ↔ ((S.model.joins self.now).number ≡ 0) }
    /// ```
    ///
    /// [How to read clauses](crate::definitions).
    #[inline]
    pub fn is_empty(&self) -> bool {
        self.0.is_empty()
    }

    /// Adds a tag of this type.
    ///
    /// # Panics
    ///
    /// Panics if the builder has 4294967295 entries. A failed allocation ends the program.
    ///
    /// # Proved
    ///
    /// The contract of [`fallible::TagSection::tag`](crate::fallible::TagSection#method.tag), which
    /// this call makes. Where that returns an error, this call panics. In the clauses, `S` is
    /// [`Entries`](crate::fallible::Entries).
    ///
    /// The builder gains one entry with this encoding, or the call returns an error and changes nothing. A full builder, with 2^32 - 1 entries, returns `TooLong`.
    ///
    /// ```text
    /// ensures { AddsTo S.model (tag_encoding tag_type) ⊤ self.old self.new result }
    /// ```
    ///
    /// Definitions: [`AddsTo`](crate::definitions::base::calls::AddsTo), [`tag_encoding`](crate::definitions::sections::tags::tag_encoding). [How to read clauses](crate::definitions).
    pub fn tag(&mut self, tag_type: TagType) -> &mut Self {
        done(self.0.tag(tag_type));
        self
    }
}

impl GlobalSection {
    /// Returns the number of entries.
    ///
    /// # Proved
    ///
    /// The contract of [`fallible::GlobalSection::len`](crate::fallible::GlobalSection#method.len),
    /// which this call makes. In the clauses, `S` is [`Entries`](crate::fallible::Entries).
    ///
    /// ```text
    /// ensures { result ≡ (S.model.joins self.now).number }
    /// ```
    ///
    /// [How to read clauses](crate::definitions).
    #[inline]
    pub fn len(&self) -> u32 {
        self.0.len()
    }

    /// Returns `true` if there are no entries.
    ///
    /// # Proved
    ///
    /// The contract of
    /// [`fallible::GlobalSection::is_empty`](crate::fallible::GlobalSection#method.is_empty), which
    /// this call makes. In the clauses, `S` is [`Entries`](crate::fallible::Entries).
    ///
    /// ```text
    /// ensures { IsTrue result ↔ ((S.model.joins self.now).number ≡ 0) }
    /// ```
    ///
    /// [How to read clauses](crate::definitions).
    #[inline]
    pub fn is_empty(&self) -> bool {
        self.0.is_empty()
    }

    /// Adds a global of this type, initialized by the expression.
    ///
    /// # Panics
    ///
    /// Panics if the builder has 4294967295 entries. A failed allocation ends the program.
    ///
    /// # Proved
    ///
    /// The contract of
    /// [`fallible::GlobalSection::global`](crate::fallible::GlobalSection#method.global). This call
    /// does the same, as tests show. Where that returns an error, this call panics. In the clauses,
    /// `S` is [`Entries`](crate::fallible::Entries), and `init` is `init_expr`.
    ///
    /// The builder gains one entry with this encoding, or the call returns an error and changes nothing. A full builder, with 2^32 - 1 entries, returns `TooLong`.
    ///
    /// ```text
    /// ensures { AddsTo S.model
    ///     (global_encoding global_type ++ expression_encoding init.now) ⊤ self.old self.new
    ///     result }
    /// ```
    ///
    /// Definitions: [`AddsTo`](crate::definitions::base::calls::AddsTo), [`global_encoding`](crate::definitions::sections::globals::global_encoding), [`expression_encoding`](crate::definitions::code::expressions::expression_encoding). [How to read clauses](crate::definitions).
    pub fn global(&mut self, global_type: GlobalType, init_expr: &ConstExpr) -> &mut Self {
        done(self.0.add_record(&(global_type, Lent(init_expr))));
        self
    }

    /// Adds a global that is already encoded. The call does not check that it is one.
    ///
    /// # Panics
    ///
    /// Panics if the builder has 4294967295 entries. A failed allocation ends the program.
    ///
    /// # Proved
    ///
    /// The contract of [`fallible::GlobalSection::raw`](crate::fallible::GlobalSection#method.raw),
    /// which this call makes. Where that returns an error, this call panics. In the clauses, `S` is
    /// [`Entries`](crate::fallible::Entries), and `global` is `data`.
    ///
    /// The builder gains one entry with this encoding, or the call returns an error and changes nothing. A full builder, with 2^32 - 1 entries, returns `TooLong`.
    ///
    /// ```text
    /// ensures { AddsTo S.model global.now ⊤ self.old self.new result }
    /// ```
    ///
    /// Definitions: [`AddsTo`](crate::definitions::base::calls::AddsTo). [How to read clauses](crate::definitions).
    pub fn raw(&mut self, data: &[u8]) -> &mut Self {
        done(self.0.raw(data));
        self
    }
}

impl ExportSection {
    /// Returns the number of entries.
    ///
    /// # Proved
    ///
    /// The contract of [`fallible::ExportSection::len`](crate::fallible::ExportSection#method.len),
    /// which this call makes. In the clauses, `S` is [`Entries`](crate::fallible::Entries).
    ///
    /// ```text
    /// ensures { result ≡ (S.model.joins self.now).number }
    /// ```
    ///
    /// [How to read clauses](crate::definitions).
    #[inline]
    pub fn len(&self) -> u32 {
        self.0.len()
    }

    /// Returns `true` if there are no entries.
    ///
    /// # Proved
    ///
    /// The contract of
    /// [`fallible::ExportSection::is_empty`](crate::fallible::ExportSection#method.is_empty), which
    /// this call makes. In the clauses, `S` is [`Entries`](crate::fallible::Entries).
    ///
    /// ```text
    /// ensures { IsTrue result ↔ ((S.model.joins self.now).number ≡ 0) }
    /// ```
    ///
    /// [How to read clauses](crate::definitions).
    #[inline]
    pub fn is_empty(&self) -> bool {
        self.0.is_empty()
    }

    /// Adds an export.
    ///
    /// Imported items have the first indices of their kind: see
    /// [`ImportSection`](super::ImportSection).
    ///
    /// # Panics
    ///
    /// Panics if the builder has 4294967295 entries, or if a count or length would pass 4294967295.
    /// A failed allocation ends the program.
    ///
    /// # Proved
    ///
    /// The contract of
    /// [`fallible::ExportSection::export`](crate::fallible::ExportSection#method.export), which
    /// this call makes. Where that returns an error, this call panics. In the clauses, `S` is
    /// [`Entries`](crate::fallible::Entries).
    ///
    /// The builder gains one entry with this encoding, or the call returns an error and changes nothing. A full builder, with 2^32 - 1 entries, returns `TooLong`.
    ///
    /// ```text
    /// ensures { AddsTo S.model
    ///     (size_prefixed_encoding name.now
    ///         ++ (kind_code kind ∷ [] ++ unsigned_encoding index))
    ///     (HasEncodableSize name.now) self.old self.new result }
    /// ```
    ///
    /// Definitions: [`AddsTo`](crate::definitions::base::calls::AddsTo), [`size_prefixed_encoding`](crate::definitions::base::encodings::size_prefixed_encoding), [`kind_code`](crate::definitions::sections::exports::kind_code), [`unsigned_encoding`](crate::definitions::base::numbers::unsigned_encoding), [`HasEncodableSize`](crate::definitions::base::encodings::HasEncodableSize). [How to read clauses](crate::definitions).
    pub fn export(&mut self, name: &str, kind: ExportKind, index: u32) -> &mut Self {
        done(self.0.export(name, kind, index));
        self
    }
}

impl ImportSection {
    /// Returns the number of entries.
    ///
    /// # Proved
    ///
    /// The contract of [`fallible::ImportSection::len`](crate::fallible::ImportSection#method.len),
    /// which this call makes. In the clauses, `S` is [`Entries`](crate::fallible::Entries).
    ///
    /// ```text
    /// ensures { result ≡ (S.model.joins self.now).number }
    /// ```
    ///
    /// [How to read clauses](crate::definitions).
    #[inline]
    pub fn len(&self) -> u32 {
        self.0.len()
    }

    /// Returns `true` if there are no entries.
    ///
    /// # Proved
    ///
    /// The contract of
    /// [`fallible::ImportSection::is_empty`](crate::fallible::ImportSection#method.is_empty), which
    /// this call makes. In the clauses, `S` is [`Entries`](crate::fallible::Entries).
    ///
    /// ```text
    /// ensures { IsTrue result ↔ ((S.model.joins self.now).number ≡ 0) }
    /// ```
    ///
    /// [How to read clauses](crate::definitions).
    #[inline]
    pub fn is_empty(&self) -> bool {
        self.0.is_empty()
    }

    /// Adds an import or a group of imports, as one entry.
    ///
    /// # Panics
    ///
    /// Panics if the builder has 4294967295 entries, or if a count or length would pass 4294967295.
    /// A failed allocation ends the program.
    ///
    /// # Proved
    ///
    /// The contract of
    /// [`fallible::ImportSection::imports`](crate::fallible::ImportSection#method.imports), which
    /// this call makes. Where that returns an error, this call panics. In the clauses, `S` is
    /// [`Entries`](crate::fallible::Entries).
    ///
    /// The builder gains one entry with this encoding, or the call returns an error and changes nothing. A full builder, with 2^32 - 1 entries, returns `TooLong`.
    ///
    /// ```text
    /// ensures { AddsTo S.model (import_encoding (imports_item imports.entry))
    ///     (IsEncodableImport (imports_item imports.entry)) self.old self.new result }
    /// ```
    ///
    /// Definitions: [`AddsTo`](crate::definitions::base::calls::AddsTo), [`import_encoding`](crate::definitions::sections::imports::import_encoding), [`imports_item`](crate::definitions::sections::imports::imports_item), [`IsEncodableImport`](crate::definitions::sections::imports::IsEncodableImport). [How to read clauses](crate::definitions).
    pub fn imports<'a>(&mut self, imports: Imports<'a>) -> &mut Self {
        done(self.0.imports(imports.into()));
        self
    }

    /// Adds an import.
    ///
    /// The type is an [`EntityType`](super::EntityType), or a type that converts to one.
    ///
    /// # Panics
    ///
    /// Panics if the builder has 4294967295 entries, or if a count or length would pass 4294967295.
    /// A failed allocation ends the program.
    ///
    /// # Proved
    ///
    /// The contract of
    /// [`fallible::ImportSection::import`](crate::fallible::ImportSection#method.import), which
    /// this call makes. Where that returns an error, this call panics. In the clauses, `S` is
    /// [`Entries`](crate::fallible::Entries).
    ///
    /// The builder gains one entry with this encoding, or the call returns an error and changes nothing. A full builder, with 2^32 - 1 entries, returns `TooLong`.
    ///
    /// ```text
    /// ensures { AddsTo S.model
    ///     (size_prefixed_encoding «module».now
    ///         ++ (size_prefixed_encoding name.now ++ entity_encoding ty))
    ///     (HasEncodableSize «module».now × HasEncodableSize name.now) self.old self.new result
    ///     }
    /// ```
    ///
    /// Definitions: [`AddsTo`](crate::definitions::base::calls::AddsTo), [`size_prefixed_encoding`](crate::definitions::base::encodings::size_prefixed_encoding), [`entity_encoding`](crate::definitions::sections::imports::entity_encoding), [`HasEncodableSize`](crate::definitions::base::encodings::HasEncodableSize). [How to read clauses](crate::definitions).
    #[inline]
    pub fn import(&mut self, module: &str, name: &str, ty: impl Into<EntityType>) -> &mut Self {
        fn add(of: &mut ImportSection, module: &str, name: &str, ty: EntityType) {
            done(of.0.import(module, name, ty));
        }
        add(self, module, name, ty.into());
        self
    }
}

impl ElementSection {
    /// Returns the number of entries.
    ///
    /// # Proved
    ///
    /// The contract of
    /// [`fallible::ElementSection::len`](crate::fallible::ElementSection#method.len), which this
    /// call makes. In the clauses, `S` is [`Entries`](crate::fallible::Entries).
    ///
    /// ```text
    /// ensures { result ≡ (S.model.joins self.now).number }
    /// ```
    ///
    /// [How to read clauses](crate::definitions).
    #[inline]
    pub fn len(&self) -> u32 {
        self.0.len()
    }

    /// Returns `true` if there are no entries.
    ///
    /// # Proved
    ///
    /// The contract of
    /// [`fallible::ElementSection::is_empty`](crate::fallible::ElementSection#method.is_empty),
    /// which this call makes. In the clauses, `S` is [`Entries`](crate::fallible::Entries).
    ///
    /// ```text
    /// ensures { IsTrue result ↔ ((S.model.joins self.now).number ≡ 0) }
    /// ```
    ///
    /// [How to read clauses](crate::definitions).
    #[inline]
    pub fn is_empty(&self) -> bool {
        self.0.is_empty()
    }

    /// Adds a segment.
    ///
    /// # Panics
    ///
    /// Panics if the builder has 4294967295 entries, or if a count or length would pass 4294967295.
    /// A failed allocation ends the program.
    ///
    /// # Proved
    ///
    /// The contract of
    /// [`fallible::ElementSection::segment`](crate::fallible::ElementSection#method.segment). This
    /// call does the same, as tests show. Where that returns an error, this call panics. In the
    /// clauses, `S` is [`Entries`](crate::fallible::Entries).
    ///
    /// The builder gains one entry with this encoding, or the call returns an error and changes nothing. A full builder, with 2^32 - 1 entries, returns `TooLong`.
    ///
    /// ```text
    /// ensures { AddsTo S.model (given_encoding segment.entry)
    ///     (AreEncodableElements (list_in segment.entry.elements)) self.old self.new result }
    /// ```
    ///
    /// Definitions: [`AddsTo`](crate::definitions::base::calls::AddsTo), [`given_encoding`](crate::definitions::sections::given_elements::given_encoding), [`AreEncodableElements`](crate::definitions::sections::elements::AreEncodableElements), [`list_in`](crate::definitions::sections::given_elements::list_in). [How to read clauses](crate::definitions).
    pub fn segment<'a>(&mut self, segment: ElementSegment<'a>) -> &mut Self {
        done(self.0.add_record(&Given(segment.mode, segment.elements)));
        self
    }

    /// Adds a segment whose references are copied to this table when the module is instantiated.
    ///
    /// Without a table it is table 0.
    ///
    /// # Panics
    ///
    /// Panics if the builder has 4294967295 entries, or if a count or length would pass 4294967295.
    /// A failed allocation ends the program.
    ///
    /// # Proved
    ///
    /// The contract of
    /// [`fallible::ElementSection::active`](crate::fallible::ElementSection#method.active). This
    /// call does the same, as tests show. Where that returns an error, this call panics. In the
    /// clauses, `S` is [`Entries`](crate::fallible::Entries), and `table` is `table_index`.
    ///
    /// The builder gains one entry with this encoding, or the call returns an error and changes nothing. A full builder, with 2^32 - 1 entries, returns `TooLong`.
    ///
    /// ```text
    /// ensures { AddsTo S.model
    ///     (given_encoding (record { mode = modes.Active table offset.entry;
    ///                 elements = elements.entry }))
    ///     (AreEncodableElements (list_in elements.entry)) self.old self.new result }
    /// ```
    ///
    /// Definitions: [`AddsTo`](crate::definitions::base::calls::AddsTo), [`given_encoding`](crate::definitions::sections::given_elements::given_encoding), [`AreEncodableElements`](crate::definitions::sections::elements::AreEncodableElements), [`list_in`](crate::definitions::sections::given_elements::list_in). [How to read clauses](crate::definitions).
    pub fn active(
        &mut self,
        table_index: Option<u32>,
        offset: &ConstExpr,
        elements: Elements<'_>,
    ) -> &mut Self {
        done(self.0.add_record(&Given(ElementMode::Active { table: table_index, offset }, elements)));
        self
    }

    /// Adds a segment whose references are copied to a table by an instruction.
    ///
    /// The instructions are `table.init` and `array.new_elem`.
    ///
    /// # Panics
    ///
    /// Panics if the builder has 4294967295 entries, or if a count or length would pass 4294967295.
    /// A failed allocation ends the program.
    ///
    /// # Proved
    ///
    /// The contract of
    /// [`fallible::ElementSection::passive`](crate::fallible::ElementSection#method.passive). This
    /// call does the same, as tests show. Where that returns an error, this call panics. In the
    /// clauses, `S` is [`Entries`](crate::fallible::Entries).
    ///
    /// The builder gains one entry with this encoding, or the call returns an error and changes nothing. A full builder, with 2^32 - 1 entries, returns `TooLong`.
    ///
    /// ```text
    /// ensures { AddsTo S.model
    ///     (given_encoding (record { mode = modes.Passive; elements = elements.entry }))
    ///     (AreEncodableElements (list_in elements.entry)) self.old self.new result }
    /// ```
    ///
    /// Definitions: [`AddsTo`](crate::definitions::base::calls::AddsTo), [`given_encoding`](crate::definitions::sections::given_elements::given_encoding), [`AreEncodableElements`](crate::definitions::sections::elements::AreEncodableElements), [`list_in`](crate::definitions::sections::given_elements::list_in). [How to read clauses](crate::definitions).
    pub fn passive<'a>(&mut self, elements: Elements<'a>) -> &mut Self {
        done(self.0.add_record(&Given(ElementMode::Passive, elements)));
        self
    }

    /// Adds a segment that declares that code may refer to its functions.
    ///
    /// # Panics
    ///
    /// Panics if the builder has 4294967295 entries, or if a count or length would pass 4294967295.
    /// A failed allocation ends the program.
    ///
    /// # Proved
    ///
    /// The contract of
    /// [`fallible::ElementSection::declared`](crate::fallible::ElementSection#method.declared).
    /// This call does the same, as tests show. Where that returns an error, this call panics. In
    /// the clauses, `S` is [`Entries`](crate::fallible::Entries).
    ///
    /// The builder gains one entry with this encoding, or the call returns an error and changes nothing. A full builder, with 2^32 - 1 entries, returns `TooLong`.
    ///
    /// ```text
    /// ensures { AddsTo S.model
    ///     (given_encoding (record { mode = modes.Declared; elements = elements.entry }))
    ///     (AreEncodableElements (list_in elements.entry)) self.old self.new result }
    /// ```
    ///
    /// Definitions: [`AddsTo`](crate::definitions::base::calls::AddsTo), [`given_encoding`](crate::definitions::sections::given_elements::given_encoding), [`AreEncodableElements`](crate::definitions::sections::elements::AreEncodableElements), [`list_in`](crate::definitions::sections::given_elements::list_in). [How to read clauses](crate::definitions).
    pub fn declared<'a>(&mut self, elements: Elements<'a>) -> &mut Self {
        done(self.0.add_record(&Given(ElementMode::Declared, elements)));
        self
    }

    /// Adds a segment that is already encoded. The call does not check that it is one.
    ///
    /// # Panics
    ///
    /// Panics if the builder has 4294967295 entries. A failed allocation ends the program.
    ///
    /// # Proved
    ///
    /// The contract of
    /// [`fallible::ElementSection::raw`](crate::fallible::ElementSection#method.raw), which this
    /// call makes. Where that returns an error, this call panics. In the clauses, `S` is
    /// [`Entries`](crate::fallible::Entries), and `segment` is `raw_bytes`.
    ///
    /// The builder gains one entry with this encoding, or the call returns an error and changes nothing. A full builder, with 2^32 - 1 entries, returns `TooLong`.
    ///
    /// ```text
    /// ensures { AddsTo S.model segment.now ⊤ self.old self.new result }
    /// ```
    ///
    /// Definitions: [`AddsTo`](crate::definitions::base::calls::AddsTo). [How to read clauses](crate::definitions).
    pub fn raw(&mut self, raw_bytes: &[u8]) -> &mut Self {
        done(self.0.raw(raw_bytes));
        self
    }
}

impl DataSection {
    /// Returns the number of entries.
    ///
    /// # Proved
    ///
    /// The contract of [`fallible::DataSection::len`](crate::fallible::DataSection#method.len),
    /// which this call makes. In the clauses, `S` is [`Entries`](crate::fallible::Entries).
    ///
    /// ```text
    /// ensures { result ≡ (S.model.joins self.now).number }
    /// ```
    ///
    /// [How to read clauses](crate::definitions).
    #[inline]
    pub fn len(&self) -> u32 {
        self.0.len()
    }

    /// Returns `true` if there are no entries.
    ///
    /// # Proved
    ///
    /// The contract of
    /// [`fallible::DataSection::is_empty`](crate::fallible::DataSection#method.is_empty), which
    /// this call makes. In the clauses, `S` is [`Entries`](crate::fallible::Entries).
    ///
    /// ```text
    /// ensures { IsTrue result ↔ ((S.model.joins self.now).number ≡ 0) }
    /// ```
    ///
    /// [How to read clauses](crate::definitions).
    #[inline]
    pub fn is_empty(&self) -> bool {
        self.0.is_empty()
    }

    /// Adds a segment.
    ///
    /// If there are more than 4294967295 bytes, the call panics and requests none of them.
    ///
    /// # Panics
    ///
    /// Panics if the builder has 4294967295 entries, or if a count or length would pass 4294967295.
    /// A failed allocation ends the program.
    ///
    /// # Asks
    ///
    /// The iterator ends, and yields as many items as it reports. [What happens otherwise](crate::fallible#what-is-asked).
    ///
    /// ```text
    /// requires { HasKnownLength D.into_iter_gives D.IntoIter.can_next D.IntoIter.next_gives
    ///     D.IntoIter.remaining segment.bytes }
    /// ```
    ///
    /// Definitions: [`HasKnownLength`](crate::definitions::base::iterators::HasKnownLength). [How to read clauses](crate::definitions).
    ///
    /// # Proved
    ///
    /// The contract of
    /// [`fallible::DataSection::segment`](crate::fallible::DataSection#method.segment). This call
    /// does the same, as tests show. Where that returns an error, this call panics. In the clauses,
    /// `S` is [`Entries`](crate::fallible::Entries).
    ///
    /// The section gains one entry with the bytes that the iterator yields, or the call returns an error and changes nothing. It returns `TooLong` if the section is full or the iterator reports more than 2^32 - 1 remaining bytes, and otherwise not.
    ///
    /// ```text
    /// ensures { AddsBytes S.model D.into_iter_gives D.IntoIter.next_gives D.IntoIter.remaining
    ///     segment.entry.bytes (segment_encoding segment.entry.mode) self.old self.new result }
    /// ```
    ///
    /// Definitions: [`AddsBytes`](crate::definitions::sections::data_segments::AddsBytes), [`segment_encoding`](crate::definitions::sections::data_segments::segment_encoding). [How to read clauses](crate::definitions).
    pub fn segment<D>(&mut self, segment: DataSegment<D>) -> &mut Self
    where
        D: IntoIterator<Item = u8>,
        D::IntoIter: ExactSizeIterator,
    {
        done(self.0.add_once((Front(segment.mode), done(bytes_of(segment.data)))));
        self
    }

    /// Adds a segment whose bytes are copied to this memory when the module is instantiated.
    ///
    /// If there are more than 4294967295 bytes, the call panics and requests none of them.
    ///
    /// # Panics
    ///
    /// Panics if the builder has 4294967295 entries, or if a count or length would pass 4294967295.
    /// A failed allocation ends the program.
    ///
    /// # Asks
    ///
    /// The iterator ends, and yields as many items as it reports. [What happens otherwise](crate::fallible#what-is-asked).
    ///
    /// ```text
    /// requires { HasKnownLength D.into_iter_gives D.IntoIter.can_next D.IntoIter.next_gives
    ///     D.IntoIter.remaining bytes }
    /// ```
    ///
    /// Definitions: [`HasKnownLength`](crate::definitions::base::iterators::HasKnownLength). [How to read clauses](crate::definitions).
    ///
    /// # Proved
    ///
    /// The contract of
    /// [`fallible::DataSection::active`](crate::fallible::DataSection#method.active). This call
    /// does the same, as tests show. Where that returns an error, this call panics. In the clauses,
    /// `S` is [`Entries`](crate::fallible::Entries), and `bytes` is `data`.
    ///
    /// The section gains one entry with the bytes that the iterator yields, or the call returns an error and changes nothing. It returns `TooLong` if the section is full or the iterator reports more than 2^32 - 1 remaining bytes, and otherwise not.
    ///
    /// ```text
    /// ensures { AddsBytes S.model D.into_iter_gives D.IntoIter.next_gives D.IntoIter.remaining
    ///     bytes (active_encoding memory_index offset.now) self.old self.new result }
    /// ```
    ///
    /// Definitions: [`AddsBytes`](crate::definitions::sections::data_segments::AddsBytes), [`active_encoding`](crate::definitions::sections::data_segments::active_encoding). [How to read clauses](crate::definitions).
    pub fn active<D>(&mut self, memory_index: u32, offset: &ConstExpr, data: D) -> &mut Self
    where
        D: IntoIterator<Item = u8>,
        D::IntoIter: ExactSizeIterator,
    {
        done(self.0.add_once((Front(DataSegmentMode::Active { memory_index, offset }), done(bytes_of(data)))));
        self
    }

    /// Adds a segment whose bytes are copied to a memory by an instruction.
    ///
    /// If there are more than 4294967295 bytes, the call panics.
    ///
    /// The instructions are `memory.init` and `array.new_data`.
    ///
    /// # Panics
    ///
    /// Panics if the builder has 4294967295 entries, or if a count or length would pass 4294967295.
    /// A failed allocation ends the program.
    ///
    /// # Asks
    ///
    /// The iterator ends, and yields as many items as it reports. [What happens otherwise](crate::fallible#what-is-asked).
    ///
    /// ```text
    /// requires { HasKnownLength D.into_iter_gives D.IntoIter.can_next D.IntoIter.next_gives
    ///     D.IntoIter.remaining bytes }
    /// ```
    ///
    /// Definitions: [`HasKnownLength`](crate::definitions::base::iterators::HasKnownLength). [How to read clauses](crate::definitions).
    ///
    /// # Proved
    ///
    /// The contract of
    /// [`fallible::DataSection::passive`](crate::fallible::DataSection#method.passive), which this
    /// call makes. Where that returns an error, this call panics. In the clauses, `S` is
    /// [`Entries`](crate::fallible::Entries), and `bytes` is `data`.
    ///
    /// The section gains one entry with the bytes that the iterator yields, or the call returns an error and changes nothing. It returns `TooLong` if the section is full or the iterator reports more than 2^32 - 1 remaining bytes, and otherwise not.
    ///
    /// ```text
    /// ensures { AddsBytes S.model D.into_iter_gives D.IntoIter.next_gives D.IntoIter.remaining
    ///     bytes passive_encoding self.old self.new result }
    /// ```
    ///
    /// Definitions: [`AddsBytes`](crate::definitions::sections::data_segments::AddsBytes), [`passive_encoding`](crate::definitions::sections::data_segments::passive_encoding). [How to read clauses](crate::definitions).
    pub fn passive<D>(&mut self, data: D) -> &mut Self
    where
        D: IntoIterator<Item = u8>,
        D::IntoIter: ExactSizeIterator,
    {
        done(self.0.passive(data));
        self
    }

    /// Adds a segment that is already encoded. The call does not check that it is one.
    ///
    /// # Panics
    ///
    /// Panics if the builder has 4294967295 entries. A failed allocation ends the program.
    ///
    /// # Proved
    ///
    /// The contract of [`fallible::DataSection::raw`](crate::fallible::DataSection#method.raw),
    /// which this call makes. Where that returns an error, this call panics. In the clauses, `S` is
    /// [`Entries`](crate::fallible::Entries), and `segment` is `already_encoded_data_segment`.
    ///
    /// The builder gains one entry with this encoding, or the call returns an error and changes nothing. A full builder, with 2^32 - 1 entries, returns `TooLong`.
    ///
    /// ```text
    /// ensures { AddsTo S.model segment.now ⊤ self.old self.new result }
    /// ```
    ///
    /// Definitions: [`AddsTo`](crate::definitions::base::calls::AddsTo). [How to read clauses](crate::definitions).
    pub fn raw(&mut self, already_encoded_data_segment: &[u8]) -> &mut Self {
        done(self.0.raw(already_encoded_data_segment));
        self
    }
}

impl CodeSection {
    /// Returns the number of bodies.
    ///
    /// # Proved
    ///
    /// The contract of [`fallible::CodeSection::len`](crate::fallible::CodeSection#method.len),
    /// which this call makes. In the clauses, `S` is [`Entries`](crate::fallible::Entries).
    ///
    /// ```text
    /// ensures { result ≡ (S.model.joins self.now).number }
    /// ```
    ///
    /// [How to read clauses](crate::definitions).
    #[inline]
    pub fn len(&self) -> u32 {
        self.0.len()
    }

    /// Returns `true` if there are no bodies.
    ///
    /// # Proved
    ///
    /// The contract of
    /// [`fallible::CodeSection::is_empty`](crate::fallible::CodeSection#method.is_empty), which
    /// this call makes. In the clauses, `S` is [`Entries`](crate::fallible::Entries).
    ///
    /// ```text
    /// ensures { IsTrue result ↔ ((S.model.joins self.now).number ≡ 0) }
    /// ```
    ///
    /// [How to read clauses](crate::definitions).
    #[inline]
    pub fn is_empty(&self) -> bool {
        self.0.is_empty()
    }

    /// Returns the length of all entries together, in bytes, without their count.
    ///
    /// # Proved
    ///
    /// The contract of
    /// [`fallible::CodeSection::byte_len`](crate::fallible::CodeSection#method.byte_len), which
    /// this call makes. In the clauses, `S` is [`Entries`](crate::fallible::Entries).
    ///
    /// ```text
    /// ensures { result ≡ length (S.model.joins self.now).content }
    /// ```
    ///
    /// [How to read clauses](crate::definitions).
    pub fn byte_len(&self) -> usize {
        self.0.byte_len()
    }

    /// Adds a function body.
    ///
    /// # Panics
    ///
    /// Panics if the builder has 4294967295 entries, or if a count or length would pass 4294967295.
    /// A failed allocation ends the program.
    ///
    /// # Proved
    ///
    /// The contract of
    /// [`fallible::CodeSection::function`](crate::fallible::CodeSection#method.function), which
    /// this call makes. Where that returns an error, this call panics. In the clauses, `S` is
    /// [`Entries`](crate::fallible::Entries), and `function` is `func`.
    ///
    /// The builder gains one entry with this encoding, or the call returns an error and changes nothing. A full builder, with 2^32 - 1 entries, returns `TooLong`.
    ///
    /// ```text
    /// ensures { AddsTo S.model (size_prefixed_encoding function.now)
    ///     (HasEncodableSize function.now) self.old self.new result }
    /// ```
    ///
    /// Definitions: [`AddsTo`](crate::definitions::base::calls::AddsTo), [`size_prefixed_encoding`](crate::definitions::base::encodings::size_prefixed_encoding), [`HasEncodableSize`](crate::definitions::base::encodings::HasEncodableSize). [How to read clauses](crate::definitions).
    #[inline]
    pub fn function(&mut self, func: &Function) -> &mut Self {
        done(self.0.function(&func.0));
        self
    }

    /// Adds a raw body, as [`Function::into_raw_body`](super::Function::into_raw_body) returns it.
    ///
    /// The bytes are not checked.
    ///
    /// # Panics
    ///
    /// Panics if the builder has 4294967295 entries, or if a count or length would pass 4294967295.
    /// A failed allocation ends the program.
    ///
    /// # Examples
    ///
    /// ```
    /// use dolzhytik::{CodeSection, Encode};
    ///
    /// let mut code = CodeSection::new();
    /// code.raw(&[0x00, 0x0B]); // No locals; end.
    /// let mut bytes = Vec::new();
    /// code.encode(&mut bytes);
    /// // Size 4, one body, of size 2.
    /// assert_eq!(bytes, [4, 1, 2, 0x00, 0x0B]);
    /// ```
    ///
    /// # Proved
    ///
    /// The contract of [`fallible::CodeSection::raw`](crate::fallible::CodeSection#method.raw),
    /// which this call makes. Where that returns an error, this call panics. In the clauses, `S` is
    /// [`Entries`](crate::fallible::Entries), and `body` is `data`.
    ///
    /// The builder gains one entry with this encoding, or the call returns an error and changes nothing. A full builder, with 2^32 - 1 entries, returns `TooLong`.
    ///
    /// ```text
    /// ensures { AddsTo S.model (size_prefixed_encoding body.now)
    ///     (HasEncodableSize body.now) self.old self.new result }
    /// ```
    ///
    /// Definitions: [`AddsTo`](crate::definitions::base::calls::AddsTo), [`size_prefixed_encoding`](crate::definitions::base::encodings::size_prefixed_encoding), [`HasEncodableSize`](crate::definitions::base::encodings::HasEncodableSize). [How to read clauses](crate::definitions).
    #[inline]
    pub fn raw(&mut self, data: &[u8]) -> &mut Self {
        done(self.0.raw(data));
        self
    }
}

impl TypeSection {
    /// Returns the number of entries.
    ///
    /// # Proved
    ///
    /// The contract of [`fallible::TypeSection::len`](crate::fallible::TypeSection#method.len),
    /// which this call makes. In the clauses, `S` is [`Entries`](crate::fallible::Entries).
    ///
    /// ```text
    /// ensures { result ≡ (S.model.joins self.now).number }
    /// ```
    ///
    /// [How to read clauses](crate::definitions).
    #[inline]
    pub fn len(&self) -> u32 {
        self.0.len()
    }

    /// Returns `true` if there are no entries.
    ///
    /// # Proved
    ///
    /// The contract of
    /// [`fallible::TypeSection::is_empty`](crate::fallible::TypeSection#method.is_empty), which
    /// this call makes. In the clauses, `S` is [`Entries`](crate::fallible::Entries).
    ///
    /// ```text
    /// ensures { IsTrue result ↔ ((S.model.joins self.now).number ≡ 0) }
    /// ```
    ///
    /// [How to read clauses](crate::definitions).
    #[inline]
    pub fn is_empty(&self) -> bool {
        self.0.is_empty()
    }

    /// Returns an encoder that adds one type. If none of its methods is called, nothing is added.
    ///
    /// # Proved
    ///
    /// The contract of [`fallible::TypeSection::ty`](crate::fallible::TypeSection#method.ty), which
    /// this call makes.
    ///
    /// ```text
    /// ensures same_reference { result.section.ghost_name ≡ self.entry.ghost_name }
    /// ensures same { result.section.now ≡ self.old }
    /// ```
    ///
    /// [How to read clauses](crate::definitions).
    #[must_use = "an entry is appended by a call of the returned value"]
    pub fn ty(&mut self) -> CoreTypeEncoder<'_> {
        CoreTypeEncoder(self.0.ty())
    }
}

impl Function {
    /// Returns a function with these runs of locals, to which instructions are then appended.
    ///
    /// # Panics
    ///
    /// If the length that the locals report exceeds 4294967295, the call panics, and requests none
    /// of them, as tests show. A failed allocation ends the program.
    ///
    /// # Asks
    ///
    /// The iterator ends, and yields as many items as it reports. [What happens otherwise](crate::fallible#what-is-asked).
    ///
    /// ```text
    /// requires { HasKnownLength V.into_iter_gives V.IntoIter.can_next V.IntoIter.next_gives
    ///     V.IntoIter.remaining locals }
    /// ```
    ///
    /// Definitions: [`HasKnownLength`](crate::definitions::base::iterators::HasKnownLength). [How to read clauses](crate::definitions).
    ///
    /// # Proved
    ///
    /// The contract of [`fallible::Function::new`](crate::fallible::Function#method.new), which
    /// this call makes. Where that returns an error, this call panics. In the clauses, `V` is `L`.
    ///
    /// The new function has the runs that the iterator yields. If the iterator reports more than 2^32 - 1 runs, the call returns `TooLong`.
    ///
    /// ```text
    /// ensures { BeginsWithRuns V.into_iter_gives V.IntoIter.next_gives V.IntoIter.remaining
    ///     locals result }
    /// ```
    ///
    /// Definitions: [`BeginsWithRuns`](crate::definitions::code::bodies::BeginsWithRuns). [How to read clauses](crate::definitions).
    pub fn new<L>(locals: L) -> Self
    where
        L: IntoIterator<Item = (u32, ValType)>,
        L::IntoIter: ExactSizeIterator,
    {
        Function(done(code::Function::new(Root, locals)))
    }

    /// Returns a function with locals of these types. Neighbours of one type form one run.
    ///
    /// # Panics
    ///
    /// Panics if a count or length would pass 4294967295. A failed allocation ends the program.
    ///
    /// # Examples
    ///
    /// ```
    /// use dolzhytik::{Function, ValType};
    ///
    /// let body = Function::new_with_locals_types([ValType::I32, ValType::I32, ValType::F32]);
    /// // Two runs: 2 of i32, 7F, and 1 of f32, 7D.
    /// assert_eq!(body.into_raw_body(), [2, 2, 0x7F, 1, 0x7D]);
    /// ```
    ///
    /// # Asks
    ///
    /// The iterator ends. [What happens otherwise](crate::fallible#what-is-asked).
    ///
    /// ```text
    /// requires { (it : I.IntoIter) → I.into_iter_gives locals it
    ///     → I.IntoIter.can_next it × IsFinite (I.IntoIter.remaining it) }
    /// ```
    ///
    /// [How to read clauses](crate::definitions).
    ///
    /// # Proved
    ///
    /// The contract of
    /// [`fallible::Function::new_with_locals_types`](crate::fallible::Function#method.new_with_locals_types),
    /// which this call makes. Where that returns an error, this call panics. In the clauses, `I` is
    /// `L`.
    ///
    /// The new function has the canonical runs of the types that the iterator yields. If the runs of the types fit, the call never returns `TooLong`.
    ///
    /// ```text
    /// ensures { BeginsWithTypes I.into_iter_gives I.IntoIter.next_gives locals result }
    /// ```
    ///
    /// Definitions: [`BeginsWithTypes`](crate::definitions::code::bodies::BeginsWithTypes). [How to read clauses](crate::definitions).
    pub fn new_with_locals_types<L>(locals: L) -> Self
    where
        L: IntoIterator<Item = ValType>,
    {
        Function(done(code::Function::new_with_locals_types(Root, locals)))
    }

    /// Returns a sink that appends instructions to the raw body.
    ///
    /// # Proved
    ///
    /// The contract of
    /// [`fallible::Function::instructions`](crate::fallible::Function#method.instructions). This
    /// call does the same, as tests show.
    ///
    /// ```text
    /// ensures same_reference { result.sink.ghost_name ≡ self.entry.ghost_name }
    /// ensures same { result.sink.now ≡ self.old }
    /// ```
    ///
    /// [How to read clauses](crate::definitions).
    #[inline]
    pub fn instructions(&mut self) -> InstructionSink<'_> {
        InstructionSink::new(self.0.bytes.as_std())
    }

    /// Appends an instruction.
    ///
    /// # Panics
    ///
    /// Panics if a count or length would pass 4294967295. A failed allocation ends the program.
    ///
    /// # Proved
    ///
    /// The contract of
    /// [`fallible::Function::instruction`](crate::fallible::Function#method.instruction). This call
    /// does the same, as tests show. Where that returns an error, this call panics.
    ///
    /// The body gains the encoding of the instruction, or the call returns an error and changes nothing.
    ///
    /// ```text
    /// ensures { AddsInstruction instruction.now self.old self.new result }
    /// ```
    ///
    /// Definitions: [`AddsInstruction`](crate::definitions::code::bodies::AddsInstruction). [How to read clauses](crate::definitions).
    #[inline]
    pub fn instruction(&mut self, instruction: &Instruction) -> &mut Self {
        instruction.encode(self.0.bytes.as_std());
        self
    }

    /// Appends bytes, which should encode instructions. The call does not check that.
    ///
    /// # Asks
    ///
    /// The iterator ends. [What happens otherwise](crate::fallible#what-is-asked).
    ///
    /// ```text
    /// requires { (it : I.IntoIter) → I.into_iter_gives bytes it
    ///     → I.IntoIter.can_next it × IsFinite (I.IntoIter.remaining it) }
    /// ```
    ///
    /// [How to read clauses](crate::definitions).
    ///
    /// # Proved
    ///
    /// The contract of [`fallible::Function::raw`](crate::fallible::Function#method.raw). This call
    /// does the same, as tests show. Where that returns an error, this call ends the program. In
    /// the clauses, `I` is `B`.
    ///
    /// After `Ok`: `ok`, the body gains the bytes that the iterator yields. After an error: `err`, the value is unchanged. In any case: `memory`, no error is `TooLong`.
    ///
    /// ```text
    /// ensures ok { OnOk result ((it : I.IntoIter) × (xs : List ℕ)
    ///     × I.into_iter_gives bytes it
    ///     × Drains I.IntoIter.next_gives it xs
    ///     × GrowsBy xs self.old self.new) }
    /// ensures err { OnErr result (self.new ≡ self.old) }
    /// ensures memory { result ≢ Err TooLong }
    /// ```
    ///
    /// Definitions: [`GrowsBy`](crate::definitions::code::bodies::GrowsBy). [How to read clauses](crate::definitions).
    pub fn raw<B>(&mut self, bytes: B) -> &mut Self
    where
        B: IntoIterator<Item = u8>,
    {
        self.0.bytes.as_std().extend(bytes);
        self
    }

    /// Returns the length of the raw body so far, in bytes. If the raw body decodes, this is the
    /// offset of the next instruction ([`offset`](crate::code::laws::offset)).
    ///
    /// A [`BranchHint`](super::BranchHint) needs it.
    ///
    /// # Examples
    ///
    /// ```
    /// use dolzhytik::Function;
    ///
    /// let mut body = Function::new([]);
    /// // No runs of locals: the count 0 is one byte.
    /// assert_eq!(body.byte_len(), 1);
    /// body.instructions().i32_const(7);
    /// // i32.const 7: 41 07.
    /// assert_eq!(body.byte_len(), 3);
    /// ```
    ///
    /// # Proved
    ///
    /// The contract of [`fallible::Function::byte_len`](crate::fallible::Function#method.byte_len),
    /// which this call makes.
    ///
    /// ```text
    /// ensures { result ≡ length self.now }
    /// ```
    ///
    /// [How to read clauses](crate::definitions).
    #[doc(alias = "offset")]
    #[doc(alias = "byte offset")]
    #[doc(alias = "instruction offset")]
    #[doc(alias = "position")]
    pub fn byte_len(&self) -> usize {
        self.0.byte_len()
    }

    /// Returns the raw body, which `CodeSection::raw` accepts.
    ///
    /// # Proved
    ///
    /// The contract of
    /// [`fallible::Function::into_raw_body`](crate::fallible::Function#method.into_raw_body), which
    /// this call makes.
    ///
    /// ```text
    /// ensures { result.items ≡ self }
    /// ```
    ///
    /// [How to read clauses](crate::definitions).
    pub fn into_raw_body(self) -> Vec<u8> {
        self.0.into_raw_body().into()
    }
}

impl ConstExpr {
    /// Returns an expression without instructions, and allocates nothing.
    ///
    /// # Proved
    ///
    /// The contract of [`fallible::ConstExpr::empty`](crate::fallible::ConstExpr#method.empty).
    /// This call does the same, as tests show.
    ///
    /// The result has no entries.
    ///
    /// ```text
    /// ensures { result ≡ [] }
    /// ```
    ///
    /// [How to read clauses](crate::definitions).
    pub const fn empty() -> Self {
        ConstExpr::stored(Bytes::new())
    }

    /// Returns the expression of these bytes, which should encode instructions. The call does not
    /// check that.
    ///
    /// The encoding appends `end`.
    ///
    /// # Examples
    ///
    /// ```
    /// use dolzhytik::{ConstExpr, Encode};
    ///
    /// let mut bytes = Vec::new();
    /// ConstExpr::raw([0x41, 0x2A]).encode(&mut bytes); // i32.const 42
    /// assert_eq!(bytes, [0x41, 0x2A, 0x0B]);
    /// ```
    ///
    /// # Asks
    ///
    /// The iterator ends. [What happens otherwise](crate::fallible#what-is-asked).
    ///
    /// ```text
    /// requires { (it : I.IntoIter) → I.into_iter_gives bytes it
    ///     → I.IntoIter.can_next it × IsFinite (I.IntoIter.remaining it) }
    /// ```
    ///
    /// [How to read clauses](crate::definitions).
    ///
    /// # Proved
    ///
    /// The contract of [`fallible::ConstExpr::raw`](crate::fallible::ConstExpr#method.raw). This
    /// call does the same, as tests show. Where that returns an error, this call ends the program.
    ///
    /// After `Ok`: `ok`, the expression is the bytes that the iterator yields. In any case: `memory`, no error is `TooLong`.
    ///
    /// ```text
    /// ensures ok { IfOk result (λ e. (it : I.IntoIter) × (xs : List ℕ)
    ///     × I.into_iter_gives bytes it
    ///     × Drains I.IntoIter.next_gives it xs
    ///     × (e ≡ xs)) }
    /// ensures memory { result ≢ Err TooLong }
    /// ```
    ///
    /// [How to read clauses](crate::definitions).
    pub fn raw(bytes: impl IntoIterator<Item = u8>) -> Self {
        ConstExpr::stored(Bytes::of(bytes))
    }

    /// Returns the expression of the instructions, one after another.
    ///
    /// The encoding appends `end`.
    ///
    /// # Panics
    ///
    /// Panics if a count or length would pass 4294967295. A failed allocation ends the program.
    ///
    /// # Examples
    ///
    /// ```
    /// use dolzhytik::{ConstExpr, Encode, Instruction};
    ///
    /// let mut bytes = Vec::new();
    /// ConstExpr::extended([Instruction::I32Const(1), Instruction::RefI31]).encode(&mut bytes);
    /// // i32.const 1: 41 01. ref.i31: FB 1C. end: 0B.
    /// assert_eq!(bytes, [0x41, 0x01, 0xFB, 0x1C, 0x0B]);
    /// ```
    ///
    /// # Asks
    ///
    /// The iterator ends. [What happens otherwise](crate::fallible#what-is-asked).
    ///
    /// ```text
    /// requires { (it : I.IntoIter) → I.into_iter_gives instructions it
    ///     → I.IntoIter.can_next it × IsFinite (I.IntoIter.remaining it) }
    /// ```
    ///
    /// [How to read clauses](crate::definitions).
    ///
    /// # Proved
    ///
    /// The contract of
    /// [`fallible::ConstExpr::extended`](crate::fallible::ConstExpr#method.extended). This call
    /// does the same, as tests show. Where that returns an error, this call panics. In the clauses,
    /// `instructions` is `insns`.
    ///
    /// The expression stores the encodings of the instructions that the iterator yields. If all of them fit, the call never returns `TooLong`.
    ///
    /// ```text
    /// ensures { StoresGiven I.into_iter_gives I.IntoIter.next_gives instructions result }
    /// ```
    ///
    /// Definitions: [`StoresGiven`](crate::definitions::code::expressions::StoresGiven). [How to read clauses](crate::definitions).
    pub fn extended<'a>(insns: impl IntoIterator<Item = Instruction<'a>>) -> Self {
        ConstExpr::stored(encodings(insns))
    }

    /// Returns the expression of `GlobalGet` alone.
    ///
    /// # Proved
    ///
    /// The contract of
    /// [`fallible::ConstExpr::global_get`](crate::fallible::ConstExpr#method.global_get). This call
    /// does the same, as tests show. Where that returns an error, this call ends the program.
    ///
    /// - After `Ok`, `stores`: The bytes gain the encoding of the instruction. If it is well-formed and the old bytes minimally encode instructions, the new bytes encode these and its normal form.
    /// - `memory`: no error is `TooLong`.
    ///
    /// ```text
    /// ensures stores { IfOk result (Stores (Instruction.GlobalGet index) []) }
    /// ensures memory { result ≢ Err TooLong }
    /// ```
    ///
    /// Definitions: [`Stores`](crate::definitions::code::expressions::Stores). [How to read clauses](crate::definitions).
    #[inline]
    pub const fn global_get(index: u32) -> Self {
        ConstExpr::one(First::GlobalGet(index))
    }

    /// Appends `GlobalGet` to the expression.
    ///
    /// # Proved
    ///
    /// The contract of
    /// [`fallible::ConstExpr::with_global_get`](crate::fallible::ConstExpr#method.with_global_get).
    /// This call does the same, as tests show. Where that returns an error, this call ends the
    /// program.
    ///
    /// - After `Ok`, `stores`: The bytes gain the encoding of the instruction. If it is well-formed and the old bytes minimally encode instructions, the new bytes encode these and its normal form.
    /// - `memory`: no error is `TooLong`.
    ///
    /// ```text
    /// ensures stores { IfOk result (Stores (Instruction.GlobalGet index) self) }
    /// ensures memory { result ≢ Err TooLong }
    /// ```
    ///
    /// Definitions: [`Stores`](crate::definitions::code::expressions::Stores). [How to read clauses](crate::definitions).
    pub fn with_global_get(self, index: u32) -> Self {
        self.with(|sink| sink.global_get(index))
    }

    /// Returns the expression of `RefNull` alone.
    ///
    /// # Proved
    ///
    /// The contract of
    /// [`fallible::ConstExpr::ref_null`](crate::fallible::ConstExpr#method.ref_null). This call
    /// does the same, as tests show. Where that returns an error, this call ends the program.
    ///
    /// - After `Ok`, `stores`: The bytes gain the encoding of the instruction. If it is well-formed and the old bytes minimally encode instructions, the new bytes encode these and its normal form.
    /// - `memory`: no error is `TooLong`.
    ///
    /// ```text
    /// ensures stores { IfOk result (Stores (Instruction.RefNull ty) []) }
    /// ensures memory { result ≢ Err TooLong }
    /// ```
    ///
    /// Definitions: [`Stores`](crate::definitions::code::expressions::Stores). [How to read clauses](crate::definitions).
    #[inline]
    pub const fn ref_null(ty: HeapType) -> Self {
        ConstExpr::one(First::RefNull(ty))
    }

    /// Appends `RefNull` to the expression.
    ///
    /// # Proved
    ///
    /// The contract of
    /// [`fallible::ConstExpr::with_ref_null`](crate::fallible::ConstExpr#method.with_ref_null).
    /// This call does the same, as tests show. Where that returns an error, this call ends the
    /// program.
    ///
    /// - After `Ok`, `stores`: The bytes gain the encoding of the instruction. If it is well-formed and the old bytes minimally encode instructions, the new bytes encode these and its normal form.
    /// - `memory`: no error is `TooLong`.
    ///
    /// ```text
    /// ensures stores { IfOk result (Stores (Instruction.RefNull ty) self) }
    /// ensures memory { result ≢ Err TooLong }
    /// ```
    ///
    /// Definitions: [`Stores`](crate::definitions::code::expressions::Stores). [How to read clauses](crate::definitions).
    pub fn with_ref_null(self, ty: HeapType) -> Self {
        self.with(|sink| sink.ref_null(ty))
    }

    /// Returns the expression of `RefFunc` alone.
    ///
    /// # Proved
    ///
    /// The contract of
    /// [`fallible::ConstExpr::ref_func`](crate::fallible::ConstExpr#method.ref_func). This call
    /// does the same, as tests show. Where that returns an error, this call ends the program. In
    /// the clauses, `function_index` is `func`.
    ///
    /// - After `Ok`, `stores`: The bytes gain the encoding of the instruction. If it is well-formed and the old bytes minimally encode instructions, the new bytes encode these and its normal form.
    /// - `memory`: no error is `TooLong`.
    ///
    /// ```text
    /// ensures stores { IfOk result (Stores (Instruction.RefFunc function_index) []) }
    /// ensures memory { result ≢ Err TooLong }
    /// ```
    ///
    /// Definitions: [`Stores`](crate::definitions::code::expressions::Stores). [How to read clauses](crate::definitions).
    #[inline]
    pub const fn ref_func(func: u32) -> Self {
        ConstExpr::one(First::RefFunc(func))
    }

    /// Appends `RefFunc` to the expression.
    ///
    /// # Proved
    ///
    /// The contract of
    /// [`fallible::ConstExpr::with_ref_func`](crate::fallible::ConstExpr#method.with_ref_func).
    /// This call does the same, as tests show. Where that returns an error, this call ends the
    /// program. In the clauses, `function_index` is `func`.
    ///
    /// - After `Ok`, `stores`: The bytes gain the encoding of the instruction. If it is well-formed and the old bytes minimally encode instructions, the new bytes encode these and its normal form.
    /// - `memory`: no error is `TooLong`.
    ///
    /// ```text
    /// ensures stores { IfOk result (Stores (Instruction.RefFunc function_index) self) }
    /// ensures memory { result ≢ Err TooLong }
    /// ```
    ///
    /// Definitions: [`Stores`](crate::definitions::code::expressions::Stores). [How to read clauses](crate::definitions).
    pub fn with_ref_func(self, func: u32) -> Self {
        self.with(|sink| sink.ref_func(func))
    }

    /// Returns the expression of `I32Const` alone.
    ///
    /// # Proved
    ///
    /// The contract of
    /// [`fallible::ConstExpr::i32_const`](crate::fallible::ConstExpr#method.i32_const). This call
    /// does the same, as tests show. Where that returns an error, this call ends the program.
    ///
    /// - After `Ok`, `stores`: The bytes gain the encoding of the instruction. If it is well-formed and the old bytes minimally encode instructions, the new bytes encode these and its normal form.
    /// - `memory`: no error is `TooLong`.
    ///
    /// ```text
    /// ensures stores { IfOk result (Stores (Instruction.I32Const value) []) }
    /// ensures memory { result ≢ Err TooLong }
    /// ```
    ///
    /// Definitions: [`Stores`](crate::definitions::code::expressions::Stores). [How to read clauses](crate::definitions).
    #[inline]
    pub const fn i32_const(value: i32) -> Self {
        ConstExpr::one(First::I32Const(value))
    }

    /// Appends `I32Const` to the expression.
    ///
    /// # Proved
    ///
    /// The contract of
    /// [`fallible::ConstExpr::with_i32_const`](crate::fallible::ConstExpr#method.with_i32_const).
    /// This call does the same, as tests show. Where that returns an error, this call ends the
    /// program.
    ///
    /// - After `Ok`, `stores`: The bytes gain the encoding of the instruction. If it is well-formed and the old bytes minimally encode instructions, the new bytes encode these and its normal form.
    /// - `memory`: no error is `TooLong`.
    ///
    /// ```text
    /// ensures stores { IfOk result (Stores (Instruction.I32Const value) self) }
    /// ensures memory { result ≢ Err TooLong }
    /// ```
    ///
    /// Definitions: [`Stores`](crate::definitions::code::expressions::Stores). [How to read clauses](crate::definitions).
    pub fn with_i32_const(self, value: i32) -> Self {
        self.with(|sink| sink.i32_const(value))
    }

    /// Returns the expression of `I64Const` alone.
    ///
    /// # Proved
    ///
    /// The contract of
    /// [`fallible::ConstExpr::i64_const`](crate::fallible::ConstExpr#method.i64_const). This call
    /// does the same, as tests show. Where that returns an error, this call ends the program.
    ///
    /// - After `Ok`, `stores`: The bytes gain the encoding of the instruction. If it is well-formed and the old bytes minimally encode instructions, the new bytes encode these and its normal form.
    /// - `memory`: no error is `TooLong`.
    ///
    /// ```text
    /// ensures stores { IfOk result (Stores (Instruction.I64Const value) []) }
    /// ensures memory { result ≢ Err TooLong }
    /// ```
    ///
    /// Definitions: [`Stores`](crate::definitions::code::expressions::Stores). [How to read clauses](crate::definitions).
    #[inline]
    pub const fn i64_const(value: i64) -> Self {
        ConstExpr::one(First::I64Const(value))
    }

    /// Appends `I64Const` to the expression.
    ///
    /// # Proved
    ///
    /// The contract of
    /// [`fallible::ConstExpr::with_i64_const`](crate::fallible::ConstExpr#method.with_i64_const).
    /// This call does the same, as tests show. Where that returns an error, this call ends the
    /// program.
    ///
    /// - After `Ok`, `stores`: The bytes gain the encoding of the instruction. If it is well-formed and the old bytes minimally encode instructions, the new bytes encode these and its normal form.
    /// - `memory`: no error is `TooLong`.
    ///
    /// ```text
    /// ensures stores { IfOk result (Stores (Instruction.I64Const value) self) }
    /// ensures memory { result ≢ Err TooLong }
    /// ```
    ///
    /// Definitions: [`Stores`](crate::definitions::code::expressions::Stores). [How to read clauses](crate::definitions).
    pub fn with_i64_const(self, value: i64) -> Self {
        self.with(|sink| sink.i64_const(value))
    }

    /// Returns the expression of `F32Const` alone.
    ///
    /// # Proved
    ///
    /// The contract of
    /// [`fallible::ConstExpr::f32_const`](crate::fallible::ConstExpr#method.f32_const). This call
    /// does the same, as tests show. Where that returns an error, this call ends the program.
    ///
    /// - After `Ok`, `stores`: The bytes gain the encoding of the instruction. If it is well-formed and the old bytes minimally encode instructions, the new bytes encode these and its normal form.
    /// - `memory`: no error is `TooLong`.
    ///
    /// ```text
    /// ensures stores { IfOk result (Stores (Instruction.F32Const value) []) }
    /// ensures memory { result ≢ Err TooLong }
    /// ```
    ///
    /// Definitions: [`Stores`](crate::definitions::code::expressions::Stores). [How to read clauses](crate::definitions).
    #[inline]
    pub const fn f32_const(value: Ieee32) -> Self {
        ConstExpr::one(First::F32Const(value))
    }

    /// Appends `F32Const` to the expression.
    ///
    /// # Proved
    ///
    /// The contract of
    /// [`fallible::ConstExpr::with_f32_const`](crate::fallible::ConstExpr#method.with_f32_const).
    /// This call does the same, as tests show. Where that returns an error, this call ends the
    /// program.
    ///
    /// - After `Ok`, `stores`: The bytes gain the encoding of the instruction. If it is well-formed and the old bytes minimally encode instructions, the new bytes encode these and its normal form.
    /// - `memory`: no error is `TooLong`.
    ///
    /// ```text
    /// ensures stores { IfOk result (Stores (Instruction.F32Const value) self) }
    /// ensures memory { result ≢ Err TooLong }
    /// ```
    ///
    /// Definitions: [`Stores`](crate::definitions::code::expressions::Stores). [How to read clauses](crate::definitions).
    pub fn with_f32_const(self, value: Ieee32) -> Self {
        self.with(|sink| sink.f32_const(value))
    }

    /// Returns the expression of `F64Const` alone.
    ///
    /// # Proved
    ///
    /// The contract of
    /// [`fallible::ConstExpr::f64_const`](crate::fallible::ConstExpr#method.f64_const). This call
    /// does the same, as tests show. Where that returns an error, this call ends the program.
    ///
    /// - After `Ok`, `stores`: The bytes gain the encoding of the instruction. If it is well-formed and the old bytes minimally encode instructions, the new bytes encode these and its normal form.
    /// - `memory`: no error is `TooLong`.
    ///
    /// ```text
    /// ensures stores { IfOk result (Stores (Instruction.F64Const value) []) }
    /// ensures memory { result ≢ Err TooLong }
    /// ```
    ///
    /// Definitions: [`Stores`](crate::definitions::code::expressions::Stores). [How to read clauses](crate::definitions).
    #[inline]
    pub const fn f64_const(value: Ieee64) -> Self {
        ConstExpr::one(First::F64Const(value))
    }

    /// Appends `F64Const` to the expression.
    ///
    /// # Proved
    ///
    /// The contract of
    /// [`fallible::ConstExpr::with_f64_const`](crate::fallible::ConstExpr#method.with_f64_const).
    /// This call does the same, as tests show. Where that returns an error, this call ends the
    /// program.
    ///
    /// - After `Ok`, `stores`: The bytes gain the encoding of the instruction. If it is well-formed and the old bytes minimally encode instructions, the new bytes encode these and its normal form.
    /// - `memory`: no error is `TooLong`.
    ///
    /// ```text
    /// ensures stores { IfOk result (Stores (Instruction.F64Const value) self) }
    /// ensures memory { result ≢ Err TooLong }
    /// ```
    ///
    /// Definitions: [`Stores`](crate::definitions::code::expressions::Stores). [How to read clauses](crate::definitions).
    pub fn with_f64_const(self, value: Ieee64) -> Self {
        self.with(|sink| sink.f64_const(value))
    }

    /// Returns the expression of `V128Const` alone.
    ///
    /// # Proved
    ///
    /// The contract of
    /// [`fallible::ConstExpr::v128_const`](crate::fallible::ConstExpr#method.v128_const). This call
    /// does the same, as tests show. Where that returns an error, this call ends the program.
    ///
    /// - After `Ok`, `stores`: The bytes gain the encoding of the instruction. If it is well-formed and the old bytes minimally encode instructions, the new bytes encode these and its normal form.
    /// - `memory`: no error is `TooLong`.
    ///
    /// ```text
    /// ensures stores { IfOk result
    ///     (Stores (Instruction.VectorImmediate (VectorImmediate.V128Const value)) []) }
    /// ensures memory { result ≢ Err TooLong }
    /// ```
    ///
    /// Definitions: [`Stores`](crate::definitions::code::expressions::Stores). [How to read clauses](crate::definitions).
    pub fn v128_const(value: i128) -> Self {
        ConstExpr::empty().with_v128_const(value)
    }

    /// Appends `V128Const` to the expression.
    ///
    /// # Proved
    ///
    /// The contract of
    /// [`fallible::ConstExpr::with_v128_const`](crate::fallible::ConstExpr#method.with_v128_const).
    /// This call does the same, as tests show. Where that returns an error, this call ends the
    /// program.
    ///
    /// - After `Ok`, `stores`: The bytes gain the encoding of the instruction. If it is well-formed and the old bytes minimally encode instructions, the new bytes encode these and its normal form.
    /// - `memory`: no error is `TooLong`.
    ///
    /// ```text
    /// ensures stores { IfOk result
    ///     (Stores (Instruction.VectorImmediate (VectorImmediate.V128Const value)) self) }
    /// ensures memory { result ≢ Err TooLong }
    /// ```
    ///
    /// Definitions: [`Stores`](crate::definitions::code::expressions::Stores). [How to read clauses](crate::definitions).
    pub fn with_v128_const(self, value: i128) -> Self {
        self.with(|sink| sink.v128_const(value))
    }

    /// Appends `I32Add` to the expression.
    ///
    /// # Proved
    ///
    /// The contract of
    /// [`fallible::ConstExpr::with_i32_add`](crate::fallible::ConstExpr#method.with_i32_add). This
    /// call does the same, as tests show. Where that returns an error, this call ends the program.
    ///
    /// - After `Ok`, `stores`: The bytes gain the encoding of the instruction. If it is well-formed and the old bytes minimally encode instructions, the new bytes encode these and its normal form.
    /// - `memory`: no error is `TooLong`.
    ///
    /// ```text
    /// ensures stores { IfOk result (Stores (Instruction.Numeric Numeric.I32Add) self) }
    /// ensures memory { result ≢ Err TooLong }
    /// ```
    ///
    /// Definitions: [`Stores`](crate::definitions::code::expressions::Stores). [How to read clauses](crate::definitions).
    pub fn with_i32_add(self) -> Self {
        self.with(|sink| sink.i32_add())
    }

    /// Appends `I32Sub` to the expression.
    ///
    /// # Proved
    ///
    /// The contract of
    /// [`fallible::ConstExpr::with_i32_sub`](crate::fallible::ConstExpr#method.with_i32_sub). This
    /// call does the same, as tests show. Where that returns an error, this call ends the program.
    ///
    /// - After `Ok`, `stores`: The bytes gain the encoding of the instruction. If it is well-formed and the old bytes minimally encode instructions, the new bytes encode these and its normal form.
    /// - `memory`: no error is `TooLong`.
    ///
    /// ```text
    /// ensures stores { IfOk result (Stores (Instruction.Numeric Numeric.I32Sub) self) }
    /// ensures memory { result ≢ Err TooLong }
    /// ```
    ///
    /// Definitions: [`Stores`](crate::definitions::code::expressions::Stores). [How to read clauses](crate::definitions).
    pub fn with_i32_sub(self) -> Self {
        self.with(|sink| sink.i32_sub())
    }

    /// Appends `I32Mul` to the expression.
    ///
    /// # Proved
    ///
    /// The contract of
    /// [`fallible::ConstExpr::with_i32_mul`](crate::fallible::ConstExpr#method.with_i32_mul). This
    /// call does the same, as tests show. Where that returns an error, this call ends the program.
    ///
    /// - After `Ok`, `stores`: The bytes gain the encoding of the instruction. If it is well-formed and the old bytes minimally encode instructions, the new bytes encode these and its normal form.
    /// - `memory`: no error is `TooLong`.
    ///
    /// ```text
    /// ensures stores { IfOk result (Stores (Instruction.Numeric Numeric.I32Mul) self) }
    /// ensures memory { result ≢ Err TooLong }
    /// ```
    ///
    /// Definitions: [`Stores`](crate::definitions::code::expressions::Stores). [How to read clauses](crate::definitions).
    pub fn with_i32_mul(self) -> Self {
        self.with(|sink| sink.i32_mul())
    }

    /// Appends `I64Add` to the expression.
    ///
    /// # Proved
    ///
    /// The contract of
    /// [`fallible::ConstExpr::with_i64_add`](crate::fallible::ConstExpr#method.with_i64_add). This
    /// call does the same, as tests show. Where that returns an error, this call ends the program.
    ///
    /// - After `Ok`, `stores`: The bytes gain the encoding of the instruction. If it is well-formed and the old bytes minimally encode instructions, the new bytes encode these and its normal form.
    /// - `memory`: no error is `TooLong`.
    ///
    /// ```text
    /// ensures stores { IfOk result (Stores (Instruction.Numeric Numeric.I64Add) self) }
    /// ensures memory { result ≢ Err TooLong }
    /// ```
    ///
    /// Definitions: [`Stores`](crate::definitions::code::expressions::Stores). [How to read clauses](crate::definitions).
    pub fn with_i64_add(self) -> Self {
        self.with(|sink| sink.i64_add())
    }

    /// Appends `I64Sub` to the expression.
    ///
    /// # Proved
    ///
    /// The contract of
    /// [`fallible::ConstExpr::with_i64_sub`](crate::fallible::ConstExpr#method.with_i64_sub). This
    /// call does the same, as tests show. Where that returns an error, this call ends the program.
    ///
    /// - After `Ok`, `stores`: The bytes gain the encoding of the instruction. If it is well-formed and the old bytes minimally encode instructions, the new bytes encode these and its normal form.
    /// - `memory`: no error is `TooLong`.
    ///
    /// ```text
    /// ensures stores { IfOk result (Stores (Instruction.Numeric Numeric.I64Sub) self) }
    /// ensures memory { result ≢ Err TooLong }
    /// ```
    ///
    /// Definitions: [`Stores`](crate::definitions::code::expressions::Stores). [How to read clauses](crate::definitions).
    pub fn with_i64_sub(self) -> Self {
        self.with(|sink| sink.i64_sub())
    }

    /// Appends `I64Mul` to the expression.
    ///
    /// # Proved
    ///
    /// The contract of
    /// [`fallible::ConstExpr::with_i64_mul`](crate::fallible::ConstExpr#method.with_i64_mul). This
    /// call does the same, as tests show. Where that returns an error, this call ends the program.
    ///
    /// - After `Ok`, `stores`: The bytes gain the encoding of the instruction. If it is well-formed and the old bytes minimally encode instructions, the new bytes encode these and its normal form.
    /// - `memory`: no error is `TooLong`.
    ///
    /// ```text
    /// ensures stores { IfOk result (Stores (Instruction.Numeric Numeric.I64Mul) self) }
    /// ensures memory { result ≢ Err TooLong }
    /// ```
    ///
    /// Definitions: [`Stores`](crate::definitions::code::expressions::Stores). [How to read clauses](crate::definitions).
    pub fn with_i64_mul(self) -> Self {
        self.with(|sink| sink.i64_mul())
    }

    /// Returns the index of `RefFunc` if the expression begins with it, and `None` otherwise.
    ///
    /// # Examples
    ///
    /// ```
    /// use dolzhytik::ConstExpr;
    ///
    /// assert_eq!(ConstExpr::ref_func(3).get_ref_func(), Some(3));
    /// assert_eq!(ConstExpr::i32_const(3).get_ref_func(), None);
    /// ```
    ///
    /// # Proved
    ///
    /// The contract of
    /// [`fallible::ConstExpr::get_ref_func`](crate::fallible::ConstExpr#method.get_ref_func). This
    /// call does the same, as tests show.
    ///
    /// The result is `Some(f)` exactly if the bytes begin with `ref.func f`.
    ///
    /// ```text
    /// ensures { IsRefFunc self.now result }
    /// ```
    ///
    /// Definitions: [`IsRefFunc`](crate::definitions::code::expressions::IsRefFunc). [How to read clauses](crate::definitions).
    pub fn get_ref_func(&self) -> Option<u32> {
        self.function_index()
    }
}

impl FuncType {
    /// Returns a function type of the parameters and results that these iterators yield.
    ///
    /// # Asks
    ///
    /// The iterator ends. [What happens otherwise](crate::fallible#what-is-asked).
    ///
    /// ```text
    /// requires params { (it : P.IntoIter) → P.into_iter_gives params it
    ///     → P.IntoIter.can_next it × IsFinite (P.IntoIter.remaining it) }
    /// requires results { (it : Q.IntoIter) → Q.into_iter_gives results it
    ///     → Q.IntoIter.can_next it × IsFinite (Q.IntoIter.remaining it) }
    /// ```
    ///
    /// [How to read clauses](crate::definitions).
    ///
    /// # Proved
    ///
    /// The contract of [`fallible::FuncType::new`](crate::fallible::FuncType#method.new), which
    /// this call makes. Where that returns an error, this call ends the program. In the clauses,
    /// `Q` is `R`.
    ///
    /// After `Ok`: `params`, they are the types that the iterator yields; `results`, they are the types that the iterator yields. In any case: `memory`, no error is `TooLong`.
    ///
    /// ```text
    /// ensures params { IfOk result
    ///     (λ f. (it : P.IntoIter) × P.into_iter_gives params it
    ///         × Drains P.IntoIter.next_gives it f.params.items) }
    /// ensures results { IfOk result
    ///     (λ f. (it : Q.IntoIter) × Q.into_iter_gives results it
    ///         × Drains Q.IntoIter.next_gives it f.results.items) }
    /// ensures memory { result ≢ Err TooLong }
    /// ```
    ///
    /// [How to read clauses](crate::definitions).
    pub fn new<P, R>(params: P, results: R) -> Self
    where
        P: IntoIterator<Item = ValType>,
        R: IntoIterator<Item = ValType>,
    {
        FuncType(done(types::FuncType::new(Global, params, results)))
    }

    /// Returns the types of the parameters.
    ///
    /// # Proved
    ///
    /// The contract of [`fallible::FuncType::params`](crate::fallible::FuncType#method.params),
    /// which this call makes.
    ///
    /// ```text
    /// ensures { result.now ≡ self.now.params.items }
    /// ```
    ///
    /// [How to read clauses](crate::definitions).
    pub fn params(&self) -> &[ValType] {
        self.0.params()
    }

    /// Returns the types of the results.
    ///
    /// # Proved
    ///
    /// The contract of [`fallible::FuncType::results`](crate::fallible::FuncType#method.results),
    /// which this call makes.
    ///
    /// ```text
    /// ensures { result.now ≡ self.now.results.items }
    /// ```
    ///
    /// [How to read clauses](crate::definitions).
    pub fn results(&self) -> &[ValType] {
        self.0.results()
    }
}

impl CoreTypeEncoder<'_> {
    /// Adds a function type of these parameters and results.
    ///
    /// The parameters are finished before the results are measured.
    ///
    /// # Panics
    ///
    /// Panics if the builder has 4294967295 entries, or if a count or length would pass 4294967295.
    /// A failed allocation ends the program.
    ///
    /// # Asks
    ///
    /// The iterator ends, and yields as many items as it reports. [What happens otherwise](crate::fallible#what-is-asked).
    ///
    /// ```text
    /// requires params { HasKnownLength P.into_iter_gives P.IntoIter.can_next
    ///     P.IntoIter.next_gives P.IntoIter.remaining params }
    /// requires results { HasKnownLength Q.into_iter_gives Q.IntoIter.can_next
    ///     Q.IntoIter.next_gives Q.IntoIter.remaining results }
    /// ```
    ///
    /// Definitions: [`HasKnownLength`](crate::definitions::base::iterators::HasKnownLength). [How to read clauses](crate::definitions).
    ///
    /// # Proved
    ///
    /// The contract of
    /// [`fallible::CoreTypeEncoder::function`](crate::fallible::CoreTypeEncoder#method.function).
    /// This call does the same, as tests show. Where that returns an error, this call panics. In
    /// the clauses, `S` is [`Entries`](crate::fallible::Entries), and `Q` is `R`.
    ///
    /// The section gains one entry of the items that both iterators yield, or the call returns an error and changes nothing. If either reports more than 2^32 - 1 items, the error is `TooLong`.
    ///
    /// ```text
    /// ensures { AddsTwoListed S.model P.into_iter_gives P.IntoIter.next_gives
    ///     P.IntoIter.remaining Q.into_iter_gives Q.IntoIter.next_gives Q.IntoIter.remaining
    ///     params results func_encoding self.entry.section.now self.exit.0.now result }
    /// ```
    ///
    /// Definitions: [`AddsTwoListed`](crate::definitions::types::calls::AddsTwoListed), [`func_encoding`](crate::definitions::types::rec_types::func_encoding). [How to read clauses](crate::definitions).
    #[inline]
    pub fn function<P, R>(self, params: P, results: R)
    where
        P: IntoIterator<Item = ValType>,
        P::IntoIter: ExactSizeIterator,
        R: IntoIterator<Item = ValType>,
        R::IntoIter: ExactSizeIterator,
    {
        done(self.0.section.entries.add_item_once((FUNC, Later(params.into_iter().map(Tested)), Later(results.into_iter().map(Tested)))))
    }

    /// Adds a function type.
    ///
    /// # Panics
    ///
    /// Panics if the builder has 4294967295 entries, or if a count or length would pass 4294967295.
    /// A failed allocation ends the program.
    ///
    /// # Proved
    ///
    /// The contract of
    /// [`fallible::CoreTypeEncoder::func_type`](crate::fallible::CoreTypeEncoder#method.func_type),
    /// which this call makes. Where that returns an error, this call panics. In the clauses, `S` is
    /// [`Entries`](crate::fallible::Entries).
    ///
    /// The builder gains one entry with this encoding, or the call returns an error and changes nothing. A full builder, with 2^32 - 1 entries, returns `TooLong`.
    ///
    /// ```text
    /// ensures { AddsTo S.model (func_encoding ty.now.params.items ty.now.results.items)
    ///     (IsEncodableVec (λ _. ⊤) ty.now.params.items
    ///         × IsEncodableVec (λ _. ⊤) ty.now.results.items) self.entry.section.now
    ///     self.exit.0.now result }
    /// ```
    ///
    /// Definitions: [`AddsTo`](crate::definitions::base::calls::AddsTo), [`func_encoding`](crate::definitions::types::rec_types::func_encoding), [`IsEncodableVec`](crate::definitions::base::encodings::IsEncodableVec). [How to read clauses](crate::definitions).
    pub fn func_type(self, ty: &FuncType) {
        done(self.0.func_type(&ty.0))
    }

    /// Adds an array type.
    ///
    /// # Panics
    ///
    /// Panics if the builder has 4294967295 entries. A failed allocation ends the program.
    ///
    /// # Proved
    ///
    /// The contract of
    /// [`fallible::CoreTypeEncoder::array`](crate::fallible::CoreTypeEncoder#method.array), which
    /// this call makes. Where that returns an error, this call panics. In the clauses, `S` is
    /// [`Entries`](crate::fallible::Entries).
    ///
    /// The builder gains one entry with this encoding, or the call returns an error and changes nothing. A full builder, with 2^32 - 1 entries, returns `TooLong`.
    ///
    /// ```text
    /// ensures { AddsTo S.model
    ///     (0x5E ∷ field_encoding (record { element_type = ty.now; mutable = mutable })) ⊤
    ///     self.entry.section.now self.exit.0.now result }
    /// ```
    ///
    /// Definitions: [`AddsTo`](crate::definitions::base::calls::AddsTo), [`field_encoding`](crate::definitions::types::rec_types::field_encoding). [How to read clauses](crate::definitions).
    pub fn array(self, ty: &StorageType, mutable: bool) {
        done(self.0.array(ty, mutable))
    }

    /// Adds a structure type of these fields. If the iterator reports more than 4294967295 fields,
    /// the call panics and requests none, as tests show.
    ///
    /// # Panics
    ///
    /// Panics if the builder has 4294967295 entries, or if a count or length would pass 4294967295.
    /// A failed allocation ends the program.
    ///
    /// # Asks
    ///
    /// The iterator ends, and yields as many items as it reports. [What happens otherwise](crate::fallible#what-is-asked).
    ///
    /// ```text
    /// requires { HasKnownLength F.into_iter_gives F.IntoIter.can_next F.IntoIter.next_gives
    ///     F.IntoIter.remaining fields }
    /// ```
    ///
    /// Definitions: [`HasKnownLength`](crate::definitions::base::iterators::HasKnownLength). [How to read clauses](crate::definitions).
    ///
    /// # Proved
    ///
    /// The contract of
    /// [`fallible::CoreTypeEncoder::struct_`](crate::fallible::CoreTypeEncoder#method.struct_),
    /// which this call makes. Where that returns an error, this call panics. In the clauses, `S` is
    /// [`Entries`](crate::fallible::Entries).
    ///
    /// The section gains one entry of the items that the iterator yields, or the call returns an error and changes nothing. If the iterator reports more than 2^32 - 1 items, the error is `TooLong`.
    ///
    /// ```text
    /// ensures { AddsListed S.model F.into_iter_gives F.IntoIter.next_gives
    ///     F.IntoIter.remaining (λ _. ⊤) fields struct_encoding self.entry.section.now
    ///     self.exit.0.now result }
    /// ```
    ///
    /// Definitions: [`AddsListed`](crate::definitions::types::calls::AddsListed), [`struct_encoding`](crate::definitions::types::rec_types::struct_encoding). [How to read clauses](crate::definitions).
    pub fn struct_<F>(self, fields: F)
    where
        F: IntoIterator<Item = FieldType>,
        F::IntoIter: ExactSizeIterator,
    {
        done(self.0.struct_(fields))
    }

    /// Adds a continuation type.
    ///
    /// The stack switching proposal defines it.
    ///
    /// # Panics
    ///
    /// Panics if the builder has 4294967295 entries. A failed allocation ends the program.
    ///
    /// # Proved
    ///
    /// The contract of
    /// [`fallible::CoreTypeEncoder::cont`](crate::fallible::CoreTypeEncoder#method.cont), which
    /// this call makes. Where that returns an error, this call panics. In the clauses, `S` is
    /// [`Entries`](crate::fallible::Entries).
    ///
    /// The builder gains one entry with this encoding, or the call returns an error and changes nothing. A full builder, with 2^32 - 1 entries, returns `TooLong`.
    ///
    /// ```text
    /// ensures { AddsTo S.model
    ///     (cont_encoding ty.now.0) ⊤ self.entry.section.now self.exit.0.now result }
    /// ```
    ///
    /// Definitions: [`AddsTo`](crate::definitions::base::calls::AddsTo), [`cont_encoding`](crate::definitions::types::rec_types::cont_encoding). [How to read clauses](crate::definitions).
    pub fn cont(self, ty: &ContType) {
        done(self.0.cont(ty))
    }

    /// Adds a subtype.
    ///
    /// The lists of the type are copied.
    ///
    /// # Panics
    ///
    /// Panics if the builder has 4294967295 entries, or if a count or length would pass 4294967295.
    /// A failed allocation ends the program.
    ///
    /// # Examples
    ///
    /// ```
    /// use dolzhytik::{
    ///     CompositeInnerType, CompositeType, Encode, StructType, SubType, TypeSection,
    /// };
    ///
    /// let mut types = TypeSection::new();
    /// types.ty().subtype(&SubType {
    ///     is_final: false,
    ///     supertype_idx: Some(0),
    ///     composite_type: CompositeType {
    ///         inner: CompositeInnerType::Struct(StructType { fields: Box::new([]) }),
    ///         shared: false,
    ///         descriptor: None,
    ///         describes: None,
    ///     },
    /// });
    /// let mut bytes = Vec::new();
    /// types.encode(&mut bytes);
    /// // Size 6, one type: not final (50), one supertype, 0; a structure (5F) of no fields.
    /// assert_eq!(bytes, [6, 1, 0x50, 1, 0, 0x5F, 0]);
    /// ```
    ///
    /// # Proved
    ///
    /// The contract of
    /// [`fallible::CoreTypeEncoder::subtype`](crate::fallible::CoreTypeEncoder#method.subtype),
    /// which this call makes. Where that returns an error, this call panics. In the clauses, `S` is
    /// [`Entries`](crate::fallible::Entries).
    ///
    /// The builder gains one entry with this encoding, or the call returns an error and changes nothing. A full builder, with 2^32 - 1 entries, returns `TooLong`.
    ///
    /// ```text
    /// ensures { AddsTo S.model (sub_encoding (sub_in ty.now))
    ///     (IsEncodableShape (shape_in ty.now.composite_type.inner)) self.entry.section.now
    ///     self.exit.0.now result }
    /// ```
    ///
    /// Definitions: [`AddsTo`](crate::definitions::base::calls::AddsTo), [`sub_encoding`](crate::definitions::types::rec_types::sub_encoding), [`sub_in`](crate::definitions::types::given::sub_in), [`IsEncodableShape`](crate::definitions::types::given::IsEncodableShape), [`shape_in`](crate::definitions::types::given::shape_in). [How to read clauses](crate::definitions).
    pub fn subtype(self, ty: &SubType) {
        done(self.0.subtype(&types::SubType::from(ty.clone())))
    }

    /// Adds a recursion group: subtypes that may refer to one another. If the iterator reports more
    /// than 4294967295 subtypes, the call panics and requests none, as tests show.
    ///
    /// It is one entry, and each type takes an index.
    ///
    /// # Panics
    ///
    /// Panics if the builder has 4294967295 entries, or if a count or length would pass 4294967295.
    /// A failed allocation ends the program.
    ///
    /// # Examples
    ///
    /// ```
    /// use dolzhytik::{Encode, TypeSection};
    ///
    /// let mut types = TypeSection::new();
    /// types.ty().rec([]);
    /// let mut bytes = Vec::new();
    /// types.encode(&mut bytes);
    /// // Size 3, one entry: a group (4E) of no types.
    /// assert_eq!(bytes, [3, 1, 0x4E, 0]);
    /// ```
    ///
    /// # Asks
    ///
    /// The iterator ends, and yields as many items as it reports. [What happens otherwise](crate::fallible#what-is-asked).
    ///
    /// ```text
    /// requires { HasKnownLength T.into_iter_gives T.IntoIter.can_next T.IntoIter.next_gives
    ///     T.IntoIter.remaining types }
    /// ```
    ///
    /// Definitions: [`HasKnownLength`](crate::definitions::base::iterators::HasKnownLength). [How to read clauses](crate::definitions).
    ///
    /// # Proved
    ///
    /// The contract of
    /// [`fallible::CoreTypeEncoder::rec`](crate::fallible::CoreTypeEncoder#method.rec), which this
    /// call makes. Where that returns an error, this call panics. In the clauses, `S` is
    /// [`Entries`](crate::fallible::Entries).
    ///
    /// The section gains one entry of the items that the iterator yields, or the call returns an error and changes nothing. If the iterator reports more than 2^32 - 1 items, the error is `TooLong`.
    ///
    /// ```text
    /// ensures { AddsListed S.model T.into_iter_gives T.IntoIter.next_gives
    ///     T.IntoIter.remaining (λ s. IsEncodableShape (shape_in s.composite_type.inner)) types
    ///     group_encoding self.entry.section.now self.exit.0.now result }
    /// ```
    ///
    /// Definitions: [`AddsListed`](crate::definitions::types::calls::AddsListed), [`IsEncodableShape`](crate::definitions::types::given::IsEncodableShape), [`shape_in`](crate::definitions::types::given::shape_in), [`group_encoding`](crate::definitions::types::given::group_encoding). [How to read clauses](crate::definitions).
    #[doc(alias = "recursive type")]
    #[doc(alias = "recursion group")]
    pub fn rec<T>(self, types: T)
    where
        T: IntoIterator<Item = SubType>,
        T::IntoIter: ExactSizeIterator,
    {
        done(self.0.rec(types.into_iter().map(types::SubType::from)))
    }
}

impl Module {
    /// Returns a module without sections.
    ///
    /// # Proved
    ///
    /// The contract of [`fallible::Module::new`](crate::fallible::Module#method.new), which this
    /// call makes. Where that returns an error, this call ends the program.
    ///
    /// - After `Ok`, `bytes`: the module is the header.
    /// - After `Ok`, `read`: The result is the only minimal encoding of these sections. In every mode, all of its bytes decode to them alone.
    /// - `memory`: no error is `TooLong`.
    ///
    /// ```text
    /// ensures bytes { IfOk result (λ m. m ≡ header) }
    /// ensures read { IfOk result (λ m. DecodesWhole wasm_module m []) }
    /// ensures memory { result ≢ Err Refused.TooLong }
    /// ```
    ///
    /// Definitions: [`header`](crate::definitions::base::formats::header), [`DecodesWhole`](crate::definitions::base::decoding::DecodesWhole), [`wasm_module`](crate::definitions::base::formats::wasm_module). [How to read clauses](crate::definitions).
    pub fn new() -> Self {
        Module(done(base::Module::new(Root)))
    }

    /// Appends a section.
    ///
    /// A valid module has each section at most once, in the order type, import, function, table,
    /// memory, tag, global, export, start, element, data count, code, data. Custom sections may be
    /// anywhere. The call checks neither. A section of your own is appended by your own calls, of
    /// which the contract says nothing.
    ///
    /// # Panics
    ///
    /// Panics if a count or length in the section would pass 4294967295. A failed allocation ends
    /// the program.
    ///
    /// # Examples
    ///
    /// ```
    /// use dolzhytik::{Module, StartSection};
    ///
    /// let mut module = Module::new();
    /// module.section(&StartSection { function_index: 2 });
    /// // Id 8, size 1, function 2.
    /// assert_eq!(module.as_slice()[8..], [8, 1, 2]);
    /// ```
    ///
    /// # Proved
    ///
    /// The contract of [`fallible::Module::section`](crate::fallible::Module#method.section). This
    /// call does the same, as tests show. Where that returns an error, this call panics.
    ///
    /// - After `Ok`, `ok`: the module gains the id and the encoding of the section.
    /// - After `Ok`, `read`: Composition of modules: if the old bytes decode to some sections alone, the new bytes decode to these and one more. That section has this id, and any payload with the property.
    /// - After `Ok`, `section`: the encoding decodes as the impl defines by `decoding`.
    /// - After `Ok`, `was_encodable`: each count and length fits 32 bits.
    /// - After an error, `err`: the value is unchanged.
    /// - `too_long`: a section whose counts and lengths fit never gives `TooLong`.
    /// - `too_many`: an `overlong` section gives `TooLong`.
    ///
    /// ```text
    /// ensures ok { OnOk result
    ///     (self.new ≡ self.old ++ (S.id_of section.now ∷ S.encoding section.now)) }
    /// ensures read { OnOk result
    ///     (DecodesOneMore (S.payload section.now) (S.id_of section.now) self.old self.new) }
    /// ensures section { OnOk result (S.decoding section.now) }
    /// ensures err { OnErr result (self.new ≡ self.old) }
    /// ensures was_encodable { OnOk result (S.encodable section.now) }
    /// ensures too_long { S.encodable section.now → result ≢ Err Refused.TooLong }
    /// ensures too_many { S.overlong section.now → result ≡ Err Refused.TooLong }
    /// ```
    ///
    /// Definitions: [`DecodesOneMore`](crate::definitions::base::calls::DecodesOneMore). [How to read clauses](crate::definitions).
    pub fn section(&mut self, section: &impl Section) -> &mut Self {
        section.append_to(self.0.bytes.as_std());
        self
    }

    /// Returns the bytes of the module.
    ///
    /// Nothing is copied.
    ///
    /// # Proved
    ///
    /// The contract of [`fallible::Module::finish`](crate::fallible::Module#method.finish), which
    /// this call makes.
    ///
    /// ```text
    /// ensures { result.items ≡ self }
    /// ```
    ///
    /// [How to read clauses](crate::definitions).
    #[doc(alias = "bytes")]
    #[doc(alias = "into_bytes")]
    pub fn finish(self) -> Vec<u8> {
        self.0.finish().into()
    }
}

impl NameMap {
    /// Adds the name of this index.
    ///
    /// Add names in the order of indices, each once: the call does not check it. A name may be that
    /// of
    /// other items too.
    ///
    /// # Panics
    ///
    /// Panics if the builder has 4294967295 entries, or if a count or length would pass 4294967295.
    /// A failed allocation ends the program.
    ///
    /// # Proved
    ///
    /// The contract of [`fallible::NameMap::append`](crate::fallible::NameMap#method.append), which
    /// this call makes. Where that returns an error, this call panics. In the clauses, `S` is
    /// [`Entries`](crate::fallible::Entries), and `index` is `idx`.
    ///
    /// The builder gains one entry with this encoding, or the call returns an error and changes nothing. A full builder, with 2^32 - 1 entries, returns `TooLong`.
    ///
    /// ```text
    /// ensures { AddsTo S.model (unsigned_encoding index ++ size_prefixed_encoding name.now)
    ///     (HasEncodableSize name.now) self.old self.new result }
    /// ```
    ///
    /// Definitions: [`AddsTo`](crate::definitions::base::calls::AddsTo), [`unsigned_encoding`](crate::definitions::base::numbers::unsigned_encoding), [`size_prefixed_encoding`](crate::definitions::base::encodings::size_prefixed_encoding), [`HasEncodableSize`](crate::definitions::base::encodings::HasEncodableSize). [How to read clauses](crate::definitions).
    #[inline]
    pub fn append(&mut self, idx: u32, name: &str) {
        done(self.0.append(idx, name))
    }

    /// Returns `true` if there are no entries.
    ///
    /// # Proved
    ///
    /// The contract of [`fallible::NameMap::is_empty`](crate::fallible::NameMap#method.is_empty),
    /// which this call makes. In the clauses, `S` is [`Entries`](crate::fallible::Entries).
    ///
    /// ```text
    /// ensures { IsTrue result ↔ ((S.model.joins self.now).number ≡ 0) }
    /// ```
    ///
    /// [How to read clauses](crate::definitions).
    pub fn is_empty(&self) -> bool {
        self.0.is_empty()
    }
}

impl IndirectNameMap {
    /// Adds the names of the items in this index.
    ///
    /// Add them in the order of indices, each once: the call does not check it.
    ///
    /// # Panics
    ///
    /// Panics if the builder has 4294967295 entries. A failed allocation ends the program.
    ///
    /// # Proved
    ///
    /// The contract of
    /// [`fallible::IndirectNameMap::append`](crate::fallible::IndirectNameMap#method.append), which
    /// this call makes. Where that returns an error, this call panics. In the clauses, `S` and `T`
    /// are [`Entries`](crate::fallible::Entries), and `index` is `idx`.
    ///
    /// The builder gains one entry with this encoding, or the call returns an error and changes nothing. A full builder, with 2^32 - 1 entries, returns `TooLong`.
    ///
    /// ```text
    /// ensures { AddsTo S.model
    ///     (unsigned_encoding index ++ list_encoding (T.model.joins names.now)) ⊤ self.old
    ///     self.new result }
    /// ```
    ///
    /// Definitions: [`AddsTo`](crate::definitions::base::calls::AddsTo), [`unsigned_encoding`](crate::definitions::base::numbers::unsigned_encoding), [`list_encoding`](crate::definitions::custom::lists::list_encoding). [How to read clauses](crate::definitions).
    pub fn append(&mut self, idx: u32, names: &NameMap) {
        done(self.0.append(idx, &names.0))
    }
}

impl NameSection {
    /// Adds the name of the module.
    ///
    /// # Panics
    ///
    /// Panics if the builder has 4294967295 entries, or if a count or length would pass 4294967295.
    /// A failed allocation ends the program.
    ///
    /// # Proved
    ///
    /// The contract of
    /// [`fallible::NameSection::module`](crate::fallible::NameSection#method.module), which this
    /// call makes. Where that returns an error, this call panics. In the clauses, `S` is
    /// [`Entries`](crate::fallible::Entries).
    ///
    /// The builder gains one entry with this encoding, or the call returns an error and changes nothing. A full builder, with 2^32 - 1 entries, returns `TooLong`.
    ///
    /// ```text
    /// ensures { AddsTo S.model (subsection_encoding 0 (size_prefixed_encoding name.now))
    ///     (HasEncodableSize (size_prefixed_encoding name.now) × HasEncodableSize name.now)
    ///     self.old self.new result }
    /// ```
    ///
    /// Definitions: [`AddsTo`](crate::definitions::base::calls::AddsTo), [`subsection_encoding`](crate::definitions::custom::customs::subsection_encoding), [`size_prefixed_encoding`](crate::definitions::base::encodings::size_prefixed_encoding), [`HasEncodableSize`](crate::definitions::base::encodings::HasEncodableSize). [How to read clauses](crate::definitions).
    pub fn module(&mut self, name: &str) {
        done(self.0.module(name))
    }

    /// Adds the names of functions.
    ///
    /// # Panics
    ///
    /// Panics if the builder has 4294967295 entries, or if a count or length would pass 4294967295.
    /// A failed allocation ends the program.
    ///
    /// # Proved
    ///
    /// The contract of
    /// [`fallible::NameSection::functions`](crate::fallible::NameSection#method.functions), which
    /// this call makes. Where that returns an error, this call panics. In the clauses, `S` and `T`
    /// are [`Entries`](crate::fallible::Entries).
    ///
    /// The builder gains one entry with this encoding, or the call returns an error and changes nothing. A full builder, with 2^32 - 1 entries, returns `TooLong`.
    ///
    /// ```text
    /// ensures { AddsTo S.model
    ///     (subsection_encoding 1 (list_encoding (T.model.joins names.now)))
    ///     (HasEncodableSize (list_encoding (T.model.joins names.now)) × ⊤) self.old self.new
    ///     result }
    /// ```
    ///
    /// Definitions: [`AddsTo`](crate::definitions::base::calls::AddsTo), [`subsection_encoding`](crate::definitions::custom::customs::subsection_encoding), [`list_encoding`](crate::definitions::custom::lists::list_encoding), [`HasEncodableSize`](crate::definitions::base::encodings::HasEncodableSize). [How to read clauses](crate::definitions).
    pub fn functions(&mut self, names: &NameMap) {
        done(self.0.functions(&names.0))
    }

    /// Adds the names of types.
    ///
    /// # Panics
    ///
    /// Panics if the builder has 4294967295 entries, or if a count or length would pass 4294967295.
    /// A failed allocation ends the program.
    ///
    /// # Proved
    ///
    /// The contract of [`fallible::NameSection::types`](crate::fallible::NameSection#method.types),
    /// which this call makes. Where that returns an error, this call panics. In the clauses, `S`
    /// and `T` are [`Entries`](crate::fallible::Entries).
    ///
    /// The builder gains one entry with this encoding, or the call returns an error and changes nothing. A full builder, with 2^32 - 1 entries, returns `TooLong`.
    ///
    /// ```text
    /// ensures { AddsTo S.model
    ///     (subsection_encoding 4 (list_encoding (T.model.joins names.now)))
    ///     (HasEncodableSize (list_encoding (T.model.joins names.now)) × ⊤) self.old self.new
    ///     result }
    /// ```
    ///
    /// Definitions: [`AddsTo`](crate::definitions::base::calls::AddsTo), [`subsection_encoding`](crate::definitions::custom::customs::subsection_encoding), [`list_encoding`](crate::definitions::custom::lists::list_encoding), [`HasEncodableSize`](crate::definitions::base::encodings::HasEncodableSize). [How to read clauses](crate::definitions).
    pub fn types(&mut self, names: &NameMap) {
        done(self.0.types(&names.0))
    }

    /// Adds the names of tables.
    ///
    /// # Panics
    ///
    /// Panics if the builder has 4294967295 entries, or if a count or length would pass 4294967295.
    /// A failed allocation ends the program.
    ///
    /// # Proved
    ///
    /// The contract of
    /// [`fallible::NameSection::tables`](crate::fallible::NameSection#method.tables), which this
    /// call makes. Where that returns an error, this call panics. In the clauses, `S` and `T` are
    /// [`Entries`](crate::fallible::Entries).
    ///
    /// The builder gains one entry with this encoding, or the call returns an error and changes nothing. A full builder, with 2^32 - 1 entries, returns `TooLong`.
    ///
    /// ```text
    /// ensures { AddsTo S.model
    ///     (subsection_encoding 5 (list_encoding (T.model.joins names.now)))
    ///     (HasEncodableSize (list_encoding (T.model.joins names.now)) × ⊤) self.old self.new
    ///     result }
    /// ```
    ///
    /// Definitions: [`AddsTo`](crate::definitions::base::calls::AddsTo), [`subsection_encoding`](crate::definitions::custom::customs::subsection_encoding), [`list_encoding`](crate::definitions::custom::lists::list_encoding), [`HasEncodableSize`](crate::definitions::base::encodings::HasEncodableSize). [How to read clauses](crate::definitions).
    pub fn tables(&mut self, names: &NameMap) {
        done(self.0.tables(&names.0))
    }

    /// Adds the names of memories.
    ///
    /// # Panics
    ///
    /// Panics if the builder has 4294967295 entries, or if a count or length would pass 4294967295.
    /// A failed allocation ends the program.
    ///
    /// # Proved
    ///
    /// The contract of
    /// [`fallible::NameSection::memories`](crate::fallible::NameSection#method.memories), which
    /// this call makes. Where that returns an error, this call panics. In the clauses, `S` and `T`
    /// are [`Entries`](crate::fallible::Entries).
    ///
    /// The builder gains one entry with this encoding, or the call returns an error and changes nothing. A full builder, with 2^32 - 1 entries, returns `TooLong`.
    ///
    /// ```text
    /// ensures { AddsTo S.model
    ///     (subsection_encoding 6 (list_encoding (T.model.joins names.now)))
    ///     (HasEncodableSize (list_encoding (T.model.joins names.now)) × ⊤) self.old self.new
    ///     result }
    /// ```
    ///
    /// Definitions: [`AddsTo`](crate::definitions::base::calls::AddsTo), [`subsection_encoding`](crate::definitions::custom::customs::subsection_encoding), [`list_encoding`](crate::definitions::custom::lists::list_encoding), [`HasEncodableSize`](crate::definitions::base::encodings::HasEncodableSize). [How to read clauses](crate::definitions).
    pub fn memories(&mut self, names: &NameMap) {
        done(self.0.memories(&names.0))
    }

    /// Adds the names of globals.
    ///
    /// # Panics
    ///
    /// Panics if the builder has 4294967295 entries, or if a count or length would pass 4294967295.
    /// A failed allocation ends the program.
    ///
    /// # Proved
    ///
    /// The contract of
    /// [`fallible::NameSection::globals`](crate::fallible::NameSection#method.globals), which this
    /// call makes. Where that returns an error, this call panics. In the clauses, `S` and `T` are
    /// [`Entries`](crate::fallible::Entries).
    ///
    /// The builder gains one entry with this encoding, or the call returns an error and changes nothing. A full builder, with 2^32 - 1 entries, returns `TooLong`.
    ///
    /// ```text
    /// ensures { AddsTo S.model
    ///     (subsection_encoding 7 (list_encoding (T.model.joins names.now)))
    ///     (HasEncodableSize (list_encoding (T.model.joins names.now)) × ⊤) self.old self.new
    ///     result }
    /// ```
    ///
    /// Definitions: [`AddsTo`](crate::definitions::base::calls::AddsTo), [`subsection_encoding`](crate::definitions::custom::customs::subsection_encoding), [`list_encoding`](crate::definitions::custom::lists::list_encoding), [`HasEncodableSize`](crate::definitions::base::encodings::HasEncodableSize). [How to read clauses](crate::definitions).
    pub fn globals(&mut self, names: &NameMap) {
        done(self.0.globals(&names.0))
    }

    /// Adds the names of element segments.
    ///
    /// # Panics
    ///
    /// Panics if the builder has 4294967295 entries, or if a count or length would pass 4294967295.
    /// A failed allocation ends the program.
    ///
    /// # Proved
    ///
    /// The contract of
    /// [`fallible::NameSection::elements`](crate::fallible::NameSection#method.elements), which
    /// this call makes. Where that returns an error, this call panics. In the clauses, `S` and `T`
    /// are [`Entries`](crate::fallible::Entries).
    ///
    /// The builder gains one entry with this encoding, or the call returns an error and changes nothing. A full builder, with 2^32 - 1 entries, returns `TooLong`.
    ///
    /// ```text
    /// ensures { AddsTo S.model
    ///     (subsection_encoding 8 (list_encoding (T.model.joins names.now)))
    ///     (HasEncodableSize (list_encoding (T.model.joins names.now)) × ⊤) self.old self.new
    ///     result }
    /// ```
    ///
    /// Definitions: [`AddsTo`](crate::definitions::base::calls::AddsTo), [`subsection_encoding`](crate::definitions::custom::customs::subsection_encoding), [`list_encoding`](crate::definitions::custom::lists::list_encoding), [`HasEncodableSize`](crate::definitions::base::encodings::HasEncodableSize). [How to read clauses](crate::definitions).
    pub fn elements(&mut self, names: &NameMap) {
        done(self.0.elements(&names.0))
    }

    /// Adds the names of data segments.
    ///
    /// # Panics
    ///
    /// Panics if the builder has 4294967295 entries, or if a count or length would pass 4294967295.
    /// A failed allocation ends the program.
    ///
    /// # Proved
    ///
    /// The contract of [`fallible::NameSection::data`](crate::fallible::NameSection#method.data),
    /// which this call makes. Where that returns an error, this call panics. In the clauses, `S`
    /// and `T` are [`Entries`](crate::fallible::Entries).
    ///
    /// The builder gains one entry with this encoding, or the call returns an error and changes nothing. A full builder, with 2^32 - 1 entries, returns `TooLong`.
    ///
    /// ```text
    /// ensures { AddsTo S.model
    ///     (subsection_encoding 9 (list_encoding (T.model.joins names.now)))
    ///     (HasEncodableSize (list_encoding (T.model.joins names.now)) × ⊤) self.old self.new
    ///     result }
    /// ```
    ///
    /// Definitions: [`AddsTo`](crate::definitions::base::calls::AddsTo), [`subsection_encoding`](crate::definitions::custom::customs::subsection_encoding), [`list_encoding`](crate::definitions::custom::lists::list_encoding), [`HasEncodableSize`](crate::definitions::base::encodings::HasEncodableSize). [How to read clauses](crate::definitions).
    pub fn data(&mut self, names: &NameMap) {
        done(self.0.data(&names.0))
    }

    /// Adds the names of tags, as `tags` does.
    ///
    /// # Panics
    ///
    /// Panics if the builder has 4294967295 entries, or if a count or length would pass 4294967295.
    /// A failed allocation ends the program.
    ///
    /// # Proved
    ///
    /// The contract of [`fallible::NameSection::tag`](crate::fallible::NameSection#method.tag),
    /// which this call makes. Where that returns an error, this call panics. In the clauses, `S`
    /// and `T` are [`Entries`](crate::fallible::Entries).
    ///
    /// The builder gains one entry with this encoding, or the call returns an error and changes nothing. A full builder, with 2^32 - 1 entries, returns `TooLong`.
    ///
    /// ```text
    /// ensures { AddsTo S.model
    ///     (subsection_encoding 11 (list_encoding (T.model.joins names.now)))
    ///     (HasEncodableSize (list_encoding (T.model.joins names.now)) × ⊤) self.old self.new
    ///     result }
    /// ```
    ///
    /// Definitions: [`AddsTo`](crate::definitions::base::calls::AddsTo), [`subsection_encoding`](crate::definitions::custom::customs::subsection_encoding), [`list_encoding`](crate::definitions::custom::lists::list_encoding), [`HasEncodableSize`](crate::definitions::base::encodings::HasEncodableSize). [How to read clauses](crate::definitions).
    pub fn tag(&mut self, names: &NameMap) {
        done(self.0.tag(&names.0))
    }

    /// Adds the names of tags.
    ///
    /// # Panics
    ///
    /// Panics if the builder has 4294967295 entries, or if a count or length would pass 4294967295.
    /// A failed allocation ends the program.
    ///
    /// # Proved
    ///
    /// The contract of [`fallible::NameSection::tags`](crate::fallible::NameSection#method.tags),
    /// which this call makes. Where that returns an error, this call panics. In the clauses, `S`
    /// and `T` are [`Entries`](crate::fallible::Entries).
    ///
    /// The builder gains one entry with this encoding, or the call returns an error and changes nothing. A full builder, with 2^32 - 1 entries, returns `TooLong`.
    ///
    /// ```text
    /// ensures { AddsTo S.model
    ///     (subsection_encoding 11 (list_encoding (T.model.joins names.now)))
    ///     (HasEncodableSize (list_encoding (T.model.joins names.now)) × ⊤) self.old self.new
    ///     result }
    /// ```
    ///
    /// Definitions: [`AddsTo`](crate::definitions::base::calls::AddsTo), [`subsection_encoding`](crate::definitions::custom::customs::subsection_encoding), [`list_encoding`](crate::definitions::custom::lists::list_encoding), [`HasEncodableSize`](crate::definitions::base::encodings::HasEncodableSize). [How to read clauses](crate::definitions).
    pub fn tags(&mut self, names: &NameMap) {
        done(self.0.tags(&names.0))
    }

    /// Adds the names of the locals of functions, including parameters.
    ///
    /// # Panics
    ///
    /// Panics if the builder has 4294967295 entries, or if a count or length would pass 4294967295.
    /// A failed allocation ends the program.
    ///
    /// # Proved
    ///
    /// The contract of
    /// [`fallible::NameSection::locals`](crate::fallible::NameSection#method.locals), which this
    /// call makes. Where that returns an error, this call panics. In the clauses, `S` and `T` are
    /// [`Entries`](crate::fallible::Entries).
    ///
    /// The builder gains one entry with this encoding, or the call returns an error and changes nothing. A full builder, with 2^32 - 1 entries, returns `TooLong`.
    ///
    /// ```text
    /// ensures { AddsTo S.model
    ///     (subsection_encoding 2 (list_encoding (T.model.joins names.now)))
    ///     (HasEncodableSize (list_encoding (T.model.joins names.now)) × ⊤) self.old self.new
    ///     result }
    /// ```
    ///
    /// Definitions: [`AddsTo`](crate::definitions::base::calls::AddsTo), [`subsection_encoding`](crate::definitions::custom::customs::subsection_encoding), [`list_encoding`](crate::definitions::custom::lists::list_encoding), [`HasEncodableSize`](crate::definitions::base::encodings::HasEncodableSize). [How to read clauses](crate::definitions).
    pub fn locals(&mut self, names: &IndirectNameMap) {
        done(self.0.locals(&names.0))
    }

    /// Adds the names of the labels of functions.
    ///
    /// # Panics
    ///
    /// Panics if the builder has 4294967295 entries, or if a count or length would pass 4294967295.
    /// A failed allocation ends the program.
    ///
    /// # Proved
    ///
    /// The contract of
    /// [`fallible::NameSection::labels`](crate::fallible::NameSection#method.labels), which this
    /// call makes. Where that returns an error, this call panics. In the clauses, `S` and `T` are
    /// [`Entries`](crate::fallible::Entries).
    ///
    /// The builder gains one entry with this encoding, or the call returns an error and changes nothing. A full builder, with 2^32 - 1 entries, returns `TooLong`.
    ///
    /// ```text
    /// ensures { AddsTo S.model
    ///     (subsection_encoding 3 (list_encoding (T.model.joins names.now)))
    ///     (HasEncodableSize (list_encoding (T.model.joins names.now)) × ⊤) self.old self.new
    ///     result }
    /// ```
    ///
    /// Definitions: [`AddsTo`](crate::definitions::base::calls::AddsTo), [`subsection_encoding`](crate::definitions::custom::customs::subsection_encoding), [`list_encoding`](crate::definitions::custom::lists::list_encoding), [`HasEncodableSize`](crate::definitions::base::encodings::HasEncodableSize). [How to read clauses](crate::definitions).
    pub fn labels(&mut self, names: &IndirectNameMap) {
        done(self.0.labels(&names.0))
    }

    /// Adds the names of the fields of types.
    ///
    /// # Panics
    ///
    /// Panics if the builder has 4294967295 entries, or if a count or length would pass 4294967295.
    /// A failed allocation ends the program.
    ///
    /// # Proved
    ///
    /// The contract of
    /// [`fallible::NameSection::fields`](crate::fallible::NameSection#method.fields), which this
    /// call makes. Where that returns an error, this call panics. In the clauses, `S` and `T` are
    /// [`Entries`](crate::fallible::Entries).
    ///
    /// The builder gains one entry with this encoding, or the call returns an error and changes nothing. A full builder, with 2^32 - 1 entries, returns `TooLong`.
    ///
    /// ```text
    /// ensures { AddsTo S.model
    ///     (subsection_encoding 10 (list_encoding (T.model.joins names.now)))
    ///     (HasEncodableSize (list_encoding (T.model.joins names.now)) × ⊤) self.old self.new
    ///     result }
    /// ```
    ///
    /// Definitions: [`AddsTo`](crate::definitions::base::calls::AddsTo), [`subsection_encoding`](crate::definitions::custom::customs::subsection_encoding), [`list_encoding`](crate::definitions::custom::lists::list_encoding), [`HasEncodableSize`](crate::definitions::base::encodings::HasEncodableSize). [How to read clauses](crate::definitions).
    pub fn fields(&mut self, names: &IndirectNameMap) {
        done(self.0.fields(&names.0))
    }

    /// Adds the names of the parameters of function types.
    ///
    /// # Panics
    ///
    /// Panics if the builder has 4294967295 entries, or if a count or length would pass 4294967295.
    /// A failed allocation ends the program.
    ///
    /// # Proved
    ///
    /// The contract of
    /// [`fallible::NameSection::parameters`](crate::fallible::NameSection#method.parameters), which
    /// this call makes. Where that returns an error, this call panics. In the clauses, `S` and `T`
    /// are [`Entries`](crate::fallible::Entries).
    ///
    /// The builder gains one entry with this encoding, or the call returns an error and changes nothing. A full builder, with 2^32 - 1 entries, returns `TooLong`.
    ///
    /// ```text
    /// ensures { AddsTo S.model
    ///     (subsection_encoding 12 (list_encoding (T.model.joins names.now)))
    ///     (HasEncodableSize (list_encoding (T.model.joins names.now)) × ⊤) self.old self.new
    ///     result }
    /// ```
    ///
    /// Definitions: [`AddsTo`](crate::definitions::base::calls::AddsTo), [`subsection_encoding`](crate::definitions::custom::customs::subsection_encoding), [`list_encoding`](crate::definitions::custom::lists::list_encoding), [`HasEncodableSize`](crate::definitions::base::encodings::HasEncodableSize). [How to read clauses](crate::definitions).
    pub fn parameters(&mut self, names: &IndirectNameMap) {
        done(self.0.parameters(&names.0))
    }

    /// Adds the names of the parameters of tags.
    ///
    /// # Panics
    ///
    /// Panics if the builder has 4294967295 entries, or if a count or length would pass 4294967295.
    /// A failed allocation ends the program.
    ///
    /// # Proved
    ///
    /// The contract of
    /// [`fallible::NameSection::tag_parameters`](crate::fallible::NameSection#method.tag_parameters),
    /// which this call makes. Where that returns an error, this call panics. In the clauses, `S`
    /// and `T` are [`Entries`](crate::fallible::Entries).
    ///
    /// The builder gains one entry with this encoding, or the call returns an error and changes nothing. A full builder, with 2^32 - 1 entries, returns `TooLong`.
    ///
    /// ```text
    /// ensures { AddsTo S.model
    ///     (subsection_encoding 13 (list_encoding (T.model.joins names.now)))
    ///     (HasEncodableSize (list_encoding (T.model.joins names.now)) × ⊤) self.old self.new
    ///     result }
    /// ```
    ///
    /// Definitions: [`AddsTo`](crate::definitions::base::calls::AddsTo), [`subsection_encoding`](crate::definitions::custom::customs::subsection_encoding), [`list_encoding`](crate::definitions::custom::lists::list_encoding), [`HasEncodableSize`](crate::definitions::base::encodings::HasEncodableSize). [How to read clauses](crate::definitions).
    pub fn tag_parameters(&mut self, names: &IndirectNameMap) {
        done(self.0.tag_parameters(&names.0))
    }

    /// Adds a subsection of this id, whose content is already encoded. The call does not check the
    /// content.
    ///
    /// The size prefix is added.
    ///
    /// # Panics
    ///
    /// Panics if the builder has 4294967295 entries, or if a count or length would pass 4294967295.
    /// A failed allocation ends the program.
    ///
    /// # Proved
    ///
    /// The contract of [`fallible::NameSection::raw`](crate::fallible::NameSection#method.raw),
    /// which this call makes. Where that returns an error, this call panics. In the clauses, `S` is
    /// [`Entries`](crate::fallible::Entries), and `content` is `data`.
    ///
    /// The builder gains one entry with this encoding, or the call returns an error and changes nothing. A full builder, with 2^32 - 1 entries, returns `TooLong`.
    ///
    /// ```text
    /// ensures { AddsTo S.model (subsection_encoding id content.now)
    ///     (HasEncodableSize content.now × ⊤) self.old self.new result }
    /// ```
    ///
    /// Definitions: [`AddsTo`](crate::definitions::base::calls::AddsTo), [`subsection_encoding`](crate::definitions::custom::customs::subsection_encoding), [`HasEncodableSize`](crate::definitions::base::encodings::HasEncodableSize). [How to read clauses](crate::definitions).
    pub fn raw(&mut self, id: u8, data: &[u8]) {
        done(self.0.raw(id, data))
    }

    /// Returns the section as a custom section that borrows the entries, and allocates nothing.
    ///
    /// # Proved
    ///
    /// The contract of
    /// [`fallible::NameSection::as_custom`](crate::fallible::NameSection#method.as_custom), which
    /// this call makes. In the clauses, `S` is [`Entries`](crate::fallible::Entries).
    ///
    /// ```text
    /// ensures name { utf8_of result.name ≡ name_name }
    /// ensures bytes { items_of result.bytes ≡ (S.model.joins self.now).content }
    /// ```
    ///
    /// Definitions: [`utf8_of`](crate::definitions::base::cow::utf8_of), [`name_name`](crate::definitions::custom::names::name_name), [`items_of`](crate::definitions::base::cow::items_of). [How to read clauses](crate::definitions).
    pub fn as_custom<'a>(&'a self) -> CustomSection<'a> {
        self.0.as_custom().into()
    }
}

impl LinkingSection {
    /// Adds the symbols.
    ///
    /// # Panics
    ///
    /// Panics if the builder has 4294967295 entries, or if a count or length would pass 4294967295.
    /// A failed allocation ends the program.
    ///
    /// # Proved
    ///
    /// The contract of
    /// [`fallible::LinkingSection::symbol_table`](crate::fallible::LinkingSection#method.symbol_table),
    /// which this call makes. Where that returns an error, this call panics. In the clauses, `S`
    /// and `T` are [`Entries`](crate::fallible::Entries), and `symbols` is `symbol_table`.
    ///
    /// The builder gains one entry with this encoding, or the call returns an error and changes nothing. A full builder, with 2^32 - 1 entries, returns `TooLong`.
    ///
    /// ```text
    /// ensures { AddsTo S.model
    ///     (subsection_encoding 8 (list_encoding (T.model.joins symbols.now)))
    ///     (HasEncodableSize (list_encoding (T.model.joins symbols.now)) × ⊤) self.old self.new
    ///     result }
    /// ```
    ///
    /// Definitions: [`AddsTo`](crate::definitions::base::calls::AddsTo), [`subsection_encoding`](crate::definitions::custom::customs::subsection_encoding), [`list_encoding`](crate::definitions::custom::lists::list_encoding), [`HasEncodableSize`](crate::definitions::base::encodings::HasEncodableSize). [How to read clauses](crate::definitions).
    pub fn symbol_table(&mut self, symbol_table: &SymbolTable) -> &mut Self {
        done(self.0.symbol_table(&symbol_table.0));
        self
    }

    /// Adds the architecture of the target.
    ///
    /// # Panics
    ///
    /// Panics if the builder has 4294967295 entries, or if a count or length would pass 4294967295.
    /// A failed allocation ends the program.
    ///
    /// # Proved
    ///
    /// The contract of
    /// [`fallible::LinkingSection::target_arch`](crate::fallible::LinkingSection#method.target_arch),
    /// which this call makes. Where that returns an error, this call panics. In the clauses, `S` is
    /// [`Entries`](crate::fallible::Entries), and `name` is `arch`.
    ///
    /// The builder gains one entry with this encoding, or the call returns an error and changes nothing. A full builder, with 2^32 - 1 entries, returns `TooLong`.
    ///
    /// ```text
    /// ensures { AddsTo S.model (subsection_encoding 9 (size_prefixed_encoding name.now))
    ///     (HasEncodableSize (size_prefixed_encoding name.now) × HasEncodableSize name.now)
    ///     self.old self.new result }
    /// ```
    ///
    /// Definitions: [`AddsTo`](crate::definitions::base::calls::AddsTo), [`subsection_encoding`](crate::definitions::custom::customs::subsection_encoding), [`size_prefixed_encoding`](crate::definitions::base::encodings::size_prefixed_encoding), [`HasEncodableSize`](crate::definitions::base::encodings::HasEncodableSize). [How to read clauses](crate::definitions).
    pub fn target_arch(&mut self, arch: &str) -> &mut Self {
        done(self.0.target_arch(arch));
        self
    }
}

impl SymbolTable {
    /// A definition elsewhere replaces this one.
    pub const WASM_SYM_BINDING_WEAK: u32 = custom::SymbolTable::WASM_SYM_BINDING_WEAK;

    /// The symbol is visible in this module only.
    pub const WASM_SYM_BINDING_LOCAL: u32 = custom::SymbolTable::WASM_SYM_BINDING_LOCAL;

    /// The symbol is not exported from the linked module.
    pub const WASM_SYM_VISIBILITY_HIDDEN: u32 = custom::SymbolTable::WASM_SYM_VISIBILITY_HIDDEN;

    /// The symbol is not defined in this module.
    pub const WASM_SYM_UNDEFINED: u32 = custom::SymbolTable::WASM_SYM_UNDEFINED;

    /// The symbol is exported from the linked module.
    pub const WASM_SYM_EXPORTED: u32 = custom::SymbolTable::WASM_SYM_EXPORTED;

    /// The symbol has an explicit name, even if it is imported.
    pub const WASM_SYM_EXPLICIT_NAME: u32 = custom::SymbolTable::WASM_SYM_EXPLICIT_NAME;

    /// The symbol stays in the linked module, even if nothing uses it.
    pub const WASM_SYM_NO_STRIP: u32 = custom::SymbolTable::WASM_SYM_NO_STRIP;

    /// Adds a function. A function has a name if it is defined here, or if `flags` say that its
    /// name is explicit. The call does not check that `name` agrees.
    ///
    /// # Panics
    ///
    /// Panics if the builder has 4294967295 entries, or if a count or length would pass 4294967295.
    /// A failed allocation ends the program.
    ///
    /// # Proved
    ///
    /// The contract of
    /// [`fallible::SymbolTable::function`](crate::fallible::SymbolTable#method.function), which
    /// this call makes. Where that returns an error, this call panics. In the clauses, `S` is
    /// [`Entries`](crate::fallible::Entries).
    ///
    /// The builder gains one entry with this encoding, or the call returns an error and changes nothing. A full builder, with 2^32 - 1 entries, returns `TooLong`.
    ///
    /// ```text
    /// ensures { AddsTo S.model
    ///     (indexed_encoding kinds.Function flags index
    ///         (optional_encoding (λ n. size_prefixed_encoding n.now) name.entry))
    ///     (IfSome name.entry (λ n. HasEncodableSize n.now)) self.old self.new result }
    /// ```
    ///
    /// Definitions: [`AddsTo`](crate::definitions::base::calls::AddsTo), [`indexed_encoding`](crate::definitions::custom::symbols::indexed_encoding), [`optional_encoding`](crate::definitions::base::encodings::optional_encoding), [`size_prefixed_encoding`](crate::definitions::base::encodings::size_prefixed_encoding), [`HasEncodableSize`](crate::definitions::base::encodings::HasEncodableSize). [How to read clauses](crate::definitions).
    pub fn function(&mut self, flags: u32, index: u32, name: Option<&str>) -> &mut Self {
        done(self.0.function(flags, index, name));
        self
    }

    /// Adds a global. It has a name in the same cases as in `function`.
    ///
    /// # Panics
    ///
    /// Panics if the builder has 4294967295 entries, or if a count or length would pass 4294967295.
    /// A failed allocation ends the program.
    ///
    /// # Proved
    ///
    /// The contract of
    /// [`fallible::SymbolTable::global`](crate::fallible::SymbolTable#method.global), which this
    /// call makes. Where that returns an error, this call panics. In the clauses, `S` is
    /// [`Entries`](crate::fallible::Entries).
    ///
    /// The builder gains one entry with this encoding, or the call returns an error and changes nothing. A full builder, with 2^32 - 1 entries, returns `TooLong`.
    ///
    /// ```text
    /// ensures { AddsTo S.model
    ///     (indexed_encoding kinds.Global flags index
    ///         (optional_encoding (λ n. size_prefixed_encoding n.now) name.entry))
    ///     (IfSome name.entry (λ n. HasEncodableSize n.now)) self.old self.new result }
    /// ```
    ///
    /// Definitions: [`AddsTo`](crate::definitions::base::calls::AddsTo), [`indexed_encoding`](crate::definitions::custom::symbols::indexed_encoding), [`optional_encoding`](crate::definitions::base::encodings::optional_encoding), [`size_prefixed_encoding`](crate::definitions::base::encodings::size_prefixed_encoding), [`HasEncodableSize`](crate::definitions::base::encodings::HasEncodableSize). [How to read clauses](crate::definitions).
    pub fn global(&mut self, flags: u32, index: u32, name: Option<&str>) -> &mut Self {
        done(self.0.global(flags, index, name));
        self
    }

    /// Adds a table. It has a name in the same cases as in `function`.
    ///
    /// # Panics
    ///
    /// Panics if the builder has 4294967295 entries, or if a count or length would pass 4294967295.
    /// A failed allocation ends the program.
    ///
    /// # Proved
    ///
    /// The contract of [`fallible::SymbolTable::table`](crate::fallible::SymbolTable#method.table),
    /// which this call makes. Where that returns an error, this call panics. In the clauses, `S` is
    /// [`Entries`](crate::fallible::Entries).
    ///
    /// The builder gains one entry with this encoding, or the call returns an error and changes nothing. A full builder, with 2^32 - 1 entries, returns `TooLong`.
    ///
    /// ```text
    /// ensures { AddsTo S.model
    ///     (indexed_encoding kinds.Table flags index
    ///         (optional_encoding (λ n. size_prefixed_encoding n.now) name.entry))
    ///     (IfSome name.entry (λ n. HasEncodableSize n.now)) self.old self.new result }
    /// ```
    ///
    /// Definitions: [`AddsTo`](crate::definitions::base::calls::AddsTo), [`indexed_encoding`](crate::definitions::custom::symbols::indexed_encoding), [`optional_encoding`](crate::definitions::base::encodings::optional_encoding), [`size_prefixed_encoding`](crate::definitions::base::encodings::size_prefixed_encoding), [`HasEncodableSize`](crate::definitions::base::encodings::HasEncodableSize). [How to read clauses](crate::definitions).
    pub fn table(&mut self, flags: u32, index: u32, name: Option<&str>) -> &mut Self {
        done(self.0.table(flags, index, name));
        self
    }

    /// Adds data. Data have a definition unless `flags` say that they are undefined. The call does
    /// not check that `definition` agrees.
    ///
    /// # Panics
    ///
    /// Panics if the builder has 4294967295 entries, or if a count or length would pass 4294967295.
    /// A failed allocation ends the program.
    ///
    /// # Proved
    ///
    /// The contract of [`fallible::SymbolTable::data`](crate::fallible::SymbolTable#method.data),
    /// which this call makes. Where that returns an error, this call panics. In the clauses, `S` is
    /// [`Entries`](crate::fallible::Entries).
    ///
    /// The builder gains one entry with this encoding, or the call returns an error and changes nothing. A full builder, with 2^32 - 1 entries, returns `TooLong`.
    ///
    /// ```text
    /// ensures { AddsTo S.model
    ///     (of_data_encoding flags name.now (optional_encoding definition_encoding definition))
    ///     (HasEncodableSize name.now) self.old self.new result }
    /// ```
    ///
    /// Definitions: [`AddsTo`](crate::definitions::base::calls::AddsTo), [`of_data_encoding`](crate::definitions::custom::symbols::of_data_encoding), [`optional_encoding`](crate::definitions::base::encodings::optional_encoding), [`definition_encoding`](crate::definitions::custom::symbols::definition_encoding), [`HasEncodableSize`](crate::definitions::base::encodings::HasEncodableSize). [How to read clauses](crate::definitions).
    pub fn data(
        &mut self,
        flags: u32,
        name: &str,
        definition: Option<DataSymbolDefinition>,
    ) -> &mut Self {
        done(self.0.data(flags, name, definition));
        self
    }
}

impl ProducersSection {
    /// Adds a field, such as `language`, `processed-by` or `sdk`.
    ///
    /// # Panics
    ///
    /// Panics if the builder has 4294967295 entries, or if a count or length would pass 4294967295.
    /// A failed allocation ends the program.
    ///
    /// # Proved
    ///
    /// The contract of
    /// [`fallible::ProducersSection::field`](crate::fallible::ProducersSection#method.field), which
    /// this call makes. Where that returns an error, this call panics. In the clauses, `S` and `T`
    /// are [`Entries`](crate::fallible::Entries).
    ///
    /// The builder gains one entry with this encoding, or the call returns an error and changes nothing. A full builder, with 2^32 - 1 entries, returns `TooLong`.
    ///
    /// ```text
    /// ensures { AddsTo S.model
    ///     (size_prefixed_encoding name.now ++ list_encoding (T.model.joins values.now))
    ///     (HasEncodableSize name.now × ⊤) self.old self.new result }
    /// ```
    ///
    /// Definitions: [`AddsTo`](crate::definitions::base::calls::AddsTo), [`size_prefixed_encoding`](crate::definitions::base::encodings::size_prefixed_encoding), [`list_encoding`](crate::definitions::custom::lists::list_encoding), [`HasEncodableSize`](crate::definitions::base::encodings::HasEncodableSize). [How to read clauses](crate::definitions).
    pub fn field(&mut self, name: &str, values: &ProducersField) -> &mut Self {
        done(self.0.field(name, &values.0));
        self
    }
}

impl ProducersField {
    /// Adds a value.
    ///
    /// # Panics
    ///
    /// Panics if the builder has 4294967295 entries, or if a count or length would pass 4294967295.
    /// A failed allocation ends the program.
    ///
    /// # Proved
    ///
    /// The contract of
    /// [`fallible::ProducersField::value`](crate::fallible::ProducersField#method.value), which
    /// this call makes. Where that returns an error, this call panics. In the clauses, `S` is
    /// [`Entries`](crate::fallible::Entries).
    ///
    /// The builder gains one entry with this encoding, or the call returns an error and changes nothing. A full builder, with 2^32 - 1 entries, returns `TooLong`.
    ///
    /// ```text
    /// ensures { AddsTo S.model
    ///     (size_prefixed_encoding name.now ++ size_prefixed_encoding version.now)
    ///     (HasEncodableSize name.now × HasEncodableSize version.now) self.old self.new result
    ///     }
    /// ```
    ///
    /// Definitions: [`AddsTo`](crate::definitions::base::calls::AddsTo), [`size_prefixed_encoding`](crate::definitions::base::encodings::size_prefixed_encoding), [`HasEncodableSize`](crate::definitions::base::encodings::HasEncodableSize). [How to read clauses](crate::definitions).
    pub fn value(&mut self, name: &str, version: &str) -> &mut Self {
        done(self.0.value(name, version));
        self
    }
}

impl BranchHints {
    /// Returns the number of entries.
    ///
    /// # Proved
    ///
    /// The contract of [`fallible::BranchHints::len`](crate::fallible::BranchHints#method.len),
    /// which this call makes. In the clauses, `S` is [`Entries`](crate::fallible::Entries).
    ///
    /// ```text
    /// ensures { result ≡ (S.model.joins self.now).number }
    /// ```
    ///
    /// [How to read clauses](crate::definitions).
    pub fn len(&self) -> u32 {
        self.0.len()
    }

    /// Returns `true` if there are no entries.
    ///
    /// # Proved
    ///
    /// The contract of
    /// [`fallible::BranchHints::is_empty`](crate::fallible::BranchHints#method.is_empty), which
    /// this call makes. In the clauses, `S` is [`Entries`](crate::fallible::Entries).
    ///
    /// ```text
    /// ensures { IsTrue result ↔ ((S.model.joins self.now).number ≡ 0) }
    /// ```
    ///
    /// [How to read clauses](crate::definitions).
    pub fn is_empty(&self) -> bool {
        self.0.is_empty()
    }

    /// Adds the hints of a function.
    ///
    /// If there are more than 4294967295 hints, the call panics and requests none of
    /// them, as tests show.
    ///
    /// Add functions in the order of indices, and the hints in the order of offsets: the call does
    /// not
    /// check it.
    ///
    /// # Panics
    ///
    /// Panics if the builder has 4294967295 entries, or if a count or length would pass 4294967295.
    /// A failed allocation ends the program.
    ///
    /// # Asks
    ///
    /// The iterator ends, and yields as many items as it reports. [What happens otherwise](crate::fallible#what-is-asked).
    ///
    /// ```text
    /// requires { HasKnownLength H.into_iter_gives H.IntoIter.can_next H.IntoIter.next_gives
    ///     H.IntoIter.remaining hints }
    /// ```
    ///
    /// Definitions: [`HasKnownLength`](crate::definitions::base::iterators::HasKnownLength). [How to read clauses](crate::definitions).
    ///
    /// # Proved
    ///
    /// The contract of
    /// [`fallible::BranchHints::function_hints`](crate::fallible::BranchHints#method.function_hints),
    /// which this call makes. Where that returns an error, this call panics. In the clauses, `S` is
    /// [`Entries`](crate::fallible::Entries), and `H` is `I`.
    ///
    /// The builder gains one entry of the items that the iterator yields, or the call returns an error and changes nothing. It returns `TooLong` if there are too many items, and never if all items fit and items and entries are few enough.
    ///
    /// ```text
    /// ensures { AddsList S.model H.into_iter_gives H.IntoIter.next_gives H.IntoIter.remaining
    ///     hints (λ _. ⊤) (λ items. unsigned_encoding func ++ vec_encoding hint_encoding items)
    ///     self.old self.new result }
    /// ```
    ///
    /// Definitions: [`AddsList`](crate::definitions::custom::adding::AddsList), [`unsigned_encoding`](crate::definitions::base::numbers::unsigned_encoding), [`vec_encoding`](crate::definitions::base::encodings::vec_encoding), [`hint_encoding`](crate::definitions::custom::hints::hint_encoding). [How to read clauses](crate::definitions).
    pub fn function_hints<I>(&mut self, func: u32, hints: I)
    where
        I: IntoIterator<Item = BranchHint>,
        I::IntoIter: ExactSizeIterator,
    {
        done(self.0.function_hints(func, hints))
    }
}

#[allow(clippy::len_without_is_empty, reason = "the Rust crate has none")]
impl CoreDumpModulesSection {
    /// Returns the number of entries.
    ///
    /// # Proved
    ///
    /// The contract of
    /// [`fallible::CoreDumpModulesSection::len`](crate::fallible::CoreDumpModulesSection#method.len),
    /// which this call makes. In the clauses, `S` is [`Entries`](crate::fallible::Entries).
    ///
    /// ```text
    /// ensures { result ≡ (S.model.joins self.now).number }
    /// ```
    ///
    /// [How to read clauses](crate::definitions).
    pub fn len(&self) -> u32 {
        self.0.len()
    }

    /// Returns the section as a custom section, which owns a copy of the data.
    ///
    /// # Proved
    ///
    /// The contract of
    /// [`fallible::CoreDumpModulesSection::as_custom`](crate::fallible::CoreDumpModulesSection#method.as_custom),
    /// which this call makes. Where that returns an error, this call ends the program. In the
    /// clauses, `S` is [`Entries`](crate::fallible::Entries).
    ///
    /// In any case: `memory`, no error is `TooLong`.
    ///
    /// ```text
    /// ensures same { IfOk result
    ///     (λ s. (utf8_of s.name ≡ modules_name)
    ///         × (items_of s.bytes ≡ joined_data [] true (S.model.joins self.now))) }
    /// ensures memory { result ≢ Err TooLong }
    /// ```
    ///
    /// Definitions: [`utf8_of`](crate::definitions::base::cow::utf8_of), [`modules_name`](crate::definitions::custom::core_dumps::modules_name), [`items_of`](crate::definitions::base::cow::items_of), [`joined_data`](crate::definitions::custom::entries::joined_data). [How to read clauses](crate::definitions).
    pub fn as_custom(&self) -> CustomSection<'_> {
        done(self.0.as_custom(Global)).into()
    }

    /// Adds a module.
    ///
    /// # Panics
    ///
    /// Panics if the builder has 4294967295 entries, or if a count or length would pass 4294967295.
    /// A failed allocation ends the program.
    ///
    /// # Proved
    ///
    /// The contract of
    /// [`fallible::CoreDumpModulesSection::module`](crate::fallible::CoreDumpModulesSection#method.module),
    /// which this call makes. Where that returns an error, this call panics. In the clauses, `S` is
    /// [`Entries`](crate::fallible::Entries), and `name` is `module_name`.
    ///
    /// The builder gains one entry with this encoding, or the call returns an error and changes nothing. A full builder, with 2^32 - 1 entries, returns `TooLong`.
    ///
    /// ```text
    /// ensures { AddsTo S.model (marked_encoding name.now)
    ///     (⊤ × HasEncodableSize name.now) self.old self.new result }
    /// ```
    ///
    /// Definitions: [`AddsTo`](crate::definitions::base::calls::AddsTo), [`marked_encoding`](crate::definitions::custom::core_dumps::marked_encoding), [`HasEncodableSize`](crate::definitions::base::encodings::HasEncodableSize). [How to read clauses](crate::definitions).
    pub fn module(&mut self, module_name: impl AsRef<str>) -> &mut Self {
        done(self.0.module(module_name.as_ref()));
        self
    }
}

#[allow(clippy::len_without_is_empty, reason = "the Rust crate has none")]
impl CoreDumpInstancesSection {
    /// Returns the number of entries.
    ///
    /// # Proved
    ///
    /// The contract of
    /// [`fallible::CoreDumpInstancesSection::len`](crate::fallible::CoreDumpInstancesSection#method.len),
    /// which this call makes. In the clauses, `S` is [`Entries`](crate::fallible::Entries).
    ///
    /// ```text
    /// ensures { result ≡ (S.model.joins self.now).number }
    /// ```
    ///
    /// [How to read clauses](crate::definitions).
    pub fn len(&self) -> u32 {
        self.0.len()
    }

    /// Returns the section as a custom section, which owns a copy of the data.
    ///
    /// # Proved
    ///
    /// The contract of
    /// [`fallible::CoreDumpInstancesSection::as_custom`](crate::fallible::CoreDumpInstancesSection#method.as_custom),
    /// which this call makes. Where that returns an error, this call ends the program. In the
    /// clauses, `S` is [`Entries`](crate::fallible::Entries).
    ///
    /// In any case: `memory`, no error is `TooLong`.
    ///
    /// ```text
    /// ensures same { IfOk result
    ///     (λ s. (utf8_of s.name ≡ instances_name)
    ///         × (items_of s.bytes ≡ joined_data [] true (S.model.joins self.now))) }
    /// ensures memory { result ≢ Err TooLong }
    /// ```
    ///
    /// Definitions: [`utf8_of`](crate::definitions::base::cow::utf8_of), [`instances_name`](crate::definitions::custom::core_dumps::instances_name), [`items_of`](crate::definitions::base::cow::items_of), [`joined_data`](crate::definitions::custom::entries::joined_data). [How to read clauses](crate::definitions).
    pub fn as_custom(&self) -> CustomSection<'_> {
        done(self.0.as_custom(Global)).into()
    }

    /// Adds an instance of the module, with these memories and globals.
    ///
    /// The memories are finished before the globals are made and measured.
    ///
    /// # Panics
    ///
    /// Panics if the builder has 4294967295 entries, or if a count or length would pass 4294967295.
    /// A failed allocation ends the program.
    ///
    /// # Asks
    ///
    /// The iterator ends, and yields as many items as it reports. [What happens otherwise](crate::fallible#what-is-asked).
    ///
    /// ```text
    /// requires memories { HasKnownLength M.into_iter_gives M.IntoIter.can_next
    ///     M.IntoIter.next_gives M.IntoIter.remaining memories }
    /// requires globals { HasKnownLength G.into_iter_gives G.IntoIter.can_next
    ///     G.IntoIter.next_gives G.IntoIter.remaining globals }
    /// ```
    ///
    /// Definitions: [`HasKnownLength`](crate::definitions::base::iterators::HasKnownLength). [How to read clauses](crate::definitions).
    ///
    /// # Proved
    ///
    /// The contract of
    /// [`fallible::CoreDumpInstancesSection::instance`](crate::fallible::CoreDumpInstancesSection#method.instance).
    /// This call does the same, as tests show. Where that returns an error, this call panics. In
    /// the clauses, `S` is [`Entries`](crate::fallible::Entries).
    ///
    /// The builder gains one entry of the items that both iterators yield, or the call returns an error and changes nothing. It returns `TooLong` if either has too many items, and never if all items fit and items and entries are few enough.
    ///
    /// ```text
    /// ensures { AddsTwoLists S.model M.into_iter_gives M.IntoIter.next_gives
    ///     M.IntoIter.remaining memories G.into_iter_gives G.IntoIter.next_gives
    ///     G.IntoIter.remaining globals (λ _. ⊤) (λ _. ⊤)
    ///     (λ xs ys. (0x00 ∷ unsigned_encoding module_index)
    ///         ++ (vec_encoding unsigned_encoding xs ++ vec_encoding unsigned_encoding ys))
    ///         self.old self.new result }
    /// ```
    ///
    /// Definitions: [`AddsTwoLists`](crate::definitions::custom::adding::AddsTwoLists), [`unsigned_encoding`](crate::definitions::base::numbers::unsigned_encoding), [`vec_encoding`](crate::definitions::base::encodings::vec_encoding). [How to read clauses](crate::definitions).
    #[inline]
    pub fn instance<M, G>(&mut self, module_index: u32, memories: M, globals: G) -> &mut Self
    where
        M: IntoIterator<Item = u32>,
        <M as IntoIterator>::IntoIter: ExactSizeIterator,
        G: IntoIterator<Item = u32>,
        <G as IntoIterator>::IntoIter: ExactSizeIterator,
    {
        done(self.0.add_once(((MARK, module_index), Later(memories), Later(globals))));
        self
    }
}

impl CoreDumpSection {
    /// Returns the section of the process of this name.
    ///
    /// # Panics
    ///
    /// Panics if a count or length would pass 4294967295. A failed allocation ends the program.
    ///
    /// # Proved
    ///
    /// The contract of
    /// [`fallible::CoreDumpSection::new`](crate::fallible::CoreDumpSection#method.new), which this
    /// call makes. Where that returns an error, this call panics.
    ///
    /// - After `Ok`, `is`: the section is that of a process of this name.
    /// - After `Ok`, `was_encodable`: The size of the bytes is at most 2^32 - 1.
    /// - `too_long`: a name of at most 4294967295 bytes never gives `TooLong`.
    ///
    /// ```text
    /// ensures is { IfOk result (λ s. s ≡ marked_encoding name.now) }
    /// ensures was_encodable { IfOk result (λ _. HasEncodableSize name.now) }
    /// ensures too_long { HasEncodableSize name.now → result ≢ Err TooLong }
    /// ```
    ///
    /// Definitions: [`marked_encoding`](crate::definitions::custom::core_dumps::marked_encoding), [`HasEncodableSize`](crate::definitions::base::encodings::HasEncodableSize). [How to read clauses](crate::definitions).
    pub fn new(name: impl Into<String>) -> Self {
        CoreDumpSection(done(custom::CoreDumpSection::new(Global, &name.into())))
    }
}

impl CoreDumpStackSection {
    /// Returns the stack of the thread of this name, without frames.
    ///
    /// # Panics
    ///
    /// Panics if a count or length would pass 4294967295. A failed allocation ends the program.
    ///
    /// # Proved
    ///
    /// The contract of
    /// [`fallible::CoreDumpStackSection::new`](crate::fallible::CoreDumpStackSection#method.new),
    /// which this call makes. Where that returns an error, this call panics. In the clauses,
    /// `thread_name` is `name`.
    ///
    /// - After `Ok`, `is`: the section has this name of a thread, and no frames.
    /// - After `Ok`, `was_encodable`: The size of the bytes is at most 2^32 - 1.
    /// - `too_long`: a name of at most 4294967295 bytes never gives `TooLong`.
    ///
    /// ```text
    /// ensures is { IfOk result (λ s. s ≡ (marked_encoding thread_name.now, E.none)) }
    /// ensures was_encodable { IfOk result (λ _. HasEncodableSize thread_name.now) }
    /// ensures too_long { HasEncodableSize thread_name.now → result ≢ Err TooLong }
    /// ```
    ///
    /// Definitions: [`marked_encoding`](crate::definitions::custom::core_dumps::marked_encoding), [`HasEncodableSize`](crate::definitions::base::encodings::HasEncodableSize). [How to read clauses](crate::definitions).
    pub fn new(name: impl Into<String>) -> Self {
        CoreDumpStackSection(done(custom::joined::CoreDumpStackSection::new(Root, &name.into())))
    }

    /// Adds a stack frame: its instance and function, the offset in the function, its locals, and
    /// its operand stack.
    ///
    /// The locals are finished before the stack is made and measured.
    ///
    /// # Panics
    ///
    /// Panics if the builder has 4294967295 entries, or if a count or length would pass 4294967295.
    /// A failed allocation ends the program.
    ///
    /// # Asks
    ///
    /// The iterator ends, and yields as many items as it reports. [What happens otherwise](crate::fallible#what-is-asked).
    ///
    /// ```text
    /// requires locals { HasKnownLength L.into_iter_gives L.IntoIter.can_next
    ///     L.IntoIter.next_gives L.IntoIter.remaining locals }
    /// requires stack { HasKnownLength S.into_iter_gives S.IntoIter.can_next
    ///     S.IntoIter.next_gives S.IntoIter.remaining stack }
    /// ```
    ///
    /// Definitions: [`HasKnownLength`](crate::definitions::base::iterators::HasKnownLength). [How to read clauses](crate::definitions).
    ///
    /// # Proved
    ///
    /// The contract of
    /// [`fallible::CoreDumpStackSection::frame`](crate::fallible::CoreDumpStackSection#method.frame).
    /// This call does the same, as tests show. Where that returns an error, this call panics. In
    /// the clauses, `E` is [`Entries`](crate::fallible::Entries).
    ///
    /// - `adds`: The builder gains one entry of the items that both iterators yield, or the call returns an error and changes nothing. It returns `TooLong` if either has too many items, and never if all items fit and items and entries are few enough.
    /// - `same_thread`: the part before the entries is unchanged.
    ///
    /// ```text
    /// ensures adds { AddsTwoLists E.model L.into_iter_gives L.IntoIter.next_gives
    ///     L.IntoIter.remaining locals S.into_iter_gives S.IntoIter.next_gives
    ///     S.IntoIter.remaining stack (λ _. ⊤) (λ _. ⊤)
    ///     (λ xs ys. (0x00 ∷ (unsigned_encoding instanceidx
    ///                 ++ (unsigned_encoding funcidx ++ unsigned_encoding codeoffset)))
    ///         ++ (vec_encoding value_encoding xs ++ vec_encoding value_encoding ys))
    ///         self.old.1 self.new.1 result }
    /// ensures same_thread { self.new.0 ≡ self.old.0 }
    /// ```
    ///
    /// Definitions: [`AddsTwoLists`](crate::definitions::custom::adding::AddsTwoLists), [`unsigned_encoding`](crate::definitions::base::numbers::unsigned_encoding), [`vec_encoding`](crate::definitions::base::encodings::vec_encoding), [`value_encoding`](crate::definitions::custom::core_values::value_encoding). [How to read clauses](crate::definitions).
    pub fn frame<L, S>(
        &mut self,
        instanceidx: u32,
        funcidx: u32,
        codeoffset: u32,
        locals: L,
        stack: S,
    ) -> &mut Self
    where
        L: IntoIterator<Item = CoreDumpValue>,
        <L as IntoIterator>::IntoIter: ExactSizeIterator,
        S: IntoIterator<Item = CoreDumpValue>,
        <S as IntoIterator>::IntoIter: ExactSizeIterator,
    {
        done(self.0.frames.add_item_once(((MARK, (instanceidx, funcidx, codeoffset)), Later(locals), Later(stack))));
        self
    }

    /// Returns the section as a custom section, which owns a copy of the data.
    ///
    /// # Proved
    ///
    /// The contract of
    /// [`fallible::CoreDumpStackSection::as_custom`](crate::fallible::CoreDumpStackSection#method.as_custom),
    /// which this call makes. Where that returns an error, this call ends the program. In the
    /// clauses, `E` is [`Entries`](crate::fallible::Entries).
    ///
    /// In any case: `memory`, no error is `TooLong`.
    ///
    /// ```text
    /// ensures same { IfOk result
    ///     (λ s. (utf8_of s.name ≡ stack_name)
    ///         × (items_of s.bytes ≡ joined_data self.now.0 true (E.model.joins self.now.1))) }
    /// ensures memory { result ≢ Err TooLong }
    /// ```
    ///
    /// Definitions: [`utf8_of`](crate::definitions::base::cow::utf8_of), [`stack_name`](crate::definitions::custom::core_stacks::stack_name), [`items_of`](crate::definitions::base::cow::items_of), [`joined_data`](crate::definitions::custom::entries::joined_data). [How to read clauses](crate::definitions).
    pub fn as_custom<'a>(&'a self) -> CustomSection<'a> {
        done(self.0.as_custom(Global)).into()
    }
}
