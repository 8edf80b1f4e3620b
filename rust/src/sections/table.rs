// Written by tools/to-rust from crates/wasm_sections/src/table.rt: change that.
// The table section: its builder and its reader.

use crate::vec::Sink;
use crate::sections::counted_section::{CountedSection, ItemKind, RecordOf};
use crate::sections::flags::where_set;
use crate::sections::memory::Flags;
use crate::alloc::{Allocator, Global};
use crate::base::{DecodeError, Encode, Grammar, Kind, Layout, Lent, Optional, Pieces, ReadFault, Readable, RefType, Result, SectionId, Shorten, Store, ValType, read_optional};
use crate::code::{ConstExpr, Expression};

/// The table section: the tables that a module defines.
///
/// ```
/// # fn example() -> Result<(), Box<dyn std::error::Error>> {
/// # use dolzhytik::{fallible::*, reader::*};
/// use dolzhytik::fallible::{
///     ConstExpr, Global, HeapType, Module, RefType, TableSection, TableType,
/// };
///
/// let mut module = Module::new(Global)?;
/// let mut tables = TableSection::new(Global);
/// let table_type = TableType {
///     element_type: RefType::FUNCREF,
///     table64: false,
///     minimum: 128,
///     maximum: None,
///     shared: false,
/// };
/// tables.table(table_type)?;
/// tables.table_with_init(table_type, &ConstExpr::ref_null(Global, HeapType::FUNC)?)?;
/// module.section(&tables)?;
/// # Ok(())
/// # }
/// # example().unwrap();
/// ```
pub type TableSection<A = Global> = CountedSection<TableItems, Pieces<A>>;

/// The kind of a table section's items: table types, some with an initializer expression.
///
/// # Examples
///
/// ```
/// use dolzhytik::fallible::{Global, ItemKind, TableItems, TableSection};
///
/// let section = TableSection::new(Global);
/// assert_eq!((section.len(), TableItems::id()), (0, 4));
/// ```
#[derive(Clone, Copy, Debug)]
pub struct TableItems;

/// The type of a table, which [`TableSection::table`](crate::TableSection::table) takes, and
/// [`EntityType::Table`](crate::EntityType::Table) for an imported one.
///
/// Core specification, Types, Table Types.
///
/// `shared` is of the shared-everything threads proposal.
///
/// # Examples
///
/// ```
/// use dolzhytik::{Encode, RefType, TableType};
///
/// let mut bytes = Vec::new();
/// TableType {
///     element_type: RefType::FUNCREF,
///     table64: true,
///     minimum: 3,
///     maximum: None,
///     shared: false,
/// }
/// .encode(&mut bytes);
/// // funcref: 70. Flags: 4 for indices of 64 bits. At least 3 elements.
/// assert_eq!(bytes, [0x70, 4, 3]);
/// ```
#[derive(Clone, Copy, PartialEq, Eq, Hash, Debug)]
pub struct TableType {
    /// The type of the elements.
    pub element_type: RefType,
    /// Whether indices have 64 bits.
    pub table64: bool,
    /// The initial number of elements.
    pub minimum: u64,
    /// The limit of the number of elements.
    pub maximum: Option<u64>,
    /// Whether threads share the table.
    pub shared: bool,
}

impl TableType {
    /// Returns the type of an index into the table.
    ///
    /// # Proved
    ///
    /// ```text
    /// ensures { result ≡ index_type_of self.now.table64 }
    /// ```
    ///
    /// Definitions: [`index_type_of`](crate::definitions::sections::tables::index_type_of). [How to read clauses](crate::definitions).
    pub fn index_type(&self) -> ValType {
        if self.table64 {
            ValType::I64
        } else {
            ValType::I32
        }
    }

    /// Returns the flags: a bit for each optional field that is present, and for each attribute
    /// that is set.
    #[inline]
    pub(crate) fn flags(&self) -> u8 {
        where_set(self.maximum.is_some(), 0x01)
            + where_set(self.shared, 0x02)
            + where_set(self.table64, 0x04)
    }
}

/// Encodes the type of the elements, the flags, the minimum, and the maximum if there is one.
///
/// # Defined
///
/// ```text
/// encoding = { table_encoding }
/// encodable = { λ _. ⊤ }
/// ```
///
/// Definitions: [`table_encoding`](crate::definitions::sections::tables::table_encoding). [How to read clauses](crate::definitions).
impl Encode for TableType {
    #[inline]
    fn encode<A: Sink>(&self, sink: &mut A) -> Result<()> {
        let limits = (self.flags(), self.minimum, Optional(self.maximum));
        (self.element_type, limits).encode(sink)
    }
}

/// # Defined
///
/// ```text
/// Record = { GivenTable }
/// Item = { TableModel }
/// kind = { table_items }
/// ```
///
/// Definitions: [`GivenTable`](crate::definitions::sections::tables::GivenTable), [`TableModel`](crate::definitions::sections::tables::TableItem), [`table_items`](crate::definitions::sections::tables::table_items). [How to read clauses](crate::definitions).
impl Kind for TableItems {
    fn laws() {}
}

/// # Defined
///
/// ```text
/// section_id = { number_of ids.Table }
/// ```
///
/// Definitions: [`number_of`](crate::definitions::base::section_id::number_of). [How to read clauses](crate::definitions).
impl ItemKind for TableItems {
    fn id() -> u8 {
        SectionId::Table.into()
    }
}

impl RecordOf<TableItems> for TableType {}

impl<S: Store> CountedSection<TableItems, S> {
    /// Adds a table of this type, whose elements are initially null.
    ///
    /// # Errors
    ///
    /// Returns [`TooLong`](crate::fallible::Refused::TooLong) if the builder has 4294967295
    /// entries, and [`Memory`](crate::fallible::Refused::Memory) if an allocation fails. The
    /// builder is then unchanged.
    ///
    /// # Proved
    ///
    /// The builder gains one entry with this encoding, or the call returns an error and changes nothing. A full builder, with 2^32 - 1 entries, returns `TooLong`.
    ///
    /// ```text
    /// ensures { AddsTo S.model (table_encoding table_type) ⊤ self.old self.new result }
    /// ```
    ///
    /// Definitions: [`AddsTo`](crate::definitions::base::calls::AddsTo), [`table_encoding`](crate::definitions::sections::tables::table_encoding). [How to read clauses](crate::definitions).
    pub fn table(&mut self, table_type: TableType) -> Result<()> {
        self.add_record(&table_type)
    }

    /// Adds a table of this type, whose elements are initialized by the expression.
    ///
    /// # Errors
    ///
    /// Returns [`TooLong`](crate::fallible::Refused::TooLong) if the builder has 4294967295
    /// entries, and [`Memory`](crate::fallible::Refused::Memory) if an allocation fails. The
    /// builder is then unchanged.
    ///
    /// # Examples
    ///
    /// ```
    /// use dolzhytik::fallible::{ConstExpr, Global, HeapType, RefType};
    /// use dolzhytik::fallible::{TableSection, TableType};
    ///
    /// let table_type = TableType {
    ///     element_type: RefType::FUNCREF,
    ///     table64: false,
    ///     minimum: 3,
    ///     maximum: None,
    ///     shared: false,
    /// };
    /// let mut tables = TableSection::new(Global);
    /// tables.table_with_init(table_type, &ConstExpr::ref_null(Global, HeapType::FUNC)?)?;
    /// // 40 00; funcref (70), no maximum (0), at least 3 elements; ref.null func (D0 70), end.
    /// let expected = [0x40, 0x00, 0x70, 0, 3, 0xD0, 0x70, 0x0B];
    /// assert_eq!(tables.piece(0), Some(&expected[..]));
    /// # Ok::<(), dolzhytik::fallible::Refused>(())
    /// ```
    ///
    /// # Proved
    ///
    /// The builder gains one entry with this encoding, or the call returns an error and changes nothing. A full builder, with 2^32 - 1 entries, returns `TooLong`.
    ///
    /// ```text
    /// ensures { AddsTo S.model
    ///     (before_init ++ (table_encoding table_type ++ expression_encoding init.now)) ⊤
    ///     self.old self.new result }
    /// ```
    ///
    /// Definitions: [`AddsTo`](crate::definitions::base::calls::AddsTo), [`before_init`](crate::definitions::sections::tables::before_init), [`table_encoding`](crate::definitions::sections::tables::table_encoding), [`expression_encoding`](crate::definitions::code::expressions::expression_encoding). [How to read clauses](crate::definitions).
    pub fn table_with_init<B: Allocator>(
        &mut self,
        table_type: TableType,
        init: &ConstExpr<B>,
    ) -> Result<()> {
        self.add_record(&([0x40u8, 0x00], table_type, Lent(init)))
    }
}

/// The limits of a table: its type without the type of its elements.
#[derive(Clone, Copy, Debug)]
struct Limits {
    table64: bool,
    shared: bool,
    minimum: u64,
    maximum: Option<u64>,
}

/// # Defined
///
/// ```text
/// Value = { LimitsModel }
/// format = { limits }
/// view = { limits_view }
/// ```
///
/// Definitions: [`LimitsModel`](crate::definitions::sections::tables::Limits), [`limits`](crate::definitions::sections::tables::limits), [`limits_view`](crate::definitions::sections::tables::limits_view). [How to read clauses](crate::definitions).
impl Layout for Limits {
    fn laws() {}
}

/// # Defined
///
/// ```text
/// may_allocate = { ⊥ }
/// ```
///
/// [How to read clauses](crate::definitions).
impl<'a, A: Allocator + Copy, G: Grammar> Readable<'a, A, G> for Limits {
    fn read(bytes: &'a [u8], alloc: A) -> Result<(Limits, &'a [u8]), DecodeError> {
        let (flags, rest) = <Flags as Readable<'a, A, G>>::read(bytes, alloc)?;
        if flags.has_page_size {
            return Err(ReadFault::UnknownTag.just_before(rest));
        }
        let (minimum, rest) = <u64 as Readable<'a, A, G>>::read(rest, alloc)?;
        let (maximum, rest) = read_optional::<'a, u64, A, G>(flags.has_maximum, rest, alloc)?;
        let limits = Limits {
            table64: flags.is_64,
            shared: flags.shared,
            minimum,
            maximum,
        };
        Ok((limits, rest))
    }
}

/// # Defined
///
/// ```text
/// Value = { TypeModel }
/// format = { table_type }
/// view = { λ table. table }
/// ```
///
/// Definitions: [`table_type`](crate::definitions::sections::tables::table_type). [How to read clauses](crate::definitions).
impl Layout for TableType {
    fn laws() {}
}

/// # Defined
///
/// ```text
/// may_allocate = { ⊥ }
/// ```
///
/// [How to read clauses](crate::definitions).
impl<'a, A: Allocator + Copy, G: Grammar> Readable<'a, A, G> for TableType {
    fn read(bytes: &'a [u8], alloc: A) -> Result<(TableType, &'a [u8]), DecodeError> {
        let ((element_type, limits), rest) = <(RefType, Limits) as Readable<'a, A, G>>::read(
            bytes, alloc,
        )?;
        let table = TableType {
            element_type,
            table64: limits.table64,
            minimum: limits.minimum,
            maximum: limits.maximum,
            shared: limits.shared,
        };
        Ok((table, rest))
    }
}

/// The bytes before a table with an initializer.
pub(crate) const BEFORE_INIT: [u8; 2] = [0x40, 0x00];

/// A decoded table: its type, and its optional initializer expression.
///
/// [`Items::Tables`](crate::reader::Items::Tables) has them.
///
/// # Examples
///
/// ```
/// use dolzhytik::fallible::{Global, RefType};
/// use dolzhytik::reader::{Padded, Readable, TableItem};
///
/// // funcref (70). No maximum: 0. At least 3 elements.
/// let (table, _) =
///     <TableItem as Readable<Global, Padded>>::read(&[0x70, 0, 3], Global)?;
/// assert_eq!(
///     (table.table_type.element_type, table.table_type.minimum),
///     (RefType::FUNCREF, 3)
/// );
/// assert!(table.init.is_none());
/// # Ok::<(), dolzhytik::reader::DecodeError>(())
/// ```
#[derive(Debug)]
pub struct TableItem<A: Allocator = Global> {
    /// The type.
    pub table_type: TableType,
    /// The constant expression of the initial elements, or `None` for null.
    pub init: Option<Expression<A>>,
}

/// # Defined
///
/// ```text
/// Value = { TableModel }
/// format = { table_item }
/// view = { table_view }
/// ```
///
/// Definitions: [`TableModel`](crate::definitions::sections::tables::TableItem), [`table_item`](crate::definitions::sections::tables::table_item), [`table_view`](crate::definitions::sections::tables::table_view). [How to read clauses](crate::definitions).
impl<A: Allocator> Layout for TableItem<A> {
    fn laws() {}
}

impl<'a, A: Allocator + Copy, G: Grammar> Readable<'a, A, G> for TableItem<A> {
    fn read(bytes: &'a [u8], alloc: A) -> Result<(TableItem<A>, &'a [u8]), DecodeError> {
        let (first, rest) = <u8 as Readable<'a, A, G>>::read(bytes, alloc)?;
        if first != 0x40 {
            let (table_type, rest) = <TableType as Readable<'a, A, G>>::read(bytes, alloc)?;
            let init = None;
            return Ok((TableItem { table_type, init }, rest));
        }
        let (second, rest) = <u8 as Readable<'a, A, G>>::read(rest, alloc)?;
        if second != 0x00 {
            return Err(ReadFault::UnknownTag.just_before(rest));
        }
        let ((table_type, init), rest) = <(TableType, Expression<A>) as Readable<'a, A, G>>::read(
            rest, alloc,
        )?;
        let init = Some(init);
        Ok((TableItem { table_type, init }, rest))
    }
}

/// # Defined
///
/// ```text
/// grammars = { builders_alone }
/// ```
///
/// Definitions: [`builders_alone`](crate::definitions::base::minimal::Grammars). [How to read clauses](crate::definitions).
impl<A: Allocator> Shorten for TableItem<A> {
    fn write_minimal<B: Sink>(&self, sink: &mut B) -> Result<()> {
        let Some(init) = &self.init else {
            return self.table_type.encode(sink);
        };
        BEFORE_INIT.encode(sink)?;
        self.table_type.encode(sink)?;
        init.write_minimal(sink)
    }
}
