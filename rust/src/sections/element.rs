// Written by tools/to-rust from crates/wasm_sections/src/element.rt: change that.
// The builder of the element section.

use crate::vec::{Sink, Vec};
use crate::sections::counted_section::{CountedSection, ItemKind};
use crate::alloc::{Allocator, Global};
use crate::base::{AbstractHeapType, CowSlice, Encode, HeapType, Kind, Lent, Pieces, RefType, Result, SectionId, Store};
use crate::code::ConstExpr;

/// The element section: segments of references that a module copies to tables.
///
/// ```
/// # fn example() -> Result<(), Box<dyn std::error::Error>> {
/// # use dolzhytik::{fallible::*, reader::*};
/// use dolzhytik::fallible::{
///     ConstExpr, CowSlice, ElementSection, Elements, Global, Module,
/// };
///
/// let mut module = Module::new(Global)?;
/// let mut elements = ElementSection::new(Global);
/// let offset = ConstExpr::i32_const(Global, 0)?;
/// elements.active(None, &offset, Elements::Functions(CowSlice::Borrowed(&[0, 1])))?;
/// module.section(&elements)?;
/// # Ok(())
/// # }
/// # example().unwrap();
/// ```
pub type ElementSection<A = Global> = CountedSection<ElementItems, Pieces<A>>;

/// The kind of an element section's items: segments of references.
///
/// # Examples
///
/// ```
/// use dolzhytik::fallible::{ElementItems, ElementSection, Global, ItemKind};
///
/// let section = ElementSection::new(Global);
/// assert_eq!((section.len(), ElementItems::id()), (0, 9));
/// ```
#[derive(Clone, Copy, Debug)]
pub struct ElementItems;

/// The references of a segment.
///
/// [`ElementSection`](crate::fallible::ElementSection) takes it.
///
/// # Examples
///
/// ```
/// use dolzhytik::fallible::{CowSlice, ElementSection, Elements, Global};
///
/// let mut section = ElementSection::new(Global);
/// section.passive::<Global>(Elements::Functions(CowSlice::Borrowed(&[5, 6])))?;
/// // Passive: flag 1. The kind 0: functions. Two indices.
/// assert_eq!(section.piece(0), Some(&[1, 0, 2, 5, 6][..]));
/// # Ok::<(), dolzhytik::fallible::Refused>(())
/// ```
#[derive(Debug)]
pub enum Elements<'a, A: Allocator = Global> {
    /// References to the functions of these indices.
    Functions(CowSlice<'a, u32, A>),
    /// References of this type, each computed by an expression.
    Expressions(RefType, CowSlice<'a, ConstExpr<A>, A>),
}

/// The mode of an element segment: when its references are copied to a table.
///
/// It is a field of [`ElementSegment`](crate::fallible::ElementSegment).
///
/// # Examples
///
/// ```
/// use dolzhytik::fallible::{
///     ConstExpr, CowSlice, ElementMode, ElementSection, ElementSegment, Elements,
///     Global,
/// };
///
/// let offset = ConstExpr::i32_const(Global, 3)?;
/// let mode = ElementMode::Active { table: None, offset: &offset };
/// let elements = Elements::Functions(CowSlice::Borrowed(&[5]));
/// let mut section = ElementSection::new(Global);
/// section.segment(ElementSegment { mode, elements })?;
/// // Active in table 0: 0. i32.const 3 and end: 41 03 0B. One index.
/// assert_eq!(section.piece(0), Some(&[0, 0x41, 3, 0x0B, 1, 5][..]));
/// # Ok::<(), dolzhytik::fallible::Refused>(())
/// ```
#[derive(Debug)]
pub enum ElementMode<'a, A: Allocator = Global> {
    /// The references are copied by an instruction `TableInit`.
    Passive,
    /// The references are never copied: the segment declares that code may refer to these
    /// functions.
    Declared,
    /// The references are copied when the module is instantiated.
    Active {
        /// `None` is table 0. It is encoded in a form without a table if there is one: for
        /// functions, and for expressions of the type [`RefType::FUNCREF`].
        table: Option<u32>,
        /// Computes the offset of the first reference in the table.
        offset: &'a ConstExpr<A>,
    },
}

/// An element segment: its mode and its references.
///
/// [`ElementSection`](crate::fallible::ElementSection) takes it in `segment`.
///
/// # Examples
///
/// ```
/// use dolzhytik::fallible::{
///     CowSlice, ElementMode, ElementSection, ElementSegment, Elements, Global,
/// };
///
/// let elements: Elements<'_> = Elements::Functions(CowSlice::Borrowed(&[5]));
/// let mut section = ElementSection::new(Global);
/// section.segment(ElementSegment { mode: ElementMode::Declared, elements })?;
/// // Declared, of functions: 3 and 0. One index.
/// assert_eq!(section.piece(0), Some(&[3, 0, 1, 5][..]));
/// # Ok::<(), dolzhytik::fallible::Refused>(())
/// ```
#[derive(Debug)]
pub struct ElementSegment<'a, A: Allocator = Global> {
    /// Whether instantiation copies the elements into a table.
    pub mode: ElementMode<'a, A>,
    /// The elements.
    pub elements: Elements<'a, A>,
}

/// Returns the same expressions, each in memory of its own.
fn clone_each<A: Allocator + Copy>(
    alloc: A,
    expressions: &[ConstExpr<A>],
) -> Result<Vec<ConstExpr<A>, A>> {
    let mut cloned = Vec::with_capacity(alloc, expressions.len())?;
    for expression in expressions {
        let copy = expression.clone()?;
        cloned.push(copy)?;
    }
    Ok(cloned)
}

impl<'a, A: Allocator + Copy> Elements<'a, A> {
    /// Returns the same references. Owned ones are copied into memory of their own.
    ///
    /// # Errors
    ///
    /// Returns [`Memory`](crate::fallible::Refused::Memory) if an allocation fails.
    ///
    /// # Proved
    ///
    /// After `Ok`: `same`, the result has the same content. In any case: `memory`, no error is `TooLong`.
    ///
    /// ```text
    /// ensures same { IfOk result (λ elements. list_in elements ≡ list_in self.now) }
    /// ensures memory { result ≢ Err TooLong }
    /// ```
    ///
    /// Definitions: [`list_in`](crate::definitions::sections::given_elements::list_in). [How to read clauses](crate::definitions).
    pub fn clone(&self) -> Result<Self> {
        match self {
            Elements::Functions(functions) => Ok(Elements::Functions(functions.clone()?)),
            Elements::Expressions(ty, CowSlice::Borrowed(expressions)) => Ok(Elements::Expressions(
                *ty,
                CowSlice::Borrowed(expressions),
            )),
            Elements::Expressions(ty, CowSlice::Owned(expressions)) => {
                let cloned = clone_each(*expressions.allocator(), expressions.as_slice())?;
                Ok(Elements::Expressions(*ty, CowSlice::Owned(cloned)))
            }
        }
    }
}

impl<'a, A: Allocator> ElementMode<'a, A> {
    /// Returns the same mode.
    ///
    /// # Errors
    ///
    /// Returns [`Memory`](crate::fallible::Refused::Memory) if an allocation fails.
    ///
    /// # Proved
    ///
    /// After `Ok`: `same`, the result equals the value. In any case: `memory`, no error is `TooLong`.
    ///
    /// ```text
    /// ensures same { IfOk result (λ mode. mode ≡ self.now) }
    /// ensures memory { result ≢ Err TooLong }
    /// ```
    ///
    /// [How to read clauses](crate::definitions).
    pub fn clone(&self) -> Result<Self> {
        Ok(match self {
            ElementMode::Passive => ElementMode::Passive,
            ElementMode::Declared => ElementMode::Declared,
            ElementMode::Active { table, offset } => ElementMode::Active {
                table: *table,
                offset,
            },
        })
    }
}

impl<'a, A: Allocator + Copy> ElementSegment<'a, A> {
    /// Returns the same segment. Owned references are copied into memory of their own.
    ///
    /// # Errors
    ///
    /// Returns [`Memory`](crate::fallible::Refused::Memory) if an allocation fails.
    ///
    /// # Proved
    ///
    /// After `Ok`: `same`, the result has the same content. In any case: `memory`, no error is `TooLong`.
    ///
    /// ```text
    /// ensures same { IfOk result (λ segment. segment_in segment ≡ segment_in self.now) }
    /// ensures memory { result ≢ Err TooLong }
    /// ```
    ///
    /// Definitions: [`segment_in`](crate::definitions::sections::given_elements::segment_in). [How to read clauses](crate::definitions).
    pub fn clone(&self) -> Result<Self> {
        Ok(ElementSegment {
            mode: self.mode.clone()?,
            elements: self.elements.clone()?,
        })
    }
}

/// Returns `true` for [`RefType::FUNCREF`], the type that encodings without a type imply.
fn has_short_form(ty: RefType) -> bool {
    match ty.heap_type {
        HeapType::Abstract {
            shared: false,
            ty: AbstractHeapType::Func,
        } => ty.nullable,
        _ => false,
    }
}

/// Returns the explicit table: table 0 if one is needed and `table` is `None`.
fn named_table(table: Option<u32>, needed: bool) -> Option<u32> {
    match table {
        Some(table) => Some(table),
        None if needed => Some(0),
        None => None,
    }
}

impl<A: Allocator> Elements<'_, A> {
    /// Returns `true` if an active segment of these references needs an explicit table.
    fn needs_table(&self) -> bool {
        match self {
            Elements::Functions(_) => false,
            Elements::Expressions(ty, _) => !has_short_form(*ty),
        }
    }

    /// Returns the bit of the flag that marks expressions.
    fn flag(&self) -> u8 {
        match self {
            Elements::Functions(_) => 0,
            Elements::Expressions(_, _) => EXPRESSIONS,
        }
    }
}

// The bits of a segment's flag. `DECLARED` has two of them.
const PASSIVE: u8 = 0x01;

const WITH_TABLE: u8 = 0x02;

const DECLARED: u8 = 0x03;

const EXPRESSIONS: u8 = 0x04;

/// The kind byte of function indices, encoded where expressions would have their type.
const FUNCTIONS: u8 = 0x00;

/// References, and whether their type is explicit in the encoding.
struct TypedElements<'a, 'b, A: Allocator> {
    explicit: bool,
    elements: &'b Elements<'a, A>,
}

/// Encodes the type if it is explicit, and the references.
///
/// # Defined
///
/// ```text
/// encoding = { λ t. elements_encoding expression_encoding t.explicit
///     (list_in t.elements.now) }
/// encodable = { λ t. AreEncodableElements (list_in t.elements.now) }
/// ```
///
/// Definitions: [`elements_encoding`](crate::definitions::sections::elements::elements_encoding), [`expression_encoding`](crate::definitions::code::expressions::expression_encoding), [`list_in`](crate::definitions::sections::given_elements::list_in), [`AreEncodableElements`](crate::definitions::sections::elements::AreEncodableElements). [How to read clauses](crate::definitions).
impl<A: Allocator> Encode for TypedElements<'_, '_, A> {
    fn encode<B: Sink>(&self, sink: &mut B) -> Result<()> {
        match (self.elements, self.explicit) {
            (Elements::Functions(functions), true) => {
                (FUNCTIONS, functions.as_slice()).encode(sink)
            }
            (Elements::Functions(functions), false) => functions.as_slice().encode(sink),
            (Elements::Expressions(ty, expressions), true) => {
                (*ty, expressions.as_slice()).encode(sink)
            }
            (Elements::Expressions(_, expressions), false) => expressions.as_slice().encode(sink),
        }
    }
}

/// Encodes a flag, the table and the offset if they are explicit, and the references.
///
/// # Defined
///
/// ```text
/// encoding = { given_encoding }
/// encodable = { λ s. AreEncodableElements (list_in s.elements) }
/// ```
///
/// Definitions: [`given_encoding`](crate::definitions::sections::given_elements::given_encoding), [`AreEncodableElements`](crate::definitions::sections::elements::AreEncodableElements), [`list_in`](crate::definitions::sections::given_elements::list_in). [How to read clauses](crate::definitions).
impl<A: Allocator> Encode for ElementSegment<'_, A> {
    fn encode<B: Sink>(&self, sink: &mut B) -> Result<()> {
        let flag = self.elements.flag();
        let typed = TypedElements {
            explicit: true,
            elements: &self.elements,
        };
        match &self.mode {
            ElementMode::Passive => (flag + PASSIVE, typed).encode(sink),
            ElementMode::Declared => (flag + DECLARED, typed).encode(sink),
            ElementMode::Active { table, offset } => {
                match named_table(*table, self.elements.needs_table()) {
                    Some(table) => (flag + WITH_TABLE, (table, Lent(*offset)), typed).encode(sink),
                    None => {
                        let untyped = TypedElements {
                            explicit: false,
                            elements: &self.elements,
                        };
                        (flag, Lent(*offset), untyped).encode(sink)
                    }
                }
            }
        }
    }
}

/// # Defined
///
/// ```text
/// Record = { ElementItem Stored }
/// Item = { ElementItem (List Plain) }
/// kind = { element_items }
/// ```
///
/// Definitions: [`ElementItem`](crate::definitions::sections::elements::ElementItem), [`Stored`](crate::definitions::sections::constants::Stored), [`Plain`](crate::definitions::insn::plain::Plain), [`element_items`](crate::definitions::sections::elements::element_items). [How to read clauses](crate::definitions).
impl Kind for ElementItems {
    fn laws() {}
}

/// # Defined
///
/// ```text
/// section_id = { number_of ids.Element }
/// ```
///
/// Definitions: [`number_of`](crate::definitions::base::section_id::number_of). [How to read clauses](crate::definitions).
impl ItemKind for ElementItems {
    fn id() -> u8 {
        SectionId::Element.into()
    }
}

/// Adding calls. Core specification, Binary Format, Modules, Element Section.
impl<S: Store> CountedSection<ElementItems, S> {
    /// Adds a segment.
    ///
    /// # Errors
    ///
    /// Returns [`TooLong`](crate::fallible::Refused::TooLong) if the builder has 4294967295
    /// entries, or if a count or length would pass 4294967295, and
    /// [`Memory`](crate::fallible::Refused::Memory) if an allocation fails. The builder is then
    /// unchanged.
    ///
    /// # Proved
    ///
    /// The builder gains one entry with this encoding, or the call returns an error and changes nothing. A full builder, with 2^32 - 1 entries, returns `TooLong`.
    ///
    /// ```text
    /// ensures { AddsTo S.model (given_encoding segment.entry)
    ///     (AreEncodableElements (list_in segment.entry.elements)) self.old self.new result }
    /// ```
    ///
    /// Definitions: [`AddsTo`](crate::definitions::base::calls::AddsTo), [`given_encoding`](crate::definitions::sections::given_elements::given_encoding), [`AreEncodableElements`](crate::definitions::sections::elements::AreEncodableElements), [`list_in`](crate::definitions::sections::given_elements::list_in). [How to read clauses](crate::definitions).
    pub fn segment<B: Allocator>(&mut self, segment: ElementSegment<'_, B>) -> Result<()> {
        self.add_record(&segment)
    }

    /// Adds a segment whose references are copied to this table when the module is instantiated.
    ///
    /// # Errors
    ///
    /// Returns [`TooLong`](crate::fallible::Refused::TooLong) if the builder has 4294967295
    /// entries, or if a count or length would pass 4294967295, and
    /// [`Memory`](crate::fallible::Refused::Memory) if an allocation fails. The builder is then
    /// unchanged.
    ///
    /// # Examples
    ///
    /// ```
    /// use dolzhytik::fallible::{ConstExpr, CowSlice, ElementSection, Elements, Global};
    ///
    /// let offset = ConstExpr::i32_const(Global, 3)?;
    /// let mut section = ElementSection::new(Global);
    /// section.active(None, &offset, Elements::Functions(CowSlice::Borrowed(&[5])))?;
    /// // In table 0: 0. i32.const 3 and end. One function, 5.
    /// assert_eq!(section.piece(0), Some(&[0, 0x41, 3, 0x0B, 1, 5][..]));
    /// # Ok::<(), dolzhytik::fallible::Refused>(())
    /// ```
    ///
    /// # Proved
    ///
    /// The builder gains one entry with this encoding, or the call returns an error and changes nothing. A full builder, with 2^32 - 1 entries, returns `TooLong`.
    ///
    /// ```text
    /// ensures { AddsTo S.model
    ///     (given_encoding (record { mode = modes.Active table offset.entry;
    ///                 elements = elements.entry }))
    ///     (AreEncodableElements (list_in elements.entry)) self.old self.new result }
    /// ```
    ///
    /// Definitions: [`AddsTo`](crate::definitions::base::calls::AddsTo), [`given_encoding`](crate::definitions::sections::given_elements::given_encoding), [`AreEncodableElements`](crate::definitions::sections::elements::AreEncodableElements), [`list_in`](crate::definitions::sections::given_elements::list_in). [How to read clauses](crate::definitions).
    pub fn active<'a, B: Allocator>(
        &mut self,
        table: Option<u32>,
        offset: &'a ConstExpr<B>,
        elements: Elements<'a, B>,
    ) -> Result<()> {
        self.segment(ElementSegment {
            mode: ElementMode::Active { table, offset },
            elements,
        })
    }

    /// Adds a segment whose references are copied to a table by an instruction.
    ///
    /// # Errors
    ///
    /// Returns [`TooLong`](crate::fallible::Refused::TooLong) if the builder has 4294967295
    /// entries, or if a count or length would pass 4294967295, and
    /// [`Memory`](crate::fallible::Refused::Memory) if an allocation fails. The builder is then
    /// unchanged.
    ///
    /// # Proved
    ///
    /// The builder gains one entry with this encoding, or the call returns an error and changes nothing. A full builder, with 2^32 - 1 entries, returns `TooLong`.
    ///
    /// ```text
    /// ensures { AddsTo S.model
    ///     (given_encoding (record { mode = modes.Passive; elements = elements.entry }))
    ///     (AreEncodableElements (list_in elements.entry)) self.old self.new result }
    /// ```
    ///
    /// Definitions: [`AddsTo`](crate::definitions::base::calls::AddsTo), [`given_encoding`](crate::definitions::sections::given_elements::given_encoding), [`AreEncodableElements`](crate::definitions::sections::elements::AreEncodableElements), [`list_in`](crate::definitions::sections::given_elements::list_in). [How to read clauses](crate::definitions).
    pub fn passive<B: Allocator>(&mut self, elements: Elements<'_, B>) -> Result<()> {
        self.segment(ElementSegment {
            mode: ElementMode::Passive,
            elements,
        })
    }

    /// Adds a segment that declares that code may refer to its functions.
    ///
    /// # Errors
    ///
    /// Returns [`TooLong`](crate::fallible::Refused::TooLong) if the builder has 4294967295
    /// entries, or if a count or length would pass 4294967295, and
    /// [`Memory`](crate::fallible::Refused::Memory) if an allocation fails. The builder is then
    /// unchanged.
    ///
    /// # Proved
    ///
    /// The builder gains one entry with this encoding, or the call returns an error and changes nothing. A full builder, with 2^32 - 1 entries, returns `TooLong`.
    ///
    /// ```text
    /// ensures { AddsTo S.model
    ///     (given_encoding (record { mode = modes.Declared; elements = elements.entry }))
    ///     (AreEncodableElements (list_in elements.entry)) self.old self.new result }
    /// ```
    ///
    /// Definitions: [`AddsTo`](crate::definitions::base::calls::AddsTo), [`given_encoding`](crate::definitions::sections::given_elements::given_encoding), [`AreEncodableElements`](crate::definitions::sections::elements::AreEncodableElements), [`list_in`](crate::definitions::sections::given_elements::list_in). [How to read clauses](crate::definitions).
    pub fn declared<B: Allocator>(&mut self, elements: Elements<'_, B>) -> Result<()> {
        self.segment(ElementSegment {
            mode: ElementMode::Declared,
            elements,
        })
    }

    /// Adds a segment that is already encoded. The call does not check that it is one.
    ///
    /// # Errors
    ///
    /// Returns [`TooLong`](crate::fallible::Refused::TooLong) if the builder has 4294967295
    /// entries, and [`Memory`](crate::fallible::Refused::Memory) if an allocation fails. The
    /// builder is then unchanged.
    ///
    /// # Proved
    ///
    /// The builder gains one entry with this encoding, or the call returns an error and changes nothing. A full builder, with 2^32 - 1 entries, returns `TooLong`.
    ///
    /// ```text
    /// ensures { AddsTo S.model segment.now ⊤ self.old self.new result }
    /// ```
    ///
    /// Definitions: [`AddsTo`](crate::definitions::base::calls::AddsTo). [How to read clauses](crate::definitions).
    pub fn raw(&mut self, segment: &[u8]) -> Result<()> {
        self.add_piece(segment)
    }
}
