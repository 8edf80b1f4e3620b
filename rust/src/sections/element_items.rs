// Written by tools/to-rust from crates/wasm_sections/src/element_items.rt: change that.
// The reader of the element section.

use crate::vec::{Sink, Vec};
use crate::alloc::{Allocator, Global};
use crate::base::{DecodeError, Encode, Grammar, Layout, ReadFault, Readable, RefType, Result, Shorten};
use crate::code::Expression;

/// The flag of an element segment, as its bits.
#[derive(Clone, Copy, Debug)]
pub(crate) struct ElementFlag {
    pub(crate) not_active: bool,
    pub(crate) second: bool,
    pub(crate) expressions: bool,
}

impl ElementFlag {
    /// Returns the number that encodes the flag.
    pub(crate) fn code(self) -> u32 {
        let not_active = if self.not_active { 1 } else { 0 };
        let second = if self.second { 2 } else { 0 };
        let expressions = if self.expressions { 4 } else { 0 };
        not_active + second + expressions
    }

    /// Returns `true` if the kind of the elements is explicit in the encoding.
    pub(crate) fn has_kind(self) -> bool {
        self.not_active || self.second
    }
}

/// # Defined
///
/// ```text
/// Value = { FlagModel }
/// format = { numbered flag_code }
/// view = { element_flag_view }
/// ```
///
/// Definitions: [`FlagModel`](crate::definitions::sections::elements::ElementFlag), [`numbered`](crate::definitions::base::formats::numbered), [`flag_code`](crate::definitions::sections::elements::flag_code), [`element_flag_view`](crate::definitions::sections::elements::element_flag_view). [How to read clauses](crate::definitions).
impl Layout for ElementFlag {
    fn laws() {}
}

/// # Defined
///
/// ```text
/// may_allocate = { ⊥ }
/// ```
///
/// [How to read clauses](crate::definitions).
impl<'a, A: Allocator + Copy, G: Grammar> Readable<'a, A, G> for ElementFlag {
    fn read(bytes: &'a [u8], alloc: A) -> Result<(ElementFlag, &'a [u8]), DecodeError> {
        let (number, rest) = <u32 as Readable<'a, A, G>>::read(bytes, alloc)?;
        if number >= 8 {
            return Err(ReadFault::UnknownTag.just_before(rest));
        }
        let flag = ElementFlag {
            not_active: number % 2 == 1,
            second: number / 2 % 2 == 1,
            expressions: number / 4 % 2 == 1,
        };
        Ok((flag, rest))
    }
}

/// The mode of a decoded element segment: when its elements are copied to a table.
///
/// It is a field of [`ElementItem`](crate::reader::ElementItem).
///
/// # Examples
///
/// ```
/// use dolzhytik::fallible::Global;
/// use dolzhytik::reader::{ElementItem, ElementItemMode, Padded, Readable};
///
/// // Active in table 0: 0. i32.const 3 and end. One index.
/// let bytes = [0, 0x41, 3, 0x0B, 1, 5];
/// let (item, _) = <ElementItem as Readable<Global, Padded>>::read(&bytes, Global)?;
/// assert!(matches!(item.mode, ElementItemMode::Active { table: None, .. }));
/// # Ok::<(), dolzhytik::reader::DecodeError>(())
/// ```
#[derive(Debug)]
#[non_exhaustive]
pub enum ElementItemMode<A: Allocator = Global> {
    /// The elements are copied by an instruction.
    Passive,
    /// The elements are never copied: the segment declares that code may refer to these functions.
    Declared,
    /// The elements are copied when the module is instantiated.
    Active {
        /// `None` if the table is not explicit, which means table 0.
        table: Option<u32>,
        /// Computes the offset of the first element in the table.
        offset: Expression<A>,
    },
}

/// The elements of a decoded segment.
///
/// It is a field of [`ElementItem`](crate::reader::ElementItem).
///
/// # Examples
///
/// ```
/// use dolzhytik::fallible::{Global, RefType};
/// use dolzhytik::reader::{ElementItem, ElementList, Padded, Readable};
///
/// // Passive, of expressions: 5. funcref: 70. One expression: ref.func 7, end.
/// let bytes = [5, 0x70, 1, 0xD2, 7, 0x0B];
/// let (item, _) = <ElementItem as Readable<Global, Padded>>::read(&bytes, Global)?;
/// let ElementList::Expressions(ty, expressions) = item.elements else {
///     panic!("functions")
/// };
/// assert_eq!((ty, expressions.len()), (RefType::FUNCREF, 1));
/// # Ok::<(), dolzhytik::reader::DecodeError>(())
/// ```
#[derive(Debug)]
#[non_exhaustive]
pub enum ElementList<A: Allocator = Global> {
    /// References to the functions of these indices.
    Functions(Vec<u32, A>),
    /// References of this type, each computed by an expression.
    Expressions(RefType, Vec<Expression<A>, A>),
}

/// A decoded element segment.
///
/// [`Items::Elements`](crate::reader::Items::Elements) has them.
///
/// # Examples
///
/// ```
/// use dolzhytik::fallible::Global;
/// use dolzhytik::reader::{
///     ElementItem, ElementItemMode, ElementList, Padded, Readable,
/// };
///
/// // Passive: flag 1. The kind 0: functions. Two indices.
/// let bytes = [1, 0, 2, 5, 6];
/// let (item, _) = <ElementItem as Readable<Global, Padded>>::read(&bytes, Global)?;
/// assert!(matches!(item.mode, ElementItemMode::Passive));
/// let ElementList::Functions(functions) = item.elements else {
///     panic!("expressions")
/// };
/// assert_eq!(functions[..], [5, 6]);
/// # Ok::<(), dolzhytik::reader::DecodeError>(())
/// ```
#[derive(Debug)]
pub struct ElementItem<A: Allocator = Global> {
    /// Whether instantiation copies the elements into a table.
    pub mode: ElementItemMode<A>,
    /// The elements.
    pub elements: ElementList<A>,
}

/// Decodes the mode that the flag selects.
fn read_mode<'a, A: Allocator + Copy, G: Grammar>(
    flag: ElementFlag,
    bytes: &'a [u8],
    alloc: A,
) -> Result<(ElementItemMode<A>, &'a [u8]), DecodeError> {
    match (flag.not_active, flag.second) {
        (true, true) => Ok((ElementItemMode::Declared, bytes)),
        (true, false) => Ok((ElementItemMode::Passive, bytes)),
        (false, true) => {
            let ((table, offset), rest) = <(u32, Expression<A>) as Readable<'a, A, G>>::read(
                bytes, alloc,
            )?;
            let table = Some(table);
            Ok((ElementItemMode::Active { table, offset }, rest))
        }
        (false, false) => {
            let (offset, rest) = <Expression<A> as Readable<'a, A, G>>::read(bytes, alloc)?;
            let table = None;
            Ok((ElementItemMode::Active { table, offset }, rest))
        }
    }
}

/// Decodes the indices of functions, after the byte of their kind if that is explicit.
fn read_functions<'a, A: Allocator + Copy, G: Grammar>(
    explicit: bool,
    bytes: &'a [u8],
    alloc: A,
) -> Result<(ElementList<A>, &'a [u8]), DecodeError> {
    if explicit {
        let (kind, rest) = <u8 as Readable<'a, A, G>>::read(bytes, alloc)?;
        if kind != 0x00 {
            return Err(ReadFault::UnknownTag.just_before(rest));
        }
        let (functions, rest) = <Vec<u32, A> as Readable<'a, A, G>>::read(rest, alloc)?;
        return Ok((ElementList::Functions(functions), rest));
    }
    let (functions, rest) = <Vec<u32, A> as Readable<'a, A, G>>::read(bytes, alloc)?;
    Ok((ElementList::Functions(functions), rest))
}

/// Decodes expressions, after their type if that is explicit.
fn read_expressions<'a, A: Allocator + Copy, G: Grammar>(
    explicit: bool,
    bytes: &'a [u8],
    alloc: A,
) -> Result<(ElementList<A>, &'a [u8]), DecodeError> {
    if explicit {
        let ((ty, expressions), rest) = <(RefType, Vec<Expression<A>, A>) as Readable<
            'a,
            A,
            G,
        >>::read(bytes, alloc)?;
        return Ok((ElementList::Expressions(ty, expressions), rest));
    }
    let (expressions, rest) = <Vec<Expression<A>, A> as Readable<'a, A, G>>::read(bytes, alloc)?;
    Ok((
        ElementList::Expressions(RefType::FUNCREF, expressions),
        rest,
    ))
}

/// Decodes the elements of the kind that the flag selects.
fn read_elements<'a, A: Allocator + Copy, G: Grammar>(
    explicit: bool,
    of_expressions: bool,
    bytes: &'a [u8],
    alloc: A,
) -> Result<(ElementList<A>, &'a [u8]), DecodeError> {
    if of_expressions {
        read_expressions::<A, G>(explicit, bytes, alloc)
    } else {
        read_functions::<A, G>(explicit, bytes, alloc)
    }
}

/// # Defined
///
/// ```text
/// Value = { ElementItem (List Plain) }
/// format = { element }
/// view = { element_view }
/// ```
///
/// Definitions: [`ElementItem`](crate::definitions::sections::elements::ElementItem), [`Plain`](crate::definitions::insn::plain::Plain), [`element`](crate::definitions::sections::elements::element), [`element_view`](crate::definitions::sections::elements::element_view). [How to read clauses](crate::definitions).
impl<A: Allocator> Layout for ElementItem<A> {
    fn laws() {}
}

impl<'a, A: Allocator + Copy, G: Grammar> Readable<'a, A, G> for ElementItem<A> {
    fn read(bytes: &'a [u8], alloc: A) -> Result<(ElementItem<A>, &'a [u8]), DecodeError> {
        let (flag, rest) = <ElementFlag as Readable<'a, A, G>>::read(bytes, alloc)?;
        let (mode, rest) = read_mode::<A, G>(flag, rest, alloc)?;
        let (elements, rest) = read_elements::<A, G>(
            flag.has_kind(),
            flag.expressions,
            rest,
            alloc,
        )?;
        Ok((ElementItem { mode, elements }, rest))
    }
}

/// Appends the indices of functions, after the byte of their kind if that is explicit.
fn append_functions<A: Allocator, B: Sink>(
    explicit: bool,
    indices: &Vec<u32, A>,
    sink: &mut B,
) -> Result<()> {
    if explicit {
        0x00u8.encode(sink)?;
        return indices.write_minimal(sink);
    }
    indices.write_minimal(sink)
}

/// Appends expressions, after their type if that is explicit.
fn append_expressions<A: Allocator, B: Sink>(
    explicit: bool,
    ty: RefType,
    elements: &Vec<Expression<A>, A>,
    sink: &mut B,
) -> Result<()> {
    if explicit {
        ty.encode(sink)?;
        return elements.write_minimal(sink);
    }
    elements.write_minimal(sink)
}

/// Appends the table if it is explicit, and the offset of the first element.
fn append_active<A: Allocator, B: Sink>(
    table: Option<u32>,
    offset: &Expression<A>,
    sink: &mut B,
) -> Result<()> {
    match table {
        Some(table) => {
            table.encode(sink)?;
            offset.write_minimal(sink)
        }
        None => offset.write_minimal(sink),
    }
}

impl<A: Allocator> ElementItem<A> {
    /// Returns the flag of the segment.
    fn flag(&self) -> ElementFlag {
        let not_active = !matches!(self.mode, ElementItemMode::Active { .. });
        let second = match &self.mode {
            ElementItemMode::Passive => false,
            ElementItemMode::Declared => true,
            ElementItemMode::Active { table, .. } => table.is_some(),
        };
        let expressions = matches!(self.elements, ElementList::Expressions(..));
        ElementFlag {
            not_active,
            second,
            expressions,
        }
    }

    /// Appends the table and the offset, as the mode needs them.
    fn append_segment_mode<B: Sink>(&self, sink: &mut B) -> Result<()> {
        match &self.mode {
            ElementItemMode::Passive => Ok(()),
            ElementItemMode::Declared => Ok(()),
            ElementItemMode::Active { table, offset } => append_active(*table, offset, sink),
        }
    }
}

/// Appends the elements, after their kind if that is explicit.
fn append_elements<A: Allocator, B: Sink>(
    explicit: bool,
    elements: &ElementList<A>,
    sink: &mut B,
) -> Result<()> {
    match elements {
        ElementList::Functions(indices) => append_functions(explicit, indices, sink),
        ElementList::Expressions(ty, elements) => append_expressions(explicit, *ty, elements, sink),
    }
}

/// # Defined
///
/// ```text
/// grammars = { builders_alone }
/// ```
///
/// Definitions: [`builders_alone`](crate::definitions::base::minimal::Grammars). [How to read clauses](crate::definitions).
impl<A: Allocator> Shorten for ElementItem<A> {
    fn write_minimal<B: Sink>(&self, sink: &mut B) -> Result<()> {
        let flag = self.flag();
        flag.code().encode(sink)?;
        self.append_segment_mode(sink)?;
        append_elements(flag.has_kind(), &self.elements, sink)
    }
}
