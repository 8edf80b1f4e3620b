//! Modules that are encoded again: the user's methods map indices and edit items. The maps and the
//! encoders are proved, and this file is tested.
use crate::alloc::{AllocError, AllocFailed, Global};
use crate::base::{Module, RawSection, Refused, Standard};
use crate::reader::{
    Body, ElementItem, GlobalItem, Items, Offsets, ReadError, Section, Sections, Segment,
    TableItem, TypeEntry, encode_items_in,
};
use crate::remap::{IndexSpace, Remap, RemapError, remap_items};
use crate::sections::{Export, Imports, MemoryType, TagType};
use crate::vec::Vec;
use alloc_crate::vec;
use core::cell::RefCell;
use core::error::Error;
use core::fmt;

/// Declares the method of each index space, which by default returns the index.
macro_rules! index_methods {
    ($($(#[$doc:meta])* $method:ident;)*) => {
        $(
            $(#[$doc])*
            fn $method(&mut self, index: u32) -> Result<u32, Self::Error> {
                Ok(index)
            }
        )*
    };
}

/// Declares the method of each kind of section, which by default changes nothing. Items with a
/// lifetime may borrow from the value.
macro_rules! section_methods {
    ($($(#[$doc:meta])* $method:ident $(<$life:lifetime>)? ($items:ident: $ty:ty);)*) => {
        $(
            $(#[$doc])*
            fn $method $(<$life>)? (
                &$($life)? mut self,
                $items: &mut $ty,
            ) -> Result<(), ReencodeError<Self::Error>> {
                let _ = $items;
                Ok(())
            }
        )*
    };
}

/// Encodes a module again with other indices and other items, by methods of your own.
///
/// [`reencode_module`](Reencode::reencode_module) calls these methods:
///
/// - **A method of an index space**, such as [`function_index`](Reencode::function_index), returns
///   the new index of an old one. By default, that is the old one. Return the same index whenever
///   the same one is passed: [`remap_items`] is proved for such methods.
/// - **A method of a section**, such as [`import_section`](Reencode::import_section), edits the
///   decoded items. By default, it changes nothing. Their indices are the new ones already, and
///   those of items that you add are encoded as they are. Names and bytes that you add may be in
///   the value itself, as in the example. Add only items that some bytes encode: see
///   [`encode_items`](crate::reader::encode_items).
///
/// A method of a section is called for each section of its kind, in the order of the module. If the
/// module has none, the method gets an empty list or `None`, and a section is written if it adds
/// something. It comes before the next section in the standard's order, or after the last one. A
/// list that a method empties stays as an empty section. The methods are called while the module is
/// decoded: before the error of a later section is returned.
///
/// Without a method of a section, the bytes are those of
/// [`remap_module`](crate::reader::remap::remap_module). Of several errors, another one may be
/// returned. The trait itself is tested, not proved.
///
/// # Examples
///
/// This adds an imported function before all others:
///
/// ```
/// use dolzhytik::fallible::{self, EntityType, Import, Imports};
/// use dolzhytik::reader::{Offsets, Reencode, ReencodeError};
/// use std::convert::Infallible;
///
/// /// Imports a function of type 0, of this module and this name.
/// struct AddImport(String, String);
///
/// impl Reencode for AddImport {
///     type Error = Infallible;
///
///     fn function_index(&mut self, index: u32) -> Result<u32, Infallible> {
///         Ok(index + 1)
///     }
///
///     fn import_section<'a>(
///         &'a mut self,
///         imports: &mut fallible::Vec<Imports<'a>>,
///     ) -> Result<(), ReencodeError<Infallible>> {
///         let (module, name) = (self.0.as_str(), self.1.as_str());
///         let ty = EntityType::Function(0);
///         imports.push(Imports::Single(Import { module, name, ty }))?;
///         // It is function 0, and so before all others.
///         imports.rotate_right(1);
///         Ok(())
///     }
/// }
///
/// fn main() -> Result<(), ReencodeError<Infallible>> {
///     // A type, a function of it, and its body, which calls it. There are no imports.
///     let module = b"\0asm\x01\0\0\0\x01\x04\x01\x60\0\0\x03\x02\x01\0\
///         \x0a\x06\x01\x04\0\x10\0\x0b";
///     let mut import = AddImport("host".into(), "log".into());
///     let edited = import.reencode_module(module, Offsets::Refuse)?;
///     // The section of imports is after that of types, and the function calls function 1.
///     assert_eq!(edited[14..28], *b"\x02\x0c\x01\x04host\x03log\0\0");
///     assert_eq!(edited[28..], *b"\x03\x02\x01\0\x0a\x06\x01\x04\0\x10\x01\x0b");
///     Ok(())
/// }
/// ```
pub trait Reencode {
    /// The error of your methods.
    type Error;

    index_methods! {
        /// Returns the new index of a function.
        function_index;
        /// Returns the new index of a type. Each type of a recursion group has an index.
        type_index;
        /// Returns the new index of a table.
        table_index;
        /// Returns the new index of a memory.
        memory_index;
        /// Returns the new index of a global.
        global_index;
        /// Returns the new index of a tag.
        tag_index;
        /// Returns the new index of an element segment.
        element_index;
        /// Returns the new index of a data segment.
        data_index;
    }

    section_methods! {
        /// Edits the types and recursion groups.
        type_section(types: Vec<TypeEntry>);
        /// Edits the imports and groups of imports. Imported functions have the first indices of
        /// functions, and so on.
        import_section<'a>(imports: Vec<Imports<'a>>);
        /// Edits the indices of the functions' types.
        function_section(types: Vec<u32>);
        /// Edits the tables.
        table_section(tables: Vec<TableItem>);
        /// Edits the memories.
        memory_section(memories: Vec<MemoryType>);
        /// Edits the tags.
        tag_section(tags: Vec<TagType>);
        /// Edits the globals.
        global_section(globals: Vec<GlobalItem>);
        /// Edits the exports.
        export_section<'a>(exports: Vec<Export<'a>>);
        /// Edits the index of the start function. With `None` the section is left out.
        start_section(function: Option<u32>);
        /// Edits the element segments.
        element_section(segments: Vec<ElementItem>);
        /// Edits the number of data segments. With `None` the section is left out. If you add a
        /// segment, change the number here.
        data_count_section(count: Option<u32>);
        /// Edits the bodies of functions.
        code_section(bodies: Vec<Body>);
        /// Edits the data segments.
        data_section<'a>(segments: Vec<Segment<'a>>);
        /// Edits the items of a custom section. Its name selects their kind, such as
        /// [`Items::Names`]. The method cannot add a custom section, nor leave one out, and must
        /// keep the kind.
        custom_section<'a>(items: Items<'a>);
    }

    /// Returns the module with mapped indices and edited items. Each encoding is minimal.
    ///
    /// Custom sections that hold offsets would become wrong ([`Offsets`] lists them). With
    /// [`Offsets::Refuse`] such a section is an error, and with [`Offsets::LeaveOut`] it is left
    /// out.
    ///
    /// # Errors
    ///
    /// Returns `Read` if the bytes are no module or a section does not decode, `User` with the
    /// error of a method, `Offsets` for a section that holds offsets, and `Refused` if an encoding
    /// is too long or an allocation fails.
    fn reencode_module(
        &mut self,
        module: &[u8],
        offsets: Offsets,
    ) -> Result<vec::Vec<u8>, ReencodeError<Self::Error>> {
        let mut new = Reencoded {
            user: self,
            old: Sections::new(Global, module)?,
            module: Module::new(Global)?,
            place: 0,
        };
        new.add_all(offsets)?;
        Ok(new.module.finish().into())
    }

    /// Returns the payload of a section with mapped indices and edited items, in its minimal
    /// encoding. It is `None` if a method leaves the section out.
    ///
    /// A section that holds offsets keeps them, though they may become wrong:
    /// [`Section::has_offsets`] finds it.
    ///
    /// # Errors
    ///
    /// Returns `Read` if the section does not decode, `User` with the error of a method, and
    /// `Refused` if an encoding is too long or an allocation fails.
    fn reencode_section(
        &mut self,
        section: &Section<'_>,
    ) -> Result<Option<vec::Vec<u8>>, ReencodeError<Self::Error>> {
        let mut items = section.items()?;
        remap_items(&mut items, Global, &Indices(RefCell::new(&mut *self)))?;
        edited_payload(self, items, false)
    }
}

/// Why a module or a section is not encoded again.
#[derive(Clone, Copy, PartialEq, Eq, Debug)]
#[non_exhaustive]
pub enum ReencodeError<E> {
    /// The bytes are no module, or a section does not decode.
    Read(ReadError),
    /// An encoding is too long, or there is no memory.
    Refused(Refused),
    /// A method of [`Reencode`] returned this error.
    User(E),
    /// The section at this offset holds offsets, which would become wrong.
    Offsets(usize),
}

impl<E: fmt::Display> fmt::Display for ReencodeError<E> {
    fn fmt(&self, f: &mut fmt::Formatter<'_>) -> fmt::Result {
        match self {
            Self::Read(error) => error.fmt(f),
            Self::Refused(error) => error.fmt(f),
            Self::User(error) => error.fmt(f),
            Self::Offsets(offset) => RemapError::<E>::Offsets(*offset).fmt(f),
        }
    }
}

impl<E: Error> Error for ReencodeError<E> {
    fn source(&self) -> Option<&(dyn Error + 'static)> {
        match self {
            Self::User(error) => error.source(),
            _ => None,
        }
    }
}

impl<E> From<RemapError<E>> for ReencodeError<E> {
    fn from(error: RemapError<E>) -> Self {
        match error {
            RemapError::Read(error) => Self::Read(error),
            RemapError::Refused(error) => Self::Refused(error),
            RemapError::Index(error) => Self::User(error),
            RemapError::Offsets(offset) => Self::Offsets(offset),
        }
    }
}

impl<E> From<ReadError> for ReencodeError<E> {
    fn from(error: ReadError) -> Self {
        Self::Read(error)
    }
}

impl<E> From<Refused> for ReencodeError<E> {
    fn from(error: Refused) -> Self {
        Self::Refused(error)
    }
}

impl<E> From<AllocError> for ReencodeError<E> {
    fn from(error: AllocError) -> Self {
        Self::Refused(error.into())
    }
}

impl<E, T> From<AllocFailed<T>> for ReencodeError<E> {
    fn from(error: AllocFailed<T>) -> Self {
        Self::Refused(error.into())
    }
}

/// The methods of index spaces as a map. They have no access to it, so it is borrowed once at a
/// time.
struct Indices<'r, R: ?Sized>(RefCell<&'r mut R>);

impl<R: Reencode + ?Sized> Remap for Indices<'_, R> {
    type Error = R::Error;

    fn index(&self, space: IndexSpace, index: u32) -> Result<u32, R::Error> {
        let mut user = self.0.borrow_mut();
        match space {
            IndexSpace::Functions => user.function_index(index),
            IndexSpace::Types => user.type_index(index),
            IndexSpace::Tables => user.table_index(index),
            IndexSpace::Memories => user.memory_index(index),
            IndexSpace::Globals => user.global_index(index),
            IndexSpace::Tags => user.tag_index(index),
            IndexSpace::Elements => user.element_index(index),
            IndexSpace::Data => user.data_index(index),
        }
    }
}

/// The ids of the sections that are not custom, in the standard's order, each with the items of a
/// section that a module lacks. The numbers of start and data count mean nothing.
const ABSENT: [(u8, Items<'_>); 13] = [
    (1, Items::Types(Vec::new(Global))),
    (2, Items::Imports(Vec::new(Global))),
    (3, Items::Functions(Vec::new(Global))),
    (4, Items::Tables(Vec::new(Global))),
    (5, Items::Memories(Vec::new(Global))),
    (13, Items::Tags(Vec::new(Global))),
    (6, Items::Globals(Vec::new(Global))),
    (7, Items::Exports(Vec::new(Global))),
    (8, Items::Start(0)),
    (9, Items::Elements(Vec::new(Global))),
    (12, Items::DataCount(0)),
    (10, Items::Bodies(Vec::new(Global))),
    (11, Items::Segments(Vec::new(Global))),
];

/// Returns the place of a section in the standard's order, or `None` if it may be anywhere.
fn place_of(id: u8) -> Option<usize> {
    ABSENT.iter().position(|(other, _)| *other == id)
}

/// A module under construction.
struct Reencoded<'r, 'm, R: ?Sized> {
    user: &'r mut R,
    old: Sections<'m>,
    module: Module,
    /// The place in the standard's order before which absent sections were offered to the user.
    place: usize,
}

impl<'m, R: Reencode + ?Sized> Reencoded<'_, 'm, R> {
    /// Appends all sections of the old module, and those that it lacks where they get items.
    fn add_all(&mut self, offsets: Offsets) -> Result<(), ReencodeError<R::Error>> {
        let old = self.old.clone();
        let ordered = old
            .clone()
            .flatten()
            .filter(|it| place_of(it.id()).is_some());
        let last = ordered.last().map(|it| it.offset());
        for section in old {
            let section = section?;
            self.add_absent(place_of(section.id()).unwrap_or(0))?;
            self.add_present(&section, offsets)?;
            if Some(section.offset()) == last {
                self.add_absent(ABSENT.len())?;
            }
        }
        self.add_absent(ABSENT.len())
    }

    /// Appends a section, unless it is left out.
    fn add(&mut self, id: u8, payload: Option<vec::Vec<u8>>) -> Result<(), Refused> {
        match payload {
            Some(bytes) => self.module.section(&RawSection { id, bytes: &bytes }),
            None => Ok(()),
        }
    }

    /// Appends a section of the old module.
    fn add_present(
        &mut self,
        section: &Section<'m>,
        offsets: Offsets,
    ) -> Result<(), ReencodeError<R::Error>> {
        if section.has_offsets() {
            return match offsets {
                Offsets::Refuse => Err(ReencodeError::Offsets(section.offset())),
                Offsets::LeaveOut => Ok(()),
            };
        }
        let payload = self.user.reencode_section(section)?;
        Ok(self.add(section.id(), payload)?)
    }

    /// Appends the sections before this place that the old module lacks, if they get items.
    fn add_absent(&mut self, end: usize) -> Result<(), ReencodeError<R::Error>> {
        for (id, items) in ABSENT.into_iter().take(end).skip(self.place) {
            if !self.old.clone().flatten().any(|it| it.id() == id) {
                let payload = edited_payload(self.user, items, true)?;
                self.add(id, payload)?;
            }
        }
        self.place = self.place.max(end);
        Ok(())
    }
}

/// Returns the payload of a section with edited items. It is `None` if a number is taken away, or
/// if a section that the module lacks gets no items.
fn edited_payload<R: Reencode + ?Sized>(
    user: &mut R,
    items: Items<'_>,
    is_absent: bool,
) -> Result<Option<vec::Vec<u8>>, ReencodeError<R::Error>> {
    let Some(items) = edited(user, items, is_absent)? else {
        return Ok(None);
    };
    let mut payload = vec::Vec::new();
    encode_items_in::<Standard, _, _, _>(Global, &items, &mut payload)?;
    Ok(Some(payload))
}

/// Calls the method of a section. The items live as long as the user's borrow, so that they may
/// borrow from the user too.
fn edited<'a, R: Reencode + ?Sized>(
    user: &'a mut R,
    mut items: Items<'a>,
    is_absent: bool,
) -> Result<Option<Items<'a>>, ReencodeError<R::Error>> {
    let is_empty = match &mut items {
        Items::Types(list) => user.type_section(list).map(|()| list.is_empty()),
        Items::Imports(list) => user.import_section(list).map(|()| list.is_empty()),
        Items::Functions(list) => user.function_section(list).map(|()| list.is_empty()),
        Items::Tables(list) => user.table_section(list).map(|()| list.is_empty()),
        Items::Memories(list) => user.memory_section(list).map(|()| list.is_empty()),
        Items::Tags(list) => user.tag_section(list).map(|()| list.is_empty()),
        Items::Globals(list) => user.global_section(list).map(|()| list.is_empty()),
        Items::Exports(list) => user.export_section(list).map(|()| list.is_empty()),
        Items::Elements(list) => user.element_section(list).map(|()| list.is_empty()),
        Items::Bodies(list) => user.code_section(list).map(|()| list.is_empty()),
        Items::Segments(list) => user.data_section(list).map(|()| list.is_empty()),
        Items::Start(index) => {
            let mut start = (!is_absent).then_some(*index);
            user.start_section(&mut start)?;
            return Ok(start.map(Items::Start));
        }
        Items::DataCount(number) => {
            let mut count = (!is_absent).then_some(*number);
            user.data_count_section(&mut count)?;
            return Ok(count.map(Items::DataCount));
        }
        // A section of an id that the standard does not have.
        Items::Raw(_) => Ok(false),
        // The others are of custom sections.
        _ => user.custom_section(&mut items).map(|()| false),
    }?;
    Ok((!is_absent || !is_empty).then_some(items))
}
