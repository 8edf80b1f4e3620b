//! Lists the sections of the standard but for the code section.
use crate::context::{Context, Space, each_import};
use crate::cursor::Cursor;
use crate::dump::Stop;
use crate::dump::definitions::Defined;
use crate::dump::listing::{Content, Item, Listing, Title, range};
use crate::dump::operands::Named;
use crate::dump::relocations::Patches;
use crate::dump::text::{OTHER, Text};
use crate::json::{Members, Value, members, object};
use crate::name::Entry;
use crate::sections::Section;
use dolzhytik::fallible::{Export, Global, GlobalItem, Imports, MemoryType, SubItem, TagType};
use dolzhytik::reader::{
    ElementItem, ElementItemMode, ElementList, Expression, Readable, Segment, Standard, TableItem,
    TypeEntry,
};
use std::io::Write;

/// Lists the items of a section.
pub struct Items<'i, 'a, W: Write> {
    pub context: &'i Context<'a>,
    pub listing: &'i mut Listing<W>,
    pub patches: &'i mut Patches<'a>,
}

impl<'a, W: Write> Items<'_, 'a, W> {
    /// Lists the items of a section of an id from 1 to 13, but for the code section.
    pub fn list(&mut self, section: &Section<'a>) -> Result<(), Stop> {
        let cursor = &mut section.cursor();
        match section.id() {
            1 => self.types(cursor),
            2 => self.imports(cursor),
            3 => self.entries::<u32>(cursor, Space::Function),
            4 => self.entries::<TableItem>(cursor, Space::Table),
            5 => self.entries::<MemoryType>(cursor, Space::Memory),
            6 => self.entries::<GlobalItem>(cursor, Space::Global),
            7 => self.exports(cursor),
            8 => self.start(cursor),
            9 => self.elements(cursor),
            11 => self.segments(cursor),
            12 => self.data_count(cursor),
            _ => self.entries::<TagType>(cursor, Space::Tag),
        }?;
        Ok(cursor.finish()?)
    }

    /// Prints an entry of an index space.
    fn entry(
        &mut self,
        space: Space,
        index: u32,
        offset: usize,
        content: Content<'_>,
    ) -> Result<(), Stop> {
        Ok(self.listing.item(Item {
            offset: Some(offset),
            kind: space.word(),
            index: Some(index),
            title: Some(Title::Entry(self.context.name(space, index))),
            content,
            ..Item::default()
        })?)
    }

    /// Lists the members of a vector, which are entries of the space.
    fn entries<T: Readable<'a, Global, Standard> + Defined>(
        &mut self,
        cursor: &mut Cursor<'a>,
        space: Space,
    ) -> Result<(), Stop> {
        let mut indices = self.context.imported(space)..;
        cursor.each(|offset, item: T| {
            let index = indices.next().unwrap_or(u32::MAX);
            let context = self.context;
            let content = self
                .listing
                .content(|| item.text(context), || item.members(context));
            self.entry(space, index, offset, content)
        })
    }

    /// Prints an item that has neither an index nor a name.
    fn plain(
        &mut self,
        offset: usize,
        kind: &'static str,
        content: Content<'_>,
    ) -> Result<(), Stop> {
        Ok(self.listing.item(Item {
            offset: Some(offset),
            kind,
            content,
            ..Item::default()
        })?)
    }

    fn start(&mut self, cursor: &mut Cursor<'a>) -> Result<(), Stop> {
        let offset = cursor.offset();
        let entry = self.context.entry(Space::Function, cursor.read()?);
        let content = self
            .listing
            .content(|| use_of(entry), || members! { "entry": entry });
        self.plain(offset, "start", content)
    }

    fn data_count(&mut self, cursor: &mut Cursor<'a>) -> Result<(), Stop> {
        let offset = cursor.offset();
        let count: u32 = cursor.read()?;
        let content = self
            .listing
            .content(|| count.to_string(), || members! { "count": count });
        self.plain(offset, "data count", content)
    }

    /// Lists the types. A line for a recursion group is before its members.
    fn types(&mut self, cursor: &mut Cursor<'a>) -> Result<(), Stop> {
        let mut index = 0;
        let count: u32 = cursor.read()?;
        for _ in 0..count {
            let (offset, mut types) = (cursor.offset(), *cursor);
            match cursor.read()? {
                TypeEntry::Single(item) => self.sub_type(&mut index, offset, &item)?,
                TypeEntry::Group(items) => {
                    let content = self.listing.content(
                        || format!("of {}", items.len()),
                        || members! { "count": items.len() },
                    );
                    self.plain(offset, "rec", content)?;
                    // The byte before the members says that they are a group.
                    types.read::<u8>()?;
                    types.each(|offset, item| self.sub_type(&mut index, offset, &item))?;
                }
            }
        }
        Ok(())
    }

    fn sub_type(&mut self, index: &mut u32, offset: usize, item: &SubItem) -> Result<(), Stop> {
        let content = self
            .listing
            .content(|| Text(item).to_string(), || members! { "type": item });
        self.entry(Space::Type, *index, offset, content)?;
        *index += 1;
        Ok(())
    }

    fn imports(&mut self, cursor: &mut Cursor<'a>) -> Result<(), Stop> {
        let mut next = [0u32; 5];
        cursor.each(|offset, imports: Imports<'a>| {
            let mut listed = Ok(());
            each_import(&imports, |import| {
                let space = Space::of(import.ty);
                let index = next[space as usize];
                next[space as usize] += 1;
                let (module, name, context) = (import.module, import.name, self.context);
                let content = self.listing.content(
                    || format!("(import {module:?} {name:?}) {}", import.ty.text(context)),
                    || {
                        let mut members = import.ty.members(context);
                        members.push(("import", object! { "module": module, "name": name }));
                        members
                    },
                );
                if listed.is_ok() {
                    listed = self.entry(space, index, offset, content);
                }
            });
            listed
        })
    }

    fn exports(&mut self, cursor: &mut Cursor<'a>) -> Result<(), Stop> {
        cursor.each(|offset, export: Export<'a>| {
            let space = Space::exported(export.kind);
            let entry = self.context.entry(space, export.index);
            let content = self
                .listing
                .content(|| use_of(entry), || members! { "entry": entry });
            Ok(self.listing.item(Item {
                offset: Some(offset),
                kind: "export",
                title: Some(Title::Own(export.name)),
                content,
                ..Item::default()
            })?)
        })
    }

    // ---- segments

    fn elements(&mut self, cursor: &mut Cursor<'a>) -> Result<(), Stop> {
        let mut indices = 0u32..;
        cursor.each(|offset, segment: ElementItem| {
            let index = indices.next().unwrap_or(u32::MAX);
            let context = self.context;
            let content = self.listing.content(
                || {
                    format!(
                        "{} {}",
                        mode_of(&segment, context).text(),
                        type_of(&segment)
                    )
                },
                || element_members(&segment, context),
            );
            self.entry(Space::Element, index, offset, content)?;
            if self.listing.is_json() {
                return Ok(());
            }
            match &segment.elements {
                ElementList::Functions(functions) => self.members(functions, |function| {
                    use_of(context.entry(Space::Function, *function))
                }),
                ElementList::Expressions(_, expressions) => {
                    self.members(expressions, |it| Named(context, it).to_string())
                }
                _ => Ok(()),
            }
        })
    }

    /// Lists the members of an element segment.
    fn members<T>(&mut self, members: &[T], text: impl Fn(&T) -> String) -> Result<(), Stop> {
        (0..).zip(members).try_for_each(|(index, member)| {
            Ok(self.listing.item(Item {
                kind: "item",
                index: Some(index),
                content: Content::Text(text(member)),
                ..Item::default()
            })?)
        })
    }

    fn segments(&mut self, cursor: &mut Cursor<'a>) -> Result<(), Stop> {
        let count: u32 = cursor.read()?;
        for index in 0..count {
            let offset = cursor.offset();
            let segment: Segment<'a> = cursor.read()?;
            let bytes = match segment {
                Segment::Passive { bytes } | Segment::Active { bytes, .. } => bytes,
                _ => &[],
            };
            let begun = cursor.offset() - bytes.len();
            let mode = match &segment {
                Segment::Passive { .. } => Mode::named("passive"),
                Segment::Active { memory, offset, .. } => Mode {
                    word: "active",
                    of: Some(self.context.entry(Space::Memory, *memory)),
                    address: Some(Named(self.context, offset)),
                },
                _ => Mode::named(OTHER),
            };
            if self.listing.is_json() {
                let mut members = mode.members();
                members.push(("data", Value::Object(range(begun, bytes, self.patches))));
                self.entry(Space::Data, index, offset, Content::Json(members))?;
            } else {
                let text = format!("{}, size {}", mode.text(), bytes.len());
                self.entry(Space::Data, index, offset, Content::Text(text))?;
                self.listing.rows(begun, bytes, self.patches)?;
            }
        }
        Ok(())
    }
}

/// How a segment is used: where an active one is copied to.
struct Mode<'m> {
    word: &'static str,
    of: Option<Entry<'m>>,
    address: Option<Named<'m>>,
}

impl<'m> Mode<'m> {
    fn named(word: &'static str) -> Self {
        Mode {
            word,
            of: None,
            address: None,
        }
    }

    fn text(&self) -> String {
        match (&self.of, &self.address) {
            (Some(of), Some(address)) => format!("({} {of}) (offset {address})", of.kind),
            _ => self.word.into(),
        }
    }

    fn members(self) -> Members<'m> {
        members! { "mode": self.word, "of": self.of, "address": self.address }
    }
}

fn mode_of<'m>(segment: &'m ElementItem, context: &'m Context<'m>) -> Mode<'m> {
    match &segment.mode {
        ElementItemMode::Passive => Mode::named("passive"),
        ElementItemMode::Declared => Mode::named("declare"),
        ElementItemMode::Active { table, offset } => Mode {
            word: "active",
            of: Some(context.entry(Space::Table, table.unwrap_or(0))),
            address: Some(Named(context, offset)),
        },
        _ => Mode::named(OTHER),
    }
}

/// The type of the members of an element segment.
fn type_of(segment: &ElementItem) -> String {
    match &segment.elements {
        ElementList::Functions(_) => "func".into(),
        ElementList::Expressions(ty, _) => Text(*ty).to_string(),
        _ => OTHER.into(),
    }
}

fn element_members<'m>(segment: &'m ElementItem, context: &'m Context<'m>) -> Members<'m> {
    let mut members = mode_of(segment, context).members();
    match &segment.elements {
        ElementList::Functions(functions) => {
            let entries = functions.iter();
            let entries = entries.map(|index| context.entry(Space::Function, *index));
            members.push(("functions", Value::list(entries)));
        }
        ElementList::Expressions(ty, expressions) => {
            let named = |it: &'m Expression| Named(context, it);
            members.push(("type", (*ty).into()));
            members.push(("expressions", Value::list(expressions.iter().map(named))));
        }
        _ => {}
    }
    members
}

/// An entry in parentheses: `(func 2 <f>)`.
fn use_of(entry: Entry<'_>) -> String {
    let keyword = match entry.kind {
        "function" => "func",
        kind => kind,
    };
    format!("({keyword} {entry})")
}
