//! What the lines of functions and items take from other sections: names, indices and types.
use crate::cursor::Cursor;
use crate::name::{Entry, Name, Source};
use crate::sections::Section;
use dolzhytik::fallible::{CompositeInnerType, EntityType, Export, ExportKind, Imports, SubItem};
use dolzhytik::reader::{Items, LinkItem, NameItem, ReadError, Symbol, TypeEntry};
use std::collections::HashMap;

/// An index space of a module.
#[derive(Clone, Copy, PartialEq, Eq, Hash, Debug)]
pub enum Space {
    Function,
    Table,
    Memory,
    Global,
    Tag,
    Type,
    Element,
    Data,
}

impl Space {
    /// What an entry of it is called.
    pub fn word(self) -> &'static str {
        match self {
            Space::Function => "function",
            Space::Table => "table",
            Space::Memory => "memory",
            Space::Global => "global",
            Space::Tag => "tag",
            Space::Type => "type",
            Space::Element => "element",
            Space::Data => "data",
        }
    }

    /// The space of an export.
    pub fn exported(kind: ExportKind) -> Self {
        match kind {
            ExportKind::Func => Space::Function,
            ExportKind::Table => Space::Table,
            ExportKind::Memory => Space::Memory,
            ExportKind::Global => Space::Global,
            ExportKind::Tag => Space::Tag,
        }
    }

    /// The space of an import.
    pub fn of(ty: &EntityType) -> Self {
        match ty {
            EntityType::Function(_) | EntityType::FunctionExact(_) => Space::Function,
            EntityType::Table(_) => Space::Table,
            EntityType::Memory(_) => Space::Memory,
            EntityType::Global(_) => Space::Global,
            EntityType::Tag(_) => Space::Tag,
        }
    }

    /// The space whose names are in the subsection of this id.
    pub fn of_names(id: u8) -> Option<Self> {
        match id {
            1 => Some(Space::Function),
            4 => Some(Space::Type),
            5 => Some(Space::Table),
            6 => Some(Space::Memory),
            7 => Some(Space::Global),
            8 => Some(Space::Element),
            9 => Some(Space::Data),
            11 => Some(Space::Tag),
            _ => None,
        }
    }
}

/// What the lines of functions and items take from other sections.
#[derive(Default)]
pub struct Context<'a> {
    /// The sections of the module, in their order.
    sections: Vec<Section<'a>>,
    /// The name of an entry that has precedence, and where it is from.
    names: HashMap<(Space, u32), (Source, Name<'a>)>,
    /// The imports of each space, by their indices.
    imports: [Vec<Name<'a>>; 5],
    symbols: Vec<Symbol<'a>>,
    /// The index of each function's type, first those of the imports.
    function_types: Vec<u32>,
    /// How many parameters each type has, none if it is no function type.
    parameters: Vec<u32>,
}

impl<'a> Context<'a> {
    /// Takes what the sections have up to their first byte that does not decode.
    pub fn of(sections: &[Section<'a>]) -> Self {
        let mut context = Context {
            sections: sections.to_vec(),
            ..Context::default()
        };
        let (imports, others): (Vec<_>, Vec<_>) = sections.iter().partition(|it| it.id() == 2);
        for section in imports.into_iter().chain(others) {
            // Whoever lists the section reports what does not decode.
            let _ = context.take(section);
        }
        context
    }

    fn take(&mut self, section: &Section<'a>) -> Result<(), ReadError> {
        let mut cursor = section.cursor();
        match (section.id(), section.name()) {
            (1, _) => cursor.each(|_, entry: TypeEntry| {
                self.take_type(&entry);
                Ok(())
            }),
            (2, _) => cursor.each(|_, imports: Imports<'a>| {
                each_import(&imports, |import| self.take_import(import));
                Ok(())
            }),
            (3, _) => cursor.each(|_, ty| {
                self.function_types.push(ty);
                Ok(())
            }),
            (7, _) => cursor.each(|_, export: Export<'a>| {
                let space = Space::exported(export.kind);
                self.give(
                    (space, export.index),
                    Source::Exports,
                    Name::Own(export.name),
                );
                Ok(())
            }),
            (_, Some("name")) => self.take_names(cursor),
            (_, Some("linking")) => self.take_linking(section),
            _ => Ok(()),
        }
    }

    /// Names an entry, unless it has a name of a source with precedence. An empty name is none.
    fn give(&mut self, entry: (Space, u32), source: Source, name: Name<'a>) {
        if name == Name::Own("") {
            return;
        }
        let given = self.names.entry(entry).or_insert((source, name));
        if given.0 <= source {
            *given = (source, name);
        }
    }

    fn take_type(&mut self, entry: &TypeEntry) {
        let parameters = |item: &SubItem| match &item.composite_type.inner {
            CompositeInnerType::Func(ty) => ty.params().len() as u32,
            _ => 0,
        };
        match entry {
            TypeEntry::Single(item) => self.parameters.push(parameters(item)),
            TypeEntry::Group(items) => self.parameters.extend(items.iter().map(parameters)),
        }
    }

    fn take_import(&mut self, import: OneImport<'_, 'a>) {
        let space = Space::of(import.ty);
        let name = Name::Imported {
            module: import.module,
            name: import.name,
        };
        self.give((space, self.imported(space)), Source::Imports, name);
        self.imports[space as usize].push(name);
        if let EntityType::Function(index) | EntityType::FunctionExact(index) = import.ty {
            self.function_types.push(*index);
        }
    }

    fn take_names(&mut self, mut cursor: Cursor<'a>) -> Result<(), ReadError> {
        cursor.read::<&str>()?;
        while !cursor.rest().is_empty() {
            let NameItem::Map { id, names } = cursor.read()? else {
                continue;
            };
            if let Some(space) = Space::of_names(id) {
                for (index, name) in names.iter() {
                    self.give((space, *index), Source::NameSection, Name::Own(name));
                }
            }
        }
        Ok(())
    }

    /// Takes symbols, their names, and those of data segments.
    fn take_linking(&mut self, section: &Section<'a>) -> Result<(), ReadError> {
        let Items::Linking(items) = section.items()? else {
            return Ok(());
        };
        for item in items.into_std() {
            match item {
                LinkItem::Symbols(symbols) => self.symbols.extend(symbols.into_std()),
                LinkItem::Segments(segments) => {
                    for (index, segment) in (0..).zip(segments.iter()) {
                        let name = Name::Own(segment.name);
                        self.give((Space::Data, index), Source::Linking, name);
                    }
                }
                _ => {}
            }
        }
        let named: Vec<_> = self.symbols.iter().filter_map(named_entry).collect();
        for (entry, name) in named {
            self.give(entry, Source::Linking, Name::Own(name));
        }
        Ok(())
    }

    /// The sources of the names that entries have, that with precedence first.
    pub fn sources(&self) -> Vec<Source> {
        let is_used = |source: &Source| self.names.values().any(|(it, _)| it == source);
        Source::ALL.into_iter().filter(is_used).collect()
    }

    /// How many entries of the space are imported, which is the index of the first that is not.
    pub fn imported(&self, space: Space) -> u32 {
        self.imports.get(space as usize).map_or(0, Vec::len) as u32
    }

    /// The name of an entry.
    pub fn name(&self, space: Space, index: u32) -> Option<Name<'a>> {
        self.names.get(&(space, index)).map(|(_, name)| *name)
    }

    /// The indices of the entries of a name.
    pub fn named(&self, space: Space, text: &str) -> Vec<u32> {
        let is_named = |((of, _), (_, name)): &(&(Space, u32), &(Source, Name<'a>))| {
            *of == space && name.is(text)
        };
        let named = self.names.iter().filter(is_named);
        named.map(|((_, index), _)| *index).collect()
    }

    /// The names of the entries below an index, except those that are of imports.
    pub fn own_names(&self, space: Space, end: usize) -> impl Iterator<Item = &'a str> {
        let names = self.names.iter();
        names.filter_map(move |((of, index), (_, name))| match name {
            Name::Own(name) if *of == space && (*index as usize) < end => Some(*name),
            _ => None,
        })
    }

    /// An index, with the name of its entry.
    pub fn entry(&self, space: Space, index: u32) -> Entry<'a> {
        Entry {
            kind: space.word(),
            index,
            name: self.name(space, index),
        }
    }

    /// The module and the name of an import.
    pub fn import(&self, space: Space, index: u32) -> Option<Name<'a>> {
        self.imports
            .get(space as usize)?
            .get(index as usize)
            .copied()
    }

    /// The section of an index, which counts from 0.
    pub fn section(&self, index: u32) -> Option<&Section<'a>> {
        self.sections.get(index as usize)
    }

    /// The index of a section, with its name, or that of its kind.
    pub fn section_entry(&self, index: u32) -> Entry<'a> {
        let name = |section: &Section<'a>| section.name().unwrap_or(section.kind_name());
        Entry {
            kind: "section",
            index,
            name: self.section(index).map(|section| Name::Own(name(section))),
        }
    }

    /// The symbol of an index.
    pub fn symbol(&self, index: u32) -> Option<&Symbol<'a>> {
        self.symbols.get(index as usize)
    }

    /// The index of a function's type.
    pub fn type_of(&self, function: u32) -> Option<u32> {
        self.function_types.get(function as usize).copied()
    }

    /// How many parameters the function has.
    pub fn parameters_of(&self, function: u32) -> Option<u32> {
        let ty = self.type_of(function)?;
        self.parameters.get(ty as usize).copied()
    }
}

/// The entry of a symbol with an index.
pub fn entry_of(symbol: &Symbol<'_>) -> Option<(Space, u32)> {
    match *symbol {
        Symbol::Function { index, .. } => Some((Space::Function, index)),
        Symbol::Global { index, .. } => Some((Space::Global, index)),
        Symbol::Table { index, .. } => Some((Space::Table, index)),
        Symbol::Tag { index, .. } => Some((Space::Tag, index)),
        _ => None,
    }
}

/// The name that a symbol has of its own.
pub fn own_name<'a>(symbol: &Symbol<'a>) -> Option<&'a str> {
    match *symbol {
        Symbol::Function { name, .. }
        | Symbol::Global { name, .. }
        | Symbol::Table { name, .. }
        | Symbol::Tag { name, .. } => name,
        Symbol::DataSymbol { name, .. } => Some(name),
        _ => None,
    }
}

/// The entry that a symbol names, if it names one.
fn named_entry<'a>(symbol: &Symbol<'a>) -> Option<((Space, u32), &'a str)> {
    Some((entry_of(symbol)?, own_name(symbol)?))
}

/// An import of a group or a single one.
pub struct OneImport<'i, 'a> {
    pub module: &'a str,
    pub name: &'a str,
    pub ty: &'i EntityType,
}

/// Passes each import of the entry.
pub fn each_import<'i, 'a>(imports: &'i Imports<'a>, mut pass: impl FnMut(OneImport<'i, 'a>)) {
    match imports {
        Imports::Single(import) => pass(OneImport {
            module: import.module,
            name: import.name,
            ty: &import.ty,
        }),
        Imports::Compact1 { module, items } => items.as_slice().iter().for_each(|item| {
            pass(OneImport {
                module,
                name: item.name,
                ty: &item.ty,
            })
        }),
        Imports::Compact2 { module, ty, names } => names
            .as_slice()
            .iter()
            .for_each(|name| pass(OneImport { module, name, ty })),
    }
}
