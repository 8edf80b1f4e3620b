//! Relocations, and what they patch.
use crate::color::Dim;
use crate::context::{Context, Space};
use crate::dump::symbols::Shown;
use crate::json::{Members, Value, members};
use crate::name::Entry;
use crate::references::is_of_relocations;
use crate::relocation::{TypeName, addend_of, index_of, is_of_type, offset_of};
use crate::sections::Section;
use dolzhytik::fallible::Relocation;
use dolzhytik::reader::{Items, ReadError};
use std::collections::HashMap;
use std::fmt::{self, Display, Formatter};

/// A relocation of a section of the module.
#[derive(Clone, Copy)]
pub struct Patch<'c> {
    relocation: Relocation,
    /// The offset in the file that offsets of the section count from, if there is such a section.
    base: Option<usize>,
    context: &'c Context<'c>,
}

impl<'c> Patch<'c> {
    pub fn new(relocation: Relocation, of: Option<&Section<'_>>, context: &'c Context<'c>) -> Self {
        Patch {
            relocation,
            base: of.map(|section| section.content().offset()),
            context,
        }
    }

    /// The offset in the section.
    fn offset(&self) -> u32 {
        offset_of(&self.relocation)
    }

    /// The offset in the file.
    fn file_offset(&self) -> Option<usize> {
        self.base?.checked_add(self.offset() as usize)
    }

    /// Whether its offset in the file is before this one.
    fn is_before(&self, end: usize) -> bool {
        self.file_offset().is_some_and(|offset| offset < end)
    }

    /// The symbol whose value is written, or the type.
    fn target(&self) -> Entry<'c> {
        let index = index_of(&self.relocation);
        if is_of_type(&self.relocation) {
            self.context.entry(Space::Type, index)
        } else {
            symbol_entry(self.context, index)
        }
    }

    /// What a line of a relocation section has of it.
    pub fn text(&self) -> String {
        let (kind, offset, target) = (TypeName(&self.relocation), self.offset(), self.target());
        let addend = addend_of(&self.relocation).map(|addend| format!(" addend {addend}"));
        let addend = addend.unwrap_or_default();
        format!("{kind} offset {offset:#x} {} {target}{addend}", target.kind)
    }

    pub fn members(&self) -> Members<'c> {
        members! {
            "type": TypeName(&self.relocation).to_string(),
            "offset": self.file_offset(),
            "section_offset": self.offset(),
            "target": self.target(),
            "addend": addend_of(&self.relocation),
        }
    }
}

/// `0000bd: R_WASM_MEMORY_ADDR_LEB 1 <counter>+0`.
impl Display for Patch<'_> {
    fn fmt(&self, f: &mut Formatter<'_>) -> fmt::Result {
        let offset = self.file_offset().unwrap_or_default();
        let offset = Dim(format_args!("{offset:06x}"));
        let name = TypeName(&self.relocation);
        write!(f, "{offset}: {name} {}", self.target())?;
        addend_of(&self.relocation).map_or(Ok(()), |addend| write!(f, "{addend:+}"))
    }
}

impl<'c> From<&Patch<'c>> for Value<'c> {
    fn from(patch: &Patch<'c>) -> Self {
        Value::Object(patch.members())
    }
}

/// The symbol of an index, with its name.
pub fn symbol_entry<'c>(context: &'c Context<'c>, index: u32) -> Entry<'c> {
    Entry {
        kind: "symbol",
        index,
        name: context
            .symbol(index)
            .and_then(|symbol| Shown::new(symbol, context).name()),
    }
}

/// The relocations of the sections of a module, in the order of their offsets.
#[derive(Default)]
pub struct Relocations<'c>(HashMap<usize, Vec<Patch<'c>>>);

impl<'c> Relocations<'c> {
    /// Takes those of sections that decode, and passes the errors of the others.
    pub fn of(
        sections: &[Section<'_>],
        context: &'c Context<'c>,
        mut report: impl FnMut(&Section<'_>, ReadError),
    ) -> Self {
        let mut of: HashMap<usize, Vec<Patch<'c>>> = HashMap::new();
        for section in sections.iter().filter(|it| is_of_relocations(it)) {
            match section.items() {
                Err(error) => report(section, error),
                Ok(Items::Relocations {
                    section,
                    relocations,
                    ..
                }) => {
                    let patched = context.section(section);
                    let patch = |relocation: &Relocation| Patch::new(*relocation, patched, context);
                    let patches = of.entry(section as usize).or_default();
                    patches.extend(relocations.iter().map(patch));
                }
                Ok(_) => {}
            }
        }
        of.values_mut()
            .for_each(|patches| patches.sort_by_key(Patch::offset));
        Relocations(of)
    }

    /// Those of a section.
    pub fn patches<'r>(&'r self, section: &Section<'_>) -> Patches<'r> {
        let patches = self.0.get(&(section.number - 1));
        Patches(patches.map_or(&[], Vec::as_slice))
    }
}

/// The relocations that are not listed yet.
#[derive(Clone, Copy, Default)]
pub struct Patches<'r>(&'r [Patch<'r>]);

impl<'r> Patches<'r> {
    /// Takes those at offsets in the file before this one.
    #[inline]
    pub fn before(&mut self, end: usize) -> &'r [Patch<'r>] {
        let count = self.0.iter().take_while(|it| it.is_before(end)).count();
        let (taken, left) = self.0.split_at(count);
        self.0 = left;
        taken
    }

    /// Whether one is at an offset in the file before this one.
    pub fn has_before(&self, end: usize) -> bool {
        self.0.first().is_some_and(|it| it.is_before(end))
    }

    /// Takes all others.
    pub fn others(&mut self) -> &'r [Patch<'r>] {
        std::mem::take(&mut self.0)
    }
}
