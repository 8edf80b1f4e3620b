//! Symbols, as `nm` shows them.
use crate::context::{Context, Space, entry_of, own_name};
use crate::dump::text::OTHER;
use crate::json::{Members, Value, members, object};
use crate::name::{Entry, Name};
use dolzhytik::fallible::{DataSymbolDefinition, SymbolTable};
use dolzhytik::reader::Symbol;
use std::fmt::{self, Display, Formatter};

/// The flags of symbols that are neither a binding nor a visibility, and their words. The tool
/// conventions, and LLVM after `WASM_SYMBOL_`, have these names.
const OTHER_FLAGS: [(u32, &str); 6] = [
    (SymbolTable::WASM_SYM_UNDEFINED, "undefined"),
    (SymbolTable::WASM_SYM_EXPORTED, "exported"),
    (SymbolTable::WASM_SYM_EXPLICIT_NAME, "explicit_name"),
    (SymbolTable::WASM_SYM_NO_STRIP, "no_strip"),
    (0x100, "tls"),
    (0x200, "absolute"),
];

/// The bits of the binding: weak, local.
const BINDING: u32 = SymbolTable::WASM_SYM_BINDING_WEAK | SymbolTable::WASM_SYM_BINDING_LOCAL;

/// The words of flags.
#[derive(Clone, Copy)]
struct Flags(u32);

impl Flags {
    fn has(self, flag: u32) -> bool {
        self.0 & flag != 0
    }

    fn binding(self) -> &'static str {
        match self.0 & BINDING {
            0 => "global",
            SymbolTable::WASM_SYM_BINDING_WEAK => "weak",
            SymbolTable::WASM_SYM_BINDING_LOCAL => "local",
            _ => "weak local",
        }
    }

    fn visibility(self) -> &'static str {
        if self.has(SymbolTable::WASM_SYM_VISIBILITY_HIDDEN) {
            "hidden"
        } else {
            "default"
        }
    }

    fn others(self) -> impl Iterator<Item = &'static str> {
        let others = OTHER_FLAGS
            .into_iter()
            .filter(move |(flag, _)| self.has(*flag));
        others.map(|(_, word)| word)
    }
}

/// `flags 0x14 global hidden undefined`.
impl Display for Flags {
    fn fmt(&self, f: &mut Formatter<'_>) -> fmt::Result {
        write!(
            f,
            "flags {:#x} {} {}",
            self.0,
            self.binding(),
            self.visibility()
        )?;
        self.others().try_for_each(|word| write!(f, " {word}"))
    }
}

/// A symbol of the module.
pub struct Shown<'c, 'a> {
    symbol: &'c Symbol<'a>,
    context: &'c Context<'a>,
    flags: Flags,
}

impl<'c, 'a> Shown<'c, 'a> {
    pub fn new(symbol: &'c Symbol<'a>, context: &'c Context<'a>) -> Self {
        let flags = match *symbol {
            Symbol::Function { flags, .. }
            | Symbol::Global { flags, .. }
            | Symbol::Table { flags, .. }
            | Symbol::Tag { flags, .. }
            | Symbol::DataSymbol { flags, .. }
            | Symbol::Section { flags, .. } => flags,
            _ => 0,
        };
        Shown {
            symbol,
            context,
            flags: Flags(flags),
        }
    }

    /// Its name, or that of its import or section.
    pub fn name(&self) -> Option<Name<'a>> {
        if let Symbol::Section { section, .. } = *self.symbol {
            return Some(Name::Own(self.context.section(section)?.name()?));
        }
        own_name(self.symbol)
            .map(Name::Own)
            .or_else(|| self.import())
    }

    /// The import of an undefined symbol.
    fn import(&self) -> Option<Name<'a>> {
        let (space, index) = entry_of(self.symbol)?;
        let is_undefined = self.flags.has(SymbolTable::WASM_SYM_UNDEFINED);
        is_undefined.then(|| self.context.import(space, index))?
    }

    /// The letter of `llvm-nm`.
    pub fn letter(&self) -> char {
        let is_undefined = self.flags.has(SymbolTable::WASM_SYM_UNDEFINED);
        let letter = match self.symbol {
            _ if self.flags.has(SymbolTable::WASM_SYM_BINDING_WEAK) => {
                return if is_undefined { 'w' } else { 'W' };
            }
            _ if is_undefined => return 'U',
            Symbol::Function { .. } => 't',
            _ => 'd',
        };
        if self.flags.has(SymbolTable::WASM_SYM_BINDING_LOCAL) {
            letter
        } else {
            letter.to_ascii_uppercase()
        }
    }

    fn kind(&self) -> &'static str {
        match self.symbol {
            Symbol::DataSymbol { .. } => "data",
            Symbol::Section { .. } => "section",
            symbol => entry_of(symbol).map_or(OTHER, |(space, _)| space.word()),
        }
    }

    /// What the symbol is in the module. Undefined data are nothing there.
    fn entry(&self) -> Option<Entry<'a>> {
        match self.symbol {
            Symbol::Section { section, .. } => Some(self.context.section_entry(*section)),
            Symbol::DataSymbol { definition, .. } => {
                let index = definition.as_ref()?.index;
                Some(self.context.entry(Space::Data, index))
            }
            symbol => entry_of(symbol).map(|(space, index)| self.context.entry(space, index)),
        }
    }

    /// Where data are in their segment.
    fn definition(&self) -> Option<&DataSymbolDefinition> {
        match self.symbol {
            Symbol::DataSymbol { definition, .. } => definition.as_ref(),
            _ => None,
        }
    }

    /// Its members in JSON, but for its index and name.
    pub fn members(&self) -> Members<'a> {
        let mut members = members! {
            "letter": self.letter().to_string(),
            "of": self.kind(),
            "entry": self.entry(),
        };
        if let Some(it) = self.definition() {
            members.extend(members! { "segment_offset": it.offset, "size": it.size });
        }
        if let Some(Name::Imported { module, name }) = self.import() {
            members.extend(members! { "import": object! { "module": module, "name": name } });
        }
        members.extend(members! {
            "binding": self.flags.binding(),
            "visibility": self.flags.visibility(),
            "undefined": self.flags.has(SymbolTable::WASM_SYM_UNDEFINED),
            "flags": self.flags.0,
            "flag_words": Value::list(self.flags.others()),
        });
        members
    }
}

/// `T <f> function 2, flags 0x4 global hidden`.
impl Display for Shown<'_, '_> {
    fn fmt(&self, f: &mut Formatter<'_>) -> fmt::Result {
        write!(f, "{}", self.letter())?;
        if let Some(name) = self.name() {
            write!(f, " {name}")?;
        }
        write!(f, " {}", self.kind())?;
        match (self.entry(), self.definition()) {
            (Some(segment), Some(it)) => {
                write!(f, " {segment} offset {} size {}", it.offset, it.size)?;
            }
            (Some(entry), None) => write!(f, " {}", entry.index)?,
            (None, _) => {}
        }
        write!(f, ", {}", self.flags)
    }
}
