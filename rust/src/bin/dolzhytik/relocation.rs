//! The parts of relocations. The program and the JavaScript package share this file.
use core::fmt::{self, Debug, Display, Formatter, Write};
use dolzhytik::fallible::{PlainRelocation, Relocation};

/// The offset in the section.
pub fn offset_of(relocation: &Relocation) -> u32 {
    match *relocation {
        Relocation::Plain { offset, .. }
        | Relocation::Addend32 { offset, .. }
        | Relocation::Addend64 { offset, .. } => offset,
        _ => 0,
    }
}

/// The index of the symbol whose value is written, or of the type.
pub fn index_of(relocation: &Relocation) -> u32 {
    match *relocation {
        Relocation::Plain { index, .. }
        | Relocation::Addend32 { index, .. }
        | Relocation::Addend64 { index, .. } => index,
        _ => 0,
    }
}

/// The number that the linker adds, if the relocation has one.
pub fn addend_of(relocation: &Relocation) -> Option<i64> {
    match *relocation {
        Relocation::Addend32 { addend, .. } => Some(addend.into()),
        Relocation::Addend64 { addend, .. } => Some(addend),
        _ => None,
    }
}

/// Whether the index is that of a type.
pub fn is_of_type(relocation: &Relocation) -> bool {
    matches!(
        relocation,
        Relocation::Plain {
            kind: PlainRelocation::TypeIndexLeb,
            ..
        }
    )
}

/// The name of the type of a relocation in LLVM: `R_WASM_MEMORY_ADDR_I32` for `MemoryAddrI32`.
pub struct TypeName<'a>(pub &'a Relocation);

impl Display for TypeName<'_> {
    fn fmt(&self, f: &mut Formatter<'_>) -> fmt::Result {
        f.write_str("R_WASM")?;
        let kind: &dyn Debug = match self.0 {
            Relocation::Plain { kind, .. } => kind,
            Relocation::Addend32 { kind, .. } => kind,
            Relocation::Addend64 { kind, .. } => kind,
            _ => return Ok(()),
        };
        write!(Words(f), "{kind:?}")
    }
}

/// Writes each word of a text, such as `Memory` and `Addr`, in capitals after a `_`.
struct Words<'a, 'b>(&'a mut Formatter<'b>);

impl Write for Words<'_, '_> {
    fn write_str(&mut self, text: &str) -> fmt::Result {
        text.chars().try_for_each(|c| {
            if c.is_ascii_uppercase() {
                self.0.write_char('_')?;
            }
            self.0.write_char(c.to_ascii_uppercase())
        })
    }
}
