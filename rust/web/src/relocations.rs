//! The texts and fields of relocations.
#![forbid(unsafe_code)]

use crate::fields::Fields;
use crate::relocation::{TypeName, addend_of, index_of, is_of_type, offset_of};
use crate::texts::Show;
use core::fmt::{self, Formatter};
use dolzhytik::fallible::Relocation;

/// What the index of a relocation is one of.
fn target_kind(relocation: &Relocation) -> &'static str {
    if is_of_type(relocation) {
        "type"
    } else {
        "symbol"
    }
}

impl Show for Relocation {
    fn show(&self, f: &mut Formatter<'_>) -> fmt::Result {
        let (name, offset) = (TypeName(self), offset_of(self));
        let (kind, index) = (target_kind(self), index_of(self));
        write!(f, "{name} offset {offset:#x} {kind} {index}")?;
        addend_of(self).map_or(Ok(()), |addend| write!(f, " addend {addend}"))
    }
}

/// An addend is a string, since JavaScript rounds numbers of 64 bits.
impl Fields for Relocation {
    fn fields(&self, f: &mut Formatter<'_>) -> fmt::Result {
        let (name, offset) = (TypeName(self), offset_of(self));
        let (kind, index) = (target_kind(self), index_of(self));
        write!(
            f,
            "{{\"type\":\"{name}\",\"section_offset\":{offset},\
             \"target\":{{\"kind\":\"{kind}\",\"index\":{index}}},\"addend\":"
        )?;
        match addend_of(self) {
            Some(addend) => write!(f, "\"{addend}\"}}"),
            None => f.write_str("null}"),
        }
    }
}
