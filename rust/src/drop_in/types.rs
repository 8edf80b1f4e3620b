//! The type section, and the types that a module defines.
use super::NONE;
use crate::base::Entries;
use crate::ending::Root;
use crate::types;
use crate::types::type_section::{CoreTypeEncoderIn, TypeSectionIn};
use core::hash::{Hash, Hasher};

#[doc = text!(FuncType)]
pub struct FuncType(pub(super) types::FuncType);

implement!(FuncType Clone);
implement!(FuncType Encode);
implement!(FuncType From types |built| built);

impl PartialEq for FuncType {
    fn eq(&self, other: &Self) -> bool {
        self.params() == other.params() && self.results() == other.results()
    }
}

impl Eq for FuncType {}

impl Hash for FuncType {
    fn hash<H: Hasher>(&self, state: &mut H) {
        self.params().hash(state);
        self.results().hash(state);
    }
}

builders! {
    types, (const fn) = TypeSectionIn { entries: NONE };
    TypeSection { Clone } { Default } { Section Type } { Debug bytes num_added }
}

#[doc = text!(CoreTypeEncoder)]
pub struct CoreTypeEncoder<'a>(pub(super) CoreTypeEncoderIn<'a, Entries<Root>>);
