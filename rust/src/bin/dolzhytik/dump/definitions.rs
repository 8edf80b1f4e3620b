//! What entries of index spaces are, beside their indices and names.
use crate::context::{Context, Space};
use crate::dump::operands::Named;
use crate::dump::text::Text;
use crate::json::{Members, members};
use dolzhytik::fallible::{EntityType, MemoryType, TagType};
use dolzhytik::reader::{GlobalItem, TableItem};

/// A definition, or the type of an import.
pub trait Defined {
    /// It in the text format.
    fn text(&self, context: &Context<'_>) -> String;

    /// Its members in JSON.
    fn members<'s>(&'s self, context: &'s Context<'s>) -> Members<'s>;
}

/// The type of a function or a tag.
impl Defined for u32 {
    fn text(&self, context: &Context<'_>) -> String {
        format!("(type {})", context.entry(Space::Type, *self))
    }

    fn members<'s>(&'s self, _: &'s Context<'s>) -> Members<'s> {
        members! { "type": *self }
    }
}

impl Defined for TagType {
    fn text(&self, context: &Context<'_>) -> String {
        self.func_type_idx.text(context)
    }

    fn members<'s>(&'s self, context: &'s Context<'s>) -> Members<'s> {
        self.func_type_idx.members(context)
    }
}

impl Defined for MemoryType {
    fn text(&self, _: &Context<'_>) -> String {
        Text(*self).to_string()
    }

    fn members<'s>(&'s self, _: &'s Context<'s>) -> Members<'s> {
        members! { "type": *self }
    }
}

impl Defined for TableItem {
    fn text(&self, context: &Context<'_>) -> String {
        let ty = Text(self.table_type);
        match &self.init {
            None => ty.to_string(),
            Some(init) => format!("{ty} {}", Named(context, init)),
        }
    }

    fn members<'s>(&'s self, context: &'s Context<'s>) -> Members<'s> {
        let init = self.init.as_ref().map(|init| Named(context, init));
        members! { "type": self.table_type, "init": init }
    }
}

impl Defined for GlobalItem {
    fn text(&self, context: &Context<'_>) -> String {
        format!("{} {}", Text(self.global_type), Named(context, &self.init))
    }

    fn members<'s>(&'s self, context: &'s Context<'s>) -> Members<'s> {
        members! { "type": self.global_type, "init": Named(context, &self.init) }
    }
}

impl Defined for EntityType {
    fn text(&self, context: &Context<'_>) -> String {
        match self {
            EntityType::Function(index) => index.text(context),
            EntityType::FunctionExact(index) => format!("(exact {})", index.text(context)),
            EntityType::Table(ty) => Text(*ty).to_string(),
            EntityType::Memory(ty) => ty.text(context),
            EntityType::Global(ty) => Text(*ty).to_string(),
            EntityType::Tag(ty) => ty.text(context),
        }
    }

    fn members<'s>(&'s self, context: &'s Context<'s>) -> Members<'s> {
        match self {
            EntityType::Function(index) => index.members(context),
            EntityType::FunctionExact(index) => members! { "type": *index, "exact": true },
            EntityType::Table(ty) => members! { "type": *ty },
            EntityType::Memory(ty) => ty.members(context),
            EntityType::Global(ty) => members! { "type": *ty },
            EntityType::Tag(ty) => ty.members(context),
        }
    }
}
