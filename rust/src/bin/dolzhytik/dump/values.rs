//! Types as JSON.
use crate::dump::text::Text;
use crate::json::{Members, Value, members, object};
use dolzhytik::fallible::{
    CompositeInnerType, FieldType, GlobalType, HeapType, MemoryType, RefType, StorageType, SubItem,
    TableType, ValType,
};

impl From<HeapType> for Value<'_> {
    fn from(ty: HeapType) -> Self {
        match ty {
            HeapType::Abstract { shared, ty } => {
                object! { "abstract": Text(ty).name(), "shared": shared }
            }
            HeapType::Concrete(index) => object! { "index": index, "exact": false },
            HeapType::Exact(index) => object! { "index": index, "exact": true },
        }
    }
}

impl From<RefType> for Value<'_> {
    fn from(ty: RefType) -> Self {
        object! { "nullable": ty.nullable, "heap": ty.heap_type }
    }
}

/// A string for a number or vector type, and an object for a reference type.
impl From<ValType> for Value<'_> {
    fn from(ty: ValType) -> Self {
        match ty {
            ValType::Ref(ty) => ty.into(),
            other => Text(other).to_string().into(),
        }
    }
}

impl From<FieldType> for Value<'_> {
    fn from(field: FieldType) -> Self {
        let ty = match field.element_type {
            StorageType::Val(ty) => ty.into(),
            packed => Value::from(Text(packed).to_string()),
        };
        object! { "type": ty, "mutable": field.mutable }
    }
}

impl From<&SubItem> for Value<'_> {
    fn from(item: &SubItem) -> Self {
        let composite = &item.composite_type;
        let mut members = members! {
            "final": item.is_final,
            "supertypes": Value::list(item.supertypes.iter().copied()),
            "shared": composite.shared,
            "describes": composite.describes,
            "descriptor": composite.descriptor,
        };
        members.extend(defined(&composite.inner));
        Value::Object(members)
    }
}

fn defined<'a>(ty: &CompositeInnerType) -> Members<'a> {
    match ty {
        CompositeInnerType::Func(ty) => members! {
            "form": "func",
            "params": Value::list(ty.params().iter().copied()),
            "results": Value::list(ty.results().iter().copied()),
        },
        CompositeInnerType::Array(ty) => members! { "form": "array", "element": ty.0 },
        CompositeInnerType::Struct(ty) => {
            members! { "form": "struct", "fields": Value::list(ty.fields.iter().copied()) }
        }
        CompositeInnerType::Cont(ty) => members! { "form": "cont", "function": ty.0 },
    }
}

/// The type of the indices or addresses.
fn address(is_64: bool) -> &'static str {
    if is_64 { "i64" } else { "i32" }
}

impl From<TableType> for Value<'_> {
    fn from(ty: TableType) -> Self {
        object! {
            "element": ty.element_type,
            "address": address(ty.table64),
            "minimum": ty.minimum,
            "maximum": ty.maximum,
            "shared": ty.shared,
        }
    }
}

impl From<MemoryType> for Value<'_> {
    fn from(ty: MemoryType) -> Self {
        object! {
            "address": address(ty.memory64),
            "minimum": ty.minimum,
            "maximum": ty.maximum,
            "shared": ty.shared,
            "page_size_log2": ty.page_size_log2,
        }
    }
}

impl From<GlobalType> for Value<'_> {
    fn from(ty: GlobalType) -> Self {
        object! { "value": ty.val_type, "mutable": ty.mutable, "shared": ty.shared }
    }
}
