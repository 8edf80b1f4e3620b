//! Types in the text format.
use dolzhytik::fallible::{
    AbstractHeapType, CompositeInnerType, CompositeType, FieldType, GlobalType, HeapType,
    MemoryType, RefType, StorageType, SubItem, TableType, ValType,
};
use std::fmt::{Display, Formatter, Result};

/// What is printed of a case that the library has and the program does not list: it has none today.
pub const OTHER: &str = "of another kind";

/// Prints a value in the text format.
pub struct Text<T>(pub T);

impl Text<AbstractHeapType> {
    /// The name of the heap type.
    pub fn name(&self) -> &'static str {
        self.names().0
    }

    /// The heap type, and what a nullable reference to it is called.
    fn names(&self) -> (&'static str, &'static str) {
        match self.0 {
            AbstractHeapType::Func => ("func", "funcref"),
            AbstractHeapType::Extern => ("extern", "externref"),
            AbstractHeapType::Any => ("any", "anyref"),
            AbstractHeapType::Eq => ("eq", "eqref"),
            AbstractHeapType::I31 => ("i31", "i31ref"),
            AbstractHeapType::Struct => ("struct", "structref"),
            AbstractHeapType::Array => ("array", "arrayref"),
            AbstractHeapType::Exn => ("exn", "exnref"),
            AbstractHeapType::Cont => ("cont", "contref"),
            AbstractHeapType::NoFunc => ("nofunc", "nullfuncref"),
            AbstractHeapType::NoExtern => ("noextern", "nullexternref"),
            AbstractHeapType::None => ("none", "nullref"),
            AbstractHeapType::NoExn => ("noexn", "nullexnref"),
            AbstractHeapType::NoCont => ("nocont", "nullcontref"),
        }
    }
}

impl Display for Text<HeapType> {
    fn fmt(&self, f: &mut Formatter<'_>) -> Result {
        match self.0 {
            HeapType::Abstract { shared: false, ty } => f.write_str(Text(ty).name()),
            HeapType::Abstract { shared: true, ty } => write!(f, "(shared {})", Text(ty).name()),
            HeapType::Concrete(index) => write!(f, "{index}"),
            HeapType::Exact(index) => write!(f, "(exact {index})"),
        }
    }
}

/// A reference type in its long form, which every heap type has.
pub struct LongRef(pub RefType);

impl Display for LongRef {
    fn fmt(&self, f: &mut Formatter<'_>) -> Result {
        let null = if self.0.nullable { "null " } else { "" };
        write!(f, "(ref {null}{})", Text(self.0.heap_type))
    }
}

impl Display for Text<RefType> {
    fn fmt(&self, f: &mut Formatter<'_>) -> Result {
        match (self.0.nullable, self.0.heap_type) {
            (true, HeapType::Abstract { shared: false, ty }) => f.write_str(Text(ty).names().1),
            _ => write!(f, "{}", LongRef(self.0)),
        }
    }
}

impl Display for Text<ValType> {
    fn fmt(&self, f: &mut Formatter<'_>) -> Result {
        match self.0 {
            ValType::I32 => f.write_str("i32"),
            ValType::I64 => f.write_str("i64"),
            ValType::F32 => f.write_str("f32"),
            ValType::F64 => f.write_str("f64"),
            ValType::V128 => f.write_str("v128"),
            ValType::Ref(ty) => write!(f, "{}", Text(ty)),
        }
    }
}

/// Types in parentheses, such as `(param i32 i64)`.
pub struct List<'a>(pub &'static str, pub &'a [ValType]);

impl Display for List<'_> {
    fn fmt(&self, f: &mut Formatter<'_>) -> Result {
        write!(f, "({}", self.0)?;
        self.1
            .iter()
            .try_for_each(|ty| write!(f, " {}", Text(*ty)))?;
        f.write_str(")")
    }
}

// ---- types that a module defines

impl Display for Text<StorageType> {
    fn fmt(&self, f: &mut Formatter<'_>) -> Result {
        match self.0 {
            StorageType::I8 => f.write_str("i8"),
            StorageType::I16 => f.write_str("i16"),
            StorageType::Val(ty) => write!(f, "{}", Text(ty)),
        }
    }
}

impl Display for Text<FieldType> {
    fn fmt(&self, f: &mut Formatter<'_>) -> Result {
        let ty = Text(self.0.element_type);
        if self.0.mutable {
            write!(f, "(mut {ty})")
        } else {
            write!(f, "{ty}")
        }
    }
}

impl Display for Text<&CompositeInnerType> {
    fn fmt(&self, f: &mut Formatter<'_>) -> Result {
        match self.0 {
            CompositeInnerType::Func(ty) => {
                f.write_str("(func")?;
                for (word, types) in [("param", ty.params()), ("result", ty.results())] {
                    if !types.is_empty() {
                        write!(f, " {}", List(word, types))?;
                    }
                }
            }
            CompositeInnerType::Array(ty) => write!(f, "(array {}", Text(ty.0))?,
            CompositeInnerType::Struct(ty) => {
                f.write_str("(struct")?;
                let mut fields = ty.fields.iter();
                fields.try_for_each(|field| write!(f, " (field {})", Text(*field)))?;
            }
            CompositeInnerType::Cont(ty) => write!(f, "(cont {}", ty.0)?,
        }
        f.write_str(")")
    }
}

impl Display for Text<&CompositeType> {
    fn fmt(&self, f: &mut Formatter<'_>) -> Result {
        let (open, close) = if self.0.shared {
            ("(shared ", ")")
        } else {
            ("", "")
        };
        f.write_str(open)?;
        if let Some(index) = self.0.describes {
            write!(f, "(describes {index}) ")?;
        }
        if let Some(index) = self.0.descriptor {
            write!(f, "(descriptor {index}) ")?;
        }
        write!(f, "{}{close}", Text(&self.0.inner))
    }
}

impl Display for Text<&SubItem> {
    fn fmt(&self, f: &mut Formatter<'_>) -> Result {
        let composite = Text(&self.0.composite_type);
        if self.0.is_final && self.0.supertypes.is_empty() {
            return write!(f, "{composite}");
        }
        f.write_str(if self.0.is_final {
            "(sub final"
        } else {
            "(sub"
        })?;
        let mut supertypes = self.0.supertypes.iter();
        supertypes.try_for_each(|index| write!(f, " {index}"))?;
        write!(f, " {composite})")
    }
}

// ---- types of tables, memories, globals and imports

/// The numbers of entries or pages that a table or memory has.
struct Limits {
    is_64: bool,
    minimum: u64,
    maximum: Option<u64>,
}

impl Display for Limits {
    fn fmt(&self, f: &mut Formatter<'_>) -> Result {
        f.write_str(if self.is_64 { "i64 " } else { "" })?;
        write!(f, "{}", self.minimum)?;
        self.maximum
            .map_or(Ok(()), |maximum| write!(f, " {maximum}"))
    }
}

impl Display for Text<TableType> {
    fn fmt(&self, f: &mut Formatter<'_>) -> Result {
        let limits = Limits {
            is_64: self.0.table64,
            minimum: self.0.minimum,
            maximum: self.0.maximum,
        };
        let shared = if self.0.shared { "shared " } else { "" };
        write!(f, "{shared}{limits} {}", Text(self.0.element_type))
    }
}

impl Display for Text<MemoryType> {
    fn fmt(&self, f: &mut Formatter<'_>) -> Result {
        let limits = Limits {
            is_64: self.0.memory64,
            minimum: self.0.minimum,
            maximum: self.0.maximum,
        };
        let shared = if self.0.shared { " shared" } else { "" };
        write!(f, "{limits}{shared}")?;
        match self.0.page_size_log2 {
            None => Ok(()),
            // The text format has the size, and only exponents below 64 have one of 64 bits.
            Some(exponent) => match 1u64.checked_shl(exponent) {
                Some(size) => write!(f, " (pagesize {size})"),
                None => write!(f, " (pagesize 2^{exponent})"),
            },
        }
    }
}

impl Display for Text<GlobalType> {
    fn fmt(&self, f: &mut Formatter<'_>) -> Result {
        let ty = Text(self.0.val_type);
        match (self.0.shared, self.0.mutable) {
            (false, false) => write!(f, "{ty}"),
            (false, true) => write!(f, "(mut {ty})"),
            (true, false) => write!(f, "(shared {ty})"),
            (true, true) => write!(f, "(shared mut {ty})"),
        }
    }
}
