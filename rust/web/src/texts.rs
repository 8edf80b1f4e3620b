//! Texts of items, for the most part in the WebAssembly text format.
#![forbid(unsafe_code)]

use core::fmt::{self, Display, Formatter};
use dolzhytik::fallible::{
    AbstractHeapType, BranchHint, CodeHint, CompositeInnerType, CompositeType, EntityType, Export,
    ExportKind, FieldType, GlobalType, HeapType, Import, ImportCompact, Imports, MemoryType, Op,
    RefType, StorageType, SubItem, TableType, TagType, ValType, Vec,
};
use dolzhytik::reader::{
    Arg, ElementItem, ElementItemMode, ElementList, Expression, GlobalItem, LinkItem, Plain,
    Segment, TableItem, TypeEntry,
};

/// The text of a case that the library has and this package does not show: it has none today.
const OTHER: &str = "(; of another kind ;)";

/// How many elements of a segment are shown.
const MOST_ELEMENTS: usize = 16;

/// A value that has a text.
pub trait Show {
    fn show(&self, f: &mut Formatter<'_>) -> fmt::Result;
}

/// The text of a value.
pub struct Text<'a, T: Show>(pub &'a T);

impl<T: Show> Display for Text<'_, T> {
    fn fmt(&self, f: &mut Formatter<'_>) -> fmt::Result {
        self.0.show(f)
    }
}

/// A number of things, of which this is the word for one.
pub struct Count(pub u64, pub &'static str);

impl Display for Count {
    fn fmt(&self, f: &mut Formatter<'_>) -> fmt::Result {
        let Count(count, word) = self;
        let ending = if *count == 1 { "" } else { "s" };
        write!(f, "{count} {word}{ending}")
    }
}

/// Values with a space before each.
fn spaced<T: Show>(f: &mut Formatter<'_>, values: &[T]) -> fmt::Result {
    values
        .iter()
        .try_for_each(|value| write!(f, " {}", Text(value)))
}

/// A list with its keyword, or nothing where it is empty.
fn listed<T: Show>(f: &mut Formatter<'_>, keyword: &str, values: &[T]) -> fmt::Result {
    if values.is_empty() {
        return Ok(());
    }
    write!(f, " ({keyword}")?;
    spaced(f, values)?;
    f.write_str(")")
}

/// What stands around something, where it is so.
fn around(
    f: &mut Formatter<'_>,
    is_so: bool,
    before: &str,
    inner: impl FnOnce(&mut Formatter<'_>) -> fmt::Result,
) -> fmt::Result {
    if !is_so {
        return inner(f);
    }
    f.write_str(before)?;
    inner(f)?;
    f.write_str(")")
}

impl Show for u32 {
    fn show(&self, f: &mut Formatter<'_>) -> fmt::Result {
        self.fmt(f)
    }
}

// Types.

impl AbstractName for AbstractHeapType {
    fn names(&self) -> [&'static str; 2] {
        match self {
            AbstractHeapType::Func => ["func", "funcref"],
            AbstractHeapType::Extern => ["extern", "externref"],
            AbstractHeapType::Any => ["any", "anyref"],
            AbstractHeapType::Eq => ["eq", "eqref"],
            AbstractHeapType::I31 => ["i31", "i31ref"],
            AbstractHeapType::Struct => ["struct", "structref"],
            AbstractHeapType::Array => ["array", "arrayref"],
            AbstractHeapType::Exn => ["exn", "exnref"],
            AbstractHeapType::NoExn => ["noexn", "nullexnref"],
            AbstractHeapType::NoFunc => ["nofunc", "nullfuncref"],
            AbstractHeapType::NoExtern => ["noextern", "nullexternref"],
            AbstractHeapType::None => ["none", "nullref"],
            AbstractHeapType::Cont => ["cont", "contref"],
            AbstractHeapType::NoCont => ["nocont", "nullcontref"],
        }
    }
}

/// The names of an abstract heap type, and of the nullable reference to it.
trait AbstractName {
    fn names(&self) -> [&'static str; 2];
}

impl Show for HeapType {
    fn show(&self, f: &mut Formatter<'_>) -> fmt::Result {
        match self {
            HeapType::Abstract { shared, ty } => {
                around(f, *shared, "(shared ", |f| f.write_str(ty.names()[0]))
            }
            HeapType::Concrete(index) => index.fmt(f),
            HeapType::Exact(index) => write!(f, "(exact {index})"),
        }
    }
}

impl Show for RefType {
    fn show(&self, f: &mut Formatter<'_>) -> fmt::Result {
        match self {
            RefType {
                nullable: true,
                heap_type: HeapType::Abstract { shared: false, ty },
            } => f.write_str(ty.names()[1]),
            RefType {
                nullable,
                heap_type,
            } => {
                let null = if *nullable { "null " } else { "" };
                write!(f, "(ref {null}{})", Text(heap_type))
            }
        }
    }
}

impl Show for ValType {
    fn show(&self, f: &mut Formatter<'_>) -> fmt::Result {
        match self {
            ValType::I32 => f.write_str("i32"),
            ValType::I64 => f.write_str("i64"),
            ValType::F32 => f.write_str("f32"),
            ValType::F64 => f.write_str("f64"),
            ValType::V128 => f.write_str("v128"),
            ValType::Ref(ty) => ty.show(f),
        }
    }
}

impl Show for FieldType {
    fn show(&self, f: &mut Formatter<'_>) -> fmt::Result {
        around(f, self.mutable, "(mut ", |f| match &self.element_type {
            StorageType::I8 => f.write_str("i8"),
            StorageType::I16 => f.write_str("i16"),
            StorageType::Val(ty) => ty.show(f),
        })
    }
}

impl Show for CompositeInnerType {
    fn show(&self, f: &mut Formatter<'_>) -> fmt::Result {
        match self {
            CompositeInnerType::Func(ty) => {
                f.write_str("(func")?;
                listed(f, "param", ty.params())?;
                listed(f, "result", ty.results())?;
                f.write_str(")")
            }
            CompositeInnerType::Array(ty) => write!(f, "(array {})", Text(&ty.0)),
            CompositeInnerType::Struct(ty) => {
                f.write_str("(struct")?;
                listed(f, "field", &ty.fields)?;
                f.write_str(")")
            }
            CompositeInnerType::Cont(ty) => write!(f, "(cont {})", ty.0),
        }
    }
}

impl Show for CompositeType {
    fn show(&self, f: &mut Formatter<'_>) -> fmt::Result {
        around(f, self.shared, "(shared ", |f| {
            if let Some(index) = self.describes {
                write!(f, "(describes {index}) ")?;
            }
            if let Some(index) = self.descriptor {
                write!(f, "(descriptor {index}) ")?;
            }
            self.inner.show(f)
        })
    }
}

impl Show for SubItem {
    fn show(&self, f: &mut Formatter<'_>) -> fmt::Result {
        if self.is_final && self.supertypes.is_empty() {
            return self.composite_type.show(f);
        }
        f.write_str(if self.is_final { "(sub final" } else { "(sub" })?;
        spaced(f, &self.supertypes)?;
        write!(f, " {})", Text(&self.composite_type))
    }
}

impl Show for TypeEntry {
    fn show(&self, f: &mut Formatter<'_>) -> fmt::Result {
        match self {
            TypeEntry::Single(ty) => write!(f, "(type {})", Text(ty)),
            TypeEntry::Group(types) => {
                f.write_str("(rec")?;
                types
                    .iter()
                    .try_for_each(|ty| write!(f, " (type {})", Text(ty)))?;
                f.write_str(")")
            }
        }
    }
}

// Tables, memories, globals and tags.

/// Appends limits: `i64`, the minimum, the maximum and `shared`.
fn limits(
    f: &mut Formatter<'_>,
    is_64: bool,
    minimum: u64,
    maximum: Option<u64>,
    shared: bool,
) -> fmt::Result {
    let index = if is_64 { "i64 " } else { "" };
    write!(f, "{index}{minimum}")?;
    if let Some(maximum) = maximum {
        write!(f, " {maximum}")?;
    }
    f.write_str(if shared { " shared" } else { "" })
}

impl Show for TableType {
    fn show(&self, f: &mut Formatter<'_>) -> fmt::Result {
        limits(f, self.table64, self.minimum, self.maximum, self.shared)?;
        write!(f, " {}", Text(&self.element_type))
    }
}

impl Show for TableItem {
    fn show(&self, f: &mut Formatter<'_>) -> fmt::Result {
        write!(f, "(table {}", Text(&self.table_type))?;
        if let Some(init) = &self.init {
            write!(f, " {}", Text(init))?;
        }
        f.write_str(")")
    }
}

impl Show for MemoryType {
    fn show(&self, f: &mut Formatter<'_>) -> fmt::Result {
        f.write_str("(memory ")?;
        limits(f, self.memory64, self.minimum, self.maximum, self.shared)?;
        if let Some(exponent) = self.page_size_log2 {
            match 1u64.checked_shl(exponent) {
                Some(size) => write!(f, " (pagesize {size})")?,
                None => write!(f, " (pagesize 2^{exponent})")?,
            }
        }
        f.write_str(")")
    }
}

impl Show for GlobalType {
    fn show(&self, f: &mut Formatter<'_>) -> fmt::Result {
        around(f, self.shared, "(shared ", |f| {
            around(f, self.mutable, "(mut ", |f| self.val_type.show(f))
        })
    }
}

impl Show for GlobalItem {
    fn show(&self, f: &mut Formatter<'_>) -> fmt::Result {
        write!(
            f,
            "(global {} {})",
            Text(&self.global_type),
            Text(&self.init)
        )
    }
}

impl Show for TagType {
    fn show(&self, f: &mut Formatter<'_>) -> fmt::Result {
        write!(f, "(tag (type {}))", self.func_type_idx)
    }
}

// Imports and exports.

impl Show for EntityType {
    fn show(&self, f: &mut Formatter<'_>) -> fmt::Result {
        match self {
            EntityType::Function(index) => write!(f, "(func (type {index}))"),
            EntityType::Table(ty) => write!(f, "(table {})", Text(ty)),
            EntityType::Memory(ty) => ty.show(f),
            EntityType::Global(ty) => write!(f, "(global {})", Text(ty)),
            EntityType::Tag(ty) => ty.show(f),
            EntityType::FunctionExact(index) => write!(f, "(func exact (type {index}))"),
        }
    }
}

impl Show for &str {
    fn show(&self, f: &mut Formatter<'_>) -> fmt::Result {
        write!(f, "(item {self:?})")
    }
}

impl Show for ImportCompact<'_> {
    fn show(&self, f: &mut Formatter<'_>) -> fmt::Result {
        let ImportCompact { name, ty } = self;
        write!(f, "(item {name:?} {})", Text(ty))
    }
}

impl Show for Imports<'_> {
    fn show(&self, f: &mut Formatter<'_>) -> fmt::Result {
        match self {
            Imports::Single(Import { module, name, ty }) => {
                write!(f, "(import {module:?} {name:?} {})", Text(ty))
            }
            Imports::Compact1 { module, items } => {
                write!(f, "(import {module:?}")?;
                spaced(f, items.as_slice())?;
                f.write_str(")")
            }
            Imports::Compact2 { module, ty, names } => {
                write!(f, "(import {module:?}")?;
                spaced(f, names.as_slice())?;
                write!(f, " {})", Text(ty))
            }
        }
    }
}

impl Show for Export<'_> {
    fn show(&self, f: &mut Formatter<'_>) -> fmt::Result {
        let kind = match self.kind {
            ExportKind::Func => "func",
            ExportKind::Table => "table",
            ExportKind::Memory => "memory",
            ExportKind::Global => "global",
            ExportKind::Tag => "tag",
        };
        write!(f, "(export {:?} ({kind} {}))", self.name, self.index)
    }
}

// Expressions and segments.

/// The name of an instruction that a constant expression may have.
fn name_of(op: Op) -> Option<&'static str> {
    Some(match op {
        Op::Byte(0x23) => "global.get",
        Op::Byte(0x41) => "i32.const",
        Op::Byte(0x42) => "i64.const",
        Op::Byte(0x43) => "f32.const",
        Op::Byte(0x44) => "f64.const",
        Op::Byte(0x6A) => "i32.add",
        Op::Byte(0x6B) => "i32.sub",
        Op::Byte(0x6C) => "i32.mul",
        Op::Byte(0x7C) => "i64.add",
        Op::Byte(0x7D) => "i64.sub",
        Op::Byte(0x7E) => "i64.mul",
        Op::Byte(0xD0) => "ref.null",
        Op::Byte(0xD2) => "ref.func",
        Op::Prefixed(0xFB, 0) => "struct.new",
        Op::Prefixed(0xFB, 1) => "struct.new_default",
        Op::Prefixed(0xFB, 6) => "array.new",
        Op::Prefixed(0xFB, 7) => "array.new_default",
        Op::Prefixed(0xFB, 8) => "array.new_fixed",
        Op::Prefixed(0xFB, 26) => "any.convert_extern",
        Op::Prefixed(0xFB, 27) => "extern.convert_any",
        Op::Prefixed(0xFB, 28) => "ref.i31",
        Op::Prefixed(0xFD, 12) => "v128.const",
        _ => return None,
    })
}

/// The bits of a float's fraction.
const F32_FRACTION: u64 = (1 << 23) - 1;
const F64_FRACTION: u64 = (1 << 52) - 1;

/// Appends a float, whose fraction has these bits.
fn float<T: Display + Copy + Into<f64>>(
    f: &mut Formatter<'_>,
    value: T,
    fraction: u64,
) -> fmt::Result {
    let double: f64 = value.into();
    if !double.is_nan() {
        return value.fmt(f);
    }
    let sign = if double.is_sign_negative() { "-" } else { "" };
    write!(f, "{sign}nan:{fraction:#x}")
}

impl Show for Arg {
    fn show(&self, f: &mut Formatter<'_>) -> fmt::Result {
        match self {
            Arg::U32(value) => value.fmt(f),
            Arg::S32(value) => value.fmt(f),
            Arg::S64(value) => value.fmt(f),
            Arg::F32(value) => {
                let bits = value.bits();
                float(f, f32::from_bits(bits), u64::from(bits) & F32_FRACTION)
            }
            Arg::F64(value) => {
                let bits = value.bits();
                float(f, f64::from_bits(bits), bits & F64_FRACTION)
            }
            Arg::V128(value) => {
                let [low, high] = [*value as u64, (*value >> 64) as u64];
                write!(f, "i64x2 {low:#x} {high:#x}")
            }
            Arg::Heap(ty) => ty.show(f),
            _ => f.write_str("..."),
        }
    }
}

impl Show for Plain {
    fn show(&self, f: &mut Formatter<'_>) -> fmt::Result {
        match (name_of(self.op), self.op) {
            (Some(name), _) => write!(f, "({name}")?,
            (None, Op::Byte(byte)) => write!(f, "(opcode {byte:#x}")?,
            (None, Op::Prefixed(prefix, number)) => write!(f, "(opcode {prefix:#x} {number}")?,
        }
        spaced(f, &self.args)?;
        f.write_str(")")
    }
}

impl Show for Expression {
    fn show(&self, f: &mut Formatter<'_>) -> fmt::Result {
        let Expression(instructions) = self;
        match &**instructions {
            [] => f.write_str("()"),
            [first, others @ ..] => {
                first.show(f)?;
                spaced(f, others)
            }
        }
    }
}

/// Elements with a space before each, but for those past the most that are shown.
fn elements<T: Show>(f: &mut Formatter<'_>, values: &[T]) -> fmt::Result {
    let shown = values.len().min(MOST_ELEMENTS);
    spaced(f, &values[..shown])?;
    match values.len() - shown {
        0 => Ok(()),
        more => write!(f, " (; {more} more ;)"),
    }
}

impl Show for ElementItem {
    fn show(&self, f: &mut Formatter<'_>) -> fmt::Result {
        f.write_str("(elem")?;
        match &self.mode {
            ElementItemMode::Passive => {}
            ElementItemMode::Declared => f.write_str(" declare")?,
            ElementItemMode::Active { table, offset } => {
                if let Some(table) = table {
                    write!(f, " (table {table})")?;
                }
                write!(f, " {}", Text(offset))?;
            }
            _ => write!(f, " {OTHER}")?,
        }
        match &self.elements {
            ElementList::Functions(functions) => {
                f.write_str(" func")?;
                elements(f, functions)?;
            }
            ElementList::Expressions(ty, expressions) => {
                write!(f, " {}", Text(ty))?;
                elements(f, expressions)?;
            }
            _ => write!(f, " {OTHER}")?,
        }
        f.write_str(")")
    }
}

impl Show for Segment<'_> {
    fn show(&self, f: &mut Formatter<'_>) -> fmt::Result {
        f.write_str("(data ")?;
        let bytes = match self {
            Segment::Passive { bytes } => bytes,
            Segment::Active {
                memory,
                offset,
                bytes,
            } => {
                if *memory != 0 {
                    write!(f, "(memory {memory}) ")?;
                }
                write!(f, "{} ", Text(offset))?;
                bytes
            }
            _ => return write!(f, "{OTHER})"),
        };
        write!(f, "(; {} ;))", Count(bytes.len() as u64, "byte"))
    }
}

// Custom sections.

/// A field of the producers section.
impl Show for (&str, Vec<(&str, &str)>) {
    fn show(&self, f: &mut Formatter<'_>) -> fmt::Result {
        let (name, values) = self;
        write!(f, "({name}")?;
        for (value, version) in &**values {
            write!(f, " {value:?} {version:?}")?;
        }
        f.write_str(")")
    }
}

/// The branch hints of a function.
impl Show for (u32, Vec<BranchHint>) {
    fn show(&self, f: &mut Formatter<'_>) -> fmt::Result {
        let (function, hints) = self;
        let hints = Count(hints.len() as u64, "hint");
        write!(f, "function {function}: {hints}")
    }
}

/// The compilation hints of a function.
impl<T> Show for (u32, Vec<CodeHint<T>>) {
    fn show(&self, f: &mut Formatter<'_>) -> fmt::Result {
        let (function, hints) = self;
        let hints = Count(hints.len() as u64, "hint");
        write!(f, "function {function}: {hints}")
    }
}

impl Show for LinkItem<'_> {
    fn show(&self, f: &mut Formatter<'_>) -> fmt::Result {
        match self {
            LinkItem::Segments(segments) => Count(segments.len() as u64, "segment").fmt(f),
            LinkItem::InitFunctions(functions) => {
                Count(functions.len() as u64, "init function").fmt(f)
            }
            LinkItem::Comdats(comdats) => Count(comdats.len() as u64, "COMDAT group").fmt(f),
            LinkItem::Symbols(symbols) => Count(symbols.len() as u64, "symbol").fmt(f),
            LinkItem::Arch(name) => write!(f, "target {name:?}"),
            LinkItem::Other { id, bytes } => {
                write!(f, "subsection {id}: {}", Count(bytes.len() as u64, "byte"))
            }
            _ => f.write_str(OTHER),
        }
    }
}
