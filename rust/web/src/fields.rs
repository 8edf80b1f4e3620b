//! The fields of items and instructions, as JSON that JavaScript parses. Types and constant
//! expressions are strings in the text format, which have no characters that JSON escapes.
#![forbid(unsafe_code)]

use crate::texts::Text;
use core::fmt::{self, Display, Formatter, Write};
use dolzhytik::fallible::{
    BlockType, BranchHint, CallTarget, Catch, CodeHint, CompilationOrder, CompositeInnerType,
    EntityType, Export, ExportKind, Global, GlobalType, Handle, Import, Imports,
    InstructionFrequency, MemArg, MemArgOrdering, MemArgTarget, MemoryType, Op, Ordering, SubItem,
    TableType, TagType, ValType, Vec,
};
use dolzhytik::reader::{
    Arg, ElementItem, ElementItemMode, ElementList, GlobalItem, LinkItem, Segment, Symbol,
    TableItem, TypeEntry,
};

/// A value that has fields: a JSON object, or a list of objects.
pub trait Fields {
    fn fields(&self, f: &mut Formatter<'_>) -> fmt::Result;
}

/// The fields of a value.
pub struct FieldsOf<'a, T: Fields>(pub &'a T);

impl<T: Fields> Display for FieldsOf<'_, T> {
    fn fmt(&self, f: &mut Formatter<'_>) -> fmt::Result {
        self.0.fields(f)
    }
}

/// A text as a JSON string.
pub struct Quoted<'a>(pub &'a str);

impl Display for Quoted<'_> {
    fn fmt(&self, f: &mut Formatter<'_>) -> fmt::Result {
        f.write_char('"')?;
        let mut rest = self.0;
        while let Some(at) = rest.find(|c: char| matches!(c, '"' | '\\' | '\0'..='\x1f')) {
            let escaped = u32::from(rest.as_bytes()[at]);
            write!(f, "{}\\u{escaped:04x}", &rest[..at])?;
            rest = &rest[at + 1..];
        }
        write!(f, "{rest}\"")
    }
}

/// A string, or `null`.
struct Optional<'a>(Option<&'a str>);

impl Display for Optional<'_> {
    fn fmt(&self, f: &mut Formatter<'_>) -> fmt::Result {
        match self.0 {
            Some(text) => Quoted(text).fmt(f),
            None => f.write_str("null"),
        }
    }
}

/// Writes a list in brackets.
fn list<T>(
    f: &mut Formatter<'_>,
    values: impl IntoIterator<Item = T>,
    mut each: impl FnMut(&mut Formatter<'_>, T) -> fmt::Result,
) -> fmt::Result {
    f.write_char('[')?;
    for (index, value) in values.into_iter().enumerate() {
        if index > 0 {
            f.write_char(',')?;
        }
        each(f, value)?;
    }
    f.write_char(']')
}

fn texts(f: &mut Formatter<'_>, types: &[ValType]) -> fmt::Result {
    list(f, types, |f, ty| write!(f, "\"{}\"", Text(ty)))
}

// Types.

fn sub_type(f: &mut Formatter<'_>, ty: &SubItem) -> fmt::Result {
    write!(f, "{{\"text\":\"{}\",\"form\":", Text(ty))?;
    match &ty.composite_type.inner {
        CompositeInnerType::Func(ty) => {
            f.write_str("\"func\",\"params\":")?;
            texts(f, ty.params())?;
            f.write_str(",\"results\":")?;
            texts(f, ty.results())?;
        }
        CompositeInnerType::Struct(_) => f.write_str("\"struct\"")?,
        CompositeInnerType::Array(_) => f.write_str("\"array\"")?,
        CompositeInnerType::Cont(_) => f.write_str("\"cont\"")?,
    }
    f.write_char('}')
}

impl Fields for TypeEntry {
    fn fields(&self, f: &mut Formatter<'_>) -> fmt::Result {
        match self {
            TypeEntry::Single(ty) => sub_type(f, ty),
            TypeEntry::Group(types) => list(f, types.iter(), sub_type),
        }
    }
}

// Tables, memories, globals and tags.

/// Writes limits as fields without braces.
fn limits(
    f: &mut Formatter<'_>,
    is_64: bool,
    minimum: u64,
    maximum: Option<u64>,
    shared: bool,
) -> fmt::Result {
    let address = if is_64 { 64 } else { 32 };
    write!(f, "\"address\":\"i{address}\",\"minimum\":{minimum}")?;
    match maximum {
        Some(maximum) => write!(f, ",\"maximum\":{maximum}")?,
        None => f.write_str(",\"maximum\":null")?,
    }
    write!(f, ",\"shared\":{shared}")
}

fn table_type(f: &mut Formatter<'_>, ty: &TableType) -> fmt::Result {
    write!(f, "\"type\":\"{}\",", Text(&ty.element_type))?;
    limits(f, ty.table64, ty.minimum, ty.maximum, ty.shared)
}

fn memory_type(f: &mut Formatter<'_>, ty: &MemoryType) -> fmt::Result {
    limits(f, ty.memory64, ty.minimum, ty.maximum, ty.shared)
}

fn global_type(f: &mut Formatter<'_>, ty: &GlobalType) -> fmt::Result {
    let GlobalType {
        val_type,
        mutable,
        shared,
    } = ty;
    let ty = Text(val_type);
    write!(
        f,
        "\"type\":\"{ty}\",\"mutable\":{mutable},\"shared\":{shared}"
    )
}

impl Fields for TableItem {
    fn fields(&self, f: &mut Formatter<'_>) -> fmt::Result {
        f.write_char('{')?;
        table_type(f, &self.table_type)?;
        match &self.init {
            Some(init) => write!(f, ",\"init\":\"{}\"}}", Text(init)),
            None => f.write_str(",\"init\":null}"),
        }
    }
}

impl Fields for MemoryType {
    fn fields(&self, f: &mut Formatter<'_>) -> fmt::Result {
        f.write_char('{')?;
        memory_type(f, self)?;
        f.write_char('}')
    }
}

impl Fields for GlobalItem {
    fn fields(&self, f: &mut Formatter<'_>) -> fmt::Result {
        f.write_char('{')?;
        global_type(f, &self.global_type)?;
        write!(f, ",\"init\":\"{}\"}}", Text(&self.init))
    }
}

impl Fields for TagType {
    fn fields(&self, f: &mut Formatter<'_>) -> fmt::Result {
        write!(f, "{{\"type\":{}}}", self.func_type_idx)
    }
}

// Imports and exports.

fn import(f: &mut Formatter<'_>, module: &str, name: &str, ty: &EntityType) -> fmt::Result {
    let (module, name) = (Quoted(module), Quoted(name));
    write!(f, "{{\"module\":{module},\"name\":{name},\"kind\":")?;
    match ty {
        EntityType::Function(index) | EntityType::FunctionExact(index) => {
            write!(f, "\"func\",\"type\":{index}")?;
        }
        EntityType::Table(ty) => {
            f.write_str("\"table\",")?;
            table_type(f, ty)?;
        }
        EntityType::Memory(ty) => {
            f.write_str("\"memory\",")?;
            memory_type(f, ty)?;
        }
        EntityType::Global(ty) => {
            f.write_str("\"global\",")?;
            global_type(f, ty)?;
        }
        EntityType::Tag(ty) => write!(f, "\"tag\",\"type\":{}", ty.func_type_idx)?,
    }
    f.write_char('}')
}

impl Fields for Imports<'_> {
    fn fields(&self, f: &mut Formatter<'_>) -> fmt::Result {
        match self {
            Imports::Single(Import { module, name, ty }) => import(f, module, name, ty),
            Imports::Compact1 { module, items } => list(f, items.as_slice(), |f, item| {
                import(f, module, item.name, &item.ty)
            }),
            Imports::Compact2 { module, ty, names } => {
                list(f, names.as_slice(), |f, name| import(f, module, name, ty))
            }
        }
    }
}

impl Fields for Export<'_> {
    fn fields(&self, f: &mut Formatter<'_>) -> fmt::Result {
        let kind = match self.kind {
            ExportKind::Func => "func",
            ExportKind::Table => "table",
            ExportKind::Memory => "memory",
            ExportKind::Global => "global",
            ExportKind::Tag => "tag",
        };
        let (name, index) = (Quoted(self.name), self.index);
        write!(
            f,
            "{{\"name\":{name},\"kind\":\"{kind}\",\"index\":{index}}}"
        )
    }
}

// Segments.

impl Fields for ElementItem {
    fn fields(&self, f: &mut Formatter<'_>) -> fmt::Result {
        match &self.mode {
            ElementItemMode::Declared => f.write_str("{\"mode\":\"declarative\"")?,
            ElementItemMode::Active { table, offset } => {
                let (table, offset) = (table.unwrap_or(0), Text(offset));
                write!(
                    f,
                    "{{\"mode\":\"active\",\"table\":{table},\"start\":\"{offset}\""
                )?;
            }
            _ => f.write_str("{\"mode\":\"passive\"")?,
        }
        match &self.elements {
            ElementList::Functions(functions) => {
                f.write_str(",\"type\":\"func\",\"functions\":")?;
                list(f, functions.iter(), |f, index| index.fmt(f))?;
            }
            ElementList::Expressions(ty, expressions) => {
                write!(f, ",\"type\":\"{}\",\"expressions\":", Text(ty))?;
                list(f, expressions.iter(), |f, it| write!(f, "\"{}\"", Text(it)))?;
            }
            _ => {}
        }
        f.write_char('}')
    }
}

impl Fields for Segment<'_> {
    fn fields(&self, f: &mut Formatter<'_>) -> fmt::Result {
        match self {
            Segment::Active {
                memory,
                offset,
                bytes,
            } => {
                let (offset, count) = (Text(offset), bytes.len());
                write!(
                    f,
                    "{{\"mode\":\"active\",\"memory\":{memory},\"start\":\"{offset}\",\"bytes\":{count}}}"
                )
            }
            Segment::Passive { bytes } => {
                write!(f, "{{\"mode\":\"passive\",\"bytes\":{}}}", bytes.len())
            }
            _ => f.write_str("{}"),
        }
    }
}

// Custom sections.

/// A field of the producers section.
impl Fields for (&str, Vec<(&str, &str)>) {
    fn fields(&self, f: &mut Formatter<'_>) -> fmt::Result {
        write!(f, "{{\"field\":{},\"values\":", Quoted(self.0))?;
        list(f, self.1.iter(), |f, (value, version)| {
            let (value, version) = (Quoted(value), Quoted(version));
            write!(f, "{{\"value\":{value},\"version\":{version}}}")
        })?;
        f.write_char('}')
    }
}

impl Fields for (u32, Vec<BranchHint>) {
    fn fields(&self, f: &mut Formatter<'_>) -> fmt::Result {
        write!(f, "{{\"function\":{},\"hints\":", self.0)?;
        list(f, self.1.iter(), |f, hint| {
            let (at, value) = (hint.branch_func_offset, hint.branch_hint_value);
            write!(f, "{{\"offset\":{at},\"value\":{value}}}")
        })?;
        f.write_char('}')
    }
}

/// The value of a hint.
trait HintFields {
    /// Writes its members.
    fn members(&self, f: &mut Formatter<'_>) -> fmt::Result;
}

impl HintFields for InstructionFrequency {
    fn members(&self, f: &mut Formatter<'_>) -> fmt::Result {
        write!(f, "\"frequency\":{}", self.0)
    }
}

impl HintFields for CompilationOrder {
    fn members(&self, f: &mut Formatter<'_>) -> fmt::Result {
        write!(f, "\"order\":{},\"hotness\":", self.order)?;
        match self.hotness {
            Some(hotness) => write!(f, "{hotness}"),
            None => f.write_str("null"),
        }
    }
}

impl HintFields for Vec<CallTarget> {
    fn members(&self, f: &mut Formatter<'_>) -> fmt::Result {
        f.write_str("\"targets\":")?;
        list(f, self.iter(), |f, target| {
            let (function, percent) = (target.function_index, target.percent);
            write!(f, "{{\"function\":{function},\"percent\":{percent}}}")
        })
    }
}

impl<T: HintFields> Fields for (u32, Vec<CodeHint<T>>) {
    fn fields(&self, f: &mut Formatter<'_>) -> fmt::Result {
        write!(f, "{{\"function\":{},\"hints\":", self.0)?;
        list(f, self.1.iter(), |f, hint| {
            write!(f, "{{\"offset\":{},", hint.offset)?;
            hint.value.members(f)?;
            f.write_char('}')
        })?;
        f.write_char('}')
    }
}

/// Writes a symbol. A section has no name, and the index of a data symbol is that of its segment.
fn symbol(f: &mut Formatter<'_>, symbol: &Symbol<'_>) -> fmt::Result {
    let (kind, flags, index, name) = match symbol {
        Symbol::Function { flags, index, name } => ("function", flags, Some(*index), *name),
        Symbol::Global { flags, index, name } => ("global", flags, Some(*index), *name),
        Symbol::Table { flags, index, name } => ("table", flags, Some(*index), *name),
        Symbol::Tag { flags, index, name } => ("tag", flags, Some(*index), *name),
        Symbol::Section { flags, section } => ("section", flags, Some(*section), None),
        Symbol::DataSymbol {
            flags,
            name,
            definition,
        } => {
            let segment = definition.as_ref().map(|it| it.index);
            ("data", flags, segment, Some(*name))
        }
        _ => return f.write_str("null"),
    };
    write!(
        f,
        "{{\"kind\":\"{kind}\",\"flags\":{flags},\"name\":{}",
        Optional(name)
    )?;
    match index {
        Some(index) => write!(f, ",\"index\":{index}}}"),
        None => f.write_str(",\"index\":null}"),
    }
}

impl Fields for LinkItem<'_> {
    fn fields(&self, f: &mut Formatter<'_>) -> fmt::Result {
        match self {
            LinkItem::Segments(segments) => {
                f.write_str("{\"segments\":")?;
                list(f, segments.iter(), |f, it| Quoted(it.name).fmt(f))?;
            }
            LinkItem::InitFunctions(functions) => {
                f.write_str("{\"init_functions\":")?;
                list(f, functions.iter(), |f, it| {
                    let (priority, symbol) = (it.priority, it.symbol);
                    write!(f, "{{\"priority\":{priority},\"symbol\":{symbol}}}")
                })?;
            }
            LinkItem::Comdats(groups) => {
                f.write_str("{\"comdats\":")?;
                list(f, groups.iter(), |f, group| {
                    write!(f, "{{\"name\":{},\"members\":", Quoted(group.name))?;
                    list(f, group.symbols.iter(), |f, it| {
                        write!(f, "{{\"kind\":{},\"index\":{}}}", it.kind, it.index)
                    })?;
                    f.write_char('}')
                })?;
            }
            LinkItem::Symbols(symbols) => {
                f.write_str("{\"symbols\":")?;
                list(f, symbols.iter(), symbol)?;
            }
            LinkItem::Arch(name) => write!(f, "{{\"target\":{}", Quoted(name))?,
            LinkItem::Other { id, .. } => write!(f, "{{\"subsection\":{id}")?,
            _ => f.write_char('{')?,
        }
        f.write_char('}')
    }
}

// Instructions.

fn order(ordering: Ordering) -> &'static str {
    match ordering {
        Ordering::AcqRel => "acq_rel",
        Ordering::SeqCst => "seq_cst",
    }
}

/// Writes a memory argument. Its offset is a string, since JavaScript rounds numbers of 64 bits.
fn memory(f: &mut Formatter<'_>, arg: &MemArg) -> fmt::Result {
    let (of, index) = match arg.target {
        MemArgTarget::Memory(index) => ("memory", index),
        MemArgTarget::Array(index) => ("type", index),
    };
    let MemArg { offset, align, .. } = arg;
    write!(
        f,
        "{{\"{of}\":{index},\"align\":{align},\"offset\":\"{offset}\""
    )?;
    if let Some(MemArgOrdering::Op(ordering) | MemArgOrdering::Rmw(ordering)) = arg.ordering {
        write!(f, ",\"order\":\"{}\"", order(ordering))?;
    }
    f.write_char('}')
}

/// Writes a clause: its kind, its tag or `null`, and its label.
fn catch(f: &mut Formatter<'_>, clause: &Catch) -> fmt::Result {
    match clause {
        Catch::One { tag, label } => write!(f, "[\"catch\",{tag},{label}]"),
        Catch::OneRef { tag, label } => write!(f, "[\"catch_ref\",{tag},{label}]"),
        Catch::All { label } => write!(f, "[\"catch_all\",null,{label}]"),
        Catch::AllRef { label } => write!(f, "[\"catch_all_ref\",null,{label}]"),
    }
}

fn handle(f: &mut Formatter<'_>, clause: &Handle) -> fmt::Result {
    match clause {
        Handle::OnLabel { tag, label } => write!(f, "[\"label\",{tag},{label}]"),
        Handle::OnSwitch { tag } => write!(f, "[\"switch\",{tag},null]"),
    }
}

/// Writes a number as it is, and others as an object of one field, which has the kind for its name.
fn argument(f: &mut Formatter<'_>, arg: &Arg<Global>) -> fmt::Result {
    match arg {
        Arg::U32(value) => return value.fmt(f),
        Arg::S32(value) => write!(f, "{{\"i32\":{value}")?,
        Arg::S64(value) => write!(f, "{{\"i64\":\"{value}\"")?,
        Arg::F32(value) => write!(f, "{{\"f32\":\"{:08x}\"", value.bits())?,
        Arg::F64(value) => write!(f, "{{\"f64\":\"{:016x}\"", value.bits())?,
        Arg::V128(value) => {
            f.write_str("{\"v128\":\"")?;
            let bytes = value.to_le_bytes();
            bytes.iter().try_for_each(|byte| write!(f, "{byte:02x}"))?;
            f.write_char('"')?;
        }
        Arg::Mem(arg) => {
            f.write_str("{\"mem\":")?;
            memory(f, arg)?;
        }
        Arg::Lane(lane) => write!(f, "{{\"lane\":{lane}")?,
        Arg::Flag(flags) => write!(f, "{{\"flags\":{flags}")?,
        Arg::Lanes(lanes) => {
            f.write_str("{\"lanes\":")?;
            list(f, lanes, |f, lane| lane.fmt(f))?;
        }
        Arg::Block(BlockType::Empty) => f.write_str("{\"block\":null")?,
        Arg::Block(BlockType::Result(ty)) => write!(f, "{{\"block\":\"{}\"", Text(ty))?,
        Arg::Block(BlockType::FunctionType(index)) => write!(f, "{{\"block\":{index}")?,
        Arg::Heap(ty) => write!(f, "{{\"heap\":\"{}\"", Text(ty))?,
        Arg::Order(ordering) => write!(f, "{{\"order\":\"{}\"", order(*ordering))?,
        Arg::Labels(labels) => {
            f.write_str("{\"labels\":")?;
            list(f, labels.iter(), |f, label| label.fmt(f))?;
        }
        Arg::Catches(clauses) => {
            f.write_str("{\"catches\":")?;
            list(f, clauses.iter(), catch)?;
        }
        Arg::Types(types) => {
            f.write_str("{\"types\":")?;
            texts(f, types)?;
        }
        Arg::Handles(clauses) => {
            f.write_str("{\"handlers\":")?;
            list(f, clauses.iter(), handle)?;
        }
        _ => f.write_char('{')?,
    }
    f.write_char('}')
}

/// An instruction as a list: its offset and size, its prefix or 0, the number of its opcode, and
/// its arguments.
pub struct InstructionFields<'a> {
    pub offset: usize,
    pub size: usize,
    pub op: Op,
    pub args: &'a [Arg<Global>],
}

impl Display for InstructionFields<'_> {
    fn fmt(&self, f: &mut Formatter<'_>) -> fmt::Result {
        let (prefix, number) = match self.op {
            Op::Byte(byte) => (0, u32::from(byte)),
            Op::Prefixed(prefix, number) => (prefix, number),
        };
        write!(f, "[{},{},{prefix},{number}", self.offset, self.size)?;
        for arg in self.args {
            f.write_char(',')?;
            argument(f, arg)?;
        }
        f.write_char(']')
    }
}

/// The runs of locals of a body.
pub struct Locals<'a>(pub &'a [(u32, ValType)]);

impl Display for Locals<'_> {
    fn fmt(&self, f: &mut Formatter<'_>) -> fmt::Result {
        list(f, self.0, |f, (count, ty)| {
            write!(f, "{{\"count\":{count},\"type\":\"{}\"}}", Text(ty))
        })
    }
}
