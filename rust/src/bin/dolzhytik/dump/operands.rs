//! The operands of instructions, as text and as JSON.
use crate::context::{Context, Space};
use crate::dump::text::{List, LongRef, OTHER, Text};
use crate::json::{Value, object};
use crate::names::{name_of, roles_of};
use dolzhytik::fallible::{
    BlockType, Catch, Handle, HeapType, Ieee32, Ieee64, MemArg, MemArgOrdering, MemArgTarget, Op,
    Ordering, RefType,
};
use dolzhytik::reader::{Arg, Expression, Plain};
use std::fmt::{self, Display, Formatter};

/// What a number among the immediates of an instruction is.
#[derive(Clone, Copy, PartialEq, Eq, Debug)]
pub enum Role {
    /// The index of an entry.
    Entry(Space),
    Local,
    /// A label: the number of blocks out of which it leads.
    Label,
    /// A field of a struct.
    Field,
    Length,
}

impl Role {
    fn word(self) -> &'static str {
        match self {
            Role::Entry(space) => space.word(),
            Role::Local => "local",
            Role::Label => "label",
            Role::Field => "field",
            Role::Length => "length",
        }
    }
}

/// An operand of an instruction.
#[derive(Clone, Copy)]
enum Operand<'a> {
    Number(Role, u32),
    /// The type of an indirect call.
    TypeUse(u32),
    /// A type whose nullability the opcode or flags have.
    Reference(bool, HeapType),
    Other(&'a Arg),
}

/// An instruction's opcode and arguments, with the names of entries. It prints the operands in the
/// text format, with a space before each.
#[derive(Clone, Copy)]
pub struct Operands<'a> {
    pub op: Op,
    pub args: &'a [Arg],
    pub context: &'a Context<'a>,
}

impl<'a> Operands<'a> {
    /// Passes each operand, in the order of the text format.
    fn each<E>(&self, mut pass: impl FnMut(Operand<'a>) -> Result<(), E>) -> Result<(), E> {
        use Operand::{Number, Other, Reference, TypeUse};
        match (self.op, self.args) {
            (_, []) => Ok(()),
            // The indirect calls: the table is before the type.
            (Op::Byte(0x11 | 0x13), [Arg::U32(ty), Arg::U32(table)]) => {
                pass(Number(Role::Entry(Space::Table), *table))?;
                pass(TypeUse(*ty))
            }
            // `memory.init` and `table.init`: the memory or table is before the segment.
            (Op::Prefixed(0xFC, 8 | 12), [Arg::U32(segment), Arg::U32(of)]) => {
                let [segments, spaces] = roles_of(self.op) else {
                    return Ok(());
                };
                pass(Number(*spaces, *of))?;
                pass(Number(*segments, *segment))
            }
            // `ref.test`, `ref.cast` and `ref.cast_desc_eq`: the opcode has the nullability.
            (Op::Prefixed(0xFB, 20 | 22 | 35), [Arg::Heap(ty)]) => pass(Reference(false, *ty)),
            (Op::Prefixed(0xFB, 21 | 23 | 36), [Arg::Heap(ty)]) => pass(Reference(true, *ty)),
            (
                _,
                [
                    Arg::Flag(flags),
                    Arg::U32(label),
                    Arg::Heap(from),
                    Arg::Heap(to),
                ],
            ) => {
                pass(Number(Role::Label, *label))?;
                pass(Reference(flags & 1 != 0, *from))?;
                pass(Reference(flags & 2 != 0, *to))
            }
            // `atomic.fence`: the text format has this ordering without a word.
            (Op::Prefixed(0xFE, 3), [Arg::Order(Ordering::SeqCst)]) => Ok(()),
            (op, args) => {
                let mut roles = roles_of(op).iter();
                args.iter().try_for_each(|arg| match arg {
                    Arg::U32(number) => {
                        let role = roles.next().copied().unwrap_or(Role::Length);
                        pass(Number(role, *number))
                    }
                    arg => pass(Other(arg)),
                })
            }
        }
    }

    /// The operands as JSON.
    pub fn values(&self) -> Value<'a> {
        let mut values = Vec::new();
        let _ = self.each::<()>(|operand| {
            values.push(self.value(operand));
            Ok(())
        });
        Value::List(values)
    }
}

// ---- as text

impl Display for Operands<'_> {
    fn fmt(&self, f: &mut Formatter<'_>) -> fmt::Result {
        self.each(|operand| self.show(f, operand))
    }
}

impl Operands<'_> {
    fn show(&self, f: &mut Formatter<'_>, operand: Operand<'_>) -> fmt::Result {
        match operand {
            Operand::Number(Role::Entry(space), index) => self.index(f, space, index),
            Operand::Number(_, number) => write!(f, " {number}"),
            Operand::TypeUse(index) => self.type_use(f, index),
            Operand::Reference(nullable, heap_type) => {
                let ty = RefType {
                    nullable,
                    heap_type,
                };
                write!(f, " {}", LongRef(ty))
            }
            Operand::Other(arg) => self.argument(f, arg),
        }
    }

    fn index(&self, f: &mut Formatter<'_>, space: Space, index: u32) -> fmt::Result {
        write!(f, " {}", self.context.entry(space, index))
    }

    fn type_use(&self, f: &mut Formatter<'_>, index: u32) -> fmt::Result {
        f.write_str(" (type")?;
        self.index(f, Space::Type, index)?;
        f.write_str(")")
    }

    fn argument(&self, f: &mut Formatter<'_>, arg: &Arg) -> fmt::Result {
        match arg {
            Arg::S32(number) => write!(f, " {number}"),
            Arg::S64(number) => write!(f, " {number}"),
            Arg::F32(float) => write!(f, " {}", Float::from(*float)),
            Arg::F64(float) => write!(f, " {}", Float::from(*float)),
            Arg::V128(bits) => vector(f, *bits),
            Arg::Mem(arg) => self.memory(f, arg),
            Arg::Lane(lane) | Arg::Flag(lane) => write!(f, " {lane}"),
            Arg::Lanes(lanes) => each(f, lanes),
            Arg::Block(BlockType::FunctionType(index)) => self.type_use(f, *index),
            Arg::Block(BlockType::Result(ty)) => write!(f, " {}", List("result", &[*ty])),
            Arg::Block(BlockType::Empty) => Ok(()),
            Arg::Heap(ty) => write!(f, " {}", Text(*ty)),
            Arg::Order(ordering) => write!(f, " {}", order(*ordering)),
            Arg::Labels(labels) => each(f, labels),
            Arg::Catches(clauses) => clauses.iter().try_for_each(|clause| self.catch(f, clause)),
            Arg::Types(types) => write!(f, " {}", List("result", types)),
            Arg::Handles(clauses) => clauses.iter().try_for_each(|clause| self.handle(f, clause)),
            _ => write!(f, " {OTHER}"),
        }
    }

    fn catch(&self, f: &mut Formatter<'_>, clause: &Catch) -> fmt::Result {
        let tag = |index: &u32| self.context.entry(Space::Tag, *index);
        match clause {
            Catch::One { tag: it, label } => write!(f, " (catch {} {label})", tag(it)),
            Catch::OneRef { tag: it, label } => write!(f, " (catch_ref {} {label})", tag(it)),
            Catch::All { label } => write!(f, " (catch_all {label})"),
            Catch::AllRef { label } => write!(f, " (catch_all_ref {label})"),
        }
    }

    fn handle(&self, f: &mut Formatter<'_>, clause: &Handle) -> fmt::Result {
        let tag = |index: &u32| self.context.entry(Space::Tag, *index);
        match clause {
            Handle::OnLabel { tag: it, label } => write!(f, " (on {} {label})", tag(it)),
            Handle::OnSwitch { tag: it } => write!(f, " (on {} switch)", tag(it)),
        }
    }

    /// Prints the memory or the array's type, the ordering, the offset and the alignment in bytes.
    /// A memory 0 and an offset 0 are left out.
    fn memory(&self, f: &mut Formatter<'_>, arg: &MemArg) -> fmt::Result {
        match arg.target {
            MemArgTarget::Memory(0) => {}
            MemArgTarget::Memory(index) => self.index(f, Space::Memory, index)?,
            MemArgTarget::Array(index) => self.type_use(f, index)?,
        }
        if let Some(MemArgOrdering::Op(ordering) | MemArgOrdering::Rmw(ordering)) = arg.ordering {
            write!(f, " {}", order(ordering))?;
        }
        if arg.offset > 0 {
            write!(f, " offset={}", arg.offset)?;
        }
        // The reader accepts exponents below 16.
        write!(f, " align={}", 1u64 << arg.align)
    }
}

fn each(f: &mut Formatter<'_>, values: &[impl Display]) -> fmt::Result {
    values.iter().try_for_each(|value| write!(f, " {value}"))
}

fn order(ordering: Ordering) -> &'static str {
    match ordering {
        Ordering::AcqRel => "acq_rel",
        Ordering::SeqCst => "seq_cst",
    }
}

/// An expression with the names of entries: each instruction in parentheses.
pub struct Named<'a>(pub &'a Context<'a>, pub &'a Expression);

impl<'a> Named<'a> {
    fn operands(&self, plain: &'a Plain) -> Operands<'a> {
        Operands {
            op: plain.op,
            args: plain.args.as_slice(),
            context: self.0,
        }
    }
}

impl Display for Named<'_> {
    fn fmt(&self, f: &mut Formatter<'_>) -> fmt::Result {
        self.1.0.iter().enumerate().try_for_each(|(i, plain)| {
            let space = if i > 0 { " " } else { "" };
            let name = name_of(plain.op).unwrap_or_default();
            write!(f, "{space}({name}{})", self.operands(plain))
        })
    }
}

impl<'a> From<Named<'a>> for Value<'a> {
    fn from(named: Named<'a>) -> Self {
        Value::list(named.1.0.iter().map(|plain| {
            object! {
                "name": name_of(plain.op),
                "operands": named.operands(plain).values(),
            }
        }))
    }
}

// ---- as JSON

impl<'a> Operands<'a> {
    fn value(&self, operand: Operand<'a>) -> Value<'a> {
        match operand {
            Operand::Number(Role::Entry(space), index) => self.context.entry(space, index).into(),
            Operand::Number(Role::Length, number) => object! { "kind": "length", "value": number },
            Operand::Number(role, index) => object! { "kind": role.word(), "index": index },
            Operand::TypeUse(index) => self.context.entry(Space::Type, index).into(),
            Operand::Reference(nullable, heap_type) => {
                let ty = RefType {
                    nullable,
                    heap_type,
                };
                object! { "kind": "reference type", "type": ty }
            }
            Operand::Other(arg) => self.argument_value(arg),
        }
    }

    fn argument_value(&self, arg: &'a Arg) -> Value<'a> {
        match arg {
            Arg::S32(value) => object! { "kind": "i32", "value": *value },
            Arg::S64(value) => object! { "kind": "i64", "value": *value },
            Arg::F32(float) => Float::from(*float).value(),
            Arg::F64(float) => Float::from(*float).value(),
            Arg::V128(bits) => {
                let bytes: String = bits.to_le_bytes().map(|it| format!("{it:02x}")).concat();
                object! { "kind": "v128", "bytes": bytes }
            }
            Arg::Mem(arg) => self.memory_value(arg),
            Arg::Lane(lane) | Arg::Flag(lane) => object! { "kind": "lane", "index": *lane },
            Arg::Lanes(lanes) => object! { "kind": "lanes", "indices": Value::list(*lanes) },
            Arg::Block(BlockType::FunctionType(index)) => object! {
                "kind": "block type",
                "type": self.context.entry(Space::Type, *index),
            },
            Arg::Block(BlockType::Result(ty)) => {
                object! { "kind": "block type", "results": Value::list([*ty]) }
            }
            Arg::Block(BlockType::Empty) => {
                object! { "kind": "block type", "results": Value::List(Vec::new()) }
            }
            Arg::Heap(ty) => object! { "kind": "heap type", "type": *ty },
            Arg::Order(ordering) => object! { "kind": "ordering", "ordering": order(*ordering) },
            Arg::Labels(labels) => {
                object! { "kind": "labels", "indices": Value::list(labels.iter().copied()) }
            }
            Arg::Catches(clauses) => {
                let clauses = clauses.iter().map(|clause| self.catch_value(clause));
                object! { "kind": "catch clauses", "clauses": Value::list(clauses) }
            }
            Arg::Types(types) => {
                object! { "kind": "result types", "types": Value::list(types.iter().copied()) }
            }
            Arg::Handles(clauses) => {
                let clauses = clauses.iter().map(|clause| self.handle_value(clause));
                object! { "kind": "handlers", "clauses": Value::list(clauses) }
            }
            _ => object! { "kind": OTHER },
        }
    }

    fn catch_value(&self, clause: &Catch) -> Value<'a> {
        let (kind, tag, label) = match *clause {
            Catch::One { tag, label } => ("catch", Some(tag), label),
            Catch::OneRef { tag, label } => ("catch_ref", Some(tag), label),
            Catch::All { label } => ("catch_all", None, label),
            Catch::AllRef { label } => ("catch_all_ref", None, label),
        };
        let tag = tag.map(|index| self.context.entry(Space::Tag, index));
        object! { "kind": kind, "tag": tag, "label": label }
    }

    fn handle_value(&self, clause: &Handle) -> Value<'a> {
        let (kind, tag, label) = match *clause {
            Handle::OnLabel { tag, label } => ("label", tag, Some(label)),
            Handle::OnSwitch { tag } => ("switch", tag, None),
        };
        object! { "kind": kind, "tag": self.context.entry(Space::Tag, tag), "label": label }
    }

    fn memory_value(&self, arg: &MemArg) -> Value<'a> {
        let (space, index) = match arg.target {
            MemArgTarget::Memory(index) => (Space::Memory, index),
            MemArgTarget::Array(index) => (Space::Type, index),
        };
        let ordering = arg.ordering.map(|it| match it {
            MemArgOrdering::Op(ordering) | MemArgOrdering::Rmw(ordering) => order(ordering),
        });
        object! {
            "kind": "memory argument",
            "of": self.context.entry(space, index),
            "ordering": ordering,
            "offset": arg.offset,
            "align_log2": arg.align,
        }
    }
}

// ---- numbers

/// Prints a vector as four numbers, the lowest first.
fn vector(f: &mut Formatter<'_>, bits: i128) -> fmt::Result {
    f.write_str(" i32x4")?;
    (0..4).try_for_each(|lane| write!(f, " {:#010x}", (bits >> (32 * lane)) as u32))
}

/// A float: its value if it is a number, and its sign and payload if not.
pub struct Float {
    kind: &'static str,
    /// In hexadecimal.
    bits: String,
    /// In the fewest digits that decode to it.
    number: Option<String>,
    negative: bool,
    /// The payload of a NaN. That of an infinity is 0.
    payload: u64,
    /// The payload of a NaN that has no digits in the text format.
    canonical: u64,
}

impl From<Ieee32> for Float {
    fn from(float: Ieee32) -> Self {
        let (bits, value) = (float.bits(), f32::from_bits(float.bits()));
        Float {
            kind: "f32",
            bits: format!("{bits:08x}"),
            number: value.is_finite().then(|| format!("{value:?}")),
            negative: value.is_sign_negative(),
            payload: u64::from(bits & 0x7F_FFFF),
            canonical: 0x40_0000,
        }
    }
}

impl From<Ieee64> for Float {
    fn from(float: Ieee64) -> Self {
        let (bits, value) = (float.bits(), f64::from_bits(float.bits()));
        Float {
            kind: "f64",
            bits: format!("{bits:016x}"),
            number: value.is_finite().then(|| format!("{value:?}")),
            negative: value.is_sign_negative(),
            payload: bits & 0xF_FFFF_FFFF_FFFF,
            canonical: 0x8_0000_0000_0000,
        }
    }
}

impl Float {
    /// Its kind, value and bits, which are hexadecimal digits. Infinities and NaNs have no value.
    pub fn value<'a>(self) -> Value<'a> {
        let number = self.number.map_or(Value::Null, Value::Digits);
        object! { "kind": self.kind, "value": number, "bits": self.bits }
    }
}

impl Display for Float {
    fn fmt(&self, f: &mut Formatter<'_>) -> fmt::Result {
        if let Some(number) = &self.number {
            return f.write_str(number);
        }
        f.write_str(if self.negative { "-" } else { "" })?;
        match self.payload {
            0 => f.write_str("inf"),
            payload if payload == self.canonical => f.write_str("nan"),
            payload => write!(f, "nan:{payload:#x}"),
        }
    }
}
