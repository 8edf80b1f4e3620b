"""The conversion of an opcode and its immediates to an instruction: for each shape a function over
the opcodes of that shape. `conversion_proofs` has the lemmas that these are all."""
from __future__ import annotations

from dataclasses import dataclass

from .formatting import FIELDS_WIDTH, WIDTH, arm, with_fields
from .layouts import LAYOUTS
from .table import INSTRUCTION, PREFIXES, Case, Enum

HEAD = """// The instruction with an opcode and given immediates: a function for each shape of opcodes, which
// has all of them.
ghost use Rattle.std.specs.Prelude.{◌≡◌, ◌≢◌, [], ◌∷◌, map, get_or, Some, None, IfSome, IfNone};
ghost use Rattle.wasm_insn.specs.Arguments.{unsigned, signed32, signed64, float32, float64, vector, memory, lane, lanes, block, heap, ordering, labels, catches, types, handles, flag};
ghost use Rattle.wasm_insn.specs.Instructions.{row_of, cast_flag_of};
ghost use Rattle.wasm_insn.specs.Numeric.{numeric_number};
ghost use Rattle.wasm_insn.specs.Aggregate.{aggregate_number};
ghost use Rattle.wasm_insn.specs.PrefixedNumeric.{prefixed_numeric_number};
ghost use Rattle.wasm_insn.specs.Vector.{vector_number};
ghost use Rattle.wasm_insn.specs.Views.{argument_view};
ghost use Rattle.wasm_insn.specs.Plain.{shape_of};
ghost use Rattle.wasm_insn.specs.Table.{table};
ghost use Rattle.wasm_insn.specs.declared.op.Op.TheVariants.{Byte, Prefixed};
ghost use Rattle.wasm_insn.specs.declared.op.Shape.TheVariants as shapes;
ghost use Rattle.wasm_reader.specs.Conversions.{IsNoInstruction};
ghost use Rattle.wasm_reader.specs.declared.by_opcode.TheConstants.{NUMERIC};

use crate::convert::{
    block_of, catches_of, float32_of, float64_of, handles_of, heap_of, labels_of, lane_of,
    lanes_of, memory_of, number_of, ordering_of, signed32_of, signed64_of, types_of, vector_of,
};
use std::alloc::Allocator;
use wasm_base::{CowSlice, HeapType, RefType, ValType};
use wasm_immediates::{BlockType, Catch, Handle, Ieee32, Ieee64, Lane, MemArg, Ordering};
use wasm_insn::{
    Aggregate, Arg, Atomic, Instruction, Numeric, Op, PrefixedNumeric, Vector, VectorImmediate,
};
"""

# The name of the immediates of a layout, in names of functions, and in words.
NAMES = {
    "-": ("nothing", "no immediates"),
    "u": ("number", "a number"),
    "uu": ("numbers", "two numbers"),
    "m": ("memory", "a memory argument"),
    "ml": ("memory_lane", "a memory argument and a lane"),
    "l": ("lane", "a lane"),
    "b": ("block", "a block type"),
    "h": ("heap", "a heap type"),
    "o": ("ordering", "an ordering"),
    "ou": ("ordering_number", "an ordering and a number"),
    "ouu": ("ordering_numbers", "an ordering and two numbers"),
    "c32": ("signed32", "a signed number of 32 bits"),
    "c64": ("signed64", "a signed number of 64 bits"),
    "f32": ("float32", "a float of 32 bits"),
    "f64": ("float64", "a float of 64 bits"),
    "v": ("vector", "a vector of 128 bits"),
    "ls": ("lanes", "sixteen lanes"),
    "bt": ("labels", "labels and a default label"),
    "tt": ("clauses", "a block type and catch clauses"),
    "ts": ("types", "value types"),
    "k": ("cast", "a label and two reference types"),
    "uH": ("handles", "a number and handle clauses"),
    "uuH": ("numbers_handles", "two numbers and handle clauses"),
}


# A class with so many cases has a function of its own, whose patterns are numbers.
LONG = 9


@dataclass(frozen=True)
class Class:
    """The cases with opcodes of one byte, or those after one prefix, of one layout."""

    layout: str
    prefix: int | None
    cases: tuple[Case, ...]

    @property
    def word(self) -> str:
        return "byte" if self.prefix is None else f"{self.prefix:02x}"

    @property
    def lemma(self) -> str:
        """The name of the lemma that any other opcode is none of the shape."""
        return f"{self.word}_{NAMES[self.layout][0]}" if self.prefix is None else f"after_{self.word}_{NAMES[self.layout][0]}"

    @property
    def function(self) -> str:
        name = NAMES[self.layout][0]
        return f"byte_with_{name}" if self.prefix is None else f"{self.word}_with_{name}"

    @property
    def op(self) -> str:
        """The opcode, in clauses."""
        return "Byte byte" if self.prefix is None else f"Prefixed 0x{self.prefix:02X} number"

    @property
    def bare(self) -> list[Enum]:
        """The enums without fields that have a case in the class."""
        found = {it.enum.name: it.enum for it in self.cases if it.enum.is_bare}
        return list(found.values())

    @property
    def own(self) -> list[Case]:
        return [it for it in self.cases if not it.enum.is_bare]


def classes(cases: list[Case]) -> dict[str, list[Class]]:
    """Returns the classes of each layout. Of two cases with one opcode the first has a list of one
    item, and its function chooses between them."""
    found: dict[str, list[Class]] = {}
    for layout in LAYOUTS:
        for prefix in (None, *PREFIXES):
            of = tuple(it for it in cases if it.layout == layout and it.prefix == prefix)
            if of:
                found.setdefault(layout, []).append(Class(layout, prefix, of))
    return found


def given(layout: str) -> list[tuple[str, str]]:
    """Returns the parameters of a function: names and types. Lists are borrowed."""
    return [(letter, f"&'a [{part.item}]" if part.item else part.type) for letter, part in zip("abc", LAYOUTS[layout].parts)]


def arguments(layout: str) -> str:
    """Returns the immediates, in clauses."""
    of = LAYOUTS[layout]
    if of.arguments:
        texts = [it.format(*"abc") for it in of.arguments]
    else:
        texts = [f"{part.argument.partition(' ')[0]} {letter}.now" if part.item else part.argument.format(letter) for letter, part in zip("abc", of.parts)]
    return " ∷ ".join([*texts, "[]"])


def value(case: Case, indent: str, width: int = FIELDS_WIDTH) -> str:
    """Returns the instruction of a case. Its fields are on one line if they have at most `width`
    characters."""
    parts = [f"CowSlice::Borrowed({letter})" if part.item else letter for letter, part in zip("abc", LAYOUTS[case.layout].parts)]
    head, close = (f"{case.enum.name}::{case.name}", "") if case.enum == INSTRUCTION else (f"Instruction::{case.enum.name}({case.enum.name}::{case.name}", ")")
    if case.fields:
        return with_fields(head, map(": ".join, zip(case.fields, parts)), indent, width) + close
    return head + (f"({', '.join(parts)})" if parts else "") + close


def lookup(enum: Enum) -> str:
    return f"{enum.module}_at"


def pattern(case: Case, is_nested: bool) -> str:
    if not is_nested:
        return case.digits
    return f"Op::Byte({case.digits})" if case.prefix is None else f"Op::Prefixed(0x{case.prefix:02X}, {case.digits})"


def arms(of: Class, is_nested: bool) -> str:
    """Returns the arms of a match over the opcodes of a class."""
    indent, text = " " * 8, ""
    for it in of.own:
        if it.form != "one":
            head, made = pattern(it, is_nested), value(it, indent)
            is_long = len(f"{indent}{head} => {made},") > WIDTH
            text += arm([head], value(it, indent, 0) if is_long else made, indent)
    last = f"Instruction::{of.bare[0].name}({lookup(of.bare[0])}(byte)?)" if of.bare else "return None"
    return text + arm(["_"], last, indent)


def signature(name: str, parameters: list[str], visibility: str = "") -> str:
    """Returns the head of a function that returns an instruction, on one line if it fits."""
    start, end = f"{visibility}fn {name}<'a, A: Allocator>(", ") -> Option<Instruction<'a, A>>"
    line = start + ", ".join(parameters) + end
    return line if len(line) <= WIDTH else start + "".join(f"\n    {it}," for it in parameters) + "\n" + end


def head(name: str, first: str, layout: str, op: str, lemmas: list[str], says: str, visibility: str = "") -> str:
    """Returns a function up to its body."""
    shape, of = LAYOUTS[layout].shape, op if " " not in op else f"({op})"
    return f"""/// Returns the instruction with {says}.
#[tactic(auto, using({using(lemmas)}))]
{signature(name, [first, *(f"{it}: {ty}" for it, ty in given(layout))], visibility)}
    ensures some {{ IfSome result (λ i. row_of i ≡ record {{ op = {op}; arguments = {arguments(layout)} }}) }}
    ensures other {{ IfNone result (shape_of table {of} ≢ Some shapes.{shape}) }}
"""


def using(lemmas: list[str]) -> str:
    return ", ".join(f"crate::proofs::{it}" for it in lemmas)


def class_function(of: Class) -> str:
    """Returns the function of a class that is not alone."""
    subject, ty, where = ("byte", "u8", "of one byte") if of.prefix is None else ("number", "u32", f"after the prefix {of.prefix:02X}")
    top = head(of.function, f"{subject}: {ty}", of.layout, of.op, [f"ByOpcode::{of.lemma}"], f"this opcode {where} and {NAMES[of.layout][1]}")
    return top + f"{{\n    Some(match {subject} {{\n{arms(of, False)}    }})\n}}\n"


# The function of the layout whose opcode has a case for a list of one item.
ONE_OR_MORE = """{
    let Op::Byte(0x1C) = op else {
        return None;
    };
    if let [one] = a {
        return Some(Instruction::TypedSelect(*one));
    }
    Some(Instruction::TypedSelectMulti(CowSlice::Borrowed(a)))
}
"""


def alone(of: Class) -> str:
    """Returns the function of a layout with one class."""
    name, words = NAMES[of.layout]
    lemmas = [of.lemma, f"other_{name}"] + [f"byte_{name}"] * (of.prefix is not None)
    top = head(f"with_{name}", "op: Op", of.layout, "op", [f"ByOpcode::{it}" for it in lemmas], f"this opcode and {words}", "pub(crate) " * (of.layout == "k"))
    return top + (ONE_OR_MORE if of.layout == "ts" else f"{{\n    Some(match op {{\n{arms(of, True)}    }})\n}}\n")


def dispatch(layout: str, of: list[Class]) -> str:
    """Returns the function of a layout with several classes."""
    name, words = NAMES[layout]
    handed = "".join(", " + it for it, _ in given(layout))
    text = ""
    for it in of:
        where = "Op::Byte(n)" if it.prefix is None else f"Op::Prefixed(0x{it.prefix:02X}, n)"
        call = f"{it.function}(n{handed})"
        if it.bare and it.prefix is not None:
            call = f"Some(Instruction::{it.bare[0].name}({lookup(it.bare[0])}(n)?))"
        text += f"        {where} => {call},\n"
    is_prefixed = all(it.prefix is not None for it in of)
    text += f"        {'_' if is_prefixed else 'Op::Prefixed(..)'} => None,\n"
    lemmas = [f"ByOpcode::other_{name}"] + [f"ByOpcode::byte_{name}"] * is_prefixed
    return head(f"with_{name}", "op: Op", layout, "op", lemmas, f"this opcode and {words}") + f"{{\n    match op {{\n{text}    }}\n}}\n"


def array(enum: Enum, cases: list[Case]) -> str:
    """Returns the instructions of an enum without fields by number, and the function that looks one
    up."""
    by_number = {it.number: it for it in cases}
    items = [f"Some({enum.name}::{by_number[n].name})" if n in by_number else "None" for n in range(max(by_number) + 1)]
    lines = "".join("    " + ", ".join(items[i : i + 4]) + ",\n" for i in range(0, len(items), 4))
    subject, ty = ("byte", "u8") if enum.prefix is None else ("number", "u32")
    constant = enum.module.upper()
    index = "usize::from(byte)" if enum.prefix is None else "number as usize"
    none = f"get_or {constant} byte None ≡ None" if enum.prefix is None else f"shape_of table (Prefixed 0x{enum.prefix:02X} number) ≢ Some shapes.Nothing"
    where = "The numeric instructions, indexed by opcode" if enum.prefix is None else f"The instructions of `{enum.name}`, indexed by the number after the prefix {enum.prefix:02X}"
    lemmas = using([f"ByOpcode::{enum.module}_{it}" for it in ("some", "none", "beyond")])
    return f"""/// {where}.
#[rattlefmt::skip]
static {constant}: [Option<{enum.name}>; {len(items)}] = [
{lines}];

/// Returns the instruction of `{enum.name}` with this {"opcode" if enum.prefix is None else "number"}.
#[tactic(auto, using({lemmas}))]
fn {lookup(enum)}({subject}: {ty}) -> Option<{enum.name}>
    ensures some {{ IfSome result (λ i. {enum.module}_number i ≡ {subject}) }}
    ensures other {{ IfNone result ({none}) }}
{{
    let index = {index};
    if index < {constant}.len() {{
        {constant}[index]
    }} else {{
        None
    }}
}}
"""


# The function that returns the value of an argument, by the word of its view in clauses.
GETTERS = {"unsigned": "number_of"}


def getter(word: str) -> str:
    return GETTERS.get(word, f"{word}_of")


def words_of(layout: str) -> list[str]:
    """Returns the words of the arguments of a layout, in clauses."""
    return LAYOUTS[layout].words


def of_arguments(layout: str) -> str:
    """Returns the function that takes the arguments of a layout apart."""
    (name, words), shape, parts = NAMES[layout], LAYOUTS[layout].shape, words_of(layout)
    lemmas = ["Conversions::conversion_steps"]
    letters = "abcd"[: len(parts)]
    handed = "".join(f", {getter(word)}({letter})?" for word, letter in zip(parts, letters))
    return f"""/// Returns the instruction with this opcode and these arguments: {words}.
#[tactic(auto, using({using(lemmas)}))]
{signature(f"of_{name}", ["op: Op", "args: &'a [Arg<A>]"], "pub(crate) ")}
    requires {{ shape_of table op ≡ Some shapes.{shape} }}
    ensures some {{ IfSome result (λ i. row_of i ≡ record {{ op = op; arguments = map argument_view args.now }}) }}
    ensures other {{ IfNone result (IsNoInstruction op (map argument_view args.now)) }}
{{
    let [{", ".join(letters)}] = args else {{
        return None;
    }};
    with_{name}(op{handed})
}}
"""


def source(cases: list[Case]) -> str:
    """Returns the source of the functions."""
    found = classes(cases)
    enums = [it for it in {c.enum.name: c.enum for c in cases if c.enum.is_bare}.values()]
    text = ""
    for enum in enums:
        text += "\n" + array(enum, [it for it in cases if it.enum == enum])
    for layout, of in found.items():
        if len(of) == 1 and len(of[0].cases) < LONG:
            text += "\n" + alone(of[0])
            continue
        for it in of:
            if it.prefix is None or not it.bare:
                text += "\n" + class_function(it)
        text += "\n" + dispatch(layout, of)
    text += "".join("\n" + of_arguments(it) for it in LAYOUTS if it != "k")
    return HEAD + text
