"""The parts of src/ that follow from the table: enums, opcodes, and the arms of matches."""
from __future__ import annotations

from collections.abc import Callable

from .formatting import CASE_WIDTH, WIDTH, arm, block, bound, with_fields
from .layouts import ORDERING
from .table import INSTRUCTION, NESTED, Case, Enum


def variants(enum: Enum, cases: list[Case]) -> str:
    """Returns the cases of an enum. If one has its fields on several lines, all have."""
    if enum.is_bare:
        return "".join(f"    {it.name} = {it.digits},\n" for it in cases)
    fields = {it.name: [f"{name}: {part.type}" for name, part in zip(it.fields, it.given.parts)] for it in cases}
    width = CASE_WIDTH if all(len(", ".join(it)) <= CASE_WIDTH for it in fields.values()) else 0
    text = ""
    for it in cases:
        types = ", ".join(part.type for part in it.given.parts)
        text += "    " + (with_fields(it.name, fields[it.name], "    ", width) if it.fields else it.name + (f"({types})" if types else "")) + ",\n"
    if enum == INSTRUCTION:
        text += "".join(f"    /// {it.says}\n    {it.name}({it.name}),\n" for it in NESTED)
    return text


def op_arms(enum: Enum, cases: list[Case]) -> str:
    """Returns an arm for each case, with its opcode."""
    text = ""
    for it in cases:
        op = f"Op::Byte({it.digits})" if it.prefix is None else f"Op::Prefixed(0x{it.prefix:02X}, {it.digits})"
        text += arm([f"{enum.name}::{it.name}" + (" { .. }" if it.fields else "(..)" if it.given.parts else "")], op, " " * 12)
    if enum == INSTRUCTION:
        text += "".join(arm([f"Instruction::{it.name}(i)"], "i.op()", " " * 12) for it in NESTED)
    return text


# The most cases of one arm: the time of a proof grows with them.
MOST = 12


def shared(things: list) -> list[list]:
    """Splits a list into as few parts as possible, of nearly the same length."""
    count = -(-len(things) // MOST)
    least, more = divmod(len(things), count)
    sizes = [least + (i < more) for i in range(count)]
    return [things[sum(sizes[:i]) : sum(sizes[: i + 1])] for i in range(count)]



# Returns the names of the bound fields of a case, and the body of its arm.
Body = Callable[[Case, str], tuple[tuple[str, ...], str]]


def shared_arms(enum: Enum, cases: list[Case], body: Body, of_nested: str, nothing: str, indent: str) -> str:
    """Returns the arms of a match in which cases of one layout share an arm, those without fields
    last."""
    alike: dict[tuple[str, str], list[Case]] = {}
    for it in cases:
        alike.setdefault((it.layout, it.form), []).append(it)
    bare = [f"{enum.name}::{it.name}" for it in alike.pop(("-", ""), [])]
    text = ""
    for found in alike.values():
        for part in shared(found):
            text += arm([bound(it, body(it, indent)[0], indent) for it in part], body(part[0], indent)[1], indent)
    if enum == INSTRUCTION:
        bare += [f"Instruction::{it.name}(_)" for it in NESTED if it.is_bare]
    text += "".join(arm(part, nothing, indent) for part in shared(bare)) if bare else ""
    if enum == INSTRUCTION:
        text += "".join(arm([f"Instruction::{it.name}(a)"], of_nested, indent) for it in NESTED if not it.is_bare)
    return text


def append(case: Case, indent: str) -> tuple[tuple[str, ...], str]:
    """Encodes the fields of a case. Those of `Instruction` are borrowed, and its lists are
    slices."""
    names, parts, is_lent = case.fields if case.form == "by name" else case.letters, case.given.parts, case.enum == INSTRUCTION
    if case.form == "one":
        return names, f"slice::from_ref({names[0]}).encode(sink)"
    if case.layout == "v":
        return names, f"vector_bytes({names[0]}).encode(sink)"
    values = [f"{name}.as_slice()" if part.item else "*" * (is_lent and len(parts) > 1) + name for name, part in zip(names, parts)]
    if case.given.appends:
        return names, f"{case.given.appends}({', '.join(values)}, sink)"
    return names, (values[0] if len(values) == 1 else f"({', '.join(values)})") + ".encode(sink)"


def look(case: Case, indent: str) -> tuple[tuple[str, ...], str]:
    """Says that the fields of a case are in range. An ordering always is."""
    names, parts = case.fields if case.form == "by name" else case.letters, case.given.parts
    if case.given.looks:
        return names, f"{case.given.looks}({', '.join('*' + it for it in names)})"
    calls = [f"each_ranged({name}.as_slice())" if part.item else f"{name}.ranged()" for name, part in zip(names, parts) if part != ORDERING]
    names = tuple("_" if part == ORDERING else name for name, part in zip(names, parts))
    return names, "{}" if not calls else calls[0] if len(calls) == 1 else block(calls, indent)


def copied(case: Case) -> str:
    """Returns an arm that clones a case."""
    indent, names = " " * 12, case.fields or case.letters
    values = [f"{name}.clone()?" if part.item else f"*{name}" for name, part in zip(names, case.given.parts)]
    head = f"Instruction::{case.name}"
    made = with_fields(head, map(": ".join, zip(names, values)), indent) if case.fields else head + (f"({', '.join(values)})" if values else "")
    return arm([bound(case, names, indent)], made, indent)


def constants(enum: Enum, cases: list[Case]) -> str:
    """Returns the constants of `Instruction` for cases without fields."""
    made = []
    for it in cases:
        if not it.given.parts:
            head, value = f"    pub const {it.name}: Self = Instruction::{enum.name}(", f"{enum.name}::{it.name}"
            line = f"{head}{value});\n"
            made.append(line if len(line) <= WIDTH + 1 else f"{head}\n        {value},\n    );\n")
    return "\n".join(made)


def bare_source(enum: Enum, cases: list[Case]) -> str:
    """Returns the source of an enum without fields."""
    number = f"{enum.module}_number"
    op, made = f"Op.Byte ({number} self)", "Op::Byte(self as u8)"
    if enum.prefix is not None:
        op, made = f"Op.Prefixed 0x{enum.prefix:02X} ({number} self)", f"Op::Prefixed(0x{enum.prefix:02X}, self as u32)"
    return f"""// {enum.says}
ghost use Rattle.std.specs.Prelude.{{◌≡◌}};
ghost use Rattle.wasm_insn.specs.{enum.name}.{{{number}}};

use crate::instruction::Instruction;
use crate::op::Op;

/// {enum.says}
#[derive(Clone, Copy)]
pub enum {enum.name} {{
{variants(enum, cases)}}}

impl {enum.name} {{
    /// Returns the opcode, as in the opcode table.
    pub fn op(self) -> Op
        ensures {{ result ≡ {op} }}
    {{
        {made}
    }}
}}

/// The same instructions as constants of `Instruction`.
impl Instruction<'static> {{
{constants(enum, cases)}}}
"""
