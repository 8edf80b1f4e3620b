"""tools/text-names: writes the names of instructions in the text format, and what their numbers are."""
from __future__ import annotations

import pathlib
import re
import sys
from collections.abc import Sequence

from . import generated_files
from .errors import Stop
from .instructions.layouts import LAYOUTS, NUMBER
from .instructions.table import TABLE, Case, read
from .repository import TOP, text_of

FILE = "rust/src/bin/dolzhytik/names.rs"
SCRIPT = "rust/web/instructions.js"
# The words before the first dot of a name.
SPACES = (
    "i32", "i64", "f32", "f64", "v128", "i8x16", "i16x8", "i32x4", "i64x2", "f32x4", "f64x2",
    "local", "global", "table", "memory", "data", "elem", "ref", "i31", "struct", "array",
    "any", "extern", "cont", "atomic",
)
# Calls for forms of one instruction. The text format has the form in the operands.
FORMS = {
    "typed_select": "select",
    "typed_select_multi": "select",
    "ref_test_non_null": "ref_test",
    "ref_test_nullable": "ref_test",
    "ref_cast_non_null": "ref_cast",
    "ref_cast_nullable": "ref_cast",
    "ref_cast_desc_eq_non_null": "ref_cast_desc_eq",
    "ref_cast_desc_eq_nullable": "ref_cast_desc_eq",
}
# The names of the fields that are numbers, by what they are: a case of `Role` of the program.
ROLES = {
    "Entry(Function)": ("function_index",),
    "Entry(Table)": ("table", "table_index", "dst_table", "src_table"),
    "Entry(Memory)": ("mem", "dst_mem", "src_mem"),
    "Entry(Global)": ("global_index",),
    "Entry(Tag)": ("tag_index",),
    "Entry(Type)": (
        "type_index", "cont_type_index", "struct_type_index", "array_type_index", "array_type_index_dst",
        "array_type_index_src", "argument_index", "result_index",
    ),
    "Entry(Element)": ("elem_index", "array_elem_index"),
    "Entry(Data)": ("data_index", "array_data_index"),
    "Local": ("local_index",),
    "Label": ("label", "default", "relative_depth"),
    "Field": ("field_index",),
    "Length": ("array_size",),
}


def name_of(call: str) -> str:
    """Returns the name in the text format: `i32.atomic.rmw8.add_u` for `i32_atomic_rmw8_add_u`.

    A final underscore avoids a keyword of Rust. A dot is after the name space, after `atomic` that
    follows one, and after `rmw`, `rmw8`, `rmw16` and `rmw32`."""
    name = FORMS.get(call, call).removesuffix("_")
    space, underscore, after = name.partition("_")
    if not underscore or space not in SPACES:
        return name
    after = re.sub(r"^atomic_", "atomic.", after)
    return space + "." + re.sub(r"^(atomic\.rmw(8|16|32)?)_", r"\1.", after)


def pattern(case: Case) -> str:
    """Returns the pattern of its opcode."""
    if case.prefix is None:
        return f"Op::Byte(0x{case.number:02X})"
    return f"Op::Prefixed(0x{case.prefix:02X}, {case.number})"


def named(cases: Sequence[Case]) -> dict[str, str]:
    """Returns the name of each opcode, by its pattern."""
    names: dict[str, str] = {}
    for it in cases:
        name = name_of(it.call)
        if not re.fullmatch(r"[a-z][a-z0-9_]*(\.[a-z0-9_]+)*", name):
            raise Stop(f"{TABLE}:{it.line}: not a name of the text format: {name}")
        if name in names.values() and it.call not in FORMS:
            raise Stop(f"{TABLE}:{it.line}: another instruction has the name {name}")
        if names.setdefault(pattern(it), name) != name:
            raise Stop(f"{TABLE}:{it.line}: its opcode has another name than {name}")
    return names


def roles_of(case: Case) -> tuple[str, ...]:
    """Returns what its numbers are, in the order of their encoding."""
    fields = zip(LAYOUTS[case.layout].parts, case.fields or case.parameters)
    names = [name for part, name in fields if part == NUMBER]
    found = [[role for role, fields in ROLES.items() if name in fields] for name in names]
    if not all(found):
        raise Stop(f"{TABLE}:{case.line}: it is not known what a number is: {' '.join(names)}")
    return tuple(roles[0] for roles in found)


def by_roles(cases: Sequence[Case]) -> dict[tuple[str, ...], list[str]]:
    """Returns the patterns of the opcodes, by what their numbers are."""
    found: dict[tuple[str, ...], list[str]] = {}
    for it in cases:
        if roles := roles_of(it):
            found.setdefault(roles, []).append(pattern(it))
    return found


def names_file(cases: Sequence[Case]) -> str:
    """Returns the text of the file."""
    arms = "".join(f'        {op} => "{name}",\n' for op, name in named(cases).items())
    roles = "".join(f"        {' | '.join(ops)} => &[{', '.join(roles)}],\n" for roles, ops in by_roles(cases).items())
    return f"""// Written by tools/text-names from tools/instructions.tsv: change that.
//! The names of instructions in the text format, and what their numbers are.
use crate::context::Space::{{Data, Element, Function, Global, Memory, Table, Tag, Type}};
use crate::dump::Role::{{self, Entry, Field, Label, Length, Local}};
use dolzhytik::fallible::Op;

/// Returns the name of the instruction with this opcode, or `None` if there is no such instruction.
pub fn name_of(op: Op) -> Option<&'static str> {{
    let name = match op {{
{arms}        _ => return None,
    }};
    Some(name)
}}

/// Returns what the numbers among the immediates of this opcode are, in the order of their encoding. The
/// labels of a branch table, and the numbers in clauses and memory arguments, are none of these.
pub fn roles_of(op: Op) -> &'static [Role] {{
    match op {{
{roles}        _ => &[],
    }}
}}
"""


def word_of(role: str) -> str:
    """Returns the kind of an operand in JavaScript: `function` for `Entry(Function)`."""
    return role.removeprefix("Entry(").removesuffix(")").lower()


def script_file(cases: Sequence[Case]) -> str:
    """Returns the text of the file for JavaScript. Forms of one instruction have the same name, and
    may differ in their numbers."""
    rows: dict[int, dict[int, str]] = {}
    for it in cases:
        entry = " ".join([name_of(it.call), *map(word_of, roles_of(it))])
        rows.setdefault(it.prefix or 0, {})[it.number] = entry
    tables = "".join(
        f"  {prefix:#04x}: {{\n" + "".join(f"    {number}: '{entry}',\n" for number, entry in entries.items()) + "  },\n"
        for prefix, entries in rows.items()
    )
    return f"""// Written by tools/text-names from tools/instructions.tsv: change that.
/**
 * The instructions by their prefix, or 0, and their number: the name in the text format, and what
 * the numbers among the immediates are, in the order of their encoding.
 */
export const INSTRUCTIONS = {{
{tables}}};
"""


def main(words: Sequence[str], usage: str, top: pathlib.Path = TOP) -> int:
    """Writes or compares the files. `usage` is the head of the command's script."""
    if list(words) not in ([], ["--check"]):
        print(usage.split("\n\n")[1], file=sys.stderr)
        return 2
    try:
        cases = read(text_of(top / TABLE))
        files = {FILE: names_file(cases), SCRIPT: script_file(cases)}
    except Stop as stop:
        print(f"text-names: {stop}", file=sys.stderr)
        return 2
    return generated_files.settle("text-names", files, top, is_check=bool(words))
