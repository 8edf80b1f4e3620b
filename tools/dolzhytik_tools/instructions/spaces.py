"""The index spaces of the numbers among the immediates of each opcode, in crates/wasm_remap."""
from __future__ import annotations

from collections.abc import Iterable
from dataclasses import dataclass

from ..errors import Stop
from .formatting import LIST_WIDTH
from .layouts import NUMBER
from .table import TABLE, Case

# The names of fields by the index space that they are in. Those of the last line are labels,
# locals, fields and lengths, which no other section refers to.
NAMES = {
    "Functions": "function_index",
    "Types": "type_index struct_type_index array_type_index array_type_index_dst array_type_index_src cont_type_index argument_index result_index",
    "Tables": "table table_index src_table dst_table",
    "Memories": "mem src_mem dst_mem",
    "Globals": "global_index",
    "Tags": "tag_index",
    "Elements": "elem_index array_elem_index",
    "Data": "data_index array_data_index",
    "": "label default relative_depth local_index field_index array_size",
}
SPACES = {name: space for space, names in NAMES.items() for name in names.split()}


def spaces_of(case: Case) -> tuple[str, str]:
    """Returns the index spaces of the first and the second number of a case, in the order of the
    encoding; an empty text for none."""
    names = case.fields or case.parameters
    numbers = [name for name, part in zip(names, case.given.parts) if part == NUMBER]
    for name in numbers:
        if name not in SPACES:
            raise Stop(f"{TABLE}:{case.line}: no index space is known of the field {name}")
    if len(numbers) > 2:
        raise Stop(f"{TABLE}:{case.line}: more than two numbers: {case.name}")
    first, second = [*(SPACES[name] for name in numbers), "", ""][:2]
    return first, second


@dataclass(frozen=True)
class Run:
    """Consecutive opcodes whose numbers are in the same index spaces."""

    first: Case
    last: Case
    spaces: tuple[str, str]


def runs(cases: Iterable[Case], prefix: int | None) -> list[Run]:
    """Returns the opcodes with a number that is an index."""
    found: list[Run] = []
    for it in cases:
        spaces = spaces_of(it)
        if it.prefix == prefix and any(spaces):
            is_next = found and (it.number, spaces) == (found[-1].last.number + 1, found[-1].spaces)
            found = [*found[:-1], Run(found[-1].first, it, spaces)] if is_next else [*found, Run(it, it, spaces)]
    return found


def made(cases: list[Case], name: str, prefix: int | None) -> str:
    """Returns a table of the source."""
    found = runs(cases, prefix)
    text = f"static {name}: [Run; {len(found)}] = [\n"
    for it in found:
        words = [it.first.digits, it.last.digits, *(f"Some(IndexSpace::{space})" if space else "None" for space in it.spaces)]
        line = ", ".join(words)
        text += f"    Run({line}),\n" if len(line) <= LIST_WIDTH else "    Run(\n" + "".join(f"        {word},\n" for word in words) + "    ),\n"
    return text


def defined(cases: list[Case], prefix: int | None) -> str:
    """Returns the same table as a definition."""
    text = ""
    for it in runs(cases, prefix):
        spaces = (f"(Some {space})" if space else "None" for space in it.spaces)
        text += f"    run {it.first.digits} {it.last.digits} {' '.join(spaces)} ∷\n"
    return text
