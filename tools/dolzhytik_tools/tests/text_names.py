"""Tests of tools/text-names: the rule, what numbers are, names that stop the tool, and changed files."""
from __future__ import annotations

import pathlib
import tempfile
from dataclasses import replace

from ..errors import Stop
from ..instructions.table import TABLE, Case, read
from ..repository import TOP, text_of
from ..text_names import FILE, name_of, named, roles_of
from ..text_names import main as main_of_tool
from .report import run_all, usage_of

USAGE = usage_of("text-names")
# Names of the standard and of its proposals.
NAMES = {
    "loop_": "loop",
    "br_on_non_null": "br_on_non_null",
    "call_indirect": "call_indirect",
    "typed_select_multi": "select",
    "local_get": "local.get",
    "i32_load8_s": "i32.load8_s",
    "i64_trunc_sat_f32_u": "i64.trunc_sat_f32_u",
    "i8x16_extract_lane_s": "i8x16.extract_lane_s",
    "i16x8_extadd_pairwise_i8x16_s": "i16x8.extadd_pairwise_i8x16_s",
    "v128_andnot": "v128.andnot",
    "ref_as_non_null": "ref.as_non_null",
    "ref_test_non_null": "ref.test",
    "ref_cast_desc_eq_nullable": "ref.cast_desc_eq",
    "struct_new_default": "struct.new_default",
    "any_convert_extern": "any.convert_extern",
    "cont_bind": "cont.bind",
    "resume_throw_ref": "resume_throw_ref",
    "atomic_fence": "atomic.fence",
    "memory_atomic_wait32": "memory.atomic.wait32",
    "i32_atomic_load8_u": "i32.atomic.load8_u",
    "i64_atomic_rmw_cmpxchg": "i64.atomic.rmw.cmpxchg",
    "i64_atomic_rmw32_add_u": "i64.atomic.rmw32.add_u",
    "array_atomic_get_s": "array.atomic.get_s",
}
# What the numbers of instructions are, in the order of the binary format in the standard.
ROLES = {
    "nop": (),
    "br_if": ("Label",),
    "br_table": ("Label",),
    "call": ("Entry(Function)",),
    "call_indirect": ("Entry(Type)", "Entry(Table)"),
    "local_tee": ("Local",),
    "throw": ("Entry(Tag)",),
    "struct_get": ("Entry(Type)", "Field"),
    "array_new_fixed": ("Entry(Type)", "Length"),
    "array_new_data": ("Entry(Type)", "Entry(Data)"),
    "memory_init": ("Entry(Data)", "Entry(Memory)"),
    "table_init": ("Entry(Element)", "Entry(Table)"),
    "i32_load": (),
}


def cases() -> list[Case]:
    return read(text_of(TOP / TABLE))


def rule() -> None:
    """The rule gives the names of the text format, for calls of the table."""
    calls = {it.call for it in cases()}
    for call, name in NAMES.items():
        assert call in calls and name_of(call) == name, (call, name_of(call))


def numbers() -> None:
    """The names of fields say what numbers are, and another name stops the tool."""
    found = {it.call: it for it in cases()}
    for call, roles in ROLES.items():
        assert roles_of(found[call]) == roles, (call, roles_of(found[call]))
    try:
        roles_of(replace(found["call"], parameters=("callee",)))
    except Stop:
        return
    raise AssertionError("it was not stopped at another name")


def stops() -> None:
    """A second instruction of one name stops the tool, and so does a name with a capital."""
    found = cases()
    for call in ("nop", "I32_add"):
        changed = [replace(it, call=call) if it.name == "Unreachable" else it for it in found]
        try:
            named(changed)
        except Stop:
            continue
        raise AssertionError(f"it was not stopped at {call}")


def touched_files() -> None:
    """`--check` reports missing and changed files."""
    with tempfile.TemporaryDirectory() as folder:
        top = pathlib.Path(folder)
        (top / TABLE).parent.mkdir(parents=True)
        (top / TABLE).write_bytes((TOP / TABLE).read_bytes())
        found = [main_of_tool(words, USAGE, top) for words in (["--check"], [], ["--check"])]
        written = top / FILE
        written.write_text(text_of(written).replace("br_if", "br_unless"), encoding="utf-8")
        found += [main_of_tool(words, USAGE, top) for words in (["--check"], ["--check", "again"])]
    assert found == [1, 0, 0, 1, 2], found


def main() -> int:
    """Runs the tests."""
    return run_all("text-names-test", (rule, numbers, stops, touched_files))
