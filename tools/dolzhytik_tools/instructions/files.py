"""The files that follow from the table: whole ones, and regions of those that people write."""
from __future__ import annotations

import pathlib
import re

from ..errors import Stop
from ..repository import text_of
from . import conversion_proofs, conversions, spaces
from .definitions import all_cases, bare_definition, nested_rows, row_definition, rows, variants_used
from .formatting import WIDTH, arm, noted
from .opcodes import byte_shapes, counts, parts_defined, parts_made, runs_defined, runs_made, shapes_declared, shapes_used
from .regions import Region, filled
from .sources import append, bare_source, constants, copied, look, op_arms, shared_arms, variants
from .table import ENUMS, INSTRUCTION, NESTED, PREFIXES, Case, Enum, of_enum
from .test_files import cases_file, rows_file

CRATE, READER, REMAP = "crates/wasm_insn", "crates/wasm_reader", "crates/wasm_remap"
TESTS = "tests/wasm_insn_tests/src"
ATOMIC, VECTOR_IMMEDIATE = ENUMS["Atomic"], ENUMS["VectorImmediate"]

# The functions that clone the cases of `Instruction`, each with the last byte or prefix that it
# clones. The last function clones the nested enums too.
COPIES = (
    ("pub fn clone(", 0x1F),
    ("fn clone_access(", 0x40),
    ("fn clone_reference(", 0xFA),
    ("fn clone_aggregate(", 0xFB),
    ("fn clone_bulk(", 0xFC),
)


def copies(cases: list[Case]) -> list[Region]:
    """Returns the regions of the functions that clone."""
    found, least = [], -1
    for function, most in COPIES:
        text = "".join(copied(it) for it in cases if least < it.rank[0] <= most)
        if function == COPIES[-1][0]:
            text += "".join(arm([f"Instruction::{it.name}(i)"], f"Instruction::{it.name}(*i)", " " * 12) for it in NESTED)
        found.append(Region((f"    {function}", "        Ok(match self {"), text))
        least = most
    return found


def with_arms(enum: Enum, cases: list[Case]) -> list[Region]:
    """Returns the regions of an enum with fields: its cases, their opcodes, and the code that
    encodes the fields."""
    match, indent = "        match self {", " " * 12
    visibility = "" if enum == INSTRUCTION else "pub(crate) "
    return [
        Region((f"pub enum {enum.name}",), variants(enum, cases)),
        Region(("    pub fn op(", match), op_arms(enum, cases)),
        Region((f"    {visibility}fn encode_arguments<", match), shared_arms(enum, cases, append, "a.encode_arguments(sink)", "Ok(())", indent)),
    ]


def source_regions(cases: list[Case]) -> dict[str, list[Region]]:
    """Returns the regions of files of src/."""
    own, atomic, vector = of_enum(cases, INSTRUCTION), of_enum(cases, ATOMIC), of_enum(cases, VECTOR_IMMEDIATE)
    shapes = [Region((f"/// The opcodes after the prefix {it:02X}.",), runs_made(cases, it)) for it in PREFIXES]
    return {
        "src/instruction.rt": with_arms(INSTRUCTION, own) + copies(own),
        "src/vector_immediate.rt": with_arms(VECTOR_IMMEDIATE, vector),
        "src/atomic.rt": with_arms(ATOMIC, atomic) + [Region(("impl Instruction<'static> {",), constants(ATOMIC, atomic))],
        "src/ranged.rt": [
            Region(("impl Ranged for Atomic {", "        match self {"), shared_arms(ATOMIC, atomic, look, "", "{}", " " * 12)),
            Region(("pub(crate) fn arguments_ranged<", "    match instruction {"), shared_arms(INSTRUCTION, own, look, "a.ranged()", "{}", " " * 8)),
        ],
        "src/op.rt": [Region(("pub enum Shape {",), shapes_declared())],
        "src/part.rt": [Region(("    pub fn parts(", "        match self {"), parts_made())],
        "src/table.rt": [Region(("static ONE_BYTE:",), byte_shapes(cases)), *shapes],
    }


def definition_regions(cases: list[Case]) -> dict[str, list[Region]]:
    """Returns the regions of files of specs/."""
    own = of_enum(cases, INSTRUCTION)
    used = Region(("use Rattle.wasm_insn.specs.declared.op.Shape.{Shape}",), shapes_used())
    defined = [Region(("abbrev pub one_byte :", "one_byte ="), runs_defined(cases, None))]
    defined += [Region((f"abbrev pub after_{it:02x} :", f"after_{it:02x} ="), runs_defined(cases, it)) for it in PREFIXES]
    return {
        "specs/Parts.antt": [used, Region(("abbrev pub parts_of :",), parts_defined())],
        "specs/Table.antt": [used, *defined, Region(("ops_of (row ∷ next ∷ rows) =", ""), counts(cases))],
        "specs/Instructions.antt": [
            Region(("use Rattle.wasm_insn.specs.declared.instruction.Instruction.{",), variants_used(INSTRUCTION)),
            Region(("abbrev pub row_of :",), rows("row_of", own) + "".join(map(nested_rows, NESTED))),
        ],
        "specs/Cases.antt": [Region(("all_cases given =",), all_cases(cases))],
    }


def regions(cases: list[Case]) -> dict[str, list[Region]]:
    """Returns the regions of each file that people write."""
    return {**source_regions(cases), **definition_regions(cases)}


def whole_files(cases: list[Case]) -> dict[str, str]:
    """Returns the files that follow from the table as a whole."""
    found = {}
    for enum in NESTED:
        of = of_enum(cases, enum)
        found[f"specs/{enum.name}.antt"] = (bare_definition if enum.is_bare else row_definition)(enum, of)
        if enum.is_bare:
            found[f"src/{enum.module}.rt"] = bare_source(enum, of)
    return {path: noted(path, text) for path, text in found.items()}


def space_regions(cases: list[Case]) -> dict[str, list[Region]]:
    """Returns the regions of files of wasm_remap: the index spaces of numbers."""
    tables = [("ONE_BYTE", "one_byte", None), *((f"AFTER_{it:02X}", f"after_{it:02x}", it) for it in PREFIXES if spaces.runs(cases, it))]
    return {
        "src/spaces.rt": [Region((f"/// {name}:",), spaces.made(cases, name, prefix)) for name, _, prefix in tables],
        "specs/Spaces.antt": [Region((f"abbrev pub {name} :", f"{name} ="), spaces.defined(cases, prefix)) for _, name, prefix in tables],
    }


def conversion_files(cases: list[Case]) -> dict[str, str]:
    """Returns the files of wasm_reader that convert an opcode and its immediates."""
    found = {
        "src/by_opcode.rt": conversions.source(cases),
        "proofs/ByOpcode.antt": conversion_proofs.opcodes(cases),
    }
    return {path: noted(path, text) for path, text in found.items()}


def stop_if_long(path: str, text: str) -> None:
    """Stops at a line of code that `rt fmt` would lay out in another way."""
    for line in text.split("\n"):
        if path.endswith(".rt") and len(line) > WIDTH and not re.match(r" *(//|ensures|Some\(Shape)", line):
            raise Stop(f"{path}: a line that is too long: {line.strip()}")


def generated(top: pathlib.Path, cases: list[Case]) -> dict[str, str]:
    """Returns the text of each file."""
    files = {}
    for path, text in whole_files(cases).items():
        stop_if_long(path, text)
        files[f"{CRATE}/{path}"] = text
    for path, found in regions(cases).items():
        for it in found:
            stop_if_long(path, it.text)
        path = f"{CRATE}/{path}"
        files[path] = filled(path, text_of(top / path), found)
    for path, found in space_regions(cases).items():
        path = f"{REMAP}/{path}"
        files[path] = filled(path, text_of(top / path), found)
    files |= {f"{READER}/{path}": text for path, text in conversion_files(cases).items()}
    tests = {f"{TESTS}/cases.rtt": cases_file(cases), f"{TESTS}/rows.rtt": rows_file(cases)}
    return files | {path: noted(path, text) for path, text in tests.items()}
