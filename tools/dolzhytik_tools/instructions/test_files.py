"""The generated files of tests/wasm_insn_tests: a value of each instruction, and its bytes."""
from __future__ import annotations

from .encodings import bytes_of, value_of
from .formatting import laid_out
from .table import INSTRUCTION, NESTED, Case, Enum, of_enum

# The order of enums in the tests, and how many instructions one function makes: of all, and of
# those without fields.
TESTED = (INSTRUCTION, *NESTED)
STEP, NAMES_STEP = 41, 61
CASES_HEAD = """//! A value of each instruction, in the order of their opcodes within each enum.
use std::alloc::Global;
use wasm_base::{AbstractHeapType, CowSlice, HeapType, RefType, ValType};
use wasm_insn::{
    Aggregate, Atomic, BlockType, Catch, Handle, Ieee32, Ieee64, Instruction, MemArg, MemArgTarget,
    Numeric, Ordering, PrefixedNumeric, Vector, VectorImmediate,
};

const MEMARG: MemArg = MemArg {
    offset: 300,
    align: 2,
    target: MemArgTarget::Memory(1),
    ordering: None,
};
"""


def named(cases: list[Case]) -> list[Case]:
    """Returns the cases of nested enums that have no fields: each is a constant of `Instruction`
    too."""
    return [it for enum in NESTED for it in of_enum(cases, enum) if not it.given.parts]


def static_of(enum: Enum) -> str:
    return enum.module.upper() + "S"


def places(name: str, what: str, static: str, step: int, of: list[str]) -> str:
    """Returns a function that makes the instruction of an index, and the functions that it calls: a
    constant can hold nothing that is dropped."""
    text, arms = "", ""
    for start in range(0, len(of), step):
        end = min(start + step, len(of))
        made = ""
        for i in range(start, end):
            head = f"        {i if i + 1 < end else '_'} => "
            made += head + laid_out(of[i], " " * 8, len(head)) + ",\n"
        text += f"\n/// {what} from place {start} on.\nfn {name}_from_{start}(place: usize) -> Instruction<'static> {{\n    match place {{\n{made}    }}\n}}\n"
        arms += f"        {'_' if end == len(of) else f'{start}..={end - 1}'} => {name}_from_{start}(place),\n"
    head = f"\n/// The instruction of this place in `rows::{static}`, and past the last place the last one.\n"
    return head + f"pub fn {name}(place: usize) -> Instruction<'static> {{\n    match place {{\n{arms}    }}\n}}\n" + text


def cases_file(cases: list[Case]) -> str:
    """Returns the file of instructions."""
    text = CASES_HEAD
    for enum in TESTED:
        of, static = [value_of(it) for it in of_enum(cases, enum)], static_of(enum)
        if enum == INSTRUCTION:
            text += places("instruction", "The instructions", static, STEP, of)
        else:
            text += f"\npub static {static}: [{enum.name}; {len(of)}] = [\n" + "".join(f"    {laid_out(it, ' ' * 4, 4)},\n" for it in of) + "];\n"
    constants = [f"Instruction::<Global>::{it.name}" for it in named(cases)]
    return text + places("name", "The instructions without fields, by their names on `Instruction`,", "NAMES", NAMES_STEP, constants)


def rows_file(cases: list[Case]) -> str:
    """Returns the file of their bytes, in hexadecimal."""
    text = "//! The bytes of each instruction, in hexadecimal, in the order of `cases`.\n"
    for static, of in [(static_of(enum), of_enum(cases, enum)) for enum in TESTED] + [("NAMES", named(cases))]:
        text += f"\npub static {static}: [&str; {len(of)}] = [\n" + "".join(f'    "{bytes(bytes_of(it)).hex()}", // {it.name}\n' for it in of) + "];\n"
    return text
