"""The parts of specs/ that follow from the table: numbers, rows and a value of each case."""
from __future__ import annotations

from .layouts import ARGUMENTS, NUMBER
from .table import INSTRUCTION, NESTED, Case, Enum


def variants_used(enum: Enum) -> str:
    """Returns the import of the cases of an enum, as `cases`."""
    return f"use Rattle.wasm_insn.specs.declared.{enum.module}.{enum.name}.TheVariants as cases\n"


def bare_definition(enum: Enum, cases: list[Case]) -> str:
    """Returns the definition of the numbers of an enum without fields."""
    number = f"{enum.module}_number"
    says = "The opcode of each instruction, a byte." if enum.prefix is None else f"The number of each instruction after the prefix {enum.prefix:02X}."
    return f"""-- This file defines the opcodes of the instructions of `{enum.name}`.
use Rattle.std.specs.Prelude.{{ℕ}}
use Rattle.wasm_insn.specs.declared.{enum.module}.{enum.name}.{{{enum.name}}}
{variants_used(enum)}
-- {says}
abbrev pub {number} : {enum.name} → ℕ
""" + "".join(f"{number} cases.{it.name} = {it.digits}\n" for it in cases)


def arguments_of(case: Case) -> tuple[str, ...]:
    """Returns the arguments of the row of a case."""
    if case.given.arguments:
        return tuple(it.format(*case.letters) for it in case.given.arguments)
    return tuple(part.argument.format(letter) for part, letter in zip(case.given.parts, case.letters))


def rows(name: str, cases: list[Case]) -> str:
    """Returns the equation of the row of each case."""
    text = ""
    for it in cases:
        of = f"(cases.{it.name} {' '.join(it.letters)})" if it.letters else f"cases.{it.name}"
        op = f"Byte {it.digits}" if it.prefix is None else f"Prefixed 0x{it.prefix:02X} {it.digits}"
        text += f"{name} {of} = record {{ op = {op}; arguments = {' ∷ '.join([*arguments_of(it), '[]'])} }}\n"
    return text


def nested_rows(enum: Enum) -> str:
    """Returns the equation of the row of an enum within `Instruction`."""
    if not enum.is_bare:
        return f"row_of (cases.{enum.name} i) = {enum.module}_row i\n"
    op = "Byte" if enum.prefix is None else f"Prefixed 0x{enum.prefix:02X}"
    return f"row_of (cases.{enum.name} i) = record {{ op = {op} ({enum.module}_number i); arguments = [] }}\n"


def row_definition(enum: Enum, cases: list[Case]) -> str:
    """Returns the definition of the rows of an enum with fields."""
    words = {word for case in cases for word in case.given.words}
    return f"""-- This file defines the opcodes and immediates of the instructions of `{enum.name}`.
use Rattle.std.specs.Prelude.{{[], ◌∷◌}}
use Rattle.wasm_insn.specs.declared.{enum.module}.{enum.name}.{{{enum.name}}}
{variants_used(enum)}use Rattle.wasm_insn.specs.declared.op.Op.TheVariants.{{Prefixed}}
use Rattle.wasm_insn.specs.Arguments.{{{', '.join(it for it in ARGUMENTS if it in words)}}}
use Rattle.wasm_insn.specs.Plain.{{Plain}}

-- The opcode and the immediates of each instruction.
abbrev pub {enum.module}_row : {enum.name} → Plain
""" + rows(f"{enum.module}_row", cases)


def all_cases(cases: list[Case]) -> str:
    """Returns a value of each case, in the order of the table. The second index of a case differs
    from its first one."""
    text = ""
    for it in cases:
        fields = " ".join("given.second_index" if part == NUMBER and NUMBER in it.given.parts[:i] else f"given.{part.given}" for i, part in enumerate(it.given.parts))
        value = f"{it.name} {fields}".strip()
        if it.enum == INSTRUCTION:
            text += f"    cases.{value} ∷\n"
        else:
            of = f"{it.enum.module}.{value}"
            text += f"    cases.{it.enum.name} {f'({of})' if fields else of} ∷\n"
    return text
