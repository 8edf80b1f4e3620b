"""The opcode table and the shapes, in src/ and specs/."""
from __future__ import annotations

from collections.abc import Iterable
from dataclasses import dataclass

from .layouts import LAYOUTS
from .table import Case


@dataclass(frozen=True)
class Run:
    """Consecutive opcodes of one shape."""

    first: Case
    last: Case


def runs(cases: Iterable[Case], prefix: int | None) -> list[Run]:
    found: list[Run] = []
    for it in cases:
        if it.prefix == prefix:
            is_next = found and (it.number, it.shape) == (found[-1].last.number + 1, found[-1].last.shape)
            found = [*found[:-1], Run(found[-1].first, it)] if is_next else [*found, Run(it, it)]
    return found


def runs_defined(cases: list[Case], prefix: int | None) -> str:
    return "".join(f"    run {it.first.digits} {it.last.digits} {it.first.shape} ∷\n" for it in runs(cases, prefix))


def runs_made(cases: list[Case], prefix: int) -> str:
    found = runs(cases, prefix)
    return f"static AFTER_{prefix:02X}: [Run; {len(found)}] = [\n" + "".join(f"    Run({it.first.digits}, {it.last.digits}, Shape::{it.first.shape}),\n" for it in found)


def byte_shapes(cases: list[Case]) -> str:
    """Returns the shape of each byte, eight a line."""
    shapes = {it.number: f"Some(Shape::{it.shape})" for it in cases if it.prefix is None}
    places = [shapes.get(byte, "None") for byte in range(256)]
    return "".join(f"    {', '.join(places[start : start + 8])},\n" for start in range(0, 256, 8))


def counts(cases: list[Case]) -> str:
    """Returns the record of how many rows and opcodes the table has."""
    ops = len({it.rank for it in cases})
    return f"""-- The table has {len(cases)} rows on {ops} opcodes, in ascending order. Two neighbours share the opcode 1C,
-- and no others share one.
pub record IsOpcodeTable (rows : Table) : Type 0 where
  pub row_count : length rows ≡ {len(cases)}
  pub op_count : length (ops_of rows) ≡ {ops}
"""


def shapes_declared() -> str:
    return "".join(f"    /// {it.says}\n    {it.shape},\n" if it.says else f"    {it.shape},\n" for it in LAYOUTS.values())


def shapes_used() -> str:
    return f"use Rattle.wasm_insn.specs.declared.op.Shape.TheVariants.{{{', '.join(it.shape for it in LAYOUTS.values())}}}\n"


def parts_made() -> str:
    """Returns an arm for each shape, with its parts."""
    return "".join(f"            Shape::{it.shape} => &[{', '.join(f'Part::{word.capitalize()}' for word in it.words)}],\n" for it in LAYOUTS.values())


def parts_defined() -> str:
    return "".join(f"parts_of {it.shape} = {' ∷ '.join([*(f'parts.{word.capitalize()}' for word in it.words), '[]'])}\n" for it in LAYOUTS.values())
