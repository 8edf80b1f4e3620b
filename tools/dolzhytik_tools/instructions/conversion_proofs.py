"""The lemmas that the conversion of an opcode and its immediates has all opcodes of each shape."""
from __future__ import annotations

from .conversions import NAMES, Class, classes
from .layouts import LAYOUTS
from .table import Case, Enum, of_enum

HEAD = """-- This file proves that the functions of `by_opcode` have an instruction of each opcode.
use Rattle.wasm_base.proofs.Words.{◌≡◌, ◌≢◌, ℕ, [], ◌∷◌, ◌<◌, ◌≤◌, Option, Some, None, get_or, refl}
use Rattle.std.specs.Prelude.{IfSome, IfNone}
use Rattle.wasm_insn.proofs.Words.{table}
use Rattle.wasm_insn.specs.declared.op.Op.TheVariants.{Byte, Prefixed}
use Rattle.wasm_insn.specs.declared.op.Shape.TheVariants as shapes
use Rattle.wasm_insn.specs.declared.numeric.Numeric.{Numeric}
use Rattle.wasm_insn.specs.declared.aggregate.Aggregate.{Aggregate}
use Rattle.wasm_insn.specs.declared.prefixed_numeric.PrefixedNumeric.{PrefixedNumeric}
use Rattle.wasm_insn.specs.declared.vector.Vector.{Vector}
use Rattle.wasm_insn.specs.Plain.{shape_of}
use Rattle.wasm_insn.specs.Numeric.{numeric_number}
use Rattle.wasm_insn.specs.Aggregate.{aggregate_number}
use Rattle.wasm_insn.specs.PrefixedNumeric.{prefixed_numeric_number}
use Rattle.wasm_insn.specs.Vector.{vector_number}
use Rattle.wasm_reader.specs.declared.by_opcode.TheConstants.{NUMERIC, AGGREGATE, PREFIXED_NUMERIC, VECTOR}
use Rattle.wasm_reader.proofs.OpcodesOfShapes.{keys, byte_of, prefix_of, number_after, listed, none_of, none_at, item_is, item_none, beyond}

-- ---- instructions without immediates

"""

def of_array(enum: Enum, cases: list[Case]) -> str:
    """Returns the lemmas about an item of an array: its number, and what is known if it is absent or
    beyond the end."""
    name, items = enum.module, enum.module.upper()
    size = max(it.number for it in cases) + 1
    absent, subject = f"get_or {items} n None ≡ None", f"(n : ℕ) (d : Option {enum.name}) → n < {size} →"
    text = f"""pub {name}_some : {subject} IfSome (get_or {items} n d) (λ i. {name}_number i ≡ n)
{name}_some n d l = item_is {name}_number {items} n d refl l

"""
    if enum.prefix is None:
        return text + f"""pub {name}_none : {subject} IfNone (get_or {items} n d) ({absent})
{name}_none n d l = item_none {items} n d l (λ e. e)

pub {name}_beyond : (n : ℕ) → {size} ≤ n → {absent}
{name}_beyond n l = beyond {items} n l
"""
    prefix = f"0x{enum.prefix:02X}"
    claim, key = f"shape_of table (Prefixed {prefix} n) ≢ Some shapes.Nothing", f"(number_after {prefix}) shapes.Nothing table"
    return text + f"""{name}_absent : (n : ℕ) → {absent} → {claim}
unfolding table
{name}_absent n none e = none_at {items} [] (keys {key}) n refl tt none (listed {key} (Prefixed {prefix} n) n refl e)

pub {name}_none : {subject} IfNone (get_or {items} n d) ({claim})
{name}_none n d l = item_none {items} n d l ({name}_absent n)

pub {name}_beyond : (n : ℕ) → {size} ≤ n → {claim}
{name}_beyond n l = {name}_absent n (beyond {items} n l)
"""


def written(numbers: list[str]) -> str:
    return f"({' ∷ '.join([*numbers, '[]'])})" if numbers else "[]"


def tuple_of(names: list[str]) -> str:
    text = "tt"
    for it in reversed(names):
        text = f"({it}, {text})"
    return text


def lemma(name: str, given: str, op: str, premises: list[str], shape: str, key: str, of: str, known: list[str]) -> str:
    """Returns the lemma that an opcode whose key is none of those known is none of the shape."""
    names = [f"n{i}" for i in range(1, len(known) + 1)]
    premises = [f"{of} ≢ {it}" for it in known] + premises
    variables = given.strip("()").partition(" :")[0]
    none = ["none"] * (len(premises) > len(known))
    head = f"pub {name} : {given} → " + "".join(f"{it} → " for it in premises) + f"shape_of table ({op}) ≢ Some shapes.{shape}\nunfolding table\n"
    keys = f"(keys {key} shapes.{shape} table)"
    shown = f"(listed {key} shapes.{shape} table ({op}) {of} refl e)"
    by = f"none_at NUMERIC {written(known)} {keys} {of} refl {tuple_of(names)} none {shown}" if none else f"none_of {written(known)} {keys} {of} refl {tuple_of(names)} {shown}"
    return head + f"{' '.join([name, variables, *names, *none])} e = {by}\n"


def lemma_of(of: Class) -> str:
    """Returns the lemma that an opcode of a class, which is none of the arms, is none of the shape."""
    known = [it.digits for it in of.own if it.form != "one"]
    none = ["get_or NUMERIC b None ≡ None"] if of.bare else []
    shape = LAYOUTS[of.layout].shape
    if of.prefix is None:
        return lemma(of.lemma, "(b : ℕ)", "Byte b", none, shape, "byte_of", "b", known)
    return lemma(of.lemma, "(n : ℕ)", f"Prefixed 0x{of.prefix:02X} n", none, shape, f"(number_after 0x{of.prefix:02X})", "n", known)


def others(layout: str, of: list[Class]) -> str:
    """Returns the lemma that an opcode after no prefix of a layout is none of its shape, and for a
    layout without opcodes of one byte that none of these is."""
    name, shape = NAMES[layout][0], LAYOUTS[layout].shape
    known = [f"0x{it.prefix:02X}" for it in of if it.prefix is not None]
    text = lemma(f"other_{name}", "(p n : ℕ)", "Prefixed p n", [], shape, "prefix_of", "p", known)
    if all(it.prefix is not None for it in of):
        text += "\n" + lemma(f"byte_{name}", "(b : ℕ)", "Byte b", [], shape, "byte_of", "b", [])
    return text


def opcodes(cases: list[Case]) -> str:
    """Returns the file of the lemmas about opcodes."""
    found = classes(cases)
    bare = {it.enum.name: it.enum for it in cases if it.enum.is_bare}
    text = "\n".join(of_array(it, of_enum(cases, it)) for it in bare.values())
    for layout, of in found.items():
        text += f"\n-- ---- {NAMES[layout][1]}\n\n"
        text += "\n".join(lemma_of(it) for it in of if it.prefix is None or not it.bare)
        text += "\n" + others(layout, of)
    return HEAD + text
