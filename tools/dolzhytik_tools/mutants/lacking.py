"""Public functions without a mutant."""
from __future__ import annotations

import argparse
import os
import re

from ..rattle.functions import Function, blanked, functions_of
from ..repository import text_of
from .crates import Repository
from .edits import Edit, edits_of
from .say import say

# Functions whose type leaves one result, or whose contract allows any: `Refusing::new` has one
# value of the type parameter, an instruction that is passed by value is in the range of its type,
# no contract says what `{:?}` writes, any number is a mark of `Discard`, an effect may hide that
# it is idle, and a pass over code that stops gives no error itself.
SETTLED = {
    ("test_support", "src/memory.rt", "new"),
    ("wasm_base", "src/effect.rt", "is_idle"),
    ("wasm_base", "src/effect.rt", "position"),
    ("wasm_base", "src/fault.rt", "fmt"),
    ("wasm_insn", "src/ranged.rt", "ranged"),
    ("wasm_remap", "src/streamed.rt", "from"),
}
# Crates whose results a driver compares with those of its own encoder: their mutants may be in
# inner/.
DRIVEN = {"wasm_bench"}


def owes_edit(source: str, function: Function, head: int, body: int, end: int) -> bool:
    """Returns whether a function needs a mutant: its body is not empty, and it is public with a
    clause, or of a trait."""
    text = blanked(source)
    if function.name == "drop" or not re.sub(r"//[^\n]*", "", source[body + 1 : end - 1]).strip():
        return False
    if re.match(r"(#\[.*\]\s*)*pub\s+(?!\()", text[head:body]):
        return "ensures" in text[head:body]
    owners = re.findall(r"^ *(?:pub(?:\([^)]*\))? )?(?:unsafe )?(impl|trait)\b([^{;]*)", text[:head], re.M)
    is_inside_one = text[head - 1] == " " and owners
    return bool(is_inside_one) and (owners[-1][0] == "trait" or " for " in owners[-1][1])


def lacking(repository: Repository, args: argparse.Namespace) -> tuple[int, int]:
    """Names the functions that need a mutant and have none, and the mutants that cannot be applied.
    Returns how many functions have a mutant, and how many of both were named."""
    has_one: list[bool] = []
    for name in args.names or repository:
        if os.path.isfile(f"crates/{name}/src/lib.rt"):
            edits = edits_of(name, f"crates/{name}")
            has_one += [False] * sum(map(count_bad, edits.values()))
            has_one += functions_with_one(name, edits)
    return sum(has_one), len(has_one) - sum(has_one)


def count_bad(edits: list[Edit]) -> int:
    """Names the mutants that cannot be applied, and returns how many there are."""
    bad = [it for it in edits if it.bad]
    for it in bad:
        say(f"{it.label}: BAD EDIT: {it.at}: {it.bad}")
    return len(bad)


def functions_with_one(name: str, edits: dict[str, list[Edit]]) -> list[bool]:
    """Returns of each function that needs a mutant whether it has one, and names those that do
    not."""
    edited = {it.target for folder in edits for it in edits[folder] if folder != "private" or name in DRIVEN}
    has_one = []
    for path in sorted(f"{at}/{file}"[len(f"crates/{name}/") :] for at, _, files in os.walk(f"crates/{name}/src") for file in files):
        source = text_of(f"crates/{name}/{path}")
        owing = [it[0] for it in functions_of(path, source) if owes_edit(source, *it) and (name, path, it[0].name) not in SETTLED]
        for it in owing:
            has_one.append(it in edited)
            if it not in edited:
                say(f"{name}: {path}:{it.first}: {it.name} has no mutant")
    return has_one
