"""The checksum of a mutant: of all that its verdict depends on.

A function is proved from its own body and proof files, from the contracts of its callees, and from
definitions and lemmas. Each lemma is proved too, so none makes a wrong body pass: lemmas are left
out. So the checksum covers exactly
- the mutant, and the mutated function with its proof files, and those of its cycle;
- of its crate and the crates below, the definitions and the items of sources that these name, and
  those that these name in turn (reached.py), without comments, blank lines, `#[inline]` and the
  bodies of functions;
- its crate's line of crates.txt, and the attributes of its root;
- the kit's logic, and the code that reads what a check prints (judging.py).
If a mutant changes a constant, a table, a definition or several places, the checksum covers all
definitions, sources and proof files of functions of its crate, and the definitions and interfaces
of the crates below. It has no machine, time or absolute path, so a committed verdict holds wherever
these contents are the same.
"""
from __future__ import annotations

import functools
import hashlib
import os
import re
import subprocess
from collections.abc import Sequence
from dataclasses import dataclass

from ..rattle import lexer
from ..rattle.functions import Function, functions_of
from ..repository import text_of
from . import reached
from .edits import Edit

# The proof files of one function. No other function cites them.
OF_FUNCTION = ("Answers.antt", "Invariants.antt", "Proof.antt")
# Functions that call one another are proved together, under this name.
CYCLE = re.compile(r"#\[cycle\((\w+)\)\]")
# Attributes that change the speed alone.
SPEED = re.compile(r" *#\[(?:inline(?:\(\w+\))?|cold)\]")


@dataclass(frozen=True)
class CrateFolders:
    """A crate: its folder, those of the crates below, and its line of crates.txt."""

    top: str
    below: Sequence[str]
    uses: tuple[object, ...]


def files_below(folder: str) -> list[str]:
    """Returns the files below a folder, in one order on every machine."""
    return sorted(f"{at}/{it}" for at, _, names in os.walk(folder) for it in names)


def bare(source: str) -> str:
    """Returns a source without comments, blank lines and attributes that change the speed alone."""
    code = "".join(it for it in lexer.words_of(source) if not lexer.is_comment(it))
    lines = filter(None, map(str.rstrip, code.split("\n")))
    return "\n".join(it for it in lines if not SPEED.fullmatch(it))


def proof_text(path: str) -> str:
    """Returns a file of definitions or proofs without blank lines, and lines that are comments."""
    lines = map(str.rstrip, text_of(path).split("\n"))
    return "\n".join(it for it in lines if it and not it.lstrip().startswith("--"))


def interface(path: str, source: str) -> str:
    """Returns a source without comments, blank lines and the bodies of functions."""
    parts, at = [], 0
    for body, end in sorted((body, end) for _, _, body, end in functions_of(path, source)):
        if body >= at:
            parts.append(source[at:body])
            at = end
    return bare("{}".join([*parts, source[at:]]))


def checksum(*parts: object) -> str:
    return hashlib.sha256(repr(parts).encode()).hexdigest()[:32]


@functools.lru_cache(maxsize=None)
def sum_of_interface(top: str) -> str:
    """Returns the checksum of what other functions, of this crate and of others, may depend on."""
    found = []
    for path in files_below(f"{top}/src"):
        found.append((path, interface(path.removeprefix(f"{top}/"), text_of(path))))
    for path in files_below(f"{top}/specs"):
        found.append((path, proof_text(path)))
    return checksum([(path.removeprefix(top), text) for path, text in found])


def proof_files(top: str) -> list[str]:
    """Returns the proof files of the functions of a crate, without those of lemmas."""
    return [it for it in files_below(f"{top}/proofs") if os.path.basename(it) in OF_FUNCTION]


def whole(top: str) -> list[str]:
    """Returns the sources and proof files of a crate, for a mutant of no single function."""
    return [bare(text_of(it)) for it in files_below(f"{top}/src")] + [proof_text(it) for it in proof_files(top)]


@functools.lru_cache(maxsize=None)
def functions_in(path: str, source: str) -> dict[Function, str]:
    """Returns the source of each function of a file."""
    return {it: bare(source[head:end]) for it, head, _, end in functions_of(path, source)}


def of_function(top: str, function: Function) -> list[str]:
    """Returns the source of a function, and the proof files of all functions of its name. The
    functions of a cycle have one proof, so those of a cycle have each other's sources and proof
    files too."""
    own = functions_in(function.path, text_of(f"{top}/{function.path}"))[function]
    others, names = [], {function.name}
    if cycle := CYCLE.search(own):
        paths = [it.removeprefix(f"{top}/") for it in files_below(f"{top}/src")]
        found = [it for path in paths for it in functions_in(path, text_of(f"{top}/{path}")).items()]
        members = [it for it in found if cycle[0] in it[1]]
        others = [source for it, source in members if it != function]
        names |= {cycle[1], *(it.name for it, _ in members)}
    proofs = [it for it in files_below(f"{top}/proofs") if os.path.basename(os.path.dirname(it)).lstrip("+") in names]
    return [own, *others, *map(proof_text, proofs)]


@functools.lru_cache(maxsize=None)
def logic() -> str:
    """Returns the identity of the kit's logic. Kits of one logic have the same proofs."""
    version = subprocess.run(["rt", "version"], capture_output=True, text=True, check=True).stdout
    found = re.search(r"\blogic (\w+)", version)
    assert found, version
    return found[1]


def sum_of(crate: CrateFolders, edit: Edit, judging: str) -> str:
    """Returns the checksum of a mutant; `judging` is the source of what decides of its verdict."""
    if not edit.target:
        interfaces = [sum_of_interface(crate.top), *map(sum_of_interface, crate.below)]
        return checksum(logic(), judging, crate.uses, interfaces, edit.text, whole(crate.top))
    own = of_function(crate.top, edit.target)
    known = reached.universe((crate.top, *crate.below), bare)
    changes = re.sub(r"(?m)^(?:file|old|new|after): ?", "", edit.text)
    words = set().union(*map(reached.words_of, [changes, *own])) | known.keys_of(edit.target.path, edit.target.name)
    imported = reached.imports(text_of(f"{crate.top}/{edit.target.path}"))
    return checksum(logic(), judging, crate.uses, attributes(crate.top), edit.text, own, known.reached(os.path.basename(crate.top), edit.target.path, imported, words))


@functools.lru_cache(maxsize=None)
def attributes(top: str) -> list[str]:
    """Returns the attributes of the root of a crate, such as the tactics of its proofs."""
    return [it for path in files_below(f"{top}/src") for it in text_of(path).split("\n") if it.startswith("#![")]


def forget() -> None:
    """Forgets what was read, since files may have changed."""
    for it in (sum_of_interface, attributes, reached.units_of, reached.universe):
        it.cache_clear()
