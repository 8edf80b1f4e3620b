"""The crates of crates.txt, and their libraries."""
from __future__ import annotations

import json
import os
import sys
from typing import NamedTuple

from ..repository import text_of
from .kit import KIT
from .processes import started

PARTS = ("src", "specs", "proofs")


class Listed(NamedTuple):
    """A crate of crates.txt: the words after its name, and the libraries that it names."""

    kind: list[str]
    uses: list[str]


Repository = dict[str, Listed]


def crates() -> Repository:
    """Returns the crates of crates.txt."""
    found: Repository = {}
    for line in text_of("crates.txt").split("\n"):
        head, _, uses = line.partition("#")[0].strip().partition(":")
        if head:
            name, *kind = head.split()
            found[name] = Listed(kind, uses.split())
    return found


def below(repository: Repository, name: str) -> list[str]:
    """Returns the repository's libraries below a crate, lowest first."""
    found: list[str] = []
    for dep in repository[name].uses:
        if dep in repository:
            found += [it for it in [*below(repository, dep), dep] if it not in found]
    return found


def rlib(name: str) -> str:
    """Returns the folder of a built library."""
    return f"{os.getcwd()}/crates/{name}/out/rlib/{name}.rlib"


def newest(name: str) -> float:
    """Returns the time of the last change of a crate."""
    files = [f"{at}/{it}" for part in PARTS for at, _, names in os.walk(f"crates/{name}/{part}") for it in names]
    return max(map(os.path.getmtime, files))


def is_built(name: str) -> bool:
    """Returns whether the library is built from the files as they are."""
    return os.path.isdir(rlib(name)) and os.path.getmtime(rlib(name)) >= newest(name)


def is_of_the_gate(name: str) -> bool:
    """Returns whether `rt ci` built the library: it has no stamp of `rt lib`."""
    return is_built(name) and not os.path.isfile(f"{os.path.dirname(rlib(name))}/stamp")


def symbols_of(name: str) -> list[str]:
    """Returns the prover's names of the functions of a built library, and none for any other
    crate."""
    if not is_built(name):
        return []
    code = json.loads(text_of(f"{rlib(name)}/toolchain/mir.json"))
    return [symbol for symbol, _ in code if not symbol.endswith("+decl") and "::fn::" not in symbol]


def build_below(repository: Repository, names: list[str]) -> None:
    """Builds the libraries below crates by `rt lib`, unless `rt ci` has built all: the two do not
    mix."""
    needed = list(dict.fromkeys(dep for name in names for dep in below(repository, name)))
    if all(map(is_of_the_gate, needed)):
        return
    for dep in needed:
        with started(["rt", "lib", "--jobs", "2"], f"crates/{dep}") as ran:
            out = ran.stdout.read()
        if ran.returncode:
            sys.exit(f"wrong-bodies: {dep} is not built:\n{out[-4000:]}")


def words_of(repository: Repository, name: str) -> list[str]:
    """Returns the arguments of the prover for a check of a crate."""
    kind, uses = repository[name]
    root = "main" if os.path.isfile(f"crates/{name}/src/main.rt") else "lib"
    words = ["--crate-name", name, f"src/{root}.rt", "-L", f"dependency={KIT}/rlibs", "--links", f"{name}="]
    for it in dict.fromkeys(["std", *uses]):
        words += ["--extern", f"{it}={rlib(it) if it in repository else f'{KIT}/rlibs/{it}.rlib'}"]
    for it in below(repository, name):
        words += ["-L", f"dependency={os.path.dirname(rlib(it))}"]
    words += ["--antt-project", f"{KIT}/rattle/logic/antt-project.json", "--logic-built", f"{KIT}/logic_built", "--jobs", "1"]
    return words + (["--crate-type", "staticlib"] if "staticlib" in kind else [])
