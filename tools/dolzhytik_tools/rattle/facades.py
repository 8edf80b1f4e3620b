"""Imports of proof files through re-exports.

`proofs/Words.antt` of a crate re-exports the names that proofs of dependent crates use: lemmas,
definitions, and in wasm_base names of std. `specs/Lib.antt` re-exports definitions of the crate for
its own proofs. So a proof file has one import for each crate, in lines of at most 200 characters.
The crate `dolzhytik` re-exports the definitions and lemmas of all libraries for crates that use it.
"""
from __future__ import annotations

import pathlib
import re
from functools import cache

WIDTH = 200
IMPORT = re.compile(r"use Rattle\.([\w.+-]+)\.\{([^}]*)\}")
GLOB = re.compile(r"(?:unfoldable )?pub use Rattle\.([\w.]+)\.\*")
PASSED = re.compile(r"(?:unfoldable )?pub use Rattle\.([\w.]+)\.\{([^}]*)\}")
ALIAS = re.compile(r"pub use Rattle\.(\w+\.\w+) as (\w+)")
# The file of wasm_base that re-exports names of std for its own proofs.
STD = "wasm_base.proofs.Std"
# The crate that re-exports all libraries.
WHOLE = "dolzhytik"


def split(names: str) -> list[str]:
    return [it.strip() for it in names.split(",") if it.strip()]


class Facades:
    """The re-exports of the crates of a repository."""

    def __init__(self, top: pathlib.Path):
        self.top = top

    @cache
    def lines(self, module: str) -> tuple[str, ...]:
        """Returns the lines of a module's file, or none if it has no file."""
        crate, *path = module.split(".")
        file = self.top / "crates" / crate / ("/".join(path) + ".antt")
        return tuple(file.read_text(encoding="utf8").split("\n")) if file.exists() else ()

    @cache
    def globs(self, facade: str) -> frozenset[str]:
        """Returns the modules of which a facade re-exports all names."""
        return frozenset(it[1] for line in self.lines(facade + ".Lib") if (it := GLOB.fullmatch(line)))

    @cache
    def passed(self, module: str) -> dict[tuple[str, str], None]:
        """Returns the names that a file re-exports one by one, each with its module."""
        found = (it for line in self.lines(module) if (it := PASSED.fullmatch(line)))
        return {(it[1], name): None for it in found for name in split(it[2])}

    @cache
    def uses_whole(self, crate: str) -> bool:
        """Returns whether a crate uses the libraries as one."""
        file = self.top / "crates.txt"
        lines = file.read_text(encoding="utf8").split("\n") if file.exists() else []
        return any(line.split(":")[0].split()[:1] == [crate] and WHOLE in line.partition(":")[2].split() for line in lines)

    @cache
    def aliases(self) -> dict[str, str]:
        """Returns the names by which the whole re-exports the libraries."""
        lines = [(kind, line) for kind in ("specs", "proofs") for line in self.lines(f"{WHOLE}.{kind}.Lib")]
        return {found[1]: f"{WHOLE}.{kind}.{found[2]}" for kind, line in lines if (found := ALIAS.fullmatch(line))}

    def of(self, crate: str, module: str, name: str) -> str:
        """Returns the module through which proofs of a crate import a name of a module."""
        found = self.in_library(crate, module, name)
        own = crate + ".proofs.Common"
        if (found, name) in self.passed(own):
            return own
        library = ".".join(found.split(".")[:2])
        if self.uses_whole(crate) and library in self.aliases():
            return self.aliases()[library] + found.removeprefix(library)
        return found

    def in_library(self, crate: str, module: str, name: str) -> str:
        """Returns the module of the libraries through which proofs of a crate import a name."""
        home = module.split(".")[0]
        if home == crate:
            return home + ".specs" if module in self.globs(home + ".specs") and not self.lines(f"{home}.specs.{name}") else module
        if home == "std":
            words = STD if crate == "wasm_base" else "wasm_base.proofs.Words"
        else:
            words = home + ".proofs.Words"
        return words if (module, name) in self.passed(words) else module

    def turn(self, crate: str, text: str) -> str:
        """Returns the text of a proof file of a crate, with its imports through facades."""
        groups: dict[str, list[str]] = {}
        kept, first = [], None
        for line in text.split("\n"):
            found = IMPORT.fullmatch(line)
            if found is None:
                kept.append(line)
                continue
            first = len(kept) if first is None else first
            for name in split(found[2]):
                names = groups.setdefault(self.of(crate, found[1], name.split(" as ")[0]), [])
                if name not in names:
                    names.append(name)
        if first is None:
            return text
        lines = [line for module, names in groups.items() for line in import_lines(module, names)]
        return "\n".join(kept[:first] + lines + kept[first:])


def import_lines(module: str, names: list[str]) -> list[str]:
    """Returns imports of the names, in as few lines as the width allows."""
    lines: list[list[str]] = [[]]
    for name in names:
        if lines[-1] and len(f"use Rattle.{module}.{{{', '.join([*lines[-1], name])}}}") > WIDTH:
            lines.append([])
        lines[-1].append(name)
    return [f"use Rattle.{module}.{{{', '.join(it)}}}" for it in lines]
