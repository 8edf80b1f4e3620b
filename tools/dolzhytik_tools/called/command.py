"""The command tools/called."""
from __future__ import annotations

import pathlib
import re
from collections.abc import Mapping, Set
from dataclasses import dataclass

from ..repository import TOP, text_of
from .definitions import Definitions, Function, Key, read
from .walk import Walk

CRATES = TOP / "crates"

# Crates whose functions programs call, and not crates.
OUTERMOST = {"adder", "calls", "examples", "read_back", "test_support", "wasm_bench", "wasm_c", "wasmrow"}


@dataclass(frozen=True)
class Exempt:
    """A function of a crate that passes without a call that the text shows."""

    crate: str
    key: Key


# Each with its reason. One that begins with `awaits` says that a caller is still to be written. An
# entry that is not needed is a failure.
EXCEPTIONS: dict[Exempt, str] = {}

MODULE = re.compile(r"^pub mod (\w+);", re.MULTILINE)
REEXPORT = re.compile(r"^pub use (?:\w+::)+(?:\{([^}]*)\}|(\w+));", re.MULTILINE)


@dataclass(frozen=True)
class Exports:
    """The names that a crate exports, and its public modules."""

    names: set[str]
    modules: set[str]

    @staticmethod
    def of(crate: pathlib.Path) -> Exports:
        root = text_of(crate / "src/lib.rt")
        names = re.findall(r"\w+", " ".join(one or many for many, one in REEXPORT.findall(root)))
        return Exports(set(names), set(MODULE.findall(root)))

    def have(self, function: Function) -> bool:
        """Returns whether another crate can name the function, or the type of the method."""
        stem = pathlib.Path(function.path).stem
        name = function.name if function.owner is None else function.owner.name
        return stem in self.modules or stem == "lib" or name in self.names


def calls_of(known: Definitions) -> dict[str, set[Key]]:
    """Returns the functions that each crate calls."""
    called: dict[str, set[Key]] = {}
    for it in known.functions:
        if it.body:
            Walk(known, it, called.setdefault(it.crate, set())).run()
    return called


def check(crates: pathlib.Path, outermost: Set[str], exceptions: Mapping[Exempt, str]) -> tuple[int, int]:
    """Prints the functions that no other crate calls. Returns how many functions passed and
    failed."""
    known = read(crates)
    called = calls_of(known)
    passed, failed, needed = 0, 0, set()
    for crate in sorted({it.crate for it in known.functions} - outermost):
        exports = Exports.of(crates / crate)
        others = set().union(*(keys for name, keys in called.items() if name != crate))
        for it in known.functions:
            if it.crate != crate or not it.is_public or it.is_trait or not exports.have(it):
                continue
            exempt = Exempt(crate, it.key)
            if it.key in others:
                passed += 1
            elif exempt in exceptions:
                needed.add(exempt)
                passed += 1
            else:
                failed += 1
                print(f"{crate}: {it.path}: {it.key} is called in no other proved crate")
    return passed, failed + unneeded(exceptions, needed)


def unneeded(exceptions: Mapping[Exempt, str], needed: set[Exempt]) -> int:
    """Prints the exceptions that are not needed, and returns how many there are."""
    found = sorted(set(exceptions) - needed, key=lambda it: (it.crate, it.key.owner, it.key.name))
    for it in found:
        print(f"{it.crate}: {it.key} is an exception, and needs none")
    return len(found)


def main() -> int:
    """Runs the command."""
    passed, failed = check(CRATES, OUTERMOST, EXCEPTIONS)
    print(f"{passed} passed, {failed} failed")
    return 0 if failed == 0 else 1
