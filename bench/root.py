#!/usr/bin/env python3
"""Prints the table of README.md: the names at the root of the package, beside the crate
`wasm-encoder`. `bench/run drop-in` starts it.

    bench/root.py [FOLDER]

FOLDER has the sources of the crate. Without it there are no columns of the crate. Cargo must find
the dependencies of the crate without a network.

    WORKS='calls exports kept-bodies time-calls' bench/root.py

picks rows.
"""
from __future__ import annotations

import os
import pathlib
import re
import subprocess
import sys

import build
from build import Library

# The profiles: the release profile of cargo as it is, and fat LTO with one codegen unit.
PROFILES = ("3", "fat")
# The workloads of root.rs: processor instructions of an item.
WORKLOADS = {
    "calls": "28 named calls",
    "calls-unproved": "4 named calls without a proved one",
    "values": "28 values of `Instruction`",
    "values-unproved": "4 values without a proved call",
    "mixed": "`f.instructions()` for each call, and values",
    "line": "8 named calls of one sink",
    "wide-line": "the same with operands of two bytes",
    "blocks": "blocks of each type, and `select` with a type",
    "exports": "exports",
    "imports": "imports",
    "compact1": "`Compact1` of four items",
    "functions": "function indices",
    "types": "function types of 0 to 4 parameters and 0 or 1 result",
    "declarations": "tables, memories and tags",
    "globals": "globals of one constant",
    "globals-with": "globals with `with_..` calls",
    "globals-extended": "globals of `extended`",
    "elements": "16 functions a segment",
    "elements-3": "3 functions a segment",
    "expressions": "16 expressions a segment",
    "data": "data of 64 bytes, copied",
    "data-vec": "data of 64 bytes, from a `Vec`",
    "data-2": "data of two bytes",
    "data-64k": "data of 64 KiB, 20 a section",
    "raw-bodies": "`CodeSection::raw` of 40 bytes",
    "raw-sections": "sections of 32 raw bytes",
    "starts": "start and data count sections",
    "customs": "custom sections of 32 bytes",
    "name-map": "a name map",
    "locals": "a map of two names for each function",
    "hints": "two branch hints for each function",
    "core-instances": "instances of a core dump",
    "clones": "a clone, for each body of 16 bytes",
    "name-map-clones": "a clone, for each of 64 names",
    "u32-encode": "`encode` of a `u32`",
    "i64-encode": "`encode` of an `i64` of any length",
}
# Bytes of the heap that a finished section keeps: the workload, and its items.
KEPT = {"kept-functions": ("functions", 1_000_000), "kept-bodies": ("bodies", 10_000)}
# The programs of build.py: user seconds of compiling one, and bytes of its code and constants.
BUILT = {"calls": "100 functions of 50 named calls", "builders": "150 calls of each of 13 builders"}
ROWS = [*WORKLOADS, *KEPT, *(f"{unit}-{name}" for name in BUILT for unit in ("time", "text"))]
WORKS = os.environ.get("WORKS", " ".join(ROWS)).split()
ALIAS = "use dolzhytik as wasm_encoder;\n"


def valgrind(tool: str, *words: str) -> str:
    """Returns the report of a tool of valgrind on a program."""
    command = ["valgrind", f"--tool={tool}", *words]
    return subprocess.run(command, stdout=subprocess.DEVNULL, stderr=subprocess.PIPE, text=True, check=True).stderr


def number(report: str, pattern: str) -> int:
    """Returns the number of a line of a report."""
    found = re.search(pattern + r": *([0-9,]+)", report)
    assert found, report
    return int(found[1].replace(",", ""))


def instructions(program: pathlib.Path, work: str, profile: str) -> float:
    """Returns the processor instructions of an item: up to the section, and with fat LTO up to the
    module. The difference of two runs cancels the start of the program."""
    items = 200 if work == "data-64k" else 32000
    last = ["module"] if profile == "fat" else []
    options = ("--cache-sim=no", "--cachegrind-out-file=/dev/null", str(program), work)
    once, twice = (number(valgrind("cachegrind", *options, str(it), *last), r"I *refs") for it in (items, 2 * items))
    return (twice - once) / items


def kept(program: pathlib.Path, work: str, items: int) -> int:
    """Returns the bytes of the heap that are in use at the end."""
    report = valgrind("dhat", "--dhat-out-file=/dev/null", str(program), work, str(items), "keep")
    return number(report, "At t-end")


class Rows:
    """The rows of the table."""

    def __init__(self, libraries: list[Library]):
        self.libraries = libraries
        for library in libraries:
            library.write("root", (build.HERE / "root.rs").read_text().replace(ALIAS, ""), "2024")
            for name in ("calls", "builders"):
                library.write(name, build.USERS[name]())
        self.builds: dict[tuple[str, str], list[tuple[float, int]]] = {}

    def head(self) -> None:
        """Prints the head of the table."""
        beside = ["the crate", "ratio"] * (len(self.libraries) - 1)
        build.row(["workload", "ordinary", *beside, "fat LTO", *beside])
        build.row(["---"] * (3 + 2 * len(beside)))

    def say(self, name: str) -> str:
        """Returns the first cell of a row."""
        if name in WORKLOADS:
            return f"`{name}`: {WORKLOADS[name]}"
        if name in KEPT:
            return f"`{name}`: bytes that {KEPT[name][1]:,} of `{KEPT[name][0]}` keep"
        unit, program = name.split("-")
        return f"`{name}`: {BUILT[program]}, {'seconds' if unit == 'time' else 'bytes'}"

    def built(self, program: str, profile: str) -> list[tuple[float, int]]:
        """Returns the seconds and bytes of a program, with each library."""
        key = program, profile
        if key not in self.builds:
            self.builds[key] = [it.user(program, profile) for it in self.libraries]
        return self.builds[key]

    def values(self, name: str, profile: str) -> list[float]:
        """Returns the numbers of a row in a profile, of each library."""
        if name in WORKLOADS:
            return [instructions(it.program("root", profile), name, profile) for it in self.libraries]
        if name in KEPT:
            return [kept(it.program("root", profile), *KEPT[name]) for it in self.libraries]
        unit, program = name.split("-")
        return [it[0 if unit == "time" else 1] for it in self.built(program, profile)]

    def cells(self, name: str, profile: str) -> list[str]:
        """Returns the cells of a row for a profile."""
        values = self.values(name, profile)
        digits = 2 if name.startswith("time") else 1
        cells = [f"{it:,.0f}" if it >= 1000 else f"{it:.{digits}f}" for it in values]
        return cells + [f"{values[0] / it:.2f}" for it in values[1:]]


def main() -> int:
    """Prints the table."""
    if len(sys.argv) > 2 or not set(WORKS) <= set(ROWS):
        print(__doc__, file=sys.stderr)
        return 2
    rows = Rows(build.libraries_of(sys.argv[1:]))
    rows.head()
    for name in WORKS:
        build.row([rows.say(name), *(cell for it in PROFILES for cell in rows.cells(name, it))])
    return 0


if __name__ == "__main__":
    sys.exit(main())
