"""Regions that tools/instructions and tools/kinds write within files that people write.

A region is between a line `// begin: written by tools/instructions` and a line `// end: ..`, in
.antt files with `--`, in C between `/*` and `*/`. Both keep the indentation of the lines between
them.
"""
from __future__ import annotations

import re
from collections.abc import Sequence
from dataclasses import dataclass

from ..errors import Stop

# What a comment begins and ends with.
COMMENTS = {".rt": ("// ", ""), ".rtt": ("// ", ""), ".rs": ("// ", ""), ".antt": ("-- ", ""), ".h": ("/* ", " */"), ".md": ("<!-- ", " -->")}
INSTRUCTIONS = "tools/instructions"


@dataclass(frozen=True)
class Region:
    """The text of a region, and the lines before it: each of `behind` begins a line, in this order,
    and the region is right behind the last one. The first one begins no other line of the file."""

    behind: tuple[str, ...]
    text: str

    @property
    def lines(self) -> list[str]:
        return self.text.split("\n")[:-1]


@dataclass(frozen=True)
class Marks:
    """The lines around each region of a file."""

    begin: str
    end: str

    @staticmethod
    def of(path: str, tool: str = INSTRUCTIONS) -> Marks:
        before, behind = COMMENTS[path[path.rindex(".") :]]
        return Marks(*(f"{before}{it}: written by {tool}{behind}" for it in ("begin", "end")))

    def around(self, lines: list[str]) -> list[str]:
        """Returns the lines of a region with its marks."""
        first, last = (it[: len(it) - len(it.lstrip(" "))] for it in (lines[0], lines[-1]))
        # `rt fmt` has an empty line before a comment behind an equation.
        is_equation = self.end.startswith("--") and bool(re.match(r"(?!use )\S|  \S.* = ", lines[-1]))
        return [first + self.begin, *lines, *([""] if is_equation else []), last + self.end]

    def check(self, path: str, lines: list[str], count: int) -> None:
        """Stops unless the file has the marks of so many regions, each begin before its end."""
        begins, wanted = 0, self.begin
        for number, line in enumerate(lines, 1):
            found = line.strip()
            if found in (self.begin, self.end):
                if found != wanted:
                    raise Stop(f"{path}:{number}: '{found}' where '{wanted}' must be")
                begins += found == self.begin
                wanted = self.end if found == self.begin else self.begin
        if wanted == self.end or begins != count:
            found = f"{begins} regions that begin with '{self.begin}'"
            raise Stop(f"{path}:{len(lines)}: {found}, of {count}" if begins != count else f"{path}:{len(lines)}: no '{self.end}' up to here")


def place(path: str, lines: Sequence[str], at: int, begins: str) -> int:
    """Returns the index of the first line from `at` on that begins so; an empty text is an empty
    line."""
    for i in range(at, len(lines)):
        if lines[i].startswith(begins) if begins else not lines[i]:
            return i
    raise Stop(f"{path}:{at + 1}: no line from here on begins with '{begins}'")


def filled(path: str, text: str, regions: Sequence[Region], tool: str = INSTRUCTIONS) -> str:
    """Returns a file with the texts of the regions that the tool writes."""
    lines, marks = text.split("\n"), Marks.of(path, tool)
    marks.check(path, lines, len(regions))
    for it in regions:
        at = 0
        for begins in it.behind:
            at = place(path, lines, at, begins) + 1
        if sum(line.startswith(it.behind[0]) for line in lines) != 1:
            raise Stop(f"{path}:{at}: not the only line that begins with '{it.behind[0]}'")
        if lines[at].strip() != marks.begin:
            raise Stop(f"{path}:{at + 1}: not '{marks.begin}'")
        end = next(i for i in range(at, len(lines)) if lines[i].strip() == marks.end)
        lines[at : end + 1] = marks.around(it.lines)
    return "\n".join(lines)
