"""The definitions of a crate's specs/, as far as they list items."""
from __future__ import annotations

import pathlib
import re
from dataclasses import dataclass, field
from functools import cached_property

from ..definitions.imports import Import, parsed
from ..errors import Stop
from ..repository import text_of

NAME = r"[^\W\d]\w*"
USE = re.compile(r"(?:unfoldable )?(?:pub )?use (.*)")
EQUATION = re.compile(rf"({NAME})((?: {NAME})*) =(?: (.*)|)")
HEAD = re.compile(rf"(?:(?:abbrev|unfoldable|opaque|pub|instance|record|data) )+({NAME})(?= |$)")
CONSTRUCTOR = re.compile(rf" +({NAME}) :")


@dataclass(frozen=True)
class Equation:
    """A definition by one equation: its parameters, and the text of its value."""

    name: str
    parameters: tuple[str, ...]
    text: str


@dataclass(frozen=True)
class Imported:
    """An import, and the line that it is on."""

    line: int
    what: Import


@dataclass
class SpecFile:
    """A file of specs/: its imports, the names that it declares, and its equations. A name with
    several equations has None."""

    path: pathlib.Path
    imports: list[Imported] = field(default_factory=list)
    passed_on: list[Import] = field(default_factory=list)
    declared: set[str] = field(default_factory=set)
    equations: dict[str, Equation | None] = field(default_factory=dict)

    @property
    def names(self) -> set[str]:
        """The names that another file may import from it."""
        return self.declared | {here for it in self.passed_on for here in it.names}


def read(path: pathlib.Path) -> SpecFile:
    """Reads a file; lines of a form that is not known are skipped."""
    found = SpecFile(path)
    lines = text_of(path).split("\n")
    number = 0
    while number < len(lines):
        line, start = lines[number], number + 1
        number += 1
        while number < len(lines) and (lines[number][:1] in (" ", "}") or lines[number][:2] == "];") and not line.startswith("--"):
            line += "\n" + lines[number]
            number += 1
        take(found, line, start)
    return found


def take(found: SpecFile, text: str, line: int) -> None:
    """Reads a line with those that continue it."""
    text = re.sub(r"(?m)^\s*--.*$", "", text).lstrip("\n")
    use = USE.fullmatch(" ".join(text.split()))
    if use:
        try:
            what = parsed(use[1], str(found.path))
        except Stop:
            return
        found.imports.append(Imported(line, what))
        if "pub use" in text:
            found.passed_on.append(what)
        return
    # Definitions in a `module` and in mutual recursion are indented.
    found.declared.update(it[1] for it in map(HEAD.match, map(str.strip, text.split("\n"))) if it)
    head = HEAD.match(text)
    if head:
        found.declared.add(head[1])
        if " data " in " %s" % text.split(head[1])[0]:
            found.declared.update(it[1] for it in map(CONSTRUCTOR.match, text.split("\n")[1:]) if it)
        return
    equation = EQUATION.fullmatch(text.split("\n")[0])
    name = re.match(NAME, text)
    if equation:
        body = "\n".join([equation[3] or "", *text.split("\n")[1:]])
        made = Equation(equation[1], tuple(equation[2].split()), body)
        found.equations[equation[1]] = None if equation[1] in found.equations else made
    elif name:
        found.equations[name[0]] = None


class SpecFolder:
    """The files of specs/ of a crate."""

    def __init__(self, folder: pathlib.Path):
        self.folder = folder

    @cached_property
    def files(self) -> dict[str, SpecFile]:
        """The files by their names, such as `Items` or `Parts.Items`."""
        paths = sorted(self.folder.rglob("*.antt"))
        return {".".join(it.relative_to(self.folder).with_suffix("").parts): read(it) for it in paths}
