"""The names that the root exports, by tools/root-exports.tsv, and the documentation of its own types,
traits and functions. The head of tools/drop-in has the columns."""
from __future__ import annotations

import re
from collections.abc import Collection
from dataclasses import dataclass

from ..errors import Stop
from ..to_rust.beside import Text

TABLE = "tools/root-exports.tsv"
HEAD = "name\tmodule\twords"
TEXTS = "tools/rustdoc/root.md"
NAMES_HEAD = """// Written by tools/drop-in from %s: change that.
//! The names of the root. Words for search are here: rustdoc drops those of definitions.

""" % TABLE
TEXTS_HEAD = """// Written by tools/drop-in from %s: change that.
//! The documentation of the root's own types, traits and functions.

/// Returns the documentation of a name.
macro_rules! text {
""" % TEXTS


@dataclass(frozen=True)
class Export:
    """A name at the root: its module, and words for search."""

    name: str
    module: str
    words: list[str]

    def is_own(self) -> bool:
        """Returns whether the root defines it."""
        return not self.module.startswith("crate::")

    def line(self) -> str:
        """Returns the export in Rust."""
        words = "".join('#[doc(alias = "%s")]\n' % word for word in self.words)
        return "%spub use %s%s::%s;\n" % (words, "super::" if self.is_own() else "", self.module, self.name)


def read(text: str) -> list[Export]:
    """Returns the exports of the table."""
    head, *lines = text.rstrip("\n").split("\n")
    if head != HEAD:
        raise Stop("%s:1: other columns" % TABLE)
    found: dict[str, Export] = {}
    for number, line in enumerate(lines, 2):
        cells = line.split("\t")
        if len(cells) not in (2, 3) or not all(cells):
            raise Stop("%s:%d: %d columns" % (TABLE, number, len(cells)))
        if cells[0] in found:
            raise Stop("%s:%d: %s has two rows" % (TABLE, number, cells[0]))
        found[cells[0]] = Export(cells[0], cells[1], cells[2].split(", ") if cells[2:] else [])
    return list(found.values())


def names_file(exports: list[Export]) -> str:
    """Returns the file of the names."""
    return NAMES_HEAD + "".join(it.line() for it in exports)


def linked(text: str, root: Collection[str]) -> str:
    """Returns a text in which the names of the root in brackets are links."""
    link = lambda it: "%s(super::%s%s)" % (it[0], it[1], it[2]) if it[1] in root else it[0]
    return re.sub(r"\[`(\w+)((?:::\w+)*)`\](?!\()", link, text)


def texts_file(exports: list[Export], texts: dict[str, Text]) -> str:
    """Returns the file of the documentation of the root's own names."""
    own, root = {it.name for it in exports if it.is_own()}, {it.name for it in exports}
    arms = []
    for name, text in texts.items():
        if "::" in name:
            continue
        if name not in own:
            raise Stop("%s: the root has no %s of its own" % (text.where, name))
        if text.aliases or text.members:
            raise Stop("%s: %s has words or members: write words to %s" % (text.where, name, TABLE))
        arms.append('    (%s) => {\n        r##"%s"##\n    };\n' % (name, linked("\n".join(text.lines), root)))
    return TEXTS_HEAD + "".join(arms) + "}\n"
