"""Mutants: their files, and the edits of each."""
from __future__ import annotations

import os
import re
import shutil
import sys
from collections.abc import Iterator, Sequence
from dataclasses import dataclass, field

from ..rattle.functions import Function, function_around
from ..repository import text_of
from .crates import PARTS

# A crate's mutants: those of public and of private functions, in mutants/, and those that `rt ci`
# tries, with a file each.
FOLDERS = ("public", "private", "must-fail")
OF_RT = "must-fail"


@dataclass(frozen=True)
class Place:
    """A replacement of the characters of a file from `start` up to `end`."""

    path: str
    start: int
    end: int
    new: str


@dataclass(eq=False)
class Edit:
    """A mutant. `bad` is why it cannot be applied, `target` its function if it changes only one,
    and `said` the line of the check that is its verdict."""

    label: str
    text: str
    at: str = ""
    places: list[Place] = field(default_factory=list)
    bad: str = ""
    target: Function | None = None
    is_rejected: bool = False
    said: str = ""

    def end(self, is_rejected: bool, said: str) -> None:
        """Records the verdict."""
        self.is_rejected, self.said = is_rejected, said[:200]


def home_of(path: str) -> str:
    """Returns the name of the file with the mutants of a source."""
    return os.path.splitext(path.removeprefix("src/"))[0].replace("/", "-") + ".edits"


@dataclass(frozen=True)
class Entry:
    """A mutant of a file: its line, its name, and its text in the form of a must-fail edit."""

    line: int
    name: str
    text: str


def entries_of(file: str) -> Iterator[Entry]:
    """Yields the mutants of a file. Stops at a line that it does not know."""
    head, *parts = re.split(r"^(?=== )", text_of(file), flags=re.M)
    path = head.removeprefix("file: ").strip()
    if head.strip() != f"file: {path}" or os.path.basename(file) != home_of(path):
        sys.exit(f"wrong-bodies: {file}:1: not 'file: PATH', of a file whose edits stand here")
    number = 1 + head.count("\n")
    for part in parts:
        name, *lines = part.split("\n")
        for line, it in enumerate(lines, number + 1):
            if it and not re.match(r"(file|after|old|new):", it):
                sys.exit(f"wrong-bodies: {file}:{line}: not 'after:', 'old:', 'new:', 'file:' or '== NAME'")
        if not re.fullmatch(r"== \w+", name) or not re.fullmatch(r"a?on(f?a?on)*", "".join(it[:1] for it in lines)):
            sys.exit(f"wrong-bodies: {file}:{number}: not '== NAME' over pairs of 'old:' and 'new:'")
        yield Entry(number, name.removeprefix("== "), "\n".join([f"file: {path}", *filter(None, lines), ""]))
        number += part.count("\n")


def edits_in(crate: str, folder: str) -> list[Edit]:
    """Returns the mutants of a folder."""
    found, is_by_rt = [], os.path.basename(folder) == OF_RT
    for name in sorted(os.listdir(folder)) if os.path.isdir(folder) else []:
        file = f"{folder}/{name}"
        if is_by_rt and name.endswith(".edit"):
            found.append(read_edit(crate, name.removesuffix(".edit"), text_of(file), f"{file}:1"))
        elif name.endswith(".edits") and not is_by_rt:
            found += [read_edit(crate, it.name, it.text, f"{file}:{it.line}") for it in entries_of(file)]
        elif not is_by_rt or not name.endswith(".md"):
            sys.exit(f"wrong-bodies: {file}: no file of edits")
    return found


def edits_of(crate: str, top: str, folders: Sequence[str] = FOLDERS) -> dict[str, list[Edit]]:
    """Returns the mutants of a crate, by their folders. Stops if two have one name."""
    found = {it: edits_in(crate, f"{top}/{it}" if it == OF_RT else f"{top}/mutants/{it}") for it in folders}
    places: dict[str, str] = {}
    for it in (edit for edits in found.values() for edit in edits):
        if it.label in places:
            sys.exit(f"wrong-bodies: {it.at}: {it.label} is the name of an edit in {places[it.label]} too")
        places[it.label] = it.at
    return found


# The ledger's checksums cover this code except comments and docstrings: see judging.py.
def read_edit(crate, name, text, at=""):
    """Reads a mutant, whose pairs apply in turn, and finds its changes of each file."""
    edit, path, old, behind, were, texts = Edit(f"{crate}/{name}", text, at), None, None, "", {}, {}
    for line in edit.text.split("\n"):
        word, _, rest = line.partition(":")
        rest = re.sub(r"\A ", "", rest)
        if word == "file":
            path = rest.strip()
            if os.path.normpath(path) != path or not path.startswith(PARTS) or not os.path.isfile(f"crates/{crate}/{path}"):
                edit.bad = f"there is no file {path} below src/, specs/ or proofs/"
                return edit
            were.setdefault(path, text_of(f"crates/{crate}/{path}"))
            texts.setdefault(path, were[path])
        elif word == "old":
            old = rest
        elif word == "after":
            behind = rest
        elif word == "new" and path and old:
            at = place_of(old, behind, texts[path])
            if at is None:
                edit.bad = f"an 'old:' text is in {path} {texts[path].count(old)} times, and not once or behind a text that is"
                return edit
            texts[path], old, behind = texts[path][:at] + rest + texts[path][at + len(old) :], None, ""
    edit.places = [Place(path, *changed(were[path], texts[path])) for path in texts if texts[path] != were[path]]
    edit.bad = "" if edit.places else "it changes nothing"
    if len(edit.places) == 1 and edit.places[0].path.startswith("src/"):
        it = edit.places[0]
        edit.target = function_around(it.path, were[it.path], it.start, it.end)
    return edit


def place_of(old, behind, text):
    """Returns the offset of a text that is in another once, or of the first one behind a text that
    is; or None."""
    if text.count(behind or old) != 1:
        return None
    at = text.find(old, text.find(behind) + len(behind))
    return None if at < 0 else at


def changed(old, new):
    """Returns the begin and the end of the difference in the old text, and the new text of it."""
    front = len(os.path.commonprefix([old, new]))
    back = len(os.path.commonprefix([old[front:][::-1], new[front:][::-1]]))
    return front, len(old) - back, new[front : len(new) - back]


def apply(edits, crate, room):
    """Writes the crate with these mutants into a folder."""
    for part in PARTS:
        if os.path.isdir(f"crates/{crate}/{part}"):
            shutil.copytree(f"crates/{crate}/{part}", f"{room}/{part}")
    places = [place for edit in edits for place in edit.places]
    for path in {it.path for it in places}:
        text = text_of(f"{room}/{path}")
        for it in sorted((it for it in places if it.path == path), key=lambda it: -it.start):
            text = text[: it.start] + it.new + text[it.end :]
        with open(f"{room}/{path}", "w", encoding="utf-8") as file:
            file.write(text)
