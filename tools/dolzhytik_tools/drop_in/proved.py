"""The calls of the proved layer, as tools/to-rust writes them: their heads and doc comments."""
from __future__ import annotations

import pathlib
import re
from collections.abc import Iterator
from dataclasses import dataclass, replace

from ..errors import Stop
from ..repository import text_of

SOURCES = "rust/src"
# The modules of the proved layer that the names of the root are over.
MODULES = ("base", "code", "custom", "sections", "types")
BRACKETS = {"(": 1, "<": 1, "[": 1, "{": 1, ")": -1, ">": -1, "]": -1, "}": -1}
CALL = re.compile(r"(pub |pub\(\w+\) )?(?:const )?fn (\w+)")
CONSTANT = re.compile(r"pub const (\w+): (\w+)")


@dataclass(frozen=True)
class Owner:
    """The type of an impl: its name without arguments, and the kind of its entries, if it is an
    impl of one kind."""

    name: str
    kind: str

    def has(self, other: Owner) -> bool:
        """Returns whether the calls of this impl are those of a type too."""
        return self.name == other.name and self.kind in ("", other.kind)


# The owner of the calls of traits, and of functions.
FREE = Owner("", "")


@dataclass(frozen=True)
class Proved:
    """A proved call, or a constant beside them."""

    owner: Owner
    name: str
    is_public: bool
    # The names and types of its parameters.
    parameters: list[tuple[str, str]]
    returns: str
    docs: list[str]

    def can_fail(self) -> bool:
        """Returns whether the call returns an error."""
        return self.returns.startswith("Result<")


def split(text: str, separator: str = ",") -> list[str]:
    """Returns the parts of a list in Rust, without those inside of brackets."""
    parts, depth = [""], 0
    for place, character in enumerate(text):
        is_arrow = character == ">" and text[place - 1 : place] in ("-", "=")
        depth += 0 if is_arrow else BRACKETS.get(character, 0)
        if character == separator and depth == 0:
            parts.append("")
        else:
            parts[-1] += character
    return [part.strip() for part in parts if part.strip()]


def group_end(text: str) -> int:
    """Returns the end of the brackets that a text begins with, or 0."""
    depth = 0
    for place, character in enumerate(text):
        is_arrow = character == ">" and text[place - 1 : place] in ("-", "=")
        depth += 0 if is_arrow else BRACKETS.get(character, 0)
        if depth == 0:
            return place + 1 if place else 0
    return 0


def owner_of(ty: str, generics: str) -> Owner:
    """Returns the owner that a type is: the kind is the name of the first argument."""
    name, _, rest = ty.partition("<")
    given = [it for it in split(rest[:-1]) if not it.startswith("'")] if rest else []
    kind = re.match(r"\w*", given[0])[0] if given else ""
    return Owner(name.strip(), "" if re.search(rf"\b{kind}\b", generics) else kind)


def whole(lines: list[str], first: int, end: str | tuple[str, ...]) -> str:
    """Returns the lines from the first to one that ends so, as one."""
    last = first
    while not lines[last].endswith(end):
        last += 1
    return " ".join(line.strip() for line in lines[first : last + 1])


def aliases(lines: list[str]) -> dict[str, Owner]:
    """Returns the types that aliases name."""
    found = {}
    for place, line in enumerate(lines):
        if line.startswith("pub type "):
            head, _, ty = whole(lines, place, ";")[len("pub type ") : -1].rpartition(" = ")
            name, _, generics = head.partition("<")
            found[name] = owner_of(ty, generics)
    return found


def docs_before(lines: list[str], place: int) -> list[str]:
    """Returns the doc comment above a line, without its slashes."""
    first = place
    while lines[first - 1].lstrip().startswith(("///", "#[")):
        first -= 1
    return [line.strip()[4:] for line in lines[first:place] if line.lstrip().startswith("///")]


def call_at(lines: list[str], place: int, owner: Owner, indent: str) -> Proved | None:
    """Returns the call whose head begins at a line behind this indent, if one does."""
    line = lines[place].removeprefix(indent)
    if constant := CONSTANT.match(line):
        return Proved(owner, constant[1], True, [], constant[2], docs_before(lines, place))
    head = CALL.match(line)
    if not head:
        return None
    rest = whole(lines, place, ("{", ";", "}"))[head.end() :]
    rest = rest[group_end(rest) :] if rest.startswith("<") else rest
    end = group_end(rest)
    given = [it for it in split(rest[1 : end - 1]) if not re.search(r"\bself$", it)]
    returns = re.fullmatch(r"(?: -> (.*?))?(?: where(?: .*)?)? ?(?:\{.*|;)", rest[end:])
    parameters = [(name.removeprefix("mut "), ty) for name, _, ty in (it.partition(": ") for it in given)]
    return Proved(owner, head[2], head[1] == "pub ", parameters, returns[1] or "" if returns else "", docs_before(lines, place))


def calls_in(lines: list[str], named: dict[str, Owner]) -> Iterator[Proved]:
    """Yields the calls of the inherent impls and the traits of a file, and its functions."""
    owner = None
    for place, line in enumerate(lines):
        if line.startswith(("pub trait", "pub(crate) trait")):
            owner = FREE
        elif re.match(r"impl\b", line):
            head = whole(lines, place, ("{", "{}"))[len("impl") :].rstrip(" {}")
            end = group_end(head) if head.startswith("<") else 0
            ty = head[end:].partition(" where ")[0].strip()
            owner = None if " for " in ty else owner_of(ty, head[:end])
            owner = named.get(owner.name, owner) if owner else None
        elif line == "}":
            owner = None
        elif owner and (call := call_at(lines, place, owner, "    ")):
            yield call
        elif not owner and (call := call_at(lines, place, FREE, "")):
            yield call


class Layer:
    """The calls of the proved layer, and the types that its aliases name."""

    def __init__(self, texts: list[str]):
        files = [text.split("\n") for text in texts]
        self.named = {name: owner for lines in files for name, owner in aliases(lines).items()}
        self.calls = [call for lines in files for call in calls_in(lines, self.named)]

    def call(self, of: str, name: str) -> Proved:
        """Returns the call of a type, which an alias may name."""
        owner = self.named.get(of, Owner(of, ""))
        found = [it for it in self.calls if it.name == name and it.owner.has(owner)]
        if len(found) != 1:
            raise Stop("%s::%s is %s" % (of, name, "in %d impls" % len(found) if found else "no proved call"))
        return found[0]

    def of_part(self, name: str) -> Proved:
        """Returns a call or function of this name, of any type or trait, as one that is not public."""
        for it in self.calls:
            if it.name == name:
                return replace(it, is_public=False)
        raise Stop("%s is no proved call" % name)


def layer(top: pathlib.Path) -> Layer:
    """Returns the proved layer of a checkout."""
    paths = [path for module in MODULES for path in sorted((top / SOURCES / module).glob("*.rs"))]
    return Layer([text_of(path) for path in paths])
