"""What a function's proof may depend on: the definitions and the interfaces of sources that its
texts name, and those that these name.

A word of a text reaches each declaration of that name, whatever its module, and in each crate but if
the text's file imports the name from one. So more is reached than a function depends on, and
nothing less: a definition by its name or a constructor; a function by its name and those of its type
and trait; an impl by the names of both. Types and traits of the prover's library count as named, as
do functions that are called without a name, such as `next`. A declaration that is not understood is
always reached.
"""
from __future__ import annotations

import functools
import os
import re
from collections.abc import Iterable, Iterator, Sequence
from dataclasses import dataclass, replace

from ..rattle.functions import blanked, closing, functions_of
from ..repository import text_of

# An item of a source: its kind, and for an impl or a trait its header.
ITEM = re.compile(
    r"(?:pub(?:\([^)]*\))?\s+)?(?:(?:unsafe|default)\s+)*(impl|trait|struct|enum|union|type|const|static|fn|mod|use|ghost\s+use|extern)\b"
)
ATTRIBUTES = re.compile(r"(?:\s*#!?\[(?:[^][]|\[[^][]*\])*\])*\s*")
WORDS = re.compile(r"(\.|::)?\s*([^\W\d][\w'-]*)")
# Functions that `?`, `for`, the end of a scope, and operators call.
UNNAMED = frozenset("from into branch from_output from_residual into_iter next drop deref deref_mut index index_mut eq ne cmp partial_cmp lt le gt ge not neg add sub mul div rem shl shr bitand bitor bitxor add_assign sub_assign fmt default clone call call_mut call_once".split())
USE = re.compile(r"^[ \t]*(?:pub(?:\([^)]*\))? +)?(?:unfoldable +)?(?:pub +)?(?:ghost +)?(?:pub +)?use ([^;{\n]*)(?:\{([^}]*)\})?", re.M)


@dataclass(frozen=True)
class Unit:
    """A declaration: its file, its names, names that must be reached too, and its text without
    comments."""

    path: str
    names: frozenset[str]
    keys: frozenset[str]
    text: str
    is_always: bool = False
    imported: tuple[tuple[str, str], ...] = ()
    is_private: bool = False


@functools.lru_cache(maxsize=None)
def words_of(text: str) -> frozenset[str]:
    """Returns the words of a text, and the parts of those with hyphens. A word behind a period or
    colons has a period in front: it may be a member of anything."""
    found: set[str] = set()
    for before, word in WORDS.findall(text):
        found |= {f"{'.' * bool(before)}{it}" for it in (word, *(re.findall(r"[^\W\d]\w*", word) if "-" in word else ()))}
    return frozenset(found)


@functools.lru_cache(maxsize=None)
def imports(text: str) -> dict[str, tuple[str, str]]:
    """Returns the crate and the name that each imported name of a file stands for. A name that is
    imported twice stands for itself in any crate."""
    found: dict[str, tuple[str, str]] = {}
    for it in USE.finditer(text):
        parts = re.findall(r"\w+", it[1])
        crate = parts[1] if parts[:1] == ["Rattle"] and parts[1:] else parts[0] if parts else ""
        for name in it[2].split(",") if it[2] else [re.split(r"::|\.", it[1])[-1]]:
            known, _, alias = name.strip().partition(" as ")
            place = (crate, known.strip())
            name = (alias or known).strip()
            found[name] = place if found.get(name, place) == place else ("", known.strip())
    return found


def without_comments(text: str) -> str:
    """Returns the lines of a file of definitions that are not blank and not a comment."""
    lines = map(str.rstrip, text.split("\n"))
    return "\n".join(it for it in lines if it and not it.lstrip().startswith("--"))


def definitions(path: str, text: str) -> Iterator[Unit]:
    """Yields the paragraphs of a file of definitions. One in a module has the module's header."""
    header = ""
    for part in re.split(r"\n\s*\n", text):
        body = "\n".join(it for it in without_comments(part).split("\n") if it and not USE.match(it) and not it.startswith("pub mod"))
        if not body:
            continue
        if not body.startswith(" "):
            header = ""
        if found := re.match(r"module _.*", body):
            header, body = found[0], body
        elif body.startswith(" ") and header:
            body = f"{header}\n{body}"
        names = frozenset(names_of(body.removeprefix(f"{header}\n")))
        yield Unit(path, names, frozenset(), body, not names and not body.startswith("module"))


def names_of(body: str) -> set[str]:
    """Returns the names of a paragraph: definitions, records without their fields, and data with
    their constructors."""
    kind = re.match(r"\s*(?:abbrev |pub |unfoldable )*(record|data)\b", body)
    if not kind:
        return set(re.findall(r"^(?:  )?(?:abbrev |pub |ruleset )*([^\s:({=]+)(?: [^:\n=]*)? [:=]", body, re.M))
    names = set(re.findall(r"\b(?:record|data) ([^\s:({]+)", body)[:1])
    return names | (set(re.findall(r"^\s+([^\s:({]+) :", body, re.M)) if kind[1] == "data" else set())


def kind_and_header(text: str, at: int) -> tuple[str, int]:
    """Returns the kind of the item behind attributes, and the offset of its first word."""
    begun = ATTRIBUTES.match(text, at).end()  # type: ignore[union-attr]
    found = ITEM.match(text, begun)
    return (found[1] if found else "", begun)


def end_of_item(text: str, at: int) -> int:
    """Returns the offset after an item: its semicolon, or its closing brace."""
    depth = 0
    while at < len(text):
        it = text[at]
        depth += (it in "([") - (it in ")]")
        if it == ";" and not depth:
            return at + 1
        if it == "{" and not depth:
            return closing(text, at)
        at += 1
    return at


def own_names(header: str) -> frozenset[str]:
    """Returns the names of the trait and the type of an impl, without its parameters."""
    header = header.strip()
    parameters: set[str] = set()
    if header.startswith("<"):
        end = next(i for i in range(len(header)) if header[: i + 1].count("<") == header[: i + 1].count(">") + header[: i + 1].count("->"))
        parameters = {it.strip().partition(":")[0].strip() for it in header[1:end].split(",")}
        header = header[end + 1 :]
    of_trait, _, of_type = header.partition(" where ")[0].rpartition(" for ")
    found = [re.match(r"[\s&('a-z_]*?((?:\w+::)*)(\w+)", it.replace("dyn ", "")) for it in (of_trait, of_type) if it.strip()]
    return frozenset(it[2] for it in found if it and it[2] not in parameters)


def items(path: str, source: str, bare: "functools.partial[str]") -> Iterator[Unit]:
    """Yields the items of a source: functions without their bodies, and other members of impls."""
    text = blanked(source)
    spans = [(head, body, end) for _, head, body, end in functions_of(path, source)]
    at = re.match(r"\s*", text).end()  # type: ignore[union-attr]
    while at < len(text):
        whole = next((it for it in spans if it[0] == at), None)
        kind, begun = kind_and_header(text, at)
        is_path = kind == "use" or kind.startswith("ghost")
        end = whole[2] if whole else text.index(";", begun) + 1 if is_path else end_of_item(text, begun)
        if whole:
            if not is_law(text, whole):
                yield function(path, source, text, whole, frozenset(), bare, "")
        elif kind in ("impl", "trait"):
            brace = text.index("{", begun)
            header = text[begun:brace].partition(kind)[2]
            keys = own_names(header) if kind == "impl" else frozenset({re.findall(r"\w+", header)[0]})
            inner = [it for it in spans if begun < it[0] < end]
            parts, last = [], brace + 1
            for head, _, close in inner:
                parts.append(source[last:head])
                last = close
            front, members = bare(source[at:brace]), bare("".join([*parts, source[last : end - 1]]))
            if members or kind == "trait":
                yield Unit(path, keys, keys, f"{front}\n{members}")
            yield from (function(path, source, text, it, keys, bare, front) for it in inner)
        elif not is_path and kind != "mod":
            content = bare(source[at:end])
            names = frozenset(variants(text[begun : end - 1]))
            if content:
                yield Unit(path, names, frozenset(), content, not names)
        at = end + re.match(r"\s*", text[end:]).end()  # type: ignore[union-attr]


def is_law(text: str, span: tuple[int, int, int]) -> bool:
    """Returns whether a function does nothing: its clauses are lemmas."""
    head, body, end = span
    return not text[body:end].strip("{} \n\t;") and not re.search(r"\)\s*->", text[head:body])


def variants(text: str) -> list[str]:
    """Returns the names of an enum and of its variants, or of a struct or constant."""
    named = re.findall(r"\b(?:enum|struct|union|type|const|static)\s+(\w+)", text)[:1]
    inside = ATTRIBUTES.sub("", text.partition("{")[2]) if re.search(r"\benum\s", text) else ""
    while re.search(r"[({][^(){}]*[)}]", inside):
        inside = re.sub(r"[({][^(){}]*[)}]", "", inside)
    return named + re.findall(r"(?:^|,)\s*(\w+)", re.sub(r"#\[[^]]*\]", "", inside))


def function(path: str, source: str, text: str, span: tuple[int, int, int], keys: frozenset[str], bare: "functools.partial[str]", front: str) -> Unit:
    """Returns a function without its body, behind the header of its impl."""
    head, body, _ = span
    name = re.search(r"\bfn\s+(\w+)", text[head:body])
    assert name
    is_of_trait = re.search(r"\btrait\b|\bfor\s+(?!<)", front)
    is_private = not is_of_trait and not re.search(r"\bpub\b(?!\()", text[head:body])
    return Unit(path, frozenset({name[1]}), keys, f"{front}\n{bare(source[head:body])}", is_private=is_private)


@functools.lru_cache(maxsize=None)
def units_of(top: str, bare: "functools.partial[str]") -> tuple[Unit, ...]:
    """Returns the declarations of a crate."""
    found: list[Unit] = []
    for folder, ending in (("src", ".rt"), ("specs", ".antt")):
        for at, _, names in os.walk(f"{top}/{folder}"):
            for path in sorted(f"{at}/{it}" for it in names if it.endswith(ending)):
                text = text_of(path)
                known = imports(text)
                for it in items(path.removeprefix(f"{top}/"), text, bare) if ending == ".rt" else definitions(path.removeprefix(f"{top}/"), text):
                    used = tuple(sorted((name, "::".join(known[name])) for name in plain(words_of(it.text)) if name in known))
                    shown = it.text.replace("pub(crate) ", "")
                    found.append(replace(it, text=shown, imported=used))
    return tuple(sorted(found, key=lambda it: (it.path, it.text)))


def plain(words: Iterable[str]) -> set[str]:
    """Returns the words without periods."""
    return {it.lstrip(".") for it in words}


class Universe:
    """The declarations of a crate and of those below it."""

    def __init__(self, tops: Sequence[str], bare: "functools.partial[str]"):
        self.units = [(os.path.basename(top), it) for top in tops for it in units_of(top, bare)]
        self.at_home = {(crate, it.path, name) for crate, it in self.units if not it.keys for name in it.names}
        self.declared = {(crate, name) for crate, it in self.units if not it.keys or it.names == it.keys for name in it.names}
        names = {name for _, name in self.declared}
        self.keys = [[self.place_of(crate, it.path, it.imported, key) for key in it.keys & names] for crate, it in self.units]
        self.by_word: dict[str, list[int]] = {}
        for place, (_, it) in enumerate(self.units):
            for word in it.names | it.keys:
                self.by_word.setdefault(word, []).append(place)

    def place_of(self, crate: str, file: str, imported: Iterable[tuple[str, str]], word: str) -> tuple[str, str]:
        """Returns the crate and the name of what a word of a file of a crate stands for: no crate
        if it may be of any."""
        found = dict(imported).get(word, "")
        if (crate, file, word) in self.at_home:
            return (crate, word)
        if not found:
            return ("", word.lstrip("."))
        path, _, name = found.rpartition("::")
        home = crate if path in ("crate", "self", "super") else path
        return (home if (home, name) in self.declared else "", name)

    def places_of(self, crate: str, unit: Unit) -> set[tuple[str, str]]:
        """Returns what the words of a declaration stand for."""
        return {self.place_of(crate, unit.path, unit.imported, it) for it in words_of(unit.text)}

    def keys_of(self, path: str, name: str) -> set[str]:
        """Returns the names of the types and traits of the functions of a name in a file."""
        return {key for _, it in self.units if it.path == path and name in it.names for key in it.keys}

    def is_reached(self, at: int, known: set[tuple[str, str]]) -> bool:
        """Returns whether a declaration is reached by these words."""
        crate, it = self.units[at]
        if not all(key in known or ("", key[1]) in known for key in self.keys[at]):
            return False
        return not it.names or any((crate, name) in known or ("", name) in known for name in it.names)

    def reached(self, crate: str, file: str, imported: dict[str, tuple[str, str]], words: Iterable[str]) -> list[tuple[str, str, str, tuple[tuple[str, str], ...]]]:
        """Returns the declarations that words of a file of a crate reach, with what they import."""
        own = {name: "::".join(place) for name, place in imported.items()}.items()
        more = {self.place_of(crate, file, own, it) for it in words} | {("", it) for it in UNNAMED}
        known: set[tuple[str, str]] = set()
        found = {at for at, (_, it) in enumerate(self.units) if it.is_always}
        for at in found:
            more |= self.places_of(*self.units[at])
        while more:
            known |= more
            places = {at for _, word in more for at in self.by_word.get(word, ())} - found
            more = set()
            for at in places:
                if self.is_reached(at, known) and not (self.units[at][1].is_private and self.units[at][0] != crate):
                    found.add(at)
                    more |= self.places_of(*self.units[at]) - known
        units = [self.units[at] for at in found]
        return sorted((name, it.path, it.text, it.imported) for name, it in units)


@functools.lru_cache(maxsize=None)
def universe(tops: tuple[str, ...], bare: "functools.partial[str]") -> Universe:
    return Universe(tops, bare)
