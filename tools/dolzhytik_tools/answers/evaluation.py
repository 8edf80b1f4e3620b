"""The values of terms: definitions of the crate are unfolded, words of libraries stay."""
from __future__ import annotations

import re
from collections.abc import Mapping, Sequence
from dataclasses import dataclass, replace

from ..errors import Stop
from .models import UNKNOWN, Applied, Fields, Integer, Items, Model, Symbol, text_model
from .spec_files import SpecFile, SpecFolder

TOKEN = re.compile(r'"[^"]*"|λ|∷|\+\+|[(){};=,]|\[\]|[^\s(){};=,∷λ]+')
# Definitions within definitions that are unfolded, at most.
DEPTH = 40


@dataclass(frozen=True)
class Place:
    """Where words are looked up: in a file of the crate's specs, or in the imports of a source."""

    file: SpecFile | None
    ghosts: Mapping[str, str]


class Evaluator:
    """Evaluates terms of a crate. Without `unfolds`, its definitions stay words."""

    def __init__(self, crate: str, folder: SpecFolder, unfolds: bool = True):
        self.crate, self.folder, self.unfolds = crate, folder, unfolds

    def of(self, text: str, place: Place, values: Mapping[str, Model], depth: int = 0) -> Model:
        """Returns the value of a term."""
        if "λ" in text or depth > DEPTH:
            return UNKNOWN
        try:
            return Terms(self, TOKEN.findall(text), place, values, depth).whole()
        except (Stop, IndexError):
            return UNKNOWN

    def word(self, word: str, arguments: Sequence[Model], place: Place, values: Mapping[str, Model], depth: int) -> Model:
        """Returns the value of a word with its arguments."""
        parameter = re.sub(r"\.now$", "", word)
        if parameter in values:
            return values[parameter] if not arguments else UNKNOWN
        if "." in parameter and parameter.split(".")[0] in values:
            return field_of(values[parameter.split(".")[0]], parameter.split(".")[1:])
        module, name = self.home(word, place)
        if module.startswith("Rattle.%s.specs." % self.crate) and ".declared." not in module and self.unfolds:
            return self.unfolded(module.split(".specs.")[1], name, arguments, depth)
        return applied(name, tuple(arguments), group_of(module))

    def home(self, word: str, place: Place) -> tuple[str, str]:
        """Returns the module of a word, or none, and its name there."""
        if place.file is None:
            return place.ghosts.get(word, ""), word
        if word in place.file.equations or word in place.file.declared:
            inside = ".".join(place.file.path.relative_to(self.folder.folder).with_suffix("").parts)
            return "Rattle.%s.specs.%s" % (self.crate, inside), word
        for it in place.file.imports:
            if word in it.what.names:
                return it.what.module, it.what.names[word]
            if it.what.alias and word.startswith(it.what.alias + "."):
                return it.what.module, word[len(it.what.alias) + 1 :]
        return "", word.rpartition(".")[2]

    def unfolded(self, module: str, name: str, arguments: Sequence[Model], depth: int) -> Model:
        """Returns the value of a definition of the crate."""
        file = self.folder.files.get(module)
        equation = file.equations.get(name) if file else None
        if equation is None or len(equation.parameters) != len(arguments):
            return UNKNOWN
        found = self.of(equation.text, Place(file, {}), dict(zip(equation.parameters, arguments)), depth + 1)
        return found if found.origin or found is UNKNOWN else replace(found, origin=name)


def applied(name: str, arguments: tuple[Model, ...], group: str = "") -> Model:
    """Returns a word of a library with its arguments; numbers and literals are values."""
    if name == "pos" and len(arguments) == 1:
        return arguments[0]
    if name == "neg_ℤ" and len(arguments) == 1 and isinstance(arguments[0], Integer):
        return Integer(-arguments[0].value)
    if name == "codes" and len(arguments) == 1 and isinstance(arguments[0], Items):
        return arguments[0]
    return Applied(name, arguments, group=group)


def group_of(module: str) -> str:
    """Returns the enum of an imported variant, or nothing."""
    found = re.search(r"\.(\w+)\.TheVariants$", module)
    return found[1] if found else ""


def field_of(value: Model, names: Sequence[str]) -> Model:
    for name in names:
        if not isinstance(value, Fields) or name not in dict(value.fields):
            return UNKNOWN
        value = value.of(name)
    return value


class Terms:
    """Parses the tokens of a term, and evaluates it."""

    def __init__(self, evaluator: Evaluator, tokens: Sequence[str], place: Place, values: Mapping[str, Model], depth: int):
        self.evaluator, self.tokens, self.at = evaluator, tokens, 0
        self.place, self.values, self.depth = place, values, depth

    def peek(self) -> str:
        return self.tokens[self.at] if self.at < len(self.tokens) else ""

    def take(self, token: str = "") -> str:
        found = self.tokens[self.at]
        if token and found != token:
            raise Stop("`%s` where `%s` is looked for" % (found, token))
        self.at += 1
        return found

    def whole(self) -> Model:
        found = self.term()
        if self.peek():
            raise Stop("`%s` after a term" % self.peek())
        return found

    def term(self) -> Model:
        """An application, perhaps before `∷` or `++` and a list."""
        first = self.application()
        if self.peek() == "∷":
            self.take()
            rest = self.term()
            return Items((first, *rest.items)) if isinstance(rest, Items) else UNKNOWN
        if self.peek() == "++":
            self.take()
            rest = self.term()
            return Items((*first.items, *rest.items)) if isinstance(first, Items) and isinstance(rest, Items) else UNKNOWN
        return first

    def application(self) -> Model:
        word = self.peek()
        if word in ("(", "record", "[]") or word[:1] in ('"', "") or word[0].isdigit():
            return self.atom()
        self.take()
        arguments = []
        while self.peek() not in ("", ")", "}", ";", "∷", "++", ",", "="):
            if self.peek() == "{":
                self.skip_implicit()
                continue
            arguments.append(self.atom())
        return self.evaluator.word(word, arguments, self.place, self.values, self.depth)

    def skip_implicit(self) -> None:
        while self.take() != "}":
            pass

    def atom(self) -> Model:
        word = self.take()
        if word == "(":
            parts = [self.term()]
            while self.peek() == ",":
                self.take()
                parts.append(self.term())
            self.take(")")
            return parts[0] if len(parts) == 1 else Applied(",", tuple(parts))
        if word == "record":
            return self.record()
        if word == "[]":
            return Items()
        if word[0] == '"':
            return text_model(word[1:-1])
        if word[0].isdigit():
            return Integer(int(word, 0))
        return self.evaluator.word(word, [], self.place, self.values, self.depth)

    def record(self) -> Model:
        self.take("{")
        fields: list[tuple[str, Model]] = []
        while self.peek() != "}":
            name = self.take()
            self.take("=")
            fields.append((name, self.term()))
            if self.peek() == ";":
                self.take()
        self.take("}")
        return Fields(tuple(fields))


def symbols(names: Sequence[str]) -> dict[str, Model]:
    """Returns the parameters of a function as values."""
    return {it: Symbol(it) for it in names}
