"""The definitions of sources: functions, type aliases, fields and constants."""
from __future__ import annotations

import pathlib
import re
from collections.abc import Sequence
from dataclasses import dataclass, field

from ..rattle import items, lexer
from ..rattle.brackets import Span, behind
from ..repository import text_of
from .types import UNIT, UNKNOWN, Type, type_at


@dataclass(frozen=True)
class Parameter:
    """A parameter, with its type."""

    name: str
    type: Type


@dataclass
class Function:
    """A function. `owner` is the type of a method, and `words` are the tokens of its file."""

    crate: str
    path: str
    name: str
    owner: Type | None
    generics: frozenset[str]
    is_public: bool
    is_trait: bool
    parameters: list[Parameter]
    result: Type
    words: Sequence[str]
    body: Span | None

    @property
    def shown_owner(self) -> str:
        """The name of the owner with the arguments that the impl does not leave open, or an empty
        text."""
        if self.owner is None:
            return ""
        closed = [it.name for it in self.owner.arguments if it.name not in self.generics]
        return f'{self.owner.name}<{", ".join(closed)}>' if closed else self.owner.name

    @property
    def key(self) -> Key:
        return Key(self.shown_owner, self.name)


@dataclass(frozen=True)
class Key:
    """A function by its owner, which is empty for a free function, and its name."""

    owner: str
    name: str

    def __str__(self) -> str:
        return f"{self.owner}::{self.name}" if self.owner else self.name


@dataclass(frozen=True)
class Alias:
    """A type alias: its parameters, and its type."""

    generics: list[str]
    type: Type


@dataclass
class Definitions:
    """The definitions of all crates."""

    functions: list[Function] = field(default_factory=list)
    aliases: dict[str, Alias] = field(default_factory=dict)
    fields: dict[str, dict[str, Type]] = field(default_factory=dict)
    constants: dict[str, Type] = field(default_factory=dict)
    free: dict[str, list[Function]] = field(default_factory=dict)
    methods: dict[tuple[str, str], list[Function]] = field(default_factory=dict)

    def settled(self, type_: Type) -> Type:
        """Returns the type without aliases."""
        alias = self.aliases.get(type_.name)
        if alias is not None and alias.type.name != type_.name:
            return self.settled(alias.type.with_arguments(dict(zip(alias.generics, type_.arguments))))
        return Type(type_.name, tuple(self.settled(it) for it in type_.arguments))

    def index(self) -> None:
        """Finds the functions by their names, and methods by their types too."""
        for it in self.functions:
            if it.owner is None:
                self.free.setdefault(it.name, []).append(it)
            elif not it.is_trait:
                self.methods.setdefault((self.settled(it.owner).name, it.name), []).append(it)


@dataclass(frozen=True)
class Scope:
    """The block of an item: the type of an impl, its generics, and whether it is of a trait."""

    owner: Type | None = None
    generics: frozenset[str] = frozenset()
    is_trait: bool = False


class SourceReader:
    """Adds the definitions of a source."""

    def __init__(self, definitions: Definitions, crate: str, path: str, text: str):
        self.definitions, self.crate, self.path = definitions, crate, path
        self.words = words_of(text)
        self.add(items.items_of(self.words), Scope())

    def add(self, found: Sequence[items.Item], scope: Scope) -> None:
        for it in found:
            if isinstance(it, items.Function):
                self.definitions.functions.append(self.function(it, scope))
            elif isinstance(it, items.Block):
                self.add(it.items, Scope() if it.kind == "mod" else self.scope_of(it))
            elif isinstance(it, items.Struct):
                self.add_struct(it)
            elif isinstance(it, items.Alias) and it.type:
                self.definitions.aliases[it.name] = Alias(self.names(it.generics), self.type(it.type))
            elif isinstance(it, items.Constant):
                found_type = self.type(it.type)
                self.definitions.constants[it.name] = scope.owner if found_type.name == "Self" and scope.owner else found_type

    def type(self, span: Span) -> Type:
        return type_at(self.words, span.begin).type

    def names(self, generics: Sequence[Span]) -> list[str]:
        """Returns the names of type parameters."""
        found = [self.words[it.begin + (self.words[it.begin] == "const")] for it in generics]
        return [it for it in found if re.match(r"\w", it)]

    def scope_of(self, block: items.Block) -> Scope:
        """Returns the scope of an impl or of a trait."""
        parsed, is_trait = type_at(self.words, block.header.begin), block.kind == "trait"
        if self.words[parsed.end] == "for":
            parsed, is_trait = type_at(self.words, parsed.end + 1), True
        return Scope(parsed.type, frozenset(self.names(block.generics)), is_trait)

    def add_struct(self, struct: items.Struct) -> None:
        known = self.definitions.fields.setdefault(struct.name, {})
        for index, it in enumerate(struct.fields):
            at = self.behind_attributes(it.begin)
            if struct.is_tuple:
                known[str(index)] = type_at(self.words, at).type
            else:
                known[self.words[at]] = type_at(self.words, at + 2).type

    def behind_attributes(self, at: int) -> int:
        """Returns the index after the attributes and the visibility of a field."""
        while self.words[at] in ("#", "pub"):
            is_attribute = self.words[at] == "#"
            at += 1
            if is_attribute or self.words[at] == "(":
                at = behind(self.words, at)
        return at

    def function(self, item: items.Function, scope: Scope) -> Function:
        parameters = []
        for it in item.parameters:
            if it.is_typed:
                parameters.append(Parameter(it.name, self.type(it.type)))
            elif "self" in it.type.of(self.words)[:4]:
                parameters.append(Parameter("self", scope.owner or UNKNOWN))
        generics = scope.generics | set(self.names(item.generics))
        result = self.type(item.result) if item.result else UNIT
        return Function(
            self.crate, self.path, item.name, scope.owner, generics, item.is_public, scope.is_trait, parameters, result, self.words, item.body,
        )


def words_of(text: str) -> list[str]:
    """Returns the tokens of a source without lifetimes; each literal text is one token `""`."""
    found = [it for it in lexer.solid_tokens(text, lexer.RATTLE_MARKS) if it.kind != lexer.LIFETIME]
    return ['""' if it.kind == lexer.LITERAL else it.text for it in found]


def read(crates: pathlib.Path) -> Definitions:
    """Reads the sources of all crates of a folder."""
    definitions = Definitions()
    for crate in sorted(it for it in crates.iterdir() if (it / "src").is_dir()):
        for path in sorted((crate / "src").rglob("*.rt")):
            SourceReader(definitions, crate.name, str(path.relative_to(crate)), text_of(path))
    definitions.index()
    return definitions
