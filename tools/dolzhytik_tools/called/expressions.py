"""The types of expressions, and the functions that they call."""
from __future__ import annotations

import re
from dataclasses import dataclass, field

from ..rattle.brackets import Span, behind, behind_angle, parts
from .definitions import Definitions, Function, Key
from .types import UNKNOWN, Parsed, Type, types_in

UNWRAPPING = {"unwrap", "expect", "unwrap_or", "unwrap_or_default"}
RESULTS = {"R", "Result", "Option"}
LISTS = ("[]", "Vec", "Iter", "IntoIter")
# Methods of std whose result has the type of the receiver here, and those that return an item of
# it.
SAME = ("iter", "into_iter", "as_slice", "iter_mut", "as_ref", "as_mut", "map_err", "ok", "by_ref")
ITEM = ("next", "first", "last", "get", "pop")


@dataclass(frozen=True)
class Turbofish:
    """The type arguments behind so many names of a path."""

    count: int
    types: tuple[Type, ...]


def item_of(type_: Type) -> Type:
    """Returns the type of the items of a list."""
    return type_.argument(0) if type_.name in LISTS else UNKNOWN


def unwrapped(type_: Type) -> Type:
    """Returns the type of the value of a result."""
    return type_.argument(0) if type_.name in RESULTS else UNKNOWN


@dataclass
class Expressions:
    """The expressions of a body. `called` gains the functions that they call."""

    known: Definitions
    function: Function
    called: set[Key]
    variables: dict[str, Type] = field(default_factory=dict)

    def own(self, type_: Type) -> Type:
        """Returns a type without aliases and `Self`."""
        owner = self.function.owner
        return self.known.settled(type_.with_arguments({"Self": owner}) if owner else type_)

    def value(self, at: int, end: int) -> Parsed:
        """Returns the type of the expression at `at`, as far as calls and fields show it."""
        words = self.function.words
        while at < end and words[at] in ("&", "*", "mut", "-", "!"):
            at += 1
        if at >= end:
            return Parsed(UNKNOWN, at)
        if words[at] == "(":
            after = behind(words, at)
            types = tuple(self.value(it.begin, it.end).type for it in parts(words, Span(at + 1, after - 1)))
            found = Parsed(types[0] if len(types) == 1 else Type("()", types), after)
        elif re.match(r"[A-Za-z_]", words[at]):
            found = self.path(at, end)
        else:
            return Parsed(UNKNOWN, at + 1)
        return self.postfixed(found.type, found.end, end)

    def path(self, at: int, end: int) -> Parsed:
        """Returns the type of a name, a path, or a call of one."""
        words, names, arguments = self.function.words, [self.function.words[at]], []
        at += 1
        while at < end and words[at] == "::":
            if words[at + 1] == "<":
                after = behind_angle(words, at + 1)
                arguments.append(Turbofish(len(names), types_in(words, Span(at + 2, after - 1))))
                at = after
            else:
                names.append(words[at + 1])
                at += 2
        following = words[at] if at < end else ""
        if following == "!":
            return Parsed(UNKNOWN, at)
        if following == "(":
            return Parsed(self.call(names, arguments, at), behind(words, at))
        return self.named(names, arguments, at, following)

    def named(self, names: list[str], arguments: list[Turbofish], at: int, following: str) -> Parsed:
        """Returns the type of a variable, an associated constant, a constant or a struct."""
        name = names[-1]
        if len(names) == 1 and name in self.variables:
            return Parsed(self.variables[name], at)
        if len(names) > 1 and names[-2][0].isupper():
            return Parsed(self.owned(names[-2], arguments, len(names) - 1), at)
        if name in self.known.constants and name.isupper():
            return Parsed(self.known.settled(self.known.constants[name]), at)
        if name[0].isupper() and not name.isupper():
            after = behind(self.function.words, at) if following == "{" else at
            return Parsed(self.owned(name, arguments, len(names)), after)
        return Parsed(UNKNOWN, at)

    def owned(self, name: str, arguments: list[Turbofish], count: int) -> Type:
        """Returns the type of a name of a path, with its arguments."""
        return self.own(Type(name, next((it.types for it in arguments if it.count == count), ())))

    def call(self, names: list[str], arguments: list[Turbofish], at: int) -> Type:
        """Returns the type of a call of a path, whose arguments begin at `at`."""
        if len(names) > 1 and names[-2][0].isupper():
            owner = self.owned(names[-2], arguments, len(names) - 1)
            method = self.method(owner, names[-1])
            return self.returned(method, owner) if method else owner
        if names[-1] in ("Ok", "Some"):
            inner = self.value(at + 1, behind(self.function.words, at) - 1).type
            return Type("Result" if names[-1] == "Ok" else "Option", (inner,))
        if names[-1][0].isupper():
            return self.owned(names[-1], arguments, len(names))
        self.called.add(Key("", names[-1]))
        found = self.known.free.get(names[-1], [])
        near = [it for it in found if it.crate == self.function.crate] or found
        return self.known.settled(near[0].result) if len({it.result for it in near}) == 1 else UNKNOWN

    def method(self, type_: Type, name: str) -> Function | None:
        """Adds the methods of this name that a value of the type may have, and returns the first
        one."""
        known = self.known.methods.get((type_.name, name), [])
        fits = [it for it in known if it.owner and type_.has_methods_of(self.known.settled(it.owner), it.generics)]
        self.called.update(it.key for it in fits)
        return fits[0] if fits else None

    def returned(self, method: Function, receiver: Type) -> Type:
        """Returns the type of the result of a method."""
        owner = self.known.settled(method.owner or UNKNOWN)
        given = {name.name: it for name, it in zip(owner.arguments, receiver.arguments) if name.name in method.generics}
        return self.known.settled(method.result.with_arguments({"Self": receiver}).with_arguments(given))

    def postfixed(self, type_: Type, at: int, end: int) -> Parsed:
        """Returns the type behind `?`, fields, methods and indices."""
        words = self.function.words
        while at < end:
            if words[at] == "?":
                type_, at = unwrapped(type_), at + 1
            elif words[at] == "." and at + 1 < end and re.match(r"\w", words[at + 1]):
                name, at = words[at + 1], at + 2
                if at < end and words[at] == "::":
                    at = behind_angle(words, at + 1)
                if at < end and words[at] == "(":
                    type_, at = self.sent(type_, name), behind(words, at)
                else:
                    type_ = self.field(type_, name)
            elif words[at] == "[":
                type_, at = item_of(type_), behind(words, at)
            else:
                break
        return Parsed(type_, at)

    def field(self, type_: Type, name: str) -> Type:
        """Returns the type of a field."""
        if type_.name == "()":
            return type_.argument(int(name)) if name.isdigit() else UNKNOWN
        return self.known.settled(self.known.fields.get(type_.name, {}).get(name, UNKNOWN))

    def sent(self, type_: Type, name: str) -> Type:
        """Returns the type of a call of a method."""
        method = self.method(type_, name)
        if method:
            return self.returned(method, type_)
        if name in UNWRAPPING and type_.name in RESULTS:
            return unwrapped(type_)
        if name in SAME:
            return type_
        if name in ITEM:
            return Type("Option", (item_of(type_),))
        return UNKNOWN
