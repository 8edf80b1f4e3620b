"""Parses the body of a function without branches into trees; anything else stops the tool."""
from __future__ import annotations

import re
from collections.abc import Sequence

from ..errors import Stop
from .syntax import (
    AddAll, Array, Dereference, Field, MethodCall, Minus, Number, Parens, Path, PathCall, Reference, Statement, Struct, Text, Tree, Try,
)

# Statements and expressions that are not on a straight line.
BRANCHES = ("for", "while", "loop", "match", "if", "return", "unsafe", "const", "fn", "#")
BRANCHES_OF_EXPRESSIONS = ("match", "if", "for", "while", "loop", "|", "move", "unsafe")
ENDS = (None, ",", ";", ")", "]", "}")
PREFIXES = {"*": Dereference, "-": Minus}


def branch(word: str) -> Stop:
    return Stop("`%s`, which the tool does not follow" % word)


class Word(str):
    """A token, and the line of the file that it is on."""

    line: int


def word_of(text: str, line: int) -> Word:
    found = Word(text)
    found.line = line
    return found


class Parser:
    """Parses the tokens of a body or of an expression."""

    def __init__(self, words: Sequence[str]):
        self.words, self.at = words, 0

    @property
    def line(self) -> int:
        """The line of the next token, or of the last one."""
        words = self.words[self.at : self.at + 1] or self.words[-1:]
        return line_of(words[0]) if words else 0

    def peek(self) -> str | None:
        return self.words[self.at] if self.at < len(self.words) else None

    def take(self, word: str | None = None) -> str:
        """Takes the next token, which must be `word` if that is given."""
        found = self.peek()
        if found is None or word and found != word:
            raise Stop("`%s` where `%s` is looked for" % (found or "the end", word or "more"))
        self.at += 1
        return found

    def skip(self, word: str) -> None:
        """Takes the next token if it is this one."""
        if self.peek() == word:
            self.take()

    def body(self) -> tuple[list[Statement], Tree | None]:
        """Returns the statements, and the expression at the end, if there is one."""
        found: list[Statement] = []
        while self.peek() is not None:
            if self.peek() == "match":
                return found, self.last_match()
            if self.peek() in BRANCHES:
                raise branch(str(self.peek()))
            line = self.line
            name = self.bound_name() if self.peek() == "let" else None
            value = self.expression()
            if self.peek() is None and name is None:
                return found, value
            self.take(";")
            found.append(Statement(name, value, line))
        return found, None

    def bound_name(self) -> str:
        """Takes a `let` up to its `=`, and returns the name that it binds."""
        self.take("let")
        self.skip("mut")
        name = self.take()
        if not re.fullmatch(r"[a-z_]\w*", name) or self.peek() not in ("=", ":"):
            raise Stop("a pattern in a `let`")
        while self.peek() != "=":
            self.take()
        self.take("=")
        return name

    def last_match(self) -> AddAll:
        try:
            return self.add_all()
        except Stop:
            raise branch("match") from None

    def add_all(self) -> AddAll:
        """Parses a `match` on `add_all` that continues with `Ok` and returns the error of `Err`."""
        self.take("match")
        call = self.atom()
        for word in ("{", "Ok", "(", "(", ")", ")", "=>"):
            self.take(word)
        then = self.expression()
        for word in (",", "Err", "(", "(", "_", ","):
            self.take(word)
        name = self.take()
        for word in (")", ")", "=>", "Err", "(", name, ")"):
            self.take(word)
        self.skip(",")
        self.take("}")
        if not isinstance(call, PathCall) or call.path != ("add_all",) or self.peek() is not None:
            raise branch("match")
        return AddAll(call.arguments, then)

    def expression(self) -> Tree:
        word = self.peek()
        if word == "&":
            self.take()
            self.skip("mut")
            return Reference(self.expression())
        if word in PREFIXES:
            self.take()
            return PREFIXES[word](self.expression())
        return self.postfixed(self.atom())

    def postfixed(self, value: Tree) -> Tree:
        """Parses what follows an atom: `?`, fields and methods."""
        while self.peek() not in ENDS:
            word = self.take()
            if word == "?":
                value = Try(value)
            elif word == ".":
                name = self.take()
                is_call = self.peek() == "("
                value = MethodCall(value, name, self.listed("(", ")"), line_of(name)) if is_call else Field(value, name)
            else:
                raise Stop("`%s` in an expression" % word)
        return value

    def listed(self, opener: str, closer: str) -> tuple[Tree, ...]:
        """Parses expressions between brackets."""
        self.take(opener)
        found = []
        while self.peek() != closer:
            found.append(self.expression())
            self.skip(",")
        self.take(closer)
        return tuple(found)

    def atom(self) -> Tree:
        word = self.peek()
        if word in BRANCHES_OF_EXPRESSIONS:
            raise branch(str(word))
        if word == "(":
            return Parens(self.listed("(", ")"))
        if word == "[":
            return Array(self.listed("[", "]"))
        word = self.take()
        if word[0] == '"':
            return Text(word[1:-1])
        if word[0].isdigit():
            return Number(number_of(word))
        if not re.fullmatch(r"[A-Za-z_]\w*", word):
            raise Stop("`%s` in an expression" % word)
        return self.path(word)

    def path(self, first: str) -> Tree:
        """Parses a path whose first name is taken, with the arguments or fields behind it."""
        names = [first]
        while self.peek() == "::":
            self.take()
            names.append(self.take())
        if names[-1] == "!" or self.peek() == "!":
            raise Stop("a macro")
        if self.peek() == "(":
            return PathCall(tuple(names), self.listed("(", ")"), line_of(first))
        if self.peek() == "{" and names[-1][0].isupper():
            return Struct(tuple(names), self.fields())
        return Path(tuple(names))

    def fields(self) -> dict[str, Tree]:
        self.take("{")
        fields: dict[str, Tree] = {}
        while self.peek() != "}":
            name = self.take()
            if self.peek() == ":":
                self.take()
                fields[name] = self.expression()
            else:
                fields[name] = Path((name,))
            self.skip(",")
        self.take("}")
        return fields


def line_of(word: str) -> int:
    """Returns the line of a token, or 0 if it is not known."""
    return word.line if isinstance(word, Word) else 0


def number_of(word: str) -> int:
    """Returns the value of a literal integer."""
    digits = re.sub(r"[iu](8|16|32|64|128|size)$", "", word).replace("_", "")
    try:
        return int(digits, 0)
    except ValueError:
        raise Stop("`%s` in an expression" % word) from None
