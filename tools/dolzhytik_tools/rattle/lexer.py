"""Splits sources of Rattle and of Rust into tokens.

The tokens of a text join to the text. A caller says which marks of several characters are one
token, such as `::`; every other mark is a token of one character.
"""
from __future__ import annotations

import functools
import re
from dataclasses import dataclass

SPACE, COMMENT, LITERAL, LIFETIME, NUMBER, WORD, MARK = "space", "comment", "literal", "lifetime", "number", "word", "mark"

# The marks that tell types and paths apart.
RATTLE_MARKS = ("::", "->", "=>", "..=", "..")
# The operators of Rust that have several characters, except `>>`, which also closes two angles.
RUST_MARKS = (
    "+=", "-=", "*=", "<<=", "<<", "->", "=>", "==", "!=", "<=", ">=", "&&", "||", "::", "..=", "..",
)

# A number after a dot is the field of a tuple, and has no fraction.
KINDS = {
    COMMENT: r"//[^\n]*|/\*.*?\*/",
    LITERAL: r"""b?r"[^"]*"|b?r\#".*?"\#|b?r\#\#".*?"\#\#|b?"(?:[^"\\]|\\.)*"|b?'(?:\\(?:u\{[^}]*\}|x..|.)|[^'\\\n])'""",
    LIFETIME: r"'[^\W\d]\w*",
    NUMBER: r"(?<=\.)\d\w*|\d\w*(?:\.\d\w*)?",
    WORD: r"[^\W\d]\w*",
    SPACE: r"\s+",
}


@dataclass(frozen=True)
class Token:
    """A token with its kind and its offset in characters."""

    text: str
    kind: str
    start: int

    @property
    def is_blank(self) -> bool:
        """Whether the compiler skips it: a space or a comment."""
        return self.kind in (SPACE, COMMENT)


def kinds(marks: tuple[str, ...]) -> dict[str, str]:
    """Returns the expression of each kind, none of which has a group."""
    joined = [re.escape(it) for it in sorted(marks, key=len, reverse=True)]
    return {**KINDS, MARK: "|".join([*joined, "."])}


@functools.lru_cache(maxsize=None)
def pattern_of_kinds(marks: tuple[str, ...]) -> re.Pattern[str]:
    """Returns the expression of a token, with a group for each kind."""
    return re.compile("|".join(f"(?P<{kind}>{it})" for kind, it in kinds(marks).items()), re.S)


@functools.lru_cache(maxsize=None)
def pattern(marks: tuple[str, ...]) -> re.Pattern[str]:
    """Returns the expression of a token without groups, which is faster."""
    return re.compile("|".join(kinds(marks).values()), re.S)


def tokens_of(text: str, marks: tuple[str, ...] = ()) -> list[Token]:
    """Returns all tokens of a text."""
    return [Token(it.group(), str(it.lastgroup), it.start()) for it in pattern_of_kinds(marks).finditer(text)]


def solid_tokens(text: str, marks: tuple[str, ...] = ()) -> list[Token]:
    """Returns the tokens of a text but spaces and comments."""
    return [it for it in tokens_of(text, marks) if not it.is_blank]


def words_of(text: str, marks: tuple[str, ...] = ()) -> list[str]:
    """Returns the texts of all tokens."""
    return pattern(marks).findall(text)


def solid_words(text: str, marks: tuple[str, ...] = ()) -> list[str]:
    """Returns the texts of the tokens but spaces and comments."""
    return [it for it in words_of(text, marks) if not is_blank(it)]


def is_comment(token: str) -> bool:
    """Returns whether the text of a token is a comment."""
    return token.startswith(("//", "/*"))


def is_blank(token: str) -> bool:
    """Returns whether the text of a token is a space or a comment."""
    return token.isspace() or is_comment(token)


def is_word(token: str) -> bool:
    """Returns whether the text of a token is a name or a keyword."""
    return token[:1].isalpha() or token[:1] == "_"
