"""The words of a term, and those that the term itself binds."""
from __future__ import annotations

import re
from collections.abc import Iterator

WORD = r'[^\W\d]\w*'
# A comment; a text in quotes; a word with what is before a dot in front of it.
TOKEN = re.compile(rf'(?P<blank>--[^\n]*|//[^\n]*|"[^"]*")|(?<![\w.»])(?P<word>{WORD}(?:\.{WORD})?)')
# What follows the name of a field in `record { name = .. }`.
IS_FIELD = re.compile(r'\s*=(?![=>])')
BINDERS = [
    # λ x y. ..
    re.compile(r'λ\s+([^.]*?)\.(?=\s|$)'),
    # (x y : T), {x : T}
    re.compile(r'[({]\s*([^(){}:]*?)\s+:\s'),
    # let x = ..
    re.compile(rf'\blet\s+({WORD})\s'),
    # | pattern ↦ ..
    re.compile(r'\|([^|↦]*)↦'),
    # Fields of a record and constructors, on lines of their own.
    re.compile(rf'(?m)^\s+(?:pub )?({WORD}) :'),
]


def words_of(text: str) -> Iterator[str]:
    """Yields the words of a term in their order: each with the word after its dot, if it has one. A
    field after another dot, and one that a `record` sets, is none."""
    for it in TOKEN.finditer(text):
        is_field = IS_FIELD.match(text, it.end()) and text[:it.start()].rstrip().endswith(('{', ';'))
        if it['word'] and not is_field:
            yield it['word']


def bound_in(text: str) -> set[str]:
    """Returns the words that binders of a term name."""
    return {word for binder in BINDERS for it in binder.finditer(text) for word in re.findall(WORD, it[1])}


def pattern_words(text: str, name: str) -> set[str]:
    """Returns the words of the patterns of the equations of a definition. Some are constructors."""
    patterns = re.findall(rf'(?m)^\s*{name} ([^\n]*?)=(?=\s|$)', text)
    return {word for it in patterns for word in re.findall(rf'(?<![\w.])({WORD})(?![\w.])', it)}
