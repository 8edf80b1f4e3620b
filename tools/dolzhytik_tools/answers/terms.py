"""Terms of the prover, as text."""
from __future__ import annotations

import re
from collections.abc import Iterable, Sequence

from ..errors import Stop

WORD = re.compile(r"[\[\]]{2}|[(){}∷×→]|λ|[^\s(){}∷×→λ]+")
DEPTHS = {"(": 1, "{": 1, ")": -1, "}": -1}


def words_of(text: str) -> list[str]:
    """Returns the words of a term."""
    return WORD.findall(text)


def arguments(words: Sequence[str]) -> list[str]:
    """Returns the arguments of an application: words, and groups in brackets as one text."""
    found, group, depth = [], [], 0
    for word in words:
        depth += DEPTHS.get(word, 0)
        group.append(word)
        if depth == 0:
            found.append(joined(group))
            group = []
    if group:
        raise IndexError("a bracket that nothing closes")
    return found


def joined(words: Iterable[str]) -> str:
    """Returns the text of words, without spaces inside of parentheses."""
    text = " ".join(words)
    return re.sub(r"\( ", "(", re.sub(r" \)", ")", text))


def bare(text: str) -> str:
    """Returns a term without the parentheses around it."""
    if not text.startswith("("):
        return text
    depth = 0
    for i, sign in enumerate(text):
        depth += (sign == "(") - (sign == ")")
        if depth == 0:
            return text[1:-1] if i == len(text) - 1 else text
    return text


def shown(text: str) -> str:
    """Returns a term as an argument of an application."""
    return text if " " not in text else "(%s)" % text


def elements(text: str) -> list[str] | None:
    """Returns the elements of a list that is written out, or None for another term."""
    found: list[list[str]] = [[]]
    depth = 0
    for word in words_of(bare(text)):
        depth += (word == "(") - (word == ")")
        if word == "∷" and depth == 0:
            found.append([])
        else:
            found[-1].append(word)
    if found[-1] != ["[]"] or not all(found):
        return None
    return [bare(joined(words)) for words in found[:-1]]


def pair_in(text: str) -> tuple[str, ...]:
    """Returns both sides of a pair that is written out."""
    found = re.fullmatch(r"\(?([^,]*), (.*?)\)?", text)
    if not found:
        raise Stop("a pair that is not written out")
    return found.groups()


def chained(reasons: Sequence[str]) -> str:
    """Returns one term of the reasons of a list's elements: `(a, (b, tt))`."""
    found = "tt"
    for reason in reversed(reasons):
        found = "(%s, %s)" % (reason, found)
    return found


def all_of(reasons: Sequence[str]) -> str:
    """Returns one term of several reasons: `(a, b, tt)`, or `tt` for none."""
    return "(%s, tt)" % ", ".join(reasons) if reasons else "tt"
