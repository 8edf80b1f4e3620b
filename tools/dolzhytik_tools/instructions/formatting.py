"""Lays out Rust as `rt fmt` does."""
from __future__ import annotations

import re
from collections.abc import Iterable

from ..rattle import lexer
from ..rattle.brackets import Span, parts
from .table import TABLE, Case

WIDTH, FIELDS_WIDTH, CASE_WIDTH, LIST_WIDTH = 100, 18, 35, 60


def noted(path: str, text: str) -> str:
    """Returns a file with the line before it that says what wrote it."""
    comment = "--" if path.endswith(".antt") else "//"
    return f"{comment} Written by tools/instructions from {TABLE}: do not edit.\n{text}"


def with_fields(head: str, fields: Iterable[str], indent: str, width: int = FIELDS_WIDTH) -> str:
    """Returns a value, pattern or declaration with named fields, on one line if they are short."""
    words = list(fields)
    line = ", ".join(words)
    if len(line) <= width:
        return f"{head} {{ {line} }}"
    return f"{head} {{\n" + "".join(f"{indent}    {it},\n" for it in words) + f"{indent}}}"


def bound(case: Case, names: Iterable[str], indent: str) -> str:
    """Returns a pattern that binds the fields to these names."""
    head, names = f"{case.enum.name}::{case.name}", tuple(names)
    if case.fields:
        return with_fields(head, (field if field == it else f"{field}: {it}" for field, it in zip(case.fields, names)), indent)
    return head + (f"({', '.join(names)})" if names else "")


def arm(patterns: list[str], body: str, indent: str) -> str:
    """Returns an arm of a match: its patterns on one line if they fit, and otherwise one a line."""
    line = indent + " | ".join(patterns)
    is_one = len(patterns) == 1 or "\n" not in line and len(line) <= WIDTH - len(" =>")
    head = line if is_one else indent + f"\n{indent}| ".join(patterns)
    comma = "" if body.startswith("{") else ","
    if is_one and "\n" not in body and len(head.rpartition("\n")[2] + f" => {body}{comma}") > WIDTH:
        return f"{head} =>\n{indent}    {body}{comma}\n"
    return f"{head} => {body}{comma}\n"


def block(statements: list[str], indent: str) -> str:
    return "{\n" + "".join(f"{indent}    {it};\n" for it in statements) + f"{indent}}}"


def split(text: str) -> list[str]:
    """Returns the parts of a text between the commas that are in no brackets."""
    words = lexer.words_of(text)
    found = ["".join(it.of(words)).strip() for it in parts(words, Span(0, len(words)))]
    return [it for it in found if it]


def is_short(text: str) -> bool:
    """Returns whether the fields, arguments and items of a value are short enough for one line. A
    list that is the only argument counts alone."""
    for it in re.finditer(r"[\[{]|\((?!&?\[)", text):
        depth, end = 1, it.end()
        while depth:
            depth += (text[end] in "([{") - (text[end] in ")]}")
            end += 1
        if len(text[it.end() : end - 1].strip()) > (FIELDS_WIDTH if it[0] == "{" else LIST_WIDTH):
            return False
    return True


def laid_out(value: str, indent: str, before: int, behind: int = 1) -> str:
    """Returns a value that has `before` characters before it in its line, and `behind` after it."""
    opening = re.search(r"[\[({]", value)
    if not opening or before + len(value) + behind <= WIDTH and is_short(value):
        return value
    end = opening.end()
    if re.match(r"&?\[", value[end:]):
        end = value.index("[", end) + 1
    close = {"(": ")", "[": "]", "{": "}"}
    closing = "".join(close[it] for it in reversed(re.sub(r"[^\[({]", "", value[opening.start() : end])))
    text = value[:end] + "\n"
    for part in split(value[end : -len(closing)]):
        name, colon, rest = part.partition(": ") if value[end - 1] == "{" else ("", "", part)
        text += f"{indent}    {name}{colon}{laid_out(rest, indent + '    ', len(indent) + 4 + len(name + colon))},\n"
    return text + indent + closing
