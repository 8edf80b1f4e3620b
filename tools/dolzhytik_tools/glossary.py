"""tools/glossary: writes docs/GLOSSARY.md from the comments of the specs."""
from __future__ import annotations

import pathlib
import sys
from collections.abc import Iterable, Iterator, Mapping, Sequence

from . import generated_files
from .definitions.pages import ended, prose
from .definitions.specs import Specs, files
from .errors import Stop
from .repository import TOP, text_of

PAGE = "docs/GLOSSARY.md"
HEAD = "tools/glossary.md"
TABLE = "tools/glossary.tsv"
WRITTEN = f"<!-- Written by tools/glossary from crates/*/specs, {HEAD} and {TABLE}: change those. -->\n"
# The crates in the order of the page, and what their definitions are about.
TOPICS = {
    "wasm_base": "numbers, formats, decoding, encoding, builders, modules",
    "wasm_immediates": "immediates",
    "wasm_insn": "instructions",
    "wasm_code": "expressions, functions, the code section",
    "wasm_sections": "the other core sections",
    "wasm_types": "the type section",
    "wasm_custom": "custom sections",
    "wasm_reader": "the reader",
    "wasm_remap": "maps of indices",
    "wasm_tool": "recipes",
    "wasm_c": "the C API",
    "wasm_bench": "workloads",
}
# The meaning of a word, by its crate and file, and the word.
Words = dict[tuple[str, str], str]


def by_hand(text: str) -> Words:
    """Returns the rows of the table. Lines that begin with `#` are comments, and a head follows."""
    lines = [(number, it) for number, it in enumerate(text.splitlines(), 1) if not it.startswith("#")]
    found: Words = {}
    for number, line in lines[1:]:
        fields = line.split("\t")
        if len(fields) != 3 or not all(fields):
            raise Stop(f"{TABLE}:{number}: a line has a file, a word and its meaning")
        if (fields[0], fields[1]) in found:
            raise Stop(f"{TABLE}:{number}: {fields[1]} has another line")
        found[fields[0], fields[1]] = fields[2]
    return found


def meanings(file: Specs, rows: Words) -> Iterator[tuple[str, str]]:
    """Yields the words of a file, each with its meaning: the comment above a definition, or the
    line of the table. It is empty for a definition without both. Takes the lines out of `rows`."""
    key = f"{file.crate}/{file.name}"
    for it in file.definitions:
        comment = ended(it.sentence)
        row = rows.pop((key, it.name), "")
        if row and row == comment:
            raise Stop(f"{TABLE}: the comment above {it.name} of {key} says the same: delete the line")
        yield it.name, row or comment
        for name in it.constructors:
            if (key, name) in rows:
                yield name, rows.pop((key, name))


def table(file: Specs, words: Iterable[tuple[str, str]]) -> Iterator[str]:
    """Yields the rows of a file, in the order of the alphabet."""
    link = f"[{file.name}](../{file.path})"
    for word, meaning in sorted(words, key=lambda it: (it[0].casefold(), it[0])):
        yield f"| `{word}` | {prose(meaning, {})} | {link} |\n"


def page(head: str, specs: Mapping[str, Sequence[Specs]], rows: Words) -> tuple[str, list[str]]:
    """Returns the text of the page, and the definitions without a meaning. `specs` are the files of
    each crate."""
    rows = dict(rows)
    parts, lacking = [WRITTEN, head], []
    for crate, found in specs.items():
        parts += [f"\n## `{crate}`: {TOPICS[crate]}\n\n", "| word | meaning | file |\n|---|---|---|\n"]
        for file in found:
            words = list(meanings(file, rows))
            lacking += [f"{file.path}: {word}" for word, meaning in words if not meaning]
            parts += table(file, [it for it in words if it[1]])
    for key, word in rows:
        raise Stop(f"{TABLE}: there is no definition {word} in {key}")
    return "".join(parts), lacking


def main(words: Sequence[str], usage: str, top: pathlib.Path = TOP) -> int:
    """Writes or compares the page. `usage` is the head of the command's script."""
    if list(words) not in ([], ["--check"]):
        print(usage.split("\n\n")[1], file=sys.stderr)
        return 2
    try:
        specs = {crate: files(crate, top, is_complete=False) for crate in TOPICS}
        text, lacking = page(text_of(top / HEAD), specs, by_hand(text_of(top / TABLE)))
    except Stop as stop:
        print(f"glossary: {stop}", file=sys.stderr)
        return 2
    for it in lacking:
        print(f"glossary: {it} has no comment")
    return generated_files.settle("glossary", {PAGE: text}, top, is_check=bool(words)) or int(bool(lacking))
