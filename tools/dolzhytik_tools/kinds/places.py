"""The places by hand in which each kind has a row: the tool finds a missing one."""
from __future__ import annotations

import pathlib
import re
from collections.abc import Callable, Iterator
from dataclasses import dataclass

from ..errors import Stop
from ..repository import text_of
from .sources import every_custom, has_items
from .table import TABLE, Kind

KINDS = "crates/wasm_reader/src/kinds.rt"


def every(kind: Kind) -> bool:
    return True


def written_by_builders(kind: Kind) -> bool:
    """Whether a builder writes its payload: bytes have none."""
    return kind.case != "Raw"


def built(kind: Kind) -> bool:
    """Whether a grammar of the standard's alone has shorter encodings of its items."""
    return kind.grammars == "builders"


def holds_offsets(kind: Kind) -> bool:
    return kind.offsets != "-"


@dataclass(frozen=True)
class Place:
    """A file that has a text for each of some kinds. In it `{case}` and the like are of the kind, and
    `{count}` is the number of kinds, the first that none has."""

    path: str
    text: str
    of: Callable[[Kind], bool]

    def texts(self, kinds: list[Kind]) -> dict[str, str]:
        """Returns the texts, each with the last kind that needs it."""
        return {self.text.format(case=it.case, stem=it.stem, name=it.name or it.prefix, front=it.front, format=it.format, count=len(kinds)): it.case for it in filter(self.of, kinds)}


PLACES = (
    Place("crates/wasm_custom/src/lib.rt", "::read_{stem};", every_custom),
    Place("crates/wasm_custom/src/lib.rt", "::append_{stem};", every_custom),
    Place("crates/wasm_custom/src/lib.rt", "::walk_{stem};", every_custom),
    Place("crates/wasm_custom/src/checks.rt", "pub fn check_{stem}<", has_items),
    Place("crates/wasm_custom/src/minimize.rt", "pub fn minimize_{stem}<", has_items),
    Place("crates/wasm_custom/src/laws.rt", "{{ Unambiguous (size_prefixed {format}) }}", every_custom),
    Place("crates/wasm_custom/src/laws.rt", "{{ UnambiguousPadded (size_prefixed {format}) }}", every_custom),
    Place("crates/wasm_custom/src/laws.rt", "{{ DecodesPayloads {format} }}", every_custom),
    Place("crates/wasm_custom/src/laws.rt", "{{ DecodesPayloadsPadded {format} }}", every_custom),
    Place("crates/wasm_reader/proofs/BuiltSections.antt", "content_built kinds.{case} ", built),
    Place("crates/dolzhytik/src/lib.rt", "::append_{stem};", every_custom),
    Place("crates/dolzhytik/src/lib.rt", "::read_{stem};", every_custom),
    Place("crates/dolzhytik/src/lib.rt", "::walk_{stem};", every_custom),
    Place("crates/dolzhytik/src/lib.rt", "::check_{stem};", has_items),
    Place("crates/dolzhytik/src/lib.rt", "::minimize_{stem};", has_items),
    Place("crates/calls/src/once/walks.rt", " check_{stem}::<", has_items),
    Place("crates/calls/src/once/walks.rt", " minimize_{stem}::<", has_items),
    Place("tests/wasm_custom_tests/src/places.rtt", "(read_{stem}::<", every_custom),
    Place("tests/wasm_reader_sections_tests/src/refusals.rtt", "SectionKind::{case})", every),
    Place("tests/wasm_reader_sections_tests/src/appended.rtt", "append_{stem}(", every_custom),
    Place("examples/ffi/c/main.c", "shorten({count}, ", every),
    Place("examples/ffi/rust/src/main.rs", "shorten({count}, ", every),
    Place("fuzz/grammar.rs", '        "{case}" => ', every),
    Place("fuzz/items.rs", '"{case}" ', every),
    Place("rust/src/bin/dolzhytik/dump/custom.rs", "Items::{case}", every_custom),
    Place("rust/tests/program/dump_json.rs", '"{name}', every_custom),
    Place("tools/rustdoc/custom.md", "read_{stem}", every_custom),
    Place("docs/FORMAT.md", "`{name}", every_custom),
    Place("crates/wasm_reader/src/whole.rt", "{front}", holds_offsets),
    Place("crates/wasm_c/include/dolzhytik.h", "`{front}", holds_offsets),
    Place("docs/FORMAT.md", "`{front}", holds_offsets),
    Place("fuzz/whole.rs", "{front}", holds_offsets),
    Place("rust/src/bin/dolzhytik/help.rs", "{front}", holds_offsets),
    Place("rust/src/bin/dolzhytik/shorten/choice.rs", '"{front}', holds_offsets),
    Place("rust/web/dolzhytik.d.ts", "`{front}", holds_offsets),
    Place("docs/PROOFS.md", "`{case}`", written_by_builders),
)


def enum(text: str, name: str) -> list[str]:
    """Returns the cases of an enum, without their documentation."""
    found = re.search(rf"^pub enum {name}\b.*?^}}", text, re.M | re.S)
    if not found:
        raise Stop(f"{KINDS}: no 'pub enum {name}'")
    body = re.sub(r"^ *///.*\n", "", found[0].partition("{")[2], flags=re.M)
    return [re.sub(r"\s+", " ", it).strip() for it in re.findall(r"^    (\w+(?:\(.*\)| \{[^}]*\})?),$", body, re.M)]


def case_of_items(kind: Kind) -> str:
    """Returns the case of `Items`."""
    if kind.has_fields:
        return f"{kind.case} {{ {', '.join(f'{name}: {type_}' for name, type_ in kind.fields)}, }}"
    return f"{kind.case}({kind.fields[0][1]})"


def differing(kinds: list[Kind], text: str) -> Iterator[str]:
    """Yields the differences of the enums from the table."""
    for name, wanted in (("SectionKind", [it.case for it in kinds]), ("Items", [case_of_items(it) for it in kinds])):
        found = enum(text, name)
        for n in range(max(len(found), len(wanted))):
            is_, must = (it[n] if n < len(it) else "nothing" for it in (found, wanted))
            if is_ != must:
                yield f"{KINDS}: '{is_}' at {n} of {name}, and '{must}' in {TABLE}"
                break


def count(kinds: list[Kind]) -> int:
    """Returns the number of rows by hand, and of enums."""
    return len(("SectionKind", "Items")) + sum(len(it.texts(kinds)) for it in PLACES)


def missing(top: pathlib.Path, kinds: list[Kind]) -> Iterator[str]:
    """Yields the places without a kind, and the differences of the enums from the table."""
    yield from differing(kinds, text_of(top / KINDS))
    texts = {path: text_of(top / path) for path in {it.path for it in PLACES}}
    for place in PLACES:
        for text, case in place.texts(kinds).items():
            if text not in texts[place.path]:
                yield f"{place.path}: no '{text}', which {case} must have there"
