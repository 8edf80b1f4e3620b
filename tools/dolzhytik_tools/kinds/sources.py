"""The rows of kinds in sources: the arms of matches, laid out as `rt fmt` does it."""
from __future__ import annotations

import re
from collections.abc import Callable, Iterable

from ..instructions.formatting import WIDTH, with_fields
from ..instructions.regions import Region
from .table import Kind

# Custom sections of any name, and sections of any bytes, are decoded by no call of their own.
READ_BY_HAND = {
    "Custom": """{
            let (name, bytes) = <&'a str as Readable<'a, A, G>>::read(bytes, alloc)?;
            Ok(Items::Custom { name, bytes })
        }""",
    "Raw": "Ok(Items::Raw(bytes)),",
}
WALKED_BY_HAND = {"Raw": "walk_raw::<G, _>(bytes, effect),"}
ENCODED_BY_HAND = {
    "Raw": """{
            sink.extend_from_slice(bytes)?;
            Ok(())
        }""",
}
# The kinds from which `remove_functions` removes items.
TRIMMED = ("Functions", "Bodies", "Names")
# The first names in the definition `known_names`, which are on one line there.
FIRST_NAMES = ("Names", "Linking", "Producers", "TargetFeatures")


def every_custom(kind: Kind) -> bool:
    return kind.is_custom


def has_items(kind: Kind) -> bool:
    """Whether it is a custom section of items, and not of a single value."""
    return kind.is_custom and kind.content != "List ℕ"


def named(kinds: list[Kind]) -> list[Kind]:
    """Returns the kinds that are known by a whole name, in the order of `known_names`."""
    found = [it for it in kinds if it.name]
    return sorted(found, key=lambda it: FIRST_NAMES.index(it.case) if it.case in FIRST_NAMES else len(FIRST_NAMES))


def with_ids(kinds: list[Kind]) -> list[tuple[int, Kind]]:
    """Returns the kinds that `kind_of_id` knows, by their ids. Type sections are `Raw` there: their
    kind is known elsewhere."""
    custom = next(it for it in kinds if it.case == "Custom")
    return [(0, custom), *sorted(((it.id, it) for it in kinds if it.id is not None and it.known != "id Type"), key=lambda it: it[0])]


def called(head: str, call: str, given: str, end: str) -> str:
    """Returns an arm that ends with a call, whose arguments are on a line of their own if the arm is
    too long, or each of its types if the call is."""
    line = f"        {head} => {call}({given}){end},\n"
    if len(line) <= WIDTH + 1:
        return line
    first = f"        {head} => {call}("
    if len(first) <= WIDTH:
        return f"{first}\n            {given},\n        ){end},\n"
    name, _, types = call.rpartition("::<")
    listed = "".join(f"            {it},\n" for it in types[:-1].split(", "))
    return f"        {head} => {name}::<\n{listed}        >({given}){end},\n"


def by_hand(kind: Kind, head: str, texts: dict[str, str]) -> str | None:
    return f"        {head}::{kind.case} => {texts[kind.case]}\n" if kind.case in texts else None


def read_arm(kind: Kind) -> str:
    if found := by_hand(kind, "SectionKind", READ_BY_HAND):
        return found
    head, items = f"SectionKind::{kind.case}", f"Items::{kind.case}"
    if "read" not in kind.calls_named:
        return called(head, f"Ok({items}(read_whole::<'a, {kind.fields[0][1]}, A, G>", "bytes, alloc", "?))")
    call = f"read_{kind.stem}::<A, G>"
    if not kind.has_fields:
        return called(head, f"Ok({items}({call}", "bytes, alloc", "?))")
    names = [name for name, _ in kind.fields]
    value = with_fields(items, names, " " * 12)
    return f"        {head} => {{\n            let ({', '.join(names)}) = {call}(bytes, alloc)?;\n            Ok({value})\n        }}\n"


def walked_arm(kind: Kind) -> str:
    if found := by_hand(kind, "SectionKind", WALKED_BY_HAND):
        return found
    head = f"SectionKind::{kind.case}"
    if kind.is_vector or kind.is_number:
        return called(head, f"walk_whole::<{kind.fields[0][1].replace(chr(39) + 'a', chr(39) + '_')}, A, G, _>", "bytes, alloc, effect", "")
    return called(head, f"walk_{kind.stem}::<A, G, _>", "bytes, alloc, effect", "")


def encoded_arm(kind: Kind) -> str:
    names = [name for name, _ in kind.fields]
    pattern = with_fields(f"Items::{kind.case}", names, " " * 8) if kind.has_fields else f"Items::{kind.case}({names[0]})"
    if kind.case in ENCODED_BY_HAND:
        return f"        {pattern} => {ENCODED_BY_HAND[kind.case]}\n"
    if "append" in kind.calls_named or kind.case == "Custom":
        given = ", ".join(f"*{name}" if type_ == "u32" else name for name, type_ in kind.fields)
        return f"        {pattern} => append_{kind.stem}({given}, sink),\n"
    how = "as_slice().encode" if kind.calls == "records" else "append_minimal"
    return f"        {pattern} => {names[0]}.{how}(sink),\n"


def any_of(kind: Kind) -> str:
    """Returns the pattern of any items of a kind."""
    return f"Items::{kind.case} {{ .. }}" if kind.has_fields else f"Items::{kind.case}(_)"


def arms(kinds: Iterable[Kind], arm: Callable[[Kind], str]) -> str:
    return "".join(map(arm, kinds))


def one_of(patterns: list[str], indent: str) -> str:
    """Returns a pattern of several, one a line."""
    return f"\n{indent}| ".join(patterns)


def of_customs(kinds: list[Kind], verbs: Iterable[str], words: str = "") -> str:
    """Returns the `use` of these calls on custom sections, and of the types in `words`."""
    types = set(re.findall(r"(?<!')\b(?!Vec\b)[A-Z]\w+", words))
    names = [*sorted(types), *(f"{verb}_{stem}" for verb in verbs for stem in sorted(it.stem for it in kinds if it.is_custom))]
    lines = [""]
    for name in names:
        if len(f"    {lines[-1]} {name},") >= WIDTH:
            lines.append("")
        lines[-1] += f"{' ' if lines[-1] else ''}{name},"
    return "use wasm_custom::{\n" + "".join(f"    {it}\n" for it in lines) + "};\n"


def regions(kinds: list[Kind]) -> dict[str, list[Region]]:
    """Returns the regions of sources."""
    built = [f"SectionKind::{it.case}" for it in kinds if it.grammars == "builders"]
    kept = [any_of(it) for it in kinds if not it.is_mapped]
    by_kind, by_items = "    match kind {", "    match items {"
    return {
        "crates/wasm_reader/src/kinds.rt": [
            Region(("use wasm_code::Body;",), of_customs(kinds, ("append", "read"), " ".join(it.value for it in kinds if it.is_custom))),
            Region(("    pub fn numbered(", "        match number {"), "".join(f"            {n} => Some(SectionKind::{it.case}),\n" for n, it in enumerate(kinds))),
            Region(("    pub fn kind(&self)", "        match self {"), "".join(f"            {any_of(it)} => SectionKind::{it.case},\n" for it in kinds)),
            Region(("pub(crate) fn kind_of_id(", "    match id {"), "".join(f"        {n} => SectionKind::{it.case},\n" for n, it in with_ids(kinds))),
            Region(("fn kind_of_whole_name(", "    match name {"), "".join(f'        "{it.name}" => SectionKind::{it.case},\n' for it in named(kinds))),
            Region(("pub(crate) fn read_content<", by_kind), arms(kinds, read_arm)),
            Region(("pub fn encode_items<", by_items), arms(kinds, encoded_arm)),
        ],
        "crates/wasm_reader/src/walk.rt": [
            Region(("use wasm_code::Body;",), of_customs(kinds, ("walk",))),
            Region(("pub(crate) fn walk_content<", by_kind), arms(kinds, walked_arm)),
            Region(
                ("pub(crate) fn count_content<", by_kind),
                "".join(f"        SectionKind::{it.case} => count_members::<{it.member}, A, G>(bytes, alloc),\n" for it in kinds if it.is_vector),
            ),
        ],
        "crates/wasm_remap/src/remove.rt": [
            Region(("fn trim<", "        Items::Names("), f"        {one_of([any_of(it) for it in kinds if it.case not in TRIMMED], ' ' * 8)} => {{}}\n"),
        ],
        "crates/wasm_remap/src/items.rt": [
            Region(("fn remap_content<", "        Items::Relocations {"), f"        {one_of(kept, ' ' * 8)} => Ok(()),\n"),
            Region(("fn is_minimal_when_built(", "{"), f"    !matches!(\n        kind,\n        {one_of(built, ' ' * 12)}\n    )\n"),
        ],
        "tests/wasm_reader_sections_tests/src/numbers.rtt": [
            Region(("fn numbered(",), "".join(number_test(n, it) for n, it in enumerate(kinds)) + f"    assert_eq!(rt; SectionKind::numbered({len(kinds)}), None);\n"),
        ],
        "crates/wasm_c/include/dolzhytik.h": [
            Region(("   section as its name and data", "enum dz_kind {"), "".join(f"    DZ_{it.snake.upper()}{',' if it != kinds[-1] else ''}\n" for it in kinds)),
        ],
        "fuzz/grammar.rs": [
            Region(("/// The kinds of sections, in the order",), f"pub const KINDS: [&str; {len(kinds)}] = [\n" + "".join(f'    "{it.case}",\n' for it in kinds) + "];\n"),
        ],
        "fuzz/whole.rs": [
            Region(("    pub fn kind(&self)", "        match (self.id, self.name) {"), known_to_fuzzer(kinds)),
        ],
    }


def number_test(number: int, kind: Kind) -> str:
    line = f"    assert_eq!(rt; SectionKind::numbered({number}), Some(SectionKind::{kind.case}));\n"
    if len(line) <= 81:
        return line
    return f"    assert_eq!(rt;\n        SectionKind::numbered({number}),\n        Some(SectionKind::{kind.case})\n    );\n"


def known_to_fuzzer(kinds: list[Kind]) -> str:
    """Returns the arms of an id and a name."""
    rows = [(f'(0, Some("{it.name}"))', it.case) for it in kinds if it.name]
    rows += [(f'(0, Some(name)) if name.starts_with("{it.prefix}")', it.case) for it in kinds if it.prefix]
    rows += [("(0, _)", "Custom"), *((f"({it.id}, _)", it.case) for it in sorted((it for it in kinds if it.id is not None), key=lambda it: it.id or 0))]
    return "".join(f'            {pattern} => "{case}",\n' for pattern, case in rows)
