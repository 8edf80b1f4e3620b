"""Tests of tools/kinds: lines of the table at which it stops, what a new kind changes and lacks, and
missing rows and marks of each file."""
from __future__ import annotations

import contextlib
import io
import pathlib
import shutil
import tempfile

from ..errors import Stop
from ..instructions.regions import Marks, filled
from ..kinds.command import TOOL, generated, regions
from ..kinds.command import main as main_of_tool
from ..kinds.places import KINDS, PLACES, built, holds_offsets, missing
from ..kinds.table import TABLE, Kind, read
from ..repository import TOP, text_of
from .report import end as end_of
from .report import report, usage_of

USAGE = usage_of("kinds")

# Bad lines: a name, a text of the table and its change.
BAD = [
    ("another head", "case\tknown by", "known by\tcase"),
    ("a column that is missing", "\tx.now\tsource_map_whole", "\tsource_map_whole"),
    ("an empty column", "\tdylink_section.whole\t", "\t\t"),
    ("a case that is no name", "Tags\tid Tag", "tags\tid Tag"),
    ("two cases of one name", "Dylink\tdylink.0", "BuildId\tdylink.0"),
    ("an unknown id", "id Memory", "id Memories"),
    ("a repeated id", "id Memory", "id Table"),
    ("a repeated name", "\tcoremodules\t", "\tcore\t"),
    ("a repeated stem", "\tlinks\t", "\tnames\t"),
    ("a repeated payload", "\tmodules_payload\t", "\tinstances_payload\t"),
    ("a stem that is no name", "\tfeatures\t-", "\tFeatures\t-"),
    ("a custom section without a stem", "\tfeatures\t-", "\t-\t-"),
    ("a stem without a call", "A>\tsegments\tread", "A>\tsegments\t-"),
    ("unknown calls", "\trecords\tboth\txs", "\twrites\tboth\txs"),
    ("calls of a custom section", "\tfeatures\t-", "\tfeatures\tread"),
    ("unknown grammars", "\tboth\tmap (remapped_export m) xs", "\tstandard\tmap (remapped_export m) xs"),
    ("a custom section that is no payload", "\tfeatures_payload\t", "\tvec feature\t"),
    ("a vector in one column", "\tvec table_item\t", "\ttable_item\t"),
    ("unknown offsets", "map (remapped_link m) xs\tcode", "map (remapped_link m) xs\tdata"),
    ("offsets of a section with an id", "map (remapped_tag m) xs\t-", "map (remapped_tag m) xs\tcode"),
    ("code metadata without offsets", "map (remapped_hints m) xs\tcode", "map (remapped_hints m) xs\t-"),
    ("a content that is not mapped", "\tmap (remapped_tag m) xs", "\tmap (remapped_tag m)"),
]
# A new kind, and the files in which it lacks a row by hand.
NEW = "Traces\tmetadata.code.trace_inst\tList Trace\ttraces_payload\tmap traces_view v.items\ttraces_section.whole\tVec<(u32, u32), A>\ttraces\t-\tboth\txs\tcode\n"
LACKS = {KINDS, *(it.path for it in PLACES if it.of not in (built, holds_offsets))}


def table() -> str:
    return text_of(TOP / TABLE)


def kinds() -> list[Kind]:
    return read(table())


def bad_trouble(old: str, new: str) -> str | None:
    text = table()
    assert old in text, old
    line = text[: text.index(old)].count("\n") + 1
    try:
        read(text.replace(old, new, 1))
    except Stop as stop:
        # The second of two equal texts is reported.
        told = str(stop)
        return None if told.startswith(f"{TABLE}:{line}: ") or " is also that of " in told else f"it was told as {told}"
    return "it was not stopped at"


class Room:
    """A repository with the files that the tool reads."""

    def __init__(self, folder: str):
        self.top = pathlib.Path(folder)
        for path in {*regions(kinds()), *(it.path for it in PLACES), TABLE}:
            (self.top / path).parent.mkdir(parents=True, exist_ok=True)
            shutil.copy(TOP / path, self.top / path)

    def change(self, path: str, old: str, new: str, count: int = -1) -> None:
        text = text_of(self.top / path)
        assert old in text, (path, old)
        (self.top / path).write_text(text.replace(old, new, count), encoding="utf-8")

    def run(self, *words: str) -> tuple[int, list[str]]:
        """Returns the exit status and the lines."""
        with contextlib.redirect_stdout(io.StringIO()) as out, contextlib.redirect_stderr(out):
            status = main_of_tool([*words], USAGE, self.top)
        return status, out.getvalue().splitlines()


def check_trouble() -> str | None:
    """`--check` reports a row of a region that is missing or in another place, and the tool writes it."""
    with tempfile.TemporaryDirectory() as folder:
        room = Room(folder)
        found = [room.run("--check")[0]]
        for path, old, new in (
            ("crates/wasm_reader/src/kinds.rt", '        "build_id" => SectionKind::BuildId,\n', ""),
            ("crates/wasm_reader/specs/Kinds.antt", "kind_in (Tags xs) = kinds.Tags\n", ""),
            ("crates/wasm_c/include/dolzhytik.h", "    DZ_BUILD_ID,\n    DZ_DYLINK,\n", "    DZ_DYLINK,\n    DZ_BUILD_ID,\n"),
        ):
            room.change(path, old, new)
            status, lines = room.run("--check")
            if f"kinds: {path} is not what is written" not in lines or not lines[-1].endswith(" passed, 1 failed"):
                return f"{path}: {lines}"
            found += [status, room.run()[0], room.run("--check")[0]]
        found += [room.run("--check", "again")[0]]
    return None if found == [0, *[1, 0, 0] * 3, 2] else f"the answers were {found}"


def order_trouble() -> str | None:
    """Rows of the table in another order than the enum are reported, with their position."""
    with tempfile.TemporaryDirectory() as folder:
        room = Room(folder)
        lines = table().split("\n")
        lines[5], lines[6] = lines[6], lines[5]
        (room.top / TABLE).write_text("\n".join(lines), encoding="utf-8")
        status, said = room.run()
    wanted = f"kinds: {KINDS}: 'Exports' at 4 of SectionKind, and 'Functions' in {TABLE}"
    return None if status == 1 and wanted in said else f"{status}: {said}"


def new_trouble() -> str | None:
    """A new kind changes each file of regions, and is missing in each place by hand."""
    made, wanted = read(table() + NEW), set(regions(kinds()))
    before = generated(TOP, kinds())
    same = {path for path, text in generated(TOP, made).items() if text == before[path]} & wanted
    lacks = {it.partition(":")[0] for it in missing(TOP, made)}
    return f"not changed: {sorted(same)}, missing in: {sorted(lacks)}" if same or lacks != LACKS else None


def row_trouble() -> str | None:
    """Each row by hand that is removed is reported."""
    for place in PLACES:
        texts = place.texts(kinds())
        text = next(iter(texts))
        with tempfile.TemporaryDirectory() as folder:
            room = Room(folder)
            room.change(place.path, text, "")
            status, said = room.run("--check")
        if status != 1 or f"kinds: {place.path}: no '{text}', which {texts[text]} must have there" not in said:
            return f"{place.path} without '{text}': {said}"
    return None


def stem_trouble() -> str | None:
    """A stem without its calls is reported."""
    made = read(table().replace("\tfeatures\t-", "\tfeature\t-"))
    said = list(missing(TOP, made))
    return None if "crates/wasm_custom/src/lib.rt: no '::read_feature;', which TargetFeatures must have there" in said else str(said)


def type_trouble() -> str | None:
    """A type that is not that of `Items` is reported."""
    said = list(missing(TOP, read(table().replace("Vec<TagType, A>", "Vec<Tag, A>"))))
    return None if said == [f"{KINDS}: 'Tags(Vec<TagType, A>)' at 11 of Items, and 'Tags(Vec<Tag, A>)' in {TABLE}"] else str(said)


def mark_trouble() -> str | None:
    """A file without one of its marks, or without the line before one, stops the tool."""
    for path, found in regions(kinds()).items():
        text, marks = text_of(TOP / path), Marks.of(path, TOOL)
        first = found[0].behind[0]
        for name, bad in {"no begin": text.replace(marks.begin, "", 1), "no end": text.replace(marks.end, "", 1), "no line before": text.replace(f"\n{first}", "\n", 1)}.items():
            try:
                filled(path, bad, found, TOOL)
                return f"{path}: it was not stopped at: {name}"
            except Stop as stop:
                if not str(stop).startswith(f"{path}:"):
                    return f"{path}: it was told as {stop}"
    return None


def main() -> int:
    """Runs the tests."""
    troubles = {
        "missing rows and another order": check_trouble(),
        "the order of the enum": order_trouble(),
        "a new kind": new_trouble(),
        "rows by hand": row_trouble(),
        "an unknown stem": stem_trouble(),
        "a type": type_trouble(),
        "marks": mark_trouble(),
    }
    troubles.update({f"bad input: {name}": bad_trouble(old, new) for name, old, new in BAD})
    return end_of([report("kinds-test", *it) for it in troubles.items()])
