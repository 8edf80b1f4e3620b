"""Tests of tools/instructions: lines of the table at which it stops, and the files that change with
a line, a source and the lines around a region."""
from __future__ import annotations

import pathlib
import shutil
import tempfile

from ..errors import Stop
from ..instructions.command import main as main_of_tool
from ..instructions.files import CRATE, READER, TESTS, generated, regions
from ..instructions.regions import filled
from ..instructions.table import TABLE, read
from ..repository import TOP, text_of
from .report import end as end_of
from .report import report, usage_of

USAGE = usage_of("instructions")

# Bad lines: a name, a line of the table and its change.
BAD = [
    ("an unknown layout", "0C\tBr\tu\t\tbr\tlabel", "0C\tBr\tw\t\tbr\tlabel"),
    ("an op of one digit", "01\tNop\t-\t\tnop", "1\tNop\t-\t\tnop"),
    ("a prefix alone", "E6\tSwitch", "FB\tSwitch"),
    ("an unknown prefix", "FE 4\tPause", "FF 4\tPause"),
    ("a repeated op", "01\tNop\t-\t\tnop", "00\tNop\t-\t\tnop"),
    ("a repeated op after a prefix", "FB 1\tStructNewDefault", "FB 0\tStructNewDefault"),
    ("an op before the one above it", "0B\tEnd\t-\t\tend", "09\tEnd\t-\t\tend"),
    ("two cases of one name", "01\tNop\t-\t\tnop", "01\tUnreachable\t-\t\tnop"),
    ("two calls of one name", "01\tNop\t-\t\tnop", "01\tNop\t-\t\tunreachable"),
    ("a case that is no name", "01\tNop\t-\t\tnop", "01\tnop\t-\t\tnop"),
    ("a field of no known index space", "ArrayNewFixed\tuu\tarray_type_index array_size", "ArrayNewFixed\tuu\tarray_type_index array_length"),
    ("a parameter that is missing", "0C\tBr\tu\t\tbr\tlabel", "0C\tBr\tu\t\tbr"),
    ("a parameter too many", "01\tNop\t-\t\tnop", "01\tNop\t-\t\tnop\tlabel"),
    ("a field that is missing", "uu\tdata_index mem\t", "uu\tdata_index\t"),
    ("a parameter that is no field", "\tcall_indirect\ttable_index type_index", "\tcall_indirect\ttable_index type"),
    ("fields in Rust that are others", "dst_mem src_mem\tmemory_copy\t\tsrc_mem dst_mem", "dst_mem src_mem\tmemory_copy\t\tsrc_mem dst"),
    ("an unknown form", "\ttyped_select\tty\t\tone", "\ttyped_select\tty\t\tmany"),
    ("a form of another layout", "0C\tBr\tu\t\tbr\tlabel", "0C\tBr\tu\t\tbr\tlabel\t\tone"),
    ("a column too many", "\ttyped_select\tty\t\tone", "\ttyped_select\tty\t\tone\tmore"),
    ("a case for which there is no room", "FD 0\tV128Load\t", "FC 23\tTableDiscard\tuu\tfrom to\ttable_discard\nFD 0\tV128Load\t"),
    ("another head", "op\tcase", "case\top"),
]
OWN = {"src/instruction.rt", "src/ranged.rt", "specs/Instructions.antt"}
ROWS = {"specs/Cases.antt", "cases.rtt", "rows.rtt"}
OPS = {"src/table.rt", "specs/Table.antt"}
NUMBERS = {"src/prefixed_numeric.rt", "specs/PrefixedNumeric.antt"}
CASES, OPCODES = {"src/by_opcode.rt"}, {"src/by_opcode.rt", "proofs/ByOpcode.antt"}
# Good lines: a name, a line of the table, its change, and the files that change with it.
GOOD = [
    ("another name", "01\tNop\t", "01\tNothing\t", OWN | ROWS | CASES),
    ("another number", "FC 22\tI64MulWideU", "FC 23\tI64MulWideU", NUMBERS | OPS | OPCODES | {"rows.rtt"}),
    ("another layout", "D5\tBrOnNull\tu", "D5\tBrOnNull\th", OWN | ROWS | OPS | OPCODES),
    ("another name of a field", "ArrayNewFixed\tuu\tarray_type_index array_size", "ArrayNewFixed\tuu\tarray_type_index field_index", {"src/instruction.rt", "src/ranged.rt", "cases.rtt"} | CASES),
    ("another call", "01\tNop\t-\t\tnop", "01\tNop\t-\t\tnothing", set()),
    ("an instruction in the place of another", "D6\tBrOnNonNull\tu\t\tbr_on_non_null\tlabel", "D7\tRefTo\tuu\tlabel local_index\tref_to", OWN | ROWS | OPS | OPCODES),
    ("a new numeric instruction", "FD 0\tV128Load\t", "FC 23\tI64Old\t-\t\ti64_old\nFD 0\tV128Load\t", NUMBERS | ROWS | OPS | OPCODES),
    ("a new vector instruction with fields", "FE 0\tMemoryAtomicNotify", "FD 276\tV128Load16Zero\tm\t\tv128_load16_zero\tmemarg\nFE 0\tMemoryAtomicNotify",
     {"src/vector_immediate.rt", "specs/VectorImmediate.antt"} | ROWS | OPS | OPCODES),
    ("a new atomic instruction", "FE 16\tI32AtomicLoad\t", "FE 5\tPauseOf\to\t\tpause_of\tordering\nFE 16\tI32AtomicLoad\t", {"src/atomic.rt", "src/ranged.rt", "specs/Atomic.antt"} | ROWS | OPS | OPCODES),
]


def table() -> str:
    return text_of(TOP / TABLE)


def changed(old: str, new: str) -> tuple[str, int]:
    """Returns the table with another line, and the number of that line."""
    text = table()
    assert text.count(old) == 1, (old, text.count(old))
    return text.replace(old, new), text[: text.index(old)].count("\n") + 1


def bad_trouble(old: str, new: str) -> str | None:
    text, line = changed(old, new)
    try:
        generated(TOP, read(text))
    except Stop as stop:
        return None if str(stop).startswith(f"{TABLE}:{line}: ") else f"it was told as {stop}"
    return "it was not stopped at"


def files() -> dict[str, str]:
    return generated(TOP, read(table()))


def folder_of(path: str) -> str:
    return TESTS if path.endswith(".rtt") else READER if path in OPCODES else CRATE


def good_trouble(old: str, new: str, named: set[str]) -> str | None:
    before, made = files(), generated(TOP, read(changed(old, new)[0]))
    wanted = {f"{folder_of(it)}/{it}" for it in named}
    wrong = wanted ^ {path for path in made if made[path] != before[path]}
    return f"too many or too few are {sorted(wrong)}" if wrong else None


class Room:
    """A repository with the files that the tool writes, and the table."""

    def __init__(self, folder: str):
        self.top = pathlib.Path(folder)
        for path in (*files(), TABLE):
            (self.top / path).parent.mkdir(parents=True, exist_ok=True)
            shutil.copy(TOP / path, self.top / path)

    def change(self, path: str, old: str, new: str) -> None:
        text = text_of(self.top / path)
        assert old in text, (path, old)
        (self.top / path).write_text(text.replace(old, new), encoding="utf-8")

    def run(self, *words: str) -> int:
        return main_of_tool([*words], USAGE, self.top)


def check_trouble() -> str | None:
    """`--check` reports changed files, but no change of hand-written lines."""
    with tempfile.TemporaryDirectory() as folder:
        room = Room(folder)
        found = [room.run("--check")]
        for path, old, new in (("src/numeric.rt", "I32Eqz = 0x45", "I32Eqz = 0x46"), ("specs/Cases.antt", "cases.Nop ∷", "cases.End ∷"), ("src/table.rt", "Run(0, 1, Shape::U)", "Run(0, 2, Shape::U)")):
            room.change(f"{CRATE}/{path}", old, new)
            found += [room.run("--check"), room.run(), room.run("--check")]
        room.change(f"{CRATE}/src/instruction.rt", "/// without fields also have a constant here", "/// without fields have a constant here")
        found += [room.run("--check"), room.run("--check", "again")]
    return None if found == [0, *[1, 0, 0] * 3, 0, 2] else f"the answers were {found}"


def place_trouble() -> str | None:
    """A missing or repeated line around a region is reported with the file and a line."""
    path = f"{CRATE}/src/ranged.rt"
    text = text_of(TOP / path)
    places = regions(read(table()))["src/ranged.rt"]
    begin, end = (f"            // {it}: written by tools/instructions\n" for it in ("begin", "end"))
    bad_texts = {
        "the first line before a region": text.replace("impl Ranged for Atomic {", "impl Ranges for Atomic {"),
        "that line twice": text + "impl Ranged for Atomic {}\n",
        "the second line before a region": text.replace("    match instruction {", "    match it {"),
        "no begin": text.replace(begin, "", 1),
        "no end": text.replace(end, "", 1),
        "no region": text.replace(begin, "", 1).replace(end, "", 1),
        "two begins": text.replace(begin, begin * 2, 1),
        "two ends": text.replace(end, end * 2, 1),
        "an end before its begin": text.replace(begin, "@", 1).replace(end, begin, 1).replace("@", end, 1),
        "a region more": text + begin + end,
        "a line before the begin": text.replace(begin, "            // A line.\n" + begin, 1),
    }
    for name, bad in bad_texts.items():
        try:
            filled(path, bad, places)
            return f"it was not stopped at: {name}"
        except Stop as stop:
            if not str(stop).startswith(f"{path}:"):
                return f"it was told as {stop}"
    return None


def long_trouble() -> str | None:
    """A line that `rt fmt` would lay out in another way stops the tool."""
    try:
        generated(TOP, read(changed("\tRefCastDescEqNonNull\t", f"\tRefCast{'Long' * 20}\t")[0]))
        return "it was not stopped at"
    except Stop:
        return None


def main() -> int:
    """Runs the tests."""
    troubles = {"touched files": check_trouble(), "a place that is not there once": place_trouble(), "a long line": long_trouble()}
    troubles.update({f"bad input: {name}": bad_trouble(old, new) for name, old, new in BAD})
    troubles.update({f"what {name} changes": good_trouble(*it) for name, *it in GOOD})
    return end_of([report("instructions-test", *it) for it in troubles.items()])
