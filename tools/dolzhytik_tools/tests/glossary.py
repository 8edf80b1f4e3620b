"""Tests of tools/glossary: rows, the table of rows by hand, and changed files."""
from __future__ import annotations

import contextlib
import io
import pathlib
import tempfile

from ..definitions.specs import read
from ..glossary import HEAD, PAGE, TABLE, TOPICS, WRITTEN, by_hand, page
from ..glossary import main as main_of_tool
from ..repository import TOP, text_of
from .report import run_all, stops, usage_of

USAGE = usage_of("glossary")
SPECS = """-- Numbers.
use Rattle.std.specs.Prelude.{ℕ}

-- the number 1, as `one`
abbrev pub one : ℕ
one = 1

-- The mode of
-- a [number].
pub data Mode : Type 0 where
  short : Mode
  Long : Mode

abbrev pub alone : ℕ
alone = 1
"""
ROWS = "# A comment.\nfile\tword\tmeaning\nwasm_base/Numbers\tLong\tThe long mode.\nwasm_base/Numbers\tone\tThe first number.\n"
LINK = "[Numbers](../crates/wasm_base/specs/Numbers.antt)"


def page_of(specs: str, rows: str) -> tuple[str, list[str]]:
    """Returns the page of one file, and the definitions without a meaning."""
    return page("# Words\n", {"wasm_base": [read("wasm_base", "Numbers", specs, is_complete=False)]}, by_hand(rows))


def rows() -> None:
    """A row has the comment or the words of the table. Rows are in the order of the alphabet, and
    a constructor has one if the table says it."""
    text, lacking = page_of(SPECS, ROWS)
    assert text.startswith(f"{WRITTEN}# Words\n\n## `wasm_base`: {TOPICS['wasm_base']}\n\n| word |"), text
    assert text.endswith(f"|---|\n| `Long` | The long mode. | {LINK} |\n| `Mode` | The mode of a \\[number\\]. | {LINK} |\n| `one` | The first number. | {LINK} |\n"), text
    assert lacking == ["crates/wasm_base/specs/Numbers.antt: alone"], lacking
    assert f"| `one` | The number 1, as `one`. | {LINK} |\n" in page_of(SPECS, ROWS.replace("\tone\t", "\tshort\t"))[0]


def stops_at_bad_rows() -> None:
    """The tool stops at a line that names no definition, at one that the comment says too, at two
    lines for one word, and at a line without a meaning."""
    for rows, said in [
        (ROWS.replace("Long", "Wide"), f"{TABLE}: there is no definition Wide in wasm_base/Numbers"),
        (ROWS.replace("Numbers\tLong", "Names\tLong"), f"{TABLE}: there is no definition Long in wasm_base/Names"),
        (ROWS.replace("The first number.", "The number 1, as `one`."), f"{TABLE}: the comment above one of wasm_base/Numbers says the same: delete the line"),
        (ROWS + "wasm_base/Numbers\tone\tOnce more.\n", f"{TABLE}:5: one has another line"),
        (ROWS + "wasm_base/Numbers\talone\n", f"{TABLE}:5: a line has a file, a word and its meaning"),
    ]:
        assert stops(page_of, SPECS, rows) == said, (rows, said)


def touched_files() -> None:
    """`--check` reports a missing page, a changed one, and a definition without a comment."""
    with tempfile.TemporaryDirectory() as folder, contextlib.redirect_stdout(io.StringIO()) as said:
        top = pathlib.Path(folder)
        specs = top / "crates/wasm_base/specs/Numbers.antt"
        for path, text in ((specs, SPECS.replace("\nabbrev pub alone", "\n-- Alone.\nabbrev pub alone")), (top / HEAD, "# Words\n"), (top / TABLE, ROWS)):
            path.parent.mkdir(parents=True, exist_ok=True)
            path.write_text(text, encoding="utf-8")
        (top / "docs").mkdir()
        found = [main_of_tool(words, USAGE, top) for words in (["--check"], [], ["--check"])]
        (top / PAGE).write_text(text_of(top / PAGE).replace("first", "second"), encoding="utf-8")
        found += [main_of_tool(words, USAGE, top) for words in (["--check"], [], ["--check", "again"])]
        specs.write_text(SPECS, encoding="utf-8")
        found += [main_of_tool(["--check"], USAGE, top)]
    assert found == [1, 0, 0, 1, 0, 2, 1], found
    assert said.getvalue().splitlines()[2] == "glossary: crates/wasm_base/specs/Numbers.antt: alone has no comment", said.getvalue()


def repository() -> None:
    """Each library of the repository has a part of the page."""
    text = text_of(TOP / PAGE)
    assert all(f"\n## `{crate}`: {topic}\n" in text for crate, topic in TOPICS.items())


def main() -> int:
    """Runs the tests."""
    return run_all("glossary-test", (rows, stops_at_bad_rows, touched_files, repository))
