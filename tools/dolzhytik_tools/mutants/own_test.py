"""The test of the tool on mutants of which some must be reported, and of the ledger on small
files."""
from __future__ import annotations

import argparse
import os
import tempfile
from datetime import date

from ..rattle.functions import functions_of
from ..repository import text_of
from . import checksums, ledger
from .crates import Repository, build_below, words_of
from .edits import Edit, edits_of
from .judging import judging
from .say import say
from .trying import Tries

OWN_TEST = ("tools/wrong-bodies-test", "wasm_immediates")
GOOD_FILE = "file: src/a/b.rt\n\n== one\nold: x\nnew: y\n\n== two\nafter: z\nold: x\nnew:\n"
# Changes of it, and the line at which the tool stops.
BAD_FILES = {
    ("file: src/a/b.rt", "file: src/b.rt"): 1,
    ("file: src/a/b.rt", "== none"): 1,
    ("== one", "== one, and more"): 3,
    ("== one\nold: x", "== one"): 3,
    ("== one\n", "== one\nfile: src/b.rt\n"): 3,
    ("new: y", "new: y\nold: z"): 3,
    ("old: x\nnew: y", "one: x\nnew: y"): 4,
    ("after: z", "a remark"): 8,
    ("== two", "== one"): 7,
}


def read_of(text: str, name: str = "a-b.edits") -> dict[str, str] | str:
    """Returns the mutants of a file by their names, or the message of the tool."""
    with tempfile.TemporaryDirectory(prefix="wrong-bodies-") as top:
        os.makedirs(f"{top}/mutants/public")
        with open(f"{top}/mutants/public/{name}", "w", encoding="utf-8") as file:
            file.write(text)
        try:
            return {it.label: it.text for it in edits_of("crate", top)["public"]}
        except SystemExit as stopped:
            return str(stopped).replace(f"{top}/mutants/public/", "")


def reads_files_of_edits() -> bool:
    """Returns whether mutants do not depend on others of their file, and bad files are reported
    with the line."""
    both = read_of(GOOD_FILE)
    one, two = (read_of(GOOD_FILE.replace(it, "")) for it in ("\n== two\nafter: z\nold: x\nnew:\n", "\n== one\nold: x\nnew: y\n"))
    stops = all(str(read_of(GOOD_FILE.replace(*it))).startswith(f"wrong-bodies: a-b.edits:{line}: ") for it, line in BAD_FILES.items())
    return both == {**one, **two} and list(both) == ["crate/one", "crate/two"] and stops and "no file of edits" in read_of(GOOD_FILE, "one.edit")


# A crate whose function `add` has a mutant, and one below it. Then changes of a file, and whether
# the mutant's checksum must change: `add` names `one`, `STEP` and `Low`, and `?` calls `from`.
LOW = """/// Adds one.
pub fn one(n: u32) -> u32
    ensures { result ≡ n + 1 }
{
    n + 1
}

pub fn two(n: u32) -> u32
    ensures { result ≡ n + 2 }
{
    n + 2
}

fn more(n: u32) -> u32
    ensures { result ≡ n + 3 }
{
    n + 3
}
"""
TOP = """use low::one;
const STEP: u32 = 1;
const SPARE: u32 = 1;
pub struct Fault;

impl From<u8> for Fault {
    fn from(code: u8) -> Fault
        ensures { result ≡ fault }
    {
        Fault
    }
}

#[cycle(sums)]
pub fn add(n: u32) -> Result<u32, Fault>
    ensures { result ≡ n + Low }
{
    n + one(STEP)?
}

fn other(n: u32) -> u32 {
    n // same
}

#[cycle(sums)]
fn more(n: u32) -> u32 {
    add(n)
}
"""
SMALL_FILES = {
    "low/src/lib.rt": LOW,
    "low/specs/Lib.antt": "-- A number.\nabbrev Low := Named\n\nabbrev Named := 1\n\nabbrev Spare := 3\n",
    "low/proofs/one/Answers.antt": "one\n",
    "low/proofs/Laws.antt": "a lemma\n",
    "top/src/lib.rt": TOP,
    "top/proofs/add/Answers.antt": "add\n",
    "top/proofs/other/Answers.antt": "other\n",
    "top/proofs/+sums/Answers.antt": "sums\n",
    "top/proofs/Laws.antt": "a lemma\n",
}
SMALL_CHANGES = [
    ("low/src/lib.rt", "    n + 1\n", "    1 + n\n", False),
    ("low/src/lib.rt", "/// Adds one.", "/// Adds 1.", False),
    ("low/src/lib.rt", "≡ n + 1", "≡ 1 + n", True),
    ("low/src/lib.rt", "≡ n + 2", "≡ 2 + n", False),
    ("low/src/lib.rt", "≡ n + 3", "≡ 3 + n", False),
    ("low/specs/Lib.antt", "Named := 1", "Named := 2", True),
    ("low/specs/Lib.antt", "Spare := 3", "Spare := 4", False),
    ("low/specs/Lib.antt", "A number", "One", False),
    ("low/proofs/one/Answers.antt", "one", "two", False),
    ("low/proofs/Laws.antt", "lemma", "law", False),
    ("top/src/lib.rt", "// same", "// the same", False),
    ("top/src/lib.rt", "{\n    n //", "{\n    0 //", False),
    ("top/src/lib.rt", "fn other(n: u32)", "fn other(n: u64)", False),
    ("top/src/lib.rt", "fn more(n: u32)", "fn more(n: u64)", True),
    ("top/src/lib.rt", "pub fn add", "#[inline]\npub fn add", False),
    ("top/src/lib.rt", "STEP: u32 = 1", "STEP: u32 = 2", True),
    ("top/src/lib.rt", "SPARE: u32 = 1", "SPARE: u32 = 2", False),
    ("top/src/lib.rt", "≡ fault", "≡ another", True),
    ("top/src/lib.rt", "    n + one(STEP)", "    one(STEP) + n", True),
    ("top/src/lib.rt", "≡ n + Low", "≡ Low + n", True),
    ("top/proofs/add/Answers.antt", "add", "sum", True),
    ("top/proofs/other/Answers.antt", "other", "others", False),
    ("top/proofs/+sums/Answers.antt", "sums", "all", True),
    ("top/src/lib.rt", "    add(n)\n", "    add(0)\n", True),
    ("top/proofs/Laws.antt", "lemma", "law", False),
]


def small_sum(old: str = "", new: str = "", changed: str = "", text: str ="file: src/lib.rt\nold: n\nnew: 0\n") -> str:
    """Returns the checksum of the mutant of the small crate, with one text of a file replaced."""
    with tempfile.TemporaryDirectory(prefix="wrong-bodies-") as room:
        for path, content in SMALL_FILES.items():
            os.makedirs(os.path.dirname(f"{room}/{path}"), exist_ok=True)
            with open(f"{room}/{path}", "w", encoding="utf-8") as file:
                file.write(content.replace(old, new) if path == changed else content)
        source = text_of(f"{room}/top/src/lib.rt")
        target = next(it for it, *_ in functions_of("src/lib.rt", source) if it.name == "add")
        return checksums.sum_of(checksums.CrateFolders(f"{room}/top", [f"{room}/low"], ([], ["low"])), Edit("top/add", text, target=target), judging())


def ledger_covers_what_matters() -> bool:
    """Returns whether a checksum changes with everything that a verdict depends on, and nothing
    else."""
    same = small_sum()
    applies = all(old in SMALL_FILES[path] for path, old, _, _ in SMALL_CHANGES)
    covered = all((small_sum(old, new, path) != same) == matters for path, old, new, matters in SMALL_CHANGES)
    return applies and covered and same == small_sum() and same != small_sum(text="file: src/lib.rt\nold: n\nnew: 1\n")


def days_share_all() -> bool:
    """Returns whether twenty consecutive days try each line of the ledger once, in shares of one
    size."""
    names = [str(it) for it in range(813)]
    shares = [ledger.share_of(names, date.fromordinal(738000 + day)) for day in range(ledger.SHARES)]
    return sorted(it for share in shares for it in share) == sorted(names) and {len(it) for it in shares} == {40, 41}


def ledger_keeps_lines() -> bool:
    """Returns whether a record replaces the lines of tried mutants, drops those of removed ones,
    and keeps the others."""
    with tempfile.TemporaryDirectory(prefix="wrong-bodies-") as room:
        file = ledger.Ledger(f"{room}/ledger")
        one, two = "1" * 32, "2" * 32
        file.record("a", {"a/one", "a/two"}, {"a/one": one, "a/two": two})
        file.record("b", {"b/one"}, {"b/one": one})
        file.record("a", {"a/one", "a/new"}, {"a/one": "", "a/new": two})
        return file.lines() == {"a/new": two, "b/one": one}


def own_test(repository: Repository, args: argparse.Namespace) -> tuple[int, int]:
    """Tries the mutants of the test. Returns how many cases passed and failed."""
    folder, name = OWN_TEST
    wanted = {it: kind == "rejected" for kind, edits in edits_of(name, folder, ("rejected", "reported")).items() for it in edits}
    build_below(repository, [name])
    Tries(name, words_of(repository, name), args).judge([*wanted])
    wrong = [it for it, is_rejected in wanted.items() if it.is_rejected != is_rejected]
    for it in wrong if not args.verbose else wanted:
        say(f"own test: {it.label}: {'rejected' if it.is_rejected else 'reported'}{', and should not be' * (it in wrong)}: {it.said}")
    holds = {
        "a file of mutants is not read as it should be": reads_files_of_edits(),
        "a checksum of the ledger does not cover what it should": ledger_covers_what_matters(),
        "some lines of the ledger are not tried again, or too many": days_share_all(),
        "a line of the ledger is lost, or is not removed": ledger_keeps_lines(),
    }
    for it in holds:
        if not holds[it]:
            say(f"own test: {it}")
    passed = len(wanted) - len(wrong) + sum(holds.values())
    return passed, len(wanted) + len(holds) - passed
