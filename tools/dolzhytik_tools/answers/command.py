"""Writes or compares the proof files of crates of callers."""
from __future__ import annotations

import pathlib
import sys
from collections.abc import Callable, Iterator, Sequence
from dataclasses import dataclass

from ..errors import Stop
from ..instructions import table
from ..rattle.facades import Facades
from ..repository import TOP, text_of
from .caller import Caller
from .draft import Draft
from .import_check import Imports, troubles
from .instruction_terms import NoSuchCall
from .proof import MARK
from .tables import EXAMPLES
from .read_back import read_back, reads_back
from .sources import Crate, Function

Say = Callable[[str], object]


@dataclass(frozen=True)
class Answer:
    """The proof file of a function: its path, and its text or why the tool writes none: it does not
    know a form at a line of the source, or the function is wrong: it calls what is not there, or
    its items differ from those of the clause."""

    function: Function
    path: pathlib.Path
    text: str | None
    trouble: str = ""
    line: int = 0
    is_wrong: bool = False

    @property
    def where(self) -> str:
        source = self.function.source
        line = ":%d" % self.line if self.line else ""
        return "%s%s: %s" % (source.path.relative_to(source.crate.folder), line, self.function.name)


@dataclass
class Counts:
    """The numbers of files that are as the tool writes them, and of others."""

    passed: int = 0
    failed: int = 0

    def add(self, is_passed: bool) -> None:
        self.passed += is_passed
        self.failed += not is_passed


def cases_by_call(top: pathlib.Path | None = None) -> dict[str, table.Case]:
    """Returns the instructions by the names of their calls."""
    return {it.call: it for it in table.read(text_of((top or TOP) / table.TABLE))}


def answers(crate: Crate, cases: dict[str, table.Case], facades: Facades) -> Iterator[Answer]:
    """Yields the answer of each function with a clause."""
    for source in crate.sources.values():
        for function in source.functions.values():
            if function.ensures:
                path = crate.folder.joinpath("proofs", *source.module, function.name, "Answers.antt")
                yield answer(crate, function, path, cases, facades)


def answer(crate: Crate, function: Function, path: pathlib.Path, cases: dict[str, table.Case], facades: Facades) -> Answer:
    caller, line = None, function.ensures[0].line
    try:
        if reads_back(function):
            return Answer(function, path, facades.turn(crate.name, read_back(function)))
        caller = Caller(crate, function, cases)
        text = caller.answer()
        found = caller.difference()
        if found:
            return Answer(function, path, None, found.text, found.line, True)
        return Answer(function, path, facades.turn(crate.name, text))
    except NoSuchCall as stop:
        return Answer(function, path, None, str(stop), caller.line if caller else line, True)
    except Stop as stop:
        return Answer(function, path, None, with_example(str(stop)), caller.line if caller else line)
    except (KeyError, IndexError, ValueError):
        return Answer(function, path, None, "a call with other arguments than the tool knows", caller.line if caller else line)


def with_example(trouble: str) -> str:
    """Returns a report with the example that does what the tool does not know, if there is one."""
    example = next((it for begin, it in EXAMPLES.items() if trouble.startswith(begin)), None)
    return "%s: copy %s" % (trouble, example) if example else trouble


def is_own(text: str | None) -> bool:
    """Returns whether the tool wrote a file."""
    return text is not None and text.split("\n")[0] == MARK


def settle(answer: Answer, is_check: bool, counts: Counts, say: Say) -> None:
    """Writes a file or compares it, and reports it."""
    old = text_of(answer.path) if answer.path.is_file() else None
    is_by_hand = old is not None and not is_own(old)
    if answer.is_wrong:
        counts.failed += 1
        say("%s: %s" % (answer.where, answer.trouble))
    elif answer.text is None:
        say("%s: left%s: %s" % (answer.where, " (its proof is written by hand)" if is_by_hand else "", answer.trouble))
    elif is_by_hand:
        say("%s: its proof is written by hand, and stays" % answer.where)
    elif is_check:
        counts.add(old == answer.text)
        if old != answer.text:
            say("%s: %s differs from what the tool writes" % (answer.where, answer.path.relative_to(answer.function.source.crate.folder)))
    elif old == answer.text:
        say("%s: unchanged" % answer.where)
    else:
        answer.path.parent.mkdir(parents=True, exist_ok=True)
        answer.path.write_text(answer.text, encoding="utf-8")
        say("%s: written" % answer.where)


def report_left_over(crate: Crate, written: set[pathlib.Path], counts: Counts, say: Say) -> None:
    """Reports files that the tool wrote, and would not write today."""
    for path in sorted((crate.folder / "proofs").rglob("Answers.antt")):
        if path not in written and is_own(text_of(path)):
            say("%s: the tool does not write this file any more: remove it, or remove its first line to keep it as your own" % path.relative_to(crate.folder))
            counts.failed += 1


def run(names: Sequence[str], is_check: bool, top: pathlib.Path | None = None, say: Say = print) -> int:
    """Writes or compares the files of crates, and returns the exit status."""
    counts, cases, facades, imports = Counts(), cases_by_call(top), Facades(top or TOP), Imports(top or TOP)
    for name in names:
        crate, written = Crate(name, top), set()
        for it in troubles(crate, imports):
            say("%s:%d: %s" % (it.path.relative_to(crate.folder), it.line, it.text))
            counts.failed += 1
        for it in answers(crate, cases, facades):
            settle(it, is_check, counts, say)
            if it.text is not None or it.is_wrong:
                written.add(it.path)
        report_left_over(crate, written, counts, say)
    if is_check:
        say("%d passed, %d failed" % (counts.passed, counts.failed))
    return 1 if counts.failed else 0


def draft(name: str, top: pathlib.Path | None = None) -> str:
    """Returns a draft of the definitions that the clauses of a crate name."""
    return Draft(Crate(name, top), cases_by_call(top), Facades(top or TOP)).text()


def main(words: Sequence[str], usage: str) -> int:
    """Runs the command. `usage` is the head of its script."""
    names = [it for it in words if it not in ("--check", "--draft")]
    is_draft = "--draft" in words
    if not names or any(it.startswith("-") for it in names) or (is_draft and ("--check" in words or len(names) > 1)):
        print(usage.split("\n\n")[1], file=sys.stderr)
        return 2
    try:
        if is_draft:
            print(draft(names[0]), end="")
            return 0
        return run(names, "--check" in words)
    except Stop as stop:
        print("answers: %s" % stop, file=sys.stderr)
        return 2
