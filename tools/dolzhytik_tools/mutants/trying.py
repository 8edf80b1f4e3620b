"""Checks of mutants, many in one."""
from __future__ import annotations

import argparse
import os
import shutil
import tempfile
import time
from collections.abc import Callable

from ..rattle.functions import Function
from .crates import symbols_of
from .edits import Edit, apply
from .kit import KIT
from .processes import started
from .report import Report
from .say import say


class Tries:
    """The checks of one crate's mutants, each over the proofs of the earlier ones."""

    def __init__(self, name: str, words: list[str], args: argparse.Namespace):
        self.name, self.words, self.args = name, words, args
        self.checks, self.seconds, self.of_library = 0, 0.0, symbols_of(name)
        self.symbols: dict[Function, str] = {}
        self.kept = f"{os.getcwd()}/crates/{name}/out/mutants" if args.keep else tempfile.mkdtemp(prefix="wrong-bodies-")
        os.makedirs(self.kept, exist_ok=True)

    def only(self, edits: list[Edit]) -> list[str]:
        """Returns the arguments that confine a check to the functions, or to modules of unknown
        ones."""
        if not all(it.target for it in edits):
            return []
        paths = {path for it in edits for path in self.paths(it.target)}
        return [] if "" in paths else [word for it in sorted(paths) for word in ("--only", it)]

    def paths(self, function: Function) -> list[str]:
        """Returns the paths to check for a function: its names in an earlier check or in the
        library, or its module."""
        if function in self.symbols:
            return [self.symbols[function]]
        return [it.partition("::")[2] for it in self.of_library if function.has_symbol(it)] or [function.module]

    def has_time(self) -> bool:
        """Returns whether another check may begin."""
        return time.time() < self.args.until

    # The ledger's checksums cover check, alone and together: see judging.py.

    def check(self, edits):
        """Checks the crate with these mutants."""
        begun = time.time()
        with tempfile.TemporaryDirectory(prefix="wrong-bodies-") as room:
            apply(edits, self.name, room)
            words = [f"{KIT}/bin/rattle", "check", *self.words, "--incremental", self.kept, *self.only(edits)]
            with started(words, room) as ran:
                out = ran.stdout.read()
                _, status, used = os.wait4(ran.pid, 0)
                ran.returncode = status
        self.checks, spent = self.checks + 1, used.ru_utime + used.ru_stime
        self.seconds += spent
        say(f"{self.name}: a check of {len(edits)} mutants: {time.time() - begun:.0f} s, {spent:.0f} s of processor time")
        if self.args.log:
            with open(f"{self.args.log}/{self.name}.{self.checks}.log", "w", encoding="utf-8") as file:
                file.write("\n".join(it.label for it in edits) + "\n----\n" + out)
        return Report(out)

    def alone(self, edit):
        """Tries one mutant."""
        report = self.check([edit])
        if not edit.target and (rejected := report.false_constant()):
            return edit.end(True, rejected)
        unread = report.unread(edit)
        reason = report.reason(edit.target)[0] if edit.target else report.any_reason()
        if unread or not report.is_reached:
            edit.end(False, "BAD EDIT: " + (unread or next((it for it in report.lines if "error" in it), report.lines[0])))
        elif reason:
            edit.end(True, reason)
        elif report.is_proved:
            edit.end(False, "NOT REJECTED: it is still proved")
        else:
            edit.end(False, "NOT REJECTED: something is not proved, but no goal of its own function failed")

    def together(self, edits):
        """Tries mutants of different functions in one check. Returns those to try together again,
        and alone."""
        report, again, alone = self.check(edits), [], []
        for it in edits:
            reason, symbol = report.reason(it.target)
            if report.unread(it):
                alone.append(it)
            elif not report.is_reached:
                again.append(it)
            elif reason:
                it.end(True, reason)
                self.symbols[it.target] = symbol.partition("::")[2]
            else:
                (again if report.waits(it.target) else alone).append(it)
        # If a check reported none of them, they are tried one by one.
        return (again, alone) if len(again) < len(edits) else ([], again)

    def judge(self, edits: list[Edit], record: Callable[[list[Edit]], object] = lambda _: None) -> None:
        """Tries all mutants, in as few checks as possible, and records the verdicts of each
        check."""
        for it in edits:
            if it.bad:
                it.end(False, f"BAD EDIT: {it.at}: {it.bad}")
        alone = [it for it in edits if not it.bad and not it.target]
        waiting = [it for it in edits if not it.bad and it.target]
        while waiting and self.has_time():
            first = {it.target: it for it in reversed(waiting)}
            now = [it for it in waiting if first[it.target] is it]
            if len(now) == 1:
                again, single = [], now
            else:
                again, single = self.together(now)
                record([it for it in now if it not in again and it not in single])
            alone += single
            waiting = [it for it in waiting if it not in now or it in again]
        for it in alone:
            if self.has_time():
                self.alone(it)
                record([it])
        if not self.args.keep:
            shutil.rmtree(self.kept, ignore_errors=True)
