"""Tries the mutants of crates that the ledger lacks, and those of the day's share."""
from __future__ import annotations

import argparse
import os
from concurrent.futures import ThreadPoolExecutor, as_completed

from . import checksums, ledger
from .crates import Repository, build_below, words_of
from .edits import Edit, edits_of
from .judging import sums_of
from .say import say
from .trying import Tries

LEDGER = "tools/mutants.ledger"


class Gate:
    """The mutants of crates, with their checksums."""

    def __init__(self, repository: Repository, args: argparse.Namespace):
        self.repository, self.args = repository, args
        self.found = {name: edits_of(name, f"crates/{name}") for name in args.names or repository}
        self.edits = {name: found[args.folder] for name, found in self.found.items()}
        self.sums = {label: it for name, edits in self.edits.items() for label, it in sums_of(repository, name, edits).items()}
        self.waiting = self.not_held()

    def not_held(self) -> dict[str, list[Edit]]:
        """Returns the mutants of each crate to try: those that the ledger lacks, and those of the
        day's share, or all."""
        lines = ledger.Ledger(LEDGER).lines()
        held = [label for label, it in self.sums.items() if lines.get(label) == it]
        again: set[str] = set()
        if self.args.all:
            again = set(held)
        elif self.args.share:
            again = ledger.share_of(held, ledger.day_of_commit())
        say(f"{len(self.sums)} mutants, of which the ledger has {len(held)} as rejected; {len(again)} of these are tried again")
        return {name: [it for it in edits if it.label in again or it.label not in held] for name, edits in self.edits.items()}

    def size(self, name: str) -> int:
        """Returns the size of a crate's sources, in bytes."""
        return sum(map(os.path.getsize, checksums.files_below(f"crates/{name}/src")))

    def record(self, name: str, tried: list[Edit]) -> None:
        """Records verdicts, except those of files that changed while the prover ran."""
        checksums.forget()
        after = sums_of(self.repository, name, tried)
        labels = {it.label for edits in self.found[name].values() for it in edits}
        verdicts = {it.label: self.sums[it.label] if it.is_rejected else "" for it in tried if after[it.label] == self.sums[it.label]}
        ledger.Ledger(LEDGER).record(name, labels, verdicts)

    def try_crate(self, name: str) -> Tries:
        tries = Tries(name, words_of(self.repository, name), self.args)
        tries.judge(self.waiting[name], lambda tried: self.record(name, tried))
        return tries

    def report(self, tries: Tries) -> None:
        """Prints the verdicts of a crate."""
        tried = [it for it in self.waiting[tries.name] if it.said]
        for it in tried:
            if self.args.verbose or not it.is_rejected:
                say(f"{it.label}: {'rejected: ' * it.is_rejected}{it.said}")
        say(f"{tries.name}: {len(tried)} mutants in {tries.checks} checks, {tries.seconds:.0f} s of processor time")

    def run(self) -> tuple[int, int, int]:
        """Tries the mutants, those of large crates first. Returns how many were rejected, how many
        not, and how many were not tried, since the time was up."""
        names = sorted(filter(self.waiting.get, self.waiting), key=lambda it: -self.size(it))
        build_below(self.repository, names)
        with ThreadPoolExecutor(self.args.at_once) as pool:
            for done in as_completed([pool.submit(self.try_crate, name) for name in names]):
                self.report(done.result())
        waiting = [it for name in names for it in self.waiting[name]]
        tried = [it for it in waiting if it.said]
        rejected = sum(it.is_rejected for it in tried)
        return rejected, len(tried) - rejected, len(waiting) - len(tried)


def all_crates(repository: Repository, args: argparse.Namespace) -> tuple[int, int, int]:
    """Tries the mutants of the named crates, or of all."""
    return Gate(repository, args).run()
