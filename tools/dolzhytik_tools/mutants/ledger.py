"""The ledger of rejected mutants: tools/mutants.ledger, a line 'CRATE/MUTANT CHECKSUM' for each
mutant that the prover rejected. checksums.py says of what a checksum is."""
from __future__ import annotations

import contextlib
import fcntl
import os
import re
import subprocess
import sys
import tempfile
from collections.abc import Iterator, Sequence
from datetime import date

from ..repository import text_of


# After how many gates each mutant of the ledger is tried again, with a commit a day.
SHARES = 20


def day_of_commit() -> date:
    """Returns the date of the commit, or today outside of a git repository."""
    said = subprocess.run(["git", "log", "-1", "--format=%cs"], capture_output=True, text=True, check=False)
    return date.today() if said.returncode else date.fromisoformat(said.stdout.strip())


def share_of(names: Sequence[str], day: date) -> set[str]:
    """Returns the twentieth of the names that is tried again on a day. They are neighbours, which
    share checks. Twenty consecutive days have all names."""
    share = day.toordinal() % SHARES
    return set(names[len(names) * share // SHARES : len(names) * (share + 1) // SHARES])


class Ledger:
    """The file. Each change reads it anew and writes it as a whole, so that no run loses lines of
    another."""

    def __init__(self, path: str):
        self.path = path

    def lines(self) -> dict[str, str]:
        """Returns the checksum of each mutant, by its name. Stops at a line of another form."""
        found: dict[str, str] = {}
        for number, line in enumerate(text_of(self.path).splitlines() if os.path.exists(self.path) else [], 1):
            if not re.fullmatch(r"\w+/\w+ [0-9a-f]{32}", line):
                sys.exit(f"{self.path}:{number}: not 'CRATE/MUTANT CHECKSUM'")
            name, _, covered = line.partition(" ")
            found[name] = covered
        return found

    def record(self, crate: str, names: set[str], verdicts: dict[str, str]) -> None:
        """Records verdicts of a crate with mutants of these names: the checksum of each rejected
        one, and an empty text of each other one."""
        with self.locked():
            lines = {name: it for name, it in self.lines().items() if not name.startswith(f"{crate}/") or name in names}
            self.write({name: it for name, it in {**lines, **verdicts}.items() if it})

    @contextlib.contextmanager
    def locked(self) -> Iterator[None]:
        """Locks the folder of the file."""
        folder = os.open(os.path.dirname(self.path) or ".", os.O_RDONLY)
        try:
            fcntl.flock(folder, fcntl.LOCK_EX)
            yield
        finally:
            os.close(folder)

    def write(self, lines: dict[str, str]) -> None:
        """Replaces the file, if it has other lines."""
        text = "".join(f"{name} {it}\n" for name, it in sorted(lines.items()))
        if self.lines() == lines:
            return
        with tempfile.NamedTemporaryFile("w", dir=os.path.dirname(self.path) or ".", delete=False, encoding="utf-8") as file:
            file.write(text)
        os.chmod(file.name, 0o644)
        os.replace(file.name, self.path)
