"""The report of a check on the functions that it did not prove."""
from __future__ import annotations

import re
from dataclasses import dataclass

# Messages of a proof file that names what a mutant removed, and of a function that waits for
# another.
MISSING_NAME = re.compile(r"has no field|is not in scope|has no `|was not admitted")
ELSEWHERE = re.compile(r"it calls|it passes|a call of|it waits for|depends on")


# The ledger's checksums cover this code except comments and docstrings: see judging.py.
@dataclass
class Failure:
    symbol: str
    status: str
    notes: list

    def waits(self):
        """Returns whether the cause is another function. A proof by hand reports its own causes."""
        return bool(ELSEWHERE.search(re.sub(r"\Anot proved; the borrow checker does not cover .*", "", self.status)))


class Report:
    """The report of a check."""

    def __init__(self, out):
        self.lines, self.failures, notes = out.split("\n"), [], []
        # Errors of proof files are at the head of the report, in no order.
        self.of_proofs = re.findall(r"^(?:\./)?proofs/\S+:\d+:\d+: error.*(?:\n  .*)*", out, re.M)
        self.is_reached = bool(re.search(r"^(logic=|only=)", out, re.M))
        self.is_proved = bool(re.search(r"^logic=proved |^only=(\d+) proved=\1$", out, re.M))
        for line in self.lines:
            if re.match(r"(note: )?(\./)?src/\S+:\d+:\d+: ", line):
                notes.append(line)
            elif found := re.match(r"fn (\S+): (.*)", line):
                if not found[2].startswith("proved"):
                    self.failures.append(Failure(found[1], found[2], notes))
                notes = []

    def reason(self, function):
        """Returns the function's own cause of a failure with its symbol, or None twice."""
        silent = [it for it in self.failures if function.has_symbol(it.symbol) and not it.notes and not it.waits()]
        # (a report of the function itself excludes one of another impl with its name)
        for it in [it for it in self.failures if function.is_symbol(it.symbol)] or self.failures:
            notes = [note for note in it.notes if is_inside(note, function)]
            if function.has_symbol(it.symbol) and (notes or silent == [it]) or function.is_symbol(it.symbol):
                notes += self.messages(it)
            strong = [note for note in notes if not MISSING_NAME.search(note)]
            if strong:
                return strong[0].split("\n")[0], it.symbol
        return None, None

    def messages(self, failure):
        """Returns the errors of the proof files of a function."""
        folder = "".join(rf"/\+?{re.escape(part)}" for part in failure.symbol.split("::")[1:])
        return [it for it in self.of_proofs if re.match(rf"(\./)?proofs{folder}/\w+\.antt:", it)]

    def waits(self, function):
        """Returns whether the function is not proved because another one is not."""
        return any(function.has_symbol(it.symbol) and it.waits() for it in self.failures)

    def false_constant(self):
        """Returns the line of a false `prove!` of a constant, or None. After it nothing else is
        checked."""
        return next((it for it in self.lines if "error[failed-constant-evaluation]" in it), None)

    def any_reason(self):
        """Returns the own cause of some function, or None."""
        notes = (note for it in self.failures for note in it.notes)
        return next((it for it in notes if not ELSEWHERE.search(it) and not MISSING_NAME.search(it)), None)

    def unread(self, edit):
        """Returns the line of an error in the changed source, or None."""
        function = edit.target
        return next((it for it in self.lines if function and ": error" in it and is_inside(it, function)), None)


def is_inside(line, function):
    at = re.match(r"(?:note: )?(?:\./)?(\S+?):(\d+):\d+: ", line)
    return bool(at) and at[1] == function.path and function.first <= int(at[2]) <= function.last
