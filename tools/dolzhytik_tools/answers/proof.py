"""The lines of a proof file: imports, steps and goals."""
from __future__ import annotations

import re
from dataclasses import dataclass

from .sources import Function
from .tables import ARITH, COMMON, OF_ANY_KIND, PRELUDE

MARK = "-- Written by tools/answers."


@dataclass(frozen=True)
class Goal:
    """A goal of its own, and the term that proves it."""

    name: str
    term: str


class Proof:
    """The proof of a function's clause, written call by call."""

    def __init__(self, function: Function):
        self.function, self.goal = function, "returns"
        self.lines: list[str] = []
        self.goals: list[Goal] = []
        self.uses: dict[str, list[str]] = {}
        self.counts: dict[str, int] = {}
        self.steps: dict[str, int] = {}

    def use(self, module: str, *names: str) -> None:
        """Imports names."""
        for name in names:
            found = self.uses.setdefault(module, [])
            if name not in found:
                found.append(name)

    def lemma(self, crate: str, name: str) -> str:
        """Imports a lemma of a crate, and returns its name."""
        self.use("Rattle.%s.proofs.Calls" % ("wasm_base" if name in OF_ANY_KIND else crate), name)
        return name

    def common(self, *names: str) -> None:
        """Imports words of std."""
        for name in names:
            self.use(ARITH if name in COMMON else PRELUDE, name)

    def bind(self, prefix: str, term: str, of: str | None = None) -> str:
        """Binds a term, perhaps with its type, to a new name."""
        self.counts[prefix] = self.counts.get(prefix, 0) + 1
        name = "%s%d" % (prefix, self.counts[prefix])
        self.lines.append("let %s%s = %s in" % (name, " : " + of if of else "", term))
        return name

    def step(self, name: str) -> str:
        """Returns the prover's name of a step: the first of a name has no number, the next ones
        have."""
        self.steps[name] = self.steps.get(name, 0) + 1
        return name if self.steps[name] == 1 else "%s-%d" % (name, self.steps[name])

    def prove(self, goal: str, term: str) -> None:
        """Adds a goal of its own."""
        self.goals.append(Goal(goal, term))

    def array_has_known_length(self, step: str, clause: str | None = None) -> None:
        """Proves what a call requires of an array: it yields as many items as its length says. The
        prover's search finds that too, but not in a long function."""
        found = re.fullmatch(r"(.*?)(-(\d+))?", step)
        name, number = found.group(1), found.group(3)
        goal = "%s-requires%s%s" % (name, "-" + number if number else "", "-clause-" + clause if clause else "")
        self.use("Rattle.wasm_base.proofs.KnownLengths", "drained_array")
        self.prove(goal, "record { can = λ it b. tt; reported = λ it xs b d. drained_array it xs d }")

    def text(self, last: str, module_parameter: str | None) -> str:
        """Returns the file, whose main goal `last` proves."""
        last = self.inlined(last)
        given = " ".join([*(["g"] if self.function.has_types else []), "c"])
        head = "%s %s%s" % (self.goal, given, " before" if module_parameter else "")
        if self.lines:
            body = [head + " =", *["    " + line for line in [*self.lines, last]]]
        else:
            body = ["%s = %s" % (head, last)]
        for it in self.goals:
            body += ["", "pub %s : goal.%s" % (it.name, it.name), "%s %s = %s" % (it.name, given, it.term)]
        return "\n".join([MARK, *self.imports(last), "", "pub %s : goal.%s" % (self.goal, self.goal), *body, ""])

    def inlined(self, last: str) -> str:
        """Returns the term of the last line, if `last` is only its name."""
        if self.lines and re.fullmatch(r"let %s = .* in" % re.escape(last), self.lines[-1]):
            return self.lines.pop()[len("let %s = " % last) : -len(" in")]
        return last

    def imports(self, last: str) -> list[str]:
        """Returns the imports of the names that the file uses."""
        terms = " ".join([*self.lines, last, *[it.term for it in self.goals]])
        signs = set(re.findall(r"[\w-]+|\[\]|[^\w\s]", terms))
        used = {module: [name for name in names if name.strip("◌") in signs] for module, names in self.uses.items()}
        modules = sorted((it for it in used if used[it]), key=self.rank)
        lines = ["use %s.{%s}" % (module, ", ".join(used[module])) for module in modules]
        return [*lines, "use %s.%s.Goals as goal" % (self.function.source.antt, self.function.name)]

    def rank(self, module: str) -> tuple[bool, bool, bool, bool, str]:
        """Std first, and the crate's own modules last."""
        not_common, not_proofs, not_std = (not module.startswith(it) for it in ("Rattle.std.proofs.Common", "Rattle.std.proofs", "Rattle.std"))
        is_own = module.startswith("Rattle.%s." % self.function.source.crate.name)
        return not_common, not_proofs, not_std, is_own, module
