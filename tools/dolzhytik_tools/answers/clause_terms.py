"""The words of a function's clause, as terms of its proof."""
from __future__ import annotations

import re

from ..errors import Stop
from .clause import Clause
from .proof import Proof
from .tables import PRELUDE
from .terms import elements, joined, shown, words_of
from .values import Builder


class ClauseTerms:
    """The items that a clause lists."""

    def __init__(self, proof: Proof, clause: Clause, is_draft: bool = False):
        self.proof, self.clause, self.function, self.is_draft = proof, clause, proof.function, is_draft

    def item(self, section: Builder) -> str:
        """Returns the item that was added last, as a term."""
        if self.is_draft:
            return "_"
        if self.clause.kind not in ("encoded", section.holds):
            raise Stop("the clause does not list the items of this section: build it in a function of its own, whose clause lists them")
        listed = elements(self.clause.items)
        if listed is None:
            raise Stop("the clause names the list of items as a whole: write `one ∷ two ∷ []`")
        if section.count > len(listed):
            raise Stop("more is added than the clause says")
        return shown(self.term(listed[section.count - 1]))

    def term(self, text: str) -> str:
        """Returns a term of the clause in the proof: parameters become `c.args`, and words are
        imported."""
        found = joined([self.word(it) for it in words_of(text)])
        if re.search(r"λ (\w+)\.", text):
            raise Stop("a function in its clause")
        return found

    def word(self, word: str) -> str:
        if word == "∷":
            self.proof.common("◌∷◌")
        elif word == "[]":
            self.proof.common("[]")
        elif word in ("(", ")") or re.fullmatch(r"\d+|0x[0-9A-Fa-f]+", word):
            pass
        elif self.is_parameter(word):
            return "c.args." + word
        elif word in self.function.source.ghosts:
            self.use(word, self.function.source.ghosts[word])
        else:
            raise Stop("the word `%s` of its clause" % word)
        return word

    def is_parameter(self, word: str) -> bool:
        parameters = self.function.parameters
        return word in parameters or word.endswith(".now") and word.rpartition(".now")[0] in parameters

    def use(self, word: str, module: str) -> None:
        if module == PRELUDE:
            self.proof.common(word)
        else:
            self.proof.use(module, word)
