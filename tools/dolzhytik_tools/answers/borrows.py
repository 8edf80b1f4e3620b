"""The proofs of bodies and builders after a borrow: the prover finds that the borrow changed
nothing."""
from __future__ import annotations

from .proof import Proof
from .values import Body, Builder


def body_term(proof: Proof, body: Body) -> str:
    """Returns what is known of a body, also after a sink has borrowed it."""
    if body.is_lent:
        proof.common("rules")
        return "(%s %s (search rules))" % (proof.lemma("wasm_code", "lent"), body.term)
    return str(body.term)


def held(proof: Proof, section: Builder) -> str:
    """Returns what a builder holds, also after an encoder of a type has borrowed it."""
    if section.behind:
        proof.common("rules")
        return "(%s %s (search rules))" % (proof.lemma("wasm_types", "same_types"), section.term)
    return str(section.term)
