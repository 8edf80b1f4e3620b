"""Calls of code sections."""
from __future__ import annotations

from typing import TYPE_CHECKING

from ...errors import Stop
from ..borrows import body_term
from ..values import Body, Builder, Call
from .base import Adders

if TYPE_CHECKING:
    from ..caller import Caller


def function(caller: Caller, section: Builder, call: Call) -> str:
    body, proof = call.values[0], caller.proof
    if not isinstance(body, Body):
        raise Stop("a function of which nothing is known")
    if caller.clause.is_padded:
        lemma, wider = proof.lemma("wasm_code", "adds_body_padded"), proof.lemma("wasm_code", "included_body")
        return "%s %s %s.ok (%s %s)" % (lemma, section.term, call.at, wider, body_term(proof, body))
    return "%s %s %s.ok %s" % (proof.lemma("wasm_code", "adds_body"), section.term, call.at, body_term(proof, body))


def raw(caller: Caller, section: Builder, call: Call) -> str:
    if not caller.clause.is_padded:
        raise Stop("a raw body, and a clause without padded numbers")
    body = caller.raw.body(caller.raw.bytes_of(call.arguments[0]))
    return "%s %s %s.ok %s" % (caller.proof.lemma("wasm_code", "adds_body_padded"), section.term, call.at, body)


ADDERS: Adders = {("CodeSection", "function"): function, ("CodeSection", "raw"): raw}
