"""Calls of producers sections, of target features and of branch hints."""
from __future__ import annotations

from collections.abc import Callable
from typing import TYPE_CHECKING

from ...errors import Stop
from ..syntax import Array, Tree
from ..terms import bare, chained, shown
from ..values import Builder, Call
from .base import Adders

if TYPE_CHECKING:
    from ..caller import Caller


def array_reasons(caller: Caller, call: Call, tree: Tree, clause: str | None, why: Callable[[Tree], str]) -> str:
    """Proves the length of an array, and returns the reasons of its items as one term."""
    tree = caller.scope.settled(tree)
    if not isinstance(tree, Array):
        raise Stop("a list that is no array")
    caller.proof.array_has_known_length(call.step, clause)
    return chained([why(it) for it in tree.items])


def value(caller: Caller, field: Builder, call: Call) -> str:
    words = [bare(caller.evidence.name(it).term) for it in call.arguments]
    whys = [shown(caller.evidence.utf8(it)) for it in call.arguments]
    (name, version), (name_why, version_why) = words, whys
    lemma = caller.proof.lemma("wasm_custom", "adds_value")
    oks = "%s.ok %s.counted %s.was_encodable" % (call.at, call.at, call.at)
    return "%s %s (%s, %s) %s %s %s" % (lemma, field.term, name, version, oks, name_why, version_why)


def field(caller: Caller, section: Builder, call: Call) -> str:
    values = call.values[1]
    if not isinstance(values, Builder):
        raise Stop("values of which nothing is known")
    lemma, name = caller.proof.lemma("wasm_custom", "adds_field"), caller.evidence.name(call.arguments[0])
    why = shown(caller.evidence.utf8(call.arguments[0]))
    return "%s %s %s %s %s.ok %s.was_encodable %s" % (lemma, section.term, name.term, values.term, call.at, call.at, why)


def feature(caller: Caller, section: Builder, call: Call) -> str:
    prefix, name = caller.evidence.feature_prefix(call.arguments[0]), caller.evidence.name(call.arguments[1])
    lemma, why = caller.proof.lemma("wasm_custom", "adds_feature"), shown(caller.evidence.utf8(call.arguments[1]))
    return "%s %s (%s, %s) %s.ok %s.was_encodable %s" % (lemma, section.term, prefix, bare(name.term), call.at, call.at, why)


def function_hints(caller: Caller, section: Builder, call: Call) -> str:
    def why(tree: Tree) -> str:
        fields = caller.evidence.fields(tree, "BranchHint", "branch_func_offset", "branch_hint_value")
        return "record { offset = %s; value = %s }" % tuple(caller.evidence.number(it).why for it in fields)

    index, lemma = caller.evidence.number(call.arguments[0]), caller.proof.lemma("wasm_custom", "adds_hints")
    hints = array_reasons(caller, call, call.arguments[1], None, why)
    return "%s %s %s %s (%s) %s" % (lemma, section.term, index.term, call.at, index.why, hints)


ADDERS: Adders = {
    ("ProducersField", "value"): value,
    ("ProducersSection", "field"): field,
    ("TargetFeaturesSection", "feature"): feature,
    ("BranchHints", "function_hints"): function_hints,
}
