"""Calls of name sections and of their maps."""
from __future__ import annotations

from typing import TYPE_CHECKING

from ...errors import Stop
from ..scope import BYTES_TYPE
from ..tables import INSIDES, NAMES
from ..terms import bare, shown
from ..values import Builder, Call
from .base import Adders

if TYPE_CHECKING:
    from ..caller import Caller


def append_name(caller: Caller, section: Builder, call: Call) -> str:
    index, name = caller.evidence.number(call.arguments[0]), caller.evidence.name(call.arguments[1])
    caller.evidence.use_why(name)
    lemma, pair = caller.proof.lemma("wasm_custom", "adds_name"), "(%s, %s)" % (index.term, bare(name.term))
    return "%s %s %s %s.ok %s.counted %s.was_encodable (%s) %s" % (lemma, section.term, pair, call.at, call.at, call.at, index.why, shown(name.why))


def append_names(caller: Caller, section: Builder, call: Call) -> str:
    index, names = caller.evidence.number(call.arguments[0]), call.values[1]
    if not isinstance(names, Builder):
        raise Stop("names of which nothing is known")
    lemma = caller.proof.lemma("wasm_custom", "adds_inside")
    return "%s %s %s %s %s.ok %s.counted (%s)" % (lemma, section.term, index.term, names.term, call.at, call.at, index.why)


def module(caller: Caller, section: Builder, call: Call) -> str:
    name = caller.evidence.name(call.arguments[0])
    caller.evidence.use_why(name)
    lemma = caller.proof.lemma("wasm_custom", "adds_module_name")
    return "%s %s %s %s.ok %s" % (lemma, section.term, name.term, call.at, shown(name.why))


def subsection(caller: Caller, section: Builder, call: Call) -> str:
    names = call.values[0]
    for lemma, ids in (("adds_names", NAMES), ("adds_names_inside", INSIDES)):
        if call.name in ids and isinstance(names, Builder):
            caller.proof.common("refl")
            lemma = caller.proof.lemma("wasm_custom", lemma)
            return "%s %s %d %s %s.ok refl" % (lemma, section.term, ids[call.name], names.term, call.at)
    raise Stop("the call `%s` of a name section" % call.name)


def raw(caller: Caller, section: Builder, call: Call) -> str:
    caller.proof.common("refl")
    id = caller.evidence.number(call.arguments[0]).term
    parameter = caller.scope.parameter(caller.scope.settled(call.arguments[1]), BYTES_TYPE)
    if parameter is None or caller.clause.is_padded:
        raise Stop("bytes of a name section that are no parameter")
    lemma = caller.proof.lemma("wasm_custom", "adds_other_names")
    return "%s %s %s c.args.%s.now %s.ok refl" % (lemma, section.term, id, parameter, call.at)


ADDERS: Adders = {
    ("NameMap", "append"): append_name,
    ("IndirectNameMap", "append"): append_names,
    ("NameSection", "module"): module,
    ("NameSection", "raw"): raw,
    ("NameSection", None): subsection,
}
