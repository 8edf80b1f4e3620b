"""Calls of the sections of core dumps."""
from __future__ import annotations

from typing import TYPE_CHECKING

from ..syntax import Tree
from ..terms import shown
from ..values import Builder, Call
from .base import Adders
from .custom import array_reasons

if TYPE_CHECKING:
    from ..caller import Caller


def module(caller: Caller, section: Builder, call: Call) -> str:
    lemma, name = caller.proof.lemma("wasm_custom", "adds_core_module"), caller.evidence.name(call.arguments[0])
    why = shown(caller.evidence.utf8(call.arguments[0]))
    return "%s %s %s %s.ok %s.was_encodable %s" % (lemma, section.term, name.term, call.at, call.at, why)


def instance(caller: Caller, section: Builder, call: Call) -> str:
    def why(tree: Tree) -> str:
        return caller.evidence.number(tree).why

    memories = array_reasons(caller, call, call.arguments[1], "memories", why)
    globals_ = array_reasons(caller, call, call.arguments[2], "globals", why)
    lemma, item = caller.proof.lemma("wasm_custom", "adds_instance"), caller.clause_terms.item(section)
    return "%s %s %s %s (%s) %s %s" % (lemma, section.term, item, call.at, why(call.arguments[0]), memories, globals_)


def frame(caller: Caller, section: Builder, call: Call) -> str:
    numbers = " ".join("(%s)" % caller.evidence.number(it).why for it in call.arguments[:3])
    locals_ = array_reasons(caller, call, call.arguments[3], "locals", caller.evidence.core_value)
    stack = array_reasons(caller, call, call.arguments[4], "stack", caller.evidence.core_value)
    lemma, item = caller.proof.lemma("wasm_custom", "adds_frame"), caller.clause_terms.item(section)
    adds = "%s.adds c.%s.ensures.same_thread" % (call.at, call.step)
    return "%s %s %s %s %s %s %s" % (lemma, section.term, item, adds, numbers, locals_, stack)


ADDERS: Adders = {
    ("CoreDumpModulesSection", "module"): module,
    ("CoreDumpInstancesSection", "instance"): instance,
    ("CoreDumpStackSection", "frame"): frame,
}
