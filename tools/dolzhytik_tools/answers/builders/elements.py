"""Calls of the sections of element and data segments."""
from __future__ import annotations

from typing import TYPE_CHECKING

from ...errors import Stop
from ..evidence import Shown
from ..scope import BYTES_TYPE
from ..syntax import Array, MethodCall, PathCall, Tree
from ..terms import bare, chained
from ..values import Builder, Call, Constant, Listed, Value, Variant
from .base import Adders

if TYPE_CHECKING:
    from ..caller import Caller


def placement(caller: Caller, call: Call) -> Shown:
    """Returns the mode of an element segment, and why it is in range."""
    if call.name in ("passive", "declared"):
        caller.proof.use("Rattle.wasm_sections.specs.Elements", call.name)
        return Shown(call.name, "tt")
    if call.name != "active":
        raise Stop("the call `%s` of an element section" % call.name)
    table = caller.evidence.optional(call.arguments[0])
    caller.proof.common(*(["Some"] if table.term != "None" else ["None"]))
    offset = call.values[1]
    if not isinstance(offset, Constant) or offset.rows is None:
        raise Stop("an offset of which nothing is known")
    caller.proof.use("Rattle.wasm_sections.specs.Elements", "active")
    rows = bare(caller.evidence.list_of(offset.rows))
    term = "(active %s (record { bytes = _; instructions = %s }))" % (table.term, rows)
    return Shown(term, "(%s, %s)" % (table.why, offset.term))


def element_segment(caller: Caller, section: Builder, call: Call) -> str:
    place, elements = placement(caller, call), call.values[-1]
    if not isinstance(elements, Variant) or elements.path[0] != "Elements":
        raise Stop("elements that are not written out")
    listed = borrowed(elements.parts[-1])
    if elements.path[1] == "Functions":
        numbers = [caller.evidence.number(it.tree) for it in listed]
        why = chained([it.why for it in numbers])
        lemma, terms = caller.proof.lemma("wasm_sections", "adds_functions"), caller.evidence.list_of([it.term for it in numbers])
        return "%s %s %s %s %s.ok %s.was_encodable %s %s" % (lemma, section.term, place.term, terms, call.at, call.at, place.why, why)
    return expressions(caller, section, call, place, elements.tree, listed)


def borrowed(value: Value) -> list[Value]:
    """Returns the items of a list that is written out and borrowed."""
    if isinstance(value, Variant) and value.path == ("CowSlice", "Borrowed") and isinstance(value.parts[0], Listed):
        return value.parts[0].parts
    raise Stop("elements that are not written out")


def expressions(caller: Caller, section: Builder, call: Call, place: Shown, tree: Tree | None, listed: list[Value]) -> str:
    """A segment of expressions."""
    if not isinstance(tree, PathCall):
        raise Stop("elements that are not written out")
    kind = caller.evidence.reference_type(tree.arguments[0])
    constants = [it for it in listed if isinstance(it, Constant) and it.rows is not None]
    if len(constants) != len(listed):
        raise Stop("expressions of which nothing is known")
    caller.proof.use("Rattle.wasm_base.specs.Types", kind.term)
    rows = [bare(caller.evidence.list_of(it.rows or [])) for it in constants]
    stored = caller.evidence.list_of(["record { bytes = _; instructions = %s }" % it for it in rows])
    why = chained([str(it.term) for it in constants])
    lemma = caller.proof.lemma("wasm_sections", "adds_expressions")
    segment = "%s %s %s" % (place.term, kind.term, stored)
    return "%s %s %s %s.ok %s.was_encodable %s %s %s" % (lemma, section.term, segment, call.at, call.at, place.why, kind.why, why)


def data(caller: Caller, tree: Tree, at: str) -> Shown:
    """The bytes of a data segment, and why the call has added these."""
    tree = caller.scope.settled(tree)
    if isinstance(tree, Array):
        numbers = caller.evidence.list_of([caller.evidence.number(it).term for it in tree.items])
        lemma = caller.proof.lemma("wasm_sections", "array_added")
        return Shown(numbers, "(%s %s %s (λ it b. b.0))" % (lemma, at, numbers))
    parameter = copied_parameter(caller, tree)
    if parameter is None:
        raise Stop("the bytes of a data segment")
    bytes = "c.args.%s.now" % parameter
    caller.proof.common("ap", "◌∙◌")
    caller.proof.use("Rattle.std.specs.Iterator.Adapters", "copied_source")
    caller.proof.use("Rattle.std.specs.Slice.Iter", "iter_rest")
    steps = caller.scope.iterations[parameter]
    why = "ap (λ s. iter_rest (copied_source s)) b ∙ ap iter_rest c.%s.ensures.source ∙ c.%s.ensures.rest" % (steps.copied, steps.iterated)
    return Shown(bytes, "(%s %s %s (λ it b. %s))" % (caller.proof.lemma("wasm_sections", "copied_added"), at, bytes, why))


def copied_parameter(caller: Caller, tree: Tree) -> str | None:
    """Returns the parameter of `parameter.iter().copied()`, or None for another expression."""
    if not isinstance(tree, MethodCall) or (tree.name, tree.arguments) != ("copied", ()):
        return None
    inner = tree.receiver
    if not isinstance(inner, MethodCall) or (inner.name, inner.arguments) != ("iter", ()):
        return None
    return caller.scope.parameter(inner.receiver, BYTES_TYPE)


def active_data(caller: Caller, section: Builder, call: Call) -> str:
    memory, offset = caller.evidence.number(call.arguments[0]), call.values[1]
    if not isinstance(offset, Constant) or offset.rows is None:
        raise Stop("an offset of which nothing is known")
    bytes = data(caller, call.arguments[2], call.at)
    known_length(caller, call, call.arguments[2])
    lemma, rows = caller.proof.lemma("wasm_sections", "adds_active"), caller.evidence.list_of(offset.rows)
    segment = "%s %s _ %s" % (memory.term, rows, bytes.term)
    return "%s %s %s %s (%s) %s" % (lemma, section.term, segment, bytes.why, memory.why, offset.term)


def passive_data(caller: Caller, section: Builder, call: Call) -> str:
    known_length(caller, call, call.arguments[0])
    lemma, bytes = caller.proof.lemma("wasm_sections", "adds_passive"), data(caller, call.arguments[0], call.at)
    return "%s %s %s %s" % (lemma, section.term, bytes.term, bytes.why)


def known_length(caller: Caller, call: Call, tree: Tree) -> None:
    """Proves the length of bytes that are an array."""
    if isinstance(caller.scope.settled(tree), Array):
        caller.proof.array_has_known_length(call.step)


ADDERS: Adders = {
    ("ElementSection", None): element_segment,
    ("DataSection", "active"): active_data,
    ("DataSection", "passive"): passive_data,
}
