"""Calls by a path of a type, as `Module::new`: the values that they make."""
from __future__ import annotations

from typing import TYPE_CHECKING

from ..errors import Stop
from .models import Items
from .syntax import Array, Parens
from .tables import BUILDERS
from .terms import all_of, shown
from .values import Body, Builder, Call, Constant, Module, Process, Value

if TYPE_CHECKING:
    from .caller import Caller


def constructed(caller: Caller, path: tuple[str, ...], call: Call) -> Value:
    """Returns the value of a call by a path."""
    if len(path) != 2:
        raise Stop("the call `%s`" % "::".join(path))
    kind, name = path
    if name == "new" and call.is_tried:
        if kind == "Module":
            return Module(term="(%s %s.read)" % (caller.proof.lemma("wasm_base", "new_module"), call.at), sections=[])
        if kind == "Function":
            return function(caller, call)
        if kind == "CoreDumpSection":
            text, utf8 = caller.evidence.name(call.arguments[1]).term, caller.evidence.utf8(call.arguments[1])
            return Process(term="%s.is" % call.at, name=text, utf8=utf8)
        if kind == "CoreDumpStackSection":
            return core_stack(caller, kind, call)
    if kind == "ConstExpr" and call.is_tried:
        return raw_constant(caller, call) if name == "raw" else constant(caller, name, call)
    if name == "new" and kind in BUILDERS and not call.is_tried:
        laws = BUILDERS[kind]
        term = "(%s %s)" % (caller.proof.lemma(laws.crate, laws.new), call.at)
        return Builder(term=begun(caller, kind, term), kind=kind, holds=laws.holds, crate=laws.crate, added=[])
    raise Stop("the call `%s`" % "::".join(path))


def function(caller: Caller, call: Call) -> Body:
    """A body with its locals."""
    runs = caller.scope.settled(call.arguments[1])
    if not isinstance(runs, Array):
        raise Stop("runs of locals that are no array")
    caller.proof.array_has_known_length(call.step)
    whys = []
    for run in runs.items:
        if not isinstance(run, Parens) or len(run.items) != 2:
            raise Stop("a run of locals that is no pair")
        whys.append("(%s, %s)" % (caller.evidence.number(run.items[0]).why, caller.evidence.value_type(run.items[1]).why))
    term = "(%s %s %s)" % (caller.proof.lemma("wasm_code", "new_function"), call.at, all_of(whys))
    return Body(term=term, runs=caller.modeler.of(runs), rows=[])


def core_stack(caller: Caller, kind: str, call: Call) -> Builder:
    """The stack of a core dump, which has a name."""
    utf8, laws = caller.evidence.utf8(call.arguments[1]), BUILDERS[kind]
    term = "(%s %s.is %s)" % (caller.proof.lemma(laws.crate, laws.new), call.at, shown(utf8))
    return Builder(term=term, kind=kind, holds=laws.holds, crate=laws.crate)


def raw_constant(caller: Caller, call: Call) -> Constant:
    """An expression that is given as bytes."""
    raw = caller.raw.constant(caller.raw.bytes_of(call.arguments[1]))
    lemma = caller.proof.lemma("wasm_code", "raw_constant")
    wide = caller.proof.bind("e", "%s %s.ok (%s ∷ []) %s" % (lemma, call.at, raw.row, raw.term))
    caller.proof.common("[]", "◌∷◌")
    return Constant(rows=[raw.row], wide=wide)


def constant(caller: Caller, name: str, call: Call) -> Constant:
    """An expression of one instruction."""
    instruction = caller.instructions.of_call(name, call.arguments[1:])
    lemma = caller.proof.lemma("wasm_code", "one_constant")
    term = caller.proof.bind("e", "%s %s.stores %s" % (lemma, call.at, instruction.why))
    model = Items((caller.modeler.row(caller.instructions.case_of(name), call.arguments[1:], call.line),))
    return Constant(term=term, rows=[caller.instructions.row(instruction.term)], model=model)


def begun(caller: Caller, kind: str, term: str) -> str:
    """Returns the proof of a new builder, with padded numbers if the clause allows them."""
    if not caller.clause.is_padded:
        return term
    if kind == "CodeSection":
        return "(%s %s)" % (caller.proof.lemma("wasm_code", "encodes_padded"), term)
    if kind == "GlobalSection":
        caller.proof.use("Rattle.wasm_sections.proofs.GlobalLaws", "globals_section")
        return "(%s globals_section.held_padded %s)" % (caller.proof.lemma("wasm_base", "contains_padded"), term)
    raise Stop("a `%s` with padded numbers" % kind)
