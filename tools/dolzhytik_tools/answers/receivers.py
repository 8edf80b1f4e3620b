"""Calls of methods, by the value that they are called on."""
from __future__ import annotations

import re
from collections.abc import Callable
from typing import TYPE_CHECKING

from ..errors import Stop
from .borrows import body_term, held
from .builders import added
from .modeling import is_one_item, items_of, number_section, section_of
from .models import UNKNOWN, Applied, Items, Model, at
from .syntax import Array, Path, PathCall, Struct, Tree, is_struct
from .tables import GAINS, NUMBERS, PAYLOADS, VARIANTS
from .terms import all_of, chained, shown
from .values import (
    Body, Builder, Call, Constant, CopiedSteps, Encoded, FinishedModule, Module, Nothing, Plain, Process, Sink, SliceIterator, TypeEncoder, Value,
)

if TYPE_CHECKING:
    from .caller import Caller


def called(caller: Caller, receiver: Value, call: Call) -> Value:
    """Returns the value of a method call."""
    handler = HANDLERS.get(type(receiver))
    if handler is None:
        raise unknown(call)
    return handler(caller, receiver, call)


def unknown(call: Call, of: str = "") -> Stop:
    return Stop("the call `%s`%s" % (call.name, of))


# Bodies and expressions.


def of_body(caller: Caller, body: Body, call: Call) -> Value:
    if call.name == "instructions" and not call.is_tried and "-" in call.step:
        lemma = caller.proof.lemma("wasm_code", "lent")
        body.term = caller.proof.bind("b", "%s %s c.%s.ensures.same" % (lemma, body_term(caller.proof, body), call.step))
        body.is_lent = True
        return Sink(body=body)
    if call.name == "instruction" and call.is_tried:
        written = caller.instructions.written_out(caller.scope.settled(call.arguments[0]))
        why = caller.instructions.instruction(*written).why
        add_row(body, caller.modeler.row(*written, call.line))
        lemma = caller.proof.lemma("wasm_code", "adds_instruction")
        body.term = caller.proof.bind("b", "%s %s %s.ok %s" % (lemma, body_term(caller.proof, body), call.at, why))
        return Nothing()
    raise unknown(call, " of a function")


def of_sink(caller: Caller, sink: Sink, call: Call) -> Value:
    if not call.is_tried:
        raise unknown(call, " of a sink without `?`")
    body = sink.body
    if not body.is_lent:
        raise Stop("a sink that is used after its function")
    if call.name == "br_table":
        return branch_table(caller, body, call)
    case = caller.instructions.case_of_sink(call.name)
    instruction = caller.instructions.instruction(case, call.arguments)
    add_row(body, caller.modeler.row(case, call.arguments, call.line))
    lemma = caller.proof.lemma("wasm_code", "writes_instruction")
    term = "%s %s %s %s.writes.bytes %s" % (lemma, body.term, shown(instruction.term), call.at, instruction.why)
    body.term = caller.proof.bind("b", term)
    return Nothing()


def add_row(body: Body, row: Model) -> None:
    if body.rows is not None:
        body.rows.append(row)


def branch_table(caller: Caller, body: Body, call: Call) -> Value:
    labels = caller.scope.settled(call.arguments[0])
    if not isinstance(labels, Array):
        raise Stop("labels that are no array")
    caller.proof.array_has_known_length(call.step)
    why = all_of([caller.evidence.number(it).why for it in labels.items])
    add_row(body, Applied("br_table_row", tuple(map(caller.modeler.of, call.arguments)), call.line))
    lemma, default = caller.proof.lemma("wasm_code", "writes_labels"), caller.evidence.number(call.arguments[1])
    body.term = caller.proof.bind("b", "%s %s %s.writes %s (%s)" % (lemma, body.term, call.at, why, default.why))
    return Nothing()


def of_constant(caller: Caller, constant: Constant, call: Call) -> Value:
    if not call.is_tried or not call.name.startswith("with_") or constant.rows is None:
        raise unknown(call, " of an expression")
    instruction = caller.instructions.of_call(call.name[len("with_") :], call.arguments)
    before = caller.evidence.list_of(constant.rows)
    caller.proof.common("[]", "◌∷◌")
    lemma = caller.proof.lemma("wasm_code", "adds_constant")
    term = caller.proof.bind("e", "%s %s %s %s.stores %s" % (lemma, before, constant.term, call.at, instruction.why))
    row = caller.modeler.row(caller.instructions.case_of(call.name[len("with_") :]), call.arguments, call.line)
    model = Items((*constant.model.items, row)) if isinstance(constant.model, Items) else UNKNOWN
    return Constant(term=term, rows=constant.rows + [caller.instructions.row(instruction.term)], model=model)


# Modules.


def of_module(caller: Caller, module: Module, call: Call) -> Value:
    if call.name == "finish" and not call.is_tried:
        return FinishedModule(term="%s %s %s" % (caller.proof.lemma("wasm_base", "finished"), module.term, call.at), sections=module.sections)
    if call.name != "section" or not call.is_tried:
        raise unknown(call, " of a module")
    clauses = "%s.read %s.was_encodable %s.section" % (call.at, call.at, call.at)
    section, tree = call.values[0], caller.scope.settled(call.arguments[0])
    if module.sections is not None:
        gained = number_section(tree, caller.modeler) if isinstance(tree, Struct) else section_of(section)
        module.sections.append(at(gained, call.line))
    if isinstance(section, Builder) and section.holds in GAINS:
        term = "%s %s %s %s" % (gain_of_module(caller, section), module.term, clauses, held(caller.proof, section))
    elif isinstance(section, Process):
        lemma = caller.proof.lemma("wasm_custom", "gains_process")
        term = "%s %s %s %s %s %s" % (lemma, module.term, clauses, section.name, section.term, shown(section.utf8))
    elif isinstance(tree, Struct) and tree.path[0] in {"CustomSection", "RawSection", *NUMBERS}:
        term = gain_of_struct(caller, tree, "%s %s" % (module.term, clauses))
    else:
        raise Stop("a section of which nothing is known")
    module.term = caller.proof.bind("m", term)
    return Nothing()


def gain_of_module(caller: Caller, section: Builder) -> str:
    """Returns the lemma of a module that gains a section."""
    lemma = GAINS[section.holds].of_module
    if caller.clause.is_padded:
        if section.kind != "CodeSection" or section.is_called:
            raise Stop("a section with padded numbers in a module, that is not built here and of code")
        lemma += "_padded"
    return caller.proof.lemma(section.crate, lemma)


def gain_of_struct(caller: Caller, tree: Struct, gained: str) -> str:
    """Returns the term of a module that gains a section that is a struct."""
    if is_struct(tree, "CustomSection"):
        return "%s %s %s" % (caller.proof.lemma("wasm_custom", "gains_given"), gained, shown(custom_name(caller, tree)))
    if is_struct(tree, "RawSection"):
        return "%s %s" % (caller.proof.lemma("wasm_base", "gains_raw"), gained)
    return "%s %s" % (caller.proof.lemma("wasm_sections", "gains_number"), gained)


def custom_name(caller: Caller, tree: Struct) -> str:
    """Returns why the name of a custom section is UTF-8."""
    name = caller.scope.settled(tree.fields["name"])
    if not isinstance(name, PathCall) or name.path != ("CowStr", "Borrowed"):
        raise Stop("a name of a custom section that is not borrowed")
    return caller.evidence.utf8(name.arguments[0])


# Builders and their encodings.


def of_builder(caller: Caller, section: Builder, call: Call) -> Value:
    if call.name == "ty" and section.kind == "TypeSection" and not call.is_tried:
        lemma = caller.proof.lemma("wasm_types", "same_types")
        term = "(%s %s c.%s.ensures.same)" % (lemma, held(caller.proof, section), call.step)
        return TypeEncoder(term=term, section=section, called=call.step)
    if call.name == "encode":
        return encoded(caller, section, call)
    if not call.is_tried:
        raise unknown(call, " without `?`")
    section.count += 1
    section.term = caller.proof.bind("s", added(caller, section, call))
    if section.added is not None:
        section.added = [*section.added, caller.modeler.item(section, call)] if is_one_item(section, call.name) else None
    return Nothing()


def encoded(caller: Caller, section: Builder, call: Call) -> Encoded:
    """A buffer that gains the encoding of a section."""
    gain = GAINS.get(section.holds)
    if gain is None or call.is_tried:
        raise Stop("the call `encode` of a `%s`" % section.kind)
    lemma = gain.of_buffer
    if section.crate == "wasm_custom":
        return encoded_custom(caller, lemma, call, held(caller.proof, section))
    if caller.clause.is_padded:
        lemma += "_padded" if section.kind == "CodeSection" else "_padded globals_section.held_padded"
    caller.proof.lemma(section.crate, lemma.split()[0])
    return Encoded(term="%s %s.appends %s.read %s" % (lemma, call.at, call.at, held(caller.proof, section)), model=items_of(section))


def encoded_custom(caller: Caller, lemma: str, call: Call, content: str) -> Encoded:
    """A buffer that gains the encoding of a custom section, whose format is an argument of the
    lemma."""
    if caller.clause.is_padded:
        raise Stop("a custom section with padded numbers")
    caller.proof.lemma("wasm_custom", lemma.split()[0])
    payload = re.search(r"\w+_payload", lemma)
    if payload:
        caller.proof.use("Rattle.wasm_base.specs.Formats", "size_prefixed")
        caller.proof.use("Rattle.wasm_custom.specs." + PAYLOADS[payload.group()], payload.group())
    return Encoded(term="%s %s.appends %s.read %s" % (lemma, call.at, call.at, content))


def of_process(caller: Caller, process: Process, call: Call) -> Value:
    if call.name != "encode" or call.is_tried:
        raise unknown(call, " of a `CoreDumpSection`")
    return encoded_custom(caller, "encodes_custom (size_prefixed core_payload) _", call, "(%s, %s)" % (process.utf8, process.term))


def of_type(caller: Caller, encoder: TypeEncoder, call: Call) -> Value:
    """Adds a function type."""
    arrays = [caller.scope.settled(it) for it in call.arguments]
    if call.name != "function" or not call.is_tried or len(arrays) != 2 or not all(isinstance(it, Array) for it in arrays):
        raise unknown(call, " of a type")
    caller.proof.array_has_known_length(call.step, "params")
    caller.proof.array_has_known_length(call.step, "results")
    lists, whys = zip(*(type_list(caller, it.items) for it in arrays))
    caller.proof.use("Rattle.wasm_base.specs.Types", "IsVal")
    caller.proof.use("Rattle.wasm_types.specs.RecTypes", "func")
    same = "(λ it b. b.0) (λ it b. b.0)"
    found = "(%s %s %s %s %s)" % (caller.proof.lemma("wasm_types", "listed_arrays"), call.at, *lists, same)
    section, lemma = encoder.section, caller.proof.lemma("wasm_types", "adds_shape")
    old = "{old = c.%s.result.section.now} %s" % (encoder.called, encoder.term)
    section.term = "(%s %s (func %s %s) %s (%s, %s))" % (lemma, old, *lists, found, *whys)
    section.count, section.behind = section.count + 1, True
    if section.added is not None:
        section.added = [*section.added, caller.modeler.function_type(arrays, call.line)]
    return Nothing()


def type_list(caller: Caller, items: tuple[Tree, ...]) -> tuple[str, str]:
    """Returns a list of value types as a term, and why it is in range."""
    types = [caller.evidence.value_type(it) for it in items]
    caller.proof.use(VARIANTS["ValType"], *[it.term for it in types])
    listed = caller.evidence.list_of([it.term for it in types])
    caller.proof.common("arith")
    return listed, "%s IsVal %s %s (omega arith)" % (caller.proof.lemma("wasm_types", "counted"), listed, chained([it.why for it in types]))


# Parameters and structs.


def of_plain(caller: Caller, value: Plain, call: Call) -> Value:
    if call.name == "allocator" and not call.is_tried:
        return Nothing()
    tree = caller.scope.settled(value.tree) if value.tree is not None else None
    if call.name == "encode" and not call.is_tried and isinstance(tree, Struct):
        if is_struct(tree, "CustomSection"):
            caller.proof.common("refl")
            caller.proof.use("Rattle.wasm_base.specs.Formats", "custom")
            return encoded_custom(caller, "encodes_custom custom _", call, "(%s, refl)" % custom_name(caller, tree))
        if tree.path[0] in NUMBERS:
            number = caller.evidence.number(*tree.fields.values()).term
            caller.proof.common("◌≡◌", "refl")
            caller.proof.use("Rattle.wasm_base.specs.Formats", "size_prefixed", "u32")
            return encoded_custom(caller, "encodes_custom (size_prefixed u32) (λ said. said ≡ %s)" % number, call, "refl")
    if call.name == "iter" and isinstance(value.tree, Path) and not call.is_tried:
        return SliceIterator(parameter=value.tree.names[0], called=call.step)
    raise unknown(call)


def of_iterator(caller: Caller, iterator: SliceIterator, call: Call) -> Value:
    if call.name != "copied" or call.is_tried:
        raise unknown(call)
    caller.scope.iterations[iterator.parameter] = CopiedSteps(copied=call.step, iterated=iterator.called)
    return Nothing()


Handler = Callable[["Caller", Value, Call], Value]
HANDLERS: dict[type, Handler] = {
    Body: of_body,
    Sink: of_sink,
    Constant: of_constant,
    Module: of_module,
    Builder: of_builder,
    Process: of_process,
    TypeEncoder: of_type,
    Plain: of_plain,
    SliceIterator: of_iterator,
}
