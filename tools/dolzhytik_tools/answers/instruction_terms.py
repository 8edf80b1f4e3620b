"""Instructions as terms of the prover, and why each is in range."""
from __future__ import annotations

import difflib
import re

from ..errors import Stop
from ..instructions.table import Case
from .evidence import Evidence, Shown
from .syntax import NONE, Path, PathCall, Tree, is_call_of
from .tables import BARE_HEAPS, GLOBAL, SINK_CALLS, VARIANTS
from .terms import all_of, shown

# Layouts whose fields the tool knows, and the kind of each field.
KINDS = {"u": ["u"], "uu": ["u", "u"], "b": ["b"], "h": ["h"], "m": ["m"], "c32": ["c32"], "c64": ["c64"]}

LISTED = "docs/PROOFS.md lists its calls"


class NoSuchCall(Stop):
    """A call of the sink that is not there."""


class InstructionTerms:
    """Writes instructions into a proof."""

    def __init__(self, evidence: Evidence, cases: dict[str, Case]):
        self.evidence, self.cases = evidence, cases
        self.proof, self.scope = evidence.proof, evidence.scope

    def case_of(self, call: str) -> Case:
        """Returns the instruction of a call."""
        case = self.cases.get(call)
        if case is None:
            raise Stop("the call `%s`" % call)
        return case

    def case_of_sink(self, call: str) -> Case:
        """Returns the instruction of a call of the sink, which has few of the calls that the table
        names."""
        if call in SINK_CALLS:
            return self.case_of("drop" if call == "drop_" else call)
        case = self.cases.get(call) or self.cases.get(call + "_")
        if case is None:
            near = difflib.get_close_matches(call, SINK_CALLS, 1)
            raise NoSuchCall("the sink has no call `%s`%s: %s" % (call, ", but `%s`" % near[0] if near else "", LISTED))
        own = next((it for it in (case.call, case.call + "_") if it in SINK_CALLS), None)
        if own:
            raise NoSuchCall("the sink has no call `%s`, but `%s`" % (call, own))
        raise NoSuchCall("the sink has no call `%s`: write `function.instruction(&%s)?` (%s)" % (call, rust_of(case), LISTED))

    def of_call(self, call: str, arguments: tuple[Tree, ...]) -> Shown:
        return self.instruction(self.case_of(call), arguments)

    def instruction(self, case: Case, arguments: tuple[Tree, ...]) -> Shown:
        """An instruction with the arguments of its call, whose order may not be that of its
        fields."""
        order = dict(zip(case.parameters, arguments))
        if len(arguments) != len(case.parameters):
            raise Stop("the call `%s` with %d arguments" % (case.call, len(arguments)))
        kinds = KINDS.get(case.layout) or ["?"] * len(case.parameters)
        parts = [self.part(kind, order[name], case) for kind, name in zip(kinds, case.fields or case.parameters)]
        group = case.enum.name
        self.proof.use(VARIANTS["Instruction"], case.name if group == "Instruction" else group)
        text = " ".join([case.name, *(it.term for it in parts)])
        if group != "Instruction":
            module = re.sub(r"(?<!^)(?=[A-Z])", "_", group).lower()
            self.proof.use("Rattle.wasm_insn.specs.declared.%s.%s.TheVariants" % (module, group), case.name)
            text = "%s %s" % (group, text)
        return Shown(text, all_of([it.why for it in parts]))

    def part(self, kind: str, tree: Tree, case: Case) -> Shown:
        """A field of an instruction."""
        found = None
        if kind == "u":
            found = self.evidence.number(tree)
        elif kind in ("c32", "c64"):
            found = self.evidence.integer(tree)
        elif kind == "b":
            found = self.block_type(tree)
        elif kind == "h":
            found = self.heap_type(tree)
        elif kind == "m":
            found = self.memory_argument(tree)
        if found is None:
            raise Stop("the immediates of the instruction `%s`" % case.name)
        return found

    def block_type(self, tree: Tree) -> Shown | None:
        tree = self.scope.settled(tree)
        if tree == Path(("BlockType", "Empty")):
            self.proof.use(VARIANTS["BlockType"], "Empty")
            return Shown("Empty", "tt")
        if not isinstance(tree, PathCall):
            return None
        if is_call_of(tree, "BlockType", "Result"):
            result = self.evidence.value_type(tree.arguments[0])
            self.proof.use(VARIANTS["BlockType"], "Result")
            self.proof.use(VARIANTS["ValType"], result.term)
            return Shown("(Result %s)" % result.term, result.why)
        if is_call_of(tree, "BlockType", "FunctionType") and len(tree.arguments) == 1:
            number = self.evidence.number(tree.arguments[0])
            self.proof.use(VARIANTS["BlockType"], "FunctionType")
            return Shown("(FunctionType %s)" % number.term, number.why)
        return None

    def heap_type(self, tree: Tree) -> Shown | None:
        tree = self.scope.settled(tree)
        if not isinstance(tree, Path) or tree.names[0] != "HeapType" or tree.names[-1] not in BARE_HEAPS:
            return None
        name = BARE_HEAPS[tree.names[1]]
        self.proof.use("Rattle.wasm_base.specs.Types", "unshared")
        self.proof.use("Rattle.wasm_base.specs.declared.types.AbstractHeapType.TheVariants", name)
        return Shown("(unshared %s)" % name, "tt")

    def memory_argument(self, tree: Tree) -> Shown:
        offset, align, target, ordering = self.evidence.fields(tree, "MemArg", "offset", "align", "target", "ordering")
        target = self.scope.settled(target)
        if not isinstance(target, PathCall) or target.path[0] != "MemArgTarget" or self.scope.settled(ordering) != NONE:
            raise Stop("a memory argument with an ordering")
        kind = target.path[1]
        numbers = [self.evidence.number(it) for it in (offset, align, target.arguments[0])]
        self.proof.common("None")
        self.proof.use(VARIANTS["MemArgTarget"], kind)
        return Shown(
            "(record { offset = %s; align = %s; target = %s %s; ordering = None })" % (numbers[0].term, numbers[1].term, kind, numbers[2].term),
            "record { align = %s; target = %s; offset = %s }" % (numbers[1].why, numbers[2].why, numbers[0].why),
        )

    def row(self, text: str) -> str:
        """An instruction as a reader returns it."""
        self.proof.use("Rattle.wasm_code.specs.Expressions", "normal_row")
        self.proof.use(GLOBAL, "Global")
        return "normal_row {A = Global} %s" % shown(text)

    def written_out(self, tree: Tree) -> tuple[Case, tuple[Tree, ...]]:
        """Returns an instruction that is written as a value, and its arguments."""
        if isinstance(tree, Path) and len(tree.names) == 2 and tree.names[0] == "Instruction":
            name, parts = tree.names[1], ()
        elif isinstance(tree, PathCall) and len(tree.path) == 2 and tree.path[0] == "Instruction":
            name, parts = tree.path[1], tree.arguments
        else:
            raise Stop("an instruction that is not written out")
        case = next((it for it in self.cases.values() if it.name == name), None)
        if case is None or case.enum.name not in ("Instruction", "Numeric") or case.fields:
            raise Stop("the instruction `%s`" % name)
        return case, parts


def rust_of(case: Case) -> str:
    """Returns how a source writes an instruction as a value."""
    if case.layout == "-":
        return "Instruction::" + case.name
    nested = "" if case.enum.name == "Instruction" else "%s(%s::" % (case.enum.name, case.enum.name)
    fields = " { %s }" % ", ".join("%s: .." % it for it in case.fields) if len(case.parameters) > 1 and case.fields else "(..)"
    return "Instruction::%s%s%s%s" % (nested, case.name, fields, ")" if nested else "")
