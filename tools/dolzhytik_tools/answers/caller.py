"""Follows the calls of a function without branches, and writes the proof of its clause."""
from __future__ import annotations

from ..errors import Stop
from ..instructions.table import Case
from . import receivers
from .borrows import body_term, held
from .clause import clause_of
from .clause_terms import ClauseTerms
from .comparison import Comparison, Difference, Path as WayTo
from .constructors import constructed
from .evaluation import Evaluator, Place, symbols
from .evidence import Evidence
from .instruction_terms import InstructionTerms
from .modeling import Modeler, body_of, items_of
from .models import UNKNOWN, Items, Model, listed
from .parser import Parser
from .proof import Proof
from .raw_bytes import RawBytes
from .scope import Scope
from .sources import Crate, Function
from .syntax import (
    UNIT, AddAll, Array, Dereference, MethodCall, Parens, Path, PathCall, Reference, Struct, Tree, Try, is_call_of,
)
from .tables import BUILDERS, KIND_OF
from .terms import bare
from .values import Body, Builder, Call, Constant, Encoded, FinishedModule, Listed, Module, Nothing, Plain, Promise, Value, Variant

# Calls that show of a list of names that each is in range.
PROMISES = ("plain_names", "plain_exports")


class Caller:
    """A function whose calls are followed, with all that writes its proof."""

    def __init__(self, crate: Crate, function: Function, cases: dict[str, Case], is_draft: bool = False):
        self.crate, self.function, self.source, self.cases = crate, function, function.source, cases
        # The line that is followed, for reports.
        self.line = function.ensures[0].line if function.ensures else function.line
        self.clause = clause_of(function)
        self.evaluator = Evaluator(crate.name, crate.specs, not is_draft)
        self.proof, self.scope = Proof(function), Scope(function)
        self.evidence, self.modeler = Evidence(self.proof, self.scope), Modeler(self.scope)
        self.clause_terms = ClauseTerms(self.proof, self.clause, is_draft)
        self.instructions = InstructionTerms(self.evidence, cases)
        self.raw = RawBytes(self.instructions)

    def answer(self) -> str:
        """Returns the text of the function's proof file."""
        self.follow()
        return self.proof.text(self.proved, self.clause.before)

    def follow(self) -> None:
        """Follows the calls up to the result: `proved` is the term that proves it, and `result` the
        items that were added."""
        parser = Parser(self.function.body)
        try:
            statements, end = parser.body()
        except Stop:
            self.line = parser.line
            raise
        if end is None:
            raise Stop("it returns nothing")
        for name in self.function.parameters:
            self.scope.values[name] = Plain(Path((name,)))
        if self.clause.before:
            start = self.clause_model(self.clause.start)
            self.scope.values[self.clause.before] = Module(term="before", sections=list(start.items) if isinstance(start, Items) else None)
        for it in statements:
            self.line = it.line
            value = self.value(it.value, it.name)
            if it.name is not None:
                self.scope.values[it.name] = value
            if isinstance(value, Promise):
                self.scope.promises.append(value)
        self.line = parser.line
        self.result: Model = UNKNOWN
        self.proved = self.last(end)

    # The items.

    def clause_model(self, text: str) -> Model:
        """Returns the value of a term of the clause."""
        return self.evaluator.of(text, Place(None, self.source.ghosts), symbols(list(self.function.parameters)))

    def difference(self) -> Difference | None:
        """Returns where the items that were added differ from those of the clause."""
        if self.clause.is_padded:
            return None
        wanted = self.clause_model(self.clause.items)
        path = WayTo(wanted.origin or "the clause", self.line)
        return Comparison(self.cases).first(self.result, wanted, path)

    # The end of the function.

    def last(self, tree: Tree) -> str:
        """Returns the term of the result, of the form of the clause."""
        found = None
        if is_call_of(tree, "Ok"):
            found = self.ok(tree)
        elif self.clause.kind == "encoded":
            if isinstance(tree, AddAll):
                tree = self.added_all(tree)
            value = self.value(tree)
            if isinstance(value, Encoded):
                found, self.result = value.term, value.model
        if found is None:
            raise Stop("its result is not the one that its clause names")
        return found

    def ok(self, tree: PathCall) -> str | None:
        value, kind = self.value(tree.arguments[0]), self.clause.kind
        if kind == "adds" and tree.arguments[0] == UNIT:
            module = self.scope.values[str(self.clause.before)]
            self.result = listed(module.sections)
            return module.term
        if kind == "bytes" and isinstance(value, FinishedModule):
            self.result = listed(value.sections)
            return value.term
        if kind == "IsWellFormedBody" and isinstance(value, Body):
            self.result = body_of(value)
            return bare(body_term(self.proof, value))
        if kind == "StoresInstructions" and isinstance(value, Constant):
            self.result = value.model
            return value.term
        if isinstance(value, Builder) and kind == value.holds:
            self.result = items_of(value)
            return bare(held(self.proof, value))
        return None

    def added_all(self, tree: AddAll) -> Tree:
        """Adds a list of exports, and returns what follows once all are added."""
        section, names = self.value(tree.arguments[0]), self.scope.settled(tree.arguments[1])
        promise = self.scope.promise(names)
        if not isinstance(section, Builder) or section.kind != "ExportSection" or promise is None or not isinstance(names, Path):
            raise Stop("a list of which no call of `plain_exports` has shown what it holds")
        self.proof.step("add_all")
        self.proof.goal = "returns-in-Ok"
        self.proof.use("Rattle.wasm_sections.specs.Exports", "IsExport")
        plain = "(%s IsExport c.args.%s.now %s)" % (self.proof.lemma("wasm_base", "each"), names.names[0], promise.term)
        lemma = self.proof.lemma("wasm_sections", "adds_items")
        section.term, section.added = self.proof.bind("s", "%s %s c.in-Ok.ensures.ok %s" % (lemma, section.term, plain)), None
        return tree.then

    # Expressions.

    def value(self, tree: Tree, bound: str | None = None) -> Value:
        """Returns the value of an expression, which a `let` binds to `bound`."""
        if isinstance(tree, (Reference, Dereference)):
            return self.value(tree.inner)
        if isinstance(tree, Try):
            return self.call(tree.inner, bound, True)
        if isinstance(tree, (PathCall, MethodCall)):
            return self.call(tree, bound, False)
        if isinstance(tree, Path) and tree.name in self.scope.values:
            return self.scope.values[tree.name]
        if isinstance(tree, Path) and tree.name in self.source.constants:
            return self.value(self.source.constants[tree.name])
        if isinstance(tree, (Array, Parens)):
            return Listed(tree, [self.value(it) for it in tree.items])
        if isinstance(tree, Struct):
            for part in tree.fields.values():
                self.value(part)
        return Plain(tree)

    def call(self, tree: Tree, bound: str | None, is_tried: bool) -> Value:
        if isinstance(tree, PathCall) and (tree.path[-1][0].isupper() or tree.path == ("Some",)):
            return Variant(tree, tree.path, [self.value(it) for it in tree.arguments])
        if isinstance(tree, MethodCall):
            receiver, name = self.value(tree.receiver), tree.name
        elif isinstance(tree, PathCall):
            receiver, name = None, tree.path[-1]
        else:
            raise Stop("`?` after something other than a call")
        values = [self.value(it) for it in tree.arguments]
        self.line = tree.line or self.line
        # Where `?` parts a result, its `let` names the arm, and otherwise the call.
        step = self.proof.step("%s-%s" % (name, bound) if bound and not is_tried else name)
        arm = self.proof.step("in_ok-%s" % (bound or name)) if is_tried else None
        call = Call(name, tree.arguments, values, step, "c.%s.ensures" % (arm or step), is_tried, self.line)
        if isinstance(tree, PathCall):
            return self.path_call(tree.path, call)
        return receivers.called(self, receiver, call)

    def path_call(self, path: tuple[str, ...], call: Call) -> Value:
        if len(path) > 1:
            return constructed(self, path, call)
        function = self.crate.called(self.source, path[0])
        if function is not None:
            return self.own_call(function, call)
        if path[0] in PROMISES:
            return Promise(term=call.at, names=call.arguments[0])
        raise Stop("the call `%s`" % path[0])

    def own_call(self, function: Function, call: Call) -> Value:
        """Returns the value of a call of the crate's own function, by its clause."""
        clause = clause_of(function)
        model = self.called_model(function, clause.items, call)
        if clause.kind == "adds":
            module = call.values[list(function.parameters).index(str(clause.before))]
            if not isinstance(module, Module):
                raise Stop("the call `%s` of what is no module" % function.name)
            module.term = self.proof.bind("m", "%s %s" % (call.at, module.term))
            module.sections = list(model.items) if isinstance(model, Items) else None
            return Nothing()
        if clause.kind == "IsWellFormedBody":
            return Body(term=call.at, model=model)
        if clause.kind == "StoresInstructions":
            return Constant(term=call.at, model=model)
        if clause.kind in KIND_OF:
            kind = KIND_OF[clause.kind]
            return Builder(term=call.at, kind=kind, holds=clause.kind, crate=BUILDERS[kind].crate, is_called=True, items=clause.items, model=model)
        raise Stop("the call `%s`, by its clause" % function.name)

    def called_model(self, function: Function, items: str, call: Call) -> Model:
        """Returns the items of a clause of a called function, for the arguments of the call."""
        arguments = dict(zip(function.parameters, map(self.modeler.of, call.arguments)))
        return self.evaluator.of(items, Place(None, function.source.ghosts), arguments)
