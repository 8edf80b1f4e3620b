"""The items that calls add, as values."""
from __future__ import annotations

from collections.abc import Sequence

from ..instructions.table import Case
from .models import UNKNOWN, Applied, Fields, Items, Integer, Model, Symbol, at, listed, record, text_model
from .scope import Scope
from .syntax import Array, Dereference, MethodCall, Minus, Number, Parens, Path, PathCall, Reference, Struct, Text, Tree
from .tables import BARE_HEAPS, NUMBER_SECTIONS, SECTIONS
from .values import Body, Builder, Call, Constant, Value

ADDS_ONE = {
    "FunctionSection": ("function",),
    "MemorySection": ("memory",),
    "TagSection": ("tag",),
    "TableSection": ("table", "table_with_init"),
    "GlobalSection": ("global", "raw"),
    "ExportSection": ("export",),
    "ImportSection": ("import",),
    "ElementSection": ("active", "passive", "declared"),
    "DataSection": ("active", "passive"),
    "CodeSection": ("function", "raw"),
}


class Modeler:
    """Models trees by the names of a function."""

    def __init__(self, scope: Scope):
        self.scope = scope

    def of(self, tree: Tree) -> Model:
        """Returns the value of an expression without calls."""
        tree = self.scope.settled(tree)
        if isinstance(tree, (Reference, Dereference)):
            return self.of(tree.inner)
        if isinstance(tree, Number):
            return Integer(tree.value)
        if isinstance(tree, Minus) and isinstance(tree.inner, Number):
            return Integer(-tree.inner.value)
        if isinstance(tree, Text):
            return text_model(tree.value) if tree.value.isascii() and "\\" not in tree.value else UNKNOWN
        if isinstance(tree, Array):
            return listed(map(self.of, tree.items))
        if isinstance(tree, Parens) and len(tree.items) > 1:
            return Applied(",", tuple(map(self.of, tree.items)))
        if isinstance(tree, Struct):
            return Fields(tuple((name, self.of(it)) for name, it in tree.fields.items()))
        if isinstance(tree, PathCall):
            return self.of_variant(tree)
        if isinstance(tree, MethodCall) and tree.name in ("iter", "copied") and not tree.arguments:
            return self.of(tree.receiver)
        if isinstance(tree, Path):
            return self.of_path(tree)
        return UNKNOWN

    def of_variant(self, tree: PathCall) -> Model:
        if tree.path in (("CowStr", "Borrowed"), ("CowSlice", "Borrowed")):
            return self.of(tree.arguments[0])
        if tree.path == ("Some",) or (len(tree.path) == 2 and tree.path[-1][0].isupper()):
            return Applied(tree.path[-1], tuple(map(self.of, tree.arguments)), group=tree.path[0] if len(tree.path) > 1 else "")
        return UNKNOWN

    def of_path(self, tree: Path) -> Model:
        if tree.name is not None:
            if tree.name in self.scope.function.parameters:
                return Symbol(tree.name)
            return Applied(tree.name) if tree.name in ("true", "false", "None") else UNKNOWN
        if tree.names[0] == "HeapType" and tree.names[-1] in BARE_HEAPS:
            return Applied("unshared", (Applied(BARE_HEAPS[tree.names[-1]], group="AbstractHeapType"),))
        if len(tree.names) == 2 and tree.names[1][0].isupper():
            return Applied(tree.names[1], group=tree.names[0])
        return UNKNOWN

    # Instructions.

    def row(self, case: Case, arguments: Sequence[Tree], line: int) -> Model:
        """An instruction as a reader returns it."""
        order = dict(zip(case.parameters, arguments))
        fields = tuple(self.of(order[it]) if it in order else UNKNOWN for it in case.fields or case.parameters)
        found: Model = Applied(case.name, fields, group=case.enum.name)
        if case.enum.name != "Instruction":
            found = Applied(case.enum.name, (found,), group="Instruction")
        return Applied("normal_row", (found,), line)

    # Items of sections.

    def item(self, section: Builder, call: Call) -> Model:
        """The item that a call adds to a section."""
        trees, values = call.arguments, call.values
        found: Model = UNKNOWN
        if section.kind in ("FunctionSection", "MemorySection", "TagSection"):
            found = self.of(trees[0])
        elif section.kind == "TableSection":
            init = Applied("Some", (rows_of(values[1]),)) if call.name == "table_with_init" else Applied("None")
            found = record(table_type=self.of(trees[0]), init=init)
        elif section.kind == "GlobalSection" and call.name == "global":
            found = record(global_type=self.of(trees[0]), init=rows_of(values[1]))
        elif section.kind == "ExportSection":
            found = record(name=self.of(trees[0]), kind=self.of(trees[1]), index=self.of(trees[2]))
        elif section.kind == "ImportSection":
            found = record(module_name=self.of(trees[0]), imported=Applied("single", (self.of(trees[1]), self.of(trees[2]))))
        elif section.kind == "ElementSection":
            found = self.elements(call)
        elif section.kind == "DataSection":
            data = self.of(trees[-1])
            parts = (data,) if call.name == "passive" else (self.of(trees[0]), rows_of(values[1]), data)
            found = Applied(call.name, parts, group="segments")
        elif section.kind == "CodeSection" and call.name == "function":
            found = body_of(values[0])
        return at(found, call.line)

    def elements(self, call: Call) -> Model:
        """An element segment."""
        items = self.scope.settled(call.arguments[-1])
        if not isinstance(items, PathCall) or items.path[0] != "Elements":
            return UNKNOWN
        if items.path[1] == "Functions":
            elements = Applied("functions", (self.of(items.arguments[0]),), group="elements")
        else:
            elements = Applied("expressions", (self.of(items.arguments[0]), UNKNOWN), group="elements")
        mode = Applied(call.name, group="elements")
        if call.name == "active":
            # Table 0 is written out before elements of some types.
            table = self.of(call.arguments[0]) if items.path[1] == "Functions" else UNKNOWN
            mode = Applied("active", (table, rows_of(call.values[1])), group="elements")
        return record(segment_mode=mode, elements=elements)

    def function_type(self, lists: Sequence[Tree], line: int) -> Model:
        """An entry of a type section."""
        return Applied("plain_type", (Applied("func", tuple(map(self.of, lists))),), line)


def rows_of(value: Value) -> Model:
    return value.model if isinstance(value, Constant) else UNKNOWN


def body_of(value: Value) -> Model:
    """A body; the instructions that were added one by one, or those of a clause."""
    if not isinstance(value, Body):
        return UNKNOWN
    return value.model if value.rows is None else record(runs=value.runs, code=listed(value.rows))


def is_one_item(section: Builder, name: str) -> bool:
    """Returns whether a call adds one item to a section of the core."""
    return name in ADDS_ONE.get(section.kind, ())


def section_of(value: Value) -> Model:
    """A builder as a decoded section."""
    if not isinstance(value, Builder) or value.holds not in SECTIONS:
        return UNKNOWN
    return Applied(SECTIONS[value.holds], (items_of(value),))


def items_of(section: Builder) -> Model:
    return section.model if section.added is None else listed(section.added)


def number_section(tree: Struct, modeler: Modeler) -> Model:
    """A section of one number."""
    head = NUMBER_SECTIONS.get(tree.path[0])
    return Applied(head, (modeler.of(*tree.fields.values()),)) if head and len(tree.fields) == 1 else UNKNOWN
