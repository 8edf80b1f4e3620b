"""The names of a function's body."""
from __future__ import annotations

from .sources import Function
from .syntax import Path, Reference, Tree
from .values import CopiedSteps, Promise, Value

BYTES_TYPE = ["&", "[", "u8", "]"]
STRING_TYPE = ["&", "str"]
NUMBER_TYPES = (["u8"], ["u16"], ["u32"], ["u64"])


class Scope:
    """The values of variables and constants, and what calls have shown."""

    def __init__(self, function: Function):
        self.function, self.source = function, function.source
        self.values: dict[str, Value] = {}
        self.promises: list[Promise] = []
        # The calls that iterate over a slice, by its parameter.
        self.iterations: dict[str, CopiedSteps] = {}

    def settled(self, tree: Tree) -> Tree:
        """Returns the tree that a name was bound to, or the value of a constant. A name that a call
        bound stays."""
        while isinstance(tree, (Reference, Path)):
            if isinstance(tree, Reference):
                tree = tree.inner
                continue
            if tree.name is None:
                break
            known = self.values.get(tree.name)
            if known is not None and known.tree not in (None, tree):
                tree = known.tree
            elif known is None and tree.name in self.source.constants:
                tree = self.source.constants[tree.name]
            else:
                break
        return tree

    def parameter(self, tree: Tree, *types: list[str]) -> str | None:
        """Returns the parameter of one of these types that a settled tree is, or None."""
        if isinstance(tree, Path) and tree.name is not None and self.function.parameters.get(tree.name) in types:
            return tree.name
        return None

    def promise(self, names: Tree) -> Promise | None:
        """Returns the promise of a call about a list of names."""
        return next((it for it in self.promises if it.names == names), None)
