"""Values as terms of the prover, and why each is in range or UTF-8."""
from __future__ import annotations

from dataclasses import dataclass

from ..errors import Stop
from .proof import Proof
from .scope import NUMBER_TYPES, STRING_TYPE, Scope
from .syntax import NONE, Minus, Number, Path, PathCall, Struct, Text, Tree, is_call_of, is_struct
from .tables import BARE_REFS, BARE_TYPES, INTS, PREFIXES, VARIANTS


@dataclass(frozen=True)
class Shown:
    """A value as a term, and the term that proves it."""

    term: str
    why: str


@dataclass(frozen=True)
class ShownEntity:
    """The kind of an import, the index of its type if that is all it has, and why it is in
    range."""

    kind: str
    index: str | None
    why: str


class Evidence:
    """Writes values and their reasons into a proof."""

    def __init__(self, proof: Proof, scope: Scope):
        self.proof, self.scope = proof, scope

    def number(self, tree: Tree) -> Shown:
        tree = self.scope.settled(tree)
        if isinstance(tree, Number):
            self.proof.common("arith")
            return Shown(str(tree.value), "omega arith")
        name = self.scope.parameter(tree, *NUMBER_TYPES)
        if name is None:
            raise Stop("a number that is neither a literal nor a parameter")
        self.proof.common("arith")
        return Shown("c.args." + name, "omega (arith, c.ranges.%s.fits)" % name)

    def integer(self, tree: Tree) -> Shown:
        """A signed literal."""
        tree = self.scope.settled(tree)
        is_negative = isinstance(tree, Minus)
        tree = tree.inner if isinstance(tree, Minus) else tree
        if not isinstance(tree, Number):
            raise Stop("a signed number that is no literal")
        self.proof.common("arith")
        return Shown(self.signed(-tree.value if is_negative else tree.value), "(omega (arith, ints), omega (arith, ints))")

    def signed(self, value: int) -> str:
        self.proof.common("pos", *(["neg_ℤ"] if value < 0 else []))
        self.proof.use(INTS, "ints")
        return "(neg_ℤ (pos %d))" % -value if value < 0 else "(pos %d)" % value

    def name(self, tree: Tree) -> Shown:
        """A name, and why it is UTF-8. A caller that uses the reason also calls `use_why`."""
        tree = self.scope.settled(tree)
        if isinstance(tree, Text):
            if not tree.value.isascii() or "\\" in tree.value:
                raise Stop("a name that is not of plain ASCII")
            self.proof.common("codes", "refl")
            return Shown('(codes "%s")' % tree.value, "ascii refl")
        name = self.scope.parameter(tree, STRING_TYPE)
        if name is None:
            raise Stop("a name that is neither a literal nor a parameter")
        return Shown("c.args.%s.now" % name, "c.utf8." + name)

    def use_why(self, name: Shown) -> None:
        """Imports the lemma of the reason of a name."""
        if name.why == "ascii refl":
            self.proof.lemma("wasm_base", "ascii")

    def utf8(self, tree: Tree) -> str:
        """Returns why a name is UTF-8."""
        name = self.name(tree)
        self.use_why(name)
        return name.why

    def value_type(self, tree: Tree) -> Shown:
        return self.constant_of(tree, "ValType", BARE_TYPES, "a type with a reference in it")

    def reference_type(self, tree: Tree) -> Shown:
        return self.constant_of(tree, "RefType", BARE_REFS, "a type of references with a number in it")

    def feature_prefix(self, tree: Tree) -> str:
        """Returns the prefix of a feature as a term, and imports it."""
        term = self.constant_of(tree, "FeaturePrefix", PREFIXES, "a prefix that is not written out").term
        self.proof.use(VARIANTS["FeaturePrefix"], term)
        return term

    def constant_of(self, tree: Tree, name: str, known: set[str], trouble: str) -> Shown:
        tree = self.scope.settled(tree)
        if isinstance(tree, Path) and len(tree.names) == 2 and tree.names[0] == name and tree.names[1] in known:
            return Shown(tree.names[1], "tt")
        raise Stop(trouble)

    def optional(self, tree: Tree) -> Shown:
        """`None`, or `Some` of a number."""
        tree = self.scope.settled(tree)
        if tree == NONE:
            return Shown("None", "tt")
        if isinstance(tree, PathCall) and tree.path == ("Some",):
            number = self.number(tree.arguments[0])
            return Shown("(Some %s)" % number.term, number.why)
        raise Stop("an option that is neither `None` nor `Some` of a number")

    def fields(self, tree: Tree, name: str, *wanted: str) -> list[Tree]:
        """The fields of a struct that is written out."""
        tree = self.scope.settled(tree)
        if not isinstance(tree, Struct) or not is_struct(tree, name):
            raise Stop("a `%s` that is not written out" % name)
        return [tree.fields[it] for it in wanted]

    def record(self, tree: Tree, name: str) -> str:
        """Returns why a record of a section is in range."""
        if name == "MemoryType":
            minimum, maximum, page = self.fields(tree, name, "minimum", "maximum", "page_size_log2")
            whys = self.number(minimum).why, self.optional(maximum).why, self.optional(page).why
            return "record { minimum = %s; maximum = %s; page_size = %s }" % whys
        if name == "TableType":
            kind, minimum, maximum = self.fields(tree, name, "element_type", "minimum", "maximum")
            whys = self.reference_type(kind).why, self.number(minimum).why, self.optional(maximum).why
            return "record { element_type = %s; minimum = %s; maximum = %s }" % whys
        if name == "GlobalType":
            return self.value_type(self.fields(tree, name, "val_type")[0]).why
        if name == "TagType":
            return self.number(self.fields(tree, name, "func_type_idx")[0]).why
        raise Stop("a `%s`" % name)

    def entity(self, tree: Tree) -> ShownEntity:
        """The type of an import."""
        tree = self.scope.settled(tree)
        if isinstance(tree, PathCall) and tree.path[0] == "EntityType" and len(tree.arguments) == 1:
            kind = tree.path[1]
            if kind in ("Function", "FunctionExact"):
                number = self.number(tree.arguments[0])
                return ShownEntity(kind, number.term, number.why)
            if kind in ("Memory", "Table", "Global", "Tag"):
                return ShownEntity(kind, None, self.record(tree.arguments[0], kind + "Type"))
        raise Stop("what is imported")

    def symbol_flags(self, tree: Tree) -> str:
        """Returns why the flags of a symbol are in range."""
        tree = self.scope.settled(tree)
        if isinstance(tree, Path) and len(tree.names) == 2 and tree.names[0] == "SymbolTable":
            self.proof.common("arith")
            return "omega arith"
        return self.number(tree).why

    def core_value(self, tree: Tree) -> str:
        """Returns why a value of a core dump is in range."""
        tree = self.scope.settled(tree)
        if tree == Path(("CoreDumpValue", "Missing")):
            return "tt"
        if isinstance(tree, PathCall) and (is_call_of(tree, "CoreDumpValue", "I32") or is_call_of(tree, "CoreDumpValue", "I64")):
            return self.integer(tree.arguments[0]).why
        raise Stop("a value of a core dump")

    def list_of(self, parts: list[str]) -> str:
        """A list of terms."""
        self.proof.common("[]", *(["◌∷◌"] if parts else []))
        return "(%s)" % " ∷ ".join([*parts, "[]"]) if parts else "[]"
