"""Drafts the definitions that the clauses of a crate name, from its functions."""
from __future__ import annotations

import re
from collections.abc import Iterator
from dataclasses import dataclass, field

from ..errors import Stop
from ..instructions.table import Case
from ..rattle.facades import Facades
from .caller import Caller
from .models import Applied, Fields, Integer, Items, Model, Opaque, Symbol
from .sources import Crate, Function
from .tables import ALIASES, HOMES, ITEM_TYPES, PRELUDE, SECTIONS, VARIANTS
from .terms import arguments, elements, words_of

HEAD = """-- This file defines the items of the crate. It is a draft by tools/answers, taken from the functions,
-- so that it has their mistakes: compare each definition with what you want."""
WIDTH = 100
SIGNED = ("I32Const", "I64Const")
INFIX = ("∷", "×")


@dataclass(frozen=True)
class Drafted:
    """A definition: its name and parameters with their types, its type and value, and its function."""

    name: str
    parameters: tuple[tuple[str, str], ...]
    type: str
    value: Model
    sentence: str


@dataclass
class Words:
    """The imports of a draft: the names of each module, and what each is called here."""

    crate: str
    facades: Facades
    modules: dict[str, dict[str, str]] = field(default_factory=dict)
    whole: dict[str, str] = field(default_factory=dict)
    homes: dict[str, str] = field(default_factory=dict)

    def use(self, module: str, name: str, group: str = "") -> str:
        """Imports a name, under another name if it has two meanings."""
        here = self.modules.setdefault(module, {})
        if name not in here:
            is_taken = self.homes.get(name, module) != module
            here[name] = name + ALIASES.get(group, group or "Other") if is_taken else name
            self.homes.setdefault(here[name], module)
        return here[name]

    def prelude(self, *names: str) -> None:
        for name in names:
            self.use(PRELUDE, name)

    def lines(self) -> list[str]:
        """Returns the imports."""
        found = []
        for module, names in self.modules.items():
            listed = ", ".join(name if name == here else "%s as %s" % (name, here) for name, here in names.items())
            found.append("use %s.{%s}" % (self.through(module), listed))
        found.sort(key=lambda it: (not it.startswith("use Rattle.std"), it))
        return found + sorted("use %s as %s" % (self.through(module), here) for module, here in self.whole.items())

    def through(self, module: str) -> str:
        """Returns the module by which the crate names another one."""
        library = ".".join(module.removeprefix("Rattle.").split(".")[:2])
        aliases = self.facades.aliases()
        if self.facades.uses_whole(self.crate) and library in aliases:
            return "Rattle." + aliases[library] + module.removeprefix("Rattle." + library)
        return module


class Printer:
    """Prints values as terms, and imports their words."""

    def __init__(self, words: Words, cases: dict[str, Case]):
        self.words, self.enums = words, {it.enum.name: it.enum.module for it in cases.values()}
        self.has_rows = self.has_holes = False

    def term(self, model: Model) -> str:
        if isinstance(model, Integer):
            return str(model.value)
        if isinstance(model, Symbol):
            return model.name
        if isinstance(model, Items):
            return self.items(model)
        if isinstance(model, Fields):
            return "record { %s }" % "; ".join("%s = %s" % (name, self.term(it)) for name, it in model.fields)
        if isinstance(model, Applied):
            return self.applied(model)
        self.has_holes = True
        return "_"

    def items(self, model: Items) -> str:
        if model.text:
            self.words.prelude("codes")
            return 'codes "%s"' % model.text
        self.words.prelude("[]", *(["◌∷◌"] if model.items else []))
        return " ∷ ".join([*map(self.element, model.items), "[]"])

    def element(self, model: Model) -> str:
        text = self.term(model)
        return "(%s)" % text if isinstance(model, Items) and model.items and not text.startswith("(") else text

    def argument(self, model: Model) -> str:
        text = self.term(model)
        return "(%s)" % text if " " in text and not (isinstance(model, Applied) and model.head == ",") else text

    def applied(self, model: Applied) -> str:
        if model.head == ",":
            return "(%s)" % ", ".join(map(self.term, model.arguments))
        if model.head == "normal_row":
            self.has_rows = True
            return "row %s" % self.argument(model.arguments[0])
        if model.head in SIGNED and isinstance(model.arguments[0], Integer):
            return "%s %s" % (self.word(model), self.signed(model.arguments[0].value))
        return " ".join([self.word(model), *map(self.argument, model.arguments)])

    def signed(self, value: int) -> str:
        self.words.prelude("pos", *(["neg_ℤ"] if value < 0 else []))
        return "(neg_ℤ (pos %d))" % -value if value < 0 else "(pos %d)" % value

    def word(self, model: Applied) -> str:
        """Imports a word, and returns what it is called here."""
        if model.group in ("segments", "elements"):
            module = "Rattle.wasm_sections.specs.%s" % ("DataSegments" if model.group == "segments" else "Elements")
            self.words.whole[module] = model.group
            return "%s.%s" % (model.group, model.head)
        if model.group in VARIANTS and model.head not in HOMES:
            return self.words.use(VARIANTS[model.group], model.head, model.group)
        if model.group in self.enums:
            return self.words.use("Rattle.wasm_insn.specs.declared.%s.%s.TheVariants" % (self.enums[model.group], model.group), model.head, model.group)
        return self.words.use(HOMES[model.head], model.head, model.group) if model.head in HOMES else model.head


class Draft:
    """The definitions of a crate, as its functions have them."""

    def __init__(self, crate: Crate, cases: dict[str, Case], facades: Facades):
        self.crate, self.cases = crate, cases
        self.words = Words(crate.name, facades)
        self.left: list[str] = []

    def text(self) -> str:
        """Returns the text of a file of specs/."""
        printer = Printer(self.words, self.cases)
        self.words.use("Rattle.std.specs.declared.alloc.Global", "Global")
        found: dict[str, Drafted] = {}
        for source in self.crate.sources.values():
            for function in source.functions.values():
                for it in self.of_function(function):
                    found.setdefault(it.name, it)
        in_order = sorted(found.values(), key=lambda it: "SectionDecoding" in it.type)
        blocks = [self.definition(it, printer) for it in in_order]
        if printer.has_rows:
            instruction = self.words.use("Rattle.wasm_insn.specs.declared.instruction.Instruction", "Instruction")
            self.words.use("Rattle.wasm_insn.specs.Words", "Plain")
            self.words.use("Rattle.wasm_code.specs.Words", "normal_row")
            row = "-- An instruction as a reader returns it.\nabbrev pub row : %s Global → Plain\nrow i = normal_row i" % instruction
            blocks = [row, *blocks]
        else:
            del self.words.modules["Rattle.std.specs.declared.alloc.Global"]
        return "\n\n".join(["\n".join([HEAD, *self.words.lines()]), *blocks, *self.left]) + "\n"

    def of_function(self, function: Function) -> Iterator[Drafted]:
        """Yields the definitions that the clause of a function names."""
        if not function.ensures:
            return
        try:
            caller = Caller(self.crate, function, self.cases, is_draft=True)
            caller.answer()
        except (Stop, KeyError, IndexError, ValueError) as stop:
            why = str(stop) if isinstance(stop, Stop) else "a call with other arguments than the tool knows"
            self.left.append("-- Not drafted: the items of `%s` (%s)." % (function.name, why))
            return
        kind = caller.clause.kind
        holds = kind if kind in ITEM_TYPES else next((it for it, head in SECTIONS.items() if head == kind), "")
        if kind in ("bytes", "adds"):
            yield from self.named(function, caller.clause.items, caller.result, "List SectionDecoding", "The sections of")
        elif kind in ("IsWellFormedBody", "StoresInstructions"):
            yield from self.named(function, caller.clause.items, caller.result, ITEM_TYPES[kind][0], "The body of" if kind == "IsWellFormedBody" else "The instructions of")
        elif holds:
            listed = elements(caller.clause.items)
            if listed is None:
                item = ITEM_TYPES[holds][0]
                yield from self.named(function, caller.clause.items, caller.result, "List %s" % ("(%s)" % item if " " in item else item), "The items of")
            elif isinstance(caller.result, Items):
                for number, (text, item) in enumerate(zip(listed, caller.result.items), 1):
                    yield from self.named(function, text, item, ITEM_TYPES[holds][0], "Item %d of" % number)

    def named(self, function: Function, text: str, value: Model, type: str, sentence: str) -> Iterator[Drafted]:
        """Yields the definition of a term that is a word of the crate's specs, perhaps with
        parameters."""
        word, *given = arguments(words_of(text))
        module = function.source.ghosts.get(word, "")
        names = [it.removesuffix(".now") for it in given]
        if not module.startswith("Rattle.%s.specs" % self.crate.name) or any(it not in function.parameters for it in names):
            return
        if isinstance(value, Opaque) or (isinstance(value, Applied) and value.head == word):
            return
        types = tuple((it, "List ℕ" if "str" in function.parameters[it] or "[" in function.parameters[it] else "ℕ") for it in names)
        yield Drafted(word, types, type, value, "%s `%s`." % (sentence, function.name))

    def definition(self, it: Drafted, printer: Printer) -> str:
        for word in re.findall(r"[^\s()]+", " ".join([it.type, *(type for _, type in it.parameters)])):
            self.use_type(word)
        types = " → ".join([*(type for _, type in it.parameters), it.type])
        head = " ".join([it.name, *(name for name, _ in it.parameters)])
        return "-- %s\nabbrev pub %s : %s\n%s" % (it.sentence, it.name, types, self.equation(head, it.value, printer))

    def use_type(self, word: str) -> None:
        if word in ("List", "ℕ"):
            self.words.prelude(word)
        elif "." in word:
            self.words.whole["Rattle.wasm_sections.specs.%s" % ("DataSegments" if word.startswith("segments") else "Elements")] = word.split(".")[0]
        else:
            home = next((module for type, module in ITEM_TYPES.values() if word in type.split()), "Rattle.wasm_base.specs.Words")
            self.words.use("Rattle.wasm_insn.specs.Words" if word == "Plain" else home, word)

    def equation(self, head: str, value: Model, printer: Printer) -> str:
        """Returns an equation, in several lines if it is long."""
        line = "%s = %s" % (head, printer.term(value))
        if len(line) <= WIDTH:
            return line
        if isinstance(value, Items) and not value.text:
            return "%s =\n    %s" % (head, "\n    ∷ ".join([*map(printer.element, value.items), "[]"]))
        if isinstance(value, Fields) and [name for name, _ in value.fields] == ["runs", "code"] and isinstance(value.of("code"), Items):
            rows = "".join("      %s ∷\n" % printer.element(it) for it in value.of("code").items)
            return "%s = record {\n  runs = %s;\n  code =\n%s      [];\n}" % (head, printer.term(value.of("runs")), rows)
        return line
