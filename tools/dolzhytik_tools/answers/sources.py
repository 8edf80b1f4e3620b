"""The sources of a crate of callers: its functions with their clauses, its constants and
imports."""
from __future__ import annotations

import pathlib
import re
from collections.abc import Iterator
from dataclasses import dataclass, field

from ..errors import Stop
from ..rattle import items, lexer
from ..rattle.brackets import Span
from ..repository import TOP, text_of
from .parser import Parser, line_of, word_of
from .spec_files import SpecFolder
from .syntax import Tree, Unparsed


@dataclass(frozen=True)
class NamedClause:
    """A clause: its name, if it has one, and its text."""

    name: str | None
    text: str
    line: int = 0


@dataclass
class Function:
    """A function outside of impls: its signature, its clauses, and the tokens of its body."""

    source: Source
    name: str
    generics: list[str]
    parameters: dict[str, list[str]]
    requires: list[NamedClause]
    ensures: list[NamedClause]
    body: list[str]
    line: int = 0

    @property
    def has_types(self) -> bool:
        """Whether it has type parameters, and not only lifetimes."""
        return any(not it.startswith("'") for it in self.generics)


@dataclass
class Source:
    """A file of src/: its functions and constants by their names, and the modules of imported
    names."""

    crate: Crate
    path: pathlib.Path
    module: list[str]
    functions: dict[str, Function] = field(default_factory=dict)
    constants: dict[str, Tree] = field(default_factory=dict)
    ghosts: dict[str, str] = field(default_factory=dict)
    uses: dict[str, str] = field(default_factory=dict)
    # The imports of the prover's names, as text.
    imports: list[NamedClause] = field(default_factory=list)

    @property
    def antt(self) -> str:
        """The name of its module in proofs."""
        return ".".join(["Rattle", self.crate.name, "proofs", *self.module])


class SourceReader:
    """Reads a file of src/ into a source."""

    def __init__(self, crate: Crate, path: pathlib.Path):
        self.text = text_of(path)
        self.tokens = lexer.solid_tokens(self.text, lexer.RATTLE_MARKS)
        self.words = list(self.words_with_lines())
        below = path.relative_to(crate.folder / "src").with_suffix("").parts
        module = [] if below == ("lib",) else list(below[:-1] if below[-1] == "mod" else below)
        self.source = Source(crate, path, module)
        self.add(items.items_of(self.words))

    def words_with_lines(self) -> Iterator[str]:
        line, at = 1, 0
        for it in self.tokens:
            line, at = line + self.text.count("\n", at, it.start), it.start
            yield word_of(it.text, line)

    def line_at(self, at: int) -> int:
        return line_of(self.words[at])

    def line_of_function(self, item: items.Function) -> int:
        """Returns the line of the name of a function with a body."""
        end = item.body.begin if item.body else 0
        return next((self.line_at(at) for at in range(end - 1, 0, -1) if self.words[at] == item.name and self.words[at - 1] == "fn"), 0)

    def add(self, found: tuple[items.Item, ...]) -> None:
        """Adds items to the source; methods are no callers."""
        for it in found:
            if isinstance(it, items.Function):
                self.source.functions[it.name] = self.function(it)
            elif isinstance(it, items.Use):
                self.add_use(it)
            elif isinstance(it, items.Constant):
                self.source.constants[it.name] = self.constant(it)
            elif isinstance(it, items.Block) and it.kind == "mod":
                self.add(it.items)

    def function(self, item: items.Function) -> Function:
        parameters = {it.name: list(it.type.of(self.words)) for it in item.parameters}
        # The tool has no form for a result that is an array, and skips such a function without a
        # word.
        is_array = item.result is not None and ";" in item.result.of(self.words)
        known = () if is_array else item.clauses
        clauses = {kind: [self.clause(it) for it in known if it.kind == kind] for kind in ("requires", "ensures")}
        generics = [self.words[it.begin] for it in item.generics]
        body = list(item.body.of(self.words)) if item.body else []
        return Function(self.source, item.name, generics, parameters, clauses["requires"], clauses["ensures"], body, self.line_of_function(item))

    def clause(self, item: items.Clause) -> NamedClause:
        begin, end = self.tokens[item.inside.begin - 1].start + 1, self.tokens[item.inside.end].start
        return NamedClause(item.name, self.text[begin:end].strip(), self.line_at(item.inside.begin))

    def constant(self, item: items.Constant) -> Tree:
        try:
            return Parser(item.value.of(self.words) if item.value else []).expression()
        except Stop:
            return Unparsed()

    def add_use(self, item: items.Use) -> None:
        text = self.text_of(item.path)
        mark = "." if item.is_ghost else "::"
        found = re.fullmatch(r"(.*?)%s\{(.*)\}" % re.escape(mark), text, re.S) or re.fullmatch(r"(.*)%s(\w+)" % re.escape(mark), text, re.S)
        names = self.source.ghosts if item.is_ghost else self.source.uses
        for name in found.group(2).split(",") if found else []:
            if name.strip():
                names[name.strip()] = found.group(1).strip()
        if item.is_ghost:
            self.source.imports.append(NamedClause(None, text, self.line_at(item.path.begin)))

    def text_of(self, span: Span) -> str:
        """Returns the text from a span up to the token after it."""
        return self.text[self.tokens[span.begin].start : self.tokens[span.end].start]


class Crate:
    """A crate of callers."""

    def __init__(self, name: str, top: pathlib.Path | None = None):
        self.name, self.folder = name, (top or TOP) / "crates" / name
        if not (self.folder / "src").is_dir():
            raise Stop("there is no crate of the name %s" % name)
        self.specs = SpecFolder(self.folder / "specs")
        self.sources: dict[str, Source] = {}
        for path in sorted((self.folder / "src").rglob("*.rt")):
            source = SourceReader(self, path).source
            self.sources["::".join(source.module)] = source

    def called(self, source: Source, name: str) -> Function | None:
        """Returns the crate's own function that a source means by a name, if it is one."""
        if name in source.functions:
            return source.functions[name]
        path = source.uses.get(name, "")
        other = self.sources.get(path[len("crate::") :]) if path.startswith("crate::") else None
        return other.functions.get(name) if other else None
