"""Checks the imports of a crate's specs/ and sources before any proof: that each module and each
name is there, that no name has two meanings, and that specs/Lib.antt lists each file."""
from __future__ import annotations

import difflib
import pathlib
import re
import shutil
import subprocess
from collections.abc import Iterable, Iterator
from dataclasses import dataclass
from functools import cache, cached_property

from ..definitions.imports import Import, parsed
from ..errors import Stop
from ..rattle import lexer
from ..rattle.facades import WHOLE, Facades
from ..repository import text_of
from .sources import Crate, NamedClause
from .spec_files import Imported, SpecFile, SpecFolder

VARIANTS_MODULE, CONSTANTS_MODULE = "TheVariants", "TheConstants"
TYPES = ("enum", "struct", "trait", "type", "union")
LISTED = re.compile(r"(?:pub )?mod (\w+)")


@dataclass(frozen=True)
class Trouble:
    """A report about a line of a file of the crate."""

    path: pathlib.Path
    line: int
    text: str


class Types:
    """The types of the sources of a crate, and the variants of enums."""

    def __init__(self, folder: pathlib.Path):
        self.folder = folder

    @cached_property
    def files(self) -> dict[str, dict[str, set[str]]]:
        """By the module, and by the name of a type, its variants."""
        found = {}
        for path in sorted(self.folder.rglob("*.rt")):
            below = path.relative_to(self.folder).with_suffix("").parts
            parts = () if below == ("lib",) else below[:-1] if below[-1] == "mod" else below
            found[".".join(parts)] = dict(types_of(lexer.solid_words(text_of(path), lexer.RATTLE_MARKS)))
        return found


def types_of(words: list[str]) -> Iterator[tuple[str, set[str]]]:
    """Yields the types of a source, each with its variants."""
    for at, word in enumerate(words[:-1]):
        if word in TYPES and lexer.is_word(words[at + 1]):
            yield words[at + 1], set(variants_of(words, at)) if word == "enum" else set()


def variants_of(words: list[str], at: int) -> Iterator[str]:
    """Yields the variants of an enum whose `enum` is at this token."""
    depth, is_next = 0, False
    for number in range(words.index("{", at), len(words)):
        word = words[number]
        if depth == 1 and is_next and lexer.is_word(word):
            yield word
            is_next = False
        depth += word in ("{", "(", "[", "<")
        depth -= word in ("}", ")", "]", ">")
        if depth == 0:
            return
        if depth == 1 and word in ("{", ","):
            is_next = True


@cache
def sources_of_kit() -> pathlib.Path | None:
    """Returns the folder of the sources of the kit, or None without `rt`."""
    tool = shutil.which("rt")
    if tool is None:
        return None
    done = subprocess.run([tool, "doc"], capture_output=True, text=True)
    found = pathlib.Path(done.stdout.strip()).parent / "rattle"
    return found if done.returncode == 0 and found.is_dir() else None


class Imports:
    """The modules of a repository, and of the kit if `rt` is there."""

    def __init__(self, top: pathlib.Path):
        self.top = top
        self.wholes = {whole: library for library, whole in Facades(top).aliases().items()}
        self.folders: dict[str, SpecFolder] = {}
        self.types: dict[str, Types] = {}

    @property
    def kit(self) -> pathlib.Path | None:
        return sources_of_kit()

    def crate_folder(self, crate: str) -> pathlib.Path | None:
        """The folder of a crate of the repository or of the kit."""
        own = self.top / "crates" / crate
        if own.is_dir():
            return own
        return self.kit / crate if self.kit and (self.kit / crate).is_dir() else None

    def specs(self, crate: str, folder: pathlib.Path) -> SpecFolder:
        return self.folders.setdefault(crate, SpecFolder(folder / "specs"))

    def trouble(self, what: Import) -> str | None:
        """Returns what is wrong with an import, or None."""
        module = what.module.removeprefix("Rattle.")
        if module == what.module:
            return None
        parts = module.split(".")
        if parts[0] == WHOLE and self.wholes and len(parts) > 2:
            library = self.wholes.get(".".join(parts[:3]))
            if library is None:
                names = [it.split(".")[2] for it in self.wholes if it.startswith("%s.%s." % (WHOLE, parts[1]))]
                return "`%s.%s` has no `%s`%s" % (WHOLE, parts[1], parts[2], nearest(parts[2], names))
            parts = [*library.split("."), *parts[3:]]
        if len(parts) < 2 or parts[1] != "specs":
            return None
        folder = self.crate_folder(parts[0])
        if folder is None:
            return "there is no crate `%s`" % parts[0] if self.kit else None
        if "declared" in parts:
            return self.declared_trouble(what, parts[0], folder, parts[3:]) if folder.is_relative_to(self.top) else None
        return self.specs_trouble(what, parts[0], folder, ".".join(parts[2:]))

    def declared_trouble(self, what: Import, crate: str, folder: pathlib.Path, parts: list[str]) -> str | None:
        """The import of a type of a source, or of its variants."""
        files = self.types.setdefault(crate, Types(folder / "src")).files
        if CONSTANTS_MODULE in parts:
            return None
        are_variants = parts[-1:] == [VARIANTS_MODULE]
        *module, name = parts[:-1] if are_variants else parts
        types = files.get(".".join(module))
        if types is None:
            return "`%s` has no source `%s`%s" % (crate, "/".join(module), nearest(".".join(module), files))
        if name not in types:
            return "`%s` of `%s` has no type `%s`%s" % ("/".join(module), crate, name, nearest(name, types))
        wrong = [it for it in what.names.values() if are_variants and it.rstrip("'") not in types[name]]
        return "`%s` has no variant `%s`%s" % (name, wrong[0], nearest(wrong[0], types[name])) if wrong else None

    def specs_trouble(self, what: Import, crate: str, folder: pathlib.Path, module: str) -> str | None:
        """The import of definitions."""
        files = self.specs(crate, folder).files
        names = self.names(crate, folder, module or "Lib")
        if module and module not in files:
            # The modules of std are those of the crates that it is made of.
            if not folder.is_relative_to(self.top):
                return None
            return "`%s` has no definitions `%s`%s" % (crate, module, nearest(module, files))
        wrong = [it for it in what.names.values() if names is not None and it not in names and "◌" not in it]
        if not wrong or names is None or ".".join(filter(None, (module, wrong[0]))) in files:
            return None
        homes = [it for it, file in files.items() if wrong[0] in file.declared]
        home = ", but `Rattle.%s.specs.%s` has it" % (crate, homes[0]) if homes else nearest(wrong[0], names)
        return "`%s` has no `%s`%s" % (what.module, wrong[0], home)

    def names(self, crate: str, folder: pathlib.Path, module: str) -> set[str] | None:
        """The names of a file of definitions, or None if it passes on names that are not known."""
        file = self.specs(crate, folder).files.get(module)
        if file is None:
            return None
        found = set(file.names)
        for it in file.passed_on:
            if not it.names and not it.alias:
                parts = it.module.removeprefix("Rattle.").split(".")
                inner = self.crate_folder(parts[0])
                more = self.names(parts[0], inner, ".".join(parts[2:])) if inner and parts[1:2] == ["specs"] else None
                if more is None:
                    return None
                found |= more
        return found


def nearest(word: str, words: Iterable[str]) -> str:
    found = difflib.get_close_matches(word, list(words), 1)
    return ": perhaps `%s`" % found[0] if found else ""


def troubles(crate: Crate, imports: Imports) -> Iterator[Trouble]:
    """Yields what is wrong with the imports of a crate."""
    for file in crate.specs.files.values():
        yield from of_imports(file.path, file.imports, imports)
        yield from of_homonyms(file)
    for source in crate.sources.values():
        for it in of_imports(source.path, list(parsed_uses(source.imports)), imports):
            is_missing = it.text.startswith("`%s` has no definitions" % crate.name) and not crate.specs.files
            yield Trouble(it.path, it.line, it.text + (": `tools/answers --draft %s` prints a draft" % crate.name if is_missing else ""))
    lib = crate.folder / "specs/Lib.antt"
    if crate.specs.files:
        listed = set(LISTED.findall(text_of(lib))) if lib.is_file() else set()
        for name in crate.specs.files:
            if "." not in name and name != "Lib" and name not in listed:
                yield Trouble(lib, 1, "it does not list `%s`: add the line `pub mod %s`" % (name, name))


def parsed_uses(uses: Iterable[NamedClause]) -> Iterator[Imported]:
    for it in uses:
        try:
            yield Imported(it.line, parsed(it.text, ""))
        except Stop:
            continue


def of_imports(path: pathlib.Path, found: list[Imported], imports: Imports) -> Iterator[Trouble]:
    for it in found:
        text = imports.trouble(it.what)
        if text:
            yield Trouble(path, it.line, text)


def of_homonyms(file: SpecFile) -> Iterator[Trouble]:
    """A name that two imports of a file give."""
    seen: dict[str, tuple[str, int]] = {}
    for it in file.imports:
        for here, there in it.what.names.items():
            module, line = seen.setdefault(here, (it.what.module, it.line))
            if module != it.what.module:
                yield Trouble(file.path, it.line, "`%s` is also imported on line %d: rename one, as in `{%s as Other%s}`" % (here, line, there, here))
