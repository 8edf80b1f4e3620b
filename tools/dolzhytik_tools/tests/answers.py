"""Tests of tools/answers: proof files that are written, forms at which the tool stops, files that a
person wrote, and `--check`. They need no prover."""
from __future__ import annotations

import contextlib
import os
import pathlib
import re
import shutil
import tempfile

from ..answers import command
from ..answers.tables import EXAMPLES, SINK_CALLS
from ..repository import TOP, text_of
from .answers_samples import (
    CODE, EXPORTS, FEATURES, HEAD, HINTS, LINKING, MODULE, PRODUCERS, READ, SAID, STACK, SUM, SYMBOLS, WRITTEN, WRITTEN_OF_CUSTOM,
)
from .report import end, report, usage_of

USAGE = usage_of("answers")
Sample = tuple[str, str, str]

# Forms at which the tool stops: a caller, a change of it, and a part of the report.
STOPS = [
    ("a loop with its example", SUM, ("    sink.end()?;", "    for i in [1, 2] {\n        sink.local_get(i)?;\n    }"), "crates/examples/src/lowering.rt"),
    ("a loop", SUM, ("    sink.end()?;", "    for i in [1, 2] {\n        sink.local_get(i)?;\n    }"), "`for`"),
    ("a match", EXPORTS, ("section.encode(sink)", "match section.encode(sink) {\n        Ok(()) => Ok(()),\n        Err(refused) => Err(refused),\n    }"), "`match`"),
    ("a branch", SUM, ("    sink.end()?;", "    if index == 0 {\n        sink.end()?;\n    }"), "`if`"),
    ("a closure", SUM, ("sink.local_get(index)?", "sink.local_get(|| 0)?"), "`|`"),
    ("a macro", SUM, ("sink.end()?", "assert!(true)"), "macro"),
    ("a call of another crate", CODE, ("&sum(alloc, 0)?", "&others::sum(alloc, 0)?"), "`others::sum`"),
    ("an unknown function", CODE, ("&sum(alloc, 0)?", "&product(alloc, 0)?"), "`product`"),
    ("a memory argument that is not written out", SUM, ("sink.i32_add()", "sink.i32_load(at)"), "MemArg"),
    ("an instruction of another shape", SUM, ("sink.i32_add()", "sink.f32_const(one)"), "F32Const"),
    ("an argument too many", SUM, ("sink.end()", "sink.end(0)"), "arguments"),
    ("a number that was computed", SUM, ("sink.local_get(index)", "sink.local_get(index + 1)"), "`+`"),
    ("a number of a call", SUM, ("sink.local_get(index)", "sink.local_get(section.len())"), "`len`"),
    ("a type with an index", SUM, ("(1, ValType::I32)", "(1, ValType::Ref(kind))"), "reference"),
    ("runs that are no array", SUM, ("[(1, ValType::I32)]", "runs"), "array"),
    ("raw bytes of an export", EXPORTS, ("export(name, ExportKind::Func, 7)", "raw(&[1, 97, 0, 7])"), "`raw`"),
    ("more than the clause says", EXPORTS, ("Func, 7)?;", 'Func, 7)?;\n    section.export("b", ExportKind::Func, 8)?;'), "more is added"),
    ("a list that is not written out", EXPORTS, ("(item name.now 7 ∷ [])", "(items name.now)"), "as a whole"),
    ("a word of no import", EXPORTS, ("(item name.now 7 ∷ [])", "(thing name.now 7 ∷ [])"), "`thing`"),
    ("a name that is not ASCII", EXPORTS, ("export(name,", 'export("é",'), "ASCII"),
    ("padded numbers", EXPORTS, ("GainsDecoding ", "GainsDecodingPadded "), "padded"),
    ("raw bytes that are no body", CODE, ("section.function(&sum(alloc, 0)?)?", "section.raw(&[0, 11])?"), "without padded"),
    ("another clause", SUM, ("IfOk result", "IfErr result"), "no form"),
    ("another result", CODE, ("Ok(section)", "Ok(sum)"), "its result"),
    ("a section of which nothing is known", MODULE, ("&code(alloc)?", "&given"), "nothing is known"),
    ("no end", CODE, ("    Ok(section)\n", ""), "returns nothing"),
    ("a symbol's name that is no option", SYMBOLS, ("Some(name)", "name"), "neither"),
    ("symbols that no function says", LINKING, ("&symbols(alloc, name)?", "&given"), "nothing is known"),
    ("a custom section with padded numbers", LINKING, ("GainsDecoding ", "GainsDecodingPadded "), "padded"),
    ("a prefix that is not written out", FEATURES, ("FeaturePrefix::Used", "prefix"), "prefix"),
    ("hints that are no array", HINTS, ("[hint]", "given"), "no array"),
    ("a value of a core dump that is a float", STACK, ("CoreDumpValue::Missing", "CoreDumpValue::F32(one)"), "core dump"),
]


def function_of(caller: Sample) -> str:
    return "\npub fn %s\n    ensures { %s }\n{%s}\n" % caller


def link_libraries(top: pathlib.Path, *parts: str) -> None:
    """Gives a repository these folders of the libraries of this one."""
    (top / "crates.txt").write_bytes((TOP / "crates.txt").read_bytes())
    for path in (TOP / "crates").iterdir():
        if path.name.startswith("wasm_") or path.name == "dolzhytik":
            (top / "crates" / path.name).mkdir()
            for part in parts:
                (top / "crates" / path.name / part).symlink_to(path / part)


class Folder:
    """A repository with one crate of callers."""

    def __init__(self, folder: str, text: str):
        self.top = pathlib.Path(folder)
        (self.top / "tools").mkdir()
        (self.top / "tools/instructions.tsv").write_bytes((TOP / "tools/instructions.tsv").read_bytes())
        self.crate = self.top / "crates/mine"
        self.source = self.crate / "src/adding.rt"
        self.source.parent.mkdir(parents=True)
        link_libraries(self.top, "src", "specs")
        (self.crate / "specs").mkdir()
        (self.crate / "specs/Lib.antt").write_text("pub mod Said\n", encoding="utf-8")
        (self.crate / "specs/Said.antt").write_text(SAID, encoding="utf-8")
        self.write(text)

    def write(self, text: str) -> None:
        self.source.write_text(HEAD + text, encoding="utf-8")

    def answers(self, name: str) -> pathlib.Path:
        return self.crate / "proofs/adding" / name / "Answers.antt"

    def run(self, is_check: bool = False) -> tuple[int, list[str]]:
        """Returns the status and the reported lines."""
        said: list[str] = []
        return command.run(["mine"], is_check, self.top, said.append), said


def written_trouble(text: str, written: dict[str, str]) -> str | None:
    with tempfile.TemporaryDirectory() as name:
        folder = Folder(name, text)
        status, said = folder.run()
        if status or len(said) != len(written):
            return "it said %s" % said
        for function, text in written.items():
            if not folder.answers(function).is_file() or folder.answers(function).read_text(encoding="utf-8") != text:
                return "the answers of %s are others" % function
        status, said = folder.run(True)
        return None if (status, said) == (0, ["%d passed, 0 failed" % len(written)]) else "--check said %s" % said


def stop_trouble(caller: Sample, change: tuple[str, str], part: str) -> str | None:
    text = function_of(caller)
    if change[0] not in text:
        return "the text is not there"
    others = "".join(function_of(it) for it in (SUM, CODE) if it is not caller)
    with tempfile.TemporaryDirectory() as name:
        folder = Folder(name, others + text.replace(*change))
        function = caller[0].split("<")[0].split("(")[0]
        status, said = folder.run()
        line = next((it for it in said if re.match(r"src/adding\.rt:\d+: %s: left" % function, it)), None)
        if folder.answers(function).exists() or line is None:
            return "it was not stopped at"
        return None if part in line else "it said: %s" % line


def clause_trouble() -> str | None:
    """A function with a `requires`, and one with two clauses, are left; one with no clause has no
    answers."""
    with tempfile.TemporaryDirectory() as name:
        text = function_of(SUM)
        folder = Folder(name, text.replace("    ensures", "    requires { index ≡ 0 }\n    ensures"))
        first = folder.run()[1]
        folder.write(text.replace("\n{", "\n    ensures more { index ≡ 0 }\n{", 1))
        second = folder.run()[1]
        folder.write(text.replace("    ensures { %s }\n" % SUM[1], ""))
        if "requires" not in first[0] or "several clauses" not in second[0] or folder.run()[1] or folder.answers("sum").exists():
            return "it said %s, %s" % (first, second)
    return None


def by_hand_trouble() -> str | None:
    """A file that a person wrote stays, and is not compared."""
    with tempfile.TemporaryDirectory() as name:
        folder = Folder(name, function_of(SUM))
        folder.answers("sum").parent.mkdir(parents=True)
        folder.answers("sum").write_text("-- Mine.\n", encoding="utf-8")
        said = folder.run()[1] + folder.run(True)[1]
        if folder.answers("sum").read_text(encoding="utf-8") != "-- Mine.\n" or "by hand" not in said[0] or said[-1] != "0 passed, 0 failed":
            return "it said %s" % said
    return None


def check_trouble() -> str | None:
    """`--check` reports a changed file, a missing one, and one that nothing writes any more."""
    with tempfile.TemporaryDirectory() as name:
        folder = Folder(name, function_of(SUM) + function_of(CODE))
        folder.run()
        path = folder.answers("sum")
        path.write_text(path.read_text(encoding="utf-8").replace("b4", "b9"), encoding="utf-8")
        touched = folder.run(True)
        path.unlink()
        missing = folder.run(True)
        folder.run()
        folder.write(function_of(SUM).replace("    sink.end()?;", "    nope(sink)?;") + function_of(CODE))
        left = folder.run(True)
        for status, said in (touched, missing, left):
            if status != 1 or said[-1] != "1 passed, 1 failed":
                return "it said %s" % said
    return None


def words_trouble() -> str | None:
    """A missing crate and unknown words are reported."""
    with open(os.devnull, "w", encoding="utf-8") as null, contextlib.redirect_stderr(null):
        found = [command.main(words, USAGE) for words in ([], ["--all"], ["no_such_crate"], ["--draft"], ["--draft", "adder", "examples"])]
    return None if found == [2] * 5 else "statuses %s" % found


class Copy:
    """A repository with a copy of the crate `adder`."""

    def __init__(self, folder: str):
        self.top = pathlib.Path(folder)
        (self.top / "tools").mkdir()
        (self.top / "tools/instructions.tsv").write_bytes((TOP / "tools/instructions.tsv").read_bytes())
        self.crate = self.top / "crates/adder"
        shutil.copytree(TOP / "crates/adder", self.crate, ignore=shutil.ignore_patterns("out"))
        link_libraries(self.top, "src", "specs", "proofs")

    def change(self, file: str, old: str, new: str) -> int:
        """Changes the one place of a text, and returns its line."""
        text = text_of(self.crate / file)
        assert text.count(old) == 1, old
        (self.crate / file).write_text(text.replace(old, new), encoding="utf-8")
        return text[: text.index(old)].count("\n") + 1

    def run(self) -> tuple[int, list[str]]:
        said: list[str] = []
        return command.run(["adder"], False, self.top, said.append), said


LIB, ITEMS = "src/lib.rt", "specs/Items.antt"
# Changes of the crate `adder` that the tool rejects: the file, the old and the new text, the lines
# below the change, and the report after the file and the line.
REJECTED = [
    ("another index", LIB, "sink.local_get(1)", "sink.local_get(0)", 0, "sum: local_get 0, but sum_body has local_get 1 (item 2)"),
    ("another instruction", LIB, "sink.i32_add()", "sink.i32_sub()", 0, "sum: i32_sub, but sum_body has i32_add (item 3)"),
    ("a missing instruction", LIB, "    sink.end()?;\n", "", -1, "sum: end is missing: sum_body has it (item 4)"),
    ("one instruction more", LIB, "    sink.end()?;\n", "    sink.end()?;\n    sink.nop()?;\n", 1, "sum: nop, but sum_body ends before it (item 5)"),
    ("a local", LIB, "Function::new(alloc, [])", "Function::new(alloc, [(1, ValType::I64)])", 6, "sum: (1, I64), but sum_body ends before it (item 1)"),
    ("another type", LIB, "[ValType::I32])?;", "[ValType::F64])?;", 0, "types: F64, but add_type has I32 (item 1)"),
    ("another number", LIB, "section.function(0)", "section.function(7)", 0, "functions: 7, but the clause has 0 (item 1)"),
    ("another name", LIB, '"add"', '"plus"', 0, 'exports: name "plus", but add_export has name "add" (item 1)'),
    ("another kind", LIB, "ExportKind::Func, 0", "ExportKind::Global, 0", 0, "exports: kind Global, but add_export has kind Func (item 1)"),
    ("a missing section", LIB, "    module.section(&types(alloc)?)?;\n", "", 0, "add_module: a function section, but add_sections has a type section (section 1)"),
    ("another definition", ITEMS, "kind = Func", "kind = Table", 39, None),
    ("a call that is not named", LIB, "sink.i32_add()", "sink.i32_shl()", 0, "sum: the sink has no call `i32_shl`: write `function.instruction(&Instruction::I32Shl)?` (docs/PROOFS.md lists its calls)"),
    ("a call with immediates", LIB, "sink.i32_add()", "sink.i64_load(at)", 0, "sum: the sink has no call `i64_load`: write `function.instruction(&Instruction::I64Load(..))?` (docs/PROOFS.md lists its calls)"),
    ("a call with fields", LIB, "sink.i32_add()", "sink.memory_copy(0, 0)", 0, "sum: the sink has no call `memory_copy`: write `function.instruction(&Instruction::MemoryCopy { dst_mem: .., src_mem: .. })?` (docs/PROOFS.md lists its calls)"),
    ("a keyword", LIB, "sink.i32_add()", "sink.drop()", 0, "sum: the sink has no call `drop`, but `drop_`"),
    ("a call of no instruction", LIB, "sink.i32_add()", "sink.i32_ad()", 0, "sum: the sink has no call `i32_ad`, but `i32_add`: docs/PROOFS.md lists its calls"),
    ("a word of no module", ITEMS, "Body, code_decoding, normal_row", "Body, code_decoding, normal_rows", 0, "`Rattle.dolzhytik.specs.code.Words` has no `normal_rows`: perhaps `normal_row`"),
    ("a word of another module", ITEMS, "sections.Words.{ExportItem,", "sections.Words.{IsExport, ExportItem,", 0, "`Rattle.dolzhytik.specs.sections.Words` has no `IsExport`, but `Rattle.wasm_sections.specs.Exports` has it"),
    ("a module that is not there", ITEMS, "specs.types.Words", "specs.types.Word", 0, "`wasm_types` has no definitions `Word`: perhaps `Words`"),
    ("a library that is not there", ITEMS, "specs.types.Words", "specs.type.Words", 0, "`dolzhytik.specs` has no `type`: perhaps `types`"),
    ("a type that is not there", ITEMS, "ExportKind.TheVariants", "ExportKinds.TheVariants", 0, "`export` of `wasm_sections` has no type `ExportKinds`: perhaps `ExportKind`"),
    ("a variant that is not there", ITEMS, "{LocalGet, Numeric, End}", "{LocalGet, Numeric, Ends}", 0, "`Instruction` has no variant `Ends`: perhaps `End`"),
    ("a name with two meanings", ITEMS, "TheVariants.{Func}", "TheVariants.{Func, Global}", 0, "`Global` is also imported on line 3: rename one, as in `{Global as OtherGlobal}`"),
    ("a clause's word", LIB, "add_type, add_export", "add_types, add_export", 0, "`Rattle.adder.specs.Items` has no `add_types`: perhaps `add_type`"),
    ("a file that is not listed", "specs/Lib.antt", "pub mod Items\n", "", -1, "it does not list `Items`: add the line `pub mod Items`"),
]


def rejected_trouble(file: str, old: str, new: str, below: int, report: str | None) -> str | None:
    with tempfile.TemporaryDirectory() as name:
        copy = Copy(name)
        line = copy.change(file, old, new) + below
        status, said = copy.run()
        found = [it for it in said if not it.endswith("unchanged")]
        wanted = "%s:%d: %s" % (file, line, report)
        if report is None:
            wanted = "src/lib.rt:57: exports: kind Func, but add_export has kind Table (item 1)"
        return None if status == 1 and wanted in found else "it said %s, and not %s" % (found, wanted)


def draft_trouble() -> str | None:
    """The draft of `adder` has its definitions, and its imports are there."""
    with tempfile.TemporaryDirectory() as name:
        copy = Copy(name)
        drafted = command.draft("adder", copy.top)
        (copy.crate / ITEMS).write_text(drafted, encoding="utf-8")
        status, said = copy.run()
        if status or not all(it.endswith("unchanged") for it in said):
            return "with it the tool says %s" % said
        copy.change(LIB, "sink.local_get(1)", "sink.local_get(0)")
        return None if command.draft("adder", copy.top) != drafted else "it is not of the functions"


def sink_trouble() -> str | None:
    """The tool, the source and the pages have the same named calls of the sink."""
    source = text_of(TOP / "crates/wasm_insn/src/sink.rt")
    calls = [it for it in re.findall(r"^    pub fn (\w+)", source, re.M) if it not in ("new", "op")]
    if tuple(calls) != SINK_CALLS:
        return "the source has %s" % sorted({*calls} ^ {*SINK_CALLS})
    for page in ("docs/PROOFS.md", "docs/TUTORIAL.md"):
        listed = re.search(r"the (\d+) named calls[^:]*: ((?:`\w+`[\s,]*(?:and )?)+)", text_of(TOP / page))
        if not listed or int(listed[1]) != len(calls) or tuple(re.findall(r"`(\w+)`", listed[2])) != SINK_CALLS:
            return "%s lists others" % page
    return None


def examples_trouble() -> str | None:
    """The examples that reports name are there."""
    for example in EXAMPLES.values():
        found = re.fullmatch(r"(\S+) \(`(\w+)`\)", example)
        if not found or "fn %s" % found[2] not in text_of(TOP / found[1]):
            return "there is no %s" % example
    return None


# The listings of the tutorial, up to the program, which is another crate.
LISTING = re.compile(r"```(?:rust|antt)\n(.*?)```", re.DOTALL)


def tutorial_trouble() -> str | None:
    """The crate `adder` is what the tutorial ends with: its listings, each item once."""
    files = [text_of(TOP / f"crates/adder/{it}") for it in ("src/lib.rt", "specs/Items.antt", "specs/Lib.antt")]
    page = text_of(TOP / "docs/TUTORIAL.md").split("## 6.")[0]
    listed = "\n\n".join(it.strip("\n") for it in LISTING.findall(page)).split("\n\n")
    missing = [it for it in "\n\n".join(file.strip("\n") for file in files).split("\n\n") if it not in listed]
    if missing:
        return f"the tutorial lacks {missing[0]!r}"
    with tempfile.TemporaryDirectory() as name:
        copy = Copy(name)
        copy.change(LIB, "sink.local_get(1)?", "sink.local_get(0)?")
        report = copy.run()[1][0]
        return None if f"$ tools/answers adder\n{report}\n" in page else f"the tutorial lacks {report}"


WRONG_ROW = re.compile(r"^\| `([^`]+)` \| `([^`]+)` \| `(src/[^`]+)` \|$", re.M)


class Second:
    """A repository with the crate of the second part of the tutorial, and its draft."""

    def __init__(self, folder: str):
        self.top = pathlib.Path(folder)
        (self.top / "tools").mkdir()
        (self.top / "tools/instructions.tsv").write_bytes((TOP / "tools/instructions.tsv").read_bytes())
        self.crate = self.top / "crates/total"
        for part in ("src", "specs"):
            (self.crate / part).mkdir(parents=True)
        link_libraries(self.top, "src", "specs", "proofs")
        self.page = text_of(TOP / "docs/TUTORIAL.md").split("## 7.")[1]
        self.source = re.findall(r"```rust\n(.*?)```", self.page, re.S)[0]
        self.write(self.source)
        self.first = self.run()[1]
        self.draft = command.draft("total", self.top)
        (self.crate / ITEMS).write_text(self.draft, encoding="utf-8")
        (self.crate / "specs/Lib.antt").write_text("pub mod Items\n", encoding="utf-8")

    def write(self, source: str) -> None:
        (self.crate / LIB).write_text(source, encoding="utf-8")

    def run(self) -> tuple[int, list[str]]:
        said: list[str] = []
        return command.run(["total"], False, self.top, said.append), said


def second_part_trouble() -> str | None:
    """The tool drafts the definitions of the second part, writes all its proofs, and says on its
    wrong bodies what the page says."""
    with tempfile.TemporaryDirectory() as name:
        second = Second(name)
        if not second.first[0].endswith("`total` has no definitions `Items`: `tools/answers --draft total` prints a draft"):
            return "without definitions it said %s" % second.first[0]
        shutil.rmtree(second.crate / "proofs")
        for listing in re.findall(r"```antt\n(.*?)```", second.page, re.S):
            missing = [it for it in listing.strip("\n").split("\n\n") if it not in second.draft]
            if missing:
                return "the draft lacks %r" % missing[0]
        status, said = second.run()
        if status or not said or not all(it.endswith(": written") for it in said):
            return "it said %s" % said
        rows = WRONG_ROW.findall(second.page)
        for old, new, report in rows:
            second.write(second.source.replace(old, new))
            found = [it for it in second.run()[1] if not it.endswith("unchanged")]
            if second.source.count(old) != 1 or found != [report]:
                return "of %s it said %s" % (new, found)
        second.write(second.source.replace("&square(alloc)?", "&total(alloc)?"))
        found = [it for it in second.run()[1] if not it.endswith("unchanged")]
        if len(found) != 1 or "code: total_body, but the clause has square_body (item 1)" not in found[0]:
            return "of another body it said %s" % found
        return None if len(rows) == 5 else "the page has %d wrong bodies" % len(rows)


def main() -> int:
    """Runs the tests."""
    core = "".join(map(function_of, (SUM, CODE, EXPORTS, MODULE)))
    custom = "".join(map(function_of, (SYMBOLS, LINKING, PRODUCERS, FEATURES, HINTS, STACK))) + READ
    troubles = {"what is written": written_trouble(core, WRITTEN), "what is written of custom sections": written_trouble(custom, WRITTEN_OF_CUSTOM)}
    troubles.update({name: stop_trouble(*what) for name, *what in STOPS})
    troubles.update({name: rejected_trouble(*what) for name, *what in REJECTED})
    troubles.update({"a draft": draft_trouble(), "the calls of the sink": sink_trouble(), "examples": examples_trouble()})
    troubles.update({"clauses": clause_trouble(), "files written by hand": by_hand_trouble(), "--check": check_trouble(), "words": words_trouble(), "the tutorial": tutorial_trouble(), "the second part of the tutorial": second_part_trouble()})
    return end([report("answers-test", *it) for it in troubles.items()])
