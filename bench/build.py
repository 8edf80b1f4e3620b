#!/usr/bin/env python3
"""Counts what the build of a user's program costs, at each opt-level. `bench/run build` starts it.

    bench/build.py [FOLDER]

FOLDER has the sources of the crate `wasm-encoder`: with it the same is counted for the crate, side
by side. Cargo must find the dependencies of the crate without a network.

    WORKS='calls exports' PROFILES='3 fat' bench/build.py

picks users and profiles, and LEAST=5 the number of builds of which the least is counted.
"""
from __future__ import annotations

import os
import pathlib
import random
import re
import resource
import shutil
import subprocess
import sys
from collections.abc import Callable, Iterator

HERE = pathlib.Path(__file__).resolve().parent
ROOM = HERE / "out/build"
OURS = HERE.parent / "rust"
LEAST = int(os.environ.get("LEAST", "3"))
LEVELS = ("0", "1", "2", "3", "s", "z")
# The profiles of a user: an opt-level in cargo's release profile, or fat LTO.
PROFILES = os.environ.get("PROFILES", " ".join((*LEVELS, "fat"))).split()
# The profiles of the dependency alone.
DEPENDENCY = ("dev", "release", "fat")

FUNCTIONS = 100
CALLS = 50
BUILDER_CALLS = 2000
BUILDER_CALLS_OF_A_FUNCTION = 50

# The named calls of a function, and how often each is drawn. The immediates are parameters of the
# function, or constants.
NAMED = [
    (12, "local_get(%(index)s)"), (6, "local_set(%(index)s)"), (4, "local_tee(%(index)s)"),
    (3, "global_get(%(index)s)"), (2, "global_set(%(index)s)"), (8, "i32_const(%(i32)s)"),
    (3, "i64_const(%(i64)s)"), (1, "f32_const(Ieee32::new(%(index)s))"), (1, "f64_const(Ieee64::new(7))"),
    (6, "i32_load(%(memarg)s)"), (3, "i64_load(%(memarg)s)"), (2, "i32_load8_u(%(memarg)s)"),
    (4, "i32_store(%(memarg)s)"), (2, "i64_store(%(memarg)s)"), (1, "v128_load(%(memarg)s)"),
    (5, "call(%(index)s)"), (2, "call_indirect(0, %(index)s)"), (3, "br(%(index)s)"), (4, "br_if(%(index)s)"),
    (1, "br_table([0, 1, 2], %(index)s)"), (3, "block(%(block)s)"), (2, "loop_(%(block)s)"), (3, "if_(%(block)s)"),
    (2, "else_()"), (8, "end()"), (2, "return_()"), (2, "drop()"), (1, "select()"), (1, "ref_null(HeapType::FUNC)"),
    (1, "ref_func(%(index)s)"), (1, "table_get(%(index)s)"), (1, "memory_copy(0, 0)"), (1, "struct_new(%(index)s)"),
    (1, "struct_get(%(index)s, 1)"), (1, "i32x4_add()"), (1, "i8x16_extract_lane_s(3)"), (1, "i32_atomic_load(%(memarg)s)"),
] + [(2, f"i32_{op}()") for op in ("add", "sub", "mul", "and", "eqz", "eq", "lt_s", "ge_u", "shl")] + [
    (1, f"{op}()") for op in ("i64_add", "i64_mul", "i64_extend_i32_u", "i32_wrap_i64", "f64_add", "f64_mul", "i32_trunc_sat_f64_s", "nop")
]
IMMEDIATES = {
    "index": ("a", "b", "0", "1", "200"), "i32": ("c", "1", "-1", "1024"), "i64": ("i64::from(c)", "1"),
    "memarg": ("m", "MemArg { offset: 8, ..m }"),
    "block": ("BlockType::Empty", "BlockType::Result(ValType::I32)", "BlockType::FunctionType(a)"),
}

# The calls of each builder: the section, how it is made, and calls that append an entry.
BUILDERS = {
    "types": ("TypeSection::new()", ["ty().function([ValType::I32, ValType::I64], [ValType::I32])", "ty().function([], [])", "ty().array(&StorageType::I8, true)"]),
    "imports": ("ImportSection::new()", ['import("env", "f", EntityType::Function(a))', 'import("env", "m", memory(a))', 'import("env", "g", global())']),
    "functions": ("FunctionSection::new()", ["function(a)", "function(3)"]),
    "tables": ("TableSection::new()", ["table(table(a))", "table_with_init(table(a), &ConstExpr::ref_null(HeapType::FUNC))"]),
    "memories": ("MemorySection::new()", ["memory(memory(a))"]),
    "tags": ("TagSection::new()", ["tag(TagType { kind: TagKind::Exception, func_type_idx: a })"]),
    "globals": ("GlobalSection::new()", ["global(global(), &ConstExpr::i32_const(7))", "global(global(), &ConstExpr::global_get(a).with_i32_const(1).with_i32_add())"]),
    "exports": ("ExportSection::new()", ['export("memory", ExportKind::Memory, 0)', 'export("f", ExportKind::Func, a)']),
    "elements": ("ElementSection::new()", ["active(None, &ConstExpr::i32_const(1), Elements::Functions(Cow::Borrowed(&[1, 2, 3])))", "passive(Elements::Functions(Cow::Borrowed(&[1])))"]),
    "data": ("DataSection::new()", ["active(0, &ConstExpr::i32_const(1024), [1, 2, 3])", "passive(*b\"data\")"]),
    "code": ("CodeSection::new()", ["raw(&[0, 0x0B])", "function(&Function::new([(a, ValType::I32)]))"]),
    "names": ("NameMap::new()", ['append(a, "f")']),
    "symbols": ("SymbolTable::new()", ['function(0, a, Some("f"))', 'data(0, "d", None)']),
}

HEAD = """#![allow(unused_imports, unused_variables, dead_code)]
use std::borrow::Cow;
use std::hint::black_box;
use wasm_encoder::*;

fn table(minimum: u32) -> TableType {
    TableType { element_type: RefType::FUNCREF, table64: false, minimum: minimum.into(), maximum: None, shared: false }
}

fn memory(minimum: u32) -> MemoryType {
    MemoryType { minimum: minimum.into(), maximum: Some(65536), memory64: false, shared: false, page_size_log2: None }
}

fn global() -> GlobalType {
    GlobalType { val_type: ValType::I32, mutable: true, shared: false }
}
"""


def named(draw: random.Random) -> str:
    """Returns a named call with its immediates."""
    (_, call), = draw.choices(NAMED, [often for often, _ in NAMED])
    return re.sub(r"%\((\w+)\)s", lambda found: draw.choice(IMMEDIATES[found.group(1)]), call)


def of_calls() -> str:
    """Returns a program of functions that make named calls."""
    draw = random.Random(1)
    text = HEAD
    for i in range(FUNCTIONS):
        chain = "".join(f"\n        .{named(draw)}" for _ in range(CALLS))
        text += f"\n#[inline(never)]\nfn f{i}(f: &mut Function, a: u32, b: u32, c: i32, m: MemArg) {{\n    f.instructions(){chain};\n}}\n"
    made = "".join(f"    f{i}(&mut body, black_box({i}), 2, 3, mem_arg);\n" for i in range(FUNCTIONS))
    arguments = "MemArg { offset: black_box(8), align: 2, target: MemArgTarget::Memory(0), ordering: None }"
    return text + f"\nfn main() {{\n    let mem_arg = {arguments};\n    let mut body = Function::new([]);\n{made}    black_box(body);\n}}\n"


def builder_functions(name: str, calls: int, first: int = 0) -> Iterator[tuple[str, str]]:
    """Yields functions that call a builder, and the lines that call them."""
    new, entries = BUILDERS[name]
    kind = new.split("::")[0]
    draw = random.Random(1)
    for i in range(first, first + max(1, calls // BUILDER_CALLS_OF_A_FUNCTION)):
        lines = "".join(f"    s.{draw.choice(entries)};\n" for _ in range(BUILDER_CALLS_OF_A_FUNCTION))
        yield f"\n#[inline(never)]\nfn {name}{i}(s: &mut {kind}, a: u32) {{\n{lines}}}\n", f"    {name}{i}(&mut {name}, black_box({i}));\n"


def of_builders(names: list[str], calls: int) -> str:
    """Returns a program that calls builders, each this many times."""
    text, made = HEAD, ""
    for name in names:
        made += f"    let mut {name} = {BUILDERS[name][0]};\n"
        for function, line in builder_functions(name, calls):
            text, made = text + function, made + line
        made += f"    black_box({name});\n"
    return text + f"\nfn main() {{\n{made}}}\n"


# The users: a program of nothing, one of named calls, one of calls of all builders, and one for
# each builder.
USERS: dict[str, Callable[[], str]] = {
    "nothing": lambda: "fn main() {}\n",
    "calls": of_calls,
    "builders": lambda: of_builders(list(BUILDERS), BUILDER_CALLS // len(BUILDERS)),
    **{name: lambda name=name: of_builders([name], BUILDER_CALLS) for name in BUILDERS},
}
WORKS = os.environ.get("WORKS", " ".join(USERS)).split()


def environment(profile: str) -> dict[str, str]:
    """Returns the variables that select a profile of cargo. A package by path is compiled as one of
    a registry: not incrementally."""
    lto, units = ("fat", "1") if profile == "fat" else ("false", "16")
    level = profile if profile in LEVELS else "3"
    return {
        **os.environ, "CARGO_NET_OFFLINE": "true", "CARGO_INCREMENTAL": "0", "CARGO_PROFILE_RELEASE_OPT_LEVEL": level,
        "CARGO_PROFILE_RELEASE_LTO": lto, "CARGO_PROFILE_RELEASE_CODEGEN_UNITS": units,
    }


class Library:
    """A library that the programs name `wasm_encoder`: this package, or the crate."""

    def __init__(self, name: str, package: str, folder: pathlib.Path):
        self.name, self.package, self.room = name, package, ROOM / name
        self.dependency = f'wasm-encoder = {{ package = "{package}", path = "{folder}" }}'

    def write(self, work: str, text: str, edition: str = "2021") -> None:
        """Writes the package of a user, which is its own workspace."""
        folder = self.room / work
        (folder / "src").mkdir(parents=True, exist_ok=True)
        (folder / "src/main.rs").write_text(text)
        (folder / "Cargo.toml").write_text(
            f'[package]\nname = "{work}"\nversion = "0.1.0"\nedition = "{edition}"\n\n[dependencies]\n{self.dependency}\n\n[workspace]\n')

    def program(self, work: str, profile: str) -> pathlib.Path:
        """Builds the program of a user."""
        target = self.room / "target" / profile
        self.cargo(work, target, profile)
        return target / "release" / work

    def cargo(self, work: str, target: pathlib.Path, profile: str, *words: str) -> None:
        """Builds with cargo, in the folder of a user."""
        release = [] if profile == "dev" else ["--release"]
        command = ["cargo", "build", "--quiet", *release, "--target-dir", str(target), *words]
        subprocess.run(command, cwd=self.room / work, env=environment(profile), check=True)

    def user(self, work: str, profile: str) -> tuple[float, int]:
        """Returns the seconds that the program alone takes to compile, and the bytes of its
        text."""
        program = self.program(work, profile)
        least = min(seconds(lambda: self.again(work, profile)) for _ in range(LEAST))
        return least, text_of(program)

    def again(self, work: str, profile: str) -> None:
        """Builds the program again, and none of its dependencies."""
        os.utime(self.room / work / "src/main.rs")
        self.program(work, profile)

    def cold(self, profile: str) -> float:
        """Returns the seconds that the library takes to compile."""
        def once() -> float:
            target = self.room / "cold"
            shutil.rmtree(target, ignore_errors=True)
            return seconds(lambda: self.cargo("nothing", target, profile, "--package", self.package))
        return min(once() for _ in range(LEAST))


def seconds(call: Callable[[], None]) -> float:
    """Returns the processor time that the processes of a call take in user mode."""
    before = resource.getrusage(resource.RUSAGE_CHILDREN).ru_utime
    call()
    return resource.getrusage(resource.RUSAGE_CHILDREN).ru_utime - before


def text_of(program: pathlib.Path) -> int:
    """Returns the bytes of code and constants of a program."""
    lines = subprocess.run(["size", str(program)], capture_output=True, text=True, check=True).stdout.splitlines()
    return int(lines[1].split()[0])


def row(cells: list[object]) -> None:
    """Prints a row of a table at once."""
    print("| " + " | ".join(str(cell) for cell in cells) + " |", flush=True)


def heads(first: list[str], libraries: list[Library], units: list[str]) -> None:
    """Prints the head of a table: columns for each library, and the ratios of the two."""
    cells = first + [f"{it.name}: {unit}" for it in libraries for unit in units]
    cells += [f"ratio of {unit}" for unit in units] * (len(libraries) - 1)
    row(cells)
    row(["---"] * len(cells))


def figures(measured: list[tuple[float, ...]]) -> list[str]:
    """Returns the cells of each library, and the ratios of the first to the second."""
    cells = [f"{it:.2f}" if isinstance(it, float) else f"{it:,}" for found in measured for it in found]
    if len(measured) == 2:
        cells += [f"{ours / theirs:.2f}" for ours, theirs in zip(*measured)]
    return cells


def libraries_of(folders: list[str]) -> list[Library]:
    """Returns this package, and the crate if its folder is given."""
    theirs = [Library("crate", "wasm-encoder", pathlib.Path(it).resolve()) for it in folders]
    return [Library("here", "dolzhytik", OURS), *theirs]


def main() -> int:
    """Prints the tables."""
    if len(sys.argv) > 2 or not set(WORKS) <= set(USERS):
        print(__doc__, file=sys.stderr)
        return 2
    libraries = libraries_of(sys.argv[1:])
    for library in libraries:
        for work in dict.fromkeys(["nothing", *WORKS]):
            library.write(work, USERS[work]())
    heads(["user", "profile"], libraries, ["seconds", "text"])
    for work in WORKS:
        for profile in PROFILES:
            row([work, profile] + figures([it.user(work, profile) for it in libraries]))
    print()
    heads(["dependency"], libraries, ["seconds"])
    for profile in DEPENDENCY:
        row([profile] + figures([(it.cold(profile),) for it in libraries]))
    return 0


if __name__ == "__main__":
    sys.exit(main())
