"""Runs the listings of README.md, docs/RECIPES.md and docs/C.md: programs compile, commands
succeed, and both print what the page says."""
from __future__ import annotations

import os
import pathlib
import re
import shutil
import subprocess
import tempfile

from ..repository import TOP, text_of
from .report import end, report

TARGET = TOP / "rust/target"
BLOCK = re.compile(r"^```(\w+)\n(.*?)^```", re.M | re.S)
# The module that README.md builds twice: by a program and by a recipe.
ADD = "0061736d01000000 0107016002 7f7f017f 03020100 0707010361646400 00 0a09010700 20002001 6a0b"


def built() -> str | None:
    """Builds the package with its programs, and the library for C."""
    for words in (["--features", "programs"], ["--release", "--package", "dolzhytik-c"]):
        done = subprocess.run(["cargo", "build", "--quiet", "--offline", "--manifest-path", str(TOP / "rust/Cargo.toml"), "--target-dir", str(TARGET), *words], capture_output=True, text=True)
        if done.returncode:
            return done.stderr
    return None


def blocks(page: str, language: str) -> list[str]:
    """Returns the listings of a page in this language."""
    return [text for name, text in BLOCK.findall(text_of(TOP / page)) if name == language]


def run(folder: pathlib.Path, *words: str) -> tuple[int, str]:
    """Runs a command in the folder with the built programs on the path, and returns its status and
    all that it printed."""
    path = os.pathsep.join([str(TARGET / "debug"), os.environ["PATH"]])
    done = subprocess.run(words, cwd=folder, env={**os.environ, "PATH": path}, stdout=subprocess.PIPE, stderr=subprocess.STDOUT, text=True)
    return done.returncode, done.stdout


def module_trouble(folder: pathlib.Path, name: str) -> str | None:
    """Compares a module in the folder with the one of README.md."""
    found = (folder / name).read_bytes()
    return None if found == bytes.fromhex(ADD) else f"{name} is {found.hex()}"


def first_run_trouble(folder: pathlib.Path) -> str | None:
    """`./wasmrow` prints what follows its command in README.md, here as cargo builds it."""
    command, wanted = re.findall(r"^\$ (.*wasmrow)\n(.*\n)", blocks("README.md", "console")[0], re.M)[0]
    status, said = run(TOP, "sh", "-c", f"{command} --unproved 2>/dev/null")
    return None if (status, said) == (0, wanted) else f"{command}: status {status}: {said}"


def program_trouble(folder: pathlib.Path) -> str | None:
    """The first program of README.md writes its module."""
    (folder / "add.rs").write_text(blocks("README.md", "rust")[0])
    library = TARGET / "debug/libdolzhytik.rlib"
    status, said = run(folder, "rustc", "--edition", "2024", "--extern", f"wasm_encoder={library}", "-L", f"dependency={TARGET}/debug/deps", "add.rs")
    if status:
        return said
    status, said = run(folder, "./add")
    return said if status else module_trouble(folder, "add.wasm")


def commands_trouble(folder: pathlib.Path) -> str | None:
    """The commands of README.md build the same module, and add 2 and 3 with it."""
    for line in blocks("README.md", "sh")[0].splitlines():
        if line.startswith("cargo install ") or (line.startswith("node ") and not shutil.which("node")):
            continue
        status, said = run(folder, "sh", "-c", line)
        if status or (line.startswith("node ") and said != "5\n"):
            return f"{line}: status {status}: {said}"
    return module_trouble(folder, "add.wasm") or module_trouble(folder, "small.wasm")


def recipes_trouble(folder: pathlib.Path) -> str | None:
    """The commands of docs/RECIPES.md, over its first recipe, print what follows them."""
    (folder / "load.txt").write_text(blocks("docs/RECIPES.md", "text")[0])
    for block in blocks("docs/RECIPES.md", "console"):
        for command, wanted in re.findall(r"^\$ (.*)\n((?:(?!\$ ).*\n)*)", block, re.M):
            if not shutil.which(command.split()[0], path=f"{TARGET}/debug:{os.environ['PATH']}"):
                continue
            status, said = run(folder, "sh", "-c", command)
            if status or said != wanted:
                return f"{command}: status {status}: {said}"
    return None


def c_trouble(folder: pathlib.Path) -> str | None:
    """The program of docs/C.md lists the four sections of its module."""
    (folder / "add.c").write_text(blocks("docs/C.md", "c")[0])
    status, said = run(folder, "cc", "-Wall", "-Wextra", "-I", str(TOP / "crates/wasm_c/include"), "add.c", str(TARGET / "release/libdolzhytik.a"), "-o", "add")
    if status:
        return said
    status, said = run(folder, "./add")
    wanted = "id 1 at 10, 7 bytes\nid 3 at 19, 2 bytes\nid 7 at 23, 7 bytes\nid 10 at 32, 9 bytes\n"
    return None if (status, said) == (0, wanted) else f"status {status}: {said}"


def main() -> int:
    """Builds what the listings call, and runs the tests, each in a folder of its own."""
    tests = {
        "the first run of README.md": first_run_trouble,
        "the program of README.md": program_trouble,
        "the commands of README.md": commands_trouble,
        "docs/RECIPES.md": recipes_trouble,
        "docs/C.md": c_trouble,
    }
    passed = [report("listings-test", "what they call", built())]
    for name, test in tests.items():
        with tempfile.TemporaryDirectory() as folder:
            passed.append(report("listings-test", name, test(pathlib.Path(folder))))
    return end(passed)
