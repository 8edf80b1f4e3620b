"""Tests of rust/patch: an application and a library between, which both name `wasm-encoder`.

The graph is built without a network. A stand-in of the crate is vendored, as cargo looks a package
up also where a patch replaces it. All files are written to a temporary folder: cargo would find a
second package `wasm-encoder` in this repository otherwise, where a patch names it by git."""
from __future__ import annotations

import functools
import json
import os
import pathlib
import subprocess
import tempfile
from collections.abc import Callable

from ..repository import TOP
from .report import run_all

PATCH = TOP / "rust/patch"
PACKAGE = '[package]\nname = "%s"\nversion = "%s"\nedition = "2021"\n'
# The application passes the library a module, whose type it prints; so does the library.
APPLICATION = """fn main() {
    let module = wasm_encoder::Module::new();
    println!("{} {}", std::any::type_name::<wasm_encoder::Module>(), library::type_of(&module));
}
"""
LIBRARY = """pub fn type_of(_: &wasm_encoder::Module) -> &'static str {
    std::any::type_name::<wasm_encoder::Module>()
}
"""
STAND_IN = """pub struct Module;
impl Module {
    pub fn new() -> Self {
        Module
    }
}
"""
STAND_IN_FEATURES = '[features]\ndefault = ["std"]\nstd = []\nwasmparser = []\ncomponent-model = []\n'
VENDORED = """[source.crates-io]
replace-with = "vendored"

[source.vendored]
directory = "vendor"
"""


class Graph:
    """The packages of a graph, in a folder."""

    def __init__(self, path: str, target: pathlib.Path):
        self.path = pathlib.Path(path)
        self.env = {**os.environ, "CARGO_TARGET_DIR": str(target), "CARGO_NET_OFFLINE": "true"}
        self.write(".cargo/config.toml", VENDORED)
        self.package("vendor/wasm-encoder", "wasm-encoder", STAND_IN, STAND_IN_FEATURES, version="0.263.0")
        self.write("vendor/wasm-encoder/.cargo-checksum.json", json.dumps({"files": {}}))

    def write(self, path: str, text: str) -> None:
        """Writes a file of the graph."""
        (self.path / path).parent.mkdir(parents=True, exist_ok=True)
        (self.path / path).write_text(text)

    def package(self, path: str, name: str, source: str, more: str, version: str = "0.1.0", root: str = "lib") -> None:
        """Writes a package of one file."""
        self.write(f"{path}/Cargo.toml", PACKAGE % (name, version) + more)
        self.write(f"{path}/src/{root}.rs", source)

    def packages(self, patch: str, options: str = "") -> None:
        """Writes the application, with this patch, and the library, with these options of its
        dependency."""
        needs = f'[dependencies]\nwasm-encoder = {{ version = "0.263"{options} }}\n'
        self.package("library", "library", LIBRARY, needs)
        needs = '[dependencies]\nwasm-encoder = "0.263"\nlibrary = { path = "library" }\n'
        self.package(".", "application", APPLICATION, needs + patch, root="main")

    def cargo(self, command: str) -> tuple[int, str, str]:
        """Returns the status of a cargo command, what it prints, and its errors and warnings."""
        ran = subprocess.run(["cargo", command], cwd=self.path, env=self.env, capture_output=True, text=True)
        return ran.returncode, ran.stdout, ran.stderr


def both_of(said: str, crate: str) -> bool:
    """Returns whether the application and the library print the same type, of this crate."""
    one, other = said.split()
    return one == other and one.startswith(f"{crate}::")


def patch(line: str) -> str:
    """Returns the lines of a patch."""
    return f"[patch.crates-io]\nwasm-encoder = {line}\n"


def in_place(graph: Graph) -> None:
    """With the patch, both packages have the types of dolzhytik."""
    graph.packages(patch(f'{{ path = "{PATCH}" }}'))
    status, said, errors = graph.cargo("run")
    assert status == 0 and both_of(said, "dolzhytik") and "warning" not in errors, (said, errors)


def without_std(graph: Graph) -> None:
    """A package may leave the default features out."""
    graph.packages(patch(f'{{ path = "{PATCH}" }}'), ", default-features = false")
    status, _, errors = graph.cargo("check")
    assert status == 0 and "warning" not in errors, errors


def without_patch(graph: Graph) -> None:
    """Without the patch both have the types of the stand-in, so that the test would notice."""
    graph.packages("")
    status, said, errors = graph.cargo("run")
    assert status == 0 and both_of(said, "wasm_encoder"), (said, errors)


def by_its_own_name(graph: Graph) -> None:
    """A patch that names the package `dolzhytik` is a warning, and replaces nothing."""
    graph.packages(patch(f'{{ package = "dolzhytik", path = "{TOP / "rust"}" }}'))
    status, said, errors = graph.cargo("run")
    assert status == 0 and both_of(said, "wasm_encoder"), (said, errors)
    assert "was not used in the crate graph" in errors, errors


def enabled(graph: Graph, feature: str, message: str) -> None:
    """A feature that a package of the graph enables is an error."""
    graph.packages(patch(f'{{ path = "{PATCH}" }}'), f', features = ["{feature}"]')
    status, _, errors = graph.cargo("check")
    assert status != 0 and f"error: {message}" in errors, errors


def components(graph: Graph) -> None:
    """So is `component-model`."""
    enabled(graph, "component-model", "there are no components: keep `wasm-encoder` beside this package for them")


def conversions(graph: Graph) -> None:
    """So is `wasmparser`."""
    enabled(graph, "wasmparser", "there are no conversions of `wasmparser`'s types: write a `match`")


ALL = [in_place, without_std, without_patch, by_its_own_name, components, conversions]


def in_a_graph(test: Callable[[Graph], None], target: pathlib.Path) -> Callable[[], None]:
    """Returns the test with a graph of its own. They build in one folder."""
    @functools.wraps(test)
    def run() -> None:
        with tempfile.TemporaryDirectory(prefix="patch-test-") as path:
            test(Graph(path, target))
    return run


def main() -> int:
    """Runs the tests."""
    with tempfile.TemporaryDirectory(prefix="patch-test-") as target:
        return run_all("patch-test", [in_a_graph(test, pathlib.Path(target)) for test in ALL])
