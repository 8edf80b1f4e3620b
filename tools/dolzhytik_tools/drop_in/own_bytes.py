"""Finds functions by hand at the root that write bytes of a module by themselves, and not by a
proved call."""
from __future__ import annotations

import re
from collections.abc import Iterator
from dataclasses import dataclass

from ..errors import Stop
from .root_table import OF_VALUE, TABLE

# What writes bytes, or is one of the format.
WRITES = re.compile(
    r"""\.(?:(?:push|extend)(?:_\w+)?|insert|append|splice|resize)\(   # Calls of a list
    |\b(?:Extend::extend|copy_from_slice|copy_within|write_all|fill)\(
    |\+=\s*1\b                                                     # A count
    |\bto_[lbn]e_bytes\b
    |\b(?:0x[0-9A-Fa-f]{1,2}(?:_?u8)?|\d+_?u8)\b | \bb['"]                   # Bytes of the format
    |\bconst\s\w+:\s(?:u8|\[u8)\b
    """,
    re.VERBOSE,
)
FUNCTION = re.compile(r"^\s*(?:pub(?:\(\w+\))? )?(?:const )?(?:fn|const) (\w+)")
TESTS = re.compile(r"^#\[cfg\(.*\btest\b.*\)\]\nmod tests \{\n.*?^\}\n", re.MULTILINE | re.DOTALL)

# The functions and constants that write bytes, by file, with the reason. `*` is a whole file.
ALLOWED = {
    ("rust/src/ending.rs", "*"): "vectors of the program as sinks that never fail",
    ("rust/src/drop_in/bytes.rs", "*"): "the sink of a constant expression",
    ("rust/src/drop_in/short.rs", "*"): "the sink on the stack, and which values have short encodings",
    ("tools/root-calls.tsv", "Function::raw"): "bytes of the caller",
    ("rust/src/drop_in/module.rs", "HEADER"): "a constant of the crate, which the root does not write",
    ("rust/src/drop_in/custom.rs", "MARK"): "the proved calls have this byte in place",
}


@dataclass(frozen=True)
class Write:
    """A line that writes bytes."""

    path: str
    line: int
    function: str
    what: str

    def allowed(self) -> tuple[str, str] | None:
        """Returns the entry of the list that has this line, if one does."""
        entries = ((self.path, name) for name in ("*", self.function))
        return next((it for it in entries if it in ALLOWED), None)


def writes(path: str, text: str) -> Iterator[Write]:
    """Yields the lines of a file that write bytes. Comments, texts and tests have none."""
    function = ""
    code = TESTS.sub(lambda it: "\n" * it[0].count("\n"), text)
    for number, line in enumerate(code.split("\n"), 1):
        if line.lstrip().startswith("//"):
            continue
        line = re.sub(r'(?<!b)"[^"]*"', '""', line).partition(" // ")[0]
        if head := FUNCTION.match(line):
            function = head[1]
        if found := WRITES.search(line):
            yield Write(path, number, function, found[0].strip())


def writes_of_rows(text: str) -> Iterator[Write]:
    """Yields the rows of calls whose expressions write bytes, beside their proved calls."""
    for number, line in enumerate(text.split("\n")[1:-1], 2):
        of, call, expression = line.split("\t")[:3]
        if found := WRITES.search(OF_VALUE.sub("(", expression)):
            yield Write(TABLE, number, "%s::%s" % (of, re.sub(r"^(?:const )?fn (\w+).*", r"\1", call)), found[0])


def check_writes(files: dict[str, str], rows: str) -> None:
    """Stops at a line or row that writes bytes and is not allowed to, and at an entry of the list
    that has no such line."""
    used = set()
    found = [it for path, text in files.items() for it in writes(path, text)]
    for it in [*found, *writes_of_rows(rows)]:
        entry = it.allowed()
        if entry is None:
            raise Stop("%s:%d: %s writes bytes (%s): make a proved call" % (it.path, it.line, it.function, it.what))
        used.add(entry)
    for entry in ALLOWED.keys() - used:
        raise Stop("%s: %s writes no bytes: it needs no entry in ALLOWED" % entry)
