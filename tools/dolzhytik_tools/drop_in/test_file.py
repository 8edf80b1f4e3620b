"""The file of the test: each case as a value, by its call, and as a proved value."""
from __future__ import annotations

import re

from ..instructions.encodings import bytes_of, values
from .cases import HEAD, Case

# The number of cases in a function of the test.
STEP = 50


def borrowed(part: str, wanted: str) -> str:
    """Returns an immediate with the proved lists replaced."""
    return re.sub(r"CowSlice::Borrowed\(&(.*)\)", wanted, part)


def test_row(case: Case) -> str:
    """Returns the check of a case."""
    parts = values(case.case)[0]
    value = "Instruction::" + case.of([borrowed(part, r"Cow::Borrowed(&\1)") for part in parts])
    handed = dict(zip([name for name, _ in case.parts], parts))
    given = ", ".join(borrowed(handed[name], r"&\1" if case.shape == "ts" else r"\1") for name, _ in case.parameters)
    hexadecimal = bytes(bytes_of(case.case)).hex()
    return "    check(\n        \"%s\",\n        %s,\n        |sink| {\n            sink.%s(%s);\n        },\n        %s,\n    );\n" % (
        hexadecimal, value, case.call, given, case.proved(parts, "fallible"))


def first_bytes(cases: list[Case]) -> str:
    """Returns an arm for each first byte of an opcode."""
    patterns: dict[int, list[str]] = {}
    for case in cases:
        patterns.setdefault(case.op_bytes()[0], []).append("Instruction::" + case.pattern())
    return "".join("        %s => 0x%02X,\n" % ("\n        | ".join(names), byte) for byte, names in patterns.items())


def test_file(cases: list[Case]) -> str:
    """Returns the file."""
    parts = [cases[start : start + STEP] for start in range(0, len(cases), STEP)]
    functions = ["/// The cases from the line %d of the table on.\nfn from_%d() {\n%s}\n" % (i * STEP + 1, i * STEP, "".join(map(test_row, part))) for i, part in enumerate(parts)]
    return HEAD + """//! Each instruction as a value, by its call, and as a proved value, and the bytes that it must have.
use crate::checks::check;
use dolzhytik::fallible::CowSlice;
use dolzhytik::{
    AbstractHeapType, BlockType, Catch, Handle, HeapType, Ieee32, Ieee64, Instruction, MemArg,
    MemArgTarget, Ordering, RefType, ValType, fallible,
};
use std::borrow::Cow;

const MEMARG: MemArg = MemArg {
    offset: 300,
    align: 2,
    target: MemArgTarget::Memory(1),
    ordering: None,
};

/// Returns the first byte of an instruction. All cases have an arm, and the wildcard is not
/// unreachable: the enum may grow.
#[deny(unreachable_patterns)]
pub fn first_byte(instruction: &Instruction<'_>) -> Option<u8> {
    Some(match instruction {
%s        _ => return None,
    })
}

/// Checks all %d cases.
pub fn check_all() {
%s}

%s""" % (first_bytes(cases), len(cases), "".join("    from_%d();\n" % (i * STEP) for i in range(len(parts))), "\n".join(functions))
