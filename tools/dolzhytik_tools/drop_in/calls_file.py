"""The file of the named calls."""
from __future__ import annotations

from ..errors import Stop
from .cases import HEAD, Case, item_of
from .examples import EXAMPLES, example
from .standard import alias, said


def signature(case: Case) -> str:
    """Returns the head of a call. A list is an iterator of known length, or a slice of value
    types."""
    generic, parameters = "", ""
    for name, ty in case.parameters:
        item = item_of(ty)
        if item and case.shape == "ts":
            ty = "&[%s]" % item
        elif item:
            generic, ty = "<V: IntoIterator<Item = %s>>" % item, "V"
        parameters += ", %s: %s" % (name, ty)
    where = "\n    where\n        V::IntoIter: ExactSizeIterator,\n    " if generic else " "
    return "    pub fn %s%s(&mut self%s) -> &mut Self%s" % (case.call, generic, parameters, where)


# What an index counts, by the names of calls.
INDICES = {
    "call": "Imported functions have the first indices: see [`ImportSection`](super::ImportSection).",
    "ref_func": "Imported functions have the first indices: see [`ImportSection`](super::ImportSection).",
    "return_call": "Imported functions have the first indices: see [`ImportSection`](super::ImportSection).",
}


def documentation(case: Case, proved: dict[str, str]) -> str:
    """Returns the doc comment of a call."""
    lines = ["Appends %s" % said(case), ""]
    if case.call in INDICES:
        lines += [INDICES[case.call], ""]
    lines.append("[`Instruction::%s`](super::Instruction::%s) is the same instruction as a value." % (case.name, case.name))
    if case.call in proved and case.shape != "bt":
        name = proved[case.call]
        lines.append("The proved [`%s`](insn::InstructionSink::%s) of `fallible` encodes the same." % (name, name))
    ordered, given = [name for name, _ in case.parts], [name for name, _ in case.parameters]
    if ordered != given:
        lines.append("The encoding has %s." % " before ".join("`%s`" % name for name in ordered))
    lines += example(case.call)
    if any(map(item_of, case.types)) and not case.is_one:
        lines += ["", "# Panics", "", "Panics if the list has more than 4294967295 items."]
    return "".join("    /// %s\n" % line if line else "    ///\n" for line in lines)


# The instructions that compilers write most. Their short encodings are compiled in the call itself,
# and those of others in one function for all instructions of the same immediates.
HOT = {
    "end", "drop", "select", "return_", "i32_add", "i32_sub", "i32_eqz", "i64_add", "local_get", "local_set", "local_tee",
    "global_get", "global_set", "call", "br", "br_if", "i32_const", "i64_const", "i32_load", "i32_store",
}


def body(case: Case, proved: dict[str, str]) -> str:
    """Returns the body of a call: the encoding of the opcode and the immediates, or the proved
    call of a list."""
    parts = [argument(name, ty) for name, ty in case.parts]
    op = "[%s]" % ", ".join("0x%02X" % byte for byte in case.op_bytes())
    here = "_here" if case.call in HOT else ""
    if not parts:
        return "self.put%s(%s, [])" % (here, op)
    if case.shape == "k":
        return "self.value(&insn::Instruction::%s)" % case.of(parts)
    if case.shape == "bt":
        # The proved call measures the list twice.
        return "self.listed(%s, %s).put([], %s)" % (op, *parts)
    if case.shape == "b":
        return "self.block_type(0x%02X, %s)" % (case.code, parts[0])
    if any(map(item_of, case.types)) and not case.is_one:
        if case.call in proved:
            return "self.made(|sink| sink.%s(%s))" % (proved[case.call], ", ".join(name for name, _ in case.parameters))
        return "self.listed((%s), %s)" % (", ".join([op] + parts[:-1]), parts[-1])
    if case.is_one:
        # A list of one item: its length follows the opcode.
        return "self.put(%s, %s)" % (op[:-1] + ", 0x01]", parts[0])
    return "self.put%s(%s, %s)" % (here, op, "(%s)" % ", ".join(parts) if len(parts) > 1 else parts[0])


def argument(name: str, ty: str) -> str:
    """Returns an immediate as an argument: a large one is borrowed."""
    if ty == "i128":
        return "%s.to_le_bytes()" % name
    return "&" * (ty == "MemArg") + name


def calls_file(cases: list[Case], proved: dict[str, str]) -> str:
    """Returns the file."""
    for call in EXAMPLES.keys() - {case.call for case in cases}:
        raise Stop("an example of the call %s, which the table does not have" % call)
    calls = [documentation(case, proved) + alias(case) + "%s{\n        %s\n    }\n" % (signature(case), body(case, proved)) for case in cases]
    return HEAD + """//! The named calls of `InstructionSink`, one for each instruction.

use super::InstructionSink;
use crate::base::{HeapType, RefType, ValType};
use crate::insn::{self, BlockType, Catch, Handle, Ieee32, Ieee64, Lane, MemArg, Ordering};

impl InstructionSink<'_> {
%s}
""" % "\n".join(calls)
