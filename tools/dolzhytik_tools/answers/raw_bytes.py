"""Bodies and expressions that are given as bytes, perhaps with padded numbers."""
from __future__ import annotations

from collections.abc import Sequence
from dataclasses import dataclass

from ..errors import Stop
from .instruction_terms import InstructionTerms
from .syntax import Array, Number, Tree
from .tables import GLOBAL, VARIANTS
from .terms import bare, shown

I32_CONST = 0x41


@dataclass(frozen=True)
class PaddedNumber:
    """A LEB128 at the head of bytes: its value, its length in bytes, and the name of the proof of
    both."""

    value: int
    size: int
    proof: str


@dataclass(frozen=True)
class RawConstant:
    """An expression of one constant: the term that proves its bytes, and its instruction."""

    term: str
    row: str


class RawBytes:
    """Writes the proofs of given bytes."""

    def __init__(self, instructions: InstructionTerms):
        self.instructions, self.evidence = instructions, instructions.evidence
        self.proof, self.scope = instructions.proof, instructions.scope

    def bytes_of(self, tree: Tree) -> list[int]:
        """Returns the bytes of an array that is written out."""
        tree = self.scope.settled(tree)
        if not isinstance(tree, Array) or any(not isinstance(it, Number) for it in tree.items):
            raise Stop("bytes that are not written out")
        return [it.value for it in tree.items]

    def listed(self, bytes: Sequence[int]) -> str:
        return self.evidence.list_of(["0x%02X" % it for it in bytes])

    def number(self, bytes: Sequence[int], is_signed: bool) -> PaddedNumber:
        """Proves the LEB128 of 32 bits at the head of bytes."""
        size = next((i + 1 for i, it in enumerate(bytes) if it < 0x80), None)
        if size is None or size > 5:
            raise Stop("bytes in which no number ends")
        value = sum((it % 0x80) << 7 * i for i, it in enumerate(bytes[:size]))
        groups = "omega arith"
        for _ in range(size - 1):
            groups = "(omega arith, omega arith, %s)" % groups
        spelled = bare(self.listed(bytes[:size]))
        self.proof.common("arith", "refl")
        self.proof.use("Rattle.wasm_base.specs.Numbers", "padded")
        if is_signed:
            value -= (1 << 7 * size) if bytes[size - 1] & 0x40 else 0
            self.proof.use("Rattle.wasm_base.specs.Formats", "s32")
            text, range_ = self.evidence.signed(value), "above = omega (arith, ints); below = omega (arith, ints)"
        else:
            self.proof.use("Rattle.wasm_base.specs.Formats", "u32")
            text, range_ = str(value), "range = omega arith"
        term = "record { groups = %s; total = refl; %s; size = omega arith }" % (groups, range_)
        return PaddedNumber(value, size, self.proof.bind("n", term, "%s padded (%s) %s" % ("s32" if is_signed else "u32", spelled, text)))

    def body(self, bytes: Sequence[int]) -> str:
        """Proves a body without locals, of instructions without fields."""
        count = self.number(bytes, False)
        if count.value != 0:
            raise Stop("a raw body with runs of locals")
        term = "(%s %s)" % (self.proof.lemma("wasm_code", "without_runs"), count.proof)
        for byte in bytes[count.size :]:
            case = next((it for it in self.instructions.cases.values() if it.prefix is None and it.number == byte and it.layout == "-"), None)
            if case is None:
                raise Stop("a raw body with an instruction that has immediates")
            self.proof.use(GLOBAL, "Global")
            lemma = self.proof.lemma("wasm_code", "adds_instruction_padded")
            instruction = shown(self.instructions.instruction(case, ()).term)
            term = self.proof.bind("b", "%s {A = Global} %s %s refl tt" % (lemma, term, instruction))
        return term

    def constant(self, bytes: Sequence[int]) -> RawConstant:
        """Proves an expression of one constant of 32 bits."""
        if not bytes or bytes[0] != I32_CONST:
            raise Stop("a raw expression other than a constant of 32 bits")
        number = self.number(bytes[1:], True)
        if len(bytes) != number.size + 1:
            raise Stop("a raw expression other than a constant of 32 bits")
        lemma = self.proof.lemma("wasm_code", "padded_i32_const")
        term = "(%s %s %s %s)" % (lemma, self.listed(bytes[1:]), self.evidence.signed(number.value), number.proof)
        self.proof.use(VARIANTS["Instruction"], "I32Const")
        return RawConstant(term, self.instructions.row("I32Const %s" % self.evidence.signed(number.value)))
