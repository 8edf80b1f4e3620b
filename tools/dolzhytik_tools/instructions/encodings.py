"""The bytes that instructions must have, from their layouts alone: no encoder makes them."""
from __future__ import annotations

from .table import Case


def unsigned(n: int) -> list[int]:
    out = []
    while n >= 0x80:
        out.append(n % 0x80 + 0x80)
        n //= 0x80
    return out + [n]


def signed(n: int) -> list[int]:
    out = []
    while not -0x40 <= n < 0x40:
        out.append(n % 0x80 + 0x80)
        n //= 0x80
    return out + [n % 0x80]


def little_endian(size: int, n: int) -> list[int]:
    return list((n % 256**size).to_bytes(size, "little"))



# A field as code, and its bytes.
Value = tuple[str, list[int]]
ANY = "HeapType::Abstract { shared: false, ty: AbstractHeapType::Any }"
EQ = "HeapType::Abstract { shared: false, ty: AbstractHeapType::Eq }"
# The fields of each layout, as code and as bytes. Neighbours differ, and some numbers need two
# bytes.
ONE_BYTE, TWO_BYTES, DEFAULT = ("1", [1]), ("300", unsigned(300)), ("5", [5])
MEMARG, THIRD_LANE, ACQ_REL = ("MEMARG", unsigned(0x42) + unsigned(1) + unsigned(300)), ("3", [3]), ("Ordering::AcqRel", [1])
CLAUSES = ("CowSlice::Borrowed(&[Handle::OnLabel { tag: 3, label: 4 }, Handle::OnSwitch { tag: 5 }])", [2, 0, 3, 4, 1, 5])
ONE_TYPE = ("ValType::I32", [1, 0x7F])
VALUES: dict[str, list[Value]] = {
    "-": [],
    "u": [TWO_BYTES],
    "uu": [ONE_BYTE, TWO_BYTES],
    "m": [MEMARG],
    "ml": [MEMARG, THIRD_LANE],
    "l": [THIRD_LANE],
    "b": [("BlockType::FunctionType(64)", signed(64))],
    "h": [("HeapType::Concrete(64)", signed(64))],
    "o": [ACQ_REL],
    "ou": [ACQ_REL, TWO_BYTES],
    "ouu": [ACQ_REL, ONE_BYTE, TWO_BYTES],
    "c32": [("-123456", signed(-123456))],
    "c64": [("12345678901", signed(12345678901))],
    "f32": [("Ieee32::new(1065353216)", little_endian(4, 1065353216))],
    "f64": [("Ieee64::new(4607182418800017408)", little_endian(8, 4607182418800017408))],
    "v": [("-2", little_endian(16, -2))],
    "ls": [("[0, 1, 2, 3, 4, 5, 6, 7, 8, 9, 10, 11, 12, 13, 14, 15]", list(range(16)))],
    "bt": [("CowSlice::Borrowed(&[0, 300])", [2, 0] + unsigned(300)), DEFAULT],
    "tt": [("BlockType::Empty", [0x40]), ("CowSlice::Borrowed(&[Catch::One { tag: 0, label: 1 }, Catch::AllRef { label: 2 }])", [2, 0, 0, 1, 3, 2])],
    "ts": [("CowSlice::Borrowed(&[ValType::I32, ValType::I64])", [2, 0x7F, 0x7E])],
    # The flags of both types are before the label.
    "k": [("1", [1, 1]), (f"RefType {{ nullable: true, heap_type: {ANY} }}", [0x6E]), (f"RefType {{ nullable: false, heap_type: {EQ} }}", [0x6D])],
    "uH": [ONE_BYTE, CLAUSES],
    "uuH": [ONE_BYTE, TWO_BYTES, CLAUSES],
}


def values(case: Case) -> tuple[list[str], list[int]]:
    """Returns the fields of a case as code, and the bytes of all of them."""
    given = [ONE_TYPE] if case.form == "one" else VALUES[case.layout]
    return [code for code, _ in given], [byte for _, found in given for byte in found]


def bytes_of(case: Case) -> list[int]:
    """Returns the bytes of a case with these fields."""
    op = [case.number] if case.prefix is None else [case.prefix] + unsigned(case.number)
    return op + values(case)[1]


def value_of(case: Case) -> str:
    """Returns a case with these fields, as code."""
    given, head = values(case)[0], f"{case.enum.name}::{case.name}"
    if case.fields:
        return f"{head} {{ {', '.join(map(': '.join, zip(case.fields, given)))} }}"
    return head + (f"({', '.join(given)})" if given else "")
