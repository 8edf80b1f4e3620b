"""Examples of calls whose arguments or bytes are not obvious. The bytes are worked out by hand."""
from __future__ import annotations

# The names that an example uses beside `InstructionSink`, its call, what the bytes are, and the
# bytes.
EXAMPLES = {
    "br_table": (
        "", "br_table([0, 1], 2)",
        "Two labels, 0 and 1, and the default label, 2.", "0x0E, 2, 0, 1, 2",
    ),
    "call_indirect": (
        "", "call_indirect(2, 1)",
        "Type 1, and then table 2.", "0x11, 1, 2",
    ),
    "typed_select": (
        "ValType", "typed_select(ValType::I32)",
        "One type, i32.", "0x1C, 1, 0x7F",
    ),
    "resume": (
        "Handle", "resume(5, [Handle::OnLabel { tag: 3, label: 4 }])",
        "Continuation type 5, and one handler: 00, tag 3, label 4.", "0xE3, 5, 1, 0x00, 3, 4",
    ),
    "struct_get": (
        "", "struct_get(1, 2)",
        "Structure type 1, field 2.", "0xFB, 2, 1, 2",
    ),
    "array_new_fixed": (
        "", "array_new_fixed(1, 3)",
        "Array type 1, three elements.", "0xFB, 8, 1, 3",
    ),
    "br_on_cast": (
        "AbstractHeapType, RefType",
        "br_on_cast(7, RefType::FUNCREF, RefType::new_abstract(AbstractHeapType::NoFunc, false, false))",
        "Flags 1, since the first type is nullable alone; label 7; func, and nofunc.", "0xFB, 24, 1, 7, 0x70, 0x73",
    ),
    "memory_init": (
        "", "memory_init(1, 2)",
        "Data segment 2, and then memory 1.", "0xFC, 8, 2, 1",
    ),
    "memory_copy": (
        "", "memory_copy(2, 1)",
        "To memory 2, from memory 1.", "0xFC, 10, 2, 1",
    ),
    "table_init": (
        "", "table_init(1, 2)",
        "Element segment 2, and then table 1.", "0xFC, 12, 2, 1",
    ),
    "table_copy": (
        "", "table_copy(2, 1)",
        "To table 2, from table 1.", "0xFC, 14, 2, 1",
    ),
    "i8x16_shuffle": (
        "", "i8x16_shuffle([0, 16, 1, 17, 2, 18, 3, 19, 4, 20, 5, 21, 6, 22, 7, 23])",
        "A byte for each lane: the low lanes of both operands, in turn.",
        "0xFD, 13, 0, 16, 1, 17, 2, 18, 3, 19, 4, 20, 5, 21, 6, 22, 7, 23",
    ),
    "v128_const": (
        "", "v128_const(0x0102)",
        "The 16 bytes of the number, the lowest first.", "0xFD, 12, 2, 1, 0, 0, 0, 0, 0, 0, 0, 0, 0, 0, 0, 0, 0, 0",
    ),
    "atomic_fence": (
        "Ordering", "atomic_fence(Ordering::SeqCst)",
        "The ordering is one byte.", "0xFE, 3, 0",
    ),
}


def example(call: str) -> list[str]:
    """Returns the lines of the example of a call, if it has one."""
    if call not in EXAMPLES:
        return []
    names, text, says, expected = EXAMPLES[call]
    used = "{InstructionSink, %s}" % names if names else "InstructionSink"
    lines = ["use dolzhytik::%s;" % used, "", "let mut bytes = Vec::new();"]
    made = "InstructionSink::new(&mut bytes).%s;" % text
    lines += [made] if len(made) < 80 else ["InstructionSink::new(&mut bytes)", "    .%s;" % text]
    return ["", "```"] + lines + ["// %s" % says, "assert_eq!(bytes, [%s]);" % expected, "```"]
