"""What the standard calls an instruction: its name in the text format, its opcode, and its
class."""
from __future__ import annotations

from ..errors import Stop
from ..instructions.table import TABLE
from ..text_names import name_of
from .cases import Case
from .effects import effect_of

# The class of the opcodes from a byte, or from a prefix and a number, up to another of the same
# prefix. The first that fits counts. Without a proposal the class is the core specification's.
LEGACY = "a control instruction of the legacy exception handling proposal"
DESCRIPTORS = "an instruction of the custom descriptors proposal"
SHARED = "an instruction of the shared-everything threads proposal"
THREADS = "an atomic instruction of the threads proposal"
CLASSES = (
    (None, 0x06, 0x07, LEGACY),
    (None, 0x09, 0x09, LEGACY),
    (None, 0x18, 0x19, LEGACY),
    (None, 0x05, 0x05, "a delimiter of control instructions"),
    (None, 0x0B, 0x0B, "a delimiter of control instructions and expressions"),
    (None, 0x00, 0x15, "a control instruction"),
    (None, 0x1A, 0x1C, "a parametric instruction"),
    (None, 0x1F, 0x1F, "a control instruction"),
    (None, 0x20, 0x24, "a variable instruction"),
    (None, 0x25, 0x26, "a table instruction"),
    (None, 0x28, 0x40, "a memory instruction"),
    (None, 0x41, 0xC4, "a numeric instruction"),
    (None, 0xD0, 0xD4, "a reference instruction"),
    (None, 0xD5, 0xD6, "a control instruction"),
    (None, 0xE0, 0xE6, "a control instruction of the stack switching proposal"),
    (0xFB, 0, 19, "an aggregate instruction"),
    (0xFB, 20, 23, "a reference instruction"),
    (0xFB, 24, 25, "a control instruction"),
    (0xFB, 26, 30, "an aggregate instruction"),
    (0xFB, 32, 38, DESCRIPTORS),
    (0xFC, 0, 7, "a numeric instruction"),
    (0xFC, 8, 11, "a memory instruction"),
    (0xFC, 12, 17, "a table instruction"),
    (0xFC, 18, 18, "a memory instruction of the memory control proposal"),
    (0xFC, 19, 22, "a numeric instruction of the wide arithmetic proposal"),
    (0xFD, 0, 255, "a vector instruction"),
    (0xFD, 256, 275, "a relaxed vector instruction"),
    (0xFE, 4, 4, SHARED),
    (0xFE, 0, 78, THREADS),
    (0xFE, 79, 114, SHARED),
)
# Calls for forms of one instruction, whose operands in the text format are the form.
FORMS = {
    "typed_select": "select (result t)",
    "typed_select_multi": "select (result t*)",
    "ref_test_non_null": "ref.test (ref ht)",
    "ref_test_nullable": "ref.test (ref null ht)",
    "ref_cast_non_null": "ref.cast (ref ht)",
    "ref_cast_nullable": "ref.cast (ref null ht)",
    "ref_cast_desc_eq_non_null": "ref.cast_desc_eq (ref ht)",
    "ref_cast_desc_eq_nullable": "ref.cast_desc_eq (ref null ht)",
}

# What the fields of cases are, by their names.
FIELDS = {
    "argument_index": "The index of the type of the bound continuation.",
    "array_data_index": "The index of the data segment.",
    "array_elem_index": "The index of the element segment.",
    "array_size": "The number of elements.",
    "array_type_index": "The index of the array type.",
    "array_type_index_dst": "The index of the type of the destination.",
    "array_type_index_src": "The index of the type of the source.",
    "cont_type_index": "The index of the continuation type.",
    "data_index": "The index of the data segment.",
    "dst_mem": "The index of the destination memory.",
    "dst_table": "The index of the destination table.",
    "elem_index": "The index of the element segment.",
    "field_index": "The index of the field.",
    "from_ref_type": "The type of the operand.",
    "global_index": "The index of the global.",
    "lane": "The index of the lane.",
    "mem": "The index of the memory.",
    "memarg": "The memory, the offset and the alignment.",
    "ordering": "The ordering of the access.",
    "relative_depth": "The label of the branch.",
    "result_index": "The index of the type of the resulting continuation.",
    "resume_table": "The handlers.",
    "src_mem": "The index of the source memory.",
    "src_table": "The index of the source table.",
    "struct_type_index": "The index of the structure type.",
    "table": "The index of the table.",
    "table_index": "The index of the table.",
    "tag_index": "The index of the tag.",
    "to_ref_type": "The type that the operand is cast to.",
    "type_index": "The index of the function type.",
}


def text_name(case: Case) -> str:
    """Returns the name in the text format, with the operands that tell forms apart."""
    return FORMS.get(case.call) or name_of(case.call)


def alias(case: Case) -> str:
    """Returns the attribute that finds the name in the text format, which Rust cannot have if it
    has a dot."""
    name = name_of(case.call)
    return '    #[doc(alias = "%s")]\n' % name if "." in name else ""


def opcode(case: Case) -> str:
    """Returns the opcode in words: a byte, or a prefix and a number."""
    return "opcode 0x%02X" % case.code if case.prefix is None else "opcode 0x%02X %d" % (case.prefix, case.code)


def class_of(case: Case) -> str:
    """Returns the class, with its article and the proposal that it comes from."""
    for prefix, first, last, name in CLASSES:
        if prefix == case.prefix and first <= case.code <= last:
            return name
    raise Stop("%s: no class for %s" % (TABLE, case.name))


def field(name: str) -> str:
    """Returns what a field is."""
    if name not in FIELDS:
        raise Stop("%s: no doc comment for the field %s" % (TABLE, name))
    return FIELDS[name]


def said(case: Case) -> str:
    """Returns the line of a case: its name, its opcode, its class, and what it does."""
    return "`%s` (%s), %s that %s." % (text_name(case), opcode(case), class_of(case), effect_of(name_of(case.call)))
