"""The layouts of immediates: the fields behind an opcode, in sources, definitions and rows."""
from __future__ import annotations

from dataclasses import dataclass


@dataclass(frozen=True)
class Part:
    """A field: its type, its argument in a row, its field in `Given`, and the type of its items if
    it is a list."""

    type: str
    argument: str
    given: str
    item: str = ""


def list_of(item: str, name: str) -> Part:
    return Part(f"CowSlice<'a, {item}, A>", f"{name} (items_of {{}})", name, item)


NUMBER = Part("u32", "unsigned {}", "index")
MEMORY = Part("MemArg", "memory {}", "memory")
LANE = Part("Lane", "lane {}", "lane")
BLOCK = Part("BlockType", "block {}", "block")
HEAP = Part("HeapType", "heap {}", "heap")
ORDERING = Part("Ordering", "ordering {}", "ordering")
LABELS, CATCHES = list_of("u32", "labels"), list_of("Catch", "catches")
TYPES, HANDLES = list_of("ValType", "types"), list_of("Handle", "handles")


@dataclass(frozen=True)
class Layout:
    """The immediates of an opcode: the shape and its doc comment, and the fields. `appends` and
    `looks` are the functions that encode and check the fields, where no method does. `arguments`
    are those of a row, where they are not those of the fields."""

    shape: str
    says: str
    parts: tuple[Part, ...] = ()
    appends: str = ""
    looks: str = ""
    arguments: tuple[str, ...] = ()

    @property
    def words(self) -> list[str]:
        """The names of its arguments."""
        return [it.partition(" ")[0] for it in self.arguments or [part.argument for part in self.parts]]


# In the order of the cases of `Shape`.
LAYOUTS = {
    "-": Layout("Nothing", ""),
    "u": Layout("U", "A number.", (NUMBER,)),
    "uu": Layout("Uu", "Two numbers.", (NUMBER, NUMBER)),
    "m": Layout("M", "A memory argument.", (MEMORY,)),
    "ml": Layout("Ml", "A memory argument and a lane.", (MEMORY, LANE)),
    "l": Layout("L", "A lane.", (LANE,)),
    "b": Layout("B", "A block type.", (BLOCK,)),
    "h": Layout("H", "A heap type.", (HEAP,)),
    "o": Layout("O", "An ordering.", (ORDERING,)),
    "ou": Layout("Ou", "An ordering and a number.", (ORDERING, NUMBER)),
    "ouu": Layout("Ouu", "An ordering and two numbers.", (ORDERING, NUMBER, NUMBER)),
    "c32": Layout("C32", "A signed number of 32 bits.", (Part("i32", "signed32 {}", "signed"),)),
    "c64": Layout("C64", "A signed number of 64 bits.", (Part("i64", "signed64 {}", "signed"),)),
    "f32": Layout("F32", "A float of 32 bits.", (Part("Ieee32", "float32 {}", "float32"),)),
    "f64": Layout("F64", "A float of 64 bits.", (Part("Ieee64", "float64 {}", "float64"),)),
    "v": Layout("V", "A vector of 128 bits.", (Part("i128", "vector {}", "signed"),)),
    "ls": Layout("Ls", "Sixteen lanes.", (Part("[Lane; 16]", "lanes {}", "lanes"),)),
    "bt": Layout("Bt", "Labels, and a default label.", (LABELS, NUMBER), appends="encode_labels"),
    "tt": Layout("Tt", "A block type and catch clauses.", (BLOCK, CATCHES), appends="encode_try_table"),
    "ts": Layout("Ts", "Value types.", (TYPES,)),
    "k": Layout(
        "K",
        "Flags, a label and two heap types.",
        (NUMBER, Part("RefType", "heap {}.heap_type", "from"), Part("RefType", "heap {}.heap_type", "to")),
        appends="encode_cast",
        looks="cast_ranged",
        arguments=("flag (cast_flag_of {1} {2})", "unsigned {0}", "heap {1}.heap_type", "heap {2}.heap_type"),
    ),
    "uH": Layout("Uh", "A number and handle clauses.", (NUMBER, HANDLES), appends="encode_resume"),
    "uuH": Layout("Uuh", "Two numbers and handle clauses.", (NUMBER, NUMBER, HANDLES), appends="encode_resume_throw"),
}
# A list of one item, which the case has as its field.
ONE = Layout("Ts", LAYOUTS["ts"].says, (Part("ValType", "types ({} ∷ [])", "value"),))
FORMS = ("", "one", "by name")
# The arguments of rows, in the order of imports.
ARGUMENTS = (
    "unsigned", "signed32", "signed64", "float32", "float64", "vector", "memory", "lane", "lanes",
    "block", "heap", "ordering", "labels", "catches", "types", "handles", "flag",
)
