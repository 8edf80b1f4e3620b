"""Tests of the lexer, of brackets, of the parser of items, and of imports."""
from __future__ import annotations

import pathlib
import re
import tempfile

from ..rattle import brackets, facades, items, lexer
from ..rattle.brackets import Span
from ..repository import TOP, text_of
from .report import run_all

# A text, and its tokens but spaces and comments, with the marks of Rattle.
TOKENS = [
    ("fn f<'a>(x: &'a str) -> u8 { x.0.1 }", "fn f < 'a > ( x : & 'a str ) -> u8 { x . 0 . 1 }"),
    ("a // b\n/* c\n d */ e", "a e"),
    ('"a // \\" b" \'x\' \'\\\'\' b"\\0" b\'\\n\' \'\\u{7f}\'', '"a // \\" b" \'x\' \'\\\'\' b"\\0" b\'\\n\' \'\\u{7f}\''),
    ('r"a\\" r#"a"b"#', 'r"a\\" r#"a"b"#'),
    ("0x7F_u8 1_000 1.5 0..=3 1..2 x[0]", "0x7F_u8 1_000 1.5 0 ..= 3 1 .. 2 x [ 0 ]"),
    ("A::<B<C>>::d => x", "A :: < B < C > > :: d => x"),
    ("ensures { result ≡ n + 1 }", "ensures { result ≡ n + 1 }"),
]

SOURCE = """
//! A file.
ghost use Rattle.std.specs.Prelude.{List, []};
use std::alloc::{Allocator, Global};

pub const MOST: [u8; 2] = [1, 2];
pub(crate) const fn least() -> u8 { 0 }

#[derive(Drop)]
pub struct Pair<A: Allocator = Global>(pub Vec<u8, A>, u32);
struct Named<'a> {
    #[ghost_name(x)]
    pub(crate) text: &'a str,
    of: Pair,
}
struct Empty;
enum Kind { One, Two(fn(u8) -> u8) }
type Alias<A> = Pair<A>;

impl<'a, A: Allocator> Encode for [Named<'a>; 2] {
    ghost laws: { fn };

    pub fn encode<const N: usize>(&mut self, mut bytes: &[u8], f: fn(u8) -> u8) -> Result<[u8; 2], Vec<u8, A>>
    where
        A: Copy,
        requires { bytes.items ≡ [] }
        ensures { result ≡ { "}" } }
        ensures* same { ⊤ }
    {
        fn inner() {}
    }
}

trait Law {
    fn law(self);
}

mod deeper {
    use super::Law;
    pub unsafe fn raw(bytes: [u8; 2]) {}
}

macro_rules! many { () => { fn no() {} } }
fn last() {}
"""


def tokens() -> None:
    """A text has its tokens, which join to the text."""
    for text, expected in TOKENS:
        found = lexer.solid_words(text, lexer.RATTLE_MARKS)
        assert " ".join(found) == expected, (text, found)
        assert "".join(lexer.words_of(text)) == text, text


def kinds() -> None:
    """A token has its kind and its offset."""
    found = lexer.tokens_of("a 1 'b' 'c // d")
    assert [it.text for it in found if it.kind == lexer.LITERAL] == ["'b'"], found
    assert [it.kind for it in found if not it.is_blank] == [lexer.WORD, lexer.NUMBER, lexer.LITERAL, lexer.LIFETIME], found
    assert [it.start for it in found if not it.is_blank] == [0, 2, 4, 8], found
    assert found[-1].kind == lexer.COMMENT, found


def all_sources() -> None:
    """The tokens of every source join to its text, and with and without kinds they are the same."""
    for path in sorted(TOP.glob("crates/*/src/**/*.rt")):
        text = text_of(path)
        for marks in ((), lexer.RATTLE_MARKS):
            found = lexer.words_of(text, marks)
            assert "".join(found) == text, path
            assert found == [it.text for it in lexer.tokens_of(text, marks)], path


def lists() -> None:
    """Brackets close, and commas in them part no list."""
    words = lexer.solid_words("(a, [b, c], d<e, f>, -> g)", lexer.RATTLE_MARKS)
    assert brackets.behind(words, 0) == len(words)
    found = ["".join(it.of(words)) for it in brackets.parts(words, Span(1, len(words) - 1))]
    assert found == ["a", "[b,c]", "d<e,f>", "->g"], found
    comparison = ["i", "<", "n", ",", "x"]
    assert [it.of(comparison) for it in brackets.parts(comparison, Span(0, 5))] == [comparison], "a comparison"
    assert brackets.behind_angle(["<", "f", "-", ">", "a", ">", "b"], 0) == 6, "an arrow"
    for opener, closer in brackets.CLOSING.items():
        try:
            brackets.behind([opener, "a"], 0)
        except brackets.Unclosed as unclosed:
            assert str(unclosed) == f"no {closer} closes this", unclosed
        else:
            raise AssertionError(opener)


WORDS = lexer.solid_words(SOURCE, lexer.RATTLE_MARKS)
ITEMS = items.items_of(WORDS)


def text(span: Span | None) -> str | None:
    return " ".join(span.of(WORDS)) if span else None


def forms() -> None:
    """Items of all forms are found in their order; macros, enums and nested functions are
    skipped."""
    found = [(type(it).__name__, getattr(it, "name", "")) for it in ITEMS]
    assert found == [
        ("Use", ""), ("Use", ""), ("Constant", "MOST"), ("Function", "least"), ("Struct", "Pair"), ("Struct", "Named"), ("Struct", "Empty"),
        ("Alias", "Alias"), ("Block", ""), ("Block", ""), ("Block", ""), ("Function", "last"),
    ], found


def declarations() -> None:
    """Imports, constants, structs and aliases have their spans."""
    ghost, use, most, _, pair, named, empty, alias, *_ = ITEMS
    assert (ghost.is_ghost, use.is_ghost) == (True, False)
    assert text(use.path) == "std :: alloc :: { Allocator , Global }", text(use.path)
    assert (text(most.type), text(most.value)) == ("[ u8 ; 2 ]", "[ 1 , 2 ]")
    assert pair.is_tuple and [text(it) for it in pair.fields] == ["pub Vec < u8 , A >", "u32"], pair
    assert not named.is_tuple and text(named.fields[1]) == "of : Pair", named
    assert empty.fields == () and text(alias.type) == "Pair < A >"


def functions() -> None:
    """A function has its generics, parameters, result, clauses and body."""
    least, block = ITEMS[3], ITEMS[8]
    assert not least.is_public and text(least.result) == "u8" and text(least.body) == "0"
    assert [text(it) for it in block.generics] == ["'a", "A : Allocator"] and text(block.header) == "Encode for [ Named < 'a > ; 2 ]"
    (encode,) = block.items
    assert encode.is_public and [text(it) for it in encode.generics] == ["const N : usize"]
    parameters = [(it.name, text(it.type), it.is_typed) for it in encode.parameters]
    assert parameters == [("self", "& mut self", False), ("bytes", "& [ u8 ]", True), ("f", "fn ( u8 ) -> u8", True)], parameters
    assert text(encode.result) == "Result < [ u8 ; 2 ] , Vec < u8 , A > >"
    clauses = [(it.kind, it.name, text(it.inside)) for it in encode.clauses]
    assert clauses == [("requires", None, "bytes . items ≡ [ ]"), ("ensures", None, 'result ≡ { "}" }'), ("ensures", "same", "⊤")], clauses
    assert text(encode.body) == "fn inner ( ) { }"


def blocks() -> None:
    """Traits and modules have their items; a function of a trait may have no body."""
    trait, module = ITEMS[9], ITEMS[10]
    assert (trait.kind, [it.name for it in trait.items], trait.items[0].body) == ("trait", ["law"], None)
    assert (module.kind, [type(it).__name__ for it in module.items]) == ("mod", ["Use", "Function"])
    assert module.items[1].is_public and text(module.items[1].parameters[0].type) == "[ u8 ; 2 ]"


PASSED_ON = {
    "wasm_base/proofs/Words.antt": "pub use Rattle.std.proofs.Common.{◌≡◌, refl}\nunfoldable pub use Rattle.wasm_base.specs.Numbers.{padded}\n",
    "wasm_base/proofs/Std.antt": "pub use Rattle.std.proofs.Common.{refl}\n",
    "wasm_base/specs/Lib.antt": "pub mod Numbers\nunfoldable pub use Rattle.wasm_base.specs.Numbers.*\n",
}
IMPORTS = """-- A proof.
use Rattle.std.proofs.Common.{◌≡◌, sym}
use Rattle.wasm_base.specs.Numbers.{padded as wide, minimal}
use Rattle.mine.proofs.f.Goals as goal
use Rattle.wasm_base.specs.Numbers.{minimal}

f = refl
"""


def imports() -> None:
    """A proof imports a name through what its module's crate re-exports, each name once."""
    with tempfile.TemporaryDirectory() as folder:
        for path, lines in PASSED_ON.items():
            file = pathlib.Path(folder, "crates", path)
            file.parent.mkdir(parents=True, exist_ok=True)
            file.write_text(lines, encoding="utf8")
        known = facades.Facades(pathlib.Path(folder))
        above = [
            "-- A proof.",
            "use Rattle.wasm_base.proofs.Words.{◌≡◌, padded as wide}",
            "use Rattle.std.proofs.Common.{sym}",
            "use Rattle.wasm_base.specs.Numbers.{minimal}",
            "use Rattle.mine.proofs.f.Goals as goal",
        ]
        assert known.turn("mine", IMPORTS) == "\n".join([*above, "", "f = refl", ""]), known.turn("mine", IMPORTS)
        assert known.of("wasm_base", "std.proofs.Common", "refl") == facades.STD
        assert known.of("wasm_base", "std.proofs.Common", "sym") == "std.proofs.Common"
        assert known.of("wasm_base", "wasm_base.specs.Numbers", "minimal") == "wasm_base.specs"


def imports_of_one_file() -> None:
    """The proof of a function imports what its crate's `Common` has through that file."""
    with tempfile.TemporaryDirectory() as folder:
        own = {"mine/proofs/Common.antt": "pub use Rattle.wasm_base.proofs.Words.{◌≡◌, padded}\n"}
        for path, lines in {**PASSED_ON, **own}.items():
            file = pathlib.Path(folder, "crates", path)
            file.parent.mkdir(parents=True, exist_ok=True)
            file.write_text(lines, encoding="utf8")
        known = facades.Facades(pathlib.Path(folder))
        assert known.of("mine", "std.proofs.Common", "◌≡◌") == "mine.proofs.Common"
        assert known.of("mine", "wasm_base.specs.Numbers", "padded") == "mine.proofs.Common"
        assert known.of("mine", "std.proofs.Common", "refl") == "wasm_base.proofs.Words"
        assert known.of("other", "std.proofs.Common", "◌≡◌") == "wasm_base.proofs.Words"


WHOLE_IMPORTS = """-- A proof.
use Rattle.wasm_base.specs.Numbers.{minimal}
use Rattle.wasm_base.proofs.Words.{sym}

f = refl
"""


def imports_of_the_whole() -> None:
    """A proof of a crate that uses the libraries as one imports their names through that crate."""
    with tempfile.TemporaryDirectory() as folder:
        top = pathlib.Path(folder)
        for kind in ("specs", "proofs"):
            file = top / f"crates/dolzhytik/{kind}/Lib.antt"
            file.parent.mkdir(parents=True, exist_ok=True)
            file.write_text(f"pub use Rattle.wasm_base.{kind} as base\n", encoding="utf8")
        (top / "crates.txt").write_text("# A comment.\nmine: dolzhytik\nother: wasm_base\n", encoding="utf8")
        known = facades.Facades(top)
        above = ["use Rattle.dolzhytik.specs.base.Numbers.{minimal}", "use Rattle.dolzhytik.proofs.base.Words.{sym}"]
        assert known.turn("mine", WHOLE_IMPORTS) == "\n".join(["-- A proof.", *above, "", "f = refl", ""])
        assert known.turn("other", WHOLE_IMPORTS) == WHOLE_IMPORTS


EXPORTED = re.compile(r"^pub use (\w+)::(?:\{([^}]*)\}|(\w+));", re.MULTILINE)


def exported(path: str) -> set[str]:
    """Returns the names that a file passes on."""
    found = EXPORTED.findall(text_of(TOP / "crates" / path))
    return {name for _, group, one in found for name in facades.split(group) + [one] * bool(one)}


def whole() -> None:
    """The crate `dolzhytik` has all public names of the libraries."""
    libraries = sorted(it.removesuffix(".specs") for it in facades.Facades(TOP).aliases() if it.endswith(".specs"))
    named = {name for it in ("lib.rt", "reader.rt", "reader/remap.rt") for name in exported(f"dolzhytik/src/{it}")}
    public = {name for it in libraries for name in exported(f"{it}/src/lib.rt")}
    assert named == public, named ^ public


def widths() -> None:
    """Imports have at most 200 characters a line, unless one name is longer."""
    names = [f"name{number:03}" for number in range(60)]
    lines = facades.import_lines("a.specs.B", names)
    assert max(map(len, lines)) <= facades.WIDTH and len(lines) == 4, lines
    assert [name for line in lines for name in facades.split(line.partition("{")[2].rstrip("}"))] == names


def main() -> int:
    """Runs the tests."""
    return run_all("rattle-test", [tokens, kinds, all_sources, lists, forms, declarations, functions, blocks, imports, imports_of_one_file, imports_of_the_whole, whole, widths])
