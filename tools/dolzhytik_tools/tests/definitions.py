"""Tests of the definitions that tools/to-rust documents: files of specs/, names and pages."""
from __future__ import annotations

import re

from ..definitions.imports import parsed
from ..definitions.layout import COLUMNS, laid_out
from ..definitions.library import Library
from ..definitions.pages import item, page, prose
from ..definitions.specs import read
from . import definition_links as links
from .report import run_all, stops

NUMBERS = """-- This file defines numbers.
use Rattle.std.specs.Prelude.{◌+◌, ℕ}

-- How a number is encoded.
pub data Mode : Type 0 where
  short : Mode
  long : Mode

-- ---- sums

-- The sum of `x` and `one`.
abbrev pub plus_one : ℕ → ℕ
plus_one x = x + one

-- The number 1.
abbrev pub one : ℕ
one = 1
"""
WORDS = """-- This file passes definitions on.
pub use Rattle.wasm_base.specs.Numbers.{Mode, short, one}
"""
FORMATS = """-- This file defines formats.
use Rattle.wasm_base.specs.Words.{Mode, short, one as first}
use Rattle.wasm_base.specs.Numbers as numbers
use Rattle.wasm_base.specs.declared.fault.Fault.TheVariants.{Ended}

-- Whether a mode is short.
abbrev pub is_short : Mode → Type 0
is_short short = first ≡ numbers.plus_one 0
is_short other = Ended ≡ other

-- A sum, whose `one` is its own.
pub record Sum (one : ℕ) : Type 0 where
  pub is : one ≡ one

module _ {X : Type 0} where
  -- A parameter of the module.
  abbrev pub same : X → X
  same x = x
"""


def small() -> Library:
    """Returns a library of small files."""
    texts = {'Numbers': NUMBERS, 'Words': WORDS, 'Formats': FORMATS}
    return Library(read('wasm_base', name, text) for name, text in texts.items())


def cited(name: str, file: str = 'Formats') -> dict[str, str]:
    """Returns the links of a definition, to pages and names."""
    found = small()
    specs = found.files[f'Rattle.wasm_base.specs.{file}']
    one = next(it for it in specs.definitions if it.name == name)
    return {word: path.partition('base::')[2] for word, path in found.cited_by(specs, one).items()}


def reads_a_file() -> None:
    """A file has a head, without the line of the tool that wrote it, and definitions with sentences,
    parts and constructors."""
    specs = read('wasm_base', 'Numbers', f'-- Written by tools/numbers from numbers.tsv: do not edit.\n{NUMBERS}')
    assert specs.head == 'This file defines numbers.', specs.head
    assert [(it.name, it.part) for it in specs.definitions] == [('Mode', ''), ('plus_one', 'sums'), ('one', 'sums')]
    assert specs.definitions[0].constructors == ('short', 'long')
    assert specs.definitions[2].sentence == 'The number 1.'
    assert specs.definitions[2].text == 'abbrev pub one : ℕ\none = 1'


def reads_a_module() -> None:
    """A definition in a `module` has its line."""
    found = read('wasm_base', 'Formats', FORMATS).definitions[-1]
    assert found.sentence == 'A parameter of the module.', found.sentence
    assert found.text == 'module _ {X : Type 0} where\n  abbrev pub same : X → X\n  same x = x', found.text


def erases_marks() -> None:
    """Marks of tools are in no definition."""
    marked = NUMBERS.replace('one = 1', '-- begin: written by tools/x\none = 1\n-- end: written by tools/x')
    assert read('wasm_base', 'Numbers', marked).definitions == read('wasm_base', 'Numbers', NUMBERS).definitions


def stops_at_bad_files() -> None:
    """The tool stops at a definition without a sentence, and at what it does not know."""
    for text, said in [
        (NUMBERS.replace('-- The number 1.\n', ''), 'Numbers.antt:15: one has no sentence'),
        (NUMBERS + 'two = 2\n', 'Numbers.antt:15: this is no part of one: two = 2'),
        (NUMBERS.replace('abbrev pub one', 'axiom one'), 'Numbers.antt:15: an unknown definition: axiom one'),
        (NUMBERS + '\n-- A comment.\n\n-- Another.\n', 'Numbers.antt:21: a comment above no definition'),
        (NUMBERS + '\n-- The number 1.\nabbrev pub one : ℕ\n', 'one is defined twice'),
        (NUMBERS.replace('Prelude.{', 'Prelude{'), 'Numbers.antt:1: an unknown import'),
    ]:
        message = stops(read, 'wasm_base', 'Numbers', text)
        assert said in message, message


def links_words() -> None:
    """Words are linked through the files that pass them on, other names and names of modules.
    Arguments, variants of Rust and constructors in patterns are what they are."""
    assert cited('is_short') == {'Mode': 'numbers::Mode', 'short': 'numbers::Mode', 'first': 'numbers::one', 'numbers.plus_one': 'numbers::plus_one'}
    assert cited('Sum') == {}
    assert cited('plus_one', 'Numbers') == {'one': 'numbers::one'}
    assert cited('Mode', 'Numbers') == {}


def stops_at_unknown_names() -> None:
    """A name that no module has, and one of two modules, stop the tool."""
    found = small()
    where = 'a.rt:1'
    assert stops(found.find, 'Rattle.wasm_base.specs.Numbers', 'two', where) == 'a.rt:1: there is no two'
    assert stops(found.find, 'Rattle.wasm_base.specs.Gone', 'two', where) == 'a.rt:1: there is no Rattle.wasm_base.specs.Gone'
    both = [parsed('Rattle.wasm_base.specs.Numbers.{one as it}', where), parsed('Rattle.wasm_base.specs.Formats.{same as it}', where)]
    assert stops(found.meant, 'it', both, where) == 'a.rt:1: it is imported from two modules'
    twice = [parsed(f'Rattle.wasm_base.specs.{name}.{{one}}', where) for name in ('Numbers', 'Words')]
    assert found.meant('one', twice, where)


def stops_at_keywords() -> None:
    """A definition with the name of a keyword of Rust can have no page."""
    found = Library([read('wasm_base', 'Numbers', NUMBERS.replace('one', 'match'))])
    specs = next(iter(found.files.values()))
    assert 'keyword' in stops(lambda: list(item(found, specs, specs.definitions[2])))


def writes_a_page() -> None:
    """A page has each definition once, with its sentence, its text and links."""
    text = page(small(), 'wasm_base')
    assert re.findall(r'pub trait (\w+)|^    type (\w+);', text, re.M) == [
        ('numbers', ''), ('', 'Mode'), ('', 'plus_one'), ('', 'one'), ('formats', ''), ('', 'is_short'), ('', 'Sum'), ('', 'same'),
    ]
    assert '/// - Sums: [`plus_one`](numbers::plus_one), [`one`](numbers::one).\n' in text
    assert '    /// The sum of `x` and [`one`](numbers::one).\n    ///\n    /// ```text\n    /// abbrev pub plus_one' in text
    assert '    /// Definitions: [`one`](numbers::one).\n    type plus_one;\n' in text


def escapes_markdown() -> None:
    """A sentence is text in Markdown, except the text in backticks."""
    assert prose('a_b [c] <d> `e_f` `g`', {'g': 'h::g'}) == 'a\\_b \\[c\\] \\<d\\> `e_f` [`g`](h::g)'


def breaks_lines() -> None:
    """Long lines are broken where the fewest brackets are open, and keep their words."""
    line = 'ensures found { IfOk result (λ number. (x : Contents) × content standard self.now.section.payload x × (number ≡ number_in x)) }'
    lines = laid_out(line)
    assert len(lines) > 1 and all(len(it) <= COLUMNS for it in lines), lines
    assert ' '.join(lines).split() == line.split()
    assert lines[0] == 'ensures found { IfOk result'
    assert laid_out('a b\n  c') == ['a b', '  c']
    assert laid_out('x' * 200) == ['x' * 200]


TESTS = [
    reads_a_file,
    reads_a_module,
    erases_marks,
    stops_at_bad_files,
    links_words,
    stops_at_unknown_names,
    stops_at_keywords,
    writes_a_page,
    escapes_markdown,
    breaks_lines,
]


def main() -> int:
    """Runs the tests."""
    return run_all('definitions-test', [*TESTS, *links.TESTS])
