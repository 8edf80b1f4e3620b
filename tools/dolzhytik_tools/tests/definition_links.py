"""Tests of the words above clauses, and of the links below them."""
from __future__ import annotations

import functools
import re

from ..definitions import front
from ..definitions.imports import parsed
from ..definitions.library import library
from ..to_rust.command import generated
from ..to_rust.crates import Crate
from ..to_rust.glosses import EXACT, asked, check_form, check_rows, gloss, head
from ..to_rust.written import Written
from .report import stops

CLAUSES = """// A file.
ghost use Rattle.std.specs.Prelude.{IfOk, length};
ghost use Rattle.wasm_base.specs.Formats.{header, name, byte as one_byte};

/// Does it.
pub fn f(name: &[u8]) -> Result<()>
    ensures found { IfOk result (λ header. header ≡ one_byte) }
    ensures { name.now ≡ header }
{}

impl S {
    ghost use Rattle.wasm_base.specs.Decoding.{Decodes as header};

    /// Does that.
    pub fn g()
        ensures { header }
    {}
}
"""


def links_clauses() -> None:
    """Words of clauses are linked by the imports around them. What a clause or the function binds
    has no definition."""
    text = Written(Crate('wasm_base'), 'f.rt', CLAUSES).text
    assert text.count('/// Definitions: ') == 2, text
    base = 'crate::definitions::base'
    assert f'/// Definitions: [`one_byte`]({base}::formats::byte), [`header`]({base}::formats::header). [How to read clauses](crate::definitions).\n' in text
    assert f'/// Definitions: [`header`]({base}::decoding::Decodes). [How' in text
    assert 'Definitions' not in Written(Crate('wasm_c'), 'f.rt', CLAUSES).text


def glosses() -> None:
    """The words above clauses follow from their forms."""
    ok, err = 'ensures a { IfOk result (λ x. x) }', 'ensures b { OnErr result (p ≡ q) }'
    unchanged = err.replace('p ≡ q', 'self.new ≡ self.old')
    assert gloss([ok, err, 'ensures c { p }']) == '' and gloss(['ensures { OnOk result encodable }']) == ''
    assert gloss([ok, unchanged]) == 'After an error: `b`, the value is unchanged.'
    assert gloss(['ensures { p }']) == ''
    adds = 'ensures { Adds (f x) ⊤ self.old self.new result }'
    assert gloss([adds], {adds: 'It adds.'}) == 'It adds.'
    assert gloss([ok, adds.replace('ensures', 'ensures c')], {adds.replace('ensures', 'ensures c'): 'It adds.'}) == '`c`: It adds.'
    two = ['ensures c { Adds x ⊤ self.old self.new result }', 'ensures d { Adds y ⊤ self.old self.new result }']
    assert gloss(two, dict.fromkeys(two, 'It adds.')) == '`c`, `d`: It adds.'
    assert gloss([unchanged, two[0]], {two[0]: 'It adds.'}) == '- After an error, `b`: the value is unchanged.\n- `c`: It adds.'
    assert [head(it) for it in (adds, ok.replace('x. x', 'x. P x'), 'ensures { x.y ≡ z }', 'ensures { P x → Q y }', 'ensures { (x y : T A) → P x }')] == ['Adds', 'P', '', '', 'P']
    memory = 'ensures m { result ≢ Err TooLong }'
    assert gloss([ok, memory]) == 'In any case: `m`, no error is `TooLong`.'
    assert gloss(['ensures { result ≡ [] }']) == 'The result has no entries.'
    assert asked('requires { HasKnownLength a b }') == 'The iterator ends, and yields as many items as it reports.' and asked('requires { p }') == ''
    for other in ['IfOk result (p) × q', '(IfOk result p)', 'IfOk other p', 'OnOk result p → q']:
        assert gloss([f'ensures a {{ {other} }}', 'ensures b { p }']) == '', other


def names_keep_their_form() -> None:
    """A clause whose name means something has the form of all clauses of that name."""
    check_form('ensures front { IsFrontOf sink.old.items sink.new.items }', 'a.rt:1')
    check_form('requires spare { a ≤ b }', 'a.rt:1')
    assert stops(check_form, 'ensures found { IfErr result (λ e. p) }', 'a.rt:1').startswith('a.rt:1: a clause found')


def rows_are_of_clauses() -> None:
    """The generator stops at words for a clause, or for a form, that no clause has."""
    term = next(iter(EXACT))
    assert stops(check_rows, set(EXACT) - {term}) == f'to_rust/glosses.py has words for a clause that no call has: {term}'
    assert stops(check_rows, set(EXACT)).startswith('to_rust/glosses.py has words for a form that no clause has: ')


def front_page_explains() -> None:
    """The front page explains each word of the prover's libraries, and its operators."""
    text = '| `IfOk r P`, `x ≡ y` | ..\n| `a \\|\\| b` | ..\n'
    found = front.explained(text)
    assert {'IfOk', '≡', '||'} <= found, found
    imports = {'a.rt': [parsed('Rattle.std.specs.Prelude.{IfOk, ◌≡◌, ◌||◌}', 'a.rt:1'), parsed('Rattle.wasm_base.specs.X.{y}', 'a.rt:2')]}
    front.check(imports, text)
    message = stops(front.check, imports, text.replace('IfOk', 'IfErr'))
    assert message.endswith('no row explains `IfOk`, which a.rt imports'), message


@functools.lru_cache(maxsize=None)
def files() -> dict[str, str]:
    """Returns the generated files."""
    return generated()


def every_link_is_to_a_definition() -> None:
    """Each link of a generated file is to a page and a definition that is there."""
    known = {f'crate::definitions::{path}' for path in definitions()}
    count = 0
    for path, text in files().items():
        for link in re.findall(r'\]\((crate::definitions::[\w:]+)\)', text):
            count += 1
            assert link in known, f'{path}: {link}'
    assert count > 1000, count


def definitions() -> list[str]:
    """Returns the paths of the definitions, from the generated pages."""
    paths = []
    for path, text in files().items():
        crate = re.fullmatch(r'src/definitions/(\w+)\.rs', path)
        trait = ''
        for line in text.split('\n') if crate else ():
            found = re.match(r'pub trait (\w+)|    type (\w+);', line)
            trait = found[1] if found and found[1] else trait
            if found and found[2]:
                paths.append(f'{crate[1]}::{trait}::{found[2]}')
    return paths


def calls_that_ask_are_linked() -> None:
    """The list of what calls ask has the public path of each call."""
    rows = files()['src/asks.md'].split('\n')
    for words, call in [('No encoding of a value is empty.', '[`reader::read_to_end`](crate::reader::read_to_end)'), ('The iterator ends, and yields as many items as it reports.', '[`encode_vec`](crate::fallible::encode_vec)')]:
        found = [row for row in rows if row.startswith(f'- {words} Asked by ')]
        assert len(found) == 1 and call in found[0], words


def every_definition_has_a_page() -> None:
    """Each definition of the libraries is on a page, once."""
    paths = definitions()
    assert len(paths) == len(set(paths))
    wanted = [it.name for file in library().files.values() for it in file.definitions]
    assert sorted(wanted) == sorted(path.rpartition('::')[2] for path in paths)


TESTS = [
    links_clauses,
    glosses,
    names_keep_their_form,
    rows_are_of_clauses,
    front_page_explains,
    every_link_is_to_a_definition,
    calls_that_ask_are_linked,
    every_definition_has_a_page,
]
