"""Tests of tools/to-rust, of all sources and of small ones.

The tokens of a source are those of its Rust except edits, each of a form that its reason
allows. Bad inputs stop the tool at their line. Generated files that are changed, missing or left
over are reported.
"""
from __future__ import annotations

import collections
import pathlib
import re
import shutil
import tempfile

from ..errors import Stop
from ..rattle.lexer import solid_words, words_of
from ..repository import TOP
from ..to_rust import command
from ..to_rust.context import SourceFile, sources
from ..to_rust.crates import Crate
from ..to_rust.tables import CLONED, EXHAUSTIVE, LIBRARIES, PLACES, SHOWN_BY_HAND
from ..to_rust.written import Written
from ..to_rust.written import written as written_of
from ..widths import Expressions
from .report import end, report

# For each reason the erased tokens and those in their place: pairs of patterns over tokens that
# spaces join.
DERIVES = r'# \[ derive \( (?:\w+ (?:, )?)*\) \]'
FORMS = {
    # A comment has no tokens, and is not counted.
    'mark': [('', '')],
    'ghost': [(r'ghost .* [;,]', '')],
    'clause': [(r'(?:requires|ensures) (?:\w+ )?\{.*\}', '')],
    'constant': [('prove', 'assert')],
    'model': [(r'impl (?:.* )?Model for .* \{.*\}', '')],
    'attribute': [(r'# (?:! )?\[ (?:tactic|rattlefmt|cycle) .*\]', ''), (r'# \[ error \( .* \) \]', ''), (r'# \[ unsafe \( no_mangle \) \]', '')],
    'derive': [(DERIVES, DERIVES), (r'# \[ derive \( (?:Drop )?\) \]', '')],
    'drop bound': [(r'\+ Drop', ''), (r': Drop', ''), (r'Drop \+', ''), (r'(?:where )?\w+ (?:: : \w+ )?: Drop ,?', '')],
    'drop of a trait': [('Drop', 'Sized')],
    'runtime': [(r'(?:& )?rt ,', ''), (r'_?rt : HostRuntime', ''), ('', 'let rt = crate : : host : : HostRuntime ;')],
    'sink': [('Allocator', 'Sink'), (r'Vec < u8 , (\w+) >', r'(\w+)'), (r'impl < A : Allocator > (Buffer|Effect) for Vec < u8 , A >', r'impl < A : Sink > (Buffer|Effect) for A')],
    'pair': [(r'push_reserved \(', r'push_both_reserved \( \['), (r'\) ; \w+ \. push_reserved \(', ','), (r'\)', r'\] \)')],
    'place': [(re.escape(' '.join(solid_words(it.old))), re.escape(' '.join(solid_words(it.new)))) for it in PLACES],
    'use': [(r'use [^;]* ;', r'(?:use [^;]* ; ?)*')],
    'export': [(r'pub use [^;]* ;', r'(?:(?:# \[ doc \( alias = "[^"]*" \) \] )*pub (?:\( crate \) )?use [^;]* ; ?)+')],
    'path': [('crate', r'(?:in )?crate(?: : : \w+)+'), (r'wasm_\w+(?: : : laws)?|hex', r'(?:crate|dolzhytik)(?: : : \w+)+'), ('test_support|examples|calls|read_back', r'crate : : \w+')],
    'link': [('', '')],
    'replaced': [('', '')],
    'prose': [('', '')],
    'modelled': [('', '')],
    'alias': [('', r'(?:# \[ doc \( alias = "[^"]*" \) \] ?)+')],
    'module': [('mod', r'pub \( crate \) mod')],
    'border': [(r'extern "C"', ''), ('mod', r'pub \( crate \) mod')],
    'layout': [('', r'# \[ rustfmt : : skip \]')],
    'arm': [('', r'_ = > unreachable ! \( "[^"]*" \) ,')],
    'exhaustive': [('', r'# \[ non_exhaustive \]')],
    'feature': [('', r'# \[ cfg \( feature = "\w+" \) \]')],
}

# Bad inputs: a name, the text, the line at which the tool stops, and a part of the message.
BAD = [
    ('a word of the prover', 'pub fn f() {\n    prove!(1);\n}\n', 2, 'a word of the prover: prove'),
    ('a clause without braces', 'pub fn f()\n    ensures result.x\n{}\n', 2, 'a word of the prover: ensures'),
    ('a loop with an invariant', 'pub fn f() {\n    while true\n        invariant { x }\n    {}\n}\n', 3, 'a word of the prover: invariant'),
    ('an attribute', '// A file.\n\n#[must_use]\npub fn f() {}\n', 3, 'an unknown attribute: must_use'),
    ('a derived trait', '#[derive(Clone, Ord)]\npub struct S;\n', 1, 'an unknown derived trait: Ord'),
    ('a path of std in a use', 'use std::alloc::Global;\nuse std::collections::HashMap;\nfn f(_: Global, _: HashMap) {}\n', 2, 'an unknown path: std::collections::HashMap'),
    ('a path of std in code', 'pub fn f() {\n    std::mem::drop(1);\n}\n', 2, 'a path of std outside of a use'),
    ('a character outside of ASCII', 'pub fn f() {\n    let x = "\u00e9";\n}\n', 2, 'a character outside of ASCII in code'),
    ('a letter outside of ASCII', 'pub fn \u00e9() {}\n', 1, 'a character outside of ASCII in code'),
    ('an unsafe block', 'pub fn f() {\n    unsafe { g() }\n}\n', 2, 'a word of the prover: unsafe'),
    ('a function for C', 'pub extern "C" fn f() {}\n', 1, 'a word of the prover: extern'),
    ('a runtime beside another argument', 'fn f(rt: HostRuntime, x: u8) {}\n', 1, 'the runtime of the host'),
    ('a ghost outside of all', 'ghost x: { Nat };\n', 1, 'a ghost outside'),
    ('an impl of Model with code', 'impl Model for S {\n    ghost view = { x };\n    fn f() {}\n}\n', 3, 'an impl of Model that holds more than ghosts'),
    ('an error without a text', '#[derive(Error)]\npub enum E {\n    A,\n}\n', 3, 'a variant of E without a text'),
    ('a crate by itself', 'pub use crate as other;\n', 1, 'crate is known at the head of a path'),
    ('a brace that nothing closes', 'pub fn f()\n    ensures { x\n', 2, 'no } closes this'),
]


def is_allowed(reason: str, erased: str, put: str) -> bool:
    return any(re.fullmatch(old, erased) and re.fullmatch(new, put) for old, new in FORMS[reason])


def token_trouble(file: SourceFile, counts: collections.Counter[str]) -> str | None:
    """Compares the tokens of a source with those of its Rust, and its edits."""
    written, text = written_of(file), file.text
    tokens = words_of(text)
    if ''.join(tokens) != text:
        return f'{written.path}: its tokens are not its text'
    wanted = solid_words(written.page + written.before)
    place = 0
    for it in sorted(written.source.edits, key=lambda edit: (edit.first, edit.end)):
        through = solid_words(''.join(tokens[place:it.first]))
        erased = solid_words(''.join(tokens[it.first:it.end]))
        if it.first < place or not is_allowed(it.reason, ' '.join(erased), ' '.join(solid_words(it.text))):
            return f'{written.path}: {it.reason}: {" ".join(erased)[:80]} became {it.text[:80]}'
        wanted += through + solid_words(it.text)
        counts['through'] += len(through)
        counts[it.reason] += len(erased)
        place = it.end
    through = solid_words(''.join(tokens[place:]))
    counts['through'] += len(through)
    counts['in'] += len(solid_words(text))
    counts['out'] += len(solid_words(written.text))
    if wanted + through + solid_words(written.behind) != solid_words(written.text):
        return f'{written.path}: tokens in are not tokens out and what was erased or turned'
    return None


def all_tokens() -> str | None:
    """Compares the tokens of all sources with those of the generated files."""
    counts: collections.Counter[str] = collections.Counter()
    files = 0
    for file in sources():
        files += 1
        trouble = token_trouble(file, counts)
        if trouble:
            return trouble
    if counts['in'] != sum(n for reason, n in counts.items() if reason not in ('in', 'out')):
        return 'tokens in are not those that went through and those that were erased or turned'
    reasons = ', '.join(f'{reason} {n}' for reason, n in counts.most_common() if reason not in ('in', 'out', 'through', 'mark'))
    print(f'to-rust-test: {files} files: {counts["in"]} tokens in, {counts["through"]} of them through; erased or turned: {reasons}')
    return None


FUNCTION = re.compile(r'\s*(?:pub(?:\(\w+\))? )?(?:const )?(?:extern "C" )?fn ')
BLOCK = re.compile(r'\n(?=(?:pub )?(?:impl|trait)\b)')


def is_shown(text: str) -> bool:
    """Returns whether rustdoc shows the last function of a text: it is public, or of a trait."""
    lines = text.split('\n')
    at = max(number for number, line in enumerate(lines) if FUNCTION.match(line))
    if lines[at].lstrip().startswith('pub ') or not lines[at].startswith(' '):
        return lines[at].lstrip().startswith('pub ')
    header = BLOCK.split('\n'.join(lines[:at]))[-1].partition('{')[0]
    return bool(re.search(r'\btrait\b|\sfor\s', header))


def clause_trouble() -> str | None:
    """Each clause of a source is in its Rust, word for word, except private functions of
    libraries."""
    for file in sources():
        written = written_of(file)
        told = collections.Counter(' '.join(re.sub(r'(?m)^\s*///', '', written.text).split()).split(' '))
        for it in written.source.edits:
            if it.reason != 'clause' or (file.crate.name in LIBRARIES and not is_shown(written.source.text(0, it.first))):
                continue
            if set(written.source.text(it.first, it.end).split()) - set(told):
                return f'{written.path}: a clause is not told'
    return None


def bad_trouble(text: str, line: int, part: str) -> str | None:
    """A bad input stops the tool at its line."""
    try:
        Written(Crate('wasm_base'), 'bad.rt', text)
    except Stop as stop:
        said = str(stop)
        return None if said.startswith(f'crates/wasm_base/src/bad.rt:{line}: ') and part in said else f'it said {said}'
    return 'it was not stopped at'


def layout_trouble() -> str | None:
    """rustfmt skips each module that the root of a test program declares, and other items stop."""
    crate = Crate('wasm_types_tests')
    written = Written(crate, 'lib.rtt', '//! Tests.\n\n#[cfg(test)]\nmod rows;\n#[cfg(test)]\nmod seen;\n').text
    skipped = re.findall(r'#\[rustfmt::skip\]\nmod (\w+);', written)
    if skipped != ['rows', 'seen']:
        return f'rustfmt skips {skipped}'
    try:
        Written(crate, 'lib.rtt', 'mod rows;\n\nfn f() {}\n')
    except Stop as stop:
        return None if str(stop).startswith('tests/wasm_types_tests/src/lib.rtt:3: ') else f'it said {stop}'
    return 'a function was not stopped at'


def feature_trouble() -> str | None:
    """Only the listed items need a feature, and a listed item that is gone stops the tool."""
    crate = Crate('wasm_tool')
    text = '//! Recipes.\n\nmod fault;\nmod listing;\nmod program;\n\npub use program::run;\npub use fault::F;\n'
    needed = re.findall(r'#\[cfg\(feature = "programs"\)\]\n(.*);', Written(crate, 'lib.rt', text).text)
    if needed != ['mod listing', 'mod program', 'pub use program::run']:
        return f'a feature is needed by {needed}'
    try:
        Written(crate, 'lib.rt', text.replace('mod listing;\n', ''))
    except Stop as stop:
        return None if 'mod listing; is there 0 times' in str(stop) else f'it said {stop}'
    return 'a listed item that is gone did not stop the tool'


# Types of a source, and how each begins in its Rust.
TYPES = [
    ('#[derive(Clone, Copy, Debug)]\npub enum Catch {', '#[derive(Clone, Debug)]\npub enum Catch {'),
    ('#[derive(Clone, Copy, PartialEq, Debug)]\npub struct Ieee32 {', '#[derive(Clone, Copy, PartialEq)]\npub struct Ieee32 {'),
    ('#[derive(Clone, Copy, Debug)]\npub enum Items {', '#[derive(Clone, Copy, Debug)]\n#[non_exhaustive]\npub enum Items {'),
    ('#[derive(Debug)]\npub(crate) enum Inner {', '#[derive(Debug)]\npub(crate) enum Inner {'),
    ('#[derive(Clone, Copy)]\npub enum Atomic {', '#[derive(Clone, Copy, Debug)]\n#[non_exhaustive]\npub enum Atomic {'),
    ('#[derive(Drop)]\npub enum Instruction {', '#[derive(Debug)]\n#[non_exhaustive]\npub enum Instruction {'),
]


def types_trouble() -> str | None:
    """Types of the root have the traits of the Rust crate's, and a `match` on a public enum that
    may grow needs a wildcard, but not on one of a crate of tests."""
    for source, rust in TYPES:
        text = Written(Crate('wasm_base'), 'small.rt', f'{source}\n    A,\n}}\n').text
        if rust not in text or text.count('#[') != rust.count('#['):
            return f'{source.split()[-2]} became {text}'
    if 'non_exhaustive' in Written(Crate('wasm_types_tests'), 'small.rtt', 'pub enum Items {\n    A,\n}\n').text:
        return 'an enum of a crate of tests is not exhaustive'
    public = set()
    for file in sources():
        if file.crate.name in LIBRARIES:
            public |= set(re.findall(r'^pub (?:enum|struct) (\w+)', file.text, re.MULTILINE))
    gone = (CLONED | SHOWN_BY_HAND | set(EXHAUSTIVE)) - public
    return f'no library has {sorted(gone)}' if gone else None


def check_trouble() -> str | None:
    """`--check` reports a changed file, a missing one and one that is left over."""
    with tempfile.TemporaryDirectory() as folder:
        top = pathlib.Path(folder)
        for part in ['crates', 'tests']:
            shutil.copytree(TOP / part, top / part, ignore=shutil.ignore_patterns('out', 'proofs', 'specs', 'mutants', 'must-fail'))
        command.write(top)
        touched, missing, left = (top / 'rust/src/base' / name for name in ('pieces.rs', 'types.rs', 'gone.rs'))
        found = [command.check(top)]
        touched.write_text(touched.read_text() + '// A word more.\n')
        found.append(command.check(top))
        command.write(top)
        missing.unlink()
        found.append(command.check(top))
        command.write(top)
        left.write_text('// Written by tools/to-rust from crates/wasm_base/src/gone.rt: change that.\n')
        found.append(command.check(top))
        command.write(top)
        found.append(command.check(top))
    return None if found == [0, 1, 1, 1, 0] and not left.exists() else f'the answers were {found}'


# Texts of Rust, and the listed expressions of each, with their functions.
LISTED = [
    ('fn f(x: usize) -> usize { x + 1 }', [('f', 'x + 1')]),
    ('fn f() { let y = g(a, b.len() - c[i - 1]); y += 2; }', [('f', 'b.len() - c[i - 1]'), ('f', 'i - 1'), ('f', 'y += 2')]),
    ('fn f() { if (n as usize) < a << 2 && !*b { g(x as u8) } }', [('f', 'n as usize'), ('f', 'a << 2'), ('f', 'x as u8')]),
    ('fn f() { a\n    .len()\n    .saturating_add(g(\n        b,\n    )) }', [('f', 'a.len().saturating_add(g(b))')]),
    ("impl<'a, A: Allocator + Copy + 'a> B<A> { fn f<T: C + crate::Data>(x: &T) -> R<T> { *x } }", []),
    ('use a::b as c; fn f() { <T as U>::g(-1, *x, &y, x.sum, "a + b") } // c + d', []),
    ('fn f() { x + MOST } fn g() { x + T::size() }', [('f', 'x + MOST'), ('g', 'x + T::size()')]),
    ('fn f() { x.iter().sum() }', [('f', 'x.iter().sum()')]),
]


def width_trouble(text: str, expected: list[tuple[str, str]]) -> str | None:
    found = Expressions(text).rows()
    return None if found == expected else f'it found {found}'


def width_table_trouble() -> str | None:
    """A sum that the table lacks stops the tool, and so does a row that no file has."""
    files = command.generated()
    path = 'src/base/pieces.rs'
    for text in [files[path] + 'fn f(x: usize) -> usize { x + 1 }\n', files[path].replace('index - 1', 'index')]:
        try:
            command.check_widths({**files, path: text})
        except Stop as stop:
            if 'base/pieces.rs' not in str(stop):
                return f'it said {stop}'
        else:
            return 'nothing stopped'
    return None


def main() -> int:
    """Runs the tests."""
    troubles = {
        'tokens of all sources': all_tokens,
        'clauses of all sources': clause_trouble,
        'layout of roots': layout_trouble,
        'features': feature_trouble,
        'traits of types': types_trouble,
        'touched files': check_trouble,
    }
    passed = [report('to-rust-test', name, trouble()) for name, trouble in troubles.items()]
    passed += [report('to-rust-test', f'widths: {" ".join(text.split())}', width_trouble(text, expected)) for text, expected in LISTED]
    passed.append(report('to-rust-test', 'table of widths', width_table_trouble()))
    passed += [report('to-rust-test', f'bad input: {name}', bad_trouble(text, line, part)) for name, text, line, part in BAD]
    return end(passed)
