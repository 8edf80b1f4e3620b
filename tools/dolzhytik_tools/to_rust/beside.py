"""Documents public items beside their doc comments: by the texts of tools/rustdoc, by `# Errors`,
and by the table of instructions.

A file of tools/rustdoc has the texts of a library's items. `## NAME` or `## OWNER::NAME` begins the
text of an item, lines `alias: WORD, WORD` are what search finds it by, lines `- NAME: TEXT`
document its variants and fields (`VARIANT.FIELD` is a field of a variant), and what follows is
appended to its doc comment, or replaces that of an item that the root of the package exports.
Paragraphs go before the first heading of the doc comment. The tool stops at a text whose item is
missing.
"""
from __future__ import annotations

import functools
import itertools
import re
from collections.abc import Iterator
from dataclasses import dataclass, field

from ..drop_in import cases, standard
from ..errors import Stop
from ..instructions.table import ENUMS, TABLE
from ..rattle.lexer import is_word
from ..repository import TOP, text_of
from .asks import owner_of
from .ghosts import item_start
from .glosses import parts
from .render import wrapped
from .source import Source
from .tables import BETWEEN, LIBRARIES

FOLDER = 'tools/rustdoc'
ROOT = 'tools/root-exports.tsv'
KINDS = ('struct', 'enum', 'trait', 'fn', 'type', 'const')
# The headings of a doc comment, before which a text's paragraphs go.
HEADINGS = ('/// # Errors', '/// # Panics', '/// # Examples')


@dataclass
class Text:
    """The text of an item: its line in the file, words for search, the documentation of its
    members, and what is appended to its doc comment."""

    where: str
    aliases: list[str] = field(default_factory=list)
    members: dict[str, str] = field(default_factory=dict)
    lines: list[str] = field(default_factory=list)


def parsed(path: str, text: str) -> dict[str, Text]:
    """Returns the texts of a file, by the names of items."""
    found: dict[str, Text] = {}
    it = None
    for number, line in enumerate(text.split('\n'), 1):
        where = f'{path}:{number}'
        if line.startswith('## '):
            name = line[3:].strip()
            if name in found:
                raise Stop(f'{where}: {name} has two texts')
            it = found[name] = Text(where)
        elif it is None:
            if line and not line.startswith(('# ', '<!--')):
                raise Stop(f'{where}: a text without an item')
        elif line.startswith('alias: ') and not it.lines:
            it.aliases += line[7:].split(', ')
        elif (member := re.fullmatch(r'- ([\w.]+): (.*)', line)) and not it.lines:
            it.members[member[1]] = member[2]
        elif line or it.lines:
            it.lines.append(line)
    for it in found.values():
        while it.lines and not it.lines[-1]:
            it.lines.pop()
    return found


@functools.lru_cache(maxsize=None)
def texts(crate: str) -> dict[str, Text]:
    """Returns the texts of a library."""
    path = f'{FOLDER}/{LIBRARIES[crate]}.md'
    return parsed(path, text_of(TOP / path)) if (TOP / path).exists() else {}


@functools.lru_cache(maxsize=None)
def at_the_root() -> frozenset[str]:
    """Returns the names of definitions that the root of the package exports."""
    return frozenset(re.findall(r'^(\w+)\tcrate::', text_of(TOP / ROOT), re.MULTILINE))


@dataclass(frozen=True)
class Item:
    """A public item: its name with its owner's, its kind, its first token, and that of its name."""

    name: str
    kind: str
    start: int
    at: int


def items(source: Source) -> Iterator[Item]:
    """Yields the items of a source that may have a text."""
    for place, token in enumerate(source.tokens):
        if token not in KINDS or source.taken[place]:
            continue
        at = source.skip(place + 1)
        if not is_word(source.tokens[at]) or token == 'const' and source.tokens[at] == 'fn':
            continue
        header = source.header_around(place)
        words = [] if header is None else source.solid(header.begin, header.end)
        is_in_trait = 'trait' in words and 'impl' not in words
        is_public = source.tokens[source.back(place)] == 'pub' or token == 'fn' and source.tokens[source.back(place)] == 'const'
        if not is_public and not (token == 'fn' and is_in_trait and 'pub' in words):
            continue
        owner = owner_of(source, place).name if token in ('fn', 'const') else ''
        yield Item('::'.join(filter(None, (owner, source.tokens[at]))), token, item_start(source, place), at)


def members(source: Source, item: Item) -> Iterator[tuple[str, int]]:
    """Yields the variants and public fields of a type, and the token before which their
    documentation goes."""
    brace = item.at
    while source.tokens[brace] not in ('{', ';', '('):
        brace += 1
    if source.tokens[brace] != '{':
        return
    yield from named(source, brace, source.closing(brace) - 1, '', item.kind == 'enum')


def named(source: Source, brace: int, end: int, before: str, is_enum: bool) -> Iterator[tuple[str, int]]:
    """Yields the names between braces."""
    at = source.skip(brace + 1)
    while at < end:
        if source.tokens[at] == 'ghost' or source.taken[at]:
            at = source.skip(at + 1)
            continue
        start = at
        while source.tokens[at] == '#':
            at = source.skip(source.closing(source.skip(at + 1)))
        is_public = source.tokens[at] == 'pub'
        if is_public:
            at = source.skip(at + 1)
        name = source.tokens[at]
        if is_enum or is_public or before:
            yield before + name, start
        depth, at = 0, source.skip(at + 1)
        if is_enum and source.tokens[at] == '{':
            yield from named(source, at, source.closing(at) - 1, name + '.', False)
        while at < end and not (source.tokens[at] == ',' and depth == 0):
            depth += {'(': 1, '<': 1, '{': 1, '[': 1, ')': -1, '>': -1, '}': -1, ']': -1}.get(source.tokens[at], 0)
            at = source.skip(at + 1)
        at = source.skip(at + 1)


def add_beside(source: Source) -> None:
    """Documents the items of a library."""
    if source.crate.name not in LIBRARIES:
        return
    own = texts(source.crate.name)
    table = instructions() if source.crate.name == 'wasm_insn' else {}
    for item in items(source):
        if item.kind in ('struct', 'enum', 'type', 'const', 'fn') and item.name in at_the_root():
            replace(source, item)
        else:
            move_model(source, item)
        text = own.get(item.name)
        if text:
            used().add((source.crate.name, item.name))
            add(source, item, text)
        elif item.kind == 'enum' and item.name in ENUMS and table:
            pass
        if item.kind == 'enum' and item.name in ENUMS and table:
            for name, place in members(source, item):
                said = table.get(f'{item.name}::{name}')
                if said and source.with_docs(place) == place:
                    source.note(place, 'Text', said)
        elif item.kind == 'const' and table:
            said = table.get(item.name) or table.get(re.sub(r'^Instruction::', '', item.name))
            if said and source.with_docs(item.start) == item.start:
                source.note(item.start, 'Text', said)
        elif item.kind == 'fn':
            add_errors(source, item)


def add(source: Source, item: Item, text: Text) -> None:
    """Adds a text to an item."""
    lines = text.lines
    heading = first_heading(source, item)
    if heading is not None:
        prose = lines[:next((i for i, line in enumerate(lines) if line.startswith(('```', '# '))), len(lines))]
        lines = lines[len(prose):]
        insert_prose(source, heading, prose)
    if lines:
        source.note(item.start, 'Text', '\n'.join(lines))
    if '```' in text.lines:
        drop_sketch(source, item)
    if text.aliases and '::' in item.name:
        indent = re.search(r'[^\n]*$', source.tokens[item.start - 1])[0] if item.start else ''
        source.edit(item.start, item.start, ''.join(f'#[doc(alias = "{it}")]\n{indent}' for it in text.aliases), 'alias')
    if text.members:
        found = dict(members(source, item))
        for name, said in text.members.items():
            if name not in found:
                raise Stop(f'{text.where}: {item.name} has no {name}')
            if source.with_docs(found[name]) != found[name]:
                raise Stop(f'{text.where}: {name} has a doc comment already')
            source.note(found[name], 'Text', said)


def first_heading(source: Source, item: Item) -> int | None:
    """Returns the line of an item's doc comment that is its first heading, if it has one."""
    docs = range(source.with_docs(item.start), item.start)
    return next((at for at in docs if source.tokens[at] in HEADINGS), None)


def insert_prose(source: Source, place: int, prose: list[str]) -> None:
    """Inserts paragraphs into a doc comment before the line at `place`."""
    indent = re.search(r'[^\n]*$', source.tokens[place - 1])[0] if place else ''
    lines = [it for line in '\n'.join(prose).strip().split('\n') for it in wrapped(line)]
    if any(lines):
        text = ''.join(f'/// {line}'.rstrip() + f'\n{indent}' for line in [*lines, ''])
        source.edit(place, place, text, 'prose')


def drop_sketch(source: Source, item: Item) -> None:
    """Erases code that is not run from the doc comment of an item whose text has an example."""
    docs = [at for at in range(source.with_docs(item.start), item.start) if source.tokens[at].startswith('///')]
    fences = [i for i, at in enumerate(docs) if source.tokens[at].startswith('/// ```')]
    for first, last in zip(fences[::2], fences[1::2]):
        if source.tokens[docs[first]] == '/// ```text':
            before = first - 1 if first and source.tokens[docs[first - 1]] == '///' else first
            source.edit(docs[before], docs[last] + 1, '', 'replaced')


def replace(source: Source, item: Item) -> None:
    """Erases the doc comment of an item that the root has too: its text is the documentation."""
    first = source.with_docs(item.start)
    if first < item.start:
        source.edit(first, item.start, '', 'replaced')


def move_model(source: Source, item: Item) -> None:
    """Moves what contracts model a type as, behind a comma of its first paragraph, to a heading of its own."""
    docs = [at for at in range(source.with_docs(item.start), item.start) if source.tokens[at].startswith('///')]
    first = list(itertools.takewhile(lambda at: source.tokens[at] != '///', docs))
    summary, found, model = ' '.join(source.tokens[at][4:] for at in first).partition(', modelled as ')
    if found:
        source.edit(first[0], first[-1] + 1, f'/// {summary}.', 'modelled')
        source.note(item.start, 'Model', f'Contracts model it as {model}')


@functools.lru_cache(maxsize=None)
def used() -> set[tuple[str, str]]:
    """Returns the texts that items have taken."""
    return set()


def check_used() -> None:
    """Stops at a text without an item."""
    for crate in LIBRARIES:
        for name, text in texts(crate).items():
            if (crate, name) not in used():
                raise Stop(f'{text.where}: {crate} has no public {name}')


# ---- instructions


@functools.lru_cache(maxsize=None)
def instructions() -> dict[str, str]:
    """Returns the documentation of the cases of enums, of their fields, and of constants."""
    found = {}
    for case in cases.read(text_of(TOP / TABLE)):
        said = standard.said(case)
        found[f'{case.group}::{case.name}'] = said
        found[f'Instruction::{case.name}'] = said
        found.setdefault(case.name, said)
        for name in case.fields:
            found[f'{case.group}::{case.name}.{name}'] = standard.field(name)
    return found


# ---- errors

# The heads of clauses about calls that change nothing if they fail, and what is then unchanged.
UNCHANGED = (
    (r'(?:AddsInstruction|AddsOnce|AddsOnceTo|AddsListed|AddsTwoListed|AddsList|AddsTwoLists|AddsBytes|Adds|AddsTo) ', 'The builder is then unchanged.'),
    (r'Writes\w* ', 'The bytes of the sink are then unchanged.'),
    (r'Appends\w* ', 'The bytes of the sink are then unchanged.'),
    (r'OnErr result \(self\.new ≡ self\.old\)', 'The builder is then unchanged.'),
    (r'OnErr result \(sink\.new\.items ≡ sink\.old\.items\)', 'The bytes of the sink are then unchanged.'),
)
REFUSED = 'crate::fallible::Refused'
MEMORY = f'[`Memory`]({REFUSED}::Memory) if an allocation fails'
FULL = 'if the builder has 4294967295 entries'
LONG = 'if a count or length would pass 4294967295'


def add_errors(source: Source, item: Item) -> None:
    """Says when a call returns an error, by its clauses, if its doc comment does not say it."""
    place = item.start
    docs = ' '.join(it for it in source.tokens[source.with_docs(place):place] if it.startswith('///'))
    name = item.name.split('::')[-1]
    if '# Errors' in docs or name in BETWEEN.get(source.crate.name, ()) or 'Errors' in source.notes.get(place, {}) or not returns_refused(source, item):
        return
    terms = [parts(clause) for clause in source.notes.get(place, {}).get('Proved', [])]
    said = errors_of([term for _, term in terms], has_list(source, item))
    if said:
        source.note(place, 'Errors', said)


def returns_refused(source: Source, item: Item) -> bool:
    """Returns whether the error of a function is `Refused`."""
    at = source.skip(item.at + 1)
    if source.tokens[at] == '<':
        at = source.skip(source.closing_angle(at))
    end = source.skip(source.closing(at))
    if source.tokens[end] != '-':
        return False
    result = source.skip(source.skip(end + 1) + 1)
    if source.tokens[result] != 'Result':
        return False
    angle = source.skip(result + 1)
    inner = source.solid(angle, source.closing_angle(angle))
    depth = 0
    for word in inner[1:-1]:
        depth += {'<': 1, '(': 1, '>': -1, ')': -1}.get(word, 0)
        if word == ',' and depth == 0:
            return inner[-2] == 'Refused'
    return True


def has_list(source: Source, item: Item) -> bool:
    """Returns whether a parameter of a function is a slice, an iterator or a name."""
    first = source.skip(item.at + 1)
    if source.tokens[first] == '<':
        return True
    words = source.solid(first, source.closing(first))
    return bool({'[', 'str', 'Instruction', 'I', 'V'} & set(words))


def arguments(term: str) -> list[str]:
    """Returns the arguments of a definition."""
    found, depth = [''], 0
    for character in term.partition(' ')[2]:
        depth += {'(': 1, ')': -1}.get(character, 0)
        if character == ' ' and depth == 0:
            found.append('')
        else:
            found[-1] += character
    return found


def errors_of(terms: list[str], has_a_list: bool) -> str:
    """Returns the text of `# Errors` for the terms of a call's clauses."""
    if not terms:
        return ''
    unchanged = next((said for form, said in UNCHANGED for term in terms if re.match(form, term)), '')
    if any(re.fullmatch(r'result ≢ Err (?:\w+\.)?TooLong', term) for term in terms):
        why = ''
    elif any(re.match(r'Adds(To)? ', term) and '⊤' in arguments(term)[1:3] for term in terms):
        why = FULL
    elif any(re.match(r'Adds', term) and not term.startswith('AddsInstruction') for term in terms):
        why = f'{FULL}, or {LONG}'
    elif any(term.startswith('Writes') for term in terms) and not has_a_list:
        why = ''
    else:
        why = LONG
    first = f'[`TooLong`]({REFUSED}::TooLong) {why}, and ' if why else ''
    return f'Returns {first}{MEMORY}. {unchanged}'.rstrip()
