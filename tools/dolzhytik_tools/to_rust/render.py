"""The text of a changed source: its tokens, edits, and documentation before the items."""
from __future__ import annotations

import textwrap
from typing import Union

from ..definitions.layout import laid_out
from .glosses import asked, gloss
from .source import Notes, Source
from .tables import LIBRARIES
from .words import line_of_links


OTHERWISE = '[What happens otherwise](crate::fallible#what-is-asked).'


def documentation(source: Source, place: int) -> list[str]:
    """Returns the lines of documentation of the clauses before a token: in libraries with words
    above them, and with links to the definitions that they name. Private functions of libraries,
    of which rustdoc has no page, have none."""
    notes = source.notes[place]
    if source.crate.name in LIBRARIES and not has_page(source, place):
        return []
    lines = beside(notes)
    for heading in ('Asks', 'Proved', 'Defined'):
        if heading not in notes:
            continue
        paths = source.cited.get(place, {}).get(heading)
        text = '\n'.join(notes[heading])
        above = words_above(source, heading, notes[heading]) if paths is not None else ''
        code = text.split('\n') if paths is None else laid_out(text)
        lines += ['', f'# {heading}', '', *([*above.split('\n'), ''] if above else []), '```text', *code, '```']
        if paths is not None:
            lines += ['', line_of_links(paths)]
    return [f'/// {line}'.rstrip() for line in lines]


def has_page(source: Source, place: int) -> bool:
    """Returns whether rustdoc shows the item that begins at a token: other items than functions,
    functions of a trait or an impl of one, and public ones."""
    words = []
    while (at := source.skip(place)) < len(source.tokens) and source.tokens[at] in ('#', 'pub', '(', 'crate', 'self', 'super', ')', 'const', 'unsafe', 'extern', '"C"'):
        words.append(source.tokens[at])
        place = source.closing(source.skip(at + 1)) if source.tokens[at] == '#' else at + 1
    if at == len(source.tokens) or source.tokens[at] != 'fn':
        return True
    header = source.header_around(at)
    around = [] if header is None else source.solid(header.begin, header.end)
    return 'trait' in around or 'for' in around or ('pub' in words and '(' not in words)


def words_above(source: Source, heading: str, clauses: list[str]) -> str:
    """Returns the words above clauses."""
    if heading == 'Proved':
        return gloss(clauses, source.sentences)
    return ' '.join([*dict.fromkeys(filter(None, map(asked, clauses))), OTHERWISE]) if heading == 'Asks' else ''


def wrapped(line: str) -> list[str]:
    """Returns the lines of a paragraph."""
    return textwrap.wrap(line, 92, break_long_words=False, break_on_hyphens=False) or ['']


def beside(notes: Notes) -> list[str]:
    """Returns the lines that are appended to a doc comment before the clauses: prose, errors,
    examples, and what contracts model a type as."""
    text = '\n'.join(notes.get('Text', []))
    prose, fence, example = text.partition('```')
    lines = ['', *(part for line in prose.strip().split('\n') for part in wrapped(line))] if prose.strip() else []
    if 'Errors' in notes:
        lines += ['', '# Errors', '', *wrapped(notes['Errors'][0])]
    if example:
        lines += ['', '# Examples', '', *(fence + example).split('\n')]
    if 'Model' in notes:
        lines += ['', '# Model', '', *wrapped(notes['Model'][0])]
    return lines


# The start of a field on a line of its own.
FIELD = '\n        '


class Gap:
    """Erased tokens."""


# A token, or a gap.
Part = Union[str, type]


def rendered(source: Source) -> str:
    """Returns the text."""
    spans = {it.first: it for it in source.edits if it.first < it.end}
    inserted = {it.first: it.text for it in source.edits if it.first == it.end}
    parts = []
    place = 0
    while place < len(source.tokens):
        if place in source.notes:
            parts += noted(documentation(source, place), parts)
        if place in inserted:
            parts.append(inserted[place])
        if place in spans:
            parts.append(spans[place].text or Gap)
            place = spans[place].end
        else:
            parts.append(source.tokens[place])
            place += 1
    return ''.join(joined(parts))


def noted(lines: list[str], parts: list[Part]) -> list[str]:
    """Returns documentation, which follows what is there already, and the space before the item."""
    solid = [part for part in parts[-6:] if part is not Gap and not part.isspace()]
    space = parts[-1] if parts and parts[-1] is not Gap and parts[-1].isspace() else '\n'
    if '\n' not in space:  # A field on the line of its variant.
        parts[-1] = ''
        return [it for line in lines[1:] for it in (FIELD, line)] + [FIELD]
    indent = space[space.rfind('\n'):]
    has_docs = bool(solid) and solid[-1].startswith('///')
    out = []
    for line in lines if has_docs else lines[1:]:
        out += [line, indent]
    return out


def joined(parts: list[Part]) -> list[str]:
    """Returns the parts, without the spaces that erased tokens leave."""
    out = []
    at = 0
    while at < len(parts):
        end = at
        while end < len(parts) and (parts[end] is Gap or parts[end].isspace()):
            end += 1
        if Gap in parts[at:end]:
            spaces = [part for part in parts[at:end] if part is not Gap]
            out.append(space_between(out, spaces, parts[end] if end < len(parts) else ''))
            at = end
        else:
            out.append(parts[at])
            at += 1
    return out


def space_between(out: list[str], spaces: list[str], following: str) -> str:
    """Returns the space in place of the spaces around erased tokens."""
    before = out[-1] if out else ''
    lines = sum(space.count('\n') for space in spaces)
    if not lines:
        return ' ' if any(spaces) and following not in (',', ';', ')', '>') else ''
    last = spaces[-1] if '\n' in spaces[-1] else spaces[0]
    indent = last[last.rfind('\n'):]
    if following == '{':
        return indent if has_where(out) else ' '
    if following == ';' or not before:
        return ''
    if following == '}':
        return '' if before == '{' else indent
    blank = any(space.count('\n') > 1 for space in spaces) and before != '{'
    return ('\n' if blank else '') + indent


def has_where(out: list[str]) -> bool:
    """Returns whether the signature that ends here has a `where`."""
    for part in reversed(out):
        if part in ('where', 'fn', 'impl', 'trait'):
            return part == 'where'
    return False
