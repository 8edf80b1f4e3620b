"""Erases ghosts, clauses and models, and documents them."""
from __future__ import annotations

import textwrap

from ..definitions.layout import COLUMNS
from ..rattle.lexer import is_word
from .glosses import check_form
from .source import Source
from .tables import LIBRARIES
from .words import cite, parameters, sentence


def erase_ghosts(source: Source) -> None:
    """Erases ghost members and ghost `use`s with their documentation: up to the semicolon, or the
    comma of a field."""
    for place, token in enumerate(source.tokens):
        if token != 'ghost' or source.taken[place]:
            continue
        end = place + 1
        while source.tokens[end] not in (';', ','):
            end = source.closing(end) if source.tokens[end] == '{' else end + 1
        if source.after(place + 1, 'use') is None:
            define(source, place, end)
        source.edit(source.with_docs(place), end + 1, '', 'ghost')


def define(source: Source, place: int, end: int) -> None:
    """Documents a ghost member at its trait or impl."""
    header = enclosing(source, place)
    if header is not None:
        sentences = [t[3:].strip() for t in source.tokens[source.with_docs(place):place] if t.startswith('///')]
        member = ' '.join(source.text(source.skip(place + 1), end).split())
        source.note(header, 'Defined', '\n'.join(textwrap.wrap(' '.join(sentences), COLUMNS, initial_indent='// ', subsequent_indent='// ') + [member]))
        cite(source, header, 'Defined', member.partition(' ')[2], place, set())


def enclosing(source: Source, place: int) -> int | None:
    """Returns the first token of the trait or impl around a token, or None for an impl that is
    erased."""
    header = source.header_around(place)
    if header is None:
        source.stop(place, 'a ghost outside of a trait, an impl and a struct')
    words = source.solid(header.begin, header.end)
    if 'Model' in words or 'struct' in words or not {'trait', 'impl'} & set(words):
        return None
    return source.skip(header.begin)


def erase_clauses(source: Source) -> None:
    """Erases the clauses of functions, and documents them."""
    for place, token in enumerate(source.tokens):
        if token not in ('requires', 'ensures') or source.taken[place]:
            continue
        brace = source.skip(place + 1)
        if is_word(source.tokens[brace]):
            brace = source.skip(brace + 1)
        if source.tokens[brace] != '{':
            source.stop(place, f'a word of the prover: {token}')
        end = source.closing(brace)
        function = place
        while source.tokens[function] != 'fn':
            function -= 1
        heading = 'Asks' if token == 'requires' else 'Proved'
        start, text = item_start(source, function), clause_text(source, place, end)
        source.note(start, heading, text)
        if source.crate.name in LIBRARIES:
            check_form(text, f'{source.path}:{source.line(place)}')
        cite(source, start, heading, text, place, parameters(source, function, place))
        said = sentence(source, text, place)
        if said:
            source.sentences[text] = said
        source.edit(place, end, '', 'clause')


def turn_proved_constants(source: Source) -> None:
    """Has rustc evaluate what is proved of constants: `const _: () = prove!(..);` becomes an
    `assert!`."""
    for place, token in enumerate(source.tokens):
        if token == 'prove' and source.solid(max(0, place - 16), place)[-6:] == ['const', '_', ':', '(', ')', '=']:
            source.edit(place, place + 1, 'assert', 'constant')


def clause_text(source: Source, place: int, end: int) -> str:
    """Returns a clause, whose later lines keep their indentation relative to the first one."""
    before = source.tokens[place - 1]
    column = len(before) - before.rfind('\n') - 1 if '\n' in before else 0
    first, *others = source.text(place, end).split('\n')
    return '\n'.join([first] + [line[column:] if line[:column].isspace() else line.strip() for line in others])


def item_start(source: Source, function: int) -> int:
    """Returns the first token of the function with this `fn`: of its attributes, or its
    visibility."""
    place = function
    while True:
        before = source.back(place)
        token = source.tokens[before]
        if token in ('pub', 'const', 'unsafe', 'extern') or token == '"C"':
            place = before
        elif token == ')' and source.tokens[source.back(before)] in ('crate', 'self', 'super'):
            place = source.back(source.back(source.back(before)))
        elif token == ']':
            depth, at = 0, before
            while True:
                depth += {']': 1, '[': -1}.get(source.tokens[at], 0)
                if depth == 0:
                    break
                at -= 1
            place = source.back(at)
        else:
            return place


def erase_models(source: Source) -> None:
    """Erases impls of `Model`, the prover's view of a type."""
    for place, token in enumerate(source.tokens):
        if token != 'impl' or source.taken[place]:
            continue
        brace = place
        while source.tokens[brace] not in ('{', ';'):
            brace += 1
        words = source.solid(place, brace)
        if 'Model' not in words or words[words.index('Model') + 1] != 'for':
            continue
        end = source.closing(brace)
        left = source.solid_places(brace + 1, end - 1)
        if left:
            source.stop(left[0], 'an impl of Model that holds more than ghosts')
        source.undo([it for it in source.edits if place <= it.first < end])
        source.edit(place, end, '', 'model')
