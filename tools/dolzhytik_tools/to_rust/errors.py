"""Implements Display for errors, by the texts of their `#[error]` attributes."""
from __future__ import annotations

import re
from collections.abc import Iterator

from .source import Source


def display(source: Source, place: int) -> str:
    """Returns the impls of the error whose derived traits end before `place`."""
    start = place
    text = None
    while True:
        start = source.skip(start)
        if source.tokens[start] == '#':
            bracket = source.skip(start + 1)
            end = source.closing(bracket)
            if source.after(bracket + 1, 'error') is not None:
                text = source.text(source.skip(source.after(bracket + 1, 'error', '(')), end - 2).strip()
            start = end
        elif source.tokens[start] == 'pub' or source.tokens[start] in ('(', ')', 'crate'):
            start += 1
        else:
            break
    kind, at = source.tokens[start], source.skip(start + 1)
    name, brace = source.tokens[at], source.skip(at + 1)
    if kind not in ('enum', 'struct') or source.tokens[brace] != '{':
        source.stop(start, 'an error that is neither an enum nor a struct with fields')
    end = source.closing(brace)
    if kind == 'struct':
        fields = fields_of(source, brace, end)
        body = [f'        let Self {{ {", ".join(fields)} }} = self;', f'        write!(f, {with_fields(text)})']
    else:
        arms = [f'            {arm}' for arm in variants(source, name, brace, end)]
        body = ['        match self {'] + arms + ['        }']
    head = f'impl ::core::fmt::Display for {name} {{\n    fn fmt(&self, f: &mut ::core::fmt::Formatter<\'_>) -> ::core::fmt::Result {{\n'
    return head + '\n'.join(body) + f'\n    }}\n}}\n\nimpl ::core::error::Error for {name} {{}}\n'


def with_fields(text: str) -> str:
    """Returns the message and its arguments, in which `.field` is the field's name."""
    return re.sub(r'(?<=[(,= ])\.(?=[a-z_])', '', text)


def fields_of(source: Source, brace: int, end: int) -> list[str]:
    """Returns the names of the fields between braces."""
    names = []
    depth = 0
    for at in source.solid_places(brace + 1, end - 1):
        token = source.tokens[at]
        depth += {'(': 1, '<': 1, ')': -1, '>': -1}.get(token, 0)
        if token == ':' and depth == 0 and source.tokens[source.skip(at + 1)] != ':' and source.tokens[source.back(at)] != ':':
            names.append(source.tokens[source.back(at)])
    return names


def variants(source: Source, name: str, brace: int, end: int) -> Iterator[str]:
    """Yields an arm for each variant between the braces of an error."""
    at = source.skip(brace + 1)
    while at < end - 1:
        if source.after(at, '#', '[', 'error', '(') is None:
            source.stop(at, f'a variant of {name} without a text')
        inner = source.skip(source.after(at, '#', '[', 'error', '('))
        close = source.closing(source.skip(at + 1))
        text = source.text(inner, close - 2).strip()
        variant = source.skip(close)
        behind = source.skip(variant + 1)
        label = source.tokens[variant]
        if source.tokens[behind] == '{':
            stop = source.closing(behind)
            yield f'Self::{label} {{ {", ".join(fields_of(source, behind, stop))} }} => write!(f, {with_fields(text)}),'
        elif source.tokens[behind] == '(' and text == 'transparent':
            stop = source.closing(behind)
            yield f'Self::{label}(inner) => ::core::fmt::Display::fmt(inner, f),'
        elif source.tokens[behind] == ',' and text.startswith('"') and '{' not in text:
            stop = behind
            yield f'Self::{label} => f.write_str({text}),'
        else:
            source.stop(variant, f'a text of {name} of a form that is not known')
        at = source.skip(source.after(stop, ','))
