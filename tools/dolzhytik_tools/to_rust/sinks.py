"""Sinks: functions over the allocator of a buffer are functions over the buffer, and bytes are
pushed in pairs."""
from __future__ import annotations

from dataclasses import dataclass

from ..rattle.brackets import Span
from ..rattle.lexer import is_word
from .source import Source


def turn_sinks(source: Source) -> None:
    """Makes the sink the type parameter of functions that have one for the allocator of its bytes
    alone, so that std's vectors are sinks too."""
    for place, token in enumerate(source.tokens):
        if token != 'fn' or source.taken[place]:
            continue
        name = source.skip(place + 1)
        angle = source.skip(name + 1)
        if source.tokens[angle] == '<':
            turn_sink(source, place, angle, function_end(source, angle))
    turn_impls(source)


def function_end(source: Source, angle: int) -> int:
    """Returns the end of the function whose generics begin here."""
    at = angle
    while source.tokens[at] not in ('{', ';') or source.taken[at]:
        at += 1
    return source.closing(at) if source.tokens[at] == '{' else at + 1


def turn_sink(source: Source, place: int, angle: int, end: int) -> None:
    generics = source.closing_angle(angle)
    for at in source.solid_places(angle, generics):
        bound = source.after(at + 1, ':', 'Allocator')
        if not is_word(source.tokens[at]) or bound is None or source.tokens[source.skip(bound)] not in (',', '>'):
            continue
        parameter = source.tokens[at]
        uses = [u for u in source.solid_places(place, end) if is_use(source, u, parameter) and u != at]
        sinks = [sink_type(source, u) for u in uses]
        if uses and all(sinks):
            source.edit(bound - 1, bound, 'Sink', 'sink')
            for it in sinks:
                source.edit(it.begin, it.end, parameter, 'sink')
            source.has_sinks = True


def is_use(source: Source, at: int, parameter: str) -> bool:
    """Returns whether the token is the parameter, and not the last name of a path."""
    return source.tokens[at] == parameter and source.tokens[max(at - 2, 0):at] != [':', ':']


def sink_type(source: Source, use: int) -> Span | None:
    """Returns the span of the `Vec<u8, A>` behind `&mut` that has this `A`, or None."""
    comma = source.back(use)
    byte = source.back(comma)
    angle = source.back(byte)
    vec = source.back(angle)
    words = [source.tokens[at] for at in (source.back(vec), vec, angle, byte, comma, source.skip(use + 1))]
    return Span(vec, source.skip(use + 1) + 1) if words == ['mut', 'Vec', '<', 'u8', ',', '>'] else None


# Traits that vectors of bytes implement, and in Rust every sink.
SINK_TRAITS = ('Buffer', 'Effect')


def turn_impls(source: Source) -> None:
    """Makes every sink a buffer of instructions, and an effect of walks."""
    for place, token in enumerate(source.tokens):
        if token != 'impl':
            continue
        for name in SINK_TRAITS:
            end = source.after(place, 'impl', '<', 'A', ':', 'Allocator', '>', name, 'for', 'Vec', '<', 'u8', ',', 'A', '>')
            if end is not None:
                source.edit(place, end, f'impl<A: Sink> {name} for A', 'sink')
                source.has_sinks = True


def turn_pairs(source: Source) -> None:
    """Pushes two bytes after one test of the capacity: Rattle's vector has no test for reserved
    capacity, and Rust's has one a byte."""
    place = 0
    while place < len(source.tokens):
        first = pushed(source, place)
        second = pushed(source, source.skip(first.end + 1)) if first else None
        if first and second and source.tokens[place] == source.tokens[source.skip(first.end + 1)]:
            source.edit(first.name, first.bracket + 1, 'push_both_reserved([', 'pair')
            source.edit(first.end - 1, second.bracket + 1, ', ', 'pair')
            source.edit(second.end - 1, second.end, '])', 'pair')
            place = second.end
        place += 1


@dataclass(frozen=True)
class Pushed:
    """A call: the tokens of its name, of its bracket and after the closing one."""

    name: int
    bracket: int
    end: int


def pushed(source: Source, place: int) -> Pushed | None:
    """Returns the statement `name.push_reserved(..);` of the variable at `place`, or None."""
    if place >= len(source.tokens) or not is_word(source.tokens[place]):
        return None
    end = source.after(place + 1, '.', 'push_reserved', '(')
    if not end:
        return None
    close = source.closing(end - 1)
    return Pushed(source.back(end - 1), end - 1, close) if source.tokens[close] == ';' else None
