"""A source as tokens, with the edits that make Rust of it."""
from __future__ import annotations

from collections.abc import Sequence
from dataclasses import dataclass, field
from typing import TYPE_CHECKING, NoReturn

from ..errors import Stop
from ..rattle import brackets, lexer
from .crates import Crate

if TYPE_CHECKING:
    from .words import Scope


@dataclass(frozen=True)
class Edit:
    """A replacement of the tokens from `first` up to `end`, and its reason."""

    first: int
    end: int
    text: str
    reason: str


# By the heading of the documentation.
Notes = dict[str, list[str]]


@dataclass
class Source:
    """A source file. Each token is changed at most once."""

    crate: Crate
    path: str
    original: str
    edits: list[Edit] = field(default_factory=list)
    # Documentation, by the token before which it goes.
    notes: dict[int, Notes] = field(default_factory=dict)
    # The imports of clauses, and the path of each word of a clause that has a definition, by the
    # token before which the clause's documentation goes and by its heading.
    scopes: list[Scope] = field(default_factory=list)
    cited: dict[int, dict[str, dict[str, str]]] = field(default_factory=dict)
    # The sentence of the definition that a clause is, by the text of the clause.
    sentences: dict[str, str] = field(default_factory=dict)
    # Impls of Display.
    errors: list[str] = field(default_factory=list)
    # The module of names that decode, of the root of a library that has such names.
    readers: list[str] = field(default_factory=list)
    has_sinks: bool = False

    def __post_init__(self) -> None:
        self.tokens = lexer.words_of(self.original)
        self.blank = [lexer.is_blank(it) for it in self.tokens]
        self.taken = [False] * len(self.tokens)
        self.following = self.solid_following()

    # Reading.

    def line(self, place: int) -> int:
        """Returns the number of a token's line."""
        return ''.join(self.tokens[:place]).count('\n') + 1

    def stop(self, place: int, why: str) -> NoReturn:
        """Stops the tool at a token."""
        raise Stop(f'{self.path}:{self.line(place)}: {why}')

    def solid_following(self) -> list[int]:
        """Returns for each token the next one from it on that is neither space nor comment."""
        following = [len(self.tokens)] * (len(self.tokens) + 1)
        for at in range(len(self.tokens) - 1, -1, -1):
            following[at] = following[at + 1] if self.blank[at] else at
        return following

    def skip(self, place: int) -> int:
        """Returns the next token from `place` on that is neither space nor comment."""
        return self.following[min(place, len(self.tokens))]

    def back(self, place: int) -> int:
        """Returns the last token before `place` that is neither space nor comment."""
        place -= 1
        while place >= 0 and self.blank[place]:
            place -= 1
        return place

    def closing(self, place: int) -> int:
        """Returns the token after the bracket that closes the one at `place`."""
        try:
            return brackets.behind(self.tokens, place)
        except brackets.Unclosed as unclosed:
            self.stop(place, str(unclosed))

    def closing_angle(self, place: int) -> int:
        """Returns the token after the `>` that closes the `<` at `place`."""
        try:
            return brackets.behind_angle(self.tokens, place)
        except brackets.Unclosed as unclosed:
            self.stop(place, str(unclosed))

    def after(self, place: int, *words: str) -> int | None:
        """Returns the token after these, which begin at `place` except spaces and comments, or
        None."""
        for word in words:
            place = self.skip(place)
            if place >= len(self.tokens) or self.tokens[place] != word:
                return None
            place += 1
        return place

    def solid_places(self, first: int = 0, end: int | None = None) -> list[int]:
        """Returns the tokens but spaces, comments and changed ones."""
        end = len(self.tokens) if end is None else end
        return [at for at in range(first, end) if not self.blank[at] and not self.taken[at]]

    def solid(self, first: int, end: int) -> list[str]:
        """Returns the texts of tokens but spaces and comments."""
        return [self.tokens[at] for at in range(first, end) if not self.blank[at]]

    def header_around(self, place: int) -> brackets.Span | None:
        """Returns the tokens before the brace of the block around a token, or None outside of
        blocks."""
        depth, at = 0, place
        while depth >= 0:
            at -= 1
            if at < 0:
                return None
            depth += {'}': 1, '{': -1}.get(self.tokens[at], 0)
        first = at
        while first > 0 and self.tokens[first - 1] not in (';', '{', '}'):
            first -= 1
        return brackets.Span(first, at)

    def text(self, first: int, end: int) -> str:
        return ''.join(self.tokens[first:end])

    # Changing.

    def edit(self, first: int, end: int, text: str, reason: str) -> None:
        """Replaces tokens, or inserts a text where there are none."""
        if any(self.taken[first:end]):
            self.stop(first, f'this was changed before ({reason})')
        for at in range(first, end):
            self.taken[at] = True
        self.edits.append(Edit(first, end, text, reason))

    def undo(self, edits: Sequence[Edit]) -> None:
        """Takes edits back."""
        self.edits = [it for it in self.edits if it not in edits]
        for it in edits:
            self.taken[it.first : it.end] = [False] * (it.end - it.first)

    def with_docs(self, place: int) -> int:
        """Returns the first of the doc comments right before a token, or the token itself."""
        first = place
        at = place - 1
        while at >= 0 and (self.tokens[at].startswith('///') or (self.tokens[at].isspace() and self.tokens[at].count('\n') < 2)):
            if self.tokens[at].startswith('///'):
                first = at
            at -= 1
        return first

    def note(self, place: int, heading: str, text: str) -> None:
        """Documents the item that begins at a token."""
        self.notes.setdefault(place, {}).setdefault(heading, []).append(text)
