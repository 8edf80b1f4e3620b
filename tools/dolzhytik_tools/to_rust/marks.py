"""Erases the lines around regions that tools write within sources."""
from __future__ import annotations

import re

from .source import Source

MARK = re.compile(r'// (?:begin|end): written by tools/.*')


def erase_marks(source: Source) -> None:
    """Erases the comments that begin and end a region."""
    for place, token in enumerate(source.tokens):
        if MARK.fullmatch(token):
            source.edit(place, place + 1, '', 'mark')
