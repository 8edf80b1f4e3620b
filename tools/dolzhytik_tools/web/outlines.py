"""The sections of a module, as the package and the programs report them."""
from __future__ import annotations

import re
from typing import Any

Row = tuple[int, int, int, str, str]


def is_plain(name: str) -> bool:
    """Returns whether the program prints a name as it is."""
    return bool(re.fullmatch(r'[ !#-\[\]-~]*', name))


def shown(name: str | None) -> str:
    """Returns a name for a comparison: one that the program escapes is left out."""
    return '' if name is None else f' "{name}"' if is_plain(name) else ' ...'


def row_of(section: dict[str, Any]) -> Row:
    """Returns the row of a section in an outline of the package."""
    items = '-' if section['items'] is None else str(section['items'])
    return section['id'], section['offset'], section['size'], items, section['kind'] + shown(section['name'])


LINE = re.compile(r' *\d+ +(\d+) +(0x[0-9a-f]+) +(\d+) +(\d+|-) +(?:yes|no|-)  ([a-z ]+?)(?: "(.*)")?')


def rows_of(output: str) -> list[Row]:
    """Returns the rows of an outline of the program. It prints the number that a data count section
    holds, which is one item of the package."""
    rows = []
    for line in output.split('\n')[1:-1]:
        section, offset, size, items, kind, name = LINE.fullmatch(line).groups()
        if kind == 'data count' and items != '-':
            items = '1'
        rows.append((int(section), int(offset, 16), int(size), items, kind + shown(name)))
    return rows
