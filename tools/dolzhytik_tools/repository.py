"""The folder of the repository, and its files."""
from __future__ import annotations

import pathlib

TOP = pathlib.Path(__file__).resolve().parent.parent.parent


def text_of(path: str | pathlib.Path) -> str:
    """Returns the text of a file."""
    with open(path, encoding="utf-8") as file:
        return file.read()
