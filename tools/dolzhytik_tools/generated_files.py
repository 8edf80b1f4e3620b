"""Generated files: writes those that differ, or reports them."""
from __future__ import annotations

import pathlib
from collections.abc import Iterator

from .repository import text_of


def differing(files: dict[str, str], top: pathlib.Path) -> Iterator[str]:
    """Yields the paths below `top` of files that do not have their texts."""
    for path, text in files.items():
        if not (top / path).is_file() or text_of(top / path) != text:
            yield path


def write(files: dict[str, str], top: pathlib.Path) -> None:
    """Writes the files that differ."""
    for path in list(differing(files, top)):
        (top / path).parent.mkdir(parents=True, exist_ok=True)
        (top / path).write_text(files[path], encoding="utf-8")


def settle(tool: str, files: dict[str, str], top: pathlib.Path, *, is_check: bool) -> int:
    """Writes the files, or reports those that differ. Returns the exit status of the tool."""
    if not is_check:
        write(files, top)
        return 0
    wrong = list(differing(files, top))
    for path in wrong:
        print(f"{tool}: {path} is not what is written")
    return 1 if wrong else 0
