"""The lines of a test command."""
from __future__ import annotations

import ast
from collections.abc import Callable, Iterable, Sequence

from ..errors import Stop
from ..repository import TOP, text_of


def usage_of(tool: str) -> str:
    """Returns the head of a command's script, which it prints for unknown options."""
    found = ast.get_docstring(ast.parse(text_of(TOP / "tools" / tool)), clean=False)
    assert found, tool
    return found


def report(tool: str, name: str, trouble: str | None) -> bool:
    """Reports how a test ended, and returns whether it passed."""
    print(f"{tool}: {name}: {trouble or 'passed'}")
    return not trouble


def end(passed: Iterable[bool]) -> int:
    """Prints the last line, and returns the exit status."""
    found = list(passed)
    print(f"{sum(found)} passed, {len(found) - sum(found)} failed")
    return 0 if all(found) else 1


def run_all(tool: str, tests: Sequence[Callable[[], None]]) -> int:
    """Runs tests that assert, reports those that fail, and returns the exit status."""
    failed = 0
    for test in tests:
        try:
            test()
        except AssertionError as error:
            failed += 1
            print(f"{tool}: {test.__name__}: {error}")
    print(f"{len(tests) - failed} passed, {failed} failed")
    return 1 if failed else 0


def stops(call: Callable[..., object], *arguments: object) -> str:
    """Returns the message with which a call stops."""
    try:
        call(*arguments)
    except Stop as stop:
        return str(stop)
    raise AssertionError('nothing stopped')
