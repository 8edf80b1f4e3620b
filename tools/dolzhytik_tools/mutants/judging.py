"""The code that decides of a verdict, which the checksums of the ledger cover."""
from __future__ import annotations

import functools
import inspect
import re

from ..rattle import functions
from . import checksums
from .crates import Repository, below
from .edits import Edit, apply, changed, place_of, read_edit
from .report import ELSEWHERE, MISSING_NAME, Failure, Report, is_inside
from .trying import Tries

JUDGES = (
    Failure, Report, Tries.check, Tries.alone, Tries.together, is_inside, read_edit, place_of, changed, apply, functions,
)


@functools.lru_cache(maxsize=None)
def judging() -> str:
    """Returns the source of the judges, without its comments and docstrings."""
    code = re.sub(r'\n *(#[^\n]*|"""[^"]*""")', "", "\n".join(map(inspect.getsource, JUDGES)))
    return "\n".join((code, MISSING_NAME.pattern, ELSEWHERE.pattern))


def sums_of(repository: Repository, name: str, edits: list[Edit]) -> dict[str, str]:
    """Returns the checksum of each mutant of a crate."""
    lower = [f"crates/{it}" for it in below(repository, name)]
    crate = checksums.CrateFolders(f"crates/{name}", lower, tuple(repository[name]))
    return {it.label: checksums.sum_of(crate, it, judging()) for it in edits}
