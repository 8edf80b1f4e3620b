"""The type of a function that adds to a builder."""
from __future__ import annotations

from collections.abc import Callable
from typing import TYPE_CHECKING, Optional

from ..values import Builder, Call

if TYPE_CHECKING:
    from ..caller import Caller

Adder = Callable[["Caller", Builder, Call], str]
# By the builder and the call; None means every other call.
Adders = dict[tuple[str, Optional[str]], Adder]
