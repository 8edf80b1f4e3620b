"""Calls that add to a builder: functions that return the proof of its new content."""
from __future__ import annotations

from typing import TYPE_CHECKING

from ...errors import Stop
from ..values import Builder, Call
from . import code, core_dumps, custom, elements, names, sections, symbols

if TYPE_CHECKING:
    from ..caller import Caller

ADDERS = {**code.ADDERS, **sections.ADDERS, **elements.ADDERS, **names.ADDERS, **symbols.ADDERS, **custom.ADDERS, **core_dumps.ADDERS}


def added(caller: Caller, section: Builder, call: Call) -> str:
    """Returns the term of a builder after a call."""
    adder = ADDERS.get((section.kind, call.name)) or ADDERS.get((section.kind, None))
    if adder is None:
        raise Stop("the call `%s` of a `%s`" % (call.name, section.kind))
    return adder(caller, section, call)
