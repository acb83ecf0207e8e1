"""Lines of the log that any caller could bring about, and those of libraries: few, and none has a byte of what a caller sent.

A message is health data and a token is a key, so what a library says is told by its kind and its length alone: its words, and the trace of a
fault, may have either. What callers do wrong is one line in ten seconds for each kind, with how often it happened.
"""

from __future__ import annotations

import asyncio
import logging
import sys
import time
import types
from collections.abc import Callable
from typing import Any

EACH_SECONDS = 10.0


def place_of(fault: BaseException) -> str:
    """Where a fault was raised: the function and the line, and no value."""
    where = fault.__traceback__
    while where is not None and where.tb_next is not None:
        where = where.tb_next
    return f"{where.tb_frame.f_code.co_name}:{where.tb_lineno}" if where is not None else ""


class Seldom:
    """Says what callers bring about: each kind at once, then once in ten seconds at most, with how often it was since."""

    def __init__(self, say: Callable[..., None]) -> None:
        self._say = say
        self._said: dict[tuple[str, str], float] = {}
        self._kept: dict[tuple[str, str], int] = {}

    def __call__(self, what: str, code: str = "", level: str = "warning", **facts: object) -> None:
        kind, now = (what, code), time.monotonic()
        self._kept[kind] = self._kept.get(kind, 0) + 1
        if now - self._said.get(kind, -EACH_SECONDS) >= EACH_SECONDS:
            self._said[kind] = now
            times = self._kept.pop(kind)
            about = ({"code": code} if code else {}) | facts | ({"times": times} if times > 1 else {})
            self._say(what, level, **about)


class OfLibraries(logging.Handler):
    """What libraries have to say."""

    def __init__(self, seldom: Seldom) -> None:
        super().__init__(logging.WARNING)
        self._seldom = seldom

    def emit(self, record: logging.LogRecord) -> None:
        """A line of its code, its place and the length of its words."""
        fault = record.exc_info[1] if record.exc_info else None
        code = type(fault).__name__ if fault is not None else record.levelname
        where = place_of(fault) if fault is not None else f"{record.funcName}:{record.lineno}"
        try:
            size = len(record.getMessage()) + (len(str(fault)) if fault is not None else 0)
        except Exception:  # noqa: BLE001: whatever a library has put there
            size = 0
        self._seldom("a library complains", code, library=record.name, place=where, length=size)


def take_over(seldom: Seldom) -> None:
    """Has this process say by such lines alone what libraries say, what tasks that nobody waits for end with, and what ends it."""
    of_libraries = OfLibraries(seldom)
    root = logging.getLogger()
    root.handlers[:] = [of_libraries]
    logging.raiseExceptions = False

    def ended(kind: type[BaseException], fault: BaseException, _trace: types.TracebackType | None) -> None:
        seldom("the front ends by a fault of its own", kind.__name__, "error", place=place_of(fault))

    sys.excepthook = ended


def of_loop(seldom: Seldom) -> None:
    """Has the loop that runs say what nobody waits for."""

    def told(_loop: asyncio.AbstractEventLoop, context: dict[str, Any]) -> None:
        fault = context.get("exception")
        kind = type(fault).__name__ if fault is not None else "Fault"
        seldom("nobody waited for what failed", kind, place=place_of(fault) if fault is not None else "")

    asyncio.get_running_loop().set_exception_handler(told)
