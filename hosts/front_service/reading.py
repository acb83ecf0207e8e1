"""The process that reads answers for a front: what they rule, as claimdecode says it. It writes nothing.

    reading.py FILE PROGRAM, started by helpers.py
"""

from __future__ import annotations

import json
import os
import sqlite3
import subprocess
import sys
import urllib.parse
from typing import Any

sys.path[:] = [it for it in sys.path if it != os.path.dirname(os.path.abspath(__file__))]
sys.path.insert(0, os.path.dirname(os.path.dirname(os.path.abspath(__file__))))
from front_service.helpers import serve  # noqa: E402

# How many answers are read together.
AT_ONCE = 256
# Claims go before what people look at.
NICER = 5
SECONDS = 60.0


class Reader:
    """The receipts, and the program that reads answers."""

    def __init__(self, name: str, program: str) -> None:
        self._file = sqlite3.connect(f"file:{urllib.parse.quote(name)}?mode=ro", uri=True)
        self._file.row_factory = sqlite3.Row
        self._program = program

    def make(self, asked: list[tuple[int, str, tuple[Any, ...]]]) -> list[tuple[int, bool, Any]]:
        """Of each question the answers that nobody has read yet, each by id, pharmacy and number, and the rows of their rulings."""
        told: list[tuple[int, bool, Any]] = []
        for which, _, _ in asked:
            try:
                told.append((which, True, self._unread()))
            except (sqlite3.Error, OSError, ValueError, subprocess.SubprocessError) as fault:
                told.append((which, False, str(fault)))
        return told

    def _unread(self) -> tuple[list[tuple[Any, ...]], list[tuple[Any, ...]]]:
        text = """SELECT id, pharmacy, number, answer FROM claims WHERE answer IS NOT NULL AND is_ruled = 0 AND number IS NOT NULL
            ORDER BY id LIMIT ?"""
        rows = self._file.execute(text, (AT_ONCE,)).fetchall()
        if not rows:
            return [], []
        lines = b"".join(b"%s\n" % row["answer"].hex().encode() for row in rows if row["answer"])
        ran = subprocess.run(
            [self._program, "--json", "--hex", "answer"], input=lines, capture_output=True, timeout=SECONDS, check=True
        )
        told = iter(ran.stdout.splitlines())
        found = [it for row in rows if row["answer"] for it in rulings_of(row, json.loads(next(told)))]
        return [(row["id"], row["pharmacy"], row["number"]) for row in rows], found


def rulings_of(row: sqlite3.Row, told: dict[str, Any]) -> list[tuple[Any, ...]]:
    """The rows of an answer's rulings."""
    parts = {part["name"]: part["value"] for part in reversed(told["parts"]) if "value" in part}
    found: list[tuple[Any, ...]] = []
    for one in told["findings"]:
        if one["finding"] == "ruling":
            authorization = one.get("authorization")
            payer = int(authorization[:4]) if authorization else None
            amounts = (one.get("cost"), one.get("fee"), one.get("copay"), one.get("total"))
            place, code, day = one["transaction"], parts.get("transaction_code", ""), parts.get("date_of_service", "")
            prescription = None if one.get("prescription") is None else str(one["prescription"])
            kept = (row["pharmacy"], row["number"], place, code, one["ruling"], day, payer, authorization, prescription)
            found.append((*kept, *amounts, one.get("codes")))
    return found


if __name__ == "__main__":
    os.nice(NICER)
    serve(Reader(*sys.argv[1:]).make, 1)
