"""The process that finds claims for people: by prescription, day, cardholder, amount, payer and state.

    finding.py RECEIPTS INDEX PROGRAM, started by helpers.py

It reads the receipts, and keeps beside them what requests say, as claimdecode reads them: of a cardholder the last four letters alone. That
file is made anew from the receipts where it is not there, or was made of others.
"""

from __future__ import annotations

import contextlib
import json
import os
import sqlite3
import subprocess
import sys
import urllib.parse
from collections.abc import Iterator
from typing import Any

sys.path[:] = [it for it in sys.path if it != os.path.dirname(os.path.abspath(__file__))]
sys.path.insert(0, os.path.dirname(os.path.dirname(os.path.abspath(__file__))))
from front_service.helpers import serve  # noqa: E402

# How many requests are read together; how many rows behind the last that was seen are looked at again: the row of a claim that the node
# refused is taken back, and its place given to the next.
AT_ONCE = 256
LOOK_BACK = 1024
NICER = 5
SECONDS = 60.0
LAST_LETTERS = 4
SCHEMA = """
CREATE TABLE IF NOT EXISTS about (of TEXT NOT NULL, seen INTEGER NOT NULL);
CREATE TABLE IF NOT EXISTS waits (id INTEGER PRIMARY KEY);
CREATE TABLE IF NOT EXISTS asked (
    pharmacy TEXT NOT NULL, number INTEGER NOT NULL, place INTEGER NOT NULL, code TEXT, day TEXT, prescription TEXT, fill TEXT, cardholder TEXT,
    product TEXT, quantity INTEGER, cost INTEGER, fee INTEGER, PRIMARY KEY (pharmacy, number, place)) WITHOUT ROWID;
CREATE INDEX IF NOT EXISTS asked_by_prescription ON asked (prescription);
CREATE INDEX IF NOT EXISTS asked_by_cardholder ON asked (cardholder);
"""
# The claims of which a transaction, or an answer to one, is as it is asked for.
_HAS = "(c.pharmacy, c.number) IN (SELECT pharmacy, number FROM asked WHERE {asked} UNION ALL SELECT pharmacy, number FROM kept.rulings WHERE {ruled})"
_ASKED = "(c.pharmacy, c.number) IN (SELECT pharmacy, number FROM asked WHERE {})"
_RULED = "(c.pharmacy, c.number) IN (SELECT pharmacy, number FROM kept.rulings WHERE {})"
_BACK = "EXISTS (SELECT 1 FROM kept.rulings AS b WHERE b.pharmacy = r.pharmacy AND b.authorization = r.authorization AND b.ruling = 'reversed')"
_STATES = {
    "open": "c.answer IS NULL",
    "answered": "c.answer IS NOT NULL",
    "paid": f"(c.pharmacy, c.number) IN (SELECT r.pharmacy, r.number FROM kept.rulings AS r WHERE r.ruling = 'paid' AND NOT {_BACK})",
    "reversed": "(c.pharmacy, c.number) IN (SELECT r.pharmacy, r.number FROM kept.rulings AS r WHERE r.ruling = 'reversed' "
    f"OR (r.ruling = 'paid' AND {_BACK}))",
    "rejected": _RULED.format("ruling = 'rejected'"),
    "duplicate": _RULED.format("ruling = 'duplicate'"),
}
_CLAIMS = "SELECT c.pharmacy, c.number, c.key, c.entered, c.answered, c.answer IS NULL AS is_open FROM kept.claims AS c WHERE {} ORDER BY {} LIMIT ? OFFSET ?"
_ORDERS = "SELECT place, code, day, prescription, fill, cardholder, product, quantity, cost, fee FROM asked WHERE pharmacy = ? AND number = ? ORDER BY place"
_RULINGS = """SELECT place, code, day, prescription, payer, authorization, ruling, total, copay, reject_codes,
    (SELECT min(b.number) FROM kept.rulings AS b WHERE b.pharmacy = r.pharmacy AND b.authorization = r.authorization AND b.ruling = 'reversed'
     AND r.ruling = 'paid') AS reversed_by
    FROM kept.rulings AS r WHERE pharmacy = ? AND number = ? ORDER BY place"""


class Finder:
    """The receipts, what requests say, and the program that reads them."""

    def __init__(self, receipts: str, index: str, program: str) -> None:
        self._receipts, self._name, self._program = receipts, index, program
        self._file = self._opened()

    def make(self, asked: list[tuple[int, str, tuple[Any, ...]]]) -> list[tuple[int, bool, Any]]:
        """Of each question what it finds."""
        told: list[tuple[int, bool, Any]] = []
        for which, _, values in asked:
            try:
                self._catch_up()
                told.append((which, True, self._find(*values)))
            except sqlite3.DatabaseError as fault:
                # What is there is no index, or of no use: it is made anew.
                told.append((which, False, str(fault)))
                self._file.close()
                self._remove()
                self._file = self._opened()
            except (OSError, ValueError, subprocess.SubprocessError) as fault:
                told.append((which, False, type(fault).__name__))
        return told

    def _opened(self) -> sqlite3.Connection:
        """The index, for nobody else to read, with the receipts beside it."""
        os.umask(0o077)
        for _ in range(2):
            file = sqlite3.connect(self._name, isolation_level=None, uri=True)
            try:
                file.row_factory = sqlite3.Row
                # What is lost of it is made anew.
                file.execute("PRAGMA journal_mode = WAL")
                file.execute("PRAGMA synchronous = OFF")
                file.executescript(SCHEMA)
                file.execute("ATTACH ? AS kept", (f"file:{urllib.parse.quote(self._receipts)}?mode=ro",))
                return file
            except sqlite3.DatabaseError:
                file.close()
                self._remove()
        raise OSError("no index can be made")

    def _remove(self) -> None:
        for ending in ("", "-wal", "-shm"):
            with contextlib.suppress(OSError):
                os.unlink(self._name + ending)

    def _catch_up(self) -> None:
        """Reads the requests that nobody has read yet."""
        of, seen = self._begun()
        last = self._file.execute("SELECT coalesce(max(id), 0) FROM kept.claims").fetchone()[0]
        self._file.execute(
            "INSERT OR IGNORE INTO waits SELECT id FROM kept.claims WHERE id > ?", (max(0, seen - LOOK_BACK),)
        )
        self._file.execute("UPDATE about SET seen = ? WHERE of = ?", (last, of))
        # What is gone, and what came by another way than the front, has no request; what was read need not be read again.
        self._file.execute(
            """DELETE FROM waits WHERE id NOT IN (SELECT id FROM kept.claims WHERE request IS NOT NULL) OR id IN
            (SELECT id FROM kept.claims AS c WHERE EXISTS (SELECT 1 FROM asked WHERE asked.pharmacy = c.pharmacy AND asked.number = c.number))"""
        )
        text = "SELECT c.pharmacy, c.number, c.request FROM waits JOIN kept.claims AS c ON c.id = waits.id WHERE c.number IS NOT NULL LIMIT ?"
        while rows := self._file.execute(text, (AT_ONCE,)).fetchall():
            self._file.execute("BEGIN")
            self._file.executemany(f"INSERT OR IGNORE INTO asked VALUES ({', '.join('?' * 12)})", self._read(rows))
            keys = [(row["pharmacy"], row["number"]) for row in rows]
            self._file.executemany(
                "DELETE FROM waits WHERE id IN (SELECT id FROM kept.claims WHERE pharmacy = ? AND number = ?)", keys
            )
            self._file.execute("COMMIT")

    def _begun(self) -> tuple[str, int]:
        """Of which receipts the index is, and up to which row it has seen them. Of others it begins anew."""
        first = self._file.execute("SELECT id, entered FROM kept.claims ORDER BY id LIMIT 1").fetchone()
        of = f"{os.stat(self._receipts).st_ino} {first['entered'] if first else 'none'}"
        row = self._file.execute("SELECT of, seen FROM about").fetchone()
        if row is not None and row["of"] == of:
            return of, row["seen"]
        for table in ("about", "waits", "asked"):
            self._file.execute(f"DELETE FROM {table}")
        self._file.execute("INSERT INTO about VALUES (?, 0)", (of,))
        return of, 0

    def _read(self, rows: list[sqlite3.Row]) -> Iterator[tuple[Any, ...]]:
        """What requests say, a row for each transaction; one of its own for a request that has none."""
        lines = b"".join(b"%s\n" % row["request"].hex().encode() for row in rows if row["request"])
        ran = subprocess.run(
            [self._program, "--json", "--hex", "request"], input=lines, capture_output=True, timeout=SECONDS, check=True
        )
        told = iter(ran.stdout.splitlines())
        for row in rows:
            said = json.loads(next(told)) if row["request"] else {"parts": [], "findings": []}
            found = list(orders_of(said)) or [(0, *[None] * 9)]
            yield from ((row["pharmacy"], row["number"], *one) for one in found)

    def _find(self, names: list[str], given: dict[str, Any], page: int, size: int) -> tuple[list[dict[str, Any]], bool]:
        """A page of claims of some pharmacies, the newest first, and whether there are more."""
        conditions = ["c.number IS NOT NULL", f"c.pharmacy IN ({', '.join('?' * len(names))})"]
        values: list[Any] = [*names]
        for condition, more in conditions_of(given):
            conditions.append(condition)
            values += more
        order = "c.number DESC" if len(names) == 1 else "c.id DESC"
        text = _CLAIMS.format(" AND ".join(conditions), order)
        rows = self._file.execute(text, (*values, size + 1, (page - 1) * size)).fetchall()
        return [self._told(row) for row in rows[:size]], len(rows) > size

    def _told(self, row: sqlite3.Row) -> dict[str, Any]:
        """A claim with what was asked and what was ruled of each of its transactions."""
        key = (row["pharmacy"], row["number"])
        orders = {it["place"]: dict(it) for it in self._file.execute(_ORDERS, key) if it["place"]}
        rulings = {it["place"]: dict(it) for it in self._file.execute(_RULINGS, key)}
        told = []
        for place in sorted({*orders, *rulings}):
            order, ruling = orders.get(place, {}), rulings.get(place, {})
            either = {name: order.get(name) or ruling.get(name) for name in ("code", "day", "prescription")}
            told.append({**order, **ruling, **either, "place": place})
        return {**dict(row), "transactions": told}


def conditions_of(given: dict[str, Any]) -> Iterator[tuple[str, list[Any]]]:
    """What is asked for, as conditions with their values."""
    for name, value in given.items():
        if name == "state":
            yield _STATES[value], []
        elif name == "number":
            yield "c.number = ?", [value]
        elif name in ("prescription", "payer"):
            yield (_RULED.format("payer = ?"), [value]) if name == "payer" else (
                _HAS.format(asked="prescription = ?", ruled="prescription = ?"),
                [value, value],
            )
        elif name in ("from", "to"):
            sign = ">=" if name == "from" else "<="
            yield _HAS.format(asked=f"day {sign} ?", ruled=f"day {sign} ?"), [value, value]
        elif name == "cardholder":
            yield _ASKED.format("cardholder LIKE ? ESCAPE '!'"), [
                "%" + "".join(f"!{it}" if it in "!%_" else it for it in value)
            ]
        elif name == "amount":
            yield _HAS.format(asked="coalesce(cost, 0) + coalesce(fee, 0) = ?", ruled="total = ?"), [value, value]


def orders_of(said: dict[str, Any]) -> Iterator[tuple[Any, ...]]:
    """What each transaction of a request says: as an order where it is one, and else by its fields, whatever they have."""
    orders = {it["transaction"]: it for it in said["findings"] if it["finding"] == "order"}
    head: dict[str, str] = {}
    places: dict[int, dict[str, str]] = {}
    now: dict[str, str] | None = None
    for part in said["parts"]:
        if "transaction" in part:
            now = places.setdefault(part["transaction"], {})
        elif part.get("field"):
            (head if now is None else now).setdefault(part["field"], part["value"])
    for place, fields in places.items():
        order = orders.get(place, {})
        cardholder = head.get("302-C2", "").strip()
        prescription = str(order.get("prescription", fields.get("402-D2", "")))
        yield (
            place, head.get("103-A3"), head.get("401-D1"), prescription.lstrip("0") or None, fields.get("403-D3"),
            cardholder[-LAST_LETTERS:] or None, fields.get("407-D7"), order.get("quantity"), order.get("cost"), order.get("fee"),
        )  # fmt: skip


if __name__ == "__main__":
    os.nice(NICER)
    serve(Finder(*sys.argv[1:]).make, 1)
