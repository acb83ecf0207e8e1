"""The one process that writes the receipts of a front: what is asked of it together is on disk together before it says so. What an answer says can
be learnt again of the node, and waits for no sync: it is on disk with what comes after it.

    keeping.py FILE, started by helpers.py
"""

from __future__ import annotations

import os
import sqlite3
import sys
import time
from collections.abc import Callable
from typing import Any

if __name__ == "__main__":
    sys.path[:] = [it for it in sys.path if it != os.path.dirname(os.path.abspath(__file__))]
    sys.path.insert(0, os.path.dirname(os.path.dirname(os.path.abspath(__file__))))
from front_service import given_up  # noqa: E402
from front_service.fills import (
    blocking,
    forget_touches,
    is_turned,
    primary_of,
    repeated,
    told_lately,
    told_of_some,
    touch,
)  # noqa: E402
from front_service.helpers import serve  # noqa: E402
from front_service.receipts import ANSWER, COLUMNS, KEY, SCHEMA, UNTOLD  # noqa: E402
from front_service.standard import answer_again, code_of, touches_of  # noqa: E402

# How many writes one sync may be for.
MOST_AT_ONCE = 512
_ID = "SELECT id FROM claims WHERE pharmacy = ? AND key = ?"
_BY_ID = f"SELECT {COLUMNS} WHERE c.id = ?"
_BY_NUMBER = f"SELECT {COLUMNS} WHERE c.pharmacy = ? AND c.number = ?"
_BY_KEY = f"SELECT {COLUMNS} WHERE c.pharmacy = ? AND c.key = ?"
# The row of these very bytes that nobody was told of, and that is not being taken back.
_BY_BYTES = f"SELECT {COLUMNS} WHERE c.pharmacy = ? AND c.digest = ? AND c.told = {UNTOLD} ORDER BY c.id DESC LIMIT 1"


def opened(name: str) -> sqlite3.Connection:
    """The file, for nobody else to read: it has health data."""
    os.umask(0o077)
    os.close(os.open(name, os.O_RDWR | os.O_CREAT, 0o600))
    file = sqlite3.connect(name, isolation_level=None)
    file.execute("PRAGMA journal_mode = WAL")
    # Each commit is on disk before it returns, but for those of LATER alone.
    file.execute("PRAGMA synchronous = FULL")
    _bring_up(file)
    return file


def _bring_up(file: sqlite3.Connection) -> None:
    """Makes the tables; those of an earlier version get what they lack. What that has told counts as told."""
    there = {row[1] for row in file.execute("PRAGMA table_info(claims)")}
    if there and "told" not in there:
        file.execute("BEGIN IMMEDIATE")
        file.execute("ALTER TABLE claims ADD COLUMN told INTEGER NOT NULL DEFAULT 1")
        file.execute("ALTER TABLE claims ADD COLUMN told_at REAL")
        file.execute("ALTER TABLE claims ADD COLUMN repeats INTEGER")
        file.execute("COMMIT")
    file.executescript(SCHEMA)
    if there and "told" not in there:
        file.execute("BEGIN IMMEDIATE")
        text = (
            "SELECT id, pharmacy, number, request, answer FROM claims WHERE request IS NOT NULL AND number IS NOT NULL"
        )
        rows = file.execute(text).fetchall()
        for claim, pharmacy, number, request, answer in rows:
            touch(file, pharmacy, claim, touches_of(request))
            if answer is not None:
                given_up.note_taken_back(file, pharmacy, answer)
        file.execute("COMMIT")


def reserve(
    file: sqlite3.Connection,
    pharmacy: str,
    key: str | None,
    fresh: str,
    digest: bytes,
    request: bytes,
    touched: list[tuple[int, str, int | None]],
    marks: list[Any],
    seconds: float,
) -> tuple[str, Any, Any]:
    """What becomes of a message, and its row, or that of the one that it waits for (receipts.Receipts.reserve)."""
    found = there(file, pharmacy, key, digest, code_of(request), touched, seconds)
    if found is not None:
        return "there", found, None
    before = blocking(file, pharmacy, touched)
    if before is not None:
        return "open", file.execute(_BY_ID, (before,)).fetchone(), None
    primary = primary_of(file, pharmacy, touched, marks)
    if primary is not None:
        return "secondary", None, primary
    again = repeated(file, pharmacy, request, touched)
    now, key = time.time(), key or fresh
    if again is not None:
        number, groups = again
        values: tuple[Any, ...] = (pharmacy, key, digest, request, answer_again(request, groups), now, now, number)
        text = """INSERT INTO claims (pharmacy, key, digest, request, answer, entered, answered, is_ruled, told, repeats)
            VALUES (?, ?, ?, ?, ?, ?, ?, 1, 1, ?)"""
        row = file.execute(text, values).lastrowid
        return "again", file.execute(_BY_ID, (row,)).fetchone(), None
    text = "INSERT INTO claims (pharmacy, key, digest, request, entered, told) VALUES (?, ?, ?, ?, ?, ?)"
    row = file.execute(text, (pharmacy, key, digest, request, now, UNTOLD)).lastrowid
    assert row is not None
    touch(file, pharmacy, row, touched)
    return "new", file.execute(_BY_ID, (row,)).fetchone(), None


def there(
    file: sqlite3.Connection,
    pharmacy: str,
    key: str | None,
    digest: bytes,
    code: bytes,
    touched: list[tuple[int, str, int | None]],
    seconds: float,
) -> Any:
    """The row of a key; where there is none that of the same bytes, if nobody was told of it, or somebody a moment ago, who may have heard
    nothing of it. What was turned since (fills.is_turned) is not meant: it says nothing of what stands now."""
    if key is not None:
        return of_key(file, pharmacy, key)
    row = file.execute(_BY_BYTES, (pharmacy, digest)).fetchone()
    if row is not None and row[ANSWER] is not None:
        claim = file.execute(_ID, (pharmacy, row[KEY])).fetchone()[0]
        if given_up.is_reversed(file, pharmacy, row[ANSWER]) or is_turned(file, pharmacy, claim, code, touched):
            row = None
    if row is None:
        told = told_lately(file, pharmacy, digest, code, touched, time.time() - seconds)
        row = None if told is None else file.execute(_BY_ID, (told,)).fetchone()
        if row is not None and given_up.is_reversed(file, pharmacy, row[ANSWER]):
            row = None
    return row


def told_before(
    file: sqlite3.Connection,
    pharmacy: str,
    digest: bytes,
    code: bytes,
    touched: list[tuple[int, str, int | None]],
    seconds: float,
) -> dict[int, bytes]:
    return told_of_some(file, pharmacy, digest, code, touched, time.time() - seconds)


def forget(file: sqlite3.Connection, pharmacy: str, key: str) -> None:
    text = "SELECT id, request FROM claims WHERE pharmacy = ? AND key = ? AND number IS NULL AND repeats IS NULL"
    for claim, request in file.execute(text, (pharmacy, key)).fetchall():
        forget_touches(file, pharmacy, claim, request)
        file.execute("DELETE FROM given_up WHERE claim = ?", (claim,))
        file.execute("DELETE FROM claims WHERE id = ?", (claim,))


def number(file: sqlite3.Connection, pharmacy: str, key: str, it: int) -> None:
    """Notes which number a key has. A row that was made for a number that others had asked about goes over into it."""
    text = "SELECT answer FROM claims WHERE pharmacy = ? AND number = ? AND key IS NULL"
    seen_before = file.execute(text, (pharmacy, it)).fetchone()
    if seen_before is not None:
        file.execute("DELETE FROM claims WHERE pharmacy = ? AND number = ? AND key IS NULL", (pharmacy, it))
    file.execute("UPDATE claims SET number = ? WHERE pharmacy = ? AND key = ?", (it, pharmacy, key))
    if seen_before is not None and seen_before[0] is not None:
        seen(file, pharmacy, it, seen_before[0])


def seen(file: sqlite3.Connection, pharmacy: str, it: int, answer: bytes | None) -> None:
    """Notes the answer to a number; of a number that came by another way than the front also that it is there."""
    row = file.execute("SELECT id FROM claims WHERE pharmacy = ? AND number = ?", (pharmacy, it)).fetchone()
    if row is None:
        text = "INSERT INTO claims (pharmacy, number, entered) VALUES (?, ?, ?)"
        row = (file.execute(text, (pharmacy, it, time.time())).lastrowid,)
    if answer is not None:
        given_up.note(file, row[0], answer)


def of_number(file: sqlite3.Connection, pharmacy: str, it: int) -> Any:
    return file.execute(_BY_NUMBER, (pharmacy, it)).fetchone()


def of_key(file: sqlite3.Connection, pharmacy: str, key: str) -> Any:
    return file.execute(_BY_KEY, (pharmacy, key)).fetchone()


def tell(file: sqlite3.Connection, pharmacy: str, key: str, answer: bytes) -> Any:
    given_up.tell(file, pharmacy, key, answer)
    return of_key(file, pharmacy, key)


def hand_over(file: sqlite3.Connection, pharmacy: str, key: str) -> None:
    given_up.hand_over(file, pharmacy, key)


def give_up(file: sqlite3.Connection, pharmacy: str, key: str, code: str) -> Any:
    given_up.give_up(file, pharmacy, key, code)
    return of_key(file, pharmacy, key)


def adopt(file: sqlite3.Connection, pharmacies: list[str], grace: float) -> list[Any]:
    found = []
    for pharmacy in pharmacies:
        given_up.adopt(file, pharmacy, grace)
        text = f"""SELECT {COLUMNS} WHERE c.pharmacy = ? AND c.number IS NULL AND c.repeats IS NULL
            AND (c.told = {UNTOLD} OR c.key IN (SELECT reversal FROM given_up)) ORDER BY c.id"""
        found += file.execute(text, (pharmacy,)).fetchall()
    return found


def due(
    file: sqlite3.Connection, pharmacies: list[str], grace: float
) -> tuple[list[Any], list[tuple[str, int | None, str]]]:
    made, others = [], []
    for pharmacy in pharmacies:
        keys, ended = given_up.due(file, pharmacy, grace)
        made += [of_key(file, pharmacy, key) for key in keys]
        others += [(pharmacy, *one) for one in ended]
    return made, others


def write_rulings(file: sqlite3.Connection, ruled: list[tuple[Any, ...]], rows: list[tuple[Any, ...]]) -> None:
    """Notes what answers say, and which rows of claims that were, each by id, pharmacy and number: an id may be another claim's meanwhile."""
    file.executemany(f"INSERT OR IGNORE INTO rulings VALUES ({', '.join('?' * 14)})", rows)
    file.executemany("UPDATE claims SET is_ruled = 1 WHERE id = ? AND pharmacy = ? AND number = ?", ruled)


_DEEDS: tuple[Any, ...] = (
    reserve, there, told_before, forget, number, seen, of_number, of_key, tell, hand_over, give_up, adopt, due, write_rulings,
)  # fmt: skip
DEEDS: dict[str, Callable[..., Any]] = {it.__name__: it for it in _DEEDS}


# What the node, or who reads answers, tells again where a machine loses it: nobody waits for its sync. A commit behind it syncs it too.
LATER = frozenset(("seen", "write_rulings"))


class Keeper:
    """The file, and what is made of it."""

    # How commits are synced that somebody waits for, and the others.
    synced, later = "FULL", "NORMAL"

    def __init__(self, name: str) -> None:
        self._file = opened(name)
        self._way = self.synced
        # Whether the disk has failed: what was not synced before may be gone from the log of the file, and what comes behind it there would
        # go with it.
        self._is_torn = False

    def make(self, asked: list[tuple[int, str, tuple[Any, ...]]]) -> list[tuple[int, bool, Any]]:
        """What comes of each question, once all are on disk, or may be later. Where one fails they are made one by one, and it alone is told
        so."""
        try:
            self._sync_by(self.later if LATER.issuperset(name for _, name, _ in asked) else self.synced)
            self._file.execute("BEGIN IMMEDIATE")
            told = [(which, True, DEEDS[name](self._file, *values)) for which, name, values in asked]
            self._file.execute("COMMIT")
        except sqlite3.Error as fault:
            self._is_torn |= isinstance(fault, sqlite3.OperationalError)
            if self._file.in_transaction:
                self._file.execute("ROLLBACK")
            if len(asked) == 1:
                return [(asked[0][0], False, str(fault))]
            return [it for one in asked for it in self.make([one])]
        return told

    def _sync_by(self, way: str) -> None:
        """Has the next commit synced in this way. Where the disk has failed all that was committed goes from the file's log into the file first."""
        if self._is_torn:
            is_busy, _, _ = self._file.execute("PRAGMA wal_checkpoint(TRUNCATE)").fetchone()
            if is_busy:
                raise sqlite3.OperationalError("the receipts are read, and are not whole on disk before")
            self._is_torn = False
        if way != self._way:
            self._file.execute(f"PRAGMA synchronous = {way}")
            self._way = way


if __name__ == "__main__":
    serve(Keeper(sys.argv[1]).make, MOST_AT_ONCE)
