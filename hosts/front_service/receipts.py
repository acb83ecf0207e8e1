"""What the front keeps: which key stands for which number, the messages that it has seen, and what it owes. One SQLite file, synced at each
commit.

A row is there, synced, before its message goes to the node, and has its number, synced, before the caller hears of it. So the same key
never becomes two entries, also where the front ends in between: `number` is then empty, and the message is submitted again under the
reference that the key is to the node, which tells the number that there is (counter.py).

Nor is a caller told anything of an answer that is not noted here before as told. What no caller was told of and was paid is taken back
(given_up.py). A process of its own writes the file (keeping.py), so that what is synced holds up nothing else.
"""

from __future__ import annotations

import asyncio
import concurrent.futures
import hashlib
import sqlite3
import urllib.parse
from collections.abc import Sequence
from typing import Any, NamedTuple

from .helpers import Helper
from .profile import secondaries
from .standard import code_of, rejection, touches_of

SCHEMA = """
CREATE TABLE IF NOT EXISTS claims (
    id INTEGER PRIMARY KEY, pharmacy TEXT NOT NULL, number INTEGER, key TEXT, digest BLOB, request BLOB, answer BLOB,
    entered REAL NOT NULL, answered REAL, is_ruled INTEGER NOT NULL DEFAULT 0, told INTEGER NOT NULL DEFAULT 1, told_at REAL,
    repeats INTEGER);
CREATE UNIQUE INDEX IF NOT EXISTS claims_by_key ON claims (pharmacy, key) WHERE key IS NOT NULL;
CREATE UNIQUE INDEX IF NOT EXISTS claims_by_number ON claims (pharmacy, number) WHERE number IS NOT NULL;
CREATE INDEX IF NOT EXISTS claims_open ON claims (pharmacy, number) WHERE answer IS NULL;
CREATE INDEX IF NOT EXISTS claims_unruled ON claims (id) WHERE answer IS NOT NULL AND is_ruled = 0;
CREATE INDEX IF NOT EXISTS claims_untold ON claims (pharmacy, digest) WHERE told = 0;
CREATE INDEX IF NOT EXISTS claims_of_others ON claims (pharmacy, number) WHERE request IS NULL;
CREATE TABLE IF NOT EXISTS rulings (
    pharmacy TEXT NOT NULL, number INTEGER NOT NULL, place INTEGER NOT NULL, code TEXT NOT NULL, ruling TEXT NOT NULL, day TEXT,
    payer INTEGER, authorization TEXT, prescription TEXT, cost INTEGER, fee INTEGER, copay INTEGER, total INTEGER, reject_codes TEXT,
    PRIMARY KEY (pharmacy, number, place)) WITHOUT ROWID;
CREATE INDEX IF NOT EXISTS rulings_by_authorization ON rulings (pharmacy, authorization) WHERE authorization IS NOT NULL;
CREATE TABLE IF NOT EXISTS touches (
    pharmacy TEXT NOT NULL, prescription TEXT NOT NULL, claim INTEGER NOT NULL, place INTEGER NOT NULL, fill INTEGER,
    PRIMARY KEY (pharmacy, prescription, claim, place)) WITHOUT ROWID;
CREATE TABLE IF NOT EXISTS authorizations (
    pharmacy TEXT NOT NULL, authorization BLOB NOT NULL, fate TEXT NOT NULL, PRIMARY KEY (pharmacy, authorization)) WITHOUT ROWID;
CREATE TABLE IF NOT EXISTS given_up (
    claim INTEGER PRIMARY KEY, code TEXT NOT NULL, times INTEGER NOT NULL, first REAL NOT NULL, last REAL NOT NULL,
    reversal TEXT, tries INTEGER NOT NULL DEFAULT 0, outcome TEXT, ended REAL);
CREATE INDEX IF NOT EXISTS given_up_by_reversal ON given_up (reversal) WHERE reversal IS NOT NULL;
"""
# What claims.told says: nobody was told of an answer yet; somebody was; nobody was, and nobody will be told that it is paid.
UNTOLD, TOLD, CLOSED = 0, 1, 2
# What is told of a claim, in the order of Receipt.
COLUMNS = """c.pharmacy, c.number, c.key, c.digest, c.request, c.answer, c.entered, c.answered, c.told, c.repeats, g.code, g.reversal,
    g.outcome, (SELECT r.number FROM claims r WHERE r.pharmacy = c.pharmacy AND r.key = g.reversal)
    FROM claims c LEFT JOIN given_up g ON g.claim = c.id"""

# Where in a row these stand.
KEY, ANSWER = 2, 5


class Receipt(NamedTuple):
    """What is kept of a claim."""

    pharmacy: str
    number: int | None
    key: str | None
    digest: bytes | None
    request: bytes | None
    answer: bytes | None
    entered: float
    answered: float | None
    told: int = TOLD
    # The number of the reversal whose answer this one was given again: it is no entry.
    repeats: int | None = None
    # The code by which a caller was rejected before there was an answer; empty where nobody was there any more.
    code: str | None = None
    # Of a payment that the front takes back: the key and the number of its reversal.
    reversal: str | None = None
    outcome: str | None = None
    reversal_number: int | None = None

    @property
    def is_own(self) -> bool:
        """Whether it is a reversal of the front's own that has no number yet: what callers send is told to nobody so early."""
        return self.told == TOLD and self.number is None and self.repeats is None

    @property
    def told_answer(self) -> bytes | None:
        """What callers are told: the answer, or that of a claim that was given up; None where it is open."""
        if self.told == TOLD:
            return self.answer
        if self.code and self.request is not None:
            return rejection(self.request, (self.code.encode(),))
        return None


def digest_of(message: bytes) -> bytes:
    return hashlib.sha256(message).digest()


class Receipts:
    """The file: the process that writes it, and a thread that asks it on the side."""

    def __init__(self, name: str) -> None:
        self.name = name
        self._keeper = self._started()
        # Long questions of people are asked on the side, and hold up no claim.
        self._side = sqlite3.connect(f"file:{urllib.parse.quote(name)}?mode=ro", uri=True, check_same_thread=False)
        self._side.row_factory = sqlite3.Row
        self._asking = concurrent.futures.ThreadPoolExecutor(1, "receipts-side")

    def _started(self) -> Helper:
        return Helper("keeping.py", self.name, is_awaited=True)

    async def keep_for_ever(self) -> None:
        """Ends where the process that writes has ended: nothing can be promised then."""
        await asyncio.shield(self._keeper.ended)
        raise OSError("the process that writes the receipts has ended")

    async def close(self) -> None:
        await self._keeper.close()
        self._asking.shutdown()
        self._side.close()

    # What is asked of it.

    async def reserve(
        self, pharmacy: str, key: str | None, fresh: str, request: bytes, is_lenient: bool, seconds: float
    ) -> tuple[str, Receipt | None, Any]:
        """A row for a message, under its key, or where it has none under a fresh one. The words:

        new: it is there now, and may be entered, once; there: it was there, or without a key these very bytes that nobody was told of, or
        somebody less than so many seconds ago; open: another message of one of its fills has no answer yet, and nothing was done; again: a
        reversal of what was taken back before, which has that answer; secondary: it goes to its own primary payer, and why that is said.
        """
        touched = [(it.place, it.prescription, it.fill) for it in touches_of(request)]
        marks = [] if is_lenient else [tuple(it) for it in secondaries(request)]
        word, row, more = await self._keeper.ask(
            "reserve", pharmacy, key, fresh, digest_of(request), request, touched, marks, seconds
        )
        return word, None if row is None else Receipt(*row), more

    async def there(self, pharmacy: str, key: str | None, request: bytes, seconds: float) -> Receipt | None:
        """The row of a message that is there, as reserve finds it."""
        touched = [(it.place, it.prescription, it.fill) for it in touches_of(request)]
        row = await self._keeper.ask("there", pharmacy, key, digest_of(request), code_of(request), touched, seconds)
        return None if row is None else Receipt(*row)

    async def told_before(self, pharmacy: str, request: bytes, seconds: float) -> dict[int, bytes]:
        """What somebody was told of these very bytes less than so many seconds ago, and what stands: the groups of its answer, by their places."""
        touched = [(it.place, it.prescription, it.fill) for it in touches_of(request)]
        found: dict[int, bytes] = await self._keeper.ask(
            "told_before", pharmacy, digest_of(request), code_of(request), touched, seconds
        )
        return found

    async def forget(self, pharmacy: str, key: str) -> None:
        """Takes back the row of a message that the node has refused: nothing was entered."""
        await self._keeper.ask("forget", pharmacy, key)

    async def number(self, pharmacy: str, key: str, number: int) -> None:
        """Notes which number a key has."""
        await self._keeper.ask("number", pharmacy, key, number)

    def seen(self, pharmacy: str, number: int, answer: bytes | None) -> asyncio.Future[None]:
        """Notes the answer to a number; of a number that came by another way than the front also that it is there."""
        return self._keeper.ask("seen", pharmacy, number, answer)

    async def tell(self, pharmacy: str, key: str, answer: bytes) -> Receipt | None:
        """Notes the answer of a key, and that its caller is told it, where that may be: the front may be taking the payment back. The row,
        or None where the message was forgotten."""
        row = await self._keeper.ask("tell", pharmacy, key, answer)
        return None if row is None else Receipt(*row)

    async def hand_over(self, pharmacy: str, key: str) -> None:
        """Notes that a caller is told the number of a key, and asks for its answer when it likes."""
        await self._keeper.ask("hand_over", pharmacy, key)

    async def give_up(self, pharmacy: str, key: str, code: str) -> Receipt | None:
        """Notes that a caller of a key is rejected with a code, or is not there any more: without a code. Where the answer has come
        meanwhile it is told."""
        row = await self._keeper.ask("give_up", pharmacy, key, code)
        return None if row is None else Receipt(*row)

    async def adopt(self, pharmacies: Sequence[str], grace: float) -> list[Receipt]:
        """Gives up what callers of an earlier front were not told of; all rows of these pharmacies whose number is not known."""
        return [Receipt(*row) for row in await self._keeper.ask("adopt", list(pharmacies), grace)]

    async def due(
        self, pharmacies: Sequence[str], grace: float
    ) -> tuple[list[Receipt], list[tuple[str, int | None, str]]]:
        """The reversals of what was paid, told to nobody and asked for by nobody for so long: each has a row now. And what the others that
        nobody was told of came to: pharmacy, number, outcome."""
        rows, others = await self._keeper.ask("due", list(pharmacies), grace)
        return [Receipt(*row) for row in rows], others

    async def of_number(self, pharmacy: str, number: int) -> Receipt | None:
        row = await self._keeper.ask("of_number", pharmacy, number)
        return None if row is None else Receipt(*row)

    async def of_key(self, pharmacy: str, key: str) -> Receipt | None:
        row = await self._keeper.ask("of_key", pharmacy, key)
        return None if row is None else Receipt(*row)

    async def rows(self, text: str, *values: object) -> list[sqlite3.Row]:
        """What a question in SQL finds, of all that is on disk."""
        return await asyncio.get_running_loop().run_in_executor(
            self._asking, lambda: self._side.execute(text, values).fetchall()
        )

    async def write_rulings(self, ruled: list[tuple[Any, ...]], rows: list[tuple[Any, ...]]) -> None:
        """Notes what answers say, and which rows of claims that were."""
        await self._keeper.ask("write_rulings", ruled, rows)
