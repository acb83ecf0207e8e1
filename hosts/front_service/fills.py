"""Which messages are about one fill, as the receipts have it: so that they keep their order, that a repeated reversal is known as one, and
that a secondary claim does not go to its own primary payer. All is asked and written in the transactions of keeping.py.

A message touches the fills of its transactions, a reversal without a fill number all fills of its prescription (standard.Touch)."""

from __future__ import annotations

import sqlite3
from collections.abc import Sequence

from .profile import Secondary, Why, secondaries
from .standard import (
    BILLING,
    DUPLICATE,
    PAID,
    REJECTED,
    RESPONSE_HEADER,
    TAKEN_BACK,
    all_of_bin,
    code_of,
    date_of,
    parts_of,
    rulings_of,
    touches_of,
)

# What becomes of a payment: a caller was told that it stands, as a duplicate's; the front is reversing it; an answer said that it is reversed.
TOLD_OF, REVERSING, REVERSED = "told", "reversing", "reversed"
Touched = Sequence[tuple[int, str, int | None]]
# A payment is not taken back whatever else was asked, where another message of the fill came by another way and nobody knows which it was.
_OTHERS = """SELECT answer FROM claims WHERE pharmacy = ? AND request IS NULL AND number > ?"""
_TOUCHING = """SELECT c.id, c.number, c.request, c.answer, t.place, t.fill FROM touches t JOIN claims c ON c.id = t.claim
    WHERE t.pharmacy = ? AND t.prescription = ? AND (t.fill IS NULL OR ? IS NULL OR t.fill = ?) AND c.number IS NOT NULL
    ORDER BY c.number DESC"""


def touch(file: sqlite3.Connection, pharmacy: str, claim: int, touched: Touched) -> None:
    """Notes what a message is about."""
    rows = [(pharmacy, prescription, claim, place, fill) for place, prescription, fill in touched]
    file.executemany("INSERT OR IGNORE INTO touches VALUES (?, ?, ?, ?, ?)", rows)


def forget_touches(file: sqlite3.Connection, pharmacy: str, claim: int, request: bytes) -> None:
    rows = [(pharmacy, it.prescription, claim) for it in touches_of(request)]
    file.executemany("DELETE FROM touches WHERE pharmacy = ? AND prescription = ? AND claim = ?", rows)


def blocking(file: sqlite3.Connection, pharmacy: str, touched: Touched, but: int = 0) -> int | None:
    """A message of one of these fills that has no answer yet, by the row of its claim."""
    text = """SELECT c.id FROM touches t JOIN claims c ON c.id = t.claim
        WHERE t.pharmacy = ? AND t.prescription = ? AND (t.fill IS NULL OR ? IS NULL OR t.fill = ?) AND c.answer IS NULL
        AND c.id <> ? ORDER BY c.id LIMIT 1"""
    for _, prescription, fill in touched:
        row = file.execute(text, (pharmacy, prescription, fill, fill, but)).fetchone()
        if row is not None:
            return int(row[0])
    return None


_SINCE = """SELECT 1 FROM touches t JOIN claims c ON c.id = t.claim
    WHERE t.pharmacy = ? AND t.prescription = ? AND (t.fill IS NULL OR ? IS NULL OR t.fill = ?) AND c.id > ?
    AND substr(c.request, 9, 2) <> ? LIMIT 1"""


def is_turned(file: sqlite3.Connection, pharmacy: str, claim: int, code: bytes, touched: Touched) -> bool:
    """Whether something of the other kind went in behind a message of one of these fills: a reversal behind a billing, or a billing behind
    a reversal."""
    asked = ((pharmacy, prescription, fill, fill, claim, code) for _, prescription, fill in touched)
    return any(file.execute(_SINCE, values).fetchone() is not None for values in asked)


def told_lately(
    file: sqlite3.Connection, pharmacy: str, digest: bytes, code: bytes, touched: Touched, since: float
) -> int | None:
    """The claim of these very bytes whose answer was told to somebody since then: who asks again has not heard it. What was rejected may be
    judged otherwise now, and what was turned since says nothing of what stands: that is a new claim."""
    claim, answer = _told_since(file, pharmacy, digest, touched, since) or (0, None)
    if answer is None or any(it.status == REJECTED for it in rulings_of(answer)):
        return None
    return None if is_turned(file, pharmacy, claim, code, touched) else claim


def told_of_some(
    file: sqlite3.Connection, pharmacy: str, digest: bytes, code: bytes, touched: Touched, since: float
) -> dict[int, bytes]:
    """Of these very bytes, whose answer was told to somebody since then, what it said of those transactions that stand as it said, by their
    places: where others of them were turned it is a new claim, and yet nobody is told no of these."""
    claim, answer = _told_since(file, pharmacy, digest, touched, since) or (0, None)
    if answer is None:
        return {}
    rulings, groups = rulings_of(answer), parts_of(answer, RESPONSE_HEADER)[1:]
    found = {}
    for it in touched:
        ruling = rulings[it[0]] if it[0] < len(rulings) else None
        if ruling is None or ruling.status == REJECTED or is_turned(file, pharmacy, claim, code, [it]):
            continue
        if code != BILLING or fate_of(file, pharmacy, ruling.authorization) != REVERSED:
            found[it[0]] = groups[it[0]]
    return found


def _told_since(
    file: sqlite3.Connection, pharmacy: str, digest: bytes, touched: Touched, since: float
) -> tuple[int, bytes | None] | None:
    """The claim of these very bytes whose answer was told to somebody since then, and its answer."""
    text = """SELECT c.id, c.answer FROM touches t JOIN claims c ON c.id = t.claim WHERE t.pharmacy = ? AND t.prescription = ?
        AND c.digest = ? AND c.told_at >= ? ORDER BY c.id DESC LIMIT 1"""
    for _, prescription, _ in touched[:1]:
        row: tuple[int, bytes | None] | None = file.execute(text, (pharmacy, prescription, digest, since)).fetchone()
        return row
    return None


def repeated(
    file: sqlite3.Connection, pharmacy: str, request: bytes, touched: Touched
) -> tuple[int, list[bytes]] | None:
    """Of a reversal that was made before: the number of the first one, and what its answer said of each transaction. That is so where the
    last message of each fill is a reversal of the same fill and the same date of service that was approved."""
    if code_of(request) == BILLING or not touched or len(touched) != len(parts_of(request, 0)) - 1:
        return None
    groups, first = [], 0
    for _, prescription, fill in touched:
        found = _taken_back(file, pharmacy, request, prescription, fill)
        if found is None:
            return None
        first, group = found[0], found[1]
        groups.append(group)
    return first, groups


def _taken_back(
    file: sqlite3.Connection, pharmacy: str, request: bytes, prescription: str, fill: int | None
) -> tuple[int, bytes] | None:
    """The approved reversal behind which nothing was billed: its number, and what its answer said of this fill."""
    for _, number, earlier, answer, place, its_fill in file.execute(_TOUCHING, (pharmacy, prescription, fill, fill)):
        if code_of(earlier) == BILLING:
            return None
        if rulings_of(answer)[place].status not in TAKEN_BACK:
            continue
        if (
            date_of(earlier) != date_of(request)
            or its_fill != fill
            or _may_be_billed(file, pharmacy, prescription, number)
        ):
            return None
        return number, parts_of(answer, RESPONSE_HEADER)[1 + place]
    return None


def _may_be_billed(file: sqlite3.Connection, pharmacy: str, prescription: str, number: int) -> bool:
    """Whether somebody may have billed a prescription behind an entry by another way than the front, which does not have what came so."""
    its_number = b"\x1cD2%d" % int(prescription[6:18])
    return any(row[0] is None or its_number in row[0] for row in file.execute(_OTHERS, (pharmacy, number)))


def primary_of(
    file: sqlite3.Connection, pharmacy: str, touched: Touched, marks: Sequence[Secondary]
) -> tuple[int, Why] | None:
    """The first transaction that says that another payer comes first, and is not for its payer to judge, and why: that payer has paid the fill
    itself; or it may be the one that comes first, and the fill was not paid under another PCN of its BIN number. What was paid there as a
    secondary claim is the payer's to judge: it pays it once."""
    fills = {place: (prescription, fill) for place, prescription, fill in touched}
    for place, paid_here, unknown in marks:
        if place not in fills:
            continue
        prescription, fill = fills[place]
        paid_at = _paid_at(file, pharmacy, prescription, fill)
        is_secondary = paid_at.get(prescription)
        if is_secondary is False:
            return place, paid_here
        if is_secondary is None and unknown is not None and not paid_at:
            return place, unknown
    return None


def _paid_at(file: sqlite3.Connection, pharmacy: str, prescription: str, fill: int | None) -> dict[str, bool]:
    """Where a fill was paid, and not taken back, as far as the front knows: the prescription at each payer of its BIN number, and whether it was
    billed there as a secondary claim."""
    front = all_of_bin(prescription)
    text = """SELECT t.prescription, c.request, c.answer, t.place FROM touches t JOIN claims c ON c.id = t.claim
        WHERE t.pharmacy = ? AND t.prescription >= ? AND t.prescription < ? AND t.fill = ? AND c.answer IS NOT NULL"""
    found: dict[str, bool] = {}
    for at, request, answer, place in file.execute(text, (pharmacy, front, f"{front}\U0010ffff", fill)):
        rulings = rulings_of(answer)
        if place < len(rulings) and rulings[place].status in (PAID, DUPLICATE):
            if fate_of(file, pharmacy, rulings[place].authorization) != REVERSED:
                is_secondary = any(it.place == place for it in secondaries(request))
                found[at] = is_secondary and found.get(at, True)
    return found


def fate_of(file: sqlite3.Connection, pharmacy: str, authorization: bytes) -> str | None:
    """What is known of a payment beside the claim that was paid it."""
    text = "SELECT fate FROM authorizations WHERE pharmacy = ? AND authorization = ?"
    row = file.execute(text, (pharmacy, authorization)).fetchone()
    return None if row is None else str(row[0])
