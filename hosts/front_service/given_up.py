"""What callers were told, and what becomes of what they were not told: in the transactions of keeping.py, so that of an answer that was told
as paid and a payment that is taken back exactly one wins, whatever was killed.

A row of claims is UNTOLD from its first moment. It becomes TOLD in the transaction before its caller is told the payer's answer (or, of a
caller that waits for none, the number), and CLOSED in that which makes the reversal of what it was paid, or which notes that there is
nothing to reverse. Nobody is told of a payment whose row is CLOSED for a reversal, and no row that is TOLD gets one."""

from __future__ import annotations

import secrets
import sqlite3
import time

from .fills import REVERSED, REVERSING, TOLD_OF, blocking, fate_of, touch
from .receipts import CLOSED, TOLD, UNTOLD, digest_of
from .standard import DUPLICATE, PAID, REVERSAL, TAKEN_BACK, Ruling, code_of, reversal_of, rulings_of, touches_of

# What became of a claim that was given up: somebody was told of its answer after all; it was rejected, a duplicate of what was paid before,
# or a reversal that was made; its payment was reversed by the front, or by the pharmacy; the reversal was rejected, and is tried again.
TOLD_LATER, WAS_REJECTED, WAS_DUPLICATE, WAS_APPROVED = "told", "rejected", "duplicate", "approved"
WAS_REVERSED, BY_PHARMACY, WAS_REFUSED = "reversed", "reversed by the pharmacy", "reversal rejected"
# Those whose answer nobody is told any more.
VOID = (WAS_REVERSED, BY_PHARMACY, WAS_REFUSED)
# After so long a rejected reversal is made again, under another number.
AGAIN_SECONDS = 600.0
NOT_PROCESSED = b"87"
_ROW = "SELECT id, pharmacy, request, answer, told FROM claims WHERE pharmacy = ? AND key = ?"


def note(file: sqlite3.Connection, claim: int, answer: bytes) -> None:
    """Notes the answer of a claim, once, and what that means for others."""
    text = "UPDATE claims SET answer = ?, answered = ? WHERE id = ? AND answer IS NULL"
    if not file.execute(text, (answer, time.time(), claim)).rowcount:
        return
    pharmacy, key = file.execute("SELECT pharmacy, key FROM claims WHERE id = ?", (claim,)).fetchone()
    note_taken_back(file, pharmacy, answer)
    if key is None:
        return
    for (billing,) in file.execute("SELECT claim FROM given_up WHERE reversal = ?", (key,)).fetchall():
        _end(file, billing, _outcome_of(answer))


def note_taken_back(file: sqlite3.Connection, pharmacy: str, answer: bytes) -> None:
    """Notes which payments an answer says were reversed."""
    for ruling in rulings_of(answer):
        if ruling.status in TAKEN_BACK and ruling.authorization:
            _set_fate(file, pharmacy, ruling.authorization, REVERSED)


def _set_fate(file: sqlite3.Connection, pharmacy: str, authorization: bytes, fate: str) -> None:
    text = "INSERT INTO authorizations VALUES (?, ?, ?) ON CONFLICT DO UPDATE SET fate = excluded.fate"
    file.execute(text, (pharmacy, authorization, fate))


def _outcome_of(answer: bytes) -> str:
    """What a reversal of the front came to: one of what stands no more is one too."""
    for ruling in rulings_of(answer):
        if ruling.status not in TAKEN_BACK and ruling.codes != (NOT_PROCESSED,):
            return WAS_REFUSED
    return WAS_REVERSED


def _end(file: sqlite3.Connection, claim: int, outcome: str) -> None:
    file.execute("UPDATE given_up SET outcome = ?, ended = ? WHERE claim = ?", (outcome, time.time(), claim))


def _given_up(file: sqlite3.Connection, claim: int) -> tuple[str | None, str | None] | None:
    """The reversal and the outcome of a claim that was given up."""
    text = "SELECT reversal, outcome FROM given_up WHERE claim = ?"
    row: tuple[str | None, str | None] | None = file.execute(text, (claim,)).fetchone()
    return row


def _is_void(file: sqlite3.Connection, claim: int) -> bool:
    """Whether nobody is told of the payment of a claim any more."""
    owed = _given_up(file, claim)
    return owed is not None and (owed[0] is not None or owed[1] in VOID)


def tell(file: sqlite3.Connection, pharmacy: str, key: str, answer: bytes) -> None:
    """Notes the answer of a claim, and that it is told, where it may be."""
    row = file.execute(_ROW, (pharmacy, key)).fetchone()
    if row is None:
        return
    claim, _, _, before, told = row
    if before is None:
        note(file, claim, answer)
    if told == TOLD or _is_void(file, claim):
        return
    if is_reversed(file, pharmacy, before or answer) or not _duplicates_may_be_told(file, pharmacy, before or answer):
        # What of it stands nobody is told of, and is taken back.
        _open(file, claim, "", 0)
        return
    file.execute("UPDATE claims SET told = ?, told_at = ? WHERE id = ?", (TOLD, time.time(), claim))
    _end(file, claim, TOLD_LATER)


def _duplicates_may_be_told(file: sqlite3.Connection, pharmacy: str, answer: bytes) -> bool:
    """Who is told that a claim is a duplicate is told that its payment stands: so it is not reversed any more, whoever was billed it first; and
    where it is being reversed this may not be said."""
    named = [it.authorization for it in rulings_of(answer) if it.status == DUPLICATE]
    if any(fate_of(file, pharmacy, it) in (REVERSING, REVERSED) for it in named):
        return False
    for authorization in named:
        _set_fate(file, pharmacy, authorization, TOLD_OF)
    return True


def is_reversed(file: sqlite3.Connection, pharmacy: str, answer: bytes) -> bool:
    """Whether a payment that an answer tells was reversed since."""
    return any(it.status == PAID and fate_of(file, pharmacy, it.authorization) == REVERSED for it in rulings_of(answer))


def hand_over(file: sqlite3.Connection, pharmacy: str, key: str) -> None:
    """Notes that a caller has the number of a claim, and asks for the answer by itself; not of one whose caller was rejected before."""
    text = "UPDATE claims SET told = ? WHERE pharmacy = ? AND key = ? AND told = ? AND id NOT IN (SELECT claim FROM given_up)"
    file.execute(text, (TOLD, pharmacy, key, UNTOLD))


def _open(file: sqlite3.Connection, claim: int, code: str, times: int) -> None:
    """Notes that a claim is given up, with the code that its caller was told; none where nobody was there any more."""
    now = time.time()
    text = """INSERT INTO given_up (claim, code, times, first, last) VALUES (?, ?, ?, ?, ?) ON CONFLICT (claim)
        DO UPDATE SET code = coalesce(nullif(code, ''), excluded.code), times = times + excluded.times, last = excluded.last"""
    file.execute(text, (claim, code, times, now, now))


def _close(file: sqlite3.Connection, claim: int, outcome: str | None) -> None:
    """Notes that nobody is told that a claim is paid."""
    file.execute("UPDATE claims SET told = ? WHERE id = ?", (CLOSED, claim))
    if outcome is not None:
        _end(file, claim, outcome)


def give_up(file: sqlite3.Connection, pharmacy: str, key: str, code: str) -> None:
    """Notes that a caller is rejected with a code. Where the answer is there it is told instead; where nobody is there any more it is not. Who
    had the number before, and no answer yet, is told of it no more than anybody else."""
    row = file.execute(_ROW, (pharmacy, key)).fetchone()
    if row is None or (row[4] == TOLD and (row[3] is not None or not code)):
        return
    file.execute("UPDATE claims SET told = ? WHERE id = ? AND told = ?", (UNTOLD, row[0], TOLD))
    if row[3] is not None and code:
        tell(file, pharmacy, key, row[3])
        if file.execute(_ROW, (pharmacy, key)).fetchone()[4] == TOLD:
            return
    _open(file, row[0], code, 1 if code else 0)


def adopt(file: sqlite3.Connection, pharmacy: str, grace: float) -> None:
    """Gives up what the callers of a front that has ended were not told of: they have so long again to come back. So have those who may not
    have heard what they were told last."""
    text = """UPDATE claims SET told_at = ? WHERE pharmacy = ?
        AND told_at >= (SELECT max(told_at) FROM claims WHERE pharmacy = ?) - ?"""
    file.execute(text, (time.time(), pharmacy, pharmacy, grace))
    text = f"SELECT id FROM claims WHERE pharmacy = ? AND told = {UNTOLD}"
    for (claim,) in file.execute(text, (pharmacy,)).fetchall():
        _open(file, claim, "", 0)


def due(file: sqlite3.Connection, pharmacy: str, grace: float) -> tuple[list[str], list[tuple[int | None, str]]]:
    """What was answered and told to nobody so long ago, and whom nobody asks for: payments get a reversal, whose keys come back; the rest
    is closed, and what it came to."""
    now = time.time()
    text = f"""SELECT c.id, c.number, c.request, c.answer FROM claims c LEFT JOIN given_up g ON g.claim = c.id
        WHERE c.pharmacy = ? AND c.told = {UNTOLD} AND c.answer IS NOT NULL AND max(c.answered, coalesce(g.last, 0)) <= ?"""
    rows = file.execute(text, (pharmacy, now - grace)).fetchall()
    text = """SELECT c.id, c.number, c.request, c.answer FROM given_up g JOIN claims c ON c.id = g.claim
        WHERE c.pharmacy = ? AND g.outcome = ? AND g.ended <= ?"""
    rows += file.execute(text, (pharmacy, WAS_REFUSED, now - AGAIN_SECONDS)).fetchall()
    keys, ended = [], []
    for claim, number, request, answer in rows:
        key, outcome = _take_back(file, pharmacy, claim, request, answer)
        keys += [key] if key else []
        ended += [(number, outcome)] if outcome else []
    return keys, ended


def _take_back(
    file: sqlite3.Connection, pharmacy: str, claim: int, request: bytes, answer: bytes
) -> tuple[str | None, str | None]:
    """The key of the reversal of what a claim was paid and what stands; or the outcome, where nothing is to be reversed; or neither, where a
    message of the fill is open."""
    rulings = rulings_of(answer)
    fates = {it: fate_of(file, pharmacy, rulings[it].authorization) for it in _paid_places(rulings)}
    standing = [place for place, fate in fates.items() if fate not in (REVERSED, TOLD_OF)]
    if not standing:
        outcome = _outcome_without_payment(request, rulings, set(fates.values()))
        _open(file, claim, "", 0)
        _close(file, claim, outcome)
        return None, outcome
    touched = [it for it in touches_of(request) if it.place in standing]
    if blocking(file, pharmacy, touched, claim) is not None:
        return None, None
    key = f"reverses-{secrets.token_urlsafe(16)}"
    message = reversal_of(request, standing)
    text = "INSERT INTO claims (pharmacy, key, digest, request, entered, told) VALUES (?, ?, ?, ?, ?, ?)"
    row = file.execute(text, (pharmacy, key, digest_of(message), message, time.time(), TOLD)).lastrowid
    assert row is not None
    touch(file, pharmacy, row, touches_of(message))
    for place in standing:
        _set_fate(file, pharmacy, rulings[place].authorization, REVERSING)
    _open(file, claim, "", 0)
    _close(file, claim, None)
    text = "UPDATE given_up SET reversal = ?, tries = tries + 1, outcome = NULL, ended = NULL WHERE claim = ?"
    file.execute(text, (key, claim))
    return key, None


def _paid_places(rulings: list[Ruling]) -> list[int]:
    return [place for place, it in enumerate(rulings) if it.status == PAID]


def _outcome_without_payment(request: bytes, rulings: list[Ruling], fates: set[str | None]) -> str:
    """What a claim came to of which nothing is to be reversed."""
    if TOLD_OF in fates:
        return TOLD_LATER
    if REVERSED in fates:
        return BY_PHARMACY
    if any(it.status == DUPLICATE for it in rulings):
        return WAS_DUPLICATE
    if code_of(request) == REVERSAL and any(it.status in TAKEN_BACK for it in rulings):
        return WAS_APPROVED
    return WAS_REJECTED
