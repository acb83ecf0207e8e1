"""The rows of a payer's book as a feed: each once, in order, from any number on, an object for each transaction. For vogctl.

It asks the host what callers of a payer may ask, `count`, `row N` and `payments N COUNT`, over and over where it follows. A host tells what
is on disk alone, and a row never changes: so what was told once stays so. What a payment was reversed by is as it was when it was read.
"""

import asyncio
import re
from collections.abc import AsyncIterator, Awaitable, Callable
from typing import Any, NamedTuple

# How many rows are asked for at a time.
PAGE = 64
AGAIN_SECONDS = 0.5
# A host that has no room, or that no longer or not yet has its log.
LATER = (None, b"refused Busy")
RULINGS = {"P": "paid", "D": "duplicate", "A": "reversed", "R": "rejected"}
KINDS = {"B1": "billing", "B2": "reversal"}
AMOUNTS = ("cost_cents", "fee_cents", "copay_cents", "paid_cents")
PLACE = re.compile(r"([0-9]+)\.([0-9]+)(?:/([1-4]))? (B[12]) ([PDAR]) (.*)")
# What a book rejects with by itself.
OWN_CODES = frozenset(("07", "15", "16", "17", "21", "E7", "23", "DC", "83", "87"))


class Fault(Exception):
    """The book is not the one that was told of, or the host says what none says."""


class Payment(NamedTuple):
    """A payment of the book, as the node tells it."""

    authorization: str
    amounts: dict[str, int]
    fill: dict[str, str | int]
    reversed_by: str | None


def text_of(printed: str) -> str:
    """A text of fixed width, whose spaces are spelled, without those at its end."""
    return re.sub(r"(?:\\x20)+$", "", printed).replace("\\x20", " ")


def payment_of(line: str) -> Payment:
    word = line.split(" ")
    amounts = dict(zip(AMOUNTS, (int(word[2]), int(word[3]), int(word[4]), int(word[5])), strict=True))
    names = ("bin", "processor_control_number", "provider_qualifier", "provider")
    fill: dict[str, str | int] = dict(zip(names, map(text_of, word[6:10]), strict=True))
    fill |= {"prescription": int(word[10]), "fill": int(word[11])}
    return Payment(word[1], amounts, fill, word[13] if len(word) > 12 else None)


class Feed:
    """A payer's book, as its host tells it. `asks` says what the payer asks its own system about, or nothing, where that is known."""

    def __init__(self, payer: str, ask: Callable[[bytes], Awaitable[bytes | None]], asks: str | None = None) -> None:
        self._payer, self._ask, self._asks = int(payer[2:]), ask, asks
        self._first_serial = 0

    async def _told(self, line: str) -> list[str]:
        """The lines that the host says to a question. It is asked again for as long as there is none that answers."""
        while (reply := await self._ask(line.encode())) in LATER:
            await asyncio.sleep(AGAIN_SECONDS)
        text = reply.decode() if reply is not None else ""
        if text.startswith("refused "):
            raise Fault(f"the host of pr{self._payer} says {text} to {line}")
        return text.split("\n")

    async def count(self) -> int:
        return int((await self._told("count"))[0].removeprefix("count "))

    async def _payments(self, first: int, count: int) -> list[Payment]:
        lines = await self._told(f"payments {first} {count}")
        return [payment_of(line) for line in lines if line.startswith("payment ")]

    async def _named(self, authorizations: set[str]) -> dict[str, Payment]:
        """The payments of these authorizations. Serials follow one another, so each tells which payment of the book it is."""
        if authorizations and not self._first_serial:
            self._first_serial = int((await self._payments(1, 1))[0].authorization[4:])
        places = sorted(int(it[4:]) - self._first_serial + 1 for it in authorizations)
        found: dict[str, Payment] = {}
        while places:
            # Those that stand near one another are asked for together.
            near = [it for it in places if it < places[0] + 4 * PAGE]
            places = places[len(near) :]
            listed = await self._payments(near[0], near[-1] - near[0] + 1)
            found |= {it.authorization: it for it in listed}
        if not authorizations <= found.keys():
            raise Fault(f"the book of pr{self._payer} does not tell a payment that a row of it names")
        return found

    async def page(self, first: int, last: int) -> list[list[dict[str, Any]]]:
        """The rows of these numbers, each a list of its transactions."""
        told = await asyncio.gather(*(self._told(f"row {number}") for number in range(first, last + 1)))
        rows = [[PLACE.fullmatch(line) for line in lines if line != "end"] for lines in told]
        if any(not row or None in row for row in rows):
            raise Fault(f"the host of pr{self._payer} tells a row as none is told")
        places = [[it.groups("1") for it in row if it is not None] for row in rows]
        named = {place[5].split(" ")[0] for row in places for place in row if place[4] != "R"}
        payments = await self._named(named)
        return [[self._object(first + at, place, payments) for place in row] for at, row in enumerate(places)]

    def _object(self, row: int, place: tuple[str, ...], payments: dict[str, Payment]) -> dict[str, Any]:
        pharmacy, number, transaction, code, letter, rest = place
        words = rest.split(" ")
        told: dict[str, Any] = {"row": row, "payer": self._payer, "pharmacy": int(pharmacy), "number": int(number)}
        told |= {"transaction": int(transaction), "kind": KINDS[code], "ruling": RULINGS[letter]}
        codes = words[0].split(",") if letter == "R" else []
        told |= {"reject_codes": codes, "authorization": None if codes else words[0]}
        if not codes:
            payment = payments[words[0]]
            told |= payment.amounts | payment.fill
            told["reversed_by"] = payment.reversed_by if letter == "P" else None
        total = told.get("paid_cents", 0)
        told["cents"] = total if letter == "P" else -total if letter == "A" else 0
        by = self._by(letter, codes)
        return told | {"by": by} if by else told

    def _by(self, letter: str, codes: list[str]) -> str | None:
        """What has ruled a place, where that is known and it is not the book itself."""
        if self._asks is None:
            return None
        if letter == "P" or not OWN_CODES.issuperset(codes):
            return "advice" if self._asks else "plan"
        return "advice" if letter == "A" and self._asks == "all" else None

    async def rows(self, first: int, every: float | None) -> AsyncIterator[list[dict[str, Any]]]:
        """Each row from a number on, as a list of its transactions; all that there are, or with a number of seconds those that come too."""
        while True:
            count = await self.count()
            if count < first - 1:
                raise Fault(
                    f"the book of pr{self._payer} has {count} rows, and those before row {first} were told: it is another book"
                )
            while first <= count:
                for row in await self.page(first, min(count, first + PAGE - 1)):
                    yield row
                    first += 1
            if every is None:
                return
            await asyncio.sleep(every)
