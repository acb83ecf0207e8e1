"""What answers say: rulings, payments, totals, as claimdecode reads them."""

from __future__ import annotations

import asyncio
from typing import Any

from .helpers import Renewed
from .programs import words_of
from .receipts import Receipts

# How often it is looked whether there are answers that nobody has read.
LOOK_SECONDS = 1.0
# A payment that a pharmacy counts: an authorization that a paid (else duplicate) answer names. Reversed is what an answer names so.
_PAYMENTS = """
    FROM (SELECT pharmacy, authorization, min((ruling <> 'paid') * 100000000000 + number * 10 + place) AS place FROM rulings
          WHERE ruling IN ('paid', 'duplicate') AND pharmacy IN ({pharmacies}) GROUP BY pharmacy, authorization) AS first
    JOIN rulings AS r ON r.pharmacy = first.pharmacy AND r.number = first.place % 100000000000 / 10 AND r.place = first.place % 10
    LEFT JOIN (SELECT pharmacy, authorization, min(number) AS number FROM rulings
               WHERE ruling = 'reversed' GROUP BY pharmacy, authorization) AS back
        ON back.pharmacy = r.pharmacy AND back.authorization = r.authorization
    WHERE {conditions}"""
_COLUMNS = """r.pharmacy, r.number, r.place AS "transaction", r.day AS date_of_service, r.payer, r.authorization, r.prescription,
    r.cost AS cost_cents, r.fee AS fee_cents, r.copay AS copay_cents, r.total AS paid_cents,
    CASE WHEN back.number IS NULL THEN 'standing' ELSE 'reversed' END AS state, back.number AS reversed_by"""

NAMES = (
    "pharmacy", "number", "transaction", "date_of_service", "payer", "authorization", "prescription", "cost_cents", "fee_cents",
    "copay_cents", "paid_cents", "state", "reversed_by",
)  # fmt: skip


class Filter:
    """Which payments are meant."""

    def __init__(
        self, pharmacies: list[str], first: str = "", last: str = "", payer: int | None = None, state: str = ""
    ) -> None:
        self._values: list[object] = [*pharmacies]
        conditions = ["1"]
        for condition, value in (("r.day >= ?", first), ("r.day <= ?", last), ("r.payer = ?", payer)):
            if value not in ("", None):
                conditions.append(condition)
                self._values.append(value)
        if state:
            conditions.append("back.number IS NULL" if state == "standing" else "back.number IS NOT NULL")
        self._text = _PAYMENTS.format(pharmacies=", ".join("?" * len(pharmacies)), conditions=" AND ".join(conditions))

    def ask(self, columns: str, more: str = "", *values: object) -> tuple[str, list[object]]:
        return f"SELECT {columns} {self._text} {more}", [*self._values, *values]


class Rulings:
    """The rulings of all answers that the front has seen."""

    def __init__(self, receipts: Receipts) -> None:
        self._receipts = receipts
        self._reader = Renewed("reading.py", receipts.name, *words_of("claimdecode"))
        self._reading = asyncio.Lock()

    async def read_for_ever(self) -> None:
        while True:
            await self.catch_up()
            await asyncio.sleep(LOOK_SECONDS)

    def close(self) -> None:
        self._reader.kill()

    async def catch_up(self) -> None:
        """Reads all answers that are not read yet."""
        async with self._reading:
            while True:
                ruled, rows = await self._reader.ask("unread")
                if not ruled:
                    return
                await self._receipts.write_rulings(ruled, rows)

    async def payments(self, which: Filter, page: int, size: int) -> list[dict[str, Any]]:
        """A page of payments, in the order of their entries."""
        await self.catch_up()
        text, values = which.ask(
            _COLUMNS, "ORDER BY r.pharmacy, r.number, r.place LIMIT ? OFFSET ?", size, (page - 1) * size
        )
        return [dict(row) for row in await self._receipts.rows(text, *values)]

    async def totals(self, which: Filter, by: str) -> list[dict[str, Any]]:
        """Counts and cents by payer, pharmacy or day; with no such word of all."""
        await self.catch_up()
        columns = {"payer": "r.payer AS payer", "pharmacy": "r.pharmacy AS pharmacy", "day": "r.day AS day"}
        sums = "count(*) AS payments, coalesce(sum(CASE WHEN back.number IS NULL THEN r.total ELSE 0 END), 0) AS standing_cents, "
        sums += "count(back.number) AS reversed, coalesce(sum(CASE WHEN back.number IS NOT NULL THEN r.total ELSE 0 END), 0) AS reversed_cents"
        text, values = which.ask(f"{columns[by]}, {sums}" if by else sums, "GROUP BY 1 ORDER BY 1" if by else "")
        return [dict(row) for row in await self._receipts.rows(text, *values)]
