"""Claims that people look for, over HTTP: by number, prescription, date of service, cardholder, amount, payer and state, the newest first; and the
numbers of claims of all pharmacies as they are answered."""

from __future__ import annotations

import asyncio
import json
import re
from typing import Any

from aiohttp import web

from . import asked, events
from .claims import where
from .helpers import Renewed
from .problems import Problem
from .programs import Pool, words_of
from .receipts import Receipts
from .rulings import Rulings

STATES = ("open", "answered", "paid", "duplicate", "rejected", "reversed")
# How many who ask for claims may wait for one another.
WAITING = 64
# Events that wait for a caller who does not read, and how often one hears that the front is there.
MOST_EVENTS = 1024
ALIVE_SECONDS = 2.0
_DOLLARS = re.compile(r"([0-9]{1,6})(?:\.([0-9]{2}))?")
_PRESCRIPTION = re.compile(r"[!-~]{1,20}")
_LAST = re.compile(r"[!-~]{1,4}")


class Found:
    """The handlers."""

    def __init__(self, receipts: Receipts, rulings: Rulings) -> None:
        self._rulings = rulings
        self._pool = Pool(1, WAITING)
        name = receipts.name
        self._finder = Renewed("finding.py", name, f"{name}.index", *words_of("claimdecode"))

    def add_to(self, app: web.Application) -> None:
        for head in ("", "/pharmacies/{pharmacy}"):
            app.router.add_get(f"{head}/claims", self.several)
        app.router.add_get("/events", self.events)

    def close(self) -> None:
        self._finder.kill()

    async def several(self, request: web.Request) -> web.Response:
        """A page of claims, the newest first."""
        names, given = asked.pharmacies(request), self._given(request)
        page, size = asked.whole(request, "page", 1, 10**6), asked.whole(request, "size", asked.PAGE, asked.MOST_PAGE)
        if not names:
            return web.json_response({"page": page, "size": size, "more": False, "claims": []})
        async with self._pool.turn():
            await self._rulings.catch_up()
            rows, has_more = await self._finder.ask("find", names, given, page, size)
        told = {"page": page, "size": size, "more": has_more, "claims": [told_of(row) for row in rows]}
        return web.json_response(told, headers={"Cache-Control": "no-store"})

    def _given(self, request: web.Request) -> dict[str, Any]:
        """What is asked for."""
        found: dict[str, Any] = {
            "state": asked.one_of(request, "state", *STATES),
            "from": asked.day(request, "from"),
            "to": asked.day(request, "to"),
            "prescription": _text(request, "prescription", _PRESCRIPTION, "of 1 to 20 letters").lstrip("0"),
            "cardholder": _text(request, "cardholder", _LAST, "the last four letters at most"),
            "amount": _cents(_text(request, "amount", _DOLLARS, "dollars, as 47.20")),
        }
        for name, most in (("number", 10**9 - 1), ("payer", 9999)):
            found[name] = asked.whole(request, name, 1, most) if request.query.get(name) else ""
        return {name: value for name, value in found.items() if value not in ("", None)}

    async def events(self, request: web.Request) -> web.StreamResponse:
        """Tells the claims of all pharmacies that the caller may see as their answers come, and that the front is there."""
        seen = [request.app["pharmacies"][name] for name in asked.pharmacies(request)]
        heard: asyncio.Queue[tuple[str, int]] = asyncio.Queue(MOST_EVENTS)
        listeners = [Listener(it.name, heard) for it in seen]
        for pharmacy, listener in zip(seen, listeners):
            pharmacy.listeners.add(listener)
        try:
            return await events.tell(request, heard, _answered, ALIVE_SECONDS)
        finally:
            for pharmacy, listener in zip(seen, listeners):
                pharmacy.listeners.discard(listener)


class Listener(asyncio.Queue[int]):
    """What a pharmacy tells its numbers: they go on with its name."""

    def __init__(self, name: str, heard: asyncio.Queue[tuple[str, int]]) -> None:
        super().__init__()
        self._told, self._heard = name, heard

    def put_nowait(self, item: int) -> None:
        self._heard.put_nowait((self._told, item))


def _answered(heard: tuple[str, int]) -> str:
    """The event of an answer: whose, and of which number."""
    name, number = heard
    told = json.dumps({"pharmacy": name, "number": number, "location": where(name, number)})
    return f"event: answered\ndata: {told}\n\n"


def told_of(row: dict[str, Any]) -> dict[str, Any]:
    """A claim of a list, for a caller."""
    transactions = [
        {
            "transaction": it["place"], "order": {"B1": "billing", "B2": "reversal"}.get(it["code"]), "date_of_service": it["day"],
            "prescription": it["prescription"], "fill": it.get("fill"), "cardholder_last_four": it.get("cardholder"), "product": it.get("product"),
            "quantity_thousandths": it.get("quantity"), "submitted_cents": _sum(it.get("cost"), it.get("fee")), "ruling": it.get("ruling"),
            "reject_codes": it.get("reject_codes"), "payer": it.get("payer"), "authorization": it.get("authorization"),
            "paid_cents": it.get("total"), "copay_cents": it.get("copay"), "reversed_by": it.get("reversed_by"),
        }
        for it in row["transactions"]
    ]  # fmt: skip
    return {
        "pharmacy": row["pharmacy"], "number": row["number"], "key": row["key"], "state": "open" if row["is_open"] else "answered",
        "entered": asked.stamp(row["entered"]), "answered": asked.stamp(row["answered"]),
        "location": where(row["pharmacy"], row["number"]), "transactions": transactions,
    }  # fmt: skip


def _sum(cost: int | None, fee: int | None) -> int | None:
    return None if cost is None else cost + (fee or 0)


def _text(request: web.Request, name: str, form: re.Pattern[str], says: str) -> str:
    text = request.query.get(name, "").strip()
    if text and not form.fullmatch(text):
        raise Problem("BadRequest", f"{name} is {says}")
    return text


def _cents(dollars: str) -> int | None:
    """Cents of dollars as people write them."""
    found = _DOLLARS.fullmatch(dollars)
    return int(found[1]) * 100 + int(found[2] or 0) if found else None
