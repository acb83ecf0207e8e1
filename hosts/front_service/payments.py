"""Payments over HTTP: those that the answers seen by the front name, as pages, totals and CSV."""

from __future__ import annotations

import csv
import io

from aiohttp import web

from . import asked
from .rulings import NAMES, Filter, Rulings

MOST_CSV_ROWS = 1_000_000


class Payments:
    """The handlers."""

    def __init__(self, rulings: Rulings) -> None:
        self._rulings = rulings

    def add_to(self, app: web.Application) -> None:
        for head in ("", "/pharmacies/{pharmacy}"):
            app.router.add_get(f"{head}/payments", self.page)
            app.router.add_get(f"{head}/totals", self.totals)

    def _filter(self, request: web.Request) -> Filter:
        payer = asked.whole(request, "payer", 1, 9999) if "payer" in request.query else None
        state = asked.one_of(request, "state", "standing", "reversed")
        return Filter(asked.pharmacies(request), asked.day(request, "from"), asked.day(request, "to"), payer, state)

    async def page(self, request: web.Request) -> web.Response:
        """A page of payments; as CSV all of them."""
        which = self._filter(request)
        page, size = asked.whole(request, "page", 1, 10**6), asked.whole(request, "size", asked.PAGE, asked.MOST_PAGE)
        if "text/csv" in request.headers.get("Accept", "") or request.query.get("format") == "csv":
            rows = await self._rulings.payments(which, 1, MOST_CSV_ROWS)
            written = io.StringIO()
            table = csv.DictWriter(written, NAMES, lineterminator="\n")
            table.writeheader()
            table.writerows(rows)
            headers = {"Content-Disposition": 'attachment; filename="payments.csv"', "Cache-Control": "no-store"}
            return web.Response(text=written.getvalue(), content_type="text/csv", headers=headers)
        rows = (
            await self._rulings.payments(which, page, size + 1) if page == 1 else await self._later(which, page, size)
        )
        totals = (await self._rulings.totals(which, ""))[0]
        return web.json_response(
            {"page": page, "size": size, "more": len(rows) > size, "totals": totals, "payments": rows[:size]}
        )

    async def _later(self, which: Filter, page: int, size: int) -> list[dict[str, object]]:
        """A later page, and one more row where there is one."""
        rows = await self._rulings.payments(which, page, size)
        return rows + (await self._rulings.payments(which, page * size + 1, 1) if len(rows) == size else [])

    async def totals(self, request: web.Request) -> web.Response:
        """Counts and cents by payer, pharmacy or day."""
        by = asked.one_of(request, "by", "payer", "pharmacy", "day")
        return web.json_response({"by": by or "all", "totals": await self._rulings.totals(self._filter(request), by)})
