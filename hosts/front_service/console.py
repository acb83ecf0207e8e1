"""The console: pages for people, and what only the operator's token sees: the network, the audit, a claim's steps."""

from __future__ import annotations

import asyncio
import pathlib
import re
from collections.abc import Callable
from typing import Any

import aiohttp
from aiohttp import web

from . import asked, steps
from .audits import Audits, told
from .problems import Problem
from .tokens import OPERATOR

PAGES = pathlib.Path(__file__).resolve().parent / "pages"
TYPES = {".html": "text/html", ".css": "text/css", ".js": "text/javascript", ".svg": "image/svg+xml"}
WATCH_SECONDS = 2.0
MOST_METRICS_BYTES = 1 << 20
# How many nodes are asked at once, and for so long the last answer is told again: an open page asks each two seconds.
ASKED_AT_ONCE = 32
KEPT_SECONDS = 1.0
# Nothing comes from outside, nothing runs that is written into a page, and no other page may show these.
HEADERS = {
    "Content-Security-Policy": "default-src 'self'; img-src 'self' data: blob:; frame-ancestors 'none'; base-uri 'none'; form-action 'none'",
    "X-Content-Type-Options": "nosniff",
    "Referrer-Policy": "no-referrer",
}
FRESH = {"Cache-Control": "no-store"}
_METRIC = re.compile(r"^vogrilas_(\w+?)(\{[^}]*\})? ([0-9]+(?:\.[0-9]+)?(?:e[+-]?[0-9]{1,2})?)$", re.MULTILINE)
NAMES = {
    "ready": "ready", "connected": "connected", "open": "open_entries", "oldest_seconds": "oldest_open_entry_seconds",
    "rows": "rows", "rows_most": "rows_most", "calls": "log_calls", "log_bytes": "log_bytes", "waiting": "waiting_calls",
    "sent": "packets_sent_total", "refusals": "refusals_total", "sent_again": "packets_sent_again_total",
}  # fmt: skip


class Console:
    """The handlers."""

    def __init__(self, audits: Audits, watched: Callable[[], dict[str, str]]) -> None:
        self._audits, self._watched = audits, watched
        self._asking = asyncio.Lock()
        self._seen: tuple[float, list[dict[str, Any]]] | None = None

    def add_to(self, app: web.Application) -> None:
        app.router.add_get("/", self.page)
        app.router.add_get("/pages/{name}", self.page)
        app.router.add_get("/network", self.network)
        app.router.add_get("/audit", self.audit)
        app.router.add_get("/pharmacies/{pharmacy}/claims/{number}/steps", self.steps)
        app.router.add_get("/who", self.who)

    async def page(self, request: web.Request) -> web.Response:
        """A file of the console. It has no health data, and wants no token."""
        return page(request.match_info.get("name", "console.html"))

    async def who(self, request: web.Request) -> web.Response:
        """What the caller's token is for: which pharmacies it reads, and of which it enters claims."""
        names, seen = asked.who(request), asked.pharmacies(request)
        enters = [name for name in seen if name in names]
        return web.json_response({"operator": OPERATOR in names, "pharmacies": seen, "enters": enters})

    async def network(self, request: web.Request) -> web.Response:
        """Each node at a glance, as its host tells it by --watch."""
        asked.expect_operator(request)
        nodes = await self._nodes()
        callers = {name: it.is_connected for name, it in request.app["pharmacies"].items()}
        is_settled = request.app["health"].is_settled()
        told = {"nodes": nodes, "callers": callers, "is_watched": bool(nodes), "is_settled": is_settled}
        return web.json_response(told, headers=FRESH)

    async def _nodes(self) -> list[dict[str, Any]]:
        """What each node tells, or told a moment ago."""
        async with self._asking:
            now = asyncio.get_running_loop().time()
            if self._seen is not None and now - self._seen[0] < KEPT_SECONDS:
                return self._seen[1]
            limits = aiohttp.TCPConnector(limit=ASKED_AT_ONCE)
            timeout = aiohttp.ClientTimeout(total=WATCH_SECONDS)
            async with aiohttp.ClientSession(timeout=timeout, connector=limits) as session:
                asked_for = [_node(session, name, at) for name, at in self._watched().items()]
                nodes: list[dict[str, Any]] = list(await asyncio.gather(*asked_for))
            self._seen = (now, nodes)
            return nodes

    async def audit(self, request: web.Request) -> web.Response:
        """The audit of the logs as they are, or the reason."""
        asked.expect_operator(request)
        return web.json_response(told(await self._audits.audit()), headers=FRESH)

    async def steps(self, request: web.Request) -> web.Response:
        """The steps of a claim through all nodes, as the audited logs tell them."""
        asked.expect_operator(request)
        pharmacy, number = asked.pharmacy(request).name, asked.number(request)
        found = steps.told(await self._audits.steps(pharmacy, number))
        return web.json_response({"pharmacy": pharmacy, "number": number, "steps": found}, headers=FRESH)


async def _node(session: aiohttp.ClientSession, name: str, at: str) -> dict[str, Any]:
    try:
        async with session.get(f"http://{at}/metrics") as response:
            text = (await response.content.read(MOST_METRICS_BYTES)).decode(errors="replace")
    except (aiohttp.ClientError, TimeoutError, OSError):
        return {"node": name, "up": False}
    sums: dict[str, float] = {}
    for metric, _, value in _METRIC.findall(text):
        sums[metric] = sums.get(metric, 0.0) + float(value)
    return {"node": name, "up": True} | {key: sums[metric] for key, metric in NAMES.items() if metric in sums}


def page(name: str) -> web.Response:
    """A file of the folder of pages, by its name alone."""
    path = next((it for it in PAGES.iterdir() if it.name == name and it.suffix in TYPES), None)
    if path is None:
        raise Problem("NotFound")
    return web.Response(
        body=path.read_bytes(),
        content_type=TYPES[path.suffix],
        charset="utf-8",
        headers={**HEADERS, "Cache-Control": "no-cache"},
    )
