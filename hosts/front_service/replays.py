"""The playground: a schedule step by step. What is asked goes to `claimswitch replay`, whose report is shown, and to claimpicture.

Beside a network it wants a token, whosever it is. Two are replayed at once, and a few wait: whoever comes beyond that is told FrontBusy.
"""

from __future__ import annotations

import json
import pathlib

from aiohttp import web

from . import asked
from .audits import draw
from .console import page
from .problems import Problem
from .programs import EXAMPLES, Pool, run

MOST_EVENTS = 2000
MOST_BYTES = 1 << 20
AT_ONCE, WAITING = 2, 16


def parted(text: str) -> tuple[str, list[str]]:
    """The settings of an input, and its events, a line each."""
    settings, divider, schedule = text.partition("\n---\n")
    if not divider:
        raise Problem("BadRequest", "a line that is --- parts settings and events")
    return settings, [line for line in schedule.splitlines() if line and not line.startswith("#")]


class Replays:
    """The handlers; with a file, the schedule of that is where one begins, and the page is the playground's."""

    def __init__(self, name: str | None) -> None:
        self._own = pathlib.Path(name) if name is not None else None
        self._pool = Pool(AT_ONCE, WAITING)

    def add_to(self, app: web.Application) -> None:
        app.router.add_get("/replay/schedules", self.schedules)
        app.router.add_get("/replay/schedules/{name}", self.schedule)
        app.router.add_post("/replay", self.replay)
        if self._own is not None:
            app.router.add_get("/", self.page)
            app.router.add_get("/pages/{name}", self.page)

    async def page(self, request: web.Request) -> web.Response:
        return page(request.match_info.get("name", "replay.html"))

    def _there(self) -> dict[str, pathlib.Path]:
        """The schedules that are there by their names: the file that was named, and the examples."""
        there = {it.stem: it for it in sorted(EXAMPLES.glob("*.txt")) if it.with_suffix(".expected").exists()}
        own = {self._own.stem: self._own} if self._own is not None else {}
        return own | {name: path for name, path in there.items() if name not in own}

    def _expect_caller(self, request: web.Request) -> None:
        """Has the caller have a token, beside a network: what is asked takes a processor."""
        if self._own is None:
            asked.who(request)

    async def schedules(self, request: web.Request) -> web.Response:
        """The names of the schedules."""
        self._expect_caller(request)
        return web.json_response({"schedules": list(self._there()), "is_alone": self._own is not None})

    async def schedule(self, request: web.Request) -> web.Response:
        """A schedule, by its name: settings and events."""
        self._expect_caller(request)
        name = request.match_info["name"]
        path = self._there().get(name)
        if path is None:
            raise Problem("NotFound")
        settings, events = parted(path.read_text(encoding="utf-8"))
        return web.json_response({"name": name, "settings": settings, "events": events})

    async def replay(self, request: web.Request) -> web.Response:
        """The report of claimswitch over these settings and events, and the picture."""
        self._expect_caller(request)
        try:
            given = json.loads(await request.read())
            settings, events = given["settings"], given["events"]
            is_good = (
                isinstance(settings, str)
                and isinstance(events, list)
                and len(events) <= MOST_EVENTS
                and all(isinstance(it, str) and "\n" not in it for it in events)
            )
            text = "\n".join([settings, "---", *events, ""]).encode() if is_good else b""
        except (ValueError, KeyError, TypeError, RecursionError):
            is_good = False
        if not is_good or len(text) > MOST_BYTES:
            raise Problem("BadRequest", f"settings are a text, and events at most {MOST_EVENTS} lines")
        async with self._pool.turn():
            status, report, said = await run("claimswitch", "replay", given=text)
            picture = await self._picture(text)
        lines = report.decode("ascii").splitlines()
        told = {
            "status": status,
            "said": said.decode(errors="replace").strip(),
            "events": lines[: len(events)],
            "nodes": lines[len(events) :],
        }
        return web.json_response(told | {"picture": picture})

    async def _picture(self, text: bytes) -> str:
        try:
            return (await draw(text, "all")).decode("ascii")
        except Problem:
            return ""
