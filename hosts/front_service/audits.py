"""Audits of the logs of running nodes, and the steps of one claim among what they tell: by claimaudit. Pictures of schedules: by claimpicture."""

from __future__ import annotations

import asyncio
import os
import pathlib
import re
import shutil
import tempfile
import time
from typing import Any, NamedTuple

from .logs import place_of
from .problems import Problem
from .programs import Pool, run
from .settled import Settled
from .steps import Step, steps_of

# A reason that a copy of a running node's log may give: what a call takes was sent after the sender's log was copied.
_LATE = re.compile(r"^(pharmacy|switch|payer) (\d+) call (\d+): .*(was sent by nobody|is sent by a later call alone)$")
_SHORT = {"pharmacy": "ph", "switch": "sw", "payer": "pr"}
# For so long an audit is told again and not made again.
KEPT_SECONDS = 2.0
# One audit at a time; of pictures, and of people who wait for either, so many.
WAITING = 16
OTHER_SETTINGS = "is of other settings"


class Audit(NamedTuple):
    """What an audit told; the tables are the schedule of the run, its packets and its calls, where they were asked for; `made` are the switches
    that have no log, and whose calls the audit has made."""

    is_legal: bool
    text: str
    left_out: dict[str, int]
    seconds: float
    tables: tuple[str, str, str] | None
    made: tuple[str, ...] = ()


class Audits:
    """The logs of a folder, and the last audit of them."""

    def __init__(self, settled: Settled, folder: str | None) -> None:
        self._settled, self._folder = settled, folder
        self._pool = Pool(1, WAITING)
        self._last: tuple[float, bytes, Audit] | None = None

    async def audit(self, has_tables: bool = False, most_age: float = KEPT_SECONDS) -> Audit:
        """The audit of the logs as they are, or were so many seconds ago. Nodes run meanwhile: what a log took after the copying began may
        be left out, as after a crash at that moment, and how much is told. What stood in a log before is never left out: its sender's log
        had it by then. Where a log is of other settings nothing is judged, and nothing is said of the run."""
        if self._folder is None:
            raise Problem("NoAudit", "the front was started without --logs")
        async with self._pool.turn():
            settings = self._settled.text
            if self._last is not None and self._last[1] == settings:
                made, _, last = self._last
                if time.monotonic() - made < most_age and (last.tables or not has_tables):
                    return last
            started = time.monotonic()
            with tempfile.TemporaryDirectory(prefix="front-audit-") as work:
                audit = await self._audit(pathlib.Path(work), pathlib.Path(self._folder), settings, has_tables)
            self._last = (started, settings, audit)
            return audit

    async def _audit(self, work: pathlib.Path, folder: pathlib.Path, settings: bytes, has_tables: bool) -> Audit:
        started, network = time.monotonic(), self._settled.settings
        (work / "settings.toml").write_bytes(settings)
        before = await asyncio.to_thread(copy, folder, work, network.nodes())
        words = [str(work / "settings.toml"), *(str(work / f"{node}.log") for node in before)]
        lacking = [node for node in network.keepers() if node not in before]
        if lacking:
            # Where those that are there are of other settings, that one is to come.
            _, _, said = await run("claimaudit", *words)
            name = "SettingsChanged" if OTHER_SETTINGS.encode() in said else "NoAudit"
            raise Problem(name, f"there is no log of {', '.join(lacking[:8])}")
        status, told, said = await run("claimaudit", *words)
        left_out = {}
        if status == 1 and (cuts := _cuts(told.decode("ascii"), work, before)):
            for node, (place, calls) in cuts.items():
                os.truncate(work / f"{node}.log", place)
                left_out[node] = calls
            status, told, said = await run("claimaudit", *words)
        text = (told.decode("ascii") + said.decode(errors="replace")).replace(f"{work}/", "")
        if status not in (0, 1):
            name = "SettingsChanged" if OTHER_SETTINGS in text or self._settled.is_changed() else "NoAudit"
            raise Problem(name, text.strip().rpartition("\n")[2][:300])
        tables = None
        if status == 0 and has_tables:
            asked = (["--schedule"], ["--csv", "packets"], ["--calls"])
            found = [it[1].decode() for it in await asyncio.gather(*(run("claimaudit", *it, *words) for it in asked))]
            tables = (found[0], found[1], found[2])
        made = tuple(node for node in network.nodes() if node not in before)
        return Audit(status == 0, text, left_out, time.monotonic() - started, tables, made)

    async def steps(self, pharmacy: str, number: int) -> list[Step]:
        """The steps of one claim, and of no other."""
        for most_age in (KEPT_SECONDS, 0.0):
            audit = await self.audit(has_tables=True, most_age=most_age)
            if audit.tables is None:
                raise Problem(
                    "NoAudit", "the logs are not those of one legal run, so that nothing can be told of a claim"
                )
            steps = await asyncio.to_thread(steps_of, *audit.tables, pharmacy, number, audit.made)
            if steps:
                return steps
        raise Problem("NoSuchClaim", "the logs have no packet of it")


def copy(folder: pathlib.Path, work: pathlib.Path, nodes: list[str]) -> dict[str, int]:
    """Copies all logs that are there, with those that were closed; how long each was before the first was copied."""
    logs = {node: folder / f"{node}.log" for node in nodes}
    before = {node: log.stat().st_size for node, log in logs.items() if log.exists()}
    for node in before:
        for closed in _closed(logs[node]):
            # What was closed does not change any more: another name is as good as a copy.
            try:
                os.link(closed, work / closed.name)
            except OSError:
                shutil.copyfile(closed, work / closed.name)
        shutil.copyfile(logs[node], work / f"{node}.log")
    return before


def _closed(log: pathlib.Path) -> list[pathlib.Path]:
    return [it for it in log.parent.glob(f"{log.name}.*") if it.name.removeprefix(f"{log.name}.").isdigit()]


def _cuts(told: str, work: pathlib.Path, before: dict[str, int]) -> dict[str, tuple[int, int]]:
    """Where logs are cut, and how many calls that leaves out; nothing where a reason is no late one, or a log goes on behind a closed one."""
    cuts = {}
    for line in told.partition("no legal run\n")[2].splitlines():
        found = _LATE.match(line)
        if found is None:
            return {}
        node = _SHORT[found[1]] + found[2]
        log = work / f"{node}.log"
        place = place_of(log.read_bytes(), int(found[3]))
        if place < before[node] or _closed(log):
            return {}
        counted = re.search(rf"^{found[1]} {found[2]} calls (\d+)", told, re.MULTILINE)
        cuts[node] = (place, int(counted[1]) - int(found[3]) + 1 if counted else 0)
    return cuts


async def draw(schedule: bytes, part: str = "") -> bytes:
    """The picture of a schedule, or of a part of its events."""
    status, picture, said = await run("claimpicture", *([part] if part else []), given=schedule)
    if status:
        raise Problem("NoAudit", f"claimpicture: {said.decode(errors='replace')[:200]}")
    return picture


def told(audit: Audit) -> dict[str, Any]:
    """An audit, for a caller."""
    return {
        "legal": audit.is_legal,
        "text": audit.text,
        "left_out": audit.left_out,
        "seconds": round(audit.seconds, 3),
        "events": _events(audit.text),
    }


def _events(text: str) -> int:
    found = re.search(r"^one legal run of (\d+) events", text, re.MULTILINE)
    return int(found[1]) if found else 0
