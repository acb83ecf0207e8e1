"""hosts/torture --replicated: nodes whose logs are in streams of three servers, with two candidates each, all of them tormented.

Hosts are killed, stopped, and woken; they die by themselves behind the servers' word, behind the file, behind what was said, and between
the parts of a record; packets are lost, doubled and late; machines lose their disks while another has the log; servers are killed, one or all
at once, stopped, and lose their stores while the other two are current; logs are moved. In the end nothing dies any more, and all has to settle. A
host that refuses its log fails the run, and so does a log that cannot be read to its end. Of a switch both processes serve at once, and keep
nothing, but with --switch-logs."""

from __future__ import annotations

import argparse
import asyncio
import contextlib
import json
import os
import re
import shutil
import signal
import sys
import tempfile
from typing import Any

import local_servers
import logs
import nats
import subjects
from judged import NODES, REFUSED, Caller, Failed, Operator, Tries, first, host_of, judge

MACHINES = ("a", "b")
OVERTAKEN = 75
# How long what is left alone may take; where a wrong host has spoiled a log, nobody goes on.
SETTLE_SECONDS, SETTLE_SECONDS_OF_WRONG = 240, 60
TICK_SECONDS = 0.2
# Of a thousand moments at which a host may die it dies at so many; a wrong one at more, so that it is soon found on a busy machine too.
DEATHS, DEATHS_OF_WRONG = 3, 20
# One machine sends its records in parts of so many bytes.
PART_BYTES = 200


class Watchful(Caller):
    """A caller who also minds that what was told is never taken back."""

    async def ask(self) -> None:
        if not self.told:
            return
        number = self._run.dice.choice(list(self.told))
        had_answer = number in self.answers
        reply = await self._connection.request(f"claims.ph{self._pharmacy}.call", b"answer %d" % number, 1)
        if reply == b"none" or (reply == b"open" and had_answer):
            raise Failed(f"pharmacy {self._pharmacy} had told of {number}, and says {reply.decode()}")
        if reply and reply.startswith(b"answer ") and self.answers.setdefault(number, reply) != reply:
            raise Failed(f"pharmacy {self._pharmacy} told two answers to {number}")


class Candidate:
    """A host of a node on a machine, through all of its lives."""

    def __init__(self, run: Run, name: str, machine: str) -> None:
        self.run, self.name, self.machine = run, name, machine
        self.folder = run.folder / machine / name
        self.folder.mkdir(parents=True)
        self.log, self.said = self.folder / f"{name}.log", run.folder / f"{machine}.{name}.said"
        self.process: asyncio.subprocess.Process | None = None
        self.is_stopped = self.loses_disk = False

    def words(self) -> list[str]:
        words = [self.run.host, str(self.run.settings), self.name]
        about = ["--nats", self.run.servers.url, "--tick", str(TICK_SECONDS)]
        if self.name not in self.run.keepers:
            return words + about
        words += [str(self.log), "--log", "stream", "--machine", self.machine, *about]
        words += ["--copies", str(self.run.given.copies)]
        return words + ["--part", str(PART_BYTES)] * (self.machine == MACHINES[-1])

    async def live(self) -> None:
        """Starts the host again and again."""
        deaths = DEATHS_OF_WRONG if self.run.given.wrong else DEATHS
        environment = os.environ | {"TORMENT": str(deaths), "TORMENT_CALM": str(self.run.calm_file)}
        while not self.run.over:
            if self.loses_disk:
                shutil.rmtree(self.folder)
                self.folder.mkdir()
                self.loses_disk = False
            with open(self.said, "ab") as said:
                self.process = await asyncio.create_subprocess_exec(
                    *self.words(), stdout=said, stderr=said, env=environment
                )
            status = await self.process.wait()
            if status == REFUSED:
                raise Failed(f"{self.name} on {self.machine} is refused: {self.last_word()}")
            self.run.count({OVERTAKEN: "overtaken", -9: "deaths"}.get(status, f"status {status}"))
            await asyncio.sleep(0.05)

    def last_word(self) -> str:
        return self.said.read_text(errors="replace").strip().rpartition("\n")[2]

    def is_vouched(self) -> bool:
        """Whether this machine knows the log's end, so that another may lose its disk."""
        try:
            return (self.folder / f"{self.name}.log.seen").read_text().split()[-1] == "1"
        except (OSError, IndexError):
            return False

    def send(self, number: int) -> None:
        if self.process and self.process.returncode is None:
            with contextlib.suppress(ProcessLookupError):
                self.process.send_signal(number)

    def kill(self) -> None:
        self.run.count("kills")
        self.send(signal.SIGKILL)

    async def pause(self, seconds: float) -> None:
        """Stops the host, and wakes it up."""
        self.run.count("stops")
        self.is_stopped = True
        self.send(signal.SIGSTOP)
        await asyncio.sleep(seconds)
        self.send(signal.SIGCONT)
        self.is_stopped = False


async def move(run: Run, connection: nats.Connection) -> None:
    """Has logs moved to stand-bys, now and then; a move may be refused, or end half way."""
    while not run.calm:
        await asyncio.sleep(run.dice.expovariate(0.5))
        reply = await connection.request(subjects.operations(run.dice.choice(run.keepers)), b"move", 1)
        run.count("moves" if reply == b"ok" else "moves refused or lost")


class Cluster:
    """The servers, and what becomes of them: one at a time, but for moments at which all are killed."""

    def __init__(self, run: Run, servers: local_servers.Servers) -> None:
        self.run, self.servers = run, servers

    async def torment(self) -> None:
        dice = self.run.dice
        while not self.run.calm:
            await asyncio.sleep(dice.expovariate(0.25))
            place, kind = dice.randrange(3), dice.random()
            if kind < 0.45:
                await self.restart([place])
            elif kind < 0.75:
                await self.pause(place, dice.choice([0.3, 3]))
            elif kind < 0.9:
                await self.lose(place)
            else:
                await self.restart([0, 1, 2])

    async def restart(self, places: list[int]) -> None:
        self.run.count("kills of a server" if len(places) == 1 else "kills of all servers")
        for place in places:
            self.servers.kill(place)
        await asyncio.sleep(self.run.dice.random() * 2)
        for place in places:
            self.servers.start(place)

    async def pause(self, place: int, seconds: float) -> None:
        self.run.count("stops of a server")
        self.servers.send(place, signal.SIGSTOP)
        await asyncio.sleep(self.run.dice.random() * seconds)
        self.servers.send(place, signal.SIGCONT)

    async def lose(self, place: int) -> None:
        """A server loses its store: never while another lacks something that was acknowledged."""
        if not await self.are_current(3):
            return
        self.servers.kill(place)
        if await self.are_current(2):
            self.servers.wipe(place)
            self.run.count("stores lost")
        self.servers.start(place)
        while not self.run.calm and not await self.are_current(3):
            await asyncio.sleep(0.2)

    async def are_current(self, count: int) -> bool:
        """Whether so many servers have all of each log, as its leader says, twice."""
        for _ in range(2):
            for name in self.run.keepers:
                reply = await self.run.watcher.request(
                    f"$JS.API.STREAM.INFO.LOG_{name}", b"", 1, is_word=lambda it: b'"error"' not in it
                )
                cluster = json.loads(reply).get("cluster", {}) if reply else {}
                current = [
                    it
                    for it in cluster.get("replicas") or []
                    if it.get("current") and not it.get("lag") and not it.get("offline")
                ]
                if not cluster.get("leader") or len(current) < count - 1:
                    return False
            await asyncio.sleep(0.2)
        return True


class Run(Tries):
    """What hosts, servers and callers share."""

    def __init__(self, given: argparse.Namespace, folder: str) -> None:
        super().__init__(given, folder)
        self.host = host_of(given)
        self.servers = local_servers.Servers(self.folder / "servers")
        self.candidates = [Candidate(self, name, machine) for name in NODES for machine in MACHINES]

    async def torment(self, seconds: float) -> None:
        """Kills hosts, stops them, and takes machines' disks; then all is left alone."""
        dice, loop = self.dice, asyncio.get_running_loop()
        end = loop.time() + seconds
        pauses: set[asyncio.Task[None]] = set()
        while loop.time() < end:
            await asyncio.sleep(dice.expovariate(4))
            one, kind = dice.choice(self.candidates), dice.random()
            other = next(it for it in self.candidates if it.name == one.name and it is not one)
            if kind < 0.4:
                one.kill()
            elif kind < 0.9 and not one.is_stopped:
                pause = asyncio.create_task(one.pause(dice.random() * 0.3 if kind < 0.6 else 1.4 + 3 * dice.random()))
                pauses.add(pause)
                pause.add_done_callback(pauses.discard)
            elif kind >= 0.9 and other.is_vouched() and not other.loses_disk:
                self.count("disks lost")
                one.loses_disk = True
                one.kill()
        self.be_calm()
        await asyncio.gather(*pauses)

    async def go(self) -> tuple[list[Caller], list[int]]:
        """The whole run; the callers, by pharmacy, and how many entries each has."""
        asyncio.get_running_loop().set_exception_handler(lambda *_: None)
        self.servers.start_all()
        access = nats.Access(self.servers.url)
        tasks: list[asyncio.Task[None]] = []
        connections = [nats.Connection(access, name, ping=1) for name in ("caller1", "caller2", "operator", "watcher")]
        try:
            await asyncio.wait_for(asyncio.gather(*(it.start() for it in connections)), SETTLE_SECONDS)
            self.watcher = connections[3]
            await asyncio.gather(*(logs.Log(self.watcher, name).make(3) for name in self.keepers))
            tasks += [asyncio.create_task(it.live()) for it in self.candidates]
            return await self.among(tasks, connections)
        finally:
            self.over = True
            for one in self.candidates:
                one.send(signal.SIGCONT)
                one.send(signal.SIGKILL)
            await asyncio.sleep(0.2)
            for task in tasks:
                task.cancel()
            self.servers.end()

    async def among(
        self, tasks: list[asyncio.Task[None]], connections: list[nats.Connection]
    ) -> tuple[list[Caller], list[int]]:
        callers: list[Caller] = [Watchful(self, number, connections[number - 1]) for number in (1, 2)]
        operator, cluster = Operator(self, connections[2]), Cluster(self, self.servers)
        settle = SETTLE_SECONDS_OF_WRONG if self.given.wrong else SETTLE_SECONDS
        await first(tasks, asyncio.wait_for(operator.settle(), SETTLE_SECONDS))
        work = [
            self.torment(self.given.seconds),
            cluster.torment(),
            operator.go(),
            move(self, self.watcher),
            *(it.go() for it in callers),
        ]
        await first(tasks, asyncio.wait_for(asyncio.gather(*work), self.given.seconds + settle))
        await first(tasks, asyncio.wait_for(operator.settle(), settle))
        entries = await first(tasks, asyncio.wait_for(asyncio.gather(*(it.settle() for it in callers)), settle))
        self.over = True
        for one in self.candidates:
            one.send(signal.SIGTERM)
        await asyncio.wait_for(asyncio.gather(*tasks), SETTLE_SECONDS)
        await self.export()
        return callers, entries

    async def export(self) -> None:
        """Reads each log to its end; each machine's file has to be its beginning."""
        for name in self.keepers:
            data, messages = await logs.Log(self.watcher, name).read()
            (self.folder / f"{name}.log").write_bytes(data)
            self.count("messages", messages)
            for one in self.candidates:
                has = one.log.read_bytes() if one.name == name and one.log.exists() else b""
                if not data.startswith(has):
                    raise Failed(f"the file of {name} on {one.machine} is no beginning of its log")


def takeovers(run: Run) -> int:
    said = [one.said.read_text(errors="replace") for one in run.candidates if one.said.exists()]
    return sum(len(re.findall('has the log"', it)) for it in said)


def main(given: argparse.Namespace, faults: tuple[type[Exception], ...]) -> int:
    """Runs it; the status. `faults` are what else says that something is otherwise than it has to be."""
    with tempfile.TemporaryDirectory() as folder:
        run = Run(given, folder)
        fault: BaseException | None = None
        found: dict[str, Any] = {}
        all_faults: tuple[type[BaseException], ...] = (Failed, logs.Fault, TimeoutError, *faults)
        try:
            callers, entries = asyncio.run(run.go())
            found = judge(run, callers, entries)
        except all_faults as it:
            fault = it
        counts = ", ".join(
            f"{what} {count}" for what, count in {"takeovers": takeovers(run), **run.counts, **found}.items()
        )
        if given.keep:
            shutil.copytree(folder, given.keep, dirs_exist_ok=True)
    if fault is None and not given.wrong:
        print(f"torture: one legal run, no promise broken: {counts}")
    elif fault is None:
        print(f"torture: a wrong host, {given.wrong}, and nothing was found: {counts}")
    else:
        print(f"torture: {'found, as it must be' if given.wrong else 'FAILED'}: {fault!r}: {counts}")
    sys.stdout.flush()
    return int((fault is None) == bool(given.wrong))
