"""Candidates for nodes whose logs are in streams, for tests: three servers, and hosts on machines that are folders.

The host is built once as it is, with the sanitizers of the compiler. What is told has to be in the log, which is exported. All on
loopback addresses."""

import asyncio
import contextlib
import json
import os
import pathlib
import shutil
import subprocess
import sys
import time

sys.dont_write_bytecode = True
sys.path.insert(0, str(pathlib.Path(__file__).resolve().parent))
import network  # noqa: E402
from network import HOSTS, SETTINGS, expect, nats, wait_for  # noqa: E402

import local_servers  # noqa: E402
import logs  # noqa: E402

OVERTAKEN, REFUSED = 75, 78
# No host ticks while it is tried: what a tick appends would end a wrong host before its words do.
NO_TICK = "3600"
SANITIZED = "-O1 -g -fsanitize=address,undefined -fno-sanitize-recover=all"


def claim(number, node="ph2"):
    """A billing of its own of this pharmacy, in printed bytes."""
    return network.claim(number).replace("1234567893", {"ph1": "1234567893", "ph2": "1234567894"}[node])


def built(flags):
    """The host, built with these flags."""
    return network.host(f"CFLAGS={flags}")


class Host:
    """A candidate for a node, on a machine of its own, which is a folder."""

    def __init__(self, trial, node, machine, words=(), program=None):
        self.trial, self.node, self.machine = trial, node, machine
        self.folder = trial.folder / machine
        self.folder.mkdir(exist_ok=True)
        self.log, self.said = self.folder / f"{node}.log", self.folder / f"{node}.said"
        self.words = [
            program or trial.program,
            str(SETTINGS),
            node,
            str(self.log),
            "--log",
            "stream",
            "--machine",
            machine,
        ]
        self.words += ["--nats", trial.servers.url, "--tick", NO_TICK, *words]
        self.process = None

    def start(self, environment=None):
        with open(self.said, "ab") as said:
            self.process = subprocess.Popen(
                self.words,
                stdout=said,
                stderr=said,
                env=os.environ | {"ASAN_OPTIONS": "detect_leaks=0"} | (environment or {}),
            )
        self.trial.processes.append(self.process)
        return self

    def says(self, what):
        return what in self.said.read_text(errors="replace")

    def has_log(self):
        return self.process.poll() is None and self.says(f"{self.node} ready")

    def wait(self, what, seconds=30):
        wait_for(lambda: self.says(what), f"{self.machine} says {what}", seconds)
        return self

    def ready(self, seconds=30):
        return self.wait(f"{self.node} ready", seconds)

    def forget(self):
        """What was said is not looked at any more."""
        self.said.write_bytes(b"")
        return self

    def send(self, number):
        self.process.send_signal(number)

    def kill(self):
        self.process.kill()
        self.process.wait()

    def status(self, seconds=30):
        """The status with which it ends."""
        return self.process.wait(seconds)

    def stays_away(self, seconds=60):
        """It ends with 78, or says that the servers have another log, and has not the log; then it is killed."""
        wait_for(
            lambda: self.process.poll() is not None or self.says("have another log"), "a host refuses a log", seconds
        )
        expect(self.process.poll() in (None, REFUSED), f"a host that refuses a log ended with {self.process.poll()}")
        expect(not self.says(f"{self.node} ready"), "a host that refuses a log has taken it over")
        self.kill()

    def wipe(self):
        """The machine has a new disk."""
        shutil.rmtree(self.folder)
        self.folder.mkdir()


class Trial:
    """Three servers, and what runs over them."""

    def __init__(self, folder, program, has_system=False):
        self.folder, self.program, self.processes = pathlib.Path(folder), program, []
        self.servers = local_servers.Servers(self.folder / "servers", has_system=has_system)
        self.servers.start_all()
        self.told, self.made = {}, set()

    def end(self):
        for process in self.processes:
            if process.poll() is None:
                process.kill()
                process.wait()
        self.servers.end()

    def host(self, node, machine, *words, program=None):
        return Host(self, node, machine, words, program)

    def current(self, node, count):
        """Waits until so many servers have all of a log."""

        async def is_so():
            client = await self.client()
            try:
                reply = await client.request(
                    f"$JS.API.STREAM.INFO.LOG_{node}", b"", 1, is_word=lambda it: b'"error"' not in it
                )
                cluster = json.loads(reply)["cluster"] if reply else {}
                current = [
                    it
                    for it in cluster.get("replicas") or []
                    if it.get("current") and not it.get("lag") and not it.get("offline")
                ]
                return len(current) >= count - 1
            finally:
                await client.close()

        wait_for(lambda: asyncio.run(is_so()), f"{count} servers have the log of {node}", 60)

    def vogctl(self, *words):
        done = subprocess.run(
            [HOSTS / "vogctl", "--nats", self.servers.url, *words],
            capture_output=True,
            text=True,
            check=False,
            timeout=90,
        )
        return done.stdout.strip(), done.returncode, done.stderr.strip()

    def make(self, *nodes):
        told, status, fault = self.vogctl("log", "make", *nodes)
        expect(status == 0, f"logs are not made: {told} {fault}")
        self.made |= set(nodes)

    def have(self, node):
        """Makes a log that no part before has made."""
        if node not in self.made:
            self.make(node)

    def export(self, node):
        """The log in the stream."""
        path = self.folder / f"{node}.{time.monotonic_ns()}.log"
        told, status, fault = self.vogctl("log", "export", node, str(path))
        expect(status == 0, f"the log of {node} is not exported: {told} {fault}")
        return path.read_bytes()

    async def client(self):
        connection = nats.Connection(nats.Access(self.servers.url), "caller")
        await asyncio.wait_for(connection.start(), 30)
        return connection

    def ask(self, node, line, seconds=1.0, tries=1):
        """The reply to a line, asked again so often."""

        async def go():
            client = await self.client()
            try:
                for _ in range(tries):
                    reply = await client.request(f"claims.{node}.call", line.encode(), seconds)
                    if reply is not None:
                        return reply.decode()
                return None
            finally:
                await client.close()

        return asyncio.run(go())

    def operate(self, node, line, seconds=1.0):
        """The reply to an operator's line."""

        async def go():
            client = await self.client()
            try:
                reply = await client.request(f"claims.{node}.operate", line.encode(), seconds)
                return None if reply is None else reply.decode()
            finally:
                await client.close()

        return asyncio.run(go())

    def submit(self, number, node="ph1", tries=30):
        """Submits a claim of its own; the number that is told has never been told."""
        told = self.ask(node, f"submit {claim(number, node)}", tries=tries)
        expect(told is not None and told.startswith("number "), f"claim {number} was not taken: {told}")
        given = int(told.split()[1])
        expect(self.told.setdefault((node, given), number) == number, f"number {given} was given twice")
        return given

    def check(self, node, *hosts):
        """What was told is in the log; each machine has a beginning of it, whole; what the log has."""
        data = self.export(node)
        for host in hosts:
            has = host.log.read_bytes()
            expect(
                data.startswith(has) and len(has) == logs.whole_size(has),
                f"the copy of {host.machine} is no beginning of the log",
            )
        for (of, _), number in self.told.items():
            expect(
                of != node or f"D2{100000 + number}".encode() in data,
                f"claim {number} was told, and is not in the log of {node}",
            )
        return data


def run(name, parts, folder, words, has_system=False):
    """Runs parts of a test one after the other, those that are named or all, over one cluster; what is told at the end."""
    trial = Trial(folder, built(SANITIZED), has_system)
    told = []
    try:
        for part in parts:
            if not words or part.__name__ in words:
                started = time.monotonic()
                told.append(part(trial))
                print(f"{name}: {told[-1]} ({time.monotonic() - started:.0f} s)", flush=True)
    except (network.Failed, subprocess.SubprocessError, asyncio.TimeoutError):
        for said in sorted(trial.folder.glob("*/*.said")):
            with contextlib.suppress(OSError):
                print(f"--- {said}\n" + "\n".join(said.read_text(errors="replace").splitlines()[-12:]), file=sys.stderr)
        raise
    finally:
        trial.end()
    return f"{len(told)} parts"
