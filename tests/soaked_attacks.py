"""Who means harm to a network that is soaked in faults, for tests/soak-all: clients that are slow or silent, junk over HTTP, TCP and the servers, a switch's
login in wrong hands, and disks that are full."""

import contextlib
import http.client
import importlib.machinery
import importlib.util
import random
import resource
import socket
import sys
import threading
import types

sys.dont_write_bytecode = True
import forging  # noqa: E402
import network  # noqa: E402
from front_calls import Caller, helpers_of  # noqa: E402

LOADER = importlib.machinery.SourceFileLoader("front_attacked", str(network.TOP / "tests" / "front-attacked"))
SPEC = importlib.util.spec_from_loader("front_attacked", LOADER)
attacked = importlib.util.module_from_spec(SPEC)
LOADER.exec_module(attacked)
# How many slow clients there are at once, and how large a file the receipts may be while their disk is full.
SLOW, FULL_BYTES = 60, 4096
# What a slow client begins with.
BEGINNINGS = (
    b"", b"G", b"GET /healthz HTTP/1.1\r\nX: ", b"POST /pharmacies/ph1/claims HTTP/1.1\r\nContent-Length: 200\r\n\r\nx",
    b"GET /openapi.json HTTP/1.1\r\n\r\n" * 40, b"\x02", b"\x02D0",
)  # fmt: skip
PATHS = (
    "/replay",
    "/pharmacies/ph1/claims",
    "/pharmacies/ph2/claims",
    "/claims?number=0",
    "/pages/%00",
    "/totals?by=x",
)


class Attackers:
    """Threads that attack until it is calm."""

    def __init__(self, world, fronts, tokens, seed):
        self.world, self.fronts, self.tokens = world, fronts, tokens
        self.dice, self.slow = random.Random(seed), []
        self._threads = [
            threading.Thread(target=self._go, args=(it,)) for it in (self.be_slow, self.send_junk, self.fill)
        ]

    def start(self):
        for thread in self._threads:
            thread.start()

    def join(self):
        for thread in self._threads:
            thread.join()
        for one in self.slow:
            one.close()

    def _go(self, does):
        """Does it again and again; who is not there, or hangs up, is no fault."""
        while not self.world.calm.wait(self.dice.uniform(0.1, 0.6)):
            try:
                does()
            except (OSError, ValueError, network.Failed):
                self.world.count("attacks that met nobody")
            except Exception as fault:  # Whatever it is, the test has failed.
                self.world.faults.append(f"{does.__name__}: {fault!r}")
                return

    def _front(self):
        return self.dice.choice(list(self.fronts.values()))

    def be_slow(self):
        """A client more that is silent, or sends a byte now and then, or never reads; some hang up."""
        front, source = self._front(), f"127.0.0.{self.dice.randint(2, 9)}"
        if len(self.slow) < SLOW:
            kind = self.dice.random()
            if kind < 0.3:
                one = socket.create_connection(
                    ("127.0.0.1", self.dice.choice([front.port, front.framed])), 5, (source, 0)
                )
            elif kind < 0.5:
                one = front.connect()
            else:
                one = attacked.Plain(front, source, 5).tls
            self.slow.append(one)
            self.world.count("slow clients")
            one.settimeout(1)
            one.sendall(self.dice.choice(BEGINNINGS))
        else:
            self.slow.pop(self.dice.randrange(len(self.slow))).close()
        for one in self.dice.sample(self.slow, len(self.slow) // 4):
            try:
                one.send(b"x")
            except OSError:
                self.slow.remove(one)
                one.close()

    def _some_bytes(self):
        return self.dice.randbytes(self.dice.choice([1, 10, 100, 2000, 20_000]))

    def send_junk(self):
        """Junk of one kind."""
        kind = self.dice.random()
        if kind < 0.25:
            self._junk_http()
        elif kind < 0.45:
            self._junk_frames()
        elif kind < 0.55:
            with socket.create_connection(("127.0.0.1", self.world.servers.port + self.dice.randrange(3)), 5) as one:
                one.sendall(self._some_bytes() + b"\r\n")
        else:
            self._junk_packets()
        self.world.count("junk")

    def _junk_http(self):
        front, token = self._front(), self.dice.choice(self.tokens)
        if self.dice.random() < 0.5:
            data = self.dice.choice([it for it, _ in attacked.HEADS_THAT_ARE_NONE] + [self._some_bytes()])
            attacked.Plain(front, seconds=3).ask(data)
            return
        body = self.dice.choice([b"[" * 10_000, b'{"order": []}', b'{"order": "billing"}', self._some_bytes()])
        kind = self.dice.choice(["application/json", "application/vnd.ncpdp", "x/y"])
        with contextlib.suppress(http.client.HTTPException):
            answer = Caller(front, token, set()).any(
                self.dice.choice(["GET", "POST"]), self.dice.choice(PATHS), body, **{"Content-Type": kind}
            )
            if answer.status >= 500 and answer.status != 503 and answer.status != 504:
                self.world.faults.append(f"junk is answered by {answer.status} {answer.body[:200]}")

    def _junk_frames(self):
        with self._front().connect() as one:
            one.settimeout(2)
            one.sendall(self.dice.choice([b"", b"\x02"]) + self._some_bytes() + self.dice.choice([b"", b"\x03"]))
            one.recv(65536)

    def _junk_packets(self):
        """Who has a switch's login sends junk to nodes, and what it hears from others altered, stripped of its signature, under another's, and again."""
        node = self.dice.choice(["sw1", "sw2", "ph1", "pr1"])
        at = f"127.0.0.1:{self.world.servers.port + self.dice.randrange(3)}"
        login = types.SimpleNamespace(url=at, login=lambda name: self.world.access / f"{name}.login")
        wire = forging.Wire(login, node)
        try:
            wire.listen(self.dice.uniform(0.5, 2))
            others = ["sw1", "sw2"] if node[:2] in ("ph", "pr") else ["ph1", "ph2", "pr1", "pr2"]
            for packet in wire.heard[-5:]:
                text = bytearray(packet.text)
                text[self.dice.randrange(len(text))] = self.dice.randrange(0x20, 0x7F)
                for altered in (bytes(text), packet.text[: self.dice.randrange(len(packet.text))]):
                    wire.publish(self.dice.choice(others), altered, self.dice.choice([None, packet.signature]))
                wire.publish(self.dice.choice(others), packet.text, packet.signature)
            for _ in range(3):
                wire.publish(self.dice.choice(others), forging.printed(self._some_bytes()), None)
        finally:
            wire.close()

    def fill(self):
        """A disk is full for a while, or slow: that of a log, or of receipts."""
        if self.world.calm.wait(self.dice.uniform(2, 12)):
            return
        seconds = self.dice.uniform(0.3, 1.5)
        if self.dice.random() < 0.3:
            self._fill_receipts(seconds)
            return
        host = self.dice.choice([it for it in self.world.hosts if it.keeps and not it.is_spared])
        fault = self.dice.choice(["full", "full", "slow"])
        (host.disk / fault).touch()
        try:
            self.world.calm.wait(seconds)
        finally:
            (host.disk / fault).unlink()
        self.world.count(f"{fault} disks")

    def _fill_receipts(self, seconds):
        front = self._front()
        for pid, words in helpers_of(front.process.pid).items():
            if "keeping.py" in words:
                for most in (FULL_BYTES, resource.RLIM_INFINITY):
                    with contextlib.suppress(ProcessLookupError):
                        resource.prlimit(pid, resource.RLIMIT_FSIZE, (most, resource.RLIM_INFINITY))
                    if most == FULL_BYTES:
                        self.world.calm.wait(seconds)
                self.world.count("full disks of receipts")
