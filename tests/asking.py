"""A payer that asks its own system, for tests: a plain server, hosts in C, and systems that answer as they are told. All on loopback addresses."""

from __future__ import annotations

import asyncio
import contextlib
import os
import pathlib
import re
import select
import socket
import socketserver
import ssl
import subprocess
import sys
import threading
import time
import urllib.request
from collections.abc import Awaitable, Callable, Sequence
from typing import Any, NamedTuple

sys.dont_write_bytecode = True
sys.path.insert(0, str(pathlib.Path(__file__).resolve().parent))
import network  # noqa: E402
import nats  # noqa: E402
import programs  # noqa: E402
from front_service.printed import printed, unprinted  # noqa: E402
from network import expect, wait_for  # noqa: E402
from suite import networks  # noqa: E402

SETTINGS = networks.settings(((1, 2), (2, 1)), (60000, 60000), (60000, 60000), rows=60000, again=2, tries=2, asks=True)
# The same of one that asks about reversals too, and tells what its system says beside its rulings.
WIDE = SETTINGS.replace('asks = "claims"', 'asks = "all"') + '[answers]\nprofile = "wide"\n'
NODES = ("ph1", "ph2", "sw1", "sw2", "pr1")
# How long the host waits for a system, where a test says nothing else.
WAIT_SECONDS = 1
CARDHOLDER = "987654321"


def billing(number: int) -> bytes:
    """A billing of its own."""
    return unprinted(network.claim(number).encode())


def reversal(number: int) -> bytes:
    return unprinted(networks.reversal(100000 + number).encode())


def enveloped(request: bytes, number: int, pharmacy: int = 1) -> bytes:
    """A packet with a request, in printed bytes."""
    head = b"PS\x01\x01" + pharmacy.to_bytes(2, "big") + number.to_bytes(8, "big") + len(request).to_bytes(4, "big")
    return printed(head + request)


class Asked(NamedTuple):
    """What a system was asked: the heads of a message by their names in small letters, and its bytes."""

    heads: dict[str, str]
    message: bytes

    @property
    def number(self) -> int:
        return int(self.heads.get("vogrilas-number", "0"))


# What a system does where it is asked: bytes that it writes as they are; None, and it closes the connection; anything else waits first.
Behaviour = Callable[[Asked], bytes | None]


def answered(message: bytes, head: bytes = b"HTTP/1.1 200 OK") -> bytes:
    """An answer over HTTP."""
    return head + b"\r\nContent-Length: %d\r\n\r\n" % len(message) + message


# An answer over HTTP of which nothing says where it ends.
ENDED_BY_ITS_CONNECTION = b"HTTP/1.1 200 OK\r\nConnection: close\r\n\r\nD0"


class System(socketserver.ThreadingTCPServer):
    """A payer's own system, over HTTP or, where `framing` is said, in frames."""

    daemon_threads = allow_reuse_address = True

    def __init__(
        self, behave: Behaviour, framing: str = "", tls: pathlib.Path | None = None, address: str = "127.0.0.1"
    ) -> None:
        self.behave, self.framing, self.tls = behave, framing, None
        self.asked: list[Asked] = []
        self.opened: list[socket.socket] = []
        if tls is not None:
            self.tls = ssl.SSLContext(ssl.PROTOCOL_TLS_SERVER)
            self.tls.load_cert_chain(tls / "server.pem", tls / "server.key")
        super().__init__((address, 0), Connection)
        threading.Thread(target=self.serve_forever, args=(0.05,), daemon=True).start()

    @property
    def port(self) -> int:
        return int(self.server_address[1])

    @property
    def url(self) -> str:
        return f"http{'s' if self.tls else ''}://{str(self.server_address[0])}:{self.port}/rules"

    def handle_error(self, request: Any, client_address: Any) -> None:
        """Connections that break are what this is for."""

    @property
    def connections(self) -> int:
        """How many connections were opened."""
        return len(self.opened)

    def close(self) -> None:
        """Goes, with all connections."""
        self.shutdown()
        self.server_close()
        for connection in self.opened:
            with contextlib.suppress(OSError):
                connection.shutdown(socket.SHUT_RDWR)


class Connection(socketserver.StreamRequestHandler):
    """A connection to a system: one message after the other."""

    server: System

    def setup(self) -> None:
        if self.server.tls is not None:
            self.request = self.server.tls.wrap_socket(self.request, server_side=True)
        super().setup()
        self.server.opened.append(self.request)

    def handle(self) -> None:
        while (asked := self.framed() if self.server.framing else self.posted()) is not None:
            self.server.asked.append(asked)
            said = self.server.behave(asked)
            if said is None:
                return
            self.wfile.write(said)
            if said.startswith(ENDED_BY_ITS_CONNECTION):
                self.request.shutdown(socket.SHUT_RDWR)
                return

    def posted(self) -> Asked | None:
        """The next message over HTTP."""
        lines: list[str] = []
        while (line := self.rfile.readline().strip()) or not lines:
            if not line:
                return None
            lines.append(line.decode())
        pairs = (line.split(": ", 1) for line in lines[1:])
        heads = {key.lower(): value for key, value in pairs} | {"": lines[0]}
        return Asked(heads, self.rfile.read(int(heads["content-length"])))

    def framed(self) -> Asked | None:
        """The next message in a frame."""
        if self.server.framing == "stx":
            text = b""
            while not text.endswith(b"\x03"):
                byte = self.rfile.read(1)
                if not byte:
                    return None
                text += byte
            return Asked({}, text[1:-1])
        size = self.rfile.read(int(self.server.framing[-1]))
        return Asked({}, self.rfile.read(int.from_bytes(size, "big"))) if size else None


def framed(message: bytes, framing: str) -> bytes:
    """A message in a frame."""
    if framing == "stx":
        return b"\x02" + message + b"\x03"
    return len(message).to_bytes(int(framing[-1]), "big") + message


class Network:
    """A server, and hosts over it that are started one by one."""

    def __init__(self, folder: pathlib.Path, host: str, settings: str = SETTINGS) -> None:
        self.folder, self.host = folder, host
        self.port, self.watch = network.free_port(), network.free_port(len(NODES))
        self.settings = self.folder / "settings.toml"
        self.settings.write_text(settings, encoding="ascii")
        self.hosts: dict[str, subprocess.Popen[bytes]] = {}
        self.server: subprocess.Popen[bytes] | None = None
        self.serve()

    @property
    def url(self) -> str:
        return f"127.0.0.1:{self.port}"

    def serve(self) -> None:
        """Starts the server."""
        words = ["nats-server", "-a", "127.0.0.1", "-p", str(self.port), "-l", str(self.folder / "server.txt")]
        self.server = subprocess.Popen(words)
        wait_for(lambda: network.is_open(self.port), "the server is there")

    def log(self, node: str) -> pathlib.Path:
        return self.folder / f"{node}.log"

    def said(self, node: str) -> str:
        """What a host has said, through all of its lives."""
        return (self.folder / f"{node}.said").read_text(errors="replace")

    def words(self, node: str, *more: object) -> list[str]:
        words = [self.host, self.settings, node, self.log(node), "--nats", self.url, "--tick", "0.2"]
        words += ["--watch", f"127.0.0.1:{self.watch + NODES.index(node)}", *more]
        return list(map(str, words))

    def start(self, node: str, *more: object) -> subprocess.Popen[bytes]:
        """Starts a host, and waits until it is ready."""
        with open(self.folder / f"{node}.said", "ab") as said:
            process = subprocess.Popen(self.words(node, *more), stdout=subprocess.PIPE, stderr=said)
        self.hosts[node] = process
        pipe = process.stdout
        is_ready = pipe is not None and bool(select.select([pipe], [], [], 60)[0]) and b"ready" in pipe.readline()
        expect(is_ready, f"{node} is not ready: {self.said(node)[-300:]}")
        return process

    def stop(self, node: str) -> float:
        """Ends a host in order; how long that took."""
        process, began = self.hosts.pop(node), time.monotonic()
        process.terminate()
        expect(process.wait(20) == 0, f"{node} does not end in order: {self.said(node)[-300:]}")
        return time.monotonic() - began

    def kill(self, node: str) -> None:
        self.hosts[node].kill()
        self.hosts.pop(node).wait()

    def end(self) -> None:
        for process in self.hosts.values():
            process.kill()
            process.wait()
        if self.server is not None:
            self.server.kill()
            self.server.wait()

    def metric(self, node: str, name: str, /, **labels: str) -> float:
        """The value of a metric of a node; 0 where it tells none."""
        url = f"http://127.0.0.1:{self.watch + NODES.index(node)}/metrics"
        with urllib.request.urlopen(url, timeout=5) as page:
            found = re.findall(rf"^vogrilas_{name}{{(.*)}} (\S+)$", page.read().decode(), re.MULTILINE)
        wanted = {f'{key}="{value}"' for key, value in (labels | {"node": node}).items()}
        return next((float(value) for given, value in found if set(given.split(",")) == wanted), 0.0)

    def call(self, part: Callable[[nats.Connection], Awaitable[Any]]) -> Any:
        """Has a part done by a client of its own."""

        async def called() -> Any:
            client = nats.Connection(nats.Access(self.url), "trial")
            await client.start()
            try:
                return await part(client)
            finally:
                await client.close()

        return asyncio.run(called())

    def ask(self, subject: str, line: str) -> str:
        """The reply to a line."""

        async def asked(client: nats.Connection) -> str:
            reply = await client.request(subject, line.encode(), 5)
            return reply.decode() if reply else "nothing"

        return str(self.call(asked))

    def vogctl(self, *words: object) -> subprocess.CompletedProcess[str]:
        given = [sys.executable, network.HOSTS / "vogctl", "--nats", self.url, *words]
        return subprocess.run(list(map(str, given)), capture_output=True, text=True, check=False, timeout=60)

    def audit(self, *words: object) -> subprocess.CompletedProcess[str]:
        program = programs.program("claimaudit")
        given = [program, *words, self.settings, *(self.log(node) for node in NODES if self.log(node).exists())]
        return subprocess.run(list(map(str, given)), capture_output=True, text=True, check=False)


class Switch:
    """The switch of a payer, which a test is itself: it sends requests, and hears answers."""

    def __init__(self, client: nats.Connection) -> None:
        self._client = client
        self.heard: list[bytes] = []
        client.subscribe("claims.sw1.from.pr1", lambda message: self.heard.append(unprinted(message.payload)))

    def send(self, request: bytes, number: int, sender: str = "sw1") -> None:
        self._client.publish(f"claims.pr1.from.{sender}", enveloped(request, number))

    def answers(self, number: int) -> list[bytes]:
        """What was heard of a number."""
        return [it[18:] for it in self.heard if int.from_bytes(it[6:14], "big") == number]

    async def answer(self, number: int, seconds: float = 10) -> bytes:
        """The answer to a number, as soon as it comes."""
        end = time.monotonic() + seconds
        while not self.answers(number):
            expect(time.monotonic() < end, f"number {number} has no answer within {seconds} s")
            await asyncio.sleep(0.01)
        return self.answers(number)[0]


def library_of(host: str) -> str:
    """The shared library over which a host was built."""
    return str(pathlib.Path(host).parent / "library" / "lib" / "libvogrilas.so")


def binding(host: str) -> Any:
    """The binding for Python of the library of a host."""
    os.environ["VOGRILAS_LIBRARY"] = library_of(host)
    sys.path.insert(0, str(network.TOP / "bindings" / "python" / "src"))
    import vogrilas

    return vogrilas


class Trial:
    """A payer and its system, for one part."""

    def __init__(self, folder: pathlib.Path, host: str, binding: Any) -> None:
        self.folder, self.binding = pathlib.Path(folder), binding
        self.network = Network(folder, host)
        self.systems: list[System] = []

    def system(self, behave: Behaviour, **given: Any) -> System:
        self.systems.append(System(behave, **given))
        return self.systems[-1]

    def pays(self, asked: Asked) -> bytes:
        """What a system answers over HTTP that pays what a claim asks for."""
        return answered(self.paid(asked.message))

    def paid(self, request: bytes) -> bytes:
        """The answer that pays what a claim asks for, less 3.00 that the patient pays."""
        claim = self.binding.decoded(request)["findings"][0]
        ruling = self.binding.Ruling("paid", None, claim["prescription"], claim["cost"], claim["fee"], 300)
        return bytes(self.binding.Answer((ruling,)).to(request))

    def rejected(self, request: bytes, *codes: str) -> bytes:
        return bytes(self.binding.Answer((self.binding.Ruling("rejected", codes=codes),)).to(request))

    def start(self, system: System, *more: object) -> subprocess.Popen[bytes]:
        return self.network.start("pr1", "--rules", system.url, "--rules-wait", WAIT_SECONDS, *more)

    def failed(self, why: str) -> float:
        """How many requests came to no ruling for this cause."""
        return self.network.metric("pr1", "rules_failed_total", why=why)

    def switch(self, part: Callable[[Switch], Awaitable[Any]]) -> Any:
        """Has a part done by a switch."""
        return self.network.call(lambda client: part(Switch(client)))

    def end(self) -> None:
        self.network.end()
        for system in self.systems:
            system.close()


def tried(name: str, parts: Sequence[Callable[[Trial], str]], folder: str, given: list[str]) -> str:
    """Runs parts, those that are named or all, each over a network of its own; what is told at the end."""
    host = network.host()
    library = binding(host)
    names = [it.__name__ for it in parts]
    expect(set(given) <= set(names), f"the parts are {', '.join(names)}")
    chosen = [it for it in parts if not given or it.__name__ in given]
    for part in chosen:
        place = pathlib.Path(folder, part.__name__)
        place.mkdir()
        trial = Trial(place, host, library)
        try:
            print(f"{name}: {part(trial)}", flush=True)
        except BaseException:
            for said in sorted(place.glob("*.said")):
                sys.stderr.write("".join(said.read_text(errors="replace").splitlines(keepends=True)[-8:]))
            raise
        finally:
            trial.end()
    return f"{len(chosen)} parts"
