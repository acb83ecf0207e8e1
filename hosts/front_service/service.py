"""The front from its start to its end."""

from __future__ import annotations

import argparse
import asyncio
import contextlib
import functools
import pathlib
import signal
import ssl
from collections.abc import Awaitable, Callable
from typing import Any

import nats
import service as manager
from aiohttp import web
from said import Said

from .asking import expect_known
from .audits import Audits
from .claims import Claims
from .connections import Connections, Listener
from .console import Console
from .counter import Counter, Owed, Terms
from .eligibility import Eligibility
from .found import Found
from .framed import Framed
from .health import Health
from .helpers import Ended, Failed
from .http_connection import HttpConnections
from .lines import Seldom, of_loop, take_over
from .payments import Payments
from .pharmacy import MOST_BYTES, Pharmacy
from .problems import as_problems
from .receipts import Receipts
from .replays import Replays
from .rulings import Rulings
from .settled import Settled, SettingsRefused
from .stores import Stores
from .tokens import Tokens

START_SECONDS = 10.0
# How long who is answered at the end may take, and how long the library reads what nobody wants any more.
END_SECONDS = 15.0
LINGER_SECONDS = 2.0
# The fields of JSON take more room than the message that is made of them.
MOST_BODY_BYTES = 16 * MOST_BYTES
# How often it is looked whether files have changed; after how long what was not kept is tried again.
LOOK_SECONDS = 2.0
AGAIN_SECONDS = 2.0
# A port of all pharmacies that the front serves.
ALL = "all"


def address(text: str) -> tuple[str, int]:
    host, _, port = text.rpartition(":")
    if not host or not port.isdigit():
        raise ValueError(f"{text}: ADDRESS:PORT is wanted")
    return host.strip("[]"), int(port)


def tls_of(given: argparse.Namespace) -> ssl.SSLContext | None:
    """What the server's certificate makes, or nothing where there is none."""
    if not given.tls:
        return None
    tls = ssl.SSLContext(ssl.PROTOCOL_TLS_SERVER)
    tls.minimum_version = ssl.TLSVersion.TLSv1_2
    tls.load_cert_chain(*given.tls)
    return tls


class Server:
    """What listens for HTTP: an application, its connections, and the library's part of each."""

    def __init__(self, say: Said, most_of_one: int, tls: ssl.SSLContext | None) -> None:
        self.seldom, self._tls = Seldom(say), tls
        take_over(self.seldom)
        of_loop(self.seldom)
        self.connections = Connections(self.seldom, most_of_one)
        self._http = HttpConnections(self.connections)
        self.app = web.Application(middlewares=[as_problems, expect_known], client_max_size=MOST_BODY_BYTES)
        self.app["seldom"] = self.seldom
        self._http.add_to(self.app)
        self._runner = web.AppRunner(self.app, access_log=None, handle_signals=False, lingering_time=LINGER_SECONDS)
        self._listener: Listener | None = None
        self._looking: asyncio.Task[None] | None = None

    async def start(self, listen: str) -> str:
        """Listens; where it is reached."""
        await self._runner.setup()
        server = self._runner.server
        if server is None:
            raise OSError("the library does not serve")
        made = functools.partial(self._http.made, server)
        self._listener = Listener(self.connections, made, self._tls, is_http=True)
        host, port = self._listener.start(*address(listen))
        self._looking = asyncio.create_task(self._http.look_for_ever())
        return f"{'https' if self._tls else 'http'}://{f'[{host}]' if ':' in host else host}:{port}"

    async def close(self) -> None:
        """Takes nobody any more, and answers who is there."""
        if self._listener is not None:
            self._listener.close()
        if self._runner.server is not None:
            await self._runner.server.shutdown(END_SECONDS)
        if self._looking is not None:
            self._looking.cancel()
        await self._runner.cleanup()


async def until_told() -> None:
    """Until SIGTERM or SIGINT."""
    stop = asyncio.Event()
    for number in (signal.SIGINT, signal.SIGTERM):
        asyncio.get_running_loop().add_signal_handler(number, stop.set)
    await stop.wait()


def systems_of(words: list[str]) -> dict[bytes, str]:
    """The systems of processors by BIN number, of words as 610455=https://HOST/PATH."""
    return {word.partition("=")[0].encode(): word.partition("=")[2] for word in words}


def stores_of(own: dict[str, tuple[str, str]], file: str | None) -> Stores:
    """All identities of pharmacies: those of the settings and those of a file; ValueError where the file is not as it should be."""
    return Stores.read(own, file)


class Front:
    """A front beside the nodes of one settings file."""

    def __init__(self, given: argparse.Namespace) -> None:
        self._given = given
        self._say = Said("front", given.v)
        self._settled = Settled(given.settings)
        # All identities of pharmacies, and who answers at the counter of each.
        self._stores = stores_of(self._settled.providers, given.stores)
        self._counters: dict[str, Counter] = {}
        self._carriers: dict[str, nats.Connection] = {}
        self._pharmacies: dict[str, Pharmacy] = {}
        self._tasks: set[asyncio.Task[Any]] = set()
        self._told = asyncio.Event()
        self._tls = tls_of(given)

    async def go(self) -> int:
        given = self._given
        asyncio.get_running_loop().add_signal_handler(signal.SIGHUP, self._told.set)
        server = Server(self._say, given.connections, self._tls)
        self._receipts = receipts = Receipts(given.receipts)
        rulings = Rulings(receipts)
        terms = Terms(given.late_code, given.grace, given.lenient)
        self._counter = functools.partial(Counter, receipts=receipts, terms=terms, say=self._say)
        for name in self._wanted():
            self._serve(name, await self._pharmacy(name))
        owed = Owed(self._counters, receipts, given.grace, self._say)
        eligibility = Eligibility(systems_of(given.eligibility), given.late_code)
        claims = Claims(self._counters, self._stores, eligibility, given.wait, self._settled.providers, rulings)
        self._app = app = server.app
        app.update(receipts=receipts, pharmacies=self._pharmacies, tokens=Tokens.read(given.tokens))
        health = app["health"] = Health(self._pharmacies, self._settled, self._wanted)
        console = Console(Audits(self._settled, given.logs), self._watched)
        found = Found(receipts, rulings)
        parts: tuple[Any, ...] = (claims, found, Payments(rulings), console, Replays(None), health)
        for part in parts:
            part.add_to(app)
        await owed.begin()
        at = await server.start(given.listen)
        framed = [await self._framed(it, eligibility, server.connections) for it in given.tcp]
        for name in self._pharmacies:
            self._keep(self._pharmacies[name].look_for_ever)
        self._keep(owed.look_for_ever)
        self._keep(rulings.read_for_ever)
        self._begin(receipts.keep_for_ever())
        self._begin(manager.live())
        self._begin(self._follow())
        self._say("ready", at=at)
        manager.tell("READY=1")
        print(f"front ready {at}", flush=True)
        stopped = asyncio.create_task(until_told())
        done, _ = await asyncio.wait([stopped, *self._tasks], return_when=asyncio.FIRST_COMPLETED)
        manager.tell("STOPPING=1")
        for task in done - {stopped}:
            fault = task.exception()
            why = str(fault) if isinstance(fault, OSError) else type(fault).__name__
            self._say("the front ends, since it cannot go on", "error", why=why)
        await server.close()
        for one in framed:
            await one.close()
        for task in self._tasks:
            task.cancel()
        await asyncio.gather(*self._tasks, return_exceptions=True)
        for counter in self._counters.values():
            await counter.close()
        await eligibility.close()
        for carrier in self._carriers.values():
            await carrier.close()
        await claims.close()
        found.close()
        rulings.close()
        await receipts.close()
        for task in done - {stopped}:
            task.result()
        return 0

    def _wanted(self) -> list[str]:
        """The pharmacies that are to be served: those that were named, or all of the settings."""
        return self._given.pharmacy or self._settled.settings.pharmacies()

    def _begin(self, work: Any) -> None:
        self._tasks.add(asyncio.create_task(work))

    def _keep(self, make: Callable[[], Awaitable[None]]) -> None:
        """Has a work go on where the front's disk, or a process that reads, has failed it: it is tried again, and what it fails by is told."""

        async def again() -> None:
            while True:
                try:
                    await make()
                except (Failed, Ended) as fault:
                    what = (
                        "what has to be kept is not" if isinstance(fault, Failed) else "what is read is asked for again"
                    )
                    self._app["seldom"](what, type(fault).__name__, "error", why=str(fault))
                await asyncio.sleep(AGAIN_SECONDS)

        self._begin(again())

    async def _pharmacy(self, name: str) -> Pharmacy:
        """A pharmacy, with a connection of its own: the server lets its caller speak to no other."""
        given = self._given
        words = argparse.Namespace(**vars(given))
        if given.access:
            words.login = f"{given.access}/{name}-caller.login"
        carrier = nats.Connection(nats.access_of(words), f"front-{name}", self._say)
        try:
            await asyncio.wait_for(carrier.start(), START_SECONDS)
        except BaseException:
            await carrier.close()
            raise
        self._carriers[name] = carrier
        return Pharmacy(name, carrier, self._receipts, self._say)

    def _serve(self, name: str, pharmacy: Pharmacy) -> None:
        """Has a pharmacy answered for at its counter."""
        self._pharmacies[name], self._counters[name] = pharmacy, self._counter(pharmacy)

    async def _framed(self, words: str, eligibility: Eligibility, connections: Connections) -> Framed:
        names, _, at = words.partition("=")
        given = self._given
        own = self._counters if names == ALL else {name: self._counters[name] for name in names.split(",")}
        framed = Framed(own, self._stores, eligibility, given.framing, given.wait)
        await framed.start(address(at), self._tls, connections)
        return framed

    async def _follow(self) -> None:
        """Reads settings and tokens again where their files have changed, and all files at SIGHUP."""
        tokens = pathlib.Path(self._given.tokens)
        stamp = tokens.stat()
        while True:
            is_told = False
            with contextlib.suppress(TimeoutError):
                is_told = await asyncio.wait_for(self._told.wait(), LOOK_SECONDS)
            self._told.clear()
            if is_told and self._tls is not None:
                self._read_certificate()
            with contextlib.suppress(OSError):
                now = tokens.stat()
                if is_told or (now.st_mtime_ns, now.st_size, now.st_ino) != (
                    stamp.st_mtime_ns,
                    stamp.st_size,
                    stamp.st_ino,
                ):
                    stamp = now
                    self._read_tokens()
            if self._settled.is_changed():
                self._read_settings()
            await self._reach()

    def _read_certificate(self) -> None:
        try:
            assert self._tls is not None
            self._tls.load_cert_chain(*self._given.tls)
            self._say("the certificate is read again")
        except (OSError, ssl.SSLError) as fault:
            self._say("the certificate is refused, and the one before serves", "error", why=type(fault).__name__)

    def _read_tokens(self) -> None:
        try:
            self._app["tokens"].take(Tokens.read(self._given.tokens))
            self._say("the tokens are read again")
        except SystemExit as fault:
            self._say("the tokens are refused, and those before serve", "error", why=str(fault))

    def _read_settings(self) -> None:
        """Goes by the settings as they are now; where they are none, by those before."""
        try:
            self._settled.read_again()
        except SettingsRefused as fault:
            self._app["seldom"](
                "the settings are refused, and those before serve", "SettingsChanged", "error", why=str(fault)
            )
            return
        try:
            self._stores.take(stores_of(self._settled.providers, self._given.stores))
        except (ValueError, OSError) as fault:
            self._say("the identities of stores are refused, and those before serve", "error", why=str(fault))
        self._app["health"].settle()
        self._say("the settings are read again", pharmacies=len(self._wanted()))

    async def _reach(self) -> None:
        """Serves pharmacies that came with the settings, once their servers know them."""
        for name in self._wanted():
            if name in self._pharmacies:
                continue
            try:
                self._serve(name, await self._pharmacy(name))
            except (SystemExit, OSError) as fault:
                self._app["seldom"](
                    "a pharmacy of the settings is not reached", name, why=str(fault) or type(fault).__name__
                )
                continue
            self._keep(self._pharmacies[name].look_for_ever)
            self._say("a pharmacy came with the settings", pharmacy=name)

    def _watched(self) -> dict[str, str]:
        """Where each node tells its metrics: as hosts/cluster.py --watch PORT has them, one port after the other."""
        port, nodes = self._given.watch, self._settled.settings.nodes()
        return {name: f"127.0.0.1:{port + place}" for place, name in enumerate(nodes)} if port else {}


async def replay(given: argparse.Namespace) -> int:
    """Serves the playground alone, without a network: a schedule, step by step."""
    server = Server(Said("front", given.v), given.connections, tls_of(given))
    Replays(given.replay).add_to(server.app)
    at = await server.start(given.listen)
    print(f"front ready {at}/", flush=True)
    await until_told()
    await server.close()
    return 0
