"""Who is connected: each connection is counted before a byte is read of it, TLS included, so that nobody can have them all.

Of one address so many may be connected at once, and in all so many as leave files for everything else. Where all are taken, whoever has kept
a connection longest without asking anything makes room.
"""

from __future__ import annotations

import asyncio
import collections
import contextlib
import errno
import ipaddress
import resource
import socket
import ssl
from collections.abc import Awaitable, Callable

from .lines import Seldom
from .problems import Problem

# Of one address, unless it is said otherwise.
MOST_OF_ONE = 512
# Files that are kept for what is no caller: servers, programs, receipts.
OTHER_FILES = 256
LEAST = 64
BACKLOG = 1024
# How many are taken in one turn of the loop.
AT_ONCE = 32
HANDSHAKE_SECONDS = 10.0
# Where there is no file left for who comes.
AGAIN_SECONDS = 0.5
NO_FILES = (errno.EMFILE, errno.ENFILE, errno.ENOBUFS, errno.ENOMEM)
Leave = Callable[[], None]
End = Callable[[], object]
Factory = Callable[[Leave], asyncio.Protocol]
Serve = Callable[[asyncio.StreamReader, asyncio.StreamWriter], Awaitable[None]]


def files() -> int:
    """How many files this process may have open, once it has asked for as many as it may ask for."""
    soft, hard = resource.getrlimit(resource.RLIMIT_NOFILE)
    with contextlib.suppress(ValueError, OSError):
        resource.setrlimit(resource.RLIMIT_NOFILE, (hard, hard))
        soft = hard
    return soft


def network_of(address: str) -> str:
    """What counts as one caller: an address, and of the longer ones the network that one customer has."""
    with contextlib.suppress(ValueError):
        at = ipaddress.ip_address(address.partition("%")[0])
        if isinstance(at, ipaddress.IPv6Address):
            mapped = at.ipv4_mapped
            return str(mapped) if mapped else str(ipaddress.ip_network((at, 64), strict=False))
    return address


class Connections:
    """How many there are, of whom, and which of them ask nothing."""

    def __init__(self, seldom: Seldom, most_of_one: int = MOST_OF_ONE, most: int | None = None) -> None:
        self.seldom = seldom
        self._most = max(LEAST, files() - OTHER_FILES) if most is None else most
        self._most_of_one = most_of_one
        self._of: collections.Counter[str] = collections.Counter()
        self._count = 0
        # Those that ask nothing, the oldest first, each with how it is ended.
        self._idle: collections.OrderedDict[object, End] = collections.OrderedDict()

    def __len__(self) -> int:
        return self._count

    def enter(self, address: str) -> Leave | None:
        """Counts one; how it leaves, or nothing where there is no room for it."""
        network = network_of(address)
        if self._of[network] >= self._most_of_one:
            self.seldom("a connection too many of one address", "Connections", address=network, most=self._most_of_one)
            return None
        if self._count >= self._most and not self._make_room():
            self.seldom("a connection too many", "Connections", most=self._most)
            return None
        self._of[network] += 1
        self._count += 1
        is_there = True

        def leave() -> None:
            nonlocal is_there
            if is_there:
                is_there = False
                self._count -= 1
                self._of[network] -= 1
                if not self._of[network]:
                    del self._of[network]

        return leave

    def idle(self, one: object, end: End) -> None:
        """Notes that a connection asks nothing from now on."""
        self._idle[one] = end

    def busy(self, one: object) -> None:
        self._idle.pop(one, None)

    def _make_room(self) -> bool:
        """Ends the connection that has asked nothing for longest; whether there is one."""
        if not self._idle:
            return False
        _, end = self._idle.popitem(last=False)
        self.seldom("all connections are taken, and an idle one makes room", "Connections", most=self._most)
        end()
        return True


class Listener:
    """A socket that is listened at."""

    def __init__(self, connections: Connections, factory: Factory, tls: ssl.SSLContext | None, is_http: bool) -> None:
        self._connections, self._factory, self._tls, self._is_http = connections, factory, tls, is_http
        self._loop = asyncio.get_running_loop()
        self._sockets: list[socket.socket] = []
        self._opening: set[asyncio.Task[None]] = set()

    def start(self, host: str, port: int) -> tuple[str, int]:
        """Listens; where it is reached."""
        for family, kind, protocol, _, at in socket.getaddrinfo(
            host, port, type=socket.SOCK_STREAM, flags=socket.AI_PASSIVE
        ):
            listening = socket.socket(family, kind, protocol)
            listening.setsockopt(socket.SOL_SOCKET, socket.SO_REUSEADDR, 1)
            if family == socket.AF_INET6:
                listening.setsockopt(socket.IPPROTO_IPV6, socket.IPV6_V6ONLY, 1)
            listening.setblocking(False)
            try:
                listening.bind(at)
            except OSError as fault:
                listening.close()
                # One of two families that a name has may be away on this machine.
                if fault.errno == errno.EADDRNOTAVAIL and self._sockets:
                    continue
                raise
            listening.listen(BACKLOG)
            self._loop.add_reader(listening, self._take, listening)
            self._sockets.append(listening)
        name = self._sockets[0].getsockname()
        return name[0], name[1]

    def close(self) -> None:
        """Takes nobody any more; who is there stays."""
        for listening in self._sockets:
            self._loop.remove_reader(listening)
            listening.close()
        self._sockets.clear()
        for task in self._opening:
            task.cancel()

    def _take(self, listening: socket.socket) -> None:
        for _ in range(AT_ONCE):
            try:
                taken, address = listening.accept()
            except (BlockingIOError, InterruptedError, ConnectionAbortedError):
                return
            except OSError as fault:
                if fault.errno not in NO_FILES:
                    raise
                self._wait(listening, fault)
                return
            leave = self._connections.enter(address[0])
            if leave is None:
                self._turn_away(taken)
                continue
            task = self._loop.create_task(self._open(taken, leave))
            self._opening.add(task)
            # Who has not come so far as to ask something makes room like who asks nothing.
            self._connections.idle(task, task.cancel)
            task.add_done_callback(self._opened)

    def _opened(self, task: asyncio.Task[None]) -> None:
        self._opening.discard(task)
        self._connections.busy(task)

    def _wait(self, listening: socket.socket, fault: OSError) -> None:
        """Takes nobody for a moment: there is no file for who comes."""
        self._connections.seldom("there is no file for who comes", errno.errorcode.get(fault.errno or 0, "Fault"))
        self._loop.remove_reader(listening)
        self._loop.call_later(
            AGAIN_SECONDS, lambda: self._loop.add_reader(listening, self._take, listening) if self._sockets else None
        )

    def _turn_away(self, taken: socket.socket) -> None:
        """Says in the clear that there is no room, where that can be read."""
        with contextlib.suppress(OSError):
            taken.setblocking(False)
            if self._is_http and self._tls is None:
                taken.send(Problem("FrontBusy").raw())
        taken.close()

    async def _open(self, taken: socket.socket, leave: Leave) -> None:
        """Has TLS spoken, where it is wanted; from then on the connection leaves by itself."""
        try:
            taken.setblocking(False)
            taken.setsockopt(socket.IPPROTO_TCP, socket.TCP_NODELAY, 1)
            handshake = HANDSHAKE_SECONDS if self._tls is not None else None
            await self._loop.connect_accepted_socket(
                lambda: self._factory(leave), taken, ssl=self._tls, ssl_handshake_timeout=handshake
            )
        except (OSError, asyncio.CancelledError) as fault:
            # A scanner, a caller that trusts nobody, or one that says nothing.
            self._connections.seldom("a connection did not come about", type(fault).__name__)
            taken.close()
            leave()


class Stream(asyncio.StreamReaderProtocol):
    """A connection that is read as a stream, and counted until it is lost."""

    def __init__(self, reader: asyncio.StreamReader, serve: Serve, leave: Leave) -> None:
        super().__init__(reader, serve)
        self._leave = leave

    def connection_lost(self, fault: Exception | None) -> None:
        self._leave()
        super().connection_lost(fault)


def listen_for_streams(
    connections: Connections, serve: Serve, at: tuple[str, int], tls: ssl.SSLContext | None, limit: int
) -> Listener:
    """Listens for connections that are read as streams."""

    def made(leave: Leave) -> asyncio.Protocol:
        return Stream(asyncio.StreamReader(limit), serve, leave)

    listener = Listener(connections, made, tls, is_http=False)
    listener.start(*at)
    return listener
