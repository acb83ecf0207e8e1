"""Debian's libnats for asyncio. What is published may be lost, repeated or reordered, as the rules of the nodes allow. Reconnecting, pings,
TLS and limits are the library's; what its threads bring is handed to the loop."""

import asyncio
import atexit
import contextlib
import ctypes
import sys
from collections.abc import Callable
from typing import Any, NamedTuple, TypeAlias

from access import Access

PING_SECONDS, CLOSE_SECONDS, ANEW_SECONDS = 5.0, 5.0, 1.0
At: TypeAlias = ctypes.c_void_p
TEXT, LONG = ctypes.c_char_p, ctypes.c_int64
MESSAGE, CHANGE = ctypes.CFUNCTYPE(None, At, At, At, At), ctypes.CFUNCTYPE(None, At, At)
REFUSAL = ctypes.CFUNCTYPE(None, At, At, ctypes.c_int, At)
try:
    LIBRARY = ctypes.CDLL("libnats.so.3.4")
except OSError:
    sys.exit("there is no libnats: apt-get install libnats3.4")
# Of what is no int in C the type is said: here of results, and where it is given.
for _name in ("natsStatus_GetText", "nats_GetLastError", "natsMsg_GetSubject", "natsMsg_GetReply"):
    getattr(LIBRARY, _name).restype = TEXT
LIBRARY.natsMsg_GetData.restype, LIBRARY.natsMsg_IsNoResponders.restype = At, ctypes.c_bool
atexit.register(LIBRARY.nats_CloseAndWait, LONG(1000))
# What the library's threads may call: it outlives them.
_called: list[Any] = []


class Message(NamedTuple):
    """A message that came; whether it is the server's word that nobody hears what was asked."""

    subject: str
    reply: str
    payload: bytes
    is_unheard: bool = False


def _taken(at: int) -> Message:
    message, size = At(at), LIBRARY.natsMsg_GetDataLength(At(at))
    subject, reply = LIBRARY.natsMsg_GetSubject(message).decode(), (LIBRARY.natsMsg_GetReply(message) or b"").decode()
    payload = ctypes.string_at(LIBRARY.natsMsg_GetData(message), size) if size else b""
    came = Message(subject, reply, payload, LIBRARY.natsMsg_IsNoResponders(message))
    LIBRARY.natsMsg_Destroy(message)
    return came


def _why(connection: int | None, status: int = 0) -> str:
    text = TEXT()
    LIBRARY.natsConnection_GetLastError(At(connection), ctypes.byref(text))
    return (text.value or (LIBRARY.natsStatus_GetText(status) if status else b"")).decode(errors="replace")


def _done(name: str, *given: Any) -> None:
    """Has the library do something; what it refuses is raised."""
    if getattr(LIBRARY, name)(*given) != 0:
        raise OSError((LIBRARY.nats_GetLastError(None) or b"").decode(errors="replace").rpartition("): ")[2])


class Wire:
    """A connection that comes again by itself, with its subscriptions, when the server goes and comes back; who has it says what is to be
    done where it `came`, `went`, or something is `refused`. A server may be silent for so many seconds."""

    def __init__(self, access: Access, name: str, ping: float) -> None:
        self._access, self._name, self._ping = access, name, ping
        self._at, self._heard, self._is_closed = At(), list[tuple[bytes, Any]](), asyncio.Event()
        self.task: asyncio.Task[None] | None = None

    def changed(self, what: str, why: str) -> None:
        """It came or went, or the server refuses something."""

    async def start(self) -> None:
        """Begins to connect, and goes on for as long as the program runs."""
        self._loop, options = asyncio.get_running_loop(), self._options()
        self.task = asyncio.create_task(self._run(options))

    async def close(self) -> None:
        """Goes from the server, once what was published has reached it."""
        await self.flush(CLOSE_SECONDS)
        if self.task is not None:
            self.task.cancel()
            await asyncio.wait([self.task])

    async def _run(self, options: At) -> None:
        """Is connected. The library gives up a connection whose user is refused twice: it is made anew."""
        while True:
            self._is_closed.clear()
            at = At()
            try:
                await asyncio.to_thread(_done, "natsConnection_Connect", ctypes.byref(at), options)
                self._at = at
                for heard in self._heard:
                    LIBRARY.natsConnection_Subscribe(ctypes.byref(At()), at, *heard, None)
                self.changed("came", "")
                await self._is_closed.wait()
            except OSError as fault:
                self.changed("went", str(fault))
            finally:
                LIBRARY.natsConnection_Destroy(at)
                self._at = At()
            await asyncio.sleep(ANEW_SECONDS)

    def _options(self) -> At:
        access, options = self._access, At()
        servers = (TEXT * len(access.servers))(*(it.url.encode() for it in access.servers))
        came, went = [CHANGE(lambda at, _, it=it: self._hand(self.changed, it, _why(at))) for it in ("came", "went")]
        closed = CHANGE(lambda *_: self._hand(self._is_closed.set))
        refused = REFUSAL(lambda at, _, status, __: self._hand(self.changed, "refused", _why(at, status)))
        _called.append((came, went, closed, refused))
        _done("natsOptions_Create", ctypes.byref(options))
        for name, *given in (
            ("SetServers", servers, len(servers)), ("SetName", self._name.encode()), ("SetTimeout", LONG(5000)),
            ("SetSecure", any(it.is_tls for it in access.servers)), ("SetMaxReconnect", -1), ("SetReconnectWait", LONG(200)),
            ("SetReconnectJitter", LONG(200), LONG(500)), ("SetReconnectBufSize", 1 << 20), ("SetMaxPingsOut", 2),
            ("SetPingInterval", LONG(int(self._ping * 1000))), ("SetErrorHandler", refused, None), ("SetReconnectedCB", came, None),
            ("SetDisconnectedCB", went, None), ("SetClosedCB", closed, None),
            *[("SetUserInfo", access.user.encode(), access.password.encode())] * bool(access.user),
            *[("LoadCATrustedCertificates", str(access.authorities).encode())] * bool(access.authorities),
        ):  # fmt: skip
            _done(f"natsOptions_{name}", options, *given)
        return options

    def _hand(self, call: Callable[..., None], *given: Any) -> None:
        """Has the loop call something, where it still runs; from any thread."""
        with contextlib.suppress(RuntimeError):
            self._loop.call_soon_threadsafe(call, *given)

    def subscribe(self, subject: str, handler: Callable[[Message], None]) -> None:
        """Calls `handler(message)` for each message of a subject. It may not wait: what waits is the handler's to bound."""
        self._heard.append((subject.encode(), MESSAGE(lambda _, __, at, ___: self._hand(handler, _taken(at)))))
        _called.append(self._heard[-1])
        LIBRARY.natsConnection_Subscribe(ctypes.byref(At()), self._at, *self._heard[-1], None)

    def publish(self, subject: str, payload: bytes, reply: str = "", headers: dict[str, str] | None = None) -> None:
        """Sends a message. Without a connection it may be lost, as a packet may be."""
        message = At()
        LIBRARY.natsMsg_Create(ctypes.byref(message), subject.encode(), reply.encode() or None, payload, len(payload))
        for name, value in (headers or {}).items():
            LIBRARY.natsMsgHeader_Set(message, name.encode(), value.encode())
        status = LIBRARY.natsConnection_PublishMsg(self._at, message)
        LIBRARY.natsMsg_Destroy(message)
        if status != 0:
            self.changed("refused", _why(None, status))

    async def flush(self, seconds: float) -> bool:
        """Whether the server has read all that was sent so far, in so many seconds."""
        flushed = LIBRARY.natsConnection_FlushTimeout, self._at, LONG(int(seconds * 1000))
        return bool(await asyncio.to_thread(*flushed) == 0)
