"""A node, and what it says of a call."""

from __future__ import annotations

import ctypes
import enum
import json
import os
import threading
from dataclasses import dataclass
from typing import Any, Callable, Optional, Sequence, TypeVar, Union

from ._library import LIBRARY, Handle, RawPayment, SettingsHandle


class Code(enum.IntEnum):
    """What the library says of a call."""

    OK = 0
    NO_MEMORY = 1
    CLOSED = 2
    OPEN = 3
    SHORT_BUFFER = 4
    NAME = 5
    SETTINGS = 6
    NO_SUCH_NODE = 7
    OTHER_NODE = 8
    NOT_A_LOG = 9
    LOG_VERSION = 10
    DAMAGED_HEAD = 11
    NO_KIND = 12
    OTHER_SETTINGS = 13
    DAMAGED = 14
    BAD_RECORD = 15
    BAD_TEXT = 16
    UNANSWERED = 17
    NOT_FOUND = 18
    NO_RUN = 19
    UNSYNCED = 20
    TOO_MANY = 21
    FIELD_EMPTY = 22
    FIELD_TOO_LONG = 23
    FIELD_SEPARATOR = 24
    FIELD_SPACE = 25
    FIELD_DIGITS = 26
    FIELD_DAY = 27
    NOT_A_REST = 28


class Message:
    """A message by its fields: `bytes(message)` makes it."""

    def __bytes__(self) -> bytes:
        raise NotImplementedError


class VogrilasError(Exception):
    """A call on the library that was not made. `code` says why, and `place` where, of a damaged log or a bad text; of an audit
    `log` is which of the logs it is, from 0."""

    def __init__(self, code: Code, place: Optional[int] = None, log: Optional[int] = None) -> None:
        words = code.name.lower().replace("_", " ")
        words += "" if place is None else f" at byte {place}"
        super().__init__(words if log is None else f"{words}, log {log}")
        self.code = code
        self.place = place
        self.log = log


class Refused(Exception):
    """A call that the node refused, and that changed nothing. `name` is the name of the refusal."""

    def __init__(self, name: str) -> None:
        super().__init__(name)
        self.name = name


@dataclass(frozen=True)
class Packet:
    """A packet for a node: its name, as "sw1", and the bytes."""

    to: str
    data: bytes


@dataclass(frozen=True)
class Said:
    """What a node says of a call that it made: the packets that it sent, and of a submission the number of its entry."""

    sent: tuple[Packet, ...]
    number: Optional[int] = None


@dataclass(frozen=True)
class Payment:
    """A payment, in cents: its authorization by the payer and its serial there, what it was paid for, and the request that
    reversed it, by its pharmacy and its number there; None where it stands. Texts have spaces at their ends."""

    payer: int
    serial: int
    bin: bytes
    pcn: bytes
    qualifier: bytes
    provider: bytes
    prescription: int
    fill_number: int
    cost: int
    fee: int
    copay: int
    total: int
    reversed_by: Optional[tuple[int, int]] = None

    @property
    def authorization(self) -> str:
        """The authorization number (503-F3), sixteen digits."""
        return f"{self.payer:04}{self.serial:012}"


HeldT = TypeVar("HeldT", bound="_Held")
_PLACED = (Code.DAMAGED, Code.BAD_RECORD, Code.BAD_TEXT)


def check_code(code: int, place: Optional[int] = None) -> None:
    if code:
        known = Code(code)
        if known is Code.NO_MEMORY:
            raise MemoryError("vogrilas: the node is closed; open it again from its log")
        raise VogrilasError(known, place if known in _PLACED else None)


def _copied(call: Callable[..., int], *given: Any, room: int = 0) -> bytes:
    """The bytes that a call copies into a buffer, which grows once where it is too short."""
    size = ctypes.c_size_t()
    while True:
        buffer = ctypes.create_string_buffer(max(room, 1))
        code = call(*given, buffer, room, ctypes.byref(size))
        if code != Code.SHORT_BUFFER:
            check_code(code, size.value)
            return ctypes.string_at(buffer, size.value)
        room = size.value


def _as_size(size: int) -> int:
    """A size; another type is refused."""
    if not isinstance(size, int) or isinstance(size, bool):
        raise TypeError(f"a size has to be an int, not {type(size).__name__}")
    return size


def printed(data: bytes) -> bytes:
    """The text that spells bytes in lines."""
    data = as_bytes(data, "a message")
    return _copied(LIBRARY.vogrilas_print, data, len(data), room=len(data) + 64)


def unprinted(text: bytes) -> bytes:
    """The bytes that a text spells. Raises VogrilasError with BAD_TEXT where it spells none."""
    text = as_bytes(text, "a text")
    return _copied(LIBRARY.vogrilas_unprint, text, len(text), room=len(text))


def described(message: bytes) -> str:
    """What is in a message, and why it is rejected, in lines for people, as claimdecode tells it."""
    return _described(message, 0).decode("ascii")


def decoded(message: bytes) -> dict[str, Any]:
    """The same as claimdecode's object of JSON: `kind`, `parts`, `findings` and so on."""
    told: dict[str, Any] = json.loads(_described(message, 1))
    return told


@dataclass(frozen=True)
class Audit:
    """What is told of logs: whether they are those of one legal run, and what claimaudit writes of them."""

    legal: bool
    text: str


def audited(settings: bytes, logs: Sequence[bytes]) -> Audit:
    """Whether logs, one of each node of the settings, are those of one legal run: a line for each log, then what the run left,
    or why there is none. Raises VogrilasError where the settings are none, or a log is none of them: `log` is which one.
    """
    return _audited(settings, logs, 0)


def audited_tables(settings: bytes, logs: Sequence[bytes]) -> dict[str, Any]:
    """The same as claimaudit's object of JSON, with all tables of what the run left."""
    told: dict[str, Any] = json.loads(_audited(settings, logs, 1).text)
    return told


def _audited(settings: bytes, logs: Sequence[bytes], style: int) -> Audit:
    settings, logs = as_bytes(settings, "settings"), [as_bytes(log, "a log") for log in logs]
    joined = b"".join(logs)
    sizes = (ctypes.c_size_t * max(len(logs), 1))(*map(len, logs))
    given = (settings, len(settings), joined, len(joined), sizes, len(logs), style)
    size = ctypes.c_size_t()
    room = 1 << 14
    while True:
        buffer = ctypes.create_string_buffer(room)
        code = LIBRARY.vogrilas_audit(*given, buffer, room, ctypes.byref(size))
        if code in (Code.OK, Code.NO_RUN):
            return Audit(code == Code.OK, ctypes.string_at(buffer, size.value).decode("ascii"))
        if code == Code.NO_MEMORY:
            raise MemoryError("vogrilas: no memory for an audit")
        if code != Code.SHORT_BUFFER:
            raise VogrilasError(Code(code), log=None if code == Code.SETTINGS else size.value)
        room = size.value


def _described(message: bytes, style: int) -> bytes:
    message = as_bytes(message, "a message")
    return _copied(LIBRARY.vogrilas_describe, message, len(message), style, room=1 << 14)


def as_bytes(given: Any, what: str) -> bytes:
    """What a caller gives as bytes, or makes bytes of, as a Billing does. TypeError where it is something else, before any call is made with it."""
    if isinstance(given, bytes):
        return given
    if isinstance(given, (bytearray, memoryview)) or isinstance(given, Message):
        return bytes(given)
    raise TypeError(f"{what} has to be bytes, not {type(given).__name__}")


def as_name(given: Any) -> bytes:
    """The name of a node, in the same way. One that no node has is for the library to refuse."""
    if not isinstance(given, str):
        raise TypeError(f"the name of a node has to be a str, not {type(given).__name__}")
    return given.encode("utf-8", "replace")


def _expect_id(number: int, pharmacy: int = 1) -> None:
    """Refuses numbers that no id has, which would be cut to others on their way to the library."""
    if not (0 < number < 1 << 64 and 0 < pharmacy < 1 << 16):
        raise VogrilasError(Code.NOT_FOUND)


def _payment(raw: RawPayment) -> Payment:
    """A payment of a list that the library has written."""
    texts: dict[str, Any] = {name: bytes(getattr(raw, name)) for name in ("bin", "pcn", "qualifier", "provider")}
    numbers = ("payer", "serial", "prescription", "fill_number", "cost", "fee", "copay", "total")
    by = (raw.reversed_pharmacy, raw.reversed_number) if raw.reversed_number else None
    return Payment(**texts, **{name: getattr(raw, name) for name in numbers}, reversed_by=by)


class _Held:
    """What the library has behind a handle, until it is let go of."""

    def __init__(self, handle: ctypes.Structure, let_go: Callable[..., object]) -> None:
        self._handle, self._let_go = handle, let_go
        self._lock = threading.Lock()

    def close(self) -> None:
        """Lets it go. A second close does nothing."""
        with self._lock:
            self._let_go(ctypes.byref(self._handle))

    def __enter__(self: HeldT) -> HeldT:
        return self

    def __exit__(self, *_about: object) -> None:
        self.close()

    def __del__(self) -> None:
        if hasattr(self, "_lock"):
            self.close()


class Settings(_Held):
    """Settings that are opened once, for any number of nodes: `Node(settings, ..)` and `FileNode(settings, ..)` take them in the place of the
    bytes of a settings file, and what nodes under the same settings have in common is in memory once. They may be closed before the
    nodes that were opened under them, which go on. A lock lets one node at a time be opened under them.
    """

    def __init__(self, text: bytes) -> None:
        super().__init__(SettingsHandle(), LIBRARY.vogrilas_close_settings)
        text, seed = as_bytes(text, "settings"), os.urandom(16)
        check_code(LIBRARY.vogrilas_open_settings(ctypes.byref(self._handle), text, len(text), seed, len(seed)))

    def open_node(self, node: ctypes.Structure, name: bytes, log: bytes, kept: ctypes.c_size_t) -> int:
        """What the library says to a node that is to be opened under these settings. For Node."""
        given = (name, len(name), log, len(log), ctypes.byref(kept))
        with self._lock:
            code: int = LIBRARY.vogrilas_open_under(ctypes.byref(node), ctypes.byref(self._handle), *given)
        return code


class Node(_Held):
    """A node without its file, as the library has it. FileNode has the file as well.

    `log` is what the log's file has, which may go on after closed ones, and `kept` how many bytes of it stay. Behind `serve` come `records`, which are appended to the log's file and synced;
    `synced`, which says so; `written`, and `clear`. A node that was just opened also wants to hear, by `synced`, that its log is
    on disk. Until then each call that tells of the node but `heard` raises VogrilasError with UNSYNCED. Closed, it is let go of with
    what is not on disk.
    """

    def __init__(self, settings: Union[bytes, Settings], name: str, log: bytes = b"") -> None:
        super().__init__(Handle(), LIBRARY.vogrilas_close)
        kept = ctypes.c_size_t()
        if isinstance(settings, Settings):
            code = settings.open_node(self._handle, as_name(name), as_bytes(log, "a log"), kept)
        else:
            settings, word, log = as_bytes(settings, "settings"), as_name(name), as_bytes(log, "a log")
            seed = os.urandom(16)
            given = (settings, len(settings), word, len(word), log, len(log), seed, len(seed))
            code = LIBRARY.vogrilas_open(ctypes.byref(self._handle), *given, ctypes.byref(kept))
        check_code(code, kept.value)
        self.name = name
        self.kept: int = kept.value

    def serve(self, line: bytes) -> None:
        """Does what a line asks. After a MemoryError the node is closed, and has to be opened again from its log."""
        line = as_bytes(line, "a line")
        with self._lock:
            check_code(LIBRARY.vogrilas_serve(ctypes.byref(self._handle), line, len(line)))

    def submit(self, request: Union[bytes, Message]) -> None:
        """Enters a request, of a pharmacy: the line `submit` with the text of these bytes, or of a message's."""
        request = as_bytes(request, "a request")
        with self._lock:
            check_code(LIBRARY.vogrilas_submit(ctypes.byref(self._handle), request, len(request)))

    def take(self, sender: str, packet: bytes) -> None:
        """Takes a packet that has come from this node: the line `take` with the text of these bytes."""
        name, packet = as_name(sender), as_bytes(packet, "a packet")
        with self._lock:
            check_code(LIBRARY.vogrilas_take(ctypes.byref(self._handle), name, len(name), packet, len(packet)))

    def adjudicate(self, sender: str, packet: bytes, advice: bytes) -> None:
        """Takes a packet that has come from this node together with an advice, the answer that the payer's own system has given to the
        request in it: the line `adjudicate` with the texts of these bytes. The payer's settings have to ask."""
        name, packet, advice = as_name(sender), as_bytes(packet, "a packet"), as_bytes(advice, "an advice")
        given = (name, len(name), packet, len(packet), advice, len(advice))
        with self._lock:
            check_code(LIBRARY.vogrilas_adjudicate(ctypes.byref(self._handle), *given))

    def records(self) -> bytes:
        """What is to be appended to the log, and synced: the records that `synced` has not said to be on disk."""
        with self._lock:
            return _copied(LIBRARY.vogrilas_records, ctypes.byref(self._handle))

    def records_after(self, passed: int) -> bytes:
        """What comes after the first `passed` bytes of that: for a host that has appended those, and waits for their sync."""
        if not 0 <= _as_size(passed) < 1 << 64:
            return b""
        with self._lock:
            return _copied(LIBRARY.vogrilas_records_after, ctypes.byref(self._handle), passed)

    def synced(self, size: int) -> None:
        """Says that so many bytes of the records, the first, are on disk: appended, and synced with all that stands in the file
        before them. Raises VogrilasError with TOO_MANY where the records are fewer."""
        if not 0 <= _as_size(size) < 1 << 64:
            raise VogrilasError(Code.TOO_MANY)
        with self._lock:
            check_code(LIBRARY.vogrilas_kept(ctypes.byref(self._handle), size))

    def written(self) -> bytes:
        """What came of the lines, from the first on, whose records and those before them are on disk: of all of them where all is. Raises
        VogrilasError with UNSYNCED where nothing may be told yet, as does `clear`; all that is read raises it until all is on disk.
        """
        with self._lock:
            return _copied(LIBRARY.vogrilas_written, ctypes.byref(self._handle))

    def clear(self) -> None:
        """Notes that what `written` gives was used."""
        with self._lock:
            check_code(LIBRARY.vogrilas_clear(ctypes.byref(self._handle)))

    @property
    def calls(self) -> int:
        """How many calls the node's log has, those of closed logs before it included."""
        return self._number(LIBRARY.vogrilas_calls)

    @property
    def count(self) -> int:
        """How many entries a pharmacy's journal has, slots a switch's table, or rows a payer's book."""
        return self._number(LIBRARY.vogrilas_count)

    @property
    def most(self) -> int:
        """The most that `count` can be: the cap of the pharmacy or payer in the settings, or that of the switch, which may change."""
        return self._number(LIBRARY.vogrilas_most)

    def _number(self, tells: Callable[..., int]) -> int:
        """The number that a call of the library tells."""
        number = ctypes.c_uint64()
        with self._lock:
            check_code(tells(ctypes.byref(self._handle), ctypes.byref(number)))
        return number.value

    def request(self, number: int) -> bytes:
        """The request of a pharmacy's entry, by its number from 1. Raises VogrilasError with NOT_FOUND where there is none."""
        _expect_id(number)
        with self._lock:
            return _copied(LIBRARY.vogrilas_request, ctypes.byref(self._handle), number, room=1 << 10)

    def answer(self, pharmacy: int, number: int) -> Optional[bytes]:
        """The answer that the node holds for a request, by its pharmacy and its number there: a pharmacy those to its own
        entries, a switch those in its table, a payer those of its book. None where it is an open entry of this pharmacy; raises
        VogrilasError with NOT_FOUND where there is nothing."""
        return self._answer(LIBRARY.vogrilas_answer, pharmacy, number)

    def heard(self, pharmacy: int, number: int) -> Optional[bytes]:
        """The answer of a pharmacy's own entry that a payer gave, also before it is on disk: where it is lost the payer gives the
        same again. None where the entry is open; raises VogrilasError with UNSYNCED where the request has no route (`answer` tells
        that once all is on disk), and with NOT_FOUND where there is no such entry."""
        return self._answer(LIBRARY.vogrilas_heard, pharmacy, number)

    def _answer(self, gives: Callable[..., int], pharmacy: int, number: int) -> Optional[bytes]:
        """The answer that a call of the library gives; none where the entry is open."""
        _expect_id(number, pharmacy)
        try:
            with self._lock:
                return _copied(gives, ctypes.byref(self._handle), pharmacy, number, room=1 << 10)
        except VogrilasError as refused:
            if refused.code is Code.UNANSWERED:
                return None
            raise

    def payments(self) -> list[Payment]:
        """The payments that a pharmacy counts, or those of a payer's book with what reversed them, in the order in which they
        were made. The list is made by one walk over the journal or the book."""
        count = ctypes.c_size_t()
        room = 0
        with self._lock:
            while True:
                raw = (RawPayment * max(room, 1))()
                code = LIBRARY.vogrilas_payments(ctypes.byref(self._handle), raw, room, ctypes.byref(count))
                if code != Code.SHORT_BUFFER:
                    check_code(code)
                    return [_payment(one) for one in raw[: count.value]]
                room = count.value


def read_said(written: bytes) -> Said:
    """What a node says of one call. Raises Refused where it refused it."""
    sent = []
    number = None
    for line in written.splitlines():
        word, _, rest = line.partition(b" ")
        if word == b"send":
            to, _, text = rest.partition(b" ")
            sent.append(Packet(to.decode(), unprinted(text)))
        elif word == b"number":
            number = int(rest)
        elif word == b"refused":
            raise Refused(rest.decode())
    return Said(tuple(sent), number)
