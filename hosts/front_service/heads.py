"""HTTP/1.1 as its standard has it (RFC 9112), and nothing besides: what comes on a connection is taken apart here before the library reads it.

The lines of a head end with CR LF, none is folded, none has a control byte, the version is 1.0 or 1.1, and the length of the body is said once.
What is otherwise is refused by a code. So nobody before or behind the front can see other requests in the same bytes, and the library is fed
nothing that it would complain of, byte by byte.
"""

from __future__ import annotations

import enum
import re

MOST_HEAD_BYTES = 8190
MOST_CHUNK_LINE = 64
MOST_DIGITS = 9
_TOKEN = rb"[!#$%&'*+.^_`|~0-9A-Za-z-]+"
_VALUE = rb"[^\x00-\x08\x0a-\x1f\x7f]*"
_LINE = re.compile(rb"([A-Z]{1,16}) (?:https?://[^/ ]+)?/[!-~]* HTTP/1\.([01])\r\n")
_FIELDS = re.compile(rb"(?:" + _TOKEN + rb":" + _VALUE + rb"\r\n)*\r\n")
_FIELD = re.compile(_TOKEN + rb":" + _VALUE)
_METHODS = (b"GET", b"HEAD", b"POST", b"PUT", b"DELETE", b"PATCH", b"OPTIONS")
_HOST, _UPGRADE = b"\r\nhost:", b"\r\nupgrade:"
_LENGTH, _CODING = b"\r\ncontent-length:", b"\r\ntransfer-encoding:"
_UPGRADES = re.compile(rb"\r\nupgrade:[^\r]*(?=\r)", re.IGNORECASE)
_CHUNK = re.compile(rb"([0-9A-Fa-f]{1,8})(?:[ \t]*;" + _VALUE + rb")?")
CODES = {
    "Line": "the first line is none of HTTP/1.0 or HTTP/1.1",
    "Method": "there is no such method",
    "Field": "a header field is none: its line is folded, ends without CR LF, has a control byte, or no name, or it stands twice",
    "Length": "the length of the body is no length, or said twice",
    "Chunk": "a chunk of the body is none",
    "Long": f"a head has at most {MOST_HEAD_BYTES} bytes",
}


class BadRequest(Exception):
    """What is no request of HTTP: by which code, and how many bytes had come."""

    def __init__(self, code: str, size: int) -> None:
        super().__init__(code)
        self.code, self.size = code, size


def _value_of(low: bytes, name: bytes) -> bytes:
    """What a field of a head says; nothing where it stands there twice."""
    _, _, behind = low.partition(name)
    return b"" if name in behind else behind[: behind.index(b"\r")].strip(b" ")


class Part(enum.Enum):
    """What comes next."""

    HEAD = enum.auto()
    BODY = enum.auto()
    CHUNK_LINE = enum.auto()
    CHUNK = enum.auto()
    TRAILER = enum.auto()


class Requests:
    """The requests of one connection: what came goes in, and comes out piece by piece."""

    def __init__(self) -> None:
        self._came = bytearray()
        self._part = Part.HEAD
        # How many bytes of the body, or of a chunk with its end, are still to come; how many of a trailer have.
        self._left = self._trailer = 0
        self._looked = 0

    @property
    def is_in_body(self) -> bool:
        return self._part is not Part.HEAD

    @property
    def waiting(self) -> int:
        """How many bytes have come and were not handed on."""
        return len(self._came)

    def feed(self, data: bytes) -> None:
        self._came += data

    def head(self) -> bytes:
        """The next head, once it is whole; else nothing."""
        while self._came.startswith(b"\r\n"):
            # The standard lets empty lines stand before a request.
            del self._came[:2]
        end = self._came.find(b"\r\n\r\n", self._looked) + 4
        if end < 4 or end > MOST_HEAD_BYTES:
            if len(self._came) > MOST_HEAD_BYTES:
                raise BadRequest("Long", len(self._came))
            self._looked = max(0, len(self._came) - 3)
            return b""
        head = bytes(self._came[:end])
        low = head.lower()
        self._begin(head, low)
        self._looked = 0
        del self._came[:end]
        # No other protocol is spoken here. One that is offered is passed over, as the standard allows: the library would wait for it.
        return _UPGRADES.sub(b"", head) if _UPGRADE in low else head

    def body(self) -> bytes:
        """What has come of a body, as it came; nothing where more has to come, or where it has ended."""
        if self._part is Part.BODY:
            return self._take(min(self._left, len(self._came)), Part.HEAD)
        if self._part is Part.CHUNK:
            return self._chunk()
        if self._part is Part.CHUNK_LINE:
            return self._chunk_line()
        if self._part is Part.TRAILER:
            return self._trailer_line()
        return b""

    def _begin(self, head: bytes, low: bytes) -> None:
        """Looks a head over, which is given in small letters too: whether it is one, and how long its body is."""
        line = _LINE.match(head)
        if line is None:
            raise BadRequest("Line", len(head))
        if line[1] not in _METHODS:
            raise BadRequest("Method", len(head))
        if _FIELDS.fullmatch(head, line.end()) is None or low.count(_HOST) > 1:
            raise BadRequest("Field", len(head))
        if _CODING in low:
            if _LENGTH in low or line[2] == b"0" or _value_of(low, _CODING) != b"chunked":
                raise BadRequest("Length", len(head))
            self._part = Part.CHUNK_LINE
        elif _LENGTH in low:
            length = _value_of(low, _LENGTH)
            if not length.isdigit() or len(length) > MOST_DIGITS:
                raise BadRequest("Length", len(head))
            self._left = int(length)
            self._part = Part.BODY if self._left else Part.HEAD

    def _take(self, size: int, then: Part) -> bytes:
        """So many bytes; behind the last that are left something else comes."""
        data = bytes(self._came[:size])
        del self._came[:size]
        self._left -= size
        if not self._left:
            self._part = then
        return data

    def _chunk(self) -> bytes:
        """What has come of a chunk; the line end behind it is looked at before it goes on."""
        if self._left > 2:
            return self._take(min(self._left - 2, len(self._came)), Part.CHUNK)
        if len(self._came) < 2:
            return b""
        if not self._came.startswith(b"\r\n"):
            raise BadRequest("Chunk", len(self._came))
        return self._take(2, Part.CHUNK_LINE)

    def _chunk_line(self) -> bytes:
        line = self._line(MOST_CHUNK_LINE)
        if not line:
            return b""
        found = _CHUNK.fullmatch(line, 0, len(line) - 2)
        if found is None:
            raise BadRequest("Chunk", len(line))
        size = int(found[1], 16)
        self._left, self._trailer = size + 2, 0
        self._part = Part.CHUNK if size else Part.TRAILER
        return line

    def _trailer_line(self) -> bytes:
        line = self._line(MOST_HEAD_BYTES)
        self._trailer += len(line)
        if self._trailer > MOST_HEAD_BYTES or (len(line) > 2 and not _FIELD.fullmatch(line, 0, len(line) - 2)):
            raise BadRequest("Chunk", len(line))
        if line == b"\r\n":
            self._part = Part.HEAD
        return line

    def _line(self, most: int) -> bytes:
        """The next line with its end, once it is whole; else nothing."""
        end = self._came.find(b"\r\n", 0, most) + 2
        if end < 2:
            if len(self._came) >= most:
                raise BadRequest("Chunk", len(self._came))
            return b""
        line = bytes(self._came[:end])
        del self._came[:end]
        return line
