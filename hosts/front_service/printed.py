"""Printed bytes (docs/FORMATS.md), as lines of nodes and of claimdecode have them."""

import re

_NAMED = {0x1C: "\\F", 0x1D: "\\G", 0x1E: "\\S", 0x5C: "\\\\"}
_TEXTS = [_NAMED.get(it) or (chr(it) if 0x20 <= it <= 0x7E else f"\\x{it:02x}") for it in range(256)]
# Most texts have printable bytes and separators alone.
_USUAL = re.compile(rb"[\x1c-\x1e\x20-\x5b\x5d-\x7e]*")
_PRINTABLE = re.compile(rb"[\x20-\x7e]*")
_TOKEN = re.compile(rb"\\x([0-9a-fA-F]{2})|\\([FGS\\])|([\x20-\x5b\x5d-\x7e]+)")
_BYTES = {b"F": b"\x1c", b"G": b"\x1d", b"S": b"\x1e", b"\\": b"\\"}


def printed(data: bytes) -> bytes:
    """The text that spells these bytes."""
    if _USUAL.fullmatch(data):
        return data.replace(b"\x1c", b"\\F").replace(b"\x1d", b"\\G").replace(b"\x1e", b"\\S")
    return "".join([_TEXTS[it] for it in data]).encode("ascii")


def unprinted(text: bytes) -> bytes:
    """The bytes that a text spells; ValueError where it spells none."""
    if b"\\\\" not in text and b"\\x" not in text and _PRINTABLE.fullmatch(text):
        data = text.replace(b"\\F", b"\x1c").replace(b"\\G", b"\x1d").replace(b"\\S", b"\x1e")
        if b"\\" not in data:
            return data
    parts, at = [], 0
    while at < len(text):
        found = _TOKEN.match(text, at)
        if found is None:
            raise ValueError(f"no byte is spelled at place {at}")
        digits, name, plain = found.groups()
        parts.append(plain or (bytes([int(digits, 16)]) if digits else _BYTES[name]))
        at = found.end()
    return b"".join(parts)
