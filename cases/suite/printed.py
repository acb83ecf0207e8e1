"""Printed bytes, the spelling of octets that the programs read and write (docs/FORMATS.md)."""
import re

NAMES = {0x1C: "\\F", 0x1D: "\\G", 0x1E: "\\S", 0x5C: "\\\\"}
OCTETS = {"\\F": b"\x1c", "\\G": b"\x1d", "\\S": b"\x1e", "\\\\": b"\\"}
SPELLED = re.compile(r"\\[FGS\\]|\\x[0-9A-Fa-f]{2}|[\x20-\x5b\x5d-\x7e]")


def printed(octets: bytes) -> str:
    """Octets as they are printed."""
    return "".join(NAMES.get(octet) or (chr(octet) if 0x20 <= octet <= 0x7E else f"\\x{octet:02x}") for octet in octets)


def octets_of(text: str) -> bytes:
    """The octets that a printed text spells."""
    found = SPELLED.findall(text)
    if "".join(found) != text:
        raise ValueError(f"no printed text: {text!r}")
    return b"".join(OCTETS.get(it) or (bytes([int(it[2:], 16)]) if len(it) > 1 else it.encode("ascii")) for it in found)
