"""Who may call: a file with a line for each, `WHO TOKEN`, WHO a pharmacy as ph1, or `operator`, or several with commas between them.

A pharmacy's token enters its claims and reads them. The operator's reads those of all pharmacies, and the network; it enters claims of those
pharmacies alone that its lines name, as `operator,ph1`.
"""

from __future__ import annotations

import hashlib
import hmac
import os
import pathlib
import re
import secrets
import stat
import sys

OPERATOR = "operator"
WHO = re.compile(r"(?:ph[1-9][0-9]{0,4}|operator)(?:,(?:ph[1-9][0-9]{0,4}|operator))*")
MOST_FILE_BYTES = 1 << 24
# A token that a person thought of is too short.
LEAST_LENGTH = 24


def _digest(token: str) -> bytes:
    """The digest of a token. What comes over a wire may be any bytes."""
    return hashlib.sha256(token.encode("utf-8", "surrogateescape")).digest()


class Tokens:
    """The tokens of a file."""

    def __init__(self, pairs: list[tuple[str, str]]) -> None:
        self._known = [(who, _digest(token)) for who, token in pairs]

    @classmethod
    def read(cls, name: str) -> Tokens:
        """Of a file that nobody else may read; ends the program where it is none."""
        try:
            told = os.stat(name)
            if not stat.S_ISREG(told.st_mode) or told.st_size > MOST_FILE_BYTES:
                sys.exit(f"{name}: it is no file of tokens")
            if stat.S_IMODE(told.st_mode) & 0o077:
                sys.exit(f"{name}: others may read it; chmod 600")
            lines = pathlib.Path(name).read_text(encoding="ascii").splitlines()
        except (OSError, ValueError) as fault:
            sys.exit(f"{name}: {fault.strerror if isinstance(fault, OSError) else 'it has bytes that are no letters'}")
        pairs = []
        for place, line in enumerate(lines, 1):
            words = line.split()
            if not words or line.startswith("#"):
                continue
            if len(words) != 2 or not WHO.fullmatch(words[0]) or len(words[1]) < LEAST_LENGTH:
                sys.exit(f"{name}: line {place}: WHO TOKEN is wanted, the token of {LEAST_LENGTH} letters or more")
            pairs += [(who, words[1]) for who in words[0].split(",")]
        return cls(pairs)

    def take(self, other: Tokens) -> None:
        """Goes by others from now on."""
        self._known = other._known

    def who(self, token: str) -> set[str]:
        """Whose token it is. Each is compared, in the same time."""
        given = _digest(token)
        return {who for who, digest in self._known if hmac.compare_digest(digest, given)}


def make(who: str, name: str) -> str:
    """Adds a new token to a file; the token."""
    token = secrets.token_urlsafe(24)
    with open(os.open(name, os.O_WRONLY | os.O_CREAT | os.O_APPEND, 0o600), "a", encoding="ascii") as file:
        file.write(f"{who} {token}\n")
        file.flush()
        os.fsync(file.fileno())
    return token
