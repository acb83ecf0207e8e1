"""Keys of a network: FOLDER/keys, which all hosts have, and for each node FOLDER/NODE.key, which is its own. A node signs what it sends, and
whoever takes a packet looks whether the signature holds. Debian's libsodium makes the keys."""

import ctypes
import functools
import pathlib
import secrets
import sys
from collections.abc import Collection, Iterable, Iterator
from typing import Any

from settings import Settings

SEED_BYTES = KEY_BYTES = NETWORK_BYTES = 32
HEAD = """# Written by hosts/permissions: the keys under which signatures of nodes hold, and who pays what. Each host has it, and it is no secret.
"""


@functools.cache
def sodium() -> ctypes.CDLL:
    """Debian's libsodium, which is begun."""
    try:
        library = ctypes.CDLL("libsodium.so.23")
    except OSError:
        sys.exit("there is no libsodium: apt-get install libsodium23")
    if library.sodium_init() < 0:
        sys.exit("libsodium makes no key")
    return library


def public_of(seed: bytes) -> bytes:
    """The key under which signatures of this seed's hold."""
    public, secret = ctypes.create_string_buffer(KEY_BYTES), ctypes.create_string_buffer(2 * SEED_BYTES)
    if sodium().crypto_sign_seed_keypair(public, secret, seed) != 0:
        sys.exit("libsodium makes no key")
    return public.raw


def printed(text: str, size: int) -> str:
    """A text as a header has it, filled with spaces, as a word of printed bytes."""
    return "".join(
        chr(it) if 0x20 < it < 0x7F and it != 0x5C else f"\\x{it:02x}" for it in text.encode().ljust(size, b" ")
    )


def route_line(row: dict[str, Any]) -> str:
    """A row of the routes: its PCN and its providers, each `-` where it is for all; of one that leads to no payer its provider, and the last of
    its requests that stay rejected."""
    pcn = printed(row["pcn"], 10) if "pcn" in row else "-"
    if "rejected" in row:
        key = [printed(row["bin"], 6), pcn, printed(row["qualifier"], 2), printed(row["provider"], 15)]
        return " ".join(["rejected", *key, str(row["rejected"])])
    providers = ["-", "-", "-"]
    if "qualifier" in row:
        first, last = (row.get(key, row.get("provider", "")) for key in ("first", "last"))
        providers = [printed(row["qualifier"], 2), printed(first, 15), printed(last, 15)]
    return " ".join(["route", printed(row["bin"], 6), pcn, *providers, str(row["payer"])])


class Keys:
    """The keys of a folder. Of each node the seed in its file and the keys in `keys` are looked at once, and what is written is told piece by
    piece: there may be 65,535 nodes and more."""

    def __init__(self, folder: pathlib.Path) -> None:
        self._folder = folder
        self.network, self._known = secrets.token_hex(NETWORK_BYTES), dict[str, tuple[bytes, ...]]()
        self._drawn: dict[str, bytes] = {}
        if self.are_there(folder):
            with (folder / "keys").open(encoding="ascii") as file:
                self._read(file)

    @staticmethod
    def are_there(folder: pathlib.Path) -> bool:
        return (folder / "keys").exists()

    def _read(self, lines: Iterable[str]) -> None:
        for line in lines:
            word = line.split()
            if line.startswith("network "):
                self.network = word[1]
            elif line.startswith("key "):
                self._known[word[1]] = (*self._known.get(word[1], ()), bytes.fromhex(word[2]))

    def _own(self, node: str) -> bytes | None:
        """The seed in a node's file; nothing where that is not there, or another's."""
        try:
            with open(f"{self._folder}/{node}.key", encoding="ascii") as file:
                word = file.read().split()
        except FileNotFoundError:
            return None
        is_own = len(word) == 2 and word[0] == node and len(word[1]) == 2 * SEED_BYTES
        return bytes.fromhex(word[1]) if is_own else None

    def _draw(self, node: str) -> bytes:
        """A new key, which the node signs with from now on; under which signatures hold."""
        self._drawn[node] = secrets.token_bytes(SEED_BYTES)
        return public_of(self._drawn[node])

    def _of(self, node: str, is_turned: bool, is_retired: bool) -> tuple[bytes, ...]:
        """The keys of a node from now on: one, or two where it is being turned. A node without a file gets a new key, and what it had holds no
        more."""
        own, there = self._own(node), self._known.get(node, ())
        public = public_of(own) if own else b""
        if not own or public not in there:
            return (self._draw(node),)
        if is_turned:
            return (public, self._draw(node))
        return (public,) if is_retired else there

    def _are_two(self, node: str) -> bool:
        """Whether a node's key is being turned already."""
        own, there = self._own(node), self._known.get(node, ())
        return len(there) > 1 and own is not None and public_of(own) in there

    def _lines(self, settings: Settings, turned: Collection[str], retired: Collection[str]) -> Iterator[str]:
        """What all hosts have, a line each."""
        yield f"{HEAD}network {self.network}\n"
        for node in settings.nodes():
            for key in self._of(node, node in turned, node in retired):
                yield f"key {node} {key.hex()}\n"
        for row in settings.routes():
            yield f"{route_line(row)}\n"

    def complete(
        self, settings: Settings, turned: Collection[str], retired: Collection[str]
    ) -> Iterator[tuple[str, Iterable[str]]]:
        """The files to write, by name, in this order, each before the next one is asked for."""
        for node in settings.nodes():
            if node in turned and self._are_two(node):
                sys.exit(f"permissions: {node} has two keys: --retire-key {node} first")
        # A key holds everywhere before anything is signed with it.
        yield "keys", self._lines(settings, turned, retired)
        for node, seed in self._drawn.items():
            yield f"{node}.key", [f"{node} {seed.hex()}\n"]
