"""Who has a switch's login and its key, and speaks as it at a server: packets with signatures of any kind, for tests of what hosts take."""

import ctypes
import json
import pathlib
import select
import socket
import time
from typing import NamedTuple

SODIUM = ctypes.CDLL("libsodium.so.23")
HEADER = "Vogrilas-Signed"
HEAD_BYTES = 18
SEPARATORS = {"F": 0x1C, "G": 0x1D, "S": 0x1E, "\\": 0x5C}


class Packet(NamedTuple):
    """A packet as it came: its subject, its printed bytes, and what stands beside it."""

    subject: str
    text: bytes
    signature: str

    @property
    def head(self):
        """Kind, pharmacy and number."""
        raw = unprinted(self.text)
        return raw[3], int.from_bytes(raw[4:6], "big"), int.from_bytes(raw[6:14], "big")

    @property
    def payload(self):
        return unprinted(self.text)[HEAD_BYTES:]


def unprinted(text):
    """The bytes that printed bytes spell."""
    found, place = bytearray(), 0
    while place < len(text):
        one = chr(text[place])
        if one != "\\":
            found.append(ord(one))
            place += 1
        elif chr(text[place + 1]) == "x":
            found.append(int(text[place + 2 : place + 4], 16))
            place += 4
        else:
            found.append(SEPARATORS[chr(text[place + 1])])
            place += 2
    return bytes(found)


def printed(raw):
    """Bytes as printed ones."""
    spelt = {byte: f"\\{letter}" for letter, byte in SEPARATORS.items()}
    return "".join(spelt.get(it) or (chr(it) if 0x20 <= it < 0x7F else f"\\x{it:02x}") for it in raw).encode()


def enveloped(kind, pharmacy, number, payload):
    """A packet in printed bytes."""
    head = b"PS" + bytes([1, kind]) + pharmacy.to_bytes(2, "big") + number.to_bytes(8, "big")
    return printed(head + len(payload).to_bytes(4, "big") + payload)


def rejection(answer):
    """What a switch answers where a claim has no route, to the request of an answer."""
    return answer[:5] + b"R" + answer[6:31] + b"\x1d\x1e\x1cAM21\x1cANR\x1cFA1\x1cFB01"


def rejected_of(request):
    """An answer to a request, with its provider and day, that rejects what was asked."""
    return request[6:10] + b"1A" + request[21:46] + b"\x1d\x1e\x1cAM21\x1cANR\x1cFA1\x1cFB70"


class Folder:
    """The keys that hosts/permissions has written, to sign as any of their nodes."""

    def __init__(self, folder):
        self.folder = pathlib.Path(folder)
        lines = (self.folder / "keys").read_text(encoding="ascii").splitlines()
        self.network = bytes.fromhex(next(it.split()[1] for it in lines if it.startswith("network ")))

    def sign(self, node, text, named=None, network=None):
        """A signature of a node's over a packet, under its name or another."""
        seed = bytes.fromhex((self.folder / f"{node}.key").read_text(encoding="ascii").split()[1])
        public, secret, signature = (ctypes.create_string_buffer(size) for size in (32, 64, 64))
        message = b"vogrilas packet 1\0" + (network or self.network) + unprinted(text)
        SODIUM.crypto_sign_seed_keypair(public, secret, seed)
        SODIUM.crypto_sign_detached(signature, None, message, ctypes.c_ulonglong(len(message)), secret)
        return f"{named or node} {signature.raw.hex()}"


class Wire:
    """A connection to a server under a node's login, which hears the packets for that node."""

    def __init__(self, net, node):
        host, _, port = net.url.rpartition(":")
        user, _, password = pathlib.Path(net.login(node)).read_text(encoding="ascii").strip().partition(":")
        self.node, self._socket, self._buffer = node, socket.create_connection((host, int(port)), 10), b""
        given = {"user": user, "pass": password, "headers": True, "verbose": False, "pedantic": False}
        self._send(f"CONNECT {json.dumps(given)}\r\nSUB claims.{node}.from.* 1\r\nPING\r\n".encode())
        self.heard = []
        self.listen(0.5)

    def _send(self, data):
        self._socket.sendall(data)

    def publish(self, to, text, signature=None):
        """Sends a packet to a node."""
        head = b"NATS/1.0\r\n" + (f"{HEADER}: {signature}\r\n" if signature is not None else "").encode() + b"\r\n"
        subject = f"claims.{to}.from.{self.node}"
        self._send(f"HPUB {subject} {len(head)} {len(head) + len(text)}\r\n".encode() + head + text + b"\r\n")

    def listen(self, seconds):
        """Hears for so long."""
        end = time.monotonic() + seconds
        while (left := end - time.monotonic()) > 0:
            if select.select([self._socket], [], [], left)[0]:
                self._buffer += self._socket.recv(1 << 16)
                while self._take():
                    continue

    def wait_for(self, is_it, what, seconds=30):
        """The last packet that came of which this is so."""
        end = time.monotonic() + seconds
        while time.monotonic() < end:
            found = [it for it in self.heard if is_it(it)]
            if found:
                return found[-1]
            self.listen(0.1)
        raise OSError(f"not heard in {seconds} s: {what}")

    def _take(self):
        """Takes what the server has said first; false where that is not yet whole."""
        line, there, rest = self._buffer.partition(b"\r\n")
        word = line.decode().split(" ")
        if not there:
            return False
        if word[0] not in ("MSG", "HMSG"):
            self._buffer = rest
            if word[0] == "PING":
                self._send(b"PONG\r\n")
            return True
        size = int(word[-1])
        if len(rest) < size + 2:
            return False
        head = rest[: int(word[-2])] if word[0] == "HMSG" else b""
        signed = [it.partition(":")[2].strip() for it in head.decode().split("\r\n") if it.startswith(HEADER)]
        self.heard.append(Packet(word[1], rest[len(head) : size], signed[0] if signed else ""))
        self._buffer = rest[size + 2 :]
        return True

    def close(self):
        self._socket.close()
