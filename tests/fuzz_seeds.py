"""What tests/host-fuzz begins with: for each target inputs as its readers know them, made of cases, examples, and of what hosts and nodes write."""

from __future__ import annotations

import base64
import pathlib
import struct
import subprocess
import sys
from collections.abc import Iterator

sys.dont_write_bytecode = True
TOP = pathlib.Path(__file__).resolve().parent.parent
sys.path[:0] = [str(TOP / "cases"), str(TOP / "hosts"), str(TOP / "tests")]
from front_service.printed import printed, unprinted  # noqa: E402
from suite import networks  # noqa: E402
from suite.nodes import Served, room  # noqa: E402

MESSAGES = TOP / "examples" / "messages"
TEXTS = {path.stem: path.read_text(encoding="ascii").strip() for path in sorted(MESSAGES.glob("*.txt"))}
HEAD_OF_LOG, BEFORE_BODY, AROUND_BODY = 46, 16, 24
# The nodes of the target `records`, and the settings of each.
NODES = (("ph1", "plan"), ("sw1", "plan"), ("pr1", "plan"), ("pr1", "asks"))
SETTINGS = {"plan": networks.settings(), "asks": networks.settings(asks=True)}
# Words by which a fuzzer changes an input, beside its bytes.
WORDS = """submit submit-as take adjudicate tick plan terms retry cap stop start answer wait count row payments open at send number known refused ok idle none
    NotAdvised ph1 sw1 pr1 network key route claims.ph1.from. PS D0B1 D0B2 _INBOX. Log-At: Log-Digest: Log-Owner: "hdrs":" "data":" "seq": follows leaves GET /metrics /healthz /readyz HTTP/1.1 200 Content-Length: Transfer-Encoding: chunked Connection: close
    wants moves ready served vouches seen stx length2 length4 http:// https:// tls:// 127.0.0.1 localhost [::1]"""
WORDS += r" \F \G \S \\ \x01 \x00"


def enveloped(kind: int, request: bytes, number: int = 1) -> bytes:
    """A packet of pharmacy 1, in printed bytes."""
    return printed(b"PS\x01" + struct.pack(">BHQI", kind, 1, number, len(request)) + request)


def heads() -> Iterator[bytes]:
    for kind, name in ((1, "billing"), (1, "reversal"), (2, "answer")):
        yield enveloped(kind, unprinted(TEXTS[name].encode()), 2**63 + kind)
    yield rb"\F\G\S\\ \x00\xff \xFFend"
    for line in (TOP / "cases" / "messages" / "printed-text.rows").read_bytes().splitlines()[:60]:
        yield line.partition(b" ")[2]


def lines() -> Iterator[bytes]:
    packet = enveloped(1, unprinted(TEXTS["billing"].encode()))
    for place, asked in enumerate(
        (b"submit ", b"submit-as c1 ", b"answer 7", b"wait 7", b"count", b"row 1", b"payments 1 9", b"stop")
    ):
        text = asked + (TEXTS["billing"].encode() if asked.startswith(b"submit") else b"")
        yield bytes([0, 0 if place < 4 else 2, 1]) + b"x\n" + text
        yield bytes([0, 2, 2]) + b"x\n" + text
    yield bytes([0, 1, 0]) + b"ph1\n" + packet
    yield bytes([0, 2, 0]) + b"sw65535\n" + packet
    told = (
        b"send sw1 " + packet + b"\nnumber 1\n",
        b"entry 1\nentry 2\nend\nok\n",
        b"1 2 paid\npayment 1 2\nend\nrefused NotAdvised\n",
        b"open\nanswer " + TEXTS["answer"].encode() + b"\nsend sw1 x\nok\n",
    )
    for place, text in enumerate(told):
        yield bytes([1, place % 3, 2]) + packet + b"\n" + bytes([1, 3, 5]) + text


def entries() -> Iterator[bytes]:
    heads_of = "NATS/1.0\r\nLog-At: 46\r\nLog-Digest: " + "0" * 64 + "\r\nLog-Owner: one.01020304\r\n\r\n"
    coded = [base64.b64encode(it).decode() for it in (heads_of.encode(), bytes(range(70)))]
    yield b"\0" + f'{{"message":{{"subject":"log.ph1","seq":7,"hdrs":"{coded[0]}","data":"{coded[1]}"}}}}'.encode()
    yield b"\0" + b'{"error":{"code":400,"err_code":10071,"description":"wrong last sequence: 9"}}'
    yield b"\1" + bytes(range(16)) + bytes(range(200))
    words = (
        "has",
        "wants",
        "follows",
        "leaves",
        "vouches",
        "moves self.01020304",
        "ready self.01020304",
        "served self.01020304 _INBOX.1",
    )
    yield b"\2" + "\n".join(f"other.0a0b0c0d {place} {word}" for place, word in enumerate(words)).encode()


def seen() -> Iterator[bytes]:
    line = f"seen 1 made.01020304 12 4096 {'ab' * 32} 1"
    yield f"{line:<255}\n".encode()
    yield f"{line.replace('made.01020304', '-').replace('12', '0'):<255}\n".encode()


def keys(folder: pathlib.Path) -> Iterator[bytes]:
    words = [sys.executable, TOP / "hosts" / "permissions", TOP / "examples" / "six-nodes.toml", folder, "--keys"]
    subprocess.run(words, check=True, stdout=subprocess.DEVNULL)
    own, text = ((folder / name).read_bytes() for name in ("ph1.key", "keys"))
    request = unprinted(TEXTS["billing"].encode())
    yield b"\1" + own + request + b"\n" + text
    yield b"\0" + own + enveloped(1, request) + b"\n" + text
    rows = b"route 610455 A1\\x20\\x20\\x20\\x20\\x20\\x20\\x20\\x20 - - - 1\nroute 610455 - 01 1234567893\\x20\\x20\\x20\\x20\\x20 "
    yield b"\1" + own + request + b"\n" + text + rows + b"1234567899\\x20\\x20\\x20\\x20\\x20 65535\n"
    last = b"route 610455 - 01 1234567890\\x20\\x20\\x20\\x20\\x20 1234567893\\x20\\x20\\x20\\x20\\x20 7\n"
    yield b"\1" + own + request + b"\n" + text.replace(b"route 610455", b"route 999999") + last
    rejected = b"rejected 610455 A1\\x20\\x20\\x20\\x20\\x20\\x20\\x20\\x20 01 1234567893\\x20\\x20\\x20\\x20\\x20 "
    yield b"\2" + own + request + b"\n" + text + rejected + b"1\n"
    yield b"\2" + own + request + b"\n" + text + rejected + b"2\n"


def advices() -> Iterator[bytes]:
    billing, answer = unprinted(TEXTS["billing"].encode()), unprinted(TEXTS["answer"].encode())
    yield b"\0\0\7\x02" + answer + b"\x03"
    yield b"\0\1\7" + struct.pack(">H", len(answer)) + answer
    yield b"\0\2\xff" + struct.pack(">I", len(answer)) + answer + b"more"
    yield b"\1" + b"\x20A\x10B" * 20
    for place, head in enumerate(
        (b"Content-Length: %d" % len(answer), b"Transfer-Encoding: chunked", b"Connection: close")
    ):
        body = b"%x\r\n%b\r\n0\r\n\r\n" % (len(answer), answer) if place == 1 else answer
        yield b"\3" + bytes([100 * (place == 2)]) + b"HTTP/1.1 200 OK\r\nX: y\r\n" + head + b"\r\n\r\n" + body
    for name in ("billing", "reversal"):
        yield b"\2" + TEXTS[name].encode() + b"\n" + TEXTS["answer"].encode()
    paid = printed(b"D0B1" + billing[20:21] + b"A" + billing[21:46] + answer[31:])
    yield b"\2" + TEXTS["billing"].encode() + b"\n" + paid


def requests() -> Iterator[bytes]:
    for page in ("metrics", "healthz", "readyz", "x"):
        yield f"GET /{page} HTTP/1.1\r\nHost: 127.0.0.1\r\n\r\n".encode()


def systems() -> Iterator[bytes]:
    for how, url in enumerate(
        ("http://127.0.0.1:8080/rules", "127.0.0.1:9", "https://payer.example/rules", "tls://payer.example:99")
    ):
        for framing in ("stx", "length4"):
            yield bytes([how % 2 + 2 * (how > 1)]) + f"{url}\n{framing}\nsecret-token\n".encode()


def records() -> Iterator[bytes]:
    claims = [networks.billing(200_000 + number) for number in range(3)]
    lines_of = [
        f"at 5 submit-as caller-1 {claims[0]}",
        f"submit {claims[1]}",
        f"submit {claims[1]}",
        "tick",
        "stop",
        "start",
        "at 6 tick",
    ]
    yield b"\0" + "\n".join(lines_of).encode()
    packet = enveloped(1, unprinted(claims[0].encode())).decode()
    yield b"\2" + f"take ph1 {packet}\nat 7 take ph1 {packet}\nstop\ncap 5\nat 8 cap 16777216\nstart".encode()
    yield b"\4" + f"take sw1 {packet}\nplan 00093721410 none\nplan 00093721410 5\ntake sw1 {packet}".encode()
    yield b"\6" + f"take sw1 {packet}\nadjudicate sw1 {TEXTS['answer'].replace(' ', chr(92) + 'x20')} {packet}".encode()
    with room() as folder:
        for place, (node, settings) in enumerate(NODES):
            text, log = pathlib.Path(folder, f"{settings}.toml"), pathlib.Path(folder, f"{place}.log")
            text.write_text(SETTINGS[settings], encoding="ascii")
            asked = [f"take {'sw1' if node == 'pr1' else 'ph1'} {packet}", "stop", "cap 5", "start"]
            with Served(str(text), node, str(log)) as served:
                served.ask_all(lines_of if node == "ph1" else asked)
            yield bytes([1 + 2 * place]) + b"".join(bodies(log.read_bytes()))


def bodies(log: bytes) -> Iterator[bytes]:
    """The bodies of a log's records, each behind its length."""
    at = HEAD_OF_LOG
    while at < len(log):
        size = int.from_bytes(log[at : at + 8], "big")
        yield struct.pack(">H", size) + log[at + BEFORE_BODY : at + BEFORE_BODY + size]
        at += AROUND_BODY + size


def words() -> str:
    """The dictionary of a fuzzer."""
    spelled = (
        "".join(chr(it) if 0x20 < it < 0x7F and it not in b'"\\' else f"\\x{it:02x}" for it in word.encode())
        for word in WORDS.split()
    )
    return "".join(f'"{word}"\n' for word in spelled)
