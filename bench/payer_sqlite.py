"""payer_sqlite.py DATABASE: the same as payer_sqlite.c, as one would write it in Python: rulings on billings of one transaction over a
table in SQLite, with a unique index on the fill, a write-ahead log and a synced commit for all lines that wait. It is for bench/against."""

import os
import sqlite3
import sys

PRINTED = {0x1C: b"\\F", 0x1D: b"\\G", 0x1E: b"\\S", 0x5C: b"\\\\"}
SPELLED = {0x46: 0x1C, 0x47: 0x1D, 0x53: 0x1E, 0x5C: 0x5C}
TABLE = """
create table if not exists claims (id blob primary key, request blob not null, answer blob not null,
    bin blob, pcn blob, provider blob, rx integer, fill integer, serial integer) without rowid;
create unique index if not exists standing on claims (bin, pcn, provider, rx, fill) where serial is not null;
"""
ENTER = "insert into claims values (?, ?, ?, ?, ?, ?, ?, ?, ?)"
STANDING = "select serial from claims where bin = ? and pcn = ? and provider = ? and rx = ? and fill = ? and serial is not null"


def unprinted(text: bytes) -> bytes:
    """Printed bytes, read."""
    first, *others = text.split(b"\\")
    out, at = bytearray(first), 0
    while at < len(others):
        part = others[at]
        if part[:1] == b"x":
            out += bytes.fromhex(part[1:3].decode()) + part[3:]
        elif part:
            out.append(SPELLED[part[0]])
            out += part[1:]
        else:
            at += 1
            out += b"\\" + others[at]
        at += 1
    return bytes(out)


def printed(text: bytes) -> bytes:
    """Bytes, printed."""
    return b"".join(PRINTED.get(b) or (bytes([b]) if 0x20 <= b <= 0x7E else b"\\x%02x" % b) for b in text)


def cents(text: bytes) -> int:
    """Cents of an amount that is not negative."""
    return (
        int(text[:-1] or b"0") * 10
        + (b"{ABCDEFGHI".find(text[-1:]) if text[-1:] not in b"0123456789" else int(text[-1:]))
        if text
        else 0
    )


def amount(number: int) -> bytes:
    """An amount's text."""
    return (b"%d" % (number // 10) if number >= 10 else b"") + b"{ABCDEFGHI"[number % 10 : number % 10 + 1]


class Payer:
    """A table, and the next serial."""

    def __init__(self, path: str) -> None:
        self.db = sqlite3.connect(path, isolation_level=None)
        self.db.execute("pragma journal_mode = wal")
        self.db.execute("pragma synchronous = full")
        self.db.executescript(TABLE)
        self.serial = 1

    def served(self, line: bytes) -> bytes:
        """What is said to a line `take sw1 TEXT`."""
        packet = unprinted(line[9:])
        kept = self.db.execute("select answer from claims where id = ?", (packet[4:14],)).fetchone()
        answer = kept[0] if kept else self.ruled(packet[4:14], packet[18:])
        head = packet[:3] + b"\x02" + packet[4:14] + len(answer).to_bytes(4, "big")
        return b"send sw1 " + printed(head + answer) + b"\nok\n"

    def ruled(self, number: bytes, request: bytes) -> bytes:
        """The answer to a billing, entered."""
        parts = request[56:].replace(b"\x1d", b"").replace(b"\x1e", b"").split(b"\x1c")
        fields = {part[:2]: part[2:] for part in parts}
        fill = (request[:6], request[10:20], request[21:38], int(fields[b"D2"]), int(fields[b"D3"]))
        fee = min(cents(fields.get(b"DC", b"")), 150)
        cost = min(cents(fields[b"D9"]), int(fields[b"E7"]) * 18567 // 100000)
        copay = min(1000, cost + fee)
        found = self.db.execute(STANDING, fill).fetchone()
        serial = found[0] if found else self.serial
        values = b"\x1cF5%s\x1cF6%s\x1cF7%s\x1cF9%s" % (
            amount(copay),
            amount(cost),
            amount(fee),
            amount(cost + fee - copay),
        )
        answer = b"D0B11A%s\x1d\x1e\x1cAM21\x1cAN%s\x1cF30001%012d\x1e\x1cAM22\x1cEM1\x1cD2%d\x1e\x1cAM23%s" % (
            request[21:46],
            b"D" if found else b"P",
            serial,
            fill[3],
            values,
        )
        self.db.execute(
            ENTER, (number, request, answer, *(fill if not found else (None,) * 5), None if found else serial)
        )
        self.serial += not found
        return answer


def main() -> None:
    payer, have = Payer(sys.argv[1]), b""
    os.write(1, b"ready 0\n")
    while got := os.read(0, 1 << 20):
        *lines, have = (have + got).split(b"\n")
        payer.db.execute("begin immediate")
        said = b"".join(payer.served(line) for line in lines if line.startswith(b"take sw1 "))
        payer.db.execute("commit")
        while said:
            said = said[os.write(1, said) :]


if __name__ == "__main__":
    main()
