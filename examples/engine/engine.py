#!/usr/bin/python3
"""A payer's own system, to try one: engine.py DATABASE PORT FEED.., where FEED is the command that tells rows. README.md says more."""
import datetime
import http.server
import json
import sqlite3
import subprocess
import sys
import threading
import time
from typing import Any

from vogrilas import Answer, Ruling, decoded

# What payer sheets say of whom they do not know, of a refill too soon, and of an interaction.
NOT_A_MEMBER, TOO_SOON, INTERACTS = "07", "79", "88"
COPAY, MOST_FEE, SOON_DAYS, SECONDS, HEAD = 1000, 150, 23, 2.0, 31
POST = "INSERT OR IGNORE INTO ledger VALUES (:row, :transaction, :pharmacy, :number, :ruling, :authorization, :cents, NULL)"
DATABASE, LOCK = sqlite3.connect(sys.argv[1], check_same_thread=False), threading.Lock()
DATABASE.executescript(open(f"{sys.path[0]}/tables.sql", encoding="ascii").read())


def one(text: str, *given: object) -> Any:
    return DATABASE.execute(text, given).fetchone()


def follow() -> None:
    """Makes the ledger of what the feed tells, from the last row that it has on, which may be there in part."""
    while True:
        last = one("SELECT COALESCE(MAX(row), 1) FROM ledger")[0]
        words = [*sys.argv[3:], f"--from={last}", "--follow", "--every=0.1"]
        for line in subprocess.Popen(words, stdout=subprocess.PIPE).stdout or ():
            with LOCK, DATABASE:
                DATABASE.execute(POST, json.loads(line))
        time.sleep(0.5)


def rejected(request: bytes, code: str, message: str = "") -> bytes:
    """What is told of a transaction that is rejected: a code, and behind it a message (526-FQ)."""
    return Answer((Ruling("rejected", codes=(code,), messages=(message,) if message else ()),)).to(request)[HEAD:]


def approved(request: bytes, claim: dict[str, Any], pharmacy: int, day: int) -> bytes:
    """What is told of a reversal: that it is approved (`A`), or that one of the same payment was approved before (`S`)."""
    find = "SELECT authorization FROM paid WHERE (pharmacy, prescription, day) = (?, ?, ?) AND fill = COALESCE(?, fill)"
    payment = one(find, pharmacy, claim["prescription"], day, claim.get("fill"))
    again = bool(payment and not DATABASE.execute("INSERT OR IGNORE INTO approved VALUES (?)", payment).rowcount)
    return Answer((Ruling("reversed", None, claim["prescription"], again=again),)).to(request)[HEAD:]


def ruled(request: bytes, claim: dict[str, Any], day: int, is_overridden: bool) -> tuple[bytes, int | None]:
    """What is told of a claim, by what its member has had, and how much of one that is paid is the deductible."""
    had = (claim["cardholder"], claim["product"])
    left = one("SELECT available FROM deductibles WHERE cardholder = ?", had[0])
    last, near = one("SELECT MAX(day), MIN(ABS(day - ?)) FROM standing WHERE (cardholder, product) = (?, ?)", day, *had)
    other = not is_overridden and one("SELECT other FROM interacting WHERE cardholder = ? AND product = ?", *had)
    if not left:
        return rejected(request, NOT_A_MEMBER, "NO SUCH MEMBER"), None
    if last and near < SOON_DAYS:
        return rejected(request, TOO_SOON, f"NO REFILL BEFORE {datetime.date.fromordinal(last + SOON_DAYS)}"), None
    if other:
        return rejected(request, INTERACTS, f"DOES NOT GO WITH {other[0]}"), None
    fee = min(claim["fee"], MOST_FEE)
    deductible = min(left[0], claim["cost"] + fee)
    copay = deductible + min(COPAY, claim["cost"] + fee - deductible)
    paid = Ruling("paid", None, claim["prescription"], claim["cost"], fee, copay)
    return Answer((paid,)).to(request)[HEAD:], deductible


def answer(pharmacy: int, number: int, request: bytes) -> bytes:
    """The answer to a request, the same each time. Another request under its number gets none, by a fault of the table."""
    key, told = (pharmacy, number, request), decoded(request)
    if known := one("SELECT said FROM answers WHERE (pharmacy, number, request) = (?, ?, ?)", *key):
        return bytes(known[0])
    said = b"D0%b%bA%b" % (request[8:10], request[20:21], request[21:46])
    day = datetime.date.fromisoformat(request[38:46].decode()).toordinal()
    is_overridden = any(part.get("field") == "441-E6" for part in told["parts"])
    for place in range(1, int(request[20:21]) + 1):
        claim, deductible = next(it for it in told["findings"] if it["transaction"] == place), None
        if "code" in claim:
            group = rejected(request, claim["code"])
        elif claim["order"] == "reversal":
            group = approved(request, claim, pharmacy, day)
        else:
            group, deductible = ruled(request, claim, day, is_overridden)
        kept = (claim.get(it) for it in ("cardholder", "product", "prescription", "fill"))
        one("INSERT INTO answers VALUES (?, ?, ?, ?, ?, ?, ?, ?, ?, ?, NULL)", *key, place, *kept, day, deductible)
        said += group
    one("UPDATE answers SET said = ? WHERE (pharmacy, number) = (?, ?)", said, pharmacy, number)
    return said


class Handler(http.server.BaseHTTPRequestHandler):
    def do_POST(self) -> None:
        request, end = self.rfile.read(int(self.headers["Content-Length"])), time.monotonic() + SECONDS
        pharmacy, number, rows = (int(self.headers[f"Vogrilas-{it}"]) for it in ("Pharmacy", "Number", "Rows"))
        # What the book had as this was asked has to be in the ledger first.
        while one("SELECT COALESCE(MAX(row), 0) FROM ledger")[0] < rows:
            if time.monotonic() > end:
                return self.send_error(503)
            time.sleep(0.02)
        with LOCK, DATABASE:
            said = answer(pharmacy, number, request)
        self.wfile.write(b"HTTP/1.0 200 OK\r\nContent-Length: %d\r\n\r\n%b" % (len(said), said))


threading.Thread(target=follow, daemon=True).start()
http.server.ThreadingHTTPServer(("127.0.0.1", int(sys.argv[2])), Handler).serve_forever()
