"""Callers of fronts that claim while all else is killed, what they are told, and how that is judged: for tests/front-soak and tests/soak-all."""

import csv
import io
import random
import re
import subprocess
import sys
import threading
import time

sys.dont_write_bytecode = True
import network  # noqa: E402
import programs  # noqa: E402
from front_calls import Caller, amount_of, billing, frames  # noqa: E402
from network import HOSTS, expect  # noqa: E402

# Writes what a front has told as the table that `claimaudit --receipts` reads.
RECEIPTS = HOSTS / "receipts"
# Rejections since it is late: what is sent again has the answer, once there is one.
LATE = (b"\x1cFB92", b"\x1cFB95")
# What says that it is not now: it is sent again.
NOT_NOW = (200, 202, 503, 504)
BINS = ("610455", "610456")
# How many claims each caller has room for.
ROOM = 100_000


def claim_of(number, pharmacy, bins):
    """A billing of its own of this pharmacy, for the first payer or one of the others: of who sends it, who waits for one alone stops no other."""
    bins = bins[:1] if number // ROOM % 2 else bins[1:]
    provider = b"%d" % (1234567892 + int(pharmacy[2:]))
    message = billing(number).replace(b"1234567893", provider, 1)
    return message.replace(b"610455", bins[number % len(bins)].encode(), 1)


class Callers:
    """Callers of fronts, and what they are told."""

    def __init__(self, pause, seed):
        self.pause, self.bins = pause, list(BINS)
        self.is_over, self.is_quiet = threading.Event(), threading.Event()
        # What was told under which number, what is otherwise than it has to be, and which number has no last answer.
        self.told, self.faults, self.unanswered = {}, [], []
        self._random, self._threads, self._end = random.Random(seed), [], 0.0

    def start(self, front, token, http, tcp, pharmacy="ph1"):
        """So many callers of a pharmacy more, over HTTP and over TCP."""
        for does in [self.by_http] * http + [self.by_tcp] * tcp:
            first = ROOM * (1 + len(self._threads))
            given = (does, front, token, pharmacy, first)
            self._threads.append(threading.Thread(target=self._surely, args=given))
            self._threads[-1].start()

    def finish(self, seconds):
        """Nothing is killed any more: each caller has so many seconds to be told its last answer."""
        self._end = time.monotonic() + seconds
        self.is_quiet.set()
        self.is_over.set()
        for thread in self._threads:
            thread.join()

    def _surely(self, does, *given):
        try:
            does(*given)
        except Exception as fault:  # Whatever it is, the test has failed.
            self.faults.append(f"{does.__name__}: {fault!r}")

    def _is_late(self, number):
        is_late = self.is_quiet.is_set() and time.monotonic() > self._end
        if is_late:
            self.unanswered.append(number)
        return is_late

    def by_http(self, front, token, pharmacy, number):
        """Claims under keys, each sent until it has its answer, and once more."""
        caller = Caller(front, token, set())
        while not self.is_over.wait(self.pause):
            number += 1
            message, answers = claim_of(number, pharmacy, self.bins), set()
            while len(answers) == 0 or (len(answers) == 1 and self._random.random() < 0.5):
                answer = caller.send(message, f"soak-{number}", 2, pharmacy)
                if answer is not None and answer.status == 200 and not answer.body.endswith(LATE):
                    answers.add(answer.body)
                elif answer is not None and answer.status not in NOT_NOW:
                    self.faults.append(f"{answer.status} {answer.body[:200]}")
                    return
                elif self._is_late(number):
                    return
                else:
                    time.sleep(0.05)
            if len(answers) != 1 or b"\x1cANP" not in next(iter(answers)):
                self.faults.append(f"key soak-{number}: told {answers}")
            self.told[number] = answers

    def by_tcp(self, front, _, pharmacy, number):
        """Claims without keys: the same bytes are sent until there is an answer, which may be that of a repeat."""
        connection = None
        while not self.is_over.wait(self.pause):
            number += 1
            message, answer = claim_of(number, pharmacy, self.bins), b""
            # What is rejected since it is late is asked for again.
            while not answer.startswith(b"D0") or answer.endswith(LATE):
                if self._is_late(number):
                    return
                try:
                    if connection is None:
                        connection = front.connect()
                    connection.sendall(b"\x02" + message + b"\x03")
                    answer = frames(connection, 1)[0]
                except (OSError, network.Failed):
                    connection = None
                    time.sleep(0.1)
            self.told[number] = {answer}


def audit_table(table, settings, logs):
    """A table of the run, as CSV."""
    words = [programs.program("claimaudit"), "--csv", table, settings, *logs]
    return subprocess.run(list(map(str, words)), capture_output=True, text=True, check=True).stdout


def judge(callers, settings, logs):
    """What was told against what stands in the logs; the payments, and what was told in cents."""
    expect(not callers.faults, f"{callers.faults[:3]}")
    paid, cents, told = {}, {}, 0
    for row in csv.DictReader(io.StringIO(audit_table("payments", settings, logs))):
        expect(row["prescription"] not in paid, f"prescription {row['prescription']} is paid twice")
        paid[row["prescription"]] = row["authorization"].encode()
        cents[row["prescription"]] = int(row["paid_cents"])
    for number, answers in callers.told.items():
        prescription = str(100_000 + number)
        expect(prescription in paid, f"a caller was told of a payment of {prescription}, and there is none")
        for answer in answers:
            found = re.search(rb"\x1cF3([0-9]{16})", answer)
            expect(
                found and found[1] == paid[prescription],
                f"prescription {prescription}: told {answer[:120]}, and paid is {paid[prescription]}",
            )
            expect(
                amount_of(answer) == cents[prescription],
                f"prescription {prescription}: told {amount_of(answer)} cents, and paid are {cents[prescription]}",
            )
        told += cents[prescription]
    return len(paid), told


def compare(folder, fronts, settings, logs):
    """What each front has told of each number of its pharmacy, beside the tables of the run: `claimaudit --receipts` finds none that the run does
    not have. How many."""
    tables, count = [], 0
    for table in ("entries", "packets"):
        tables.append(folder / f"{table}.csv")
        tables[-1].write_text(audit_table(table, settings, logs))
    for pharmacy, front in fronts.items():
        told = folder / f"receipts-{pharmacy}.csv"
        with open(told, "wb") as out:
            subprocess.run([sys.executable, RECEIPTS, front.receipts, pharmacy], stdout=out, check=True)
        words = [programs.program("claimaudit"), "--receipts", "--pharmacy", pharmacy[2:], told, *tables]
        judged = subprocess.run(list(map(str, words)), capture_output=True, text=True, check=False)
        expect(
            judged.returncode == 0,
            f"the run does not have what the front has told: {judged.stdout[:400]}{judged.stderr[:400]}",
        )
        with open(told, "rb") as lines:
            count += sum(1 for _ in lines) - 1
    return count
