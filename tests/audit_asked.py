"""What tests/audit asks of claimaudit, claimdump and claimswitch, and how it is counted."""

import csv
import io
import os
import subprocess
import sys

sys.dont_write_bytecode = True
from audit_logs import logs_of  # noqa: E402
from programs import program  # noqa: E402

TOP = os.path.dirname(os.path.dirname(os.path.abspath(__file__)))
# How often each kind of thing was looked at, by this process.
COUNTS = {}


def built(name):
    """The program that is tried, or the script that compiles it where it is not there."""
    found = program(name)
    return found if os.access(found, os.X_OK) else f"{TOP}/{name}"


DUMP, AUDIT, SWITCH = map(built, ("claimdump", "claimaudit", "claimswitch"))
NAMES = {"ph": "pharmacy", "sw": "switch", "pr": "payer"}


def expect(kind, holds, what):
    """Counts what is looked at, and fails where it is otherwise."""
    COUNTS[kind] = COUNTS.get(kind, 0) + 1
    if not holds:
        raise AssertionError(f"{kind}: {what}")


def audit(folder, logs, *words):
    ran = subprocess.run([AUDIT, *words, f"{folder}/settings.toml", *logs], capture_output=True, text=True)
    return ran.returncode, ran.stdout, ran.stderr


def dump(text, folder):
    return subprocess.run([DUMP, folder], input=text, capture_output=True).returncode == 0


def spoiled(folder, name, data, words=()):
    """The audit of the folder's logs, in which one log has other bytes."""
    other = f"{folder}/spoiled-{os.getpid()}"
    with open(other, "wb") as it:
        it.write(data)
    code, out, err = audit(folder, [other if it == name else it for it in logs_of(folder)], *words)
    os.remove(other)
    return code, out, err


def rows_in(text):
    """The rows of a table of CSV, by their columns."""
    read = list(csv.reader(io.StringIO(text, newline=""), strict=True))
    return [dict(zip(read[0], row)) for row in read[1:]]


def calls_told(out, node):
    for line in out.split("\n"):
        words = line.split(" ")
        if words[:2] == node and words[2:3] == ["calls"]:
            return int(words[3]), int(words[5])
    return None
