"""References in logs, for tests/audit: nothing but a submission has one, of at most 64 bytes, and no two have the same one; where one is otherwise
claimaudit names the file, the call and why, of logs that are judged together and of a log by itself."""

import os
import struct

from audit_asked import audit, expect, spoiled
from audit_logs import logs_of, made_anew, records

# The first byte of a record of which something was noted, and that of a submission.
NOTED, SUBMISSION = 7, 0
# The most bytes of a reference.
MOST = 64
SHARED, LONG, STRANGE = (
    "an earlier submission has its reference",
    "its reference has more than 64 bytes",
    "no submission, and it has a reference",
)


def noted(body, reference, time=0):
    """The body of a record with what a host noted of its call."""
    return bytes([NOTED]) + struct.pack(">QQ", time, len(reference)) + reference + body


def named(place):
    """A reference of its own for the call at a place: of one byte, of all that there may be, and with bytes of any kind."""
    return [bytes([place % 256]), b"\x00\x1e %d" % place, (b"claim-%d " % place).ljust(MOST, b"\xff")][place % 3]


def judged(folder, log, data):
    """What is said of the run in which a log has these bytes, and of that log by itself."""
    other = f"{folder}/spoiled-{os.getpid()}"
    with open(other, "wb") as it:
        it.write(data)
    found = [audit(folder, [other if it == log else it for it in logs_of(folder)]), audit(folder, [other], "--alone")]
    os.remove(other)
    return found, other


def refused(folder, log, data, bodies, changed, why):
    """These records have others in their places: the last of them is told."""
    others = [changed.get(place, body) for place, body in enumerate(bodies)]
    found, name = judged(folder, log, made_anew(data, others))
    wanted = (2, "", f"claimaudit: {name}: call {max(changed) + 1}: {why}\n")
    for one in found:
        expect("references", one == wanted, f"{log}: {one} in place of {wanted}")


def references(folder):
    """Each log of a run, with references as nodes keep them and as they do not."""
    for log in logs_of(folder):
        data = open(log, "rb").read()
        bodies = [data[begin + 16 : end - 8] for begin, end in records(data)]
        submitted = [place for place, body in enumerate(bodies) if body[0] == SUBMISSION]
        kept = [
            noted(body, named(place) if place in submitted else b"", place + 1) for place, body in enumerate(bodies)
        ]
        told = spoiled(folder, log, made_anew(data, kept))
        expect("references", told == audit(folder, logs_of(folder)), f"{log}: {told}")
        for place in submitted:
            refused(folder, log, data, bodies, {place: noted(bodies[place], bytes(MOST + 1))}, LONG)
        for first, second in zip(submitted, submitted[1:]):
            changed = {place: noted(bodies[place], b"order-1") for place in (first, second)}
            refused(folder, log, data, bodies, changed, SHARED)
        for kind in {body[0] for body in bodies} - {SUBMISSION}:
            place = next(place for place, body in enumerate(bodies) if body[0] == kind)
            refused(folder, log, data, bodies, {place: noted(bodies[place], b"order-1")}, STRANGE)
