"""Logs without those of switches, for tests/audit: what claimaudit makes of them, and what it says where one of them was altered."""

import os
import random
import re

from audit_asked import audit, expect
from audit_logs import body_parts, made_anew, node_in, number, records, text_in


def is_switch(log):
    return os.path.basename(log).startswith("sw")


def counted(out):
    """The lines that a run is counted by."""
    lines = out.rstrip("\n").split("\n")
    return lines[next(i for i, line in enumerate(lines) if line.startswith("one legal run of")) + 1 :]


def without_switches(run):
    """Without the logs of all switches, or of one, there is a run that leaves pharmacies and payers the same."""
    switches = [it for it in run.logs if is_switch(it)]
    for lacking in [switches, *([it] for it in switches)]:
        code, out, err = audit(run.folder, [it for it in run.logs if it not in lacking])
        expect(
            "diskless", code == 0 and counted(out) == run.counted, f"{run.folder} without {lacking}: {code} {out}{err}"
        )
        names = sorted(os.path.basename(it)[:-4] for it in lacking)
        said = sorted(re.findall(r"claimaudit: (\w+) has no log: its calls are made of what the others have", err))
        expect("diskless", said == names and len(err.splitlines()) == len(names), f"{run.folder}: {err}")


def judged(folder, logs, log, data):
    """What is said of logs without those of switches, of which one has other bytes."""
    other = f"{folder}/altered-{os.getpid()}"
    with open(other, "wb") as it:
        it.write(data)
    others = [other if it == log else it for it in logs if not is_switch(it)]
    code, out, err = audit(folder, others)
    os.remove(other)
    return code, out, err


def taken(body):
    """Where the packet that a record takes begins and ends; nothing of another call."""
    kind, at = number(body, 0, 1)
    if kind != 2:
        return None
    _, at = node_in(body, at)
    packet, end = text_in(body, at)
    return end - len(packet), end


def altered(bodies, is_pharmacy):
    """Bodies of which one packet has another byte or lacks, or one came too early; what was done, and whether it is in what a node took."""
    for i, body in enumerate(bodies):
        place = taken(body)
        if place is not None:
            at = random.randrange(place[0] + 18, place[1])
            other = body[:at] + bytes([body[at] ^ 1]) + body[at + 1 :]
            yield f"call {i + 1} takes another byte at {at - place[0]}", [*bodies[:i], other, *bodies[i + 1 :]]
        for to, begin, end in body_parts(body)[2]:
            at = random.randrange(begin + 18, end)
            other = body[:at] + bytes([body[at] ^ 1]) + body[at + 1 :]
            yield f"call {i + 1} sends another byte at {at - begin}", [*bodies[:i], other, *bodies[i + 1 :]]
    first = next((i for i, body in enumerate(bodies) if taken(body)), None)
    if is_pharmacy and first:
        yield f"call {first + 1} comes first", [bodies[first], *bodies[:first], *bodies[first + 1 :]]


def altered_without_switches(run):
    """Where one amount, one packet or one order is altered there is no run, and it is said why."""
    for log in [it for it in run.logs if not is_switch(it)]:
        with open(log, "rb") as it:
            data = it.read()
        bodies = [data[begin + 16 : end - 8] for begin, end in records(data)]
        for what, others in altered(bodies, os.path.basename(log).startswith("ph")):
            code, out, err = judged(run.folder, run.logs, log, made_anew(data, others))
            why = out[out.index("no legal run\n") :].split("\n")[1] if "no legal run\n" in out else ""
            expect("altered without switches", code == 1 and why, f"{log}: {what}: {code} {out}{err}")
