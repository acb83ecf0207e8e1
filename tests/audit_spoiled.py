"""Logs that are spoiled, for tests/audit: cut, damaged, without a record, of other runs, or with their check sums made anew; and what claimaudit
has to say of each."""

import os
import random
import re

from audit_alone import alone_wrong
from audit_asked import NAMES, audit, calls_told, expect, spoiled
from audit_logs import body_parts, logs_of, made_anew, node_in, packets, records
from audit_tables import no_tables
from suite.sums import check_sum


def cuts(folder, places):
    for log in logs_of(folder):
        data = open(log, "rb").read()
        name = os.path.basename(log)
        node = [NAMES[name[:2]], name[2:-4]]
        ends = [end for _, end in records(data)]
        for n in places(len(data)):
            code, out, err = spoiled(folder, log, data[:n])
            if n < 46:
                expect("cut", code == 2 and "shorter than the head" in err, f"{log} after {n}: {code} {err}")
                continue
            stand = sum(1 for end in ends if end <= n)
            end = max([46] + [it for it in ends if it <= n])
            expect(
                "cut",
                code in (0, 1) and calls_told(out, node) == (stand, n - end),
                f"{log} after {n}: {code} {out}{err}",
            )


def damages(folder, count=6):
    for log in logs_of(folder):
        data = open(log, "rb").read()
        for _ in range(count):
            place = random.randrange(len(data))
            other = bytearray(data)
            other[place] ^= random.randrange(1, 256)
            code, out, err = spoiled(folder, log, bytes(other))
            start = next((a for a, b in records(data) if a <= place < b), 0)
            told = f"the record at byte {start} is damaged" in err if place >= 46 else code == 2
            expect("damaged", code == 2 and told, f"{log} at {place}: {code} {out}{err}")


def skips(folder):
    for log in logs_of(folder):
        data = open(log, "rb").read()
        found = records(data)
        for i, (a, b) in enumerate(found):
            if i + 1 < len(found):
                c, d = found[i + 1]
                changed = {"left out": data[:a] + data[b:], "exchanged": data[:a] + data[c:d] + data[a:b] + data[d:]}
            else:
                changed = {}
            changed["doubled"] = data[:b] + data[a:b] + data[b:]
            for how, other in changed.items():
                place = b if how == "doubled" else a
                code, out, err = spoiled(folder, log, other)
                expect(
                    "skipped",
                    code == 2 and f"the record at byte {place} is damaged" in err,
                    f"{log}: {how} {i + 1}: {code} {err}",
                )


def missing(folder):
    logs = logs_of(folder)
    for log in logs:
        code, out, err = audit(folder, [it for it in logs if it != log])
        # What a switch does is made of the other logs (audit_diskless).
        is_switch = os.path.basename(log).startswith("sw")
        has_none = "has no log" in (err if is_switch else out)
        expect("missing", code == 2 or (code == (0 if is_switch else 1) and has_none), f"{log}: {code} {out}{err}")
        if code == 1:
            no_tables(folder, [it for it in logs if it != log])
        code, out, err = audit(folder, [*logs, log])
        expect("missing", code == 1 and "has more than one log" in out, f"{log}: {code} {out}{err}")
    data = bytearray(open(logs[0], "rb").read())
    data[6] ^= 1
    data[38:46] = check_sum(data[2], 0, bytes(data[3:38]))
    code, out, err = spoiled(folder, logs[0], bytes(data))
    expect("missing", code == 2 and "other settings" in err, f"{folder}: {code} {err}")


def mixed(one, other):
    """Each log of one run in place of that of another: no legal run where a packet was taken that nobody sent."""
    logs = logs_of(one)
    for log in logs:
        logs_now = [f"{other}/{os.path.basename(log)}" if it == log else it for it in logs]
        took, sent = packets(logs_now)
        code, out, err = audit(one, logs_now)
        unsent = [it for it in took if it not in sent]
        expect("mixed", code == 1 if unsent else code in (0, 1), f"{log} of {other}: {code} {out}{err}")
        lines = out.split("\n")
        said = [line for line in lines if line.endswith(" was sent by nobody")]
        late = [line for line in lines if line.endswith(" is sent by a later call alone")]
        for line in said + late:
            node, carried = line.split(" call ")[0], line.split(": ", 1)[1]
            sender = re.sub(" (was|is) sent by .*", "", carried.split(" from ")[1])
            among = unsent if line in said else sent
            expect("mixed", any(it[0] == sender and it[1] == node for it in among), f"{log} of {other}: {line}")
        why = lines[lines.index("no legal run") + 1 :] if "no legal run" in lines else []
        expect("mixed", code == 0 or (why and why[0]), f"{log} of {other}: {out}")
        # Logs that each fit their node wait for something: for what nobody sent, or for one another.
        fits = not any("the node" in line for line in why)
        expect("mixed", not unsent or not fits or said or late, f"{log} of {other}: {out}")
        if code == 1:
            no_tables(one, logs_now)


def reasons_of(folder, log, data):
    """The lines that say why logs, of which one has other bytes, are those of no legal run."""
    code, out, err = spoiled(folder, log, data)
    expect("tampered", code == 1 and "no legal run\n" in out and not err, f"{log}: {code} {out}{err}")
    return out[out.index("no legal run\n") :].rstrip("\n").split("\n")[1:]


def amounts_changed(folder, log, data, bodies, name):
    """Every amount that a payer pays, one more or less: from that byte on its packet is another than the payer sends."""
    for i, body in enumerate(bodies):
        for k, (to, begin, end) in enumerate(body_parts(body)[2], 1):
            for field in (b"\x1cF5", b"\x1cF6", b"\x1cF9"):
                at = body.find(field, begin, end) + 3
                if at < 3 or body[at] not in b"0123456789":
                    continue
                other = body[:at] + bytes([body[at] ^ 1]) + body[at + 1 :]
                told = reasons_of(folder, log, made_anew(data, [*bodies[:i], other, *bodies[i + 1 :]]))
                wanted = f"{name} call {i + 1}: packet {k} to {to} has other bytes than the node sends, from byte {at - begin} on"
                expect("reasons", told == [wanted], f"{log}: {told} in place of {wanted}")
                alone_wrong(folder, log, made_anew(data, [*bodies[:i], other, *bodies[i + 1 :]]), wanted)


def dropped(folder, log, data, bodies, name):
    """Each record without whose packets another node would have taken what nobody sent."""
    took, _ = packets(logs_of(folder))
    every = [(i, to, body[begin:end]) for i, body in enumerate(bodies) for to, begin, end in body_parts(body)[2]]
    for i in range(len(bodies)):
        mine = {(to, packet) for k, to, packet in every if k == i}
        others = {(to, packet) for k, to, packet in every if k != i}
        missed = [it for it in took if it[0] == name and it[1:] in mine - others]
        if not missed:
            continue
        told = reasons_of(folder, log, made_anew(data, bodies[:i] + bodies[i + 1 :]))
        if " sent by " not in told[0]:
            first = re.fullmatch(f"{name} call ([0-9]+): .*", told[0])
            expect("reasons", len(told) == 1 and first and int(first[1]) > i, f"{log}: without call {i + 1}: {told}")
        else:
            unsent = [it.split(" call ")[0] for it in told if it.endswith(f" from {name} was sent by nobody")]
            expect("reasons", any(it[1] in unsent for it in missed), f"{log}: without call {i + 1}: {told}")


def exchanged_and_doubled(folder, log, data, bodies, name):
    """Submissions out of order or twice have another number than the log says, and what settles an entry settles it once."""
    for i, body in enumerate(bodies):
        kind, text, sent = body_parts(body)
        after = body_parts(bodies[i + 1]) if i + 1 < len(bodies) else (None, b"", [])
        if kind == 0:
            told = reasons_of(folder, log, made_anew(data, bodies[: i + 1] + bodies[i:]))
            wanted = (
                f"{name} call {i + 2}: packet 1 to {sent[0][0]} has other bytes than the node sends, from byte 13 on"
            )
            expect("reasons", told == [wanted], f"{log}: call {i + 1} twice: {told}")
        if kind == 0 and after[0] == 0 and after[1] != text:
            told = reasons_of(folder, log, made_anew(data, [*bodies[:i], bodies[i + 1], body, *bodies[i + 2 :]]))
            wanted = f"{name} call {i + 1}: packet 1 to {after[2][0][0]} has other bytes than the node sends, from byte 13 on"
            expect("reasons", told == [wanted], f"{log}: calls {i + 1} and {i + 2} exchanged: {told}")
        if kind == 2 and name.startswith("pharmacy"):
            told = reasons_of(folder, log, made_anew(data, bodies[: i + 1] + bodies[i:]))
            expect(
                "reasons",
                told == [f"{name} call {i + 2}: the node refuses it: AlreadySettled"],
                f"{log}: call {i + 1} twice: {told}",
            )


def tampered(folder):
    for log in logs_of(folder):
        data = open(log, "rb").read()
        bodies = [data[begin + 16 : end - 8] for begin, end in records(data)]
        name = node_in(data, 3)[0]
        expect("reasons", made_anew(data, bodies) == data, f"{log}: a log with its check sums made anew is another")
        dropped(folder, log, data, bodies, name)
        if name.startswith("payer"):
            amounts_changed(folder, log, data, bodies, name)
        if name.startswith("pharmacy"):
            exchanged_and_doubled(folder, log, data, bodies, name)


def some_cuts(folder):
    cuts(folder, lambda size: [random.randrange(size + 1) for _ in range(6)])


# The cuts of one log after each of its bytes are looked at in so many works.
SHARES = 8


def share_of_cuts(folder, share):
    cuts(folder, lambda size: range(share, size, SHARES))
