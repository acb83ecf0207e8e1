"""Logs that claimaudit judges as those of days, for tests/audit: those of each run are, without the logs of switches; of
logs that are cut off each node that cannot go on is told, with what it waits for."""

import os
import re

from audit_alone import LONE_TABLES
from audit_asked import NAMES, audit, expect, rows_in
from audit_logs import node_in, number, records, text_in


def is_switch(log):
    return os.path.basename(log).startswith("sw")


def node_of(log):
    """The node of a log, as claimaudit names it."""
    name = os.path.basename(log)
    return f"{NAMES[name[:2]]} {name[2:-4]}"


def calls_in(data):
    """Of each record what the node did: `submits`; `takes` with the kind, the pharmacy and the number of an envelope, and
    whether it has a switch's rejection; or None."""
    found = []
    for begin, end in records(data):
        body = data[begin + 16 : end - 8]
        kind, at = number(body, 0, 1)
        if kind not in (2, 8):
            found.append(("submits",) if kind == 0 else None)
            continue
        _, at = node_in(body, at)
        packet, _ = text_in(body, at)
        carries = "request" if packet[3] == 1 else "answer"
        pharmacy, its = int.from_bytes(packet[4:6], "big"), int.from_bytes(packet[6:14], "big")
        found.append(("takes", carries, pharmacy, its, packet[23:24] == b"R"))
    return found


def sorted_rows(text):
    """The rows of a table, whose order is that of the logs that were given."""
    return sorted(rows_in(text), key=lambda it: sorted(it.items()))


def verdict(logs):
    """What the calls of logs come to, each as its node and its calls: their count, or of each node that cannot go on what
    it waits for."""
    done = {node: 0 for node in logs}
    submitted, decided, moved = {}, set(), True

    def may_go(node):
        call = logs[node][done[node]]
        if call is None or call[0] == "submits":
            return True
        _, carries, pharmacy, its, rejected = call
        asked = its <= submitted.get(pharmacy, 0)
        return asked and (carries == "request" or rejected or (pharmacy, its) in decided)

    while moved:
        moved = False
        for node, calls in logs.items():
            while done[node] < len(calls) and may_go(node):
                call = calls[done[node]]
                if call and call[0] == "submits":
                    pharmacy = int(node.split(" ")[1])
                    submitted[pharmacy] = submitted.get(pharmacy, 0) + 1
                elif call and call[1] == "request":
                    decided.add((call[2], call[3]))
                done[node] += 1
                moved = True
    waits = []
    for node, calls in logs.items():
        if done[node] < len(calls):
            _, carries, pharmacy, its, _ = calls[done[node]]
            what = "request of" if carries == "request" else "answer to"
            was = "submitted" if carries == "request" else "decided"
            waits.append(f"{node} call {done[node] + 1}: the {what} {pharmacy}.{its} was not {was} before")
    return sum(done.values()), waits


def days(run):
    """The logs of pharmacies and payers of a run are those of legal days, which leave each node what its log leaves it."""
    logs = [it for it in run.logs if not is_switch(it)]
    code, out, err = audit(run.folder, logs, "--days")
    calls = sum(len(records(open(it, "rb").read())) for it in logs)
    wanted = audit(run.folder, logs, "--alone")[1].split("\n")
    told = [*wanted[:-2], f"legal days of {calls} calls", ""]
    expect("days", (code, err) == (0, "") and out.split("\n") == told, f"{run.folder}: {out}{err}")
    for table in LONE_TABLES:
        code, out, err = audit(run.folder, logs, "--days", "--csv", table)
        of = (run.logs, ()) if table != "open" else (logs, ("--alone",))
        same = sorted_rows(audit(run.folder, of[0], *of[1], "--csv", table)[1])
        expect("days", (code, err) == (0, "") and sorted_rows(out) == same, f"{run.folder}: {table}: {code} {out}{err}")


def days_cut(run, step):
    """The logs of a run, of which one ends after some of its calls: legal days, or each node that cannot go on is told."""
    logs = [it for it in run.logs if not is_switch(it)]
    whole = {it: open(it, "rb").read() for it in logs}
    for log in logs:
        ends = [46] + [end for _, end in records(whole[log])]
        for end in ends[::step]:
            other = f"{run.folder}/days-{os.getpid()}.log"
            with open(other, "wb") as it:
                it.write(whole[log][:end])
            given = [other if it == log else it for it in logs]
            count, waits = verdict({node_of(it): calls_in(whole[it][:end] if it == log else whole[it]) for it in logs})
            code, out, err = audit(run.folder, given, "--days")
            told = out.rstrip("\n").split("\n")
            if waits:
                at = told.index("no legal days") if "no legal days" in told else len(told)
                right = code == 1 and sorted(told[at + 1 :]) == sorted(waits)
                empty = audit(run.folder, given, "--days", "--csv", "payments")
                right = right and empty == (1, "", "claimaudit: no legal days; without --csv it says why\n")
            else:
                right = code == 0 and told[-1] == f"legal days of {count} calls"
            expect("days that lack", right and not err, f"{log} to {end}: {code} {out}{err}, {waits}")
            os.remove(other)


def days_wrong(run):
    """What is no set of logs of all pharmacies and payers is told, and so is a node that does not make its log."""
    logs = [it for it in run.logs if not is_switch(it)]
    for log in logs:
        code, out, err = audit(run.folder, [it for it in logs if it != log], "--days")
        said = f"no legal days\n{node_of(log)} has no log\n"
        expect("days of others", code == 1 and out.endswith(said) and not err, f"{log}: {out}{err}")
        code, out, err = audit(run.folder, [*logs, log], "--days")
        said = f"no legal days\n{node_of(log)} has more than one log\n"
        expect("days of others", code == 1 and out.endswith(said) and not err, f"{log}: {out}{err}")
    for log in (it for it in run.logs if is_switch(it)):
        code, out, err = audit(run.folder, [*logs, log], "--days")
        said = f"no legal days\n{node_of(log)} is a switch, and nothing is asked of switches\n"
        expect("days of others", code == 1 and out.endswith(said) and not err, f"{log}: {out}{err}")
    others = [("--alone",), ("--json",), ("--schedule",), ("--calls",)]
    for words in (*others, *(("--csv", it) for it in ("packets", "prices", "terms", "retries", "caps"))):
        code, out, err = audit(run.folder, logs, "--days", *words)
        refused = code == 2 and not out and re.match("claimaudit: usage: ", err)
        expect("days of others", refused, f"{words}: {code} {out}{err}")
