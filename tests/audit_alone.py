"""Logs that claimaudit judges by themselves, for tests/audit: each node has there what the run left it."""

import os
import re

from audit_asked import NAMES, audit, expect, rows_in
from audit_logs import as_csv, logs_of, records, strict
from audit_tables import TABLES

LONE_TABLES = ("payments", "entries", "rows", "open", "counted")
LAST = "nothing is judged of other nodes"


def ages_in(data):
    """How many ticks came behind each submission of a pharmacy's log."""
    kinds = [data[begin + 16] for begin, _ in records(data)]
    return [kinds[i:].count(1) for i, kind in enumerate(kinds) if kind == 0]


def alone(folder, counted):
    """Each log of a run by itself: lines and tables say of its node what those of the run say."""
    logs = logs_of(folder)
    whole_run = {name: rows_in(audit(folder, logs, "--csv", name)[1]) for name in (*TABLES[:3], "counted")}
    for log in logs:
        name = os.path.basename(log)
        node = f"{NAMES[name[:2]]} {name[2:-4]}"
        code, out, err = audit(folder, [log], "--alone")
        lines = out.rstrip("\n").split("\n")
        expect(
            "alone",
            (code, err, lines[-1]) == (0, "", LAST) and lines[1] == f"{node} makes these calls",
            f"{log}: {code} {out}{err}",
        )
        mine = [
            re.sub(r" standing \d+$", "", it) if name[:2] == "ph" else it for it in counted if it.startswith(f"{node} ")
        ]
        expect(
            "alone",
            [it for it in lines[2:-1] if " open " not in it or " requests " in it] == mine,
            f"{log}: {lines} in place of {mine}",
        )
        column = {"ph": "pharmacy", "pr": "payer", "sw": "switch"}[name[:2]]
        told = strict(audit(folder, [log], "--alone", "--json")[1])
        expect(
            "alone",
            list(told) == ["logs", "alone", "made", *LONE_TABLES] and told["alone"] is True and told["made"] is True,
            f"{log}: {list(told)}",
        )
        for table in LONE_TABLES:
            code, out, err = audit(folder, [log], "--alone", "--csv", table)
            read = rows_in(out)
            expect(
                "alone",
                code == 0 and not err and read == [{k: as_csv(v) for k, v in it.items()} for it in told[table]],
                f"{log}: {table}: {out}",
            )
            if table == "open":
                ages = ages_in(open(log, "rb").read())
                wanted = [
                    {
                        "pharmacy": it["pharmacy"],
                        "number": it["number"],
                        "kind": it["kind"],
                        "ticks": str(ages[int(it["number"]) - 1]),
                    }
                    for it in whole_run["entries"]
                    if it["state"] == "open" and name[:2] == "ph" and it["pharmacy"] == name[2:-4]
                ]
                expect(
                    "alone",
                    [it for it in lines if f"{node} open " in it]
                    == [f'{node} open {it["number"]} {it["kind"]} ticks {it["ticks"]}' for it in wanted],
                    f"{log}: {lines}",
                )
            else:
                of = "pharmacy" if table in ("entries", "counted") else "payer"
                wanted = [dict(it) for it in whole_run[table] if of == column and it[of] == name[2:-4]]
                if table == "payments":
                    wanted = [{**it, "counted": "false"} for it in wanted]
            expect("alone", read == wanted, f"{log}: {table}: {read} in place of {wanted}")


def alone_wrong(folder, log, data, line):
    """A log that its node does not make says so by itself too, in each form."""
    other = f"{folder}/spoiled-{os.getpid()}"
    with open(other, "wb") as it:
        it.write(data)
    code, out, err = audit(folder, [other], "--alone")
    expect("alone", (code, out.split("\n")[1:], err) == (1, [line, LAST, ""], ""), f"{log}: {code} {out}{err}")
    answer = audit(folder, [other], "--alone", "--csv", "open")
    expect(
        "alone",
        answer == (1, "", "claimaudit: a node does not make its log; without --csv it says why\n"),
        f"{log}: {answer}",
    )
    told = strict(audit(folder, [other], "--alone", "--json")[1])
    expect(
        "alone",
        told["made"] is False and told["reasons"] == [line] and list(told) == ["logs", "alone", "made", "reasons"],
        f"{log}: {told}",
    )
    os.remove(other)
