"""Reports of claimaudit on tables, for tests/audit: totals, remittances, comparisons and receipts, as Python makes them of the same tables."""

import csv
import subprocess
import tempfile

from audit_asked import AUDIT, audit, expect, rows_in
from audit_logs import printed, unprinted
from audit_tables import TABLES


def report(room, words, *given):
    """What the audit says of tables, each rows of one or a text."""
    names = []
    for place, table in enumerate(given):
        names.append(f"{room}/{place}.csv")
        with open(names[-1], "w", newline="", encoding="ascii") as file:
            if isinstance(table, str):
                file.write(table)
            else:
                out = csv.writer(file)
                out.writerow(table[0])
                out.writerows(it.values() for it in table)
    ran = subprocess.run([AUDIT, *words, *names], capture_output=True, text=True)
    return ran.returncode, ran.stdout, ran.stderr


def numbered(rows, *names):
    """Rows with the values of some columns as numbers."""
    return [{k: (int(v) if k in names and v else v) for k, v in it.items()} for it in rows]


def reports(folder, logs):
    """Totals, remittances and comparisons of the tables of a run are what Python makes of them."""
    text = {name: audit(folder, logs, "--csv", name)[1] for name in TABLES}
    told = {name: numbered(rows_in(text[name]), "payer", "pharmacy", "number", "paid_cents") for name in TABLES}
    with tempfile.TemporaryDirectory() as room:
        totals(room, text["payments"], told["payments"])
        receipts(room, text, told)
        for payer in sorted({it["payer"] for it in told["rows"]}):
            mine = [it for it in told["rows"] if it["payer"] == payer]
            for pharmacy in sorted({it["pharmacy"] for it in mine}):
                for after, up_to in {
                    (0, len(mine)),
                    (len(mine) // 2, len(mine)),
                    (0, len(mine) // 2),
                    (1, len(mine) - 1),
                }:
                    remittance(room, text["rows"], mine, payer, pharmacy, after, max(after, up_to))
                comparison(room, text, told, payer, pharmacy)


def totals(room, text, payments):
    by_name = {"payer": "payer", "pharmacy": "pharmacy", "day": "date_of_service"}
    days = sorted({it["date_of_service"] for it in payments}) or ["20240115"]
    for by, column in by_name.items():
        for words, test in (
            ((), lambda it: True),
            (("--from", days[0], "--to", days[0]), lambda it: it["date_of_service"] == days[0]),
            (("--payer", "1-2,4"), lambda it: it["payer"] in (1, 2, 4)),
            (("--payer", "1", "--pharmacy", "2"), lambda it: (it["payer"], it["pharmacy"]) == (1, 2)),
        ):
            wanted = {}
            for it in filter(test, payments):
                sums = wanted.setdefault(int(it[column]), [0, 0, 0, 0])
                place = 0 if it["state"] == "standing" else 2
                sums[place] += 1
                sums[place + 1] += it["paid_cents"]
            code, out, err = report(room, ("--totals", by, *words), text)
            got = [tuple(int(value) for value in it.values()) for it in rows_in(out)]
            expect(
                "reports",
                (code, err, got) == (0, "", [(key, *sums) for key, sums in sorted(wanted.items())]),
                f"{by} {words}: {code} {out}{err}",
            )


def remittance(room, text, mine, payer, pharmacy, after, up_to):
    """The rulings of a payer behind so many of them, for a pharmacy: what stood, what was moved, what stands."""
    standing, lines, begin = {}, [], 0
    amounts = {it["authorization"]: it["paid_cents"] for it in mine if it["ruling"] == "paid"}
    for ruling, it in enumerate(mine[:up_to], 1):
        if it["pharmacy"] == pharmacy and it["ruling"] in ("paid", "reversed"):
            cents = amounts[it["authorization"]] if it["ruling"] == "paid" else -amounts[it["authorization"]]
            if it["ruling"] == "paid":
                standing[it["authorization"]] = cents
            else:
                del standing[it["authorization"]]
            if ruling > after:
                lines.append((ruling, it["number"], it["ruling"], it["authorization"], cents))
        if ruling <= after:
            begin = sum(standing.values())
    words = ("--payer", str(payer), "--pharmacy", str(pharmacy), "--after", str(after), "--up-to", str(up_to))
    code, out, err = report(room, ("--remittance", "lines", *words), text)
    got = [
        tuple(it[k] for k in ("ruling", "number", "kind", "authorization", "cents"))
        for it in numbered(rows_in(out), "ruling", "number", "cents")
    ]
    expect("reports", (code, err, got) == (0, "", lines), f"{words}: {code} {got}{err} in place of {lines}")
    owed = 777
    code, out, err = report(room, ("--remittance", "sums", *words, "--owed", str(owed)), text)
    paid, back = (sum(abs(it[4]) for it in lines if it[2] == kind) for kind in ("paid", "reversed"))
    due = paid - back - owed
    wanted = [payer, pharmacy, after, up_to, begin, paid, back, sum(standing.values()), owed, max(due, 0), max(-due, 0)]
    got = [int(value) for it in rows_in(out) for value in it.values()]
    expect("reports", (code, err, got) == (0, "", wanted), f"{words}: {code} {got}{err} in place of {wanted}")
    expect("reports", begin + paid == back + sum(standing.values()), f"{words}: does not close")


def receipts(room, text, told):
    """Numbers and answers that callers were told are those of the run, or are found."""
    answers = {
        (it["pharmacy"], it["number"]): unprinted(it["bytes"])[18:]
        for it in told["packets"]
        if it["carries"] == "answer" and it["to"] == f'ph{it["pharmacy"]}'
    }
    spelled = {(it["pharmacy"], it["number"]): it["bytes"] for it in told["packets"] if it["carries"] == "answer"}
    for pharmacy in sorted({it["pharmacy"] for it in told["entries"]}):
        mine = [it for it in told["entries"] if it["pharmacy"] == pharmacy]
        heard = {it["number"]: answers[pharmacy, it["number"]] for it in mine if it["state"] == "answered"}
        expect(
            "reports",
            all((pharmacy, number) in spelled for number in heard),
            f"{pharmacy}: an answer that was not sent",
        )

        def found(*rows):
            head = [{"pharmacy": pharmacy, "number": number, "answer": printed(answer)} for number, answer in rows]
            table = head or "pharmacy,number,answer\n"
            code, out, err = report(
                room, ("--receipts", "--pharmacy", str(pharmacy)), table, text["entries"], text["packets"]
            )
            expect("reports", not err and out.startswith("finding,number\n"), f"{pharmacy}: {out}{err}")
            return code, [tuple(it.values()) for it in rows_in(out)]

        everything = [(it["number"], heard.get(it["number"], b"")) for it in mine]
        expect("reports", found(*everything) == (0, []), f"{pharmacy}: {found(*everything)}")
        beyond = len(mine) + 1
        expect("reports", found((beyond, b"")) == (1, [("no_entry", str(beyond))]), f"{pharmacy}: a number of no entry")
        for it in mine:
            if it["state"] == "open":
                expect(
                    "reports",
                    found((it["number"], b"D0")) == (1, [("not_answered", str(it["number"]))]),
                    f"{pharmacy}: {it}",
                )
            else:
                expect(
                    "reports",
                    found((it["number"], heard[it["number"]] + b"x")) == (1, [("differs", str(it["number"]))]),
                    f"{pharmacy}: {it}",
                )


# The figures that a comparison looks at, in its order, and their columns.
FIGURES = {
    "total": "paid_cents",
    "cost": "cost_cents",
    "fee": "fee_cents",
    "copay": "copay_cents",
    "prescription": "prescription",
    "fill": "fill",
}


def comparison(room, text, told, payer, pharmacy):
    """What a pharmacy counts beside what a payer paid, of the whole run and with payments left out or changed."""
    words = ("--compare", "--payer", str(payer), "--pharmacy", str(pharmacy))
    opened = {it["number"] for it in told["entries"] if it["pharmacy"] == pharmacy and it["state"] == "open"}

    def findings(counted, payments):
        counted = [it for it in counted if (it["payer"], it["pharmacy"]) == (payer, pharmacy)]
        made = {it["authorization"]: it for it in payments if (it["payer"], it["pharmacy"]) == (payer, pharmacy)}
        found = []
        for it in counted:
            other = made.get(it["authorization"])
            if other is None:
                found.append(("not_paid", it["authorization"], str(it["paid_cents"]), "", "false", "", "", ""))
            elif other["reversed_by"]:
                found.append(
                    (
                        "reversed",
                        it["authorization"],
                        str(it["paid_cents"]),
                        "",
                        "true" if int(other["reversed_by"]) in opened else "false",
                        "",
                        "",
                        "",
                    )
                )
            elif apart := [figure for figure, column in FIGURES.items() if other[column] != it[column]]:
                column = FIGURES[apart[0]]
                totals = str(it["paid_cents"]), str(other["paid_cents"])
                figures = apart[0], str(it[column]), str(other[column])
                found.append(("differs", it["authorization"], *totals, "false", *figures))
        known = {it["authorization"] for it in counted}
        found += [
            (
                "not_counted",
                it["authorization"],
                "",
                str(it["paid_cents"]),
                "true" if it["number"] in opened else "false",
                "",
                "",
                "",
            )
            for it in made.values()
            if not it["reversed_by"] and it["authorization"] not in known
        ]
        return found

    for counted, payments in (
        (told["counted"], told["payments"]),
        (told["counted"][1:], told["payments"]),
        (told["counted"], told["payments"][1:]),
        *(
            ([{**it, it_is: type(it[it_is])(int(it[it_is]) + 1)} for it in told["counted"]], told["payments"])
            for it_is in FIGURES.values()
        ),
    ):
        if not counted or not payments:
            continue
        code, out, err = report(room, words, counted, text["entries"], payments)
        wanted = findings(counted, payments)
        got = [tuple(it.values()) for it in rows_in(out)]
        expect(
            "reports",
            (code, err, got) == (0 if all(it[4] == "true" for it in wanted) else 1, "", wanted),
            f"{words}: {code} {got}{err} in place of {wanted}",
        )


def wrong_reports(folder, logs):
    """Tables that are none are told, and words that are none."""
    rows = audit(folder, logs, "--csv", "rows")[1]
    payments = audit(folder, logs, "--csv", "payments")[1]
    both = ("--payer", "1", "--pharmacy", "1")
    with tempfile.TemporaryDirectory() as room:
        for words, given, why in (
            (
                ("--totals", "day"),
                (payments + "1,2\n",),
                "table 1 is no CSV whose rows have the columns that are named",
            ),
            (("--totals", "day"), (rows,), "table 1 has no column state"),
            (
                ("--totals", "day"),
                (payments.replace("standing", "sitting"),),
                "table 1 row 2 column state: no value of its kind",
            ),
            (
                ("--remittance", "sums", *both),
                (rows + rows.split("\n", 1)[1],),
                "payment or reversal 4 of the pharmacy pays an authorization again",
            ),
            (
                ("--remittance", "lines", *both),
                (rows.replace(",paid,", ",duplicate,"),),
                "payment or reversal 1 of the pharmacy reverses a payment that does not stand",
            ),
            (("--compare", *both), (payments, rows, payments), "table 2 has no column state"),
        ):
            expect(
                "reports",
                report(room, words, *given) == (2, "", f"claimaudit: {why}\n"),
                f"{words}: {report(room, words, *given)}",
            )
        for words, given in (
            (("--totals", "week"), (payments,)),
            (("--totals", "day"), (payments, payments)),
            (("--compare", "--payer", "1"), (rows, rows, rows)),
            (("--remittance", "sums", "--payer", "1"), (rows,)),
            (("--totals", "day", "--json"), (payments,)),
            (("--totals", "day", "--from", "x"), (payments,)),
            (("--totals", "day", "--compare", *both), (rows,)),
        ):
            code, out, _ = report(room, words, *given)
            expect("reports", (code, out) == (2, ""), f"{words}: {code} {out}")
