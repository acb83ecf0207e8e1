"""Tables of claimaudit, for tests/audit: what the report of a replay, its schedule and the bytes of its logs say of them."""

import csv
import io
import os
import re
import tomllib

from audit_asked import NAMES, audit, calls_told, expect, rows_in
from audit_logs import as_csv, calls_in, logs_of, packets, printed, records, strict, unprinted

TABLES = ("payments", "entries", "rows", "packets", "counted")
RULINGS = {"P": "paid", "D": "duplicate", "A": "reversed", "R": "rejected"}
KINDS = {"B1": "billing", "B2": "reversal"}


def sections_of(nodes):
    """The lines of a report on nodes, as words, by node."""
    sections = []
    for line in nodes:
        words = line.split(" ")
        if words[0] in ("pharmacy", "switch", "payer"):
            sections.append((words[0], int(words[1]), []))
        elif line:
            sections[-1][2].append(words)
    return sections


def place_in(word):
    name, _, place = word.partition("/")
    return *(int(it) for it in name.split(".")), int(place or 1)


def wanted_of(nodes):
    """The rows of the first three tables as far as a report says them, each as a tuple."""
    sections = sections_of(nodes)
    counted = {
        words[1]: int(words[5])
        for kind, _, lines in sections
        if kind == "pharmacy"
        for words in lines
        if words[0] == "paid"
    }
    payments, entries, rows, paid = [], [], [], []
    for kind, node, lines in sections:
        if kind == "payer":
            reversing = {words[3]: place_in(words[0])[1] for words in lines if words[2] == "A"}
            for words in lines:
                pharmacy, number, place = place_in(words[0])
                if words[2] == "P":
                    by = reversing.get(words[3]) if words[8] == "reversed" else None
                    payments.append(
                        (
                            node,
                            pharmacy,
                            number,
                            place,
                            words[3],
                            words[8],
                            by,
                            words[3] in counted,
                            *(int(it) for it in words[4:8]),
                        )
                    )
                told = ("", words[3].replace(",", " ")) if words[2] == "R" else (words[3], "")
                rows.append(
                    (
                        node,
                        pharmacy,
                        number,
                        KINDS[words[1]],
                        place,
                        RULINGS[words[2]],
                        *told,
                        int(words[7]) if words[2] == "P" else None,
                    )
                )
        elif kind == "pharmacy":
            numbers = {}
            for words in lines:
                if words[0] == "paid":
                    paid.append((node, int(words[1][:4]), words[1], *(int(it) for it in words[2:6])))
                else:
                    numbers.setdefault(int(words[0].split("/")[0]), []).append(words)
            named = set()
            for number, places in numbers.items():
                own = []
                for words in places:
                    if words[2] in ("P", "D") and words[3] in counted and words[3] not in named:
                        named.add(words[3])
                        own.append(counted[words[3]])
                state = "open" if places[0][2] == "open" else "answered"
                entries.append((node, number, KINDS[places[0][1]], len(places), state, len(own), sum(own)))
    return payments, entries, rows, paid


def fill_of(request, place):
    """The fill, the date of service and what was submitted of a transaction of a request, by the places of its bytes."""
    groups = request.decode("latin-1").split("\x1d")
    by_name = {
        it[:2]: re.split("[\x1e]", it[2:])[0] for it in groups[0].split("\x1c")[1:] + groups[place].split("\x1c")
    }
    at = [request[a:b].decode("latin-1") for a, b in ((0, 6), (10, 20), (21, 23), (23, 38), (38, 46))]
    asked = (
        by_name["C2"].rstrip(" "),
        by_name["D7"].rstrip(" "),
        int(by_name["E7"]),
        cents(by_name["D9"]),
        cents(by_name.get("DC", "{")),
    )
    return (*at[:4], int(by_name["D2"]), int(by_name["D3"]), at[4], *asked)


def cents(amount):
    """The cents of an amount that is not negative, whose last digit has its sign."""
    return int(amount[:-1] + str("{ABCDEFGHI".index(amount[-1])))


def packets_wanted(after):
    """The number of each packet of a replay and of the event that sent it."""
    return [
        (int(n), int(words[0]))
        for words in (line.split(" ") for line in after.split("\n"))
        if words[1:2] == ["ok"]
        for n in words[2:]
    ]


def tables(folder, logs, nodes, after):
    code, out, err = audit(folder, logs, "--json")
    expect("tables", code == 0 and not err, f"{folder}: {code} {err}")
    told = strict(out)
    expect(
        "tables",
        list(told) == ["logs", "legal", "events", *TABLES] and told["legal"] is True,
        f"{folder}: {list(told)}",
    )
    plain = audit(folder, logs)[1]
    for one in told["logs"]:
        node = [NAMES[one["node"][:2]], one["node"][2:]]
        expect("tables", calls_told(plain, node) == (one["calls"], one["torn"]), f"{folder}: {one}")
    expect("tables", f'one legal run of {told["events"]} events\n' in plain, f'{folder}: {told["events"]} events')
    for name in TABLES:
        code, out, err = audit(folder, logs, "--csv", name)
        expect("tables", code == 0 and not err and "\r" not in out, f"{folder}: {name}: {code} {err}")
        read = list(csv.reader(io.StringIO(out, newline=""), strict=True))
        expect(
            "tables",
            [dict(zip(read[0], row)) for row in read[1:]]
            == [{k: as_csv(v) for k, v in it.items()} for it in told[name]],
            f"{folder}: {name}: {out}",
        )
        expect("tables", all(list(it) == read[0] for it in told[name]), f"{folder}: {name}: other columns")
    payments, entries, rows, paid = wanted_of(nodes)
    money = ("cost_cents", "fee_cents", "copay_cents", "paid_cents")
    place = ("payer", "pharmacy", "number", "transaction")
    got = [
        tuple(it[k] for k in (*place, "authorization", "state", "reversed_by", "counted", *money))
        for it in told["payments"]
    ]
    expect("tables", got == payments, f"{folder}: {got} in place of {payments}")
    expect(
        "tables",
        [tuple(it.values()) for it in told["entries"]] == entries,
        f'{folder}: {told["entries"]} in place of {entries}',
    )
    ruled = (
        "payer",
        "pharmacy",
        "number",
        "kind",
        "transaction",
        "ruling",
        "authorization",
        "reject_codes",
        "paid_cents",
    )
    got = [tuple(it[k] for k in ruled) for it in told["rows"]]
    expect("tables", got == rows, f"{folder}: {got} in place of {rows}")
    expect(
        "tables",
        [tuple(it[k] for k in ("pharmacy", "payer", "authorization", *money)) for it in told["counted"]] == paid,
        f'{folder}: {told["counted"]} in place of {paid}',
    )
    expect(
        "tables",
        [(it["packet"], it["event"]) for it in told["packets"]] == packets_wanted(after),
        f"{folder}: other packets",
    )
    sent = {
        (NAMES[it["from"][:2]] + " " + it["from"][2:], NAMES[it["to"][:2]] + " " + it["to"][2:], unprinted(it["bytes"]))
        for it in told["packets"]
    }
    expect("tables", sent == packets(logs)[1], f"{folder}: other packets than the logs have")
    requests = {}
    for it in told["packets"]:
        data = unprinted(it["bytes"])
        head = (data[:3], data[3], int.from_bytes(data[4:6], "big"), int.from_bytes(data[6:14], "big"))
        expect(
            "tables",
            head == (b"PS\x01", {"request": 1, "answer": 2}[it["carries"]], it["pharmacy"], it["number"]),
            f"{folder}: {it}",
        )
        if it["carries"] == "request":
            requests[it["pharmacy"], it["number"]] = data[18:]
    for it in told["rows"]:
        request = requests[it["pharmacy"], it["number"]].decode("latin-1")
        number = re.search("\x1cD2([0-9]+)", request.split("\x1d")[it["transaction"]])
        prescription = None if it["ruling"] == "rejected" else int(number[1])
        expect(
            "tables", (it["date_of_service"], it["prescription"]) == (request[38:46], prescription), f"{folder}: {it}"
        )
    fill = (
        "bin",
        "processor_control_number",
        "provider_qualifier",
        "provider",
        "prescription",
        "fill",
        "date_of_service",
        "cardholder",
        "product",
        "quantity_thousandths",
        "submitted_cost_cents",
        "submitted_fee_cents",
    )
    for it in told["payments"]:
        wanted = fill_of(requests[it["pharmacy"], it["number"]], it["transaction"])
        got = tuple(unprinted(it[k]).decode("latin-1") if isinstance(it[k], str) else it[k] for k in fill)
        expect("tables", got == wanted, f"{folder}: {got} in place of {wanted}")


def calls(folder, logs):
    """The records of logs as a table are those that the logs have; also of one log, and of logs that are no run."""
    for some in (logs, logs[:1], [*logs, *logs[1:]]):
        code, out, err = audit(folder, some, "--calls")
        wanted = [row for log in some for row in calls_in(log)]
        expect(
            "calls",
            (code, err) == (0, "") and rows_in(out) == wanted,
            f"{folder}: {code} {err}{out} in place of {wanted}",
        )
        expect(
            "calls",
            out.split("\n")[0] == "node,call,time,reference,kind,from,carries,pharmacy,number",
            f"{folder}: {out}",
        )
    other = f"{folder}/spoiled-{os.getpid()}"
    with open(logs[0], "rb") as log, open(other, "wb") as it:
        it.write(log.read()[:-1] + b"?")
    answer = audit(folder, [logs[0], other], "--calls")
    damaged = answer[0] == 2 and not answer[1] and f"{other}: " in answer[2]
    expect("calls", damaged or not records(open(logs[0], "rb").read()), f"{folder}: {answer}")
    os.remove(other)


# What a rule of retries has, as columns name it.
RULE = ("switches", "again", "tries")
# The tables of changes of plans, of rules of retries and of caps: the letters of the nodes whose they are, the kinds of calls of which they tell, and
# their columns behind the node and the place.
CHANGES = {
    "prices": ("pr", (5, 6), ("product", "price_before_ten_thousandths", "price_after_ten_thousandths")),
    "terms": ("pr", (9,), ("fee_before_cents", "copay_before_cents", "fee_after_cents", "copay_after_cents")),
    "retries": ("ph", (10,), tuple(f"{it}_{when}" for when in ("before", "after") for it in RULE)),
    "caps": ("sw", (11,), ("entries_before", "entries_after")),
}


def changes_wanted(schedule):
    """The rows of each table of changes, by what a schedule says of plans, rules and caps: the node, event, and the other columns."""
    spelled, lines = re.split("(?m)^---\n", schedule, maxsplit=1)
    settings = tomllib.loads(spelled)
    payers = dict(enumerate(settings["payer"], 1))
    prices = {(str(n), it): str(price) for n, of in payers.items() for it, price in of.get("prices", {}).items()}
    terms = {str(n): (str(of["fee"]), str(of["copay"])) for n, of in payers.items()}
    rules = {str(n): opening_rule(settings, of) for n, of in enumerate(settings["pharmacy"], 1)}
    caps = {str(n): str(of["cap"]) for n, of in enumerate(settings["switch"], 1)}
    wanted = {name: [] for name in CHANGES}
    for event, words in enumerate((line.split(" ") for line in lines.split("\n")), 1):
        payer = words[1][2:] if words[0] in ("plan", "terms") else ""
        if words[0] == "plan":
            product = unprinted(words[2]).decode("latin-1")
            after = "" if words[3] == "none" else words[3]
            before = prices.get((payer, product), "")
            wanted["prices"].append((payer, str(event), printed(product.encode("latin-1")), before, after))
            prices[payer, product] = after
        elif words[0] == "terms":
            after = words[2], words[3]
            wanted["terms"].append((payer, str(event), *terms[payer], *after))
            terms[payer] = after
        elif words[0] == "retry":
            pharmacy, after = words[1][2:], (words[2].replace(",", " "), *words[3:])
            wanted["retries"].append((pharmacy, str(event), *rules[pharmacy], *after))
            rules[pharmacy] = after
        elif words[0] == "cap":
            switch, after = words[1][2:], words[2]
            wanted["caps"].append((switch, str(event), caps[switch], after))
            caps[switch] = after
    return wanted


def opening_rule(settings, pharmacy):
    """The rule of retries of a pharmacy by the settings, as a table has it."""
    return " ".join(f"sw{it}" for it in pharmacy["nodes"]), str(settings["again"]), str(settings["tries"])


def changes(folder, logs, schedule):
    """The changes of a run are those of its schedule, each with what was before it; those of one log are the same by its calls."""
    for table, wanted in changes_wanted(schedule).items():
        node, kinds, columns = CHANGES[table]
        code, out, err = audit(folder, logs, "--csv", table)
        told = [tuple(it.values()) for it in rows_in(out)]
        expect(table, (code, err) == (0, "") and told == wanted, f"{folder}: {told} in place of {wanted}")
        expect(table, out.split("\n")[0] == ",".join((NAMES[node], "event", *columns)), f"{folder}: {out}")
        for log in logs:
            name = os.path.basename(log)
            with open(log, "rb") as file:
                data = file.read()
            places = [i for i, (begin, _) in enumerate(records(data), 1) if data[begin + 16] in kinds]
            mine = [it for it in wanted if name == f"{node}{it[0]}.log"]
            own = [(it[0], str(place), *it[2:]) for it, place in zip(mine, places, strict=True)]
            code, out, err = audit(folder, [log], "--alone", "--csv", table)
            told = [tuple(it.values()) for it in rows_in(out)]
            expect(table, (code, err) == (0, "") and told == own, f"{log}: {out} in place of {own}")
            expect(table, out.split("\n")[0] == ",".join((NAMES[node], "call", *columns)), f"{log}: {out}")


def no_tables(folder, logs):
    """Logs of no legal run: no table, one line on standard error, and the reasons in JSON."""
    code, plain, _ = audit(folder, logs)
    for name in (*TABLES, *CHANGES):
        answer = audit(folder, logs, "--csv", name)
        expect(
            "tables",
            answer == (1, "", "claimaudit: no legal run; without --csv it says why\n"),
            f"{folder}: {name}: {answer}",
        )
    again, out, err = audit(folder, logs, "--json")
    told = strict(out)
    lines = plain.rstrip("\n").split("\n")
    reasons = lines[lines.index("no legal run") + 1 :]
    expect(
        "tables",
        (code, again, err) == (1, 1, "") and list(told) == ["logs", "legal", "reasons"],
        f"{folder}: {again} {out}{err}",
    )
    expect(
        "tables",
        told["legal"] is False and told["reasons"] == reasons and len(told["logs"]) == len(logs),
        f"{folder}: {told}",
    )


def words(folder):
    for given in (
        ["--csv", "payment"],
        ["--csv", "rows", "--json"],
        ["--json", "--schedule"],
        ["--csv"],
        ["--csv", "open"],
        ["--alone", "--csv", "packets"],
        ["--alone", "--schedule"],
        ["--alone", "--json", "--csv", "rows"],
        ["--calls", "--alone"],
        ["--calls", "--json"],
        ["--calls", "--csv", "rows"],
        ["--calls", "--schedule"],
        ["--calls", "--totals", "payer"],
    ):
        code, out, err = audit(folder, logs_of(folder), *given)
        expect("tables", code == 2 and not out and err, f"{given}: {code} {out}{err}")
