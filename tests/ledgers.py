"""What the logs of a payer that asks say, its system's ledger, and whether they are the same: for tests/engine."""

from __future__ import annotations

import collections
import contextlib
import csv
import io
import pathlib
import sqlite3
import sys
from typing import Any

sys.dont_write_bytecode = True
sys.path.insert(0, str(pathlib.Path(__file__).resolve().parent))
import asking  # noqa: E402
from network import expect  # noqa: E402

AMOUNTS = ("cost_cents", "fee_cents", "copay_cents", "paid_cents")
FILL = ("bin", "processor_control_number", "provider_qualifier", "provider", "prescription", "fill")


class Books:
    """The tables of a run, as the audit tells them, and those of the engine."""

    def __init__(self, network: asking.Network, database: pathlib.Path, binding: Any) -> None:
        verdict = network.audit()
        is_legal = verdict.returncode == 0 and "one legal run" in verdict.stdout
        expect(is_legal, f"the audit: {verdict.stdout[-500:]}{verdict.stderr[-300:]}")
        self.binding = binding
        self.payments, self.rows, self.entries = (self.table(network, it) for it in ("payments", "rows", "entries"))
        with contextlib.closing(sqlite3.connect(database)) as engine:
            engine.row_factory = sqlite3.Row
            self.ledger = engine.execute("SELECT * FROM ledger ORDER BY row, place").fetchall()
            self.answers = engine.execute("SELECT * FROM answers").fetchall()

    @staticmethod
    def table(network: asking.Network, name: str) -> list[dict[str, str]]:
        done = network.audit("--csv", name)
        expect(done.returncode == 0, f"the table {name}: {done.stderr}")
        return list(csv.DictReader(io.StringIO(done.stdout)))

    def judge(self, members: dict[str, int]) -> dict[str, int]:
        """What there is, once all of it is found to be as it has to be."""
        expect(all(it["state"] == "answered" for it in self.entries), "an entry has no answer")
        standing = [it for it in self.payments if it["state"] == "standing"]
        fills = collections.Counter(tuple(it[key] for key in FILL) for it in standing)
        expect(
            all(count == 1 for count in fills.values()), f"fills have two payments that stand: {fills.most_common(2)}"
        )
        self.judge_ledger()
        self.judge_engine(members)
        told = collections.Counter(it["ruling"] for it in self.rows)
        cents = sum(int(it["paid_cents"]) for it in standing)
        again = sum(b"\x1cANS" in (it["said"] or b"") for it in self.answers)
        return {"rows": len(self.rows), **told, "approved again": again, "standing": len(standing), "cents": cents}

    def judge_ledger(self) -> None:
        """The ledger has each row of the book, and of each payment what it came to."""
        rows = [
            (it["pharmacy"], it["number"], it["transaction"], it["ruling"], it["authorization"]) for it in self.rows
        ]
        kept = [
            (str(it["pharmacy"]), str(it["number"]), str(it["place"]), it["ruling"], it["authorization"] or "")
            for it in self.ledger
        ]
        expect(len(rows) == len(kept), f"the ledger has {len(kept)} rows, and the book {len(rows)}")
        for wanted, found in zip(rows, kept, strict=True):
            expect(wanted == found, f"the ledger has {found}, and the book {wanted}")
        paid = {
            it["authorization"]: (it["cents"], it["taken_back"] is not None)
            for it in self.ledger
            if it["ruling"] == "paid"
        }
        for it in self.payments:
            wanted_too = (int(it["paid_cents"]), it["state"] == "reversed")
            found_too = paid.pop(it["authorization"], None)
            expect(
                found_too == wanted_too,
                f"the ledger has {found_too} of {it['authorization']}, and the book {wanted_too}",
            )
        expect(not paid, f"the ledger has payments that the book has not: {list(paid)[:3]}")
        total = sum(it["cents"] for it in self.ledger)
        stands = sum(int(it["paid_cents"]) for it in self.payments if it["state"] == "standing")
        expect(total == stands, f"the ledger comes to {total} cents, and the book to {stands}")

    def judge_engine(self, members: dict[str, int]) -> dict[str, int]:
        """What the engine has done, whether or not each entry has its answer; what there is then."""
        self.judge_advices()
        self.judge_deductibles(members)
        return {"rows": len(self.rows), "open": sum(it["state"] != "answered" for it in self.entries)}

    def judge_advices(self) -> None:
        """What was asked about is ruled as the engine has answered to that very transaction; the book itself says duplicate, 83 and 87."""
        said = {(it["pharmacy"], it["number"], it["place"]): bytes(it["said"]) for it in self.answers if it["said"]}
        amounts = {it["authorization"]: tuple(int(it[key]) for key in AMOUNTS) for it in self.payments}
        for it in self.rows:
            place = (int(it["pharmacy"]), int(it["number"]), int(it["transaction"]))
            if it["ruling"] == "duplicate" or it["reject_codes"] in ("83", "87"):
                continue
            expect(place in said, f"{place} was ruled, and the engine was not asked")
            # What it has approved before is approved.
            ruling = self.binding.Answer.read(said[place].replace(b"\x1cANS", b"\x1cANA")).rulings[place[2] - 1]
            told = (ruling.ruling, *ruling.codes, ruling.cost, ruling.fee, ruling.copay, ruling.total)
            paid = amounts[it["authorization"]] if it["ruling"] == "paid" else (None,) * len(AMOUNTS)
            found = (it["ruling"], *it["reject_codes"].split(), *paid)
            expect(told == found, f"{place} was ruled {found}, and the engine said {told}")

    def judge_deductibles(self, members: dict[str, int]) -> None:
        """What members have paid of their deductibles by payments that stand is after no row of the book more than these."""
        part = {(it["pharmacy"], it["number"], it["place"]): it["deductible"] for it in self.answers}
        payments = {it["authorization"]: it for it in self.payments}
        used: collections.Counter[str] = collections.Counter()
        for row in self.rows:
            if row["ruling"] not in ("paid", "reversed"):
                continue
            paid = payments[row["authorization"]]
            cents = part[int(paid["pharmacy"]), int(paid["number"]), int(paid["transaction"])]
            member = paid["cardholder"]
            used[member] += cents if row["ruling"] == "paid" else -cents
            most = members[member]
            place = (row["pharmacy"], row["number"], row["transaction"])
            expect(used[member] <= most, f"after {place} {member} has had {used[member]} of a deductible of {most}")
