"""Reports over several books of a payer, for tests/closing: totals, remittances by days and comparisons, as Python
makes them of the same tables; that they add up over books; and which words name no books."""

import csv
import io
import itertools
import os
import random
import subprocess
import tempfile
import unittest

from programs import program

TOP = os.path.dirname(os.path.dirname(os.path.realpath(__file__)))
AUDIT = program("claimaudit") if os.access(program("claimaudit"), os.X_OK) else f"{TOP}/claimaudit"
PAYMENTS = ["payer", "pharmacy", "date_of_service", "paid_cents", "state"]
ROWS = ["payer", "pharmacy", "number", "transaction", "ruling", "authorization", "prescription"]
ROWS += ["date_of_service", "paid_cents", "ruled_on"]
SETS = ["1", "1-2", "1,3", "2-4,6", "1,3-4,6", "1-900000000000000000", "5,7"]
PERIODS = [("", ""), ("20240201", "20240229"), ("20240131", ""), ("", "20240131")]
DAYS = ["20240130", "20240131", "20240201", "20240229", "20240301"]


def books_of(text):
    """The numbers that a text names, of those that the tables have."""
    parts = [part.split("-") for part in text.split(",")]
    return {n for n in range(1, 10) for part in parts if int(part[0]) <= n <= int(part[-1])}


def read(text):
    names, *rows = csv.reader(io.StringIO(text, newline=""))
    return names, rows


def made_payments(draw):
    """A table of payments of six books."""
    return [
        {
            "payer": draw.randint(1, 6),
            "pharmacy": draw.randint(1, 3),
            "date_of_service": draw.choice(DAYS),
            "paid_cents": draw.randint(0, 10**6),
            "state": draw.choice(["standing", "reversed"]),
        }
        for _ in range(draw.randint(0, 60))
    ]


def made_rows(draw):
    """A table of rows of six books, book by book, whose days go on within each."""
    rows = []
    for payer in range(1, 7):
        days = sorted(draw.choice(DAYS) for _ in range(draw.randint(0, 25)))
        standing = []
        for number, day in enumerate(days, 1):
            row = dict.fromkeys(ROWS, "")
            row |= {"payer": payer, "number": number, "transaction": 1, "ruled_on": day}
            row |= {"pharmacy": draw.randint(1, 2), "prescription": draw.randint(1, 10**7)}
            row |= {"date_of_service": draw.choice(DAYS), "ruling": draw.choice(["paid", "rejected", "duplicate"])}
            if row["ruling"] == "paid":
                row |= {"authorization": f"{payer:04}{number:012}", "paid_cents": draw.randint(0, 10**6)}
                standing.append(row)
            elif standing and draw.random() < 0.7:
                paid = standing.pop(draw.randrange(len(standing)))
                row |= {name: paid[name] for name in ("pharmacy", "authorization", "prescription")}
                row["ruling"] = "reversed"
            rows.append(row)
    return rows


def remitted(rows, books, pharmacy, first, last, owed):
    """The lines and the sums of a remittance."""
    mine = [it for it in rows if it["payer"] in books and it["pharmacy"] == pharmacy]
    own = [it for it in mine if it["ruling"] in ("paid", "reversed")]
    cents = {it["authorization"]: it["paid_cents"] for it in own if it["ruling"] == "paid"}
    standing, moved, begin, lines = {}, {"paid": 0, "reversed": 0}, 0, []
    before = [it for it in own if first and it["ruled_on"] < first]
    within = [it for it in own if (first or "0") <= it["ruled_on"] <= (last or "9")]
    for place, it in enumerate(before + within):
        if place == len(before):
            begin = sum(standing.values())
        if it["ruling"] == "paid":
            standing[it["authorization"]] = it["paid_cents"]
        else:
            del standing[it["authorization"]]
        if place >= len(before):
            back = cents[it["authorization"]]
            moved[it["ruling"]] += back
            signed = back if it["ruling"] == "paid" or back == 0 else -back
            told = [it[name] for name in ("authorization", "prescription", "date_of_service")]
            lines.append([it["payer"], pharmacy, it["ruled_on"], it["number"], 1, it["ruling"], *told, signed])
    end = sum(standing.values())
    begin = begin if within else end
    rest = moved["paid"] - moved["reversed"] - owed
    sums = [begin, moved["paid"], moved["reversed"], end, owed, max(rest, 0), max(-rest, 0)]
    return [[str(value) for value in line] for line in lines], [str(value) for value in sums]


class BooksTest(unittest.TestCase):
    """Reports over several books."""

    def setUp(self):
        room = tempfile.TemporaryDirectory()
        self.addCleanup(room.cleanup)
        self.folder = room.name

    def file(self, name, names, rows):
        """A table as a file."""
        path = f"{self.folder}/{name}.csv"
        with open(path, "w", encoding="ascii", newline="") as file:
            out = csv.writer(file, lineterminator="\n")
            out.writerow(names)
            out.writerows([it[name] for name in names] for it in rows)
        return path

    def told(self, *words):
        """What is told, with status 0."""
        ran = subprocess.run([AUDIT, *words], capture_output=True, text=True, check=False)
        self.assertEqual((ran.returncode, ran.stderr), (0, ""), f"{words}")
        return ran.stdout

    def refused(self, why, *words):
        """Why words or tables are refused, with status 2."""
        ran = subprocess.run([AUDIT, *words], capture_output=True, text=True, check=False)
        self.assertEqual((ran.returncode, ran.stdout), (2, ""), f"{words}")
        self.assertTrue(ran.stderr.startswith(f"claimaudit: {why}"), f"{words}: {ran.stderr}")

    def test_totals(self):
        columns = {"payer": "payer", "pharmacy": "pharmacy", "day": "date_of_service", "all": None}
        for seed in range(4):
            paid = made_payments(random.Random(seed))
            path = self.file("payments", PAYMENTS, paid)
            for (by, column), books in itertools.product(columns.items(), SETS):
                sums = {}
                for it in (it for it in paid if it["payer"] in books_of(books)):
                    one = sums.setdefault(int(it[column]) if column else 0, [0, 0, 0, 0])
                    place = 2 * (it["state"] == "reversed")
                    one[place] += 1
                    one[place + 1] += it["paid_cents"]
                names, rows = read(self.told("--totals", by, "--payer", books, path))
                figures = ["payments", "cents", "reversed_payments", "reversed_cents"]
                self.assertEqual(names, ([column] if column else []) + figures)
                wanted = [[str(value) for value in ([key] if column else []) + sums[key]] for key in sorted(sums)]
                self.assertEqual(rows, wanted, f"{seed} {by} {books}")

    def test_remittances_by_days(self):
        for seed in range(4):
            rows = made_rows(random.Random(seed))
            path = self.file("rows", ROWS, rows)
            for books, (first, last) in itertools.product(SETS[1:], PERIODS):
                days = [*(["--from", first] if first else []), *(["--to", last] if last else [])]
                words = ["--payer", books, "--pharmacy", "1", "--owed", "7", *days, path]
                lines, sums = remitted(rows, books_of(books), 1, first, last, 7)
                self.assertEqual(read(self.told("--remittance", "lines", *words))[1], lines, f"{seed} {words}")
                names, [row] = read(self.told("--remittance", "sums", *words))
                self.assertEqual(row, [books, "1", first, last, *sums], f"{seed} {words}")
                self.assertEqual(names[:5], ["payers", "pharmacy", "from", "to", "standing_before_cents"])

    def test_parts_add_up(self):
        rows = made_rows(random.Random(9))
        path = self.file("rows", ROWS, rows)

        def sums(books):
            words = ["--pharmacy", "1", "--from", "20240201", "--to", "20240229"]
            told = self.told("--remittance", "sums", "--payer", books, *words, path)
            return [int(value) for value in read(told)[1][0][4:8]]

        self.assertEqual(sums("1-6"), [a + b for a, b in zip(sums("1-2,5"), sums("3-4,6"))])

    def test_a_comparison_is_against_all_books(self):
        figures = {"prescription": 1, "fill": 0, "cost_cents": 5, "fee_cents": 1, "copay_cents": 0, "paid_cents": 6}
        counted = [{"payer": n, "pharmacy": 1, "authorization": f"{n:04}{1:012}"} | figures for n in (1, 2, 4)]
        payments = [it | {"number": 1, "reversed_by": ""} for it in counted[:2]]
        payments.append(payments[1] | {"payer": 3, "authorization": f"{3:04}{1:012}"})
        entries = [{"pharmacy": 1, "number": 1, "state": "answered"}]
        tables = {"counted": counted, "entries": entries, "payments": payments}
        paths = [self.file(name, list(rows[0]), rows) for name, rows in tables.items()]
        for books, wanted in (
            ("1-2", []),
            ("1", []),
            ("1-3", ["not_counted"]),
            ("1,3", ["not_counted"]),
            ("1-2,4", ["not_paid"]),
            ("1-4", ["not_paid", "not_counted"]),
        ):
            words = ["--compare", "--payer", books, "--pharmacy", "1"]
            ran = subprocess.run([AUDIT, *words, *paths], capture_output=True, text=True, check=False)
            self.assertEqual((ran.returncode, ran.stderr), (1 if wanted else 0, ""))
            self.assertEqual([row[0] for row in read(ran.stdout)[1]], wanted, books)

    def test_words_that_name_no_books_are_refused(self):
        path = self.file("payments", PAYMENTS, [])
        many = ",".join(str(n) for n in range(1, 33))
        self.told("--totals", "payer", "--payer", many, path)
        self.told("--totals", "payer", "--payer", "0-999999999999999999", path)
        wrong = ["", ",", "3,", ",3", "3,,5", "3,3", "5,3", "5-3", "3-3", "1-3,3", "1-3,2", "3-", "-3", "3--5", "3-5-8"]
        for books in [*wrong, "3 ,5", "a", "3.5", f"{many},33", "1-1000000000000000000"]:
            self.refused("usage: ", "--totals", "payer", f"--payer={books}", path)
        self.refused("usage: ", "--totals", "each", path)
        rows = self.file("rows", ROWS, [])
        asked = ["--remittance", "sums", "--payer", "1-2", "--pharmacy", "1"]
        self.told(*asked, rows)
        for words in (["--after", "0"], ["--up-to", "9"], ["--by-ruling"]):
            self.refused("usage: ", *asked, *words, rows)

    def test_rulings_without_a_day_are_refused(self):
        def row(payer, ruling, day, cents=""):
            one = dict.fromkeys(ROWS, "1") | {"payer": payer, "ruling": ruling, "ruled_on": day, "paid_cents": cents}
            return one | {"authorization": f"{payer:04}{1:012}", "date_of_service": DAYS[0]}

        asked = ["--remittance", "lines", "--payer", "1-2", "--pharmacy", "1"]
        rows = [row(3, "paid", "", 5), row(1, "rejected", ""), row(2, "paid", DAYS[1], 7), row(2, "reversed", DAYS[2])]
        self.assertEqual(len(self.told(*asked, self.file("rows", ROWS, rows)).splitlines()), 3)
        self.refused("table 1 has no column ruled_on\n", *asked, self.file("rows", ROWS[:-1], rows))
        rows[2]["ruled_on"] = ""
        self.refused("table 1 row 3 column ruled_on: no value of its kind\n", *asked, self.file("rows", ROWS, rows))
        rows[2]["ruled_on"] = DAYS[3]
        why = "payment or reversal 1 of the pharmacy reverses a payment that does not stand\n"
        self.refused(why, *asked, "--from", DAYS[3], self.file("rows", ROWS, rows))

    def test_one_number_is_as_it_was(self):
        rows = made_rows(random.Random(5))
        path = self.file("rows", ROWS, rows)
        asked = ["--remittance", "lines", "--pharmacy", "1", "--after", "3", "--payer"]
        told = self.told(*asked, "2", path)
        self.assertEqual(told, self.told(*asked, "002", path))
        self.assertTrue(told.startswith("payer,pharmacy,ruling,"))
