"""Plans and routes, step by step: prices as events of a replay and what claimdump keeps of them, and tables of routes as settings."""
import json
import tempfile

from suite.case import Case, Group, rows_in_order
from suite.printed import printed
from suite.programs import run
from suite.rows import read_rows

PROGRAMS = ("claimswitch", "claimdump")
THERE_AND_BACK = "".join(f"deliver {packet}\n" for packet in range(1, 5))


def settings(plans: list[tuple[str, str]], routes: list[dict], prices: str = "") -> str:
    """Settings of a pharmacy, a switch, a payer for each plan of a fee and a copay, and routes."""
    parts = [
        'again = 1\ntries = 1\n[[pharmacy]]\nqualifier = "01"\nprovider = "1234567893"\nnodes = [1]\ncap = 65536\n'
        "[[switch]]\ncap = 64\n"
    ]
    parts += [f"[[payer]]\nfee = {fee}\ncopay = {copay}\ncap = 1000\n[payer.prices]\n{prices}" for fee, copay in plans]
    for route in routes:
        parts.append("[[route]]\n" + "".join(f"{key} = {json.dumps(value)}\n" for key, value in route.items()))
    return "".join(parts) + ("" if routes else "route = []\n")


def request(
    bin_number: str,
    control: str,
    quantity: str = "30000",
    cost: int = 6000,
    fee: int = 200,
    product: str = "00093721410",
) -> str:
    """A billing in printed bytes."""
    return (
        f"{bin_number}D0B1{control:10}1011234567893     20240115SW00000001\\S\\FAM04\\FC2987654321\\G\\S\\FAM07\\FEM1\\FD2123456"
        f"\\FD30\\FE103\\FD7{product}\\FE7{quantity}\\S\\FAM11\\FD9{amount(cost)}\\FDC{amount(fee)}"
    )


def amount(cents: int) -> str:
    """An amount as the standard writes it."""
    return f'{cents // 10 or ""}{"{ABCDEFGHI"[cents % 10]}'


class Plan:
    """The plan of payer 1, and the events that made it."""

    def __init__(self):
        self.terms, self.events = ("0", "0"), []

    def make(self, fee: str, copay: str) -> str:
        """Makes a plan without products, and tells its terms, or why it is none."""
        self.terms, self.events = (fee, copay), []
        said = self.replay("")
        if "claimswitch: key fee of [[payer]] 1: a whole number from 0 to 99999999 is wanted" in said:
            return "NegativeAmount" if fee.startswith("-") else "too large"
        return f"fee={fee} copay={copay}"

    def replay(self, more: str) -> list[str]:
        """The lines that a replay writes of the events and of more."""
        given = settings([self.terms], [{"bin": "610455", "payer": 1}]) + "---\n" + "".join(self.events) + more
        return (
            run("claimswitch", "replay", given=given.encode("latin-1"), env={"CLAIMSWITCH_EXPLAIN": "1"})
            .told()
            .splitlines()
        )

    def products(self) -> list[tuple[str, int]]:
        """The products of the plan and their prices, as the book's record has them."""
        given = settings([self.terms], [{"bin": "610455", "payer": 1}]) + "---\n" + "".join(self.events)
        with tempfile.TemporaryDirectory(prefix="cases-") as folder:
            ran = run("claimdump", folder, given=given.encode("latin-1"))
            if ran.status:
                raise AssertionError(ran.told())
            with open(f"{folder}/pr1.book", "rb") as file:
                return products_of(file.read())

    def change(self, price: str, product: str) -> str:
        """What a change of the plan comes to: the refusal, or how many products there are then."""
        event = f'plan pr1 {printed(product.encode("latin-1")).replace(" ", chr(92) + "x20")} {price}\n'
        line = self.replay(event)[len(self.events)]
        if line.endswith(" ok"):
            self.events.append(event)
            return f"products={len(self.products())}"
        return line.rsplit(" ", 1)[1]

    def fill(self, count: int) -> str:
        """Sets the price of N0, N1 and so on to its number."""
        self.events += [f"plan pr1 N{number} {number}\n" for number in range(count)]
        return f"products={len(self.products())}"

    def price(self, quantity: str, cost: str, fee: str, product: str) -> str:
        """What is paid for a claim."""
        lines = self.replay(
            f'submit ph1 {request("610455", "A1", quantity, int(cost), int(fee), product)}\n{THERE_AND_BACK}'
        )
        entry = next(line for line in lines if line.startswith("1 B1 ")).split(" ")
        if entry[2:] == ["R", "70"]:
            return "no price"
        return "cost={} fee={} copay={} total={}".format(*entry[4:])

    def tell(self, word: str, argument: bytes) -> str:
        """What a row comes to."""
        text = argument.decode("latin-1")
        if word == "plan":
            return self.make(*text.split(" "))
        if word == "set":
            return self.change(*text.split(" ", 1))
        if word == "clear":
            return self.change("none", text)
        if word == "fill":
            return self.fill(int(text))
        if word == "price":
            return self.price(*text.split(" ", 3))
        if word == "rest":
            self.events += ["stop pr1\n", "start pr1\n"]
            return f"products={len(self.products())}"
        found = self.products()[int(text) : int(text) + 1]
        return f"{found[0][1]} {found[0][0]}" if found else "none"


def products_of(book: bytes) -> list[tuple[str, int]]:
    """The products of a book's record (docs/FORMATS.md) and their prices."""
    found, at = [], 29
    for _ in range(int.from_bytes(book[21:25], "big")):
        end = at + 1 + book[at]
        found.append((printed(book[at + 1 : end]), int.from_bytes(book[end : end + 4], "big")))
        at = end + 4
    return found


class Routes:
    """The rows that were gathered, and the settings of the last table."""

    def __init__(self):
        self.rows, self.table = [], ""

    def row(self, payer: str, bin_number: str, control: str | None) -> str:
        """Gathers a row, and tells it."""
        self.rows.append({"bin": bin_number, "payer": int(payer)} | ({} if control is None else {"pcn": control}))
        told = "any" if control is None else printed(control.encode("latin-1")) or '""'
        return f"{bin_number} {told} payer={payer}"

    def made(self, payers: int) -> str:
        """Whether a table of the gathered rows is made, or the fault of its first bad row; no row is left then."""
        self.table, self.rows = settings([("150", "1000")] * payers, self.rows, "00093721410 = 18567\n"), []
        ran = run(
            "claimswitch", "replay", given=self.table.encode("latin-1") + b"---\n", env={"CLAIMSWITCH_EXPLAIN": "1"}
        )
        return (
            fault_of(ran.err.decode("latin-1").splitlines()[1].removeprefix("claimswitch: ")) if ran.status else "made"
        )

    def payer(self, bin_number: str, control: str) -> str:
        """Where a request goes."""
        given = f"{self.table}---\nsubmit ph1 {request(bin_number, control)}\n{THERE_AND_BACK}"
        lines = run("claimswitch", "replay", given=given.encode()).told().splitlines()
        paid = [line.split(" ")[1] for line in lines if line.startswith("payer ") and line.endswith(" rows 1")]
        return " ".join(paid) if paid else "no payer" if "1 B1 R 01" in lines else "\n".join(lines)

    def tell(self, word: str, argument: bytes) -> str:
        """What a row comes to."""
        text = argument.decode("latin-1")
        if word == "table":
            return self.made(int(text))
        if word == "route":
            return self.payer(*text.split(" ", 1))
        payer, bin_number, *control = text.split(" ", 2)
        return self.row(payer, bin_number, control[0] if word == "pcn-row" else None)


def fault_of(said: str) -> str:
    """The fault of a row of routes by its name and place, from 0, as the words for people have it."""
    kinds = {
        "a text of six digits is wanted": "BadBin",
        "a text of at most 10 bytes without separators and without a space at its end is wanted": "BadPcn",
        "there is no such payer": "NoSuchPayer",
        "an earlier row is for the same BIN and processor control number": "SameRow",
    }
    where, _, why = said.rpartition(": ")
    place = int(where.rsplit(" ", 1)[1]) - ("[[route]]" in where)
    return f"{kinds[why]}({place})"


def groups(path: str, name: str, kind: type[Case]) -> list[Group]:
    subject = Plan() if name.endswith("/prices.rows") else Routes()
    return [rows_in_order(name, read_rows(path), subject.tell, kind)]
