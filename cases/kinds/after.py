"""What nodes hold after a day, and how settings of which no world is made are refused."""
from suite import days
from suite.case import Case, Group, rows_apart
from suite.logs import envelope, read_book
from suite.nodes import Served, room
from suite.printed import octets_of, printed
from suite.programs import run
from suite.rows import read_rows
from suite.worlds import Day, Dump, dump, packets_of

PROGRAMS = ("claimswitch", "claimdump", "claimnode")
# How claimswitch explains that settings make no world, and the name of that fault.
NO_WORLD = {
    "there are more than 256 pharmacies, 64 switches or 64 payers": "TooMany",
    "a pharmacy, a switch or a payer is missing, or a pharmacy names no switch or one that is not there": "NoNode",
    "two pharmacies have the same provider qualifier and provider": "SameProvider",
    "row 0: there is no such payer": "BadRoute(NoSuchPayer(0))",
}

# An answer that is readable, of nobody.
REJECTION = octets_of(r"D0B11R011234567893     20240115\G\S\FAM21\FANR\FFA1\FFB01")


def opening(name: str) -> str:
    """Whether the settings of a day make a world, or the first reason why not."""
    ran = run("claimswitch", "replay", given=days.parts(days.named(name))[0], env={"CLAIMSWITCH_EXPLAIN": "1"})
    if not ran.status:
        return "ok"
    first, why = ran.err.decode("latin-1").splitlines()
    if first != "claimswitch: settings refused" or ran.out:
        return str(ran)
    why = why.removeprefix("claimswitch: the settings make no world: ")
    return NO_WORLD.get(why, why)


def served(dumped: Dump, node: str) -> Served:
    """A node of a day, as its log leaves it."""
    return Served(dumped.path("settings.toml"), node, dumped.path(f"{node}.log"))


def held(day: Day, node: str, name: str) -> str:
    """The answer that a node holds for a number after a day."""
    pharmacy, number = (int(it) for it in name.split("."))
    with room() as folder:
        dumped = dump(folder, day)
        if node.startswith("pr"):
            found = [
                row.answer
                for row in read_book(dumped.read(f"{node}.book"))
                if (row.pharmacy, row.number) == (pharmacy, number)
            ]
            return printed(found[0]) if found else "none"
        with served(dumped, node) as it:
            if node.startswith("ph"):
                said = it.ask(f"answer {number}").last if node == f"ph{pharmacy}" else "none"
                return "none" if said == "open" else said.removeprefix("answer ")
            return held_by_switch(day, dumped, it, pharmacy, number)


def held_by_switch(day: Day, dumped: Dump, node: Served, pharmacy: int, number: int) -> str:
    """The answer that a switch holds: none where it waits for none, else the one that it sends to a pharmacy that asks again."""
    report = day.report()
    answered = dict(report.nodes["switch", int(node.node[2:])].table).get((pharmacy, number))
    if answered is None:
        told = node.take("pr1", envelope(True, pharmacy, number, REJECTION))
        return "none" if told.refused in ("NotWaiting", "Down") else f"takes an answer: {told}"
    head = envelope(False, pharmacy, number, b"")[:14]
    asked = next(packet for packet in packets_of(day, report, dumped) if packet.octets.startswith(head))
    told = node.take(f"ph{pharmacy}", asked.octets)
    return " ".join(printed(octets[18:]) for to, octets in told.sent if to == f"ph{pharmacy}") or "none"


def paid(day: Day, pharmacy: str) -> str:
    """How many payments a pharmacy counts after a day."""
    return str(len(day.report().nodes["pharmacy", int(pharmacy)].paid))


def payment(day: Day, authorization: str) -> str:
    """Whether a payment stands after a day."""
    states = [
        ruling.state
        for node in day.report().all("payer")
        for _, rulings in node.rows.values()
        for ruling in rulings
        if ruling.kind == "P" and ruling.auth == authorization
    ]
    return " ".join(states) or "none"


def packet(day: Day, number: str) -> str:
    """The packet of a number after a day."""
    with room() as folder:
        found = packets_of(day, day.report(), dump(folder, day))
    return printed(found[int(number) - 1].octets) if 1 <= int(number) <= len(found) else "none"


def table(day: Day, switch: str) -> str:
    """The requests in the table of a switch after a day, oldest first."""
    nodes = day.report().nodes
    lines = nodes["switch", int(switch)].table if ("switch", int(switch)) in nodes else []
    return (
        " ".join(f'{pharmacy}.{number} {"answered" if answered else "open"}' for (pharmacy, number), answered in lines)
        or "none"
    )


def tell(word: str, argument: bytes) -> str:
    name, *words = argument.decode("latin-1").split(" ")
    if word == "opening":
        return opening(name)
    return {"held": held, "paid": paid, "payment": payment, "packet": packet, "table": table}[word](Day(name), *words)


def groups(path: str, name: str, kind: type[Case]) -> list[Group]:
    return rows_apart(name, read_rows(path), tell, kind)
