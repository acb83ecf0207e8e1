"""Lines of a schedule, of `replay` and of `run`: what they spell, the first line that spells nothing, and what is wrong in it.

What lines spell is told in words: `tick pharmacy=1`. Written as the one plain line of those words, `tick ph1`, a program has to make
the same of them as of the lines themselves."""
import re

from suite import days
from suite.case import Case, Group
from suite.programs import run
from suite.rows import Row, read_rows

PROGRAMS = ("claimswitch",)
WORDS = {"schedules": "replay", "commands": "run"}
NODES = {"pharmacy": "ph", "switch": "sw", "payer": "pr"}
# What a fault of a line is for people, as docs/FORMATS.md has it.
SAYS = {
    "EventWord": "a line is submit ph1 TEXT, tick ph1, deliver 3, stop sw1, start sw1 or plan pr1 PRODUCT PRICE, with one space "
    "between words",
    "CommandWord": "a line is submit ph1 TEXT, tick ph1, plan pr1 PRODUCT PRICE, restart sw1 or await ph1 3, with one space between "
    "words, and before all of these fault ph1 sw1 ACTIONS",
    "Pharmacy": "a pharmacy is wanted: ph and 1 to 5 digits",
    "Payer": "a payer is wanted: pr and 1 to 5 digits",
    "Node": "a node is wanted: ph, sw or pr and 1 to 5 digits",
    "Number": "a number is wanted: 1 to 18 digits",
    "Request": "behind the pharmacy one space and a request are wanted",
    "Product": "a product is wanted: one or more printed bytes without a space",
    "Price": "a price is wanted: 1 to 18 digits, at most 4294967295, or none",
    "Actions": "actions are wanted: deliver, lose, twice and hold, joined by commas",
    "Order": "faults of links stand before all commands",
}
ACTIONS = {"deliver", "lose", "twice", "hold"}


def settings() -> bytes:
    """The settings of one pharmacy, two switches and one payer."""
    return days.parts(days.named("restarts"))[0].split(b"---\n")[0]


def plain_lines(outcome: str) -> list[str]:
    """The plain line of each event, command or fault of a link that an outcome tells."""
    heads = [
        found.start()
        for found in re.finditer(r"\b(submit|tick|deliver packet|stop|start|plan|restart|await|fault)\b", outcome)
    ]
    return [
        plain_line(outcome[at:end].rstrip(" ") if end else outcome[at:]) for at, end in zip(heads, [*heads[1:], None])
    ]


def plain_line(told: str) -> str:
    """The plain line of what is told in words."""
    word, _, rest = told.partition(" ")
    if word == "submit":
        node, _, text = rest.partition(" ")
        return f'submit {node_in(node)} {"" if text == chr(34) * 2 else text}'
    if word == "plan":
        node, _, rest = rest.partition(" ")
        product, _, price = rest.rpartition(" ")
        spelled = product.replace(" ", "\\x20")
        return f'plan {node_in(node)} {spelled} {price.removeprefix("price=") if "=" in price else "none"}'
    parts = rest.split(" ")
    actions = ",".join(it for it in parts if it in ACTIONS)
    return " ".join([word, *(node_in(it) for it in parts if it not in ACTIONS), *([actions] if actions else [])])


def node_in(told: str) -> str:
    """A node, or a number, as lines have it."""
    kind, _, number = told.partition("=")
    return NODES.get(kind, "") + number


def made_of(word: str, lines: bytes) -> tuple[str, str]:
    """What a program makes of lines behind the settings, and its complaint."""
    ran = run("claimswitch", word, given=settings() + b"---\n" + lines, env={"CLAIMSWITCH_EXPLAIN": "1"})
    return ran.out.decode("latin-1"), ran.err.decode("latin-1")


def read(case: Case, word: str, row: Row) -> None:
    """Compares what lines spell, or which is the first that spells nothing."""
    out, complaint = made_of(word, row.argument)
    refused = re.fullmatch(r"refused Line\((\d+)\)", row.outcome)
    if refused:
        case.compare(f"claimswitch: line {refused.group(1)} refused", complaint.split("\n")[0])
        case.compare("", out)
        return
    plain = "".join(f"{line}\n" for line in plain_lines(row.outcome))
    case.compare("", complaint)
    case.compare(made_of(word, plain.encode("latin-1"))[0], out)


def why(case: Case, word: str, row: Row) -> None:
    """Compares what is wrong in a line: behind faults of links that stand first, where the line is one of `run`."""
    front = b"tick ph1\n" if word == "run" else b""
    _, complaint = made_of(word, front + row.argument + b"\n")
    place = re.fullmatch(r"Printed\((\d+)\)", row.outcome)
    if row.outcome == "nothing":
        case.compare("", complaint)
    elif place:
        case.compare(
            f"byte {place.group(1)} of the request is not printed text", complaint.split("\n")[1].split(": ")[1]
        )
    else:
        case.compare(f"claimswitch: {SAYS[row.outcome]}", complaint.split("\n")[1])


def groups(path: str, name: str, kind: type[Case]) -> list[Group]:
    word = WORDS[name.rsplit("/", 1)[1].rsplit(".", 1)[0]]
    compared = {"read": read, "why": why}
    return [
        Group([kind(f"{name}:{row.line}", lambda case, row=row: compared[row.word](case, word, row), row.spelled)])
        for row in read_rows(path)
    ]
