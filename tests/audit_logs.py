"""What tests/audit looks at: inputs of runs, and the bytes of logs, which are read and made anew here."""

import glob
import json
import os
import random
import re
import struct
import sys

sys.dont_write_bytecode = True
sys.path.append(os.path.join(os.path.dirname(os.path.dirname(os.path.abspath(__file__))), "cases"))
from suite import networks  # noqa: E402
from suite.sums import check_sum  # noqa: E402

HEAD = networks.settings(((1, 2), (2,)), (100, 100), (3, 64), again=2, tries=2) + "---\n"


def claim(provider, rx, fill):
    return (
        f"610455D0B1A1        1011{provider:<14}20240115SW00000001\\S\\FAM04\\FC2987654321\\G\\S\\FAM07\\FEM1\\FD2{rx}\\FD3{fill}"
        "\\FE103\\FD700093721410\\FE730000\\S\\FAM11\\FD9600{\\FDC20{"
    )


def reversal(provider, rx, fill):
    return f"610455D0B2A1        1011{provider:<14}20240115SW00000001\\G\\S\\FAM07\\FEM1\\FD2{rx}\\FD3{fill}\\FE103\\FD700093721410"


def random_world(seed, events):
    """A replay of random events over two pharmacies, two switches and a payer."""
    dice = random.Random(seed)
    lines, sent, next_one = [], 0, 1
    for _ in range(events):
        roll = dice.random()
        pharmacy = dice.choice([1, 2])
        if roll < 0.25:
            provider = "234567893" if pharmacy == 1 else "234567894"
            rx, fill = dice.randrange(1, 4) + 1000, dice.randrange(2)
            lines.append(f"submit ph{pharmacy} " + (reversal if dice.random() < 0.3 else claim)(provider, rx, fill))
            sent += 1
        elif roll < 0.9:
            for _ in range(dice.randrange(1, 4)):
                fate = dice.random()
                if fate < 0.1 and next_one > 1:
                    lines.append(f"deliver {dice.randrange(1, next_one)}")
                elif next_one <= sent * 4:
                    if fate < 0.9:
                        lines.append(f"deliver {next_one}")
                    next_one += 1
        elif roll < 0.94:
            lines.append(f"tick ph{pharmacy}")
            sent += 1
        elif roll < 0.97:
            lines.append(f"plan pr1 00093721410 {dice.randrange(10000, 20000)}")
        else:
            node = dice.choice(["ph1", "sw1", "sw2", "pr1"])
            lines += [f"stop {node}", f"start {node}"]
    return (HEAD + "\n".join(lines) + "\n").encode()


# Rules of retries that no pharmacy takes: of a switch that is not there, and of too few or too many ticks or tries.
NO_RULES = [(b"sw9", 1, 1), (b"sw1,sw3", 1, 1), (b"sw1", 0, 1), (b"sw1", 1, 0), (b"sw1", 1001, 1), (b"sw1", 1, 1001)]


def another_rule(dice, rule):
    """A rule of retries: what it is, another one, or one that is refused."""
    switches = b",".join(dice.choices([b"sw1", b"sw2"], k=dice.randrange(1, 4)))
    numbers = [dice.choice([1, 2, 3, 1000]) for _ in range(2)]
    return dice.choice([rule, (switches, *numbers), (switches, *numbers), dice.choice(NO_RULES)])


def another_cap(dice, switch, caps):
    """The lines of another cap of a switch, or of what it is; of a switch that may be up, and refuses it, where nothing stops it."""
    cap = dice.choice([caps[switch], dice.randrange(1, 100), dice.choice([1, 16777216])])
    lines = [b"cap sw%d %d" % (switch, cap)]
    if dice.random() < 0.3:
        return lines
    caps[switch] = cap
    return [b"stop sw%d" % switch, *lines, b"start sw%d" % switch]


def with_changes(text, seed):
    """An input between whose events the terms of payer 1, the rules of retries of both pharmacies and the caps of both switches change, to what they
    are too; some changes are refused."""
    dice = random.Random(seed)
    head, lines = text.split(b"---\n")
    made, terms, rules, caps = [], (150, 1000), {1: (b"sw1,sw2", 2, 2), 2: (b"sw2", 2, 2)}, {1: 3, 2: 64}
    for line in lines.splitlines():
        if dice.random() < 0.2:
            terms = dice.choice([terms, (dice.randrange(300), dice.randrange(2000)), (100000000, 0)])
            made.append(b"terms pr1 %d %d" % terms)
        if dice.random() < 0.2:
            pharmacy = dice.choice([1, 2])
            rule = another_rule(dice, rules[pharmacy])
            made.append(b"retry ph%d %s %d %d" % (pharmacy, *rule))
            if rule not in NO_RULES:
                rules[pharmacy] = rule
        if dice.random() < 0.2:
            switch = dice.choice([1, 2])
            made += another_cap(dice, switch, caps)
        made.append(line)
    return head + b"---\n" + b"\n".join(made) + b"\n"


def quoted_world():
    """A run whose control number and cardholder have commas, quotation marks and backslashes in them."""
    text = claim("234567893", 1001, 0).replace("A1        ", 'A,"1\\\\"    ', 1).replace("987654321", '9,"\\\\,"')
    return (HEAD + f"submit ph1 {text}\n" + "".join(f"deliver {n}\n" for n in range(1, 5))).encode()


def records(data):
    """Where the records of a log begin and end."""
    at, found = 46, []
    while at + 24 <= len(data):
        size = struct.unpack(">Q", data[at : at + 8])[0]
        found.append((at, at + 24 + size))
        at += 24 + size
    return found


def number(body, at, size):
    return int.from_bytes(body[at : at + size], "big"), at + size


def node_in(body, at):
    kind, at = number(body, at, 1)
    named, at = number(body, at, 2)
    return ("pharmacy", "switch", "payer")[kind] + f" {named}", at


def text_in(body, at):
    size, at = number(body, at, 8)
    return body[at : at + size], at + size


def packets(logs):
    """The packets that the nodes of logs took, and those that they sent: sender, addressee and bytes."""
    took, sent = [], set()
    for log in logs:
        data = open(log, "rb").read()
        node = node_in(data, 3)[0]
        for begin, end in records(data):
            body = data[begin + 16 : end - 8]
            kind, at = number(body, 0, 1)
            if kind == 2:
                sender, at = node_in(body, at)
                packet, at = text_in(body, at)
                took.append((sender, node, packet))
            elif kind in (0, 5, 6):
                _, at = text_in(body, at)
                at += 4 if kind == 6 else 0
            count, at = number(body, at, 8)
            for _ in range(count):
                addressee, at = node_in(body, at)
                packet, at = text_in(body, at)
                sent.add((node, addressee, packet))
            if at != len(body):
                raise AssertionError(f"{log}: a record is longer than its call")
    return took, sent


def body_parts(body):
    """The kind of the call of a record, the bytes that it has, and of each packet that it sent the addressee and where its bytes begin and end."""
    kind, at = number(body, 0, 1)
    text = b""
    if kind in (2, 8):
        _, at = node_in(body, at)
    if kind in (0, 2, 5, 6, 8):
        text, at = text_in(body, at)
        at += 4 if kind == 6 else 0
    if kind == 8:
        _, at = text_in(body, at)
    count, at = number(body, at, 8)
    sent = []
    for _ in range(count):
        to, at = node_in(body, at)
        size, at = number(body, at, 8)
        sent.append((to, at, at + size))
        at += size
    return kind, text, sent


# What a call is, by its kind, and the letters of a node.
CALLS = {0: "submission", 1: "tick", 2: "packet", 3: "stop", 4: "start", 5: "price", 6: "price", 8: "adjudication"}
LETTERS = {"pharmacy": "ph", "switch": "sw", "payer": "pr"}


def called(node):
    """A node as tables name it."""
    kind, named = node.split(" ")
    return LETTERS[kind] + named


def calls_in(log):
    """The records of a log as rows of the table of calls, from its bytes."""
    with open(log, "rb") as file:
        data = file.read()
    node = node_in(data, 3)[0]
    rows, submissions = [], 0
    for place, (begin, end) in enumerate(records(data), 1):
        body, time, reference = data[begin + 16 : end - 8], 0, b""
        if body[0] == 7:
            time, at = number(body, 1, 8)
            reference, at = text_in(body, at)
            body = body[at:]
        kind, text, _ = body_parts(body)
        row = {
            "node": called(node),
            "call": str(place),
            "time": str(time or ""),
            "reference": printed(reference),
            "kind": CALLS[kind],
            "from": "",
            "carries": "",
            "pharmacy": "",
            "number": "",
        }
        if kind == 0:
            submissions += 1
            row.update(carries="request", pharmacy=node.split(" ")[1], number=str(submissions))
        elif kind in (2, 8):
            row["from"] = called(node_in(body, 1)[0])
            row.update(
                carries={1: "request", 2: "answer"}[text[3]],
                pharmacy=str(number(text, 4, 2)[0]),
                number=str(number(text, 6, 8)[0]),
            )
        rows.append(row)
    return rows


def made_anew(data, bodies):
    """A log of these bodies, each with its sizes and its check sum."""
    log = data[:46]
    for i, body in enumerate(bodies, 1):
        size = struct.pack(">Q", len(body))
        log += size + bytes(it ^ 255 for it in size) + body + check_sum(data[2], i, body)
    return log


def logs_of(folder):
    return sorted(glob.glob(f"{folder}/*.log"))


def nodes_of(text):
    """The lines of a report after those of its events."""
    lines = text.split("\n")
    first = next((i for i, line in enumerate(lines) if line.startswith("pharmacy ")), len(lines))
    return lines[first:]


def strict(text):
    """What a text of JSON says; no name may stand twice in an object, and no constant that JSON does not have."""

    def members(pairs):
        if len(dict(pairs)) != len(pairs):
            raise AssertionError(f"a name twice in {pairs}")
        return dict(pairs)

    def refused(name):
        raise AssertionError(f"the constant {name}")

    return json.loads(text, object_pairs_hook=members, parse_constant=refused)


def as_csv(value):
    return {None: "", True: "true", False: "false"}[value] if value is None or isinstance(value, bool) else str(value)


def unprinted(text):
    """The bytes that printed text stands for."""

    def byte(found):
        letter = found.group(1)
        return (
            chr(int(letter[1:], 16))
            if letter[0] == "x"
            else {"F": "\x1c", "G": "\x1d", "S": "\x1e", "\\": "\\"}[letter]
        )

    return re.sub(r"\\(x..|.)", byte, text).encode("latin-1")


def printed(data):
    """Bytes as they are printed."""
    marks = {0x1C: "\\F", 0x1D: "\\G", 0x1E: "\\S", 0x5C: "\\\\"}
    return "".join(marks.get(byte) or (chr(byte) if 0x20 <= byte <= 0x7E else f"\\x{byte:02x}") for byte in data)
