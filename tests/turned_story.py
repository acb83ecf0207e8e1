"""Three nodes whose logs turn over while claims are under way, carried by hand: for tests/turned."""

import hashlib
import pathlib
import subprocess
import sys
from typing import NamedTuple

sys.dont_write_bytecode = True
TOP = pathlib.Path(__file__).resolve().parent.parent
sys.path[:0] = [str(TOP / "cases"), str(TOP / "tests")]
import programs  # noqa: E402
from suite.logs import headed  # noqa: E402
from suite import networks  # noqa: E402
from suite.nodes import Served  # noqa: E402
from suite.rows import shared_texts  # noqa: E402
from suite.said import said_of  # noqa: E402

NODES = ("ph1", "sw1", "pr1")
SETTINGS = networks.settings()
CLAIMS = 8
SETTLING_ROUNDS = 50
# More stops than any program makes here.
NEVER = 1_000_000
# How many bytes stand before the rest in the file of a turned log, before the record in the rest, and in the head of a log.
FILE, BODY, HEAD = 11, 54, 46


class Failed(Exception):
    """Something is otherwise than it has to be."""


def expect(is_so, what):
    if not is_so:
        raise Failed(what)


def texts():
    """The texts that are submitted: claims, one of them twice, and a reversal."""
    named = shared_texts("")
    claims = [named["billing"].replace("D2123456", f"D2{200000 + number}") for number in range(CLAIMS)]
    return [*claims, claims[0], named["reversal"].replace("D2123456", "D2200000")]


def run(*words):
    """How claimnode ends, which is asked nothing."""
    ran = subprocess.run(
        [programs.program("claimnode"), *map(str, words)],
        stdin=subprocess.DEVNULL,
        capture_output=True,
        text=True,
        check=False,
        timeout=60,
    )
    return ran.returncode, ran.stdout, ran.stderr


def backup(*words):
    """How hosts/backup ends."""
    words = [sys.executable, TOP / "hosts" / "backup", *words]
    return subprocess.run(list(map(str, words)), capture_output=True, text=True, check=False)


class Given(NamedTuple):
    """Which node's turning is killed, which one of its turns, and at which stop."""

    victim: str
    turn: int
    stop: int


class Story:
    """Three nodes, whose logs turn over, and are copied."""

    def __init__(self, folder, killer, given):
        self.folder, self.killer, self.given = pathlib.Path(folder), killer, given
        self.settings = self.folder / "settings.toml"
        self.settings.write_text(SETTINGS, encoding="ascii")
        self.served, self.packets = {}, []
        self.turns = dict.fromkeys(NODES, 0)
        self.stops = 0
        for node in NODES:
            self.start(node)

    def log(self, node):
        return self.folder / f"{node}.log"

    def start(self, node):
        self.served[node] = Served(str(self.settings), node, str(self.log(node)))

    def ask(self, node, line):
        """What a node says to a line; its packets are on their way."""
        answer = self.served[node].ask(line)
        self.packets += [(node, to, packet) for to, packet in answer.sent]
        return answer

    def carry(self):
        while self.packets:
            sender, to, packet = self.packets.pop(0)
            self.packets += [(to, other, sent) for other, sent in self.served[to].take(sender, packet).sent]

    def turn(self, node, at_rest):
        """Closes the log of a node, which stands still meanwhile; killed where it is the one that is meant, and then the node just goes on."""
        if at_rest:
            self.ask(node, "stop")
        self.served.pop(node).end()
        self.turns[node] += 1
        words = [programs.program("claimnode"), "--turn", self.settings, node, self.log(node)]
        is_meant = (node, self.turns[node]) == (self.given.victim, self.given.turn)
        state = self.folder / "state"
        if is_meant:
            words = [self.killer, self.given.stop, state, self.log(node), *words]
        ran = subprocess.run(list(map(str, words)), capture_output=True, check=False, timeout=60)
        expect(is_meant or ran.returncode == 0, f"the log of {node} is not closed: {ran.stderr}")
        if is_meant:
            self.stops = int(state.read_text().split()[0])
        self.start(node)
        if at_rest:
            # A turn that was killed may have started it already.
            told = self.ask(node, "start").last
            expect(told == "ok" or is_meant and told == "refused AlreadyUp", f"{node} is not started: {told}")

    def tell(self):
        for place, text in enumerate(texts()):
            told = self.ask("ph1", f"submit {text}")
            expect(told.last.startswith("number "), f"a submission gave {told.last}")
            # A packet is under way while the log of one that waits for it turns over.
            self.turn(NODES[place % 3], at_rest=place % 2 == 1)
            self.carry()
            if place % 4 == 0:
                self.backup()
        for _ in range(SETTLING_ROUNDS):
            if not self.ask("ph1", "open 1 100").entries:
                return
            self.ask("ph1", "tick")
            self.carry()
        raise Failed("an entry has no answer")

    def backup(self):
        """Copies all logs, and sees that they go on where their copies end."""
        kept = self.folder / "kept"
        for words in ([self.folder, kept], ["--compare", kept, self.folder]):
            ran = backup(*words)
            expect(ran.returncode == 0, f"hosts/backup: {ran.stdout}{ran.stderr}")

    def joined(self, node):
        """All calls of a node as one log."""
        out = self.folder / f"{node}.joined"
        status, said, complaint = run("--join", out, self.settings, node, self.log(node))
        expect(status == 0, f"the logs of {node} are not joined: {complaint}")
        return out, int(said.split()[1])

    def told_of(self, node, log):
        """What a node has behind a log."""
        with Served(str(self.settings), node, str(log)) as served:
            answers = served.ask_all(["count", "open 1 100", "payments 1 100"])
        return [(it.last, it.entries, it.lines) for it in answers]

    def judge(self):
        for node in NODES:
            self.served.pop(node).end()
        logs = []
        for node in NODES:
            out, count = self.joined(node)
            closed = count - 1
            expect(
                closed in (self.turns[node], self.turns[node] - (node == self.given.victim)),
                f"{node} has {closed} closed logs",
            )
            logs.append(str(out))
        self.backup()
        for log in self.folder.glob("*.log*"):
            expect(
                (self.folder / "kept" / log.name).read_bytes() == log.read_bytes() or log.suffix == ".next",
                f"{log.name} has no copy",
            )
        ran = subprocess.run(
            [programs.program("claimaudit"), str(self.settings), *logs], capture_output=True, text=True, check=False
        )
        expect(ran.returncode == 0, f"claimaudit says {ran.stdout.splitlines()[:1]} {ran.stderr.strip()}")
        words = [programs.program("claimaudit"), str(self.settings), *(str(self.log(node)) for node in NODES)]
        again = subprocess.run(words, capture_output=True, text=True, check=False)
        expect(
            again.stdout == ran.stdout,
            f"claimaudit says something else of logs that are not joined: {again.stdout[:80]} {again.stderr}",
        )
        for node, log in zip(NODES, logs):
            expect(
                self.told_of(node, log) == self.told_of(node, self.log(node)),
                f"{node} has something else behind its joined logs",
            )

    def end(self):
        for served in self.served.values():
            served.process.kill()
            served.end()


def begun(node, rest, calls):
    """The file of a log that begins with a rest, with the head that it has behind that, and goes on with these records."""
    said = hashlib.sha256(said_of(SETTINGS.encode("ascii"))).digest()
    head = headed(2, node, said + rest[:BODY])
    return b"PT\1" + len(rest).to_bytes(8, "big") + rest + head + calls


def parts_of(octets):
    """The rest, the head and the records of the file of a log that goes on."""
    size = FILE + int.from_bytes(octets[3:FILE], "big")
    return octets[FILE:size], octets[size : size + HEAD], octets[size + HEAD :]


def audited(*words):
    """How claimaudit ends, and what it says."""
    ran = subprocess.run(
        [programs.program("claimaudit"), *map(str, words)], capture_output=True, text=True, check=False, timeout=60
    )
    return ran.returncode, ran.stdout, ran.stderr


class Paid:
    """Three nodes that have paid a claim; the log of the payer was closed behind it, and has answered once more."""

    def __init__(self, story, folder):
        self.settings, self.folder = story.settings, pathlib.Path(folder)
        packet, sender, payer = None, "ph1", self.log("pr1")
        for node in NODES:
            with Served(str(self.settings), node, str(self.log(node))) as served:
                answer = served.take(sender, packet) if packet else served.ask(f"submit {texts()[0]}")
                if node != "pr1":
                    packet, sender = answer.sent[0][1], node
        ran = run("--turn", self.settings, "pr1", payer)
        expect(ran[0] == 0, f"the log of a payer is not closed: {ran[2]}")
        with Served(str(self.settings), "pr1", str(payer)) as served:
            served.take(sender, packet)
        self.rest, _, self.calls = parts_of(payer.read_bytes())

    def log(self, node):
        return self.folder / f"{node}.log"

    def begin(self, rest, calls):
        """Has the log of the payer begin with a rest, with the head that it has behind that."""
        self.log("pr1").write_bytes(begun("pr1", rest, calls))

    def judged(self, *words):
        """How claimaudit ends over these words and logs, and what it says."""
        return audited(*words[:-1], self.settings, *(self.log(it) for it in words[-1]))
