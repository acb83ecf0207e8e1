"""The host as a node of tests/killed: asked over a NATS server, and killed at its system calls that touch its log."""

import itertools
import multiprocessing
import pathlib
import re
import socket
import subprocess
import time

import network
from suite.printed import octets_of

# No node ticks by itself, and no packet is held back.
WORDS = ("--tick", "1000000", "--hold-back", "0")
INBOX = "_INBOX.killed"
WAIT_SECONDS = 30
# How long after one call another is asked, while the first has its sync: tests/kill_at.c has one take longer.
BETWEEN_SECONDS = 0.01
# How long what a host said just before its end is on its way.
LAST_WORDS_SECONDS = 0.06


class Died(Exception):
    """A node was killed before it had said all."""


def build(wrong):
    """The host's program, with this mistake in it where one is named; ends the test where it cannot be built."""
    network.need("killed", "nats-server")
    return network.host(*([f"CFLAGS=-O1 -DWRONG_{wrong}"] if wrong else []))


class Servers:
    """NATS servers, one for each process that tries; all are stopped where this ends."""

    def __init__(self, folder, count):
        self.ports, self.processes = multiprocessing.Queue(), []
        for _ in range(count):
            port = network.free_port()
            words = ["nats-server", "-a", "127.0.0.1", "-p", str(port), "-l", f"{folder}/server-{port}.txt"]
            self.processes.append(subprocess.Popen(words))
            network.wait_for(lambda at=port: network.is_open(at), "the server is there")
            self.ports.put(port)

    def __enter__(self):
        return self

    def __exit__(self, *_):
        for process in self.processes:
            process.terminate()
            process.wait()


class Wire:
    """A connection to a NATS server that hears what all nodes say."""

    def __init__(self, port):
        self.port = port
        self.socket = socket.create_connection(("127.0.0.1", self.port))
        self.octets = b""
        self.numbers = itertools.count(1)
        self.send(
            b'CONNECT {"verbose":false,"pedantic":false,"echo":false}\r\nSUB claims.*.from.* 1\r\nSUB '
            + INBOX.encode()
            + b".* 2\r\n"
        )

    def send(self, octets):
        self.socket.sendall(octets)

    def publish(self, subject, payload):
        """Publishes something, and gives the subject on which its reply comes."""
        inbox = f"{INBOX}.{next(self.numbers)}"
        self.send(f"PUB {subject} {inbox} {len(payload)}\r\n".encode("ascii") + payload + b"\r\n")
        return inbox

    def next(self, seconds):
        """What comes within some seconds: a subject and a payload, of a pong `PONG` and nothing; None where nothing comes."""
        end = time.monotonic() + seconds
        while True:
            if b"\r\n" in self.octets:
                line, rest = self.octets.split(b"\r\n", 1)
                found = re.fullmatch(rb"MSG (\S+) \S+ (?:\S+ )?(\d+)", line)
                if found and len(rest) >= int(found[2]) + 2:
                    size = int(found[2])
                    self.octets = rest[size + 2 :]
                    return found[1].decode("ascii"), rest[:size]
                if not found:
                    self.octets = rest
                    if line == b"PING":
                        self.send(b"PONG\r\n")
                    if line == b"PONG":
                        return "PONG", b""
                    continue
            left = end - time.monotonic()
            if left <= 0:
                return None
            self.socket.settimeout(left)
            try:
                self.octets += self.socket.recv(65536)
            except TimeoutError:
                return None

    def rest(self):
        """All that comes of those who are gone."""
        time.sleep(LAST_WORDS_SECONDS)
        self.send(b"PING\r\n")
        while (came := self.next(WAIT_SECONDS)) is not None and came[0] != "PONG":
            yield came


class Host:
    """A node's host, and what it has said."""

    def __init__(self, trial, name, wire):
        self.trial, self.name, self.wire = trial, name, wire
        self.log = trial.folder / f"{name}.log"
        self.state = trial.folder / f"{name}.state"
        self.sent, self.numbers, self.process = [], 0, None
        # What nodes of earlier trials have said.
        list(wire.rest())

    def start(self, stop=None):
        words = [self.trial.host, str(self.trial.settings), self.name, *[str(self.log)] * self.trial.keeps]
        words += ["--nats", f"127.0.0.1:{self.wire.port}", *WORDS]
        if stop:
            self.state.unlink(missing_ok=True)
            choosy = ["-l"] * self.trial.keeps
            words = [self.trial.killer, *choosy, str(stop), str(self.state), str(self.log), *words]
        self.process = subprocess.Popen(
            words, stdin=subprocess.DEVNULL, stdout=subprocess.PIPE, stderr=subprocess.DEVNULL
        )
        if not self.process.stdout.readline().endswith(b" ready\n"):
            raise Died

    def ask(self, line):
        """What a call comes to: its last line, or that some entries are open. The packets that it sends are on their way."""
        (told,) = self.ask_all([line])
        if told is None:
            raise Died
        return told

    def ask_all(self, lines):
        """What calls come to that are asked right after one another, so that a sync is under way as the next comes; None of those of which
        nothing was said before the host died."""
        told = {}
        for line in lines:
            told[self.publish(line)] = None
            time.sleep(BETWEEN_SECONDS)
        end = time.monotonic() + WAIT_SECONDS
        while None in told.values() and time.monotonic() < end:
            came = self.wire.next(0.02)
            if came is None and self.process.poll() is not None:
                break
            self.hear(came, told)
        if None in told.values():
            for came in self.wire.rest():
                self.hear(came, told)
        return list(told.values())

    def publish(self, line):
        """Asks for a call; the inbox in which its last line comes."""
        word, _, rest = line.partition(" ")
        sender, _, packet = rest.partition(" ")
        is_packet = word == "take"
        subject = f"claims.{self.name}.from.{sender}" if is_packet else f"claims.{self.name}.operate"
        return self.wire.publish(subject, (packet if is_packet else line).encode("latin-1"))

    def hear(self, came, told=None):
        """Notes the last line of a call, or a packet that this node has sent."""
        if came and told is not None and came[0] in told:
            told[came[0]] = self.told(came[1].decode("latin-1").splitlines())
            return
        words = came[0].split(".") if came else ()
        if len(words) == 4 and words[3] == self.name:
            self.sent.append((words[1], octets_of(came[1].decode("latin-1"))))
            self.trial.packets.append((self.name, words[1], came[1].decode("latin-1")))

    def told(self, lines):
        if lines[-1].startswith("number "):
            self.numbers = int(lines[-1][7:])
        return "open" if lines[0].startswith("entry ") else lines[-1]

    def end(self):
        """Ends it, and gives how many stops it has made where it was watched, and at which it opened its log."""
        if self.process.poll() is None:
            self.wire.publish(f"claims.{self.name}.operate", b"kill")
        self.process.stdout.close()
        self.process.wait()
        for came in self.wire.rest():
            self.hear(came)
        told = self.state.read_text().split() if self.state.exists() else [0, 0, 0, 0]
        return int(told[0]), int(told[3])
