"""Hosts of nodes that are started again where they end, for tests/soak-all."""

import signal
import subprocess
import sys
import threading
import time

sys.dont_write_bytecode = True
from network import expect  # noqa: E402

TICK = "0.5"
# Statuses that say that words, settings or log are refused, and how programs are ended here.
REFUSED, ENDINGS = (2, 78), (-signal.SIGKILL, -signal.SIGTERM, -signal.SIGPIPE)
AGAIN_SECONDS, END_SECONDS = 0.2, 60


def ran(*words, seconds=300):
    """How a program ends that wants logs of nodes which do not run: who was killed may have its log for a moment."""
    for _ in range(100):
        given = {"stdin": subprocess.DEVNULL, "capture_output": True, "text": True, "check": False, "timeout": seconds}
        done = subprocess.run(list(map(str, words)), **given)
        if "another process has the log" not in done.stderr:
            break
        time.sleep(0.1)
    return done


def surely(*words, what, seconds=300):
    """What a program says, which has to end well."""
    done = ran(*words, seconds=seconds)
    expect(done.returncode == 0, f"{what}: status {done.returncode}: {done.stdout[-2000:]}{done.stderr[-300:]}")
    return done.stdout


class Host:
    """A host of a node, started again where it ends."""

    def __init__(self, world, name, machine=""):
        self.world, self.name, self.machine, self.id = world, name, machine, name + machine
        self.folder = world.folder / (f"machine-{machine}" if machine else "logs")
        self.disk = world.folder / f"disk-{self.id}"
        for folder in (self.folder, self.disk):
            folder.mkdir(exist_ok=True)
        self.keeps, self.is_spared = not name.startswith("sw"), name in world.spared
        self.log, self.said = self.folder / f"{name}.log", world.folder / f"{self.id}.said"
        self.settings = world.files[-1]
        self.process, self.is_held, self.lock = None, False, threading.RLock()
        # Whether it has said that the servers lack what it had seen: an operator restores the stream.
        self.is_refused = False
        self._ended = self._from = 0

    def words(self, url=None):
        words = [self.world.host, self.settings, self.name, *[self.log] * self.keeps]
        words += ["--log", "stream", "--machine", self.machine] if self.machine else []
        words += ["--nats", url or self.world.servers.url, "--login", self.world.access / f"{self.name}.login"]
        return [str(it) for it in (*words, "--keys", self.world.access, "--tick", TICK)]

    def start(self, url=None):
        self._from = self.said.stat().st_size if self.said.exists() else 0
        with open(self.said, "ab") as said:
            given = self.world.environment | {"TRIAL_DISK": str(self.disk)}
            self.process = subprocess.Popen(self.words(url), stdout=said, stderr=said, env=given)

    def since(self):
        """What it has said since it was started."""
        with open(self.said, "rb") as said:
            said.seek(self._from)
            return said.read()

    def is_ready(self):
        return self.process is not None and self.process.poll() is None and b" ready\n" in self.since()

    def look(self):
        """Starts it again where it has ended, a moment later."""
        with self.lock:
            if self.is_held or self.is_refused or (self.process is not None and self.process.poll() is None):
                return
            if self.process is not None and not self._ended:
                self._ended = time.monotonic()
                status = self.process.returncode
                self.world.count(f"status {status}" if status >= 0 else "", 1)
                if status == REFUSED[1] and self.machine and b"have lost" in self.since():
                    self.is_refused = True
                elif status in REFUSED or (status < 0 and status not in ENDINGS):
                    self.world.faults.append(f"{self.id} ended with {status}: {self.since()[-400:]}")
            if time.monotonic() - self._ended > AGAIN_SECONDS:
                self._ended = 0
                self.start()

    def send(self, number):
        """Sends a signal where it runs; whether it does."""
        with self.lock:
            if self.is_held or self.process is None or self.process.poll() is not None:
                return False
            self.process.send_signal(number)
            return True

    def end(self, number=signal.SIGTERM):
        """Ends it where it runs, and keeps it from being started."""
        with self.lock:
            self.is_held = True
            if self.process is not None and self.process.poll() is None:
                self.process.send_signal(signal.SIGCONT)
                self.process.send_signal(number)
        if self.process is not None:
            try:
                self.process.wait(END_SECONDS)
            except subprocess.TimeoutExpired:
                self.world.faults.append(f"{self.id} does not end")
                self.process.kill()
                self.process.wait()
        # How it ended is looked at no more.
        self.process, self._ended = None, 0
