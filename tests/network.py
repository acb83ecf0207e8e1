"""Six nodes over a NATS server on this machine, for tests of hosts: a folder, a server with TLS, a user a node, and clients.

What a test wants and this machine does not have ends it with status 3, and says so."""

import asyncio
import os
import pathlib
import re
import shutil
import subprocess
import sys
import tempfile
import time

sys.dont_write_bytecode = True
TOP = pathlib.Path(__file__).resolve().parent.parent
HOSTS = TOP / "hosts"
sys.path[:0] = [str(TOP / "tests"), str(TOP / "cases"), str(HOSTS)]
import nats  # noqa: E402
import programs  # noqa: E402
from local_servers import free_ports, is_open  # noqa: E402
from suite import networks  # noqa: E402

SETTINGS = TOP / "examples" / "six-nodes.toml"
NODES = ["ph1", "ph2", "sw1", "sw2", "pr1", "pr2"]
# Those that keep a log: a switch keeps nothing.
KEEPERS = [node for node in NODES if not node.startswith("sw")]
BILLING = networks.BILLING


class Failed(AssertionError):
    """Something is otherwise than it has to be."""


def need(name, *wanted):
    """Ends a test where a program is not there."""
    for program in wanted:
        if not shutil.which(program):
            print(f"{name}: skipped, since {program} is not there")
            sys.exit(3)


def expect(is_so, what):
    """Fails where something is not so."""
    if not is_so:
        raise Failed(what)


def free_port(count=1):
    """A port of this machine that nobody has, as those that follow it."""
    return free_ports(count)


def wait_for(is_so, what, seconds=30.0):
    """Waits until something is so."""
    end = time.monotonic() + seconds
    while not is_so():
        expect(time.monotonic() < end, f"not in {seconds:.0f} s: {what}")
        time.sleep(0.05)


def claim(number):
    """A billing of its own, in printed bytes."""
    return networks.billing(100000 + number)


def certificate(folder):
    """A certificate for 127.0.0.1, its key, and that of who has signed it."""
    quiet = {"check": True, "capture_output": True, "cwd": folder}
    new = ["openssl", "req", "-newkey", "ec", "-pkeyopt", "ec_paramgen_curve:prime256v1", "-nodes"]
    subprocess.run([*new, "-x509", "-days", "2", "-subj", "/CN=trial", "-keyout", "ca.key", "-out", "ca.pem"], **quiet)
    subprocess.run([*new, "-subj", "/CN=127.0.0.1", "-keyout", "server.key", "-out", "server.csr"], **quiet)
    (pathlib.Path(folder) / "names").write_text("subjectAltName=IP:127.0.0.1,DNS:localhost\n", encoding="ascii")
    sign = [
        "openssl",
        "x509",
        "-req",
        "-in",
        "server.csr",
        "-CA",
        "ca.pem",
        "-CAkey",
        "ca.key",
        "-CAcreateserial",
        "-days",
        "2",
    ]
    subprocess.run([*sign, "-extfile", "names", "-out", "server.pem"], **quiet)


def host(*flags):
    """The host of a node, as tools/host builds it: of a wrong one, or a tormented one, with these words to `make`. Ends the test where it
    cannot be built."""
    made = subprocess.run([TOP / "tools" / "host", *flags], stdout=subprocess.PIPE, text=True, check=False)
    if made.returncode:
        sys.exit(made.returncode)
    return made.stdout.strip()


def logs_in(folder, nodes=NODES):
    """The logs of nodes in a folder; of switches those that are there."""
    paths = [pathlib.Path(folder) / f"{node}.log" for node in nodes]
    return [str(path) for path in paths if not path.name.startswith("sw") or path.exists()]


class Network:
    """A cluster of six nodes in a folder of its own."""

    def __init__(
        self,
        folder,
        tls=False,
        jetstream=False,
        words=(),
        settings=SETTINGS,
        url=None,
        program=None,
        keys=False,
    ):
        self.folder, self.tls, self.keys, self.host = pathlib.Path(folder), tls, keys, program or host()
        self.port = free_port()
        self.url = url or f"{'tls://' if tls else ''}127.0.0.1:{self.port}"
        # Servers of a given URL are the test's.
        self._has_server = url is None
        self.access_folder, self.logs = self.folder / "access", self.folder / "logs"
        self.settings = self.folder / "settings.toml"
        shutil.copyfile(settings, self.settings)
        self.ca = str(self.folder / "ca.pem") if tls else None
        # More words of the cluster.
        self.more, self._jetstream = list(words), jetstream
        self.said = self.folder / "said"
        self.process = None
        if tls:
            certificate(self.folder)
        self.permit()

    def permit(self, *more):
        """Writes who may do what, with more words."""
        words = [HOSTS / "permissions", self.settings, self.access_folder, "--listen", f"127.0.0.1:{self.port}"]
        words += ["--tls", self.folder / "server.pem", self.folder / "server.key"] if self.tls else []
        words += ["--jetstream", self.folder / "store"] if self._jetstream else []
        words += ["--keys"] * self.keys
        subprocess.run([sys.executable, *words, *more], check=True, stdout=subprocess.DEVNULL)

    def login(self, user):
        return str(self.access_folder / f"{user}.login")

    def words(self):
        """The words of the cluster."""
        words = [
            sys.executable,
            HOSTS / "cluster.py",
            self.settings,
            self.logs,
            "--access",
            self.access_folder,
            "--nats",
            self.url,
        ]
        words += ["--server"] * self._has_server
        words += ["--ca", self.ca] if self.ca else []
        words += ["--jetstream"] if self._jetstream else []
        return list(map(str, [*words, "--host", self.host, *self.more]))

    def start(self):
        """Starts all, once more too, and waits until each node is ready."""
        if self.said.exists():
            self.said.write_bytes(self.said.read_bytes().replace(b" ready\n", b" was ready\n"))
        with open(self.said, "ab") as said:
            self.process = subprocess.Popen(self.words(), stdout=said, stderr=said)
        wait_for(lambda: self.ready() >= len(NODES), "six nodes are ready")

    def ready(self):
        """How many nodes have said that they are ready, since the start."""
        return len(re.findall(rb"^\w+ ready$", self.said.read_bytes(), re.MULTILINE))

    def stop(self):
        """Ends all in order; the status."""
        if self.process is None:
            return 0
        self.process.terminate()
        status = self.process.wait(60)
        self.process = None
        return status

    def children(self):
        """The processes of this cluster, as they stand in /proc: number and words."""
        found, rows = {self.process.pid}, {}
        for entry in pathlib.Path("/proc").iterdir():
            if entry.name.isdigit():
                try:
                    parent = int((entry / "stat").read_text().rpartition(")")[2].split()[1])
                    rows[int(entry.name)] = (parent, (entry / "cmdline").read_bytes().split(b"\0"))
                except (OSError, ValueError):
                    continue
        grown = True
        while grown:
            more = {pid for pid, (parent, _) in rows.items() if parent in found} - found
            found |= more
            grown = bool(more)
        return {pid: rows[pid][1] for pid in found if pid in rows}

    def ask(self, *words):
        """Asks by vogctl; what it prints and its status."""
        given = ["--nats", self.url, "--access", str(self.access_folder)] + (["--ca", self.ca] if self.ca else [])
        done = subprocess.run(
            [sys.executable, HOSTS / "vogctl", *given, *words], capture_output=True, text=True, check=False
        )
        return done.stdout.strip(), done.returncode

    def pay(self, number, pharmacy="ph1"):
        """Submits a claim and waits for its answer, which has to pay it."""
        request = self.folder / "request"
        request.write_text(claim(number) + "\n", encoding="ascii")
        told, status = self.ask(pharmacy, "submit", str(request))
        expect(status == 0 and told.startswith("number "), f"claim {number} was not taken: {told}")
        answer, _ = self.ask(pharmacy, "wait", told.split()[1])
        expect("ANP" in answer, f"claim {number} was not paid: {answer}")

    async def client(self, user):
        """A connection of a user; its `errors` are what the server refuses it, `told` what it says."""
        access = nats.Access(self.url, self.ca, self.login(user))
        told = []
        connection = nats.Connection(access, user or "nobody", lambda what, **facts: told.append(f"{what} {facts}"))
        connection.told = told
        await asyncio.wait_for(connection.start(), 10)
        return connection

    def audit(self):
        """All logs, at rest, have to be those of one legal run; what the audit tells."""
        done = subprocess.run(
            [programs.program("claimaudit"), self.settings, *logs_in(self.logs)],
            capture_output=True,
            text=True,
            check=False,
        )
        expect(
            done.returncode == 0 and "one legal run" in done.stdout,
            f"the audit: {done.stdout[-500:]}{done.stderr[-300:]}",
        )
        return done.stdout


def memory_of(pid):
    """How much memory a process has had at most, and has now, in KiB."""
    text = pathlib.Path(f"/proc/{pid}/status").read_text()
    return tuple(int(re.search(rf"^{key}:\s+(\d+)", text, re.MULTILINE).group(1)) for key in ("VmHWM", "VmRSS"))


def heap_of(pid):
    """How large the heap of a process is, in KiB: that of which the C library takes small pieces of memory."""
    found = re.search(
        r"^([0-9a-f]+)-([0-9a-f]+) .*\[heap\]$", pathlib.Path(f"/proc/{pid}/maps").read_text(), re.MULTILINE
    )
    return (int(found[2], 16) - int(found[1], 16)) >> 10 if found else 0


def main(name, trial, needs=("claimaudit",)):
    """Runs a trial in a folder of its own, over these programs: `trial(folder, words)`; the words are those of the command line."""
    need(name, "nats-server", "openssl", *map(programs.program, needs))
    with tempfile.TemporaryDirectory(prefix=f"{name}-") as folder:
        try:
            print(f"{name}: {trial(folder, sys.argv[1:])}")
            return 0
        except (Failed, asyncio.TimeoutError, subprocess.SubprocessError, OSError) as fault:
            print(f"{name}: not so: {fault}", file=sys.stderr)
            said = pathlib.Path(folder) / "said"
            if said.exists():
                sys.stderr.write("\n".join(said.read_text(errors="replace").splitlines()[-25:]) + "\n")
            return 1
