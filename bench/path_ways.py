"""What bench/path measures: hosts over a server, and payers over SQLite and PostgreSQL; and the slow disk below them."""

import importlib.util
import json
import os
import pathlib
import re
import select
import shutil
import signal
import subprocess
import sys
import time
import urllib.request
from importlib.machinery import SourceFileLoader

import network
from suite import networks

TOP = pathlib.Path(__file__).resolve().parent.parent
NODES = ("ph1", "sw1", "pr1")
CAP = 65_536
FIRST = 100_000


def module(name):
    """A script of this folder, as a module."""
    loader = SourceFileLoader(name, str(TOP / "bench" / name))
    spec = importlib.util.spec_from_loader(name, loader)
    made = importlib.util.module_from_spec(spec)
    loader.exec_module(made)
    return made


against = module("against")


class Disk:
    """The slow disk: what is preloaded, and its count of syncs."""

    def __init__(self, folder, microseconds):
        self.library, self.count, self.milliseconds = folder / "slow_sync.so", folder / "syncs", microseconds / 1000
        compile_c("slow_sync.c", self.library, "-shared", "-fPIC")
        self.count.write_bytes(bytes(16))
        self.count.chmod(0o666)
        self.environment = {
            "LD_PRELOAD": str(self.library),
            "SYNC_COUNT": str(self.count),
            "SYNC_MICROSECONDS": str(microseconds),
        }

    def syncs(self):
        """How many have begun, and how many have ended."""
        both = self.count.read_bytes()
        return int.from_bytes(both[:8], sys.byteorder), int.from_bytes(both[8:], sys.byteorder)


def compile_c(source, made, *words):
    command = ["cc", "-O2", "-w", "-D_GNU_SOURCE", "-o", made, TOP / "bench" / source, *words]
    subprocess.run(list(map(str, command)), check=True)


class Hosts:
    """Hosts over a server; with `callgrind` each runs under it, and ticks nothing again meanwhile."""

    server_pid = None

    def __init__(self, folder, disk, callgrind=None):
        self.folder, self._next, self._disk = folder, FIRST, disk
        folder.mkdir()
        compile_c("path_client.c", folder / "client", "-lnats", "-lpthread")
        self._port, self._watch = network.free_port(), network.free_port()
        server = ["nats-server", "-a", "127.0.0.1", "-p", str(self._port), "-m", str(self._watch)]
        self._server = subprocess.Popen([*server, "-l", str(folder / "server.txt")])
        self.server_pid, self._cluster = self._server.pid, None
        try:
            self._start(disk, callgrind)
        except BaseException:
            self.close()
            raise

    def _start(self, disk, callgrind):
        """Starts the hosts, and waits until each is ready."""
        folder = self.folder
        network.wait_for(lambda: network.is_open(self._port), "the server is there")
        (folder / "net.toml").write_text(
            networks.settings(caps=(CAP,), switches=(CAP,), rows=CAP, again=2, tries=2), encoding="ascii"
        )
        words = [sys.executable, TOP / "hosts" / "cluster.py", folder / "net.toml", folder / "logs"]
        words += ["--nats", f"127.0.0.1:{self._port}", "--reserve", "0", "--host", self._host(callgrind)]
        words += ["--tick", "600" if callgrind else "1"]
        with open(folder / "said", "wb") as said:
            self._cluster = subprocess.Popen(
                list(map(str, words)), stdout=said, stderr=said, env=os.environ | disk.environment
            )
        network.wait_for(lambda: (folder / "said").read_bytes().count(b" ready\n") >= len(NODES), "hosts are ready", 90)
        self.pids = [pid for pid in self._children() if self._is_host(pid)]
        network.expect(len(self.pids) >= len(NODES), f"{len(self.pids)} hosts")

    def _host(self, callgrind):
        if callgrind is None:
            return network.host()
        script = self.folder / "host"
        script.write_text(f'#!/bin/sh\nexec {" ".join(callgrind.words())} {network.host()} "$@"\n', encoding="ascii")
        script.chmod(0o700)
        return script

    def _children(self):
        at = pathlib.Path(f"/proc/{self._cluster.pid}/task/{self._cluster.pid}/children")
        return [int(it) for it in at.read_text(encoding="ascii").split()]

    @staticmethod
    def _is_host(pid):
        words = pathlib.Path(f"/proc/{pid}/cmdline").read_bytes().split(b"\0")
        return any(node.encode() in words for node in NODES)

    def _messages(self):
        """Messages that the server took and handed on."""
        with urllib.request.urlopen(f"http://127.0.0.1:{self._watch}/varz", timeout=30) as told:
            found = json.load(told)
        return found["in_msgs"] + found["out_msgs"]

    def _bytes(self):
        """Bytes of its connections, in both directions, or None."""
        if not shutil.which("ss"):
            return None
        told = subprocess.check_output(["ss", "-tinH", f"sport = :{self._port}"], text=True)
        return sum(map(int, re.findall(r"\bbytes_(?:sent|received):(\d+)", told)))

    def run(self, count, at_once):
        """Claims that are paid: claims a second, two times, the syncs of each in sequence, and the messages and bytes that it took."""
        words = [self.folder / "client", f"nats://127.0.0.1:{self._port}", count, at_once, self._next, networks.BILLING]
        self._next += count
        with subprocess.Popen(
            list(map(str, words)),
            stdin=subprocess.PIPE,
            stdout=subprocess.PIPE,
            text=True,
            bufsize=1,
            env=os.environ | {"SYNC_COUNT": str(self._disk.count)},
        ) as client:
            network.expect(client.stdout.readline() == "ready\n", "the client is not ready")
            messages, size = self._messages(), self._bytes()
            client.stdin.write("go\n")
            client.stdin.flush()
            rate, middle, most, again, unpaid, syncs = map(float, client.stdout.readline().split())
            messages = self._messages() - messages
            size = None if size is None else self._bytes() - size
            client.stdin.close()
            client.wait(60)
        network.expect(unpaid == 0, f"{unpaid:.0f} of {count} claims were not paid")
        if again:
            print(f"path: {again:.0f} words to come again, to {count} claims, {at_once} at once", file=sys.stderr)
        return rate, middle, most, syncs / count, messages / count, None if size is None else size / count

    def close(self):
        if self._cluster is not None:
            self._cluster.terminate()
            self._cluster.wait(120)
        self._server.terminate()
        self._server.wait(30)


class Beside:
    """A payer that is fed with lines, and has no network."""

    server_pid, pids = None, []

    def __init__(self, folder, disk, callgrind=None):
        self.folder, self._next, self._disk = folder, 1, disk
        folder.mkdir()
        self.environment = disk.environment
        self.payer = against.Payer([*(callgrind.words() if callgrind else []), *self.words()], self.environment)
        self.pids = self.pids or [self.payer.process.pid]

    def run(self, count, at_once):
        asked = [against.line(number) for number in range(self._next, self._next + count)]
        self._next += count
        into, waits, since, times, paid = self.payer.process.stdin.fileno(), b"", [], [], 0
        begun = syncs = 0
        os.set_blocking(into, False)
        began = time.perf_counter()
        while len(times) < count:
            if more := asked[len(since) : len(times) + at_once]:
                begun = self._disk.syncs()[0]
                waits += b"".join(more)
                since += [time.perf_counter()] * len(more)
            # Neither waits for the other while a pipe is full.
            readable, writable, _ = select.select([self.payer.out], [into] if waits else [], [], 60)
            if writable:
                waits = waits[os.write(into, waits) :]
            for said in self.payer.lines() if readable else ():
                times += [time.perf_counter() - since[len(times)]] * (said == b"ok")
                paid += b"ANP" in said
                syncs += max(0, self._disk.syncs()[1] - begun) if said == b"ok" and at_once == 1 else 0
        seconds = time.perf_counter() - began
        network.expect(paid == count, f"{count - paid} of {count} claims were not paid")
        times.sort()
        return count / seconds, times[count // 2] * 1000, times[count * 99 // 100] * 1000, syncs / count, None, None

    def close(self):
        self.payer.end()


class Sqlite(Beside):
    """The payer over SQLite, in C."""

    def words(self):
        compile_c("payer_sqlite.c", self.folder / "payer", "-lsqlite3")
        return [self.folder / "payer", self.folder / "claims.db"]


class Postgres(Beside):
    """The payer over PostgreSQL, in C; the server runs as another user where this one is root, as it demands."""

    def words(self):
        includes = subprocess.check_output(["pg_config", "--includedir"], text=True).strip()
        compile_c("payer_postgres.c", self.folder / "payer", f"-I{includes}", "-lpq")
        tools = pathlib.Path(subprocess.check_output(["pg_config", "--bindir"], text=True).strip())
        user = {"user": "postgres", "group": "postgres", "extra_groups": []} if os.geteuid() == 0 else {}
        data = self.folder / "data"
        data.mkdir()
        if user:
            shutil.chown(data, "postgres", "postgres")
        quiet = {"stdout": subprocess.DEVNULL, "stderr": subprocess.DEVNULL, "cwd": "/"}
        subprocess.run([tools / "initdb", "-N", "-A", "trust", "-U", "bench", "-D", data], check=True, **quiet, **user)
        words = [tools / "postgres", "-D", data, "-c", "listen_addresses=", "-c", f"unix_socket_directories={data}"]
        words += ["-c", "wal_sync_method=fdatasync"]
        self._server = subprocess.Popen(words, env=os.environ | self.environment, **quiet, **user)
        is_ready = [tools / "pg_isready", "-h", data]
        try:
            network.wait_for(
                lambda: subprocess.run(is_ready, check=False, **quiet).returncode == 0, "PostgreSQL is ready", 60
            )
        except BaseException:
            self._server.kill()
            raise
        return [self.folder / "payer", f"host={data} user=bench dbname=postgres"]

    def __init__(self, folder, disk, callgrind=None):
        super().__init__(folder, disk, callgrind)
        at = pathlib.Path(f"/proc/{self._server.pid}/task/{self._server.pid}/children")
        self.pids = [self.payer.process.pid, *map(int, at.read_text(encoding="ascii").split())]

    def close(self):
        super().close()
        self._server.send_signal(signal.SIGINT)
        self._server.wait(60)
