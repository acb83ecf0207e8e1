"""The log of a payer in a stream of three servers, for tests/soak-all: it goes over to larger settings, one server's copy comes to differ and is mended,
and it is restored where the servers have lost its end."""

import contextlib
import hashlib
import json
import re
import shutil
import sys
import time

sys.dont_write_bytecode = True
import network  # noqa: E402
import programs  # noqa: E402
from network import expect, wait_for  # noqa: E402
from soaked_hosts import END_SECONDS, Host, surely  # noqa: E402

import local_servers  # noqa: E402
import logs  # noqa: E402

# The node whose log is in a stream, and the machines that have hosts of it.
STREAMED, MACHINES = "pr2", ("a", "b")
CURRENT_SECONDS, MOST_MENDS = 120, 2
DIGITS = "0123456789ABCDEFGHIJKLMNOPQRSTUVWXYZabcdefghijklmnopqrstuvwxyz"


def odd_server(told):
    """The server whose copy is not that of most, as `log compare` tells it; none where no two are alike, or most lack something."""
    if short := re.search(r"^(?:vogctl: )?(\S+) has \d+ of \d+ messages$", told, re.M):
        return short[1]
    differs = re.search(r"^message \d+ differs: (.*)$", told, re.M)
    groups = [it.split(": ") for it in differs[1].split("; ")] if differs else []
    is_odd = len(groups) == 2 and groups[0][1] != "none" and "," not in groups[1][0]
    return groups[1][0] if is_odd else None


def longest_of(hosts):
    """The longest file of machines, which has all that was said."""
    longest = max((it.log.read_bytes() for it in hosts if it.log.exists()), key=len)
    return longest[: logs.whole_size(longest)]


class Stream:
    """The stream, as an operator handles it."""

    def __init__(self, world, servers, users):
        self.world, self.servers, self._users = world, servers, users

    def over(self, hosts, how, new):
        """A log in a stream goes over as a file: the stream is made anew, and each machine has the file."""
        self.mend()
        with self.world.servers_lock, self.world.held(hosts, how):
            log = self.world.folder / f"{STREAMED}.over"
            log.write_bytes(longest_of(hosts))
            told = surely(programs.program("claimgrow"), hosts[0].settings, new, log, what=f"{STREAMED} goes over")
            expect(told.endswith(" goes over\n"), f"claimgrow of {STREAMED}: {told}")
            for host in hosts:
                host.settings = new
            self._put(hosts, log.read_bytes())
        self.world.count("streams made anew")

    def _put(self, hosts, data):
        """The stream has this log, made anew; where the servers come to nothing they all begin anew before."""
        try:
            self._make_anew(hosts, data)
        except network.Failed as fault:
            print(f"soak-all: servers begin anew: {fault}", file=sys.stderr, flush=True)
            self.world.count("servers that began anew")
            self._kill_servers()
            for place in range(self.servers.count):
                self.servers.wipe(place)
            self._start_servers()
            self._make_anew(hosts, data, False)

    def _make_anew(self, hosts, data, is_there=True):
        """The stream and all machines have this log; what machines have seen is forgotten."""
        if is_there:
            reply = self.world.request("admin", f"$JS.API.STREAM.DELETE.LOG_{STREAMED}", b"", 30)
            expect(reply is not None and b'"success":true' in reply, f"the stream is not deleted: {reply}")
        self.world.vogctl("log", "make", STREAMED)
        log = self.world.folder / f"{STREAMED}.anew"
        log.write_bytes(data)
        self.world.vogctl("log", "restore", STREAMED, log)
        for host in hosts:
            for file in host.folder.glob(f"{STREAMED}.log*"):
                file.unlink()
            shutil.copyfile(log, host.log)
        self.current()

    def current(self):
        """Waits until all servers have all of the log."""

        def is_so():
            reply = self.world.request("admin", f"$JS.API.STREAM.INFO.LOG_{STREAMED}", b"", 2)
            cluster = json.loads(reply).get("cluster", {}) if reply else {}
            others = cluster.get("replicas") or []
            good = [it for it in others if it.get("current") and not it.get("lag") and not it.get("offline")]
            return bool(cluster.get("leader")) and len(good) == len(others) == self.servers.count - 1

        wait_for(is_so, "three servers have the log", CURRENT_SECONDS)

    def drift(self):
        """Server 2 comes to have another message than the others at some places, and calls itself current: its store goes on by itself for a while."""
        hosts, private = self.world.of(STREAMED), local_servers.Servers(
            self.world.folder / "private", access=self._users
        )
        private.names = list(self.servers.names)
        strange = Host(self.world, STREAMED, "strange")
        with self.world.servers_lock:
            self.current()
            with self.world.held(hosts):
                self._kill_servers()
                for place in range(3):
                    shutil.rmtree(private.store(place), ignore_errors=True)
                    shutil.copytree(self.servers.store(place), private.store(place))
                shutil.rmtree(strange.folder)
                shutil.copytree(hosts[0].folder, strange.folder)
                self._start_servers()
        is_made = self._goes_on(private, strange)
        private.end()
        if not is_made:
            self.world.count("drifts not made")
            return
        with self.world.servers_lock:
            self.current()
            # What the one server has is of an earlier term than what the others have.
            for _ in range(2):
                self.world.request("admin", f"$JS.API.STREAM.LEADER.STEPDOWN.LOG_{STREAMED}", b"", 5)
                time.sleep(1)
                self.current()
            self._kill_servers()
            shutil.rmtree(self.servers.store(1))
            shutil.copytree(private.store(1), self.servers.store(1))
            self._start_servers()
        shutil.rmtree(private.folder)

    def _goes_on(self, private, strange):
        """Copies of all stores go on by themselves, with a host that is no machine's; whether it did."""
        try:
            private.start_all()
            private.wait_current()
        except SystemExit as fault:
            print(f"soak-all: no drift: {fault}", file=sys.stderr, flush=True)
            return False
        strange.start(private.url)
        end = time.monotonic() + END_SECONDS
        while not strange.is_ready() and time.monotonic() < end:
            time.sleep(0.1)
        is_made = strange.is_ready()
        if is_made:
            self.world.request("operator", f"claims.{STREAMED}.operate", b"plan 00004003822 100", 5, private.url)
        else:
            print(f"soak-all: no drift: {strange.since()[-500:]}", file=sys.stderr, flush=True)
        strange.end()
        return is_made

    def _kill_servers(self):
        for place in range(self.servers.count):
            self.servers.kill(place)

    def _start_servers(self):
        for place in range(self.servers.count):
            self.servers.start(place)
        # Where one is not current soon, those who want it to be say so.
        with contextlib.suppress(SystemExit):
            self.servers.wait_current()

    def mend(self):
        """An operator mends the stream; where its servers come to nothing they begin anew, with what the longest file has."""
        try:
            self._mend()
        except network.Failed as fault:
            print(f"soak-all: copies are not mended: {fault}", file=sys.stderr, flush=True)
            self.restore()

    def _mend(self):
        """An operator compares the copies, gives a server that differs a new disk under a new name, and machines that have read of it the log anew."""
        with self.world.servers_lock:
            for _ in range(MOST_MENDS):
                self.current()
                done = self.world.vogctl("log", "compare", STREAMED, is_sure=False)
                if done.returncode == 0 and "alike on" in done.stdout:
                    break
                self.world.count("copies that differed")
                odd = odd_server(done.stderr)
                expect(odd is not None, f"no copy is that of most: {done.stderr}")
                self._new_disk(self.servers.names.index(odd))
            else:
                raise network.Failed(f"copies differ still: {done.stdout}{done.stderr}")
        for host in self.world.of(STREAMED):
            if not host.is_ready() and b"have another log" in host.since():
                with self.world.held([host]):
                    for file in host.folder.glob(f"{STREAMED}.log*"):
                        file.rename(file.with_name(f"aside-{time.monotonic_ns()}-{file.name}"))
                self.world.count("machines that read the log anew")

    def _new_disk(self, place):
        """A server with an empty store takes the place of one."""
        old = self.servers.names[place]
        self.servers.kill(place)
        self.servers.wipe(place, f"s{place + 1}-{self.world.counts['copies that differed']}")
        self.servers.start(place)
        digest = hashlib.sha256(old.encode()).digest()
        asked = json.dumps({"peer": "", "peer_id": "".join(DIGITS[it % len(DIGITS)] for it in digest[:8])}).encode()

        def is_removed():
            reply = self.world.request("system", "$JS.API.SERVER.REMOVE", asked, 10)
            return reply is not None and b'"success":true' in reply

        wait_for(is_removed, f"{old} is removed", END_SECONDS)
        # It knows of no stream until it has what the servers have agreed on, and may lead them all the same.
        with contextlib.suppress(SystemExit):
            self.servers.wait_current()

    def restore(self):
        """The servers have lost something of the log: the longest file of a machine restores it."""
        hosts = self.world.of(STREAMED)
        with self.world.servers_lock, self.world.held(hosts):
            self._put(hosts, longest_of(hosts))
            for host in hosts:
                host.is_refused = False
        self.world.count("streams restored")
