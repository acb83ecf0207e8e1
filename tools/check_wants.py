"""What the parts of ./check want of the machine: what is looked for, and which packages of Debian have it.

As root on a Debian they are installed, in two rounds, the small ones first; no server that comes with a package is started."""

from __future__ import annotations

import concurrent.futures
import os
import pathlib
import shutil
import subprocess
import time
import urllib.request
from collections.abc import Callable, Iterable
from dataclasses import dataclass

TOP = pathlib.Path(__file__).resolve().parent.parent
# The interpreter that Debian's packages for Python are for.
PYTHON = "/usr/bin/python3"
ARCHIVE = "http://deb.debian.org/debian/dists/stable/Release"
REACH_SECONDS = 5.0
MOST_SECONDS = 600
UNTRACED = """import ctypes, os, sys
child = os.fork()
if child == 0: os._exit(0 if ctypes.CDLL(None).ptrace(0, 0, None, None) == 0 else 1)
sys.exit(os.waitpid(child, 0)[1] != 0)"""
# Whether clang is there with what a fuzzer is linked with.
FUZZES = """test -e "$(clang -print-file-name=libclang_rt.fuzzer-$(uname -m).a)\""""
# Installs packages. Those that would start a server of theirs do not, unless this machine says otherwise; what it makes for that goes.
INSTALL = """policy=/usr/sbin/policy-rc.d
[ -e "$policy" ] || { printf '#!/bin/sh\\nexit 101\\n' >"$policy" && chmod +x "$policy" && trap 'rm -f "$policy"' EXIT; }
export DEBIAN_FRONTEND=noninteractive
install() { apt-get install -y -q --no-install-recommends -o DPkg::Lock::Timeout=120 "$@"; }
install "$@" || { apt-get update -q && install "$@"; } || for one; do install "$one"; done"""


@dataclass(frozen=True)
class Want:
    """Something that a part wants of the machine."""

    # What it is called, in tools/parts and where it lacks.
    name: str
    # Debian's packages that have it; none: a machine has it or not.
    packages: tuple[str, ...]
    is_there: Callable[[], bool]
    # Whether its packages take long to install.
    is_large: bool = False


def commands(*names: str) -> Callable[[], bool]:
    """Whether these commands are there."""
    path = os.environ.get("PATH", "") + ":/usr/local/sbin:/usr/sbin:/sbin"
    return lambda: all(shutil.which(name, path=path) for name in names)


def modules(*names: str) -> Callable[[], bool]:
    """Whether Debian's Python has these modules."""
    return lambda: runs(PYTHON, "-c", f"import {', '.join(names)}")


def files(*paths: str) -> Callable[[], bool]:
    """Whether these files are there."""
    return lambda: all(pathlib.Path(path).exists() for path in paths)


def runs(*words: str) -> bool:
    """Whether a command ends with status 0."""
    try:
        done = subprocess.run(words, stdin=subprocess.DEVNULL, capture_output=True, check=False, timeout=MOST_SECONDS)
    except (OSError, subprocess.TimeoutExpired):
        return False
    return done.returncode == 0


def reaches_archive() -> bool:
    """Whether Debian's archive can be reached."""
    try:
        with urllib.request.urlopen(ARCHIVE, timeout=REACH_SECONDS):
            return True
    except OSError:
        return False


WANTS = {
    want.name: want
    for want in (
        Want("cc", ("gcc", "libc6-dev", "make"), commands("cc", "ar", "make")),
        Want("c++", ("g++",), commands("c++")),
        Want("strace", ("strace",), commands("strace")),
        Want("valgrind", ("valgrind",), commands("valgrind")),
        Want("nats-server", ("nats-server",), commands("nats-server")),
        Want("libnats", ("libnats-dev",), files("/usr/include/nats/nats.h")),
        Want(
            "libcurl",
            ("libcurl4-openssl-dev",),
            lambda: runs("cc", "-E", "-include", "curl/curl.h", "-x", "c", "/dev/null"),
        ),
        Want("libsodium", ("libsodium-dev",), files("/usr/include/sodium.h")),
        Want("openssl", ("openssl",), commands("openssl")),
        Want("hypothesis", ("python3-hypothesis",), modules("hypothesis")),
        Want("aiohttp", ("python3-aiohttp", "python3-uvloop"), modules("aiohttp", "uvloop")),
        Want("curl", ("curl",), commands("curl")),
        Want("wrk", ("wrk",), commands("wrk")),
        Want(
            "nginx",
            ("nginx", "libnginx-mod-stream"),
            lambda: commands("nginx")() and files("/usr/lib/nginx/modules/ngx_stream_module.so")(),
        ),
        Want("sqlite", ("libsqlite3-dev",), files("/usr/include/sqlite3.h")),
        Want("time", ("time",), files("/usr/bin/time")),
        Want("yaml", ("python3-yaml",), modules("yaml")),
        Want("prometheus-client", ("python3-prometheus-client",), modules("prometheus_client")),
        Want("prometheus", ("prometheus",), commands("prometheus", "promtool")),
        Want("ip", ("iproute2",), commands("ip")),
        Want("systemd", ("systemd",), files("/lib/systemd/systemd")),
        Want("git", ("git",), commands("git")),
        Want("black", ("black",), commands("black")),
        Want("mypy", ("mypy",), commands("mypy")),
        Want("earlier-commit", (), lambda: runs("git", "-C", str(TOP), "rev-parse", "--verify", "--quiet", "HEAD~1")),
        Want("shells", ("bash", "zsh", "fish"), commands("bash", "zsh", "fish"), is_large=True),
        Want("clang", ("clang", "libclang-rt-dev"), lambda: runs("sh", "-c", FUZZES), is_large=True),
        Want("lintian", ("lintian",), commands("lintian"), is_large=True),
        Want(
            "browser",
            ("chromium", "chromium-driver", "python3-selenium"),
            lambda: commands("chromium", "chromedriver")() and modules("selenium")(),
            is_large=True,
        ),
        Want("buildah", ("buildah", "debootstrap"), commands("buildah", "debootstrap"), is_large=True),
        Want("root", (), lambda: os.geteuid() == 0),
        Want("dpkg", (), commands("dpkg", "dpkg-deb")),
        Want("traced", (), lambda: runs(PYTHON, "-c", UNTRACED)),
        Want("namespaces", (), lambda: runs(str(TOP / "tests" / "units"), "--can")),
        Want("archive", (), reaches_archive),
    )
}


class Machine:
    """What this machine has of what parts want, and what is installed there."""

    def __init__(self, names: Iterable[str], say: Callable[[str], None]) -> None:
        self._say = say
        self._has: dict[str, bool] = {}
        lacking = [WANTS[name] for name in dict.fromkeys(names) if not self.has(name)]
        self.lacking = [want for want in lacking if want.packages]
        # What is installed and not there yet, and whether Debian's archive was there to install from.
        self._coming: set[str] = set()
        self.is_installing_from_archive = False

    def has(self, name: str) -> bool:
        """Whether something is there."""
        if name not in self._has:
            self._has[name] = WANTS[name].is_there()
        return self._has[name]

    def is_known(self, names: Iterable[str]) -> bool:
        """Whether nothing of these is about to be installed."""
        return self._coming.isdisjoint(names)

    def lacks(self, names: Iterable[str]) -> list[str]:
        """What of these is not there."""
        return [name for name in names if not self.has(name)]

    def is_due(self, name: str) -> bool:
        """Whether something has to be there, since it could be installed."""
        return self.is_installing_from_archive and bool(WANTS[name].packages)

    def still_lacks(self) -> list[Want]:
        """What packages have, and is not there."""
        return [want for want in self.lacking if not self.has(want.name)]

    def line(self) -> str:
        """The line that installs what lacks."""
        packages = [package for want in self.still_lacks() for package in want.packages]
        return f"apt-get install -y --no-install-recommends {' '.join(packages)}"

    def begin(self, pool: concurrent.futures.Executor, is_wanted: bool) -> concurrent.futures.Future[None] | None:
        """Begins to install what lacks, where that can be done; else says how it is done."""
        if not self.lacking:
            return None
        if not is_wanted or os.geteuid() != 0 or not shutil.which("apt-get"):
            self._say(
                f"these are not there: {', '.join(want.name for want in self.lacking)}; as root on Debian: {self.line()}"
            )
            return None
        self._coming = {want.name for want in self.lacking}
        return pool.submit(self._install)

    def _install(self) -> None:
        """Installs what lacks, the small ones first."""
        try:
            self.is_installing_from_archive = reaches_archive()
            for is_large in (False, True):
                round_of = [want for want in self.lacking if want.is_large == is_large]
                if round_of:
                    self._install_these(round_of)
        finally:
            self._coming = set()

    def _install_these(self, wants: list[Want]) -> None:
        """Installs the packages of these, and says how long that took."""
        started, packages = time.monotonic(), [package for want in wants for package in want.packages]
        self._say(f"installing {' '.join(packages)}")
        # A session of its own: it ends what it began, whatever becomes of this program.
        done = subprocess.run(
            ["sh", "-c", INSTALL, "install", *packages],
            stdin=subprocess.DEVNULL,
            stdout=subprocess.PIPE,
            stderr=subprocess.STDOUT,
            text=True,
            errors="replace",
            start_new_session=True,
            check=False,
        )
        names = [want.name for want in wants]
        for name in names:
            self._has.pop(name, None)
        lacking, took = self.lacks(names), time.monotonic() - started
        if lacking:
            last = "".join(f"\n    {line}" for line in done.stdout.splitlines()[-3:])
            self._say(f"could not be installed, in {took:.0f} s: {', '.join(lacking)}{last}")
        else:
            self._say(f"installed {len(packages)} packages in {took:.0f} s")
        self._coming -= set(names)
