"""Where NATS servers are, how they are known, and who is to be said to come."""

import argparse
import os
import sys
from typing import NamedTuple

import subjects


class Server(NamedTuple):
    """Where a server is, and whether it is reached by TLS alone."""

    host: str
    port: int
    is_tls: bool

    @property
    def url(self) -> str:
        host = f"[{self.host}]" if ":" in self.host else self.host
        return f"{'tls' if self.is_tls else 'nats'}://{host}:{self.port}"


class Access:
    """The servers, how they are known, and who is to be said to come: `[tls://][USER:PASSWORD@]HOST:PORT`, more with commas."""

    def __init__(self, url: str, authorities: str | None = None, login: str | None = None) -> None:
        self.authorities = authorities
        self.user = self.password = ""
        self.servers = [self._server(part.strip(), bool(authorities)) for part in url.split(",")]
        if login:
            self.user, self.password = read_login(login)
        if self.user and not subjects.USER.fullmatch(self.user):
            sys.exit("the name of a user has letters, digits, - and _ alone")

    def _server(self, url: str, is_tls: bool) -> Server:
        scheme, _, rest = url.rpartition("://")
        given, _, at = rest.rpartition("@")
        host, _, port = at.rpartition(":")
        if scheme not in ("", "nats", "tls") or not host or not port.isdigit() or int(port) > 65535:
            sys.exit(
                f"{at}: a server is HOST:PORT, and before it nats:// or tls://, and USER:PASSWORD@; more stand behind commas"
            )
        if given:
            self.user, _, self.password = given.partition(":")
        return Server(host.strip("[]"), int(port), is_tls or scheme == "tls")


def read_login(name: str) -> tuple[str, str]:
    """The user and the password of a file: one line, `USER:PASSWORD`."""
    try:
        with open(name, encoding="utf-8") as file:
            user, parted, password = file.read(4096).strip().partition(":")
    except (OSError, ValueError) as fault:
        sys.exit(f"{name}: {fault}")
    if not parted or "\n" in password:
        sys.exit(f"{name}: one line is wanted, USER:PASSWORD")
    return user, password


def add_words(parser: argparse.ArgumentParser) -> None:
    """The words that say where servers are and who comes."""
    parser.add_argument("--nats", metavar="URL", help="[tls://]HOST:PORT, more with commas; the default is NATS_URL")
    parser.add_argument("--ca", metavar="FILE", help="the certificates to trust, and so TLS")
    parser.add_argument(
        "--login", metavar="FILE", help="USER:PASSWORD, on one line; the default is NATS_LOGIN, which names the file"
    )


def access_of(given: argparse.Namespace) -> Access:
    """What these words say. A password among them could be read by everybody on the machine."""
    if given.nats and ":" in given.nats.rpartition("://")[2].rpartition("@")[0]:
        sys.exit("a password on a command line stands in `ps`: give it in NATS_URL, or in a file by --login")
    url = given.nats or os.environ.get("NATS_URL") or "127.0.0.1:4222"
    return Access(url, given.ca, given.login or os.environ.get("NATS_LOGIN"))
