"""A front beside nodes, and its callers over HTTP and TCP, for tests: what they see is compared with what /openapi.json tells."""

import http.client
import json
import os
import pathlib
import re
import resource
import signal
import socket
import ssl
import subprocess
import sys
from typing import NamedTuple

import network
from network import HOSTS, expect

sys.path.insert(0, str(HOSTS))
from front_service.printed import unprinted  # noqa: E402

BILLING = unprinted(network.BILLING.encode())
OVERPUNCH = {digit: str(place) for place, digit in enumerate("{ABCDEFGHI")}
# What no test brings about: they are left out of the count, and why.
NOT_SEEN = {
    ("/audit", "get", "503"): "it wants a front without --logs",
    ("/pharmacies/{pharmacy}/claims/{number}/steps", "get", "503"): "the same",
    ("/replay", "post", "503"): "tests/front-attacked asks for more than there is room for",
    ("/readyz", "get", "503"): "tests/front-grown has settings that have changed",
}

# No request of HTTP, and by which code it is refused.
HEADS_THAT_ARE_NONE = (
    (b"GET /healthz HTTP/9.9\r\n\r\n", "Line"), (b"GET /healthz HTTP/1.1\nHost: x\n\n\r\n\r\n", "Line"), (b"\x16\x03\x01 junk\r\n\r\n", "Line"),
    (b"GET /healthz HTTP/1.1\r\nHost: x\nAccept: y\r\n\r\n", "Field"), (b"GET /healthz HTTP/1.1\r\nHost: x\r\n folded\r\n\r\n", "Field"),
    (b"GET /healthz HTTP/1.1\r\nHost : x\r\n\r\n", "Field"), (b"GET /healthz HTTP/1.1\r\nHost: x\0y\r\n\r\n", "Field"),
    (b"GET /healthz HTTP/1.1\r\n: x\r\n\r\n", "Field"), (b"BREW /healthz HTTP/1.1\r\n\r\n", "Method"), (b"CONNECT x:1 HTTP/1.1\r\n\r\n", "Method"),
    (b"POST / HTTP/1.1\r\nContent-Length: 3\r\nContent-Length: 3\r\n\r\nabc", "Length"), (b"POST / HTTP/1.1\r\nContent-Length: +3\r\n\r\nabc", "Length"),
    (b"POST / HTTP/1.1\r\nContent-Length: 3\r\nTransfer-Encoding: chunked\r\n\r\n", "Length"),
    (b"POST / HTTP/1.1\r\nTransfer-Encoding: gzip, chunked\r\n\r\n", "Length"), (b"GET /" + b"x" * 9000, "Long"),
    (b"GET /healthz HTTP/1.1\r\nX: " + b"y" * 9000 + b"\r\n\r\n", "Long"),
)  # fmt: skip


def python_with_aiohttp(name):
    """A Python that has aiohttp; ends the test where there is none."""
    for python in (sys.executable, "/usr/bin/python3"):
        if subprocess.run([python, "-c", "import aiohttp, tomllib"], capture_output=True, check=False).returncode == 0:
            return python
    print(f"{name}: skipped, since python3-aiohttp is not there")
    sys.exit(3)


def amount_of(answer):
    """The total that an answer of one transaction pays, in cents (509-F9); 0 where it pays nothing."""
    found = re.search(rb"\x1cF9([0-9]*)([{A-I])", answer)
    return int(found[1].decode() + OVERPUNCH[found[2].decode()]) if found else 0


def billing(number):
    """A billing of a prescription of its own."""
    return BILLING.replace(b"D2123456", b"D2%d" % (100000 + number))


class Front:
    """A front beside the nodes of a network."""

    def __init__(self, net, python, name, words=(), tls=True, limits=None, framed="ph1"):
        # What the front may have at most, as `resource` names it.
        self._limits = limits or {}
        self.net, self.folder, self.tls = net, net.folder, tls
        self.port, self.framed = network.free_port(), network.free_port()
        self.receipts = self.folder / f"{name}.receipts"
        self.tokens = self.folder / "tokens"
        made = [
            python,
            HOSTS / "front",
            net.settings,
            "--tokens",
            self.tokens,
            "--receipts",
            self.receipts,
            "--nats",
            net.url,
        ]
        made += [
            "--access",
            net.access_folder,
            "--logs",
            net.logs,
            "--listen",
            f"127.0.0.1:{self.port}",
            "--tcp",
            f"{framed}=127.0.0.1:{self.framed}",
        ]
        made += ["--tls", self.folder / "server.pem", self.folder / "server.key"] if tls else []
        self._words = [str(it) for it in (*made, *words)]
        self.process = None

    def start(self):
        with open(self.folder / "said", "ab") as said:
            self.process = subprocess.Popen(self._words, stdout=subprocess.PIPE, stderr=said, preexec_fn=self._limit)
        expect(self.process.stdout.readline().startswith(b"front ready "), "the front is not ready")

    def end(self, number=signal.SIGTERM):
        self.process.send_signal(number)
        return self.process.wait(20)

    def kill(self):
        """Ends it where it is there, and waits until its processes have let go of its files."""
        if self.process is None or self.process.poll() is not None:
            return
        helpers = helpers_of(self.process.pid)
        self.process.kill()
        self.process.wait(20)
        network.wait_for(
            lambda: not [it for it in helpers if pathlib.Path(f"/proc/{it}/cmdline").exists()], "its processes end"
        )

    def _limit(self):
        for what, most in self._limits.items():
            resource.setrlimit(what, (most, most))

    def kill_keeper(self):
        """Kills the process that writes the receipts: the front then ends by itself, and says that something failed."""
        for pid, words in helpers_of(self.process.pid).items():
            if "keeping.py" in words:
                os.kill(pid, signal.SIGKILL)
        return self.process.wait(20)

    def connect(self):
        """A connection over TCP."""
        plain = socket.create_connection(("127.0.0.1", self.framed), timeout=30)
        if not self.tls:
            return plain
        trusted = ssl.create_default_context(cafile=str(self.folder / "ca.pem"))
        return trusted.wrap_socket(plain, server_hostname="127.0.0.1")


def helpers_of(pid):
    """The processes that a front has started, by their numbers: the names among their words."""
    found = {}
    for folder in pathlib.Path("/proc").glob("[0-9]*"):
        try:
            parent = folder.joinpath("stat").read_text().rpartition(")")[2].split()[1]
            words = folder.joinpath("cmdline").read_bytes().decode().split("\0")
        except OSError:
            continue
        if int(parent) == pid:
            found[int(folder.name)] = {pathlib.Path(it).name for it in words}
    return found


def frames(connection, count, framing="stx"):
    """The next frames of a connection."""
    found, data = [], b""
    while len(found) < count:
        more = connection.recv(65536)
        expect(more, f"the connection ended behind {len(found)} frames")
        data += more
        while True:
            if framing == "stx" and b"\x03" in data:
                expect(data[:1] == b"\x02", "a frame begins with 0x02")
                one, _, data = data[1:].partition(b"\x03")
            elif (
                framing != "stx"
                and len(data) >= (size := int(framing[6:]))
                and len(data) >= size + int.from_bytes(data[:size], "big")
            ):
                end = size + int.from_bytes(data[:size], "big")
                one, data = data[size:end], data[end:]
            else:
                break
            found.append(one)
    return found


class Answer(NamedTuple):
    """What a caller was told."""

    status: int
    headers: http.client.HTTPMessage
    body: bytes

    @property
    def text(self):
        return self.body.decode()

    @property
    def json(self):
        return json.loads(self.body)


class Caller:
    """Whoever has a token. `seen` is what was told so far: method, path, answer."""

    def __init__(self, front, token, seen):
        self._front, self.token, self.seen = front, token, seen
        self._tls = ssl.create_default_context(cafile=str(front.folder / "ca.pem")) if front.tls else None

    def _connected(self):
        if self._tls is None:
            return http.client.HTTPConnection("127.0.0.1", self._front.port, timeout=60)
        return http.client.HTTPSConnection("127.0.0.1", self._front.port, timeout=60, context=self._tls)

    def call(self, method, path, status=200, body=None, **headers):
        """What the front answers; it has to have this status."""
        connection = self._connected()
        connection.request(method, path, body, {"Authorization": f"Bearer {self.token}", **headers})
        answer = connection.getresponse()
        found = Answer(answer.status, answer.headers, answer.read())
        connection.close()
        self.seen.add(
            (method.lower(), path.partition("?")[0], str(found.status), found.headers.get_content_type(), found.body)
        )
        expect(found.status == status, f"{method} {path}: {found.status} in the place of {status}: {found.body[:300]}")
        return found

    def any(self, method, path, body=None, **headers):
        """What the front answers, whatever it is."""
        connection = self._connected()
        connection.request(method, path, body, {"Authorization": f"Bearer {self.token}", **headers})
        answer = connection.getresponse()
        found = Answer(answer.status, answer.headers, answer.read())
        connection.close()
        return found

    def get(self, path, status=200):
        return self.call("GET", path, status)

    def post(self, message, path="/pharmacies/ph1/claims", key=None, wait=None, status=None, kind=None, accept=None):
        """Sends a message: bytes, or fields as JSON."""
        kind = kind or ("application/json" if isinstance(message, (dict, list)) else "application/vnd.ncpdp")
        body = json.dumps(message).encode() if isinstance(message, (dict, list)) else message
        headers = (
            {"Content-Type": kind} | ({"Idempotency-Key": key} if key else {}) | ({"Accept": accept} if accept else {})
        )
        path += f"?wait={wait}" if wait is not None else ""
        return self.call("POST", path, status or (200 if wait else 202), body, **headers)

    def send(self, message, key, wait, pharmacy="ph1"):
        """The same, whatever becomes of it; None where the front is not there."""
        try:
            connection = self._connected()
            headers = {
                "Authorization": f"Bearer {self.token}",
                "Content-Type": "application/vnd.ncpdp",
                "Idempotency-Key": key,
            }
            connection.request("POST", f"/pharmacies/{pharmacy}/claims?wait={wait}", message, headers)
            answer = connection.getresponse()
            return Answer(answer.status, answer.headers, answer.read())
        except (OSError, http.client.HTTPException):
            return None

    def listen(self, path):
        """An answer that goes on."""
        connection = self._connected()
        connection.request("GET", path, headers={"Authorization": f"Bearer {self.token}"})
        answer = connection.getresponse()
        expect(answer.headers.get_content_type() == "text/event-stream", "no events are told")
        self.seen.add(("get", path, "200", "text/event-stream", b""))
        return answer

    def conforms(self, is_whole=True):
        """Each answer has to be told by /openapi.json, with its media type and its form, and where all tests ran each that it tells has to have
        been seen; the count of those seen."""
        document = self.get("/openapi.json").json
        told = {
            (path, method, status): answer
            for path, item in document["paths"].items()
            for method, operation in item.items() if method in ("get", "post")
            for status, answer in operation["responses"].items()
        }  # fmt: skip
        ways = [(path, re.compile(re.sub(r"\\\{\w+\\\}", "[^/]+", re.escape(path)))) for path in document["paths"]]
        found = set()
        for method, path, status, kind, body in self.seen:
            template = next((name for name, way in ways if way.fullmatch(path)), None)
            if template is None or (status == "405" and method not in document["paths"][template]):
                expect(
                    status in ("404", "405") and kind == "application/problem+json",
                    f"{method} {path}: {status} is nowhere in /openapi.json",
                )
                continue
            answer = told.get((template, method, status))
            expect(
                answer is not None and kind in answer["content"],
                f"{method} {path}: {status} {kind} is not in /openapi.json",
            )
            if kind.endswith("json"):
                fits(json.loads(body), answer["content"][kind]["schema"], document, f"{method} {path} {status}")
            found.add((template, method, status))
        lacking = sorted(set(told) - found - set(NOT_SEEN)) if is_whole else []
        expect(not lacking, f"/openapi.json tells what nobody was told: {lacking}")
        return len(found)


TYPES = {"object": dict, "array": list, "string": str, "integer": int, "number": (int, float), "boolean": bool}


def fits(value, schema, document, where):
    """A value has to have the form that a schema tells."""
    while "$ref" in schema:
        schema = document["components"]["schemas"][schema["$ref"].rpartition("/")[2]]
    if value is None and schema.get("nullable"):
        return
    if "type" in schema:
        expect(isinstance(value, TYPES[schema["type"]]), f"{where}: {value!r} is no {schema['type']}")
    expect(value in schema.get("enum", [value]), f"{where}: {value!r} is none of {schema.get('enum')}")
    for name in schema.get("required", []):
        expect(name in value, f"{where}: {name} is lacking")
    for name, inner in schema.get("properties", {}).items():
        if isinstance(value, dict) and name in value:
            fits(value[name], inner, document, f"{where}/{name}")
    for place, one in enumerate(value if isinstance(value, list) else []):
        fits(one, schema.get("items", {}), document, f"{where}/{place}")
