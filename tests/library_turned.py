#!/usr/bin/python3
"""Trials of logs that go on behind closed ones in the Python binding, for tests/library, beside claimnode, which closes them:
VOGRILAS_TRIAL_SETTINGS and VOGRILAS_TRIAL_REQUEST name the files, VOGRILAS_TRIAL_LOGS a folder with the logs of a claim, and
VOGRILAS_TRIAL_CLAIMNODE the program."""

import os
import pathlib
import re
import shutil
import subprocess
import tempfile
import unittest

import vogrilas
from vogrilas import Code, FileNode, Node, Settings, VogrilasError

PATH = os.environ["VOGRILAS_TRIAL_SETTINGS"]
SETTINGS = pathlib.Path(PATH).read_bytes()
REQUEST = vogrilas.unprinted(pathlib.Path(os.environ["VOGRILAS_TRIAL_REQUEST"]).read_bytes().rstrip(b"\n"))
LOGS = pathlib.Path(os.environ["VOGRILAS_TRIAL_LOGS"])
CLAIMNODE = os.environ["VOGRILAS_TRIAL_CLAIMNODE"]
NODES = ("ph1", "sw1", "pr1")
# How many bytes stand in such a file before the rest, and how many the head of a log has.
BEFORE_REST, HEAD = 11, 46


def front_of(file):
    return BEFORE_REST + int.from_bytes(file[3:BEFORE_REST], "big")


class Turned(unittest.TestCase):
    def setUp(self):
        folder = tempfile.TemporaryDirectory()
        self.addCleanup(folder.cleanup)
        self.folder = pathlib.Path(folder.name)
        for name in NODES:
            shutil.copy(LOGS / f"{name}.log", self.path(name))

    def path(self, name):
        return self.folder / f"{name}.log"

    def claimnode(self, *words, lines=""):
        words = [CLAIMNODE, *map(str, words)]
        return subprocess.run(words, input=lines, capture_output=True, text=True, check=False)

    def turn(self, *names):
        for name in names:
            done = self.claimnode("--turn", PATH, name, self.path(name))
            self.assertEqual((done.returncode, done.stderr), (0, ""))

    def counted(self, name):
        """How many calls claimnode finds, those of closed logs among them."""
        done = self.claimnode(PATH, name, self.path(name))
        found = re.fullmatch(r"ready (\d+)(?: behind (\d+))?\n", done.stdout)
        return int(found[1]) + int(found[2] or 0)

    def refused(self, name, file):
        """The code by which a file is refused, of the node alone and under shared settings."""
        codes = []
        with Settings(SETTINGS) as shared:
            for settings in (SETTINGS, shared):
                with self.assertRaises(VogrilasError) as caught:
                    Node(settings, name, file)
                codes.append((caught.exception.code, caught.exception.place))
        self.assertEqual(codes[0], codes[1])
        return codes[0]

    def test_a_node_goes_on(self):
        before = {}
        for name in NODES:
            with FileNode(SETTINGS, name, self.path(name)) as node:
                before[name] = (node.calls, node.count, node.payments(), node.held(1, 1))
        for again in range(3):
            self.turn(*NODES)
            for name in NODES:
                whole = self.path(name).read_bytes()
                with FileNode(SETTINGS, name, self.path(name)) as node:
                    # A closed log ends with a stop and a start. A switch keeps nothing over these.
                    self.assertEqual(node.calls, before[name][0] + 2 * (again + 1))
                    self.assertEqual((node.count, node.payments()), before[name][1:3] if name != "sw1" else (0, []))
                self.assertEqual(self.path(name).read_bytes(), whole)
                self.assertEqual(self.counted(name), before[name][0] + 2 * (again + 1))
        with FileNode(SETTINGS, "ph1", self.path("ph1")) as pharmacy:
            self.assertEqual((pharmacy.answer(1), pharmacy.request(1)), (before["ph1"][3], REQUEST))

    def test_both_append_the_same(self):
        self.turn("ph1")
        other = self.folder / "other.log"
        shutil.copy(self.path("ph1"), other)
        with FileNode(SETTINGS, "ph1", self.path("ph1")) as pharmacy:
            self.assertEqual(pharmacy.submit(REQUEST).number, 2)
        text = vogrilas.printed(REQUEST).decode("ascii")
        self.claimnode(PATH, "ph1", other, lines=f"submit {text}\n")
        self.assertEqual(self.path("ph1").read_bytes(), other.read_bytes())
        self.turn("ph1")
        self.assertEqual(self.counted("ph1"), 7)
        with FileNode(SETTINGS, "ph1", self.path("ph1")) as pharmacy:
            self.assertEqual((pharmacy.calls, pharmacy.count, pharmacy.answer(2)), (7, 2, None))

    def test_claims_of_closed_logs_are_known(self):
        self.turn(*NODES)
        with Settings(SETTINGS) as shared:
            nodes = {name: FileNode(shared, name, self.path(name)) for name in NODES}
        asked = nodes["ph1"].submit(REQUEST).sent[0]
        ruled = nodes["pr1"].take("sw1", nodes["sw1"].take("ph1", asked.data).sent[0].data).sent[0]
        nodes["ph1"].take("sw1", nodes["sw1"].take("pr1", ruled.data).sent[0].data)
        self.assertIn(b"AND", nodes["ph1"].answer(2))
        self.assertEqual(len(nodes["pr1"].payments()), 1)
        for node in nodes.values():
            node.close()
        logs = []
        for name in NODES:
            self.assertEqual(self.claimnode("--join", self.folder / name, PATH, name, self.path(name)).returncode, 0)
            logs.append((self.folder / name).read_bytes())
        self.assertTrue(vogrilas.audited(SETTINGS, logs).legal)
        with self.assertRaises(VogrilasError) as caught:
            vogrilas.audited(SETTINGS, [logs[0], self.path("sw1").read_bytes(), logs[2]])
        self.assertEqual((caught.exception.code, caught.exception.log), (Code.NOT_A_LOG, 1))

    def test_torn_ends(self):
        self.turn("ph1")
        whole = self.path("ph1").read_bytes()
        self.path("ph1").write_bytes(whole + b"\0\0\1")
        warned = self.assertWarnsRegex(UserWarning, "torn end of 3 bytes")
        with warned, FileNode(SETTINGS, "ph1", self.path("ph1")) as node:
            self.assertEqual(node.calls, 4)
        self.assertEqual(self.path("ph1").read_bytes(), whole)
        self.assertEqual((self.folder / f"ph1.log.cut-{len(whole)}").read_bytes(), b"\0\0\1")

    def test_refusals(self):
        self.turn(*NODES)
        with FileNode(SETTINGS, "ph1", self.path("ph1")) as pharmacy:
            pharmacy.submit(REQUEST)
        files = {name: self.path(name).read_bytes() for name in NODES}
        own, front = files["ph1"], front_of(files["ph1"])
        for name in ("sw1", "pr1"):
            self.assertEqual(self.refused("ph1", files[name]), (Code.NOT_A_REST, None))
            self.assertEqual(self.refused(name, own), (Code.NOT_A_REST, None))
        # Another node's rest before a log of this one, and the other way round.
        other = front_of(files["pr1"])
        self.assertEqual(self.refused("ph1", files["pr1"][:other] + own[front:]), (Code.NOT_A_REST, None))
        self.assertEqual(self.refused("ph1", own[:front] + files["pr1"][other:])[0], Code.OTHER_SETTINGS)
        damaged = own[: front - 1] + bytes([own[front - 1] ^ 1]) + own[front:]
        self.assertEqual(self.refused("ph1", damaged), (Code.NOT_A_REST, None))
        self.assertEqual(self.refused("ph1", own[: front - 1]), (Code.NOT_A_LOG, None))
        self.assertEqual(self.refused("ph1", own[:-1] + bytes([own[-1] ^ 1])), (Code.DAMAGED, front + HEAD))
        # claimnode says the same of it.
        self.path("ph1").write_bytes(damaged)
        done = self.claimnode(PATH, "ph1", self.path("ph1"))
        self.assertEqual((done.returncode, done.stdout), (1, ""))
        self.assertIn("what the log begins with is no rest of this node", done.stderr)

    def test_a_log_that_is_closed_while_it_is_opened(self):
        files = vogrilas._file_node.fcntl
        flock, closed = files.flock, self.path("ph1").read_bytes()

        def late(file, how):
            self.turn("ph1")
            flock(file, how)

        files.flock = late
        try:
            with self.assertRaisesRegex(OSError, "replaced while it was opened"):
                FileNode(SETTINGS, "ph1", self.path("ph1"))
        finally:
            files.flock = flock
        self.assertTrue((self.folder / "ph1.log.4").read_bytes().startswith(closed))
        self.assertEqual(self.counted("ph1"), 4)


if __name__ == "__main__":
    unittest.main()
