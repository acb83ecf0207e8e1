#!/usr/bin/python3
"""Trials of the Python binding, for tests/library: VOGRILAS_TRIAL_SETTINGS and VOGRILAS_TRIAL_REQUEST name the files."""

import datetime
import os
import pathlib
import random
import re
import subprocess
import sys
import tempfile
import threading
import unittest

import vogrilas
from vogrilas import (
    Answer,
    Billing,
    Code,
    FileNode,
    Header,
    Node,
    Refused,
    Reversal,
    Ruling,
    Settings,
    VogrilasError,
    WrongField,
)

SETTINGS = pathlib.Path(os.environ["VOGRILAS_TRIAL_SETTINGS"]).read_bytes()
REQUEST = vogrilas.unprinted(pathlib.Path(os.environ["VOGRILAS_TRIAL_REQUEST"]).read_bytes().rstrip(b"\n"))
CASES = pathlib.Path(__file__).resolve().parent.parent / "cases" / "messages"
HEADER = Header(bin="610455", provider="1234567893", date=datetime.date(2024, 1, 15), pcn="A1", vendor="SW00000001")
BILLING = Billing(HEADER, "987654321", 123456, "00093721410", quantity=30_000, cost=60_00, fee=2_00)


def named(lines):
    """The texts that lines `NAME = TEXT` name; <NAME> in a text is that of a name before it."""
    words = {}
    for line in lines:
        name, is_one, text = line.partition(" = ")
        if is_one and re.fullmatch(r"[a-z0-9-]+", name):
            words[name] = spelled(text, words)
    return words


def spelled(text, words):
    return re.sub(r"<([a-z0-9-]+)>", lambda found: words.get(found.group(1), found.group()), text)


def orders():
    """The messages of the cases, and what comes of each; None where that is not told."""
    for text in named((CASES.parent / "requests.texts").read_text(encoding="ascii").splitlines()).values():
        yield vogrilas.unprinted(text.encode("ascii")), None
    for name in ("orders", "reversals"):
        words = named((CASES.parent / "requests.texts").read_text(encoding="ascii").splitlines())
        for line in (CASES / f"{name}.rows").read_text(encoding="ascii").splitlines():
            word, _, rest = line.partition(" ")
            if word == "let":
                told, _, text = rest.partition(" = ")
                words[told] = spelled(text, words)
            elif word == "order":
                text, _, outcome = rest.rpartition(" -> ")
                yield vogrilas.unprinted(spelled(text, words).encode("ascii")), outcome


class Trials(unittest.TestCase):
    def setUp(self):
        folder = tempfile.TemporaryDirectory()
        self.addCleanup(folder.cleanup)
        self.folder = pathlib.Path(folder.name)

    def opened(self, name, settings=SETTINGS):
        node = FileNode(settings, name, self.folder / f"{name}.log")
        self.addCleanup(node.close)
        return node

    def fails(self, code, call, *given):
        with self.assertRaises(VogrilasError) as caught:
            call(*given)
        self.assertEqual(caught.exception.code, code)
        return caught.exception

    def test_claim_goes_there_and_back(self):
        pharmacy, switch, payer = (self.opened(name) for name in ("ph1", "sw1", "pr1"))
        said = pharmacy.submit(REQUEST)
        self.assertEqual((said.number, [packet.to for packet in said.sent]), (1, ["sw1"]))
        self.assertIsNone(pharmacy.answer(1))
        with self.assertRaises(KeyError):
            pharmacy.answer(2)
        asked = switch.take("ph1", said.sent[0].data).sent[0]
        ruled = payer.take("sw1", asked.data).sent[0]
        back = switch.take("pr1", ruled.data).sent[0]
        self.assertEqual((asked.to, ruled.to, back.to), ("pr1", "sw1", "ph1"))
        self.assertEqual(pharmacy.take("sw1", back.data).sent, ())
        answer = pharmacy.answer(1)
        self.assertIn(b"ANP", answer)
        pharmacy.close()
        again = self.opened("ph1")
        self.assertEqual((again.answer(1), again.calls), (answer, 2))

    def test_nodes_share_settings(self):
        with Settings(SETTINGS) as shared:
            pharmacy, switch = (self.opened(name, shared) for name in ("ph1", "sw1"))
            payer = Node(shared, "pr1")
            for name, code in (("ph", Code.NAME), ("ph7", Code.NO_SUCH_NODE)):
                self.fails(code, Node, shared, name)
            with self.assertRaises(TypeError):
                Node(shared, b"ph1")
        self.fails(Code.CLOSED, Node, shared, "ph1")
        self.fails(Code.SETTINGS, Settings, b"again")
        with self.assertRaises(TypeError):
            Settings("text")
        payer.synced(len(payer.records()))
        asked = switch.take("ph1", pharmacy.submit(REQUEST).sent[0].data).sent[0]
        payer.take("sw1", asked.data)
        payer.synced(len(payer.records()))
        ruled = vogrilas.read_said(payer.written()).sent[0]
        self.assertEqual(pharmacy.take("sw1", switch.take("pr1", ruled.data).sent[0].data).sent, ())
        answer = pharmacy.answer(1)
        pharmacy.close()
        self.assertEqual(self.opened("ph1").answer(1), answer)

    def test_payer_that_asks(self):
        asking = SETTINGS.replace(b"[payer.prices]", b'asks = "claims"\n[payer.prices]')
        pharmacy, switch, payer = (self.opened(name, asking) for name in ("ph1", "sw1", "pr1"))
        asked = switch.take("ph1", pharmacy.submit(REQUEST).sent[0].data).sent[0]
        head = b"D0B11A011234567893     20240115\x1d\x1e\x1cAM21\x1cANP\x1cF37777000000000042\x1e\x1cAM22\x1cEM1\x1cD2123456"
        advice = head + b"\x1e\x1cAM23\x1cF550{\x1cF6500{\x1cF715{\x1cF9465{"
        for call in (
            lambda: payer.take("sw1", asked.data),
            lambda: payer.adjudicate("sw1", asked.data, b""),
            lambda: payer.adjudicate("sw1", asked.data, advice[:-7]),
        ):
            with self.assertRaises(Refused) as caught:
                call()
            self.assertEqual((caught.exception.name, payer.calls), ("NotAdvised", 0))
        self.fails(Code.NAME, payer.adjudicate, "sw1 ", asked.data, advice)
        ruled = payer.adjudicate("sw1", asked.data, advice).sent[0]
        self.assertEqual((ruled.to, payer.take("sw1", asked.data).sent), ("sw1", (ruled,)))
        (booked,) = payer.payments()
        self.assertEqual(
            (booked.authorization, booked.cost, booked.copay, booked.total), ("0001000000000001", 5000, 500, 4650)
        )
        self.assertEqual(pharmacy.take("sw1", switch.take("pr1", ruled.data).sent[0].data).sent, ())
        self.assertEqual(pharmacy.payments(), [booked])
        payer.close()
        self.assertEqual((self.opened("pr1", asking).held(1, 1), payer.name), (pharmacy.answer(1), "pr1"))
        with self.assertRaises(Refused) as caught:
            pharmacy.adjudicate("sw1", asked.data, advice)
        self.assertEqual(caught.exception.name, "NoSuchNode")

    def test_payer_that_asks_about_all(self):
        asking = SETTINGS.replace(b"[payer.prices]", b'asks = "all"\n[payer.prices]') + b'[answers]\nprofile = "wide"\n'
        nodes = pharmacy, switch, payer = [self.opened(name, asking) for name in ("ph1", "sw1", "pr1")]

        def ruled(request, advice):
            asked = switch.take("ph1", pharmacy.submit(request).sent[0].data).sent[0]
            with self.assertRaises(Refused) as caught:
                payer.take("sw1", asked.data)
            self.assertEqual(caught.exception.name, "NotAdvised")
            self.carry(nodes, "pr1", payer.adjudicate("sw1", asked.data, advice))
            return pharmacy.answer(pharmacy.count)

        # The first payment has the authorization that an advice has which names none.
        message = b"\x1cUF1\x1cUH01\x1cFQOPEN UNTIL TEN"
        paid = (
            Answer((Ruling("paid", None, 123456, 5000, 150, 500),))
            .to(REQUEST)
            .replace(b"\x1e\x1cAM22", message + b"\x1e\x1cAM22")
        )
        self.assertEqual(ruled(REQUEST, paid), paid)
        said = Ruling("paid", "0001000000000001", 123456, 5000, 150, 500, 4650, messages=("OPEN UNTIL TEN",))
        self.assertEqual((Answer.read(paid), Answer((said,)).to(REQUEST)), (Answer((said,)), paid))
        reversal = bytes(BILLING.reversal())
        denied = Answer((Ruling("rejected", codes=("86",)),)).to(reversal) + message
        self.assertEqual(ruled(reversal, denied), denied)
        self.assertEqual([one.reversed_by for one in payer.payments()], [None])
        allowed = Answer((Ruling("reversed", None, 123456),)).to(reversal)
        again = Answer((Ruling("reversed", None, 123456, again=True),)).to(reversal)
        self.assertEqual(again, allowed.replace(b"\x1cANA", b"\x1cANS"))
        self.assertEqual(ruled(reversal, again), allowed)
        self.assertEqual(([one.reversed_by for one in payer.payments()], pharmacy.payments()), ([(1, 3)], []))
        payer.close()
        again = self.opened("pr1", asking)
        self.assertEqual([again.held(1, number) for number in (1, 2, 3)], [paid, denied, allowed])

    def test_arguments(self):
        pharmacy, payer = self.opened("ph1"), self.opened("pr1")
        log = self.folder / "ph1.log"
        before = log.read_bytes()
        wrong = [
            lambda: pharmacy.submit("text"),
            lambda: pharmacy.submit(None),
            lambda: pharmacy.submit(5),
            lambda: pharmacy.submit([1]),
            lambda: pharmacy.take(b"sw1", b"packet"),
            lambda: pharmacy.take("sw1", "packet"),
            lambda: pharmacy.take(None, b"packet"),
            lambda: payer.adjudicate("sw1", b"packet", "advice"),
            lambda: payer.adjudicate("sw1", b"packet", None),
            lambda: payer.adjudicate(b"sw1", b"packet", b"advice"),
            lambda: payer.plan("00093721410", 1),
            lambda: payer.plan(b"00093721410", 1.5),
            lambda: payer.plan(b"00093721410", True),
            lambda: payer.plan(b"00093721410", "1"),
            lambda: payer.terms(1, True),
            lambda: payer.terms("1", 1),
            lambda: pharmacy.retry(1, 1, 1),
            lambda: pharmacy.retry(["sw1"], 1, 1),
            lambda: pharmacy.retry([True], 1, 1),
            lambda: pharmacy.retry([1], "1", 1),
            lambda: pharmacy.retry([1], 1, 1.5),
            lambda: pharmacy.cap(True),
            lambda: pharmacy.cap("1"),
            lambda: pharmacy.cap(None),
            lambda: pharmacy.answer("1"),
            lambda: pharmacy.request(None),
            lambda: FileNode("settings", "ph1", self.folder / "other.log"),
            lambda: FileNode(SETTINGS, b"ph1", self.folder / "other.log"),
            lambda: vogrilas.audited("text", []),
            lambda: vogrilas.audited(SETTINGS, ["text"]),
            lambda: vogrilas.printed("text"),
            lambda: vogrilas.unprinted("text"),
            lambda: vogrilas.described("text"),
            lambda: vogrilas.decoded(7),
        ]
        for place, call in enumerate(wrong):
            with self.subTest(place), self.assertRaises(TypeError):
                call()
        with self.assertRaises(WrongField):
            pharmacy.submit(Reversal(HEADER, 1, ""))
        # A name that no node has is refused, and closes nothing either.
        self.fails(Code.NAME, pharmacy.take, "\udc80", b"packet")
        self.assertEqual(log.read_bytes(), before)
        self.assertEqual(pharmacy.submit(memoryview(bytearray(REQUEST))).number, 1)
        self.assertEqual(payer.plan(b"00093721410", 1).sent, ())

    def test_readers(self):
        pharmacy, switch, payer = nodes = [self.opened(name) for name in ("ph1", "sw1", "pr1")]
        self.assertEqual([(node.count, node.payments()) for node in nodes], [(0, [])] * 3)
        said = pharmacy.submit(REQUEST)
        self.assertEqual((pharmacy.count, pharmacy.request(1)), (1, REQUEST))
        self.assertIsNone(pharmacy.held(1, 1))
        for number in (0, 2, -1, 1 << 64, (1 << 64) + 1):
            with self.assertRaises(KeyError):
                pharmacy.held(1, number)
            with self.assertRaises(KeyError):
                pharmacy.request(number)
        for node, key in ((pharmacy, (2, 1)), (pharmacy, (65537, 1)), (payer, (1, 1)), (switch, (1, 1))):
            with self.assertRaises(KeyError):
                node.held(*key)
        self.carry(nodes, "ph1", said)
        answer = pharmacy.answer(1)
        self.assertEqual([node.held(1, 1) for node in nodes], [answer] * 3)
        self.assertEqual([node.count for node in nodes], [1, 1, 1])
        (counted,) = pharmacy.payments()
        self.assertEqual(payer.payments(), [counted])
        self.assertEqual(
            (counted.authorization, counted.cost, counted.fee, counted.copay, counted.total),
            ("0001000000000001", 5570, 150, 1000, 4720),
        )
        self.assertEqual(
            (counted.bin, counted.pcn, counted.qualifier, counted.provider),
            (b"610455", b"A1        ", b"01", b"1234567893     "),
        )
        self.assertEqual((counted.prescription, counted.fill_number, counted.reversed_by), (123456, 0, None))
        reversal = REQUEST[:8] + b"B2" + REQUEST[10:56] + b"\x1d\x1e\x1cAM07\x1cEM1\x1cD2123456\x1cD30"
        self.carry(nodes, "ph1", pharmacy.submit(reversal))
        self.assertEqual(
            (pharmacy.payments(), [one.reversed_by for one in payer.payments()], switch.payments()), ([], [(1, 2)], [])
        )
        logs = [(self.folder / f"{name}.log").read_bytes() for name in ("ph1", "sw1", "pr1")]
        told = vogrilas.audited(SETTINGS, logs)
        self.assertTrue(told.legal and "\none legal run of " in told.text, told)
        self.assertEqual(vogrilas.audited_tables(SETTINGS, logs)["payments"][0]["authorization"], "0001000000000001")
        self.assertFalse(vogrilas.audited(SETTINGS, logs[:2]).legal)
        self.assertFalse(vogrilas.audited(SETTINGS, []).legal)
        damaged = logs[1][:-1] + bytes([logs[1][-1] ^ 1])
        self.assertEqual(self.fails(Code.DAMAGED, vogrilas.audited, SETTINGS, [logs[0], damaged, logs[2]]).log, 1)
        self.assertIsNone(self.fails(Code.SETTINGS, vogrilas.audited, b"", logs).log)

    def carry(self, nodes, sender, said):
        there = {node.name: node for node in nodes}
        packets = [(sender, packet) for packet in said.sent]
        while packets:
            sender, packet = packets.pop(0)
            packets += [(packet.to, one) for one in there[packet.to].take(sender, packet.data).sent]

    def test_refusals_change_nothing(self):
        pharmacy = self.opened("ph1")
        size = (self.folder / "ph1.log").stat().st_size
        with self.assertRaises(Refused) as caught:
            pharmacy.submit(b"")
        self.assertEqual(caught.exception.name, "Unreadable")
        with self.assertRaises(Refused):
            pharmacy.plan(b"00093721410", 3)
        self.assertEqual(((self.folder / "ph1.log").stat().st_size, pharmacy.calls), (size, 0))
        self.assertEqual(pharmacy.tick().sent, ())
        pharmacy.stop()
        with self.assertRaises(Refused):
            pharmacy.tick()
        pharmacy.start()

    def test_nobody_sends(self):
        pharmacy = self.opened("ph1")
        self.fails(Code.NAME, pharmacy.take, "sw1 ", b"")
        with self.assertRaises(Refused):
            pharmacy.take("sw1", b"")
        self.assertEqual(pharmacy.calls, 0)

    def test_prices(self):
        payer = self.opened("pr1")
        self.assertEqual(payer.plan(b"00093721410", 20000), vogrilas.Said(()))
        self.assertEqual(payer.plan(b"00093721410", None), vogrilas.Said(()))
        self.assertEqual(payer.plan(b"a b", 1), vogrilas.Said(()))
        self.assertEqual(payer.terms(150, 1000), vogrilas.Said(()))

    def test_rules_of_retries(self):
        switch = b"[[switch]]\ncap = 64\n"
        settings = SETTINGS.replace(switch, 2 * switch)
        pharmacy, payer = (self.opened(name, settings) for name in ("ph1", "pr1"))
        sent = pharmacy.submit(REQUEST).sent
        self.assertEqual(pharmacy.retry((2, 1), 3, 2), vogrilas.Said(()))
        refused = [(((3,), 1, 1), "BadRule"), (((2, 0), 1, 1), "BadRule"), (((1,), 0, 1), "BadRule")]
        refused += [(((1,), 1, 1001), "BadRule"), (((), 1, 1), "Line"), (((1,), -1, 1), "Line")]
        for rule, name in refused:
            with self.subTest(rule), self.assertRaises(Refused) as caught:
                pharmacy.retry(*rule)
            self.assertEqual(caught.exception.name, name)
        # The entry waits for three ticks, and is then sent twice to each switch, as far as it is open.
        ticks = [pharmacy.tick().sent for _ in range(12)]
        self.assertEqual([len(one) for one in ticks], [0, 0, 1] * 4)
        self.assertEqual([one[0].to for one in ticks if one], ["sw2", "sw2", "sw1", "sw1"])
        self.assertEqual({one[0].data for one in ticks if one}, {sent[0].data})
        pharmacy.stop()
        for node, name in ((pharmacy, "Down"), (payer, "NoSuchNode")):
            with self.assertRaises(Refused) as caught:
                node.retry([1], 1, 1)
            self.assertEqual(caught.exception.name, name)
        pharmacy.start()
        pharmacy.close()
        again = self.opened("ph1", settings)
        self.assertEqual([[packet.to for packet in again.tick().sent] for _ in range(3)], [[], [], ["sw2"]])

    def test_caps_of_switches(self):
        pharmacy, switch, payer = (self.opened(name) for name in ("ph1", "sw1", "pr1"))
        asked = [pharmacy.submit(REQUEST).sent[0].data for _ in range(2)]

        def refused(name, call, *given):
            with self.subTest(given), self.assertRaises(Refused) as caught:
                call(*given)
            self.assertEqual(caught.exception.name, name)

        refused("AlreadyUp", switch.cap, 1)
        self.assertEqual(switch.most, 64)
        sent = [switch.take("ph1", packet).sent[0] for packet in asked]
        self.assertEqual(([packet.to for packet in sent], switch.count), (["pr1", "pr1"], 2))
        answers = [payer.take("sw1", packet.data).sent[0].data for packet in sent]
        switch.stop()
        for entries in (0, -1, 16_777_217, 1 << 32, (1 << 32) + 1):
            refused("Line", switch.cap, entries)
        self.assertEqual((switch.cap(16_777_216), switch.most), (vogrilas.Said(()), 16_777_216))
        self.assertEqual((switch.cap(1), switch.most), (vogrilas.Said(()), 1))
        switch.start()
        for packet in asked:
            switch.take("ph1", packet)
        # A table of one slot has forgotten the older request.
        self.assertEqual((switch.count, switch.most), (1, 1))
        refused("NotWaiting", switch.take, "pr1", answers[0])
        self.assertEqual(switch.take("pr1", answers[1]).sent[0].to, "ph1")
        switch.close()
        again = self.opened("sw1")
        self.assertEqual((again.count, again.most, again.calls), (1, 1, 9))
        again.stop()
        again.start()
        for packet in asked:
            again.take("ph1", packet)
        self.assertEqual(again.count, 1)
        for node in (pharmacy, payer):
            refused("NoSuchNode", node.cap, 1)
            node.stop()
            refused("NoSuchNode", node.cap, 1)

    def test_one_process_has_the_log(self):
        self.opened("ph1")
        with self.assertRaises(BlockingIOError):
            FileNode(SETTINGS, "ph1", self.folder / "ph1.log")

    def test_logs(self):
        with self.opened("ph1") as pharmacy:
            pharmacy.submit(REQUEST)
        path = self.folder / "ph1.log"
        whole = path.read_bytes()
        for name in ("ph1.log.cut-46", "ph1.log.cut-46-2"):
            path.write_bytes(whole[:-1])
            with self.assertWarnsRegex(UserWarning, "torn end of .* kept in"), self.opened("ph1") as pharmacy:
                self.assertEqual(pharmacy.calls, 0)
            self.assertEqual(path.read_bytes(), whole[:46])
            self.assertEqual((self.folder / name).read_bytes(), whole[46:-1])
            self.assertEqual((self.folder / name).stat().st_mode & 0o777, 0o600)
        damaged = bytearray(whole)
        damaged[-1] ^= 1
        path.write_bytes(damaged)
        self.assertEqual(self.fails(Code.DAMAGED, self.opened, "ph1").place, 46)
        self.assertEqual(path.read_bytes(), damaged)
        self.fails(Code.OTHER_NODE, Node, SETTINGS, "pr1", whole)
        with Node(SETTINGS.replace(b"\n", b"\r\n") + b"# The same settings.\n", "ph1", whole) as node:
            self.assertEqual(node.kept, len(whole))
        self.fails(Code.OTHER_SETTINGS, Node, SETTINGS.replace(b"fee = 150", b"fee = 151"), "ph1", whole)
        self.fails(Code.SETTINGS, Node, b"", "ph1")
        self.fails(Code.NO_SUCH_NODE, Node, SETTINGS, "ph2")
        self.fails(Code.NAME, Node, SETTINGS, "")

    def test_only_who_opened_it_may_read_it(self):
        self.opened("ph1")
        self.assertEqual((self.folder / "ph1.log").stat().st_mode & 0o777, 0o600)

    def test_fork(self):
        pharmacy = self.opened("ph1")
        self.assertEqual(pharmacy.submit(REQUEST).number, 1)
        child = os.fork()
        if child == 0:
            try:
                pharmacy.submit(REQUEST)
            except RuntimeError:
                os._exit(0)
            os._exit(1)
        self.assertEqual(os.waitstatus_to_exitcode(os.waitpid(child, 0)[1]), 0)
        self.assertEqual(pharmacy.submit(REQUEST).number, 2)

    def test_log_that_is_removed(self):
        for replaced in (False, True):
            pharmacy = FileNode(SETTINGS, "ph1", self.folder / f"{replaced}.log")
            pharmacy.submit(REQUEST)
            path = self.folder / f"{replaced}.log"
            path.unlink()
            if replaced:
                path.touch()
            with self.assertRaisesRegex(OSError, "removed or replaced"):
                pharmacy.submit(REQUEST)
            with self.assertRaises(ValueError):
                pharmacy.tick()
            kept = (self.folder / f"{replaced}.log.removed").read_bytes()
            path.write_bytes(kept)
            with FileNode(SETTINGS, "ph1", path) as again:
                self.assertEqual(again.calls, 2)

    def test_log_that_is_replaced_while_it_is_opened(self):
        self.opened("ph1").close()
        path, files = self.folder / "ph1.log", vogrilas._file_node.fcntl
        flock, whole = files.flock, path.read_bytes()

        def late(file, how):
            path.rename(self.folder / "closed")
            path.write_bytes(b"")
            flock(file, how)

        files.flock = late
        try:
            with self.assertRaisesRegex(OSError, "replaced while it was opened"):
                FileNode(SETTINGS, "ph1", path)
        finally:
            files.flock = flock
        self.assertEqual(((self.folder / "closed").read_bytes(), path.read_bytes()), (whole, b""))

    def test_sync_that_fails(self):
        pharmacy = self.opened("ph1")
        real, os.fsync = os.fsync, self.refuse_sync
        try:
            with self.assertRaises(OSError):
                pharmacy.submit(REQUEST)
        finally:
            os.fsync = real
        with self.assertRaisesRegex(OSError, "a sync of the log failed"):
            self.opened("ph1")
        (self.folder / "ph1.log.sync-failed").unlink()
        self.assertEqual(self.opened("ph1").calls, 1)

    def refuse_sync(self, file):
        if os.fstat(file).st_size == 0 or os.readlink(f"/proc/self/fd/{file}").endswith(".log"):
            raise OSError(5, "Input/output error")

    def test_each_start_syncs(self):
        self.opened("ph1").close()
        synced, real = [], os.fsync
        os.fsync = lambda file: synced.append(os.readlink(f"/proc/self/fd/{file}"))
        try:
            self.opened("ph1")
        finally:
            os.fsync = real
        self.assertEqual(synced, [str(self.folder.resolve() / "ph1.log"), str(self.folder.resolve())])

    def test_closed_descriptors(self):
        script = (
            "import os, sys; os.close(0); os.close(1)\n"
            "from vogrilas import FileNode\n"
            "node = FileNode(open(sys.argv[1], 'rb').read(), 'ph1', sys.argv[2])\n"
            "node.stop()\n"
            "os.write(node._file, b'') if node._file > 2 else sys.exit(3)\n"
        )
        path = self.folder / "ph1.log"
        done = subprocess.run(
            [sys.executable, "-c", script, os.environ["VOGRILAS_TRIAL_SETTINGS"], str(path)], check=False
        )
        self.assertEqual(done.returncode, 0)
        self.assertEqual(self.opened("ph1").calls, 1)

    def test_messages_are_made(self):
        self.assertEqual(bytes(BILLING), REQUEST)
        reversal = (
            REQUEST[:8]
            + b"B2"
            + REQUEST[10:56]
            + b"\x1d\x1e\x1cAM07\x1cEM1\x1cD2123456\x1cD30\x1cE103\x1cD700093721410"
        )
        self.assertEqual(bytes(BILLING.reversal()), reversal)
        self.assertEqual(bytes(Reversal(HEADER, 123456, b"00093721410", None)), reversal.replace(b"\x1cD30", b""))
        self.assertEqual((Billing.read(REQUEST), Reversal.read(reversal)), (BILLING, BILLING.reversal()))
        for wrong in (
            lambda: Billing.read(reversal),
            lambda: Reversal.read(REQUEST),
            lambda: Billing.read(b""),
            lambda: Billing.read(REQUEST + b" "),
        ):
            with self.assertRaises(ValueError):
                wrong()
        self.assertEqual(self.opened("ph1").submit(BILLING).number, 1)

    def test_answers_are_read(self):
        front, behind = (
            "D0B11A011234567893     20240115\x1d\x1e\x1cAM21\x1cAN",
            "\x1cF30001000000000001\x1e\x1cAM22\x1cEM1\x1cD2123456",
        )
        amounts = "\x1e\x1cAM23\x1cF5100{\x1cF6557{\x1cF715{\x1cF9472{"
        paid = ("0001000000000001", 123456, 5570, 150, 1000, 4720)
        for text, ruling in (
            (f"{front}P{behind}{amounts}", Ruling("paid", *paid)), (f"{front}D{behind}{amounts}", Ruling("duplicate", *paid)),
            (f"{front}A{behind}".replace("D0B1", "D0B2"), Ruling("reversed", *paid[:2])),
            (f"{front}R\x1cFA2\x1cFB07\x1cFB70", Ruling("rejected", codes=("07", "70"))),
        ):  # fmt: skip
            self.assertEqual(Answer.read(text.encode()), Answer((ruling,)))
        for text in (f"{front}P{behind}", f"{front}X", "D0", "", REQUEST.decode()):
            with self.assertRaises(ValueError):
                Answer.read(text.encode())
        told = Answer(
            (Ruling("rejected", codes=("79",), messages=("TOO SOON", "x" * 40)), Ruling("rejected", codes=("70",)))
        )
        first = f"R\x1cFA1\x1cFB79\x1cUF2\x1cUH01\x1cFQTOO SOON\x1cUH02\x1cFQ{'x' * 40}"
        text = f"{front}{first}\x1d\x1e\x1cAM21\x1cANR\x1cFA1\x1cFB70".replace("D0B11", "D0B12").encode()
        self.assertEqual((told.to(REQUEST), Answer.read(text)), (text, told))
        for wrong in (("",), ("x" * 41,), ("x\x1cANP",), ("\N{EURO SIGN}",), ("x",) * 26):
            with self.assertRaises(ValueError):
                Answer((Ruling("rejected", codes=("79",), messages=wrong),)).to(REQUEST)
        before = Answer((Ruling("rejected", codes=("79",)),), "CALL 800 555 1234")
        text = f"{front}R\x1cFA1\x1cFB79".replace("\x1d", "\x1e\x1cAM20\x1cF4CALL 800 555 1234\x1d").encode()
        self.assertEqual((before.to(REQUEST), Answer.read(text)), (text, before))
        for wrong in ("x" * 201, "x\x1cF4y", "\N{EURO SIGN}"):
            with self.assertRaises(ValueError):
                Answer(before.rulings, wrong).to(REQUEST)
        with self.assertRaises(ValueError):
            Answer((Ruling("paid", *paid, again=True),)).to(REQUEST)

    def test_wrong_fields(self):
        def header(**change):
            fields = {name: getattr(HEADER, name) for name in ("bin", "provider", "date", "pcn", "qualifier", "vendor")}
            return Header(**{**fields, **change})

        def billing(**change):
            fields = {name: getattr(BILLING, name) for name in BILLING.__dataclass_fields__}
            return Billing(**{**fields, **change})

        wrong = [
            ("101-A1", "DIGITS", {"header": header(bin="61045")}),
            ("101-A1", "DIGITS", {"header": header(bin="6104551234")}),
            ("104-A4", "TOO_LONG", {"header": header(pcn="ABCDEFGHIJK")}),
            ("202-B2", "TOO_LONG", {"header": header(qualifier="0123456")}),
            ("201-B1", "SEPARATOR", {"header": header(provider=b"1\x1c")}),
            ("201-B1", "SEPARATOR", {"header": header(provider=b"1\0")}),
            ("401-D1", "DAY", {"header": header(date="20240230")}),
            ("401-D1", "DIGITS", {"header": header(date="2024-01-15")}),
            ("110-AK", "TOO_LONG", {"header": header(vendor="12345678901")}),
            ("302-C2", "EMPTY", {"cardholder": ""}),
            ("302-C2", "TOO_LONG", {"cardholder": b"1" * 21}),
            ("302-C2", "SPACE", {"cardholder": "1 "}),
            ("302-C2", "SEPARATOR", {"cardholder": b"\x1e"}),
            ("402-D2", "TOO_LONG", {"prescription": 10**12}),
            ("402-D2", "TOO_LONG", {"prescription": 1 << 64}),
            ("402-D2", "DIGITS", {"prescription": -1}),
            ("403-D3", "TOO_LONG", {"fill_number": 100}),
            ("403-D3", "TOO_LONG", {"fill_number": 255}),
            ("403-D3", "TOO_LONG", {"fill_number": 256}),
            ("407-D7", "EMPTY", {"product": b""}),
            ("407-D7", "TOO_LONG", {"product": "1" * 40}),
            ("407-D7", "SPACE", {"product": " "}),
            ("442-E7", "TOO_LONG", {"quantity": 10**10}),
            ("409-D9", "TOO_LONG", {"cost": 10**8}),
            ("412-DC", "TOO_LONG", {"fee": 1 << 32}),
        ]
        for field, why, change in wrong:
            with self.subTest(field=field, why=why), self.assertRaises(WrongField) as caught:
                bytes(billing(**change))
            self.assertEqual((caught.exception.field, caught.exception.code), (field, Code[f"FIELD_{why}"]))
        self.assertEqual(str(caught.exception), "412-DC is too long")
        for fill in (100, 255, 256):
            with self.assertRaises(WrongField):
                bytes(Reversal(HEADER, 1, "1", fill))
        for call in (
            lambda: billing(cardholder=5),
            lambda: billing(prescription="1"),
            lambda: billing(cost=1.5),
            lambda: billing(fee=True),
            lambda: billing(header="x"),
            lambda: billing(fill_number=None),
            lambda: header(bin=610455),
            lambda: Reversal(HEADER, 1, None),
        ):
            with self.assertRaises(TypeError):
                call()

    def test_cases_of_messages(self):
        read = 0
        for message, outcome in orders():
            kind = Reversal if message[8:10] == b"B2" else Billing
            try:
                self.assertEqual(bytes(kind.read(message)), message)
                self.assertIn(outcome, ("taken", None))
                read += 1
            except ValueError:
                pass
        self.assertGreater(read, 10)

    def test_there_and_back(self):
        draw = random.Random(7)

        def text(most, least=0):
            pool = [byte for byte in range(1, 256) if byte not in (0x1C, 0x1D, 0x1E)]
            return bytes(draw.choice(pool) for _ in range(draw.randint(least, most)))

        def filled(most):
            return text(most - 1) + bytes([draw.choice(b"0Zz~\xff\x7f\x01\\")])

        def number(digits):
            return draw.randrange(10 ** draw.randint(0, digits))

        for _ in range(400):
            day = datetime.date.fromordinal(draw.randint(1, datetime.date.max.toordinal()))
            header = Header(f"{draw.randrange(10**6):06}", text(15), day, text(10), text(2), text(10))
            billing = Billing(header, filled(20), number(12), filled(19), number(10), number(8), number(8), number(2))
            self.assertEqual(Billing.read(bytes(billing)), billing)
            reversal = Reversal(header, number(12), filled(19), draw.choice([None, number(2)]))
            self.assertEqual(Reversal.read(bytes(reversal)), reversal)

    def test_most(self):
        caps = [int(cap) for cap in re.findall(rb"^cap = (\d+)$", SETTINGS, re.M)]
        for name, cap in zip(("ph1", "sw1", "pr1"), caps, strict=True):
            node = Node(SETTINGS, name)
            node.synced(len(node.records()))
            self.assertEqual((node.count, node.most), (0, cap))
            node.serve(b"stop")
            node.synced(len(node.records()))
            self.assertEqual(node.most, cap)

    def test_synced_before_told(self):
        node = Node(SETTINGS, "ph1")
        telling = [node.written, node.clear, node.payments, lambda: node.calls, lambda: node.count, lambda: node.most]
        telling += [lambda: node.request(1), lambda: node.answer(1, 1)]

        def silent():
            for call in telling:
                self.assertEqual(str(self.fails(Code.UNSYNCED, call)), "unsynced")

        silent()
        head = node.records()
        self.fails(Code.TOO_MANY, node.synced, len(head) + 1)
        self.fails(Code.TOO_MANY, node.synced, -1)
        self.fails(Code.TOO_MANY, node.synced, 1 << 64)
        for wrong in ("1", None, 1.0, True):
            with self.assertRaises(TypeError):
                node.synced(wrong)
        node.synced(len(head) - 1)
        self.assertEqual(node.records(), head[-1:])
        self.assertEqual([node.records_after(it) for it in (0, 1, 1 << 64)], [head[-1:], b"", b""])
        silent()
        node.synced(1)
        self.assertEqual((node.written(), node.calls), (b"", 0))
        node.submit(REQUEST)
        silent()
        record = node.records()
        node.synced(len(record))
        self.assertEqual((node.calls, node.count, node.request(1), node.answer(1, 1)), (1, 1, REQUEST, None))
        self.assertIsNone(node.heard(1, 1))
        self.assertTrue(node.written().endswith(b"number 1\n"))
        node.clear()
        node.close()
        again = Node(SETTINGS, "ph1", head + record)
        self.fails(Code.UNSYNCED, lambda: again.count)
        again.synced(0)
        self.assertEqual(again.count, 1)

    def test_closed(self):
        node = Node(SETTINGS, "ph1")
        node.close()
        node.close()
        self.fails(Code.CLOSED, node.serve, b"tick")
        self.fails(Code.CLOSED, node.records)
        self.fails(Code.CLOSED, node.clear)
        self.fails(Code.CLOSED, node.synced, 0)
        self.fails(Code.CLOSED, node.request, 1)
        self.fails(Code.CLOSED, node.answer, 1, 1)
        self.fails(Code.CLOSED, node.payments)
        self.fails(Code.CLOSED, lambda: node.count)

    def test_rows_of_many_maps(self):
        """A book of more rows and payments than its first maps take: those of before and after are found, reversed and paid again."""
        rows, asked = 75_000, (1, 40_000, 73_000, 73_665, 74_000, 75_000)
        settings = SETTINGS.replace(b"tries = 1\n", b"tries = 1\n[limits]\nentries = 100000\n").replace(
            b"cap = 1000\n", b"cap = 100000\n"
        )
        payer = Node(settings, "pr1")
        payer.synced(len(payer.records()))

        def ruled(number, request):
            payer.take("sw1", b"PS\x01\x01\0\1" + number.to_bytes(8, "big") + len(request).to_bytes(4, "big") + request)
            payer.synced(len(payer.records()))
            told = payer.written() if number in first or number > rows else None
            payer.clear()
            return told

        def claim(prescription):
            return REQUEST.replace(b"D2123456", b"D2%07d" % prescription)

        first = dict.fromkeys(asked)
        for number in range(1, rows + 1):
            told = ruled(number, claim(number))
            if number in first:
                self.assertIn(b"\\FANP", told)
                first[number] = told
        self.assertEqual(payer.count, rows)
        for place, number in enumerate(asked):
            self.assertEqual(ruled(number, claim(number)), first[number])
            again, later = rows + 4 * place + 1, rows + 4 * place + 2
            self.assertIn(b"\\FAND", ruled(again, claim(number)))
            reversal = bytes(BILLING.reversal()).replace(b"D2123456", b"D2%07d" % number)
            reversed_once = ruled(later, reversal)
            self.assertIn(b"\\FANA", reversed_once)
            self.assertIn(b"\\FANP", ruled(later + 1, claim(number)))
            self.assertIn(b"\\FAND", ruled(later + 2, claim(number)))
            self.assertEqual(ruled(later, reversal), reversed_once)
        self.assertEqual(payer.count, rows + 4 * len(asked))

    def test_texts(self):
        every = bytes(range(256))
        self.assertEqual(vogrilas.unprinted(vogrilas.printed(every)), every)
        self.assertEqual(vogrilas.printed(b""), b"")
        self.assertEqual(self.fails(Code.BAD_TEXT, vogrilas.unprinted, b"ab\\q").place, 2)

    def test_descriptions(self):
        self.assertTrue(vogrilas.described(REQUEST).startswith(f"line 1: request of {len(REQUEST)} bytes\n"))
        told = vogrilas.decoded(REQUEST)
        self.assertEqual((told["kind"], told["bytes"]), ("request", len(REQUEST)))
        self.assertEqual(told["findings"][0]["transaction"], 1)
        self.assertEqual(vogrilas.decoded(b"")["kind"], "request")

    def test_threads(self):
        pharmacy = self.opened("ph1")
        numbers = []

        def submit(place):
            for one in range(10):
                claim = REQUEST.replace(b"D2123456", b"D2%06d" % (place * 100 + one))
                numbers.append(pharmacy.submit(claim).number)

        threads = [threading.Thread(target=submit, args=(place,)) for place in range(1, 5)]
        for thread in threads:
            thread.start()
        for thread in threads:
            thread.join()
        self.assertEqual(sorted(numbers), list(range(1, 41)))


if __name__ == "__main__":
    unittest.main()
