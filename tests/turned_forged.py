"""Logs that have turned over, whose rests are made anew by who means to deceive: for tests/turned."""

import pathlib
import re
import shutil
import sys

sys.dont_write_bytecode = True
sys.path.insert(0, str(pathlib.Path(__file__).resolve().parent.parent / "cases"))
from suite.nodes import Served, room  # noqa: E402
from suite.sums import check_sum  # noqa: E402
from turned_story import BODY, NODES, Paid, audited, backup, begun, expect, parts_of, run  # noqa: E402

# Each how many altered rests are audited.
SOME = 16
# The claim whose row is altered.
ALTERED = b"D2200003"


def forged(story):
    """What is wrong where a byte of a rest is altered, and all that vouches for it is made anew."""
    with room() as folder:
        paid = Paid(story, folder)
        paid.begin(paid.rest, paid.calls)
        if (paid.judged(NODES)[0], paid.judged("--alone", ("pr1",))[0]) != (0, 0):
            yield "logs with a rest that is made anew as it was are not legal"
        calls, out = int.from_bytes(paid.rest[6:14], "big"), paid.folder / "joined"
        for place in range(BODY, len(paid.rest)):
            body = bytearray(paid.rest[BODY:])
            body[place - BODY] ^= 1
            paid.begin(paid.rest[: BODY - 8] + check_sum(2, calls, bytes(body)) + bytes(body), paid.calls)
            told = [run("--join", out, paid.settings, "pr1", paid.log("pr1"))]
            if place % SOME == 0:
                told += [paid.judged(NODES), paid.judged("--alone", ("pr1",))]
            if any(it[0] == 0 or "does not begin with what its closed logs left" not in it[2] for it in told):
                yield f"byte {place} of a rest is another, and nobody says so: {told}"
            out.unlink(missing_ok=True)


def raised(match):
    """An amount of a text that is forty dollars more."""
    cents = int(match[2] + str("{ABCDEFGHI".index(match[3].decode())).encode()) + 4000
    return match[1] + str(cents // 10).zfill(len(match[2])).encode() + match[3]


def made_anew(octets):
    """The file of a payer's log whose rest has two amounts more in one row, of which no later call tells, with check sum and head made anew."""
    rest, _, calls = parts_of(octets)
    place = rest.index(ALTERED)
    body = rest[BODY:place]
    row = rest[place:]
    for field in (b"F6", b"F9"):
        row = re.sub(rb"(\x1c%s)([0-9]{3})([{A-I])" % field, raised, row, count=1)
    body += row
    count = int.from_bytes(rest[6:14], "big")
    return begun("pr1", rest[: BODY - 8] + check_sum(2, count, body) + body, calls)


def another_head(story):
    """What is wrong where a rest is made anew in logs that were turned twice, and their closed logs are gone: the node opens, and an audit cannot know
    it; its head is another than in any other copy of the log, and hosts/backup names the log beside each of them."""
    with room() as folder:
        live = pathlib.Path(folder) / "live"
        live.mkdir()
        for path in (it for node in NODES for it in story.folder.glob(f"{node}.log*")):
            shutil.copy(path, live)
        expect(len(list(live.glob("pr1.log.[0-9]*"))) >= 2, "the log of pr1 was not turned twice")
        log, copies = live / "pr1.log", [live.with_name(it) for it in ("older", "backup", "mirror")]
        expect(backup(live, copies[0]).returncode == 0, "no copy is made")
        with Served(str(story.settings), "pr1", str(log)) as served:
            served.ask_all(["plan 00093721410 100"])
        expect(backup(live, copies[1]).returncode == 0, "no copy is made")
        shutil.copytree(live, copies[2])
        was = story.told_of("pr1", log)
        log.write_bytes(made_anew(log.read_bytes()))
        for closed in live.glob("pr1.log.[0-9]*"):
            closed.unlink()
        now = story.told_of("pr1", log)
        if now == was or now[0] != was[0]:
            yield f"a rest that was made anew does not open with other amounts: {was} {now}"
        status, said, _ = audited("--alone", story.settings, log)
        if status != 0 or "as its rest says" not in said:
            yield f"who has that log alone can tell more than that its rest says so: {said}"
        heads = {it: parts_of((it / "pr1.log").read_bytes())[1] for it in (live, *copies)}
        if heads[live] in [heads[it] for it in copies] or len({heads[it] for it in copies}) != 1:
            yield "the head of the log that was made anew is that of another copy, or they are not the same"
        for kept in copies:
            told = backup("--compare", kept, live)
            lines = [it.split(": ") for it in told.stdout.splitlines()]
            differ = {pathlib.Path(path).name for path, what in lines if what == "does not go on where its copy ends"}
            # Closed logs that are gone are named too.
            if told.returncode != 1 or "pr1.log" not in differ or not all(it.startswith("pr1.log") for it in differ):
                yield f"beside {kept.name} hosts/backup says {told.stdout}{told.stderr}"
