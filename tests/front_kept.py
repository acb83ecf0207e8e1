"""What the front's receipts let be told, for tests/front-pieces: of a payment that is taken back exactly one wins, the telling or the reversal. And
whether it says that it serves."""

import pathlib
import tempfile
import types

from front_calls import billing
from network import expect

PAID = (
    b"D0B11A011234567893     20240115\x1d\x1e\x1cAM21\x1cANP\x1cF30001000000000001\x1e\x1cAM22\x1cEM1\x1cD2100001"
    b"\x1e\x1cAM23\x1cF5100{\x1cF6557{\x1cF715{\x1cF9472{"
)
# The same, told as a duplicate: its payment is that of the claim before.
DUPLICATE = PAID.replace(b"ANP", b"AND").replace(b"D2100001", b"D2100002")


class Kept:
    """Receipts of a pharmacy."""

    def __init__(self, name):
        from front_service import keeping

        self._keeping, self._file = keeping, keeping.opened(name)

    def does(self, deed, *values):
        """What comes of a deed of a pharmacy."""
        return getattr(self._keeping, deed)(self._file, "ph1", *values)

    def entered(self, key, message, number=None):
        """The word on a message under a key; it has this number then."""
        from front_service.receipts import digest_of
        from front_service.standard import touches_of

        touched = [(it.place, it.prescription, it.fill) for it in touches_of(message)]
        word, _, _ = self.does("reserve", key, f"fresh-{key}", digest_of(message), message, touched, [], 60)
        if number is not None:
            self.does("number", key, number)
        return word

    def told(self, key, answer):
        """What a caller of a key is told who asks for this answer."""
        from front_service.receipts import Receipt

        return Receipt(*self.does("tell", key, answer)).told_answer

    def due(self):
        """How many payments are taken back now."""
        return len(self._keeping.due(self._file, ["ph1"], 0)[0])


def kept():
    """A message of a fill whose answer is not there waits; who asks for a payment that is being reversed is not told of it, and no duplicate of it is told;
    a payment of which a duplicate was told is not reversed."""
    with tempfile.TemporaryDirectory() as folder:
        one = Kept(str(pathlib.Path(folder, "one")))
        expect(one.entered("a", billing(1), 1) == "new", "a message is not entered")
        expect(
            one.entered("b", billing(1).replace(b"DC20{", b"DC21{")) == "open", "two messages of a fill are under way"
        )
        one.does("give_up", "a", "95")
        one.does("seen", 1, PAID)
        expect(one.due() == 1, "a payment that nobody was told of is not taken back")
        expect(one.told("a", PAID) != PAID, "a payment that is being reversed is told")
        expect(one.entered("c", billing(2), 2) == "new", "a message of another fill is not entered")
        expect(one.told("c", DUPLICATE) != DUPLICATE, "a duplicate of what is being reversed is told")
        other = Kept(str(pathlib.Path(folder, "other")))
        for key, number in (("a", 1), ("c", 2)):
            other.entered(key, billing(number), number)
        other.does("give_up", "a", "95")
        other.does("seen", 1, PAID)
        expect(other.told("c", DUPLICATE) == DUPLICATE, "a duplicate of what stands is not told")
        expect(other.due() == 0, "a payment of which a duplicate was told is reversed")


async def ready():
    """A front says that it serves once each pharmacy is reached, and else which is not."""
    from front_service.health import Health
    from front_service.problems import Problem

    node = types.SimpleNamespace(is_connected=False)
    health = Health({"ph1": node}, types.SimpleNamespace(is_changed=lambda: False), lambda: ["ph1"])
    try:
        await health.serves(None)
        told = ""
    except Problem as problem:
        told = problem.body()
    expect("NotReady" in told and "ph1 is not reached" in told, f"a front serves whose pharmacy is not reached: {told}")
    node.is_connected = True
    expect((await health.serves(None)).status == 200, "a front does not serve whose pharmacy is reached")
