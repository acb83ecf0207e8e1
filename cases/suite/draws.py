"""Random events, the same for the same seed, and what they are made of."""

# Where the provider's ID stands in a request, and the last digit of the BIN.
PROVIDER, BIN_END = 23, 5
# How often a node that is down is looked for.
DRAWS = 6
PRODUCT = "00093721410"
PRICES = ("none", 18567, 20000, 1)


def put(text: bytearray, place: int, octets: bytes) -> None:
    """Writes bytes over those at a place, as far as there are such."""
    for at, octet in enumerate(octets, place):
        if at < len(text):
            text[at] = octet


class Draws:
    """A stream of numbers, and events drawn by it for a world of two pharmacies, two switches and two payers."""

    def __init__(self, seed: int, texts: list[bytes]):
        self.state, self.texts = seed, texts

    def below(self, limit: int) -> int:
        """A number below another one; 0 where that is 0."""
        self.state = (self.state * 6_364_136_223_846_793_005 + 1_442_695_040_888_963_407) % 2**64
        return (self.state >> 33) % limit if limit else 0

    def one_or_two(self) -> int:
        return 1 if self.below(2) == 0 else 2

    def node(self) -> str:
        number = self.one_or_two()
        return f'{("ph", "sw", "pr")[self.below(3)]}{number}'

    def down_node(self, up: set[str]) -> str:
        """A node that is down, if some draws find one."""
        node = self.node()
        for _ in range(DRAWS):
            if node in up:
                node = self.node()
        return node

    def event(self, up: set[str], packets: int) -> tuple:
        """An event, where these nodes are up and so many packets were sent."""
        drawn = self.below(20)
        if drawn <= 4:
            return self.submission()
        if drawn <= 6:
            return "tick", self.one_or_two()
        if drawn == 7:
            return "stop", self.node()
        if drawn <= 9:
            return "start", self.down_node(up)
        return self.plan() if drawn == 10 else self.delivery(packets)

    def delivery(self, count: int) -> tuple:
        """One of the last packets, or any."""
        reach = count if self.below(4) == 0 else min(count, 6)
        return "deliver", count - self.below(reach)

    def plan(self) -> tuple:
        """A new price, or none."""
        price = PRICES[self.below(4)]
        return "plan", f"pr{self.one_or_two()}", PRODUCT, price

    def submission(self) -> tuple:
        """A request of a pharmacy, to one of two payers, about one of four prescriptions; some are damaged."""
        pharmacy = self.one_or_two()
        text = bytearray(self.texts[self.below(8)])
        if pharmacy == 2:
            put(text, PROVIDER, b"9999999999")
        if self.below(4) == 0:
            put(text, BIN_END, b"6")
        digit = b"3456"[self.below(4)]
        for place in range(len(text)):
            if text.startswith(b"D2123456", place):
                text[place + 7] = digit
        if self.below(16) == 0:
            place = self.below(len(text))
            text[place] = b"\x1c\x1d\x1e7"[self.below(4)]
        return "submit", pharmacy, bytes(text)


class Crowd:
    """The worlds that random runs begin with, by the names of their days, and the requests that pharmacies submit."""

    def __init__(self):
        self.worlds: list[str] = []
        self.texts: list[bytes] = []

    def opens(self, argument: bytes) -> str:
        self.worlds.append(argument.decode("ascii"))
        return str(len(self.worlds))

    def submits(self, argument: bytes) -> str:
        self.texts.append(argument)
        return str(len(self.texts))
