"""The subjects of messages, and who stands in them: what hosts/permissions lets a user use is written from these names alone.

    claims.sw1.from.ph1     a packet of ph1 for sw1, in printed bytes; the server lets nobody but ph1 publish here
    claims.ph1.call         a caller's line for ph1: `submit`, `submit-as`, `answer` or `wait`
    claims.pr1.call         a caller's line for pr1: `count`, `row` or `payments`
    claims.ph1.operate      an operator's line for a node: any but `take`, `adjudicate` and `at`
    claims.ph1.owner        what hosts of ph1 whose log is in a stream say to one another, and operators who vouch for its end
    log.ph1                 what is appended to the log of ph1, where that is in a stream
    deliver.ph1             where JetStream hands over what it keeps for ph1; the server's own, nobody publishes here
    _INBOX.USER.>           the replies to one user, which no other may read
"""

import re

NODE = re.compile(r"(?:ph|sw|pr)[1-9][0-9]{0,4}")
# Pharmacies from one to another, which one process serves.
RANGE = re.compile(r"ph([1-9][0-9]{0,4})-ph([1-9][0-9]{0,4})")
USER = re.compile(r"[A-Za-z0-9_-]{1,64}")
# A packet has at most 131,144 printed bytes, a request 131,072, its reference 256; what is longer is none.
MOST_BYTES = 131_400


def packet(to: str, sender: str) -> str:
    """Where a node's packet for another goes."""
    return f"claims.{to}.from.{sender}"


def packets(node: str) -> str:
    """Where the packets for a node come from all others."""
    return packet(node, "*")


def sender_of(subject: str, node: str) -> str | None:
    """Who has sent a packet to this node; None where the subject is no packet's."""
    head = f"claims.{node}.from."
    sender = subject[len(head) :]
    return sender if subject.startswith(head) and NODE.fullmatch(sender) else None


def calls(node: str) -> str:
    return f"claims.{node}.call"


def operations(node: str) -> str:
    return f"claims.{node}.operate"


def owners(node: str) -> str:
    return f"claims.{node}.owner"


def log(node: str) -> str:
    return f"log.{node}"


def log_stream(node: str) -> str:
    """The name of the stream that a node's log is in."""
    return f"LOG_{node}"


def delivered(node: str) -> str:
    return f"deliver.{node}"


def inbox(user: str) -> str:
    """Where the replies to a user begin."""
    return f"_INBOX.{user}"


def is_inbox(subject: str) -> bool:
    """Whether a reply may go there. A host that replied elsewhere would speak in its own name what a caller wrote."""
    return subject.startswith("_INBOX.")


def stream(node: str) -> str:
    """The name of the stream that keeps a node's packets."""
    return f"claims-{node}"


def acknowledgement(node: str) -> str:
    """Where a node says that it has a kept packet."""
    return f"$JS.ACK.{stream(node)}.{node}."
