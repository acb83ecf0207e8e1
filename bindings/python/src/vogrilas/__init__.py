"""One node of a claims network in your own process: a pharmacy, a switch or a payer, with its log.

    from vogrilas import Billing, FileNode, Header

    header = Header(bin="610455", provider="1234567893", date="20240115", pcn="A1")
    billing = Billing(header, "987654321", 123456, "00093721410", quantity=30_000, cost=60_00)
    with FileNode(settings, "ph1", "ph1.log") as pharmacy:
        said = pharmacy.submit(billing)      # on disk when it returns; bytes do as well
        for packet in said.sent:             # packet.to, packet.data: your carrier's from here on
            ...
        pharmacy.answer(said.number)         # None until the answer has come; Answer.read() says what it rules
        pharmacy.payments()                  # what it counts as paid

The node is the proved library `libvogrilas`; these modules are its caller, and are tested, not proved. A node may be used from
any thread: a lock lets one call in at a time.
"""

from ._file_node import FileNode
from ._messages import Answer, Billing, Header, Reversal, Ruling, WrongField
from ._node import (
    Audit,
    Code,
    Node,
    Packet,
    Payment,
    Refused,
    Said,
    Settings,
    VogrilasError,
    audited,
    audited_tables,
    decoded,
    described,
    printed,
    read_said,
    unprinted,
)

__all__ = [
    "Answer",
    "Audit",
    "Billing",
    "Code",
    "FileNode",
    "Header",
    "Node",
    "Packet",
    "Payment",
    "Refused",
    "Reversal",
    "Ruling",
    "Said",
    "Settings",
    "VogrilasError",
    "WrongField",
    "audited",
    "audited_tables",
    "decoded",
    "described",
    "printed",
    "read_said",
    "unprinted",
]
__version__ = "0.7.0"
