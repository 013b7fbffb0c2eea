"""Frames of AMQP 1.0 (part 2, 2.3 and 2.7), as far as the sessions of tools/cases need them: written in canonical form, and read."""
import struct
from dataclasses import dataclass, field

# The fields of each performative, in order: name and type (part 2, 2.7). A type `*` is any value; here only null and delivery states come.
PERFORMATIVES = {
    "Begin": (0x11, "remote_channel:ushort next_outgoing_id:uint incoming_window:uint outgoing_window:uint handle_max:uint offered_capabilities:* "
                    "desired_capabilities:* properties:*"),
    "Attach": (0x12, "name:string handle:uint role:boolean snd_settle_mode:ubyte rcv_settle_mode:ubyte source:* target:* unsettled:* "
                     "incomplete_unsettled:boolean initial_delivery_count:uint max_message_size:ulong offered_capabilities:* desired_capabilities:* "
                     "properties:*"),
    "Flow": (0x13, "next_incoming_id:uint incoming_window:uint next_outgoing_id:uint outgoing_window:uint handle:uint delivery_count:uint link_credit:uint "
                   "available:uint drain:boolean echo:boolean properties:*"),
    "Transfer": (0x14, "handle:uint delivery_id:uint delivery_tag:binary message_format:uint settled:boolean more:boolean rcv_settle_mode:ubyte state:* "
                       "resume:boolean aborted:boolean batchable:boolean"),
    "Disposition": (0x15, "role:boolean first:uint last:uint settled:boolean state:* batchable:boolean"),
    "Detach": (0x16, "handle:uint closed:boolean error:*"),
    "End": (0x17, "error:*"),
}
FIELDS = {name: [part.split(":") for part in fields.split()] for name, (_, fields) in PERFORMATIVES.items()}
BY_NUMBER = {number: name for name, (number, _) in PERFORMATIVES.items()}
STATES = {"received": 0x23, "accepted": 0x24, "rejected": 0x25, "released": 0x26, "modified": 0x27}
STATE_NAMES = {number: name for name, number in STATES.items()}


@dataclass
class Frame:
    """A frame: its channel, the name of its performative (none of an empty frame), the fields of that, which are read as attributes, and its payload."""

    channel: int = 0
    kind: str | None = None
    body: dict = field(default_factory=dict)
    payload: bytes = b""

    def __getattr__(self, name):
        return self.body[name]

    @staticmethod
    def names(kind):
        """The names of the fields of a performative."""
        return [name for name, _ in FIELDS[kind]]


def write_value(kind, value):
    if value is None:
        return b"\x40"
    if kind == "boolean":
        return b"\x41" if value else b"\x42"
    if kind in ("uint", "ulong"):
        small, wide = (b"\x52", b"\x70") if kind == "uint" else (b"\x53", b"\x80")
        if value == 0:
            return b"\x43" if kind == "uint" else b"\x44"
        return small + bytes([value]) if value < 256 else wide + value.to_bytes(4 if kind == "uint" else 8, "big")
    if kind == "ubyte":
        return b"\x50" + bytes([value])
    if kind == "ushort":
        return b"\x60" + value.to_bytes(2, "big")
    if kind in ("binary", "string"):
        short, long = (b"\xa0", b"\xb0") if kind == "binary" else (b"\xa1", b"\xb1")
        return (short + bytes([len(value)]) if len(value) < 256 else long + struct.pack(">I", len(value))) + value
    return write_state(value)


def write_list(number, items):
    while items and items[-1] == b"\x40":
        items.pop()
    inside = b"".join(items)
    if not items:
        return b"\x00\x53" + bytes([number]) + b"\x45"
    if len(inside) < 255 and len(items) < 256:
        return b"\x00\x53" + bytes([number, 0xC0, len(inside) + 1, len(items)]) + inside
    return b"\x00\x53" + bytes([number, 0xD0]) + struct.pack(">II", len(inside) + 4, len(items)) + inside


def write_state(state):
    name, *numbers = state
    return write_list(STATES[name], [write_value(kind, n) for kind, n in zip(("uint", "ulong"), numbers)])


def write_frame(frame):
    inside = b""
    if frame.kind is not None:
        items = [write_value(kind, frame.body.get(name)) for name, kind in FIELDS[frame.kind]]
        inside = write_list(PERFORMATIVES[frame.kind][0], items) + frame.payload
    return struct.pack(">IBBH", len(inside) + 8, 2, 0, frame.channel) + inside


class Reader:
    def __init__(self, octets):
        self.octets, self.at = octets, 0

    def take(self, count):
        self.at += count
        return self.octets[self.at - count : self.at]

    def number(self, count):
        return int.from_bytes(self.take(count), "big")

    def value(self):
        """The value in front: a number, a truth value, octets, or a delivery state as a tuple; nothing of a null."""
        code = self.number(1)
        if code == 0x00:
            self.number(1)
            number = self.number(1)
            return (STATE_NAMES[number], *self.items())
        constants = {0x40: None, 0x41: True, 0x42: False, 0x43: 0, 0x44: 0}
        if code in constants:
            return constants[code]
        if code >> 4 in (0x5, 0x6, 0x7, 0x8):
            return self.number({0x5: 1, 0x6: 2, 0x7: 4, 0x8: 8}[code >> 4])
        return self.take(self.number(1 if code >> 4 == 0xA else 4))

    def items(self):
        code = self.number(1)
        if code == 0x45:
            return []
        width = 1 if code == 0xC0 else 4
        self.take(width)
        return [self.value() for _ in range(self.number(width))]


def read_frame(octets):
    reader = Reader(octets)
    reader.take(6)
    frame = Frame(channel=reader.number(2))
    if reader.at < len(octets):
        reader.take(2)
        frame.kind = BY_NUMBER[reader.number(1)]
        values = reader.items()
        names = Frame.names(frame.kind)
        frame.body = dict(zip(names, values + [None] * (len(names) - len(values))))
        frame.payload = octets[reader.at :]
    return frame
