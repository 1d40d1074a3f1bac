"""The wire, as audiofile-protocol(7) has it: what a client and a server send, as bytes and as values.

`request` and `setup` spell what a client sends. A `ClientSide` and a `ServerSide` are given the bytes of one direction of a
link, in any pieces, and give an `Item` for each thing that stands whole in them. Nothing here talks to anybody.

A link has the order of its setup, and each number of two or four bytes on it is read and written in that order. Samples are
big-endian in both.
"""

import struct
from dataclasses import dataclass, field

# the orders in the letters of `struct`, how the setup of a link in each begins, and what they are called
BIG, LITTLE = ">", "<"
ORDERS = {b"AFB\0": BIG, b"AFl\0": LITTLE}
ORDER_NAMES = {BIG: "big-endian", LITTLE: "little-endian"}
OTHER = {BIG: LITTLE, LITTLE: BIG}
MAJOR, MINOR = 1, 0
LONGEST_FRAME = 4096
MOST_DATA = 16368
MOST_RECORDED = 16000
RATES = (8000, 11025, 16000, 22050, 32000, 44100, 48000)
# sample types by their numbers on the wire, and how many bytes a sample has
TYPES = ("mu255", "alaw", "lin16", "lin32")
WIDTHS = {"mu255": 1, "alaw": 1, "lin16": 2, "lin32": 4}
# how many channels a device may have: a frame has a sample for each of them, the left one first
CHANNELS = (1, 2)
EVENTS = {1: "Ring", 2: "Hook", 4: "Current", 8: "Digit"}
ERRORS = {1: "BadSetup", 2: "BadValue", 3: "BadDevice", 4: "BadAC", 5: "BadIDChoice", 6: "BadMatch", 7: "TooManyACs", 8: "BadLine"}
ERROR, REPLY, EVENT = 0, 1, 2


@dataclass(frozen=True)
class Layout:
    """A request: what its detail is, and the fields after its first word, in the letters of `struct`. Data may follow."""

    name: str
    detail: str = ""
    form: str = ""
    fields: tuple = ()
    has_data: bool = False

    def size(self):
        return 4 + struct.calcsize(">" + self.form)


REQUESTS = {
    1: Layout("NoOp"),
    2: Layout("GetTime", "device"),
    3: Layout("CreateAC", "device", "IBBBxhh", ("context", "type", "channels", "preempt", "play_gain", "record_gain")),
    4: Layout("ChangeAC", "mask", "IBxxxhh", ("context", "preempt", "play_gain", "record_gain")),
    5: Layout("FreeAC", "", "I", ("context",)),
    6: Layout("Play", "quiet", "III", ("context", "time", "count"), True),
    7: Layout("Record", "waits", "III", ("context", "time", "count")),
    8: Layout("SelectEvents", "device", "I", ("mask",)),
    9: Layout("SetControls", "device", "BBBxhh", ("mask", "input_on", "output_on", "input_gain", "output_gain")),
    10: Layout("QueryControls", "device"),
    11: Layout("HookSwitch", "device", "I", ("off",)),
    12: Layout("QueryPhone", "device"),
}
OPCODES = {layout.name: opcode for opcode, layout in REQUESTS.items()}
# requests whose replies have no body
PLAIN = {"CreateAC", "ChangeAC", "FreeAC", "SelectEvents", "SetControls", "HookSwitch"}
# how a message begins; the bodies of the other replies, without devices and data; a device; and the bodies of other messages
HEAD = "BBHI"
REPLIES = {"setup": "HHI", "GetTime": "I", "Play": "I", "Record": "II", "QueryControls": "BBHhh", "QueryPhone": "BBBBBBBB"}
DEVICE = "BBBBII"
BODIES = {"error": "IBBBB", "event": "III"}


@dataclass(frozen=True)
class Item:
    """Something that stands in one direction of a link.

    Its kind is `setup` or `request` (of a client), `reply`, `error` or `event` (of a server), `bad` (what is none of these: its
    name says why, and nothing after it is read) or `after` (bytes after something bad). The number of a request is its place
    on the link, that of a message the request that it states.
    """

    kind: str
    name: str
    octets: bytes
    number: int = 0
    fields: dict = field(default_factory=dict)
    data: bytes = b""


@dataclass(frozen=True)
class Format:
    """How sound stands in bytes: the name of its sample type, and how many channels it has."""

    type: str
    channels: int = 1

    def frame(self):
        """How many bytes a frame has."""
        return WIDTHS[self.type] * self.channels

    def __str__(self):
        return ("stereo " if self.channels == 2 else "") + self.type


class Bad(Exception):
    """Why bytes are not what they should be."""


def setup(order=BIG, major=MAJOR, minor=MINOR):
    return magic_of(order) + struct.pack(order + "HH", major, minor)


def magic_of(order):
    return next(magic for magic, other in ORDERS.items() if other == order)


def request(name, detail=0, data=b"", order=BIG, **fields):
    """The bytes of a request. The count of a Play is that of its data where none is given."""
    opcode = OPCODES[name]
    layout = REQUESTS[opcode]
    if layout.has_data:
        fields.setdefault("count", len(data))
    body = struct.pack(order + layout.form, *(fields.pop(each) for each in layout.fields)) + data
    if fields:
        raise TypeError("%s has no %s" % (name, ", ".join(fields)))
    body += bytes(-len(body) % 4)
    return struct.pack(order + "BBH", opcode, detail, 1 + len(body) // 4) + body


def turned(item, order):
    """The bytes of an item as they are on a link of another order, which is named: those of each number the other way round, and
    samples, single bytes and what is bad as they were."""
    if item.kind == "setup":
        return magic_of(order) + item.octets[4:6][::-1] + item.octets[6:8][::-1]
    at, pieces = 0, []
    for letter in form_of(item):
        size = struct.calcsize(letter)
        pieces.append(item.octets[at:at + size][::-1])
        at += size
    return b"".join(pieces) + item.octets[at:]


def form_of(item):
    """An item up to its data, in the letters of `struct`."""
    if item.kind == "request":
        return "BBH" + REQUESTS[OPCODES[item.name]].form
    if item.kind == "reply":
        return HEAD + REPLIES.get(item.name, "") + DEVICE * len(item.fields.get("devices", ()))
    return HEAD + BODIES[item.kind] if item.kind in BODIES else ""


def padded(size):
    return size + -size % 4


class Side:
    """Bytes of one direction: `rest` is what came and is not whole yet."""

    def __init__(self, order):
        self.order = order
        self.rest = b""
        self.ended = False

    def feed(self, octets):
        """The items that are whole with these bytes."""
        # a view, so that what is taken off its front costs no copy of the rest
        self.rest = memoryview(self.rest + octets)
        items = []
        while self.rest:
            if self.ended:
                items.append(self.take(len(self.rest), "after", ""))
                break
            try:
                item = self.item()
            except Bad as fault:
                self.ended = True
                item = self.take(min(len(self.rest), 8), "bad", str(fault))
            if item is None:
                break
            items.append(item)
        self.rest = bytes(self.rest)
        return items

    def take(self, size, kind, name, number=0, fields=None, data=b""):
        octets, self.rest = bytes(self.rest[:size]), self.rest[size:]
        return Item(kind, name, octets, number, fields or {}, data)

    def unpack(self, form, offset=0):
        return struct.unpack_from(self.order + form, self.rest, offset)


class ClientSide(Side):
    """What a client sends: a setup, which states the order, and then requests, which are numbered from 1 on. The order is that of
    the answers too: also where the setup has another version, and big-endian where it is none."""

    def __init__(self):
        super().__init__(BIG)
        self.is_set_up = False
        self.number = 0

    def item(self):
        return self.frame() if self.is_set_up else self.first()

    def first(self):
        if len(self.rest) < 8:
            return None
        order = ORDERS.get(bytes(self.rest[:4]))
        if order is None:
            raise Bad("no setup of this protocol")
        self.order = order
        major, minor = self.unpack("HH", 4)
        if major != MAJOR:
            raise Bad("a setup of version %d" % major)
        self.is_set_up = True
        return self.take(8, "setup", "setup", 0, {"order": ORDER_NAMES[order], "major": major, "minor": minor})

    def frame(self):
        if len(self.rest) < 4:
            return None
        opcode, detail, words = self.unpack("BBH")
        if not 1 <= words <= LONGEST_FRAME:
            raise Bad("a frame of %d words" % words)
        if len(self.rest) < 4 * words:
            return None
        layout = REQUESTS.get(opcode)
        if layout is None:
            raise Bad("opcode %d, which is no request" % opcode)
        size = layout.size()
        fields, data = {layout.detail: detail} if layout.detail else {}, b""
        if 4 * words >= size:
            fields.update(zip(layout.fields, self.unpack(layout.form, 4)))
            wanted = size + (padded(fields["count"]) if layout.has_data else 0)
        if 4 * words < size or 4 * words != wanted:
            raise Bad("a %s of %d words" % (layout.name, words))
        if layout.has_data:
            data = bytes(self.rest[size:size + fields["count"]])
        self.number = (self.number + 1) % 65536
        return self.take(4 * words, "request", layout.name, self.number, fields, data)


class ServerSide(Side):
    """What a server sends: messages, read as strictly as a client reads them. The byte order is that of the setup. If none
    is given, it is the one in which the first message has a header: the length of an answer to a setup tells."""

    def __init__(self, order=None):
        super().__init__(order)

    def item(self):
        if len(self.rest) < 8:
            return None
        if self.order is None:
            self.order = order_of(self.rest)
        kind, detail, number, words = self.unpack(HEAD)
        if not is_head(kind, detail, words):
            raise Bad("no head of a message")
        size = 8 + 4 * words
        if len(self.rest) < size:
            return None
        if kind == ERROR:
            value, opcode, *_ = self.unpack(BODIES["error"], 8)
            return self.take(size, "error", ERRORS[detail], number, {"value": value, "opcode": opcode})
        if kind == EVENT:
            device, time, value = self.unpack(BODIES["event"], 8)
            if device > 7 or detail != 8 and value > 1:
                raise Bad("no %s event: device %d, value %d" % (EVENTS[detail], device, value))
            return self.take(size, "event", EVENTS[detail], number, {"device": device, "time": time, "value": value})
        name = REQUESTS[detail].name if detail else "setup"
        fields, data = self.answer(name, size - 8)
        return self.take(size, "reply", name, number, fields, data)

    def answer(self, name, size):
        """The fields and the data of a reply whose body has this size."""
        form = REPLIES.get(name, "")
        if name == "setup":
            return self.devices(size), b""
        if name in PLAIN and size == 0:
            return {}, b""
        if name in ("GetTime", "Play") and size == 4:
            return {"time": self.unpack(form, 8)[0]}, b""
        if name == "Record" and size >= 8:
            time, count = self.unpack(form, 8)
            if size == 8 + padded(count) and not any(self.rest[16 + count:8 + size]):
                return {"time": time, "count": count}, bytes(self.rest[16:16 + count])
        if name == "QueryControls" and size == 8:
            input_on, output_on, zeros, input_gain, output_gain = self.unpack(form, 8)
            if input_on < 2 and output_on < 2 and not zeros and abs(input_gain) <= 30 and abs(output_gain) <= 30:
                return {"input_on": input_on, "output_on": output_on, "input_gain": input_gain, "output_gain": output_gain}, b""
        if name == "QueryPhone" and size == 8:
            flags = self.unpack(form, 8)
            if max(flags[:5]) < 2 and not any(flags[5:]):
                return dict(zip(("wanted", "given", "ringing", "current", "dead"), flags)), b""
        raise Bad("no reply to %s: a body of %d bytes" % (name, size))

    def devices(self, size):
        if size >= 8:
            major, minor, count = self.unpack(REPLIES["setup"], 8)
            if (major, minor) == (MAJOR, MINOR) and 1 <= count <= 8 and size == 8 + 12 * count:
                found = [self.device(16 + 12 * each) for each in range(count)]
                return {"major": major, "minor": minor, "devices": found}
        raise Bad("no reply to a setup: a body of %d bytes" % size)

    def device(self, offset):
        kind, channels, has_line, zero, rate, horizon = self.unpack(DEVICE, offset)
        if kind > 3 or channels not in CHANNELS or has_line > 1 or zero or rate not in RATES or horizon != 4 * rate:
            raise Bad("no device in the reply to a setup")
        return {"type": TYPES[kind], "channels": channels, "has_line": has_line, "rate": rate, "horizon": horizon}


def order_of(octets):
    """The byte order in which bytes begin with the header of a message. If both would do, or none, it is big-endian."""
    for order in ORDERS.values():
        kind, detail, _, words = struct.unpack_from(order + HEAD, octets)
        if is_head(kind, detail, words):
            return order
    return BIG


def is_head(kind, detail, words):
    """Whether a client accepts these as the header of a message."""
    if kind == ERROR:
        return detail in ERRORS and words == 2
    if kind == EVENT:
        return detail in EVENTS and words == 3
    return kind == REPLY and (detail == 0 or 2 <= detail <= 12) and words <= 4002


def mu_law_level(octet):
    """The 16-bit sample that a byte of mu-law means (ITU-T G.711)."""
    low = ~octet & 0xFF
    level = ((low & 15) * 8 + 132 << (low >> 4 & 7)) - 132
    return -level if low & 0x80 else level


def a_law_level(octet):
    """The 16-bit sample that a byte of A-law means (ITU-T G.711)."""
    low = octet ^ 0x55
    segment, level = low >> 4 & 7, (low & 15) * 16 + 8
    level = level if segment == 0 else level + 256 << segment - 1
    return level if low & 0x80 else -level


MU_LAW = [mu_law_level(octet) for octet in range(256)]
A_LAW = [a_law_level(octet) for octet in range(256)]


def levels(kind, octets):
    """The 16-bit samples that bytes of a sample type mean. What is no whole sample at their end is passed over."""
    if kind == "mu255":
        return [MU_LAW[octet] for octet in octets]
    if kind == "alaw":
        return [A_LAW[octet] for octet in octets]
    count = len(octets) // WIDTHS[kind]
    # samples are big-endian whatever the order of a link; of 32 bits the upper 16 count
    return list(struct.unpack_from(">" + ("h" if kind == "lin16" else "hxx") * count, octets))
