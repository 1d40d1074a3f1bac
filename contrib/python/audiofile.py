"""A client of AudioFile servers, by Python's standard library alone. What goes over the wire is audiofile-protocol(7).

    with audiofile.connect("127.0.0.1:1701") as server:
        print(server.devices)
        start, frames, late = server.play(0, samples)
        start, recorded = server.record(0, seconds=2)

Sound is bytes, frame after frame. A frame has one sample for each channel of the device, the left one first. A sample has the
type of its context: "mu255" or "alaw" (one byte), "lin16" (two) or "lin32" (four, of which the upper 16 bits count). Samples have
their highest byte first in both orders of a connection. `samples_of` gives the numbers of "lin16", and `octets_of` their bytes.
The server converts between types, and does not resample.

A time counts the sample periods of a device, from 0 to 2^32 - 1, and wraps: `later` and `difference` reckon with times. Gains are
whole decibels from -30 to 30. A device is stated by its number, or by its entry of `devices`.

`Connection.times`, `plays` and `records` send several requests at once, and wait once for the way to the server and back. If some
are refused, the others are performed all the same, and then the first refusal is raised.

One thread at a time uses a connection. Each call that speaks to the server may raise:

- `Refused`: the server refused the request, and nothing has changed. The connection stays usable.
- `Ended`: the link ended or failed, or the connection was closed before.
- `BadReply`: what came is not of the protocol. The connection is closed.
- `ValueError`: a value is no type, or does not fit its field of the request. Nothing was sent.
"""

import array
import collections
import enum
import io
import itertools
import os
import socket
import struct
import sys
from time import monotonic

WIDTHS = {"mu255": 1, "alaw": 1, "lin16": 2, "lin32": 4}
TYPES = tuple(WIDTHS)
RATES = (8000, 11025, 16000, 22050, 32000, 44100, 48000)
MOST_PLAYED = 16368
# bytes in which the helpers play and record: whole frames of every type and of both numbers of channels
BLOCK = 8000
# how struct names an order, and how the setup of a connection in it begins
ORDERS = {"big": (">", b"AFB\0"), "little": ("<", b"AFl\0")}
ERRORS = "", "BadSetup", "BadValue", "BadDevice", "BadAC", "BadIDChoice", "BadMatch", "TooManyACs", "BadLine"
(SETUP, NO_OP, GET_TIME, CREATE_AC, CHANGE_AC, FREE_AC, PLAY, RECORD, SELECT_EVENTS, SET_CONTROLS, QUERY_CONTROLS, HOOK_SWITCH,
 QUERY_PHONE) = range(13)
ERROR, REPLY, EVENT = range(3)

Kind = enum.IntFlag("Kind", "RING HOOK CURRENT DIGIT")
Kind.__doc__ = "What an event is of. A mask of events is a sum of kinds."
Device = collections.namedtuple("Device", "number type channels rate horizon has_line")
Device.__doc__ = "A device. Its rate is in frames a second. Its horizon is how many frames of past and of future sound are kept."
Controls = collections.namedtuple("Controls", "input_on output_on input_gain output_gain")
Controls.__doc__ = "The switches of a device, and its gains in decibels."
Phone = collections.namedtuple("Phone", "wanted_off given_off ringing current dead")
Phone.__doc__ = "The flags of a telephone line. The hook that is wanted, and the one that was given last, may differ."
Event = collections.namedtuple("Event", "kind device time value")
Event.__doc__ = "What a line did, and when. 1 is begins or off the hook, 0 ends or on the hook; a digit is its ASCII code."
Played = collections.namedtuple("Played", "time frames late")
Played.__doc__ = "The time of the first frame, how many were sent, and how many of them came too late and were not heard."


class Error(Exception):
    """What the exceptions of this module have in common."""


class Refused(Error):
    """A request was refused: the name of the error, the value that was refused (a gain as its 16-bit pattern), and the opcode."""

    def __init__(self, name, value, opcode):
        super().__init__("refused: %s, value %d" % (name, value))
        self.name, self.value, self.opcode = name, value, opcode


class Ended(Error, ConnectionError):
    """The link ended or failed. It has an `errno` if the system said why."""


class BadReply(Error):
    """What came is no message, or not the awaited one."""


def later(time, frames):
    """The time so many frames after another, or before it if they are negative."""
    return (time + frames) % (1 << 32)


def difference(a, b):
    """How many frames the time a is after b, from -2^31 to 2^31 - 1."""
    return (a - b + (1 << 31)) % (1 << 32) - (1 << 31)


def samples_of(octets):
    """The samples of bytes of "lin16", as an array of numbers from -32768 to 32767."""
    found = array.array("h", octets)
    if sys.byteorder == "little":
        found.byteswap()
    return found


def octets_of(samples):
    """The bytes of "lin16" for such numbers."""
    made = array.array("h", samples)
    if sys.byteorder == "little":
        made.byteswap()
    return made.tobytes()


def connect(address=None, order="big", timeout=None):
    """A connection to the server at "HOST:PORT", or "[HOST]:PORT" for IPv6.

    Without an address it is that of the variable AUDIOFILE_SERVER. The order of numbers on the wire, "big" or "little", changes
    nothing for the caller. Connecting takes at most `timeout` seconds, and so does the setup. Raises OSError if there is no
    connection, `Ended` if the server has no place left, and ValueError for an address that is none.
    """
    if address is None:
        address = os.environ.get("AUDIOFILE_SERVER", "")
        if not address:
            raise ValueError("no address is stated, and AUDIOFILE_SERVER names none")
    host, _, port = address.rpartition(":")
    if not (host and port.isdecimal() and int(port) < 65536):
        raise ValueError("an address is HOST:PORT, and not %r" % address)
    link = socket.create_connection((host.strip("[]"), int(port)), timeout)
    try:
        # a request goes out at once, and does not wait until another was acknowledged
        link.setsockopt(socket.IPPROTO_TCP, socket.TCP_NODELAY, 1)
        return Connection(link, order, timeout)
    except BaseException:
        link.close()
        raise


class Connection:
    """A link that is set up, made by `connect`. Used with `with`, it is closed at the end.

    `devices` are those of the server, by their numbers. `refused` has a `Refused` for each play without a reply that was refused,
    as soon as a call has met it. `patience` is how many seconds an answer may take; None, as it is at first, is for ever. An
    answer that takes longer raises TimeoutError, and closes the connection.
    """

    def __init__(self, link, order="big", timeout=None):
        if order not in ORDERS:
            raise ValueError("an order is big or little, and not %r" % order)
        self._link, (self._letter, magic) = link, ORDERS[order]
        # the number of the last request, which the server counts too, and those since the last answer that want none
        self._number, self._unanswered = 0, set()
        # a number of a context is never used again: one that was freed does not play by the next
        self._contexts = itertools.count(1)
        self._received, self._events = bytearray(), collections.deque()
        self.devices, self.refused, self.patience = [], [], None
        self._call(link.sendall, None, magic + struct.pack(self._letter + "HH", 1, 0))
        body = self._answer(SETUP, None if timeout is None else monotonic() + timeout)
        major, minor, count = self._unpack("HHI", body[:8])
        self._check((major, minor) == (1, 0) and 1 <= count <= 8 and len(body) == 8 + 12 * count, "a reply to another setup")
        for number in range(count):
            code, channels, line, zero, rate, horizon = self._unpack("BBBBII", body[8 + 12 * number:20 + 12 * number])
            self._check(code < 4 and channels in (1, 2) and line < 2 and zero == 0, "a device of another kind")
            self._check(rate in RATES and horizon == 4 * rate, "a device of another rate")
            self.devices.append(Device(number, TYPES[code], channels, rate, horizon, bool(line)))

    def __enter__(self):
        return self

    def __exit__(self, *_):
        self.close()

    @property
    def closed(self):
        """Whether the connection was closed, by `close` or by a fault."""
        return self._link.fileno() < 0

    def close(self):
        """Closes the connection. What the server accepted of its plays is heard all the same."""
        self._link.close()

    def no_op(self):
        """Sends a request that does nothing and is not answered."""
        self._ask(NO_OP, is_answered=False)

    def time(self, device):
        """The time of a device now."""
        return self._unpack("I", self._ask(GET_TIME, _number(device)))[0]

    def times(self):
        """The times of all devices, by their numbers: those of one moment, however slow the network is."""
        bodies = self._ask_all(GET_TIME, [self._request(GET_TIME, device.number) for device in self.devices])
        return [self._unpack("I", body)[0] for body in bodies]

    def plays(self, plays):
        """Plays by several contexts of this connection. Each play is a context, a time and samples, as for `Context.play`.

        Returns the times of their devices, each once its play was taken.
        """
        requests = [self._request(PLAY, 0, *context._to_play(time, octets)) for context, time, octets in plays]
        return [self._unpack("I", body)[0] for body in self._ask_all(PLAY, requests)]

    def records(self, records, wait=True):
        """Records by several contexts of this connection. Each record is a context, a time and a number of frames.

        Returns for each what `Context.record` returns. If they wait, each waits for the one before it, too. If not, they give
        what was captured up to one moment.
        """
        records = [(context, time, frames * context.frame) for context, time, frames in records]
        requests = [
            self._request(RECORD, bool(wait), "III", context.number, time, wanted) for context, time, wanted in records]
        bodies = self._ask_all(RECORD, requests)
        return [self._recorded(body, context.frame, wanted, wait) for body, (context, _, wanted) in zip(bodies, records)]

    def context(self, device, type=None, play_gain=0, record_gain=0, preempt=False, channels=None):
        """A new `Context` on a device, of the device's type if none is stated. A connection has 16 at most.

        Plays of a context that preempts replace what was played before for the same times. Others are mixed with it.
        Channels that are stated are refused if they are not the device's.
        """
        number = _number(device)
        there = self.devices[number] if number in range(len(self.devices)) else None
        # also a device that is not there is asked for: the server refuses it as it does for the other requests
        channels, type = channels or (there.channels if there else 1), type or (there.type if there else TYPES[0])
        if type not in WIDTHS:
            raise ValueError("a type is one of %s, and not %r" % (", ".join(TYPES), type))
        context = Context(self, next(self._contexts), number, type, WIDTHS[type] * channels)
        fields = TYPES.index(type), channels, bool(preempt), play_gain, record_gain
        self._do(CREATE_AC, number, "IBBBxhh", context.number, *fields)
        return context

    def controls(self, device):
        """The `Controls` of a device, which all clients share."""
        input_on, output_on, zeros, *gains = self._unpack("BBHhh", self._ask(QUERY_CONTROLS, _number(device)))
        self._check(max(input_on, output_on) < 2 and zeros == 0 and max(map(abs, gains)) <= 30, "controls out of range")
        return Controls(bool(input_on), bool(output_on), *gains)

    def set_controls(self, device, input_gain=None, output_gain=None, input_on=None, output_on=None):
        """Changes the controls that are stated. They act on the frames from now on, also on what was played before."""
        switches, gains = (bool(input_on), bool(output_on)), (input_gain or 0, output_gain or 0)
        self._do(
            SET_CONTROLS, _number(device), "BBBxhh", _mask(input_gain, output_gain, input_on, output_on), *switches, *gains)

    def hook(self, device, off):
        """Has the line of a device taken off the hook, or put on it. A Hook event, or `phone`, says that this was done."""
        self._do(HOOK_SWITCH, _number(device), "I", bool(off))

    def phone(self, device):
        """The `Phone` of a device: the flags of its line."""
        *flags, zeros = self._unpack("5B3s", self._ask(QUERY_PHONE, _number(device)))
        self._check(max(flags) < 2 and zeros == bytes(3), "flags of a line out of range")
        return Phone(*map(bool, flags))

    def select(self, device, mask):
        """Replaces the kinds of events of a device that are told to this connection: a sum of `Kind`, or 0 for none."""
        self._do(SELECT_EVENTS, _number(device), "I", mask)

    def next_event(self, timeout=None):
        """The oldest `Event` that was not given yet. Waits for one, or for so many seconds; then the answer is None.

        Events that come before an answer are kept. The server drops a client that selects events and takes nothing for long.
        """
        deadline = None if timeout is None else monotonic() + timeout
        while not self._events:
            if not self._take(deadline):
                return None
        return self._events.popleft()

    def events(self, timeout=None):
        """Gives each event as it comes, until none has come for so many seconds. Without a timeout only `Ended` ends it."""
        return iter(lambda: self.next_event(timeout), None)

    def play(self, device, source, lead=0.25, time=None, type=None, gain=0, preempt=False, channels=None):
        """Plays bytes, or what a binary file has, block by block. Returns what was `Played`.

        It begins at a time, or so many seconds (`lead`) after the first block is read. The call lasts until at most four seconds
        are left to be heard. Bytes at the end that make no whole frame are dropped.
        """
        file = source if hasattr(source, "read") else io.BytesIO(source)
        with self.context(device, type, play_gain=gain, preempt=preempt, channels=channels) as context:
            frames = late = 0
            block = _read(file, context.frame)
            if time is None:
                time = later(self.time(device), round(lead * self.devices[context.device].rate))
            while block:
                at, count = later(time, frames), len(block) // context.frame
                late += min(max(difference(context.play(at, block), at), 0), count)
                frames += count
                block = _read(file, context.frame)
            return Played(time, frames, late)

    def record(self, device, seconds=None, frames=None, time=None, type=None, gain=0, channels=None):
        """Records so many seconds, or frames, from a time on, or from now. Waits for all of them.

        Returns the time of the first frame, and the bytes. What is older than the horizon is silence.
        """
        if (seconds is None) == (frames is None):
            raise ValueError("either seconds or frames are needed")
        with self.context(device, type, record_gain=gain, channels=channels) as context:
            frames = round(seconds * self.devices[context.device].rate) if frames is None else frames
            time = self.time(device) if time is None else time
            most = BLOCK // context.frame
            return time, b"".join(context.record(later(time, at), min(most, frames - at))[1] for at in range(0, frames, most))

    # What follows is the wire.

    def _do(self, *request):
        """Sends a request whose reply is empty."""
        self._check(not self._ask(*request), "a body where none is due")

    def _ask(self, opcode, detail=0, form="", *fields, is_answered=True):
        """Sends a request, and gives the body of its reply."""
        return self._ask_all(opcode, [self._request(opcode, detail, form, *fields)], is_answered)[0]

    def _request(self, opcode, detail=0, form="", *fields):
        """The bytes of a request."""
        try:
            body = struct.pack(self._letter + form, *fields)
            body += bytes(-len(body) % 4)
            return struct.pack(self._letter + "BBH", opcode, detail, 1 + len(body) // 4) + body
        except struct.error as fault:
            raise ValueError("a value does not fit: %s" % fault) from None

    def _ask_all(self, opcode, requests, is_answered=True):
        """Sends requests of one kind at once, and gives the bodies of their replies."""
        try:
            self._call(self._link.sendall, None, b"".join(requests))
            answers = [self._answered(opcode, is_answered) for _ in requests]
        except BaseException:
            # also if the caller is interrupted: the answers would be met by the next request
            self.close()
            raise
        for answer in answers:
            if isinstance(answer, Refused):
                raise answer
        return answers

    def _answered(self, opcode, is_answered):
        """The body of the reply to the next request of those that were sent, or its refusal. None if it has no answer."""
        self._number = (self._number + 1) % 65536
        if is_answered:
            # numbers wrap: one of these may be that of a play before
            self._unanswered.discard(self._number)
            try:
                return self._answer(opcode)
            except Refused as refusal:
                return refusal
        self._unanswered.add(self._number)
        # takes what is there, since the server does not serve a client that reads nothing
        while self._take(monotonic()):
            pass
        return None

    def _answer(self, opcode, deadline=None):
        """The body of the reply to the last request."""
        if deadline is None and self.patience is not None:
            deadline = monotonic() + self.patience
        while True:
            message = self._message(deadline)
            # a server that tells of events without an end does not answer either
            if message is None or deadline is not None and monotonic() > deadline:
                raise socket.timeout("the server does not answer")
            if self._is_kept(*message):
                continue
            kind, detail, number, body = message
            refusal = self._refusal(detail, body) if kind == ERROR else None
            answered = refusal.opcode if refusal else detail
            self._check((number, answered) == (self._number, opcode), "an answer to another request")
            self._unanswered.clear()
            if refusal:
                raise refusal
            return body

    def _take(self, deadline):
        """Takes a message that no request waits for. Whether one came before the deadline."""
        message = self._message(deadline)
        self._check(message is None or self._is_kept(*message), "an answer to no request")
        return message is not None

    def _is_kept(self, kind, detail, number, body):
        """Keeps an event, or the refusal of a play that wants no reply. Whether the message was one."""
        if kind == EVENT:
            device, time, value = self._unpack("III", body)
            self._check(device < 8 and (value < 2 or detail == Kind.DIGIT), "an event out of range")
            self._events.append(Event(Kind(detail), device, time, value))
        elif kind == ERROR and number in self._unanswered:
            self.refused.append(self._refusal(detail, body))
        else:
            return False
        return True

    def _recorded(self, body, frame, wanted, wait):
        """The time and the bytes of the reply to a record of so many bytes."""
        now, count = self._unpack("II", body[:8])
        is_good = count == wanted if wait else count <= wanted and count % frame == 0
        self._check(is_good and body[8 + count:] == bytes(-count % 4), "a record of other bytes")
        return now, body[8:8 + count]

    def _refusal(self, code, body):
        value, opcode, zeros = self._unpack("IB3s", body)
        self._check(zeros == bytes(3), "an error with more in it")
        return Refused(ERRORS[code], value, opcode)

    def _message(self, deadline):
        """The kind, detail, number and body of the next message. None if it is not whole at the deadline, and then it is kept."""
        if not self._fill(8, deadline):
            return None
        kind, detail, number, words = struct.unpack_from(self._letter + "BBHI", self._received)
        is_message = (
            kind == ERROR and 1 <= detail <= 8 and words == 2 or kind == EVENT and detail in (1, 2, 4, 8) and words == 3
            or kind == REPLY and detail <= QUERY_PHONE and detail != NO_OP and words <= 4002)
        self._check(is_message, "no message: " + self._received[:8].hex())
        size = 8 + 4 * words
        if not self._fill(size, deadline):
            return None
        body = bytes(self._received[8:size])
        del self._received[:size]
        return kind, detail, number, body

    def _fill(self, size, deadline):
        """Reads until so many bytes are there. Whether that is so at the deadline."""
        while len(self._received) < size:
            piece = self._call(self._link.recv, None if deadline is None else max(0, deadline - monotonic()), 65536)
            if piece is None:
                return False
            if not piece:
                self.close()
                raise Ended("the server ended the link")
            self._received += piece
        return True

    def _call(self, call, timeout, argument):
        """What a call of the socket gives. None if it takes longer than so many seconds; if it fails, the link has ended."""
        if self.closed:
            raise Ended("the connection is closed")
        try:
            self._link.settimeout(timeout)
            return call(argument)
        except OSError as fault:
            if timeout is not None and isinstance(fault, (socket.timeout, BlockingIOError)):
                return None
            self.close()
            raise Ended(*fault.args) from fault

    def _unpack(self, form, octets):
        self._check(len(octets) == struct.calcsize("=" + form), "a body of %d bytes" % len(octets))
        return struct.unpack(self._letter + form, octets)

    def _check(self, is_so, text):
        if not is_so:
            self.close()
            raise BadReply(text)


class Context:
    """What sound of a device is played and recorded by, made by `Connection.context`. Used with `with`, it is freed at the end.

    `device` is the number of the device, `type` that of the samples, and `frame` how many bytes a frame has.
    """

    def __init__(self, connection, number, device, type, frame):
        self.connection, self.number, self.device, self.type, self.frame = connection, number, device, type, frame

    def __enter__(self):
        return self

    def __exit__(self, *_):
        if not self.connection.closed:
            self.free()

    def play(self, time, samples, reply=True):
        """Plays frames from a time on, 16368 bytes at most. Returns the device's time once they are taken, or None if no reply is
        wanted.

        Frames for times before that came too late, and are not heard. A play that ends more than the horizon ahead waits.
        """
        if reply:
            return self.connection.plays([(self, time, samples)])[0]
        self.connection._ask(PLAY, True, *self._to_play(time, samples), is_answered=False)

    def record(self, time, frames, wait=True):
        """Records frames from a time on, 16000 bytes at most. Returns the device's time, and the bytes.

        It waits until the last frame was captured. If it shall not, it gives those that were: fewer then, or none.
        """
        return self.connection.records([(self, time, frames)], wait)[0]

    def change(self, play_gain=None, record_gain=None, preempt=None):
        """Changes what is stated, for plays and records from now on."""
        fields = bool(preempt), play_gain or 0, record_gain or 0
        self.connection._do(CHANGE_AC, _mask(play_gain, record_gain, preempt), "IBxxxhh", self.number, *fields)

    def free(self):
        """Takes the context away. What was played by it stays."""
        self.connection._do(FREE_AC, 0, "I", self.number)

    def _to_play(self, time, samples):
        """What a request to play these samples has in it."""
        samples = memoryview(samples).tobytes()
        if len(samples) > MOST_PLAYED:
            raise ValueError("a play has at most %d bytes, and not %d" % (MOST_PLAYED, len(samples)))
        return "III%ds" % len(samples), self.number, time, len(samples), samples


def _number(device):
    return getattr(device, "number", device)


def _mask(*values):
    """A bit for each value that is stated, the lowest for the first."""
    return sum(1 << place for place, value in enumerate(values) if value is not None)


def _read(file, frame):
    """The next block of whole frames. A pipe may give less at once than it is asked for."""
    block = b""
    while len(block) < BLOCK:
        piece = file.read(BLOCK - len(block))
        if not piece:
            break
        block += piece
    return block[:len(block) - len(block) % frame]
