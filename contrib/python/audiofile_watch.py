"""Watches an AudioFile server as a client that only listens: its devices, levels, clocks, controls and lines, and what its log
says. It stands on the module `audiofile` beside it. contrib/audiofile-status shows what it finds, and contrib/audiofile-meter the
levels.

    watch = audiofile_watch.Watch("127.0.0.1:1701")
    watch.start()
    print(watch.told())

A watch looks for its server for ever, and again once that is gone. It sends CreateAC, GetTime, Record, QueryControls and
QueryPhone, so nothing that it does is heard, or changes anything for others.
"""

import array
import collections
import math
import re
import socket
import sys
import threading
import time

import audiofile

# how often a server is looked at, in seconds, while somebody asks, and while nobody has for so long
QUICK, CALM, ASKED = 0.05, 0.5, 3
# how long an answer may take, after what time a server that is gone is tried again, and how old controls may be, in seconds
PATIENCE, AGAIN, OLDEST = 3, 1, 0.25
# what a level is of, in seconds, and how many whole seconds make a minute
RECENT, MINUTE = 0.2, 60
# how many seconds of a clock are compared, how many it takes to tell a drift, and by how much a clock that goes on may differ
LONGEST, SHORTEST, JUMP = 900, 10, 0.5
# how many bytes a record has at most
MOST = 16000
# in what steps a device tells its time, in seconds
STEP = 0.001
# how much of a line of a log is read, and how often a file that has no more is read again, in seconds
LINE, REREAD = 4096, 0.5


class Clock:
    """The clock of a device beside that of this machine. How far it is ahead is noted once a second.

    The time of a device that a client is told was read a little before, so of the notes of a second the greatest is the best one.
    """

    def __init__(self, rate):
        self.rate, self.notes = rate, collections.deque(maxlen=LONGEST)

    def take(self, frames, moment):
        """So many frames have gone by at a moment of this machine."""
        ahead = frames / self.rate - moment
        if self.notes and abs(ahead - self.notes[-1][1]) > JUMP:
            self.notes.clear()
        if self.notes and int(moment) == int(self.notes[-1][0]):
            self.notes[-1] = max(self.notes[-1], (moment, ahead), key=lambda note: note[1])
        else:
            self.notes.append((moment, ahead))

    def drift(self):
        """By how many millionths the device is faster, how far that may be from the truth, and the seconds that it is of."""
        count = len(self.notes) - 1
        if count < SHORTEST:
            return None
        # the last second is not over
        notes = list(self.notes)[:-1]
        middle, mean = (sum(column) / count for column in zip(*notes))
        spread = sum((moment - middle) ** 2 for moment, _ in notes)
        slope = sum((moment - middle) * (ahead - mean) for moment, ahead in notes) / spread
        left = sum((ahead - mean - slope * (moment - middle)) ** 2 for moment, ahead in notes)
        # no note is better than the steps of the time
        error = 2 * math.sqrt(max(left / (count - 2), STEP ** 2 / 12) / spread)
        return {"millionths": slope * 1e6, "error": error * 1e6, "seconds": notes[-1][0] - notes[0][0]}


class Level:
    """The peaks of what was captured: those of just now, and the greatest of the last minute. There is one for each channel."""

    def __init__(self, channels):
        self.none = [0] * channels
        self.recent, self.seconds = collections.deque(), collections.deque(maxlen=MINUTE)

    def take(self, peaks, moment):
        self.recent.append((moment, peaks))
        while self.recent[0][0] < moment - RECENT:
            self.recent.popleft()
        if self.seconds and self.seconds[-1][0] == int(moment):
            self.seconds[-1] = int(moment), greatest(self.seconds[-1][1], peaks)
        else:
            self.seconds.append((int(moment), peaks))

    def now(self):
        return greatest(self.none, *(peaks for _, peaks in self.recent))

    def minute(self):
        return greatest(self.none, *(peaks for _, peaks in self.seconds))


def greatest(*rows):
    """The greatest of each column."""
    return [max(column) for column in zip(*rows)]


def peaks_of(octets, channels):
    """The greatest sample of each channel, without its sign: 0 to 32768."""
    samples = array.array("h", octets)
    if sys.byteorder == "little":
        samples.byteswap()
    each = (samples[channel::channels] for channel in range(channels))
    return [max(max(one), -min(one)) if one else 0 for one in each]


class DeviceWatch:
    """A device of a server, by a connection that is one's own."""

    def __init__(self, connection, device):
        self.connection, self.device = connection, device
        self.context = connection.context(device, "lin16")
        self.time = self.next = connection.time(device)
        self.frames, self.level, self.clock = 0, Level(device.channels), Clock(device.rate)
        self.controls = self.phone = None

    def listen(self):
        """Takes what was captured since the last time. What has left the horizon meanwhile is passed over."""
        most, is_whole = MOST // self.context.frame, False
        while not is_whole:
            now, octets = self.context.record(self.next, most, wait=False)
            moment = time.monotonic()
            waiting, count = audiofile.difference(now, self.next), len(octets) // self.context.frame
            passed = audiofile.difference(now, self.time)
            if passed < 0 or count != min(most, waiting):
                raise audiofile.BadReply("a time that goes back, or a record of other frames")
            self.frames += passed
            self.time = now
            self.clock.take(self.frames, moment)
            self.take(octets, moment)
            is_lost = waiting > self.device.horizon
            self.next = now if is_lost else audiofile.later(self.next, count)
            is_whole = is_lost or count < most

    def take(self, octets, moment):
        """Takes a piece of what was captured."""
        self.level.take(peaks_of(octets, self.device.channels), moment)

    def ask(self):
        """Takes the controls, and the flags of the line."""
        self.controls = self.connection.controls(self.device)
        self.phone = self.connection.phone(self.device) if self.device.has_line else None

    def told(self):
        return {
            **self.device._asdict(), "time": self.time, "frames": self.frames, "drift": self.clock.drift(),
            "captured": {"peaks": self.level.now(), "peaks_of_minute": self.level.minute()},
            "controls": self.controls._asdict(), "line": self.phone and self.phone._asdict()}


class Journal(threading.Thread):
    """The log of a server, which it writes to standard error and systemd to its journal. A file is read on as it grows."""

    def __init__(self, file):
        super().__init__(daemon=True)
        self.file, self.lock, self.is_over = file, threading.Lock(), False
        self.connections, self.lost, self.failed = {}, {}, {}
        self.turned_away = self.left_out = 0
        self.rows = (
            (r"listening at ", self.begin), (r"connection (\d{1,9}) from (.*)", self.connect),
            (r"connection (\d{1,9}) closed", self.close), (r"device (\d): .*?\b(\d{1,9}) frames were lost", self.lose),
            (r"device (\d) failed and (.*)", self.fail), (r"(\d{1,9}) turned away", self.turn_away),
            (r"(\d{1,9}) lines left out", self.leave_out))

    def run(self):
        is_file = self.file.seekable()
        rest = b""
        while True:
            piece = self.file.readline(LINE)
            rest += piece
            if rest.endswith(b"\n") or len(rest) >= LINE:
                self.take(rest.decode("utf-8", "replace"))
                rest = b""
            elif not piece and not is_file:
                self.is_over = True
                return
            elif not piece:
                time.sleep(REREAD)

    def take(self, line):
        """A line as the server wrote it, or with what a journal puts before it."""
        said = re.search(r"\bafd: (.*)", line)
        for pattern, act in self.rows if said else ():
            found = re.match(pattern, said[1])
            if found:
                with self.lock:
                    act(*found.groups())
                return

    def begin(self):
        """Another server than before, or the same once more."""
        self.connections, self.failed = {}, {}

    def connect(self, number, peer):
        self.connections[int(number)] = peer.strip()

    def close(self, number):
        self.connections.pop(int(number), None)

    def lose(self, device, frames):
        before = self.lost.get(int(device), (0, 0))
        self.lost[int(device)] = before[0] + int(frames), before[1] + 1

    def fail(self, device, what):
        self.failed[int(device)] = what.strip()

    def turn_away(self, count):
        self.turned_away += int(count)

    def leave_out(self, count):
        self.left_out += int(count)

    def told(self):
        with self.lock:
            connections = [{"number": number, "peer": peer} for number, peer in sorted(self.connections.items())]
            return {
                "connections": connections, "turned_away": self.turned_away, "lines_left_out": self.left_out, "is_over": self.is_over}

    def told_of(self, device):
        """The sound that a device has lost, and why it is dead, if it is."""
        with self.lock:
            frames, times = self.lost.get(device, (0, 0))
            return {"lost": {"frames": frames, "times": times}, "failed": self.failed.get(device)}


class Watch(threading.Thread):
    """Looks at a server, for ever. `told` gives what was seen last."""

    def __init__(self, address, journal=None):
        super().__init__(daemon=True)
        self.address, self.journal = address, journal
        self.is_up, self.reason, self.since, self.times_gone = False, "it was not looked for yet", time.time(), 0
        self.devices, self.asked, self.is_asked = [], -ASKED, threading.Event()

    def run(self):
        while True:
            try:
                with audiofile.connect(self.address, timeout=PATIENCE) as connection:
                    connection.patience = PATIENCE
                    self.watch(connection)
            except Exception as fault:
                # whatever a server does that it should not, it is looked for again
                self.lose(reason_of(fault))
            time.sleep(AGAIN)

    def watch(self, connection):
        """Looks until the server is gone."""
        devices = [DeviceWatch(connection, device) for device in connection.devices]
        old = 0
        while True:
            for device in devices:
                device.listen()
            if time.monotonic() - old > OLDEST:
                for device in devices:
                    device.ask()
                old = time.monotonic()
            if connection.next_event(timeout=0):
                raise audiofile.BadReply("an event that nobody asked for")
            self.find([device.told() for device in devices])
            self.is_asked.clear()
            if time.monotonic() - self.asked > ASKED:
                self.is_asked.wait(CALM)
            else:
                time.sleep(QUICK)

    def find(self, devices):
        if not self.is_up:
            self.since = time.time()
        self.devices, self.is_up, self.reason = devices, True, None

    def lose(self, reason):
        if self.is_up:
            self.times_gone += 1
            self.since = time.time()
        self.is_up, self.reason = False, reason

    def ask(self):
        """Somebody looks: the next seconds are shown as they are."""
        self.asked = time.monotonic()
        self.is_asked.set()

    def told(self):
        """What is known of the server. The devices of one that is gone are those that it had."""
        devices = [
            {**device, **(self.journal.told_of(device["number"]) if self.journal else {"lost": None, "failed": None})}
            for device in self.devices]
        return {
            "address": self.address, "is_up": self.is_up, "reason": self.reason, "since": self.since, "times_gone": self.times_gone,
            "devices": devices, "journal": self.journal and self.journal.told()}


def reason_of(fault):
    """Why a server is gone, in a few words."""
    if isinstance(fault, audiofile.BadReply):
        return "it is no AudioFile server: it sent %s" % fault
    if isinstance(fault, audiofile.Refused):
        return "it refused: %s" % fault.name
    if isinstance(fault, socket.timeout):
        return "it does not answer"
    if isinstance(fault, ConnectionRefusedError):
        return "connection refused"
    if isinstance(fault, audiofile.Ended) and not fault.errno:
        return "it ended the connection, or all its 32 places are taken"
    return getattr(fault, "strerror", None) or str(fault)
