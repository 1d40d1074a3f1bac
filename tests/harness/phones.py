"""Telephone lines of a server, each with a program that acts as the exchange, and the answering machine: what the trials of
tools/try-phone share. The program is tests/harness/phone_program.py."""

import os
import random
import socket
import struct
import subprocess
import sys
import tempfile
import threading
import time

import cards
import phone_program
from cards import Noted, audiofile, wait_for, waited
from serving import Tap
from wire import request

RATE = 8000
# a machine that does much else is late, in seconds
LATE = 2
SILENT_LINE = "device mu255 8000 0 line silent"
RING, HOOK, CURRENT, DIGIT = audiofile.Kind
# what the answering machine asks for before it waits
ASKS = request("SelectEvents", 0, mask=RING | HOOK)
# and what one that hears its caller asks for
HEARS = request("SelectEvents", 0, mask=RING | HOOK | CURRENT | DIGIT)


class Trial(cards.Trial):
    tool = "try-phone"

    def serve(self, *lines, folder=None, before=()):
        """A server with these devices and lines, in order: phones, or lines of a configuration."""
        folder = folder or tempfile.mkdtemp(dir=self.folder)
        if not os.path.exists(os.path.join(folder, "phone.py")):
            os.symlink(phone_program.__file__, os.path.join(folder, "phone.py"))
        return super().serve(*lines, folder=folder, before=before)


class Phone(Noted):
    """The telephone line of a device, whose program does what it is told."""

    def __init__(self, name, device=0, restarts=0, *options):
        self.name, self.device, self.restarts, self.options = name, device, restarts, options

    def line(self):
        return " ".join(["phone %d %d %s phone.py" % (self.device, self.restarts, sys.executable), self.name, *self.options])

    def give(self, octets, start=0):
        """Has it write these bytes at once. The moment at which it began to."""
        wait_for(lambda: self.told(start))
        before = len(self.given(start))
        self.order(octets)
        wait_for(lambda: len(self.given(start)) > before)
        return self.given(start)[-1][0] if len(self.given(start)) > before else None

    def say(self, *changes, start=0):
        """Has it write these lines."""
        return self.give("".join(it + "\n" for it in changes).encode(), start)

    def flood(self):
        self.order(phone_program.FLOOD)

    def end(self):
        self.order(b"")

    def order(self, octets):
        with socket.socket(socket.AF_UNIX, socket.SOCK_DGRAM) as link:
            link.sendto(octets, os.path.join(self.folder, "%s.says" % self.name))

    def given(self, start=0):
        return [it for it in self.told(start) if it[1].startswith("gave")]

    def handed(self, start=0):
        """The hooks that it was handed, each with its moment."""
        return [(moment, told.split()[1]) for moment, told in self.told(start) if told.startswith("handed")]

    def hooks(self, start=0):
        return [hook for _, hook in self.handed(start)]

    def is_handed(self, *hooks, start=0, seconds=10):
        """Waits until it was handed these hooks. Whether it was, and no other."""
        wait_for(lambda: len(self.hooks(start)) >= len(hooks), seconds)
        return self.hooks(start) == list(hooks)


class Watcher(threading.Thread):
    """A client that notes what lines do, each event as its name, its device and its value."""

    def __init__(self, server, *devices, kinds=RING | HOOK | CURRENT | DIGIT):
        super().__init__(daemon=True)
        self.connection, self.events = audiofile.connect(server.address, timeout=20), []
        for device in devices or (0,):
            self.connection.select(device, kinds)
        self.start()

    def run(self):
        try:
            for event in self.connection.events():
                self.events.append(event)
        except (audiofile.Error, OSError):
            pass

    def told(self, *kinds):
        """What it was told of these kinds, or all."""
        return [(it.kind.name, it.device, it.value) for it in list(self.events) if not kinds or it.kind.name in kinds]

    def is_told(self, *wanted, seconds=10):
        """Waits until it was told so much. Whether it was told that, in this order, and nothing else."""
        wait_for(lambda: len(self.events) >= len(wanted), seconds)
        return self.told() == list(wanted)

    def times(self, kind, value):
        """The times of the device at which this happened."""
        return [it.time for it in self.events if it.kind.name == kind and it.value == value]


def comes_back(trial, what, server, after):
    """Whether a program was started again so many seconds after its end, which is a second. The clock of a server that had to
    wait goes faster until it has caught up."""
    fits = 0.97 - min(waited(server.process.pid), 0.5) <= after <= 1 + 2 * LATE
    trial.holds("%s: it is started again after a second: %.3f s" % (what, after), fits)


def digits(text, device=0):
    """The events of these digits."""
    return [("DIGIT", device, ord(digit)) for digit in text]


def noise(seed, frames):
    """Frames of 16 bits, of which each is told from silence."""
    samples = random.Random(seed).choices([*range(-30000, -100), *range(100, 30000)], k=frames)
    return struct.pack(">%dh" % frames, *samples)


class Machine:
    """`af answer` at the line of device 0, as it waits for rings. Its commands are run in the folder of the server. Used with
    `with`, it is ended at the end."""

    asks = ASKS

    def __init__(self, trial, server, calls, greeting, message, *words):
        environment = {**os.environ, "AF": trial.af, "SERVER": server.address}
        tap = Tap(server.address)
        self.address = tap.address
        self.process = subprocess.Popen(
            [trial.af, "answer", tap.address, "--calls=%d" % calls, "--greeting", greeting, "--message", message, *words],
            cwd=server.folder, env=environment, stdin=subprocess.DEVNULL, stdout=subprocess.PIPE, stderr=subprocess.PIPE)
        trial.holds("the machine waits for rings", wait_for(lambda: tap.noted.endswith(self.asks)))
        # the server takes it as soon as it comes
        time.sleep(0.1)

    def __enter__(self):
        return self

    def __exit__(self, *_):
        if self.runs():
            self.process.terminate()
            self.process.communicate()

    def runs(self):
        return self.process.poll() is None

    def ended(self, seconds=20):
        """Its status, and what it wrote on both outputs."""
        try:
            said, faults = self.process.communicate(timeout=seconds)
        except subprocess.TimeoutExpired:
            return None, b"it does not end", b""
        return self.process.returncode, said, faults


class HearingMachine(Machine):
    """The same where it hears its caller."""

    asks = HEARS
