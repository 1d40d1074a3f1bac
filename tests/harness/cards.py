"""Devices whose time is that of a program, what is played to them and recorded from them, and how the two are compared: what the
trials of tools/try-cards share. The program is tests/harness/card_program.py. Those of tools/try-phone go by the same trial."""

import contextlib
import multiprocessing
import os
import re
import struct
import sys
import tempfile
import threading
import time

import card_program
from serving import ROOT, WORD, Server, Trials

sys.path.append(os.path.join(ROOT, "contrib", "python"))
import audiofile

# one server at a time looks for a free port, and begins to listen there
BEGINS = multiprocessing.Lock()
# the sound that is played, beside that of a program's starts
PLAYED = 100
# what is put before a server that keeps a log
LOGGED = ("env", "AUDIOFILE_DETAILS=1")
# how far ahead is played, in seconds: a machine that does much else is to be in time too
LEAD = 1.5


class Noted:
    """A program that notes what happens, in files of its name and the number of its start, in the server's folder."""

    def lies_in(self, folder):
        self.folder = folder

    def got(self, what, start=0):
        """What a start of the program left in a file. Nothing if there was no such start."""
        try:
            with open(os.path.join(self.folder, "%s.%s.%d" % (self.name, what, start)), "rb") as file:
                return file.read()
        except OSError:
            return b""

    def told(self, start=0):
        """What it told, each with its moment."""
        lines = [line.split(None, 1) for line in self.got("told", start).decode().splitlines()]
        return [(float(moment), what) for moment, what in lines]

    def moment(self, what, start=0):
        """When it told this first."""
        return next((moment for moment, told in self.told(start) if told.startswith(what)), None)

    def process(self, start=0):
        """The number of its process, for which the answer waits."""
        wait_for(lambda: self.told(start))
        told = self.told(start)
        return int(told[0][1].split()[1]) if told else None


class Card(Noted):
    """A device of a type, with its rate and its channels. Its program has a name, and behaves by the words of card_program.py."""

    def __init__(self, name, type, rate, channels=1, kind="card", restarts=0, start=0, **words):
        self.name, self.type, self.rate, self.channels, self.kind = name, type, rate, channels, kind
        self.restarts, self.start, self.words = restarts, start, words
        self.width = audiofile.WIDTHS[type] * channels
        self.is_coded = type == "mu255"
        self.silence = b"\xff" if self.is_coded else b"\0"

    def line(self):
        """Its line of the configuration."""
        kept = {"speaker": {"gives": "no"}, "microphone": {"takes": "no"}, "card": {}}[self.kind]
        # a command line has eight words at most
        options = ",".join([*("%s=%s" % it for it in {**kept, **self.words}.items()), *["coded"] * self.is_coded])
        program = "%s card.py name=%s,rate=%d,width=%d %s" % (sys.executable, self.name, self.rate, self.width, options)
        shape = "%s %d %d%s" % (self.type, self.rate, self.start, " stereo" if self.channels == 2 else "")
        return "device %s %s %d %s" % (shape, self.kind, self.restarts, program)

    def counts(self, start=0):
        """How many frames it was about to give, how many it had given, and how many bytes it had taken."""
        counts = self.got("count", start)
        return struct.unpack("<3Q", counts) if len(counts) == 24 else (0, 0, 0)

    def starved(self, server, start=0):
        """For how many seconds it and the server did not run, since the machine did something else."""
        return waited(server.process.pid) + sum(float(what.split()[1]) for _, what in self.told(start) if what.startswith("away"))

    def sound(self, frames, start=0, first=0):
        """The frames that a start of the program gives."""
        return card_program.sound(self.width, start, first, frames, self.is_coded)

    def silent(self, frames):
        return self.silence * (frames * self.width)

    def place(self, moment):
        """How many frames a time is after the first one."""
        return (moment - self.start) % WORD


class Watched(Server):
    """A server that notes for how many seconds it had to wait for a processor."""

    starved = 0

    def end(self):
        self.starved = waited(self.process.pid) or self.starved
        return super().end()


class Trial(Trials):
    """What is tried by a function, with a folder of its own. What was not so is told at the end."""

    tool = "try-cards"

    def __init__(self, name, afd, af):
        self.room = tempfile.TemporaryDirectory()
        super().__init__(self.tool, afd, af, self.room.name)
        self.trial, self.told, self.servers, self.begun = name, [], [], waited(os.getpid()) + stolen()

    def holds(self, what, true):
        self.trials += 1
        if not true:
            self.faults += 1
            self.told.append("not so: %s: %s" % (self.trial, what))

    def starved(self):
        """For how many seconds it and its servers had to wait for a processor, and other machines had the processors of this
        one."""
        return sum(server.starved for server in self.servers) + waited(os.getpid()) + stolen() - self.begun

    def serve(self, *devices, before=(), folder=None):
        """A server with these devices, in order: what notes, or lines."""
        folder = folder or tempfile.mkdtemp(dir=self.folder)
        if not os.path.exists(os.path.join(folder, "card.py")):
            os.symlink(card_program.__file__, os.path.join(folder, "card.py"))
        for it in devices:
            if isinstance(it, Noted):
                it.lies_in(folder)
        with BEGINS:
            server = Watched(self.afd, folder, [it.line() if isinstance(it, Noted) else it for it in devices], before)
        self.servers.append(server)
        return server

    def ends(self, server, is_logged=False):
        """Ends a server that runs. It said nothing unless it keeps a log, and neither did its programs."""
        runs, is_silent = server.process.poll() is None, server.end()
        server.said.seek(0)
        said = b"" if is_logged else server.said.read()[:200]
        self.holds("the server runs, and says nothing: %s" % said, runs and (is_logged or is_silent))


def told_lost(server):
    """How many frames of sound the log of a server says that a program had no room for."""
    # the server writes on at the place of this file
    said = os.pread(server.said.fileno(), 1 << 20, 0)
    return sum(int(frames) for frames in re.findall(rb"its program had no room, and (\d+) frames were lost\n", said))


def wait_for(is_so, seconds=10):
    """Waits until something is so, for so many seconds at most. Whether it is."""
    begun = time.monotonic()
    while not is_so():
        if time.monotonic() - begun > seconds:
            return False
        time.sleep(0.01)
    return True


def waited(*processes):
    """How many seconds processes had to wait for a processor, where the system tells."""
    nanoseconds = 0
    for process in processes:
        with contextlib.suppress(OSError):
            with open("/proc/%d/schedstat" % process) as file:
                nanoseconds += int(file.read().split()[1])
    return nanoseconds / 1e9


def stolen():
    """For how many seconds other machines had a processor of this one, on average, where the system tells."""
    with contextlib.suppress(OSError, IndexError):
        with open("/proc/stat") as file:
            ticks = int(file.readline().split()[8])
        return ticks / os.sysconf("SC_CLK_TCK") / (os.cpu_count() or 1)
    return 0


class Client(threading.Thread):
    """A client that does one thing beside others. What it gave is `answer`, once it was joined."""

    def __init__(self, server, call, *words, **named):
        super().__init__(daemon=True)
        self.address, self.call, self.words, self.named, self.answer, self.fault = server.address, call, words, named, None, None
        self.start()

    def run(self):
        try:
            with audiofile.connect(self.address, timeout=20) as connection:
                self.answer = getattr(connection, self.call)(*self.words, **self.named)
        except (OSError, ValueError, audiofile.Error) as fault:
            self.fault = fault

    def given(self, trial):
        """What it gave, or None after a fault, which is told."""
        self.join()
        trial.holds("a client is served: %s" % self.fault, self.fault is None)
        return self.answer


def recording(server, device, card, seconds):
    """Begins to record from the first frame on."""
    return Client(server, "record", device, frames=round(seconds * card.rate), time=card.start)


def playing(server, device, card, seconds, lead=LEAD):
    """Begins to play frames that are counted."""
    return Client(server, "play", device, card.sound(round(seconds * card.rate), PLAYED), lead)


def left_out(heard, wanted, width):
    """How many of the expected frames are missing in what was heard, which may end earlier. None if it differs otherwise."""
    at = place = 0
    while at < len(heard):
        same = common(heard, at, wanted, place)
        # frames that differ may begin alike
        same -= same % width if at + same < len(heard) else 0
        at, place = at + same, place + same
        if at < len(heard):
            found = wanted.find(heard[at:at + 64 * width], place)
            if found < 0 or (found - place) % width:
                return None
            place = found
    return (place - at) // width


def common(one, at, other, place):
    """How many bytes two texts have in common from these places on."""
    size, count = 65536, 0
    while size:
        first, second = one[at + count:at + count + size], other[place + count:place + count + size]
        if first and first == second:
            count += len(first)
        else:
            size //= 2
    return count


def emitted(card, played, sound, frames):
    """What left a device, of which this was played: so many frames."""
    place = card.place(played.time)
    whole = card.silent(place) + sound + card.silent(max(0, frames - place - len(sound) // card.width))
    return whole[:frames * card.width]


def is_captured(trial, card, recorded, start=0):
    """Whether what was recorded are the frames that the program gave."""
    frames = len(recorded) // card.width
    is_same = recorded == card.sound(frames, start)
    trial.holds("%s: what the program gave is captured, each frame once: %d frames" % (card.name, frames), is_same)


def is_thinned(trial, server, card, what, heard, wanted, start=0):
    """Whether a program was handed all that is wanted. It may have lost as much as it or the server was starved."""
    # where some was lost, what follows came early
    lost, starved = left_out(heard, wanted + card.silent(len(heard)), card.width), card.starved(server, start)
    told = "%s: %s: %s frames left out of %d, starved for %.2f s" % (card.name, what, lost, len(heard) // card.width, starved)
    # where the machine had time for both, nothing is lost: less than the sockets hold does no harm
    trial.holds(told, heard and lost is not None and lost <= (starved * card.rate if starved > 0.1 else 0))


def is_handed(trial, server, card, played, seconds, after=0.5):
    """Whether the program was handed what left the device, frame by frame."""
    sound = card.sound(round(seconds * card.rate), PLAYED)
    frames = card.place(played.time) + len(sound) // card.width
    trial.holds("%s: no frame is played too late: %d" % (card.name, played.late), played.late == 0)
    wait_for(lambda: card.counts()[2] >= (frames + round(after * card.rate)) * card.width)
    heard = card.got("heard")[:frames * card.width]
    is_thinned(trial, server, card, "the program is handed what left the device", heard, emitted(card, played, sound, frames))
    trial.holds("%s: it is handed all: %d bytes" % (card.name, len(heard)), len(heard) == frames * card.width)
