"""What clients that flood cost others: what tools/bench-server and tools/try-guests measure with --floods.

A server has three devices: one for the floods, one over files, and a loudspeaker with a tenth of a second of sound of its own
(buffered_speaker.py). Up to 31 clients flood (bench.d/flood.c). Meanwhile one client after the other asks for the time of the
second device, plays to it, and connects again and again, since a server has 32 places. For try-guests one only asks for times. How far that device lags, what it lacks of
the play, and what the loudspeaker lacks is looked up in their files, so that no answer of the server has a part in it.
"""

import contextlib
import dataclasses
import multiprocessing
import os
import select
import shutil
import signal
import statistics
import struct
import subprocess
import sys
import tempfile
import threading
import time
from dataclasses import dataclass

import buffered_speaker
from cards import wait_for, waited
from measures import Sound
from serving import HALF, ROOT, SETUP, WORD, Server, asked_time, connect, received
from wire import request

# the kinds of floods, as flood.c and as a reader know them
KINDS = {"records": "Records that are taken", "times": "GetTimes", "lin16": "Plays of lin16", "mu255": "Plays of mu-law",
         "noops": "NoOps", "refused": "refused Plays"}
# the number of the device over files, which is neither flooded nor the loudspeaker, and the sound of it and of the loudspeaker
LIVE = 1
SPEECH = Sound("8 kHz lin16", "lin16", 8000, often=50)
MUSIC = Sound("44.1 kHz lin16 stereo", "lin16", 44100, 2)
# how much sound the loudspeaker has of its own, in frames, and how far ahead is played live, in seconds
BUFFER, LEAD = MUSIC.rate // 10, 0.15
# how long nothing happens before a flood, and how long each client goes on if it is not stated, in seconds
CALM, SECONDS = 1, 3
# a client waits no longer for an answer: one that has not come by then counts as if it came now. Nothing else takes longer than
# the second one
LONGEST, PATIENCE = 10, 50
# for how long a process is stopped
STOPPED = 1
# two readings of the clock around a look at a file are no further apart, else the look does not count
MOMENT = 0.0005


def compiled(folder):
    """The program that floods. None: there is no C compiler."""
    compiler = next(filter(None, map(shutil.which, ("gcc", "clang", "cc"))), None)
    if compiler is None:
        return None
    flood = os.path.join(folder, "flood")
    subprocess.run([compiler, "-O2", "-o", flood, os.path.join(ROOT, "tools", "bench.d", "flood.c")], check=True)
    return flood


def devices(loud, buffered):
    speaker = "%s speaker.py counts %d %d %d" % (sys.executable, loud.rate, loud.width(), buffered)
    return ["device lin16 44100 0 silent", "device lin16 %d 0 files /dev/null out" % SPEECH.rate,
            "device lin16 %d 0 %sspeaker 0 %s" % (loud.rate, "stereo " * (loud.channels - 1), speaker)]


@dataclass(frozen=True)
class Figures:
    """What was measured beside a flood. Times are in milliseconds."""

    # 99 of 100 GetTimes, and of 100 connections to the reply to their setup, take at most so long
    reply: float
    setup: float
    # how far the time of a device lagged at most, by the clock of the system
    lag: float
    # how many frames a loudspeaker and a live player lack, and how many they should have
    missing: int
    due: int
    late: int
    played: int
    # how many of these the player could not send, or were late by its replies: as many, where it waited in vain for a reply
    told: int
    # the megabytes that all flooding clients sent and took in a second
    sent: float
    taken: float
    # the seconds for which the server and the loudspeaker waited for a processor
    starved: float


class Flood:
    """Clients that flood. Used with `with`, all of them have begun, and they are ended at the end."""

    def __init__(self, flood, server, kind, clients, seconds):
        self.words = [flood, server.address, kind, str(clients), str(seconds)]

    def __enter__(self):
        self.process = subprocess.Popen(self.words, stdout=subprocess.PIPE, bufsize=0)
        if not select.select([self.process.stdout], [], [], PATIENCE)[0] or self.process.stdout.readline() != b"floods\n":
            self.__exit__()
            raise OSError("the flood does not begin")
        return self

    def __exit__(self, *_):
        self.process.kill()
        self.process.wait()
        self.process.stdout.close()

    def end(self):
        """Ends it. The answer is how many bytes it sent and took, and in how many seconds."""
        self.process.terminate()
        said = self.process.communicate(timeout=PATIENCE)[0].split()
        if self.process.returncode:
            raise OSError("the flood ended with status %d" % self.process.returncode)
        return int(said[1]), int(said[3]), float(said[5])


class Silence:
    """No flood."""

    def __enter__(self):
        return self

    def __exit__(self, *_):
        pass

    def end(self):
        return 0, 0, 1


class Clock:
    """How far the time of a device over files lags, by the clock of the system. The size of its file says so without asking the
    server."""

    def __init__(self, server):
        self.path, self.seen = os.path.join(server.folder, "out"), []

    def look(self):
        before, size, after = time.monotonic(), os.stat(self.path).st_size, time.monotonic()
        if after - before < MOMENT:
            self.seen.append((after, after - size / SPEECH.width() / SPEECH.rate))
        time.sleep(0.001)

    def look_for(self, seconds):
        ends = time.monotonic() + seconds
        while time.monotonic() < ends:
            self.look()

    def lag(self, since):
        """By how many milliseconds it lagged at most since a moment. When it was furthest, it did not lag."""
        return 1000 * (max(begun for moment, begun in self.seen if moment >= since) - min(begun for _, begun in self.seen))


# what one client does. Each has a process of its own, and tells what it came to


def admitted(address):
    """A link that is set up. Also how many milliseconds that took: where the place of the client before is not free yet, it is
    tried again, and what went before does not count."""
    while True:
        begun, link = time.monotonic(), connect(address)
        link.settimeout(LONGEST)
        try:
            link.sendall(SETUP)
            head = received(link, 8)
            if len(head) == 8:
                received(link, 4 * int.from_bytes(head[4:], "big"))
                return link, 1000 * (time.monotonic() - begun)
        except ConnectionError:
            pass
        except BaseException:
            link.close()
            raise
        link.close()
        time.sleep(0.01)


def most_of(took):
    """What 99 of 100 take at most."""
    return sorted(took)[len(took) * 99 // 100]


def timed(asked, seconds):
    """What 99 of 100 of the same take at most, each a millisecond after the last, in milliseconds."""
    took, ends = [], time.monotonic() + seconds
    try:
        while not took or time.monotonic() < ends:
            time.sleep(0.001)
            took.append(asked())
    except TimeoutError:
        took.append(1000 * LONGEST)
    return most_of(took)


def asks(address, seconds):
    """Asks for the time of a device: what 99 of 100 replies take at most."""
    def asked():
        begun = time.monotonic()
        asked_time(link, LIVE)
        return 1000 * (time.monotonic() - begun)
    try:
        link = admitted(address)[0]
    except TimeoutError:
        return 1000 * LONGEST
    with link:
        return timed(asked, seconds)


def connects(address, seconds):
    """Connects again and again: what 99 of 100 setups take at most."""
    def connected():
        link, took = admitted(address)
        link.close()
        return took
    return timed(connected, seconds)


def counted(frames):
    """Sound for the device over files, of which each frame is told from silence and from those before it."""
    return struct.pack(">%dH" % frames, *(1 + number % 65535 for number in range(frames)))


def plays(address, seconds):
    """Plays a live source, which gives a block each 20 milliseconds, and takes each reply before it sends the next block, as af
    does. It tells the time of its first frame, or None if it was told no time, and how many frames came too late by the replies.
    None if there is a block that had none."""
    start, frames, late, sent = None, round(seconds * SPEECH.rate), 0, 0
    sound = counted(frames)
    try:
        with admitted(address)[0] as link:
            link.sendall(SPEECH.context(LIVE))
            received(link, 8)
            begun = time.monotonic()
            start = asked_time(link, LIVE) + round(LEAD * SPEECH.rate)
            while sent < frames and time.monotonic() < begun + 2 * seconds:
                time.sleep(max(0, begun + sent / SPEECH.rate - time.monotonic()))
                block = sound[sent * SPEECH.width():][:SPEECH.size()]
                link.sendall(request("Play", data=block, context=1, time=(start + sent) % WORD))
                now = int.from_bytes(received(link, 12)[8:12], "big")
                after = (now - start - sent) % WORD
                late += min(after, len(block) // SPEECH.width()) if after < HALF else 0
                sent += len(block) // SPEECH.width()
    except TimeoutError:
        return start, None
    return start, late + frames - sent


def tell(there, work, address, seconds):
    there.send(work(address, seconds))


def apart(work, address, seconds, meanwhile, stopped=None):
    """What a client comes to in a process of its own, while something else is done. It may be stopped meanwhile, or the server:
    the answer of `stopped` to the number of its process."""
    here, there = multiprocessing.Pipe(False)
    process = multiprocessing.Process(target=tell, args=(there, work, address, seconds), daemon=True)
    process.start()
    there.close()
    if stopped:
        threading.Thread(target=stop, args=(stopped(process.pid), seconds / 3), daemon=True).start()
    ends = time.monotonic() + 3 * seconds + PATIENCE
    try:
        while not here.poll() and time.monotonic() < ends:
            meanwhile()
        if here.poll():
            return here.recv()
    except EOFError:
        pass
    finally:
        process.kill()
        process.join()
        here.close()
    raise OSError("a client fails beside the flood")


def stop(process, after):
    """Has a process stand still for a second."""
    time.sleep(after)
    # it may have ended
    with contextlib.suppress(ProcessLookupError):
        os.kill(process, signal.SIGSTOP)
        time.sleep(STOPPED)
        os.kill(process, signal.SIGCONT)


def sounded(server):
    """How many frames were due of the loudspeaker until now, and how many of them were missing."""
    try:
        counts = server.got("counts")
    except OSError:
        counts = b""
    return struct.unpack("<2Q", counts) if len(counts) == 16 else (0, 0)


def lacking(server, start, frames):
    """How many frames of the live player its device did not hand out at their times."""
    width = SPEECH.width()
    if not wait_for(lambda: os.stat(os.path.join(server.folder, "out")).st_size >= width * (start + frames), PATIENCE):
        raise OSError("a device does not hand out what was played")
    out, sound = server.got("out")[width * start:width * (start + frames)], counted(frames)
    return sum(out[at:at + width] != sound[at:at + width] for at in range(0, len(sound), width))


def waiting(server):
    """How many seconds the server and the loudspeaker waited for a processor."""
    with open("/proc/%d/task/%d/children" % (server.process.pid, server.process.pid)) as file:
        return waited(server.process.pid, *map(int, file.read().split()))


@contextlib.contextmanager
def serving(afd, folder, loud=MUSIC, buffered=BUFFER):
    """A server whose loudspeaker has this kind of sound, and so many frames of its own. Used with `with`, it is ended at the end,
    and the loudspeaker sounds before that begins."""
    folder = tempfile.mkdtemp(dir=folder)
    os.symlink(buffered_speaker.__file__, os.path.join(folder, "speaker.py"))
    with Server(afd, folder, devices(loud, buffered)) as server:
        if not wait_for(lambda: sounded(server)[0] > 0, PATIENCE):
            raise OSError("the loudspeaker does not sound")
        yield server


@dataclass(frozen=True)
class ShortFigures:
    """What was measured beside a flood in little time: some of `Figures`."""

    reply: float
    lag: float
    missing: int
    due: int
    starved: float


def shortly(afd, folder, flood, kind, clients, seconds, buffered):
    """The same, where only one other client asks for times. The loudspeaker has so many seconds of sound of its own, at 8 kHz: of
    that more lies before it, so that it is served more seldom."""
    with serving(afd, folder, SPEECH, round(buffered * SPEECH.rate)) as server:
        clock = Clock(server)
        clock.look_for(CALM)
        with Flood(flood, server, kind, clients, 10 * seconds + PATIENCE) if clients else Silence() as flooding:
            begun, before, starved = time.monotonic(), sounded(server), waiting(server)
            reply = apart(asks, server.address, seconds, clock.look)
            due, missing = (now - then for now, then in zip(sounded(server), before))
            figures = ShortFigures(reply, clock.lag(begun), missing, due, waiting(server) - starved)
            flooding.end()
    return figures


def beside(afd, folder, flood, kind, clients, seconds=SECONDS, stops=None):
    """The figures of a server beside so many clients that flood by one kind, where each other client goes on for so many seconds.
    As the live player plays, it may be stopped for a second, or the server: `player` or `server`."""
    with serving(afd, folder) as server:
        clock = Clock(server)
        clock.look_for(CALM)
        stopped = {"player": lambda player: player, "server": lambda _: server.process.pid}.get(stops)
        with Flood(flood, server, kind, clients, 10 * seconds + 4 * PATIENCE) if clients else Silence() as flooding:
            begun, before, starved = time.monotonic(), sounded(server), waiting(server)
            reply = apart(asks, server.address, seconds, clock.look)
            start, told = apart(plays, server.address, seconds, clock.look, stopped)
            setup = apart(connects, server.address, seconds, clock.look)
            due, missing = (now - then for now, then in zip(sounded(server), before))
            lag, starved = clock.lag(begun), waiting(server) - starved
            sent, taken, took = flooding.end()
        frames = round(seconds * SPEECH.rate)
        late = frames if start is None else lacking(server, start, frames)
    told = late if told is None else told
    return Figures(reply, setup, lag, missing, due, late, frames, told, sent / took / 1e6, taken / took / 1e6, starved)


@dataclass(frozen=True)
class Aim:
    """What a figure is called, what it is of, and what it should be at most on a quiet machine of four processors: beside one
    client that floods, and beside 31."""

    figure: str
    name: str
    one: int
    many: int
    of: str = ""

    def most(self, clients):
        return self.one if clients < 2 else self.many

    def told(self, figures, clients):
        """A figure as a table has it, and bold if it misses its aim."""
        found = getattr(figures, self.figure)
        told = "%s of %s" % (format(found, ",d"), format(getattr(figures, self.of), ",d")) if self.of else format(found, ",.1f")
        return told if found <= self.most(clients) else "**%s**" % told


AIMS = (
    Aim("reply", "a GetTime, 99 of 100 take at most, milliseconds", 3, 20),
    Aim("lag", "a device lags by at most, milliseconds", 30, 30),
    Aim("missing", "frames missing of a loudspeaker", 0, 0, "due"),
    Aim("late", "late frames of a live player", 0, 0, "played"),
    Aim("setup", "a new connection, 99 of 100 take at most, milliseconds", 50, 50))
# how many clients flood
COUNTS = 1, 31
# the first rows: a name, and what is stopped. Nobody floods
CONTROLS = {"nobody": None, "nobody, and the server is stopped for a second": "server",
            "nobody, and the live player is stopped for a second": "player"}


def table(trial, turns, write):
    """Writes a table of all kinds of floods, each figure the median of so many turns."""
    flood = compiled(trial.folder)
    if flood is None:
        write("There is no C compiler, so nothing floods.")
        return

    def row(name, cells):
        write("| %s | %s |" % (name, " | ".join(cells)))

    def measured(name, kind, clients, stops=None):
        found = []
        for _ in range(turns):
            try:
                found.append(beside(trial.afd, trial.folder, flood, kind, clients, stops=stops))
            except OSError as fault:
                trial.holds("%s: %s" % (name, fault), False)
                return
            late, told = found[-1].late, found[-1].told
            trial.holds("%s: the live player lacks %d frames, and by the replies %d" % (name, late, told), told == late)
        middle = Figures(*map(statistics.median_high, zip(*map(dataclasses.astuple, found))))
        rate = "%.2f, %.2f" % (middle.sent, middle.taken) if clients else ""
        row(name, [*(aim.told(middle, clients) for aim in AIMS), rate, "%.1f" % middle.starved])

    heads = ["beside", *(aim.name for aim in AIMS), "megabytes a second sent, taken", "seconds without a processor"]
    write("\n| %s |\n|%s" % (" | ".join(heads), "---|" * len(heads)))
    for clients in COUNTS:
        rate = "half of what it was" if clients == 1 else ""
        row("the aim beside %d client%s" % (clients, "s" * (clients > 1)), [*(str(aim.most(clients)) for aim in AIMS), rate, ""])
    for name, stops in CONTROLS.items():
        measured(name, "noops", 0, stops)
    for clients in COUNTS:
        for kind, name in KINDS.items():
            measured("%d client%s: %s" % (clients, "s" * (clients > 1), name), kind, clients)
