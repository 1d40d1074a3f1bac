"""What contrib/audiofile-meter writes to a pipe and draws on a terminal: the trials of tools/try-meter."""

import contextlib
import importlib.machinery
import importlib.util
import math
import os
import re
import random
import signal
import struct
import subprocess
import sys
import tempfile

import cards
from cards import audiofile, wait_for, waited
from meter_screen import PROGRAM, Terminal
from serving import WORD, Tap, free_port
from sounds import linear, mu_law
from status_page import Liar, Returned
from status_trials import SETUP, back_in_time, event
from wire import ClientSide

sys.dont_write_bytecode = True

RATE = 8000
# what the meter may ask for
READS = {"setup", "CreateAC", "GetTime", "Record"}
# an exception where the picture is drawn
FAILS = """
import importlib.machinery, importlib.util, os, sys
loader = importlib.machinery.SourceFileLoader("meter", sys.argv.pop(1))
meter = importlib.util.module_from_spec(importlib.util.spec_from_loader("meter", loader))
loader.exec_module(meter)
meter.Picture.draw_channels = lambda *_: 1 // 0
meter.main()
"""


def program():
    """The program as a module."""
    loader = importlib.machinery.SourceFileLoader("audiofile_meter", PROGRAM)
    module = importlib.util.module_from_spec(importlib.util.spec_from_loader(loader.name, loader))
    loader.exec_module(module)
    return module


class Trial(cards.Trial):
    tool = "try-meter"

    def __init__(self, *words):
        super().__init__(*words)
        # the meters, which note for how many seconds they had to wait for a processor
        self.processes = []

    def starved(self):
        return super().starved() + sum(each.starved() for each in self.processes)

    def equals(self, what, found, wanted):
        self.holds("%s: %r in place of %r" % (what, found, wanted), found == wanted)

    def input(self, name, *frames, form=">h", seconds=60):
        """A file that a device captures: these samples again and again, for so many seconds at least."""
        whole = b"".join(struct.pack(form, sample) for sample in frames)
        self.file(self.folder, name, whole * (seconds * RATE // len(frames) + 1))


class Lines:
    """The meter into a pipe, or what is in place of one. Used with `with`, it is ended at the end."""

    def __init__(self, trial, *words, stdout=None, **environment):
        kept = {name: value for name, value in os.environ.items() if name != "AUDIOFILE_SERVER"}
        self.files = tempfile.TemporaryFile(), tempfile.TemporaryFile()
        self.process = subprocess.Popen(
            [sys.executable, PROGRAM, *words], stdin=subprocess.DEVNULL, stdout=stdout or self.files[0], stderr=self.files[1],
            env={**kept, **environment})
        self.waited = 0
        trial.processes.append(self)

    def __enter__(self):
        return self

    def __exit__(self, *_):
        self.process.kill()
        self.process.wait()

    def starved(self):
        self.waited = waited(self.process.pid) or self.waited
        return self.waited

    def text(self, file):
        # it writes on at the place of this file
        return os.pread(self.files[file].fileno(), 1 << 20, 0).decode()

    def lines(self):
        return [tuple(line.split(" ", 1)) for line in self.text(0).splitlines()]

    def becomes(self, is_so, seconds=20):
        return wait_for(lambda: is_so(self), seconds)

    def ended(self, number=signal.SIGTERM):
        """Its status after a signal, or after its own end, and what it said to standard error."""
        self.starved()
        if number:
            self.process.send_signal(number)
        with contextlib.suppress(subprocess.TimeoutExpired):
            self.process.wait(20)
        return self.process.returncode, self.text(1)


class Captured:
    """A connection to a device that has captured as much of some samples as is stated."""

    def __init__(self, samples, channels, begun):
        self.samples, self.begun, self.there, self.frame = samples, begun, 0, 2 * channels

    def context(self, *_):
        return self

    def time(self, _):
        return (self.begun + self.there) % WORD

    def record(self, time, frames, wait):
        place = audiofile.difference(time, self.begun)
        return self.time(None), self.samples[place * self.frame:min(place + frames, self.there) * self.frame]


def by_the_sample(trial):
    """Each level is that of exactly the frames it is of, however they come in pieces, past the wrap of a time."""
    meter, chance = program(), random.Random(1)
    for channels in (1, 2):
        count = 12 * RATE
        # louder and quieter, so that each piece has another peak
        sounds = [round(32767 * math.sin(at / 9000) ** 6 * chance.uniform(-1, 1)) for at in range(count * channels)]
        device = audiofile.Device(3, "lin16", channels, RATE, 4 * RATE, False)
        connection = Captured(struct.pack(">%dh" % len(sounds), *sounds), channels, WORD - 5 * RATE)
        ear = meter.Ear(connection, device)

        def levels(begins):
            rows = [sounds[begins * channels + place:connection.there * channels:channels] for place in range(channels)]
            return [20 * math.log10(max(map(abs, row)) / 32767) if any(row) else -math.inf for row in rows]

        pieces, line = [], 0
        while connection.there < count:
            begins = connection.there
            connection.there = min(count, begins + chance.choice((1, 79, 800, 801, 8001, 16000)))
            ear.listen()
            pieces.append((begins, connection.there))
            shown = ear.look()
            trial.equals("the last tenth of a second", [it.level for it in shown], levels(max(0, connection.there - RATE // 10)))
            held = next(begins for begins, ends in pieces if ends >= connection.there - 2 * RATE)
            trial.equals("two seconds are held", [it.held for it in shown], levels(held))
            if chance.random() < 0.4:
                wanted = "3 " + " ".join("%.1f" % level for level in levels(line))
                trial.equals("no sample lies between two lines", ear.line(), wanted.replace("-0.0", "0.0") + "\n")
                trial.equals("without a sample there is no line", ear.line(), "")
                line = connection.there


def levels(trial):
    """Levels by the type of the samples."""
    meter = program()
    rows = (
        ("lin16", 32767, "0.0"), ("lin16", 32768, "0.0"), ("lin16", 32766, "0.0"), ("lin16", 16384, "-6.0"), ("lin16", 1, "-90.3"),
        ("lin16", 0, "-inf"), ("lin32", 23198, "-3.0"), ("mu255", 32124, "0.0"), ("mu255", 32767, "0.0"), ("mu255", 8, "-72.1"),
        ("mu255", 0, "-inf"), ("alaw", 32256, "0.0"), ("alaw", 24, "-62.6"), ("alaw", 8, "-inf"))
    for type, peak, wanted in rows:
        trial.equals("%s, %d" % (type, peak), meter.number(meter.decibels(peak, type)), wanted)
    for type, peak, clips in (
            ("lin16", 32766, False), ("lin16", 32767, True), ("lin16", -32768, True), ("mu255", 31100, False),
            ("mu255", 32124, True), ("alaw", -32256, True), ("lin32", 32767, True)):
        ear = meter.Ear(Captured(b"", 1, 0), audiofile.Device(0, type, 1, RATE, 4 * RATE, False))
        ear.take(struct.pack(">h", peak), 0)
        trial.equals("%s, %d is full scale" % (type, peak), ear.look()[0].is_clipped, clips)
        for frames, is_held in ((2 * RATE, clips), (1, False)):
            ear.frames += frames
            ear.take(struct.pack(">h", 1), 0)
            trial.equals("CLIP is held for two seconds", ear.look()[0].is_clipped, is_held)


def sine(height):
    """A period of a tone of 500 Hz whose greatest sample is this."""
    return [round(height * math.sin(2 * math.pi * frame / 16)) for frame in range(16)]


def lines(trial):
    """The lines of six devices are what is computed of what they capture, and nothing is asked but what reads."""
    trial.input("sine", *sine(16384))
    trial.input("coded", *map(mu_law, sine(9000)), form=">B")
    trial.input("two", 32767, 328, -32767, -328)
    trial.input("long", 0x20000000, -0x1fffffff, form=">i")
    peak = max(abs(linear(mu_law(sample))) for sample in sine(9000))
    devices = {
        "lin16 8000 0 files sine /dev/null": "-6.0", "mu255 8000 7 files coded /dev/null": "%.1f" % (20 * math.log10(peak / 32124)),
        "lin16 8000 4294960000 stereo files two /dev/null": "0.0 -40.0", "lin32 8000 0 files long /dev/null": "-12.0",
        "lin16 8000 0 silent": "-inf", "alaw 8000 0 silent": "-inf"}
    wanted = [(str(number), text) for number, text in enumerate(devices.values())]
    with trial.serve(*("device " + it for it in devices), folder=trial.folder) as server:
        tap = Tap(server.address)
        with Lines(trial, tap.address) as every, Lines(trial, "--device=2", "--device=0", AUDIOFILE_SERVER=server.address) as two:
            for each, numbers in ((every, range(6)), (two, (0, 2))):
                those = [wanted[number] for number in numbers]
                trial.holds("each device has lines: %s" % each.lines(), each.becomes(lambda it: {*it.lines()} >= {*those}))
                # in whatever seconds the machine let the server come to run
                trial.holds("three times", each.becomes(lambda it: min(map(it.lines().count, those)) >= 3))
                trial.equals("and no others", {*each.lines()}, {*those})
            ended = [it.ended() for it in (every, two)]
            trial.holds("both are ended: %s" % ended, all(status == 143 and "Traceback" not in said for status, said in ended))
        trial.ends(server)
    asked = {item.name for item in ClientSide().feed(tap.noted)} - {"after"}
    trial.holds("it only reads: %s" % sorted(asked), asked <= READS)


def comes_back(trial):
    """A server that is not there at first, comes, ends, and comes again, as a pipe and a terminal have it."""
    trial.input("in", *sine(16384))
    devices, address = ["device lin16 8000 0 files in /dev/null"], "127.0.0.1:%d" % free_port()
    line, gone = ("0", "-6.0"), "audiofile-meter: %s is gone: %%s. It is looked for each second\n" % address
    with Lines(trial, address) as piped, Terminal(trial, address) as terminal:
        trial.holds("it is not there", piped.becomes(lambda it: it.text(1) == gone % "connection refused"))
        trial.holds("which is shown", terminal.tells("%s is gone for " % address))
        for is_first in (True, False):
            before = len(piped.lines())
            with Returned(trial.afd, trial.folder, devices, address):
                trial.holds("it has come", piped.becomes(lambda it: line in it.lines()[before:]))
                trial.holds("and is shown", terminal.shows("0 lin16 8000 " + 44 * "#" + "|" + 5 * " " + 2 * "  -6.0"))
            times = 2 if is_first else 3
            trial.holds("it is gone", piped.becomes(lambda it: it.text(1).count(" is gone: ") == times))
            trial.holds("which is shown", terminal.tells("%s is gone for " % address))
        told = [each.partition(address)[2].partition(":")[0] for each in piped.text(1).splitlines()]
        trial.equals("what is told", told, [" is gone", " is there again"] * 2 + [" is gone"])
        terminal.press(b"q")
        trial.equals("they end", (piped.ended()[0], terminal.ended()), (143, (0, True)))


def words(trial):
    """What is no use of it, and outputs that take nothing. All are begun at once."""
    usage = "audiofile-meter: error: "
    with trial.serve("device mu255 8000 0 silent", "device mu255 8000 0 silent") as server, contextlib.ExitStack() as all:
        no_device = "audiofile-meter: %s has 2 devices, and no device 5\n" % server.address
        rows = (
            (2, usage, ["nowhere"], ""), (2, usage, ["127.0.0.1:port"], ""), (2, usage, ["127.0.0.1:65536"], ""),
            (2, usage, [":1"], ""),
            (2, usage + "AUDIOFILE_SERVER: ", [], ""), (2, usage + "AUDIOFILE_SERVER: ", [], "here"),
            (2, usage, [server.address, server.address], ""), (2, usage, ["--device=8", server.address], ""),
            (2, usage, ["--device=-1", server.address], ""), (2, usage, ["--device=all", server.address], ""),
            (2, usage, ["--play", server.address], ""), (0, "", ["--help"], ""),
            (1, no_device, ["--device=1", "--device=5"], server.address))
        begun = [all.enter_context(Lines(trial, *words, AUDIOFILE_SERVER=variable)) for *_, words, variable in rows]
        with open("/dev/full", "wb") as full:
            unwritten = all.enter_context(Lines(trial, server.address, stdout=full))
        read, write = os.pipe()
        unread = all.enter_context(Lines(trial, server.address, stdout=write))
        os.close(write)
        os.close(read)
        shown = all.enter_context(Terminal(trial, "--device=5", server.address))
        for (status, why, words, variable), each in zip(rows, begun):
            found, said = each.ended(None)
            is_so = found == status and why in said and "Traceback" not in said and (said.endswith(why) or status == 2)
            trial.holds("%s %r: %d, %r" % (words, variable, found, said), is_so)
        status, said = unwritten.ended(None)
        is_told = said.endswith("audiofile-meter: standard output: No space left on device\n")
        trial.holds("a line that is not taken ends it: %d, %s" % (status, said), status == 1 and is_told)
        trial.equals("a pipe that nobody reads ends it", unread.ended(None)[0], 128 + signal.SIGPIPE)
        trial.equals("a terminal is put back", shown.ended(), (1, True))
        trial.holds("and says why", wait_for(lambda: no_device.strip().encode() in shown.said))
        trial.ends(server)


def liars(trial):
    """Servers that speak nonsense are gone, with a reason, and are looked for again."""
    lies = {
        "it ended the connection, or": Liar(is_short=True),
        "it is no AudioFile server: it sent no message: 485454": Liar(b"HTTP/1.1 400\r\n\r\n"), "it does not answer": Liar(),
        "it sent no message: ffffff": Liar(SETUP, lambda *_: b"\xff" * 4096), "answer": Liar(SETUP, event, True),
        "a time that goes back": Liar(SETUP, back_in_time)}
    with contextlib.ExitStack() as all:
        begun = [all.enter_context(Lines(trial, each.address)) for each in lies.values()]
        shown = all.enter_context(Terminal(trial, next(iter(lies.values())).address, width=200))
        for why, each, liar in zip(lies, begun, lies.values()):
            trial.holds("%s: %r" % (why, each.text(1)), each.becomes(lambda it: why in it.text(1)))
            status, said = each.ended()
            is_line = said.startswith("audiofile-meter: %s is gone: " % liar.address) and said.count("\n") == 1
            trial.holds("one line and no traceback: %d, %r" % (status, said), status == 143 and is_line)
            trial.equals("and no level", each.lines(), [])
        trial.holds("a terminal shows it", shown.tells("it ended the connection, or all its 32 places are taken."))
        shown.press(b"q")
        trial.equals("and is put back", shown.ended(), (0, True))


def pictures(trial):
    """Bars on terminals of two sizes, which change: a clipped tone, one of half the scale beside silence, and six devices more."""
    trial.input("clipped", *[32767] * 8, *[-32768] * 8)
    trial.input("half", *(sample for each in sine(16384) for sample in (each, 0)))
    devices = ["lin16 8000 0 files clipped /dev/null", "lin16 8000 0 stereo files half /dev/null", *["mu255 8000 0 silent"] * 6]
    wide = [
        "0 lin16 8000   " + 47 * "#" + "|   0.0   0.0 CLIP", "1 lin16 8000 L " + 42 * "#" + "|" + 5 * " " + 2 * "  -6.0",
        "1 lin16 8000 R " + 48 * " " + 2 * "  -inf", "7 mu255 8000   " + 48 * " " + 2 * "  -inf"]
    narrow = [
        "0 lin16 8000   " + 13 * "#" + "|   0.0 CLIP", "1 lin16 8000 L " + 12 * "#" + "|   -6.0",
        "1 lin16 8000 R " + 14 * " " + "  -inf", "6 of 9 channels are not shown"]
    with trial.serve(*("device " + it for it in devices), folder=trial.folder) as server:
        size = {"LINES": "3", "COLUMNS": "20"}
        with Terminal(trial, server.address, **size) as one, Terminal(trial, server.address, width=40, height=6) as other:
            trial.holds("80 columns: %s" % one.screen.text(), one.shows(*wide))
            trial.equals("the title", one.screen.text()[0], "%s   q quits" % server.address)
            trial.equals("the scale", one.screen.text()[1].split(), "-60 -50 -40 -30 -20 -10 0 now held".split())
            trial.holds("40 columns: %s" % other.screen.text(), other.shows(*narrow))
            for width, height in ((30, 2), (1, 1), (3, 9), (200, 50), (9, 1)):
                one.resize(width, height)
                trial.holds("%d columns, %d lines: something is drawn" % (width, height), wait_for(lambda: any(one.screen.text())))
            one.resize(40, 6)
            trial.holds("made smaller: %s" % one.screen.text(), one.shows(*narrow))
            other.resize(80, 24)
            trial.holds("made larger: %s" % other.screen.text(), other.shows(*wide))
            one.press(b"x\x1b[A")
            trial.holds("other keys do nothing", not wait_for(lambda: one.process.poll() is not None, 0.3))
            one.press(b"q")
            other.press(b"Q")
            trial.equals("q ends it, and the terminal is as before", [one.ended(), other.ended()], [(0, True)] * 2)
        trial.ends(server)


def ends(trial):
    """However it ends, the terminal is as before. CLIP is red, unless colours are not wanted."""
    trial.input("clipped", 32767, -32767)
    with trial.serve("device lin16 8000 0 files clipped /dev/null", folder=trial.folder) as server, contextlib.ExitStack() as all:
        begun = [all.enter_context(Terminal(trial, server.address, TERM="xterm", **how)) for how in ({}, {"NO_COLOR": "1"}, {}, {})]
        failing = all.enter_context(Terminal(
            trial, PROGRAM, server.address, program=("-c", FAILS), TERM="xterm"))
        lines = all.enter_context(Terminal(trial, server.address, TERM="dumb"))
        for each in begun:
            trial.holds("CLIP is drawn", wait_for(lambda: b"CLIP" in each.said, 20))
        red = rb"\x1b\[(?:\d+;)*31m(?:\x1b\[1m)?CLIP"
        trial.holds("CLIP is red", wait_for(lambda: re.search(red, begun[0].said)))
        trial.holds("it is not, if NO_COLOR says so", not re.search(rb"\x1b\[(?:\d+;)*3[0-7]m", begun[1].said))
        begun[0].press(b"\x03")
        begun[1].process.send_signal(signal.SIGTERM)
        begun[2].press(b"q")
        begun[3].process.send_signal(signal.SIGHUP)
        found = [it.ended() for it in (*begun, failing)]
        trial.equals("the terminal is as before", found, [(130, True), (143, True), (0, True), (129, True), (1, True)])
        for each in (*begun, failing):
            is_left = wait_for(lambda: each.said.rfind(b"\x1b[?1049l") > each.said.rfind(b"\x1b[?1049h") >= 0)
            is_left = is_left and each.said.rfind(b"?25h") > each.said.rfind(b"?25l")
            trial.holds("the screen before is shown again, and the cursor", is_left)
        trial.holds("an exception is told", wait_for(lambda: b"ZeroDivisionError" in failing.said))
        trial.holds("a terminal without a cursor has lines", wait_for(lambda: b"0 0.0\r\n" in lines.said, 20))
        lines.press(b"\x03")
        trial.equals("which end as well", lines.ended(), (130, True))
        trial.ends(server)
