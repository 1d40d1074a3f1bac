"""A sound card with a clock of its own, in place of a real one: the program of a device, for tools/try-cards.

    python3 card.py name=NAME,rate=RATE,width=BYTES OPTION,..

It gives frames that are counted, by its own clock, and keeps what it is handed. An option may be

    gives=no                  it is a loudspeaker
    takes=all|pace|no         it takes what comes, or what its clock counts, or nothing
    coded                     its frames are of mu-law
    speed=0.99                its clock against that of the system
    period=MS, jitter=MS      how often it gives and takes, and by how much it may be late each time
    stands=AT:FOR             its clock stands still for so many seconds, or
    hangs=AT:FOR              the program does, and then makes up for it, or
    deaf=AT:FOR               it takes nothing meanwhile
    frames=N, part=BYTES      it ends after so many frames, and so much of another one
    spoiled=N                 these five are of its first N starts alone
    stays                     it neither obeys SIGTERM nor goes at its end
    closes                    it closes its input
    floods                    it gives as fast as it can, or takes so, if it gives nothing
    notes                     it notes when it took what it was handed, in NAME.notes.K
    echoes=MS                 it gives what it was handed, so much later, as a cable from its output to its input does

It leaves files in the folder in which it runs. NAME.heard.K has what the start K was handed; the first start is 0. NAME.told.K
has when it began and ended. NAME.count.K has how many frames it was about to give, how many it had given, and how many bytes it
had taken.
"""

import os
import random
import signal
import socket
import struct
import sys
import time

# how much it gives or takes at once, in bytes
MOST = 8192
# it tells where the system let it wait for longer, in seconds
AWAY = 0.1


def sound(width, start, first, count, is_coded=False):
    """Frames that are counted. None is silence, and none but those of two bytes and of mu-law come twice."""
    if width == 1 or is_coded:
        return coded(first * width, count * width)
    numbers = range(first, first + count)
    if width == 2:
        return struct.pack(">%dH" % count, *(1 + it % 65535 for it in numbers))
    return struct.pack(">%dI" % count, *(start + 1 << 24 | it % (1 << 24) for it in numbers))


def coded(first, count):
    """Bytes of mu-law at these places, of which each is told from silence. They are drawn in blocks."""
    size, begun = 8000, first // 8000
    blocks = range(begun, (first + count) // size + 1)
    drawn = b"".join(bytes(random.Random(it).choices([*range(127), *range(128, 255)], k=size)) for it in blocks)
    return drawn[first - begun * size:first - begun * size + count]


def span(text):
    """The two numbers of AT:FOR."""
    return tuple(map(float, text.split(":")))


def started():
    """When this process was started, in the hundredths of a second that the system keeps. Python begins later."""
    with open("/proc/self/stat") as file:
        return int(file.read().rpartition(")")[2].split()[19]) / os.sysconf("SC_CLK_TCK")


class Card:
    def __init__(self, words):
        self.options = dict(option.partition("=")[::2] for word in words for option in word.split(","))
        self.name, self.start = self.options["name"], 0
        self.rate, self.width = int(self.options["rate"]), int(self.options["width"])
        self.speed = float(self.options.get("speed", 1))
        self.period, self.jitter = (float(self.options.get(it, least)) / 1000 for it, least in (("period", 10), ("jitter", 0)))
        self.is_coded = "coded" in self.options
        self.kept = bytes(self.width * (self.rate * int(self.options.get("echoes", 0)) // 1000))
        self.gives, self.takes = self.options.get("gives") != "no", self.options.get("takes", "all")
        self.promised = self.given = self.taken = 0
        self.ended = False
        self.open_files()
        is_spoiled = self.start < int(self.options.get("spoiled", 1000000))
        self.frames = int(self.options.get("frames", 1 << 60)) if is_spoiled else 1 << 60
        spans = self.options if is_spoiled else {}
        self.stands, self.hangs, self.deaf = (span(spans.get(it, "0:0")) for it in ("stands", "hangs", "deaf"))
        self.input = socket.socket(fileno=0) if self.takes != "no" else None
        if "closes" in self.options:
            self.input = self.input.close()

    def open_files(self):
        """The first number that is free is that of this start."""
        while True:
            try:
                self.told = os.open("%s.told.%d" % (self.name, self.start), os.O_CREAT | os.O_EXCL | os.O_WRONLY)
                break
            except FileExistsError:
                self.start += 1
        self.heard, self.count = (
            os.open("%s.%s.%d" % (self.name, it, self.start), os.O_CREAT | os.O_WRONLY) for it in ("heard", "count"))
        if "notes" in self.options:
            self.notes = os.open("%s.notes.%d" % (self.name, self.start), os.O_CREAT | os.O_WRONLY)
        self.note()
        self.tell("process %d" % os.getpid(), started())

    def tell(self, what, moment=None):
        os.write(self.told, b"%.6f %s\n" % (moment or time.monotonic(), what.encode()))

    def note(self):
        os.pwrite(self.count, struct.pack("<3Q", self.promised, self.given, self.taken), 0)

    def due(self):
        """How many frames its clock has counted."""
        passed = max(time.monotonic() - self.begun, 0)
        return int(passed * self.rate * self.speed)

    def give(self):
        """Gives what is due, as far as it gives so much at all."""
        count = min(self.due(), self.frames) - self.given
        if "floods" in self.options:
            count = MOST // self.width
        while count > 0 and not self.ended:
            # the server may be late: what it hands out is taken meanwhile
            self.take()
            piece = min(count, MOST // self.width)
            self.promised += piece
            self.note()
            self.hand_out(self.made(piece))
            self.given += piece
            self.note()
            count -= piece

    def made(self, frames):
        """The frames that it gives next. An echo that has too few is silent for the rest, and tells so."""
        if "echoes" not in self.options:
            return sound(self.width, self.start, self.given, frames, self.is_coded)
        size = frames * self.width
        octets, self.kept = self.kept[:size], self.kept[size:]
        if len(octets) < size:
            self.tell("echo lacks %d" % (size - len(octets)))
        return octets.ljust(size, b"\0")

    def hand_out(self, octets):
        try:
            while octets:
                octets = octets[os.write(1, octets):]
        except OSError:
            self.tell("nobody takes")
            self.ended = True

    def take(self):
        """Takes what has come, or what its clock has counted, unless it is deaf."""
        while self.input and not self.ended and not self.is_deaf():
            moment = time.monotonic()
            size = MOST if self.takes == "all" else min(self.width * self.due() - self.taken, MOST)
            try:
                piece = self.input.recv(size, 0 if "floods" in self.options else socket.MSG_DONTWAIT) if size > 0 else None
            except BlockingIOError:
                return
            if piece is None:
                return
            if not piece:
                self.tell("nobody gives")
                self.ended = True
            os.write(self.heard, piece)
            self.taken += len(piece)
            if "notes" in self.options:
                os.write(self.notes, struct.pack("<dQ", moment, self.taken))
            if "echoes" in self.options:
                self.kept += piece
            self.note()

    def stand_still(self):
        """Stands still once, where that is due."""
        passed = time.monotonic() - self.begun
        for span in (self.stands, self.hangs):
            if span[1] and passed >= span[0]:
                self.tell("stands still")
                time.sleep(span[1])
                self.begun += span[1] if span is self.stands else 0
                self.stands = self.hangs = (0, 0)

    def is_deaf(self):
        return 0 <= time.monotonic() - self.begun - self.deaf[0] < self.deaf[1]

    def rest(self, seconds):
        begun = time.monotonic()
        time.sleep(seconds)
        away = time.monotonic() - begun - seconds
        if away > AWAY:
            self.tell("away %.3f" % away)

    def run(self):
        self.begun = time.monotonic()
        while not self.ended and self.given < self.frames:
            self.stand_still()
            if self.gives:
                self.give()
            self.take()
            if "floods" not in self.options:
                self.rest(self.period + random.uniform(0, self.jitter))
        if "part" in self.options and self.given >= self.frames:
            self.hand_out(sound(self.width, self.start, self.given, 1)[:int(self.options["part"])])
        self.tell("ends")

    def stay(self):
        """Tells that it is still there, until it is killed."""
        os.close(1)
        for _ in range(1000):
            self.tell("stays")
            time.sleep(0.01)


def main():
    card = Card(sys.argv[1:])
    if "stays" in card.options:
        signal.signal(signal.SIGTERM, signal.SIG_IGN)
    card.run()
    if "stays" in card.options:
        card.stay()
    # what it was given and has not read is left, and nothing is cleaned up
    os._exit(0)


if __name__ == "__main__":
    main()
