"""Stands in for a program of a sound system, for tools/try-cards: pacat, parec, pw-cat, aplay or arecord.

    python3 card_stand_in.py SYSTEM plays|records RATE WIDTH AHEAD OPTION,..

It plays or records by a clock of its own, and says what the real one says: how much sound it holds, and gaps. SYSTEM is alsa,
pulse or pipewire. What plays begins to sound once it holds AHEAD milliseconds. aplay holds no more; the others take all that
comes. An option may be

    stands=AT:FOR     the sink stands still for so many seconds, and what comes then is held
    own=MS            the sink has a delay of its own. Where the player has nothing to play, it waits for AHEAD milliseconds again
    gaps=AT:N         it says at once that there were N gaps

What played leaves the file heard.SYSTEM, with what it took, and held.SYSTEM, with how many milliseconds it held last.
"""

import os
import select
import sys
import time

# how often it says what it holds, and how often it takes or gives, in seconds
TELLS, PERIOD = {"alsa": 1, "pulse": 0.05, "pipewire": 0.5}, 0.005
BEGUN = {"alsa": b"", "pulse": b"Connected to device null (index: 0, suspended: no).\n",
         "pipewire": b"stream properties:\n\tnode.name = \"pw-cat\"\nstream state changed paused -> streaming\n"}
GAP = {"alsa": b"%s!!! (at least 12.500 ms long)\n", "pulse": b"Stream %s.\x1b[K \n"}


def span(text):
    """The two numbers of AT:FOR."""
    return tuple(map(float, text.split(":")))


class Program:
    def __init__(self, system, rate, width, ahead, options):
        self.system, self.rate, self.width, self.ahead = system, int(rate), int(width), int(ahead)
        options = dict(option.split("=") for option in options.split(",") if option)
        self.stands, self.gaps = span(options.get("stands", "0:0")), span(options.get("gaps", "0:0"))
        self.own = float(options.get("own", 0))
        self.begun, self.taken, self.given = None, 0, 0

    def passed(self):
        """How many seconds its clock has counted."""
        passed = time.monotonic() - self.begun if self.begun else 0
        return passed - min(max(passed - self.stands[0], 0), self.stands[1])

    def say_gaps(self, kind):
        if self.gaps[1] and self.begun and time.monotonic() - self.begun >= self.gaps[0]:
            os.write(2, GAP[self.system] % kind * int(self.gaps[1]))
            self.gaps = 0, 0

    def held(self):
        """How many milliseconds it holds."""
        return 1000 * (self.taken / self.width / self.rate - self.passed())

    def room(self):
        """How many bytes it takes now."""
        return int((self.ahead - self.held()) * self.rate / 1000) * self.width if self.system == "alsa" else 65536

    def say_held(self):
        held = self.held() + self.own
        if self.system == "pulse":
            os.write(2, b"Time: %.3f sec; Latency: %d usec.        \r" % (self.passed(), 1000 * held))
        elif self.system == "pipewire":
            figures = time.monotonic_ns(), self.rate, self.passed() * self.rate, held * self.rate / 1000
            os.write(1, b"stream time: now:%d rate:1/%d ticks:%d delay:%d queued:0 buffered:0 buffers:1 avail:1\n" % figures)

    def play(self):
        os.write(1 if self.system == "pipewire" else 2, BEGUN[self.system])
        heard, noted = (
            os.open("%s.%s" % (it, self.system), os.O_CREAT | os.O_WRONLY | os.O_TRUNC) for it in ("heard", "held"))
        due = time.monotonic()
        while True:
            room = self.room()
            if room <= 0:
                time.sleep(PERIOD)
            elif select.select([0], [], [], PERIOD)[0]:
                piece = os.read(0, room)
                if not piece:
                    return
                self.taken += os.write(heard, piece)
            self.begin_or_wait()
            self.say_gaps(b"underrun")
            if time.monotonic() >= due:
                due = time.monotonic() + TELLS[self.system]
                self.say_held()
                os.pwrite(noted, b"%8d\n" % self.held(), 0)

    def begin_or_wait(self):
        """It begins to sound once it holds enough. With a delay of its own it does so again where it has nothing to play."""
        if self.begun is None and self.held() >= self.ahead:
            # what waited until now is not late for good
            self.begun = time.monotonic() - (self.held() - self.ahead) / 1000
        elif self.begun and self.own and self.held() < 0:
            self.begun, self.taken = None, 0

    def record(self):
        self.begun = time.monotonic()
        while True:
            count = int(self.passed() * self.rate) - self.given
            os.write(1, bytes(count * self.width))
            self.given += count
            if self.system == "alsa":
                self.say_gaps(b"overrun")
            time.sleep(2 * PERIOD)


if __name__ == "__main__":
    system, way, *words = sys.argv[1:7]
    program = Program(system, *words)
    if way == "plays":
        program.play()
    else:
        program.stands = 0, 0
        program.record()
