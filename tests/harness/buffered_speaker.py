"""A loudspeaker with sound of its own in hand, as a sound card has it: the program of a device, for tools/bench-server and
tools/try-guests.

    python3 speaker.py COUNTS RATE WIDTH FRAMES

It takes sound until so many frames lie in its buffer. Then it begins to sound: it uses RATE frames a second by the clock of the
system, and takes as many as find room. A frame that is due and is not there is missing: silence sounds in its place, and all that
comes later sounds later. The file COUNTS has two numbers of eight bytes: how many frames were due until now, and how many of them
were missing.
"""

import os
import select
import socket
import struct
import sys
import time

# how often it looks, in seconds. It takes no less at once than sounds meanwhile
PERIOD = 0.005


class Speaker:
    def __init__(self, counts, rate, width, frames):
        self.rate, self.width, self.frames = int(rate), int(width), int(frames)
        self.counts = os.open(counts, os.O_CREAT | os.O_WRONLY)
        self.input = socket.socket(fileno=0)
        self.least = int(self.rate * PERIOD) * self.width
        self.begun, self.taken, self.missing = None, 0, 0

    def due(self):
        return int((time.monotonic() - self.begun) * self.rate) if self.begun else 0

    def room(self):
        """How many bytes find room now. What was due before and was not there is missing."""
        due = self.due()
        self.missing += max(0, due - self.missing - self.taken // self.width)
        if self.begun:
            os.pwrite(self.counts, struct.pack("<2Q", due, self.missing), 0)
        return (self.frames + due - self.missing) * self.width - self.taken

    def run(self):
        while True:
            room = self.room()
            if self.begun and room < self.least:
                time.sleep(PERIOD)
            elif select.select([self.input], [], [], PERIOD)[0]:
                piece = self.input.recv(room)
                if not piece:
                    return
                self.taken += len(piece)
                if not self.begun and self.taken >= self.frames * self.width:
                    self.begun = time.monotonic()


if __name__ == "__main__":
    Speaker(*sys.argv[1:]).run()
