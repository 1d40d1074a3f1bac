"""A sound card that takes little of a processor, as one that drives hardware: the program of a device, for tools/bench-cards.

    python3 card.py name=NAME,rate=RATE,width=4 speed=1.01

A hundred times a second, by its own clock, it takes what came and gives a piece of counted frames. It keeps nothing. Where it is
handed frames that it gave itself, NAME.told.0 has a line for each hundred pieces of these:

    delay MIDDLE MOST BEFORE

The first two are of the delays: how many frames it had given from the last frame of a piece on, as it was handed that piece. The
last one is how many frames it had given and was not handed yet, in the middle of the hundred.
"""

import os
import socket
import struct
import sys
import time

import card_program

# how often it gives in a second, how much it takes at once, in bytes, and how many pieces it tells of at once
OFTEN, MOST, TOLD = 100, 65536, 100
NUMBERS = 1 << 24


class LightCard(card_program.Card):
    def __init__(self, words):
        super().__init__(words)
        self.piece = self.rate // OFTEN
        self.delays, self.before = [], []

    def due(self):
        """How many frames its clock has counted, in whole pieces."""
        return super().due() // self.piece * self.piece

    def note(self):
        """Nobody asks for its counts."""

    def take(self):
        """Takes what has come."""
        try:
            piece = self.input.recv(MOST, socket.MSG_DONTWAIT)
        except BlockingIOError:
            return
        if not piece:
            self.tell("nobody gives")
            self.ended = True
        self.taken += len(piece)
        # the last whole frame: a part of one may come after it
        end = len(piece) - self.taken % self.width
        if end >= self.width:
            self.look_at(*struct.unpack_from(">I", piece, end - self.width))

    def look_at(self, frame):
        """Notes the delay of a frame that it gave. What has its number's first byte is no silence."""
        if frame >> 24 != self.start + 1:
            return
        self.delays.append((self.given - frame) % NUMBERS)
        self.before.append(self.given - self.taken // self.width)
        if len(self.delays) == TOLD:
            delays, before = sorted(self.delays), sorted(self.before)
            self.tell("delay %d %d %d" % (delays[TOLD // 2], delays[-1], before[TOLD // 2]))
            self.delays, self.before = [], []

    def run(self):
        self.begun = time.monotonic()
        while not self.ended:
            self.give()
            next_piece = (self.given + self.piece) / (self.rate * self.speed)
            time.sleep(max(0, self.begun + next_piece - time.monotonic()))
        self.tell("ends")


def main():
    LightCard(sys.argv[1:]).run()
    os._exit(0)


if __name__ == "__main__":
    main()
