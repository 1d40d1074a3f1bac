"""Trials of tools/try-cards: 31 clients that play to a device, beside a card whose program is stopped, and one that gives as fast
as it can. None of them is held up."""

import os
import select
import signal
import time

from cards import Card, waited
from serving import WORD, asked_time, received, set_up
from two_channels import create
from wire import request

CLIENTS = 31
# for how long they play, and for how long one of them may be held up, in seconds
PLAYED, LONGEST = 5, 0.05
RATE = 8000
# how much each plays at once, and how far ahead
BLOCK, AHEAD = RATE // 50, RATE // 2
SILENT = "device mu255 8000 0 silent"


class Crowd:
    """Clients that play to device 1, a block each fiftieth of a second."""

    def __init__(self, server):
        self.server, self.took = server, []
        self.links = [set_up(server.address) for _ in range(CLIENTS)]
        for link in self.links:
            create(link, 1, "mu255", 1)

    def close(self):
        for link in self.links:
            link.close()

    def play(self):
        """Each plays a block. How long the slowest reply took, but for the time in which this or the server had no processor."""
        moment = (asked_time(self.links[0], 1) + AHEAD) % WORD
        asked = request("Play", data=bytes(range(BLOCK)), context=1, time=moment)
        before, begun = waited(os.getpid(), self.server.process.pid), time.monotonic()
        for link in self.links:
            link.sendall(asked)
        left = list(self.links)
        while left:
            for link in select.select(left, [], [], 20)[0]:
                received(link, 12)
                left.remove(link)
        took = time.monotonic() - begun
        return max(0, took - waited(os.getpid(), self.server.process.pid) + before)

    def plays(self, seconds):
        """They play for so long. The replies that took longest, each with its moment."""
        begun = time.monotonic()
        took = []
        while time.monotonic() - begun < seconds:
            took.append((self.play(), time.monotonic() - begun))
            time.sleep(BLOCK / RATE)
        return sorted(took, reverse=True)


def disturbed(trial, what, card, disturb):
    """31 clients play beside a card. One try of three without a delay shows the server: a machine that is starved may be slow."""
    for _ in range(3):
        with trial.serve(card, SILENT) as server:
            time.sleep(1)
            crowd = Crowd(server)
            alone = crowd.plays(1)[0][0]
            disturb(card)
            longest = crowd.plays(PLAYED)
            crowd.close()
            runs = server.end()
        if longest[0][0] <= LONGEST:
            break
    told = ", ".join("%.3f s at %.2f" % it for it in longest[:3])
    trial.holds("beside %s no client is held up: %s, before it %.3f" % (what, told, alone), longest[0][0] <= LONGEST)
    trial.holds("the server runs, and says nothing", runs)


def stopped(trial):
    """A card that is stopped, and killed two seconds later."""
    card = Card("stopped", "lin16", 48000, 2, restarts=100)

    def stop(card):
        for start in range(100):
            if not card.told(start + 1):
                os.kill(card.process(start), signal.SIGSTOP)
                return

    disturbed(trial, "a card that is stopped", card, stop)


def floods(trial):
    """A microphone and a loudspeaker without a clock: they give and take as fast as they can."""
    card = Card("flood", "lin16", 48000, 2, "microphone", 100, floods=1)
    disturbed(trial, "a microphone that gives as fast as it can", card, lambda card: None)
    card = Card("taker", "lin16", 48000, 2, "speaker", 100, floods=1)
    disturbed(trial, "a loudspeaker that takes as fast as it can", card, lambda card: None)
