"""Trials of tools/try-cards: one source in several rooms, each by a relay that follows the clock, and relays in a row.
Each frame of the source has a number of its own. So it is found again in what a room was handed, with the moment at which it
left."""

import os
import re
import struct
import subprocess
import time

from cards import Card, waited

# how many rooms there are, how long they are relayed to, and what is left out at the begin, in seconds
ROOMS, RELAYED, SETTLED = 8, 16, 6
# the words of examples/rooms.conf
WORDS = ("--follow", "--block=480", "--delay=500", "--slack=400")
# how far apart rooms play a frame, in seconds: in the middle, and at most, which is the slack
MIDDLE_APART, MOST_APART = 0.05, 0.4
# how long relays in a row run, in seconds, and by how many frames what they make up for may differ from the drift
ROW, MOST_DIFFERENT = int(os.environ.get("SECONDS_IN_A_ROW", 12)), 250


def relayed(trial, near, far, seconds, rate):
    """Begins a relay that ends after so many seconds. It tells its details."""
    return subprocess.Popen(
        [trial.af, "apass", near.address, far.address, *WORDS, "--blocks=%d" % (seconds * rate // 480)],
        stdout=subprocess.PIPE, stderr=subprocess.PIPE, env={**os.environ, "AUDIOFILE_DETAILS": "1"})


def numbers(card):
    """The numbers of the frames that a card was handed; 0 is silence."""
    heard = card.got("heard")
    return struct.unpack(">%dI" % (len(heard) // 4), heard[:len(heard) // 4 * 4])


def left(card):
    """When each frame of the source left a card, by its number: a frame between two notes leaves between their moments."""
    frames = numbers(card)
    octets, moments = card.got("notes"), {}
    notes = list(struct.iter_unpack("<dQ", octets[:len(octets) // 16 * 16]))
    for (begun, first), (ended, last) in zip(notes, notes[1:]):
        for place in range(first // 4, min(last // 4, len(frames))):
            if frames[place]:
                moments.setdefault(frames[place], begun + (ended - begun) * (4 * place - first) / (last - first))
    return moments


def apart(rooms):
    """How far apart cards play each of some frames, in seconds, from the least to the most."""
    moments = [left(room) for room in rooms]
    shared = sorted(set.intersection(*(set(it) for it in moments)))
    shared = [number for number in shared if number >= shared[0] + SETTLED * rooms[0].rate]
    return sorted(max(it[number] for it in moments) - min(it[number] for it in moments) for number in shared[::97])


def rooms(trial):
    """One source in eight rooms: all of them play a frame at the same moment, as far as their relays keep to their place."""
    source = Card("source", "lin16", 48000, 2, "microphone", period=5)
    houses = [Card("room%d" % at, "lin16", 48000, 2, "speaker", takes="pace", period=5, notes="yes") for at in range(ROOMS)]
    with trial.serve(source) as near:
        far = [trial.serve(house) for house in houses]
        try:
            time.sleep(0.5)
            relays = [relayed(trial, near, it, RELAYED, source.rate) for it in far]
            lines = [it.communicate(timeout=RELAYED + 10)[0].decode().strip() for it in relays]
            time.sleep(1)
            starved = waited(near.process.pid, *(it.process.pid for it in far))
            wanted = "passed %d resynced 0" % (RELAYED * 100)
            trial.holds("no relay starts afresh: %s" % lines, lines == [wanted] * ROOMS)
            found = apart(houses)
            middle, most = (found[len(found) // 2], found[-1]) if found else (9, 9)
            told = "%.1f ms in the middle, %.1f ms at most, of %d frames, starved for %.2f s" % (
                1000 * middle, 1000 * most, len(found), starved)
            trial.holds("rooms play a frame at the same moment: " + told, middle <= MIDDLE_APART and most <= MOST_APART)
        finally:
            for it in far:
                trial.ends(it)
        trial.ends(near)


def in_a_row(trial):
    """Three relays in a row. The clocks of the four servers are slow and fast in turn."""
    speeds, echoes = (0.999, 1.001, 0.999, 1.001), ({}, {"echoes": 200}, {"echoes": 200}, {})
    cards = [Card("hop%d" % at, "lin16", 48000, 2, speed=speeds[at], period=5, **echoes[at]) for at in range(4)]
    servers = [trial.serve(it) for it in cards]
    try:
        time.sleep(0.5)
        relays = [relayed(trial, near, far, ROW, cards[0].rate) for near, far in zip(servers, servers[1:])]
        ends = [it.communicate(timeout=ROW + 20) for it in relays]
        time.sleep(1.5)
        starved = waited(*(it.process.pid for it in servers))
        for at, (line, details) in enumerate(ends):
            drift = round(ROW * cards[0].rate * (speeds[at + 1] / speeds[at] - 1))
            is_in_step(trial, at, line.decode().strip(), details, drift, starved)
        is_whole(trial, cards)
    finally:
        for it in servers:
            trial.ends(it)


def is_in_step(trial, at, line, details, drift, starved):
    """Whether a relay never started afresh, so that its delay stayed within the slack, and made up for the drift."""
    found = re.search(rb"played (\d+) frames? twice to follow the clock, left (\d+) frames? out", details)
    doubled, without = map(int, found.groups()) if found else (-1, -1)
    told = "hop %d: %s: %d frames twice, %d left out, a drift of %d, starved for %.2f s" % (
        at, line, doubled, without, drift, starved)
    trial.holds("it never starts afresh: " + told, line == "passed %d resynced 0" % (ROW * 100))
    some = MOST_DIFFERENT + starved * 48000
    trial.holds("it makes up for the drift: " + told, found and abs(doubled - without - drift) <= some)


def is_whole(trial, cards):
    """Whether the last card was handed every frame of the first one, but those that each of the relays left out."""
    frames = numbers(cards[-1])
    heard = [place for place, it in enumerate(frames) if it]
    frames = frames[heard[0]:heard[-1] + 1] if heard else ()
    steps = [later - one for one, later in zip(frames, frames[1:])]
    lacks = [what for card in cards for _, what in card.told() if "lacks" in what]
    told = "%d frames, %d of them silent, steps from %s to %s, what echoes lacked: %s" % (
        len(frames), frames.count(0), min(steps, default=None), max(steps, default=None), lacks[:3])
    # each of the three relays leaves out one frame at most at a place
    trial.holds("there is no hole: " + told, steps and frames.count(0) == 0 and 0 <= min(steps) and max(steps) <= 4)
