"""Trials of tools/try-cards: cards whose clocks differ, that stand still, and that take nothing for a while. What is captured and
what is handed out is compared frame by frame, and the time of a device with the frames that its program gave."""

import os
import re
import signal
import struct
import subprocess
import threading
import time

from cards import LEAD, LOGGED, PLAYED, Card, emitted, is_captured, is_handed, left_out, playing, recording, told_lost, waited
from serving import WORD, asked_time, set_up

# how long cards are compared, in seconds
WATCHED = 20
# how many seconds of a device lie at most between it and its program
MOST_DELAY = 0.25
# how long a relay runs, in seconds, and the slacks of some, in milliseconds. A thousandth of a second is a millisecond
RELAYED, SLACKS = 60, (15, 20, 30)
# how long relays follow a clock, in seconds, and by how many frames what they make up for may differ from the drift
FOLLOWED, MOST_APART = 25, 60
# how late the time of a device may be after what its program gave, in seconds, and how many of a hundred may be later
BEHIND, MOST_BEHIND = 0.1, 2


class Watch(threading.Thread):
    """Compares the times of devices with what their programs gave, twenty times a second."""

    def __init__(self, server, cards):
        super().__init__(daemon=True)
        self.link, self.cards, self.ends = set_up(server.address), cards, False
        self.asked = self.ahead = self.behind = 0
        # how many frames each gave, with the moment
        self.gave = [[(time.monotonic(), 0)] for _ in cards]
        self.start()

    def run(self):
        while not self.ends:
            for device, card in enumerate(self.cards):
                self.compare(device, card, self.gave[device])
            time.sleep(0.05)
        self.link.close()

    def compare(self, device, card, gave):
        begun = time.monotonic()
        gave.append((begun, card.counts()[1]))
        while len(gave) > 2 and gave[1][0] <= begun - BEHIND:
            gave.pop(0)
        passed = card.place(asked_time(self.link, device))
        self.asked += 1
        self.ahead += passed > card.counts()[0]
        self.behind += gave[0][0] <= begun - BEHIND and passed < gave[0][1]

    def end(self, trial):
        self.ends = True
        self.join()
        told = "%d of %d ahead, %d behind" % (self.ahead, self.asked, self.behind)
        trial.holds("no time is ahead of what was given: " + told, self.asked > 10 and self.ahead == 0)
        trial.holds("times follow what was given: " + told, 100 * self.behind <= MOST_BEHIND * self.asked)


def compared(trial, cards, seconds):
    """Has all cards play and record at once, in one server."""
    with trial.serve(*cards) as server:
        recorders = [recording(server, device, card, seconds) for device, card in enumerate(cards)]
        players = [playing(server, device, card, seconds - LEAD - 1) for device, card in enumerate(cards)]
        watch = Watch(server, cards)
        begun = [(time.monotonic(), card.counts()[1]) for card in cards]
        ends = [(recorder.given(trial), player.given(trial)) for recorder, player in zip(recorders, players)]
        watch.end(trial)
        for card, (recorded, played) in zip(cards, ends):
            if recorded and played:
                is_captured(trial, card, recorded[1])
                is_handed(trial, server, card, played, seconds - LEAD - 1)
        trial.ends(server)
    return begun


def clocks(trial):
    """Three clocks, one slow, one fast and one even, with bursts of up to 50 milliseconds. The time of one wraps meanwhile."""
    compared(trial, [
        Card("slow", "lin16", 48000, 2, start=WORD - 5 * 48000, speed=0.99, jitter=40),
        Card("fast", "lin16", 8000, start=7, speed=1.001, jitter=40),
        Card("even", "mu255", 8000, speed=1, jitter=40)], WATCHED)


def eight(trial):
    """All devices are cards."""
    shapes = [("mu255", 8000, 1), ("lin16", 8000, 2), ("lin16", 11025, 1), ("lin16", 8000, 1), ("mu255", 11025, 2), ("lin16", 16000, 1),
              ("lin16", 8000, 2), ("mu255", 16000, 1)]
    compared(trial, [
        Card("card%d" % at, *shape, speed=0.99 + at / 400, jitter=5 * at) for at, shape in enumerate(shapes)], 6)


def stands(trial):
    """A card whose clock stands still for a second: so does the time of its device, and nothing is lost."""
    compared(trial, [Card("stood", "lin16", 16000, 2, stands="2.5:1")], 6)


def delay(card, lost):
    """How many seconds of sound a program was not handed yet of what was captured from it, but for what was lost."""
    given, taken = card.counts()[1:]
    return (given - lost - taken // card.width) / card.rate


def loses(trial, seconds=7, least=0.4, most=1.2, disturb=None, **words):
    """A card that takes nothing for a second, or is away: some of what left the device is lost, and no delay stays."""
    card = Card("lost", "lin16", 48000, 2, **words)
    with trial.serve(card, before=LOGGED) as server:
        recorder, player = recording(server, 0, card, seconds), playing(server, 0, card, seconds - LEAD - 1)
        if disturb:
            disturb(server)
        recorded, played = recorder.given(trial), player.given(trial)
        if recorded and played:
            is_captured(trial, card, recorded[1])
            time.sleep(0.5)
            heard = card.got("heard")
            # what left the device ends with silence, of which there is enough to compare
            whole = emitted(card, played, card.sound(round((seconds - LEAD - 1) * card.rate), PLAYED), 2 * seconds * card.rate)
            lost = left_out(heard, whole, card.width)
            told = "%s frames, %d came too late" % (lost, played.late)
            trial.holds("what it was handed is in order: " + told, lost is not None and played.late == 0)
            if lost is not None:
                trial.holds("it lost what found no room: " + told, least * card.rate <= lost <= most * card.rate)
                trial.holds("no delay stays: %.3f s" % delay(card, lost), delay(card, lost) <= MOST_DELAY)
                trial.holds("the log counts what was lost: %d of %s" % (told_lost(server), told), told_lost(server) == lost)
        trial.holds("it was started once", card.told(1) == [])
        trial.ends(server, is_logged=True)


def deaf(trial):
    """A card that takes nothing for a second, while it gives."""
    loses(trial, deaf="3:1")


def hangs(trial):
    """A program that stands still for a second, and makes up for it: all it gives is captured."""
    loses(trial, least=0, most=1.2, hangs="3:1")


def server_stood(trial):
    """A server that stands still for three seconds blames nobody, and leaves no delay."""

    def stop(server):
        time.sleep(2)
        server.process.send_signal(signal.SIGSTOP)
        time.sleep(3)
        server.process.send_signal(signal.SIGCONT)

    loses(trial, seconds=9, least=0, most=4, disturb=stop)


def microphone(trial):
    """A microphone: what it gives is captured, and what leaves the device is lost."""
    card = Card("mic", "lin16", 16000, 2, "microphone", speed=1.01, jitter=20)
    with trial.serve(card) as server:
        recorder, player = recording(server, 0, card, 3), playing(server, 0, card, 1, 0.5)
        recorded, played = recorder.given(trial), player.given(trial)
        if recorded and played:
            is_captured(trial, card, recorded[1])
        trial.holds("its time is that of its program", server.time() <= card.counts()[0])
        trial.ends(server)


def speaker(trial):
    """Loudspeakers with slow and fast clocks: what they are handed has no gap, and comes in hundredths of a second."""
    cards = [
        Card("slow", "lin16", 48000, 2, "speaker", takes="pace", speed=0.95, jitter=10),
        Card("fast", "mu255", 8000, 1, "speaker", takes="pace", speed=1.05, jitter=10)]
    seconds = 8
    with trial.serve(*cards) as server, set_up(server.address) as link:
        players = [playing(server, device, card, seconds - LEAD - 1) for device, card in enumerate(cards)]
        recorder = recording(server, 0, cards[0], 3)
        begun, times, delays = time.monotonic(), [[], []], [[], []]
        while time.monotonic() - begun < seconds:
            for device, card in enumerate(cards):
                taken = card.counts()[2] // card.width
                times[device].append(card.place(asked_time(link, device)))
                delays[device].append((times[device][-1] - taken) / card.rate)
            time.sleep(0.02)
        for device, card in enumerate(cards):
            is_speaker(trial, server, card, players[device].given(trial), times[device], delays[device])
        recorded = recorder.given(trial)
        trial.holds("a loudspeaker captures silence", recorded and not any(recorded[1]))
        trial.ends(server)


def is_speaker(trial, server, card, played, times, delays):
    """Whether a loudspeaker was handed everything, at its own pace."""
    pieces = [it for it in times if it % (card.rate // 100)]
    trial.holds("%s: time goes on in pieces: %s" % (card.name, pieces[:3]), not pieces)
    delays = sorted(delays)
    # a piece, what the server keeps in the socket, what the program was late by
    told = "%.3f s in the middle, %.3f s at most" % (delays[len(delays) // 2], delays[-1])
    trial.holds("%s: little lies before it: %s" % (card.name, told), delays[len(delays) // 2] <= 0.15)
    if played:
        is_handed(trial, server, card, played, 8 - LEAD - 1, 0)


def relay(trial):
    """A relay between servers whose cards differ by a thousandth: it starts afresh whenever they drift apart by the slack."""
    fast, even = Card("fast", "lin16", 8000, speed=1.001, period=2), Card("even", "lin16", 8000, period=2)
    with trial.serve(fast) as near, trial.serve(even) as far:
        time.sleep(1)
        relays = [subprocess.Popen(
            [trial.af, "apass", near.address, far.address, "--blocks=%d" % (RELAYED * 40), "--block=200", "--slack=%d" % slack],
            stdout=subprocess.PIPE) for slack in SLACKS]
        time.sleep(RELAYED)
        starved = waited(near.process.pid, far.process.pid)
        for slack, passed in zip(SLACKS, relays):
            words = passed.communicate(timeout=20)[0].split()
            is_afresh(trial, slack, int(words[3]) if len(words) == 4 else -1, starved)
        trial.holds("each card was started once", fast.told(1) == even.told(1) == [])
        trial.ends(near)
        trial.ends(far)


def follows(trial):
    """Relays each way between servers whose cards differ by a thousandth: they follow the clock, and each frame is heard."""
    fast, even = Card("fast", "lin16", 8000, speed=1.001, period=2), Card("even", "lin16", 8000, period=2)
    with trial.serve(fast) as near, trial.serve(even) as far:
        time.sleep(1)
        ways = [(near, far, even, 1), (far, near, fast, -1)]
        relays = [subprocess.Popen(
            [trial.af, "apass", one.address, other.address, "--follow", "--blocks=%d" % (FOLLOWED * 40), "--block=200",
             "--delay=500", "--slack=400"],
            stdout=subprocess.PIPE, stderr=subprocess.PIPE, env={**os.environ, "AUDIOFILE_DETAILS": "1"}) for one, other, _, _ in ways]
        ends = [passed.communicate(timeout=FOLLOWED + 20) for passed in relays]
        time.sleep(1)
        starved = waited(near.process.pid, far.process.pid)
        for (_, _, card, sign), (line, details) in zip(ways, ends):
            is_followed(trial, card, line, details, sign, starved)
        trial.ends(near)
        trial.ends(far)


def is_followed(trial, card, line, details, sign, starved):
    """Whether a relay never started afresh, made up for the drift, and its sound was heard frame by frame."""
    passed = "passed %d resynced 0" % (FOLLOWED * 40)
    trial.holds("to %s: %s: %s" % (card.name, passed, line), line.decode().strip() == passed)
    found = re.search(rb"played (\d+) frames? twice to follow the clock, left (\d+) frames? out", details)
    doubled, without = map(int, found.groups()) if found else (-1, -1)
    drift, some = FOLLOWED * card.rate // 1000, MOST_APART + starved * card.rate
    told = "to %s: %d frames twice, %d left out, a drift of %d, starved for %.2f s" % (card.name, doubled, without, drift, starved)
    trial.holds("it makes up for the drift: " + told, found and abs(sign * (without - doubled) - drift) <= some)
    heard = card.got("heard").strip(b"\0")
    frames = struct.unpack(">%dH" % (len(heard) // 2), heard[:len(heard) // 2 * 2])
    steps = [(later - one) % 65535 if one and later else -1 for one, later in zip(frames, frames[1:])]
    counts = [steps.count(it) for it in (0, 1, 2)]
    # nothing follows the last frame of all, so that it is left out is not seen
    trial.holds(
        "each frame is heard, some twice, some left out: %s of %d: %s" % (counts, len(steps), told),
        sum(counts) == len(steps) and counts[0] == doubled and without - counts[2] in (0, 1))


def is_afresh(trial, slack, resynced, starved):
    """Whether a relay started afresh as often as is wanted, but for what the machine made late."""
    wanted, some = RELAYED / slack, 1.5 + starved * 1000 / slack
    told = "%d times, %.1f are wanted, servers starved for %.2f s" % (resynced, wanted, starved)
    trial.holds("of a slack of %d milliseconds it starts afresh %s" % (slack, told), max(0, wanted - some) <= resynced <= wanted + some)
