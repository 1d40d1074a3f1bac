"""Trials of tools/try-cards: programs that end and come back, that are ended since they stand still, and that cannot be started.
While no program runs the clock of the system counts, silence is captured, and sound is lost."""

import contextlib
import os
import signal
import subprocess
import sys
import threading
import time

from cards import PLAYED, Card, emitted, is_captured, is_thinned, playing, recording, wait_for
from serving import WORD, asked_time, set_up
from stuck_programs import children

# how long a program may do nothing before it is ended, and how long it may stay then, in seconds
STALL, GRACE = 2, 0.2
# a machine that does much else is late, in seconds
LATE = 1
# how a device of the server ends that could not be attached
ATTACH_FAULT = 9


def is_gone(process):
    """Whether there is no such process any more, not even one that nobody has waited for."""
    return not os.path.exists("/proc/%d" % process)


def states(server):
    """The state of each child of a server, as the system has it: Z is a zombie."""
    found = {}
    for child in children(server):
        with contextlib.suppress(OSError):
            with open("/proc/%d/stat" % child) as file:
                found[child] = file.read().rpartition(")")[2].split()[0]
    return found


def after(trial, card, recorded, frames, start=1):
    """Where the sound of the next start begins in what was recorded: after so many frames of the first one, and silence. None if
    it is nowhere, and that is reported."""
    width = card.width
    trial.holds("all that the first program gave is captured", recorded[:frames * width] == card.sound(frames))
    at = recorded.find(card.sound(100, start), frames * width)
    is_whole = at >= 0 and at % width == 0
    began = card.moment("process", start)
    told = "at byte %d, begun %s s after the first" % (at, began and began - card.moment("process"))
    trial.holds("the next program is captured from its first frame on: " + told, is_whole)
    if not is_whole:
        return None
    between = recorded[frames * width:at]
    trial.holds("between the two silence is captured", between == card.silent(len(between) // width))
    rest = recorded[at:]
    trial.holds("each frame of the next program is captured once", rest == card.sound(len(rest) // width, start))
    return at // width


def gap(trial, card, frames):
    """Whether so many frames are what the clock counts between two starts, which is a second and what the machine is late."""
    seconds, between = frames / card.rate, card.moment("process", 1) - (card.moment("nobody") or card.moment("ends"))
    trial.holds("the next start is after a second: %.3f s" % between, 0.98 <= between <= 1 + LATE)
    trial.holds("the clock counts in between: %.3f s of %.3f" % (seconds, between), abs(seconds - between) <= 0.1 + LATE / 4)


def ends_early(trial, **words):
    """A card that ends after a second and a half, and comes back a second later. Where its next program begins."""
    card = Card("ends", "lin16", 16000, 2, restarts=1, frames=24000, spoiled=1, **words)
    with trial.serve(card) as server:
        recorder, player = recording(server, 0, card, 5), playing(server, 0, card, 4, 0.5)
        recorded, played = recorder.given(trial), player.given(trial)
        at = after(trial, card, recorded[1], 24000) if recorded else None
        if at is not None:
            gap(trial, card, at - 24000)
            is_handed_again(trial, server, card, played, at)
        trial.ends(server)


def is_handed_again(trial, server, card, played, at):
    """Whether each program was handed what left the device while it ran. What lay before the first as it ended is lost."""
    width = card.width
    whole = emitted(card, played, card.sound(4 * card.rate, PLAYED), 6 * card.rate)
    first, second = card.got("heard"), card.got("heard", 1)
    is_thinned(trial, server, card, "the first program is handed what left the device", first, whole)
    trial.holds("no more than it gave: %d bytes" % len(first), len(first) <= 24000 * width)
    end = min(len(second), len(whole) - at * width)
    trial.holds("the next one is handed more than a second: %d bytes" % end, end > card.rate * width)
    is_thinned(trial, server, card, "the next one is handed what left the device then", second[:end], whole[at * width:], 1)


def comes_back(trial):
    ends_early(trial)


def part_of_a_frame(trial):
    """The last part of a frame is captured by nobody, and the next program begins with a whole one."""
    ends_early(trial, part=2)


def waits(trial):
    """A program that ends at once is started again after a second, and after two. Then its device is dead; another goes on."""
    card = Card("short", "lin16", 16000, restarts=2, frames=160)
    with trial.serve(card, "device mu255 8000 0 silent") as server:
        recorder = recording(server, 0, card, 5)
        wait_for(lambda: card.moment("ends", 2), 10)
        moments = [(card.moment("process", it), card.moment("ends", it)) for it in range(3)]
        trial.holds("it is started three times: %s" % moments, all(all(it) for it in moments))
        if all(all(it) for it in moments):
            waited = [moments[it + 1][0] - moments[it][1] for it in range(2)]
            told = "%.3f s and %.3f s" % tuple(waited)
            # the program's own beginning and end take some time
            trial.holds("a second and two go by before: " + told, all(0.97 <= it - least <= 1 + LATE for it, least in zip(waited, (0, 1))))
        recorded = recorder.given(trial)
        if recorded:
            is_dead(trial, server, card, recorded[1])
        trial.ends(server)


def is_dead(trial, server, card, recorded):
    """Whether all starts were captured, and none follows."""
    pieces = [recorded.find(card.sound(160)), recorded.rfind(card.sound(160))]
    trial.holds("what it gave is captured each time: from %s on" % pieces, recorded.count(card.sound(160)) == 3 and pieces[0] == 0)
    trial.holds("else silence is", sum(any(recorded[at:at + 2]) for at in range(0, len(recorded), 2)) == 480)
    before = server.time()
    time.sleep(1)
    passed = (server.time() - before) % WORD
    trial.holds("the time of a dead device goes on: %d frames in a second" % passed, 0.9 * card.rate <= passed <= (1.1 + LATE) * card.rate)
    trial.holds("no process is left", wait_for(lambda: children(server) == [], 5))
    trial.holds("it is not started again", card.told(3) == [])


def run_seldom(server, is_over):
    """Lets a server run for two milliseconds of twenty, until all is over."""
    while not is_over.is_set():
        server.process.send_signal(signal.SIGSTOP)
        time.sleep(0.018)
        server.process.send_signal(signal.SIGCONT)
        time.sleep(0.002)


def seldom_run(trial):
    """A server that seldom runs, and has clients, finds frames due in each round. It starts a program again nevertheless."""
    card = Card("short", "lin16", 16000, 2, restarts=1, frames=480)
    with trial.serve(card) as server, set_up(server.address) as link:
        wait_for(lambda: card.moment("ends"))
        is_over = threading.Event()
        disturber = threading.Thread(target=run_seldom, args=(server, is_over))
        disturber.start()
        recording(server, 0, card, 9)
        playing(server, 0, card, 9, 0.5)
        wait_for(lambda: card.told(1) or asked_time(link) > (3 + LATE) * card.rate, 30)
        passed = asked_time(link) / card.rate
        is_over.set()
        disturber.join()
        trial.holds("it is started again a second later: not after %.2f s of its device" % passed, card.told(1) != [])
        trial.ends(server)


def ends_late(trial, what, card, disturb=None, other="device mu255 8000 0 silent"):
    """A program that is ended since it stands still, killed since it stays, and waited for. Its device goes on by the clock, and
    it is started again."""
    begun = time.monotonic()
    with trial.serve(card, other) as server:
        first = card.process()
        if disturb:
            disturb(first)
        gone = wait_for(lambda: is_gone(first), STALL + GRACE + LATE + 2)
        took = time.monotonic() - begun
        trial.holds("%s is ended, and no zombie is left: after %.2f s" % (what, took), gone)
        trial.holds("it is started again", wait_for(lambda: card.told(1), 5 + LATE))
        trial.holds("one process is left", len(children(server)) == 1)
        before = server.time()
        trial.holds("its device goes on", wait_for(lambda: (server.time() - before) % WORD > card.rate / 10, 5))
        trial.ends(server)
    return took


def takes_nothing(trial):
    """A card that gives, and takes nothing: two seconds after its input was full it is ended. All it gave is captured."""
    card = Card("full", "lin16", 16000, 2, restarts=1, deaf="0:99", spoiled=1)
    with trial.serve(card) as server:
        recorder, begun = recording(server, 0, card, 5), time.monotonic()
        recorded = recorder.given(trial)
        ended = card.moment("nobody") or card.moment("ends")
        if recorded and ended:
            lived = ended - card.moment("process")
            trial.holds("it is ended after two seconds and what its input holds: %.2f s" % lived, STALL <= lived <= STALL + 0.5 + LATE)
            frames = recorded[1].find(card.silent(card.rate // 10)) // card.width
            at = after(trial, card, recorded[1], frames)
            trial.holds("what it gave and nobody took is little: %d of %d" % (frames, card.counts()[0]), card.counts()[1] - frames < card.rate)
            if at is not None:
                gap(trial, card, at - frames)
        else:
            trial.holds("it is ended", False)
        trial.holds("it was handed nothing", card.got("heard") == b"")
        trial.ends(server)


def gives_nothing(trial):
    """A microphone that gives nothing for two seconds is ended, and so is a loudspeaker that takes nothing for so long."""
    took = ends_late(trial, "a microphone that gives nothing", Card("silent", "lin16", 8000, 1, "microphone", 5, stands="0:99", spoiled=1))
    trial.holds("not before two seconds: %.2f" % took, took >= STALL)


def speaker_ends(trial):
    """A loudspeaker that is killed comes back, and one that takes nothing is ended."""
    card = Card("killed", "mu255", 8000, 1, "speaker", 5)
    ends_late(trial, "a loudspeaker that is killed", card, lambda process: os.kill(process, signal.SIGKILL))
    ends_late(trial, "a loudspeaker that takes nothing", Card("deaf", "lin16", 8000, 1, "speaker", 5, deaf="0:99", spoiled=1))
    card = Card("stopped", "lin16", 8000, 1, "speaker", 5)
    ends_late(trial, "a loudspeaker that is stopped", card, lambda process: os.kill(process, signal.SIGSTOP))


def stays(trial):
    """A program that gives no more and ignores its end is killed 200 milliseconds later, and not before. No zombie is left."""
    card = Card("stays", "lin16", 16000, 2, restarts=1, frames=8000, spoiled=1, stays=1)
    with trial.serve(card) as server:
        process = card.process()
        trial.holds("it is killed", wait_for(lambda: card.moment("stays") and is_gone(process), 3 + LATE))
        moments = [moment for moment, what in card.told() if what == "stays"]
        if moments:
            stayed = moments[-1] - moments[0]
            trial.holds("it had time to end: %.3f s" % stayed, GRACE - 0.05 <= stayed <= GRACE + LATE)
        trial.holds("it is started again", wait_for(lambda: card.told(1), 3 + LATE))
        again = card.moment("process", 1)
        if moments and again:
            trial.holds("a second after its end: %.3f s" % (again - moments[0]), 0.95 <= again - moments[0] <= 1 + LATE)
        trial.holds("one process is left", len(children(server)) == 1)
        trial.ends(server)


class Left(Card):
    """A card whose program starts a child that does the work, and ends itself. The child holds its output."""

    def lies_in(self, folder):
        super().lies_in(folder)
        with open(os.path.join(folder, "leaves.sh"), "w") as file:
            file.write('"$@" &\nexit\n')

    def line(self):
        return super().line().replace(sys.executable, "sh leaves.sh " + sys.executable)


def leaves_a_child(trial):
    """A program that ends while a child of it still gives sound is waited for. The sound goes on as long as the child does, and
    the next start comes after that."""
    card = Left("left", "lin16", 16000, 1, "microphone", restarts=1, frames=96000, spoiled=1)
    with trial.serve(card) as server:
        recorder, source = recording(server, 0, card, 8), card.process()
        is_left = wait_for(lambda: children(server) == [], 3 + LATE)
        trial.holds("the program is no zombie three seconds after its end: %s" % states(server), is_left)
        trial.holds("its child gives sound meanwhile, and is none of the server's", not card.moment("ends") and not is_gone(source))
        recorded = recorder.given(trial)
        at = after(trial, card, recorded[1], 96000) if recorded else None
        if at is not None:
            gap(trial, card, at - 96000)
        is_left = wait_for(lambda: children(server) == [], 3 + LATE)
        trial.holds("neither is the next one: %s" % states(server), is_left)
        trial.ends(server)
    trial.holds("its child ends as the server does", wait_for(lambda: card.moment("ends", 1)))


def closes_its_input(trial):
    """A card that closes its input goes on as a microphone."""
    card = Card("closed", "lin16", 16000, 2, closes=1)
    with trial.serve(card) as server:
        recorded = recording(server, 0, card, 4).given(trial)
        if recorded:
            is_captured(trial, card, recorded[1])
        trial.holds("it was started once", card.told(1) == [] and len(children(server)) == 1)
        trial.ends(server)


def cannot_start(trial):
    """A device whose program cannot be started is not attached, and the server ends."""
    for at, kind in enumerate(("speaker", "microphone", "card")):
        lines = at * "device mu255 8000 0 silent\n" + "device lin16 8000 0 %s 10 there-is-no-such-program 1 2\n" % kind
        ended = subprocess.run([trial.afd, "serve", "127.0.0.1:0", "100"], input=lines.encode(), capture_output=True, timeout=20)
        wanted = (ATTACH_FAULT, b"afd: device %d failed\n" % at)
        trial.holds("no program of a %s: %s" % (kind, ended), (ended.returncode, ended.stderr) == wanted)
