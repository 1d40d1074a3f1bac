"""Trials of tools/try-phone: the answering machine at a line of the real server. What is greeted with and what is recorded is
compared sample by sample with what the caller hears and says, and the hook with what it is to be."""

import contextlib
import os
import signal
import tempfile
import time

from cards import audiofile, wait_for
from phones import LATE, RATE, SILENT_LINE, Machine, Phone, Watcher, comes_back, digits, noise
from sounds import LEAD

HELLO = noise(2, RATE // 2)
# what the caller says, from before the first call on
SPOKEN = noise(1, 40 * RATE)
SAID = RATE // 2
# `af aplay` ends as soon as all is sent, and the greeting is heard after that
GREETING = '"$AF" aplay $SERVER --lead=%d < hello >> played && sleep 2.6' % LEAD
MESSAGE = '"$AF" arecord $SERVER --frames=%d >> said' % SAID
# what a call is to those who watch the line
CALL = [("RING", 0, 1), ("RING", 0, 0), ("RING", 0, 1), ("HOOK", 0, 1), ("RING", 0, 0), ("CURRENT", 0, 1), ("HOOK", 0, 0), ("CURRENT", 0, 0)]
LONG_MESSAGE = '"$AF" arecord $SERVER --frames=%d >> said' % (3 * RATE)


@contextlib.contextmanager
def telephone(trial, phone, before=()):
    """A server whose device 0 has a line and hands what it is played to a file. Its caller says what another file has."""
    folder = tempfile.mkdtemp(dir=trial.folder)
    trial.file(folder, "in", SPOKEN)
    trial.file(folder, "hello", HELLO)
    with trial.serve("device lin16 8000 0 line files in heard", SILENT_LINE, phone, folder=folder, before=before) as server:
        yield server
        trial.ends(server)


def flags(server):
    """How the line is: whether the hook is off, whether it rings, and whether current flows."""
    with audiofile.connect(server.address, timeout=20) as connection:
        line = connection.phone(0)
    return line.wanted_off, line.given_off, line.ringing, line.current


def is_taken(trial, server, phone, *before, start=0):
    """A caller lets it ring, and the machine takes the call at the second ring. The phone was handed these hooks before."""
    phone.say("ring on", start=start)
    time.sleep(0.5)
    trial.holds("at the first ring nobody takes the call: %s" % phone.hooks(start), phone.hooks(start) == list(before))
    trial.holds("it rings: %s" % (flags(server),), flags(server) == (False, False, True, False))
    phone.say("ring off", start=start)
    rung = phone.say("ring on", start=start)
    is_off = phone.is_handed(*before, "offhook", start=start)
    took = phone.handed(start)[-1][0] - (rung or 0)
    trial.holds("at the second ring the hook is off: %.3f s later, %s" % (took, phone.hooks(start)), is_off and 0 <= took <= LATE)
    phone.say("ring off", "loop on", start=start)
    wait_for(lambda: flags(server)[3])
    trial.holds("the line is off the hook, with current: %s" % (flags(server),), flags(server) == (True, True, False, True))


def is_over(trial, server, phone, count, *before, start=0, seconds=10):
    """The machine puts the hook on, after its message. Now so many messages are there."""
    is_on = phone.is_handed(*before, "onhook", start=start, seconds=seconds)
    trial.holds("after the message the hook is on: %s" % phone.hooks(start), is_on and len(got(server, "said")) == count)
    phone.say("loop off", start=start)
    wait_for(lambda: not flags(server)[3])
    trial.holds("the line is as it was: %s" % (flags(server),), flags(server) == (False, False, False, False))


def ends_well(trial, machine, said):
    ended = machine.ended()
    trial.holds("the machine ends well: %s" % (ended,), ended == (0, said, b""))


def got(server, name):
    """What is in a file that a command makes."""
    return server.got(name) if os.path.exists(os.path.join(server.folder, name)) else b""


def greeted(server):
    """When the greetings were played."""
    return [int(line.split()[3]) for line in got(server, "played").splitlines()]


def is_greeted(trial, server, watcher, count):
    """Whether the caller heard the greeting of each call, and silence else."""
    begun, width = greeted(server), 2
    trial.holds("the greeting is played in each call: %s" % begun, len(begun) == count)
    if not begun:
        return
    server.wait_until(begun[-1] + RATE)
    heard, wanted = server.got("heard"), b""
    for at in begun:
        wanted += bytes(at * width - len(wanted)) + HELLO
    is_whole = len(heard) >= len(wanted)
    trial.holds("the caller hears the greeting, sample by sample, and silence else", is_whole and heard == wanted.ljust(len(heard), b"\0"))
    calls = zip(watcher.times("HOOK", 1), watcher.times("HOOK", 0))
    fit = [off <= at and at + len(HELLO) // width <= on for at, (off, on) in zip(begun, calls)]
    trial.holds("each is heard within its call: %s" % fit, fit == count * [True])


def is_recorded(trial, server, watcher, frames):
    """Whether each message is what the caller said in its call."""
    said, size = got(server, "said"), 2 * frames
    places = [SPOKEN.find(said[at:at + size]) for at in range(0, len(said), size)]
    trial.holds("each message is what the caller said, sample by sample: at %s" % places, all(it >= 0 and it % 2 == 0 for it in places))
    calls = zip(watcher.times("HOOK", 1), watcher.times("HOOK", 0))
    fit = [off <= at // 2 and at // 2 + frames <= on for at, (off, on) in zip(places, calls)]
    trial.holds("it was said within the call: %s" % fit, all(fit) and len(fit) == len(places) == len(said) / size)


def two_calls(trial):
    """Two calls, each taken at the second ring."""
    phone = Phone("two", 0, 5)
    with telephone(trial, phone) as server, Machine(trial, server, 2, GREETING, MESSAGE) as machine:
        watcher = Watcher(server)
        trial.holds("the hook is told at the start", phone.is_handed("onhook"))
        before = ["onhook"]
        for call in range(2):
            is_taken(trial, server, phone, *before)
            is_over(trial, server, phone, (call + 1) * 2 * SAID, *before, "offhook")
            before += ["offhook", "onhook"]
        ends_well(trial, machine, b"answered 2 recorded 2 failed 0\n")
        is_greeted(trial, server, watcher, 2)
        is_recorded(trial, server, watcher, SAID)
        trial.holds("everybody who asked is told all, in order: %s" % watcher.told(), watcher.is_told(*2 * CALL))
        trial.holds("one program did it all", phone.told(1) == [])


def hangs_up_early(trial):
    """A caller hangs up after the first ring, and the next one in the greeting. Rings count on, since nobody took the hook off:
    af(1) says so. The machine ends its call as any other."""
    phone = Phone("early", 0, 5)
    with telephone(trial, phone) as server, Machine(trial, server, 1, GREETING, MESSAGE) as machine:
        watcher = Watcher(server)
        phone.say("ring on")
        phone.say("ring off")
        time.sleep(1.5)
        trial.holds("nobody takes a call of one ring: %s" % phone.hooks(), phone.hooks() == ["onhook"])
        phone.say("ring on")
        trial.holds("the next caller is answered: %s" % phone.hooks(), phone.is_handed("onhook", "offhook"))
        phone.say("ring off", "loop on")
        wait_for(lambda: greeted(server))
        gone = phone.say("loop off")
        trial.holds("the machine hangs up after its message", phone.is_handed("onhook", "offhook", "onhook"))
        trial.holds("and not before: %.3f s later" % (phone.handed()[-1][0] - gone), phone.handed()[-1][0] - gone >= 1)
        ends_well(trial, machine, b"answered 1 recorded 1 failed 0\n")
        is_greeted(trial, server, watcher, 1)
        is_recorded(trial, server, watcher, SAID)


def digits_meanwhile(trial):
    """The caller dials as the machine answers. Whoever asked for digits is told each of them, and the machine goes on."""
    phone, dialled = Phone("dials", 0, 5), "0123456789*#ABCD"
    with telephone(trial, phone) as server, Machine(trial, server, 1, GREETING, MESSAGE, "--rings=1") as machine:
        watcher = Watcher(server)
        phone.say("ring on")
        trial.holds("the call is taken at the first ring", phone.is_handed("onhook", "offhook"))
        phone.say("ring off")
        for digit in dialled:
            phone.say("digit " + digit)
            time.sleep(0.05)
        ends_well(trial, machine, b"answered 1 recorded 1 failed 0\n")
        wait_for(lambda: len(watcher.events) >= 4 + len(dialled))
        trial.holds("each digit is told once, in order: %s" % watcher.told("DIGIT"), watcher.told("DIGIT") == digits(dialled))
        times = [it.time for it in watcher.events if it.kind.name == "DIGIT"]
        trial.holds("each at its time: %s" % times, times == sorted(times) and times[-1] - times[0] >= 0.7 * RATE)
        told = watcher.told("RING", "HOOK")
        trial.holds("the call is told: %s" % told, told == [("RING", 0, 1), ("HOOK", 0, 1), ("RING", 0, 0), ("HOOK", 0, 0)])
        is_greeted(trial, server, watcher, 1)
        is_recorded(trial, server, watcher, SAID)


def dies_in_a_call(trial):
    """The program of the line is killed in a call. It comes back in a second, is told the hook, and the next call comes by it."""
    phone = Phone("dies", 0, 5)
    with telephone(trial, phone) as server, Machine(trial, server, 2, GREETING, LONG_MESSAGE) as machine:
        watcher = Watcher(server)
        is_taken(trial, server, phone, "onhook")
        killed = time.monotonic()
        os.kill(phone.process(), signal.SIGKILL)
        trial.holds("the next program is told at once that the hook is off", phone.is_handed("offhook", start=1))
        comes_back(trial, "a program that is killed", server, phone.moment("process", 1) - killed)
        is_over(trial, server, phone, 6 * RATE, "offhook", start=1)
        is_taken(trial, server, phone, "offhook", "onhook", start=1)
        is_over(trial, server, phone, 12 * RATE, "offhook", "onhook", "offhook", start=1)
        ends_well(trial, machine, b"answered 2 recorded 2 failed 0\n")
        is_greeted(trial, server, watcher, 2)
        is_recorded(trial, server, watcher, 3 * RATE)
        trial.holds("the first program was told of one call: %s" % phone.hooks(), phone.hooks() == ["onhook", "offhook"])


def never_rings(trial):
    """A line that does not ring: the machine waits, and does nothing. What is no ring is none."""
    phone = Phone("quiet", 0, 5)
    with telephone(trial, phone) as server, Machine(trial, server, 1, GREETING, MESSAGE, "--rings=1") as machine:
        phone.say("# ring on", "ring off", "loop on", "digit 1", "loop off")
        time.sleep(3)
        trial.holds("the machine waits", machine.runs())
        trial.holds("the hook is on: %s" % phone.hooks(), phone.hooks() == ["onhook"] and flags(server) == (False, False, False, False))
        files = sorted(os.listdir(server.folder))
        trial.holds("no command runs: %s" % files, "played" not in files and "said" not in files)
