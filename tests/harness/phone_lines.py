"""Trials of tools/try-phone: what the program of a telephone line writes and is handed, and how it ends and comes back."""

import os
import signal
import subprocess
import time

from card_ends import is_gone
from cards import audiofile, wait_for
from phones import LATE, SILENT_LINE, Phone, Watcher, comes_back, digits
from serving import ROOT, set_up
from stuck_programs import MOST_LONGER, Prober, children
from trial_runner import STARVED

# how a server ends whose program cannot be started, and how long its program may stay after its end, in seconds
ATTACH_FAULT, GRACE = 9, 0.2
# how one ends whose waits are spent
WAITS_SPENT = 11
CONTRIB = os.path.join(ROOT, "contrib")
SILENT = "device mu255 8000 0 silent"
# each of these is none of the lines that a program may write
WRONG = (
    b"ring\n", b"ring on \n", b"RING ON\n", b"digit E\n", b"\n", b"hook off\r\n", b"#" + 64 * b"x" + b"\n", b"#" + 64 * b"x")


def hooked(server, device, off):
    """Has the line taken off the hook, or put on it: an error, if it is refused. The flags of the line then."""
    refused = None
    with audiofile.connect(server.address, timeout=20) as connection:
        try:
            connection.hook(device, off)
        except audiofile.Refused as fault:
            refused = fault.name
        return refused, connection.phone(device)


def is_ended(trial, server, phone, wrong, process, wrote):
    """Whether a program is ended at a wrong line, and started again after a second. What comes next is told."""
    what = "%r" % wrong
    trial.holds("a program that wrote %s is gone" % what, wait_for(lambda: is_gone(process), GRACE + LATE + 1))
    trial.holds("%s: another one is told the hook" % what, phone.is_handed("onhook", start=1, seconds=4 + LATE))
    comes_back(trial, what, server, (phone.moment("process", 1) or 0) - (wrote or 0))
    phone.say("digit 3", start=1)


def wrong_lines(trial):
    """Eight programs, each with another fault in a line. What came before is told, and what comes after it is lost. One of them
    does not go by itself, and is killed."""
    phones = [Phone("wrong%d" % at, at, 1, *["stays"] * (at == 7)) for at in range(8)]
    with trial.serve(*8 * [SILENT_LINE], *phones) as server:
        watcher = Watcher(server, *range(8))
        processes = [phone.process() for phone in phones]
        trial.holds("all are started: %s" % processes, all(processes))
        wrote = [phone.give(b"digit 1\n" + wrong + b"digit 2\n") for phone, wrong in zip(phones, WRONG)]
        for each in zip(phones, WRONG, processes, wrote):
            is_ended(trial, server, *each)
        wait_for(lambda: len(watcher.events) >= 16)
        told = [[event for event in watcher.told() if event[1] == device] for device in range(8)]
        wanted = [digits("13", device) for device in range(8)]
        trial.holds("what comes before a fault is told, and nothing after it: %s" % told, told == wanted)
        trial.holds("eight processes are left", len(children(server)) == 8)
        trial.ends(server)


def pieces(trial):
    """Lines that come byte by byte, and many lines at once. Each change is told once, in order. A line has 64 bytes at most."""
    phone = Phone("pieces")
    with trial.serve(SILENT_LINE, phone) as server:
        watcher = Watcher(server)
        text = b"ring on\n# a comment\nloop on\ndigit #\n#\nring off\nloop off\n#" + 63 * b"x" + b"\ndigit D\n"
        for at in range(len(text)):
            phone.give(text[at:at + 1])
        told = [("RING", 0, 1), ("CURRENT", 0, 1), *digits("#"), ("RING", 0, 0), ("CURRENT", 0, 0), *digits("D")]
        trial.holds("lines in pieces are told: %s" % watcher.told(), watcher.is_told(*told))
        dialled = 125 * "12345678"
        phone.say(*("digit " + it for it in dialled))
        trial.holds("a thousand lines at once are told", watcher.is_told(*told, *digits(dialled)))
        phone.say("ring on", "ring on")
        told_last = watcher.is_told(*told, *digits(dialled), *2 * [("RING", 0, 1)])
        trial.holds("what is said twice is told twice", told_last)
        trial.holds("it is the first program still", phone.told(1) == [])
        trial.ends(server)


def told_the_hook(trial):
    """A program that starts again is told the state of the hook. The hook can be moved also while none runs."""
    phone = Phone("anew", 0, 5)
    with trial.serve(SILENT_LINE, phone) as server:
        watcher = Watcher(server)
        trial.holds("it is told the hook at its start", phone.is_handed("onhook"))
        for off in (True, False, True):
            hooked(server, 0, off)
        trial.holds("and each move", phone.is_handed("onhook", "offhook", "onhook", "offhook"))
        os.kill(phone.process(), signal.SIGKILL)
        trial.holds("the next one is told that it is off", phone.is_handed("offhook", start=1))
        phone.end()
        trial.holds("a program that ends is gone", wait_for(lambda: is_gone(phone.process(1)), 2 + LATE))
        refused, line = hooked(server, 0, False)
        trial.holds("while none runs the hook is moved: %s" % (line,), refused is None and not line.dead)
        moved = [("HOOK", 0, 1), ("HOOK", 0, 0), ("HOOK", 0, 1), ("HOOK", 0, 0)]
        trial.holds("and that is told: %s" % watcher.told(), watcher.is_told(*moved))
        trial.holds("the one after it is told that it is on", phone.is_handed("onhook", start=2))
        trial.ends(server)


def no_start_left(trial):
    """A line whose program ended, and that has no start left, is dead as soon as the hook is moved. Another one goes on."""
    phone, other = Phone("last", 0), Phone("other", 1)
    with trial.serve(SILENT_LINE, SILENT_LINE, phone, other) as server:
        watcher = Watcher(server, 0, 1)
        os.kill(phone.process(), signal.SIGKILL)
        trial.holds("it is gone, and no zombie is left", wait_for(lambda: is_gone(phone.process()), 2 + LATE))
        time.sleep(0.2)
        refused, line = hooked(server, 0, True)
        trial.holds("a move of the hook is taken: %s" % refused, refused is None)
        with audiofile.connect(server.address, timeout=20) as connection:
            dead = lambda: connection.phone(0).dead
            trial.holds("then the line is dead", wait_for(dead, 2 + LATE))
            trial.holds("another line is not", not connection.phone(1).dead)
        refused, line = hooked(server, 0, False)
        trial.holds("the next move is refused: %s" % refused, refused == "BadLine")
        hooked(server, 1, True)
        trial.holds("the other one is handed its hook", other.is_handed("onhook", "offhook"))
        trial.holds("and that alone is told: %s" % watcher.told(), watcher.is_told(("HOOK", 1, 1)))
        time.sleep(1.5)
        trial.holds("it is not started again", phone.told(1) == [])
        trial.ends(server)


def two_lines(trial):
    """Two lines, each with a program of its own, and a line without one between them."""
    left, right = Phone("left", 0), Phone("right", 2)
    with trial.serve(SILENT_LINE, SILENT_LINE, SILENT_LINE, right, left) as server:
        watcher = Watcher(server, 0, 1, 2)
        left.say("ring on")
        trial.holds("a ring comes by its device alone: %s" % watcher.told(), watcher.is_told(("RING", 0, 1)))
        hooked(server, 2, True)
        told = [("RING", 0, 1), ("HOOK", 2, 1)]
        trial.holds("a hook goes to its program alone: %s" % left.hooks(), right.is_handed("onhook", "offhook"))
        hooked(server, 1, True)
        trial.holds("a line without a program has a hook", watcher.is_told(*told, ("HOOK", 1, 1)))
        right.say("digit 7")
        trial.holds("a digit comes by its device alone: %s" % watcher.told(), watcher.is_told(*told, ("HOOK", 1, 1), *digits("7", 2)))
        trial.holds("the other program was handed nothing: %s" % left.hooks(), left.hooks() == ["onhook"])
        trial.ends(server)


def cannot_start(trial):
    """A line whose program cannot be started is not attached, and the server ends."""
    for number in (0, 1):
        lines = "%s\n%s\nphone %d 10 there-is-no-such-program\n" % (SILENT_LINE, SILENT_LINE, number)
        ended = subprocess.run([trial.afd, "serve", "127.0.0.1:0", "100"], input=lines.encode(), capture_output=True, timeout=20)
        wanted = (ATTACH_FAULT, b"afd: device %d failed\n" % number)
        trial.holds("no program of a line: %s" % (ended,), (ended.returncode, ended.stderr) == wanted)


def configuration(trial):
    """The configuration in contrib/, and those in its comments: the server takes each, and starts the program of the line."""
    with open(os.path.join(CONTRIB, "answering-machine.conf")) as file:
        lines = [line.lstrip("# ") for line in file if line.lstrip("# ").startswith(("device ", "phone "))]
    devices, phones = ([line for line in lines if line.startswith(it)] for it in ("device ", "phone "))
    trial.holds("it has two devices and three phones to choose from", (len(devices), len(phones)) == (2, 3))
    for text in (device + phone for device in devices for phone in phones):
        # no card and no modem is there for them
        environment = {**os.environ, "PATH": "%s:%s" % (CONTRIB, os.environ["PATH"]), "PULSE_SERVER": "none"}
        done = subprocess.run(
            [trial.afd, "serve", "127.0.0.1:0", "5"], input=text.encode(), capture_output=True, timeout=20, env=environment,
            cwd=trial.folder)
        trial.holds("%s: %s" % (text, done), done.returncode == WAITS_SPENT)


def floods(trial):
    """A program that writes digits without an end keeps no client of another device waiting. One try of three shows the server: a
    machine that is starved may be slow."""
    for _ in range(3):
        phone = Phone("flood")
        with trial.serve(SILENT_LINE, SILENT, phone) as server:
            trial.holds("it runs", phone.process() is not None)
            phone.flood()
            time.sleep(0.5)
            prober = Prober(server, 1)
            time.sleep(3)
            longer = prober.end()
            with set_up(server.address) as link:
                trial.holds("a client is served meanwhile", link is not None)
            trial.holds("it goes on", phone.moment("nobody takes") is None and phone.told(1) == [])
            trial.ends(server)
        if longer <= MOST_LONGER:
            break
    else:
        if trial.starved() >= STARVED:
            trial.told.append("%s says nothing: the machine let the server and its clients wait for %.1f s" % (trial.trial, trial.starved()))
            return
    trial.holds("beside a program that floods %.1f of 100 GetTimes take longer than 50 ms" % longer, longer <= MOST_LONGER)
