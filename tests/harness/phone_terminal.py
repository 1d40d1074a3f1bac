"""Trials of tools/try-phone: the telephone of a person at a terminal, alone, and with the answering machine of a real server."""

import os
import signal
import socket
import subprocess
import sys
import termios

from cards import wait_for
from phone_alone import CONTRIB, FINDS, Line, Pty, callers, is_called, rings, run
from phone_calls import GREETING, MESSAGE, telephone
from phones import LATE, Machine, Watcher

TERMINAL = os.path.join(CONTRIB, "audiofile-phone-terminal")
# becomes a program whose terminal is its own, so that keys send signals
OWN_TERMINAL = """
import fcntl, os, sys, termios
os.setsid()
fcntl.ioctl(0, termios.TIOCSCTTY, 0)
os.execv(sys.argv[1], sys.argv[1:])
"""


# keys after `n`, with the numbers that are told. Of a long one the last twenty digits are
NUMBERS = [
    ("5551234\n", "5551234"), ("0\n", "0"), ("+49 (30) 555-12.34\n", "49305551234"),
    ("98" + "12345678901234567890\n", "12345678901234567890"), ("1" + "5" * 3000 + "1\n", "5" * 20),
    ("99\x7f\b\b5551\x7f234\n", "555234"), ("5551234\x1b", "5551234")]
# what is no number
WITHHELD = ["\n", "\r", "+\n", "- \n", "5+5\n", "++5\n", "5\x7f\n", "\x1b"]


class Person(Pty):
    """A person at a terminal, with the telephone in its hands. Used with `with`, the telephone is ended at the end."""

    def __init__(self, folder):
        super().__init__()
        self.before = self.mode()
        self.process = subprocess.Popen(
            [sys.executable, "-c", OWN_TERMINAL, TERMINAL, "phone.socket"], cwd=folder, stdin=self.slave, stdout=self.slave,
            stderr=self.slave)

    def __exit__(self, *_):
        self.process.kill()
        self.process.wait()
        self.close()

    def press(self, keys):
        os.write(self.master, keys.encode())

    def is_single(self):
        """Whether the terminal gives each key at once, and does not show it."""
        return not self.mode()[3] & (termios.ICANON | termios.ECHO)

    def ended(self):
        """Its status, and whether the terminal is as it was."""
        try:
            return self.process.wait(20), self.mode() == self.before
        except subprocess.TimeoutExpired:
            return None, False


def terminal(trial):
    """Calls of a person: what the line says at each key, and what the person sees."""
    folder = trial.folder
    with Line(folder, TERMINAL, "--line", "phone.socket") as line:
        trial.holds("it begins without a call", line.says("ring off", "loop off"))
        line.hand("onhook")
        with Person(folder) as person:
            trial.holds("the keys and the hook are shown", person.sees("q quit") and person.sees("on the hook"))
            person.press("5")
            trial.holds("without a call nobody hears digits", person.sees("nobody hears digits") and line.says())
            is_answered(trial, line, person)
            person.press("5#a")
            trial.holds("digits are said", line.says("digit 5", "digit #", "digit A"))
            with Person(folder) as other:
                trial.holds("a second person is turned away", other.sees("somebody else is at this line"))
                trial.holds("and its terminal is as it was", other.ended() == (1, True))
            person.press("h")
            trial.holds("the current stops as the caller hangs up", line.says("loop off") and person.sees("hung up"))
            person.press("r")
            trial.holds("a phone that is off the hook is busy", person.sees("busy") and line.says())
            line.hand("onhook")
            trial.holds("the hook is shown", person.sees("on the hook") and line.says())
            person.press("rh")
            trial.holds("a caller may give up", line.says("ring on", "ring off") and person.sees("hung up"))
            line.hand("offhook")
            trial.holds("who takes it off without a call has current", line.says("loop on") and person.sees("off the hook"))
            line.hand("onhook")
            trial.holds("until it is on again", line.says("loop off") and person.sees("on the hook"))
            line.near.settimeout(20)
            line.near.sendall(b"offhook\nonhook\n" * 3000)
            moved = ["loop on", "loop off"] * 3000
            trial.holds("each of many moves of the hook acts", line.says(*moved) and person.sees("on the hook"))
            person.press("rq")
            trial.holds("who leaves hangs up", line.says("ring on", "ring off"))
            trial.holds("the terminal is as it was", person.ended() == (0, True))
        trial.holds("the line ends with the server, and says nothing", line.close() == (0, b""))
    trial.holds("its socket is gone", not os.path.exists(os.path.join(folder, "phone.socket")))


def terminal_numbers(trial):
    """A person states a number, which is told before the first ring of each call from then on. What is no number is not told."""
    folder = trial.folder
    with Line(folder, TERMINAL, "--line", "phone.socket") as line:
        line.hand("onhook")
        trial.holds("it begins without a call", line.says("ring off", "loop off"))
        with Person(folder) as person:
            person.press("rh")
            trial.holds("at first there is no number", line.says(*rings(), "ring off") and person.sees("hung up"))
            for keys, number in [*NUMBERS, *((it, "") for it in WITHHELD)]:
                person.press("n" + keys)
                told = "the number is %s\r\n" % number if number else "there is no number\r\n"
                trial.holds("the number of %s is shown" % ascii(keys)[:40], person.sees(told) and line.says())
                person.press("rh")
                trial.holds("and told as %r" % number, line.says(*rings(number), "ring off") and person.sees("hung up"))
            person.press("n5551234rr")
            is_called = person.sees("ring 1") and person.sees("there is a call already")
            trial.holds("a key that is of no number does its deed", is_called)
            told = line.says(*rings("5551234"), "ring off", "ring on")
            trial.holds("the second ring comes without a number", told)
            line.hand("offhook")
            trial.holds("the call is answered", person.sees("the call is answered") and line.says("ring off", "loop on"))
            person.press("n30#5h")
            told = line.says("digit #", "digit 5", "loop off") and person.sees("hung up")
            trial.holds("in a call digits are digits again then", told)
            line.hand("onhook")
            trial.holds("the hook is on", person.sees("on the hook"))
            person.press("rh")
            trial.holds("the next call has the last number", line.says(*rings("30"), "ring off"))
            person.press("n7")
            person.press("q")
            trial.holds("who leaves leaves while typing, too", person.ended() == (0, True))
        with Person(folder) as person:
            person.press("rh")
            trial.holds("the next person has no number", line.says("ring on", "ring off"))
        trial.holds("the line ends with the server, and says nothing", line.close() == (0, b""))


def terminal_callers(trial):
    """Clients of a real server are told who calls."""
    numbers = ["5551234", "5551234", "", "49305551234"]
    with callers(trial, "audiofile-phone-terminal --line phone.socket", *numbers) as server:
        trial.holds("the line is there", wait_for(lambda: is_there(os.path.join(server.folder, "phone.socket"))))
        with Person(server.folder) as person:
            trial.holds("the person sees the hook", person.sees("on the hook"))
            person.press("n5551234\nrhrhn\nrhn+49305551234\nrh")
            trial.holds("the person sees the last call", person.sees("the number is 49305551234") and person.sees("hung up"))


def is_there(path):
    """Whether a line takes persons at a socket. Who asks comes and goes as one."""
    with socket.socket(socket.AF_UNIX) as link:
        return link.connect_ex(path) == 0


def is_answered(trial, line, person):
    """A call rings two seconds of six until it is answered."""
    person.press("r")
    trial.holds("it rings", person.sees("ring 1") and wait_for(lambda: len(line.said) == 3) and person.sees("ring 2"))
    moments = [moment for _, moment in line.said]
    passed = [after - before for before, after in zip(moments, moments[1:])]
    fit = len(passed) == 2 and all(least - 0.5 <= it <= least + LATE for it, least in zip(passed, (2, 4)))
    trial.holds("for two seconds of six: %s" % passed, fit and line.says("ring on", "ring off", "ring on"))
    line.hand("offhook")
    trial.holds("it rings no more once it is answered, and current flows", line.says("ring off", "loop on"))
    trial.holds("the caller sees it", person.sees("off the hook: the call is answered"))


def leaves(trial):
    """Ends of the person's program: the terminal is put back at each, and the line is quiet."""
    folder = trial.folder
    ends = [
        ("SIGTERM", lambda it: it.process.terminate(), 143), ("SIGHUP", lambda it: it.process.send_signal(signal.SIGHUP), 129),
        ("control-C", lambda it: it.press("\x03"), 130), ("control-\\", lambda it: it.press("\x1c"), 131),
        ("control-D", lambda it: it.press("\x04"), 0)]
    with Line(folder, TERMINAL, "--line", "phone.socket") as line:
        line.hand("onhook")
        line.says("ring off", "loop off")
        for name, end, status in ends:
            with Person(folder) as person:
                trial.holds("it begins", person.sees("on the hook") and person.is_single())
                person.press("h")
                trial.holds("without a call", person.sees("there is no call"))
                person.press("r")
                trial.holds("it rings", line.says("ring on"))
                end(person)
                ended = person.ended()
                trial.holds("at %s the terminal is as it was: %s" % (name, ended), ended == (status, True))
            trial.holds("and the line is quiet", line.says("ring off"))
        with Person(folder) as person:
            person.sees("on the hook")
            person.press("r")
            trial.holds("it rings", line.says("ring on"))
            person.process.kill()
            trial.holds("a person whose program is killed hangs up", line.says("ring off"))
        is_stopped(trial, line, folder)
        with Person(folder) as person:
            person.sees("on the hook")
            line.close()
            trial.holds("a line that is gone is told", person.sees("the line is gone") and person.ended() == (1, True))


def is_stopped(trial, line, folder):
    with Person(folder) as person:
        trial.holds("the next one begins without a call", person.sees("on the hook") and line.says())
        person.press("h")
        trial.holds("which is told", person.sees("there is no call"))
        person.press("\x1a")
        trial.holds("while it is stopped the terminal is as it was", wait_for(lambda: person.mode() == person.before))
        person.process.send_signal(signal.SIGCONT)
        trial.holds("and then gives each key again", wait_for(person.is_single))
        person.press("q")
        trial.holds("until it ends", person.ended() == (0, True))


def sockets(trial):
    """The socket of a line: one at a time listens there, one that is left is taken away, and nothing else is."""
    folder, path = trial.folder, os.path.join(trial.folder, "phone.socket")
    usage = (2, b"", b"usage: audiofile-phone-terminal [--line] SOCKET\n")
    for words in ([], ["--line"], ["--help"], ["phone.socket", "2"]):
        trial.holds("%s is no use of it" % words, run(folder, TERMINAL, *words) == usage)
    missing = (1, b"", b"audiofile-phone-terminal: phone.socket: No such file or directory\n")
    trial.holds("without a line it says so", run(folder, TERMINAL, "phone.socket") == missing)
    with Line(folder, TERMINAL, "--line", "phone.socket") as line:
        line.says("ring off", "loop off")
        trial.holds("the socket is for its user alone", os.stat(path).st_mode & 0o777 == 0o600)
        with Line(folder, TERMINAL, "--line", "phone.socket") as other:
            ended = other.ended()
            wanted = (1, b"audiofile-phone-terminal: phone.socket: Address already in use\n")
            trial.holds("a second line there ends: %s" % (ended,), ended == wanted)
        line.process.kill()
        line.process.wait()
    with Line(folder, TERMINAL, "--line", "phone.socket") as line:
        trial.holds("a socket that is left is no hindrance", line.says("ring off", "loop off"))
        trial.holds("it ends with the server", line.close() == (0, b""))
    trial.file(folder, "phone.socket", b"mine")
    with Line(folder, TERMINAL, "--line", "phone.socket") as line:
        trial.holds("a file is no socket", line.ended()[0] == 1)
    with open(path, "rb") as file:
        trial.holds("and stays", file.read() == b"mine")


def terminal_call(trial):
    """A person calls, and the answering machine of a real server answers."""
    phone = "phone 0 9 audiofile-phone-terminal --line phone.socket"
    with telephone(trial, phone, FINDS) as server, Machine(trial, server, 1, GREETING, MESSAGE) as machine:
        with Person(server.folder) as person:
            trial.holds("the person sees the hook", person.sees("on the hook"))
            watcher = Watcher(server)
            person.press("r")
            trial.holds("it rings twice", person.sees("ring 1") and person.sees("ring 2"))
            trial.holds("then it is answered", person.sees("off the hook: the call is answered"))
            person.press("1")
            trial.holds("until the machine hangs up", person.sees("on the hook"))
            person.press("q")
            trial.holds("the terminal is as it was", person.ended() == (0, True))
        is_called(trial, server, watcher, machine, ("DIGIT", 0, ord("1")))
