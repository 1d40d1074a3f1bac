"""A program of contrib/ for a telephone line, as the server runs it, and a terminal of a script's own: what the trials of
tools/try-phone for a person, a modem and baresip share."""

import contextlib
import os
import pty
import select
import socket
import subprocess
import termios
import threading
import time

from cards import wait_for
from phone_calls import SAID, ends_well, is_greeted, is_recorded, telephone
from phones import Watcher, digits
from serving import ROOT

CONTRIB = os.path.join(ROOT, "contrib")
# a server begun with it finds the programs there
FINDS = ["env", "PATH=%s:%s" % (CONTRIB, os.environ["PATH"])]

# the last event that such a program makes as it begins
BEGINS = ("CURRENT", 0, 0)


class Line:
    """A program for a telephone line, run as the server runs it. Used with `with`, it is ended at the end."""

    def __init__(self, folder, *words):
        self.near, inner = socket.socketpair()
        outer, self.far = socket.socketpair()
        self.process = subprocess.Popen(words, cwd=folder, stdin=inner, stdout=outer, stderr=subprocess.PIPE)
        inner.close()
        outer.close()
        self.said = []
        threading.Thread(target=self.listen, daemon=True).start()

    def listen(self):
        with self.far.makefile() as lines:
            for line in lines:
                self.said.append((line.rstrip("\n"), time.monotonic()))

    def __enter__(self):
        return self

    def __exit__(self, *_):
        self.process.kill()
        self.process.communicate()
        self.near.close()
        self.far.close()

    def hand(self, hook):
        self.near.sendall(hook.encode() + b"\n")

    def says(self, *changes, seconds=20):
        """Waits until it said so much. Whether it said these changes and no more since it was asked last."""
        wait_for(lambda: len(self.said) >= len(changes), seconds)
        said = [change for change, _ in self.said]
        if said == list(changes):
            self.said.clear()
            return True
        return False

    def ended(self, seconds=20):
        """Its status and what it told, once it has ended by itself."""
        try:
            return self.process.wait(seconds), self.process.stderr.read()
        except subprocess.TimeoutExpired:
            return None, b"it does not end"

    def close(self):
        """The server closes its side."""
        self.near.shutdown(socket.SHUT_RDWR)
        self.far.shutdown(socket.SHUT_RDWR)
        return self.ended()


class Pty:
    """A terminal of this script's own, which notes what is written to it."""

    def __init__(self):
        self.master, self.slave = pty.openpty()
        self.path, self.seen, self.ends = os.ttyname(self.slave), b"", False
        self.watcher = threading.Thread(target=self.watch, daemon=True)
        self.watcher.start()

    def __enter__(self):
        return self

    def __exit__(self, *_):
        self.close()

    def close(self):
        """Takes the terminal away, as who unplugs it."""
        if not self.ends:
            self.ends = True
            self.watcher.join()
            os.close(self.slave)
            os.close(self.master)

    def watch(self):
        while not self.ends:
            if select.select([self.master], [], [], 0.05)[0]:
                self.see(os.read(self.master, 4096))

    def see(self, octets):
        self.seen += octets

    def sees(self, text, seconds=20):
        """Waits for a text, after which all that was seen before is forgotten. Whether it came."""
        if wait_for(lambda: text.encode() in self.seen, seconds):
            self.seen = self.seen.partition(text.encode())[2]
            return True
        return False

    def mode(self):
        return termios.tcgetattr(self.slave)


def rings(number=""):
    """What a line says as somebody calls: the number, if there is one, and the first ring."""
    return [*("digit " + digit for digit in ("D%sC" % number if number else "")), "ring on"]


@contextlib.contextmanager
def callers(trial, program, *numbers):
    """A server whose line has this program, at which these numbers call, one after the other, each for one ring. A client must
    be told the digits of each before its ring, and nothing of a caller without a number but the ring."""
    with telephone(trial, "phone 0 9 " + program, FINDS) as server:
        watcher = Watcher(server)
        yield server
        wanted = [it for number in numbers for it in [*digits("D%sC" % number if number else ""), ("RING", 0, 1)]]

        def told():
            # the program says as it begins that nothing rings, and maybe before anybody was told
            return [it for it in watcher.told() if it not in (("RING", 0, 0), BEGINS)]

        wait_for(lambda: len(told()) >= len(wanted))
        trial.holds("a client is told the numbers, each before its ring: %s" % told(), told() == wanted)


def run(folder, *words):
    done = subprocess.run(words, cwd=folder, stdin=subprocess.DEVNULL, capture_output=True, timeout=10)
    return done.returncode, done.stdout, done.stderr


def is_called(trial, server, watcher, machine, *meanwhile):
    """Whether one call was answered at the second ring, and all of it was heard and told."""
    ends_well(trial, machine, b"answered 1 recorded 1 failed 0\n")
    is_greeted(trial, server, watcher, 1)
    is_recorded(trial, server, watcher, SAID)
    wanted = [("RING", 0, 1), ("RING", 0, 1), ("HOOK", 0, 1), ("CURRENT", 0, 1), ("HOOK", 0, 0), ("CURRENT", 0, 0)]

    def is_told():
        told = [it for it in watcher.told() if it not in (("RING", 0, 0), *meanwhile)]
        return told[told[:1] == [BEGINS]:] == wanted and all(it in watcher.told() for it in meanwhile)

    came = wait_for(is_told)
    trial.holds("the call is told: %s" % watcher.told(), came)
