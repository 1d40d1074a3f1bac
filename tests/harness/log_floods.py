"""What floods of clients, and a terminal that nobody reads, do to a server and to its log: trials of tools/check-log."""

import contextlib
import fcntl
import os
import pty
import re
import select
import socket
import subprocess
import sys
import tempfile
import time

import card_program
from log_sessions import without_times
from serving import SETUP, asked_time, free_port, is_served, set_up

# how many clients come while the terminal takes nothing, and for how many bytes it still has room
CLIENTS, ROOM = 1500, 500
# how many clients come in a second beside a device that loses sound, and for how many seconds
RATE, SECONDS = 450, 4
# how many frames a device has in a second that loses sound, and by how many seconds the log may be late
FRAMES, LATE = 8000, 1.5
LINE = re.compile(
    rb"(listening at \S+|device 0: \S+, 8000 Hz, mono, silent|connection \d+ (from \S+|closed: the client closed its connection)"
    rb"|\d+ lines left out|late by \d+ milliseconds)")


@contextlib.contextmanager
def logged(afd, devices, said, folder=None):
    """A server with a log, which listens at a port."""
    port = free_port()
    child = subprocess.Popen(
        [afd, "serve", "127.0.0.1:%d" % port, "1000000000000"], stdin=subprocess.PIPE, stdout=subprocess.DEVNULL, stderr=said,
        cwd=folder, env={**os.environ, "AUDIOFILE_DETAILS": "1"})
    try:
        child.stdin.write(devices)
        child.stdin.close()
        for _ in range(1000):
            with contextlib.suppress(OSError):
                socket.create_connection(("127.0.0.1", port), 5).close()
                break
            time.sleep(0.01)
        yield port
    finally:
        child.kill()
        child.wait()


def fill(far, least=0):
    """Fills a terminal with bytes, or with so many. How many went in. The system hands them on a moment later, and that makes room
    for more."""
    count = 0
    os.set_blocking(far, False)
    for piece in 5 * [64] + 5 * [1]:
        with contextlib.suppress(BlockingIOError):
            while not least or count < least:
                count += os.write(far, b"x" * min(piece, least - count if least else piece))
        time.sleep(0.02)
    os.set_blocking(far, True)
    return count


def capacity():
    """How many bytes a terminal takes that nobody reads."""
    near, far = pty.openpty()
    try:
        return fill(far)
    finally:
        os.close(near)
        os.close(far)


def read_until(near, text, seconds):
    """What a terminal was given, until this stands there, so many seconds at most."""
    got, begun = b"", time.monotonic()
    while text not in got and time.monotonic() - begun < seconds:
        if select.select([near], [], [], 0.1)[0]:
            got += os.read(near, 65536)
    return got


def first_unserved(port, clients):
    """The number of the first client that is not served within five seconds, or None."""
    for number in range(clients):
        try:
            with socket.create_connection(("127.0.0.1", port), 5) as link:
                link.settimeout(5)
                if not is_served(link):
                    return number
        except OSError:
            return number
    return None


def stalled_terminal(afd):
    """Standard error is a terminal that nobody reads, and that is full soon: 1,500 clients are served. Once it is read again the
    log goes on with whole lines, and says how many were left out. The flags of the terminal are not changed."""
    least = capacity() - ROOM
    near, far = pty.openpty()
    try:
        fill(far, least)
        with logged(afd, b"device lin16 8000 0 silent\n", far) as port:
            unserved = first_unserved(port, CLIENTS)
            if unserved is not None:
                return "client %d is not served" % unserved
            if fcntl.fcntl(far, fcntl.F_GETFL) & os.O_NONBLOCK:
                return "the flags of the terminal were changed"
            said = read_until(near, b" lines left out\r\n", 10)[least:]
    finally:
        os.close(near)
        os.close(far)
    lines = said.replace(b"\r\n", b"\n").split(b"\n")[:-1]
    broken = [line for line in lines if not LINE.fullmatch(line.removeprefix(b"afd: "))]
    if broken:
        return "%r is no line of the log" % broken[0]
    return None if any(b"left out" in line for line in lines) else "no line says what was left out"


def stalled_end(afd):
    """A server ends while standard error is a terminal that nobody reads: its address is free, though it still waits to say so."""
    near, far = pty.openpty()
    try:
        fill(far)
        port = free_port()
        child = subprocess.Popen(
            [afd, "serve", "127.0.0.1:%d" % port, "100"], stdin=subprocess.PIPE, stdout=subprocess.DEVNULL, stderr=far)
        child.stdin.write(b"device lin16 8000 0 silent\n")
        child.stdin.close()
        for _ in range(1000):
            with contextlib.suppress(OSError):
                socket.create_connection(("127.0.0.1", port), 5).close()
                break
            time.sleep(0.01)
        for _ in range(500):
            with contextlib.suppress(OSError):
                socket.create_server(("127.0.0.1", port)).close()
                return None if waits_on(child, port) else "it does not wait for its terminal"
            time.sleep(0.02)
        return "its address is not free"
    finally:
        child.kill()
        child.wait()
        os.close(near)
        os.close(far)


def waits_on(child, port):
    """Whether a server is still there, and stays so, while somebody else has its address."""
    with socket.create_server(("127.0.0.1", port)):
        time.sleep(0.5)
        return child.poll() is None


def flood(port):
    """Clients come and go at a pace."""
    begun = time.monotonic()
    for number in range(RATE * SECONDS):
        with socket.create_connection(("127.0.0.1", port), 5) as link:
            link.sendall(SETUP)
        time.sleep(max(0, begun + number / RATE - time.monotonic()))


class Losses:
    """What the log of a server says of the sound that its devices lose, and the times of these."""

    def __init__(self, port, said, devices):
        self.times = [0] * devices
        # a client may be turned away for a moment, and is told no time then
        while not all(self.times):
            with set_up("127.0.0.1:%d" % port) as link:
                self.times = [asked_time(link, device) for device in range(devices)]
        # the server writes on at the place of this file
        self.said = without_times(os.pread(said.fileno(), 1 << 24, 0))
        self.told = [self.told_of(device) for device in range(devices)]
        self.ends = [self.said.count(b"device %d: its program ended" % device) for device in range(devices)]

    def told_of(self, device):
        """How many lost frames the log tells of a device."""
        told = re.findall(rb"^afd: device %d: its program had no room, and (\d+) frames were lost$" % device, self.said, re.M)
        return sum(map(int, told))


def losses_beside_a_flood(afd):
    """450 clients come and go in each second, beside a card that takes nothing and one that has closed its input: all that these
    lose is told, and so is all that a third program does."""
    card = "device lin16 %d 0 card 10 %s card.py name=%%s,rate=%d,width=2 %%s\n" % (FRAMES, sys.executable, FRAMES)
    devices = card % ("deaf", "takes=no") + card % ("closed", "closes") + "device mu255 8000 0 microphone 2 head -c 160 /dev/zero\n"
    with tempfile.TemporaryDirectory() as folder, tempfile.TemporaryFile() as said:
        os.symlink(card_program.__file__, os.path.join(folder, "card.py"))
        with logged(afd, devices.encode(), said, folder) as port:
            for _ in range(50):
                before = Losses(port, said, 2)
                if min(before.told) > 0:
                    break
                time.sleep(0.1)
            flood(port)
            after = Losses(port, said, 2)
            for device in range(2):
                # a card that takes nothing is ended, and started again a second later: until then no program loses its sound
                away = FRAMES * (after.ends[device] - before.ends[device])
                lost = after.times[device] - before.times[device] - away
                told = after.told[device] - before.told[device]
                if abs(lost - told) > LATE * FRAMES:
                    return "device %d: %d frames are told of %d" % (device, told, lost)
            if b"device 1: its program takes no more sound" not in after.said:
                return "nothing says that a card takes no more sound"
            # a start comes a second after the end before it, and the next one later
            for _ in range(100):
                if Losses(port, said, 0).said.count(b"device 2: its program ended with status 0") == 3:
                    return None
                time.sleep(0.1)
    return "not each end of a program is told"


TRIALS = {
    "a terminal that nobody reads holds nobody up": stalled_terminal,
    "the address of a server that cannot say that it has ended": stalled_end,
    "a flood hides no loss": losses_beside_a_flood,
}
