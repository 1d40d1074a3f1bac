"""Servers on real time, and what is said to them: what the checks and trials share."""

import contextlib
import os
import select
import socket
import struct
import subprocess
import sys
import tempfile
import threading
import time

from wire import OTHER, ClientSide, ServerSide, request, setup, turned

# Whoever has it set sees details. The scripts compare what is said without them.
os.environ.pop("AUDIOFILE_DETAILS", None)

ROOT = os.path.dirname(os.path.dirname(os.path.dirname(os.path.abspath(__file__))))
SETUP = setup()
GET_TIME = request("GetTime")
WORD = 1 << 32
HALF = 1 << 31
# how often a server is started at another port, where it does not listen at the first
TIMES_TRIED = 3


def proved(name):
    """The proved program, where there is one: that of make build or that of the last gate, the newer of the two. Whoever names a
    folder in AUDIOFILE_PROGRAMS has those in it tried in place of the proved ones."""
    if stated := os.environ.get("AUDIOFILE_PROGRAMS"):
        return os.path.join(stated, name)
    there = [os.path.join(ROOT, "bin", name), os.path.join(ROOT, "crates", name, "out", name)]
    return max((it for it in there if os.access(it, os.X_OK)), key=os.path.getmtime, default=None)


def program(name):
    """The proved program. Where there is none it is built now."""
    found = proved(name)
    if found:
        return found
    crate = os.path.join(ROOT, "crates", name)
    left = os.path.join(crate, "out", name)
    built = subprocess.run(["rt", "run", "--", "usage"], cwd=crate, stdin=subprocess.DEVNULL, capture_output=True)
    if not os.access(left, os.X_OK):
        sys.stderr.buffer.write(built.stdout + built.stderr)
        sys.exit("the program %s was not built" % name)
    return left


def connect(address, window=None):
    """A link to a server, with room for about so many bytes that were not read yet."""
    host, port = address.split(":")
    link = socket.socket()
    link.settimeout(20)
    if window:
        link.setsockopt(socket.SOL_SOCKET, socket.SO_RCVBUF, window)
        link.setsockopt(socket.SOL_SOCKET, socket.SO_SNDBUF, window)
    try:
        link.connect((host, int(port)))
    except OSError:
        link.close()
        raise
    return link


def received(link, count):
    """So many bytes, or fewer where the link ends before."""
    got = b""
    while len(got) < count:
        piece = link.recv(count - len(got))
        if not piece:
            break
        got += piece
    return got


def set_up(address, window=None):
    """A link that is set up."""
    link = connect(address, window)
    link.sendall(SETUP)
    head = received(link, 8)
    received(link, 4 * int.from_bytes(head[4:8], "big"))
    return link


def reset(link):
    """Closes a link without a farewell, so that the calls of the other side fail."""
    link.setsockopt(socket.SOL_SOCKET, socket.SO_LINGER, struct.pack("ii", 1, 0))
    link.close()


def broken_source(octets):
    """A socket that gives these bytes, and then fails."""
    with socket.create_server(("127.0.0.1", 0)) as listener:
        near = socket.create_connection(listener.getsockname())
        far, _ = listener.accept()
    far.sendall(octets)
    reset(far)
    return near


def is_served(link):
    """Whether a client is set up, and told the time of a device."""
    try:
        link.sendall(SETUP + GET_TIME)
        head = received(link, 8)
        rest = 4 * int.from_bytes(head[4:8], "big") + 12
        return len(head) == 8 and len(received(link, rest)) == rest
    except (ConnectionResetError, BrokenPipeError):
        return False


def guest(server):
    """A client that is served, as soon as a place is free."""
    for _ in range(200):
        link = connect(server.address)
        if is_served(link):
            return link
        link.close()
        time.sleep(0.05)
    return None


def asked_time(link, device=0):
    link.sendall(request("GetTime", device))
    return int.from_bytes(received(link, 12)[8:12], "big")


def free_port():
    """A port of the loopback that nobody listens at. Nor does this: a program that another thread starts meanwhile holds all
    files of this one for a moment, and would listen on."""
    with socket.socket() as taken:
        taken.setsockopt(socket.SOL_SOCKET, socket.SO_REUSEADDR, 1)
        taken.bind(("127.0.0.1", 0))
        return taken.getsockname()[1]


class Server:
    """A server on the loopback with these devices, in the folder of its files. Used with `with`, it is ended at the end."""

    def __init__(self, afd, folder, devices, before=(), patience=20):
        self.start([*before, afd], folder, folder, devices, patience)

    def start(self, words, cwd, folder, devices, patience=20):
        """Starts a program in a folder, and waits until it listens, so many seconds at most. Another program may take a free port
        before the server listens at it, so it is tried three times."""
        for _ in range(TIMES_TRIED):
            if self.starts(words, cwd, folder, devices, patience):
                return
        self.said.seek(0)
        sys.exit("the server does not listen\n" + self.said.read().decode(errors="replace"))

    def starts(self, words, cwd, folder, devices, patience):
        """Starts it at a free port. Whether it listens."""
        self.address = "127.0.0.1:%d" % free_port()
        self.folder = folder
        self.said = tempfile.TemporaryFile()
        self.process = subprocess.Popen(
            [*words, "serve", self.address, "1000000000000"], stdin=subprocess.PIPE, stdout=subprocess.DEVNULL, stderr=self.said, cwd=cwd)
        self.process.stdin.write("".join(line + "\n" for line in devices).encode())
        self.process.stdin.close()
        try:
            listens = self.listens(patience)
        except BaseException:
            # whoever waits was told to end meanwhile
            self.end()
            raise
        if not listens:
            self.end()
        return listens

    def listens(self, patience):
        """Waits until it listens, so many seconds at most. Whether it does."""
        begun = time.monotonic()
        while time.monotonic() - begun < patience and self.process.poll() is None:
            try:
                connect(self.address).close()
                return self.process.poll() is None
            except OSError:
                time.sleep(patience / 20000)
        return False

    def __enter__(self):
        return self

    def __exit__(self, *_):
        self.end()

    def time(self, device=0):
        """The time of a device, by a client of its own."""
        with set_up(self.address) as link:
            return asked_time(link, device)

    def wait_until(self, moment, device=0):
        """Waits until the device has handed out everything before a time."""
        for _ in range(1000):
            if (self.time(device) - moment) % WORD < HALF:
                return
            time.sleep(0.02)
        sys.exit("the time of the device stands still")

    def threads(self):
        """The threads whose processor time counts."""
        return os.listdir("/proc/%d/task" % self.process.pid)

    def got(self, name):
        with open(os.path.join(self.folder, name), "rb") as file:
            return file.read()

    def end(self):
        """Ends the server. The answer is whether it ran until then, and said nothing."""
        runs = self.process.poll() is None
        if runs:
            self.process.terminate()
        self.process.wait(20)
        self.said.seek(0)
        return runs and self.said.read() == b""


class TriedServer(Server):
    """A server before any proof: `rt try` compiles it in half a minute and more, and runs it with checks, so many seconds at
    most. It runs in a folder that is not this one, so the files of its devices are named in full."""

    def __init__(self, folder, devices, seconds):
        self.start(["rt", "try", "--seconds", str(seconds), "--"], os.path.join(ROOT, "crates", "afd"), folder, devices, 600)


class Tap:
    """A server that passes on what one client and a server send each other, and notes what the client sends. If a number of bytes
    is stated, it holds the client up once, for half a second after so many. If it turns, the server has a link of the other byte
    order."""

    def __init__(self, address, held_after=None, turns=False):
        self.server, self.held_after = connect(address), held_after
        self.asked, self.answered = (ClientSide(), ServerSide()) if turns else (None, None)
        self.listener = socket.create_server(("127.0.0.1", 0))
        self.address = "127.0.0.1:%d" % self.listener.getsockname()[1]
        self.noted = b""
        threading.Thread(target=self.carry, daemon=True).start()

    def carry(self):
        client, _ = self.listener.accept()
        # a side that ends with unread bytes resets its link
        with self.listener, self.server, client, contextlib.suppress(ConnectionError):
            while True:
                for link in select.select([client, self.server], [], [])[0]:
                    piece = link.recv(65536)
                    if not piece:
                        return
                    (client if link is self.server else self.server).sendall(self.passed_on(piece, link is client))
                    self.noted += piece if link is client else b""
                if self.held_after and len(self.noted) >= self.held_after:
                    self.held_after = None
                    time.sleep(0.5)

    def passed_on(self, piece, is_asked):
        """What becomes of a piece. Where it is turned, what is not whole waits for the rest."""
        side = self.asked if is_asked else self.answered
        return b"".join(turned(item, OTHER[side.order]) for item in side.feed(piece)) if side else piece


class Trials:
    """What a tool tries of the programs, and how much of it was not so."""

    def __init__(self, name, afd, af, folder):
        self.name, self.afd, self.af, self.folder = name, afd, af, folder
        self.trials = self.faults = 0

    def holds(self, what, true):
        self.trials += 1
        if not true:
            self.faults += 1
            print("%s: not so: %s" % (self.name, what))

    def file(self, folder, name, octets):
        with open(os.path.join(folder, name), "wb") as file:
            file.write(octets)
