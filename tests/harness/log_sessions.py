"""Sessions of a server whose log is looked at: what check-log runs of `afd serve`.

A session is a folder of tests/log with a file `session`. Its lines, one act each:

    file NAME TEXT          a file with this text lies in the folder that the server runs in
    fifo NAME               a FIFO lies there
    program NAME            a program lies there that takes all of its input, and ends with 0
    listen                  somebody else listens at the port first
    levels                  a journal is to take the log
    start                   the server is started, with the configuration in `stdin`
    feed NAME, drain NAME   somebody opens a FIFO to write, or to read
    connect NAME [N]        one client connects, or N one after another
    send NAME HEX           a client sends bytes
    leave NAME, reset NAME  a client ends its connection, or breaks it
    asks NAME               a client is set up, and told the time of device 0
    told TEXT               the log comes to have a line with this text, within some seconds
    pause MILLISECONDS      nothing is done
    stand MILLISECONDS      the server is stopped meanwhile

`words` are those of the program; PORT in them is a free port, and so it is in `log`, which is what standard error has when all is
over. It is a file, in which each line of the log has its time; `log` leaves these out. Ports of clients are written as CLIENT. `status` is the status, if the server ends by itself; else it is ended by a signal.
A machine may stand still, so lines that device time is late count only where the server was stopped. Then one or more of them are
`late by N milliseconds`.
"""

import contextlib
import os
import re
import shutil
import signal
import socket
import subprocess
import tempfile
import time

from serving import GET_TIME, SETUP, free_port, received, reset

# how long something that is to happen may take, in seconds
LONGEST = 20
ENVIRONMENT = {"AUDIOFILE_DETAILS": "1"}
TAKER = "#!/bin/sh\nexec cat > /dev/null\n"
TIME = re.compile(rb"^(afd: )\d{4}-\d\d-\d\dT\d\d:\d\d:\d\dZ ", re.MULTILINE)
LATE = re.compile(rb"(?:^afd: late by \d+ milliseconds\n)+", re.MULTILINE)
CLIENT = re.compile(rb"(connection \d+ from 127\.0\.0\.1:)\d+")


def without_times(said):
    """What a file has of a log, without the times of its lines."""
    return TIME.sub(rb"\1", said)


class Session:
    """A folder, a server in it, and its clients."""

    def __init__(self, folder, afd):
        self.folder, self.afd = folder, afd
        self.port = free_port()
        self.room = tempfile.mkdtemp()
        self.clients = {}
        self.others = []
        self.server = None
        self.environment = ENVIRONMENT
        self.stood = False

    def read(self, name, default=b""):
        path = os.path.join(self.folder, name)
        if not os.path.exists(path):
            return default
        with open(path, "rb") as text:
            return text.read()

    def written(self):
        """All that standard error has."""
        with open(os.path.join(self.room, "said"), "rb") as text:
            return text.read()

    def said(self):
        """The same without the times of the lines."""
        return without_times(self.written())

    def act(self, line):
        name, *words = line.split(" ")
        getattr(self, name)(*words)

    def file(self, name, *text):
        with open(os.path.join(self.room, name), "w") as made:
            made.write(" ".join(text))

    def fifo(self, name):
        os.mkfifo(os.path.join(self.room, name))

    def program(self, name):
        self.file(name, TAKER)
        os.chmod(os.path.join(self.room, name), 0o755)

    def listen(self):
        self.others.append(socket.create_server(("127.0.0.1", self.port)))

    def levels(self):
        self.environment = {**ENVIRONMENT, "AUDIOFILE_LEVELS": "1"}

    def start(self):
        words = self.read("words").decode().replace("PORT", str(self.port)).split("\n")[:-1]
        with open(os.path.join(self.room, "said"), "wb") as said:
            self.server = subprocess.Popen(
                [self.afd, *words], stdin=subprocess.PIPE, stdout=subprocess.DEVNULL, stderr=said, cwd=self.room,
                env={**os.environ, **self.environment})
        self.server.stdin.write(self.read("stdin"))
        self.server.stdin.close()

    def feed(self, name):
        self.others.append(open(os.path.join(self.room, name), "wb", buffering=0))

    def drain(self, name):
        self.others.append(os.fdopen(os.open(os.path.join(self.room, name), os.O_RDONLY | os.O_NONBLOCK), "rb", buffering=0))

    def address(self):
        """Where the server listens, by its log."""
        found = re.search(rb"^(?:<6>)?afd: listening at (127\.0\.0\.1):(\d+)$", self.said(), re.MULTILINE)
        return found[1].decode(), int(found[2])

    def connect(self, name, count="1"):
        for _ in range(int(count)):
            self.clients.setdefault(name, []).append(socket.create_connection(self.address(), LONGEST))

    def send(self, name, octets):
        for client in self.clients[name]:
            client.sendall(bytes.fromhex(octets))

    def asks(self, name):
        for client in self.clients[name]:
            client.sendall(SETUP + GET_TIME)
            head = received(client, 8)
            received(client, 4 * int.from_bytes(head[4:8], "big") + 12)

    def leave(self, name):
        for client in self.clients.pop(name):
            client.close()

    def reset(self, name):
        for client in self.clients.pop(name):
            reset(client)

    def told(self, *words):
        text = " ".join(words).encode()
        self.come_true(lambda: text in self.said(), "the log never says %r" % text)

    def pause(self, milliseconds):
        time.sleep(int(milliseconds) / 1000)

    def stand(self, milliseconds):
        self.stood = True
        self.server.send_signal(signal.SIGSTOP)
        time.sleep(int(milliseconds) / 1000)
        self.server.send_signal(signal.SIGCONT)

    def come_true(self, holds, otherwise):
        for _ in range(LONGEST * 100):
            if holds():
                return
            time.sleep(0.01)
        raise AssertionError("%s: %r" % (otherwise, self.said()))

    def end(self):
        """The status, or None where the server had to be ended."""
        wanted = self.read("status", None)
        if wanted is None:
            self.server.terminate()
            self.server.wait(LONGEST)
            return None
        return self.server.wait(LONGEST)

    def close(self):
        if self.server and self.server.poll() is None:
            self.server.kill()
            self.server.wait()
        for each in [*self.others, *(client for name in self.clients.values() for client in name)]:
            with contextlib.suppress(OSError):
                each.close()
        shutil.rmtree(self.room)

    def fault(self):
        """What is not as it should be, in a few lines, or None."""
        try:
            for line in self.read("session").decode().splitlines():
                self.act(line)
            status = self.end()
            wanted = self.read("status", None)
            if wanted is not None and status != int(wanted):
                return "status %d in place of %d" % (status, int(wanted))
            if status is None and any(line.startswith(b"afd: ") and not TIME.match(line) for line in self.written().splitlines()):
                return "a line has no time: %s" % self.written().decode(errors="replace")
            said = CLIENT.sub(rb"\1CLIENT", self.said())
            said = re.sub(rb"127\.0\.0\.1:%d\b" % self.port, b"127.0.0.1:PORT", said)
            said = re.sub(rb"(listening at 127\.0\.0\.1:)\d+", rb"\1PORT", said)
            said = LATE.sub(b"afd: late by N milliseconds\n" if self.stood else b"", said)
            wanted = self.read("log")
            if said != wanted:
                return "standard error is\n%s\nin place of\n%s" % (said.decode(errors="replace"), wanted.decode())
            return None
        except (AssertionError, OSError, subprocess.TimeoutExpired, TypeError) as e:
            return "%s: %s; standard error: %r" % (type(e).__name__, e, self.said() if self.server else b"")
        finally:
            self.close()
