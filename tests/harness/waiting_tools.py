"""What a tool waits for, for tools/check-details: servers that do not answer a setup, and replies that are due later."""

import socket
import tempfile
import threading
import time

from lost_sound import serving, started

# for how many seconds the reply to a setup is waited for, and by how many more a machine that is busy may be late
SETUP, MORE = 10, 5
SILENT = "af: link failed\naf: nothing came from %s in 10 seconds, so it may be no AudioFile server\n"
SLOW = "af: link failed\naf: the setup was not answered whole by %s in 10 seconds, so it may be no AudioFile server\n"
DEVICE = ("lin16", 8000, 1)


class Speaker:
    """A server that says these bytes, one at a time, with a pause before each, whatever it is told."""

    def __init__(self, octets, pause):
        self.socket = socket.create_server(("127.0.0.1", 0))
        self.address = "127.0.0.1:%d" % self.socket.getsockname()[1]
        self.octets, self.pause, self.ended = octets, pause, threading.Event()
        self.thread = threading.Thread(target=self.speak, daemon=True)
        self.thread.start()

    def speak(self):
        link, _ = self.socket.accept()
        with link:
            for at in range(len(self.octets)):
                if self.ended.wait(self.pause):
                    return
                try:
                    link.send(self.octets[at : at + 1])
                except OSError:
                    return
            self.ended.wait()

    def end(self):
        self.ended.set()
        self.thread.join()
        self.socket.close()


def gives_up(af, octets, text):
    """A tool whose server says these bytes, one each two seconds, ends with status 13 and this text after ten seconds."""
    server = Speaker(octets, 2)
    begun = time.monotonic()
    tool = started([af, "list", server.address])
    _, said = tool.communicate(timeout=60)
    lasted = time.monotonic() - begun
    server.end()
    amiss = [] if tool.returncode == 13 else ["the status is %d" % tool.returncode]
    if said.decode() != text % server.address:
        amiss.append("it says %r" % said.decode())
    if not SETUP - 0.1 <= lasted <= SETUP + MORE:
        amiss.append("it takes %.1f seconds" % lasted)
    return amiss


def silent_server(_, af):
    """A server that says nothing."""
    return gives_up(af, b"", SILENT)


def slow_setup(_, af):
    """A server whose reply to the setup comes too slowly."""
    return gives_up(af, bytes([1]) + bytes(30), SLOW)


def late_reply(afd, af):
    """A record of a time that is to come is told before it is waited for, and waited for as long as that takes."""
    with tempfile.TemporaryDirectory() as folder:
        server = serving(afd, folder, DEVICE)
        try:
            line = started([af, "list", server.address]).communicate(timeout=60)[0].split()
            start, frames = int(line[4]) + 26000, 100
            tool = started([af, "arecord", server.address, "--frames=%d" % frames, "--time=%d" % start])
            sound, said = tool.communicate(timeout=60)
        finally:
            server.end()
    due = "af: waiting for device time %d of %s, 3 seconds from now\n" % (start + frames, server.address)
    amiss = [] if tool.returncode == 0 and len(sound) == 2 * frames else ["status %d, %d bytes" % (tool.returncode, len(sound))]
    return amiss if said.decode() == due else [*amiss, "it says %r" % said.decode()]


TRIALS = {
    "a server that says nothing": silent_server,
    "a server that answers a setup too slowly": slow_setup,
    "a reply that is due later": late_reply,
}
