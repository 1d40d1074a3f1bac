"""Programs that stand still as the codec of a device, for tools/try-codec: one that is stopped, one that plays in real time
beside a server that stood still, and one that reads a byte a second. None of them holds up another device, or a relay to its
own."""

import os
import signal
import subprocess
import sys
import tempfile
import threading
import time
from concurrent.futures import ThreadPoolExecutor

from serving import Server, asked_time, set_up

RATE = 8000
# how long a program is watched, and how long a server stands still beside one that plays in real time
WATCHED, STOPPED = 6, 3
# how many seconds a GetTime may take, and how many of a hundred may take longer
LONGEST, MOST_LONGER = 0.05, 1
# what a loudspeaker does: it takes a fiftieth of a second of sound each fiftieth of a second
PLAYER = """
import os, time
begun = time.monotonic()
count = 0
while os.read(0, 160):
    count += 1
    time.sleep(max(0, begun + count / 50 - time.monotonic()))
"""
# what an encoder does: it takes what comes, a hundred times as fast as it is heard
ENCODER = """
import os, time
count = 0
while True:
    piece = os.read(0, 4096)
    if not piece:
        break
    count += len(piece)
    time.sleep(len(piece) / 19200000)
open("taken", "w").write(str(count))
"""
SLOW = """
import os, time
while os.read(0, 1):
    time.sleep(1)
"""


class Prober(threading.Thread):
    """A client that asks for the time of a device, a hundred times a second, and notes how long each reply takes."""

    def __init__(self, server, device):
        super().__init__()
        self.link, self.device, self.took, self.ends = set_up(server.address), device, [], False
        self.start()

    def run(self):
        while not self.ends:
            begun = time.monotonic()
            asked_time(self.link, self.device)
            self.took.append(time.monotonic() - begun)
            time.sleep(0.01)

    def end(self):
        """How many of a hundred replies took too long."""
        self.ends = True
        self.join()
        self.link.close()
        return 100 * sum(it > LONGEST for it in self.took) / len(self.took)


def children(server):
    """The programs that a server has started and not waited for."""
    with open("/proc/%d/task/%d/children" % (2 * (server.process.pid,))) as file:
        return [int(word) for word in file.read().split()]


def stop_child(server):
    os.kill(children(server)[0], signal.SIGSTOP)


def stop_server(server):
    server.process.send_signal(signal.SIGSTOP)
    time.sleep(STOPPED)
    server.process.send_signal(signal.SIGCONT)
    # it catches up
    time.sleep(1)


def nothing(server):
    pass


PROGRAMS = (
    ("a program that is stopped", "import os\nwhile os.read(0, 4096): pass\n", stop_child),
    ("a program that plays in real time beside a server that stood still", PLAYER, stop_server),
    ("a program that reads a byte a second", SLOW, nothing))


def watched(trial, name, text, disturbs):
    """Watches the program of a codec, and what goes on beside it."""
    folder = tempfile.mkdtemp(dir=trial.folder)
    trial.file(folder, "program.py", text.encode())
    codec = "device mu255 8000 0 codec 100 %s program.py" % sys.executable
    with Server(trial.afd, folder, [codec, "device mu255 8000 0 silent"]) as server, \
            Server(trial.afd, folder, ["device mu255 8000 0 silent"]) as far:
        time.sleep(1)
        disturbs(server)
        prober = Prober(server, 1)
        relay = subprocess.Popen(
            [trial.af, "apass", far.address, server.address, "--blocks=%d" % (WATCHED * 20), "--block=400"], stdout=subprocess.PIPE)
        said = relay.communicate(timeout=60)[0]
        longer = prober.end()
        trial.holds("%s keeps %.1f of 100 GetTimes of another device waiting" % (name, longer), longer <= MOST_LONGER)
        trial.holds("beside %s a relay stays in step: %s" % (name, said), said == b"passed %d resynced 0\n" % (WATCHED * 20))
        ended = [server.end(), far.end()]
        trial.holds("the servers run beside %s, and say nothing: %s" % (name, ended), all(ended))


def takes_all(trial):
    """A program that takes what comes, as an encoder does, is given all sound, though the server stood still."""
    folder = tempfile.mkdtemp(dir=trial.folder)
    trial.file(folder, "program.py", ENCODER.encode())
    devices = ["device lin16 48000 0 stereo codec 100 %s program.py" % sys.executable]
    with Server(trial.afd, folder, devices) as server:
        time.sleep(1)
        only = children(server)
        stop_server(server)
        least = 4 * server.time()
        trial.holds("an encoder is not started again", children(server) == only)
        trial.holds("the server runs beside an encoder, and says nothing", server.end())
    time.sleep(0.5)
    taken = int(server.got("taken") or 0)
    trial.holds("an encoder is given all %d bytes and more: %d" % (least, taken), taken >= least)


def all_watched(trial):
    """Watches all of them at once, each beside a server of its own."""
    with ThreadPoolExecutor(len(PROGRAMS) + 1) as crowd:
        watchers = [crowd.submit(watched, trial, *it) for it in PROGRAMS]
        watchers.append(crowd.submit(takes_all, trial))
    for watcher in watchers:
        watcher.result()
