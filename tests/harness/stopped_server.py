"""A server that stops for twenty seconds beside tools that play and record: they lose no sample. And one without a free place."""

import os
import random
import signal
import subprocess
import time

from serving import WORD, Server, set_up
from sounds import LEAD, heard_as

# of the stop, and of what is played and recorded
STOPPED, LASTS = 20, 24
# when the recordings begin, by the time of their devices
BEGUN = 1


class Device:
    """A device over files, with a tool that plays to it and one that records from it."""

    def __init__(self, trial, server, folder, number, rate, wide, given, sound):
        self.folder, self.given, self.sound, self.wide = folder, given, sound, wide
        self.start, self.frames = BEGUN * rate, LASTS * rate
        self.player = self.tool(trial, "aplay", server.address, "--device=%d" % number, "--lead=%d" % LEAD, stdin=subprocess.PIPE)
        self.recorder = self.tool(
            trial, "arecord", server.address, "--device=%d" % number, "--time=%d" % self.start, "--frames=%d" % self.frames)
        self.number = number

    def tool(self, trial, *words, stdin=subprocess.DEVNULL):
        """A tool that runs on, with files for what it reads and writes, so that it waits for its server alone."""
        name = os.path.join(self.folder, "%s%s" % (words[0], words[2]))
        if stdin == subprocess.PIPE:
            with open(name + ".in", "wb") as file:
                file.write(self.sound)
            stdin = open(name + ".in", "rb")
        with open(name, "wb") as out:
            process = subprocess.Popen([trial.af, *words], stdin=stdin, stdout=out)
        process.wrote = name
        return process

    def recorded(self):
        """Whether the recorder ended well, and wrote what the device was given."""
        done = self.recorder.wait(60) == 0
        with open(self.recorder.wrote, "rb") as file:
            return done and file.read() == self.given[self.start * self.wide:(self.start + self.frames) * self.wide]

    def played_at(self):
        """The time that the player says of its first frame."""
        self.player.wait(60)
        with open(self.player.wrote, "rb") as file:
            return int(file.read().split()[3])


def stopped_once(trial, attempt):
    """What held of one stop, by name."""
    folder = trial.folder_of("stopped%d" % attempt)
    draw = random.Random(7)
    narrow, fine = heard_as(draw.randbytes(40 * 8000)), draw.randbytes(2 * 40 * 44100)
    trial.file(folder, "in", narrow)
    trial.file(folder, "fine_in", fine)
    devices = ["device mu255 8000 0 files in out", "device lin16 44100 0 files fine_in fine_out"]
    held = {}
    with Server(trial.afd, folder, devices) as server:
        tried = [
            Device(trial, server, folder, 0, 8000, 1, narrow, heard_as(draw.randbytes(LASTS * 8000))),
            Device(trial, server, folder, 1, 44100, 2, fine, draw.randbytes(2 * LASTS * 44100))]
        time.sleep(2)
        server.process.send_signal(signal.SIGSTOP)
        time.sleep(STOPPED)
        server.process.send_signal(signal.SIGCONT)
        for device, name in zip(tried, ("out", "fine_out")):
            rate = "%d samples a second" % (device.frames // LASTS)
            held["a recording at %s loses nothing while the server stands still" % rate] = device.recorded()
            at = device.played_at()
            server.wait_until((at + device.frames) % WORD, device.number)
            heard = server.got(name)[at * device.wide:(at + device.frames) * device.wide]
            held["what is played at %s is heard whole, though the server stood still" % rate] = heard == device.sound
        held["the server runs, and says nothing"] = server.end()
    return held


def stands_still(trial):
    """A tool that the machine starves may lose sound for that reason alone: one stop of three without a loss shows the server."""
    for attempt in range(3):
        held = stopped_once(trial, attempt)
        if all(held.values()):
            break
    for name, holds in held.items():
        trial.holds(name, holds)


def turns_away(trial):
    """A 33rd client, again and again, and then many at once: each meets the end of its link, and none a link that broke."""
    words = [trial.af, "aset"]
    with Server(trial.afd, trial.folder_of("turned_away"), ["device mu255 8000 0 silent"]) as server:
        time.sleep(0.1)
        links = [set_up(server.address) for _ in range(32)]
        ends = [subprocess.run([*words, server.address], capture_output=True, timeout=20) for _ in range(60)]
        trial.holds("a 33rd client always meets the end of its link", all(it.stderr == b"af: link ended\n" for it in ends))
        late = [subprocess.Popen([*words, server.address], stdout=subprocess.DEVNULL, stderr=subprocess.PIPE) for _ in range(20)]
        trial.holds("so do twenty at once", all(it.communicate()[1] == b"af: link ended\n" for it in late))
        for link in links:
            link.close()
        trial.holds("the server runs, and says nothing", server.end())


def parts(trial):
    """The trials, to be run one after another."""
    return lambda: stands_still(trial), lambda: turns_away(trial)
