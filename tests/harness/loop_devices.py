"""Devices that hear themselves, on the real server: what each captures is what it emitted, a fortieth of a second later, to the
frame. Trials of try-server, past the wrap of device time and past a stop of the server."""

import os
import signal
import subprocess
import time

from serving import WORD, Server
from sounds import LEAD, heard_as

# of the stop, and of what is played
STOPPED, LASTS = 2, 3
# how many frames are recorded before and after what was played
AROUND = 60
SILENCE = {"mu255": b"\xff", "lin16": b"\0\0"}
# type, rate and channels of each device
DEVICES = ("lin16", 8000, 1), ("mu255", 8000, 1), ("lin16", 44100, 2), ("mu255", 11025, 2), ("lin16", 48000, 1)


def counting(ty, count):
    """Samples that count, of which none is silence."""
    if ty == "mu255":
        return heard_as(bytes(number % 126 for number in range(count)))
    return b"".join((number % 65535 + 1).to_bytes(2, "big") for number in range(count))


class Loop:
    """A device that hears itself. Its time wraps while it is played to."""

    def __init__(self, number, ty, rate, channels):
        self.number, self.delay = number, rate // 40
        self.frames = LASTS * rate
        self.start = WORD - (LEAD // 1000 + 1) * rate
        self.sound = counting(ty, self.frames * channels)
        silence = AROUND * channels * SILENCE[ty]
        self.captured = silence + self.sound + silence
        self.shape = "%s %d %d%s" % (ty, rate, self.start, " stereo" if channels == 2 else "")
        self.line = "device %s loop" % self.shape

    def begin(self, trial, server):
        """A player, which sends all it may at once, and a recorder, which waits for its sound."""
        at = (server.time(self.number) + LEAD * self.frames // LASTS // 1000) % WORD
        device = "--device=%d" % self.number
        first, count = (at + self.delay - AROUND) % WORD, self.frames + 2 * AROUND
        self.recorder = subprocess.Popen(
            [trial.af, "arecord", server.address, device, "--time=%d" % first, "--frames=%d" % count], stdout=subprocess.PIPE)
        with open(os.path.join(server.folder, "sound%d" % self.number), "w+b") as file:
            file.write(self.sound)
            file.seek(0)
            self.player = subprocess.Popen(
                [trial.af, "aplay", server.address, device, "--time=%d" % at], stdin=file, stdout=subprocess.DEVNULL)

    def is_heard(self):
        """Whether it captured what it emitted, so much later, and silence around that."""
        recorded = self.recorder.communicate(timeout=60)[0]
        return self.player.wait(60) == 0 and self.recorder.returncode == 0 and recorded == self.captured


def heard_once(trial, attempt):
    """What held of one stop, by name."""
    loops = [Loop(number, *shape) for number, shape in enumerate(DEVICES)]
    held = {}
    with Server(trial.afd, trial.folder_of("loops%d" % attempt), [loop.line for loop in loops]) as server:
        for loop in loops:
            loop.begin(trial, server)
        # the sound has begun, and the time of no device has wrapped so far
        time.sleep(LEAD / 1000 + 0.5)
        server.process.send_signal(signal.SIGSTOP)
        time.sleep(STOPPED)
        server.process.send_signal(signal.SIGCONT)
        for loop in loops:
            held["device %s captures what it emitted" % loop.shape] = loop.is_heard()
        held["the server of these runs, and says nothing"] = server.end()
    return held


def hears_itself(trial):
    """A tool that the machine starves may lose sound for that reason alone: one of three without a loss shows the server."""
    for attempt in range(3):
        held = heard_once(trial, attempt)
        if all(held.values()):
            break
    for name, holds in held.items():
        trial.holds(name, holds)


def parts(trial):
    """The trials, to be run one after another."""
    return [lambda: hears_itself(trial)]
