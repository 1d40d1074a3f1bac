"""Programs of others that play to the real server and record from it, and how sound is compared: what the trials of
tools/try-programs share."""

import array
import contextlib
import os
import random
import re
import shutil
import signal
import subprocess
import sys

import cards
from cards import wait_for
from serving import ROOT
from sounds import RATE, heard_as, linear

CONTRIB = os.path.join(ROOT, "contrib")
# how much is played and recorded of each: a second
FRAMES = RATE
# how long a program may take, in seconds
PATIENCE = 20


def noise(seed, frames):
    """Frames of mu-law, of which each is told from silence."""
    return bytes(random.Random(seed).choices([*range(127), *range(128, 255)], k=frames))


def linear_noise(seed, samples):
    """Linear samples of 16 bits, the highest byte first."""
    return random.Random(seed).randbytes(2 * samples)


def as_linear(octets):
    """Samples of mu-law as linear ones of 16 bits, the highest byte first."""
    return big_endian(array.array("h", map(linear, octets)))


def big_endian(samples):
    """Linear samples of 16 bits with their highest byte first."""
    if sys.byteorder == "little":
        samples.byteswap()
    return samples.tobytes()


def of_this_machine(octets):
    """Linear samples of 16 bits, the highest byte first, in the byte order of this machine."""
    # what turns them there turns them back
    return big_endian(array.array("h", octets))


def contributed(name):
    """A text of contrib/."""
    with open(os.path.join(CONTRIB, name)) as file:
        return file.read()


def commands(name):
    """The commands in the comments of a text of contrib/: lines that are set in, with those that go on with one."""
    lines = re.findall(r"^#     (.*)", contributed(name), re.M)
    return re.sub(r"\n +", " ", "\n".join(lines)).splitlines()


class Trial(cards.Trial):
    """The trial of a part, in a folder that is the home of the programs. There af is found by its name."""

    def __init__(self, part, afd, af):
        super().__init__(part, afd, af)
        found = os.path.join(self.folder, "bin")
        os.mkdir(found)
        os.symlink(self.af, os.path.join(found, "af"))
        self.environment = {**os.environ, "HOME": self.folder, "PATH": found + ":" + os.environ["PATH"]}
        self.environment.pop("ALSA_CONFIG_PATH", None)

    def is_missing(self, *programs):
        """Whether one of these is not installed, which is told then."""
        missing = [it for it in programs if not shutil.which(it)]
        if missing:
            self.told.append("there is no %s, so the trial %s is passed over" % (missing[0], self.trial))
        return bool(missing)

    @contextlib.contextmanager
    def serving(self, *lines, before=()):
        """A server with these devices, in the folder of the trial."""
        with self.serve(*lines, before=before, folder=self.folder) as self.server:
            self.environment["AUDIOFILE_SERVER"] = self.server.address
            yield self.server

    @contextlib.contextmanager
    def running(self, *words):
        """A program that runs meanwhile. At the end it is ended, with all that it started."""
        nowhere = {"stdin": subprocess.DEVNULL, "stdout": subprocess.DEVNULL, "stderr": subprocess.DEVNULL}
        program = subprocess.Popen(words, cwd=self.folder, env=self.environment, start_new_session=True, **nowhere)
        try:
            yield program
        finally:
            for number in (signal.SIGTERM, signal.SIGKILL):
                with contextlib.suppress(ProcessLookupError):
                    os.killpg(program.pid, number)
                with contextlib.suppress(subprocess.TimeoutExpired):
                    program.wait(2)

    def run(self, words, given=b""):
        """What a program writes."""
        done = subprocess.run(
            words, input=given, stdout=subprocess.PIPE, stderr=subprocess.PIPE, cwd=self.folder, env=self.environment, timeout=PATIENCE)
        self.holds("%s ends well: %s" % (words[0], done.stderr), done.returncode == 0)
        return done.stdout

    def play(self, what, octets, *words):
        """Gives bytes to `af aplay`."""
        said = self.run([self.af, "aplay", self.server.address, "--lead=1000", *words], octets).split()
        self.holds("%s: all is played: %s" % (what, said), said[:2] == [b"played", b"%d" % FRAMES])

    def record(self, *words):
        """What `af arecord` writes."""
        return self.run([self.af, "arecord", self.server.address, "--frames=%d" % FRAMES, *words])

    def is_heard(self, what, octets):
        """Whether a sound of mu-law is heard once, whole, from some time on."""
        self.server.wait_until(self.server.time() + 3 * RATE)
        heard = self.server.got("heard")
        self.holds("%s is heard, sample by sample" % what, heard.count(heard_as(octets)) == 1)

    def is_heard_soon(self, what, octets):
        """Whether linear samples are heard once, whole, within some seconds."""
        wait_for(lambda: octets in self.server.got("heard"))
        self.holds("%s is heard, sample by sample" % what, self.server.got("heard").count(octets) == 1)
