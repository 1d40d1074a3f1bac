"""What `af meter` writes of devices that capture known samples: trials of tools/try-meter."""

import math
import os
import random
import shutil
import struct
import subprocess
import time

from meter_trials import RATE
from sounds import linear, mu_law, tone


def level(samples):
    """A peak and a root mean square, as a line has them."""
    return "peak %d mean %d" % (max(map(abs, samples)), math.isqrt(sum(sample * sample for sample in samples) // len(samples)))


def run(trial, server, *words, seconds=40):
    """The lines of the tool, and its status."""
    done = subprocess.run(
        [trial.af, "meter", server.address, *words], stdin=subprocess.DEVNULL, stdout=subprocess.PIPE, timeout=seconds)
    return done.stdout.decode().splitlines(), done.returncode


def measured(trial):
    """Each line is that of exactly its frames, and each interval begins where the one before it ends."""
    chance = random.Random(7)
    two = [chance.randint(-32768, 32767) >> chance.choice((0, 3, 9)) for _ in range(2 * 30 * RATE)]
    coded = [mu_law(chance.randint(-32768, 32767)) for _ in range(30 * RATE)]
    trial.file(trial.folder, "two", struct.pack(">%dh" % len(two), *two))
    trial.file(trial.folder, "coded", bytes(coded))
    heard = [[two[0::2], two[1::2]], [list(map(linear, coded))]]
    with trial.serve(
            "device lin16 8000 0 stereo files two out", "device mu255 8000 0 files coded none", folder=trial.folder) as server:
        for device, every, count in ((0, 37, 6), (1, 1, 40), (0, 1100, 1), (1, 2500, 1)):
            frames = every * RATE // 1000
            lines, status = run(trial, server, "--device=%d" % device, "--every=%d" % every, "--count=%d" % count)
            trial.equals("the status", status, 0)
            trial.equals("the lines", len(lines), count)
            begins = int(lines[0].split()[0])
            for number, line in enumerate(lines):
                at = begins + number * frames
                wanted = " ".join([str(at), *(level(row[at:at + frames]) for row in heard[device])])
                trial.equals("%d milliseconds of device %d" % (every, device), line, wanted)
        trial.ends(server)


def as_sox_has_it(trial):
    """sox measures the same of the same frames, as far as it tells digits."""
    if not shutil.which("sox"):
        return
    trial.file(trial.folder, "tone", struct.pack(">%dh" % (20 * RATE), *tone(20 * RATE, 440)))
    with trial.serve("device lin16 8000 0 files tone out", folder=trial.folder) as server:
        lines, _ = run(trial, server, "--every=500", "--count=1")
        at, _, peak, _, mean = lines[0].split()
        recorded = subprocess.run(
            [trial.af, "arecord", server.address, "--time=" + at, "--frames=4000"], stdout=subprocess.PIPE, timeout=20).stdout
        told = subprocess.run(
            ["sox", "-t", "raw", "-e", "signed", "-b", "16", "-B", "-r", "8000", "-c", "1", "-", "-n", "stat"],
            input=recorded, stderr=subprocess.PIPE, timeout=20).stderr.decode()
        stated = {line.partition(":")[0]: float(line.partition(":")[2]) for line in told.splitlines() if ":" in line}
        most = max(stated["Maximum amplitude"], -stated["Minimum amplitude"]) * 32768
        trial.holds("the peak %s is %g" % (peak, most), abs(int(peak) - most) < 1)
        root = sum(stated[name] * 32768 for name in stated if name.startswith("RMS") and name.split()[1] == "amplitude")
        trial.holds("the mean %s is %g" % (mean, root), -1 < int(mean) - root <= 0.1)
        trial.ends(server)


def tells_silence(trial):
    """It is quiet by the interval that completes the time of quiet, and sound at the next loud one; each has its line at once."""
    # a second of a tone, two of silence, and so on
    trial.file(trial.folder, "on", struct.pack(">%dh" % (24 * RATE), *((tone(RATE, 300) + [0] * 2 * RATE) * 8)))
    with trial.serve("device lin16 8000 0 files on out", folder=trial.folder) as server:
        begun = time.monotonic()
        told = subprocess.Popen(
            [trial.af, "meter", server.address, "--every=50", "--below=100", "--for=720", "--count=5"], stdout=subprocess.PIPE)
        lines = []
        for line in told.stdout:
            # a line is there before the next change, which comes a second later at the earliest
            lines.append((line.decode().split(), time.monotonic() - begun))
        trial.equals("the status", told.wait(20), 0)
        trial.equals("the lines", len(lines), 5)
        times = [int(words[0]) for words, _ in lines]
        for (at, word), _ in lines:
            # frames of the tone, or of the silence that follows it, are 24000 apart
            begins = 0 if word == "sound" else RATE + 5760 - 400
            after = (int(at) - begins + 400) % (3 * RATE)
            trial.holds("%s at %s" % (word, at), after <= 800)
        kinds = [words[1] for words, _ in lines]
        trial.holds("changes alternate: %s" % kinds, all(one != other for one, other in zip(kinds, kinds[1:])))
        trial.holds("from quiet on: %s" % kinds, kinds[0] == "quiet")
        trial.holds("lines come as the changes do", all(
            abs((lines[at][1] - lines[0][1]) - (times[at] - times[0]) / RATE) < 1 + trial.starved() for at in range(5)))
        trial.ends(server)


def tool_ends(trial):
    """It ends with its server, and where its output takes no more."""
    with trial.serve("device lin16 8000 0 silent") as server:
        with open("/dev/full", "wb") as full:
            done = subprocess.run(
                [trial.af, "meter", server.address], stdin=subprocess.DEVNULL, stdout=full, stderr=subprocess.PIPE, timeout=20)
        trial.equals("a full disk", (done.returncode, done.stderr), (6, b"af: write failed\n"))
        read, write = os.pipe()
        unread = subprocess.Popen([trial.af, "meter", server.address, "--every=10"], stdout=write, stderr=subprocess.PIPE)
        os.close(write)
        os.read(read, 10)
        os.close(read)
        trial.equals("nobody reads", (unread.wait(20), unread.stderr.read()), (6, b"af: write failed\n"))
        left = subprocess.Popen([trial.af, "meter", server.address], stdout=subprocess.PIPE, stderr=subprocess.PIPE)
        trial.holds("there is a line", left.stdout.readline().endswith(b" peak 0 mean 0\n"))
        trial.ends(server)
        trial.holds("it ends with its server", left.wait(20) in (13, 14))
