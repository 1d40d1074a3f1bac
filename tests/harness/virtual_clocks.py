"""Two servers whose clocks are counted and not waited for, for a relay of tools/try-cards. What one of them is asked is answered at
once, and a record moves both clocks on by the sound that it waits for. So minutes of a drift take seconds, and a machine that does
much else changes nothing. Their bytes are those of audiofile-protocol(7)."""

import os
import re
import socket
import struct
import subprocess
import threading

RATE, WORD = 8000, 1 << 32
# a device of 16-bit samples
SETUP_REPLY = struct.pack(">BBHIBBHIBBHII", 1, 0, 0, 5, 0, 1, 0, 1, 2, 1, 0, RATE, 4 * RATE)
# the minutes that go by, the frames of a block, how many are passed, and in frames how far ahead they are to be played
MINUTES, BLOCK = int(os.environ.get("MINUTES", 2)), 800
BLOCKS, DELAY = MINUTES * 60 * RATE // BLOCK, RATE // 5
# what is captured: frames that are counted, from a place on, and none of them silent
COUNTED = struct.pack(">%dH" % (65535 + 4000), *(1 + it % 65535 for it in range(65535 + 4000)))


class Clocks:
    """The time that has gone by, in seconds, and what was heard."""

    def __init__(self):
        self.passed, self.plays = 0.0, []


class Server(threading.Thread):
    """A server for one client. Its device begins at a time, and its clock has a speed."""

    def __init__(self, clocks, start, speed):
        super().__init__(daemon=True)
        self.clocks, self.begun, self.speed = clocks, start, speed
        self.socket = socket.create_server(("127.0.0.1", 0))
        self.address = "127.0.0.1:%d" % self.socket.getsockname()[1]
        self.start()

    def now(self):
        """Its device time, without an end."""
        return self.begun + int(self.clocks.passed * RATE * self.speed)

    def run(self):
        link, _ = self.socket.accept()
        with link, self.socket, link.makefile("rwb") as stream:
            link.setsockopt(socket.IPPROTO_TCP, socket.TCP_NODELAY, 1)
            stream.read(8)
            stream.write(SETUP_REPLY)
            stream.flush()
            for number in range(1, 1 << 60):
                front = stream.read(4)
                if len(front) < 4:
                    return
                opcode, _, words = struct.unpack(">BBH", front)
                body = self.answered(opcode, stream.read(4 * words - 4))
                stream.write(struct.pack(">BBHI", 1, opcode, number % 65536, len(body) // 4) + body)
                stream.flush()

    def answered(self, opcode, body):
        """What a request comes to: time, play, record, or a context that is made or freed."""
        if opcode == 2:
            return struct.pack(">I", self.now() % WORD)
        if opcode == 6:
            _, time, size = struct.unpack(">III", body[:12])
            self.clocks.plays.append((time, self.now(), body[12:12 + size]))
            return struct.pack(">I", self.now() % WORD)
        if opcode == 7:
            _, time, size = struct.unpack(">III", body[:12])
            return self.recorded(time, size // 2)
        return b""

    def recorded(self, time, frames):
        """So many frames, once all of them have gone by."""
        first = self.begun + (time - self.begun) % WORD
        self.clocks.passed = max(self.clocks.passed, (first + frames - self.begun + 1) / (RATE * self.speed))
        place = 2 * (first % 65535)
        samples = COUNTED[place:place + 2 * frames]
        return struct.pack(">II", self.now() % WORD, 2 * frames) + samples + b"\0" * (2 * frames % 4)


def passed_on(trial, speed_from, speed_to):
    """A relay from one clock to another, whose times both wrap on the way: its line, how many frames its details say were played
    twice and left out, the last number of each line a minute, and the plays."""
    clocks = Clocks()
    one, other = Server(clocks, WORD - 7, speed_from), Server(clocks, WORD - 60 * RATE, speed_to)
    done = subprocess.run(
        [trial.af, "apass", one.address, other.address, "--follow", "--blocks=%d" % BLOCKS, "--block=%d" % BLOCK, "--slack=3"],
        capture_output=True, timeout=80, env={**os.environ, "AUDIOFILE_DETAILS": "1"})
    found = re.search(rb"played (\d+) frames? twice to follow the clock, left (\d+) frames? out", done.stderr)
    minutes = re.findall(
        rb"^af: passed \d+ blocks, played \d+ frames? twice, left \d+ frames? out, resynchronised 0 times; (\d+) frames ahead$",
        done.stderr, re.M)
    return done.stdout.decode().strip(), tuple(map(int, found.groups())) if found else (-1, -1), list(map(int, minutes)), clocks.plays


def drifts(trial):
    """A drift of a thousandth, each way: no hole, and as many frames twice or left out as the clocks came apart."""
    for speed_from, speed_to in ((1.001, 1), (1, 1.001), (0.999, 1), (1, 0.999)):
        line, counts, minutes, plays = passed_on(trial, speed_from, speed_to)
        told = "from %s to %s: %s: %s" % (speed_from, speed_to, line, counts)
        trial.holds("it never starts afresh: " + told, line == "passed %d resynced 0" % BLOCKS and len(plays) == BLOCKS)
        drift = round(BLOCK * BLOCKS * (speed_to / speed_from - 1))
        trial.holds("it makes up for the drift of %d: %s" % (drift, told), abs(counts[0] - counts[1] - drift) <= 3 and min(counts) <= 3)
        touching = all((time + len(samples) // 2) % WORD == later for (time, _, samples), (later, _, _) in zip(plays, plays[1:]))
        trial.holds("each play begins where the one before it ends: " + told, touching)
        ahead = [(time - now + WORD // 2) % WORD - WORD // 2 - DELAY for time, now, _ in plays]
        trial.holds("each is within 3 frames of its place: %d..%d: %s" % (min(ahead), max(ahead), told), -3 <= min(ahead) and max(ahead) <= 3)
        whole = b"".join(samples for _, _, samples in plays)
        frames = struct.unpack(">%dH" % (len(whole) // 2), whole)
        steps = [(later - one) % 65535 for one, later in zip(frames, frames[1:])]
        # no frame follows the last one that is left out, if the last block is short
        unseen = len(plays[-1][2]) < 2 * BLOCK
        trial.holds(
            "each frame follows the one before it, but as many as it says: " + told,
            (steps.count(0), steps.count(2) + unseen) == counts and steps.count(1) == len(steps) - sum(counts) + unseen)
        trial.holds("it tells a line a minute: %s: %s" % (minutes, told), len(minutes) == MINUTES)
