#!/usr/bin/env python3
"""A conference of devices of one AudioFile server, such as telephone lines: each hears all others, and not itself.

    examples/conference.py [SERVER] [--devices=0,1,2] [--delay=MS]

Without --devices it is of all telephone lines, or of all devices where there is no line. They have one rate and one channel each.
Their types may differ, since the server converts. Ctrl-C ends it.

From mouth to ear it takes 60 milliseconds, or as many as --delay states: what a device captures leaves all others so much later
in device time. 20 of these are the block in which sound is recorded, 20 are for the way to the server and back, and the rest is
slack. By so much the clocks of devices may differ. If that of a device runs ahead by more, as the clock of a sound card may, a
block of its sound is skipped, and it hears a block of silence. If its clock falls behind, its last block is repeated, and it
misses one. What cards and telephones hold comes on top. A card that gives its sound in large pieces needs more slack.

A device that dies gives only silence, and is told after ten seconds of that.
"""

import argparse
import os
import signal
import sys
import time

# the module lies beside this file where it is installed, and here in the tree
sys.path.append(os.path.join(os.path.dirname(os.path.abspath(__file__)), "..", "contrib", "python"))
import audiofile
from audiofile import difference, later, octets_of, samples_of

# blocks a second; after how many seconds of silence a device is told; and how many seconds lie between two lines on what is lost
BLOCKS, SILENT, AGAIN = 50, 10, 60
# the most frames of 16 bits that one record gives
MOST = 8000


def tell(text):
    print("conference.py: " + text, file=sys.stderr, flush=True)


class Member:
    """A device in the conference. `next` is where its next block begins, in its own time, and `last` is the block before."""

    def __init__(self, number, context, moment, silence):
        self.number, self.context, self.next, self.last = number, context, moment, silence
        self.heard = self.lost = self.silent = 0


class Conference:
    def __init__(self, server, devices, delay):
        self.server, self.rate, self.told = server, devices[0].rate, -AGAIN
        self.frames, self.delay = self.rate // BLOCKS, delay * self.rate // 1000
        self.silence = samples_of(bytes(2 * self.frames))
        # all begin at one moment. The server decodes and encodes what is not of 16 bits
        moments = server.times()
        self.members = [Member(it.number, server.context(it, "lin16"), moments[it.number], self.silence) for it in devices]

    def round(self):
        """Sound of each device goes to all others: a block, or some more if this program was late."""
        there, count = self.wait()
        for member in self.members:
            if member in there:
                member.block = samples_of(member.octets[:2 * count])
                member.last = member.block[-self.frames:]
                self.listen(member, count)
            else:
                # its last block is repeated, but only once
                member.block, member.last = member.last, self.silence
                self.lose(member, count, "device %d falls behind: a block of it is repeated" % member.number)
        total = [sum(frame) for frame in zip(*(member.block for member in self.members))]
        plays = [(member.context, later(member.next, self.delay), self.mix(total, member)) for member in there]
        for member, (_, at, _), now in zip(there, plays, self.server.plays(plays)):
            member.next = later(member.next, count)
            if difference(now, at) > 0:
                self.lose(member, min(difference(now, at), count), "some frames come too late: a greater --delay helps")

    def mix(self, total, member):
        """What a member hears: the sum of all without its own sound, within 16 bits."""
        return octets_of(max(-32768, min(32767, whole - own)) for whole, own in zip(total, member.block))

    def wait(self):
        """Waits until all members in step have captured a block. Returns them, and how many frames of whole blocks they have."""
        while True:
            records = self.server.records([(member.context, member.next, MOST) for member in self.members], wait=False)
            for member, (now, member.octets) in zip(self.members, records):
                member.ahead = difference(now, member.next)
            there = self.in_step()
            ahead = min(member.ahead for member in there)
            blocks = min(len(member.octets) for member in there) // (2 * self.frames)
            if ahead >= self.delay:
                # this program or the server stood still: what can be heard no more is left out
                for member in there:
                    self.skip(member, (ahead - self.delay // 2) // self.frames, "the conference stood still: blocks are left out")
            elif blocks:
                # others are repeated by one block
                return there, blocks * self.frames if there == self.members else self.frames
            else:
                time.sleep(max(self.frames - ahead, 0) / self.rate)

    def in_step(self):
        """The members whose clocks differ by the slack at most. The one that differs most skips a block, or is not waited for."""
        there = sorted(self.members, key=lambda member: member.ahead)
        while there[-1].ahead - there[0].ahead > self.delay - 2 * self.frames:
            slowest, middle, fastest = there[0], there[len(there) // 2], there[-1]
            if fastest.ahead - middle.ahead > middle.ahead - slowest.ahead:
                self.skip(fastest, 1, "device %d runs ahead: a block of it is skipped" % fastest.number)
                there.sort(key=lambda member: member.ahead)
            else:
                there.remove(slowest)
        return [member for member in self.members if member in there]

    def skip(self, member, blocks, text):
        frames = blocks * self.frames
        member.next, member.ahead, member.octets = later(member.next, frames), member.ahead - frames, member.octets[2 * frames:]
        self.lose(member, frames, text)

    def lose(self, member, frames, text):
        """Counts what is lost, and tells it, but not again within a minute."""
        member.lost += frames
        if time.monotonic() - self.told >= AGAIN:
            self.told = time.monotonic()
            tell(text)

    def listen(self, member, count):
        """Counts what is heard of a member. A dead device gives only silence, whose samples are all the same."""
        if min(member.block) < max(member.block):
            member.heard, member.silent = member.heard + count, 0
            return
        member.silent += count
        if member.silent - count < SILENT * self.rate <= member.silent:
            tell("device %d gives only silence: its input is off, or it is dead, as the log of the server says" % member.number)

    def ended(self):
        """What is said at the end."""
        heard = ", ".join("device %d for %.1f s" % (member.number, member.heard / self.rate) for member in self.members)
        return "heard %s; %d frames were lost" % (heard, sum(member.lost for member in self.members))


def chosen(devices, numbers):
    """The devices of the conference, which have to fit."""
    missing = [number for number in numbers or [] if number >= len(devices)]
    if missing:
        raise ValueError("there is no device %d: the server has %d" % (missing[0], len(devices)))
    found = [devices[number] for number in numbers or []] or [device for device in devices if device.has_line] or devices
    if len(found) < 2:
        raise ValueError("a conference has at least two devices, and this one only device %d" % found[0].number)
    for device in found:
        if device.channels != 1:
            raise ValueError("device %d has two channels, and a conference has one" % device.number)
        if device.rate != found[0].rate:
            rates = found[0].number, found[0].rate, device.number, device.rate
            raise ValueError("device %d has %d frames a second and device %d has %d, and a conference has one rate" % rates)
    return found


def numbers_of(text):
    numbers = text.split(",")
    if not all(number.isdecimal() for number in numbers) or len(set(map(int, numbers))) < len(numbers):
        raise argparse.ArgumentTypeError("it has numbers of devices, each once, as 0,1,2 has; and not %r" % text)
    return list(map(int, numbers))


def delay_of(text):
    if not text.isdecimal() or not 60 <= int(text) <= 3000:
        raise argparse.ArgumentTypeError("it is 60 to 3000 milliseconds, and not %r" % text)
    return int(text)


def main():
    reader = argparse.ArgumentParser(prog="conference.py", description=__doc__.partition("\n")[0], allow_abbrev=False)
    reader.add_argument("server", nargs="?", metavar="SERVER", help="HOST:PORT; AUDIOFILE_SERVER, if none is stated")
    reader.add_argument("--devices", type=numbers_of, metavar="NUMBERS", help="such as 0,1,2; all telephone lines, or else all")
    reader.add_argument("--delay", type=delay_of, default=60, metavar="MS", help="60 to 3000 milliseconds; 60")
    reader.error = lambda text: sys.exit("conference.py: " + text)
    words = reader.parse_args()
    with audiofile.connect(words.server, timeout=10) as server:
        server.patience = 10
        conference = Conference(server, chosen(server.devices, words.devices), words.delay)
        names = ", ".join(str(member.number) for member in conference.members)
        print("devices %s hear each other %d milliseconds later; Ctrl-C ends it" % (names, words.delay), flush=True)
        try:
            while True:
                conference.round()
        finally:
            print(conference.ended(), flush=True)


if __name__ == "__main__":
    signal.signal(signal.SIGTERM, signal.default_int_handler)
    try:
        main()
    except KeyboardInterrupt:
        pass
    except (audiofile.Error, OSError, ValueError) as fault:
        sys.exit("conference.py: %s" % fault)
