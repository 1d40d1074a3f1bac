"""Sound that clients play and record on, the processor time of a server, and the machine: what tools/bench-server and
tools/bench-cards share."""

import multiprocessing
import os
import re
import select
import threading
import time
from dataclasses import dataclass

from serving import HALF, WORD, asked_time, received, set_up
from wire import TYPES, WIDTHS, request


@dataclass(frozen=True)
class Sound:
    name: str
    type: str
    rate: int
    channels: int = 1
    # how many blocks a client sends in a second
    often: int = 10

    def device(self):
        return ["device %s %d 0%s silent" % (self.type, self.rate, " stereo" if self.channels == 2 else "")]

    def context(self, device=0):
        return request(
            "CreateAC", device, context=1, type=TYPES.index(self.type), channels=self.channels, preempt=0, play_gain=0, record_gain=0)

    def frames(self):
        """How many a block has."""
        return self.rate // self.often

    def width(self):
        """How many bytes a frame has."""
        return WIDTHS[self.type] * self.channels

    def size(self):
        """How many bytes a block has."""
        return self.frames() * self.width()

    def block(self):
        """A block that is not silence."""
        return (bytes(range(256)) * (self.size() // 256 + 1))[:self.size()]


class Clients:
    """Clients that go on, in a process of their own, each with a link. They take turns with so many devices. Used with `with`,
    all of them have begun, and they are ended at the end."""

    def __init__(self, server, sound, clients, devices=1):
        self.sound, self.clients = sound, clients
        self.began = multiprocessing.Event()
        # how many blocks were played or recorded, and how many were played too late
        self.blocks, self.late = (multiprocessing.Value("Q", 0, lock=False) for _ in range(2))
        self.process = multiprocessing.Process(target=self.go, args=(server.address, sound, clients, devices), daemon=True)

    def links(self, address, sound, clients, devices):
        """The links, each with the time of its device. These are asked when all are set up, which may take some time."""
        found = [(set_up(address), number % devices) for number in range(clients)]
        for link, device in found:
            link.sendall(sound.context(device))
            received(link, 8)
        return [(link, asked_time(link, device)) for link, device in found]

    def __enter__(self):
        self.process.start()
        self.began.wait(20)
        return self

    def __exit__(self, *_):
        self.process.kill()
        self.process.join()

    def go_on(self):
        return self.process.is_alive()

    def played(self):
        """How many seconds of sound each of them has played or recorded."""
        return self.blocks.value / self.clients / self.sound.often


class Players(Clients):
    """Clients that play on: each sends a block of sound as often as the sound says, half a second ahead. They take turns, so that
    they do not all send at once."""

    def go(self, address, sound, clients, devices):
        links = self.links(address, sound, clients, devices)
        block, begun, sent = sound.block(), time.monotonic(), 0
        while True:
            link, first = links[sent % clients]
            moment = (first + sound.rate // 2 + sent // clients * sound.frames()) % WORD
            link.sendall(request("Play", data=block, context=1, time=moment))
            now = int.from_bytes(received(link, 12)[8:12], "big")
            sent += 1
            self.late.value += 0 < (now - moment) % WORD < HALF
            self.blocks.value = sent
            if sent == clients:
                self.began.set()
            time.sleep(max(0.0, begun + sent / (sound.often * clients) - time.monotonic()))


class Recorders(Clients):
    """Clients that record on: each asks for a block once it was given the one before it."""

    def go(self, address, sound, clients, devices):
        moments = dict(self.links(address, sound, clients, devices))
        for link in moments:
            self.ask(link, moments, sound)
        while True:
            for link in select.select(list(moments), [], [])[0]:
                received(link, 16 + sound.size())
                self.ask(link, moments, sound)
                self.blocks.value += 1
            if self.blocks.value >= clients:
                self.began.set()

    def ask(self, link, moments, sound):
        link.sendall(request("Record", 1, context=1, time=moments[link], count=sound.size()))
        moments[link] = (moments[link] + sound.frames()) % WORD


class Flooders(Clients):
    """Clients that flood: each asks for recorded sound as fast as it is served, and takes all of it."""

    # a Record of the most bytes, as often as one read of a server has it
    MOST_BYTES, REQUESTS_A_READ = 16000, 1024

    def go(self, address, sound, clients, devices):
        links = self.links(address, sound, clients, devices)
        for link, now in links:
            record = request("Record", context=1, time=(now - self.MOST_BYTES) % WORD, count=self.MOST_BYTES)
            threading.Thread(target=self.ask, args=(link, self.REQUESTS_A_READ * record), daemon=True).start()
        room, reply = bytearray(1 << 20), 16 + self.MOST_BYTES
        while True:
            for link in select.select([link for link, _ in links], [], [])[0]:
                taken = link.recv_into(room)
                self.blocks.value += taken // reply
                self.began.set()

    def ask(self, link, requests):
        link.settimeout(None)
        while True:
            link.sendall(requests)


def processor_seconds(server):
    total = 0
    for thread in server.threads():
        with open("/proc/%d/task/%s/schedstat" % (server.process.pid, thread)) as file:
            total += int(file.read().split()[0])
    return total / 1e9


def machine():
    with open("/proc/cpuinfo") as file:
        model = re.search(r"model name\s*: (.*)", file.read())
    return "%s, %d processors" % (model[1] if model else "an unknown processor", os.cpu_count())


def other_work():
    load = os.getloadavg()[0]
    return "%s on the machine as it began, whose load was %.1f" % ("Other work ran" if load >= 1 else "Nothing else ran", load)


def day_and_machine():
    """The day, the machine, and what else runs on it."""
    return "On %s: %s. %s." % (time.strftime("%Y-%m-%d"), machine(), other_work())


def busy_seconds():
    """How long all processors were busy since the machine began, and how long with this program and those that it began and that
    ended."""
    with open("/proc/stat") as file:
        user, nice, system, _, _, *interrupts = map(int, file.readline().split()[1:9])
    own = os.times()
    return (user + nice + system + sum(interrupts)) / os.sysconf("SC_CLK_TCK"), sum(own[:4])


class Beside:
    """What else runs on the machine from now on."""

    def __init__(self):
        self.began, self.busy = time.monotonic(), busy_seconds()

    def told(self):
        every, own = (now - then for now, then in zip(busy_seconds(), self.busy))
        took = os.cpu_count() * (time.monotonic() - self.began)
        return "Meanwhile other work took %.0f %% of the time of all processors." % (100 * max(0.0, every - own) / took)
