"""What breaks beside a client that plays and one that records, which are to go on as if nothing had: links, devices, descriptors,
and the server itself. These are trials of try-server."""

import os
import random
import select
import signal
import subprocess
import time

from serving import GET_TIME, SETUP, WORD, Server, connect, guest, received, reset, set_up
from sounds import LEAD, RATE, heard_as, mu_law, tone
from wire import request

# any byte of mu-law but its two zeros, so that each is told from silence
SOUNDING = [*range(127), *range(128, 255)]
SILENT = b"\xff"
# for how long a client reads nothing, and for how long it asks meanwhile, in seconds
DEAF, ASKING = 10, 1


def parts(trial):
    return [lambda part=part: part(trial) for part in (links_fail, devices_fail, descriptors_run_out, is_terminated)]


class Honest:
    """A client that plays to device 0 and one that records from it, while others fail: used with `with`, around these."""

    def __init__(self, trial, server, given, seconds, records=True):
        self.trial, self.server, self.given = trial, server, given
        self.octets = bytes(mu_law(sample) for sample in tone(seconds * RATE, 523))
        self.player = self.started("aplay", "--lead=%d" % LEAD, stdin=subprocess.PIPE)
        self.player.stdin.write(self.octets)
        self.player.stdin.close()
        self.moment, self.recorder = server.time(), None
        if records:
            self.recorder = self.started("arecord", "--frames=%d" % (seconds * RATE // 2), "--time=%d" % self.moment)

    def started(self, tool, *words, **streams):
        return subprocess.Popen([self.trial.af, tool, self.server.address, *words], stdout=subprocess.PIPE, **streams)

    def __enter__(self):
        return self

    def __exit__(self, *_):
        self.at = int(self.player.stdout.read().split()[3])
        self.player.wait(60)
        if self.recorder:
            recorded = self.recorder.stdout.read()
            self.recorder.wait(60)
            captured = self.given[self.moment:self.moment + len(self.octets) // 2]
            self.trial.holds("the recording of another client goes on", recorded == heard_as(captured))
        self.server.wait_until((self.at + len(self.octets)) % WORD)

    def heard(self, what):
        """Ends the server: what the device has handed out is the tone, sample by sample."""
        self.trial.holds("the server runs beside %s, and says nothing" % what, self.server.end())
        heard = self.server.got("out")[self.at:self.at + len(self.octets)]
        self.trial.holds("a tone is heard beside %s" % what, heard == heard_as(self.octets))


def given_to(trial, folder, name="in", seconds=20):
    """A file of sound that a device captures."""
    given = bytes(random.Random(name).choices(SOUNDING, k=seconds * RATE))
    trial.file(folder, name, given)
    return given


def links_fail(trial):
    """Clients that are reset in the middle of a request, of a reply and of a wait, and one that reads nothing for seconds."""
    folder = trial.folder_of("links")
    given = given_to(trial, folder)
    with Server(trial.afd, folder, ["device mu255 8000 0 files in out"]) as server:
        with Honest(trial, server, given, 6) as honest:
            deaf, asked = is_deaf(server)
            until = time.monotonic() + DEAF
            for _ in range(10):
                reset(connect(server.address))
                reset_in_a_request(server)
                reset_in_a_reply(server)
            reset_as_it_waits(server)
            time.sleep(max(0, until - time.monotonic()))
            told = received(deaf, 12 * asked)
            numbers = [int.from_bytes(told[at + 2:at + 4], "big") for at in range(0, len(told), 12)]
            trial.holds("who read nothing for seconds is told all", numbers == [(1 + at) % 65536 for at in range(asked)])
            deaf.close()
            late = guest(server)
            trial.holds("there is a place again after 31 links that were reset", late)
            if late:
                late.close()
        honest.heard("links that are reset")


def is_deaf(server):
    """A client that asks until no more is taken, for what it does not read: the link, and how many requests it sent."""
    # a small window is full at once
    link = set_up(server.address, 4096)
    link.setblocking(False)
    piece = GET_TIME * 1000
    sent = 0
    begun = time.monotonic()
    while time.monotonic() - begun < ASKING:
        try:
            sent += link.send(piece[sent % 4:])
        except BlockingIOError:
            time.sleep(0.01)
    link.setblocking(True)
    link.settimeout(20)
    return link, sent // 4


def reset_in_a_request(server):
    link = set_up(server.address)
    link.sendall(request("Play", context=1, time=0, data=bytes(1000))[:500])
    reset(link)


def reset_in_a_reply(server):
    link = set_up(server.address)
    link.sendall(request("CreateAC", context=1, type=0, channels=1, preempt=0, play_gain=0, record_gain=0))
    link.sendall(request("Record", context=1, time=0, count=16000) * 20)
    received(link, 100)
    reset(link)


def reset_as_it_waits(server):
    """The record completes two seconds after its link is gone."""
    link = set_up(server.address)
    link.sendall(request("CreateAC", context=1, type=0, channels=1, preempt=0, play_gain=0, record_gain=0))
    link.sendall(request("Record", 1, context=1, time=server.time() + 2 * RATE, count=100) + GET_TIME)
    reset(link)


def devices_fail(trial):
    """Devices whose output is a full disk, or a pipe whose reader goes, and whose input is a folder, or is cut as it is read."""
    folder = trial.folder_of("devices")
    given = given_to(trial, folder)
    cut = given_to(trial, folder, "cut")
    os.mkfifo(os.path.join(folder, "pipe"))
    reader = os.open(os.path.join(folder, "pipe"), os.O_RDONLY | os.O_NONBLOCK)
    outside = ["in out", "in /dev/full", ". /dev/null", "cut /dev/null", "/dev/null pipe"]
    with Server(trial.afd, folder, ["device mu255 8000 0 files " + files for files in outside]) as server:
        with Honest(trial, server, given, 5) as honest:
            pipe_loses_its_reader(trial, server, reader, os.path.join(folder, "pipe"))
            captures_nothing(trial, server, 1, "a device whose disk is full")
            captures_nothing(trial, server, 2, "a device whose input cannot be read")
            is_cut(trial, server, 3, cut, os.path.join(folder, "cut"))
        honest.heard("devices that fail")


def captures_nothing(trial, server, device, what):
    """A dead device captures silence, whatever its input has, and its time goes on."""
    moment = server.time(device)
    recorded = trial.tool("arecord", server.address, "--device=%d" % device, "--frames=800", "--time=%d" % moment)
    trial.holds("%s is dead, and its time goes on" % what, recorded == SILENT * 800)


def is_cut(trial, server, device, given, path):
    """Where the input of a device is cut as it is read, there is silence from then on."""
    moment = server.time(device)
    words = "--device=%d" % device, "--frames=400"
    recorded = trial.tool("arecord", server.address, *words, "--time=%d" % moment)
    trial.holds("an input is recorded until it is cut", recorded == given[moment:moment + 400])
    os.truncate(path, 100)
    moment = server.time(device)
    recorded = trial.tool("arecord", server.address, *words, "--time=%d" % moment)
    trial.holds("after the cut of its input there is silence", recorded == SILENT * 400)


def pipe_loses_its_reader(trial, server, reader, path):
    """A device whose output is a pipe hands out to its reader, and is dead once that has gone: another reader gets nothing."""
    server.wait_until(RATE // 8, 4)
    octets = os.read(reader, 1000)
    os.close(reader)
    trial.holds("a pipe gets what its device hands out", octets and set(octets) == set(SILENT))
    server.wait_until(server.time(4) + RATE // 4, 4)
    reader = os.open(path, os.O_RDONLY | os.O_NONBLOCK)
    # what was handed out before the first reader went still lies there
    drained(reader)
    server.wait_until(server.time(4) + RATE // 8, 4)
    trial.holds("a device whose pipe lost its reader hands out nothing more", drained(reader) == 0)
    os.close(reader)


def drained(reader):
    """How many bytes lie in a pipe, which has none then."""
    count = 0
    try:
        while octets := os.read(reader, 65536):
            count += len(octets)
    except BlockingIOError:
        pass
    return count


def descriptors_run_out(trial):
    """A server that may open 20 files: clients for whom there is none wait, and are served once others have gone."""
    folder = trial.folder_of("descriptors")
    given = given_to(trial, folder)
    few = ["sh", "-c", 'ulimit -n 20 && exec "$@"', "sh"]
    with Server(trial.afd, folder, ["device mu255 8000 0 files in out"], few) as server:
        with Honest(trial, server, given, 4) as honest:
            links = [connect(server.address) for _ in range(24)]
            for link in links:
                link.sendall(SETUP + GET_TIME)
            select.select(links, [], [], 20)
            time.sleep(1)
            served = select.select(links, [], [], 0)[0]
            trial.holds("of 24 clients %d are served with 20 descriptors" % len(served), 0 < len(served) < 20)
            for link in served:
                link.close()
            # they are accepted in the order in which they came
            waiting = [link for link in links if link not in served]
            late = [received(link, 40) for link in waiting[:len(served)]]
            trial.holds("who found no descriptor is served once there is one", all(len(told) == 40 for told in late))
            for link in waiting:
                link.close()
        honest.heard("clients for whom there is no descriptor")


def is_terminated(trial):
    """A server that is terminated in the middle of sound: what its device handed out by then stands in the file."""
    folder = trial.folder_of("terminated")
    given = given_to(trial, folder)
    with Server(trial.afd, folder, ["device mu255 8000 0 files in out"]) as server:
        octets = bytes(mu_law(sample) for sample in tone(3 * RATE, 523))
        at = trial.played(server, octets, len(octets))
        server.wait_until((at + RATE) % WORD)
        moment = server.time()
        server.process.send_signal(signal.SIGTERM)
        trial.holds("SIGTERM ends a server", server.process.wait(20) == -signal.SIGTERM)
    out = server.got("out")
    trial.holds("what was handed out before stands in the file", len(out) >= moment)
    played = heard_as(octets)[:len(out) - at]
    trial.holds("a tone that is cut off is heard until then", len(played) >= RATE and out[at:at + len(played)] == played)
