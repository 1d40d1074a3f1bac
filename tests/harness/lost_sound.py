"""Sound that is lost, for tools/check-details: sinks, sources and servers that stand still. What a tool tells of lost frames must
be the number of frames that are missing in what was recorded, or in what the device has handed out."""

import os
import re
import signal
import subprocess
import tempfile
import time

from serving import Server

SECONDS = 60
# a device that a pipe soon is too small for, and one that little sound is enough for
STEREO, MONO = ("lin16", 44100, 2), ("lin16", 8000, 1)
# a sample that is no silence
SAMPLE = b"\x01\x01"
LATE = re.compile(rb"af: (\d+) frames? in \d+ blocks? came too late to be heard\n")
GONE = re.compile(rb"af: (\d+) frames? in \d+ blocks? had left the server before they were asked for: ")


def sound(device, seconds):
    """Sound for a device, without any silence in it."""
    _, rate, channels = device
    return SAMPLE * int(rate * channels * seconds)


def serving(afd, folder, device, seconds=1):
    """A server with a device that captures so many seconds of sound, and keeps what it hands out."""
    kind, rate, channels = device
    with open(os.path.join(folder, "in"), "wb") as opened:
        opened.write(sound(device, seconds))
    return Server(afd, folder, ["device %s %d 0 %sfiles in out" % (kind, rate, "stereo " if channels == 2 else "")])


def started(words, source=subprocess.PIPE, sink=subprocess.PIPE):
    """A tool that tells what it lost."""
    return subprocess.Popen(words, stdin=source, stdout=sink, stderr=subprocess.PIPE, env={**os.environ, "AUDIOFILE_DETAILS": "1"})


def silent(octets, device):
    """How many frames are silence."""
    width = 2 * device[2]
    return sum(not any(octets[at : at + width]) for at in range(0, len(octets), width))


def unheard(server, device, line):
    """How many frames of a play are missing in what its device hands out, by the line that the tool has written."""
    _, frames, _, start = line.split()
    past = int(start) + int(frames)
    server.wait_until(past)
    width = 2 * device[2]
    return silent(server.got("out")[width * int(start) : width * past], device)


def difference(what, pattern, said, missing, some):
    """What is amiss in the number of lost frames that is told. Where some must be lost, it is above 0."""
    found = pattern.search(said)
    told = int(found.group(1)) if found else 0
    if told != missing:
        return ["%s: %d lost frames are told, and %d are missing" % (what, told, missing)]
    return ["%s: no frame was lost" % what] if some and not missing else []


def sleeping_sink(afd, af):
    """What takes a recording sleeps for longer than a server keeps sound."""
    with tempfile.TemporaryDirectory() as folder, serving(afd, folder, STEREO, 20) as server:
        record = started([af, "arecord", server.address, "--frames=%d" % (9 * STEREO[1])])
        time.sleep(7.5)
        recorded, said = record.communicate(timeout=SECONDS)
    return difference("a recording", GONE, said, silent(recorded, STEREO), True)


def pausing_source(afd, af):
    """What gives the sound of a play pauses for longer than its lead."""
    with tempfile.TemporaryDirectory() as folder, serving(afd, folder, MONO) as server:
        play = started([af, "aplay", server.address])
        play.stdin.write(sound(MONO, 0.3))
        play.stdin.flush()
        time.sleep(1.5)
        line, said = play.communicate(sound(MONO, 2), timeout=SECONDS)
        missing = unheard(server, MONO, line)
    return difference("a play", LATE, said, missing, True)


def stopped_server(afd, af):
    """A server stands still for longer than it keeps sound, under a play and a recording."""
    with tempfile.TemporaryDirectory() as folder, serving(afd, folder, STEREO, 30) as server, tempfile.TemporaryFile() as source:
        source.write(sound(STEREO, 7))
        source.seek(0)
        with tempfile.TemporaryFile() as sink:
            play = started([af, "aplay", server.address], source)
            record = started([af, "arecord", server.address, "--frames=%d" % (7 * STEREO[1])], sink=sink)
            time.sleep(1)
            server.process.send_signal(signal.SIGSTOP)
            time.sleep(5)
            server.process.send_signal(signal.SIGCONT)
            line, played = play.communicate(timeout=SECONDS)
            _, recorded = record.communicate(timeout=SECONDS)
            sink.seek(0)
            missing, unrecorded = unheard(server, STEREO, line), silent(sink.read(), STEREO)
    return difference("a play", LATE, played, missing, False) + difference("a recording", GONE, recorded, unrecorded, False)


TRIALS = {
    "a recording whose sink sleeps": sleeping_sink,
    "a play whose source pauses": pausing_source,
    "a server that stands still": stopped_server,
}
