"""Trials of tools/try-cards over the programs of ALSA and PulseAudio, where these are installed. ALSA plays to a program and
records from a FIFO that go by a clock of their own; what PulseAudio plays to a sink that is none is recorded again from there."""

import array
import contextlib
import os
import shutil
import signal
import subprocess
import sys
import tempfile
import threading
import time
import types

from cards import LOGGED, PLAYED, Card, Client, audiofile, emitted, left_out, playing, recording, told_lost, wait_for
from other_servers import PulseAudio
from serving import ROOT, WORD

SCRIPTS = os.path.join(ROOT, "contrib")
# ALSA's own devices, with a program that plays and a FIFO that is recorded. Where nothing is paced, time runs as fast as it can
ALSA = """
pcm.paced { type asym playback.pcm player capture.pcm recorder }
pcm.player { type file slave.pcm "null" format raw file "| exec %s play.py" }
pcm.recorder { type file slave.pcm "null" format raw file "/dev/null" infile "given" }
"""
# what plays: it takes what its clock counts
PLAYS = """
import os, time
heard = os.open("heard", os.O_CREAT | os.O_WRONLY)
begun, taken = time.monotonic(), 0
while True:
    due = int((time.monotonic() - begun) * %d) * %d - taken
    piece = os.read(0, due) if due > 0 else None
    if piece == b"":
        break
    taken += os.write(heard, piece) if piece else 0
    time.sleep(0.005)
"""
# how a server ends whose devices were attached, and which then has no more to do
WAITS_SPENT = 11
# how long sound is compared, how long a program of ALSA runs ahead at first, and how late sound may be, in seconds
WATCHED, AHEAD, MOST_LATE = 6, 1, 0.6
# what PulseAudio holds ahead of its sink for so long a trial as one of minutes, on a busy machine, in milliseconds
HELD_AHEAD = 400


def is_missing(trial, *programs):
    """Whether one of these is not installed, which is told then."""
    missing = [it for it in programs if not shutil.which(it)]
    if missing:
        print("try-cards: there is no %s, so the trial %s is passed over" % (missing[0], trial.trial))
    return bool(missing)


# what gives what is recorded: whole periods of arecord, since ALSA makes silence of what is missing in one
GIVES = """
import os, sys, time
sys.path.append(%r)
import card_program
out, rate, width = os.open("given", os.O_WRONLY), %d, %d
begun, given, period = time.monotonic(), 0, rate // 100
while True:
    while given + period <= (time.monotonic() - begun) * rate:
        os.write(out, card_program.sound(width, 0, given, period))
        given += period
    time.sleep(0.005)
"""


class Giver:
    """What is recorded: it gives the frames of a card to a FIFO, by its own clock."""

    def __init__(self, folder, card):
        os.mkfifo(os.path.join(folder, "given"))
        text = GIVES % (os.path.dirname(__file__), card.rate, card.width)
        self.process = subprocess.Popen([sys.executable, "-c", text], cwd=folder, stderr=subprocess.DEVNULL)

    def __enter__(self):
        return self

    def __exit__(self, *_):
        self.process.kill()
        self.process.wait()


def alsa_folder(trial, card):
    """A folder that is the home of programs of ALSA, and what to begin the server with."""
    folder = tempfile.mkdtemp(dir=trial.folder)
    trial.file(folder, ".asoundrc", (ALSA % sys.executable).encode())
    trial.file(folder, "play.py", (PLAYS % (card.rate, card.width)).encode())
    return folder, ["env", "-u", "ALSA_CONFIG_PATH", "HOME=" + folder, "PATH=%s:%s" % (SCRIPTS, os.environ["PATH"])]


def is_recorded(trial, card, recorded):
    """Whether what was recorded is what was given."""
    if recorded:
        frames = len(recorded[1]) // card.width
        trial.holds("what is given is captured, frame by frame", recorded[1] == card.sound(frames))


def is_played(trial, server, card, played):
    """Whether what left the device came to the program that plays."""
    if not played:
        return
    frames = card.place(played.time) + played.frames
    sound = card.sound(played.frames, PLAYED)
    wait_for(lambda: len(server.got("heard")) >= frames * card.width)
    heard = server.got("heard")[:frames * card.width]
    lost = left_out(heard, emitted(card, played, sound, frames), card.width)
    trial.holds("what left the device is played, frame by frame: %s left out" % lost, lost == 0 and len(heard) == frames * card.width)


def ends(trial, server, *names):
    """Ends a server. Its programs end after it, and may say so."""
    trial.holds("the server runs", server.process.poll() is None)
    server.end()
    trial.holds("its programs end", wait_for(lambda: not any(programs(server.folder, it) for it in names)))


def alsa(trial):
    """A loudspeaker with aplay, a microphone with arecord, and both over ALSA's null device, where no clock counts."""
    if is_missing(trial, "aplay", "arecord"):
        return
    card = Card("alsa", "lin16", 16000)
    folder, before = alsa_folder(trial, card)
    words = "-q -Dpaced -traw -fS16_BE -r16000 -F10000 -B80000"
    lines = ["device lin16 16000 0 speaker 3 aplay " + words, "device lin16 16000 0 microphone 3 arecord " + words,
             "device lin16 16000 0 speaker 3 aplay " + words.replace("paced", "null"),
             "device lin16 16000 0 microphone 3 arecord " + words.replace("paced", "null")]
    with Giver(folder, card), trial.serve(*lines, before=before, folder=folder) as server:
        recorder = recording(server, 1, card, WATCHED)
        time.sleep(AHEAD)
        player = playing(server, 0, card, WATCHED - 3)
        first = [server.time(it) for it in range(4)]
        is_recorded(trial, card, recorder.given(trial))
        is_played(trial, server, card, player.given(trial))
        passed = [(server.time(it) - first[it]) % WORD for it in range(4)]
        trial.holds("times go on: %s" % passed, all(it > 2 * card.rate for it in passed))
        ends(trial, server, "aplay", "arecord")


def alsa_card(trial):
    """The script for a card of ALSA: what it records and plays, and that it ends whole and comes back, whichever program ends."""
    if is_missing(trial, "aplay", "arecord", "setpriv"):
        return
    card = Card("alsa", "lin16", 16000, 2)
    folder, before = alsa_folder(trial, card)
    line = "device lin16 16000 0 stereo card 9 audiofile-alsa-card paced 16000 2 S16_BE"
    with Giver(folder, card), trial.serve(line, before=before, folder=folder) as server:
        recorder, player = recording(server, 0, card, WATCHED), playing(server, 0, card, WATCHED - 3)
        is_recorded(trial, card, recorder.given(trial))
        is_played(trial, server, card, player.given(trial))
        ends_whole(trial, server, "aplay", "arecord")
        ends(trial, server, "aplay", "arecord")


def no_setpriv(trial):
    """Without the setpriv of util-linux or python3 the script of a card starts nothing, and says so. Another setpriv knows no
    --pdeathsig."""
    for name, status in ("other", 1), ("alone", 0):
        os.mkdir(os.path.join(trial.folder, name))
        trial.file(trial.folder, os.path.join(name, "setpriv"), b"#!/bin/sh\nexit %d\n" % status)
        os.chmod(os.path.join(trial.folder, name, "setpriv"), 0o755)
    setpriv = b"setpriv of util-linux"
    other, alone = (os.path.join(trial.folder, it) for it in ("other", "alone"))
    for found, words, missing in [
            ("/nowhere", "a folder without it", setpriv), (other, "another setpriv", setpriv), (alone, "no python3", b"python3")]:
        for name, card in [("alsa", "null 8000 1 MU_LAW"), ("pulse", "8000 1 ulaw"), ("pipewire", "8000 1 ulaw")]:
            script = os.path.join(SCRIPTS, "audiofile-%s-card" % name)
            done = subprocess.run(
                [script, *card.split()], stdin=subprocess.DEVNULL, capture_output=True, timeout=10, env={"PATH": found})
            wanted = (1, b"", b"audiofile-%s-card: %s is missing\n" % (name.encode(), missing))
            trial.holds("%s: %s" % (words, done), (done.returncode, done.stdout, done.stderr) == wanted)


def programs(folder, name):
    """The processes of a program that run in a folder."""
    found = []
    for process in filter(str.isdecimal, os.listdir("/proc")):
        with contextlib.suppress(OSError):
            with open("/proc/%s/comm" % process) as file:
                if file.read().strip() == name and os.readlink("/proc/%s/cwd" % process) == folder:
                    found.append(int(process))
    return found


def ends_whole(trial, server, player, recorder):
    """Kills one program of a card, then the other: the rest of it ends too, and the card comes back."""
    for name in (player, recorder):
        before = programs(server.folder, player) + programs(server.folder, recorder)
        trial.holds("both programs run: %s" % before, len(before) == 2)
        for process in programs(server.folder, name):
            os.kill(process, signal.SIGKILL)
        both = lambda: [*programs(server.folder, player), *programs(server.folder, recorder)]
        trial.holds("after %s all of the card ends" % name, wait_for(lambda: not set(before) & set(both()), 3))
        trial.holds("and comes back: %s" % both(), wait_for(lambda: len(both()) == 2, 8))


def configurations(trial):
    """The configurations in contrib/, also in the words of their comments: the server takes each, and starts its program."""
    if is_missing(trial, "aplay", "arecord", "pacat", "parec", "setpriv"):
        return
    for name in ("loudspeaker.conf", "intercom.conf", "recorder.conf"):
        with open(os.path.join(SCRIPTS, name)) as file:
            lines = [line.lstrip("# ") for line in file if line.lstrip("# ").startswith("device ")]
        trial.holds("%s has two devices to choose from" % name, len(lines) == 2)
        for line in lines:
            # no card is there for them
            environment = {**os.environ, "PATH": "%s:%s" % (SCRIPTS, os.environ["PATH"]), "PULSE_SERVER": "none"}
            done = subprocess.run(
                [trial.afd, "serve", "127.0.0.1:0", "5"], input=line.encode(), capture_output=True, timeout=20, env=environment)
            trial.holds("%s: %s: %s" % (name, line.strip(), done), done.returncode == WAITS_SPENT)


@contextlib.contextmanager
def pulse_audio(trial, card):
    """PulseAudio with a sink that plays to nowhere, and what to begin the server with."""
    folder = tempfile.mkdtemp(dir=trial.folder)
    with PulseAudio(folder, types.SimpleNamespace(rate=card.rate, type=card.type), rewinds=True) as system:
        environment = ["PULSE_SERVER=tcp:127.0.0.1:%d" % system.port, "HOME=" + folder, "PATH=%s:%s" % (SCRIPTS, os.environ["PATH"])]
        yield folder, ["env", *environment]


def is_back(trial, card, recorder, player):
    """Whether what was played is recorded again. How much later, in seconds."""
    recorded, played = recorder.given(trial), player.given(trial)
    if not recorded or not played:
        return None
    sound, width = card.sound(played.frames, PLAYED), card.width
    at = recorded[1].find(sound[:200 * width])
    rest = recorded[1][max(at, 0):][:len(sound)]
    lost = left_out(rest, sound, width)
    trial.holds("what was played is recorded again, frame by frame: %s left out" % lost, at >= 0 and rest == sound)
    return (at // width - card.place(played.time)) / card.rate


def pulse(trial):
    """A loudspeaker with pacat, and a microphone with parec that hears it."""
    if is_missing(trial, "pulseaudio", "pacat", "parec"):
        return
    card = Card("pulse", "lin16", 44100)
    words = "--raw --rate=44100 --channels=1 --format=s16be --latency-msec=40"
    lines = ["device lin16 44100 0 speaker 3 pacat -dnull " + words, "device lin16 44100 0 microphone 3 parec -dnull.monitor " + words]
    with pulse_audio(trial, card) as (folder, before), trial.serve(*lines, before=before, folder=folder) as server:
        recorder, player = recording(server, 1, card, WATCHED), playing(server, 0, card, WATCHED - 4, 1)
        is_back(trial, card, recorder, player)
        ends(trial, server, "pacat", "parec")


def pulse_card(trial):
    """The script for PulseAudio, over a sink and what is heard there."""
    if is_missing(trial, "pulseaudio", "pacat", "parec", "setpriv"):
        return
    card = Card("pulse", "lin16", 48000)
    line = "device lin16 48000 0 card 9 audiofile-pulse-card 48000 1 s16be null.monitor null"
    with pulse_audio(trial, card) as (folder, before), trial.serve(line, before=before, folder=folder) as server:
        recorder, player = recording(server, 0, card, WATCHED), playing(server, 0, card, WATCHED - 4, 1)
        late = is_back(trial, card, recorder, player)
        trial.holds("it is heard soon: %s s later" % late, late is not None and 0 < late <= MOST_LATE)
        ends_whole(trial, server, "pacat", "parec")
        ends(trial, server, "pacat", "parec")


# PipeWire with a sink that plays to nowhere, which is recorded from
PIPEWIRE = """
context.objects = [ { factory = adapter args = {
    factory.name = support.null-audio-sink node.name = nowhere media.class = Audio/Sink audio.position = [ FL FR ] audio.rate = 48000
} } ]
"""
PIPEWIRE_RUNS = "pipewire & sleep 1; exec wireplumber"


@contextlib.contextmanager
def pipewire(trial):
    """PipeWire with a session of its own, and what to begin the server with."""
    folder = tempfile.mkdtemp(dir=trial.folder)
    os.makedirs(os.path.join(folder, ".config", "pipewire", "pipewire.conf.d"))
    trial.file(os.path.join(folder, ".config", "pipewire", "pipewire.conf.d"), "nowhere.conf", PIPEWIRE.encode())
    environment = {"XDG_RUNTIME_DIR": folder, "HOME": folder, "PIPEWIRE_PROPS": "{ stream.capture.sink = true }"}
    outside = {**os.environ, **environment}
    system = subprocess.Popen(
        ["dbus-run-session", "sh", "-c", PIPEWIRE_RUNS], env=outside, start_new_session=True, stdout=subprocess.DEVNULL,
        stderr=subprocess.DEVNULL)
    status = lambda: subprocess.run(["wpctl", "status"], env=outside, capture_output=True).stdout
    try:
        trial.holds("PipeWire runs", wait_for(lambda: b"nowhere" in status(), 15))
        yield folder, ["env", *("%s=%s" % it for it in environment.items()), "PATH=%s:%s" % (SCRIPTS, os.environ["PATH"])]
    finally:
        os.killpg(system.pid, signal.SIGTERM)
        system.wait()


def pipewire_card(trial):
    """The script for PipeWire, over a sink and what is heard there."""
    if is_missing(trial, "pipewire", "wireplumber", "wpctl", "pw-cat", "dbus-run-session", "setpriv"):
        return
    card = Card("pipewire", "lin16", 48000, 2)
    line = "device lin16 48000 0 stereo card 9 audiofile-pipewire-card 48000 2 s16 nowhere nowhere"
    with pipewire(trial) as (folder, before), trial.serve(line, before=before, folder=folder) as server:
        time.sleep(AHEAD)
        recorder, player = recording(server, 0, card, WATCHED), playing(server, 0, card, WATCHED - 4, 1)
        late = is_back(trial, card, recorder, player)
        trial.holds("it is heard soon: %s s later" % late, late is not None and 0 < late <= MOST_LATE)
        ends(trial, server, "pw-cat", "dd")


class Counted:
    """A file of counted frames, of which it gives so many."""

    def __init__(self, card, start, frames):
        self.card, self.start, self.left, self.given = card, start, frames, 0

    def read(self, size):
        count = min(size // self.card.width, self.left)
        self.given, self.left = self.given + count, self.left - count
        return self.card.sound(count, self.start, self.given - count)


def feed(process, card, frames):
    """Gives counted frames to the input of a program, until it takes no more."""
    file = Counted(card, 0, frames)
    with contextlib.suppress(OSError):
        while True:
            process.stdin.write(file.read(16000))


def follows(octets, card, start, at):
    """Whether bytes are the counted frames from a place on."""
    return octets == card.sound(len(octets) // card.width, start, at)


def recorded_on(trial, server, card, seconds):
    """Records so many seconds, block by block, in which counted frames follow each other without a gap from some frame on."""
    at = place = None
    with audiofile.connect(server.address, timeout=20) as connection, connection.context(0) as context:
        moment = connection.time(0)
        for block in range(round(seconds * card.rate) // 4000):
            piece = context.record(moment, 4000)[1]
            moment = audiofile.later(moment, 4000)
            if at is None and any(piece):
                place = next(it for it in range(4000) if any(piece[2 * it:2 * it + 2]))
                at = int.from_bytes(piece[2 * place:2 * place + 2], "big") - 1
                piece = piece[2 * place:]
            if at is not None:
                if not follows(piece, card, 0, at):
                    trial.holds("each frame is captured once: not in second %d" % (block * 4000 / card.rate), False)
                    return
                at += len(piece) // 2
    trial.holds("each frame is captured once: the last is %s" % at, at is not None)


def minutes(trial):
    """PulseAudio as a card for so many minutes: counted frames are played to a sink that the card records, and from the card to
    another sink, which is recorded here. Nothing that is given is lost."""
    seconds = 60 * int(os.environ["MINUTES"])
    card = Card("pulse", "lin16", 48000)
    shape = "rate=48000 format=s16be channels=1"
    raw = ["--raw", "--rate=48000", "--channels=1", "--format=s16be"]
    line = "device lin16 48000 0 card 0 audiofile-pulse-card 48000 1 s16be given.monitor null %d" % HELD_AHEAD
    with pulse_audio(trial, card) as (folder, before), tempfile.TemporaryFile() as heard:
        environment = {**os.environ, **dict(it.split("=", 1) for it in before[1:])}
        subprocess.run(
            ["pactl", "load-module", "module-null-sink", "sink_name=given", *shape.split()], env=environment, stdout=subprocess.DEVNULL)
        giver = subprocess.Popen(["pacat", "--playback", "-dgiven", *raw, "--latency-msec=4000"], env=environment, stdin=subprocess.PIPE)
        threading.Thread(target=feed, args=(giver, card, (seconds + 60) * card.rate), daemon=True).start()
        # as long as nobody asks for less, the sink takes two seconds at a time
        taker = subprocess.Popen(["parec", "-dnull.monitor", *raw, "--latency-msec=50"], env=environment, stdout=heard)
        time.sleep(3)
        with trial.serve(line, before=[*LOGGED, *before], folder=folder) as server:
            player = Client(server, "play", 0, Counted(card, PLAYED, (seconds - 5) * card.rate), 3)
            recorded_on(trial, server, card, seconds)
            played = player.given(trial)
            time.sleep(5)
            for program in (taker, giver):
                program.terminate()
                program.wait()
            heard.seek(0)
            is_heard(trial, card, heard.read(), played)
            print("try-cards: the server says that %d frames found no room" % told_lost(server))
            ends(trial, server, "pacat", "parec")


def is_heard(trial, card, heard, played):
    """Whether what was played is heard in order. Where pacat took nothing for a while, and its input was full, some of it is
    lost; where it had nothing to play, there is silence in between."""
    sound = card.sound(played.frames if played else 1, PLAYED)
    # no frame that is played is silence
    heard = array.array("H", filter(None, array.array("H", heard))).tobytes()
    lost, late = left_out(heard, sound, card.width), played.late if played else None
    told = "%s frames of %d are lost, and %s were played too late" % (lost, len(sound) // card.width, late)
    trial.holds("what is played is heard in order: " + told, lost is not None and 100 * lost <= len(sound) // card.width)
    print("try-cards: %d seconds heard, %s" % (len(sound) // card.width // card.rate, told))
