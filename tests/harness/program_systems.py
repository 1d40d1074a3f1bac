"""Trials of tools/try-programs over MPD, PulseAudio and PipeWire, if these are installed, by their files in contrib/."""

import contextlib
import os
import re
import shutil
import signal
import subprocess
import time
import wave

import card_systems
from cards import wait_for
from programs import CONTRIB, PATIENCE, commands, contributed, linear_noise, of_this_machine

# the rates of contrib/mpd.conf and of contrib/desktop.conf, both with two channels
SONG_RATE, DESKTOP_RATE = 44100, 48000
MPD = """
music_directory "{0}/music"
db_file "{0}/database"
bind_to_address "{0}/socket"
include "{0}/output.conf"
"""
# how long a recorder may take to begin, and how much is recorded, in seconds
BEGINNING, RECORDED = 1.5, 5
# how a server ends that has no more to do, and one whose program is not there
WAITS_SPENT, DEVICE_FAILED = 11, 9


def mpd(trial):
    """MPD plays two songs by contrib/mpd.conf. Both are heard, the second right after the first."""
    if trial.is_missing("mpd", "mpc", "dd"):
        return
    songs = [linear_noise(seed, 2 * SONG_RATE) for seed in (11, 12)]
    os.mkdir(os.path.join(trial.folder, "music"))
    for name, song in zip(("one.wav", "two.wav"), songs):
        with wave.open(os.path.join(trial.folder, "music", name), "wb") as file:
            file.setparams((2, 2, SONG_RATE, 0, "NONE", None))
            file.writeframes(of_this_machine(song))
    with trial.serving("device lin16 %d 0 stereo files /dev/null heard" % SONG_RATE) as server:
        output = contributed("mpd.conf").replace("127.0.0.1:1701", server.address)
        trial.file(trial.folder, "output.conf", output.encode())
        trial.file(trial.folder, "mpd.conf", MPD.format(trial.folder).encode())
        at = os.path.join(trial.folder, "socket")
        with trial.running("mpd", "--no-daemon", "--stderr", "mpd.conf"):
            trial.holds("MPD listens", wait_for(lambda: os.path.exists(at)))
            for words in (["--wait", "update"], ["add", "one.wav", "two.wav"], ["play"]):
                trial.run(["mpc", "--host=" + at, *words])
            trial.is_heard_soon("what MPD plays", b"".join(songs))
        trial.ends(server)


def passes_on(trial, passes, plays, octets, *devices, before=()):
    """Whether what a program plays is heard by a command that passes it on. The answer is what the stated device captures."""
    recorded = os.path.join(trial.folder, "recorded")
    with trial.serving("device lin16 %d 0 stereo files /dev/null heard" % DESKTOP_RATE, *devices, before=before) as server:
        with contextlib.ExitStack() as ended:
            ended.enter_context(trial.running("sh", "-c", passes.replace("SERVER", server.address)))
            time.sleep(BEGINNING)
            # a pipe that nobody reads meanwhile would hold it up
            output = ended.enter_context(open(recorded, "wb"))
            words = ["arecord", server.address, "--device=1", "--frames=%d" % (RECORDED * DESKTOP_RATE)]
            recorder = ended.enter_context(subprocess.Popen([trial.af, *words], stdout=output)) if devices else None
            # pw-cat leaves out what does not fill its last buffer
            trial.run(plays, octets + bytes(DESKTOP_RATE))
            trial.is_heard_soon("what %s plays" % plays[0], of_this_machine(octets))
            if recorder:
                recorder.wait(PATIENCE)
    with open(recorded, "rb") as file:
        return file.read()


def by_pulse(trial, environment):
    """A program of PulseAudio plays to the sink of contrib/desktop.conf. What comes there is played by `af`, and captured by the
    device."""
    octets = of_this_machine(linear_noise(13, 2 * DESKTOP_RATE))
    makes, passes = [it for it in commands("desktop.conf") if it.startswith(("pactl", "parec"))]
    plays = ["pacat", "--playback", "-daudiofile", "--raw", "--rate=%d" % DESKTOP_RATE, "--channels=2", "--format=s16ne"]
    device = re.search("^device .*", contributed("desktop.conf"), re.M).group()
    trial.environment.update(environment)
    trial.run(["sh", "-c", makes])
    captured = passes_on(trial, passes, plays, octets, device, before=["env", *("%s=%s" % it for it in environment.items())])
    trial.holds("what pacat plays is captured, sample by sample", captured.count(of_this_machine(octets)) == 1)


def pulse(trial):
    """contrib/desktop.conf by PulseAudio."""
    if trial.is_missing("pulseaudio", "pactl", "pacat", "parec"):
        return
    at = os.path.join(trial.folder, "pulse.socket")
    trial.environment["XDG_RUNTIME_DIR"] = trial.folder
    alone = ["-n", "--daemonize=no", "--use-pid-file=no", "--exit-idle-time=-1", "--disable-shm=yes"]
    with trial.running("pulseaudio", *alone, "-L", "module-native-protocol-unix auth-anonymous=1 socket=" + at):
        trial.holds("PulseAudio listens", wait_for(lambda: os.path.exists(at)))
        by_pulse(trial, {"PULSE_SERVER": "unix:" + at, "HOME": trial.folder})


def pipewire_pulse(trial):
    """contrib/desktop.conf by PipeWire with its pulse server."""
    if trial.is_missing("pipewire", "pipewire-pulse", "wireplumber", "wpctl", "dbus-run-session", "pactl", "pacat", "parec"):
        return
    with card_systems.pipewire(trial) as (folder, _):
        trial.environment["XDG_RUNTIME_DIR"] = folder
        with trial.running("pipewire-pulse"):
            at = os.path.join(folder, "pulse", "native")
            trial.holds("the pulse server listens", wait_for(lambda: os.path.exists(at)))
            by_pulse(trial, {"PULSE_SERVER": "unix:" + at, "HOME": folder})


def pipewire(trial):
    """A program of PipeWire plays to the sink of contrib/desktop.conf, and `af` plays what comes there."""
    if trial.is_missing("pipewire", "wireplumber", "wpctl", "pw-cat", "pw-cli", "dbus-run-session", "dd"):
        return
    octets = of_this_machine(linear_noise(14, 2 * DESKTOP_RATE))
    makes, passes = [it for it in commands("desktop.conf") if it.startswith("pw-c")]
    raw = ["--raw"] if b"--raw" in trial.run(["pw-cat", "--help"]) else []
    passes = passes.replace("--record", " ".join(["--record", *raw]))
    shape = ["--rate=%d" % DESKTOP_RATE, "--channels=2", "--format=s16", "--latency=100ms"]
    with card_systems.pipewire(trial) as (folder, _):
        trial.environment.update(XDG_RUNTIME_DIR=folder, HOME=folder)
        trial.run(["sh", "-c", makes])
        passes_on(trial, passes, ["pw-cat", "--playback", "--target=audiofile", *raw, *shape, "-"], octets)


def monitor(trial):
    """A device whose files are one FIFO, with a tenth of a second of silence in it, as afd(8) has it. What one client plays,
    another records that much later, also where the server stands still meanwhile."""
    rate, late = 44100, 4410
    os.mkfifo(os.path.join(trial.folder, "loop"))
    before = ["sh", "-c", 'exec 3<>loop; head -c %d /dev/zero >&3; exec "$@"' % (2 * late), "sh"]
    with trial.serving("device lin16 %d 0 files loop loop" % rate, before=before) as server:
        octets = linear_noise(15, rate)
        begins = server.time() + rate // 2
        trial.run([trial.af, "aplay", server.address, "--time=%d" % begins], octets)
        for number in (signal.SIGSTOP, signal.SIGCONT):
            os.kill(server.process.pid, number)
            time.sleep(0.5)
        # with a tenth of a second before and after
        words = ["--time=%d" % begins, "--frames=%d" % (rate + 2 * late)]
        recorded = trial.run([trial.af, "arecord", server.address, *words])
        trial.holds("what is played is recorded, a tenth of a second later", recorded == bytes(2 * late) + octets + bytes(2 * late))
        trial.ends(server)


def configurations(trial):
    """The configurations in contrib/: afd takes each as it stands. Where the program of one is not there, it says which."""
    found = os.path.join(trial.folder, "found")
    os.mkdir(found)
    for name in sorted(it for it in os.listdir(CONTRIB) if it.endswith(".conf")):
        text = contributed(name)
        if not re.search("^device ", text, re.M):
            continue
        programs = re.findall(r"^(?:device .* (?:speaker|microphone|card|codec)|phone \d+) \d+ (\S+)", text, re.M)
        status, told = ended(trial, text, found)
        if programs:
            says = "afd: device 0 failed\nafd: %s: No such file or directory\n" % programs[0]
            trial.holds("%s: %s is missing: %s" % (name, programs[0], told), status == DEVICE_FAILED and told.endswith(says))
        for program in programs:
            trial.file(found, program, b"#!/bin/sh\n")
            os.chmod(os.path.join(found, program), 0o755)
        status, told = ended(trial, text, found)
        trial.holds("%s is taken: %s" % (name, told), status == WAITS_SPENT)
        shutil.rmtree(found)
        os.mkdir(found)


def ended(trial, text, found):
    """How a server ends that has a configuration and a few waits, and finds programs in a folder. What it says with details."""
    done = subprocess.run(
        [trial.afd, "serve", "127.0.0.1:0", "5"], input=text.encode(), capture_output=True, timeout=PATIENCE, cwd=trial.folder,
        env={"PATH": found, "AUDIOFILE_DETAILS": "1"})
    return done.returncode, done.stderr.decode()
