"""Other sound servers under the load that tools/bench-server puts on afd, where they are installed: PulseAudio and PipeWire, each
over a sink that plays to nowhere, and sndio. sndiod has no such sink; it plays to that of PulseAudio, through ALSA's plugin for
that."""

import contextlib
import os
import re
import shutil
import socket
import subprocess
import time

from cards import wait_for
from serving import connect, free_port

# how PulseAudio and PipeWire name the sample types of the wire. sndio has linear ones alone
PULSE_TYPES = {"mu255": "ulaw", "lin16": "s16be"}
PIPEWIRE_TYPES = {"mu255": "ulaw", "lin16": "s16"}
# how much sound a client has, in seconds
SOUND = 60
ALSA = """
pcm_type.pulse { lib "libasound_module_pcm_pulse.so" }
pcm.hw { @args [ CARD ] @args.CARD { type string } type pulse server "%s" }
"""
# A period is as long as the clients ask for. Clients and sink have ports without a session manager, and are linked by pw-link
PIPEWIRE = """
context.properties = {
    core.daemon = true  core.name = pipewire-0
    default.clock.rate = %(rate)d  default.clock.quantum = %(period)d  default.clock.max-quantum = 8192
    clock.power-of-two-quantum = false
}
context.spa-libs = { audio.convert.* = audioconvert/libspa-audioconvert  support.* = support/libspa-support }
context.modules = [
    { name = libpipewire-module-protocol-native }  { name = libpipewire-module-metadata }  { name = libpipewire-module-client-node }
    { name = libpipewire-module-access }  { name = libpipewire-module-adapter }  { name = libpipewire-module-link-factory }
]
context.objects = [ { factory = adapter  args = {
    factory.name = support.null-audio-sink  node.name = nowhere  media.class = Audio/Sink  audio.position = [ MONO ]
    audio.rate = %(rate)d  adapter.auto-port-config = { mode = dsp }
} } ]
"""


def silent(words, environment, given=subprocess.DEVNULL):
    """A program whose texts nobody reads."""
    return subprocess.Popen(words, env=environment, stdin=given, stdout=subprocess.DEVNULL, stderr=subprocess.DEVNULL)


def octets_read(program, path):
    """How many bytes of a file a program has read."""
    at = "/proc/%d/" % program.pid
    # a program may close what is looked at, or end
    with contextlib.suppress(OSError):
        for number in os.listdir(at + "fd"):
            if os.readlink(at + "fd/" + number) == path:
                with open(at + "fdinfo/" + number) as file:
                    return int(re.search(r"^pos:\s+(\d+)", file.read(), re.M).group(1))
    return 0


class Programs:
    """Clients, each a program that plays a file, so many bytes a second, that are ended at the end."""

    def __init__(self, path, octets, started):
        self.path, self.octets, self.started = os.path.realpath(path), octets, started

    def __enter__(self):
        return self

    def __exit__(self, *_):
        for program in self.started:
            program.kill()
        for program in self.started:
            program.wait()

    def go_on(self):
        return all(program.poll() is None for program in self.started)

    def played(self):
        """How many seconds of sound each of them has read at least."""
        return min(octets_read(program, self.path) for program in self.started) / self.octets


class Peer:
    """A server with one device for a sound, in a folder. Used with `with`, it is ended at the end."""

    def __init__(self, folder, sound):
        self.folder, self.sound = folder, sound
        self.environment = dict(os.environ, HOME=folder, XDG_RUNTIME_DIR=folder)

    def begin(self, words, patience=10):
        """Starts it, and waits until it listens."""
        self.process = silent(words, self.environment)
        begun = time.monotonic()
        while time.monotonic() - begun < patience and self.process.poll() is None:
            try:
                self.reach()
                return
            except OSError:
                time.sleep(0.001)
        self.end()
        raise OSError("%s does not listen" % words[0])

    def reach(self):
        connect("127.0.0.1:%d" % self.port).close()

    def written(self, name, text):
        path = os.path.join(self.folder, name)
        with open(path, "wb") as file:
            file.write(text)
        return path

    def octets(self):
        """How many bytes a client plays in a second."""
        return self.sound.often * self.sound.size()

    def playing(self, clients):
        path = self.written("sound", bytes(range(256)) * (SOUND * self.octets() // 256))
        return Programs(path, self.octets(), self.started(clients, path))

    def __enter__(self):
        return self

    def __exit__(self, *_):
        self.end()

    def end(self):
        self.process.terminate()
        try:
            self.process.wait(2)
        except subprocess.TimeoutExpired:
            self.process.kill()
            self.process.wait()

    def threads(self):
        """The threads whose processor time counts."""
        return os.listdir("/proc/%d/task" % self.process.pid)


class PulseAudio(Peer):
    name, programs = "PulseAudio", ("pulseaudio", "pacat")

    def __init__(self, folder, sound, rewinds=False):
        """With a sink that rewinds if that is asked for: it takes two seconds of sound at once, so it begins two seconds late."""
        super().__init__(folder, sound)
        self.port = free_port()
        self.begin([
            "pulseaudio", "-n", "--daemonize=no", "--use-pid-file=no", "--exit-idle-time=-1", "--disable-shm=yes",
            "-L", "module-null-sink rate=%d format=%s channels=1%s" % (
                sound.rate, PULSE_TYPES[sound.type], "" if rewinds else " norewinds=1"),
            "-L", "module-native-protocol-tcp port=%d listen=127.0.0.1 auth-anonymous=1" % self.port])

    def started(self, clients, path):
        words = [
            "pacat", "--playback", "--raw", "--channels=1", "--rate=%d" % self.sound.rate, "--format=" + PULSE_TYPES[self.sound.type],
            "--latency-msec=100", "-s", "tcp:127.0.0.1:%d" % self.port, path]
        return [silent(words, self.environment) for _ in range(clients)]


class PipeWire(Peer):
    name, programs = "PipeWire", ("pipewire", "pw-cat", "pw-link")

    def __init__(self, folder, sound):
        super().__init__(folder, sound)
        # clients are never to find the daemon of whoever runs this
        self.environment.update(PIPEWIRE_RUNTIME_DIR=folder, PIPEWIRE_REMOTE="pipewire-0")
        config = self.written("pipewire.conf", (PIPEWIRE % {"rate": sound.rate, "period": sound.frames()}).encode())
        self.begin(["pipewire", "-c", config])

    def reach(self):
        with socket.socket(socket.AF_UNIX) as link:
            link.connect(os.path.join(self.folder, "pipewire-0"))

    def started(self, clients, path):
        words = [
            "pw-cat", "--playback", *self.raw(), "--channels=1", "--rate=%d" % self.sound.rate,
            "--format=" + PIPEWIRE_TYPES[self.sound.type], "--latency=100ms", "--target=0"]
        found = []
        for number in range(clients):
            name = "{ node.name = client%d adapter.auto-port-config = { mode = dsp } }" % number
            with open(path, "rb") as file:
                found.append(silent([*words, "-P", name, "-"], self.environment, file))
        self.link(clients)
        return found

    def raw(self):
        """What newer versions ask for, where a file has no header."""
        return ["--raw"] if b"--raw" in self.said("pw-cat", "--help") else []

    def said(self, *words):
        return subprocess.run(words, env=self.environment, stdout=subprocess.PIPE, stderr=subprocess.DEVNULL).stdout

    def link(self, clients):
        """Links the clients to the sink, once all of them have their ports."""
        wait_for(lambda: self.said("pw-link", "--output").count(b"client") >= clients, 20)
        for number in range(clients):
            self.said("pw-link", "client%d:output_MONO" % number, "nowhere:playback_MONO")


class Sndio(Peer):
    name, programs = "sndio", ("sndiod", "aucat", "pulseaudio")
    unit = 7

    def __init__(self, folder, sound):
        super().__init__(folder, sound)
        self.port = 11025 + self.unit
        self.below = PulseAudio(folder, sound)
        config = self.written("alsa.conf", (ALSA % ("tcp:127.0.0.1:%d" % self.below.port)).encode())
        self.environment["ALSA_CONFIG_PATH"] = config
        try:
            self.begin([
                "sndiod", "-d", "-L", "127.0.0.1", "-U", str(self.unit), "-m", "play", "-r", str(sound.rate), "-c", "0:0",
                "-z", str(sound.rate // 100), "-f", "rsnd/default"])
        except OSError:
            self.below.end()
            raise

    def octets(self):
        return 2 * self.sound.rate

    def started(self, clients, path):
        words = [
            "aucat", "-f", "snd@127.0.0.1,%d/default" % self.unit, "-r", str(self.sound.rate), "-c", "0:0", "-e", "s16be", "-h", "raw",
            "-i", path]
        return [silent(words, self.environment) for _ in range(clients)]

    def threads(self):
        """Its own alone: what else there is belongs to the plugin."""
        return [str(self.process.pid)]

    def end(self):
        super().end()
        self.below.end()


def installed(tell):
    """The peers that are there. Of the others it is told that they are not."""
    found = []
    for peer in (PulseAudio, PipeWire, Sndio):
        missing = [program for program in peer.programs if shutil.which(program) is None]
        if missing:
            tell("\n%s is not installed, so %s is left out." % (missing[0], peer.name))
        else:
            found.append(peer)
    return found
