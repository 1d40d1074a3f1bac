"""Trials of tools/try-cards: the programs of contrib/ for sound cards tell how late a card is, drop what is too much, and tell of
gaps. What stands before and after them are programs that stand in for those of a sound system (card_stand_in.py)."""

import array
import contextlib
import os
import re
import shutil
import signal
import subprocess
import sys
import tempfile
import time

import card_stand_in
from card_ends import is_gone
from card_systems import SCRIPTS
from cards import LOGGED, PLAYED, Card, emitted, left_out, playing, wait_for
from stuck_programs import children
from trial_runner import below

# the systems with the words of their cards, what plays and records, and the milliseconds that are held
RATE = 8000
SYSTEMS = {
    "alsa": ("card 8000 1 S16_BE 80", ("aplay", "arecord"), 80),
    "pulse": ("8000 1 s16be source sink 60", ("pacat", "parec"), 60),
    "pipewire": ("8000 1 s16 source sink", ("pw-cat",), 20)}
LEAST_MARGIN = 100
# when a sink stands still and for how long, how long is played, and how far the lateness that is told may be off, in seconds
STANDS, STOOD, PLAYS, OFF = 4, 0.35, 8, 0.2
STAND_IN = """#!/bin/sh
way=records
case "$0 $*" in *--help*) exit ;; */pacat\\ * | */aplay\\ * | *--playback*) way=plays ;; esac
exec %s %s %s $way %d 2 %d %s
"""
LATE = re.compile(rb"^# late by (\d+) ms, dropped (\d+) frames \(audiofile-(\w+)-card\)$", re.M)
GAPS = re.compile(rb"^# ((?:\d+ (?:under|over)runs?(?: of at least \d+ ms)?(?:, )?)+) \(audiofile-(\w+)-card\)$", re.M)
LOST = re.compile(rb"^afd: \S+ device (\d): its program had no room, and (\d+) frames were lost$", re.M)


def is_missing(trial):
    """Whether setpriv is not installed, which is told then."""
    if not shutil.which("setpriv"):
        print("try-cards: there is no setpriv, so the trial %s is passed over" % trial.trial)
        return True
    return False


class Late:
    """A server with a card of each of some systems, whose programs have these options, and maybe with a limit."""

    def __init__(self, trial, systems, options="", limit=""):
        self.trial, self.systems = trial, list(systems)
        folder = tempfile.mkdtemp(dir=trial.folder)
        programs = os.path.join(folder, "programs")
        os.mkdir(programs)
        for system in systems:
            _, names, ahead = SYSTEMS[system]
            text = STAND_IN % (sys.executable, card_stand_in.__file__, system, RATE, ahead, options or "''")
            for name in names:
                trial.file(programs, name, text.encode())
                os.chmod(os.path.join(programs, name), 0o755)
        self.cards = {it: Card(it, "lin16", RATE) for it in systems}
        lines = ["device lin16 %d 0 card 9 audiofile-%s-card %s %s" % (RATE, it, SYSTEMS[it][0], limit) for it in systems]
        path = "PATH=%s:%s:%s" % (programs, SCRIPTS, os.environ["PATH"])
        self.server = trial.serve(*lines, before=[*LOGGED, path], folder=folder)

    def __enter__(self):
        return self

    def __exit__(self, *_):
        started = below(self.server.process.pid)
        self.trial.ends(self.server, is_logged=True)
        self.trial.holds("its programs end: %s" % started, wait_for(lambda: all(map(is_gone, started))))

    def said(self):
        return os.pread(self.server.said.fileno(), 1 << 20, 0)

    def told(self, system):
        """The lines of a card: how late it was and how many frames were dropped, each time, and its gaps."""
        late = [tuple(map(int, it[:2])) for it in LATE.findall(self.said()) if it[2].decode() == system]
        return late, [it[0].decode() for it in GAPS.findall(self.said()) if it[1].decode() == system]

    def no_room(self, system):
        """How many frames the server had no room for."""
        device = self.systems.index(system)
        return sum(int(frames) for number, frames in LOST.findall(self.said()) if int(number) == device)

    def got(self, name):
        """What is in a file of the stand-ins, or nothing as long as there is none."""
        try:
            return self.server.got(name)
        except FileNotFoundError:
            return b""

    def heard(self, system, end):
        """What the stand-in was handed, as the device has it, up to these bytes."""
        octets = self.got("heard." + system)
        if system == "pipewire" and sys.byteorder == "little":
            samples = array.array("H", octets[:len(octets) // 2 * 2])
            samples.byteswap()
            octets = samples.tobytes()
        at = octets.find(end)
        return octets[:at + len(end)] if at >= 0 else octets

    def held(self, system):
        """How many milliseconds it held at last."""
        return int(self.got("held." + system) or 0)


def is_heard_but(trial, late, system, played):
    """Whether what left the device was heard, but for what was dropped and what found no room."""
    card = late.cards[system]
    sound = card.sound(played.frames, PLAYED)
    wanted = emitted(card, played, sound, card.place(played.time) + played.frames)
    wait_for(lambda: late.heard(system, sound[-200:]).endswith(sound[-200:]))
    heard = late.heard(system, sound[-200:])
    lost = left_out(heard, wanted, card.width)
    told = sum(frames for _, frames in late.told(system)[0]) + late.no_room(system)
    trial.holds("%s: its end is heard: %d bytes" % (system, len(heard)), heard.endswith(sound[-200:]))
    trial.holds("%s: %s frames are left out, and %d are told" % (system, lost, told), lost == told)


def tried(trial, options, judges, limit=""):
    """Plays to a card of each system, whose programs have these options. What was told of each is judged."""
    if is_missing(trial):
        return
    with Late(trial, SYSTEMS, options, limit) as late:
        time.sleep(1)
        players = {it: playing(late.server, at, late.cards[it], PLAYS) for at, it in enumerate(SYSTEMS)}
        for system, player in players.items():
            played = player.given(trial)
            if played:
                is_heard_but(trial, late, system, played)
                judges(late, system, *late.told(system))


def late(trial):
    """A sink that stands still for a while is late after that. It is told, in one line, and so much is dropped."""
    def judges(late, system, told, gaps):
        ahead = SYSTEMS[system][2]
        trial.holds("%s: it is told once: %s" % (system, told), len(told) == 1 and not gaps)
        for by, frames in told:
            # before aplay there is less room than that
            most, least = ahead + 1000 * STOOD, ahead + (LEAST_MARGIN if system == "alsa" else 1000 * STOOD)
            is_so = least - 1000 * OFF * (system != "alsa") <= by <= most + 1000 * OFF
            no_room = late.no_room(system)
            told = "it is late by %d to %d ms: %d, and %d frames had no room" % (least, most, by, no_room)
            trial.holds("%s: %s" % (system, told), is_so)
            dropped = 1000 * frames / RATE
            trial.holds("%s: the rest is dropped: %d ms" % (system, dropped), -20 <= by - ahead - dropped <= 20)
        held = late.held(system)
        trial.holds("%s: it holds no more than its limit then: %d ms" % (system, held), held <= ahead + LEAST_MARGIN)

    tried(trial, "stands=%s:%s" % (STANDS, STOOD), judges)


def in_time(trial):
    """A card that is not late: all is heard, and nothing is told."""
    tried(trial, "", lambda late, system, *told: is_untold(trial, system, told))


def in_limit(trial):
    """A sink that stands still, and a limit that is more than the card is late then: all is heard, and nothing is told."""
    tried(trial, "stands=%s:%s" % (STANDS, STOOD), lambda late, system, *told: is_untold(trial, system, told), "1000")


def is_untold(trial, system, told):
    trial.holds("%s: nothing is told: %s" % (system, told), not any(told))


def gaps(trial):
    """Gaps are told with their number and their length, in at most one line a second."""
    if is_missing(trial):
        return
    with Late(trial, ("pulse", "alsa"), "gaps=1:9") as late:
        wanted = {"pulse": ["9 underruns"], "alsa": ["9 underruns of at least 112 ms", "9 overruns of at least 112 ms"]}
        for system, kinds in wanted.items():
            wait_for(lambda: all(it in ", ".join(late.told(system)[1]) for it in kinds), 12)
            told = late.told(system)[1]
            trial.holds("%s: its gaps are told: %s" % (system, told), sorted(", ".join(told).split(", ")) == sorted(kinds))


def own_delay(trial):
    """A sink with a long delay of its own is as late after a drop as before. Sound is dropped once, and then no more."""
    if is_missing(trial):
        return
    with Late(trial, ("pulse",), "own=300") as late:
        wait_for(lambda: late.told("pulse")[0], 10)
        time.sleep(8)
        told = late.told("pulse")[0]
        trial.holds("it is told once or twice: %s" % told, 1 <= len(told) <= 2)


def all_end(trial):
    """Whichever program of a card is killed, the others end with it, no process is left, and the card is started again."""
    if is_missing(trial):
        return
    with Late(trial, SYSTEMS) as late:
        for which in ("audiofile-card-run", "plays", "records"):
            for card in began(trial, late.server):
                before = [card, *below(card)]
                victim = next((it for it in before if which in words_of(it)), None)
                trial.holds("a program %s: %s" % (which, list(map(words_of, before))), victim)
                if victim:
                    os.kill(victim, signal.SIGKILL)
                    is_over = wait_for(lambda: all(map(is_gone, before)), 3)
                    trial.holds("after %s all of its card ends: %s" % (which, list(filter(None, map(words_of, before)))), is_over)


def began(trial, server):
    """The cards of a server, once each has both of its programs."""
    cards = lambda: children(server)
    all_run = lambda: len(cards()) == len(SYSTEMS) and all(len(list(filter(has_way, below(it)))) == 2 for it in cards())
    trial.holds("all cards run", wait_for(all_run, 12))
    return cards()


def words_of(process):
    """The command line of a process, or nothing if it has ended."""
    with contextlib.suppress(OSError):
        with open("/proc/%d/cmdline" % process) as file:
            return file.read().replace("\0", " ")
    return ""


def has_way(process):
    return "card_stand_in.py" in words_of(process)


def wrong_words(trial):
    """Arguments that are wrong are refused in one line. A limit is more than what is held ahead."""
    usage = "usage: audiofile-%s-card "
    limit = "audiofile-%s-card: a limit of "
    for name, words, told in (
            ("pulse", "8000 1 s16be src sink 60 60", limit + "60 ms is not more than the 60 ms that are held ahead\n"),
            ("alsa", "null 8000 1 S16_BE 80 10", limit + "10 ms is not more than the 80 ms that are held ahead\n"),
            ("pipewire", "8000 1 s16 auto auto 20", limit + "20 ms is not more than the 20 ms that are held ahead\n"),
            ("pulse", "8000 1 s16be src sink soon", usage), ("pulse", "8000 1 s16be src sink 60 -1", usage),
            ("pulse", "8000 1", usage), ("alsa", "null 8000 1 S16_BE 80 x", usage), ("alsa", "null 8000 1", usage),
            ("pipewire", "8000 1 s16 auto auto 1s", usage)):
        script = os.path.join(SCRIPTS, "audiofile-%s-card" % name)
        done = subprocess.run([script, *words.split()], stdin=subprocess.DEVNULL, capture_output=True, timeout=20)
        said = done.stderr.decode()
        is_so = done.returncode == 2 and not done.stdout and said.startswith(told % name) and said.count("\n") == 1
        trial.holds("%s %s: %s" % (name, words, done), is_so)
