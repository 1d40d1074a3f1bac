"""Players and recorders that are strict, on the real server: trials of try-server. Sound is really lost, and as many frames are
told as are missing."""

import os
import signal
import tempfile
import time

from lost_sound import GONE, LATE, MONO, SECONDS, serving, silent, sound, started, unheard
from sounds import LEAD, RATE

# a recorder stands still for longer than a server keeps sound
STOPPED, LASTS = 5, 7
# a busy machine may lose sound for that reason alone
TIMES_TRIED = 3


def parts(trial):
    return [lambda part=part: part(trial) for part in (is_late, has_left, loses_nothing)]


def told(pattern, said):
    """How many lost frames are told after the line of the end."""
    end, found = said.split(b"\n", 1)[0], pattern.search(said)
    return end == b"af: sound lost", int(found.group(1)) if found else 0


def wait_for(holds):
    """Waits until something holds, but not for ever."""
    until = time.monotonic() + SECONDS
    while not holds() and time.monotonic() < until:
        time.sleep(0.02)


def is_late(trial):
    """What gives the sound of a strict play pauses for longer than its lead."""
    with serving(trial.afd, trial.folder_of("strict_play"), MONO) as server:
        play = started([trial.af, "aplay", server.address, "--strict"])
        play.stdin.write(sound(MONO, 0.3))
        play.stdin.flush()
        time.sleep(1.5)
        line, said = play.communicate(sound(MONO, 2), timeout=SECONDS)
        missing = unheard(server, MONO, line)
    lost, late = told(LATE, said)
    trial.holds("a strict play of a slow source ends with status 24", play.returncode == 24 and lost)
    trial.holds("it tells the frames that are missing", late == missing > 0)
    trial.holds("and plays all the same", line.split()[:2] == [b"played", b"%d" % int(2.3 * RATE)])


def has_left(trial):
    """A strict recorder is stopped, and goes on."""
    with serving(trial.afd, trial.folder_of("strict_record"), MONO, 20) as server, tempfile.TemporaryFile() as sink:
        record = started([trial.af, "arecord", server.address, "--strict", "--frames=%d" % (LASTS * RATE)], sink=sink)
        wait_for(lambda: os.fstat(sink.fileno()).st_size > 0)
        record.send_signal(signal.SIGSTOP)
        time.sleep(STOPPED)
        record.send_signal(signal.SIGCONT)
        _, said = record.communicate(timeout=SECONDS)
        sink.seek(0)
        recorded = sink.read()
    lost, gone = told(GONE, said)
    trial.holds("a strict recorder that was stopped ends with status 24", record.returncode == 24 and lost)
    trial.holds("it tells the frames that are missing", gone == silent(recorded, MONO) > 0)
    trial.holds("and writes as many frames as ever", len(recorded) == 2 * LASTS * RATE)


def loses_nothing(trial):
    """A strict play and a strict recording of which nothing is lost are done."""
    for time_tried in range(TIMES_TRIED):
        with serving(trial.afd, trial.folder_of("strict%d" % time_tried), MONO, 20) as server, tempfile.TemporaryFile() as sink:
            record = started([trial.af, "arecord", server.address, "--strict", "--frames=%d" % RATE], sink=sink)
            play = started([trial.af, "aplay", server.address, "--strict", "--lead=%d" % LEAD])
            play.communicate(sound(MONO, 1), timeout=SECONDS)
            record.communicate(timeout=SECONDS)
        if play.returncode == record.returncode == 0:
            break
    trial.holds("a strict play of which nothing is lost is done", play.returncode == 0)
    trial.holds("so is a strict recording", record.returncode == 0)
