"""Plays that stay near the device's time, and ones that end when they are heard, on the real server: trials of try-server. What
the device hands out is compared with what was played, sample by sample."""

import random
import signal
import struct
import subprocess
import tempfile

from serving import WORD, Server
from sounds import LEAD, RATE

DEVICE = ["device lin16 8000 0 files /dev/null out"]
# milliseconds by which a block is sent before its time at most: those of an announcement, and those of what is stopped
NEAR, STOPPED = 200, 100
# a busy machine may be late with what is sent so near to its time
TIMES_TRIED = 3
SONGS, SONG = 10, RATE


def parts(trial):
    return [lambda part=part: part(trial) for part in (is_announced, is_stopped, are_joined)]


def noise(seed, frames):
    """Samples of which none is silence, as the device hands them out."""
    return struct.pack(">%dh" % frames, *random.Random(seed).choices([*range(-15000, -100), *range(100, 15000)], k=frames))


def player_of(trial, server, octets, *words):
    """A player of these bytes, which are all there at once."""
    with tempfile.TemporaryFile() as source:
        source.write(octets)
        source.seek(0)
        return subprocess.Popen([trial.af, "aplay", server.address, *words], stdin=source, stdout=subprocess.PIPE)


def frames_from(server, start, frames):
    return server.got("out")[2 * start:2 * (start + frames)]


def is_announced(trial):
    """An announcement of five seconds replaces music that was sent four seconds ahead, from its first frame to its last."""
    music, words = noise(21, 10 * RATE), noise(22, 5 * RATE)
    for time_tried in range(TIMES_TRIED):
        with Server(trial.afd, trial.folder_of("announced%d" % time_tried), DEVICE) as server:
            player = player_of(trial, server, music, "--lead=%d" % LEAD)
            server.wait_until(LEAD * RATE // 1000 + RATE)
            said = trial.tool("aplay", server.address, "--preempt", "--ahead=%d" % NEAR, "--drain", given=words).split()
            begun = int(player.communicate(timeout=60)[0].split()[3])
            server.wait_until(begun + 10 * RATE)
            at = int(said[3])
            before, heard = frames_from(server, begun, at - begun), frames_from(server, at, 5 * RATE)
            after = frames_from(server, at + 5 * RATE, begun + 5 * RATE - at)
        if heard == words:
            break
    trial.holds("under an announcement there is not one sample of music", heard == words)
    trial.holds("before it there is music", before == music[:len(before)])
    trial.holds("and after it", after == music[len(before) + len(words):] and len(after) > 0)


def is_stopped(trial):
    """A player that is ended has sent no more than what is heard in the next moment."""
    sound = noise(23, 20 * RATE)
    with Server(trial.afd, trial.folder_of("stopped"), DEVICE) as server:
        player = player_of(trial, server, sound, "--ahead=%d" % STOPPED)
        server.wait_until(3 * RATE)
        player.send_signal(signal.SIGINT)
        player.communicate(timeout=20)
        ended = server.time()
        server.wait_until((ended + 2 * RATE) % WORD)
        heard = server.got("out")
    last = len(heard.rstrip(b"\0")) // 2
    trial.holds("a player that is ended is heard until then", last >= ended - STOPPED * RATE // 1000)
    trial.holds("and for no longer than twice what it may be ahead", last <= ended + 2 * STOPPED * RATE // 1000)


def are_joined(trial):
    """Songs are played by one player each, at most two at a time, and each is joined to the one before it."""
    songs = [noise(30 + number, SONG) for number in range(SONGS)]
    for time_tried in range(TIMES_TRIED):
        with Server(trial.afd, trial.folder_of("joined%d" % time_tried), DEVICE) as server:
            begun, over, players = (server.time() + LEAD * RATE // 1000) % WORD, [], []
            for number, song in enumerate(songs):
                words = ["--time=%d" % (begun + number * SONG), "--ahead=%d" % LEAD, "--drain"]
                players.append(player_of(trial, server, song, *words))
                if number > 0:
                    said = players[number - 1].communicate(timeout=60)[0]
                    over.append(is_over(server, said, begun + number * SONG))
            players[-1].communicate(timeout=60)
            server.wait_until(begun + SONGS * SONG)
            heard = frames_from(server, begun, SONGS * SONG)
        trial.holds("each song ends once it was heard", all(over))
        if heard == b"".join(songs):
            break
    trial.holds("%d songs are joined to the sample" % SONGS, heard == b"".join(songs))


def is_over(server, said, end):
    """Whether a play said that it is done once the device had handed out its last frame, and not much later."""
    return said == b"played %d at %d\n" % (SONG, end - SONG) and 0 <= server.time() - end < RATE // 2
