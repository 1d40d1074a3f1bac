"""What `af log` hands to its commands, of devices that count: trials of tools/try-log."""

import os
import signal
import subprocess
import time

import cards
from sound_files import LITTLE, sound_of
from serving import WORD

RATE = 8000
# where the devices begin: the wrap comes a little later
START = WORD - 3 * RATE // 2
SECONDS = 40


class Trial(cards.Trial):
    tool = "try-log"

    def equals(self, what, found, wanted):
        self.holds("%s: %r in place of %r" % (what, found, wanted), found == wanted)


class Lines:
    """The lines of a log, each as its numbers by their names."""

    def __init__(self, text):
        self.pieces = []
        for line in text.splitlines():
            words = line.split()
            self.pieces.append(dict(zip(words[0::2], map(int, words[1::2]))))

    def all(self, name):
        return [it[name] for it in self.pieces]


def counting(trial, rate=RATE, seconds=SECONDS):
    """A device of two channels whose frame n, from its start on, is the number n in 32 bits. Its number from 1, so that no frame
    is silence."""
    numbers = b"".join((it + 1).to_bytes(4, "big") for it in range(rate * seconds))
    trial.file(trial.folder, "counts", numbers)
    return "device lin16 %d %d stereo files counts none" % (rate, START)


def log(trial, server, command, *words, **others):
    """The tool, in the folder of the trial, where its commands leave what they take in the files p1, p2, .."""
    return subprocess.Popen(
        [trial.af, "log", server.address, "--every=1", "--into=" + command, *words], cwd=trial.folder, stdin=subprocess.DEVNULL,
        stdout=subprocess.PIPE, stderr=subprocess.PIPE, **others)


def frames_of(trial, number):
    """The frames that a command left of a piece, as numbers, and the length that its header states."""
    with open(os.path.join(trial.folder, "p%d" % number), "rb") as file:
        octets = file.read()
    coding, rate, channels, sound = sound_of("wave", octets)
    trial.equals("the coding of piece %d" % number, (coding, channels), (LITTLE, 2))
    stated = int.from_bytes(octets[40:44], "little")
    numbers = []
    for at in range(0, len(sound) - 3, 4):
        numbers.append(int.from_bytes(sound[at + 1::-1] if at == 0 else sound[at + 1:at - 1:-1], "big") << 16
                       | int.from_bytes(sound[at + 3:at + 1:-1], "big"))
    return numbers, stated


def whole(trial, lines, rate=RATE):
    """Every frame stands in its piece, or is one of those that are told as lost; the pieces touch."""
    for number, line in enumerate(lines.pieces, 1):
        at = (lines.pieces[0]["at"] + (number - 1) * rate) % WORD
        trial.equals("the number of a piece", line["piece"], number)
        trial.equals("the time of piece %d" % number, line["at"], at)
        trial.equals("all frames of piece %d" % number, line["frames"] + line["dropped"], rate)


def heard(trial, lines, number, rate=RATE):
    """The frames of a piece are those of the device from its time on, but for as many that are silence as are told as lost."""
    line = lines.pieces[number - 1]
    frames, stated = frames_of(trial, number)
    first = (line["at"] - START) % WORD + 1
    trial.equals("the frames of piece %d" % number, len(frames), line["frames"])
    trial.equals("the length that piece %d states" % number, stated, 4 * rate)
    trial.equals("what was lost of piece %d" % number, sum(it == 0 for it in frames), line["lost"])
    wrong = [place for place, it in enumerate(frames) if it not in (0, first + place)]
    trial.equals("frames of piece %d that are not the device's" % number, wrong[:3], [])


def counted(trial):
    """All pieces together are the frames of the device, each once, across the wrap, whatever their commands do with the time."""
    with trial.serve(counting(trial), folder=trial.folder) as server:
        run = log(trial, server, "cat >p$AUDIOFILE_PIECE; echo $AUDIOFILE_TIME $AUDIOFILE_FRAMES; exit $AUDIOFILE_PIECE", "--count=4", "--block=999")
        text, said = run.communicate(timeout=30)
        lines = Lines(text.decode())
        trial.equals("the status", run.returncode, 0)
        trial.equals("the statuses", lines.all("status"), [1, 2, 3, 4])
        trial.equals("what commands find in their environment", said.decode().split("\n")[:4], ["%d 8000" % it for it in lines.all("at")])
        trial.holds("the time wraps", lines.pieces[0]["at"] > lines.pieces[3]["at"])
        trial.equals("what is lost", sum(lines.all("lost")), 0)
        whole(trial, lines)
        for number in range(1, 5):
            heard(trial, lines, number)
        trial.ends(server)


# commands that are well, die at once, take nothing and are killed, end late, and cannot be started
COMMANDS = "case $AUDIOFILE_PIECE in 2) exit 5;; 4) exec sleep 60;; 6) cat >p6; exec sleep 1.5;; 8) exec /none/none;; *) cat >p$AUDIOFILE_PIECE;; esac"


def commanded(trial):
    """A command that dies, takes nothing, or ends late costs its own piece alone."""
    rate = 48000
    with trial.serve(counting(trial, rate, 20), folder=trial.folder) as server:
        run = log(trial, server, COMMANDS, "--count=9")
        text, _ = run.communicate(timeout=40)
        lines = Lines(text.decode())
        trial.equals("the status", run.returncode, 0)
        trial.equals("the statuses", lines.all("status"), [0, 5, 0, 137, 0, 0, 0, 127, 0])
        whole(trial, lines, rate)
        trial.holds("a command that dies takes little", lines.pieces[1]["frames"] < rate)
        trial.holds("one that reads nothing has what its pipe holds", 0 < lines.pieces[3]["frames"] < rate)
        trial.holds("one that does not start", lines.pieces[7]["frames"] < rate)
        trial.equals("what is lost", sum(lines.all("lost")), 0)
        for number in (1, 3, 5, 6, 7, 9):
            trial.equals("what is dropped of piece %d" % number, lines.pieces[number - 1]["dropped"], 0)
            heard(trial, lines, number, rate)
        trial.ends(server)


def stopped(trial, seconds, count, stops_tool=False):
    """The lines of a log whose server stands still for so many seconds, or which does so itself."""
    with trial.serve(counting(trial), folder=trial.folder) as server:
        run = log(trial, server, "cat >p$AUDIOFILE_PIECE", "--count=%d" % count)
        time.sleep(1.3)
        process = run if stops_tool else server.process
        process.send_signal(signal.SIGSTOP)
        time.sleep(seconds)
        process.send_signal(signal.SIGCONT)
        text, _ = run.communicate(timeout=40)
        lines = Lines(text.decode())
        trial.equals("the status", run.returncode, 0)
        trial.equals("the pieces", len(lines.pieces), count)
        trial.equals("the statuses", lines.all("status"), [0] * count)
        trial.equals("what is dropped", sum(lines.all("dropped")), 0)
        whole(trial, lines)
        for number in range(1, count + 1):
            heard(trial, lines, number)
        trial.ends(server)
    return lines


def stopped_for_two(trial):
    """Where the server stood still for two seconds, nothing is lost."""
    trial.equals("what is lost", sum(stopped(trial, 2, 5).all("lost")), 0)


def stopped_for_six(trial):
    """Nor where it stood still for six: its devices stood still, too."""
    trial.equals("what is lost", sum(stopped(trial, 6, 9).all("lost")), 0)


def stopped_itself(trial):
    """Where the log itself stood still for six seconds, what had left the server's four is told, and the rest is there."""
    lost = sum(stopped(trial, 6, 9, stops_tool=True).all("lost"))
    # more is lost while the log catches up, where the machine lets it wait
    trial.holds("about two seconds are lost: %d" % lost, RATE < lost < (3 + trial.starved()) * RATE)


def ended(trial):
    """It ends with its server, after the line of the open piece; and where its output takes no more."""
    with trial.serve(counting(trial), folder=trial.folder) as server:
        with open("/dev/full", "wb") as full:
            unwritten = subprocess.Popen(
                [trial.af, "log", server.address, "--every=1", "--into=cat >full$AUDIOFILE_PIECE"], cwd=trial.folder,
                stdin=subprocess.DEVNULL, stdout=full, stderr=subprocess.PIPE)
        run = log(trial, server, "cat >p$AUDIOFILE_PIECE; sleep 0.5")
        trial.equals("a full disk", (unwritten.wait(20), unwritten.stderr.read()), (6, b"af: write failed\n"))
        trial.equals("the first line", run.stdout.readline().split()[0:2], [b"piece", b"1"])
        trial.ends(server)
        text = run.stdout.read().decode()
        trial.holds("it ends with its server", run.wait(20) in (13, 14))
        last = Lines(text).pieces[-1]
        frames, stated = frames_of(trial, last["piece"])
        trial.equals("the frames of the open piece", (last["frames"], last["dropped"], last["status"]), (len(frames), 0, 0))
        trial.equals("the length that it states", stated, 4 * RATE)
        trial.holds("it is cut", 0 < len(frames) < RATE)
