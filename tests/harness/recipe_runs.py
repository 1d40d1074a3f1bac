"""Runs a recipe of a page in a shell and a fresh folder, and says what differs from the page, as tools/try-pages does.

The folder is a small tree: the programs, and links to what the pages name. It has some sound files too, for those that the pages
call yours. Addresses of the loopback get ports that are free. What a recipe leaves running is ended, and is a fault of the page.
"""

import math
import os
import re
import shutil
import signal
import socket
import struct
import subprocess
import tempfile
import threading
import time
import wave

from serving import ROOT

# what the folder has of the tree
LINKS = ["Makefile", "contrib", "docs", "examples", "man", "tests", "tools"]
CONTRIBUTED = [
    "audiofile-alsa-card", "audiofile-pulse-card", "audiofile-pipewire-card", "audiofile-playlist", "audiofile-status",
    "audiofile-meter"]
# programs that a machine may lack, and where a shell finds the name of one
OPTIONAL = [
    "aplay", "arecord", "curl", "espeak-ng", "ffmpeg", "icecast2", "make", "nc", "pacat", "parec", "pv", "pw-cat", "rt", "sox",
    "tshark"]
CALLED = r"(?:^|[|;&(])\s*(?:[A-Z_]+=[^\s(]*\s+)*(?:exec\s+)?(%s)\b" % "|".join(map(re.escape, OPTIONAL))
# an address of a page, or the port in a configuration of icecast
ADDRESS = re.compile(r"(127\.0\.0\.1[: ]|<port>)(\d{4,5})\b")
# what differs from run to run: device times, counts of what was late and by how much, ports of clients, process numbers
DIFFERS = [
    (r"\b(at|from|now) \d+\b", r"\1 *"), (r"^(\d (?:mu255|alaw|lin16|lin32) \d+ [12]) \d+ ", r"\1 * "), (r"\d+ frames in \d+ blocks?", "* frames in * blocks"), (r"resynced \d+", "resynced *"),
    (r"^\d+ (\d+ \S+\.wav)$", r"* \1"),
    (r"and \d+ would have been", "and * would have been"),
    (r"passed \d+ blocks, (never )?resynchronised.*", "passed * blocks, resynchronised *"), (r"(127\.0\.0\.1:)[2-6]\d{4}", r"\1*")]
# what is printed where something went wrong
WRONG = re.compile(r"^(af|afd|audiofile-playlist|audiofile-meter|demo|make|client\.py): |FAIL|(^|: )[Ee]rror\b|[Nn]o such |not found|Traceback|cannot |usage:")
# the line of an end that is not good. Lost frames are told of a good one, too
FAILS = re.compile(r"(af|afd): (?!\d+ frames? in )")
# where the sound goes that a recipe records
RECORDED = re.compile(r"\barecord\b[^|;&]*?>>? *([\w.-]+)")
# the ports that are given out, none of which the system gives to clients
PORTS = iter(range(20000 + os.getpid() % 10000, 32700))
PORTS_LOCK = threading.Lock()
# the shells that run, with their folders, and whether they are to end
SHELLS, ENDED = set(), threading.Event()
# how long the programs of a server may take to end after it, in seconds
TO_END = 2


def free_port():
    """A port of the loopback that nobody listens at, and that nobody else is given."""
    with PORTS_LOCK:
        for port in PORTS:
            with socket.socket() as tried:
                tried.setsockopt(socket.SOL_SOCKET, socket.SO_REUSEADDR, 1)
                if tried.connect_ex(("127.0.0.1", port)):
                    return port
    raise OSError("there is no free port")


def tone(rate, channels, seconds, period):
    """A tone in 16-bit samples, the lowest byte first, of which each period has so many frames."""
    samples = (int(9000 * math.sin(2 * math.pi * frame / period)) for frame in range(period))
    whole = b"".join(struct.pack("<h", sample) * channels for sample in samples)
    return (whole * (rate * seconds // period + 1))[:2 * channels * rate * seconds]


def give_files(folder):
    """The sound files that the pages call yours."""
    for name, rate, channels, seconds, period in (
            ("speech.wav", 8000, 1, 3, 25), ("call.wav", 8000, 1, 1, 16), ("music.wav", 44100, 2, 5, 100)):
        with wave.open(os.path.join(folder, name), "wb") as file:
            file.setparams((channels, 2, rate, 0, "NONE", None))
            file.writeframes(tone(rate, channels, seconds, period))
    with open(os.path.join(folder, "song.mp3"), "wb") as file:
        # frames of Layer III without a sample: two seconds of silence
        file.write((bytes.fromhex("fffb9064") + bytes(413)) * 77)


def give_tree(folder, afd, af):
    """The programs, and links to what the pages name."""
    os.mkdir(os.path.join(folder, "bin"))
    programs = {"afd": afd, "af": af, **{name: os.path.join(ROOT, "contrib", name) for name in CONTRIBUTED}}
    for name, path in programs.items():
        os.symlink(path, os.path.join(folder, "bin", name))
    for name in LINKS:
        os.symlink(os.path.join(ROOT, name), os.path.join(folder, name))


def give_tools(folder):
    """The tools themselves, for a recipe by which they look for the programs beside them."""
    os.unlink(os.path.join(folder, "tools"))
    shutil.copytree(os.path.join(ROOT, "tools"), os.path.join(folder, "tools"), ignore=shutil.ignore_patterns("__pycache__"))


def give_crates(folder):
    """The crates themselves, for a recipe that adds one. Nothing of what was built is there."""
    shutil.copytree(os.path.join(ROOT, "crates"), os.path.join(folder, "crates"), ignore=shutil.ignore_patterns("out"))
    for name in ("crates.txt", "HANDLES"):
        shutil.copy(os.path.join(ROOT, name), folder)


class Run:
    """A recipe that is run, until a moment at most: what it printed, and what was not as the page says."""

    def __init__(self, recipe, afd=None, af=None, until=0):
        self.recipe, self.afd, self.af, self.until = recipe, afd, af, until
        self.ports, self.faults, self.is_late = {}, [], False

    def called_programs(self):
        text = "\n".join(step.text for step in self.recipe.all_steps())
        return re.findall(CALLED, text, re.M)

    def calls(self, name):
        return name in self.called_programs()

    def lacks(self):
        """A program that the recipe calls and the machine lacks."""
        return next((name for name in self.called_programs() if not shutil.which(name)), None)

    def go(self):
        """Runs it: what is not as the page says."""
        with tempfile.TemporaryDirectory() as folder, tempfile.TemporaryDirectory() as self.aside:
            self.folder = folder
            give_tree(folder, self.afd, self.af)
            give_files(folder)
            if self.calls("make"):
                give_tools(folder)
            if self.calls("rt"):
                give_crates(folder)
            script = self.kept("script", "".join(self.lines()))
            self.compare(self.called(script))
            self.listen()
        return self.faults

    def kept(self, name, text):
        """A file beside the folder of the recipe."""
        path = os.path.join(self.aside, name)
        with open(path, "w") as file:
            file.write(text)
        return path

    def lines(self):
        """The script: after each step a line with its status. A file that the page shows is copied to its place by then."""
        for number, step in enumerate(self.recipe.all_steps()):
            text = self.placed(step.text)
            if step.file:
                text = "cp %s %s" % (self.kept("file%d" % number, text), step.file)
            yield "%s\necho \"@ %d $?\"\n" % (text, number)

    def placed(self, text):
        """A text with ports that are free in place of those of the page."""
        return ADDRESS.sub(lambda it: it[1] + str(self.given(it[2])), text)

    def given(self, port):
        if port not in self.ports:
            self.ports[port] = free_port()
        return self.ports[port]

    def as_in_page(self, text):
        """What was printed, with the ports of the page."""
        for port, given in self.ports.items():
            text = text.replace("127.0.0.1:%d" % given, "127.0.0.1:" + port)
        return text

    def called(self, script):
        """What the shell and all that it calls print, in order. What it leaves running is ended."""
        environment = {name: value for name, value in os.environ.items() if not name.startswith(("AUDIOFILE_", "ALSA_"))}
        path = os.path.join(self.folder, "bin") + ":" + os.environ["PATH"]
        environment.update(HOME=self.folder, PATH=path, PYTHONDONTWRITEBYTECODE="1")
        with tempfile.TemporaryFile() as printed:
            shell = subprocess.Popen(
                ["sh", script], cwd=self.folder, env=environment, stdin=subprocess.DEVNULL, stdout=printed, stderr=subprocess.STDOUT,
                start_new_session=True)
            SHELLS.add((shell.pid, self.folder))
            try:
                shell.wait(0 if ENDED.is_set() else max(0, self.until - time.monotonic()))
            except subprocess.TimeoutExpired:
                self.faults.append("it does not end in its time")
                self.is_late = True
            finally:
                self.end(shell)
                SHELLS.discard((shell.pid, self.folder))
            printed.seek(0)
            return self.as_in_page(printed.read().decode(errors="replace"))

    def end(self, shell):
        """What still runs of the recipe is ended. A program of a server may take a moment."""
        until = time.monotonic() + (TO_END if shell.poll() is not None else 0)
        left = processes(shell.pid, self.folder)
        while left and time.monotonic() < until:
            time.sleep(0.05)
            left = processes(shell.pid, self.folder)
        if left and shell.poll() is not None:
            self.faults.append("it leaves running: %s" % ", ".join(sorted(left.values())))
        end_session(shell.pid, self.folder)
        shell.wait()

    def compare(self, printed):
        """What was printed, beside what the page says; and the statuses."""
        steps, lines, found = self.recipe.all_steps(), [], {}
        for line in printed.split("\n")[:-1]:
            ended = re.fullmatch(r"(.*)@ (\d+) (\d+)", line)
            if ended:
                lines += [ended[1]] if ended[1] else []
                found[int(ended[2])] = int(ended[3])
            elif line not in ("Terminated", "Killed"):
                lines.append(line)
        wanted = [line for step in steps for line in step.prints or []]
        if self.recipe.is_prompted:
            self.same(wanted, lines)
        else:
            self.stated(wanted, lines)
        for number, step in enumerate(steps):
            status = found.get(number)
            fails = bool(step.prints) and bool(FAILS.match(step.prints[0]))
            if status is not None and (status != 0) != fails:
                self.faults.append("the status of %r is %d" % (step.text, status))
            if status is None and not self.faults:
                self.faults.append("it ends before %r does" % step.text)

    def same(self, wanted, lines):
        """Each line is as the page says."""
        for place in range(max(len(wanted), len(lines))):
            want, line = (each[place] if place < len(each) else None for each in (wanted, lines))
            if want is None or line is None or not is_as(want, line):
                self.faults.append("line %d is printed as %r, and the page says %r" % (place + 1, line, want))
                return

    def stated(self, wanted, lines):
        """The lines that the page states are printed, in this order, and no other tells of something wrong."""
        rest = iter(lines)
        passed = []
        for want in wanted:
            line = next((line for line in rest if is_as(want, line) or passed.append(line)), None)
            if line is None:
                self.faults.append("it prints %r, and the page says %r" % (lines, want))
                return
        for line in [*passed, *rest]:
            if WRONG.search(line):
                self.faults.append("it prints %r" % line)

    def listen(self):
        """Nothing that is recorded into a file may be silence alone."""
        for step in self.recipe.all_steps():
            for name in [] if step.file else RECORDED.findall(step.text):
                try:
                    with open(os.path.join(self.folder, name), "rb") as file:
                        sound = file.read()[64:]
                except OSError:
                    sound = b""
                if not self.faults and len(set(sound)) < 2:
                    self.faults.append("%s is silent" % name)


def is_as(wanted, line):
    """Whether a line is what the page says, which may leave out its end by two dots."""
    for pattern, instead in DIFFERS:
        wanted, line = re.sub(pattern, instead, wanted), re.sub(pattern, instead, line)
    return line.startswith(wanted[:-2]) if wanted.endswith(" ..") else line == wanted


def end_all():
    """Ends all recipes that run."""
    ENDED.set()
    for session, folder in list(SHELLS):
        end_session(session, folder)


def processes(session, folder):
    """The processes of a session that have not ended, with their names, and those that left it: the folder is their home."""
    found = {}
    for number in filter(str.isdigit, os.listdir("/proc")):
        try:
            with open("/proc/%s/stat" % number) as file:
                name, _, rest = file.read().partition("(")[2].rpartition(")")
            with open("/proc/%s/environ" % number, "rb") as file:
                is_ours = b"HOME=%s\0" % folder.encode() in file.read()
        except OSError:
            continue
        state, _, _, of = rest.split()[:4]
        if (is_ours or int(of) == session) and state not in "ZX":
            found[int(number)] = name
    return found


def end_session(session, folder):
    """Kills what there is of a recipe, one process after the other."""
    for _ in range(100):
        left = processes(session, folder)
        if not left:
            return
        for number in left:
            try:
                os.kill(number, signal.SIGKILL)
            except ProcessLookupError:
                pass
        time.sleep(0.01)
