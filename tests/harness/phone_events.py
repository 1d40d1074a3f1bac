"""Trials of tools/try-phone: `af events`, whose lines are read from a pipe as they come."""

import queue
import subprocess
import threading
import time

from cards import wait_for
from phone_lines import hooked
from phones import LATE, SILENT_LINE, Phone

# the statuses of a tool whose link failed, or ended
LOST = (13, 14)


class Told:
    """The tool, and the lines that it has written to its pipe so far, each with the moment at which it was there."""

    def __init__(self, trial, server, *words):
        self.process = subprocess.Popen(
            [trial.af, "events", server.address, *words], stdout=subprocess.PIPE, stderr=subprocess.PIPE, stdin=subprocess.DEVNULL)
        self.lines = queue.Queue()
        self.reader = threading.Thread(target=self.read, daemon=True)
        self.reader.start()

    def read(self):
        for line in self.process.stdout:
            self.lines.put(line.decode().split())

    def next(self, seconds=5 + LATE):
        """The next line as its words, or None if none comes."""
        try:
            return self.lines.get(timeout=seconds)
        except queue.Empty:
            return None

    def begins(self, phone):
        """Has digits dialled until the first is told: nothing else shows that the server was asked. No digit is left untold."""
        dialled = 0
        while dialled < 100 and self.lines.empty():
            phone.say("digit *")
            dialled += 1
            wait_for(lambda: not self.lines.empty(), 0.2)
        while (line := self.next(1)) is not None:
            if line[2:] != ["digit", "*"]:
                return False
        return dialled < 100

    def ends(self, seconds=5 + LATE):
        """The status at its end, and what it said. All its lines are there then."""
        status = self.process.wait(seconds)
        self.reader.join(seconds)
        return status, self.process.stderr.read()


def events_as_they_come(trial):
    """Each event has its line in the pipe before the next one happens: of each kind, of both devices that have a line."""
    left, right = Phone("left", 0), Phone("right", 2)
    with trial.serve(SILENT_LINE, "device mu255 8000 0 silent", SILENT_LINE, left, right) as server:
        told = Told(trial, server, "--device=all")
        trial.holds("the server is asked", told.begins(left))
        last = -1
        for phone, line, words in (
                (left, "ring on", "0 ring on"), (right, "loop on", "2 loop on"), (left, "ring off", "0 ring off"),
                (right, "digit D", "2 digit D"), (left, "digit 0", "0 digit 0"), (right, "loop off", "2 loop off")):
            phone.say(line)
            came = told.next()
            trial.holds("%s has its line: %s" % (words, came), came is not None and came[1:] == words.split())
            trial.holds("its time is no earlier", int(came[0]) >= last)
            last = int(came[0])
        for off, words in ((True, "2 hook off"), (False, "2 hook on")):
            hooked(server, 2, off)
            came = told.next()
            trial.holds("%s has its line: %s" % (words, came), came is not None and came[1:] == words.split())
        trial.holds("nothing else is told", told.lines.empty() and told.process.poll() is None)
        trial.ends(server)
        status, said = told.ends()
        trial.holds("it ends with its server: %s %s" % (status, said), status in LOST and said.startswith(b"af: link "))


def events_of_one_kind(trial):
    """Of one device and two kinds nothing else is told, and the tool is done after its count, while the line goes on."""
    phone, other = Phone("one", 0), Phone("other", 1)
    with trial.serve(SILENT_LINE, SILENT_LINE, phone, other) as server:
        told = Told(trial, server, "--kinds=digit,ring", "--count=3")
        begun = time.monotonic()
        while told.lines.empty() and time.monotonic() - begun < 20:
            phone.say("ring on", "ring off")
            time.sleep(0.2)
        ring = told.next()
        trial.holds("the first ring is told: %s" % ring, ring is not None and ring[1:3] == ["0", "ring"])
        other.say("digit 9")
        phone.say("loop on", "digit 1", "loop off", "digit 2", "digit 3", "digit 4")
        status, said = told.ends()
        trial.holds("it is done after three events: %s %s" % (status, said), (status, said) == (0, b""))
        lines = [ring]
        while (line := told.next(0.5)) is not None:
            lines.append(line)
        kinds = {tuple(line[1:3]) for line in lines}
        trial.holds("of its device and its kinds alone: %s" % lines, len(lines) == 3 and kinds <= {("0", "ring"), ("0", "digit")})
        trial.ends(server)


def events_for_a_time(trial):
    """For half a second of device time: what happens before the tool asks is not told, what happens meanwhile is, and it ends by
    itself soon after, while the line goes on."""
    phone = Phone("timed", 0)
    with trial.serve(SILENT_LINE, phone) as server:
        phone.say("ring on", "digit 1", "ring off")
        time.sleep(0.3)
        begun = time.monotonic()
        told = Told(trial, server, "--for=500")
        dialled = 0
        while told.process.poll() is None and dialled < 200:
            phone.say("digit 5")
            dialled += 1
            time.sleep(0.05)
        lasted = time.monotonic() - begun
        status, said = told.ends()
        trial.holds("it is done by itself: %s %s" % (status, said), (status, said) == (0, b""))
        trial.holds("in half a second, and not much later: %.2f" % lasted, 0.5 <= lasted < 0.7 + LATE)
        phone.say("digit 6")
        lines = []
        while (line := told.next(0.5)) is not None:
            lines.append(line)
        trial.holds("only what came meanwhile is told: %d of %d" % (len(lines), dialled),
                    3 <= len(lines) <= dialled and all(line[1:] == ["0", "digit", "5"] for line in lines))
        times = [int(line[0]) for line in lines]
        trial.holds("within the time: %s" % times, times == sorted(times) and times[-1] - times[0] <= (0.5 + 0.2 + LATE) * 8000)
        trial.ends(server)
