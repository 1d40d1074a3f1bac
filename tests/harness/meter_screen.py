"""What contrib/audiofile-meter draws on a terminal of our own, read as a VT100 shows it. For tools/try-meter."""

import fcntl
import os
import re
import struct
import subprocess
import sys
import termios

from cards import wait_for, waited
from phone_alone import Pty
from phone_terminal import OWN_TERMINAL
from serving import ROOT

PROGRAM = os.path.join(ROOT, "contrib", "audiofile-meter")
# a sequence with its numbers, one without, a character, and what moves the cursor
TOKEN = re.compile(rb"\x1b\[(\??[\d;]*)([@-~])|\x1b[()#].|\x1b[^\[()#]|([\x20-\x7e])|([\x00-\x1a\x1c-\x1f])", re.S)


class Screen:
    """The characters of a terminal: as much of a VT100 as curses makes use of."""

    def __init__(self, width, height):
        self.width, self.height, self.rest = width, height, b""
        self.row = self.column = 0
        self.rows = [bytearray(b" " * width) for _ in range(height)]

    def feed(self, octets):
        octets, at = self.rest + octets, 0
        while token := TOKEN.match(octets, at):
            at = token.end()
            if token[3]:
                self.put(token[3])
            elif token[4]:
                self.move(token[4])
            elif token[2]:
                self.obey(token[2], [int(each or 0) for each in token[1].lstrip(b"?").split(b";")])
        self.rest = octets[at:]

    def put(self, character):
        if self.column >= self.width:
            self.column, self.row = 0, min(self.row + 1, self.height - 1)
        self.rows[self.row][self.column] = character[0]
        self.column += 1

    def move(self, control):
        if control == b"\r":
            self.column = 0
        elif control == b"\b":
            self.column = max(0, self.column - 1)
        elif control == b"\t":
            self.column = min(self.width - 1, self.column // 8 * 8 + 8)
        elif control == b"\n" and self.row < self.height - 1:
            self.row += 1
        elif control == b"\n":
            self.rows = [*self.rows[1:], bytearray(b" " * self.width)]

    def obey(self, name, numbers):
        count, (across, down) = max(1, numbers[0]), {b"A": (0, -1), b"B": (0, 1), b"C": (1, 0), b"D": (-1, 0)}.get(name, (0, 0))
        row, column = self.row + down * count, self.column + across * count
        if name == b"H":
            row, column = count - 1, max(1, numbers[-1] if len(numbers) > 1 else 1) - 1
        self.row, self.column = max(0, min(row, self.height - 1)), max(0, min(column, self.width - 1))
        if name in (b"J", b"K"):
            self.erase(name == b"J", numbers[0])

    def erase(self, is_whole, part):
        """Takes away what is after the cursor, before it (1), or all (2), of the line or of the screen."""
        place, whole = self.row * self.width + self.column, self.width * self.height
        first, last = (0, whole) if is_whole else (self.row * self.width, (self.row + 1) * self.width)
        for at in range(*((place, last), (first, place + 1), (first, last))[part]):
            self.rows[at // self.width][at % self.width] = ord(" ")

    def text(self):
        return [row.decode("latin-1").rstrip() for row in self.rows]


class Terminal(Pty):
    """A terminal on which the meter runs. Used with `with`, it is ended at the end."""

    def __init__(self, trial, *words, width=80, height=24, program=(PROGRAM,), **environment):
        super().__init__()
        self.said = b""
        self.resize(width, height)
        self.before = self.mode()
        kept = {name: value for name, value in os.environ.items() if name not in ("AUDIOFILE_SERVER", "NO_COLOR")}
        self.process = subprocess.Popen(
            [sys.executable, "-c", OWN_TERMINAL, sys.executable, *program, *words],
            stdin=self.slave, stdout=self.slave, stderr=self.slave,
            env={**kept, "TERM": "vt100", "PYTHONDONTWRITEBYTECODE": "1", **environment})
        trial.processes.append(self)

    def resize(self, width, height):
        self.screen = Screen(width, height)
        fcntl.ioctl(self.master, termios.TIOCSWINSZ, struct.pack("4H", height, width, 0, 0))

    def see(self, octets):
        self.said += octets
        self.screen.feed(octets)

    def __exit__(self, *_):
        self.process.kill()
        self.process.wait()
        self.close()

    def starved(self):
        return waited(self.process.pid)

    def shows(self, *lines, seconds=20):
        """Waits until each of these lines is on the screen, whole. Whether all are."""
        return wait_for(lambda: not {*lines} - {*self.screen.text()}, seconds)

    def tells(self, text, seconds=20):
        """Waits until a text is on the screen, however its lines are broken. Whether it is."""
        return wait_for(lambda: text in " ".join(self.screen.text()), seconds)

    def press(self, keys):
        os.write(self.master, keys)

    def ended(self):
        """Its status, and whether the terminal is as it was."""
        try:
            return self.process.wait(20), self.mode() == self.before
        except subprocess.TimeoutExpired:
            return None, False
