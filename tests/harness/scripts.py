"""Scripts and transcripts of `afd script`, read as afd-script(5) has them."""

import re
from dataclasses import dataclass

from wire import RATES, WIDTHS, Format

WORD = 1 << 32
CAUSES = "setup|malformed|ended|fault|overrun"
TRANSCRIPT_LINE = re.compile(
    r"(link) (\d+) ((?:[0-9a-f]{2})+)|(emit) (\d+) ((?:[0-9a-f]{2})+|failed)|(capture|read|write) (\d+) (failed)"
    r"|(hook) (\d+) (offhook|onhook|failed)|(closed) (\d+) (%s)" % CAUSES)


class ScriptFault(Exception):
    """The line of a script, counted from 1, that is not allowed where it stands."""

    def __init__(self, line):
        super().__init__("line %d of the script is not allowed there" % line)
        self.line = line


class TranscriptFault(Exception):
    """A line that no transcript has."""

    def __init__(self, line):
        super().__init__("line %d is no line of a transcript" % line)


@dataclass(frozen=True)
class Device:
    """A device as its line states it."""

    form: Format
    rate: int
    start: int
    has_line: bool


@dataclass(frozen=True)
class Step:
    """A step: its word, the link or the device that it names, and what follows: a number, bytes or a word."""

    name: str
    of: int = 0
    value: object = None
    octets: bytes = b""


@dataclass(frozen=True)
class Happened:
    """A line of a transcript: its first word, the link or the device, and what it says: bytes, or a word."""

    name: str
    of: int
    said: object


class Unfit(Exception):
    """Words that are no line of a script."""


def number(word, least, most):
    if not re.fullmatch("[0-9]{1,10}", word) or not least <= int(word) <= most:
        raise Unfit
    return int(word)


def octets_of(word, least, most):
    if not re.fullmatch("(?:[0-9a-fA-F]{2})+", word) or not least <= len(word) // 2 <= most:
        raise Unfit
    return bytes.fromhex(word)


def one_of(word, words):
    if word not in words:
        raise Unfit
    return word


def device(words):
    """The device that the words after `device` state."""
    kind, rate, start, *rest = words
    channels = 2 if rest[:1] == ["stereo"] else 1
    line = rest[channels - 1:]
    if line not in ([], ["line"]):
        raise Unfit
    form = Format(one_of(kind, WIDTHS), channels)
    return Device(form, int(one_of(rate.lstrip("0"), map(str, RATES))), number(start, 0, WORD - 1), bool(line))


def step(name, words, devices):
    """The step that a line's words state, over these devices."""
    if name == "idle" and not words:
        return Step(name)
    on_link = name in ("open", "send", "end", "room", "failread", "failwrite")
    of = number(words[0], 0, 31 if on_link else len(devices) - 1)
    rest = words[1:]
    if name in ("ring", "loop", "digit", "failhook") and not devices[of].has_line:
        raise Unfit
    if name in ("open", "end", "failread", "failwrite", "failcapture", "failemit", "failhook") and not rest:
        return Step(name, of)
    if name == "send" and len(rest) == 1:
        return Step(name, of, None, octets_of(rest[0], 1, 16384))
    if name == "room" and len(rest) == 1:
        return Step(name, of, None if rest[0] == "all" else number(rest[0], 0, WORD - 1))
    if name == "tick" and len(rest) in (1, 2):
        frames = number(rest[0], 1, 4096)
        size = frames * devices[of].form.frame()
        return Step(name, of, frames, octets_of(rest[1], size, size) if len(rest) == 2 else b"")
    if name in ("ring", "loop") and len(rest) == 1:
        return Step(name, of, one_of(rest[0], ("on", "off")) == "on")
    if name == "digit" and len(rest) == 1:
        return Step(name, of, one_of(rest[0], tuple("0123456789*#ABCD")))
    raise Unfit


def read_script(octets):
    """The devices and the steps of a script."""
    devices, steps = [], []
    lines = octets.split(b"\n")
    if not lines[-1]:
        lines.pop()
    for at, line in enumerate(lines, 1):
        words = [] if line.startswith(b"#") else [word for word in line.split(b" ") if word]
        if not words:
            continue
        if not all(32 <= octet < 127 for octet in line):
            raise ScriptFault(at)
        name, *rest = (word.decode() for word in words)
        try:
            if name == "device" and not steps and len(devices) < 8:
                devices.append(device(rest))
            elif devices:
                steps.append(step(name, rest, devices))
            else:
                raise Unfit
        except (Unfit, ValueError, IndexError):
            raise ScriptFault(at) from None
    if not devices:
        raise ScriptFault(len(lines) + 1)
    return devices, steps


def read_transcript(octets):
    """The lines of a transcript."""
    lines = octets.decode("ascii", "replace").split("\n")
    if not lines[-1]:
        lines.pop()
    happened = []
    for at, line in enumerate(lines, 1):
        found = TRANSCRIPT_LINE.fullmatch(line)
        if not found:
            raise TranscriptFault(at)
        name, of, said = [word for word in found.groups() if word]
        in_bytes = name == "link" or name == "emit" and said != "failed"
        happened.append(Happened(name, int(of), bytes.fromhex(said) if in_bytes else said))
    return happened
