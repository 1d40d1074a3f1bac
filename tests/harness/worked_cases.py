"""What the checks of worked cases share: the lists of words that a file states, and where two texts differ first."""

import itertools
import os
import re

# how much of a long line is shown on each side of the first difference
AROUND = 40
# a line of bytes: how many times, and digits, of which some may stand in brackets
STATED = re.compile(r"(?:(\d+) times )?([^[]*)(?:\[([^]]*)\])?(.*)", re.DOTALL)


def lists_of_words(text):
    """The lists in a file of words: one word a line, blank lines between the lists, and comments that begin with #. `""` is the
    word without a byte, and `(no words)` the list without a word."""
    words = []
    for line in text.splitlines() + [""]:
        if line.startswith("#"):
            continue
        if line.strip():
            words.append("" if line == '""' else line)
        elif words:
            yield [] if words == ["(no words)"] else words
            words = []


def octets_stated(text):
    """The bytes that hexadecimal digits state. `N times HEX` states them N times, and what stands in brackets there rises by one
    each time, and wraps; a line that begins with # is a comment. A line that states no whole bytes is a ValueError, with the
    line."""
    stated = []
    for line in text.split("\n"):
        if line.startswith("#"):
            continue
        times, before, rising, after = STATED.fullmatch(line).groups()
        try:
            before, rising, after = (bytes.fromhex(digits or "") for digits in (before, rising, after))
        except ValueError:
            raise ValueError(line) from None
        if rising:
            first, past = int.from_bytes(rising, "big"), 1 << 8 * len(rising)
            for more in range(int(times or 1)):
                stated += before, ((first + more) % past).to_bytes(len(rising), "big"), after
        else:
            stated.append(int(times or 1) * (before + after))
    return b"".join(stated)


def first_difference(found, wanted):
    """The first line in which two texts, given by their bytes, differ, of both, cut round the first byte that differs. None where
    they are alike."""
    lines = itertools.zip_longest(found.splitlines(keepends=True), wanted.splitlines(keepends=True))
    for number, (one, other) in enumerate(lines, 1):
        if one != other:
            at = len(os.path.commonprefix([one or b"", other or b""]))
            return "line %d\n    found   %s\n    wanted  %s" % (number, cut(one, at), cut(other, at))
    return None


def cut(line, at):
    """A line near a place in it."""
    if line is None:
        return "no such line"
    first, last = max(0, at - AROUND), at + AROUND
    before, after = "... " if first else "", " ..." if last < len(line) else ""
    return before + shown(line[first:last]) + after


def shown(octets):
    """Bytes in quotes, what is not printable by an escape."""
    return repr(octets)[1:]
