"""Drawings of the pages that a command makes: it writes one to docs/, or compares what is kept there."""

import os
import sys

from serving import ROOT

# as in the picture of the demo, with an orange that is dark enough for words
FONT = "DejaVu Sans, Verdana, sans-serif"
INK, NOTE, LINE = "#1d2733", "#5b6876", "#aab4c0"
BLUE, ORANGE, PURPLE, GREEN, BROWN, TEAL = "#2f6fd0", "#b5630d", "#8446b8", "#23865c", "#a3492f", "#0e7490"


class Untrue(Exception):
    """A drawing that would say what is not so. Each argument is a line that says why."""


def crates():
    """What each crate of the repository uses, as crates.txt has it."""
    found = {}
    with open(os.path.join(ROOT, "crates.txt")) as file:
        for line in file:
            name, colon, used = line.partition("#")[0].partition(":")
            if colon:
                found[name.split()[0]] = used.split()
    return found


def page(width, height, title, parts):
    """A drawing of this size on white, so that it looks the same on a dark page."""
    return "\n".join([
        '<svg xmlns="http://www.w3.org/2000/svg" width="%d" height="%d" viewBox="0 0 %d %d" font-family="%s" font-size="15">'
        % (width, height, width, height, FONT),
        "<title>%s</title>" % title, '<rect width="100%" height="100%" fill="#ffffff"/>', *parts, "</svg>", ""])


def run(command, explained, name, drawn):
    """A command that draws docs/NAME, with what it says of itself. The answer is its status."""
    if sys.argv[1:] not in ([], ["--compare"]):
        print(explained.strip())
        return 2
    path = os.path.join(ROOT, "docs", name)
    try:
        text = drawn()
    except Untrue as fault:
        print("\n".join("%s: %s" % (command, line) for line in fault.args))
        return 1
    if sys.argv[1:]:
        return compare(command, path, text)
    with open(path, "w") as file:
        file.write(text)
    return 0


def compare(command, path, text):
    try:
        with open(path) as file:
            is_same = file.read() == text
    except FileNotFoundError:
        is_same = False
    if not is_same:
        print("%s: %s is not what is drawn now: run tools/%s" % (command, os.path.relpath(path, ROOT), command))
    return 0 if is_same else 1
