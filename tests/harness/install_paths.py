"""Installing and uninstalling by paths that a shell, make, sed or systemd may take apart. Each works whole, or is refused before
anything is touched. A part of tools/check-install.

All that happens lies in one folder, the wrong paths too: it has an installation of its own, which has to survive.
"""

import os
import re
import shutil
import stat
import subprocess

from serving import ROOT

# what make install reads of the source
SOURCE = ("Makefile", "contrib", "examples", "man", "LICENSE")
# folders that have to work, as they are named
NAMES = (
    "My Programs", "ends in a space ", "two  spaces", "tab\there", "a # b", "a ~b", "100% of it", "a&b", "a|b", "a,b", "a;b", "a>b",
    "a(b)", "{a,b}", "[a]", "a*b", "a:=b", "it's", 'say "it"', "`id`", "a$b", "$(HOME)", "a\\b", "a\\", "-x", "x/", "ü")
# what systemd takes in no path of a program
IN_NO_UNIT = re.compile("['\"\\\\\t]")
# arguments of make that are refused, and what is said; ROOM stands for the folder in which all happens
DOLLAR, NEWLINE, SLASH = "%s has a $ that make takes for itself", "%s has a newline", "%s does not begin with a slash"
UNIT = "%s has a quote, a backslash or a tab"
VARIABLES = ("DESTDIR", "PREFIX", "WIRESHARK", "ZSH", "AFD", "AF")
REFUSED = [
    *((name, "ROOM" + text, DOLLAR) for name in VARIABLES for text in ("/a$b", "$(nothing)")),
    ("DESTDIR", "ROOM${nothing}", DOLLAR), ("DESTDIR", "ROOM$$$", DOLLAR),
    *((name, "ROOM" + text, NEWLINE) for name in VARIABLES for text in ("/a\nb", "\n")),
    *((name, text, SLASH) for name in ("PREFIX", "WIRESHARK", "ZSH") for text in ("usr", "-x", "~/x", "./usr")),
    ("WIRESHARK", "", SLASH), ("ZSH", "", SLASH),
    *(("PREFIX", "ROOM" + text, UNIT) for text in ("/it's", '/say "it"', "/a\\b", "/a\tb", "/a\\")),
    ("DESTDIR", "~", "%s begins with a ~"), ("DESTDIR", "~/x y", "%s begins with a ~"),
]
# the installed units, and where the completions of zsh and the dissector lie unless told otherwise: a folder and a file
UNITS = (
    "lib/systemd/system/afd.service", "lib/systemd/system/audiofile-relay@.service", "lib/systemd/system/audiofile-answer.service",
    "lib/systemd/system/audiofile-logger.service", "lib/systemd/user/afd.service")
ZSH, DISSECTOR = "share/zsh/site-functions", "share/audiofile/audiofile.lua"


def tree(folder, without=None):
    """What lies in a folder but for one below it: kind and mode, and bytes or target, for each path."""
    found, without = {}, without and without.rstrip("/")
    for at, folders, names in os.walk(folder):
        folders[:] = [name for name in folders if os.path.join(at, name) != without]
        for name in folders + names:
            path = os.path.join(at, name)
            mode = os.lstat(path).st_mode
            if stat.S_ISLNK(mode):
                value = os.readlink(path)
            elif stat.S_ISREG(mode):
                with open(path, "rb") as file:
                    value = file.read()
            else:
                value = None
            found[os.path.relpath(path, folder)] = (mode, value)
    return found


def files(folder):
    """What lies in a folder, but no folders."""
    return {path: value for path, value in tree(folder).items() if not stat.S_ISDIR(value[0])}


def differences(before, after):
    """The paths that are in one of two trees alone, or not the same in both."""
    return " ".join(sorted(repr(path) for path in {*before, *after} if before.get(path) != after.get(path)))


def removed(path):
    """Takes away a folder with all that it has, or a file."""
    if os.path.isdir(path):
        shutil.rmtree(path)
    elif os.path.lexists(path):
        os.remove(path)


def in_unit(path):
    """A path as a unit has it."""
    return path.replace("%", "%%").replace(" ", "\\s")


def ended(words, environment=None):
    """The status of a program, and what it says."""
    try:
        done = subprocess.run(words, stdin=subprocess.DEVNULL, stdout=subprocess.PIPE, stderr=subprocess.STDOUT, env=environment,
                              timeout=30)
    except subprocess.TimeoutExpired:
        return None, "it does not end"
    return done.returncode, done.stdout.decode(errors="replace")


class Paths:
    def __init__(self, holds, room):
        self.holds, self.room = holds, room
        self.source, self.prefix = os.path.join(room, "source"), os.path.join(room, "prefix")
        os.makedirs(self.source)
        for name in SOURCE:
            os.symlink(os.path.join(ROOT, name), os.path.join(self.source, name))
        self.program("bin/afd")
        self.program("bin/af")

    def program(self, path):
        """A program of the source to install."""
        path = os.path.join(self.source, path)
        os.makedirs(os.path.dirname(path), exist_ok=True)
        with open(path, "w") as file:
            file.write("#!/bin/sh\n")
        os.chmod(path, 0o755)

    def make(self, target, **variables):
        """How make ends with these variables, as they are written, and what it says."""
        words = ["make", "-s", "-C", self.source, target, *("%s=%s" % it for it in {"PREFIX": self.prefix, **variables}.items())]
        # a make that has started this one passes nothing on
        environment = {key: value for key, value in os.environ.items() if key not in ("MAKEFLAGS", "MFLAGS", "MAKELEVEL")}
        return ended(words, {**environment, "HOME": self.room})

    def works(self, target, expected, **variables):
        """Installs to a target and takes it away again. Nothing else changes."""
        written = {key: value.replace("$", "$$") for key, value in variables.items()}
        told_of = ", ".join("%s=%r" % it for it in written.items())
        before = tree(self.room, target)
        status, told = self.make("install", **written)
        self.holds("install works with " + told_of, (status, told) == (0, ""), told)
        there = files(target) if os.path.isdir(target) else {}
        self.holds("all is there with " + told_of, there == expected, differences(expected, there))
        status, told = self.make("uninstall", **written)
        self.holds("uninstall works with " + told_of, (status, told) == (0, ""), told)
        left = files(target) if os.path.isdir(target) else {}
        self.holds("uninstall leaves nothing with " + told_of, not left, " ".join(left))
        after = tree(self.room, target)
        self.holds("nothing else is touched with " + told_of, after == before, differences(before, after))

    def named(self, name, plain):
        """A name in all places. What a shell would make of its pieces are folders of others at first, and then files."""
        pieces = {piece for piece in re.split(r"[^-\w]+", name) if piece} - {name, name.strip("/"), "source", "prefix"}
        beside = [os.path.join(at, piece) for at in (self.source, self.room) for piece in pieces]
        for path in beside:
            os.mkdir(path)
        target = os.path.join(self.source, name)
        there = os.path.relpath(self.prefix, "/")
        self.works(target, {os.path.join(there, path): value for path, value in plain.items()}, DESTDIR=name)
        removed(target)
        for path in beside:
            removed(path)
            with open(path, "w"):
                pass

        self.program(os.path.join(name, "afd"))
        self.program(os.path.join(name, "af"))
        prefix, zsh, wireshark = (os.path.join(self.room, at, name) for at in ("prefix", "zsh", "wireshark"))
        if IN_NO_UNIT.search(name):
            prefix = self.prefix
        expected = {}
        for path, (mode, value) in plain.items():
            if path in UNITS:
                value = value.replace(in_unit(self.prefix + "/bin").encode(), in_unit(prefix + "/bin").encode())
            folder, last = os.path.split(path)
            folder = wireshark if path == DISSECTOR else zsh if folder == ZSH else os.path.join(prefix, folder)
            expected[os.path.relpath(os.path.join(folder, last), "/")] = (mode, value)
        target = os.path.join(self.room, name)
        self.works(target, expected, DESTDIR=target, PREFIX=prefix, ZSH=zsh, WIRESHARK=wireshark,
                   AFD=os.path.join(name, "afd"), AF=os.path.join(name, "af"))
        removed(target)
        removed(os.path.join(self.source, name))
        for path in beside:
            removed(path)

    def refused(self, variable, text, why):
        """What is refused is so by both, in one line, with nothing touched."""
        value = text.replace("ROOM", self.room)
        variables = {"DESTDIR": self.room, "PREFIX": "/prefix", variable: value}
        before = tree(self.room)
        for target in ("install", "uninstall"):
            status, told = self.make(target, **variables)
            lines = told.splitlines()
            self.holds("%s says why it refuses %s=%r" % (target, variable, value),
                       status and len(lines) == 1 and why % variable in lines[0], told)
            after = tree(self.room)
            self.holds("%s touches nothing with %s=%r" % (target, variable, value), after == before, differences(before, after))

    def unit(self):
        """systemd finds the program of a unit in a folder that has whatever it may."""
        if not shutil.which("systemd-analyze"):
            return
        prefix = os.path.join(self.room, " ".join(name for name in NAMES if not IN_NO_UNIT.search(name)).replace("/", ""))
        written = prefix.replace("$", "$$")
        status, told = self.make("install", PREFIX=written)
        self.holds("install works with PREFIX=%r" % written, (status, told) == (0, ""), told)
        if status != 0:
            return
        # systemd looks for units in a list of folders, which some of these signs would take apart
        unit = shutil.copy(os.path.join(prefix, UNITS[0]), self.room)
        status, told = ended(["systemd-analyze", "verify", "--man=no", unit])
        self.holds("systemd finds the program below PREFIX=%r" % prefix, (status, told) == (0, ""), told)


def try_paths(holds, room):
    """All of it, in a folder that is not there yet."""
    paths = Paths(holds, room)
    # the installation of somebody else is what each has to be, too
    status, told = paths.make("install")
    holds("install works", (status, told) == (0, ""), told)
    plain = files(paths.prefix)
    for name in NAMES:
        paths.named(name, plain)
    for case in REFUSED:
        paths.refused(*case)
    paths.unit()
