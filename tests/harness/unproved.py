"""The programs before any proof, as `rt try` compiles them: with checks, and so slower than the proved ones. For tools/check and
tools/try-memory."""

import concurrent.futures
import glob
import hashlib
import os
import socket
import subprocess
import sys
import tempfile
import time

from serving import ROOT

# where the programs are kept, with a name for the sources that they were made of
FOLDER = os.path.join(ROOT, "bin", "unproved")
PATIENCE = 900
# how long a program may run under `rt try`, in seconds, and how many steps the interpreter takes of it before that
SECONDS, STEPS = "60", "1"
CONFIGURATION = b"device lin16 8000 0 silent\n"


def compiled(crate, words, folder, flags=()):
    """The bytes of the program of a crate. They are taken while `rt try` runs it, so the words are such that it waits."""
    room = os.path.join(folder, "rt-" + crate)
    os.mkdir(room)
    with tempfile.TemporaryFile() as said:
        trying = subprocess.Popen(
            ["rt", "try", "--seconds", SECONDS, *flags, "--", *words], cwd=os.path.join(ROOT, "crates", crate),
            stdin=subprocess.PIPE, stdout=subprocess.DEVNULL, stderr=said, env={**os.environ, "TMPDIR": room})
        trying.stdin.write(CONFIGURATION)
        trying.stdin.close()
        try:
            octets = taken(trying, room)
        finally:
            trying.terminate()
            trying.wait()
        if octets is None:
            said.seek(0)
            sys.stderr.buffer.write(said.read())
            raise OSError("rt try has made no program of %s" % crate)
    return octets


def taken(trying, room):
    """The bytes of the program that `rt try` runs in this folder, or None if it runs none."""
    begun = time.monotonic()
    while time.monotonic() - begun < PATIENCE and trying.poll() is None:
        # beside a program that is whole stands what it writes
        for path in glob.glob(os.path.join(room, "*", "*", "program")):
            if os.path.exists(os.path.join(os.path.dirname(path), "stdout")):
                with open(path, "rb") as file:
                    return file.read()
        time.sleep(0.05)
    return None


def sources():
    """A name for all sources as they are now, and for the kit that compiles them."""
    digest = hashlib.sha256(subprocess.run(["rt", "version"], capture_output=True).stdout)
    for path in [os.path.join(ROOT, "crates.txt"), *sorted(glob.glob(os.path.join(ROOT, "crates", "*", "src", "**", "*.rt"), recursive=True))]:
        with open(path, "rb") as file:
            digest.update(path[len(ROOT):].encode() + b"\0" + hashlib.sha256(file.read()).digest())
    return digest.hexdigest()


def kept():
    """The name of the sources of which the programs that are there were made."""
    try:
        with open(os.path.join(FOLDER, "sources")) as file:
            return file.read()
    except OSError:
        return None


def build():
    """Makes both programs, if they are not those of the sources as they are. The answer is their folder."""
    made_of = sources()
    if kept() == made_of:
        return FOLDER
    os.makedirs(FOLDER, exist_ok=True)
    with tempfile.TemporaryDirectory() as folder, socket.create_server(("127.0.0.1", 0)) as silent:
        # a server that runs out of waits only after the run, and a tool whose server never answers
        words = {"afd": ["serve", "127.0.0.1:0", "1000000000000"], "af": ["list", "127.0.0.1:%d" % silent.getsockname()[1]]}
        with concurrent.futures.ThreadPoolExecutor() as pool:
            made = {it: pool.submit(compiled, it, words[it], folder, ["--steps", STEPS]) for it in words}
            for name, octets in made.items():
                put(name, octets.result())
    with open(os.path.join(FOLDER, "sources"), "w") as file:
        file.write(made_of)
    return FOLDER


def put(name, octets):
    """A program at its place. It is a new file, since the old one may run."""
    path = os.path.join(FOLDER, name)
    with open(path + ".new", "wb") as file:
        file.write(octets)
    os.chmod(path + ".new", 0o755)
    os.replace(path + ".new", path)
