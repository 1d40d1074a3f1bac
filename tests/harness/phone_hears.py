"""Trials of tools/try-phone: the answering machine that hears its caller. A caller who hangs up, or dials, ends what runs, and the
hook is on within half a second."""

import os
import shutil
import struct
import subprocess
import time

from cards import wait_for
from phone_calls import HELLO, MESSAGE, SPOKEN, got, telephone
from phones import RATE, HearingMachine, Phone, Watcher
from serving import ROOT

# within how many seconds after a caller hangs up the hook is to be on
AT_ONCE = 0.5
# what runs longer than any trial
LONG = "exec sleep 30"
# for how many seconds a menu is silent at its end
SILENT_END = 4


def rings(trial, phone, *hooks):
    """A caller calls, and the machine takes the call at the first ring. The phone was handed these hooks before."""
    phone.say("ring on")
    trial.holds("the call is taken: %s" % phone.hooks(), phone.is_handed(*hooks, "offhook"))
    phone.say("ring off", "loop on")


def hangs_up(trial, phone, *hooks):
    """The caller hangs up, and the machine at once after that."""
    gone = phone.say("loop off")
    is_on = phone.is_handed(*hooks, "onhook")
    took = phone.handed()[-1][0] - (gone or 0)
    trial.holds("the hook is on at once: %.3f s later, %s" % (took, phone.hooks()), is_on and 0 <= took <= AT_ONCE)


def told(trial, machine, lines, last):
    """Whether the machine ended well, with a line for each call, without their times, and its last line."""
    status, output, errors = machine.ended()
    said = [line.split() for line in output.decode().splitlines()]
    calls = [" ".join(words[:2] + words[4:]) for words in said[:-1]]
    trial.holds("each call has its line: %s" % calls, calls == lines and all(words[2] == "at" and words[3].isdigit() for words in said[:-1]))
    trial.holds("the machine ends well: %s" % ((status, errors, said[-1:]),), (status, errors) == (0, b"") and " ".join(said[-1]) == last)


def gone_in_the_greeting(trial):
    """The caller hangs up in the greeting: it is ended, and nothing is recorded."""
    phone = Phone("greeted", 0, 5)
    with telephone(trial, phone) as server, HearingMachine(trial, server, 1, LONG, MESSAGE, "--rings=1", "--hang-up") as machine:
        rings(trial, phone, "onhook")
        time.sleep(0.7)
        hangs_up(trial, phone, "onhook", "offhook")
        told(trial, machine, ["call 1 digits - greeting 137 message -"], "answered 1 recorded 0 failed 1")
        trial.holds("nothing was recorded", got(server, "said") == b"")


def gone_in_the_message(trial):
    """The caller hangs up in the message: it is ended."""
    phone = Phone("leaves", 0, 5)
    with telephone(trial, phone) as server, HearingMachine(trial, server, 1, "true", LONG, "--rings=1", "--hang-up") as machine:
        rings(trial, phone, "onhook")
        time.sleep(0.7)
        hangs_up(trial, phone, "onhook", "offhook")
        told(trial, machine, ["call 1 digits - greeting 0 message 137"], "answered 1 recorded 0 failed 1")


def gone_between(trial):
    """The caller hangs up before the greeting has ended, which goes on without --hang-up. No message is recorded then."""
    phone = Phone("between", 0, 5)
    with telephone(trial, phone) as server, HearingMachine(trial, server, 1, "exec sleep 1", MESSAGE, "--rings=1", "--until=#") as machine:
        rings(trial, phone, "onhook")
        time.sleep(0.3)
        phone.say("loop off")
        trial.holds("the hook is put on", phone.is_handed("onhook", "offhook", "onhook"))
        told(trial, machine, ["call 1 digits - greeting 0 message -"], "answered 1 recorded 0 failed 0")
        trial.holds("nothing was recorded", got(server, "said") == b"")


def digit_ends(trial):
    """The caller skips the greeting by #, and ends the message by it. Other digits end nothing."""
    phone = Phone("hash", 0, 5)
    message = 'exec "$AF" arecord $SERVER --seconds=30 > said'
    with telephone(trial, phone) as server, HearingMachine(trial, server, 1, LONG, message, "--rings=1", "--until=#", "--hang-up") as machine:
        rings(trial, phone, "onhook")
        phone.say("digit 5")
        time.sleep(0.5)
        trial.holds("another digit ends nothing: %s" % phone.hooks(), phone.hooks() == ["onhook", "offhook"])
        phone.say("digit #")
        trial.holds("the message begins", wait_for(lambda: len(got(server, "said")) > 4000))
        ended = phone.say("digit #")
        trial.holds("the hook is put on", phone.is_handed("onhook", "offhook", "onhook"))
        took = phone.handed()[-1][0] - ended
        trial.holds("at once: %.3f s later" % took, took <= AT_ONCE)
        told(trial, machine, ["call 1 digits 5## greeting 137 message 137"], "answered 1 recorded 1 failed 0")


def finds_its_caller(trial):
    """Commands find the number of the caller in their environment, and the server, the device and the call. Digits while nothing
    runs end nothing, and those of a caller who gave up are forgotten."""
    phone = Phone("number", 0, 5)
    note = 'echo "$AUDIOFILE_DIGITS $AUDIOFILE_DEVICE $AUDIOFILE_CALL $AUDIOFILE_SERVER" >> noted'
    with telephone(trial, phone) as server, HearingMachine(trial, server, 2, note, "true", "--rings=1", "--until=#", "--hang-up") as machine:
        hooks = ["onhook"]
        phone.say("loop on", "digit 9", "digit #", "loop off")
        for number in ("D5551C", "D77C#"):
            phone.say(*("digit " + digit for digit in number))
            rings(trial, phone, *hooks)
            hooks += ["offhook", "onhook"]
            trial.holds("the hook is put on: %s" % phone.hooks(), phone.is_handed(*hooks))
            phone.say("loop off")
        told(trial, machine, ["call 1 digits D5551C greeting 0 message 0", "call 2 digits D77C# greeting 0 message 0"],
             "answered 2 recorded 2 failed 0")
        noted = "D5551C 0 1 %s\nD77C# 0 2 %s\n" % (machine.address, machine.address)
        trial.holds("the environment: %s" % got(server, "noted"), got(server, "noted").decode() == noted)


def ignores_its_end(trial):
    """A command that takes no signal is ended all the same."""
    phone = Phone("deaf", 0, 5)
    deaf = 'trap "" TERM HUP INT; echo > ready; while :; do :; done'
    with telephone(trial, phone) as server, HearingMachine(trial, server, 1, deaf, MESSAGE, "--rings=1", "--hang-up") as machine:
        rings(trial, phone, "onhook")
        wait_for(lambda: os.path.exists(os.path.join(server.folder, "ready")))
        hangs_up(trial, phone, "onhook", "offhook")
        told(trial, machine, ["call 1 digits - greeting 137 message -"], "answered 1 recorded 0 failed 1")


def twenty_calls(trial):
    """Twenty callers who hang up in the greeting, one after another."""
    phone, hooks = Phone("twenty", 0, 5), ["onhook"]
    with telephone(trial, phone) as server, HearingMachine(trial, server, 20, LONG, MESSAGE, "--rings=1", "--hang-up") as machine:
        watcher = Watcher(server)
        for _ in range(20):
            rings(trial, phone, *hooks)
            hooks.append("offhook")
            hangs_up(trial, phone, *hooks)
            hooks.append("onhook")
        told(trial, machine, ["call %d digits - greeting 137 message -" % (call + 1) for call in range(20)],
             "answered 20 recorded 0 failed 20")
        calls = list(zip(watcher.times("HOOK", 1), watcher.times("HOOK", 0)))
        trial.holds("each call is told: %s" % calls, len(calls) == 20)


def script(trial, server, name, *words):
    """A script of examples/ at a server, with `af` in its path."""
    folder = os.path.join(server.folder, "path")
    os.makedirs(folder, exist_ok=True)
    if not os.path.exists(os.path.join(folder, "af")):
        os.symlink(trial.af, os.path.join(folder, "af"))
    environment = {**os.environ, "PATH": folder + os.pathsep + os.environ["PATH"]}
    return subprocess.Popen(
        [os.path.join(ROOT, "examples", name), server.address, *words], cwd=server.folder, env=environment,
        stdin=subprocess.DEVNULL, stdout=subprocess.PIPE, stderr=subprocess.PIPE)


def wave(samples):
    """A sound file of these samples, which are big-endian."""
    swapped = b"".join(samples[at:at + 2][::-1] for at in range(0, len(samples), 2))
    head = struct.pack("<4sI4s4sIHHIIHH4sI", b"RIFF", 36 + len(swapped), b"WAVE", b"fmt ", 16, 1, 1, RATE, 2 * RATE, 2, 16, b"data", len(swapped))
    return head + swapped


def samples_of(file):
    """The samples of a sound file, big-endian."""
    swapped = file[44:]
    return b"".join(swapped[at:at + 2][::-1] for at in range(0, len(swapped) - 1, 2))


def menu(trial):
    """A caller dials 1 and leaves a message, and the next one dials 2 and hears it. What each says and hears is compared by the
    sample."""
    phone = Phone("menu", 0, 5)
    with telephone(trial, phone) as server:
        # a caller may still dial in the silence at its end
        trial.file(server.folder, "menu.wav", wave(HELLO + bytes(2 * RATE * SILENT_END)))
        running = script(trial, server, "ivr.sh", ".", "2")
        time.sleep(1)
        hooks = ["onhook"]
        for choice in "12":
            for _ in range(2):
                phone.say("ring on", "ring off")
            trial.holds("the call is taken: %s" % phone.hooks(), phone.is_handed(*hooks, "offhook"))
            phone.say("loop on")
            hooks += ["offhook", "onhook"]
            time.sleep(0.7)
            phone.say("digit " + choice)
            if choice == "1":
                trial.holds("the message is recorded", wait_for(lambda: len(got(server, "last.wav")) > 2 * RATE))
            else:
                heard = samples_of(got(server, "last.wav"))[:RATE]
                trial.holds("the message is heard, sample by sample", wait_for(lambda: heard in got(server, "heard")))
            hangs_up(trial, phone, *hooks[:-1])
        said, errors = running.communicate(timeout=10)
        trial.holds("the script ends well: %s" % ((said, errors),), running.returncode == 0 and said.endswith(b"answered 2 recorded 0 failed 2\n"))
        trial.holds("the caller's words are in the file", samples_of(got(server, "last.wav"))[:RATE] in SPOKEN)


def voice_mail(trial):
    """A caller whose number is told leaves a message, and ends it by #. Its file has the date and the number in its name, and soxi
    reads how long it is."""
    phone = Phone("mail", 0, 5)
    with telephone(trial, phone) as server:
        trial.file(server.folder, "hello.wav", wave(HELLO))
        running = script(trial, server, "voicemail.sh", "mail", "hello.wav", "1")
        time.sleep(1)
        phone.say(*("digit " + digit for digit in "D5551C"))
        for _ in range(2):
            phone.say("ring on", "ring off")
        trial.holds("the call is taken: %s" % phone.hooks(), phone.is_handed("onhook", "offhook"))
        phone.say("loop on")
        time.sleep(0.5)
        phone.say("digit #")
        folder = os.path.join(server.folder, "mail")
        trial.holds("a message begins", wait_for(lambda: any(os.path.getsize(os.path.join(folder, it)) > 3 * RATE for it in os.listdir(folder))))
        phone.say("digit #")
        said, errors = running.communicate(timeout=10)
        trial.holds("the script ends well: %s" % ((said, errors),), running.returncode == 0 and said.endswith(b"answered 1 recorded 1 failed 0\n"))
        files = os.listdir(folder)
        trial.holds("the file has the number: %s" % files, len(files) == 1 and files[0].endswith("-5551.wav"))
        if shutil.which("soxi") and files:
            length = subprocess.run(["soxi", "-D", os.path.join(folder, files[0])], capture_output=True).stdout
            trial.holds("soxi reads it: %s" % length, 0.5 <= float(length or b"0") <= 30)
