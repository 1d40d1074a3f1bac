"""Trials of tools/try-phone: the program for a modem, over a terminal that speaks as a modem does, alone and then before the
answering machine of a real server."""

import os
import termios
import time

from cards import wait_for
from phone_alone import CONTRIB, FINDS, Line, Pty, callers, is_called, rings, run
from phone_calls import GREETING, MESSAGE, telephone
from phones import LATE, Machine, Watcher

MODEM = os.path.join(CONTRIB, "audiofile-phone-modem")
SETUP = "ATE0Q0V1&C1&D2S0=0"
CALLER_ID = "AT+VCID=1"
# for how many seconds the first ring waits for a number, and for how many one that comes before it is kept
WAITS, KEPT = 5, 8
# what a modem says of callers, with the numbers that are told. Of a long one the last twenty digits are
NUMBERS = [
    (b"NMBR = 5551234", "5551234"), (b"NMBR=5551234", "5551234"), (b"NMBR =  0 ", "0"),
    (b"NMBR = +49 (30) 555-12.34", "49305551234"), (b"NMBR = 12345678901234567890", "12345678901234567890"),
    (b"NMBR = 98" + 2 * b"12345678901234567890", "12345678901234567890"), (b"NMBR = " + 400 * b"1234567890", 2 * "1234567890"),
    (b"DATE = 0401\r\n\r\nTIME = 1843\r\n\nNMBR = 7\r\nNAME = 5 DOE", "7")]
# what is no number
WITHHELD = [
    b"NMBR = P", b"NMBR=O", b"NMBR = ", b"NMBR =", b"NMBR = +", b"NMBR = -", b"NMBR = 5+5", b"NMBR = ++5", b"NMBR = *21#",
    b"NMBR = D5C", b"NMBR = 5551234 x", b"NMBR = 5551234 = 5", b"NMBR = 555\xff1234", b"NMBR = \xff", b"NMBR = \x1b[2J5551234",
    b"NMBR = 5551234\x1b[0m", b"NMBR = 555\x001234", b"NMBR = 5551234\x9b", b"NMBR = 555\t1234",
    "NMBR = \uff15\u0661".encode(), b"NMBR = 5" + 5000 * b"x"]
# how often a hook is moved at once, how many commands may come of that, and after how many seconds there are no more
HOOKS, MOST_COMMANDS, MOST_SECONDS = 6000, 20, 3
# what a modem may say, and what is printed of it
RAW = [
    ("\x1b]0;mine\x07 \x9b31m \u202e\u2066\ufeff\u061c\u180e \u00e9".encode(),
     "\\x1b]0;mine\\x07 \\u{9b}31m \\u{202e}\\u{2066}\\u{feff}\\u{61c}\\u{180e} \u00e9"),
    (b"\x9b2J \xff", "\\x9b2J \\xff")]


class FakeModem(Pty):
    """A modem: it notes each command and answers it, by `answers` or else with OK. Until told not to, it echoes what it reads."""

    def __init__(self, answers=()):
        self.commands, self.rest, self.answers, self.echoes = [], b"", {"": None, **dict(answers)}, True
        super().__init__()

    def see(self, octets):
        if self.echoes:
            self.say(octets)
        *lines, self.rest = (self.rest + octets).split(b"\r")
        for command in (line.decode() for line in lines):
            self.commands.append(command)
            self.echoes = self.echoes and "E0" not in command
            answer = self.answers.get(command[2:4], "OK")
            if answer:
                self.tell(answer)

    def say(self, octets):
        os.write(self.master, octets)

    def tell(self, text):
        self.say(b"\r\n%s\r\n" % (text if isinstance(text, bytes) else text.encode()))

    def gets(self, *commands, seconds=20):
        """Waits for so many commands. Whether these came and no more since it was asked last."""
        wait_for(lambda: len(self.commands) >= len(commands), seconds)
        got, self.commands = self.commands, []
        return got == list(commands)


def modem(trial):
    """Calls by a modem: what it is told, and what the line says."""
    with FakeModem() as device, Line(trial.folder, MODEM, device.path, "--setup=AT+FCLASS=8") as line:
        line.hand("onhook")
        trial.holds("it begins without a call", line.says("ring off", "loop off"))
        trial.holds("the modem is set up, and hangs up", device.gets(SETUP, "AT+FCLASS=8", "ATH"))
        mode = device.mode()
        trial.holds("the serial line is raw, at its speed", mode[3] & (termios.ICANON | termios.ECHO) == 0 and mode[4] == termios.B115200)
        for _ in range(2):
            device.tell("RING")
            trial.holds("a ring is said", line.says("ring on"))
        line.hand("offhook")
        trial.holds("a call is answered", device.gets("ATA") and line.says("ring off", "loop on"))
        for octets in (b"\x10/\x105\x105\x10~", b"\x10/\x105", b"\x10~\x10", b"#", b"\r\nNO\r\n\x10\x10\x10s"):
            device.say(octets)
        trial.holds("digits are said once", line.says("digit 5", "digit 5", "digit #"))
        device.tell("NO CARRIER")
        trial.holds("a caller who hangs up is told", line.says("loop off"))
        line.hand("onhook")
        trial.holds("then the modem hangs up", device.gets("ATH") and line.says())
        device.tell("RING")
        device.tell("NO CARRIER")
        trial.holds("a caller may give up", line.says("ring on", "ring off"))
        line.hand("offhook")
        trial.holds("without a call the line is taken too", device.gets("ATH1") and line.says("loop on"))
        line.hand("onhook")
        trial.holds("and let go", device.gets("ATH") and line.says("loop off"))
        line.hand("offhook")
        trial.holds("once more", device.gets("ATH1") and line.says("loop on"))
        trial.holds("it ends with the server, and says nothing", line.close() == (0, b""))
        trial.holds("and hangs up", device.gets("ATH"))


def modem_numbers(trial):
    """A modem that tells numbers: who calls is told before the first ring. What is no number is not told."""
    with FakeModem() as device, Line(trial.folder, MODEM, device.path, "--caller-id", "--setup=ATZ") as line:
        line.hand("onhook")
        trial.holds("it begins without a call", line.says("ring off", "loop off"))
        trial.holds("the modem is told last to tell numbers", device.gets(SETUP, "ATZ", CALLER_ID, "ATH"))
        for said, number in [*NUMBERS, *((it, "") for it in WITHHELD)]:
            device.tell("RING")
            device.tell(said)
            trial.holds("%s is told as %r" % (said[:40], number), line.says(*rings(number)))
            device.tell(b"NMBR = 9")
            device.tell("RING")
            trial.holds("the second ring comes without one", line.says("ring on"))
            device.tell("NO CARRIER")
            trial.holds("and the end", line.says("ring off"))
        trial.holds("nothing else is asked of the modem", device.commands == [])


def modem_without_numbers(trial):
    """Without the option nobody is told who calls, and no ring waits. With it the modem has to know the command."""
    with FakeModem() as device, Line(trial.folder, MODEM, device.path) as line:
        line.hand("onhook")
        trial.holds("it begins without a call", line.says("ring off", "loop off"))
        trial.holds("the modem is not told to tell numbers", device.gets(SETUP, "ATH"))
        begun = time.monotonic()
        device.tell("RING")
        told = line.says("ring on")
        passed = time.monotonic() - begun
        trial.holds("the first ring does not wait: %.3f s" % passed, told and passed < WAITS - 1)
        device.tell("NMBR = 5551234")
        device.tell("RING")
        trial.holds("a number is skipped", line.says("ring on"))
        device.tell("NO CARRIER")
        trial.holds("the caller gives up", line.says("ring off"))
        device.tell("NMBR = 5551234")
        device.tell("RING")
        trial.holds("also one before the first ring", line.says("ring on"))
        trial.holds("nothing else is asked of the modem", device.commands == [])
    with FakeModem({"+V": "ERROR"}) as device, Line(trial.folder, MODEM, device.path, "--caller-id") as line:
        line.hand("onhook")
        wanted = "audiofile-phone-modem: %s: the modem answers ERROR to %s\n" % (device.path, CALLER_ID)
        ended = line.ended()
        trial.holds("a modem that cannot tell numbers ends it: %s" % (ended,), ended == (1, wanted.encode()))


def modem_holds(trial):
    """The first ring waits for a number for five seconds, until the second one, or until the caller is gone or is answered."""
    with FakeModem() as device, Line(trial.folder, MODEM, device.path, "--caller-id") as line:
        line.hand("onhook")
        trial.holds("it is set up", line.says("ring off", "loop off") and device.gets(SETUP, CALLER_ID, "ATH"))
        begun = time.monotonic()
        device.tell("RING")
        told = line.says("ring on")
        passed = time.monotonic() - begun
        trial.holds("it waits for five seconds: %.3f s" % passed, told and WAITS - 0.5 <= passed <= WAITS + LATE)
        device.say(b"\r\nNMBR = 5551234\r\nRING\r\nNO CARRIER\r\n")
        trial.holds("a number is too late then", line.says("ring on", "ring off"))
        device.say(b"\r\nRING\r\nRING\r\nNMBR = 5551234\r\nNO CARRIER\r\n")
        trial.holds("both are told at the second ring", line.says("ring on", "ring on", "ring off"))
        device.say(b"\r\nRING\r\nBUSY\r\n")
        trial.holds("a caller who is gone has rung", line.says("ring on", "ring off"))
        is_noted(trial, device, line, b"RING")
        line.hand("offhook")
        trial.holds("a ring that waits is answered, and not told", device.gets("ATA") and line.says("loop on"))
        is_noted(trial, device, line, b"NMBR = 5551234")
        line.hand("onhook")
        trial.holds("the modem hangs up", device.gets("ATH") and line.says("loop off"))
        device.say(b"\r\nRING\r\nNMBR = P\r\nNO CARRIER\r\n")
        trial.holds("a number that came in the call is not told", line.says("ring on", "ring off"))


def modem_early(trial):
    """Some exchanges tell the number before the first ring. It is kept for eight seconds, and then that ring waits for nothing."""
    with FakeModem() as device, Line(trial.folder, MODEM, device.path, "--caller-id") as line:
        line.hand("onhook")
        trial.holds("it is set up", line.says("ring off", "loop off") and device.gets(SETUP, CALLER_ID, "ATH"))
        device.say(b"\r\nNMBR = 5551234\r\nRING\r\nNO CARRIER\r\n")
        trial.holds("a number may come before the ring", line.says(*rings("5551234"), "ring off"))
        device.say(b"\r\nNMBR = P\r\nRING\r\nNO CARRIER\r\n")
        trial.holds("and that there is none", line.says("ring on", "ring off"))
        device.say(b"\r\nNMBR = 5551234\r\nNO CARRIER\r\nRING\r\nNMBR = 7\r\nNO CARRIER\r\n")
        trial.holds("it is that of one call", line.says(*rings("7"), "ring off"))
        is_noted(trial, device, line, b"NMBR = 5551234")
        line.hand("offhook")
        trial.holds("a hook that moves", device.gets("ATH1") and line.says("loop on"))
        line.hand("onhook")
        trial.holds("and moves back", device.gets("ATH") and line.says("loop off"))
        device.say(b"\r\nRING\r\nNMBR = O\r\nNO CARRIER\r\n")
        trial.holds("ends it", line.says("ring on", "ring off"))
        is_noted(trial, device, line, b"NMBR = 5551234")
        time.sleep(KEPT + 0.1)
        device.say(b"\r\nRING\r\nNMBR = O\r\n")
        trial.holds("and so do eight seconds", line.says("ring on"))
        trial.holds("it ends with the server", line.close() == (0, b""))


def is_noted(trial, device, line, said):
    """Has the program take a line, after which nothing but a digit is said."""
    device.say(b"\r\n%s\r\n\x105" % said)
    trial.holds("%s is taken" % said, line.says("digit 5"))


def modem_callers(trial):
    """Clients of a real server are told who calls."""
    numbers = ["5551234", "", "49305551234", ""]
    with FakeModem() as device, callers(trial, "audiofile-phone-modem %s --caller-id" % device.path, *numbers):
        trial.holds("the modem is set up", device.gets(SETUP, CALLER_ID, "ATH"))
        for said in (b"5551234", b"P", b"+49305551234", b"\x1b[2J5551234"):
            device.say(b"\r\nRING\r\nNMBR = %s\r\nNO CARRIER\r\n" % said)


def modem_waits(trial):
    """A modem says of a ring only that it is one: the line rings no more after eight seconds. A hook that is put on again does
    not wait for the answer to the last one."""
    with FakeModem({"A": None}) as device, Line(trial.folder, MODEM, device.path) as line:
        line.hand("onhook")
        trial.holds("it is set up", line.says("ring off", "loop off") and device.gets(SETUP, "ATH"))
        device.tell("RING")
        wait_for(lambda: len(line.said) == 2, 8 + LATE)
        passed = line.said[-1][1] - line.said[0][1]
        trial.holds("it rings eight seconds: %.3f s" % passed, line.says("ring on", "ring off") and 7.5 <= passed <= 8 + LATE)
        device.tell("RING")
        line.says("ring on")
        line.hand("offhook")
        trial.holds("it tries to answer", device.gets("ATA") and line.says("ring off"))
        line.hand("onhook")
        trial.holds("a byte ends the try", device.gets(""))
        device.tell("NO CARRIER")
        trial.holds("and the modem hangs up", device.gets("ATH") and line.says("loop off"))
        device.answers["H1"] = "ERROR"
        line.hand("offhook")
        trial.holds("a line that is not had is without current", device.gets("ATH1") and line.says("loop off"))


def modem_hooks(trial):
    """A hook that is moved faster than a modem follows: it is told the last place of the hook, and next to none before that."""
    with FakeModem() as device, Line(trial.folder, MODEM, device.path) as line:
        line.hand("onhook")
        trial.holds("it is set up", line.says("ring off", "loop off") and device.gets(SETUP, "ATH"))
        line.near.settimeout(20)
        line.near.sendall(b"offhook\nonhook\n" * (HOOKS // 2) + b"offhook\n")
        time.sleep(MOST_SECONDS)
        commands = list(device.commands)
        told = "%d hooks are %d commands in %d s, the last is %s" % (HOOKS, len(commands), MOST_SECONDS, commands[-1:])
        trial.holds(told, commands[-1:] == ["ATH1"] and len(commands) <= MOST_COMMANDS)
        trial.holds("the line has current: %s" % line.said[-1:], [it for it, _ in line.said[-1:]] == ["loop on"])
        time.sleep(1)
        trial.holds("and no more comes", device.commands == commands)
        trial.holds("it ends with the server", line.close() == (0, b""))


def modem_prints(trial):
    """What a modem says is printed in one line that a terminal only shows, and of a long one no more than its beginning."""
    for said, shown in [*RAW, (b"x" * 4000, "x" * 86 + ".."), (b"\x1b" * 300, None)]:
        with FakeModem({"E0": b"+CME ERROR: " + said}) as device, Line(trial.folder, MODEM, device.path) as line:
            line.hand("onhook")
            status, told = line.ended()
            before = ("audiofile-phone-modem: %s: the modem answers " % device.path).encode()
            answer = told.removeprefix(before).removesuffix(b" to %s\n" % SETUP.encode()).decode()
            trial.holds("it ends, and prints one line: %s" % ascii(told), status == 1 and told.startswith(before))
            fits = answer == "+CME ERROR: " + shown if shown else len(answer) <= 100
            trial.holds("what is printed is shown: %s" % ascii(answer), fits and answer.isprintable())


def modem_faults(trial):
    """A modem that is of no use ends the program, with one line that says why. The server starts it again."""
    def ends(what, answers, words, told, disturbs=lambda device, line: None):
        with FakeModem(answers) as device, Line(trial.folder, MODEM, device.path, *words) as line:
            line.hand("onhook")
            disturbs(device, line)
            wanted = ("audiofile-phone-modem: %s: %s\n" % (device.path, told)).encode()
            ended = line.ended()
            trial.holds("%s: %s" % (what, ended), ended == (1, wanted))

    def connects(device, line):
        device.gets(SETUP, "ATH")
        device.tell("RING")
        wait_for(lambda: "ring on" in [it for it, _ in line.said])
        line.hand("offhook")

    ends("no setup", {"E0": "ERROR"}, [], "the modem answers ERROR to " + SETUP)
    ends("no voice class", {"+F": "ERROR"}, ["--setup=AT+FCLASS=8"], "the modem answers ERROR to AT+FCLASS=8")
    ends("no answer", {"E0": None}, [], "the modem does not answer to " + SETUP)
    data = "the modem has answered for data: give it --answer=ATH1, or its voice class by --setup"
    ends("a modem for data", {"A": "CONNECT 9600"}, [], data, connects)
    missing = (1, b"", b"audiofile-phone-modem: no/modem: No such file or directory\n")
    trial.holds("no device", run(trial.folder, MODEM, "no/modem") == missing)
    trial.file(trial.folder, "file", b"")
    ended = run(trial.folder, MODEM, "file")
    trial.holds("no serial device: %s" % (ended,), ended == (1, b"", b"audiofile-phone-modem: file: Inappropriate ioctl for device\n"))
    for words in ([], ["no/modem", "--speed=12345"], ["no/modem", "--baud=300"]):
        ended = run(trial.folder, MODEM, *words)
        trial.holds("%s is no use of it: %s" % (words, ended), ended[0] == 2 and ended[2].startswith(b"usage: audiofile-phone-modem"))
    with FakeModem() as device, Line(trial.folder, MODEM, device.path) as line:
        line.hand("onhook")
        trial.holds("it is set up", device.gets(SETUP, "ATH"))
        device.close()
        ended = line.ended()
        trial.holds("a modem that is unplugged ends it: %s" % (ended,), ended[0] == 1 and ended[1].count(b"\n") == 1)


def modem_call(trial):
    """A modem rings, and the answering machine of a real server answers by it."""
    with FakeModem() as device:
        phone = "phone 0 9 audiofile-phone-modem %s" % device.path
        with telephone(trial, phone, FINDS) as server, Machine(trial, server, 1, GREETING, MESSAGE) as machine:
            trial.holds("the modem is set up", device.gets(SETUP, "ATH"))
            watcher = Watcher(server)
            device.tell("RING")
            time.sleep(1)
            trial.holds("at the first ring nobody takes the call", device.commands == [])
            device.tell("RING")
            trial.holds("at the second one the modem takes it, and then hangs up", device.gets("ATA", "ATH"))
            is_called(trial, server, watcher, machine)
