"""Trials of tools/try-phone: the program for baresip, which another baresip calls over the loopback, alone and then before the
answering machine of a real server. Where baresip is not installed they are passed over. A script stands for baresip where it says
what no baresip should."""

import contextlib
import json
import os
import re
import shutil
import socket
import subprocess
import tempfile
import time

import sound_files
from cards import wait_for
from phone_alone import BEGINS, CONTRIB, FINDS, Line, callers, is_called, rings, run
from phone_calls import GREETING, MESSAGE, telephone
from phones import Machine, Watcher
from serving import free_port

BARESIP = os.path.join(CONTRIB, "audiofile-phone-baresip")
MODULES = ("/usr/lib/baresip/modules", "/usr/local/lib/baresip/modules")
# a baresip without a sound card: it says what a file has, and nobody hears what it is told
CONFIG = """
module_path {modules}
module g711.so
module aufile.so
module aubridge.so
module_app account.so
module_app menu.so
module_app ctrl_tcp.so
sip_listen 127.0.0.1:{sip}
ctrl_tcp_listen 127.0.0.1:{control}
call_max_calls 1
audio_source aufile,{folder}/said.wav
audio_player aubridge,nowhere
audio_alert aubridge,nowhere
"""

# what is no event, of which a caller's name could be a part; and what is one, but not as it should be
TEXTS = [
    b"", b"null", b"5", b"NaN", b"[1, 2]", b'"x"', b"9" * 5000, b"[" * 90000, b'{"a":' * 90000, b'{"type": "CALL_CLOSED"',
    b"\xff\xfe", b"\x1b]0;mine\x07" * 300, b'{"type": ["CALL_DTMF_START"], "param": {}}', b'{"type": "CALL_DTMF_START", "param": ["5"]}',
    b'{"type": "CALL_DTMF_START", "param": "\\ud800"}', b'{"type": "CALL_DTMF_START", "param": %s}' % (b"9" * 5000)]
CALLS = b'{"type": "CALL_INCOMING", "peerdisplayname": "\xff\x1b[2J\n\0"}'
CLOSES = b'{"type": "CALL_CLOSED"}'
# addresses of callers, with the numbers that are told. Of a long one the last twenty digits are
CALLERS = [
    ("sip:5551234@10.0.0.1:5060;transport=udp", "5551234"), ("sip:0@h", "0"), ("sip:+49-30-5551234@h", "49305551234"),
    ("sips:(030)555.1234;ext=5:secret@h?To=x%40y", "0305551234"), ("SIP:%2B49305551234:5@h", "49305551234"),
    ("tel:+1-212-5551234;phone-context=h", "12125551234"), ("sip:12345678901234567890@h", "12345678901234567890"),
    ("sip:x@5551234@h", ""), ("sip:98" + "12345678901234567890@h", "12345678901234567890"),
    ("sip:" + "5" * 90000 + "1@h", "5" * 19 + "1")]
# what is no number
NAMELESS = [
    "sip:alice@h", "sip:alice5@h", "sip:5551234x@h", "sip:anonymous@anonymous.invalid", "sip:5551234", "sip:10.0.0.1:5060",
    "sip:@h", "sip:;5551234@h", "sip:+@h", "sip:-@h", "sip:5+5@h", "sip:++5@h", "sip:*5#@h", "sip:D5C@h", "tel:", "tel:alice",
    "5551234", "5551234@h", "mailto:5551234@h", "", ":", "@", "sip:" + ";" * 90000 + "@h", "sip:" + "(" * 90000 + "5x@h",
    "sip:555\n1234@h", "sip:555%0a1234@h", "sip:5551234\x1b[2J@h", "sip:555\0@h", "sip:555\u0661@h", "sip:\uff15\u00b2@h",
    "sip:%ff\ud8005@h", "sip:5%@h", None, 5551234, 5.5, True, {}, ["sip:5551234@h"], {"sip:5551234@h": "sip:5551234@h"}]
# how often a hook is moved at once, and how many commands may come of that
HOOKS, MOST_COMMANDS = 6000, 20
# what no baresip says, and what is printed of it
OF_OTHERS = [
    (b"HTTP/1.1 400\r\n", b"HTTP/1.1 400\\x0d\\x0a"), (b"\x1b[2J:", b"\\x1b[2J:"), (b"1234567:", b"1234567:"), (b":", b":"),
    ("5\u202e".encode(), b"5\\u{202e}"), (b"x" * 4000, b"x" * 98 + b"..")]


def is_missing():
    """Whether there is no baresip, which is told then."""
    if shutil.which("baresip") and any(map(os.path.isdir, MODULES)):
        return False
    print("try-phone: there is no baresip, so its trials are passed over")
    return True


class Baresip:
    """A SIP telephone that does what it is told. Used with `with`, it is ended at the end."""

    def __init__(self, trial):
        folder = tempfile.mkdtemp(dir=trial.folder)
        self.sip, self.control = even_port(), free_port()
        modules = next(filter(os.path.isdir, MODULES))
        trial.file(folder, "config", CONFIG.format(modules=modules, sip=self.sip, control=self.control, folder=folder).encode())
        self.name = "sip:phone@127.0.0.1:%d" % self.sip
        trial.file(folder, "accounts", ("<%s>;regint=0\n" % self.name).encode())
        # it says silence, and hangs up at the end of that
        trial.file(folder, "said.wav", sound_files.wave(1, 16, bytes(60 * 16000)))
        self.address = "127.0.0.1:%d" % self.control
        self.process = subprocess.Popen(
            ["baresip", "-f", folder], cwd=folder, stdin=subprocess.DEVNULL, stdout=subprocess.DEVNULL, stderr=subprocess.DEVNULL)
        trial.holds("baresip runs", wait_for(self.connect))

    def __enter__(self):
        return self

    def __exit__(self, *_):
        self.process.kill()
        self.process.wait()

    def connect(self):
        try:
            socket.create_connection(("127.0.0.1", self.control)).close()
            return True
        except OSError:
            return False

    def tell(self, command, params=""):
        octets = json.dumps({"command": command, "params": params}).encode()
        with socket.create_connection(("127.0.0.1", self.control)) as link:
            link.sendall(netstring(octets))
            link.settimeout(5)
            # it answers once it has begun
            link.recv(4096)


def even_port():
    """A port of the loopback that is free, and the next one too, which baresip takes for its own."""
    while True:
        port = free_port()
        if port < 65535:
            with socket.socket() as following:
                if following.connect_ex(("127.0.0.1", port + 1)):
                    return port


def baresip(trial):
    """Calls over the loopback: what the line says."""
    if is_missing():
        return
    with Baresip(trial) as near, Baresip(trial) as far, Line(trial.folder, BARESIP, near.address) as line:
        line.hand("onhook")
        trial.holds("it begins without a call", line.says("ring off", "loop off"))
        far.tell("dial", near.name)
        trial.holds("a call rings for two seconds of six", line.says("ring on", "ring off", "ring on"))
        line.hand("offhook")
        trial.holds("until it is answered, and current flows", line.says("ring off", "loop on"))
        for digit in "5#":
            far.tell("sndcode", digit)
            trial.holds("a digit is said", line.says("digit " + digit))
        far.tell("hangup")
        trial.holds("a caller who hangs up is told", line.says("loop off"))
        far.tell("dial", near.name)
        time.sleep(1)
        trial.holds("a line that is off the hook is busy", line.says())
        line.hand("onhook")
        far.tell("dial", near.name)
        trial.holds("then it rings", line.says("ring on"))
        far.tell("hangup")
        trial.holds("a caller may give up", line.says("ring off"))
        far.tell("dial", near.name)
        line.says("ring on")
        line.hand("offhook")
        trial.holds("the next one is answered", line.says("ring off", "loop on"))
        line.hand("onhook")
        trial.holds("and hung up", line.says("loop off"))
        near.process.kill()
        ended = line.ended()
        trial.holds("a baresip that is gone ends it: %s" % (ended,), ended[0] == 1 and ended[1].count(b"\n") == 1)
    refused = (1, b"", ("audiofile-phone-baresip: %s: Connection refused\n" % near.address).encode())
    trial.holds("without a baresip it says so", run(trial.folder, BARESIP, near.address) == refused)
    trial.holds("an address has a port", run(trial.folder, BARESIP, "localhost")[0] == 2)


def baresip_texts(trial):
    """Texts that are no events, or bad ones, are skipped, and the next call rings. Of the skipped ones the first is printed."""
    with socket.create_server(("127.0.0.1", 0)) as server:
        address = "127.0.0.1:%d" % server.getsockname()[1]
        with Line(trial.folder, BARESIP, address) as line:
            link = server.accept()[0]
            line.hand("onhook")
            trial.holds("it begins without a call", line.says("ring off", "loop off"))
            for text in TEXTS:
                link.sendall(netstring(text) + netstring(CALLS))
                trial.holds("after %s a call rings" % text[:20], line.says("ring on"))
                link.sendall(netstring(b'{"type": "CALL_CLOSED"}'))
                trial.holds("and ends", line.says("ring off"))
            link.close()
            ended = line.ended()
            told = [b"audiofile-phone-baresip: skipped what is no event: ", b"audiofile-phone-baresip: %s: " % address.encode()]
            lines = ended[1].splitlines()
            is_so = ended[0] == 1 and len(lines) == 2 and all(map(bytes.startswith, lines, told))
            trial.holds("it tells the first one, and its end: %s" % ended[1], is_so)
        for said, shown in OF_OTHERS:
            with Line(trial.folder, BARESIP, address) as line:
                with server.accept()[0] as link:
                    link.sendall(said)
                    wanted = (1, b"audiofile-phone-baresip: %s: this is no baresip: it says %s\n" % (address.encode(), shown))
                    ended = line.ended()
                    trial.holds("what is no baresip is told: %s" % (ended,), ended == wanted)


def baresip_numbers(trial):
    """Who calls is told before the first ring, and not once more. What is no number is not told, nor who calls a busy line."""
    with socket.create_server(("127.0.0.1", 0)) as server:
        with Line(trial.folder, BARESIP, "127.0.0.1:%d" % server.getsockname()[1]) as line, server.accept()[0] as link:
            line.hand("onhook")
            trial.holds("it begins without a call", line.says("ring off", "loop off"))
            for address, number in [*CALLERS, *((it, "") for it in NAMELESS)]:
                link.sendall(calling(address))
                trial.holds("%s is told as %r" % (ascii(address)[:80], number), line.says(*rings(number)))
                link.sendall(netstring(CLOSES))
                trial.holds("and its end", line.says("ring off"))
            link.sendall(2 * calling("sip:5551234@h"))
            told = line.says(*rings("5551234"), "ring off", "ring on")
            trial.holds("the second ring comes without a number, and so does another call", told)
            line.hand("offhook")
            trial.holds("it is taken", line.says("ring off"))
            link.sendall(netstring(CLOSES) + calling("sip:5551234@h") + netstring(b'{"type": "CALL_DTMF_START", "param": "7"}'))
            trial.holds("a busy line does not tell who calls", line.says("digit 7"))


def calling(address):
    """What baresip says as this address calls."""
    return netstring(json.dumps({"type": "CALL_INCOMING", "peeruri": address, "param": address}).encode())


def baresip_callers(trial):
    """Clients of a real server are told who calls."""
    numbers = ["5551234", "", "49305551234", ""]
    with socket.create_server(("127.0.0.1", 0)) as stand_in:
        with callers(trial, "audiofile-phone-baresip 127.0.0.1:%d" % stand_in.getsockname()[1], *numbers):
            link = stand_in.accept()[0]
            asked = Asked(link)
            trial.holds("baresip hears that the hook is on", wait_for(lambda: asked.commands() == ["hangup"]))
            for address in ("sip:5551234@h", "sip:anonymous@anonymous.invalid", "sip:+49305551234@h", "sip:alice@h"):
                link.sendall(calling(address) + netstring(CLOSES))
        link.close()


def baresip_hooks(trial):
    """A hook that is moved faster than baresip follows: it is told the last place of the hook, and next to none before that."""
    with socket.create_server(("127.0.0.1", 0)) as server:
        with Line(trial.folder, BARESIP, "127.0.0.1:%d" % server.getsockname()[1]) as line, server.accept()[0] as link:
            line.hand("onhook")
            trial.holds("it begins without a call", line.says("ring off", "loop off"))
            link.sendall(netstring(CALLS))
            trial.holds("a call rings", line.says("ring on"))
            line.near.settimeout(20)
            line.near.sendall(b"offhook\nonhook\n" * (HOOKS // 2) + b"offhook\n")
            asked = Asked(link)
            wait_for(lambda: asked.commands()[-1:] == ["accept"], 10)
            # one more would be there by then
            time.sleep(1)
            told = "%d hooks are %d commands, the last is %s" % (HOOKS, len(asked.commands()), asked.commands()[-1:])
            trial.holds(told, asked.commands()[-1:] == ["accept"] and len(asked.commands()) <= MOST_COMMANDS)


class Asked:
    """What a link of a stand-in for baresip was asked to do."""

    def __init__(self, link):
        self.link, self.octets = link, b""
        link.setblocking(False)

    def commands(self):
        with contextlib.suppress(BlockingIOError):
            while piece := self.link.recv(65536):
                self.octets += piece
        return re.findall(r'"command": "(\w+)"', self.octets.decode())


def netstring(octets):
    return b"%d:%s," % (len(octets), octets)


def baresip_call(trial):
    """A baresip calls another one, and the answering machine of a real server answers by that."""
    if is_missing():
        return
    with Baresip(trial) as near, Baresip(trial) as far:
        phone = "phone 0 9 audiofile-phone-baresip %s" % near.address
        with telephone(trial, phone, FINDS) as server:
            watcher = Watcher(server)
            # the program says so as it begins, and maybe before anybody was told
            wait_for(lambda: BEGINS in watcher.told(), 3)
            with Machine(trial, server, 1, GREETING, MESSAGE) as machine:
                far.tell("dial", near.name)
                is_called(trial, server, watcher, machine)
