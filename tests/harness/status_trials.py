"""What the page of contrib/audiofile-status answers to programs: what it shows of a server, the stream, and what is bad."""

import contextlib
import http.client
import os
import random
import re
import socket
import struct
import subprocess
import sys
import tempfile
import time

from cards import LOGGED, audiofile, wait_for
from serving import Tap, free_port
from status_page import ANSWERS, PROGRAM, RATE, Liar, Page, Returned
from wire import ClientSide

import audiofile_watch

# a device with a line and silence, and one of two channels whose input is a file
DEVICES = ["device mu255 8000 4294960000 line silent", "device lin16 8000 7 stereo files in /dev/null"]
# what a watch may ask for
READS = {"setup", "CreateAC", "GetTime", "Record", "QueryControls", "QueryPhone"}
# what the file of the second device has, left and right, and for how many seconds
LOUD, QUIET, SECONDS = 12345, -678, 40
# the reply to a setup with one device of lin16, 8000 frames a second and one channel
SETUP = bytes.fromhex("01000000 00000005 00010000 00000001 02010000 00001f40 00007d00")
SILENT_CONNECTIONS = 150
SAMPLE = re.compile(r'audiofile_(\w+)\{((?:[a-z_]+="(?:[^"\\\n]|\\[\\"n])*",?)*)\} (-?\d+\.\d+(?:e[+-]\d+)?)')


def folder_with(trial, name, octets):
    folder = tempfile.mkdtemp(dir=trial.folder)
    trial.file(folder, name, octets)
    return folder


def steady():
    """Frames of two channels with the same peaks at each moment."""
    return struct.pack(">4h", LOUD, QUIET, -LOUD, -QUIET) * (RATE * SECONDS // 2)


def shown(trial):
    """Each field of a server whose devices are known, and no request but those that read."""
    server = trial.serve(*DEVICES, folder=folder_with(trial, "in", steady()))
    tap = Tap(server.address)
    with server, Page(tap.address) as page, audiofile.connect(server.address, timeout=20) as client:
        client.set_controls(0, input_on=False, output_gain=-12)
        client.hook(0, True)
        is_off = page.becomes(lambda it: it["is_up"] and it["devices"][0]["line"]["given_off"])
        trial.holds("the hook is shown", is_off)
        loud = page.becomes(lambda it: it["devices"][1]["captured"]["peaks"] == [LOUD, -QUIET])
        trial.holds("peaks are those of the file", loud)
        found = page.servers()[0]
        for device, wanted in zip(found["devices"], client.devices):
            trial.holds("the setup of %s" % wanted.number, {name: device[name] for name in wanted._fields} == wanted._asdict())
            passed = audiofile.difference(client.time(wanted), device["time"])
            trial.holds("the time of device %d: %d" % (wanted.number, passed), 0 <= passed < 10 * RATE)
            trial.holds("controls", device["controls"] == client.controls(wanted)._asdict())
        first, second = found["devices"]
        trial.holds("controls that were set", first["controls"]["output_gain"] == -12 and not first["controls"]["input_on"])
        trial.holds("lines: %s" % first["line"], first["line"] == client.phone(0)._asdict() and second["line"] is None)
        trial.holds("silence", first["captured"] == {"peaks": [0], "peaks_of_minute": [0]})
        trial.holds("no log", (found["journal"], first["lost"], first["failed"]) == (None, None, None))
        trial.holds("its address", (found["address"], found["reason"], found["times_gone"]) == (tap.address, None, 0))
        trial.holds("health", page.ask("/healthz")[::2] == (200, b"ok\n"))
        metrics(trial, page, tap.address)
        trial.holds("the page ends, and says nothing", page.ended())
        trial.ends(server)
    asked = {item.name for item in ClientSide().feed(tap.noted)} - {"after"}
    trial.holds("it only reads: %s" % sorted(asked), asked <= READS)


def metrics(trial, page, address):
    """Each line is of the format, each family has its help and its type before it, and figures are those of the server."""
    status, header, body = page.ask("/metrics")
    trial.holds("the type of metrics", (status, header["Content-Type"]) == (200, "text/plain; version=0.0.4; charset=utf-8"))
    rows, kinds, before = {}, {}, None
    for line in body.decode().splitlines():
        stated = re.fullmatch(r"# (HELP|TYPE) audiofile_(\w+) (.+)", line)
        sample = SAMPLE.fullmatch(line)
        trial.holds("a line of metrics: %s" % line, bool(stated) != bool(sample))
        if stated and stated[1] == "TYPE":
            trial.holds("%s has one type" % stated[2], stated[2] not in kinds and stated[3] in ("gauge", "counter"))
            kinds[stated[2]] = before = stated[3]
        elif sample:
            trial.holds("%s has its type before it" % sample[1], list(kinds)[-1:] == [sample[1]])
            trial.holds("only counters are totals: %s" % sample[1], (before == "counter") == sample[1].endswith("_total"))
            labels = frozenset(re.findall(r'([a-z_]+)="([^"]*)"', sample[2]))
            trial.holds("each row once: %s" % line, (sample[1], labels) not in rows)
            rows[sample[1], labels] = float(sample[3])

    def row(name, **labels):
        return rows.get((name, frozenset({"server": address, **labels}.items())))

    wanted = {
        ("up",): 1, ("device_info", ("device", "1"), ("type", "lin16"), ("rate", "8000"), ("channels", "2")): 1,
        ("captured_peak", ("device", "1"), ("channel", "0")): LOUD, ("captured_peak", ("device", "1"), ("channel", "1")): -QUIET,
        ("output_gain_decibels", ("device", "0")): -12, ("input_on", ("device", "0")): 0, ("line_given_off", ("device", "0")): 1}
    for (name, *labels), value in wanted.items():
        found = row(name, **dict(labels))
        trial.holds("%s%s is %s" % (name, labels, found), found == value)


def told_by_a_log(trial):
    """What the lines of a server's log say, as the server writes them and as a journal has them."""
    server = trial.serve(DEVICES[0], before=LOGGED)
    path = os.path.join(trial.folder, "log")
    before = "Nov 30 19:41:58 host afd[99]: "
    lines = [
        "afd: connection 7 from 192.0.2.1:5000", "afd: listening at 127.0.0.1:1701", "afd: connection 1 from 192.0.2.1:5001",
        "<6>afd: connection 2 from <script>alert(1)</script>", "<6>afd: connection 1 closed: the client closed its connection",
        "<4>afd: device 0: its program had no room, and 800 frames were lost", "afd: 3 turned away: all 32 connections are in use",
        before + "afd: device 0: its program had no room, and 25 frames were lost", "afd: 12 lines left out",
        "device 0: 5 frames were lost", "afd: device 9: its program had no room, and 3 frames were lost", "\xff" * 9000]
    with server, open(path, "w", encoding="latin-1") as file, Page(server.address, journal=[path]) as page:
        file.write("".join(line + "\n" for line in lines))
        file.flush()
        has_read = page.becomes(lambda it: it["is_up"] and it["journal"]["lines_left_out"] == 12)
        trial.holds("a log is read on", has_read)
        journal, device = page.servers()[0]["journal"], page.servers()[0]["devices"][0]
        peers = [{"number": 2, "peer": "<script>alert(1)</script>"}]
        trial.holds("connections: %s" % journal, journal["connections"] == peers and journal["turned_away"] == 3)
        trial.holds("lost sound: %s" % device["lost"], device["lost"] == {"frames": 825, "times": 2} and device["failed"] is None)
        body = page.ask("/metrics")[2].decode()
        trial.holds("metrics of it", 'audiofile_lost_frames_total{server="%s",device="0"} 825.0\n' % server.address in body)
        file.write("afd: device 0 failed and is silent from now on: Input/output error\n")
        file.flush()
        is_failed = page.becomes(lambda it: (it["devices"][0]["failed"] or "").startswith("is silent from now on"))
        trial.holds("a device that failed", is_failed)
        trial.ends(server, is_logged=True)


def comes_back(trial):
    """A server that ends is gone, and is there again once another one has its address. Nothing of its devices is in metrics."""
    server = trial.serve(DEVICES[0])
    with server, Page(server.address, "127.0.0.1:%d" % free_port()) as page:
        trial.holds("it is there", page.is_up())
        trial.holds("one that never was is gone", page.servers()[1]["reason"] == "connection refused")
        server.end()
        trial.holds("it is gone", page.becomes(lambda it: not it["is_up"]))
        found = page.servers()[0]
        trial.holds("its devices are known: %s" % found["reason"], len(found["devices"]) == 1 and found["times_gone"] == 1)
        status, _, body = page.ask("/healthz")
        trial.holds("health: %s" % body, status == 503 and body.startswith(server.address.encode() + b" is gone: "))
        body = page.ask("/metrics")[2].decode()
        trial.holds("metrics: gone", 'audiofile_up{server="%s"} 0.0\n' % server.address in body and "device_time" not in body)
        status, _, body = page.ask("/listen/0.wav")
        trial.holds("nobody listens to it: %d %s" % (status, body), status == 503)
        with Returned(trial.afd, server.folder, [DEVICES[0], DEVICES[0]], server.address):
            trial.holds("it is back", page.becomes(lambda it: it["is_up"] and len(it["devices"]) == 2))
            trial.holds("with a time of its own", page.servers()[0]["times_gone"] == 1)
        trial.holds("the page ends, and says nothing", page.ended())


def event(number, _):
    return bytes.fromhex("0208") + number.to_bytes(2, "big") + bytes.fromhex("00000003 00000000 00000000 00000000")


def back_in_time(number, opcode):
    """Answers all, with a time that goes back by a frame with each."""
    body = {2: struct.pack(">I", 1000 - number), 3: b"", 7: struct.pack(">II", 1000 - number, 0), 10: bytes.fromhex("01010000 00000000")}
    return struct.pack(">BBHI", 1, opcode, number, len(body[opcode]) // 4) + body[opcode]


def liars(trial):
    """Servers that lie are gone, with a reason, and harm nobody."""
    lies = {
        "it ended the connection, or": Liar(is_short=True), "it is no AudioFile server: it sent no message: 485454": Liar(b"HTTP/1.1 400\r\n\r\n"),
        "it does not answer": Liar(), "it sent no message: ffffff": Liar(SETUP, lambda *_: b"\xff" * 4096),
        "does not answer": Liar(SETUP), "answer": Liar(SETUP, event, True),
        "a time that goes back": Liar(SETUP, back_in_time), "no message: 01ff": Liar(b"\1\xff" * 4000)}
    with Page(*(each.address for each in lies.values())) as page:
        for number, wanted in enumerate(lies):
            reason = page.becomes(lambda it: not it["is_up"] and wanted in (it["reason"] or ""), number, seconds=12)
            trial.holds("%s: %s" % (wanted, page.servers()[number]["reason"]), reason)
        begun = time.monotonic()
        status = page.ask("/healthz")[0]
        trial.holds("it answers meanwhile: %d" % status, status == 503 and time.monotonic() - begun < 3)
        with open("/proc/%d/status" % page.process.pid) as file:
            peak = int(re.search(r"VmHWM:\s*(\d+) kB", file.read())[1]) // 1024
        trial.holds("lies take no memory: %d megabytes" % peak, peak < 300)
        trial.holds("the page ends, and says nothing", page.ended())


def bad_requests(trial):
    """What is no request, or asks for something else, is answered by an error, and the connection ends."""
    get = b"GET / HTTP/1.1\r\nHost: localhost\r\n"
    rows = (
        (400, b"\r\n\r\n"), (400, b"GET\r\n\r\n"), (400, b"\0\1\2\xff\r\n\r\n"), (400, b"GET / HTTP/1.1\r\n\r\n"), (400, get + b"x\r\n\r\n"),
        (400, get + b"Host: localhost\r\n\r\n"), (400, get + b"Content-Length: 5\r\n\r\nhello"),
        (400, get + b"Transfer-Encoding: chunked\r\n\r\n0\r\n\r\n"), (505, b"GET / HTTP/2.0\r\n\r\n"), (400, b"AFB\0\0\1\0\0\r\n\r\n"),
        (403, b"GET / HTTP/1.1\r\nHost: example.org\r\n\r\n"), (403, b"GET / HTTP/1.1\r\nHost: localhost.example.org:80\r\n\r\n"),
        (431, b"GET /" + b"a" * 20000), (431, get + b"X: " + b"a" * 9000 + b"\r\n\r\n"), (405, b"FETCH / HTTP/1.0\r\n\r\n"),
        *((405, each + b" / HTTP/1.1\r\nHost: localhost\r\nContent-Length: 2\r\n\r\nab") for each in (b"POST", b"PUT", b"DELETE")),
        *((404, b"GET " + path + b" HTTP/1.0\r\n\r\n") for path in (
            b"/..", b"/../../etc/passwd", b"/%2e%2e/x", b"//", b"*", b"/listen/", b"/listen/9.wav", b"/listen/-1.wav", b"/listen/1/0.wav",
            b"/listen/0.wav/", b"/listen/00000000000000000000.wav", b"http://localhost/", b"/audiofile-status.html", b"/\xff")))
    server = trial.serve(DEVICES[0])
    with server, Page(server.address) as page:
        trial.holds("it is there", page.is_up())
        for wanted, octets in rows:
            said = page.raw(octets)
            trial.holds("%d to %r: %r" % (wanted, octets[:60], said[:60]), said.startswith(b"HTTP/1.1 %d " % wanted))
            trial.holds("one answer to %r" % octets[:60], said.count(b"HTTP/1.1 ") == 1 and b"Traceback" not in said)
        trial.holds("405 says what is allowed", page.ask("/", "PUT")[1]["Allow"] == "GET, HEAD")
        for path in ("/", "/status.json", "/metrics", "/healthz", "/nothing", "/listen/0.wav", "/listen/5.wav"):
            _, header, body = page.ask(path, "HEAD")
            trial.holds("HEAD of %s has no body" % path, body == b"" and header["X-Content-Type-Options"] == "nosniff")
        kept = page.raw(get + b"\r\nGET /healthz?x=1 HTTP/1.1\r\nHost: [::1]:80\r\nConnection: close\r\n\r\n")
        trial.holds("a connection is kept", kept.count(b"HTTP/1.1 200 OK") == 2 and kept.endswith(b"\r\n\r\nok\n"))
        policy = page.ask("/")[1]["Content-Security-Policy"]
        trial.holds("only the page's own script runs", "'none'" in policy and "sha256-" in policy and "unsafe" not in policy)
        trial.holds("the page ends, and says nothing", page.ended())
        trial.ends(server)


def silent_connections(trial):
    """A hundred and more connections that say nothing, or half of something, keep nobody out, and are ended."""
    server = trial.serve(DEVICES[0])
    with server, Page(server.address) as page, contextlib.ExitStack() as links:
        trial.holds("it is there", page.is_up())
        silent = [links.enter_context(socket.create_connection(page.place, ANSWERS)) for _ in range(SILENT_CONNECTIONS)]
        for link in silent[::3]:
            with contextlib.suppress(ConnectionError):
                link.sendall(b"GET / HTTP/1.1\r\nHo")
        for _ in range(5):
            begun = time.monotonic()
            answered = page.ask("/healthz")[0]
            trial.holds("the page answers beside them", answered == 200 and time.monotonic() - begun < 3)
        stops = time.monotonic() + 14
        ended = 0
        for link in silent:
            link.settimeout(max(0.1, stops - time.monotonic()))
            said = None
            with contextlib.suppress(socket.timeout):
                try:
                    said = link.recv(65536)
                except ConnectionError:
                    said = b""
            ended += said is not None and (said == b"" or said.startswith(b"HTTP/1.1 408 "))
        trial.holds("each is ended: %d" % ended, ended == SILENT_CONNECTIONS)
        trial.holds("the page ends, and says nothing", page.ended())
        trial.ends(server)


def streamed(page, path, size):
    """The header of a stream, and so many bytes of it."""
    link = http.client.HTTPConnection(*page.place, timeout=ANSWERS)
    with contextlib.closing(link):
        link.request("GET", path)
        answer = link.getresponse()
        return answer.status, answer.headers["Content-Type"], answer.read(size)


def streams(trial):
    """What is heard of a device is what it captures, sample by sample, from one moment on."""
    noise = random.Random(5).choices(range(-30000, 30000), k=2 * 20 * RATE)
    server = trial.serve(*DEVICES, folder=folder_with(trial, "in", struct.pack(">%dh" % len(noise), *noise)))
    with server, Page("127.0.0.1:%d" % free_port(), server.address) as page:
        trial.holds("it is there", page.is_up(1))
        status, kind, octets = streamed(page, "/listen/1/1.wav", 44 + 4 * 2 * RATE)
        wanted = b"RIFF\xff\xff\xff\xffWAVEfmt " + struct.pack("<IHHIIHH", 16, 1, 2, RATE, 4 * RATE, 4, 16) + b"data\xff\xff\xff\xff"
        trial.holds("it is a WAVE: %s" % octets[:44], (status, kind, octets[:44]) == (200, "audio/wav", wanted))
        whole, heard = struct.pack("<%dh" % len(noise), *noise), octets[44:]
        place = whole.find(heard[:400])
        trial.holds("it is what the device captures, from frame %d on" % (place // 4), place >= 0 and place % 4 == 0)
        trial.holds("%d frames, and each of them" % (len(heard) // 4), len(heard) == 8 * RATE and whole[place:place + len(heard)] == heard)
        trial.holds("who has left is not counted", page.becomes(lambda it: it["devices"][1]["listeners"] == 0, 1))
        with contextlib.ExitStack() as links:
            for _ in range(8):
                link = http.client.HTTPConnection(*page.place, timeout=ANSWERS)
                link.request("GET", "/listen/1/0.wav")
                answer = links.enter_context(contextlib.closing(link.getresponse()))
                trial.holds("eight may listen", answer.status == 200)
            trial.holds("a ninth may not", page.ask("/listen/1/0.wav", "HEAD")[0] == 503)
            trial.holds("who listens is counted", page.servers()[1]["devices"][0]["listeners"] == 8)
        trial.holds("who goes is not", page.becomes(lambda it: it["devices"][0]["listeners"] == 0, 1))
        trial.holds("one of the eight may again", page.ask("/listen/1/0.wav", "HEAD")[0] == 200)
        trial.holds("the page ends, and says nothing", page.ended())
        trial.ends(server)


def words(trial):
    """What is no use of it, what AUDIOFILE_SERVER does, and an address that is taken. All are begun at once."""
    taken = socket.create_server(("127.0.0.1", 0))
    place = "127.0.0.1:%d" % taken.getsockname()[1]
    usage = "audiofile-status: error: "
    rows = (
        (["nowhere"], "", 2, usage), (["127.0.0.1:port"], "", 2, usage), (["--listen=:1"], "", 2, usage), (["--set=1"], "", 2, usage),
        (["--listen=127.0.0.1:65536"], "", 2, usage), (["--journal=a", "--journal=b", "127.0.0.1:1701"], "", 2, usage),
        ([], "here", 2, usage + "AUDIOFILE_SERVER: "), (["--help"], "", 0, ""),
        (["--journal=no/log"], "", 1, "audiofile-status: no/log: No such file or directory\n"),
        (["--listen=" + place], "", 1, "audiofile-status: %s: Address already in use\n" % place))
    address = "127.0.0.1:%d" % free_port()
    begun = [subprocess.Popen(
        [sys.executable, PROGRAM, *words], stdin=subprocess.DEVNULL, stdout=subprocess.PIPE, stderr=subprocess.PIPE, text=True,
        env={**os.environ, "AUDIOFILE_SERVER": variable}) for words, variable, *_ in rows]
    with taken, Page(AUDIOFILE_SERVER=address) as page:
        trial.holds("AUDIOFILE_SERVER is the server", [it["address"] for it in page.servers()] == [address])
        for (words, variable, status, why), process in zip(rows, begun):
            said, faults = process.communicate(timeout=20)
            found = process.returncode, why in faults and "Traceback" not in faults, said != ""
            trial.holds("%s %s: %r" % (words, variable, faults), found == (status, True, status == 0))


def drifts(trial):
    """The drift of a clock whose readings are late by up to ten milliseconds, and by much more now and then."""
    chance = random.Random(3)
    for wanted in (-150, 0, 37.5, 1000):
        clock = audiofile_watch.Clock(44100)
        for reading in range(60 * 20):
            moment = 1000 + reading / 20
            late = chance.random() * (0.4 if chance.random() < 0.02 else 0.01)
            clock.take(int((moment - late) * (1 + wanted / 1e6) * 44100), moment)
        found = clock.drift()
        is_near = abs(found["millionths"] - wanted) <= max(1.5 * found["error"], 2)
        trial.holds("a drift of %s: %s" % (wanted, found), is_near and found["error"] < 60 and 55 < found["seconds"] < 61)
    clock.take(0, 2000)
    trial.holds("a clock that begins again is not known yet", clock.drift() is None)
