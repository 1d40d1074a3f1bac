"""The runs of `af` that tools/check-af makes: those of tests/tools (tests/README.md says how they are written) with those where
each call in turn fails, those with sound files, which come to what sound_files.py says, and some with what is no bytes: a folder
as standard input, a full device."""

import os
import struct
from dataclasses import dataclass, field, replace

import sound_files
import wire
from serving import ROOT, SETUP
from worked_cases import lists_of_words, octets_stated
from worked_links import items_of

RUNS = os.path.join(ROOT, "tests", "tools")
FILES = {
    "words", "variable", "path", "source", "server.gives", "server.sent", "other.gives", "other.sent", "resets", "fails",
    "output", "output.text", "errors", "status", "text"}
# the variable that names a server
VARIABLE = "AUDIOFILE_SERVER"
# and the one that says where commands are looked up
PATH = "PATH"
# where the reply to a setup states the channels of the first device
CHANNELS_AT = 17
# tools that write while they still ask; the others write when they are done
ASKING_ON = {"arecord", "list", "meter"}
# and those that write a line for each of these replies
LINES = {"list": "GetTime", "meter": "Record"}
# the replies after which events for a time have their lines
TELLING = {"GetTime", "Record"}
# a standard output that is a pipe without a reader
NOBODY = "nobody"


class BadRun(Exception):
    """A worked run that cannot be read."""


@dataclass
class Peer:
    """A server: what it gives; what it is to be sent, or None if it is not to be dialled; and whether it resets its link then. If
    turns are stated, a list of pairs, it gives each its answer, and ends or resets its link after the last. If commands are
    looked at, it may be asked for the time more often than that."""

    gives: bytes = b""
    sent: bytes | None = None
    resets: bool = False
    turns: list | None = None
    looks: bool = False


@dataclass
class Run:
    """A run of the program, and what it is to come to. Where it is cut off, servers may be sent less. Where a number of kibibytes
    is stated, it may take only so much memory. Its output may be a file with room for so many bytes, and its source may break
    off. The variable AUDIOFILE_SERVER has this text, or is not set. Its commands are looked up in this path, and write these
    lines to standard error."""

    name: str
    words: list
    source: bytes = b""
    peers: dict = field(default_factory=lambda: {"SERVER": Peer(), "OTHER": Peer()})
    output: bytes = b""
    status: int = 0
    text: str = ""
    cut: bool = False
    stdin: str = ""
    stdout: str = ""
    memory: int = 0
    room: int | None = None
    breaks: bool = False
    variable: str | None = None
    path: str | None = None
    errors: str = ""

    def environment(self, addresses):
        """The environment of the run, where SERVER and OTHER stand for these addresses."""
        environ = {name: it for name, it in os.environ.items() if name != VARIABLE}
        if self.path is not None:
            environ[PATH] = self.path
        return environ if self.variable is None else {**environ, VARIABLE: addresses.get(self.variable, self.variable)}

    def said(self, addresses):
        """What stands on standard error."""
        commands = self.errors
        for name, address in addresses.items():
            commands = commands.replace("{%s}" % name, address)
        return commands + ("af: %s\n" % self.text if self.text else "")


def bytes_in(text, where):
    """The bytes that a file states."""
    try:
        return octets_stated(text)
    except ValueError as line:
        raise BadRun("%s: no hexadecimal digits of whole bytes: %s" % (where, line)) from None


def read_runs(name, runs=RUNS, more=frozenset()):
    """The runs of a folder, one for each list of words. It may have more files, which say nothing here."""
    folder = os.path.join(runs, name)
    texts = {}
    for file in os.listdir(folder):
        if file in more:
            continue
        if file not in FILES:
            raise BadRun("%s is no file of a worked run" % file)
        with open(os.path.join(folder, file), encoding="utf-8") as opened:
            texts[file] = opened.read()
    if not texts.get("words", "").startswith("# "):
        raise BadRun("words has no first line that says the rule")
    if "output" in texts and "output.text" in texts:
        raise BadRun("output and output.text are both there")

    def stated(file):
        return bytes_in(texts[file], file) if file in texts else None

    peers = {}
    for word, prefix in (("SERVER", "server"), ("OTHER", "other")):
        peers[word] = Peer(stated(prefix + ".gives") or b"", stated(prefix + ".sent"))
    resets = texts.get("resets", "").strip()
    if resets:
        if resets not in peers or not peers[resets].sent:
            raise BadRun("resets names no server that is sent something")
        peers[resets].resets = True
    output = stated("output") or texts.get("output.text", "").encode()
    try:
        status = int(texts.get("status", "0"))
    except ValueError:
        raise BadRun("status is no number") from None
    text = texts.get("text", "").rstrip("\n")
    lists = list(lists_of_words(texts["words"]))
    if not lists:
        raise BadRun("words has no list")
    names = [name] if len(lists) == 1 else ["%s (%s)" % (name, " ".join(words)) for words in lists]
    variable, path = (texts[file].rstrip("\n") if file in texts else None for file in ("variable", "path"))
    runs = [
        Run(called, words, stated("source") or b"", looking(words, peers), output, status, text, variable=variable, path=path,
            errors=texts.get("errors", ""))
        for called, words in zip(names, lists)
    ]
    fails = texts.get("fails", "").split()
    if not set(fails) <= FAILING.keys():
        raise BadRun("fails has words out of %s" % ", ".join(FAILING))
    return runs + [failing for each in fails for failing in FAILING[each](runs[0])]


def hears_its_caller(words):
    """Whether these are the words of an answering machine that hears its caller."""
    return words[:1] == ["answer"] and any(word == "--hang-up" or word.startswith("--until") for word in words)


def looking(words, peers):
    """The servers of a run: one of a machine that hears its caller goes by turns."""
    if not hears_its_caller(words):
        return peers
    return {word: replace(peer, turns=pieces(talk_of(peer)), looks=True) if peer.sent else peer for word, peer in peers.items()}


def requests_of(peer):
    return items_of(peer.sent, peer.gives)[0]


def replies_of(peer):
    return items_of(peer.sent, peer.gives)[1]


def joined(items):
    return b"".join(item.octets for item in items)


def asks_on(run):
    """Whether it writes while it still asks: events do for a time."""
    return run.words[0] in ASKING_ON or any(word.startswith("--for=") for word in run.words) or hears_its_caller(run.words)


def turns_of(run, peer):
    """Each request with what answers it: a reply, and before it events. A machine that hears its caller waits for events without
    a request, so there they follow the reply."""
    if hears_its_caller(run.words):
        return talk_of(peer)
    answers, events = [], []
    for item in replies_of(peer):
        events.append(item)
        if item.kind != "event":
            answers.append(events)
            events = []
    return list(zip(requests_of(peer), answers))


def talk_of(peer):
    """Each request with what is given from its reply on, up to the next one: the reply, and then events."""
    answers = []
    for item in replies_of(peer):
        if item.kind == "event" and answers:
            answers[-1].append(item)
        else:
            answers.append([item])
    asked = requests_of(peer)
    if len(answers) > len(asked):
        raise BadRun("more is given than is asked for")
    return list(zip(asked, answers + [[]] * (len(asked) - len(answers))))


def pieces(talk):
    """The same as bytes."""
    return [(request.octets, joined(answer)) for request, answer in talk]


def later(messages, more):
    """Messages whose sequence numbers are greater by so much."""
    moved, at = bytearray(messages), 0
    while at + 8 <= len(moved):
        number, words = struct.unpack_from(">HI", moved, at + 2)
        struct.pack_into(">H", moved, at + 2, (number + more) % 65536)
        at += 8 + 4 * words
    return bytes(moved)


def recorded(replies):
    """How many bytes replies to Records have. Other replies have none."""
    return sum(len(reply.data) for reply in replies)


def written(run, replies):
    """How many bytes are written after these replies. A list has a line for each device once its time is known, and a meter one
    for each interval once that was recorded. Events for a time have theirs after the reply that they came before, if that tells the
    time. A machine has one for each call once the hook is on again. A sound file has a header, which is written once the time is
    known, and may have a pad byte after the last block."""
    if hears_its_caller(run.words):
        calls = sum(reply.name == "HookSwitch" for reply in replies) // 2
        return sum(len(line) for line in run.output.splitlines(keepends=True)[:calls])
    if run.words[0] in LINES:
        told = sum(reply.name == LINES[run.words[0]] for reply in replies)
        return sum(len(line) for line in run.output.splitlines(keepends=True)[:told])
    if run.words[0] == "events":
        last = max((at for at, reply in enumerate(replies) if reply.name in TELLING), default=0)
        told = sum(reply.kind == "event" for reply in replies[:last])
        return sum(len(line) for line in run.output.splitlines(keepends=True)[:told])
    if not any(reply.name == "GetTime" for reply in replies):
        return 0
    whole = [reply for reply in replies_of(run.peers["SERVER"]) if reply.name == "Record"]
    if sum(reply.name == "Record" for reply in replies) == len(whole):
        return len(run.output)
    pad = recorded(whole) % 2 if "--file=wave" in run.words else 0
    return len(run.output) - pad - recorded(whole) + recorded(replies)


def output_after(run, replies):
    """What is written where a link is cut after these replies."""
    if run.words[0] == "log":
        return log_line(run, recorded(replies))
    return run.output[: written(run, replies)] if asks_on(run) else b""


def log_line(run, size):
    """The line of a log of one piece that is cut after so many bytes. What it lost is to have been lost in its first block."""
    if not size:
        return b""
    whole = sum(request.fields["count"] for request in requests_of(run.peers["SERVER"]) if request.name == "Record")
    words = run.output.split(b" ")
    at = words.index(b"frames") + 1
    words[at] = b"%d" % (int(words[at]) * size // whole)
    return b" ".join(words)


def failing_links(run):
    """The runs in which each write to a link in turn fails, and each read of it fails or meets the end, at once or in the middle
    of a reply. A write fails at the latest when its reply is read."""
    for word, peer in run.peers.items():
        talk = turns_of(run, peer) if peer.sent else []
        turns = pieces(talk)
        for at, (request, reply) in enumerate(turns):
            first = len(talk[at][1][0].octets) if peer.looks else len(reply)
            before, half = turns[:at], reply[: first // 2]
            yield failing_link(run, word, before, True, "write %d to %s fails" % (at, word))
            for resets, how in ((True, "fails"), (False, "meets the end")):
                yield failing_link(run, word, [*before, (request, b"")], resets, "read %d of %s %s" % (at, word, how))
                yield failing_link(run, word, [*before, (request, half)], resets, "read %d of %s %s in a reply" % (at, word, how))


def failing_link(run, word, turns, resets, how):
    """The run whose link ends or is reset after these turns. The other server may be sent less; if the first one never was set
    up, it is not dialled."""
    sent, given = (b"".join(each) for each in zip(*turns)) if turns else (b"", b"")
    whole = items_of(sent, given)[1]
    peers = {**run.peers, word: Peer(given, sent, resets, turns, run.peers[word].looks)}
    if word == "SERVER" and not whole:
        peers["OTHER"] = Peer()
    output = output_after(run, whole)
    status, text = (13, "link failed") if resets else (14, "link ended")
    return replace(run, name="%s, %s" % (run.name, how), peers=peers, output=output, status=status, text=text, cut=True)


def failing_source(run):
    """The runs whose source fails after each of its bytes: the blocks that were whole by then were played, and no more is sent.
    Until the first is whole the time is not asked for."""
    requests = requests_of(run.peers["SERVER"])
    plays = [len(request.data) for request in requests if request.name == "Play"]
    first = next(at for at, request in enumerate(requests) if request.name == "Play")
    for given in range(len(run.source) + 1):
        whole = sum(sum(plays[: at + 1]) <= given and size == plays[0] for at, size in enumerate(plays))
        sent = requests[: first + whole] if whole else requests[: first - 1]
        peer = replace(run.peers["SERVER"], sent=joined(sent))
        yield replace(
            run, name="%s, its source fails after %d bytes" % (run.name, given), source=run.source[:given], breaks=True,
            peers={**run.peers, "SERVER": peer}, output=b"", status=5, text="read failed")


def failing_sink(run):
    """The runs whose sink has room for fewer bytes than are written. A record asks for no more after the block that finds none,
    and a list for none after the line."""
    for room in range(len(run.output)):
        peers = run.peers
        if asks_on(run):
            turns = turns_of(run, peers["SERVER"])
            told = (at for at in range(len(turns)) if written(run, sum((answer for _, answer in turns[: at + 1]), [])) > room)
            turns = turns[: next(told, len(turns)) + 1]
            peer = replace(peers["SERVER"], sent=joined(request for request, _ in turns))
            peers = {**peers, "SERVER": replace(peer, turns=pieces(turns)) if peer.looks else peer}
        yield replace(
            run, name="%s, its sink fails after %d bytes" % (run.name, room), peers=peers, output=run.output[:room], room=room, status=6,
            text="write failed")


FAILING = {"links": failing_links, "source": failing_source, "sink": failing_sink}


def outside_runs():
    """Runs whose words, input or output are no bytes. What the servers give is that of worked runs."""
    play = read_runs("a_play_without_options")[0]
    record = read_runs("recorded_samples_are_written_as_they_are")[0]
    cut_play, cut_record = replace(play, output=b"", cut=True), replace(record, output=b"", cut=True)
    return [
        Run("a word that is no text", ["aplay", b"\xff".decode("utf-8", "surrogateescape")], status=2, text="usage"),
        Run("no server", ["arecord", "127.0.0.1:1", "--frames=1"], status=12, text="connect failed"),
        replace(cut_play, name="a source that fails", stdin="/", status=5, text="read failed"),
        replace(cut_record, name="a sink that fails", stdout="/dev/full", status=6, text="write failed"),
        replace(cut_record, name="a sink that nobody reads", stdout=NOBODY, status=6, text="write failed"),
        Run("help on a sink that fails", ["help", "list"], stdout="/dev/full", status=6, text="write failed"),
        Run("a version that nobody reads", ["version"], stdout=NOBODY, status=6, text="write failed"),
    ]


def file_runs(device, files):
    """Plays of sound files, which come to what tests/harness/sound_files.py says that they mean. The device has 16-bit samples, 8000
    frames a second, and so many channels."""
    run = read_runs("a_play_without_options")[0]
    peer, other = run.peers["SERVER"], run.peers["OTHER"]
    *gives, play, free = [reply.octets for reply in replies_of(peer)]
    gives[0] = gives[0][:CHANNELS_AT] + bytes([device]) + gives[0][CHANNELS_AT + 1 :]
    for form, name, octets in files:
        sent, replies, output, status, text = SETUP, gives[:1], b"", 0, ""
        try:
            coding, rate, channels, sound = sound_files.sound_of(form, octets)
        except sound_files.Refused as why:
            status, text = (22, "sound file cut") if str(why) == sound_files.CUT else (21, "bad sound file")
        else:
            if rate != 8000:
                status, text = 16, "rates %d and 8000" % rate
            elif channels != device:
                status, text = 20, "channels %d and %d" % (channels, device)
            else:
                kind, samples = sound_files.served(coding, sound)
                size = device * (2 if kind == 2 else 1)
                frames = len(samples) // size
                asked = [
                    wire.request("CreateAC", context=1, type=kind, channels=device, preempt=0, play_gain=0, record_gain=0),
                    wire.request("GetTime"),
                ]
                if frames:
                    asked.append(wire.request("Play", context=1, time=800, data=samples[: frames * size]))
                asked.append(wire.request("FreeAC", context=1))
                sent, output = SETUP + b"".join(asked), b"played %d at 800\n" % frames
                replies = [*gives, *([play] if frames else []), renumbered(free, len(asked))]
        peers = {"SERVER": Peer(b"".join(replies), sent), "OTHER": other}
        name = "a file and %s, %s" % ("stereo" if device == 2 else "mono", name)
        yield Run(name, ["aplay", "SERVER", "--file=" + form], octets, peers, output, status, text)


def written_runs(channels):
    """Records into sound files, which are to be those that tests/harness/sound_files.py makes of the same samples. The device has so many
    channels and is of each type and each rate; one of 32 bits is recorded as 16."""
    for form in ("au", "wave"):
        for at, rate in enumerate(wire.RATES):
            for kind in range(4):
                frames, recorded_kind = 2 * at + kind % 2 + 1, min(kind, 2)
                width = channels * (2 if recorded_kind == 2 else 1)
                samples = bytes((rate + 37 * place) % 256 for place in range(frames * width))
                device = bytes([kind, channels, 0, 0]) + struct.pack(">II", rate, 4 * rate)
                body = struct.pack(">II", frames, len(samples)) + samples + bytes(-len(samples) % 4)
                replies = [
                    bytes.fromhex("01000000 00000005 00010000 00000001") + device,
                    bytes.fromhex("01030001 00000000"),
                    bytes.fromhex("01020002 00000001 00000000"),
                    struct.pack(">BBHI", 1, wire.OPCODES["Record"], 3, len(body) // 4) + body,
                    bytes.fromhex("01050004 00000000"),
                ]
                asked = [
                    wire.request("CreateAC", context=1, type=recorded_kind, channels=channels, preempt=0, play_gain=0, record_gain=0),
                    wire.request("GetTime"),
                    wire.request("Record", detail=1, context=1, time=0, count=len(samples)),
                    wire.request("FreeAC", context=1),
                ]
                peers = {"SERVER": Peer(b"".join(replies), SETUP + b"".join(asked)), "OTHER": Peer()}
                words = ["arecord", "SERVER", "--file=" + form, "--frames=%d" % frames]
                output = sound_files.file_of(form, recorded_kind, samples, rate, channels)
                name = "a record into a file, %s of type %d at %d, %s" % (form, kind, rate, "stereo" if channels == 2 else "mono")
                yield Run(name, words, b"", peers, output)


def renumbered(reply, sequence):
    return reply[:2] + sequence.to_bytes(2, "big") + reply[4:]
