"""Both byte orders on real time: the same sound has to come of either, sample by sample. These are trials of try-server."""

import random
import struct

from serving import WORD, Server, Tap, connect, received
from sounds import LEAD, RATE, mixed, tone
from wire import LITTLE, ORDERS, ServerSide, request, setup

IN_BIG, IN_LITTLE = "--order=big", "--order=little"
# setups that are refused, and how
REFUSED = {
    "another version, little-endian": (setup(LITTLE, major=2), "00010000 02000000 02000000 00000000"),
    "a version in the other order": (setup()[:4] + setup(LITTLE)[4:], "00010000 00000002 00000100 00000000"),
    "another protocol": (b"AFL\0\1\0\0\0", "00010000 00000002 41464c00 00000000")}


def parts(trial):
    return [lambda part=part: part(trial) for part in (sounds, relays, answers)]


def in_bytes(samples):
    """Samples of 16 bits as they are on every link."""
    return struct.pack(">%dh" % len(samples), *samples)


def sounds(trial):
    """A player in each order, whose sounds are mixed; then one of 32-bit samples; and a recorder in each. The time wraps."""
    folder = trial.folder_of("orders")
    given = random.Random(5).randbytes(2 * 20 * RATE)
    trial.file(folder, "in", given)
    begun = WORD - 2 * RATE
    first, second, third = tone(RATE, 440), tone(RATE, 523), tone(RATE // 2, 659)
    with Server(trial.afd, folder, ["device lin16 8000 %d files in out" % begun]) as server:
        at = int(trial.tool("aplay", server.address, "--lead=%d" % LEAD, IN_LITTLE).split()[3])
        after = (at + RATE) % WORD
        for samples, *words in ((in_bytes(first), IN_LITTLE), (in_bytes(second), IN_BIG)):
            said = trial.tool("aplay", server.address, "--time=%d" % at, *words, given=samples)
            trial.holds("what is played is told with %s: %s" % (words[0], said), said == b"played %d at %d\n" % (RATE, at))
        fine = struct.pack(">%di" % len(third), *(sample << 16 | 0xABCD for sample in third))
        said = trial.tool("aplay", server.address, "--time=%d" % after, "--type=lin32", IN_LITTLE, given=fine)
        trial.holds("samples of 32 bits are played: %s" % said, said == b"played %d at %d\n" % (len(third), after))
        moment = server.time()
        start = 2 * ((moment - begun) % WORD)
        for order in (IN_LITTLE, IN_BIG):
            recorded = trial.tool("arecord", server.address, "--frames=4000", "--time=%d" % moment, "--block=700", order)
            trial.holds("a recording with %s is what the file has" % order, recorded == given[start:start + 8000])
        server.wait_until((after + len(third)) % WORD)
        said = trial.tool("aset", server.address, "--output-gain=-6", "--input=off", IN_LITTLE)
        trial.holds("controls are set with %s" % IN_LITTLE, said == b"input off 0\noutput on -6\n")
        again = [trial.tool("aset", server.address, order) for order in (IN_LITTLE, IN_BIG)]
        trial.holds("controls are told the same in both orders", again == [said, said])
        trial.holds("the server runs, and says nothing", server.end())
    start = 2 * ((at - begun) % WORD)
    heard = server.got("out")[:start + 3 * RATE]
    wanted = bytes(start) + in_bytes([one + other for one, other in zip(first, second)]) + in_bytes(third)
    trial.holds("what both orders play is heard, sample by sample, and silence before it", heard == wanted)


def relays(trial):
    """Relays over two links of each order, and over one of each, which a tap turns."""
    folder, other = trial.folder_of("from_order"), trial.folder_of("to_order")
    given = bytes(random.Random(6).choices([*range(127), *range(128, 255)], k=30 * RATE))
    trial.file(folder, "in", given)
    with Server(trial.afd, folder, ["device mu255 8000 4294960000 files in /dev/null"]) as recorded, \
            Server(trial.afd, other, ["device mu255 8000 0 files /dev/null out"]) as played:
        plays = []
        for order in (IN_BIG, IN_LITTLE):
            plays += trial.relayed(recorded.address, Tap(played.address), given, order)[0]
            plays += trial.relayed(recorded.address, Tap(played.address, turns=True), given, order)[0]
            plays += trial.relayed(Tap(recorded.address, turns=True).address, Tap(played.address), given, order)[0]
        end = max(moment for moment, _ in plays) + 1000
        played.wait_until(end)
        trial.holds("both servers run", recorded.end() and played.end())
    heard = played.got("out")
    is_heard = end <= len(heard) and heard == mixed(len(heard), plays)
    trial.holds("what relays of both orders play is heard, each sample at its time", is_heard)


def answers(trial):
    """Each request is answered the same in both orders, and a setup that is refused in its own."""
    with Server(trial.afd, trial.folder_of("answers"), ["device lin16 8000 0 silent"]) as server:
        told = [conversation(server, order) for order in ORDERS.values()]
        trial.holds("each request is answered the same in both orders: %s" % told, told[0] == told[1] and len(told[0]) == 13)
        for name, (octets, wanted) in REFUSED.items():
            with connect(server.address) as link:
                link.sendall(octets)
                trial.holds("%s is refused" % name, received(link, 100) == bytes.fromhex(wanted))
        trial.holds("the server runs, and says nothing", server.end())


def conversation(server, order):
    """What each request is answered on a link of an order, but for the times."""
    asked = [
        setup(order),
        request("CreateAC", context=259, type=3, channels=1, preempt=0, play_gain=-6, record_gain=5, order=order),
        request("ChangeAC", 3, context=259, preempt=0, play_gain=-300, record_gain=6, order=order),
        request("NoOp", order=order),
        request("GetTime", order=order),
        request("Play", context=259, time=0, data=bytes(7), order=order),
        request("Play", context=259, time=0, data=bytes(8), order=order),
        request("Record", 1, context=259, time=0, count=400, order=order),
        request("SelectEvents", 7, mask=15, order=order),
        request("SetControls", mask=15, input_on=1, output_on=1, input_gain=0, output_gain=31, order=order),
        request("QueryControls", order=order),
        request("HookSwitch", off=1, order=order),
        request("QueryPhone", order=order),
        request("FreeAC", context=259, order=order)]
    side, told = ServerSide(order), []
    with connect(server.address) as link:
        link.sendall(b"".join(asked))
        # NoOp alone is not answered
        while len(told) < len(asked) - 1 and (piece := link.recv(65536)):
            told += side.feed(piece)
    without_times = [{name: value for name, value in item.fields.items() if name != "time"} for item in told]
    return [(item.kind, item.name, item.number, fields, item.data) for item, fields in zip(told, without_times)]
