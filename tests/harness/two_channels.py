"""Two channels on the real server, by a client that sends its own requests: trials of try-server. What devices hand out and
capture is compared with what was played and with what a file has, sample by sample of each channel."""

import random
import struct

from serving import WORD, Server, asked_time, received, set_up
from sounds import LEAD, RATE, linear, mu_law
from wire import MOST_DATA, MOST_RECORDED, TYPES, Format, request

BAD_MATCH = 6


def parts(trial):
    return [lambda part=part: part(trial) for part in (is_heard, is_recorded, is_told)]


def noise(seed, frames):
    """Samples of two channels, frame by frame and the left one first, of which each is told from silence."""
    return random.Random(seed).choices([*range(-30000, -100), *range(100, 30000)], k=2 * frames)


def big_endian(samples):
    return struct.pack(">%dh" % len(samples), *samples)


class Stereo:
    """A client of a device of two channels, with a context of a sample type. Used with `with`, it is closed at the end."""

    def __init__(self, server, device, ty):
        self.device, self.frame = device, Format(ty, 2).frame()
        self.link = set_up(server.address)
        self.answer = create(self.link, device, ty, 2)

    def __enter__(self):
        return self

    def __exit__(self, *_):
        self.link.close()

    def play(self, octets):
        """Plays as far ahead as the tools do, and gives the time of the first frame. After the last reply all is accepted."""
        begun = moment = (asked_time(self.link, self.device) + LEAD * RATE // 1000) % WORD
        block = MOST_DATA // self.frame * self.frame
        for at in range(0, len(octets), block):
            piece = octets[at:at + block]
            self.link.sendall(request("Play", data=piece, context=1, time=moment))
            received(self.link, 12)
            moment = (moment + len(piece) // self.frame) % WORD
        return begun

    def record(self, moment, frames):
        """What the device has captured, or captures, from a time on."""
        got, most = b"", MOST_RECORDED // self.frame
        while frames:
            some = min(frames, most)
            self.link.sendall(request("Record", 1, context=1, time=moment, count=some * self.frame))
            received(self.link, 16)
            got += received(self.link, some * self.frame)
            received(self.link, -some * self.frame % 4)
            moment, frames = (moment + some) % WORD, frames - some
        return got


def create(link, device, ty, channels):
    """What is answered where a context of so many channels is made: whether it is none, and the code of an error."""
    link.sendall(request("CreateAC", device, context=1, type=TYPES.index(ty), channels=channels, preempt=0, play_gain=0, record_gain=0))
    head = received(link, 8)
    received(link, 4 * int.from_bytes(head[4:8], "big"))
    return head[0], head[1]


def mixed(first, second, frames):
    """What is heard of two plays, of which the second begins so many frames later."""
    sums = first + [0] * (2 * frames + len(second) - len(first))
    for place, sample in enumerate(second, 2 * frames):
        sums[place] = max(-32768, min(32767, sums[place] + sample))
    return sums


def heard(server, name, start, frame, at, frames):
    """What a device has handed out of some frames, and whether nothing but silence stands before them."""
    got = server.got(name)
    place = frame * ((at - start) % WORD)
    return got[place:place + frame * frames], got[:place]


def is_heard(trial):
    """Two clients play at once, past the wrap of the time: each channel has its own sums. Beside it a device of mu-law with a
    line, to which linear samples are played, and one of one channel, which stays silent."""
    begun = WORD - 3 * RATE
    devices = ["device lin16 8000 %d stereo files /dev/null out" % begun, "device mu255 8000 7 stereo line files /dev/null coded",
               "device lin16 8000 0 files /dev/null single"]
    first, second, coded = noise(11, 3 * RATE), noise(12, 2 * RATE), noise(13, RATE)
    with Server(trial.afd, trial.folder_of("stereo"), devices) as server:
        with Stereo(server, 0, "lin16") as one, Stereo(server, 0, "lin16") as other, Stereo(server, 1, "lin16") as third:
            at = one.play(big_endian(first))
            later = other.play(big_endian(second))
            coded_at = third.play(big_endian(coded))
        wanted = mixed(first, second, (later - at) % WORD)
        server.wait_until((at + len(wanted) // 2) % WORD)
        server.wait_until((coded_at + RATE) % WORD, 1)
        trial.holds("the server of two channels runs, and says nothing", server.end())
    sound, before = heard(server, "out", begun, 4, at, len(wanted) // 2)
    trial.holds("what two clients play is mixed, sample by sample of each channel", sound == big_endian(wanted))
    trial.holds("before it both channels are silent", not any(before) and len(before) > 0)
    sound, before = heard(server, "coded", 7, 2, coded_at, RATE)
    trial.holds("linear samples are heard in mu-law, each channel as it was played", sound == bytes(map(mu_law, coded)))
    trial.holds("before them both channels are silent in mu-law", set(before) == {255})
    trial.holds("beside two channels one is silent", not any(server.got("single")))


def is_recorded(trial):
    """What a file has is recorded frame by frame, also as linear samples from a file of mu-law, and then silence."""
    folder = trial.folder_of("stereo-in")
    given = noise(14, 4 * RATE)
    octets = random.Random(15).randbytes(2 * RATE)
    trial.file(folder, "in", big_endian(given))
    trial.file(folder, "coded", octets)
    devices = ["device lin16 8000 5 stereo files in /dev/null", "device mu255 8000 0 stereo files coded /dev/null",
               "device lin32 8000 0 stereo silent"]
    with Server(trial.afd, folder, devices) as server:
        with Stereo(server, 0, "lin16") as one, Stereo(server, 1, "lin16") as other, Stereo(server, 2, "lin32") as third:
            trial.holds("a device of two channels that is silent captures silence", third.record(0, 4000) == bytes(32000))
            moment = asked_time(one.link)
            place = 2 * (moment - 5)
            recorded = one.record(moment, RATE)
            trial.holds("a recording has both channels of the file", recorded == big_endian(given[place:place + 2 * RATE]))
            server.wait_until(RATE + 1000, 1)
            recorded = other.record(RATE - 1000, 2000)
            wanted = [linear(octet) for octet in octets[-2000:]] + [0] * 2000
            trial.holds("after the end of the file both channels are silent", recorded == big_endian(wanted))
        trial.holds("the server of recordings runs, and says nothing", server.end())


def is_told(trial):
    """The setup tells how many channels a device has, and a context of another number is refused."""
    devices = ["device lin16 8000 0 stereo silent", "device lin16 8000 0 silent"]
    with Server(trial.afd, trial.folder_of("channels"), devices) as server:
        for device, channels in ((0, 2), (1, 1)):
            with set_up(server.address) as link:
                made = create(link, device, "lin16", channels)
                trial.holds("device %d has a context of %d channels" % (device, channels), made == (1, 3))
            with set_up(server.address) as link:
                refused = create(link, device, "lin16", 3 - channels)
                trial.holds("device %d has none of another number" % device, refused == (0, BAD_MATCH))
        trial.holds("the server of both runs, and says nothing", server.end())
