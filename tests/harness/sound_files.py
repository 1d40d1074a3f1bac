"""What .au and WAVE files mean, written down once more, from their standards and not from the programs here: for trials of what
reads and writes them."""

import struct

ALAW, MU_LAW, LINEAR, LITTLE, EIGHT = "A-law", "mu-law", "linear", "little-endian", "8 bits"
CUT, BAD = "cut", "bad"
AU_CODINGS = {1: MU_LAW, 3: LINEAR, 27: ALAW}
WAVE_CODINGS = {(1, 16): LITTLE, (1, 8): EIGHT, (6, 8): ALAW, (7, 8): MU_LAW}
UNSTATED = 0xFFFFFFFF


class Refused(Exception):
    """Why bytes are no sound file: they are cut, or bad."""


def front(octets, count):
    """The first bytes, and what comes after them."""
    if len(octets) < count:
        raise Refused(CUT)
    return octets[:count], octets[count:]


def after_au_head(octets):
    name, octets = front(octets, 4)
    if name != b".snd":
        raise Refused(BAD)
    numbers, octets = front(octets, 20)
    offset, size, encoding, rate, channels = struct.unpack(">5I", numbers)
    if offset < 24 or encoding not in AU_CODINGS or channels not in (1, 2):
        raise Refused(BAD)
    _, octets = front(octets, offset - 24)
    return AU_CODINGS[encoding], rate, channels, size, octets


def after_wave_head(octets):
    names, octets = front(octets, 12)
    if names[:4] != b"RIFF" or names[8:] != b"WAVE":
        raise Refused(BAD)
    sound = None
    while True:
        name, octets = front(octets, 4)
        if name in (b"fmt ", b"data") and (name == b"data") != bool(sound):
            raise Refused(BAD)
        field, octets = front(octets, 4)
        (size,) = struct.unpack("<I", field)
        if name == b"data":
            return *sound, size, octets
        if name == b"fmt ":
            if size < 16:
                raise Refused(BAD)
            tag, channels, rate, bits = struct.unpack("<HHI6xH", front(octets, 16)[0])
            if (tag, bits) not in WAVE_CODINGS or channels not in (1, 2):
                raise Refused(BAD)
            sound = WAVE_CODINGS[tag, bits], rate, channels
        _, octets = front(octets, size + size % 2)


def sound_of(form, octets):
    """The coding, the rate, the channels and the sound of a file."""
    coding, rate, channels, size, sound = {"au": after_au_head, "wave": after_wave_head}[form](octets)
    return coding, rate, channels, sound if size == UNSTATED else sound[:size]


def served(coding, sound):
    """The type of samples that a server takes, by its number, and the bytes of whole samples."""
    if coding in (MU_LAW, ALAW):
        return (0, sound) if coding == MU_LAW else (1, sound)
    if coding == EIGHT:
        return 2, b"".join(struct.pack(">h", (octet - 128) * 256) for octet in sound)
    sound = sound[: len(sound) // 2 * 2]
    return 2, sound if coding == LINEAR else swapped(sound)


def au(encoding, sound, rate=8000, channels=1, size=None, annotation=b""):
    """An .au file."""
    size = len(sound) if size is None else size
    return struct.pack(">4s5I", b".snd", 24 + len(annotation), size, encoding, rate, channels) + annotation + sound


def chunk(name, octets):
    return name + struct.pack("<I", len(octets)) + octets + bytes(len(octets) % 2)


def wave(tag, bits, sound, rate=8000, channels=1, size=None, before=b"", after=b"", pad=b""):
    """A WAVE file, with chunks before its format and between that and the sound, and a byte after that."""
    size = len(sound) if size is None else size
    width = channels * bits // 8
    form = chunk(b"fmt ", struct.pack("<HHIIHH", tag, channels, rate, rate * width, width, bits))
    rest = b"WAVE" + before + form + after + b"data" + struct.pack("<I", size) + sound + pad
    return b"RIFF" + struct.pack("<I", len(rest)) + rest


def swapped(samples):
    """Samples of 16 bits with their bytes in the other order."""
    return b"".join(samples[at + 1 : at + 2] + samples[at : at + 1] for at in range(0, len(samples), 2))


def file_of(form, kind, samples, rate, channels=1):
    """The file of whole frames that a server records, by the number of their type: mu-law, A-law or 16 bits."""
    if form == "au":
        return au({0: 1, 1: 27, 2: 3}[kind], samples, rate, channels)
    tag, bits = {0: (7, 8), 1: (6, 8), 2: (1, 16)}[kind]
    return wave(tag, bits, swapped(samples) if kind == 2 else samples, rate, channels, pad=bytes(len(samples) % 2))


SOUND = bytes.fromhex("0102037f80fffe")
WHOLE = {
    "au": {
        "mu-law": au(1, SOUND),
        "A-law": au(27, SOUND),
        "linear": au(3, SOUND),
        "two channels": au(1, SOUND, channels=2),
        "an annotation": au(1, SOUND, annotation=b"annotated"),
        "no stated length": au(3, SOUND, size=UNSTATED),
        "a stated length of less": au(1, SOUND, size=3),
        "a stated length of more": au(1, SOUND, size=300),
        "floating point": au(6, SOUND),
        "no sound": au(1, b""),
    },
    "wave": {
        "mu-law": wave(7, 8, SOUND),
        "A-law": wave(6, 8, SOUND),
        "16 bits": wave(1, 16, SOUND),
        "8 bits": wave(1, 8, SOUND),
        "16 bits and two channels": wave(1, 16, SOUND, channels=2),
        "8 bits and two channels": wave(1, 8, SOUND, channels=2),
        "chunks of odd sizes": wave(1, 16, SOUND, before=chunk(b"LIST", b"abc"), after=chunk(b"fact", b"12345")),
        "no stated length": wave(1, 16, SOUND, size=UNSTATED),
        "a stated length of less": wave(1, 16, SOUND, size=3),
        "24 bits": wave(1, 24, SOUND),
        "floating point": wave(3, 32, SOUND),
        "extensible": wave(65534, 16, SOUND),
        "two formats": wave(1, 16, SOUND, after=chunk(b"fmt ", bytes(16))),
        "no format": b"RIFF\0\0\0\0WAVE" + chunk(b"data", SOUND),
    },
}


def whole_files():
    """Files by a name that are not cut, and have no byte changed."""
    for form, whole in WHOLE.items():
        for name, octets in whole.items():
            yield form, "%s, %s" % (form, name), octets


def files():
    """Files by a name: whole ones, each cut of some, and some with single bytes of the header changed."""
    yield from whole_files()
    for form, whole in WHOLE.items():
        first = whole["mu-law" if form == "au" else "chunks of odd sizes"]
        for count in range(len(first)):
            yield form, "%s, cut after %d bytes" % (form, count), first[:count]
        for at in range(len(first) - len(SOUND)):
            for octet in (0, 1, 127, 128, 255):
                yield form, "%s, byte %d is %d" % (form, at, octet), first[:at] + bytes([octet]) + first[at + 1 :]
