#!/usr/bin/env python3
"""Plays a WAVE file to an AudioFile server, and says at which device time: a client over the module `audiofile`.

    examples/client.py 127.0.0.1:1701 speech.wav [LEAD]

It begins LEAD milliseconds from now, 250 where none is given. The file has one channel of 8 or 16 bits. The server converts to
what its device has, but it does not resample: the first device of the file's rate is played to.
"""

import os
import struct
import sys
import wave

# the module lies beside this file where it is installed, and here in the tree
sys.path.append(os.path.join(os.path.dirname(os.path.abspath(__file__)), "..", "contrib", "python"))
import audiofile


def samples_of(path):
    """The rate and the samples of a WAVE file, these as a server takes them: of 16 bits, the highest byte first."""
    with wave.open(path) as file:
        if file.getnchannels() != 1 or file.getsampwidth() not in (1, 2):
            sys.exit("%s: one channel of 8 or 16 bits is needed; `sox IN.wav -c 1 -b 16 OUT.wav` makes it" % path)
        octets = file.readframes(file.getnframes())
        if file.getsampwidth() == 1:
            # 8 bits are unsigned
            return file.getframerate(), b"".join(bytes((octet ^ 0x80, 0)) for octet in octets)
        return file.getframerate(), struct.pack(">%dh" % (len(octets) // 2), *struct.unpack("<%dh" % (len(octets) // 2), octets))


def main():
    if len(sys.argv) not in (3, 4):
        sys.exit("usage: client.py HOST:PORT FILE.wav [LEAD]")
    rate, samples = samples_of(sys.argv[2])
    with audiofile.connect(sys.argv[1]) as server:
        device = next((device for device in server.devices if device.rate == rate), None)
        if device is None:
            sys.exit("no device has %d frames a second; `sox IN.wav -r %d OUT.wav` resamples" % (rate, server.devices[0].rate))
        lead = int(sys.argv[3]) if sys.argv[3:] else 250
        start, frames, late = server.play(device, samples, lead / 1000, type="lin16", channels=1)
        print("played %d frames on device %d at %d; its time is now %d" % (frames, device.number, start, server.time(device)))
    if late:
        sys.exit("%d of them came too late, and were not heard" % late)


if __name__ == "__main__":
    try:
        main()
    except (audiofile.Error, OSError, EOFError, ValueError, wave.Error) as fault:
        # what the server did stands alone, and what the system says has our name before it
        sys.exit(("%s" if isinstance(fault, audiofile.Error) and not getattr(fault, "errno", None) else "client.py: %s") % fault)
