"""Sounds that are played to a server, and what its devices are to hand out of them."""

import math

RATE = 8000
# how far ahead tools play, in milliseconds: a machine that does much else is to be in time too
LEAD = 2000


def heard_as(octets):
    """What is heard of mu-law: both zeros are one."""
    return bytes(255 if octet == 127 else octet for octet in octets)


def mu_law(sample):
    """A linear sample of 16 bits as mu-law (ITU-T G.711)."""
    level = min(abs(sample), 32635) + 132
    segment = level.bit_length() - 8
    return 0xFF ^ ((sample < 0) << 7 | segment << 4 | level >> (segment + 3) & 15)


def a_law(sample):
    """A linear sample of 16 bits as A-law (ITU-T G.711)."""
    level = sample if sample >= 0 else -sample - 1
    segment = max(level.bit_length() - 8, 0)
    return 0x55 ^ ((sample >= 0) << 7 | segment << 4 | level >> (max(segment, 1) + 3) & 15)


def linear(octet):
    """A sample of mu-law as a linear one of 16 bits."""
    code = 0xFF ^ octet
    magnitude = (8 * (code & 15) + 132 << (code >> 4 & 7)) - 132
    return -magnitude if code >> 7 else magnitude


def mixed(length, plays):
    """What a device of mu-law hands out where it is played to: so many bytes. A play is its place and its bytes."""
    sums = [0] * length
    for place, octets in plays:
        for at, octet in enumerate(octets, place):
            sums[at] = max(-32768, min(32767, sums[at] + linear(octet)))
    return bytes(mu_law(sample) for sample in sums)


def tone(frames, pitch):
    """A tone in linear samples."""
    return [int(12000 * math.sin(2 * math.pi * pitch * frame / RATE)) for frame in range(frames)]
