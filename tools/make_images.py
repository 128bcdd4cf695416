#!/usr/bin/env python3
"""Write the sample configuration spaces of examples/images/.

    tools/make_images.py [FOLDER]            write them
    tools/make_images.py --check [FOLDER]    compare them, byte for byte

The same bytes come out on every run and every machine. Each is 4,096 bytes of
zeros but for those that are named here, save where its point is another length.
"""

import struct
import sys

from samples import write

SIZE = 4096

# Registers of a bridge's header.
HEADER_TYPE = 0x0E
BUS_NUMBERS = 0x18          # own, secondary, subordinate
MEMORY = 0x20               # base and limit
PREFETCHABLE = 0x24         # base and limit
PREFETCHABLE_UPPER = 0x28   # upper halves of base and limit

ENDPOINT, BRIDGE = 0, 1     # header types
SEVERAL_FUNCTIONS = 0x80    # bit 7 beside the header type

# IDs of extended capabilities.
ERRORS, SERIAL_NUMBER, ACS = 0x0001, 0x0003, 0x000D
FIRST = 0x100               # where their list starts

# Bits of ACS Capability and Control.
V, B, R, C, U, E, T = (1 << bit for bit in range(7))
EVERY = V | B | R | C | U | E | T

CLOSED = (0xFFF00000, 0x000FFFFF)  # a base above its limit


def image(parts):
    """4,096 zeros with bytes at offsets."""
    out = bytearray(SIZE)
    for offset, data in parts.items():
        assert offset + len(data) <= SIZE
        out[offset:offset + len(data)] = data
    return bytes(out)


def window(first, last, low=0):
    """Base and limit, bits 31:20 of the two addresses; low is their low four bits."""
    return struct.pack("<HH", first >> 16 & 0xFFF0 | low, last >> 16 & 0xFFF0 | low)


def bridge(buses, memory, prefetchable, capabilities, header_type=BRIDGE):
    """A bridge's image; prefetchable windows have 64 bits."""
    return image({
        HEADER_TYPE: bytes([header_type]),
        BUS_NUMBERS: bytes(buses),
        MEMORY: window(*memory),
        PREFETCHABLE: window(*prefetchable, low=1),
        PREFETCHABLE_UPPER: struct.pack("<II", *(end >> 32 for end in prefetchable)),
        **capabilities,
    })


def capability(ident, following=0, version=1, body=b""):
    """An extended capability: its header, with the offset of the one after it, and its body."""
    return struct.pack("<I", ident | version << 16 | following << 20) + body


def acs(capabilities, control, vector=(), following=0, version=1, size=0, doublewords=0):
    """An ACS structure; vector lists the Port Numbers whose bit is set."""
    bits = sum(1 << number for number in set(vector))
    body = struct.pack("<HH", capabilities | size << 8, control)
    return capability(ACS, following, version, body + bits.to_bytes(4 * doublewords, "little"))


def downstream_port(capabilities, header_type=BRIDGE):
    """A port as record 2 of Fabric F, with a prefetchable window besides."""
    return bridge((2, 3, 3), (0x80000000, 0x800FFFFF), (0x40_00000000, 0x40_FFFFFFFF),
                  capabilities, header_type)


def samples():
    egress = acs(EVERY, V | B | R | U | E, [2], size=8, doublewords=1)
    good = downstream_port({
        0x100: capability(ERRORS, 0x148, version=2),
        0x148: capability(SERIAL_NUMBER, 0x160),
        0x160: egress,
    })
    return {
        # Filled ones.
        "downstream-port.config": good,
        # Size 00h beside E is 256 bits; the structure ends where the image does.
        "vector-256.config": downstream_port({
            0x100: capability(SERIAL_NUMBER, 0xFD8),
            0xFD8: acs(EVERY, E, [2, 255], doublewords=8),
        }, BRIDGE | SEVERAL_FUNCTIONS),
        "root-port.config": bridge((0, 1, 4), (0x80000000, 0x803FFFFF), CLOSED,
                                   {0x100: capability(ERRORS)}),
        # A card of several functions may have ACS, but is no bridge.
        "endpoint.config": image({
            HEADER_TYPE: bytes([ENDPOINT | SEVERAL_FUNCTIONS]),
            FIRST: acs(R | C | T, R),
        }),
        # Refused by 8.
        "user.config": good[:64],
        "not-extended.config": good[:256],
        # Refused by 9.
        "silent.config": b"\xff" * SIZE,
        "bad-offset.config": downstream_port({0x100: capability(ERRORS, 0x040), 0x040: egress}),
        "comes-back.config": downstream_port({
            0x100: capability(ERRORS, 0x148),
            0x148: capability(SERIAL_NUMBER, 0x100),
        }),
        "acs-version-2.config": downstream_port({0x100: acs(EVERY, 0, version=2, size=8, doublewords=1)}),
        "past-the-end.config": downstream_port({
            0x100: capability(SERIAL_NUMBER, 0xFF8),
            0xFF8: acs(EVERY, 0, size=8),
        }),
    }


if __name__ == "__main__":
    sys.exit(write("configuration spaces", "images", samples()))
