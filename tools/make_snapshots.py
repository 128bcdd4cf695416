#!/usr/bin/env python3
"""Write the sample snapshots of examples/snapshots/.

    tools/make_snapshots.py [FOLDER]            write them
    tools/make_snapshots.py --check [FOLDER]    compare them, byte for byte

The same bytes come out on every run and every machine. The layout is the one
of docs/INTERFACE.md.
"""

import struct
import sys

from samples import write

ROOT_PORT, UPSTREAM, DOWNSTREAM, ENDPOINT = 1, 2, 3, 4
NO_PARENT = 0xFFFF
CLOSED = (1, 0)

MIB = 1 << 20
GIB = 1 << 30

# Flags of the snapshot.
ROOTS_REACH_EACH_OTHER = 1
REFLECT = 2

# Bits of Capability and Control.
V, B, R, C, U, E, T = (1 << bit for bit in range(7))

TAKEN = 1704067200  # 2024-01-01 00:00:00 UTC
UNTIL = 4102444800  # 2100-01-01 00:00:00 UTC


def record(kind, parent, own_bus, *, port=0, devfn=0, buses=(0, 0),
           capability=0, control=0, vector=(), ranges=()):
    """One record of 144 bytes; vector lists the Port Numbers whose bit is set."""
    bits = sum(1 << number for number in set(vector))
    out = struct.pack("<BBHBBBBHH4x", kind, port, parent, own_bus, devfn,
                      buses[0], buses[1], capability, control)
    out += bits.to_bytes(32, "little")
    for first, last in list(ranges) + [CLOSED] * (6 - len(ranges)):
        out += struct.pack("<QQ", first, last)
    assert len(out) == 144
    return out


def snapshot(records, *, flags=REFLECT, version=1, taken=TAKEN, until=UNTIL):
    head = struct.pack("<3sBHHQQ", b"ACS", flags, version, len(records), taken, until)
    assert len(head) == 24 and len(records) <= 256
    return head + b"".join(records)


def span(first, length):
    return (first, first + length - 1)


def fabric_f(control, vector=(), capability=0x087F, peer=2):
    """Fabric F, the same registers on its three ports; peer is record 3's Port Number."""
    acs = dict(capability=capability, control=control, vector=vector)
    return [
        record(ROOT_PORT, NO_PARENT, 0, port=0, devfn=8, buses=(1, 4),
               ranges=[(0x80000000, 0x803FFFFF)], **acs),
        record(UPSTREAM, 0, 1, buses=(2, 4), ranges=[(0x80000000, 0x803FFFFF)]),
        record(DOWNSTREAM, 1, 2, port=1, devfn=0, buses=(3, 3),
               ranges=[(0x80000000, 0x800FFFFF)], **acs),
        record(DOWNSTREAM, 1, 2, port=peer, devfn=8, buses=(4, 4),
               ranges=[(0x80100000, 0x801FFFFF)], **acs),
        record(ENDPOINT, 2, 3, ranges=[(0x80000000, 0x80000FFF)]),
        record(ENDPOINT, 3, 4, ranges=[(0x80100000, 0x80100FFF)]),
    ]


def misplaced_endpoint():
    """Fabric F, but endpoint 5's range lies outside the window of its port."""
    records = fabric_f(V | B | R | U)
    records[5] = record(ENDPOINT, 3, 4, ranges=[(0x80200000, 0x80200FFF)])
    return records


def deepest():
    """The deepest fabric: 256 records in one chain, the endpoint at the bottom.

    Each bridge takes a bus, so the chain also uses every bus number. All ports
    have U on: what the endpoint sends to its own address goes up through 128
    ports, is reflected, and comes down through the same 128.
    """
    acs = dict(capability=0x087F, control=V | B | R | U)
    window = [span(0x80000000, MIB)]
    chain = [record(ROOT_PORT, NO_PARENT, 0, devfn=8, buses=(1, 255), ranges=window, **acs)]
    for index in range(1, 255):
        if index % 2 == 1:
            chain.append(record(UPSTREAM, index - 1, index, buses=(index + 1, 255),
                                ranges=window))
        else:
            chain.append(record(DOWNSTREAM, index - 1, index, port=1, buses=(index + 1, 255),
                                ranges=window, **acs))
    chain.append(record(ENDPOINT, 254, 255, ranges=[span(0x80000000, 4096)]))
    return chain


# The large chassis: four root ports, a switch of twelve slots below each, and a
# riser with a switch of its own in the last slot of the first two.
SLOTS = 12
RISER_SLOTS = 4
BUSES = 64                        # for each root port
LOW, LOW_SHARE = 0x80000000, 256 * MIB
HIGH, HIGH_SHARE = 0x40_00000000, 64 * GIB
SLOT_LOW, SLOT_HIGH = 16 * MIB, 4 * GIB

# What each root port has, and what is on.
CHASSIS_ROOTS = [
    (V | B | R | C | U | T, V | B | R | C | U),  # redirects and forwards
    (V | B | R | C | U, V | B | R | U),          # the same without T
    (V | B, V | B),                              # no redirect, no forwarding
    (0, 0),                                      # no ACS at all
]

# Kinds of card: ranges as (place in the low or the high window, length).
CARDS = {
    "gpu": [("low", 4 * MIB), ("high", 2 * GIB)],
    "nic": [("low", 64 * 1024), ("low", 16 * 1024), ("high", 8 * MIB)],
    "nvme": [("low", 16 * 1024)],
    "capture": [("low", 128), ("high", 256 * MIB)],
    None: [],
}
PLACES = ["gpu", "nic", "nvme", "nvme", "gpu", "capture",
          "nvme", None, "gpu", "nic", "nvme", "nvme"]


def slot_acs(switch, slot):
    """Capability, Control and vector of one slot's port."""
    every = V | B | R | C | U | T
    if switch == 0:    # all on that isolates a slot
        return every | E | SLOTS << 8, V | B | R | C | U, ()
    if switch == 1:    # three clients of four slots: a set bit redirects, the own group is direct
        group = slot // 4
        others = [number for number in range(SLOTS) if number // 4 != group]
        return every | E | 16 << 8, V | B | R | C | U | E, others
    if switch == 2:    # no egress control; half of the slots let translated requests pass
        return every, (V | R | U | T) if slot % 2 else (V | B | R | U), ()
    if slot < 6:       # an old switch: half of its ports have no ACS
        return 0, 0, ()
    return every, (V if slot % 2 else 0), ()


def card(kind, parent, bus, low, high):
    """An endpoint with its ranges packed from the start of its port's windows."""
    at = {"low": low, "high": high}
    ranges = []
    for where, length in CARDS[kind]:
        first = -(-at[where] // length) * length
        ranges.append(span(first, length))
        at[where] = first + length
    return record(ENDPOINT, parent, bus, ranges=ranges)


def chassis():
    records = []
    for number, (capability, control) in enumerate(CHASSIS_ROOTS):
        bus = 1 + number * BUSES
        last_bus = min((number + 1) * BUSES, 255)
        low, high = LOW + number * LOW_SHARE, HIGH + number * HIGH_SHARE
        root = len(records)
        windows = [span(low, LOW_SHARE), span(high, HIGH_SHARE)]
        records.append(record(ROOT_PORT, NO_PARENT, 0, port=number, devfn=(number + 1) << 3,
                              buses=(bus, last_bus), capability=capability, control=control,
                              ranges=windows))
        upstream = len(records)
        records.append(record(UPSTREAM, root, bus, buses=(bus + 1, last_bus), ranges=windows))
        next_bus = bus + 2
        for slot in range(SLOTS):
            riser = slot == SLOTS - 1 and number < 2
            buses = (next_bus, next_bus + (1 + RISER_SLOTS if riser else 0))
            next_bus = buses[1] + 1
            slot_low, slot_high = low + slot * SLOT_LOW, high + slot * SLOT_HIGH
            capability, control, vector = slot_acs(number, slot)
            port = len(records)
            records.append(record(
                DOWNSTREAM, upstream, bus + 1, port=slot, devfn=slot << 3, buses=buses,
                capability=capability, control=control, vector=vector,
                ranges=[span(slot_low, SLOT_LOW), span(slot_high, SLOT_HIGH)]))
            if riser:
                records += riser_below(len(records), port, buses, slot_low, slot_high)
            elif PLACES[slot]:
                records.append(card(PLACES[slot], port, buses[0], slot_low, slot_high))
    return records


def riser_below(start, port, buses, low, high):
    """A small switch in a slot: four slots, an NVMe card in the first three."""
    records = [record(UPSTREAM, port, buses[0], buses=(buses[0] + 1, buses[1]),
                      ranges=[span(low, SLOT_LOW), span(high, SLOT_HIGH)])]
    for slot in range(RISER_SLOTS):
        bus = buses[0] + 2 + slot
        slot_low = low + slot * MIB
        records.append(record(DOWNSTREAM, start, buses[0] + 1, port=slot, devfn=slot << 3,
                              buses=(bus, bus), capability=V | B | R | C | U | T,
                              control=V | B | R | C | U, ranges=[span(slot_low, MIB)]))
        if slot < RISER_SLOTS - 1:
            records.append(card("nvme", start + len(records) - 1, bus, slot_low, high))
    return records


def samples():
    whole = snapshot(fabric_f(0x17))
    return {
        # Fabric F, named by its Control register: cases of docs/RULES.md.
        "fabric-f-00h.acs": snapshot(fabric_f(0x00)),                   # F1, F11, F12, F13
        "fabric-f-17h.acs": whole,                                      # F2, F8, F9
        "fabric-f-17h-blocking.acs": snapshot(fabric_f(0x17), flags=0),  # F3
        "fabric-f-07h.acs": snapshot(fabric_f(0x07)),                   # F4
        "fabric-f-37h.acs": snapshot(fabric_f(0x37)),                   # F5
        "fabric-f-37h-bit-2.acs": snapshot(fabric_f(0x37, [2])),        # F6
        "fabric-f-20h-bit-2.acs": snapshot(fabric_f(0x20, [2])),        # F7
        "fabric-f-55h.acs": snapshot(fabric_f(0x55)),                   # F10
        "fabric-f-18h.acs": snapshot(fabric_f(0x18)),                   # F14
        "fabric-f-37h-full-bit-2.acs": snapshot(fabric_f(0x37, [2], 0x007F)),              # F16
        "fabric-f-20h-full-port-255.acs": snapshot(fabric_f(0x20, [255], 0x007F, 255)),    # F19
        "fabric-f-20h-ffh-port-255.acs": snapshot(fabric_f(0x20, [255], 0xFF7F, 255)),     # F19
        # Larger ones.
        "chassis.acs": snapshot(chassis(), flags=REFLECT | ROOTS_REACH_EACH_OTHER),
        "deepest.acs": snapshot(deepest()),
        # Refused ones.
        "expired.acs": snapshot(fabric_f(0x17), taken=1577836800, until=1580515199),
        "torn.acs": whole[:650],
        "other-version.acs": snapshot(fabric_f(0x17), version=99),
        "faulty-record.acs": snapshot(misplaced_endpoint()),
    }


if __name__ == "__main__":
    sys.exit(write("snapshots", "snapshots", samples()))
