#!/usr/bin/env python3
"""Writes the map files of the examples, and broken ones: make_maps.py [rack DIR] [broken DIR]"""
import sys
from pathlib import Path


def switches(kind, pins, first, changes):
    entries = b"".join(
        address.to_bytes(3, "big") + (bytes([code]) if kind else b"") for address, code in changes
    )
    return b"SWL\0\1" + bytes([kind, pins, first]) + len(changes).to_bytes(2, "big") + entries


def bits(pins, first, addresses):
    return switches(0, pins, first, [(address, None) for address in addresses])


def settings(pins, first, changes):
    return switches(1, pins, first, changes)


def ranges(pins, pairs):
    entries = b"".join(a.to_bytes(3, "big") + b.to_bytes(3, "big") for a, b in pairs)
    return b"RNG\0\1" + bytes([pins]) + len(pairs).to_bytes(2, "big") + entries


def setting(chip, waits):
    return 8 * chip + waits


RACK = {
    # The first customer's rack of 16 pins: RAM, a gap, and ROM at the top with two waits.
    "rack.swl": settings(16, setting(2, 0), [(0x8000, setting(0, 0)), (0xC000, setting(1, 2))]),
    # The second customer's card of 12 pins: a display, a disk with three waits, and nothing behind them.
    "card.swl": settings(12, setting(5, 1), [(0x400, setting(6, 3)), (0x800, setting(0, 0))]),
    # Addresses that strobe the I/O window: a timer, a serial port and a parallel port.
    "io.rng": ranges(16, [(0xD000, 0xD00F), (0xD100, 0xD107), (0xD200, 0xD203)]),
    # The small RAM of 11 pins, of which the upper half is kept when power fails.
    "kept.swl": bits(11, 0, [0x400]),
    # Writable addresses of the whole rack: the RAM.
    "writable.swl": bits(16, 1, [0x8000]),
}

TWO = bits(2, 0, [1, 3])

BROKEN = {
    "two.swl": TWO,
    "three.swl": bits(2, 0, [1, 2, 3]),
    "half.swl": bits(2, 0, [2]),
    "one.swl": bits(1, 0, [1]),
    "chips.swl": settings(2, 8, [(1, 16), (2, 8)]),
    "idle.swl": settings(2, 1, [(2, 16)]),
    "spots.rng": ranges(3, [(1, 2), (5, 5)]),
    "short.swl": TWO[:7],
    "mark.swl": b"SWX" + TWO[3:],
    "version.swl": TWO[:4] + b"\2" + TWO[5:],
    "pins.swl": TWO[:6] + b"\x15" + TWO[7:],
    "count.swl": TWO[:8] + b"\4\1" + TWO[10:],
    "cut.swl": TWO[:-1],
    "trailing.swl": TWO + b"\0",
    "above.swl": bits(2, 0, [1, 4]),
    "order.swl": bits(2, 0, [3, 1]),
    "code.swl": settings(2, 8, [(1, 128)]),
    "same.swl": settings(2, 8, [(1, 8)]),
    "touching.rng": ranges(3, [(1, 2), (3, 5)]),
}


def write(files, folder):
    for name, data in files.items():
        Path(folder, name).write_bytes(data)


def main(words):
    groups = {"rack": RACK, "broken": BROKEN}
    if not words:
        words = ["rack", Path(__file__).parent]
    for group, folder in zip(words[::2], words[1::2]):
        write(groups[group], folder)


main(sys.argv[1:])
