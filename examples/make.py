#!/usr/bin/env python3
"""Makes the example captures: make.py [FOLDER], by default beside this script.

Every byte is stated here, so each run makes the same files.
"""

import os
import struct
import sys

HERE = os.path.dirname(os.path.abspath(__file__))
FOLDER = sys.argv[1] if len(sys.argv) > 1 else HERE

SOURCE, TARGET = bytes([10, 0, 0, 1]), bytes([10, 0, 0, 2])
TCP, UDP = 6, 17


def checksum(data):
    """The Internet checksum: the inverted ones' complement sum of 16-bit words."""
    data += b"\0" * (len(data) % 2)
    total = sum(struct.unpack(f">{len(data) // 2}H", data))
    while total > 0xFFFF:
        total = (total & 0xFFFF) + (total >> 16)
    return total ^ 0xFFFF


def frame(n, protocol, length):
    """An Ethernet frame of this length, whose payload counts up from 16 n."""
    ports = struct.pack(">HH", 40000 + n, 80 if protocol == TCP else 5000)
    size = length - 34
    head = 20 if protocol == TCP else 8
    payload = bytes((16 * n + i) % 256 for i in range(size - head))

    def segment(check):
        if protocol == UDP:
            return ports + struct.pack(">HH", size, check) + payload
        sequence, acknowledged = 1000 * n, 7
        rest = (sequence, acknowledged, 0x5018, 8192, check, 0)
        return ports + struct.pack(">IIHHHH", *rest) + payload

    def internet(check):
        first = struct.pack(">BBHHHBBH", 0x45, 0, length - 14, n, 0x4000, 64, protocol, check)
        return first + SOURCE + TARGET

    pseudo = SOURCE + TARGET + struct.pack(">HH", protocol, size)
    ethernet = bytes.fromhex("020000000002 020000000001 0800")
    body = segment(checksum(pseudo + segment(0)) or 0xFFFF)
    return ethernet + internet(checksum(internet(0))) + body


# The first five frames are cut to so many bytes; the others are whole.
CUT = [0, 1, 15, 16, 17]
LENGTHS = [60, 60, 60, 60, 60, 60, 98, 342, 576, 1514]
TEN = []
for n, length in enumerate(LENGTHS):
    whole = frame(n, TCP if n % 2 else UDP, length)
    TEN.append((whole[: CUT[n]] if n < len(CUT) else whole, length))


def head(order="<", nano=False, magic=None, version=(2, 4), rest=(0, 0, 65535, 1)):
    """The header; `rest` is time zone, accuracy, snaplen and link type (1: Ethernet)."""
    magic = magic or (0xA1B23C4D if nano else 0xA1B2C3D4)
    return struct.pack(order + "IHHiIII", magic, *version, *rest)


def record(seconds, fraction, data, original=None, captured=None, order="<"):
    captured = len(data) if captured is None else captured
    original = captured if original is None else original
    return struct.pack(order + "IIII", seconds, fraction, captured, original) + data


def ten(order, nano):
    made = head(order, nano)
    for n, (data, original) in enumerate(TEN):
        fraction = 100000 * n + n
        if nano:
            fraction = 1000 * fraction + 7
        made += record(1700000000 + n, fraction, data, original, order=order)
    return made


# Packets that fill no segment of 2,048 bytes, just one, and two, and such as pass an end by a byte.
SIZES = [0, 1, 2047, 2048, 2049, 4096]


def sized():
    made = head()
    for n, size in enumerate(SIZES):
        made += record(1700000000 + n, n, bytes((7 * n + i) % 256 for i in range(size)))
    return made


# The length of an Ethernet header, and of small and large packets, of which some have whole blocks of
# 16 bytes behind that header or altogether.
MIXED = [14, 60, 30, 64, 62] * 7 + [142, 270, 526, 576, 1514]


def mixed():
    """Two hundred packets. Every third is UDP, where it has the byte 23 that says so, and the rest are TCP.

    Byte 5, the last of the target's address, says the same: it stays readable where only what is behind
    the Ethernet header is encrypted. Every seventh packet was cut by 100 bytes when it was captured.
    """
    made = head(rest=(0, 0, 262208, 1))
    for n in range(200):
        length = MIXED[n % len(MIXED)]
        protocol = UDP if n % 3 == 0 and length > 23 else TCP
        data = bytearray((7 * n + i) % 256 for i in range(length))
        data[5] = protocol
        if length > 23:
            data[23] = protocol
        original = length if n % 7 else length + 100
        made += record(1700000000 + n, 5 * n, bytes(data), original=original)
    return made


SIXTY = TEN[5][0]
GOOD = record(1700000000, 5, SIXTY)

FILES = {
    "ten-little-micro": ten("<", False),
    "ten-little-nano": ten("<", True),
    "ten-big-micro": ten(">", False),
    "ten-big-nano": ten(">", True),
    "sizes": sized(),
    "mixed": mixed(),
    # The plaintext of the first test vector of RFC 3686.
    "vector": head() + record(1, 0, b"Single block msg"),
    "header-only": head(),
    # A snaplen that is high enough already, and no field 0.
    "wide": head(rest=(-3600, 6, 300000, 113)) + GOOD,
    # What follows is refused, and all but the first three after some whole records.
    "short-header": head()[:23],
    "no-magic": head(magic=0x0A0D0D0A),
    "bad-version": head(version=(2, 3)) + GOOD,
    "torn": head() + GOOD + GOOD + GOOD[:9],
    "cut": head() + GOOD + GOOD[:-1],
    "large": head() + GOOD + record(1700000001, 6, b"", captured=262145),
    "large-original": head() + GOOD + record(1700000001, 6, SIXTY, original=4294967232),
}

os.makedirs(FOLDER, exist_ok=True)
for name, data in FILES.items():
    with open(os.path.join(FOLDER, name + ".pcap"), "wb") as file:
        file.write(data)
