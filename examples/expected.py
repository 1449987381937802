#!/usr/bin/env python3
"""Makes what capcrypt must answer to each example: expected.py [FOLDER], by default beside this script.

It reads the captures that make.py left in FOLDER and writes FOLDER/expected and FOLDER/cases.txt.
The cipher of `quick` is openssl's, and how many records are whole is stated in the table below: nothing
here runs capcrypt, or decides what it must refuse. What `crypt` seals and opens is the work of
checks/reference.py; where the Python package `cryptography` is missing, all but that is made, and the
exit status is 3.
"""

import os
import struct
import subprocess
import sys

HERE = os.path.dirname(os.path.abspath(__file__))
FOLDER = sys.argv[1] if len(sys.argv) > 1 else HERE

sys.dont_write_bytecode = True
sys.path.append(os.path.join(HERE, "..", "checks"))
try:
    import reference
except ImportError:
    reference = None

KEY, SALT = "ae6852f8121067cc4bf7a5765577f39e", "00000030"
KEY_192 = "16af5b145fc9f579c175f93e3bfb0eed863d06ccfdb78515"
KEY_256 = "776beff2851db06f4c8a0542c8696f6c6a81af1eec96b4d37fc1d689e6c1c104"
# The ciphertext of the first test vector of RFC 3686, under KEY and SALT.
VECTOR = bytes.fromhex("e4095d4fb7a7b3792d6175a3261311b8")

# The case's name, its capture, the key, the salt, how many packets are written (None: not even
# the header) and the report's last line.
CASES = [
    ("vector", "vector", KEY, SALT, 1, "status=0"),
    ("vector-upper", "vector", KEY.upper(), SALT, 1, "status=0"),
    ("ten-little-micro", "ten-little-micro", KEY, SALT, 10, "status=0"),
    ("ten-little-nano", "ten-little-nano", KEY, SALT, 10, "status=0"),
    ("ten-big-micro", "ten-big-micro", KEY, SALT, 10, "status=0"),
    ("ten-big-nano", "ten-big-nano", KEY, SALT, 10, "status=0"),
    ("key-192", "ten-little-micro", KEY_192, SALT, 10, "status=0"),
    ("key-256", "ten-little-micro", KEY_256, SALT, 10, "status=0"),
    ("sizes", "sizes", KEY, SALT, 6, "status=0"),
    ("header-only", "header-only", KEY, SALT, 0, "status=0"),
    ("wide", "wide", KEY, SALT, 1, "status=0"),
    ("short-header", "short-header", KEY, SALT, None, "status=3 capture at=0 cause=short_header"),
    ("no-magic", "no-magic", KEY, SALT, None, "status=3 capture at=0 cause=bad_magic"),
    ("bad-version", "bad-version", KEY, SALT, None, "status=3 capture at=4 cause=bad_version"),
    ("torn", "torn", KEY, SALT, 2, "status=3 capture at=176 cause=short_record"),
    ("cut", "cut", KEY, SALT, 1, "status=3 capture at=100 cause=short_data"),
    ("large", "large", KEY, SALT, 1, "status=8 too large value=262145"),
    ("large-original", "large-original", KEY, SALT, 1, "status=8 too large value=4294967232"),
]

# Words that are no call of capcrypt.
USAGE = [
    ("no-words", ""),
    ("no-salt", f"quick {KEY}"),
    ("extra-word", f"quick {KEY} {SALT} {SALT}"),
    ("other-word", f"slow {KEY} {SALT}"),
    ("short-key", f"quick {KEY[:-1]} {SALT}"),
    ("long-key", f"quick {KEY_256}00 {SALT}"),
    ("key-not-hex", f"quick {KEY[:-1]}g {SALT}"),
    ("short-salt", f"quick {KEY} {SALT[:-1]}"),
    ("salt-not-hex", f"quick {KEY} 0x000030"),
]

ONE = "mode=round-robin,worker=plain"
TWO = "worker=plain,worker=plain"
CRYPT = f"crypt --vdev {ONE} --sessions"

# The case's name, its command, its session file, whether that seals, the scheduler text, and the burst size, if the words give one.
GATEWAY = [
    ("gateway", "crypt", "gateway", True, ONE, None),
    ("gateway-inward", "crypt", "gateway-inward", False, ONE, 7),
    ("gateway-in-turn", "crypt", "gateway", True, f"mode=round-robin,{TWO},ordering=enable", 32),
    (
        "gateway-by-size",
        "crypt",
        "gateway",
        True,
        f"mode=packet-size-distr,{TWO},mode_param=threshold:256",
        32,
    ),
    (
        "gateway-fail-over",
        "crypt",
        "gateway-inward",
        False,
        f"mode=fail-over,{TWO},ordering=enable",
        256,
    ),
    ("gateway-forward", "forward", "gateway", True, f"mode=round-robin,{TWO}", None),
]

# Calls that end before the capture is read, and their reports.
REFUSED = [
    ("sessions-folder", f"{CRYPT} examples", "status=5 read fault"),
    ("sessions-missing", f"{CRYPT} examples/none", "status=5 read fault"),
    ("sessions-faulty", f"{CRYPT} examples/faulty.sessions", "status=4 sessions line=4 kind=7"),
    (
        "other-vdev",
        "crypt --vdev mode=round-robin --sessions examples/gateway.sessions",
        "status=2 vdev at=16",
    ),
    (
        "unknown-field",
        "crypt --vdev mode=round-robin,worker=plain,threshold=5 --sessions examples/gateway.sessions",
        "status=2 vdev at=30",
    ),
    (
        "multi-core",
        "crypt --vdev mode=multi-core,worker=plain --sessions examples/gateway.sessions",
        "status=2 usage",
    ),
    ("burst-zero", f"{CRYPT} examples/gateway.sessions --burst 0", "status=2 usage"),
    (
        "forward-burst",
        f"forward --vdev {ONE} --sessions examples/gateway.sessions --burst 32",
        "status=2 usage",
    ),
]


def encrypt(key, salt, n, data):
    words = ["openssl", "enc", f"-aes-{4 * len(key)}-ctr", "-nosalt", "-K", key]
    words += ["-iv", f"{salt}{n:016x}00000001"]
    return subprocess.run(words, input=data, stdout=subprocess.PIPE, check=True).stdout


def answer(capture, key, salt, packets):
    """The header with its snaplen raised, and this many records with their data encrypted."""
    order = "<" if capture[0] in (0xD4, 0x4D) else ">"
    (snaplen,) = struct.unpack_from(order + "I", capture, 16)
    made = capture[:16] + struct.pack(order + "I", max(snaplen, 262208)) + capture[20:24]
    at = 24
    for n in range(packets):
        (length,) = struct.unpack_from(order + "I", capture, at + 8)
        data = capture[at + 16 : at + 16 + length]
        made += capture[at : at + 16] + encrypt(key, salt, n, data)
        at += 16 + length
    return made


def read(folder, name):
    with open(os.path.join(folder, name), "rb") as file:
        return file.read()


def write(name, data):
    with open(os.path.join(FOLDER, name), "wb") as file:
        file.write(data)


def gateway():
    """What is sealed of mixed.pcap, and the reports. Opened, it has to be that capture again."""
    captures = {True: read(FOLDER, "mixed.pcap")}
    for name, _, sessions, seals, vdev, burst in GATEWAY:
        text = read(HERE, f"{sessions}.sessions").decode()
        made, _, told = reference.crypt(text, captures[seals], vdev, burst or 32)
        write(f"expected/{name}.report", told)
        if made != captures.setdefault(not seals, made):
            sys.exit("the sealed capture isn't taken back, or isn't sealed as before")
    write("expected/gateway.pcap", captures[False])


def report(name, packets, last):
    lines = []
    if packets is not None:
        counts = f"packets={packets} success={packets}"
        lines.append(f"{counts} auth_failed=0 invalid_args=0 short=0 passed=0")
        lines.append(f"device 0 operations={packets}")
    text = "".join(f"{line}\n" for line in [*lines, last])
    write(f"expected/{name}.report", text.encode())


os.makedirs(os.path.join(FOLDER, "expected"), exist_ok=True)
table = ["# case, capture, status, expected output (none: nothing is written), words"]
for name, source, key, salt, packets, last in CASES:
    output = "none"
    if packets is not None:
        output = f"expected/{name}.pcap"
        made = answer(read(FOLDER, source + ".pcap"), key, salt, packets)
        if source == "vector":
            # What is written is the published ciphertext, and openssl has to agree with it.
            if made[40:] != VECTOR:
                sys.exit("openssl and the test vector of RFC 3686 differ")
            made = made[:40] + VECTOR
        write(output, made)
    report(name, packets, last)
    status = last[len("status=")]
    table.append(f"{name} {source}.pcap {status} {output} quick {key} {salt}")
for name, words in USAGE:
    report(name, None, "status=2 usage")
    table.append(f"{name} vector.pcap 2 none {words}".rstrip())
for name, command, sessions, seals, vdev, burst in GATEWAY:
    files = "mixed.pcap 0 expected/gateway.pcap" if seals else "expected/gateway.pcap 0 mixed.pcap"
    words = f"{command} --vdev {vdev} --sessions examples/{sessions}.sessions"
    table.append(f"{name} {files} {words}" + (f" --burst {burst}" if burst else ""))
for name, words, last in REFUSED:
    report(name, None, last)
    table.append(f"{name} vector.pcap {last[len('status=')]} none {words}")
write("cases.txt", "".join(f"{line}\n" for line in table).encode())
if reference is None:
    sys.exit(3)
gateway()
