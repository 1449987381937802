"""The capture of `gen N NUMBER`, by the words of docs/FORMATS.md. As a program it compares the generated captures with the digests
that the test of the crate capture_io expects, what `gen` reports with what checks/reference.py makes of the capture, and its digest
with that of what `crypt` writes. The program is
./capcrypt, or that which the environment variable CAPCRYPT names. Ends with 1 where something differs, and with 3 where
the Python package `cryptography` is missing."""
import hashlib
import os
import pathlib
import struct
import subprocess
import sys
import tempfile

sys.dont_write_bytecode = True
TOP = pathlib.Path(__file__).resolve().parent.parent
PROGRAM = os.environ.get("CAPCRYPT", "./capcrypt")
HEADER = struct.pack("<IHHIIII", 0xA1B2C3D4, 2, 4, 0, 0, 262144, 1)
CAPTURES = [(0, 7), (1, 0), (3, 2**64 - 1), (1001, 7), (2500, 123456789)]
RUNS = [(1, 2**64 - 1), (2, 0), (33, 12345), (1000, 7), (10000, 7)]
SCHEDULER = "mode=round-robin,worker=plain,worker=plain,ordering=enable"
SESSIONS = """capcrypt 1
session a gcm encrypt 000102030405060708090a0b0c0d0e0f 00000001 16 14
session b ctr encrypt 101112131415161718191a1b1c1d1e1f 00000002 + hmac-sha256 generate 202122232425262728292a2b2c2d2e2f 16
rule 23 11 a 14
default b 14
"""


def draws(state):
    """What the draws from a state give."""
    while True:
        state = (state * 6364136223846793005 + 1442695040888963407) % 2**64
        yield state // 2**33


def capture(count, number):
    """The capture of so many packets."""
    made, drawn = [HEADER], draws(number)
    for i in range(count):
        length = 60 + next(drawn) % 1455
        packet = bytearray(next(drawn) % 256 for _ in range(length))
        packet[12:14] = 8, 0
        packet[23] = 6 if i % 4 == 3 else 17
        made += [struct.pack("<IIII", i // 1000, i % 1000 * 1000, length, length), packet]
    return b"".join(made)


def digest_of(data):
    return hashlib.sha256(data).hexdigest()


def expected_digests():
    """Whether the test of capture_io has the digest of each of these captures, as bytes in hexadecimal."""
    text = (TOP / "crates/capture_io/src/tests/made.rt").read_text()
    listed = "".join(word[2:4] for word in text.replace(",", " ").replace("]", " ").split() if word.startswith("0x") and len(word) == 4)
    missing = [case for case in CAPTURES if digest_of(capture(*case)) not in listed]
    for case in missing:
        print(f"the test of capture_io hasn't the digest of {case}", file=sys.stderr)
    return not missing


def report_of(reference, count, number):
    """What `gen` reports."""
    sealed, _, report = reference.crypt(SESSIONS, capture(count, number), SCHEDULER)
    return report.replace(b"status=0\n", f"sha256={digest_of(sealed)}\nstatus=0\n".encode())


def reports(reference):
    """Whether the program reports so, writes nothing, and reads nothing: its input is closed."""
    same = True
    for count, number in RUNS:
        words = [PROGRAM, "gen", str(count), str(number)]
        ran = subprocess.run(words, stdin=subprocess.DEVNULL, capture_output=True, cwd=TOP, timeout=60)
        wanted = 0, b"", report_of(reference, count, number)
        if (ran.returncode, ran.stdout, ran.stderr) != wanted:
            print(f"gen {count} {number}: {ran} and not {wanted}", file=sys.stderr)
            same = False
    return same


def seals_alike():
    """Whether `crypt` writes what `gen` tells the digest of, over the same capture and with the stated texts."""
    count, number = RUNS[-1]
    with tempfile.NamedTemporaryFile("w", suffix=".sessions") as sessions:
        sessions.write(SESSIONS)
        sessions.flush()
        words = [PROGRAM, "crypt", "--vdev", SCHEDULER, "--sessions", sessions.name]
        written = subprocess.run(words, input=capture(count, number), capture_output=True, cwd=TOP, timeout=60).stdout
    told = subprocess.run([PROGRAM, "gen", str(count), str(number)], capture_output=True, cwd=TOP, timeout=60).stderr
    same = f"sha256={digest_of(written)}\n".encode() in told
    if not same:
        print(f"gen {count} {number} tells another digest than that of what crypt writes", file=sys.stderr)
    return same


def main():
    found = expected_digests() and seals_alike()
    try:
        import reference
    except ImportError:
        sys.exit(3 if found else 1)
    sys.exit(0 if reports(reference) and found else 1)


if __name__ == "__main__":
    main()
