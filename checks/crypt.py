"""Runs `crypt` and `forward` under sessions of every transform and key length, outward and back, and by turns through schedulers in
each mode, and compares what it writes and reports with checks/reference.py. The program is ./capcrypt, or that which the environment
variable CAPCRYPT names. Ends with 1 where something differs, and with 3 where the Python package
`cryptography` is missing."""
import itertools
import os
import pathlib
import subprocess
import sys
import tempfile

sys.dont_write_bytecode = True
try:
    import reference
except ImportError:
    sys.exit(3)

TOP = pathlib.Path(__file__).resolve().parent.parent
PROGRAM = os.environ.get("CAPCRYPT", "./capcrypt")
PLAIN = "worker=plain,worker=plain"
SCHEDULERS = [
    "mode=round-robin,worker=plain",
    f"mode=packet-size-distr,{PLAIN},ordering=enable",
    f"mode=round-robin,{PLAIN},worker=lane",
    f"ordering=enable,mode=fail-over,{PLAIN}",
    f"mode=round-robin,ordering=enable,{PLAIN},{PLAIN},{PLAIN},{PLAIN}",
    f"mode_param=threshold:64,mode=packet-size-distr,{PLAIN}",
    f"mode=fail-over,{PLAIN},ordering=disable",
]
HASHES = {"sha224": 28, "sha256": 32, "sha384": 48, "sha512": 64}
KEYS = [bytes(range(7, 7 + size)).hex() for size in (16, 24, 32)]
SALTS = {"cbc": "a0a1a2a3a4a5a6a7", "ctr": "b0b1b2b3", "gcm": "c0c1c2c3"}
CODE_KEY = bytes(range(100, 120)).hex()
# How each word is taken back.
BACK = {"encrypt": "decrypt", "generate": "verify"}
# Lengths that mixed.pcap hasn't: shorter than any skip but 0, and such that a digest, or a block of the data
# behind a skip of 14, passes the end of a segment of 2,048 bytes.
LARGE = [0, 1, 2046, 2062, 2064]
# The commands and their burst sizes, of which None is left out of the words. An adapter offers bursts of 32 too, as long as no device stalls.
WAYS = [
    ("crypt", 1),
    ("crypt", 7),
    ("crypt", 32),
    ("forward", None),
    ("crypt", 256),
    ("crypt", None),
]


def cipher(mode, key):
    return f"{mode} encrypt {key} {SALTS[mode]}"


def codes():
    return [f"hmac-{name} generate {CODE_KEY} {size}" for name, full in HASHES.items() for size in (4, full)]


def all_sessions():
    """The words of each session that goes outward, and its skip. In the pairs of a cipher and a code, keys and
    skips take turns."""
    for mode, key, skip in itertools.product(("cbc", "ctr"), KEYS, (0, 14)):
        yield cipher(mode, key), skip
    for key, tag, data in itertools.product(KEYS, (4, 8, 12, 16), (0, 14)):
        yield f"{cipher('gcm', key)} {tag} {data}", data
    yield from ((code, 0) for code in codes())
    for place, (mode, code) in enumerate(itertools.product(("cbc", "ctr"), codes())):
        yield f"{cipher(mode, KEYS[place % 3])} + {code}", (0, 14)[place // 3 % 2]


def taken_back(words):
    """The words of the session that takes back what this one does."""
    parts = reversed(words.split(" + "))
    return " + ".join(" ".join(BACK.get(word, word) for word in part.split()) for part in parts)


def text_of(sessions, rules, otherwise):
    lines = [f"session s{place} {words}" for place, words in enumerate(sessions)]
    return "".join(f"{line}\n" for line in ["capcrypt 1", *lines, *rules, f"default {otherwise}"])


def why_not(wanted, got):
    """The first difference of two captures with their reports."""
    why = "" if got[1] == wanted[1] else f"the report is {got[1]}, not {wanted[1]}; "
    at = 24
    for n, (_, _, _, packet) in enumerate(reference.records_of(wanted[0])):
        end = at + 16 + len(packet)
        one, other = wanted[0][at:end], got[0][at:end]
        if one != other:
            return f"{why}record {n} is {other.hex()}, not {one.hex()}"
        at = end
    return why + "the records are equal, so far as they are wanted"


class Runs:
    """The runs of the program, with what differed."""

    def __init__(self, folder):
        self.file = pathlib.Path(folder) / "sessions"
        self.ways = itertools.cycle(WAYS)
        self.schedulers = itertools.cycle(SCHEDULERS)
        self.differences = []

    def expect(self, holds, text, why):
        if not holds:
            self.differences.append(f"{why}, with\n{text}")

    def compare(self, text, capture):
        """Runs the program; gives the capture that is wanted, and the numbers of packets by outcome."""
        vdev, (command, burst) = next(self.schedulers), next(self.ways)
        made, counts, report = reference.crypt(text, capture, vdev, burst or 32)
        self.file.write_text(text)
        options = [] if burst is None else ["--burst", str(burst)]
        words = [PROGRAM, command, "--vdev", vdev, "--sessions", str(self.file), *options]
        ran = subprocess.run(words, input=capture, capture_output=True, cwd=TOP, timeout=60)
        got = ran.stdout, ran.stderr
        if got != (made, report) or ran.returncode:
            why = why_not((made, report), got)
            self.expect(False, text, f"{command} {vdev} {' '.join(options)} status {ran.returncode}: {why}")
        return made, counts

    def there_and_back(self, outward, inward, capture):
        """Gives what is sealed."""
        sealed, _ = self.compare(outward, capture)
        opened, _ = self.compare(inward, sealed)
        same = reference.records_of(opened) == reference.records_of(capture)
        self.expect(same, inward, "the reference doesn't take back what it made")
        return sealed

    def spoilt(self, place, inward, capture, sealed):
        """Two sealed packets, one with a bit flipped, and one with a shorter original length than a digest.
        Those before them are emptied, so that they are short."""
        was, now = reference.records_of(capture), reference.records_of(sealed)
        changed = [n for n, (one, other) in enumerate(zip(was, now)) if one != other]
        n, other = (changed[at % min(40, len(changed))] for at in (7 * place, 7 * place + 1))
        records = [(0, 0, 0, b"")] * (max(n, other) + 1)
        data = bytearray(now[n][3])
        data[37 * place % len(data)] ^= 1 << place % 8
        records[n] = *now[n][:3], bytes(data)
        records[other] = *now[other][:2], 3, now[other][3]
        made, counts = self.compare(inward, reference.capture_of(sealed[:24], records))
        made = reference.records_of(made)
        self.expect(made[n] == records[n], inward, "the reference changes a spoilt packet")
        taken = *was[other][:2], 0, was[other][3]
        self.expect(made[other] == taken, inward, "the reference doesn't open a packet")
        self.expect(counts["auth_failed"] == 1 == counts["success"], inward, "the reference counts otherwise")


def every_session(runs, capture):
    for place, (words, skip) in enumerate(all_sessions()):
        outward = text_of([words], [], f"s0 {skip}")
        inward = text_of([taken_back(words)], [], f"s0 {skip}")
        sealed = runs.there_and_back(outward, inward, capture)
        if "gcm" in words or "hmac" in words:
            runs.spoilt(place, inward, capture, sealed)


def many_sessions(runs, capture):
    """All sessions that leave byte 0 as it is in one text, by turns: packet n begins with 7 n mod 256."""
    chosen = [(words, skip) for words, skip in all_sessions() if skip or words.startswith("hmac")]
    rules = []
    for n in range(256):
        place = n % len(chosen)
        rules.append(f"rule 0 {7 * n % 256:02x} s{place} {chosen[place][1]}")
    outward = text_of([words for words, _ in chosen], rules, "pass")
    inward = text_of([taken_back(words) for words, _ in chosen], rules, "pass")
    runs.there_and_back(outward, inward, capture)


def choices(runs, capture):
    """Rules whose bytes end just with a packet, or one behind; an earlier rule; a skip behind the end."""
    sessions = [cipher("ctr", KEYS[0]), f"{cipher('gcm', KEYS[0])} 16 14", codes()[3]]
    packets = [record[3] for record in reference.records_of(capture)]
    end = len(packets[1]) - 1
    rules = [
        f"rule {end} {packets[1][end]:02x}{(packets[1][end] + 1) % 256:02x} pass",
        f"rule {end - 1} {packets[1][end - 1:].hex()} s0 14",
        f"rule 0 {packets[3][:64].hex()} s1 14",
        "rule 23 11 pass",
        "rule 23 06 s1 14",
        "rule 0 00 s0 100",
    ]
    _, counts = runs.compare(text_of(sessions, rules, "s2 0"), capture)
    missing = [outcome for outcome in ("success", "short", "passed") if not counts[outcome]]
    runs.expect(not missing, "rules", f"no packet was {missing}")


def gateway(runs, mixed):
    """The texts of the examples, on captures of other forms and on one that isn't sealed."""
    names = ("gateway", "gateway-inward")
    outward, inward = ((TOP / "examples" / f"{name}.sessions").read_text() for name in names)
    runs.compare(inward, mixed)
    for name in ("ten-big-nano", "ten-big-micro", "ten-little-nano", "header-only", "wide"):
        runs.compare(outward, (TOP / "examples" / f"{name}.pcap").read_bytes())


def main():
    mixed, sizes = ((TOP / "examples" / f"{name}.pcap").read_bytes() for name in ("mixed", "sizes"))
    records = reference.records_of(mixed)
    large = [(0, 0, size, bytes((3 * i) % 251 for i in range(size))) for size in LARGE]
    with tempfile.TemporaryDirectory() as folder:
        runs = Runs(folder)
        every_session(runs, reference.capture_of(mixed[:24], records + large))
        many_sessions(runs, reference.capture_of(sizes[:24], reference.records_of(sizes) + records + records))
        choices(runs, mixed)
        gateway(runs, mixed)
    for difference in runs.differences[:5]:
        print(difference, file=sys.stderr)
    if runs.differences:
        sys.exit(f"{len(runs.differences)} differences, of which at most five are shown")


main()
