"""Makes captures by tcpdump, tshark, editcap and scapy, so far as they are installed, seals each with `crypt`, opens it
again, and lets each of these tools read what came out. The program is ./capcrypt, or that which the environment variable
CAPCRYPT names. Wanted lengths come from the captures and the tag's length, contents from the captures. Ends with 1 where
something differs."""
import os
import pathlib
import shutil
import struct
import subprocess
import sys
import tempfile

TOP = pathlib.Path(__file__).resolve().parent.parent
PROGRAM = os.environ.get("CAPCRYPT", "./capcrypt")
TAG, KEY = 16, "000102030405060708090a0b0c0d0e0f"
ETHERNET, RAW = 1, 101
# Of each link type: its number, what stands before IP in a packet of version 4 and 6, where the protocol stands in each.
LINKS = {
    "Ethernet": (ETHERNET, "020000000002020000000001 0800", "020000000002020000000001 86dd", 23, 20),
    "VLAN": (ETHERNET, "020000000002020000000001 8100 0007 0800", "020000000002020000000001 8100 0007 86dd", 27, 24),
    "raw": (RAW, "", "", 9, 6),
    "cooked": (113, "0000 0001 0006 0200000000010000 0800", "0000 0001 0006 0200000000010000 86dd", 25, 22),
    "cooked 2": (276, "0800 0000 00000001 0001 00 06 0200000000010000", "86dd 0000 00000001 0001 00 06 0200000000010000", 29, 26),
    "loopback": (0, "02000000", "1e000000", 13, 10),
}
UDP, TCP = 17, 6
PAYLOADS = [8, 40, 512, 1400]
failures, skipped = [], []


def expect(holds, what):
    if not holds:
        failures.append(what)


def has(tool):
    if shutil.which(tool) is None and tool not in skipped:
        skipped.append(tool)
    return tool not in skipped


def tool(*words, data=None):
    """What a tool writes; it must end with 0."""
    ran = subprocess.run([str(word) for word in words], input=data, capture_output=True, timeout=60, check=False)
    expect(ran.returncode == 0, f"{' '.join(map(str, words))} ends with {ran.returncode}: {ran.stderr.decode(errors='replace')}")
    return ran.stdout


def ip(version, protocol, size):
    """A datagram over IPv4 or IPv6, whose payload counts up."""
    payload = bytes(n % 251 for n in range(size))
    head = struct.pack(">HHHH", 40000, 5000, 8 + size, 0)
    if protocol == TCP:
        head = struct.pack(">HHIIHHHH", 40000, 80, 1, 1, 0x5018, 8192, 0, 0)
    body = head + payload
    if version == 6:
        return struct.pack(">IHBB", 6 << 28, len(body), protocol, 64) + bytes(15) + b"\1" + bytes(15) + b"\2" + body
    first = struct.pack(">BBHHHBBH", 0x45, 0, 20 + len(body), 1, 0x4000, 64, protocol, 0)
    return first + bytes([10, 0, 0, 1, 10, 0, 0, 2]) + body


def frames_of(link):
    _, four, six, _, _ = LINKS[link]
    fronts = {4: bytes.fromhex(four), 6: bytes.fromhex(six)}
    return [fronts[version] + ip(version, protocol, size) for size in PAYLOADS for version in (4, 6) for protocol in (UDP, TCP)]


def capture(frames, link_type, order="<", magic=0xA1B2C3D4):
    header = struct.pack(order + "IHHiIII", magic, 2, 4, 0, 0, 65535, link_type)
    heads = (struct.pack(order + "IIII", 1700000000 + n, 1000 * n, len(frame), len(frame)) for n, frame in enumerate(frames))
    return header + b"".join(head + frame for head, frame in zip(heads, frames))


def records(data):
    """The records of a classic capture: seconds, fraction, original length, bytes."""
    order = "<" if data[:1] in (b"\xd4", b"\x4d") else ">"
    at = 24
    while at < len(data):
        seconds, fraction, length, original = struct.unpack(order + "IIII", data[at:at + 16])
        yield seconds, fraction, original, data[at + 16:at + 16 + length]
        at += 16 + length


def crypt(text, data, name, status=0):
    with tempfile.NamedTemporaryFile("w", suffix=".sessions") as file:
        file.write(text)
        file.flush()
        words = [PROGRAM, "crypt", "--vdev", "mode=round-robin,worker=plain", "--sessions", file.name]
        ran = subprocess.run(words, input=data, capture_output=True, cwd=TOP, timeout=300, check=False)
    expect(ran.returncode == status, f"{name}: crypt ends with {ran.returncode}: {ran.stderr.decode()}")
    return ran.stdout, ran.stderr.decode()


def session_text(word, rules="", otherwise="a 0"):
    return f"capcrypt 1\nsession a gcm {word} {KEY} 00000001 {TAG} 0\n{rules}default {otherwise}\n"


def read_by_tools(data, name):
    """Each tool reads the capture, with the lengths that stand in it."""
    lengths = [len(packet) for *_, packet in records(data)]
    with tempfile.TemporaryDirectory() as folder:
        file = pathlib.Path(folder) / "read.pcap"
        file.write_bytes(data)
        if has("tcpdump"):
            again = tool("tcpdump", "-r", "-", "-w", "-", data=data)
            expect([len(packet) for *_, packet in records(again)] == lengths, f"{name}: tcpdump reads other lengths")
        if has("tshark"):
            said = tool("tshark", "-r", file, "-T", "fields", "-e", "frame.cap_len").split()
            expect([int(word) for word in said] == lengths, f"{name}: tshark reads other lengths")
        if has("editcap"):
            tool("editcap", "-F", "pcap", file, pathlib.Path(folder) / "again.pcap")
        if has("scapy"):
            code = "import sys, scapy.utils as u; print(*[len(p[0]) for p in u.RawPcapReader(sys.argv[1])])"
            said = tool("/usr/bin/python3", "-c", code, file).split()
            expect([int(word) for word in said] == lengths, f"{name}: scapy reads other lengths")


def there_and_back(data, name):
    """Seals a capture and opens it: what is sealed is longer by the tag, and what is opened is the capture."""
    sealed, _ = crypt(session_text("encrypt"), data, name)
    was, now = list(records(data)), list(records(sealed))
    grown = [(seconds, fraction, original + TAG, len(packet) + TAG) for seconds, fraction, original, packet in was]
    expect([(*record[:3], len(record[3])) for record in now] == grown, f"{name}: sealed lengths and times")
    expect(all(one[3] != other[3][:-TAG] for one, other in zip(was, now) if one[3]), f"{name}: a packet stayed readable")
    opened, report = crypt(session_text("decrypt"), sealed, name)
    expect(opened[24:] == data[24:] and opened[:16] == data[:16], f"{name}: opened differs")
    expect(report.startswith(f"packets={len(was)} success={len(was)} auth_failed=0 "), f"{name}: {report}")
    for made, what in ((sealed, "sealed"), (opened, "opened")):
        read_by_tools(made, f"{name}, {what}")


def offsets(link):
    """The rules of the recipes' table choose the UDP packets of each version, and no other."""
    number, _, _, four, six = LINKS[link]
    rules = {4: f"rule {four} 11 a 0\n", 6: f"rule {six} 11 a 0\n"}
    frames = frames_of(link)
    for version, rule in rules.items():
        sealed, _ = crypt(session_text("encrypt", rule, "pass"), capture(frames, number), link)
        chosen = [len(frame) != len(record[3]) for frame, record in zip(frames, records(sealed))]
        wanted = [one == (version, UDP) for _ in PAYLOADS for one in ((4, UDP), (4, TCP), (6, UDP), (6, TCP))]
        expect(chosen == wanted, f"{link}: a rule of version {version} chooses {chosen}")


def by_tools(folder, base):
    """The captures of the tools, from one of Ethernet, as pairs of a name and the bytes."""
    file, out = folder / "base.pcap", folder / "out.pcap"
    file.write_bytes(base)
    if has("tcpdump"):
        yield "tcpdump", tool("tcpdump", "-r", "-", "-w", "-", data=base)
        yield "tcpdump, empty", tool("tcpdump", "-r", "-", "-w", "-", "tcp port 9", data=base)
        yield "tcpdump, nanoseconds", tool("tcpdump", "--nano", "-r", "-", "-w", "-", data=base)
    for name, words in {
        "editcap": ["-F", "pcap"],
        "editcap, nanoseconds": ["-F", "nsecpcap"],
        "editcap, snaplen": ["-F", "pcap", "-s", "60"],
        "editcap, raw IP": ["-F", "pcap", "-C", "14", "-T", "rawip"],
    }.items():
        if has("editcap"):
            tool("editcap", *words, file, out)
            yield name, out.read_bytes()
    if has("tshark"):
        tool("tshark", "-r", file, "-F", "pcap", "-w", out)
        yield "tshark", out.read_bytes()
    if has("scapy"):
        code = "import sys; from scapy.all import *; wrpcap(sys.argv[2], rdpcap(sys.argv[1]), endianness=sys.argv[3])"
        for order in "<>":
            tool("/usr/bin/python3", "-c", code, file, out, order)
            yield f"scapy, {order}", out.read_bytes()


def newer_format(folder, base):
    """A pcapng is refused, and what the recipe makes of it isn't."""
    if has("editcap"):
        file, newer, classic = (folder / name for name in ("base.pcap", "new.pcapng", "classic.pcap"))
        file.write_bytes(base)
        tool("editcap", "-F", "pcapng", file, newer)
        made, report = crypt(session_text("encrypt"), newer.read_bytes(), "pcapng", 3)
        expect((made, report) == (b"", "status=3 capture at=0 cause=bad_magic\n"), f"pcapng: {report}")
        tool("editcap", "-F", "pcap", newer, classic)
        expect(list(records(classic.read_bytes())) == list(records(base)), "pcapng: the recipe loses something")
        there_and_back(classic.read_bytes(), "pcapng, converted")


def main():
    base = capture(frames_of("Ethernet"), ETHERNET)
    for order, magic in ((order, magic) for order in "<>" for magic in (0xA1B2C3D4, 0xA1B23C4D)):
        there_and_back(capture(frames_of("Ethernet"), ETHERNET, order, magic), f"by hand, {order}{magic:x}")
    for link in LINKS:
        offsets(link)
        there_and_back(capture(frames_of(link)[:4], LINKS[link][0]), link)
    with tempfile.TemporaryDirectory() as name:
        folder = pathlib.Path(name)
        made = list(by_tools(folder, base))
        for one, data in made:
            there_and_back(data, one)
        newer_format(folder, base)
    for one in skipped:
        print(f"skipped what {one} makes and reads: not installed")
    print(f"captures: {4 + len(LINKS) + len(made)} by hand and by tools")
    for failure in failures[:5]:
        print(failure, file=sys.stderr)
    sys.exit(1 if failures else 0)


main()
