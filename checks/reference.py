"""What `crypt` makes of a whole capture by a legal session text: by Python's hmac, and by the package
`cryptography` (without it, importing this fails with ImportError). It knows nothing of the program."""
import hmac
import struct
from collections import Counter

import dealing
from cryptography.exceptions import InvalidTag
from cryptography.hazmat.primitives.ciphers import Cipher
from cryptography.hazmat.primitives.ciphers.algorithms import AES
from cryptography.hazmat.primitives.ciphers.modes import CBC, CTR, ECB, GCM

OUTCOMES = ["success", "auth_failed", "invalid_args", "short", "passed"]


class Session:
    """A session, of the words behind its name. Without a cipher `mode` is None, without a code `hash` is,
    and `tag` is the length of the digest or tag, if any."""

    def __init__(self, words):
        self.mode = self.hash = None
        self.tag = 0
        for part in words.split(" + "):
            kind, act, *rest = part.split()
            self.inward = act in ("decrypt", "verify")
            if kind.startswith("hmac-"):
                self.hash, self.code_key, self.tag = kind[5:], bytes.fromhex(rest[0]), int(rest[1])
            else:
                self.mode, self.key, self.salt = kind, bytes.fromhex(rest[0]), bytes.fromhex(rest[1])
                if kind == "gcm":
                    self.tag = int(rest[2])

    def crypted(self, n, data):
        """The data of packet n, by CBC or CTR, encrypted or decrypted."""
        nonce = self.salt + struct.pack(">Q", n)
        if self.mode == "cbc":
            by = CBC(Cipher(AES(self.key), ECB()).encryptor().update(nonce))
        else:
            by = CTR(nonce + struct.pack(">I", 1))
        cipher = Cipher(AES(self.key), by)
        worker = cipher.decryptor() if self.inward else cipher.encryptor()
        return worker.update(data) + worker.finalize()

    def sealed(self, n, skip, packet):
        """By GCM; the tag is cut to its first bytes."""
        worker = Cipher(AES(self.key), GCM(self.salt + struct.pack(">Q", n))).encryptor()
        worker.authenticate_additional_data(packet[:skip])
        made = packet[:skip] + worker.update(packet[skip:]) + worker.finalize()
        return made + worker.tag[: self.tag]

    def opened(self, n, skip, packet):
        """By GCM, or None where the tag isn't the packet's."""
        body, tag = packet[: len(packet) - self.tag], packet[len(packet) - self.tag :]
        by = GCM(self.salt + struct.pack(">Q", n), tag, min_tag_length=4)
        worker = Cipher(AES(self.key), by).decryptor()
        worker.authenticate_additional_data(body[:skip])
        try:
            return body[:skip] + worker.update(body[skip:]) + worker.finalize()
        except InvalidTag:
            return None

    def code(self, data):
        return hmac.new(self.code_key, data, self.hash).digest()[: self.tag]

    def outward(self, n, skip, packet):
        if self.mode == "gcm":
            return self.sealed(n, skip, packet)
        if self.mode:
            packet = packet[:skip] + self.crypted(n, packet[skip:])
        return packet + self.code(packet) if self.hash else packet

    def back(self, n, skip, packet):
        """None where the verification fails."""
        if self.mode == "gcm":
            return self.opened(n, skip, packet)
        if self.hash:
            packet, digest = packet[: len(packet) - self.tag], packet[len(packet) - self.tag :]
            if self.code(packet) != digest:
                return None
        return packet[:skip] + self.crypted(n, packet[skip:]) if self.mode else packet

    def size(self, skip, packet):
        """How many bytes stand behind the skip, but for a digest or tag that is taken off."""
        return len(packet) - skip - (self.tag if self.inward else 0)

    def data_length(self, skip, packet):
        """The length of what the cipher works on or, where that is nothing, of what the code covers."""
        size = self.size(skip, packet)
        if self.mode and size:
            return size
        return skip + size if self.hash else 0

    def worked(self, n, skip, packet):
        """What becomes of packet n, and its new bytes."""
        size = self.size(skip, packet)
        if size < 0:
            return "short", packet
        if self.mode == "cbc" and size % 16:
            return "invalid_args", packet
        made = self.back(n, skip, packet) if self.inward else self.outward(n, skip, packet)
        return ("auth_failed", packet) if made is None else ("success", made)


class Plan:
    """The sessions, rules and default of a session text, with single spaces between its words."""

    def __init__(self, text):
        self.sessions, self.rules = {}, []
        for line in text.splitlines():
            kind, _, rest = line.partition(" ")
            if kind == "session":
                name, _, words = rest.partition(" ")
                self.sessions[name] = Session(words)
            elif kind == "rule":
                offset, data, *choice = rest.split()
                self.rules.append((int(offset), bytes.fromhex(data), choice))
            elif kind == "default":
                self.otherwise = rest.split()

    def answer(self, n, packet):
        """What becomes of packet n, its new bytes, and the data length of its operation, if it has one."""
        held = (choice for offset, data, choice in self.rules if packet[offset : offset + len(data)] == data)
        choice = next(held, self.otherwise)
        if choice == ["pass"]:
            return "passed", packet, None
        session, skip = self.sessions[choice[0]], int(choice[1])
        outcome, made = session.worked(n, skip, packet)
        return outcome, made, None if outcome == "short" else session.data_length(skip, packet)


def order_of(capture):
    """How struct spells the byte order of a capture."""
    return "<" if capture[0] in (0xD4, 0x4D) else ">"


def records_of(capture):
    """The records: seconds, fraction, original length and bytes."""
    made, at, order = [], 24, order_of(capture)
    while at < len(capture):
        seconds, fraction, length, original = struct.unpack_from(order + "IIII", capture, at)
        made.append((seconds, fraction, original, capture[at + 16 : at + 16 + length]))
        at += 16 + length
    return made


def capture_of(head, records):
    """The capture with this header, and these records in its byte order."""
    made = [head]
    for seconds, fraction, original, packet in records:
        made += [struct.pack(order_of(head) + "IIII", seconds, fraction, len(packet), original), packet]
    return b"".join(made)


def raised(capture):
    """The header as it is written."""
    order = order_of(capture)
    (snaplen,) = struct.unpack_from(order + "I", capture, 16)
    return capture[:16] + struct.pack(order + "I", max(snaplen, 262208)) + capture[20:24]


def crypt(text, capture, vdev="mode=round-robin,worker=plain", burst=32):
    """The written capture, how many packets ended how, and the report."""
    plan, counts, made, lengths = Plan(text), Counter(), [], []
    for n, (seconds, fraction, original, packet) in enumerate(records_of(capture)):
        outcome, answer, length = plan.answer(n, packet)
        counts[outcome] += 1
        made.append((seconds, fraction, max(0, original + len(answer) - len(packet)), answer))
        if length is not None:
            lengths.append(length)
    told = "".join(f" {outcome}={counts[outcome]}" for outcome in OUTCOMES)
    lines = [f"packets={len(made)}{told}"]
    for place, numbers in enumerate(dealing.lists_of(vdev, burst, lengths)):
        lines.append(f"device {place} operations={len(numbers)}")
    report = "".join(f"{line}\n" for line in [*lines, "status=0"])
    return capture_of(raised(capture), made), counts, report.encode()
