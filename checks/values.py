"""Makes the values again that the crates' tests of HMAC, GCM and schedulers, and the programs that time the ciphers,
expect: by Python's hmac, and by the package `cryptography`. Ends with 1 where one of them isn't in its file,
and with 3 where the package is missing and all others were found."""
import hashlib
import hmac
import pathlib
import re
import sys

import dealing

CRATES = pathlib.Path(__file__).resolve().parent.parent / "crates"
missing = []


def text_of(name):
    return (CRATES / name).read_text()


def expect(name, value, what):
    """The file has this number, whatever underscores it is written with."""
    if value not in text_of(name).replace("_", ""):
        missing.append(f"{name}: {what} {value}")


def codes():
    """Each line of the table of codes: hash, lengths of key and text, first bytes."""
    name = "hmac_core/src/tests.rt"
    lines = re.findall(r'\(Hash::(Sha\d+), (\d+), (\d+), "([0-9a-f]+)"\)', text_of(name))
    if len(lines) != 20:
        missing.append(f"{name}: {len(lines)} lines of codes")
    for function, key, text, head in lines:
        made = hmac.new(b"\xaa" * int(key), b"\xdd" * int(text), getattr(hashlib, function.lower()))
        if not made.hexdigest().startswith(head):
            missing.append(f"{name}: {function} of {text} bytes under {key}")


def tags(aesgcm):
    tag = aesgcm(bytes(16)).encrypt(bytes(12), b"", bytes(range(20)))
    expect("crypto_model/src/laws.rt", tag.hex(), "tag of 20 bytes of data")
    name = "gcm_core/src/tests.rt"
    iv = bytes.fromhex("cafebabefacedbaddecaf888")
    text = bytes((7 * i + 3) % 256 for i in range(70))
    data = bytes((11 * i + 5) % 256 for i in range(20))
    for size in (16, 32):
        key = aesgcm(bytes(range(size)))
        sealed = key.encrypt(iv, text, data)[:70]
        for at in range(0, 64, 16):
            expect(name, sealed[at:at + 16].hex(), f"ciphertext under {size} bytes")
        for length in (0, 1, 16, 20):
            total = 0
            for n in range(71):
                total ^= int.from_bytes(key.encrypt(iv, text[:n], data[:length])[n:], "big")
            expect(name, f"{total:032x}", f"tags under {size} bytes, data of {length}")


def blocks(cipher, aes, ecb):
    """Block i is sixteen bytes of 17 times i."""
    name = "aes_core/src/tests.rt"
    for size, numbers in [(16, range(16)), (24, range(1, 5)), (32, range(1, 5))]:
        stream = cipher(aes(bytes(range(size))), ecb()).encryptor()
        made = [stream.update(bytes([17 * i] * 16)) for i in range(16)]
        for i in numbers:
            expect(name, made[i].hex(), f"block {i} under {size} bytes")


def timed(aesgcm, cipher, aes, ctr):
    """What the two programs print for one mebibyte."""
    key = bytes([7] * 16)
    stream = cipher(aes(key), ctr(bytes(16))).encryptor()
    buffer, total = bytes(16384), 0
    for _ in range(64):
        buffer = stream.update(buffer)
    for byte in buffer:
        total = (31 * total + byte) % 2**64
    expect("ctr_bench/stdout", str(total), "check sum")
    packet, total = bytes(1024), 0
    for number in range(1024):
        sealed = aesgcm(key).encrypt(number.to_bytes(12, "big"), packet, bytes([9] * 14))
        packet = sealed[:1024]
        for byte in sealed[1024:]:
            total = (31 * total + byte) % 2**64
    expect("gcm_bench/stdout", str(total), "check sum")


def dealt():
    """The table of which device gets which of 65 operations: scheduler texts, burst sizes and lists."""
    name = "capcrypt/src/tests/deal.rt"
    lengths = [97 * n % 241 + 20 for n in range(65)]
    rows = re.findall(r'"(mode=[^"]*)",\s*"(\d+)",\s*\[(.*?)\],\s*\),', text_of(name), re.S)
    if len(rows) != 5:
        missing.append(f"{name}: {len(rows)} rows of lists")
    for vdev, burst, told in rows:
        made = dealing.lists_of(vdev, int(burst), lengths)
        lists = [[int(number) for number in re.findall(r"\d+", part)] for part in re.findall(r"&\[(.*?)\]", told, re.S)]
        if lists != made + [[]] * (4 - len(made)):
            missing.append(f"{name}: lists of {vdev}")


codes()
dealt()
skipped = False
try:
    from cryptography.hazmat.primitives.ciphers import Cipher
    from cryptography.hazmat.primitives.ciphers.aead import AESGCM
    from cryptography.hazmat.primitives.ciphers.algorithms import AES
    from cryptography.hazmat.primitives.ciphers.modes import CTR, ECB
except ImportError:
    skipped = True
else:
    blocks(Cipher, AES, ECB)
    tags(AESGCM)
    timed(AESGCM, Cipher, AES, CTR)
for line in missing:
    print(line, file=sys.stderr)
sys.exit(1 if missing else 3 if skipped else 0)
