#!/usr/bin/env python3
"""The input of the program key_vectors, and what it must print: HMAC from Python's hmac, P_SHA256 written here over
it, and every PRF output whose secret a command line can hold compared with OpenSSL's TLS1-PRF. How many blocks a master
secret takes is counted block by block in tests/counting.py, for keys of every length.

  key_vectors.py stdin    HMAC's cases of RFC 4231 (sections 4.2 to 4.8), and PRF, secrets, key blocks and Finished
                          values at every length that document 01 or a block's end makes interesting
  key_vectors.py stdout   what they come to
"""
import hashlib
import hmac
import shutil
import subprocess
import sys

from calls import field, literal, number, series, shown
from counting import master_blocks

LABELS = {
    "master": b"master secret",
    "key": b"key expansion",
    "client": b"client finished",
    "server": b"server finished",
}
REFUSED = "refused 5"


def mac(key, message):
    return hmac.new(key, message, hashlib.sha256).digest()


def p_sha256(secret, seed, n):
    out, a = b"", seed
    while len(out) < n:
        a = mac(secret, a)
        out += mac(secret, a + seed)
    return out[:n]


def openssl_prf(secret, seed, n):
    """OpenSSL's own TLS1-PRF; it takes no empty secret, no empty output, and what fits an argument."""
    words = ["openssl", "kdf", "-binary", "-keylen", str(n), "-kdfopt", "digest:SHA256",
             "-kdfopt", "hexsecret:" + secret.hex(), "-kdfopt", "hexseed:" + seed.hex(), "TLS1-PRF"]
    return subprocess.run(words, check=True, capture_output=True).stdout


def prf(secret, label, seed, n):
    if len(secret) > 65536 or len(seed) > 65536 or n > 256:
        return REFUSED
    value = p_sha256(secret, LABELS[label] + seed, n)
    # OpenSSL keeps at most 1,024 bytes of seed
    if n and secret and len(secret) <= 1024 and len(seed) <= 900:
        assert value == openssl_prf(secret, LABELS[label] + seed, n), (len(secret), label, n)
    return value.hex()


def call(kind, n, room, *fields):
    global calls
    fields += (b"",) * (3 - len(fields))
    calls += bytes((kind,)) + number(n, 2) + number(room, 2) + b"".join(field(f) for f in fields)


def line(name, text):
    lines.append(f"{name} {text}")


def print_prf(secret, label, seed, n):
    call(2 + list(LABELS).index(label), n, 260, secret, seed)
    line("prf", prf(shown(secret), label, shown(seed), n))


def master(secret, client, server):
    call(7, 0, 48, secret, client, server)
    client, server = shown(client), shown(server)
    sizes = len(client) == 32 and len(server) == 32
    line("master", counted(shown(secret), client, server) if sizes else REFUSED)


def counted(secret, client, server):
    value = prf(secret, "master", client + server, 48)
    return value if value == REFUSED else f"{value} blocks {master_blocks(secret, client, server)}"


def master_under(psk, client, server):
    call(11, 0, 48, psk, client, server)
    psk = shown(psk)
    size = len(psk).to_bytes(2, "big")
    good = 1 <= len(psk) <= 64
    line("master under a key", counted(size + bytes(len(psk)) + size + psk, shown(client), shown(server)) if good else REFUSED)


def key_block(secret, server, client, suite):
    call(8, suite, 96, secret, server, client)
    secret, server, client = shown(secret), shown(server), shown(client)
    n = {0x00AE: 96, 0x008C: 72, 0x00B0: 64}.get(suite)
    sizes = len(secret) == 48 and len(client) == 32 and len(server) == 32
    line("key block", prf(secret, "key", server + client, n) if sizes and n else REFUSED)


def finished(side, secret, handshake_hash):
    call(9 if side == "client" else 10, 0, 12, secret, handshake_hash)
    secret, handshake_hash = shown(secret), shown(handshake_hash)
    sizes = len(secret) == 48 and len(handshake_hash) == 32
    line("finished", prf(secret, side, handshake_hash, 12) if sizes else REFUSED)


def premaster(psk):
    call(6, 0, 132, psk)
    psk = shown(psk)
    size = len(psk).to_bytes(2, "big")
    line("premaster", (size + bytes(len(psk)) + size + psk).hex() if 1 <= len(psk) <= 64 else REFUSED)


def data(n):
    """The first n bytes of one long series."""
    return series(1, 5, n)


assert shutil.which("openssl"), "openssl is not installed"
calls, lines = b"", []
for key, message in [
    (series(0x0B, 0, 20), literal(b"Hi There")),
    (literal(b"Jefe"), literal(b"what do ya want for nothing?")),
    (series(0xAA, 0, 20), series(0xDD, 0, 50)),
    (series(1, 1, 25), series(0xCD, 0, 50)),
    (series(0x0C, 0, 20), literal(b"Test With Truncation")),
    (series(0xAA, 0, 131), literal(b"Test Using Larger Than Block-Size Key - Hash Key First")),
    (series(0xAA, 0, 131), literal(b"This is a test using a larger than block-size key and a larger than block-size data. "
                                   b"The key needs to be hashed before being used by the HMAC algorithm.")),
]:
    call(1, 0, 40, key, message)
    line("hmac", mac(shown(key), shown(message)).hex())

seed = series(2, 3, 64)
names = list(LABELS)
for size in [0, 1, 63, 64, 65, 65536]:
    for i, n in enumerate([0, 1, 12, 31, 32, 33, 48, 64, 72, 96, 255, 256, 257]):
        print_prf(data(size), names[i % 4], seed, n)
print_prf(data(32), "master", data(65536), 48)
print_prf(data(32), "master", b"", 48)
print_prf(data(65537), "master", b"", 48)
print_prf(data(32), "master", data(65537), 48)

for psk in [b"", literal(b"\xab\xcd"), data(1), data(64), data(65)]:
    premaster(psk)
one, two = series(1, 0, 32), series(2, 0, 32)
master(data(6), one, two)
master(data(6), two, one)
master(data(132), one, two)
master(data(132), series(1, 0, 31), two)
master(data(132), one, series(2, 0, 33))
for size in range(66):
    master_under(data(size), one, two)
for size in [55, 56, 63, 64, 65, 119, 120, 1000]:
    master(data(size), one, two)
for suite in [0x00AE, 0x008C, 0x00B0, 0x00AF]:
    key_block(data(48), two, one, suite)
key_block(data(47), two, one, 0x00AE)
three = series(3, 0, 32)
finished("client", data(48), three)
finished("server", data(48), three)
finished("client", data(49), three)
finished("server", data(48), series(3, 0, 31))

if sys.argv[1] == "stdin":
    sys.stdout.buffer.write(calls)
else:
    print("\n".join(lines))
