"""SHA-256 written out block by block from FIPS 180-4, with every use of the compression function counted, and over it HMAC
(RFC 2104) and P_SHA256 (RFC 5246, section 5), each HMAC starting afresh: how many blocks a master secret takes."""
import hashlib


def primes(n):
    found = []
    while len(found) < n:
        candidate = found[-1] + 1 if found else 2
        while any(candidate % p == 0 for p in found):
            candidate += 1
        found.append(candidate)
    return found


def root_bits(p, power):
    """The first 32 bits behind the point of the root of p."""
    low, high = 0, p << 32
    while high - low > 1:
        middle = (low + high) // 2
        low, high = (middle, high) if middle ** power <= p << 32 * power else (low, middle)
    return low & 0xFFFFFFFF


CONSTANTS = [root_bits(p, 3) for p in primes(64)]
START = [root_bits(p, 2) for p in primes(8)]


def rotated(x, n):
    return (x >> n | x << 32 - n) & 0xFFFFFFFF


class Counter:
    """A hash that counts its blocks."""

    def __init__(self):
        self.blocks = 0

    def compress(self, state, block):
        self.blocks += 1
        w = [int.from_bytes(block[i:i + 4], "big") for i in range(0, 64, 4)]
        for t in range(16, 64):
            s0 = rotated(w[t - 15], 7) ^ rotated(w[t - 15], 18) ^ w[t - 15] >> 3
            s1 = rotated(w[t - 2], 17) ^ rotated(w[t - 2], 19) ^ w[t - 2] >> 10
            w.append((w[t - 16] + s0 + w[t - 7] + s1) & 0xFFFFFFFF)
        a, b, c, d, e, f, g, h = state
        for k, word in zip(CONSTANTS, w):
            t1 = h + (rotated(e, 6) ^ rotated(e, 11) ^ rotated(e, 25)) + (e & f ^ ~e & g) + k + word
            t2 = (rotated(a, 2) ^ rotated(a, 13) ^ rotated(a, 22)) + (a & b ^ a & c ^ b & c)
            a, b, c, d, e, f, g, h = (t1 + t2) & 0xFFFFFFFF, a, b, c, (d + t1) & 0xFFFFFFFF, e, f, g
        return [(x + y) & 0xFFFFFFFF for x, y in zip(state, (a, b, c, d, e, f, g, h))]

    def sha256(self, message):
        padded = message + b"\x80" + bytes(-(len(message) + 9) % 64) + (8 * len(message)).to_bytes(8, "big")
        state = START
        for at in range(0, len(padded), 64):
            state = self.compress(state, padded[at:at + 64])
        digest = b"".join(x.to_bytes(4, "big") for x in state)
        assert digest == hashlib.sha256(message).digest(), len(message)
        return digest

    def hmac(self, key, message):
        key = self.sha256(key) if len(key) > 64 else key
        key = key + bytes(64 - len(key))
        inner = self.sha256(bytes(x ^ 0x36 for x in key) + message)
        return self.sha256(bytes(x ^ 0x5C for x in key) + inner)

    def p_sha256(self, secret, seed, n):
        out, a = b"", seed
        while len(out) < n:
            a = self.hmac(secret, a)
            out += self.hmac(secret, a + seed)
        return out[:n]


def master_blocks(premaster, client, server):
    """How many blocks deriving the master secret takes."""
    counter = Counter()
    counter.p_sha256(premaster, b"master secret" + client + server, 48)
    return counter.blocks
