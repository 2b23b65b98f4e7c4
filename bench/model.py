#!/usr/bin/env python3
"""An independent model of the program `seals`: SEED (RFC 4269) and two-key Triple DES (FIPS 46-3) in plain Python, and the same by OpenSSL.

    model.py check       both models against each other, against the cipher vectors and against the seals of docs/SEALS.md
    model.py run         reads lines from standard input and prints what `seals` must print (both models are asked for each seal)
    model.py make DIR    writes DIR/stdin, DIR/stdout and DIR/NOTE.txt

VECTORS (environment) names another file of cipher vectors than bench/vectors.txt.
"""

import ctypes
import ctypes.util
import os
import random
import re
import sys

VECTORS = os.environ.get("VECTORS", os.path.join(os.path.dirname(os.path.abspath(__file__)), "vectors.txt"))


# ---------------------------------------------------------------------------------------------------------------------------------
# SEED, RFC 4269. The two S-boxes are worked out, not copied from a table: a power in GF(2^8), a matrix of bits, a constant.

def field_product(a, b):
    """The product in GF(2^8) by the polynomial x^8 + x^6 + x^5 + x + 1."""
    r = 0
    while b:
        if b & 1:
            r ^= a
        a <<= 1
        if a & 0x100:
            a ^= 0x163
        b >>= 1
    return r


def field_power(a, n):
    r = 1
    for _ in range(n):
        r = field_product(r, a)
    return r


A1 = ["10001010", "11111110", "10000101", "01000010", "01000101", "00100001", "10001000", "00010100"]
A2 = ["01000101", "10000101", "11111110", "00100001", "10001010", "10001000", "01000010", "00010100"]


def affine(rows, x):
    """The matrix on the column of the bits of x, the highest first."""
    r = 0
    for row in rows:
        r = r << 1 | bin(int(row, 2) & x).count("1") & 1
    return r


S1_BOX = [affine(A1, field_power(x, 247)) ^ 169 for x in range(256)]
S2_BOX = [affine(A2, field_power(x, 251)) ^ 56 for x in range(256)]
M = [0xFC, 0xF3, 0xCF, 0x3F]
M32 = 0xFFFFFFFF


def seed_g(x):
    y = [S1_BOX[x & 255], S2_BOX[x >> 8 & 255], S1_BOX[x >> 16 & 255], S2_BOX[x >> 24 & 255]]
    z = 0
    for i in range(4):
        b = 0
        for j in range(4):
            b ^= y[j] & M[(j + i) % 4]
        z |= b << 8 * i
    return z


def seed_f(c, d, k0, k1):
    c ^= k0
    d ^= k1
    d = seed_g(c ^ d)
    c = seed_g((c + d) & M32)
    d = seed_g((c + d) & M32)
    return (c + d) & M32, d


def seed_round_keys(key):
    k = int.from_bytes(key, "big")
    a, b, c, d = (k >> 96) & M32, (k >> 64) & M32, (k >> 32) & M32, k & M32
    keys = []
    kc = 0x9E3779B9
    for i in range(1, 17):
        keys.append((seed_g((a + c - kc) & M32), seed_g((b - d + kc) & M32)))
        if i % 2 == 1:
            ab = a << 32 | b
            ab = ab >> 8 | (ab & 255) << 56
            a, b = ab >> 32, ab & M32
        else:
            cd = c << 32 | d
            cd = (cd << 8 | cd >> 56) & 0xFFFFFFFFFFFFFFFF
            c, d = cd >> 32, cd & M32
        kc = (kc << 1 | kc >> 31) & M32
    return keys


def seed_rounds(keys, block):
    x = int.from_bytes(block, "big")
    l0, l1, r0, r1 = (x >> 96) & M32, (x >> 64) & M32, (x >> 32) & M32, x & M32
    for k0, k1 in keys:
        f0, f1 = seed_f(r0, r1, k0, k1)
        l0, l1, r0, r1 = r0, r1, l0 ^ f0, l1 ^ f1
    return (r0 << 96 | r1 << 64 | l0 << 32 | l1).to_bytes(16, "big")


def seed_encipher(key, block):
    return seed_rounds(seed_round_keys(key), block)


def seed_decipher(key, block):
    return seed_rounds(seed_round_keys(key)[::-1], block)


# ---------------------------------------------------------------------------------------------------------------------------------
# DES, FIPS 46-3. Bits are numbered from 1, the leftmost first, as in the standard.

IP = [58, 50, 42, 34, 26, 18, 10, 2, 60, 52, 44, 36, 28, 20, 12, 4, 62, 54, 46, 38, 30, 22, 14, 6, 64, 56, 48, 40, 32, 24, 16, 8,
      57, 49, 41, 33, 25, 17, 9, 1, 59, 51, 43, 35, 27, 19, 11, 3, 61, 53, 45, 37, 29, 21, 13, 5, 63, 55, 47, 39, 31, 23, 15, 7]
E = [32, 1, 2, 3, 4, 5, 4, 5, 6, 7, 8, 9, 8, 9, 10, 11, 12, 13, 12, 13, 14, 15, 16, 17,
     16, 17, 18, 19, 20, 21, 20, 21, 22, 23, 24, 25, 24, 25, 26, 27, 28, 29, 28, 29, 30, 31, 32, 1]
P = [16, 7, 20, 21, 29, 12, 28, 17, 1, 15, 23, 26, 5, 18, 31, 10, 2, 8, 24, 14, 32, 27, 3, 9, 19, 13, 30, 6, 22, 11, 4, 25]
PC1 = [57, 49, 41, 33, 25, 17, 9, 1, 58, 50, 42, 34, 26, 18, 10, 2, 59, 51, 43, 35, 27, 19, 11, 3, 60, 52, 44, 36,
       63, 55, 47, 39, 31, 23, 15, 7, 62, 54, 46, 38, 30, 22, 14, 6, 61, 53, 45, 37, 29, 21, 13, 5, 28, 20, 12, 4]
PC2 = [14, 17, 11, 24, 1, 5, 3, 28, 15, 6, 21, 10, 23, 19, 12, 4, 26, 8, 16, 7, 27, 20, 13, 2,
       41, 52, 31, 37, 47, 55, 30, 40, 51, 45, 33, 48, 44, 49, 39, 56, 34, 53, 46, 42, 50, 36, 29, 32]
SHIFTS = [1, 1, 2, 2, 2, 2, 2, 2, 1, 2, 2, 2, 2, 2, 2, 1]
S = [
    ["14 4 13 1 2 15 11 8 3 10 6 12 5 9 0 7", "0 15 7 4 14 2 13 1 10 6 12 11 9 5 3 8",
     "4 1 14 8 13 6 2 11 15 12 9 7 3 10 5 0", "15 12 8 2 4 9 1 7 5 11 3 14 10 0 6 13"],
    ["15 1 8 14 6 11 3 4 9 7 2 13 12 0 5 10", "3 13 4 7 15 2 8 14 12 0 1 10 6 9 11 5",
     "0 14 7 11 10 4 13 1 5 8 12 6 9 3 2 15", "13 8 10 1 3 15 4 2 11 6 7 12 0 5 14 9"],
    ["10 0 9 14 6 3 15 5 1 13 12 7 11 4 2 8", "13 7 0 9 3 4 6 10 2 8 5 14 12 11 15 1",
     "13 6 4 9 8 15 3 0 11 1 2 12 5 10 14 7", "1 10 13 0 6 9 8 7 4 15 14 3 11 5 2 12"],
    ["7 13 14 3 0 6 9 10 1 2 8 5 11 12 4 15", "13 8 11 5 6 15 0 3 4 7 2 12 1 10 14 9",
     "10 6 9 0 12 11 7 13 15 1 3 14 5 2 8 4", "3 15 0 6 10 1 13 8 9 4 5 11 12 7 2 14"],
    ["2 12 4 1 7 10 11 6 8 5 3 15 13 0 14 9", "14 11 2 12 4 7 13 1 5 0 15 10 3 9 8 6",
     "4 2 1 11 10 13 7 8 15 9 12 5 6 3 0 14", "11 8 12 7 1 14 2 13 6 15 0 9 10 4 5 3"],
    ["12 1 10 15 9 2 6 8 0 13 3 4 14 7 5 11", "10 15 4 2 7 12 9 5 6 1 13 14 0 11 3 8",
     "9 14 15 5 2 8 12 3 7 0 4 10 1 13 11 6", "4 3 2 12 9 5 15 10 11 14 1 7 6 0 8 13"],
    ["4 11 2 14 15 0 8 13 3 12 9 7 5 10 6 1", "13 0 11 7 4 9 1 10 14 3 5 12 2 15 8 6",
     "1 4 11 13 12 3 7 14 10 15 6 8 0 5 9 2", "6 11 13 8 1 4 10 7 9 5 0 15 14 2 3 12"],
    ["13 2 8 4 6 15 11 1 10 9 3 14 5 0 12 7", "1 15 13 8 10 3 7 4 12 5 6 11 0 14 9 2",
     "7 11 4 1 9 12 14 2 0 6 10 13 15 3 5 8", "2 1 14 7 4 10 8 13 15 12 9 0 3 5 6 11"],
]
S = [[[int(n) for n in row.split()] for row in box] for box in S]


def bits_of(b):
    return [b[i // 8] >> (7 - i % 8) & 1 for i in range(8 * len(b))]


def bytes_of(bits):
    return bytes(int("".join(map(str, bits[i:i + 8])), 2) for i in range(0, len(bits), 8))


def pick(table, bits):
    return [bits[n - 1] for n in table]


def des_round_keys(key):
    cd = pick(PC1, bits_of(key))
    c, d = cd[:28], cd[28:]
    keys = []
    for s in SHIFTS:
        c, d = c[s:] + c[:s], d[s:] + d[:s]
        keys.append(pick(PC2, c + d))
    return keys


def des_f(r, k):
    x = [a ^ b for a, b in zip(pick(E, r), k)]
    out = []
    for i in range(8):
        b = x[6 * i:6 * i + 6]
        v = S[i][2 * b[0] + b[5]][8 * b[1] + 4 * b[2] + 2 * b[3] + b[4]]
        out += [v >> 3 & 1, v >> 2 & 1, v >> 1 & 1, v & 1]
    return pick(P, out)


def des(keys, block):
    x = pick(IP, bits_of(block))
    left, right = x[:32], x[32:]
    for k in keys:
        left, right = right, [a ^ b for a, b in zip(left, des_f(right, k))]
    y = right + left
    out = [0] * 64
    for i, n in enumerate(IP):  # the inverse of IP
        out[n - 1] = y[i]
    return bytes_of(out)


def tdes_encipher(key, block):
    k1, k2 = des_round_keys(key[:8]), des_round_keys(key[8:])
    return des(k1, des(k2[::-1], des(k1, block)))


def tdes_decipher(key, block):
    k1, k2 = des_round_keys(key[:8]), des_round_keys(key[8:])
    return des(k1[::-1], des(k2, des(k1[::-1], block)))


# ---------------------------------------------------------------------------------------------------------------------------------
# The same by OpenSSL's libcrypto. The seal uses its CBC mode with a zero vector, so that padding apart the chaining is OpenSSL's too.

class OpenSSL:
    def __init__(self):
        c = ctypes.CDLL(ctypes.util.find_library("crypto"))
        p = ctypes.c_void_p
        for name, result, args in [
            ("OSSL_PROVIDER_load", p, [p, ctypes.c_char_p]),
            ("EVP_CIPHER_fetch", p, [p, ctypes.c_char_p, ctypes.c_char_p]),
            ("EVP_CIPHER_CTX_new", p, []),
            ("EVP_CIPHER_CTX_free", None, [p]),
            ("EVP_CipherInit_ex", ctypes.c_int, [p, p, p, ctypes.c_char_p, ctypes.c_char_p, ctypes.c_int]),
            ("EVP_CIPHER_CTX_set_padding", ctypes.c_int, [p, ctypes.c_int]),
            ("EVP_CipherUpdate", ctypes.c_int, [p, ctypes.c_char_p, ctypes.POINTER(ctypes.c_int), ctypes.c_char_p, ctypes.c_int]),
            ("OpenSSL_version", ctypes.c_char_p, [ctypes.c_int]),
        ]:
            f = getattr(c, name)
            f.restype, f.argtypes = result, args
        assert c.OSSL_PROVIDER_load(None, b"default") and c.OSSL_PROVIDER_load(None, b"legacy")
        self.c = c
        self.ciphers = {n: c.EVP_CIPHER_fetch(None, n.encode(), None) for n in ("SEED-ECB", "SEED-CBC", "DES-EDE-ECB", "DES-EDE-CBC")}
        assert all(self.ciphers.values()), self.ciphers

    def version(self):
        return self.c.OpenSSL_version(0).decode()

    def run(self, name, key, data, encipher=1):
        ctx = self.c.EVP_CIPHER_CTX_new()
        assert self.c.EVP_CipherInit_ex(ctx, self.ciphers[name], None, key, bytes(16), encipher) == 1
        assert self.c.EVP_CIPHER_CTX_set_padding(ctx, 0) == 1
        out, n = ctypes.create_string_buffer(len(data) + 32), ctypes.c_int(0)
        assert self.c.EVP_CipherUpdate(ctx, out, ctypes.byref(n), data, len(data)) == 1
        assert n.value == len(data)
        self.c.EVP_CIPHER_CTX_free(ctx)
        return out.raw[:n.value]


openssl = OpenSSL()


# ---------------------------------------------------------------------------------------------------------------------------------
# Seals, and the program.

SIZE = {0x00: 16, 0x10: 8}
ENCIPHER = {0x00: seed_encipher, 0x10: tdes_encipher}
DECIPHER = {0x00: seed_decipher, 0x10: tdes_decipher}
MODE = {0x00: "SEED", 0x10: "DES-EDE"}


def padded(size, message):
    m = message + b"\x80"
    return m + bytes(-len(m) % size)


def xor(a, b):
    return bytes(x ^ y for x, y in zip(a, b))


def seal_by_python(alg, key, message):
    size = SIZE[alg]
    block, m = bytes(size), padded(size, message)
    for i in range(0, len(m), size):
        block = ENCIPHER[alg](key, xor(block, m[i:i + size]))
    return block[:4]


def seal_by_openssl(alg, key, message):
    size = SIZE[alg]
    return openssl.run(MODE[alg] + "-CBC", key, padded(size, message))[-size:][:4]


def seal(alg, key, message):
    a, b = seal_by_python(alg, key, message), seal_by_openssl(alg, key, message)
    assert a == b, (alg, key.hex(), message.hex(), a.hex(), b.hex())
    return a


FORM = re.compile(rb"([0-9A-F]{2}),([0-9A-F]{32}),((?:[0-9A-F]{2}){0,47})", re.DOTALL)


def answer(line):
    found = FORM.fullmatch(line)
    if not found:
        return "form"
    alg, key, message = (bytes.fromhex(found[i].decode()) for i in (1, 2, 3))
    if alg[0] not in SIZE:
        return "not registered"
    return seal(alg[0], key, message).hex().upper()


def lines_of(data):
    lines = data.split(b"\n")
    return lines[:-1] if lines[-1] == b"" else lines


def output(data):
    return "".join(f"{i},{answer(line)}\n" for i, line in enumerate(lines_of(data), 1)).encode()


# ---------------------------------------------------------------------------------------------------------------------------------
# Checks.

def vectors():
    rows = []
    for line in open(VECTORS):
        if line.strip() and not line.startswith("#"):
            name, key, block, result = line.split()
            rows.append(({"SEED": 0x00, "TDES": 0x10}[name], bytes.fromhex(key), bytes.fromhex(block), bytes.fromhex(result)))
    return rows


KEY_01 = bytes([1] * 16)
# what, algorithm, message, seal as docs/SEALS.md gives them; the key is sixteen bytes 01
DOC = [
    ("Sign1, ALG 00", 0x00, "20 00 01 01 10 10 00 00 00 00 00 01 00 00 00 01 00 00 00 00 00 00 04 E2", "D0 FA 3D 55"),
    ("Sign2, ALG 00", 0x00, "20 10 00 00 00 00 00 00 01 00 00 00 05 00 00 20 26 01 02 03 04 05 00 00 00 01 00 00 04 E2 10 10 00 00 00 00 00 01", "0B 46 58 B8"),
    ("Sign3, ALG 00", 0x00, "20 10 10 00 00 00 00 00 01 00 00 00 01 00 00 04 E2 10 00 00 00 00 00 00 01 00 00 00 05", "96 24 88 CE"),
    ("MAC, ALG 00", 0x00, "01 02 03 04 05 06 07 08 80 00 00 00 00 00 00 00 04 D6 92 00 06 AA BB", "08 44 F9 23"),
    ("Sign1, ALG 10", 0x10, "20 10 01 01 10 10 00 00 00 00 00 01 00 00 00 01 00 00 00 00 00 00 04 E2", "F6 64 25 DA"),
    ("Sign2, ALG 10", 0x10, "20 10 00 00 00 00 00 00 01 00 00 00 05 00 00 20 26 01 02 03 04 05 00 00 00 01 00 00 04 E2 10 10 00 00 00 00 00 01", "E3 0B 56 54"),
    ("Sign3, ALG 10", 0x10, "20 10 10 00 00 00 00 00 01 00 00 00 01 00 00 04 E2 10 00 00 00 00 00 00 01 00 00 00 05", "CD 2A 4F 45"),
    ("MAC, ALG 10", 0x10, "01 02 03 04 05 06 07 08 04 D6 92 00 06 AA BB", "F8 31 D6 93"),
]


def check():
    rows = vectors()
    for alg, key, block, result in rows:
        assert ENCIPHER[alg](key, block) == result, ("Python", alg, key.hex())
        assert DECIPHER[alg](key, result) == block, ("Python, decipher", alg, key.hex())
        assert openssl.run(MODE[alg] + "-ECB", key, block) == result, ("OpenSSL", alg, key.hex())
        assert openssl.run(MODE[alg] + "-ECB", key, result, 0) == block, ("OpenSSL, decipher", alg, key.hex())
    print(f"{len(rows)} vectors: Python and OpenSSL agree with every one, enciphering and deciphering")
    wrong = 0
    for what, alg, message, expected in DOC:
        got = seal(alg, KEY_01, bytes.fromhex(message)).hex(" ").upper()
        wrong += got != expected
        print(f"docs/SEALS.md, {what}: {got}" + ("" if got == expected else f", BUT THE PAGE HAS {expected}"))
    r = random.Random(4269)
    for _ in range(400):
        alg = r.choice([0x00, 0x10])
        seal(alg, r.randbytes(16), r.randbytes(r.randrange(48)))
    print("400 random seals: Python and OpenSSL agree")
    print(openssl.version())
    return wrong


# ---------------------------------------------------------------------------------------------------------------------------------
# The test's lines, each with a note of how its answer is known.

def line(alg, key, message):
    return f"{alg:02X},{key.hex().upper()},{message.hex().upper()}".encode()


def reaching(alg, key, before, block, tail):
    """A message whose last enciphering is that of `block`: whole blocks `before`, one block worked out by deciphering, then `tail`,
    which is shorter than a block. With P the padded tail and C the chain's block after `before`, the block between is
    C xor D(P xor block): it is enciphered to P xor block, P is XORed in, and what is enciphered last is `block`."""
    size = SIZE[alg]
    assert len(before) % size == 0 and len(tail) < size
    c = openssl.run(MODE[alg] + "-CBC", key, before)[-size:] if before else bytes(size)
    d = openssl.run(MODE[alg] + "-ECB", key, xor(padded(size, tail), block), 0)
    assert d == DECIPHER[alg](key, xor(padded(size, tail), block))
    return before + xor(c, d) + tail


def make():
    rows = vectors()
    r = random.Random(463)
    out = []

    def add(text, note, expected=None):
        if expected is not None:
            assert answer(text) == expected, (note, answer(text), expected)
        out.append((text, note))

    seed_rows = [v for v in rows if v[0] == 0x00]
    tdes_rows = [v for v in rows if v[0] == 0x10]

    def from_vector(row, blocks, tail, name):
        alg, key, block, result = row
        size = SIZE[alg]
        m = reaching(alg, key, r.randbytes(blocks * size), block, r.randbytes(tail))
        add(line(alg, key, m), f"{name}; {len(m)} bytes",
            result[:4].hex().upper())

    for i, (blocks, tail) in enumerate([(0, 0), (0, 1), (0, 15), (1, 15)]):
        from_vector(seed_rows[i], blocks, tail, f"SEED, published vector {i + 1} of RFC 4269, appendix B")
    alg, key, block, result = tdes_rows[1]
    add(line(alg, key, b""), "Triple DES, vector with block 80 00 .. 00, which is the empty message padded; 0 bytes", result[:4].hex().upper())
    for i, blocks, tail in [(2, 0, 0), (0, 0, 7), (4, 4, 7)]:
        from_vector(tdes_rows[i], blocks, tail, f"Triple DES, vector {i + 1}")
    state = r.getstate()
    from_vector(tdes_rows[30], 0, 5, "Triple DES, vector 31")
    r.setstate(state)
    from_vector(tdes_rows[31], 0, 5, "Triple DES, vector 32, whose key differs from the one before only in parity bits (same message, same seal)")
    assert out[-1][0].split(b",")[2] == out[-2][0].split(b",")[2]
    m = bytes.fromhex(out[-1][0].split(b",")[2].decode())
    for row in tdes_rows[30:32]:
        add(line(0x00, row[1], m), "the same key and message by SEED, where every bit of the key counts; both models")
    assert answer(out[-1][0]) != answer(out[-2][0])

    for what, alg, message, expected in DOC:
        m = bytes.fromhex(message)
        add(line(alg, KEY_01, m), f"docs/SEALS.md, {what}; {len(m)} bytes", expected.replace(" ", ""))

    for alg, some, name in [(0x00, seed_rows, "SEED"), (0x10, tdes_rows, "Triple DES")]:
        for i, n in enumerate([0, 1, 7, 8, 9, 15, 16, 17, 23, 31, 32, 39, 40, 46, 47]):
            add(line(alg, some[5 + i][1], r.randbytes(n)), f"{name}, {n} random byte{'' if n == 1 else 's'}, key of vector {6 + i}; both models")

    key, m = seed_rows[3][1], bytes.fromhex("00112233445566778899AABBCCDDEEFF")
    for alg in (0x01, 0x11, 0x20, 0xFF):
        add(line(alg, key, m), f"ALG {alg:02X}", "not registered")
    add(line(0x0F, key, b""), "ALG 0F, empty message", "not registered")

    good = line(0x00, key, m)
    k = key.hex().upper().encode()

    def bad(text, note):
        add(text, "form: " + note, "form")

    bad(b"", "an empty line")
    bad(line(0x00, key, bytes(48)), "a message of 48 bytes")
    bad(line(0x10, key, bytes(200)), "a message of 200 bytes")
    bad(good[:-1], "an odd number of digits in the message")
    bad(b"00," + k.lower() + b",AA", "lower-case digits in the key")
    bad(b"00," + k + b",aA", "a lower-case digit in the message")
    bad(b"0a," + k + b",AA", "a lower-case digit in ALG (which would not be registered either)")
    bad(b"0:," + k + b",AA", "the character after 9 in ALG")
    bad(b"00,/" + k[1:] + b",AA", "the character before 0 in the key")
    bad(b"10," + k + b",A@", "the character before A in the message")
    bad(b"10," + k + b",G0", "the character after F in the message")
    bad(b"00" + k + b",AA", "no comma after ALG")
    bad(b"00," + k + b"AA", "no comma after the key")
    bad(b"00," + k, "no message field")
    bad(b"10," + k[:-1] + b",AA", "a key of 31 digits")
    bad(b"10," + k + b"0,AA", "a key of 33 digits")
    bad(b"20," + k[:-2] + b",AA", "a key of 30 digits, with an ALG that is not registered")
    bad(b" " + good, "a space before the line")
    bad(b"00, " + k + b",AA", "a space after a comma")
    bad(good + b" ", "a space after the line")
    bad(good + b"\r", "a CR before the 0A")
    bad(b"0," + k + b",AA", "an ALG of one digit")
    bad(b"000," + k + b",AA", "an ALG of three digits")
    bad(good + b",00", "a fourth field")
    bad(good + b",", "a comma at the end")
    bad(b"00," + k + b",A\xff", "a byte FF")
    bad(b"ALG,KEY,MESSAGE", "a header")

    add(line(0x10, tdes_rows[3][1], bytes.fromhex("0123456789ABCDEF")), "the last line, which no 0A ends; both models")
    return out


def write(folder):
    out = make()
    data = b"\n".join(text for text, _ in out)
    answers = output(data).decode().splitlines()
    assert len(answers) == len(out)
    with open(os.path.join(folder, "stdin"), "wb") as f:
        f.write(data)
    with open(os.path.join(folder, "stdout"), "wb") as f:
        f.write(output(data))
    with open(os.path.join(folder, "NOTE.txt"), "w") as f:
        f.write("How the lines of stdin and the answers of stdout were made\n\n")
        f.write("The answers come from an independent model, model.py, never from this repository's code. Every seal was worked out twice: by\n")
        f.write("the ciphers of RFC 4269 and FIPS 46-3 in plain Python (the S-boxes of SEED worked out by their algebra; the tables written from\n")
        f.write("memory and confirmed by the vectors), padded and chained as in docs/SEALS.md; and by libcrypto's CBC mode with a zero vector.\n")
        f.write(f"({openssl.version()}.) Both agree with every one of 64 cipher vectors (32 of SEED, of which the first four are those of\nRFC 4269, appendix B; 32 of Triple DES), enciphering and deciphering.\n\n")
        f.write("Where a line names a vector, its answer is known without the model: the message is chosen by deciphering so that the last block\n")
        f.write("to be enciphered is the vector's, and the seal is the first four bytes of the vector's result.\n\n")
        for a, (_, note) in zip(answers, out):
            n, value = a.split(",")
            f.write(f"{n:>3}  {value:<14}  {note}\n")
    print(f"{len(out)} lines")


if __name__ == "__main__":
    if sys.argv[1:] == ["check"]:
        sys.exit(1 if check() else 0)
    elif sys.argv[1:] == ["run"]:
        sys.stdout.buffer.write(output(sys.stdin.buffer.read()))
    elif sys.argv[1:2] == ["make"] and len(sys.argv) == 3:
        write(sys.argv[2])
    else:
        sys.exit(__doc__)
