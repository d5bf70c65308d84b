"""The scheme as docs/SPEC.md has it: keys, permutation, tokens and sealing (sections 2, 3, 4, 5
and 7), over hashlib and hmac, with ChaCha20 and Poly1305 by RFC 8439 here."""
import hashlib
import hmac
import struct

MASK = 0xFFFFFFFF


def be(width, x):
    return x.to_bytes(width, "big")


def number(data):
    return int.from_bytes(data, "big")


# ---- RFC 8439 ----

def chacha20_block(key, counter, nonce):
    start = [0x61707865, 0x3320646E, 0x79622D32, 0x6B206574, *struct.unpack("<8I", key), counter,
             *struct.unpack("<3I", nonce)]
    s = start[:]

    def quarter(a, b, c, d):
        for x, y, z, left in ((a, b, d, 16), (c, d, b, 12), (a, b, d, 8), (c, d, b, 7)):
            s[x] = (s[x] + s[y]) & MASK
            v = s[z] ^ s[x]
            s[z] = (v << left | v >> (32 - left)) & MASK

    for _ in range(10):
        for i in range(4):
            quarter(i, 4 + i, 8 + i, 12 + i)
        for i in range(4):
            quarter(i, 4 + (i + 1) % 4, 8 + (i + 2) % 4, 12 + (i + 3) % 4)
    return struct.pack("<16I", *((x + y) & MASK for x, y in zip(s, start)))


def poly1305(key, text):
    r = int.from_bytes(key[:16], "little") & 0x0FFFFFFC0FFFFFFC0FFFFFFC0FFFFFFF
    a = 0
    for i in range(0, len(text), 16):
        a = (a + int.from_bytes(text[i:i + 16] + b"\x01", "little")) * r % ((1 << 130) - 5)
    return ((a + int.from_bytes(key[16:], "little")) % (1 << 128)).to_bytes(16, "little")


def tag_of(key, nonce, aad, sealed):
    text = b"".join(x + bytes(-len(x) % 16) for x in (aad, sealed))
    text += struct.pack("<QQ", len(aad), len(sealed))
    return poly1305(chacha20_block(key, 0, nonce)[:32], text)


def ciphered(key, nonce, text):  # at most 64 bytes
    return bytes(x ^ y for x, y in zip(text, chacha20_block(key, 1, nonce)))


# ---- Sections 2 to 5: keys, permutation, geometry, tokens ----

def keyed(key, text):
    return hmac.new(key, text, hashlib.sha256).digest()


def file_key(master, label, file_id):
    return keyed(master, be(1, label) + file_id)


def half_width(d):
    return max(1, ((d - 1).bit_length() + 1) // 2)


def walk(k, d, x, back=False):
    """P(x) or backward P(x), and the turns of the walk."""
    h, turns = half_width(d), 0

    def f(q, half):
        first = chacha20_block(k, half, bytes(11) + be(1, q))[:4]
        return int.from_bytes(first, "little") % (1 << h)

    while True:
        left, right = x >> h, x % (1 << h)
        for q in range(8):
            if back:
                left, right = right ^ f(7 - q, left), left
            else:
                left, right = right, left ^ f(q, right)
        x, turns = left << h | right, turns + 1
        if x < d:
            return x, turns


def digest(k, c, d, r, contents):
    """The digest over blocks, and its totals."""
    total, turns, hashes = 0, 0, 0
    for j in range(1, r + 1):
        row, walked = walk(k, d, j - 1)
        turns += walked
        for q in range((len(contents) + d - (row + 1)) // d):
            text = c + be(4, q * d + j) + contents[q * d + row]
            total ^= number(hashlib.sha256(text).digest())
            hashes += 1
    return be(32, total), turns, hashes


# ---- Section 7: sealing ----

def sealed_record(key, version, ctr, i, token):
    clear, nonce = be(2, 61) + be(1, version) + be(8, ctr) + be(4, i), be(8, ctr) + be(4, i)
    body = ciphered(key, nonce, token)
    return clear + body + tag_of(key, nonce, clear, body)


def opened(key, ctr, i, record):
    """The token, where the tag holds."""
    nonce = be(8, ctr) + be(4, i)
    if tag_of(key, nonce, record[:15], record[15:47]) != record[47:]:
        return None
    return ciphered(key, nonce, record[15:47])
