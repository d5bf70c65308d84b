"""The plain book of the scope paper, in Python: what card, table, message, reply and change must be, byte for byte.

  chacha20, poly1305, seal, unseal    RFC 8439
  drawn                               the rows that a token draws, by the permutation
  Book                                a file's numbers, blocks and marks; card, table and message; changes, draw and the cause of a reply
  Host                                what a host's folder holds; the reply to a message, and what an applied change makes of it
  Change                              a change file, built or parsed

It shares no code with the library or the command. Books and hosts are values: a call answers with another one.
"""
import hashlib
import hmac
import struct
import zlib
from dataclasses import dataclass, replace
from functools import lru_cache

RECORD, REPLY, MESSAGE, HEADER, ITEM = 63, 110, 91, 52, 5
ZEROS = bytes(12)
MAGIC = b"legbaro\n"


# ---- RFC 8439 ----

QUARTERS = ((0, 4, 8, 12), (1, 5, 9, 13), (2, 6, 10, 14), (3, 7, 11, 15),
            (0, 5, 10, 15), (1, 6, 11, 12), (2, 7, 8, 13), (3, 4, 9, 14))
WORD = 0xFFFFFFFF


def chacha20(key, counter, nonce):
    """One block of 64 bytes."""
    start = struct.unpack("<16I", b"expand 32-byte k" + key + struct.pack("<I", counter) + nonce)
    x = list(start)
    for _ in range(10):
        for a, b, c, d in QUARTERS:
            p, q, r, s = x[a], x[b], x[c], x[d]
            p = (p + q) & WORD
            s ^= p
            s = (s << 16 | s >> 16) & WORD
            r = (r + s) & WORD
            q ^= r
            q = (q << 12 | q >> 20) & WORD
            p = (p + q) & WORD
            s ^= p
            s = (s << 8 | s >> 24) & WORD
            r = (r + s) & WORD
            q ^= r
            q = (q << 7 | q >> 25) & WORD
            x[a], x[b], x[c], x[d] = p, q, r, s
    return struct.pack("<16I", *((now + then) & WORD for now, then in zip(x, start)))


def poly1305(key, text):
    r = int.from_bytes(key[:16], "little") & 0x0FFFFFFC0FFFFFFC0FFFFFFC0FFFFFFF
    total = 0
    for at in range(0, len(text), 16):
        total = (total + int.from_bytes(text[at:at + 16] + b"\1", "little")) * r % ((1 << 130) - 5)
    return ((total + int.from_bytes(key[16:], "little")) % (1 << 128)).to_bytes(16, "little")


def xored(a, b):
    return (int.from_bytes(a, "big") ^ int.from_bytes(b, "big")).to_bytes(len(a), "big")


def padded(text):
    return text + bytes(-len(text) % 16)


def tag_of(key, nonce, clear, sealed):
    lengths = struct.pack("<QQ", len(clear), len(sealed))
    return poly1305(chacha20(key, 0, nonce)[:32], padded(clear) + padded(sealed) + lengths)


@lru_cache(maxsize=4096)
def seal(key, nonce, clear, token):
    """A token of 32 bytes, sealed, with its tag."""
    sealed = xored(token, chacha20(key, 1, nonce)[:32])
    return sealed + tag_of(key, nonce, clear, sealed)


def unseal(key, nonce, clear, body):
    """The token, or None where the tag does not hold."""
    sealed, tag = body[:32], body[32:]
    return xored(sealed, chacha20(key, 1, nonce)[:32]) if tag_of(key, nonce, clear, sealed) == tag else None


# ---- Keys, rows and tokens ----

def mac(key, text):
    return hmac.new(key, text, hashlib.sha256).digest()


@lru_cache(maxsize=1024)
def file_key(master, label, name):
    return mac(master, bytes([label]) + name)


@lru_cache(maxsize=1024)
def drawn(key, rows, positions):
    """The rows, from 0, that positions 1, 2 .. draw under a token's key k."""
    half = max(1, ((rows - 1).bit_length() + 1) // 2)
    mask = (1 << half) - 1

    @lru_cache(maxsize=None)
    def mixed(turn, right):
        return int.from_bytes(chacha20(key, right, ZEROS[1:] + bytes([turn]))[:4], "little") & mask

    def permuted(number):
        while True:
            left, right = number >> half, number & mask
            for turn in range(8):
                left, right = right, left ^ mixed(turn, right)
            number = left << half | right
            if number < rows:
                return number

    return tuple(permuted(j) for j in range(positions))


def token_of(k, c, numbers, blocks, marks):
    """The xor of the hashes of every block in the rows drawn; numbers are version, d and r."""
    version, rows, positions = numbers
    token = 0
    for j, row in enumerate(drawn(k, rows, positions), 1):
        for at in range(row, len(blocks), rows):
            index = struct.pack(">I", at // rows * rows + j)
            mark = bytes([marks[at]]) if version > 1 else b""
            token ^= int.from_bytes(hashlib.sha256(c + index + mark + blocks[at]).digest(), "big")
    return token.to_bytes(32, "big")


# ---- The owner's book ----

@dataclass(frozen=True)
class Book:
    master: bytes
    version: int
    name: bytes
    size: int
    rows: int
    positions: int
    tokens: int
    blocks: tuple
    marks: tuple
    ctr: int = 0
    next: int = 1
    open: int = 0
    last: int = 0
    asked: tuple = ()  # of a pending change: blocks and marks when it is committed
    spent: tuple = ()

    def card(self):
        front = struct.pack(">B8sHIHIIQII", self.version, self.name, self.size, self.rows, self.positions, self.tokens, len(self.blocks),
                            self.ctr, self.next, self.open)
        if self.version == 3:
            front += struct.pack(">QQI", self.last, self.last if self.asked else 0, len(self.asked[0]) if self.asked else 0)
        return struct.pack(">H", len(front)) + front

    def token_keys(self, i):
        number = struct.pack(">I", i)
        return mac(file_key(self.master, 1, self.name), number), mac(file_key(self.master, 2, self.name), number)

    def fresh(self, i):
        """The record of token i over the blocks, sealed at the counter."""
        clear = struct.pack(">HBQI", RECORD - 2, self.version, self.ctr, i)
        token = token_of(*self.token_keys(i), (self.version, self.rows, self.positions), self.blocks, self.marks)
        return clear + seal(file_key(self.master, 3, self.name), clear[3:], clear, token)

    def table(self):
        if "kept" not in self.__dict__:
            self.__dict__["kept"] = b"".join(self.spent) + b"".join(self.fresh(i) for i in range(self.next, self.tokens + 1))
        return self.__dict__["kept"]

    def message(self):
        """The message of the open token."""
        k, c = self.token_keys(self.open)
        return struct.pack(">HB8sIHIHI", MESSAGE - 2, self.version, self.name, self.open, self.size, self.rows, self.positions,
                           len(self.blocks)) + k + c

    def added(self, blocks, asked):
        """Book and change after an append or a load."""
        return self.changed(self.blocks + tuple(blocks), self.marks + (0,) * len(blocks), blocks, (), asked)

    def corrected(self, items, asked):
        """Book and change after updates and deletions, each a number and a block, None for a deletion."""
        blocks, marks = list(self.blocks), list(self.marks)
        for number, block in items:
            blocks[number - 1], marks[number - 1] = block or bytes(self.size), int(block is None)
        numbers = [number for number, _ in items]
        return self.changed(tuple(blocks), tuple(marks), [blocks[number - 1] for number in numbers],
                            [(number, marks[number - 1]) for number in numbers], asked)

    def changed(self, blocks, marks, put, items, asked):
        pending = replace(self, last=self.last + 1, asked=(blocks, marks))
        after = pending.committed()
        header = (self.version, self.name, self.size, self.tokens, len(self.blocks), len(blocks), self.ctr, after.ctr, len(put), int(asked))
        return (pending if asked else after), Change(header, tuple(items), b"".join(put), after.table())

    def committed(self):
        return replace(self, ctr=self.last, blocks=self.asked[0], marks=self.asked[1], asked=())

    def dropped(self):
        return replace(self, asked=())

    def drawn(self):
        record = self.table()[(self.next - 1) * RECORD:self.next * RECORD]
        return replace(self, open=self.next, next=self.next + 1, spent=self.spent + (record,))

    def judged(self):
        return replace(self, open=0)

    def cause(self, reply):
        """Why the reply is rejected, 0 where it is accepted."""
        if len(reply) != REPLY:
            return 1
        record = reply[-RECORD:]
        if reply[:3] != struct.pack(">HB", REPLY - 2, self.version) or record[:3] != struct.pack(">HB", RECORD - 2, self.version):
            return 2
        if reply[3:15] != self.name + struct.pack(">I", self.open) or record[11:15] != reply[11:15]:
            return 3
        if record[3:11] != struct.pack(">Q", self.ctr):
            return 4
        token = unseal(file_key(self.master, 3, self.name), record[3:15], record[:15], record[15:])
        return 5 if token is None else 6 if token != reply[15:47] else 0

    def opens(self, table):
        """Whether every unused record of a table opens."""
        key = file_key(self.master, 3, self.name)
        records = [table[at:at + RECORD] for at in range(0, len(table), RECORD)]
        return all(record[:15] == struct.pack(">HBQI", RECORD - 2, self.version, self.ctr, i) and
                   (record == self.fresh(i) or unseal(key, record[3:15], record[:15], record[15:]) is not None)
                   for i, record in enumerate(records, 1) if i >= self.next)


def set_up(master, name, numbers, blocks):
    """Book and change of a new file; numbers are version, block bytes, rows, positions and tokens."""
    version, size, rows, positions, tokens = numbers
    name = name.encode().ljust(8, b"\0")
    book = Book(master, version, name, size, rows, positions, tokens, tuple(blocks), (0,) * len(blocks))
    header = (version, name, size, tokens, 0, len(blocks), 0, 0, len(blocks), 0)
    return book, Change(header, (), b"".join(blocks), book.table())


# ---- Change files, and the host ----

@dataclass(frozen=True)
class Change:
    header: tuple  # version, id, block bytes, tokens, blocks before and after, counter before and after, count, asked
    items: tuple
    blocks: bytes
    table: bytes

    def stands(self):
        return MAGIC + struct.pack(">B8sHIIIQQIB", *self.header)

    def file(self):
        front = self.stands() + b"".join(struct.pack(">IB", *item) for item in self.items) + self.blocks + self.table
        return front + struct.pack(">I", zlib.crc32(front))

    name = property(lambda self: self.header[1])
    counter = property(lambda self: self.header[7])
    asked = property(lambda self: bool(self.header[9]))


def sealed_in(file):
    """Id, counter and table of a change file, None where it is none or is cut."""
    if len(file) < HEADER or file[:8] != MAGIC or zlib.crc32(file[:-4]).to_bytes(4, "big") != file[-4:]:
        return None
    _, name, _, tokens, _, _, _, counter, _, _ = struct.unpack(">B8sHIIIQQIB", file[8:HEADER])
    return name, counter, file[-4 - tokens * RECORD:-4]


@dataclass(frozen=True)
class Host:
    header: tuple = ()  # of the change that stands
    stands: bytes = None
    blocks: bytes = None
    marks: bytes = None
    table: bytes = None
    reply: bytes = None

    def follows(self, change):
        """Whether the change is the next one."""
        if not self.header:
            return change.header[4] == 0
        return change.header[:4] == self.header[:4] and (change.header[6], change.header[4]) == (self.header[7], self.header[5])

    def applied(self, change):
        version, size, added = change.header[0], change.header[2], not change.items
        blocks, marks = bytearray(self.blocks or b""), bytearray(self.marks or b"")
        if added:
            blocks += change.blocks
            marks += bytes(change.header[8])
        for at, (number, mark) in enumerate(change.items):
            blocks[(number - 1) * size:number * size] = change.blocks[at * size:(at + 1) * size]
            if version > 1:
                marks[number - 1] = mark
        return replace(self, header=change.header, stands=change.stands(), blocks=bytes(blocks), marks=bytes(marks) if version > 1 else None,
                       table=change.table)

    def answer(self, message):
        """The reply to a message, None where the host's files do not fit it."""
        version, name, i, size, rows, positions, n = struct.unpack(">B8sIHIHI", message[2:27])
        if not self.header or name != self.header[1] or len(self.blocks) != n * size or max(self.marks or b"\0") > 1:
            return None
        blocks = [self.blocks[at:at + size] for at in range(0, n * size, size)]
        digest = token_of(message[27:59], message[59:91], (version, rows, positions), blocks, self.marks)
        return struct.pack(">HB8sI", REPLY - 2, version, name, i) + digest + self.table[(i - 1) * RECORD:i * RECORD]


def pooled(replies):
    total = bytes(32)
    for reply in replies:
        total = xored(total, reply[15:47])
    return struct.pack(">HBH", 35 + 75 * len(replies), 1, len(replies)) + total + b"".join(r[3:15] + r[47:] for r in replies)
