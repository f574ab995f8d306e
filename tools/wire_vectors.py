#!/usr/bin/env python3
"""Prints the bytes of one message of each kind, and changed bytes that break the rule of one field each.

It writes the layouts out again with `struct` and `hashlib`, apart from the program, and prints Rattle constants for
crates/bft_wire/src/vectors.rt: `python3 tools/wire_vectors.py > crates/bft_wire/src/vectors.rt`. It isn't part of the
gate.
"""

import hashlib
import struct


class Message:
    """Bytes, and the changes of one byte that break the rule of a field: (place, byte, first byte of the field)."""

    def __init__(self):
        self.data = b""
        self.breaks = []

    def put(self, data):
        self.data += data

    def breaking(self, at, byte):
        """A change of the byte at this offset of the next field breaks that field."""
        place = len(self.data)
        self.breaks.append((place + at, byte, place))

    def u8(self, n, *bad):
        for byte in bad:
            self.breaking(0, byte)
        self.put(struct.pack(">B", n))

    def u16(self, n, *bad):
        for at, byte in bad:
            self.breaking(at, byte)
        self.put(struct.pack(">H", n))

    def u32(self, n, *bad):
        for at, byte in bad:
            self.breaking(at, byte)
        self.put(struct.pack(">I", n))

    def u64(self, n, *bad):
        for at, byte in bad:
            self.breaking(at, byte)
        self.put(struct.pack(">Q", n))

    def number(self, n):
        """Below 2^62: 0x40 in the first byte is the first number that isn't."""
        self.u64(n, (0, 0x40), (0, 0xFF))

    def digest(self, byte):
        """32 bytes of one value: nothing looks at what they hash."""
        self.put(bytes([byte]) * 32)

    def hash_of(self, other):
        self.put(hashlib.sha256(other.data).digest())

    def sig(self, signer, data, least):
        """The signer is at least this; a length of 2,049 is too long."""
        bad = [(3, least - 1)] if least > 0 else []
        self.u32(signer, *bad)
        self.breaks.append((len(self.data), 0x09, len(self.data)))
        self.put(struct.pack(">H", len(data)))
        self.put(data)

    def cert(self, view, signers):
        self.number(view)
        self.u8(len(signers), 32)
        least = 0
        for signer in signers:
            self.sig(signer, bytes([signer, 0xAA]), least)
            least = signer + 1

    def request(self, kind, client, serial, payload):
        self.u8(kind, 0, 3)
        self.u32(client)
        self.u64(serial)
        self.u32(len(payload), (0, 0x01))
        self.put(payload)

    def requests(self, requests):
        self.u32(len(requests), (0, 0x01), (2, 0x04))
        for request in requests:
            self.request(*request)

    def ids(self, ids):
        self.u8(len(ids), 32)
        least = 1
        for one in ids:
            self.u32(one, (3, least - 1))
            least = one + 1

    def order(self, ids):
        self.u8(len(ids), 32)
        for place, one in enumerate(ids):
            bad = [(3, 0)] + ([(3, ids[0])] if place > 0 else [])
            self.u32(one, *bad)

    def meta(self, config, view, decided, blacklist, signers):
        self.number(config)
        self.number(view)
        self.number(decided)
        self.order(blacklist)
        self.ids(signers)

    def header(self, number, previous, content, meta):
        self.number(number)
        self.digest(previous)
        self.digest(content)
        self.digest(meta)

    def block(self):
        requests = [(1, 5, 2**64 - 1, b"\xaa\xbb"), (2, 2**32 - 1, 0, b"")]
        meta = (11, 12, 13, [9, 4], [1, 2, 3])
        content, hashed = Message(), Message()
        content.requests(requests)
        hashed.meta(*meta)
        self.number(14)
        self.digest(0xD1)
        self.hash_of(content)
        self.hash_of(hashed)
        self.requests(requests)
        self.meta(*meta)

    def vote(self, view, byte, limit=None):
        """Below the limit, where there is one: the limit itself isn't."""
        bad = [(0, 0x40)] if limit is None else [(0, 0x40), (7, limit)]
        self.u64(view, *bad)
        self.digest(byte)

    def report(self, height, last, prepared, accepted):
        self.number(height)
        self.u8(0 if last is None else 1, 2)
        if last is not None:
            self.digest(last[0])
            self.cert(*last[1:])
        self.u8(0 if prepared is None else 1, 2)
        if prepared is not None:
            self.vote(*prepared)
        self.u8(len(accepted), 33)
        limit = None
        for view, byte in accepted:
            self.vote(view, byte, limit)
            limit = view

    def some_block(self, there):
        self.u8(1 if there else 0, 2)
        if there:
            self.block()


def full_report(m):
    m.report(21, (0xD2, 22, [1, 3]), (23, 0xD3), [(25, 0xD4), (24, 0xD5)])


def preprepare(m):
    m.number(1)
    m.number(2)
    m.number(3)
    m.block()
    m.u8(1, 2)
    m.cert(4, [1, 2])


def prepare(m):
    m.number(1)
    m.number(2)
    m.number(3)
    m.digest(0xD6)


def commit(m):
    m.number(1)
    m.number(2)
    m.number(3)
    m.digest(0xD6)
    m.sig(7, b"\x07\xaa", 0)


def view_change(m):
    m.number(1)
    m.number(2)


def view_data(m):
    m.number(1)
    m.number(2)
    full_report(m)
    m.sig(7, b"\x07\xaa", 0)
    m.some_block(True)


def new_view(m):
    m.number(1)
    m.number(2)
    m.u8(2, 32)
    m.report(21, None, None, [])
    m.sig(7, b"\x07\xaa", 0)
    full_report(m)
    m.sig(8, b"\x08\xaa", 8)
    m.some_block(False)


def heart_beat(m):
    m.number(1)
    m.number(2)
    m.number(3)


def heart_beat_reply(m):
    m.number(1)
    m.number(2)


def forward(m):
    m.request(1, 5, 2**64 - 1, b"\xaa\xbb")


def block_ask(m):
    m.number(1)
    m.u8(8, 0, 9)


def block_reply(m):
    m.block()
    m.cert(4, [1, 2])


def header_ask(m):
    m.number(1)


def header_reply(m):
    # 2 and 1,001 headers
    m.u16(2, (0, 0x04))
    m.header(2, 0xE1, 0xE2, 0xE3)
    m.header(1, 0xE4, 0xE5, 0xE6)


def raft_vote(m):
    m.number(1)
    m.number(2)
    m.number(3)


def raft_vote_reply(m):
    m.number(1)
    m.u8(1, 2)


def raft_append(m):
    m.number(1)
    m.number(2)
    m.digest(0xD7)
    m.some_block(True)


def raft_append_reply(m):
    m.number(1)
    m.number(2)
    m.digest(0xD6)
    m.u8(0, 2)


def raft_block(m):
    m.block()


KINDS = [
    preprepare, prepare, commit, view_change, view_data, new_view, heart_beat, heart_beat_reply, forward, block_ask,
    block_reply, header_ask, header_reply, raft_vote, raft_vote_reply, raft_append, raft_append_reply, raft_block,
]


def text(data):
    return 'b"' + "".join("\\x%02x" % byte for byte in data) + '"'


def main():
    print("// Written by tools/wire_vectors.py, apart from this crate: the bytes of one message of each kind, and changes")
    print("// of one byte that break the rule of one field.")
    print()
    messages = []
    for number, body in enumerate(KINDS, 1):
        message = Message()
        message.u8(number, 0, 19, 255)
        body(message)
        messages.append(message)
    print("/// One message of each kind, by kinds.")
    print("pub(crate) const VECTORS: [&[u8]; %d] = [" % len(messages))
    for message in messages:
        print("    %s," % text(message.data))
    print("];")
    print()
    breaks = [(number, *one) for number, message in enumerate(messages) for one in message.breaks]
    print("/// The place of a vector, the place of a byte in it, what that byte becomes, and the first byte of the field")
    print("/// whose rule is then broken.")
    print("pub(crate) const BROKEN: [(usize, usize, u8, usize); %d] = [" % len(breaks))
    for one in breaks:
        print("    (%d, %d, 0x%02x, %d)," % one)
    print("];")


main()
