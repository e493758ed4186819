#!/usr/bin/env python3
"""Lays out a tree of owners in a group's blocks, in three levels: the fullest, of 34,304 records, or with a gap, of 34,303, in which
block 1280 has one owner, the blocks 1281 and 1283 have none, and one record has five blocks from 1284 on."""
import struct, sys

TABLE = []
for n in range(256):
    for _ in range(8):
        n = n >> 1 ^ (0x82F63B78 if n & 1 else 0)
    TABLE.append(n)

def crc32c(data):
    crc = 0xFFFFFFFF
    for byte in data:
        crc = crc >> 8 ^ TABLE[(crc ^ byte) & 255]
    return crc ^ 0xFFFFFFFF

UUID = b"the tree's image"
NONE = 0xFFFFFFFF
blocks = [bytes(16) + UUID + bytes(4064)] + [bytes(4096)] * 511

def write(number, level, count, left, right, items):
    head = struct.pack(">IHHIIQQ16sII", 0x524D4233, level, count, left, right, 8 * (776 + number), 0, UUID, 0, 0)
    block = bytearray((head + items).ljust(4096, b"\0"))
    struct.pack_into("<I", block, 52, crc32c(block))
    blocks[number] = bytes(block)

def key(start, owner, off):
    return struct.pack(">IQQ", start, owner, off)

# Each block has 22 owners, and some one more. Blocks that follow each other are never on one line of an owner.
if sys.argv[2] == "full":
    more, gap, few = 512, range(0), []
else:
    more, gap, few = 706, range(1280, 1289), [(1280, 1, 128, 0), (1282, 1, 128, 2), (1284, 5, 129, 1)]
wanted = [start for start in range(512, 2048) if start not in gap]
records = [(start, 1, owner, 2 * start % 512) for i, start in enumerate(wanted) for owner in range(128, 151) if owner < 150 or i < more]
records = sorted(records + few)
def parts(items, most):
    many = -(-len(items) // most)
    return [items[len(items) * i // many : len(items) * (i + 1) // many] for i in range(many)]

row = []
for part in parts(records, 168):
    items = b"".join(struct.pack(">IIQQ", *r) for r in part)
    low = [key(start, owner, off) for start, length, owner, off in part]
    high = [key(start + length - 1, owner, off + length - 1) for start, length, owner, off in part]
    row.append((low[0], max(high), 0, len(part), items))

number, level = 2, 0
while True:
    numbers = [1] if len(row) == 1 else range(number, number + len(row))
    for i, (low, high, at, count, items) in enumerate(row):
        left = numbers[i - 1] if i > 0 else NONE
        right = numbers[i + 1] if i + 1 < len(row) else NONE
        write(numbers[i], level, count, left, right, items)
    if len(row) == 1:
        break
    level += 1
    above = []
    named = [(low, high, n) for (low, high, at, count, items), n in zip(row, numbers)]
    number += len(row)
    for part in parts(named, 91):
        keys = b"".join(low + high for low, high, n in part).ljust(91 * 40, b"\0")
        pointers = b"".join(struct.pack(">I", n) for low, high, n in part)
        above.append((part[0][0], max(high for low, high, n in part), level, len(part), keys + pointers))
    row = above
with open(sys.argv[1], "wb") as group:
    group.write(b"".join(blocks))
print(len(records), "records,", number - 1, "blocks, level", level)
