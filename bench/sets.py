#!/usr/bin/env python3
"""Writes sets of storage files into folders of FOLDER, as bench/query.sh measures them: two lawful ones of 25,000 and
50,000 flags, and sets that are built to hurt a check. Everything is computed here, the hashes too.

usage: bench/sets.py FOLDER
"""
import os
import random
import struct
import sys

COUNTS = [7, 17, 29, 53, 97, 193, 389, 769, 1543, 3079, 6151, 12289, 24593, 49157, 98317, 196613, 393241]
MASK = (1 << 64) - 1


def sip(data):
    """SipHash-1-3 with zero keys."""
    v0, v1, v2, v3 = 0x736F6D6570736575, 0x646F72616E646F6D, 0x6C7967656E657261, 0x7465646279746573

    def round_(v0, v1, v2, v3):
        v0 = (v0 + v1) & MASK
        v1 = (v1 << 13 | v1 >> 51) & MASK ^ v0
        v0 = (v0 << 32 | v0 >> 32) & MASK
        v2 = (v2 + v3) & MASK
        v3 = (v3 << 16 | v3 >> 48) & MASK ^ v2
        v0 = (v0 + v3) & MASK
        v3 = (v3 << 21 | v3 >> 43) & MASK ^ v0
        v2 = (v2 + v1) & MASK
        v1 = (v1 << 17 | v1 >> 47) & MASK ^ v2
        v2 = (v2 << 32 | v2 >> 32) & MASK
        return v0, v1, v2, v3

    whole = len(data) // 8 * 8
    words = list(struct.unpack("<%dQ" % (whole // 8), data[:whole]))
    words.append(int.from_bytes(data[whole:], "little") | (len(data) & 255) << 56)
    for word in words:
        v3 ^= word
        v0, v1, v2, v3 = round_(v0, v1, v2, v3)
        v0 ^= word
    v2 ^= 255
    for _ in range(3):
        v0, v1, v2, v3 = round_(v0, v1, v2, v3)
    return v0 ^ v1 ^ v2 ^ v3


def hash_of(key, buckets):
    return sip(key + b"\xff") % buckets


def size(entries):
    return next(count for count in COUNTS if count >= 2 * entries)


def map_file(kind, nodes, buckets, in_order=True):
    """nodes: pairs of a key, and a function from a next to the node's bytes."""
    placed = [(hash_of(key, buckets), make, len(make(0))) for key, make in nodes]
    if in_order:
        placed.sort(key=lambda node: node[0])
    first = 26 + 4 * buckets
    at = first + sum(length for _, _, length in placed)
    total = at
    table, out = [0] * buckets, []
    for bucket, make, length in reversed(placed):
        at -= length
        out.append(make(table[bucket]))
        table[bucket] = at
    header = struct.pack("<IIcBIIII", 1, 1, b"c", kind, total, len(placed), 26, first)
    return header + struct.pack("<%dI" % buckets, *table) + b"".join(reversed(out))


def list_file(kind, count, byte):
    return struct.pack("<IIcBIII", 1, 1, b"c", kind, 22 + count, count, 22) + bytes([byte]) * count


def package(name, number, start):
    text = name.encode()
    return text, lambda to: struct.pack("<I", len(text)) + text + struct.pack("<III", number, start, to)


def flag(owner, name, index):
    text = name.encode()
    key = b"%d/%s" % (owner, text)
    return key, lambda to: struct.pack("<II", owner, len(text)) + text + struct.pack("<HHI", 0, index, to)


def write(folder, packages, flags, package_buckets=None, flag_buckets=None, in_order=True):
    os.makedirs(folder)
    files = {
        "package.map": map_file(0, packages, package_buckets or size(len(packages)), in_order),
        "flag.map": map_file(1, flags, flag_buckets or size(len(flags)), in_order),
        "flag.val": list_file(2, len(flags), 1),
        "flag.info": list_file(3, len(flags), 2),
    }
    for name, data in files.items():
        with open(os.path.join(folder, name), "wb") as out:
            out.write(data)
    print("%-12s %d bytes" % (os.path.basename(folder), sum(map(len, files.values()))))


def lawful(count, names):
    """50 packages with as many flags each."""
    each = count // 50
    packages = [package("com.p%d" % p, p, p * each) for p in range(50)]
    return packages, [flag(p, names(p * each + i), i) for p in range(50) for i in range(each)]


def short(i):
    """the name of four letters with a number"""
    return "".join(chr(97 + i // 26**k % 26) for k in (3, 2, 1, 0))


def main(folder):
    plain = lambda i: "flag_%06d" % i
    packages, flags = lawful(50000, plain)
    write(os.path.join(folder, "half"), *lawful(25000, plain))
    write(os.path.join(folder, "lawful"), packages, flags)
    # nodes in no order of buckets, which a check has to put in order
    mixed = flags[:]
    random.Random(1).shuffle(mixed)
    write(os.path.join(folder, "unsorted"), packages, mixed, in_order=False)
    # one bucket in all
    write(os.path.join(folder, "one-bucket"), packages, flags, 1, 1)
    # of seven buckets all names are in one
    one = [package("com.a", 0, 0)]
    chosen, i = [], 0
    while len(chosen) < 50000:
        if hash_of(b"0/" + plain(i).encode(), 7) == 3:
            chosen.append(plain(i))
        i += 1
    write(os.path.join(folder, "crowded"), one, [flag(0, name, i) for i, name in enumerate(chosen)], 1, 7)
    # all packages with one id
    write(os.path.join(folder, "one-id"), [package("com." + short(i), 0, 0) for i in range(50000)], [])
    # as many nodes as four mebibytes hold, of four letters each, and few buckets
    many = 185000
    packages = [package("com.p%d" % p, p, p * 46250) for p in range(4)]
    write(os.path.join(folder, "least"), packages,
          [flag(i // 46250, short(i), i % 46250) for i in range(many)], 7, 12289)


if __name__ == "__main__":
    if len(sys.argv) != 2:
        sys.exit(__doc__)
    main(sys.argv[1])
