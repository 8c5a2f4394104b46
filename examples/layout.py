#!/usr/bin/env python3
"""Lays flags out as storage files, slowly and by the tables of docs/FORMATS.md alone, and says what `acfg
create-storage` says of them: their number, that of their packages, and the digest of the four files.

usage: acfg dump '{package} {name} {permission} {is_fixed_read_only} {state}' all CACHE.. | layout.py CONTAINER
"""
import hashlib
import struct
import sys

COUNTS = [7, 17, 29, 53, 97, 193, 389, 769, 1543, 3079, 6151, 12289, 24593, 49157, 98317, 196613, 393241]
WORD = 2**64


def siphash_1_3(message):
    """SipHash-1-3 with the key 0, as its paper has it."""
    a, b, c, d = 0x736F6D6570736575, 0x646F72616E646F6D, 0x6C7967656E657261, 0x7465646279746573
    left = lambda word, bits: word << bits & WORD - 1 | word >> 64 - bits

    def sip_round(a, b, c, d):
        a, c = (a + b) % WORD, (c + d) % WORD
        b, d = left(b, 13) ^ a, left(d, 16) ^ c
        a, c = (left(a, 32) + d) % WORD, (c + b) % WORD
        d, b = left(d, 21) ^ a, left(b, 17) ^ c
        return a, b, left(c, 32), d

    message += bytes(7 - len(message) % 8) + bytes([len(message) % 256])
    for (word,) in struct.iter_unpack("<Q", message):
        a, b, c, d = sip_round(a, b, c, d ^ word)
        a ^= word
    c ^= 0xFF
    for _ in range(3):
        a, b, c, d = sip_round(a, b, c, d)
    return a ^ b ^ c ^ d


def string(text):
    return struct.pack("<I", len(text)) + text


def map_file(container, file_type, nodes):
    """nodes: the key of each, and its bytes without the last field, where the bucket's next node stands."""
    count = next(count for count in COUNTS if count >= 2 * len(nodes))
    bucket = [siphash_1_3(key + b"\xff") % count for key, _ in nodes]
    order = sorted(range(len(nodes)), key=lambda node: bucket[node])
    header = len(string(container)) + 21
    first, place = header + 4 * count, {}
    size = first
    for node in order:
        place[node] = size
        size += len(nodes[node][1]) + 4
    same = [[node for node in order if bucket[node] == number] for number in range(count)]
    table = [place[nodes_there[0]] if nodes_there else 0 for nodes_there in same]
    after = {one: place[other] for nodes_there in same for one, other in zip(nodes_there, nodes_there[1:])}
    body = b"".join(nodes[node][1] + struct.pack("<I", after.get(node, 0)) for node in order)
    fields = struct.pack("<BIIII", file_type, size, len(nodes), header, first)
    return struct.pack("<I", 1) + string(container) + fields + struct.pack(f"<{count}I", *table) + body


def list_file(container, file_type, flags):
    header = len(string(container)) + 17
    fields = struct.pack("<BIII", file_type, header + len(flags), len(flags), header)
    return struct.pack("<I", 1) + string(container) + fields + bytes(flags)


container = sys.argv[1].encode()
packages = {}
for line in sys.stdin.buffer:
    package, name, permission, fixed, state = line.split()
    kind = 2 if fixed == b"true" else 0 if permission == b"READ_WRITE" else 1
    packages.setdefault(package, []).append((name, kind, state == b"ENABLED"))
package_nodes, flag_nodes, start = [], [], 0
for number, (package, flags) in enumerate(packages.items()):
    package_nodes.append((package, string(package) + struct.pack("<II", number, start)))
    start += len(flags)
    for index, (name, kind, _) in enumerate(flags):
        node = struct.pack("<I", number) + string(name) + struct.pack("<HH", kind, index)
        flag_nodes.append((b"%d/%s" % (number, name), node))
every = [flag for flags in packages.values() for flag in flags]
files = map_file(container, 0, package_nodes) + map_file(container, 1, flag_nodes)
files += list_file(container, 2, [enabled for _, _, enabled in every])
files += list_file(container, 3, [2 if kind == 0 else 0 for _, kind, _ in every])
print(f"stored {start} flags in {len(packages)} packages {hashlib.sha256(files).hexdigest()}")
