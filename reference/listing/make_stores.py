#!/usr/bin/env python3
"""usage: make_stores.py DIR                   each as DIR/NAME.store
       make_stores.py DIR --gate PROGRAM    all of them as DIR/stdin, each behind its length in bytes (u32, little-endian),
                                            and what PROGRAM writes for each, one after the other, as DIR/stdout
Writes stores to list: the example of document 01, others, and damaged ones."""
import math
import struct
import subprocess
import sys

S = [(0, 10), (20, 10), (20, 0), (0, 0)]
NAN = float("nan")
# the neighbours of -1e-9
BELOW, ABOVE = math.nextafter(-1e-9, -1), math.nextafter(-1e-9, 0)


def u32(x):
    return struct.pack("<I", x)


def record(next_, kind, *numbers):
    return struct.pack("<II4d", next_, kind, *(list(numbers) + [0.0] * (4 - len(numbers))))


def in_order(parts):
    """Records 0, 1, 2, .. in chain order: record 0, then these (kind, numbers)."""
    last = len(parts)
    records = [record(1 if parts else 0, 0)]
    records += [record(0 if k == last else k + 1, kind, *numbers) for k, (kind, numbers) in enumerate(parts, 1)]
    return b"".join(records)


def vertices(points):
    return [(1, point) for point in points]


def sphere(*numbers):
    return (2, numbers)


def box(*numbers):
    return (3, numbers)


def backwards(store):
    """The same chain, its records but the first stored the other way round."""
    parts = [store[at:at + 40] for at in range(0, len(store), 40)]
    links = [struct.unpack("<I", part[:4])[0] for part in parts]
    turned = [u32(len(parts) - link if link else 0) + part[4:] for part, link in zip(parts, links)]
    return turned[0] + b"".join(reversed(turned[1:]))


def patched(store, at, data):
    return store[:at] + data + store[at + len(data):]


EXAMPLE = in_order(vertices(S) + [box(25, 30, 0, 5)])
BODIES = [
    sphere(0, 0, 30, 4), box(25, 30, 0, 5), box(18, 30, 0, 5), box(20, 25, 0, 5), box(-5, 25, 5, 15),
    sphere(3, 4, 30, 0), sphere(5, 0, 20, 0), sphere(0, 0, 10, 0),
]
STORES = {
    "example": EXAMPLE,
    "bodies": in_order(vertices(S) + BODIES),
    "interleaved": in_order([sphere(0, 0, 30, 4), (1, S[0]), (1, S[1]), box(25, 30, 0, 5), (1, S[2]), (1, S[3])]),
    "backwards": backwards(EXAMPLE),
    "empty": b"",
    "bytes_39": bytes(39),
    "bytes_40": bytes(40),
    "bytes_41": bytes(41),
    "bytes_20480": bytes(20480),
    "bytes_20520": bytes(20520),
    "bytes_30000": bytes(30000),
    "next_9_of_6": patched(EXAMPLE, 5 * 40, u32(9)),
    "next_is_count": patched(EXAMPLE, 5 * 40, u32(6)),
    "self_link": patched(EXAMPLE, 3 * 40, u32(3)),
    "back_link": patched(EXAMPLE, 5 * 40, u32(2)),
    "kind_7": patched(EXAMPLE, 4 * 40 + 4, u32(7)),
    "kind_0_chained": patched(EXAMPLE, 4 * 40 + 4, u32(0)),
    "record_0_kind_1": patched(EXAMPLE, 4, u32(1)),
    "kinds_in_chain_order": patched(backwards(patched(EXAMPLE, 2 * 40 + 4, u32(7))), 2 * 40 + 4, u32(7)),
    "links_before_kinds": patched(patched(EXAMPLE, 4 + 40, u32(7)), 5 * 40, u32(9)),
    "big_endian_next": patched(EXAMPLE, 0, struct.pack(">I", 1)),
    "two_vertices": in_order(vertices(S[:2])),
    "vertices_256": in_order(vertices([S[k % 4] for k in range(256)]) + [box(25, 30, 0, 5)]),
    "vertices_257": in_order(vertices([S[k % 4] for k in range(257)])),
    "vertex_nan": in_order(vertices(S[:3] + [(NAN, 0)])),
    "vertex_past_limit": in_order(vertices(S[:3] + [(1048577, 0)])),
    "vertex_others_ignored": in_order([(1, (z, r, NAN, 1e300)) for z, r in S] + [box(25, 30, 0, 5)]),
    "bodies_refused": in_order(
        vertices(S) + [box(5, 4, 0, 5), sphere(0, 0, 0, -1), box(25, 30, 0, 2e6), sphere(NAN, 0, 0, -1), box(25, 30, 0, 5)]
    ),
    "axis_only": in_order(vertices([(0, 0), (20, 0), (10, 0)]) + [sphere(0, 0, 30, 4)]),
    "unreached_first": patched(patched(EXAMPLE, 0, u32(2)), 40, b"\xff" * 40),
    "unreached": EXAMPLE[:5 * 40] + record(0, 3, 25, 30, 0, 5) + b"\xff" * 80,
    # its first edge has no length, so that its first end, with z -0.0, is the sphere's witness
    "minus_zero": in_order(
        vertices([(-0.0, 10), (-0.0, 10), (20, 10), (20, -0.0), (-0.0, -0.0)])
        + [sphere(10, 0, -5, 1), box(-5, -1, -0.0, 5), box(20, 25, 0, 5)]
    ),
    "largest": in_order(vertices(S[:3]) + [sphere(k / 8, 100, 1, 5) for k in range(508)]),
    # longer than one read of 4,096 bytes, and the chain begins behind it
    "two_reads": backwards(in_order(vertices(S) + [sphere(k / 8, 100, 1, 5) for k in range(100)])),
    # a radius below -1e-9: behind a body, in the second of two records in file order, in an unreached record
    "radius_below": in_order(vertices(S[:2]) + [sphere(0, 0, 30, 4), (1, (20, -1))] + vertices(S[3:])),
    "radius_below_twice": backwards(in_order(vertices([S[0], (20, -10), (20, -1), S[3]]) + [box(25, 30, 0, 5)])),
    "radius_below_unreached": EXAMPLE + record(0, 1, 20, -1),
    "radius_at_threshold": in_order(vertices(S[:2] + [(20, -1e-9), (0, -1e-9)]) + BODIES),
    "radius_above_threshold": in_order(vertices(S[:2] + [(20, ABOVE), (0, -5e-324)]) + BODIES),
    "radius_below_threshold": in_order(vertices(S[:2] + [(20, -1e-9), (0, BELOW)]) + BODIES),
    "radius_below_of_the_last": in_order(vertices(S[:3]) + BODIES + [(1, (0, BELOW))]),
    # 4 and 5 of a later vertex come first; a body's own numbers do not
    "radius_below_and_nan": in_order(vertices([S[0], (20, -1), (NAN, 0)])),
    "radius_below_and_past_limit": in_order(vertices([S[0], (20, -1), (1048577, 0)])),
    "radius_past_limit_below": in_order(vertices([S[0], (20, -1), (20, -1048577)])),
    "radius_below_of_two": in_order(vertices([S[0], (20, -1)])),
    "radius_below_of_257": in_order(vertices([(k, -1) for k in range(257)])),
    "radius_below_and_bodies": in_order([sphere(NAN, 0, 0, -1), box(5, 4, -1, -2)] + vertices([S[0], S[1], (20, -1)])),
    "radius_below_and_kind": patched(in_order(vertices([S[0], (20, -1), S[2], S[3]])), 4 * 40 + 4, u32(7)),
    "mirrored": in_order(vertices([(z, -r) for z, r in S]) + [box(25, 30, 0, 5)]),
    # only vertices are met: a box and the ignored numbers may lie below the axis
    "box_below": in_order([(1, (z, r, -5, -5)) for z, r in S] + [box(5, 6, -3, -2), sphere(-3, -4, 30, 0)]),
    # S from its axis edge on, with vertices that come twice; bodies that touch a corner or hold vertices
    "edges": in_order(
        vertices([(20, 0), (0, 0), (0, 10), (0, 10), (20, 10), (20, 10)]) + BODIES
        + [sphere(14, 0, 23, 1), box(20, 25, 10, 15), box(-5, 26, -5, 16), box(16, 30, 9, 12), box(5, 15, -4, -2)]
    ),
    # every body is nearest to the last edge, which has two digits: the longest listing
    "longest": in_order(
        vertices([(k, 0) for k in range(10)] + [(10, 5)]) + [sphere(5 + k / 32, 0, 0, 1) for k in range(500)]
    ),
    "edge_255": in_order(vertices([(k, 0) for k in range(255)] + [(255, 5)]) + [sphere(20, 0, 100, 1), box(1, 2, -3, -2)]),
    "bytes_1": bytes(1),
    "bytes_20481": bytes(20481),
    "bytes_20521": bytes(20521),
}


def gate(directory, program):
    with open(f"{directory}/stdin", "wb") as framed, open(f"{directory}/stdout", "wb") as expected:
        for store in STORES.values():
            framed.write(u32(len(store)) + store)
            expected.write(subprocess.run([program], input=store, stdout=subprocess.PIPE, check=True).stdout)


def each(directory):
    for name, store in STORES.items():
        with open(f"{directory}/{name}.store", "wb") as f:
            f.write(store)


if __name__ == "__main__":
    match sys.argv[1:]:
        case words if "--help" in words:
            print(__doc__)
        case [directory] if not directory.startswith("-"):
            each(directory)
        case [directory, "--gate", program] if not directory.startswith("-"):
            gate(directory, program)
        case _:
            print(__doc__, file=sys.stderr)
            sys.exit(2)
