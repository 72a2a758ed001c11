#!/usr/bin/env python3
"""Writes the study files that the programs are timed on, the same every time.

    make_studies.py FOLDER      FOLDER/<n>-<easy|hard>-<name>.study

Easy: tides on a line or in a plane (distance by streets), few settings.
Hard: most candidates have few enough centres, and only the matching of tides
to blocks turns them away; or many ties with eight exact minima.
"""

import os
import sys

SIZES = [30, 60, 90, 120]


class Random:
    """xorshift, so that the files don't depend on the Python at hand."""

    def __init__(self, seed):
        self.x = seed * 2654435761 % 2**64 or 1

    def below(self, end):
        x = self.x
        x ^= x << 13 & 2**64 - 1
        x ^= x >> 7
        x ^= x << 17 & 2**64 - 1
        self.x = x
        return (x >> 20) % end

    def shuffled(self, items):
        items = list(items)
        for i in range(len(items) - 1, 0, -1):
            j = self.below(i + 1)
            items[i], items[j] = items[j], items[i]
        return items


def study_file(k, b0, b, settings, distance, withdrawals=0):
    """A file of mark 55, most significant bit first; settings from 1; all
    withdrawals are user 1's."""
    n = len(settings)
    bits = []

    def put(value, width):
        assert 0 <= value < 1 << width
        bits.append(format(value, f"0{width}b"))

    put(0x55, 8)
    put(n, 7)
    put(k, 4)
    put(b0, 7)
    for count in [withdrawals, 0, 0, 0]:
        put(count, 16)
    for least in b:
        put(least, 7)
    for t in range(n):
        put(settings[t] - 1, 3)
        for e in range(t):
            put(distance(t, e), 20)
    text = "".join(bits)
    assert len(text) == 90 + 7 * k + 3 * n + 10 * n * max(n - 1, 0)
    text += "0" * (-len(text) % 8)
    return int(text, 2).to_bytes(len(text) // 8, "big")


def line(n):
    r = Random(n)
    at = [r.below(1_000_000) for _ in range(n)]
    return study_file(1, 3, [0], [1] * n, lambda t, e: abs(at[t] - at[e]))


def plane(n):
    r = Random(n + 1)
    at = [(r.below(500_000), r.below(500_000)) for _ in range(n)]
    settings = [1 + r.below(2) for _ in range(n)]
    return study_file(
        2, 4, [1, 1], settings,
        lambda t, e: abs(at[t][0] - at[e][0]) + abs(at[t][1] - at[e][1]), 12)


def rooms(n, k, b0, b, seed, near=None):
    """Two rooms. In the first, m centres share one tide too few between them
    at every reach from R to 2R - 1; in the second, one centre has enough. All
    distances inside a room are from R to 2R and mostly different, so that
    nearly each of them is a candidate. The rooms are 3R apart. With near, each
    tide of the first room is at R from that many centres only, and one more
    tide is near one more centre at each of the next candidates."""
    r = Random(seed)
    R = 100_000
    m = (n - b0 - 1) // b0
    first = m * b0 - 1
    free = r.shuffled(range(R + 1, 2 * R))
    table = {}
    for t in range(n):
        for e in range(t):
            if (e < first) != (t < first):
                d = 3 * R
            elif t < m:
                d = 2 * R  # both are centres of the first room
            elif e < m and (near is None or (e - t) % m < near) or e == first:
                d = R  # one of them is a centre
            else:
                d = free.pop()
            table[t, e] = d
    settings = [1 + t % k for t in range(first)] + [1 + t % k for t in range(n - first)]
    assert (m + 1) * b0 <= n
    return study_file(k, b0, b, settings, lambda t, e: table[t, e], 300)


def count(n):
    """The first room lacks a tide for the blocks' size."""
    return rooms(n, 1, 5, [0], n + 2)


def settings(n):
    """The first room lacks a tide of the last of eight settings."""
    return rooms(n, 8, 8, [1] * 8, n + 3)


def moving(n):
    """As before, with tides that come near one by one."""
    return rooms(n, 8, 8, [1] * 8, n + 6, near=1)


def chain(n):
    """Blocks of two: the first room lacks one tide, each tide of it is near
    two centres from the start, and thousands of candidates bring one more
    tide near one more centre."""
    return rooms(n, 1, 2, [0], n + 7, near=2)


def growing(n):
    """Blocks of two, each of a centre and a later tide, where tides prefer the
    first centres: at nearly every candidate that changes anything, one more
    block gets its tide."""
    r = Random(n + 8)
    R = 100_000
    centres = n // 2
    table = {}
    for t in range(n):
        for e in range(t):
            if t < centres:
                d = 2 * R
            elif e < centres:
                d = R + (t - centres + 1) * (e + 1) * 40_000 // (centres * centres) + r.below(20)
            else:
                d = 2 * R - 1 - r.below(1000)
            table[t, e] = d
    return study_file(1, 2, [0], [1] * n, lambda t, e: table[t, e])


def searched(n):
    """Blocks of two as in growing, with distances by a formula whose numbers
    were searched for slowness."""
    r = Random(n + 9)
    R = 400_000
    centres = n // 2
    table = {}
    for t in range(n):
        for e in range(t):
            if t < centres:
                d = 2 * R
            elif e < centres:
                u, v = (t - centres + 1) / (n - centres), (e + 1) / centres
                f = 136 * u + 396 * v + 93 * u * u + 123 * v * v - 37 * u * v - 148 * abs(u - v) - 64 * (u - v) ** 2
                d = R + min(R - 2, max(0, int(1000 * f) + r.below(155)))
            else:
                d = 2 * R - 1 - r.below(1000)
            table[t, e] = d
    return study_file(1, 2, [0], [1] * n, lambda t, e: table[t, e])


def diagonal(n):
    """Blocks of three, with distances by the sum of two tides' numbers: the
    first list takes hundreds of searches."""
    R = 100_000
    centres = n // 3
    table = {}
    for t in range(n):
        for e in range(t):
            if t < centres:
                d = 2 * R
            elif e < centres:
                d = R + (t - centres + e) * 700 % (R - 1)
            else:
                d = 2 * R - 1 - (t * e) % 1000
            table[t, e] = d
    return study_file(1, 3, [0], [1] * n, lambda t, e: table[t, e])


def spare(n):
    """Blocks of two, and as many tides to spare as there are blocks. Every tide
    is nearest to the centre of the last block, next to that of the last but
    one, and so on: each spare tide comes there one search at a time."""
    R = 100_000
    centres = n // 3
    table = {}
    for t in range(n):
        for e in range(t):
            if t < centres:
                d = 2 * R
            elif e < centres:
                d = R + (centres - 1 - e) * 1000
            else:
                d = 2 * R - 1 - (t * e) % 1000
            table[t, e] = d
    return study_file(1, 2, [0], [1] * n, lambda t, e: table[t, e])


def ties(n):
    """Two distances only; eight settings, each block just one tide of each
    where the blocks are full. The first list needs many trials."""
    r = Random(n + 4)
    blocks = n // 8
    near = {}
    for c in range(8):
        # each setting's tides: a hidden filling, and other blocks by chance
        for m, t in enumerate(r.shuffled(range(blocks))):
            near[c, t] = m
    # the centres come first, one of each setting in turn
    tides = [(m % 8, [t for t in range(blocks) if near[m % 8, t] == m][0]) for m in range(blocks)]
    held = set(tides)
    tides += r.shuffled([x for x in near if x not in held])
    own = [near[x] for x in tides]
    while len(tides) < n:
        tides.append((r.below(8), None))
        own.append(r.below(blocks))
    table = {}
    for t in range(n):
        for e in range(t):
            if e < blocks:
                d = 2 if t < blocks else 1 if own[t] == e or r.below(3) == 0 else 2
            else:
                d = 1 + r.below(2)
            table[t, e] = d
    return study_file(8, 8, [1] * 8, [x[0] + 1 for x in tides], lambda t, e: table[t, e], 65_535)


def spread(n):
    """All distances different, from 500,000 to 1,000,000; eight settings."""
    r = Random(n + 5)
    table = {}
    used = set()
    for t in range(n):
        for e in range(t):
            d = 500_000 + r.below(500_001)
            while d in used:
                d = 500_000 + r.below(500_001)
            used.add(d)
            table[t, e] = d
    settings = [1 + t % 8 for t in range(n)]
    return study_file(8, 8, [1] * 8, settings, lambda t, e: table[t, e])


KINDS = [
    ("easy", line), ("easy", plane),
    ("hard", count), ("hard", settings), ("hard", moving), ("hard", chain),
    ("hard", growing), ("hard", searched), ("hard", diagonal), ("hard", spare), ("hard", ties), ("hard", spread),
]


def main():
    folder = sys.argv[1]
    os.makedirs(folder, exist_ok=True)
    for n in SIZES:
        for kind, make in KINDS:
            with open(f"{folder}/{n:03}-{kind}-{make.__name__}.study", "wb") as out:
                out.write(make(n))


if __name__ == "__main__":
    main()
