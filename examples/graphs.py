#!/usr/bin/env python3
"""Writes one of the benchmark's graphs as a wiring file on standard output: site, random200, random1000 or small64. The same bytes each time."""
import random
import struct
import sys


def record(kind, payload):
    return struct.pack("<HH", len(payload), kind) + payload


def sizes(nodes, labels):
    return record(1, struct.pack("<HH", nodes, labels))


def puts(edges):
    return b"".join(record(2, struct.pack("<HBH", u, a, v)) for u, a, v in edges)


def random_edges(rng, nodes, labels, count):
    edges = set()
    while len(edges) < count:
        edges.add((rng.randrange(nodes), labels[rng.randrange(len(labels))], rng.randrange(nodes)))
    return sorted(edges)


def site(rng):
    """200 nodes, 1,000 wires: 40 lidars publish to relays, 100 relays pass on, 20 caches keep, and 40 planners read."""
    p, r, k, c, s = (ord(x) - ord("a") for x in "prkcs")
    lidars, relays, caches, planners = range(0, 40), range(40, 140), range(140, 160), range(160, 200)
    edges = set()

    def add(count, sources, label, targets):
        goal = len(edges) + count
        while len(edges) < goal:
            edges.add((rng.choice(sources), label, rng.choice(targets)))

    add(120, lidars, p, relays)
    add(500, relays, r, relays)
    add(120, relays, k, caches)
    add(120, caches, c, relays)
    add(140, relays, s, planners)
    return sizes(200, 26) + puts(sorted(edges))


def main():
    name = sys.argv[1]
    rng = random.Random(name)
    if name == "site":
        out = site(rng)
    elif name == "random200":
        out = sizes(200, 5) + puts(random_edges(rng, 200, range(5), 4000))
    elif name == "random1000":
        out = sizes(1000, 5) + puts(random_edges(rng, 1000, range(5), 4000))
    elif name == "small64":
        out = sizes(64, 5) + puts(random_edges(rng, 64, range(5), 1000))
    else:
        sys.exit("unknown graph: " + name)
    sys.stdout.buffer.write(out)


main()
