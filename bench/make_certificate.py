#!/usr/bin/env python3
"""Writes a certificate near the limits of its format: 64 nodes, 512 links, 4,032 pairs and a margin in the first, 128
nodes, 1,024 links, 16,256 pairs and a box in the second, and up to 32 paths a pair.

usage: make_certificate.py FILE [SEED [FORMAT]]

Node i of the ring leads to the eight nodes after it. A path goes forward around the ring by steps of 1 to 8, so it visits
no node twice. Every block has the same random weights, the distances by them as potentials, and plus and minus that cover
the shares, with a random number added to both; the demands of the set are zero, so its inequality holds, and the ratio is
the greatest need: the answer is yes. Of the second format one block is held in memory at a time.
"""
import heapq
import random
import sys

NODES_OF_FORMAT = {1: 64, 2: 128}
STEPS, MOST_PATHS, UNIT = 8, 32, 1_000_000


def link(nodes, node, step):
    return (node % nodes) * STEPS + step - 1


def paths_of(draw, nodes, src, dst):
    distance = (dst - src) % nodes
    found = set()
    for _ in range(4 * MOST_PATHS):
        node, left, links = src, distance, []
        while left:
            step = draw.randint(1, min(left, draw.choice((1, 2, 3, STEPS))))
            links.append(link(nodes, node, step))
            node, left = node + step, left - step
        found.add(tuple(links))
        if len(found) == MOST_PATHS:
            break
    return sorted(found)


def distances(nodes, weights, src):
    best, queue = [None] * nodes, [(0, src)]
    while queue:
        far, node = heapq.heappop(queue)
        if best[node] is not None:
            continue
        best[node] = far
        for step in range(1, STEPS + 1):
            heapq.heappush(queue, (far + weights[link(nodes, node, step)], (node + step) % nodes))
    return best


def write(out, draw, format_number, nodes):
    """Writes a certificate of this format, which holds, for a network of so many nodes and eight links for each of them."""
    line = lambda *words: print(*words, file=out)
    capacities = [draw.randint(1, 100) * 1000 for _ in range(nodes * STEPS)]
    weights = [draw.randint(2**20, 2**28) for _ in capacities]
    potential = [distances(nodes, weights, v) for v in range(nodes)]
    pairs = [(s, t) for s in range(nodes) for t in range(nodes) if s != t]
    shares = [[0] * len(pairs) for _ in capacities]
    line("yates-ratio", format_number)
    line("nodes", nodes)
    for v in range(nodes):
        line(f"n{v}")
    line("links", len(capacities))
    for v in range(nodes):
        for step in range(1, STEPS + 1):
            line(v, (v + step) % nodes, capacities[link(nodes, v, step)], draw.randint(1, 10))
    line("pairs", len(pairs))
    for p, (s, t) in enumerate(pairs):
        paths = paths_of(draw, nodes, s, t)
        line(s, t, len(paths))
        for k, links in enumerate(paths):
            weight = UNIT // len(paths) + (UNIT % len(paths) if k == 0 else 0)
            line(weight, len(links), *links)
            for h in links:
                shares[h][p] += weight
    line("set margin 2 1" if format_number == 1 else "set box")
    for bound in ("base",) if format_number == 1 else ("lower", "upper"):
        line(bound, *[0] * len(pairs))
    weighted = sum(c * w for c, w in zip(capacities, weights))
    b = 4096
    line("ratio", max(-(-UNIT * weighted // (b * c)) for c in capacities))
    line("blocks", len(capacities))
    rows = [" ".join(map(str, [v] + potential[v])) for v in range(nodes)]
    for e in range(len(capacities)):
        line(e, UNIT, b, nodes)
        line(*weights)
        for row in rows:
            line(row)
        want = [-(-b * share // UNIT) - potential[s][t] for share, (s, t) in zip(shares[e], pairs)]
        added = [draw.getrandbits(34) for _ in want]
        line("plus", *[max(x, 0) + k for x, k in zip(want, added)])
        line("minus", *[max(-x, 0) + k for x, k in zip(want, added)])
    line("end")


def main():
    draw = random.Random(int(sys.argv[2]) if len(sys.argv) > 2 else 1)
    format_number = int(sys.argv[3]) if len(sys.argv) > 3 else 1
    with open(sys.argv[1], "w") as out:
        write(out, draw, format_number, NODES_OF_FORMAT[format_number])


if __name__ == "__main__":
    main()
