#!/usr/bin/env python3
"""The answer of `yates check-hose CERT HOSE`, worked out by a program of its own, for comparison with the proved one.

usage: reference_hose.py CERT HOSE      prints what `yates check-hose CERT HOSE` has to print, and ends with its status

It follows docs/FORMATS.md (tables, rules, texts) and docs/DEFINITIONS.md (hoses), and shares no code with the crates. It is slow and plain on
purpose.
"""
import collections
import sys

import reference_check
from reference_check import RATIO_UNIT, SHARE_UNIT
from reference_witness import table

FIRST, FIRST_OF_BOUNDS = b"yates-hose 1", b"yates-bounds 1"
LIMIT = 67_108_864
MOST_BLOCKS, MOST_AMOUNT, MOST_BOUND = 1024, 2**32, 10**19

# What each node sends and receives at most, the bound in millionths, and for some links numbers of the nodes.
Hose = collections.namedtuple("Hose", "sent received bound blocks")
Block = collections.namedtuple("Block", "link tails heads")


class Due:
    """The lines of a table, of which each has to be the one that is due."""

    def __init__(self, lines):
        self.lines, self.place = lines, 0

    def fault(self):
        return reference_check.ShapeFault(2 + self.place)

    def take(self, word, count):
        """The numbers of the next line, which has this word and so many numbers."""
        if self.place == len(self.lines) or self.lines[self.place][0] != word or len(self.lines[self.place][1]) != count:
            raise self.fault()
        self.place += 1
        return self.lines[self.place - 1][1]

    def take_count(self, word, most):
        """The number of the next line, which is at most this."""
        (count,) = self.take(word, 1)
        if count > most:
            self.place -= 1
            raise self.fault()
        return count

    def end(self):
        if self.place < len(self.lines):
            raise self.fault()


def spelled(lines, nodes):
    """What the lines of a table say as a hose certificate of so many nodes."""
    due = Due(lines)
    sent, received = due.take(b"sent", nodes), due.take(b"received", nodes)
    (bound,), count = due.take(b"bound", 1), due.take_count(b"blocks", MOST_BLOCKS)
    blocks = [Block(due.take(b"link", 1)[0], due.take(b"tails", nodes), due.take(b"heads", nodes)) for _ in range(count)]
    due.end()
    return Hose(sent, received, bound, blocks)


def spelled_bounds(lines, nodes):
    """What the lines of a table say as bounds of so many nodes."""
    due = Due(lines)
    sent, received = due.take(b"sent", nodes), due.take(b"received", nodes)
    due.end()
    return Hose(sent, received, 0, [])


def rules(links, hose):
    """The rules K1 to K4, each with its places and whether it holds there."""
    for place, amount in enumerate(hose.sent + hose.received):
        yield 1, place, amount <= MOST_AMOUNT
    yield 2, 0, hose.bound < MOST_BOUND
    for place, block in enumerate(hose.blocks):
        yield 3, place, block.link < links and (place == 0 or hose.blocks[place - 1].link < block.link)
    for place, block in enumerate(hose.blocks):
        yield 4, place, max(block.tails + block.heads) <= SHARE_UNIT


def shares_on(certificate, link):
    """For each pair with a share on the link its source, its destination and the share."""
    shares = [(src, dst, sum(weight for weight, path in paths if link in path)) for src, dst, paths in certificate["pairs"]]
    return [it for it in shares if it[2]]


def sum_of(hose, tails, heads):
    """What these numbers of the nodes come to by the hose."""
    return sum(amount * number for amount, number in zip(hose.sent + hose.received, list(tails) + list(heads)))


def first_inequality(certificate, hose):
    """The first of H1, by pair, and H2 that fails, by link, and where."""
    nodes, by_link = len(certificate["names"]), {block.link: block for block in hose.blocks}
    for e, (_, _, capacity, _) in enumerate(certificate["links"]):
        block = by_link.get(e, Block(e, [0] * nodes, [0] * nodes))
        for p, (src, dst, paths) in enumerate(certificate["pairs"]):
            if sum(weight for weight, path in paths if e in path) > block.tails[src] + block.heads[dst]:
                return e, 1, p
        if RATIO_UNIT * sum_of(hose, block.tails, block.heads) > SHARE_UNIT * capacity * hose.bound:
            return e, 2, 0
    return None


def way_to_gain(links, count):
    """The way from node 0 to node 1 over links with room that gains most, as places of links, or None where none gains (Bellman and Ford)."""
    gains, by = [0] + [None] * (count - 1), [None] * count
    for _ in range(count):
        for place, (tail, head, room, gain) in enumerate(links):
            if room and gains[tail] is not None and (gains[head] is None or gains[tail] + gain > gains[head]):
                gains[head], by[head] = gains[tail] + gain, place
    if gains[1] is None or gains[1] <= 0:
        return None
    way, node = [], 1
    while node:
        way.append(by[node])
        node = links[by[node]][0]
    return way


def greatest_load(shares, hose):
    """The most that a matrix within the hose puts on a link with these shares, by its millionths: a flow of greatest gain."""
    nodes, links = len(hose.sent), []
    ends = [(0, 2 + i, amount, 0) for i, amount in enumerate(hose.sent)] + [(2 + nodes + i, 1, amount, 0) for i, amount in enumerate(hose.received)]
    for tail, head, room, gain in ends + [(2 + src, 2 + nodes + dst, MOST_AMOUNT, share) for src, dst, share in shares]:
        links += [[tail, head, room, gain], [head, tail, 0, -gain]]
    load = 0
    while (way := way_to_gain(links, 2 + 2 * nodes)) is not None:
        amount = min(links[place][2] for place in way)
        for place in way:
            links[place][2] -= amount
            links[place ^ 1][2] += amount
            load += amount * links[place][3]
    return load


def faults_of_block(certificate, hose, block):
    """What of the numbers of a block that `hose` writes is not as it promises, beside the two inequalities."""
    shares, nodes = shares_on(certificate, block.link), range(len(certificate["names"]))
    faults = [] if shares else [f"link {block.link} has a block and no share"]
    for i in nodes:
        if block.tails[i] and all(share < block.tails[i] + block.heads[dst] for src, dst, share in shares if src == i):
            faults.append(f"tail {i} of link {block.link} can be lowered")
        if block.heads[i] and all(share < block.tails[src] + block.heads[i] for src, dst, share in shares if dst == i):
            faults.append(f"head {i} of link {block.link} can be lowered")
    by_tails = sum_of(hose, [max([share for src, _, share in shares if src == i], default=0) for i in nodes], [0 for _ in nodes])
    by_heads = sum_of(hose, [0 for _ in nodes], [max([share for _, dst, share in shares if dst == i], default=0) for i in nodes])
    if sum_of(hose, block.tails, block.heads) > min(by_tails, by_heads):
        faults.append(f"link {block.link} is covered for less by its tails or its heads alone")
    if sum_of(hose, block.tails, block.heads) != greatest_load(shares, hose):
        faults.append(f"no matrix within the hose puts on link {block.link} what its numbers come to")
    return faults


def faults_of_made(certificate, bounds, hose):
    """What of a hose certificate that `hose` writes for bounds is not as it promises, beside the two inequalities."""
    faults = [] if (hose.sent, hose.received) == (bounds.sent, bounds.received) else ["another hose"]
    links = certificate["links"]
    faults += [f"link {e} has a share and no block" for e in range(len(links)) if shares_on(certificate, e) and e not in {it.link for it in hose.blocks}]
    for block in hose.blocks:
        faults += faults_of_block(certificate, hose, block)
    least = max([-(-sum_of(hose, it.tails, it.heads) // links[it.link][2]) for it in hose.blocks], default=0)
    return faults + ([] if hose.bound == least else [f"the least bound is {least}"])


def hose_of(name, data, certificate, first=FIRST, reading=spelled):
    """The hose certificate of a file of this name and these bytes, or its bounds."""
    if len(data) > LIMIT:
        raise reference_check.Refused(f"refused: {name}: too long\n", 3)
    try:
        hose = reading(table(first, data), len(certificate["names"]))
    except reference_check.ShapeFault as fault:
        raise reference_check.Refused(f"refused: {name}: shape at line {fault}\n", 3) from fault
    broken = reference_check.first_fault(rules(len(certificate["links"]), hose))
    if broken:
        raise reference_check.Refused(f"refused: {name}: rule K{broken[0]} at {broken[1]}\n", 3)
    return hose


def bounds_of(name, data, certificate):
    """The bounds of a file of this name and these bytes."""
    return hose_of(name, data, certificate, FIRST_OF_BOUNDS, spelled_bounds)


def answer(names, bytes_of=reference_check.bytes_of):
    """The texts for standard output and error, and the status, of a certificate and a hose certificate, by their names and bytes."""
    try:
        certificate = reference_check.certificate_of(names[0], bytes_of(names[0]))
        hose = hose_of(names[1], bytes_of(names[1]), certificate)
    except reference_check.Refused as refusal:
        text, status = refusal.args
        return "", text, status
    failed = first_inequality(certificate, hose)
    return ("no link %d rule H%d place %d\n" % failed, "", 1) if failed else (f"yes bound {hose.bound}\n", "", 0)


def main(words):
    if len(words) != 2:
        print(__doc__.split("\n\n")[1], file=sys.stderr)
        return 2
    out, err, status = answer(words)
    sys.stdout.write(out)
    sys.stderr.write(err)
    return status


if __name__ == "__main__":
    sys.exit(main(sys.argv[1:]))
