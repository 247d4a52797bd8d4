#!/usr/bin/env python3
"""The answer of `yates check`, worked out by a program of its own, for comparison with the proved one.

usage: reference_check.py CERT                        prints what `yates check CERT` has to print, and ends with its status
       reference_check.py CERT TOPOLOGY               the same of `yates check CERT TOPOLOGY`
       reference_check.py --set CERT [TOPOLOGY]       says below a yes what the set holds, and the bounds of each pair
       reference_check.py --bounds CERT               prints what `yates bounds CERT` has to print, and ends with its status

It follows docs/FORMATS.md (grammar, rules, texts) and docs/DEFINITIONS.md (the four inequalities), and shares no code
with the crates. It is slow and plain on purpose. The bounds of a pair are those of its demand, up to one factor that all
demands have in common, with `-` where there is none. CERT alone needs no other file than this one; a topology and --set
need those of lab/ too.
"""
import re
import sys

SHARE_UNIT = 1_000_000
RATIO_UNIT = 1_000_000
NAME = re.compile(rb"[A-Za-z0-9_.-]{1,32}\Z")
NUMBER = re.compile(rb"(0|[1-9][0-9]{0,19})\Z")
NUMBERS = re.compile(rb"(?:0|[1-9][0-9]{0,19})(?: (?:0|[1-9][0-9]{0,19}))*\Z")
MARGIN = b"set margin "
# what each format allows: its first line, nodes, links, pairs, paths of a pair, links of a path, and bytes of a file
FORMATS = {
    1: (b"yates-ratio 1", 64, 512, 4032, 32, 63, 134_217_728),
    2: (b"yates-ratio 2", 128, 1024, 16_256, 32, 127, 1_073_741_824),
}


class ShapeFault(Exception):
    """The number of the first line that leaves the grammar."""


class Refused(Exception):
    """What is written to standard error in place of an answer, and the status."""


class Lines:
    """The lines of a file, taken one at a time."""

    def __init__(self, data):
        pieces = data.split(b"\n")
        self.ended, self.rest = pieces[:-1], pieces[-1]
        self.number = 0

    def fault(self):
        return ShapeFault(self.number)

    def take(self):
        self.number += 1
        if self.number > len(self.ended):
            raise self.fault()
        return self.ended[self.number - 1]

    def end(self):
        if self.number < len(self.ended) or self.rest:
            self.number += 1
            raise self.fault()

    def numbers(self, text, count=None):
        """The numbers of a text, of which there is one at least, with one blank between them."""
        values = list(map(int, text.split(b" "))) if NUMBERS.match(text) else None
        if values is None or max(values) >= 2**64 or count not in (None, len(values)):
            raise self.fault()
        return values

    def worded(self, word, count):
        """A line of a word and this many numbers."""
        line = self.take()
        if line == word and count == 0:
            return []
        if not line.startswith(word + b" "):
            raise self.fault()
        return self.numbers(line[len(word) + 1 :], count)

    def count(self, word, low, high):
        value = self.worded(word, 1)[0]
        if not low <= value <= high:
            raise self.fault()
        return value

    def row(self, count):
        return self.numbers(self.take(), count)


def read_head(lines):
    """What stands before the ratio: the network, the routing and the set."""
    first = lines.take()
    cert = {"format": next((number for number, limits in FORMATS.items() if limits[0] == first), None)}
    if cert["format"] is None:
        raise lines.fault()
    _, most_nodes, most_links, most_pairs, most_paths, most_hops, _ = FORMATS[cert["format"]]
    nodes = lines.count(b"nodes", 2, most_nodes)
    cert["names"] = []
    for _ in range(nodes):
        name = lines.take()
        if not NAME.match(name):
            raise lines.fault()
        cert["names"].append(name)
    links = lines.count(b"links", 1, most_links)
    cert["links"] = [lines.row(4) for _ in range(links)]
    pairs = lines.count(b"pairs", 0, most_pairs)
    cert["pairs"] = [read_pair(lines, most_paths, most_hops) for _ in range(pairs)]
    cert["set"] = read_set(lines, cert)
    return cert


def read_pair(lines, most_paths, most_hops):
    src, dst, count = lines.row(3)
    if not 1 <= count <= most_paths:
        raise lines.fault()
    paths = []
    for _ in range(count):
        row = lines.row(None)
        if len(row) < 2 or not 1 <= row[1] <= most_hops or len(row) != 2 + row[1]:
            raise lines.fault()
        paths.append((row[0], row[2:]))
    return src, dst, paths


def read_set(lines, cert):
    line, pairs = lines.take(), len(cert["pairs"])
    if line == b"set all":
        return None
    if cert["format"] == 1 and line.startswith(MARGIN):
        num, den = lines.numbers(line[len(MARGIN) :], 2)
        return "margin", num, den, lines.worded(b"base", pairs)
    if cert["format"] == 2 and line == b"set box":
        return "box", lines.worded(b"lower", pairs), lines.worded(b"upper", pairs)
    raise lines.fault()


def read_block(lines, cert):
    nodes, links, pairs = len(cert["names"]), len(cert["links"]), len(cert["pairs"])
    link, a, b, rows = lines.row(4)
    if rows > FORMATS[cert["format"]][1]:
        raise lines.fault()
    block = {"link": link, "a": a, "b": b, "weights": lines.row(links), "rows": []}
    for _ in range(rows):
        row = lines.row(nodes + 1)
        block["rows"].append((row[0], row[1:]))
    block["plus"] = lines.worded(b"plus", pairs) if cert["set"] else []
    block["minus"] = lines.worded(b"minus", pairs) if cert["set"] else []
    return block


def read(data):
    """The certificate that the bytes spell, whatever the rules say of it."""
    lines = Lines(data)
    cert = read_head(lines)
    cert["ratio"] = lines.worded(b"ratio", 1)[0]
    blocks = lines.count(b"blocks", 0, FORMATS[cert["format"]][2])
    cert["blocks"] = [read_block(lines, cert) for _ in range(blocks)]
    if lines.take() != b"end":
        raise lines.fault()
    lines.end()
    return cert


def is_path(cert, src, dst, path):
    node, visited = src, [src]
    for link in path:
        if link >= len(cert["links"]) or cert["links"][link][0] != node:
            return False
        node = cert["links"][link][1]
        visited.append(node)
    return node == dst and len(set(visited)) == len(visited)


def head_rules(cert):
    """Rules V1 to V7, each with its places and whether it holds there."""
    names, links, pairs = cert["names"], cert["links"], cert["pairs"]
    n = len(names)
    for v, name in enumerate(names):
        yield 1, v, name not in names[:v]
    for h, (tail, head, capacity, cost) in enumerate(links):
        yield 2, h, tail < n and head < n and tail != head and 1 <= capacity <= 2**32 and 1 <= cost <= 65535
    for p, (src, dst, _) in enumerate(pairs):
        yield 3, p, src < n and dst < n and src != dst and (p == 0 or pairs[p - 1][:2] < (src, dst))
    for p, (src, dst, paths) in enumerate(pairs):
        yield 4, p, all(is_path(cert, src, dst, path) for _, path in paths)
    for p, (_, _, paths) in enumerate(pairs):
        yield 5, p, all(a[1] < b[1] for a, b in zip(paths, paths[1:]))
    for p, (_, _, paths) in enumerate(pairs):
        yield 6, p, all(w >= 1 for w, _ in paths) and sum(w for w, _ in paths) == SHARE_UNIT
    if cert["set"] and cert["set"][0] == "margin":
        _, num, den, base = cert["set"]
        yield 7, 0, 1 <= num <= 1000 and 1 <= den <= 1000 and num >= den
        for p, demand in enumerate(base):
            yield 7, 1 + p, demand <= 2**32
    if cert["set"] and cert["set"][0] == "box":
        for p, (low, high) in enumerate(zip(*cert["set"][1:])):
            yield 7, 1 + p, low <= high <= 2**52


def is_named_right(cert, before, block):
    """Rule V8 at a block, behind one of the link `before`, if there is one."""
    above = before is None or before < block["link"]
    return block["link"] < len(cert["links"]) and above and block["a"] <= 2**36 and 1 <= block["b"] <= 2**36


def has_small_numbers(cert, block):
    """Rule V9 at a block."""
    n, sources = len(cert["names"]), [source for source, _ in block["rows"]]
    return (
        all(w <= 2**28 for w in block["weights"])
        and all(source < n for source in sources)
        and all(x < y for x, y in zip(sources, sources[1:]))
        and all(d <= 2**36 for _, row in block["rows"] for d in row)
        and all(x <= 2**36 for x in block["plus"] + block["minus"])
    )


def block_rules(cert):
    """Rules V8 and V9, in the same way."""
    blocks = cert["blocks"]
    yield 8, 0, cert["ratio"] < 10**19
    for k, b in enumerate(blocks):
        yield 8, 1 + k, is_named_right(cert, blocks[k - 1]["link"] if k else None, b)
    for k, b in enumerate(blocks):
        yield 9, k, has_small_numbers(cert, b)


def first_fault(rules):
    return next(((rule, place) for rule, place, holds in rules if not holds), None)


def first_rule(cert):
    """The failing rule of the least number, at its least place."""
    return first_fault(head_rules(cert)) or first_fault(block_rules(cert))


def bounds(cert):
    """The least and the greatest demand of each pair, up to a common factor."""
    if cert["set"][0] == "box":
        return cert["set"][1:]
    _, num, den, base = cert["set"]
    return [d * den * den for d in base], [d * num * num for d in base]


def shares_of(cert):
    """Of each link, by the number of a pair that sends over it, how many millionths of the pair's demand go there."""
    shares = [{} for _ in cert["links"]]
    for p, (_, _, paths) in enumerate(cert["pairs"]):
        for weight, path in paths:
            # No path goes over a link twice, as rule V4 has it.
            for e in path:
                shares[e][p] = shares[e].get(p, 0) + weight
    return shares


def absent_block(cert):
    """What stands for the block of a link that has none."""
    return {"a": 0, "b": 1, "weights": [0] * len(cert["links"]), "rows": [], "plus": [], "minus": []}


def link_failure(cert, e, block, share, last=4):
    """The rule and the place of the first inequality that fails for a link with this block and these shares, of those up to the last one that is asked."""
    n, m = len(cert["names"]), len(cert["links"])
    rows = dict(block["rows"])
    weights, a, b = block["weights"], block["a"], block["b"]
    for i in range(n):
        row = rows.get(i)
        if row is None:
            continue
        if row[i] != 0:
            return 1, i * (m + 1)
        for h, (tail, head, _, _) in enumerate(cert["links"]):
            if row[head] > row[tail] + weights[h]:
                return 1, i * (m + 1) + 1 + h
    for p, (src, dst, _) in enumerate(cert["pairs"]):
        plus = block["plus"][p] if block["plus"] else 0
        minus = block["minus"][p] if block["minus"] else 0
        distance = rows[src][dst] if src in rows else 0
        if share.get(p, 0) * b + a * minus > a * (distance + plus):
            return 2, p
    if cert["set"] and block["plus"]:
        lower, upper = bounds(cert)
        added = sum(d * x for d, x in zip(upper, block["plus"]))
        taken = sum(d * x for d, x in zip(lower, block["minus"]))
        if added > taken:
            return 3, 0
    weighted = sum(link[2] * w for link, w in zip(cert["links"], weights))
    if last == 4 and a * RATIO_UNIT * weighted > b * SHARE_UNIT * cert["links"][e][2] * cert["ratio"]:
        return 4, 0
    return None


def first_failure(cert, last=4):
    """The link, rule and place of the first inequality that fails, of those up to the last one that is asked, in this order."""
    by_link, shares, absent = {b["link"]: b for b in cert["blocks"]}, shares_of(cert), absent_block(cert)
    for e, share in enumerate(shares):
        failed = link_failure(cert, e, by_link.get(e, absent), share, last)
        if failed:
            return (e, *failed)
    return None


def need(cert, block):
    """The least ratio that pays for the weights of the block: I4 solved for it, and rounded up."""
    weighted = sum(link[2] * w for link, w in zip(cert["links"], block["weights"]))
    return -(-block["a"] * RATIO_UNIT * weighted // (block["b"] * SHARE_UNIT * cert["links"][block["link"]][2]))


def limit(data):
    """How many bytes a certificate may have that begins so."""
    return FORMATS[2 if data.startswith(FORMATS[2][0] + b"\n") else 1][-1]


def judged(cert):
    """The yes or no line of a certificate that is not refused, and the status."""
    failed = first_failure(cert)
    return (no_line(failed), 1) if failed else (yes_line(cert), 0)


def yes_line(cert):
    kinds = {"margin": lambda num, den, _: f"margin {num} {den}", "box": lambda *_: "box"}
    kind = kinds[cert["set"][0]](*cert["set"][1:]) if cert["set"] else "all"
    return f"yes ratio {cert['ratio']} set {kind}\n"


def no_line(failed):
    return "no link %d rule I%d place %d\n" % failed


def table_of_needs(cert):
    """The need of each link with a share, where the first three inequalities hold, and the status."""
    failed = first_failure(cert, last=3)
    if failed:
        return no_line(failed), 1
    by_link, shares, rows = {b["link"]: b for b in cert["blocks"]}, shares_of(cert), ["link,source,target,capacity,need"]
    for e, (tail, head, capacity, _) in enumerate(cert["links"]):
        if shares[e]:
            source, target = (cert["names"][node].decode() for node in (tail, head))
            rows.append(f"{e},{source},{target},{capacity},{need(cert, by_link[e])}")
    return "".join(f"{row}\n" for row in rows), 0


def certificate_of(name, data):
    """The certificate of a file of this name and these bytes that is not refused."""
    if len(data) > limit(data):
        raise Refused(f"refused: {name}: too long\n", 3)
    try:
        cert = read(data)
    except ShapeFault as fault:
        raise Refused(f"refused: {name}: shape at line {fault}\n", 3) from fault
    broken = first_rule(cert)
    if broken:
        raise Refused(f"refused: {name}: rule V{broken[0]} at {broken[1]}\n", 3)
    return cert


def is_network_in(name, cert):
    """Whether the topology of this file has the nodes and links of the certificate, in their order."""
    from lab.inputs import INPUT_LIMIT, read_topology  # of a certificate alone this file is all that is needed

    data = bytes_of(name)
    if len(data) > INPUT_LIMIT:
        raise Refused(f"refused: {name}: too long\n", 3)
    net, faults = read_topology(data)
    if faults:
        raise Refused(f"refused: {name}: {faults[0].reason}\n", 3)
    return (net.names, [list(link[:4]) for link in net.links]) == (cert["names"], cert["links"])


def set_text(cert):
    """What the set of a certificate holds, in words, and the bounds of each pair as CSV."""
    from lab.claim_words import set_lines

    names = [name.decode() for name in cert["names"]]
    lower, upper = bounds(cert) if cert["set"] else ([0] * len(cert["pairs"]), ["-"] * len(cert["pairs"]))
    rows = [f"{names[src]},{names[dst]},{low},{high}" for (src, dst, _), low, high in zip(cert["pairs"], lower, upper)]
    return "".join(f"{line}\n" for line in [*(f"set: {line}" for line in set_lines(cert)), "source,target,lower,upper", *rows])


def bytes_of(name):
    try:
        with open(name, "rb") as file:
            return file.read()
    except OSError as error:
        raise Refused("fault: read\n", 4) from error


def certificate_or_refusal(name, data):
    """The certificate of a file of this name and these bytes, and None; or None, and the texts and the status that refuse it."""
    try:
        return certificate_of(name, data), None
    except Refused as refusal:
        return None, ("", *refusal.args)


def answer_of(told, name, data):
    """The texts for standard output and error, and the status, where this is told of a certificate of this name and these bytes."""
    cert, refusal = certificate_or_refusal(name, data)
    return refusal or accepted(told, cert)


def accepted(told, cert):
    """The same of a certificate that is not refused."""
    text, status = told(cert)
    return text, "", status


def check_bytes(name, data):
    """The same of `check`."""
    return answer_of(judged, name, data)


def check(names, shows_set=False):
    """The texts for standard output and error, and the status, of a certificate and, if there is one more, a topology."""
    try:
        cert = certificate_of(names[0], bytes_of(names[0]))
        if len(names) == 2 and not is_network_in(names[1], cert):
            return "no network\n", "", 1
    except Refused as refusal:
        text, status = refusal.args
        return "", text, status
    line, status = judged(cert)
    return line + (set_text(cert) if shows_set and status == 0 else ""), "", status


def bounds_of(name, data):
    """The same of `bounds`, of a certificate of this name and these bytes."""
    return answer_of(table_of_needs, name, data)


def main(words):
    names = [it for it in words if it not in ("--set", "--bounds")]
    flags = [it for it in words if it in ("--set", "--bounds")]
    if len(names) not in (1, 2) or len(flags) > 1 or (flags == ["--bounds"] and len(names) == 2):
        print(__doc__.split("\n\n")[1], file=sys.stderr)
        return 2
    if flags == ["--bounds"]:
        try:
            out, err, status = bounds_of(names[0], bytes_of(names[0]))
        except Refused as refusal:
            err, status = refusal.args
            out = ""
    else:
        out, err, status = check(names, shows_set=bool(flags))
    sys.stdout.write(out)
    sys.stderr.write(err)
    return status


if __name__ == "__main__":
    sys.exit(main(sys.argv[1:]))
