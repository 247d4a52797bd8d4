#!/usr/bin/env python3
"""The answer of `yates check-witness CERT WITNESS`, worked out by a program of its own, for comparison with the proved one.

usage: reference_witness.py CERT WITNESS      prints what `yates check-witness CERT WITNESS` has to print, and ends with its status

It follows docs/FORMATS.md (grammar, rules, texts) and docs/DEFINITIONS.md (the performance ratio), and shares no code with
the crates. It is slow and plain on purpose.
"""
import re
import sys

from reference_check import FORMATS, NUMBER, RATIO_UNIT, SHARE_UNIT, ShapeFault, bounds, first_rule, is_path, read

WORD = re.compile(rb"[a-z]{1,16}\Z")
FIRST = b"yates-witness 1"
LIMIT = 1_073_741_824
PATHS, HOPS = 32, 127


def table(first, data):
    """The lines of a small file: each is a word, which may be empty, and numbers."""
    pieces = data.split(b"\n")
    ended, rest = pieces[:-1], pieces[-1]
    if not ended or ended[0] != first:
        raise ShapeFault(1)
    lines = []
    for number, line in enumerate(ended[1:], 2):
        if line == b"end":
            if number < len(ended) or rest:
                raise ShapeFault(number + 1)
            return lines
        tokens = line.split(b" ")
        word = b""
        if WORD.match(tokens[0]) and tokens[0] != b"end":
            word = tokens.pop(0)
        if not word and not tokens:
            raise ShapeFault(number)
        if not all(NUMBER.match(t) and len(t) <= 20 and int(t) < 2**64 for t in tokens):
            raise ShapeFault(number)
        lines.append((word, [int(t) for t in tokens]))
    raise ShapeFault(len(ended) + 1)


def spelled(lines, pairs):
    """What the lines of a table say as a witness of so many pairs."""
    place = 0

    def due(word, test):
        nonlocal place
        if place >= len(lines) or lines[place][0] != word or not test(lines[place][1]):
            raise ShapeFault(2 + place)
        place += 1
        return lines[place - 1][1]

    (bound,) = due(b"bound", lambda xs: len(xs) == 1)
    x, y = due(b"scale", lambda xs: len(xs) == 2)
    demand = due(b"demand", lambda xs: len(xs) == pairs)
    rival = []
    for _ in range(pairs):
        (count,) = due(b"", lambda xs: len(xs) == 1 and xs[0] <= PATHS)
        rows = [due(b"", lambda xs: len(xs) >= 2 and 1 <= xs[1] <= HOPS and len(xs) == 2 + xs[1]) for _ in range(count)]
        rival.append([(row[0], row[2:]) for row in rows])
    if place < len(lines):
        raise ShapeFault(2 + place)
    return {"bound": bound, "x": x, "y": y, "demand": demand, "rival": rival}


def first_witness_rule(cert, w):
    """The failing rule of the least number, at its least place."""
    pairs = range(len(cert["pairs"]))
    demand, rival = w["demand"], w["rival"]

    def rules():
        yield 1, 0, w["bound"] < 10**19
        yield 2, 0, w["x"] <= 2**36 and 1 <= w["y"] <= 2**36
        for p in pairs:
            yield 3, p, demand[p] <= 2**32
        for p in pairs:
            yield 4, p, demand[p] == 0 or rival[p]
        for p in pairs:
            src, dst, _ = cert["pairs"][p]
            sound = all(is_path(cert, src, dst, path) for _, path in rival[p])
            yield 5, p, sound and all(a[1] < b[1] for a, b in zip(rival[p], rival[p][1:]))
        for p in pairs:
            whole = all(v >= 1 for v, _ in rival[p]) and sum(v for v, _ in rival[p]) == SHARE_UNIT
            yield 6, p, not rival[p] or whole

    return next(((rule, place) for rule, place, holds in rules() if not holds), None)


def performance_ratio(cert, w):
    """How many times the rival's greatest utilisation that of the routing is, in millionths, rounded up."""
    if not any(w["demand"]):
        return 0
    capacity = [link[2] for link in cert["links"]]

    def most_used(routes):
        loads = [0] * len(capacity)
        for d, paths in zip(w["demand"], routes):
            for weight, path in paths:
                for link in path:
                    loads[link] += d * weight
        most = 0
        for h in range(1, len(capacity)):
            if loads[most] * capacity[h] < loads[h] * capacity[most]:
                most = h
        return loads[most], capacity[most]

    load, c_e = most_used([paths for _, _, paths in cert["pairs"]])
    by_rival, c_h = most_used(w["rival"])
    return -(-RATIO_UNIT * c_h * load // (by_rival * c_e))


def judged(cert, w):
    """The line, and the status."""
    if cert["set"]:
        lower, upper = bounds(cert)
        for p, d in enumerate(w["demand"]):
            if not w["x"] * lower[p] <= w["y"] * d <= w["x"] * upper[p]:
                return f"no rule J1 place {p}\n", 1
    if w["bound"] > performance_ratio(cert, w):
        return "no rule J2 place 0\n", 1
    return f"yes bound {w['bound']}\n", 0


def check_witness(cert_name, cert_data, name, read_witness):
    """The text that is printed, to standard output or error, and the status."""
    if len(cert_data) > FORMATS[2 if cert_data.startswith(FORMATS[2][0] + b"\n") else 1][-1]:
        return "", f"refused: {cert_name}: too long\n", 3
    try:
        cert = read(cert_data)
    except ShapeFault as fault:
        return "", f"refused: {cert_name}: shape at line {fault}\n", 3
    broken = first_rule(cert)
    if broken:
        return "", f"refused: {cert_name}: rule V{broken[0]} at {broken[1]}\n", 3
    data = read_witness()
    if len(data) > LIMIT:
        return "", f"refused: {name}: too long\n", 3
    try:
        witness = spelled(table(FIRST, data), len(cert["pairs"]))
    except ShapeFault as fault:
        return "", f"refused: {name}: shape at line {fault}\n", 3
    broken = first_witness_rule(cert, witness)
    if broken:
        return "", f"refused: {name}: rule U{broken[0]} at {broken[1]}\n", 3
    out, status = judged(cert, witness)
    return out, "", status


def bytes_of(name):
    with open(name, "rb") as file:
        return file.read()


def main(words):
    if len(words) != 2:
        print(__doc__.split("\n\n")[1], file=sys.stderr)
        return 2
    cert_name, name = words
    try:
        out, err, status = check_witness(cert_name, bytes_of(cert_name), name, lambda: bytes_of(name))
    except OSError:
        out, err, status = "", "fault: read\n", 4
    sys.stdout.write(out)
    sys.stderr.write(err)
    return status


if __name__ == "__main__":
    sys.exit(main(sys.argv[1:]))
