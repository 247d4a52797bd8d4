"""What `check` says of a certificate, and of a topology with it, worked out by a reading of its own and said in words."""
import os
import re

import reference_check

from .claim_words import claim_words, network_words, size
from .inequality_words import failure_at
from .letters import odd_bytes, shown
from .rule_words import link_text, rule_words
from .shape_words import AGAIN, shape_words

# Up to so many bytes every inequality is reckoned here; of a larger file those that the program's line names.
WHOLE = 1 << 20
MOST_BYTES = reference_check.FORMATS[2][-1]


class Report:
    """The line of `check`, its status, the words for it, each a line, and whether all of it was reckoned here."""

    def __init__(self, line, status, words, is_own=True):
        self.line, self.status, self.words, self.is_own = line, status, words, is_own


def refusal(name, data):
    """The report of a file that is refused, or None; and the certificate where it keeps the grammar."""
    file = f"  file:  {os.path.abspath(name)}"
    if len(data) > reference_check.limit(data):
        words = [file, f"  why:   the file has more than {reference_check.limit(data)} bytes", "  do:    give the file that publish wrote, which is never too long"]
        return Report(f"refused: {name}: too long", 3, words), None
    try:
        cert = reference_check.read(data)
    except reference_check.ShapeFault as fault:
        number = fault.args[0]
        wanted, found, why, do = shape_words(data, number)
        words = [file, f"  line:  {number}: {shown(found) or '(empty)'}", *[f"  bytes: {odd_bytes(found)}"] * bool(odd_bytes(found))]
        words += [f"  here:  {wanted}", f"  why:   {why}", f"  do:    {do}"]
        return Report(f"refused: {name}: shape at line {number}", 3, words), None
    broken = reference_check.first_rule(cert)
    if broken is None:
        return None, cert
    line, why = rule_words(cert, *broken)
    words = [file, f"  line:  {line}: {shown(data.split(bytes([10]))[line - 1])}", f"  why:   {why}", f"  do:    {AGAIN}"]
    return Report(f"refused: {name}: rule V{broken[0]} at {broken[1]}", 3, words), cert


def answer(name, data, cert, net, said):
    """The report of a certificate that is not refused, beside this network, if any; `said` is the program's line, if any."""
    file = f"  file:  {os.path.abspath(name)}, {size(cert)}"
    difference = network_words(cert, net) if net else None
    if difference:
        return Report("no network", 1, [file, f"  why:   {difference[0]}", f"  do:    {difference[1]}"])
    is_own = said is None or len(data) <= WHOLE
    failed = reference_check.first_failure(cert) if is_own else failure_named(cert, said)
    if failed is None:
        kind = {None: "all", "box": "box"}.get(cert["set"] and cert["set"][0]) or "margin {} {}".format(*cert["set"][1:3])
        return Report(f"yes ratio {cert['ratio']} set {kind}", 0, [file, *claim_words(cert)], is_own)
    link, rule, place = failed
    return Report(f"no link {link} rule I{rule} place {place}", 1, [file, *failure_lines(cert, link, rule, place)], is_own)


def failure_named(cert, said):
    """The inequality that the program names, where there is one of this place and it fails by a reckoning."""
    named = re.fullmatch(r"no link (\d+) rule I(\d) place (\d+)", said)
    if not named:
        return None
    try:
        failed = tuple(map(int, named.groups()))
        return failed if failure_at(cert, *failed).fails else None
    except (IndexError, KeyError, TypeError):
        return None


def failure_lines(cert, link, rule, place):
    failure = failure_at(cert, link, rule, place)
    tail = f"; {failure.known}" if failure.known else ""
    return [
        f"  link:  {link_text(cert, link)}, of capacity {cert['links'][link][2]}",
        f"  rule:  I{rule}: {failure.says}",
        f"  why:   {failure.left} is above {failure.right}{tail}",
        "  do:    do not believe the ratio; publish again, or ask who wrote the file",
    ]
