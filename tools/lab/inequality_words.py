"""In words: which inequality of a certificate fails, and which two numbers it compares."""
import reference_check

from .rule_words import link_text, node, pair_text

UNIT = reference_check.SHARE_UNIT


class Failure:
    """An inequality at its place: what it says, the number that must not be the greater, the one that it is compared with, and what to know."""

    def __init__(self, says, left, right, known):
        self.says, self.left, self.right, self.known = says, left, right, known

    @property
    def fails(self):
        return self.left > self.right


def block_of(cert, link):
    """The block of the link, or the numbers that stand for one that is not there."""
    block = next((it for it in cert["blocks"] if it["link"] == link), None)
    return block or {"a": 0, "b": 1, "weights": [0] * len(cert["links"]), "rows": [], "plus": [], "minus": [], "is_absent": True}


def failure_at(cert, link, rule, place):
    """The inequality of this link, number and place."""
    return (rise_failure, cover_failure, bounds_failure, ratio_failure)[rule - 1](cert, link, block_of(cert, link), place)


def rise_failure(cert, link, block, place):
    """I1: potentials are at most distances."""
    source, over = divmod(place, len(cert["links"]) + 1)
    row = dict(block["rows"])[source]
    if over == 0:
        return Failure(f"the potential of source {node(cert, source)} at itself is 0", row[source], 0, "")
    tail, head, *_ = cert["links"][over - 1]
    says = f"the potential of source {node(cert, source)} rises over {link_text(cert, over - 1)} by its weight at most: potential at the head <= potential at the tail + weight"
    known = f"it is {row[tail]} at {node(cert, tail)} and {row[head]} at {node(cert, head)}, and the weight is {block['weights'][over - 1]}"
    return Failure(says, row[head], row[tail] + block["weights"][over - 1], known)


def cover_failure(cert, link, block, pair):
    """I2: what a pair puts on the link is covered by its distance."""
    source, target, paths = cert["pairs"][pair]
    share = sum(weight for weight, path in paths if link in path)
    plus, minus = ((block[it][pair] if block[it] else 0) for it in ("plus", "minus"))
    distance = dict(block["rows"]).get(source, [0] * len(cert["names"]))[target]
    known = f"its share is {share} millionths, its potential {distance}, A {block['a']} and B {block['b']}"
    known += f", plus {plus} and minus {minus}" if cert["set"] else ""
    if "is_absent" in block:
        known = f"its share is {share} millionths, and the file has no block of this link"
    form = "share * B + A * minus <= A * (potential + plus)" if cert["set"] else "share * B <= A * potential"
    says = f"what {pair_text(cert, pair)} puts on the link is covered by its potential: {form}"
    return Failure(says, share * block["b"] + block["a"] * minus, block["a"] * (distance + plus), known)


def bounds_failure(cert, link, block, place):
    """I3: what plus adds is taken back by minus."""
    lower, upper = reference_check.bounds(cert)
    added = sum(most * plus for most, plus in zip(upper, block["plus"]))
    taken = sum(least * minus for least, minus in zip(lower, block["minus"]))
    return Failure("what plus adds is taken back by minus: sum of upper * plus <= sum of lower * minus", added, taken, "")


def ratio_failure(cert, link, block, place):
    """I4: the ratio pays for the weights."""
    weighted = sum(it[2] * weight for it, weight in zip(cert["links"], block["weights"]))
    capacity = cert["links"][link][2]
    need = -(-block["a"] * weighted // (block["b"] * capacity))
    says = "the ratio pays for the weights: A * 1000000 * (sum of capacity * weight) <= B * 1000000 * capacity * ratio"
    known = f"the sum of capacity * weight is {weighted}, A {block['a']} and B {block['b']}; the least ratio that this block proves is {need}, and the file claims {cert['ratio']}"
    return Failure(says, block["a"] * UNIT * weighted, block["b"] * UNIT * capacity * cert["ratio"], known)
