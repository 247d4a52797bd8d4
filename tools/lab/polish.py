"""Whether a certificate that is published is polished, by an own reckoning of best blocks, as docs/FORMATS.md says how one is made.

No block needs more than the best block of a round of its link. The first that needs most has fine weights, and no change of one of them makes
it need less by a 64th.
"""
import heapq

import reference_check

ROUNDS, STARTING_WEIGHT = 16, 2**20
# The greatest b, and the least with which weights are fine although each is below the starting one.
MAX_B, FINE_B = 2**36, 2**35
MAX_DOUBLED, MIN_HALVED = 2**27, 2


def up(amount, unit):
    """The quotient, rounded up."""
    return -(-amount // unit)


class Made:
    """The network of a certificate, its routing, the bounds of its demands and its blocks."""

    def __init__(self, certificate):
        self.cert = reference_check.read(certificate)
        self.links, self.pairs, self.blocks = self.cert["links"], self.cert["pairs"], self.cert["blocks"]
        self.bounds = reference_check.bounds(self.cert) if self.cert["set"] else None
        self.weights, self.paths = None, {}
        self.links_from = [[(h, head) for h, (tail, head, _, _) in enumerate(self.links) if tail == node] for node in range(len(self.cert["names"]))]

    def least_paths(self, source, weights):
        """By node the sum of the least path from the source and its links; of equal sums the list of the least numbers."""
        found, waiting = {}, [(0, [], source)]
        while waiting:
            length, path, node = heapq.heappop(waiting)
            if node not in found:
                found[node] = length, path
                for h, head in self.links_from[node]:
                    if head not in found:
                        heapq.heappush(waiting, (length + weights[h], path + [h], head))
        return found

    def shares(self, link, weights):
        """Of each pair its share on the link, and its least path."""
        # A round asks by the same weights for its block and for the weights of the next one.
        if weights != self.weights:
            self.weights, self.paths = weights, {source: self.least_paths(source, weights) for source in {pair[0] for pair in self.pairs}}
        paths = self.paths
        return [(sum(weight for weight, path in routes if link in path), *paths[src][dst]) for src, dst, routes in self.pairs]

    def keeps_bounds(self, rows, b):
        """Whether inequality I3 holds with this b, by rows of a pair's share, its distance, and its least and greatest demand."""
        added = 0
        for share, distance, least, most in rows:
            rise = -(-b * share // reference_check.SHARE_UNIT) - distance
            added += rise * (most if rise > 0 else least)
        return added <= 0

    def a_and_b(self, link, weights):
        """Those of the best block of these weights, or None where there is none."""
        shares = self.shares(link, weights)
        if self.bounds is None:
            share, distance = dearest(shares)[:2]
            return (share, distance) if distance else None
        rows = [(*share[:2], least, most) for share, least, most in zip(shares, *self.bounds)]
        if not self.keeps_bounds(rows, 1):
            return None
        low, high = 1, MAX_B + 1
        while high - low > 1:
            middle = (low + high) // 2
            low, high = (middle, high) if self.keeps_bounds(rows, middle) else (low, middle)
        return reference_check.SHARE_UNIT, low

    def need(self, link, weights):
        """What the best block of these weights needs, or None where there is none."""
        numbers = self.a_and_b(link, weights)
        if numbers is None:
            return None
        weighted = sum(capacity * weight for (_, _, capacity, _), weight in zip(self.links, weights))
        return up(numbers[0] * weighted, numbers[1] * self.links[link][2])

    def needs(self):
        return [self.need(block["link"], block["weights"]) for block in self.blocks]

    def raised(self, link, weights):
        """The weights of the next round."""
        path = dearest(self.shares(link, weights))[2]
        least = min(self.links[h][2] for h in path)
        return [weight + up(weight * least, 4 * self.links[h][2]) if h in path else weight for h, weight in enumerate(weights)]


def dearest(shares):
    """The first of the pairs with a share that have the greatest share by distance."""
    greatest = None
    for row in shares:
        if row[0] and (greatest is None or row[0] * greatest[1] > greatest[0] * row[1]):
            greatest = row
    return greatest


def faults_of_rounds(made, block, need):
    weights = [STARTING_WEIGHT] * len(made.links)
    for number in range(ROUNDS):
        if made.need(block["link"], weights) < need:
            return [f"round {number} of link {block['link']} needs less than its block"]
        weights = made.raised(block["link"], weights)
    return []


def faults_of_changes(made, block, need):
    """What is wrong where the weights of a block are not fine, or a change of one makes it need less by a 64th."""
    weights = block["weights"]
    faults = [] if block["b"] >= FINE_B or max(weights) >= STARTING_WEIGHT else [f"the weights of link {block['link']} are not fine"]
    for h, weight in enumerate(weights):
        for other in [2 * weight] * (1 <= weight <= MAX_DOUBLED) + [up(weight, 2)] * (weight >= MIN_HALVED):
            least = made.need(block["link"], weights[:h] + [other] + weights[h + 1:])
            if least is not None and least < need and least <= need - up(need, 64):
                faults.append(f"link {block['link']} needs {least} in place of {need} with {other} on link {h}")
    return faults


def faults_of(made):
    """What of a certificate is not polished."""
    needs = made.needs()
    faults = [fault for block, need in zip(made.blocks, needs) for fault in faults_of_rounds(made, block, need)]
    if needs:
        most = needs.index(max(needs))
        faults += faults_of_changes(made, made.blocks[most], needs[most])
    return faults + ([] if max(needs, default=0) == made.cert["ratio"] else ["the ratio is not what its blocks need"])
