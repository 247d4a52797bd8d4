"""In words: which rule a certificate breaks, in which line, and what its numbers are."""
from .letters import shown

MAX_CAPACITY, MAX_COST, MAX_DEMAND, MAX_UPPER = 2**32, 65535, 2**32, 2**52
MAX_WEIGHT, MAX_POTENTIAL, MAX_RATIO, UNIT = 2**28, 2**36, 10**19, 1_000_000


class Places:
    """The lines in which the parts of a certificate stand, counted from 1."""

    def __init__(self, cert):
        self.cert = cert
        self.links = 4 + len(cert["names"])
        self.pairs = [self.links + len(cert["links"]) + 1]
        for _, _, paths in cert["pairs"]:
            self.pairs.append(self.pairs[-1] + 1 + len(paths))
        bounds = {None: 0, "margin": 1, "box": 2}[cert["set"] and cert["set"][0]]
        self.set = self.pairs[-1]
        self.ratio = self.set + bounds + 1
        self.blocks = [self.ratio + 2]
        for block in cert["blocks"]:
            self.blocks.append(self.blocks[-1] + 2 + len(block["rows"]) + 2 * bool(bounds))


def node(cert, number):
    """A node by its name, where it has one."""
    return shown(cert["names"][number]) if number < len(cert["names"]) else f"node {number}, which there is not"


def link_text(cert, number):
    if number >= len(cert["links"]):
        return f"link {number}, which there is not"
    tail, head, *_ = cert["links"][number]
    return f"link {number} ({node(cert, tail)} to {node(cert, head)})"


def pair_text(cert, number):
    source, target, _ = cert["pairs"][number]
    return f"pair {number} ({node(cert, source)} to {node(cert, target)})"


def rule_words(cert, rule, place):
    """The line at which the rule is broken, and why."""
    rules = (name_fault, link_fault, pair_fault, path_fault, order_fault, weight_fault, set_fault, number_fault, block_fault)
    return rules[rule - 1](cert, place, Places(cert))


def name_fault(cert, place, places):
    name = cert["names"][place]
    return 3 + place, f"node {place} has the name {shown(name)}, and so has node {cert['names'].index(name)}"


def link_fault(cert, place, places):
    tail, head, capacity, cost = cert["links"][place]
    line, nodes = places.links + place, len(cert["names"])
    if max(tail, head) >= nodes:
        return line, f"{link_text(cert, place)} has an end that is none of the nodes 0 to {nodes - 1}"
    if tail == head:
        return line, f"{link_text(cert, place)} leads from a node to itself"
    if not 1 <= capacity <= MAX_CAPACITY:
        return line, f"the capacity of {link_text(cert, place)} is {capacity}, and must be 1 to {MAX_CAPACITY}"
    return line, f"the cost of {link_text(cert, place)} is {cost}, and must be 1 to {MAX_COST}"


def pair_fault(cert, place, places):
    source, target, _ = cert["pairs"][place]
    line, nodes = places.pairs[place], len(cert["names"])
    if max(source, target) >= nodes:
        return line, f"{pair_text(cert, place)} has an end that is none of the nodes 0 to {nodes - 1}"
    if source == target:
        return line, f"{pair_text(cert, place)} is of one node"
    same = cert["pairs"][place - 1][:2] == (source, target)
    return line, f"{pair_text(cert, place)} " + ("stands twice" if same else f"stands after {pair_text(cert, place - 1)}, and pairs ascend by source and then by target")


def path_fault(cert, place, places):
    source, target, paths = cert["pairs"][place]
    for number, (_, path) in enumerate(paths):
        why = way_fault(cert, source, target, path)
        if why:
            return places.pairs[place] + 1 + number, f"path {number} of {pair_text(cert, place)} {why}"
    return places.pairs[place], f"a path of {pair_text(cert, place)} is none"


def way_fault(cert, source, target, path):
    """Why the links are no path from the source to the target; nothing where they are one."""
    at, visited = source, [source]
    for link in path:
        if link >= len(cert["links"]):
            return f"has {link_text(cert, link)}: links are 0 to {len(cert['links']) - 1}"
        tail, head, *_ = cert["links"][link]
        if tail != at:
            return f"goes on with {link_text(cert, link)}, and has come to {node(cert, at)}"
        at = head
        if at in visited:
            return f"comes to {node(cert, at)} a second time, by {link_text(cert, link)}"
        visited.append(at)
    return "" if at == target else f"ends at {node(cert, at)}"


def order_fault(cert, place, places):
    paths = [path for _, path in cert["pairs"][place][2]]
    number = next(it for it in range(1, len(paths)) if not paths[it - 1] < paths[it])
    what = "is the path before it once more" if paths[number - 1] == paths[number] else "stands after a path that is above it by the list of link numbers"
    return places.pairs[place] + 1 + number, f"path {number} of {pair_text(cert, place)} {what}"


def weight_fault(cert, place, places):
    weights = [weight for weight, _ in cert["pairs"][place][2]]
    if 0 in weights:
        return places.pairs[place] + 1 + weights.index(0), f"path {weights.index(0)} of {pair_text(cert, place)} has a weight of 0"
    return places.pairs[place], f"the weights of {pair_text(cert, place)} have the sum {sum(weights)}, and must have {UNIT}"


def set_fault(cert, place, places):
    kind, *bounds = cert["set"]
    if kind == "margin" and place == 0:
        return places.set, f"a margin has two numbers of 1 to 1000, the first no less than the second, and this has {bounds[0]} and {bounds[1]}"
    pair = place - 1
    if kind == "margin":
        return places.set + 1, f"the base of {pair_text(cert, pair)} is {bounds[2][pair]}, and may be {MAX_DEMAND} at most"
    lower, upper = bounds[0][pair], bounds[1][pair]
    if lower > upper:
        return places.set + 1, f"of {pair_text(cert, pair)} the lower demand, {lower}, is above the upper one, {upper}"
    return places.set + 2, f"the upper demand of {pair_text(cert, pair)} is {upper}, and may be {MAX_UPPER} at most"


def number_fault(cert, place, places):
    if place == 0:
        return places.ratio, f"the ratio is {cert['ratio']}, and must be below {MAX_RATIO}"
    number, line = place - 1, places.blocks[place - 1]
    block = cert["blocks"][number]
    if block["link"] >= len(cert["links"]):
        return line, f"block {number} is of {link_text(cert, block['link'])}: links are 0 to {len(cert['links']) - 1}"
    if number and cert["blocks"][number - 1]["link"] >= block["link"]:
        return line, f"block {number} is of {link_text(cert, block['link'])}, after one of {link_text(cert, cert['blocks'][number - 1]['link'])}: blocks ascend by their links"
    name, value, low = ("A", block["a"], 0) if block["a"] > MAX_POTENTIAL else ("B", block["b"], 1)
    return line, f"{name} of block {number} is {value}, and must be {low} to {MAX_POTENTIAL}"


def block_fault(cert, place, places):
    block, line = cert["blocks"][place], places.blocks[place]
    sources, rows = [source for source, _ in block["rows"]], len(block["rows"])
    if max(block["weights"]) > MAX_WEIGHT:
        link = next(it for it, weight in enumerate(block["weights"]) if weight > MAX_WEIGHT)
        return line + 1, f"block {place} has the weight {block['weights'][link]} for {link_text(cert, link)}, and a weight is at most {MAX_WEIGHT}"
    for number, source in enumerate(sources):
        if source >= len(cert["names"]):
            return line + 2 + number, f"row {number} of block {place} is of {node(cert, source)}: nodes are 0 to {len(cert['names']) - 1}"
    for number in range(1, rows):
        if sources[number - 1] >= sources[number]:
            return line + 2 + number, f"row {number} of block {place} is of source {sources[number]}, after source {sources[number - 1]}: rows ascend by their sources"
    for number, (source, row) in enumerate(block["rows"]):
        if max(row) > MAX_POTENTIAL:
            return line + 2 + number, f"block {place} has the potential {max(row)} in the row of {node(cert, source)}, and a potential is at most {MAX_POTENTIAL}"
    word = "plus" if max(block["plus"], default=0) > MAX_POTENTIAL else "minus"
    pair = next(it for it, value in enumerate(block[word]) if value > MAX_POTENTIAL)
    return line + 2 + rows + (word == "minus"), f"block {place} has the {word} {block[word][pair]} for {pair_text(cert, pair)}, and it is at most {MAX_POTENTIAL}"
