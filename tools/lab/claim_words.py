"""In words: what the yes of a certificate claims, and for which matrices; and where a topology is another network."""
from .letters import shown
from .rule_words import link_text, pair_text

UNIT = 1_000_000


def decimal(number, unit):
    """A quotient with at most six decimals, rounded up, without needless digits."""
    whole, rest = divmod(-(-number * UNIT // unit), UNIT)
    return f"{whole}.{rest:06d}".rstrip("0").rstrip(".")


def counted(number, one, many):
    return f"{number} {one if number == 1 else many}"


def size(cert):
    paths = sum(len(paths) for _, _, paths in cert["pairs"])
    form = "first" if cert["format"] == 1 else "second"
    return f"{len(cert['names'])} nodes, {len(cert['links'])} links, {len(cert['pairs'])} pairs, {paths} paths, in the {form} format"


def claim_words(cert):
    """What is claimed: the lines below a yes."""
    ratio = decimal(cert["ratio"], UNIT)
    claim = f"for each matrix of the set and each other routing of it, the most used link of this routing is used at most {ratio} times as much as that of the other"
    return [f"  claim: {claim}", *(f"  set:   {line}" for line in set_lines(cert))]


def set_lines(cert):
    """Which matrices the set holds."""
    nodes, pairs = len(cert["names"]), len(cert["pairs"])
    others = f"; pairs that are not declared ({nodes * (nodes - 1) - pairs} of {nodes * (nodes - 1)}) have none" if pairs < nodes * (nodes - 1) else ""
    if not pairs:
        return ["no pair is declared, so the matrix without any demand alone"]
    if not cert["set"]:
        return [f"each matrix of demands of the {counted(pairs, 'declared pair', 'declared pairs')}{others}"]
    if cert["set"][0] == "margin":
        return margin_lines(cert, others)
    return box_lines(cert, others)


def margin_lines(cert, others):
    _, most, least, base = cert["set"]
    idle = sum(1 for it in base if not it)
    span = "is its base" if most == least else f"from {least}/{most} to {most}/{least} of its base"
    lines = [f"each demand {span}, up to one factor that all demands have in common{others}"]
    lines.append(f"{counted(len(base) - idle, 'pair has', 'pairs have')} a base above 0, and {counted(idle, 'has', 'have')} none and so no demand in the set")
    return lines


def box_lines(cert, others):
    """How many pairs are free, and which is the widest."""
    _, lower, upper = cert["set"]
    free = [it for it in range(len(lower)) if lower[it] < upper[it]]
    fixed = sum(1 for least, most in zip(lower, upper) if least == most > 0)
    lines = [f"each demand between its lower and its upper bound, up to one factor that all demands have in common{others}"]
    lines.append(f"{counted(len(free), 'pair is', 'pairs are')} free between two bounds, {counted(fixed, 'is', 'are')} fixed, and {counted(len(lower) - len(free) - fixed, 'has', 'have')} no demand")
    if free:
        lines.append(widest(cert, free, lower, upper))
    return lines


def widest(cert, free, lower, upper):
    """The free pair of the greatest proportion between its bounds; of those from 0, that of the greatest upper bound."""
    from_zero = [it for it in free if not lower[it]]
    if from_zero:
        pair = max(from_zero, key=lambda it: upper[it])
        return f"the widest is {pair_text(cert, pair)}, from 0 to {upper[pair]}; {counted(len(from_zero), 'pair begins', 'pairs begin')} at 0"
    pair = free[0]
    for other in free[1:]:
        if upper[other] * lower[pair] > upper[pair] * lower[other]:
            pair = other
    return f"the widest is {pair_text(cert, pair)}, from {lower[pair]} to {upper[pair]}, which is {decimal(upper[pair], lower[pair])} times as much"


def network_words(cert, net):
    """The first difference of the certificate's network and the topology's, and what to know of the others; None where they are one."""
    names, links = [it.decode() for it in net.names], [it[:4] for it in net.links]
    own_names, own_links = [it.decode() for it in cert["names"]], [tuple(it) for it in cert["links"]]
    if (names, links) == (own_names, own_links):
        return None
    number = next((it for it, (own, other) in enumerate(zip(own_names, names)) if own != other), None)
    if number is not None:
        first = f"node {number} is {own_names[number]} in the certificate, and {names[number]} in the topology"
    elif len(names) != len(own_names):
        first = f"the certificate has {len(own_names)} nodes, and the topology {len(names)}" + extra(own_names, names)
    else:
        first = link_difference(cert, own_links, links)
    return first, alike(own_names, own_links, names, links)


def extra(own, other):
    longer = own if len(own) > len(other) else other
    return f": {shown(longer[min(len(own), len(other))])} stands in one alone"


def link_difference(cert, own, other):
    number = next((it for it, (one, two) in enumerate(zip(own, other)) if one != two), None)
    if number is None:
        return f"the certificate has {len(own)} links, and the topology {len(other)}"
    if own[number][:2] != other[number][:2]:
        tail, head = (cert["names"][it].decode() for it in other[number][:2])
        return f"{link_text(cert, number)} of the certificate leads from {tail} to {head} in the topology, by its row {number + 1}"
    what, place = ("capacity", 2) if own[number][2] != other[number][2] else ("cost", 3)
    return f"{link_text(cert, number)} has the {what} {own[number][place]} in the certificate, and {other[number][place]} in the topology, by its row {number + 1}"


def alike(own_names, own_links, names, links):
    """What the two networks have in common, in spite of their order."""
    own_rows = sorted((own_names[it[0]], own_names[it[1]], *it[2:]) for it in own_links)
    rows = sorted((names[it[0]], names[it[1]], *it[2:]) for it in links)
    if own_rows == rows:
        return "the same links, with rows in another order: nodes and links are compared by number, so give the topology that was published with"
    if [it[:2] for it in own_rows] == [it[:2] for it in rows]:
        return "the same ends of links, with other capacities or costs: publish again with this topology"
    return "publish again with this topology, or give the one that was published with"
