"""Updates that are drawn: small networks with two routings of each, which leave a little room on their links under the matrices, and changes of those
of the tables; and whether `update` says of them what the second reckoning does.
"""
import random

import reference_check
import reference_update

from .changes import CERTIFICATE, INPUT, with_changes
from .drawn_certificates import answer_of, numbers_text, paths_of, weights_of
from .updates import SAMPLES

NODES, NAMES = "abcd", "onm"
SEPARATOR, CASES_OF_CAMPAIGN = CERTIFICATE.separator, 100_000


def ends_of(draw, nodes):
    """Links between drawn nodes, with costs and without capacities."""
    links = []
    for _ in range(draw.randint(nodes, 4 * nodes) if draw.randrange(4) == 0 else 3 * nodes):
        tail = draw.randrange(nodes)
        head = draw.choice([it for it in range(nodes) if it != tail])
        links.append((tail, head, 0, draw.randint(1, 9)))
    return links


def routes_of(draw, links, pairs):
    """A path routing of these pairs, each of which has a path."""
    routes = []
    for src, dst in pairs:
        found = []
        while not found:
            found = paths_of(draw, links, src, dst)
        paths = sorted(draw.sample(found, draw.randint(1, len(found))))
        routes.append(((src, dst), list(zip(weights_of(draw, len(paths)), paths))))
    return routes


def load(routes, demands, link):
    """What the demands put on a link, rounded up."""
    parts = sum(demand * weight for demand, (_, paths) in zip(demands, routes) for weight, path in paths if link in path)
    return -(-parts // reference_check.SHARE_UNIT)


def with_room(draw, links, old, new, demands):
    """The links with capacities that leave a little room beside the greater load, or too little at one of them."""
    room, capacities = draw.choice(((0, 1), (1, 2), (1, 3), (1, 9), (2, 2**31))), []
    for place, (tail, head, _, cost) in enumerate(links):
        greater = max(load(old, demands, place), load(new, demands, place))
        capacities.append((tail, head, min(2**32, max(1, greater + draw.randint(*room))), cost))
    if draw.randrange(12) == 0:
        place = draw.randrange(len(links))
        tail, head, capacity, cost = capacities[place]
        capacities[place] = tail, head, max(1, capacity // 2), cost
    return capacities


def certificate_text(draw, nodes, links, routes):
    """A certificate of these routes, of either format, that claims nothing."""
    rows = [f"{tail} {head} {capacity} {cost}" for tail, head, capacity, cost in links]
    pairs = []
    for (src, dst), paths in routes:
        pairs += [f"{src} {dst} {len(paths)}", *(f"{weight} {len(path)}{numbers_text(path)}" for weight, path in paths)]
    lines = [
        f"yates-ratio {draw.choice((1, 2))}", f"nodes {nodes}", *NODES[:nodes], f"links {len(links)}", *rows, f"pairs {len(routes)}", *pairs, "set all",
        "ratio 0", "blocks 0", "end",
    ]
    return "".join(f"{line}\n" for line in lines).encode()


def matrices_text(draw, pairs, demands):
    """The demands of the pairs, mostly of step 0."""
    step = draw.choice((0, 0, 0, 0, 0, 1))
    rows = "".join(f"{step},{NODES[src]},{NODES[dst]},{demand}\n" for (src, dst), demand in zip(pairs, demands))
    return f"step,source,target,demand\n{rows}".encode()


def with_other_cost(draw, links):
    """The links, of which one has another cost."""
    place = draw.randrange(len(links))
    tail, head, capacity, cost = links[place]
    return [*links[:place], (tail, head, capacity, cost % 9 + 1), *links[place + 1 :]]


def files_of(draw):
    """The bytes of two certificates and of matrices: of some the networks or the pairs differ, and of some a file is changed somewhere."""
    nodes = draw.choice((2, 3, 4, 4))
    links = ends_of(draw, nodes)
    reached = [(src, dst) for src in range(nodes) for dst in range(nodes) if src != dst and paths_of(draw, links, src, dst)]
    pairs = sorted(draw.sample(reached, min(len(reached), draw.choice((0, 1, 2, 4, 6, 8)))))
    demands = [draw.choice((0, draw.randint(1, 9), draw.randint(1, 60), draw.randint(1, 60), draw.choice((draw.randint(1, 60), 2**32)))) for _ in pairs]
    old = routes_of(draw, links, pairs)
    new = [draw.choice((route, fresh, fresh, fresh)) for route, fresh in zip(old, routes_of(draw, links, pairs))]
    links, how = with_room(draw, links, old, new, demands), draw.randrange(20)
    files = [
        certificate_text(draw, nodes, links, old),
        certificate_text(draw, nodes, with_other_cost(draw, links) if how == 0 else links, new[1:] if how == 1 else new),
        matrices_text(draw, pairs[1:] if how == 2 else pairs, demands[1:] if how == 2 else demands),
    ]
    if how >= 17:
        place = draw.randrange(3)
        files[place] = with_changes(draw, files[place], CERTIFICATE if place < 2 else INPUT)
    return files


def case(seed, number):
    """The files of a case: most are drawn, and the others are changes of those of the tables."""
    draw = random.Random(f"{seed} update {number}")
    if draw.randrange(4):
        return dict(zip(NAMES, files_of(draw)))
    files, place = list(draw.choice(SAMPLES)), draw.randrange(3)
    files[place] = with_changes(draw, files[place], CERTIFICATE if place < 2 else INPUT)
    return dict(zip(NAMES, files))


def judge(files, folder, _):
    """What the second reckoning says of the case, and what is wrong with the program's answer."""
    want, got = reference_update.answer(NAMES, files.__getitem__), answer_of(["update", *NAMES], folder)
    label = f"status {want[2]}" if want[2] > 1 else want[0].partition("\n")[0].partition(" at ")[0]
    return label, [] if got == want else [f"update: want {want}, got {got}"]
