"""Certificates that are drawn, of both formats and all sets, with right numbers, with slightly wrong ones, and changed at some place; and
whether `check`, `convert`, `bounds` and `reprice` say of them what the second checker does, and `tighten` makes of them what it may.
"""
import functools
import os
import random

import reference_check
import reference_reprice

from . import certificates, program, tightened
from .campaigns import SECONDS
from .changes import CERTIFICATE, with_changes, with_number
from .polish import Made, up

NAME, TOPOLOGY, SEPARATOR, CASES_OF_CAMPAIGN = "c", "t", CERTIFICATE.separator, 1_000_000
# Of how many certificates one is converted, and one tightened; how many of one network are drawn.
CONVERTED, TIGHTENED, OF_ONE = 8, 4, 16
# A topology of another network.
OTHER_NETWORK = b"source,target,capacity,cost\nx,y,1,1\n"
NO_PAIRS = "nodes 2\na\nb\nlinks 1\n0 1 10 1\npairs 0\n"
SAMPLES = [
    it.encode() for it in (
        certificates.SMALLEST, certificates.PARALLEL_WHOLE, certificates.TRIANGLE_FOR_ALL, certificates.TRIANGLE_FOR_MARGIN,
        certificates.FIRST + NO_PAIRS + "set margin 1 1\nbase\nratio 0\nblocks 0\nend\n", certificates.SMALLEST_IN_SECOND, certificates.TRIANGLE_FOR_BOX,
        certificates.SECOND + NO_PAIRS + "set box\nlower\nupper\nratio 0\nblocks 0\nend\n",
    )
]
MOST_PATHS, MOST_WALKS = 4, 30


def links_of(draw, nodes):
    """Links between drawn nodes, some of them parallel."""
    links = []
    for _ in range(draw.randint(1, 3 * nodes)):
        tail = draw.randrange(nodes)
        head = draw.choice([it for it in range(nodes) if it != tail])
        links.append((tail, head, draw.choice((1, 10, 30, draw.randint(1, 1000), 2**32)), draw.randint(1, 9)))
    return links


def paths_of(draw, links, src, dst):
    """Some paths from one node to the other that visit no node twice, ascending by their links, as far as drawn walks find any."""
    found = set()
    for _ in range(MOST_WALKS):
        node, visited, path = src, {src}, []
        while node != dst:
            next_links = [h for h, (tail, head, _, _) in enumerate(links) if tail == node and head not in visited]
            if not next_links:
                break
            path.append(draw.choice(next_links))
            node = links[path[-1]][1]
            visited.add(node)
        if node == dst:
            found.add(tuple(path))
        if len(found) == MOST_PATHS:
            break
    return sorted(found)[: draw.randint(1, MOST_PATHS)]


def weights_of(draw, count):
    """So many parts of a million."""
    cuts = sorted(draw.sample(range(1, 1_000_000), count - 1))
    return [last - first for first, last in zip([0, *cuts], [*cuts, 1_000_000])]


def set_of(draw, format_number, pairs):
    """The lines of the set of matrices."""
    if draw.randrange(3) == 0:
        return "set all\n"
    bounds = sorted(draw.randint(1, draw.choice((3, 1000))) for _ in range(2))
    amounts = [draw.choice((0, 1, 10, draw.randint(0, 1000), 2**32)) for _ in range(pairs)]
    if format_number == 1:
        return f"set margin {bounds[1]} {bounds[0]}\nbase{numbers_text(amounts)}\n"
    most = [it + draw.choice((0, 0, it, draw.randint(0, 1000))) for it in amounts]
    return f"set box\nlower{numbers_text(amounts)}\nupper{numbers_text(most)}\n"


def numbers_text(numbers):
    return "".join(f" {it}" for it in numbers)


def routes_of(draw, nodes, links):
    """The lines of drawn pairs and their paths."""
    routes = []
    for src in range(nodes):
        for dst in range(nodes):
            paths = paths_of(draw, links, src, dst) if src != dst and draw.randrange(2) else []
            if paths:
                rows = "".join(f"{weight} {len(path)}{numbers_text(path)}\n" for weight, path in zip(weights_of(draw, len(paths)), paths))
                routes.append(f"{src} {dst} {len(paths)}\n{rows}")
    return routes


def head_over(draw, format_number, names, links):
    """A certificate of a network without blocks, up to its ratio."""
    routes = routes_of(draw, len(names), links)
    rows = "".join(f"{tail} {head} {capacity} {cost}\n" for tail, head, capacity, cost in links)
    lines = "".join(f"{name}\n" for name in names)
    network = f"nodes {len(names)}\n{lines}links {len(links)}\n{rows}"
    return f"yates-ratio {format_number}\n{network}pairs {len(routes)}\n{''.join(routes)}{set_of(draw, format_number, len(routes))}"


def head_of(draw):
    """The same of a drawn network."""
    format_number, nodes = draw.choice((1, 2)), draw.choice((2, 3, 4, 5, 6))
    return head_over(draw, format_number, [f"n{node}" for node in range(nodes)], links_of(draw, nodes))


def potentials(made, weights, source):
    """The distances from a node by the weights, and the greatest of them for nodes out of reach."""
    found = made.least_paths(source, weights)
    greatest = max(length for length, _ in found.values())
    return numbers_text(found.get(node, (greatest, []))[0] for node in range(len(made.cert["names"])))


def block_of(draw, made, link):
    """A block of drawn weights that holds, and what it needs."""
    most = draw.choice((1, 9, 1000, 2**20))
    weights = [draw.randint(1, most) for _ in made.links]
    return block_text(made, link, weights), made.need(link, weights)


def block_text(made, link, weights):
    """The best block of these weights."""
    a, b = made.a_and_b(link, weights)
    shares = made.shares(link, weights)
    sources = sorted({pair[0] for pair, share in zip(made.pairs, shares) if share[0] or made.bounds})
    text = f"{link} {a} {b} {len(sources)}\n{numbers_text(weights)[1:]}\n"
    text += "".join(f"{source}{potentials(made, weights, source)}\n" for source in sources)
    if made.bounds:
        rises = [up(b * share, reference_check.SHARE_UNIT) - distance for share, distance, _ in shares]
        text += f"plus{numbers_text(max(it, 0) for it in rises)}\nminus{numbers_text(max(-it, 0) for it in rises)}\n"
    return text


@functools.lru_cache(maxsize=4)
def drawn_certificate(seed, number):
    """A certificate that holds: its text up to the ratio, the ratio, and what follows."""
    draw = random.Random(f"{seed} network {number}")
    head = head_of(draw)
    made = Made(f"{head}ratio 0\nblocks 0\nend\n".encode())
    used = sorted({link for _, _, paths in made.pairs for _, path in paths for link in path})
    blocks = [block_of(draw, made, link) for link in used]
    ratio = max((need for _, need in blocks), default=0)
    return head, ratio, f"blocks {len(blocks)}\n{''.join(text for text, _ in blocks)}end\n"


def slightly_wrong(draw, head, ratio, rest):
    """A ratio that is too low, or other numbers near those of the blocks."""
    if draw.randrange(2) and ratio:
        return f"{head}ratio {ratio - 1}\n{rest}".encode()
    data = f"{head}ratio {ratio}\n".encode()
    blocks = rest.encode()
    for _ in range(draw.choice((1, 1, 2))):
        blocks = with_number(draw, blocks, CERTIFICATE)
    return data + blocks


def case(seed, number):
    """The files of a case: a third hold, a third are slightly wrong, and a third are changed somewhere."""
    draw = random.Random(f"{seed} certificate {number}")
    head, ratio, rest = drawn_certificate(seed, number // OF_ONE)
    whole = f"{head}ratio {ratio + draw.choice((0, 0, 1, 1000))}\n{rest}".encode()
    how = draw.randrange(3)
    if how == 0:
        return {NAME: whole}
    if how == 1:
        return {NAME: slightly_wrong(draw, head, ratio, rest)}
    return {NAME: with_changes(draw, draw.choice([whole, whole, draw.choice(SAMPLES)]), CERTIFICATE)}


def answer_of(words, folder):
    got = program.answer(words, folder, SECONDS)
    return got.out.decode("utf-8", "replace"), got.err, got.status


def judge(files, folder, number):
    """What the second checker says of the case, and what is wrong with the program's answers."""
    data = files[NAME]
    cert, refusal = reference_check.certificate_or_refusal(NAME, data)
    want = refusal or reference_check.accepted(reference_check.judged, cert)
    bounds = refusal or reference_check.accepted(reference_check.table_of_needs, cert)
    pairs = [("check", want, answer_of(["check", NAME], folder)), ("bounds", bounds, answer_of(["bounds", NAME], folder))]
    pairs.append(("reprice", *repriced(cert, refusal, folder)))
    faults = [f"{command}: want {wanted}, got {got}" for command, wanted, got in pairs if got != wanted]
    if number % CONVERTED == 0:
        faults += faults_of_converted(data, want, answer_of(["convert", NAME], folder))
    if number % TIGHTENED == 0:
        faults += faults_of_tightened(data, bounds, answer_of(["tighten", NAME], folder))
    label = {0: "yes", 1: "no"}.get(want[2], "rule" if "rule" in want[1] else "shape")
    return label, faults


def topology_of(cert):
    """A topology with the links of a certificate, by their names, and other capacities."""
    rows = [
        f"{cert['names'][tail].decode()},{cert['names'][head].decode()},{(7 * capacity + place) % 2**32 + 1},{cost}"
        for place, (tail, head, capacity, cost) in enumerate(cert["links"])
    ]
    return "\n".join(["source,target,capacity,cost", *rows, ""]).encode()


def repriced(cert, refusal, folder):
    """What has to be said of a certificate at other capacities, and what `reprice` says."""
    topology = topology_of(cert) if refusal is None else OTHER_NETWORK
    with open(os.path.join(folder, TOPOLOGY), "wb") as file:
        file.write(topology)
    wanted = refusal or reference_reprice.accepted(cert, TOPOLOGY, {TOPOLOGY: topology}.__getitem__)
    return wanted, answer_of(["reprice", NAME, TOPOLOGY], folder)


def faults_of_tightened(data, want, got):
    """What is wrong with what `tighten` says of a certificate of which `bounds` has to say this: its no, or the file of one that needs no more."""
    if want[2] != 0:
        return [] if got == want else [f"tighten: want {want}, got {got}"]
    if got[1:] != ("", 0):
        return [f"tighten: got {got[1:]}"]
    return [f"tighten: {fault}" for fault in tightened.faults_of(data, got[0].encode())]


def faults_of_converted(data, want, got):
    """What is wrong with what `convert` says of a certificate of which `check` has to say this."""
    if want[2] == 3:
        return [] if got == want else [f"convert: want {want}, got {got}"]
    if got[1:] != ("", 0):
        return [f"convert: got {got[1:]}"]
    text = got[0].encode()
    if data.startswith(b"yates-ratio 2\n") and text != data:
        return ["convert: another text of the second format"]
    is_box = want[2] == 0 and " set margin " in want[0]
    answer = (want[0].partition(" set ")[0] + " set box\n", "", 0) if is_box else want
    again = reference_check.check_bytes(NAME, text)
    return [] if again == answer else [f"convert: of its text {again} is said, and not {answer}"]
