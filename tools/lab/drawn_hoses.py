"""Hose certificates that are drawn for certificates that are drawn, most of them near what their links need, and changes of those of the tables;
whether `check-hose` says of them what the second checker does; and whether what `hose` writes is answered yes, keeps its promises, and bounds
the matrices that are drawn within the hose.
"""
import random

import reference_check
import reference_hose

from .changes import CERTIFICATE, Alphabet, with_changes
from .drawn_certificates import OF_ONE, answer_of, drawn_certificate, numbers_text
from .folders import write_files
from .hoses import SAMPLES

HOSE = Alphabet(
    CERTIFICATE.pieces,
    [b"0", b"1", b"2", b"3", b"00", b"4294967295", b"4294967296", b"4294967297", b"999999", b"1000000", b"1000001", b"1024", b"1025",
     b"9999999999999999999", b"10000000000000000000", b"18446744073709551615", b"18446744073709551616", b"sent", b"received", b"bound", b"blocks", b"link",
     b"tails", b"heads", b"end", b"a", b"yates-hose", b""],
    b" ",
)
NAMES, SEPARATOR, CASES_OF_CAMPAIGN = "ch", HOSE.separator, 1_000_000
# Of how many cases one is bounded, and how many matrices are drawn within its hose.
BOUNDED, MATRICES = 2, 5


def amounts_of(draw, nodes):
    """What each node sends, or receives, at most."""
    most = draw.choice((0, 10, 1000, 1000, 2**32))
    return [draw.choice((0, draw.randint(0, most), draw.randint(0, most))) for _ in range(nodes)]


def block_of(draw, certificate, link):
    """A block that covers the shares on its link, by tails, by heads or by both, or one near it."""
    nodes, shares = len(certificate["names"]), reference_hose.shares_on(certificate, link)
    tails, heads, by_tails = [0] * nodes, [0] * nodes, draw.choice((0, 1, 1, 2))
    for src, dst, share in shares:
        at_tail = share if by_tails == 1 else 0 if by_tails == 0 else draw.randint(0, share)
        tails[src] = max(tails[src], at_tail)
        heads[dst] = max(heads[dst], share - tails[src])
    if draw.randrange(10) == 0:
        numbers, place = draw.choice((tails, heads)), draw.randrange(nodes)
        numbers[place] = max(0, min(reference_check.SHARE_UNIT + 1, numbers[place] + draw.choice((-1, 1, 1_000_000))))
    return reference_hose.Block(link, tails, heads)


def least_bound(certificate, hose):
    sums = [(reference_hose.sum_of(hose, it.tails, it.heads), certificate["links"][it.link][2]) for it in hose.blocks]
    return max([-(-total // capacity) for total, capacity in sums], default=0)


def hose_text(hose):
    blocks = [line for it in hose.blocks for line in (f"link {it.link}", f"tails{numbers_text(it.tails)}", f"heads{numbers_text(it.heads)}")]
    lines = ["yates-hose 1", f"sent{numbers_text(hose.sent)}", f"received{numbers_text(hose.received)}", f"bound {hose.bound}", f"blocks {len(hose.blocks)}"]
    return "".join(f"{line}\n" for line in [*lines, *blocks, "end"]).encode()


def bounds_text(hose):
    return f"yates-bounds 1\nsent{numbers_text(hose.sent)}\nreceived{numbers_text(hose.received)}\nend\n".encode()


def files_of(draw, seed, number):
    """The bytes of a certificate and of a hose certificate; one of four is changed at some place."""
    head, ratio, rest = drawn_certificate(seed, number // OF_ONE)
    data = f"{head}ratio {ratio}\n{rest}".encode()
    certificate = reference_check.read(data)
    nodes, links = len(certificate["names"]), range(len(certificate["links"]))
    blocks = [block_of(draw, certificate, link) for link in links if reference_hose.shares_on(certificate, link) or draw.randrange(10) == 0]
    if blocks and draw.randrange(10) == 0:
        blocks.pop(draw.randrange(len(blocks)))
    hose = reference_hose.Hose(amounts_of(draw, nodes), amounts_of(draw, nodes), 0, blocks)
    hose = hose._replace(bound=max(0, least_bound(certificate, hose) + draw.choice((0, 0, 0, 1, -1))))
    text = hose_text(hose)
    return data, text if draw.randrange(4) else with_changes(draw, text, HOSE)


def case(seed, number):
    """The files of a case: most are drawn, and the others are changes of the hose certificates of the tables."""
    draw = random.Random(f"{seed} hose {number}")
    if draw.randrange(4):
        return dict(zip(NAMES, files_of(draw, seed, number)))
    certificate, hose = draw.choice(SAMPLES)
    return {"c": certificate, "h": with_changes(draw, hose, HOSE)}


def judge(files, folder, number):
    """What the second checker says of the case, and what is wrong with the program's answers."""
    want, got = reference_hose.answer(NAMES, files.__getitem__), answer_of(["check-hose", *NAMES], folder)
    faults = [] if got == want else [f"check-hose: want {want}, got {got}"]
    if number % BOUNDED == 0:
        faults += faults_of_bounds(files["c"], folder, random.Random(f"bounds {number}"))
    label = {0: "yes", 1: want[0].partition(" place")[0].partition(" rule ")[2]}.get(want[2], "rule" if "rule" in want[1] else "shape")
    return label, faults


def faults_of_bounds(data, folder, draw):
    """What is wrong with the hose certificate that `hose` writes of bounds that are drawn."""
    certificate = reference_check.certificate_of("c", data)
    nodes = len(certificate["names"])
    bounds = reference_hose.Hose(amounts_of(draw, nodes), amounts_of(draw, nodes), 0, [])
    write_files(folder, {"b": bounds_text(bounds)})
    out, err, status = answer_of(["hose", "c", "b"], folder)
    if (err, status) != ("", 0):
        return [f"hose: {err!r}, status {status}"]
    made = out.encode()
    write_files(folder, {"a": made})
    yes, files = (f"yes bound {out.split()[out.split().index('bound') + 1]}\n", "", 0), {"c": data, "a": made}
    said = reference_hose.answer("ca", files.__getitem__), answer_of(["check-hose", "c", "a"], folder)
    faults = [f"{name} of what hose writes: {it}" for name, it in zip(("the second checker", "check-hose"), said) if it != yes]
    if faults:
        return faults
    hose = reference_hose.hose_of("a", made, certificate)
    faults = [f"hose: {it}" for it in reference_hose.faults_of_made(certificate, bounds, hose)]
    used = [most_used(certificate, matrix_within(draw, certificate, bounds)) for _ in range(MATRICES)]
    return faults + [f"hose: a matrix within the hose uses a link {parts}, in millionths" for parts in used if parts > hose.bound]


def matrix_within(draw, certificate, bounds):
    """A matrix within the hose: in a drawn order each pair has some of what its ends have left, mostly all."""
    sent, received, pairs = list(bounds.sent), list(bounds.received), list(enumerate(certificate["pairs"]))
    demands = [0] * len(pairs)
    draw.shuffle(pairs)
    for place, (src, dst, _) in pairs:
        room = min(sent[src], received[dst])
        demands[place] = draw.choice((room, room, draw.randint(0, room)))
        sent[src] -= demands[place]
        received[dst] -= demands[place]
    return demands


def most_used(certificate, demands):
    """The utilisation of the link that the routing uses most, in millionths, rounded up."""
    loads = [0] * len(certificate["links"])
    for demand, (_, _, paths) in zip(demands, certificate["pairs"]):
        for weight, path in paths:
            for link in path:
                loads[link] += demand * weight
    return max((-(-load // link[2]) for load, link in zip(loads, certificate["links"])), default=0)
