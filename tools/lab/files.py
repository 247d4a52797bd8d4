"""Input files: the words for which each is refused, and calls that show all that one says.

A case is (what it shows, the words of the call, its files by name, the status, the text), the status and the text as in `calls`.
"""

from .calls import COLUMNS, COMPARED, ENVELOPE, HEADER, LINE, ROW, TWELVE, WAYS
from .certificates import SECOND, SMALLEST

# Rows of a matrix file are below this, and those of a failure file.
DEMANDS = "step,source,target,demand\n"
OUTAGES = "from,to,link\n"
# The demand of a pair of nodes of `LINE`.
SEVEN = DEMANDS + "1,a,b,7\n"
SPF_REPORT = '{"topology":"t","matrices":"m","schemes":["spf"]}'


def star(links):
    """The topology of a hub with a link to each of so many nodes."""
    return HEADER + "".join(f"hub,n{link},1,1\n" for link in range(links))


# What a topology shows, its text, and the reason for which it is refused.
TOPOLOGIES = [
    ("no record", "", "header"),
    ("one node for both ends", HEADER + ROW + "a,a,10,1\n", "self link at row 2"),
    ("the cost 0", HEADER + ROW + "a,b,10,0\n", "number at row 2"),
    ("a capacity above the greatest", HEADER + ROW + "a,b,4294967297,1\n", "number at row 2"),
    ("a cost above the greatest", HEADER + "a,b,10,65536\n", "number at row 1"),
    ("a name with a blank", HEADER + ROW + "a b,c,10,1\n", "name at row 2"),
    ("a name before a number and before the next row", HEADER + ROW + "a b,c,0,1\na\n", "name at row 2"),
    ("a node above the most", star(128), "too many at row 128"),
]

# What a topology shows, its text, and the names of its nodes and the links of the network that it is.
NETWORKS = [
    ("two equal rows", HEADER + ROW + ROW, ["a", "b"], ["0 1 10 1", "0 1 10 1"]),
    (
        "nodes in order of appearance, the greatest numbers, zeros before a number, quotes, and lines without a byte or an end",
        'source,target,capacity,cost\r\n\r\nb,a,4294967296,65535\r\n"c",b,0010,1\r\nb,a,1,1',
        ["b", "a", "c"],
        ["0 1 4294967296 65535", "2 0 10 1", "0 1 1 1"],
    ),
    ("zeros before the greatest cost", HEADER + "a,b,10,0000065535\n", ["a", "b"], ["0 1 10 65535"]),
    ("the most nodes", star(127), ["hub"] + [f"n{link}" for link in range(127)], [f"0 {link + 1} 1 1" for link in range(127)]),
    ("the most links", HEADER + "hub,n0,1,1\n" * 1024, ["hub", "n0"], ["0 1 1 1"] * 1024),
]

# What a matrix file shows, its text, and the reason for which it is refused.
MATRICES = [
    ("no record", "", "header"),
    ("a header of three fields", "step,source,target\n", "header"),
    ("a row of three fields", SEVEN + "1,a,c\n", "fields at row 2"),
    ("an unknown node before a step that is no number", SEVEN + "x,a,z,1\n", "unknown node at row 2"),
    ("a step that is no number before one node for both ends", SEVEN + "x,a,a,1\n", "number at row 2"),
    ("a demand above the greatest", SEVEN + "1,a,c,4294967297\n", "number at row 2"),
    ("eleven digits", DEMANDS + "0,a,b,00000000001\n", "number at row 1"),
    ("no digit", DEMANDS + "0,a,b,\n", "number at row 1"),
    ("a sign", DEMANDS + "0,a,b,+1\n", "number at row 1"),
    ("a step that falls, before one node for both ends", SEVEN + "0,a,a,1\n", "order at row 2"),
    ("a pair twice in a step", SEVEN + "1,a,b,8\n", "repeated at row 2"),
    ("one node for both ends before a step above the last", SEVEN + "1024,a,a,8\n", "self pair at row 2"),
    ("a step above the last before the next row", SEVEN + "1024,a,b,8\nx\n", "too many steps at row 2"),
]

# The greatest demand in the second of two steps, of which the first has no row; and a step without a row between two others.
GREATEST = SEVEN + "1,a,c,4294967296\n"
WITH_A_GAP = DEMANDS + "0,b,a,05\n2,a,c,9\n2,b,a,6\n"
# The nodes of `LINE` in the same order, with a link from b to a as well.
BACK = LINE + "b,a,10,1\n"

# What the calls show of a matrix file, the words, its files, and what the report is or what stands in the certificate: by a report the
# demands of each step, where those of the pairs that have a path stand apart, and by an envelope the pairs and the greatest demand of each.
SERIES = [
    ("no step", ["run", "p"], [SPF_REPORT, LINE, DEMANDS], COLUMNS + "spf,total,0,0,0,0,0,0,0,-\n"),
    (
        "the greatest demand", ["run", "p"], [SPF_REPORT, LINE, GREATEST],
        COLUMNS + "spf,0,0,0,0,0,0,0,0,-\nspf,1,4294967303,10,4294967293,0,0,1000000,429496730300000,-\n"
        "spf,total,4294967303,10,4294967293,0,0,1000000,429496730300000,-\n",
    ),
    (
        "the greatest demand", ["publish", "p"], [ENVELOPE, LINE, GREATEST],
        "\npairs 2\n0 1 1\n1000000 1 0\n0 2 1\n1000000 2 0 1\nset box\nlower 0 0\nupper 7 4294967296\nratio ",
    ),
    (
        "a step without a row", ["run", "p"], [SPF_REPORT, LINE, WITH_A_GAP],
        COLUMNS + "spf,0,5,0,0,0,5,0,0,-\nspf,1,0,0,0,0,0,0,0,-\nspf,2,15,9,0,0,6,900000,900000,-\nspf,total,20,9,0,0,11,900000,900000,-\n",
    ),
    (
        "a step without a row", ["publish", "p"], [ENVELOPE, BACK, WITH_A_GAP],
        "\npairs 2\n0 2 1\n1000000 2 0 1\n1 0 1\n1000000 1 2\nset box\nlower 0 0\nupper 9 6\nratio ",
    ),
]

# What a failure file of two steps and five links shows, its text, and the reason for which it is refused.
FAILURES = [
    ("no record", "", "header"),
    ("a row of two fields before the next row", OUTAGES + "0,1,1\n0,1\n9,9,9\n", "fields at row 2"),
    ("a link that is no number before an interval", OUTAGES + "1,0,x\n", "number at row 1"),
    ("a link above the last before an interval", OUTAGES + "1,0,5\n", "no such link at row 1"),
    ("an interval that ends before it begins", OUTAGES + "1,0,4\n", "interval at row 1"),
    ("an interval that ends after the series", OUTAGES + "0,2,4\n", "interval at row 1"),
]

# Five links with a demand each, of 1, 2, 4, 8 and 16, so that what is lost in a step tells which of them have failed.
FIVE_LINKS = HEADER + "s,t,100,1\ns,x,100,1\nx,t,100,1\ns,y,100,3\ny,x,100,3\n"


def powers_of_two(steps):
    """The demands of the five links in so many steps."""
    return DEMANDS + "".join(f"{step},s,t,1\n{step},s,x,2\n{step},x,t,4\n{step},s,y,8\n{step},y,x,16\n" for step in range(steps))


# What a failure file shows, its text, the number of steps, and the rows of the report.
LOSSES = [
    (
        "no outage", OUTAGES, 2,
        "spf,0,31,31,0,0,0,160000,160000,-\nspf,1,31,31,0,0,0,160000,160000,-\nspf,total,62,62,0,0,0,160000,160000,-\n",
    ),
    (
        "a link in a step", OUTAGES + "1,1,1\n", 2,
        "spf,0,31,31,0,0,0,160000,160000,-\nspf,1,31,29,0,2,0,160000,160000,-\nspf,total,62,60,0,2,0,160000,160000,-\n",
    ),
    (
        "outages that overlap, that touch, and that stand twice", OUTAGES + "0,1,1\n1,1,1\n2,2,1\n2,3,4\n2,3,4\n", 4,
        "spf,0,31,29,0,2,0,160000,160000,-\nspf,1,31,29,0,2,0,160000,160000,-\nspf,2,31,13,0,18,0,80000,160000,-\n"
        "spf,3,31,15,0,16,0,80000,160000,-\nspf,total,124,86,0,38,0,160000,160000,-\n",
    ),
]

# What a plan shows, its text, and the reason for which it is refused.
PLANS = [
    ("no JSON", "no json", "not json"),
    ("no UTF-8", b'"\xff"', "not json"),
    ("an unknown key before those that are missing", '{"plan":1}', "unknown key"),
    ("a key that is missing before another's kind", '{"topology":1}', "missing matrices"),
    ("the first of two keys", '{"topology":"","matrices":1}', "range of topology"),
    ("a number with a fraction", '{"topology":"t","matrices":"m","k":4.0}', "kind of k"),
    ("a seed above the greatest", '{"topology":"t","matrices":"m","seed":18446744073709551616}', "kind of seed"),
    ("no recovery", '{"topology":"t","matrices":"m","recovery":"spare"}', "range of recovery"),
    ("no schemes", '{"topology":"t","matrices":"m","schemes":[]}', "range of schemes"),
    ("a scheme of another kind after one that is none", '{"topology":"t","matrices":"m","schemes":["x",1]}', "kind of schemes"),
    ("no scheme after one", '{"topology":"t","matrices":"m","schemes":["spf","x"]}', "scheme name of schemes"),
    ("a margin of one number", '{"topology":"t","matrices":"m","margin":[2]}', "kind of margin"),
    ("a margin below 1", '{"topology":"t","matrices":"m","margin":[1,2]}', "range of margin"),
    ("an envelope of another kind", '{"topology":"t","matrices":"m","envelope":1}', "kind of envelope"),
    ("its kind before a margin beside it", '{"topology":"t","matrices":"m","envelope":"true","margin":[2,1]}', "kind of envelope"),
    ("an envelope beside a margin", '{"topology":"t","matrices":"m","envelope":true,"margin":[2,1]}', "range of envelope"),
    ("the seed before the envelope", '{"topology":"t","matrices":"m","envelope":1,"seed":-1}', "kind of seed"),
    ("no seeds", '{"topology":"t","matrices":"m","seeds":0}', "range of seeds"),
    ("more than 64 seeds", '{"topology":"t","matrices":"m","envelope":1,"seeds":65}', "range of seeds"),
    ("the seed before the number of seeds", '{"topology":"t","matrices":"m","seeds":[7],"seed":-1}', "kind of seed"),
]


def network_certificate(names, links):
    """The certificate of no pair on a network of these names and links, which holds."""
    return f"{SECOND}nodes {len(names)}\n" + "\n".join([*names, f"links {len(links)}", *links]) + "\npairs 0\nset all\nratio 0\nblocks 0\nend\n"


def refusals(kind, words, before, name, rows):
    """The cases of a kind of files, each of which has this name and is read after others."""
    for shows, text, reason in rows:
        yield f"{kind}: {shows}", words, {**before, name: text}, 3, f"refused: {name}: {reason}\n"


CASES = [
    *refusals("topology", ["check", "c", "t"], {"c": SMALLEST}, "t", TOPOLOGIES),
    *refusals("matrices", ["run", "p"], {"p": SPF_REPORT, "t": LINE}, "m", MATRICES),
    *refusals("failures", ["run", "p"], {"p": COMPARED, "t": WAYS, "m": TWELVE}, "f", FAILURES),
    *refusals("plan", ["run", "p"], {}, "p", PLANS),
    *(
        (f"network: {shows}", ["check", "c", "t"], {"c": network_certificate(names, links), "t": text}, 0, "yes ratio 0 set all\n")
        for shows, text, names, links in NETWORKS
    ),
    *((f"{words[0]} of a series: {shows}", words, dict(zip("ptm", files)), 0, text) for shows, words, files, text in SERIES),
    *(
        (f"failed links: {shows}", ["run", "p"], {"p": COMPARED, "t": FIVE_LINKS, "m": powers_of_two(steps), "f": text}, 0, COLUMNS + rows)
        for shows, text, steps, rows in LOSSES
    ),
]
