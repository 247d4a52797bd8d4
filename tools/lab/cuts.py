"""The fibres of a topology, and what may be cut at a time: each cut has a name and the links that it takes."""
from itertools import combinations

from .inputs import MAX_STEPS, NAME, NUMBER
from .recipes import Refused, Table


def fibres_of(net):
    """The numbers of the links of each fibre, in the order of their first links."""
    fibres, waiting = [], {}
    for number, (tail, head, *_) in enumerate(net.links):
        back = waiting.get((head, tail))
        if back:
            back.pop(0).append(number)
        else:
            fibres.append([number])
            waiting.setdefault((tail, head), []).append(fibres[-1])
    return fibres


def names_of(net, fibres):
    """Each fibre by its ends, and by its number too where several have the same."""
    names = [it.decode() for it in net.names]
    ends = [tuple(names[it] for it in net.links[links[0]][:2]) for links in fibres]
    sites = [frozenset(it) for it in ends]
    return [f"{tail} {head}" + f" {number}" * (sites.count({tail, head}) > 1) for number, (tail, head) in enumerate(ends)]


def single_cuts(net):
    fibres = fibres_of(net)
    return list(zip(names_of(net, fibres), fibres))


def double_cuts(net):
    """Each two fibres at a time."""
    return [(f"{one} + {other}", links + more) for (one, links), (other, more) in combinations(single_cuts(net), 2)]


def node_cuts(net):
    """All fibres of a node at a time."""
    fibres = fibres_of(net)
    meets = [{end for link in links for end in net.links[link][:2]} for links in fibres]
    return [
        (name.decode(), sorted(link for links, ends in zip(fibres, meets) if node in ends for link in links))
        for node, name in enumerate(net.names)
    ]


def group_cuts(net, name, data):
    """The groups of a file with the columns group and fibre, in the order in which they first stand there."""
    table, fibres, groups = Table(name, data), fibres_of(net), {}
    group, fibre = table.place_of("group"), table.place_of("fibre")
    for line, fields in table.rows:
        number = fields[fibre].encode()
        if not NAME.match(fields[group].encode()):
            raise table.fault(line, f"{fields[group]!r} is not 1 to 32 of the characters A-Z a-z 0-9 _ . -")
        if not NUMBER.match(number) or int(number) >= len(fibres):
            raise table.fault(line, f"{fields[fibre]!r} is none of the fibres 0 to {len(fibres) - 1}")
        groups.setdefault(fields[group], set()).update(fibres[int(number)])
    return [(it, sorted(links)) for it, links in groups.items()]


def stop_unless_few(cuts):
    """Refuses more cuts than a series has steps beside the whole network."""
    if len(cuts) >= MAX_STEPS:
        raise Refused(f"{len(cuts)} cuts and the whole network are more than {MAX_STEPS} steps: name those that matter by --groups")
