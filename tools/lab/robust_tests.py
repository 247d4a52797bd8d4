"""Odd networks: what `robust` publishes of them is accepted, is the same in each run, and has a ratio that is not greater than it was."""
import tempfile

from .ratio_tests import DIAMOND, PARALLEL_LINKS, published_faults, write

BUDGET = 16
MILLION = 1_000_000


def exchange(nodes):
    """A demand from each of so many nodes to each."""
    return [f"0,n{source},n{target},10" for source in range(nodes) for target in range(nodes) if source != target]


def line(nodes):
    """Links both ways between neighbours."""
    return [f"n{tail},n{head},{10 + place},1" for place in range(nodes - 1) for tail, head in ((place, place + 1), (place + 1, place))]


def one_way_ring(nodes):
    """Links from each node to the next one and to the third one, and one to the opposite node, with capacities from 1 to 100."""
    ends = [(place, (place + hop) % nodes) for hop in (1, 3) for place in range(nodes)] + [(0, nodes // 2)]
    return [f"n{tail},n{head},{1 + 37 * place % 100},1" for place, (tail, head) in enumerate(ends)]


def wide_ring(nodes):
    """Links both ways between each node and the next two, whose capacities are powers of two from 1 to 2^32, each way its own."""
    ends = [(place, (place + hop) % nodes) for hop in (1, 2) for place in range(nodes)]
    both = [way for tail, head in ends for way in ((tail, head), (head, tail))]
    return [f"n{tail},n{head},{2 ** (13 * place % 33)},1" for place, (tail, head) in enumerate(both)]


# By network: its links, the demands, and the greatest ratio that may be published. The least that any routing has is 1 where the limit is near 1; 1.908 of the
# one-way links and 1.522 of the capacities from 1 to 2^32, by linear programs in floating point. Of the last ones the limit is 1.2 times the least.
NETWORKS = {
    "two parallel links": (PARALLEL_LINKS, ["0,a,b,40"], 1.002),
    "parallel links of 1, 2^16 and 2^32": (["a,b,1,1", "a,b,65536,1", "a,b,4294967296,1"], ["0,a,b,40"], 1.001),
    "a line": (line(6), exchange(6), 1.0001),
    "one-way links": (one_way_ring(8), exchange(8), 2.05),
    "capacities from 1 to 2^32": (wide_ring(6), exchange(6), 1.2 * 1.522),
    "one pair": (DIAMOND, ["0,a,d,10"], 1.01),
    "pairs that share nothing": (["a,b,10,1", "c,d,30,1"], ["0,a,b,1", "0,c,d,1"], 1.0001),
}


def faults_of(network):
    """What is wrong with the certificate of the network."""
    links, demands, most = NETWORKS[network]
    with tempfile.TemporaryDirectory() as folder:
        write(folder, links, demands, publish="robust", budget=BUDGET)
        return published_faults(folder, int(most * MILLION))


CASES = [(network, lambda network=network: faults_of(network)) for network in NETWORKS]
