"""The networks of `publish`, `schemes` and `nearness`, by name: drawn ones with eight links a node, a ring, a torus, a mesh, a cube and a fat tree. Links of
one line rate, or of three, have the cost 1.
"""
import os
import random

from dense_network import HEADER, dense_ends, ring_ends, write_matrices, write_network

LINE_RATES, SEED, MOST_NODES, MOST_LINKS = (10, 40, 100), 7, 128, 1024


class NoNetwork(Exception):
    """Why there is no network of this name with so many nodes."""


def torus_ends(nodes):
    """A square with a link from each node to its four neighbours, where the first row and column are neighbours of the last."""
    side = next((k for k in range(3, MOST_NODES) if k * k == nodes), None)
    if side is None:
        raise NoNetwork("a torus has 9, 16, 25, 36, 49, 64, 81, 100 or 121 nodes")
    fibres = [(i, i // side * side + (i + 1) % side) for i in range(nodes)] + [(i, (i + side) % nodes) for i in range(nodes)]
    return [ends for tail, head in fibres for ends in ((tail, head), (head, tail))]


def mesh_ends(nodes):
    """Links between all nodes."""
    if nodes * (nodes - 1) > MOST_LINKS:
        raise NoNetwork("a mesh has 2 to 32 nodes")
    return [(i, j) for i in range(nodes) for j in range(nodes) if i != j]


def cube_ends(nodes):
    """Links between nodes whose numbers differ in one binary digit."""
    digits = nodes.bit_length() - 1
    if nodes != 1 << digits or digits == 0:
        raise NoNetwork("a cube has 2, 4, 8, 16, 32, 64 or 128 nodes")
    return [(i, i ^ 1 << digit) for i in range(nodes) for digit in range(digits)]


def ports_of(nodes):
    """How many ports a switch of a fat tree with so many switches has."""
    ports = next((k for k in range(2, MOST_NODES, 2) if 5 * k * k // 4 == nodes), None)
    if ports is None:
        raise NoNetwork("a fat tree has 5, 20, 45, 80 or 125 nodes")
    return ports


def fat_tree_ends(nodes):
    """A fat tree of switches of k ports (Leiserson, 1985; as Al-Fares and others, 2008): k pods of k / 2 edge and k / 2 aggregation switches, and
    k * k / 4 core switches. The cores come first, and then pod by pod the aggregation switches and the edge switches.
    """
    ports = ports_of(nodes)
    half, fibres = ports // 2, []
    for pod in range(ports):
        first = half * half + pod * ports
        for i in range(half):
            fibres += [(first + i, i * half + core) for core in range(half)]
            fibres += [(first + half + edge, first + i) for edge in range(half)]
    return [ends for tail, head in fibres for ends in ((tail, head), (head, tail))]


# By name: how many nodes it has where none are given, its links, and the capacities of which each has one.
NETWORKS = {
    "equal": (64, dense_ends, (10,)),
    "rates": (64, dense_ends, LINE_RATES),
    "ring": (64, lambda nodes, _: ring_ends(nodes), (10,)),
    "torus": (64, lambda nodes, _: torus_ends(nodes), (10,)),
    "mesh": (32, lambda nodes, _: mesh_ends(nodes), (10,)),
    "cube": (64, lambda nodes, _: cube_ends(nodes), (10,)),
    "fat-tree": (80, lambda nodes, _: fat_tree_ends(nodes), (10,)),
}
NAMES = ("drawn", *NETWORKS)


def write_exchange(folder, name, nodes, demand=100):
    """Writes tm.csv: each node, of a fat tree each edge switch, sends so much to the one half the way round."""
    senders = list(range(nodes))
    if name == "fat-tree":
        ports = ports_of(nodes)
        pods = range(ports * ports // 4, nodes, ports)
        senders = [pod + place for pod in pods for place in range(ports // 2, ports)]
    rows = [f"0,n{node},n{senders[place - len(senders) // 2]},{demand}\n" for place, node in enumerate(senders)]
    with open(os.path.join(folder, "tm.csv"), "w", encoding="ascii") as file:
        file.writelines(["step,source,target,demand\n", *rows])


def nodes_of(name):
    return NETWORKS[name][0] if name in NETWORKS else 64


def write(folder, name, nodes, steps):
    """Writes net.csv and tm.csv: the network, and all of its pairs in each of the steps."""
    drawn, net = random.Random(SEED), os.path.join(folder, "net.csv")
    if name == "drawn":
        write_network(net, nodes, drawn)
    else:
        _, ends_of, capacities = NETWORKS[name]
        rows = [f"n{tail},n{head},{drawn.choice(capacities)},1\n" for tail, head in ends_of(nodes, drawn)]
        with open(net, "w", encoding="ascii") as file:
            file.writelines([HEADER, *rows])
    write_matrices(os.path.join(folder, "tm.csv"), nodes, steps, drawn)


def read_case(word, *choices):
    """The network, the nodes and further parts of a word NETWORK:NODES:.., of which the last may be left out; each further part is one of its
    choices, and the first of them where it is left out.
    """
    name, nodes, *parts = (word.split(":") + [""] * (2 + len(choices)))[: 2 + len(choices)]
    parts = [part or of_part[0] for part, of_part in zip(parts, choices)]
    if name not in NAMES or word.count(":") > 1 + len(choices) or not all(part in of_part for part, of_part in zip(parts, choices)):
        raise NoNetwork(f"{word} is none of {', '.join(NAMES)}:NODES:" + ":".join(" or ".join(of_part) for of_part in choices))
    count = int(nodes) if nodes.isdecimal() else nodes_of(name) if not nodes else 0
    if not 2 <= count <= MOST_NODES:
        raise NoNetwork(f"{word}: a network has 2 to {MOST_NODES} nodes")
    if name in NETWORKS:
        NETWORKS[name][1](count, random.Random(SEED))
    return name, count, *parts
