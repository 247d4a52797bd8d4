"""Heads of certificates with the longest paths: all pairs of a network with eight links a node, and for each pair 32 paths over all nodes."""

# By format: the nodes. Each node has two links to each of the nodes that are one or two before or after it on a ring.
NODES, HOPS, PARALLEL, MOST_PATHS, UNIT = {1: 64, 2: 128}, (1, -1, 2, -2), 2, 32, 1_000_000
# The 32 paths of a pair differ in which of the parallel links they take in so many hops.
VARIED = 5


def hops_over_all(nodes, distance):
    """The hops, on a ring, of a path over all nodes from one node to that so far after it: backward to the node after that one, over it to the
    nodes between, of these down by twos and up by twos again.
    """
    places = [0, *range(nodes - 1, distance, -1)]
    places += [*range(distance - 1, 0, -2)]
    places += [*range(1 + (distance - 1) % 2, distance + 1, 2)] if distance > 1 else [distance]
    return [(head - tail + 2) % nodes - 2 for tail, head in zip(places, places[1:])]


def links_of(nodes):
    """Tail and head of each link: node by node, hop by hop, the parallel ones beside each other."""
    return [(node, (node + hop) % nodes) for node in range(nodes) for hop in HOPS for _ in range(PARALLEL)]


def paths_of(nodes, source, hops):
    """The lines of a pair's paths, ascending."""
    node, firsts = source, []
    for hop in hops:
        firsts.append(PARALLEL * (len(HOPS) * node + HOPS.index(hop)))
        node = (node + hop) % nodes
    rest = " ".join(map(str, firsts[VARIED:]))
    for number in range(MOST_PATHS):
        varied = " ".join(str(first + (number >> VARIED - 1 - place & 1)) for place, first in enumerate(firsts[:VARIED]))
        yield f"{UNIT // MOST_PATHS} {len(hops)} {varied} {rest}\n"


def write_network(file, form, first_node=0):
    """Writes a certificate of this format up to its links. With another first node these name nodes that the network lacks."""
    nodes = NODES[form]
    file.write(f"yates-ratio {form}\nnodes {nodes}\n")
    file.writelines(f"n{node}\n" for node in range(nodes))
    links = links_of(nodes)
    file.write(f"links {len(links)}\n")
    file.writelines(f"{first_node + tail} {first_node + head} 10 1\n" for tail, head in links)


def write_head(file, form, first_node=0):
    """Writes a certificate of this format without a block. With another first node the links and the pairs name nodes that the network lacks."""
    nodes = NODES[form]
    write_network(file, form, first_node)
    file.write(f"pairs {nodes * (nodes - 1)}\n")
    hops = {distance: hops_over_all(nodes, distance) for distance in range(1, nodes)}
    for source in range(nodes):
        for target in range(nodes):
            if source != target:
                file.write(f"{first_node + source} {first_node + target} {MOST_PATHS}\n")
                file.writelines(paths_of(nodes, source, hops[(target - source) % nodes]))
    file.write("set all\nratio 0\nblocks 0\nend\n")
