"""A network with eight links a node, and matrices with all of its pairs."""

HEADER = "source,target,capacity,cost\n"


def ring_ends(nodes):
    """The ends of the links of a ring, both ways."""
    return [(i, (i + 1) % nodes) for i in range(nodes)] + [((i + 1) % nodes, i) for i in range(nodes)]


def dense_ends(nodes, drawn):
    """A ring both ways, so that all nodes reach each other, and then drawn links."""
    ends = ring_ends(nodes)
    while len(ends) < 8 * nodes:
        tail, head = drawn.randrange(nodes), drawn.randrange(nodes)
        if tail != head:
            ends.append((tail, head))
    return ends


def write_network(name, nodes, drawn, capacities=(1, 100000)):
    """Such a network, with capacities between these two and costs up to 100."""
    with open(name, "w") as net:
        net.write(HEADER)
        for tail, head in dense_ends(nodes, drawn):
            net.write(f"n{tail},n{head},{drawn.randint(*capacities)},{drawn.randint(1, 100)}\n")


def write_matrices(name, nodes, steps, drawn):
    """All pairs in each of the steps, with demands of at most a million."""
    with open(name, "w") as matrices:
        matrices.write("step,source,target,demand\n")
        for step in range(steps):
            for source in range(nodes):
                for target in range(nodes):
                    if source != target:
                        matrices.write(f"{step},n{source},n{target},{drawn.randint(0, 1000000)}\n")
