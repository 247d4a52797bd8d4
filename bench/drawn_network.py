"""The network and the matrices that `gen` draws, as docs/FORMATS.md says, drawn a second time: by the words of ChaCha with 8 rounds."""
import struct

MASK = 0xFFFFFFFF
# What a word is drawn for is a part of the key.
FOR_MATRICES, FOR_LINKS = 1, 2


def quarter(state, a, b, c, d):
    for x, y, z, turn in ((a, b, d, 16), (c, d, b, 12), (a, b, d, 8), (c, d, b, 7)):
        state[x] = (state[x] + state[y]) & MASK
        mixed = state[z] ^ state[x]
        state[z] = (mixed << turn | mixed >> 32 - turn) & MASK


def words(seed, purpose):
    """The words of the seed's key for this purpose, one after the other."""
    key = struct.unpack("<8I", struct.pack("<QB23x", seed, purpose))
    block = 0
    while True:
        start = [*struct.unpack("<4I", b"expand 32-byte k"), *key, block & MASK, block >> 32, 0, 0]
        state = start[:]
        for _ in range(4):
            for i in range(4):
                quarter(state, i, i + 4, i + 8, i + 12)
            for i in range(4):
                quarter(state, i, (i + 1) % 4 + 4, (i + 2) % 4 + 8, (i + 3) % 4 + 12)
        yield from ((x + y) & MASK for x, y in zip(state, start))
        block += 1


def draw_links(nodes, seed):
    """Tail, head, capacity and cost of each link: a ring of fibres, and with four nodes or more one across it for each of the first half."""
    take = words(seed, FOR_LINKS)
    links = []

    def add_fibre(i, j):
        capacity, cost = 1000 * (1 + next(take) % 10), 1 + next(take) % 10
        links.extend([(i, j, capacity, cost), (j, i, capacity, cost)])

    for i in range(nodes):
        add_fibre(i, (i + 1) % nodes)
    if nodes >= 4:
        for i in range(nodes // 2):
            add_fibre(i, (i + 2 + next(take) % (nodes - 3)) % nodes)
    return links


def draw_demands(nodes, steps, seed):
    """Step, source, target and demand of all pairs: in each step the product of two sizes."""
    take = words(seed, FOR_MATRICES)
    for step in range(steps):
        sizes = [1 + next(take) % 100 for _ in range(nodes)]
        yield from ((step, s, t, sizes[s] * sizes[t]) for s in range(nodes) for t in range(nodes) if s != t)
