"""What the scripts take of the blocks of a certificate, line by line."""

STARTING_WEIGHT = 1 << 20


def head_size(name):
    """How many bytes a certificate has before the count of its blocks."""
    with open(name, "rb") as lines:
        size = 0
        for line in lines:
            if line.startswith(b"blocks "):
                break
            size += len(line)
    return size


def read_head(lines):
    """The lines before the blocks, how many blocks there are, and how many lines a block has below its rows."""
    head, sides = [], 0
    for line in lines:
        if line.startswith(("set margin", "set box")):
            sides = 2
        if line.startswith("blocks "):
            return head, int(line.split()[1]), sides
        head.append(line)
    return head, 0, sides


def write_with_blocks(file, kept_of, name):
    """Writes the certificate with so many of its blocks as `kept_of` makes of their count."""
    with open(file, encoding="ascii") as lines, open(name, "w", encoding="ascii") as made:
        head, blocks, sides = read_head(lines)
        kept = kept_of(blocks)
        made.writelines([*head, f"blocks {kept}\n"])
        for _ in range(kept):
            first = next(lines)
            made.write(first)
            for _ in range(1 + int(first.split()[3]) + sides):
                made.write(next(lines))
        made.write("end\n")


def ratio_and_searched(file):
    """The ratio, how many blocks there are, and how many of them have a weight below the starting one."""
    with open(file, encoding="ascii") as lines:
        head, blocks, sides = read_head(lines)
        searched = 0
        for _ in range(blocks):
            rows = int(next(lines).split()[3])
            searched += min(map(int, next(lines).split())) < STARTING_WEIGHT
            for _ in range(rows + sides):
                next(lines)
    return int(head[-1].split()[1]), blocks, searched
