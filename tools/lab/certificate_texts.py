"""Certificates that are changed in one place, and the words for which `check` and `convert` refuse each; and what they say of others.

A case is (what it shows, the words of the call, its files by name, the status, the text), the status and the text as in `calls`.
"""

from .certificates import FIRST, SECOND, SMALLEST, SMALLEST_IN_SECOND, TRIANGLE

# The network of three nodes, and the pairs from two of them to the third, each over a link of its own.
THREE_NODES = TRIANGLE[:TRIANGLE.index("pairs")]
STRAIGHT = TRIANGLE[len(THREE_NODES):]

# One block for a margin of three nodes, and for the box of it in the second format.
ONE_BLOCK = "ratio 1000000\nblocks 1\n0 500000 1 1\n1 1 0 0\n0 0 0 1\nplus 1 0\nminus 0 1\nend\n"
MARGIN = FIRST + TRIANGLE + "set margin 2 1\nbase 10 5\n" + ONE_BLOCK
BOX = SECOND + TRIANGLE + "set box\nlower 10 5\nupper 40 20\n" + ONE_BLOCK

# A piece of the smallest certificate, what stands in the place of the first such piece, and the line where the format is left.
SHAPES = [
    ("yates-ratio 1", "yates-ratio 3", 1),
    ("yates-ratio 1", "yates-ratio 02", 1),
    ("yates-ratio 1", "yates-ratio 2 ", 1),
    ("nodes 2", "nodes 65", 2),
    ("nodes 2", "nodes 18446744073709551616", 2),
    ("nodes 2", "nodes  2", 2),
    ("nodes 2", "nodes 2 ", 2),
    ("\na\n", "\na b\n", 3),
    ("\na\n", "\n\n", 3),
    ("\nb\n", "\nabcdefghijklmnopqrstuvwxyzabcdefg\n", 4),
    ("links 1", "links 0", 5),
    ("links 1", "links 513", 5),
    ("0 1 10 1", "0 1 10", 6),
    ("pairs 1", "pairs 4033", 7),
    ("\n0 1 1\n", "\n0 1 33\n", 8),
    ("\n0 1 1\n", "\n0 1 0\n", 8),
    ("1000000 1 0", "1000000 2 0", 9),
    ("1000000 1 0", "1000000 64 0", 9),
    ("set all", "set any", 10),
    ("set all", "set box", 10),
    ("set all", "set margin 1", 10),
    ("set all", "set margin 1 1", 11),
    ("ratio 1000000", "ratio 01000000", 11),
    ("blocks 1", "blocks 513", 12),
    ("blocks 1", "blocks 512", 16),
    ("blocks 1", "blocks 0", 13),
    ("0 1000000 1 1", "0 1000000 1 65", 13),
    ("\n1\n", "\n1 1\n", 14),
    ("0 0 1", "0 0 1 1", 15),
    ("end", "end\nx", 17),
    ("end", "end\n", 17),
]

# The same of the smallest certificate in the second format.
SHAPES_OF_SECOND = [
    ("nodes 2", "nodes 129", 2),
    ("nodes 2", "nodes 128", 5),
    ("links 1", "links 1025", 5),
    ("links 1", "links 1024", 7),
    ("pairs 1", "pairs 16257", 7),
    ("pairs 1", "pairs 16256", 10),
    ("\n0 1 1\n", "\n0 1 33\n", 8),
    ("1000000 1 0", "1000000 128 0", 9),
    ("set all", "set margin 1 1", 10),
    ("set all", "set box 1", 10),
    ("blocks 1", "blocks 1025", 12),
    ("blocks 1", "blocks 1024", 16),
    ("0 1000000 1 1", "0 1000000 1 129", 13),
]

# The same of the lists of numbers of a box.
SHAPES_OF_BOX = [
    ("lower 10 5", "upper 10 5", 17),
    ("lower 10 5", "lower 10", 17),
    ("upper 40 20", "lower 40 20", 18),
    ("plus 1 0", "minus 1 0", 24),
]

# A piece of the smallest certificate, what stands in its place, and the rule that fails, with its place.
RULES = [
    ("\nb\n", "\na\n", "V1 at 1"),
    ("0 1 10 1", "0 4294967296 10 1", "V2 at 0"),
    ("\n0 1 1\n", "\n0 4294967296 1\n", "V3 at 0"),
    ("1000000 1 0", "1000000 1 1", "V4 at 0"),
    ("1000000 1 0", "1000000 1 4294967296", "V4 at 0"),
    ("1000000 1 0", "999999 1 0", "V6 at 0"),
    ("1000000 1 0", "18446744073709551615 1 0", "V6 at 0"),
    ("ratio 1000000", "ratio 10000000000000000000", "V8 at 0"),
    ("0 1000000 1 1", "1 1000000 1 1", "V8 at 1"),
    ("0 1000000 1 1", "0 1000000 0 1", "V8 at 1"),
    ("\n1\n", "\n268435457\n", "V9 at 0"),
]
RULES_OF_MARGIN = [("set margin 2 1", "set margin 1 2", "V7 at 0"), ("base 10 5", "base 4294967297 5", "V7 at 1")]
RULES_OF_BOX = [("lower 10 5", "lower 41 5", "V7 at 1"), ("upper 40 20", "upper 40 4503599627370497", "V7 at 2")]

# A file that is changed, what it is called, and the changes, each with the reason for which it is refused.
CHANGES = [
    ("the smallest", SMALLEST, [(piece, other, f"shape at line {line}") for piece, other, line in SHAPES]),
    ("the smallest in the second format", SMALLEST_IN_SECOND, [(piece, other, f"shape at line {line}") for piece, other, line in SHAPES_OF_SECOND]),
    ("a box", BOX, [(piece, other, f"shape at line {line}") for piece, other, line in SHAPES_OF_BOX]),
    ("the smallest", SMALLEST, [(piece, other, f"rule {rule}") for piece, other, rule in RULES]),
    ("a margin", MARGIN, [(piece, other, f"rule {rule}") for piece, other, rule in RULES_OF_MARGIN]),
    ("a box", BOX, [(piece, other, f"rule {rule}") for piece, other, rule in RULES_OF_BOX]),
]

# What the pairs and the set of three nodes show, the first line, they themselves, and the rule that fails, with its place.
REFUSED_SETS = [
    ("a path that visits a node twice", FIRST, "pairs 1\n0 2 1\n1000000 3 2 3 0\n", "set all\n", "V4 at 0"),
    ("paths out of order", FIRST, "pairs 1\n0 2 2\n500000 2 2 1\n500000 1 0\n", "set all\n", "V5 at 0"),
    ("weights below a million", FIRST, "pairs 1\n0 2 2\n500000 1 0\n499999 2 2 1\n", "set all\n", "V6 at 0"),
    ("a number of a margin above the greatest", FIRST, STRAIGHT, "set margin 1001 1000\nbase 10 10\n", "V7 at 0"),
    ("a margin below 1", FIRST, STRAIGHT, "set margin 1 2\nbase 10 10\n", "V7 at 0"),
    ("a base above the greatest", FIRST, STRAIGHT, "set margin 1 1\nbase 10 4294967297\n", "V7 at 2"),
    ("a lower bound above the upper one", SECOND, STRAIGHT, "set box\nlower 11 10\nupper 10 10\n", "V7 at 1"),
    ("an upper bound above the greatest", SECOND, STRAIGHT, "set box\nlower 10 10\nupper 10 4503599627370497\n", "V7 at 2"),
]

# The same, with the set in the second format in place of a rule.
SETS = [
    ("one path", FIRST, "pairs 1\n0 2 1\n1000000 1 0\n", "set all\n", "set all\n"),
    ("a margin of 1", FIRST, STRAIGHT, "set margin 1 1\nbase 10 10\n", "set box\nlower 10 10\nupper 10 10\n"),
    (
        "the greatest numbers of a margin, and the greatest base", FIRST, STRAIGHT, "set margin 1000 1000\nbase 10 4294967296\n",
        "set box\nlower 10000000 4294967296000000\nupper 10000000 4294967296000000\n",
    ),
    ("equal bounds", SECOND, STRAIGHT, "set box\nlower 10 10\nupper 10 10\n", "set box\nlower 10 10\nupper 10 10\n"),
    ("the greatest bound", SECOND, STRAIGHT, "set box\nlower 0 0\nupper 10 4503599627370496\n", "set box\nlower 0 0\nupper 10 4503599627370496\n"),
]


def without_blocks(first_line, pairs, of_set):
    """The certificate of three nodes, these pairs and this set that has no blocks."""
    return first_line + THREE_NODES + pairs + of_set + "ratio 2000000\nblocks 0\nend\n"


def refusals(shows, text, reason):
    """The calls of `check` and `convert`, which refuse a file for the same reason."""
    return [(f"{command}: {shows}", [command, "c"], {"c": text}, 3, f"refused: c: {reason}\n") for command in ("check", "convert")]


def changed():
    for file, text, changes in CHANGES:
        for piece, other, reason in changes:
            yield from refusals(f"{other!r} for {piece!r} in {file}", text.replace(piece, other, 1), reason)


def sets():
    for shows, first_line, pairs, of_set, rule in REFUSED_SETS:
        yield from refusals(shows, without_blocks(first_line, pairs, of_set), f"rule {rule}")
    for shows, first_line, pairs, of_set, in_second in SETS:
        files = {"c": without_blocks(first_line, pairs, of_set)}
        # Every rule holds, and the first pair has a share on the first link, which has no block.
        yield f"check: {shows}", ["check", "c"], files, 1, "no link 0 rule I2 place 0\n"
        yield f"convert: {shows}", ["convert", "c"], files, 0, without_blocks(SECOND, pairs, in_second)


def cuts():
    """Each beginning of a file, of which the last line is refused."""
    for file, text in (("the smallest", SMALLEST), ("a box", BOX)):
        for count in range(len(text)):
            line = text.count("\n", 0, count) + 1
            yield f"convert: {file}, {count} bytes", ["convert", "c"], {"c": text[:count]}, 3, f"refused: c: shape at line {line}\n"


CASES = [
    *changed(),
    *sets(),
    *cuts(),
    ("convert: a margin", ["convert", "c"], {"c": MARGIN}, 0, BOX),
    ("convert: a box", ["convert", "c"], {"c": BOX}, 0, BOX),
]
