"""Certificates, and files that look like one, each a text."""

# The first line of a file of the first format, and of the second.
FIRST = "yates-ratio 1\n"
SECOND = "yates-ratio 2\n"

# Two nodes, one link and the path along it: the smallest certificate.
SMALLEST = (
    "yates-ratio 1\nnodes 2\na\nb\nlinks 1\n0 1 10 1\npairs 1\n0 1 1\n1000000 1 0\nset all\nratio 1000000\nblocks 1\n0 1000000 1 1\n1\n0 0 1\n"
    "end\n"
)

# The smallest certificate up to its set, of this its network and its routes, and its block.
SMALLEST_HEAD = "yates-ratio 1\nnodes 2\na\nb\nlinks 1\n0 1 10 1\npairs 1\n0 1 1\n1000000 1 0\nset all\n"
SMALLEST_NETWORK = "nodes 2\na\nb\nlinks 1\n0 1 10 1\n"
SMALLEST_ROUTES = "pairs 1\n0 1 1\n1000000 1 0\n"
SMALLEST_BLOCK = "blocks 1\n0 1000000 1 1\n1\n0 0 1\n"

# Two parallel links up to the first path, what follows the second path's weight, and the blocks.
PARALLEL = "yates-ratio 1\nnodes 2\na\nb\nlinks 2\n0 1 10 1\n0 1 30 1\npairs 1\n0 1 2\n500000 1 0\n"
PARALLEL_SET = " 1 1\nset all\nratio 2000000\n"
PARALLEL_FIRST = "0 500000 1 1\n1 1\n0 0 1\n"
PARALLEL_SECOND = "1 500000 1 1\n1 1\n0 0 1\n"

# Nodes a, b and c, links from a and b to c and between a and b, and the pairs that end at c, each by its own link.
TRIANGLE = "nodes 3\na\nb\nc\nlinks 4\n0 2 10 1\n1 2 10 1\n0 1 10 1\n1 0 10 1\npairs 2\n0 2 1\n1000000 1 0\n1 2 1\n1000000 1 1\n"

# The same, the first pair by a path that visits a twice.
TRIANGLE_LOOP = "nodes 3\na\nb\nc\nlinks 4\n0 2 10 1\n1 2 10 1\n0 1 10 1\n1 0 10 1\npairs 2\n0 2 1\n1000000 3 2 3 0\n1 2 1\n1000000 1 1\n"

# The blocks for every matrix.
TRIANGLE_ALL = "blocks 2\n0 1000000 1 1\n1 1 0 0\n0 0 0 1\n1 1000000 1 1\n1 1 0 0\n1 0 0 1\nend\n"

# The ratio and the blocks for the multiples of one matrix: up to the numbers of the first block's minus, and from there on.
TRIANGLE_BLOCKS = "ratio 1000000\nblocks 2\n0 500000 1 2\n1 1 0 0\n0 0 0 1\n1 0 0 1\nplus 1 0\nminus "
TRIANGLE_BLOCKS_END = "\n1 500000 1 2\n1 1 0 0\n0 0 0 1\n1 0 0 1\nplus 0 1\nminus 1 0\nend\n"

# The blocks for demands of which neither is above twice the other.
TRIANGLE_DOUBLE = (
    "blocks 2\n0 1000000 3 2\n2 2 0 0\n0 0 0 2\n1 0 0 2\nplus 1 0\nminus 0 2\n1 1000000 3 2\n2 2 0 0\n0 0 0 2\n1 0 0 2\nplus 0 1\nminus 2 0\nend\n"
)

# Nodes a, b and z, of which z is out of the reach of a, up to the potentials of a.
UNREACHED = (
    "yates-ratio 1\nnodes 3\na\nb\nz\nlinks 2\n0 1 10 1\n2 1 10 1\npairs 1\n0 1 1\n1000000 1 0\nset all\nratio 1000000\nblocks 1\n0 1000000 1 1\n"
    "1 0\n"
)

# The smallest certificate in the second format, and with a ratio that is too low.
SMALLEST_IN_SECOND = (
    "yates-ratio 2\nnodes 2\na\nb\nlinks 1\n0 1 10 1\npairs 1\n0 1 1\n1000000 1 0\nset all\nratio 1000000\nblocks 1\n0 1000000 1 1\n1\n0 0 1\n"
    "end\n"
)
SMALLEST_WITH_LESS_IN_SECOND = (
    "yates-ratio 2\nnodes 2\na\nb\nlinks 1\n0 1 10 1\npairs 1\n0 1 1\n1000000 1 0\nset all\nratio 999999\nblocks 1\n0 1000000 1 1\n1\n0 0 1\n"
    "end\n"
)

SMALLEST_WITH_LESS = SMALLEST_HEAD + "ratio 999999\n" + SMALLEST_BLOCK + "end\n"
PARALLEL_WHOLE = PARALLEL + "500000" + PARALLEL_SET + "blocks 2\n" + PARALLEL_FIRST + PARALLEL_SECOND + "end\n"
PARALLEL_WITHOUT_SECOND = PARALLEL + "500000" + PARALLEL_SET + "blocks 1\n" + PARALLEL_FIRST + "end\n"
PARALLEL_WITHOUT_FIRST = PARALLEL + "500000" + PARALLEL_SET + "blocks 1\n" + PARALLEL_SECOND + "end\n"

# The first block has a weight past its range, and the second one the link of the first.
PARALLEL_TWO_FAULTS = PARALLEL + "500000" + PARALLEL_SET + "blocks 2\n0 500000 1 1\n268435457 1\n0 0 1\n" + PARALLEL_FIRST + "end\n"

# The ratio is too small, and a byte stands after the end.
PARALLEL_WITH_LESS_AND_MORE = PARALLEL + "500000 1 1\nset all\nratio 1999999\nblocks 2\n" + PARALLEL_FIRST + PARALLEL_SECOND + "end\nx"

# The weights of the pair sum to 999999.
PARALLEL_LIGHT = PARALLEL + "499999" + PARALLEL_SET + "blocks 2\n" + PARALLEL_FIRST + PARALLEL_SECOND + "end\n"

TRIANGLE_FOR_ALL = FIRST + TRIANGLE + "set all\nratio 2000000\n" + TRIANGLE_ALL

# Two links that carry nothing have blocks too.
TRIANGLE_WITH_IDLE_BLOCKS = (
    FIRST + TRIANGLE + "set all\nratio 2000000\nblocks 4\n0 1000000 1 1\n1 1 0 0\n0 0 0 1\n1 1000000 1 1\n1 1 0 0\n1 0 0 1\n"
    + "2 0 1 0\n0 0 0 0\n3 0 1 0\n0 0 0 0\nend\n"
)

TRIANGLE_FOR_ALL_WITH_LESS = FIRST + TRIANGLE + "set all\nratio 1999999\n" + TRIANGLE_ALL
TRIANGLE_WITHOUT_FIRST_WITH_LESS = FIRST + TRIANGLE + "set all\nratio 1999999\nblocks 1\n1 1000000 1 1\n1 1 0 0\n1 0 0 1\nend\n"
TRIANGLE_TWICE_A_NODE = FIRST + TRIANGLE_LOOP + "set all\nratio 2000000\n" + TRIANGLE_ALL

# The blocks of the first round, of which each weight is the starting one.
TRIANGLE_OF_FIRST_ROUND = (
    FIRST + TRIANGLE + "set all\nratio 4000000\nblocks 2\n0 1000000 1048576 1\n1048576 1048576 1048576 1048576\n0 0 1048576 1048576\n"
    "1 1000000 1048576 1\n1048576 1048576 1048576 1048576\n1 1048576 0 1048576\nend\n"
)

TRIANGLE_FOR_MARGIN = FIRST + TRIANGLE + "set margin 1 1\nbase 10 10\n" + TRIANGLE_BLOCKS + "0 1" + TRIANGLE_BLOCKS_END
TRIANGLE_WITHOUT_MINUS = FIRST + TRIANGLE + "set margin 1 1\nbase 10 10\n" + TRIANGLE_BLOCKS + "0 0" + TRIANGLE_BLOCKS_END
TRIANGLE_SMALL_MARGIN = FIRST + TRIANGLE + "set margin 1 2\nbase 10 10\n" + TRIANGLE_BLOCKS + "0 1" + TRIANGLE_BLOCKS_END

# The same for a box in the second format, whose bounds are the demands of the margin.
TRIANGLE_FOR_BOX = (
    "yates-ratio 2\nnodes 3\na\nb\nc\nlinks 4\n0 2 10 1\n1 2 10 1\n0 1 10 1\n1 0 10 1\npairs 2\n0 2 1\n1000000 1 0\n1 2 1\n1000000 1 1\nset box\n"
    "lower 10 10\nupper 10 10\nratio 1000000\nblocks 2\n0 500000 1 2\n1 1 0 0\n0 0 0 1\n1 0 0 1\nplus 1 0\nminus 0 1\n1 500000 1 2\n1 1 0 0\n"
    "0 0 0 1\n1 0 0 1\nplus 0 1\nminus 1 0\nend\n"
)

TRIANGLE_WIDE_BOX = SECOND + TRIANGLE + "set box\nlower 10 10\nupper 20 20\n" + TRIANGLE_BLOCKS + "0 1" + TRIANGLE_BLOCKS_END
TRIANGLE_EMPTY_BOX = SECOND + TRIANGLE + "set box\nlower 11 10\nupper 10 10\n" + TRIANGLE_BLOCKS + "0 1" + TRIANGLE_BLOCKS_END
TRIANGLE_BOX_IN_FIRST = FIRST + TRIANGLE + "set box\nlower 10 10\nupper 10 10\n"
TRIANGLE_MARGIN_IN_SECOND = SECOND + TRIANGLE + "set margin 1 1\nbase 10 10\n"

# Neither demand is above twice the other, and so the ratio is four thirds, rounded up.
TRIANGLE_DOUBLE_BOX = SECOND + TRIANGLE + "set box\nlower 10 10\nupper 20 20\nratio 1333334\n" + TRIANGLE_DOUBLE
TRIANGLE_DOUBLE_BOX_WITH_LESS = SECOND + TRIANGLE + "set box\nlower 10 10\nupper 20 20\nratio 1333333\n" + TRIANGLE_DOUBLE

UNREACHED_TOO_LOW = UNREACHED + "0 0 1 0\nend\n"
UNREACHED_HIGH = UNREACHED + "0 0 1 1\nend\n"

# The first rule fails, and so on: two nodes of one name, a link without capacity, a pair of one node, paths out of order, a
# ratio and a block's link out of range, and a weight out of range.
TWICE_A_NAME = "yates-ratio 1\nnodes 2\na\na\nlinks 1\n0 1 10 1\npairs 1\n0 1 1\n1000000 1 0\nset all\nratio 1000000\n" + SMALLEST_BLOCK + "end\n"
NO_CAPACITY = "yates-ratio 1\nnodes 2\na\nb\nlinks 1\n0 1 0 1\npairs 1\n0 1 1\n1000000 1 0\nset all\nratio 1000000\n" + SMALLEST_BLOCK + "end\n"
PAIR_OF_ONE_NODE = "yates-ratio 1\nnodes 2\na\nb\nlinks 1\n0 1 10 1\npairs 1\n0 0 1\n1000000 1 0\nset all\nratio 1000000\n" + SMALLEST_BLOCK + "end\n"
PATHS_OUT_OF_ORDER = (
    "yates-ratio 1\nnodes 2\na\nb\nlinks 2\n0 1 10 1\n0 1 30 1\npairs 1\n0 1 2\n500000 1 1\n500000 1 0\nset all\nratio 2000000\nblocks 2\n"
    + PARALLEL_FIRST + PARALLEL_SECOND + "end\n"
)
WIDE_RATIO = SMALLEST_HEAD + "ratio 10000000000000000000\n" + SMALLEST_BLOCK + "end\n"
BLOCK_OF_NO_LINK = SMALLEST_HEAD + "ratio 1000000\nblocks 1\n1 1000000 1 1\n1\n0 0 1\nend\n"
WIDE_WEIGHT = SMALLEST_HEAD + "ratio 1000000\nblocks 1\n0 1000000 1 1\n268435457\n0 0 1\nend\n"
LEADING_ZERO = SMALLEST_HEAD + "ratio 01000000\n" + SMALLEST_BLOCK + "end\n"
UNENDED = SMALLEST_HEAD + "ratio 1000000\n" + SMALLEST_BLOCK + "end"

# Its ratio is too low, and its last line is missing.
CUT = SMALLEST_HEAD + "ratio 999999\n" + SMALLEST_BLOCK

MANY_NODES = "yates-ratio 1\nnodes 65\n"
WIDE_NODES = "yates-ratio 1\nnodes 18446744073709551616\n"
MANY_PAIRS = "yates-ratio 1\nnodes 2\na\nb\nlinks 1\n0 1 10 1\npairs 4033\n"
MANY_PATHS = "yates-ratio 1\nnodes 2\na\nb\nlinks 1\n0 1 10 1\npairs 1\n0 1 33\n"
MANY_BLOCKS = SMALLEST_HEAD + "ratio 1000000\nblocks 512\n0 1000000 1 1\n1\n0 0 1\nend\n"

# The smallest certificate for a box.
SMALL_BOX = (
    "yates-ratio 2\nnodes 2\na\nb\nlinks 1\n0 1 10 1\npairs 1\n0 1 1\n1000000 1 0\nset box\nlower 3\nupper 5\nratio 1000000\nblocks 1\n"
    "0 1000000 1 1\n1\n0 0 1\nplus 0\nminus 0\nend\n"
)

# First lines of neither format.
THIRD_FORMAT = "yates-ratio 3\n"
ZERO_BEFORE_FORMAT = "yates-ratio 02\n"
SPACE_AFTER_FORMAT = "yates-ratio 2 \n"

# Counts that the second format does not allow.
MANY_NODES_IN_SECOND = SECOND + "nodes 129\n"
MANY_LINKS_IN_SECOND = SECOND + "nodes 2\na\nb\nlinks 1025\n"
MANY_PAIRS_IN_SECOND = SECOND + SMALLEST_NETWORK + "pairs 16257\n"
LONG_PATH_IN_SECOND = SECOND + SMALLEST_NETWORK + "pairs 1\n0 1 1\n1000000 128 0\n"
MANY_BLOCKS_IN_SECOND = SECOND + SMALLEST_NETWORK + SMALLEST_ROUTES + "set all\nratio 1000000\nblocks 1025\n"
