"""The files of `hostile`: how each is written, and the calls that read it."""
import collections
import os
import random
import sys

import longest_paths
import make_certificate
from lab import limits
from lab.folders import write_files
from measured import run

# What a file is: noise or false counts, a certificate that is refused for its numbers, one that is valid, another input file, or a plan.
NOISE, REFUSED_HEAD, CERTIFICATE, INPUT, PLAN = range(5)
MEGABYTE, STEPS = 1_000_000, 1000
# The calls that read a certificate.
READING = [tuple(words) for words in limits.CALLS["certificate"][1]]
# A call, its status, and how often it is made.
REFUSED = [(words, 3, 3) for words in READING]
REFUSED_LATE = [(words, 3, 3 if words == ("check", "c") else 1) for words in READING]


class File(collections.namedtuple("File", "name kind form write calls")):
    """A file: its name, what it is, the format of a certificate, what writes it and the other files of its calls into a folder, and the calls. The
    measured file is the one that `write` names.
    """


def valid_calls(status):
    """The calls on a valid certificate, of which `check` has this status."""
    return [(("check", "c"), status, 3), (("check-witness", "c", "w"), 0, 1), (("update", "c", "c", "m"), 0, 1), (("convert", "c"), 0, 1)]


def write_small(folder, but):
    """Writes the small files of the calls, but for the measured one."""
    write_files(folder, {name: text for name, text in limits.GOOD.items() if name != but})


def filled(name, head, unit, size, tail=""):
    """What writes a file of about so many bytes, units of text between a head and a tail, beside the small files of its call."""
    def write(folder):
        write_small(folder, name)
        piece = unit * (MEGABYTE // len(unit))
        with open(os.path.join(folder, name), "w", encoding="ascii") as file:
            file.write(head)
            for _ in range(size // len(piece)):
                file.write(piece)
            file.write(tail)
        return name
    return write


def noise(folder):
    write_small(folder, "c")
    drawn = random.Random(7)
    with open(os.path.join(folder, "c"), "wb") as file:
        for _ in range(limits.FIRST_LIMIT >> 20):
            file.write(drawn.randbytes(1 << 20))
    return "c"


def sparse(folder):
    write_small(folder, "c")
    limits.filled_file(limits.SECOND, b"\0", limits.SECOND_LIMIT).write(os.path.join(folder, "c"))
    return "c"


def false_count(form):
    """A certificate that ends after the count of its pairs, the greatest of its format."""
    def write(folder):
        nodes = longest_paths.NODES[form]
        with open(os.path.join(folder, "c"), "w", encoding="ascii") as file:
            longest_paths.write_network(file, form)
            file.write(f"pairs {nodes * (nodes - 1)}\n")
        write_small(folder, "c")
        return "c"
    return write


def write_beside(folder, nodes):
    """The witness of bound 0 and the matrices without a demand, of all pairs, that stand beside a valid certificate."""
    pairs = [(source, target) for source in range(nodes) for target in range(nodes) if source != target]
    witness = ["yates-witness 1", "bound 0", "scale 1 1", "demand" + " 0" * len(pairs), *["0"] * len(pairs), "end"]
    matrices = ["step,source,target,demand", *(f"0,n{source},n{target},0" for source, target in pairs)]
    write_files(folder, {name: "".join(f"{line}\n" for line in lines) for name, lines in (("w", witness), ("m", matrices))})


def longest(form, first_node):
    def write(folder):
        with open(os.path.join(folder, "c"), "w", encoding="ascii") as file:
            longest_paths.write_head(file, form, first_node)
        write_files(folder, {"t": limits.GOOD["t"]})
        write_beside(folder, longest_paths.NODES[form])
        return "c"
    return write


def of_check_speed(form):
    def write(folder):
        # In a process of its own, which gives its memory back.
        run(sys.executable, make_certificate.__file__, os.path.join(folder, "c"), "1", str(form))
        write_beside(folder, make_certificate.NODES_OF_FORMAT[form])
        return "c"
    return write


def last_row(folder):
    write_files(folder, {**limits.GOOD, "m": limits.DEMANDS + "1023,a,b,1\n"})
    return "m"


def matrices(folder):
    """All pairs of 64 nodes in each of many steps, beside failures that are refused, so that nothing is carried out."""
    nodes = range(64)
    net = limits.HEADER + "".join(f"n{node},n{(node + 1) % 64},10,1\n" for node in nodes)
    write_files(folder, {"t": net, "p": limits.GOOD["p"], "f": "no header\n"})
    rows = [f"n{source},n{target},{source * target}\n" for source in nodes for target in nodes if source != target]
    with open(os.path.join(folder, "m"), "w", encoding="ascii") as file:
        file.write(limits.DEMANDS)
        for step in range(STEPS):
            file.writelines(f"{step},{row}" for row in rows)
    return "m"


def plan_of(value):
    """A plan that is one list of such values, which is no plan."""
    return filled("p", f"[{value}", f",{value}", 60 * MEGABYTE, "]")


RUN = ("run", "p")
FILES = [
    *(File(f"check_speed, format {form}", CERTIFICATE, form, of_check_speed(form), valid_calls(0)) for form in (1, 2)),
    File("noise", NOISE, 1, noise, REFUSED),
    File("sparse", NOISE, 2, sparse, REFUSED),
    *(File(f"false count of pairs, format {form}", NOISE, form, false_count(form), REFUSED) for form in (1, 2)),
    *(File(f"longest paths, format {form}", CERTIFICATE, form, longest(form, 0), valid_calls(1)) for form in (1, 2)),
    *(File(f"longest paths of other nodes, format {form}", REFUSED_HEAD, form, longest(form, 1000), REFUSED_LATE) for form in (1, 2)),
    File("plan of numbers", PLAN, 0, plan_of("0"), [(RUN, 3, 3)]),
    File("plan of nested lists", PLAN, 0, plan_of("[" * 126 + "]" * 126), [(RUN, 3, 3)]),
    File("plan of objects", PLAN, 0, plan_of('{"":0}'), [(RUN, 3, 3)]),
    File("topology row of commas", INPUT, 0, filled("t", limits.HEADER, ",", 64 * MEGABYTE), [(RUN, 3, 3), (("check", "c", "t"), 3, 3)]),
    File("matrices of one row at step 1023", INPUT, 0, last_row, [(RUN, 0, 3)]),
    File("matrices of 1,000 steps", INPUT, 0, matrices, [(RUN, 3, 3)]),
    File("failures", INPUT, 0, filled("f", limits.OUTAGES, "0,0,0\n", 64 * MEGABYTE), [(RUN, 0, 3)]),
    File("witness of lines 1", INPUT, 0, filled("w", "yates-witness 1\n", "1\n", 64 * MEGABYTE, "end\n"), [(("check-witness", "c", "w"), 3, 3)]),
]
