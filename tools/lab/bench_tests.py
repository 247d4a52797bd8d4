"""The scripts of bench/, tried without the programs that they measure."""
import contextlib
import glob
import importlib.machinery
import importlib.util
import io
import os
import resource
import shutil
import sys
import tempfile

import reference_check

from . import calls
from .certificates import SMALLEST, TRIANGLE_FOR_MARGIN
from .program import TOP

BENCH = os.path.join(TOP, "bench")
REPORT = ("scheme", "step", "offered", "delivered", "lost_full", "lost_failed", "lost_no_path", "peak", "parts", "low")


def loaded(name):
    """A script as a module."""
    loader = importlib.machinery.SourceFileLoader(f"bench_{name}", os.path.join(BENCH, name))
    made = importlib.util.module_from_spec(importlib.util.spec_from_loader(loader.name, loader))
    loader.exec_module(made)
    return made


def scripts():
    return sorted(os.path.basename(it) for it in glob.glob(os.path.join(BENCH, "*")) if os.path.isfile(it) and "." not in os.path.basename(it))


def ending_of(run, *words):
    """With what a script would end, and what it says."""
    said = io.StringIO()
    with contextlib.redirect_stdout(said), contextlib.redirect_stderr(said):
        try:
            status = run(*words)
        except SystemExit as ended:
            # A text is printed and means 1.
            status = ended.code if isinstance(ended.code, int) else 1
            said.write(str(ended.code))
    return status, said.getvalue()


def without_programs(name):
    """A script whose programs end with 1. None is built for it."""
    script = loaded(name)
    script.yates = script.measure = lambda: shutil.which("false")
    return script


def words_of_no_form():
    """Each script says how it is called where the words are no form of its own."""
    faults = []
    for name in scripts():
        status, said = ending_of(without_programs(name).main, ["--no", "such", "words"])
        if status != 2 or not said.startswith("usage: "):
            faults.append(f"{name} ends with {status} and says {said!r}")
    return faults


def programs_that_fail():
    """Each script ends with 1 where a program that it measures ends with another status than the one that is wanted."""
    false, faults = shutil.which("false"), []
    with tempfile.TemporaryDirectory() as folder:
        file = os.path.join(folder, "c")
        with open(file, "w", encoding="ascii") as certificate:
            certificate.write(SMALLEST)
        words = {
            "attack": ["4"], "check_speed": [file], "hose": ["4"], "hostile": ["false count of pairs, format 1"], "publish": ["ring:4:spf"],
            "rates": ["4"], "schemes": ["cube:4:spf"], "tighten": ["ring:4:spf"], "times": ["ring:4"], "update": ["4"], "nearness": ["--recorded", "--program", false, "torus"],
        }
        for name in scripts():
            script = without_programs(name)
            # So that little is written before.
            script.STEPS = 1
            run, given = script.main, [words.get(name, [])]
            if name == "laboratory":
                run, given = script.compare, [script.Case("a case", ["run", "p"], None), (false, false), 1]
            status, said = ending_of(run, *given)
            if status != 1 or "ended with" not in said:
                faults.append(f"{name} ends with {status} and says {said!r}")
    return faults


def drawn_networks():
    """What `gen` draws is drawn here too: as many links, and the same demands."""
    sys.path.insert(0, BENCH)
    from drawn_network import draw_demands, draw_links

    faults = []
    for (_, nodes, seed), start, end in calls.SUMMARIES:
        links, offered = len(draw_links(int(nodes), int(seed))), sum(it[3] for it in draw_demands(int(nodes), 3, int(seed)))
        if f"\nlinks {links}\n" not in start or f"\noffered {offered}\n" not in end:
            faults.append(f"{nodes} nodes of seed {seed}: {links} links, {offered} offered")
    return faults


def networks_by_name():
    """Each network has the nodes and links of its kind, and words that name none are told."""
    sys.path.insert(0, BENCH)
    import networks

    faults = []
    wanted = [("drawn", 4, 32), ("equal", 64, 512), ("rates", 8, 64), ("ring", 5, 10), ("torus", 16, 64), ("mesh", 8, 56), ("cube", 128, 896), ("fat-tree", 20, 64)]
    for name, nodes, links in wanted:
        with tempfile.TemporaryDirectory() as folder:
            networks.write(folder, name, nodes, 1)
            with open(os.path.join(folder, "net.csv"), encoding="ascii") as net:
                rows = [row.split(",") for row in net.read().splitlines()[1:]]
        named = {node for row in rows for node in row[:2]}
        if len(rows) != links or named != {f"n{node}" for node in range(nodes)}:
            faults.append(f"{name}: {len(rows)} links between {len(named)} nodes")
    said = [networks.read_case(word, ("ksp", "spf")) for word in ("ring", "fat-tree", "cube:8", "drawn:64:spf")]
    if said != [("ring", 64, "ksp"), ("fat-tree", 80, "ksp"), ("cube", 8, "ksp"), ("drawn", 64, "spf")]:
        faults.append(f"{said}")
    for word in ("net", "ring:1", "ring:129", "ring:x", "torus:20", "mesh:33", "cube:100", "fat-tree:64", "ring:4:mcf", "ring:4:spf:all"):
        try:
            faults.append(f"{word}: {networks.read_case(word, ('ksp', 'spf'))}")
        except networks.NoNetwork:
            pass
    return faults


def longest_heads():
    """The heads of `hostile` are valid, and those with other nodes are not; tried with eight nodes."""
    sys.path.insert(0, BENCH)
    import longest_paths

    faults, nodes = [], dict(longest_paths.NODES)
    longest_paths.NODES.update({1: 8, 2: 7})
    for form, first, wanted in ((1, 0, "no link 0 rule I2 place "), (2, 0, "no link 0 rule I2 place "), (1, 1000, "refused: c: rule V2 at 0\n")):
        head = io.StringIO()
        longest_paths.write_head(head, form, first)
        said = "".join(reference_check.check_bytes("c", head.getvalue().encode())[:2])
        if not said.startswith(wanted):
            faults.append(f"format {form}, first node {first}: {said!r}")
    longest_paths.NODES.update(nodes)
    return faults


def blocks_of_certificates():
    """What is taken of the blocks of a certificate."""
    sys.path.insert(0, BENCH)
    import blocks

    with tempfile.TemporaryDirectory() as folder:
        name, other = os.path.join(folder, "c"), os.path.join(folder, "other")
        with open(name, "w", encoding="ascii") as file:
            file.write(TRIANGLE_FOR_MARGIN)
        got = blocks.head_size(name), blocks.ratio_and_searched(name)
        blocks.write_with_blocks(name, lambda count: count - 1, other)
        with open(other, encoding="ascii") as file:
            kept = file.read()
    begins, _, rest = TRIANGLE_FOR_MARGIN.partition("blocks 2\n")
    wanted = len(begins), (1000000, 2, 2), begins + "blocks 1\n" + rest.partition("1 500000")[0] + "end\n"
    return [] if (*got, kept) == wanted else [f"{got}, {kept!r}"]


def what_a_run_takes():
    """The peak of a program is not that of Python, its output may go to a file, and one that a signal ends is told."""
    sys.path.insert(0, BENCH)
    import measured

    faults = []
    own = resource.getrusage(resource.RUSAGE_SELF).ru_maxrss * 1024
    peak = measured.run(shutil.which("true")).peak
    if not 0 < peak < own:
        faults.append(f"peak {peak}, of Python {own}")
    with tempfile.TemporaryDirectory() as folder:
        named = os.path.join(folder, "a file")
        said = measured.run("echo", "a  word").out, measured.run("echo", "text", out=named).out, measured.run("cat", named).out
    if said != (b"a  word\n", b"", b"text\n"):
        faults.append(f"{said}")
    for words, limit in ((("sh", "-c", "kill -9 $$"), None), (("sh", "-c", "while :; do :; done"), 1)):
        status, told = ending_of(lambda given, most: measured.run(*given, limit=most), words, limit)
        if status != 1 or "ended with -9" not in told:
            faults.append(f"{words} ends with {status} and says {told!r}")
    return faults


def aims():
    """Of each aim the worst case is told, and whether it is met."""
    sys.path.insert(0, BENCH)
    import measured

    kept = measured.Aims()
    for aim, value, most, case in (("time", 1.5, 2, "a"), ("time", 3, 2, "b"), ("memory", 1, 8, "a"), ("memory", 2, 20, "b")):
        kept.add(aim, value, most, case)
    said = list(kept.lines())
    return [] if said == ["not met: time: 3.000, aim 2.000 (b)", "met: memory: 1.000, aim 8.000 (a)"] else said


def wrong_sides():
    """`schemes` tells a number that lies on the wrong side of the exact one."""
    script, faults = loaded("schemes"), []
    with tempfile.TemporaryDirectory() as folder:
        row = "mcf,0,1,1,0,0,0,1,5,5"
        solver, program = 'echo "Optimal - objective value 0.5" > "$4"', f"printf '{','.join(REPORT)}\\n{row}\\n'"
        for name, text in (("clp", solver), ("yates", program)):
            with open(os.path.join(folder, name), "w", encoding="ascii") as file:
                file.write(f"#!/bin/sh\n{text}\n")
            os.chmod(os.path.join(folder, name), 0o755)
        script.yates = lambda: os.path.join(folder, "yates")
        path = os.environ["PATH"]
        os.environ["PATH"] = f"{folder}:{path}"
        try:
            status, said = ending_of(script.main, ["--clp", "ring:4:mcf"])
        finally:
            os.environ["PATH"] = path
    return [] if status == 1 and "wrong side" in said else [f"{status}, {said!r}"]


CASES = [
    ("words of no form", words_of_no_form), ("programs that fail", programs_that_fail), ("drawn networks", drawn_networks),
    ("networks by name", networks_by_name), ("the heads with the longest paths", longest_heads), ("the blocks of a certificate", blocks_of_certificates),
    ("what a run takes", what_a_run_takes), ("aims", aims), ("numbers on the wrong side", wrong_sides),
]
