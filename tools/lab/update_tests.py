"""What tools/reference_update.py says of updates: the rows that the gate runs the program on, and drawn ones beside the quotients of the links."""
import collections
import random

from .calls import CHAIN_UPDATES
from .drawn_updates import files_of
from .inside_tests import differences
from .updates import TWICE, UPDATES

NAMES = ["o", "n", "m"]


def cases(load, call):
    """Each case by its name, with what is wrong."""
    tool = load("reference_update.py")
    for name, names, words, rows in (("rows", NAMES, NAMES, UPDATES), ("a file twice", ["o", "m"], ["o", "o", "m"], TWICE), ("chains", NAMES, NAMES, CHAIN_UPDATES)):
        faults = []
        for place, (texts, status, said) in enumerate(rows):
            faults += [f"row {place}: {it}" for it in differences(call, tool, dict(zip(names, texts)), words, (said, status))]
        yield f"reference_update.py, {name}", faults
    yield "reference_update.py: other words", [] if [call(tool, words, ".")[1] for words in ([], ["o", "n"], ["o", "n", "m", "m"])] == [2, 2, 2] else ["another status"]
    yield "reference_update.py: a search", search(tool)
    yield "drawn updates", drawn(tool)


def search(tool):
    """Of updates that are drawn, the least number of steps is the greatest quotient of a link, up to 12."""
    faults, draw, most, tool.MAX_STEPS = [], random.Random(5), tool.MAX_STEPS, 12
    for _ in range(300):
        paths = [tool.Path(0, draw.randrange(4), *(draw.choice((0, 500_000, 1_000_000)) for _ in "ba"), draw.sample(range(3), 2)) for _ in range(4)]
        capacities = [draw.randrange(1, 9) for _ in range(3)]
        on_links = [[path for path in paths if link in path.links] for link in range(3)]
        wanted = max(quotient(on_link, capacity) for on_link, capacity in zip(on_links, capacities))
        got = tool.least_steps(on_links, capacities)
        if got != (wanted if wanted <= 12 else None):
            faults.append(f"{capacities}, {[path.line() for path in paths]}: want {wanted}, got {got}")
    tool.MAX_STEPS = most
    return faults


def quotient(paths, capacity):
    """The least number of steps of a link, or 13."""
    whole = 1_000_000 * capacity
    before, after = sum(it.demand * it.before for it in paths), sum(it.demand * it.after for it in paths)
    grows, shrinks = (sum(it.demand * max(0, sign * (it.after - it.before)) for it in paths) for sign in (1, -1))
    if before > whole or after > whole or (grows and before == whole) or (shrinks and after == whole):
        return 13
    return max(1, *(-(-moves // free) if moves else 1 for moves, free in ((grows, whole - before), (shrinks, whole - after))))


def drawn(tool):
    """Of the updates that are drawn there are some of each kind of answer."""
    draw, kinds, most, tool.MAX_STEPS = random.Random(3), collections.Counter(), tool.MAX_STEPS, 12
    for _ in range(200):
        files = dict(zip(NAMES, files_of(draw)))
        out, _, status = tool.answer(NAMES, files.__getitem__)
        kinds[status if status > 1 else out.split(" at ")[0].split("\npaths")[0]] += 1
    tool.MAX_STEPS = most
    wanted = ("yates-update 1\nsteps 1", "yates-update 1\nsteps 2", "no slack", "no network\n", "no pairs\n", 3)
    return [f"no answer {it!r}: {kinds}" for it in wanted if not kinds[it]]
