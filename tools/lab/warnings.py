"""What the program accepts and a user may not mean: one line of text each."""
from .inputs import MAX_AMOUNT

# Demands in the thousands are split between paths in whole units with little left over.
FINE_DEMAND = 1000


def warnings(plan, net, series, outages):
    """The warnings of an accepted experiment, in an order that a reader can work through."""
    found = [f"the key {key} stands twice in the plan: the last one counts" for key in plan.twice]
    found += links_one_way(net)
    found += links_twice(net)
    found += pairs_without_path(net, series)
    found += steps_without_rows(plan, series)
    if plan.margin:
        found += base_of_margin(series, net)
    found += coarse_units(net, series)
    found += demands_beyond_nodes(net, series)
    found += cuts_of_one_way(net, outages)
    return found + several_seeds(plan)


def several_seeds(plan):
    """Seeds that change nothing, or of which the report has the first alone."""
    if plan.seeds == 1:
        return []
    if plan.publish != "racke":
        return [f"the key seeds is {plan.seeds}, and {plan.publish} draws nothing: publish makes one certificate"]
    if "racke" not in plan.schemes:
        return []
    return [f"publish writes the best of {plan.seeds} seeds (the key seeds), and run reports racke of the first of them, {plan.seed}, alone"]


def counted(number, one, many):
    """A number with its noun and verb."""
    return f"{number} {one if number == 1 else many}"


def shown(names, limit=6):
    """The first of these, and how many more there are."""
    return ", ".join(names[:limit]) + (f" and {len(names) - limit} more" if len(names) > limit else "")


def name(net, node):
    return net.names[node].decode("ascii")


def ends(net, link):
    tail, head = net.links[link][:2]
    return f"{name(net, tail)}>{name(net, head)}"


def pair_name(net, pair):
    return f"{name(net, pair[0])}>{name(net, pair[1])}"


def links_one_way(net):
    """Links for which there are more in their direction than back."""
    count = {}
    for tail, head, *_ in net.links:
        count[tail, head] = count.get((tail, head), 0) + 1
    lone = sorted(pair for pair, links in count.items() if links > count.get(pair[::-1], 0))
    if not lone:
        return []
    said = shown([pair_name(net, pair) for pair in lone])
    return [f"{counted(len(lone), 'link has', 'links have')} none that leads back: {said}. A row is one direction; a fibre is two rows"]


def links_twice(net):
    rows = {}
    for link in net.links:
        rows.setdefault(link[:4], []).append(link[4].line)
    said = [f"lines {' and '.join(map(str, lines))}" for lines in rows.values() if len(lines) > 1]
    if not said:
        return []
    return [f"equal rows of the topology are parallel links, each with its own capacity: {shown(said)}"]


def reached_from(net, source):
    heads = {}
    for tail, head, *_ in net.links:
        heads.setdefault(tail, set()).add(head)
    found, waiting = {source}, [source]
    while waiting:
        new = heads.get(waiting.pop(), set()) - found
        found |= new
        waiting += new
    return found


def pairs_without_path(net, series):
    reached = {source: reached_from(net, source) for source in {pair[0] for pair in series.pairs}}
    cut = [pair for pair in series.pairs if pair[1] not in reached[pair[0]]]
    if not cut:
        return []
    said = shown([pair_name(net, pair) for pair in cut])
    return [f"{counted(len(cut), 'declared pair has', 'declared pairs have')} no path: {said}. run counts their demands as lost_no_path, and publish ends with status 7"]


def steps_without_rows(plan, series):
    empty = [str(step) for step, demands in enumerate(series.steps) if not demands]
    if not series.steps:
        return ["the matrix file has no step: the report has totals of 0 alone, and a published file has no pairs"]
    if not empty:
        return []
    first = ". Steps are counted from 0, and step 0 has no row" if empty[0] == "0" else ""
    base = ". A margin's base is step 0, so the certificate speaks of no demand at all" if first and plan.margin else ""
    if plan.envelope:
        base = ". So the least of each demand, from which the envelope goes, is 0"
    return [f"{counted(len(empty), 'step has', 'steps have')} no row and no demand: {shown(empty)}{first}{base}"]


def base_of_margin(series, net):
    """Pairs that have demand in some step, and none in step 0."""
    if not series.steps or not series.steps[0]:
        return []
    outside = [
        pair for pair in series.pairs if not series.demand(0, pair) and any(demands.get(pair) for demands in series.steps)
    ]
    if not outside:
        return []
    said = shown([pair_name(net, pair) for pair in outside])
    return [f"{counted(len(outside), 'pair has', 'pairs have')} no demand in step 0, which is the margin's base, so a published claim is for matrices without theirs: {said}"]


def coarse_units(net, series):
    """Where half of the demands are of few units, and all amounts would fit in a finer one."""
    demands = sorted(demand for step in series.steps for demand in step.values() if demand)
    if not demands or demands[(len(demands) - 1) // 2] >= FINE_DEMAND:
        return []
    median = demands[(len(demands) - 1) // 2]
    greatest = max(demands[-1], *(link[2] for link in net.links))
    factors = [10**power for power in range(1, 10) if greatest * 10**power <= MAX_AMOUNT]
    if not factors:
        return []
    factor = next((it for it in factors if median * it >= FINE_DEMAND), factors[-1])
    return [
        f"the median of the demands above 0 is {median}: a demand is split between paths in whole units, so peak may be far above parts with nothing lost. "
        f"Choose a finer unit: all capacities and demands times {factor} fit the limits"
    ]


def report_warnings(plan, report, outages=()):
    """Steps of a report, if there is one, in which the few paths of smore cost more than twice what any routing must ask.

    Where a link has failed, `adapt` leaves smore fewer paths, and the low of mcf is that of the whole network: such steps are left out.
    """
    rows = [line.split(",") for line in report.decode("ascii").split("\n")[1:-1]]
    cut = {str(step) for first, last, _ in outages for step in range(first, last + 1)} if plan.recovery == "adapt" else ()
    lows = {row[1]: int(row[9]) for row in rows if row[0] == "mcf" and row[9] != "-" and row[1] not in cut}
    found = [(int(row[8]), lows[row[1]], row[1]) for row in rows if row[0] == "smore" and row[1] in lows]
    high = {step: (parts, low) for parts, low, step in found if parts > 2 * low}
    if not high:
        return []
    step = max(high, key=lambda it: high[it][0] / max(high[it][1], 1))
    parts, low = high[step]
    return [
        f"smore asks of its most used link more than twice what any routing must, in {counted(len(high), 'step', 'steps')}: in step {step} its parts is {parts}, "
        f"and the low of mcf {low}. It has at most {plan.budget} paths a pair (the key budget) of those of {plan.trees} trees: raise both"
    ]


def demands_beyond_nodes(net, series):
    """For each direction the step and node whose demands are furthest above the capacity of its links, if any are."""
    found = []
    for end, words in ((0, "leave"), (1, "enter")):
        room = {}
        for link in net.links:
            room[link[end]] = room.get(link[end], 0) + link[2]
        worst = max(overloads(series, end, room), default=None)
        if worst and worst[0] > 1:
            _, step, node, amount = worst
            found.append(
                f"in step {step} the demands that {words} {name(net, node)} are {amount}, and its links there have {room.get(node, 0)}: "
                "no routing delivers them. Are demands and capacities in one unit?"
            )
    return found


def overloads(series, end, room):
    """For each step and node the demand over the room, with the step, the node and the demand."""
    for step, demands in enumerate(series.steps):
        amounts = {}
        for pair, demand in demands.items():
            amounts[pair[end]] = amounts.get(pair[end], 0) + demand
        for node, amount in amounts.items():
            if amount and room.get(node):
                yield amount / room[node], step, node, amount


def cuts_of_one_way(net, outages):
    """Links that fail while none of those that lead back fails in the same steps."""
    down = {(first, last, net.links[link][:2]) for first, last, link in outages}
    lone = []
    for first, last, link in outages:
        tail, head = net.links[link][:2]
        has_back = any(it[:2] == (head, tail) for it in net.links)
        if has_back and (first, last, (head, tail)) not in down:
            lone.append(f"link {link} ({ends(net, link)})")
    if not lone:
        return []
    return [f"{counted(len(lone), 'outage is', 'outages are')} of one direction, and the link back stands: {shown(lone)}. A fibre that is cut is two rows"]
