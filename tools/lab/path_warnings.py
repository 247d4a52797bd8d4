"""Where a pair has more paths than the budget: what is published is then another routing than the one that a run reports."""
import heapq
import json
import os
import tempfile

UNIT, MAX_BUDGET = 1_000_000, 32


def path_warnings(plan, net, series, publish):
    """The warning of a plan whose published scheme has pairs with more paths than the budget.

    `publish` gives the certificate of a plan of this name as text: None where it is not made in time, and an empty one where none is made.
    It is itself None where the program is not to be asked: then only `ecmp` and `valiant` are counted.
    """
    most = {"spf": 1, "ksp": plan.k, "racke": plan.trees, "robust": plan.budget}.get(plan.publish)
    if most is not None and most <= plan.budget or not (plan.publish in plan.schemes or plan.names_publish):
        return []
    if plan.publish == "ecmp":
        counts = ecmp_counts(net, series.pairs, plan.budget)
    elif plan.publish == "valiant":
        counts = valiant_counts(net, series.pairs)
    elif publish is None:
        return []
    else:
        counts = published_counts(plan, publish)
    if counts is None:
        return [f"{plan.publish} may have {most or 'more'} paths for a pair, and publish keeps {plan.budget} (the key budget); how many pairs have more was not found in time"]
    many = [it for it in counts if it > plan.budget]
    if not many:
        return []
    enough = f"a budget of {max(many)} keeps all" if max(many) <= MAX_BUDGET else f"the greatest budget is {MAX_BUDGET}"
    return [
        f"publish keeps the {plan.budget} heaviest paths of a pair (the key budget), and {plan.publish} has more for {len(many)} of {len(series.pairs)} pairs, "
        f"up to {max(many)}: what is published is another routing than the one that run reports; {enough}"
    ]


def published_counts(plan, publish):
    """For each pair the paths that the scheme has, as a certificate shows them that keeps all; None where it is not made in time."""
    members = {"topology": plan.topology, "matrices": plan.matrices, "publish": plan.publish}
    members.update(k=plan.k, trees=plan.trees, seed=plan.seed, budget=MAX_BUDGET)
    with tempfile.TemporaryDirectory() as folder:
        name = os.path.join(folder, "plan.json")
        with open(name, "w", encoding="utf-8") as file:
            json.dump(members, file)
        text = publish(name)
    return None if text is None else counts_in(text)


def counts_in(text):
    """For each pair of a certificate the number of its paths."""
    lines = iter(text.decode("ascii").split("\n"))
    pairs = next((int(it.split(" ")[1]) for it in lines if it.startswith("pairs ")), 0)
    counts = []
    for _ in range(pairs):
        counts.append(int(next(lines).split(" ")[2]))
        for _ in range(counts[-1]):
            next(lines)
    return counts


def costs_to(net, target):
    """For each node that reaches the target the least cost to it."""
    into = {}
    for tail, head, _, cost, _ in net.links:
        into.setdefault(head, []).append((tail, cost))
    found, waiting = {}, [(0, target)]
    while waiting:
        total, node = heapq.heappop(waiting)
        if node not in found:
            found[node] = total
            for tail, cost in into.get(node, []):
                heapq.heappush(waiting, (total + cost, tail))
    return found


def next_links(net, costs):
    """For each node the links of its least-cost paths, each with its head, in the order of their numbers."""
    links = {node: [] for node in costs}
    for number, (tail, head, _, cost, _) in enumerate(net.links):
        if tail in costs and head in costs and costs[tail] == cost + costs[head]:
            links[tail].append((number, head))
    return links


def ecmp_counts(net, pairs, budget):
    """For each pair the paths of `ecmp`; where it has no more least-cost paths than the budget, the number of these."""
    counts = []
    for target in sorted({pair[1] for pair in pairs}):
        costs = costs_to(net, target)
        links, ways = next_links(net, costs), {target: 1}
        for node in sorted(costs, key=costs.get)[1:]:
            ways[node] = sum(ways[head] for _, head in links[node])
        for source in (pair[0] for pair in pairs if pair[1] == target):
            few = ways.get(source, 0) <= budget
            counts.append(ways.get(source, 0) if few else len(paths_of_split(links, costs, source, target)))
    return counts


def paths_of_split(links, costs, source, target):
    """The paths of a million units that are split equally over the next links at each node, each with its units."""
    at, flow = {source: UNIT}, {}
    for node in sorted((it for it in costs if it != target), key=costs.get, reverse=True):
        for place, (number, head) in enumerate(links[node] if at.get(node) else []):
            share, rest = divmod(at[node], len(links[node]))
            flow[number] = share + (place < rest)
            at[head] = at.get(head, 0) + flow[number]
    paths = []
    while any(flow.get(number) for number, _ in links[source]):
        path, node = [], source
        while node != target:
            number, node = next(it for it in links[node] if flow.get(it[0]))
            path.append(number)
        units = min(flow[it] for it in path)
        for number in path:
            flow[number] -= units
        paths.append((units, path))
    return paths


def valiant_counts(net, pairs):
    """For each pair the paths of `valiant`."""
    toward = [first_links(net, target) for target in range(len(net.nodes))]
    counts = []
    for source, target in pairs:
        detours = {detour(toward, source, middle, target) for middle in range(len(net.nodes))}
        counts.append(len(detours - {None}))
    return counts


def first_links(net, target):
    """For each other node that reaches the target the first link of its least path by cost, with the head of that link."""
    links = next_links(net, costs_to(net, target))
    return {node: links[node][0] for node in links if node != target}


def detour(toward, source, middle, target):
    """The links of the least path to the middle node and of the one on from there, without loops; None where one of the two is missing."""
    walk = [(None, source)]
    for end in (middle, target):
        while walk[-1][1] != end:
            link = toward[end].get(walk[-1][1])
            if link is None:
                return None
            nodes = [node for _, node in walk]
            # A node that is met again ends a loop.
            walk = walk[: nodes.index(link[1]) + 1] if link[1] in nodes else [*walk, link]
    return tuple(number for number, _ in walk[1:])
