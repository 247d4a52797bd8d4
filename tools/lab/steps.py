"""A step by a second reading of docs/FORMATS.md: how demands are split over paths, what links are asked and carry, and what becomes of each pair.

A pair's paths are a list of (weight, links), and amounts are whole units of demand.
"""

SHARE_UNIT = 1_000_000


def apportion(total, weights):
    """The total in whole parts by the weights; the units that rounding leaves over go to the largest remainders, the earlier place first."""
    whole = sum(weights)
    parts = [total * weight // whole for weight in weights]
    by_remainder = sorted(range(len(weights)), key=lambda place: -(total * weights[place] % whole))
    for place in by_remainder[:total - sum(parts)]:
        parts[place] += 1
    return parts


class Flow:
    """The units of a path of a pair, and what it lost."""

    def __init__(self, pair, links, units):
        self.pair, self.links, self.units = pair, links, units
        self.lost_full = self.lost_failed = 0


def flows_of(rates, demands):
    """The flows in order of pair and path; `rates` has for each pair, in order, its paths."""
    return [
        Flow(pair, links, units)
        for pair, paths in rates.items() if paths
        for (_, links), units in zip(paths, apportion(demands.get(pair, 0), [weight for weight, _ in paths]))
    ]


def asked_units(rates, demands, links):
    """For each link the units of the flows whose paths hold it."""
    asked = [0] * links
    for flow in flows_of(rates, demands):
        for link in flow.links:
            asked[link] += flow.units
    return asked


def fair_shares(left, arrivals):
    """Max-min fair shares of what is left, and one unit more for the first above the level until nothing is left."""
    if sum(arrivals) <= left:
        return list(arrivals)
    low, high = 0, left
    while low < high:
        middle = (low + high + 1) // 2
        low, high = (middle, high) if sum(min(it, middle) for it in arrivals) <= left else (low, middle - 1)
    spare = left - sum(min(it, low) for it in arrivals)
    shares = []
    for arrival in arrivals:
        more = arrival > low and spare > 0
        spare -= more
        shares.append(min(arrival, low) + more)
    return shares


def serve(flows, capacities, failed):
    """What each link carries; the flows keep what passed their last link, and what they lost."""
    left = list(capacities)
    for hop in range(max((len(flow.links) for flow in flows), default=0)):
        asking = {}
        for flow in flows:
            if hop < len(flow.links):
                asking.setdefault(flow.links[hop], []).append(flow)
        for link, queue in asking.items():
            arrivals = [flow.units for flow in queue]
            shares = [0] * len(queue) if failed[link] else fair_shares(left[link], arrivals)
            left[link] -= sum(shares)
            for flow, share in zip(queue, shares):
                lost, flow.units = flow.units - share, share
                if failed[link]:
                    flow.lost_failed += lost
                else:
                    flow.lost_full += lost
    return [capacity - rest for capacity, rest in zip(capacities, left)]


def simulate(rates, demands, capacities, failed):
    """What each link carries, and for each pair what was offered, delivered, lost on full and on failed links, and lost for want of a path."""
    flows = flows_of(rates, demands)
    carried = serve(flows, capacities, failed)
    results = {pair: [demands.get(pair, 0), 0, 0, 0, 0 if paths else demands.get(pair, 0)] for pair, paths in rates.items()}
    for flow in flows:
        for place, amount in enumerate((flow.units, flow.lost_full, flow.lost_failed), 1):
            results[flow.pair][place] += amount
    return carried, results


def least_costs(net, source):
    """For each node that links lead to from the source the least sum of costs."""
    least, waiting = {}, [(0, source)]
    while waiting:
        cost, node = min(waiting)
        waiting.remove((cost, node))
        if node not in least:
            least[node] = cost
            waiting += [(cost + link[3], link[1]) for link in net.links if link[0] == node and link[1] not in least]
    return least


def mean_cost(net, paths):
    """The sum of weight times cost over the paths."""
    return sum(weight * sum(net.links[link][3] for link in links) for weight, links in paths)


def in_parts(units, capacity):
    """Over a capacity, in millionths, rounded up."""
    return -(-units * SHARE_UNIT // capacity)
