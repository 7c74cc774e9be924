"""Tables of distances to match, the same at each run: points, stars, clusters and graphs. The triangle
inequality holds. A table is a list of rows: for each vertex its distances to those before it."""

import heapq
import math
import random


def rows_of(places, distance):
    """The table of a function of two vertices."""
    return [[distance(a, b) for b in range(a)] for a in range(places)]


def points(chance, places, side):
    return [(chance.randrange(side), chance.randrange(side)) for _ in range(places)]


def larger_axis(chance, places):
    at = points(chance, places, 100_000)
    return rows_of(places, lambda a, b: max(1, abs(at[a][0] - at[b][0]), abs(at[a][1] - at[b][1])))


def straight(chance, places):
    at = points(chance, places, 100_000)
    return rows_of(places, lambda a, b: max(1, math.ceil(math.dist(at[a], at[b]))))


def all_equal(_, places):
    return rows_of(places, lambda a, b: 2)


def star(chance, places):
    arms = [chance.randint(1, 160) for _ in range(places)]
    return rows_of(places, lambda a, b: arms[a] + arms[b])


def random_distances(chance, places):
    return rows_of(places, lambda a, b: chance.randint(1_000, 2_000))


def small_grid(chance, places):
    at = points(chance, places, 2 * math.isqrt(places) + 1)
    return rows_of(places, lambda a, b: max(1, abs(at[a][0] - at[b][0]) + abs(at[a][1] - at[b][1])))


def clusters(chance, places):
    homes = [chance.randrange(1 + places // 5) for _ in range(places)]
    near, far = (3, 5), (40, 43)
    return rows_of(places, lambda a, b: chance.randint(*(near if homes[a] == homes[b] else far)))


def costs_from(graph, start):
    """The least costs from a junction to all."""
    costs, heap = {start: 0}, [(0, start)]
    while heap:
        cost, at = heapq.heappop(heap)
        if cost == costs[at]:
            for to, more in graph[at]:
                if cost + more < costs.get(to, math.inf):
                    costs[to] = cost + more
                    heapq.heappush(heap, (cost + more, to))
    return costs


def graph_rows(edges):
    """The least costs between the odd junctions of a graph, or nothing where it is in parts."""
    graph = {}
    for a, b, cost in edges:
        graph.setdefault(a, []).append((b, cost))
        graph.setdefault(b, []).append((a, cost))
    odd = [at for at in sorted(graph) if len(graph[at]) % 2]
    costs = [costs_from(graph, at) for at in odd]
    if len(costs[0]) < len(graph):
        return None
    return [[costs[a][b] for b in odd[:a]] for a in range(len(odd))]


def cubic(chance, places, least, greatest):
    """A random graph of one piece with three edges a junction."""
    stubs = [at for at in range(places) for _ in range(3)]
    while True:
        chance.shuffle(stubs)
        pairs = list(zip(stubs[0::2], stubs[1::2]))
        if all(a != b for a, b in pairs):
            rows = graph_rows([(a, b, chance.randint(least, greatest)) for a, b in pairs])
            if rows:
                return rows


def equal_cubic(chance, places):
    return cubic(chance, places, 1, 1)


def varied_cubic(chance, places):
    return cubic(chance, places, 50, 59)


def teeth(_, places):
    """A path with a tooth at each junction; at its two ends nothing is odd but the tooth."""
    length = places // 2 + 1
    path = [(i, i + 1, 1) for i in range(length - 1)]
    return graph_rows(path + [(i, length + i, 1) for i in range(length)])


KINDS = {
    "random points": larger_axis,
    "random points, straight, rounded up": straight,
    "all equal": all_equal,
    "star of varied arms": star,
    "random 1,000 to 2,000": random_distances,
    "points of a small grid": small_grid,
    "clusters": clusters,
    "random cubic graph, edges 1": equal_cubic,
    "random cubic graph, edges 50 to 59": varied_cubic,
    "path with teeth": teeth,
}


def table_of(kind, places):
    """The table of a kind with the given number of vertices."""
    return KINDS[kind](random.Random(f"{kind} {places}"), places)
