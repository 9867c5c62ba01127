#!/usr/bin/env python3
"""What examples of the gallery come to, worked out apart from them and from the program.

references.py   compares the output of each of them with its file NAME.out, and its T and W at three sizes with those that it says

A function of the name of an example takes its sizes and its input, and gives what is printed and the memory: a number, or an array from
its first subscript on. It follows the phases of the algorithm on whole arrays, says beside each phase how many statements and processors
it takes, and shows that the result is the one that is meant.
"""
import sys
from itertools import product
from pathlib import Path

sys.path.insert(0, str(Path(__file__).resolve().parent.parent))
from gallery import EXAMPLES, SIZE, cases, costs, foot, programs


class Count:
    """The time and the work of the statements so far."""

    def __init__(self):
        self.time = self.work = 0

    def one(self, statements=1):
        """These were executed by the one processor outside pardo."""
        self.all(1, statements)

    def all(self, processors, statements=1):
        """These were executed by so many."""
        self.time += statements
        self.work += statements * processors

    def turns(self, each, statements=1, passed=0):
        """A loop of processors, which take these numbers of turns: a test, so many statements, and so many that they pass by."""
        each = list(each)
        self.time += max(each, default=0) * (1 + statements + passed) + 1
        self.work += sum(each) * (1 + statements) + len(each)


def array(values, low=1):
    """An array as a table of its cells."""
    return dict(enumerate(values, low))


def log(n):
    return n.bit_length() - 1


def doubling(n, count):
    """Counts the prefix sums of n numbers by doubling."""
    count.one()
    d = 1
    while d < n:
        count.one(2), count.all(n - d), count.one()
        d *= 2
    count.one()


# ---- chapter 2


def nearest_smaller(sizes, values, count):
    n = sizes["n"]
    a, least = array(values), array([0] * n + values + [0], 0)
    count.one(), count.all(n), count.one()
    for k in range(n - 1, 0, -1):
        least[k] = min(least[2 * k], least[2 * k + 1])
    for m in (n >> it for it in range(1, log(n) + 1)):
        lesser = sum(least[2 * k] < least[2 * k + 1] for k in range(m, 2 * m))
        count.one(3), count.all(m), count.all(lesser), count.all(m - lesser)
    count.one()
    left = {i: max((j for j in a if j < i and a[j] < a[i]), default=0) for i in a}
    right = {i: min((j for j in a if j > i and a[j] < a[i]), default=0) for i in a}
    for nearest in (left, right):
        # up to below the node where both ways meet, or to the root, and down from there
        up = {i: (i - 1 ^ j - 1).bit_length() - 1 if j else log(n) for i, j in nearest.items()}
        down = [up[i] for i, j in nearest.items() if j]
        count.one(), count.all(n, 2), count.turns(up.values()), count.all(n)
        count.all(len(down)), count.turns(down, 2, 1), count.all(len(down))
    return [], {"a": a, "least": least, "left": left, "right": right}


# ---- chapter 3


def tree_orders(sizes, values, count):
    n = sizes["n"]
    head, around = array(values[:n]), array(values[n:])
    tour, arc = [], 1
    for _ in range(n):
        tour.append(arc)
        arc = around[arc - 1 + 2 * (arc % 2)]
    # the orders by a walk down the tree
    preorder, postorder, below = {}, {}, {}

    def visit(vertex, behind):
        preorder[vertex] = len(preorder) + 1
        for child in behind[vertex]:
            visit(child, behind)
        postorder[vertex] = len(postorder) + 1
        below[vertex] = 1 + sum(below[it] for it in behind[vertex])

    children, at = {it: [] for it in range(1, n // 2 + 2)}, [1]
    for arc in tour:
        if len(at) > 1 and head[arc] == at[-2]:
            at.pop()
        else:
            children[at[-1]].append(head[arc])
            at.append(head[arc])
    visit(1, children)
    down = [arc for arc in tour if preorder[head[arc]] > preorder[head[arc - 1 + 2 * (arc % 2)]]]
    # the tour, its ranks, who goes down, prefix sums, and the orders
    count.one(), count.all(n, 3), count.all(1), count.all(n), count.one()
    for k in range(log(n)):
        count.one(2), count.all(n), count.all(n - 2**k, 2)
    count.one(), count.all(n, 2), doubling(n, count)
    count.one(4), count.all(n, 2), count.all(n // 2, 5)
    ranks = {arc: n - 1 - at for at, arc in enumerate(tour)}
    downs = [sum(it in down for it in tour[: at + 1]) for at in range(n)]
    memory = {"head": head, "around": around, "next": array([0] * n), "rank": ranks, "downs": array(downs)}
    return [], {**memory, "preorder": preorder, "postorder": postorder, "below": below}


def expression_value(sizes, values, count):
    n = sizes["n"]
    value, times, child = array(values[:n]), array(values[n : 2 * n - 1], n + 1), array(values[2 * n - 1 :], 2 * n + 2)
    parent, side = ({child.get(k): it(k) for k in child} for it in (lambda k: k // 2, lambda k: k % 2))
    parent[n + 1] = side[n + 1] = 0
    a, b = array([1] * (2 * n - 1)), array([0] * (2 * n - 1))

    def meant(node):
        x, y = (value[it] if it <= n else meant(it) for it in values_of(node))
        return x * y if times[node] else x + y

    def values_of(node):
        return values[2 * n - 1 :][2 * node - 2 * n - 2 : 2 * node - 2 * n]

    count.one(), count.all(2 * n - 1), count.one(), count.all(2 * n - 2, 2), count.one()
    d = 1
    while d <= n - 2:
        count.one(2)
        for way in (0, 1):
            leaves = range(d + 1, n, 2 * d)
            raked = [(it, parent[it]) for it in leaves if side[it] == way]
            for leaf, q in raked:
                s, c = child[2 * q + 1 - way], a[leaf] * value[leaf] + b[leaf]
                # q's form of q's operation on the leaf and on the form of its sibling
                a[s], b[s] = (a[s] * c, b[s] * c) if times[q] else (a[s], b[s] + c)
                a[s], b[s] = a[q] * a[s], a[q] * b[s] + b[q]
                parent[s], side[s] = parent[q], side[q]
                child[2 * parent[q] + side[q]] = s
            products = sum(times[q] for _, q in raked)
            count.one(2), count.all(len(leaves), 2), count.all(len(raked), 4)
            count.all(products, 2), count.all(len(raked) - products), count.all(len(raked), 5)
        count.one()
        d *= 2
    count.one(5)
    memory = {"value": value, "times": times, "child": child, "parent": parent, "side": side, "a": a, "b": b}
    return [meant(n + 1)], memory


def list_ranking_coins(sizes, values, count):
    n, after = sizes["n"], array(values)
    before = array([0] * n) | {j: i for i, j in after.items() if j}
    rank = {i: int(j > 0) for i, j in after.items()}
    node, stays, gone, colour = array(range(1, n + 1)), array([0] * n), array([0] * n), array([0] * n)
    count.one(), count.all(n, 2), count.all(n - 1, 2), count.one()
    m, r = n, 0
    while m > 1:
        r += 1
        left = [node[j] for j in range(1, m + 1)]
        colour |= {i: i for i in left}
        count.one(3), count.all(m), count.one()
        for _ in range(log(log(n)) + 1):
            behind = {i: colour[after[i]] if after[i] else 1 - colour[i] % 2 for i in left}
            differ = {i: (colour[i] ^ behind[i]) & -(colour[i] ^ behind[i]) for i in left}
            place = {i: log(it) for i, it in differ.items()}
            colour |= {i: 2 * place[i] + (colour[i] // differ[i]) % 2 for i in left}
            count.one(2), count.all(m, 3), count.all(m - 1), count.all(1), count.turns(place.values(), 3), count.all(m)
        # the last node stays, and of the others those go whose colour is less than that of their neighbours
        colour |= {i: n for i in left if not after[i]}
        out = [i for i in left if all(colour[i] < colour[it] for it in (after[i], before[i]) if it) and after[i]]
        inner = [i for i in out if before[i]]
        count.one(), count.all(m, 2), count.all(1), count.all(m), count.all(m - 1), count.all(m), count.all(m - 1), count.all(m, 2)
        count.all(len(out), 3), count.all(len(inner), 2)
        for i in out:
            gone[i] = r
            before[after[i]] = before[i]
        for i in inner:
            after[before[i]] = after[i]
            rank[before[i]] += rank[i]
        stays |= array([sum(it not in out for it in left[:j]) for j in range(1, m + 1)])
        node |= array([it for it in left if it not in out])
        doubling(m, count), count.one(), count.all(m, 2), count.all(m - len(out)), count.one()
        m -= len(out)
    count.one()
    for back in range(r, 0, -1):
        count.one(2), count.all(n), count.all(sum(it == back for it in gone.values())), count.one()
    count.one()
    # how many follow, by walking
    followers = {}
    at = next(i for i in after if i not in values)
    for rest in range(n - 1, -1, -1):
        followers[at], at = rest, values[at - 1]
    memory = {"next": after, "prev": before, "rank": followers, "colour": colour, "gone": gone}
    return [], {**memory, "node": node, "stays": stays}


# ---- chapter 4


def optimal_merge(sizes, values, count):
    n = sizes["n"]
    a, b, k = values[:n], values[n:], log(sizes["n"])
    # where each entry comes in the whole, those of a first, and behind which the sequences are cut
    order = sorted([(it, 0, at) for at, it in enumerate(a, 1)] + [(it, 1, at) for at, it in enumerate(b, 1)])
    cuts = [(0, 0)]
    for place, (_, whose, at) in enumerate(order, 1):
        if at % k == 0:
            cuts.append((at, place - at) if whose == 0 else (place - at, at))
    cuts.append((n, n))
    for mine, other, less in ((a, b, lambda x, y: y < x), (b, a, lambda x, y: y <= x)):
        ranks = [sum(less(x, y) for y in other) for x in mine[k - 1 :: k]]
        count.one(), count.all(n // k, 2), count.turns([halvings(n, it) for it in ranks], 3, 1), count.all(n // k, 2)
    count.one(2)
    parts = list(zip(cuts, cuts[1:]))
    count.one(), count.all(len(parts), 2), count.turns([sum(end) - sum(start) for start, end in parts], 5, 3)
    # until one of both parts of a processor is at its end, it compares
    for start, end in parts:
        while start[0] < end[0] and start[1] < end[1]:
            count.work += 1
            start = (start[0] + 1, start[1]) if a[start[0]] <= b[start[1]] else (start[0], start[1] + 1)
    memory = {"a": array(a), "b": array(b), "c": array(sorted(values))}
    return [], {**memory, "cuta": array([it for it, _ in cuts], 0), "cutb": array([it for _, it in cuts], 0)}


def halvings(n, answer):
    """The turns of a binary search for one of the numbers from 0 to n, in which the upper middle is tried."""
    low, high, turns = 0, n, 0
    while low < high:
        middle = (low + high + 1) // 2
        low, high, turns = (middle, high, turns + 1) if middle <= answer else (low, middle - 1, turns + 1)
    return turns


def radix_sort(sizes, values, count):
    n, b = sizes["n"], sizes["b"]
    a, zeros = values[:], [0] * n
    count.one(2)
    for bit in range(b):
        zero = [1 - it // 2**bit % 2 for it in a]
        zeros = [sum(zero[: it + 1]) for it in range(n)]
        a = [it for it in a if it // 2**bit % 2 == 0] + [it for it in a if it // 2**bit % 2]
        # the bits, their prefix sums, and the move of each number
        count.one(2), count.all(n), doubling(n, count), count.one()
        count.one(), count.all(n, 2), count.all(sum(zero)), count.all(n - sum(zero)), count.all(n), count.one()
    assert a == sorted(values)
    return [], {"a": array(a), "zeros": array(zeros)}


def parallel_search(sizes, values, count):
    n, p = sizes["n"], sizes["p"]
    y, x = values[0], array(values[1:])
    less, low, high = array([1] + [0] * (p + 1), 0), 0, n + 1
    count.one(4)
    while high - low > 1:
        k = min(p, high - low - 1)
        places = [low + j * (high - low) // (k + 1) for j in range(k + 2)]
        smaller = [1, *(int(x[it] < y) for it in places[1:-1]), 0]
        less.update(enumerate(smaller))
        part = smaller.index(0) - 1
        # how many there are to compare with, the bounds, the comparisons, and who is at the end of the part that is left
        count.one(3 + (high - low - 1 > p) + 3)
        count.one(), count.all(k, 3), count.all(part > 0), count.all(k), count.all(part < k), count.one(2)
        low, high = places[part], places[part + 1]
    count.one(2)
    assert high == 1 + sum(it < y for it in x.values())
    return [high], {"y": y, "x": x, "less": less, "low": low, "high": high}


# ---- chapter 5


def shortest_paths(sizes, values, count):
    n = sizes["n"]
    d, way = values[:], []
    count.one()
    for _ in range(log(n)):
        way = [d[n * i + k] + d[n * k + j] for i, j, k in product(range(n), repeat=3)]
        count.one(2), count.all(n**3), count.one()
        for m in (n >> it for it in range(1, log(n) + 1)):
            less = [at for at in range(n**3) if at % n < m and way[at + m] < way[at]]
            for at in less:
                way[at] = way[at + m]
            count.one(3), count.all(n * n * m, 2), count.all(len(less))
        d = way[::n]
        count.one(2), count.all(n * n)
    best = values[:]
    for k, i, j in product(range(n), repeat=3):
        best[n * i + j] = min(best[n * i + j], best[n * i + k] + best[n * k + j])
    assert d == best
    return [], {"d": array(d, 0), "way": array(way, 0)}


def components(n, edges):
    """The least vertex that each one is connected with."""
    label = {i: i for i in range(1, n + 1)}
    for _ in range(n):
        for i, j in edges:
            label[i] = label[j] = min(label[i], label[j])
    return label


def hooking(sizes, values, count):
    n, m = sizes["n"], sizes["m"]
    u, v = values[:m], values[m:]
    ways = list(zip(u + v, v + u))
    parent, hooked = array(range(1, n + 1)), array([0] * n)
    count.one(), count.all(m, 4), count.one(), count.all(n), count.one()
    r, goes_on = 0, True
    while goes_on:
        r += 1
        deep = [i for i in parent if parent[i] != parent[parent[i]]]
        no_stars = {*deep, *(parent[parent[i]] for i in deep)}
        star = {i: i not in no_stars and parent[i] not in no_stars for i in parent}
        count.one(4), count.all(n, 2), count.all(len(deep), 2), count.all(n), count.all(sum(parent[i] in no_stars for i in parent))
        # of several that hook one star, or one root, the first succeeds
        ends = [(i, parent[i], parent[j]) for i, j in ways]
        first = [(x, y) for i, x, y in ends if star[i] and y < x]
        parent |= dict(reversed(first))
        hooked |= {parent[x]: r for x, _ in first}
        count.one(), count.all(2 * m, 3), count.all(len(first), 3)
        ends = [(i, parent[i], parent[j]) for i, j in ways]
        second = [(x, y) for i, x, y in ends if star[i] and parent[x] == x and hooked[x] != r and x != y]
        parent |= dict(reversed(second))
        count.one(), count.all(2 * m, 3), count.all(len(second), 2)
        deep = [i for i in parent if parent[i] != parent[parent[i]]]
        parent = {i: parent[parent[i]] for i in parent}
        count.one(), count.all(n), count.all(len(deep), 2)
        goes_on = bool(first or second or deep)
    count.one(2), count.all(n, 2)
    memory = {"u": array(u), "v": array(v), "from": array(u + v), "into": array(v + u), "parent": parent}
    stars = {"star": array([1] * n), "hooked": hooked, "label": components(n, list(zip(u, v))), "goes_on": 0}
    return [], {**memory, **stars}


def spanning_forest(sizes, values, count):
    n, m = sizes["n"], sizes["m"]
    u, v, weight = (array(values[at : at + m]) for at in (0, m, 2 * m))
    edge = {w: e for e, w in weight.items()}
    # by Kruskal's algorithm: the lightest edge that joins two components, again and again
    forest = []
    for w in sorted(edge):
        label = components(n, [(u[e], v[e]) for e in forest])
        if label[u[edge[w]]] != label[v[edge[w]]]:
            forest.append(edge[w])
    count.one(), count.all(m), count.one(), count.all(n), count.one()
    label, best, root = array(range(1, n + 1)), {}, {}
    for _ in range(log(n)):
        ends = [(w, label[u[edge[w]]], label[v[edge[w]]]) for w in sorted(edge)]
        ends = [it for it in ends if it[1] != it[2]]
        ones = {x: w for w, x, _ in reversed(ends)}
        lighter = [it for it in ends if it[0] < ones.get(it[2], m + 1)]
        best = {x: w for w, *both in reversed(ends) for x in both}
        links = {x: label[u[edge[w]]] + label[v[edge[w]]] - x for x, w in best.items()}
        roots = [x for x in links if links[links[x]] == x and x < links[x]]
        root = array(range(1, n + 1)) | links | {x: x for x in roots}
        count.one(2), count.all(n, 2), count.one(), count.all(m, 3), count.all(len(ends), 2), count.all(len(lighter))
        count.one(), count.all(n), count.all(len(links), 3), count.one(), count.all(n), count.all(len(roots)), count.one()
        for _ in range(log(n)):
            root = {i: root[root[i]] for i in root}
            count.one(2), count.all(n)
        label = {i: root[x] for i, x in label.items()}
        count.one(), count.all(n)
    memory = {"u": u, "v": v, "weight": weight, "taken": {e: int(e in forest) for e in u}, "edge": edge}
    return [], {**memory, "label": label, "best": array([0] * n) | best, "root": root}


# ---- chapter 7


def string_duels(sizes, values, count):
    n, m = sizes["n"], sizes["m"]
    text, pattern, half = values[:n], values[n:], m // 2
    differ = {d: [w for w in range(m - d) if pattern[w] != pattern[w + d]] for d in range(1, half)}
    witness = {d: it[0] for d, it in differ.items()}
    count.one(), count.all(m * (half - 1), 3), count.all(sum(m - d for d in differ)), count.all(sum(map(len, differ.values())))
    left = [it if it <= n - m else -1 for it in range(n)]
    count.one(), count.all(n, 2), count.all(m - 1), count.one()
    for s in (2**it for it in range(log(half))):
        pairs = [at for at in range(0, n, 2 * s) if left[at + s] >= 0]
        wins = [at for at in pairs if text[left[at + s] + (w := witness[left[at + s] - left[at]])] == pattern[w]]
        for at in wins:
            left[at] = left[at + s]
        count.one(2), count.all(n // (2 * s), 3), count.all(len(pairs), 2), count.all(len(wins)), count.one()
    count.one()
    tried = [it for it in left[::half] if it >= 0]
    count.one(), count.all(n // half, 2), count.all(len(tried))
    wrong = sum(text[at + k] != pattern[k] for at in tried for k in range(m))
    count.one(), count.all(2 * n, 2), count.all(len(tried) * m), count.all(wrong)
    found = [int(text[at : at + m] == pattern) for at in range(n)]
    memory = {"text": array(text, 0), "pattern": array(pattern, 0), "witness": witness, "left": array(left, 0)}
    return [], {**memory, "found": array(found, 0)}


# ---- chapter 8


def number_transform(sizes, values, count):
    n, (p, w, *a) = sizes["n"], values
    assert pow(w, n, p) == 1 and pow(w, n // 2, p) == p - 1
    # the powers of w by doubling, and log n rounds of butterflies
    count.one(4)
    for k in range(log(n) - 1):
        count.one(2), count.all(2**k), count.one(2)
    count.one(2)
    for _ in range(log(n)):
        count.one(2), count.all(n // 2, 5), count.one()
    count.one()
    transform = [sum(it * pow(w, j * k, p) for j, it in enumerate(a)) % p for k in range(n)]
    return [], {"p": p, "w": w, "a": array(transform, 0), "power": array([pow(w, it, p) for it in range(n // 2)], 0)}


# ---- the comparison


def read(file):
    return [int(it) for it in file.read_text().split()]


def shown(name, cells):
    """A line of memory as the program writes it."""
    if isinstance(cells, int):
        return f"{name} = {cells}"
    return f"{name}[{min(cells)}..{max(cells)}] = " + " ".join(str(cells[it]) for it in sorted(cells))


def expected(name, sizes, values):
    """What an example writes for these sizes and this input, its time and its work."""
    count = Count()
    printed, memory = globals()[name](sizes, values, count)
    lines = [*map(str, printed), "ended", *(shown(*it) for it in memory.items())]
    return "".join(f"{it}\n" for it in lines), count.time, count.work


def referenced():
    """The examples that have a reference, with their texts."""
    return [(name, text) for name, text in programs() if foot(text) and callable(globals().get(name))]


def wrong(name, text):
    """Where an example says something else than its reference."""
    own = {letter: int(number) for letter, number in SIZE.findall(text)}
    written, _, _ = expected(name, own, read(EXAMPLES / f"{name}.in"))
    if written != (EXAMPLES / f"{name}.out").read_text():
        yield f"examples/{name}.out: not\n{written}"
    for at, (sizes, values) in enumerate(cases(name, text)):
        _, *counted = expected(name, sizes, read(values))
        if counted != [costs(text, it)[at] for it in "TW"]:
            yield f"examples/{name}.pram: T and W are {counted} for {sizes}"


def main():
    found = [list(wrong(*it)) for it in referenced()]
    for it in sum(found, []):
        print(it)
    print(f"references: {found.count([])} of {len(found)} examples are as they say")
    sys.exit(1 if any(found) else 0)


if __name__ == "__main__":
    main()
