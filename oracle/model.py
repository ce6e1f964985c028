#!/usr/bin/env python3
"""model.py [N M]: a second reading of document 01, to hold the oracle against: the same script on standard input, the same
answers. The words lent are those that N ids and M child places need, 8,192 and 32,768 where none are named.

Written from the page's words alone, with plain lists; nothing here is taken from egg. Slow and short on purpose.
"""
import sys

TOP = 2**64 - 1
MARK = b"\xef\xbb\xbf"  # the byte-order mark
COUNTS = {"setup": (2, 2), "union": (2, 2), "add": (2, 24), "add_uncanonical": (2, 24), "lookup": (2, 24)}
COUNTS.update((v, (1, 1)) for v in ("find", "classes_for_op", "id_to_node", "find_best_cost", "find_best"))
COUNTS.update((v, (0, 0)) for v in ("rebuild", "classes", "nodes", "is_empty", "clean", "number_of_classes"))
COUNTS["total_number_of_nodes"] = (0, 0)


class Refused(Exception):
    pass


def need(n, m):
    return 32 + 28 * n + 4 * m


LENT = need(8_192, 32_768)


class Graph:
    def __init__(self, n, m):
        if not 1 <= n <= 65_536 or not 0 <= m <= 262_144:
            raise Refused(1)
        if need(n, m) > LENT:
            raise Refused(2)
        self.n, self.m, self.places = n, m, 0
        self.stored = []  # the nodes as given: (operator, payload, children)
        self.root = []  # of each id
        self.parents = {}  # by root
        self.table = {}
        self.pending = []
        self.is_clean = False

    def known(self, *ids):
        if any(i >= len(self.stored) for i in ids):
            raise Refused(4)

    def must_be_clean(self):
        if not self.is_clean:
            raise Refused(7)

    def node(self, op, payload, kids):
        if len(kids) > 8:
            raise Refused(5)
        self.known(*kids)
        return op, payload, tuple(kids)

    def key(self, node):
        return node[0], node[1], tuple(self.root[k] for k in node[2])

    def lookup(self, *node):
        kept = self.table.get(self.key(self.node(node[0], node[1], node[2:])))
        return "none" if kept is None else self.root[kept]

    def add_uncanonical(self, *node):
        node = self.node(node[0], node[1], node[2:])
        key = self.key(node)
        if key in self.table:
            return self.table[key]
        if len(self.stored) == self.n or self.places + len(node[2]) > self.m:
            raise Refused(6)
        self.places += len(node[2])
        new = len(self.stored)
        self.stored.append(node)
        self.root.append(new)
        self.parents[new] = []
        for kid in node[2]:
            self.parents[self.root[kid]].append(new)
        self.pending.append(new)
        self.table[key] = new
        self.is_clean = False
        return new

    def add(self, *node):
        return self.root[self.add_uncanonical(*node)]

    def find(self, i):
        self.known(i)
        return self.root[i]

    def union(self, a, b):
        self.known(a, b)
        self.is_clean = False
        stay, lose = self.root[a], self.root[b]
        if stay == lose:
            return False
        if len(self.parents[stay]) < len(self.parents[lose]):
            stay, lose = lose, stay
        self.pending += self.parents[lose]
        self.parents[stay] += self.parents.pop(lose)
        self.root = [stay if r == lose else r for r in self.root]
        return True

    def rebuild(self):
        count = 0
        while self.pending:
            taken = self.pending.pop()
            key = self.key(self.stored[taken])
            before = self.table.get(key)
            self.table[key] = taken
            if before is not None and self.union(before, taken):
                count += 1
        self.is_clean = True
        return count

    def roots(self):
        return sorted(set(self.root))

    def all_classes(self):
        self.must_be_clean()
        classes = {r: set() for r in self.roots()}
        for root, node in zip(self.root, self.stored):
            classes[root].add(self.key(node))
        return {r: sorted(xs, key=lambda x: (x[0], x[1], len(x[2]), x[2])) for r, xs in classes.items()}

    def classes(self):
        return [w for r, xs in self.all_classes().items() for w in [r, len(xs)] + written(xs)]

    def classes_for_op(self, op):
        return [r for r, xs in self.all_classes().items() if any(x[0] == op for x in xs)]

    def total_number_of_nodes(self):
        return sum(len(xs) for xs in self.all_classes().values())

    def nodes(self):
        return written(self.stored)

    def id_to_node(self, i):
        self.known(i)
        return written([self.stored[i]])

    def is_empty(self):
        return not self.stored

    def clean(self):
        return self.is_clean

    def number_of_classes(self):
        return len(self.roots())

    def prices(self, i):
        self.known(i)
        classes = self.all_classes()
        best = {}  # by root: price, node
        changed = True
        while changed:
            changed = False
            for root, nodes in classes.items():
                proposed = None
                for node in nodes:
                    if all(kid in best for kid in node[2]):
                        price = min(TOP, 1 + sum(best[kid][0] for kid in node[2]))
                        if proposed is None or price < proposed[0]:
                            proposed = price, node
                if proposed and (root not in best or proposed[0] < best[root][0]):
                    best[root] = proposed
                    changed = True
        return best

    def find_best_cost(self, i):
        return self.prices(i)[self.root[i]][0]

    def find_best(self, i):
        best, place, form = self.prices(i), {}, []

        def visit(root):
            if root not in place:
                op, payload, kids = best[root][1]
                for kid in kids:
                    visit(kid)
                place[root] = len(form)
                form.append((op, payload, tuple(place[kid] for kid in kids)))

        visit(self.root[i])
        return [best[self.root[i]][0]] + written(form)


def written(nodes):
    return [w for op, payload, kids in nodes for w in (op, payload, len(kids), *kids)]


def number(field):
    if not field.isdigit() or not field.isascii() or (field[0:1] == b"0" and len(field) > 1) or int(field) >= 2**32:
        raise ValueError
    return int(field)


def bare(line):
    """The line without a byte-order mark at its start and a carriage return at its end."""
    return line.removeprefix(MARK).removesuffix(b"\r")


def answer(state, line):
    """The line that answers; none for what is passed over. state holds the graph, or nothing."""
    if len(line) > 4096:
        return "?"
    line = bare(line)
    if not line or line[0:1] == b"#":
        return None
    try:
        verb, *fields = line.split(b" ")
        verb, numbers = verb.decode("ascii"), [number(f) for f in fields]
        least, most = COUNTS[verb]
        if not least <= len(numbers) <= most:
            return "?"
    except (ValueError, KeyError):
        return "?"
    try:
        if verb == "setup":
            state[:] = [Graph(*numbers)]
            return "0"
        if not state:
            raise Refused(3)
        got = getattr(state[0], verb)(*numbers)
    except Refused as r:
        return f"no {r}"
    if isinstance(got, bool):
        got = "yes" if got else "no"
    return " ".join(["0"] + [str(w) for w in (got if isinstance(got, list) else [got])])


def main():
    global LENT
    if len(sys.argv) not in (1, 3) or not all(a.isdecimal() for a in sys.argv[1:]):
        print("usage: model.py [N M], with N and M numbers", file=sys.stderr)
        sys.exit(2)
    if len(sys.argv) == 3:
        LENT = need(int(sys.argv[1]), int(sys.argv[2]))
    sys.setrecursionlimit(100_000)
    state = []
    lines = sys.stdin.buffer.read().split(b"\n")
    for line in lines:
        told = answer(state, line)
        if told is not None:
            print(told)


if __name__ == "__main__":
    main()
