#!/usr/bin/env python3
"""Tries what rimodaveck.py adds to the C interface: numbers that are no words are refused and not cut down, refusals are raised with
their number, copies are graphs of their own, lists come as nodes, and threads take turns."""
import threading

import rimodaveck
from rimodaveck import Graph, Refused


def raises(kind, call, *args, number=None):
    try:
        call(*args)
    except kind as e:
        return number is None or e.number == number
    return False


# 2^32 would be id 0 if it were cut down to a word
g = Graph(16, 32)
a, b = g.add(1, 0), g.add(1, 5)
for call, *args in ((g.find, 2**32), (g.find, -1), (g.add, 2**32), (g.add, 1, -1), (g.add, 1, 0, [2**32]), (g.union, 0, 2**32),
                    (g.lookup, 1, 2**40), (g.classes_for_op, -1), (g.id_to_node, 2**32), (g.find_best, 2**64), (Graph, 2**33, 0), (Graph, -1, 0)):
    assert raises(ValueError, call, *args), (call, args)
for call, *args in ((g.find, "0"), (g.find, 0.0), (g.find, None), (g.find, True), (g.add, 1, 0, ["0"])):
    assert raises(TypeError, call, *args), (call, args)

# refusals, by number
assert raises(Refused, Graph, 0, 0, number=1) and raises(Refused, Graph, 65_537, 0, number=1)
assert raises(Refused, g.find, 2, number=4) and raises(Refused, g.add, 2, 0, [0, 2], number=4)
assert raises(Refused, g.add, 2, 0, [0] * 9, number=5) and raises(Refused, g.classes, number=7)
assert str(Refused("find", 4)) == "find: no 4: an id that no call has answered"

# document 01's cases A and B
g = Graph(16, 32)
assert [g.add(1), g.add(2), g.add(3, 0, [0]), g.add(3, 0, [1])] == [0, 1, 2, 3]
before = g.copy()
assert g.union(0, 1) is True and g.union(1, 0) is False and g.rebuild() == 1
assert [g.find(i) for i in range(4)] == [0, 0, 2, 2] and g.number_of_classes() == 2 and g.total_number_of_nodes() == 3
assert g.classes() == {0: [(1, 0, ()), (2, 0, ())], 2: [(3, 0, (0,))]} and g.classes_for_op(2) == [0] and g.classes_for_op(9) == []
assert g.nodes() == [(1, 0, ()), (2, 0, ()), (3, 0, (0,)), (3, 0, (1,))] and g.id_to_node(3) == (3, 0, (1,))
assert g.find_best_cost(3) == 2 and g.find_best(3) == (2, [(1, 0, ()), (3, 0, (0,))])
assert g.lookup(3, 0, [1]) == 2 and g.lookup(3, 1, [1]) is None and g.clean() and not g.is_empty()

# the copy is as the graph was, and the graph goes on without it
assert [before.find(i) for i in range(4)] == [0, 1, 2, 3] and before.rebuild() == 0 and before.number_of_classes() == 4
assert g.add(1) == 0 and Graph(1, 0).is_empty()

# threads take turns on one graph
g = Graph(4000, 0)


def add(first):
    for i in range(1000):
        g.add(1, first + i)
        g.find(0)


threads = [threading.Thread(target=add, args=(1000 * k,)) for k in range(4)]
for t in threads:
    t.start()
for t in threads:
    t.join()
assert g.rebuild() == 0 and g.number_of_classes() == 4000 and sorted(p for _, p, _ in g.nodes()) == list(range(4000))
assert raises(Refused, g.add, 2, number=6)
print("the module is as it says")
