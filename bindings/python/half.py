#!/usr/bin/env python3
"""Two pupils' answers, 0.50 and 0.05, are marked against the key 0.5: examples/half.script, from Python.

The numbers of operators are the author's own: 1 is a digit, its payload says which; 2 is what stands behind the point, its
children the digits; 3 is a decimal number, its children the digit before the point and what stands behind it.

A mark has three outcomes. An answer is right or wrong only where every call that the mark rests on was carried out; where one
was refused, the answer is not marked.
"""
from rimodaveck import Graph, Refused

DIGIT, BEHIND, DECIMAL = 1, 2, 3


def behind(g, digits):
    return g.add(BEHIND, 0, [g.add(DIGIT, d) for d in digits])


def decimal(g, before, digits):
    return g.add(DECIMAL, 0, [g.add(DIGIT, before), behind(g, digits)])


def kept(make, *args):
    """What was made, or the refusal that kept it from being made."""
    try:
        return make(*args)
    except Refused as refused:
        return refused


def state(g):
    """The author states that .50 is .5, and what follows is drawn: how many more pairs that joined."""
    g.union(behind(g, [5]), behind(g, [5, 0]))
    return g.rebuild()


def mark(g, stated, answer, key):
    for made in (stated, key, answer):
        if isinstance(made, Refused):
            return "not marked: no %d" % made.number
    try:
        return "right" if g.find(answer) == g.find(key) else "wrong"
    except Refused as refused:
        return "not marked: no %d" % refused.number


def mark_sheet(n, tell):
    """Marks both answers in a graph with room for n forms and 32 children."""
    g = Graph(n, 32)
    key = kept(decimal, g, 0, [5])
    careful = kept(decimal, g, 0, [5, 0])
    mistaken = kept(decimal, g, 0, [0, 5])
    stated = kept(state, g)
    print("0.50 is", mark(g, stated, careful, key))
    print("0.05 is", mark(g, stated, mistaken, key))
    if tell:
        print("the rebuild joined", stated, "more")
        size, form = g.find_best(careful)
        print("0.50 can be written with", size, "forms:", *(w for op, payload, kids in form for w in (op, payload, len(kids), *kids)))


mark_sheet(16, True)
print("with room for 5 forms only:")
mark_sheet(5, False)
