"""The proved e-graph for Python, through ctypes: include/rimodaveck.h behind one class.

The library is looked for where the environment's RIMODAVECK says, else beside this file, else where bindings/build leaves it.
"""
import ctypes
import os
import threading


class Reply(ctypes.Structure):
    """What a call answers: a number, 0 for done; how many values go with it; the values."""
    _fields_ = [("number", ctypes.c_uint32), ("count", ctypes.c_uint32), ("first", ctypes.c_uint64), ("second", ctypes.c_uint64)]


WHY = {1: "a limit is out of range", 2: "too few words", 3: "no graph is here", 4: "an id that no call has answered",
       5: "too many children", 6: "no room is left", 7: "the graph is not rebuilt", 8: "the list is too short",
       9: "words that no calls could have left"}
TOO_LONG = 8
WORD = 2**32  # one more than the largest word


class Refused(Exception):
    """A call was refused; `number` says why, by include/rimodaveck.h."""

    def __init__(self, call, number):
        super().__init__("%s: no %d: %s" % (call, number, WHY.get(number, "another reason")))
        self.number = number


def _found():
    here = os.path.dirname(os.path.abspath(__file__))
    places = [os.environ.get("RIMODAVECK"), os.path.join(here, "librimodaveck.so"),
              os.path.join(here, "..", "..", "target", "lib", "librimodaveck.so")]
    for place in filter(None, places):
        if os.path.exists(place):
            return os.path.abspath(place)
    raise OSError("no librimodaveck.so at %s: bindings/build makes it" % " or ".join(filter(None, places)))


_size, _word, _words = ctypes.c_size_t, ctypes.c_uint32, ctypes.POINTER(ctypes.c_uint32)
_node, _list = [_word, _word, _words, _size], [_words, _size]
# what each call takes behind the graph's words and their number
TAKES = {
    "setup": [_size, _size], "add": _node, "add_uncanonical": _node, "union": [_word, _word], "rebuild": [],
    "lookup": _node, "find": [_word], "is_empty": [], "clean": [], "number_of_classes": [], "total_number_of_nodes": [],
    "classes": _list, "classes_for_op": [_word] + _list, "nodes": _list, "id_to_node": [_word] + _list,
    "find_best_cost": [_word], "find_best": [_word] + _list,
}

lib = ctypes.CDLL(_found())
lib.rimo_need.restype, lib.rimo_need.argtypes = _size, [_size, _size]
for _name, _takes in TAKES.items():
    _call = getattr(lib, "rimo_" + _name)
    _call.restype, _call.argtypes = Reply, [_words, _size] + _takes


def words(values):
    """Numbers as words for a call. One that is no word is refused here: ctypes would cut it down to another number."""
    values = [word(v) for v in values]
    return (ctypes.c_uint32 * len(values))(*values)


def word(value):
    if isinstance(value, bool) or not isinstance(value, int):
        raise TypeError("%r is no whole number" % (value,))
    if not 0 <= value < WORD:
        raise ValueError("%d is not from 0 to 2^32 - 1" % value)
    return value


def nodes_of(listed):
    """The words of nodes one after the other, as (operator, payload, children)."""
    at, out = 0, []
    while at < len(listed):
        end = at + 3 + listed[at + 2]
        out.append((listed[at], listed[at + 1], tuple(listed[at + 3:end])))
        at = end
    return out


class Graph:
    """A graph with room for n ids and m child places in all. A refused call raises Refused and leaves the graph as it was.

    Ids stay for good; the root of an id may change with each union and rebuild. One call at a time runs on a graph, whatever
    thread it comes from."""

    def __init__(self, n, m):
        self.n, self.m = word(n), word(m)
        self.len = lib.rimo_need(n, m)
        self.ws = (ctypes.c_uint32 * self.len)()
        self.lock = threading.Lock()
        self._call("setup", n, m)

    def copy(self):
        """Another graph that is as this one is: its words are all there is."""
        other = object.__new__(Graph)
        other.n, other.m, other.len, other.lock = self.n, self.m, self.len, threading.Lock()
        with self.lock:
            other.ws = type(self.ws).from_buffer_copy(self.ws)
        return other

    def _call(self, name, *args):
        with self.lock:
            reply = getattr(lib, "rimo_" + name)(self.ws, self.len, *args)
        if reply.number:
            raise Refused(name, reply.number)
        return reply

    def _node(self, name, op, payload, kids):
        kids = words(kids)
        return self._call(name, word(op), word(payload), kids, len(kids))

    def _listed(self, name, *args, length="first"):
        """The reply, and the words of the list. Any list or form of the graph fits 5n + m words."""
        out = (ctypes.c_uint32 * (5 * self.n + self.m))()
        reply = self._call(name, *args, out, len(out))
        return reply, out[:getattr(reply, length)]

    def add(self, op, payload=0, kids=()):
        """Adds a node and answers the root of its class."""
        return self._node("add", op, payload, kids).first

    def add_uncanonical(self, op, payload=0, kids=()):
        """Adds a node and answers the id that it has, which need not be a root."""
        return self._node("add_uncanonical", op, payload, kids).first

    def union(self, id1, id2):
        """States that two ids are equal; whether that joined two classes."""
        return self._call("union", word(id1), word(id2)).first == 1

    def rebuild(self):
        """Draws what follows from the unions; how many more pairs of classes that joined."""
        return self._call("rebuild").first

    def lookup(self, op, payload=0, kids=()):
        """The root of the class of a node that is there, or None."""
        reply = self._node("lookup", op, payload, kids)
        return reply.first if reply.count else None

    def find(self, id):
        """The root of the id's class."""
        return self._call("find", word(id)).first

    def is_empty(self):
        return self._call("is_empty").first == 1

    def clean(self):
        """Whether a rebuild has ended and no node or union has come since."""
        return self._call("clean").first == 1

    def number_of_classes(self):
        return self._call("number_of_classes").first

    def total_number_of_nodes(self):
        return self._call("total_number_of_nodes").first

    def classes(self):
        """By root: the nodes of its class, as (operator, payload, roots of children)."""
        listed, at, out = self._listed("classes")[1], 0, {}
        while at < len(listed):
            root, count, end = listed[at], listed[at + 1], at + 2
            for _ in range(count):
                end += 3 + listed[end + 2]
            out[root] = nodes_of(listed[at + 2:end])
            at = end
        return out

    def classes_for_op(self, op):
        """The roots of the classes that have a node with this operator."""
        return self._listed("classes_for_op", word(op))[1]

    def nodes(self):
        """The nodes as they were given, in the order of their ids."""
        return nodes_of(self._listed("nodes")[1])

    def id_to_node(self, id):
        """The node of one id as it was given."""
        return nodes_of(self._listed("id_to_node", word(id))[1])[0]

    def find_best_cost(self, id):
        """The least number of nodes of any form in the id's class."""
        return self._call("find_best_cost", word(id)).first

    def find_best(self, id):
        """The same, and the nodes of a form of that size: children first, as places in this list; the form's own node last."""
        reply, listed = self._listed("find_best", word(id), length="second")
        return reply.first, nodes_of(listed)
