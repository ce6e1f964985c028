#!/usr/bin/env python3
"""replay.py [--room N M] [--tight]: answers a script of calls on standard input (oracle/README.md has its grammar) through the C
interface, so that this can be held against kept answers. The words lent are those that N ids and M child places need, 8,192
and 32,768 where none are named.

--tight: asks for each list again in a slice of just its length, which must do, and in one a word shorter, which must be refused
by 8; and looks that a refused call has changed no word of the graph or the list, and a call on const words none of the graph.

Always: the words on both sides of the graph and the list must be as they were at the end. Ends with status 1, and says so on
standard error, where something of this does not hold.
"""
import ctypes
import sys

from rimodaveck import TAKES, TOO_LONG, WORD, lib, words

GUARD, MARK = 64, 0xA5A5A5A5
NODE, LIST = ("add", "add_uncanonical", "lookup"), ("classes", "classes_for_op", "nodes", "id_to_node", "find_best")
WRITERS = ("setup", "add", "add_uncanonical", "union", "rebuild")


class Lent:
    """Words in the midst of others that must stay."""

    def __init__(self, length):
        self.len = length
        self.all = (ctypes.c_uint32 * (length + 2 * GUARD))(*[MARK] * GUARD)
        self.all[GUARD + length:] = [MARK] * GUARD
        self.at = ctypes.cast(ctypes.byref(self.all, 4 * GUARD), ctypes.POINTER(ctypes.c_uint32))

    def kept(self):
        return self.all[:GUARD] == self.all[GUARD + self.len:] == [MARK] * GUARD

    def copy(self):
        return ctypes.string_at(self.at, 4 * self.len)


class Wrong(Exception):
    pass


class Replay:
    def __init__(self, n, m, tight):
        self.ws, self.list, self.tight = Lent(lib.rimo_need(n, m)), Lent(5 * n + m), tight

    def make(self, verb, numbers, list_len):
        """The reply of one call."""
        call = getattr(lib, "rimo_" + verb)
        if verb in NODE:
            kids = words(numbers[2:])
            return call(self.ws.at, self.ws.len, numbers[0], numbers[1], kids, len(kids))
        if verb in LIST:
            return call(self.ws.at, self.ws.len, *numbers, self.list.at, list_len)
        return call(self.ws.at, self.ws.len, *numbers)

    def ask(self, verb, numbers):
        """The reply, and the words of the list that it counts."""
        before = (self.ws.copy(), self.list.copy()) if self.tight else None
        reply = self.make(verb, numbers, self.list.len)
        length = reply.second if verb == "find_best" else reply.first if verb in LIST else 0
        listed = self.list.at[:length]
        if reply.number and (reply.count, reply.first, reply.second) != (0, 0, 0):
            raise Wrong("a refusal has a value")
        if self.tight:
            if (reply.number or verb not in WRITERS) and self.ws.copy() != before[0]:
                raise Wrong("the words of the graph have changed")
            if self.list.copy()[4 * length:] != before[1][4 * length:]:
                raise Wrong("the list has changed past its end")
            if verb in LIST:
                self.ask_tight(verb, numbers, reply, listed)
        return reply, listed

    def ask_tight(self, verb, numbers, reply, listed):
        same = self.make(verb, numbers, len(listed))
        if bytes(same) != bytes(reply) or self.list.at[:len(listed)] != listed:
            raise Wrong("a list of just the length is answered otherwise")
        if not listed:
            return
        for i in range(len(listed)):
            self.list.at[i] = MARK
        short = self.make(verb, numbers, len(listed) - 1)
        if (short.number, short.count) != (TOO_LONG, 0) or self.list.at[:len(listed)] != [MARK] * len(listed):
            raise Wrong("a list that is a word too short is not refused by 8 as it was")

    def answer(self, line):
        """The line that answers; none for what is passed over."""
        if len(line) > 4096:
            return "?"
        line = bare(line)
        if not line or line.startswith(b"#"):
            return None
        verb, *fields = line.decode("latin-1").split(" ")
        if verb not in TAKES or len(fields) > 24 or not all(map(is_number, fields)):
            return "?"
        numbers = [int(f) for f in fields]
        takes = len(TAKES[verb]) - (2 if verb in LIST else 0)
        if len(numbers) < 2 if verb in NODE else len(numbers) != takes:
            return "?"
        return told(verb, *self.ask(verb, numbers))


def bare(line):
    """The line without a byte-order mark at its start and a carriage return at its end."""
    line = line[3:] if line.startswith(b"\xef\xbb\xbf") else line
    return line[:-1] if line.endswith(b"\r") else line


def is_number(field):
    return field.isdigit() and field.isascii() and (field == "0" or field[0] != "0") and int(field) < WORD


def told(verb, reply, listed):
    if reply.number:
        return "no %d" % reply.number
    if verb == "lookup" and not reply.count:
        return "0 none"
    if verb in ("union", "is_empty", "clean"):
        return "0 yes" if reply.first else "0 no"
    values = [reply.first, reply.second][:reply.count] if verb not in LIST else [reply.first] * (verb == "find_best") + listed
    return " ".join(map(str, [0, *values]))


def main(args):
    tight = args[-1:] == ["--tight"]
    args = args[:-1] if tight else args
    if args and (len(args) != 3 or args[0] != "--room" or not all(map(is_number, args[1:]))):
        print("usage: replay.py [--room N M] [--tight] < SCRIPT", file=sys.stderr)
        return 2
    n, m = map(int, args[1:] or (8192, 32768))
    replay, number = Replay(n, m, tight), 0
    try:
        for number, line in enumerate(sys.stdin.buffer, 1):
            said = replay.answer(line[:-1] if line.endswith(b"\n") else line)
            if said is not None:
                print(said)
        if not (replay.ws.kept() and replay.list.kept()):
            raise Wrong("words beside those that were lent have changed")
    except Wrong as wrong:
        print("replay.py: line %d: %s" % (number, wrong), file=sys.stderr)
        return 1
    return 0


if __name__ == "__main__":
    sys.exit(main(sys.argv[1:]))
