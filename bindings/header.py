#!/usr/bin/env python3
"""header.py: holds the declarations of the C interface against each other. The code of crates/capi_c is what counts: each of its
functions must stand in include/rimodaveck.h, in bindings/rust/rimodaveck.rs and in the table of bindings/python/rimodaveck.py, with the
same parameters, and no other may; and the library must have each. The same for the struct of an answer (of crates/capi), the numbers of
the refusals and the limits. Prints what does not agree, and ends with status 1 then.
"""
import ctypes
import glob
import os
import re
import sys

TOP = os.path.dirname(os.path.dirname(os.path.abspath(__file__)))
sys.path.insert(0, os.path.join(TOP, "bindings", "python"))
import rimodaveck  # noqa: E402

faults = []


def read(*names):
    with open(os.path.join(TOP, *names)) as f:
        return f.read()


def same(what, here, there):
    if here != there:
        faults.append("%s\n  here  %s\n  there %s" % (what, here, there))


def squeezed(text):
    return re.sub(r"\s+", " ", text).strip().rstrip(",")


# name of a function: its parameters in order, as (name, type), and its result
code = {}
for name in glob.glob(os.path.join(TOP, "crates", "capi_c", "src", "*.rt")):
    for fn, takes, gives in re.findall(r'pub extern "C" fn (\w+)\(([^)]*)\) -> (\w+)', read(name)):
        code[fn] = [tuple(p.split(": ")) for p in squeezed(takes).split(", ")], gives


def flat(takes, mutable, const, word, size):
    """The parameters as C has them: a slice is a pointer and a length."""
    out = []
    for name, kind in takes:
        if kind.endswith("[u32]"):
            out += [(name, mutable if "mut" in kind else const), ("len" if name == "ws" else name + "_len", size)]
        else:
            out.append((name, {"u32": word, "usize": size}[kind]))
    return out


def c_declaration(fn):
    takes, gives = code[fn]
    inside = ", ".join(kind + ("" if kind.endswith("*") else " ") + name
                       for name, kind in flat(takes, "uint32_t *", "const uint32_t *", "uint32_t", "size_t"))
    return "%s %s(%s)" % ({"Reply": "rimo_reply", "usize": "size_t"}[gives], fn, inside)


def rust_declaration(fn):
    takes, gives = code[fn]
    inside = ", ".join(": ".join(p) for p in flat(takes, "*mut u32", "*const u32", "u32", "usize"))
    return "fn %s(%s) -> %s" % (fn, inside, gives)


header = re.sub(r"/\*.*?\*/", "", read("include", "rimodaveck.h"), flags=re.S)
declared = {re.search(r"(rimo_\w+)\(", d)[1]: squeezed(d) for d in re.findall(r"^[\w ]+ rimo_\w+\([^)]*\)", header, flags=re.M)}
same("functions of the header", sorted(declared), sorted(code))
rust = read("bindings", "rust", "rimodaveck.rs")
in_rust = {re.search(r"(rimo_\w+)\(", d)[1]: squeezed(d) for d in re.findall(r"fn rimo_\w+\([^)]*\) -> \w+", rust)}
same("functions of the Rust module", sorted(in_rust), sorted(code))
same("functions of the Python module", sorted(["rimo_need"] + ["rimo_" + f for f in rimodaveck.TAKES]), sorted(code))

words, word, size = ctypes.POINTER(ctypes.c_uint32), ctypes.c_uint32, ctypes.c_size_t
for fn in sorted(code):
    same("%s in the header" % fn, declared.get(fn), c_declaration(fn))
    same("%s in the Rust module" % fn, in_rust.get(fn), rust_declaration(fn))
    call = getattr(rimodaveck.lib, fn)  # raises where the library has no such function
    same("%s in the Python module" % fn, list(call.argtypes), [kind for _, kind in flat(code[fn][0], words, words, word, size)])
    same("the result of %s in the Python module" % fn, call.restype, {"Reply": rimodaveck.Reply, "usize": size}[code[fn][1]])

# the struct of an answer
lib = read("crates", "capi", "src", "lib.rt")
fields = re.findall(r"pub (\w+): (u\d+)", re.search(r"pub struct Reply \{(.*?)\}", lib, flags=re.S)[1])
same("the struct of the header", re.findall(r"uint(\d+)_t (\w+);", re.search(r"typedef struct rimo_reply \{(.*?)\}", header, flags=re.S)[1]),
     [(kind[1:], name) for name, kind in fields])
same("the struct of the Rust module", re.findall(r"(\w+): (u\d+)", re.search(r"struct Reply \{(.*?)\}", rust, flags=re.S)[1]), fields)
same("the struct of the Python module", rimodaveck.Reply._fields_,
     [(name, {"u32": ctypes.c_uint32, "u64": ctypes.c_uint64}[kind]) for name, kind in fields])

# the numbers of the refusals, and the limits
numbers = {re.sub(r"(?<!^)(?=[A-Z])", "_", name).upper(): int(k)
           for name, k in re.findall(r"(\w+) = (\d+),", re.search(r"pub enum Refusal \{(.*?)\}", read("crates", "egraph", "src", "lib.rt"), flags=re.S)[1])}
same("the refusals of the header", {name: int(k) for name, k in re.findall(r"RIMO_(\w+) = (\d+)", header)}, {"DONE": 0, **numbers})
same("the refusals of the Python module", sorted(rimodaveck.WHY), sorted(numbers.values()))
limits = {name: int(k) for name, k in re.findall(r"#define RIMO_(CHILDREN|IDS|PLACES) (\d+)", header)}
same("RIMO_CHILDREN", limits["CHILDREN"], int(re.search(r"const PLACES: usize = (\d+)", read("crates", "language", "src", "lib.rt"))[1]))
need = rimodaveck.lib.rimo_need
n, m = limits["IDS"], limits["PLACES"]
same("room up to the limits and no further", [need(n, m) > 0, need(n + 1, m), need(n, m + 1), need(0, m)], [True, 0, 0, 0])

print("\n".join(faults) or "%d functions, %d refusals: all agree" % (len(code), len(numbers)))
sys.exit(bool(faults))
