#!/usr/bin/env python3
"""Brings the names of this repository's own definitions and lemmas to the spelling of the library that it is proved with.

usage: python3 tools/respell.py         at the top of the checkout, once, right after the toolchain's own port.py

Definitions, lemmas, fields, constructors and variables are in snake case, types in upper camel case. Names of functions in
src/, exported names, strings, inputs and outputs are not touched, nor are names that the library has. The script prints each
name that it changes, and writes nothing where two of them would fall together (--dry: it writes nothing in any case).
"""
import os
import re
import sys

TOKEN = re.compile(r"(?<![\w'≢≡≤\-])[A-Za-z_ℕ][\w'≢ℕ]*(?:-[\w'≢ℕ]+)*(?![\w'≢≡≤\-])")
KIT = re.compile(r"^\s*(?:pub )?(?:ghost )?use (?:Rattle\.(?:std|core|alloc|io)\b|mathlib|borrow|native|Prim|lib|denote)[^{]*\{([^}]*)\}", re.M)
# a word of the library that is spelled otherwise now, and two names that would fall together with a function of src/
FIXED = {"get_d_any": "get_or_any", "verbOf": "verb_of_word", "sameAs": "same_word"}


def antt_files():
    for folder, dirs, files in os.walk("crates"):
        dirs[:] = sorted(d for d in dirs if d not in ("out", "target"))
        for f in sorted(files):
            if f.endswith((".antt", ".rt", ".edit")):
                yield os.path.join(folder, f)


def is_definitions(path):
    parts = path.split(os.sep)
    return path.endswith(".antt") and (parts[2] == "specs" or (parts[2] == "proofs" and len(parts) == 4))


def without_comments(text):
    return re.sub(r"--(?=\s|-|$)[^\n]*", "", text)


def snake(word):
    return re.sub(r"(?<=[a-z0-9])([A-Z])", lambda m: "_" + m[1].lower(), word)


def changed(name):
    return "-" in name or re.match(r"[a-z]\w*?[a-z0-9][A-Z]", name)


def respelled(name):
    if name in FIXED:
        return FIXED[name]
    if name[0].isupper():
        return "".join(p[0].upper() + p[1:] for p in name.split("-"))
    return "_".join(snake(p) for p in name.replace("getD", "get_or").split("-"))


def turned(line, table, is_code):
    """The line with the names of the table respelled: not in strings of code, and in a comment only between backticks."""
    mark = re.search(r'//' if is_code else r'(?<!\S)--(?=\s|-|$)', line)
    code, comment = (line[: mark.start()], line[mark.start() :]) if mark else (line, "")
    one = lambda m: table.get(m[0], m[0])  # noqa: E731
    pieces = re.split(r'("(?:[^"\\]|\\.)*")', code) if is_code else [code]
    pieces[::2] = [TOKEN.sub(one, q) for q in pieces[::2]]
    return "".join(pieces) + re.sub(r"`[^`]*`", lambda m: TOKEN.sub(one, m[0]), comment)


def main():
    texts = {p: open(p, encoding="utf-8").read() for p in antt_files()}
    kit, seen, everything = set(), set(), set()
    for p, t in texts.items():
        for m in KIT.finditer(t):
            kit |= {n.strip("◌") for n in re.findall(r"[^\s,]+", m[1])}
        if is_definitions(p):
            names = set(TOKEN.findall(without_comments(t)))
            everything |= names
            seen |= {n for n in names if changed(n)}
    table = {}
    for n in sorted(seen - kit):
        new = respelled(n)
        if new != n:
            table[n] = new
    for n in FIXED:
        if any(n in TOKEN.findall(t) for t in texts.values()):
            table[n] = FIXED[n]
    bad = False
    back = {}
    for n, new in table.items():
        if (new in everything and new not in table) or new in back:
            print(f"falls together: {n} and {back.get(new, new)}")
            bad = True
        back[new] = n
    for n, new in table.items():
        print(f"{n} -> {new}")
    if bad or "--dry" in sys.argv:
        return 1 if bad else 0
    for p, t in texts.items():
        new = "\n".join(turned(line, table, p.endswith(".rt")) for line in t.split("\n"))
        if new != t:
            with open(p, "w", encoding="utf-8") as f:
                f.write(new)
    return 0


if __name__ == "__main__":
    sys.exit(main())
