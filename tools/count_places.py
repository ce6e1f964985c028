#!/usr/bin/env python3
"""Counts, at a commit, the places that docs/DESIGN-PASS.md speaks of.

    python3 tools/count_places.py COMMIT [POINT]

With no POINT each of the eight is one line; with one, its places are listed. COMMIT may be `.` for the files as they lie here. It reads
crates/*/src and, for point 8, crates/*/proofs, and knows the source by its layout alone, which `rt fmt` settles.
"""
import collections
import glob
import re
import subprocess
import sys


def files(commit, folder):
    if commit == '.':
        names = sorted(n for n in glob.glob('crates/*/%s/**' % folder, recursive=True) if re.search(r'\.(rt|antt)$', n))
        return [(n, open(n).read()) for n in names]
    listed = subprocess.run(['git', 'ls-tree', '-r', '--name-only', commit, 'crates'], capture_output=True, text=True, check=True)
    names = [n for n in listed.stdout.split('\n') if re.match(r'crates/[^/]*/%s/.*\.(rt|antt)$' % folder, n)]
    asked = ''.join('%s:%s\n' % (commit, n) for n in names).encode()
    shown = subprocess.run(['git', 'cat-file', '--batch'], input=asked, capture_output=True, check=True).stdout
    out, at = [], 0
    for n in names:
        end = shown.index(b'\n', at)
        size = int(shown[at:end].split()[2])
        out.append((n, shown[end + 1:end + 1 + size].decode()))
        at = end + 2 + size
    return out


def lines(text):
    return [(k + 1, l) for k, l in enumerate(text.split('\n')) if not l.strip().startswith('//')]


def matching(sources, pattern):
    return ['%s:%d: %s' % (n, k, l.strip()) for n, t in sources for k, l in lines(t) if re.search(pattern, l)]


def functions(text):
    """Name, parameters, clauses and body of each function of a file."""
    out, rows, k = [], text.split('\n'), 0
    while k < len(rows):
        m = re.match(r'( *)(pub(\([a-z]+\))? )?(const )?(ghost )?(extern "C" )?fn (\w+)', rows[k])
        if not m:
            k += 1
            continue
        indent, start, opened = m.group(1), k, rows[k].endswith('{')
        while not (rows[k] == indent + '}' or rows[k].endswith(';') and not opened or k == start and opened and rows[k].endswith('}')):
            k += 1
            opened = opened or rows[k] == indent + '{' or rows[k].startswith(indent + ')') and rows[k].endswith('{')
        block = [r for r in rows[start:k + 1] if not r.strip().startswith('//')]
        end = next((i for i, r in enumerate(block) if re.search(r'\)( -> .*)?( \{|;)?$', r)), 0)
        head = re.sub(r'\s+', ' ', ' '.join(block[:end + 1])).replace('( ', '(').replace(', )', ')')
        body = end + 1 if block[end].endswith('{') else next((i + 1 for i, r in enumerate(block) if r == indent + '{'), len(block))
        clauses = [r.strip() for r in block[end + 1:body] if re.match(r' *(requires|ensures) ', r)]
        out.append((m.group(7), start + 1, head, clauses, block[body:-1]))
        k += 1
    return out


def skeleton(body):
    """The body with each name and number replaced by its turn of first appearance."""
    seen = {}
    keep = {'let', 'mut', 'if', 'else', 'while', 'for', 'in', 'match', 'return', 'true', 'false', 'as', 'move', 'ghost'}
    text = '\n'.join(r.strip() for r in body)
    return re.sub(r'[A-Za-z_]\w*|\d+', lambda m: m.group(0) if m.group(0) in keep else seen.setdefault(m.group(0), '#%d' % len(seen)), text)


def point1(src):
    return matching(src, r'^\s*(pub )?enum ')


def point2(src):
    groups = collections.defaultdict(list)
    for n, t in src:
        for name, line, _, _, body in functions(t):
            code = [r for r in body if not re.match(r'\s*(invariant|decreases|assert|ghost)\b', r)]
            if len(code) >= 3:
                groups[skeleton(code)].append('%s:%d: fn %s' % (n, line, name))
    return ['%s' % ' = '.join(g) for g in groups.values() if len(g) > 1]


def point3(src):
    return matching(src, r'^\s*(\'\w+: )?while ')


def point4(src):
    compares = r'eq|ne|cmp|same\w*|equal\w*|compare\w*|order\w*|then|clone\w*|copy\w*'
    prints = r'number|word|digits?|decimal|flag|line_end|none|write_\w*num\w*'
    return matching(src, r'\bfn (%s|%s)\b' % (compares, prints))


def point5(src):
    clauses, carried = collections.defaultdict(list), collections.defaultdict(list)
    for n, t in src:
        for name, line, head, cl, _ in functions(t):
            for c in cl:
                m = re.match(r'requires (?:\w+ )?\{ (.*) \}$', c)
                if m:
                    clauses[skeleton([re.sub(r'\.(old|now|new)\b', '', m.group(1))])].append((n, line, name, m.group(1)))
            params = re.findall(r'(\w+): ([^,()]+(?:\[[^]]*\])?)', head.split(' -> ')[0].split('(', 1)[-1])
            for i in range(len(params) - 1):
                carried[' '.join('%s: %s' % p for p in params[i:i + 2])].append((n, line, name))
    out = ['clause asked %d times: %s' % (len(v), v[0][3]) for v in clauses.values() if len(v) >= 3]
    return out + ['parameters together %d times: %s' % (len(v), k) for k, v in carried.items() if len(v) >= 3]


def point6(src):
    lent = r'fn \w+\(.*: &(mut )?\[[^]]*\], (count|len|length|k|n|many|size|used): usize'
    held = r'\[[^]]*; [A-Z_]+\], (pub )?(count|len|used)|^\s*(pub )?(count|len|used): (u32|usize|u64),'
    return matching(src, lent + '|' + held)


def point7(src):
    return matching(src, r'\bmatch (verb|part|kind|step|which|self\.verb|call\.verb)\b|: fn\(|&dyn |\bBox<')


def point8(proofs):
    return ['%s: %d lines' % (n, t.count('\n')) for n, t in proofs]


def main():
    commit, only = sys.argv[1], sys.argv[2] if len(sys.argv) > 2 else None
    src, proofs = files(commit, 'src'), files(commit, 'proofs')
    names = ['own enums', 'functions of one shape', 'while loops', 'equality, order, copying and printing by hand',
             'clauses asked, and parameters carried, in three functions or more', 'lengths beside their buffers', 'switches on a step', 'proof files']
    counted = [point1(src), point2(src), point3(src), point4(src), point5(src), point6(src), point7(src), point8(proofs)]
    for k, (name, found) in enumerate(zip(names, counted), 1):
        if only in (None, str(k)):
            extra = ', %d lines' % sum(int(f.split(': ')[1].split()[0]) for f in found) if k == 8 else ''
            print('%d. %s: %d%s' % (k, name, len(found), extra))
            if only:
                print('\n'.join('    ' + f for f in found))


main()
