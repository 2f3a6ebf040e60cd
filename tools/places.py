#!/usr/bin/env python3
"""Counts what docs/DESIGN-PASS.md counts, in the sources of a tree: `tools/places.py [FOLDER] [-v]`; -v lists each place."""
import collections
import glob
import os
import re
import sys

WORDS = [a for a in sys.argv[1:] if a != '-v']
TOP = WORDS[0] if WORDS else os.path.join(os.path.dirname(os.path.abspath(__file__)), '..')
VERBOSE = '-v' in sys.argv


def files(part='src', kind='rt'):
    return sorted(glob.glob(f'{TOP}/crates/*/{part}/**/*.{kind}', recursive=True))


def crate(path):
    return path.split('/crates/')[1]


def functions(text):
    """Each function: its name, its head (signature and clauses), its body."""
    for m in re.finditer(r'^( *)(?:pub(?:\(crate\))? )?(?:extern "C" )?fn (\w+)', text, re.M):
        indent = m.group(1)
        start = m.start()
        end_head = None
        for o in re.finditer(r'\n' + indent + r'\{\n|\) (?:-> [^\n{]+ )?\{\n', text[start:]):
            end_head = start + o.start() + 1
            break
        close = re.compile(r'^' + indent + r'\}$', re.M).search(text, end_head or start)
        if end_head is None or close is None:
            continue
        yield m.group(2), text[start:end_head], text[end_head:close.end()]


def each():
    """Every function of the sources: its place and name, its text before it, its head, its body."""
    for path in files():
        text = open(path).read()
        for name, head, body in functions(text):
            yield f'{crate(path)}: {name}', text[:text.index(head)], head, body


def structs(kind):
    """Every struct or enum of the sources: its place and name, what stands in it."""
    for path in files():
        for m in re.finditer(kind + r' (\w+)[^{\n]* \{\n(.*?)\n\}', open(path).read(), re.S):
            yield f'{crate(path)}: {m.group(1)}', m.group(2)


def tell(point, name, places):
    print(f'{point:4} {len(places):4}  {name}')
    if VERBOSE:
        for p in places:
            print('            ', p)


def enums():
    found = [(place, re.findall(r'^    ([A-Z]\w*)', inside, re.M)) for place, inside in structs('enum')]
    return [f'{place} {variants}' for place, variants in found if len(variants) == 2]


def sentinels():
    """A contract that tells what a result means by whether it is 0, and a function whose comment says that 0 means none."""
    clause = re.compile(r'\{ \(?0 < result|0 < result\.|result\.length ≡ 0|\(result ≡ 0\)')
    words = re.compile(r'(else|and) 0\b|0 (where|beyond|of what|for a month|for any)|; 0 |10000 where|255 where|100\.')
    out = []
    for place, before, head, _ in each():
        comment = re.search(r'((?://[^\n]*\n)+)(?: *#\[[^\n]*\]\n)*$', before)
        if clause.search(head) or comment and words.search(comment.group(1)):
            out.append(place)
    return out


def flags():
    return [place for place, inside in structs('struct') if not place.startswith('vrbolist/') and re.search(r'(found|there|outcome): ', inside)]


def bits():
    """Octets that are 0 or 1 in place of a truth value."""
    return [
        place
        for place, _, head, body in each()
        if re.search(r'-> u8\n', head) and re.search(r'flag |cond \(', head) and re.search(r'return 1;', body)
    ]


def counted_loops():
    out = []
    for place, _, _, body in each():
        for m in re.finditer(r'^( *)(?:\'\w+: )?while ([^\n]*) \{\n(.*?)\n\1\}', body, re.M | re.S):
            for x in set(re.findall(r'\b([a-z_]\w*)\b', m.group(2))):
                if re.search(rf'^{m.group(1)}    {x} \+= (1|\d+|wide);', m.group(3), re.M):
                    out.append(f'{place}: while {m.group(2)}')
    return out


HANDED = (
    r'else \{\n\s*return (?:None|\w+::(?:Missing|Formless|Broken|Frontless|Backless|Timeless|Unfit|Shapeless|Absent|Bad|Nothing));\n\s*\};',
    r'(?:\w+::)?(?:Refused|Err)\((\w+)\) => (?:return )?(?:\w+::)?(?:Refused|Fault|Err)\(\1\)',
    r'if let (?:\w+::)?(?:Refused|Err)\((\w+)\) = [^\n]*\{\n\s*return (?:\w+::)?(?:Refused|Err)\(\1\);',
)


def handed_on():
    """Early returns of what `?` hands on."""
    return [place for place, _, head, body in each() if '->' in head for shape in HANDED for _ in re.finditer(shape, body)]


def parts(clause):
    out, depth, last = [], 0, 0
    for i, c in enumerate(clause):
        depth += c in '({['
        depth -= c in ')}]'
        if c == '×' and depth == 0:
            out.append(clause[last:i])
            last = i + 1
    return [p.strip() for p in out + [clause[last:]]]


def strip(p):
    while p.startswith('(') and p.endswith(')'):
        depth = 0
        for i, c in enumerate(p):
            depth += c == '('
            depth -= c == ')'
            if depth == 0 and i < len(p) - 1:
                return p
        p = p[1:-1].strip()
    return p


def often(seen):
    return {what: places for what, places in seen.items() if len(places) >= 3}


def ranked(seen, text):
    return [f'{text(what)}: {len(places)} functions' for what, places in sorted(seen.items(), key=lambda x: -len(x[1]))]


def repeated_clauses():
    seen = collections.defaultdict(set)
    for place, _, head, _ in each():
        for m in re.finditer(r'requires [^{\n]*\{ (.*) \}$', head, re.M):
            for p in parts(m.group(1)):
                seen[strip(p)].add(place)
    return ranked(often(seen), str)


def travelling():
    """Four or more parameters that stand together, by name, in three functions or more."""
    seen = collections.defaultdict(set)
    for place, _, head, _ in each():
        args = re.search(r'fn \w+(?:<[^(]*>)?\((.*?)\)(?: ->|\s*$|\n)', head, re.S)
        if args and not place.startswith('vrbolist/'):
            names = tuple(re.findall(r'(\w+): [^,\n]+', args.group(1)))
            for i in range(len(names)):
                for j in range(i + 4, len(names) + 1):
                    seen[names[i:j]].add(place)
    groups = often(seen)
    whole = {g: w for g, w in groups.items() if not any(g != h and set(g) <= set(h) and groups[h] >= w for h in groups)}
    return ranked(whole, ', '.join)


def long_lines():
    return [f'{crate(f)}:{i}' for f in files('proofs', 'antt') for i, l in enumerate(open(f), 1) if len(l) > 161]


def proof_lines():
    return [None for f in files('proofs', 'antt') for l in open(f)]


def main():
    tell('1', 'own enums of two variants', enums())
    tell('1', 'results in which 0 (or 100, 255, 10000) means none', sentinels())
    tell('1', 'structs with a flag beside its values', flags())
    tell('1', 'functions whose octet 0 or 1 is a truth value', bits())
    tell('1', 'early returns that ? says', handed_on())
    tell('3', 'while loops that count an index', counted_loops())
    tell('5', 'parts of requires that stand in three functions or more', repeated_clauses())
    tell('5', 'groups of four or more parameters in three functions or more', travelling())
    print(f'8    {len(files("proofs", "antt")):4}  files of proofs, {len(proof_lines())} lines')
    tell('8', 'lines of proofs over 160 characters', long_lines())


if __name__ == '__main__':
    main()
