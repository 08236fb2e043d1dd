#!/usr/bin/env python3
"""Counts the places of docs/DESIGN-PASS.md in crates/*/src, a line for each point; with -v the places themselves.

A place is a function, type, impl or constant (points 1, 2, 4, 6), a loop (3), a fact of a `requires` that three or more
functions have, or two parameters of one name and type that most functions with one of them have both, three at least (5),
a match on numbers (7), or a `let` line that stands twice or more in an Answers file (8). A place with a comment that
begins `// Kept` in it, or in the comment above it, is counted as kept; of point 5, one of its functions.
"""
import collections
import glob
import os
import re
import sys

ITEM = re.compile(r'^(?:    )?(?:#\[unsafe\(no_mangle\)\] )?(?:pub(?:\(crate\))? )?(?:extern "C" )?(fn|struct|enum|const|static|impl)\b', re.M)
NUMBERS = (r'\b(?:DONE|TOO_LONG|TOO_SHORT|TOO_WIDE|IMPOSSIBLE|OUT_OF_RANGE|NOT_RUN|BAD_WIDTH|BAD_FRAME|BAD_ANSWER|BAD_STATE'
           r'|SILENT|UNSEEN|AGREES|DIFFERS|LEFT_OUT|ANSWER_KIND|NAMED_KIND|STORED)\b')
CODES = r'\b(?:number|kind|told|which|alarm|odd|winner|shape): (?:u8|u64|usize)\b|-> Context\b'
NONE = r'(?:\b0 (?:where|is none|if there is none)|, or 0\b|\b0 at which|-1\.0\b)'


class Item:
    def __init__(self, path, line, kind, text, above):
        self.path, self.line, self.kind, self.text, self.above = path, line, kind, text, above
        code = re.sub(r'//[^\n]*', '', text)
        self.clauses = ' '.join(re.findall(r'requires[^{]*\{(.*?)\}\n', code + '\n', re.S))
        self.code = re.sub(r'(?:requires|ensures)[^{]*\{.*?\}\n', '\n', code, flags=re.S)
        self.kept = '// Kept' in text or '// Kept' in above
        m = re.search(r'(?:fn|struct|enum|const|static)\s+(\w+)', text)
        self.name = m.group(1) if m else text.split('{')[0].strip()

    def __str__(self):
        return f'{self.path}:{self.line} {self.kind} {self.name}'


class Group:
    def __init__(self, name, functions):
        self.name, self.functions = name, functions
        self.kept = any(f.kept for f in functions)

    def __str__(self):
        where = sorted({f.path.split('/')[1] for f in self.functions})
        return f'{len(self.functions)} functions of {", ".join(where)}: {self.name}'


def items(path):
    text = open(path).read()
    starts = [m for m in ITEM.finditer(text)]
    for m in starts:
        begin = m.start()
        indent = len(m.group(0)) - len(m.group(0).lstrip())
        kind = m.group(1)
        if kind == 'impl':
            end = text.find('{', begin)
        elif kind in ('const', 'static') or (kind == 'struct' and re.match(r'[^\n{]*;', text[begin:])):
            end = text.find(';\n', begin) + 1
        else:
            stop = re.compile(r'^' + ' ' * indent + r'\}', re.M).search(text, begin)
            end = stop.end() if stop else len(text)
        above = []
        for line in reversed(text[:begin].split('\n')[:-1]):
            if line.strip().startswith(('//', '#[')):
                above.append(line)
            else:
                break
        yield Item(path, text.count('\n', 0, begin) + 1, kind, text[begin:end], '\n'.join(above))


def body(item):
    i = item.code.find('{')
    return item.code[i:] if i >= 0 else ''


def shape(item):
    tokens = re.findall(r'[A-Za-z_][A-Za-z_0-9]*|[0-9][0-9a-zA-Z_.]*|"[^"]*"|\S', body(item))
    words = {'if', 'else', 'while', 'for', 'in', 'return', 'let', 'mut', 'match', 'loop', 'as', 'true', 'false'}
    return ' '.join(t if t in words or not re.match(r'[A-Za-z_0-9"]', t) else 'x' for t in tokens), len(tokens)


def parameters(item):
    m = re.search(r'fn \w+(?:<[^>]*>)?\((.*?)\)\s*(?:->|\n|\{)', item.code, re.S)
    if not m:
        return []
    return [p.strip() for p in re.split(r',(?![^<(\[]*[>)\]])', m.group(1)) if p.strip()]


def conjuncts(item):
    out = []
    for part in re.split(r'\s×\s', item.clauses):
        part = re.sub(r'\s+', ' ', part).strip()
        while part.startswith('(') and part.endswith(')'):
            part = part[1:-1].strip()
        if part:
            out.append(part)
    return out


def main():
    verbose = '-v' in sys.argv[1:]
    here = [i for f in sorted(glob.glob('crates/*/src/**/*.rt', recursive=True)) for i in items(f)]
    functions = [i for i in here if i.kind == 'fn']
    points = {}

    points[1] = [i for i in here if i.kind == 'enum' or i.kind == 'const' and re.search(NUMBERS, i.text.split('=')[0])
                 or i.kind != 'impl' and (re.search(NUMBERS, i.code) and i.kind != 'const' or re.search(CODES, i.code)
                                          or re.search(NONE, i.above + i.text))]

    shapes = collections.defaultdict(list)
    for f in functions:
        s, n = shape(f)
        if n >= 12:
            shapes[s].append(f)
    for t in here:
        if t.kind == 'struct' and '{' in t.code:
            fields = re.findall(r'(\w+): ([^,\n]+),', t.code)
            shapes['struct ' + ' '.join(f'{x} {y}' for x, y in fields[:1]) + ' '.join(y for _, y in fields)].append(t)
    points[2] = [f for group in shapes.values() if len(group) > 1 for f in group]

    loops = []
    for f in functions:
        for m in re.finditer(r'\b(?:while|loop)\b[^\n]*\{', f.code):
            loops.append(f)
    points[3] = loops

    alone = re.compile(r'^\{\s*(?:\(?[\w.]+ as \w+\)?|\w+ != \w+|if \w+ < \w+ \{\s*(?:return )?\w+;?\s*\}(?: else \{\s*\w+\s*\}|\s*\w+)'
                       r'|\w+ as u64|match \w+ \{[^{}]*\})\s*\}$')
    by_hand = re.compile(r'% 0x8000_0000_0000_0000|\[\w+\] = (?:0|\w+\[\w+\]);\s*\w+ \+= 1;|\b48 \+ ')
    points[4] = [f for f in functions if alone.match(body(f).strip()) or by_hand.search(f.code)]

    stands = collections.defaultdict(list)
    inner = [f for f in functions if 'extern "C"' not in f.text]
    has = collections.defaultdict(set)
    both = collections.defaultdict(list)
    for f in inner:
        for c in set(conjuncts(f)):
            stands[c].append(f)
        ps = [p for p in parameters(f) if "self" not in p and not re.match(r"[ab]:", p)]
        for p in ps:
            has[p].add(f)
        for k, a in enumerate(ps):
            for b in ps[k + 1:]:
                both[tuple(sorted((a, b)))].append(f)
    facts = [Group('fact ' + c, fs) for c, fs in stands.items() if len(fs) > 2]
    pairs = [Group('parameters ' + ', '.join(p), fs) for p, fs in both.items()
             if len(fs) > 2 and len(fs) * 2 > len(has[p[0]] | has[p[1]])]
    points[5] = sorted(facts + pairs, key=lambda g: -len(g.functions))

    lengths = re.compile(r'out: &mut \[u8\],\s*at: usize|\broom\(\)|low \+ 1 < high|text: &\[u8\],\s*n: usize')
    points[6] = [i for i in here if i.kind != 'impl' and (lengths.search(i.code) or
                 max(collections.Counter(re.findall(r'(\[u\d+; \w+\])', i.code)).values(), default=0) > 1)]

    points[7] = [f for f in functions for _ in re.finditer(r'match [^\n]*\{\s*\d', f.code)]

    repeated = 0
    files = 0
    for path in glob.glob('crates/*/proofs/**/Answers.antt', recursive=True):
        lines = [l.strip() for l in open(path) if l.strip().startswith('let ')]
        n = sum(c for c in collections.Counter(lines).values() if c > 1)
        repeated += n
        files += n > 0

    for p in sorted(points):
        kept = [i for i in points[p] if i.kept]
        print(f'point {p}: {len(points[p])} places, {len(kept)} of them kept')
        if verbose:
            for i in points[p]:
                print(f'    {i}{" (kept)" if i.kept else ""}')
    answers = glob.glob('crates/*/proofs/**/Answers.antt', recursive=True)
    total = sum(len(open(f).readlines()) for f in answers)
    print(f'point 8: {repeated} let lines that stand twice or more, in {files} of {len(answers)} Answers files of {total} lines')


if __name__ == '__main__':
    main()
