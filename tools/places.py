#!/usr/bin/env python3
"""Lists places in crates/*/src/*.rt whose form an older language may have forced, by eight points.

usage: tools/places.py [FOLDER] [--list]   (FOLDER: a checkout, else the one that this file is in)

It goes by text: a place that it lists may be right as it is, and docs/DESIGN-PASS.md says which are and why.
"""
import collections
import glob
import os
import re
import sys

args = [a for a in sys.argv[1:] if not a.startswith('-')]
root = args[0] if args else os.path.join(os.path.dirname(os.path.abspath(__file__)), '..')
show = '--list' in sys.argv
found = collections.defaultdict(list)


def crate_of(path):
    return os.path.relpath(path, root).split(os.sep)[1]


def functions(text):
    """(name, line, parameters, result, clauses, body) of each fn with a body."""
    for m in re.finditer(r'^([ \t]*)(?:pub(?:\([a-z]+\))? )?(?:const )?fn (\w+)(?:<[^>(]*>)?\(', text, re.M):
        depth, i = 1, m.end()
        while depth and i < len(text):
            depth += {'(': 1, ')': -1}.get(text[i], 0)
            i += 1
        params = [p.strip() for p in re.split(r',\s*(?![^<(\[]*[>)\]])', text[m.end():i - 1]) if p.strip()]
        indent = m.group(1)
        end = text.find('\n' + indent + '}', i)
        brace = text.find('\n' + indent + '{', i)
        same = text.find('{', i)
        line_end = text.find('\n', i)
        if same != -1 and same < line_end and not text[i:same].strip().startswith(('requires', 'ensures')):
            brace = same - 1
        if end == -1 or brace == -1 or brace > end:
            continue
        head = text[i:brace]
        result = re.match(r'\s*->\s*([^\n{]*)', head)
        yield (m.group(2), text[:m.start()].count('\n') + 1, params, result.group(1).strip() if result else '',
               re.findall(r'(?:requires|ensures)[^{\n]*\{(.*)\}\s*$', head, re.M), text[brace:end])


def add(point, path, line, what):
    found[point].append((os.path.relpath(path, root), line, what))


bodies, groups, facts = collections.defaultdict(list), collections.defaultdict(list), collections.defaultdict(list)
for path in sorted(glob.glob(os.path.join(root, 'crates/*/src/**/*.rt'), recursive=True)):
    text = open(path, encoding='utf-8').read()
    for n, line in enumerate(text.split('\n'), 1):
        code = line.split('//')[0]
        if re.match(r'\s+\w+\(.*\bbool\b.*\),?$', code) and 'fn' not in code:
            add('1 flag in a variant', path, n, code.strip())
        if re.match(r'\s+\d+ =>', code) or re.search(r'=> (?:Ok\()?\d+\)?,$', code):
            add('1 number for a kind', path, n, code.strip())
        if re.search(r'\[600u32; 600\]|\bor (?:n|`len`) where there is none|, or `len`\.', line):
            add('1 sentinel', path, n, line.strip())
        if re.search(r'^\s*(?:while|loop)\b', code):
            add('3 while and loop', path, n, code.strip())
        if re.search(r'^\s*(?:\'\w+: )?for \w+ in [^{]*\.\.', code):
            add('3 for over a range', path, n, code.strip())
        if re.search(r'\bmatch (?:self|rule|refusal)\b', code):
            add('7 match on a kind', path, n, code.strip())
    for name, line, params, result, clauses, body in functions(text):
        names = [re.sub(r'^mut ', '', p).split(':')[0] for p in params]
        types = dict(zip(names, [p.split(':', 1)[1].strip() if ':' in p else '' for p in params]))
        if len(params) > 7:
            add('5 more than seven parameters', path, line, '%s: %d' % (name, len(params)))
        if result == 'bool' and any('&mut [' in t for t in types.values()):
            add('1 bool beside what it is about', path, line, name)
        if any(t == 'bool' for t in types.values()):
            add('7 bool parameter', path, line, name)
        if re.fullmatch(r'(equal|copy\w*|show|tell|list|refuse|whose|comes_to|reads_as|number|place|source)', name):
            add('4 equality, copy, conversion, printing', path, line, name)
        places = [x for x in names if x in ('at', 'to', 'from') and types[x] == 'usize']
        if places and any(t.startswith('&') and '[' in t for t in types.values()):
            add('6 slice and place', path, line, name)
        if any(x in names for x in ('costs', 'tends')) and len([x for x in names if x in (
                'reached', 'costs', 'steps', 'back', 'tends', 'owner')]) > 1:
            add('6 parallel slices', path, line, name)
        plain = re.sub(r'\b\d+(?:u\d+)?\b', 'N', re.sub(r'\s+', ' ', body))
        order = {}
        plain = re.sub(r'\b[a-z_]\w*\b', lambda m: order.setdefault(m.group(0), 'v%d' % len(order)), plain)
        if len(plain) > 40:
            bodies[plain].append((path, line, name))
        for i, a in enumerate(names):
            for j in range(i + 1, len(names)):
                for k in range(j + 1, len(names)):
                    groups[(names[i], names[j], names[k])].append((path, line, name))
        for fact in clauses:
            for part in re.split(r' × ', fact):
                part = re.sub(r'[()]', '', part).strip()
                if part:
                    facts[(crate_of(path), part)].append((path, line, name))

for plain, where in bodies.items():
    if len(where) > 1:
        for path, line, name in where:
            add('2 twin', path, line, name)
travelling = collections.defaultdict(set)
for triple, where in groups.items():
    if len(where) > 2:
        for w in where:
            travelling[w].add(triple)
for (path, line, name), triples in travelling.items():
    add('5 parameters that travel together', path, line, name)
for (crate, fact), where in facts.items():
    if len(set(where)) > 2:
        add('5 fact in three contracts', where[0][0], where[0][1], '%d times: %s' % (len(set(where)), fact))

for point in sorted(found):
    by = collections.Counter(p.split(os.sep)[1] for p, _, _ in found[point])
    print('%-42s %4d   %s' % (point, len(found[point]), ', '.join('%s %d' % x for x in sorted(by.items()))))
    if show:
        for p, n, what in sorted(found[point]):
            print('    %s:%d  %s' % (p, n, what))
