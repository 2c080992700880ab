#!/usr/bin/env python3
"""Counts the places in src/ that older forms leave: python3 tools/places.py [COMMIT] [--list].

Point 1  numbers for kinds, machines and refusals, and flags beside a value
Point 2  functions of one shape: their bodies agree but for names and numbers
Point 3  loops that count by hand
Point 4  equality, conversion and printing written by hand
Point 5  facts in the contracts of three or more functions, and parameters that three or more functions take together
Point 6  arrays with a count beside them
Point 7  switches: parameters that are bool, and tables of functions
Point 8  lines of proofs
Without a commit it reads the folder.
"""
import collections
import itertools
import re
import subprocess
import sys

PATTERNS = {
    1: [
        r'\bkind_of\(|\bitem_at\(',
        r'^const (TEST|STORE|EMIT|GO_TO|PAIR|CLAIM|MASK|FIRST_PATH|SECOND_PATH|SYMBOL|START|FIRST|SECOND): u32',
        r'\b(kind|which|mark|machine|number|k): u32\b',
        r'^\s+[0-9]+ => (Item|Part|CONSTANTS|OPERATIONS|self)\b',
        r'fn number\(self\)',
        r'\binfeasible: bool',
        r'Result<\(\), usize>',
    ],
    3: [
        r'^\s+(while|loop) ?(?!let)[^"]*\{$',
        r'for [a-z_]+ in [0-9a-z_.]+\.\.=?[^{]*\{$',
        r'^\s+[a-z_.]+ [-+]= 1;$',
    ],
    4: [
        r'fn (same|is_one|is_test|of|text|item_of|item_at|kind_of)\(',
        r'\.(bits|value|monomial\.0|0) (==|!=|<|<=) (other|t|s)\.',
        r'(Test::Same|Test::Below|Values::Words|Values::Bytes) => (print|"|println)',
    ],
    6: [r'^\s+(pub )?[a-z]+: \[[^\]]*; [^\]]*\],', r'let mut [a-z]+ = \[[^\]]*; [^\]]*\];'],
    7: [r'\b(longer|turn|says|infeasible): bool\b'],
}


def sources(commit):
    if commit:
        names = subprocess.run(['git', 'ls-tree', '-r', '--name-only', commit, 'crates'], capture_output=True, text=True).stdout.split()
        read = lambda n: subprocess.run(['git', 'show', f'{commit}:{n}'], capture_output=True, text=True).stdout
    else:
        names = subprocess.run(['git', 'ls-files', '-co', '--exclude-standard', 'crates'], capture_output=True, text=True).stdout.split()
        read = lambda n: open(n).read()
    files, proofs = {}, 0
    for n in sorted(names):
        try:
            if re.match(r'crates/\w+/src/.*\.rt$', n):
                files[n] = read(n)
            elif re.match(r'crates/\w+/proofs/.*\.antt$', n):
                proofs += read(n).count('\n')
        except FileNotFoundError:
            pass
    return files, proofs


def functions(text):
    """Name, parameters, clauses and body of each function."""
    for m in re.finditer(r'\bfn (\w+)(?:<[^(]*>)?\(', text):
        depth, i = 1, m.end()
        while depth:
            depth += {'(': 1, ')': -1}.get(text[i], 0)
            i += 1
        params = text[m.end():i - 1]
        j = re.compile(r'\n\s*\{\n|\{\n|\{\}|;\n').search(text, i)
        if not j:
            continue
        clauses = text[i:j.start()]
        if '{' not in j.group():
            yield m.group(1), params, clauses, ''
            continue
        k = depth = 0
        k = text.index('{', j.start())
        start = k
        while True:
            depth += {'{': 1, '}': -1}.get(text[k], 0)
            k += 1
            if depth == 0:
                break
        yield m.group(1), params, clauses, text[start:k]


def shape(body):
    body = re.sub(r'//.*', '', body)
    tokens = re.findall(r'"[^"]*"|\w+|[^\s\w]', body)
    keep = {'match', 'if', 'else', 'for', 'in', 'while', 'let', 'mut', 'return', 'Ok', 'Err', 'Some', 'None', 'true', 'false', 'self'}
    return tuple(t if t in keep or not re.match(r'[\w"]', t) else '_' for t in tokens)


def main():
    args = [a for a in sys.argv[1:] if a != '--list']
    shown = '--list' in sys.argv
    files, proofs = sources(args[0] if args else None)
    found = collections.defaultdict(list)
    shapes = collections.defaultdict(list)
    facts = collections.defaultdict(set)
    pairs = collections.defaultdict(set)
    for name, text in files.items():
        for point, patterns in PATTERNS.items():
            for i, line in enumerate(text.split('\n'), 1):
                if any(re.search(p, line) for p in patterns) and not line.lstrip().startswith('//'):
                    found[point].append(f'{name}:{i}: {line.strip()}')
        for fn, params, clauses, body in functions(text):
            where = f'{name} {fn}'
            s = shape(body)
            if len(s) > 24 and '_trials' not in name:
                shapes[s].append(where)
            for clause in re.findall(r'requires (?:\w+ )?\{(.*)\}', clauses):
                for word in set(re.findall(r'\b(?:is_[a-z]+|[A-Z]\w+)\b', clause)):
                    facts[word].add(where)
            ps = sorted({re.sub(r'\s+', ' ', p.strip()) for p in re.split(r',(?![^<(]*[>)])', params) if ':' in p})
            for pair in itertools.combinations(ps, 2):
                pairs[pair].add(where)
    for ws in shapes.values():
        if len(ws) > 1:
            found[2].append(' = '.join(ws))
    for word, ws in sorted(facts.items()):
        if len(ws) > 2:
            found[5].append(f'fact {word}: {len(ws)} functions')
    for pair, ws in sorted(pairs.items()):
        if len(ws) > 2:
            found[5].append(f'parameters {pair[0]}, {pair[1]}: {len(ws)} functions')
    for point in range(1, 8):
        print(f'point {point}: {len(found[point])}')
        if shown:
            for line in found[point]:
                print('   ', line)
    print(f'point 8: {proofs} lines of proofs')


main()
