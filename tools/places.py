#!/usr/bin/env python3
"""Lists the places in crates/*/src that an older style leaves behind, point by point.

Use: tools/places.py [COMMIT] [-l]
Counts the places of each pattern below in COMMIT (in the working tree, if none is given); -l lists them too.
A pattern finds what to read, not what is wrong: docs/DESIGN-PASS.md says of each place what became of it.
"""
import collections
import re
import subprocess
import sys

NUMBER = r'(?:u8|u16|u32|u64|usize|i8|i16|i32|i64|i128)'

# (point, name, pattern over one line of code)
LINES = [
    (1, 'a flag as a field or a parameter', r'\b\w+: bool\b'),
    (1, 'a refusal as an option', r'-> Option<Refus'),
    (1, 'a case of an own enum for nothing or a refusal', r'^\s+(Neither|Nothing|Missing|Refused|End)\b[^=]*[,{(]\s*$|^\s+(Neither|Nothing|Missing),|^\s+Refused\(\w+\),'),
    (1, 'a change that answers a flag', r'fn \w+.*&mut .*-> bool'),
    (1, 'a number that stands for none', r'== 4 \{|^\s+4$'),
    (1, 'a refusal or a none handed on by hand',
     r'None => (?:return )?(?:None|Err\()|Err\(\w+\) => (?:return )?Err\(|return None;|return Err\(r\);'),
    (3, 'a loop over numbers', r'\bfor [^ ]+ in .*\.\.|\bwhile '),
    (4, 'an equality, a conversion or a print of our own',
     r'fn (same\w*|equal\w*|edges|sides|clipped|damaged|plain|told|not_negative|unpack|edge|print_premultiplied|print_index|print_outcome|letter)\b'),
    (4, 'a cast', r'\bas ' + NUMBER + r'\b|\bas char\b'),
    (6, 'an array with a count beside it', r'^\s+(?:pub(?:\(crate\))? )?(?:boxes|panes|all|pages|cells|numbers): \[.*; \d+\],|let mut numbers = \['),
    (6, 'a place in a list kept as a number', r'^\s+(?:pub(?:\(crate\))? )?(?:from|to|start|at|place): (?:usize|u32),'),
    (7, 'a match that picks a step', r'match (?:call|verb|layout|buffer|k) \{'),
    (7, 'a function taken as a value', r'\bdyn \b|\bfn\(|impl Fn|F: Fn'),
]


def paths(commit):
    """The files under crates/, of a commit or of the working tree."""
    listed = ['ls-tree', '-r', '--name-only', commit, 'crates'] if commit else ['ls-files', '-co', '--exclude-standard', 'crates']
    return sorted(git(*listed).split())


def git(*words):
    return subprocess.run(['git', *words], capture_output=True, text=True, check=True).stdout


def sources(commit):
    """The files of src/, as (path, text)."""
    for name in paths(commit):
        if re.fullmatch(r'crates/\w+/src/\w+\.rt', name):
            yield name, git('show', f'{commit}:{name}') if commit else open(name).read()


def functions(text):
    """Each function of a file, as (line number, name, head with its clauses, body)."""
    lines = text.split('\n')
    for i, line in enumerate(lines):
        found = re.match(r'\s*(?:pub(?:\(crate\))? )?fn (\w+)', line)
        if not found:
            continue
        indent = len(line) - len(line.lstrip())
        head, j = [], i
        while j < len(lines):
            stripped = lines[j].rstrip()
            if stripped == ' ' * indent + '{' or (j == i and stripped.endswith(('{}', '{'))):
                break
            head.append(lines[j])
            if stripped.endswith(';') and len(lines[j]) - len(lines[j].lstrip()) >= indent:
                break
            j += 1
        yield i + 1, found.group(1), '\n'.join(head), j + 1


def by_lines(files):
    for name, text in files:
        function = '-'
        for number, line in enumerate(text.split('\n'), 1):
            found = re.search(r'\bfn (\w+)', line)
            if found:
                function = found.group(1)
            code = line.split('//')[0]
            if re.match(r'\s*(ghost|ensures|requires)\b', code):
                continue
            for point, what, pattern in LINES:
                if re.search(pattern, code):
                    yield point, what, f'{name}:{number} {function}: {line.strip()}'


def repeated(files):
    """Clauses, and sets of parameters, that stand in three functions of a crate or more."""
    clauses, signatures = collections.defaultdict(list), collections.defaultdict(list)
    for name, text in files:
        crate = name.split('/')[1]
        for number, function, head, _ in functions(text):
            place = f'{name}:{number} {function}'
            for clause in set(re.findall(r'(?:requires|ensures)\*? (?:\w+ )?\{(.*)\}', head)):
                clauses[crate, clause.strip()].append(place)
            signature = head.split('requires')[0].split('ensures')[0]
            signatures[crate].append((place, frozenset(re.findall(r'\b([a-z]\w*): [&\w]', signature)) - {'self', 'rt'}))
    for (crate, clause), places in sorted(clauses.items()):
        if len(places) >= 3:
            yield 5, 'a clause in three functions or more', f'{crate} ({len(places)}): {clause}: ' + '; '.join(places)
    for crate, heads in sorted(signatures.items()):
        sets = {a & b for _, a in heads for _, b in heads if len(a & b) >= 2}
        for names in sorted(sets, key=sorted):
            places = [place for place, own in heads if names <= own]
            if len(places) >= 3 and not any(names < other and sum(other <= own for _, own in heads) == len(places) for other in sets):
                yield 5, 'parameters that travel together', f'{crate} ({len(places)}): {", ".join(sorted(names))}: ' + '; '.join(places)


def twins(files):
    """Functions of three lines or more whose bodies are one text but for names, numbers and types."""
    shapes = collections.defaultdict(list)
    for name, text in files:
        lines = text.split('\n')
        for number, function, head, start in functions(text):
            indent = len(lines[number - 1]) - len(lines[number - 1].lstrip())
            body = []
            for line in lines[start:]:
                if line.rstrip() == ' ' * indent + '}':
                    break
                body.append(line.strip())
            shape = re.sub(r'\b\w+\b', lambda m: m.group(0) if m.group(0) in ('if', 'else', 'match', 'for', 'in', 'return', 'let', 'mut', 'while', 'self') else 'x', ' '.join(body))
            if len(shape) > 12:
                shapes[shape].append(f'{name}:{number} {function}')
    for shape, places in sorted(shapes.items()):
        if len(places) >= 2:
            yield 2, 'bodies of one shape', f'({len(places)}) ' + '; '.join(places)


def proofs(commit):
    """The files of proofs/, by what they hold."""
    for name in paths(commit):
        if '/proofs/' in name and name.endswith('.antt') and not name.endswith('Lib.antt'):
            kind = name.split('/')[-1][:-len('.antt')]
            kind = {'Answers': 'answers', 'Invariants': 'invariants'}.get(kind, 'lemmas')
            yield 8, f'files of {kind}', name


def main():
    arguments = [a for a in sys.argv[1:] if a != '-l']
    files = list(sources(arguments[0] if arguments else None))
    found = collections.defaultdict(list)
    for finder in (by_lines, repeated, twins):
        for point, what, place in finder(files):
            found[point, what].append(place)
    for point, what, place in proofs(arguments[0] if arguments else None):
        found[point, what].append(place)
    for (point, what), places in sorted(found.items()):
        print(f'{point} {what}: {len(places)}')
        if '-l' in sys.argv:
            for place in places:
                print(f'    {place}')


main()
