#!/usr/bin/env python3
"""Counts the places of the design pass in src/ (docs/DESIGN-PASS.md), by crate: `places.py [COMMIT]`, of the files as they stand or at a commit.

What a point's places are is told by a pattern over lines, or over functions with their clauses; `places.py -l POINT [COMMIT]` lists them.
"""
import collections
import re
import subprocess
import sys

LENGTHS = r'^\s*(held|used|made|count|length|tail|links|handed): (u32|usize)\s*$'
KEYWORDS = set('as break const continue else enum false fn for if impl in let loop match mut pub return self Self struct true use while'.split())
CODES = r'^\s*(pub(\(crate\))? )?const [A-Z_]+: (u8|u16|u32) = \d+;'
LINES = {
    '1 enums': r'^(pub(\(crate\))? )?enum ',
    '1 codes': CODES,
    '1 tests of codes': r'(==|!=) (ACCEPTED|NONE_OPEN|NOTHING|BARRED|JOINED|NOT_HELD|PATH_OR_ROW|NOWHERE)\b',
    '1 numbers of refusals': r'\bnumber: u32\b|number: [A-Z]|refused\((refusal|first|last|number|[A-Z_]+)\b|\b[a-z_]+\.number\b',
    '3 loops': r'^\s*(for [a-z_]+ in [^{]*\.\.|while )',
    '4 conversions': r'\bfn (of|as)_[a-z_]+\(|\bfn [a-z_]*refused\(|\bfn (put|show|print)_[a-z_]+\(',
    '4 copies by hand': r'^\s*(made|held|steps|place|seen|used|peak|first|second|third|latest): (tally|self|own|course|walked|seen)\.[a-z]+,',
    '7 matches on commands and items': r'^\s*match (given|item|command)\b',
}


def files(commit):
    if commit:
        names = subprocess.run(['git', 'ls-tree', '-r', '--name-only', commit, 'crates'], capture_output=True, text=True, check=True).stdout.split()
    else:
        names = subprocess.run(['git', 'ls-files', '-co', '--exclude-standard', 'crates'], capture_output=True, text=True, check=True).stdout.split()
    for name in sorted(names):
        if '/src/' in name and name.endswith('.rt'):
            if commit:
                text = subprocess.run(['git', 'show', f'{commit}:{name}'], capture_output=True, text=True, check=True).stdout
            else:
                with open(name, encoding='utf-8') as it:
                    text = it.read()
            yield name, text


def functions(text):
    for found in re.finditer(r'\bfn ([a-z_0-9]+)(<[^(]*>)?\(', text):
        depth, at = 1, found.end()
        while depth:
            depth += {'(': 1, ')': -1}.get(text[at], 0)
            at += 1
        parameters = [it for it in re.split(r',(?![^<(\[]*[>)\]])', text[found.end():at - 1]) if it.strip()]
        clauses = []
        for line in text[at:].split('\n')[1:]:
            if not re.match(r'\s*(requires|ensures)\b', line):
                break
            clauses.append(line.strip())
        yield text.count('\n', 0, found.start()) + 1, found[1], parameters, clauses


def shape(text):
    """Returns the tokens of a body or a type with each name and number replaced by the place where it first stands."""
    first = {}
    tokens = re.findall(r'[A-Za-z_0-9]+|[^\sA-Za-z_0-9]', re.sub(r'//.*|b?"[^"]*"', '', text))
    return tuple(first.setdefault(it, len(first)) if re.match(r'\w', it) and it not in KEYWORDS else it for it in tokens)


def bodies(text):
    """Gives each function's and each type's line, name and text between its braces."""
    for found in re.finditer(r'\b(fn|struct|enum) (\w+)', text):
        at = found.end()
        if found[1] == 'fn':
            depth = 0
            while text[at] != '(':
                at += 1
            while True:
                depth += {'(': 1, ')': -1}.get(text[at], 0)
                at += 1
                if not depth:
                    break
            rest = re.match(r'[^{;]*?\n?(\s*(requires|ensures)[^\n]*\n)*\s*\{', text[at:])
            if not rest:
                continue
            at += rest.end() - 1
        else:
            at = text.find('{', at)
        if at < 0 or text[at] != '{':
            continue
        end, depth = at, 0
        while True:
            depth += {'{': 1, '}': -1}.get(text[end], 0)
            end += 1
            if not depth:
                break
        yield text.count('\n', 0, found.start()) + 1, found[1], found[2], text[at:end]


def places(commit):
    facts = collections.defaultdict(list)
    alike = collections.defaultdict(list)
    for name, text in files(commit):
        crate = name.split('/')[1]
        for number, line in enumerate(text.split('\n'), 1):
            if not line.strip().startswith('//'):
                for point, pattern in LINES.items():
                    if re.search(pattern, line):
                        yield point, crate, f'{name}:{number}: {line.strip()}'
        for number, kind, item, body in bodies(text):
            tokens = shape(body)
            if len(tokens) >= 20:
                alike[(kind, tokens)].append((crate, f'{name}:{number}: {kind} {item}'))
        for number, function, parameters, clauses in functions(text):
            if any(re.search(LENGTHS, it) for it in parameters) and any('&[' in it or '&mut [' in it for it in parameters):
                yield '6 slices with a length beside them', crate, f'{name}:{number}: {function}'
            if len(parameters) >= 7:
                yield '5 seven parameters or more', crate, f'{name}:{number}: {function} ({len(parameters)})'
            for clause in clauses:
                if clause.startswith('requires'):
                    for fact in re.sub(r'^requires \w* ?\{ | \}$', '', clause).split(' × '):
                        facts[re.sub(r'\b(old|new)\b', 'now', fact.strip('() '))].append((crate, f'{name}:{number}: {function}'))
    for where in alike.values():
        if len(where) >= 2:
            for crate, place in where:
                yield '2 functions and types alike', crate, f'{place} as {", ".join(it for _, it in where if it != place)}'
    for fact, where in facts.items():
        if len(where) >= 3:
            for crate, place in where:
                yield '5 facts of three contracts or more', crate, f'{place}: {fact}'


def main():
    arguments = sys.argv[1:]
    wanted = arguments[1] if arguments[:1] == ['-l'] else None
    rest = arguments[2:] if wanted else arguments
    found = collections.defaultdict(collections.Counter)
    for point, crate, place in places(rest[0] if rest else None):
        found[point][crate] += 1
        if wanted and point.startswith(wanted):
            print(place)
    if not wanted:
        for point in sorted(found):
            print(f'{point}: {sum(found[point].values())} ({", ".join(f"{crate} {n}" for crate, n in found[point].items())})')


main()
