#!/usr/bin/env python3
"""Places of crates/*/src that may be written in a plainer form. Each line printed is a place to look at, not a verdict.

    tools/forms.py twins [LEAST]   functions and types that are alike but for names, types and numbers: each pair, and how much of their
                                   tokens is the same, from LEAST of 1 on (0.9)
    tools/forms.py together        parameters that stand side by side in three functions or more
    tools/forms.py asked           facts that the contracts of three functions or more ask of their callers
"""
import difflib
import pathlib
import re
import sys
from collections import defaultdict

KEYWORDS = set('as break const continue else enum extern fn for if impl in let loop match mut pub return self Self struct while'.split())
TOKEN = re.compile(r"[A-Za-z_]\w*|0x[0-9a-f_]+|\d[\d_]*|->|=>|::|\.\.=|\.\.|[<>=!+*/%-]=|&&|\|\||\S")
HEAD = re.compile(r'( *)(?:pub(?:\(\w+\))? )?(?:extern "C" )?(fn|struct|enum) (\w+)')
root = pathlib.Path(__file__).resolve().parent.parent


def items():
    """File, kind, name and lines of each function, struct and enum, without comments."""
    for path in sorted(root.glob('crates/*/src/*.rt')):
        lines = [re.sub(r' *//.*', '', line) for line in path.read_text().split('\n')]
        at = 0
        while at < len(lines):
            head = HEAD.match(lines[at])
            at += 1
            if head:
                end = at
                if not re.search(r'[;}]$', lines[at - 1]):
                    # A method without a body ends with its last clause.
                    while lines[end] != head.group(1) + '}' and not re.search(r' \{\}$|^ *ensures\b.*\};$', lines[end]):
                        end += 1
                    end += 1
                yield path.relative_to(root), head.group(2), head.group(3), lines[at - 1:end]
                at = end


def fold(token):
    if token in KEYWORDS or not re.match(r'\w', token):
        return token
    return '0' if token[0].isdigit() else 'x'


def twins(least):
    found = []
    for path, kind, name, lines in items():
        code = ' '.join(line for line in lines if not re.match(r' *(requires|ensures)\b', line))
        tokens = [fold(token) for token in TOKEN.findall(code)]
        if len(tokens) > 24:
            found.append((f'{path}: {name}', kind, tokens))
    pairs = []
    for i, (one, kind, tokens) in enumerate(found):
        for other, other_kind, other_tokens in found[i + 1:]:
            alike = difflib.SequenceMatcher(None, tokens, other_tokens, autojunk=False)
            if kind == other_kind and alike.quick_ratio() >= least and alike.ratio() >= least:
                pairs.append((alike.ratio(), len(tokens), one, other))
    for ratio, length, one, other in sorted(pairs, reverse=True):
        print(f'{ratio:.2f} {length:4} {one} | {other}')
    print(len(pairs))


def signature(lines):
    text = ' '.join(lines)
    return re.search(r'\((.*?)\)(?: ->|\s*(?:where|requires|ensures|\{))', text)


def together():
    groups = defaultdict(set)
    for path, kind, name, lines in items():
        inside = kind == 'fn' and signature(lines)
        if inside:
            names = [p.split(':')[0].strip() for p in re.split(r',(?![^<\[(]*[>\])])', inside.group(1)) if ':' in p]
            for i in range(len(names)):
                for j in range(i + 2, len(names) + 1):
                    groups[', '.join(names[i:j])].add(f'{path}: {name}')
    report({k: v for k, v in groups.items() if not any(k in other and v <= w and k != other for other, w in groups.items())})


def asked():
    facts = defaultdict(set)
    for path, kind, name, lines in items():
        for line in lines:
            clause = re.match(r' *requires [^{]*\{ (.*) \}$', line)
            if clause:
                for fact in clause.group(1).split(' × '):
                    facts[fact.strip('()')].add(f'{path}: {name}')
    report(facts)


def report(places):
    kept = {k: v for k, v in places.items() if len(v) > 2}
    for what, where in sorted(kept.items(), key=lambda x: (-len(x[1]), x[0])):
        print(f'{len(where):3} {what}    {"; ".join(sorted(where))}')
    print(len(kept))


if sys.argv[1:2] == ['twins']:
    twins(float(sys.argv[2]) if len(sys.argv) > 2 else 0.9)
elif sys.argv[1:] == ['together']:
    together()
elif sys.argv[1:] == ['asked']:
    asked()
else:
    sys.exit(__doc__)
