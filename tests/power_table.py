#!/usr/bin/env python3
"""The library's tables and roots against separate high-precision software: Python's own whole numbers and decimals.

Reads the constant tables from the library's source text, and the crowns, roots and square roots that the proved library
returns, which the program of the tests prints: power_table.py OUTSIDE. One line to a check; the last line counts them.
"""
import pathlib
import re
import subprocess
import sys
from decimal import Decimal, ROUND_FLOOR, localcontext
from math import isqrt

tests = pathlib.Path(__file__).resolve().parent
crates = tests.parent / 'crates'
results = []


def check(name, faults, compared):
    """A check that compares nothing has checked nothing."""
    good = not faults and compared > 0
    results.append(good)
    for fault in faults[:5]:
        print(f'        {fault}')
    print(f'ok      {name}: {compared} comparisons' if good else f'FAILED  {name}: {len(faults)} of {compared} comparisons differ')


def constant(crate, file, name, kind):
    """The numbers of the constant array `name`; none where the source has no such array of just this type."""
    text = re.sub(r'//[^\n]*', '', (crates / crate / 'src' / file).read_text())
    found = re.findall(rf'^const {name}: {re.escape(kind)} = \[(.*?)^\];', text, re.M | re.S)
    if len(found) != 1 or re.search(r'[^\d\s,_\-\[\]]', found[0]):
        return []
    return [int(number.replace('_', '')) for number in re.findall(r'-?\d[\d_]*', found[0])]


def printed(table, places):
    """The protocol's decimals as whole numbers of units of 10^-places, row after row."""
    rows = [line.split() for line in (tests / 'protocol' / table).read_text().splitlines() if line and line[0] != '#']
    numbers = [Decimal(word).scaleb(p) for row in rows for word, p in zip(row, places)]
    assert all(number == int(number) for number in numbers)
    return [int(number) for number in numbers]


def differences(what, found, expected):
    if len(found) != len(expected):
        return [f'{what}: {len(found)} numbers, expected {len(expected)}']
    return [f'{what}, number {i}: {a}, expected {b}' for i, (a, b) in enumerate(zip(found, expected)) if a != b]


# k is in 10^-10 t, all else in mg, that is 10^-9 t.
crown = printed('crown.txt', (10, 9, 9))
root = printed('root.txt', (9, 9, 9))
check('source: k, a and b of the crown groups as printed', differences('CROWN', constant('biomass', 'crown.rt', 'CROWN', '[[i64; 3]; 8]'), crown), len(crown))
check('source: b, a and b of the root groups as printed', differences('ROOT', constant('biomass', 'root.rt', 'ROOT', '[[i64; 3]; 6]'), root), len(root))

# Powers in units of 10^-5 by decimals of 60 digits, of which the last alone can be off by one. d is in hundredths of a cm.
diameters = range(700, 5001)
with localcontext() as context:
    context.prec = 60
    powers = {d: (Decimal(d).scaleb(-2) ** Decimal('2.4767')).scaleb(5) for d in diameters}
    by_decimals = {d: int(power.to_integral_value(ROUND_FLOOR)) for d, power in powers.items()}
    away = {d: abs(power - power.to_integral_value()) for d, power in powers.items()}
numbers = constant('powers', 'crown.rt', 'POWER', '[u32; 4301]')
check('source: the 4,301 crown powers against 60-digit decimals', differences('POWER', numbers, list(by_decimals.values())), len(by_decimals))

# The rule itself: w^10000 ≤ limit < (w+1)^10000, of which both sides have up to 95,000 digits. They are never equal, since the limit is
# no 10000th power: so of each side the leading digits settle it.
table = dict(zip(diameters, numbers))
lost = [f'd {d}: no power' for d in diameters if d not in table]


def leading(base, exponent):
    """Whole numbers low, high and e with low·2^e ≤ base^exponent ≤ high·2^e, by squaring, one bit of the exponent at a time. Of what is
    cut off to keep some 256 bits, low drops all, and high gains one for it."""
    low, high, e = 1, 1, 0
    for bit in f'{exponent:b}':
        factor = base if bit == '1' else 1
        low, high, e = low * low * factor, high * high * factor, 2 * e
        cut = max(high.bit_length() - 256, 0)
        low, high, e = low >> cut, -(-high >> cut), e + cut
    return low, high, e


def below(one, other):
    """Whether the one power is less than the other, to be sure."""
    (_, high, e), (low, _, f) = one, other
    least = min(e, f)
    return high << e - least < low << f - least


faults = list(lost)
for d, w in table.items():
    tens, rest = leading(10, 466), leading(d, 24767)
    limit = tens[0] * rest[0], tens[1] * rest[1], tens[2] + rest[2]
    if not below(leading(w, 10000), limit) or not below(limit, leading(w + 1, 10000)):
        faults.append(f'd {d}: {w} is not to be seen as the greatest')
check('source: the 4,301 crown powers by the leading 256 bits of w^10000, 10^466·d^24767 and (w+1)^10000', faults, 2 * len(table))

# The same with every digit, which takes some 20 ms for each: of the whole tenths of a cm, and of the hundred powers that are nearest to a
# whole number, where digits too few would show first. The nearest is that of d 4293, 1.5·10^-5 away.
nearest = sorted(diameters, key=away.get)[:100]
faults = list(lost)
faults += [] if nearest[0] == 4293 and Decimal('1.5e-5') < away[4293] < Decimal('1.6e-5') else [f'nearest is d {nearest[0]}, {away[nearest[0]]} away']
sample = sorted({*range(700, 5001, 10), *nearest} & table.keys())
for d in sample:
    w, limit = table[d], 10 ** 466 * d ** 24767
    if not w ** 10000 <= limit < (w + 1) ** 10000:
        faults.append(f'd {d}: {w} is not the greatest with w^10000 ≤ 10^466·d^24767')
check(f'source: {len(sample)} crown powers, with d 4293, by w^10000 ≤ 10^466·d^24767 < (w+1)^10000', faults, 2 * len(sample) + 1)

# What the proved library returns. The powers here are Python's own, not the source text's.
def ends(kind, group, d):
    coefficient, a, b = (crown if kind == 'crown' else root)[3 * group:3 * group + 3]
    curved, unit = (d <= 5000, 10 ** 6) if kind == 'crown' else (d <= 3000, 10 ** 5)
    if not curved:
        low = (100 * a + b * d) // 100
        return low, low + 1
    power = by_decimals[d] if kind == 'crown' else isqrt(d ** 5)
    return coefficient * power // unit, coefficient * (power + 1) // unit + 1


wanted = {(kind, group, d) for kind, groups in (('crown', 8), ('root', 6)) for group in range(groups) for d in range(700, 10001)}
figures = subprocess.run([sys.argv[1], 'figures'], stdout=subprocess.PIPE, text=True, check=True).stdout
returned = {}
roots = {}
for line in figures.splitlines():
    kind, *words = line.split()
    numbers = [int(word) for word in words]
    if kind == 'square-root':
        x, *found = numbers
        roots[x] = tuple(found)
    else:
        group, d, low, high = numbers
        returned[kind, group, d] = low, high
for kind in ('crown', 'root'):
    keys = sorted(key for key in wanted if key[0] == kind)
    faults = [f'{key}: {returned.get(key)}, expected {ends(*key)}' for key in keys if returned.get(key) != ends(*key)]
    check(f'library: the {kind} of every group and d', faults, len(keys))

greatest = (2 ** 32 - 1) ** 2
ends_of_roots = [*range(5), *(2 ** 62 + i for i in (-1, 0, 1)), 2 ** 63, *(greatest + i for i in (-1, 0, 1)), 2 ** 64 - 1]
faults = [f'{x}: not returned' for x in ends_of_roots if x not in roots]
faults += [f'{x}: {found}, expected {(isqrt(x), isqrt(x) ** 2)}' for x, found in roots.items() if found != (isqrt(x), isqrt(x) ** 2)]
check('library: square roots, the ends of 64 bits and about squares', faults, len(roots))

print(f'{sum(results)} passed, {len(results) - sum(results)} failed')
sys.exit(0 if all(results) else 1)
