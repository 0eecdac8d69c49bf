#!/usr/bin/env python3
"""Makes books from text: each FILE.field that is named becomes FILE.book beside it. Where none is named, all those beside this
script are made, and the books `largest` and `cut` by the rules below.

A line of a FILE.field is a command in one of the forms of COMMANDS; # begins a comment. Only the form is looked at here.
Whether the book is accepted, the program `sheet` says.
"""
import pathlib
import struct
import sys

here = pathlib.Path(__file__).resolve().parent

# In the order of the command bytes, 01 to 08. A letter that `struct` knows stands for a number of its width: B one byte, H two,
# I four, i four with a sign.
COMMANDS = [
    'species B crown B root B gravity B constants i i i i',
    'factor B cm B',
    'open stratum B species B p I q I',
    'measured B cm H',
    'height B cm H',
    'close',
    'end',
    'small I mg I',
]


def command(line):
    """The bytes of one command."""
    words = line.split()
    for byte, form in enumerate(COMMANDS, 1):
        form = form.split()
        widths = [want for want in form if want in 'BHIi']
        numbers = [word for want, word in zip(form, words) if want in 'BHIi']
        if len(form) == len(words) and all(want in 'BHIi' or want == word for want, word in zip(form, words)):
            return struct.pack('>B' + ''.join(widths), byte, *map(int, numbers))
    raise ValueError('no command has this form')


def book(source, lines):
    """The bytes of all commands. A line that is none ends the script with its number."""
    commands = []
    for number, line in enumerate(lines, 1):
        line = line.partition('#')[0].strip()
        try:
            commands.append(command(line) if line else b'')
        except (ValueError, struct.error) as error:
            sys.exit(f'{source}, line {number}: {line}: {error}')
    return b''.join(commands)


def largest():
    """65,536 bytes: 16 species; all factors but one; 32 lines, each of 1,000,000 measured and as many estimated trees, of 100
    cm in the first down to 7 cm in the last; 1,000 height trees in 15 of the lines, and in the others what there is room for."""
    for i in range(16):
        yield f'species {i} crown {i % 8} root {i % 6} gravity {100 - i} constants {50 - i}0000000 0 0 0'
    for cm in range(7, 101):
        if cm != 8:
            yield f'factor {cm} cm {200 - cm}'
    for i in range(32):
        yield f'open stratum {255 - i} species {i % 16} p 100000000 q 100000000'
        yield from [f'measured {100 - 3 * i} cm 65535'] * 15
        yield f'measured {100 - 3 * i} cm {1_000_000 - 15 * 65535}'
        yield from [f'height {max(10, 100 - 3 * i)} cm 600'] * (1000 if i < 15 else 606 if i == 15 else 1)
        yield 'close'
    yield 'end'


def cut():
    """The first 50 bytes of the listing, as a copy that broke off leaves them. The last command lacks 5 of its 11 bytes."""
    return (here / 'listing.book').read_bytes()[:50]


def main():
    named = [pathlib.Path(word) for word in sys.argv[1:]]
    for path in named or sorted(here.glob('*.field')):
        path.with_suffix('.book').write_bytes(book(path, path.read_text().splitlines()))
    if not named:
        (here / 'largest.book').write_bytes(book('largest', largest()))
        (here / 'cut.book').write_bytes(cut())


main()
