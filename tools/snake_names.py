#!/usr/bin/env python3
"""Brings the repository's own names in antt to the toolchain's spelling: functions, lemmas, fields and variables in snake
case (`treesOf` and `trees-fit` become `trees_of` and `trees_fit`); types and modules keep their capitals.

    tools/snake_names.py [--list] [FOLDER]

An own name is one with a dash, or in lower camel case, that stands in a crate's specs/ or proofs/, that no file takes from
a library of the toolchain, and that Rattle did not make of the code. It is turned wherever it stands: in specs/ and proofs/, in the contracts
and remarks of src/, in must-fail/, and between backticks in the pages. A second run changes nothing, but for a page
that tells how a name was spelled before. --list prints the names and changes nothing.
"""
import os
import re
import sys

# A word, or the sign of an operator of the repository's own with a word after it, as in `≼-refl`.
NAME = re.compile(r"(?<![\w'ℤℕ-])(?:[A-Za-z][A-Za-z0-9_'ℤℕ·]*|[≼⊕⊖⊗](?=-))(?:-[A-Za-z0-9_'ℤℕ·]+)*")
# In the proof of a routine: its goals, and what is known at a place of its code. Rattle makes these names of the code's.
GOALS = re.compile(r"^use Rattle\.[\w.]*\.(?:Goals|Given)\.\{([^}]*)\}", re.M)
DECLARED = re.compile(r"^\s*(?:pub |abbrev |let )*(" + NAME.pattern + r") :", re.M)
MADE = re.compile(r"(?:\b(?:goal|given|Goals|Given)\.|(?<![\w.])c\.)(" + NAME.pattern + ")")
LIBRARY = re.compile(r"^use (?:Rattle\.(?:std|core|alloc)|Prim|mathlib|native|lib|borrow)\b[^{\n]*\{([^}]*)\}", re.M)
# Laws that would fall together with the definition that they are about: a law gets `_lem`, as the toolchain's do; and three more names. Those with
# underscores are as port.py leaves them; such a name is a law's while its definition is in camel case.
APART = {
    **{
        name: name.replace("-", "_") + "_lem"
        for name in (
            "as-written as_written both-lines by-read by_read crown-group declared-as greatest-root in-order in_order listing-lines not-own not_own"
            " of-line one-tree root-group row-high small-alone small-given small-part species-in-range stem-ends"
        ).split()
    },
    "fits-at": "fits_there",
    "no-line": "of_no_line",
    "no_line": "of_no_line",
    "small-of": "small_number_of",
    "small_of": "small_number_of",
}
STRING = re.compile(r'"(?:[^"\\]|\\.)*"')


def is_turned(name):
    """Whether the toolchain spells a name in another way: it has a dash, or a capital in a word that begins small."""
    return "-" in name or re.match(r"[a-z][a-z0-9_]*[A-Z]", name) is not None


def plain_snake(name):
    """A capital that begins a hump is a word's; one between dashes is a symbol of the papers, as in `T-of`."""
    return re.sub(r"(?<=[a-z0-9])([A-Z])", lambda m: "_" + m[1].lower(), name).replace("-", "_")


def twin(name):
    """The name in lower camel case that would fall together with this one."""
    words = re.split("[-_]", name)
    return words[0] + "".join(w.capitalize() for w in words[1:])


def spellings(own):
    """How each own name is spelled from now on."""
    new = {name: plain_snake(name) for name in own}
    new.update((name, apart) for name, apart in APART.items() if "-" in name or twin(name) in own)
    return new


def spelled_so_far(root, new):
    """And for what port.py leaves alone, edits and pages: the names that it has turned in the crates before."""
    words = set()
    for path in files(os.path.join(root, "crates"), ".antt"):
        words.update(NAME.findall(read(path)))
    older = set()
    for path in [*files(os.path.join(root, "crates"), ".edit"), *files(root, ".md")]:
        older |= names_of(read(path))
    return {name: plain_snake(name) for name in older if plain_snake(name) in words} | new


def files(root, *endings):
    for folder, folders, names in os.walk(root):
        folders[:] = sorted(f for f in folders if f not in (".git", "out", "target"))
        for name in sorted(names):
            if name.endswith(endings):
                yield os.path.join(folder, name)


def read(path):
    with open(path, encoding="utf-8") as f:
        return f.read()


def without_remarks(text):
    return re.sub(r"--.*", "", text)


def is_proof_of_routine(path):
    folder, name = os.path.split(path)
    return name in ("Answers.antt", "Invariants.antt", "Proof.antt") and os.path.basename(folder) != "Law"


def library_names(text):
    return {n for names in LIBRARY.findall(text) for n in names_of(names)}


def made_in(text):
    return set(MADE.findall(text)) | {n for names in GOALS.findall(text) for n in names_of(names)}


def own_in_routine(folder):
    """The names that the proof of a routine gives itself: they are declared there, or stand without a point before them."""
    own = set()
    for path in (os.path.join(folder, name) for name in ("Invariants.antt", "Answers.antt")):
        if os.path.exists(path):
            text = without_remarks(read(path))
            found = {m[0] for m in NAME.finditer(text) if m.start() == 0 or text[m.start() - 1] != "."} | set(DECLARED.findall(text))
            own |= {n for n in found if is_turned(n)} - library_names(text) - made_in(text)
    return own


def names_of(text):
    return {n for n in NAME.findall(text) if is_turned(n)}


def own_names(root):
    own, taken = set(), set()
    for path in files(os.path.join(root, "crates"), ".antt"):
        text = without_remarks(read(path))
        taken |= library_names(text)
        if not is_proof_of_routine(path):
            own |= names_of(text)
    return own - taken


def turn_names(text, new, kept=frozenset()):
    return NAME.sub(lambda m: m[0] if m[0] in kept else new.get(m[0], m[0]), text)


def turn_code(text, new):
    """All but the strings of a source file."""
    out, at = [], 0
    for m in STRING.finditer(text):
        out += [turn_names(text[at:m.start()], new), m[0]]
        at = m.end()
    return "".join(out) + turn_names(text[at:], new)


def turn_page(text, new):
    """What stands between backticks, on one line or on several."""
    return re.sub(r"```.*?```|`[^`\n]+`", lambda m: turn_names(m[0], new), text, flags=re.S)


def turned(path, new):
    text = read(path)
    if path.endswith(".antt"):
        if not is_proof_of_routine(path):
            return text, turn_names(text, new)
        own = own_in_routine(os.path.dirname(path))
        return text, turn_names(text, {name: plain_snake(name) for name in own} | new, made_in(without_remarks(text)))
    if path.endswith(".rt"):
        return text, turn_code(text, new)
    if path.endswith(".edit"):
        return text, turn_names(text, new)
    return text, turn_page(text, new)


def main():
    listed = "--list" in sys.argv
    rest = [a for a in sys.argv[1:] if a != "--list"]
    root = rest[0] if rest else "."
    new = spellings(own_names(root))
    if listed:
        for name in sorted(new):
            print(name, new[name])
        return
    changed, left = 0, spelled_so_far(root, new)
    for path in [*files(os.path.join(root, "crates"), ".antt", ".rt", ".edit"), *files(root, ".md")]:
        before, after = turned(path, new if path.endswith((".antt", ".rt")) else left)
        if after != before:
            changed += 1
            with open(path, "w", encoding="utf-8") as f:
                f.write(after)
    print(f"{len(new)} names, {changed} files")


if __name__ == "__main__":
    main()
