#!/usr/bin/env python3
"""tools/port/spell.py: gives the definitions and lemmas of this repository the spelling of today's Rattle: words in snake case, types and modules in camel case.

Run once, at the top, after Rattle's own port.py. It goes through specs/ and proofs/ of each crate, and through the clauses and `ghost use` lines of src/. What it leaves alone:
functions, fields and constants of src/, names of other libraries, text between quotation marks. A dash stays where it joins the names of two definitions, as in `line-length`;
before or behind a plain word it becomes an underscore. Two names of one file that would fall together, or a new name that stands already, end it before anything is written."""
import collections
import os
import re
import sys

WORD = re.compile(r'''"(?:[^"\\]|\\.)*"|[\w◌][\w◌'-]*''')
DECLARED = re.compile(r"^\s*(?:abbrev |unfoldable )?(?:pub )?(?:record |data )?([^\s:(){}]+) :(?!=)")
CAMEL = re.compile(r'(?<=[a-z0-9])([A-Z])')
IMPORT = re.compile(r'^\s*(?:ghost )?(?:pub )?use ([\w.◌+-]+?)(?:\.\{(.*)\}| as .*)?;?$')
CRATES = ('part', 'hub', 'host', 'lister', 'listing', 'listing240', 'sheets')


def files(*ends):
    for crate in CRATES:
        for folder, _, names in os.walk(os.path.join('crates', crate)):
            if '/out' not in folder:
                yield from (os.path.join(folder, name) for name in sorted(names) if name.endswith(ends))


def read(path):
    with open(path, encoding='utf-8') as f:
        return f.read()


def is_own(module):
    return module.split('.')[0] == 'Rattle' and module.split('.')[1] in CRATES


def imported(text):
    """The names that a file takes from other libraries."""
    for line in text.splitlines():
        found = IMPORT.match(line)
        if found and found[2] and not is_own(found[1]):
            yield from (name.split(' as ')[0].strip() for name in found[2].split(','))


def snake(part):
    """A camel-case word that begins small, in snake case; one that begins with a capital names a type and stays."""
    return CAMEL.sub(lambda m: '_' + m[1].lower(), part) if part[:1].islower() else part


def spelled(name, known):
    parts = [snake(part) for part in name.split('-')]
    if len(parts) != 2:
        return '_'.join(parts)
    new = parts[0]
    for before, after in zip(parts, parts[1:]):
        new += ('-' if before in known and after in known else '_') + after
    return new


def renamings():
    """Each own name that changes, with its new spelling."""
    declared, others, definitions = collections.defaultdict(set), set(), set()
    for path in files('.antt'):
        text = read(path)
        others.update(imported(text))
        if re.search(r'/proofs/.+/', path):  # the proof of a function: its names are Rattle's
            continue
        for line in text.splitlines():
            found = DECLARED.match(line)
            if found:
                declared[found[1]].add(path)
                if '/specs/' in path:
                    definitions.add(found[1])
    known = {snake(name) for name in definitions | others if '-' not in name}
    new = {name: spelled(name, known) for name in declared if name not in others}
    return {old: name for old, name in new.items() if old != name}, declared


def turned(text, renamed):
    def turn(found):
        word, before = found[0], text[:found.start()]
        if word.startswith('"') or word[0].isdigit():
            return word
        if '-' in word:
            # behind a dot it is a name of Rattle's, but for one of a module
            last = re.search(r"([\w'-]+)\.$", before)
            return word if last and not last[1][0].isupper() else renamed.get(word, word)
        return renamed.get(word) or snake(word)
    return WORD.sub(turn, text)


def turned_source(text, renamed):
    """The clauses and `ghost use` lines of a source."""
    out, inside = [], 0
    for line in text.split('\n'):
        if inside or re.match(r'\s*(ghost use |requires|ensures)', line):
            out.append(turned(line, renamed))
            inside = 0 if line.startswith('ghost use') else inside + line.count('{') - line.count('}')
        else:
            out.append(line)
    return '\n'.join(out)


def clashes(renamed, declared):
    for old, new in sorted(renamed.items()):
        same = [other for other in renamed if other != old and renamed[other] == new] + ([new] if new in declared else [])
        for other in same:
            if declared[old] & declared[other]:
                yield f'{old} and {other} of {", ".join(declared[old] & declared[other])} would both be {new}'


def main():
    renamed, declared = renamings()
    if '--list' in sys.argv:
        for old, new in sorted(renamed.items()):
            same = [other for other in renamed if other != old and renamed[other] == new] + ([new] if new in declared else [])
            print(old, new, *(f'ALSO {other}: {" ".join(sorted(declared[other]))}' for other in same))
        return
    found = list(clashes(renamed, declared))
    if found:
        sys.exit('\n'.join(found))
    for path in files('.antt', '.rt'):
        text = read(path)
        new = turned(text, renamed) if path.endswith('.antt') else turned_source(text, renamed)
        if new != text:
            with open(path, 'w', encoding='utf-8') as f:
                f.write(new)


if __name__ == '__main__':
    main()
