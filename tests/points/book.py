"""The rule book and its rows as one crate that stands alone: a copy for each change to try, each in a folder of its own."""
import functools
import os
import re

ROOT = os.path.dirname(os.path.dirname(os.path.dirname(os.path.abspath(__file__))))
# where each crate's rows are, and the theorems that hold them to the definitions: in the file of that name in proofs/, or beside them
ROWS = {'part': 'part/specs/Sheets', 'hub': 'hub/specs/Trials', 'host': 'host/specs/Increments'}
THEOREMS = {'sheets-hold', 'further-hold', 'read_back_hold', 'lyings-hold', 'trials-hold', 'sheets_check', 'increments-hold'}
# the paper's own rows take longest to compute, and few changes need them
SLOW = re.compile(r'^pub sheets-hold :.*?\n\n', re.M | re.S)
USE = re.compile(r'Rattle\.(part|hub|host)\.specs\.(?:declared\.(\w+)|(\w+))')
STRUCT = re.compile(r'^pub struct \w+ \{\n.*?^\}\n', re.M | re.S)
SHARED = re.compile(r'^use \w+::(\w+)::(.+);\n', re.M)


def content(path):
    with open(os.path.join(ROOT, 'crates', path), encoding='utf-8') as file:
        return file.read()


def write(path, text):
    os.makedirs(os.path.dirname(path), exist_ok=True)
    with open(path, 'w', encoding='utf-8') as file:
        file.write(text)


@functools.lru_cache(None)
def used(spec):
    """The spec files that a spec file uses, and the source files whose structs it uses."""
    found = USE.findall(content(f'{spec}.antt'))
    return {f'{crate}/specs/{name}' for crate, _, name in found if name}, {f'{crate}/src/{source}' for crate, source, _ in found if source}


def reached(*specs):
    """Some spec files and all that they stand on."""
    known, ahead = set(), list(specs)
    while ahead:
        spec = ahead.pop()
        if spec not in known:
            known.add(spec)
            ahead += used(spec)[0]
    return known


def copied(change):
    """The spec files to copy for a change: those that stand on its file, up to the rows of its crate; without a change all of them."""
    if not change:
        return reached(*ROWS.values())
    return {spec for spec in reached(ROWS[change.path.split('/')[0]]) if change.path in reached(spec)}


def theorems(own):
    """The files of proofs/ with the theorems about the rows that are among some spec files."""
    held = [rows.replace('/specs/', '/proofs/') for rows in ROWS.values() if rows in own]
    return [path for path in held if os.path.exists(os.path.join(ROOT, 'crates', f'{path}.antt'))]


def structs(path):
    """A source file with its structs alone."""
    text = content(f'{path}.rt')
    return SHARED.sub(r'use super::\1::\2;\n', ''.join(match.group() for match in SHARED.finditer(text))) + '\n'.join(STRUCT.findall(text))


def led(text, copy, own):
    """A spec file's text, with its uses led to the copy of what is copied, and else to the files that all copies share."""
    def place(use):
        if use[2]:
            return f'Rattle.book.specs.declared.{use[2]}'
        return f'Rattle.book.specs.{copy if f"{use[1]}/specs/{use[3]}" in own else "Shared"}.{use[3]}'
    return USE.sub(place, text)


def write_module(folder, copy, own, files, change=None, quick=False):
    """A module of copied files, one of them with the change; a quick one leaves the slow theorem out."""
    write(f'{folder}/{copy}.antt', ''.join(f'pub mod {os.path.basename(path)}\n' for path in sorted(files)))
    for path in files:
        text = content(f'{path}.antt')
        if change and change.path == path:
            text = text.replace(change.old, change.new)
        if quick:
            text = SLOW.sub('', text)
        write(f'{folder}/{copy}/{os.path.basename(path)}.antt', led(text, copy, own))


def make(folder, changes, quick=False):
    """Writes the crate `book` to a folder: copy Ck of the rule book has the k-th change, or none where it is None."""
    copies = [copied(change) for change in changes]
    shared = set().union(*({spec for name in [*own, *theorems(own)] for spec in used(name)[0]} - own for own in copies))
    shared = reached(*shared)
    sources = sorted(set().union(*(used(spec)[1] for spec in shared.union(*copies))))
    for path in sources:
        write(f'{folder}/src/{os.path.basename(path)}.rt', structs(path))
    write(f'{folder}/src/lib.rt', ''.join(f'pub mod {os.path.basename(path)};\n' for path in sources))
    names = [f'C{k}' for k in range(len(copies))]
    write(f'{folder}/specs/Lib.antt', ''.join(f'pub mod {copy}\n' for copy in ['Shared', *names]))
    write(f'{folder}/proofs/Lib.antt', ''.join(f'pub mod {copy}\n' for copy in names))
    write_module(f'{folder}/specs', 'Shared', shared, shared)
    for copy, change, own in zip(names, changes, copies):
        write_module(f'{folder}/specs', copy, own, own, change, quick)
        write_module(f'{folder}/proofs', copy, own, theorems(own), None, quick)
