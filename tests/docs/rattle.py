"""What is defined in the crates: names in specs, proofs and src, read off the files."""
import glob
import os
import re

ROOT = os.path.dirname(os.path.dirname(os.path.dirname(os.path.abspath(__file__))))
DEFINED = re.compile(r'^(\s*)(?:abbrev |unfoldable )?(pub )?(?:(record|data) )?([^\s(){}:]+)(?: \(.*\))* :')
FUNCTION = re.compile(r'^\s*(?:pub )?(?:extern "C" )?fn (\w+)')


def content(path):
    with open(os.path.join(ROOT, path), encoding='utf-8') as file:
        return file.read()


def crates():
    rows = [row.split('#')[0].strip() for row in content('crates.txt').splitlines()]
    return [row.split(':')[0].split()[0] for row in rows if row]


def paths(crate, folder, ending):
    found = glob.glob(os.path.join(ROOT, 'crates', crate, folder, '**', '*' + ending), recursive=True)
    return sorted(os.path.relpath(path, ROOT) for path in found)


def names(text):
    """(name, whether it stands for itself): a field of a record or a constructor of a type belongs to that."""
    found, inside = [], None
    for row in text.splitlines():
        match = DEFINED.match(row.split('--')[0] if not row.startswith('--') else '')
        if not match:
            if row.strip() and not row.startswith(' '):
                inside = None
            continue
        indent, public, kind, name = match.groups()
        member = inside is not None and len(indent) > inside
        if not member:
            inside = len(indent) if kind else None
        if member or public or kind or not indent:
            found.append((name, not member and bool(public)))
    return found


class Names:
    """Every definition, by the module (the file's name) that it stands in."""

    def __init__(self):
        self.by_module, self.own, self.all = {}, {}, set()
        for crate in crates():
            for folder in ('specs', 'proofs'):
                for path in paths(crate, folder, '.antt'):
                    self._take(path, folder == 'specs')
            for path in paths(crate, 'src', '.rt'):
                self.all |= {match.group(1) for match in map(FUNCTION.match, content(path).splitlines()) if match}

    def _take(self, path, spec):
        module, found = os.path.basename(path)[:-len('.antt')], names(content(path))
        self.by_module.setdefault(module, set()).update(name for name, _ in found)
        self.all |= {name for name, _ in found} | {module}
        if spec:
            self.own[path] = [name for name, alone in found if alone]
