"""The names that the trusted specs give, with their lines, and those that mean two things. `python3 meanings.py` prints the clashes."""
import re
from typing import NamedTuple

from rattle import content, crates

TABLES = ('<!-- written by tools/lines -->', '<!-- up to here -->')
LISTED = re.compile(r'^\| `(\S+/specs/\S+\.antt)` \|', re.MULTILINE)
COMMENT = re.compile(r'(?:^|\s)--.*')
USED = re.compile(r'^use (\S+)\.\{([^}]*)\}', re.MULTILINE)
BLOCK = re.compile(r'(?:(?:unfoldable|abbrev) )*(?:module|mutual)\b')
MARKS = {'pub', 'abbrev', 'unfoldable', 'axiom', 'data', 'record'}
MEMBERS = {'data': 'constructor', 'record': 'field'}
# the kit's names that a field must not have, whether or not a file uses them
KIT = {'length', 'take', 'drop', 'map'}


class Name(NamedTuple):
    name: str
    kind: str
    line: int


def signature(row):
    """The words in front of a row's colon, those in brackets left out; none where it has no colon, or an equation comes first."""
    depth, head = 0, ''
    for letter in row + ' ':
        depth -= letter in ')}]'
        head += letter if depth == 0 and letter not in ')}]' else ''
        depth += letter in '({['
        if head.endswith(' : '):
            return re.sub(r'[({\[]', '', head[:-3]).split()
        if head.endswith(' = '):
            return []
    return []


def given(text):
    """Every name that a file gives: at its own level or in a `module _`, and the members of its records and data types."""
    found, levels, members = [], [0], None
    for line, row in enumerate(text.splitlines(), 1):
        row = COMMENT.sub('', row).rstrip()
        indent = len(row) - len(row.lstrip())
        if not row:
            continue
        while indent < levels[-1]:
            levels.pop()
        if members and indent < members[0]:
            members = None
        if members and indent == members[0]:
            found += [Name(word, members[1], line) for word in signature(row) if word not in MARKS]
        elif indent == levels[-1]:
            words = signature(row)
            kind = next((word for word in words if word in MEMBERS), 'definition')
            found += [Name(word, kind, line) for word in words if word not in MARKS]
            members = (indent + 2, MEMBERS[kind]) if kind in MEMBERS else None
            if BLOCK.match(row.strip()):
                levels.append(indent + 2)
    return found


def used(text):
    """The kit's names, as the file calls them."""
    found = []
    for match in USED.finditer(text):
        line = text.count('\n', 0, match.start()) + 1
        if not any(match.group(1).startswith(f'Rattle.{crate}.') for crate in crates()):
            found += [Name(word.split(' as ')[-1].split('.')[-1].strip(), 'name of the kit', line) for word in match.group(2).split(',')]
    return found


def clash(sites):
    """Whether the sites of one name are too many. A field is read behind its record, so it may be called like what it holds; never like the kit's."""
    kinds = [site.kind for site, _ in sites]
    fields, kit = kinds.count('field'), kinds.count('name of the kit')
    own = len(kinds) - fields - kit
    return own > 1 or own + fields > 0 and (kit > 0 or sites[0][0].name in KIT)


def clashes(texts):
    """A row for each name with two meanings in some texts by path; of the kit's names the first use is told."""
    sites = {}
    for path, text in texts.items():
        for name in given(text):
            sites.setdefault(name.name, []).append((name, path))
    for path, text in texts.items():
        for name in used(text):
            there = sites.get(name.name, [])
            if there and all(site.kind != name.kind for site, _ in there):
                there.append((name, path))
    return [told(name, sites[name]) for name in sorted(sites) if clash(sites[name])]


def told(name, sites):
    kit = [f"the kit's {name}"] if name in KIT and all(site.kind != 'name of the kit' for site, _ in sites) else []
    return f'{name}: ' + ', '.join([f'{site.kind} {path}:{site.line}' for site, path in sites] + kit)


def trusted():
    """The specs that docs/READING.md lists: to believe, and seams."""
    tables = content('docs/READING.md').split(TABLES[0])[1].split(TABLES[1])[0]
    return {path: content(path) for path in LISTED.findall(tables)}


if __name__ == '__main__':
    print('\n'.join(clashes(trusted())))
