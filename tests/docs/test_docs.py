"""The docs against the tree: names exist, every definition is told of, links lead somewhere, counts are current."""
import os
import re
import subprocess
import sys
import unittest

from rattle import ROOT, Names, content

NAMES = Names()
DOCS = ['README.md', *sorted(os.path.join('docs', name) for name in os.listdir(os.path.join(ROOT, 'docs')) if name.endswith('.md'))]
CODE = re.compile(r'`([^`\n]+)`')
QUALIFIED = re.compile(r"^([A-Z]\w*)\.(?!antt$)([^\s.:/]\S*)$")
PLACES = ('crates/', 'tests/', 'docs/', 'tools/', 'peer/', 'include/', 'examples/', '.ci/')
HELPERS = '## The rest of the rule book, by file'
# a word of the language, and variables of a formula: nobody's definitions
WORDS = {'requires', 'a', 'b', 'xs', 'ys'}


def quoted(text):
    """What stands between backticks; of `name : Type` the name."""
    return [word.split(' : ')[0] for word in CODE.findall(text)]


def qualified(text):
    """Module.name, where there is such a module."""
    found = [QUALIFIED.match(word) for word in quoted(text)]
    return [(m.group(1), m.group(2)) for m in found if m and m.group(1) in NAMES.by_module]


def helpers():
    """The names that RULES.md lists as helpers, by file."""
    rows = [row.split('|') for row in content('docs/RULES.md').split(HELPERS)[1].splitlines() if row.startswith('| `')]
    return {quoted(row[1])[0]: set(quoted(row[2])) for row in rows}


class NamesExist(unittest.TestCase):
    def test_rules_names_modules_that_are_there(self):
        known = {match.group(1) for match in map(QUALIFIED.match, quoted(content('docs/RULES.md'))) if match} - {'Module'}
        self.assertEqual(known - set(NAMES.by_module), set())

    def test_helpers_stand_in_their_files(self):
        wrong = {path: sorted(listed - set(NAMES.own.get(path, []))) for path, listed in helpers().items()}
        self.assertEqual({path: names for path, names in wrong.items() if names}, {})

    def test_promises_names_things_that_are_there(self):
        words = {word.lstrip('_') for word in quoted(content('docs/PROMISES.md')) if re.fullmatch(r"[\w'-]+", word)} - WORDS
        unknown = {word for word in words if word not in NAMES.all and f'halviruso_{word}' not in NAMES.all and not os.path.exists(os.path.join(ROOT, 'crates', word))}
        self.assertEqual(unknown, set())

    def test_promises_names_edits_that_are_there(self):
        edits = [word.split('/') for word in quoted(content('docs/PROMISES.md')) if re.fullmatch(r'\w+/\w+', word) and not word.startswith(PLACES)]
        self.assertGreater(len(edits), 0)
        self.assertEqual([edit for edit in edits if not os.path.exists(os.path.join(ROOT, 'crates', edit[0], 'must-fail', edit[1] + '.edit'))], [])


class DefinitionsAreRead(unittest.TestCase):
    def test_rules_lists_no_helper_twice(self):
        told = set(qualified(content('docs/RULES.md').split(HELPERS)[0]))
        twice = {path: {name for name in listed if (os.path.basename(path)[:-5], name) in told} for path, listed in helpers().items()}
        self.assertEqual({path: names for path, names in twice.items() if names}, {})


class Decisions(unittest.TestCase):
    def test_the_decisions_that_rules_and_reading_cite_are_there(self):
        there = set(re.findall(r'(?:\*\*|\| )(D\d+)\b', content('docs/DECISIONS.md')))
        for name in ('RULES', 'READING', 'PROMISES'):
            cited = set(re.findall(r'\bD\d+\b', content(f'docs/{name}.md')))
            self.assertEqual(cited - there, set(), name)


class Counts(unittest.TestCase):
    def setUp(self):
        made = subprocess.run([sys.executable, '-B', os.path.join(ROOT, 'tools', 'lines')], capture_output=True, text=True, check=True)
        self.made = made.stdout

    def test_reading_has_the_current_counts(self):
        self.assertTrue(self.made in content('docs/READING.md'), 'docs/READING.md is behind: tools/lines docs/READING.md')

    def test_every_file_of_the_rule_book_has_its_place(self):
        self.assertNotIn('NOT PLACED', self.made)


def add(kind, name, test):
    setattr(kind, 'test_' + re.sub(r'\W+', '_', name), test)


def names_exist(doc):
    def test(self):
        wrong = [f'{module}.{name}' for module, name in qualified(content(doc)) if name not in NAMES.by_module[module]]
        self.assertEqual(wrong, [])
    return test


def links_lead_somewhere(doc):
    def test(self):
        here = os.path.join(ROOT, os.path.dirname(doc))
        links = [link.split('#')[0] for link in re.findall(r'\]\(([^)\s]+)\)', content(doc)) if '://' not in link]
        self.assertEqual([link for link in links if link and not os.path.exists(os.path.join(here, link))], [])
    return test


def paths_exist(doc):
    def test(self):
        named = [word for word in quoted(content(doc)) if word.startswith(PLACES) and ' ' not in word and '*' not in word]
        self.assertEqual([path for path in named if not os.path.exists(os.path.join(ROOT, path))], [])
    return test


def all_told(path):
    def test(self):
        rules, module = content('docs/RULES.md'), os.path.basename(path)[:-len('.antt')]
        alone = sum(os.path.basename(other) == os.path.basename(path) for other in NAMES.own) == 1
        told = {name for other, name in qualified(rules) if other == module and alone} | helpers().get(path, set())
        self.assertEqual([name for name in NAMES.own[path] if name not in told], [])
    return test


for each in DOCS:
    add(NamesExist, f'names_in_{each}', names_exist(each))
    add(NamesExist, f'links_in_{each}', links_lead_somewhere(each))
    add(NamesExist, f'paths_in_{each}', paths_exist(each))
for each in NAMES.own:
    if not each.endswith('/Lib.antt'):
        add(DefinitionsAreRead, f'all_of_{each}', all_told(each))

if __name__ == '__main__':
    unittest.main()
