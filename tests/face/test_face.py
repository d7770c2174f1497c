"""The library crates' public functions: none has a `requires`, and functions.txt holds them all."""
import difflib
import os
import unittest

from face import functions, libraries, rows

STORED = os.path.join(os.path.dirname(os.path.abspath(__file__)), 'functions.txt')


def stored():
    if not os.path.exists(STORED):
        return []
    with open(STORED, encoding='utf-8') as file:
        return file.read().splitlines()


class Face(unittest.TestCase):
    def none(self, rows_at_fault, why):
        if rows_at_fault:
            self.fail('\n'.join([why, *rows_at_fault]))

    def test_no_public_function_has_a_requires(self):
        asking = [f'{crate} {function.module} {function.name}' for crate in libraries() for function in functions(crate) if function.requires]
        self.none(asking, 'these can be called from outside, and ask something of their caller:')

    def test_every_public_function_is_listed(self):
        changed = [row for row in difflib.ndiff(stored(), rows()) if row[0] in '+-']
        self.none(changed, 'functions.txt has others (-) than there are (+); if the change is meant, tests/face/run --write')


if __name__ == '__main__':
    unittest.main()
