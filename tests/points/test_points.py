"""The list of one-point changes against the rule book as it stands, and a handful of them tried."""
import unittest

from book import ROWS, content, reached
from changes import CHANGES
from points import all_changes, verdicts


class TheList(unittest.TestCase):
    def test_every_text_stands_once(self):
        wrong = [change.name for change in all_changes() if content(f'{change.path}.antt').count(change.old) != 1]
        self.assertEqual(wrong, [])

    def test_no_change_is_listed_twice(self):
        every = [(change.path, change.old, change.new) for change in all_changes()]
        self.assertEqual(len(every), len(set(every)))

    def test_every_file_that_the_rows_stand_on_has_changes(self):
        self.assertEqual({path for path, changes in CHANGES.items() if changes}, reached(*ROWS.values()) - set(ROWS.values()))


class AHandful(unittest.TestCase):
    def test_some_are_refused_and_one_is_not(self):
        meant = {'positions are kept as one less': 'refused', 'nothing is ever hidden': 'refused', 'the last key may be taken again': 'refused',
                 '23 points at LENGTH': 'refused', 'no 27 for a rule with no ink': 'refused', 'keys below the last may be taken': 'refused',
                 'open clears the records': 'refused', 'every slot writes to slot 0': 'refused', 'take: one byte too few': 'refused',
                 'check: characters are 145 wide': 'refused', 'a chain above 1 reads as open': 'accepted'}
        changes = [change for change in all_changes() if change.meaning in meant]
        self.assertEqual({change.meaning: verdict for change, (verdict, _) in zip(changes, verdicts(changes))}, meant)


if __name__ == '__main__':
    unittest.main()
