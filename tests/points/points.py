#!/usr/bin/env python3
"""tests/points/points.py [NAME..]: makes one-point changes to the rule book, one at a time, and shows that the rows refuse each.

A name is a file of the rule book (Ranges) or one of its changes (Ranges.7); without one all are tried, in some five minutes on two cores.
A change is refused where the rows' theorems fail and nothing else does. Those that changes.py gives a reason for must be accepted; any other must not.
RT names the program to call for `rt`. The last line has the score, and the status is 0 where all is as it should be."""
import concurrent.futures
import os
import re
import shutil
import subprocess
import sys
import tempfile

from book import THEOREMS, make, write
from changes import CHANGES

ERROR = re.compile(r'/(?:specs|proofs)/C(\d+)/(\w+)\.antt:\d+:\d+: error: (?:`([^`]+)`: )?(.*)')
# what is said of a theorem whose two sides are not the same
DIFFER = ('expected type', 'computed as far as they go, the two types differ', 'as printed, the two types differ')
AT_ONCE = 40


class Change:
    def __init__(self, path, number, old, new, meaning, reason=None):
        self.path, self.old, self.new, self.meaning, self.reason = path, old, new, meaning, reason
        self.name = f'{os.path.basename(path)}.{number}'


def all_changes():
    return [Change(path, number, *change) for path, changes in CHANGES.items() for number, change in enumerate(changes, 1)]


def check(changes, quick=False):
    """One check with a copy for each change: whether all is proved, the errors of each copy as (file, definition, words), and the log."""
    with tempfile.TemporaryDirectory() as folder:
        write(f'{folder}/crates.txt', 'book:\n')
        make(f'{folder}/crates/book', changes, quick)
        done = subprocess.run([os.environ.get('RT', 'rt'), 'check'], capture_output=True, text=True, cwd=f'{folder}/crates/book')
    log = done.stdout + done.stderr
    errors = [[] for _ in changes]
    for copy, *error in ERROR.findall(log):
        errors[int(copy)].append(tuple(error))
    return done.returncode == 0 and 'logic=proved' in log, errors, log


def judged(errors):
    """Refused by the rows, or badly made: something else than the rows' theorems failed too."""
    others = [error for error in errors if error[1] not in THEOREMS or not error[2].startswith(DIFFER)]
    if others:
        file, name, words = others[0]
        return 'BADLY MADE', f'{file}: {name}: {words[:120]}'
    return 'refused', ', '.join(sorted({name for _, name, _ in errors}))


def verdicts(changes, quick=True):
    """What becomes of each change. Silence is no verdict: changes without an error are checked again without the others, by all theorems, until all is proved."""
    proved, errors, log = check(changes, quick)
    if proved and not quick:
        return [('accepted', '')] * len(changes)
    if len(changes) == 1 and not errors[0] and not quick:
        return [('BADLY MADE', log.strip()[-200:])]
    silent = [change for change, each in zip(changes, errors) if not each]
    together = quick or len(silent) < len(changes)
    again = iter((verdicts(silent, False) if together else [verdicts([change], False)[0] for change in silent]) if silent else [])
    return [judged(each) if each else next(again) for each in errors]


def asked(names):
    """The changes to try; an unknown name ends the program."""
    every = all_changes()
    known = {change.name for change in every} | {change.name.split('.')[0] for change in every}
    unknown = [name for name in names if name not in known]
    if unknown:
        sys.exit(f'no such change: {" ".join(unknown)}')
    return [change for change in every if not names or change.name in names or change.name.split('.')[0] in names]


def tried(changes):
    """Every change with what became of it, and whether it should have."""
    groups = [changes[k:k + AT_ONCE] for k in range(0, len(changes), AT_ONCE)]
    with concurrent.futures.ThreadPoolExecutor(2) as pool:
        for group, found in zip(groups, pool.map(verdicts, groups)):
            for change, (verdict, words) in zip(group, found):
                yield change, verdict, words, verdict == ('accepted' if change.reason else 'refused')


def main(names):
    changes = asked(names)
    if not shutil.which(os.environ.get('RT', 'rt')):
        sys.exit('rt, the Rattle toolchain, is not on the PATH: nothing can be tried')
    if not check([None])[0]:
        sys.exit('the rule book as it stands is not proved')
    refused = accepted = wrong = 0
    for change, verdict, words, right in tried(changes):
        refused, accepted, wrong = refused + (verdict == 'refused'), accepted + (verdict == 'accepted'), wrong + (not right)
        print(f'{"" if right else "WRONG: "}{verdict} {change.name}: {change.meaning}{"; " + change.reason if change.reason else ""}{" (" + words + ")" if words else ""}', flush=True)
    print(f'{len(changes)} changes: {refused} refused, {accepted} accepted, {wrong} not as they should be')
    return 1 if wrong else 0


if __name__ == '__main__':
    sys.exit(main(sys.argv[1:]))
