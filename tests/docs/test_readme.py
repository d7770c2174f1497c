"""The README's worked example: each command, in a POSIX shell, prints what stands below it."""
import os
import platform
import subprocess
import unittest

ROOT = os.path.dirname(os.path.dirname(os.path.dirname(os.path.abspath(__file__))))
PROMPT = '    $ '


def commands(text):
    """Every command with the indented lines below it."""
    blocks = [block.splitlines() for block in text.split('\n\n') if block.startswith(PROMPT)]
    found = []
    for row in [row for block in blocks for row in block]:
        if row.startswith(PROMPT):
            found.append([row[len(PROMPT):], ''])
        else:
            found[-1][1] += f'{row[4:]}\n'
    return found


def here(command):
    """What runs on x86-64 alone runs by what the README names for other processors."""
    return command if platform.machine() == 'x86_64' else command.replace('target/bin/listing', 'tools/list')


class Readme(unittest.TestCase):
    def test_every_command_prints_what_stands_below_it(self):
        with open(os.path.join(ROOT, 'README.md'), encoding='utf-8') as file:
            found = commands(file.read())
        self.assertEqual(len(found), 5)
        for command, printed in found:
            made = subprocess.run(['sh', '-c', here(command)], cwd=ROOT, capture_output=True, text=True, check=False)
            self.assertEqual((command, made.returncode, made.stdout), (command, 0, printed), made.stderr)


if __name__ == '__main__':
    unittest.main()
