"""What a test of faults needs: a folder of its own, a tool run in it, and the one line that it must say."""
import os
import resource
import subprocess
import sys
import tempfile
import unittest

import paths

SMALL = 1000  # bytes, where a file may not grow


class Faults(unittest.TestCase):
    TOOL = None
    WORDS = ()

    def setUp(self):
        holder = tempfile.TemporaryDirectory()
        self.addCleanup(holder.cleanup)
        self.folder = holder.name
        os.mkdir(self.path('folder'))

    def path(self, name):
        return os.path.join(self.folder, name)

    def file(self, name, data, mode=0o644):
        with open(self.path(name), 'wb') as file:
            file.write(data)
        os.chmod(self.path(name), mode)
        return name

    def run_tool(self, *words, given=b'', redirected='', limited=False, output=subprocess.PIPE):
        """The tool in the folder; `redirected` is in the shell's words."""
        command = ['bash', '-c', f'exec "$@" {redirected}', 'bash', sys.executable, '-B', os.path.join(paths.TOOLS, self.TOOL), *words, *self.WORDS]
        limit = (lambda: resource.setrlimit(resource.RLIMIT_FSIZE, (SMALL, SMALL))) if limited else None
        return subprocess.run(command, input=given, stdout=output, stderr=subprocess.PIPE, cwd=self.folder, preexec_fn=limit, check=False)

    def without_a_reader(self, *words):
        """The tool on a pipe that nobody reads."""
        reading, writing = os.pipe()
        os.close(reading)
        try:
            return self.run_tool(*words, output=writing)
        finally:
            os.close(writing)

    def assert_fault(self, said, *words, **how):
        """Nothing is printed but one line, and the status is 2."""
        made = self.run_tool(*words, **how)
        self.assertEqual((made.returncode, made.stdout, made.stderr.decode()), (2, b'', f'{self.TOOL}: {said}\n'))
