"""A folder of .proto files for each case, and the commands run in it."""
import os
import pathlib
import subprocess
import tempfile
import unittest

TOOLS = pathlib.Path(__file__).resolve().parent.parent
SYNTAX = 'syntax = "proto2";\n'


class Case(unittest.TestCase):
    maxDiff = None

    def setUp(self):
        folder = tempfile.TemporaryDirectory()
        self.addCleanup(folder.cleanup)
        self.folder = pathlib.Path(folder.name)

    def put(self, name, text):
        path = self.folder / name
        path.parent.mkdir(parents=True, exist_ok=True)
        path.write_bytes(text if isinstance(text, bytes) else text.encode())

    def run_tool(self, *call):
        """How a command ends, and what it writes to standard output and error."""
        done = subprocess.run(call, cwd=self.folder, capture_output=True, check=False)
        return done.returncode, done.stdout.decode(), done.stderr.decode()

    def schema(self, *call):
        return self.run_tool(TOOLS / 'ventro-schema', *call)

    def made(self, text, *options, name='t.proto'):
        """The image of a file, which must be taken without a word."""
        self.put(name, text)
        code, _, err = self.schema(name, '-o', 'made.schema', *options)
        self.assertEqual((code, err), (0, ''))
        return (self.folder / 'made.schema').read_bytes()

    def refused(self, lines, *call, code=1):
        """A run that writes these lines to standard error, and no file."""
        before = sorted(os.listdir(self.folder))
        self.assertEqual(self.schema(*call), (code, '', ''.join(line + '\n' for line in lines)))
        self.assertEqual(sorted(os.listdir(self.folder)), before)


def add_cases(case, table, check):
    """One test method for each row of a table, which `check` is called with."""
    for name, row in table.items():
        def method(self, row=row):
            check(self, *row)
        assert not hasattr(case, f'test_{name}'), name
        setattr(case, f'test_{name}', method)
