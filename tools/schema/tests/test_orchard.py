"""The images in examples/orchard are those of the .proto files beside them, and each age extends all before it."""
import unittest

import helpers
from helpers import TOOLS, add_cases

ORCHARD = TOOLS.parent.parent / 'examples' / 'orchard'
AGES = range(1, 6)


class Orchard(helpers.Case):
    def check(self, age):
        kept = (ORCHARD / f'v{age}.schema').read_bytes()
        for older in range(1, age + 1):
            code, _, err = self.schema(ORCHARD / f'v{age}.proto', '-o', 'made.schema', '--names', '--extends', ORCHARD / f'v{older}.schema')
            self.assertEqual((code, err), (0, ''))
            self.assertEqual((self.folder / 'made.schema').read_bytes(), kept)

    def test_older_does_not_extend_newer(self):
        code, *_ = self.schema(ORCHARD / 'v4.proto', '-o', 'made.schema', '--extends', ORCHARD / 'v5.schema')
        self.assertEqual(code, 1)


add_cases(Orchard, {f'v{age}': (age,) for age in AGES}, Orchard.check)


if __name__ == '__main__':
    unittest.main()
