"""Wrong calls, files that can't be read or written, and protoc's own errors."""
import os
import unittest

import helpers
from helpers import SYNTAX, TOOLS

GOOD = SYNTAX + 'message M {}\n'


class Calls(helpers.Case):
    def test_help(self):
        code, out, err = self.schema('--help')
        self.assertEqual((code, err), (0, ''))
        for word in 'FILE.proto', '-o FILE.schema', '-I DIR', '--names', '--extends OLD.schema':
            self.assertIn(word, out)

    def test_wrong_calls(self):
        self.put('t.proto', GOOD)
        for call in [], ['t.proto'], ['-o', 't.schema'], ['t.proto', '-o'], ['t.proto', 't.proto', '-o', 't.schema'], ['t.proto', '-o', 't.schema', '--nmaes']:
            code, out, err = self.schema(*call)
            self.assertEqual((code, out, err[:6]), (2, '', 'usage:'), call)
        self.assertEqual(os.listdir(self.folder), ['t.proto'])

    def protoc_words(self, *call):
        _, _, err = self.run_tool('protoc', *call, '--descriptor_set_out=unused')
        self.assertNotEqual(err, '')
        return err.splitlines()

    def test_protoc_error(self):
        self.put('t.proto', SYNTAX + 'message M {\n  optional int32 a = 1\n  optional Nope b = 1;\n}\n')
        self.refused(self.protoc_words('-I.', 't.proto'), 't.proto', '-o', 't.schema', code=2)

    def test_missing_file(self):
        self.refused(self.protoc_words('-I.', 't.proto'), 't.proto', '-o', 't.schema', code=2)

    def test_missing_import(self):
        self.put('t.proto', SYNTAX + 'import "none.proto";\nmessage M {}\n')
        self.refused(self.protoc_words('-I.', 't.proto'), 't.proto', '-o', 't.schema', code=2)

    def test_output_folder_missing(self):
        self.put('t.proto', GOOD)
        self.refused(['none/t.schema: No such file or directory'], 't.proto', '-o', 'none/t.schema', code=2)

    def test_output_is_no_plain_file(self):
        self.put('t.proto', GOOD)
        self.put('out/file', '')
        self.refused(['out: not a plain file'], 't.proto', '-o', 'out', code=2)

    def test_output_by_a_link(self):
        """The link stays, and what it points to is written."""
        self.put('t.proto', GOOD)
        os.symlink('real.schema', self.folder / 'link.schema')
        self.assertEqual(self.schema('t.proto', '-o', 'link.schema')[0], 0)
        self.assertTrue((self.folder / 'link.schema').is_symlink())
        self.assertEqual(sorted(os.listdir(self.folder)), ['link.schema', 'real.schema', 't.proto'])

    def test_no_protoc(self):
        self.put('t.proto', GOOD)
        code, out, err = self.run_tool('/usr/bin/env', 'PATH=/nowhere', TOOLS / 'ventro-schema', 't.proto', '-o', 't.schema')
        self.assertEqual((code, out, err), (2, '', 'protoc is needed (Debian: protobuf-compiler)\n'))

    def test_summary(self):
        self.put('t.proto', SYNTAX + 'message M { optional K k = 1; }\nenum K { A = 0; B = 1; }\n')
        self.assertEqual(self.schema('t.proto', '-o', 't.schema'), (0, 't.schema: 1 message, 1 field, 1 enum, 2 enum values, 40 bytes\n', ''))


if __name__ == '__main__':
    unittest.main()
