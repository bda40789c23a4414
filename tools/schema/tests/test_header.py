"""The protoc plugin: its header compiled as C11 and as C++, and its refusals."""
import unittest

import helpers
from helpers import SYNTAX, TOOLS

ORCHARD = SYNTAX + '''message Settings {
  optional int32 number = 1;
  message ValveLimit { optional uint32 most = 1; }
  repeated ValveLimit limits = 2;
}
message Probe { optional string name = 1; }
'''

# Prints the image in hex, its length, and the message numbers.
PROGRAM = '''#include <stdio.h>
#include "orchard.ventro.h"
#include "orchard.ventro.h"
int main(void) {
    unsigned at;
    for (at = 0; at < sizeof orchard_schema; at++) printf("%02x", orchard_schema[at]);
    printf(" %d %d %d %d\\n", ORCHARD_SCHEMA_LENGTH, ORCHARD_SETTINGS, ORCHARD_SETTINGS_VALVE_LIMIT, ORCHARD_PROBE);
    return 0;
}
'''
# A file that includes the header and uses nothing of it.
UNUSED = '#include "orchard.ventro.h"\nint nothing(void);\nint nothing(void) { return 0; }\n'
STRICT = ['-Wall', '-Wextra', '-pedantic', '-Werror']


class Header(helpers.Case):
    def plugin(self, *call):
        return self.run_tool('protoc', f'--plugin={TOOLS / "protoc-gen-ventro"}', '--ventro_out=.', *call)

    def compiled(self, compiler, standard, ending, *options):
        image = self.made(ORCHARD, *options, name='orchard.proto')
        self.assertEqual(self.plugin('orchard.proto', *(f'--ventro_opt={option[2:]}' for option in options)), (0, '', ''))
        self.put(f'main{ending}', PROGRAM)
        self.put(f'unused{ending}', UNUSED)
        self.assertEqual(self.run_tool(compiler, standard, *STRICT, '-o', 'main', f'main{ending}', f'unused{ending}'), (0, '', ''))
        self.assertEqual(self.run_tool('./main'), (0, f'{image.hex()} {len(image)} 0 1 2\n', ''))

    def test_c11(self):
        self.compiled('cc', '-std=c11', '.c')

    def test_cxx(self):
        self.compiled('c++', '-std=c++11', '.cc')

    def test_names(self):
        self.compiled('cc', '-std=c11', '.c', '--names')

    def test_text(self):
        self.put('sub/2-valve.proto', 'syntax = "proto3";\nmessage A { optional int32 a = 1; }\n')
        self.assertEqual(self.plugin('sub/2-valve.proto'), (0, '', ''))
        self.assertEqual((self.folder / 'sub/2-valve.ventro.h').read_text(), '''/* Made from 2-valve.proto by protoc-gen-ventro: its schema image. */
#ifndef SUB_2_VALVE_VENTRO_H
#define SUB_2_VALVE_VENTRO_H

/* Message numbers, by which a root is chosen. */
enum {
    VENTRO_2_VALVE_A = 0
};

#define VENTRO_2_VALVE_SCHEMA_LENGTH 21

static const unsigned char ventro_2_valve_schema[] = {
    0x10, 0x10, 0x01, 0x00, 0x00, 0x00, 0x00, 0x10, 0x00, 0x00, 0x01, 0x00, 0x00, 0x04, 0x00, 0x00,
    0x00, 0x20, 0x08, 0x00, 0x61
};

#endif
''')

    def test_two_files(self):
        self.put('a.proto', SYNTAX + 'message A {}\n')
        self.put('b.proto', SYNTAX + 'import "a.proto";\nmessage B { optional A a = 1; }\n')
        self.assertEqual(self.plugin('a.proto', 'b.proto'), (0, '', ''))
        self.assertIn('A_A = 0\n', (self.folder / 'a.ventro.h').read_text())
        self.assertIn('B_B = 0,\n    B_A = 1\n', (self.folder / 'b.ventro.h').read_text())

    def refused_by_plugin(self, lines, *call):
        code, out, err = self.plugin(*call)
        self.assertEqual((code, out, err), (1, '', '--ventro_out: ' + ''.join(line + '\n' for line in lines)))
        self.assertEqual(list(self.folder.glob('*.h')), [])

    def test_refused(self):
        """The same words, all of them, each once, also where one of two files is good."""
        self.put('a.proto', SYNTAX + 'message A {\n  optional float f = 1;\n  optional int32 d = 2 [default = 1];\n}\n')
        self.put('b.proto', SYNTAX + 'import "a.proto";\nmessage B { optional A a = 1; }\n')
        self.put('c.proto', SYNTAX + 'message C {}\n')
        self.refused_by_plugin(["a.proto:3: field f: type float can't be held (the format has no floats)",
                                "a.proto:4: field d: a default value can't be held (a field that isn't set has no value)"],
                               'a.proto', 'b.proto', 'c.proto')

    def test_names_that_c_takes_for_one(self):
        self.put('t.proto', SYNTAX + 'message A { message B {} }\nmessage A_B {}\nmessage SchemaLength {}\nmessage VentroH {}\n')
        self.refused_by_plugin(["t.proto:3: message A_B: can't be named in C (T_A_B is message A.B)",
                                "t.proto:4: message SchemaLength: can't be named in C (T_SCHEMA_LENGTH is the length)",
                                "t.proto:5: message VentroH: can't be named in C (T_VENTRO_H is the include guard)"], 't.proto')

    def test_names_of_two_packages(self):
        self.put('a.proto', SYNTAX + 'package a;\nmessage M {}\n')
        self.put('t.proto', SYNTAX + 'import "a.proto";\nmessage M { optional a.M m = 1; }\n')
        self.refused_by_plugin(["a.proto:3: message M: can't be named in C (T_M is message M)"], 't.proto')

    def test_unknown_option(self):
        self.put('t.proto', SYNTAX + 'message M {}\n')
        self.refused_by_plugin(['unknown option upper; names is the only one'], 't.proto', '--ventro_opt=upper')


if __name__ == '__main__':
    unittest.main()
