"""Images byte for byte, the order of messages, enums and fields, and the names at the end."""
import unittest

import checker
import helpers
import maker
from helpers import SYNTAX
from packing import (BOOL, BYTES, ENUM, I32, I64, MAP, MESSAGE, OPTIONAL, REPEATED, REQUIRED, STRING, U32, U64)
from protos import descriptor_pb2

E = (SYNTAX + 'message E { optional int32 id = 1; optional string name = 2; map<string, uint32> limits = 3; optional E child = 4; }\n')
E_IMAGE = bytes.fromhex('10100400000001100000040000080000002008000002100000004030000006180000007b1800000c140000008048'
                        '0069646e616d656c696d6974736368696c64')

NESTED = SYNTAX + '''package garden.orchard;
enum First { FIRST = 0; }
message Settings {
  optional Valve.Mode mode = 9;
  message Valve {
    enum Mode { OFF = 0; ON = 1; }
    message Limit { enum Unit { CM = 0; } optional Unit unit = 1; }
    map<int64, Limit> limits = 1;
  }
  repeated Valve valves = 2;
  enum Kind { DRY = -1; WET = -2147483648; }
  optional Last last = 3;
  required First first = 4;
}
enum Middle { MIDDLE = 0; }
message Last { optional Settings back = 1; optional Settings.Kind kind = 2; optional Middle middle = 3; }
'''


def plain(name, number, kind, reference=0, label=OPTIONAL):
    return (name, number, label, 0, kind, reference)


class Images(helpers.Case):
    def schema_of(self, text, *options):
        return checker.schema_of(self.made(text, *options))

    def test_e(self):
        self.assertEqual(self.made(E), E_IMAGE)

    def test_e_without_syntax_line(self):
        """proto2 is what a file is that doesn't say; protoc warns."""
        self.put('t.proto', E.replace(SYNTAX, ''))
        code, out, err = self.schema('t.proto', '-o', 't.schema')
        self.assertEqual((code, out), (0, 't.schema: 1 message, 4 fields, 0 enums, 0 enum values, 64 bytes\n'))
        self.assertIn('No syntax specified', err)
        self.assertEqual((self.folder / 't.schema').read_bytes(), E_IMAGE)

    def test_every_type(self):
        kinds = [('int32', I32), ('int64', I64), ('uint32', U32), ('uint64', U64), ('bool', BOOL), ('string', STRING), ('bytes', BYTES),
                 ('K', ENUM), ('M', MESSAGE)]
        lines, fields = [], []
        for word, label in ('optional', OPTIONAL), ('required', REQUIRED), ('repeated', REPEATED):
            for name, kind in kinds:
                fields.append((f'{word}_{name}', len(fields) + 1, label, 0, kind, 0))
                lines.append(f'  {word} {name} {word}_{name} = {len(fields)};\n')
        for key_name, key in kinds[:6]:
            for name, kind in kinds:
                fields.append((f'{key_name}_{name}', len(fields) + 1, MAP, key, kind, 0))
                lines.append(f'  map<{key_name}, {name}> {key_name}_{name} = {len(fields)};\n')
        schema = self.schema_of(SYNTAX + 'message M {\n' + ''.join(lines) + '}\nenum K { A = 0; B = 7; }\n')
        self.assertEqual(schema.messages, [fields])
        self.assertEqual(schema.enums, [[('A', 0), ('B', 7)]])

    def test_nested(self):
        """Messages and enums in the order in which they begin in the file; fields as they stand, whatever their numbers."""
        schema = self.schema_of(NESTED, '--names')
        self.assertEqual(schema.message_names, ['Settings', 'Settings.Valve', 'Settings.Valve.Limit', 'Last'])
        self.assertEqual(schema.enum_names, ['First', 'Settings.Valve.Mode', 'Settings.Valve.Limit.Unit', 'Settings.Kind', 'Middle'])
        self.assertEqual(schema.messages, [
            [plain('mode', 9, ENUM, 1), plain('valves', 2, MESSAGE, 1, REPEATED), plain('last', 3, MESSAGE, 3), plain('first', 4, ENUM, 0, REQUIRED)],
            [('limits', 1, MAP, I64, MESSAGE, 2)],
            [plain('unit', 1, ENUM, 2)],
            [plain('back', 1, MESSAGE, 0), plain('kind', 2, ENUM, 3), plain('middle', 3, ENUM, 4)]])
        self.assertEqual(schema.enums, [
            [('FIRST', 0)], [('OFF', 0), ('ON', 1)], [('CM', 0)], [('DRY', -1), ('WET', -2**31)], [('MIDDLE', 0)]])

    def test_imports(self):
        """A file, then what it imports in the order of its lines, each followed by its own imports; each file once."""
        self.put('b.proto', SYNTAX + 'package b;\nimport "d.proto";\nmessage B { optional d.D d = 1; }\nenum BE { B0 = 0; }\n')
        self.put('c.proto', SYNTAX + 'package c;\nimport "d.proto";\nmessage C { optional d.D d = 1; message In {} }\n')
        self.put('d.proto', SYNTAX + 'package d;\nmessage D {}\nenum DE { D0 = 0; }\n')
        schema = self.schema_of(SYNTAX + 'import "b.proto";\nimport "c.proto";\nmessage A { optional b.B b = 1; optional c.C c = 2; optional b.BE e = 3; }\n'
                                'enum AE { A0 = 0; }\n', '--names')
        self.assertEqual(schema.message_names, ['A', 'B', 'D', 'C', 'C.In'])
        self.assertEqual(schema.enum_names, ['AE', 'BE', 'DE'])
        self.assertEqual(schema.messages, [
            [plain('b', 1, MESSAGE, 1), plain('c', 2, MESSAGE, 3), plain('e', 3, ENUM, 1)], [plain('d', 1, MESSAGE, 2)], [],
            [plain('d', 1, MESSAGE, 2)], []])

    def test_import_folders(self):
        self.put('one/a.proto', SYNTAX + 'message A {}\n')
        self.put('two/t.proto', SYNTAX + 'import "a.proto";\nmessage T { optional A a = 1; }\n')
        code, *_ = self.schema('two/t.proto', '-o', 't.schema', '-I', 'one', '-I', 'two')
        self.assertEqual(code, 0)

    def test_folder_of_the_file(self):
        """Without -I imports are looked for beside the file, wherever the call is made."""
        self.put('two/a.proto', SYNTAX + 'message A {}\n')
        self.put('two/t.proto', SYNTAX + 'import "a.proto";\nmessage T { optional A a = 1; }\n')
        code, *_ = self.schema('two/t.proto', '-o', 't.schema')
        self.assertEqual(code, 0)

    def test_proto3(self):
        schema = self.schema_of('syntax = "proto3";\nmessage M {\n  optional int32 a = 1;\n  M m = 2;\n  optional M o = 3;\n  repeated uint32 r = 4;\n'
                                '  map<bool, K> k = 5;\n  optional K e = 6;\n}\nenum K { ZERO = 0; }\n')
        self.assertEqual(schema.messages, [[plain('a', 1, I32), plain('m', 2, MESSAGE), plain('o', 3, MESSAGE), plain('r', 4, U32, 0, REPEATED),
                                            ('k', 5, MAP, BOOL, ENUM, 0), plain('e', 6, ENUM)]])

    def test_what_changes_nothing(self):
        """Options and reserved numbers that say nothing about texts."""
        text = SYNTAX + 'message M {\n  reserved 9, 20 to 30;\n  reserved "old";\n  repeated int32 a = 1 [packed = true, deprecated = true];\n' \
            '  optional string b = 2 [json_name = "bee", ctype = CORD];\n  optional M c = 3 [lazy = true];\n}\n'
        self.assertEqual(self.made(text), self.made(SYNTAX + 'message M { repeated int32 a = 1; optional string b = 2; optional M c = 3; }\n'))

    def test_editions(self):
        """protoc 3.21 has no editions; a later one says so in the descriptor."""
        file = descriptor_pb2.FileDescriptorProto(name='t.proto', syntax='editions')
        file.message_type.add(name='M')
        with self.assertRaises(maker.Refused) as refused:
            maker.make([file], 't.proto')
        self.assertEqual(refused.exception.refusals, [('t.proto', 1, "syntax editions: can't be held (only proto2 and proto3 are known)")])


class Names(helpers.Case):
    def test_bytes(self):
        """Each name after one zero byte, and the header's count of name bytes raised; all else as without them."""
        bare, named = self.made(NESTED), self.made(NESTED, '--names')
        ends = (b'\0Settings\0Settings.Valve\0Settings.Valve.Limit\0Last'
                b'\0First\0Settings.Valve.Mode\0Settings.Valve.Limit.Unit\0Settings.Kind\0Middle')
        count = int.from_bytes(bare[:8], 'big') + (len(ends) << 4)
        self.assertEqual(named, count.to_bytes(8, 'big') + bare[8:] + ends)

    def test_without(self):
        schema = checker.schema_of(self.made(NESTED))
        self.assertEqual((schema.message_names, schema.enum_names), (None, None))

    def test_other_bytes_at_the_end(self):
        """Name bytes that are no such list are nothing."""
        for end in b'\0', b'\0E\0F', b'\0E.', b'\0.E', b'\x001E', b'E', b'\0\0':
            image = E_IMAGE + end
            count = int.from_bytes(image[:8], 'big') + (len(end) << 4)
            self.assertIsNone(checker.schema_of(count.to_bytes(8, 'big') + image[8:]).message_names, end)


if __name__ == '__main__':
    unittest.main()
