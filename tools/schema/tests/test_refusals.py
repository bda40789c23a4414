"""Everything that an image can't hold, each with its exact line; and the last that it does hold."""
import unittest

import helpers
from helpers import SYNTAX, add_cases

FLOATS = 'the format has no floats'
OWN = 'a message has its own fields only'
UNSET = "a field that isn't set has no value"
IMPLICIT = "implicit presence can't be held (write optional)"
LONG = 'n' * 64
PROTO3 = 'syntax = "proto3";\n'


def encoding(plain):
    return f'the image keeps no encodings; {plain} has the same numbers'


def message(*lines):
    """A proto2 file with one message; the lines are 3 and those after it."""
    return SYNTAX + 'message M {\n' + ''.join(f'  {line}\n' for line in lines) + '}\n'


def proto3(*lines):
    return PROTO3 + 'message M {\n' + ''.join(f'  {line}\n' for line in lines) + '}\n'


def unheld(kind, reason):
    """A type in a field, and as the value of a map."""
    return message(f'optional {kind} one = 1;', f'repeated {kind} more = 2;', f'map<int32, {kind}> by = 3;'), [
        f"3: field one: type {kind} can't be held ({reason})",
        f"4: field more: type {kind} can't be held ({reason})",
        f"5: field by: map value type {kind} can't be held ({reason})"]


def unheld_key(kind, plain):
    return message(f'map<{kind}, string> by = 1;'), [f"3: field by: map key type {kind} can't be held ({encoding(plain)})"]


# A file, and its refusals without the file's name.
TABLE = {
    'float': unheld('float', FLOATS),
    'double': unheld('double', FLOATS),
    **{kind: unheld(kind, encoding(plain)) for kind, plain in [
        ('fixed32', 'uint32'), ('fixed64', 'uint64'), ('sfixed32', 'int32'), ('sfixed64', 'int64'), ('sint32', 'int32'), ('sint64', 'int64')]},
    **{f'{kind}_key': unheld_key(kind, plain) for kind, plain in [
        ('fixed32', 'uint32'), ('fixed64', 'uint64'), ('sfixed32', 'int32'), ('sfixed64', 'int64'), ('sint32', 'int32'), ('sint64', 'int64')]},
    'key_and_value': (message('map<sint32, float> by = 1;'), [
        f"3: field by: map key type sint32 can't be held ({encoding('int32')})",
        f"3: field by: map value type float can't be held ({FLOATS})"]),
    'group': (message('optional group Part = 1 {', '  optional float x = 1;', '}'), [
        "3: field part: type group can't be held (the format has no groups; use a message)",
        f"4: field x: type float can't be held ({FLOATS})"]),
    'extend': (message('extensions 100 to 199;', 'extend M { optional int32 inner = 100; }') + 'extend M {\n  optional int32 outer = 101;\n}\n', [
        f"3: message M: extensions 100 to 199 can't be held ({OWN})",
        f"4: extension inner: an extension can't be held ({OWN})",
        f"7: extension outer: an extension can't be held ({OWN})"]),
    'extension_ranges': (message('optional int32 a = 1;', 'message In {', '  extensions 4, 100 to max;', '}'), [
        f"5: message M.In: extensions 4 to 4 can't be held ({OWN})",
        f"5: message M.In: extensions 100 to 536870911 can't be held ({OWN})"]),
    'custom_option': ('import "google/protobuf/descriptor.proto";\n' + 'message M {}\n'
                      'extend google.protobuf.FieldOptions { optional string unit = 50000; }\n', None),
    'service': (message() + 'service Calls {\n  rpc Get(M) returns (M);\n}\n', [
        "4: service Calls: a service can't be held (settings have no calls)"]),
    'alias': (message() + 'enum Mode {\n  option allow_alias = true;\n  OFF = 0;\n  TIMER = 1;\n  CLOCK = 1;\n  WATCH = 1;\n}\n', [
        "8: value CLOCK: an alias can't be held (number 1 is TIMER)",
        "9: value WATCH: an alias can't be held (number 1 is TIMER)"]),
    'oneof': (message('optional int32 a = 1;', 'oneof mode {', '  int32 timer = 2;', '  string target = 3;', '}'), [
        "4: oneof mode: a oneof can't be held (each field is set by itself)"]),
    'default': (message('optional int32 a = 1 [default = 5];', 'optional string b = 2 [default = ""];', 'optional bool c = 3 [default = false];',
                        'optional', '  bytes d = 4', '  [default = "\\n"];'), [
        f"{line}: field {name}: a default value can't be held ({UNSET})" for line, name in [(3, 'a'), (4, 'b'), (5, 'c'), (7, 'd')]]),
    'default_enum': (message('enum Mode { OFF = 0; ON = 1; }', 'optional Mode mode = 1 [default = ON];'), [
        f"4: field mode: a default value can't be held ({UNSET})"]),
    'two_at_once': (message('optional float a = 1 [default = 0.5];'), [
        f"3: field a: a default value can't be held ({UNSET})",
        f"3: field a: type float can't be held ({FLOATS})"]),
    'implicit': (proto3('enum Mode { OFF = 0; }', 'int32 a = 1;', 'string b = 2;', 'Mode c = 3;', 'bytes d = 4;', 'M e = 5;', 'optional int32 f = 6;',
                        'repeated int32 g = 7;', 'map<string, int32> h = 8;'), [
        f'{line}: field {name}: {IMPLICIT}' for line, name in [(4, 'a'), (5, 'b'), (6, 'c'), (7, 'd')]]),
    'proto3_oneof': (proto3('oneof mode {', '  int32 timer = 1;', '}', 'optional int32 a = 2;'), [
        "3: oneof mode: a oneof can't be held (each field is set by itself)"]),
    'long_field': (message(f'optional int32 {LONG} = 1;'), [f"3: field {LONG}: a name of 64 bytes can't be held (63 at most)"]),
    'long_value': (message(f'enum Mode {{ {LONG} = 0; }}'), [f"3: value {LONG}: a name of 64 bytes can't be held (63 at most)"]),
    'no_message': (SYNTAX + 'enum Mode {\n  OFF = 0;\n}\n', ["1: no message: can't be held (message 0 is the root)"]),
    'empty_file': (SYNTAX, ["1: no message: can't be held (message 0 is the root)"]),
}


def many(what, count):
    """A file with so many messages, enums, fields or values; the one that is told when it is one too many."""
    if what == 'messages':
        return SYNTAX + ''.join(f'message M{i} {{}}\n' for i in range(count)), f'{count + 1}: message M{count - 1}'
    if what == 'enums':
        return message() + ''.join(f'enum E{i} {{ V{i} = 0; }}\n' for i in range(count)), f'{count + 3}: enum E{count - 1}'
    if what == 'fields':
        lines = [f'optional int32 f{i} = {i + 1};' for i in range(count)]
        return message(*lines[:9], 'message In {', *lines[9:], '}'), f'{count + 3}: field f{count - 1}'
    return message() + 'enum E {\n' + ''.join(f'  V{i} = {i};\n' for i in range(count)) + '}\n', f'{count + 4}: value V{count - 1}'


def long_names(total):
    """A file whose names take so many bytes: fields of 63 each, and a value that fills up, on the last line but one."""
    fields, rest = divmod(total, 63)
    lines = [f'optional int32 {"f" * 58}{i:05} = {i + 1};' for i in range(fields)]
    return message(*lines) + f'enum E {{\n  {"V" * rest} = 0;\n}}\n', f'{fields + 5}: value {"V" * rest}'


class Refusals(helpers.Case):
    def check(self, text, lines):
        self.put('sub/t.proto', text)
        if lines is None:
            code, out, err = self.schema('sub/t.proto', '-o', 't.schema')
            self.assertEqual((code, out), (1, ''))
            self.assertIn('\ngoogle/protobuf/descriptor.proto:', '\n' + err)
            self.assertIn(f"sub/t.proto:3: extension unit: an extension can't be held ({OWN})\n", err)
        else:
            self.refused(['sub/t.proto:' + line for line in lines], 'sub/t.proto', '-o', 't.schema')

    def check_limit(self, what, most):
        self.made(many(what, most)[0])
        text, told = many(what, most + 1)
        self.put('t.proto', text)
        words = {'values': 'enum values'}.get(what, what)
        self.refused([f"t.proto:{told}: {most + 1:,} {words} can't be held ({most:,} at most)"], 't.proto', '-o', 't.schema')

    def test_name_bytes(self):
        self.made(long_names(65535)[0])
        text, told = long_names(65536)
        self.put('t.proto', text)
        self.refused([f"t.proto:{told}: 65,536 name bytes can't be held (65,535 at most)"], 't.proto', '-o', 't.schema')

    def test_name_bytes_with_names(self):
        self.made(long_names(65531)[0], '--names')
        text, _ = long_names(65532)
        self.made(text)
        self.put('t.proto', text)
        line = text.split('\n').index('enum E {') + 1
        self.refused([f"t.proto:{line}: enum E: 65,536 name bytes can't be held (65,535 at most)"], 't.proto', '-o', 't.schema', '--names')

    def test_63_bytes(self):
        name = 'n' * 63
        self.assertIn(name.encode(), self.made(message(f'optional int32 {name} = 1;')))

    def test_imported(self):
        """Refusals of an imported file come after the file's own, and name the path that it was found at."""
        self.put('parts/probe.proto', SYNTAX + 'message Probe {\n  optional float a = 1;\n}\n')
        self.put('t.proto', SYNTAX + 'import "probe.proto";\nmessage M {\n  optional Probe probe = 1;\n  optional double b = 2;\n}\n')
        self.refused([f"t.proto:5: field b: type double can't be held ({FLOATS})",
                      f"parts/probe.proto:3: field a: type float can't be held ({FLOATS})"], 't.proto', '-o', 't.schema', '-I', '.', '-Iparts')

    def test_same_name_in_two_packages(self):
        self.put('a.proto', SYNTAX + 'package a;\nmessage M {}\nenum E { V = 0; }\n')
        text = SYNTAX + 'package t;\nimport "a.proto";\nmessage M { optional a.M other = 1; }\nenum E { V = 0; }\n'
        self.put('t.proto', text)
        self.refused(["a.proto:3: message M: a second one of this name can't be held (a.M and t.M differ in the package only)",
                      "a.proto:4: enum E: a second one of this name can't be held (a.E and t.E differ in the package only)"],
                     't.proto', '-o', 't.schema', '--names')
        code, *_ = self.schema('t.proto', '-o', 't.schema')
        self.assertEqual(code, 0)

    def test_old_output_stays(self):
        image = self.made(message('optional int32 a = 1;'))
        self.put('t.proto', message('optional float a = 1;'))
        self.refused([f"t.proto:3: field a: type float can't be held ({FLOATS})"], 't.proto', '-o', 'made.schema')
        self.assertEqual((self.folder / 'made.schema').read_bytes(), image)


add_cases(Refusals, TABLE, Refusals.check)
add_cases(Refusals, {f'most_{what}': (what, most) for what, most in [
    ('messages', 255), ('enums', 255), ('fields', 4095), ('values', 4095)]}, Refusals.check_limit)


if __name__ == '__main__':
    unittest.main()
