"""--extends: each rule of "Extending" kept, and broken."""
import unittest

import helpers
from helpers import SYNTAX, add_cases

OLD = SYNTAX + '''message Settings {
  optional int32 number = 1;
  repeated Valve valves = 2;
  map<string, uint32> limits = 3;
  optional Mode mode = 4;
}
message Valve { required uint32 valve_min = 3; optional uint32 valve_max = 5; optional Probe probe = 6; }
message Probe { optional string name = 1; }
enum Mode { OFF = 0; TIMER = 3; }
enum Unit { CM = 0; }
'''
VALVE = 'required uint32 valve_min = 3; optional uint32 valve_max = 5; optional Probe probe = 6;'


def changed(*pairs):
    text = OLD
    for old, new in pairs:
        assert text.count(old) == 1, old
        text = text.replace(old, new)
    return text


KEPT = {
    'same': (OLD,),
    'field_at_the_end': (changed((VALVE, VALVE + ' optional bool open = 7;')),),
    'field_between': (changed((VALVE, 'required bool open = 1; required uint32 valve_min = 3; map<bool, bool> q = 4; optional uint32 valve_max = 5;'
                               ' optional Probe probe = 6;')),),
    'message_at_the_end': (OLD + 'message More { optional More more = 1; }\n',),
    'enum_at_the_end': (OLD + 'enum More { A = 0; }\n',),
    'value_between': (changed(('OFF = 0; TIMER = 3;', 'OFF = 0; RAIN = 4; TIMER = 3;')),),
    'values_in_another_order': (changed(('OFF = 0; TIMER = 3;', 'TIMER = 3; OFF = 0;')),),
    'message_renamed': (OLD.replace('Probe', 'Sensor'),),
    'enum_renamed': (OLD.replace('Mode', 'Way'),),
    'message_before_enum': (changed(('enum Mode', 'message More {}\nenum Mode')),),
}

# A newer file, and the rules that it breaks.
BROKEN = {
    'number': (changed(('valve_min = 3', 'valve_min = 4')), ['message 1 (Valve): field valve_min has number 4, was 3']),
    'name': (changed(('valve_min', 'valve_low')), ['message 1 (Valve): field valve_min is gone (number 3 is valve_low)']),
    'gone': (changed(('required uint32 valve_min = 3; ', '')), ['message 1 (Valve): field valve_min is gone']),
    'order': (changed((VALVE, 'optional Probe probe = 6; required uint32 valve_min = 3; optional uint32 valve_max = 5;')),
              ['message 1 (Valve): field valve_max stands after probe, stood before it']),
    'order_with_new_between': (changed((VALVE, 'optional uint32 valve_max = 5; optional bool q = 9; required uint32 valve_min = 3; optional Probe probe = 6;')),
                               ['message 1 (Valve): field valve_min stands after valve_max, stood before it']),
    'label': (changed(('optional int32 number', 'repeated int32 number')), ['message 0 (Settings): field number is repeated, was optional']),
    'required': (changed(('required uint32', 'optional uint32')), ['message 1 (Valve): field valve_min is optional, was required']),
    'map': (changed(('map<string, uint32> limits', 'repeated uint32 limits')), ['message 0 (Settings): field limits is repeated, was a map']),
    'key_type': (changed(('map<string,', 'map<int64,')), ['message 0 (Settings): field limits has key type int64, was string']),
    'type': (changed(('int32 number', 'int64 number')), ['message 0 (Settings): field number has type int64, was int32']),
    'map_type': (changed(('uint32> limits', 'bytes> limits')), ['message 0 (Settings): field limits has type bytes, was uint32']),
    'reference': (changed(('repeated Valve', 'repeated Probe')),
                  ['message 0 (Settings): field valves refers to message 2 (Probe), was message 1 (Valve)']),
    'enum_reference': (changed(('optional Mode', 'optional Unit')), ['message 0 (Settings): field mode refers to enum 1 (Unit), was enum 0 (Mode)']),
    'enum_to_message': (changed(('optional Mode', 'optional Valve')), ['message 0 (Settings): field mode has type message, was enum']),
    'value_gone': (changed((' TIMER = 3;', '')), ['enum 0 (Mode): value TIMER is gone']),
    'value_renamed': (changed(('TIMER', 'CLOCK')), ['enum 0 (Mode): value TIMER is gone (number 3 is CLOCK)']),
    'value_renumbered': (changed(('TIMER = 3', 'TIMER = 4')), ['enum 0 (Mode): value TIMER has number 4, was 3']),
    'enum_gone': (changed(('enum Unit { CM = 0; }\n', '')), ['enum 1 (Unit) is gone']),
    'message_gone': (changed(('message Probe { optional string name = 1; }\n', ''), (' optional Probe probe = 6;', '')),
                     ['message 1 (Valve): field probe is gone', 'message 2 (Probe) is gone']),
    'message_in_front': (SYNTAX + 'message More {}\n' + OLD.removeprefix(SYNTAX),
                         ['message 0 (More, was Settings): field number is gone', 'message 0 (More, was Settings): field valves is gone',
                          'message 0 (More, was Settings): field limits is gone', 'message 0 (More, was Settings): field mode is gone',
                          'message 1 (Settings, was Valve): field valve_min is gone (number 3 is limits)',
                          'message 1 (Settings, was Valve): field valve_max is gone', 'message 1 (Settings, was Valve): field probe is gone',
                          'message 2 (Valve, was Probe): field name is gone']),
}


class Extends(helpers.Case):
    def setUp(self):
        super().setUp()
        self.put('old.proto', OLD)
        self.schema('old.proto', '-o', 'old.schema', '--names')

    def check_kept(self, text):
        self.put('new.proto', text)
        code, out, err = self.schema('new.proto', '-o', 'new.schema', '--extends', 'old.schema')
        self.assertEqual((code, err), (0, ''))
        self.assertEqual(out.splitlines()[1:], ['new.proto extends old.schema'])
        self.assertTrue((self.folder / 'new.schema').exists())

    def check_broken(self, text, lines):
        self.put('new.proto', text)
        self.refused(['new.proto does not extend old.schema:', *lines], 'new.proto', '-o', 'new.schema', '--extends', 'old.schema')

    def test_older_without_names(self):
        self.schema('old.proto', '-o', 'old.schema')
        self.put('new.proto', SYNTAX + 'message More { optional Other number = 1; }\nenum Other { A = 0; }\n')
        self.refused(['new.proto does not extend old.schema:', 'message 0 (More): field number has type enum, was int32',
                      'message 0 (More): field valves is gone', 'message 0 (More): field limits is gone', 'message 0 (More): field mode is gone',
                      'message 1 is gone', 'message 2 is gone', 'enum 0 (Other): value OFF is gone (number 0 is A)',
                      'enum 0 (Other): value TIMER is gone', 'enum 1 is gone'], 'new.proto', '-o', 'new.schema', '--extends', 'old.schema')

    def test_older_is_no_image(self):
        self.put('bad.schema', (self.folder / 'old.schema').read_bytes()[:-1])
        length = len((self.folder / 'old.schema').read_bytes())
        self.refused([f'bad.schema: no schema image: {length - 1} bytes, where the header counts {length}'],
                     'old.proto', '-o', 'new.schema', '--extends', 'bad.schema', code=2)

    def test_older_is_missing(self):
        self.refused(['none.schema: No such file or directory'], 'old.proto', '-o', 'new.schema', '--extends', 'none.schema', code=2)


add_cases(Extends, {f'kept_{name}': row for name, row in KEPT.items()}, Extends.check_kept)
add_cases(Extends, {f'broken_{name}': row for name, row in BROKEN.items()}, Extends.check_broken)


if __name__ == '__main__':
    unittest.main()
