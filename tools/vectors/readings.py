"""The inputs of the readings that are texts, with their outcomes, under schema X."""

TEXTS = {
    'T1 what ends a name': [
        ('i.x: 1', '4 1'), ('nope\x80', '6 0'), ('i"a"', '5 1'), ('i\x80', '4 1')],
    'T2 what follows an integer directly': [
        ('i: 1"a"', '5 4'), ('i: 1\x80', '4 4'), ('i: 1-1', '5 4'), ('i: 1/', '4 4'), ('m{i:1}', 'read'),
        ('i: 1#c', 'read'), ('i:1l:2', '4 2'), ('i: 1.', '4 3'), ('i: 1_', '4 3')],
    'T3 shapes of integers': [
        ('i: 0', 'read'), ('i: 00', 'read'), ('i: 007', 'read'), ('i: 018', '4 3'), ('i: 08', '4 3'), ('i: 0x', '4 3'),
        ('i: 0X', '4 3'), ('i: 0xg', '4 3'), ('i: 0b1', '4 3'), ('i: 1e5', '4 3'), ('i: 0xaF', 'read'),
        ('i: ' + '0' * 40 + '1', 'read'), ('i: 0x' + '0' * 40 + '1', 'read')],
    'T4 integer over 64 bits': [
        ('i: 99999999999999999999999', '9 3'), ('s: 99999999999999999999999', '5 3'),
        ('b: 99999999999999999999999', '10 3'), ('99999999999999999999999', '5 0'),
        ('e: 99999999999999999999999', '5 3'), ('m 99999999999999999999999', '5 2')],
    'T5 first digit of 9': [
        ('i: 0x80000000', '9 3'), ('i: - 0x80000001', '9 5'), ('i: -2147483649', '9 4')],
    'T6 unended string, newline or zero byte inside': [
        ("s: 'a\nb'", '4 3'), ("s: 'a", '4 3'), ("s: 'a\\", '4 3'), ("s: 'a\\'", '4 3'), ("s: 'a\0b'", '4 3'),
        ("s: 'a\\\nb'", '4 3'), ("s: 'a\\\0b'", '4 3')],
    'T7 other bytes inside strings': [
        ("y: '\xff\r'", 'read'), ("y: '\\xff\\r'", 'read'), ("s: '\x01\t\x7f'", 'read')],
    'T8 comments': [
        ('# \0\r\xff\ni: 1', 'read'), ('# \ri: 08', 'read'), ('i: 1 #', 'read'), ("s: '#'", 'read'),
        ('i#\n:#\n1#', 'read')],
    'T9 bytes of no class': [
        ('i: 1 (', '4 5'), ('i: 1 ,', '5 5'), ('\xef\xbb\xbfi: 1', '4 0')],
    'T10 a bad token where another sort is expected': [
        ("i: 'a", '4 3'), ('s: 08', '4 3'), ('b: 08', '4 3'), ('m 08', '4 2'), ('08', '4 0'), ('i 08', '4 2')],
    'T11 how far ahead tokens are needed': [
        ('nope 08', '6 0'), ('e: nope 08', '7 3'), ('i: 2147483648 08', '9 3'), ("s: '\\q' 08", '11 3')],
    'S1 no other escapes': [
        ("s: '\\X41'", '11 3'), ("s: '\\u0041'", '11 3'), ("s: '\\U00000041'", '11 3')],
    'S2 how many digits': [
        ("y: '\\400'", '11 3'), ("y: '\\1234'", 'read'), ("y: '\\08'", 'read'), ("y: '\\x414'", 'read'),
        ("y: '\\x4g'", 'read'), ("y: '\\8'", '11 3'), ("y: '\\xg'", '11 3'), ('y: "\\x"', '11 3')],
    'S3 when escapes are judged': [
        ("i: '\\q'", '5 3'), ("b: '\\q'", '10 3'), ("s: '\\q", '4 3'), ("s: '\\q' 08", '11 3'), ("m '\\q'", '5 2')],
    'S4 UTF-8 of the decoded bytes': [
        ("s: '\\303\\251'", 'read'), ("s: '\xc3\\251'", 'read'), ("s: '\\377'", '11 3'), ("y: '\\377'", 'read')],
    'S5 zero and newline by escape': [
        ("s: '\\0'", 'read'), ("s: '\\n'", 'read'), ("y: '\\0'", 'read'), ("y: '\\n'", 'read')],
    'S6 two strings side by side': [("s: 'a' 'b'", '5 7'), ("s: 'a''b'", '5 6'), ("y: 'a'\"b\"", '5 6')],
    'S7 start of an empty string': [
        ("s: 'ab' y: ''", 'read'), ("s: 'ab' vs {}", 'read'), ("s: 'ab' s: 'c' y: 'd'", 'read')],
    'G1 between minus and digits': [('i: - #c\n\t5', 'read'), ('i: -0', 'read'), ('l:-0', 'read'), ('i:-\n-5', '5 4')],
    'G2 minus elsewhere': [
        ('u: -0', '5 3'), ('v: -0', '5 3'), ('b: -1', '10 3'), ('e: -1', '5 3'), ("s: -'a'", '5 3'), ("y: -'a'", '5 3')],
    'G3 after a minus': [
        ('i: - x', '5 5'), ('i: -', '5 4'), ('i: --5', '5 4'), ('i: - 08', '4 5'), ('i: -  ', '5 6')],
    'G4 bool': [
        ('b: True', '10 3'), ("b: 'true'", '10 3'), ('b: {', '10 3'), ('b: }', '10 3'), ('b: 1', '10 3'), ('b: x', '10 3'),
        ('b:', '10 2'), ('b: # c', '10 6'), ('b', '5 1'), ('b true', '5 2'), ('b: 08', '4 3')],
    'G5 enum by number': [
        ('e: 7', '5 3'), ('e: -1', '5 3'), ("e: 'ON'", '5 3'), ('e: : 7', '5 3'), ('e: LOW', '7 3'), ('e: ON', 'read'),
        ('o: LOW', 'read'), ('o: ON', '7 3')],
    'G6 place of the end': [('m {  # c', '5 8'), ('i', '5 1'), ('i:  ', '5 4')],
    'G7 where a name or closer is expected': [
        ('}', '5 0'), ('m {>', '5 3'), ('m <}', '5 3'), ('7: 5', '5 0'), ("'a'", '5 0'), ('[', '5 0')],
    'G8 no blanks needed': [("m{}m<>s:'a'b:true", 'read'), ('b:truei:1', '10 2'), ('i:1,l:2', '5 3'), ('i:1;', '5 3')],
    'G9 second key or value': [("si {key: 'a' key 08", '8 13'), ('si {value: 1 value', '8 13')],
    'G10 other name in an entry': [("si {Key: 'a'}", '6 4'), ("si {1: 'a'}", '5 4'), ('si {i: 1}', '6 4')],
    'G11 key and value by their types': [
        ('bm {value: {}}', '5 9'), ('bm {value <>}', 'read'), ('bm {key: 1}', '10 9'), ('bm <', '5 3')],
    'G12 defaults': [('si {value: 3}', 'read'), ('ie {}', 'read'), ('ly {}', 'read'), ('mm {}', 'read')],
    'G13 required fields are not asked for': [('n {}', 'read')],
    'G14 the name is looked up first': [('nope', '6 0')],
    'L1, L5, P2 texts whose prints tell more': [
        ("si {key: 'a'} si {key: 'b'} si {value: 3 key: 'a'}", 'read'), ('m {i: 1} m {l: 2}', 'read'),
        ('o: LOW mm {} i: 1', 'read')],
    'Q2 which messages the required check asks': [
        ('m {n {}} m {}', 'read'), ('bm {value {n {}}} bm {}', 'read'),
        ('bm {key: true value {n {}}} bm {}', 'read')],
}

# Under `m` nested to depth 32 and 31; the place counts from the text's own first byte.
DEPTH_32 = [('m 08', 4, 2), ('m :', 5, 2), ('mm <', 5, 3), ('nope {', 6, 0), ('m {', 12, 2), ('mm {', 12, 3), ('m <08', 12, 2)]
DEPTH_31 = [('mm {}', 12, 4), ("mm {key: 'a'}", 12, 12), ('mm {', 5, 4), ('mm {value {', 12, 10), ("mm {key: 'a' key", 8, 13)]
