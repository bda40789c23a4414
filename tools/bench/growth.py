"""Inputs that grow in one thing: the text, the fields of a message, the children of a message, the entries of a map, the depth."""
import input
from packing import I32, OPTIONAL, REQUIRED, U32, Image


def text_sizes():
    line = b'child {\n  id: 12345\n  name: "north field"\n  nums: 7\n}\n'
    for size in 65_536, 131_072, 262_144, 524_288:
        yield f'{size:,} bytes', input.BENCH, line * (size // len(line))


def fields():
    """A message of n fields, each set once, in table order."""
    for n in 10, 100, 400, 900:
        names = [f'field_{i:03}' for i in range(n)]
        image = Image([[(name, i + 1, OPTIONAL, 0, I32, 0) for i, name in enumerate(names)]]).bytes()
        yield f'{n} fields', image, ''.join(f'{name}: 1\n' for name in names).encode()


def children():
    """n children in table order, and the same number with the fields in turn."""
    for n in 1_000, 4_000, 16_000:
        yield f'{n:,} in order', input.BENCH, b'child {}\n' * (n // 2) + b'nums: 1\n' * (n // 2)
        yield f'{n:,} in turn', input.BENCH, b'nums: 1\nchild {}\n' * (n // 2)


def entries():
    """A map of n entries with different keys."""
    for n in 100, 400, 1_600:
        yield f'{n:,} entries', input.BENCH, ''.join(f'limits {{key: "k{i}" value: {i}}}\n' for i in range(n)).encode()


def required():
    """A message of n required fields, each there."""
    for n in 10, 100, 400:
        names = [f'field_{i:03}' for i in range(n)]
        image = Image([[(name, i + 1, REQUIRED, 0, U32, 0) for i, name in enumerate(names)]]).bytes()
        yield f'{n} required fields', image, ''.join(f'{name}: 1\n' for name in names).encode()


def all_series():
    yield 'text', text_sizes()
    yield 'fields of a message', fields()
    yield 'children of a message', children()
    yield 'entries of a map', entries()
    yield 'required fields', required()
