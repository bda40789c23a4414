"""Random proto2 files of everything that an image holds, with the order in which their types were written."""
import random

SCALARS = ['int32', 'int64', 'uint32', 'uint64', 'bool', 'string', 'bytes']
KEYS = SCALARS[:6]
MOST_NUMBER = 2**29 - 1
# Numbers that protoc keeps for itself.
KEPT = range(19000, 20000)
LETTERS = 'abcdefghijklmnopqrstuvwxyzABCDEFGHIJKLMNOPQRSTUVWXYZ_'
# Field names that are words elsewhere.
WORDS = ['key', 'value', 'message', 'syntax', 'optional_', 'true', 'inf', 'name', 'id', 'max']
COMMENTS = ['', '', '', '  // } message No {', '  /* enum No { A = 0; } */', '\n']


class Message:
    def __init__(self, name, parent, file):
        self.name, self.file, self.parent = name, file, parent
        self.dotted = f'{parent.dotted}.{name}' if parent else name
        # Nested types; names taken in this scope, which fields, types and enum values share.
        self.types, self.taken = [], set()


class Enum:
    def __init__(self, name, parent, file, numbers):
        self.name, self.parent, self.file, self.numbers = name, parent, file, numbers
        self.dotted = f'{parent.dotted}.{name}' if parent else name


class File:
    def __init__(self, name, package, taken):
        self.name, self.package = name, package
        # Names taken at the top: files share them, since they may share a package.
        self.taken = taken
        # Top-level types in order; names of messages and enums as they were written.
        self.types, self.imports = [], []
        self.messages, self.enums = [], []
        self.lines = []

    def full(self, one):
        return f'.{self.package}.{one.dotted}' if self.package else f'.{one.dotted}'


def plain(name):
    """Names that differ by more than case and `_` have different JSON names and entry types, which protoc and the crate ask for."""
    return name.lower().replace('_', '')


class Files:
    """One main file and what it imports. The same seed gives the same files."""

    def __init__(self, seed):
        self.random = random.Random(seed)
        self.type_names = set()
        count = self.random.choice([1, 1, 2, 3, 4])
        # Packages' names are type names too, so that nothing hides them.
        taken = set()
        self.files = [File(f'f{index}.proto', self.package(), taken) for index in range(count)]
        for file in self.files:
            self.plan(file)
        self.link()
        for file in self.files:
            self.write(file)

    def package(self):
        return '.'.join(self.type_name() for _ in range(self.random.choice([0, 1, 1, 2])))

    def name(self, taken, words=()):
        """A name that isn't taken: often short, sometimes of 63 bytes."""
        while True:
            if words and self.random.random() < 0.3:
                name = self.random.choice(words)
            else:
                size = self.random.choice([1, 2, 3, 5, 8, 12, 20, 63])
                name = self.random.choice(LETTERS) + ''.join(self.random.choices(LETTERS + '0123456789', k=size - 1))
            short = plain(name)
            if short and not {short, short + 'entry'} & (taken | self.type_names):
                taken.update([short, short + 'entry'])
                return name

    def type_name(self):
        """Unlike any other type or package, so that a name in part means one type."""
        taken = set()
        name = 'T' + self.name(taken)
        while plain(name) in self.type_names:
            name = 'T' + self.name(taken)
        self.type_names.update([plain(name), plain(name) + 'entry'])
        return name

    def plan(self, file):
        """The tree of types, before any field refers to them."""
        for _ in range(self.random.randint(1, 4)):
            self.plan_type(file, file.types, None, 0)
        if not any(isinstance(one, Message) for one in file.types):
            file.types.append(Message(self.type_name(), None, file))

    def plan_type(self, file, among, parent, depth):
        if self.random.random() < 0.4:
            among.append(Enum(self.type_name(), parent, file, self.enum_numbers()))
            return
        message = Message(self.type_name(), parent, file)
        among.append(message)
        if depth < 3:
            for _ in range(self.random.choice([0, 0, 1, 2, 3])):
                self.plan_type(file, message.types, message, depth + 1)

    def enum_numbers(self):
        some = [0, 1, -1, 2, 7, 2**31 - 1, -2**31, self.random.randint(3, 2**31 - 2)]
        numbers = self.random.sample(some, self.random.randint(1, 6))
        return list(dict.fromkeys([0] + numbers if self.random.random() < 0.5 else numbers))

    def link(self):
        """Imports of later files by earlier ones, in any order of lines; each is reached from the first."""
        for index, file in enumerate(self.files[1:], 1):
            importers = self.random.sample(self.files[:index], self.random.randint(1, index))
            for importer in importers:
                importer.imports.insert(self.random.randint(0, len(importer.imports)), file)

    def usable(self, file, kind):
        """Types that a file may name: its own and those of the files that it imports itself."""
        def below(types):
            for one in types:
                yield one
                yield from below(getattr(one, 'types', []))
        return [one for each in [file, *file.imports] for one in below(each.types) if isinstance(one, kind)]

    def write(self, file):
        file.lines += ['syntax = "proto2";', f'package {file.package};' if file.package else '// no package']
        file.lines += [f'import "{each.name}";' for each in file.imports]
        for one in file.types:
            self.write_type(file, one, '', file.taken)

    def write_type(self, file, one, indent, taken):
        if isinstance(one, Enum):
            self.write_enum(file, one, indent, taken)
        else:
            self.write_message(file, one, indent)

    def write_enum(self, file, enum, indent, taken):
        """The names of values are taken in the scope around the enum."""
        file.enums.append(enum.dotted)
        values = [f'{self.name(taken)} = {number};' for number in enum.numbers]
        if self.random.random() < 0.5:
            file.lines.append(f'{indent}enum {enum.name} {{ {" ".join(values)} }}')
        else:
            file.lines += [f'{indent}enum {enum.name} {{', *(f'{indent}  {value}' for value in values), f'{indent}}}']

    def write_message(self, file, message, indent):
        """Fields and nested types, mixed."""
        file.messages.append(message.dotted)
        file.lines.append(f'{indent}message {message.name} {{')
        parts = message.types + [None] * self.random.choice([0, 1, 3, 6, 12])
        self.random.shuffle(parts)
        numbers = set()
        for one in parts:
            if one is None:
                self.write_field(file, message, indent + '  ', numbers)
            else:
                self.write_type(file, one, indent + '  ', message.taken)
        file.lines.append(f'{indent}}}')

    def number(self, numbers):
        while True:
            number = self.random.choice([self.random.randint(1, 20), self.random.randint(1, MOST_NUMBER), MOST_NUMBER])
            if number not in numbers and number not in KEPT:
                numbers.add(number)
                return number

    def write_field(self, file, message, indent, numbers):
        label = self.random.choice(['optional', 'required', 'repeated', 'map'])
        kind = self.type_of(file, message, label)
        if label == 'map':
            head = f'map<{self.random.choice(KEYS)}, {kind}>'
        else:
            head = f'{label} {kind}'
        gap = self.random.choice([' ', ' ', f'\n{indent}    '])
        file.lines.append(f'{indent}{head}{gap}{self.name(message.taken, WORDS)} = {self.number(numbers)};{self.random.choice(COMMENTS)}')

    def type_of(self, file, message, label):
        """A scalar, or a type by its full name, by its name from the package, or by its last name where that is enough."""
        chance = self.random.random()
        choices = self.usable(file, Enum if chance < 0.2 else Message) if chance < 0.5 else []
        if label == 'map':
            # protoc asks this of the values of a map.
            choices = [one for one in choices if isinstance(one, Message) or one.numbers[0] == 0]
        if chance > 0.95:
            choices = [message]
        if not choices:
            return self.random.choice(SCALARS)
        one = self.random.choice(choices)
        ways = [one.file.full(one), one.file.full(one)[1:]]
        if one.file is file:
            ways.append(one.dotted)
        around = message
        while around:
            if one.parent is around:
                ways.append(one.name)
            around = around.parent
        return self.random.choice(ways)

    def in_order(self):
        """The first file, then what it imports, each followed by its own imports."""
        order = []

        def visit(file):
            if file not in order:
                order.append(file)
                for each in file.imports:
                    visit(each)
        visit(self.files[0])
        return order

    def written(self):
        """The lines `message NAME` and `enum NAME` that an image's listing must have, from the order of writing alone."""
        order = self.in_order()
        return [f'message {name}' for file in order for name in file.messages] + [f'enum {name}' for file in order for name in file.enums]
