"""Reads docs/boundary.txt, which says its own form at its head."""
import pathlib
import re

TABLE = pathlib.Path(__file__).resolve().parent.parent / 'docs' / 'boundary.txt'

KINDS = ('makes', 'changes', 'reads')
ANSWERS = ('done', 'verdict', 'value', 'option', 'pair', 'counts', 'flag', 'offsets')


class Word:
    """A word of a record, a row of them, or a number of 64 bits in two: its name, how many words it takes, whether it is a row,
    a flag or wide."""

    def __init__(self, text):
        found = re.fullmatch(r'(##)?(\w+)(?:\[(\d+)\])?(\?)?', text)
        if not found or (found[1] and (found[3] or found[4])):
            raise ValueError(f'no word: {text}')
        self.name, self.row, self.flag, self.wide = found[2], found[3] is not None, bool(found[4]), bool(found[1])
        self.length = 2 if self.wide else int(found[3] or 1)


class Argument:
    """An argument: its name, its kind (float, word, flag, wide), and its place among the floats or among the words."""

    def __init__(self, text, floats, words):
        found = re.fullmatch(r'(#{0,2})(\w+)(\??)', text)
        if not found or (found[1] and found[3]):
            raise ValueError(f'no argument: {text}')
        self.name = found[2]
        self.kind = {'##': 'wide', '#': 'word'}.get(found[1]) or ('flag' if found[3] else 'float')
        self.place = floats if self.kind == 'float' else words

    def floats(self):
        return 1 if self.kind == 'float' else 0

    def words(self):
        return {'float': 0, 'wide': 2}.get(self.kind, 1)


class Operation:
    def __init__(self, number, name, kind, arguments, answer):
        if answer not in ANSWERS:
            raise ValueError(f'{name}: no answer: {answer}')
        self.number, self.name, self.kind, self.answer = number, name, kind, answer
        self.arguments, floats, words = [], 0, 0
        for text in arguments:
            argument = Argument(text, floats, words)
            floats, words = floats + argument.floats(), words + argument.words()
            self.arguments.append(argument)


class Component:
    """A component with a record, or, where it has no type, a function without one."""

    def __init__(self, name, type_, crate, title):
        self.name, self.type, self.crate, self.title = name, type_, crate, title
        self.numbers, self.counts, self.operations = [], [], []

    def length(self, words):
        return sum(w.length for w in words)

    def lengths(self):
        """How many numbers and counts; a component without counts is lent one word that it leaves alone."""
        return self.length(self.numbers), max(self.length(self.counts), 1)


def read(path=TABLE):
    """The components of the table, in its order."""
    components = []
    for line in path.read_text().splitlines():
        # a word argument begins with #, so a comment is a line of its own
        if not line.strip() or line.startswith('#'):
            continue
        left, _, right = (part.strip() for part in line.partition('|'))
        words = left.split()
        if words[0] == 'component':
            components.append(Component(*words[1:4], right))
        elif words[0] == 'function':
            components.append(Component(words[1], None, words[1], right))
        elif words[0] in ('numbers', 'counts'):
            setattr(components[-1], words[0], [Word(w) for w in words[1:] if w != '-'])
        else:
            number, name, *rest = words
            kind = rest.pop(0) if rest and rest[0] in KINDS else None
            if (kind is None) != (components[-1].type is None):
                raise ValueError(f'{components[-1].name}: {name}: a kind is what an operation on a record has')
            components[-1].operations.append(Operation(int(number), name, kind, rest, right))
    for c in components:
        if [o.number for o in c.operations] != list(range(len(c.operations))):
            raise ValueError(f'{c.name}: the operations are not numbered from 0 on')
    return components
