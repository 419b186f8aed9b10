"""The table of books to be checked: each with the last line of the answer, as docs/LANGUAGE.md and docs/ENGINE.md give it,
written beside it by hand. Where several refusals hold, all are listed, and any of them is right. A small checker of types,
below, finds every right answer by itself, and has to agree; of the samples it tells the types where no
value does.

typed.py FOLDER writes FOLDER/stdin, the table of labels, right answers and inputs, and FOLDER/stdout, the labels with the
right answers.
"""
import struct
import sys

from books import TIDE, day, many, parts_of, tide
from tables import refusal_number, samples, write

CASES = []
INT, BOOLEAN, FIRST_CLASS = 0, 1, 2


# Every right answer

class Book:
    """What stands in the file of a book that is clear of the faults of a file."""

    def __init__(self, data):
        h = struct.unpack('<12H', data[:24])

        def part(at, count, size):
            return [struct.unpack_from('<%dH' % size, data, at + 2 * size * i) for i in range(count)]
        self.classes, self.fields, self.methods, self.nodes = (part(h[6 + i], h[1 + i], size) for i, size in enumerate((3, 2, 5, 4)))
        self.names, at = [], h[10]
        for _ in range(h[5]):
            self.names.append(data[at + 1:at + 1 + data[at]].decode())
            at += 1 + data[at]
        self.own_fields, self.own_methods, f, m = [], [], 0, 0
        for _, fields, methods in self.classes:
            self.own_fields.append(range(f, f + fields))
            self.own_methods.append(range(m, m + methods))
            f, m = f + fields, m + methods
        # where each node stands: in a method, or at the top
        self.place, self.returned = [], []
        for c in range(len(self.classes)):
            for m in self.own_methods[c]:
                name, result, parameter, command, returned = self.methods[m]
                self.place += [(c, parameter)] * (command + returned)
                self.returned.append((len(self.place) - 1, result))
        self.place += [None] * (len(self.nodes) - len(self.place))

    def named(self, kind, own, name):
        """The first entry of a class's own by its name."""
        return next((kind[i] for i in own if kind[i][0] == name), None)

    def word(self, t):
        return {INT: 'int', BOOLEAN: 'boolean'}.get(t) or self.names[self.classes[t - FIRST_CLASS][0]]


def repeated(entries, first):
    names = [e[0] for e in entries]
    return {(11, first + i) for i, n in enumerate(names) if names.count(n) > 1}


def judged(book, k, types):
    """The type of a node (for a command, 'com'; None where it has none) and the refusals that hold at it."""
    kind, a, b, d = book.nodes[k]
    here = book.place[k]
    found = set()

    def want(part, right):
        """Whether a part has a type as its node needs it; where it has none, that is no fault of this node."""
        t = types[part]
        if t is not None and not right(t):
            found.add((12, k))
        return t is not None and right(t)
    is_int, is_boolean, is_class = lambda t: t == INT, lambda t: t == BOOLEAN, lambda t: t >= FIRST_CLASS

    def given(part, wanted):
        if types[part] is not None and types[part] != wanted:
            found.add((14, k))
        return types[part] == wanted
    t = None
    if kind == 0:
        t = INT
    elif kind in (1, 2, 3):
        if all([want(a, is_int), want(b, is_int)]):
            t = INT if kind == 1 else BOOLEAN
    elif kind == 4:
        t = BOOLEAN if want(a, is_class) else None
    elif kind in (5, 6):
        if here is None:
            found.add((15, k))
        else:
            t = FIRST_CLASS + here[0] if kind == 5 else here[1]
    elif kind in (7, 11):
        if want(a, is_class):
            c = types[a] - FIRST_CLASS
            field = book.named(book.fields, book.own_fields[c], d)
            may = field is not None and here is not None and here[0] == c
            if not may:
                found.add((13, k))
            if kind == 7:
                t = field[1] if may else None
            elif field is not None and given(b, field[1]) and may:
                t = 'com'
    elif kind == 8:
        if want(a, is_class):
            method = book.named(book.methods, book.own_methods[types[a] - FIRST_CLASS], d)
            if method is None:
                found.add((13, k))
            elif given(b, method[2]):
                t = method[1]
    elif kind == 9:
        t = FIRST_CLASS + d
    elif kind == 10:
        t = INT if want(a, is_int) else None
    elif kind == 12:
        t = 'com' if types[a] and types[b] else None
    elif kind == 13:
        t = 'com' if want(a, is_boolean) and types[b] and types[d] else None
    elif kind == 14:
        t = 'com' if want(a, is_boolean) and types[b] else None
    else:
        t = 'com'
    return t, found


def right_answers(data):
    """All last lines that are right for an input whose book has no fault of a file."""
    book = Book(data[2 + 4 * struct.unpack('<H', data[:2])[0]:])
    first_field = len(book.classes)
    first_method = first_field + len(book.fields)
    found = repeated(book.classes, 0)
    for fields, methods in zip(book.own_fields, book.own_methods):
        found |= repeated([book.fields[i] for i in fields], first_field + fields.start)
        found |= repeated([book.methods[i] for i in methods], first_method + methods.start)
    types = []
    for k in range(len(book.nodes)):
        t, wrong = judged(book, k, types)
        types.append(t)
        found |= wrong
    for root, result in book.returned:
        if types[root] not in (None, result):
            found.add((16, root))
    return ['refused %d at %d' % f for f in sorted(found)] or ['type ' + book.word(types[-1])]


# The table

def case(label, book, *answers):
    data = day([], book.bytes())
    found = right_answers(data)
    if set(found) != set(answers):
        raise SystemExit('%s: %s by hand, %s by the checker' % (label, answers, found))
    CASES.append((label, data, '\n'.join(answers)))


def at_top(label, nodes, *answers):
    """A top-level expression beside class Tide of books.py, whose nodes are 0 to 3: the top's are numbered from 4."""
    case(label, parts_of(TIDE, nodes), *answers)


BELL = ('Bell', [('high', 'int'), ('toll', 'int')], [('ring', 'boolean', 'int', [('skip',)], [('parameter',), ('literal', 3), ('less', 0, 1)])])


def in_method(label, command, returned, *answers, result='int', parameter='int', top=(('literal', 0),)):
    """A method of class Flood, numbered from 0; nothing calls it. Bell, behind it, has 4 nodes."""
    fields = [('high', 'int'), ('next', 'Flood'), ('spring', 'boolean'), ('bell', 'Bell')]
    case(label, parts_of([('Flood', fields, [('work', result, parameter, command, returned)]), BELL], list(top)), *answers)


SKIP, ONE = [('skip',)], [('literal', 1)]
TRUE = [('literal', 1), ('literal', 2), ('less', 0, 1)]


def wrong_parts():
    for kind in ('minus', 'less', 'equal'):
        at_top('a boolean left in ' + kind, TRUE + [('literal', 7), (kind, 2, 3)], 'refused 12 at 8')
        at_top('a boolean right in ' + kind, [('literal', 7), ('literal', 1), ('literal', 2), ('less', 1, 2), (kind, 0, 3)], 'refused 12 at 8')
        at_top('an object left in ' + kind, [('new', 'Tide'), ('literal', 7), (kind, 0, 1)], 'refused 12 at 6')
        at_top('an object right in ' + kind, [('literal', 7), ('new', 'Tide'), (kind, 0, 1)], 'refused 12 at 6')
        at_top('booleans in ' + kind, TRUE + [('literal', 3), ('literal', 4), ('less', 3, 4), (kind, 2, 5)], 'refused 12 at 10')
        at_top('objects in ' + kind, [('new', 'Tide'), ('new', 'Tide'), (kind, 0, 1)], 'refused 12 at 6')
    case('7 - (1 < 2)', parts_of([], [('literal', 7), ('literal', 1), ('literal', 2), ('less', 1, 2), ('minus', 0, 3)]), 'refused 12 at 4')
    at_top('an int against null', [('literal', 7), ('is_null', 0)], 'refused 12 at 5')
    at_top('a boolean against null', TRUE + [('is_null', 2)], 'refused 12 at 7')
    at_top('a field of an int', [('literal', 7), ('field', 0, 'high')], 'refused 12 at 5')
    at_top('a field of a boolean', TRUE + [('field', 2, 'high')], 'refused 12 at 7')
    at_top('a call on an int', [('literal', 7), ('literal', 1), ('call', 0, 1, 'set')], 'refused 12 at 6')
    at_top('a call on a boolean', TRUE + [('literal', 1), ('call', 2, 3, 'set')], 'refused 12 at 8')
    at_top('a reading by a boolean', TRUE + [('reading', 2)], 'refused 12 at 7')
    at_top('a reading by an object', [('new', 'Tide'), ('reading', 0)], 'refused 12 at 5')
    at_top('wrong in an argument', [('new', 'Tide'), ('literal', 7), ('new', 'Tide'), ('minus', 1, 2), ('call', 0, 3, 'set')], 'refused 12 at 7')
    in_method('a field of a parameter that is an int', SKIP, [('parameter',), ('field', 0, 'high')], 'refused 12 at 2')
    in_method('a write to an int', [('parameter',), ('literal', 1), ('write', 0, 1, 'high')], ONE, 'refused 12 at 2')
    in_method('a write to a boolean', [('parameter',), ('literal', 1), ('write', 0, 1, 'high')], ONE, 'refused 12 at 2', parameter='boolean')
    for typed, test in (('an int', ('literal', 1)), ('an object', ('this',))):
        in_method('if by ' + typed, [test, ('skip',), ('skip',), ('if', 0, 1, 2)], ONE, 'refused 12 at 3')
        in_method('while by ' + typed, [test, ('skip',), ('while', 0, 1)], ONE, 'refused 12 at 2')
    # in each command of a sequence, of an if and of a while
    in_method('wrong in an if, second', [('this',), ('is_null', 0), ('skip',), ('literal', 1), ('skip',), ('while', 3, 4), ('if', 1, 2, 5)], ONE, 'refused 12 at 5')
    in_method('wrong in a sequence, first', [('literal', 1), ('skip',), ('while', 0, 1), ('skip',), ('sequence', 2, 3)], ONE, 'refused 12 at 2')
    in_method('wrong in a sequence, last', [('skip',), ('literal', 1), ('skip',), ('while', 1, 2), ('sequence', 0, 3)], ONE, 'refused 12 at 3')
    in_method('wrong in a while', [('this',), ('is_null', 0), ('literal', 1), ('skip',), ('while', 2, 3), ('while', 1, 4)], ONE, 'refused 12 at 4')
    in_method('wrong in an if, first', [('this',), ('is_null', 0), ('literal', 1), ('skip',), ('while', 2, 3), ('skip',), ('if', 1, 4, 5)], ONE, 'refused 12 at 4')


def wrong_members():
    at_top('a field read at the top', [('new', 'Tide'), ('field', 0, 'high')], 'refused 13 at 5')
    at_top('no such field at the top', [('new', 'Tide'), ('field', 0, 'low')], 'refused 13 at 5')
    at_top('no such method', [('new', 'Tide'), ('literal', 1), ('call', 0, 1, 'get')], 'refused 13 at 6')
    at_top('a field called', [('new', 'Tide'), ('literal', 1), ('call', 0, 1, 'high')], 'refused 13 at 6')
    in_method('no such field', SKIP, [('this',), ('field', 0, 'low')], 'refused 13 at 2')
    in_method('a method read as a field', SKIP, [('this',), ('field', 0, 'work')], 'refused 13 at 2')
    in_method('a field of another class', SKIP, [('new', 'Bell'), ('field', 0, 'toll')], 'refused 13 at 2')
    in_method('a field of another class by the name of an own one', SKIP, [('new', 'Bell'), ('field', 0, 'high')], 'refused 13 at 2')
    in_method('a field of a parameter of another class', SKIP, [('parameter',), ('field', 0, 'high')], 'refused 13 at 2', parameter='Bell')
    in_method('a field of a field of another class', SKIP, [('this',), ('field', 0, 'bell'), ('field', 1, 'high')], 'refused 13 at 3')
    in_method('a field of this that another class has', SKIP, [('this',), ('field', 0, 'toll')], 'refused 13 at 2')
    in_method('a write to no such field', [('this',), ('literal', 1), ('write', 0, 1, 'low')], ONE, 'refused 13 at 2')
    in_method('a write to a field of another class', [('new', 'Bell'), ('literal', 1), ('write', 0, 1, 'toll')], ONE, 'refused 13 at 2')
    in_method('a write to a field of another class by the name of an own one', [('new', 'Bell'), ('literal', 1), ('write', 0, 1, 'high')], ONE, 'refused 13 at 2')
    in_method('a write of another type to a field of another class', [('new', 'Bell'), ('this',), ('write', 0, 1, 'high')], ONE,
              'refused 13 at 2', 'refused 14 at 2')
    in_method('a method of the caller\'s class called on another', SKIP, [('new', 'Bell'), ('literal', 1), ('call', 0, 1, 'work')], 'refused 13 at 3')
    in_method('a method of another class called on this', SKIP, [('this',), ('literal', 1), ('call', 0, 1, 'ring')], 'refused 13 at 3')


def wrong_values():
    at_top('a boolean for an int', [('new', 'Tide')] + [('literal', 1), ('literal', 2), ('less', 1, 2), ('call', 0, 3, 'set')], 'refused 14 at 8')
    at_top('an object for an int', [('new', 'Tide'), ('new', 'Tide'), ('call', 0, 1, 'set')], 'refused 14 at 6')
    in_method('an int for an object', SKIP, [('this',), ('literal', 1), ('call', 0, 1, 'work')], 'refused 14 at 3', parameter='Flood')
    in_method('an object of another class', SKIP, [('this',), ('new', 'Bell'), ('call', 0, 1, 'work')], 'refused 14 at 3', parameter='Flood')
    in_method('the result\'s type for the parameter\'s', SKIP, [('this',), ('literal', 1), ('call', 0, 1, 'work')], 'refused 14 at 3', parameter='boolean')
    in_method('a boolean written to an int', [('this',), ('literal', 1), ('literal', 2), ('less', 1, 2), ('write', 0, 3, 'high')], ONE, 'refused 14 at 4')
    in_method('an int written to a boolean', [('this',), ('literal', 1), ('write', 0, 1, 'spring')], ONE, 'refused 14 at 2')
    in_method('an int written to an object', [('this',), ('literal', 1), ('write', 0, 1, 'next')], ONE, 'refused 14 at 2')
    in_method('an object written to an int', [('this',), ('this',), ('write', 0, 1, 'high')], ONE, 'refused 14 at 2')
    in_method('an object of another class written', [('this',), ('this',), ('write', 0, 1, 'bell')], ONE, 'refused 14 at 2')
    in_method('another parameter written', [('this',), ('parameter',), ('write', 0, 1, 'high')], ONE, 'refused 14 at 2', parameter='boolean')


def wrong_places():
    case('this alone', parts_of([], [('this',)]), 'refused 15 at 0')
    case('parameter alone', parts_of([], [('parameter',)]), 'refused 15 at 0')
    at_top('this at the top', [('this',)], 'refused 15 at 4')
    at_top('this called at the top', [('this',), ('literal', 1), ('call', 0, 1, 'set')], 'refused 15 at 4')
    at_top('parameter as an argument at the top', [('new', 'Tide'), ('parameter',), ('call', 0, 1, 'set')], 'refused 15 at 5')
    at_top('parameter in minus at the top', [('literal', 1), ('parameter',), ('minus', 0, 1)], 'refused 15 at 5')
    at_top('this and parameter at the top', [('this',), ('parameter',), ('call', 0, 1, 'set')], 'refused 15 at 4', 'refused 15 at 5')


def wrong_results():
    in_method('an int returned for a boolean', SKIP, ONE, 'refused 16 at 1', result='boolean')
    in_method('an int returned for an object', SKIP, ONE, 'refused 16 at 1', result='Flood')
    in_method('a boolean returned for an int', SKIP, TRUE, 'refused 16 at 3')
    in_method('this returned for an int', SKIP, [('this',)], 'refused 16 at 1')
    in_method('this returned for another class', SKIP, [('this',)], 'refused 16 at 1', result='Bell')
    in_method('the parameter returned, of another type', SKIP, [('parameter',)], 'refused 16 at 1', parameter='boolean')
    in_method('its own result returned, of another type', SKIP, [('this',), ('literal', 0), ('call', 0, 1, 'work'), ('is_null', 2)], 'refused 16 at 4', result='Flood')
    case('the last method of the last class', parts_of(
        [('First', [], [('m', 'int', 'int', SKIP, ONE)]),
         ('Last', [], [('m', 'int', 'int', SKIP, ONE), ('n', 'int', 'Last', SKIP, [('parameter',)])])], ONE), 'refused 16 at 5')
    case('a command of the last class, a result right', parts_of(
        [('First', [], [('m', 'int', 'int', SKIP, ONE)]),
         ('Last', [], [('m', 'int', 'int', [('parameter',), ('skip',), ('while', 0, 1)], ONE)])], ONE), 'refused 12 at 4')


def names():
    top = [('literal', 0)]
    f = lambda *ns: [(n, 'int') for n in ns]
    m = lambda *ns: [(n, 'int', 'int', SKIP, ONE) for n in ns]
    case('two classes by one name', parts_of([('Tide', [], []), ('Tide', [], [])], top), 'refused 11 at 0', 'refused 11 at 1')
    case('the first and the last of three classes', parts_of([('A', [], []), ('B', [], []), ('A', [], [])], top), 'refused 11 at 0', 'refused 11 at 2')
    case('three classes by one name', parts_of([('A', [], [])] * 3, top), 'refused 11 at 0', 'refused 11 at 1', 'refused 11 at 2')
    case('two fields by one name', parts_of([('A', f('x', 'x'), [])], top), 'refused 11 at 1', 'refused 11 at 2')
    case('two fields of two types by one name', parts_of([('A', [('x', 'int'), ('x', 'A')], [])], top), 'refused 11 at 1', 'refused 11 at 2')
    case('two fields of the second class', parts_of([('A', f('x'), []), ('B', f('x', 'y', 'x'), [])], top), 'refused 11 at 3', 'refused 11 at 5')
    case('two methods by one name', parts_of([('A', [], m('x', 'x'))], top), 'refused 11 at 1', 'refused 11 at 2')
    case('two methods that take two types', parts_of([('A', f('x'), m('x') + [('x', 'int', 'A', SKIP, ONE)])], top), 'refused 11 at 2', 'refused 11 at 3')
    case('two methods of the second class', parts_of([('A', f('x'), m('x')), ('B', f('x', 'y'), m('x', 'z', 'y', 'z'))], top), 'refused 11 at 7', 'refused 11 at 9')
    case('two classes by one name, and this at the top', parts_of([('A', [], []), ('A', [], [])], [('this',)]),
         'refused 11 at 0', 'refused 11 at 1', 'refused 15 at 0')
    case('fields of two classes by one name', parts_of([('A', f('x'), []), ('B', f('x'), [])], top), 'type int')
    case('methods of two classes by one name', parts_of([('A', [], m('x')), ('B', [], m('x'))], top), 'type int')
    case('a class, a field and a method by one name', parts_of([('A', f('A'), m('A'))], [('new', 'A')]), 'type A')
    case('a field by the name of the next class', parts_of([('A', f('B'), []), ('B', f('A'), [])], [('new', 'B')]), 'type B')


def accepted():
    case('7 - 2', parts_of([], [('literal', 7), ('literal', 2), ('minus', 0, 1)]), 'type int')
    case('a literal', parts_of([], [('literal', -2147483648)]), 'type int')
    case('7 < 2', parts_of([], [('literal', 7), ('literal', 2), ('less', 0, 1)]), 'type boolean')
    case('7 == 2', parts_of([], [('literal', 7), ('literal', 2), ('equal', 0, 1)]), 'type boolean')
    case('a reading', parts_of([], [('literal', 0), ('reading', 0)]), 'type int')
    at_top('a new object', [('new', 'Tide')], 'type Tide')
    at_top('a new object against null', [('new', 'Tide'), ('is_null', 0)], 'type boolean')
    case('new Tide().set(412)', tide(), 'type Tide')
    case('every kind', many(), 'type int')
    case('a class name of 31 letters', parts_of([('a' * 31, [], [])], [('new', 'a' * 31)]), 'type ' + 'a' * 31)
    in_method('a field of another object of the class', SKIP, [('parameter',), ('field', 0, 'high')], 'type int', parameter='Flood')
    in_method('a field of a field', SKIP, [('this',), ('field', 0, 'next'), ('field', 1, 'high')], 'type int')
    in_method('a method of another class', SKIP, [('this',), ('field', 0, 'bell'), ('parameter',), ('call', 1, 2, 'ring')], 'type boolean', result='boolean',
              top=[('new', 'Flood'), ('literal', 1), ('call', 0, 1, 'work')])
    in_method('a write to another object of the class', [('parameter',), ('this',), ('write', 0, 1, 'next')], [('parameter',)], 'type Flood',
              result='Flood', parameter='Flood', top=[('new', 'Flood'), ('new', 'Flood'), ('call', 0, 1, 'work')])
    in_method('a new object written', [('this',), ('new', 'Bell'), ('write', 0, 1, 'bell')], ONE, 'type int')
    down = ('down', 'int', 'int', SKIP, [('new', 'Flow'), ('parameter',), ('literal', 1), ('minus', 1, 2), ('call', 0, 3, 'up')])
    up = ('up', 'int', 'int', SKIP, [('new', 'Ebb'), ('parameter',), ('call', 0, 1, 'down')])
    case('methods that call one another', parts_of([('Ebb', [], [down]), ('Flow', [], [up])], [('new', 'Ebb'), ('literal', 3), ('call', 0, 1, 'down')]), 'type int')
    case('classes of one another', parts_of([('A', [('b', 'B')], []), ('B', [('a', 'A')], [])], [('new', 'A')]), 'type A')
    case('a method that calls itself', parts_of([('A', [], [('m', 'A', 'A', SKIP, [('this',), ('parameter',), ('call', 0, 1, 'm')])])],
                                                [('new', 'A'), ('new', 'A'), ('call', 0, 1, 'm')]), 'type A')
    both = lambda result, returned: ('m', result, 'int', SKIP, returned)
    case('one method name in two classes', parts_of([('A', [], [both('boolean', TRUE)]), ('B', [], [both('int', ONE)])],
                                                    [('new', 'B'), ('literal', 1), ('call', 0, 1, 'm')]), 'type int')
    case('one method name in two classes, of the caller\'s class', parts_of(
        [('A', [], [both('boolean', TRUE)]), ('B', [], [both('int', ONE), ('n', 'boolean', 'int', SKIP, [('new', 'A'), ('parameter',), ('call', 0, 1, 'm')])])],
        [('new', 'B'), ('literal', 1), ('call', 0, 1, 'n')]), 'type boolean')


def deep_and_full():
    """Books of 4,000 nodes, as deep as can be, and full tables."""
    case('3,999 readings of a reading', parts_of([], [('literal', 0)] + [('reading', k) for k in range(3999)]), 'type int')
    case('3,999 tests against null of a test', parts_of([('A', [], [])], [('new', 'A')] + [('is_null', k) for k in range(3999)]), 'refused 12 at 2')
    left = [('literal', 0)] + [w for k in range(1999) for w in (('literal', k), ('minus', 2 * k, 2 * k + 1))]
    case('1,999 differences, leftwards', parts_of([], left), 'type int')
    right = [('literal', k) for k in range(2000)] + [('minus', 1998 - k, 1999 + k) for k in range(1999)]
    case('1,999 differences, rightwards', parts_of([], right), 'type int')
    loops = [('skip',)] + [w for k in range(1331) for w in (('this',), ('is_null', 3 * k + 1), ('while', 3 * k + 2, 3 * k))]
    case('1,331 whiles in a while', parts_of([('A', [], [('m', 'int', 'int', loops, ONE)])], ONE), 'type int')
    skips = [('skip',)] + [w for k in range(1998) for w in (('skip',), ('sequence', 2 * k, 2 * k + 1))]
    case('1,998 sequences of a sequence', parts_of([('A', [], [('m', 'int', 'int', skips, ONE)])], ONE), 'type int')
    calls = [('new', 'A')] + [w for k in range(1998) for w in (('literal', k), ('call', 2 * k, 2 * k + 1, 'm'))]
    case('1,998 calls on a call', parts_of([('A', [], [('m', 'A', 'int', SKIP, [('this',)])])], calls), 'type A')
    case('1,998 calls on a call, the last argument wrong', parts_of(
        [('A', [], [('m', 'A', 'int', SKIP, [('this',)])])], calls[:-2] + [('new', 'A'), calls[-1]]), 'refused 14 at 3998')
    case('64 classes', parts_of([('C%d' % i, [], []) for i in range(64)], [('new', 'C63')]), 'type C63')
    case('the last two of 64 classes by one name', parts_of([('C%d' % min(i, 62), [], []) for i in range(64)], ONE), 'refused 11 at 62', 'refused 11 at 63')
    reads = [('m', 'int', 'int', SKIP, [('this',), ('field', 0, 'f508')])]
    case('509 fields', parts_of([('C', [('f%d' % i, 'int') for i in range(509)], reads)], ONE), 'type int')
    ring = lambda n: [('m%d' % i, 'int', 'int', SKIP, [('this',), ('parameter',), ('call', 0, 1, 'm%d' % ((i + 1) % n))]) for i in range(n)]
    case('256 methods, each calling the next', parts_of([('C', [], ring(256))], ONE), 'type int')
    case('256 methods, the last of them wrong', parts_of([('C', [], ring(255) + [('last', 'C', 'int', SKIP, ONE)])], ONE), 'refused 16 at 1021')


def told(answer):
    """What a sample's value tells of the type of its book: a line, or None."""
    lines = answer.split('\n')
    if not lines[0].startswith('end 0 ') or lines[1] == 'null':
        return None
    return 'type ' + (lines[2].split()[1] if lines[1] == 'object 0' else lines[1].split()[0])


def checked_samples():
    """The sample inputs that have no fault of a file."""
    for number, data, answers in samples():
        refusal = refusal_number(answers[0])
        if refusal in range(1, 10):
            continue
        found = right_answers(data)
        right = answers if refusal in range(11, 17) else [told(answers[0]) or found[0]]
        if not set(found) <= set(right) or (right != answers and found[0].startswith('refused')):
            raise SystemExit('sample %s: %s, by the checker %s' % (number, answers, found))
        CASES.append(('sample ' + number, data, '\n'.join(right)))


for part in (wrong_parts, wrong_members, wrong_values, wrong_places, wrong_results, names, accepted, deep_and_full, checked_samples):
    part()
write(sys.argv[1], CASES, with_answers=True)
