"""The table of torn books: each input with the answer that docs/BOOK.md gives it, written beside it by hand; then the
sample inputs that are refused for what their books are.

torn.py FOLDER writes FOLDER/stdin, the inputs one after another (a label's length in a byte and the label, then the
length of the input in four bytes and the input), and FOLDER/stdout, the labels with the first two lines of each answer.
"""
import copy
import os
import struct
import sys

from books import Parts, day, many, parts_of, tide

CASES = []


def case(label, book, answer, readings=()):
    CASES.append((label, day(readings, book.bytes() if isinstance(book, Parts) else book), answer))


def raw(label, data, answer):
    CASES.append((label, data, answer))


def torn(label, base, answer, change):
    book = copy.deepcopy(base)
    change(book)
    case(label, book, answer)


def put(part, entry, number, value):
    def change(book):
        getattr(book, part)[entry][number] = value
    return change


def head(place, value):
    def change(book):
        book.header[place] = value
    return change


def named(number, name):
    def change(book):
        book.names[number] = name
    return change


def accepted(book, readings=0):
    h = book.header
    return 'readings %d\nclasses %d fields %d methods %d nodes %d names %d' % (readings, *h[1:6])


def tables():
    base, wide = tide(), many()

    # 9: the input itself
    raw('no byte', b'', 'refused 9 at 0')
    raw('one byte', b'\0', 'refused 9 at 0')
    raw('a count of 4,097', struct.pack('<H', 4097) + b'\0' * 4 * 4097 + base.bytes(), 'refused 9 at 0')
    raw('the last reading cut', struct.pack('<H', 2) + b'\0' * 7, 'refused 9 at 0')
    case('4,096 readings', base, accepted(base, 4096), [7] * 4096)
    raw('no book', b'\0\0', 'refused 1 at 0')

    # 1: the start
    case('23 bytes', base.bytes()[:23], 'refused 1 at 0')
    torn('version 0', base, 'refused 1 at 0', head(0, 0))
    torn('version 2', base, 'refused 1 at 0', head(0, 2))
    torn('version 257', base, 'refused 1 at 0', head(0, 257))

    # 2: counts and limits
    for place, limit in ((1, 64), (2, 512), (3, 256), (4, 4000), (5, 512)):
        torn('a count of %d at %d' % (limit + 1, place), base, 'refused 2 at %d' % place, head(place, limit + 1))
        torn('a count of 65,535 at %d' % place, base, 'refused 2 at %d' % place, head(place, 65535))
    torn('an empty top', base, 'refused 2 at 11', head(11, 0))

    def two_counts(book):
        book.header[3], book.header[11] = 257, 0
    torn('two wrong counts', base, 'refused 2 at 3', two_counts)
    skip = ([('skip',)], [('this',)])
    full = [parts_of([('C%d' % i, [], []) for i in range(64)], [('literal', 0)]),
            parts_of([('C', [('f%d' % i, 'int') for i in range(511)], [])], [('literal', 0)]),
            parts_of([('C', [], [('m%d' % i, 'C', 'int', *skip) for i in range(256)])], [('literal', 0)]),
            parts_of([], [('literal', i) for i in range(1)] + [w for i in range(1999) for w in (('literal', i), ('minus', 2 * i, 2 * i + 1))]
                     + [('is_null', 3998)])]
    for book, label in zip(full, ('64 classes', '511 fields and 512 names', '256 methods', '4,000 nodes')):
        case(label, book, accepted(book))
    fields = parts_of([('A', [('f%d' % i, 'int') for i in range(300)], []), ('B', [('f%d' % i, 'boolean') for i in range(212)], [])], [('literal', 0)])
    case('512 fields', fields, accepted(fields))

    # 3: offsets
    for place in range(6, 11):
        for by in (-1, 1):
            torn('the offset at %d by %d' % (place, by), base, 'refused 3 at %d' % place, head(place, base.header[place] + by))

    def two_offsets(book):
        book.header[7] = book.header[10] = 0
    torn('two wrong offsets', base, 'refused 3 at 7', two_offsets)
    case('names beyond the end', base.bytes()[:103], 'refused 3 at 10')
    case('no bytes for names', base.bytes()[:104], 'refused 4 at 0')
    case('only a header', base.bytes()[:24], 'refused 3 at 10')

    # 4: names, of which the base has four
    case('the last name cut', base.bytes()[:122], 'refused 4 at 3')
    case('one byte more', base.bytes() + b'x', 'refused 4 at 4')
    for n in (0, 1, 3):
        torn('name %d empty' % n, base, 'refused 4 at %d' % n, named(n, b''))
        torn('name %d of 32 bytes' % n, base, 'refused 4 at %d' % n, named(n, b'a' * 32))
        torn('name %d of 31 bytes' % n, base, accepted(base), named(n, b'a' * 31))
        torn('name %d of 1 byte' % n, base, accepted(base), named(n, b'z'))
        torn('name %d with a digit first' % n, base, 'refused 4 at %d' % n, named(n, b'9a'))
        torn('name %d with a blank' % n, base, 'refused 4 at %d' % n, named(n, b'a b'))
        for sign in (b'@', b'[', b'`', b'{', b'/', b':', b'\x80', b'\0', b'-'):
            torn('name %d with byte %d' % (n, sign[0]), base, 'refused 4 at %d' % n, named(n, b'a' + sign))
    torn('underscores and capitals', base, accepted(base), named(2, b'_Zz09_'))
    torn('name 1 again at 2', base, 'refused 4 at 2', named(2, b'high'))
    torn('name 0 again at 3', base, 'refused 4 at 3', named(3, b'Tide'))
    torn('another case is another name', base, accepted(base), named(3, b'tide'))
    torn('a prefix is another name', base, accepted(base), named(3, b'Tid'))

    def twice_faulty(book):
        book.names[3], book.names[1] = b'Tide', b'-'
    torn('two wrong names', base, 'refused 4 at 1', twice_faulty)

    # 5: totals
    for i in range(3):
        torn('a field more of class %d' % i, wide, 'refused 5 at 2', put('classes', i, 1, wide.classes[i][1] + 1))
        torn('a method more of class %d' % i, wide, 'refused 5 at 3', put('classes', i, 2, wide.classes[i][2] + 1))
        torn('65,535 methods of class %d' % i, wide, 'refused 5 at 3', put('classes', i, 2, 65535))
        torn('a node less of command %d' % i, wide, 'refused 5 at 4', put('methods', i, 3, wide.methods[i][3] - 1))
        torn('a node more of returned %d' % i, wide, 'refused 5 at 4', put('methods', i, 4, wide.methods[i][4] + 1))
    torn('a node more at the top', wide, 'refused 5 at 4', head(11, 4))
    torn('more nodes at the top than there are', wide, 'refused 5 at 4', head(11, 65535))

    # 6: entries: classes 0 to 2, fields 3 to 6, methods 7 to 9
    names, types = len(wide.names), 2 + len(wide.classes)
    for i in range(3):
        torn('class %d without a name' % i, wide, 'refused 6 at %d' % i, put('classes', i, 0, names))
    for j in range(4):
        torn('field %d without a name' % j, wide, 'refused 6 at %d' % (3 + j), put('fields', j, 0, names))
        torn('field %d without a type' % j, wide, 'refused 6 at %d' % (3 + j), put('fields', j, 1, types))
        torn('field %d of the last class' % j, wide, accepted(wide), put('fields', j, 1, types - 1))
    for m in range(3):
        torn('method %d without a name' % m, wide, 'refused 6 at %d' % (7 + m), put('methods', m, 0, 65535))
        torn('method %d without a result type' % m, wide, 'refused 6 at %d' % (7 + m), put('methods', m, 1, types))
        torn('method %d without a parameter type' % m, wide, 'refused 6 at %d' % (7 + m), put('methods', m, 2, 65535))

        def no_command(book, m=m):
            book.methods[m][4] += book.methods[m][3]
            book.methods[m][3] = 0
        torn('method %d without a command' % m, wide, 'refused 6 at %d' % (7 + m), no_command)

        def no_returned(book, m=m):
            book.methods[m][3] += book.methods[m][4]
            book.methods[m][4] = 0
        torn('method %d without a returned expression' % m, wide, 'refused 6 at %d' % (7 + m), no_returned)

    # 7: nodes
    case('every kind', wide, accepted(wide))
    for k in range(29):
        torn('node %d of kind 16' % k, wide, 'refused 7 at %d' % min([k] + unused(wide, k)), put('nodes', k, 0, 16))
        torn('node %d of kind 65,535' % k, wide, 'refused 7 at %d' % min([k] + unused(wide, k)), put('nodes', k, 0, 65535))
    spare = {0: (1,), 1: (3,), 2: (3,), 3: (3,), 4: (2, 3), 5: (1, 2, 3), 6: (1, 2, 3), 7: (2,), 8: (), 9: (1, 2), 10: (2, 3), 11: (), 12: (3,),
             13: (), 14: (3,), 15: (1, 2, 3)}
    for k, node in enumerate(wide.nodes):
        for number in spare[node[0]]:
            torn('node %d with a spare number %d' % (k, number), wide, 'refused 7 at %d' % k, put('nodes', k, number, 1))
        if node[0] in (7, 8, 11):
            torn('node %d without a name' % k, wide, 'refused 7 at %d' % k, put('nodes', k, 3, names))
    torn('new of no class', wide, 'refused 7 at 26', put('nodes', 26, 3, 3))
    # a part that lies wrongly is named at its node, but the part it no longer names is unused, and lower
    torn('a part that is its node', wide, 'refused 7 at 0', put('nodes', 2, 1, 2))
    torn('a part after its node', wide, 'refused 7 at 4', put('nodes', 5, 2, 6))
    torn('a part in another strip', wide, 'refused 7 at 14', put('nodes', 15, 1, 13))
    torn('a part past the end', wide, 'refused 7 at 26', put('nodes', 28, 1, 65535))
    torn('a node twice a part', wide, 'refused 7 at 26', put('nodes', 28, 2, 26))
    torn('another part for a test', wide, 'refused 7 at 7', put('nodes', 13, 1, 8))
    torn('a command for an expression', wide, 'refused 7 at 12', put('nodes', 9, 0, 15))
    torn('an expression for a command', wide, 'refused 7 at 22', put('nodes', 21, 0, 5))
    torn('a command root that is an expression', base, 'refused 7 at 0', put('nodes', 2, 0, 5))
    torn('a returned root that is a command', base, 'refused 7 at 3', put('nodes', 3, 0, 15))
    torn('a top root that is a command', parts_of([], [('literal', 0)]), 'refused 7 at 0', put('nodes', 0, 0, 15))


def samples():
    """The sample inputs that are refused before any checking of types: 1 to 7 and 9."""
    folder = os.path.join(os.path.dirname(os.path.abspath(__file__)), '..', 'samples')
    for f in sorted(os.listdir(folder)):
        if f.endswith('.expected'):
            answer = open(os.path.join(folder, f), 'rb').read()
            if answer.startswith(b'refused') and int(answer.split()[1]) < 10:
                raw('sample ' + f[:3], open(os.path.join(folder, f[:3] + '.in'), 'rb').read(), answer.decode().rstrip())


def unused(book, k):
    """The parts of a node, which are parts of none once it has no kind."""
    kind, a, b, d = book.nodes[k]
    return {0: [], 4: [a], 7: [a], 10: [a], 5: [], 6: [], 9: [], 15: [], 13: [a, b, d]}.get(kind, [a, b])


def main(folder):
    tables()
    samples()
    with open(folder + '/stdin', 'wb') as out:
        for label, data, _ in CASES:
            out.write(bytes([len(label)]) + label.encode() + struct.pack('<I', len(data)) + data)
    with open(folder + '/stdout', 'w') as out:
        for label, _, answer in CASES:
            out.write('%s:\n%s\n' % (label, answer))
    print(len(CASES), 'cases')


main(sys.argv[1])
