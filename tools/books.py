"""Rule books from structured data, for the examples and the tests.

A book is made of classes, each a name, a list of fields (name, type) and a list of methods
(name, result type, parameter type, command nodes, returned nodes), and of the nodes of the top-level expression.
A type is 'int', 'boolean' or a class's name. A node is a tuple of its kind's word and what its numbers name, with
parts counted within the strip. Names are numbered by first appearance. docs/BOOK.md has the format.
"""
import struct

KINDS = ['literal', 'minus', 'less', 'equal', 'is_null', 'this', 'parameter', 'field', 'call', 'new', 'reading',
         'write', 'sequence', 'if', 'while', 'skip']


def numbers(*ns):
    return struct.pack('<%dH' % len(ns), *ns)


class Parts:
    """The six parts of a file, each a list of lists of numbers (names: a list of byte strings), to be torn by tests."""

    def __init__(self, header, classes, fields, methods, nodes, names):
        self.header, self.classes, self.fields, self.methods, self.nodes, self.names = header, classes, fields, methods, nodes, names

    def bytes(self):
        out = numbers(*self.header)
        for part in (self.classes, self.fields, self.methods, self.nodes):
            out += b''.join(numbers(*entry) for entry in part)
        return out + b''.join(bytes([len(n)]) + n for n in self.names)

    def settle(self):
        """Counts and offsets in the header by what stands in the parts."""
        c, f, m, n = len(self.classes), len(self.fields), len(self.methods), len(self.nodes)
        self.header[1:6] = [c, f, m, n, len(self.names)]
        at = 24
        for place, size in zip(range(6, 11), (0, 6 * c, 4 * f, 10 * m, 8 * n)):
            at += size
            self.header[place] = at
        return self


def parts_of(classes, top, names=()):
    order = list(names)
    class_names = [c[0] for c in classes]

    def name(s):
        if s not in order:
            order.append(s)
        return order.index(s)

    def typed(t):
        return {'int': 0, 'boolean': 1}[t] if t in ('int', 'boolean') else 2 + class_names.index(t)

    def node(first, words):
        kind = KINDS.index(words[0])
        rest = words[1:]
        at = lambda i: first + rest[i]
        if kind == 0:
            bits = rest[0] & 0xffffffff
            return [0, 0, bits & 0xffff, bits >> 16]
        if kind in (1, 2, 3, 12, 14):
            return [kind, at(0), at(1), 0]
        if kind in (4, 10):
            return [kind, at(0), 0, 0]
        if kind in (5, 6, 15):
            return [kind, 0, 0, 0]
        if kind == 7:
            return [kind, at(0), 0, name(rest[1])]
        if kind in (8, 11):
            return [kind, at(0), at(1), name(rest[2])]
        if kind == 9:
            return [kind, 0, 0, class_names.index(rest[0])]
        return [kind, at(0), at(1), at(2)]

    cs, fs, ms, ns = [], [], [], []

    def strip(words):
        first = len(ns)
        for w in words:
            ns.append(node(first, w))
        return len(words)

    for called, fields, methods in classes:
        cs.append([name(called), len(fields), len(methods)])
        for f, t in fields:
            fs.append([name(f), typed(t)])
        for m, result, parameter, command, returned in methods:
            entry = [name(m), typed(result), typed(parameter)]
            entry += [strip(command), strip(returned)]
            ms.append(entry)
    t = strip(top)
    header = [1, 0, 0, 0, 0, 0, 0, 0, 0, 0, 0, t]
    return Parts(header, cs, fs, ms, ns, [s.encode() for s in order]).settle()


def strip(tree, turned=lambda: False):
    """The nodes of a strip from a tree: lists in the place of parts. Parts lie before their node, the last first where turned."""
    words = []

    def put(node):
        parts = [i for i, x in enumerate(node) if isinstance(x, list)]
        at = {i: put(node[i]) for i in (parts[::-1] if turned() else parts)}
        words.append(tuple(at.get(i, x) for i, x in enumerate(node)))
        return len(words) - 1
    put(tree)
    return words


def day(readings, book):
    """A program's input: a count, that many readings, and a book."""
    return struct.pack('<H', len(readings)) + struct.pack('<%di' % len(readings), *readings) + book


SET = ('set', 'Tide', 'int', [('this',), ('parameter',), ('write', 0, 1, 'high')], [('this',)])
TIDE = [('Tide', [('high', 'int'), ('next', 'Tide')], [SET])]


def tide():
    """
    class Tide {
        private int high; private Tide next;
        public Tide set(int h) { this.high = h; return this; }
    }
    new Tide().set(412)
    """
    return parts_of(TIDE, [('new', 'Tide'), ('literal', 412), ('call', 0, 1, 'set')], ['Tide', 'high', 'next', 'set'])


# Three classes whose strips use every kind of node.
ONE = [('one', 'int', 'int',
        [('skip',), ('skip',), ('sequence', 0, 1)],                                    # nodes 0 to 2
        [('parameter',), ('literal', -1), ('minus', 0, 1)])]                           # nodes 3 to 5
TWO = [('two', 'boolean', 'First',
        [('parameter',), ('is_null', 0), ('skip',), ('this',), ('this',), ('field', 4, 'left'), ('write', 3, 5, 'left'),
         ('if', 1, 2, 6)],                                                             # nodes 6 to 13
        [('literal', 3), ('reading', 0), ('literal', 4), ('less', 1, 2)]),              # nodes 14 to 17
       ('more', 'boolean', 'int',
        [('parameter',), ('literal', 9), ('equal', 0, 1), ('skip',), ('while', 2, 3)],  # nodes 18 to 22
        [('parameter',), ('literal', 1), ('equal', 0, 1)])]                             # nodes 23 to 25
MANY = [('First', [('left', 'Last'), ('right', 'int')], ONE), ('Second', [('left', 'boolean')], TWO), ('Last', [('end', 'First')], [])]
TOP = [('new', 'First'), ('literal', 5), ('call', 0, 1, 'one')]                         # nodes 26 to 28


def many():
    return parts_of(MANY, TOP)
