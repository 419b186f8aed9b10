"""Writes an input with a book at every limit of the format: 64 classes, 512 fields, 256 methods, 4,000 nodes, 512 names of 31 bytes."""
import sys

from books import day, parts_of


def full_size():
    names = ['n%030d' % i for i in range(512)]
    skip, this = [('skip',)], [('this',)]
    classes = []
    for c in range(64):
        fields = [(names[i], 'int') for i in range(8)]
        methods = [(names[8 + i], names[511 - c], 'int', skip, this) for i in range(4)]
        classes.append((names[511 - c], fields, methods))
    top = [('literal', 0)] + [w for i in range(1743) for w in (('literal', i), ('minus', 2 * i, 2 * i + 1))] + [('is_null', 3486)]
    return parts_of(classes, top, names)


sys.stdout.buffer.write(day([], full_size().bytes()))
