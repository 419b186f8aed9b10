"""Makes the figures of docs/BENCH.md in one run: the program slip against the plain one, and against a stock Java.

bench.py [--slip PROGRAM] [--plain PROGRAM]      (bench/plain is built by: cargo build --release in bench/plain)

Prints tables in Markdown. Both programs get the same inputs; the run fails if they don't answer alike. Instructions are
counted by valgrind's callgrind. Those of a step are the difference between two runs of one rule that differ in a number only,
by the difference of their steps, so that start, reading and checking drop out.
"""
import argparse
import os
import re
import shutil
import subprocess
import sys
import tempfile
import textwrap
import time

from books import day, parts_of, strip
from examples import EXAMPLES, NEXT, PARAMETER, SKIP, THIS, called, do, method, own, reading, to
from java_compare import DAY, DRIVER, EXAMPLE, HERE, answer, javac, write

ROUNDS = 40


def loop(body, returned, fields=(), methods=()):
    """A rule by number of turns: work(n) repeats a command n times."""
    fields = [('at', 'int'), ('sum', 'int'), ('made', 'Work'), ('kept', 'Work')] + list(fields)
    result = dict(fields)[returned]

    def rule(n):
        work = method('work', result, 'int', ['while', ['less', own('at'), PARAMETER], do(body, NEXT)], own(returned))
        return day([412] * 144, parts_of([('Work', fields, list(methods) + [work])], called(('Work', 'work'), n)).bytes())
    return rule


COUNT = loop(to('sum', ['minus', own('sum'), ['literal', 3]]), 'sum')
READ = loop(to('sum', ['minus', own('sum'), reading(['literal', 100])]), 'sum')
CALL = loop(to('sum', ['call', THIS, own('at'), 'less']), 'sum', methods=[method('less', 'int', 'int', SKIP, ['minus', PARAMETER, ['literal', 1]])])
WIDE = loop(to('f59', ['minus', own('f59'), ['literal', 3]]), 'sum', fields=[('f%d' % i, 'int') for i in range(60)])
LIST = loop(do(to('made', ['new', 'Work']), ['write', own('made'), own('kept'), 'kept'], to('kept', own('made'))), 'kept')


def idle(nodes):
    """A book of so many nodes, of which the run works but one: the others are a method's that nobody calls."""
    returned = [('literal', 0)] + [node for i in range((nodes - 3) // 2) for node in (('literal', i), ('minus', 2 * i, 2 * i + 1))]
    return day([], parts_of([('Work', [], [('work', 'int', 'int', strip(SKIP), returned)])], strip(['literal', 7])).bytes())


def recursion(n):
    down = to('sum', ['call', THIS, ['minus', PARAMETER, ['literal', 1]], 'work'])
    work = method('work', 'int', 'int', ['if', ['less', PARAMETER, ['literal', 1]], SKIP, down], own('sum'))
    return day([], parts_of([('Work', [('sum', 'int')], [work])], called(('Work', 'work'), n)).bytes())


def instructions(program, data):
    command = ['valgrind', '--tool=callgrind', '--callgrind-out-file=/dev/null', program]
    ran = subprocess.run(command, input=data, stdout=subprocess.DEVNULL, stderr=subprocess.PIPE)
    return int(re.search(rb'Collected : (\d+)', ran.stderr)[1])


def steps(text):
    return int(text.split()[5])


def table(*heads):
    print('\n| %s |\n|%s' % (' | '.join(heads), '---|' * len(heads)))


def row(*cells):
    print('| %s |' % ' | '.join(str(c) for c in cells), flush=True)


def inputs():
    """Every input with a stated answer, and the examples: a label, the input, the right answers (none stated: any that is alike)."""
    folder = os.path.join(HERE, 'samples')
    for n in sorted(f[:-3] for f in os.listdir(folder) if f.endswith('.in')):
        data = read(os.path.join(folder, n + '.in'))
        stated = os.path.join(folder, n + '.expected')
        if os.path.exists(stated):
            yield 'sample ' + n, data, [read(stated).decode()]
        else:
            yield 'sample ' + n, data, read(stated.replace('.expected', '.allowed')).decode().splitlines(True)
    for name in EXAMPLES:
        yield name, read(os.path.join(HERE, 'examples', name + '.in')), [read(os.path.join(HERE, 'examples', name + '.slip')).decode()]
    with tempfile.TemporaryDirectory() as made:
        subprocess.run([sys.executable, os.path.join(HERE, 'tools/torn.py'), made], check=True, stdout=subprocess.DEVNULL)
        rest, lines = read(os.path.join(made, 'stdin')), read(os.path.join(made, 'stdout')).decode().splitlines(True)
    while rest:
        label, rest = rest[1:1 + rest[0]].decode(), rest[1 + rest[0]:]
        size = int.from_bytes(rest[:4], 'little')
        refused = lines[1].startswith('refused')        # else two lines of its listing
        yield 'torn: ' + label, rest[4:4 + size], [lines[1]] if refused else []
        rest, lines = rest[4 + size:], lines[2 if refused else 3:]


def read(path):
    with open(path, 'rb') as file:
        return file.read()


def typing(text):
    return re.fullmatch(r'refused 1[1-6] at \d+\n', text)


def alike(slip, plain):
    """Both answer every input, torn ones too, with the same bytes; typing refusals with one that is right."""
    count, differ = 0, []
    for label, data, right in inputs():
        ours, theirs = answer(slip, data), answer(plain, data)
        count += 1
        if (right and not {ours, theirs} <= set(right)) or (ours != theirs and not (typing(ours) and typing(theirs))):
            differ.append('%s: %r, %r' % (label, ours[:80], theirs[:80]))
    if differ:
        sys.exit('bench: %d of %d inputs are not answered alike\n%s' % (len(differ), count, '\n'.join(differ[:10])))
    print('Inputs answered alike, torn ones included: %d.' % count)


def per_step(slip, plain):
    table('rule', 'instructions a step, slip', 'plain', 'ratio')
    rules = [(label, rule, 1000, 4000) for label, rule in
             (('count up', COUNT), ('take a reading', READ), ('call a method', CALL), ('the last of 64 fields', WIDE))]
    for label, rule, few, many in rules + [('make, link and list a record', LIST, 50, 250), ('recur', recursion, 10, 80)]:
        worked = steps(answer(slip, rule(many))) - steps(answer(slip, rule(few)))
        ours, theirs = ((instructions(p, rule(many)) - instructions(p, rule(few))) / worked for p in (slip, plain))
        row(label, '%.1f' % ours, '%.1f' % theirs, '%.2f' % (ours / theirs))


def wall(command, data=b''):
    """The median and the shortest of some runs, in milliseconds, from start to printed answer."""
    times = []
    with tempfile.TemporaryFile() as file:
        file.write(data)
        for _ in range(ROUNDS):
            file.seek(0)
            begun = time.perf_counter()
            subprocess.run(command, stdin=file, stdout=subprocess.DEVNULL, check=True)
            times.append(1000 * (time.perf_counter() - begun))
    return sorted(times)[len(times) // 2], min(times)


def whole(slip, plain):
    table('input', 'steps', 'slip, ms (median, least)', 'plain, ms', 'ratio of medians', 'slip, instructions in all', 'plain', 'ratio')
    row('(a program that does nothing)', 0, *['%.2f, %.2f' % wall(['true'])] * 2, '', '', '', '')
    for name, data in [(n, read(os.path.join(HERE, 'examples', n + '.in'))) for n in EXAMPLES] + [('count up to 6000', COUNT(6000))]:
        (ours, least), (theirs, their_least) = wall([slip], data), wall([plain], data)
        our_count, their_count = instructions(slip, data), instructions(plain, data)
        row(name, steps(answer(slip, data)), '%.2f, %.2f' % (ours, least), '%.2f, %.2f' % (theirs, their_least), '%.2f' % (ours / theirs),
            our_count, their_count, '%.2f' % (our_count / their_count))


def against_java(slip, name='turns'):
    """One rule and day, from start to printed answer; Java's classes are compiled beforehand."""
    readings, book = EXAMPLES[name]
    data = day(readings, book().bytes())
    with tempfile.TemporaryDirectory() as folder:
        classes, top = textwrap.dedent(book.__doc__).strip().rsplit('\n', 1)
        for file, text in ('Day', DAY), ('Driver', DRIVER), (name, EXAMPLE % (name, classes, top)):
            write(os.path.join(folder, file + '.java'), text)
        write(os.path.join(folder, 'list'), ' '.join([name] + list(map(str, readings))))
        javac(folder, ['Day', 'Driver', name], folder)
        java = wall(['java', '-Xshare:auto', '-cp', folder, 'w.Driver', os.path.join(folder, 'list')])
    ours = wall([slip], data)
    table('`%s`, from start to printed answer' % name, 'ms, median', 'least')
    row('slip', '%.2f' % ours[0], '%.2f' % ours[1])
    row('java', '%.2f' % java[0], '%.2f' % java[1])
    row('java by slip', '%.1f' % (java[0] / ours[0]), '%.1f' % (java[1] / ours[1]))


def growth(slip, plain):
    table('growth with', 'size', 'steps', 'slip, instructions in all', 'plain', 'ratio')
    for label, rule, sizes in (('steps (turns of count up)', COUNT, (375, 750, 1500, 3000, 6000)),
                               ('records (made, linked, listed)', LIST, (15, 31, 63, 127, 255)),
                               ('nodes (read and checked)', idle, (501, 1001, 2001, 3999))):
        for size in sizes:
            data = rule(size)
            ours, theirs = instructions(slip, data), instructions(plain, data)
            row(label, size, steps(answer(slip, data)), ours, theirs, '%.2f' % (ours / theirs))


def main():
    options = argparse.ArgumentParser()
    options.add_argument('--slip', default=os.path.join(HERE, 'crates/slip/out/slip'))
    options.add_argument('--plain', default=os.path.join(HERE, 'bench/plain/target/release/plain'))
    given = options.parse_args()
    for program in given.slip, given.plain, 'valgrind', 'javac', 'java':
        if not shutil.which(program):
            sys.exit('bench: no program %s' % program)
    slip, plain = os.path.abspath(given.slip), os.path.abspath(given.plain)
    alike(slip, plain)
    per_step(slip, plain)
    whole(slip, plain)
    growth(slip, plain)
    against_java(slip)


if __name__ == '__main__':
    main()
