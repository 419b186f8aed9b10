"""Compares the program slip with a stock Java on random rules, and with a plain implementation (bench/plain).

java_compare.py [--slip PROGRAM] [--plain PROGRAM] [--programs N] [--seed S] [--batch N] [--keep FOLDER]

Each rule is made by its seed (tools/random_rules.py), well typed, as a book and as Java text: private fields, public methods,
a minus as Math.subtractExact, a reading as an entry of an array. What Java computes is compared with the slip line by line:
the value, then the reached records, labelled breadth first; or, where Java throws, the end:
31 for NullPointerException, 32 for ArrayIndexOutOfBoundsException, 33 for ArithmeticException.
Java has no counterpart of ends 34, 35 and 1 (no room for a record, no place for a row, unfinished): there, and for the steps
and nodes of all the others, the slip's bytes are compared with those of bench/plain.

The examples are compared in the same way, by the Java text that tools/examples.py gives of them.

One variant of each rule, with one node or type changed, is given to javac and to slip: either both accept it, or javac gives
a type error and slip a refusal from 11 to 16 that goes with it (REFUSALS).

Known differences, and when exactly each is allowed (of the last two: it must be refused):
- Java works a call's argument and a write's value before it objects to a null target; slip objects first. So a rule whose
  slip ends 31 is also worked by Java with every target tested first (Day.target), which must come to 31; in the written order
  Java may come to another exception or to no end, but not to a value. Every other rule must come to the same in the written order.
- `==` on two booleans or two objects of one class is Java; slip refuses it with 12, at that node.
- Two methods by one name with other parameter types (overloading) is Java; slip refuses them with 11, at one of them.
Shut out by how the text is made: Java calls a loop with a constant test, or what follows it, unreachable (tests go through
Day.test), has reserved words, and every class has the methods of Object (no such names are used).

Ends with status 1 on any difference, or if some node kind, end or refusal was seen fewer than 50 times.
"""
import argparse
import collections
import os
import random
import re
import shutil
import subprocess
import sys
import tempfile
import textwrap

from books import KINDS, day
from examples import EXAMPLES
from random_rules import FLAVOURS, Maker

ENDS = [0, 1, 31, 32, 33, 34, 35]
REFUSALS_SEEN = [11, 12, 13, 14, 15, 16]
LEAST = 50
HERE = os.path.dirname(os.path.dirname(os.path.abspath(__file__)))
# What slip may answer where javac gives this error and no other.
REFUSALS = {
    'already.defined': {11}, 'duplicate.class': {11},
    'cant.deref': {12}, 'operator.cant.be.applied.1': {12}, 'incomparable.types': {12}, 'cant.apply.symbols': {12},
    'cant.apply.symbol': {12, 14},                       # reading and test; a call's argument
    'prob.found.req': {12, 14, 16},                      # the test of an if; a written value; a returned one
    'report.access': {13}, 'cant.resolve': {13}, 'cant.resolve.args': {13}, 'cant.resolve.args.params': {13}, 'cant.resolve.location.args': {13},
    'cant.resolve.location.args.params': {13},
    'cant.resolve.location': {13, 15},                   # a field; the parameter at the top
    'non-static.cant.be.ref': {15},
}

DAY = '''package w;
public class Day {
    public static int[] readings;
    static int worked;
    public static int reading(int n) { return readings[n]; }
    public static <T> T target(T t) { if (t == null) throw new NullPointerException(); return t; }
    public static boolean test(boolean b) { work(); return b; }
    /* Called at every method and every turn of a loop: no run that ends within the steps gets so far. */
    public static void work() { if (++worked > 200000) throw new Error("no end"); }
}
'''
DRIVER = '''package w;
import java.io.*;
import java.lang.reflect.*;
import java.util.*;
public class Driver {
    public static void main(String[] list) throws Exception {
        for (String line : new BufferedReader(new FileReader(list[0])).lines().toList()) {
            String[] words = line.split(" ");
            Day.readings = Arrays.stream(words).skip(1).mapToInt(Integer::parseInt).toArray();
            Day.worked = 0;
            System.out.println("= " + words[0] + "\\n" + answer(Class.forName(words[0] + ".Top").getDeclaredMethod("top")));
        }
    }
    static String answer(Method top) throws Exception {
        top.setAccessible(true);
        try { return slip(top.invoke(null)); }
        catch (InvocationTargetException e) {
            Throwable t = e.getCause();
            if (t instanceof NullPointerException) return "31";
            if (t instanceof ArrayIndexOutOfBoundsException) return "32";
            if (t instanceof ArithmeticException) return "33";
            return t instanceof StackOverflowError || "no end".equals(t.getMessage()) ? "no end" : t.toString();
        }
    }
    static String slip(Object v) throws Exception {
        if (v == null) return "null";
        if (v instanceof Integer) return "int " + v;
        if (v instanceof Boolean) return "boolean " + v;
        StringBuilder out = new StringBuilder("object 0");
        List<Object> found = new ArrayList<>(List.of(v));
        Map<Object, Integer> labels = new IdentityHashMap<>(Map.of(v, 0));
        for (int i = 0; i < found.size(); i++) {
            out.append("\\n" + i + " " + found.get(i).getClass().getSimpleName());
            for (Field f : found.get(i).getClass().getDeclaredFields()) {
                f.setAccessible(true);
                out.append(" " + f.getName() + "=" + cell(f.get(found.get(i)), found, labels));
            }
        }
        return out.toString();
    }
    static String cell(Object v, List<Object> found, Map<Object, Integer> labels) {
        if (v == null || v instanceof Integer || v instanceof Boolean) return "" + v;
        if (labels.putIfAbsent(v, found.size()) == null) found.add(v);
        return "#" + labels.get(v);
    }
}
'''
EXAMPLE = '''package %s;
import static w.Day.reading;
%s
class Top {
    static Object top() { return %s; }
}
'''


class Text:
    """A rule as Java text. With target_first every target is tested before the argument or value is worked.
    With named_types calls are written x.<Object>m(y): the type given means nothing to a method that isn't generic, but it
    spares javac 17 an internal error that an ill-typed argument can lead to."""

    def __init__(self, rule, package, target_first=False, named_types=False):
        self.target_first, self.types = target_first, '<Object>' if named_types else ''
        lines = ['package %s;' % package, 'import w.Day;']
        for c in rule.classes:
            lines.append('class %s {' % c.declared)
            lines += ['    private %s %s;' % (t, f) for f, t in c.fields]
            for m in c.methods:
                lines.append('    public %s %s(%s p) {' % (m.result, m.name, m.parameter))
                lines.append('        Day.work(); %s' % self.command(m.body[0]))
                lines.append('        return %s;\n    }' % self.of(m.body[1]))
            lines.append('}')
        lines += ['class Top {', '    static Object top() { return %s; }' % self.of(rule.top[0]), '}', '']
        self.text = '\n'.join(lines)

    def of(self, e):
        """An expression."""
        kind, rest = e[0], e[1:]
        if kind == 'literal':
            return '%d' % rest[0]
        if kind in ('this', 'parameter'):
            return {'this': 'this', 'parameter': 'p'}[kind]
        if kind == 'new':
            return 'new %s()' % rest[0]
        if kind == 'field':
            return '%s.%s' % (self.inner(rest[0]), rest[1])
        if kind == 'call':
            return '%s.%s%s(%s)' % (self.target(rest[0]), self.types, rest[2], self.of(rest[1]))
        if kind == 'minus':
            return 'Math.%ssubtractExact(%s, %s)' % (self.types, self.of(rest[0]), self.of(rest[1]))
        if kind == 'reading':
            return 'Day.%sreading(%s)' % (self.types, self.of(rest[0]))
        return '%s %s %s' % (self.inner(rest[0]), '<' if kind == 'less' else '==', self.inner(rest[1]) if rest[1:] else 'null')

    def inner(self, e):
        """An expression as an operand or a target."""
        return '(%s)' % self.of(e) if e[0] in ('literal', 'less', 'equal', 'is_null') else self.of(e)

    def target(self, e):
        return 'Day.target(%s)' % self.of(e) if self.target_first else self.inner(e)

    def command(self, k):
        kind, rest = k[0], k[1:]
        if kind == 'skip':
            return ';'
        if kind == 'write':
            return '%s.%s = %s;' % (self.target(rest[0]), rest[2], self.of(rest[1]))
        if kind == 'sequence':
            return '%s %s' % (self.command(rest[0]), self.command(rest[1]))
        if kind == 'if':
            return 'if (%s) { %s } else { %s }' % (self.of(rest[0]), self.command(rest[1]), self.command(rest[2]))
        return 'while (Day.%stest(%s)) { %s }' % (self.types, self.of(rest[0]), self.command(rest[1]))


class Case:
    """A rule and its variant by a seed, with what the programs answer."""

    def __init__(self, seed, number, programs):
        self.seed, self.number = seed, number
        rng = random.Random('%d %d' % (seed, number))
        maker = Maker(rng, FLAVOURS[number % len(FLAVOURS)])
        self.rule, self.readings = maker.rule, maker.readings
        self.parts = self.rule.parts(rng)
        self.slip, self.plain = (answer(p, day(self.readings, self.parts.bytes())) for p in programs)
        self.variant, self.change = maker.variant()
        self.variant_parts = self.variant.parts(rng)
        self.variant_slip = answer(programs[0], day(self.readings, self.variant_parts.bytes()))
        self.end = int(self.slip.split()[1]) if self.slip.startswith('end') else None


def answer(program, data):
    try:
        return subprocess.run([program], input=data, stdout=subprocess.PIPE, timeout=20).stdout.decode()
    except subprocess.TimeoutExpired:
        return '(timed out)'


def javac(folder, names, classes):
    """Compiles the files; javac's errors (without its 'compiler.err.') by file."""
    listed = os.path.join(folder, 'files')
    with open(listed, 'w') as out:
        out.write('\n'.join(os.path.join(folder, n + '.java') for n in names))
    flags = ['-proc:none', '-XDrawDiagnostics', '-XDshould-stop.ifError=ATTR', '-Xmaxerrs', '1000000', '-cp', classes, '-d', classes]
    ran = subprocess.run(['javac', '-J-XX:TieredStopAtLevel=1', '-J-XX:+UseSerialGC', *flags, '@' + listed],
                         stdout=subprocess.PIPE, stderr=subprocess.STDOUT, text=True, cwd=folder)
    errors = collections.defaultdict(set)
    for line in ran.stdout.splitlines():
        match = re.match(r'(\w+)\.java:\d+:\d+: compiler\.err\.([^:\s]+)', line)
        if match:
            errors[match[1]].add(match[2])
    if ran.returncode > 1 or bool(ran.returncode) != bool(errors):
        sys.exit('javac failed:\n' + ran.stdout[-2000:])
    return errors


def java(folder, lines, classes):
    """Works the programs of a list (package and readings), and gives each one's answer."""
    listed = os.path.join(folder, 'list')
    with open(listed, 'w') as out:
        out.write('\n'.join(lines))
    try:
        ran = subprocess.run(['java', '-XX:TieredStopAtLevel=1', '-XX:+UseSerialGC', '-cp', classes, 'w.Driver', listed],
                             stdout=subprocess.PIPE, stderr=subprocess.STDOUT, text=True, timeout=120)
    except subprocess.TimeoutExpired as late:
        sys.exit('java_compare: java came to no end after\n' + (late.stdout or b'').decode()[-500:])
    if ran.returncode:
        sys.exit('java failed:\n' + ran.stdout[-2000:])
    return dict(block.split('\n', 1) for block in ran.stdout.rstrip('\n')[2:].split('\n= ') if block)


class Comparison:
    def __init__(self):
        self.differences, self.kinds, self.ends, self.refusals, self.errors = [], *(collections.Counter() for _ in range(4))
        self.programs = self.variants = self.accepted = self.other_order = 0
        self.allowed = collections.Counter()

    def differ(self, case, what, *texts):
        self.differences.append('seed %d program %d: %s\n%s' % (case.seed, case.number, what, '\n'.join('    ' + repr(t) for t in texts)))

    def batch(self, cases, folder):
        """Compares some cases by one javac and one java for the rules, and one javac for the variants."""
        classes, shelf = os.path.join(folder, 'classes'), lambda name, text: write(os.path.join(folder, name + '.java'), text)
        names = ['Day', 'Driver']
        shelf('Day', DAY), shelf('Driver', DRIVER)
        for c in cases:
            for letter, target_first in ('p', False), ('q', True):
                if letter == 'p' or c.end == 31:
                    names.append('%s%d' % (letter, c.number))
                    shelf(names[-1], Text(c.rule, names[-1], target_first).text)
        errors = javac(folder, names, classes)
        if errors:
            wrong = {name[1:] for name in errors}
            for c in cases:
                if str(c.number) in wrong:
                    self.differ(c, 'javac refuses the rule', c.slip, sorted(errors['p%d' % c.number] | errors['q%d' % c.number]))
            cases = [c for c in cases if str(c.number) not in wrong]
            errors = javac(folder, [n for n in names if n[1:] not in wrong], classes)
            if errors:
                sys.exit('java_compare: javac refuses %s' % dict(errors))
        ran = [(l, c) for c in cases for l in ('pq' if c.end == 31 else 'p') if c.end in (0, 31, 32, 33)]
        answers = java(folder, ['%s%d %s' % (l, c.number, ' '.join(map(str, c.readings))) for l, c in ran], classes)
        for c in cases:
            self.rule(c, answers)
        for c in cases:
            shelf('v%d' % c.number, Text(c.variant, 'v%d' % c.number, named_types=True).text)
        errors = javac(folder, ['v%d' % c.number for c in cases], classes)
        for c in cases:
            self.judge_variant(c, errors.get('v%d' % c.number, set()))

    def examples(self, program, folder):
        """Compares the examples, by their own Java text, and with the slips kept beside them."""
        slips, lines = {}, []
        for name, (readings, book) in EXAMPLES.items():
            classes, top = textwrap.dedent(book.__doc__).strip().rsplit('\n', 1)
            write(os.path.join(folder, name + '.java'), EXAMPLE % (name, classes, top))
            slips[name] = answer(program, day(readings, book().bytes()))
            lines.append(' '.join([name] + list(map(str, readings))))
        classes = os.path.join(folder, 'classes')
        errors = javac(folder, EXAMPLES, classes)
        if errors:
            sys.exit('java_compare: javac refuses the examples %s' % dict(errors))
        for name, text in java(folder, lines, classes).items():
            with open(os.path.join(HERE, 'examples', name + '.slip')) as kept:
                first, rest = kept.read().split('\n', 1)
            if slips[name] != first + '\n' + rest or rest != text + '\n':
                self.differences.append('example %s: slip, Java\n    %r\n    %r' % (name, slips[name], text))

    def rule(self, c, answers):
        self.programs += 1
        self.kinds.update(KINDS[n[0]] for n in c.parts.nodes)
        self.ends[c.end] += 1
        if c.slip != c.plain:
            self.differ(c, 'slip and bench/plain', c.slip, c.plain)
        if c.end is None:
            self.differ(c, 'slip refuses what javac accepts', c.slip)
        elif c.end == 0:
            written = answers['p%d' % c.number]
            if c.slip.split('\n', 1)[1] != written + '\n':
                self.differ(c, 'slip and Java', c.slip, written)
        elif c.end == 31:
            written, target_first = answers['p%d' % c.number], answers['q%d' % c.number]
            self.other_order += written != '31'
            if target_first != '31' or written not in ('31', '32', '33', 'no end'):
                self.differ(c, 'slip, Java with targets tested first, Java as written', c.slip, target_first, written)
        elif c.end in (32, 33) and answers['p%d' % c.number] != str(c.end):
            self.differ(c, 'slip and Java', c.slip, answers['p%d' % c.number])

    def judge_variant(self, c, errors):
        self.variants += 1
        self.errors.update(errors)
        refused = re.fullmatch(r'refused (1[1-6]) at (\d+)\n', c.variant_slip)
        if refused:
            number, place = int(refused[1]), int(refused[2])
            self.refusals[number] += 1
        unknown = errors - REFUSALS.keys()
        if unknown:
            self.differ(c, 'no type error of javac', c.change, sorted(unknown))
        elif not refused and not c.variant_slip.startswith('end '):
            self.differ(c, 'neither a slip nor a typing refusal', c.change, c.variant_slip)
        elif not refused and errors:
            self.differ(c, 'javac alone refuses a variant', c.change, sorted(errors))
        elif refused and not errors:
            known = known_difference(c, number, place)
            if known:
                self.allowed[known] += 1
            else:
                self.differ(c, 'slip alone refuses a variant', c.change, c.variant_slip)
        elif refused and not any(number in REFUSALS[e] for e in errors) and not known_difference(c, number, place):
            self.differ(c, 'another reason', c.change, c.variant_slip, sorted(errors))
        elif not refused and only_java(c.variant_parts):
            self.differ(c, 'slip accepts what only Java may', c.change, c.variant_slip)
        elif not refused:
            self.accepted += 1

    def summary(self):
        print('ends: ' + ', '.join('%s %d' % (e, self.ends[e]) for e in ENDS))
        print('nodes: ' + ', '.join('%s %d' % (k, self.kinds[k]) for k in KINDS))
        print('ends 31 where Java, which works the argument first, comes to something else: %d' % self.other_order)
        print('variants: %d accepted by both; refused ' % self.accepted + ', '.join('%d %d' % (n, self.refusals[n]) for n in REFUSALS_SEEN))
        print('variants that Java alone accepts, as it may: ' + ', '.join('%s %d' % x for x in self.allowed.items()))
        print('errors of javac: ' + ', '.join('%s %d' % x for x in self.errors.most_common()))
        seldom = ['end %s' % e for e in ENDS if self.ends[e] < LEAST] + [k for k in KINDS if self.kinds[k] < LEAST]
        seldom += ['refusal %d' % n for n in REFUSALS_SEEN if self.refusals[n] < LEAST]
        return seldom


def known_difference(c, number, place):
    """The name of the known difference by which slip may refuse a variant so and Java not."""
    parts = c.variant_parts
    if number == 12 and parts.nodes[place][0] == KINDS.index('equal'):
        left, right = (type_of(parts, part) for part in parts.nodes[place][1:3])
        return '== on others than ints' if left == right != 0 else None
    first = len(parts.classes) + len(parts.fields)
    if number == 11 and place >= first:
        name, _, parameter = parts.methods[place - first][:3]
        others = [parts.methods[m] for m in stretch(parts, owner(parts, place - first), 2) if m != place - first]
        return 'overloading' if any(o[0] == name and o[2] != parameter for o in others) else None
    return None


def only_java(parts):
    """Whether a book that Java accepts has one of the known differences."""
    compared = any(KINDS[n[0]] == 'equal' and type_of(parts, n[1]) != 0 for n in parts.nodes)
    names = [[parts.methods[m][0] for m in stretch(parts, c, 2)] for c in range(len(parts.classes))]
    return compared or any(len(set(n)) < len(n) for n in names)


def stretch(parts, c, which):
    """The numbers of a class's fields (which 1) or methods (which 2)."""
    first = sum(entry[which] for entry in parts.classes[:c])
    return range(first, first + parts.classes[c][which])


def owner(parts, m):
    return next(c for c in range(len(parts.classes)) if m in stretch(parts, c, 2))


def type_of(parts, k):
    """The type of an expression whose parts are well typed."""
    kind, a, _, d = parts.nodes[k]
    word = KINDS[kind]
    if word in ('literal', 'minus', 'reading'):
        return 0
    if word in ('less', 'equal', 'is_null'):
        return 1
    if word == 'new':
        return 2 + d
    if word in ('this', 'parameter'):
        m, end = 0, sum(parts.methods[0][3:5])
        while end <= k:
            m += 1
            end += sum(parts.methods[m][3:5])
        return 2 + owner(parts, m) if word == 'this' else parts.methods[m][2]
    part, which = (parts.fields, 1) if word == 'field' else (parts.methods, 2)
    return next(part[i][1] for i in stretch(parts, type_of(parts, a) - 2, which) if part[i][0] == d)


def write(path, text):
    with open(path, 'w') as out:
        out.write(text)


def main():
    options = argparse.ArgumentParser()
    options.add_argument('--slip', default=os.path.join(HERE, 'crates/slip/out/slip'))
    options.add_argument('--plain', default=os.path.join(HERE, 'bench/plain/target/release/plain'))
    options.add_argument('--programs', type=int, default=2400)
    options.add_argument('--seed', type=int, default=1)
    options.add_argument('--batch', type=int, default=400)
    options.add_argument('--keep')
    given = options.parse_args()
    for tool in 'javac', 'java':
        if not shutil.which(tool):
            sys.exit('java_compare: no %s here; install openjdk-17-jdk-headless' % tool)
    for program in given.slip, given.plain:
        if not os.path.exists(program):
            sys.exit('java_compare: no program %s (bench/plain is built by: cargo build --release in bench/plain)' % program)
    compared = Comparison()
    with tempfile.TemporaryDirectory() as temporary:
        folder = os.path.abspath(given.keep or temporary)
        os.makedirs(os.path.join(folder, 'classes'), exist_ok=True)
        for first in range(0, given.programs, given.batch):
            numbers = range(first, min(first + given.batch, given.programs))
            compared.batch([Case(given.seed, n, (given.slip, given.plain)) for n in numbers], folder)
        compared.examples(given.slip, folder)
    seldom = compared.summary()
    for text in compared.differences[:10]:
        print(text)
    if compared.differences or seldom:
        sys.exit('java_compare: %d differences; seen too seldom: %s' % (len(compared.differences), ', '.join(seldom) or 'none'))
    print('java_compare: %d programs, %d ill-typed variants, all alike' % (compared.programs, compared.variants - compared.accepted))


if __name__ == '__main__':
    main()
