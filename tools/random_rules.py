"""Random rules by seed: well-typed programs as trees, their books, and variants with one node or type changed.

A node is a list of its kind's word and what the kind asks for, parts being lists themselves: ['minus', e, e],
['field', target, name], ['call', target, argument, name], ['write', target, value, name], ['if', test, command, command].
"""
from books import parts_of, strip

CLASSES = ['Tide', 'Stream', 'Turn', 'Buoy', 'Lock']
FIELDS = ['high', 'low', 'next', 'last', 'slow', 'at', 'Turn', 'work']     # some names serve in two roles
METHODS = ['turn', 'set', 'work', 'find', 'ebb', 'flood', 'next', 'Tide']
MISSING = 'missing'
FLAVOURS = ['plain', 'deep', 'endless', 'many', 'big', 'day', 'null', 'graph']      # all but the first are methods of Maker
THIS, PARAMETER, SKIP = ['this'], ['parameter'], ['skip']


def literal(n):
    return ['literal', n]


def own(field):
    return ['field', THIS, field]


def to(field, value):
    return ['write', THIS, value, field]


def after(field):
    """One more than a field."""
    return ['minus', own(field), literal(-1)]


class Class:
    def __init__(self, name):
        self.name, self.fields, self.methods = name, [], []
        self.declared = name        # differs only where a variant declares two classes by one name


class Method:
    def __init__(self, name, owner, result, parameter):
        self.name, self.owner, self.result, self.parameter = name, owner, result, parameter
        self.body = [SKIP, THIS]        # the command and the returned expression


class Rule:
    """Classes and a list of one, the top-level expression."""

    def __init__(self, classes, top):
        self.classes, self.top = classes, top

    def parts(self, rng):
        """The book; in a strip the parts of a node lie in either order."""
        turned = lambda: rng.random() < 0.3
        classes = [(c.name, c.fields, [(m.name, m.result, m.parameter, *(strip(t, turned) for t in m.body)) for m in c.methods])
                   for c in self.classes]
        parts = parts_of(classes, strip(self.top[0], turned), [c.name for c in self.classes])
        for entry, c in zip(parts.classes, self.classes):
            entry[0] = parts.names.index(c.declared.encode())
        return parts

    def copy(self):
        """A copy in which no two places share a node."""
        classes = []
        for c in self.classes:
            new = Class(c.name)
            new.fields = list(c.fields)
            for m in c.methods:
                method = Method(m.name, new, m.result, m.parameter)
                method.body = fresh(m.body)
                new.methods.append(method)
            classes.append(new)
        return Rule(classes, fresh(self.top))


def fresh(tree):
    return [fresh(x) if isinstance(x, list) else x for x in tree]


class Maker:
    """Makes one well-typed rule. A method calls only those made before it, but for the loops and recursions put in on purpose."""

    def __init__(self, rng, flavour):
        self.rng, self.flavour = rng, flavour
        self.classes = [Class(n) for n in rng.sample(CLASSES, rng.randint(1, 4))]
        self.readings = self.make_day()
        self.callable, self.method, self.spare = [], None, 0
        for c in self.classes:
            c.fields = [(f, self.any_type()) for f in rng.sample(FIELDS, rng.randint(1, 5))]
        self.counters = set()
        for _ in range(rng.randint(1, 3) * len(self.classes)):
            self.add_method()
        self.rule = Rule(self.classes, [self.make_top()])

    def make_day(self):
        rng = self.rng
        count = rng.choice([0, 1, 3, 8, 20, 60])
        if rng.random() < 0.1:
            return [rng.choice([-2 ** 31, 2 ** 31 - 1, 0]) for _ in range(count)]
        level, swing = rng.randint(-50, 400), rng.randint(0, 9)
        return [level + swing * abs(i % 12 - 6) for i in range(count)]

    def any_type(self):
        return self.rng.choice(['int', 'int', 'boolean', self.rng.choice(self.classes).name])

    def owner(self):
        """The current class, none at the top."""
        return self.method and self.method.owner

    # methods

    def add_method(self):
        free = [(c, m) for c in self.classes for m in METHODS if all(m != x.name for x in c.methods)]
        self.open_method(*self.rng.choice(free), self.any_type(), self.any_type())
        self.method.body[0] = self.recursion() if self.method.parameter == 'int' and self.rng.random() < 0.2 else self.command(3)
        self.method.body[1] = self.expression(self.method.result, 3)
        self.close_method()

    def open_method(self, owner, name, result, parameter):
        self.method = Method(name, owner, result, parameter)
        owner.methods.append(self.method)

    def close_method(self):
        self.callable.append(self.method)
        self.method = None

    def counter(self, typed='int'):
        """A field of the current class that no other command writes."""
        name = 'n%d' % self.spare
        self.spare += 1
        self.owner().fields.append((name, typed))
        self.counters.add(name)
        return name

    def special(self):
        """A method that is likely to come to the flavour's end, and the call of it."""
        owner = self.rng.choice(self.classes)
        result = {'null': 'int', 'graph': owner.name}.get(self.flavour, self.rng.choice(['int', owner.name]))
        self.open_method(owner, 'special', result, 'int')
        self.method.body[0], n = getattr(self, self.flavour)(owner.name)
        self.method.body[1] = THIS if self.flavour == 'graph' else self.expression(result, 2)
        self.close_method()
        return ['call', ['new', owner.name], literal(n), 'special'], result

    # the special method's command by flavour, and the argument to call it with

    def deep(self, owner):
        return self.recursion(), self.rng.randint(20, 300)

    def endless(self, owner):
        tests = [['equal', literal(3), literal(3)], ['less', PARAMETER, literal(100)], ['is_null', own(self.counter(owner))]]
        return ['sequence', self.command(1), ['while', self.rng.choice(tests), self.command(2)]], self.rng.randint(0, 6)

    def many(self, owner):
        """Makes records and links each before the last."""
        made, kept = self.counter(owner), self.counter(owner)
        link = ['sequence', ['write', own(made), own(kept), kept], to(kept, own(made))]
        return self.loop(PARAMETER, ['sequence', to(made, ['new', owner]), link]), self.rng.randint(20, 400)

    def big(self, owner):
        grown, by = self.counter(), self.rng.choice([-1, 1]) * self.rng.randint(2 ** 27, 2 ** 31 - 1)
        return self.loop(PARAMETER, to(grown, ['minus', own(grown), literal(by)])), self.rng.randint(0, 6)

    def day(self, owner):
        """Goes through readings."""
        at = self.counter()
        test, step = ['less', ['reading', own(at)], ['reading', after(at)]], to(at, after(at))
        bounded = self.loop(literal(self.rng.randint(0, 40)), ['if', test, step, self.command(1)])
        return self.rng.choice([['while', test, step], bounded]), self.rng.randint(0, 6)

    def null(self, owner):
        """A null target, with an argument or value that may come to another end."""
        none, x = self.counter(owner), self.counter()
        wrong = self.rng.choice([['reading', literal(-1)], ['minus', literal(-2 ** 31), PARAMETER], ['call', THIS, PARAMETER, 'special']])
        value = self.rng.choice([wrong, self.expression('int', 3)])
        uses = [['write', own(none), value, x], to(x, ['call', own(none), value, 'special']), to(x, ['field', own(none), x])]
        return self.rng.choice(uses), self.rng.randint(1, 6)

    def graph(self, owner):
        """Records that point at two others, some of them back."""
        left, right = self.counter(owner), self.counter(owner)
        grow = lambda: ['call', ['new', owner], ['minus', PARAMETER, literal(self.rng.randint(1, 3))], 'special']
        tie = ['write', own(right), self.rng.choice([THIS, own(left), ['new', owner]]), self.rng.choice([left, right])]
        last = self.rng.choice([tie, tie, self.command(1)])
        grown = ['sequence', to(left, grow()), ['sequence', to(right, grow()), last]]
        return ['if', ['less', PARAMETER, literal(1)], SKIP, grown], self.rng.randint(1, 7)

    def make_top(self):
        if self.flavour == 'plain':
            return self.call(self.rng.choice(self.callable), 3) if self.rng.random() < 0.8 else self.expression(self.any_type(), 4)
        call, typed = self.special()
        return ['minus', call, self.expression('int', 2)] if typed == 'int' and self.rng.random() < 0.5 else call

    # commands

    def command(self, depth):
        rng = self.rng
        if depth <= 0:
            return rng.choice([SKIP, self.write(1), self.write(1)])
        choice = rng.choice(['skip', 'write', 'write', 'write', 'sequence', 'sequence', 'if', 'if', 'loop', 'fill'])
        if choice == 'sequence':
            return ['sequence', self.command(depth - 1), self.command(depth - 1)]
        if choice == 'if':
            return ['if', self.expression('boolean', depth - 1), self.command(depth - 1), self.command(depth - 1)]
        if choice == 'loop':
            limit = PARAMETER if self.method.parameter == 'int' and rng.random() < 0.4 else literal(rng.randint(0, 4))
            return self.loop(limit, self.command(depth - 2))
        if choice == 'fill':
            objects = [f for f in self.owner().fields if f[1] not in ('int', 'boolean') and f[0] not in self.counters]
            if objects:
                f, t = rng.choice(objects)
                return ['if', ['is_null', own(f)], to(f, ['new', t]), self.command(depth - 1)]
        return SKIP if choice == 'skip' else self.write(depth)

    def write(self, depth):
        free = [f for f in self.owner().fields if f[0] not in self.counters]
        f, t = self.rng.choice(free)
        return ['write', self.target(depth - 1), self.expression(t, depth - 1), f]

    def loop(self, limit, body):
        n = self.counter()
        return ['sequence', to(n, literal(0)), ['while', ['less', own(n), limit], ['sequence', body, to(n, after(n))]]]

    def recursion(self):
        """Calls itself with a lesser parameter, and uses its own again afterwards."""
        kept, own_again = self.counter(self.method.result), self.counter()
        target = self.rng.choice([THIS, THIS, ['new', self.owner().name]])
        lesser = ['minus', PARAMETER, literal(1)]
        down = ['sequence', to(kept, ['call', target, lesser, self.method.name]), to(own_again, lesser)]
        return ['if', ['less', PARAMETER, literal(1)], self.command(0), down]

    # expressions

    def target(self, depth):
        return THIS if self.rng.random() < 0.8 else self.expression(self.owner().name, depth)

    def call(self, method, depth):
        return ['call', self.expression(method.owner.name, depth - 1), self.expression(method.parameter, depth - 1), method.name]

    def number(self):
        rng = self.rng
        if rng.random() < 0.03:
            return literal(rng.choice([-2 ** 31, 2 ** 31 - 1, 2 ** 31 - 2, -2 ** 31 + 1]))
        return literal(rng.choice([rng.randint(-3, 9), rng.randint(0, max(len(self.readings), 1)), rng.randint(-40000, 140000)]))

    def expression(self, t, depth):
        options = self.leaves(t)
        if depth > 0:
            options = self.options(t, depth) + options[:1]
        return self.rng.choice(options)()

    def leaves(self, t):
        fields = self.fields_of(t)
        plain = {'int': self.number, 'boolean': lambda: ['less', self.number(), self.number()]}.get(t, lambda: ['new', t])
        leaves = [plain]
        if self.method and self.method.parameter == t:
            leaves += [lambda: PARAMETER] * 2
        if self.owner() and self.owner().name == t:
            leaves += [lambda: THIS] * 2
        if fields and t in ('int', 'boolean'):
            leaves += [lambda: own(self.rng.choice(fields))] * 2
        return leaves[::-1]

    def fields_of(self, t):
        return [f for f, typed in self.owner().fields if typed == t] if self.owner() else []

    def options(self, t, depth):
        sub = lambda typed: self.expression(typed, depth - 1)
        methods = [m for m in self.callable if m.result == t]
        options = []
        if t == 'int':
            options += [lambda: ['minus', sub('int'), sub('int')]] * 3
            if self.readings:
                options += [lambda: ['reading', literal(self.rng.randrange(len(self.readings)))]] * 2
            if self.rng.random() < 0.1:
                options += [lambda: ['reading', sub('int')]]
        elif t == 'boolean':
            options += [lambda: ['less', sub('int'), sub('int')], lambda: ['equal', sub('int'), sub('int')],
                        lambda: ['is_null', sub(self.rng.choice(self.classes).name)]] * 2
        else:
            options += self.leaves(t)
        if methods:
            options += [lambda: self.call(self.rng.choice(methods), depth)] * 3
        if methods and t == 'int' and self.method and self.method.parameter == 'int':
            options += [lambda: ['minus', self.call(self.rng.choice(methods), depth), PARAMETER]] * 2
        fields = self.fields_of(t)
        if fields:
            options += [lambda: ['field', self.target(depth - 1), self.rng.choice(fields)]] * 2
        return options

    # variants

    def variant(self):
        """A copy of the rule with one node or type changed, mostly ill-typed, and what was changed."""
        changes = [self.other_type, self.other_declared, self.other_name, self.lost_top, self.other_target, self.double,
                   self.other_returned, self.equal_on_others]
        while True:
            rule, change = self.rule.copy(), self.rng.choice(changes)
            if change(rule):
                return rule, change.__name__

    def expressions(self, rule):
        """Every place of an expression: the method it is in (none at the top), its holder and its index there."""
        for c in rule.classes:
            for m in c.methods:
                yield from places(m, m.body, 0)
                yield from places(m, m.body, 1)
        yield from places(None, rule.top, 0)

    def some(self, found):
        found = list(found)
        return self.rng.choice(found) if found else None

    def replace(self, place, make):
        """Puts a new expression in a place, made in the place's own surroundings."""
        self.method, holder, i = place
        holder[i] = fresh(make())
        self.method = None
        return True

    def other_type(self, rule):
        t = self.any_type()
        return self.replace(self.some(self.expressions(rule)), lambda: self.expression(t, 1))

    def other_returned(self, rule):
        m = self.some(m for c in rule.classes for m in c.methods)
        t = self.any_type()
        return self.replace((m, m.body, 1), lambda: self.expression(t, 1))

    def equal_on_others(self, rule):
        t = self.some(['boolean'] + [c.name for c in self.classes])
        place = self.some(p for p in self.expressions(rule) if p[1][p[2]][0] in ('less', 'equal', 'is_null'))
        return place and self.replace(place, lambda: ['equal', self.expression(t, 1), self.expression(t, 1)])

    def other_declared(self, rule):
        c, t = self.some(rule.classes), self.any_type()
        m = self.some(c.methods)
        which = self.rng.choice(['field', 'parameter', 'result'])
        if which == 'field':
            i = self.rng.randrange(len(c.fields))
            c.fields[i] = (c.fields[i][0], t)
        elif m:
            setattr(m, which, t)
        return which == 'field' or m

    def other_name(self, rule):
        nodes = [n for m, n in self.nodes(rule) if n[0] in ('field', 'call', 'write')]
        if nodes:
            self.some(nodes)[-1] = self.some([MISSING] + FIELDS + METHODS)
        return nodes

    def nodes(self, rule):
        def within(m, node):
            yield m, node
            for part in node:
                if isinstance(part, list):
                    yield from within(m, part)
        for c in rule.classes:
            for m in c.methods:
                for tree in m.body:
                    yield from within(m, tree)
        yield from within(None, rule.top[0])

    def lost_top(self, rule):
        place = self.some(places(None, rule.top, 0))
        return self.replace(place, lambda: self.rng.choice([THIS, PARAMETER]))

    def other_target(self, rule):
        """A field of another class, or a field at the top."""
        m, node = self.some((m, n) for m, n in self.nodes(rule) if not m or n[0] in ('field', 'write'))
        if node[0] in ('field', 'write'):
            c = self.some(self.classes).name
            return self.replace((m, node, 1), lambda: self.expression(c, 1))
        c = self.some(self.classes)
        return self.replace(self.some(places(None, rule.top, 0)), lambda: ['field', ['new', c.name], self.some(c.fields)[0]])

    def double(self, rule):
        """Two classes, or two fields or two methods of a class, by one name."""
        c = self.some(rule.classes)
        if self.rng.random() < 0.2 and len(rule.classes) > 1:
            c.declared = self.some(x.name for x in rule.classes if x is not c)
            return True
        if self.rng.random() < 0.5 and len(c.fields) > 1:
            i, j = self.rng.sample(range(len(c.fields)), 2)
            c.fields[i] = (c.fields[j][0], c.fields[i][1])
            return True
        if len(c.methods) > 1:
            one, other = self.rng.sample(c.methods, 2)
            one.name = other.name
        return len(c.methods) > 1


def places(method, holder, i):
    node = holder[i]
    if node[0] not in ('write', 'sequence', 'if', 'while', 'skip'):
        yield method, holder, i
    for j, part in enumerate(node):
        if isinstance(part, list):
            yield from places(method, node, j)
