"""The examples: examples.py FOLDER writes each rule's input to FOLDER/NAME.in; examples/README.md explains the rules.

A rule is given twice: in Java text, which explains the function, and as trees of nodes, from which the book is made.
The Java text is tried too: tools/java_compare.py compares what a stock Java makes of it with the slip.
"""
import math
import sys

from books import day, parts_of, strip, tide

THIS, PARAMETER, SKIP = ['this'], ['parameter'], ['skip']
TRUE, FALSE = ['less', ['literal', 0], ['literal', 1]], ['less', ['literal', 1], ['literal', 0]]


def heights(level, *waves):
    """A day's predicted heights in centimetres, one every ten minutes: waves of (swing, period, time of high water) in minutes."""
    return [round(level + sum(swing * math.cos(2 * math.pi * (t - high) / period) for swing, period, high in waves)) for t in range(0, 24 * 60, 10)]


def own(field):
    return ['field', THIS, field]


def to(field, value):
    return ['write', THIS, value, field]


def reading(n):
    return ['reading', n]


def plus(e, n):
    return ['minus', e, ['literal', -n]]


def do(first, *rest):
    """One command after another."""
    return ['sequence', first, do(*rest)] if rest else first


def method(name, result, parameter, command, returned):
    return name, result, parameter, strip(command), strip(returned)


def called(name, argument):
    """The top-level expression of all rules here: a new record of the class, and a call."""
    return strip(['call', ['new', name[0]], ['literal', argument], name[1]])


NEXT = to('at', plus(own('at'), 1))
LATER = to('minute', plus(own('minute'), 10))
RISES = ['less', reading(own('at')), reading(plus(own('at'), 1))]
FALLS = ['less', reading(plus(own('at'), 1)), reading(own('at'))]


def high_water():
    """
    class Stream {
        private int at;
        public int turn(int n) {
            while (reading(this.at) < reading(this.at - -1)) { this.at = this.at - -1; }
            return this.at;
        }
    }
    new Stream().turn(0)
    """
    turn = method('turn', 'int', 'int', ['while', RISES, NEXT], own('at'))
    return parts_of([('Stream', [('at', 'int')], [turn])], called(('Stream', 'turn'), 0))


def turn_of_stream():
    """
    class Stream {
        private int at; private int minute; private int height; private boolean high;
        public Stream turn(int first) {
            this.at = first;
            this.high = reading(this.at) < reading(this.at - -1);
            if (this.high) {
                while (reading(this.at) < reading(this.at - -1)) { this.at = this.at - -1; this.minute = this.minute - -10; }
            } else {
                while (reading(this.at - -1) < reading(this.at)) { this.at = this.at - -1; this.minute = this.minute - -10; }
            }
            this.height = reading(this.at);
            return this;
        }
    }
    new Stream().turn(0)
    """
    command = do(to('at', PARAMETER), to('high', RISES), ['if', own('high'), ['while', RISES, do(NEXT, LATER)], ['while', FALLS, do(NEXT, LATER)]],
                 to('height', reading(own('at'))))
    fields = [('at', 'int'), ('minute', 'int'), ('height', 'int'), ('high', 'boolean')]
    return parts_of([('Stream', fields, [method('turn', 'Stream', 'int', command, THIS)])], called(('Stream', 'turn'), 0))


def slow_fall():
    """
    class Ebb {
        private int at; private int minute;
        public int fall(int n) { ; return reading(n) - reading(n - -1); }
        public int slack(int limit) {
            while (reading(this.at) < reading(this.at - -1)) { this.at = this.at - -1; this.minute = this.minute - -10; }
            while (this.fall(this.at) < limit) { this.at = this.at - -1; this.minute = this.minute - -10; }
            while (limit - 1 < this.fall(this.at)) { this.at = this.at - -1; this.minute = this.minute - -10; }
            return this.minute;
        }
    }
    new Ebb().slack(4)
    """
    fall = method('fall', 'int', 'int', SKIP, ['minus', reading(PARAMETER), reading(plus(PARAMETER, 1))])
    falls, on = ['call', THIS, own('at'), 'fall'], do(NEXT, LATER)
    command = do(['while', RISES, on], ['while', ['less', falls, PARAMETER], on],
                 ['while', ['less', ['minus', PARAMETER, ['literal', 1]], falls], on])
    slack = method('slack', 'int', 'int', command, own('minute'))
    return parts_of([('Ebb', [('at', 'int'), ('minute', 'int')], [fall, slack])], called(('Ebb', 'slack'), 4))


def stand():
    """
    class Stand {
        private int highest; private int from; private int length; private int at; private int run;
        public int top(int n) {
            while (this.at < n) {
                if (this.highest < reading(this.at)) { this.highest = reading(this.at); } else { }
                this.at = this.at - -1;
            }
            return this.highest;
        }
        public Stand longest(int n) {
            this.highest = reading(0);
            this.highest = this.top(n);
            this.at = 0;
            while (this.at < n) {
                if (reading(this.at) < this.highest - 10) { this.run = 0; }
                else {
                    this.run = this.run - -1;
                    if (this.length < this.run) { this.length = this.run; this.from = this.at - (this.run - 1); } else { }
                }
                this.at = this.at - -1;
            }
            return this;
        }
    }
    new Stand().longest(144)
    """
    top = method('top', 'int', 'int', ['while', ['less', own('at'), PARAMETER], do(
        ['if', ['less', own('highest'), reading(own('at'))], to('highest', reading(own('at'))), SKIP], NEXT)], own('highest'))
    longer = do(to('length', own('run')), to('from', ['minus', own('at'), ['minus', own('run'), ['literal', 1]]]))
    in_stand = do(to('run', plus(own('run'), 1)), ['if', ['less', own('length'), own('run')], longer, SKIP])
    below = ['less', reading(own('at')), ['minus', own('highest'), ['literal', 10]]]
    longest = method('longest', 'Stand', 'int', do(
        to('highest', reading(['literal', 0])), to('highest', ['call', THIS, PARAMETER, 'top']), to('at', ['literal', 0]),
        ['while', ['less', own('at'), PARAMETER], do(['if', below, to('run', ['literal', 0]), in_stand], NEXT)]), THIS)
    fields = [(f, 'int') for f in ('highest', 'from', 'length', 'at', 'run')]
    return parts_of([('Stand', fields, [top, longest])], called(('Stand', 'longest'), 144))


def turns():
    """
    class Turn {
        private int minute; private int height; private boolean high; private Turn next;
        public Turn at(int m) { this.minute = m; return this; }
        public Turn of(int h) { this.height = h; return this; }
        public Turn is(boolean b) { this.high = b; return this; }
        public Turn then(Turn t) { this.next = t; return t; }
    }
    class Turns {
        private Turn first; private Turn last; private int at; private int minute; private boolean up;
        public boolean add(boolean high) {
            if (this.last == null) { this.last = new Turn(); this.first = this.last; }
            else { this.last = this.last.then(new Turn()); }
            this.last = this.last.at(this.minute).of(reading(this.at)).is(high);
            return reading(this.at) < reading(this.at - -1);
        }
        public Turn list(int n) {
            this.up = reading(0) < reading(1);
            while (this.at < n - 1) {
                if (this.up) { if (reading(this.at - -1) < reading(this.at)) { this.up = this.add(0 < 1); } else { } }
                else { if (reading(this.at) < reading(this.at - -1)) { this.up = this.add(1 < 0); } else { } }
                this.at = this.at - -1;
                this.minute = this.minute - -10;
            }
            return this.first;
        }
    }
    new Turns().list(144)
    """
    sets = [method(m, 'Turn', t, to(f, PARAMETER), THIS) for m, t, f in (('at', 'int', 'minute'), ('of', 'int', 'height'), ('is', 'boolean', 'high'))]
    then = method('then', 'Turn', 'Turn', to('next', PARAMETER), PARAMETER)
    written = ['call', ['call', ['call', own('last'), own('minute'), 'at'], reading(own('at')), 'of'], PARAMETER, 'is']
    add = method('add', 'boolean', 'boolean', do(
        ['if', ['is_null', own('last')], do(to('last', ['new', 'Turn']), to('first', own('last'))),
         to('last', ['call', own('last'), ['new', 'Turn'], 'then'])], to('last', written)), RISES)
    turning = lambda test, high: ['if', test, to('up', ['call', THIS, high, 'add']), SKIP]
    lists = method('list', 'Turn', 'int', do(
        to('up', ['less', reading(['literal', 0]), reading(['literal', 1])]),
        ['while', ['less', own('at'), ['minus', PARAMETER, ['literal', 1]]],
         do(['if', own('up'), turning(FALLS, TRUE), turning(RISES, FALSE)], NEXT, LATER)]), own('first'))
    of_turn = [('minute', 'int'), ('height', 'int'), ('high', 'boolean'), ('next', 'Turn')]
    of_turns = [('first', 'Turn'), ('last', 'Turn'), ('at', 'int'), ('minute', 'int'), ('up', 'boolean')]
    return parts_of([('Turn', of_turn, sets + [then]), ('Turns', of_turns, [add, lists])], called(('Turns', 'list'), 144))


# Moon, sun, and the daily unequalness of a harbour; a bar harbour whose high water stands.
COAST = [(140, 745.2, 200), (45, 720, 260), (12, 1435.9, 700)]
BAR = [(150, 745.2, 420), (38, 372.6, 226), (20, 720, 430)]
EXAMPLES = {
    'tide': ([], tide),
    'high_water': (heights(250, (162, 745, 200)), high_water),
    'turn_of_stream': (heights(260, *COAST), turn_of_stream),
    'slow_fall': (heights(260, *COAST), slow_fall),
    'stand': (heights(240, *BAR), stand),
    'turns': (heights(260, *COAST), turns),
}


def main(folder):
    for name, (readings, book) in EXAMPLES.items():
        with open('%s/%s.in' % (folder, name), 'wb') as out:
            out.write(day(readings, book().bytes()))


if __name__ == '__main__':
    main(sys.argv[1])
