"""Tables of test cases, as crates/table reads them, and the sample inputs that they take in."""
import os
import struct

SAMPLES = os.path.join(os.path.dirname(os.path.abspath(__file__)), '..', 'samples')


def item(data):
    return struct.pack('<I', len(data)) + data


def write(folder, cases, with_answers=False):
    """Writes the cases, each a label, an input and the answer's text: FOLDER/stdin has the labels and the inputs, between
    them the answers if the program is to know them, and FOLDER/stdout the labels and the answers."""
    with open(folder + '/stdin', 'wb') as out:
        for label, data, answer in cases:
            out.write(item(label.encode()) + (item(answer.encode() + b'\n') if with_answers else b'') + item(data))
    with open(folder + '/stdout', 'w') as out:
        for label, _, answer in cases:
            out.write('%s:\n%s\n' % (label, answer))
    print(len(cases), 'cases')


def samples():
    """Each sample's number, its input, and the answers of `slip` that are right: one, or all that are allowed."""
    for f in sorted(os.listdir(SAMPLES)):
        number, kind = os.path.splitext(f)
        if kind in ('.expected', '.allowed'):
            answer = open(os.path.join(SAMPLES, f)).read().rstrip()
            data = open(os.path.join(SAMPLES, number + '.in'), 'rb').read()
            yield number, data, answer.split('\n') if kind == '.allowed' else [answer]


def refusal_number(answer):
    """The number of a refusal, 0 for any other answer."""
    words = answer.split()
    return int(words[1]) if words[0] == 'refused' else 0
