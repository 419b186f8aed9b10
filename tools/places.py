"""Counts the places of src/ that docs/DESIGN-PASS.md speaks of: places.py [FOLDER] prints each, by point, and the counts.

The patterns find candidates by their form; which of them are judged to be places stands on the page.
"""
import collections
import difflib
import glob
import os
import re
import sys

ROOT = sys.argv[1] if len(sys.argv) > 1 else os.path.join(os.path.dirname(__file__), '..')

FORMS = {
    '1 an error or a missing value passed on by hand': r'Err\(\w+\) => (return )?(Err|\{)|Some\(\w+\) => Ok|let (Ok|Some)\(\w+\) = .*else \{$|return Err\(\w+\.refusal',
    '1 a number for a kind, an end or a refusal, a flag for an answer': r'\b(number|kind|end|code): u(8|16|32)\b|^    (0|true)$|Misfit,$|Unfinished,$',
    '3 a loop over an index': r'^ *(while |for \w+ in .*\.\.)',
    '4 comparing, converting or printing by hand': r'fn (is_same|same_\w+|has_class|stands_at|is_found|is_null|is_of_sort|signed_number|literal|of_kind|decode|type_of|refusal|number_of|node_of|(int|boolean|handle)_of|two_ints|put(_\w+)?|truth_word|sign_of|byte_at|half_at|word_at|is_letter\w*|are_letters\w*)\b',
    '6 a buffer with a length, an array beside another, an index into an arena': r'\[\w+; (\d+|[A-Z]+)\]|&(\'a )?mut \[|next: (usize|Option<usize>)|Vec<(Head|Chain|Cell|Value)>|&mut Vec<u8>|^const NO_|let mut (strips|marks)',
    '7 a switch on a step, a table of functions': r'\bfn\(|\bdyn\b|match \(node, stage\)|match step|match top\.stage|match hand ',
}


def sources():
    for path in sorted(glob.glob(os.path.join(ROOT, 'crates/*/src/**/*.rt'), recursive=True)):
        yield os.path.relpath(path, ROOT), open(path).read()


def functions(text):
    """Each function: its line, name, head and body, tests left out."""
    text = text.split('#[cfg(test)]')[0]
    for m in re.finditer(r'^( *)(?:pub(?:\(crate\))? )?(?:final )?fn (\w+)', text, re.M):
        end = re.search(r'^%s\}|^%s[^ ].*;$|;$' % (m[1], m[1]), text[m.start():], re.M)
        whole = text[m.start():m.start() + (end.end() if end else 0)]
        head, _, body = whole.partition('\n%s{\n' % m[1])
        yield text.count('\n', 0, m.start()) + 1, m[2], head, body


def parameters(head):
    """The names and types of a function's parameters, mutable or not."""
    inside = re.search(r'fn \w+(?:<.*?>)?\((.*?)\)(?: ->|\n|$)', head, re.S)
    return {p.replace('&mut ', '&') for p in re.findall(r'(\w+: (?:[^,()<]|<[^>]*>)+)', inside[1] if inside else '')}


def shape(body):
    """The tokens of a body, with each lower-case name and number left out."""
    return [re.sub(r'^([a-z_]\w*|\d\w*)$', 'x', t) for t in re.findall(r'\w+|[^\w\s]', body)]


def twins(found):
    for i, (place, name, body) in enumerate(found):
        for place2, name2, body2 in found[i + 1:]:
            if min(len(body), len(body2)) >= 18 and abs(len(body) - len(body2)) < 12 \
                    and difflib.SequenceMatcher(None, body, body2, autojunk=False).ratio() > 0.93:
                yield '%s %s ~ %s %s' % (place, name, place2, name2)


def main():
    counts, found, facts, together = collections.Counter(), [], collections.defaultdict(set), collections.defaultdict(set)
    for path, text in sources():
        plain = text.split('#[cfg(test)]')[0]
        for title, pattern in FORMS.items():
            for n, line in enumerate(plain.split('\n'), 1):
                if re.search(pattern, line) and not line.lstrip().startswith(('//', 'ghost', 'ensures', 'requires')):
                    print('%s | %s:%d: %s' % (title, path, n, line.strip()))
                    counts[title] += 1
        for line, name, head, body in functions(text):
            place = '%s:%d' % (path, line)
            found.append((place, name, shape(body)))
            for fact in re.findall(r'requires(?: \w+)? \{ (.*) \}', head) + re.findall(r'ensures(?: \w+)? \{ ((?:Clear|Decodes) .*?) →', head):
                for part in re.split(r'\) × \(', fact.strip('()')):
                    facts[part.strip('() ')].add(place)
            for parameter in parameters(head):
                together[path.split('/')[1] + ' | ' + parameter].add(place)
    for pair in sorted(twins(found)):
        print('2 twins | ' + pair)
        counts['2 twins'] += 1
    for fact, places in sorted(facts.items()):
        if len(places) > 2:
            print('5 a fact in three contracts or more | %s: %d' % (fact, len(places)))
            counts['5 a fact in three contracts or more'] += 1
    for a in sorted(together):
        for b in sorted(together):
            both, either = together[a] & together[b], together[a] | together[b]
            if a < b and a.split()[0] == b.split()[0] and len(both) > 2 and 2 * len(both) > len(either):
                print('5 parameters that travel together | %s, %s: %d of %d' % (a, b.split(' | ')[1], len(both), len(either)))
                counts['5 parameters that travel together'] += 1
    for title, n in sorted(counts.items()):
        print('%4d  %s' % (n, title))
    for folder in sorted(glob.glob(os.path.join(ROOT, 'crates/*/proofs'))):
        files = glob.glob(folder + '/**/*.antt', recursive=True)
        print('8 proofs | %s: %d files, %d lines' % (folder.split('/')[-2], len(files), sum(open(f).read().count('\n') for f in files)))


main()
