"""Spells this repository's own antt names as today's Rattle does: words in snake case, types in camel case.

usage: snake_names.py [--list]   at the top of the repository, once, right after the kit's port.py

A name of ours is one that a text below crates/ declares, binds or gives a field, and that has a dash: `class-count`
becomes `class_count`, `Holds-at` becomes `HoldsAt`. Names that a file imports from a library stay in that file, and so do
the names that Rattle makes for a function's proof (behind `goal.`, `c.`, `l.` and `w.`, and what answers them).
Comments and strings stay. A name whose new spelling another name in one of its files has already is listed as `falls together:` and stays.
"""
import os
import re
import sys

NAME = r"[^\W\d_][^\s(){}.;,@\"«»:=]*"
TOKEN = re.compile(rf"(?<![^\s(){{}}.;,@\"«»⟨]){NAME}-[^\s(){{}}.;,@\"«»:]*")
USE = re.compile(r"^\s*(?:pub )?(?:ghost )?use ([^\s{;]+?)\.?(?:\{([^}]*)\})?;?\s*$", re.M)
MADE = re.compile(r"/proofs/.+/(Answers|Invariants|Choices)\.antt$")
# A name that Rattle makes begins so in a function's answers.
HEADS = ("returns", "loop-", "invariant-", "decreases-", "overflow", "bounds-", "in-", "in_", "if-", "then-", "else-",
         "slice", "nonzero", "prove-", "offset", "Inv-", "InvT-", "measure-")


def files(root):
    for folder, dirs, names in os.walk(os.path.join(root, "crates")):
        dirs[:] = sorted(d for d in dirs if d != "out")
        for f in sorted(names):
            if f.endswith((".rt", ".antt")):
                yield os.path.join(folder, f)


def pieces(text, comment):
    """The text in pieces, each with whether it is code: comments and strings are not."""
    cut = re.compile(r'("(?:\\.|[^"\\\n])*"|' + comment + r"[^\n]*)")
    return [(p, i % 2 == 0) for i, p in enumerate(cut.split(text))]


def code(path, text):
    return "".join(p for p, real in pieces(text, "//" if path.endswith(".rt") else "--(?= |$)") if real)


def ours(path):
    return re.match(r"Rattle\.(\w+)\.", path + ".") and path.split(".")[1] in CRATES


def foreign(text):
    """The names that a file imports from a library."""
    found = set()
    for m in USE.finditer(text):
        if not ours(m[1]):
            for it in (m[2] or "").split(","):
                found |= set(it.split(" as ")[-1:] + it.split(" as ")[:1])
    return {it.strip() for it in found if "-" in it}


def spelled(name):
    if name[0].isupper():
        first, *rest = name.split("-")
        return first + "".join(w[:1].upper() + w[1:] for w in rest)
    return name.replace("-", "_")


def tokens(path, text):
    """Each dashed token of a file's code, with what stands before it."""
    for m in TOKEN.finditer(text):
        yield m[0], text[max(0, m.start() - 40):m.start()]


def made(path, name, before):
    """Whether Rattle makes the name: in a function's answers, behind c. and the like, and the goals' own names."""
    if not MADE.search(path):
        return False
    return bool(re.search(r"(?:^|[\s(])(?:c|l|w|g|goal|given|need|needs|v)(?:\.[^\s(){}.;,]+)*\.$", before))


def goals(text):
    """The names that answer goals."""
    return set(re.findall(r"(?m)^\s*(?:abbrev )?(?:pub )?(\S+) : (?:goal|given|need)\.", text))


def main(root, only_list):
    texts = {p: open(p, encoding="utf-8").read() for p in files(root)}
    codes = {p: code(p, t) for p, t in texts.items()}
    names, near = set(), {}
    for p, t in codes.items():
        mine = foreign(t) | goals(t)
        for n, before in tokens(p, t):
            if MADE.search(p) and not re.search(rf"(?m)^\s*(?:pub )?{re.escape(n)} :", t):
                continue
            if p.endswith(".antt") and n not in mine and not made(p, n, before) and not before.endswith(".") and not (MADE.search(p) and n.startswith(HEADS)):
                names.add(n)
        if p.endswith(".antt"):
            near[p] = set(re.findall(rf"(?<![\w.-])({NAME})", t))
    library = set().union(*(foreign(t) for t in codes.values()))
    # a name behind a dot is a field of ours where a record of ours declares it
    for p, t in codes.items():
        for m in re.finditer(r"(?m)^[ \t]+pub (\S+-\S+) :", "" if MADE.search(p) else t):
            names.add(m[1])
    turned = {n: spelled(n) for n in sorted(names)}
    old = {}
    for n, s in turned.items():
        old.setdefault(s, []).append(n)
    clash = {n: s for n, s in turned.items() if len(old[s]) > 1 or any(n in near[p] and s in near[p] for p in near)}
    for n, s in clash.items():
        print("falls together:", n, s)
    both = sorted(set(turned) & library)
    print("ours and a library's:", ", ".join(both))
    if only_list:
        for n, s in turned.items():
            print(n, s)
        return
    count = 0
    for p, t in texts.items():
        stay = foreign(codes[p]) | goals(codes[p])
        out = []
        for piece, real in pieces(t, "//" if p.endswith(".rt") else "--(?= |$)"):
            if real:
                def turn(m):
                    n, before = m[0], piece[max(0, m.start() - 60):m.start()]
                    if n not in turned or n in stay or n in clash or made(p, n, before):
                        return n
                    return turned[n]
                piece = TOKEN.sub(turn, piece)
            out.append(piece)
        new = "".join(out)
        if new != t:
            count += 1
            open(p, "w", encoding="utf-8").write(new)
    print(len(turned) - len(clash), "names respelled in", count, "files")


TOP = os.getcwd()
CRATES = set(os.listdir(os.path.join(TOP, "crates")))
main(TOP, "--list" in sys.argv)
