#!/usr/bin/env python3
"""Lists, point by point, the places of src/ that docs/DESIGN-PASS.md counts: `tools/design_places.py [POINT..]` at the top of a checkout.

What it prints are candidates by their text; the page says which of them are places, and why the others are none."""
import difflib
import glob
import itertools
import re
import sys

SOURCES = sorted(glob.glob("crates/*/src/**/*.rt", recursive=True))


def lines(pattern):
    for path in SOURCES:
        for number, line in enumerate(open(path), 1):
            if re.search(pattern, line) and not line.lstrip().startswith(("//", "ghost", "ensures", "requires")):
                yield f"{path}:{number}: {line.strip()}"


def functions():
    """Each function: its file, name, parameters and body, from the opening brace to the one that closes it at its own depth."""
    for path in SOURCES:
        text = open(path).read()
        for head in re.finditer(r"^( *)(?:pub )?(?:extern \"C\" )?fn (\w+)(?:<[^>]*>)?\(", text, re.M):
            end = text.index(f"\n{head.group(1)}}}", head.end())
            start = text.index(f"\n{head.group(1)}{{" if f"\n{head.group(1)}{{" in text[head.end():end] else "{", head.end())
            depth, at = 1, head.end()
            while depth:
                depth += {"(": 1, ")": -1}.get(text[at], 0)
                at += 1
            params = [p.split(":")[0].strip() for p in re.sub(r"<[^>]*>|\([^)]*\)|\[[^]]*\]", "", text[head.end():at - 1]).split(",") if ":" in p]
            yield path, head.group(2), params, text[start:end]


def shape(body):
    names = {}
    out = []
    for token in re.findall(r"[A-Za-z_]\w*|\d+|\S", re.sub(r"//.*", "", body)):
        if re.match(r"\d", token):
            token = "0"
        elif re.match(r"[A-Za-z_]", token) and token not in ("let", "mut", "if", "else", "while", "for", "in", "return", "match", "true", "false"):
            token = f"n{names.setdefault(token, len(names))}"
        out.append(token)
    return out


def enums():
    yield from lines(r"^ *(pub )?enum ")


def numbers():
    yield from lines(r"\bnumber: u64|\.?number (!=|==) 0|fault_at\(\d|stopped\(\d|refused\([^()]*\d+|closed\(\d|Refused\(\d|return \d+;|number: \d")


def twins():
    found = [(path, name, shape(body)) for path, name, _, body in functions()]
    for (path, name, one), (other, second, two) in itertools.combinations(found, 2):
        if min(len(one), len(two)) >= 18 and abs(len(one) - len(two)) <= 0.15 * max(len(one), len(two)):
            alike = difflib.SequenceMatcher(None, one, two, autojunk=False)
            if alike.quick_ratio() >= 0.9 and alike.ratio() >= 0.9:
                yield f"{path}: {name} / {other}: {second}"


def loops():
    yield from lines(r"^ *(while|loop)\b")


def by_hand():
    yield from lines(r"fn (same\w*|equal|is_alike|greater|above|twice_lesser|\w+_number|(side|kind|issuer|currency|rating|letter)_of|word|put_word|put_\w*|print_number)\b")


def together():
    """Groups of parameters by name that three or more functions take, the longest for each set of functions."""
    taken = [(f"{path.split('/')[1]}::{name}", frozenset(params)) for path, name, params, _ in functions()]
    groups = {}
    for (_, one), (_, two) in itertools.combinations(taken, 2):
        both = one & two
        if len(both) >= 3:
            who = tuple(sorted(name for name, params in taken if both <= params))
            if len(who) >= 3 and len(both) > len(groups.get(who, ())):
                groups[who] = both
    for who, both in sorted(groups.items(), key=lambda g: -len(g[1])):
        yield f"{', '.join(sorted(both))}: {', '.join(who)}"


def lengths():
    for path, name, params, _ in functions():
        text = open(path).read()
        head = text[text.index(f"fn {name}"):]
        head = head[:head.index("{")]
        slices = re.findall(r"(\w+): &(?:'\w+ )?(?:mut )?\[", head)
        counts = [p for p in params if p in ("n", "m", "count", "rows", "holdings", "lines", "room", "end", "from", "to")]
        if slices and counts:
            yield f"{path}: {name}: {', '.join(slices)} with {', '.join(counts)}"


def switches():
    yield from lines(r"\b\w+: bool\b|match (letter|sort|order|step)\b|if letter == ")


POINTS = {"1a": enums, "1b": numbers, "2": twins, "3": loops, "4": by_hand, "5": together, "6": lengths, "7": switches}

for point in sys.argv[1:] or POINTS:
    found = list(POINTS[point]())
    print(f"point {point}: {len(found)}")
    for place in found:
        print(f"  {place}")
