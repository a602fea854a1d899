#!/usr/bin/env python3
"""Brings the repository's own names in specs/, proofs/, clauses and must-fail edits to the spelling of today's Rattle: words in snake case; in a
lemma's name a dash joins two names and `_` adds a plain word; a lemma that would have a function's name gets `_lem`.

usage: respell.py table ROOT   prints the table, `old TAB new TAB kind`, for the names that are declared below ROOT/crates
       respell.py ROOT TABLE   rewrites the files below ROOT/crates by a table, the .edit files too
"""
import collections
import glob
import re
import sys

WORD = re.compile(r'[^\s(){}.;,@"«»\[\]|]+')
DECL = re.compile(r"^(\s*)((?:(?:pub|unfoldable|abbrev|opaque|record|data|ruleset) )*)([^\s:(){}=,;.]+)((?:\s*[({][^=]*)?)\s+:\s")
# names of the library that lemmas are named by
LIBRARY = """length take drop append map get_or set sum nil cons replicate reverse filter count_by zip not and or
eqb leb ltb mul add sub min max div mod pow""".split()

# names that would fall together with another: of two, the one that is a lemma or a clause of a page gets `_lem`
APART = {
    "client-on": "client_head",
    "participant-on": "participant_head",
    "record-at": "record_case",
    "two-currencies": "two_currencies_rows",
    "in-parts": "in_parts_lem",
}
# names that port.py had turned, and that would now be those of a function
TURNED = {name: name + "_lem" for name in "at_pair row_from same_class text_at too_long moved_up".split()}


def declared(root):
    """name -> kinds: 'field', 'word' (a function or value of specs/), 'lemma'"""
    names = collections.defaultdict(set)
    for part in ("specs", "proofs"):
        for file in sorted(glob.glob(f"{root}/crates/*/{part}/**/*.antt", recursive=True)):
            if file.endswith(("/Proof.antt", "/Answers.antt", "/Invariants.antt", "/Lib.antt")):
                continue
            inside = False
            for line in open(file, encoding="utf-8"):
                if re.match(r"(pub )?(record|data) |\s+(pub )?(record|data) ", line):
                    inside = True
                elif line.strip() and not line[0].isspace():
                    inside = False
                m = DECL.match(line)
                if not m or line.lstrip().startswith("--"):
                    continue
                indent, marks, name, _ = m.groups()
                if indent and not inside and "pub" not in marks and not re.match(r"\s{2,4}\S", line):
                    continue
                if "record" in marks or "data" in marks:
                    continue
                kind = "field" if indent and inside else "lemma"
                if re.search(r"\b(unfoldable|abbrev|opaque)\b", marks) or (part == "specs" and kind == "lemma"):
                    kind = "word"
                names[name].add(kind)
    return names


def snake(name):
    name = name.replace("getD", "get_or")
    return re.sub(r"(?<=[a-z0-9])([A-Z])", lambda m: "_" + m.group(1).lower(), name)


def table(root):
    names = declared(root)
    words = {snake(n) for n, kinds in names.items() if kinds & {"word", "field"} and "-" not in n and n[0].islower()} | set(LIBRARY)
    rows = {}
    for name in sorted(names):
        kinds = names[name]
        if not (name[0].islower() and re.search(r"[a-z0-9][A-Z]", name)) and "-" not in name:
            continue
        if not re.fullmatch(r"[A-Za-z0-9_'\-]+", name):
            continue
        parts = [snake(p) if p[0].islower() else p for p in name.split("-")]
        groups, i = [], 0
        while i < len(parts):
            for j in range(len(parts), i, -1):
                run = "_".join(parts[i:j])
                if run in words or j == i + 1:
                    groups.append((run, run in words or run[0].isupper()))
                    i = j
                    break
        new = groups[0][0]
        for (a, left), (b, right) in zip(groups, groups[1:]):
            new += ("-" if "lemma" in kinds and left and right else "_") + b
        if kinds == {"lemma"} and new in words:
            new += "_lem"
        rows[name] = (APART.get(name, new), "/".join(sorted(kinds)))
    spelled = collections.Counter(new for new, _ in rows.values())
    for name, (new, kinds) in rows.items():
        if spelled[new] > 1 and "-" in name:
            rows[name] = (new + "_lem", kinds)
    for name, new in TURNED.items():
        rows[name] = (new, "field/turned")
    return {old: row for old, row in rows.items() if old != row[0]}


def rewrite(text, rows, kind):
    """one text by the table: kind is antt, rt or edit"""
    out = []
    for line in text.split("\n"):
        if kind == "edit" and not line.startswith(("old:", "new:")):
            out.append(line)
            continue
        code, comment = line, ""
        m = re.search(r"(^|\s)--\s.*$" if kind != "rt" else r"(^|\s)//.*$", line)
        if m:
            code, comment = line[: m.start()], line[m.start() :]
        pieces = re.split(r'("(?:[^"\\]|\\.)*")', code)
        for k in range(0, len(pieces), 2):
            piece = pieces[k]

            def one(m):
                word = m.group(0)
                if word not in rows:
                    return word
                new, kinds = rows[word]
                if "turned" in kinds and (kind == "rt" or re.search(r"proofs\.$", piece[: m.start()])):
                    return word
                before = piece[: m.start()]
                if before.endswith(".") and kinds == "lemma" and not re.search(r"[A-Z]\w*\.$", before):
                    return word
                return new

            pieces[k] = WORD.sub(one, piece)
        comment = re.sub(r"[a-z]+[a-z0-9]*(?:[A-Z][a-z0-9]*)+", lambda m: rows[m.group(0)][0] if m.group(0) in rows else m.group(0), comment)
        out.append("".join(pieces) + comment)
    return "\n".join(out)


def main():
    if sys.argv[1] == "table":
        rows = table(sys.argv[2])
        for old in sorted(rows):
            print(old, *rows[old], sep="\t")
        return
    root = sys.argv[1]
    rows = {}
    for line in open(sys.argv[2], encoding="utf-8"):
        old, new, kinds = line.rstrip("\n").split("\t")
        rows[old] = (new, kinds)
    for kind in ("antt", "rt", "edit"):
        for file in glob.glob(f"{root}/crates/*/**/*.{kind}", recursive=True):
            if "/out/" in file:
                continue
            text = open(file, encoding="utf-8", newline="").read()
            new = rewrite(text, rows, kind)
            if new != text:
                open(file, "w", encoding="utf-8", newline="").write(new)


main()
