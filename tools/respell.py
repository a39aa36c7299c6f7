#!/usr/bin/env python3
"""Brings this repository's own definitions, lemmas and fields to snake case: fileOf to file_of, same-lengths to same_lengths.

usage: tools/respell.py [--map FILE] [TOP]

Run once, right after port.py, at the top (TOP, or this folder). With --map it turns TOP by the rows of FILE, old and new with a tab between, and
looks for no names of its own; without it the rows that it used are written to tools/respell.tsv. It turns whole words of .antt files and of clauses:
names that a file of specs/ or a lemma file declares, and helper lemmas of proofs that walk the code. Names that Rattle makes, names of libraries and
names of the source stay. Where two names would fall together it stops and says which.
"""

import collections
import glob
import os
import re
import sys

NAME = r"[^\s(){}.;,@\"«»`\[\]]+"
WORD = re.compile(r"\"(?:[^\"\\\n]|\\.)*\"|--[^\n]*|" + NAME)
DECLARED = re.compile(r"(?m)^( *)((?:(?:abbrev|unfoldable|pub) )*)(" + NAME + r")(?: (?:\{[^{}\n]*\}|\([^()\n]*\)))* :(?= |$)([^\n]*)")
IMPORT = re.compile(r"(?m)^(?:pub )?use ([^\s{]+)\.\{([^}]*)\}")
# Words that a file of proofs declares because Rattle asks for them.
ASKED = re.compile(r" *(?:tie|goal|the-goal)\.")
def snake(name):
    name = re.sub(r"(?<=[a-z0-9])[A-Z]+", lambda m: "_" + m[0].lower(), name)
    return name.replace("-", "_")


def files(top):
    for kind in ("specs", "proofs", "src"):
        for end in ("antt", "rt"):
            yield from sorted(glob.glob(f"{top}/crates/*/{kind}/**/*.{end}", recursive=True))


def read(path):
    with open(path, encoding="utf-8") as f:
        return f.read()


def is_walk(path):
    return path.rsplit("/", 1)[1] in ("Proof.antt", "Answers.antt", "Invariants.antt")


def own(text, path):
    """The names that this file declares and that may turn, each with its kind."""
    for m in DECLARED.finditer(text):
        if is_walk(path) and (ASKED.match(m[4]) or m[3].endswith("-spec") or "statement" in m[4]):
            continue
        if "abbrev" in m[2] or "unfoldable" in m[2]:
            yield m[3], "definition"
        elif not m[1]:
            yield m[3], "lemma"
        elif not is_walk(path):
            yield m[3], "field"


def of_libraries(text):
    for path, names in IMPORT.findall(text):
        if not re.match(r"Rattle\.(?!std\b|core\b|std_)", path):
            yield from (n.split(" as ")[0].strip() for n in names.split(","))


def rows(top):
    """The new name of each name that turns, and what cannot be settled here."""
    texts = {p: read(p) for p in files(top)}
    words = {p: set(WORD.findall(texts[p])) for p in texts}
    kinds, declared = collections.defaultdict(set), collections.defaultdict(set)
    for p in texts:
        if p.endswith(".antt"):
            for n, kind in own(texts[p], p):
                if not n[0].isupper():
                    kinds[n].add(kind)
                    declared[n].add(p)
    best = lambda n: next(k for k in ("definition", "lemma", "field") if k in kinds[n])
    table, said, taken = {}, [], {}
    for n in sorted(kinds, key=lambda n: (["definition", "lemma", "field"].index(best(n)), "-" in n, n)):
        new = snake(n)
        kind = best(n)
        first = taken.get(new)
        if first and kind == "definition":
            said.append(f"together: {n} and {first}")
        elif first and (kind == "lemma" or any(first in words[p] for p in declared[n])):
            new += "_lem" if kind == "lemma" else "_fact"
        if new in taken and taken[new] != first:
            said.append(f"together: {n} and {taken[new]}: {new}")
        taken.setdefault(new, n)
        if new != n:
            table[n] = new
            for p in texts:
                if n in words[p] and new in words[p] and new not in kinds:
                    said.append(f"there already: {new}, for {n}, in {p}")
    return table, said


def turned(text, table, code=True):
    def one(m):
        w = m[0]
        if w[0] == '"':
            return w
        if w.startswith("--"):
            return comment(w, table)
        return table.get(w, w)

    return WORD.sub(one, text)


def comment(text, table):
    """In prose a name in backquotes turns, and a word of the shape fileOf."""
    text = re.sub(r"`[^`\n]*`", lambda m: re.sub(NAME, lambda w: table.get(w[0], w[0]), m[0]), text)
    return re.sub(r"(?<![\w-])[a-z]+[a-z0-9]*[A-Z]\w*(?![\w-])", lambda w: table.get(w[0], w[0]), text)


RUST = re.compile(r"//[^\n]*|b?\"(?:[^\"\\]|\\.)*\"|b'(?:[^'\\]|\\.)[^']*'|ghost use[^;]*;|(?:requires|ensures)\*?(?: \w+)? \{")


def clauses(text, table):
    """The source: ghost use items and clauses turn, and comments."""
    out, at = [], 0
    while m := RUST.search(text, at):
        out.append(text[at : m.start()])
        end = m.end()
        if m[0].startswith("//"):
            out.append(comment(m[0], table))
        elif m[0].startswith("ghost use"):
            out.append(turned(m[0], table))
        elif m[0][0] in "re":
            depth = 1
            while depth:
                depth += {"{": 1, "}": -1}.get(text[end], 0)
                end += 1
            out.append(m[0] + turned(text[m.end() : end], table))
        else:
            out.append(m[0])
        at = end
    return "".join(out) + text[at:]


def main(argv):
    given = None
    if argv[:1] == ["--map"]:
        given, argv = argv[1], argv[2:]
    top = argv[0] if argv else "."
    if given:
        table = dict(line.rstrip("\n").split("\t") for line in read(given).splitlines())
    else:
        table, said = rows(top)
        if said:
            print("\n".join(said))
        if any(it.startswith("together") for it in said):
            return 1
        with open(f"{top}/tools/respell.tsv", "w", encoding="utf-8") as f:
            f.writelines(f"{old}\t{table[old]}\n" for old in sorted(table))
    n = 0
    for p in files(top):
        old = read(p)
        new = clauses(old, table) if p.endswith(".rt") else turned(old, table)
        if new != old:
            n += 1
            with open(p, "w", encoding="utf-8") as f:
                f.write(new)
    print(f"{len(table)} names, {n} files")
    return 0


if __name__ == "__main__":
    raise SystemExit(main(sys.argv[1:]))
