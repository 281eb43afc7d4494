#!/usr/bin/env python3
"""Brought the project's own definitions and lemmas to snake case, once, after the toolchain's port.py (docs/PORT.md): a second run turns some names again.

usage: tools/snake_names.py     at the top of a checkout that port.py has turned

A row of snake_names.tsv is the old name, a tab, the new one; a third column is a crate, and the row is for lemmas in its proofs/ alone, where a definition takes the old name.
Whole words turn, in antt, in Rattle and in must-fail edits, but not in antt's strings. In the proof of a function its own answers keep their names, and so does a step behind a dot.
"""
import collections, os, re

HERE = os.path.dirname(os.path.abspath(__file__))
TABLE = os.path.join(HERE, "snake_names.tsv")
WORD = re.compile(r"[^\s(){}.;,@\"«»]+")
QUIET = re.compile(r'"(?:[^"\\\n]|\\.)*"|(?<![^\s(){}.;,@"«»])--[^\n]*')
DECLARED = re.compile(r"^(\s*)(?:abbrev |unfoldable )*(?:pub )?([^\s(){}.;,@\"«»:]+(?: [^\s(){}.;,@\"«»:]+)*) :(?= |\n)", re.M)


def files():
    for folder, dirs, names in os.walk("crates"):
        dirs[:] = sorted(d for d in dirs if d != "out")
        for n in sorted(names):
            if n.endswith((".antt", ".rt", ".edit")):
                yield os.path.join(folder, n)


def own_lemma_file(p):
    parts = p.split(os.sep)
    return p.endswith(".antt") and (parts[2] == "specs" or (parts[2] == "proofs" and len(parts) == 4))


def code(t):
    return QUIET.sub(lambda m: " " * len(m.group()), t)


def turn():
    everywhere, lemmas = {}, collections.defaultdict(dict)
    with open(TABLE, encoding="utf8") as f:
        for line in f:
            old, new, *crate = line.rstrip("\n").split("\t")
            (lemmas[crate[0]] if crate else everywhere)[old] = new
    changed = 0
    for p in files():
        rows = everywhere | (lemmas[p.split(os.sep)[1]] if p.endswith(".antt") and p.split(os.sep)[2] == "proofs" else {})
        with open(p, encoding="utf8") as f:
            t = f.read()
        answers = p.endswith(".antt") and not own_lemma_file(p)
        local = set()
        if answers:
            for m in DECLARED.finditer(code(t)):
                local |= set(m.group(2).split())
        quiet = [m.span() for m in QUIET.finditer(t)] if p.endswith(".antt") else []

        def word(m):
            w = m.group()
            if w not in rows or w in local:
                return w
            if m.start() and t[m.start() - 1] == "." and answers and "-" in w:
                return w
            return rows[w]

        out, at = [], 0
        for a, b in quiet + [(len(t), len(t))]:
            out.append(turn_part(t, at, a, word))
            q = t[a:b]
            out.append(WORD.sub(lambda m: rows.get(m.group(), m.group()) if not q.startswith('"') else m.group(), q))
            at = b
        s = "".join(out)
        if s != t:
            with open(p, "w", encoding="utf8") as f:
                f.write(s)
            changed += 1
    print(changed, "files")


def turn_part(t, a, b, word):
    out, at = [], a
    for m in WORD.finditer(t, a, b):
        out.append(t[at:m.start()])
        out.append(word(m))
        at = m.end()
    out.append(t[at:b])
    return "".join(out)


if __name__ == "__main__":
    os.chdir(os.path.join(HERE, ".."))
    turn()
