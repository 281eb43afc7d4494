#!/usr/bin/env python3
"""Computes the definitions of reading and printing on the texts of answers.list (oracle/README.md; the input of crates/replay_nodes) and holds them to the answers kept there.

usage: tools/definitions_on_list.py [LONGEST [EVERY]]
LONGEST: texts up to so many bytes (default 100); EVERY: each so-many-th of them (default 8), and the first of each refusal, kind, flags and form of a field.
The answers are rico's own for the texts inside, which come first, and those of rico with the field rule of Change 4 for the texts outside (oracle/README.md).
Where a text has CR LF, which rico counts for two lines and document 01 with Change 1 for one, lines and columns are those of oracle/longest.py.
Each text becomes a theorem by computation, in a crate of its own beside a copy of the crates in a folder among the temporary files: records, comments and refusals
against parser/specs/Read, prints at 0, 2 and 8 against writer/specs/Print. If oracle/build was run, rico's own answers to the same texts, with rico's lines, against rico/specs/Reading,
and where the first field is begun that starts with no integer, if any is, by oracle/reading.py; and what is raised, before the end rule, where the grammar refuses: the kind, and whether a token is in hand,
noted in rico with the field rule (oracle/raised.patch), against `raised` of parser/specs/Refusals. That too for accepted texts cut behind a token, so that they end early: the shortest for each kind raised and two last tokens.
Where rico panics there is nothing to compare (an enum member's `=` at the end; the definition raises 6 with no token left). The crates are to be proved before (rt check in crates/writer and crates/rico), or this proves them. ASCII texts only. It is slow (about a tenth of a second a theorem) and no part of the gate."""
import os
import re
import shutil
import struct
import subprocess
import sys
import tempfile

sys.dont_write_bytecode = True
sys.path.insert(0, "oracle")

from longest import PAIR, cut
import reading

ORACLE = "target/oracle/bin/oracle"
FIELDS = "target/oracle/bin/oracle_fields"
longest = int(sys.argv[1]) if len(sys.argv) > 1 else 100
every = int(sys.argv[2]) if len(sys.argv) > 2 else 8
data = open("crates/replay_nodes/stdin", "rb").read()
at = 0


def number():
    global at
    at += 4
    return struct.unpack_from("<I", data, at - 4)[0]


def part(n):
    global at
    at += n
    return data[at - n : at]


def asked(oracle, form, texts):
    """The oracle's answer to each text."""
    global data, at
    packed = b"".join(struct.pack("<I", len(t)) + t for t in texts)
    data, at = subprocess.run([oracle, "batch", form], input=packed, stdout=subprocess.PIPE, check=True).stdout, 0
    return [part(number()).decode() for _ in texts]


def place(text, rows):
    """Sets the lines and columns of records by Change 1; each stands where a token starts or ends."""
    places = {}
    for _, *token in cut(text)[0]:
        places[token[0]], places[token[3]] = token[1:3], token[4:6]
    for row in rows:
        row[4:6], row[7:9] = places[row[3]], places[row[6]]


def case():
    text = part(number())
    refusal = [number(), number(), number()]
    if refusal[0]:
        return text, refusal, None, None, None
    nodes, comments = number(), number()
    rows = [[number() for _ in range(10 if i < nodes else 9)] for i in range(nodes + comments)]
    if PAIR in text:
        place(text, rows)
    return text, None, rows[:nodes], rows[nodes:], [part(number()) for _ in range(3)]


def quoted(text):
    special = {'"': '\\"', "\\": "\\\\", "\n": "\\n", "\r": "\\r", "\t": "\\t"}
    return '"' + "".join(special.get(c, c if c >= " " else "\\u{%x}" % ord(c)) for c in text.decode()) + '"'


def listed(xs, show=str):
    return "(" + " ∷ ".join(map(show, xs)) + " ∷ [])" if xs else "[]"


def run():
    log = subprocess.run(["rt", "check"], cwd=f"{folder}/crates/held", capture_output=True, text=True)
    wrong = [line for line in (log.stdout + log.stderr).split("\n") if ": error" in line]
    print(f"{len(wrong)} wrong, exit {log.returncode}")
    for line in wrong[:10] or (log.stdout + log.stderr).split("\n")[-3:]:
        print(line[:300])
    return log.returncode


def features(text, refusal, nodes, comments, prints):
    """What a case shows: its refusal and side, or the kinds with their flags, the owners of comments and the fields, each with its parent's kind, its flags and its first child's kind."""
    if refusal:
        return {("refusal", refusal[0], "outside" if reading.outside(text) else "inside")}
    fields = {("field", nodes[r[1]][0], r[2], nodes[i + 1][0]) for i, r in enumerate(nodes) if r[0] == 12}
    return fields | {("record", r[0], r[2]) for r in nodes} | {("comment", r[0], nodes[r[1]][0]) for r in comments}


short = [c for c in (case() for _ in range(number())) if len(c[0]) <= longest and all(b < 127 for b in c[0])]
cases, met = [], set()
for i, c in enumerate(short):
    if i % every == 0 or features(*c) - met:
        cases.append(c)
        met |= features(*c)
for side in ("inside", "outside"):
    print("refusals", side, *sorted(f[1] for f in met if f[0] == "refusal" and f[2] == side))
print("fields", *sorted(f"{f[2]} of {f[1]} from {f[3]}" for f in met if f[0] == "field"))
print("records", *sorted(f"{f[1]}/{f[2]}" for f in met if f[0] == "record"))
print("comments", *sorted(f"{f[1]} of {f[2]}" for f in met if f[0] == "comment"))
crates = "rico fuel writer parser ast lexer scan utf8 token"
# not in the checkout, where rt ci refuses .rt and .antt files outside crates/
folder = tempfile.mkdtemp(prefix="definitions-")
os.makedirs(f"{folder}/crates/held/proofs")
os.makedirs(f"{folder}/crates/held/src")
for name in crates.split():
    shutil.copytree(f"crates/{name}", f"{folder}/crates/{name}", ignore=shutil.ignore_patterns("out"))
rows = [row for row in open("crates.txt") if row.partition(":")[0] in crates.split()]
open(f"{folder}/crates.txt", "w").write("".join(rows) + f"held: {crates}\n")
open(f"{folder}/crates/held/src/lib.rt", "w").write("// Theorems by computation.\n#![tactic(auto)]\n")
names = []


def importing(head, *wanted):
    """The head of a proof file, with these names of std imported too."""
    have = {name.strip() for list_ in re.findall(r"^use [^{\n]*\{([^}]*)\}", head, re.M) for name in list_.split(",")}
    lacking = ", ".join(name for name in wanted if name not in have)
    return re.sub(r"^use ", f"use Rattle.std.specs.Prelude.{{{lacking}}}\nuse ", head, count=1, flags=re.M) if lacking else head


def module(kind, head, theorems):
    """Theorems in files of 200."""
    for i in range(0, len(theorems), 200):
        names.append(f"{kind}{i // 200}")
        open(f"{folder}/crates/held/proofs/{names[-1]}.antt", "w").write(head + "\n" + "\n".join(theorems[i : i + 200]))


source = open("crates/parser/proofs/Cases.antt").read()
head, rest = source.split("pub edges_hold : All outcome edges\n")
opened = rest[: rest.index("edges_hold =")]
head = re.sub(r"Edges\.\{([^}]*)\}", lambda m: "Edges.{" + ", ".join(dict.fromkeys(["Holds", "refuses", "accepts", *re.findall(r"[^\s,]+", m.group(1))])) + "}", head)
head = importing(head, "List", "[]", "◌∷◌")
theorems = []
for i, (text, refusal, nodes, comments, _) in enumerate(cases):
    edge = f"refuses {quoted(text)} {' '.join(map(str, refusal))}" if refusal else f"accepts {quoted(text)} {listed(nodes, listed)} {listed(comments, listed)}"
    theorems.append(f"c{i} : Holds outcome ({edge})\n{opened}c{i} = {'refl' if refusal else '(refl, refl)'}\n")
module("Text", head, theorems)
print(f"{len(cases)} texts, {sum(c[1] is None for c in cases)} of them accepted, {sum(PAIR in c[0] for c in cases)} with CR LF, {sum(reading.outside(c[0]) for c in cases)} outside")

source = open("crates/writer/proofs/Cases.antt").read()
head, rest = source.split("-- a reading and a printing of a text at an indent")
opened = re.search(r"unfolding (?:.|\n)*?(?=\nboth t indent)", rest).group(0)
head = importing(head, "List", "ℕ")
head += f"unfoldable whole : String → ℕ → List ℕ\n{opened}\nwhole s i = W.print_of i (W.outcome_at i (bytes s))\n"
prints = [(c[0], n, p) for c in cases if c[4] for n, p in zip((0, 2, 8), c[4])]
theorems = [f"p{i} : whole {quoted(t)} {n} ≡ bytes {quoted(p)}\nunfolding whole bytes\np{i} = refl\n" for i, (t, n, p) in enumerate(prints)]
module("Print", head, theorems)
print(f"{len(prints)} prints")

if os.path.exists(ORACLE):
    source = open("crates/rico/proofs/Cases.antt").read()
    head, rest = source.split("-- what rico answers\n")
    opened = re.search(r"^pub edges_hold .*\n((?:.|\n)*?)edges_hold =", rest, re.M).group(1)
    head = re.sub(r"Edges\.\{[^}]*\}", "Edges.{Holds, refuses, accepts}", head)
    theorems, parted = [], 0
    for i, (text, answer) in enumerate((c[0], a) for c, a in zip(cases, asked(ORACLE, "nodes", [c[0] for c in cases]))):
        rows = [list(map(int, row.split())) for row in answer.replace("R ", "").replace("PANIC", "").split("\n")[:-1]]
        first = reading.read(text)[1]
        if not rows[0]:
            continue
        if len(rows[0]) == 3:
            edge, proof = f"refuses {quoted(text)} {' '.join(map(str, rows[0]))}", "refl"
        else:
            n = rows[0][0] + 1
            edge, proof = f"accepts {quoted(text)} {listed(rows[1:n], listed)} {listed(rows[n:], listed)}", "(refl, refl)"
        theorems.append(f"r{i} : Holds O.outcome ({edge})\n{opened}r{i} = {proof}\n")
        if first:
            parted += 1
            edge, proof = f"refuses {quoted(text)} 0 {first[0]} {first[1]}", "refl"
        theorems.append(f"b{i} : Holds (O.outcome_with (F.stopping 0)) ({edge})\n{opened}b{i} = {proof}\n")
    module("Rico", head, theorems)
    print(f"{len(theorems)} theorems on rico's own rules, {parted} texts outside")

    head, rest = open("crates/parser/proofs/Cases.antt").read().split("pub edges_hold ")
    opened = re.search(r"^pub examples_raise .*\n((?:.|\n)*?)examples_raise =", rest, re.M).group(1)
    head = importing(head, "◌≡◌", "[]", "◌∷◌")
    refused = [c[0] for c in cases if c[1] and c[1][0] < 20]
    raised = {t: tuple(map(int, a.split())) for t, a in zip(refused, asked(FIELDS, "raised", refused))}
    ended = sorted({c[0][: t[4]] for c in short if not c[1] for t in cut(c[0])[0]} - set(refused), key=lambda t: (len(t), t))
    answers = dict(zip(ended, (a.strip() for a in asked(FIELDS, "raised", ended))))
    places = {}
    for t, a in answers.items():
        if a not in ("-", "PANIC"):
            places.setdefault((a, *(token[0] for token in cut(t)[0][-2:])), t)
    raised.update((t, tuple(map(int, answers[t].split()))) for t in places.values())
    module("Raised", head, [f"e{i} : raised (parsed (bytes {quoted(t)})) ≡ {listed(r)}\n{opened}e{i} = refl\n" for i, (t, r) in enumerate(raised.items())])
    print(f"{len(raised)} theorems on what is raised: {len(refused)} texts of the list, {len(places)} of {len(ended)} cut texts, {list(answers.values()).count('PANIC')} on which rico panics left out")
    for hand, words in (0, "with no token left"), (1, "with a token in hand"):
        kinds = [kind for kind, h in raised.values() if h == hand]
        print(f"{len(kinds)} {words}, of the kinds", *sorted(set(kinds)))
open(f"{folder}/crates/held/proofs/Lib.antt", "w").write("".join(f"pub mod {n}\n" for n in names))
status = run()
shutil.rmtree(folder)
sys.exit(status)
