#!/usr/bin/env python3
"""Makes the lexer's tables and their definitions: crates/scan/src/table.rt and crates/token/specs/Tables.antt.

The class of each byte, and the keywords as a double-array trie. Nothing here is trusted: the checker holds both tables to
the patterns by computed tests. Run from the repository's root; prints the nodes that spell a word, for words::kind_of."""
import re
import string
import textwrap

patterns = open("crates/token/specs/Patterns.antt").read()
body = patterns[patterns.index("\nwords =") : patterns.index("-- the #[token(\"..\")] of one sign")]
words = re.findall(r'token T\.(\w+) "(\w+)"', body)

# Classes, in the order of their numbers: digits, e, hexadecimal letters, x, the other letters, signs; then other bytes and blanks.
groups = ["0", "1", "2", "3", "4", "6", "8", "579", "e", "E", "a", "b", "c", "d", "f", "ABCDF", "x", "X"] + list("ghilmnopqrstuvwy_")
groups.append("".join(c for c in string.ascii_letters if c not in "".join(groups)))
groups += [".", "*", "/", "\n", "\r\f", '"', "\\", "'", "#", "+-", "(", ")", ",", ":", ";", "<", "=", ">", "[", "]", "{", "}"]
OTHER, BLANK = len(groups), len(groups) + 1
classes = [OTHER] * 256
for k, group in enumerate(groups):
    for c in group:
        classes[ord(c)] = k
for c in " \t":
    classes[ord(c)] = BLANK
reps = [classes.index(k) for k in range(BLANK + 1)]

# The trie: breadth first, each node's children at the first base that is free.
children = {"": []}
for _, word in words:
    for i in range(len(word)):
        if word[: i + 1] not in children:
            children[word[: i + 1]] = []
            children[word[:i]].append(word[i])
FREE = 255  # the owner of a place that is no node's
number, base, check, spelling = {"": 1}, [0] * 256, [FREE] * 256, {1: ""}
free = [k > 1 for k in range(256)]
queue = [""]
while queue:
    prefix = queue.pop(0)
    letters = children[prefix]
    if not letters:
        continue
    base[number[prefix]] = next(b for b in range(220) if all(free[b + classes[ord(c)]] for c in letters))
    for c in letters:
        t = base[number[prefix]] + classes[ord(c)]
        free[t], check[t], number[prefix + c], spelling[t] = False, number[prefix], t, prefix + c
        queue.append(prefix + c)
trie = base + check


def marked(xs):
    """Each number on a line of its own, with its place."""
    return "".join(f"    {x}, // {i:02x}\n" for i, x in enumerate(xs))


def filled(xs):
    """Numbers as rt fmt lays them."""
    return textwrap.fill(" ".join(f"{x}," for x in xs), 99, initial_indent="    ", subsequent_indent="    ") + "\n"


def cons(xs, width=32):
    return "\n    ∷ ".join(" ∷ ".join(map(str, xs[i : i + width])) for i in range(0, len(xs), width)) + " ∷ []"


open("crates/scan/src/table.rt", "w").write(f"""// The lexer's tables, made by tools/lexer_tables.py. They are held to the patterns by computed tests.

// The class of each byte: 0 to 7 digits, 8 to 35 letters and `_`, then the dot and the other signs.
pub static CLASSES: [u8; 256] = [
{marked(classes)}];

// The keywords as a double-array trie. A number n and a class k lead to the number TRIE[n] + k if TRIE[256 + that] is n, else to 0.
pub static TRIE: [u8; 512] = [
{filled(trie)}];
""")
open("crates/token/specs/Tables.antt", "w").write(f"""-- The tables of the lexer, and what their entries stand for. Made by tools/lexer_tables.py.
use Rattle.std.specs.Prelude.{{ℕ, List, [], ◌∷◌}}
use Prim.Native.String.{{String}}

-- the class of each byte
unfoldable pub classes : List ℕ
classes =
    {cons(classes)}

-- a byte of each class
unfoldable pub reps : List ℕ
reps =
    {cons(reps, 30)}

-- the trie of the words: the base of each node, then the node that each place belongs to, 255 where it is none's
unfoldable pub trie : List ℕ
trie =
    {cons(trie)}

-- what each node spells; `-` where there is no node
unfoldable pub spellings : List String
spellings =
    {cons(['"%s"' % spelling.get(n, '-') for n in range(max(spelling) + 1)], 8)}
""")
for kind, word in words:
    print(f"{number[word]} => Token::{kind},")
