#!/usr/bin/env python3
"""Functions of the same shape: bodies that are the same once names, numbers and texts are left out.

usage: tools/twins.py [FOLDER]

Prints a line for each such set under FOLDER/crates/*/src (FOLDER: this repository), and how many functions could go.
"""
import collections, glob, os, re, sys

HERE = os.path.join(os.path.dirname(os.path.abspath(__file__)), "..")
WORDS = "let mut if else while loop for in return match fn self Some None Ok Err continue break as const true false".split()
# below this a body says too little to be a twin
LEAST = 40

def behind(text, at):
    """The place behind the brace that closes the one at `at`."""
    depth = 0
    for i in range(at, len(text)):
        depth += {"{": 1, "}": -1}.get(text[i], 0)
        if depth == 0:
            return i + 1
    return len(text)

def functions(folder):
    for file in sorted(glob.glob(os.path.join(folder, "crates/*/src/**/*.rt"), recursive=True)):
        text = re.sub(r"//[^\n]*", "", open(file, encoding="utf8").read())
        for name in re.finditer(r"\bfn (\w+)", text):
            at = text.find("{", name.end())
            while at >= 0 and re.search(r"(requires|ensures|ghost \w+:)\s*$", text[:at][-24:]):
                at = text.find("{", behind(text, at))
            declared = ";" in re.sub(r"\[[^\]]*\]", "", text[name.end():at])
            if at >= 0 and not declared:
                yield f"{os.path.relpath(file, os.path.join(folder, 'crates'))}:{name[1]}", text[at:behind(text, at)]

def shape(body):
    body = re.sub(r"b?'[^']*'|b?\"[^\"]*\"", "1", body)
    body = re.sub(r"\b[A-Za-z_]\w*(::\w+)*", lambda word: word[0] if word[0] in WORDS else "x", body)
    return re.sub(r"\s+", "", re.sub(r"\b\d\w*", "1", body))

def main():
    sets = collections.defaultdict(list)
    for name, body in functions(sys.argv[1] if sys.argv[1:] else HERE):
        if len(shape(body)) > LEAST:
            sets[shape(body)].append(name)
    alike = [names for names in sets.values() if len(names) > 1]
    for names in alike:
        print(", ".join(names))
    print(f"twins: {sum(len(names) - 1 for names in alike)}")

if __name__ == "__main__":
    main()
