#!/usr/bin/env python3
"""Which definitions has one to believe? Lists every definition that a contract of an entry reaches, and holds docs/DEFINITIONS.md to it.

usage: tools/reached.py [--list]

An entry is a public function that users call (ENTRIES). From the names in its `ensures` this goes along the definitions of specs/, each
through the names that it uses, over all crates. The files so reached are to be the rows of the first table of docs/DEFINITIONS.md, no more and no fewer;
--list prints each file with the definitions that are reached and those that are not. Exit status 1 if the page and the code part.
"""
import glob, os, re, sys

os.chdir(os.path.join(os.path.dirname(os.path.abspath(__file__)), ".."))
PAGE = "docs/DEFINITIONS.md"
# crates whose public functions users call; of lexer only `check` (the others serve the crates above and have a `requires`)
ENTRIES = {"utf8": None, "lexer": {"check"}, "scanner": None, "place": None, "move_tables": None, "reader": {"read"}, "enum_numbers": None, "printer": {"print"}, "file": None, "link": None}

WORD = re.compile(r"[^\s(){}\[\],;λ]+")

def words(text):
    text = re.sub(r'"[^"]*"', " ", text)
    for word in WORD.findall(text):
        yield word
        if word == "do":
            yield from (">>=", ">>")
        # a qualified name is ALIAS.name, and a field of a value VALUE.field
        if "." in word.strip("."):
            yield tuple(word.split(".", 1))
            yield word.split(".", 1)[0]

def uncommented(text, mark):
    return "\n".join(line.split(mark, 1)[0] for line in text.split("\n"))

def module_file(path, crate):
    """The specs file behind a module path as `Rattle.parser.specs.Read`; None for a module of std or one that a crate's types make."""
    m = re.match(r"Rattle\.(\w+)\.specs\.(.+)$", path)
    if not m or m.group(2).startswith("declared.") or not os.path.isdir(f"crates/{m.group(1)}"):
        return None
    return f"crates/{m.group(1)}/specs/{m.group(2).replace('.', '/')}.antt"

USE = re.compile(r"^(?:ghost )?use ([^\s;{]+?)(?:\.\{([^}]*)\}| as (\S+?))?;?\s*$", re.M)

def imports(text, crate):
    """name -> (file, name there); alias -> file"""
    names, aliases = {}, {}
    for path, list_, alias in USE.findall(text):
        file = module_file(path, crate)
        if file is None:
            continue
        if alias:
            aliases[alias] = file
        for item in (list_ or "").split(","):
            item = item.strip()
            if item:
                old, _, new = item.partition(" as ")
                names[(new or old).strip()] = (file, old.strip())
    return names, aliases

class Module:
    def __init__(self, file):
        self.file = file
        text = uncommented(open(file, encoding="utf8").read(), "--")
        self.names, self.aliases = imports(text, file.split("/")[1])
        body = USE.sub("", text)
        self.owner, self.uses, self.order = {}, {}, []
        group, mutual = None, False
        for line in body.split("\n"):
            if not line.strip():
                continue
            if re.match(r"(unfoldable |abbrev )?mutual\b|module ", line):
                mutual = line.startswith("module ") or "mutual"
                group = None
                continue
            indent = len(line) - len(line.lstrip())
            if indent == 0:
                mutual = False
            head = line.strip()
            level = 2 if mutual else 0
            if indent == level:
                m = re.match(r"(?:unfoldable |abbrev )?(?:pub )?(data|record)? *(\S+) *(?:[:({]|where)", head)
                sig = re.match(r"(?:(?:unfoldable|abbrev|pub) )*(\S+) :", head)
                if m and m.group(1):
                    group = self.new(m.group(2))
                elif sig:
                    group = self.new(sig.group(1))
            elif group and indent == level + 2:
                # a constructor or a field of a declared type
                sig = re.match(r"(?:pub )?((?:\S+ )+?):", head)
                if sig:
                    for name in sig.group(1).split():
                        self.owner.setdefault(name, group)
            if group:
                self.uses[group].append(head)

    def new(self, name):
        self.owner[name] = name
        self.uses.setdefault(name, [])
        self.order.append(name)
        # an operator `◌⨟◌` is used as ⨟
        bare = name.strip("◌")
        if bare != name:
            self.owner.setdefault(bare, name)
        return name

    def find(self, word):
        if isinstance(word, tuple):
            file = self.aliases.get(word[0])
            return (file, word[1]) if file else None
        if word in self.owner:
            return self.file, word
        if word in self.names:
            return self.names[word]
        for name, there in self.names.items():
            if name.startswith("◌") and name.strip("◌") == word:
                return there
        return None

modules = {}

def module(file):
    if file not in modules:
        modules[file] = Module(file)
    return modules[file]

def entries():
    """(crate, function, words of its ensures, imports of its file)"""
    for crate, only in ENTRIES.items():
        for file in sorted(glob.glob(f"crates/{crate}/src/*.rt")):
            text = open(file, encoding="utf8").read()
            names, aliases = imports(text, crate)
            plain = uncommented(text, "//")
            for m in re.finditer(r"^\s*pub (?:extern \"C\" )?fn (\w+)(.*?)^\s*\{", plain, flags=re.M | re.S):
                ensures = m.group(2).partition("ensures")[2]
                if (only is None or m.group(1) in only) and ensures:
                    yield crate, m.group(1), list(words(ensures)), names, aliases

def reached():
    seen, todo, found = set(), [], []
    for crate, function, used, names, aliases in entries():
        found.append(f"{crate}::{function}")
        for word in used:
            if isinstance(word, tuple):
                if word[0] in aliases:
                    todo.append((aliases[word[0]], word[1]))
            elif word in names:
                todo.append(names[word])
    while todo:
        file, name = todo.pop()
        if not os.path.exists(file):
            continue
        m = module(file)
        if name not in m.owner:
            if name in m.names:  # passed on
                todo.append(m.names[name])
            continue
        name = m.owner[name]
        if (file, name) in seen:
            continue
        seen.add((file, name))
        for line in m.uses[name]:
            for word in words(line):
                there = m.find(word)
                if there:
                    todo.append(there)
    return seen, found

def listed():
    """The files in the first table of the page: `crate/specs/Name`, further names of the same row by themselves."""
    files, table = [], False
    for line in open(PAGE, encoding="utf8"):
        if line.startswith("|"):
            table = True
            folder = None
            for name in re.findall(r"`([^`]+)`", line.split("|")[1]):
                if "/" in name:
                    folder = name.rsplit("/", 1)[0]
                elif folder:
                    name = f"{folder}/{name}"
                if "/specs/" in name:
                    files.append(f"crates/{name}.antt")
        elif table:
            break
    return files

def main():
    seen, found = reached()
    files = {file for file, _ in seen}
    page = listed()
    if "--list" in sys.argv[1:]:
        for file in sorted(files, key=lambda f: page.index(f) if f in page else len(page)):
            order = module(file).order
            print(file[len("crates/"):-len(".antt")] + ":", " ".join(n for n in order if (file, n) in seen))
            rest = [n for n in order if (file, n) not in seen]
            if rest:
                print("    not reached:", " ".join(rest))
    wrong = [f"{PAGE} lacks {f}, which a contract reaches" for f in sorted(files - set(page))]
    wrong += [f"{PAGE} lists {f}, which no contract of an entry reaches" for f in page if f not in files]
    print("\n".join(wrong + [f"reached: {len(found)} entries, {len(seen)} definitions in {len(files)} files, {len(wrong)} wrong"]))
    sys.exit(1 if wrong else 0)

if __name__ == "__main__":
    main()
