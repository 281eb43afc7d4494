#!/usr/bin/env python3
"""The names of record kinds, flags and refusals for C and Rust, from the code's own; the definitions' names are held to them.

usage: tools/numbers.py [--check]

Writes command/include/hirvelan_numbers.h and command/hirvelan/src/numbers.rs. With --check it writes nothing and compares them;
exit status 1 if one of them and the code part. The definitions' names (specs/Kind of ast and token, specs/Error) are held to the code's as well,
and each width and limit of the tables to its other places (SIZES).
"""
import os, re, sys

os.chdir(os.path.join(os.path.dirname(os.path.abspath(__file__)), ".."))
# module of the Rust, word of the C, what it is, the code, the definitions
LISTS = [
    ("kind", "KIND", "The kinds of record.", "crates/ast/src/kind.rt", "crates/ast/specs/Kind.antt"),
    ("flag", "FLAG", "The flags of a record; they add up.", "crates/ast/src/flag.rt", "crates/ast/specs/Kind.antt"),
    ("refusal", "REFUSED", "The refusals.", "crates/lexer/src/error.rt", "crates/lexer/specs/Error.antt"),
]
# the code and the definitions of what no user sees: the kinds of token
WITHIN = [("crates/token/src/lib.rt", "crates/token/specs/Kind.antt")]
# numbers that are written by hand in each language: the code's, and where else the same number stands
CODE, SPECS, C, CRATE = r"pub const {}: usize = (\d+);", r"(?m)^{} = (\d+)$", r"#define HIRVELAN_{} (\d+)u", r"pub const {}: usize = ([\d_]+);"
SIZES = [
    ("crates/ast/src/lib.rt", "NODE_WIDTH", "crates/ast/specs/Records.antt", "node_width"),
    ("crates/ast/src/lib.rt", "COMMENT_WIDTH", "crates/ast/specs/Records.antt", "comment_width"),
    ("crates/ast/src/column.rt", "PAST", "crates/ast/specs/Column.antt", "Past"),
    ("crates/move_tables/src/lib.rt", "MOST_RECORDS", "crates/move_tables/specs/Moves.antt", "most_records"),
]
HEADER = "command/include/hirvelan_numbers.h"
RUST = "command/hirvelan/src/numbers.rs"

def text(file):
    return open(file, encoding="utf8").read()

def screaming(name):
    """A variant's name as a constant's: UnexpectedEOF is UNEXPECTED_EOF."""
    return re.sub(r"(?<=[a-z0-9])(?=[A-Z])", "_", name).upper()

def constants(file):
    """[(name, number)] of a file: those of its enum's variants, where it has one, and else of its public constants, with comments only around them."""
    variants = re.search(r"^pub enum \w+ \{\n(.*?)^\}$", text(file), flags=re.M | re.S)
    if variants:
        found, number = [], 0
        for line in filter(None, map(str.strip, variants[1].split("\n"))):
            variant = re.fullmatch(r"(\w+)(?: = (\d+))?,", line)
            if variant:
                number = int(variant[2] or number)
                found.append((screaming(variant[1]), str(number)))
                number += 1
            elif not line.startswith("//"):
                sys.exit(f"{file}: no variant: {line}")
        return found
    found = re.findall(r"^pub const (\w+): u32 = (\d+);$", text(file), flags=re.M)
    others = [line for line in text(file).split("\n") if line and not line.startswith(("//", "pub const "))]
    if others or len(found) != text(file).count("pub const "):
        sys.exit(f"{file}: not a list of constants: {others}")
    return found

def header():
    yield "/* The names of Hirvelan's numbers (docs/FORMAT.md says what each means). Written by tools/numbers.py; do not edit. */"
    yield "#ifndef HIRVELAN_NUMBERS_H"
    yield "#define HIRVELAN_NUMBERS_H"
    for _, word, what, file, _ in LISTS:
        yield ""
        yield f"/* {what} */"
        for name, number in constants(file):
            yield f"#define HIRVELAN_{word}_{name} {number}u"
    yield ""
    yield "#endif"

def rust():
    yield "//! The names of the numbers (docs/FORMAT.md says what each means). Written by tools/numbers.py; do not edit."
    for module, _, what, file, _ in LISTS:
        yield ""
        yield f"/// {what}"
        yield f"pub mod {module} {{"
        for name, number in constants(file):
            yield f"    pub const {name}: u32 = {number};"
        yield "}"

def plain(name):
    """A name without case and joints: MISSING_ENUM_IDENTIFIER and MissingEnumIdentifier are one."""
    return name.replace("_", "").lower()

def defined():
    """Where the definitions and the code part."""
    held = [(list_[3], list_[4]) for list_ in LISTS] + WITHIN
    for there in sorted({specs for _, specs in held}):
        code = [(plain(name), number) for here, specs in held if specs == there for name, number in constants(here)]
        specs = [(plain(name), number) for name, number in re.findall(r"^(\w+) = (\d+)$", text(there), flags=re.M)]
        if code != specs:
            yield f"{there} and the code part: {sorted(set(code) ^ set(specs))}"

def sizes():
    """Where a width or a limit is not the code's."""
    for here, name, there, defined in SIZES:
        for file, form in ((there, SPECS.format(defined)), ("command/include/hirvelan.h", C.format(name)), ("command/hirvelan/src/lib.rs", CRATE.format(name))):
            said, code = re.findall(form, text(file)), re.findall(CODE.format(name), text(here))
            if len(code) != 1 or [number.replace("_", "") for number in said] != code:
                yield f"{file}: {name} is {said}, the code's {code}"

def main():
    if sys.argv[1:] not in ([], ["--check"]):
        sys.exit(__doc__)
    wrong = list(defined()) + list(sizes())
    for file, lines in ((HEADER, header()), (RUST, rust())):
        wanted = "\n".join(lines) + "\n"
        if not sys.argv[1:]:
            with open(file, "w", encoding="utf8") as out:
                out.write(wanted)
        elif not os.path.exists(file) or text(file) != wanted:
            wrong.append(f"{file} and the code part: run tools/numbers.py")
    count = sum(len(constants(file)) for file in [list_[3] for list_ in LISTS] + [here for here, _ in WITHIN])
    count += len(SIZES)
    print("\n".join(wrong + [f"numbers: {count} names, {len(wrong)} wrong"]))
    sys.exit(1 if wrong else 0)

if __name__ == "__main__":
    main()
