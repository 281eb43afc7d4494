#!/usr/bin/env python3
"""Writes one text on which a reader could be slow: worst.py NAME LENGTH, to standard output. Without arguments: the names."""
import sys

FIELDS = ["required string namespace,", "optional binary required,", "required double include,", "optional bool oneway,"]
LONG = "waypoints_of_the_northern_ridge_by_their_distance "
NEAR = "namespac includes exceptio structs optiona requiredly cpp_includ services "


def filled(head, piece, n):
    """Whole pieces between head and `}`, n bytes at most."""
    return head + piece * ((n - len(head) - 1) // len(piece)) + "}"


TEXTS = {
    "comments": lambda n: "#\n" * (n // 2),
    "separators": lambda n: ";" * n,
    "value": lambda n: "const i8 X=[" + "1," * ((n - 13) // 2) + "]",
    "brackets": lambda n: "const i8 X=" + "[" * (n - 11),
    "string": lambda n: "const string X='" + "a" * (n - 17) + "'",
    "unterminated": lambda n: "/*" + "a" * (n - 2),
    "waiting": lambda n: "#\n" * (n // 2 - 4) + "enum A{}",
    # words: keywords alone; long identifiers; identifiers that begin as a keyword does
    "keywords": lambda n: filled("struct A{", "".join("1:" + field for field in FIELDS), n),
    "names": lambda n: filled("enum A{", LONG, n),
    "prefixes": lambda n: filled("enum A{", NEAR, n),
    # fields, with numbers and without
    "fields": lambda n: filled("struct A{", "1: required i32 height, ", n),
    "unnumbered": lambda n: filled("struct A{", "required i32 height, ", n),
    "members": lambda n: "enum A{" + "a " * ((n - 8) // 2) + "}",
}
if len(sys.argv) < 3:
    print(*TEXTS)
else:
    sys.stdout.write(TEXTS[sys.argv[1]](int(sys.argv[2])))
