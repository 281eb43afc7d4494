"""The token cut by the longest match, written from document 01 and the patterns of rico's token.rs.

It sets apart the texts that logos 0.14.0 cuts otherwise, and reading.py reads its tokens. Where several rules match
equally far the first counts, and the rules of fixed text stand before the patterns. Lines are those of document 01 with
Change 1: `\\r` directly before `\\n` ends none. Rico's own differ where a text has that pair between tokens.
"""

import re

WORDS = {
    b"namespace": 1, b"cpp_include": 2, b"include": 3, b"typedef": 4, b"const": 5, b"enum": 6, b"struct": 7,
    b"union": 8, b"exception": 9, b"service": 10, b"extends": 11, b"throws": 12, b"required": 13, b"optional": 14,
    b"void": 15, b"bool": 16, b"byte": 17, b"i8": 18, b"i16": 19, b"i32": 20, b"i64": 21, b"double": 22,
    b"string": 23, b"binary": 24, b"map": 25, b"list": 26, b"set": 27, b"true": 33, b"false": 33, b"oneway": 50,
}
MARKS = {
    b"{": 34, b"}": 35, b"[": 36, b"]": 37, b"<": 38, b">": 39, b"(": 40, b")": 41, b";": 42, b":": 43, b",": 44,
    b"=": 45, b".": 46, b"*": 47,
}
PAIR = b"\r\n"
IDENTIFIER, STRING, DOUBLE, HEX, INTEGER, LINE_COMMENT, BLOCK_COMMENT = 28, 29, 30, 31, 32, 48, 49

# No pattern has two ends of which Python would take the shorter.
PATTERNS = [
    (IDENTIFIER, rb"[a-zA-Z_][a-zA-Z0-9_]*(\.[a-zA-Z_][a-zA-Z0-9_]*)*"),
    (STRING, rb'(?:"([^"\\]|\\.)*"|\'([^\'\\]|\\.)*\')'),
    (DOUBLE, rb"[+-]?(?:(?:[0-9]+\.[0-9]*|\.[0-9]+)(?:[eE][-+]?[0-9]+)?|[0-9]+[eE][-+]?[0-9]+)"),
    (HEX, rb"0[xX][0-9a-fA-F]+"),
    (INTEGER, rb"[+-]?[0-9]+"),
    (LINE_COMMENT, rb"(//|#).*"),
    (BLOCK_COMMENT, rb"/\*[^*]*\*+(?:[^*/][^*]*\*+)*/"),
]
PATTERNS = [(kind, re.compile(pattern)) for kind, pattern in PATTERNS]


def token(text, at):
    """Kind and end of the token that starts at an offset, or None."""
    kind, end = None, at
    mark = MARKS.get(text[at:at + 1])
    if mark is not None:
        kind, end = mark, at + 1
    for word, number in WORDS.items():
        if text.startswith(word, at) and at + len(word) > end:
            kind, end = number, at + len(word)
    for number, pattern in PATTERNS:
        match = pattern.match(text, at)
        if match and match.end() > end:
            kind, end = number, match.end()
    return None if kind is None else (kind, end)


def cut(text):
    """Tokens as (kind, index, line, column of start, index, line, column of end); the offset that starts none."""
    tokens, at, line, line_start = [], 0, 1, 0
    while at < len(text):
        byte = text[at]
        if byte in b" \t":
            at += 1
        elif text.startswith(PAIR, at):
            at += 1
        elif byte in b"\r\n\f":
            at += 1
            line, line_start = line + 1, at
        else:
            found = token(text, at)
            if found is None:
                return tokens, at
            kind, end = found
            start = (at, line, at - line_start + 1)
            if kind == BLOCK_COMMENT and b"\n" in text[at:end]:
                line += text.count(b"\n", at, end)
                line_start = text.rindex(b"\n", at, end) + 1
            tokens.append((kind, *start, end, line, end - line_start + 1))
            at = end
    return tokens, None
