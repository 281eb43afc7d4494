"""Texts for the oracle. Every function takes a seeded random.Random, so that one seed gives one list."""

import itertools

KEYWORDS = [
    b"namespace", b"cpp_include", b"include", b"typedef", b"const", b"enum", b"struct", b"union", b"exception",
    b"service", b"extends", b"throws", b"required", b"optional", b"void", b"bool", b"byte", b"i8", b"i16", b"i32",
    b"i64", b"double", b"string", b"binary", b"map", b"list", b"set", b"true", b"false", b"oneway",
]
FIELD_NAMES = [
    b"namespace", b"include", b"list", b"map", b"set", b"oneway", b"required", b"optional", b"throws", b"bool",
    b"byte", b"i8", b"i16", b"i32", b"i64", b"string", b"binary", b"extends", b"struct", b"double", b"service",
    b"enum",
]
BASE_TYPES = [b"bool", b"byte", b"i8", b"i16", b"i32", b"i64", b"double", b"string", b"binary"]
MARKS = [b"{", b"}", b"[", b"]", b"<", b">", b"(", b")", b";", b":", b",", b"=", b".", b"*"]
NEWLINES = [b"\n", b"\r\n", b"\f", b"\r", b"\n\n", b"\n\r"]

ILL_FORMED = [  # RFC 3629
    b"\x80", b"\xbf", b"\xc0", b"\xc0\x80", b"\xc1\xbf", b"\xc2", b"\xc3\x28", b"\xdf", b"\xe0", b"\xe0\x80\x80",
    b"\xe0\x9f\xbf", b"\xe0\xa0", b"\xe1\x80", b"\xe2\x28\xa1", b"\xe2\x82", b"\xe2\x82\x28", b"\xed\xa0\x80",
    b"\xed\xbf\xbf", b"\xed\xa0\x80\xed\xb0\x80", b"\xef\xbf", b"\xf0", b"\xf0\x80\x80\x80", b"\xf0\x8f\xbf\xbf",
    b"\xf0\x90", b"\xf0\x90\x80", b"\xf0\x9f\x98", b"\xf0\x9f\x98\x28", b"\xf4\x90\x80\x80", b"\xf5\x80\x80\x80",
    b"\xf8\x88\x80\x80\x80", b"\xfc\x84\x80\x80\x80\x80", b"\xfe", b"\xff", b"\xc2\xc2\xa0", b"\xe2\x82\xe2\x82\xac",
]
WELL_FORMED = [chr(c).encode() for c in (
    0x80, 0x7FF, 0x800, 0xFFF, 0x1000, 0xCFFF, 0xD000, 0xD7FF, 0xE000, 0xFEFF, 0xFFFD, 0xFFFF, 0x10000, 0x3FFFF,
    0x40000, 0xFFFFF, 0x100000, 0x10FFFF, 0xE9, 0x20AC, 0x1F600, 0x4E2D)]


def tokens_of(alphabet, longest, first=None):
    """All texts over an alphabet up to a length, perhaps with a first part of their own."""
    for length in range(longest + 1):
        for parts in itertools.product(alphabet, repeat=length):
            for start in first or [b""]:
                yield start + b"".join(parts)


# ---- leaves

def word(rng):
    return rng.choice([
        b"a", b"b", b"A", b"x1", b"_", b"__a", b"foo", b"Bar", b"Foo_Bar2", b"i8x", b"structs", b"mapp", b"tru",
        b"Void", b"I32", b"lists", b"e1", b"E", b"trueish", b"a.b", b"shared.Base", b"x._y.Z9", b"list.x", b"true.x",
        b"longer_identifier_of_some_length",
    ])


def letters(rng):
    return rng.choice([b"", b"a", b"text", b"a b", b"\xc3\xa9", b"\xe2\x82\xac x", b"\xf0\x9f\x98\x80", b"*", b"//",
                       b"#", b"{", b"1;2", b"\t", b"\\", b"'", b'"', b"\r", b"\f"])


def string(rng):
    quote = rng.choice([b'"', b"'"])
    parts = []
    for _ in range(rng.choice([0, 1, 1, 2, 3])):
        part = rng.choice([b"a", b"thrift", b"a/b.thrift", b" ", b"\xc3\xa9", b"\xe4\xb8\xad", b"\xf0\x9f\x98\x80",
                           b"\\\\", b"\\n", b"\\" + quote, b"\\\xc3\xa9", b"\\\r", b"\n", b"\r\n", b"\f", b"//", b"/*",
                           b"#", b"{}", b"'" if quote == b'"' else b'"', b"*/"])
        parts.append(part)
    return quote + b"".join(parts) + quote


def integer(rng):
    return rng.choice([b"0", b"1", b"2", b"7", b"42", b"007", b"+1", b"+0", b"-1", b"-0", b"65536", b"2147483647",
                       b"-2147483648", b"18446744073709551615", b"18446744073709551616", b"99999999999999999999999"])


def hexadecimal(rng):
    return rng.choice([b"0x0", b"0X1f", b"0xFF", b"0xdeadBEEF", b"0x0123456789abcdefABCDEF"])


def double(rng):
    return rng.choice([b"1.", b"1.5", b".5", b"0.0", b"+.5", b"-1.25", b"1e3", b"1E-3", b"1.e+3", b".5e10", b"-2.5E+07",
                       b"1.5e3", b"+1e0"])


def field_id(rng):
    if rng.random() < 0.08:
        return rng.choice([b"-1", b"-0", b"18446744073709551616", b"99999999999999999999"])
    return rng.choice([b"1", b"2", b"3", b"10", b"0", b"+1", b"01", b"007", b"32767", b"18446744073709551615"])


def comment(rng, line_end=None):
    """A comment; one to the end of the line brings its newline along."""
    if rng.random() < 0.55:
        start = rng.choice([b"//", b"#", b"///", b"//!", b"##", b"#/*"])
        body = b"".join(letters(rng) for _ in range(rng.choice([0, 1, 1, 2])))
        return start + body + (line_end or rng.choice([b"\n", b"\n", b"\r\n", b"\n\f"]))
    body = b"".join(rng.choice([letters(rng), b"\n", b"\r\n", b" * ", b"**", b"/", b"\r", b"\f"])
                    for _ in range(rng.choice([0, 1, 2, 3])))
    return b"/*" + body.replace(b"*/", b"* /").rstrip(b"/") + rng.choice([b"*/", b"**/", b" */"])


def any_token(rng):
    return rng.choice([
        lambda: rng.choice(KEYWORDS), lambda: rng.choice(MARKS), lambda: rng.choice(MARKS), lambda: word(rng),
        lambda: string(rng), lambda: integer(rng), lambda: double(rng), lambda: hexadecimal(rng),
        lambda: comment(rng),
    ])()


# ---- documents: lists of tokens and gaps, joined at last

class Gap:
    """Where a comment, or a separator, may stand besides blanks."""

    def __init__(self, separators=False, comments=False, mixed=False, one=False):
        self.separators, self.comments, self.mixed, self.one = separators, comments, mixed, one


class Grammar:
    """Grammar-directed documents. `wrong` is the chance that a choice goes against the grammar.

    `plain`: fields as Change 4 has them, most of them without id. Else a field without id begins with any token, which rico
    passes over.
    """

    def __init__(self, rng, wrong=0.0, chatty=0.4, blanks=0.5, size=3, plain=False):
        self.rng, self.wrong, self.chatty, self.blanks, self.size = rng, wrong, chatty, blanks, size
        self.plain = plain

    def slip(self):
        return self.wrong > 0 and self.rng.random() < self.wrong

    def few(self):
        return self.rng.choice([0, 1, 1, 2, self.size])

    def maybe(self, chance=0.5):
        return self.rng.random() < chance

    def name(self):
        return self.rng.choice(KEYWORDS) if self.slip() else word(self.rng)

    def type(self, depth=0):
        if self.slip():
            return [any_token(self.rng)]
        choice = self.rng.random()
        if choice < 0.45 or depth > 4:
            return [self.rng.choice(BASE_TYPES)]
        if choice < 0.65:
            return [word(self.rng)]
        if choice < 0.76:
            return [b"list", b"<", *self.type(depth + 1), b">"]
        if choice < 0.87:
            return [b"set", b"<", *self.type(depth + 1), b">"]
        return [b"map", b"<", *self.type(depth + 1), b",", *self.type(depth + 1), b">"]

    def value(self, depth=0):
        rng = self.rng
        if self.slip():
            return [any_token(rng)]
        choice = rng.random()
        if choice < 0.62 or depth > 3:
            return [rng.choice([string, integer, double, hexadecimal, word,
                                lambda r: r.choice([b"true", b"false"])])(rng)]
        gap = Gap(separators=True, comments=True)
        if choice < 0.82:
            out = [b"[", gap]
            for _ in range(self.few()):
                out += self.value(depth + 1)
                out += [rng.choice([b",", b",", b";"]) if self.maybe(0.8) else None, gap]
            return out + [b"]"]
        out = [b"{", gap]
        for _ in range(self.few()):
            out += self.value(depth + 1) + [b":"] + self.value(depth + 1)
            out += [rng.choice([b",", b",", b";"]) if self.maybe(0.8) else None, gap]
        return out + [b"}"]

    def annotations(self, chance=0.25):
        if not self.maybe(chance):
            return []
        gap = Gap(comments=True)
        out = [b"(", gap]
        for _ in range(self.few()):
            out += [self.name(), b"=", string(self.rng)]
            out += [self.rng.choice([b",", b";"]) if self.maybe(0.8) else None, gap]
        return out + [b")"]

    def plain_start(self):
        """The id and the requiredness of a field, each perhaps; as slips a token too many, or a comment."""
        rng, out = self.rng, []
        if self.maybe(0.3):
            out += [field_id(rng) if self.slip() else rng.choice([b"1", b"2", b"10", b"+1", b"01"]), b":"]
        if self.slip():
            out += [rng.choice([b"required", b"x", b"(", b",", b"1", b":", b"void", b"'s'", b"1.5", b"}", comment(rng)])]
        if self.maybe(0.5):
            out += [rng.choice([b"required", b"optional"])]
        if self.slip():
            out += [rng.choice([b"required", b"optional", b",", b"1", b"=", comment(rng)])]
        return out

    def field(self, closing):
        rng = self.rng
        out = []
        if self.plain:
            out += self.plain_start()
        elif self.maybe(0.8):
            out += [field_id(rng), b":"]
        else:
            passed = rng.choice([b"required", b"optional", b"x", b"(", b"<", b"struct", b"=", b"1.5", b"*", b"'s'", b"]"])
            if passed != closing and not self.slip():
                out += [passed]
        if not self.plain and self.maybe(0.4):
            out += [rng.choice([b"required", b"optional"])]
        out += self.type()
        if self.slip():
            out += [any_token(rng)]
        else:
            out += [rng.choice(FIELD_NAMES) if self.maybe(0.15) else word(rng)]
        if self.maybe(0.3):
            out += [b"=", *self.value()]
        return out + self.annotations()

    def members(self, opening, closing, member):
        gap = Gap(separators=True, comments=True)
        out = [opening, gap]
        for _ in range(self.few()):
            out += member()
            out += [self.rng.choice([b",", b";"]) if self.maybe(0.6) else None, gap]
        return out + [closing]

    def enum_member(self):
        out = [self.name()]
        if self.maybe():
            out += [b"=", any_token(self.rng) if self.slip() else self.rng.choice([integer, hexadecimal])(self.rng)]
        return out + self.annotations()

    def function(self):
        out = [b"oneway"] if self.maybe(0.3) else []
        out += [b"void"] if self.maybe() else self.type()
        out += [self.name()]
        out += self.members(b"(", b")", lambda: self.field(b")"))
        if self.maybe(0.3):
            out += [b"throws", *self.members(b"(", b")", lambda: self.field(b")"))]
        out += [Gap(mixed=True)]
        return out + self.annotations()

    def definition(self):
        rng = self.rng
        kind = rng.choice([b"include", b"cpp_include", b"namespace", b"const", b"const", b"typedef", b"enum", b"enum",
                           b"struct", b"struct", b"union", b"exception", b"service", b"service"])
        out = [any_token(rng) if self.slip() else kind]
        if kind in (b"include", b"cpp_include"):
            out += [any_token(rng) if self.slip() else string(rng)]
        elif kind == b"namespace":
            out += [b"*" if self.maybe(0.2) else self.name(), self.name()]
        elif kind == b"const":
            out += [*self.type(), self.name(), b"=", *self.value(), Gap(mixed=True)]
        elif kind == b"typedef":
            out += [*self.type(), self.name()]
        elif kind == b"enum":
            out += [self.name(), *self.members(b"{", b"}", self.enum_member), *self.annotations()]
        elif kind == b"service":
            out += [self.name()] + ([b"extends", self.name()] if self.maybe(0.3) else [])
            out += [*self.members(b"{", b"}", self.function), *self.annotations()]
        else:
            out += [self.name(), *self.members(b"{", b"}", lambda: self.field(b"}")), *self.annotations()]
        return out

    def document(self, definitions):
        out = [Gap(separators=True, comments=True)]
        for _ in range(definitions):
            out += [*self.definition(), Gap(separators=True, comments=True)]
        return self.join(out)

    # ---- joining

    def blank(self):
        rng = self.rng
        return rng.choice([b" ", b" ", b"\t", b"  ", b"\n", b"\n", b"\n  ", b"\r\n", b"\f", b"\r", b" \t\n"])

    def filling(self, gap):
        rng, out = self.rng, b""
        if gap.mixed:
            for _ in range(rng.choice([0, 0, 1, 2, 3])):
                out += comment(rng) if rng.random() < self.chatty else rng.choice([b",", b";", b" ", b"\n"])
            return out
        if gap.separators:
            for _ in range(rng.choice([0, 0, 0, 1, 2])):
                out += rng.choice([b",", b";", b", "])
        if gap.comments:
            while rng.random() < self.chatty:
                out += comment(rng) + rng.choice([b"", b" ", b"\n"])
        if self.slip():
            out += rng.choice([b",", comment(rng)])
        return out

    def join(self, parts):
        out = b""
        for part in parts:
            if part is None:
                continue
            piece = self.filling(part) if isinstance(part, Gap) else part
            if not piece:
                continue
            if self.slip() and self.maybe(0.3):
                out += comment(self.rng)
            if self.rng.random() < self.blanks or clings(out[-1:], piece[:1]):
                out += self.blank()
            out += piece
        return out + (self.blank() if self.maybe(0.3) else b"")


def clings(last, first):
    """Two bytes that could grow together into another token."""
    wordy = lambda b: b.isalnum() or b in (b"_", b".", b"+", b"-") and b != b""
    return bool(last and first) and (wordy(last) and wordy(first) or last == b"/" and first in (b"/", b"*"))


def deep_types(depth, kinds, rng):
    """A type of so many containers, and perhaps a map whose key or value is the deeper part."""
    out = b"i8"
    for _ in range(depth):
        kind = rng.choice(kinds)
        if kind == b"map":
            out = rng.choice([b"map<%s,i8>", b"map<i8,%s>", b"map< i8 , %s >"]) % out
        else:
            out = kind + b"<" + out + b">"
    return out


def deep_values(depth, kinds, rng):
    out = rng.choice([b"1", b"", b"a"])
    for level in range(depth):
        kind = rng.choice(kinds)
        if kind == b"[":
            out = rng.choice([b"[%s]", b"[1,%s]", b"[%s,2;]", b"[ %s ]"]) % out
        elif not out:
            out = b"{}"
        else:
            out = rng.choice([b"{%s:1}", b"{1:%s}", b"{a:1,b:%s}"]) % out
    return out


def deep(rng, plain=False):
    """Nesting around the limit of 32, in every place that holds a type or a value, whole or cut short. `plain`: in fields without id."""
    depth = rng.choice([30, 31, 32, 32, 33, 33, 34, 40])
    if rng.random() < 0.5:
        kinds = rng.choice([[b"list"], [b"set"], [b"map"], [b"list", b"set", b"map"]])
        part = deep_types(depth, kinds, rng)
        frames = [b"typedef %s T", b"const %s X=1", b"struct A{1:%s a}", b"struct A{x %s a=[[1]]}",
                  b"service S{%s f()}", b"service S{void f(1:%s a)}", b"service S{void f()throws(1:%s a)}",
                  b"union U{1:i8 list 2:%s a}"]
        if plain:
            frames = [b"struct A{%s a}", b"struct A{required %s a=[[1]]}", b"union U{i8 list %s a}", b"exception X{x y;%s a}",
                      b"service S{void f(%s a)}", b"service S{void f(i8 a,optional %s b)}", b"service S{void f()throws(%s a)}"]
    else:
        kinds = rng.choice([[b"["], [b"{"], [b"[", b"{"]])
        part = deep_values(depth, kinds, rng)
        frames = [b"const i8 X=%s", b"struct A{1:i8 a=%s}", b"exception A{1:i8 a=%s(a='b')}",
                  b"service S{void f(1:i8 a=%s)}", b"service S{void f()throws(1:i8 a=%s)}"]
        if plain:
            frames = [b"struct A{i8 a=%s}", b"union A{optional x y=%s(a='b')}", b"service S{void f(i8 a=%s)}",
                      b"service S{void f()throws(required i8 a=%s)}"]
    text = rng.choice([b"", b"#c\n", b"enum E{A}"]) + rng.choice(frames) % part
    if rng.random() < 0.5:
        text = damaged(rng, text)
    return text


# ---- soups and damage

def token_soup(rng, length):
    out = b""
    for _ in range(length):
        piece = any_token(rng)
        if rng.random() < 0.5 or clings(out[-1:], piece[:1]):
            out += rng.choice([b" ", b"\n", b"\t"])
        out += piece
    return out


def byte_soup(rng, length):
    table = rng.choice([
        bytes(range(256)), bytes(range(128)), b" \t\r\n\f,;:<>(){}[]=.*'\"\\/#+-eE0x1aA_",
        b"/*#\n'\"\\a.", b"0123456789.eExX+-aF", b"abcdeilmnoprstuvxy_ ."])
    return bytes(rng.choice(table) for _ in range(length))


def damaged(rng, text):
    """A copy with bytes deleted, inserted, replaced, doubled, swapped or cut."""
    out = bytearray(text)
    for _ in range(rng.choice([1, 1, 1, 2, 3])):
        at = rng.randrange(len(out) + 1)
        kind = rng.randrange(6)
        if kind == 0:
            del out[at:at + rng.choice([1, 1, 2, 5])]
        elif kind == 1:
            out[at:at] = rng.choice([any_token(rng), bytes([rng.randrange(256)]), b" ", b"\n", b"\x00", b"."])
        elif kind == 2 and at < len(out):
            out[at] = rng.choice([rng.randrange(256), rng.randrange(32, 127), 32, 10])
        elif kind == 3:
            del out[at:]
        elif kind == 4:
            other = rng.randrange(len(out) + 1)
            out[at:at] = out[other:other + rng.choice([1, 3, 8])]
        elif kind == 5:
            del out[:rng.choice([0, at])]
    return bytes(out)


def document(rng, wrong=None, definitions=None, size=None, plain=False):
    wrong = rng.choice([0, 0, 0, 0.01, 0.03, 0.08]) if wrong is None else wrong
    grammar = Grammar(rng, wrong, rng.choice([0.0, 0.1, 0.4, 0.6]), rng.choice([0.0, 0.3, 0.8]),
                      rng.choice([2, 3, 4]) if size is None else size, plain)
    return grammar.document(rng.choice([1, 1, 1, 2, 3]) if definitions is None else definitions)


def mixed(rng):
    """One text of any sort."""
    choice = rng.random()
    if choice < 0.45:
        return document(rng)
    if choice < 0.75:
        return damaged(rng, document(rng))
    if choice < 0.85:
        return token_soup(rng, rng.randrange(1, 12))
    if choice < 0.9:
        return byte_soup(rng, rng.randrange(1, 24))
    if choice < 0.95:
        return deep(rng)
    return damaged(rng, damaged(rng, document(rng, wrong=0.0)))


def field_soup(rng):
    """A body, parameters or thrown fields of a few tokens, such as may start fields."""
    head, tail = rng.choice([(b"struct A{", b"}"), (b"union U{", b"}"), (b"service S{void f(", b")}"),
                             (b"service S{i8 f()throws(", b")}")])
    table = [b"required ", b"optional ", b"i8 ", b"a ", b"x ", b"list<i8>", b"A.b ", b"1:", b"1 ", b":", b"=1 ", b"='s'",
             b"(a='b')", b",", b";", b"#c\n", b"/*c*/", b"void ", b"map ", b"(", b"struct ", b"1.5 ", b"]"]
    middle = b"".join(rng.choice(table[:rng.choice([7, 15, 23])]) for _ in range(rng.randrange(1, 10)))
    return rng.choice([b"", b"enum E{A}", b"#c\n"]) + head + middle + rng.choice([tail, tail, tail, b""])


def fields(rng):
    """One text around Change 4: fields with and without id, some with slips."""
    choice = rng.random()
    if choice < 0.4:
        return document(rng, 0.0, plain=True)
    if choice < 0.6:
        return document(rng, rng.choice([0.02, 0.05, 0.1]), plain=True)
    if choice < 0.75:
        return damaged(rng, document(rng, 0.0, plain=True))
    if choice < 0.93:
        return field_soup(rng)
    return deep(rng, plain=True)


# ---- short texts, all of them

def short_texts():
    """All texts of a few tokens, from the start and inside each construct."""
    top = [b"struct ", b"enum ", b"const ", b"include ", b"i8 ", b"A ", b"'s'", b"{", b"}", b"(", b")", b"=", b"1 ",
           b",", b";", b"#c\n", b"/*c*/"]
    yield from tokens_of(top, 4)
    inner = [b"i8 ", b"a ", b"1 ", b":", b"=", b",", b"#c\n", b"(", b")", b"{", b"}", b"[", b"]", b"<", b">", b"'s'",
             b"list ", b"required ", b"void ", b"throws ", b"oneway ", b"extends "]
    frames = [(b"struct A{", b"}"), (b"struct A{1:", b"}"), (b"struct A{1:i8 a", b"}"), (b"struct A{1:i8 a=", b"}"),
              (b"struct A{}(", b")"), (b"enum E{", b"}"), (b"enum E{A", b"}"), (b"enum E{A=", b"}"),
              (b"service S ", b"{}"), (b"service S{", b" f()}"), (b"service S{void f", b"}"),
              (b"service S{void f(", b")}"), (b"service S{void f()", b"}"), (b"service S{void f()throws", b"}"),
              (b"const i8 X=", b""), (b"const i8 X=[", b"]"), (b"const i8 X={", b"}"), (b"typedef ", b" T"),
              (b"const ", b" X=1"), (b"namespace ", b" a"), (b"const map<", b">X=1")]
    for head, tail in frames:
        for middle in tokens_of(inner, 3, [head]):
            yield middle
            yield middle + tail


def short_fields():
    """The same where fields without id stand."""
    inner = [b"i8 ", b"a ", b"1 ", b":", b"=", b",", b";", b"#c\n", b"/*c*/", b"(", b")", b"{", b"}", b"[", b"]", b"<", b">", b"'s'",
             b"list ", b"required ", b"optional ", b"void ", b"1.5 "]
    frames = [(b"struct A{required ", b"}"), (b"struct A{i8 ", b"}"), (b"struct A{i8 a", b"}"), (b"struct A{list<i8>a=", b"}"),
              (b"struct A{#c\n", b" a}"), (b"union U{1:optional ", b"}"), (b"service S{void f(required ", b")}"),
              (b"service S{void f(i8 a", b")}"), (b"service S{void f()throws(", b")}"),
              (b"service S{void f()throws(optional ", b")}")]
    for head, tail in frames:
        for middle in tokens_of(inner, 3, [head]):
            yield middle
            yield middle + tail


# ---- an ordinary file, for measurements

def ordinary(rng, size):
    """A text of exactly `size` bytes, laid out as people write definitions."""
    names = ["user", "account", "order", "message", "created_at", "status", "payload", "limit", "offset", "region",
             "version", "enabled", "retry_count", "description", "owner_id", "tags"]
    kinds = ["i32", "i64", "string", "bool", "double", "binary", "list<string>", "map<string, i64>", "shared.Id",
             "set<i32>", "Status", "list<map<i32, Account>>"]
    camel = lambda: "".join(rng.choice(names).title().replace("_", "") for _ in range(2)) + str(rng.randrange(100))
    out = "namespace java org.example.data\nnamespace py example.data\n\ninclude \"shared.thrift\"\n\n"
    while len(out) < size:
        kind = rng.random()
        block = ""
        if rng.random() < 0.5:
            block += "/**\n * " + " ".join(rng.choice(names) for _ in range(8)) + ".\n */\n"
        if kind < 0.15:
            block += f"enum {camel()} {{\n"
            for number in range(rng.randrange(2, 8)):
                block += f"  {rng.choice(names).upper()}_{number} = {number},\n"
            block += "}\n\n"
        elif kind < 0.65:
            block += f"{rng.choice(['struct', 'struct', 'exception', 'union'])} {camel()} {{\n"
            for number in range(1, rng.randrange(3, 12)):
                required = rng.choice(["", "", "required ", "optional "])
                value = rng.choice(["", "", "", " = 10", ' = "none"', " = [1, 2, 3]"])
                end = rng.choice([",", ";", ""]) + rng.choice(["", "", "  // " + " ".join(rng.choices(names, k=4))])
                block += f"  {number}: {required}{rng.choice(kinds)} {rng.choice(names)}_{number}{value}{end}\n"
            block += "}\n\n"
        elif kind < 0.8:
            block += f"service {camel()} extends shared.Base {{\n"
            for number in range(rng.randrange(1, 6)):
                arguments = ", ".join(f"{i}: {rng.choice(kinds)} {rng.choice(names)}" for i in range(1, rng.randrange(1, 5)))
                block += f"  {rng.choice(['void', *kinds])} {rng.choice(names)}{number}({arguments})"
                block += rng.choice(["", " throws (1: NotFound nf)"]) + ",\n"
            block += "}\n\n"
        elif kind < 0.9:
            block += f"typedef {rng.choice(kinds)} {camel()}\n\n"
        else:
            block += f"const i32 {camel()} = {rng.randrange(100000)}\n\n"
        if len(out) + len(block) + 3 > size:
            out += "//" + "-" * (size - len(out) - 3) + "\n"
        else:
            out += block
    return out.encode()
