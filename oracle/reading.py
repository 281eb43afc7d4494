"""A reading of document 01 with Changes 1, 4 and 7, written along its prose, to find where it and the Rust part.

answer(text) gives what `oracle_fields nodes` prints, but for the lines of a text with CR LF; where rico panics it gives the
end rule's refusal. outside(text) tells whether a field is begun with another token than an integer: if not, the answer is
what `oracle nodes` prints too. same(text, rico, other) compares two answers as Change 1 says.
"""

import longest
from longest import BLOCK_COMMENT, DOUBLE, HEX, IDENTIFIER, INTEGER, LINE_COMMENT, MARKS, STRING, WORDS

SEPARATORS = {MARKS[b","], MARKS[b";"]}
COMMENTS = {LINE_COMMENT, BLOCK_COMMENT}
BASE_TYPES = {WORDS[w] for w in (b"bool", b"byte", b"i8", b"i16", b"i32", b"i64", b"double", b"string", b"binary")}
FIELD_NAMES = {IDENTIFIER} | BASE_TYPES | {WORDS[w] for w in (
    b"namespace", b"include", b"list", b"map", b"set", b"oneway", b"required", b"optional", b"throws", b"extends",
    b"struct", b"service", b"enum")}
CONTAINERS = {WORDS[b"list"]: 20, WORDS[b"set"]: 21, WORDS[b"map"]: 22}
LEAVES = {STRING: 23, INTEGER: 24, DOUBLE: 25, WORDS[b"true"]: 26, HEX: 27, IDENTIFIER: 28}
BODIES = {WORDS[b"struct"]: 7, WORDS[b"union"]: 8, WORDS[b"exception"]: 9}
NO_PARENT = 4294967295


class Refused(Exception):
    pass


class Reader:
    def __init__(self, text):
        self.text, self.tokens = text, longest.cut(text)[0]
        self.at, self.waiting, self.nodes, self.comments = 0, [], [], []
        self.outside = None

    # ---- the token in hand

    def kind(self):
        return self.tokens[self.at][0] if self.at < len(self.tokens) else None

    def is_(self, *written):
        return self.kind() in {WORDS.get(w, MARKS.get(w)) for w in written}

    def refuse(self, number):
        if self.kind() is None:
            last = self.tokens[-1]
            raise Refused(3 if last[4] == len(self.text) else 1, last[1], last[4] - last[1])
        token = self.tokens[self.at]
        raise Refused(number, token[1], token[4] - token[1])

    def step(self):
        self.at += 1

    def expect(self, kinds, number=2):
        if self.kind() not in kinds:
            self.refuse(number)
        self.step()

    def mark(self, written, number=2):
        self.expect({WORDS.get(written, MARKS.get(written))}, number)

    def take(self, separators=False, comments=False, mixed=False, discard=False):
        """Separators, then comments; or both in any mix."""
        while self.kind() in SEPARATORS | COMMENTS:
            if self.kind() in SEPARATORS:
                if not separators:
                    return
            elif not comments:
                return
            else:
                separators = separators and mixed
                if not discard:
                    self.waiting.append(self.tokens[self.at])
            self.step()

    # ---- records

    def open(self, kind, parent, flags=0, at=None):
        """A record that starts at a token (the one in hand if none is named); close sets its end and the number of the record past all below it."""
        self.nodes.append([kind, parent, flags, *self.tokens[self.at if at is None else at][1:4], 0, 0, 0, 0])
        return len(self.nodes) - 1

    def close(self, record):
        self.nodes[record][6:] = [*self.tokens[self.at - 1][4:], len(self.nodes)]

    def leaf(self, kind, parent):
        record = self.open(kind, parent)
        self.step()
        self.close(record)

    def own(self, record):
        for token in self.waiting:
            kind = 32 if token[0] == LINE_COMMENT else 33
            self.comments.append([kind, record, 0, *token[1:]])
        self.waiting = []

    def name(self, parent, number, kinds=frozenset({IDENTIFIER})):
        if self.kind() not in kinds:
            self.refuse(number)
        self.leaf(16, parent)

    # ---- definitions

    def document(self):
        while True:
            self.take(separators=True)
            self.take(comments=True)
            self.take(separators=True)
            if self.kind() is None:
                if self.tokens and self.tokens[-1][4] == 1:
                    self.refuse(1)
                return
            self.definition()

    def definition(self):
        if self.is_(b"include", b"cpp_include"):
            me = self.begin(1 if self.is_(b"include") else 2)
            self.name(me, 12, {STRING})
        elif self.is_(b"namespace"):
            me = self.begin(3)
            self.name(me, 11, {IDENTIFIER, MARKS[b"*"]})
            self.name(me, 10)
        elif self.is_(b"const"):
            me = self.begin(4)
            self.type(me)
            self.name(me, 13)
            self.mark(b"=")
            self.value(me)
            self.close(me)
            self.take(separators=True, comments=True, mixed=True)
            return
        elif self.is_(b"typedef"):
            me = self.begin(5)
            self.type(me)
            self.name(me, 14)
        elif self.is_(b"enum"):
            me = self.begin(6)
            self.name(me, 15)
            self.members(b"{", b"}", lambda: self.enum_member(me))
            self.annotations(me)
        elif self.kind() in BODIES:
            me = self.begin(BODIES[self.kind()])
            self.name(me, 16)
            self.members(b"{", b"}", lambda: self.field(me, 0))
            self.annotations(me)
        elif self.is_(b"service"):
            me = self.begin(10)
            self.name(me, 17)
            if self.is_(b"extends"):
                self.step()
                self.name(me, 18)
            self.members(b"{", b"}", lambda: self.function(me))
            self.annotations(me)
        else:
            self.refuse(2)
        self.close(me)

    def begin(self, kind):
        me = self.open(kind, NO_PARENT)
        self.own(me)
        self.step()
        return me

    def members(self, opening, closing, member):
        self.mark(opening)
        while True:
            self.take(separators=True, comments=True)
            if self.is_(closing):
                return self.step()
            member()

    def enum_member(self, parent):
        me = self.open(13, parent, at=min(self.at, len(self.tokens) - 1))
        self.own(me)
        self.name(me, 19)
        if self.is_(b"="):
            self.step()
            if self.kind() not in (INTEGER, HEX):
                self.refuse(6)
            self.leaf(LEAVES[self.kind()], me)
        self.annotations(me)
        self.close(me)

    def field(self, parent, flags):
        me = self.open(12, parent, flags, at=min(self.at, len(self.tokens) - 1))
        self.own(me)
        if self.kind() == INTEGER:
            written = self.text[self.tokens[self.at][1]:self.tokens[self.at][4]]
            if written.startswith(b"-") or int(written) >= 2 ** 64:
                self.refuse(9)
            self.leaf(17, me)
            self.mark(b":")
        elif self.kind() is not None and self.outside is None:
            self.outside = self.tokens[self.at][1], self.tokens[self.at][4] - self.tokens[self.at][1]
        if self.is_(b"required", b"optional"):
            self.nodes[me][2] += 1 if self.is_(b"required") else 2
            self.step()
        self.type(me)
        self.name(me, 8, FIELD_NAMES)
        if self.is_(b"="):
            self.step()
            self.value(me)
        self.annotations(me)
        self.close(me)

    def function(self, parent):
        me = self.open(11, parent, at=min(self.at, len(self.tokens) - 1))
        self.own(me)
        if self.is_(b"oneway"):
            self.nodes[me][2] += 4
            self.step()
        if self.is_(b"void"):
            self.leaf(18, me)
        else:
            self.type(me)
        if self.kind() == IDENTIFIER:
            self.nodes[me][3:6] = self.tokens[self.at][1:4]
        self.name(me, 2)
        self.members(b"(", b")", lambda: self.field(me, 0))
        if self.is_(b"throws"):
            self.nodes[me][2] += 8
            self.step()
            self.members(b"(", b")", lambda: self.field(me, 16))
        self.take(separators=True, comments=True, mixed=True)
        self.annotations(me)
        self.close(me)

    def annotations(self, parent):
        if not self.is_(b"("):
            return
        me = self.open(14, parent, at=self.at - 1)
        self.step()
        while True:
            self.take(comments=True, discard=True)
            if self.is_(b")"):
                self.step()
                return self.close(me)
            one = self.open(15, me, at=min(self.at, len(self.tokens) - 1))
            self.name(one, 2)
            self.mark(b"=")
            if self.kind() != STRING:
                self.refuse(2)
            self.leaf(23, one)
            self.close(one)
            if self.kind() in SEPARATORS:
                self.step()

    # ---- types and values

    def type(self, parent, depth=0):
        if self.kind() in BASE_TYPES:
            self.leaf(18, parent)
        elif self.kind() == IDENTIFIER:
            self.leaf(19, parent)
        elif self.kind() in CONTAINERS:
            if depth == 32:
                self.refuse(23)
            me = self.open(CONTAINERS[self.kind()], parent)
            self.step()
            self.mark(b"<")
            self.type(me, depth + 1)
            if self.nodes[me][0] == 22:
                self.mark(b",")
                self.type(me, depth + 1)
            self.mark(b">")
            self.close(me)
        else:
            self.refuse(4)

    def value(self, parent, depth=0):
        if self.kind() in LEAVES:
            return self.leaf(LEAVES[self.kind()], parent)
        if not self.is_(b"[", b"{"):
            self.refuse(6)
        if depth == 32:
            self.refuse(23)
        map_ = self.is_(b"{")
        me = self.open(30 if map_ else 29, parent)
        self.step()
        while True:
            self.take(separators=True, comments=True, discard=True)
            if self.is_(b"}" if map_ else b"]"):
                self.step()
                return self.close(me)
            if map_:
                one = self.open(31, me, at=min(self.at, len(self.tokens) - 1))
                self.value(one, depth + 1)
                self.mark(b":")
                self.value(one, depth + 1)
                self.close(one)
            else:
                self.value(me, depth + 1)


# Of a row by its length, the numbers that are no line and no column: of a node, of a comment, and of a token.
NO_PLACES = {10: (0, 1, 2, 3, 6, 9), 9: (0, 1, 2, 3, 6), 7: (0, 1, 4)}


def unplaced(rows):
    """The rows of records or tokens without lines and columns."""
    words = (row.split() for row in rows.split("\n"))
    return [[row[i] for i in NO_PLACES.get(len(row), range(len(row)))] for row in words]


def same(text, rico, other):
    """Whether rico's rows and others agree: in lines and columns too if the text has no CR LF."""
    return rico == other or longest.PAIR in text and unplaced(rico) == unplaced(other)


def read(text):
    """The answer, and place and length of the first token that begins a field and is no integer, or None."""
    if len(text) > 65536:
        return "R 20 0 0\n", None
    try:
        text.decode()
    except UnicodeDecodeError as error:
        return f"R 21 {error.start} 0\n", None
    stop = longest.cut(text)[1]
    if stop is not None:
        return f"R 22 {stop} 0\n", None
    reader = Reader(text)
    try:
        reader.document()
    except Refused as refusal:
        return "R {} {} {}\n".format(*refusal.args), reader.outside
    rows = [(len(reader.nodes), len(reader.comments))] + reader.nodes + sorted(reader.comments, key=lambda c: c[3])
    return "".join(" ".join(map(str, row)) + "\n" for row in rows), reader.outside


def answer(text):
    return read(text)[0]


def outside(text):
    return read(text)[1] is not None
