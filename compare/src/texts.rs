//! Texts from random numbers: definitions along the grammar, soups, damage, deep nesting.

use crate::random::Rng;

pub const KEYWORDS: &[&[u8]] = &[
    b"namespace", b"cpp_include", b"include", b"typedef", b"const", b"enum", b"struct", b"union", b"exception", b"service", b"extends", b"throws",
    b"required", b"optional", b"void", b"bool", b"byte", b"i8", b"i16", b"i32", b"i64", b"double", b"string", b"binary", b"map", b"list", b"set",
    b"true", b"false", b"oneway",
];
const FIELD_NAMES: &[&[u8]] = &[
    b"namespace", b"include", b"list", b"map", b"set", b"oneway", b"required", b"optional", b"throws", b"bool", b"byte", b"i8", b"i16", b"i32", b"i64",
    b"string", b"binary", b"extends", b"struct", b"double", b"service", b"enum",
];
const BASE_TYPES: &[&[u8]] = &[b"bool", b"byte", b"i8", b"i16", b"i32", b"i64", b"double", b"string", b"binary"];
pub const MARKS: &[&[u8]] = &[b"{", b"}", b"[", b"]", b"<", b">", b"(", b")", b";", b":", b",", b"=", b".", b"*"];
const BLANKS: &[&[u8]] = &[b" ", b" ", b" ", b"\t", b"  ", b"\n", b"\n", b"\n  ", b"\r\n", b"\x0c", b"\r", b" \t\n", b"\n\r", b"\n\n"];
const WORDS: &[&[u8]] = &[
    b"a", b"b", b"A", b"x1", b"_", b"__a", b"foo", b"Bar", b"Foo_Bar2", b"i8x", b"structs", b"mapp", b"tru", b"Void", b"I32", b"lists", b"e1", b"E",
    b"trueish", b"a.b", b"shared.Base", b"x._y.Z9", b"list.x", b"true.x", b"a.list", b"x.i8._", b"longer_identifier_of_some_length",
];
const LETTERS: &[&[u8]] = &[
    b"", b"a", b"text", b"a b", b"\xc3\xa9", b"\xe2\x82\xac x", b"\xf0\x9f\x98\x80", b"*", b"//", b"#", b"{", b"1;2", b"\t", b"\\", b"'", b"\"", b"\r",
    b"\x0c", b"@", b"\x00", b"\xef\xbb\xbf",
];
const IN_STRINGS: &[&[u8]] = &[
    b"a", b"thrift", b"a/b.thrift", b" ", b"\xc3\xa9", b"\xe4\xb8\xad", b"\xf0\x9f\x98\x80", b"\\\\", b"\\n", b"\\\"", b"\\'", b"\\\xc3\xa9", b"\\\r",
    b"\n", b"\r\n", b"\x0c", b"//", b"/*", b"#", b"{}", b"*/", b"@",
];
const INTEGERS: &[&[u8]] = &[
    b"0", b"1", b"2", b"7", b"42", b"007", b"+1", b"+0", b"-1", b"-0", b"65536", b"2147483647", b"-2147483648", b"18446744073709551615",
    b"18446744073709551616", b"99999999999999999999999",
];
const HEXES: &[&[u8]] = &[b"0x0", b"0X1f", b"0xFF", b"0xdeadBEEF", b"0x0123456789abcdefABCDEF"];
const DOUBLES: &[&[u8]] = &[
    b"1.", b"1.5", b".5", b"0.0", b"+.5", b"-1.25", b"1e3", b"1E-3", b"1.e+3", b".5e10", b"-2.5E+07", b"1.5e3", b"+1e0",
];
const IDS: &[&[u8]] = &[b"1", b"2", b"3", b"10", b"0", b"+1", b"01", b"007", b"32767", b"18446744073709551615", b"+18446744073709551615", b"00000000000000000000001"];
const WRONG_IDS: &[&[u8]] = &[b"-1", b"-0", b"18446744073709551616", b"99999999999999999999", b"+18446744073709551616"];
const PASSED: &[&[u8]] = &[b"required", b"optional", b"x", b"(", b"<", b"struct", b"=", b"1.5", b"*", b"'s'", b"]", b":", b"}", b")", b"0x1", b"true"];

pub const ILL_FORMED: &[&[u8]] = &[
    b"\x80", b"\xbf", b"\xc0", b"\xc0\x80", b"\xc1\xbf", b"\xc2", b"\xc3\x28", b"\xdf", b"\xe0", b"\xe0\x80\x80", b"\xe0\x9f\xbf", b"\xe0\xa0",
    b"\xe1\x80", b"\xe2\x28\xa1", b"\xe2\x82", b"\xe2\x82\x28", b"\xed\xa0\x80", b"\xed\xbf\xbf", b"\xed\xa0\x80\xed\xb0\x80", b"\xef\xbf", b"\xf0",
    b"\xf0\x80\x80\x80", b"\xf0\x8f\xbf\xbf", b"\xf0\x90", b"\xf0\x90\x80", b"\xf0\x9f\x98", b"\xf0\x9f\x98\x28", b"\xf4\x90\x80\x80",
    b"\xf5\x80\x80\x80", b"\xf8\x88\x80\x80\x80", b"\xfc\x84\x80\x80\x80\x80", b"\xfe", b"\xff", b"\xc2\xc2\xa0", b"\xe2\x82\xe2\x82\xac",
];
const WELL_FORMED: &[&str] = &[
    "\u{80}", "\u{7ff}", "\u{800}", "\u{fff}", "\u{1000}", "\u{cfff}", "\u{d000}", "\u{d7ff}", "\u{e000}", "\u{feff}", "\u{ffff}", "\u{10000}",
    "\u{3ffff}", "\u{40000}", "\u{fffff}", "\u{100000}", "\u{10ffff}",
];

// ---- tokens

fn string(rng: &mut Rng) -> Vec<u8> {
    let quote = rng.one(b"\"'");
    let mut out = vec![quote];
    for _ in 0..rng.one(&[0, 1, 1, 2, 3]) {
        out.extend_from_slice(rng.pick(IN_STRINGS));
    }
    out.push(quote);
    out
}

fn line_comment(rng: &mut Rng) -> Vec<u8> {
    let mut out = rng.pick::<[u8]>(&[b"//", b"#", b"///", b"//!", b"##", b"#/*"]).to_vec();
    for _ in 0..rng.one(&[0, 1, 1, 2]) {
        out.extend_from_slice(rng.pick(LETTERS));
    }
    out
}

fn block_comment(rng: &mut Rng) -> Vec<u8> {
    let mut out = b"/*".to_vec();
    for _ in 0..rng.one(&[0, 1, 2, 3]) {
        let piece = if rng.percent(50) { rng.pick(LETTERS) } else { rng.pick::<[u8]>(&[b"\n", b"\r\n", b" * ", b"**", b"/", b"\r", b"\x0c"]) };
        // no end before the end
        if out.len() > 2 && out.last() == Some(&b'*') && piece.first() == Some(&b'/') {
            out.push(b' ');
        }
        out.extend_from_slice(piece);
    }
    out.extend_from_slice(rng.pick::<[u8]>(&[b"*/", b"**/", b" */"]));
    out
}

/// A token of any kind; a line comment brings its newline along.
pub fn any_token(rng: &mut Rng) -> Vec<u8> {
    match rng.below(10) {
        0 | 1 => rng.pick(KEYWORDS).to_vec(),
        2 | 3 => rng.pick(MARKS).to_vec(),
        4 => rng.pick(WORDS).to_vec(),
        5 => string(rng),
        6 => rng.pick(INTEGERS).to_vec(),
        7 => rng.pick(DOUBLES).to_vec(),
        8 => rng.pick(HEXES).to_vec(),
        _ if rng.percent(50) => block_comment(rng),
        _ => {
            let mut out = line_comment(rng);
            out.push(b'\n');
            out
        }
    }
}

// ---- definitions

/// What a definition is made of. The first two are set; the others each rendering fills in its own way, and the definitions agree all the same.
pub enum Part {
    Token(Vec<u8>),
    /// A comment up to the end of its line.
    Line(Vec<u8>),
    Separators,
    /// At most one.
    Separator,
    /// Comments that are discarded.
    Unkept,
    /// What a printing drops of a parameter: comments before it, requiredness, annotations.
    Note,
    Need,
    Annotated,
}

pub struct Grammar<'a> {
    pub rng: &'a mut Rng,
    pub parts: Vec<Part>,
    /// The chance, of 1,000, that a choice goes against the grammar.
    pub wrong: usize,
    /// The chance of a comment where one may stand, of 100.
    pub chatty: usize,
    pub size: usize,
    /// The chance of an id before a field, of 100.
    pub ids: usize,
    /// The chance of a slip at a field's start, of 100.
    pub odd: usize,
    /// What a printing drops of a parameter each rendering fills in its own way.
    pub agreeing: bool,
}

impl Grammar<'_> {
    fn slip(&mut self) -> bool {
        self.wrong > 0 && self.rng.below(1000) < self.wrong
    }

    fn few(&mut self) -> usize {
        self.rng.one(&[0, 1, 1, 2, self.size])
    }

    fn token(&mut self, written: &[u8]) {
        if self.slip() {
            match self.rng.below(4) {
                0 => return,
                1 => self.parts.push(Part::Token(written.to_vec())),
                2 => {
                    let other = any_token(self.rng);
                    self.parts.push(Part::Token(other));
                    return;
                }
                _ => {
                    let other = any_token(self.rng);
                    self.parts.push(Part::Token(other));
                }
            }
        }
        self.parts.push(Part::Token(written.to_vec()));
    }

    fn pick(&mut self, list: &[&[u8]]) {
        let written = self.rng.pick(list).to_vec();
        self.token(&written);
    }

    /// Comments that count.
    fn comments(&mut self) {
        while self.rng.percent(self.chatty) {
            let part = if self.rng.percent(55) { Part::Line(line_comment(self.rng)) } else { Part::Token(block_comment(self.rng)) };
            self.parts.push(part);
        }
    }

    fn separators_and_comments(&mut self) {
        self.parts.push(Part::Separators);
        self.comments();
    }

    fn mixed(&mut self) {
        for _ in 0..self.rng.one(&[0, 0, 1, 2]) {
            self.separators_and_comments();
        }
    }

    fn kind(&mut self, depth: usize) {
        match self.rng.below(100) {
            0..=44 => self.pick(BASE_TYPES),
            45..=64 => self.pick(WORDS),
            _ if depth > 4 => self.pick(BASE_TYPES),
            n @ 65..=86 => {
                self.token(if n < 76 { b"list" } else { b"set" });
                self.token(b"<");
                self.kind(depth + 1);
                self.token(b">");
            }
            _ => {
                self.token(b"map");
                self.token(b"<");
                self.kind(depth + 1);
                self.token(b",");
                self.kind(depth + 1);
                self.token(b">");
            }
        }
    }

    fn value(&mut self, depth: usize) {
        let choice = self.rng.below(100);
        if choice < 62 || depth > 3 {
            match self.rng.below(6) {
                0 => {
                    let written = string(self.rng);
                    self.token(&written);
                }
                1 => self.pick(INTEGERS),
                2 => self.pick(DOUBLES),
                3 => self.pick(HEXES),
                4 => self.pick(WORDS),
                _ => self.pick(&[b"true", b"false"]),
            }
            return;
        }
        let map = choice >= 82;
        self.token(if map { b"{" } else { b"[" });
        self.parts.push(Part::Separators);
        self.parts.push(Part::Unkept);
        for _ in 0..self.few() {
            self.value(depth + 1);
            if map {
                self.token(b":");
                self.value(depth + 1);
            }
            self.parts.push(Part::Separators);
            self.parts.push(Part::Unkept);
        }
        self.token(if map { b"}" } else { b"]" });
    }

    fn annotations(&mut self, chance: usize) {
        if !self.rng.percent(chance) {
            return;
        }
        self.token(b"(");
        self.parts.push(Part::Unkept);
        for _ in 0..self.few() {
            self.pick(WORDS);
            self.token(b"=");
            let written = string(self.rng);
            self.token(&written);
            self.parts.push(Part::Separator);
            self.parts.push(Part::Unkept);
        }
        self.token(b")");
    }

    /// A token too many at a field's start: one that starts no type, a requiredness, a separator, a comment.
    fn odd(&mut self) {
        if self.odd > 0 && self.rng.percent(self.odd) {
            match self.rng.below(8) {
                0 => self.pick(WRONG_IDS),
                1 => self.pick(&[b",", b";", b"1", b"void"]),
                2 => {
                    let written = block_comment(self.rng);
                    self.token(&written);
                }
                3 | 4 => self.pick(&[b"required", b"optional"]),
                _ => self.pick(PASSED),
            }
        }
    }

    fn field(&mut self, parameter: bool) {
        if self.rng.percent(self.ids) {
            let wrong = !self.agreeing && self.rng.percent(3);
            self.pick(if wrong { WRONG_IDS } else { IDS });
            self.token(b":");
        }
        self.odd();
        if parameter && self.agreeing {
            self.parts.push(Part::Need);
        } else if self.rng.percent(45) {
            self.pick(&[b"required", b"optional"]);
            self.odd();
        }
        self.kind(0);
        let named = self.rng.percent(15);
        self.pick(if named { FIELD_NAMES } else { WORDS });
        if self.rng.percent(30) {
            self.token(b"=");
            self.value(0);
        }
        if parameter && self.agreeing {
            self.parts.push(Part::Annotated);
        } else {
            self.annotations(20);
        }
    }

    fn fields(&mut self) {
        self.token(b"{");
        self.separators_and_comments();
        for _ in 0..self.few() {
            self.field(false);
            self.separators_and_comments();
        }
        self.token(b"}");
    }

    fn parameters(&mut self) {
        self.token(b"(");
        for _ in 0..self.few() {
            self.parts.push(Part::Separators);
            if self.agreeing {
                self.parts.push(Part::Note);
            } else {
                self.comments();
            }
            self.field(true);
        }
        self.separators_and_comments();
        self.token(b")");
    }

    fn function(&mut self) {
        if self.rng.percent(30) {
            self.token(b"oneway");
        }
        if self.rng.percent(50) {
            self.token(b"void");
        } else {
            self.kind(0);
        }
        self.pick(WORDS);
        self.parameters();
        if self.rng.percent(30) {
            self.token(b"throws");
            self.parameters();
        }
        self.mixed();
        self.annotations(25);
    }

    fn definition(&mut self) {
        match self.rng.below(14) {
            n @ 0..=1 => {
                self.token(if n == 0 { b"include" } else { b"cpp_include" });
                let written = string(self.rng);
                self.token(&written);
            }
            2 => {
                self.token(b"namespace");
                if self.rng.percent(20) {
                    self.token(b"*");
                } else {
                    self.pick(WORDS);
                }
                self.pick(WORDS);
            }
            3 | 4 => {
                self.token(b"const");
                self.kind(0);
                self.pick(WORDS);
                self.token(b"=");
                self.value(0);
                self.mixed();
            }
            5 => {
                self.token(b"typedef");
                self.kind(0);
                self.pick(WORDS);
            }
            6 | 7 => {
                self.token(b"enum");
                self.pick(WORDS);
                self.token(b"{");
                self.separators_and_comments();
                for _ in 0..self.few() {
                    self.pick(WORDS);
                    if self.rng.percent(50) {
                        self.token(b"=");
                        let hex = self.rng.percent(30);
                        self.pick(if hex { HEXES } else { INTEGERS });
                    }
                    self.annotations(20);
                    self.separators_and_comments();
                }
                self.token(b"}");
                self.annotations(25);
            }
            8..=11 => {
                self.pick(&[b"struct", b"struct", b"union", b"exception"]);
                self.pick(WORDS);
                self.fields();
                self.annotations(25);
            }
            _ => {
                self.token(b"service");
                self.pick(WORDS);
                if self.rng.percent(30) {
                    self.token(b"extends");
                    self.pick(WORDS);
                }
                self.token(b"{");
                self.separators_and_comments();
                for _ in 0..self.few() {
                    self.function();
                    self.separators_and_comments();
                }
                self.token(b"}");
                self.annotations(25);
            }
        }
    }

    pub fn document(&mut self, definitions: usize) {
        self.separators_and_comments();
        self.parts.push(Part::Separators);
        for _ in 0..definitions {
            self.definition();
            self.separators_and_comments();
            self.parts.push(Part::Separators);
        }
    }
}

/// How parts are joined: the chances, of 100, of a blank that is not needed and of comments that do not count.
#[derive(Clone, Copy)]
pub struct Style {
    pub blanks: usize,
    pub chatty: usize,
}

pub fn style(rng: &mut Rng) -> Style {
    Style { blanks: rng.one(&[0, 0, 30, 60, 90]), chatty: rng.one(&[0, 10, 30, 50]) }
}

struct Joint<'a> {
    rng: &'a mut Rng,
    style: Style,
    out: Vec<u8>,
}

impl Joint<'_> {
    fn blank(&mut self) {
        self.out.extend_from_slice(self.rng.pick(BLANKS));
    }

    fn put(&mut self, piece: &[u8]) {
        let wordy = |b: &u8| b.is_ascii_alphanumeric() || b"_.+-".contains(b);
        let clings = self.out.last().is_some_and(wordy) && piece.first().is_some_and(wordy);
        if self.rng.percent(self.style.blanks) || clings {
            self.blank();
        }
        self.out.extend_from_slice(piece);
    }

    fn line(&mut self, piece: &[u8]) {
        self.put(piece);
        self.out.push(b'\n');
    }

    fn unkept(&mut self) {
        while self.rng.percent(self.style.chatty) {
            if self.rng.percent(50) {
                let piece = line_comment(self.rng);
                self.line(&piece);
            } else {
                let piece = block_comment(self.rng);
                self.put(&piece);
            }
        }
    }

    fn part(&mut self, part: &Part) {
        match part {
            Part::Token(written) => self.put(written),
            Part::Line(written) => self.line(written),
            Part::Separators => {
                for _ in 0..self.rng.one(&[0, 0, 1, 1, 1, 2, 3]) {
                    let piece = self.rng.pick::<[u8]>(&[b",", b";"]);
                    self.put(piece);
                }
            }
            Part::Separator => {
                if self.rng.percent(70) {
                    let piece = self.rng.pick::<[u8]>(&[b",", b";"]);
                    self.put(piece);
                }
            }
            Part::Unkept | Part::Note => self.unkept(),
            Part::Need => {
                if self.rng.percent(40) {
                    let piece = self.rng.pick::<[u8]>(&[b"required", b"optional"]);
                    self.put(piece);
                }
            }
            Part::Annotated => {
                if self.rng.percent(25) {
                    let mut inner = Grammar { rng: self.rng, parts: Vec::new(), wrong: 0, chatty: 0, size: 2, ids: 0, odd: 0, agreeing: true };
                    inner.annotations(100);
                    let parts = inner.parts;
                    for part in &parts {
                        self.part(part);
                    }
                }
            }
        }
    }
}

pub fn render(parts: &[Part], rng: &mut Rng, style: Style) -> Vec<u8> {
    let mut joint = Joint { rng, style, out: Vec::new() };
    for part in parts {
        joint.part(part);
    }
    if joint.rng.percent(30) {
        joint.blank();
    }
    joint.out
}

/// How many of a document's fields have an id, of 100: all, none, some.
fn share(rng: &mut Rng) -> usize {
    rng.one(&[100, 100, 0, 20, 50])
}

/// The parts of a document along the grammar; what is rendered of them agrees.
pub fn agreeing(rng: &mut Rng) -> Vec<Part> {
    let (chatty, size, definitions) = (rng.one(&[0, 10, 30, 50]), rng.one(&[2, 3, 5]), rng.one(&[1, 1, 2, 3, 6]));
    let ids = share(rng);
    let mut grammar = Grammar { rng, parts: Vec::new(), wrong: 0, chatty, size, ids, odd: 0, agreeing: true };
    grammar.document(definitions);
    grammar.parts
}

/// A document of so many definitions.
pub fn long(rng: &mut Rng, definitions: usize) -> Vec<u8> {
    let ids = share(rng);
    let mut grammar = Grammar { rng, parts: Vec::new(), wrong: 0, chatty: 10, size: 5, ids, odd: 0, agreeing: true };
    grammar.document(definitions);
    let parts = grammar.parts;
    let style = style(rng);
    render(&parts, rng, style)
}

/// A document; `wrong` as in Grammar.
pub fn document(rng: &mut Rng, wrong: usize) -> Vec<u8> {
    let (chatty, size, definitions) = (rng.one(&[0, 10, 30, 50]), rng.one(&[2, 3, 4]), rng.one(&[1, 1, 1, 1, 2, 3]));
    let (ids, odd) = (share(rng), rng.one(&[0, 0, 0, 3, 15]));
    let mut grammar = Grammar { rng, parts: Vec::new(), wrong, chatty, size, ids, odd, agreeing: ids == 100 };
    grammar.document(definitions);
    let parts = grammar.parts;
    let style = style(rng);
    render(&parts, rng, style)
}

/// A body, parameters or thrown fields of a few tokens, such as may start fields.
pub fn field_soup(rng: &mut Rng) -> Vec<u8> {
    let frames: [(&[u8], &[u8]); 6] = [
        (b"struct A{", b"}"), (b"union U{", b"}"), (b"exception X{1:i8 a;", b"}"), (b"service S{void f(", b")}"), (b"service S{i8 f()throws(", b")}"),
        (b"service S{void f(a b,", b")throws(a b)}enum E{}"),
    ];
    let (head, tail) = rng.one(&frames);
    let pieces: [&[u8]; 24] = [
        b"required ", b"optional ", b"i8 ", b"a ", b"x ", b"list<i8>", b"A.b ", b"map<i8,a>", b"1:", b"1 ", b":", b"=1 ", b"='s'", b"(a='b')", b",", b";", b"#c\n", b"/*c*/",
        b"void ", b"map ", b"(", b"struct ", b"1.5 ", b"]",
    ];
    let mut out = [rng.pick::<[u8]>(&[b"", b"#c\n", b"enum E{A}"]), head].concat();
    if rng.percent(40) {
        let pieces = &pieces[..rng.one(&[8, 18, 24])];
        for _ in 0..1 + rng.below(12) {
            out.extend_from_slice(rng.pick(pieces));
        }
    } else {
        // the parts of a field, each there or not; sometimes one is gone, doubled or another
        let slips = rng.one(&[0, 3, 10]);
        let parts: [(usize, &[&[u8]]); 8] = [
            (25, &[b"#c\n", b"/*c*/"]), (30, &[b"1:", b"2 :", b"+1:", b"007 :"]), (50, &[b"required ", b"optional "]), (100, &[b"i8 ", b"a ", b"x.y ", b"list<i8>", b"map<a,set<i8>>", b"binary\n"]),
            (100, &[b"a ", b"b", b"list ", b"required ", b"optional", b"i8 "]), (25, &[b"=1 ", b"='s'", b"=[a,1]", b"=x "]), (15, &[b"(a='b')", b"()"]), (60, &[b",", b";", b" ,;"]),
        ];
        for _ in 0..1 + rng.below(4) {
            for (chance, written) in parts {
                if !rng.percent(chance) {
                    continue;
                }
                let piece = rng.pick(written);
                // two words need a blank between
                if out.last().is_some_and(u8::is_ascii_alphanumeric) && piece.first().is_some_and(u8::is_ascii_alphanumeric) {
                    out.push(b' ');
                }
                match if rng.percent(slips) { rng.below(3) } else { 3 } {
                    0 => {}
                    1 => out.extend_from_slice(rng.pick(&pieces)),
                    2 => out.extend_from_slice(&[piece, b" ", piece].concat()),
                    _ => out.extend_from_slice(piece),
                }
            }
        }
    }
    if rng.percent(85) {
        out.extend_from_slice(tail);
    }
    out
}

/// The text with CR LF for each newline, or with line ends of any kind; sometimes with one more behind it.
pub fn other_ends(rng: &mut Rng, text: &[u8]) -> Vec<u8> {
    let ends: &[&[u8]] = match rng.below(4) {
        0 | 1 => &[b"\r\n"],
        2 => &[b"\r\n", b"\n"],
        _ => &[b"\r\n", b"\n", b"\n\r", b"\r\r\n", b"\x0c\r\n", b"\r\n\r\n", b"\r", b"\x0c", b"\r\x0c\n"],
    };
    let mut out = Vec::new();
    for byte in text {
        match byte {
            b'\n' => out.extend_from_slice(rng.pick(ends)),
            _ => out.push(*byte),
        }
    }
    if rng.percent(20) {
        out.extend_from_slice(rng.pick::<[u8]>(&[b"\r", b"\r\n", b"\n\r", b"\r\r\n"]));
    }
    out
}

// ---- nesting

pub fn deep_type(depth: usize, form: usize, rng: &mut Rng) -> Vec<u8> {
    let mut out = b"i8".to_vec();
    for _ in 0..depth {
        let form = if form == 4 { rng.below(4) } else { form };
        let (head, tail): (&[u8], &[u8]) = [(&b"list<"[..], &b">"[..]), (b"set<", b">"), (b"map<", b",i8>"), (b"map<i8,", b">")][form];
        out = [head, &out, tail].concat();
    }
    out
}

pub fn deep_value(depth: usize, form: usize, rng: &mut Rng) -> Vec<u8> {
    let mut out = b"1".to_vec();
    for _ in 0..depth {
        let form = if form == 4 { rng.below(4) } else { form };
        let forms: [(&[u8], &[u8]); 4] = [(b"[", b"]"), (b"[1,", b";2]"), (b"{", b":1}"), (b"{a:b,1:", b"}")];
        let (head, tail) = forms[form];
        out = [head, &out, tail].concat();
    }
    out
}

pub const TYPE_FRAMES: &[(&[u8], &[u8])] = &[
    (b"typedef ", b" T"), (b"const ", b" X=1"), (b"struct A{1:", b" a}"), (b"union U{x ", b" a=[[1]]}"), (b"service S{", b" f()}"),
    (b"service S{void f(1:", b" a)}"), (b"service S{void f()throws(1:", b" a)}"), (b"enum E{A}exception X{1:i8 list;2:optional ", b" a}"),
    (b"struct A{", b" a}"), (b"service S{void f(a b,required ", b" a)}"), (b"service S{void f()throws(", b" a)}"),
    (b"const ", b" X=[[[[[[[[[[[[[[[[[[[[[[[[[[[[[[[[1]]]]]]]]]]]]]]]]]]]]]]]]]]]]]]]]"),
];
pub const VALUE_FRAMES: &[(&[u8], &[u8])] = &[
    (b"const i8 X=", b""), (b"struct A{1:i8 a=", b"}"), (b"exception A{1:i8 a=", b"(a='b')}"), (b"service S{void f(1:i8 a=", b")}"),
    (b"service S{void f()throws(1:i8 a=", b")}"), (b"const list<list<list<i8>>>X=", b"//c"), (b"struct A{optional i8 a=", b"}"),
    (b"service S{void f(i8 a=", b")}"),
];

/// Nesting around 32, whole or damaged.
pub fn deep(rng: &mut Rng) -> Vec<u8> {
    let depth = rng.one(&[30, 31, 32, 32, 33, 33, 34, 40]);
    let form = rng.below(5);
    let (frame, part) = if rng.percent(50) {
        (rng.one(TYPE_FRAMES), deep_type(depth, form, rng))
    } else {
        (rng.one(VALUE_FRAMES), deep_value(depth, form, rng))
    };
    let text = [rng.pick::<[u8]>(&[b"", b"#c\n", b"enum E{A}"]), frame.0, &part, frame.1].concat();
    if rng.percent(50) {
        damaged(rng, &text)
    } else {
        text
    }
}

// ---- soups and damage

pub fn token_soup(rng: &mut Rng, length: usize) -> Vec<u8> {
    let blanks = rng.one(&[10, 50, 90]);
    let mut joint = Joint { rng, style: Style { blanks, chatty: 0 }, out: Vec::new() };
    for _ in 0..length {
        let piece = any_token(joint.rng);
        if joint.rng.percent(10) {
            joint.out.extend_from_slice(&piece);
        } else {
            joint.put(&piece);
        }
    }
    joint.out
}

pub fn byte_soup(rng: &mut Rng, length: usize) -> Vec<u8> {
    let tables: [&[u8]; 5] = [
        b" \t\r\n\x0c,;:<>(){}[]=.*'\"\\/#+-eE0x1aA_", b"/*#\n'\"\\a.", b"0123456789.eExX+-aF", b"abcdeilmnoprstuvxy_ .", b"\x80\xbf\xc2\xe0\xa0\xed\x9f\xf0\x90\xf4\x8f\xe2\x82\xac a",
    ];
    let form = rng.below(8);
    let mut out = Vec::new();
    while out.len() < length {
        match form {
            0..=4 => out.push(rng.one(tables[form])),
            5 => out.push(rng.below(128) as u8),
            6 => out.push(rng.below(256) as u8),
            _ => out.extend_from_slice(if rng.percent(85) { rng.pick(WELL_FORMED).as_bytes() } else { rng.pick(ILL_FORMED) }),
        }
    }
    if form == 7 || form == 4 {
        // where a token may hold any character
        let (head, tail): (&[u8], &[u8]) = rng.one(&[(&b""[..], &b""[..]), (b"//", b"\nenum E{}"), (b"/*", b"*/enum E{}"), (b"include'", b"'"), (b"const i8 X=[\"\\", b"\",'']")]);
        out = [head, &out, tail].concat();
    }
    out
}

/// A copy with bytes flipped, deleted, put in, doubled, moved or cut off.
pub fn damaged(rng: &mut Rng, text: &[u8]) -> Vec<u8> {
    let mut out = text.to_vec();
    for _ in 0..rng.one(&[1, 1, 1, 2, 3]) {
        let at = rng.below(out.len() + 1);
        match rng.below(12) {
            0 | 1 => {
                let end = (at + rng.one(&[1, 1, 2, 5])).min(out.len());
                out.drain(at..end);
            }
            2 | 3 => {
                let piece = any_token(rng);
                out.splice(at..at, piece);
            }
            4 => {
                let piece = match rng.below(4) {
                    0 => vec![rng.below(256) as u8],
                    1 => rng.pick(ILL_FORMED).to_vec(),
                    2 => rng.pick(WELL_FORMED).as_bytes().to_vec(),
                    _ => rng.pick::<[u8]>(&[b" ", b"\n", b"\x00", b".", b",", b"'", b"/", b"*", b"#", b"@"]).to_vec(),
                };
                out.splice(at..at, piece);
            }
            5 if at < out.len() => out[at] ^= 1 << rng.below(8),
            6 if at < out.len() => out[at] = rng.one(&[b'0', b' ', b'\n', b',', b'}', b')', b'.']),
            7 if at < out.len() => out[at] = 32 + rng.below(95) as u8,
            8 if rng.percent(50) => out.truncate(at),
            9 => {
                let from = rng.below(out.len() + 1);
                let end = (from + rng.one(&[1, 3, 8, 30])).min(out.len());
                let piece = out[from..end].to_vec();
                out.splice(at..at, piece);
            }
            10 => {
                let end = (at + rng.one(&[1, 4, 20])).min(out.len());
                let piece: Vec<u8> = out.drain(at..end).collect();
                let to = rng.below(out.len() + 1);
                out.splice(to..to, piece);
            }
            11 if rng.percent(20) => {
                out.drain(..at);
            }
            _ => {}
        }
    }
    out
}

