//! The comparison at scale: the same texts through rico and through the port, every number, byte and refusal.
//!
//! usage: compare SEED COUNT CORPUS ORACLE    (compare/run calls it)

mod calls;
mod enums;
mod lines;
mod moves;
mod random;
mod sides;
mod texts;

use enums::Numbers;
use moves::{Moved, Way};
use oracle::flatten::{COMMENT_WIDTH, NODE_WIDTH};
use random::Rng;
use sides::{wanted, Fault, Own, Port, Source, Wanted, INDENTS, LONGEST};
use std::collections::BTreeMap;
use std::time::Instant;

fn main() {
    // rico recurses without a limit; 65,536 bytes can open as many containers.
    let worker = std::thread::Builder::new().stack_size(2 << 30).spawn(run);
    let differences = worker.expect("a thread with a large stack").join().expect("the comparison");
    std::process::exit(i32::from(differences > 0));
}

/// How many calls are made for a text.
#[derive(Clone, Copy, PartialEq)]
enum Care {
    /// Few if it is refused, else as Usual.
    Quick,
    /// All if it is short, else some.
    Usual,
    All,
}

#[derive(Default)]
struct Family {
    name: &'static str,
    texts: u64,
    accepted: u64,
    /// With CR LF.
    paired: u64,
    /// With a field that is begun with another token than an integer: compared with rico with the field rule of Change 4.
    outside: u64,
    panics: u64,
    otherwise: u64,
    not_judged: u64,
    calls: u64,
    differences: u64,
    seconds: f64,
}

struct Found {
    count: u64,
    text: Vec<u8>,
    fault: Fault,
    origin: String,
}

struct Compare {
    seed: u64,
    port: Port,
    families: Vec<Family>,
    found: BTreeMap<String, Found>,
    /// By refusal; 0: accepted.
    numbers: [u64; 28],
    kinds: [u64; 34],
    flags: u32,
    /// The records wanted of texts without CR LF; of texts with it; of those, with another line than rico's; with another column.
    records: [u64; 4],
    /// The texts with such a line.
    moved: u64,
    /// Fields of accepted texts: with id; without, by requiredness: none, required, optional.
    fields: [u64; 4],
    /// Texts outside, by what rico unchanged gives.
    own: [u64; 6],
    longest_print: usize,
    /// Accepted texts by their enum members: none, below 10, below 100, more; refused with 28: by a written number, by the one behind 2147483647.
    listed: [u64; 6],
    /// Members of the lists, negative numbers among them, the longest list.
    members: [u64; 3],
    began: Instant,
}

/// All that is asked of the port for one text; the first difference.
fn ask(port: &mut Port, text: &[u8], wanted: &Wanted, care: Care, rng: &mut Rng) -> Result<(), Fault> {
    port.check(text, wanted)?;
    if wanted.refusal.is_some() {
        let (n, c, o) = (rng.below(60), rng.below(40), rng.below(60));
        port.read(text, wanted, n, c, rng)?;
        port.numbers(text, wanted, c, o, rng.below(30), rng)?;
        port.print(text, wanted, rng.below(INDENTS) as u32, c, n, o, rng)?;
        if care != Care::Quick || rng.percent(5) {
            port.read(text, wanted, 0, 0, rng)?;
            port.read(text, wanted, NODE_WIDTH * rng.below(50), COMMENT_WIDTH * rng.below(50), rng)?;
            port.print(text, wanted, rng.below(INDENTS) as u32, 0, 0, 0, rng)?;
            port.print(text, wanted, 9, n, c, o, rng)?;
            port.print(text, wanted, 9 + rng.next() as u32 % (u32::MAX - 8), c, n, o, rng)?;
        }
        return Ok(());
    }
    let (n, c) = (wanted.nodes.len(), wanted.comments.len());
    let all = care == Care::All || text.len() <= 600;
    // tables: exact, larger, empty, one number short, one record short
    let lengths = |need: usize, width: usize, rng: &mut Rng| [need + 1 + rng.below(8), need + width + rng.below(40), 0, need.saturating_sub(1), need.saturating_sub(width)];
    port.read(text, wanted, n, c, rng)?;
    let (node_lengths, comment_lengths) = (lengths(n, NODE_WIDTH, rng), lengths(c, COMMENT_WIDTH, rng));
    for at in 0..5 {
        if all || rng.percent(40) {
            port.read(text, wanted, node_lengths[at], c, rng)?;
            port.read(text, wanted, n, comment_lengths[at], rng)?;
        }
    }
    let other = comment_lengths[rng.below(5)];
    port.read(text, wanted, node_lengths[rng.below(5)], other, rng)?;
    // the numbers of enum members, with the same tables; the list exact, larger, empty, one short
    let m = match &wanted.numbers {
        Numbers::All(numbers) => numbers.len(),
        Numbers::Outside { .. } => rng.below(8),
    };
    let lists = [m, m + 1 + rng.below(40), 0, m.saturating_sub(1), rng.below(m + 1)];
    port.numbers(text, wanted, n, c, m, rng)?;
    port.numbers(text, wanted, n + rng.below(40), c + rng.below(40), lists[1], rng)?;
    if m > 0 || all || rng.percent(40) {
        for list in &lists[2..] {
            port.numbers(text, wanted, n, c, *list, rng)?;
        }
    }
    for _ in 0..if all { 3 } else { 1 } {
        let (n, c, m) = (node_lengths[rng.below(5)], comment_lengths[rng.below(5)], lists[rng.below(5)]);
        port.numbers(text, wanted, n, c, m, rng)?;
    }
    // prints at every indent: exact, one byte short, larger
    for indent in 0..INDENTS {
        if !all && !rng.percent(25) {
            continue;
        }
        let b = wanted.prints[indent].len();
        let indent = indent as u32;
        port.print(text, wanted, indent, n, c, b, rng)?;
        port.print(text, wanted, indent, n, c, b.saturating_sub(1), rng)?;
        port.print(text, wanted, indent, n + rng.below(30), c + rng.below(30), b + 1 + rng.below(40), rng)?;
    }
    // at one of them: empty, and the order of 24, 25, 27
    let indent = rng.below(INDENTS);
    let b = wanted.prints[indent].len();
    let outs = [0, b, b.saturating_sub(1), b + 5000];
    port.print(text, wanted, indent as u32, n, c, 0, rng)?;
    for _ in 0..if all { 6 } else { 2 } {
        let (n, c, b) = (node_lengths[rng.below(5)], comment_lengths[rng.below(5)], outs[rng.below(4)]);
        port.print(text, wanted, indent as u32, n, c, b, rng)?;
    }
    // 26 comes before all these
    port.print(text, wanted, 9, n, c, b, rng)?;
    port.print(text, wanted, 9 + rng.next() as u32 % (u32::MAX - 8), 0, c, 0, rng)?;
    if all || rng.percent(40) {
        stored(port, wanted, rng)?;
    }
    Ok(())
}

/// The node table of a text, stored with nine numbers a record and with ten: each is moved to the other.
fn stored(port: &mut Port, wanted: &Wanted, rng: &mut Rng) -> Result<(), Fault> {
    let ten = &wanted.nodes;
    let nine: Vec<u32> = ten.chunks(NODE_WIDTH).flat_map(|record| record[..NODE_WIDTH - 1].to_vec()).collect();
    for (way, from, to) in [(Way::Widen, &nine, ten), (Way::Narrow, ten, &nine)] {
        let moved = Moved::Rows { records: (to.len() / way.to()) as u32, rows: to.clone() };
        port.move_table(way, from, &moved, to.len(), rng)?;
        port.move_table(way, from, &moved, to.len() + 1 + rng.below(30), rng)?;
        port.move_table(way, from, &moved, to.len().saturating_sub(1 + rng.below(12)), rng)?;
    }
    Ok(())
}

/// Rico's answer and the port's calls, for one text.
fn compare(port: &mut Port, text: &[u8], care: Care, rng: &mut Rng) -> (Wanted, Result<(), Fault>) {
    let wanted = wanted(text, None);
    let result = match wanted.source {
        Source::NotJudged => Ok(()),
        Source::PanicsElsewhere => Err(sides::fault("rico panics elsewhere", format!("end rule: {:?}", wanted.refusal))),
        Source::CutElsewhere => Err(sides::fault("rico cuts a keyword as an identifier elsewhere", String::new())),
        Source::LinesPart => Err(sides::fault("the rule for CR LF and rico without it do not agree", String::new())),
        Source::RulesPart => Err(calls::parted()),
        _ => ask(port, text, &wanted, care, rng),
    };
    let result = result.map_err(|fault| sided(fault, wanted.outside));
    (wanted, result)
}

/// A fault of a text outside is of a kind of its own.
fn sided(mut fault: Fault, outside: bool) -> Fault {
    if outside {
        fault.kind += ", outside";
    }
    fault
}

impl Compare {
    fn begin(&mut self, name: &'static str) {
        self.close();
        self.families.push(Family { name, ..Family::default() });
        self.began = Instant::now();
    }

    fn close(&mut self) {
        let calls = std::mem::take(&mut self.port.calls);
        if let Some(family) = self.families.last_mut() {
            family.calls = calls;
            family.seconds = self.began.elapsed().as_secs_f64();
            println!("{}: {} texts, {} calls, {} differences, {:.0} s", family.name, family.texts, family.calls, family.differences, family.seconds);
        }
    }

    fn rng(&self, number: u64) -> Rng {
        Rng::new(self.seed, self.families.len() as u64, number)
    }

    fn text(&mut self, text: &[u8], care: Care) {
        let number = self.families.last().map_or(0, |family| family.texts);
        let mut rng = Rng::new(!self.seed, self.families.len() as u64, number);
        let (wanted, result) = compare(&mut self.port, text, care, &mut rng);
        let family = self.families.last_mut().expect("a family");
        family.texts += 1;
        family.paired += u64::from(lines::has_pair(text));
        family.outside += u64::from(wanted.outside);
        if wanted.outside {
            self.own[wanted.own as usize] += 1;
        }
        match wanted.source {
            Source::Rico | Source::LinesPart | Source::RulesPart => {}
            Source::Panics | Source::PanicsElsewhere => family.panics += 1,
            Source::CutOtherwise | Source::CutElsewhere => family.otherwise += 1,
            Source::NotJudged => family.not_judged += 1,
        }
        if wanted.source != Source::NotJudged {
            match wanted.refusal {
                Some([number, ..]) => self.numbers[number as usize] += 1,
                None => {
                    family.accepted += 1;
                    self.numbers[0] += 1;
                    for record in wanted.nodes.chunks(NODE_WIDTH).chain(wanted.comments.chunks(COMMENT_WIDTH)) {
                        self.kinds[record[0] as usize] += 1;
                        self.flags |= record[2];
                    }
                    for pair in wanted.nodes.chunks(NODE_WIDTH).zip(wanted.nodes.chunks(NODE_WIDTH).skip(1)) {
                        // an id is a field's first child
                        match pair {
                            ([12, ..], [17, ..]) => self.fields[0] += 1,
                            ([12, _, flags, ..], _) => self.fields[1 + (flags & 3) as usize] += 1,
                            _ => {}
                        }
                    }
                    let records = (wanted.nodes.len() / NODE_WIDTH + wanted.comments.len() / COMMENT_WIDTH) as u64;
                    self.records[usize::from(lines::has_pair(text))] += records;
                    self.records[2] += wanted.moved.0;
                    self.records[3] += wanted.moved.1;
                    self.moved += u64::from(wanted.moved.0 > 0);
                    match &wanted.numbers {
                        Numbers::All(numbers) => {
                            let (count, below) = (numbers.len(), numbers.iter().filter(|number| **number < 0).count());
                            self.listed[[1, 10, 100].partition_point(|least| *least <= count)] += 1;
                            self.members = [self.members[0] + count as u64, self.members[1] + below as u64, self.members[2].max(count as u64)];
                        }
                        Numbers::Outside { walked, .. } => self.listed[4 + usize::from(*walked)] += 1,
                    }
                    self.longest_print = self.longest_print.max(wanted.prints.iter().map(Vec::len).max().unwrap_or(0));
                }
            }
        }
        if let Err(fault) = result {
            self.differs(text, fault);
        }
    }

    fn differs(&mut self, text: &[u8], fault: Fault) {
        let family = self.families.last_mut().expect("a family");
        family.differences += 1;
        let origin = format!("{}, text {}", family.name, family.texts);
        let found = self.found.entry(fault.kind.clone()).or_insert_with(|| Found { count: 0, text: text.to_vec(), fault: fault.clone(), origin: origin.clone() });
        found.count += 1;
        if text.len() < found.text.len() {
            (found.text, found.fault, found.origin) = (text.to_vec(), fault, origin);
        }
    }

    /// A difference of some kind, on a text from which nothing can be left out.
    fn reduced(&mut self, found: &Found) -> (Vec<u8>, Fault) {
        let (mut text, mut said) = (found.text.clone(), found.fault.clone());
        let mut tries = 0;
        let mut piece = text.len() / 2;
        let began = Instant::now();
        while piece > 0 {
            let mut at = 0;
            while at + piece <= text.len() && began.elapsed().as_secs() < 20 {
                let less = [&text[..at], &text[at + piece..]].concat();
                let same = (0..3).find_map(|turn| {
                    tries += 1;
                    compare(&mut self.port, &less, Care::All, &mut Rng::new(turn, 0, tries)).1.err().filter(|fault| fault.kind == found.fault.kind)
                });
                match same {
                    Some(fault) => (text, said) = (less, fault),
                    None => at += piece,
                }
            }
            piece /= 2;
        }
        (text, said)
    }

    fn generated(&mut self, count: u64, corpus: &[Vec<u8>]) {
        let parts: [(&'static str, u64); 8] = [
            ("documents", 34), ("documents with slips", 14), ("damaged documents", 24), ("token soup", 8), ("bytes, well-formed UTF-8 or not", 7),
            ("nesting around 32", 5), ("damaged corpus", 4), ("damaged twice", 4),
        ];
        let mut left = count;
        for (kind, (name, share)) in parts.into_iter().enumerate() {
            self.begin(name);
            let count = if kind == 7 { left } else { count * share / 100 };
            left -= count;
            for number in 0..count {
                let mut rng = self.rng(number);
                let rng = &mut rng;
                let text = match kind {
                    0 => texts::document(rng, 0),
                    1 => {
                        let wrong = rng.one(&[5, 10, 30, 80]);
                        texts::document(rng, wrong)
                    }
                    2 => {
                        let text = texts::document(rng, 0);
                        texts::damaged(rng, &text)
                    }
                    3 => {
                        let length = 1 + rng.below(14);
                        texts::token_soup(rng, length)
                    }
                    4 => {
                        let length = 1 + rng.below(24);
                        texts::byte_soup(rng, length)
                    }
                    5 => texts::deep(rng),
                    6 => {
                        let text = match corpus.len() {
                            0 => texts::document(rng, 0),
                            n => corpus[rng.below(n)].clone(),
                        };
                        texts::damaged(rng, &text)
                    }
                    _ => {
                        let text = texts::document(rng, 0);
                        let text = texts::damaged(rng, &text);
                        texts::damaged(rng, &text)
                    }
                };
                self.text(&text, Care::Usual);
            }
        }
    }

    /// All sequences over an alphabet up to a length, behind a head, with and without a tail.
    fn sequences(&mut self, alphabet: &[&[u8]], longest: usize, head: &[u8], tail: &[u8]) {
        let mut digits: Vec<usize> = Vec::new();
        let mut text = Vec::new();
        loop {
            text.clear();
            text.extend_from_slice(head);
            for digit in &digits {
                text.extend_from_slice(alphabet[*digit]);
            }
            self.text(&text, Care::Quick);
            if !tail.is_empty() {
                text.extend_from_slice(tail);
                self.text(&text, Care::Quick);
            }
            // the next sequence: longer ones later
            let mut at = 0;
            while at < digits.len() && digits[at] + 1 == alphabet.len() {
                digits[at] = 0;
                at += 1;
            }
            if at == digits.len() {
                digits.push(0);
                if digits.len() > longest {
                    return;
                }
            } else {
                digits[at] += 1;
            }
        }
    }

    fn short(&mut self, longest: usize) {
        self.begin("all short texts, 14 lexemes");
        let top: [&[u8]; 14] = [b"struct ", b"enum ", b"const ", b"i8 ", b"A ", b"{", b"}", b"(", b")", b"=", b"1 ", b",", b":", b"#c\n"];
        self.sequences(&top, longest, b"", b"");
        self.begin("all short texts in 28 frames, 22 lexemes");
        let inner: [&[u8]; 22] = [
            b"i8 ", b"a ", b"1 ", b":", b"=", b",", b"#c\n", b"(", b")", b"{", b"}", b"[", b"]", b"<", b">", b"'s'", b"list ", b"required ", b"void ",
            b"throws ", b"oneway ", b"extends ",
        ];
        let frames: [(&[u8], &[u8]); 28] = [
            (b"struct A{required ", b"}"), (b"struct A{i8 a", b"}"), (b"service S{void f(required ", b")}"), (b"service S{void f()throws(optional ", b")}"), (b"struct A{", b"}"), (b"struct A{1:", b"}"), (b"struct A{1:i8 a", b"}"), (b"struct A{1:i8 a=", b"}"), (b"struct A{}(", b")"), (b"enum E{", b"}"),
            (b"enum E{A", b"}"), (b"enum E{A=", b"}"), (b"service S ", b"{}"), (b"service S{", b" f()}"), (b"service S{void f", b"}"),
            (b"service S{void f(", b")}"), (b"service S{void f(1:i8 a", b")}"), (b"service S{void f()", b"}"), (b"service S{void f()throws", b"}"),
            (b"service S{void f()throws(", b")}"), (b"const i8 X=", b"\n"), (b"const i8 X=[", b"]"), (b"const i8 X={", b"}"), (b"typedef ", b" T"),
            (b"const ", b" X=1"), (b"namespace ", b" a"), (b"const map<", b">X=1"), (b"#c\n", b"enum E{}"),
        ];
        for (head, tail) in frames {
            self.sequences(&inner, 3, head, tail);
        }
        self.begin("all short byte strings, 16 bytes, alone and as values");
        let bytes: [&[u8]; 16] = [b"a", b"e", b"1", b"0", b"x", b".", b"+", b"-", b"\"", b"'", b"\\", b"/", b"*", b"#", b"\n", b" "];
        self.sequences(&bytes, longest - 1, b"", b"");
        self.sequences(&bytes, longest - 1, b"const i8 X=[", b"]");
        self.begin("all short texts, keywords and dots");
        let dots: [&[u8]; 12] = [b"list", b"true", b"i8", b".", b"a", b" ", b"5", b"<", b">", b"_", b",", b"\n"];
        self.sequences(&dots, longest - 1, b"const i8 X=[", b"]");
        self.sequences(&dots, longest - 1, b"typedef ", b" T");
    }

    /// Texts with other line ends, CR LF foremost.
    fn line_ends(&mut self, count: u64, corpus: &[Vec<u8>], longest: usize) {
        self.begin("documents with CR LF and mixed line ends");
        for number in 0..count {
            let mut rng = self.rng(number);
            let wrong = rng.one(&[0, 0, 0, 10]);
            let text = texts::document(&mut rng, wrong);
            let mut text = texts::other_ends(&mut rng, &text);
            if rng.percent(20) {
                text = texts::damaged(&mut rng, &text);
            }
            self.text(&text, Care::Usual);
        }
        self.begin("corpus with CR LF and mixed line ends");
        for (number, text) in corpus.iter().enumerate() {
            let mut rng = self.rng(number as u64);
            for _ in 0..20 {
                let text = texts::other_ends(&mut rng, text);
                self.text(&text, Care::Usual);
            }
        }
        self.begin("all short texts of line ends, strings and comments");
        let ends: [&[u8]; 11] = [b"\r", b"\n", b"\x0c", b" ", b"#", b"//", b"/*", b"*/", b"include'", b"'", b"enum E{}"];
        self.sequences(&ends, longest.max(5) - 1, b"", b"enum E{}");
    }

    /// Bytes that may or may not be UTF-8, alone and in a comment; every byte and pair of bytes is among them.
    fn bytes(&mut self) {
        self.begin("UTF-8: every byte, pair, longer ones from their first bytes");
        let edges = [0x00, 0x2a, 0x7f, 0x80, 0x8f, 0x90, 0x9f, 0xa0, 0xbf, 0xc0, 0xff];
        let both = |all: &mut Compare, bytes: &[u8]| {
            all.text(bytes, Care::Quick);
            all.text(&[b"/*", bytes, b"*/enum E{}"].concat(), Care::Quick);
        };
        for one in 0..=255 {
            both(self, &[one]);
            for two in 0..=255 {
                both(self, &[one, two]);
                for three in edges.into_iter().filter(|_| one >= 0xe0) {
                    both(self, &[one, two, three]);
                    for four in edges.into_iter().filter(|_| one >= 0xf0) {
                        both(self, &[one, two, three, four]);
                    }
                }
            }
        }
    }

    /// Small documents of every kind; at each of their tokens every lexeme put in, or in its place; the token gone, doubled; the text cut.
    fn places(&mut self) {
        self.begin("every lexeme in every place of 28 documents");
        let lexemes: Vec<&[u8]> = texts::KEYWORDS
            .iter()
            .copied()
            .chain(texts::MARKS.iter().copied())
            .chain([
                &b"x"[..], b"a.b", b"list.x", b"'s'", b"\"\\\"\"", b"1", b"+1", b"-1", b"1.5", b"1e5", b".5", b"0xF", b"#c\n", b"/*c*/", b"/*c\n*/", b"@", b"\xff", b"99999999999999999999", b", ,", b"; #c\n", b"#c\n;",
                b"(a='b')", b"[1]", b"{1:2}", b"=1", b"list<i8>", b"1:", b"i8.", b"true.",
            ])
            .collect();
        let documents = [
            "include 's'", "cpp_include 's' ;", "namespace * a", "namespace a b.c", "const i8 X = 1", "const map < i8 , list < i8 > > X = { 1 : [ a , 's' ] ; true : { } }", "typedef i8 T",
            "typedef set < map < a , i8 > > T", "enum E { }", "enum E { A , B = 1 ; C = 0x1 ( a = 's' ) }", "enum E { A ( a = 's' , b = 's' ) } ( c = 's' ; )", "struct A { }", "struct A { 1 : i8 a }",
            "struct A { 1 : required i8 a = 1 , 2 : optional list < i8 > b ( a = 's' ) ; i8 list }", "union U { 1 : i8 a = [ 1 , 2 ] } ( a = 's' )", "exception X { 1 : i8 a = { a : 1 } }", "service S { }",
            "service S extends B { void f ( ) }", "service S { oneway void f ( 1 : i8 a , 2 : required i8 b = 1 ) }", "service S { i8 f ( ) throws ( 1 : X x ) , list < i8 > g ( ) ( a = 's' ) }",
            "service S { void f ( 1 : i8 a ( a = 's' ) ) throws ( ) ; #c\n ( a = 's' ) } ( b = 's' )", "#c\n enum E { #d\n A /*e*/ }", "struct A { #c\n 1 : i8 a #d\n } #e\n enum E { }",
            "const i8 X = [ /*c*/ 1 , #d\n 2 ] , #e\n ; typedef i8 T", "struct A { i8 a }", "union U { required i8 a = 1 , optional list < i8 > b ( a = 's' ) x y ; 1 : i8 z }",
            "exception X { #c\n A.b a #d\n required i8 b }", "service S { void f ( i8 a , required x b ; 1 : i8 c ) throws ( X x ; optional Y y ) }",
        ];
        for document in documents {
            let tokens: Vec<&[u8]> = document.split(' ').map(str::as_bytes).collect();
            let joined = |parts: &[&[u8]]| parts.join(&b' ');
            for at in 0..=tokens.len() {
                let (before, behind) = tokens.split_at(at);
                self.text(&joined(before), Care::Usual);
                self.text(&before.concat(), Care::Usual);
                for lexeme in &lexemes {
                    self.text(&joined(&[before, &[*lexeme], behind].concat()), Care::Quick);
                    if let [token, rest @ ..] = behind {
                        self.text(&joined(&[before, &[*lexeme], rest].concat()), Care::Quick);
                        // right against the next token
                        let tight = [*lexeme, token].concat();
                        self.text(&joined(&[before, &[&tight[..]], rest].concat()), Care::Quick);
                    }
                }
                if let [token, rest @ ..] = behind {
                    self.text(&joined(&[before, rest].concat()), Care::Usual);
                    self.text(&joined(&[before, &[*token, *token], rest].concat()), Care::Usual);
                }
            }
        }
    }

    /// Bodies and lists of parameters made of what may start a field, and what may not.
    fn starts(&mut self, count: u64) {
        self.begin("starts of fields");
        for number in 0..count {
            let mut rng = self.rng(number);
            let mut text = texts::field_soup(&mut rng);
            match rng.below(20) {
                0 => text = texts::other_ends(&mut rng, &text),
                1 => text = texts::damaged(&mut rng, &text),
                _ => {}
            }
            self.text(&text, Care::Usual);
        }
    }

    fn ids(&mut self) {
        self.begin("field ids");
        for sign in ["", "+", "-"] {
            for zeros in [0, 1, 2, 19, 40] {
                let edges = (0..40).map(|n| (1u128 << 64) - 20 + n).chain((0..12).map(|n| n * 1_000_000_007)).chain([u64::MAX as u128 / 10, 10u128.pow(20), 10u128.pow(19), u128::MAX]);
                for number in edges {
                    let id = format!("{sign}{}{number}", "0".repeat(zeros));
                    for text in [format!("struct A{{{id}:i8 a}}"), format!("service S{{void f({id}:i8 a)throws(1:i8 b;{id} :i8 c)}}"), format!("union U{{{id} i8 a}}")] {
                        self.text(text.as_bytes(), Care::Usual);
                    }
                }
            }
        }
    }

    fn long(&mut self, count: u64) {
        self.begin("long documents, up to 64 KiB");
        for number in 0..count {
            let mut rng = self.rng(number);
            let most = rng.one(&[60, 700]);
            let definitions = 10 + rng.below(most);
            let mut text = texts::long(&mut rng, definitions);
            if rng.percent(20) {
                text = texts::damaged(&mut rng, &text);
            }
            self.text(&text, Care::Usual);
        }
    }

    fn nesting(&mut self) {
        self.begin("nesting 30 to 34, every place, whole and cut");
        for depth in 30..=34 {
            for form in 0..5 {
                let mut rng = self.rng((depth * 5 + form) as u64);
                let (kind, value) = (texts::deep_type(depth, form, &mut rng), texts::deep_value(depth, form, &mut rng));
                let framed = texts::TYPE_FRAMES.iter().map(|f| (f, &kind)).chain(texts::VALUE_FRAMES.iter().map(|f| (f, &value)));
                for ((head, tail), part) in framed {
                    let text = [head, &part[..], tail].concat();
                    self.text(&text, Care::All);
                    for end in 0..text.len() {
                        self.text(&text[..end], Care::Quick);
                    }
                    let two = [&text[..], b"\n", &text[..]].concat();
                    self.text(&two, Care::Usual);
                }
            }
        }
    }

    fn lengths(&mut self) {
        self.begin("lengths around 65,536");
        let fillers: [(&[u8], &[u8], &[u8]); 46] = [
            (b"struct A{", b"a b,", b"}"), (b"struct A{", b"required a b ", b"}"), (b"service S{a f(", b"a b;", b")}"),
            (b"", b" ", b""), (b"", b"\n", b""), (b"", b",", b""), (b"", b";\n", b""), (b"//", b"a", b""), (b"#", b"\xc3\xa9", b"\n"), (b"/*", b"a\n", b"*/"), (b"/*", b"*", b"/"),
            (b"/*", b"a", b""), (b"include'", b"a", b"'"), (b"include'", b"a", b""), (b"typedef i8 ", b"a", b""), (b"typedef ", b"a.", b"b c"), (b"const i8 X=", b"1", b""),
            (b"const i8 X=[", b"1 ", b"]"), (b"const i8 X=[", b",", b"]"), (b"const i8 X={", b"a:b ", b"}"), (b"const i8 X=", b"[", b""), (b"const i8 X=", b"{1:", b""),
            (b"typedef ", b"list<", b""), (b"typedef ", b"map<i8,", b""), (b"enum E{", b"A,", b"}"), (b"enum E{", b"A=1\n", b"}"), (b"struct A{", b"1:i8 a,", b"}"),
            (b"struct A{", b"1:i8 a", b"}"), (b"service S{", b"void f(1:i8 a)", b"}"), (b"", b"enum E{}", b""), (b"", b"#\n", b"enum E{}"), (b"enum E{", b"/**/", b"A}"),
            (b"enum E{}(", b"a='b'", b")"), (b"enum E{}", b" ", b"@"), (b"enum E{}", b"\n", b"\xff"), (b"\xff", b"\n", b"@"), (b"", b"\xf0\x9f\x98\x80", b""),
            (b"service S{a f(", b"1:a b", b")}"), (b"service S{a f()throws(", b"1:a b;", b")}"), (b"service S{a f()", b";", b"}"), (b"service S{", b"a f()", b"}"),
            (b"const a b=[", b"/**/", b"]"), (b"const a b={", b",", b"}"), (b"enum E{", b";", b"}"), (b"enum E{}(", b"#\n", b")"), (b"", b"namespace a b\n", b""),
        ];
        for (head, filler, tail) in fillers {
            for length in [65_534, 65_535, 65_536, 65_537, 65_538, 131_072] {
                let mut text = head.to_vec();
                while text.len() + filler.len() + tail.len() <= length {
                    text.extend_from_slice(filler);
                }
                let gap = length - text.len() - tail.len();
                // the rest by blanks before the tail, and by a part of the filler
                let blanks = [&text[..], &vec![b' '; gap], tail].concat();
                self.text(&blanks, Care::All);
                if gap > 0 {
                    let part = [&text[..], &filler[..gap], tail].concat();
                    self.text(&part, Care::Usual);
                }
            }
        }
        self.begin("prints around 65,536 bytes");
        for length in [65_535, 65_536, 65_537] {
            for indent in [0, 2, 8] {
                // the print of each: so many bytes
                for (head, behind) in [(0, &b"enum E{}"[..]), (1, b"enum E{A=1}"), (2, b"struct A{1:i8 a}"), (3, b"service S{void f(1:i8 a)throws()}"), (4, b"struct A{required a b}")] {
                    let rest = wanted(behind, Some(indent)).prints[indent].len();
                    let text = [b"//", &vec![b'a' + head; length - rest - 3][..], b"\n", behind].concat();
                    self.text(&text, Care::All);
                    let print = wanted(&text, Some(indent)).prints[indent].clone();
                    assert_eq!(print.len(), length);
                    self.text(&print, Care::All);
                    for number in 0..3 {
                        let mut rng = self.rng((length * 100 + indent * 10 + number) as u64);
                        self.list(&text, indent, 12, &mut rng);
                    }
                }
            }
        }
    }

    /// Each length of both tables and of the output, around what is needed.
    fn tables(&mut self, count: u64) {
        self.begin("every length of tables and outputs");
        let mut number = 0;
        let mut made = 0;
        while made < count {
            let mut rng = self.rng(number);
            number += 1;
            let text = texts::document(&mut rng, 0);
            let wanted = wanted(&text, None);
            let (n, c) = (wanted.nodes.len(), wanted.comments.len());
            if wanted.source != Source::Rico || wanted.refusal.is_some() || n > 30 * NODE_WIDTH || c > 10 * COMMENT_WIDTH {
                continue;
            }
            made += 1;
            self.text(&text, Care::Usual);
            let indent = rng.below(INDENTS);
            let b = wanted.prints[indent].len();
            let outs: Vec<usize> = (0..=b + 9).collect();
            let mut result = Ok(());
            let m = if let Numbers::All(numbers) = &wanted.numbers { numbers.len() } else { 5 };
            for (nodes, list) in (0..=n + 19).flat_map(|nodes| (0..=m + 4).map(move |list| (nodes, list))) {
                let comments = rng.one(&[0, c.saturating_sub(1), c, c, c, c + 3]);
                result = result.and_then(|()| self.port.numbers(&text, &wanted, nodes, comments, list, &mut rng).map(drop));
            }
            'all: for nodes in 0..=n + 19 {
                for comments in [0, c.saturating_sub(COMMENT_WIDTH), c.saturating_sub(1), c, c + 1, c + COMMENT_WIDTH, rng.below(c + 20)] {
                    result = self.port.read(&text, &wanted, nodes, comments, &mut rng).map(drop);
                    if result.is_err() {
                        break 'all;
                    }
                    for out in [0, b.saturating_sub(1), b, b + 1, rng.below(b + 20)] {
                        result = self.port.print(&text, &wanted, indent as u32, nodes, comments, out, &mut rng).map(drop);
                        if result.is_err() {
                            break 'all;
                        }
                    }
                }
            }
            for (comments, out) in (0..=c + 19).flat_map(|comments| outs.iter().map(move |out| (comments, out))) {
                if result.is_ok() && (comments + out) % 3 == 0 {
                    result = self.port.print(&text, &wanted, indent as u32, n, comments, *out, &mut rng).map(drop);
                }
            }
            if let Err(fault) = result {
                self.differs(&text, sided(fault, wanted.outside));
            }
        }
    }

    fn list(&mut self, text: &[u8], indent: usize, length: usize, rng: &mut Rng) -> calls::Made {
        calls::list(&mut self.port, text, indent, length, rng).unwrap_or_else(|fault| {
            self.differs(text, sided(fault, wanted(text, Some(indent)).outside));
            calls::Made::default()
        })
    }

    /// Demand 3. Texts here are lists of calls, accepted those within the premise.
    fn demand(&mut self, count: u64, corpus: &[Vec<u8>]) -> (u64, u64) {
        self.begin("demand 3: lists of calls");
        let mut printed = (0, 0);
        for number in 0..count {
            let mut rng = self.rng(number);
            let parts = texts::agreeing(&mut rng);
            let style = texts::style(&mut rng);
            let mut text = texts::render(&parts, &mut rng, style);
            match rng.below(100) {
                0..=24 => text = texts::damaged(&mut rng, &text),
                25 if !corpus.is_empty() => text = corpus[rng.below(corpus.len())].clone(),
                26..=29 => text = texts::deep(&mut rng),
                _ => {}
            }
            let (indent, length) = (rng.below(INDENTS), 4 + rng.below(12));
            let made = self.list(&text, indent, length, &mut rng);
            let family = self.families.last_mut().expect("a family");
            family.texts += 1;
            family.paired += u64::from(lines::has_pair(&text));
            family.outside += u64::from(made.outside);
            if let Some(printings) = made.printings {
                family.accepted += 1;
                printed.0 += u64::from(printings > 0);
                printed.1 += printings as u64;
            }
        }
        self.begin("demand 3: pairs of agreeing texts");
        for number in 0..count {
            let mut rng = self.rng(number);
            let parts = texts::agreeing(&mut rng);
            let (one, other) = (texts::style(&mut rng), texts::style(&mut rng));
            let (one, other) = (texts::render(&parts, &mut rng, one), texts::render(&parts, &mut rng, other));
            let result = calls::pair(&mut self.port, &one, &other, &mut rng);
            let family = self.families.last_mut().expect("a family");
            family.texts += 1;
            family.paired += u64::from(lines::has_pair(&one) || lines::has_pair(&other));
            match result {
                Ok(made) => {
                    family.accepted += u64::from(made.printings.is_some());
                    family.outside += u64::from(made.outside);
                }
                Err(fault) => self.differs(&one, sided(fault, wanted(&one, Some(0)).outside)),
            }
        }
        printed
    }

    fn corpus(&mut self, corpus: &[Vec<u8>], every: usize) {
        self.begin("corpus, whole");
        for text in corpus {
            self.text(text, Care::All);
        }
        self.begin("corpus, cut");
        for text in corpus {
            for end in (0..text.len()).step_by(every) {
                self.text(&text[..end], Care::Quick);
            }
        }
        self.begin("corpus, files joined up to the limit");
        let accepted: Vec<&Vec<u8>> = corpus.iter().filter(|text| wanted(text, Some(0)).refusal.is_none()).collect();
        for number in 0..accepted.len().min(20) as u64 {
            let mut rng = self.rng(number);
            let mut text = Vec::new();
            loop {
                let file = accepted[rng.below(accepted.len())];
                if text.len() + file.len() + 1 > LONGEST {
                    // whole files, then one that is cut
                    self.text(&text, Care::Usual);
                    text.extend_from_slice(&file[..LONGEST - text.len()]);
                    self.text(&text, Care::Usual);
                    break;
                }
                text.extend_from_slice(file);
                text.push(b'\n');
            }
        }
    }

    /// One stored table: exact, longer, shorter outputs. Texts here are tables, accepted those that can be moved.
    fn table(&mut self, way: Way, table: &[u32], wanted: &Moved, rng: &mut Rng) {
        let need = table.len() / way.from() * way.to();
        let outs = [need, need + 1 + rng.below(30), need.saturating_sub(1 + rng.below(12)), 0, rng.below(need + 1)];
        let family = self.families.last_mut().expect("a family");
        family.texts += 1;
        family.accepted += u64::from(matches!(wanted, Moved::Rows { .. }));
        for out in outs {
            if let Err(fault) = self.port.move_table(way, table, wanted, out, rng) {
                // no text leads to it, so what is shown are the numbers
                let shown: Vec<u8> = table.iter().take(400).flat_map(|n| format!("{n} ").into_bytes()).collect();
                return self.differs(&shown, fault);
            }
        }
    }

    /// Change 7: stored tables, right and damaged, moved both ways.
    fn moves(&mut self, count: u64) {
        self.begin("stored tables moved");
        let mut rng = self.rng(count);
        for (parents, known) in moves::KNOWN {
            let nine = moves::laid(parents, None);
            // where a parent is bad, the tenth numbers are whatever
            let ten = moves::laid(parents, Some(known.unwrap_or(parents)));
            let records = parents.len() as u32;
            for (way, table, rows) in [(Way::Widen, &nine, &ten), (Way::Narrow, &ten, &nine)] {
                let wanted = match known {
                    Ok(_) => Moved::Rows { records, rows: rows.clone() },
                    Err(place) => Moved::Refused(*place),
                };
                assert_eq!(moves::moved(way, table).into_output(1 << 20), wanted.into_output(1 << 20), "the model of {way:?} on {parents:?}");
                self.table(way, table, &wanted, &mut rng);
            }
        }
        for number in 0..count {
            let mut rng = self.rng(number);
            let (way, table) = moves::table(&mut rng, number % 5000 == 0);
            let wanted = moves::moved(way, &table);
            self.table(way, &table, &wanted, &mut rng);
        }
    }

    /// Change 2: texts made of enums.
    fn enums(&mut self, count: u64, longest: usize) {
        self.begin("enums: numbers at every edge");
        for (text, known) in enums::KNOWN {
            let numbers = match known {
                Ok(numbers) => ([0, numbers.len() as u32, 0], *numbers),
                Err((place, length)) => ([28, *place, *length], &[][..]),
            };
            let wanted = wanted(text.as_bytes(), None);
            let (answer, _, _, list) = wanted.numbering(1 << 20, 1 << 20, 1 << 20);
            assert_eq!((answer, list), numbers, "the model on {text}");
            self.text(text.as_bytes(), Care::All);
        }
        let mut rng = self.rng(count);
        for number in enums::edges() {
            for hex in [false, true] {
                for frame in ["enum E{A=N}", "enum E{A=N,B}", "enum E{A;B=N C D}enum F{G,H=N}", "enum E{A,B}const i8 X=N;enum F{C=1;long.name_2 = N (a='b')}#c\n"] {
                    for _ in 0..4 {
                        let text = frame.replace('N', &enums::written(&mut rng, number, hex));
                        self.text(text.as_bytes(), Care::Usual);
                    }
                }
            }
        }
        self.begin("enums: all short bodies, 10 lexemes");
        let pieces: [&[u8]; 10] = [b"A ", b"B,", b"=", b"2147483647 ", b"0x7FFFFFFE ", b"-2147483648 ", b"2147483648 ", b"5;", b"(a='b')", b"}enum F{"];
        self.sequences(&pieces, longest, b"enum E{", b"}");
        self.begin("enums");
        for number in 0..count {
            let mut rng = self.rng(number);
            let text = enums::text(&mut rng, number % 400 == 0);
            self.text(&text, Care::Usual);
        }
    }

    fn kept(&mut self, folder: &str) {
        self.begin("texts of the kept lists");
        for (name, tokens) in [("../crates/replay_tokens/stdin", true), ("differences.list", true), ("../crates/replay_nodes/stdin", false), ("panics.list", false)] {
            let bytes = std::fs::read(format!("{folder}/{name}")).expect(name);
            for text in kept(&bytes, tokens) {
                self.text(text, Care::Usual);
                if name == "panics.list" {
                    // behind a field that only the rule of Change 4 accepts, and one that only rico accepts
                    self.text(&[b"union U{a b}", text].concat(), Care::Usual);
                    self.text(&[b"union U{)a b}", text].concat(), Care::Usual);
                }
            }
        }
    }
}

/// The texts of a kept list (oracle/README.md has the format).
fn kept(bytes: &[u8], tokens: bool) -> Vec<&[u8]> {
    let number = |at: &mut usize| {
        *at += 4;
        u32::from_le_bytes(bytes[*at - 4..*at].try_into().unwrap()) as usize
    };
    let at = &mut 0;
    let mut texts = Vec::new();
    for _ in 0..number(at) {
        let length = number(at);
        texts.push(&bytes[*at..*at + length]);
        *at += length;
        let refusal = number(at);
        *at += 4;
        if tokens {
            *at += number(at) * 28;
            continue;
        }
        *at += 4;
        if refusal == 0 {
            *at += number(at) * 4 * NODE_WIDTH + number(at) * 4 * COMMENT_WIDTH;
            for _ in 0..3 {
                *at += number(at);
            }
        }
    }
    texts
}

fn run() -> u64 {
    std::panic::set_hook(Box::new(|panic| {
        // rico's panics are caught and counted; one of the harness is shown
        if panic.location().is_some_and(|at| !at.file().contains("rico")) {
            eprintln!("{panic}");
        }
    }));
    let words: Vec<String> = std::env::args().skip(1).collect();
    let [seed, count, corpus, oracle] = &words[..] else { panic!("usage: compare SEED COUNT CORPUS ORACLE") };
    let (seed, count): (u64, u64) = (seed.parse().expect("SEED, a number"), count.parse().expect("COUNT, a number"));
    let mut files: Vec<_> = std::fs::read_dir(corpus).into_iter().flatten().flatten().map(|entry| entry.path()).collect();
    files.retain(|path| path.extension().is_some_and(|e| e == "thrift"));
    files.sort();
    let corpus: Vec<Vec<u8>> = files.iter().map(|path| std::fs::read(path).expect("a readable file")).collect();
    println!("seed {seed}, {count} generated texts, {} files of the corpus", corpus.len());

    let mut all = Compare {
        seed,
        port: Port::new(),
        families: Vec::new(),
        found: BTreeMap::new(),
        numbers: [0; 28],
        kinds: [0; 34],
        flags: 0,
        records: [0; 4],
        moved: 0,
        fields: [0; 4],
        own: [0; 6],
        longest_print: 0,
        listed: [0; 6],
        members: [0; 3],
        began: Instant::now(),
    };
    // how far the families that are not random go, by the count
    let (longest, every) = match count {
        1_000_000.. => (6, 5),
        100_000.. => (5, 29),
        _ => (4, 201),
    };
    all.generated(count, &corpus);
    all.corpus(&corpus, every);
    all.kept(oracle);
    all.nesting();
    all.lengths();
    all.long(count / 2000);
    all.tables(count / 4000);
    all.bytes();
    all.places();
    all.ids();
    all.starts(count / 5);
    let printed = all.demand(count / 10, &corpus);
    all.short(longest);
    all.line_ends(count / 10, &corpus, longest);
    all.moves(count / 5);
    all.enums(count / 4, longest);
    all.close();

    println!("\n| texts | count | accepted | with CR LF | outside | rico panics | cut otherwise | not judged | calls | differences |\n|---|---|---|---|---|---|---|---|---|---|");
    let mut sum = Family { name: "**all**", ..Family::default() };
    for f in &all.families {
        sum.texts += f.texts;
        sum.accepted += f.accepted;
        sum.paired += f.paired;
        sum.outside += f.outside;
        sum.panics += f.panics;
        sum.otherwise += f.otherwise;
        sum.not_judged += f.not_judged;
        sum.calls += f.calls;
        sum.differences += f.differences;
        sum.seconds += f.seconds;
    }
    for f in all.families.iter().chain([&sum]) {
        println!(
            "| {} | {} | {} | {} | {} | {} | {} | {} | {} | {} |",
            f.name, thousands(f.texts), thousands(f.accepted), thousands(f.paired), thousands(f.outside), thousands(f.panics), thousands(f.otherwise), thousands(f.not_judged), thousands(f.calls), thousands(f.differences)
        );
    }
    println!("\n{:.0} s. Lists of calls with an accepted printing: {}, accepted printings in all: {}. Longest print: {} bytes.", sum.seconds, printed.0, printed.1, all.longest_print);
    let met = |counts: &[u64]| counts.iter().enumerate().filter(|(_, n)| **n > 0).map(|(k, n)| format!("{k} {}", thousands(*n))).collect::<Vec<_>>().join(", ");
    println!("Texts by refusal (0: accepted): {}.", met(&all.numbers));
    println!("Readings and printings by answer (0: accepted): {}.", met(&all.port.answers));
    println!("Moves of stored tables by answer (0: accepted): {}.", met(&all.port.moves));
    println!("Enum numbers by answer (0: accepted): {}. Of them 24 by the list: {}; 28 with an empty list: {}; a refusal of the reading where 28 would follow: {}.", met(&all.port.numbered), thousands(all.port.listed[0]), thousands(all.port.listed[1]), thousands(all.port.listed[2]));
    let [none, few, more, many, own, walked] = all.listed.map(thousands);
    let [members, below, most] = all.members.map(thousands);
    println!("Accepted texts, demand 3 apart, by enum members: none {none}, 1 to 9 {few}, 10 to 99 {more}, 100 and more {many}; 28 by a written number {own}, by the one behind 2147483647 {walked}. Members in lists: {members}, {below} of them below 0, {most} in the longest.");
    println!("Records by kind: {}. Flags met: {}.", met(&all.kinds), all.flags);
    let [without, with, lines, columns] = all.records.map(thousands);
    println!("Records of accepted texts: {without} without CR LF, all of rico's numbers compared; {with} with it, lines and columns by the rule: {lines} have another line than rico's, in {} texts, {columns} another column.", thousands(all.moved));

    let [with, none, required, optional] = all.fields.map(thousands);
    println!("Fields of accepted texts: {with} with id; without: {none} with no requiredness, {required} required, {optional} optional.");
    let own = |kind: Own| thousands(all.own[kind as usize]);
    println!(
        "Texts outside, demand 3 apart: {}. By rico: the same answer {}, accepted with other records {}, refused otherwise {}, only rico accepts {}, only rico refuses {}, a panic {}.",
        thousands(all.own.iter().sum()), own(Own::Same), own(Own::OtherRecords), own(Own::OtherRefusal), own(Own::OnlyRicoAccepts), own(Own::OnlyRicoRefuses), own(Own::None)
    );

    let found = std::mem::take(&mut all.found);
    for (kind, one) in &found {
        println!("\nDIFFERENCE, {kind}: {} times; the smallest text met ({}), {} bytes:\n  \"{}\"\n  {}", one.count, one.origin, one.text.len(), clip(&one.text), one.fault.said);
        let (text, fault) = all.reduced(one);
        println!("  reduced to {} bytes:\n  \"{}\"\n  {}", text.len(), clip(&text), fault.said);
    }
    println!("\n{} differences that are not documented", sum.differences);
    sum.differences
}

fn clip(text: &[u8]) -> String {
    if text.len() <= 4000 {
        return text.escape_ascii().to_string();
    }
    format!("{} ... {}", text[..2000].escape_ascii(), text[text.len() - 2000..].escape_ascii())
}

fn thousands(number: u64) -> String {
    let digits = number.to_string();
    let mut out = String::new();
    for (at, digit) in digits.chars().enumerate() {
        if at > 0 && (digits.len() - at) % 3 == 0 {
            out.push(',');
        }
        out.push(digit);
    }
    out
}
