//! Both sides: document 01's answer for a text, from rico, and the port's calls with all that they are lent.
//!
//! Change 4: a text is inside if each field that is begun starts with an integer token, else outside. The answer wanted is that of rico with the field
//! rule of Change 4 (oracle/fields.patch), which tells the side too. Inside rico unchanged must give the very same.
//!
//! Change 7: the tenth number of a node comes from rico's tree (oracle/src/flatten.rs). What a move of a stored table has to give is in moves.rs.
//!
//! Change 2: the numbers of enum members come from rico's tree, by enums.rs.

use crate::enums::{self, Member, Numbers};
use crate::lines;
use crate::moves::{Moved, Way};
use crate::random::Rng;
use oracle::flatten::{COMMENT_WIDTH, NODE_WIDTH};
use oracle::tokens::cut;
use rico::lexer::Token;

pub const LONGEST: usize = 65_536;
pub const INDENTS: usize = 9;

#[derive(Clone, Copy, PartialEq, Eq, Debug)]
pub enum Source {
    /// rico's own answer, or outside that of rico with the field rule of Change 4.
    Rico,
    /// rico panics at an enum member's `=`, the last token: the end rule in its place.
    Panics,
    /// rico panics elsewhere; the end rule all the same.
    PanicsElsewhere,
    /// rico cuts a keyword before a lone dot as an identifier: its answer for the text with a space put in there, the places moved back.
    CutOtherwise,
    /// rico cuts a keyword as an identifier where no lone dot follows.
    CutElsewhere,
    /// 23 could not be judged, or the space makes the text too long.
    NotJudged,
    /// The rule for CR LF and rico's answer for the text without it do not agree.
    LinesPart,
    /// Inside, and rico with the field rule of Change 4 gives another answer than rico.
    RulesPart,
}

/// What rico unchanged gives, outside, beside the answer wanted.
#[derive(Clone, Copy, PartialEq, Eq, Debug)]
pub enum Own {
    Same,
    /// Both accept, with other records.
    OtherRecords,
    /// Both refuse, with another number, place or length.
    OtherRefusal,
    OnlyRicoAccepts,
    OnlyRicoRefuses,
    /// rico panics, or can't be judged.
    None,
}

/// What document 01 says of a text, tables and output being large enough.
pub struct Wanted {
    pub source: Source,
    pub refusal: Option<[u32; 3]>,
    pub nodes: Vec<u32>,
    pub comments: Vec<u32>,
    /// Of the enum members; none of a refused text.
    pub numbers: Numbers,
    /// By indent; empty where not asked for.
    pub prints: Vec<Vec<u8>>,
    /// How many records have another line than rico's own, and another column: only where the text has CR LF.
    pub moved: (u64, u64),
    /// A field is begun with another token than an integer.
    pub outside: bool,
    /// Of a text outside.
    pub own: Own,
}

/// Whose answer.
#[derive(Clone, Copy, PartialEq, Eq)]
enum Rule {
    Rico,
    Fields,
}

const KEYWORDS: &[&str] = &[
    "namespace", "cpp_include", "include", "typedef", "const", "enum", "struct", "union", "exception", "service", "extends", "throws", "required",
    "optional", "void", "bool", "byte", "i8", "i16", "i32", "i64", "double", "string", "binary", "map", "list", "set", "true", "false", "oneway",
];

/// The ends of the keywords that rico cuts as identifiers, and whether a lone dot follows each.
fn cut_otherwise(text: &[u8]) -> (Vec<usize>, bool) {
    let lone = |at: usize| text.get(at) == Some(&b'.') && !text.get(at + 1).is_some_and(|b| b.is_ascii_alphabetic() || *b == b'_');
    let dotted = (1..text.len()).any(|at| text[at - 1].is_ascii_alphanumeric() && lone(at));
    let mut ends = Vec::new();
    if !dotted || text.len() > LONGEST {
        return (ends, true);
    }
    if let Ok(text) = std::str::from_utf8(text) {
        for token in &cut(text).tokens {
            if token.token == Token::Identifier && KEYWORDS.contains(&token.text) {
                ends.push(token.span.end);
            }
        }
    }
    let documented = ends.iter().all(|at| lone(*at));
    (ends, documented)
}

fn flat<const WIDTH: usize>(records: &[[u32; WIDTH]]) -> Vec<u32> {
    records.iter().flatten().copied().collect()
}

/// The answer for a text. `only`: the one indent that is asked for, or all.
pub fn wanted(text: &[u8], only: Option<usize>) -> Wanted {
    let mut wanted = answer(text, only, Rule::Fields);
    let own = answer(text, if wanted.outside { Some(INDENTS) } else { only }, Rule::Rico);
    let rows = (wanted.source, wanted.refusal, &wanted.nodes, &wanted.comments, &wanted.numbers) == (own.source, own.refusal, &own.nodes, &own.comments, &own.numbers);
    if wanted.outside {
        let judged = |side: &Wanted| !matches!(side.source, Source::Panics | Source::PanicsElsewhere | Source::NotJudged);
        wanted.own = match (wanted.refusal, own.refusal) {
            _ if !judged(&wanted) || !judged(&own) => Own::None,
            _ if rows => Own::Same,
            (None, None) => Own::OtherRecords,
            (Some(_), Some(_)) => Own::OtherRefusal,
            (Some(_), None) => Own::OnlyRicoAccepts,
            (None, Some(_)) => Own::OnlyRicoRefuses,
        };
    } else if !rows || wanted.prints != own.prints || wanted.moved != own.moved {
        wanted.source = Source::RulesPart;
    }
    wanted
}

/// The answer by a rule.
fn answer(text: &[u8], only: Option<usize>, rule: Rule) -> Wanted {
    let (ends, documented) = cut_otherwise(text);
    if ends.is_empty() {
        return judged(text, only, rule);
    }
    let mut spaced = Vec::with_capacity(text.len() + ends.len());
    let mut from = 0;
    for end in &ends {
        spaced.extend_from_slice(&text[from..*end]);
        spaced.push(b' ');
        from = *end;
    }
    spaced.extend_from_slice(&text[from..]);
    let mut wanted = judged(&spaced, only, rule);
    if wanted.source == Source::LinesPart {
        return wanted;
    }
    if wanted.source != Source::Rico && wanted.source != Source::Panics || spaced.len() > LONGEST {
        wanted.source = Source::NotJudged;
        return wanted;
    }
    wanted.source = if documented { Source::CutOtherwise } else { Source::CutElsewhere };
    // the space before which this place lay, if any, is one of those put in
    let back = |at: u32| at - ends.iter().enumerate().filter(|(k, end)| *end + k < at as usize).count() as u32;
    if let Some(refusal) = &mut wanted.refusal {
        refusal[1] = back(refusal[1]);
    }
    if let Numbers::Outside { place, .. } = &mut wanted.numbers {
        *place = back(*place);
    }
    for record in wanted.nodes.chunks_mut(NODE_WIDTH).chain(wanted.comments.chunks_mut(COMMENT_WIDTH)) {
        for place in [3, 6] {
            let line_start = record[place] + 1 - record[place + 2];
            record[place] = back(record[place]);
            record[place + 2] = record[place] + 1 - back(line_start);
        }
    }
    wanted
}

/// Rico's answer; where the text has CR LF, with lines and columns by Change 1, which must be rico's own for the text with spaces.
fn judged(text: &[u8], only: Option<usize>, rule: Rule) -> Wanted {
    let by = if rule == Rule::Rico { by_rico } else { by_fields };
    let mut wanted = by(text, only);
    if !lines::has_pair(text) {
        return wanted;
    }
    if wanted.refusal.is_none() {
        let (nodes, comments) = (lines::place(text, &mut wanted.nodes, NODE_WIDTH), lines::place(text, &mut wanted.comments, COMMENT_WIDTH));
        wanted.moved = (nodes.0 + comments.0, nodes.1 + comments.1);
    }
    let other = by(&lines::spaced(text), Some(INDENTS));
    if (other.refusal, &other.nodes, &other.comments, &other.numbers, other.outside) != (wanted.refusal, &wanted.nodes, &wanted.comments, &wanted.numbers, wanted.outside) {
        wanted.source = Source::LinesPart;
    }
    wanted
}

/// The answer of one of the two ricos, by the oracle over it.
macro_rules! asked {
    ($name:ident, $oracle:ident, $rico:ident) => {
        fn $name(text: &[u8], only: Option<usize>) -> Wanted {
            use $oracle::judge::{judge_fields, Answer};
            use $rico::ast::{Document, DocumentMembers, EnumMember};
            let member = |m: &EnumMember| Member { place: m.name.loc.start.index as u32, length: m.name.value.len() as u32, written: m.initializer.as_ref().map(|i| i.value.value.clone()) };
            let members = |document: &Document| -> Vec<Vec<Member>> {
                let of = |definition: &DocumentMembers| match definition {
                    DocumentMembers::Enum(one) => Some(one.members.iter().map(member).collect()),
                    _ => None,
                };
                document.members.iter().filter_map(of).collect()
            };
            let (answer, outside) = judge_fields(text);
            let refused = |source, (number, place, length): (u32, usize, usize)| Wanted {
                source,
                refusal: Some([number, place as u32, length as u32]),
                nodes: Vec::new(),
                comments: Vec::new(),
                numbers: Numbers::All(Vec::new()),
                prints: Vec::new(),
                moved: (0, 0),
                outside,
                own: Own::None,
            };
            match answer {
                Answer::Refused(refusal) => refused(Source::Rico, refusal),
                Answer::Panic(refusal) => {
                    let assigned = &text[refusal.1..refusal.1 + refusal.2] == b"=";
                    refused(if assigned { Source::Panics } else { Source::PanicsElsewhere }, refusal)
                }
                Answer::NotJudged => refused(Source::NotJudged, (0, 0, 0)),
                Answer::Accepted(document, tables) => Wanted {
                    source: Source::Rico,
                    refusal: None,
                    nodes: flat(&tables.nodes),
                    comments: flat(&tables.comments),
                    numbers: enums::numbers(&members(&document)),
                    prints: (0..INDENTS)
                        .map(|indent| match only {
                            Some(one) if one != indent => Vec::new(),
                            _ => $rico::Writer::new(indent).write(&document).into_bytes(),
                        })
                        .collect(),
                    moved: (0, 0),
                    outside,
                    own: Own::None,
                },
            }
        }
    };
}

asked!(by_rico, oracle, rico);
asked!(by_fields, oracle_fields, rico_fields);

impl Wanted {
    /// The answer of a reading with tables of these lengths, and what begins each table; the rest is 0.
    pub fn reading(&self, nodes: usize, comments: usize) -> ([u32; 3], &[u32], &[u32]) {
        let (n, c) = (self.nodes.len() / NODE_WIDTH, self.comments.len() / COMMENT_WIDTH);
        if let Some(refusal) = self.refusal {
            (refusal, &[], &[])
        } else if n > nodes / NODE_WIDTH {
            ([24, 0, 0], &[], &[])
        } else if c > comments / COMMENT_WIDTH {
            ([25, 0, 0], &[], &[])
        } else {
            ([0, n as u32, c as u32], &self.nodes, &self.comments)
        }
    }

    /// The answer of a call for the enum members' numbers, with tables and a list of these lengths, and what begins each.
    pub fn numbering(&self, nodes: usize, comments: usize, list: usize) -> ([u32; 3], &[u32], &[u32], &[i32]) {
        let (answer, node_rows, comment_rows) = self.reading(nodes, comments);
        match &self.numbers {
            _ if answer[0] != 0 => (answer, &[], &[], &[]),
            Numbers::Outside { place, length, .. } => ([28, *place, *length], &[], &[], &[]),
            Numbers::All(numbers) if numbers.len() > list => ([24, 0, 0], &[], &[], &[]),
            Numbers::All(numbers) => ([0, numbers.len() as u32, 0], node_rows, comment_rows, numbers),
        }
    }

    /// The same of a printing.
    pub fn printing(&self, indent: u32, nodes: usize, comments: usize, out: usize) -> ([u64; 4], &[u32], &[u32], &[u8]) {
        let refused = |number: u32| ([number as u64, 0, 0, 0], &[][..], &[][..], &[][..]);
        if self.refusal.is_some_and(|r| r[0] == 20) {
            return refused(20);
        }
        if indent as usize >= INDENTS {
            return refused(26);
        }
        let ([number, a, b], node_rows, comment_rows) = self.reading(nodes, comments);
        if number != 0 {
            return ([number as u64, a as u64, b as u64, 0], &[], &[], &[]);
        }
        let print = &self.prints[indent as usize];
        if print.len() > out {
            return refused(27);
        }
        ([0, a as u64, b as u64, print.len() as u64], node_rows, comment_rows, print)
    }
}

extern "C" {
    fn hirvelan_check(text: *const u8, length: usize, answer: *mut u32, answer_length: usize);
    fn hirvelan_read(text: *const u8, length: usize, nodes: *mut u32, nodes_length: usize, comments: *mut u32, comments_length: usize, answer: *mut u32, answer_length: usize);
    fn hirvelan_enum_numbers(text: *const u8, length: usize, nodes: *mut u32, nodes_length: usize, comments: *mut u32, comments_length: usize, list: *mut i32, list_length: usize, answer: *mut u32, answer_length: usize);
    fn hirvelan_print(text: *const u8, length: usize, indent: u32, nodes: *mut u32, nodes_length: usize, comments: *mut u32, comments_length: usize, out: *mut u8, out_length: usize, answer: *mut u64, answer_length: usize);
    fn hirvelan_widen(table: *const u32, length: usize, out: *mut u32, out_length: usize, answer: *mut u32, answer_length: usize);
    fn hirvelan_narrow(table: *const u32, length: usize, out: *mut u32, out_length: usize, answer: *mut u32, answer_length: usize);
    fn hirvelan_run(space: *mut u8, space_length: usize, file: usize, indent: u32, requests: *const u32, requests_length: usize, nodes: *mut u32, nodes_length: usize, comments: *mut u32, comments_length: usize, out: *mut u8, out_length: usize) -> usize;
}

pub trait Cell: Copy + PartialEq + std::fmt::Display {
    const ZERO: Self;
    /// Never 0.
    fn pattern(seed: u32, at: usize) -> Self;
}

impl Cell for u8 {
    const ZERO: u8 = 0;
    fn pattern(seed: u32, at: usize) -> u8 {
        (seed as u8).wrapping_add(at as u8) | 1
    }
}

impl Cell for u32 {
    const ZERO: u32 = 0;
    fn pattern(seed: u32, at: usize) -> u32 {
        seed.wrapping_add(at as u32) | 1
    }
}

impl Cell for i32 {
    const ZERO: i32 = 0;
    fn pattern(seed: u32, at: usize) -> i32 {
        u32::pattern(seed, at) as i32
    }
}

impl Cell for u64 {
    const ZERO: u64 = 0;
    fn pattern(seed: u32, at: usize) -> u64 {
        (seed as u64).wrapping_add(at as u64) << 20 | 1
    }
}

/// Cells on both sides of what is lent, which must stay as they were.
const GUARD: usize = 10;

/// A slice that is lent, full of a pattern.
pub struct Lent<T> {
    cells: Vec<T>,
    length: usize,
    seed: u32,
}

impl<T: Cell> Lent<T> {
    fn new() -> Self {
        Lent { cells: Vec::new(), length: 0, seed: 0 }
    }

    fn lend(&mut self, length: usize, seed: u32) -> *mut T {
        let whole = length + 2 * GUARD;
        if self.cells.len() < whole {
            self.cells.resize(whole, T::ZERO);
        }
        for (at, cell) in self.cells[..whole].iter_mut().enumerate() {
            *cell = T::pattern(seed, at);
        }
        (self.length, self.seed) = (length, seed);
        self.cells[GUARD..].as_mut_ptr()
    }

    pub fn part(&self) -> &[T] {
        &self.cells[GUARD..GUARD + self.length]
    }

    /// The first cell that is not as wanted: `front`, then zeros.
    fn differs(&self, front: &[T]) -> Option<String> {
        let part = self.part();
        if part[..front.len()] != *front || part[front.len()..].iter().any(|cell| *cell != T::ZERO) {
            let at = (0..part.len()).find(|at| part[*at] != front.get(*at).copied().unwrap_or(T::ZERO))?;
            return Some(format!("[{at}] of {}: {} wanted, {} given", part.len(), front.get(at).copied().unwrap_or(T::ZERO), part[at]));
        }
        self.guards()
    }

    /// The first cell that is not as wanted, or outside.
    fn differs_whole(&self, wanted: &[T]) -> Option<String> {
        let part = self.part();
        if let Some(at) = (0..part.len()).find(|at| part[*at] != wanted[*at]) {
            return Some(format!("[{at}] of {}: {} wanted, {} given", part.len(), wanted[at], part[at]));
        }
        self.guards()
    }

    fn guards(&self) -> Option<String> {
        let whole = self.length + 2 * GUARD;
        let at = (0..GUARD).chain(self.length + GUARD..whole).find(|at| self.cells[*at] != T::pattern(self.seed, *at))?;
        Some(format!(": a cell outside the slice, at {}", at as isize - GUARD as isize))
    }
}

/// A slice as a call leaves it: `front`, then zeros.
fn leave<T: Cell>(slice: &mut [T], front: &[T]) {
    slice[..front.len()].copy_from_slice(front);
    slice[front.len()..].fill(T::ZERO);
}

/// A call of a run: a reading or a printing, and how much of both tables and of the output it is lent.
#[derive(Clone, Copy)]
pub struct Request {
    pub prints: bool,
    pub nodes: usize,
    pub comments: usize,
    pub out: usize,
}

/// A difference: what kind it is of, and both answers.
#[derive(Clone)]
pub struct Fault {
    pub kind: String,
    pub said: String,
}

pub fn fault(kind: &str, said: String) -> Fault {
    Fault { kind: kind.to_string(), said }
}

/// The port, with what its calls are lent.
pub struct Port {
    pub nodes: Lent<u32>,
    pub comments: Lent<u32>,
    pub out: Lent<u8>,
    space: Lent<u8>,
    answer: Lent<u32>,
    printed: Lent<u64>,
    table: Lent<u32>,
    list: Lent<i32>,
    pub calls: u64,
    /// Readings and printings by the number wanted; 0: accepted.
    pub answers: [u64; 28],
    /// Moves of stored tables, likewise.
    pub moves: [u64; 34],
    /// Calls for enum numbers, likewise.
    pub numbered: [u64; 29],
    /// Of those: 24 by the list; 28 with an empty list; another refusal where 28 would follow.
    pub listed: [u64; 3],
}

impl Port {
    pub fn new() -> Self {
        Port { nodes: Lent::new(), comments: Lent::new(), out: Lent::new(), space: Lent::new(), answer: Lent::new(), printed: Lent::new(), table: Lent::new(), list: Lent::new(), calls: 0, answers: [0; 28], moves: [0; 34], numbered: [0; 29], listed: [0; 3] }
    }

    pub fn check(&mut self, text: &[u8], wanted: &Wanted) -> Result<(), Fault> {
        self.calls += 1;
        let answer = match wanted.refusal {
            Some(refusal) if (20..=22).contains(&refusal[0]) => refusal,
            _ => [0; 3],
        };
        let room = match self.calls as usize % 64 {
            short @ 0..=5 => short,
            _ => 3,
        };
        let a = self.answer.lend(room, self.calls as u32);
        unsafe { hirvelan_check(text.as_ptr(), text.len(), a, room) };
        if let Some(first) = self.answer.differs(&answer[..room.min(3)]) {
            let given = self.answer.part();
            return Err(fault(&format!("check: {} wanted, {} given", answer[0], given.first().unwrap_or(&0)), format!("wanted {answer:?}, given {given:?}; answer{first}")));
        }
        Ok(())
    }

    /// One reading; true if it is accepted. Mostly the answer's slice is as long as the answer.
    pub fn read(&mut self, text: &[u8], wanted: &Wanted, nodes: usize, comments: usize, rng: &mut Rng) -> Result<bool, Fault> {
        self.calls += 1;
        let (answer, node_rows, comment_rows) = wanted.reading(nodes, comments);
        self.answers[answer[0] as usize] += 1;
        let room = if rng.percent(97) { 3 } else { rng.below(6) };
        let seed = rng.next() as u32;
        let (n, c, a) = (self.nodes.lend(nodes, seed), self.comments.lend(comments, !seed), self.answer.lend(room, seed));
        unsafe { hirvelan_read(text.as_ptr(), text.len(), n, nodes, c, comments, a, room) };
        let parts = [
            ("answer", self.answer.differs(&answer[..room.min(3)])),
            ("nodes", self.nodes.differs(node_rows)),
            ("comments", self.comments.differs(comment_rows)),
        ];
        for (part, differs) in parts {
            if let Some(first) = differs {
                let given = self.answer.part();
                return Err(Fault {
                    kind: format!("read, {part}: {} wanted, {} given", answer[0], given.first().unwrap_or(&0)),
                    said: format!("tables of {nodes} and {comments}: wanted {answer:?}, given {given:?}; {part}{first}"),
                });
            }
        }
        Ok(answer[0] == 0)
    }

    /// One call for the enum members' numbers; true if it is accepted.
    pub fn numbers(&mut self, text: &[u8], wanted: &Wanted, nodes: usize, comments: usize, list: usize, rng: &mut Rng) -> Result<bool, Fault> {
        self.calls += 1;
        let (answer, node_rows, comment_rows, numbers) = wanted.numbering(nodes, comments, list);
        let outside = matches!(wanted.numbers, Numbers::Outside { .. });
        self.numbered[answer[0] as usize] += 1;
        self.listed[0] += u64::from(answer[0] == 24 && wanted.reading(nodes, comments).0[0] == 0);
        self.listed[1] += u64::from(answer[0] == 28 && list == 0);
        self.listed[2] += u64::from(answer[0] != 28 && outside);
        let room = if rng.percent(97) { 3 } else { rng.below(6) };
        let seed = rng.next() as u32;
        let (n, c, l, a) = (self.nodes.lend(nodes, seed), self.comments.lend(comments, !seed), self.list.lend(list, seed >> 3), self.answer.lend(room, seed));
        unsafe { hirvelan_enum_numbers(text.as_ptr(), text.len(), n, nodes, c, comments, l, list, a, room) };
        let parts = [
            ("answer", self.answer.differs(&answer[..room.min(3)])),
            ("nodes", self.nodes.differs(node_rows)),
            ("comments", self.comments.differs(comment_rows)),
            ("list", self.list.differs(numbers)),
        ];
        for (part, differs) in parts {
            if let Some(first) = differs {
                let given = self.answer.part();
                return Err(Fault {
                    kind: format!("enum numbers, {part}: {} wanted, {} given", answer[0], given.first().unwrap_or(&0)),
                    said: format!("tables of {nodes} and {comments}, a list of {list}: wanted {answer:?}, given {given:?}; {part}{first}"),
                });
            }
        }
        Ok(answer[0] == 0)
    }

    /// One move of a stored table into an output of so many numbers; true if it is accepted. The table has to stay as it is.
    pub fn move_table(&mut self, way: Way, table: &[u32], wanted: &Moved, out: usize, rng: &mut Rng) -> Result<bool, Fault> {
        self.calls += 1;
        let (answer, rows) = wanted.into_output(out);
        self.moves[answer[0] as usize] += 1;
        let room = if rng.percent(97) { 3 } else { rng.below(6) };
        let seed = rng.next() as u32;
        self.table.lend(table.len(), seed >> 5);
        self.table.cells[GUARD..GUARD + table.len()].copy_from_slice(table);
        let (t, o, a) = (self.table.cells[GUARD..].as_ptr(), self.nodes.lend(out, seed), self.answer.lend(room, !seed));
        match way {
            Way::Widen => unsafe { hirvelan_widen(t, table.len(), o, out, a, room) },
            Way::Narrow => unsafe { hirvelan_narrow(t, table.len(), o, out, a, room) },
        }
        let parts = [
            ("answer", self.answer.differs(&answer[..room.min(3)])),
            ("output", self.nodes.differs(rows)),
            ("table", self.table.differs_whole(table)),
        ];
        for (part, differs) in parts {
            if let Some(first) = differs {
                let given = self.answer.part();
                return Err(Fault {
                    kind: format!("{way:?}, {part}: {} wanted, {} given", answer[0], given.first().unwrap_or(&0)),
                    said: format!("a table of {}, an output of {out}: wanted {answer:?}, given {given:?}; {part}{first}", table.len()),
                });
            }
        }
        Ok(answer[0] == 0)
    }

    /// One printing; true if it is accepted.
    pub fn print(&mut self, text: &[u8], wanted: &Wanted, indent: u32, nodes: usize, comments: usize, out: usize, rng: &mut Rng) -> Result<bool, Fault> {
        self.calls += 1;
        let (answer, node_rows, comment_rows, print) = wanted.printing(indent, nodes, comments, out);
        self.answers[answer[0] as usize] += 1;
        let room = if rng.percent(97) { 4 } else { rng.below(7) };
        let seed = rng.next() as u32;
        let (n, c, o, a) = (self.nodes.lend(nodes, seed), self.comments.lend(comments, !seed), self.out.lend(out, seed >> 7), self.printed.lend(room, seed));
        unsafe { hirvelan_print(text.as_ptr(), text.len(), indent, n, nodes, c, comments, o, out, a, room) };
        let parts = [
            ("answer", self.printed.differs(&answer[..room.min(4)])),
            ("nodes", self.nodes.differs(node_rows)),
            ("comments", self.comments.differs(comment_rows)),
            ("output", self.out.differs(print)),
        ];
        for (part, differs) in parts {
            if let Some(first) = differs {
                let given = self.printed.part();
                return Err(Fault {
                    kind: format!("print, {part}: {} wanted, {} given", answer[0], given.first().unwrap_or(&0)),
                    said: format!("indent {indent}, tables of {nodes} and {comments}, output of {out}: wanted {answer:?}, given {given:?}; {part}{first}"),
                });
            }
        }
        Ok(answer[0] == 0)
    }

    /// A list of calls on one file by one run, in a space of so many bytes. `first` is what the text gives, `second` what its print gives.
    pub fn run(&mut self, text: &[u8], first: &Wanted, second: &Wanted, indent: u32, requests: &[Request], room: usize, rng: &mut Rng) -> Result<(), Fault> {
        self.calls += 1;
        let most = |of: fn(&Request) -> usize| requests.iter().map(of).max().unwrap_or(0);
        let (nodes, comments, out) = (most(|r| r.nodes) + rng.below(12), most(|r| r.comments) + rng.below(12), most(|r| r.out) + rng.below(12));
        let seed = rng.next() as u32;
        let (n, c, o) = (self.nodes.lend(nodes, seed), self.comments.lend(comments, !seed), self.out.lend(out, seed >> 7));
        self.space.lend(room, seed >> 3);
        self.space.cells[GUARD..GUARD + text.len()].copy_from_slice(text);
        let (mut node_cells, mut comment_cells) = (self.nodes.part().to_vec(), self.comments.part().to_vec());
        let (mut out_cells, mut space, mut length) = (self.out.part().to_vec(), self.space.part().to_vec(), text.len());
        let (mut now, mut numbers) = (first, Vec::new());
        for request in requests {
            numbers.extend([u32::from(request.prints) * (1 + rng.below(9) as u32), request.nodes as u32, request.comments as u32, request.out as u32]);
            let (node_rows, comment_rows);
            if request.prints {
                let (answer, rows, notes, print) = now.printing(indent, request.nodes, request.comments, request.out);
                (node_rows, comment_rows) = (rows, notes);
                leave(&mut out_cells[..request.out], print);
                if answer[0] == 0 && print.len() <= room {
                    leave(&mut space, print);
                    (length, now) = (print.len(), second);
                }
            } else {
                (_, node_rows, comment_rows) = now.reading(request.nodes, request.comments);
            }
            leave(&mut node_cells[..request.nodes], node_rows);
            leave(&mut comment_cells[..request.comments], comment_rows);
        }
        // a file is held to its space
        let file = if room == text.len() { room + rng.below(99) } else { text.len() };
        let s = self.space.cells[GUARD..].as_mut_ptr();
        let given = unsafe { hirvelan_run(s, room, file, indent, numbers.as_ptr(), numbers.len(), n, nodes, c, comments, o, out) };
        let parts = [
            ("length", (given != length).then(|| format!(": {length} wanted, {given} given"))),
            ("space", self.space.differs_whole(&space)),
            ("nodes", self.nodes.differs_whole(&node_cells)),
            ("comments", self.comments.differs_whole(&comment_cells)),
            ("output", self.out.differs_whole(&out_cells)),
        ];
        for (part, differs) in parts {
            if let Some(first) = differs {
                return Err(Fault { kind: format!("run, {part}"), said: format!("indent {indent}, {} calls, a space of {room}: {part}{first}; requests {numbers:?}", requests.len()) });
            }
        }
        Ok(())
    }
}
