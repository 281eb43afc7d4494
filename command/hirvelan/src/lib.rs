//! Reads and prints Thrift definitions, and numbers enum members. All of that is in the proved library; here are only the calls.
//!
//! What its contracts say of answers, tables and output: `crates/link/src/lib.rt`.
//! They ask nothing of a text, an indent, a table's length or what is in it. What they cannot say, and what each function here sees to:
//!
//! - pointers are not null and valid for their lengths: each comes from a slice;
//! - nothing that is lent for writing overlaps: each table is an allocation of its own or the caller's `&mut`, and the text is borrowed for reading only.

pub mod numbers;
mod raw;

use numbers::kind;

/// The longest text that is read; a longer one is refused with 20.
pub const LONGEST: usize = 65_536;

/// The numbers of a comment record: kind, owner, flags, then index, line and column of start and of end.
pub const COMMENT_WIDTH: usize = 9;

/// The numbers of a node record: the same with its parent, and a tenth, at `PAST`.
pub const NODE_WIDTH: usize = 10;

/// Where the tenth number of a node record stands, from 0: the record number just past its last descendant. To jump over a node go to that record.
pub const PAST: usize = 9;

/// The numbers of a record of a table that was stored before there were ten.
pub const STORED_WIDTH: usize = 9;

/// The most records of a stored table that is moved.
pub const MOST_RECORDS: usize = 65_536;

/// Proved for each token (`crates/parser/proofs/Paid`): at most two node records and one comment record.
const NODES_A_BYTE: usize = 2;

/// Where doubling the output ends.
const LONGEST_PRINT: usize = 1 << 30;

/// Why a text is refused, or a stored table, by its number (docs/FORMAT.md).
#[derive(Clone, Copy, Debug, PartialEq, Eq)]
pub struct Refusal {
    pub number: u32,
    /// The byte offset, from 0; of a stored table, the number of a record.
    pub place: u32,
    pub length: u32,
}

/// Where an offset stands: line and column from 1, columns in bytes.
#[derive(Clone, Copy, Debug, PartialEq, Eq)]
pub struct Place {
    pub line: u32,
    pub column: u32,
    /// The offset, held to the text's end and to `LONGEST`.
    pub offset: u32,
}

/// One node record.
pub type Node = [u32; NODE_WIDTH];

/// One comment record.
pub type Comment = [u32; COMMENT_WIDTH];

/// Both tables of a text that is accepted.
#[derive(Clone, Debug, PartialEq, Eq)]
pub struct Reading {
    pub nodes: Vec<Node>,
    pub comments: Vec<Comment>,
}

impl Reading {
    /// The numbers of the definitions' records, from one to the next without a look at what lies between.
    pub fn definitions(&self) -> impl Iterator<Item = usize> + '_ {
        self.siblings(0, self.nodes.len())
    }

    /// The same of the children of the node with this number; none if there is no such node.
    pub fn children(&self, node: usize) -> impl Iterator<Item = usize> + '_ {
        let past = self.nodes.get(node).map_or(0, |record| record[PAST] as usize);
        self.siblings(node + 1, past)
    }

    /// The name record of the node with this number: an include's string with its quotes, a namespace's name without the scope, a service's own and not the one that it extends.
    pub fn name(&self, node: usize) -> Option<&Node> {
        self.names(node).nth(usize::from(self.is_namespace(node)))
    }

    /// The record of its scope, if the node with this number is a namespace.
    pub fn scope(&self, node: usize) -> Option<&Node> {
        self.names(node).next().filter(|_| self.is_namespace(node))
    }

    fn is_namespace(&self, node: usize) -> bool {
        self.nodes.get(node).is_some_and(|record| record[0] == kind::NAMESPACE)
    }

    /// A namespace's scope, the name, and the one that a service extends.
    fn names(&self, node: usize) -> impl Iterator<Item = &Node> + '_ {
        self.children(node).map(|child| &self.nodes[child]).filter(|record| record[0] == kind::NAME)
    }

    /// The name records of each enum's members, each behind that of its enum, in text order.
    fn enum_members(&self) -> impl Iterator<Item = (Option<&Node>, Option<&Node>)> + '_ {
        let is = move |at: &usize, kind: u32| self.nodes[*at][0] == kind;
        let members = move |at: usize| self.children(at).filter(move |child| is(child, kind::ENUM_MEMBER));
        self.definitions().filter(move |at| is(at, kind::ENUM)).flat_map(move |at| members(at).map(move |member| (self.name(at), self.name(member))))
    }

    /// The node with this number, if it lies before `past`, and its next siblings up to there.
    fn siblings(&self, first: usize, past: usize) -> impl Iterator<Item = usize> + '_ {
        let within = move |at: usize| (at < past).then_some(at);
        std::iter::successors(within(first), move |at| within(self.nodes[*at][PAST] as usize))
    }
}

/// A member of an enum, and its number.
#[derive(Clone, Copy, Debug, PartialEq, Eq)]
pub struct EnumNumber {
    /// The record of the enum's name.
    pub enum_name: Node,
    /// The record of the member's name.
    pub member_name: Node,
    pub number: i32,
}

/// A call of `run`: a reading or a printing, and how many numbers of each table and bytes of the output it is lent, all if there are fewer.
#[derive(Clone, Copy, Debug, PartialEq, Eq)]
pub struct Request {
    pub prints: bool,
    pub nodes: u32,
    pub comments: u32,
    pub out: u32,
}

/// Room for the records of every text as long as this one.
fn tables(text: &[u8]) -> (Vec<u32>, Vec<u32>) {
    let bytes = text.len().min(LONGEST);
    (vec![0; NODES_A_BYTE * NODE_WIDTH * bytes], vec![0; COMMENT_WIDTH * bytes])
}

/// The first records of a table.
fn records<const WIDTH: usize>(table: &[u32], count: usize) -> Vec<[u32; WIDTH]> {
    table.chunks_exact(WIDTH).take(count).map(|row| row.try_into().expect("a row has so many numbers")).collect()
}

/// The checks before the grammar: 20, 21, 22. They need no tables.
pub fn check(text: &[u8]) -> Result<(), Refusal> {
    let [number, place, length] = raw::check(text);
    if number != 0 {
        return Err(Refusal { number, place, length });
    }
    Ok(())
}

/// Reads a text. The tables are long enough, so 24 and 25 do not occur.
pub fn read(text: &[u8]) -> Result<Reading, Refusal> {
    let (mut nodes, mut comments) = tables(text);
    let [number, a, b] = raw::read(text, &mut nodes, &mut comments);
    if number != 0 {
        return Err(Refusal { number, place: a, length: b });
    }
    Ok(Reading { nodes: records(&nodes, a as usize), comments: records(&comments, b as usize) })
}

/// The number of each enum member, enum by enum in text order. A written integer is that number, a hexadecimal one is read as unsigned;
/// a member without one has the number before it in its enum plus one, the first 0.
/// 28, at the member's name, for the first that does not fit; a reading's refusals come before it. Tables and list are long enough, so 24 and 25 do not occur.
pub fn enum_numbers(text: &[u8]) -> Result<Vec<EnumNumber>, Refusal> {
    let (mut nodes, mut comments) = tables(text);
    let mut list = vec![0; text.len().min(LONGEST)];
    let [number, a, b] = raw::enum_numbers(text, &mut nodes, &mut comments, &mut list);
    if number != 0 {
        return Err(Refusal { number, place: a, length: b });
    }
    // behind the last record a kind is 0
    let count = nodes.chunks_exact(NODE_WIDTH).take_while(|row| row[0] != 0).count();
    let reading = Reading { nodes: records(&nodes, count), comments: Vec::new() };
    let members = reading.enum_members().zip(list).take(a as usize);
    Ok(members.filter_map(|((enum_name, name), number)| Some(EnumNumber { enum_name: *enum_name?, member_name: *name?, number })).collect())
}

/// Prints a text's definitions with so many spaces a level, 0 to 8 (26 above). The output is made longer until the print fits, so 27 does not occur.
pub fn print(text: &[u8], indent: u32) -> Result<Vec<u8>, Refusal> {
    let (mut nodes, mut comments) = tables(text);
    let mut room = 8 * text.len().min(LONGEST) + 64;
    loop {
        let mut out = vec![0; room];
        let [number, a, b, bytes] = raw::print(text, indent, &mut nodes, &mut comments, &mut out);
        if number == 0 {
            out.truncate(bytes as usize);
            return Ok(out);
        }
        if number != u64::from(numbers::refusal::OUTPUT_FULL) || room >= LONGEST_PRINT {
            return Err(Refusal { number: number as u32, place: a as u32, length: b as u32 });
        }
        room *= 2;
    }
}

/// Line and column of an offset by the lexer's rule. Any offset of any text has one.
pub fn place(text: &[u8], offset: u32) -> Place {
    let [line, column, offset] = raw::place(text, offset);
    Place { line, column, offset }
}

/// Makes readings and printings of one file, one after another, with so many spaces a level; the length of the file afterwards.
/// The file is the first `file` bytes of its space, all of it if `file` is more. An accepted printing makes the bytes it wrote the file, with zeros behind them, if the space holds them.
/// No list of requests at one indent alters a file once printed at it, if its print has at most `LONGEST` bytes.
pub fn run(space: &mut [u8], file: usize, indent: u32, requests: &[Request], nodes: &mut [u32], comments: &mut [u32], out: &mut [u8]) -> usize {
    let numbers: Vec<u32> = requests.iter().flat_map(|r| [u32::from(r.prints), r.nodes, r.comments, r.out]).collect();
    raw::run(space, file, indent, &numbers, nodes, comments, out)
}

/// A stored node table of nine numbers a record, moved to ten. `narrow` undoes it.
/// 33 if it can't be moved: with place 0 if the length is no multiple of nine, or there are more than `MOST_RECORDS` records; else with the number of the first record
/// whose parent is bad. Good is 4294967295, the record just before, or an ancestor of that one. The output is long enough, so 24 does not occur.
/// Hand over the stored records alone: zeros that stand behind them would count as records.
pub fn widen(table: &[u32]) -> Result<Vec<u32>, Refusal> {
    let mut out = vec![0; (table.len() / STORED_WIDTH).min(MOST_RECORDS) * NODE_WIDTH];
    moved(raw::widen(table, &mut out), out)
}

/// A node table of ten numbers a record, moved to nine. `widen` undoes it.
/// 33 as there, by ten numbers a record; and if all parents are good, with the number of the first record whose tenth number is not the record number just past its last descendant.
pub fn narrow(table: &[u32]) -> Result<Vec<u32>, Refusal> {
    let mut out = vec![0; (table.len() / NODE_WIDTH).min(MOST_RECORDS) * STORED_WIDTH];
    moved(raw::narrow(table, &mut out), out)
}

/// What a move gave.
fn moved([number, place, _]: [u32; 3], out: Vec<u32>) -> Result<Vec<u32>, Refusal> {
    if number != 0 {
        return Err(Refusal { number, place, length: 0 });
    }
    Ok(out)
}

#[cfg(test)]
mod tests {
    use super::*;

    const ALL: u32 = u32::MAX;

    fn call(prints: bool, nodes: u32, comments: u32, out: u32) -> Request {
        Request { prints, nodes, comments, out }
    }

    #[test]
    fn a_run_prints_and_stays() {
        let text = b"struct A{1:required i32 a=5;}";
        let print = b"struct A {\n  1: required i32 a = 5,\n}\n";
        let mut space = vec![7; 50];
        space[..text.len()].copy_from_slice(text);
        let (mut nodes, mut comments, mut out) = (vec![7; 80], vec![7; 10], vec![7; 60]);
        // 24 and 27 leave the file; what the calls were not lent stays too
        let length = run(&mut space, text.len(), 2, &[call(true, 69, ALL, ALL), call(true, 70, 0, 37)], &mut nodes, &mut comments, &mut out);
        assert_eq!((length, &space[..29], &space[29..]), (29, &text[..], &[7; 21][..]));
        assert_eq!((&nodes[..70], &nodes[70..], &comments[..], &out[..]), (&[0; 70][..], &[7; 10][..], &[0; 10][..], &[0; 60][..]));
        // a printing is kept, with zeros behind it
        let length = run(&mut space, length, 2, &[call(false, ALL, ALL, 0), call(true, 70, 0, 38)], &mut nodes, &mut comments, &mut out);
        assert_eq!((length, &space[..38], &space[38..]), (38, &print[..], &[0; 12][..]));
        assert_eq!((&out[..38], nodes[0]), (&print[..], 7));
        // and stays
        let again = run(&mut space, length, 2, &[call(true, ALL, ALL, ALL), call(false, 0, 0, 0), call(true, 70, 9, 38)], &mut nodes, &mut comments, &mut out);
        assert_eq!((again, &space[..38], &space[38..]), (38, &print[..], &[0; 12][..]));
    }

    #[test]
    fn a_run_keeps_fields_without_numbers() {
        let text = b"service S{void f(i32 a)throws(B b)}struct A{required i32 a}";
        let print = b"service S {\n  void f(i32 a) throws (B b)\n}\nstruct A {\n  required i32 a,\n}\n";
        let mut space = vec![7; 100];
        space[..text.len()].copy_from_slice(text);
        let (mut nodes, mut comments, mut out) = (vec![7; 200], vec![7; 10], vec![7; 100]);
        let mut length = text.len();
        for _ in 0..3 {
            length = run(&mut space, length, 2, &[call(true, ALL, ALL, ALL), call(false, ALL, ALL, 0), call(true, ALL, ALL, ALL)], &mut nodes, &mut comments, &mut out);
            assert_eq!(&space[..length], &print[..]);
        }
    }

    #[test]
    fn a_run_holds_the_file_to_its_space() {
        let text = b"enum E{A}";
        let (mut nodes, mut comments, mut out) = (vec![0; 90], vec![0; 9], vec![0; 90]);
        let mut space = text.to_vec();
        // its print is longer than the space, so the file stays
        assert_eq!(run(&mut space, 1000, 2, &[call(true, ALL, ALL, ALL)], &mut nodes, &mut comments, &mut out), 9);
        assert_eq!((&space[..], &out[..16]), (&text[..], &b"enum E {\n  A,\n}\n"[..]));
        assert_eq!(run(&mut space, 9, 9, &[call(true, ALL, ALL, ALL)], &mut nodes, &mut comments, &mut out), 9);
        assert_eq!((&space[..], &out[..]), (&text[..], &[0; 90][..]));
        assert_eq!(run(&mut [], 5, 2, &[call(true, ALL, ALL, ALL)], &mut [], &mut [], &mut []), 0);
        assert_eq!(run(&mut space, 4, 2, &[], &mut nodes, &mut comments, &mut out), 4);
    }

    #[test]
    fn the_last_edge() {
        let text = b"struct A{1:required i32 a=5;}";
        assert_eq!(print(text, 2).unwrap(), b"struct A {\n  1: required i32 a = 5,\n}\n"[..38].to_vec());
        assert_eq!(print(text, 9), Err(Refusal { number: 26, place: 0, length: 0 }));
    }

    #[test]
    fn records_of_the_listing() {
        let reading = read(b"struct A{1:i32 a}").unwrap();
        assert_eq!((reading.nodes.len(), reading.comments.len()), (6, 0));
        assert_eq!(reading.nodes[0], [7, 4_294_967_295, 0, 0, 1, 1, 17, 1, 18, 6]);
        assert_eq!(reading.nodes[5], [16, 2, 0, 15, 1, 16, 16, 1, 17, 6]);
        assert_eq!(reading.nodes.iter().map(|n| n[PAST]).collect::<Vec<_>>(), [6, 2, 6, 4, 5, 6]);
        let reading = read(b"struct A{required i32 a}").unwrap();
        assert_eq!((reading.nodes.len(), reading.nodes[2]), (5, [12, 0, 1, 9, 1, 10, 23, 1, 24, 5]));
        let reading = read(b"#c\nenum A{}").unwrap();
        assert_eq!(reading.comments, [[32, 0, 0, 0, 1, 1, 2, 1, 3]]);
    }

    #[test]
    fn from_one_to_the_next() {
        let reading = read(b"const list<i8> X=[1,[2,3],4] struct A{1:i32 a(b='c'),2:i8 d} enum E{}").unwrap();
        let kinds = |numbers: Vec<usize>| numbers.iter().map(|at| reading.nodes[*at][0]).collect::<Vec<_>>();
        let definitions: Vec<usize> = reading.definitions().collect();
        assert_eq!((kinds(definitions.clone()), &definitions[..]), (vec![4, 7, 6], &[0, 10, 24][..]));
        assert_eq!(kinds(reading.children(0).collect()), [20, 16, 29]);
        assert_eq!(kinds(reading.children(10).collect()), [16, 12, 12]);
        assert_eq!(kinds(reading.children(24).collect()), [16]);
        // every node is reached once, each by its parent's number
        for (at, node) in reading.nodes.iter().enumerate() {
            assert!(reading.children(at).all(|child| reading.nodes[child][1] as usize == at));
            assert_eq!(reading.children(at).count(), reading.nodes.iter().filter(|n| n[1] as usize == at).count(), "of node {at}, {node:?}");
        }
        assert_eq!((reading.children(1).count(), reading.children(2).count(), reading.children(1000).count()), (1, 0, 0));
        assert_eq!(read(b"").unwrap().definitions().count(), 0);
    }

    #[test]
    fn names_and_scopes() {
        let text = b"include 'a' cpp_include \"b\" namespace * c.d const e.f G=h typedef list<i> J enum K{L}(m='n') struct O{1:P q} union R{} exception S{} service T extends U{V w(1:X y)}";
        let reading = read(text).unwrap();
        let over = |record: &Node| std::str::from_utf8(&text[record[3] as usize..record[6] as usize]).unwrap();
        let names: Vec<&str> = reading.definitions().map(|at| reading.name(at).map_or("", over)).collect();
        assert_eq!(names, ["'a'", "\"b\"", "c.d", "G", "J", "K", "O", "R", "S", "T"]);
        let scopes: Vec<&str> = reading.definitions().filter_map(|at| reading.scope(at).map(over)).collect();
        assert_eq!(scopes, ["*"]);
        // below definitions too: the field, the function, the enum member and the annotation; a record that is a name has none
        let below: Vec<&str> = (0..reading.nodes.len()).filter(|at| reading.nodes[*at][1] != ALL).filter_map(|at| reading.name(at).map(over)).collect();
        assert_eq!(below, ["L", "m", "q", "w", "y"]);
        assert_eq!((reading.name(1000), reading.scope(1000)), (None, None));
    }

    /// The numbers of a text's enum members, each with the names.
    fn numbered(text: &str) -> Vec<(&str, &str, i32)> {
        let over = |record: Node| &text[record[3] as usize..record[6] as usize];
        enum_numbers(text.as_bytes()).unwrap().into_iter().map(|m| (over(m.enum_name), over(m.member_name), m.number)).collect()
    }

    #[test]
    fn numbers_of_enum_members() {
        assert_eq!(numbered("enum A{B,C=5,D}enum E{F}"), [("A", "B", 0), ("A", "C", 5), ("A", "D", 6), ("E", "F", 0)]);
        assert_eq!(numbered("enum A{B=-2147483648 C D=2147483647 E=-1 F}").iter().map(|m| m.2).collect::<Vec<_>>(), [i32::MIN, i32::MIN + 1, i32::MAX, -1, 0]);
        assert_eq!(numbered("enum A{B=0x7fFFffFF,C=0X0a,D=+007,E=-0,F=7,G=0x00000000000000000001}").iter().map(|m| m.2).collect::<Vec<_>>(), [i32::MAX, 10, 7, 0, 7, 1]);
        // annotations have numbers and names of their own
        assert_eq!(numbered("const i32 B=9 enum A{/*c*/B(c='7'),//d\nE=3(f='4',g='5')}(h='8')struct I{1:i8 j=6}enum K{}enum L{M}"), [("A", "B", 0), ("A", "E", 3), ("L", "M", 0)]);
        for text in ["", "#c", "enum A{}", "struct A{1:i32 a=5}"] {
            assert_eq!(numbered(text), []);
        }
        let reading = read(b"enum A{\n B\n}").unwrap();
        let members = enum_numbers(b"enum A{\n B\n}").unwrap();
        assert_eq!(members, [EnumNumber { enum_name: reading.nodes[1], member_name: reading.nodes[3], number: 0 }]);
        assert_eq!(members[0].member_name[3..6], [9, 2, 2]);
    }

    #[test]
    fn numbers_that_do_not_fit() {
        let outside = |place, length| Err(Refusal { number: numbers::refusal::ENUM_NUMBER_OUTSIDE, place, length });
        assert_eq!(enum_numbers(b"enum A{BC=2147483648}"), outside(7, 2));
        assert_eq!(enum_numbers(b"enum A{BC=-2147483649}"), outside(7, 2));
        assert_eq!(enum_numbers(b"enum A{B,CDE=0x80000000}"), outside(9, 3));
        assert_eq!(enum_numbers(b"enum A{B=0xFFFFFFFF}"), outside(7, 1));
        assert_eq!(enum_numbers(b"enum A{B=2147483647,C D}"), outside(20, 1));
        assert_eq!(enum_numbers(format!("enum A{{B={}}}", "9".repeat(60_000)).as_bytes()), outside(7, 1));
        assert_eq!(enum_numbers(format!("enum A{{B=0x1{}}}", "0".repeat(60_000)).as_bytes()), outside(7, 1));
        assert_eq!(numbered(&format!("enum A{{B=-{}5}}", "0".repeat(60_000))), [("A", "B", -5)]);
        // the first in the text, and the reading's own before it
        assert_eq!(enum_numbers(b"enum A{B}enum C{D,E=0xfffffffff}enum F{G=9999999999}"), outside(18, 1));
        for text in [&b"enum A{B=9999999999"[..], b"enum A{B=9999999999}@", b"enum A{B=9999999999}\xff", b"enum A{B=9999999999,enum}", &[b' '; LONGEST + 1]] {
            assert_eq!(enum_numbers(text).err(), read(text).err());
        }
    }

    #[test]
    fn numbers_of_many_members() {
        for unit in ["A,", "A ", "A=1", "A=0x7;"] {
            let text = format!("enum E{{{}}}", unit.repeat((LONGEST - 8) / unit.len()));
            let list = enum_numbers(text.as_bytes()).expect("accepted");
            assert_eq!(list.len(), (LONGEST - 8) / unit.len());
        }
        let list = enum_numbers("enum E{A}".repeat(LONGEST / 9).as_bytes()).expect("accepted");
        assert_eq!((list.len(), list.iter().all(|m| m.number == 0)), (LONGEST / 9, true));
    }

    #[test]
    fn a_list_is_left_so() {
        let text = b"#c\nenum A{B,C=5}";
        let (mut nodes, mut comments, mut list) = (vec![7; 90], vec![7; 20], vec![7; 5]);
        let (mut read_nodes, mut read_comments) = (vec![7; 90], vec![7; 20]);
        assert_eq!(raw::read(text, &mut read_nodes, &mut read_comments), [0, 7, 1]);
        assert_eq!(raw::enum_numbers(text, &mut nodes, &mut comments, &mut list), [0, 2, 0]);
        assert_eq!((&nodes, &comments, &list[..]), (&read_nodes, &read_comments, &[0, 5, 0, 0, 0][..]));
        assert_eq!(raw::enum_numbers(text, &mut nodes[..70], &mut comments[..9], &mut list[..2]), [0, 2, 0]);
        // refused, all that was lent is 0: the reading's own, 28, and the list's 24 behind it
        for (text, lent, said) in [
            (&b"#c\nenum A{B,C=5}@"[..], (90, 20, 5), [22, 16, 0]),
            (text, (69, 20, 5), [24, 0, 0]),
            (text, (90, 8, 5), [25, 0, 0]),
            (text, (90, 20, 1), [24, 0, 0]),
            (text, (90, 20, 0), [24, 0, 0]),
            (b"enum A{B=0xFFFFFFFF}", (90, 20, 5), [28, 7, 1]),
            (b"enum A{B=0xFFFFFFFF}", (90, 20, 0), [28, 7, 1]),
            (b"enum A{B=0xFFFFFFFF}", (49, 20, 0), [24, 0, 0]),
        ] {
            nodes.fill(7);
            comments.fill(7);
            list.fill(7);
            assert_eq!(raw::enum_numbers(text, &mut nodes[..lent.0], &mut comments[..lent.1], &mut list[..lent.2]), said);
            assert!(nodes[..lent.0].iter().chain(&comments[..lent.1]).all(|n| *n == 0) && list[..lent.2].iter().all(|n| *n == 0));
            assert!(nodes[lent.0..].iter().chain(&comments[lent.1..]).all(|n| *n == 7) && list[lent.2..].iter().all(|n| *n == 7));
        }
    }

    /// A table of nine numbers a record with these parents, and one of ten.
    fn nine(parents: &[u32]) -> Vec<u32> {
        (0..).zip(parents).flat_map(|(at, parent)| [at + 3, *parent, 0, 5, 6, 7, 8, 9, at]).collect()
    }

    fn ten(parents: &[u32], pasts: &[u32]) -> Vec<u32> {
        nine(parents).chunks(9).zip(pasts).flat_map(|(row, past)| [row, &[*past]].concat()).collect()
    }

    fn refused(place: u32) -> Result<Vec<u32>, Refusal> {
        Err(Refusal { number: numbers::refusal::NOT_MOVABLE, place, length: 0 })
    }

    #[test]
    fn stored_tables_there_and_back() {
        for (parents, pasts) in [
            (&[ALL, 0, 0, 2, 2, 2][..], &[6, 2, 6, 4, 5, 6][..]),
            (&[ALL, 0, 1, 2, 0, ALL, 5], &[5, 4, 4, 4, 5, 7, 7]),
            (&[ALL, ALL, ALL], &[1, 2, 3]),
            (&[ALL], &[1]),
            (&[], &[]),
        ] {
            assert_eq!(widen(&nine(parents)), Ok(ten(parents, pasts)));
            assert_eq!(narrow(&ten(parents, pasts)), Ok(nine(parents)));
        }
        // the records of a reading
        let reading = read(b"service S{void f(i32 a)throws(B b)}struct A{required map<i8,list<i8>> a={1:[2]}}").unwrap();
        let stored: Vec<u32> = reading.nodes.iter().flat_map(|n| n[..STORED_WIDTH].to_vec()).collect();
        assert_eq!(widen(&stored), Ok(reading.nodes.concat()));
        assert_eq!(narrow(&reading.nodes.concat()), Ok(stored));
    }

    #[test]
    fn stored_tables_that_are_not_moved() {
        // a length, then a parent, then a tenth number
        assert_eq!(widen(&nine(&[0])[..8]), refused(0));
        assert_eq!(widen(&ten(&[ALL, 0], &[2, 2])), refused(0));
        assert_eq!(narrow(&nine(&[ALL, 0])), refused(0));
        assert_eq!(widen(&nine(&[0])), refused(0));
        assert_eq!(widen(&nine(&[ALL, 1])), refused(1));
        assert_eq!(widen(&nine(&[ALL, 0, 0, 1])), refused(3));
        assert_eq!(widen(&nine(&[ALL, ALL, 0])), refused(2));
        assert_eq!(widen(&nine(&[ALL, 0, 7, 9])), refused(2));
        assert_eq!(narrow(&ten(&[ALL, 0, 0], &[3, 3, 3])), refused(1));
        assert_eq!(narrow(&ten(&[ALL, 0, 0], &[3, 2, 0])), refused(2));
        assert_eq!(narrow(&ten(&[ALL, 0, 5], &[0, 2, 3])), refused(2), "a bad parent comes before any bad tenth number");
        // 65,536 records and one more
        let most = nine(&[ALL; MOST_RECORDS]);
        assert_eq!(widen(&most).map(|moved| (moved.len(), moved[655_359])), Ok((655_360, 65_536)));
        assert_eq!(widen(&nine(&[ALL; MOST_RECORDS + 1])), refused(0));
        assert_eq!(narrow(&vec![1; 10 * (MOST_RECORDS + 1)]), refused(0));
    }

    #[test]
    fn a_move_leaves_nothing_in_its_output() {
        let (short, long) = (nine(&[ALL, 0]), ten(&[ALL, 0], &[2, 2]));
        let mut out = vec![7; 23];
        assert_eq!((raw::widen(&short, &mut out), &out[..20], &out[20..]), ([0, 2, 0], &long[..], &[0; 3][..]));
        assert_eq!((raw::narrow(&long, &mut out), &out[..18], &out[18..]), ([0, 2, 0], &short[..], &[0; 5][..]));
        // one number short, none, a bad table: all of it is 0
        for (table, room, said) in [(&short[..], 19, [24, 0, 0]), (&short, 0, [24, 0, 0]), (&short[..17], 23, [33, 0, 0]), (&nine(&[ALL, 1]), 23, [33, 1, 0])] {
            out.fill(7);
            assert_eq!(raw::widen(table, &mut out[..room]), said);
            assert_eq!((&out[..room], &out[room..]), (&vec![0; room][..], &vec![7; 23 - room][..]));
        }
        for (table, room, said) in [(&long[..], 17, [24, 0, 0]), (&long[..19], 23, [33, 0, 0]), (&ten(&[ALL, 0], &[2, 1]), 5, [33, 1, 0])] {
            out.fill(7);
            assert_eq!(raw::narrow(table, &mut out[..room]), said);
            assert_eq!((&out[..room], &out[room..]), (&vec![0; room][..], &vec![7; 23 - room][..]));
        }
    }

    #[test]
    fn empty_and_too_long() {
        assert_eq!(read(b""), Ok(Reading { nodes: vec![], comments: vec![] }));
        assert_eq!(print(b"", 0), Ok(vec![]));
        assert_eq!(place(b"", 7), Place { line: 1, column: 1, offset: 0 });
        let long = vec![b' '; LONGEST + 1];
        assert_eq!(read(&long), Err(Refusal { number: 20, place: 0, length: 0 }));
        assert_eq!(print(&long, 2), Err(Refusal { number: 20, place: 0, length: 0 }));
        assert_eq!(check(&long), Err(Refusal { number: 20, place: 0, length: 0 }));
        assert_eq!(check(&long[1..]), Ok(()));
    }

    #[test]
    fn the_check_says_where() {
        assert_eq!(check(b"enum E{}\xff"), Err(Refusal { number: 21, place: 8, length: 0 }));
        assert_eq!(check(b"enum E{}@"), Err(Refusal { number: 22, place: 8, length: 0 }));
        assert_eq!(check(b"enum E{"), Ok(()));
    }

    #[test]
    fn tables_hold_the_densest_texts() {
        for unit in ["enum E{A,}", "//\n", "const i8 A=[0,0]", "struct A{1:i8 a}", ";"] {
            let text = unit.repeat(LONGEST / unit.len());
            let reading = read(text.as_bytes()).expect("accepted");
            assert!(reading.nodes.len() <= 2 * LONGEST && reading.comments.len() <= LONGEST);
        }
    }

    #[test]
    fn a_long_print_fits() {
        let text = format!("enum E{{{}}}", "A,".repeat(32_000));
        let printed = print(text.as_bytes(), 8).expect("accepted");
        assert_eq!(printed.len(), "enum E {\n}\n".len() + 11 * 32_000);
    }

    #[test]
    fn places_by_the_line_rule() {
        let at = |text: &[u8], offset| { let p = place(text, offset); (p.line, p.column) };
        assert_eq!(at(b"\r\nenum E{}", 2), (2, 1));
        assert_eq!(at(b"\r\nenum E{}", 1), (1, 2));
        assert_eq!(at(b"\n\renum E{}", 2), (3, 1));
        assert_eq!(at(b"\r\r\nenum E{}", 3), (3, 1));
        assert_eq!(at(b"\renum E{}", 1), (2, 1));
        assert_eq!(at(b"enum E{}\r", 9), (2, 1));
        assert_eq!(at(b"\x0cenum E{}", 1), (2, 1));
        assert_eq!(at(b"/*\r\n*/enum E{}", 6), (2, 3));
        assert_eq!(at(b"const string X='\n'enum E{}", 18), (1, 19));
        assert_eq!(at(b"@\n@", 2), (2, 1));
    }
}
