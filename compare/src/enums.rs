//! Change 2: the number of each enum member, from the customer's words, over rico's tree; and texts made of enums.
//!
//! A written integer or hex digit string is that number, hex read as unsigned. A member without one gets the previous plus one, the first of an enum 0.
//! The first number that is not from -2147483648 to 2147483647 is 28, at the member's name.

use crate::random::Rng;
use crate::texts;

const LEAST: i128 = -2_147_483_648;
const MOST: i128 = 2_147_483_647;
/// Stands for all numbers of more digits than are counted.
const FAR: i128 = i128::MAX / 2;

/// A member of rico's tree: where its name stands, how long it is, and what is written behind `=`.
pub struct Member {
    pub place: u32,
    pub length: u32,
    pub written: Option<String>,
}

#[derive(Clone, PartialEq, Debug)]
pub enum Numbers {
    All(Vec<i32>),
    /// `walked`: the member has no number of its own.
    Outside { place: u32, length: u32, walked: bool },
}

/// What a digit string says.
fn value(written: &str) -> i128 {
    let (base, digits) = match written.strip_prefix("0x").or(written.strip_prefix("0X")) {
        Some(digits) => (16, digits),
        None => (10, written.trim_start_matches(['+', '-'])),
    };
    let digits = digits.trim_start_matches('0');
    let size = match digits.len() {
        0..=25 => digits.chars().fold(0, |n, digit| n * i128::from(base) + i128::from(digit.to_digit(base).expect("a digit"))),
        _ => FAR,
    };
    if written.starts_with('-') { -size } else { size }
}

/// The numbers of the members, by enum.
pub fn numbers(enums: &[Vec<Member>]) -> Numbers {
    let mut list = Vec::new();
    for members in enums {
        let mut next = 0;
        for member in members {
            let number = member.written.as_deref().map_or(next, value);
            if !(LEAST..=MOST).contains(&number) {
                return Numbers::Outside { place: member.place, length: member.length, walked: member.written.is_none() };
            }
            list.push(i32::try_from(number).expect("a number in the range"));
            next = number + 1;
        }
    }
    Numbers::All(list)
}

/// Texts and their numbers, or the place and length of 28, worked out by hand: the model above is held to them too.
pub const KNOWN: &[(&str, Result<&[i32], (u32, u32)>)] = &[
    ("", Ok(&[])),
    ("const i8 X=5", Ok(&[])),
    ("enum E{}", Ok(&[])),
    ("enum E{A}", Ok(&[0])),
    ("enum E{A,B,C}", Ok(&[0, 1, 2])),
    ("enum E{A=3,B,C=3,D}", Ok(&[3, 4, 3, 4])),
    ("enum E{A=5,B}enum F{}enum G{C,D=-7,E}", Ok(&[5, 6, 0, -7, -6])),
    ("enum E{A=-1,B,C}", Ok(&[-1, 0, 1])),
    ("enum E{A=+7 B=-0 C=+0 D=007 E=-0010}", Ok(&[7, 0, 0, 7, -10])),
    ("enum E{A=0x10 B C=0XfF D=0x00000000000000000000000000000001}", Ok(&[16, 17, 255, 1])),
    ("enum E{A=-2147483648,B}", Ok(&[-2147483648, -2147483647])),
    ("enum E{A=2147483647}", Ok(&[2147483647])),
    ("enum E{A=2147483646,B}", Ok(&[2147483646, 2147483647])),
    ("enum E{A=0x7fffffff}enum F{B}", Ok(&[2147483647, 0])),
    ("enum E{A=2147483647,B=1,C}", Ok(&[2147483647, 1, 2])),
    // the tokens are `-0` and the member `x1`
    ("enum E{A=-0x1}", Ok(&[0, 1])),
    ("enum E{A=2147483647,Bb}", Err((20, 2))),
    ("enum E{A=2147483648}", Err((7, 1))),
    ("enum E{A=-2147483649}", Err((7, 1))),
    ("enum E{A=0x80000000}", Err((7, 1))),
    ("enum E{A=0xffffffff}", Err((7, 1))),
    ("enum E{A=4294967296}", Err((7, 1))),
    ("enum E{A=18446744073709551616}", Err((7, 1))),
    ("enum E{A=-18446744073709551616}", Err((7, 1))),
    ("enum E{A=0x10000000000000000}", Err((7, 1))),
    ("enum E{A}/*c*/enum F{B=1;#c\n a.long=99999999999999999999999999999999999999999999999,C=-3000000000}", Err((29, 6))),
];

// ---- texts made of enums

/// Edges of the numbers: the range's, and those of the widths that a program may count in.
pub fn edges() -> Vec<i128> {
    let powers = [0, 7, 8, 15, 16, 31, 32, 33, 63, 64, 65].map(|bits| 1i128 << bits);
    let tens = [9, 10, 18, 19, 20].map(|digits| 10i128.pow(digits));
    powers.into_iter().chain(tens).flat_map(|edge| (-2..=2).flat_map(move |near| [edge + near, -edge + near])).collect()
}

/// A number as it may be written: in hex if it is not negative and that is asked for.
pub fn written(rng: &mut Rng, number: i128, hex: bool) -> String {
    let zeros = "0".repeat(rng.one(&[0, 0, 0, 0, 1, 2, 9, 19, 40]));
    if hex && number >= 0 {
        let lower = format!("{number:x}");
        let digits: String = match rng.below(3) {
            0 => lower,
            1 => lower.to_uppercase(),
            _ => lower.chars().map(|digit| if rng.percent(50) { digit.to_ascii_uppercase() } else { digit }).collect(),
        };
        return format!("{}{zeros}{digits}", rng.one(&["0x", "0X"]));
    }
    let sign = if number < 0 || number == 0 && rng.percent(20) { "-" } else { rng.one(&["", "", "", "+"]) };
    format!("{sign}{zeros}{}", number.unsigned_abs())
}

/// A number of one of many kinds. `wild`: the chance, of 1,000, that it may be outside.
fn number(rng: &mut Rng, wild: usize) -> String {
    let hex = rng.percent(30);
    if rng.below(1000) < wild {
        return match rng.below(6) {
            0 => {
                let digits: String = (0..20 + rng.below(60)).map(|_| rng.one(&["0", "1", "7", "8", "9"])).collect();
                format!("{}{digits}", rng.one(&["", "+", "-", "0x", "0X"]))
            }
            1 => rng.one(&["-0x1", "+0x7fffffff", "-0X80000000", "00x1", "0x", "1.5", "1e3", "'1'", "A", "+", "-"]).to_string(),
            _ => {
                let edge = rng.one(&edges());
                written(rng, edge, hex)
            }
        };
    }
    let within = match rng.below(8) {
        0 => MOST - rng.below(6) as i128,
        1 => LEAST + rng.below(6) as i128,
        2 => i128::from(rng.next() as u32 as i32),
        3 => -(rng.below(4) as i128),
        _ => rng.below(300) as i128,
    };
    written(rng, within, hex)
}

const NAMES: &[&str] = &["A", "B", "c", "_", "x1", "xF", "A_LONGER_NAME_OF_A_MEMBER", "a.b", "e1", "list.x", "structs", "E"];
const KEYWORDS: &[&str] = &["enum", "struct", "list", "i32", "true", "void", "optional", "namespace", "const"];
const BETWEEN: &[&str] = &[
    "const i8 X=2147483648", "const list<i8> X=[1,0x80000000,{A:99999999999}]", "struct S{1:i8 a=2147483648,2:i8 b}", "union U{i8 a=0xffffffff}", "exception X{4294967295:i8 a}",
    "service S{void f(1:i8 a=5)throws(2:X x)}", "typedef i8 T", "include 'a'", "namespace * a", "enum E{}", "struct A{}(a='5')", "//enum E{A=2147483648}\n", "/*enum E{A}*/",
];

/// Something that may stand behind a member.
fn gap(rng: &mut Rng, chatty: usize) -> &'static str {
    if rng.percent(chatty) {
        return rng.one(&["#c\n", ",//=5\n", "/*c*/", ";/*\r\n*/", ";#,\n\n", ", /* A=1, */\n"]);
    }
    rng.one(&[",", ",", ", ", ";", " ", "\n", ",\n  ", ",,", ";;\n", "\r\n"])
}

fn annotations(rng: &mut Rng) -> &'static str {
    rng.one(&["(a='b')", " ( a = '5' , b=\"=2147483648\" )", "()", "(a='b';c='d')", "(#c\na='5')"])
}

/// A text of enums, with other definitions between them; some damaged. `large`: thousands of members.
pub fn text(rng: &mut Rng, large: bool) -> Vec<u8> {
    let (enums, most) = if large { rng.one(&[(1, 12_000), (40, 200), (3000, 3)]) } else { rng.one(&[(1, 4), (1, 12), (1, 40), (3, 6), (12, 3)]) };
    let wild = if large { 0 } else { rng.one(&[0, 0, 0, 30, 150, 700]) };
    let (own, notes, chatty, between, keywords) = (rng.one(&[0, 10, 50, 100]), rng.one(&[0, 0, 15]), rng.one(&[0, 0, 20]), rng.one(&[0, 30]), rng.one(&[0, 0, 0, 0, 2]));
    // of 100 enums, those with a run up to 2147483647 or over it
    let runs = if large { 0 } else { rng.one(&[0, 0, 15]) };
    let mut out = String::new();
    for _ in 0..1 + rng.below(enums) {
        if rng.percent(between) {
            out += rng.one(BETWEEN);
            out += rng.one(&["\n", ";", " ,", " "]);
        }
        out += rng.one(&["enum E{", "enum E {\n", "enum Longer_2{", "#c\nenum a.b{", "enum E{;;", "enum E{//c\n"]);
        let members = rng.below(most + 1);
        // the member with which a run begins, and how many behind it stay within
        let (from, room) = if rng.percent(runs) { (rng.below(members + 1), rng.below(members + 2)) } else { (members, 0) };
        for at in 0..members {
            out += if keywords > 0 && rng.percent(keywords) { rng.one(KEYWORDS) } else { rng.one(NAMES) };
            if at == from {
                let hex = rng.percent(40);
                out += &format!("={}", written(rng, MOST - room as i128, hex));
            } else if at < from && rng.percent(own) {
                out += if rng.below(4000) < wild { "/*c*/=" } else { rng.one(&["=", " = ", "= ", "\n="]) };
                // what may be next is kept from running over by a small number
                out += &if large { written(rng, at as i128, at % 3 == 0) } else { number(rng, wild) };
            }
            if rng.percent(notes) {
                out += annotations(rng);
            }
            out += gap(rng, chatty);
        }
        out += "}";
        if rng.percent(notes) {
            out += annotations(rng);
        }
        out += rng.one(&["", "\n", " ", ";\n", "\r\n"]);
        if out.len() > 64_000 {
            break;
        }
    }
    let mut text = out.into_bytes();
    if large {
        // cut at the limit, so the last enum may be open
        text.truncate(65_536);
    }
    match rng.below(20) {
        0 | 1 => texts::damaged(rng, &text),
        2 => texts::other_ends(rng, &text),
        _ => text,
    }
}
