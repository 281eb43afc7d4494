//! The numbers of a text's enum members, beside a plain reading of the same text.
//!
//! usage: enums TEXT N          bytes per second of both, the best of several runs, tables and list as long as the answer needs
//!        enums TEXT N once     one call for the numbers, to count instructions by
//!        enums TEXT N read     one reading
//!        enums TEXT N none     the same set-up without either
//!
//! TEXT     names: one enum, `A,` over and over; written, hex: the same with `A=2147483647,` and `A=0x7FFFFFFF,`; small: enums of three members;
//!          digits: one member, its number of as many digits as fit; over: as names, the last member behind 2147483647 (28); else a file
//! N        bytes at most

mod timing;

use std::hint::black_box;
use timing::{best, RUNS};

extern "C" {
    fn hirvelan_read(text: *const u8, length: usize, nodes: *mut u32, nodes_length: usize, comments: *mut u32, comments_length: usize, answer: *mut u32, answer_length: usize);
    fn hirvelan_enum_numbers(text: *const u8, length: usize, nodes: *mut u32, nodes_length: usize, comments: *mut u32, comments_length: usize, list: *mut i32, list_length: usize, answer: *mut u32, answer_length: usize);
}

/// The numbers of a record.
const NODE: usize = 10;
const COMMENT: usize = 9;
const MEMBER: u32 = 13;

/// Both are timed turn about.
const TURNS: usize = 3;

/// The contracts ask nothing of the text, of what is lent or of what that holds.
fn read(text: &[u8], nodes: &mut [u32], comments: &mut [u32]) -> [u32; 3] {
    let mut answer = [0; 3];
    unsafe { hirvelan_read(text.as_ptr(), text.len(), nodes.as_mut_ptr(), nodes.len(), comments.as_mut_ptr(), comments.len(), answer.as_mut_ptr(), answer.len()) };
    answer
}

fn numbers(text: &[u8], nodes: &mut [u32], comments: &mut [u32], list: &mut [i32]) -> [u32; 3] {
    let mut answer = [0; 3];
    unsafe {
        hirvelan_enum_numbers(
            text.as_ptr(), text.len(), nodes.as_mut_ptr(), nodes.len(), comments.as_mut_ptr(), comments.len(), list.as_mut_ptr(), list.len(),
            answer.as_mut_ptr(), answer.len(),
        )
    };
    answer
}

/// The text, and its first and last number if it is one of those made here.
fn text(shape: &str, n: usize) -> (Vec<u8>, Option<[i32; 2]>) {
    let filled = |head: &str, piece: &str, tail: &str| head.to_string() + &piece.repeat((n - head.len() - tail.len()) / piece.len()) + tail;
    let members = |text: &String| text.matches('A').count() as i32;
    let (text, ends) = match shape {
        "names" => {
            let text = filled("enum E{", "A,", "}");
            let last = members(&text) - 1;
            (text, [0, last])
        }
        "written" => (filled("enum E{", "A=2147483647,", "}"), [i32::MAX; 2]),
        "hex" => (filled("enum E{", "A=0x7FFFFFFF,", "}"), [i32::MAX; 2]),
        "small" => (filled("", "enum E{A,B,C}", ""), [0, 2]),
        "digits" => (filled("enum E{A=", "0", "7}"), [7; 2]),
        "over" => {
            // so many members behind the first
            let behind = members(&filled("enum E{A=2147000000,", "A,", "}")) - 1;
            let first = i32::MAX - behind + 1;
            (filled(&format!("enum E{{A={first},"), "A,", "}"), [first, 0])
        }
        _ => return (std::fs::read(shape).expect("a readable file")[..n].to_vec(), None),
    };
    (text.into_bytes(), Some(ends))
}

fn main() {
    let words: Vec<String> = std::env::args().collect();
    let shape = words[1].as_str();
    let (text, ends) = text(shape, words[2].parse().expect("a number"));
    let mut nodes = vec![7; NODE * 131_072];
    let mut comments = vec![7; COMMENT * 65_536];
    let answer = read(&text, &mut nodes, &mut comments);
    assert!(answer[0] == 0, "the reading is refused: {:?}", answer);
    let (nodes, comments) = (&mut nodes[..NODE * answer[1] as usize], &mut comments[..COMMENT * answer[2] as usize]);
    let members = nodes.chunks(NODE).filter(|record| record[0] == MEMBER).count();
    let mut list = vec![7; members];
    if words.len() > 3 {
        println!("{} {members}", text.len());
        match words[3].as_str() {
            "once" => {
                black_box(numbers(black_box(&text), nodes, comments, &mut list));
            }
            "read" => {
                black_box(read(black_box(&text), nodes, comments));
            }
            _ => {}
        }
        return;
    }
    let answer = numbers(&text, nodes, comments, &mut list);
    match shape {
        "over" => assert!(answer == [28, text.len() as u32 - 3, 1] && list.iter().all(|x| *x == 0), "{:?}", answer),
        _ => assert!(answer == [0, members as u32, 0], "{:?}", answer),
    }
    if let (Some(ends), 0) = (ends, answer[0]) {
        assert!([list[0], list[members - 1]] == ends);
    }
    let (mut reading, mut numbering) = (0f64, 0f64);
    for _ in 0..TURNS {
        reading = reading.max(best(text.len(), || {
            black_box(read(black_box(&text), nodes, comments));
        }));
        numbering = numbering.max(best(text.len(), || {
            black_box(numbers(black_box(&text), nodes, comments, &mut list));
        }));
    }
    println!("{} bytes, {members} members: read {reading:.1} MB/s, numbers {numbering:.1} MB/s ({:.2}), the best of {} runs", text.len(), numbering / reading, TURNS * RUNS);
}
