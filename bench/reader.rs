//! A reading of the whole text into both tables.
//!
//! usage: reader FILE            bytes per second, the best of several runs, tables as long as the answer needs
//!        reader FILE once N     one reading of the first N bytes, to count instructions by
//!        reader FILE none N     the same set-up without the reading

mod timing;

use std::hint::black_box;
use timing::{best, RUNS};

extern "C" {
    fn hirvelan_read(text: *const u8, length: usize, nodes: *mut u32, nodes_length: usize, comments: *mut u32, comments_length: usize, answer: *mut u32, answer_length: usize);
}

/// The numbers of a record.
const NODE: usize = 10;
const COMMENT: usize = 9;

/// The contract asks nothing of the text, the tables or what they hold.
fn read(text: &[u8], nodes: &mut [u32], comments: &mut [u32]) -> [u32; 3] {
    let mut answer = [0; 3];
    unsafe { hirvelan_read(text.as_ptr(), text.len(), nodes.as_mut_ptr(), nodes.len(), comments.as_mut_ptr(), comments.len(), answer.as_mut_ptr(), answer.len()) };
    answer
}

fn main() {
    let words: Vec<String> = std::env::args().collect();
    let text = std::fs::read(&words[1]).expect("a readable file");
    let mut nodes = vec![7; NODE * 131_072];
    let mut comments = vec![7; COMMENT * 65_536];
    if words.len() > 3 {
        let part = &text[..words[3].parse::<usize>().expect("a number")];
        let answer = read(part, &mut nodes, &mut comments);
        let (n, c) = if answer[0] == 0 { (answer[1] as usize, answer[2] as usize) } else { (0, 0) };
        if words[2] == "once" {
            black_box(read(black_box(part), &mut nodes[..NODE * n], &mut comments[..COMMENT * c]));
        }
        return;
    }
    let answer = read(&text, &mut nodes, &mut comments);
    if answer[0] == 0 {
        println!("{} bytes, {} nodes, {} comments", text.len(), answer[1], answer[2]);
    } else {
        println!("{} bytes, refused: {} at {}, length {}", text.len(), answer[0], answer[1], answer[2]);
    }
    let (n, c) = if answer[0] == 0 { (answer[1] as usize, answer[2] as usize) } else { (0, 0) };
    let speed = best(text.len(), || {
        black_box(read(black_box(&text), &mut nodes[..NODE * n], &mut comments[..COMMENT * c]));
    });
    println!("{speed:.1} MB/s, the best of {RUNS} runs");
}
