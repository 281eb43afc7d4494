//! A printing of the whole text at an indent of 2, and a reading of it.
//!
//! usage: printer FILE            bytes of text per second, the best of several runs, tables and output as long as the answer needs
//!        printer FILE once N     one printing of the first N bytes, to count instructions by
//!        printer FILE none N     the same set-up without the printing

mod timing;

use std::hint::black_box;
use timing::{best, RUNS};

extern "C" {
    fn hirvelan_read(text: *const u8, length: usize, nodes: *mut u32, nodes_length: usize, comments: *mut u32, comments_length: usize, answer: *mut u32, answer_length: usize);
    fn hirvelan_print(text: *const u8, length: usize, indent: u32, nodes: *mut u32, nodes_length: usize, comments: *mut u32, comments_length: usize, out: *mut u8, out_length: usize, answer: *mut u64, answer_length: usize);
}

const INDENT: u32 = 2;

/// The numbers of a record.
const NODE: usize = 10;
const COMMENT: usize = 9;

/// The contracts ask nothing of the text, of what is lent or of what that holds.
fn read(text: &[u8], nodes: &mut [u32], comments: &mut [u32]) {
    let mut answer = [0; 3];
    unsafe { hirvelan_read(text.as_ptr(), text.len(), nodes.as_mut_ptr(), nodes.len(), comments.as_mut_ptr(), comments.len(), answer.as_mut_ptr(), answer.len()) };
}

fn print(text: &[u8], nodes: &mut [u32], comments: &mut [u32], out: &mut [u8]) -> [u64; 4] {
    let mut answer = [0; 4];
    unsafe {
        hirvelan_print(
            text.as_ptr(), text.len(), INDENT, nodes.as_mut_ptr(), nodes.len(), comments.as_mut_ptr(), comments.len(),
            out.as_mut_ptr(), out.len(), answer.as_mut_ptr(), answer.len(),
        )
    };
    answer
}

fn main() {
    let words: Vec<String> = std::env::args().collect();
    let mut text = std::fs::read(&words[1]).expect("a readable file");
    if words.len() > 3 {
        text.truncate(words[3].parse().expect("a number"));
    }
    let mut nodes = vec![7; NODE * 131_072];
    let mut comments = vec![7; COMMENT * 65_536];
    let mut out = vec![7; 1 << 20];
    let answer = print(&text, &mut nodes, &mut comments, &mut out);
    if answer[0] != 0 {
        println!("{} bytes, refused: {} at {}, length {}", text.len(), answer[0], answer[1], answer[2]);
        return;
    }
    let (n, c, b) = (NODE * answer[1] as usize, COMMENT * answer[2] as usize, answer[3] as usize);
    if words.len() > 3 {
        if words[2] == "once" {
            black_box(print(black_box(&text), &mut nodes[..n], &mut comments[..c], &mut out[..b]));
        }
        return;
    }
    println!("{} bytes, {} printed", text.len(), b);
    let whole = best(text.len(), || {
        black_box(print(black_box(&text), &mut nodes[..n], &mut comments[..c], &mut out[..b]));
    });
    println!("{whole:.1} MB/s, read and print, the best of {RUNS} runs");
    let reading = best(text.len(), || read(black_box(&text), &mut nodes[..n], &mut comments[..c]));
    println!("{:.1} MB/s, print alone (the first less a reading)", 1.0 / (1.0 / whole - 1.0 / reading));
}
