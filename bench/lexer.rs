//! The whole-text check (20, 21, 22) beside a loop that copies the same text byte by byte.
//!
//! usage: lexer FILE            bytes per second at sizes from 1 KiB up to the file's, the best of several runs
//!        lexer FILE once N     one check of the first N bytes, to count instructions by
//!        lexer FILE none N     the same set-up without the check

mod timing;

use std::hint::black_box;
use timing::best;

extern "C" {
    fn hirvelan_check(text: *const u8, length: usize, answer: *mut u32, answer_length: usize);
}

/// The contract asks nothing of the text.
fn check(text: &[u8]) -> u32 {
    let mut answer = [0; 3];
    unsafe { hirvelan_check(text.as_ptr(), text.len(), answer.as_mut_ptr(), answer.len()) };
    answer[0]
}

#[inline(never)]
fn copy(from: &[u8], to: &mut [u8]) {
    for i in 0..from.len() {
        // volatile: one byte at a time, as written
        unsafe { std::ptr::write_volatile(to.as_mut_ptr().add(i), from[i]) };
    }
}

fn main() {
    let words: Vec<String> = std::env::args().collect();
    let text = std::fs::read(&words[1]).expect("a readable file");
    if words.len() > 3 {
        let part = &text[..words[3].parse::<usize>().expect("a number")];
        if words[2] == "once" {
            black_box(check(black_box(part)));
        }
        return;
    }
    assert_eq!(check(&text), 0, "the text is refused");
    let mut out = vec![0; text.len()];
    println!("{:>8} {:>12} {:>12}", "bytes", "check MB/s", "copy MB/s");
    let doubled = (10..).map(|power| 1 << power).take_while(|size| *size < text.len());
    for size in doubled.chain([text.len()]) {
        let part = &text[..size];
        let ours = best(size, || {
            black_box(check(black_box(part)));
        });
        let plain = best(size, || copy(black_box(part), black_box(&mut out[..size])));
        println!("{size:>8} {ours:>12.0} {plain:>12.0}");
    }
}
