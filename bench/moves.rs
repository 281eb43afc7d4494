//! A node table moved from nine numbers a record to ten, or from ten to nine.
//!
//! usage: moves MOVE SHAPE FAULT N          the time of a move of N records, the best of several runs
//!        moves MOVE SHAPE FAULT N once     one move, to count instructions by
//!        moves MOVE SHAPE FAULT N none     the same set-up without the move
//!
//! MOVE     widen (to ten numbers) or narrow (to nine)
//! SHAPE    chain: each record is a child of the one before; row: no record has a child; comb: chains of 256 records side by side
//! FAULT    fine, parent (the last record's is bad), or tenth (of record 0, with narrow)

mod timing;

use std::hint::black_box;
use timing::{best, RUNS};

extern "C" {
    fn hirvelan_widen(table: *const u32, length: usize, out: *mut u32, out_length: usize, answer: *mut u32, answer_length: usize);
    fn hirvelan_narrow(table: *const u32, length: usize, out: *mut u32, out_length: usize, answer: *mut u32, answer_length: usize);
}

const NO_PARENT: u32 = u32::MAX;
const TOOTH: u32 = 256;

/// The contract asks nothing of the table, the output or what they hold.
fn moved(widen: bool, table: &[u32], out: &mut [u32]) -> [u32; 3] {
    let mut answer = [0; 3];
    let call = if widen { hirvelan_widen } else { hirvelan_narrow };
    unsafe { call(table.as_ptr(), table.len(), out.as_mut_ptr(), out.len(), answer.as_mut_ptr(), answer.len()) };
    answer
}

/// A record's parent, and the record number just past its last descendant.
fn links(shape: &str, i: u32, n: u32) -> (u32, u32) {
    let before = if i == 0 { NO_PARENT } else { i - 1 };
    match shape {
        "chain" => (before, n),
        "row" => (NO_PARENT, i + 1),
        "comb" => (if i % TOOTH == 0 { NO_PARENT } else { before }, n.min((i / TOOTH + 1) * TOOTH)),
        _ => panic!("a shape: chain, row or comb"),
    }
}

fn table(shape: &str, n: u32, tenth: bool) -> Vec<u32> {
    let mut numbers = Vec::new();
    for i in 0..n {
        let (parent, past) = links(shape, i, n);
        numbers.extend([16, parent, 0, i, 1, i + 1, i + 1, 1, i + 2]);
        if tenth {
            numbers.push(past);
        }
    }
    numbers
}

fn main() {
    let words: Vec<String> = std::env::args().collect();
    let widen = words[1] == "widen";
    let (shape, fault) = (words[2].as_str(), words[3].as_str());
    let n: u32 = words[4].parse().expect("a number");
    let mut from = table(shape, n, !widen);
    let to = table(shape, n, widen);
    let width = if widen { 9 } else { 10 };
    match fault {
        "fine" => {}
        // itself
        "parent" => from[(n as usize - 1) * width + 1] = n - 1,
        "tenth" if !widen => from[9] = 0,
        _ => panic!("a fault: fine, parent, or tenth with narrow"),
    }
    let mut out = vec![7; to.len()];
    if words.len() > 5 {
        if words[5] == "once" {
            black_box(moved(widen, black_box(&from), &mut out));
        }
        return;
    }
    let answer = moved(widen, &from, &mut out);
    match fault {
        "fine" => assert!(answer == [0, n, 0] && out == to),
        "parent" => assert!(answer == [33, n - 1, 0] && out.iter().all(|x| *x == 0)),
        _ => assert!(answer == [33, 0, 0] && out.iter().all(|x| *x == 0)),
    }
    let speed = best(n as usize, || {
        black_box(moved(widen, black_box(&from), &mut out));
    });
    println!("{n} records {:.2} ms, {:.2} ns a record, the best of {RUNS} runs", n as f64 / speed / 1e3, 1e3 / speed);
}
