//! rico's parse alone: the document of a file, the best of several runs; its definitions are counted too.

use std::hint::black_box;
use std::time::Instant;

const RUNS: usize = 20;
const ROUNDS: usize = 20;

fn main() {
    let words: Vec<String> = std::env::args().collect();
    let text = std::fs::read_to_string(&words[1]).expect("usage: bench_parser FILE [once|none]");
    if words.len() > 2 {
        if words[2] == "once" {
            black_box(rico::Parser::new(black_box(&text)).parse().is_ok());
        }
        return;
    }
    let mut best = f64::INFINITY;
    for _ in 0..RUNS {
        let start = Instant::now();
        for _ in 0..ROUNDS {
            black_box(rico::Parser::new(black_box(&text)).parse().is_ok());
        }
        best = best.min(start.elapsed().as_secs_f64() / ROUNDS as f64);
    }
    match rico::Parser::new(&text).parse() {
        Ok(document) => println!("{} bytes, {} definitions", text.len(), document.members.len()),
        Err(_) => println!("{} bytes, refused", text.len()),
    }
    println!("{:.1} MB/s, the best of {RUNS} runs", text.len() as f64 / best / 1e6);
}
