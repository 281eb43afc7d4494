//! rico's writer at an indent of 2: the print of a file that is parsed each time, and of one that is parsed already; the best of several runs.

use std::hint::black_box;
use std::time::Instant;

const RUNS: usize = 20;
const ROUNDS: usize = 20;

fn best(bytes: usize, mut run: impl FnMut()) -> f64 {
    let mut best = f64::INFINITY;
    for _ in 0..RUNS {
        let start = Instant::now();
        for _ in 0..ROUNDS {
            run();
        }
        best = best.min(start.elapsed().as_secs_f64() / ROUNDS as f64);
    }
    bytes as f64 / best / 1e6
}

fn main() {
    let path = std::env::args().nth(1).expect("usage: bench_writer FILE");
    let text = std::fs::read_to_string(path).expect("a readable file");
    let Ok(document) = rico::Parser::new(&text).parse() else {
        println!("{} bytes, refused", text.len());
        return;
    };
    println!("{} bytes, {} printed", text.len(), rico::Writer::new(2).write(&document).len());
    let whole = best(text.len(), || {
        let document = rico::Parser::new(black_box(&text)).parse().unwrap_or_else(|_| panic!("a text that is accepted"));
        black_box(rico::Writer::new(2).write(&document));
    });
    println!("{whole:.1} MB/s, read and print, the best of {RUNS} runs");
    let print = best(text.len(), || {
        black_box(rico::Writer::new(2).write(black_box(&document)));
    });
    println!("{print:.1} MB/s, print alone, the best of {RUNS} runs");
}
