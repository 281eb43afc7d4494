//! rico's lexer alone: all tokens of a file, the best of several runs.
//! The sum of all kinds and ends is printed too, so that another lexer's run can be held against it.

use logos::Logos;
use rico::lexer::Token;
use std::hint::black_box;
use std::time::Instant;

const RUNS: usize = 20;
const ROUNDS: usize = 100;

/// Count of tokens, count of errors, sum of kinds and ends.
fn lex(text: &str) -> (usize, usize, usize) {
    let mut lexer = Token::lexer(text);
    let (mut tokens, mut errors, mut sum) = (0, 0, 0);
    while let Some(token) = lexer.next() {
        match token {
            Ok(token) => {
                tokens += 1;
                sum += token as usize + lexer.span().end;
            }
            Err(()) => errors += 1,
        }
    }
    (tokens, errors, sum)
}

fn main() {
    let name = std::env::args().nth(1).expect("usage: bench_lexer FILE");
    let text = std::fs::read_to_string(&name).expect("a readable text");
    let mut best = f64::INFINITY;
    for _ in 0..RUNS {
        let start = Instant::now();
        for _ in 0..ROUNDS {
            black_box(lex(black_box(&text)));
        }
        best = best.min(start.elapsed().as_secs_f64() / ROUNDS as f64);
    }
    let (tokens, errors, sum) = lex(&text);
    let rate = text.len() as f64 / best;
    println!("{} bytes, {tokens} tokens, {errors} errors, sum {sum}", text.len());
    println!("{rate:.0} bytes per second ({:.1} MB/s), the best of {RUNS} runs", rate / 1e6);
}
