//! Lines and columns where a text has CR LF: Change 1 counts the pair for one line end, rico for two between tokens.
//!
//! The rule, from the customer's words: between tokens `\n`, `\f` and a `\r` that no `\n` directly follows end a line each; in a block
//! comment `\n` alone does; in strings and line comments nothing. Kinds and offsets of the tokens are rico's own.

use oracle::tokens::cut;
use rico::lexer::Token;

pub fn has_pair(text: &[u8]) -> bool {
    text.windows(2).any(|pair| pair == b"\r\n")
}

/// The text with a space for each `\r` directly before `\n`: the same tokens and no pair, so that rico's own lines are the rule's.
pub fn spaced(text: &[u8]) -> Vec<u8> {
    let mut out = text.to_vec();
    for at in 1..out.len() {
        if out[at - 1] == b'\r' && out[at] == b'\n' {
            out[at - 1] = b' ';
        }
    }
    out
}

/// The offsets at which lines start, up to the last token.
fn starts(text: &str) -> Vec<u32> {
    let bytes = text.as_bytes();
    let between = |at: usize| match bytes[at] {
        b'\n' | b'\x0c' => true,
        b'\r' => bytes.get(at + 1) != Some(&b'\n'),
        _ => false,
    };
    let mut starts = vec![0];
    let mut from = 0;
    for token in &cut(text).tokens {
        let block = token.token == Token::BlockComment;
        let ends = (from..token.span.start).filter(|at| between(*at)).chain(token.span.clone().filter(|at| block && bytes[*at] == b'\n'));
        starts.extend(ends.map(|at| at as u32 + 1));
        from = token.span.end;
    }
    starts
}

/// Sets the lines and columns of records of so many numbers by the rule; how many records get another line than rico's, and how many another column.
pub fn place(text: &[u8], records: &mut [u32], width: usize) -> (u64, u64) {
    let starts = starts(std::str::from_utf8(text).expect("an accepted text"));
    let (mut lines, mut columns) = (0, 0);
    for record in records.chunks_mut(width) {
        let before = record.to_vec();
        for at in [3, 6] {
            let line = starts.partition_point(|start| *start <= record[at]);
            record[at + 1] = line as u32;
            record[at + 2] = record[at] - starts[line - 1] + 1;
        }
        lines += u64::from(before[4] != record[4] || before[7] != record[7]);
        columns += u64::from(before[5] != record[5] || before[8] != record[8]);
    }
    (lines, columns)
}
