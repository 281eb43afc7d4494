//! The oracle: rico's answer for a text, in the terms of document 01.
//!
//! oracle FORM                    one text from standard input
//! oracle batch FORM              many: each text, and each answer, behind its length (u32, little-endian)
//! oracle list tokens | answers   many as above; writes a whole list file (README.md has the format)
//! oracle check                   many as above; the two ways of judging 23 must agree
//!
//! FORM: nodes, tokens, print INDENT, raw (as nodes, but without the checks 20, 22 and 23: rico left to itself),
//! fields (outside if a field was begun with another token than an integer, else inside; known only over rico with the field rule of Change 4), or
//! raised (the kind that rico's `error` was called with, and 1 with a token in hand, 0 with none; known only over the same rico)

use oracle::judge::{door, judge, judge_fields, judge_noted, Answer, LONGEST};
use oracle::{depth, flatten, tokens};
use rico::Writer;
use std::fmt::Write as _;
use std::io::{self, Read, Write};

const USAGE: &str = "usage: oracle [batch] nodes|tokens|print INDENT|raw|fields|raised, oracle list tokens|answers, oracle check";

/// Indents that answers.list keeps a print for.
const INDENTS: [usize; 3] = [0, 2, 8];

fn main() {
    // rico recurses without a limit; 65,536 bytes can open as many containers.
    let worker = std::thread::Builder::new().stack_size(2 << 30).spawn(run);
    worker.expect("a thread with a large stack").join().expect("the oracle");
}

enum Form {
    Nodes,
    Tokens,
    Print(usize),
    Raw,
    Fields,
    Raised,
}

fn run() {
    std::panic::set_hook(Box::new(|_| {}));
    let args: Vec<String> = std::env::args().skip(1).collect();
    let args: Vec<&str> = args.iter().map(String::as_str).collect();
    let mut input = Vec::new();
    io::stdin().read_to_end(&mut input).expect("standard input");
    let mut out = Vec::new();
    match args.as_slice() {
        ["batch", rest @ ..] => {
            let form = form(rest);
            for text in texts(&input) {
                let answer = answer(text, &form);
                put(&mut out, answer.len());
                out.extend(answer.bytes());
            }
        }
        ["list", "tokens"] => list_tokens(&texts(&input), &mut out),
        ["list", "answers"] => list_answers(&texts(&input), &mut out),
        ["check"] => check(&texts(&input)),
        rest => {
            let form = form(rest);
            out.extend(answer(&input, &form).bytes());
        }
    }
    io::stdout().write_all(&out).expect("standard output");
}

fn form(args: &[&str]) -> Form {
    match args {
        ["nodes"] => Form::Nodes,
        ["tokens"] => Form::Tokens,
        ["raw"] => Form::Raw,
        ["fields"] => Form::Fields,
        ["raised"] => Form::Raised,
        ["print", indent] => Form::Print(indent.parse().expect(USAGE)),
        _ => fail(USAGE),
    }
}

fn fail(message: &str) -> ! {
    eprintln!("{message}");
    std::process::exit(2)
}

/// The texts of a batch, each behind its length.
fn texts(input: &[u8]) -> Vec<&[u8]> {
    let mut texts = Vec::new();
    let mut rest = input;
    while !rest.is_empty() {
        let (length, behind) = rest.split_at(4);
        let length = u32::from_le_bytes(length.try_into().unwrap()) as usize;
        let (text, behind) = behind.split_at(length);
        texts.push(text);
        rest = behind;
    }
    texts
}

fn refusal((number, place, length): (u32, usize, usize)) -> String {
    format!("R {number} {place} {length}\n")
}

fn answer(text: &[u8], form: &Form) -> String {
    match form {
        Form::Tokens => token_lines(text),
        Form::Raw => raw_lines(text),
        Form::Fields => if judge_fields(text).1 { "outside\n" } else { "inside\n" }.to_string(),
        Form::Raised => raised_line(text),
        Form::Print(indent) if text.len() <= LONGEST && *indent > 8 => refusal((26, 0, 0)),
        Form::Nodes | Form::Print(_) => match judge(text) {
            Answer::Refused(r) => refusal(r),
            Answer::Panic(_) => "PANIC\n".to_string(),
            Answer::NotJudged => "NOT JUDGED\n".to_string(),
            Answer::Accepted(document, tables) => match form {
                Form::Print(indent) => Writer::new(*indent).write(&document),
                _ => node_lines(&tables),
            },
        },
    }
}

/// The records: the nodes, then the comments.
fn rows(tables: &flatten::Tables) -> impl Iterator<Item = &[u32]> {
    tables.nodes.iter().map(|n| &n[..]).chain(tables.comments.iter().map(|c| &c[..]))
}

fn node_lines(tables: &flatten::Tables) -> String {
    let mut out = String::new();
    writeln!(out, "{} {}", tables.nodes.len(), tables.comments.len()).unwrap();
    for record in rows(tables) {
        let line: Vec<String> = record.iter().map(u32::to_string).collect();
        writeln!(out, "{}", line.join(" ")).unwrap();
    }
    out
}

fn token_lines(bytes: &[u8]) -> String {
    let text = match door(bytes) {
        Ok(text) => text,
        Err(r) => return refusal(r),
    };
    let cut = tokens::cut(text);
    let mut out = String::new();
    for token in &cut.tokens {
        let line: Vec<String> = tokens::numbers(token)[1..].iter().map(u32::to_string).collect();
        writeln!(out, "{:?} {}", token.token, line.join(" ")).unwrap();
    }
    if let Some(at) = cut.unrecognized {
        out.push_str(&refusal((22, at, 0)));
    }
    out
}

fn raw_lines(bytes: &[u8]) -> String {
    let Ok(text) = std::str::from_utf8(bytes) else { return "R 21\n".to_string() };
    let parse = || rico::Parser::new(text).parse().map_err(|e| e.probe_refusal());
    match std::panic::catch_unwind(parse) {
        Ok(Ok(document)) => node_lines(&flatten::flatten(&document)),
        Ok(Err(r)) => refusal(r),
        Err(_) => "PANIC\n".to_string(),
    }
}

/// What was raised where rico's parser refuses. The refusal must be what `error` makes of it: the kind with a token in hand, 3 or 1 with none.
fn raised_line(bytes: &[u8]) -> String {
    match judge_noted(bytes) {
        (Answer::Panic(_), ..) => "PANIC\n".to_string(),
        (Answer::NotJudged, ..) => "NOT JUDGED\n".to_string(),
        (Answer::Refused((number @ 1..=19, ..)), _, raised) => match raised {
            Some((kind, true)) if kind == number => format!("{kind} 1\n"),
            Some((kind, false)) if number == 1 || number == 3 => format!("{kind} 0\n"),
            Some(_) => fail("what was raised last is not what the text is refused with"),
            None => fail("what is raised is noted over rico with raised.patch alone: ask oracle_fields"),
        },
        (Answer::Accepted(..) | Answer::Refused(_), ..) => "-\n".to_string(),
    }
}

fn put(out: &mut Vec<u8>, number: usize) {
    let number = u32::try_from(number).expect("a number of 32 bits");
    out.extend(number.to_le_bytes());
}

fn put_text(out: &mut Vec<u8>, text: &[u8]) {
    put(out, text.len());
    out.extend(text);
}

fn list_tokens(texts: &[&[u8]], out: &mut Vec<u8>) {
    put(out, texts.len());
    for text in texts {
        put_text(out, text);
        match door(text) {
            Err((number, place, _)) => {
                put(out, number as usize);
                put(out, place);
                put(out, 0);
            }
            Ok(text) => {
                let cut = tokens::cut(text);
                put(out, if cut.unrecognized.is_some() { 22 } else { 0 });
                put(out, cut.unrecognized.unwrap_or(0));
                put(out, cut.tokens.len());
                for token in &cut.tokens {
                    for number in tokens::numbers(token) {
                        put(out, number as usize);
                    }
                }
            }
        }
    }
}

fn list_answers(texts: &[&[u8]], out: &mut Vec<u8>) {
    put(out, texts.len());
    for text in texts {
        put_text(out, text);
        match judge(text) {
            Answer::Refused((number, place, length)) | Answer::Panic((number, place, length)) => {
                put(out, number as usize);
                put(out, place);
                put(out, length);
            }
            Answer::NotJudged => fail("a text whose depth can't be judged has no place in the list"),
            Answer::Accepted(document, tables) => {
                for _ in 0..3 {
                    put(out, 0);
                }
                put(out, tables.nodes.len());
                put(out, tables.comments.len());
                for record in rows(&tables) {
                    for number in record {
                        put(out, *number as usize);
                    }
                }
                for indent in INDENTS {
                    put_text(out, Writer::new(indent).write(&document).as_bytes());
                }
            }
        }
    }
}

/// On texts that rico accepts, the depth by its tree and the depth by closing the text must agree.
fn check(texts: &[&[u8]]) {
    let (mut accepted, mut deep, mut differ) = (0, 0, 0);
    for bytes in texts {
        let Ok(text) = door(bytes) else { continue };
        let cut = tokens::cut(text);
        if cut.unrecognized.is_some() {
            continue;
        }
        let parsed = std::panic::catch_unwind(|| rico::Parser::new(text).parse().ok());
        let Ok(Some(document)) = parsed else { continue };
        accepted += 1;
        let by_tree = depth::deepest(&flatten::flatten(&document));
        let by_closing = match depth::find(text, &cut, usize::MAX) {
            depth::Depth::Beyond(at, length) => Some((at, length)),
            _ => None,
        };
        deep += usize::from(by_tree.is_some());
        if by_tree != by_closing {
            differ += 1;
            eprintln!("{by_tree:?} by the tree, {by_closing:?} by closing: {text:?}");
        }
    }
    println!("accepted {accepted}, deeper than {} {deep}, judged otherwise {differ}", depth::LIMIT);
}
