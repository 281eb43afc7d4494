//! The domain checks of document 01, then rico's answer.

use crate::depth::{deepest, find, Depth};
use crate::flatten::{flatten, Tables};
use crate::tokens::{cut, Cut};
use rico::ast::Document;
use rico::Parser;
use std::panic::{catch_unwind, AssertUnwindSafe};

pub const LONGEST: usize = 65_536;

/// Number, place, length.
pub type Refusal = (u32, usize, usize);

/// The kind that rico's `error` was called with, before the end rule in it, and whether a token was in hand.
pub type Raised = (u32, bool);

pub enum Answer {
    Accepted(Document, Tables),
    Refused(Refusal),
    /// rico panics; the refusal that document 01 sets in its place (end rule).
    Panic(Refusal),
    /// Refusal 23 could not be judged from outside.
    NotJudged,
}

/// 20 and 21.
pub fn door(bytes: &[u8]) -> Result<&str, Refusal> {
    if bytes.len() > LONGEST {
        return Err((20, 0, 0));
    }
    std::str::from_utf8(bytes).map_err(|e| (21, e.valid_up_to(), 0))
}

pub fn judge(bytes: &[u8]) -> Answer {
    judge_fields(bytes).0
}

/// The answer, and whether a field was begun with another token than an integer before the reading ended.
/// Over rico unchanged the second is always false; over rico with the field rule of Change 4 it tells the texts on which the two rules may part.
pub fn judge_fields(bytes: &[u8]) -> (Answer, bool) {
    let (answer, otherwise, _) = judge_noted(bytes);
    (answer, otherwise)
}

/// As judge_fields; and what was raised where rico's parser refuses. That is noted over rico with raised.patch alone.
pub fn judge_noted(bytes: &[u8]) -> (Answer, bool, Option<Raised>) {
    let text = match door(bytes) {
        Ok(text) => text,
        Err(refusal) => return (Answer::Refused(refusal), false, None),
    };
    let cut = cut(text);
    if let Some(at) = cut.unrecognized {
        return (Answer::Refused((22, at, 0)), false, None);
    }
    Parser::probe_fields();
    Parser::probe_raised();
    let parsed = catch_unwind(AssertUnwindSafe(|| {
        Parser::new(text).parse().map_err(|e| e.probe_refusal())
    }));
    // before the depth is judged: that reads other texts
    let noted = Parser::probe_fields();
    let raised = Parser::probe_raised();
    let answer = judged(text, &cut, parsed);
    let otherwise = match answer {
        // rico read on behind the 33rd container
        Answer::Refused((23, place, _)) => noted.is_some_and(|at| at < place),
        _ => noted.is_some(),
    };
    (answer, otherwise, raised)
}

fn judged(text: &str, cut: &Cut, parsed: std::thread::Result<Result<Document, Refusal>>) -> Answer {
    match parsed {
        Ok(Ok(document)) => {
            let tables = flatten(&document);
            match deepest(&tables) {
                Some((at, length)) => Answer::Refused((23, at, length)),
                None => Answer::Accepted(document, tables),
            }
        }
        Ok(Err(refusal)) => match find(text, cut, refusal.1) {
            Depth::Within => Answer::Refused(refusal),
            Depth::Beyond(at, length) => Answer::Refused((23, at, length)),
            Depth::NotJudged => Answer::NotJudged,
        },
        Err(_) => match find(text, cut, usize::MAX) {
            Depth::Within => Answer::Panic(end_rule(text, cut)),
            Depth::Beyond(at, length) => Answer::Refused((23, at, length)),
            Depth::NotJudged => Answer::NotJudged,
        },
    }
}

/// Document 01's end rule, used only where rico panics.
fn end_rule(text: &str, cut: &Cut) -> Refusal {
    match cut.tokens.last() {
        Some(last) => {
            let number = if last.span.end == text.len() { 3 } else { 1 };
            (number, last.span.start, last.span.len())
        }
        None => panic!("rico panicked on a text without tokens"),
    }
}
