//! Refusal 23: the 33rd container inside containers.
//!
//! rico has no such limit, and its files stay unchanged. So the limit is judged from outside:
//! - an accepted text: by the depths in rico's own tree (`deepest`);
//! - a text that rico refuses, or panics on, behind a 33rd container: the tokens are searched for places where at
//!   least 32 containers lie open (`find`). At each the text is cut behind the keyword or bracket, closed, and given
//!   to rico. rico reads from left to right, so it holds that token in the same state in both texts: if its tree has
//!   a container of depth 33 there, the text is refused with 23 there. If not, the place opens no 33rd container.

use crate::flatten::{flatten, Tables};
use crate::tokens::Cut;
use rico::lexer::Token;
use rico::Parser;

pub const LIMIT: usize = 32;

/// More places than this are not tried; the text is then not judged.
const TRIES: usize = 500;

pub enum Depth {
    Within,
    /// Offset and length of the keyword or bracket that opens the 33rd.
    Beyond(usize, usize),
    NotJudged,
}

/// The first container of depth 33 in text order.
pub fn deepest(tables: &Tables) -> Option<(usize, usize)> {
    let mut depths: Vec<(usize, usize)> = Vec::with_capacity(tables.nodes.len());
    for node in &tables.nodes {
        let (types, values) = match node[1] {
            u32::MAX => (0, 0),
            parent => depths[parent as usize],
        };
        let own = match node[0] {
            20 | 21 | 22 => (types + 1, values),
            29 | 30 => (types, values + 1),
            _ => (types, values),
        };
        if own.0 > LIMIT || own.1 > LIMIT {
            let length = match node[0] {
                20 => 4,
                21 | 22 => 3,
                _ => 1,
            };
            return Some((node[3] as usize, length));
        }
        depths.push(own);
    }
    None
}

/// A container that lies open: for a type whether it is a map and its comma was met;
/// for a value whether it is a map, and whether the container itself stands behind a colon.
#[derive(Clone, Copy)]
struct Open {
    map: bool,
    passed: bool,
}

/// The first 33rd container opened at or before the offset `until`.
pub fn find(text: &str, cut: &Cut, until: usize) -> Depth {
    let tokens = &cut.tokens;
    let mut types: Vec<Open> = Vec::new();
    let mut values: Vec<Open> = Vec::new();
    let mut tries = 0;
    for (i, token) in tokens.iter().enumerate() {
        if token.span.start > until {
            break;
        }
        let before = i.checked_sub(1).map(|p| tokens[p].token);
        let candidate = match token.token {
            Token::List | Token::Set | Token::Map => types.len() >= LIMIT,
            Token::LeftBracket | Token::LeftBrace => values.len() >= LIMIT,
            _ => false,
        };
        if candidate {
            if tries == TRIES {
                return Depth::NotJudged;
            }
            tries += 1;
            let is_type = matches!(token.token, Token::List | Token::Set | Token::Map);
            let open = if is_type { &types } else { &values };
            let open = &open[open.len() - LIMIT..];
            let head = &text[..token.span.end];
            let closed = if is_type {
                close_type(token.token == Token::Map, open)
            } else {
                close_value(token.token == Token::LeftBrace, before == Some(Token::Colon), open)
            };
            let tails: &[&str] = if is_type {
                &[" X", " X=1", " x}", " x)}", " f()}"]
            } else {
                &["", "}", ")}"]
            };
            for tail in tails {
                let whole = format!("{head}{closed}{tail}");
                if let Ok(document) = Parser::new(&whole).parse() {
                    if let Some((at, length)) = deepest(&flatten(&document)) {
                        if at == token.span.start {
                            return Depth::Beyond(at, length);
                        }
                    }
                }
            }
        }
        match token.token {
            Token::List | Token::Set | Token::Map => {
                if tokens.get(i + 1).map(|t| t.token) == Some(Token::LeftAngle) {
                    types.push(Open { map: token.token == Token::Map, passed: false });
                } else {
                    types.clear();
                }
            }
            Token::LeftAngle => {}
            Token::RightAngle => {
                types.pop();
            }
            Token::Comma => match types.last_mut() {
                Some(top) if top.map && !top.passed => top.passed = true,
                _ => types.clear(),
            },
            Token::Identifier
            | Token::Bool
            | Token::Byte
            | Token::I8
            | Token::I16
            | Token::I32
            | Token::I64
            | Token::Double
            | Token::String
            | Token::Binary => {}
            _ => types.clear(),
        }
        match token.token {
            Token::LeftBracket | Token::LeftBrace => values.push(Open {
                map: token.token == Token::LeftBrace,
                passed: before == Some(Token::Colon),
            }),
            Token::RightBracket => {
                if values.last().is_some_and(|top| !top.map) {
                    values.pop();
                }
            }
            Token::RightBrace => {
                while values.pop().is_some_and(|top| !top.map) {}
            }
            _ => {}
        }
    }
    Depth::Within
}

fn close_type(map: bool, open: &[Open]) -> String {
    let mut out = String::from(if map { "<i8,i8>" } else { "<i8>" });
    for o in open.iter().rev() {
        out.push_str(if o.map && !o.passed { ",i8>" } else { ">" });
    }
    out
}

fn close_value(map: bool, behind_colon: bool, open: &[Open]) -> String {
    let mut out = String::from(if map { "}" } else { "]" });
    let mut behind_colon = behind_colon;
    for o in open.iter().rev() {
        if o.map {
            out.push_str(if behind_colon { "}" } else { ":0}" });
        } else {
            out.push(']');
        }
        behind_colon = o.passed;
    }
    out
}
