//! The token cut: rico's own lexer and places.

use rico::ast::Span;
use rico::lexer::Token;
use rico::parser::{Parser, ParserToken};

/// The tokens of a text in text order without newlines, and the offset of the first byte that starts no token.
pub struct Cut<'a> {
    pub tokens: Vec<ParserToken<'a>>,
    pub unrecognized: Option<usize>,
}

pub fn cut(text: &str) -> Cut<'_> {
    let mut parser = Parser::new(text);
    let mut tokens = Vec::new();
    loop {
        match parser.probe_token() {
            (Some(token), _) => tokens.push(token),
            (None, unrecognized) => return Cut { tokens, unrecognized },
        }
    }
}

/// The variant's place in rico's `enum Token`, from 0.
pub fn number(token: Token) -> u32 {
    token as u32
}

/// Index, line and column of start and of end.
pub fn places(s: &Span, e: &Span) -> [u32; 6] {
    [s.index, s.line, s.column, e.index, e.line, e.column].map(|n| n as u32)
}

/// Kind, then the places.
pub fn numbers(token: &ParserToken) -> [u32; 7] {
    let [a, b, c, d, e, f] = places(&token.start, &token.end);
    [number(token.token), a, b, c, d, e, f]
}
