// PROBE, not rico's and no stand-in: lets the oracle read what rico keeps private.
// It stands below rico's parser module because only that module's children see its private parts.

use crate::parser::error::{ParseError, ParseErrorKind};
use crate::parser::{Parser, ParserToken};
use std::cell::Cell;

thread_local! {
    /// The offset of the first field that was begun with another token than an integer.
    /// Only rico with the field rule of Change 4 (fields.patch) sets it.
    static OTHERWISE: Cell<Option<usize>> = const { Cell::new(None) };
    /// The kind (its place in ParseErrorKind, from 1) that `error` was last called with, and whether a token was in hand.
    /// Only rico with raised.patch sets it.
    static RAISED: Cell<Option<(u32, bool)>> = const { Cell::new(None) };
}

impl<'a> Parser<'a> {
    /// The next token with its places, by rico's create_parser_token; for a parser that never parsed.
    /// With no token: the offset that starts none, or nothing at the end of the text.
    pub fn probe_token(&mut self) -> (Option<ParserToken<'a>>, Option<usize>) {
        match self.create_parser_token() {
            Some(token) => (Some(token), None),
            // create_parser_token sets last_span on an error and leaves it at the end.
            None => {
                let span = self.lexer.span();
                let failed = self.last_span == span && !span.is_empty();
                (None, failed.then_some(span.start))
            }
        }
    }

    /// A field is begun, and the token in hand is no integer.
    pub(crate) fn probe_field(&self) {
        if let Some(token) = &self.cur_token {
            OTHERWISE.set(OTHERWISE.get().or(Some(token.span.start)));
        }
    }

    /// What was noted in this thread since the last call.
    pub fn probe_fields() -> Option<usize> {
        OTHERWISE.take()
    }

    /// `error` is called with a kind. Where `parse` refuses, the last call made the error that it returns: every ParseError
    /// comes from `error`, and is handed up as it is but in two places, `with_error_boundary`, which calls `error` anew,
    /// and `is_bracket_end` and `is_brace_end`, which drop it and go on, so that a refusal later is a later call.
    pub(crate) fn probe_error(&self, kind: ParseErrorKind) {
        RAISED.set(Some((kind as u32 + 1, self.cur_token.is_some())));
    }

    /// What `error` was last called with in this thread since the last call of this.
    pub fn probe_raised() -> Option<(u32, bool)> {
        RAISED.take()
    }
}

impl ParseError {
    /// Number (the place in ParseErrorKind, from 1), byte offset and length.
    pub fn probe_refusal(&self) -> (u32, usize, usize) {
        let (number, span) = match self {
            ParseError::UnrecognizedToken { span } => (1, span),
            ParseError::UnexpectedToken { span } => (2, span),
            ParseError::UnexpectedEOF { span } => (3, span),
            ParseError::UnsupportedType { span } => (4, span),
            ParseError::MissingTypeDeclaration { span } => (5, span),
            ParseError::InvalidValueDeclaration { span } => (6, span),
            ParseError::InvalidReturnType { span } => (7, span),
            ParseError::InvalidFieldName { span } => (8, span),
            ParseError::InvalidFieldId { span } => (9, span),
            ParseError::MissingNamespaceIdentifier { span } => (10, span),
            ParseError::MissingNamespaceScope { span } => (11, span),
            ParseError::MissingIncludeIdentifier { span } => (12, span),
            ParseError::MissingConstIdentifier { span } => (13, span),
            ParseError::MissingTypedefIdentifier { span } => (14, span),
            ParseError::MissingEnumIdentifier { span } => (15, span),
            ParseError::MissingStructIdentifier { span } => (16, span),
            ParseError::MissingServiceIdentifier { span } => (17, span),
            ParseError::MissingServiceExtends { span } => (18, span),
            ParseError::InvalidEnumMemberName { span } => (19, span),
        };
        (number, span.offset(), span.len())
    }
}
