//! Each refusal in words, by document 01's number: what is wrong, and what to do.

use hirvelan::numbers::{kind, refusal};
use hirvelan::Refusal;

pub struct Words {
    pub wrong: &'static str,
    pub advice: &'static str,
}

const END: &str = "Finish the definition that this belongs to; perhaps a bracket or a name is missing, or the file's end got lost.";
const REPORT: &str = "This can't be the file's fault; please report it.";

/// What the tokens at a place and directly before it tell.
const SEPARATOR: &str = "Here separators are passed over before comments only, and this one stands behind a comment. Write it before the comment, or leave it out.";
const COMMENT: &str = "A comment can't stand between a field's start and its name. Write it before the field.";
const COMMENT_ELSEWHERE: &str = "A comment can't stand here. Write it before the field, the function or the definition that this belongs to.";
const TWICE: &str = "A field has one of the words `required` and `optional`, and has it once. Remove this one or the one before it.";
const UNFINISHED: &str = "Behind `required` or `optional` a field has its type and its name, as in `required i32 name`.";
const NUMBER: &str = "A field has one number, in decimal digits, as in `1: i32 name`, or none.";
const UNCLOSED: &str = "A definition can't start inside another. Perhaps a closing bracket is missing before it.";
const BRACKET: &str = "Another bracket is open here. Close that one first, or remove this one.";
const COLON: &str = "A colon has to stand before it: behind a field's number or a map's key.";

/// What the records tell of an enum member whose number does not fit.
const HEX: &str = "A hexadecimal number is read as unsigned, so 0x7FFFFFFF is the largest. Write a negative one in decimal digits, as in `NAME = -1`.";
const SUCCESSOR: &str = "It has no number of its own, so it would be one more than 2147483647, the number of the member before it. Give it one from -2147483648 to 2147483647.";

/// What is wrong and what to do, by the number and by the tokens at the place and directly before it, or the records there.
pub fn words(text: &[u8], refusal: &Refusal) -> Words {
    let general = general(refusal.number);
    Words { advice: special(text, refusal).unwrap_or(general.advice), ..general }
}

/// The token at a refusal's place.
fn token_at<'a>(text: &'a [u8], refusal: &Refusal) -> &'a [u8] {
    let rest = text.get(refusal.place as usize..).unwrap_or_default();
    &rest[..rest.len().min(refusal.length as usize)]
}

/// The token directly before a place inside a definition: the text up to there ends too early, and the library refuses that at its last token.
fn token_before(text: &[u8], place: usize) -> &[u8] {
    let start = &text[..place.min(text.len())];
    match hirvelan::read(start) {
        Err(end) if is_end(&end) => token_at(start, &end),
        _ => b"",
    }
}

/// Whether a refusal only says that more has to follow.
fn is_end(refusal: &Refusal) -> bool {
    matches!(refusal.number, refusal::UNRECOGNIZED_TOKEN | refusal::UNEXPECTED_EOF)
}

/// Whether the library would go on behind a place if this stood there instead.
fn would_take(text: &[u8], place: usize, word: &[u8]) -> bool {
    let tried = [&text[..place.min(text.len())], b" ", word].concat();
    hirvelan::read(&tried).is_err_and(|end| is_end(&end))
}

/// Whether a field or a function could start at a place where a type is missing: only there a number or `oneway` could stand.
fn is_start(text: &[u8], place: usize) -> bool {
    would_take(text, place, b"1") || would_take(text, place, b"oneway")
}

fn is_comment(token: &[u8]) -> bool {
    token.starts_with(b"//") || token.starts_with(b"#") || token.starts_with(b"/*")
}

fn is_separator(token: &[u8]) -> bool {
    matches!(token, b"," | b";")
}

fn is_requiredness(token: &[u8]) -> bool {
    matches!(token, b"required" | b"optional")
}

fn is_number(token: &[u8]) -> bool {
    token.iter().find(|b| !matches!(b, b'+' | b'-' | b'.')).is_some_and(u8::is_ascii_digit)
}

fn starts_definition(token: &[u8]) -> bool {
    matches!(token, b"include" | b"cpp_include" | b"namespace" | b"const" | b"typedef" | b"enum" | b"struct" | b"union" | b"exception" | b"service")
}

/// An advice for the tokens at the place and directly before it, or for the records there, if they tell more than the number.
fn special(text: &[u8], refusal: &Refusal) -> Option<&'static str> {
    let place = refusal.place as usize;
    let here = token_at(text, refusal);
    match refusal.number {
        refusal::UNSUPPORTED_TYPE => no_type(text, place, here),
        refusal::INVALID_ENUM_MEMBER_NAME if is_separator(here) && is_comment(token_before(text, place)) => Some(SEPARATOR),
        refusal::INVALID_FIELD_NAME if is_comment(here) => Some(COMMENT),
        refusal::UNEXPECTED_TOKEN if would_take(text, place, b":") => Some(COLON),
        refusal::ENUM_NUMBER_OUTSIDE => outside(text, refusal.place),
        _ => None,
    }
}

/// The same, where a type is missing.
fn no_type(text: &[u8], place: usize, here: &[u8]) -> Option<&'static str> {
    let before = token_before(text, place);
    let behind = before == b":" || is_requiredness(before);
    if is_separator(here) && is_comment(before) {
        return Some(SEPARATOR);
    }
    if is_comment(here) {
        return Some(if behind { COMMENT } else { COMMENT_ELSEWHERE });
    }
    if is_number(here) && (before == b":" || would_take(text, place, b"1")) {
        return Some(NUMBER);
    }
    if is_start(text, place) {
        return match here {
            b")" | b"]" | b"}" | b">" => Some(BRACKET),
            _ if starts_definition(here) => Some(UNCLOSED),
            _ => None,
        };
    }
    match is_requiredness(before) {
        true if is_requiredness(here) => Some(TWICE),
        true => Some(UNFINISHED),
        false => None,
    }
}

/// The same, where an enum member's number does not fit: a text so refused is read, and the member has its own number among its records or none.
fn outside(text: &[u8], place: u32) -> Option<&'static str> {
    let reading = hirvelan::read(text).ok()?;
    let name = reading.nodes.iter().find(|record| record[0] == kind::NAME && record[3] == place)?;
    let number = reading.children(name[1] as usize).map(|child| reading.nodes[child][0]).find(|kind| matches!(*kind, kind::INTEGER | kind::HEX));
    match number {
        None => Some(SUCCESSOR),
        Some(kind::HEX) => Some(HEX),
        Some(_) => None,
    }
}

/// In general, by the number alone.
fn general(number: u32) -> Words {
    let (wrong, advice) = match number {
        refusal::UNRECOGNIZED_TOKEN => ("more has to follow this, and only blanks do", END),
        refusal::UNEXPECTED_TOKEN => ("this can't stand here", "Remove it, or look just before it for something that is missing: a bracket, a name, the end of a definition."),
        refusal::UNEXPECTED_EOF => ("the text ends here, and more has to follow", END),
        refusal::UNSUPPORTED_TYPE => ("a type has to stand here", "Write a type, such as i32, string, list<i32>, map<string, i32>, or the name of a definition."),
        refusal::INVALID_VALUE_DECLARATION => ("a value has to stand here", "Write a number, a string in quotes, true, false, a name, [..] or {..}; an enum member's value is an integer."),
        refusal::INVALID_FIELD_NAME => ("a field's name has to stand here", "Write a field as `1: i32 name`; its number with the colon may be left out."),
        refusal::INVALID_FIELD_ID => ("this is no field number", "Write a number from 0 to 18446744073709551615, without a minus."),
        refusal::MISSING_NAMESPACE_IDENTIFIER => ("the namespace's name has to stand here", "Write it behind the scope, as in `namespace rs rescue.radio`."),
        refusal::MISSING_NAMESPACE_SCOPE => ("the namespace's scope has to stand here", "Write a name, such as rs, or * for every language."),
        refusal::MISSING_INCLUDE_IDENTIFIER => ("a path in quotes has to stand here", "Put the path in quotes, as in `include \"channels.thrift\"`."),
        refusal::MISSING_CONST_IDENTIFIER => ("the constant's name has to stand here", "Write it behind the type, as in `const i32 MAX_WAYPOINTS = 32`; a keyword is no name."),
        refusal::MISSING_TYPEDEF_IDENTIFIER => ("the typedef's name has to stand here", "Write it behind the type, as in `typedef i32 Degrees`; a keyword is no name."),
        refusal::MISSING_ENUM_IDENTIFIER => ("the enum's name has to stand here", "Write it behind `enum`; a keyword is no name."),
        refusal::MISSING_STRUCT_IDENTIFIER => ("the name of the struct, union or exception has to stand here", "Write it behind the first word; a keyword is no name."),
        refusal::MISSING_SERVICE_IDENTIFIER => ("the service's name has to stand here", "Write it behind `service`; a keyword is no name."),
        refusal::MISSING_SERVICE_EXTENDS => ("the extended service's name has to stand here", "Write it behind `extends`, or remove `extends`."),
        refusal::INVALID_ENUM_MEMBER_NAME => ("an enum member's name has to stand here", "Write a member as NAME or NAME = 1; a keyword is no name."),
        refusal::TEXT_TOO_LONG => ("the file has more than 65536 bytes", "Split it into several files and include one in the other."),
        refusal::NOT_UTF8 => ("this is not UTF-8", "Save the file as UTF-8; perhaps it is in another encoding, or is no text."),
        refusal::NO_TOKEN => ("no token starts here", "Remove what stands here, or close the string or the comment that starts here."),
        refusal::TOO_DEEP => ("this is the 33rd container inside another", "Give the inner ones a typedef or a constant of their own; 32 inside one another are read."),
        refusal::NODES_FULL => ("the file has more nodes than the table holds", REPORT),
        refusal::COMMENTS_FULL => ("the file has more comments than the table holds", REPORT),
        refusal::INDENT_TOO_WIDE => ("the indent is over 8", "Give --indent a number from 0 to 8."),
        refusal::OUTPUT_FULL => ("the print is longer than the output", REPORT),
        refusal::ENUM_NUMBER_OUTSIDE => ("this enum member's number does not fit in signed 32 bits", "Write a number from -2147483648 to 2147483647."),
        refusal::NOT_MOVABLE => ("a stored table can't be moved", REPORT),
        _ => ("the library gave an unknown number", REPORT),
    };
    Words { wrong, advice }
}

/// The refusals that are about the whole text: there is no place to show.
pub fn has_place(number: u32) -> bool {
    !matches!(number, refusal::TEXT_TOO_LONG | refusal::NODES_FULL | refusal::COMMENTS_FULL | refusal::INDENT_TOO_WIDE | refusal::OUTPUT_FULL | refusal::NOT_MOVABLE)
}

/// A name for characters that are hard to see or to tell apart, and come along when text is pasted.
pub fn character(c: char) -> Option<&'static str> {
    Some(match c {
        '\0' => "a zero byte",
        '\u{feff}' => "a byte order mark",
        '\u{a0}' | '\u{202f}' | '\u{2007}' => "a no-break space",
        '\u{2018}' | '\u{2019}' | '\u{201c}' | '\u{201d}' | '\u{201e}' => "a curly quote",
        '\u{200b}' | '\u{200c}' | '\u{200d}' | '\u{2060}' => "an invisible character",
        '\u{202a}'..='\u{202e}' | '\u{2066}'..='\u{2069}' => "an invisible mark that turns the writing direction",
        '\u{2010}'..='\u{2015}' | '\u{2212}' => "a dash",
        c if c.is_control() => "a control character",
        c if !c.is_ascii() => "no ASCII character",
        _ => return None,
    })
}
