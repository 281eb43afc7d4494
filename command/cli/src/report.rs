//! A refusal for people and for programs.

use crate::explain;
use crate::files::Trouble;
use crate::json::Object;
use hirvelan::numbers::refusal::NO_TOKEN;
use hirvelan::Refusal;
use std::ffi::OsStr;

/// How much of a long line is shown on either side of the place.
const SIDE: usize = 60;

/// A name that can be shown: control characters would act on the terminal.
pub fn shown(name: &OsStr) -> String {
    name.to_string_lossy().chars().map(|c| if c.is_control() { c.escape_default().to_string() } else { c.to_string() }).collect()
}

/// A character of the file that can be shown, one cell wide if it is a control or invisible.
fn visible(c: char) -> char {
    match c {
        '\t' => ' ',
        '\0'..='\x1f' => char::from_u32(0x2400 + c as u32).unwrap_or('\u{fffd}'),
        '\x7f'..='\u{9f}' | '\u{200b}'..='\u{200f}' | '\u{2028}'..='\u{202e}' | '\u{2060}'..='\u{2069}' | '\u{feff}' => '\u{fffd}',
        c => c,
    }
}

/// Bytes of the file on one line: what `visible` would replace is escaped, as a name's control characters are.
pub fn escaped(bytes: &[u8]) -> String {
    String::from_utf8_lossy(bytes).chars().map(|c| if visible(c) == c { c.to_string() } else { c.escape_default().to_string() }).collect()
}

fn line_of(bytes: &[u8]) -> Vec<char> {
    String::from_utf8_lossy(bytes).chars().map(visible).collect()
}

/// The line that an offset stands in, which starts `column - 1` bytes before it, and a caret under the place.
fn excerpt(text: &[u8], offset: usize, column: usize) -> String {
    let end = text[offset..].iter().position(|b| matches!(b, b'\n' | b'\r' | b'\x0c')).map_or(text.len(), |n| offset + n);
    let before = line_of(&text[offset.saturating_sub(column - 1)..offset]);
    let after = line_of(&text[offset..end]);
    let mut line = String::new();
    if before.len() > SIDE {
        line.push('\u{2026}');
    }
    line.extend(&before[before.len().saturating_sub(SIDE)..]);
    let blanks = " ".repeat(line.chars().count());
    line.extend(after.iter().take(SIDE));
    if after.len() > SIDE {
        line.push('\u{2026}');
    }
    format!("  {}\n  {blanks}^\n", line.trim_end())
}

/// What stands at an offset, if it is hard to see.
fn culprit(text: &[u8], refusal: &Refusal) -> String {
    if refusal.number != NO_TOKEN {
        return String::new();
    }
    let rest = text.get(refusal.place as usize..).unwrap_or_default();
    let first = String::from_utf8_lossy(&rest[..rest.len().min(4)]).chars().next();
    match first.and_then(|c| explain::character(c).map(|name| (c, name))) {
        Some((c, name)) => format!(" It is U+{:04X}, {name}.", c as u32),
        None => String::new(),
    }
}

/// `file:line:col: refused N: ..`, the line, a caret, and what to do.
pub fn refusal(name: &OsStr, text: &[u8], refusal: &Refusal) -> String {
    let words = explain::words(text, refusal);
    let place = hirvelan::place(text, refusal.place);
    let mut out = format!("{}:{}:{}: refused {}: {}\n", shown(name), place.line, place.column, refusal.number, words.wrong);
    if explain::has_place(refusal.number) {
        out.push_str(&excerpt(text, place.offset as usize, place.column as usize));
    }
    out.push_str(&format!("  {}{}\n", words.advice, culprit(text, refusal)));
    out
}

pub fn refusal_json(name: &OsStr, text: &[u8], refusal: &Refusal) -> Vec<u8> {
    let words = explain::words(text, refusal);
    let place = hirvelan::place(text, refusal.place);
    named(name, "refused")
        .number("number", refusal.number.into())
        .number("offset", refusal.place.into())
        .number("length", refusal.length.into())
        .number("line", place.line.into())
        .number("column", place.column.into())
        .text("message", words.wrong)
        .text("advice", &format!("{}{}", words.advice, culprit(text, refusal)))
        .line()
}

/// An object's start: which file, and how it went.
pub fn named(name: &OsStr, result: &str) -> Object {
    Object::new().text("file", &name.to_string_lossy()).text("result", result)
}

pub fn trouble(trouble: &Trouble) -> String {
    format!("{}: {}\n", shown(&trouble.name), trouble.why)
}

pub fn trouble_json(trouble: &Trouble) -> Vec<u8> {
    named(&trouble.name, "trouble").text("message", &trouble.why).line()
}

#[cfg(test)]
mod tests {
    use super::*;

    #[test]
    fn the_caret_stands_under_the_place() {
        assert_eq!(excerpt(b"a\n\tx \xff\r\nb", 5, 4), "   x \u{fffd}\n     ^\n");
        let long = [b'y'; 200];
        assert_eq!(excerpt(&long, 100, 101).lines().nth(1), Some(format!("  {}^", " ".repeat(61)).as_str()));
        assert_eq!(excerpt(b"", 0, 1), "  \n  ^\n");
    }

    #[test]
    fn no_control_reaches_the_terminal() {
        let text = excerpt(b"\x1b[31m\x9b", 0, 1);
        assert!(text.chars().all(|c| c == '\n' || !c.is_control()));
        assert_eq!(shown(OsStr::new("a\x1b")), "a\\u{1b}");
        assert_eq!(escaped("a\r\n\t\x1b\u{85}\u{2028}\u{202e}\u{e9}\\".as_bytes()), "a\\r\\n\\t\\u{1b}\\u{85}\\u{2028}\\u{202e}\u{e9}\\");
    }
}
