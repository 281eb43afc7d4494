//! A file's definitions, from its records alone: where each starts and ends, its kind, its name.

use crate::json::Object;
use crate::report;
use hirvelan::numbers::kind;
use hirvelan::{Node, Reading};
use std::ffi::OsStr;
use std::fmt::Write;

/// The IDL's word for a kind of definition.
fn word(kind: u32) -> &'static str {
    match kind {
        kind::INCLUDE => "include",
        kind::CPP_INCLUDE => "cpp_include",
        kind::NAMESPACE => "namespace",
        kind::CONST => "const",
        kind::TYPEDEF => "typedef",
        kind::ENUM => "enum",
        kind::STRUCT => "struct",
        kind::UNION => "union",
        kind::EXCEPTION => "exception",
        kind::SERVICE => "service",
        _ => "unknown",
    }
}

/// The bytes that a record stands over.
pub fn over<'a>(text: &'a [u8], record: &Node) -> &'a [u8] {
    let [_, _, _, start, _, _, end, ..] = *record;
    text.get(start as usize..end as usize).unwrap_or_default()
}

/// `file:line:col-line:col kind name` for each definition.
pub fn listing(file: &OsStr, text: &[u8], reading: &Reading) -> Vec<u8> {
    let (file, mut out) = (report::shown(file), String::new());
    for at in reading.definitions() {
        let [kind, _, _, _, line, column, _, end_line, end_column, _] = reading.nodes[at];
        let _ = write!(out, "{file}:{line}:{column}-{end_line}:{end_column} {}", word(kind));
        for record in reading.scope(at).into_iter().chain(reading.name(at)) {
            let _ = write!(out, " {}", report::escaped(over(text, record)));
        }
        out.push('\n');
    }
    out.into_bytes()
}

pub fn json(file: &OsStr, text: &[u8], reading: &Reading) -> Vec<u8> {
    let definitions = reading.definitions().map(|at| {
        let [kind, _, _, offset, line, column, end_offset, end_line, end_column, _] = reading.nodes[at];
        let mut object = Object::new().text("kind", word(kind));
        for (member, record) in [("scope", reading.scope(at)), ("name", reading.name(at))] {
            if let Some(record) = record {
                object = object.text(member, &String::from_utf8_lossy(over(text, record)));
            }
        }
        object.object("start", place(offset, line, column)).object("end", place(end_offset, end_line, end_column))
    });
    report::named(file, "fine").objects("definitions", definitions).line()
}

pub fn place(offset: u32, line: u32, column: u32) -> Object {
    Object::new().number("offset", offset.into()).number("line", line.into()).number("column", column.into())
}
