//! The members of a file's enums, each with its number: where its name stands, the enum's name and its own.

use crate::json::Object;
use crate::outline::{over, place};
use crate::report;
use hirvelan::EnumNumber;
use std::ffi::OsStr;
use std::fmt::Write;

/// `file:line:col Enum.MEMBER = number` for each member.
pub fn listing(file: &OsStr, text: &[u8], members: &[EnumNumber]) -> Vec<u8> {
    let (file, mut out) = (report::shown(file), String::new());
    for member in members {
        let [_, _, _, _, line, column, ..] = member.member_name;
        let [of, name] = [member.enum_name, member.member_name].map(|record| report::escaped(over(text, &record)));
        let _ = writeln!(out, "{file}:{line}:{column} {of}.{name} = {}", member.number);
    }
    out.into_bytes()
}

pub fn json(file: &OsStr, text: &[u8], members: &[EnumNumber]) -> Vec<u8> {
    let members = members.iter().map(|member| {
        let [_, _, _, offset, line, column, end_offset, end_line, end_column, _] = member.member_name;
        let [of, name] = [member.enum_name, member.member_name].map(|record| String::from_utf8_lossy(over(text, &record)));
        let object = Object::new().text("enum", &of).text("name", &name).signed("number", member.number.into());
        object.object("start", place(offset, line, column)).object("end", place(end_offset, end_line, end_column))
    });
    report::named(file, "fine").objects("members", members).line()
}
